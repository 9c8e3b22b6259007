//! Safe Rust over `libtribes.a`: a server's end and a client's end of a connection, as two types, so that a call for the other end
//! is a compile error. `tribes.h`, beside this file, says what each call does and when it refuses.
//!
//! What the library tests is not tested again here. What it can't test, that a pointer points to as many items as said, is what the
//! types of Rust promise. An end is freed when it is let go.
#![allow(dead_code)]

use core::ffi::c_void;
use core::fmt;

/// The version of the interface; `library_version` tells the library's.
pub const VERSION: u32 = 2;
/// No datagram is longer.
pub const MAX_DATAGRAM: usize = 1_200;
/// Bytes of an event at the most.
pub const MAX_EVENT: usize = 24;
/// Bytes of a block at the most.
pub const MAX_BLOCK: usize = 40;
const MAX_FIELDS: usize = 16;
/// Bytes of a short event of a channel at the most.
pub const MAX_SHORT: usize = 23;
/// Bytes of a message of a channel at the most.
pub const MAX_MESSAGE: usize = 65_535;
/// Bytes of a token of who joins at the most.
pub const MAX_TOKEN: usize = 256;
/// Bytes of a tag at the most.
pub const LONGEST_TAG: usize = 16;
/// Bits of a move at the most.
pub const MAX_MOVE_BITS: usize = 64;
const MAX_MOVES: usize = 32;
const MAX_ASKS: usize = 2_048;
const MAX_JUDGED: usize = 32;
const MAX_CHANGES: usize = 128;
const BAD_VALUES: i32 = -11;
const BAD_WIDTHS: i32 = -13;
const MOVE_TOO_WIDE: i32 = -74;

/// The client's number, 0 to 15; the life of each counter; the bytes of a datagram at the most; the version of the datagrams, 1 to 3; the
/// bits of a move, 1 to 64, which in versions 1 and 2 are 10, and 0 stands for these.
#[repr(C)]
#[derive(Clone, Copy, Debug)]
pub struct Config {
    pub client: u32,
    pub life: u32,
    pub size: u32,
    pub version: u32,
    pub move_bits: u32,
}

/// A field holds `lo` to `hi` and travels in `bits`.
#[repr(C)]
#[derive(Clone, Copy, Debug)]
pub struct Field {
    pub lo: i64,
    pub hi: i64,
    pub bits: u32,
}

/// A kind: how many of the fields are its own, and how much its objects weigh in a packet's order.
#[repr(C)]
#[derive(Clone, Copy, Debug)]
pub struct Kind {
    pub fields: u32,
    pub weight: u8,
}

/// An object that comes into scope, at a level of distance of 0 to 3.
#[repr(C)]
#[derive(Clone, Copy, Debug, Default)]
pub struct Object {
    pub kind: u32,
    pub block: u32,
    pub level: u32,
    /// Not 0: it is the client's own.
    pub control: u32,
}

/// A move of version 1 of this library: steps of -8 to 7, and whether the player fires and uses.
#[repr(C)]
#[derive(Clone, Copy, Debug, Default, PartialEq, Eq)]
pub struct Step {
    pub dx: i32,
    pub dy: i32,
    pub fire: u32,
    pub act: u32,
}

impl Step {
    /// Its ten bits. Of a step out of its range it is a number that `sample` refuses.
    pub fn bits(self) -> u64 {
        let Step { dx, dy, fire, act } = self;
        let range = -8..8;
        if !range.contains(&dx) || !range.contains(&dy) {
            return u64::MAX;
        }
        (dx + 8) as u64 | ((dy + 8) as u64) << 4 | u64::from(fire != 0) << 8 | u64::from(act != 0) << 9
    }

    /// The step of a move of ten bits.
    pub fn of(bits: u64) -> Step {
        let part = |at: u32, below: u64| (bits >> at & below) as u32;
        Step { dx: part(0, 15) as i32 - 8, dy: part(4, 15) as i32 - 8, fire: part(8, 1), act: part(9, 1) }
    }
}

/// Fields side by side as one number, the first in its lowest bits, of these widths, which are 64 bits at most. A value that has more bits
/// than its field is refused, and `first` of the refusal is its place.
pub fn put_bits<const N: usize>(widths: &[u32; N], values: &[u64; N]) -> Result<u64, Error> {
    let (mut bits, mut at) = (0, 0);
    for (k, (&width, &value)) in widths.iter().zip(values).enumerate() {
        if width > 64 - at {
            return Err(Error { code: BAD_WIDTHS, first: k as u32, second: width });
        }
        if width < 64 && value >> width != 0 {
            return Err(Error { code: BAD_VALUES, first: k as u32, second: width });
        }
        bits |= value.checked_shl(at).unwrap_or(0);
        at += width;
    }
    Ok(bits)
}

/// The fields of these widths in a number, which has no bit above them.
pub fn take_bits<const N: usize>(widths: &[u32; N], bits: u64) -> Result<[u64; N], Error> {
    let (mut values, mut rest, mut all) = ([0; N], bits, 0);
    for (k, (value, &width)) in values.iter_mut().zip(widths).enumerate() {
        if width > 64 - all {
            return Err(Error { code: BAD_WIDTHS, first: k as u32, second: width });
        }
        let later = rest.checked_shr(width).unwrap_or(0);
        *value = rest ^ later.checked_shl(width).unwrap_or(0);
        (rest, all) = (later, all + width);
    }
    if rest == 0 { Ok(values) } else { Err(Error { code: MOVE_TOO_WIDE, first: all, second: 0 }) }
}

/// What an end counted, and the places that it has free.
#[repr(C)]
#[derive(Clone, Copy, Debug, Default)]
pub struct Counts {
    pub sent: u32,
    pub unjudged: u32,
    pub taken: u32,
    pub delivered: u32,
    pub waiting: u32,
    pub moves: u32,
    pub accepted: u32,
    pub event_places: u32,
    pub loose_places: u32,
    pub move_places: u32,
}

/// What became of a data packet that was sent: `received` is 1 where the other end processed it, else 0.
#[repr(C)]
#[derive(Clone, Copy, Debug, Default)]
pub struct Judged {
    pub number: u32,
    pub received: u32,
}

/// What a datagram did to a slot: 0 its copy is gone, 1 it is new, 2 the fields of these bits have new values.
#[repr(C)]
#[derive(Clone, Copy, Debug, Default)]
pub struct Change {
    pub slot: u32,
    pub what: u32,
    pub fields: u32,
}

/// An event that came.
#[derive(Clone, Debug, Default, PartialEq, Eq)]
pub struct Event {
    pub bytes: Vec<u8>,
    pub guaranteed: bool,
}

/// Pieces of a channel that wait to be posted, and how many more may.
#[repr(C)]
#[derive(Clone, Copy, Debug, Default, PartialEq, Eq)]
pub struct Places {
    pub held: u32,
    pub free: u32,
}

/// A parcel is a short event of at most `MAX_SHORT` bytes, or a message.
#[derive(Clone, Copy, Debug, PartialEq, Eq)]
pub enum Parcel {
    ShortEvent,
    Message,
}

/// A copy: the object's kind and block, and the values of its fields.
#[derive(Clone, Debug, Default)]
pub struct Copy {
    pub kind: u32,
    pub block: u32,
    pub values: Vec<i64>,
}

/// A refusal: its code, and up to two numbers that it names. Whatever was refused changed nothing.
#[repr(C)]
#[derive(Clone, Copy, Debug, Default, PartialEq, Eq)]
pub struct Error {
    pub code: i32,
    pub first: u32,
    pub second: u32,
}

impl fmt::Display for Error {
    fn fmt(&self, f: &mut fmt::Formatter<'_>) -> fmt::Result {
        write!(f, "{} ({} {} {})", words(self.code), self.code, self.first, self.second)
    }
}

impl std::error::Error for Error {}

/// What each code says.
pub fn words(code: i32) -> &'static str {
    match code {
        -1 => "no end is behind the handle",
        -2 => "an end is behind the handle already",
        -3 => "memory was not to be had",
        -4 => "the call is for the other end",
        -5 => "the client's number is above 15",
        -16 => "the life is 0 or above 16,777,215",
        -17 => "the size is above 1,200, or below 128 or what 32 moves and an event need",
        -18 => "the version is none of 1 to 3",
        -19 => "a move's bits are none of 1 to 64, or not the 10 of versions 1 and 2",
        -6 => "the kinds have not as many fields as there are",
        -7 => "the blocks are too many, too long, or not as long as said",
        -20 => "more than 16 kinds",
        -21 => "no kind",
        -22 => "a kind has more than 16 fields",
        -23 => "a kind has no field",
        -24 => "a field's range or bits are none",
        -25 => "a kind has more than 192 bits",
        -8 => "too many bytes",
        -9 => "the buffer is too small",
        -10 => "nothing is planned, or something changed since",
        -11 => "not the values that were asked for, or one is out of its range",
        -12 => "events wait to be popped first",
        -13 => "the fields have more than 64 bits",
        -14 => "the slot is empty",
        -15 => "a null pointer",
        -30 => "no kind of this number",
        -31 => "no block of this number",
        -32 => "the level is above 3",
        -33 => "1,024 objects are shown",
        -34 => "no further period has a number",
        -35 => "another object has control",
        -36 => "no such period is shown",
        -37 => "no such field",
        -40 => "the datagram ends too soon",
        -41 => "the datagram ends too late",
        -42 => "the datagram is neither data nor ping",
        -43 => "a ghost is none of kill, create and update",
        -44 => "a count is too great",
        -45 => "a length is too great",
        -46 => "a ghost of no kind",
        -47 => "an update of no field",
        -48 => "a datagram of number 0",
        -49 => "an update of a slot that held nothing",
        -50 => "another client's datagram",
        -51 => "a repeated or late datagram",
        -52 => "it acknowledges what was never sent",
        -53 => "moves are missing",
        -54 => "more moves than were sampled",
        -55 => "a block with other bytes",
        -56 => "an event too far ahead",
        -60 => "a slot is named twice",
        -61 => "a ghost without a copy",
        -62 => "a create on a copy",
        -63 => "an update of another kind",
        -64 => "a create without its block",
        -70 => "no further event has a number",
        -71 => "256 events are unacknowledged",
        -72 => "no further move has a number",
        -73 => "32 moves are unacknowledged",
        -74 => "a move has a bit above those that are written",
        -75 => "more pieces than places are free",
        -76 => "the longest message is none of 23 to 65,535 bytes",
        -77 => "no channel is behind the handle",
        -78 => "a channel is behind the handle already",
        -80 => "a piece without a byte",
        -81 => "a piece of no form",
        -82 => "a piece of no message",
        -83 => "a message that begins before the last one ended",
        -84 => "a message in pieces that fits one",
        -85 => "a piece with too many bytes",
        -86 => "a piece with too few bytes",
        -87 => "a message that is longer than the channel's longest",
        -90 => "no timeline is behind the handle",
        -91 => "a timeline is behind the handle already",
        -92 => "a timeline's slots, fields or depth are none",
        -93 => "a field can't go so",
        -94 => "the timeline has no slot of this number",
        -95 => "no packet has this number",
        -96 => "a packet of a higher number told before",
        -97 => "no clock has these numbers",
        -98 => "a packet takes no time",
        -99 => "the time is too great",
        -100 => "a later time was told before",
        -101 => "a packet of this or a higher number came before",
        -102 => "no offset has these numbers",
        -103 => "no door is behind the handle",
        -104 => "a door is behind the handle already",
        -105 => "nobody asks for a client",
        -106 => "the door has no seat of this number",
        -107 => "the seat is somebody's",
        -108 => "no client that greets has these numbers",
        -109 => "the token has more than 256 bytes",
        -110 => "no key has these numbers",
        -111 => "the datagram has fewer bytes than a tag",
        -112 => "the tag is another datagram's, or nobody's",
        -113 => "more goodbyes than there are",
        -114 => "no quality of a link is behind the handle",
        -115 => "a quality of a link is behind the handle already",
        -116 => "64 packets wait for their verdicts",
        -117 => "no packet waits for its verdict",
        -118 => "a time of a later second was told before",
        -119 => "no rate has these numbers",
        -120 => "the least rate is 0, or above the most",
        0.. => "done",
        _ => "unknown",
    }
}

#[repr(C)]
struct Handle {
    state: u32,
    at: *mut c_void,
}

#[repr(C)]
struct ChannelHandle {
    state: u32,
    at: *mut c_void,
}

#[repr(C)]
#[derive(Clone, Copy, Default)]
struct Ask {
    n: u32,
    field: u32,
}

#[repr(C)]
#[derive(Clone, Copy, Default)]
struct Copied {
    kind: u32,
    block: u32,
    fields: u32,
}

/// How large a timeline is: slots, 1 to 256; fields of a copy that are kept, 1 to 16; values of each field that are, 1 to 64, and 0 stands for 8.
#[repr(C)]
#[derive(Clone, Copy, Debug)]
pub struct Shape {
    pub slots: u32,
    pub fields: u32,
    pub depth: u32,
}

/// How a field goes from one value to the next: 0 stepped, 1 linear, 2 turning from `least` to `most`.
#[repr(C)]
#[derive(Clone, Copy, Debug, Default)]
pub struct Way {
    pub how: u32,
    pub least: i32,
    pub most: i32,
}

impl Way {
    pub const STEPPED: Way = Way { how: 0, least: 0, most: 0 };
    pub const LINEAR: Way = Way { how: 1, least: 0, most: 0 };

    /// The short way round the circle of these values.
    pub const fn turning(least: i32, most: i32) -> Way {
        Way { how: 2, least, most }
    }
}

/// How a clock goes: milliseconds from one packet of the server to the next; packets that what is drawn lies behind the last one that came; and
/// packets that it may be ahead of that one.
#[repr(C)]
#[derive(Clone, Copy, Debug)]
pub struct Pace {
    pub period: u32,
    pub delay: u16,
    pub ahead: u16,
}

/// Which moment is drawn.
#[repr(C)]
#[derive(Clone, Copy, Debug)]
pub struct Clock {
    pace: Pace,
    start: u64,
    newest: u32,
    came: u64,
    read: u64,
    position: u64,
}

/// What hides corrections of one field: at most so much either way, and what is left of it.
#[repr(C)]
#[derive(Clone, Copy, Debug, Default)]
pub struct Offset {
    most: u32,
    left: i64,
}

#[repr(C)]
struct TimelineHandle {
    state: u32,
    at: *mut c_void,
}

/// A protocol number.
#[repr(C)]
#[derive(Clone, Copy, Debug, Default, PartialEq, Eq)]
pub struct Digest {
    pub bytes: [u8; 32],
}

/// A secret of a server, which nobody can guess.
#[repr(C)]
#[derive(Clone, Copy)]
pub struct Secret {
    pub bytes: [u8; 32],
}

/// An address of IPv6 and a port; one of IPv4 is written as IPv6 writes it.
#[repr(C)]
#[derive(Clone, Copy, Debug, PartialEq, Eq)]
pub struct Address {
    pub bytes: [u8; 16],
    pub port: u16,
}

#[repr(C)]
struct DoorHandle {
    state: u32,
    at: *mut c_void,
}

/// What a door is made with; `terms` go with each welcome, unread.
#[repr(C)]
#[derive(Clone, Copy)]
pub struct Terms {
    pub secret: [u8; 32],
    pub protocol: [u8; 32],
    pub terms: [u8; 32],
    pub seats: u32,
}

/// A datagram of joining that is to be sent; none where `count` is 0.
#[repr(C)]
#[derive(Clone, Copy, Debug)]
pub struct Greeting {
    count: u32,
    bytes: [u8; 290],
}

/// Sixteen bytes that nobody can guess, others each time.
#[repr(C)]
#[derive(Clone, Copy, Debug, Default, PartialEq, Eq)]
pub struct Nonce {
    pub low: u64,
    pub high: u64,
}

/// A client that joins.
#[repr(C)]
#[derive(Clone, Copy, Debug)]
pub struct Knock {
    nonce: Nonce,
    protocol: [u8; 32],
    reached: u32,
    number: Nonce,
    client: u32,
    terms: [u8; 32],
    reason: u8,
}

/// A key of one end: the same 32 bytes at both, which nobody else has. Without one no datagram has a tag.
#[repr(C)]
#[derive(Clone, Copy)]
pub struct Key {
    key: [u8; 32],
    tag_bytes: u32,
    side: u32,
    refused: u64,
}

/// Whether the other end is there.
#[repr(C)]
#[derive(Clone, Copy, Debug)]
pub struct Presence {
    limit: u64,
    last: u64,
    ended: u32,
    leaving: u32,
    said: u32,
}

#[repr(C)]
struct QualityHandle {
    state: u32,
    at: *mut c_void,
}

/// The smoothed round trip, where `known` is not 0: in eighths of a millisecond, and what single ones differ by in quarters. And how many of the
/// last 64 data packets were lost.
#[repr(C)]
#[derive(Clone, Copy, Debug, Default, PartialEq, Eq)]
pub struct Trip {
    pub known: u32,
    pub lost: u64,
    pub eighths: u64,
    pub quarters: u64,
}

/// What went one way in a second.
#[repr(C)]
#[derive(Clone, Copy, Debug, Default, PartialEq, Eq)]
pub struct Traffic {
    pub datagrams: u32,
    pub bytes: u32,
}

/// What goes one way.
#[repr(C)]
#[derive(Clone, Copy, Debug, Default)]
pub struct Meter {
    second: u64,
    current: Traffic,
    before: Traffic,
}

/// Of a rate, in bytes a second: the least, not 0; the most; what each packet that came raises it by; and the bytes that may be saved up.
#[repr(C)]
#[derive(Clone, Copy, Debug)]
pub struct Bounds {
    pub least: u32,
    pub most: u32,
    pub step: u32,
    pub burst: u32,
}

/// How much a link may carry.
#[repr(C)]
#[derive(Clone, Copy, Debug)]
pub struct Rate {
    bounds: Bounds,
    start: u64,
    rate: u32,
    saved: u64,
    last: u64,
    eased: u64,
}

#[rustfmt::skip]
unsafe extern "C" {
    fn tribes_server(
        end: *mut Handle, config: *const Config, kinds: *const Kind, kind_count: usize, fields: *const Field, field_count: usize,
        bytes: *const u8, byte_count: usize, lengths: *const u32, block_count: usize, error: *mut Error,
    ) -> i32;
    fn tribes_client(
        end: *mut Handle, config: *const Config, kinds: *const Kind, kind_count: usize, fields: *const Field, field_count: usize,
        error: *mut Error,
    ) -> i32;
    fn tribes_free(end: *mut Handle) -> i32;
    fn tribes_why(end: *mut Handle, error: *mut Error) -> i32;
    fn tribes_version() -> u32;
    fn tribes_show(end: *mut Handle, object: *const Object, n: *mut u32) -> i32;
    fn tribes_hide(end: *mut Handle, n: u32) -> i32;
    fn tribes_near(end: *mut Handle, n: u32, level: u32) -> i32;
    fn tribes_changed(end: *mut Handle, n: u32, bits: u32) -> i32;
    fn tribes_settled(end: *mut Handle, n: u32, field: u32) -> i32;
    fn tribes_slot(end: *mut Handle, n: u32, slot: *mut u32) -> i32;
    fn tribes_plan(end: *mut Handle, asks: *mut Ask, room: usize, count: *mut usize) -> i32;
    fn tribes_pack(end: *mut Handle, values: *const i64, value_count: usize, bytes: *mut u8, room: usize, count: *mut usize) -> i32;
    fn tribes_arrive(end: *mut Handle, bytes: *const u8, count: usize, room: u32, moves: *mut u32) -> i32;
    fn tribes_post(end: *mut Handle, bytes: *const u8, count: usize, guaranteed: u32, number: *mut u32) -> i32;
    fn tribes_event(end: *mut Handle, bytes: *mut u8, room: usize, count: *mut usize) -> i32;
    fn tribes_channel_open(channel: *mut ChannelHandle, places: u32, longest: u32, error: *mut Error) -> i32;
    fn tribes_channel_free(channel: *mut ChannelHandle) -> i32;
    fn tribes_post_message(
        end: *mut Handle, channel: *mut ChannelHandle, kind: u32, bytes: *const u8, count: usize, guaranteed: u32,
    ) -> i32;
    fn tribes_message(
        end: *mut Handle, channel: *mut ChannelHandle, bytes: *mut u8, room: usize, kind: *mut u32, count: *mut usize,
    ) -> i32;
    fn tribes_channel_counts(channel: *mut ChannelHandle, places: *mut Places) -> i32;
    fn tribes_channel_why(channel: *mut ChannelHandle, error: *mut Error) -> i32;
    fn tribes_sample(end: *mut Handle, bits: u64, number: *mut u32) -> i32;
    fn tribes_moves(end: *mut Handle, moves: *mut u64, room: usize, count: *mut u32) -> i32;
    fn tribes_pending(end: *mut Handle, moves: *mut u64, room: usize, count: *mut u32) -> i32;
    fn tribes_block(end: *mut Handle, number: u32, bytes: *mut u8, room: usize, count: *mut usize) -> i32;
    fn tribes_counts(end: *mut Handle, counts: *mut Counts) -> i32;
    fn tribes_verdicts(end: *mut Handle, judged: *mut Judged, room: usize, count: *mut u32) -> i32;
    fn tribes_copy(end: *mut Handle, slot: u32, copied: *mut Copied, values: *mut i64, room: usize) -> i32;
    fn tribes_next_copy(end: *mut Handle, from: u32, slot: *mut u32) -> i32;
    fn tribes_changes(end: *mut Handle, changes: *mut Change, room: usize, count: *mut u32) -> i32;
    fn tribes_control(end: *mut Handle, slot: *mut u32) -> i32;
    fn tribes_timeline_open(timeline: *mut TimelineHandle, shape: *const Shape, ways: *const Way, way_count: usize) -> i32;
    fn tribes_timeline_free(timeline: *mut TimelineHandle) -> i32;
    fn tribes_timeline_take(timeline: *mut TimelineHandle, end: *mut Handle) -> i32;
    fn tribes_timeline_began(timeline: *mut TimelineHandle, slot: u32, packet: u32, kind: u32) -> i32;
    fn tribes_timeline_came(timeline: *mut TimelineHandle, slot: u32, packet: u32, field: u32, value: i32) -> i32;
    fn tribes_timeline_ended(timeline: *mut TimelineHandle, slot: u32, packet: u32) -> i32;
    fn tribes_timeline_value(timeline: *mut TimelineHandle, slot: u32, field: u32, at: u64, value: *mut i64) -> i32;
    fn tribes_timeline_kind(timeline: *mut TimelineHandle, slot: u32, at: u64, kind: *mut u32) -> i32;
    fn tribes_clock_start(clock: *mut Clock, pace: *const Pace, now: u64) -> i32;
    fn tribes_clock_came(clock: *mut Clock, packet: u32, now: u64) -> i32;
    fn tribes_clock_moment(clock: *mut Clock, now: u64, at: *mut u64) -> i32;
    fn tribes_offset_corrected(offset: *mut Offset, was: i32, is: i32) -> i32;
    fn tribes_offset_faded(offset: *mut Offset) -> i32;
    fn tribes_offset_value(offset: *const Offset, value: *mut i64) -> i32;
    fn tribes_protocol(
        config: *const Config, kinds: *const Kind, kind_count: usize, fields: *const Field, field_count: usize,
        word: *const u8, word_count: usize, number: *mut Digest, reason: *mut Error,
    ) -> i32;
    fn tribes_door_open(door: *mut DoorHandle, terms: *const Terms) -> i32;
    fn tribes_door_free(door: *mut DoorHandle) -> i32;
    fn tribes_door_hear(
        door: *mut DoorHandle, from: *const Address, bytes: *const u8, count: usize, reply: *mut Greeting, number: *mut u32,
    ) -> i32;
    fn tribes_door_accept(door: *mut DoorHandle, client: u32, reply: *mut Greeting) -> i32;
    fn tribes_door_refuse(door: *mut DoorHandle, reply: *mut Greeting) -> i32;
    fn tribes_door_leave(door: *mut DoorHandle, client: u32) -> i32;
    fn tribes_door_renew(door: *mut DoorHandle, secret: *const Secret) -> i32;
    fn tribes_knock_write(knock: *const Knock, token: *const u8, count: usize, datagram: *mut Greeting) -> i32;
    fn tribes_knock_hear(knock: *mut Knock, bytes: *const u8, count: usize) -> i32;
    fn tribes_tag(key: *const Key, number: u64, place: *mut u8, room: usize, count: usize, total: *mut usize) -> i32;
    fn tribes_verify(key: *mut Key, number: u64, bytes: *const u8, length: usize, count: *mut usize) -> i32;
    fn tribes_presence_start(presence: *mut Presence, limit: u64, now: u64) -> i32;
    fn tribes_presence_came(presence: *mut Presence, bytes: *const u8, count: usize, now: u64, reason: *mut u32) -> i32;
    fn tribes_presence_leave(presence: *mut Presence, reason: u16) -> i32;
    fn tribes_presence_say(presence: *mut Presence, datagram: *mut Greeting) -> i32;
    fn tribes_presence_alive(presence: *const Presence, now: u64) -> i32;
    fn tribes_quality_open(quality: *mut QualityHandle) -> i32;
    fn tribes_quality_free(quality: *mut QualityHandle) -> i32;
    fn tribes_quality_sent(quality: *mut QualityHandle, now: u64) -> i32;
    fn tribes_quality_judged(quality: *mut QualityHandle, received: u32, now: u64) -> i32;
    fn tribes_quality_told(quality: *mut QualityHandle, trip: *mut Trip) -> i32;
    fn tribes_meter_went(meter: *mut Meter, bytes: u32, now: u64) -> i32;
    fn tribes_meter_told(meter: *const Meter, now: u64, traffic: *mut Traffic) -> i32;
    fn tribes_rate_start(rate: *mut Rate, bounds: *const Bounds, now: u64) -> i32;
    fn tribes_rate_came(rate: *mut Rate, now: u64) -> i32;
    fn tribes_rate_lost(rate: *mut Rate, round_trip: u64, now: u64) -> i32;
    fn tribes_rate_went(rate: *mut Rate, bytes: u32, now: u64) -> i32;
    fn tribes_rate_allowed(rate: *const Rate, now: u64, bytes: *mut u32) -> i32;
    fn tribes_rate_wait(rate: *const Rate, bytes: u32, now: u64, wait: *mut u64) -> i32;
}

/// The version of the interface that the library has: it fits where this is `VERSION`.
pub fn library_version() -> u32 {
    // SAFETY: it takes nothing.
    unsafe { tribes_version() }
}

// SAFETY, of each call below: the handle and what answers are borrowed for the call, a pointer and its count are those of one slice,
// and the handle is never copied.
impl Handle {
    const NONE: Handle = Handle { state: 0, at: core::ptr::null_mut() };

    fn told(&mut self, code: i32) -> Result<i32, Error> {
        if code >= 0 {
            return Ok(code);
        }
        let mut error = Error::default();
        let _ = unsafe { tribes_why(self, &mut error) };
        Err(error)
    }

    fn pack<'a>(&mut self, values: &[i64], place: &'a mut [u8]) -> Result<Option<&'a [u8]>, Error> {
        let mut count = 0;
        let code = unsafe { tribes_pack(self, values.as_ptr(), values.len(), place.as_mut_ptr(), place.len(), &mut count) };
        Ok((self.told(code)? > 0).then(|| &place[..count]))
    }

    fn arrive(&mut self, bytes: &[u8], room: u32) -> Result<u32, Error> {
        let mut moves = 0;
        let code = unsafe { tribes_arrive(self, bytes.as_ptr(), bytes.len(), room, &mut moves) };
        self.told(code).map(|_| moves)
    }
}

impl Drop for Handle {
    fn drop(&mut self) {
        let _ = unsafe { tribes_free(self) };
    }
}

/// Messages of any length over one end, and short events in one order with them.
///
/// It goes with one end, from its first event on: the guaranteed events of that end are its pieces.
pub struct Channel(ChannelHandle);

// SAFETY: what is behind it has no thread of its own, and `&mut` gives it to one call at a time.
unsafe impl Send for Channel {}

impl Channel {
    /// It holds so many pieces of 24 bytes that are still to be posted, for messages that come with at most `longest` bytes.
    pub fn new(places: u32, longest: u32) -> Result<Channel, Error> {
        let mut channel = Channel(ChannelHandle { state: 0, at: core::ptr::null_mut() });
        let mut error = Error::default();
        let code = unsafe { tribes_channel_open(&mut channel.0, places, longest, &mut error) };
        if code < 0 { Err(error) } else { Ok(channel) }
    }

    fn told(&mut self, code: i32) -> Result<i32, Error> {
        if code >= 0 {
            return Ok(code);
        }
        let mut error = Error::default();
        let _ = unsafe { tribes_channel_why(&mut self.0, &mut error) };
        Err(error)
    }

    pub fn places(&mut self) -> Places {
        let mut places = Places::default();
        let _ = unsafe { tribes_channel_counts(&mut self.0, &mut places) };
        places
    }
}

impl Drop for Channel {
    fn drop(&mut self) {
        let _ = unsafe { tribes_channel_free(&mut self.0) };
    }
}

/// What both ends have.
macro_rules! both {
    ($end:ident) => {
        // SAFETY: the library proves its ends sendable, and `&mut` gives one to one call at a time.
        unsafe impl Send for $end {}

        impl $end {
            /// Posts an event, and gives its number where it is guaranteed.
            pub fn post(&mut self, bytes: &[u8], guaranteed: bool) -> Result<u32, Error> {
                let mut number = 0;
                let code = unsafe { tribes_post(&mut self.0, bytes.as_ptr(), bytes.len(), guaranteed as u32, &mut number) };
                self.0.told(code).map(|_| number)
            }

            /// The oldest event that waits, and whether it is a guaranteed one. `place` has room for `MAX_EVENT` bytes.
            pub fn event<'a>(&mut self, place: &'a mut [u8]) -> Result<Option<(&'a [u8], bool)>, Error> {
                let mut count = 0;
                let code = unsafe { tribes_event(&mut self.0, place.as_mut_ptr(), place.len(), &mut count) };
                let code = self.0.told(code)?;
                Ok((code > 0).then(|| (&place[..count], code == 2)))
            }

            /// The events that wait, the oldest first. Each is taken as it is asked for.
            pub fn events(&mut self) -> impl Iterator<Item = Event> + '_ {
                std::iter::from_fn(move || {
                    let mut place = [0; MAX_EVENT];
                    let (bytes, guaranteed) = self.event(&mut place).ok().flatten()?;
                    Some(Event { bytes: bytes.to_vec(), guaranteed })
                })
            }

            /// Posts a message or a short event whole or not at all; an unguaranteed one has at most `MAX_SHORT` bytes.
            pub fn post_message(&mut self, channel: &mut Channel, parcel: Parcel, bytes: &[u8], guaranteed: bool) -> Result<(), Error> {
                let kind = (parcel == Parcel::Message) as u32;
                let (to, count) = (&mut channel.0, bytes.len());
                let code = unsafe { tribes_post_message(&mut self.0, to, kind, bytes.as_ptr(), count, guaranteed as u32) };
                channel.told(code).map(|_| ())
            }

            /// The oldest parcel that is whole, and whether it is a guaranteed one. `place` has room for the channel's longest message.
            pub fn message<'a>(&mut self, channel: &mut Channel, place: &'a mut [u8]) -> Result<Option<(Parcel, &'a [u8], bool)>, Error> {
                let (mut kind, mut count) = (0, 0);
                let to = &mut channel.0;
                let code = unsafe { tribes_message(&mut self.0, to, place.as_mut_ptr(), place.len(), &mut kind, &mut count) };
                let code = channel.told(code)?;
                let parcel = if kind == 0 { Parcel::ShortEvent } else { Parcel::Message };
                Ok((code > 0).then(|| (parcel, &place[..count], code == 2)))
            }

            /// The bytes of a block: at the server of its own, at the client of one that came.
            pub fn block(&mut self, number: u32) -> Result<Vec<u8>, Error> {
                let (mut place, mut count) = ([0; MAX_BLOCK], 0);
                let code = unsafe { tribes_block(&mut self.0, number, place.as_mut_ptr(), place.len(), &mut count) };
                self.0.told(code).map(|_| place[..count].to_vec())
            }

            pub fn counts(&mut self) -> Counts {
                let mut counts = Counts::default();
                let _ = unsafe { tribes_counts(&mut self.0, &mut counts) };
                counts
            }

            /// What became of the data packets that the last datagram judged.
            pub fn verdicts(&mut self) -> Vec<Judged> {
                let (mut judged, mut count) = ([Judged::default(); MAX_JUDGED], 0);
                let _ = unsafe { tribes_verdicts(&mut self.0, judged.as_mut_ptr(), judged.len(), &mut count) };
                judged[..count as usize].to_vec()
            }
        }
    };
}

both!(Server);
both!(Client);

/// The server's end of the connection to one client.
pub struct Server(Handle);

impl Server {
    pub fn new(config: &Config, kinds: &[Kind], fields: &[Field], blocks: &[&[u8]]) -> Result<Server, Error> {
        let (bytes, lengths) = (blocks.concat(), blocks.iter().map(|block| block.len() as u32).collect::<Vec<_>>());
        let (mut end, mut error) = (Handle::NONE, Error::default());
        let code = unsafe {
            tribes_server(
                &mut end, config, kinds.as_ptr(), kinds.len(), fields.as_ptr(), fields.len(),
                bytes.as_ptr(), bytes.len(), lengths.as_ptr(), lengths.len(), &mut error,
            )
        };
        if code < 0 { Err(error) } else { Ok(Server(end)) }
    }

    /// Shows an object, and gives the number of its period.
    pub fn show(&mut self, object: &Object) -> Result<u32, Error> {
        let mut n = 0;
        let code = unsafe { tribes_show(&mut self.0, object, &mut n) };
        self.0.told(code).map(|_| n)
    }

    pub fn hide(&mut self, n: u32) -> Result<(), Error> {
        let code = unsafe { tribes_hide(&mut self.0, n) };
        self.0.told(code).map(|_| ())
    }

    pub fn near(&mut self, n: u32, level: u32) -> Result<(), Error> {
        let code = unsafe { tribes_near(&mut self.0, n, level) };
        self.0.told(code).map(|_| ())
    }

    /// Notes that fields have new values: bit f for field f.
    pub fn changed(&mut self, n: u32, bits: u32) -> Result<(), Error> {
        let code = unsafe { tribes_changed(&mut self.0, n, bits) };
        self.0.told(code).map(|_| ())
    }

    /// Whether the client has the newest value of a field that was noted as changed.
    pub fn settled(&mut self, n: u32, field: u32) -> Result<bool, Error> {
        let code = unsafe { tribes_settled(&mut self.0, n, field) };
        Ok(self.0.told(code)? == 1)
    }

    pub fn slot(&mut self, n: u32) -> Result<Option<u32>, Error> {
        let mut slot = 0;
        let code = unsafe { tribes_slot(&mut self.0, n, &mut slot) };
        Ok((self.0.told(code)? == 1).then_some(slot))
    }

    /// The next datagram, with the values that it asks for: of a field of a period. None where the connection is worn.
    pub fn pack<'a>(&mut self, place: &'a mut [u8], mut value: impl FnMut(u32, u32) -> i64) -> Result<Option<&'a [u8]>, Error> {
        let (mut asks, mut count) = ([Ask::default(); MAX_ASKS], 0);
        let code = unsafe { tribes_plan(&mut self.0, asks.as_mut_ptr(), asks.len(), &mut count) };
        self.0.told(code)?;
        let values: Vec<i64> = asks[..count].iter().map(|ask| value(ask.n, ask.field)).collect();
        self.0.pack(&values, place)
    }

    /// Takes a datagram, where so many further moves have a place; gives how many it brought.
    pub fn arrive(&mut self, bytes: &[u8], room: u32) -> Result<u32, Error> {
        self.0.arrive(bytes, room)
    }

    /// The moves that the last datagram brought.
    pub fn moves(&mut self) -> Vec<u64> {
        let (mut moves, mut count) = ([0; MAX_MOVES], 0);
        let _ = unsafe { tribes_moves(&mut self.0, moves.as_mut_ptr(), moves.len(), &mut count) };
        moves[..count as usize].to_vec()
    }
}

/// A client's end of its connection.
pub struct Client(Handle);

impl Client {
    pub fn new(config: &Config, kinds: &[Kind], fields: &[Field]) -> Result<Client, Error> {
        let (mut end, mut error) = (Handle::NONE, Error::default());
        let code = unsafe {
            tribes_client(&mut end, config, kinds.as_ptr(), kinds.len(), fields.as_ptr(), fields.len(), &mut error)
        };
        if code < 0 { Err(error) } else { Ok(Client(end)) }
    }

    /// The next datagram; None where the connection is worn.
    pub fn pack<'a>(&mut self, place: &'a mut [u8]) -> Result<Option<&'a [u8]>, Error> {
        self.0.pack(&[], place)
    }

    pub fn arrive(&mut self, bytes: &[u8]) -> Result<(), Error> {
        self.0.arrive(bytes, 0).map(|_| ())
    }

    /// Takes up a move, and gives its number.
    pub fn sample(&mut self, bits: u64) -> Result<u32, Error> {
        let mut number = 0;
        let code = unsafe { tribes_sample(&mut self.0, bits, &mut number) };
        self.0.told(code).map(|_| number)
    }

    /// The moves that the server isn't known to have, the oldest first: from number `accepted` of the counts on.
    pub fn pending(&mut self) -> Vec<u64> {
        let (mut moves, mut count) = ([0; MAX_MOVES], 0);
        let _ = unsafe { tribes_pending(&mut self.0, moves.as_mut_ptr(), moves.len(), &mut count) };
        moves[..count as usize].to_vec()
    }

    /// The slot of the client's own object.
    pub fn control(&mut self) -> Option<u32> {
        let mut slot = 0;
        let code = unsafe { tribes_control(&mut self.0, &mut slot) };
        (code == 1).then_some(slot)
    }

    /// The copy in a slot.
    pub fn copy(&mut self, slot: u32) -> Option<Copy> {
        let (mut copied, mut values) = (Copied::default(), [0i64; MAX_FIELDS]);
        let code = unsafe { tribes_copy(&mut self.0, slot, &mut copied, values.as_mut_ptr(), values.len()) };
        (code == 0).then(|| Copy {
            kind: copied.kind,
            block: copied.block,
            values: values[..copied.fields as usize].to_vec(),
        })
    }

    /// The least slot from this one on that holds a copy.
    pub fn next_copy(&mut self, from: u32) -> Option<u32> {
        let mut slot = 0;
        let code = unsafe { tribes_next_copy(&mut self.0, from, &mut slot) };
        (code == 1).then_some(slot)
    }

    /// The copies with their slots, by rising slot.
    pub fn copies(&mut self) -> impl Iterator<Item = (u32, Copy)> + '_ {
        let mut from = 0;
        std::iter::from_fn(move || {
            let slot = self.next_copy(from)?;
            from = slot + 1;
            Some((slot, self.copy(slot)?))
        })
    }

    /// What the last datagram did to slots.
    pub fn changes(&mut self) -> Vec<Change> {
        let (mut changes, mut count) = ([Change::default(); MAX_CHANGES], 0);
        let _ = unsafe { tribes_changes(&mut self.0, changes.as_mut_ptr(), changes.len(), &mut count) };
        changes[..count as usize].to_vec()
    }
}

/// Moments to a packet: packet n has the moment `n * MOMENTS`.
pub const MOMENTS: u64 = 256;

/// The refusal of a call that tells no more than its code.
fn by_code(code: i32) -> Result<i32, Error> {
    if code < 0 { Err(Error { code, first: 0, second: 0 }) } else { Ok(code) }
}

/// What a client draws of the others: the last values that came, and between two of them a value for each moment.
pub struct Timeline(TimelineHandle);

// SAFETY: as of an end: `&mut` gives it to one call at a time.
unsafe impl Send for Timeline {}

// SAFETY, of each call: as of an end.
impl Timeline {
    /// `ways` has `shape.fields` rows for each kind.
    pub fn new(shape: Shape, ways: &[Way]) -> Result<Timeline, Error> {
        let mut made = TimelineHandle { state: 0, at: core::ptr::null_mut() };
        by_code(unsafe { tribes_timeline_open(&mut made, &shape, ways.as_ptr(), ways.len()) })?;
        Ok(Timeline(made))
    }

    /// Takes over what the packet that the client took last did to slots: once after each datagram that was taken.
    pub fn take(&mut self, client: &mut Client) -> Result<(), Error> {
        by_code(unsafe { tribes_timeline_take(&mut self.0, &mut client.0) }).map(|_| ())
    }

    /// A copy of this kind is in the slot from this packet on.
    pub fn began(&mut self, slot: u32, packet: u32, kind: u32) -> Result<(), Error> {
        by_code(unsafe { tribes_timeline_began(&mut self.0, slot, packet, kind) }).map(|_| ())
    }

    /// This packet brought a value of a field.
    pub fn came(&mut self, slot: u32, packet: u32, field: u32, value: i32) -> Result<(), Error> {
        by_code(unsafe { tribes_timeline_came(&mut self.0, slot, packet, field, value) }).map(|_| ())
    }

    /// The slot's copy is gone by this packet.
    pub fn ended(&mut self, slot: u32, packet: u32) -> Result<(), Error> {
        by_code(unsafe { tribes_timeline_ended(&mut self.0, slot, packet) }).map(|_| ())
    }

    /// The value of a field at a moment.
    pub fn value(&mut self, slot: u32, field: u32, at: u64) -> Result<Option<i64>, Error> {
        let mut value = 0;
        let code = by_code(unsafe { tribes_timeline_value(&mut self.0, slot, field, at, &mut value) })?;
        Ok((code == 1).then_some(value))
    }

    /// The kind of the copy that is drawn in the slot at a moment.
    pub fn kind(&mut self, slot: u32, at: u64) -> Result<Option<u32>, Error> {
        let mut kind = 0;
        let code = by_code(unsafe { tribes_timeline_kind(&mut self.0, slot, at, &mut kind) })?;
        Ok((code == 1).then_some(kind))
    }
}

impl Drop for Timeline {
    fn drop(&mut self) {
        let _ = unsafe { tribes_timeline_free(&mut self.0) };
    }
}

impl Clock {
    /// `now` are the caller's milliseconds, which never go back.
    pub fn new(pace: Pace, now: u64) -> Result<Clock, Error> {
        let mut clock = Clock { pace, start: 0, newest: 0, came: 0, read: 0, position: 0 };
        by_code(unsafe { tribes_clock_start(&mut clock, &pace, now) })?;
        Ok(clock)
    }

    /// A data packet came, which is newer than those before.
    pub fn came(&mut self, packet: u32, now: u64) -> Result<(), Error> {
        by_code(unsafe { tribes_clock_came(self, packet, now) }).map(|_| ())
    }

    /// The moment to draw.
    pub fn moment(&mut self, now: u64) -> Result<u64, Error> {
        let mut at = 0;
        by_code(unsafe { tribes_clock_moment(self, now, &mut at) })?;
        Ok(at)
    }
}

impl Offset {
    /// No offset, and none that will pass `most` either way, which is 16,777,215 at most.
    pub fn new(most: u32) -> Offset {
        Offset { most, left: 0 }
    }

    /// The value, which was predicted as `was`, is `is`: what is shown stays.
    pub fn corrected(&mut self, was: i32, is: i32) -> Result<(), Error> {
        by_code(unsafe { tribes_offset_corrected(self, was, is) }).map(|_| ())
    }

    /// A step passed: three quarters are left.
    pub fn faded(&mut self) -> Result<(), Error> {
        by_code(unsafe { tribes_offset_faded(self) }).map(|_| ())
    }

    /// What is to be added to the field's value where it is shown.
    pub fn value(&self) -> Result<i64, Error> {
        let mut value = 0;
        by_code(unsafe { tribes_offset_value(self, &mut value) })?;
        Ok(value)
    }
}

/// The number of what both ends must have alike: a configuration but for its client, the kinds, and a word of the game's own.
pub fn protocol(config: &Config, kinds: &[Kind], fields: &[Field], word: &[u8]) -> Result<Digest, Error> {
    let (mut number, mut error) = (Digest::default(), Error::default());
    let code = unsafe {
        tribes_protocol(
            config, kinds.as_ptr(), kinds.len(), fields.as_ptr(), fields.len(), word.as_ptr(), word.len(), &mut number, &mut error,
        )
    };
    if code < 0 { Err(error) } else { Ok(number) }
}

impl From<std::net::SocketAddr> for Address {
    fn from(at: std::net::SocketAddr) -> Address {
        let bytes = match at.ip() {
            std::net::IpAddr::V4(ip) => ip.to_ipv6_mapped().octets(),
            std::net::IpAddr::V6(ip) => ip.octets(),
        };
        Address { bytes, port: at.port() }
    }
}

impl Greeting {
    const NONE: Greeting = Greeting { count: 0, bytes: [0; 290] };

    /// The bytes that are to be sent.
    pub fn bytes(&self) -> &[u8] {
        &self.bytes[..self.count as usize]
    }
}

/// Why a client is not let in.
#[derive(Clone, Copy, Debug, PartialEq, Eq)]
pub enum Reason {
    OtherVersion,
    OtherProtocol,
    Full,
    TokenRefused,
}

impl Reason {
    fn of(number: u32) -> Reason {
        [Reason::OtherVersion, Reason::OtherProtocol, Reason::Full, Reason::TokenRefused][(number as usize).clamp(1, 4) - 1]
    }
}

/// What is done with a datagram of who has no seat.
#[derive(Clone, Copy, Debug, PartialEq, Eq)]
pub enum Heard {
    Dropped,
    Challenged,
    Refused(Reason),
    /// A right answer, whose bytes from 34 on are the game's token: the game accepts or refuses.
    Asks,
    /// That of who has this seat, which is told so again.
    Again(u32),
}

/// Who joins: the server's side.
pub struct Door(DoorHandle);

// SAFETY: as of an end.
unsafe impl Send for Door {}

// SAFETY, of each call: as of an end.
impl Door {
    pub fn new(terms: &Terms) -> Result<Door, Error> {
        let mut made = DoorHandle { state: 0, at: core::ptr::null_mut() };
        by_code(unsafe { tribes_door_open(&mut made, terms) })?;
        Ok(Door(made))
    }

    /// A datagram came from an address without a seat; what is to go back there.
    pub fn hear(&mut self, from: &Address, bytes: &[u8]) -> (Heard, Greeting) {
        let (mut reply, mut number) = (Greeting::NONE, 0);
        let heard = match unsafe { tribes_door_hear(&mut self.0, from, bytes.as_ptr(), bytes.len(), &mut reply, &mut number) } {
            1 => Heard::Challenged,
            2 => Heard::Refused(Reason::of(number)),
            3 => Heard::Asks,
            4 => Heard::Again(number),
            _ => Heard::Dropped,
        };
        (heard, reply)
    }

    /// Who asks has this client from now on; what is to go to its address.
    pub fn accept(&mut self, client: u32) -> Result<Greeting, Error> {
        let mut reply = Greeting::NONE;
        by_code(unsafe { tribes_door_accept(&mut self.0, client, &mut reply) }).map(|_| reply)
    }

    /// The game does not take the token of who asks; what is to go to its address.
    pub fn refuse(&mut self) -> Result<Greeting, Error> {
        let mut reply = Greeting::NONE;
        by_code(unsafe { tribes_door_refuse(&mut self.0, &mut reply) }).map(|_| reply)
    }

    /// A client left: its seat is free.
    pub fn leave(&mut self, client: u32) {
        let _ = unsafe { tribes_door_leave(&mut self.0, client) };
    }

    /// Another secret. The one before is still taken, until the next one.
    pub fn renew(&mut self, secret: &Secret) {
        let _ = unsafe { tribes_door_renew(&mut self.0, secret) };
    }
}

impl Drop for Door {
    fn drop(&mut self) {
        let _ = unsafe { tribes_door_free(&mut self.0) };
    }
}

/// How far a client is that joins.
#[derive(Clone, Copy, Debug, PartialEq, Eq)]
pub enum Reached {
    Asking,
    Answering,
    Joined { client: u32, terms: [u8; 32] },
    Refused(Reason),
}

impl Knock {
    pub fn new(nonce: Nonce, protocol: Digest) -> Knock {
        Knock { nonce, protocol: protocol.bytes, reached: 0, number: Nonce::default(), client: 0, terms: [0; 32], reason: 0 }
    }

    pub fn reached(&self) -> Reached {
        match self.reached {
            1 => Reached::Answering,
            2 => Reached::Joined { client: self.client, terms: self.terms },
            3 => Reached::Refused(Reason::of(self.reason as u32)),
            _ => Reached::Asking,
        }
    }

    /// What is to be sent now, and again from time to time: no bytes once it was let in or refused.
    pub fn write(&self, token: &[u8]) -> Result<Greeting, Error> {
        let mut datagram = Greeting::NONE;
        by_code(unsafe { tribes_knock_write(self, token.as_ptr(), token.len(), &mut datagram) }).map(|_| datagram)
    }

    /// A datagram came from the server. What is none of this joining changes nothing.
    pub fn hear(&mut self, bytes: &[u8]) {
        let _ = unsafe { tribes_knock_hear(self, bytes.as_ptr(), bytes.len()) };
    }
}

impl Key {
    /// No key: no datagram has a tag.
    pub const NONE: Key = Key { key: [0; 32], tag_bytes: 0, side: 0, refused: 0 };

    /// With tags of 8 or 16 bytes.
    pub fn client(key: [u8; 32], tag_bytes: u32) -> Key {
        Key { key, tag_bytes, side: 0, refused: 0 }
    }

    /// With tags of 8 or 16 bytes.
    pub fn server(key: [u8; 32], tag_bytes: u32) -> Key {
        Key { key, tag_bytes, side: 1, refused: 0 }
    }

    /// Puts the tag behind the first `count` bytes of a place; all that is to be sent.
    pub fn tag<'a>(&self, number: u64, place: &'a mut [u8], count: usize) -> Result<&'a [u8], Error> {
        let mut total = 0;
        by_code(unsafe { tribes_tag(self, number, place.as_mut_ptr(), place.len(), count, &mut total) })?;
        Ok(&place[..total])
    }

    /// What was tagged, if it carries the other end's tag.
    pub fn verify<'a>(&mut self, number: u64, bytes: &'a [u8]) -> Result<&'a [u8], Error> {
        let mut count = 0;
        by_code(unsafe { tribes_verify(self, number, bytes.as_ptr(), bytes.len(), &mut count) })?;
        Ok(&bytes[..count])
    }

    /// How many datagrams were refused.
    pub fn refused(&self) -> u64 {
        self.refused
    }
}

impl Presence {
    /// The other end was heard `now`, and is given up after `limit` milliseconds without a datagram.
    pub fn new(limit: u64, now: u64) -> Presence {
        let mut made = Presence { limit, last: now, ended: 0, leaving: 0, said: 0 };
        let _ = unsafe { tribes_presence_start(&mut made, limit, now) };
        made
    }

    /// A datagram of it was taken; its reason where that is a goodbye.
    pub fn came(&mut self, bytes: &[u8], now: u64) -> Option<u16> {
        let mut reason = 0;
        let code = unsafe { tribes_presence_came(self, bytes.as_ptr(), bytes.len(), now, &mut reason) };
        (code == 1).then_some(reason as u16)
    }

    /// This end leaves.
    pub fn leave(&mut self, reason: u16) {
        let _ = unsafe { tribes_presence_leave(self, reason) };
    }

    /// The goodbye that is to be sent next: three of them once this end leaves.
    pub fn say(&mut self) -> Option<Greeting> {
        let mut datagram = Greeting::NONE;
        let code = unsafe { tribes_presence_say(self, &mut datagram) };
        (code == 1).then_some(datagram)
    }

    pub fn is_alive(&self, now: u64) -> bool {
        unsafe { tribes_presence_alive(self, now) == 1 }
    }
}

/// How a link goes.
pub struct Quality(QualityHandle);

// SAFETY: as of an end.
unsafe impl Send for Quality {}

// SAFETY, of each call: as of an end.
impl Quality {
    pub fn new() -> Result<Quality, Error> {
        let mut made = QualityHandle { state: 0, at: core::ptr::null_mut() };
        by_code(unsafe { tribes_quality_open(&mut made) })?;
        Ok(Quality(made))
    }

    /// A data packet was sent.
    pub fn sent(&mut self, now: u64) -> Result<(), Error> {
        by_code(unsafe { tribes_quality_sent(&mut self.0, now) }).map(|_| ())
    }

    /// The oldest packet that waits came, or was lost.
    pub fn judged(&mut self, received: bool, now: u64) -> Result<(), Error> {
        by_code(unsafe { tribes_quality_judged(&mut self.0, received as u32, now) }).map(|_| ())
    }

    pub fn trip(&mut self) -> Trip {
        let mut trip = Trip::default();
        let _ = unsafe { tribes_quality_told(&mut self.0, &mut trip) };
        trip
    }
}

impl Drop for Quality {
    fn drop(&mut self) {
        let _ = unsafe { tribes_quality_free(&mut self.0) };
    }
}

impl Meter {
    /// A datagram went.
    pub fn went(&mut self, bytes: u32, now: u64) -> Result<(), Error> {
        by_code(unsafe { tribes_meter_went(self, bytes, now) }).map(|_| ())
    }

    /// What went in the whole second before.
    pub fn told(&self, now: u64) -> Result<Traffic, Error> {
        let mut traffic = Traffic::default();
        by_code(unsafe { tribes_meter_told(self, now, &mut traffic) }).map(|_| traffic)
    }
}

impl Rate {
    pub fn new(bounds: Bounds, now: u64) -> Result<Rate, Error> {
        let mut rate = Rate { bounds, start: 0, rate: 0, saved: 0, last: 0, eased: 0 };
        by_code(unsafe { tribes_rate_start(&mut rate, &bounds, now) })?;
        Ok(rate)
    }

    /// A packet came.
    pub fn came(&mut self, now: u64) -> Result<(), Error> {
        by_code(unsafe { tribes_rate_came(self, now) }).map(|_| ())
    }

    /// A packet was lost, while a round trip takes so many milliseconds.
    pub fn lost(&mut self, round_trip: u64, now: u64) -> Result<(), Error> {
        by_code(unsafe { tribes_rate_lost(self, round_trip, now) }).map(|_| ())
    }

    /// A datagram was sent.
    pub fn went(&mut self, bytes: u32, now: u64) -> Result<(), Error> {
        by_code(unsafe { tribes_rate_went(self, bytes, now) }).map(|_| ())
    }

    /// Bytes that the next datagram may have now.
    pub fn allowed(&self, now: u64) -> Result<u32, Error> {
        let mut bytes = 0;
        by_code(unsafe { tribes_rate_allowed(self, now, &mut bytes) }).map(|_| bytes)
    }

    /// Milliseconds until it may have so many; None: never.
    pub fn wait(&self, bytes: u32, now: u64) -> Result<Option<u64>, Error> {
        let mut wait = 0;
        let code = by_code(unsafe { tribes_rate_wait(self, bytes, now, &mut wait) })?;
        Ok((code == 1).then_some(wait))
    }

    /// Bytes a second, now.
    pub fn bytes_a_second(&self) -> u32 {
        self.rate
    }
}

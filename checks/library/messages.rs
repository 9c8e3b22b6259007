//! Messages of any length through the safe Rust of `include/tribes.rs`: messages SEED [TURNS]. It is the twin of `messages.c`, which says
//! what is tried: it draws the same, and prints the same lines.

#[path = "../../include/tribes.rs"]
mod tribes;

use tribes::{Channel, Client, Config, Error, Field, Kind, MAX_DATAGRAM, MAX_EVENT, MAX_MESSAGE, MAX_SHORT, Parcel, Places, Server, words};

const MOST_WAITING: usize = 4;
const EVENT_PLACES: u32 = 256;
const PLACES: u32 = 3_000;

const NO_ROOM: i32 = -9;
const TOO_LONG: i32 = -8;
const OLD: i32 = -51;
const NO_PLACES: i32 = -75;
const BAD_LONGEST: i32 = -76;
const EMPTY: i32 = -80;
const UNKNOWN_FORM: i32 = -81;
const NOT_BEGUN: i32 = -82;
const NOT_ENDED: i32 = -83;
const ONE_PIECE: i32 = -84;
const MORE_BYTES: i32 = -85;
const FEWER_BYTES: i32 = -86;
const PIECE_TOO_LONG: i32 = -87;

/// What is drawn, and what is noted of it.
struct Dice {
    state: u64,
    digest: u64,
}

impl Dice {
    fn draw64(&mut self) -> u64 {
        self.state ^= self.state << 13;
        self.state ^= self.state >> 7;
        self.state ^= self.state << 17;
        self.state
    }

    fn draw(&mut self, below: u32) -> u32 {
        (self.draw64() >> 20) as u32 % below
    }

    fn note(&mut self, value: u64) {
        for byte in value.to_le_bytes() {
            self.digest = (self.digest ^ u64::from(byte)).wrapping_mul(1_099_511_628_211);
        }
    }
}

fn code<T>(answer: Result<T, Error>) -> i32 {
    answer.map_or_else(|error| error.code, |_| 0)
}

/// Either end, with the calls that a channel wants.
enum End {
    Server(Server),
    Client(Client),
}

macro_rules! of_both {
    ($end:expr, $it:ident, $call:expr) => {
        match $end {
            End::Server($it) => $call,
            End::Client($it) => $call,
        }
    };
}

impl End {
    fn counts(&mut self) -> tribes::Counts {
        of_both!(self, it, it.counts())
    }

    fn pack<'a>(&mut self, place: &'a mut [u8]) -> Option<&'a [u8]> {
        match self {
            End::Server(it) => it.pack(place, |_, _| 0).expect("pack"),
            End::Client(it) => it.pack(place).expect("pack"),
        }
    }

    fn arrive(&mut self, bytes: &[u8]) -> i32 {
        match self {
            End::Server(it) => code(it.arrive(bytes, 0)),
            End::Client(it) => code(it.arrive(bytes)),
        }
    }

    fn post(&mut self, channel: &mut Channel, parcel: Parcel, bytes: &[u8], guaranteed: bool) -> Result<(), Error> {
        of_both!(self, it, it.post_message(channel, parcel, bytes, guaranteed))
    }

    fn message<'a>(&mut self, channel: &mut Channel, place: &'a mut [u8]) -> Result<Option<(Parcel, &'a [u8], bool)>, Error> {
        of_both!(self, it, it.message(channel, place))
    }
}

struct Posted {
    bytes: Vec<u8>,
    parcel: Parcel,
    guaranteed: bool,
}

/// An end, what it posted and how far the other end took it out, and the datagrams that it sent.
struct Side {
    end: End,
    channel: Channel,
    posted: Vec<Posted>,
    taken: usize,
    seen_loose: usize,
    out: Vec<Vec<u8>>,
}

fn made(dice: &mut Dice, version: u32) -> (Server, Client) {
    const FIELDS: [Field; 1] = [Field { lo: 0, hi: 1, bits: 1 }];
    const KINDS: [Kind; 1] = [Kind { fields: 1, weight: 1 }];
    let (client, size, bits) = (dice.draw(16), 300 + dice.draw(901), 1 + dice.draw(64));
    let config = Config { client, life: 1_000_000, size, version, move_bits: if version < 3 { 0 } else { bits } };
    let server = Server::new(&config, &KINDS, &FIELDS, &[]).expect("server");
    (server, Client::new(&config, &KINDS, &FIELDS).expect("client"))
}

fn opened(end: End) -> Side {
    assert_eq!(code(Channel::new(PLACES, MAX_SHORT as u32 - 1)), BAD_LONGEST);
    let refused = Channel::new(PLACES, MAX_MESSAGE as u32 + 1).err().expect("too long");
    assert_eq!((refused.code, refused.first), (BAD_LONGEST, MAX_MESSAGE as u32 + 1));
    let channel = Channel::new(PLACES, MAX_MESSAGE as u32).expect("open");
    let mut side = Side { end, channel, posted: Vec::new(), taken: 0, seen_loose: 0, out: Vec::new() };
    let mut place = vec![0; MAX_MESSAGE - 1];
    let refused = side.end.message(&mut side.channel, &mut place).err().expect("a place too small");
    assert_eq!((refused.code, refused.first), (NO_ROOM, MAX_MESSAGE as u32));
    side
}

fn pieces_of(parcel: Parcel, count: usize) -> u32 {
    if parcel == Parcel::ShortEvent || count <= MAX_SHORT { 1 } else { 2 + (count as u32 - 22) / 23 }
}

fn drawn_length(dice: &mut Dice) -> usize {
    const EDGES: [usize; 12] = [0, 1, 21, 22, 23, 24, 25, 44, 45, 46, 67, 68];
    match dice.draw(6) {
        0 => EDGES[dice.draw(12) as usize],
        1 => dice.draw(400) as usize,
        2 if dice.draw(20) > 0 => dice.draw(3_000) as usize,
        2 => MAX_MESSAGE - dice.draw(2) as usize,
        _ => dice.draw(120) as usize,
    }
}

impl Side {
    fn places(&mut self) -> Places {
        let places = self.channel.places();
        assert_eq!(places.held + places.free, PLACES);
        places
    }

    /// A parcel more, or one that is refused, with what it names; nothing is changed then.
    fn post(&mut self, dice: &mut Dice, mut length: usize) {
        let (before, held) = (self.end.counts(), self.places());
        let parcel = if dice.draw(3) > 0 { Parcel::Message } else { Parcel::ShortEvent };
        let guaranteed = dice.draw(8) > 0;
        if !guaranteed {
            length = dice.draw(if length < 30 { MAX_SHORT as u32 + 2 } else { MAX_SHORT as u32 + 1 }) as usize;
        }
        if parcel == Parcel::ShortEvent && guaranteed {
            length %= MAX_SHORT + 2;
        }
        let bytes: Vec<u8> = (0..length).map(|_| dice.draw64() as u8).collect();
        let most = if parcel == Parcel::ShortEvent || !guaranteed { MAX_SHORT } else { MAX_MESSAGE };
        let pieces = pieces_of(parcel, length);
        let answer = self.end.post(&mut self.channel, parcel, &bytes, guaranteed);
        let (after, left) = (self.end.counts(), self.places());
        if length > most || (guaranteed && pieces > held.free) {
            let why = if length > most { (TOO_LONG, most as u32, 0) } else { (NO_PLACES, pieces, held.free) };
            let refused = answer.expect_err("refused");
            assert_eq!((refused.code, refused.first, refused.second), why);
            assert_eq!((left.held, after.event_places), (held.held, before.event_places));
            return;
        }
        answer.expect("post");
        let all = if guaranteed { held.held + pieces } else { held.held };
        let posted = if guaranteed { all.min(before.event_places) } else { 0 };
        assert_eq!((left.held, after.event_places), (all - posted, before.event_places - posted));
        self.posted.push(Posted { bytes, parcel, guaranteed });
    }

    /// The next datagram goes on its way, or is lost, or goes twice.
    fn send(&mut self, dice: &mut Dice, loss: u32) {
        let mut place = [0; MAX_DATAGRAM];
        let bytes = self.end.pack(&mut place).expect("pack").to_vec();
        bytes.iter().for_each(|byte| dice.note(u64::from(*byte)));
        let copies = if dice.draw(100) < loss { 0 } else { 1 + u32::from(dice.draw(10) == 0) };
        for _ in 0..copies {
            if self.out.len() == 2 * MOST_WAITING {
                break;
            }
            let at = dice.draw(self.out.len() as u32 + 1) as usize;
            self.out.push(bytes.clone());
            let last = self.out.len() - 1;
            self.out.swap(at, last);
        }
    }

    /// What came from this side is the next that it posted; of what may be lost, one posted behind the last such that came.
    fn look(&mut self, dice: &mut Dice, parcel: Parcel, bytes: &[u8], guaranteed: bool) {
        let at = if guaranteed { &mut self.taken } else { &mut self.seen_loose };
        while let Some(posted) = self.posted.get(*at) {
            *at += 1;
            if posted.guaranteed != guaranteed {
                continue;
            }
            let same = posted.parcel == parcel && posted.bytes == bytes;
            assert!(same || !guaranteed, "the next parcel");
            if same {
                return dice.note(bytes.len() as u64);
            }
        }
        panic!("a parcel that was never posted");
    }

    fn left(&mut self) -> usize {
        while self.posted.get(self.taken).is_some_and(|posted| !posted.guaranteed) {
            self.taken += 1;
        }
        self.posted.len() - self.taken
    }
}

/// Some of what waits comes to the other end, in whatever order it lies there.
fn come(dice: &mut Dice, at: &mut Side, from: &mut Side, left: usize, place: &mut [u8]) {
    while from.out.len() > left {
        let came = from.out.pop().expect("a datagram");
        let answer = at.end.arrive(&came);
        assert!(answer == 0 || answer == OLD);
        while let Some((parcel, bytes, guaranteed)) = at.end.message(&mut at.channel, place).expect("message") {
            from.look(dice, parcel, bytes, guaranteed);
        }
        let counts = at.end.counts();
        assert_eq!(counts.waiting, 0);
        assert!(at.places().held == 0 || counts.event_places == 0);
    }
}

fn connection(dice: &mut Dice, version: u32, turns: u32, place: &mut [u8]) {
    let loss = dice.draw(71);
    let (server, client) = made(dice, version);
    let (mut server, mut client) = (opened(End::Server(server)), opened(End::Client(client)));
    let mut turn = 0;
    while turn < turns || server.left() > 0 || client.left() > 0 {
        let ends = turn >= turns;
        assert!(turn <= turns + 3_000, "turns");
        if turn % 100 == 50 {
            server.post(dice, MAX_MESSAGE + 1);
        }
        for _ in 0..if ends { 0 } else { dice.draw(3) } {
            let length = drawn_length(dice);
            let side = if dice.draw(2) > 0 { &mut server } else { &mut client };
            side.post(dice, length);
        }
        let lost = if ends { 0 } else { loss };
        client.send(dice, lost);
        let left = if ends { 0 } else { dice.draw(MOST_WAITING as u32) as usize };
        come(dice, &mut server, &mut client, left, place);
        server.send(dice, lost);
        let left = if ends { 0 } else { dice.draw(MOST_WAITING as u32) as usize };
        come(dice, &mut client, &mut server, left, place);
        turn += 1;
    }
    for _ in 0..3 {
        client.send(dice, 0);
        come(dice, &mut server, &mut client, 0, place);
        server.send(dice, 0);
        come(dice, &mut client, &mut server, 0, place);
    }
    assert_eq!(server.places().held + client.places().held, 0);
    assert_eq!(server.end.counts().event_places + client.end.counts().event_places, 2 * EVENT_PLACES);
    let parcels = server.posted.len() + client.posted.len();
    let bytes: usize = server.posted.iter().chain(&client.posted).map(|posted| posted.bytes.len()).sum();
    println!("version {version}, {loss} of 100 lost: {parcels} parcels of {bytes} bytes, {:016x}", dice.digest);
}

/// What was gathered of a message of `whole` bytes; 0 stands for none.
struct Model {
    longest: usize,
    whole: usize,
    gathered: Vec<u8>,
}

impl Model {
    /// What a piece comes to: a parcel, nothing, or the code of what is wrong with it.
    fn take(&mut self, piece: &[u8], guaranteed: bool) -> Result<Option<(Parcel, Vec<u8>)>, i32> {
        let Some((&form, bytes)) = piece.split_first() else {
            return Err(EMPTY);
        };
        let kind = if form == 0 { Parcel::ShortEvent } else { Parcel::Message };
        match form {
            5.. => Err(UNKNOWN_FORM),
            0 | 1 if !guaranteed => Ok(Some((kind, bytes.to_vec()))),
            2 if !guaranteed => Err(NOT_ENDED),
            _ if !guaranteed => Err(NOT_BEGUN),
            0..=2 if self.whole > 0 => Err(NOT_ENDED),
            3 | 4 if self.whole == 0 => Err(NOT_BEGUN),
            0 | 1 if bytes.len() > self.longest => Err(PIECE_TOO_LONG),
            0 | 1 => Ok(Some((kind, bytes.to_vec()))),
            2 => self.begin(bytes),
            _ => self.go_on(form, bytes),
        }
    }

    fn begin(&mut self, bytes: &[u8]) -> Result<Option<(Parcel, Vec<u8>)>, i32> {
        let [low, high, first @ ..] = bytes else {
            return Err(FEWER_BYTES);
        };
        let length = usize::from(*low) + 256 * usize::from(*high);
        match (length, first.len()) {
            (..=23, _) => Err(ONE_PIECE),
            (_, ..=20) => Err(FEWER_BYTES),
            _ if length > self.longest => Err(PIECE_TOO_LONG),
            _ => {
                (self.whole, self.gathered) = (length, first.to_vec());
                Ok(None)
            }
        }
    }

    fn go_on(&mut self, form: u8, bytes: &[u8]) -> Result<Option<(Parcel, Vec<u8>)>, i32> {
        let left = self.whole - self.gathered.len();
        let is_last = form == 4;
        if if is_last { bytes.len() > left } else { left <= 23 } {
            return Err(MORE_BYTES);
        }
        if bytes.len() < if is_last { left } else { 23 } {
            return Err(FEWER_BYTES);
        }
        self.gathered.extend(bytes);
        if !is_last {
            return Ok(None);
        }
        self.whole = 0;
        Ok(Some((Parcel::Message, core::mem::take(&mut self.gathered))))
    }

    /// Mostly a piece that goes on with what was gathered.
    fn drawn_piece(&self, dice: &mut Dice) -> Vec<u8> {
        let left = if self.whole > 0 { self.whole - self.gathered.len() } else { 0 };
        let mut piece: Vec<u8> = (0..24).map(|_| dice.draw64() as u8).collect();
        let mut count = 24;
        if dice.draw(30) == 0 {
            count = dice.draw(25) as usize;
            piece[0] %= 7;
        } else if left > 0 {
            piece[0] = if left > 23 { 3 } else { 4 };
            count = if left > 23 { 24 } else { 1 + left };
        } else {
            piece[0] = dice.draw(3) as u8;
            if piece[0] < 2 {
                count = 1 + dice.draw(24) as usize;
            }
            if piece[0] == 2 {
                let most = if self.longest > 24 { self.longest as u32 - 23 } else { 1 };
                let length = if dice.draw(20) > 0 { 24 + dice.draw(most) } else { dice.draw(600) };
                piece[1] = (length % 256) as u8;
                piece[2] = (length / 256) as u8;
            }
        }
        piece.truncate(count);
        piece
    }
}

/// Events by hand at one end, and a channel at the other: the same answers as the model's, which end with the fault that it names.
fn dishonest(dice: &mut Dice, run: u32) {
    let longest = if dice.draw(2) > 0 { 200 + dice.draw(400) } else { 23 + dice.draw(100) };
    let mut model = Model { longest: longest as usize, whole: 0, gathered: Vec::new() };
    let (mut server, mut client) = made(dice, 1 + run % 3);
    let mut channel = Channel::new(PLACES, longest).expect("open");
    let (mut place, mut datagram) = (vec![0; longest as usize], [0; MAX_DATAGRAM]);
    let mut parcels = 0;
    let fault = loop {
        let mut piece = model.drawn_piece(dice);
        let guaranteed = dice.draw(20) > 0;
        if !guaranteed && !piece.is_empty() {
            piece[0] %= 6;
        }
        client.post(&piece, guaranteed).expect("a piece by hand");
        server.arrive(client.pack(&mut datagram).expect("pack").expect("bytes"), 0).expect("arrive");
        let says = model.take(&piece, guaranteed);
        let answer = server.message(&mut channel, &mut place);
        let number = match &answer {
            Ok(None) => 0,
            Ok(Some((_, _, guaranteed))) => 1 + i32::from(*guaranteed),
            Err(error) => error.code,
        };
        dice.note(u64::from(number as u32));
        match (answer, &says) {
            (Ok(None), Ok(None)) => {}
            (Ok(Some((parcel, bytes, how))), Ok(Some((wanted, of)))) => {
                assert_eq!((parcel, bytes, how), (*wanted, &of[..], guaranteed));
                parcels += 1;
                assert!(server.message(&mut channel, &mut place).expect("message").is_none());
            }
            (Err(error), Err(wanted)) => assert_eq!(error.code, *wanted),
            other => panic!("a piece: {other:?}"),
        }
        client.arrive(server.pack(&mut datagram, |_, _| 0).expect("pack").expect("bytes")).expect("arrive");
        if let Err(fault) = says {
            break fault;
        }
    };
    // the fault stays, and the connection goes on: what comes is popped by hand
    assert_eq!(code(server.message(&mut channel, &mut place)), fault);
    client.post(b"by hand", true).expect("an event by hand");
    server.arrive(client.pack(&mut datagram).expect("pack").expect("bytes"), 0).expect("arrive");
    assert_eq!(code(server.message(&mut channel, &mut place)), fault);
    let mut event = [0; MAX_EVENT];
    assert_eq!(server.event(&mut event), Ok(Some((&b"by hand"[..], true))));
    println!("run {run}: {parcels} parcels, then {}", words(fault));
}

fn main() {
    let given: Vec<u32> = std::env::args().skip(1).map(|word| word.parse().expect("a number")).collect();
    let (seed, turns) = (given.first().copied().unwrap_or(1), given.get(1).copied().unwrap_or(400));
    let mut dice = Dice { state: 88_172_645_463_325_252 + u64::from(seed), digest: 14_695_981_039_346_656_037 };
    let mut place = vec![0; MAX_MESSAGE];
    for version in 1..=3 {
        connection(&mut dice, version, turns, &mut place);
    }
    for run in 0..turns / 4 {
        dishonest(&mut dice, run);
    }
    println!("{:016x}", dice.digest);
}

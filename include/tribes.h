/* TRIBES: one end of a connection, as a library (libtribes.a).
 *
 * The library has no sockets, no threads, no clock and no callbacks. It makes datagrams and takes datagrams; the game sends
 * them by whatever it has. A server has one end for each client; a client has one end.
 *
 *     server, each turn and client                           client, each frame
 *     tribes_arrive(..) for each datagram that came          tribes_arrive(..) for each datagram that came
 *       tribes_event(..) until it answers 0                    tribes_event(..) until it answers 0
 *       tribes_moves(..) for the moves that it brought         tribes_next_copy, tribes_copy(..) to draw
 *     tribes_show, _hide, _near, _changed, _post             tribes_sample, tribes_post
 *     tribes_plan -> what it asks for                        tribes_pack -> send it
 *     tribes_pack with those values -> send it
 *
 * Answers. Each call answers 0 or above where it did what it says, and below 0 where it did nothing. What a call that did
 * nothing leaves is exactly what was there. tribes_why tells the last such answer of an end with the numbers that it names.
 *
 * Tested at the border, for any numbers: whether an end is behind the handle, each number's range, each length, each buffer's
 * room, each order of calls. A handle that was filled with zeros has no end, and so has one that was freed.
 *
 * Not tested, since no program can: that a pointer points to what its type says and to as many items as the count beside it
 * says, and that no two arguments overlap. No pointer may be null, not even one of no items.
 *
 * Threads: any number of ends may be used in any number of threads; one end in one call at a time. An end stays on the thread
 * that made it, or is handed on under a lock or by a thread's start or join.
 *
 * Memory: from malloc and free, in tribes_server, tribes_client and calls that end in _open alone, freed by tribes_free and the calls that end
 * in _free.
 *
 * Versions: a header fits a library where tribes_version() answers TRIBES_VERSION. docs/library.md says what changes it. The version of
 * the datagrams is another thing: it stands in tribes_config, and both ends of a connection have the same. */
#ifndef TRIBES_H
#define TRIBES_H

#define TRIBES_VERSION 2

#include <stddef.h>
#include <stdint.h>

#ifdef __cplusplus
extern "C" {
#endif

enum {
    TRIBES_MAX_DATAGRAM = 1200, /* no datagram is longer */
    TRIBES_MAX_EVENT = 24,      /* bytes of an event */
    TRIBES_MAX_BLOCK = 40,      /* bytes of a block */
    TRIBES_MAX_BLOCKS = 64,
    TRIBES_MAX_KINDS = 16,
    TRIBES_MAX_FIELDS = 16,     /* of a kind */
    TRIBES_MAX_SHOWN = 1024,    /* periods shown at a time */
    TRIBES_MAX_SLOTS = 256,     /* copies at a client */
    TRIBES_MAX_MOVES = 32,      /* moves of one datagram */
    TRIBES_MAX_MOVE_BITS = 64,  /* bits of a move */
    TRIBES_MAX_ASKS = 2048,     /* values that a plan can ask for */
    TRIBES_MAX_JUDGED = 32,     /* data packets that one datagram judges */
    TRIBES_MAX_CHANGES = 128,   /* slots that one datagram changes */
    TRIBES_MAX_SHORT = 23,      /* bytes of a short event of a channel */
    TRIBES_MAX_MESSAGE = 65535, /* bytes of a message of a channel */
    TRIBES_MAX_TOKEN = 256,     /* bytes of a token of who joins */
    TRIBES_LONGEST_TAG = 16     /* bytes of a tag */
};

enum {
    /* the handle and memory */
    TRIBES_NO_END = -1,
    TRIBES_HAS_END = -2,
    TRIBES_NO_MEMORY = -3,
    TRIBES_WRONG_END = -4,       /* the call is for the other end */
    /* what an end is made with */
    TRIBES_BAD_CLIENT = -5,      /* client */
    TRIBES_BAD_LIFE = -16,       /* life */
    TRIBES_BAD_SIZE = -17,       /* size */
    TRIBES_BAD_VERSION = -18,    /* version */
    TRIBES_BAD_MOVE_BITS = -19,  /* move bits */
    TRIBES_BAD_FIELD_COUNTS = -6,
    TRIBES_BAD_BLOCKS = -7,
    TRIBES_TOO_MANY_KINDS = -20,
    TRIBES_NO_KINDS = -21,
    TRIBES_TOO_MANY_FIELDS = -22, /* kind */
    TRIBES_NO_FIELDS = -23,       /* kind */
    TRIBES_BAD_RANGE = -24,       /* kind, field */
    TRIBES_TOO_WIDE = -25,        /* kind */
    /* the arguments of a call */
    TRIBES_TOO_LONG = -8,        /* most bytes */
    TRIBES_NO_ROOM = -9,         /* how much is needed */
    TRIBES_NOT_PLANNED = -10,
    TRIBES_BAD_VALUES = -11,
    TRIBES_EVENTS_WAIT = -12,    /* count: pop them first */
    TRIBES_BAD_WIDTHS = -13,     /* of tribes_put_bits and tribes_take_bits alone */
    TRIBES_NO_COPY = -14,        /* slot */
    TRIBES_NULL = -15,           /* a null pointer: for wrappers that look for one; the library doesn't */
    TRIBES_NO_KIND = -30,        /* kind */
    TRIBES_NO_BLOCK = -31,       /* block */
    TRIBES_NO_LEVEL = -32,       /* level */
    TRIBES_TOO_MANY_SHOWN = -33,
    TRIBES_SHOWS_WORN = -34,
    TRIBES_HAS_CONTROL = -35,
    TRIBES_NOT_SHOWN = -36,      /* period */
    TRIBES_NO_FIELD = -37,       /* period */
    /* a datagram that was refused: place of the first bit that is wrong */
    TRIBES_BITS_SHORT = -40,
    TRIBES_BITS_PADDING = -41,
    TRIBES_BITS_KIND = -42,
    TRIBES_BITS_OP = -43,
    TRIBES_BITS_COUNT = -44,
    TRIBES_BITS_LENGTH = -45,
    TRIBES_BITS_UNKNOWN_KIND = -46,
    TRIBES_BITS_EMPTY_MASK = -47,
    TRIBES_BITS_ZERO_SEQ = -48,
    TRIBES_BITS_UNKNOWN_SLOT = -49,
    TRIBES_WRONG_CLIENT = -50,   /* client */
    TRIBES_OLD = -51,            /* number, horizon: a repeated or late datagram */
    TRIBES_ACK_AHEAD = -52,      /* horizon, last sent */
    TRIBES_MOVE_GAP = -53,       /* first, accepted */
    TRIBES_MOVE_AHEAD = -54,     /* count, sampled */
    TRIBES_BLOCK_DIFFERS = -55,  /* block */
    TRIBES_EVENT_AHEAD = -56,    /* number, delivered */
    TRIBES_GHOST_TWICE = -60,    /* slot */
    TRIBES_GHOST_UNKNOWN = -61,  /* slot */
    TRIBES_GHOST_TAKEN = -62,    /* slot */
    TRIBES_GHOST_KIND = -63,     /* slot, kind held */
    TRIBES_GHOST_BLOCK = -64,    /* slot, block */
    /* counters and queues */
    TRIBES_EVENTS_WORN = -70,    /* life */
    TRIBES_EVENTS_FULL = -71,    /* first, last unacknowledged */
    TRIBES_MOVES_WORN = -72,     /* life */
    TRIBES_MOVES_FULL = -73,     /* first, last unacknowledged */
    TRIBES_MOVE_TOO_WIDE = -74,  /* the bits that a move has */
    /* channels */
    TRIBES_NO_PLACES = -75,      /* pieces, free places */
    TRIBES_BAD_LONGEST = -76,    /* longest */
    TRIBES_NO_CHANNEL = -77,
    TRIBES_HAS_CHANNEL = -78,
    /* a piece that no honest end sends: it ends the channel */
    TRIBES_PIECE_EMPTY = -80,
    TRIBES_PIECE_UNKNOWN_FORM = -81, /* form */
    TRIBES_PIECE_NOT_BEGUN = -82,
    TRIBES_PIECE_NOT_ENDED = -83,
    TRIBES_PIECE_ONE_PIECE = -84,    /* length */
    TRIBES_PIECE_MORE_BYTES = -85,
    TRIBES_PIECE_FEWER_BYTES = -86,
    TRIBES_PIECE_TOO_LONG = -87,     /* length, longest */
    /* timelines, clocks and offsets, which tribes_why does not tell of; they answer NO_KIND, NO_FIELD and NO_MEMORY too */
    TRIBES_NO_TIMELINE = -90,
    TRIBES_HAS_TIMELINE = -91,
    TRIBES_BAD_SHAPE = -92,
    TRIBES_BAD_WAY = -93,
    TRIBES_NO_SLOT = -94,
    TRIBES_NO_PACKET = -95,
    TRIBES_GOES_BACK = -96,
    TRIBES_NO_CLOCK = -97,
    TRIBES_BAD_PACE = -98,
    TRIBES_NO_TIME = -99,
    TRIBES_TIME_GOES_BACK = -100,
    TRIBES_NOT_NEWER = -101,
    TRIBES_NO_OFFSET = -102,
    /* joining, and how a link goes, which tribes_why does not tell of; they answer NO_ROOM, NO_MEMORY and TIME_GOES_BACK too */
    TRIBES_NO_DOOR = -103,
    TRIBES_HAS_DOOR = -104,
    TRIBES_NOBODY_ASKS = -105,
    TRIBES_NO_SEAT = -106,
    TRIBES_SEAT_IS_TAKEN = -107,
    TRIBES_NO_KNOCK = -108,
    TRIBES_TOKEN_TOO_LONG = -109,
    TRIBES_NO_KEY = -110,
    TRIBES_NO_TAG = -111,
    TRIBES_WRONG_TAG = -112,
    TRIBES_NO_PRESENCE = -113,
    TRIBES_NO_QUALITY = -114,
    TRIBES_HAS_QUALITY = -115,
    TRIBES_TOO_MANY_WAIT = -116,
    TRIBES_NOTHING_WAITS = -117,
    TRIBES_SECOND_IS_PAST = -118,
    TRIBES_NO_RATE = -119,
    TRIBES_BAD_BOUNDS = -120
};

/* A handle. Fill it with zeros before the first call, and never copy it while an end is behind it. */
typedef struct tribes_end {
    uint32_t state;
    void *at;
} tribes_end;

/* A handle of a channel, filled with zeros before the first call, and never copied while a channel is behind it. */
typedef struct tribes_channel {
    uint32_t state;
    void *at;
} tribes_channel;

typedef struct tribes_config {
    uint32_t client;    /* 0 to 15 */
    uint32_t life;      /* what ends each counter: 1 to 16,777,215 */
    uint32_t size;      /* bytes of a datagram: 128 to 1,200, and no less than 43 + 4 * move_bits */
    uint32_t version;   /* of the datagrams: 1; 2, which writes updates and events shorter; or 3, in which moves have move_bits */
    uint32_t move_bits; /* bits of a move: 1 to 64; in versions 1 and 2 they are 10, and 0 stands for these */
} tribes_config;

/* A field holds lo to hi and travels in bits (1 to 24): both ends are made with the same table. */
typedef struct tribes_field {
    int64_t lo, hi;
    uint32_t bits;
} tribes_field;

/* A kind of object: how many of the fields are its own, and how much it weighs in a packet's order. */
typedef struct tribes_kind {
    uint32_t fields;
    uint8_t weight;
} tribes_kind;

typedef struct tribes_reason {
    int32_t code;
    uint32_t first, second;
} tribes_reason;

typedef struct tribes_object {
    uint32_t kind, block;
    uint32_t level;   /* of distance, 0 (near) to 3 */
    uint32_t control; /* not 0: it is the client's own */
} tribes_object;

typedef struct tribes_ask {
    uint32_t n, field;
} tribes_ask;

/* A move of version 1 of this library, for tribes_move_of_step and tribes_step_of_move. No call takes it. */
typedef struct tribes_step {
    int32_t dx, dy; /* -8 to 7 */
    uint32_t fire, act;
} tribes_step;

typedef struct tribes_count {
    uint32_t sent;         /* the number of the last data packet that was sent, 0: none was */
    uint32_t unjudged;     /* the least number that has no verdict */
    uint32_t taken;        /* the number of the last data packet that came and was taken, 0: none was */
    uint32_t delivered;    /* guaranteed events that came in */
    uint32_t waiting;      /* events that wait to be popped */
    uint32_t moves;        /* accepted at the server, sampled at the client */
    uint32_t accepted;     /* moves that the server accepted; at the client as far as it was told */
    uint32_t event_places; /* guaranteed events that may be posted before one is refused as EVENTS_FULL */
    uint32_t loose_places; /* others that may be before one is dropped */
    uint32_t move_places;  /* moves that may be sampled before one is refused as MOVES_FULL; at the server 0 */
} tribes_count;

typedef struct tribes_copied {
    uint32_t kind, block, fields;
} tribes_copied;

/* what became of a data packet that this end sent */
typedef struct tribes_judged {
    uint32_t number;
    uint32_t received; /* 1: the other end processed it; 0: it never will */
} tribes_judged;

/* what a datagram did to a slot */
typedef struct tribes_change {
    uint32_t slot;
    uint32_t what;   /* 0: the copy is gone; 1: it is new; 2: fields of it have new values */
    uint32_t fields; /* bit f: field f */
} tribes_change;

/* pieces of a channel that wait to be posted, and how many more may */
typedef struct tribes_places {
    uint32_t held, free;
} tribes_places;
/* A timeline's handle. Fill it with zeros before the first call, and never copy it while a timeline is behind it. */
typedef struct tribes_timeline {
    uint32_t state;
    void *at;
} tribes_timeline;

typedef struct tribes_shape {
    uint32_t slots;  /* 1 to 256, which is what a client can have */
    uint32_t fields; /* 1 to 16: of each copy the first so many are kept */
    uint32_t depth;  /* values that are kept of each field: 1 to 64, and 0 stands for 8 */
} tribes_shape;

/* how a field goes from one value to the next */
typedef struct tribes_way {
    uint32_t how;        /* 0: stepped; 1: linear; 2: turning, the short way round the circle from least to most */
    int32_t least, most;
} tribes_way;

typedef struct tribes_pace {
    uint32_t period; /* milliseconds from one packet of the server to the next, not 0 */
    uint16_t delay;  /* packets that what is drawn lies behind the last one that came: 2 or 3 */
    uint16_t ahead;  /* packets that it may be ahead of that one */
} tribes_pace;

/* A clock's numbers: tribes_clock_start makes them, and no one else changes them. It may be copied. */
typedef struct tribes_clock {
    tribes_pace pace;
    uint64_t start;
    uint32_t newest;
    uint64_t came, read, position;
} tribes_clock;

/* An offset of one field: {1000, 0} is none, and none that will pass 1,000 either way. It may be copied. */
typedef struct tribes_offset {
    uint32_t most; /* at most 16,777,215 */
    int64_t left;
} tribes_offset;

/* a protocol number, and a secret of a server, which nobody can guess */
typedef struct tribes_digest {
    uint8_t bytes[32];
} tribes_digest;

typedef struct tribes_secret {
    uint8_t bytes[32];
} tribes_secret;

/* an address of IPv6 and a port; one of IPv4 is written as IPv6 writes it: ten zeros, two bytes of 255, and its four */
typedef struct tribes_address {
    uint8_t bytes[16];
    uint16_t port;
} tribes_address;

/* A door's handle. Fill it with zeros before the first call, and never copy it while a door is behind it. */
typedef struct tribes_door {
    uint32_t state;
    void *at;
} tribes_door;

typedef struct tribes_terms {
    uint8_t secret[32];
    uint8_t protocol[32];
    uint8_t terms[32]; /* what goes with each welcome, unread */
    uint32_t seats;
} tribes_terms;

/* a datagram of joining that is to be sent; none where count is 0 */
typedef struct tribes_greeting {
    uint32_t count;
    uint8_t bytes[290];
} tribes_greeting;

/* sixteen bytes that nobody can guess, others each time */
typedef struct tribes_nonce {
    uint64_t low, high;
} tribes_nonce;

/* A client that joins: all zeros but for its nonce and the protocol number. It may be copied. */
typedef struct tribes_knock {
    tribes_nonce nonce;
    uint8_t protocol[32];
    uint32_t reached; /* 0: it says hello; 1: it says its answer; 2: it was let in, as `client`; 3: it was refused */
    tribes_nonce number;
    uint32_t client;
    uint8_t terms[32];
    uint8_t reason; /* 1: other version; 2: other protocol; 3: full; 4: the game does not take the token */
} tribes_knock;

/* A key of one end: all zeros is none. The game hands the same 32 bytes to both ends. */
typedef struct tribes_key {
    uint8_t key[32];
    uint32_t tag_bytes; /* 8 or 16; 0: there is no key, and no datagram has a tag */
    uint32_t side;      /* 0: the client's end; 1: the server's */
    uint64_t refused;   /* datagrams without their tag */
} tribes_key;

/* Whether the other end is there. tribes_presence_start makes it; it may be copied. */
typedef struct tribes_presence {
    uint64_t limit, last;
    uint32_t ended, leaving; /* the reason of a goodbye; 65,536: none */
    uint32_t said;
} tribes_presence;

/* A handle of how a link goes. Fill it with zeros before the first call, and never copy it while something is behind it. */
typedef struct tribes_quality {
    uint32_t state;
    void *at;
} tribes_quality;

/* the smoothed round trip, where `known` is not 0: in eighths of a millisecond, and what single ones differ by in quarters. And how many
 * of the last 64 data packets were lost */
typedef struct tribes_trip {
    uint32_t known;
    uint64_t lost, eighths, quarters;
} tribes_trip;

typedef struct tribes_traffic {
    uint32_t datagrams, bytes;
} tribes_traffic;

/* What goes one way: all zeros at first. It may be copied. */
typedef struct tribes_meter {
    uint64_t second;
    tribes_traffic current, before;
} tribes_meter;

/* of a rate, in bytes a second: least, not 0; most; what each packet that came raises it by; and the bytes that may be saved up */
typedef struct tribes_bounds {
    uint32_t least, most, step, burst;
} tribes_bounds;

/* How much a link may carry. tribes_rate_start makes it; it may be copied. */
typedef struct tribes_rate {
    tribes_bounds bounds;
    uint64_t start;
    uint32_t rate; /* bytes a second, now */
    uint64_t saved, last, eased;
} tribes_rate;

/* The functions of the library. A slice crosses as its pointer and then its count. */
int32_t tribes_server(tribes_end *end, const tribes_config *config, const tribes_kind *kinds, size_t kind_count,
                      const tribes_field *fields, size_t field_count, const uint8_t *block_bytes, size_t byte_count,
                      const uint32_t *block_lengths, size_t block_count, tribes_reason *reason);
int32_t tribes_client(tribes_end *end, const tribes_config *config, const tribes_kind *kinds, size_t kind_count,
                      const tribes_field *fields, size_t field_count, tribes_reason *reason);
int32_t tribes_free(tribes_end *end);
int32_t tribes_why(tribes_end *end, tribes_reason *reason);
uint32_t tribes_version(void);

/* at the server: objects in scope */
int32_t tribes_show(tribes_end *end, const tribes_object *object, uint32_t *n);
int32_t tribes_hide(tribes_end *end, uint32_t n);
int32_t tribes_near(tribes_end *end, uint32_t n, uint32_t level);
int32_t tribes_changed(tribes_end *end, uint32_t n, uint32_t bits);   /* bit f: field f has a new value */
int32_t tribes_settled(tribes_end *end, uint32_t n, uint32_t field);  /* 1: the client has the newest value */
int32_t tribes_slot(tribes_end *end, uint32_t n, uint32_t *slot);     /* 1: it holds a slot; 0: none */

/* datagrams. tribes_plan answers 1 with the count of values that the next datagram asks for, or 0: it asks for nothing; there has
 * to be room for TRIBES_MAX_ASKS. Any other call at this end that changes something, but tribes_event, drops the plan.
 * tribes_pack answers 2: a data packet, 1: a ping, 0: nothing (the connection is worn). A client needs no plan. */
int32_t tribes_plan(tribes_end *end, tribes_ask *asks, size_t room, size_t *count);
int32_t tribes_pack(tribes_end *end, const int64_t *values, size_t value_count, uint8_t *bytes, size_t room, size_t *count);
int32_t tribes_arrive(tribes_end *end, const uint8_t *bytes, size_t count, uint32_t move_room, uint32_t *moves);

/* events, both ways. tribes_event answers 2: a guaranteed one, 1: another, 0: none waits */
int32_t tribes_post(tribes_end *end, const uint8_t *bytes, size_t count, uint32_t guaranteed, uint32_t *number);
int32_t tribes_event(tribes_end *end, uint8_t *bytes, size_t room, size_t *count);

/* messages of any length, both ways, and short events in one order with them. A channel goes with one end, from its first event on:
 * what the end posts and pops as guaranteed events are its pieces, so call neither tribes_post nor tribes_event at that end.
 * tribes_channel_open makes one that holds so many pieces of 24 bytes which are still to be posted, for messages that come with at most
 * `longest` bytes, 23 to TRIBES_MAX_MESSAGE. tribes_post_message takes a message, or where `kind` is 0 a short event, whole or not at
 * all, and posts pieces while the end has places; with `guaranteed` 0 it has at most TRIBES_MAX_SHORT bytes, and is one unguaranteed event.
 * tribes_message hands out the oldest parcel that is whole, and posts what is still held: it answers 2: a guaranteed one, 1: another, 0:
 * none is; `kind` is then 0 for a short event and 1 for a message, and there has to be room for `longest`. Call it behind tribes_arrive
 * until it answers 0, and before tribes_plan, since it may drop a plan. A piece that no honest end sends ends the channel: it answers
 * PIECE_.. from then on, behind all that was whole before; the end goes on, and tribes_event pops what comes */
int32_t tribes_channel_open(tribes_channel *channel, uint32_t places, uint32_t longest, tribes_reason *reason);
int32_t tribes_channel_free(tribes_channel *channel);
int32_t tribes_post_message(tribes_end *end, tribes_channel *channel, uint32_t kind, const uint8_t *bytes, size_t count,
                            uint32_t guaranteed);
int32_t tribes_message(tribes_end *end, tribes_channel *channel, uint8_t *bytes, size_t room, uint32_t *kind, size_t *count);
int32_t tribes_channel_counts(tribes_channel *channel, tribes_places *places);
int32_t tribes_channel_why(tribes_channel *channel, tribes_reason *reason); /* of the last call of the channel that did nothing */

/* moves: sampled at the client, taken at the server from the datagram that arrived last. A move is a number of as many bits as the
 * configuration says, and the game says what they mean: tribes_put_bits and tribes_take_bits make it of fields. Ends of a client and a
 * server that were made with other move_bits misread each other's moves. tribes_pending lists at the client, the oldest first, those
 * that the server isn't known to have: from number `accepted` of tribes_counts on. Room for TRIBES_MAX_MOVES */
int32_t tribes_sample(tribes_end *end, uint64_t move, uint32_t *number);
int32_t tribes_moves(tribes_end *end, uint64_t *moves, size_t room, uint32_t *count);
int32_t tribes_pending(tribes_end *end, uint64_t *moves, size_t room, uint32_t *count);

/* blocks: at the server those that it was made with, at the client those that came. Answers 0 with the count of bytes */
int32_t tribes_block(tribes_end *end, uint32_t number, uint8_t *bytes, size_t room, size_t *count);

/* what the end counted. A data packet that was sent as number n has its verdict once unjudged is above n: note the time at which
 * each was sent, and the round trip is known */
int32_t tribes_counts(tribes_end *end, tribes_count *counts);

/* the data packets that the datagram which arrived last judged, by rising number: room for TRIBES_MAX_JUDGED */
int32_t tribes_verdicts(tribes_end *end, tribes_judged *judged, size_t room, uint32_t *count);

/* at the client: copies by slot, with the values of their fields, and the slot of the client's own object. tribes_next_copy answers 1
 * with the least slot from `from` on that holds a copy, else 0. tribes_changes lists what the datagram that arrived last did to slots:
 * room for TRIBES_MAX_CHANGES */
int32_t tribes_copy(tribes_end *end, uint32_t slot, tribes_copied *copied, int64_t *values, size_t room);
int32_t tribes_next_copy(tribes_end *end, uint32_t from, uint32_t *slot);
int32_t tribes_changes(tribes_end *end, tribes_change *changes, size_t room, uint32_t *count);
int32_t tribes_control(tribes_end *end, uint32_t *slot);

/* what a client draws (docs/timeline.md). A timeline keeps the last values that came; ways has shape.fields rows for each kind. Call
 * tribes_timeline_take once after each datagram that was taken: it tells the timeline what that one did to slots. Or tell it yourself: a
 * copy began, a value came, a copy is gone. A moment is a packet's number times 256. tribes_timeline_value answers 1 with the value then,
 * and tribes_timeline_kind with the kind of the copy that is drawn; 0: none is. Values are of 32 bits: one beyond is told as the nearest */
int32_t tribes_timeline_open(tribes_timeline *timeline, const tribes_shape *shape, const tribes_way *ways, size_t way_count);
int32_t tribes_timeline_free(tribes_timeline *timeline);
int32_t tribes_timeline_take(tribes_timeline *timeline, tribes_end *end);
int32_t tribes_timeline_began(tribes_timeline *timeline, uint32_t slot, uint32_t packet, uint32_t kind);
int32_t tribes_timeline_came(tribes_timeline *timeline, uint32_t slot, uint32_t packet, uint32_t field, int32_t value);
int32_t tribes_timeline_ended(tribes_timeline *timeline, uint32_t slot, uint32_t packet);
int32_t tribes_timeline_value(tribes_timeline *timeline, uint32_t slot, uint32_t field, uint64_t at, int64_t *value);
int32_t tribes_timeline_kind(tribes_timeline *timeline, uint32_t slot, uint64_t at, uint32_t *kind);

/* which moment is drawn. `now` are the caller's milliseconds, which never go back; tell of each data packet that is newer (`taken` of
 * tribes_counts), and read the clock once a frame */
int32_t tribes_clock_start(tribes_clock *clock, const tribes_pace *pace, uint64_t now);
int32_t tribes_clock_came(tribes_clock *clock, uint32_t packet, uint64_t now);
int32_t tribes_clock_moment(tribes_clock *clock, uint64_t now, uint64_t *at);

/* corrections of what was predicted, hidden: shown is a field's value plus the offset. tribes_offset_corrected takes up what the value
 * jumps from `was` to `is`, and each tribes_offset_faded leaves three quarters */
int32_t tribes_offset_corrected(tribes_offset *offset, int32_t was, int32_t is);
int32_t tribes_offset_faded(tribes_offset *offset);
int32_t tribes_offset_value(const tribes_offset *offset, int64_t *value);

/* joining (docs/joining.md): nothing longer than what came is sent to who did not show that it reads what is sent to its address, and nothing is
 * kept of it. Ends with other kinds, another configuration or another word have other protocol numbers, and are refused by that name.
 * At the server, of a datagram of an address without a seat: tribes_door_hear answers 0: it is dropped; 1: it is a hello, and is challenged; 2:
 * it is refused, and `number` is why (as `reason` of tribes_knock); 3: it is a right answer, whose bytes from 34 on are the game's token: the
 * game calls tribes_door_accept or tribes_door_refuse; 4: it is that of the seat `number`, which is told so again. What `reply` has goes back.
 * At the client, tribes_knock_write gives what is to be sent now, and again from time to time; tribes_knock_hear takes what came. */
int32_t tribes_protocol(const tribes_config *config, const tribes_kind *kinds, size_t kind_count, const tribes_field *fields, size_t field_count,
                        const uint8_t *word, size_t word_count, tribes_digest *number, tribes_reason *reason);
int32_t tribes_door_open(tribes_door *door, const tribes_terms *terms);
int32_t tribes_door_free(tribes_door *door);
int32_t tribes_door_hear(tribes_door *door, const tribes_address *from, const uint8_t *bytes, size_t count, tribes_greeting *reply, uint32_t *number);
int32_t tribes_door_accept(tribes_door *door, uint32_t client, tribes_greeting *reply);
int32_t tribes_door_refuse(tribes_door *door, tribes_greeting *reply);
int32_t tribes_door_leave(tribes_door *door, uint32_t client);
int32_t tribes_door_renew(tribes_door *door, const tribes_secret *secret); /* the secret before is still taken, until the next call */
int32_t tribes_knock_write(const tribes_knock *knock, const uint8_t *token, size_t count, tribes_greeting *datagram);
int32_t tribes_knock_hear(tribes_knock *knock, const uint8_t *bytes, size_t count);

/* tags: behind what is sent to or by a seat, before anything else reads what came. `number` is one that both ends know, as the nonce of this joining:
 * then what was sent in another one has no right tag. tribes_tag puts the tag behind the first `count` bytes of a place of `room` bytes, and
 * `total` bytes are to be sent; tribes_verify takes what carries its tag, whose first `count` bytes are then the datagram */
int32_t tribes_tag(const tribes_key *key, uint64_t number, uint8_t *place, size_t room, size_t count, size_t *total);
int32_t tribes_verify(tribes_key *key, uint64_t number, const uint8_t *bytes, size_t length, size_t *count);

/* who is there: tell of each datagram that was taken; it answers 1 with the game's reason where that is a goodbye. An end that leaves sends
 * what tribes_presence_say gives, as long as it answers 1: three goodbyes. tribes_presence_alive answers 1 while neither end said goodbye and
 * something came within the limit, in the caller's milliseconds */
int32_t tribes_presence_start(tribes_presence *presence, uint64_t limit, uint64_t now);
int32_t tribes_presence_came(tribes_presence *presence, const uint8_t *bytes, size_t count, uint64_t now, uint32_t *reason);
int32_t tribes_presence_leave(tribes_presence *presence, uint16_t reason);
int32_t tribes_presence_say(tribes_presence *presence, tribes_greeting *datagram);
int32_t tribes_presence_alive(const tribes_presence *presence, uint64_t now);

/* how a link goes (docs/pace.md): tell of each data packet that was sent (tribes_pack answered 2) and of each verdict, in their order; a meter of
 * each datagram that goes one way, and it tells what went in the whole second before `now` */
int32_t tribes_quality_open(tribes_quality *quality);
int32_t tribes_quality_free(tribes_quality *quality);
int32_t tribes_quality_sent(tribes_quality *quality, uint64_t now);
int32_t tribes_quality_judged(tribes_quality *quality, uint32_t received, uint64_t now);
int32_t tribes_quality_told(tribes_quality *quality, tribes_trip *trip);
int32_t tribes_meter_went(tribes_meter *meter, uint32_t bytes, uint64_t now);
int32_t tribes_meter_told(const tribes_meter *meter, uint64_t now, tribes_traffic *traffic);

/* how much it may carry: tell of each packet that came or was lost, and of each datagram that was sent. tribes_rate_allowed gives the bytes that
 * the next datagram may have now; tribes_rate_wait answers 1 with the milliseconds until it may have so many, or 0: it never may */
int32_t tribes_rate_start(tribes_rate *rate, const tribes_bounds *bounds, uint64_t now);
int32_t tribes_rate_came(tribes_rate *rate, uint64_t now);
int32_t tribes_rate_lost(tribes_rate *rate, uint64_t round_trip, uint64_t now);
int32_t tribes_rate_went(tribes_rate *rate, uint32_t bytes, uint64_t now);
int32_t tribes_rate_allowed(const tribes_rate *rate, uint64_t now, uint32_t *bytes);
int32_t tribes_rate_wait(const tribes_rate *rate, uint32_t bytes, uint64_t now, uint64_t *wait);

/* The answer in words. */
static inline const char *tribes_text(int32_t code) {
    switch (code) {
    case TRIBES_NO_END: return "no end is behind the handle";
    case TRIBES_HAS_END: return "an end is behind the handle already";
    case TRIBES_NO_MEMORY: return "memory was not to be had";
    case TRIBES_WRONG_END: return "the call is for the other end";
    case TRIBES_BAD_CLIENT: return "the client's number is above 15";
    case TRIBES_BAD_LIFE: return "the life is 0 or above 16,777,215";
    case TRIBES_BAD_SIZE: return "the size is above 1,200, or below 128 or what 32 moves and an event need";
    case TRIBES_BAD_VERSION: return "the version is none of 1 to 3";
    case TRIBES_BAD_MOVE_BITS: return "a move's bits are none of 1 to 64, or not the 10 of versions 1 and 2";
    case TRIBES_BAD_FIELD_COUNTS: return "the kinds have not as many fields as there are";
    case TRIBES_BAD_BLOCKS: return "the blocks are too many, too long, or not as long as said";
    case TRIBES_TOO_MANY_KINDS: return "more than 16 kinds";
    case TRIBES_NO_KINDS: return "no kind";
    case TRIBES_TOO_MANY_FIELDS: return "a kind has more than 16 fields";
    case TRIBES_NO_FIELDS: return "a kind has no field";
    case TRIBES_BAD_RANGE: return "a field's range or bits are none";
    case TRIBES_TOO_WIDE: return "a kind has more than 192 bits";
    case TRIBES_TOO_LONG: return "too many bytes";
    case TRIBES_NO_ROOM: return "the buffer is too small";
    case TRIBES_NOT_PLANNED: return "nothing is planned, or something changed since";
    case TRIBES_BAD_VALUES: return "not the values that were asked for, or one is out of its range";
    case TRIBES_EVENTS_WAIT: return "events wait to be popped first";
    case TRIBES_BAD_WIDTHS: return "the fields have more than 64 bits";
    case TRIBES_NO_COPY: return "the slot is empty";
    case TRIBES_NULL: return "a null pointer";
    case TRIBES_NO_KIND: return "no kind of this number";
    case TRIBES_NO_BLOCK: return "no block of this number";
    case TRIBES_NO_LEVEL: return "the level is above 3";
    case TRIBES_TOO_MANY_SHOWN: return "1,024 objects are shown";
    case TRIBES_SHOWS_WORN: return "no further period has a number";
    case TRIBES_HAS_CONTROL: return "another object has control";
    case TRIBES_NOT_SHOWN: return "no such period is shown";
    case TRIBES_NO_FIELD: return "no such field";
    case TRIBES_BITS_SHORT: return "the datagram ends too soon";
    case TRIBES_BITS_PADDING: return "the datagram ends too late";
    case TRIBES_BITS_KIND: return "the datagram is neither data nor ping";
    case TRIBES_BITS_OP: return "a ghost is none of kill, create and update";
    case TRIBES_BITS_COUNT: return "a count is too great";
    case TRIBES_BITS_LENGTH: return "a length is too great";
    case TRIBES_BITS_UNKNOWN_KIND: return "a ghost of no kind";
    case TRIBES_BITS_EMPTY_MASK: return "an update of no field";
    case TRIBES_BITS_ZERO_SEQ: return "a datagram of number 0";
    case TRIBES_BITS_UNKNOWN_SLOT: return "an update of a slot that held nothing";
    case TRIBES_WRONG_CLIENT: return "another client's datagram";
    case TRIBES_OLD: return "a repeated or late datagram";
    case TRIBES_ACK_AHEAD: return "it acknowledges what was never sent";
    case TRIBES_MOVE_GAP: return "moves are missing";
    case TRIBES_MOVE_AHEAD: return "more moves than were sampled";
    case TRIBES_BLOCK_DIFFERS: return "a block with other bytes";
    case TRIBES_EVENT_AHEAD: return "an event too far ahead";
    case TRIBES_GHOST_TWICE: return "a slot is named twice";
    case TRIBES_GHOST_UNKNOWN: return "a ghost without a copy";
    case TRIBES_GHOST_TAKEN: return "a create on a copy";
    case TRIBES_GHOST_KIND: return "an update of another kind";
    case TRIBES_GHOST_BLOCK: return "a create without its block";
    case TRIBES_EVENTS_WORN: return "no further event has a number";
    case TRIBES_EVENTS_FULL: return "256 events are unacknowledged";
    case TRIBES_MOVES_WORN: return "no further move has a number";
    case TRIBES_MOVES_FULL: return "32 moves are unacknowledged";
    case TRIBES_MOVE_TOO_WIDE: return "a move has a bit above those that are written";
    case TRIBES_NO_PLACES: return "more pieces than places are free";
    case TRIBES_BAD_LONGEST: return "the longest message is none of 23 to 65,535 bytes";
    case TRIBES_NO_CHANNEL: return "no channel is behind the handle";
    case TRIBES_HAS_CHANNEL: return "a channel is behind the handle already";
    case TRIBES_PIECE_EMPTY: return "a piece without a byte";
    case TRIBES_PIECE_UNKNOWN_FORM: return "a piece of no form";
    case TRIBES_PIECE_NOT_BEGUN: return "a piece of no message";
    case TRIBES_PIECE_NOT_ENDED: return "a message that begins before the last one ended";
    case TRIBES_PIECE_ONE_PIECE: return "a message in pieces that fits one";
    case TRIBES_PIECE_MORE_BYTES: return "a piece with too many bytes";
    case TRIBES_PIECE_FEWER_BYTES: return "a piece with too few bytes";
    case TRIBES_PIECE_TOO_LONG: return "a message that is longer than the channel's longest";
    case TRIBES_NO_TIMELINE: return "no timeline is behind the handle";
    case TRIBES_HAS_TIMELINE: return "a timeline is behind the handle already";
    case TRIBES_BAD_SHAPE: return "a timeline's slots, fields or depth are none";
    case TRIBES_BAD_WAY: return "a field can't go so";
    case TRIBES_NO_SLOT: return "the timeline has no slot of this number";
    case TRIBES_NO_PACKET: return "no packet has this number";
    case TRIBES_GOES_BACK: return "a packet of a higher number told before";
    case TRIBES_NO_CLOCK: return "no clock has these numbers";
    case TRIBES_BAD_PACE: return "a packet takes no time";
    case TRIBES_NO_TIME: return "the time is too great";
    case TRIBES_TIME_GOES_BACK: return "a later time was told before";
    case TRIBES_NOT_NEWER: return "a packet of this or a higher number came before";
    case TRIBES_NO_OFFSET: return "no offset has these numbers";
    case TRIBES_NO_DOOR: return "no door is behind the handle";
    case TRIBES_HAS_DOOR: return "a door is behind the handle already";
    case TRIBES_NOBODY_ASKS: return "nobody asks for a client";
    case TRIBES_NO_SEAT: return "the door has no seat of this number";
    case TRIBES_SEAT_IS_TAKEN: return "the seat is somebody's";
    case TRIBES_NO_KNOCK: return "no client that greets has these numbers";
    case TRIBES_TOKEN_TOO_LONG: return "the token has more than 256 bytes";
    case TRIBES_NO_KEY: return "no key has these numbers";
    case TRIBES_NO_TAG: return "the datagram has fewer bytes than a tag";
    case TRIBES_WRONG_TAG: return "the tag is another datagram's, or nobody's";
    case TRIBES_NO_PRESENCE: return "more goodbyes than there are";
    case TRIBES_NO_QUALITY: return "no quality of a link is behind the handle";
    case TRIBES_HAS_QUALITY: return "a quality of a link is behind the handle already";
    case TRIBES_TOO_MANY_WAIT: return "64 packets wait for their verdicts";
    case TRIBES_NOTHING_WAITS: return "no packet waits for its verdict";
    case TRIBES_SECOND_IS_PAST: return "a time of a later second was told before";
    case TRIBES_NO_RATE: return "no rate has these numbers";
    case TRIBES_BAD_BOUNDS: return "the least rate is 0, or above the most";
    default: return code < 0 ? "unknown" : "done";
    }
}

/* Fields side by side as one number, the first in its lowest bits: field k has widths[k] bits, and all have 64 at most. Answers 0, or
 * TRIBES_BAD_WIDTHS, or TRIBES_BAD_VALUES where a value has more bits than its field; then `bits` is as it was. */
static inline int32_t tribes_put_bits(const uint32_t *widths, const uint64_t *values, size_t count, uint64_t *bits) {
    uint64_t all = 0;
    uint32_t at = 0;
    for (size_t k = 0; k < count; k++) {
        if (widths[k] > 64 - at) return TRIBES_BAD_WIDTHS;
        if (widths[k] < 64 && values[k] >> widths[k]) return TRIBES_BAD_VALUES;
        if (widths[k]) all |= values[k] << at; /* with no bits it may stand at 64 */
        at += widths[k];
    }
    *bits = all;
    return 0;
}

/* The fields of these widths in a number. Answers 0, or TRIBES_BAD_WIDTHS, or TRIBES_MOVE_TOO_WIDE where a bit is set above them; then
 * `values` are as they were. */
static inline int32_t tribes_take_bits(const uint32_t *widths, uint64_t *values, size_t count, uint64_t bits) {
    uint32_t all = 0;
    for (size_t k = 0; k < count; k++) {
        if (widths[k] > 64 - all) return TRIBES_BAD_WIDTHS;
        all += widths[k];
    }
    if (all < 64 && bits >> all) return TRIBES_MOVE_TOO_WIDE;
    for (size_t k = 0; k < count; k++) {
        values[k] = widths[k] < 64 ? bits & ((UINT64_C(1) << widths[k]) - 1) : bits;
        bits = widths[k] < 64 ? bits >> widths[k] : 0;
    }
    return 0;
}

/* The move of ten bits that version 1 of this library made of a step each way and two flags, each 0 or not. Of a step that is none of -8
 * to 7 it is a number that tribes_sample refuses. */
static inline uint64_t tribes_move_of_step(int32_t dx, int32_t dy, uint32_t fire, uint32_t act) {
    if (dx < -8 || dx > 7 || dy < -8 || dy > 7) return UINT64_MAX;
    return (uint64_t)(dx + 8) | (uint64_t)(dy + 8) << 4 | (uint64_t)(fire != 0) << 8 | (uint64_t)(act != 0) << 9;
}

static inline tribes_step tribes_step_of_move(uint64_t move) {
    tribes_step step;
    step.dx = (int32_t)(move & 15) - 8;
    step.dy = (int32_t)(move >> 4 & 15) - 8;
    step.fire = (uint32_t)(move >> 8 & 1);
    step.act = (uint32_t)(move >> 9 & 1);
    return step;
}

#ifdef __cplusplus
}

/* A handle for C++: it has no end at first, frees the one that it gets where it is let go, and can't be copied. Each call takes it. */
struct tribes_owned : tribes_end {
    tribes_owned() : tribes_end() {}
    ~tribes_owned() { tribes_free(this); }
    tribes_owned(const tribes_owned &) = delete;
    tribes_owned &operator=(const tribes_owned &) = delete;
};
#endif

#endif

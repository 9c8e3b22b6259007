// One end of a connection, for JavaScript: the library's WebAssembly module (tools/web/build makes it) behind two classes, Server and Client, with
// the calls of tribes.h, which says what each does and when it refuses. It runs in browsers, in their workers and in Node, and wants nothing else.
// docs/library.md, "The same in JavaScript", shows a game's turn, and tribes.d.mts has the types.
//
//     import { load } from "./tribes.mjs";
//     const tribes = await load(fetch("tribes.wasm"));
//     const kinds = [{ weight: 8, fields: [{ lo: 0, hi: 1023, bits: 10 }, { lo: 0, hi: 1023, bits: 10 }] }];
//     const config = { client: 0, life: 1_000_000, size: 600, version: 3, move: [3, 11, 8] };
//
//     const server = tribes.server(config, kinds, ["tank"]);      const client = tribes.client(config, kinds);
//     const tank = server.show({ kind: 0, control: true });       client.sample([3, 1024, 0]);
//     server.changed(tank, 0b11);                                 send(client.pack());
//     send(server.pack((n, field) => place[field]));              client.arrive(datagram);
//                                                                 draw(client.copy(client.control()).values);
//
// Errors. What a call refuses it throws as a Refusal, with the code and the numbers of tribes.h, but for what a datagram from the network is refused
// for: that is no error of the program, so `arrive` answers it. What is no number, no bytes or no list where one is wanted is a BadArgument. Both
// change nothing. After a trap of the module each call of it, of all its ends, is Broken; another module that was loaded goes on.
//
// All numbers are plain ones, also in moves of up to 64 bits: a move is a list of parts, of the widths that the configuration's `move` has, each of
// which has 53 bits at most.

/** The version of the interface that this file is for. */
export const VERSION = 2;
export const MAX_DATAGRAM = 1_200;
export const MAX_EVENT = 24;
export const MAX_BLOCK = 40;
export const MAX_MOVE_BITS = 64;
export const MAX_SHORT = 23;
export const MAX_MESSAGE = 65_535;
const MAX_FIELDS = 16;
const MAX_MOVES = 32;
const MAX_ASKS = 2_048;
const MAX_JUDGED = 32;
const MAX_CHANGES = 128;
// Bytes of a datagram that is looked at at all, and bits of a number that is exact here.
const MAX_READ = 65_536, MAX_PART_BITS = 53, TWO_32 = 4_294_967_296;

/** Each refusal by its name, with its number and its words. */
const REFUSALS = {
    NO_END: [-1, "no end is behind the handle"],
    HAS_END: [-2, "an end is behind the handle already"],
    NO_MEMORY: [-3, "memory was not to be had"],
    WRONG_END: [-4, "the call is for the other end"],
    BAD_CLIENT: [-5, "the client's number is above 15"],
    BAD_LIFE: [-16, "the life is 0 or above 16,777,215"],
    BAD_SIZE: [-17, "the size is above 1,200, or below 128 or what 32 moves and an event need"],
    BAD_VERSION: [-18, "the version is none of 1 to 3"],
    BAD_MOVE_BITS: [-19, "a move's bits are none of 1 to 64, or not the 10 of versions 1 and 2"],
    BAD_FIELD_COUNTS: [-6, "the kinds have not as many fields as there are"],
    BAD_BLOCKS: [-7, "the blocks are too many, too long, or not as long as said"],
    TOO_MANY_KINDS: [-20, "more than 16 kinds"],
    NO_KINDS: [-21, "no kind"],
    TOO_MANY_FIELDS: [-22, "a kind has more than 16 fields"],
    NO_FIELDS: [-23, "a kind has no field"],
    BAD_RANGE: [-24, "a field's range or bits are none"],
    TOO_WIDE: [-25, "a kind has more than 192 bits"],
    TOO_LONG: [-8, "too many bytes"],
    NO_ROOM: [-9, "the buffer is too small"],
    NOT_PLANNED: [-10, "nothing is planned, or something changed since"],
    BAD_VALUES: [-11, "not the values that were asked for, or one is out of its range"],
    EVENTS_WAIT: [-12, "events wait to be popped first"],
    BAD_WIDTHS: [-13, "the fields have more than 64 bits"],
    NO_COPY: [-14, "the slot is empty"],
    NULL: [-15, "a null pointer"],
    NO_KIND: [-30, "no kind of this number"],
    NO_BLOCK: [-31, "no block of this number"],
    NO_LEVEL: [-32, "the level is above 3"],
    TOO_MANY_SHOWN: [-33, "1,024 objects are shown"],
    SHOWS_WORN: [-34, "no further period has a number"],
    HAS_CONTROL: [-35, "another object has control"],
    NOT_SHOWN: [-36, "no such period is shown"],
    NO_FIELD: [-37, "no such field"],
    BITS_SHORT: [-40, "the datagram ends too soon"],
    BITS_PADDING: [-41, "the datagram ends too late"],
    BITS_KIND: [-42, "the datagram is neither data nor ping"],
    BITS_OP: [-43, "a ghost is none of kill, create and update"],
    BITS_COUNT: [-44, "a count is too great"],
    BITS_LENGTH: [-45, "a length is too great"],
    BITS_UNKNOWN_KIND: [-46, "a ghost of no kind"],
    BITS_EMPTY_MASK: [-47, "an update of no field"],
    BITS_ZERO_SEQ: [-48, "a datagram of number 0"],
    BITS_UNKNOWN_SLOT: [-49, "an update of a slot that held nothing"],
    WRONG_CLIENT: [-50, "another client's datagram"],
    OLD: [-51, "a repeated or late datagram"],
    ACK_AHEAD: [-52, "it acknowledges what was never sent"],
    MOVE_GAP: [-53, "moves are missing"],
    MOVE_AHEAD: [-54, "more moves than were sampled"],
    BLOCK_DIFFERS: [-55, "a block with other bytes"],
    EVENT_AHEAD: [-56, "an event too far ahead"],
    GHOST_TWICE: [-60, "a slot is named twice"],
    GHOST_UNKNOWN: [-61, "a ghost without a copy"],
    GHOST_TAKEN: [-62, "a create on a copy"],
    GHOST_KIND: [-63, "an update of another kind"],
    GHOST_BLOCK: [-64, "a create without its block"],
    EVENTS_WORN: [-70, "no further event has a number"],
    EVENTS_FULL: [-71, "256 events are unacknowledged"],
    MOVES_WORN: [-72, "no further move has a number"],
    MOVES_FULL: [-73, "32 moves are unacknowledged"],
    MOVE_TOO_WIDE: [-74, "a move has a bit above those that are written"],
    NO_PLACES: [-75, "more pieces than places are free"],
    BAD_LONGEST: [-76, "the longest message is none of 23 to 65,535 bytes"],
    NO_CHANNEL: [-77, "no channel is behind the handle"],
    HAS_CHANNEL: [-78, "a channel is behind the handle already"],
    PIECE_EMPTY: [-80, "a piece without a byte"],
    PIECE_UNKNOWN_FORM: [-81, "a piece of no form"],
    PIECE_NOT_BEGUN: [-82, "a piece of no message"],
    PIECE_NOT_ENDED: [-83, "a message that begins before the last one ended"],
    PIECE_ONE_PIECE: [-84, "a message in pieces that fits one"],
    PIECE_MORE_BYTES: [-85, "a piece with too many bytes"],
    PIECE_FEWER_BYTES: [-86, "a piece with too few bytes"],
    PIECE_TOO_LONG: [-87, "a message that is longer than the channel's longest"],
    NO_TIMELINE: [-90, "no timeline is behind the handle"],
    HAS_TIMELINE: [-91, "a timeline is behind the handle already"],
    BAD_SHAPE: [-92, "a timeline's slots, fields or depth are none"],
    BAD_WAY: [-93, "a field can't go so"],
    NO_SLOT: [-94, "the timeline has no slot of this number"],
    NO_PACKET: [-95, "no packet has this number"],
    GOES_BACK: [-96, "a packet of a higher number told before"],
    NO_CLOCK: [-97, "no clock has these numbers"],
    BAD_PACE: [-98, "a packet takes no time"],
    NO_TIME: [-99, "the time is too great"],
    TIME_GOES_BACK: [-100, "a later time was told before"],
    NOT_NEWER: [-101, "a packet of this or a higher number came before"],
    NO_OFFSET: [-102, "no offset has these numbers"],
    NO_DOOR: [-103, "no door is behind the handle"],
    HAS_DOOR: [-104, "a door is behind the handle already"],
    NOBODY_ASKS: [-105, "nobody asks for a client"],
    NO_SEAT: [-106, "the door has no seat of this number"],
    SEAT_IS_TAKEN: [-107, "the seat is somebody's"],
    NO_KNOCK: [-108, "no client that greets has these numbers"],
    TOKEN_TOO_LONG: [-109, "the token has more than 256 bytes"],
    NO_KEY: [-110, "no key has these numbers"],
    NO_TAG: [-111, "the datagram has fewer bytes than a tag"],
    WRONG_TAG: [-112, "the tag is another datagram's, or nobody's"],
    NO_PRESENCE: [-113, "more goodbyes than there are"],
    NO_QUALITY: [-114, "no quality of a link is behind the handle"],
    HAS_QUALITY: [-115, "a quality of a link is behind the handle already"],
    TOO_MANY_WAIT: [-116, "64 packets wait for their verdicts"],
    NOTHING_WAITS: [-117, "no packet waits for its verdict"],
    SECOND_IS_PAST: [-118, "a time of a later second was told before"],
    NO_RATE: [-119, "no rate has these numbers"],
    BAD_BOUNDS: [-120, "the least rate is 0, or above the most"],
};
const BY_CODE = new Map(Object.entries(REFUSALS).map(([name, [code, words]]) => [code, { name, words }]));

/** A refusal, which changed nothing: its name as in tribes.h without TRIBES_, its code, and the two numbers that tribes.h has beside it. */
export class Refusal extends Error {
    constructor(code, first = 0, second = 0) {
        const { name, words } = BY_CODE.get(code) ?? { name: "UNKNOWN", words: "unknown" };
        super(`${words} (${name} ${first} ${second})`);
        this.name = "Refusal";
        this.why = name;
        this.code = code;
        this.first = first;
        this.second = second;
    }
}
/** An answer; a refusal of a call that tells no more than its code is thrown. */
function byCode(code) {
    if (code < 0) throw new Refusal(code);
    return code;
}
const refusalOf = (name, first, second) => new Refusal(REFUSALS[name][0], first, second);

/** What a datagram of the network's may be refused for: BITS_SHORT to GHOST_BLOCK. */
const isOfDatagram = (code) => code <= REFUSALS.BITS_SHORT[0] && code >= REFUSALS.GHOST_BLOCK[0];

/** What was given, without asking an object anything. */
function inWords(given) {
    if (typeof given === "string") return JSON.stringify(given.slice(0, 40));
    return (typeof given === "object" && given !== null) || typeof given === "function" ? `of type ${typeof given}` : String(given);
}

/** An argument is not what is wanted there, as undefined for a number, or bytes of a buffer that was handed on. Nothing was called. */
export class BadArgument extends TypeError {
    constructor(argument, wanted, given) {
        super(`${argument} is ${inWords(given)}, and wanted is ${wanted}`);
        this.name = "BadArgument";
        this.argument = argument;
    }
}

/** The module trapped, as `cause` tells: its memory may be half written, so that it is not called any more. */
export class Broken extends Error {
    constructor(cause) {
        super(`the module trapped (${cause.message}), and is not called any more`, { cause });
        this.name = "Broken";
    }
}

// ---- arguments

function u32(argument, it) {
    if (typeof it !== "number" || it >>> 0 !== it) throw new BadArgument(argument, "a whole number from 0 to 4,294,967,295", it);
    return it;
}

function i32(argument, it) {
    if (typeof it !== "number" || (it | 0) !== it) throw new BadArgument(argument, "a whole number of 32 bits", it);
    return it;
}

function u16(argument, it) {
    if (u32(argument, it) > 65_535) throw new BadArgument(argument, "a whole number from 0 to 65,535", it);
    return it;
}

/** The two words of a number from 0 to 2^53 - 1, the lower first. */
function halvesOf(argument, it) {
    if (exact(argument, it) < 0) throw new BadArgument(argument, "a number from 0 on", it);
    return [it >>> 0, Math.floor(it / TWO_32)];
}

function flag(argument, it) {
    if (typeof it !== "boolean") throw new BadArgument(argument, "true or false", it);
    return it ? 1 : 0;
}

function exact(argument, it) {
    if (!Number.isSafeInteger(it)) throw new BadArgument(argument, "a whole number of at most 53 bits", it);
    return it;
}

function list(argument, it) {
    if (!Array.isArray(it)) throw new BadArgument(argument, "a list", it);
    return it;
}

function object(argument, it) {
    if (typeof it !== "object" || it === null) throw new BadArgument(argument, "an object", it);
    return it;
}

const toBytes = new TextEncoder();

/** The bytes of an array of numbers of any width or of a buffer, and where text may stand of text in UTF-8. */
function bytesOf(argument, it, mayBeText) {
    if (it instanceof Uint8Array && it.length > 0) return it;
    if (mayBeText && typeof it === "string") return toBytes.encode(it);
    try {
        const isView = ArrayBuffer.isView(it), buffer = isView ? it.buffer : it;
        if (isView && it.byteLength > 0) return new Uint8Array(buffer, it.byteOffset, it.byteLength);
        // Of a buffer that was handed on no array can be made: that tells it from an empty one.
        if (isView || /^\[object (Shared)?ArrayBuffer\]$/.test(Object.prototype.toString.call(it))) return new Uint8Array(buffer, 0, isView ? 0 : undefined);
    } catch {
        throw new BadArgument(argument, "bytes, and not those of a buffer that was handed on", it);
    }
    throw new BadArgument(argument, mayBeText ? "a text or bytes" : "bytes", it);
}

/** How many bytes of a datagram have room in the place, if there is one. */
function roomOf(place) {
    if (place === undefined) return MAX_DATAGRAM;
    if (!(place instanceof Uint8Array)) throw new BadArgument("the place", "a Uint8Array", place);
    return Math.min(place.length, MAX_DATAGRAM);
}

// ---- moves: parts side by side, the first in the lowest bits, as tribes_put_bits and tribes_take_bits have them

const mask = (width) => (width === 32 ? -1 : (1 << width) - 1);

/** The two halves of a move's 64 bits. */
function putParts(widths, parts, halves) {
    if (list("the move", parts).length !== widths.length) throw new BadArgument("the move", `a list of ${widths.length} parts`, parts.length);
    let at = 0, lo = 0, hi = 0;
    for (let k = 0; k < widths.length; k++) {
        const width = widths[k], part = exact(`part ${k} of the move`, parts[k]);
        if (part < 0 || part >= 2 ** width) throw refusalOf("BAD_VALUES", k, width);
        const high = Math.floor(part / TWO_32);
        if (at < 32) {
            lo |= part << at;
            hi |= (high << at) | (at > 0 ? part >>> (32 - at) : 0);
        } else if (at < 64) hi |= part << (at - 32);
        at += width;
    }
    halves[0] = lo >>> 0;
    halves[1] = hi >>> 0;
}

/** The parts of a move. */
function takeParts(widths, lo, hi) {
    let at = 0;
    return widths.map((width) => {
        const low = at === 0 ? lo : at < 32 ? (lo >>> at) | (hi << (32 - at)) : at < 64 ? hi >>> (at - 32) : 0, high = at < 32 ? hi >>> at : 0;
        at += width;
        return width <= 32 ? (low & mask(width)) >>> 0 : ((high & mask(width - 32)) >>> 0) * TWO_32 + (low >>> 0);
    });
}

// ---- the module

/** Loads the module: from a response, from bytes, or from one that is compiled, or a promise of one of them. */
export async function load(source) {
    let from = await source;
    if (typeof Response !== "undefined" && from instanceof Response) {
        if (!from.ok) throw new Error(`the module is not there: ${from.status} ${from.statusText}`);
        from = await from.arrayBuffer();
    }
    const isCompiled = from instanceof WebAssembly.Module;
    if (!isCompiled) from = bytesOf("the module", from, false);
    const made = await WebAssembly.instantiate(from, {});
    return new Tribes((isCompiled ? made : made.instance).exports);
}

/** What a call of C's writes or reads lies at a fixed place of the module's memory, in so many bytes. */
const PLACES = { why: 16, count: 8, number: 8, small: 48, bytes: MAX_READ, asks: 8 * MAX_ASKS, values: 8 * MAX_ASKS, fields: 8 * MAX_FIELDS };

/** A module: its exports, and the places through which its calls are handed what C would hand over. */
class Tribes {
    constructor(exports) {
        this.reason = null;
        this.isAsking = false;
        // The exports as in C, an address or a number of 64 bits as two of 32, the lower first: for who brings buffers of his own.
        this.calls = { memory: exports.memory };
        for (const [name, call] of Object.entries(exports)) if (typeof call === "function") this.calls[name] = this.guarded(call);
        const version = this.calls.tribes_version();
        if (version !== VERSION) throw new Error(`the module has version ${version} of the interface, and not ${VERSION}`);
        this.ends = new FinalizationRegistry((at) => this.reason === null && this.release(at));
        this.channels = new FinalizationRegistry((at) => this.reason === null && this.close(at));
        this.timelines = new FinalizationRegistry((at) => this.reason === null && this.releaseTimeline(at));
        this.to = {};
        for (const [name, size] of Object.entries(PLACES)) this.to[name] = this.take(size);
        this.look();
    }

    /** The export, as one after whose trap no export is called. */
    guarded(call) {
        return (...words) => {
            if (this.reason !== null) throw new Broken(this.reason);
            try {
                return call(...words);
            } catch (error) {
                this.reason = error;
                throw new Broken(error);
            }
        };
    }

    /** The server's end of the connection to one client. */
    server(config, kinds, blocks = []) {
        return new Server(this, config, kinds, blocks);
    }

    /** A client's end of its connection. */
    client(config, kinds) {
        return new Client(this, config, kinds);
    }

    /**
     * Messages of any length over one end: it holds so many pieces of 24 bytes that are still to be posted, for messages that come with at most
     * `longest` bytes.
     */
    channel(places, longest) {
        return new Channel(this, places, longest);
    }

    /** What a client draws of the others: `ways` has for each kind how its fields go, "stepped", "linear" or { least, most } of a circle. */
    timeline(ways, how = {}) {
        return new Timeline(this, ways, how);
    }

    /** Which moment is drawn. `now` are the caller's milliseconds, which never go back. */
    clock(pace, now) {
        return new Clock(this, pace, now);
    }

    /** What hides corrections of one field: at most so much either way. */
    offset(most) {
        return new Offset(this, most);
    }

    /** How many bytes the module's memory has. */
    get memoryBytes() {
        return this.calls.memory.buffer.byteLength;
    }

    /** Looks at the memory as it is now. It grows where an end or a channel is made, and there alone. */
    look() {
        const { buffer } = this.calls.memory;
        this.bytes = new Uint8Array(buffer);
        this.words = new Uint32Array(buffer);
    }

    take(size) {
        const at = this.calls.tribes_take(size);
        if (at === 0) throw refusalOf("NO_MEMORY");
        return at;
    }

    /** The word at a place, or so many words behind it. */
    word(place, further = 0) {
        return this.words[(this.to[place] >> 2) + further];
    }

    /** Copies bytes in, and gives how many. */
    bring(bytes, most) {
        if (bytes.length > MAX_READ) throw refusalOf("TOO_LONG", most);
        if (this.words.length === 0) this.look();
        this.bytes.set(bytes, this.to.bytes);
        return bytes.length;
    }

    /** Copies out as many bytes as a call counted: into the place, if there is one, of which the bytes are then a part. */
    bytesOut(place) {
        const from = this.to.bytes, count = this.word("count");
        if (place === undefined) return this.bytes.slice(from, from + count);
        for (let k = 0; k < count; k++) place[k] = this.bytes[from + k];
        return place.subarray(0, count);
    }

    why() {
        return new Refusal(this.word("why") | 0, this.word("why", 1), this.word("why", 2));
    }

    /** Makes an end behind a handle of zeros, from tables that are written out for the call, and gives the handle's address. */
    make(call, config, kinds, blocks) {
        if (this.isAsking) throw new Error("an end is made while a datagram's values are asked for");
        const held = [];
        const table = (bytes, rows, write) => {
            const at = this.take(Math.max(16, bytes * rows.length));
            held.push(at);
            const view = new DataView(this.calls.memory.buffer, at);
            rows.forEach((row, k) => write(view, bytes * k, row));
            return [at, 0, rows.length, 0];
        };
        const word = (view, at, it) => view.setUint32(at, it, true);
        try {
            const [handle] = table(4, [0, 0, 0, 0], word), [row] = table(4, config, word);
            const tables = [
                ...table(8, kinds, (view, at, it) => (word(view, at, it.fields.length), word(view, at + 4, it.weight))),
                ...table(24, kinds.flatMap((it) => it.fields), (view, at, { lo, hi, bits }) => {
                    [lo, Math.floor(lo / TWO_32), hi, Math.floor(hi / TWO_32), bits].forEach((it, k) => word(view, at + 4 * k, it));
                }),
            ];
            if (blocks) {
                tables.push(...table(1, blocks.flatMap((it) => [...it]), (view, at, it) => view.setUint8(at, it)));
                tables.push(...table(4, blocks.map((it) => it.length), word));
            }
            const code = this.calls[call](handle, 0, row, 0, ...tables, this.to.why, 0);
            this.look();
            if (code < 0) throw this.why();
            held.shift();
            return handle;
        } finally {
            if (this.reason === null) for (const at of held) this.calls.tribes_give(at);
        }
    }

    /** Frees an end, and its handle. */
    release(at) {
        this.calls.tribes_free(at, 0);
        this.calls.tribes_give(at);
    }

    /** Makes a channel behind a handle of zeros, and gives the handle's address. */
    open(places, longest) {
        if (this.isAsking) throw new Error("a channel is made while a datagram's values are asked for");
        const at = this.take(16);
        this.look();
        this.words.fill(0, at >> 2, (at >> 2) + 4);
        const code = this.calls.tribes_channel_open(at, 0, places, longest, this.to.why, 0);
        this.look();
        if (code >= 0) return at;
        this.calls.tribes_give(at);
        throw this.why();
    }

    /** Frees a channel, and its handle. */
    close(at) {
        this.calls.tribes_channel_free(at, 0);
        this.calls.tribes_give(at);
    }

    releaseTimeline(at) {
        this.calls.tribes_timeline_free(at, 0);
        this.calls.tribes_give(at);
    }

    /** Makes a timeline behind a handle of zeros, and gives the handle's address. */
    makeTimeline(shape, rows) {
        if (this.isAsking) throw new Error("a timeline is made while a datagram's values are asked for");
        const held = [this.take(16)];
        try {
            held.push(this.take(Math.max(16, 12 * rows.length)));
            this.look();
            const [handle, table] = held;
            this.words.set([0, 0, 0, 0], handle >> 2);
            this.words.set(shape, this.to.small >> 2);
            rows.forEach((row, k) => this.words.set(row, (table >> 2) + 3 * k));
            const code = this.calls.tribes_timeline_open(handle, 0, this.to.small, 0, table, 0, rows.length, 0);
            this.look();
            held.push(...(byCode(code) === 0 ? [held.shift()] : []));
            return held.pop();
        } finally {
            if (this.reason === null) for (const at of held) this.calls.tribes_give(at);
        }
    }
}

// ---- what an end is made with

/** The parts' widths of a configuration, and its row. */
function configOf({ client, life, size, version, move }) {
    const widths = list("config.move", move).map((it, k) => u32(`config.move[${k}]`, it));
    const wide = widths.find((it) => it > MAX_PART_BITS);
    if (wide !== undefined) throw new BadArgument("config.move", `parts of at most ${MAX_PART_BITS} bits`, wide);
    if (widths.length === 0) throw new BadArgument("config.move", "a list of one part or more", "empty");
    const row = { client, life, size, version };
    const numbers = Object.entries(row).map(([name, it]) => u32(`config.${name}`, it));
    return [widths, [...numbers, Math.min(widths.reduce((sum, it) => sum + it, 0), 4_294_967_295)]];
}

function kindsOf(kinds) {
    return list("kinds", kinds).map((it, k) => {
        const { weight, fields } = object(`kinds[${k}]`, it), name = (f) => `kinds[${k}].fields[${f}]`;
        if (u32(`kinds[${k}].weight`, weight) > 255) throw new BadArgument(`kinds[${k}].weight`, "a whole number from 0 to 255", weight);
        const rows = list(`kinds[${k}].fields`, fields).map((row, f) => {
            const { lo, hi, bits } = object(name(f), row);
            return { lo: exact(`${name(f)}.lo`, lo), hi: exact(`${name(f)}.hi`, hi), bits: u32(`${name(f)}.bits`, bits) };
        });
        return { weight, fields: rows };
    });
}

// ---- channels

/** Messages of any length over one end, and short events in one order with them. The guaranteed events of that end are its pieces. */
export class Channel {
    constructor(tribes, places, longest) {
        this._tribes = tribes;
        this._longest = u32("the longest message", longest);
        this._at = tribes.open(u32("the places", places), longest);
        tribes.channels.register(this, this._at, this);
    }

    /** Frees the channel. One that is not freed is so some time after the last reference to it is gone. */
    free() {
        if (this._at === 0) return;
        const at = this._at;
        this._at = 0;
        this._tribes.channels.unregister(this);
        this._tribes.close(at);
    }

    [Symbol.dispose ?? Symbol.for("Symbol.dispose")]() {
        this.free();
    }

    /** A call's answer; a refusal is thrown. */
    _done(code) {
        if (code >= 0) return code;
        this._tribes.calls.tribes_channel_why(this._at, 0, this._tribes.to.why, 0);
        throw this._tribes.why();
    }

    /** How many pieces wait to be posted, and how many more may. */
    places() {
        const { to } = this._tribes;
        if (this._at === 0) throw refusalOf("NO_CHANNEL");
        this._tribes.calls.tribes_channel_counts(this._at, 0, to.small, 0);
        return { held: this._tribes.word("small"), free: this._tribes.word("small", 1) };
    }
}

/** The address of a channel of these calls. */
function channelOf(tribes, it) {
    if (!(it instanceof Channel) || it._tribes !== tribes) throw new BadArgument("the channel", "a channel of this module", it);
    if (it._at === 0) throw refusalOf("NO_CHANNEL");
    return it._at;
}

// ---- ends

/** What both ends have. */
class End {
    constructor(tribes, call, config, kinds, blocks) {
        const [widths, row] = configOf(object("config", config));
        this._tribes = tribes;
        this._widths = widths;
        this._at = 0;
        this._at = tribes.make(call, row, kindsOf(kinds), blocks);
        tribes.ends.register(this, this._at, this);
    }

    /** Frees the end. One that is not freed is so some time after the last reference to it is gone. */
    free() {
        if (this._at === 0) return;
        const at = this._at;
        this._at = 0;
        this._tribes.ends.unregister(this);
        this._tribes.release(at);
    }

    [Symbol.dispose ?? Symbol.for("Symbol.dispose")]() {
        this.free();
    }

    /** The module's exports, where the end was not freed. */
    _calls() {
        const tribes = this._tribes;
        if (this._at === 0) throw refusalOf("NO_END");
        if (tribes.words.length === 0) tribes.look();
        return tribes.calls;
    }

    /** The refusal that the last call of this end came to. */
    _refused() {
        this._tribes.calls.tribes_why(this._at, 0, this._tribes.to.why, 0);
        return this._tribes.why();
    }

    /** A call's answer; a refusal is thrown. */
    _done(code) {
        if (code < 0) throw this._refused();
        return code;
    }

    _pack(count, place) {
        const { to } = this._tribes, room = roomOf(place);
        const code = this._done(this._calls().tribes_pack(this._at, 0, to.values, 0, count, 0, to.bytes, 0, room, 0, to.count, 0));
        return code === 0 ? null : this._tribes.bytesOut(place);
    }

    _arrive(datagram, room) {
        const bytes = bytesOf("the datagram", datagram, false), calls = this._calls(), { to } = this._tribes;
        // (a stranger may send what is longer, so that it is answered)
        if (bytes.length > MAX_READ) return refusalOf("TOO_LONG", MAX_READ);
        const code = calls.tribes_arrive(this._at, 0, to.bytes, 0, this._tribes.bring(bytes), 0, room, to.number, 0);
        if (code >= 0) return null;
        const refusal = this._refused();
        if (isOfDatagram(refusal.code)) return refusal;
        throw refusal;
    }

    /** The rows of so many words that a call listed. */
    _listed(size, read) {
        const { to, words } = this._tribes, rows = [];
        for (let left = this._tribes.word("number"), at = to.bytes >> 2; left > 0; left--, at += size) rows.push(read(words, at));
        return rows;
    }

    _moves(call) {
        const { to } = this._tribes;
        this._done(this._calls()[call](this._at, 0, to.bytes, 0, MAX_MOVES, 0, to.number, 0));
        return this._listed(2, (words, at) => takeParts(this._widths, words[at], words[at + 1]));
    }

    /** Posts an event of up to 24 bytes: a guaranteed one comes once and in order, and its number is answered; another may be lost. */
    post(event, how = {}) {
        const bytes = bytesOf("the event", event, true), { guaranteed = true } = object("how it is posted", how);
        const kept = flag("guaranteed", guaranteed), calls = this._calls(), { to } = this._tribes;
        this._done(calls.tribes_post(this._at, 0, to.bytes, 0, this._tribes.bring(bytes, MAX_EVENT), 0, kept, to.number, 0));
        return guaranteed ? this._tribes.word("number") : null;
    }

    /** The oldest event that waits, or null. */
    event() {
        const { to } = this._tribes;
        const code = this._done(this._calls().tribes_event(this._at, 0, to.bytes, 0, MAX_EVENT, 0, to.count, 0));
        return code === 0 ? null : { bytes: this._tribes.bytesOut(), guaranteed: code === 2 };
    }

    /** Takes out the events that wait, oldest first: they have to be out before the next datagram arrives. */
    *events() {
        for (let it = this.event(); it; it = this.event()) yield it;
    }

    /** Posts a message, or a short event of up to 23 bytes, whole or not at all. One that may be lost has up to 23 bytes. */
    postMessage(channel, message, how = {}) {
        const bytes = bytesOf("the message", message, true), { guaranteed = true, short = false } = object("how it is posted", how);
        const kept = flag("guaranteed", guaranteed), kind = 1 - flag("short", short), at = channelOf(this._tribes, channel), calls = this._calls();
        const { to } = this._tribes;
        channel._done(calls.tribes_post_message(this._at, 0, at, 0, kind, to.bytes, 0, this._tribes.bring(bytes, MAX_MESSAGE), 0, kept));
    }

    /** The oldest message or short event that is whole, or null. */
    message(channel) {
        const { to } = this._tribes, at = channelOf(this._tribes, channel);
        const code = channel._done(this._calls().tribes_message(this._at, 0, at, 0, to.bytes, 0, channel._longest, 0, to.number, 0, to.count, 0));
        return code === 0 ? null : { bytes: this._tribes.bytesOut(), short: this._tribes.word("number") === 0, guaranteed: code === 2 };
    }

    /** Takes out what is whole, oldest first: after a datagram arrived, and before the next one is packed. */
    *messages(channel) {
        for (let it = this.message(channel); it; it = this.message(channel)) yield it;
    }

    /** The bytes of a block: at the server one of its own, at the client one that came. */
    block(number) {
        const { to } = this._tribes;
        this._done(this._calls().tribes_block(this._at, 0, u32("the block", number), to.bytes, 0, MAX_BLOCK, 0, to.count, 0));
        return this._tribes.bytesOut();
    }

    /** What the end counted, and the places that it has free. */
    counts() {
        const { to } = this._tribes;
        this._done(this._calls().tribes_counts(this._at, 0, to.small, 0));
        const first = to.small >> 2;
        const [sent, unjudged, taken, delivered, waiting, moves, accepted, eventPlaces, loosePlaces, movePlaces] = this._tribes.words.subarray(first, first + 10);
        return { sent, unjudged, taken, delivered, waiting, moves, accepted, eventPlaces, loosePlaces, movePlaces };
    }

    /** What became of the data packets that the last datagram judged, by rising number. */
    verdicts() {
        const { to } = this._tribes;
        this._done(this._calls().tribes_verdicts(this._at, 0, to.bytes, 0, MAX_JUDGED, 0, to.number, 0));
        return this._listed(2, (words, at) => ({ number: words[at], received: words[at + 1] === 1 }));
    }
}

/** The server's end of the connection to one client. */
export class Server extends End {
    constructor(tribes, config, kinds, blocks) {
        super(tribes, "tribes_server", config, kinds, list("blocks", blocks).map((it, k) => bytesOf(`blocks[${k}]`, it, true)));
    }

    /** Shows an object, and gives the number of its period. */
    show(shown) {
        const { kind, block = 0, level = 0, control = false } = object("what is shown", shown), { to } = this._tribes, calls = this._calls();
        const row = [u32("kind", kind), u32("block", block), u32("level", level), flag("control", control)];
        this._tribes.words.set(row, to.small >> 2);
        this._done(calls.tribes_show(this._at, 0, to.small, 0, to.number, 0));
        return this._tribes.word("number");
    }

    hide(n) {
        this._done(this._calls().tribes_hide(this._at, 0, u32("the period", n)));
    }

    near(n, level) {
        this._done(this._calls().tribes_near(this._at, 0, u32("the period", n), u32("the level", level)));
    }

    /** Notes that fields have new values: bit f for field f. */
    changed(n, bits) {
        this._done(this._calls().tribes_changed(this._at, 0, u32("the period", n), u32("the bits", bits)));
    }

    /** Whether the client has the newest value of a field. */
    settled(n, field) {
        return this._done(this._calls().tribes_settled(this._at, 0, u32("the period", n), u32("the field", field))) === 1;
    }

    /** The slot that the period holds at the client, or null. */
    slot(n) {
        const { to } = this._tribes;
        return this._done(this._calls().tribes_slot(this._at, 0, u32("the period", n), to.number, 0)) === 1 ? this._tribes.word("number") : null;
    }

    /**
     * The next datagram, with the values that it asks for: of a field of a period, as it is now. Null where the connection is worn. It is written
     * into the place, if one is given, and else into bytes of its own.
     */
    pack(value, place) {
        const tribes = this._tribes, { to } = tribes, calls = this._calls();
        roomOf(place);
        if (typeof value !== "function") throw new BadArgument("the value", "a function of a period and a field", value);
        if (tribes.isAsking) throw new Error("a datagram is packed while another's values are asked for");
        this._done(calls.tribes_plan(this._at, 0, to.asks, 0, MAX_ASKS, 0, to.count, 0));
        const count = tribes.word("count");
        tribes.isAsking = true;
        try {
            const { words } = tribes, end = (to.asks >> 2) + 2 * count;
            for (let ask = to.asks >> 2, at = to.values >> 2; ask < end; ask += 2, at += 2) {
                const given = value(words[ask], words[ask + 1]);
                if ((given | 0) === given) {
                    words[at] = given;
                    words[at + 1] = given >> 31;
                } else {
                    words[at] = exact(`the value of field ${words[ask + 1]} of period ${words[ask]}`, given);
                    words[at + 1] = Math.floor(given / TWO_32);
                }
            }
            if (words !== tribes.words || words.length === 0) throw new Error("the memory grew while a datagram's values were asked for");
        } finally {
            tribes.isAsking = false;
        }
        return this._pack(count, place);
    }

    /** Takes a datagram, where so many further moves have room. Gives null where it was taken, and else why it was refused. */
    arrive(datagram, room = MAX_MOVES) {
        return this._arrive(datagram, u32("the room", room));
    }

    /** The moves that the last datagram newly brought, oldest first, each as its parts. */
    moves() {
        return this._moves("tribes_moves");
    }
}

/** A client's end of its connection. */
export class Client extends End {
    constructor(tribes, config, kinds) {
        super(tribes, "tribes_client", config, kinds, null);
        this._halves = [0, 0];
    }

    /** The next datagram, in the place, if one is given; null where the connection is worn. */
    pack(place) {
        return this._pack(0, place);
    }

    /** Takes a datagram. Gives null where it was taken, and else why it was refused. */
    arrive(datagram) {
        return this._arrive(datagram, 0);
    }

    /** Takes up a move, a list of its parts, and gives its number. */
    sample(move) {
        const { to } = this._tribes, calls = this._calls(), halves = this._halves;
        putParts(this._widths, move, halves);
        this._done(calls.tribes_sample(this._at, 0, halves[0], halves[1], to.number, 0));
        return this._tribes.word("number");
    }

    /** The moves that the server isn't known to have, the oldest first: from number `accepted` of the counts on. */
    pending() {
        return this._moves("tribes_pending");
    }

    /** The slot of the client's own object, or null. */
    control() {
        const { to } = this._tribes;
        return this._done(this._calls().tribes_control(this._at, 0, to.number, 0)) === 1 ? this._tribes.word("number") : null;
    }

    /** The copy in a slot, or null. */
    copy(slot) {
        const { to } = this._tribes, calls = this._calls();
        if (calls.tribes_copy(this._at, 0, u32("the slot", slot), to.small, 0, to.fields, 0, MAX_FIELDS, 0) < 0) {
            const refusal = this._refused();
            if (refusal.why === "NO_COPY") return null;
            throw refusal;
        }
        const { words } = this._tribes, values = [];
        for (let left = this._tribes.word("small", 2), at = to.fields >> 2; left > 0; left--, at += 2) {
            values.push((words[at + 1] | 0) * TWO_32 + words[at]);
        }
        return { kind: this._tribes.word("small"), block: this._tribes.word("small", 1), values };
    }

    /** The slots that hold a copy, by rising number. */
    *slots() {
        const { to } = this._tribes;
        for (let from = 0; this._done(this._calls().tribes_next_copy(this._at, 0, from, to.number, 0)) === 1; ) {
            const slot = this._tribes.word("number");
            yield slot;
            from = slot + 1;
        }
    }

    /** Each copy with its slot. */
    *copies() {
        for (const slot of this.slots()) yield [slot, this.copy(slot)];
    }

    /** What the last datagram did to slots: the copy is gone, or new, or fields of it have new values (bit f: field f). */
    changes() {
        const { to } = this._tribes, what = ["gone", "new", "updated"];
        this._done(this._calls().tribes_changes(this._at, 0, to.bytes, 0, MAX_CHANGES, 0, to.number, 0));
        return this._listed(3, (words, at) => ({ slot: words[at], what: what[words[at + 1]], fields: words[at + 2] }));
    }
}

// ---- what a client draws

/** The row of how a field goes. */
function wayOf(argument, it) {
    if (it === "stepped") return [0, 0, 0];
    if (it === "linear") return [1, 0, 0];
    const { least, most } = object(argument, it);
    return [2, i32(`${argument}.least`, least), i32(`${argument}.most`, most)];
}

/** The last values that came of each field of each slot, and between two of them a value for each moment. A moment is a packet's number times 256. */
export class Timeline {
    constructor(tribes, ways, how) {
        const { slots = 256, depth = 8 } = object("how it is kept", how);
        const kinds = list("ways", ways).map((it, k) => list(`ways[${k}]`, it).map((way, f) => wayOf(`ways[${k}][${f}]`, way)));
        const fields = Math.max(1, ...kinds.map((it) => it.length));
        const rows = kinds.flatMap((it) => [...it, ...Array(fields - it.length).fill([0, 0, 0])]);
        this._tribes = tribes;
        this._at = 0;
        this._at = tribes.makeTimeline([u32("slots", slots), fields, u32("depth", depth)], rows);
        tribes.timelines.register(this, this._at, this);
    }

    /** Frees the timeline. One that is not freed is so some time after the last reference to it is gone. */
    free() {
        if (this._at === 0) return;
        const at = this._at;
        this._at = 0;
        this._tribes.timelines.unregister(this);
        this._tribes.releaseTimeline(at);
    }

    [Symbol.dispose ?? Symbol.for("Symbol.dispose")]() {
        this.free();
    }

    _calls() {
        const tribes = this._tribes;
        if (this._at === 0) throw refusalOf("NO_TIMELINE");
        if (tribes.words.length === 0) tribes.look();
        return tribes.calls;
    }

    /** Takes over what the packet that the client took last did to slots: once after each datagram that was taken. */
    take(client) {
        if (!(client instanceof Client) || client._tribes !== this._tribes) throw new BadArgument("the client", "a client of the same module", client);
        client._calls();
        byCode(this._calls().tribes_timeline_take(this._at, 0, client._at, 0));
    }

    /** A copy of this kind is in the slot from this packet on. */
    began(slot, packet, kind) {
        byCode(this._calls().tribes_timeline_began(this._at, 0, u32("the slot", slot), u32("the packet", packet), u32("the kind", kind)));
    }

    /** This packet brought a value of a field. */
    came(slot, packet, field, value) {
        const words = [u32("the slot", slot), u32("the packet", packet), u32("the field", field), i32("the value", value)];
        byCode(this._calls().tribes_timeline_came(this._at, 0, ...words));
    }

    /** The slot's copy is gone by this packet. */
    ended(slot, packet) {
        byCode(this._calls().tribes_timeline_ended(this._at, 0, u32("the slot", slot), u32("the packet", packet)));
    }

    /** The value of a field at a moment, or null. */
    value(slot, field, at) {
        const tribes = this._tribes, { to } = tribes, moment = halvesOf("the moment", at);
        const code = this._calls().tribes_timeline_value(this._at, 0, u32("the slot", slot), u32("the field", field), ...moment, to.count, 0);
        return byCode(code) === 1 ? (tribes.word("count", 1) | 0) * TWO_32 + tribes.word("count") : null;
    }

    /** The kind of the copy that is drawn in the slot at a moment, or null. */
    kind(slot, at) {
        const { to } = this._tribes, moment = halvesOf("the moment", at);
        const code = this._calls().tribes_timeline_kind(this._at, 0, u32("the slot", slot), ...moment, to.number, 0);
        return byCode(code) === 1 ? this._tribes.word("number") : null;
    }
}

/** Numbers that a call reads and writes, and that are kept here between two calls. */
class Kept {
    constructor(tribes, words) {
        this._tribes = tribes;
        this._words = new Uint32Array(words);
    }

    _does(call, ...words) {
        const tribes = this._tribes, first = tribes.to.small >> 2;
        if (tribes.words.length === 0) tribes.look();
        tribes.words.set(this._words, first);
        byCode(tribes.calls[call](tribes.to.small, 0, ...words));
        this._words.set(tribes.words.subarray(first, first + this._words.length));
    }
}

/** Which moment is drawn: it follows the packets that come. */
export class Clock extends Kept {
    constructor(tribes, pace, now) {
        super(tribes, 12);
        const { period, delay = 2, ahead = 2 } = object("the pace", pace), { to } = tribes, time = halvesOf("the time", now);
        const row = [u32("the period", period), u16("the delay", delay) | (u16("ahead", ahead) << 16)];
        if (tribes.words.length === 0) tribes.look();
        tribes.words.set(row, to.fields >> 2);
        this._does("tribes_clock_start", to.fields, 0, ...time);
    }

    /** A data packet came, which is newer than those before. */
    came(packet, now) {
        this._does("tribes_clock_came", u32("the packet", packet), ...halvesOf("the time", now));
    }

    /** The moment to draw. */
    moment(now) {
        const tribes = this._tribes;
        this._does("tribes_clock_moment", ...halvesOf("the time", now), tribes.to.number, 0);
        return tribes.word("number", 1) * TWO_32 + tribes.word("number");
    }
}

/** What hides corrections of one field. Shown is the field's value plus it. */
export class Offset extends Kept {
    constructor(tribes, most) {
        super(tribes, 4);
        this._words[0] = u32("the bound", most);
    }

    /** The value, which was predicted as `was`, is `is`: what is shown stays. */
    corrected(was, is) {
        this._does("tribes_offset_corrected", i32("the value before", was), i32("the value", is));
    }

    /** A step passed: three quarters are left. */
    faded() {
        this._does("tribes_offset_faded");
    }

    /** What is to be added to the field's value where it is shown. */
    value() {
        const tribes = this._tribes;
        this._does("tribes_offset_value", tribes.to.number, 0);
        return (tribes.word("number", 1) | 0) * TWO_32 + tribes.word("number");
    }
}

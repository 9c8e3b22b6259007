// The types of tribes.mjs, which says what each call does.

export const VERSION: 2;
export const MAX_DATAGRAM: 1200;
export const MAX_EVENT: 24;
export const MAX_BLOCK: 40;
export const MAX_MOVE_BITS: 64;
export const MAX_SHORT: 23;
export const MAX_MESSAGE: 65535;

/** The client's number, 0 to 15; the life of each counter; the bytes of a datagram at the most; the version of the datagrams; and the widths of a move's parts. */
export interface Config {
    client: number;
    life: number;
    size: number;
    version: 1 | 2 | 3;
    /** The first stands in the lowest bits. Each is 0 to 53, and all are 64 at most; 10 in versions 1 and 2. */
    move: number[];
}

/** Holds lo to hi, which are safe integers, and travels in so many bits. */
export interface Field {
    lo: number;
    hi: number;
    bits: number;
}

/** A kind of object: how much it weighs in a packet's order, 0 to 255, and its fields. */
export interface Kind {
    weight: number;
    fields: Field[];
}

/** A move: a number for each width of the configuration. */
export type Move = number[];
export type Bytes = ArrayBufferView | ArrayBuffer | SharedArrayBuffer;

export interface Shown {
    kind: number;
    block?: number;
    /** Of distance, 0 (near) to 3. */
    level?: number;
    /** It is the client's own. */
    control?: boolean;
}

export interface Copy {
    kind: number;
    block: number;
    values: number[];
}

export interface Event {
    bytes: Uint8Array;
    guaranteed: boolean;
}

export interface Message {
    bytes: Uint8Array;
    /** It is a short event, and no message. */
    short: boolean;
    guaranteed: boolean;
}

export interface Places {
    held: number;
    free: number;
}

export interface Verdict {
    number: number;
    received: boolean;
}

export interface Change {
    slot: number;
    what: "gone" | "new" | "updated";
    /** Bit f: field f. */
    fields: number;
}

export interface Counts {
    sent: number;
    unjudged: number;
    taken: number;
    delivered: number;
    waiting: number;
    moves: number;
    accepted: number;
    eventPlaces: number;
    loosePlaces: number;
    movePlaces: number;
}

export class Refusal extends Error {
    readonly why: string;
    readonly code: number;
    readonly first: number;
    readonly second: number;
}

export class BadArgument extends TypeError {
    readonly argument: string;
}

export class Broken extends Error {}

export class Channel {
    private constructor();
    free(): void;
    places(): Places;
}

declare class End {
    free(): void;
    post(event: string | Bytes, how?: { guaranteed?: boolean }): number | null;
    event(): Event | null;
    events(): Generator<Event, void>;
    postMessage(channel: Channel, message: string | Bytes, how?: { guaranteed?: boolean; short?: boolean }): void;
    message(channel: Channel): Message | null;
    messages(channel: Channel): Generator<Message, void>;
    block(number: number): Uint8Array;
    counts(): Counts;
    verdicts(): Verdict[];
}

export class Server extends End {
    private constructor();
    show(shown: Shown): number;
    hide(n: number): void;
    near(n: number, level: number): void;
    changed(n: number, bits: number): void;
    settled(n: number, field: number): boolean;
    slot(n: number): number | null;
    pack(value: (n: number, field: number) => number, place?: Uint8Array): Uint8Array | null;
    arrive(datagram: Bytes, room?: number): Refusal | null;
    moves(): Move[];
}

export class Client extends End {
    private constructor();
    pack(place?: Uint8Array): Uint8Array | null;
    arrive(datagram: Bytes): Refusal | null;
    sample(move: Move): number;
    pending(): Move[];
    control(): number | null;
    copy(slot: number): Copy | null;
    slots(): Generator<number, void>;
    copies(): Generator<[number, Copy], void>;
    changes(): Change[];
}

/** How a field goes from one value to the next; the last is the short way round a circle. */
export type Way = "stepped" | "linear" | { least: number; most: number };

export class Timeline {
    private constructor();
    free(): void;
    take(client: Client): void;
    began(slot: number, packet: number, kind: number): void;
    came(slot: number, packet: number, field: number, value: number): void;
    ended(slot: number, packet: number): void;
    value(slot: number, field: number, at: number): number | null;
    kind(slot: number, at: number): number | null;
}

/** Milliseconds from one packet of the server to the next; packets that what is drawn lies behind the last one; and that it may be ahead of it. */
export interface Pace {
    period: number;
    delay?: number;
    ahead?: number;
}

export class Clock {
    private constructor();
    came(packet: number, now: number): void;
    moment(now: number): number;
}

export class Offset {
    private constructor();
    corrected(was: number, is: number): void;
    faded(): void;
    value(): number;
}

declare class Tribes {
    private constructor();
    /** The exports as in C, an address or a number of 64 bits as two of 32, the lower first. */
    readonly calls: Record<string, Function> & { memory: WebAssembly.Memory };
    readonly memoryBytes: number;
    server(config: Config, kinds: Kind[], blocks?: (string | Bytes)[]): Server;
    client(config: Config, kinds: Kind[]): Client;
    /** For each kind how its fields go. */
    timeline(ways: Way[][], how?: { slots?: number; depth?: number }): Timeline;
    clock(pace: Pace, now: number): Clock;
    offset(most: number): Offset;
    channel(places: number, longest: number): Channel;
}

type Source = Response | Bytes | WebAssembly.Module;
export function load(source: Source | Promise<Source>): Promise<Tribes>;

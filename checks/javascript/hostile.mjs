// Wrong arguments of every kind at every call of tribes.mjs: each is a named error, and the end answers as before. Then a trap, which ends its own
// module alone; ends that are let go of; and the heap, whose blocks never lie over one another: node --expose-gc checks/javascript/hostile.mjs MODULE ROUNDS
// prints how many were tried, and ends with 1 where one was wrong.
import { readFileSync } from "node:fs";
import { BadArgument, Broken, Refusal, load } from "../../include/tribes.mjs";

const [module, rounds] = process.argv.slice(2), bytes = readFileSync(module);
const KINDS = [{ weight: 8, fields: [{ lo: -5, hi: 1000, bits: 10 }, { lo: 0, hi: 2_000_000_000, bits: 24 }] }];
const CONFIG = { client: 0, life: 1_000_000, size: 600, version: 3, move: [1, 53, 10] };
let state = 1, tried = 0, wrong = 0;
const below = (n) => {
    state = (Math.imul(state, 1664525) + 1013904223) >>> 0;
    return Math.floor(state / 4294967296 * n);
};
const fault = (what, told) => {
    wrong++;
    console.log(`${what}: ${told}`);
};

function detached() {
    const it = new Uint8Array(8);
    structuredClone(it.buffer, { transfer: [it.buffer] });
    return it;
}
const ODD = [
    undefined, null, NaN, Infinity, -Infinity, -1, -0.5, 0.5, 1e9 + 0.5, 2 ** 32, 2 ** 53, -(2 ** 53), 1e300, "", "7", "a text", true, false, 7n, 2n ** 70n, Symbol("it"),
    {}, [], [1], [undefined], ["7"], [7n], [-1, 0, 0], [2, 0, 0], [0, 2 ** 53, 0], [0, 0, 1024], [0, 0], [0, 0, 0, 0], () => 7, new Date(), /a/, new Map(), new ArrayBuffer(0),
    new Uint8Array(0), new Uint8Array(25), new Uint8Array(70_000), new Float64Array(9), new DataView(new ArrayBuffer(30)), new SharedArrayBuffer(4),
    { kind: 0, block: 7n }, { kind: 0, control: "yes" }, { kind: 0, level: 9 }, { kind: 99 }, { guaranteed: 1 }, { length: 3 }, new Proxy({}, { get: () => undefined }),
];
const odd = () => (below(30) === 0 ? detached() : ODD[below(ODD.length)]);
const named = (error) => error instanceof Refusal || error instanceof BadArgument;

/** A call with these arguments: what it answered, or null where it threw a named error. */
function attempt(what, call) {
    tried++;
    try {
        return { answer: call() };
    } catch (error) {
        if (!named(error)) fault(what, error.stack ?? error);
        return null;
    }
}

function made(tribes) {
    const server = tribes.server(CONFIG, KINDS, ["tank", new Uint8Array(3)]), client = tribes.client(CONFIG, KINDS), n = server.show({ kind: 0, control: true });
    server.post("an event");
    client.sample([1, 2 ** 53 - 1, 1023]);
    return { server, client, n, values: [-5, 2_000_000_000] };
}

/** All that an end tells, as a text. */
const told = (end) => JSON.stringify([end.counts(), end.verdicts(), end.moves?.() ?? [...end.copies()]]);

function one(tribes, { server, client, values }) {
    const end = below(2) ? server : client, isServer = end === server, before = told(end);
    const calls = isServer ? ["show", "hide", "near", "changed", "settled", "slot", "pack", "arrive", "post", "block"] : ["arrive", "sample", "copy", "post", "block", "pack"];
    const call = calls[below(calls.length)], given = Array.from({ length: below(4) }, odd);
    const isBackward = call === "pack" && typeof given[0] === "function";
    const done = attempt(`${call}(${given.map((it) => { try { return typeof it === "object" ? JSON.stringify(it) : String(it); } catch { return "?"; } })})`, () => end[call](...given));
    if (done === null && told(end) !== before) fault(call, `changed by a refused call: ${before} ${told(end)}`);
    if (done?.answer instanceof Refusal && told(end) !== before) fault(call, "changed by a datagram that was refused");
    if (done && isBackward) values[0] = 7; // (it packed by a function that answers 7)
}

function makes(tribes) {
    const config = below(2) ? { ...CONFIG, [["client", "life", "size", "version", "move"][below(5)]]: odd() } : CONFIG;
    const field = { ...KINDS[0].fields[0], [["lo", "hi", "bits"][below(3)]]: odd() };
    const kinds = [KINDS, odd(), [{ weight: odd(), fields: [field] }], [{ weight: 1, fields: [field] }], [{ weight: 1, fields: odd() }], [odd()]][below(6)];
    const given = below(3) ? config : odd(), blocks = [["tank"], odd(), [odd()]][below(3)];
    const done = attempt("an end is made", () => (below(2) ? tribes.server(given, kinds, blocks) : tribes.client(given, kinds)));
    done?.answer.free();
}

/** The ends play on as if nothing had been: what each tells reaches the other. */
function goesOn({ server, client, n, values }) {
    for (let turn = 0; turn < 4; turn++) {
        const down = server.pack((at, field) => (at === n ? values[field] : 0));
        if (client.arrive(down) !== null) fault("after all", "the client refuses");
        for (const { bytes } of client.events()) if (Buffer.from(bytes).toString() !== "an event" && bytes.length > 24) fault("after all", "another event");
        if (server.arrive(client.pack()) !== null) fault("after all", "the server refuses");
        for (const _ of server.events()) tried++;
        for (const parts of server.moves()) if (parts.length !== 3) fault("after all", parts);
    }
    const copy = client.copy(client.control());
    if (String(copy.values) !== String(values) || !server.settled(n, 0)) fault("after all", JSON.stringify(copy));
}

async function traps() {
    const one = await load(bytes), other = await load(bytes), ends = made(one), others = made(other);
    const expect = (what, call, error) => {
        tried++;
        try {
            call();
            fault(what, "no error");
        } catch (it) {
            if (!(it instanceof error) || (error === Broken && !(it.cause instanceof Error))) fault(what, it.stack ?? it);
        }
    };
    expect("a trap", () => one.calls.tribes_changed(0xfffffff0, 0, 0, 0), Broken);
    expect("a call after a trap", () => ends.server.counts(), Broken);
    expect("an end after a trap", () => made(one), Broken);
    goesOn(others);
    others.server.free();
    others.server.free();
    for (const [name, given] of [["counts", []], ["pack", [() => 0]], ["arrive", [new Uint8Array(9)]], ["post", ["it"]], ["show", [{ kind: 0 }]], ["near", [0, 0]]]) {
        expect(`${name} of a freed end`, () => others.server[name](...given), Refusal);
    }
    expect("a pack inside a pack", () => others.client.free() ?? nested(other), Error);
}
/** A pack in whose values another is packed. */
function nested(tribes) {
    const ends = made(tribes), { server, n } = ends;
    goesOn(ends);
    server.changed(n, 3);
    server.pack(() => server.pack(() => 0).length);
}

/** Ends that are let go of: the memory stays bounded, whether they are freed or the collector comes. */
async function lets_go() {
    const tribes = await load(bytes);
    for (let k = 0; k < 200; k++) { const { server, client } = made(tribes); server.free(); client.free(); }
    const few = tribes.memoryBytes;
    for (let k = 0; k < 400; k++) {
        made(tribes);
        if (k % 10 === 9) { globalThis.gc?.(); await new Promise((go) => setTimeout(go, 0)); }
    }
    tried += 600;
    if (tribes.memoryBytes > few + 40 * 400_000) fault("ends that were let go of", `${few} bytes of memory, and then ${tribes.memoryBytes}`);
}

async function heap() {
    const { calls } = await load(bytes), held = [];
    for (let round = 0; round < 20_000; round++) {
        if (held.length < 60 && below(2)) {
            const size = below(4) ? 1 + below(300) : 1 + below(60_000), at = calls.tribes_take(size), mark = 1 + below(255);
            if (at === 0 || at % 16) fault("the heap", `a block at ${at}`);
            new Uint8Array(calls.memory.buffer, at, size).fill(mark);
            held.push({ at, size, mark });
        } else if (held.length) {
            const [{ at, size, mark }] = held.splice(below(held.length), 1);
            if (new Uint8Array(calls.memory.buffer, at, size).some((it) => it !== mark)) fault("the heap", "a block is written over");
            calls.tribes_give(at);
        }
        tried++;
    }
    if (calls.tribes_take(2 ** 32 - 1) !== 0) fault("the heap", "a block of all memory");
}

const tribes = await load(bytes);
for (let round = 0; round < Number(rounds); round++) {
    if (round % 4 === 0) makes(tribes);
    const ends = made(tribes);
    for (let k = 0; k < 8; k++) one(tribes, ends);
    if (below(4) === 0) {
        // (what an odd call was taken for may have shown and posted more, so a fresh pair tells whether the module is whole)
        const fresh = made(tribes);
        goesOn(fresh);
        fresh.server.free();
        fresh.client.free();
    }
    ends.server.free();
    ends.client.free();
}
await traps();
await lets_go();
await heap();
console.log(`${tried} calls, ${wrong} wrong`);
process.exit(wrong ? 1 : 0);

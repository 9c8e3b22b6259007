// The random calls of calls.c through the WebAssembly module: node checks/javascript/calls.mjs MODULE SEED TURNS prints the same, where both do the same.
import { readFileSync } from "node:fs";
import { Refusal, load } from "../../include/tribes.mjs";

const FIELDS = [[0, 1023, 10], [0, 1023, 10], [0, 100, 7], [-500, 500, 10], [0, 65535, 12], [0, 1, 1], [-1000000, 1000000, 21], [0, 15, 4]]
    .map(([lo, hi, bits]) => ({ lo, hi, bits }));
const KINDS = [{ fields: FIELDS.slice(0, 2), weight: 8 }, { fields: FIELDS.slice(2, 7), weight: 3 }, { fields: FIELDS.slice(7), weight: 1 }];
const BLOCKS = ["a tank", "a mine", "the third of the blocks, in forty bytes"];
const CONFIGS = [
    { client: 0, life: 1_000_000, size: 200, version: 1, move: [4, 4, 1, 1] },
    { client: 1, life: 2_500, size: 600, version: 2, move: [4, 4, 1, 1] },
    { client: 2, life: 1_000_000, size: 600, version: 3, move: [3, 53, 0, 8] },
];
const WAY = 64, NAMES = ["gone", "new", "updated"];

class Calls {
    constructor(tribes, seed, turns) {
        Object.assign(this, { turns, turn: 0, calls: 0, lines: [], state: (Math.imul(seed, 2654435761) | 1) >>> 0 });
        this.pairs = CONFIGS.map((config) => ({
            config, server: tribes.server(config, KINDS, BLOCKS), client: tribes.client(config, KINDS), up: [], down: [], shown: [], kindOf: [],
        }));
    }

    say(line) {
        this.lines.push(line);
    }

    drawn() {
        this.state ^= this.state << 13;
        this.state ^= this.state >>> 17;
        this.state ^= this.state << 5;
        return this.state >>>= 0;
    }

    below(n) {
        return this.drawn() % n;
    }

    /** Says what a call came to: its answer, or the refusal. */
    told(what, call) {
        this.calls++;
        try {
            const answer = call();
            if (answer instanceof Refusal) throw answer;
            this.say(`${what} ${typeof answer === "boolean" ? Number(answer) : 0}`);
            return answer ?? true;
        } catch (error) {
            if (!(error instanceof Refusal)) throw error;
            this.say(`${what} ${error.code} ${error.first} ${error.second}`);
            return undefined;
        }
    }

    hex(what, bytes) {
        this.say(`${what} ${Buffer.from(bytes).toString("hex")}`);
    }

    value(pair, n, field) {
        const { lo, hi } = KINDS[pair.kindOf[n]].fields[field];
        let x = (Math.imul(n, 2654435761) ^ Math.imul(field, 40503) ^ Math.imul(this.turn, 97)) >>> 0;
        x ^= x >>> 15;
        x = Math.imul(x, 0x2c1b3c6d) >>> 0;
        x = (x ^ x >>> 12) >>> 0;
        return lo + x % (hi - lo + 1);
    }

    put(way, bytes) {
        const chance = this.below(100), copies = chance < 20 ? 0 : chance < 27 ? 2 : 1;
        for (let k = 0; k < copies; k++) {
            const late = this.below(6), damage = this.below(40), at = this.below(bytes.length ? bytes.length * 8 : 1);
            if (way.length === WAY) continue;
            const letter = { bytes: bytes.slice(), due: this.turn + 1 + late };
            if (damage === 0 && bytes.length && this.turn > Math.floor(this.turns / 5) * 4) letter.bytes[at >> 3] ^= 1 << at % 8;
            way.push(letter);
        }
    }

    take(way, end, isServer) {
        for (let k = 0; k < way.length; ) {
            if (way[k].due > this.turn) { k++; continue; }
            const [letter] = way.splice(k, 1);
            if (this.told("arrive", () => (isServer ? end.arrive(letter.bytes, this.below(33)) : end.arrive(letter.bytes))) === undefined) continue;
            for (const { bytes, guaranteed } of end.events()) this.hex(guaranteed ? "event" : "loose", bytes);
            for (const { number, received } of end.verdicts()) this.say(`judged ${number} ${Number(received)}`);
            if (isServer) for (const parts of end.moves()) this.say(`move ${parts.join(" ")}`);
            else this.look(end);
        }
    }

    look(end) {
        for (const { slot, what, fields } of end.changes()) {
            this.say(`change ${slot} ${NAMES.indexOf(what)} ${fields}`);
            const copy = end.copy(slot);
            if (!copy) continue;
            this.say(`copy ${copy.kind} ${copy.block} ${copy.values.join(" ")}`);
            this.hex("block", end.block(copy.block));
        }
        const own = end.control();
        if (own !== null) this.say(`own ${own}`);
    }

    show(pair) {
        const kind = this.below(KINDS.length + (this.below(20) === 0)), block = this.below(BLOCKS.length + (this.below(20) === 0));
        const level = this.below(4 + (this.below(20) === 0)), control = this.below(30) === 0;
        const made = this.told("show", () => pair.server.show({ kind, block, level, control }));
        if (made === undefined) return;
        this.say(`period ${made}`);
        pair.kindOf[made] = kind;
        pair.shown.push(made);
    }

    hide(pair, n) {
        if (this.told("hide", () => pair.server.hide(n)) === undefined) return;
        const k = pair.shown.indexOf(n), last = pair.shown.pop();
        if (k < pair.shown.length) pair.shown[k] = last;
    }

    asks(pair, n) {
        const field = this.below(6);
        let slot = null;
        this.told("settled", () => pair.server.settled(n, field));
        this.told("slot", () => (slot = pair.server.slot(n)) !== null);
        if (slot !== null) this.say(`at ${slot}`);
    }

    sample({ client, config }) {
        const parts = config.move.map((wide) => {
            const high = this.drawn(), low = this.drawn();
            return (wide > 32 ? (high % 2 ** (wide - 32)) * 2 ** 32 + low : low % 2 ** wide) + (this.below(60) === 0 ? 300 : 0);
        });
        if (parts.some((it, k) => it >= 2 ** config.move[k])) {
            try {
                client.sample(parts);
            } catch (error) {
                if (error.why === "BAD_VALUES") this.say("sample of none");
            }
        } else this.told("sample", () => client.sample(parts));
        if (this.below(8) === 0) for (const kept of client.pending()) this.say(`pending ${kept.join(" ")}`);
    }

    act(pair) {
        const choice = this.below(12);
        let n = pair.shown.length ? pair.shown[this.below(pair.shown.length)] : 0;
        if (this.below(50) === 0) n += 7;
        if (choice < 3) this.show(pair);
        else if (choice === 3) this.hide(pair, n);
        else if (choice === 4) { const level = this.below(5); this.told("near", () => pair.server.near(n, level)); }
        else if (choice < 8) { const bits = this.below(8); this.told("changed", () => pair.server.changed(n, bits)); }
        else if (choice === 8) this.asks(pair, n);
        else if (choice === 9) {
            const event = Uint8Array.from({ length: this.below(26) }, () => this.below(256)), end = this.below(2) ? pair.server : pair.client;
            const guaranteed = this.below(3) !== 0;
            this.told("post", () => end.post(event, { guaranteed }));
        } else this.sample(pair);
    }

    tell(way, what, pack) {
        let bytes = null;
        try {
            bytes = pack();
        } catch (error) {
            if (!(error instanceof Refusal)) throw error;
            this.calls++;
            this.say(`pack ${error.code} ${error.first} ${error.second}`);
        }
        if (!bytes) return;
        this.hex(what, bytes);
        this.put(way, bytes);
    }

    run() {
        for (this.turn = 1; this.turn <= this.turns; this.turn++) {
            for (const pair of this.pairs) {
                for (let acts = this.below(6); acts > 0; acts--) this.act(pair);
                this.take(pair.up, pair.server, true);
                this.take(pair.down, pair.client, false);
                this.tell(pair.down, "down", () => pair.server.pack((n, field) => this.value(pair, n, field)));
                this.tell(pair.up, "up", () => pair.client.pack());
            }
        }
        this.say(`calls ${this.calls}`);
        for (const { server, client } of this.pairs) {
            for (const [name, end] of [["server", server], ["client", client]]) this.say(`${name} ${Object.values(end.counts()).join(" ")}`);
            server.free();
            client.free();
        }
        return this.lines;
    }
}

const [module, seed, turns] = process.argv.slice(2);
process.stdout.write(new Calls(await load(readFileSync(module)), Number(seed), Number(turns)).run().join("\n") + "\n");

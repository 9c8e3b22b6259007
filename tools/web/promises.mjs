// What the library promises, checked as the page runs: what the clients' ends answer is held against what the server's world had. Nothing else is read.
import { far } from "./world.mjs";

export const PROMISES = [
    ["shown", "Shown values", "looked at", "never had, or older than one shown before"],
    ["settled", "Settled fields", "looked at", "not the newest value"],
    ["events", "Guaranteed events", "came", "out of order, twice or skipped"],
    ["moves", "Moves", "came", "out of order, twice or skipped"],
    ["sent", "Fields sent", "", "of an object out of sight"],
];

export class Promises {
    constructor() {
        this.counts = Object.fromEntries(PROMISES.map(([name]) => [name, { seen: 0, wrong: 0 }]));
    }

    get wrong() {
        return Object.values(this.counts).reduce((sum, it) => sum + it.wrong, 0);
    }

    note(name, isRight) {
        const count = this.counts[name];
        count.seen++;
        if (!isRight) count.wrong++;
    }

    /** A field is sent: its object is in the client's sight, and is shown by this period. */
    sent(seat, thing, n, sight) {
        this.note("sent", thing.n[seat.c] === n && (thing === seat.tank || far(thing, seat.tank) < sight));
    }

    event(seat, bytes) {
        const due = seat.posted.shift();
        this.note("events", due !== undefined && due.event === Array.from(bytes).join());
        return due?.number;
    }

    move(seat, move) {
        const due = seat.sampled.shift();
        this.note("moves", due !== undefined && due.join() === move.join());
    }

    /** Each value that a client shows is one that the object had since it was shown, and no older than what was shown of it before. */
    shown(seat) {
        for (const [slot, { kind, block, values }] of seat.copies) {
            const held = seat.slots.get(slot);
            values.forEach((value, f) => {
                const isIts = held !== undefined && held.thing.kind === kind && held.thing.block === block;
                const at = isIts ? held.thing.past[f].find(value, held.from[f]) : null;
                if (at !== null) held.from[f] = at;
                this.note("shown", at !== null);
            });
        }
    }

    /** What the server's end reports as settled is the newest value, and the client shows it. */
    settled(seat, things) {
        for (const thing of things) {
            const n = thing.n[seat.c];
            if (n === null) continue;
            const slot = seat.server.slot(n), copy = slot === null ? undefined : seat.copies.get(slot);
            thing.settled[seat.c] = thing.values.map((value, f) => {
                const is = seat.server.settled(n, f);
                if (is) this.note("settled", copy !== undefined && copy.values[f] === value);
                return is;
            });
        }
    }
}

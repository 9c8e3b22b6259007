// The server's world of the page: tanks and mines, what each object's fields were so far, and players who drive by themselves.

export const WIDE = 1024;
export const HIGH = 640;
export const TANK = 0;
export const MINE = 1;
export const FIELD_NAMES = [["x", "y", "heading", "armour"], ["x", "y"]];
const field = (hi, bits) => ({ lo: 0, hi, bits });
export const KINDS = [
    { weight: 8, fields: [field(1023, 10), field(1023, 10), field(255, 8), field(100, 7)] },
    { weight: 3, fields: [field(1023, 10), field(1023, 10)] },
];
/** What never changes of an object: here what it is and whose. */
export const BLOCKS = ["tank A", "tank B", "tank bot", "mine"];
/** A move has a step along x and along y (-8 to 7, from 8 on), and whether the tank fires. */
export const MOVE = [4, 4, 1];
export const moveOf = ({ dx, dy, fire }) => [dx + 8, dy + 8, fire ? 1 : 0];
export const stepOf = ([x, y, fire]) => ({ dx: x - 8, dy: y - 8, fire: fire === 1 });

const EDGE = 70;
export const clamp = (x, lo, hi) => Math.max(lo, Math.min(hi, x));
export const headingOf = (dx, dy) => (Math.round(Math.atan2(dy, dx) / Math.PI * 128) + 256) % 256;
export const far = (a, b) => Math.hypot(a.values[0] - b.values[0], a.values[1] - b.values[1]);

/** Numbers by chance, the same at each opening of the page. */
export function chanceOf(seed) {
    let state = seed >>> 0;
    return () => {
        state = (state + 0x6d2b79f5) >>> 0;
        let x = Math.imul(state ^ state >>> 15, state | 1);
        x ^= x + Math.imul(x ^ x >>> 7, x | 61);
        return ((x ^ x >>> 14) >>> 0) / 4294967296;
    };
}

/** The values that a field had, oldest first, each by a number that counts on when old ones are forgotten. */
class Past {
    constructor(value) {
        this.first = 0;
        this.values = [value];
    }

    get newest() {
        return this.first + this.values.length - 1;
    }

    /** The number of the first value from this number on that is this one, or null. */
    find(value, from) {
        for (let at = Math.max(from, this.first); at <= this.newest; at++) if (this.values[at - this.first] === value) return at;
        return null;
    }

    forget(before) {
        if (before - this.first < 1_000) return;
        this.values.splice(0, before - this.first);
        this.first = before;
    }
}

/** An object of the world. `n` has the number of its period at each client that is shown it, else null. */
export class Thing {
    constructor(id, kind, block, values, clients) {
        Object.assign(this, { id, kind, block, values, past: values.map((it) => new Past(it)), n: Array(clients).fill(null), settled: [] });
    }

    /** Sets fields, and gives the mask of those that are new. */
    set(values) {
        let mask = 0;
        values.forEach((value, f) => {
            if (value === undefined || value === this.values[f]) return;
            this.values[f] = value;
            this.past[f].values.push(value);
            mask |= 1 << f;
        });
        return mask;
    }
}

/** One who drives by himself: he wanders, turns back at the edge, and fires now and then. */
export class Pilot {
    constructor(way) {
        Object.assign(this, { way, left: 10 + 3 * way, isStill: false });
    }

    step([x, y], chance) {
        if (--this.left <= 0) {
            this.way = chance() * Math.PI * 2;
            this.left = 14 + chance() * 50;
            this.isStill = chance() < 0.18;
        }
        if (x < EDGE || x > WIDE - EDGE || y < EDGE || y > HIGH - EDGE) {
            this.way = Math.atan2(HIGH / 2 - y, WIDE / 2 - x) + (chance() - 0.5);
            this.isStill = false;
        }
        const fire = chance() < 0.04;
        if (this.isStill) return { dx: 0, dy: 0, fire };
        return { dx: Math.round(Math.cos(this.way) * 6), dy: Math.round(Math.sin(this.way) * 6), fire };
    }
}

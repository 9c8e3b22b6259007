// The game of the page: a server with its world, two clients, and a network to each. Nothing here draws.
import { Refusal } from "../../include/tribes.mjs";
import { FADES, Network } from "./network.mjs";
import { Promises } from "./promises.mjs";
import { BLOCKS, HIGH, KINDS, MINE, MOVE, Pilot, TANK, Thing, WIDE, chanceOf, clamp, far, headingOf, moveOf, stepOf } from "./world.mjs";

export const SIGHT = 300;
/** What is shown stays so a little further, so that it doesn't come and go at the edge. */
const LEAVES = SIGHT + 16;
const SEATS = 2;
/** More milliseconds than any datagram flies. */
const LATE = 5_000;
export const EVENTS = { MINE: 1, SHOT: 2, LOST: 3 };
const config = (client) => ({ client, life: 16_000_000, size: 200, version: 3, move: MOVE });

export class Game {
    constructor(tribes, { seed = 7, bots = 5, mines = 6 } = {}) {
        this.chance = chanceOf(seed);
        this.set = { latency: 150, jitter: 30, loss: 20, twice: 5 };
        Object.assign(this, { now: 0, turn: 0, bots, things: [], promises: new Promises() });
        this.seats = Array.from({ length: SEATS }, (_, c) => ({
            c, server: tribes.server(config(c), KINDS, BLOCKS), client: tribes.client(config(c), KINDS), network: new Network(this.chance, this.set),
            pilot: new Pilot(1 + 2 * c), keys: null, tank: null, control: null, dataDown: 0, dataUp: 0, posted: [], sampled: [], heard: [], flashes: [],
            copies: new Map(), fresh: new Map(), slots: new Map(), periods: new Map(), parts: { right: 0, way: 0, lost: 0, due: 0 },
        }));
        for (const seat of this.seats) seat.tank = this.add(TANK, seat.c, [300 + 420 * seat.c, 320, 128 * seat.c, 100]);
        for (let k = 0; k < bots; k++) this.add(TANK, SEATS, [120 + 190 * k % 860, 110 + 420 * (k % 2), 0, 100]).pilot = new Pilot(k);
        for (let k = 0; k < mines; k++) this.add(MINE, SEATS + 1, this.freePlace());
        for (const seat of this.seats) this.scope(seat);
    }

    freePlace() {
        return [Math.round(60 + this.chance() * (WIDE - 120)), Math.round(60 + this.chance() * (HIGH - 120))];
    }

    add(kind, block, values) {
        const thing = new Thing(this.things.length, kind, block, values, SEATS);
        this.things.push(thing);
        return thing;
    }

    // ---- the server

    /** Shows the seat's client what is near its tank, and hides the rest. An object that comes into sight again is a new period. */
    scope(seat) {
        const { c, server } = seat;
        for (const thing of this.things) {
            const away = far(thing, seat.tank), isShown = thing.n[c] !== null, sees = thing === seat.tank || away < (isShown ? LEAVES : SIGHT);
            if (sees && !isShown) {
                const n = server.show({ kind: thing.kind, block: thing.block, control: thing === seat.tank });
                thing.n[c] = n;
                seat.periods.set(n, { thing, from: thing.past.map((it) => it.newest) });
            } else if (!sees && isShown) {
                server.hide(thing.n[c]);
                seat.periods.delete(thing.n[c]);
                thing.n[c] = null;
            } else if (isShown) server.near(thing.n[c], Math.min(3, Math.floor(away / (SIGHT / 3))));
        }
    }

    /** Sets fields of an object, and tells it to each end that shows it. */
    tell(thing, values) {
        const mask = thing.set(values);
        if (mask) for (const { c, server } of this.seats) if (thing.n[c] !== null) server.changed(thing.n[c], mask);
    }

    post(thing, event, guaranteed) {
        for (const seat of this.seats) {
            if (thing.n[seat.c] === null || (guaranteed && seat.server.counts().eventPlaces === 0)) continue; // (256 are on their way: left out)
            const number = seat.server.post(Uint8Array.from(event), { guaranteed });
            if (guaranteed) seat.posted.push({ number, event: event.join() });
        }
    }

    drive(tank, { dx, dy, fire }) {
        const [x, y, heading] = tank.values, turned = dx || dy ? headingOf(dx, dy) : heading;
        this.tell(tank, [clamp(x + dx, 16, WIDE - 17), clamp(y + dy, 16, HIGH - 17), turned]);
        for (const mine of this.things) {
            if (mine.kind !== MINE || far(tank, mine) > 24) continue;
            this.post(mine, [EVENTS.MINE, mine.values[0] >> 2, mine.values[1] >> 2], true);
            this.hurt(tank, 40);
            this.tell(mine, this.freePlace());
        }
        if (fire) this.fire(tank, turned);
    }

    /** A shot is an event that may be lost. A hit is a change of armour, which may not. */
    fire(tank, heading) {
        const [x, y] = tank.values, way = heading / 128 * Math.PI;
        this.post(tank, [EVENTS.SHOT, x >> 2, y >> 2, heading], false);
        for (const other of this.things) {
            if (other === tank || other.kind !== TANK) continue;
            const dx = other.values[0] - x, dy = other.values[1] - y;
            const along = dx * Math.cos(way) + dy * Math.sin(way), aside = Math.abs(dy * Math.cos(way) - dx * Math.sin(way));
            if (along > 0 && along < 220 && aside < 20) this.hurt(other, 20);
        }
    }

    hurt(tank, by) {
        const left = tank.values[3] - by;
        if (left > 0) return this.tell(tank, [undefined, undefined, undefined, left]);
        this.post(tank, [EVENTS.LOST, tank.values[0] >> 2, tank.values[1] >> 2], true);
        const [x, y] = this.freePlace();
        this.tell(tank, [x, y, undefined, 100]);
    }

    serve() {
        for (const seat of this.seats) for (const packet of seat.network.come("up")) this.arriveUp(seat, packet);
        for (const thing of this.things) if (thing.pilot) this.drive(thing, thing.pilot.step(thing.values, this.chance));
        for (const seat of this.seats) {
            this.scope(seat);
            this.tellClient(seat);
        }
    }

    /** The next datagram to a client. The library asks for the values that go into it. */
    tellClient(seat) {
        const carried = [], bytes = seat.server.pack((n, f) => {
            const { thing } = seat.periods.get(n);
            carried.push({ n, f, thing, value: thing.values[f] });
            return thing.values[f];
        });
        for (const { n, thing } of carried) this.promises.sent(seat, thing, n, LEAVES);
        for (const [n, period] of seat.periods) {
            const slot = seat.server.slot(n);
            if (slot !== null && seat.slots.get(slot)?.n !== n) seat.slots.set(slot, { ...period, n });
        }
        const { sent } = seat.server.counts();
        if (bytes) seat.network.send("down", bytes, sent === seat.dataDown ? null : sent, carried);
        seat.dataDown = sent;
    }

    /** A datagram comes to the server: moves, and verdicts on what the server sent. */
    arriveUp(seat, packet) {
        const refusal = seat.server.arrive(packet.bytes);
        seat.network.ends(packet, refusal);
        if (refusal) return;
        for (const move of seat.server.moves()) {
            this.promises.move(seat, move);
            this.drive(seat.tank, stepOf(move));
        }
        for (const { number, received } of seat.server.verdicts()) if (!received) seat.network.told(number);
    }

    // ---- the clients

    play(seat) {
        for (const packet of seat.network.come("down")) this.arriveDown(seat, packet);
        const at = seat.copies.get(seat.control)?.values ?? [WIDE / 2, HIGH / 2], move = moveOf(seat.keys?.(at) ?? seat.pilot.step(at, this.chance));
        if (seat.client.counts().movePlaces > 0) { // (else the server lacks 32 moves, and this one is left out)
            seat.client.sample(move);
            seat.sampled.push(move);
        }
        const bytes = seat.client.pack(), { sent } = seat.client.counts();
        if (bytes) seat.network.send("up", bytes, sent === seat.dataUp ? null : sent, []);
        seat.dataUp = sent;
    }

    /** A datagram comes to a client: events, and what it shows. */
    arriveDown(seat, packet) {
        const { client, network } = seat, refusal = client.arrive(packet.bytes);
        network.ends(packet, refusal);
        if (refusal) return;
        network.repair(packet);
        for (const { bytes, guaranteed } of client.events()) {
            const [what, x, y, heading] = bytes;
            if (guaranteed) seat.heard.unshift({ number: this.promises.event(seat, bytes), what, at: this.now });
            seat.flashes.push({ what, x: x * 4, y: y * 4, heading, at: this.now });
        }
        seat.heard.length = Math.min(seat.heard.length, 4);
        for (const { slot, what } of client.changes()) {
            if (what === "gone") seat.copies.delete(slot);
            else seat.copies.set(slot, client.copy(slot));
            if (what === "new") seat.fresh.set(slot, this.now);
        }
        seat.control = client.control();
    }

    // ---- time

    /** Goes on by so many milliseconds of the game. */
    pass(by, turnsASecond) {
        const until = this.now + by, length = 1000 / turnsASecond;
        this.next ??= length;
        while (this.next <= until) {
            this.flow(this.next);
            this.turn++;
            for (const seat of this.seats) this.play(seat);
            this.serve();
            this.look();
            this.next += length;
        }
        if (this.next - until > length) this.next = until + length;
        this.flow(until);
    }

    flow(until) {
        this.now = until;
        for (const seat of this.seats) {
            seat.network.flow(until);
            seat.flashes = seat.flashes.filter((it) => until - it.at < FADES);
        }
    }

    /** Checks the promises, and counts where each field that a client is shown stands. */
    look() {
        for (const seat of this.seats) {
            this.promises.shown(seat);
            this.promises.settled(seat, this.things);
            seat.network.settle(({ n, thing }) => thing.n[seat.c] === n);
            this.count(seat);
        }
        if (this.turn % 200 === 0) this.forget();
    }

    /** No change is lost: each field is right at the client, or on its way, or still to be sent. */
    count(seat) {
        const parts = seat.parts = { right: 0, way: 0, lost: 0, due: 0 };
        for (const [n, { thing }] of seat.periods) {
            thing.values.forEach((value, f) => {
                const carrier = seat.network.carriers.get(16 * n + f);
                parts[thing.settled[seat.c]?.[f] ? "right" : carrier?.value !== value ? "due" : carrier.packet.gone === "lost" ? "lost" : "way"]++;
            });
        }
    }

    /** Lets go of values that no client can show any more. */
    forget() {
        for (const thing of this.things) {
            thing.past.forEach((past, f) => {
                const held = this.seats.flatMap((seat) => [...seat.slots.values()].filter((it) => it.thing === thing).map((it) => it.from[f]));
                const shown = this.seats.flatMap((seat) => [...seat.periods.values()].filter((it) => it.thing === thing).map((it) => it.from[f]));
                past.forget(Math.min(past.newest, ...held, ...shown));
            });
        }
        for (const seat of this.seats) {
            for (const [slot, held] of seat.slots) {
                if (!seat.periods.has(held.n)) held.hidden ??= this.now;
                // (until then a late datagram may still bring it)
                if (this.now - held.hidden > LATE && !seat.copies.has(slot)) seat.slots.delete(slot);
            }
            for (const key of seat.network.carriers.keys()) if (!seat.periods.has(key >> 4)) seat.network.carriers.delete(key);
        }
    }
}

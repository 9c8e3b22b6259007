// The network between the server and a client, both ways: it delays, loses and repeats. And a ledger of what was in the packets that it lost.

/** How long a packet that is gone is still drawn, in milliseconds of the game. */
export const FADES = 900;
const LEDGER_ROWS = 40;

/** One client's connection, both ways. */
export class Network {
    constructor(chance, set) {
        Object.assign(this, { chance, set, now: 0, isCut: false, packets: [], ledger: [] });
        this.count = { down: 0, up: 0, downBytes: 0, upBytes: 0, lost: 0, twice: 0, old: 0, repaired: 0, repairTime: 0 };
        // The packet that last carried a field, by its period and number, with the value.
        this.carriers = new Map();
    }

    /** Sends a datagram. `carried` are the fields in it, each with its object and value; `number` is a data packet's, else null. */
    send(way, bytes, number, carried) {
        const { latency, jitter, loss, twice } = this.set, { count } = this;
        count[way]++;
        count[`${way}Bytes`] += bytes.length;
        const repairs = carried.some((it) => this.ledger.some((row) => row.known !== null && row.items.some((item) => item.state === null && item.n === it.n && item.f === it.f)));
        const isLost = this.isCut || this.chance() * 100 < loss, isTwice = this.chance() * 100 < twice && !isLost;
        for (let copy = 0; copy < (isTwice ? 2 : 1); copy++) {
            const late = Math.max(5, latency + (this.chance() * 2 - 1) * jitter + copy * 60);
            const packet = { network: this, way, bytes, number, carried, repairs, copy, left: this.now, due: this.now + late, lostAt: null, gone: null };
            if (isLost) packet.lostAt = this.now + late * (0.25 + 0.5 * this.chance());
            this.packets.push(packet);
            if (copy === 0) for (const { n, f, value } of carried) this.carriers.set(16 * n + f, { packet, value });
        }
        if (isTwice) count.twice++;
    }

    /** Cuts the client off, or lets it back: meanwhile all is lost, and what flies too. */
    setCut(to) {
        this.isCut = to;
        if (to) for (const packet of this.packets) this.lose(packet);
    }

    /** A packet that flies is lost: by chance, or because somebody wanted it. */
    lose(packet) {
        if (packet.gone) return;
        packet.gone = "lost";
        packet.goneAt = this.now;
        const { way, number, carried, bytes } = packet;
        if (this.packets.some((it) => !it.gone && it.bytes === bytes)) return; // (its repeat still flies)
        this.count.lost++;
        if (way !== "down" || number === null || carried.length === 0) return;
        this.ledger.unshift({ number, at: this.now, known: null, whole: null, items: carried.map((it) => ({ ...it, state: null, by: null })) });
        this.ledger.length = Math.min(this.ledger.length, LEDGER_ROWS);
    }

    /** The packet that would come next, on either way. */
    next() {
        return this.packets.filter((it) => !it.gone).sort((a, b) => a.due - b.due)[0];
    }

    /** Takes out what has come by now on one way, in the order in which it comes. */
    come(way) {
        return this.packets.filter((it) => it.way === way && !it.gone && it.due <= this.now).sort((a, b) => a.due - b.due);
    }

    /** What became of a packet that came: it was taken, or refused. */
    ends(packet, refusal) {
        packet.gone = refusal ? "old" : "come";
        packet.goneAt = this.now;
        if (refusal) this.count.old++;
    }

    /** The server knows that a data packet is lost. */
    told(number) {
        for (const [key, { packet }] of this.carriers) if (packet.number === number) this.carriers.delete(key);
        const row = this.ledger.find((it) => it.number === number && it.known === null);
        if (row) row.known = this.now;
    }

    /** The client took a packet: a field in it makes good what was lost of it in earlier ones. */
    repair({ carried, number }) {
        for (const { n, f } of carried) {
            for (const row of this.ledger) {
                if (row.number >= number) continue;
                for (const item of row.items) if (item.state === null && item.n === n && item.f === f) [item.state, item.by] = ["right", number];
            }
        }
    }

    /** Looks which lost packets miss nothing any more. `isShown` tells of an item whether its period is still shown. */
    settle(isShown) {
        for (const row of this.ledger) {
            for (const item of row.items) if (item.state === null && !isShown(item)) item.state = "gone";
            if (row.whole !== null || row.items.some((it) => it.state === null)) continue;
            row.whole = this.now;
            this.count.repaired++;
            this.count.repairTime += row.whole - row.at;
        }
    }

    flow(until) {
        this.now = until;
        for (const packet of this.packets) if (!packet.gone && packet.lostAt !== null && packet.lostAt <= until) this.lose(packet);
        this.packets = this.packets.filter((it) => !it.gone || until - it.goneAt < FADES);
    }
}

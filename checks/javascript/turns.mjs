// The turns of turns.c through tribes.mjs: node checks/javascript/turns.mjs MODULE TURNS, and in a page `turns(tribes, count)`.
import { MAX_DATAGRAM, load } from "../../include/tribes.mjs";

const OBJECTS = 64, MOVING = 16, ROUND = 500;
const FIELDS = [[1023, 10], [1023, 10], [255, 8], [100, 7]].map(([hi, bits]) => ({ lo: 0, hi, bits }));
const KINDS = [{ weight: 8, fields: FIELDS }], CONFIG = { client: 0, life: 10_000_000, size: 1_200, version: 3, move: [22] };

/** Nanoseconds a turn of both ends together, the least of rounds, and sums over what came out. */
export function turns(tribes, count) {
    const server = tribes.server(CONFIG, KINDS, ["tank"]), client = tribes.client(CONFIG, KINDS);
    const n = Array.from({ length: OBJECTS }, (_, k) => server.show({ kind: 0, level: k % 4, control: k === 0 }));
    const place = new Uint8Array(MAX_DATAGRAM);
    let turn = 0, total = 0, sum = 0, from = performance.now(), least = Infinity;
    const value = (n, field) => (turn * 3 + n * 5 + field) % 100;
    for (turn = 1; turn <= count; turn++) {
        for (let k = 0; k < MOVING; k++) server.changed(n[(k * 4 + turn) % OBJECTS], 7);
        if (turn % 20 === 0) server.post("an event");
        const down = server.pack(value, place);
        total += down.length;
        if (turn % 10 && !client.arrive(down)) for (const { bytes } of client.events()) sum += bytes[0];
        client.sample([turn % 1000]);
        const up = client.pack(place);
        total += up.length;
        if (turn % 10 !== 5 && !server.arrive(up)) for (const [move] of server.moves()) sum += move;
        if (turn % ROUND === 0) [least, from] = [Math.min(least, performance.now() - from), performance.now()];
    }
    server.free();
    client.free();
    return { ns: least * 1e6 / ROUND, total, sum };
}

if (globalThis.process?.argv[1]?.endsWith("turns.mjs")) {
    const { readFileSync } = await import("node:fs");
    const tribes = await load(readFileSync(process.argv[2])), count = Number(process.argv[3] ?? 20_000);
    turns(tribes, 2_000);
    const { ns, total, sum } = turns(tribes, count);
    console.log(`${ns.toFixed(0)} ns a turn, ${total} bytes, ${sum}`);
}

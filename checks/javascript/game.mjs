// Plays the live page's game with no page, over networks from none lost to 75 of 100, a client cut off for four seconds now and then; and then with
// planted faults, each of which the page's checks have to count: node checks/javascript/game.mjs MODULE TURNS
import { readFileSync } from "node:fs";
import { load } from "../../include/tribes.mjs";
import { Game } from "../../tools/web/game.mjs";

const NETWORKS = [
    { latency: 10, jitter: 2, loss: 0, twice: 0 }, { latency: 60, jitter: 15, loss: 2, twice: 1 }, { latency: 150, jitter: 30, loss: 20, twice: 5 },
    { latency: 320, jitter: 200, loss: 40, twice: 15 }, { latency: 250, jitter: 120, loss: 75, twice: 5 },
];
const ROUGH = NETWORKS[2];
const [module, turns] = process.argv.slice(2), bytes = readFileSync(module);

/** Ends of the library, of which the game is handed wrong answers. */
const FAULTS = {
    shown: (game) => game.seats.forEach(({ client }) => {
        const copy = client.copy.bind(client);
        client.copy = (slot) => { const it = copy(slot); if (it) it.values[0] = (it.values[0] + 1) % 1024; return it; };
    }),
    // (a client that goes on showing what it showed, however new a datagram is)
    settled: (game) => game.seats.forEach(({ client }) => {
        const copy = client.copy.bind(client), first = new Map();
        client.copy = (slot) => { const it = copy(slot); return first.get(slot) ?? (first.set(slot, it), it); };
    }),
    events: (game) => game.seats.forEach(({ client }) => {
        const events = client.events.bind(client);
        let held = [];
        client.events = () => { held.push(...events()); const out = held.length > 1 ? held.reverse() : []; held = out.length ? [] : held; return out; };
    }),
    moves: (game) => game.seats.forEach(({ server }) => { const moves = server.moves.bind(server); server.moves = () => { const it = moves(); return [...it, ...it]; }; }),
    // (a server that never hides)
    sent: (game) => game.seats.forEach((seat) => {
        const { server } = seat, pack = server.pack.bind(server), gone = new Map();
        server.hide = (n) => gone.set(n, seat.periods.get(n));
        server.pack = (value) => { for (const [n, it] of gone) { if (!seat.periods.has(n)) seat.periods.set(n, it); server.changed(n, 1); } return pack(value); };
    }),
};

async function play(net, turns, fault) {
    const game = new Game(await load(bytes), { seed: 1 + net.loss });
    Object.assign(game.set, net);
    fault?.(game);
    while (game.turn < turns) {
        game.pass(50, 20);
        if (game.turn % 500 === 0) game.seats[game.turn / 500 % 2].network.setCut(true);
        if (game.turn % 500 === 80) game.seats.forEach(({ network }) => network.setCut(false));
    }
    return game;
}

let wrong = 0, seen = 0;
for (const net of NETWORKS) {
    const game = await play(net, Number(turns)), { counts } = game.promises;
    const made = game.seats.reduce((sum, { network }) => sum + network.count.repaired, 0);
    console.log(`loss ${net.loss}: ${Object.entries(counts).map(([name, it]) => `${it.seen} ${name}`).join(", ")}, ${game.promises.wrong} wrong, ${made} lost packets made good`);
    if (game.promises.wrong || Object.values(counts).some((it) => it.seen === 0)) wrong++;
    seen += Object.values(counts).reduce((sum, it) => sum + it.seen, 0);
}
for (const [name, fault] of Object.entries(FAULTS)) {
    const { counts } = (await play(ROUGH, 400, fault)).promises;
    console.log(`a planted fault of ${name}: ${counts[name].wrong} counted`);
    if (counts[name].wrong === 0) wrong++;
}
console.log(`${seen} looks, ${wrong} wrong`);
process.exit(wrong ? 1 : 0);

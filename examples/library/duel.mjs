// Both ends of a connection in one program, and between them a wire that loses every fifth datagram: node examples/library/duel.mjs [MODULE]
import { readFile } from "node:fs/promises";
import { load } from "../../include/tribes.mjs";

const THROTTLE = 3, FIRES = 1, TURNS = 60;
const field = { lo: 0, hi: 1023, bits: 10 };
const kinds = [{ weight: 8, fields: [field, field] }];
const config = { client: 0, life: 1_000_000, size: 600, version: 3, move: [3, 11, 8] };

const module = process.argv[2] ?? new URL("../../tools/web/out/tribes.wasm", import.meta.url);
const tribes = await load(readFile(module));
const server = tribes.server(config, kinds, ["tank"]), client = tribes.client(config, kinds);

const place = [500, 500], tank = server.show({ kind: 0, control: true });
let datagrams = 0, lost = 0, shots = 0;
const brings = () => ++datagrams % 5 !== 0 || !++lost;

/** The server's world goes on by a move: a throttle, a yaw and buttons. */
function drive([throttle, yaw, buttons]) {
    place[yaw < 1024 ? 0 : 1] += throttle;
    server.changed(tank, 0b11);
    if (buttons & FIRES) server.post("a shot");
}

for (let turn = 1; turn <= TURNS; turn++) {
    if (turn <= TURNS / 2) client.sample([THROTTLE, turn * 64 % 2048, turn % 10 === 0 ? FIRES : 0]);
    const up = client.pack();
    if (brings() && server.arrive(up) === null) for (const move of server.moves()) drive(move);

    const down = server.pack((n, field) => place[field]);
    if (brings() && client.arrive(down) === null) for (const { bytes } of client.events()) shots += bytes.length > 0;
}

const { values } = client.copy(client.control());
console.log(`${lost} of ${datagrams} datagrams lost; the tank is at ${place}, and the client shows ${values}; ${shots} shots heard`);
if (String(values) !== String(place) || !server.settled(tank, 0) || !server.settled(tank, 1) || shots !== 3) throw new Error("it is not so at both ends");
server.free();
client.free();

// Uses every call of tribes.d.mts, for the compiler of TypeScript. It is not run.
import { BadArgument, Broken, Client, Copy, Refusal, Server, VERSION, load } from "../../include/tribes.mjs";

export async function uses(bytes: Uint8Array): Promise<number> {
    const tribes = await load(bytes), version: 2 = VERSION;
    const config = { client: 0, life: 1_000, size: 600, version: 3 as const, move: [3, 53, 8] };
    const kinds = [{ weight: 8, fields: [{ lo: 0, hi: 1023, bits: 10 }] }];
    const server: Server = tribes.server(config, kinds, ["tank", bytes]), client: Client = tribes.client(config, kinds);
    const n: number = server.show({ kind: 0, control: true });
    server.changed(n, 1);
    server.near(n, 2);
    const down: Uint8Array | null = server.pack((at: number, field: number) => at + field);
    const refusal: Refusal | null = down && client.arrive(down);
    if (refusal) return refusal.code + refusal.first + refusal.second + refusal.why.length;
    for (const { bytes: event, guaranteed } of client.events()) if (guaranteed) server.post(event, { guaranteed: false });
    for (const [slot, copy] of client.copies()) use(slot, copy);
    for (const { slot, what, fields } of client.changes()) if (what === "updated") use(slot, client.copy(slot), fields);
    client.sample([1, 2, 3]);
    const moves: number[][] = [...server.moves(), ...client.pending()], slot: number | null = client.control() ?? server.slot(n);
    const { eventPlaces } = server.counts(), judged = client.verdicts().filter((it) => it.received).length, isSettled: boolean = server.settled(n, 0);
    server.hide(n);
    client.free();
    return version + moves.length + (slot ?? 0) + eventPlaces + judged + Number(isSettled) + client.block(0).length + tribes.memoryBytes;
}

function use(slot: number, copy: Copy | null, fields = 0): void {
    if (!copy) throw new BadArgument();
    if (slot + fields + copy.values[0] + copy.kind + copy.block < 0) throw new Broken();
}

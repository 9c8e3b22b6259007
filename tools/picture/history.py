"""What happened in a match: the datagrams, where each of them came, what its sender learnt of it, and what it said again."""

from collections import defaultdict
from dataclasses import dataclass, field
from typing import NamedTuple

from datagram import OPS, UPDATE, Fault, Packet, kinds_behind, read_client, read_server, whole_number
from looks import Seen
from scope import Period, Periods, World, visible
from script import MADE_BY, Line, Script


class Delivery(NamedTuple):
    line: int
    refusal: str


class Verdict(NamedTuple):
    seq: int
    is_received: bool


@dataclass(eq=False, slots=True)
class Datagram:
    """`way` is down, up or raw. What is no packet has a fault. `again` has the bits at which items stand that are sent again. `judged` is
    what its sender learnt of it, and the line at which it did."""

    way: str
    client: int
    line: int
    data: bytes
    packet: Packet | None
    fault: Fault | None = None
    place: int | None = None
    deliveries: list[Delivery] = field(default_factory=list)
    objects: dict[int, int] = field(default_factory=dict)
    again: set[int] = field(default_factory=set)
    is_served: bool = False
    judged: tuple[int, bool] | None = None

    @property
    def fate(self) -> str:
        """What became of it: came, lost, or unknown. A server that is served over a network knows of its datagrams by verdicts alone."""
        if not self.is_served:
            return "came" if self.deliveries else "lost"
        return "unknown" if self.judged is None else "came" if self.judged[1] else "lost"


@dataclass(eq=False, slots=True)
class Row:
    """A line, the datagram that it made or brought, and what follows from it: verdicts on packets of the end that it came to, the
    moves that were accepted, the move of each client that a tick takes, and how many periods a scan ends, changes and begins."""

    line: Line
    datagram: Datagram | None = None
    verdicts: list[Verdict] = field(default_factory=list)
    accepted: range = range(0)
    taken: dict[int, int] = field(default_factory=dict)
    scanned: tuple[int, int, int] | None = None


class Carried(NamedTuple):
    """An item of a packet: what of it the packet carries, and for a ghost its period."""

    bit: int
    keys: list[tuple]
    period: Period | None


class Sender:
    """What one end sent, the verdicts that it knows, and what was lost and not sent again since."""

    def __init__(self, version: int):
        self.version = version
        self.first_unjudged = 1
        self.items: dict[int, list[Carried]] = {}
        self.carriers: dict[tuple, int] = {}
        self.lost: set[tuple] = set()
        self.received_events: set[int] = set()
        self.first_event = self.next_move = 0

    def items_of(self, packet: Packet, periods: Periods) -> list[Carried]:
        items = [Carried(block.bit, [("block", block.number)], None) for block in packet.blocks]
        for event in packet.events:
            if event.number is not None:
                number = whole_number(event.number, self.version, self.first_event)
                items.append(Carried(event.bit, [("event", number)], None))
        for ghost in packet.ghosts:
            period = periods.write(ghost)
            keys = [(period, number) for number in ghost.levels]
            items.append(Carried(ghost.bit, keys if ghost.op == UPDATE else [(period, OPS[ghost.op]), *keys], period))
        return items

    def send(self, datagram: Datagram, periods: Periods) -> None:
        """Marks what a data packet says again: what was lost, and moves, which are repeated until they are acknowledged."""
        packet = datagram.packet
        items = self.items[packet.seq] = self.items_of(packet, periods)
        datagram.again = {item.bit for item in items if not self.lost.isdisjoint(item.keys)}
        datagram.again |= {move.bit for move in packet.moves if move.number < self.next_move}
        datagram.objects = {ghost.slot: periods.holders[ghost.slot].object for ghost in packet.ghosts}
        for item in items:
            self.lost.difference_update(item.keys)
            self.carriers.update(dict.fromkeys(item.keys, packet.seq))
        if packet.moves:
            self.next_move = max(self.next_move, packet.moves[-1].number + 1)

    def judge(self, acknowledgement: Packet, sent: dict[int, Datagram], line: int, periods: Periods) -> list[Verdict]:
        """The verdicts that an acknowledgement brings in that line. `sent` has the data packets of this end, by number."""
        verdicts = []
        for seq in range(self.first_unjudged, acknowledgement.horizon + 1):
            verdicts.append(Verdict(seq, acknowledgement.acknowledges(seq)))
            sent[seq].judged = line, verdicts[-1].is_received
            self.settle(verdicts[-1], sent[seq].packet, periods)
        self.first_unjudged = max(self.first_unjudged, acknowledgement.horizon + 1)
        return verdicts

    def settle(self, verdict: Verdict, packet: Packet, periods: Periods) -> None:
        items = self.items.pop(verdict.seq)
        keys = [key for item in items for key in item.keys]
        if verdict.is_received:
            self.received_events.update(key[1] for key in keys if key[0] == "event")
            while self.first_event in self.received_events:
                self.first_event += 1
        else:
            self.lost.update(key for key in keys if self.carriers[key] == verdict.seq)
        for ghost, period in zip(packet.ghosts, (item.period for item in items if item.period)):
            periods.judge(ghost, period, verdict.is_received)


class Connection:
    """What happened between the server and one client. Of a served client (`is_served`) the script has what the server sent and what came,
    as bytes: none of what the client did, and not which of the server's datagrams came."""

    def __init__(self, script: Script, client: int, is_served: bool):
        self.script, self.client, self.is_served = script, client, is_served
        self.senders = {way: Sender(script.version) for way in ("down", "up")}
        self.sent: dict[str, list[Datagram]] = {"down": [], "up": []}
        self.packets: dict[str, dict[int, Datagram]] = {"down": {}, "up": {}}
        self.periods = Periods()
        self.held: dict[int, int] = {}
        self.accepted = self.taken = 0

    def made(self, line: Line, deliveries: list[Delivery]) -> Datagram:
        way, data = MADE_BY[line.word], bytes.fromhex(line.told[4])
        if way == "down" and line.told[3] == "data":
            self.periods.grant()
        packet = read_server(data, self.script.version, self.held) if way == "down" else read_client(data, self.script.version)
        is_served = self.is_served and way == "down"
        datagram = Datagram(way, self.client, line.number, data, packet, place=line.place, deliveries=deliveries, is_served=is_served)
        self.sent[way].append(datagram)
        if not packet.is_ping:
            self.held = kinds_behind(packet, self.held)
            self.packets[way][packet.seq] = datagram
            self.senders[way].send(datagram, self.periods)
        return datagram

    def raw(self, line: Line) -> Datagram:
        """Bytes that came over the connection: a datagram of a served client where they are taken, or come late; else somebody's."""
        data = bytes.fromhex(line.asked[2].replace("-", ""))
        deliveries = [Delivery(line.number, line.refusal)]
        try:
            packet = read_client(data, self.script.version)
        except Fault as fault:
            return Datagram("raw", self.client, line.number, data, None, fault, deliveries=deliveries)
        datagram = Datagram("raw", self.client, line.number, data, packet, deliveries=deliveries)
        if self.is_served and line.answer[0] in ("ok", "old"):
            datagram.way = "up"
            if not line.refusal and not packet.is_ping:
                self.senders["up"].send(datagram, self.periods)
        return datagram

    def came(self, line: Line, datagram: Datagram) -> Row:
        """A datagram that was taken."""
        way = "up" if line.word == "down" else "down"
        row = Row(line, datagram, self.senders[way].judge(datagram.packet, self.packets[way], line.number, self.periods))
        if line.word != "down":
            row.accepted = range(self.accepted, self.accepted + int(line.answer[1]))
            self.accepted = row.accepted.stop
        return row

    def arrives(self, line: Line) -> Row:
        if line.word == "raw":
            datagram = self.raw(line)
        else:
            place = int(line.asked[2])
            datagram = self.sent[line.word][place] if place < len(self.sent[line.word]) else None
        return Row(line, datagram) if line.refusal else self.came(line, datagram)

    def take_move(self) -> int | None:
        """The move that a tick takes."""
        if self.taken == self.accepted:
            return None
        self.taken += 1
        return self.taken - 1


def deliveries_of(lines: list[Line]) -> dict[tuple[str, int, int], list[Delivery]]:
    """The deliveries of each datagram, by its way, client and place."""
    found = defaultdict(list)
    for line in lines:
        if line.word in ("down", "up") and line.answer[0] != "notsent":
            found[line.word, line.client, line.place].append(Delivery(line.number, line.refusal))
    return found


def served_clients(lines: list[Line]) -> set[int]:
    """The clients of which the script has bytes that came, and nothing that their ends or the network did."""
    heard = {line.client for line in lines if line.word == "raw" and not line.refusal}
    return heard - {line.client for line in lines if line.word in ("cpack", "down", "up")}


class History:
    """The rows of a match up to the last line that was looked at, and over them, for each client, which objects it is shown and
    which object each slot has."""

    def __init__(self, script: Script, lines: list[Line], seen: Seen):
        self.script, self.seen = script, seen
        self.deliveries = deliveries_of(lines)
        served = served_clients(lines)
        self.connections = [Connection(script, client, client in served) for client in range(script.clients)]
        self.shown: dict[int, list[tuple[int, list[int]]]] = defaultdict(list)
        self.slots: dict[int, list[tuple[int, dict[int, int]]]] = defaultdict(list)
        self.world = World(seen.worlds[0])
        self.rows = [self.row(line) for line in lines[: seen.last]]

    def row(self, line: Line) -> Row:
        if line.number in self.seen.worlds:
            self.world = World(self.seen.worlds[line.number])
        if line.word == "tick":
            taken = {one.client: one.take_move() for one in self.connections}
            return Row(line, taken={client: move for client, move in taken.items() if move is not None})
        if line.word == "world":
            return Row(line)
        connection = self.connections[line.client]
        if line.word == "scan":
            scanned = connection.periods.scan(visible(self.script, self.world, line.client))
            self.shown[line.client].append((line.number, sorted(connection.periods.shown)))
            return Row(line, scanned=scanned)
        if line.word in ("down", "up", "raw"):
            return connection.arrives(line)
        if line.word in MADE_BY and line.told[2] != "worn":
            way = MADE_BY[line.word]
            row = Row(line, connection.made(line, self.deliveries[way, line.client, line.place]))
            if way == "down":
                self.slots[line.client].append((line.number, {slot: one.object for slot, one in connection.periods.holders.items()}))
            return row
        return Row(line)

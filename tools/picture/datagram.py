"""A datagram taken apart, by the grammar of docs/wire.md, "Datagrams", in wire version 1 or 2.

`read_server` reads what a server sent and `read_client` what a client sent. Either gives a `Packet`, with each number of it as a
`Part` at its bit, or raises the `Fault` that the reader of the other end finds. In version 2 a guaranteed event has the low 7 bits of
its number, and an update no kind: it is read by `held`, the kinds that the slots held before the packet.
"""

from collections import Counter
from dataclasses import dataclass, field
from typing import Mapping, NamedTuple

from kinds import KINDS, Kind

USES = ("header", "blocks", "events", "creates", "updates", "kills", "moves")
KILL, CREATE, UPDATE = range(3)
OPS = ("kill", "create", "update")
# (no op is 3)
USE_OF_OP = ("kills", "creates", "updates", "header")
SLOT_BITS, OP_BITS = 8, 2
MASK_BITS = 32
MAX_BLOCK_BYTES, MAX_EVENT_BYTES = 40, 24
MAX_PACKET_EVENTS, MAX_PACKET_GHOSTS, MAX_PACKET_MOVES = 31, 128, 32
LOW_NUMBERS = 128


class Fault(Exception):
    """Why bytes are no datagram: the bit at which the first faulty part begins, and the fault's name."""

    def __init__(self, place: int, cause: str):
        super().__init__(f"{place} {cause}")
        self.place, self.cause = place, cause


class Part(NamedTuple):
    """One number of a datagram: where it begins, how many bits it has, and which of USES it serves."""

    bit: int
    width: int
    name: str
    value: int
    use: str


class Block(NamedTuple):
    bit: int
    number: int
    data: bytes


class Event(NamedTuple):
    """`number` is None for an unguaranteed one."""

    bit: int
    number: int | None
    data: bytes


class Ghost(NamedTuple):
    """`levels` has those of the fields that are carried, by field; a kill has no kind."""

    bit: int
    op: int
    slot: int
    kind: int | None
    block: int | None
    levels: dict[int, int]

    def values(self) -> dict[str, int]:
        """What the carried fields show, by their names."""
        fields = KINDS[self.kind].fields if self.levels else ()
        return {fields[number].name: fields[number].shown(level) for number, level in self.levels.items()}


class Move(NamedTuple):
    bit: int
    number: int
    dx: int
    dy: int
    fire: int
    use: int


@dataclass(slots=True)
class Packet:
    is_ping: bool
    client: int
    seq: int
    horizon: int
    mask: int
    accepted: int | None = None
    control: int | None = None
    first_move: int | None = None
    blocks: list[Block] = field(default_factory=list)
    events: list[Event] = field(default_factory=list)
    ghosts: list[Ghost] = field(default_factory=list)
    moves: list[Move] = field(default_factory=list)
    parts: list[Part] = field(default_factory=list)

    def bits(self) -> Counter[str]:
        """How many bits each use has; the zero bits at the end are the header's."""
        counts: Counter[str] = Counter()
        for part in self.parts:
            counts[part.use] += part.width
        return counts

    def acknowledges(self, seq: int) -> bool:
        """Whether the sender tells that it processed this packet of the other side, which is at most the horizon."""
        return self.horizon - seq < MASK_BITS and bool(self.mask >> (self.horizon - seq) & 1)


class Reader:
    """Takes the parts of a datagram off, from its first bit on."""

    def __init__(self, data: bytes):
        self.left, self.bits, self.at, self.parts = int.from_bytes(data, "little"), 8 * len(data), 0, []

    def take(self, width: int, name: str, use: str = "header") -> int:
        if self.bits - self.at < width:
            raise Fault(self.at, "Short")
        value = self.left & ((1 << width) - 1)
        self.left >>= width
        self.parts.append(Part(self.at, width, name, value, use))
        self.at += width
        return value

    def ahead(self, bits: int, width: int) -> int:
        """The number that stands so many bits ahead, as if zero bits came after the last."""
        return self.left >> bits & ((1 << width) - 1)

    def take_to(self, most: int, cause: str, width: int, name: str, use: str = "header") -> int:
        """A number that is at most `most`."""
        begin, value = self.at, self.take(width, name, use)
        if value > most:
            raise Fault(begin, cause)
        return value

    def take_bytes(self, most: int, width: int, use: str) -> bytes:
        length = self.take_to(most, "LengthBits", width, "length", use)
        return bytes(self.take(8, "byte", use) for _ in range(length))

    def end(self) -> None:
        """At most seven zero bits are left."""
        if self.bits - self.at > 7 or self.left:
            raise Fault(self.at, "Padding")
        if self.bits > self.at:
            self.take(self.bits - self.at, "zero bits")


def read_header(reader: Reader) -> Packet:
    kind = reader.take_to(1, "KindBits", 2, "kind")
    client = reader.take(4, "client")
    begin, seq = reader.at, reader.take(24, "seq")
    if seq == 0:
        raise Fault(begin, "ZeroSeq")
    horizon, mask = reader.take(24, "horizon"), reader.take(MASK_BITS, "mask")
    return Packet(kind == 1, client, seq, horizon, mask, parts=reader.parts)


def read_blocks(reader: Reader) -> list[Block]:
    def block() -> Block:
        return Block(reader.at, reader.take(6, "block", "blocks"), reader.take_bytes(MAX_BLOCK_BYTES, 6, "blocks"))

    return [block() for _ in range(reader.take(4, "count of datablocks"))]


def read_events(reader: Reader, version: int) -> list[Event]:
    def event() -> Event:
        begin, guaranteed = reader.at, reader.take(1, "guaranteed flag", "events")
        number = reader.take(24 if version == 1 else 7, "number", "events") if guaranteed else None
        return Event(begin, number, reader.take_bytes(MAX_EVENT_BYTES, 5, "events"))

    return [event() for _ in range(reader.take_to(MAX_PACKET_EVENTS, "CountBits", 5, "count of events"))]


def read_kind(reader: Reader, use: str) -> int:
    return reader.take_to(len(KINDS) - 1, "UnknownKind", 4, "kind", use)


def read_levels(reader: Reader, kind: Kind, mask: int, use: str) -> dict[int, int]:
    return {
        number: reader.take(one.bits, one.name, use)
        for number, one in enumerate(kind.fields)
        if mask >> number & 1
    }


def read_ghost(reader: Reader, version: int, held: Mapping[int, int]) -> Ghost:
    use = USE_OF_OP[reader.ahead(SLOT_BITS, OP_BITS)]
    begin, slot = reader.at, reader.take(SLOT_BITS, "slot", use)
    op = reader.take_to(UPDATE, "OpBits", OP_BITS, "op", use)
    if op == KILL:
        return Ghost(begin, op, slot, None, None, {})
    if op == CREATE:
        kind, block = read_kind(reader, use), reader.take(6, "block", use)
        return Ghost(begin, op, slot, kind, block, read_levels(reader, KINDS[kind], -1, use))
    if version == 1:
        kind = read_kind(reader, use)
    elif slot in held:
        kind = held[slot]
    else:
        raise Fault(reader.at, "UnknownSlot")
    mask_at, mask = reader.at, reader.take(len(KINDS[kind].fields), "mask", use)
    if mask == 0:
        raise Fault(mask_at, "EmptyMask")
    return Ghost(begin, op, slot, kind, None, read_levels(reader, KINDS[kind], mask, use))


def read_moves(reader: Reader, first: int) -> list[Move]:
    def move(number: int) -> Move:
        begin, dx, dy = reader.at, reader.take(4, "dx + 8", "moves") - 8, reader.take(4, "dy + 8", "moves") - 8
        return Move(begin, number, dx, dy, reader.take(1, "fire", "moves"), reader.take(1, "use", "moves"))

    count = reader.take_to(MAX_PACKET_MOVES, "CountBits", 6, "count of moves")
    return [move(number) for number in range(first, first + count)]


def read_server(data: bytes, version: int, held: Mapping[int, int]) -> Packet:
    """What a server's datagram says. `held` has the kind of each slot before it, which version 2 reads updates by."""
    reader = Reader(data)
    packet = read_header(reader)
    if not packet.is_ping:
        packet.accepted = reader.take(24, "accepted moves")
        if reader.take(1, "control flag"):
            packet.control = reader.take(8, "control slot")
        packet.blocks = read_blocks(reader)
        packet.events = read_events(reader, version)
        count = reader.take_to(MAX_PACKET_GHOSTS, "CountBits", 8, "count of ghosts")
        packet.ghosts = [read_ghost(reader, version, held) for _ in range(count)]
    reader.end()
    return packet


def read_client(data: bytes, version: int) -> Packet:
    """What a client's datagram says."""
    reader = Reader(data)
    packet = read_header(reader)
    if not packet.is_ping:
        packet.first_move = reader.take(24, "first move")
        packet.moves = read_moves(reader, packet.first_move)
        packet.events = read_events(reader, version)
    reader.end()
    return packet


def kinds_behind(packet: Packet, held: Mapping[int, int]) -> dict[int, int]:
    """The kinds that the slots hold behind a server's packet."""
    kinds = dict(held)
    for ghost in packet.ghosts:
        if ghost.op == CREATE:
            kinds[ghost.slot] = ghost.kind
        elif ghost.op == KILL:
            kinds.pop(ghost.slot, None)
    return kinds


def whole_number(number: int, version: int, least: int) -> int:
    """The number of a guaranteed event whose number stands in a packet, at least `least`: version 2 has its low bits alone."""
    return number if version == 1 else least + (number - least) % LOW_NUMBERS

"""What a picture says in words: the labels of rows, and datagrams taken apart."""

from typing import Iterator, NamedTuple

from datagram import KILL, MASK_BITS, OPS, UPDATE, Event, Ghost, Move, Packet
from history import Datagram, Row, Verdict
from kinds import KINDS

AGAIN = "↻"
LABEL_LETTERS = 20
# Of a served match: what the server knows by the verdict on its packet. A ping has none.
FATES = {"came": "it came", "lost": "it was lost", "unknown": "whether it came is not known"}
SENDER = {"down": "the server", "up": "client {}", "raw": "somebody, as client {}"}


class Span(NamedTuple):
    """A part of a label, and the class by which it is drawn: a use of bytes, or good, bad, strong, dim or plain."""

    look: str
    text: str


def payload(data: bytes) -> str:
    """An event's or a block's bytes: as text where they are text."""
    if not data:
        return "nothing"
    return f"“{data.decode()}”" if all(0x20 <= byte <= 0x7E for byte in data) else data.hex()


def short(data: bytes) -> str:
    """The same, cut for a label."""
    said = payload(data)
    return said if len(said) <= LABEL_LETTERS else said[: LABEL_LETTERS - 1] + "…"


def counted(count: int, noun: str, nouns: str = "") -> str:
    return f"{count} {noun}" if count == 1 else f"{count} {nouns or noun + 's'}"


def run_of(numbers: range) -> str:
    """A run of numbers, as one or as the first and the last."""
    return str(numbers[0]) if len(numbers) == 1 else f"{numbers[0]}–{numbers[-1]}"


# ---- labels


def carried_spans(datagram: Datagram) -> Iterator[Span]:
    """What a packet carries, by use, each with what of it is sent again."""
    packet = datagram.packet
    by_op = [("create", "creates"), ("update", "updates"), ("kill", "kills")]
    ghosts = {op: [ghost for ghost in packet.ghosts if OPS[ghost.op] == op] for op, _ in by_op}
    groups = [("block", "blocks", packet.blocks), ("event", "events", packet.events), ("move", "moves", packet.moves)]
    for noun, use, items in groups + [(op, use, ghosts[op]) for op, use in by_op]:
        again = sum(item.bit in datagram.again for item in items)
        if items:
            mark = "" if not again else AGAIN if again == len(items) == 1 else f" {AGAIN}{again}"
            yield Span(use, counted(len(items), noun) + mark)


def made_spans(row: Row) -> Iterator[Span]:
    datagram = row.datagram
    if datagram is None:
        yield Span("bad", " ".join(row.line.told[2:]))
    elif datagram.packet.is_ping:
        yield Span("strong", f"ping {datagram.packet.seq}")
    else:
        yield Span("strong", str(datagram.packet.seq))
        yield from carried_spans(datagram)
        yield Span("dim", f"{len(datagram.data)} B")


def verdict_spans(verdicts: list[Verdict]) -> Iterator[Span]:
    for look, mark, is_received in (("good", "✓", True), ("bad", "✗", False)):
        numbers = [str(verdict.seq) for verdict in verdicts if verdict.is_received == is_received]
        if numbers:
            yield Span(look, f"{mark} {numbers[0]} to {numbers[-1]}" if len(numbers) > 4 else f"{mark} {', '.join(numbers)}")


def came_spans(row: Row) -> Iterator[Span]:
    if row.line.refusal:
        yield Span("bad", row.line.refusal)
        return
    yield from verdict_spans(row.verdicts)
    if row.accepted:
        yield Span("moves", f"accepts {'move' if len(row.accepted) == 1 else 'moves'} {run_of(row.accepted)}")
    for word in row.line.answer[1:]:
        kind, _, data = word.partition(":")
        if kind in ("g", "u"):
            yield Span("events", f"{'gets event' if kind == 'g' else 'gets loose event'} {short(bytes.fromhex(data.replace('-', '')))}")


def posted_spans(row: Row) -> Iterator[Span]:
    told = row.line.told
    said = short(bytes.fromhex(row.line.asked[3].replace("-", "")))
    if told[2] not in ("g", "u"):
        yield Span("events", f"posts {said}")
        yield Span("bad", " ".join(told[2:]))
        return
    yield Span("events", f"posts {'event ' + told[3] if told[2] == 'g' else 'a loose event'}: {said}")
    if told[3:4] == ["dropped"]:
        yield Span("bad", f"drops {short(bytes.fromhex(told[4].replace('-', '')))}")


def moved_spans(row: Row) -> Iterator[Span]:
    dx, dy, fire, use = row.line.asked[2:]
    acts = (", fires" if fire == "1" else "") + (", uses" if use == "1" else "")
    if len(row.line.told) > 3:
        yield Span("bad", "move " + " ".join(row.line.told[2:]))
    else:
        yield Span("moves", f"samples move {row.line.told[2]}: {dx} {dy}{acts}")


def ticked_spans(row: Row) -> Iterator[Span]:
    yield Span("strong", f"tick {row.line.told[1]}")
    yield Span("dim", counted(int(row.line.told[3]), "write"))
    if row.taken:
        moves = [f"{move} of {'client ' if place == 0 else ''}{client}" for place, (client, move) in enumerate(row.taken.items())]
        yield Span("moves", f"takes move {', '.join(moves)}")


def scanned_spans(row: Row) -> Iterator[Span]:
    said = [text.format(count) for text, count in zip(("hides {}", "{} at another distance", "shows {}"), row.scanned) if count]
    yield Span("plain", "scan: " + (", ".join(said) or "the same"))


def told_spans(row: Row) -> Iterator[Span]:
    yield Span("dim", f"show: {counted(int(row.line.told[13]), 'copy', 'copies')}")


def world_spans(row: Row) -> Iterator[Span]:
    yield Span("dim", f"world: {counted(row.line.told.count('|'), 'object')}")


SPANS = {
    "tick": ticked_spans, "scan": scanned_spans, "post": posted_spans, "cpost": posted_spans, "pack": made_spans, "cpack": made_spans,
    "down": came_spans, "up": came_spans, "raw": came_spans, "move": moved_spans, "show": told_spans, "world": world_spans,
}  # fmt: skip


def label(row: Row) -> list[Span]:
    """What happens in a row."""
    return list(SPANS[row.line.word](row))


# ---- datagrams taken apart


def acknowledged(packet: Packet) -> str:
    if packet.horizon == 0:
        return "acknowledges no packet yet"
    front = range(max(1, packet.horizon - MASK_BITS + 1), packet.horizon + 1)
    missing = [str(seq) for seq in front if not packet.acknowledges(seq)]
    return f"acknowledges packets up to {packet.horizon}" + (f", but not {', '.join(missing)}" if missing else "")


def event_words(event: Event) -> str:
    return f"event {event.number}: {payload(event.data)}" if event.number is not None else f"loose event: {payload(event.data)}"


def ghost_words(ghost: Ghost, objects: dict[int, int]) -> str:
    said = f"{OPS[ghost.op]} slot {ghost.slot}"
    if ghost.slot in objects:
        said += f", object {objects[ghost.slot]}"
    if ghost.op == KILL:
        return said
    block = "" if ghost.op == UPDATE else f", block {ghost.block}"
    return f"{said}, {KINDS[ghost.kind].name}{block}: " + ", ".join(f"{name} {value}" for name, value in ghost.values().items())


def move_words(move: Move) -> str:
    acts = (", fires" if move.fire else "") + (", uses" if move.use else "")
    return f"move {move.number}: {move.dx} {move.dy}{acts}"


def header_words(packet: Packet) -> Iterator[tuple[int, str]]:
    """The parts that every packet has, the counts of what follows, and the bits at the end."""
    said = {
        "kind": "ping" if packet.is_ping else "data", "client": f"client {packet.client}", "seq": f"packet {packet.seq}",
        "horizon": acknowledged(packet), "accepted moves": f"accepted {counted(packet.accepted or 0, 'move')}",
        "control slot": f"control slot {packet.control}", "first move": f"moves from {packet.first_move} on",
    }  # fmt: skip
    for part in packet.parts:
        if part.name in said and part.use == "header":
            yield part.bit, said[part.name]
        elif part.name.startswith("count of"):
            noun = part.name.removeprefix("count of ")
            yield part.bit, f"{part.value} {noun.removesuffix('s') if part.value == 1 else noun}"
        elif part.name == "zero bits":
            yield part.bit, f"{counted(part.width, 'zero bit')} up to a whole byte"


def packet_words(datagram: Datagram) -> list[str]:
    """A line for each part of a packet, with its bit."""
    packet = datagram.packet
    said = list(header_words(packet))
    said += [(block.bit, f"  block {block.number}: {payload(block.data)}") for block in packet.blocks]
    said += [(event.bit, f"  {event_words(event)}") for event in packet.events]
    said += [(ghost.bit, f"  {ghost_words(ghost, datagram.objects)}") for ghost in packet.ghosts]
    said += [(move.bit, f"  {move_words(move)}") for move in packet.moves]
    return [f"{bit:>4}  {text}{f'  {AGAIN} again' if bit in datagram.again else ''}" for bit, text in sorted(said)]


def fate_words(datagram: Datagram) -> Iterator[str]:
    for line, refusal in datagram.deliveries:
        yield f"line {line}: refused, {refusal}" if refusal else f"line {line}: taken"
    if datagram.is_served:
        yield f"{FATES[datagram.fate]}{f', as line {datagram.judged[0]} tells' if datagram.judged else ''}"
    elif not datagram.deliveries:
        yield "never delivered"


def taken_apart(datagram: Datagram) -> str:
    """A datagram, its deliveries and its parts, in lines."""
    sender = SENDER[datagram.way].format(datagram.client)
    place = "bytes" if datagram.place is None else f"datagram {datagram.place}"
    to = f" to client {datagram.client}" if datagram.way == "down" else ""
    head = f"{place} of {sender}{to}, line {datagram.line}, {counted(len(datagram.data), 'byte')}"
    parts = packet_words(datagram) if datagram.packet else [f"{datagram.fault.place:>4}  {datagram.fault.cause}", "", datagram.data.hex()]
    return "\n".join([head, *fate_words(datagram), "", " bit", *parts])

#!/usr/bin/env python3
"""Holds what tools/picture reads out of reports against what they say themselves: datagram_test.py PROGRAM SCRIPT ..

The program is run on each script, as it is and with looks put in. For each it is held that

- looks change nothing of the report;
- every datagram reads whole, and each `raw` line that is refused for its bits tells the fault that the reader finds, at its place;
- the copies that come of the datagrams' items are those that `show` tells, with the values that their levels show;
- each `scan` counts the periods that end, change their level and begin as the followed scope does, and each create has the kind of
  the object that the followed slots give it;
- `show` counts the moves that were accepted and taken as they were followed.

Beside them the datagrams that docs/script.md takes apart, of both versions, have their parts at the bits that it tells.

It prints each difference, and at the end how many lines and datagrams there were; it ends with 1 where there is a difference.
"""

import subprocess
import sys
from pathlib import Path
from typing import Iterator

sys.dont_write_bytecode = True

from datagram import CREATE, KILL, Fault, Ghost, Packet, read_client, read_server
from history import Datagram, History, Row
from kinds import KINDS
from looks import Seen, looked_script, looks
from scope import kind_of
from script import Line, Script, read_lines, read_script


HEADER = [0, 2, 6, 30, 54, 86, 110]
WORKED = (
    ("400000000000000000000000000008010000045a1a00", 1, [*HEADER, 111, 115, 120, 121, 145, 150, 158, 166, 174]),
    ("40000000000000000000000000000801022d0d00", 2, [*HEADER, 111, 115, 120, 121, 128, 133, 141, 149, 157]),
)
WORKED_OF_CLIENT = ("4000000000000000000000000040801800", [*HEADER, 116, 120, 124, 125, 126, 131])
# An update of slot 0, which holds nothing.
UNKNOWN_SLOT = ("400000000000000000000000000000010002", "138 UnknownSlot")


def worked_differ() -> Iterator[str]:
    """How worked datagrams are read otherwise than they are told."""
    for data, version, bits in WORKED:
        packet = read_server(bytes.fromhex(data), version, {})
        if [part.bit for part in packet.parts] != bits or [(one.number, one.data) for one in packet.events] != [(0, b"hi")]:
            yield f"{data} of version {version} is read as {packet}"
    packet = read_client(bytes.fromhex(WORKED_OF_CLIENT[0]), 1)
    if [part.bit for part in packet.parts] != WORKED_OF_CLIENT[1] or [one[1:] for one in packet.moves] != [(0, 0, 0, 1, 0)]:
        yield f"{WORKED_OF_CLIENT[0]} is read as {packet}"
    try:
        yield f"{UNKNOWN_SLOT[0]} is read as {read_server(bytes.fromhex(UNKNOWN_SLOT[0]), 2, {})}"
    except Fault as fault:
        if str(fault) != UNKNOWN_SLOT[1]:
            yield f"{UNKNOWN_SLOT[0]} has the fault {fault}"


def report_of(program: str, script: str) -> str:
    return subprocess.run([program, "run"], input=script, capture_output=True, text=True, check=True).stdout


class Copies:
    """The copies that come of the items which a client took."""

    def __init__(self):
        self.slots: dict[int, list] = {}

    def take(self, packet: Packet) -> None:
        for ghost in packet.ghosts:
            if ghost.op == KILL:
                del self.slots[ghost.slot]
            else:
                self.take_levels(ghost)

    def take_levels(self, ghost: Ghost) -> None:
        if ghost.op == CREATE:
            self.slots[ghost.slot] = [ghost.kind, ghost.block, {}]
        self.slots[ghost.slot][2].update(ghost.levels)

    def pieces(self) -> list[str]:
        """As a line `show` tells them, without the marks of what is settled."""
        return [
            " ".join(map(str, (slot, KINDS[kind].name, block, *(KINDS[kind].fields[f].shown(levels[f]) for f in sorted(levels)))))
            for slot, (kind, block, levels) in sorted(self.slots.items())
        ]


def bare(pieces: list[str]) -> list[str]:
    """Pieces of `show` without the marks of what is settled."""
    return [" ".join(word.removesuffix("s") if word[0].isdigit() else word for word in piece.split(" ")) for piece in pieces]


class Followed:
    """What the rows of a match come to, and where its report says otherwise."""

    def __init__(self, history: History):
        self.script, self.clients = history.script, range(history.script.clients)
        self.copies = [Copies() for _ in self.clients]
        self.accepted, self.taken = [0 for _ in self.clients], [0 for _ in self.clients]

    def differs(self, row: Row) -> str | None:
        for client in row.taken:
            self.taken[client] += 1
        match row.line.word:
            case "scan":
                told = tuple(int(row.line.told[place]) for place in (3, 5, 7))
                return None if told == row.scanned else f"the followed scope has {row.scanned}"
            case "pack" if row.datagram:
                return self.creates_differ(row.datagram)
            case "down" | "up" | "raw" if not row.line.refusal:
                self.take(row)
            case "raw" if row.line.answer[0] == "bits":
                fault = f"bits {row.datagram.fault}"
                return None if fault == row.line.refusal else f"the reader finds {fault}"
            case "show":
                return self.show_differs(row.line)
        return None

    def take(self, row: Row) -> None:
        if row.line.word == "down":
            self.copies[row.line.client].take(row.datagram.packet)
        self.accepted[row.line.client] += len(row.accepted)

    def creates_differ(self, datagram: Datagram) -> str | None:
        for ghost in datagram.packet.ghosts:
            number = datagram.objects[ghost.slot]
            if ghost.op != KILL and KINDS[ghost.kind].name != kind_of(self.script, number):
                return f"slot {ghost.slot} has object {number}, of another kind"
        return None

    def show_differs(self, line: Line) -> str | None:
        head, *pieces = " ".join(line.told).split(" | ")
        counts, copies = head.split(" "), self.copies[line.client].pieces()
        followed = self.accepted[line.client], self.taken[line.client]
        if (int(counts[7]), int(counts[9])) != followed:
            return f"followed are {followed} moves accepted and taken"
        return None if bare(pieces) == copies else f"the copies are {copies}"


def differences(program: str, text: str) -> tuple[History, list[str]]:
    script, report = read_script(text), report_of(program, text)
    last = len(script.body)
    told = report_of(program, looked_script(script, 1, last))
    seen = Seen(script, 1, last, told)
    history = History(script, read_lines(script, report), seen)
    followed = Followed(history)
    wrong = [f"line {row.line.number}: {what}" for row in history.rows if (what := followed.differs(row))]
    if not report.startswith(without_looks(script, told)):
        wrong.append("looks change the report")
    return history, wrong


def without_looks(script: Script, told: str) -> str:
    """The report of the looked script without what the looks told."""
    answers, kept = iter(told.splitlines(keepends=True)), []
    for number, found in looks(script, 1, len(script.body)):
        kept += [next(answers)] if number else []
        for _ in found:
            next(answers)
    return "".join(kept)


def main() -> int:
    program, *scripts = sys.argv[1:]
    lines = datagrams = different = 0
    for what in worked_differ():
        print(what)
        different += 1
    for name in scripts:
        history, wrong = differences(program, Path(name).read_text())
        for what in wrong:
            print(f"{name}: {what}", flush=True)
        lines += len(history.rows)
        datagrams += sum(row.datagram is not None for row in history.rows)
        different += len(wrong)
    print(f"{len(scripts)} scripts, {lines} lines, {datagrams} datagrams made or brought, {different} differences")
    return 1 if different else 0


if __name__ == "__main__":
    sys.exit(main())

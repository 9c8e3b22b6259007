"""Looks into a match: lines `world` and `show` put into its script, which change nothing of it.

A look stands behind each line that may change what it tells. Before the drawn lines these are the worlds alone: by them it is known
which objects a client is shown. A script has only so much room, so the looks may end before the drawn lines do.
"""

from collections import defaultdict
from typing import Iterator

from script import MAX_BODY_LINES, MAX_SCRIPT_BYTES, Script

CHANGES_COPIES = ("scan", "pack", "down", "up", "raw")


def looks_behind(line: str, shows: range) -> list[str]:
    """The looks behind a line, with the clients whose copies are looked at."""
    words = line.split(" ")
    if words[0] == "tick":
        return ["world", *(f"show {client}" for client in shows)]
    return [f"show {words[1]}"] if words[0] in CHANGES_COPIES and shows else []


def looks(script: Script, first: int, last: int) -> Iterator[tuple[int, list[str]]]:
    """The looks behind each line of the body, by its number, from 0 for the script's beginning to the last that has room."""
    everybody = range(script.clients)
    lines, size = 0, sum(len(line) + 1 for line in script.head)
    for number in range(last + 1):
        line = script.body[number - 1] if number else "tick"
        shows = everybody if number >= first else range(0)
        found = ["world", *(f"show {client}" for client in everybody)] if number == first - 1 else looks_behind(line, shows)
        lines += len(found) + (number > 0)
        size += len(line) + 1 + sum(len(look) + 1 for look in found)
        if lines > MAX_BODY_LINES or size > MAX_SCRIPT_BYTES:
            return
        yield number, found


def looked_script(script: Script, first: int, last: int) -> str:
    """The script up to the last drawn line, with its looks."""
    lines = list(script.head)
    for number, found in looks(script, first, last):
        lines += ([script.body[number - 1]] if number else []) + found
    return "\n".join(lines) + "\n"


class Seen:
    """What the looks told, as the program's words for each object and copy."""

    def __init__(self, script: Script, first: int, last: int, told: str):
        """`told` is the report of the looked script. `last` becomes the last line that had room."""
        self.worlds: dict[int, list[str]] = {}
        self.copies: dict[int, list[tuple[int, list[str]]]] = defaultdict(list)
        self.last = 0
        answers = iter(told.split("\n"))
        for self.last, found in looks(script, first, last):
            if self.last:
                next(answers)
            for look in found:
                self.keep(look, next(answers).split(" | ")[1:])

    def keep(self, look: str, pieces: list[str]) -> None:
        if look == "world":
            self.worlds[self.last] = pieces
        else:
            self.copies[int(look[len("show ") :])].append((self.last, pieces))

"""A script and its report, line by line (docs/script.md, "The script" and "The report")."""

from dataclasses import dataclass
from typing import NamedTuple

MAX_SCRIPT_BYTES = 1_048_576
MAX_BODY_LINES = 100_000
MADE_BY = {"pack": "down", "cpack": "up"}


class Spawn(NamedTuple):
    """An object of the header; a player has its client."""

    kind: str
    team: int
    client: int | None


@dataclass(frozen=True, slots=True)
class Script:
    """The lines of header and body, and what the header says."""

    head: list[str]
    body: list[str]
    version: int
    clients: int
    radius: int
    objects: list[Spawn]


class Line(NamedTuple):
    """A line of the body, numbered from 1, and what the report tells of it, both as words."""

    number: int
    asked: list[str]
    told: list[str]

    @property
    def word(self) -> str:
        return self.asked[0]

    @property
    def client(self) -> int:
        """The client of any line but `tick` and `world`."""
        return int(self.asked[1])

    @property
    def place(self) -> int:
        """The place of the datagram that a `pack`, `cpack`, `down` or `up` line names."""
        return int(self.told[2])

    @property
    def answer(self) -> list[str]:
        """What an arrival is answered: `ok` and further words, or the words of a refusal."""
        return self.told[2 if self.word == "raw" else 3 :]

    @property
    def refusal(self) -> str:
        """The words of an arrival's refusal, none where it is taken."""
        return "" if self.answer[0] == "ok" else " ".join(self.answer)


def spawn(words: list[str]) -> Spawn:
    if words[0] == "player":
        return Spawn("player", int(words[3]), int(words[1]))
    return Spawn(words[1], int(words[3]), None)


def read_script(text: str) -> Script:
    """A script in which the program found no fault."""
    lines = text.split("\n")
    if lines[-1] == "":
        lines.pop()
    go = lines.index("go") + 1
    head, words = lines[:go], [line.split(" ") for line in lines[:go]]
    return Script(
        head=head,
        body=lines[go:],
        version=int(words[0][1]),
        clients=int(words[1][2]),
        radius=int(words[1][5]),
        objects=[spawn(line) for line in words if line[0] in ("player", "spawn")],
    )


def read_lines(script: Script, report: str) -> list[Line]:
    """The lines of the body with those of the report."""
    pairs = zip(script.body, report.split("\n"))
    return [Line(number, asked.split(" "), told.split(" ")) for number, (asked, told) in enumerate(pairs, 1)]

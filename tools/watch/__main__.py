"""Watches a demo in the terminal: ./tribes watch DEMO.

It asks the program alone: `replay` once for the line of each record, and `replay K` for what is shown behind the first K. The copies
stand on a map and in a list.

    right, l, n    a record forward        left, h, p    a record back
    PageDown, ]    64 forward              PageUp, [     64 back
    End, G         behind the last         Home, g       before the first
    space          plays and stops         q             ends
"""

import curses
import subprocess
import sys
from dataclasses import dataclass, field
from pathlib import Path

FAR = 64
# How long a record stands while the demo plays, in milliseconds.
PLAYED = 50
# The fields of each kind, and its letter on the map. A clock has no place there.
KINDS = {
    "player": ("P", ("x", "y", "hp", "ammo", "score")),
    "disc": ("o", ("x", "y")),
    "mine": ("m", ("x", "y", "armed")),
    "drone": ("D", ("x", "y", "hp")),
    "flag": ("F", ("x", "y", "holder")),
    "clock": ("", ("tick", "red", "blue")),
}
LIST_WIDTH = 54


@dataclass
class Copy:
    """A copy, as a line of a replay tells it."""

    slot: int
    kind: str
    block: int
    values: tuple[int, ...]

    @property
    def letter(self):
        return KINDS[self.kind][0]

    def __str__(self):
        named = " ".join(f"{name} {value}" for name, value in zip(KINDS[self.kind][1], self.values))
        return f"{self.slot:3} {self.kind:6} {named}"


@dataclass
class Shown:
    """What is shown behind some records."""

    events: int
    copies: list[Copy]


def shown_in(line):
    """What the last line of a replay tells."""
    head, *copies = line.split(" | ")
    _, _, events, _, count = head.split()
    told = []
    for text in copies:
        slot, kind, block, *values = text.split()
        told.append(Copy(int(slot), kind, int(block), tuple(map(int, values))))
    assert len(told) == int(count)
    return Shown(int(events), told)


def said_in(take):
    """The events of a record's line that are text, as one reads them."""
    events = [bytes.fromhex(word[2:].strip("-")) for word in take.split(" ")[3:] if word[:2] in ("g:", "u:")]
    return "  ".join(f'says "{it.decode()}"' for it in events if it and all(0x20 <= byte <= 0x7E for byte in it))


@dataclass
class Demo:
    """A demo in a file, which the program tells."""

    program: str
    file: Path
    takes: list[str] = field(default_factory=list)
    ending: str = ""
    kept: dict[int, Shown] = field(default_factory=dict)

    def ask(self, *words):
        """The lines that the program writes. Where it refuses, its words and its status are this program's."""
        with open(self.file, "rb") as demo:
            done = subprocess.run([self.program, *words], stdin=demo, capture_output=True, text=True)
        if done.returncode != 0:
            print(done.stderr, end="", file=sys.stderr)
            sys.exit(done.returncode)
        return done.stdout.splitlines()

    def load(self):
        *self.takes, last = self.ask("replay")
        self.ending = last.split()[0]
        self.kept[len(self.takes)] = shown_in(last)
        return self

    def at(self, k):
        """What is shown behind the first k records."""
        if k not in self.kept:
            self.kept[k] = shown_in(self.ask("replay", str(k))[0])
        return self.kept[k]


@dataclass
class Box:
    """The part of the world that the map has: all places that were shown so far."""

    low_x: int = 65_535
    low_y: int = 65_535
    high_x: int = 0
    high_y: int = 0

    def hold(self, x, y):
        self.low_x, self.high_x = min(self.low_x, x), max(self.high_x, x)
        self.low_y, self.high_y = min(self.low_y, y), max(self.high_y, y)

    def cell(self, x, y, columns, rows):
        wide, tall = max(1, self.high_x - self.low_x), max(1, self.high_y - self.low_y)
        return (x - self.low_x) * (columns - 1) // wide, (self.high_y - y) * (rows - 1) // tall


class Watch:
    """The screen, and how far the demo has gone."""

    def __init__(self, screen, demo):
        self.screen, self.demo = screen, demo
        self.k, self.playing, self.box = 0, False, Box()

    def put(self, row, column, text, look=curses.A_NORMAL):
        rows, columns = self.screen.getmaxyx()
        if row < rows and column < columns:
            # the last cell of the screen can't be written without an error
            self.screen.addnstr(row, column, text, columns - column - 1, look)

    def draw(self):
        demo, last = self.demo, len(self.demo.takes)
        shown = demo.at(self.k)
        rows, columns = self.screen.getmaxyx()
        for copy in shown.copies:
            if copy.letter:
                self.box.hold(*copy.values[:2])
        self.screen.erase()
        state = "playing" if self.playing else "stopped"
        head = f"{demo.file.name}: {self.k} of {last} records, {shown.events} events, {len(shown.copies)} copies, {state}"
        self.put(0, 0, head, curses.A_BOLD)
        self.put(1, 0, demo.takes[self.k - 1] if self.k else "(no record yet)")
        ending = "after the last record the demo " + ("ends" if demo.ending == "end" else "is cut")
        self.put(2, 0, "  ".join([said_in(demo.takes[self.k - 1])] * (self.k > 0) + [ending] * (self.k == last)))
        self.draw_list(shown, 3, max(0, columns - LIST_WIDTH), rows - 4)
        self.draw_map(shown, 3, columns - LIST_WIDTH - 2, rows - 5)
        self.put(rows - 1, 0, "right left: a record   PageDown PageUp: 64   End Home   space: play   q: end", curses.A_DIM)
        self.screen.refresh()

    def draw_list(self, shown, top, column, most):
        for row, copy in enumerate(shown.copies[:most]):
            self.put(top + row, column, str(copy))
        if len(shown.copies) > most > 0:
            self.put(top + most - 1, column, f"and {len(shown.copies) - most + 1} more")

    def draw_map(self, shown, top, columns, rows):
        if columns < 8 or rows < 3:
            return
        self.put(top, 0, "+" + "-" * (columns - 2) + "+")
        for row in range(1, rows - 1):
            self.put(top + row, 0, "|" + " " * (columns - 2) + "|")
        self.put(top + rows - 1, 0, "+" + "-" * (columns - 2) + "+")
        for copy in shown.copies:
            if copy.letter:
                column, row = self.box.cell(*copy.values[:2], columns - 2, rows - 2)
                self.put(top + 1 + row, 1 + column, copy.letter, curses.A_BOLD)

    def go(self, k):
        self.k = max(0, min(k, len(self.demo.takes)))

    def press(self, key):
        """Does what a key asks for; false where it ends the program."""
        last = len(self.demo.takes)
        if key in (ord("q"), 27):
            return False
        if key == ord(" "):
            self.playing = not self.playing
        elif key == -1 and self.playing:
            self.go(self.k + 1)
            self.playing = self.k < last
        elif key in (curses.KEY_RIGHT, ord("l"), ord("n")):
            self.go(self.k + 1)
        elif key in (curses.KEY_LEFT, ord("h"), ord("p")):
            self.go(self.k - 1)
        elif key in (curses.KEY_NPAGE, ord("]")):
            self.go(self.k + FAR)
        elif key in (curses.KEY_PPAGE, ord("[")):
            self.go(self.k - FAR)
        elif key in (curses.KEY_END, ord("G")):
            self.go(last)
        elif key in (curses.KEY_HOME, ord("g")):
            self.go(0)
        return True

    def run(self):
        try:
            curses.curs_set(0)
        except curses.error:
            pass
        going = True
        while going:
            self.draw()
            self.screen.timeout(PLAYED if self.playing else -1)
            going = self.press(self.screen.getch())


def main():
    if len(sys.argv) != 3:
        print("watch: wanted is one demo: ./tribes watch DEMO", file=sys.stderr)
        sys.exit(2)
    file = Path(sys.argv[2])
    if not file.is_file():
        print(f"watch: {file} is no file", file=sys.stderr)
        sys.exit(2)
    if not (sys.stdin.isatty() and sys.stdout.isatty()):
        print("watch: a terminal is wanted", file=sys.stderr)
        sys.exit(2)
    demo = Demo(sys.argv[1], file).load()
    curses.wrapper(lambda screen: Watch(screen, demo).run())


if __name__ == "__main__":
    main()

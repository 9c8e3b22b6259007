"""Draws a match (docs/pictures.md), for ./tribes picture:

python3 tools/picture looked SCRIPT [FROM TO]               prints the script up to TO with looks put in
python3 tools/picture page SCRIPT REPORT TOLD [FROM TO]     prints the page; TOLD is the report of the looked script
python3 tools/picture chart SCRIPT REPORT TOLD [FROM TO]    prints the chart alone, as an SVG file

FROM and TO are lines of the report, from 1. What is wrong with them is told on standard error, and the status is 2. Where not all
lines are drawn, this is told there too.
"""

import gc
import sys
from pathlib import Path
from typing import NamedTuple, NoReturn

sys.dont_write_bytecode = True

from chart import Chart
from history import History
from looks import Seen, looked_script
from page import page, read
from script import Script, read_lines, read_script
from strip import Strip
from world_map import map_data

MAX_DRAWN_LINES = 5_000


class Drawn(NamedTuple):
    """The lines that are drawn, and the last that was asked for."""

    first: int
    last: int
    asked: int

    def notice(self) -> str:
        if self.last == self.asked:
            return ""
        if self.last == self.first + MAX_DRAWN_LINES - 1:
            return f"Lines {self.first} to {self.last} are drawn, {MAX_DRAWN_LINES:,} at most: FROM and TO choose others."
        return f"Lines {self.first} to {self.last} are drawn: a script has no room to look at later ones."


def refuse(what: str) -> NoReturn:
    print(f"picture: {what}", file=sys.stderr)
    sys.exit(2)


def drawn_lines(words: list[str], lines: int) -> Drawn:
    """What FROM and TO ask for, by default all lines."""
    if words and (len(words) != 2 or not all(word.isascii() and word.isdigit() for word in words)):
        refuse("wanted are FROM and TO, two numbers of lines, or neither")
    first, asked = map(int, words or (1, lines))
    asked = min(asked, lines)
    if words and not 1 <= first <= asked:
        refuse(f"FROM is to be from 1 to TO, and the report has {lines} lines")
    return Drawn(first, min(asked, first + MAX_DRAWN_LINES - 1), asked)


def draw(command: str, script: Script, report: str, told: str, drawn: Drawn) -> str:
    lines, seen = read_lines(script, report), Seen(script, drawn.first, drawn.last, told)
    if seen.last < drawn.first <= drawn.last:
        refuse(f"a script has no room to look at line {drawn.first}; the last that can be drawn is {seen.last}")
    drawn = drawn._replace(last=seen.last)
    if drawn.notice():
        print(f"picture: {drawn.notice()}", file=sys.stderr)
    history = History(script, lines, seen)
    chart = Chart(history, drawn.first, drawn.last)
    if command == "chart":
        return chart.file(read("chart.css"))
    strip = Strip(history.rows, drawn.first, script.clients)
    return page(chart, strip, map_data(history, drawn.first, drawn.last), len(lines), drawn.notice())


def main() -> None:
    # All that is made is kept to the end.
    gc.disable()
    command, name, *words = sys.argv[1:]
    script = read_script(Path(name).read_text())
    if command == "looked":
        drawn = drawn_lines(words, len(script.body))
        sys.stdout.write(looked_script(script, drawn.first, drawn.last))
    else:
        report, told, *words = words
        drawn = drawn_lines(words, len(script.body))
        sys.stdout.write(draw(command, script, Path(report).read_text(), Path(told).read_text(), drawn))


if __name__ == "__main__":
    main()

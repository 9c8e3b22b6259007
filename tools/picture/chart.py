"""The sequence chart: a lane for the server and for each client, a row for each line, an arrow from each `pack` to each delivery."""

from html import escape
from math import hypot

from history import Datagram, History, Row
from script import MADE_BY
from words import label, taken_apart

ROW, HEAD = 20, 34
GUTTER, MARGIN, LEAST_MARGIN, LETTER = 170, 240, 40, 6.5
GUTTER_LETTERS = 17
CROWDED = 4
AT_SERVER = ("post", "pack", "up", "raw", "scan", "tick", "world")


def element(name: str, content: str = "", **attributes: object) -> str:
    """An element of SVG; `class_` gives its class, and _ stands for - in names."""
    words = "".join(f' {key.rstrip("_").replace("_", "-")}="{escape(str(value))}"' for key, value in attributes.items())
    return f"<{name}{words}>{content}</{name}>" if content else f"<{name}{words}/>"


def arrow(begin: tuple[float, float], end: tuple[float, float], has_head: bool = True) -> str:
    """An arrow that stops short of its end's lane, and round it room to point at."""
    (x, y), (to_x, to_y) = begin, end
    length = hypot(to_x - x, to_y - y)
    along_x, along_y = (to_x - x) / length, (to_y - y) / length
    to_x, to_y = to_x - 3 * along_x, to_y - 3 * along_y
    line = f"M{x:g} {y:g}L{to_x:.1f} {to_y:.1f}"
    drawn = element("path", class_="room", d=line) + element("path", class_="arrow", d=line)
    if has_head:
        back_x, back_y = to_x - 9 * along_x, to_y - 9 * along_y
        sides = [f"{back_x - side * along_y:.1f} {back_y + side * along_x:.1f}" for side in (4, -4)]
        drawn += element("path", class_="arrow head", d=f"M{sides[0]}L{to_x:.1f} {to_y:.1f}L{sides[1]}")
    return drawn


def broken(begin: tuple[float, float], end: tuple[float, float]) -> str:
    """An arrow that ends in a cross."""
    (x, y), (to_x, to_y) = begin, end
    line = f"M{x:g} {y:g}L{to_x:g} {to_y:g}"
    drawn = element("path", class_="room", d=line) + element("path", class_="arrow broken", d=line)
    return drawn + element("path", class_="cross", d=f"M{to_x - 5:g} {to_y - 5:g}l10 10m0 -10l-10 10")


class Chart:
    """The chart of the rows from `first` to `last`."""

    def __init__(self, history: History, first: int, last: int):
        self.rows = history.rows[first - 1 : last]
        self.first, self.last = first, last
        self.clients = history.script.clients
        self.datagrams = self.drawn_datagrams(history)
        self.lay_lanes()
        self.height = ROW * (len(self.rows) + 1)

    # ---- where things are

    def lay_lanes(self) -> None:
        """The server's lane in the middle of the clients', or at the left of the only one."""
        between = 330 if self.clients == 1 else 220 if self.clients <= CROWDED else 170
        left = self.clients // 2
        lanes = [*range(left), None, *range(left, self.clients)]
        self.lanes = {client: MARGIN + place * between for place, client in enumerate(lanes)}
        # No label is cut at the right, and at the left no room is wasted.
        labels = [(*self.side(row), LETTER * sum(len(span.text) + 3 for span in label(row))) for row in self.rows]
        left = min([min(self.lanes.values()) - LEAST_MARGIN, *(x - long for x, anchor, long in labels if anchor == "end")])
        right = max([max(self.lanes.values()) + LEAST_MARGIN, *(x + long for x, anchor, long in labels if anchor == "start")])
        self.lanes = {client: x - left for client, x in self.lanes.items()}
        self.width = right - left

    def y(self, line: int) -> float:
        """The middle of a line's row; lines that are not drawn lie at the edges."""
        return min(max(ROW * (line - self.first + 0.5), 0), self.height)

    def drawn_datagrams(self, history: History) -> list[Datagram]:
        """Those that are made or come in a drawn line."""

        def is_drawn(datagram: Datagram) -> bool:
            return any(self.first <= line <= self.last for line in (datagram.line, *(one.line for one in datagram.deliveries)))

        made = [row.datagram for row in history.rows[: self.last] if row.datagram and row.datagram.line == row.line.number]
        return [datagram for datagram in made if is_drawn(datagram)]

    def ends(self, datagram: Datagram) -> tuple[int, int]:
        """Where an arrow begins and where it ends."""
        server, client = self.lanes[None], self.lanes[datagram.client]
        return (server, client) if datagram.way == "down" else (client, server)

    # ---- arrows

    def short_arrow(self, datagram: Datagram) -> str:
        """An arrow whose end no line tells: it comes where its verdict says so, breaks off where it is lost, and ends in nothing where no
        verdict is known."""
        x, to_x = self.ends(datagram)
        y = self.y(datagram.line)
        if datagram.fate == "came":
            return arrow((x, y), (to_x, y + 0.7 * ROW))
        way = (x, y), (x + 0.45 * (to_x - x), y + 0.7 * ROW)
        return broken(*way) if datagram.fate == "lost" else arrow(*way, has_head=False)

    def arrows(self, datagram: Datagram) -> str:
        """An arrow to each delivery of a drawn line, and to the edge for one that comes later."""
        x, to_x = self.ends(datagram)
        drawn = []
        for line, refusal in datagram.deliveries:
            is_here = self.first <= line <= self.last
            if is_here or datagram.line <= self.last < line:
                path = arrow((x, self.y(datagram.line)), (to_x, self.y(line)), has_head=is_here)
                look = f"delivery{' refused' if refusal else ''}" if is_here else "later"
                drawn.append(element("g", path, class_=look))
        return "".join(drawn) if datagram.deliveries else self.short_arrow(datagram)

    def datagram(self, datagram: Datagram) -> str:
        kind = "forged" if datagram.way == "raw" else "ping" if datagram.packet.is_ping else "data"
        fate = "" if datagram.deliveries else f" {datagram.fate}"
        drawn = element("title", escape(taken_apart(datagram))) + self.arrows(datagram)
        return element("g", drawn, class_=f"datagram {datagram.way} {kind}{fate}", data_line=datagram.line, tabindex=-1)

    # ---- rows

    def side(self, row: Row) -> tuple[float, str]:
        """Where a row's label stands, and its anchor: on the far side of the arrows of its line."""
        if row.line.word in ("tick", "world"):
            return self.lanes[None] + (-10 if self.clients == 1 else 10), "end" if self.clients == 1 else "start"
        is_right = self.lanes[row.line.client] > self.lanes[None]
        if row.line.word in AT_SERVER:
            is_right = not is_right
        x = self.lanes[None if row.line.word in AT_SERVER else row.line.client]
        return (x + 10, "start") if is_right else (x - 10, "end")

    def row(self, row: Row) -> str:
        y = self.y(row.line.number)
        asked, told = " ".join(row.line.asked), " ".join(row.line.told)
        drawn = element("title", f"{row.line.number}: {escape(asked)}\n→ {escape(told)}")
        drawn += element("rect", x=0, y=f"{y - ROW / 2:g}", width=self.width, height=ROW)
        if row.line.word == "tick":
            left, right = min(self.lanes.values()), max(self.lanes.values())
            drawn += element("path", class_="tick-rule", d=f"M{left} {y:g}H{right}")
        return element("g", drawn, class_=f"row {row.line.word}", data_line=row.line.number)

    def line(self, row: Row) -> str:
        """A line's number and its first words."""
        y, asked = self.y(row.line.number), " ".join(row.line.asked)
        short = asked if len(asked) <= GUTTER_LETTERS else asked[: GUTTER_LETTERS - 1] + "…"
        drawn = element("text", str(row.line.number), class_="number", x=44, y=f"{y + 4:g}")
        return drawn + element("text", escape(short), class_="asked", x=54, y=f"{y + 4:g}")

    def label(self, row: Row) -> str:
        x, anchor = self.side(row)
        spans = "<tspan> · </tspan>".join(element("tspan", escape(text), class_=look) for look, text in label(row))
        return element("text", spans, class_="label", x=f"{x:g}", y=f"{self.y(row.line.number) + 4:g}", text_anchor=anchor) if spans else ""

    def dot(self, row: Row) -> str:
        """A dot on the lane where something begins at an end itself."""
        looks = {"post": "events", "cpost": "events", "move": "moves", "raw": "forged", **dict.fromkeys(MADE_BY, "made")}
        if row.line.word not in looks:
            return ""
        x = self.lanes[None if row.line.word in ("post", "pack") else row.line.client]
        look = "made" if row.datagram and row.datagram.way == "up" else looks[row.line.word]
        return element("circle", class_=f"dot {look}", cx=x, cy=f"{self.y(row.line.number):g}", r=3.5)

    # ---- the whole

    def head(self) -> str:
        """The names of the lanes."""
        names = [("server" if client is None else f"client {client}", x) for client, x in self.lanes.items()]
        return "".join(element("text", name, class_="lane-name", x=x, y=22, text_anchor="middle") for name, x in names)

    def gutter(self) -> str:
        """The script at the left of the lanes."""
        return "".join(map(self.line, self.rows))

    def body(self) -> str:
        rows = "".join(map(self.row, self.rows))
        lanes = "".join(element("path", class_="lane", d=f"M{x} 0V{self.height}") for x in self.lanes.values())
        arrows = "".join(map(self.datagram, self.datagrams))
        labels = "".join(map(self.dot, self.rows)) + "".join(map(self.label, self.rows))
        return rows + lanes + arrows + labels

    def file(self, style: str) -> str:
        """The chart as a picture by itself."""
        width, height = GUTTER + self.width, self.height + HEAD
        ground = element("rect", class_="ground", width=f"{width:g}", height=height)
        gutter = element("g", self.gutter(), class_="gutter", transform=f"translate(0 {HEAD})")
        head = element("g", self.head(), transform=f"translate({GUTTER} 0)")
        drawn = element("style", style) + ground + gutter + head + element("g", self.body(), transform=f"translate({GUTTER} {HEAD})")
        size = {"width": f"{width:g}", "height": height, "viewBox": f"0 0 {width:g} {height}"}
        return element("svg", drawn, xmlns="http://www.w3.org/2000/svg", class_="chart", **size) + "\n"

"""The strip: for each client the bytes of each tick by what they were for, the server's above the line and the client's below it."""

from collections import Counter, defaultdict
from html import escape

from chart import element
from datagram import USES
from history import Row
from script import MADE_BY

HIGH, GAP = 76, 18
LEFT, NARROWEST, WIDEST, WIDTH = 140, 3, 26, 1_100
NUMBERS_APART = 60
UP_ORDER = ("header", "moves", "events")


def bits_by_tick(rows: list[Row], first: int) -> tuple[list[int], dict[tuple[int, str, int], Counter[str]]]:
    """The ticks of the rows from `first` on, and the bits of what was made in each: by client, way and tick."""
    bits: dict[tuple[int, str, int], Counter[str]] = defaultdict(Counter)
    tick = begin = 0
    for row in rows:
        if row.line.word == "tick":
            tick = int(row.line.told[1])
        if row.line.number == first:
            begin = tick
        # (a served client's datagrams stand where they came)
        is_counted = row.line.word in MADE_BY or (row.line.word == "raw" and row.datagram.way == "up")
        if row.line.number >= first and is_counted and row.datagram:
            bits[row.line.client, row.datagram.way, tick] += row.datagram.packet.bits()
    return list(range(begin, tick + 1)), bits


class Strip:
    def __init__(self, rows: list[Row], first: int, clients: int):
        self.ticks, self.bits = bits_by_tick(rows, first)
        self.step = min(max(WIDTH / len(self.ticks), NARROWEST), WIDEST)
        self.most = {way: self.most_bits(way) for way in ("down", "up")}
        self.scale = HIGH / max(sum(self.most.values()), 1)
        self.clients = clients
        self.width, self.height = LEFT + self.step * len(self.ticks) + 20, clients * (HIGH + GAP) + 22

    def most_bits(self, way: str) -> int:
        return max((sum(bits.values()) for (_, its_way, _), bits in self.bits.items() if its_way == way), default=0)

    def x(self, tick: int) -> float:
        return LEFT + self.step * (tick - self.ticks[0])

    def line(self, client: int) -> float:
        """Where the line between what the server sent and what the client sent lies."""
        return client * (HIGH + GAP) + 8 + self.scale * self.most["down"]

    def bars(self, client: int) -> str:
        """A path for each use, with the parts of all ticks' bars."""
        paths: dict[str, list[str]] = defaultdict(list)
        for way, order, sign in (("down", USES, -1), ("up", UP_ORDER, 1)):
            for tick in self.ticks:
                at, bits = self.line(client), self.bits.get((client, way, tick), {})
                for use in order:
                    if bits.get(use):
                        high = sign * self.scale * bits[use]
                        paths[use].append(f"M{self.x(tick):.1f} {at:.2f}h{self.step - 1:.1f}v{high:.2f}h{1 - self.step:.1f}z")
                        at += high
        return "".join(element("path", class_=f"use-{use}", d="".join(found)) for use, found in paths.items())

    def tips(self, client: int) -> str:
        """What each tick's bars say, where there are some."""
        drawn = []
        for tick in self.ticks:
            said = [self.said(way, self.bits[client, way, tick]) for way in ("down", "up") if (client, way, tick) in self.bits]
            if said:
                title = element("title", escape("\n".join([f"client {client}, tick {tick}", *said])))
                top = client * (HIGH + GAP) + 8
                drawn.append(element("rect", title, class_="tip", x=f"{self.x(tick):.1f}", y=top, width=f"{self.step:.1f}", height=HIGH))
        return "".join(drawn)

    @staticmethod
    def said(way: str, bits: Counter[str]) -> str:
        uses = ", ".join(f"{use} {bits[use] / 8:g}" for use in USES if bits[use])
        return f"{way}: {sum(bits.values()) // 8} bytes ({uses})"

    def client(self, client: int) -> str:
        line = self.line(client)
        top = client * (HIGH + GAP) + 8
        drawn = element("text", f"client {client}", x=4, y=f"{line + 4:.1f}", class_="strong")
        drawn += element("text", f"{self.most['down'] // 8} B down", x=LEFT - 6, y=top + 8, class_="scale")
        drawn += element("text", f"{self.most['up'] // 8} B up", x=LEFT - 6, y=top + HIGH, class_="scale")
        drawn += element("path", class_="axis", d=f"M{LEFT} {line:.1f}H{self.width - 20:g}")
        return drawn + self.bars(client) + self.tips(client)

    def numbers(self) -> str:
        """The numbers of ticks, where there is room."""
        every = max(1, round(NUMBERS_APART / self.step))
        return "".join(
            element("text", f"tick {tick}" if place == 0 else str(tick), x=f"{self.x(tick):.1f}", y=self.height - 6, class_="dim")
            for place, tick in enumerate(self.ticks)
            if place % every == 0
        )

    def svg(self) -> str:
        drawn = "".join(map(self.client, range(self.clients))) + self.numbers()
        size = {"class_": "chart strip", "width": f"{self.width:g}", "height": self.height}
        return element("svg", drawn, role="img", aria_label="bytes of each tick", **size)

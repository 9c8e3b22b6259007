"""The match of examples/three_minutes.demo: two red players and a blue one carry flags home, on a network that loses every fifth datagram.

    python3 -B checks/walks.py > three_minutes.match

`./tribes demo 0` of the script is the demo. The same dice make the same script. Players go from place to place by what their moves add up
to, so the script needs no look at the world: nobody is hit often enough to be sent home.
"""

import random
import sys

CLIENTS, TURNS, SEED = 3, 3_600, 20
STEP, FULL = 25, 7
HOMES = ((21_000, 21_000), (45_000, 44_000), (20_000, 24_000))
FLAGS = ((19_000, 19_000), (47_000, 47_000))
# Out of 100 datagrams so many are lost, and so many come once more, later.
LOST, LATE = 20, 5
WORDS = ("hello", "here it is", "to the flag", "well met", "mine!", "go home", "watch out", "again")


def header():
    lines = ["tribes 2", f"match 7 {CLIENTS} 16777215 400 16000", *(f"block 0{it}0{it}0{it}0{it}" for it in range(4))]
    lines += [f"player {it} {it} {it % 2} {x} {y}" for it, (x, y) in enumerate(HOMES)]
    lines += ["spawn clock 0 0 0 0", *(f"spawn flag 1 {team} {x} {y}" for team, (x, y) in enumerate(FLAGS))]
    dice = random.Random(SEED)
    lines += [f"spawn drone 2 {it % 2} {dice.randrange(12_000, 54_000)} {dice.randrange(12_000, 54_000)}" for it in range(14)]
    lines += [f"spawn mine 3 {it % 2} {dice.randrange(8_000, 58_000)} {8_000 if it < 5 else 60_000}" for it in range(10)]
    return [*lines, "go"]


class Walker:
    """A player who goes to the other team's flag and home again, each time by another way."""

    def __init__(self, number):
        self.number, self.dice = number, random.Random(SEED + number)
        self.x, self.y = HOMES[number]
        self.ahead = []

    def way(self):
        """The places ahead: one aside, the flag, one aside, home. The second red player walks about."""
        aside = [(self.dice.randrange(22_000, 46_000), self.dice.randrange(22_000, 46_000)) for _ in range(2)]
        if self.number == 2:
            return aside
        return [aside[0], FLAGS[1 - self.number % 2], aside[1], HOMES[self.number]]

    def step(self):
        """The next move: towards the place ahead, as far as a turn goes."""
        if not self.ahead:
            self.ahead = self.way()
        x, y = self.ahead[0]
        dx, dy = (max(-FULL, min(FULL, round(far / STEP))) for far in (x - self.x, y - self.y))
        self.x, self.y = self.x + STEP * dx, self.y + STEP * dy
        if dx == dy == 0:
            self.ahead.pop(0)
        return f"move {self.number} {dx} {dy} {int(self.dice.randrange(40) == 0)} 1"


class Way:
    """What becomes of the datagrams of one client in one direction."""

    def __init__(self, word, client, dice):
        self.word, self.client, self.dice, self.made = word, client, dice, -1

    def brings(self):
        """The lines by which the next datagram comes, and now and then an older one again."""
        self.made += 1
        draw = self.dice.randrange(100)
        if draw < LOST:
            return []
        lines = [f"{self.word} {self.client} {self.made}"]
        if draw < LOST + LATE and self.made > 3:
            lines.append(f"{self.word} {self.client} {self.made - self.dice.randrange(1, 4)}")
        return lines


def script():
    dice = random.Random(SEED)
    walkers = [Walker(it) for it in range(CLIENTS)]
    ups, downs = ([Way(word, it, dice) for it in range(CLIENTS)] for word in ("up", "down"))
    lines = header()
    for turn in range(TURNS):
        lines.append("tick")
        for it in range(CLIENTS):
            lines += [walkers[it].step(), f"cpack {it}", *ups[it].brings(), f"scan {it}"]
            if it == 0 and turn % 80 == 40:
                words = f"{dice.randrange(1, CLIENTS)}: {dice.choice(WORDS)}"
                lines.append(f"post 0 g {words.encode().hex()}")
            lines += [f"pack {it}", *downs[it].brings()]
    return "".join(line + "\n" for line in lines)


if __name__ == "__main__":
    sys.stdout.write(script())

"""Which objects a client is shown, and which of them each slot has (docs/world.md, "Scope"; docs/connection.md, "Periods and slots")."""

from dataclasses import dataclass

from datagram import CREATE, KILL, Ghost
from kinds import BY_NAME
from script import Script

SLOTS = 256


class World:
    """The living objects after some ticks: those that are always seen, the places of the others, and which of these are armed."""

    def __init__(self, pieces: list[str]):
        self.always: list[int] = []
        self.places: dict[int, tuple[int, int]] = {}
        self.armed: set[int] = set()
        for piece in pieces:
            number, kind, *values = piece.split(" ")
            if BY_NAME[kind].always_seen:
                self.always.append(int(number))
            else:
                self.places[int(number)] = int(values[0]), int(values[1])
                if kind == "mine" and values[2] == "1":
                    self.armed.add(int(number))


def kind_of(script: Script, number: int) -> str:
    """The kind of an object: all that were not there at the start are discs."""
    return script.objects[number].kind if number < len(script.objects) else "disc"


def player_of(script: Script, client: int) -> int | None:
    """The number of a client's own player."""
    return next((number for number, one in enumerate(script.objects) if one.client == client), None)


def visible(script: Script, world: World, client: int) -> dict[int, int]:
    """The objects that a client sees, by rising number, each with its level of distance."""
    seen = dict.fromkeys(world.always, 0)
    own = player_of(script, client)
    if own is not None:
        team, (own_x, own_y), radius = script.objects[own].team, world.places[own], script.radius
        for number, (x, y) in world.places.items():
            if -radius <= x - own_x <= radius and -radius <= y - own_y <= radius:
                if number not in world.armed or script.objects[number].team == team:
                    seen[number] = 4 * max(abs(x - own_x), abs(y - own_y)) // (radius + 1)
    return dict(sorted(seen.items()))


@dataclass(eq=False, slots=True)
class Period:
    """An object shown to a client from one scan to another."""

    number: int
    object: int
    level: int
    is_hidden: bool = False
    slot: int | None = None
    has_create_on_way: bool = False
    is_created: bool = False


class Periods:
    """The periods of a client, and which of them holds each slot."""

    def __init__(self):
        self.count = 0
        self.shown: dict[int, Period] = {}
        self.waiting: list[Period] = []
        self.holders: dict[int, Period] = {}

    def scan(self, seen: dict[int, int]) -> tuple[int, int, int]:
        """How many periods end, change their level, and begin."""
        hidden = [number for number in self.shown if number not in seen]
        for number in hidden:
            self.hide(self.shown.pop(number))
        near = [period for number, period in self.shown.items() if period.level != seen[number]]
        for period in near:
            period.level = seen[period.object]
        begun = [number for number in seen if number not in self.shown]
        for number in begun:
            self.shown[number] = Period(self.count, number, seen[number])
            self.waiting.append(self.shown[number])
            self.count += 1
        return len(hidden), len(near), len(begun)

    def hide(self, period: Period) -> None:
        period.is_hidden = True
        if period.slot is None:
            self.waiting.remove(period)
        elif not period.is_created and not period.has_create_on_way:
            self.free(period)

    def free(self, period: Period) -> None:
        del self.holders[period.slot]

    def grant(self) -> None:
        """Waiting periods get the lowest free slots, as a data packet is made."""
        free = (slot for slot in range(SLOTS) if slot not in self.holders)
        for period, slot in zip(list(self.waiting), free if self.waiting else ()):
            period.slot = slot
            self.holders[slot] = period
            self.waiting.remove(period)

    def write(self, ghost: Ghost) -> Period:
        """The period of a ghost that a packet carries."""
        period = self.holders[ghost.slot]
        period.has_create_on_way |= ghost.op == CREATE
        return period

    def judge(self, ghost: Ghost, period: Period, is_received: bool) -> None:
        if ghost.op == CREATE:
            period.has_create_on_way, period.is_created = False, is_received
            if period.is_hidden and not is_received:
                self.free(period)
        elif ghost.op == KILL and is_received:
            self.free(period)

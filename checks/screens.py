"""The screen of examples/play as numbers, and what the program tells of the served match beside it."""

import re
import subprocess

from networks import head_of, packets_of, taking

EDGE, RADIUS, STEP = 65_535, 16_000, 25
MAP_ROWS, MAP_COLUMNS = 18, 50
# Of kinds whose fields travel in fewer bits than they have values: the greatest value and the greatest level.
ROUGH = {"drone": ((EDGE, 4_095), (EDGE, 4_095), (100, 31))}


def numbers(pattern, text):
    found = re.search(pattern, text)
    return tuple(int(it) for it in found.groups()) if found else None


class Screen:
    """What a captured screen of 80 x 24 shows."""

    def __init__(self, lines, shades=None):
        text = "\n".join(lines)
        self.lines, self.shades = lines, shades
        self.client = (numbers(r"client (\d+)", lines[0]) or (None,))[0]
        self.place = numbers(r"you +(-?\d+) +(-?\d+)", text)
        self.offset = numbers(r"offset +(-?\d+) +(-?\d+)", text)
        told = numbers(r"told +(\d+) +(\d+)", text)
        rest = numbers(r"hp (\d+)  ammo (\d+)  score (\d+)", text)
        self.told = told + rest if told and rest else None
        self.clock = numbers(r"clock (\d+)", text)
        self.packet, self.copies = numbers(r"packet (\d+)  copies (\d+)", text) or (None, None)
        self.sampled, self.accepted = numbers(r"moves (\d+)  accepted (\d+)", text) or (None, None)
        self.moment = (numbers(r"moment (\d+)", text) or (None,))[0]
        self.taken, self.refused = numbers(r"taken (\d+)  refused (\d+)", text) or (None, None)
        self.lost = numbers(r"lost +down (\d+)% up (\d+)%", text)
        self.events = (numbers(r"events (\d+)", text) or (None,))[0]
        self.map = [line.ljust(80)[:MAP_COLUMNS] for line in lines[1 : 1 + MAP_ROWS]]

    def is_whole(self):
        return None not in (self.moment, self.client, self.place, self.offset, self.told, self.clock, self.packet, self.sampled, self.taken)

    def dim(self, row, pattern):
        """Whether what the pattern finds in that row is dim, all of it."""
        line = "".join(character for character, _ in self.shades[row])
        found = re.search(pattern, line)
        return bool(found) and all(self.shades[row][at][1] for at in range(*found.span(1)) if line[at] != " ")


def records(path):
    """The datagrams of a demo, in order (docs/demos.md)."""
    data = path.read_bytes()
    if data[:4] != b"TND1" or data[-2:] != b"\0\0":
        raise ValueError("it is no demo with an end")
    found, at = [], 11
    while at < len(data) - 2:
        length = int.from_bytes(data[at : at + 2], "little")
        found.append(data[at + 2 : at + 2 + length])
        at += 2 + length
    return found


def moves_of(script, client):
    """The moves of a client by number, as its datagrams in the script have them."""
    moves = {}
    for line in script.splitlines():
        words = line.split(" ")
        if words[:2] != ["raw", str(client)]:
            continue
        number = int.from_bytes(bytes.fromhex(words[2]), "little")
        if number & 3:
            continue
        first, count = number >> 86 & 0xFFFFFF, number >> 110 & 63
        for it in range(count):
            bits = number >> 116 + 10 * it
            moves[first + it] = ((bits & 15) - 8, (bits >> 4 & 15) - 8, bits >> 8 & 1)
    return moves


def accepted_in(data):
    """How many moves a data packet of the server tells as accepted."""
    return int.from_bytes(data[:16], "little") >> 86 & 0xFFFFFF


class Served:
    """A script that was served, and what the program reports of it."""

    def __init__(self, program, script):
        self.program, self.script = program, script
        self.packs = packets_of(self.run(script))

    def run(self, script):
        done = subprocess.run([self.program, "run"], input=script.encode(), capture_output=True, timeout=120)
        if done.returncode != 0:
            raise ValueError(f"run of the served script ended with {done.returncode}: {done.stderr.decode().strip()}")
        return done.stdout.decode()

    def places(self, client, datagrams):
        """The datagrams with their places on the way down; None where one is none of the server's, or comes before an earlier one."""
        made, found, least = self.packs.get(client, []), [], 0
        for data in datagrams:
            if data not in made:
                return None
            place = made.index(data)
            if head_of(data)[0] == 0 and place < least:
                return None
            least = max(least, place)
            found.append((place, data))
        return found

    def front(self, client, packet):
        """The script up to the line `pack` that made the client's packet of that number."""
        lines, place = self.script.splitlines(), -1
        numbers = [head_of(data)[1] if head_of(data)[0] == 0 else None for data in self.packs[client]]
        wanted = numbers.index(packet)
        for at, line in enumerate(lines):
            place += line == f"pack {client}"
            if place == wanted:
                return lines[: at + 1]
        raise ValueError(f"no line packs packet {packet} of client {client}")

    def then(self, client, datagrams):
        """What the client shows that took these datagrams, and the world, behind the last packet of them."""
        places = self.places(client, datagrams)
        if places is None:
            return None
        packet = max(head_of(data)[1] for data in datagrams if head_of(data)[0] == 0)
        lines = [*self.front(client, packet), *taking(client, places), f"show {client}", "world"]
        show, world = self.run("\n".join(lines) + "\n").splitlines()[-2:]
        return Shown(show), [it.split(" ") for it in world.split(" | ")[1:]]


    def history(self, client, datagrams):
        """What the client shows after each data packet of these datagrams, as pairs of the packet's number and that."""
        places = self.places(client, datagrams)
        packets = [head_of(data)[1] for data in datagrams if head_of(data)[0] == 0]
        lines, taken = self.front(client, max(packets)), taking(client, places)
        for line in taken:
            lines += [line, f"show {client}"] if line.startswith("down ") else [line]
        shows = [line for line in self.run("\n".join(lines) + "\n").splitlines() if line.startswith("show ")][-len(places) :]
        kinds = [head_of(data)[:2] for data in datagrams]
        return [(number, Shown(show)) for (kind, number), show in zip(kinds, shows, strict=True) if kind == 0]


class Shown:
    """A line `show`: copies as (kind, values, whether each is settled), by slot."""

    def __init__(self, line):
        head, *copies = line.split(" | ")
        control = head.split(" ")[11]
        self.copies = {}
        for it in copies:
            slot, kind, block, *values = it.split(" ")
            settled = [value[-1] == "s" for value in values]
            self.copies[int(slot)] = (kind, int(block), [int(value.rstrip("s")) for value in values], settled)
        self.own = int(control) if control != "-" else None


def shown_value(kind, field, value):
    """What a copy shows of a value (docs/wire.md, "Levels")."""
    if kind not in ROUGH:
        return value
    most, levels = ROUGH[kind][field]
    level = (2 * value * levels + most) // (2 * most)
    return (2 * level * most + levels) // (2 * levels)


def seen(script, client, world):
    """What the client is to have of the world, as (kind, values): its scope (docs/world.md, "Scope")."""
    spawns = [line.split(" ") for line in script.split("\ngo\n")[0].splitlines() if line.startswith(("player ", "spawn "))]
    teams = [int(words[3]) for words in spawns]
    own = [int(value) for value in world[client][2:4]]
    found = []
    for number, kind, *values in world:
        values = [int(value) for value in values]
        apart = max(abs(values[0] - own[0]), abs(values[1] - own[1])) if kind != "clock" else 0
        hidden = kind == "mine" and values[2] == 1 and teams[int(number)] != teams[client]
        if kind in ("flag", "clock") or (apart <= RADIUS and not hidden):
            found.append((kind, [shown_value(kind, field, value) for field, value in enumerate(values)]))
    return sorted(found)


LETTERS = {"drone": "dd", "disc": "*+", "flag": "FP", "player": "RB"}


def letter_of(kind, blue, values):
    """Each team has its own letters. A free flag lies at home, and only the other team can hold one."""
    if kind == "mine":
        return "mM"[values[2]]
    if kind == "flag":
        blue = values[2] & 1 if values[2] else values[0] > EDGE // 2
    return LETTERS[kind][blue]


def middle_by(place, size, count):
    """The middle of the map by a place: the place, or as far from the field's end as the map reaches to it."""
    return min(max(place, size * (count // 2)), EDGE + 1 - size * (count - count // 2))


class Around:
    """The copy that a slot had last, by the packets that the client took: for each of its fields the two values that it showed around the
    moment that is drawn. Between two packets that showed one value nothing else is drawn."""

    def __init__(self, rows, moment):
        before = [values for packet, values in rows if 256 * packet <= moment]
        self.first = before[-1] if before else rows[0][1]
        self.second = list(self.first)
        for place, value in enumerate(self.first):
            later = [values[place] for packet, values in rows if 256 * packet > moment and values[place] != value]
            self.second[place] = later[0] if before and later else value


def others(history, moment):
    """What is drawn of the others at a moment, as (kind, team, Around), by the pairs of a packet that was taken and what was shown then."""
    last, found = history[-1][1], []
    for slot in {slot for _, shown in history for slot in shown.copies} - {last.own}:
        at = max(place for place, (_, shown) in enumerate(history) if slot in shown.copies)
        if at + 1 < len(history) and 256 * history[at + 1][0] <= moment:
            continue
        kind, block = history[at][1].copies[slot][:2]
        rows = []
        while at >= 0 and slot in history[at][1].copies and history[at][1].copies[slot][:2] == (kind, block):
            rows.insert(0, (history[at][0], history[at][1].copies[slot][2]))
            at -= 1
        found.append((kind, block & 1, Around(rows, moment)))
    return found


class Map:
    """Where places stand on the map: round the own place, within the field."""

    def __init__(self, screen):
        high, wide = RADIUS // (MAP_ROWS // 2) + 1, RADIUS // (MAP_COLUMNS // 2) + 1
        self.high, self.wide = (2 * wide, wide) if high < 2 * wide else (high, (high + 1) // 2)
        self.here = (screen.place[0] + screen.offset[0], screen.place[1] + screen.offset[1])
        self.x, self.y = middle_by(self.here[0], self.wide, MAP_COLUMNS), middle_by(self.here[1], self.high, MAP_ROWS)

    def cell(self, x, y, is_kept):
        row = (y - self.y + self.high * (MAP_ROWS // 2)) // self.high
        column = (x - self.x + self.wide * (MAP_COLUMNS // 2)) // self.wide
        return (min(max(row, 0), MAP_ROWS - 1), min(max(column, 0), MAP_COLUMNS - 1)) if is_kept else (row, column)

    def cells(self, kind, around):
        """The cells from one place to the other, those that are off the map too."""
        ends = [self.cell(*values[:2], kind == "flag") for values in (around.first, around.second)]
        rows, columns = (range(min(it), max(it) + 1) for it in zip(*ends))
        return {(row, column) for row in rows for column in columns}


def map_differs(history, screen):
    """The first fault of the map: a letter that nothing explains which is drawn between what it showed by the two packets around, or such a
    thing that is neither there nor under another letter. Ground is `.`, `:` or nothing."""
    places, wanted = Map(screen), []
    for kind, team, around in others(history, screen.moment):
        if kind != "clock":
            letters = {letter_of(kind, team, values) for values in (around.first, around.second)}
            wanted.append((letters, places.cells(kind, around)))
    own = history[-1][1].copies[history[-1][1].own][2]
    wanted += [({"o"}, {places.cell(own[0], own[1], False)}), ({"@"}, {places.cell(*places.here, True)})]
    shows = {(row, column): screen.map[row][column] for row in range(MAP_ROWS) for column in range(MAP_COLUMNS)}
    for cell, letter in shows.items():
        if letter not in " .:" and not any(letter in letters and cell in cells for letters, cells in wanted):
            return f"row {cell[0]}, column {cell[1]} shows '{letter}', which nothing explains"
    for letters, cells in wanted:
        if cells <= shows.keys() and all(shows[cell] in " .:" for cell in cells):
            return f"none of {sorted(letters)} at {sorted(cells)}"
    return None

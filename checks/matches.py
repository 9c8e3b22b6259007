"""Scripts of chance: every kind of line, hostile bytes, faults of text, and the limits. The same dice make the same scripts."""

from dataclasses import dataclass

from programs import run

MAX_SCRIPT_BYTES = 1_048_576
MAX_BODY_LINES = 100_000


@dataclass
class Match:
    """A script: its lines, how many of them are the header's, and the status and words that it must end with, where they are known."""

    lines: list
    head: int
    end: tuple | None

    def text(self):
        return text_of(self.lines)


DONE = (0, b"")


def text_of(lines):
    return "".join(line + "\n" for line in lines).encode()


def chance(dice, one_of):
    return dice.randrange(one_of) == 0


def hexadecimal(data):
    return data.hex() or "-"


def payload(dice, most):
    length = dice.choice((0, 1, 2, most, dice.randrange(most + 1)))
    return hexadecimal(dice.randbytes(length))


def place(dice):
    return dice.choice((0, 65_535, dice.randrange(65_536), 1_000 + dice.randrange(600), 1_000 + dice.randrange(600)))


class Header:
    """The numbers of a header, at their limits as often as not, and its lines."""

    def __init__(self, dice):
        self.clients = dice.choice((1, 1, 2, 3, 16))
        seed = dice.choice((0, 4_294_967_295, dice.randrange(2**32)))
        life = dice.choice((1, 2, 33, 100, 16_777_215))
        size = dice.choice((128, 129, 400, 1_200))
        radius = dice.choice((0, 300, 1_000, 65_535))
        blocks = dice.choice((0, 1, 2, 64))
        self.lines = [f"tribes {dice.choice((1, 2))}", f"match {seed} {self.clients} {life} {size} {radius}"]
        self.lines += [f"block {payload(dice, 40)}" for _ in range(blocks)]
        if blocks:
            self.objects(dice, blocks)
        self.lines.append("go")

    def objects(self, dice, blocks):
        players = [client for client in range(self.clients) if not chance(dice, 4)]
        for client in players:
            self.lines.append(f"player {client} {dice.randrange(blocks)} {dice.randrange(2)} {place(dice)} {place(dice)}")
        many = 1_024 - len(players) if chance(dice, 12) else 20
        for _ in range(dice.choice((0, 3, 12, 40, many))):
            kind = dice.choice(("mine", "drone", "flag", "clock"))
            self.lines.append(f"spawn {kind} {dice.randrange(blocks)} {dice.randrange(2)} {place(dice)} {place(dice)}")


class Body:
    """Lines that play a match: both ends pack, and the network brings, loses, repeats and reorders. `hostile` has the datagrams
    of each client that lines `raw` change, or is None where none is to come."""

    def __init__(self, dice, clients, hostile):
        self.dice, self.clients, self.hostile = dice, clients, hostile
        self.sent = {"down": [0] * clients, "up": [0] * clients}
        self.forged = [client for client in range(clients) if not chance(dice, 3)]

    def line(self):
        dice = self.dice
        client = dice.randrange(self.clients)
        word = dice.choice(("tick", "scan", "pack", "cpack", "down", "down", "up", "up", "move", "move", "post", "cpost", "show"))
        if chance(dice, 40):
            word = "world"
        if self.hostile and client in self.forged and chance(dice, 12):
            return f"raw {client} {self.raw_bytes(client)}"
        if word in ("tick", "world"):
            return word
        if word in ("pack", "cpack"):
            self.sent["down" if word == "pack" else "up"][client] += 1
        return f"{word} {client}{self.rest(word, client)}"

    def rest(self, word, client):
        dice = self.dice
        if word in ("post", "cpost"):
            return f" {dice.choice('ggu')} {payload(dice, 24)}"
        if word == "move":
            fire, use = dice.randrange(2), dice.randrange(2)
            return f" {dice.randrange(-8, 8)} {dice.randrange(-8, 8)} {fire} {use}"
        if word in ("down", "up"):
            return f" {self.number(self.sent[word][client])}"
        return ""

    def number(self, sent):
        """Which datagram comes: mostly one of the last, now and then an older one or one that was not sent."""
        dice = self.dice
        if chance(dice, 40):
            return dice.choice((sent, sent + 1, 4_294_967_295))
        return max(0, sent - 1 - dice.choice((0, 0, 0, 0, 1, 1, 2, 5, 33, dice.randrange(sent + 1))))

    def raw_bytes(self, client):
        dice = self.dice
        if not self.hostile[client] or chance(dice, 4):
            return hexadecimal(dice.randbytes(dice.choice((0, 1, 16, 20, 1_200, dice.randrange(60)))))
        data = bytearray(dice.choice(self.hostile[client]))
        for _ in range(dice.choice((0, 1, 1, 2, 8))):
            data[dice.randrange(len(data))] ^= 1 << dice.randrange(8)
        if chance(dice, 6):
            data = data[: dice.randrange(len(data) + 1)] + dice.randbytes(dice.randrange(3))
        return hexadecimal(bytes(data[:1_200]))


def datagrams(report, clients):
    """The datagrams that clients made, by client."""
    made = [[] for _ in range(clients)]
    for line in report.decode().splitlines():
        words = line.split(" ")
        if words[0] == "cpack" and len(words) == 5:
            made[int(words[1])].append(bytes.fromhex(words[4]))
    return made


def played(dice, program, count):
    """A match of so many lines. In every second one lines `raw` bring changed datagrams, which a run without them gave."""
    header = Header(dice)
    state = dice.getstate()
    body = Body(dice, header.clients, None)
    lines = [body.line() for _ in range(count)]
    if chance(dice, 2):
        _, report, _ = run(program, text_of(header.lines + lines), "run")
        dice.setstate(state)
        body = Body(dice, header.clients, datagrams(report, header.clients))
        lines = [body.line() for _ in range(count)]
    return Match(header.lines + lines, len(header.lines), DONE)


PAST_LIMITS = ("-1", "-9", "8", "2", "3", "17", "127", "1201", "65536", "16777216", "4294967296", "99999999999")
NO_WORDS = ("-0", "00", "6g", "616", "", "G", "-", "1.0", "+1")


def spoilt(dice, match):
    """The match with one line spoilt. Which fault that makes, if any, is not known here."""
    lines = list(match.lines)
    at = dice.randrange(len(lines))
    words = lines[at].split(" ")
    spoil = dice.randrange(11)
    if spoil == 0:
        lines[at] = lines[at].replace(" ", dice.choice(("  ", "\t", "\r", "")), 1)
    elif spoil == 1:
        lines[at] += dice.choice((" ", " 0", "\r", "\x7f", "\u00e9", " " + "00" * 1_201))
    elif spoil == 2:
        lines[at] = ""
    elif spoil == 3:
        del lines[at]
    elif spoil == 4:
        lines.insert(at, lines[at])
    else:
        words[dice.randrange(len(words))] = dice.choice(PAST_LIMITS + NO_WORDS)
        lines[at] = " ".join(words)
    return Match(lines, match.head, None)


def most_lines(dice, more):
    """As many lines as a body may have, and so many more."""
    head = [f"tribes {dice.choice((1, 2))}", f"match 1 1 {dice.choice((100, 16_777_215))} 128 1000", "go"]
    lines = dice.choices(("tick", "scan 0", "pack 0", "cpack 0", "show 0", "world", "down 0 0", "up 0 9"), k=MAX_BODY_LINES + more)
    fault = f"script {len(head) + MAX_BODY_LINES + 1} TooManyLines\n".encode()
    return Match(head + lines, len(head), (3, fault) if more else DONE)


def most_bytes(dice, more):
    """As many bytes as a script may have, and so many more."""
    head = [f"tribes {dice.choice((1, 2))}", "match 1 1 100 128 1000", "go"]
    room = MAX_SCRIPT_BYTES + more - len(text_of(head))
    lines = []
    while room > 2_400:
        line = f"raw 0 {hexadecimal(dice.randbytes(dice.choice((1, 2, 1_200)) if room > 5_000 else 1))}"
        lines.append(line)
        room -= len(line) + 1
    # A line `tick` has 5 bytes with its newline, and a line `raw` 7 and two for each of its bytes.
    if room % 2 == 0:
        lines.append("tick")
        room -= 5
    lines.append(f"raw 0 {hexadecimal(dice.randbytes((room - 7) // 2))}")
    return Match(head + lines, len(head), (4, b"toolong\n") if more else DONE)


def match(dice, program, number):
    """The script with this number. Of each hundred two are as long as may be, in bytes or in lines, and two by one more."""
    edges = {24: (most_bytes, 0), 49: (most_lines, 0), 74: (most_bytes, 1), 99: (most_lines, 1)}
    if number % 100 in edges:
        make, more = edges[number % 100]
        return make(dice, more)
    whole = played(dice, program, dice.choice((0, 1, 30, 100, 300, 1_000)))
    return spoilt(dice, whole) if chance(dice, 5) else whole

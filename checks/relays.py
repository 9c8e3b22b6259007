"""Relay scripts of chance: lines of a relay between those of a made match, faults of text too; and what does not fit together in a relay's
report. The same dice make the same scripts."""

from dataclasses import dataclass

from matches import DONE, Match, chance, spoilt, text_of
from programs import run

WORDS = ("scan", "scan", "pack", "pack", "cpack", "down", "down", "up", "show")
SPOILT_LINES = ("r", "r ", "r scan", "r scan 16", "r tick", "r post 0 g 61", "r down 0", "r up 0 4294967296", "r pack 00", "r  show 0", "r move 0 1 0 0 0")


@dataclass
class Relay:
    """A relay script: its match, the client that is the relay, its text's lines, and how it must end, where that is known."""

    match: Match
    client: int
    lines: list
    end: tuple | None

    def text(self):
        return text_of(self.lines)


class Lines:
    """Lines of a relay, whose datagrams are lost, repeated and late as those of a match."""

    def __init__(self, dice, spectators):
        self.dice, self.spectators = dice, spectators
        self.sent = {"down": [0] * spectators, "up": [0] * spectators}

    def line(self):
        dice = self.dice
        spectator, word = dice.randrange(self.spectators), dice.choice(WORDS)
        if word in ("pack", "cpack"):
            self.sent["down" if word == "pack" else "up"][spectator] += 1
        return f"r {word} {spectator}" + (f" {self.number(self.sent[word][spectator])}" if word in ("down", "up") else "")

    def number(self, sent):
        if chance(self.dice, 40):
            return self.dice.choice((sent, sent + 1, 4_294_967_295))
        return max(0, sent - 1 - self.dice.choice((0, 0, 0, 0, 1, 2, 33)))


def relay(dice, match, clients):
    """A relay of one of the clients of a match, in whose text now and then a line is spoilt."""
    client, spectators = dice.randrange(clients), dice.choice((1, 1, 2, 16))
    made, lines = Lines(dice, spectators), [f"relay {client} {spectators}", *match.lines[: match.head]]
    often = dice.choice((1, 2, 6))
    for line in match.lines[match.head :]:
        lines.append(line)
        lines += [made.line() for _ in range(dice.randrange(2 * often))]
    whole = Relay(match, client, lines, match.end)
    if not chance(dice, 4):
        return whole
    if chance(dice, 2):
        lines.insert(dice.randrange(len(lines) + 1), dice.choice(SPOILT_LINES))
        return Relay(match, client, lines, None)
    return Relay(match, client, spoilt(dice, Match(lines, 0, None)).lines, None)


def events_in(words):
    return [word[2:] for word in words if word.startswith("g:")]


def relayed(report, client):
    """The guaranteed events that a match's report delivers to a client, in order."""
    told = (line.split(" ") for line in report.decode().splitlines())
    return [event for words in told if words[0] == "down" and words[1] == str(client) for event in events_in(words)]


def report_differs(script, report, of_match):
    """What does not fit together in a relay's report, of which the second is that of its match."""
    asked = [line for line in script.lines if line.startswith("r ")]
    told = [line.split(" ") for line in report.decode().splitlines()]
    if len(asked) != len(told):
        return f"{len(asked)} lines of the relay were told in {len(told)}"
    came, shown = {}, {}
    for line, words in zip(asked, told):
        spectator = line.split(" ")[2]
        if words[:3] != line.split(" ")[:3]:
            return f"`{line}` is told as `{' '.join(words)}`"
        events = came.setdefault(spectator, [])
        if words[1] == "down":
            events += events_in(words)
        if words[1] == "scan":
            shown[spectator] = shown.get(spectator, 0) + int(words[4])
        if words[1] == "show" and (int(words[4]) != len(events) or int(words[6]) > shown.get(spectator, 0)):
            return f"spectator {spectator} is told {words[4]} events and {words[6]} copies"
    delivered = relayed(of_match, script.client)
    for spectator, events in came.items():
        if delivered[: len(events)] != events:
            return f"events of spectator {spectator} are no front of the relay's"
    return None


def differs(program, other, script):
    """What is not as it is to be with this relay script, if anything is, by both builds."""
    text = script.text()
    first, second = run(program, text, "relay"), run(other, text, "relay")
    if first != second:
        return "the builds differ on a relay"
    status, report, said = first
    if script.end is None and status == 0:
        return None
    if script.end is None:
        return None if status == 3 and not report else f"status {status}, {len(report)} bytes: {said.decode().strip()}"
    if (status, said) != DONE:
        return f"status {status}: {said.decode().strip()}"
    return report_differs(script, report, run(program, script.match.text(), "run")[1])

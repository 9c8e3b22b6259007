"""A network that forges: between a host under a key and its clients it loses, delays, repeats and spoils datagrams as a proxy does, and sends what
it has made, kept or turned round in the names of both. And what is held of the host and its clients behind it."""

import collections
import pathlib
import subprocess
import sys
import time

from joining import TAG_BYTES
from networks import SERVER, packets_of
from proxies import Proxy

FORGED = ("noise", "a packet with a tag by chance", "a packet whose tag was cut off", "another client's", "sent back", "an earlier match's", "replayed")
# As many bytes and lines of a script's front are run again.
SCRIPT_BYTES, SCRIPT_LINES = 900_000, 90_000


class Kept:
    """What went through in an earlier match under the same key."""

    def __init__(self, forger):
        self.up = [data for way in forger.ways.values() for data in way.sent]
        self.down = [data for way in forger.ways.values() for data in way.from_server]


class Forger(Proxy):
    """A proxy that spoils any bit, and forges so many datagrams a second, each way."""

    def __init__(self, dice, loss, delay, inner, outers, rate, kept=None):
        super().__init__(dice, loss, delay, inner, outers)
        self.rate, self.kept, self.begun = rate, kept, time.monotonic()
        self.forged, self.tries = collections.Counter(), 0

    def put(self, data, up, way):
        if self.dice.randrange(100) == 0:
            self.spoiled += 1
            data = (int.from_bytes(data, "little") ^ 1 << self.dice.randrange(8 * len(data))).to_bytes(len(data), "little")
        before, self.spoils = self.spoils, False
        for _ in range(2 if self.dice.randrange(20) == 0 else 1):
            super().put(data, up, way)
        self.spoils = before

    def go(self):
        super().go()
        while self.ways and self.tries < (time.monotonic() - self.begun) * self.rate:
            self.tries += 1
            way = self.dice.choice(list(self.ways.values()))
            up, kind = self.dice.random() < 0.5, self.dice.choice(FORGED)
            data = self.made(kind, up, way)
            if data:
                self.forged[kind] += 1
                self.send(data, up, way)

    def send(self, data, up, way):
        try:
            if up:
                way.outer.sendto(data, SERVER)
            else:
                self.inner.sendto(data, way.address)
        except OSError:
            pass

    def made(self, kind, up, way):
        """A forged datagram of this kind that way, if it can be made by now."""
        dice, own = self.dice, way.sent if up else way.from_server
        if kind == "noise":
            return dice.randbytes(dice.choice((1, 15, 16, 17, 66, 300)))
        if kind == "another client's":
            other = dice.choice(list(self.ways.values()))
            own = [] if other is way else other.sent if up else other.from_server
        elif kind == "sent back":
            own = way.from_server if up else way.sent
        elif kind == "an earlier match's":
            own = [] if self.kept is None else self.kept.up if up else self.kept.down
        if not own:
            return None
        data = dice.choice(own)
        if kind == "a packet with a tag by chance":
            return data[:-TAG_BYTES] + dice.randbytes(TAG_BYTES)
        return data[:-TAG_BYTES] if kind == "a packet whose tag was cut off" else data


def script_of(folder, port):
    """The script from the files in which a host turned it over."""
    files = sorted(pathlib.Path(folder).glob(f"tribes-{port}.match*"), key=lambda it: int(it.suffix[1:]) if it.suffix[1:].isdigit() else 0)
    return b"".join(it.read_bytes() for it in files).decode()


def front_of(script):
    """As much of a script's front as one may have."""
    lines = script[:SCRIPT_BYTES].split("\n")[: SCRIPT_LINES + 1]
    return "".join(line + "\n" for line in lines[:-1])


def forgeries_taken(program, script, listeners):
    """What a host or a client took that the other end did not make: how much, and how many arrivals of clients there were, and were taken."""
    made = {it.number: set(it.made) for it in listeners if it.number is not None}
    raws = [line.split(" ") for line in script.splitlines() if line.startswith("raw ")]
    wrong = 0
    for _, client, text in raws:
        if bytes.fromhex(text) not in made.get(int(client), ()):
            wrong += 1
            print(f"the host heard {text} of client {client}, who did not make it")
    front = front_of(script)
    done = subprocess.run([program, "run"], input=front.encode(), capture_output=True)
    if done.returncode != 0:
        sys.exit(f"run of the served script ended with {done.returncode}: {done.stderr.decode().strip()}")
    report = done.stdout.decode()
    packs, told = packets_of(report), [line.split(" ") for line in report.splitlines() if line.startswith("raw ")]
    taken = collections.Counter((client, text) for (_, client, text), words in zip(raws, told) if words[2] == "ok" and bytes.fromhex(text)[0] & 3 == 0)
    for (client, text), times in taken.items():
        if times > 1:
            wrong += 1
            print(f"the host took {text} of client {client} {times} times")
    for it in listeners:
        # Of a script that was cut only the front's datagrams are there.
        last = max((int.from_bytes(data[:8], "little") >> 6 & 0xFFFFFF for data in packs.get(it.number, ())), default=0)
        own = set(packs.get(it.number, ()))
        foreign = [data for data in it.got if data not in own and int.from_bytes(data[:8], "little") >> 6 & 0xFFFFFF <= last - 64]
        wrong += len(foreign)
        if foreign:
            print(f"client {it.number} took {len(foreign)} datagrams that the host did not send")
    return wrong, len(raws), len(taken)

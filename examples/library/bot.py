#!/usr/bin/env python3
"""A bot that joins ./tribes host or serve, runs about and says hello now and then: bot.py ADDRESS PORT TURNS. At the end it prints how many
objects it was shown and what was said. It wants bindings/python (PYTHONPATH) and the shared library (TRIBES_LIBRARY)."""

import hashlib
import os
import random
import socket
import struct
import sys
import time

import tribes

EDGE = 65_535
PLACE = [(0, EDGE, 16), (0, EDGE, 16)]
# player, disc, mine, drone, flag and clock: docs/world.md, "Kinds"
KINDS = [
    tribes.Kind(8, [*PLACE, (0, 100, 7), (0, 20, 5), (0, 255, 8)]),
    tribes.Kind(6, PLACE),
    tribes.Kind(3, [*PLACE, (0, 1, 1)]),
    tribes.Kind(4, [(0, EDGE, 12), (0, EDGE, 12), (0, 100, 5)]),
    tribes.Kind(5, [*PLACE, (0, 16, 5)]),
    tribes.Kind(1, [(0, 16_777_215, 24), (0, 255, 8), (0, 255, 8)]),
]
# a move of the match: a step each way from -8 to 7, and whether the player fires and uses
WIDTHS = (4, 4, 1, 1)


def protocol():
    """The number of what a host and this client have to agree on (crates/protocol_number/README.md)."""
    text = struct.pack("<5I", 1, 1, 400, 16_777_215, sum(WIDTHS))
    for kind in KINDS:
        text += struct.pack("<3BQ", 1, kind.weight, 0, len(kind.fields))
        text += b"".join(struct.pack("<qqI", *field) for field in kind.fields)
    return hashlib.sha256(text + b"\0tribes match").digest()


def joined(wire, nonce):
    """Says the hellos of a host (docs/joining.md) and of `serve` until a welcome comes, and answers a challenge; the end that the welcome makes."""
    said = bytes((3, 1)) + nonce + protocol()
    for _ in range(100):
        wire.send(said)
        if said[0] == 3:
            wire.send(b"\x02" + nonce[:4])
        try:
            data = wire.recv(tribes.MAX_DATAGRAM)
        except (TimeoutError, ConnectionRefusedError):
            continue
        if (len(data), data[:18]) == (34, bytes((7, 1)) + nonce):
            said = bytes((11, 1)) + nonce + data[18:]
        elif (len(data), data[:18]) == (54, bytes((15, 1)) + nonce):
            client, life, size, version = struct.unpack("<3IB", data[18:31])
            return tribes.Client(tribes.Config(client, life, size, version, 10), KINDS)
        elif (len(data), data[:18]) == (19, bytes((19, 1)) + nonce):
            sys.exit(f"bot: it is refused for reason {data[18]}")
        elif (len(data), data[:5]) == (12, b"\x03" + nonce[:4]):
            life, size = int.from_bytes(data[6:9], "little"), int.from_bytes(data[9:11], "little")
            return tribes.Client(tribes.Config(data[5], life, size, data[11], 10), KINDS)
    sys.exit("bot: nobody answers there")


def hear(wire, end):
    """Takes what came, and gives the events that it brought."""
    while True:
        try:
            end.arrive(wire.recv(tribes.MAX_DATAGRAM))
        except (BlockingIOError, ConnectionRefusedError):
            return
        except tribes.Refusal:
            continue  # late, repeated, or no datagram of a connection: nothing changed
        yield from end.events()


def main():
    address, port, turns = sys.argv[1], int(sys.argv[2]), int(sys.argv[3])
    wire = socket.socket(socket.AF_INET, socket.SOCK_DGRAM)
    wire.connect((address, port))
    wire.settimeout(0.05)
    end = joined(wire, os.urandom(16))
    wire.setblocking(False)
    said, way, start = [], (8, 8), time.monotonic()
    for turn in range(turns):
        said += [event.data.decode(errors="replace") for event in hear(wire, end)]
        if turn % 20 == 0:
            way = random.randrange(16), random.randrange(16)
            end.post(b"a bot goes on", guaranteed=False)
        if end.counts().move_places:
            end.sample(tribes.put_bits(WIDTHS, (*way, turn % 10 == 0, 0)))
        if data := end.pack():
            wire.send(data)
        time.sleep(max(0, start + (turn + 1) / 20 - time.monotonic()))
    print(f"{len(list(end.copies()))} objects shown, {end.counts().accepted} moves accepted, {len(said)} events: {said[:3]}")


main()

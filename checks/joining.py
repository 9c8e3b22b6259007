"""A client's side of a greeting, and tags under a key: what docs/joining.md says, once more, by Python's own SHA-256."""

import hashlib
import hmac
import os
import struct

HELLO, CHALLENGE, ANSWER, WELCOME, REFUSAL = 3, 7, 11, 15, 19
CLIENT, SERVER, GREETING = 0, 1, 0
TAG_BYTES = 16
HIGHEST = 65_535
# Of each kind of a match its weight and (lo, hi, bits) of its fields: docs/world.md, "Kinds".
PLACE, NARROW = [(0, HIGHEST, 16)] * 2, [(0, HIGHEST, 12)] * 2
KINDS = (
    (8, [*PLACE, (0, 100, 7), (0, 20, 5), (0, 255, 8)]),
    (6, PLACE),
    (3, [*PLACE, (0, 1, 1)]),
    (4, [*NARROW, (0, 100, 5)]),
    (5, [*PLACE, (0, 16, 5)]),
    (1, [(0, 16_777_215, 24), (0, 255, 8), (0, 255, 8)]),
)


def protocol_number(version=1, size=400, life=16_777_215, move_bits=10, kinds=KINDS, word=b"tribes match"):
    """The number of what both ends have to agree on (crates/protocol_number/README.md)."""
    text = struct.pack("<5I", 1, version, size, life, move_bits)
    for weight, fields in kinds:
        # Which kinds each client always sees is for the server alone: a client writes 0.
        text += struct.pack("<3BQ", 1, weight, 0, len(fields))
        text += b"".join(struct.pack("<qqI", *field) for field in fields)
    return hashlib.sha256(text + b"\0" + word).digest()


PROTOCOL = protocol_number()


def is_greeting(data):
    return len(data) > 0 and data[0] & 3 == 3


def tag(key, side, number, data):
    return hmac.new(key, struct.pack("<BQ", side, number) + data, hashlib.sha256).digest()[:TAG_BYTES]


def tagged(key, side, number, data):
    """What a side sends: the bytes, and under a key their tag."""
    return data + tag(key, side, number, data) if key else data


def carried(key, side, number, datagram):
    """The bytes that a side's datagram carries, or None."""
    if not key:
        return datagram
    data = datagram[:-TAG_BYTES]
    right = len(datagram) >= TAG_BYTES and hmac.compare_digest(datagram[-TAG_BYTES:], tag(key, side, number, data))
    return data if right else None


class Greeter:
    """One that joins a host: what it says by how far it is, and what it makes of a datagram."""

    def __init__(self, key=None, protocol=PROTOCOL):
        self.key, self.protocol, self.nonce = key, protocol, os.urandom(16)
        self.number, self.client, self.terms, self.reason = None, None, None, None

    def said(self):
        """What is to be sent now: the hello, or the answer."""
        kind, rest = (HELLO, self.protocol) if self.number is None else (ANSWER, self.number)
        return tagged(self.key, CLIENT, GREETING, bytes((kind, 1)) + self.nonce + rest)

    def joining(self):
        """The number under which this client's datagrams are tagged."""
        return int.from_bytes(self.number[:8], "little")

    def sent(self, data):
        """A packet, as it is to be sent."""
        return tagged(self.key, CLIENT, self.joining(), data)

    def took(self, datagram):
        """The packet that a datagram of the server carries, or None: it is a greeting, which is heard, or has not its tag."""
        if not is_greeting(datagram):
            return None if self.client is None else carried(self.key, SERVER, self.joining(), datagram)
        data = carried(self.key, SERVER, GREETING, datagram)
        if data is not None and len(data) > 18 and data[1] == 1 and data[2:18] == self.nonce:
            self.hear(data[0], data[18:])
        return None

    def hear(self, kind, rest):
        if self.client is not None or self.reason is not None:
            return
        if kind == CHALLENGE and len(rest) == 16:
            self.number = rest
        elif kind == WELCOME and len(rest) == 36 and self.number is not None:
            self.client, self.terms = int.from_bytes(rest[:4], "little"), rest[4:]
        elif kind == REFUSAL and len(rest) == 1:
            self.reason = rest[0]

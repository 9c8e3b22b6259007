"""Clients in Python of hosted matches, who only listen: the kernel's clock stamps when each datagram came."""

import select
import socket
import struct
import threading
import time

from joining import Greeter
from networks import head_of

TURN = 0.05
# Linux's option for stamps in nanoseconds, and the room of one beside a datagram.
STAMPS, STAMP_ROOM = 35, 64


def packet(client, seq, horizon, came):
    """A client's packet without moves and events: header, no first move, no count."""
    mask = sum(1 << bit for bit in range(32) if horizon - bit in came)
    return (client << 2 | seq << 6 | horizon << 30 | mask << 54).to_bytes(16, "little")


class Listener:
    """A client of the host at this address, under a key if there is one: what it was sent, and when."""

    def __init__(self, address, key=None):
        self.greeter = Greeter(key)
        self.socket = socket.socket(socket.AF_INET, socket.SOCK_DGRAM)
        self.socket.setsockopt(socket.SOL_SOCKET, STAMPS, 1)
        self.socket.setsockopt(socket.SOL_SOCKET, socket.SO_RCVBUF, 1_048_576)
        self.socket.connect(address)
        self.socket.setblocking(False)
        self.number, self.seq, self.horizon = None, 0, 0
        self.came, self.got, self.times, self.made = set(), [], [], []

    def send(self, data):
        try:
            self.socket.send(data)
        except OSError:
            pass

    def say_hello(self):
        if self.number is None:
            self.send(self.greeter.said())

    def take(self):
        """Takes what waits, and answers each datagram with one that acknowledges it."""
        while True:
            try:
                data, beside, _, _ = self.socket.recvmsg(2_048, STAMP_ROOM)
            except OSError:
                return
            packet = self.greeter.took(data)
            if packet is not None:
                seconds, nanoseconds = struct.unpack("qq", beside[0][2][:16])
                self.note(packet, seconds + nanoseconds / 1e9)
            elif self.number is None and self.greeter.client is not None:
                self.number = self.greeter.client
                self.answer()

    def note(self, data, stamp):
        self.got.append(data)
        self.times.append(stamp)
        kind, seq, _ = head_of(data)
        if kind == 0:
            self.came.add(seq)
        self.horizon = max(self.horizon, seq)
        self.answer()

    def answer(self):
        """Sends a packet. The first one is sent at the welcome."""
        self.seq += 1
        made = packet(self.number, self.seq, self.horizon, self.came)
        self.made.append(made)
        self.send(self.greeter.sent(made))

    def lateness(self, made):
        """How many seconds behind its time each turn's data packet came, by the turn that was earliest: each turn made one of `made`."""
        turns = {data: turn for turn, data in enumerate(made) if head_of(data)[0] == 0}
        behind = [stamp - TURN * turns[data] for data, stamp in zip(self.got, self.times) if data in turns]
        return [it - min(behind) for it in behind]


class Listening(threading.Thread):
    """Listeners who say hello until they are welcomed, and take what comes, until they are stopped."""

    def __init__(self, addresses, key=None):
        super().__init__(daemon=True)
        self.listeners, self.goes = [Listener(address, key) for address in addresses], True
        self.start()

    def run(self):
        # `select` has room for a thousand and some descriptors, `poll` for any number.
        poll, by_number, hello = select.poll(), {it.socket.fileno(): it for it in self.listeners}, 0.0
        for number in by_number:
            poll.register(number, select.POLLIN)
        while self.goes:
            if time.monotonic() > hello:
                hello = time.monotonic() + 0.2
                for it in self.listeners:
                    it.say_hello()
            for number, _ in poll.poll(100):
                by_number[number].take()

    def stop(self):
        self.goes = False
        self.join()
        for it in self.listeners:
            it.socket.close()

#!/usr/bin/env python3
"""Ten things that move, shared over UDP at 20 packets a second: a server and its clients, in Python. It is the twin of share.c, which says
what each side does, and each plays with the other.

    PYTHONPATH=bindings/python TRIBES_LIBRARY=.../libtribes.so.1 python3 share.py serve PORT TURNS LOSS
    .. share.py join PORT NUMBER TURNS LOSS
"""

import socket
import sys
import time

import tribes

THINGS, EDGE, HELLO, WELCOME = 10, 65_535, 2, 3
# a move: throttle, yaw and buttons side by side
WIDTHS, FIRES = (3, 11, 8), 1
KINDS = [tribes.Kind(8, [(0, EDGE, 16), (0, EDGE, 16), (0, THINGS - 1, 4)])]


def config(client):
    return tribes.Config(client, 1_000_000, 600, 3, sum(WIDTHS))


class Wire:
    """A socket that throws away some of what it would send."""

    def __init__(self, port, loss, seed):
        self.socket = socket.socket(socket.AF_INET, socket.SOCK_DGRAM)
        self.socket.bind(("127.0.0.1", port))
        self.socket.setblocking(False)
        self.loss, self.state, self.sent, self.lost = loss, seed, 0, 0

    def put(self, to, data):
        self.state = (self.state * 1664525 + 1013904223) % 2**32
        self.sent += 1
        if (self.state >> 8) % 100 < self.loss:
            self.lost += 1
        else:
            self.socket.sendto(data, to)

    def get(self):
        """The datagrams that wait, each with its sender."""
        while True:
            try:
                yield self.socket.recvfrom(tribes.MAX_DATAGRAM)
            except BlockingIOError:
                return


def sleep_until_turn(start, turn):
    time.sleep(max(0, start + turn / 20 - time.monotonic()))


class Thing:
    def __init__(self, k):
        self.place, self.way = [5000 + 5500 * k, 3000 + 6000 * k], [150 + 30 * k, 400 - 35 * k]

    def move(self, axis, to):
        self.place[axis] = min(max(to, 0), EDGE)
        return self.place[axis] != to

    def drive(self, throttle, yaw):
        """It goes where its yaw points, of 2,048 ways round; along a square, so that it needs no sine."""
        sides = (512, 0, -512, 0, 512)
        for axis in (0, 1):
            side = (yaw // 512 + 3 * axis) % 4
            along = sides[side] + int((sides[side + 1] - sides[side]) * (yaw % 512) / 512)
            self.move(axis, self.place[axis] + int(throttle * 100 * along / 512))


class Seat:
    """One client: its end, where it is, and for each thing its period."""

    def __init__(self, client, at):
        self.end, self.at = tribes.Server(config(client), KINDS, [b"thing"]), at
        self.periods = [self.end.show(0, level=k % 4, control=k == client) for k in range(THINGS)]
        self.events = self.moves = self.shots = self.lost = 0

    def take(self, data, own):
        """The moves that a datagram brought drive the thing. One that is refused, as an old one, changes nothing."""
        try:
            self.end.arrive(data)
        except tribes.Refusal:
            return False
        self.events += len(list(self.end.events()))
        self.lost += sum(not it.received for it in self.end.verdicts())
        brought = self.end.moves()
        for bits in brought:
            throttle, yaw, buttons = tribes.take_bits(WIDTHS, bits)
            own.drive(throttle, yaw)
            self.shots += buttons & FIRES
        self.moves += len(brought)
        return bool(brought)


class Game:
    def __init__(self):
        self.things, self.seats = [Thing(k) for k in range(THINGS)], {}

    def note_moved(self, k):
        for seat in self.seats.values():
            seat.end.changed(seat.periods[k], 3)

    def hear(self, wire):
        for data, sender in wire.get():
            if len(data) == 2 and data[0] == HELLO and data[1] < THINGS:
                if data[1] not in self.seats:
                    self.seats[data[1]] = Seat(data[1], sender)
                wire.put(sender, bytes((WELCOME, data[1])))
                continue
            for client, seat in self.seats.items():
                if seat.at == sender and seat.take(data, self.things[client]):
                    self.note_moved(client)

    def tick(self):
        for k, thing in enumerate(self.things):
            if k in self.seats:
                continue  # its client drives it
            for axis in (0, 1):
                if thing.move(axis, thing.place[axis] + thing.way[axis]):
                    thing.way[axis] = -thing.way[axis]
            self.note_moved(k)

    def tell(self, wire, turn):
        """The next datagram of each client's end: it says which values it wants, and is given them as they are now."""
        for seat in self.seats.values():
            if turn % 20 == 0 and seat.end.counts().event_places:
                seat.end.post(b"turn %d" % turn)

            def value(n, field):
                k = seat.periods.index(n)
                return k if field == 2 else self.things[k].place[field]

            if data := seat.end.pack(value):
                wire.put(seat.at, data)


def serve(wire, turns):
    game, start = Game(), time.monotonic()
    for turn in range(1, turns + 1):
        game.hear(wire)
        if turn <= turns - turns // 4:
            game.tick()
        game.tell(wire, turn)
        sleep_until_turn(start, turn)
    for k, thing in enumerate(game.things):
        print("thing", k, *thing.place)
    for client, seat in sorted(game.seats.items()):
        settled = sum(seat.end.settled(n, field) for n in seat.periods for field in (0, 1))
        told = f"{seat.events} events, {seat.moves} moves, {seat.shots} shots, {seat.lost} packets told as lost"
        print(f"client {client}: {told}, {settled} of 20 fields settled")


def listen(wire, end):
    """How many events came at a client, and whether the welcome was among what came."""
    events, welcomed = 0, False
    for data, _ in wire.get():
        welcomed |= len(data) == 2 and data[0] == WELCOME
        try:
            end.arrive(data)
        except tribes.Refusal:
            continue  # old, or a welcome: nothing changed
        events += len(list(end.events()))
    return events, welcomed


def join(wire, port, number, turns):
    end, start, to = tribes.Client(config(number), KINDS), time.monotonic(), ("127.0.0.1", port)
    events = sampled = 0
    welcomed = False
    for turn in range(1, turns + 1):
        came, answered = listen(wire, end)
        events, welcomed = events + came, welcomed or answered
        if welcomed:
            if turn <= turns // 2 and end.counts().move_places:
                end.sample(tribes.put_bits(WIDTHS, (3, turn * 16 % 2048, FIRES if turn % 40 == 0 else 0)))
                sampled += 1
            if turn % 20 == 0 and end.counts().event_places:
                end.post(bytes((HELLO, number)))
            if data := end.pack():
                wire.put(to, data)
        else:
            wire.put(to, bytes((HELLO, number)))
        sleep_until_turn(start, turn)
    events += listen(wire, end)[0]
    for k, x, y in sorted((copy.values[2], *copy.values[:2]) for copy in end.copies()):
        print("thing", k, x, y)
    print(f"client {number}: {events} events, {sampled} moves, of which {end.counts().accepted} are accepted")


def main():
    words = sys.argv[1:]
    if words[:1] == ["serve"] and len(words) == 4:
        wire = Wire(int(words[1]), int(words[3]), 7)
        serve(wire, int(words[2]))
    elif words[:1] == ["join"] and len(words) == 5:
        wire = Wire(0, int(words[4]), 7 + int(words[2]))
        join(wire, int(words[1]), int(words[2]), int(words[3]))
    else:
        sys.exit("share.py serve PORT TURNS LOSS | share.py join PORT NUMBER TURNS LOSS")
    print(f"{wire.lost} of {wire.sent} datagrams thrown away")


main()

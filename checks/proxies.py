"""A proxy between a server and those who join it, and what is held of what went through."""

import heapq
import pathlib
import select
import subprocess
import time

from networks import SERVER, head_of, packets_of, shown


class Way:
    """A client's way through the proxy: its socket in the server's network, and what went through."""

    def __init__(self, address, outer):
        self.address, self.outer = address, outer
        self.from_server, self.to_client, self.sent = [], [], []

    def made(self):
        """The number of the client's last packet that came here."""
        return max((head_of(data)[1] for data in self.sent[-1:] if data[0] & 3 < 2), default=0)


class Proxy:
    def __init__(self, dice, loss, delay, inner, outers, spoils=True):
        self.dice, self.loss, self.delay, self.spoils = dice, loss, delay, spoils
        self.inner, self.outers = inner, outers
        self.ways, self.later, self.count = {}, [], 0
        self.lost = self.spoiled = self.repeated = 0

    def put(self, data, up, way):
        """Takes a datagram in hand: it is lost, or goes on later, once or twice."""
        if self.dice.random() < self.loss:
            self.lost += 1
            return
        times = 2 if self.spoils and self.dice.randrange(20) == 0 else 1
        self.repeated += times - 1
        for _ in range(times):
            going = data
            if self.spoils and self.dice.randrange(100) == 0 and data[0] & 3 < 2:
                bit = self.dice.randrange(8 * len(data)) if up else 2 + self.dice.randrange(4)
                going = (int.from_bytes(data, "little") ^ 1 << bit).to_bytes(len(data), "little")
                self.spoiled += 1
            self.count += 1
            heapq.heappush(self.later, (time.monotonic() + self.dice.random() * self.delay, self.count, up, way, going, going == data))

    def way_of(self, address):
        if address not in self.ways:
            self.ways[address] = Way(address, self.outers[len(self.ways)])
        return self.ways[address]

    def go(self):
        """What is due goes on, and what came is taken in hand."""
        while self.later and self.later[0][0] <= time.monotonic():
            _, _, up, way, data, whole = heapq.heappop(self.later)
            try:
                if up:
                    way.outer.sendto(data, SERVER)
                else:
                    self.inner.sendto(data, way.address)
                    if whole:
                        way.to_client.append((data, way.made()))
            except OSError:
                pass
        wait = min(0.005, max(0.0, self.later[0][0] - time.monotonic())) if self.later else 0.005
        ready, _, _ = select.select([self.inner, *self.outers], [], [], wait)
        if self.inner in ready:
            self.drain(self.inner, self.up)
        for way in self.ways.values():
            if way.outer in ready:
                self.drain(way.outer, lambda data, _, way=way: self.down(way, data))

    def drain(self, at, take):
        while True:
            try:
                data, address = at.recvfrom(2048)
            except OSError:
                return
            take(data, address)

    def up(self, data, address):
        way = self.way_of(address)
        way.sent.append(data)
        self.put(data, True, way)

    def down(self, way, data):
        way.from_server.append(data)
        self.put(data, False, way)


def taken(way, packs):
    """The datagrams that a client took, each with its place, up to the last one before its last datagram; and its number, if it was welcomed.

    Where a bit of the number of its own datagram was spoiled, the server acknowledges a packet that the client had not made, and the
    client refuses that.
    """
    nonce = way.sent[0][1:5] if way.sent else b""
    last = [data for data in way.sent if data[0] & 3 < 2]
    places, number, horizon = [], None, head_of(last[-1])[2] if last else 0
    reached = horizon == 0
    for data, made in way.to_client:
        if data[0] == 3:
            if number is None and data[1:5] == nonce:
                number = data[5]
        elif number is not None and not reached and head_of(data)[2] <= made:
            places.append((packs[number].index(data), data))
            reached = head_of(data)[1] == horizon
    return number, places


def differences(program, folder, proxy, clients):
    """What of the served script, the datagrams and the printed copies does not fit: how much, and how many datagrams and clients there were."""
    served = pathlib.Path(folder, "served").read_text()
    done = subprocess.run([program, "run"], input=served.encode(), capture_output=True)
    if done.returncode != 0:
        print(f"run of the served script ended with {done.returncode}: {done.stderr.decode().strip()}")
        return 1, 0, 0
    packs = packets_of(done.stdout.decode())
    wrong = came = 0
    downs, printed = {}, []
    for way in proxy.ways.values():
        number, places = taken(way, packs)
        datagrams = [data for data in way.from_server if data[0] & 3 < 2]
        came += len(datagrams)
        if number is None:
            continue
        left = iter(packs.get(number, []))
        missed = sum(0 if any(data == made for made in left) else 1 for data in datagrams)
        if missed:
            print(f"client {number}: {missed} datagrams of the server are none of its lines `pack`")
        wrong += missed
        downs[number] = places
    told = {number: shown(program, served, number, datagrams) for number, datagrams in downs.items()}
    printed = [pathlib.Path(folder, f"join{it}").read_text().strip() for it in range(clients)]
    nobody = sum(line == "join none" for line in printed)
    for number, line in told.items():
        if line not in printed:
            wrong += 1
            mine = [it for it in printed if it.startswith(f"join {number} ")]
            print(f"client {number}: printed {mine}, shown {line}")
    if nobody + len(told) != clients:
        wrong += 1
        print(f"{clients} joined, {len(told)} were welcomed and {nobody} were not")
    return wrong, came, len(told)

#!/usr/bin/env python3
"""Two ends, an object and an event, in Python: docs/library.md, "The same ten lines"."""

import tribes

config = tribes.Config(client=0, life=1_000_000, size=600, version=3, move_bits=22)
kinds, tank = [tribes.Kind(8, [(0, 65_535, 16), (0, 100, 7)])], [1200, 80]

server, client = tribes.Server(config, kinds, [b"tank"]), tribes.Client(config, kinds)
server.show(kind=0, control=True)
server.post(b"welcome")
for _ in range(3):
    client.arrive(server.pack(lambda n, field: tank[field]))
    for event in client.events():
        print("event", event.data.decode())
    server.arrive(client.pack())
for copy in client.copies():
    print("copy", *copy.values)

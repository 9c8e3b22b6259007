"""Network namespaces of this process: each has its own 127.0.0.1, so that a server and its clients both see port 28000."""

import ctypes
import fcntl
import os
import socket
import struct
import subprocess
import sys

SERVER = ("127.0.0.1", 28000)
NEW_NETWORK = 0x40000000
SET_INTERFACE_FLAGS, UP_AND_RUNNING = 0x8914, 0x41


def enter_network():
    """Moves this process into a new network with a loopback of its own. Sockets and programs of before stay where they are."""
    libc = ctypes.CDLL(None, use_errno=True)
    if libc.unshare(NEW_NETWORK) != 0:
        sys.exit(f"a network namespace wants root: {os.strerror(ctypes.get_errno())}")
    with socket.socket(socket.AF_INET, socket.SOCK_DGRAM) as it:
        fcntl.ioctl(it, SET_INTERFACE_FLAGS, struct.pack("16sh", b"lo", UP_AND_RUNNING))


def at_loopback(port=0, room=4_194_304):
    """A socket of the network that this process is in now."""
    made = socket.socket(socket.AF_INET, socket.SOCK_DGRAM)
    made.setsockopt(socket.SOL_SOCKET, socket.SO_RCVBUF, room)
    made.bind(("127.0.0.1", port))
    made.setblocking(False)
    return made


def started(program, words, path):
    """The program with these words, whose output goes to a file."""
    with open(path, "wb") as sink:
        return subprocess.Popen([program, *words], stdin=subprocess.DEVNULL, stdout=sink)


def resident(process):
    """The kilobytes that a process has in memory."""
    for line in open(f"/proc/{process.pid}/status"):
        if line.startswith("VmRSS:"):
            return int(line.split()[1])
    return 0


def taken(process):
    """The kilobytes of memory that a process took and has touched, without pages of files, as those of its program."""
    for line in open(f"/proc/{process.pid}/status"):
        if line.startswith("RssAnon:"):
            return int(line.split()[1])
    return 0


def packets_of(report):
    """The datagrams of the lines `pack` of a report, by client."""
    packs = {}
    for line in report.splitlines():
        words = line.split(" ")
        if words[0] == "pack" and len(words) == 5:
            packs.setdefault(int(words[1]), []).append(bytes.fromhex(words[4]))
    return packs


def head_of(datagram):
    """Kind, sequence number and horizon of a datagram of a connection."""
    number = int.from_bytes(datagram[:8], "little")
    return number & 3, number >> 6 & 0xFFFFFF, number >> 30 & 0xFFFFFF


def taking(client, datagrams):
    """The lines by which a client of a script takes these datagrams, each with its place: it has to have sent what they acknowledge, and
    sampled the moves that they accept."""
    lines, sent, sampled = [], 0, 0
    for place, data in datagrams:
        kind, _, horizon = head_of(data)
        accepted = int.from_bytes(data[:16], "little") >> 86 & 0xFFFFFF if kind == 0 else 0
        lines += [f"move {client} 0 0 0 0"] * (accepted - sampled) + [f"cpack {client}"] * (horizon - sent) + [f"down {client} {place}"]
        sent, sampled = max(sent, horizon), max(sampled, accepted)
    return lines


def shown(program, served, client, datagrams):
    """What `run` shows of a client's copies behind the datagrams that it took, without marks, as `join` prints it."""
    text = served + "".join(line + "\n" for line in [*taking(client, datagrams), f"show {client}"])
    done = subprocess.run([program, "run"], input=text.encode(), capture_output=True)
    if done.returncode != 0:
        sys.exit(f"run of the served script ended with {done.returncode}: {done.stderr.decode().strip()}")
    line = done.stdout.decode().splitlines()[-1]
    copies = line[line.index(" ghosts ") :].split(" | ")
    plain = [" ".join(word.removesuffix("s") if word[:1] in "-0123456789" else word for word in it.split(" ")) for it in copies]
    return f"join {client} events {line.split(' ')[3]}" + " | ".join(plain)

"""The library for Python, over its shared object: for tools, bots and tests.

    server = tribes.Server(tribes.Config(version=3, move_bits=22), kinds, [b"tank"])
    tank = server.show(kind=0, control=True)
    server.changed(tank, 0b11)
    datagram = server.pack(lambda n, field: place[field])

A kind is `Kind(weight, [(lo, hi, bits), ..])`. A call that did nothing raises `Refusal`, whose `code`, `first` and `second` are those of
tribes.h; nothing was changed then. TRIBES_LIBRARY names the shared object; else it is looked for beside this file, in `../lib`, and where
the system's loader looks.
"""

import ctypes
import os
import pathlib
from collections import namedtuple

VERSION = 2
MAX_DATAGRAM, MAX_EVENT, MAX_BLOCK, MAX_FIELDS = 1200, 24, 40, 16
MAX_MOVES, MAX_ASKS, MAX_JUDGED, MAX_CHANGES = 32, 2048, 32, 128
OLD = -51

u32, i64, u64, size_t = ctypes.c_uint32, ctypes.c_int64, ctypes.c_uint64, ctypes.c_size_t


def within(bits, *numbers):
    """The numbers, which have no more bits: ctypes would cut one in silence."""
    for number in numbers:
        if not 0 <= number < 1 << bits:
            raise OverflowError(f"{number} is no number of {bits} bits without a sign")
    return numbers


def signed(*numbers):
    for number in numbers:
        if not -(1 << 63) <= number < 1 << 63:
            raise OverflowError(f"{number} is no number of 64 bits")
    return numbers


def word(number):
    return u32(*within(32, number))


Kind = namedtuple("Kind", "weight fields")
Event = namedtuple("Event", "data guaranteed")
Copy = namedtuple("Copy", "slot kind block values")
Judged = namedtuple("Judged", "number received")
Change = namedtuple("Change", "slot what fields")


def struct(name, *fields):
    return type(name, (ctypes.Structure,), {"_fields_": list(fields)})


_Handle = struct("_Handle", ("state", u32), ("at", ctypes.c_void_p))
_Config = struct("_Config", *((it, u32) for it in ("client", "life", "size", "version", "move_bits")))
_Field = struct("_Field", ("lo", i64), ("hi", i64), ("bits", u32))
_Kind = struct("_Kind", ("fields", u32), ("weight", ctypes.c_uint8))
_Reason = struct("_Reason", ("code", ctypes.c_int32), ("first", u32), ("second", u32))
_Object = struct("_Object", *((it, u32) for it in ("kind", "block", "level", "control")))
_Ask = struct("_Ask", ("n", u32), ("field", u32))
_Copied = struct("_Copied", *((it, u32) for it in ("kind", "block", "fields")))
_Judged = struct("_Judged", ("number", u32), ("received", u32))
_Change = struct("_Change", ("slot", u32), ("what", u32), ("fields", u32))
_NAMES = "sent unjudged taken delivered waiting moves accepted event_places loose_places move_places"
_Counts = struct("_Counts", *((it, u32) for it in _NAMES.split()))
Counts = namedtuple("Counts", _NAMES)
_Shape = struct("_Shape", *((it, u32) for it in ("slots", "fields", "depth")))
_Way = struct("_Way", ("how", u32), ("least", ctypes.c_int32), ("most", ctypes.c_int32))
_Pace = struct("_Pace", ("period", u32), ("delay", ctypes.c_uint16), ("ahead", ctypes.c_uint16))
_Clock = struct("_Clock", ("pace", _Pace), ("start", u64), ("newest", u32), ("came", u64), ("read", u64), ("position", u64))
_Offset = struct("_Offset", ("most", u32), ("left", i64))
Config = namedtuple("Config", "client life size version move_bits", defaults=(0, 16_777_215, 1200, 3, 10))


class Refusal(Exception):
    """A call did nothing. `code` is that of tribes.h; what the numbers name stands there beside it."""

    def __init__(self, code, first=0, second=0):
        super().__init__(f"the library refused it: code {code}, {first}, {second} (tribes.h)")
        self.code, self.first, self.second = code, first, second


def _library():
    here = pathlib.Path(__file__).resolve().parent
    named = os.environ.get("TRIBES_LIBRARY")
    places = [named] if named else [str(it) for it in (here / "libtribes.so.1", here.parent / "lib" / "libtribes.so.1") if it.exists()]
    found = ctypes.CDLL(places[0] if places else "libtribes.so.1")
    found.tribes_version.restype = u32
    if found.tribes_version() != VERSION:
        raise ImportError(f"the shared object has version {found.tribes_version()}, and this module is for {VERSION}")
    return found


_lib = _library()


class _End:
    """What both ends have. An end is freed by `free`, at the end of `with`, or by the collector; each later call raises."""

    def __init__(self, call, config, kinds, *more):
        self._end, why = _Handle(), _Reason()
        rows = (_Kind * max(1, len(kinds)))(*((len(kind.fields), *within(8, kind.weight)) for kind in kinds))
        all_fields = [(*signed(lo, hi), *within(32, bits)) for kind in kinds for lo, hi, bits in kind.fields]
        fields = (_Field * max(1, len(all_fields)))(*all_fields)
        row = _Config(*within(32, *config))
        code = call(ctypes.byref(self._end), ctypes.byref(row), rows, size_t(len(kinds)), fields, size_t(len(all_fields)), *more, ctypes.byref(why))
        if code < 0:
            raise Refusal(why.code, why.first, why.second)

    def _call(self, name, *arguments):
        code = getattr(_lib, f"tribes_{name}")(ctypes.byref(self._end), *arguments)
        if code < 0:
            why = _Reason()
            if _lib.tribes_why(ctypes.byref(self._end), ctypes.byref(why)) < 0:
                raise Refusal(code)
            raise Refusal(why.code, why.first, why.second)
        return code

    def free(self):
        _lib.tribes_free(ctypes.byref(self._end))

    def __del__(self):
        if _lib and hasattr(self, "_end"):
            self.free()

    def __enter__(self):
        return self

    def __exit__(self, *_):
        self.free()

    def _list(self, name, kind, most):
        rows, count = (kind * most)(), u32()
        self._call(name, rows, size_t(most), ctypes.byref(count))
        return rows[: count.value]

    def post(self, data, guaranteed=True):
        """Posts an event of at most 24 bytes; its number where it is guaranteed."""
        number = u32()
        self._call("post", bytes(data), size_t(len(data)), u32(guaranteed), ctypes.byref(number))
        return number.value

    def events(self):
        """The events that wait, the oldest first. Each is taken as it is asked for."""
        place, count = ctypes.create_string_buffer(MAX_EVENT), size_t()
        while code := self._call("event", place, size_t(MAX_EVENT), ctypes.byref(count)):
            yield Event(place.raw[: count.value], code == 2)

    def block(self, number):
        place, count = ctypes.create_string_buffer(MAX_BLOCK), size_t()
        self._call("block", word(number), place, size_t(MAX_BLOCK), ctypes.byref(count))
        return place.raw[: count.value]

    def counts(self):
        all_counts = _Counts()
        self._call("counts", ctypes.byref(all_counts))
        return Counts(*(getattr(all_counts, name) for name in Counts._fields))

    def verdicts(self):
        """What became of the data packets that the last datagram judged."""
        return [Judged(it.number, bool(it.received)) for it in self._list("verdicts", _Judged, MAX_JUDGED)]

    def _arrive(self, datagram, room):
        moves = u32()
        self._call("arrive", bytes(datagram), size_t(len(datagram)), word(room), ctypes.byref(moves))
        return moves.value

    def _pack(self, values):
        place, count = ctypes.create_string_buffer(MAX_DATAGRAM), size_t()
        row = (i64 * max(1, len(values)))(*signed(*values))
        code = self._call("pack", row, size_t(len(values)), place, size_t(MAX_DATAGRAM), ctypes.byref(count))
        return place.raw[: count.value] if code else None


class Server(_End):
    """The server's end of the connection to one client."""

    def __init__(self, config, kinds, blocks):
        lengths = (u32 * max(1, len(blocks)))(*map(len, blocks))
        joined = b"".join(blocks)
        super().__init__(_lib.tribes_server, config, kinds, joined, size_t(len(joined)), lengths, size_t(len(blocks)))

    def show(self, kind, block=0, level=0, control=False):
        """Shows an object; the number of its period."""
        n, row = u32(), _Object(*within(32, kind, block, level, int(control)))
        self._call("show", ctypes.byref(row), ctypes.byref(n))
        return n.value

    def hide(self, n):
        self._call("hide", word(n))

    def near(self, n, level):
        self._call("near", word(n), word(level))

    def changed(self, n, fields):
        """Fields have new values: bit f for field f."""
        self._call("changed", word(n), word(fields))

    def settled(self, n, field):
        """Whether the client has the newest value of a field."""
        return self._call("settled", word(n), word(field)) == 1

    def slot(self, n):
        held = u32()
        return held.value if self._call("slot", word(n), ctypes.byref(held)) == 1 else None

    def pack(self, value):
        """The next datagram, with the values that it asks for: value(n, field). None where the connection is worn."""
        asks, count = (_Ask * MAX_ASKS)(), size_t()
        self._call("plan", asks, size_t(MAX_ASKS), ctypes.byref(count))
        return self._pack([value(ask.n, ask.field) for ask in asks[: count.value]])

    def arrive(self, datagram, room=MAX_MOVES):
        """Takes a datagram, where so many further moves have a place; how many it brought."""
        return self._arrive(datagram, room)

    def moves(self):
        """The moves that the last datagram brought."""
        return self._list("moves", u64, MAX_MOVES)


class Client(_End):
    """A client's end of its connection."""

    def __init__(self, config, kinds):
        super().__init__(_lib.tribes_client, config, kinds)

    def sample(self, move):
        """Takes up a move; its number."""
        number = u32()
        self._call("sample", u64(*within(64, move)), ctypes.byref(number))
        return number.value

    def pending(self):
        """The moves that the server isn't known to have, the oldest first."""
        return self._list("pending", u64, MAX_MOVES)

    def pack(self):
        """The next datagram; None where the connection is worn."""
        return self._pack([])

    def arrive(self, datagram):
        self._arrive(datagram, 0)

    def control(self):
        """The slot of the client's own object, or None."""
        slot = u32()
        return slot.value if self._call("control", ctypes.byref(slot)) == 1 else None

    def copy(self, slot):
        """The copy in a slot; `Refusal` where it is empty."""
        copied, values = _Copied(), (i64 * MAX_FIELDS)()
        self._call("copy", word(slot), ctypes.byref(copied), values, size_t(MAX_FIELDS))
        return Copy(slot, copied.kind, copied.block, values[: copied.fields])

    def copies(self):
        """The copies, by rising slot."""
        start, slot = 0, u32()
        while self._call("next_copy", word(start), ctypes.byref(slot)) == 1:
            start = slot.value + 1
            yield self.copy(slot.value)

    def changes(self):
        """What the last datagram did to slots: `what` is 0 where the copy is gone, 1 where it is new, 2 where fields changed."""
        return [Change(it.slot, it.what, it.fields) for it in self._list("changes", _Change, MAX_CHANGES)]


def _by_code(code):
    if code < 0:
        raise Refusal(code)
    return code


def signed_word(number):
    if not -(1 << 31) <= number < 1 << 31:
        raise OverflowError(f"{number} is no number of 32 bits")
    return ctypes.c_int32(number)


STEPPED, LINEAR = (0, 0, 0), (1, 0, 0)


def turning(least, most):
    """The short way round the circle of these values."""
    return (2, least, most)


class Timeline:
    """What a client draws of the others: the last values that came, and between two of them a value for each moment. `ways` has for each kind
    how its fields go: STEPPED, LINEAR or turning(least, most)."""

    def __init__(self, ways, slots=256, depth=8):
        self._timeline, fields = _Handle(), max([1, *map(len, ways)])
        rows = [row for kind in ways for row in [*kind, *[STEPPED] * (fields - len(kind))]]
        table = (_Way * max(1, len(rows)))(*((how, signed_word(least), signed_word(most)) for how, least, most in rows))
        shape = _Shape(*within(32, slots, fields, depth))
        _by_code(_lib.tribes_timeline_open(ctypes.byref(self._timeline), ctypes.byref(shape), table, size_t(len(rows))))

    def _call(self, name, *arguments):
        return _by_code(getattr(_lib, f"tribes_timeline_{name}")(ctypes.byref(self._timeline), *arguments))

    def free(self):
        _lib.tribes_timeline_free(ctypes.byref(self._timeline))

    def __del__(self):
        if _lib and hasattr(self, "_timeline"):
            self.free()

    def take(self, client):
        """Takes over what the packet that the client took last did to slots: once after each datagram that was taken."""
        self._call("take", ctypes.byref(client._end))

    def began(self, slot, packet, kind):
        self._call("began", word(slot), word(packet), word(kind))

    def came(self, slot, packet, field, value):
        self._call("came", word(slot), word(packet), word(field), signed_word(value))

    def ended(self, slot, packet):
        self._call("ended", word(slot), word(packet))

    def value(self, slot, field, at):
        """The value of a field at a moment, or None."""
        value = i64()
        return value.value if self._call("value", word(slot), word(field), u64(*within(64, at)), ctypes.byref(value)) == 1 else None

    def kind(self, slot, at):
        """The kind of the copy that is drawn in the slot at a moment, or None."""
        kind = u32()
        return kind.value if self._call("kind", word(slot), u64(*within(64, at)), ctypes.byref(kind)) == 1 else None


class Clock:
    """Which moment is drawn. `now` are the caller's milliseconds, which never go back."""

    def __init__(self, period, now, delay=2, ahead=2):
        self._clock, pace = _Clock(), _Pace(*within(32, period), *within(16, delay, ahead))
        _by_code(_lib.tribes_clock_start(ctypes.byref(self._clock), ctypes.byref(pace), u64(*within(64, now))))

    def came(self, packet, now):
        """A data packet came, which is newer than those before."""
        _by_code(_lib.tribes_clock_came(ctypes.byref(self._clock), word(packet), u64(*within(64, now))))

    def moment(self, now):
        """The moment to draw."""
        at = u64()
        _by_code(_lib.tribes_clock_moment(ctypes.byref(self._clock), u64(*within(64, now)), ctypes.byref(at)))
        return at.value


class Offset:
    """What hides corrections of one field: at most so much either way."""

    def __init__(self, most):
        self._offset = _Offset(*within(32, most), 0)

    def corrected(self, was, is_now):
        """The value, which was predicted as `was`, is another: what is shown stays."""
        _by_code(_lib.tribes_offset_corrected(ctypes.byref(self._offset), signed_word(was), signed_word(is_now)))

    def faded(self):
        """A step passed: three quarters are left."""
        _by_code(_lib.tribes_offset_faded(ctypes.byref(self._offset)))

    def value(self):
        """What is to be added to the field's value where it is shown."""
        left = i64()
        _by_code(_lib.tribes_offset_value(ctypes.byref(self._offset), ctypes.byref(left)))
        return left.value


def put_bits(widths, values):
    """Fields side by side as one number, the first in its lowest bits."""
    bits = at = 0
    for width, value in zip(widths, values, strict=True):
        if not 0 <= value < 1 << width or at + width > 64:
            raise ValueError(f"{value} in {width} bits, after {at}")
        bits, at = bits | value << at, at + width
    return bits


def take_bits(widths, bits):
    """The fields of these widths in a number."""
    values = []
    for width in widths:
        values.append(bits & (1 << width) - 1)
        bits >>= width
    if bits or sum(widths) > 64:
        raise ValueError("a bit is set above the fields")
    return values

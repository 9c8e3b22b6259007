"""The kinds of a match (docs/world.md, "Kinds"), and what a level shows (docs/wire.md, "Levels")."""

from typing import NamedTuple


class Field(NamedTuple):
    name: str
    lo: int
    hi: int
    bits: int

    def shown(self, level: int) -> int:
        """The value that a level shows."""
        reach, most = self.hi - self.lo, 2**self.bits - 1
        return self.lo + (2 * level * reach + most) // (2 * most)


class Kind(NamedTuple):
    name: str
    always_seen: bool
    fields: tuple[Field, ...]


def place(bits: int) -> tuple[Field, Field]:
    return Field("x", 0, 65_535, bits), Field("y", 0, 65_535, bits)


HP = Field("hp", 0, 100, 7)
KINDS = (
    Kind("player", False, (*place(16), HP, Field("ammo", 0, 20, 5), Field("score", 0, 255, 8))),
    Kind("disc", False, place(16)),
    Kind("mine", False, (*place(16), Field("armed", 0, 1, 1))),
    Kind("drone", False, (*place(12), HP._replace(bits=5))),
    Kind("flag", True, (*place(16), Field("holder", 0, 16, 5))),
    Kind("clock", True, (Field("tick", 0, 16_777_215, 24), Field("red", 0, 255, 8), Field("blue", 0, 255, 8))),
)
BY_NAME = {kind.name: kind for kind in KINDS}

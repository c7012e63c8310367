"""Plans: a byte for each cell and position, cell after cell; and the same as words, one for each position."""

from __future__ import annotations

import ctypes
import os
from typing import TYPE_CHECKING, List, Union

from ._answers import Call, Change
from ._raw import Buffer, lib, read_part, write_part
from ._refused import done

if TYPE_CHECKING:
    from ._site import Site

MOST = 65536


def start_of(path: "Union[str, bytes, os.PathLike[str]]") -> bytes:
    """The first bytes of a file, as many as any file of the product may have."""
    with open(path, "rb", buffering=0) as file:
        parts, left = [], MOST
        while left > 0:
            part = file.read(left)
            if not part:
                break
            parts.append(part)
            left -= len(part)
    return b"".join(parts)


class Plan:
    """A table of a site: 1 is a reservation, 0 and 2 (forbidden) are silence. `table` is the bytes themselves, not a copy."""

    __slots__ = ("cells", "slots", "channels", "_bytes")

    def __init__(self, cells: int, slots: int, channels: int, table: "Union[bytearray, None]" = None) -> None:
        self.cells, self.slots, self.channels = cells, slots, channels
        self._bytes = bytearray(cells * slots * channels) if table is None else table
        if len(self._bytes) != cells * slots * channels:
            raise ValueError("a table of %d cells, %d slots and %d channels has %d bytes, and this one has %d"
                             % (cells, slots, channels, cells * slots * channels, len(self._bytes)))

    @property
    def table(self) -> memoryview:
        return memoryview(self._bytes)

    def row(self, cell: int) -> memoryview:
        """The row of a cell, from 1."""
        if not 1 <= cell <= self.cells:
            raise IndexError("the plan has no cell %d" % cell)
        width = self.slots * self.channels
        return memoryview(self._bytes)[(cell - 1) * width:cell * width]

    def as_rows(self) -> List[memoryview]:
        """The rows, cell after cell; each is a part of the table, not a copy."""
        return [self.row(cell) for cell in range(1, self.cells + 1)]

    def sends(self, cell: int, position: int) -> bool:
        return self.row(cell)[position] == 1

    def check(self, site: "Site") -> None:
        """Nothing where the plan is valid for a site; otherwise Refused with the first thing that is wrong."""
        site.check(self._bytes)

    def mend(self, site: "Site") -> List[Change]:
        """Makes the plan valid where it stands, and names the changes."""
        return site.mend(self._bytes)

    def to_bytes(self, site: "Site") -> bytes:
        """The plan file, for a site."""
        return site.write_plan(self._bytes)

    @classmethod
    def from_bytes(cls, file: Buffer) -> "Plan":
        """Reads a plan file."""
        table = bytearray(MOST)
        start, length, keep = read_part(file)
        to, room, hold = write_part(table)
        given = lib.dugg_read_plan(start, length, to, room)
        del keep, hold
        done(Call.READ_PLAN, given.answer)
        del table[given.cells * given.slots * given.channels:]
        return cls(given.cells, given.slots, given.channels, table)

    @classmethod
    def read(cls, path: "Union[str, bytes, os.PathLike[str]]") -> "Plan":
        """Reads a plan file by its name; no more of it than is needed."""
        return cls.from_bytes(start_of(path))

    def __eq__(self, other: object) -> bool:
        if not isinstance(other, Plan):
            return NotImplemented
        return (self.cells, self.slots, self.channels, self._bytes) == (other.cells, other.slots, other.channels, other._bytes)

    __hash__ = None  # type: ignore[assignment]

    def __repr__(self) -> str:
        return "Plan(cells=%d, slots=%d, channels=%d)" % (self.cells, self.slots, self.channels)


class Words:
    """A table as words, one for each position: bit i-1 is set when cell i sends there. `view` is the words themselves."""

    __slots__ = ("_words",)

    def __init__(self, positions: int) -> None:
        self._words = (ctypes.c_uint32 * positions)()

    @property
    def view(self) -> memoryview:
        return memoryview(self._words).cast("B").cast("I")

    def __len__(self) -> int:
        return len(self._words)

    def __getitem__(self, position: int) -> int:
        return int(self._words[position])

    def check(self, site: "Site") -> None:
        """Nothing where the words are valid for a site; otherwise Refused."""
        site.check_words(self)

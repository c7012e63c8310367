"""What the calls answer, as plain data."""

from __future__ import annotations

import enum
from dataclasses import dataclass
from typing import TYPE_CHECKING, Optional, Tuple

if TYPE_CHECKING:
    from ._plan import Plan
    from ._site import Site


class Call(enum.IntEnum):
    """The calls, by their numbers in the header."""
    FAULT = 1
    CLASH = 2
    SET_LOAD = 3
    SET_REACH = 4
    CLEAR_REACH = 5
    LOAD_TEST = 6
    CHAIN = 7
    CLASS = 8
    LEAST = 9
    HEAVIEST = 10
    PLAN = 11
    SEARCH = 12
    FIND = 13
    OVER_FULL = 14
    CHECK = 15
    PLAN_WORDS = 16
    CHECK_WORDS = 17
    TO_WORDS = 18
    TO_BYTES = 19
    MEND = 20
    CHANGE_LOAD = 21
    RENUMBER = 22
    CARRY = 23
    SHARE = 24
    SHARE_REPEATED = 25
    ADMIT = 26
    ADMIT_BESIDE = 27
    READ_SITE = 28
    WRITE_SITE = 29
    READ_PLAN = 30
    WRITE_PLAN = 31
    READ_SHEET = 32
    WRITE_SHEET = 33
    TIDY = 34
    WORDS = 35
    WHY = 36
    LIST = 37
    VERSION = 38


@dataclass(frozen=True)
class LoadTest:
    """Whether the load test holds; otherwise the lowest cell that is over, and by how many fragments."""
    holds: bool
    cell: int = 0
    excess: int = 0


@dataclass(frozen=True)
class Chain:
    """Whether the site is chained; otherwise cells a and c clash, and b between them does not clash with a."""
    chained: bool
    cells: Tuple[int, int, int] = (0, 0, 0)


@dataclass(frozen=True)
class Class:
    """Whether the site is nested; otherwise the first two cells clash with the third, and not with one another."""
    nested: bool
    cells: Tuple[int, int, int] = (0, 0, 0)


@dataclass(frozen=True)
class Least:
    """How many open positions are enough, and whether fewer never are."""
    positions: int
    exact: bool


@dataclass(frozen=True)
class Heaviest:
    """The heaviest clash: its load, and its cells as a word, bit i-1 for cell i."""
    load: int
    cells: int


@dataclass(frozen=True)
class OverFull:
    """Whether some cells are over, so that no plan exists, and their load."""
    over: bool
    load: int


@dataclass(frozen=True)
class Share:
    """What a flow needs: fragments per superframe, the queue bound in fragments, the delay bound in slots."""
    share: int
    queue: int
    delay: int


@dataclass(frozen=True)
class Flow:
    """A flow that asks to be admitted: its burst in fragments, its period in slots, how many times each fragment is sent."""
    cell: int
    burst: int
    period: int
    repeats: int = 2
    value: int = 1


@dataclass(frozen=True)
class Change:
    """A change that mending made."""
    cell: int
    position: int
    was: bool
    now: bool


@dataclass(frozen=True)
class Found:
    """What a search, or a plan by any way, comes to: verdict 0 a plan, 1 none exists, 2 not known; by way 0 the planner, 1 cells
    that are over, 2 in new numbers, 3 the search; the tries of the search; the cells as a word."""
    verdict: int
    way: int
    tries: int = 0
    cells: int = 0
    plan: Optional["Plan"] = None


@dataclass(frozen=True)
class Renumbered:
    """A site in new numbers, the new number of each old one and the old number of each new one; cell a is at index a - 1."""
    site: "Site"
    new_of_old: Tuple[int, ...]
    old_of_new: Tuple[int, ...]

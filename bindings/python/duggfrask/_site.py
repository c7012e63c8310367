"""A site, its edits, and the calls on it."""

from __future__ import annotations

import ctypes
import os
from typing import Any, Callable, Iterable, List, Sequence, Tuple, Union

from ._answers import Call, Chain, Change, Class, Flow, Found, Heaviest, Least, LoadTest, OverFull, Renumbered, Share
from ._plan import Plan, Words, start_of
from ._raw import Answer, Blocked, Buffer, Edited, FlowRecord, Record, lib, read_part, small, write_part
from ._refused import Refused, done

_clash = lib.dugg_clash


def _edited(call: int, given: Edited) -> "Site":
    done(call, given.answer)
    return Site._of(given.site)


def _written(call: int, write: "Callable[[Any, int], Answer]", room: int = 0) -> bytearray:
    """Asks a writer with so much room, and once more with the bytes that it says it needs."""
    while True:
        out = bytearray(room)
        to, length, hold = write_part(out)
        answer = write(to, length)
        del hold
        if answer.number == 13 and answer.value[0] > room:
            room = int(answer.value[0])
            continue
        done(call, answer)
        del out[answer.value[0]:]
        return out


class Site:
    """A site that is in order. It is never changed: an edit gives a new one. Cells are numbered from 1, positions from 0."""

    __slots__ = ("_record",)
    _record: Record

    def __init__(self, cells: int, slots: int, channels: int, rule: int = 1, blocked: Iterable[int] = ()) -> None:
        small(cells=cells, slots=slots, channels=channels, rule=rule)
        record = Record(cells, slots, channels, rule=rule)
        for position in blocked:
            if not 0 <= position < 2048:
                raise ValueError("no site has a position %d" % position)
            record.blocked[position // 64] |= 1 << position % 64
        done(Call.FAULT, lib.dugg_fault(record))
        self._record = record

    @classmethod
    def _of(cls, record: Record) -> "Site":
        site = cls.__new__(cls)
        site._record = Record.from_buffer_copy(record)
        return site

    @classmethod
    def from_record(cls, record: Record) -> "Site":
        """A site of any record of the C interface, if that is in order."""
        done(Call.FAULT, lib.dugg_fault(record))
        return cls._of(record)

    @property
    def cells(self) -> int:
        return int(self._record.cells)

    @property
    def slots(self) -> int:
        return int(self._record.slots)

    @property
    def channels(self) -> int:
        return int(self._record.channels)

    @property
    def rule(self) -> int:
        return int(self._record.rule)

    @property
    def positions(self) -> int:
        """Slots times channels, blocked positions too."""
        return int(self._record.slots * self._record.channels)

    @property
    def loads(self) -> Tuple[int, ...]:
        return tuple(self._record.loads[:self._record.cells])

    def load(self, cell: int) -> int:
        """The load of a cell in fragments per superframe."""
        if not 1 <= cell <= self.cells:
            raise IndexError("the site has no cell %d" % cell)
        return int(self._record.loads[cell - 1])

    def reaches(self, a: int, b: int) -> bool:
        """Whether transmissions of cell a can disturb those of cell b."""
        inside = 1 <= a <= self.cells and 1 <= b <= self.cells
        return bool(inside and self._record.reach[a - 1] >> (b - 1) & 1)

    def is_blocked(self, position: int) -> bool:
        return bool(0 <= position < self.positions and self._record.blocked[position // 64] >> position % 64 & 1)

    # ---- edits

    def with_load(self, cell: int, load: int) -> "Site":
        small(cell=cell, load=load)
        return _edited(Call.SET_LOAD, lib.dugg_set_load(self._record, cell, load))

    def with_reach(self, a: int, b: int) -> "Site":
        small(a=a, b=b)
        return _edited(Call.SET_REACH, lib.dugg_set_reach(self._record, a, b))

    def without_reach(self, a: int, b: int) -> "Site":
        small(a=a, b=b)
        return _edited(Call.CLEAR_REACH, lib.dugg_clear_reach(self._record, a, b))

    # ---- judges

    def clash(self, a: int, b: int) -> bool:
        """Whether two cells clash. A cell that the site does not have clashes with none."""
        if (a | b) >> 16:
            small(a=a, b=b)
        answer = _clash(self._record, a, b)
        if answer.number:
            done(Call.CLASH, answer)
        return answer.value[0] == 1

    def load_test(self) -> LoadTest:
        cell, excess, _ = done(Call.LOAD_TEST, lib.dugg_load_test(self._record)).value
        return LoadTest(cell == 0, cell, excess)

    def chain(self) -> Chain:
        a, b, c = done(Call.CHAIN, lib.dugg_chain(self._record)).value
        return Chain(a == 0, (a, b, c))

    def nested(self) -> Class:
        a, b, i = done(Call.CLASS, getattr(lib, "dugg_class")(self._record)).value
        return Class(a == 0, (a, b, i))

    def least(self) -> Least:
        positions, fewer, _ = done(Call.LEAST, lib.dugg_least(self._record)).value
        return Least(positions, fewer == 0)

    def heaviest(self) -> Heaviest:
        load, cells, _ = done(Call.HEAVIEST, lib.dugg_heaviest(self._record)).value
        return Heaviest(load, cells)

    def over_full(self, cells: int) -> OverFull:
        """Whether these cells, bit i-1 for cell i, alone show that no plan exists."""
        if cells >> 32:
            raise ValueError("a set of cells is 0 to 4,294,967,295")
        over, load, _ = done(Call.OVER_FULL, lib.dugg_over_full(self._record, cells)).value
        return OverFull(over == 1, load)

    # ---- plans

    def plan(self) -> Plan:
        """The plan of the site."""
        plan = Plan(self.cells, self.slots, self.channels)
        self.plan_into(plan._bytes)
        return plan

    def plan_into(self, table: "Union[bytearray, memoryview]") -> None:
        """Plans into a lent buffer of cells * slots * channels bytes, which is not copied."""
        to, length, hold = write_part(table)
        answer = lib.dugg_plan(self._record, to, length)
        del hold
        done(Call.PLAN, answer)

    def _looked(self, call: int, look: Any, limit: int) -> "Tuple[Plan, Tuple[int, int, int]]":
        if limit >> 64:
            raise ValueError("the tries are 0 to 18,446,744,073,709,551,615")
        plan = Plan(self.cells, self.slots, self.channels)
        to, length, hold = write_part(plan._bytes)
        answer = look(self._record, limit, to, length)
        del hold
        a, b, c = done(call, answer).value
        return plan, (a, b, c)

    def search(self, limit: int = 1_000_000) -> Found:
        """Searches for a plan with at most so many tries."""
        plan, (verdict, tries, _) = self._looked(Call.SEARCH, lib.dugg_search, limit)
        return Found(verdict, 3, tries, 0, plan if verdict == 0 else None)

    def find(self, limit: int = 1_000_000) -> Found:
        """A plan by any proved way, or what shows that there is none; the search makes at most so many tries."""
        plan, (verdict, way, more) = self._looked(Call.FIND, lib.dugg_find, limit)
        return Found(verdict, way, more if way == 3 else 0, more if way == 1 else 0, plan if verdict == 0 else None)

    def check(self, table: Buffer) -> None:
        """Nothing where a table is valid for the site; otherwise Refused with the first thing that is wrong."""
        start, length, keep = read_part(table)
        answer = lib.dugg_check(self._record, start, length)
        del keep
        done(Call.CHECK, answer)

    def mend(self, table: "Union[bytearray, memoryview]") -> List[Change]:
        """Makes a table valid where it stands, and names the changes by cell, then position."""
        count = 0
        while True:
            changes = (ctypes.c_uint16 * (4 * count))()
            to, length, hold = write_part(table)
            answer = lib.dugg_mend(self._record, to, length, ctypes.addressof(changes), len(changes))
            del hold
            if answer.number == 13 and answer.value[0] > count:
                count = int(answer.value[0])
                continue
            done(Call.MEND, answer)
            numbers = changes[:4 * int(answer.value[0])]
            return [Change(numbers[i], numbers[i + 1], numbers[i + 2] == 1, numbers[i + 3] == 1) for i in range(0, len(numbers), 4)]

    def change_load(self, cell: int, load: int, table: "Union[bytearray, memoryview]") -> "Site":
        """The site with another load of one cell; the table, which is this site's plan, becomes its plan where it stands."""
        small(cell=cell, load=load)
        record = Record.from_buffer_copy(self._record)
        to, length, hold = write_part(table)
        answer = lib.dugg_change_load(ctypes.byref(record), cell, load, to, length)
        del hold
        done(Call.CHANGE_LOAD, answer)
        return Site._of(record)

    def plan_words(self) -> Words:
        words = Words(self.positions)
        done(Call.PLAN_WORDS, lib.dugg_plan_words(self._record, ctypes.addressof(words._words), len(words)))
        return words

    def check_words(self, words: Words) -> None:
        done(Call.CHECK_WORDS, lib.dugg_check_words(self._record, ctypes.addressof(words._words), len(words)))

    def to_words(self, table: Buffer) -> Words:
        words = Words(self.positions)
        start, length, keep = read_part(table)
        answer = lib.dugg_to_words(self._record, start, length, ctypes.addressof(words._words), len(words))
        del keep
        done(Call.TO_WORDS, answer)
        return words

    def to_plan(self, words: Words) -> Plan:
        plan = Plan(self.cells, self.slots, self.channels)
        to, length, hold = write_part(plan._bytes)
        answer = lib.dugg_to_bytes(self._record, ctypes.addressof(words._words), len(words), to, length)
        del hold
        done(Call.TO_BYTES, answer)
        return plan

    # ---- numbers and flows

    def renumber(self) -> Renumbered:
        given = lib.dugg_renumber(self._record)
        done(Call.RENUMBER, given.answer)
        return Renumbered(Site._of(given.site), tuple(given.new_of_old), tuple(given.old_of_new))

    def carry(self, table: Buffer) -> Plan:
        """The plan of this site that a plan of its renumbered site is."""
        plan = Plan(self.cells, self.slots, self.channels)
        start, length, keep = read_part(table)
        to, room, hold = write_part(plan._bytes)
        answer = lib.dugg_carry(self._record, start, length, to, room)
        del keep, hold
        done(Call.CARRY, answer)
        return plan

    def _admitted(self, call: int, admit: Any, flows: Sequence[Flow]) -> List[int]:
        for flow in flows:
            small(cell=flow.cell, burst=flow.burst, period=flow.period, repeats=flow.repeats, value=flow.value)
        lent = (FlowRecord * len(flows))(*[(f.cell, f.burst, f.period, f.repeats, f.value) for f in flows])
        number = done(call, admit(self._record, lent, len(flows))).value[0]
        return [i + 1 for i in range(len(flows)) if number >> i & 1]

    def admit(self, flows: Sequence[Flow]) -> List[int]:
        """Which of at most 16 flows to admit, from 1; the site's own loads are set aside."""
        return self._admitted(Call.ADMIT, lib.dugg_admit, flows)

    def admit_beside(self, flows: Sequence[Flow]) -> List[int]:
        """The same on top of the loads that the site has."""
        return self._admitted(Call.ADMIT_BESIDE, lib.dugg_admit_beside, flows)

    # ---- files, sheets and texts

    @classmethod
    def from_bytes(cls, file: Buffer) -> "Site":
        """Reads a site file."""
        start, length, keep = read_part(file)
        given = lib.dugg_read_site(start, length)
        del keep
        return _edited(Call.READ_SITE, given)

    @classmethod
    def read(cls, path: "Union[str, bytes, os.PathLike[str]]") -> "Site":
        """Reads a site file by its name; no more of it than is needed."""
        return cls.from_bytes(start_of(path))

    def to_bytes(self) -> bytes:
        """The site file."""
        return bytes(_written(Call.WRITE_SITE, lambda to, n: lib.dugg_write_site(self._record, to, n)))

    def write_plan(self, table: Buffer) -> bytes:
        """The plan file of a table."""
        start, length, keep = read_part(table)
        file = bytes(_written(Call.WRITE_PLAN, lambda to, n: lib.dugg_write_plan(self._record, start, length, to, n)))
        del keep
        return file

    @classmethod
    def from_sheet(cls, sheet: Buffer, slots: int, channels: int, rule: int = 1, blocked: Iterable[int] = ()) -> "Site":
        """Reads a range sheet; what else a site has comes beside it."""
        small(slots=slots, channels=channels, rule=rule)
        beside = Blocked()
        for position in blocked:
            if not 0 <= position < 2048:
                raise ValueError("no site has a position %d" % position)
            beside.bits[position // 64] |= 1 << position % 64
        start, length, keep = read_part(sheet)
        given = lib.dugg_read_sheet(start, length, slots, channels, beside, rule)
        del keep
        return _edited(Call.READ_SHEET, given)

    def to_sheet(self) -> bytes:
        """The range sheet."""
        return bytes(_written(Call.WRITE_SHEET, lambda to, n: lib.dugg_write_sheet(self._record, to, n)))

    def why(self) -> str:
        """What `duggfrask why` prints of the site."""
        return _written(Call.WHY, lambda to, n: lib.dugg_why(self._record, to, n), 65536).decode("ascii")

    def list(self) -> str:
        """What `duggfrask list` prints of the site."""
        return list_file(self.to_bytes())

    def __eq__(self, other: object) -> bool:
        if not isinstance(other, Site):
            return NotImplemented
        return self._key() == other._key()

    def _key(self) -> Tuple[Any, ...]:
        r = self._record
        return (r.cells, r.slots, r.channels, r.rule, tuple(r.loads), tuple(r.reach), tuple(r.blocked))

    def __hash__(self) -> int:
        return hash(self._key())

    def __repr__(self) -> str:
        return "Site(cells=%d, slots=%d, channels=%d, rule=%d)" % (self.cells, self.slots, self.channels, self.rule)

    def __reduce__(self) -> "Tuple[Any, Tuple[bytes]]":
        return Site.from_bytes, (self.to_bytes(),)


def list_file(file: Buffer) -> str:
    """What `duggfrask list` prints of a site file, also of one that is refused."""
    start, length, keep = read_part(file)
    text = _written(Call.LIST, lambda to, n: lib.dugg_list(start, length, to, n), 65536)
    del keep
    return text.decode("ascii")


def tidy(sheet: Buffer) -> bytes:
    """A sheet as spreadsheets write it, in the form that `Site.from_sheet` reads."""
    start, length, keep = read_part(sheet)
    tidied = bytes(_written(Call.TIDY, lambda to, n: lib.dugg_tidy(start, length, to, n), 4096))
    del keep
    return tidied


def share(slots: int, burst: int, period: int, repeats: "Union[int, None]" = None) -> Share:
    """What a flow needs; each fragment is sent twice where no repeats are given."""
    small(slots=slots, burst=burst, period=period)
    if repeats is None:
        answer = done(Call.SHARE, lib.dugg_share(slots, burst, period))
    else:
        small(repeats=repeats)
        answer = done(Call.SHARE_REPEATED, lib.dugg_share_repeated(slots, burst, period, repeats))
    return Share(*answer.value)


__all__ = ["Refused", "Site", "list_file", "share", "tidy"]

"""The C interface, include/duggfrask.h, over ctypes. `tools/try-packages` holds the sizes and offsets to the header's."""

from __future__ import annotations

import ctypes
import os
from ctypes import POINTER, Structure, c_size_t, c_ubyte, c_uint16, c_uint32, c_uint64, c_void_p
from typing import Any, Tuple, Union

VERSION = 4

Buffer = Union[bytes, bytearray, memoryview]


class Record(Structure):
    _fields_ = [("cells", c_uint16), ("slots", c_uint16), ("channels", c_uint16), ("loads", c_uint16 * 32),
                ("reach", c_uint32 * 32), ("blocked", c_uint64 * 32), ("rule", c_uint16)]


class Blocked(Structure):
    _fields_ = [("bits", c_uint64 * 32)]


class Answer(Structure):
    _fields_ = [("number", c_uint64), ("value", c_uint64 * 3)]


class Edited(Structure):
    _fields_ = [("site", Record), ("answer", Answer)]


class PlanRead(Structure):
    _fields_ = [("cells", c_uint16), ("slots", c_uint16), ("channels", c_uint16), ("answer", Answer)]


class RenumberedRecord(Structure):
    _fields_ = [("site", Record), ("new_of_old", c_uint16 * 32), ("old_of_new", c_uint16 * 32), ("answer", Answer)]


class FlowRecord(Structure):
    _fields_ = [("cell", c_uint16), ("burst", c_uint16), ("period", c_uint16), ("repeats", c_uint16), ("value", c_uint16)]


def _load() -> ctypes.CDLL:
    """The library: in the folder that DUGGFRASK_LIB names; where the system has it; or in dist, beside the sources."""
    folder = os.environ.get("DUGGFRASK_LIB")
    if folder:
        return ctypes.CDLL(os.path.join(folder, "libduggfrask.so"))
    try:
        return ctypes.CDLL("libduggfrask.so.%d" % VERSION)
    except OSError as missing:
        here = os.path.dirname(os.path.abspath(__file__))
        beside = os.path.join(here, "..", "..", "..", "dist", "libduggfrask.so")
        if os.path.exists(beside):
            return ctypes.CDLL(beside)
        raise ImportError("libduggfrask.so.%d is not there: install the package duggfrask, or set DUGGFRASK_LIB to the folder that has it"
                          % VERSION) from missing


lib: Any = _load()
_PARTS = (c_void_p, c_size_t)
_U16 = c_uint16
for _name, _result, _given in [
    ("fault", Answer, (Record,)),
    ("clash", Answer, (Record, _U16, _U16)),
    ("set_load", Edited, (Record, _U16, _U16)),
    ("set_reach", Edited, (Record, _U16, _U16)),
    ("clear_reach", Edited, (Record, _U16, _U16)),
    ("load_test", Answer, (Record,)),
    ("chain", Answer, (Record,)),
    ("class", Answer, (Record,)),
    ("least", Answer, (Record,)),
    ("heaviest", Answer, (Record,)),
    ("plan", Answer, (Record, *_PARTS)),
    ("search", Answer, (Record, c_uint64, *_PARTS)),
    ("find", Answer, (Record, c_uint64, *_PARTS)),
    ("over_full", Answer, (Record, c_uint32)),
    ("check", Answer, (Record, *_PARTS)),
    ("plan_words", Answer, (Record, *_PARTS)),
    ("check_words", Answer, (Record, *_PARTS)),
    ("to_words", Answer, (Record, *_PARTS, *_PARTS)),
    ("to_bytes", Answer, (Record, *_PARTS, *_PARTS)),
    ("mend", Answer, (Record, *_PARTS, *_PARTS)),
    ("change_load", Answer, (POINTER(Record), _U16, _U16, *_PARTS)),
    ("renumber", RenumberedRecord, (Record,)),
    ("carry", Answer, (Record, *_PARTS, *_PARTS)),
    ("share", Answer, (_U16, _U16, _U16)),
    ("share_repeated", Answer, (_U16, _U16, _U16, _U16)),
    ("admit", Answer, (Record, POINTER(FlowRecord), c_size_t)),
    ("admit_beside", Answer, (Record, POINTER(FlowRecord), c_size_t)),
    ("read_site", Edited, _PARTS),
    ("write_site", Answer, (Record, *_PARTS)),
    ("read_plan", PlanRead, (*_PARTS, *_PARTS)),
    ("write_plan", Answer, (Record, *_PARTS, *_PARTS)),
    ("read_sheet", Edited, (*_PARTS, _U16, _U16, Blocked, _U16)),
    ("write_sheet", Answer, (Record, *_PARTS)),
    ("tidy", Answer, (*_PARTS, *_PARTS)),
    ("words", Answer, (Answer, c_uint64, *_PARTS)),
    ("why", Answer, (Record, *_PARTS)),
    ("list", Answer, (*_PARTS, *_PARTS)),
    ("version", Answer, ()),
]:
    _call = getattr(lib, "dugg_" + _name)
    _call.restype = _result
    _call.argtypes = _given


def version() -> int:
    """The version of the library that is there at run time."""
    return int(lib.dugg_version().value[0])


if version() != VERSION:
    raise ImportError("the library duggfrask has version %d, and this package is for %d" % (version(), VERSION))


def read_part(data: Buffer) -> Tuple[Any, int, Any]:
    """Where some bytes stand, how many there are, and what has to live as long; they are copied only where no writable buffer is there."""
    if not isinstance(data, bytes):
        view = memoryview(data)
        if not view.readonly and view.contiguous:
            part = (c_ubyte * view.nbytes).from_buffer(view)
            return ctypes.addressof(part), view.nbytes, part
        data = view.tobytes()
    return ctypes.cast(data, c_void_p), len(data), data


def write_part(buffer: Union[bytearray, memoryview]) -> Tuple[int, int, Any]:
    """The same of a buffer that is lent to be written, never copied."""
    view = memoryview(buffer)
    if view.readonly:
        raise TypeError("a buffer that can be written is needed, and this one is read-only")
    if not view.contiguous:
        raise ValueError("a buffer in one piece is needed")
    part = (c_ubyte * view.nbytes).from_buffer(view)
    return ctypes.addressof(part), view.nbytes, part


def small(**numbers: int) -> None:
    """Numbers that C has two bytes for: ctypes would cut them off."""
    for name, number in numbers.items():
        if number >> 16:
            raise ValueError("%s is %d, and has to be 0 to 65,535" % (name, number))

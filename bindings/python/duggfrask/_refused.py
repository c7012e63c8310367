"""The refusals: an exception with the number, the values and the words of docs/NUMBERS.md."""

from __future__ import annotations

from typing import Sequence, Tuple

from ._answers import Call
from ._raw import Answer, lib, write_part


def words(number: int, values: Sequence[int] = (), call: int = 0) -> str:
    """An answer of a call in the words of docs/NUMBERS.md."""
    answer = Answer(number)
    for i, value in enumerate(values[:3]):
        answer.value[i] = value
    out = bytearray(512)
    told = lib.dugg_words(answer, int(call), *write_part(out)[:2])
    return out[:told.value[0]].decode("ascii", "replace").rstrip("\n") if told.number == 0 else "refused %d" % number


class Refused(Exception):
    """A call was refused. `place` is the first value: a cell, a position, a line, a flow, or an offset in a file."""

    def __init__(self, call: int, number: int, values: Sequence[int]) -> None:
        self.call = Call(call)
        self.number = number
        self.values: Tuple[int, int, int] = (values[0], values[1], values[2])
        self.words = words(number, self.values, call)
        super().__init__(self.words)

    @property
    def place(self) -> int:
        return self.values[0]

    def __reduce__(self) -> Tuple[type, Tuple[int, int, Tuple[int, int, int]]]:
        return Refused, (int(self.call), self.number, self.values)


def done(call: int, answer: Answer) -> Answer:
    """The answer, where it is done."""
    if answer.number:
        raise Refused(call, answer.number, answer.value[:])
    return answer

"""Symmetry operations, and maps between crystals: matrices, translation parts and time reversals, and their texts."""

from __future__ import annotations

import re
from dataclasses import dataclass
from fractions import Fraction
from functools import lru_cache
from typing import Iterable, Iterator, NamedTuple

import numpy

from .exact_numbers import fraction_array, fractions_of, frozen, integer_array

TERM = re.compile(r"([+-]?)(?:([0-9]+(?:[/.][0-9]+)?)\*?)?([xyz]?)")


class Operation(NamedTuple):
    """One operation: it takes a position p to matrix · p + translation, and reverses time where sign is -1."""

    matrix: tuple[int, ...]
    translation: tuple[Fraction, ...]
    sign: int


@lru_cache(maxsize=65536)
def part_of(text: str) -> tuple[tuple[int, ...], Fraction]:
    """A row of the matrix and a translation, from a part as `x-y+1/2`."""
    row, translation, at = [0, 0, 0], Fraction(0), 0
    while at < len(text):
        term = TERM.match(text, at)
        if term is None or not (term[2] or term[3]) or at and not term[1]:
            raise ValueError(f"not a part of an operation: {text!r}")
        size = fractions_of([term[2] or "1"])[0] * (-1 if term[1] == "-" else 1)
        if term[3] and size.denominator == 1:
            row["xyz".index(term[3])] += int(size)
        elif term[3]:
            raise ValueError(f"not a part of an operation: {text!r}")
        else:
            translation += size
        at = term.end()
    if not text:
        raise ValueError("an operation has a part without text")
    return tuple(row), translation


def operation_of(text: str) -> Operation:
    """The operation that a text as `-x,-y,z+1/2,-1` spells; without a time sign it is +1.

    >>> operation_of("-y,x-y,z+1/3,-1")
    Operation(matrix=(0, -1, 0, 1, -1, 0, 0, 0, 1), translation=(Fraction(0, 1), Fraction(0, 1), Fraction(1, 3)), sign=-1)
    """
    parts = text.replace(" ", "").lower().split(",")
    sign = {"+1": 1, "1": 1, "-1": -1}.get(parts[3] if len(parts) == 4 else "+1")
    if len(parts) not in (3, 4) or sign is None:
        raise ValueError(f"not an operation: {text!r}")
    (x, a), (y, b), (z, c) = (part_of(part) for part in parts[:3])
    return Operation(x + y + z, (a, b, c), sign)


@lru_cache(maxsize=65536)
def part_text(row: tuple[int, ...], translation: Fraction) -> str:
    """The text of a row of the matrix and its translation."""
    terms = ""
    for factor, letter in zip(row, "xyz"):
        if factor:
            terms += ("+" if factor > 0 and terms else "") + {1: "", -1: "-"}.get(factor, str(factor)) + letter
    return terms + (f"{'+' if translation > 0 else ''}{translation}" if translation else "")


@dataclass(frozen=True, eq=False)
class Operations:
    """Operations in increasing order, as arrays that can't be written to.

    Attributes:
        rotations: the matrices, integers of 64 bits, shape (operations, 3, 3); they act from the left on columns of
            coordinates
        translations: the translation parts, fractions (dtype object), shape (operations, 3)
        time_reversals: whether each reverses time, bool, shape (operations,)

    Two are equal where all operations are, in this order.

    >>> group = Operations.of_lines(["-x,-y,z+1/2,-1", "x,y,z,+1"])
    >>> len(group), list(group)[1].sign, group.lines()
    (2, 1, ['-x,-y,z+1/2,-1', 'x,y,z,+1'])
    """

    rotations: numpy.ndarray
    translations: numpy.ndarray
    time_reversals: numpy.ndarray

    @classmethod
    def of(cls, operations: Iterable[Operation]) -> "Operations":
        """The arrays of some operations, in the given order."""
        given = list(operations)
        return cls(
            integer_array((entry for operation in given for entry in operation.matrix), len(given), 3, 3),
            fraction_array((part for operation in given for part in operation.translation), len(given), 3),
            frozen(numpy.array([operation.sign == -1 for operation in given], dtype=bool)),
        )

    @classmethod
    def of_lines(cls, lines: Iterable[str]) -> "Operations":
        """The operations that lines as `-x,-y,z+1/2,-1` spell."""
        return cls.of(map(operation_of, lines))

    def __len__(self) -> int:
        return len(self.rotations)

    def __iter__(self) -> Iterator[Operation]:
        rows = zip(self.rotations.reshape(-1, 9).tolist(), self.translations.tolist(), self.time_reversals.tolist())
        for matrix, translation, reverses in rows:
            yield Operation(tuple(matrix), tuple(translation), -1 if reverses else 1)

    def __eq__(self, other: object) -> bool:
        return isinstance(other, Operations) and list(self) == list(other)

    def __hash__(self) -> int:
        return hash(self.rotations.tobytes())

    def lines(self) -> list[str]:
        """The text of each operation, as `-x,-y,z+1/2,-1`."""
        return [text_of(operation) for operation in self]


def text_of(operation: Operation) -> str:
    """The text of an operation, as `-x,-y,z+1/2,-1`."""
    matrix, translation, sign = operation
    parts = [part_text(matrix[3 * i : 3 * i + 3], translation[i]) for i in range(3)]
    return ",".join([*(part or "0" for part in parts), f"{sign:+d}"])

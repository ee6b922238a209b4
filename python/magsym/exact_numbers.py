"""Exact numbers: integers and fractions, as texts and in arrays, and matrices of three by three of them."""

from __future__ import annotations

import math
import numbers
import re
from decimal import Decimal
from fractions import Fraction
from typing import Iterable, Union

import numpy

Exact = Union[int, Fraction, Decimal, str]

NUMBER = re.compile(r"-?[0-9]+(/[0-9]+|\.[0-9]+)?")


def fraction_of(value: Exact) -> Fraction:
    """The fraction that an integer, a fraction, a decimal or a text is.

    Raises TypeError for a float, which is not exact, and ValueError for a text that is no number, or divides by 0.

    >>> fraction_of("-0.305"), fraction_of("61/200"), fraction_of(2)
    (Fraction(-61, 200), Fraction(61, 200), Fraction(2, 1))
    """
    if isinstance(value, str):
        if not NUMBER.fullmatch(value) or re.search("/0+$", value):
            raise ValueError(f"not a number: {value!r}")
        return Fraction(value)
    if isinstance(value, bool) or not isinstance(value, (numbers.Rational, Decimal)):
        raise TypeError(f"{value!r} is not exact; give an integer, a fraction or a text, or let magsym.exact make it so")
    if isinstance(value, numbers.Integral):
        return Fraction(int(value))
    return Fraction(value)


def fractions_of(values: Iterable[Exact] | str) -> tuple[Fraction, ...]:
    """The fractions of some values, or of a text with spaces between them."""
    return tuple(fraction_of(value) for value in (values.split() if isinstance(values, str) else values))


def common_denominator(values: Iterable[Fraction]) -> int:
    """The least common denominator.

    >>> common_denominator([Fraction(1, 4), Fraction(1, 6)])
    12
    """
    return math.lcm(1, *(value.denominator for value in values))


def frozen(array: numpy.ndarray) -> numpy.ndarray:
    """The same array, which can't be written to from here on."""
    array.setflags(write=False)
    return array


def integer_array(values: Iterable, *shape: int) -> numpy.ndarray:
    """An array of integers of 64 bits of this shape, which can't be written to."""
    return frozen(numpy.array(list(values), dtype="int64").reshape(shape))


def fraction_array(values: Iterable[Fraction], *shape: int) -> numpy.ndarray:
    """An array of fractions (dtype object) of this shape, which can't be written to."""
    flat = list(values)
    array = numpy.empty(len(flat), dtype=object)
    array[:] = flat
    return frozen(array.reshape(shape))


def as_fractions(matrix: numpy.ndarray) -> numpy.ndarray:
    """An array of integers or fractions as one of fractions, of the same shape."""
    return fraction_array((Fraction(entry) for entry in matrix.ravel().tolist()), *matrix.shape)


def determinant(matrix: numpy.ndarray):
    """The determinant of a matrix of three by three, exact for exact entries."""
    return matrix[0].dot(numpy.cross(matrix[1], matrix[2]))


def inverse(matrix: numpy.ndarray) -> numpy.ndarray:
    """The inverse of a matrix of three by three of integers or fractions, as fractions.

    >>> inverse(numpy.array([[2, 0, 0], [0, 1, 0], [0, 0, 1]]))[0, 0]
    Fraction(1, 2)
    """
    exact = as_fractions(numpy.asarray(matrix))
    columns = [numpy.cross(exact[(i + 1) % 3], exact[(i + 2) % 3]) for i in range(3)]
    return frozen(numpy.array(columns, dtype=object).T / determinant(exact))

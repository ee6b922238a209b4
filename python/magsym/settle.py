"""Numbers that a group of operations leaves free, settled to fractions: metric tensors, positions and moments.

What the operations fix comes out exactly so. What they leave free is settled on a grid, as fine as the ranges of the cell
file allow (docs/FORMATS.md): common denominators of up to 10^6 for positions and moments, and a metric tensor whose
common denominator, and whose numbers times it, are up to 10^9.
"""

from __future__ import annotations

import math
from dataclasses import dataclass
from fractions import Fraction
from typing import Iterable, Sequence, Union

import numpy

from .cell import metric_entries
from .errors import NotExact
from .exact_numbers import as_fractions, common_denominator, fraction_array

Number = Union[float, Fraction]

MOST_DENOMINATOR = 10**6
MOST_METRIC = 10**9
MOST_MOMENT = 10**9
DIGITS = 6
NOISE = 1e-9  # how far a float may be from a decimal to be taken for it


def told(length: float, position: float, moment: float) -> str:
    """The line that tells the largest changes of a length, of a position and of a moment; noise of floats is 0."""
    sizes = ["0" if change < 1e-12 else f"{change:.2g}" for change in (length, position, moment)]
    return "made exact: lengths changed by up to {}, positions by {}, moments by {}".format(*sizes)


# What a group of maps fixes


def cleared(columns: list[list[int]], row: int, start: int) -> list[list[int]]:
    """The columns, from `start` on with at most one that isn't 0 in a row, which comes first; by integer steps."""
    kept, rest = columns[:start], columns[start:]
    while True:
        filled = sorted((column for column in rest if column[row]), key=lambda column: abs(column[row]))
        empty = [column for column in rest if not column[row]]
        if len(filled) < 2:
            return kept + filled + empty
        least = filled[0]
        rest = [least] + [[a - column[row] // least[row] * b for a, b in zip(column, least)] for column in filled[1:]] + empty


def integer_kernel(matrix: numpy.ndarray) -> numpy.ndarray:
    """A basis of the integer columns that a matrix of integers takes to 0, as columns, shape (3, dimension).

    >>> integer_kernel(numpy.array([[1, -1, 0], [-1, 1, 0], [0, 0, 0]])).tolist()
    [[1, 0], [1, 0], [0, 1]]
    """
    size = matrix.shape[1]
    columns = [[int(entry) for entry in matrix[:, j]] + [int(i == j) for i in range(size)] for j in range(size)]
    start = 0
    for row in range(matrix.shape[0]):
        columns = cleared(columns, row, start)
        start += bool(start < size and columns[start][row])
    return numpy.array([column[matrix.shape[0] :] for column in columns[start:]], dtype=int).reshape(-1, size).T


@dataclass(frozen=True, eq=False)
class FixedSpace:
    """The points that a group of maps x to matrix · x + translation fixes.

    Attributes:
        point: one of them, fractions, shape (3,)
        directions: a basis of the integer columns that the matrices fix, as columns, shape (3, dimension)
        mean: the mean of the matrices in floats, shape (3, 3)
    """

    point: numpy.ndarray
    directions: numpy.ndarray
    mean: numpy.ndarray

    @classmethod
    def of(cls, matrices: Sequence[numpy.ndarray], translations: Sequence[Iterable[Fraction]]) -> "FixedSpace":
        """That of a finite group. Raises NotExact where the maps have no common fixed point."""
        count, total = len(matrices), numpy.sum(matrices, axis=0)
        point = fraction_array((sum(parts, Fraction(0)) / count for parts in zip(*translations)), 3)
        for matrix, translation in zip(matrices, translations):
            if any(matrix.astype(object).dot(point) + fraction_array(translation, 3) != point):
                raise NotExact("the operations that keep an atom within the tolerance don't fix a common point")
        return cls(point, integer_kernel(total - count * numpy.eye(3, dtype=int)), total / count)

    def parameters(self, value: Iterable[Number]) -> numpy.ndarray:
        """Where the mean of the images of a value stands, in units of the directions from the point on: floats."""
        if not self.dimension:
            return numpy.zeros(0)
        free = self.mean @ numpy.array([float(x) for x in value])
        return numpy.linalg.lstsq(self.directions.astype(float), free, rcond=None)[0]

    @property
    def dimension(self) -> int:
        return self.directions.shape[1]

    def at(self, parameters: Sequence[Fraction]) -> tuple[Fraction, ...]:
        """The fixed point of some parameters, as fractions."""
        moved = self.directions.astype(object).dot(fraction_array(parameters, len(parameters))) if self.dimension else 0
        return tuple(Fraction(x) for x in (self.point + moved).tolist())


# Grids


def grid_of(values: Iterable[float], needed: int, most: int) -> int:
    """The denominator on which some values are settled, a multiple of `needed` up to `most`.

    It is the least common multiple of `needed` and a power of ten of up to six digits, or 24 times one, where all values are
    multiples of its inverse, so that decimals and 24ths stay as they are; else the largest multiple of `needed`. Raises
    NotExact where there is none.

    >>> grid_of([0.305, 0.5], 3, 10**6), grid_of([1 / 12], 1, 10**6), grid_of([0.30512345], 24, 10**6)
    (2400, 24, 999984)
    """
    given = numpy.array(list(values), dtype=float)
    for times in (10**digits * part for digits in range(DIGITS + 1) for part in (1, 24)):
        grid = math.lcm(needed, times)
        if grid <= most and bool(numpy.all(numpy.abs(given - numpy.rint(given * grid) / grid) <= NOISE)):
            return grid
    if needed > most:
        raise NotExact(f"the positions or moments have no common denominator up to {MOST_DENOMINATOR}")
    return most // needed * needed


def on_grid(values: Iterable[float], grid: int) -> list[Fraction]:
    """The multiples of 1/grid that are nearest to some values."""
    return [Fraction(round(float(value) * grid), grid) for value in values]


def settled(
    spaces: Sequence[FixedSpace], values: Sequence[Iterable[Number]], needed: int, most: int
) -> list[tuple[Fraction, ...]]:
    """The points of fixed spaces nearest to some values, on one grid; one value for each space."""
    parameters = [space.parameters(value) for space, value in zip(spaces, values)]
    needed = math.lcm(needed, *(common_denominator(space.point) for space in spaces))
    grid = grid_of((x for given in parameters for x in given), needed, most)
    return [space.at(on_grid(given, grid)) for space, given in zip(spaces, parameters)]


# The metric tensor


def mean_metric(metric: numpy.ndarray, matrices: Sequence[numpy.ndarray]) -> numpy.ndarray:
    """The mean of Wᵀ G W over a group of matrices W."""
    stack = numpy.array(matrices)
    return numpy.einsum("aji,jk,akl->il", stack, metric, stack) / len(matrices)


def exact_mean(numerators: numpy.ndarray, denominator: int, matrices: Sequence[numpy.ndarray]) -> numpy.ndarray:
    """The same of a metric tensor of integers over a denominator, as fractions."""
    stack = numpy.array(matrices, dtype="int64")
    total = numpy.einsum("aji,jk,akl->il", stack, numerators, stack)
    return as_fractions(total.astype(object)) / (len(matrices) * denominator)


def is_in_range(metric: Sequence[Fraction]) -> bool:
    """Whether a cell file can hold this metric tensor."""
    scale = common_denominator(metric)
    return scale <= MOST_METRIC and all(abs(entry * scale) <= MOST_METRIC for entry in metric)


def settled_metric(metric: numpy.ndarray, matrices: Sequence[numpy.ndarray], back: numpy.ndarray) -> tuple[Fraction, ...]:
    """A metric tensor that a group of matrices keeps exactly, with as many decimals as a cell file can hold.

    `metric` is in floats, shape (3, 3); the six numbers are those in the axes whose coordinates the matrix of integers `back`
    takes to those of `metric`. Raises NotExact where none can be held.
    """
    mean = mean_metric(metric, matrices)
    integers = back.astype(object)
    for digits in range(9, -1, -1):
        scaled = mean * 10**digits
        if numpy.abs(scaled).max() > 100 * MOST_METRIC:
            continue
        exact = exact_mean(numpy.rint(scaled).astype("int64"), 10**digits, matrices)
        told = metric_entries(integers.T.dot(exact).dot(integers))
        if is_in_range(told) and numpy.linalg.eigvalsh(exact.astype(float)).min() > 0:
            return told
    raise NotExact("the metric tensor is beyond the range of a cell file; give lengths in another unit")

"""The operations of a crystal in floats that hold within a tolerance.

Coordinates are along the axes of a reduced basis; an operation takes a position p to matrix · p + translation.
"""

from __future__ import annotations

import itertools
from dataclasses import dataclass, replace
from typing import Iterator

import numpy

from .cell import Kind
from .errors import NotExact
from .lattice import lengths, metric_tensor

PROBED = 3  # atoms that are tried before all are
MOST_BOXES = 1000
EIGHT = numpy.array(list(itertools.product((0, 1), repeat=3)))


@dataclass(frozen=True, eq=False)
class Crystal:
    """A crystal in floats.

    Attributes:
        lattice: the axes as rows, shape (3, 3)
        positions: in units of the axes, shape (atoms, 3)
        numbers: the species, integers, shape (atoms,)
        moments: components along the axes, shape (atoms, 3); a scalar s is (s, 0, 0)
        kind: what the moments are
    """

    lattice: numpy.ndarray
    positions: numpy.ndarray
    numbers: numpy.ndarray
    moments: numpy.ndarray
    kind: Kind

    def in_basis(self, basis: numpy.ndarray) -> "Crystal":
        """The same crystal, with all its atoms, along axes that are columns in these."""
        back = numpy.linalg.inv(basis)
        moments = self.moments @ back.T if self.kind.is_vector else self.moments
        return replace(self, lattice=basis.T @ self.lattice, positions=self.positions @ back.T, moments=moments)

    def part(self, atoms: numpy.ndarray, positions: numpy.ndarray, moments: numpy.ndarray) -> "Crystal":
        """Some of the atoms, at other positions and with other moments."""
        return replace(self, positions=positions, numbers=self.numbers[atoms], moments=moments)

    def moment_sizes(self, moments: numpy.ndarray) -> numpy.ndarray:
        """The lengths of moments of shape (.., 3)."""
        return lengths(moments, metric_tensor(self.lattice)) if self.kind.is_vector else numpy.abs(moments[..., 0])


@dataclass(frozen=True, eq=False)
class Near:
    """An operation that holds within a tolerance: it takes atom i to atom permutation[i]."""

    matrix: numpy.ndarray
    translation: numpy.ndarray
    sign: int
    permutation: numpy.ndarray


@dataclass(frozen=True)
class Tolerances:
    """How far an atom may be from another's image, and how far moments may differ."""

    position: float
    moment: float


@dataclass(frozen=True, eq=False)
class Bins:
    """The atoms of a crystal in boxes along its axes, at most one in each.

    Attributes:
        counts: how many boxes there are along each axis, shape (3,)
        codes: the numbers of the boxes that have an atom, increasing
        atoms: their atoms
    """

    counts: numpy.ndarray
    codes: numpy.ndarray
    atoms: numpy.ndarray


def codes_of(boxes: numpy.ndarray, counts: numpy.ndarray) -> numpy.ndarray:
    """One number for each box of shape (.., 3)."""
    return (boxes % counts) @ numpy.array([counts[1] * counts[2], counts[2], 1])


def bins_of(crystal: Crystal, tolerance: float) -> Bins | None:
    """The boxes, over four times the tolerance wide; None where two atoms share one, or boxes would be too few."""
    widths = 4 * tolerance * numpy.linalg.norm(numpy.linalg.inv(crystal.lattice), axis=0)
    counts = numpy.minimum(MOST_BOXES, 1 / numpy.maximum(widths, 1 / MOST_BOXES)).astype(int)
    codes = codes_of(numpy.floor(crystal.positions * counts).astype(int), counts)
    order = numpy.argsort(codes)
    if counts.min() < 2 or len(numpy.unique(codes)) < len(codes):
        return None
    return Bins(counts, codes[order], order)


def nearest_in_bins(crystal: Crystal, bins: Bins, moved: numpy.ndarray) -> tuple[numpy.ndarray, numpy.ndarray] | None:
    """As `nearest` of all atoms, looked for in the eight boxes around each position; None where one has no atom there."""
    boxes = numpy.floor(moved * bins.counts - 0.5).astype(int)[None, :, :] + EIGHT[:, None, :]
    codes = codes_of(boxes, bins.counts)
    at = numpy.minimum(numpy.searchsorted(bins.codes, codes), len(bins.codes) - 1)
    atoms = bins.atoms[at]
    away = moved[None, :, :] - crystal.positions[atoms]
    away -= numpy.rint(away)
    sizes = lengths(away, metric_tensor(crystal.lattice))
    sizes[(bins.codes[at] != codes) | (crystal.numbers[atoms] != crystal.numbers[None, :])] = numpy.inf
    best, own = numpy.argmin(sizes, axis=0), numpy.arange(len(moved))
    return None if numpy.isinf(sizes[best, own]).any() else (atoms[best, own], away[best, own])


def action(matrix: numpy.ndarray, sign: int, kind: Kind) -> numpy.ndarray:
    """The matrix by which an operation acts on moments, of the entries of its own matrix; those of a scalar are (s, 0, 0)."""
    factor = sign * (round(float(numpy.linalg.det(matrix.astype(float)))) if kind.is_axial else 1)
    return factor * (matrix if kind.is_vector else numpy.eye(3, dtype=int))


def nearest(crystal: Crystal, moved: numpy.ndarray, numbers: numpy.ndarray) -> tuple[numpy.ndarray, numpy.ndarray]:
    """The atom of the same species nearest to each position, and the vector from it to the position, within one cell."""
    away = moved[:, None, :] - crystal.positions[None, :, :]
    away -= numpy.rint(away)
    squares = numpy.einsum("abi,ij,abj->ab", away, metric_tensor(crystal.lattice), away)
    squares[numbers[:, None] != crystal.numbers[None, :]] = numpy.inf
    atoms = numpy.argmin(squares, axis=1)
    return atoms, away[numpy.arange(len(moved)), atoms]


def survivors(crystal: Crystal, matrix: numpy.ndarray, translations: numpy.ndarray, tolerance: float) -> numpy.ndarray:
    """Those of some translations with which a matrix takes a few atoms to within twice the tolerance of others."""
    few = numpy.unique(numpy.linspace(0, len(crystal.numbers) - 1, PROBED).astype(int))
    moved = (crystal.positions[few] @ matrix.T)[None, :, :] + translations[:, None, :]
    numbers = numpy.tile(crystal.numbers[few], len(translations))
    away = nearest(crystal, moved.reshape(-1, 3), numbers)[1]
    sizes = lengths(away, metric_tensor(crystal.lattice)).reshape(len(translations), -1)
    return translations[sizes.max(axis=1) <= 2 * tolerance]


def matched(crystal: Crystal, bins: Bins | None, matrix: numpy.ndarray, translation: numpy.ndarray, tolerance: float):
    """The atoms to which a map takes the atoms, and the translation that fits them best; None where it is no symmetry."""
    moved = crystal.positions @ matrix.T + translation
    found = nearest(crystal, moved, crystal.numbers) if bins is None else nearest_in_bins(crystal, bins, moved)
    if found is None:
        return None
    atoms, away = found
    mean = away.mean(axis=0)
    if lengths(away - mean, metric_tensor(crystal.lattice)).max() > tolerance or len(set(atoms.tolist())) < len(atoms):
        return None
    return atoms, translation - mean


def signs_of(crystal: Crystal, matrix: numpy.ndarray, atoms: numpy.ndarray, tolerance: float) -> list[int]:
    """The time signs with which a map that takes atom i to atoms[i] keeps the moments."""
    found = []
    for sign in (1, -1):
        carried = crystal.moments @ action(matrix, sign, crystal.kind).T
        if crystal.moment_sizes(crystal.moments[atoms] - carried).max() <= tolerance:
            found.append(sign)
    return found


def rarest(crystal: Crystal) -> numpy.ndarray:
    """The atoms of the species that has the fewest."""
    kinds, counts = numpy.unique(crystal.numbers, return_counts=True)
    return numpy.flatnonzero(crystal.numbers == kinds[numpy.argmin(counts)])


def operations_with(crystal: Crystal, bins: Bins | None, matrix: numpy.ndarray, within: Tolerances) -> Iterator[Near]:
    """The operations of a matrix, each translation once."""
    atoms = rarest(crystal)
    translations = crystal.positions[atoms] - matrix @ crystal.positions[atoms[0]]
    for translation in survivors(crystal, matrix, translations, within.position):
        if (found := matched(crystal, bins, matrix, translation, within.position)) is not None:
            atoms_to, fitted = found
            yield from (Near(matrix, fitted, sign, atoms_to) for sign in signs_of(crystal, matrix, atoms_to, within.moment))


def pure_translations(crystal: Crystal, within: Tolerances) -> list[Near]:
    """The translations that keep a crystal and don't reverse time."""
    found = operations_with(crystal, bins_of(crystal, within.position), numpy.eye(3, dtype=int), within)
    return [near for near in found if near.sign == 1]


def operations(crystal: Crystal, matrices: list[numpy.ndarray], within: Tolerances) -> list[Near]:
    """All operations of a crystal with these matrices. Raises NotExact where a primitive cell has further translations."""
    bins = bins_of(crystal, within.position)
    found = [near for matrix in matrices for near in operations_with(crystal, bins, matrix, within)]
    if len({(tuple(near.matrix.ravel().tolist()), near.sign) for near in found}) < len(found):
        raise NotExact("the translations that hold within symprec are not those of a lattice; take a smaller symprec")
    return found

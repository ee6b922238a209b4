"""From floats to an exact cell, in the open.

The operations that hold within `symprec` are searched, made an exact group, and then the metric tensor is averaged over the
lattice's own symmetry, positions and moments over the group. What the group fixes comes out exactly; what it leaves free is
settled on a grid (settle.py). How far anything moved is told.
"""

from __future__ import annotations

import math
from dataclasses import dataclass
from fractions import Fraction
from typing import Sequence

import numpy

from .cell import Atom, Cell, Kind
from .errors import NotExact
from .exact_numbers import as_fractions, common_denominator, fraction_array, inverse
from .lattice import is_group, key, lattice_symmetries, length_change, lengths, metric_tensor, reduced_basis
from .search import Crystal, Near, Tolerances, action, operations, pure_translations
from .settle import MOST_DENOMINATOR, MOST_MOMENT, FixedSpace, settled, settled_metric, told

PARTS = 24  # translation parts are multiples of 1/24 where the origin is one of the usual ones
MOST_ATOMS = 10**4


@dataclass(frozen=True)
class Exact:
    """An exact cell, and how far it is from the floats that it was made from.

    Attributes:
        cell: the exact cell; its comments tell the changes too
        operations: how many operations of the given cell held within the tolerance, all of which the exact cell has
        length_change: the largest change of the length of an edge or of a diagonal of a face, in the unit of the lattice
        position_change: how far an atom moved at most, likewise
        moment_change: the largest change of a moment, in its unit
    """

    cell: Cell
    operations: int
    length_change: float
    position_change: float
    moment_change: float


# What is given


def crystal_of(lattice, positions, numbers, magmoms, is_axial: bool | None) -> Crystal:
    """The crystal of Spglib's arguments. Raises ValueError for wrong shapes and NotExact for what is no number."""
    axes, places = numpy.array(lattice, dtype=float), numpy.array(positions, dtype=float).reshape(-1, 3)
    count = len(places)
    moments = numpy.zeros((count, 3)) if magmoms is None else numpy.array(magmoms, dtype=float)
    if axes.shape != (3, 3) or len(numbers) != count or moments.shape not in ((count,), (count, 3)):
        raise ValueError("a lattice has shape (3, 3), positions (atoms, 3), and magmoms (atoms,) or (atoms, 3)")
    if not all(numpy.isfinite(given).all() for given in (axes, places, moments)) or not 0 < count <= MOST_ATOMS:
        raise NotExact("there is no atom, or a number that is infinite or none")
    if abs(numpy.linalg.det(axes)) < 1e-12 * numpy.prod(numpy.linalg.norm(axes, axis=1)) or not numpy.linalg.det(axes):
        raise NotExact("the basis vectors lie in one plane")
    is_vector = moments.ndim == 2
    kind = Kind.of(is_vector, is_vector if is_axial is None else bool(is_axial))
    along = moments @ numpy.linalg.inv(axes) if is_vector else numpy.column_stack([moments, numpy.zeros((count, 2))])
    return Crystal(axes, places, numpy.unique(numpy.asarray(numbers), return_inverse=True)[1], along, kind)


# The primitive cell


def check_distances(crystal: Crystal, tolerance: float) -> None:
    """Raises NotExact where two atoms, or two points of the lattice, are within a tolerance of one another."""
    metric = metric_tensor(crystal.lattice)
    if numpy.sqrt(numpy.diag(metric)).min() <= 4 * tolerance:
        raise NotExact("symprec is too large for a lattice of such short vectors")
    away = crystal.positions[:, None, :] - crystal.positions[None, :, :]
    sizes = lengths(away - numpy.rint(away), metric) + numpy.diag(numpy.full(len(away), numpy.inf))
    if sizes.min() <= tolerance:
        first, second = sorted(int(at) for at in numpy.unravel_index(numpy.argmin(sizes), sizes.shape))
        raise NotExact(f"atoms {first + 1} and {second + 1} are within symprec of one another")


def cycle_length(permutation: numpy.ndarray) -> int:
    """How often a permutation is to be done until it leaves the first atom."""
    at, count = int(permutation[0]), 1
    while at:
        at, count = int(permutation[at]), count + 1
    return count


def exact_translations(found: Sequence[Near]) -> tuple[numpy.ndarray, int]:
    """Pure translations as integers, shape (translations, 3), and what they are divided by. Raises NotExact."""
    orders = [cycle_length(near.permutation) for near in found]
    n = math.lcm(*orders)
    parts = [numpy.rint(order * near.translation).astype(int) * (n // order) % n for order, near in zip(orders, found)]
    translations = numpy.array(parts)
    sums = (translations[:, None, :] + translations[None, :, :]) % n
    place = numpy.array([n * n, n, 1])
    if len(numpy.unique(sums.reshape(-1, 3) @ place)) != len(found):
        raise NotExact("the translations that hold within symprec are not those of a lattice; take a smaller symprec")
    return translations, n


def lattice_basis(translations: numpy.ndarray, n: int) -> numpy.ndarray:
    """A basis of the lattice of whole translations and these, as columns of fractions, shape (3, 3)."""
    columns = []
    for axis in range(3):
        whole = [n * int(i == axis) for i in range(3)]
        ahead = [v for v in [*translations.tolist(), whole] if not any(v[:axis]) and v[axis]]
        columns.append(min(ahead, key=lambda v: v[axis]))
    return fraction_array((Fraction(column[row], n) for row in range(3) for column in columns), 3, 3)


@dataclass(frozen=True, eq=False)
class Primitive:
    """The primitive cell in floats: the crystal, its basis in the given axes as columns of fractions, and all given atoms.

    `owners` has for each given atom that of the primitive cell, and `places` its position in the primitive basis.
    """

    crystal: Crystal
    basis: numpy.ndarray
    owners: numpy.ndarray
    places: numpy.ndarray


def primitive_of(given: Crystal, within: Tolerances) -> Primitive:
    """The primitive cell in a reduced basis, its atoms the means of those that pure translations take to one another."""
    first = reduced_basis(given.lattice)
    crystal = given.in_basis(first)
    check_distances(crystal, within.position)
    pure = pure_translations(crystal, within)
    basis = lattice_basis(*exact_translations(pure))
    turn = reduced_basis(basis.astype(float).T @ crystal.lattice)
    basis = as_fractions(basis.dot(turn.astype(object)))
    whole = crystal.in_basis(basis.astype(float))
    labels = numpy.min([near.permutation for near in pure], axis=0)
    atoms, owners = numpy.unique(labels, return_inverse=True)
    away = whole.positions - whole.positions[atoms][owners]
    away -= numpy.rint(away)
    moved, moments = means(away, owners), means(whole.moments, owners)
    part = whole.part(atoms, whole.positions[atoms] + moved, moments)
    return Primitive(part, as_fractions(first.astype(object).dot(basis)), owners, whole.positions)


def means(values: numpy.ndarray, owners: numpy.ndarray) -> numpy.ndarray:
    """The mean of the rows of each owner."""
    sums = numpy.zeros((owners.max() + 1, 3))
    numpy.add.at(sums, owners, values)
    return sums / numpy.bincount(owners)[:, None]


# The group


@dataclass(frozen=True, eq=False)
class Group:
    """An exact group of operations, one for each matrix and sign, around an origin in floats.

    Attributes:
        near: the operations that were found
        translations: integers, shape (operations, 3), in units of 1/n
        n: see above
        origin: positions minus this are those that the operations act on; shape (3,)
    """

    near: tuple[Near, ...]
    translations: numpy.ndarray
    n: int
    origin: numpy.ndarray

    def translation(self, at: int) -> numpy.ndarray:
        """That of an operation, as fractions."""
        return fraction_array((Fraction(int(part), self.n) for part in self.translations[at]), 3)


def in_given_axes(group: Group, basis: numpy.ndarray) -> list[Near]:
    """Those operations whose matrices are of integers in the axes in which the columns of the basis are given."""
    forth, back = basis.astype(float), inverse(basis).astype(float)
    turned = [(near, forth @ near.matrix @ back) for near in group.near]
    return [near for near, matrix in turned if numpy.abs(matrix - numpy.rint(matrix)).max() < 1e-6]


def is_closed(near: Sequence[Near], translations: numpy.ndarray, n: int) -> bool:
    """Whether the products of the operations are among them, modulo whole translations."""
    places = {(key(one.matrix), one.sign): at for at, one in enumerate(near)}
    stack, signs = numpy.array([one.matrix for one in near]), numpy.array([one.sign for one in near])
    for at, one in enumerate(near):
        products = (one.matrix @ stack).reshape(-1, 9).tolist()
        found = [(tuple(row), int(sign)) for row, sign in zip(products, one.sign * signs)]
        if not places.keys() >= set(found):
            return False
        targets = [places[one_key] for one_key in found]
        if ((translations @ one.matrix.T + translations[at] - translations[targets]) % n).any():
            return False
    return True


def exact_group(crystal: Crystal, near: Sequence[Near], within: Tolerances) -> Group:
    """The exact group of the operations that were found. Raises NotExact where they are none.

    The translation parts are multiples of 1/24 where they can be. Else the origin is none of the usual ones: around the
    mean of the translation parts they are multiples of one over the number of the operations.
    """
    count = len(near)
    stack, parts = numpy.array([one.matrix for one in near]), numpy.array([one.translation for one in near])
    centre = parts.mean(axis=0) - stack.mean(axis=0) @ parts.mean(axis=0)
    for n, origin in ((PARTS, numpy.zeros(3)), (count, centre)):
        around = parts - origin + stack @ origin
        translations = numpy.rint(n * around).astype(int) % n
        away = around - translations / n
        sizes = lengths(away - numpy.rint(away), metric_tensor(crystal.lattice))
        if sizes.max() <= 2 * within.position and is_closed(near, translations, n):
            return Group(tuple(near), translations, n, origin)
    raise NotExact("the operations that hold within symprec are not a group; take a smaller or a larger symprec")


# Atoms


def mean_at(crystal: Crystal, group: Group, atom: int) -> tuple[numpy.ndarray, numpy.ndarray]:
    """Position (from the origin of the group) and moment of an atom, averaged over the operations."""
    own = crystal.positions[atom] - group.origin
    moved, moments = numpy.zeros(3), numpy.zeros(3)
    for at, one in enumerate(group.near):
        other = one.permutation[atom]
        back = numpy.linalg.solve(one.matrix, crystal.positions[other] - group.origin - group.translations[at] / group.n)
        moved += back - own - numpy.rint(back - own)
        moments += numpy.linalg.solve(action(one.matrix, one.sign, crystal.kind), crystal.moments[other])
    return own + moved / len(group.near), moments / len(group.near)


def site_of(crystal: Crystal, group: Group, atom: int) -> tuple[FixedSpace, FixedSpace]:
    """The positions and the moments that the operations that keep an atom fix."""
    own = crystal.positions[atom] - group.origin
    keeping = [at for at, one in enumerate(group.near) if one.permutation[atom] == atom]
    matrices = [group.near[at].matrix for at in keeping]
    places = [group.translation(at) for at in keeping]
    whole = [numpy.rint(own - matrix @ own - place.astype(float)) for matrix, place in zip(matrices, places)]
    translations = [place + whole.astype(int).astype(object) for place, whole in zip(places, whole)]
    acting = [action(group.near[at].matrix, group.near[at].sign, crystal.kind) for at in keeping]
    return FixedSpace.of(matrices, translations), FixedSpace.of(acting, [(Fraction(0),) * 3] * len(acting))


@dataclass(frozen=True, eq=False)
class Settled:
    """The atoms of the primitive cell with exact positions and moments, each of shape (3,)."""

    positions: list[numpy.ndarray]
    moments: list[numpy.ndarray]


def settled_atoms(crystal: Crystal, group: Group, size: int) -> Settled:
    """The atoms of the primitive cell, exact; `size` is the denominator of its basis in the given axes."""
    orbits = numpy.min([one.permutation for one in group.near], axis=0)
    firsts = numpy.unique(orbits).tolist()
    sites = [site_of(crystal, group, atom) for atom in firsts]
    values = [mean_at(crystal, group, atom) for atom in firsts]
    most = MOST_DENOMINATOR // size
    needed = group.n if group.origin.any() else least(group)
    positions = settled([site for site, _ in sites], [place for place, _ in values], needed, most)
    largest = max(numpy.abs(moment).max() for _, moment in values)
    moments = settled([site for _, site in sites], [moment for _, moment in values], 1, most_of_moments(largest, most))
    origin = settled_origin(group, positions, most)
    starts = {atom: at for at, atom in enumerate(firsts)}
    found = [carried(group, crystal, atom, starts, orbits, positions, moments) for atom in range(len(orbits))]
    return Settled([place + origin for place, _ in found], [moment for _, moment in found])


def most_of_moments(largest: float, most: int) -> int:
    """The largest denominator, up to `most`, with which moments of this size are within the range of a cell file."""
    return max(1, min(most, int(MOST_MOMENT / (10 * largest + 1))))


def least(group: Group) -> int:
    """The least common denominator of the translation parts of a group."""
    return common_denominator(Fraction(int(part), group.n) for part in group.translations.ravel())


def settled_origin(group: Group, positions: list[tuple[Fraction, ...]], most: int) -> numpy.ndarray:
    """The origin of the group as fractions, on a grid on which the positions are."""
    needed = math.lcm(group.n, *(common_denominator(place) for place in positions))
    grid = max(most // needed, 1) * needed
    return fraction_array((Fraction(round(float(part) * grid), grid) for part in group.origin), 3)


def carried(group: Group, crystal: Crystal, atom: int, starts: dict, orbits, positions, moments):
    """The exact position and moment of an atom, carried from the first atom of its orbit."""
    first = int(orbits[atom])
    at = next(at for at, one in enumerate(group.near) if one.permutation[first] == atom)
    matrix = group.near[at].matrix.astype(object)
    place = matrix.dot(fraction_array(positions[starts[first]], 3)) + group.translation(at)
    acting = action(group.near[at].matrix, group.near[at].sign, crystal.kind).astype(object)
    return place, acting.dot(fraction_array(moments[starts[first]], 3))


# The cell


def atoms_of(given: Crystal, primitive: Primitive, exact: Settled, names: Sequence[str]) -> list[Atom]:
    """All atoms of the given cell, exact, each next to where it was."""
    found = []
    for owner, place, name in zip(primitive.owners.tolist(), primitive.places, names):
        settled_place = exact.positions[owner]
        whole = numpy.rint(place - settled_place.astype(float)).astype(int).astype(object)
        position = primitive.basis.dot(settled_place + whole)
        moment = primitive.basis.dot(exact.moments[owner]) if given.kind.is_vector else exact.moments[owner][:1]
        found.append(Atom(name, tuple(map(Fraction, position)), tuple(map(Fraction, moment))))
    return found


def changes(given: Crystal, cell: Cell) -> tuple[float, float, float]:
    """The largest change of a length, of a position and of a moment."""
    metric = metric_tensor(given.lattice)
    moved = lengths(cell.positions.astype(float) - given.positions, metric).max()
    moments = cell.moments.astype(float)
    if not given.kind.is_vector:
        moments = numpy.column_stack([moments[:, 0], numpy.zeros((len(cell), 2))])
    turned = given.moment_sizes(moments - given.moments).max()
    return length_change(metric, cell.metric_tensor.astype(float)), float(moved), float(turned)


def names_of(numbers, names: Sequence[str] | None) -> list[str]:
    """Names of the atoms: those that are given, or `type1`, `type2` and so on in the order of the numbers."""
    if names is not None:
        if len(names) != len(numbers):
            raise ValueError("there is one name for each atom")
        return list(names)
    return [f"type{at + 1}" for at in numpy.unique(numpy.asarray(numbers), return_inverse=True)[1].tolist()]


def checked(given: Crystal, cell: Cell, count: int, within: Tolerances) -> Exact:
    """The answer. Raises NotExact where something changed by more than the tolerance."""
    length, position, moment = changes(given, cell)
    moved = (("a length", length, within.position), ("a position", position, within.position))
    for what, change, limit in (*moved, ("a moment", moment, within.moment)):
        if change > limit:
            raise NotExact(f"{what} would change by {change:.3g}, more than the tolerance {limit:.3g}")
    line = told(length, position, moment)
    return Exact(Cell(cell.metric, cell.atoms, cell.kind, (line,)), count, length, position, moment)


def exact(
    lattice,
    positions,
    numbers,
    magmoms=None,
    *,
    symprec: float = 1e-5,
    mag_symprec: float | None = None,
    is_axial: bool | None = None,
    names: Sequence[str] | None = None,
) -> Exact:
    """An exact cell from floats, and how far it is from them.

    Args:
        lattice: the basis vectors as rows, in any unit of length, shape (3, 3)
        positions: in units of the axes, shape (atoms, 3)
        numbers: the species, one integer an atom
        magmoms: Cartesian vectors, shape (atoms, 3), or scalars for collinear moments, shape (atoms,); none is 0
        symprec: the tolerance, in the unit of the lattice: how far an atom may be from the image of another
        mag_symprec: how far moments may differ, in their unit; as `symprec` where it is none or negative
        is_axial: whether an inversion leaves moments; as in Spglib true for vectors and false for scalars where it is none
        names: species by names of up to 8 letters and digits, one an atom

    The operations that hold within the tolerances are made an exact group. The metric tensor is averaged over the symmetry
    of the lattice, positions and moments over the group. What these leave free is settled on a grid of decimals where the
    floats are such, and else on the finest that a cell file can hold.

    Raises NotExact where the operations are no group, where anything would change by more than the tolerance, and where a
    cell file can't hold the numbers; ValueError for wrong shapes.

    >>> found = exact([[4, 0, 0], [0, 4.000003, 0], [0, 0, 5]], [[0, 0, 0], [0.5, 0.500001, 0.3]], [1, 2], [[0, 0, 2], [0, 0, 0]])
    >>> found.cell.metric[0] == found.cell.metric[1], found.cell.atoms[1].position[:2]
    (True, (Fraction(1, 2), Fraction(1, 2)))
    """
    given = crystal_of(lattice, positions, numbers, magmoms, is_axial)
    within = Tolerances(symprec, symprec if mag_symprec is None or mag_symprec < 0 else mag_symprec)
    primitive = primitive_of(given, within)
    matrices = lattice_symmetries(primitive.crystal.lattice, symprec)
    if not is_group(matrices):
        raise NotExact("the symmetry of the lattice within symprec is not a group; take a smaller or a larger symprec")
    group = exact_group(primitive.crystal, operations(primitive.crystal, matrices, within), within)
    size = common_denominator(primitive.basis.ravel())
    settled_part = settled_atoms(primitive.crystal, group, size)
    back = inverse(primitive.basis)
    metric = settled_metric(metric_tensor(primitive.crystal.lattice), matrices, back)
    atoms = atoms_of(given, primitive, settled_part, names_of(numbers, names))
    count = len(in_given_axes(group, primitive.basis)) * len(primitive.owners) // len(primitive.crystal.positions)
    return checked(given, Cell(metric, tuple(atoms), given.kind), count, within)

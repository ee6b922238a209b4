"""The crystals of mcif files, exact.

What is done to the numbers of an mcif file, by these rules, is told in the comments of the cell:

- Decimals are taken as they are. A coordinate of three decimals or more that is a third or a sixth, rounded or cut off, is
  taken for it: 0.333, 0.6667, 0.166.
- Angles of 60, 90 and 120 degrees are exact. The metric tensor is averaged over the lattice's own symmetry within
  LATTICE_TOLERANCE, and rounded to as many decimals as a cell file can hold.
- Where the file's operations take an atom to within SITE_TOLERANCE of itself they keep it: its position is averaged over
  them, and so is its moment.
- Moments are divided by the lengths of the axes, exactly where the common denominator is one that a cell file can hold, of
  all or else of those along axes of equal lengths.
- Positions and moments that need a larger common denominator are settled on the finest grid that a cell file can hold.
"""

from __future__ import annotations

import math
from dataclasses import dataclass
from decimal import Decimal
from fractions import Fraction
from typing import Sequence

import numpy

from .cell import Atom, Cell, Kind
from .errors import FileRefused, NotExact
from .exact_numbers import common_denominator, fraction_array
from .lattice import is_group, lattice_symmetries, length_change, lengths, metric_tensor, reduced_basis
from .mcif_tags import PathName, Tags, coordinate_of, decimal_of, tags_of
from .operations import Operation, operation_of
from .search import action
from .settle import MOST_DENOMINATOR, FixedSpace, settled, settled_metric, told

LATTICE_TOLERANCE = 5e-5  # in the unit of the lattice, as all lengths here
SITE_TOLERANCE = 0.01
LENGTH_CHANGE = 0.001
MOMENT_CHANGE = 0.05

AXES = ("a", "b", "c")
ANGLES = (("alpha", 1, 2), ("beta", 0, 2), ("gamma", 0, 1))
COSINES = {Decimal(60): 0.5, Decimal(90): 0.0, Decimal(120): -0.5}


@dataclass(frozen=True)
class Site:
    """An atom of the file: label, species, position, and moment along the axes themselves, in units of moment over length."""

    label: str
    name: str
    position: tuple[Fraction, ...]
    moment: tuple[Fraction, ...]
    told: tuple[str, ...]


@dataclass(frozen=True, eq=False)
class Frame:
    """The exact metric tensor of a file's cell, and its operations.

    Attributes:
        metric: six fractions
        tensor: the metric tensor in floats, shape (3, 3)
        operations: all operations, centring translations included
        length_change: the largest change of the length of an edge or of a diagonal of a face
    """

    metric: tuple[Fraction, ...]
    tensor: numpy.ndarray
    operations: tuple[Operation, ...]
    length_change: float


def lattice_of(tags: Tags) -> numpy.ndarray:
    """Axes of the lengths and angles of a file, as rows."""
    sizes = [float(decimal_of(tags.value(f"_cell_length_{axis}"))) for axis in AXES]
    metric = numpy.diag(numpy.square(sizes))
    for name, i, j in ANGLES:
        angle = decimal_of(tags.value(f"_cell_angle_{name}"))
        cosine = COSINES[angle] if angle in COSINES else math.cos(math.radians(float(angle)))
        metric[i, j] = metric[j, i] = sizes[i] * sizes[j] * cosine
    try:
        return numpy.linalg.cholesky(metric)
    except numpy.linalg.LinAlgError:
        raise FileRefused("the angles of the cell are those of no cell") from None


def exact_metric(lattice: numpy.ndarray) -> tuple[Fraction, ...]:
    """The metric tensor of a lattice, averaged over its own symmetry. Raises FileRefused."""
    basis = reduced_basis(lattice)
    reduced = basis.T @ lattice
    matrices = lattice_symmetries(reduced, LATTICE_TOLERANCE)
    if not is_group(matrices):
        raise FileRefused("the symmetry of the lattice is not a group within the tolerance")
    back = numpy.rint(numpy.linalg.inv(basis)).astype(int)
    try:
        return settled_metric(metric_tensor(reduced), matrices, back)
    except NotExact as reason:
        raise FileRefused(str(reason)) from None


def composed(first: Operation, second: Operation) -> Operation:
    """The operation that does the second and then the first, its translation from 0 to below 1."""
    matrix = numpy.array(first.matrix, dtype=object).reshape(3, 3)
    product = matrix.dot(numpy.array(second.matrix, dtype=object).reshape(3, 3))
    moved = matrix.dot(fraction_array(second.translation, 3)) + fraction_array(first.translation, 3)
    return Operation(tuple(product.ravel().tolist()), tuple(Fraction(x) % 1 for x in moved), first.sign * second.sign)


def operations_of(tags: Tags) -> tuple[Operation, ...]:
    """All operations of a file, each once: its operations and its centring translations. Raises FileRefused."""
    texts = tags.column("_space_group_symop_magn_operation_xyz")
    centrings = tags.column("_space_group_symop_magn_centering_xyz") or ("x,y,z,+1",)
    if not texts:
        raise FileRefused("the file has no magnetic symmetry operations")
    try:
        given, moved = [operation_of(text) for text in texts], [operation_of(text) for text in centrings]
    except ValueError as reason:
        raise FileRefused(str(reason)) from None
    return tuple(dict.fromkeys(composed(centring, operation) for centring in moved for operation in given))


def frame_of(tags: Tags) -> Frame:
    """The exact metric tensor and the operations, which keep it. Raises FileRefused."""
    lattice, operations = lattice_of(tags), operations_of(tags)
    metric = exact_metric(lattice)
    tensor = Cell(metric, ()).metric_tensor
    for matrix in {operation.matrix for operation in operations}:
        entries = numpy.array(matrix, dtype=object).reshape(3, 3)
        if (entries.T.dot(tensor).dot(entries) != tensor).any():
            raise FileRefused("an operation doesn't keep the lengths and angles of the cell")
    floats = tensor.astype(float)
    change = length_change(metric_tensor(lattice), floats)
    if change > LENGTH_CHANGE:
        raise FileRefused(f"a length of the cell would change by {change:.3g}")
    return Frame(metric, floats, operations, change)


def sizes_of(tags: Tags) -> list[Fraction]:
    """The lengths of the axes."""
    return [Fraction(decimal_of(tags.value(f"_cell_length_{axis}"))) for axis in AXES]


def moment_grid(tags: Tags, sites: Sequence[Site]) -> int:
    """A denominator with which moments are exact: all components, or those along axes of equal lengths, or 1.

    Of components along axes of different lengths no operation makes one of another, so these alone have to be exact.
    """
    sizes = sizes_of(tags)
    shared = [at for at in range(3) if sizes.count(sizes[at]) > 1]
    denominators = (common_denominator(site.moment[at] for site in sites for at in some) for some in (range(3), shared))
    return next((denominator for denominator in denominators if denominator <= MOST_DENOMINATOR), 1)


def moments_of(tags: Tags) -> dict[str, tuple[Fraction, ...]]:
    """The moments of a file by the labels of the atoms: those along unit vectors of the axes, over the lengths of these."""
    labels = tags.column("_atom_site_moment_label")
    tried = [(f"_atom_site_moment_crystalaxis_{x}", f"_atom_site_moment_crystalaxis_m{x}") for x in "xyz"]
    columns = [tags.column(*names) for names in tried]
    if labels and not all(columns):
        raise FileRefused("moments are read along the axes of the cell alone")
    sizes = sizes_of(tags)
    rows = (tuple(Fraction(decimal_of(text)) / size for text, size in zip(row, sizes)) for row in zip(*columns))
    return dict(zip(labels, rows))


def species_of(symbol: str) -> str:
    """The letters that a symbol or label begins with, as Mn of Mn3+."""
    name = "".join(letter if letter.isalpha() and letter.isascii() else " " for letter in symbol).split(" ")[0][:8]
    if not name:
        raise FileRefused(f"an atom has no species: {symbol}")
    return name


def sites_of(tags: Tags) -> list[Site]:
    """The atoms of a file. Raises FileRefused."""
    labels = tags.column("_atom_site_label")
    symbols = tags.column("_atom_site_type_symbol") or labels
    columns = [tags.column(f"_atom_site_fract_{x}") for x in "xyz"]
    moments = moments_of(tags)
    if not labels or not all(columns) or not set(moments) <= set(labels):
        raise FileRefused("the file has no atoms with coordinates, or moments of atoms that it doesn't have")
    for label, text in zip(labels, tags.column("_atom_site_occupancy")):
        if text not in (".", "?") and decimal_of(text) != 1:
            raise FileRefused(f"{label} has the occupancy {text}, and a cell has whole atoms alone")
    none = (Fraction(0),) * 3
    rows = zip(labels, symbols, zip(*columns))
    return [site_of(label, species_of(symbol), texts, moments.get(label, none)) for label, symbol, texts in rows]


def site_of(label: str, name: str, texts: Sequence[str], moment: tuple[Fraction, ...]) -> Site:
    """An atom of these coordinates, with what is told of them."""
    position = tuple(coordinate_of(text) for text in texts)
    changed = [(text, x) for text, x in zip(texts, position) if Fraction(decimal_of(text)) != x]
    return Site(label, name, position, moment, tuple(f"{text} of {label} is taken for {x}" for text, x in changed))


# All atoms


def keeping(frame: Frame, site: Site) -> tuple[list[Operation], list[numpy.ndarray]]:
    """The operations that keep a site within the tolerance, and the translations with which they do."""
    own = fraction_array(site.position, 3)
    operations, translations = [], []
    for operation in frame.operations:
        moved = numpy.array(operation.matrix, dtype=object).reshape(3, 3).dot(own) + fraction_array(operation.translation, 3)
        away = numpy.array([float(x) for x in moved - own])
        if lengths(away - numpy.rint(away), frame.tensor) <= SITE_TOLERANCE:
            operations.append(operation)
            translations.append(fraction_array(operation.translation, 3) - numpy.rint(away).astype(int).astype(object))
    return operations, translations


def spaces_of(frame: Frame, site: Site) -> tuple[FixedSpace, FixedSpace]:
    """The positions and the moments that the operations that keep a site fix. Raises FileRefused."""
    operations, translations = keeping(frame, site)
    matrices = [numpy.array(operation.matrix, dtype=int).reshape(3, 3) for operation in operations]
    acting = [action(matrix, operation.sign, Kind.VECTOR_AXIAL) for matrix, operation in zip(matrices, operations)]
    try:
        return FixedSpace.of(matrices, translations), FixedSpace.of(acting, [(Fraction(0),) * 3] * len(acting))
    except NotExact as reason:
        raise FileRefused(f"{site.label}: {reason}") from None


def images(frame: Frame, name: str, position: Sequence[Fraction], moment: Sequence[Fraction]) -> dict[tuple, Atom]:
    """All atoms to which the operations take one, by their positions."""
    own, axial = fraction_array(position, 3), fraction_array(moment, 3)
    found: dict[tuple, Atom] = {}
    for operation in frame.operations:
        matrix = numpy.array(operation.matrix, dtype=int).reshape(3, 3)
        moved = matrix.astype(object).dot(own) + fraction_array(operation.translation, 3)
        place = tuple(Fraction(x) % 1 for x in moved)
        turned = action(matrix, operation.sign, Kind.VECTOR_AXIAL).astype(object).dot(axial)
        found.setdefault(place, Atom(name, place, tuple(map(Fraction, turned))))
    return found


def all_atoms(frame: Frame, sites: Sequence[Site], positions, moments) -> tuple[Atom, ...]:
    """The atoms of all sites. Raises FileRefused where two sites share one."""
    found: dict[tuple, Atom] = {}
    for site, position, moment in zip(sites, positions, moments):
        atoms = images(frame, site.name, position, moment)
        if set(atoms) & set(found):
            raise FileRefused(f"{site.label} stands where another atom does")
        found.update(atoms)
    return tuple(found.values())


def changes_of(frame: Frame, sites: Sequence[Site], positions, moments) -> tuple[float, float]:
    """How far a position moved at most, and the largest change of a moment. Raises FileRefused."""
    moved, turned = 0.0, 0.0
    for site, position, moment in zip(sites, positions, moments):
        away = numpy.array([float(x - y) for x, y in zip(position, site.position)])
        turn = numpy.array([float(x - y) for x, y in zip(moment, site.moment)])
        changed = float(lengths(turn, frame.tensor))
        if changed > MOMENT_CHANGE:
            said = f"the operations that keep {site.label} don't allow its moment"
            raise FileRefused(f"{said}, which would change by {changed:.3g}")
        moved, turned = max(moved, float(lengths(away, frame.tensor))), max(turned, changed)
    return moved, turned


def read_mcif(path: PathName) -> Cell:
    """The cell of an mcif file, expanded to all its atoms, by the rules at the head of this module.

    Moments are along a, b and c of the file; those of the cell are in units of moment over length. Raises FileRefused with
    the reason, and MissingPackage where gemmi is not installed.
    """
    tags = tags_of(path)
    frame, sites = frame_of(tags), sites_of(tags)
    spaces = [spaces_of(frame, site) for site in sites]
    needed = common_denominator(x for operation in frame.operations for x in operation.translation)
    grid = moment_grid(tags, sites)
    try:
        positions = settled([space for space, _ in spaces], [site.position for site in sites], needed, MOST_DENOMINATOR)
        moments = settled([space for _, space in spaces], [site.moment for site in sites], grid, MOST_DENOMINATOR)
    except NotExact as reason:
        raise FileRefused(str(reason)) from None
    moved, turned = changes_of(frame, sites, positions, moments)
    lines = [told(frame.length_change, moved, turned), *(line for site in sites for line in site.told)]
    return Cell(frame.metric, all_atoms(frame, sites, positions, moments), Kind.VECTOR_AXIAL, tuple(lines))

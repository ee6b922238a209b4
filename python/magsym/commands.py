"""The commands of the program on a cell, each with its answer as a frozen dataclass.

A matrix `back` takes coordinates in the given cell to those in its primitive cell, as a column to the right of it; the
columns of its inverse are the primitive basis vectors. Numbers of atoms count from 0, as indices do in Python.
"""

from __future__ import annotations

import json
import os
import tempfile
from contextlib import contextmanager
from dataclasses import dataclass
from fractions import Fraction
from pathlib import Path
from typing import Iterable, Iterator, Union

import numpy

from .cell import Cell
from .errors import NotIdentified
from .exact_numbers import Exact, fraction_array, fraction_of, fractions_of, frozen, integer_array, inverse
from .operations import Operations
from .runner import run

Table = Union[str, "os.PathLike[str]", Iterable["tuple[str, str]"]]


@dataclass(frozen=True, eq=False)
class Primitive:
    """The primitive cell of a crystal, in a Niggli-reduced basis.

    Attributes:
        cell: the primitive cell
        index: how many primitive cells fill the given one
        back: integers, shape (3, 3), of determinant `index`
    """

    cell: Cell
    index: int
    back: numpy.ndarray

    @property
    def basis(self) -> numpy.ndarray:
        """The primitive basis vectors in the given axes, as columns: fractions, shape (3, 3)."""
        return inverse(self.back)


@dataclass(frozen=True, eq=False)
class Dataset:
    """The magnetic type of a crystal, its operations in the primitive cell, and the orbits of its atoms.

    Attributes:
        type: the magnetic type, 1 to 4 for I to IV
        index: how many primitive cells fill the given one
        back: integers, shape (3, 3)
        metric: the six numbers of the metric tensor of the primitive cell, as those of `Cell`
        operations: the operations in the primitive cell
        cell_order: how many operations `symmetry` lists for the given cell
        order: how many operations the primitive cell has
        family_order: how many, where two that differ in time reversal alone count as one
        unprimed_order: how many do not reverse time
        equivalent_atoms: of each atom of the given cell the first that is symmetry-equivalent to it; integers, shape (atoms,)
        site_orders: how many operations the site-symmetry group of each atom has; integers, shape (atoms,)
    """

    type: int
    index: int
    back: numpy.ndarray
    metric: tuple[Fraction, ...]
    operations: Operations
    cell_order: int
    order: int
    family_order: int
    unprimed_order: int
    equivalent_atoms: numpy.ndarray
    site_orders: numpy.ndarray


@dataclass(frozen=True, eq=False)
class Orbit:
    """An orbit of symmetry-equivalent atoms.

    Attributes:
        first: the first atom of it in the given cell
        size: how many atoms of it the primitive cell has
        site: the site-symmetry group of the first, in the basis of the primitive cell
    """

    first: int
    size: int
    site: Operations


@dataclass(frozen=True, eq=False)
class Orbits:
    """Which atoms of a cell are symmetry-equivalent, with site-symmetry groups.

    Attributes:
        equivalent_atoms, site_orders: as those of `Dataset`
        orbits: the orbits, in the order of their first atoms
    """

    equivalent_atoms: numpy.ndarray
    site_orders: numpy.ndarray
    orbits: tuple[Orbit, ...]


@dataclass(frozen=True, eq=False)
class Match:
    """A row of a table whose group the crystal has.

    Attributes:
        row: the number of the row, counted from 1
        name: its name
        matrix: integers, shape (3, 3); coordinates x in the axes of the symbol are matrix · x + origin in the primitive cell
        origin: fractions from 0 to below 1, shape (3,)
    """

    row: int
    name: str
    matrix: numpy.ndarray
    origin: numpy.ndarray


@dataclass(frozen=True, eq=False)
class Identification:
    """The rows of a table whose groups the crystal has, with `back` to the primitive cell; perhaps none."""

    back: numpy.ndarray
    matches: tuple[Match, ...]


@dataclass(frozen=True, eq=False)
class Comparison:
    """All maps that carry one crystal onto another, in the bases of their primitive cells.

    Attributes:
        back: of the first crystal
        other_back: of the second
        maps: isometries with integer matrices, translations from 0 to below 1, and time reversals; none where the
            crystals are not the same
    """

    back: numpy.ndarray
    other_back: numpy.ndarray
    maps: Operations

    @property
    def is_same(self) -> bool:
        """Whether the two are one crystal, up to motions, reflections and time reversal."""
        return len(self.maps) > 0


@dataclass(frozen=True, eq=False)
class AllowedMoments:
    """The moments that the site of an atom allows.

    Attributes:
        name: the species of the atom
        count: how many of them are independent, 0 to 3
        projector: the projector onto them, along the axes of the primitive cell: fractions, shape (3, 3)
    """

    name: str
    count: int
    projector: numpy.ndarray


@dataclass(frozen=True, eq=False)
class Moments:
    """The moments that the sites of a cell allow, one entry for each atom of the given cell, with `back`."""

    back: numpy.ndarray
    sites: tuple[AllowedMoments, ...]


@dataclass(frozen=True, eq=False)
class Filled:
    """The primitive cell in which the atoms of one orbit have the moments that follow from a chosen one, with `back`."""

    back: numpy.ndarray
    cell: Cell


@dataclass(frozen=True, eq=False)
class Standard:
    """The crystal in the basis and with the origin of the symbol of its group.

    Attributes:
        cell: the standard cell
        match: the row of the table that was found first, with the map to the primitive cell
    """

    cell: Cell
    match: Match


# Reading reports


def matrix_of(words: Iterable[str]) -> numpy.ndarray:
    """Nine integers, row by row."""
    return integer_array(map(int, words), 3, 3)


def comment_of(text: str, key: str) -> list[str]:
    """The words of the comment that begins with a key."""
    return next(line.split()[2:] for line in text.splitlines() if line.split()[:2] == ["#", key])


def match_of(words: list[str], entries: list[str]) -> Match:
    """A row: number and name, and nine integers and three fractions."""
    return Match(int(words[0]), words[1], matrix_of(entries[:9]), fraction_array(fractions_of(entries[9:]), 3))


def without_comments(cell: Cell) -> Cell:
    """The cell without the lines on what the program found."""
    return Cell(cell.metric, cell.atoms, cell.kind)


@contextmanager
def file_of(text: str) -> Iterator[str]:
    """The path of a file with a text, while it is wanted."""
    with tempfile.TemporaryDirectory(prefix="magsym-") as folder:
        path = Path(folder) / "given"
        path.write_text(text, encoding="utf-8")
        yield str(path)


def table_text(table: Table) -> str:
    """The text of a table that is given by its path or by pairs of name and Hall symbol."""
    if isinstance(table, (str, os.PathLike)):
        return Path(table).read_text(encoding="utf-8")
    return "".join(f"{name} {symbol}\n" for name, symbol in table)


# The commands


def symmetry(cell: Cell, *, time_reversal: bool = True, skip: int = 0, take: int | None = None) -> Operations:
    """All symmetry operations of a cell, in its own basis and in increasing order.

    Without `time_reversal` those that reverse time are left out. The first `skip` of the list are left out too, and of the
    rest at most `take` are told. Raises CellRefused, and the other subclasses of Refused.

    >>> chain = Cell("1 1 4 0 0 0", [("Ni", "0 0 0", "0 0 1"), ("Ni", "0 0 1/2", "0 0 -1")])
    >>> found = symmetry(chain)
    >>> len(found), found.lines()[-1]
    (32, 'x,y,z+1/2,-1')
    """
    words = ["symmetry"] + ([] if time_reversal else ["--no-time-reversal"]) + (["--skip", str(skip)] if skip else [])
    words += [] if take is None else ["--take", str(take)]
    return Operations.of_lines(run(words, cell.to_text()).text.splitlines())


def primitive(cell: Cell) -> Primitive:
    """The primitive cell, in a Niggli-reduced basis. Raises CellRefused, and the other subclasses of Refused.

    >>> found = primitive(Cell("1 1 1 0 0 0", [("Fe", "0 0 0"), ("Fe", "1/2 1/2 1/2")]))
    >>> found.index, found.cell.metric[0]
    (2, Fraction(3, 4))
    """
    text = run(["primitive"], cell.to_text()).text
    index, back = int(comment_of(text, "index")[0]), matrix_of(comment_of(text, "back"))
    return Primitive(without_comments(Cell.from_text(text)), index, back)


def dataset(cell: Cell) -> Dataset:
    """The magnetic type, the operations of the primitive cell and the orbits. Raises CellRefused and other Refused.

    >>> dataset(Cell("4 5 6 1 1 1", [("Fe", "0 0 0")])).type
    2
    """
    told = json.loads(run(["dataset"], cell.to_text()).text)
    orders = {key: told[key] for key in ("type", "index", "cell_order", "order", "family_order", "unprimed_order")}
    return Dataset(
        back=matrix_of(told["back"].split()),
        metric=fractions_of(told["metric"]),
        operations=Operations.of_lines(told["operations"]),
        equivalent_atoms=frozen(integer_array(told["orbits"], len(cell)) - 1),
        site_orders=integer_array(told["sites"], len(cell)),
        **orders,
    )


def orbits(cell: Cell) -> Orbits:
    """Which atoms are symmetry-equivalent, and their site-symmetry groups. Raises CellRefused and other Refused.

    >>> found = orbits(Cell("1 1 4 0 0 0", [("Ni", "0 0 0", "0 0 1"), ("Ni", "0 0 1/2", "0 0 -1")]))
    >>> found.equivalent_atoms.tolist(), found.orbits[0].size
    ([0, 0], 2)
    """
    lines = [line.split() for line in run(["orbits"], cell.to_text()).text.splitlines()]
    atoms = [words for words in lines if words[0] == "atom"]
    starts = [at for at, words in enumerate(lines) if words[0] == "orbit"] + [len(lines)]
    found = []
    for start, end in zip(starts, starts[1:]):
        words = lines[start]
        site = Operations.of_lines(line[0] for line in lines[start + 1 : end])
        found.append(Orbit(int(words[1]) - 1, int(words[3]), site))
    return Orbits(
        frozen(integer_array((int(words[4]) for words in atoms), len(atoms)) - 1),
        integer_array((int(words[6]) for words in atoms), len(atoms)),
        tuple(found),
    )


def identify(cell: Cell, table: Table) -> Identification:
    """Which groups of a table of Hall symbols the crystal has, with the maps.

    The table is the path of a file, or pairs of name and Hall symbol. No match is an answer too: a row that is left out
    says that no map of a class (docs/FORMATS.md) carries its group. Raises CellRefused, TableRefused and other Refused.

    >>> found = identify(Cell("1 1 1 0 0 0", [("Fe", "0 0 0", "0 0 1")]), [("P4/mmm", "-P 4 2"), ("P4/mm'm'", "-P 4 2!")])
    >>> [match.name for match in found.matches]
    ["P4/mm'm'"]
    """
    with file_of(table_text(table)) as path:
        first, *lines = run(["identify", path], cell.to_text()).text.splitlines()
    rows = [line.split() for line in lines if line != "none"]
    return Identification(matrix_of(first.split()[1:]), tuple(match_of(words[:2], words[2:]) for words in rows))


def compare(cell: Cell, other: Cell) -> Comparison:
    """All maps that carry one crystal onto another: isometries with or without time reversal.

    Species are compared by their names. Raises CellRefused, whose text says where it is the other cell; and other Refused.
    """
    with file_of(other.to_text()) as path:
        first, second, *lines = run(["compare", path], cell.to_text()).text.splitlines()
    maps = Operations.of_lines(line for line in lines if line != "none")
    return Comparison(matrix_of(first.split()[1:]), matrix_of(second.split()[1:]), maps)


def moments(cell: Cell) -> Moments:
    """Which moments the site of each atom allows, under the operations of the crystal with the moments that it has.

    Raises CellRefused and other Refused.
    """
    first, *lines = [line.split() for line in run(["moments"], cell.to_text()).text.splitlines()]
    sites = [AllowedMoments(words[2], int(words[4]), fraction_array(fractions_of(words[5:]), 3, 3)) for words in lines]
    return Moments(matrix_of(first[1:]), tuple(sites))


def fill(cell: Cell, atom: int, moment: Iterable[Exact] | Exact) -> Filled:
    """The primitive cell with a moment at an atom, and at the atoms equivalent to it those to which the operations carry it.

    The atom is an index, from 0, of the given cell. The moment is integers of up to 9 digits: three components along the
    axes of the primitive cell, or one where moments are scalars. Raises NotAllowed where the site doesn't allow it,
    IndexError where there is no such atom, ValueError for a moment of another form, CellRefused and other Refused.
    """
    if not 0 <= atom < len(cell):
        raise IndexError(f"no atom {atom} in a cell of {len(cell)} atoms")
    given = fractions_of(moment) if isinstance(moment, (str, Iterable)) else (fraction_of(moment),)
    given += (Fraction(0),) * (0 if cell.kind.is_vector else 2)
    if len(given) != 3 or any(part.denominator != 1 for part in given):
        raise ValueError("a moment to fill in is three integers, or one for scalars")
    text = run(["fill", str(atom + 1), *map(str, given)], cell.to_text()).text
    return Filled(matrix_of(comment_of(text, "back")), without_comments(Cell.from_text(text)))


def standard(cell: Cell, table: Table | None = None) -> Standard:
    """The crystal in the basis and with the origin of the first row of a table that it matches.

    Without a table it is those of the magnetic space groups; a name that ends with `:` and a word is that of a row in
    further axes (tables/README.md), and then the cell is in these. Raises NotIdentified where no row is matched, TooLarge
    where the cell would be too large for a cell file, CellRefused, TableRefused and other Refused.
    """
    from .groups import both_tables

    with file_of(both_tables() if table is None else table_text(table)) as path:
        text = run(["standard", path], cell.to_text()).text
    if text == "none\n":
        raise NotIdentified("no row of the table is matched")
    return Standard(without_comments(Cell.from_text(text)), match_of(comment_of(text, "row"), comment_of(text, "map")))

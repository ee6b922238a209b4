"""The cell of a crystal with exact numbers, and its text, the cell file of docs/FORMATS.md."""

from __future__ import annotations

import enum
from dataclasses import dataclass, field
from fractions import Fraction
from typing import Any, Iterable, NamedTuple

import numpy

from .errors import CellRefused
from .exact_numbers import fraction_array, fractions_of

# In the metric tensor, the places of a·a, b·b, c·c, b·c, a·c and a·b.
ENTRIES = ((0, 0), (1, 1), (2, 2), (1, 2), (0, 2), (0, 1))
PLACES = (0, 5, 4, 5, 1, 3, 4, 3, 2)


class Kind(enum.Enum):
    """What the moments are: vectors or scalars, and whether an inversion leaves them (axial) or not (plain)."""

    VECTOR_AXIAL = "vector axial"
    VECTOR_PLAIN = "vector plain"
    SCALAR_AXIAL = "scalar axial"
    SCALAR_PLAIN = "scalar plain"

    @property
    def is_vector(self) -> bool:
        return self.value.startswith("vector")

    @property
    def is_axial(self) -> bool:
        return self.value.endswith("axial")

    @classmethod
    def of(cls, is_vector: bool, is_axial: bool) -> "Kind":
        return cls(f"{'vector' if is_vector else 'scalar'} {'axial' if is_axial else 'plain'}")


@dataclass(frozen=True)
class Atom:
    """An atom: species, position in units of the axes, and moment.

    The moment of a vector is three components along the axes a, b and c themselves (m = ma·a + mb·b + mc·c), so those of a
    moment of length m along an axis of length l are m/l; that of a scalar is one number. Without one it is 0.
    """

    name: str
    position: tuple[Fraction, ...]
    moment: tuple[Fraction, ...] = ()

    def __post_init__(self) -> None:
        moment = (self.moment,) if isinstance(self.moment, (int, Fraction)) else self.moment
        object.__setattr__(self, "position", fractions_of(self.position))
        object.__setattr__(self, "moment", fractions_of(moment))
        if len(self.position) != 3 or len(self.moment) not in (0, 1, 3):
            raise ValueError("a position has three coordinates, and a moment three components or one")
        if self.name.split() != [self.name]:
            raise ValueError("the name of a species is one word")


@dataclass(frozen=True)
class Cell:
    """A unit cell with exact numbers, as the program takes it.

    Attributes:
        metric: six fractions, a·a, b·b, c·c, b·c, a·c and a·b, in the square of any unit of length
        atoms: the atoms; given as `Atom`s or as tuples of name, position and, if it has one, moment
        kind: what the moments are
        comments: lines that the text has behind a `#`, as on how floats were made exact; two cells that differ in
            comments alone are equal

    Raises TypeError for a float and ValueError for what is no number, or wrong in number. Whether the metric tensor is
    positive, no two atoms stand at one place and all numbers are within their ranges is judged by the program.

    >>> chain = Cell("1 1 4 0 0 0", [("Ni", "0 0 0", "0 0 1"), ("Ni", "0 0 1/2", "0 0 -1")])
    >>> print(chain.to_text(), end="")
    magcell 1
    metric 1 1 4 0 0 0
    atom Ni 0 0 0 0 0 1
    atom Ni 0 0 1/2 0 0 -1
    end
    >>> Cell.from_text(chain.to_text()) == chain
    True
    """

    metric: tuple[Fraction, ...]
    atoms: tuple[Atom, ...]
    kind: Kind = Kind.VECTOR_AXIAL
    comments: tuple[str, ...] = field(default=(), compare=False)

    def __post_init__(self) -> None:
        given: Iterable[Any] = self.atoms
        atoms = tuple(self.padded(atom if isinstance(atom, Atom) else Atom(*atom)) for atom in given)
        object.__setattr__(self, "metric", fractions_of(self.metric))
        object.__setattr__(self, "atoms", atoms)
        object.__setattr__(self, "comments", tuple(self.comments))
        if len(self.metric) != 6 or any("\n" in comment for comment in self.comments):
            raise ValueError("a metric tensor has six numbers, and a comment is one line")

    def padded(self, atom: Atom) -> Atom:
        """The atom with a moment of as many components as the kind has."""
        components = 3 if self.kind.is_vector else 1
        if len(atom.moment) not in (0, components):
            raise ValueError(f"a moment of the kind {self.kind.value} has {components} components")
        return atom if atom.moment else Atom(atom.name, atom.position, (Fraction(0),) * components)

    def __len__(self) -> int:
        """The number of atoms."""
        return len(self.atoms)

    @property
    def metric_tensor(self) -> numpy.ndarray:
        """The metric tensor as fractions, shape (3, 3)."""
        return fraction_array((self.metric[place] for place in PLACES), 3, 3)

    @property
    def positions(self) -> numpy.ndarray:
        """The positions as fractions, shape (atoms, 3)."""
        return fraction_array((x for atom in self.atoms for x in atom.position), len(self), 3)

    @property
    def moments(self) -> numpy.ndarray:
        """The moments as fractions, shape (atoms, 3) for vectors and (atoms, 1) for scalars."""
        return fraction_array((x for atom in self.atoms for x in atom.moment), len(self), 3 if self.kind.is_vector else 1)

    @property
    def names(self) -> list[str]:
        """The species of the atoms."""
        return [atom.name for atom in self.atoms]

    def axes(self) -> numpy.ndarray:
        """Axes of this metric tensor in floats, as rows, shape (3, 3): a along x, b in the plane of x and y."""
        return numpy.linalg.cholesky(self.metric_tensor.astype(float))

    def to_spglib(self) -> tuple[numpy.ndarray, numpy.ndarray, list[int], numpy.ndarray]:
        """Spglib's tuple in floats: lattice as rows, positions, numbers of species, and moments, Cartesian if vectors."""
        lattice, names = self.axes(), sorted(set(self.names))
        moments = self.moments.astype(float)
        given = moments @ lattice if self.kind.is_vector else moments[:, 0]
        return lattice, self.positions.astype(float), [names.index(name) + 1 for name in self.names], given

    def to_text(self) -> str:
        """The cell file, in the first version that has this kind of moments; moments of 0 are left out."""
        is_first = self.kind is Kind.VECTOR_AXIAL
        lines = ["magcell 1" if is_first else "magcell 2", *(f"# {comment}" for comment in self.comments)]
        lines += [] if is_first else [f"kind {self.kind.value}"]
        lines += [" ".join(["metric", *map(str, self.metric)]), *map(atom_line, self.atoms), "end", ""]
        return "\n".join(lines)

    @classmethod
    def from_text(cls, text: str) -> "Cell":
        """The cell of a cell file.

        Raises CellRefused with the line and the reason where the text is not of the form. Ranges, and atoms at one place,
        are judged by the program.
        """
        lines = [line.split() for line in text.split("\n")]
        if lines[0] not in (["magcell", "1"], ["magcell", "2"]):
            raise CellRefused("not a magcell 1 or 2 file", line=1)
        comments = tuple(line.strip()[1:].strip() for line in text.split("\n") if line.strip().startswith("#"))
        given = [Line(at, words) for at, words in enumerate(lines, 1) if words and not words[0].startswith("#")]
        return cell_of(given[1:], lines[0][1] == "2", comments, len(lines))


class Line(NamedTuple):
    """A line of a cell file: its number from 1, and its words."""

    number: int
    words: list[str]

    def numbers(self, first: int) -> tuple[Fraction, ...]:
        """The numbers from a word on."""
        try:
            return fractions_of(self.words[first:])
        except ValueError:
            raise CellRefused("not a number", line=self.number) from None


def atom_line(atom: Atom) -> str:
    """The line of an atom."""
    return " ".join(["atom", atom.name, *map(str, atom.position), *(map(str, atom.moment) if any(atom.moment) else ())])


def kind_of(lines: list[Line], is_second: bool) -> Kind:
    """The kind of moments that the lines tell."""
    told = [line for line in lines if line.words[0] == "kind"]
    if not told:
        return Kind.VECTOR_AXIAL
    if len(told) > 1:
        raise CellRefused("kind is given twice", line=told[1].number)
    if any(line.words[0] == "atom" and line.number < told[0].number for line in lines):
        raise CellRefused("kind must stand before the atoms", line=told[0].number)
    words = told[0].words[1:]
    default = {"vector": "axial", "scalar": "plain"}
    if not is_second or not 1 <= len(words) <= 2 or words[0] not in default or words[-1] not in {words[0], "axial", "plain"}:
        raise CellRefused("line has no known form", line=told[0].number)
    return Kind.of(words[0] == "vector", (words[1:] or [default[words[0]]]) == ["axial"])


def metric_of(lines: list[Line], last: int) -> tuple[Fraction, ...]:
    """The six numbers of the metric line."""
    told = [line for line in lines if line.words[0] == "metric"]
    if len(told) != 1:
        raise CellRefused("metric is given twice" if told else "metric is missing", line=told[1].number if told else last)
    if len(told[0].words) != 7:
        raise CellRefused("line has no known form", line=told[0].number)
    return told[0].numbers(1)


def atoms_of(lines: list[Line], kind: Kind, last: int) -> list[Atom]:
    """The atoms of the atom lines."""
    told = [line for line in lines if line.words[0] == "atom"]
    if not told:
        raise CellRefused("no atom", line=last)
    lengths = (5, 8 if kind.is_vector else 6)
    for line in told:
        if len(line.words) not in lengths:
            raise CellRefused("line has no known form", line=line.number)
    return [Atom(line.words[1], line.numbers(2)[:3], line.numbers(2)[3:]) for line in told]


def cell_of(lines: list[Line], is_second: bool, comments: Iterable[str], count: int) -> Cell:
    """The cell of the lines behind the first."""
    ends = [at for at, line in enumerate(lines) if line.words == ["end"]]
    if not ends:
        raise CellRefused("end is missing", line=count)
    if ends[0] + 1 < len(lines):
        raise CellRefused("text after end", line=lines[ends[0] + 1].number)
    inner, last = lines[: ends[0]], lines[ends[0]].number
    for line in inner:
        if line.words[0] not in ("metric", "atom", "kind"):
            raise CellRefused("line has no known form", line=line.number)
    kind = kind_of(inner, is_second)
    return Cell(metric_of(inner, last), tuple(atoms_of(inner, kind, last)), kind, tuple(comments))


def metric_entries(tensor: numpy.ndarray) -> tuple:
    """The six numbers of a metric tensor of shape (3, 3)."""
    return tuple(tensor[place] for place in ENTRIES)


"""The magnetic space group of a crystal, by `identify` with the tables of the 1,651 types."""

from __future__ import annotations

import csv
from dataclasses import dataclass
from functools import lru_cache
from pathlib import Path
from types import MappingProxyType
from typing import Mapping

import numpy

from .cell import Cell
from .commands import Match, dataset, file_of, match_of, matrix_of
from .errors import NotIdentified, ProgramNotFound
from .exact_numbers import frozen, inverse
from .runner import TOP, run

TABLES = TOP / "tables"
TYPES = ("I", "II", "III", "IV")

# The order of the point group, for space groups up to each number.
ORDERS = (
    *((1, 1), (9, 2), (46, 4), (74, 8), (82, 4), (122, 8), (142, 16), (146, 3), (161, 6)),
    *((167, 12), (174, 6), (190, 12), (194, 24), (199, 12), (220, 24), (230, 48)),
)


@dataclass(frozen=True, eq=False)
class MagneticSpaceGroup:
    """A magnetic space group, with the map from its BNS axes that shows that a crystal has it.

    Attributes:
        bns_number, og_number: its numbers of the two notations, as `136.499`
        uni_number, litvin_number: its numbers from 1 to 1,651, in the order of UNI and of Litvin
        symbol: the BNS symbol, as `P4_2'/mnm'`
        type: the magnetic type, 1 to 4 for I to IV
        family_number, family_symbol: the space group of all its operations, time reversal left out
        subgroup_number, subgroup_symbol: that of the operations that do not reverse time
        matrix: integers, shape (3, 3); coordinates x in the BNS axes are matrix · x + origin in the primitive cell
        origin: fractions, shape (3,)
        back: integers, shape (3, 3), takes coordinates in the given cell to those in the primitive cell
        axes: the name of the further axes in which it was found (tables/README.md), or an empty text; `matrix` is for the
            BNS axes in either case
    """

    bns_number: str
    og_number: str
    uni_number: int
    litvin_number: int
    symbol: str
    type: int
    family_number: int
    family_symbol: str
    subgroup_number: int
    subgroup_symbol: str
    matrix: numpy.ndarray
    origin: numpy.ndarray
    back: numpy.ndarray
    axes: str

    @property
    def type_name(self) -> str:
        """The magnetic type as I, II, III or IV."""
        return TYPES[self.type - 1]

    @property
    def transformation_matrix(self) -> numpy.ndarray:
        """Takes coordinates in the given cell to those in the BNS axes, with `origin_shift`: fractions, shape (3, 3)."""
        return frozen(inverse(self.matrix).dot(self.back))

    @property
    def origin_shift(self) -> numpy.ndarray:
        """Coordinates in the BNS axes are transformation_matrix · x + origin_shift: fractions from 0 to below 1, shape (3,)."""
        return frozen(-inverse(self.matrix).dot(self.origin) % 1)


def table_path(name: str) -> Path:
    """The path of a file of the tables."""
    path = TABLES / name
    if not path.exists():
        raise ProgramNotFound(f"the tables of magnetic space groups are not beside this package: {path} is missing")
    return path


@lru_cache(maxsize=None)
def both_tables() -> str:
    """The rows of both tables, those in further axes behind the others."""
    return "".join(table_path(f"{name}.table").read_text() for name in ("magnetic_space_groups", "further_axes"))


@lru_cache(maxsize=None)
def rows() -> Mapping[str, Mapping[str, str]]:
    """What the list tells of each group, by BNS number."""
    with open(table_path("magnetic_space_groups.csv"), newline="", encoding="utf-8") as file:
        return MappingProxyType({row["bns"]: row for row in csv.DictReader(file)})


def point_group_order(number: int) -> int:
    """The order of the point group of a space group."""
    return next(order for last, order in ORDERS if number <= last)


@lru_cache(maxsize=None)
def rows_alike(type_number: int, order: int) -> str:
    """The rows of both tables of a magnetic type whose family groups have point groups of this order.

    A crystal has no group of the other rows, and these are soon tried.
    """
    found = []
    for line in both_tables().splitlines():
        row = rows().get(line.partition("_")[0])
        if row and int(row["type"]) == type_number and point_group_order(int(row["family_number"])) == order:
            found.append(line + "\n")
    return "".join(found)


@lru_cache(maxsize=None)
def turns() -> Mapping[str, numpy.ndarray]:
    """By name of further axes the matrix that takes coordinates in the BNS axes to those in these."""
    lines = [line.split() for line in both_tables().splitlines() if line.startswith("# turn ")]
    return MappingProxyType({words[2]: matrix_of(words[3:]) for words in lines})


def group_of(match: Match, back: numpy.ndarray) -> MagneticSpaceGroup:
    """The group of a row that is matched."""
    number, axes = match.name.partition("_")[0], match.name.partition(":")[2]
    row = rows()[number]
    return MagneticSpaceGroup(
        bns_number=number,
        og_number=row["og"],
        uni_number=int(row["uni"]),
        litvin_number=int(row["litvin"]),
        symbol=row["symbol"],
        type=int(row["type"]),
        family_number=int(row["family_number"]),
        family_symbol=row["family_symbol"],
        subgroup_number=int(row["subgroup_number"]),
        subgroup_symbol=row["subgroup_symbol"],
        matrix=frozen(match.matrix.dot(turns()[axes])) if axes else match.matrix,
        origin=match.origin,
        back=back,
        axes=axes,
    )


def bns(cell: Cell) -> MagneticSpaceGroup:
    """The magnetic space group of a crystal.

    That the map takes the group of the row onto that of the crystal is proved; the tables are compared with their sources
    (tables/README.md). Raises NotIdentified where no row is matched, CellRefused and the other subclasses of Refused.

    >>> group = bns(Cell("1 1 1 0 0 0", [("Fe", "0 0 0", "0 0 1")]))
    >>> group.bns_number, group.symbol, group.type_name, group.uni_number
    ('123.345', "P4/mm'm'", 'III', 1005)
    """
    told = dataset(cell)
    order = len({operation.matrix for operation in told.operations})
    for table in (rows_alike(told.type, order), both_tables()):
        with file_of(table) as path:
            first, *lines = run(["identify", path], cell.to_text()).text.splitlines()
        if lines != ["none"]:
            words = lines[0].split()
            return group_of(match_of(words[:2], words[2:]), matrix_of(first.split()[1:]))
    raise NotIdentified("no magnetic space group is found by the maps that are tried")

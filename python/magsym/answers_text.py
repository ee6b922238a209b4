"""Answers as text to read, and as objects of JSON."""

from __future__ import annotations

import enum
from dataclasses import fields, is_dataclass
from fractions import Fraction
from functools import singledispatch
from typing import Any, Iterable

import numpy

from .cell import Cell
from .commands import Comparison, Dataset, Filled, Identification, Match, Moments, Orbits, Primitive, Standard
from .groups import TYPES, MagneticSpaceGroup
from .operations import Operations


def as_json(value: Any) -> Any:
    """An answer as what JSON has: fractions as texts, arrays as lists, operations as lines, dataclasses as objects."""
    if isinstance(value, Operations):
        return value.lines()
    if isinstance(value, Fraction):
        return str(value)
    if isinstance(value, enum.Enum):
        return value.value
    if isinstance(value, numpy.ndarray):
        return as_json(value.tolist())
    if isinstance(value, (list, tuple)):
        return [as_json(entry) for entry in value]
    if is_dataclass(value):
        return {field.name: as_json(getattr(value, field.name)) for field in fields(value)}
    return value


def matrix_text(matrix: numpy.ndarray) -> str:
    """A matrix row by row, as `1 0 0 / 0 1 0 / 0 0 1`."""
    return " / ".join(" ".join(map(str, row)) for row in matrix.tolist())


def row_text(values: Iterable) -> str:
    return " ".join(map(str, values))


def back_line(back: numpy.ndarray) -> str:
    return f"coordinates in the primitive cell: {matrix_text(back)} times those here"


@singledispatch
def as_text(value: Any) -> str:
    """An answer as lines to read."""
    return str(value)


@as_text.register
def _(value: Cell) -> str:
    return value.to_text().rstrip("\n")


@as_text.register
def _(value: Operations) -> str:
    return "\n".join(value.lines())


@as_text.register
def _(value: MagneticSpaceGroup) -> str:
    return "\n".join(
        [
            f"BNS {value.bns_number}  {value.symbol}  type {value.type_name}",
            f"OG {value.og_number}, UNI {value.uni_number}, Litvin {value.litvin_number}",
            f"family group {value.family_number} {value.family_symbol}",
            f"without time reversal {value.subgroup_number} {value.subgroup_symbol}",
            f"coordinates in the BNS axes: {matrix_text(value.transformation_matrix)} times those here"
            f", plus {row_text(value.origin_shift)}",
        ]
    )


@as_text.register
def _(value: Primitive) -> str:
    return "\n".join([f"{value.index} primitive cells fill this one", back_line(value.back), as_text(value.cell)])


@as_text.register
def _(value: Dataset) -> str:
    lines = [
        f"type {TYPES[value.type - 1]}; {value.index} primitive cells fill this one",
        back_line(value.back),
        f"operations: {value.cell_order} here, {value.order} of the primitive cell",
        f"of these {value.unprimed_order} without time reversal, and {value.family_order} of the family group",
        "atoms and the first equivalent to each, from 1: " + row_text(value.equivalent_atoms + 1),
        "orders of site-symmetry groups: " + row_text(value.site_orders),
    ]
    return "\n".join(lines)


@as_text.register
def _(value: Orbits) -> str:
    lines = []
    for orbit in value.orbits:
        atoms = numpy.flatnonzero(value.equivalent_atoms == orbit.first) + 1
        lines.append(f"orbit of atom {orbit.first + 1}: atoms {row_text(atoms)}; {orbit.size} in the primitive cell")
        lines += [f"    {line}" for line in orbit.site.lines()]
    return "\n".join(lines)


@as_text.register
def _(value: Match) -> str:
    taken = f"{matrix_text(value.matrix)} times its own, plus {row_text(value.origin)}"
    return f"row {value.row} {value.name}: coordinates in the primitive cell are {taken}"


@as_text.register
def _(value: Identification) -> str:
    return "\n".join([back_line(value.back), *(map(as_text, value.matches) if value.matches else ["no row is matched"])])


@as_text.register
def _(value: Comparison) -> str:
    said = "the same crystal" if value.is_same else "not the same crystal"
    return "\n".join([f"{said}: {len(value.maps)} maps between the primitive cells", *value.maps.lines()])


@as_text.register
def _(value: Moments) -> str:
    lines = [back_line(value.back)]
    for at, site in enumerate(value.sites, 1):
        lines.append(f"atom {at} {site.name}: {site.count} independent, projector {matrix_text(site.projector)}")
    return "\n".join(lines)


@as_text.register
def _(value: Filled) -> str:
    return "\n".join([back_line(value.back), as_text(value.cell)])


@as_text.register
def _(value: Standard) -> str:
    return "\n".join([as_text(value.match), as_text(value.cell)])

"""Writing mcif files: the cell, its magnetic symmetry operations with centring translations, and one atom of each orbit."""

from __future__ import annotations

import math
from fractions import Fraction
from pathlib import Path
from typing import Iterable, Sequence

import numpy

from .cell import Atom, Cell, Kind
from .commands import symmetry
from .mcif_tags import PathName
from .operations import Operation, Operations, text_of
from .spglib_calls import equivalent_under

ONE = (1, 0, 0, 0, 1, 0, 0, 0, 1)
DIGITS = 12
OPERATION = "_space_group_symop_magn_operation"
CENTRING = "_space_group_symop_magn_centering"


def number_text(value: float | Fraction, digits: int) -> str:
    """A decimal of up to so many digits behind the point, without an exponent."""
    text = f"{float(value):.{digits}f}".rstrip("0").rstrip(".")
    return "0" if text == "-0" else text


def axes_lines(cell: Cell, digits: int) -> list[str]:
    """The lengths and angles of the cell."""
    metric = cell.metric_tensor.astype(float)
    sizes = numpy.sqrt(numpy.diag(metric))
    lines = [f"_cell_length_{axis} {number_text(size, digits)}" for axis, size in zip("abc", sizes)]
    for name, i, j in (("alpha", 1, 2), ("beta", 0, 2), ("gamma", 0, 1)):
        angle = math.degrees(math.acos(metric[i, j] / (sizes[i] * sizes[j])))
        lines.append(f"_cell_angle_{name} {number_text(round(angle, 9), digits)}")
    return lines


def centrings_of(operations: Operations) -> list[Operation]:
    """The pure translations, with and without time reversal; the identity first."""
    pure = [operation for operation in operations if operation.matrix == ONE]
    return sorted(pure, key=lambda one: (one.sign != 1 or any(one.translation), one.translation, -one.sign))


def cosets_of(operations: Operations) -> list[Operation]:
    """One operation of each matrix, the first that does not reverse time where there is one; the identity first."""
    found: dict[tuple[int, ...], Operation] = {}
    for operation in sorted(operations, key=lambda operation: (-operation.sign, operation.translation)):
        found.setdefault(operation.matrix, operation)
    return sorted(found.values(), key=lambda operation: (operation.matrix != ONE, operation.matrix))


def loop(tags: Iterable[str], rows: Iterable[Iterable[str]]) -> list[str]:
    """The lines of a loop."""
    return ["", "loop_", *tags, *(" ".join(row) for row in rows)]


def operation_lines(operations: Operations) -> list[str]:
    """The two loops of operations."""
    lines = []
    for tag, members in ((OPERATION, cosets_of(operations)), (CENTRING, centrings_of(operations))):
        lines += loop([f"{tag}.id", f"{tag}.xyz"], ([str(at), text_of(one)] for at, one in enumerate(members, 1)))
    return lines


def labels_of(atoms: Sequence[Atom]) -> list[str]:
    """A label for each atom: its species, and a number from 1."""
    counts: dict[str, int] = {}
    labels = []
    for atom in atoms:
        counts[atom.name] = counts.get(atom.name, 0) + 1
        labels.append(f"{atom.name}{counts[atom.name]}")
    return labels


def atom_lines(cell: Cell, atoms: Sequence[Atom], digits: int) -> list[str]:
    """The two loops of atoms and of their moments."""
    labels, sizes = labels_of(atoms), numpy.sqrt(numpy.diag(cell.metric_tensor.astype(float)))
    places = ([label, atom.name, *(number_text(x, digits) for x in atom.position)] for label, atom in zip(labels, atoms))
    lines = loop(["_atom_site_label", "_atom_site_type_symbol", *(f"_atom_site_fract_{x}" for x in "xyz")], places)
    rows = [
        [label, *(number_text(float(part) * size, digits) for part, size in zip(atom.moment, sizes))]
        for label, atom in zip(labels, atoms)
        if any(atom.moment)
    ]
    tags = ["_atom_site_moment.label", *(f"_atom_site_moment.crystalaxis_{x}" for x in "xyz")]
    return lines + (loop(tags, rows) if rows else [])


def mcif_text(cell: Cell, name: str = "magsym", *, digits: int = DIGITS) -> str:
    """The text of an mcif file, with the operations that the program finds.

    Numbers are decimals of up to so many digits behind the point. With 12 a cell of decimals, thirds and 24ths is read back as
    it was, and moments to within 10^-6. Raises ValueError where moments are no axial vectors, and what `symmetry` raises.
    """
    if cell.kind is not Kind.VECTOR_AXIAL:
        raise ValueError("an mcif file has moments that are axial vectors")
    operations = symmetry(cell)
    firsts = sorted(set(equivalent_under(cell, operations).tolist()))
    lines = [*(f"# {comment}" for comment in cell.comments), f"data_{name}", "", *axes_lines(cell, digits)]
    atoms = atom_lines(cell, [cell.atoms[at] for at in firsts], digits)
    return "\n".join([*lines, *operation_lines(operations), *atoms, ""])


def write_mcif(cell: Cell, path: PathName, name: str = "magsym", *, digits: int = DIGITS) -> None:
    """Writes an mcif file of a cell, as `mcif_text` has it."""
    Path(path).write_text(mcif_text(cell, name, digits=digits), encoding="utf-8")

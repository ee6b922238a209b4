"""Spglib's two calls for magnetic crystals, with its arguments and the keys, shapes and dtypes of its answers.

What differs: floats are made exact first (`exact`), the operations are those that the exact cell has, and in its order; where
Spglib answers None these calls raise, with the reason. docs/PYTHON.md lists the keys that are absent.
"""

from __future__ import annotations

from typing import Any

import numpy

from .cell import Cell
from .commands import dataset, primitive, symmetry
from .exact_numbers import inverse
from .exactness import Exact, exact
from .groups import bns
from .operations import Operations


class SpglibDictionary(dict):
    """A dictionary whose keys are attributes too, as in later versions of Spglib.

    Attributes:
        exact: the exact cell that the answer is of, and what was changed to make it; not one of the keys
    """

    def __init__(self, exact: Exact, keys: dict[str, Any]):
        super().__init__(keys)
        self.exact = exact

    def __getattr__(self, name: str) -> Any:
        if name in self:
            return self[name]
        raise AttributeError(name)


def made_exact(cell, symprec: float, mag_symprec: float, is_axial: bool | None) -> Exact:
    """The exact cell of Spglib's tuple. Raises TypeError where it has no moments, as Spglib does."""
    if len(cell) < 4 or cell[3] is None:
        raise TypeError("Specify magnetic moments in cell.")
    lattice, positions, numbers, magmoms = cell[:4]
    return exact(lattice, positions, numbers, magmoms, symprec=symprec, mag_symprec=mag_symprec, is_axial=is_axial)


def equivalent_under(cell: Cell, operations: Operations) -> numpy.ndarray:
    """Of each atom the first to which one of the operations takes it: integers, shape (atoms,)."""
    places = {tuple(x % 1 for x in atom.position): at for at, atom in enumerate(cell.atoms)}
    matrices, found = operations.rotations.astype(object), {}
    for at, atom in enumerate(cell.atoms):
        if at not in found:
            moved = matrices.dot(numpy.array(atom.position, dtype=object)) + operations.translations
            images = {tuple(x % 1 for x in image) for image in moved.tolist()}
            found.update({places[image]: at for image in images})
    return numpy.array([found[at] for at in range(len(cell))], dtype="intc")


def spglib_operations(operations: Operations) -> dict[str, numpy.ndarray]:
    """The keys of operations, in Spglib's dtypes."""
    return {
        "rotations": numpy.array(operations.rotations, dtype="intc", order="C"),
        "translations": numpy.array(operations.translations.astype(float), dtype="double", order="C"),
        "time_reversals": numpy.array(operations.time_reversals, dtype="bool"),
    }


def primitive_lattice(back: numpy.ndarray, lattice) -> numpy.ndarray:
    """The basis vectors of the primitive cell as rows, shape (3, 3)."""
    return numpy.array(inverse(back).astype(float).T @ numpy.array(lattice, dtype=float), order="C")


def get_magnetic_symmetry(
    cell,
    symprec: float = 1e-5,
    angle_tolerance: float = -1.0,
    mag_symprec: float = -1.0,
    is_axial: bool | None = None,
    with_time_reversal: bool = True,
) -> SpglibDictionary:
    """The magnetic symmetry operations of a crystal, as `spglib.get_magnetic_symmetry` gives them.

    Args:
        cell: lattice as rows, positions, numbers and magmoms, these Cartesian, shape (atoms, 3), or scalars, shape (atoms,)
        symprec, mag_symprec, is_axial: as of `exact`
        angle_tolerance: is not used; angles are judged by `symprec`
        with_time_reversal: whether operations that reverse time are listed too

    Keys: rotations (intc, shape (operations, 3, 3)), translations (double, (operations, 3)), time_reversals (bool,
    (operations,)), equivalent_atoms (intc, (atoms,)) and primitive_lattice (double, (3, 3)), the basis vectors of the
    primitive cell as rows. The attribute `exact` tells what was changed. Raises NotExact where the floats can't be made
    exact, CellRefused where the program takes no such cell, and TypeError where there are no moments.

    >>> found = get_magnetic_symmetry(([[4, 0, 0], [0, 4, 0], [0, 0, 5]], [[0, 0, 0]], [26], [[0, 0, 2.2]]))
    >>> found["rotations"].shape, int(found["time_reversals"].sum())
    ((16, 3, 3), 8)
    """
    made = made_exact(cell, symprec, mag_symprec, is_axial)
    operations = symmetry(made.cell, time_reversal=with_time_reversal)
    keys = {
        **spglib_operations(operations),
        "equivalent_atoms": equivalent_under(made.cell, operations),
        "primitive_lattice": primitive_lattice(primitive(made.cell).back, cell[0]),
    }
    return SpglibDictionary(made, keys)


def get_magnetic_symmetry_dataset(
    cell,
    is_axial: bool | None = None,
    symprec: float = 1e-5,
    angle_tolerance: float = -1.0,
    mag_symprec: float = -1.0,
) -> SpglibDictionary:
    """The magnetic space group of a crystal with its operations, as `spglib.get_magnetic_symmetry_dataset` gives them.

    Arguments are those of `get_magnetic_symmetry`. Keys: uni_number, msg_type, tensor_rank, n_operations and n_atoms;
    rotations, translations, time_reversals and equivalent_atoms as there; transformation_matrix (double, (3, 3)) and
    origin_shift (double, (3,)), by which coordinates in the BNS axes are transformation_matrix · x + origin_shift; and
    primitive_lattice as there.

    Raises NotIdentified where no magnetic space group is found, and what `get_magnetic_symmetry` raises.

    >>> found = get_magnetic_symmetry_dataset(([[4, 0, 0], [0, 4, 0], [0, 0, 5]], [[0, 0, 0]], [26], [[0, 0, 2.2]]))
    >>> found["uni_number"], found["msg_type"]
    (1005, 3)
    """
    made = made_exact(cell, symprec, mag_symprec, is_axial)
    operations, told, group = symmetry(made.cell), dataset(made.cell), bns(made.cell)
    keys = {
        "uni_number": group.uni_number,
        "msg_type": group.type,
        "tensor_rank": int(made.cell.kind.is_vector),
        "n_operations": len(operations),
        **spglib_operations(operations),
        "n_atoms": len(made.cell),
        "equivalent_atoms": told.equivalent_atoms.astype("intc"),
        "transformation_matrix": numpy.array(group.transformation_matrix.astype(float), order="C"),
        "origin_shift": group.origin_shift.astype(float),
        "primitive_lattice": primitive_lattice(group.back, cell[0]),
    }
    return SpglibDictionary(made, keys)

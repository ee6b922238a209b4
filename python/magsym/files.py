"""Files of crystals: cell files, mcif files, and whatever ASE reads."""

from __future__ import annotations

from pathlib import Path

import numpy

from .cell import Cell
from .errors import FileRefused, MissingPackage
from .exactness import exact
from .mcif import read_mcif
from .mcif_tags import PathName, plain_tag

# Tags that only files of magnetic structures have.
MAGNETIC = ("_space_group_symop_magn_", "_atom_site_moment_")


def read_ase(path: PathName, *, symprec: float = 1e-3, mag_symprec: float | None = None, magmoms=None) -> Cell:
    """The cell of a file that ASE reads (POSCAR, cif and more), made exact by `exact`.

    Moments are those of the file, or `magmoms`: Cartesian vectors, shape (atoms, 3), or scalars, shape (atoms,). Raises
    FileRefused where ASE doesn't read it, NotExact where it can't be made exact, MissingPackage where ASE is not installed.
    """
    try:
        import ase.io
    except ImportError:
        raise MissingPackage("this file is read by ASE: install python3-ase") from None
    try:
        atoms = ase.io.read(str(path))
    except Exception as error:  # ASE's readers raise errors of every kind
        raise FileRefused(f"ASE doesn't read the file: {type(error).__name__}: {error}") from None
    return from_ase(atoms, symprec=symprec, mag_symprec=mag_symprec, magmoms=magmoms)


def from_ase(atoms, *, symprec: float = 1e-3, mag_symprec: float | None = None, magmoms=None) -> Cell:
    """The cell of ASE's `Atoms`, made exact by `exact`, whose arguments and refusals it has."""
    given = moments_of_ase(atoms) if magmoms is None else magmoms
    numbers, names = atoms.get_atomic_numbers(), atoms.get_chemical_symbols()
    within = {"symprec": symprec, "mag_symprec": mag_symprec, "names": names}
    return exact(numpy.array(atoms.cell), atoms.get_scaled_positions(), numbers, given, **within).cell


def moments_of_ase(atoms) -> numpy.ndarray:
    """The moments that ASE has of atoms: those of a calculation where there are any, else the initial ones.

    Without moments the crystal is one whose vectors are 0.
    """
    try:
        moments = numpy.array(atoms.get_magnetic_moments(), dtype=float)
    except Exception:  # no calculation, or one without moments
        moments = numpy.array(atoms.get_initial_magnetic_moments(), dtype=float)
    return moments if moments.any() else numpy.zeros((len(atoms), 3))


def read(path: PathName, *, symprec: float = 1e-3, mag_symprec: float | None = None, magmoms=None) -> Cell:
    """The cell of a file: a cell file, an mcif file, or any that ASE reads.

    A file that begins with `magcell` is a cell file, one with magnetic symmetry operations or moments of CIF is read by
    `read_mcif`, and any other by `read_ase`, for which the tolerances and `magmoms` are. Raises CellRefused for a cell file,
    and what these raise.
    """
    try:
        text = Path(path).read_text(encoding="utf-8", errors="replace")
    except OSError as error:
        raise FileRefused(f"{path}: {error.strerror}") from None
    if text.startswith("magcell"):
        return Cell.from_text(text)
    if any(tag in plain_tag(text) for tag in MAGNETIC):
        return read_mcif(path)
    return read_ase(path, symprec=symprec, mag_symprec=mag_symprec, magmoms=magmoms)

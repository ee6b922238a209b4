#!/usr/bin/python3
"""Writes the mcif files of this folder, from the few numbers of each structure below.

Lengths (in ångström), free coordinates and moments (in Bohr magnetons, along unit vectors of the axes) are rounded numbers of
the size that these compounds have; they are no data of any measurement. What matters is the arrangement: the space group, the
positions, and the directions of the moments. The operations in the files are those that the program finds.

Run it from anywhere, once the program is built; it wants python3-numpy and python3-gemmi.
"""

from __future__ import annotations

import sys
import tempfile
from dataclasses import dataclass
from fractions import Fraction
from pathlib import Path
from typing import Callable

HERE = Path(__file__).resolve().parent
sys.path.insert(0, str(HERE.parent))

import magsym  # noqa: E402
from magsym.operations import Operations  # noqa: E402
from magsym.runner import run  # noqa: E402

Position = tuple[Fraction, ...]
Moments = Callable[[str, Position], tuple[float, float, float]]
NONE = (0.0, 0.0, 0.0)
DIGITS = 4


@dataclass(frozen=True)
class Structure:
    """A structure: what it is, lengths and angles, the Hall symbol of the space group without moments, atoms, moments."""

    told: str
    axes: str
    symbol: str
    atoms: tuple[tuple[str, str], ...]
    moments: Moments


def place(x: str, y: str, z: str) -> Position:
    return Fraction(x) % 1, Fraction(y) % 1, Fraction(z) % 1


def along(vector: tuple[float, float, float], sign: int) -> tuple[float, float, float]:
    return tuple(sign * part for part in vector)


def on(name: str, signs: dict[Position, int], vector: tuple[float, float, float]) -> Moments:
    """Moments along one direction, of the signs of some positions of a species."""
    return lambda species, at: along(vector, signs.get(at, 0)) if species == name else NONE


def by_position(moments: dict[Position, tuple[float, float, float]]) -> Moments:
    """Moments at some positions."""
    return lambda species, at: moments.get(at, NONE)


def all_of(name: str, vector: tuple[float, float, float]) -> Moments:
    """One moment at all atoms of a species: a ferromagnet."""
    return lambda species, at: vector if species == name else NONE


def centred(signs: dict[str, int], centrings: list[Position]) -> dict[Position, int]:
    """The signs of atoms at 0, 0, z by z, carried on by centring translations."""
    return {
        tuple((x + t) % 1 for x, t in zip((Fraction(0), Fraction(0), Fraction(z)), centring)): sign
        for z, sign in signs.items()
        for centring in centrings
    }


RHOMBOHEDRAL = [place("0", "0", "0"), place("2/3", "1/3", "1/3"), place("1/3", "2/3", "2/3")]
BODY = [place("0", "0", "0"), place("1/2", "1/2", "1/2")]
NICKEL = {
    place("0", "0", "0"): 1,
    place("2/3", "1/3", "1/6"): -1,
    place("1/3", "2/3", "1/3"): 1,
    place("0", "0", "1/2"): -1,
    place("2/3", "1/3", "2/3"): 1,
    place("1/3", "2/3", "5/6"): -1,
}
KAGOME = {
    place("0.839", "1.678", "1/4"): (3.0, 0.0, 0.0),
    place("-1.678", "-0.839", "1/4"): (-3.0, -3.0, 0.0),
    place("0.839", "-0.839", "1/4"): (0.0, 3.0, 0.0),
    place("-0.839", "-1.678", "3/4"): (3.0, 0.0, 0.0),
    place("1.678", "0.839", "3/4"): (-3.0, -3.0, 0.0),
    place("-0.839", "0.839", "3/4"): (0.0, 3.0, 0.0),
}

STRUCTURES = {
    "MnF2": Structure(
        "MnF2, structure of rutile: moments along c, opposite on the two Mn",
        "4.87 4.87 3.31 90 90 90",
        "-P 4n 2n",
        (("Mn", "0 0 0"), ("F", "0.305 0.305 0")),
        on("Mn", {place("0", "0", "0"): 1, place("1/2", "1/2", "1/2"): -1}, (0.0, 0.0, 4.6)),
    ),
    "NiO": Structure(
        "NiO, structure of NaCl in hexagonal axes, c twice as long: planes of parallel moments, opposite from plane to plane",
        "2.956 2.956 14.48 90 90 120",
        "P 1",
        tuple(("Ni", " ".join(map(str, at))) for at in NICKEL)
        + tuple(("O", f"{x} {y} {(z + Fraction(1, 4)) % 1}") for x, y, z in NICKEL),
        on("Ni", NICKEL, (1.1, 2.2, 0.0)),
    ),
    "LaMnO3": Structure(
        "LaMnO3, orthorhombic perovskite: moments along a, planes across b opposite to one another",
        "5.75 7.69 5.54 90 90 90",
        "-P 2ac 2n",
        (("La", "0.049 0.25 0.992"), ("Mn", "0 0 0.5"), ("O", "0.489 0.25 0.073"), ("O", "0.301 0.038 0.726")),
        on(
            "Mn",
            {place("0", "0", "1/2"): 1, place("1/2", "0", "0"): 1, place("0", "1/2", "1/2"): -1, place("1/2", "1/2", "0"): -1},
            (3.7, 0.0, 0.0),
        ),
    ),
    "Mn3Sn": Structure(
        "Mn3Sn, structure of Ni3Sn: three moments at 120 degrees, turning against the threefold axis",
        "5.67 5.67 4.53 90 90 120",
        "-P 6c 2c",
        (("Mn", "0.839 1.678 0.25"), ("Sn", "1/3 2/3 0.25")),
        by_position(KAGOME),
    ),
    "Fe2O3": Structure(
        "Fe2O3, hematite below the Morin transition: moments along c, + - - + along the threefold axis",
        "5.04 5.04 13.75 90 90 120",
        '-R 3 2"c',
        (("Fe", "0 0 0.355"), ("O", "0.306 0 0.25")),
        on("Fe", centred({"0.145": 1, "0.355": -1, "0.645": -1, "0.855": 1}, RHOMBOHEDRAL), (0.0, 0.0, 4.9)),
    ),
    "Cr2O3": Structure(
        "Cr2O3, eskolaite: moments along c, + - + - along the threefold axis",
        "4.96 4.96 13.59 90 90 120",
        '-R 3 2"c',
        (("Cr", "0 0 0.348"), ("O", "0.306 0 0.25")),
        on("Cr", centred({"0.152": 1, "0.348": -1, "0.652": 1, "0.848": -1}, RHOMBOHEDRAL), (0.0, 0.0, 2.5)),
    ),
    "CuMnAs": Structure(
        "CuMnAs, tetragonal: moments along a, opposite on the two Mn, which the inversion exchanges",
        "3.82 3.82 6.32 90 90 90",
        "-P 4a 2a",
        (("Cu", "0.75 0.25 0"), ("Mn", "0.25 0.25 0.33"), ("As", "0.25 0.25 0.734")),
        on("Mn", {place("1/4", "1/4", "0.33"): 1, place("3/4", "3/4", "0.67"): -1}, (3.6, 0.0, 0.0)),
    ),
    "MnTe": Structure(
        "MnTe, structure of NiAs: moments across a in the plane, opposite from plane to plane",
        "4.15 4.15 6.71 90 90 120",
        "-P 6c 2c",
        (("Mn", "0 0 0"), ("Te", "1/3 2/3 0.25")),
        on("Mn", {place("0", "0", "0"): 1, place("0", "0", "1/2"): -1}, (2.77, 5.54, 0.0)),
    ),
    "Mn3Ir": Structure(
        "Mn3Ir, structure of Cu3Au: three moments at 120 degrees in the plane (111)",
        "3.78 3.78 3.78 90 90 90",
        "-P 4 2 3",
        (("Ir", "0 0 0"), ("Mn", "0.5 0.5 0")),
        by_position(
            {
                place("1/2", "1/2", "0"): (1.06, 1.06, -2.12),
                place("1/2", "0", "1/2"): (1.06, -2.12, 1.06),
                place("0", "1/2", "1/2"): (-2.12, 1.06, 1.06),
            }
        ),
    ),
    "EuO": Structure(
        "EuO, structure of NaCl: a ferromagnet, moments along [111]",
        "5.14 5.14 5.14 90 90 90",
        "-F 4 2 3",
        (("Eu", "0 0 0"), ("O", "0.5 0.5 0.5")),
        all_of("Eu", (4.04, 4.04, 4.04)),
    ),
    "Fe": Structure(
        "Iron, body-centred: a ferromagnet, moments along c",
        "2.87 2.87 2.87 90 90 90",
        "-I 4 2 3",
        (("Fe", "0 0 0"),),
        all_of("Fe", (0.0, 0.0, 2.2)),
    ),
    "Co": Structure(
        "Cobalt, hexagonal close packing: a ferromagnet, moments along c",
        "2.51 2.51 4.07 90 90 120",
        "-P 6c 2c",
        (("Co", "1/3 2/3 0.25"),),
        all_of("Co", (0.0, 0.0, 1.7)),
    ),
    "Mn2Au": Structure(
        "Mn2Au, structure of MoSi2: moments along [110], opposite on the two Mn, which the inversion exchanges",
        "3.33 3.33 8.54 90 90 90",
        "-I 4 2",
        (("Mn", "0 0 0.334"), ("Au", "0 0 0")),
        on("Mn", centred({"0.334": 1, "0.666": -1}, BODY), (2.8, 2.8, 0.0)),
    ),
    "UO2": Structure(
        "UO2, structure of CaF2: moments along the four diagonals of the cube, three waves at once, each transverse",
        "5.47 5.47 5.47 90 90 90",
        "-F 4 2 3",
        (("U", "0 0 0"), ("O", "0.25 0.25 0.25")),
        by_position(
            {
                place("0", "0", "0"): (1.0, 1.0, 1.0),
                place("0", "1/2", "1/2"): (-1.0, 1.0, -1.0),
                place("1/2", "0", "1/2"): (-1.0, -1.0, 1.0),
                place("1/2", "1/2", "0"): (1.0, -1.0, -1.0),
            }
        ),
    ),
}


def orbit(operations: Operations, position: str) -> list[Position]:
    """All positions to which operations take one, from 0 to below 1."""
    own = [Fraction(x) for x in position.split()]
    found = {}
    for matrix, translation, _ in operations:
        image = tuple((sum(matrix[3 * i + j] * own[j] for j in range(3)) + translation[i]) % 1 for i in range(3))
        found.setdefault(image, None)
    return list(found)


def all_atoms_text(structure: Structure) -> str:
    """An mcif file of all atoms, with the identity as its one operation."""
    operations = Operations.of_lines(run(["hall", structure.symbol]).text.splitlines())
    atoms = [(name, at) for name, position in structure.atoms for at in orbit(operations, position)]
    names = [f"_cell_length_{x}" for x in "abc"] + [f"_cell_angle_{x}" for x in ("alpha", "beta", "gamma")]
    lines = ["data_all", *(f"{name} {value}" for name, value in zip(names, structure.axes.split()))]
    lines += ["loop_", "_space_group_symop_magn_operation.xyz", "x,y,z,+1", "loop_", "_atom_site_label", "_atom_site_type_symbol"]
    lines += [f"_atom_site_fract_{x}" for x in "xyz"]
    lines += [f"{name}{at} {name} " + " ".join(f"{float(x):.12f}" for x in place) for at, (name, place) in enumerate(atoms)]
    lines += ["loop_", "_atom_site_moment.label", *(f"_atom_site_moment.crystalaxis_{x}" for x in "xyz")]
    lines += [f"{name}{at} " + " ".join(map(str, structure.moments(name, place))) for at, (name, place) in enumerate(atoms)]
    return "\n".join([*lines, ""])


def file_text(name: str, structure: Structure) -> str:
    """The text of the file of a structure."""
    with tempfile.TemporaryDirectory() as folder:
        path = Path(folder) / "all.mcif"
        path.write_text(all_atoms_text(structure))
        cell = magsym.read_mcif(path)
    told = (structure.told, "Lengths, free coordinates and moments are rounded; they are no data of any measurement.")
    return magsym.mcif_text(magsym.Cell(cell.metric, cell.atoms, cell.kind, told), name, digits=DIGITS)


def main() -> None:
    for name, structure in STRUCTURES.items():
        (HERE / f"{name}.mcif").write_text(file_text(name, structure), encoding="utf-8")


if __name__ == "__main__":
    main()

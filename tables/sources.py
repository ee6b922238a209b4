"""The two databases of magnetic space groups that the table is made from and compared with.

ISO-MAG comes with pymatgen as a file of SQLite, of which each group gives

    BNS_symops   six numbers an operation: the number of its matrix, three numbers and their divisor, which are the
                 translation part, and the time sign
    BNS_lattice  four numbers a translation: three numbers and their divisor

Spglib gives its own groups by their UNI numbers, and 530 Hall symbols of the settings of the 230 space groups.
"""
import importlib.util
import sqlite3
from array import array
from importlib import metadata
from pathlib import Path
from typing import NamedTuple

try:
    import numpy
    import spglib
except ImportError:
    spglib = None


class NotInstalled(Exception):
    """A package of Debian that this Python doesn't find."""

    def __init__(self, package):
        super().__init__(f"{package} is not installed for this Python")


class Group(NamedTuple):
    """A magnetic space group: its BNS and OG numbers as texts, and the operations modulo whole translations."""

    bns: str
    og: str
    litvin: int
    symbol: str
    type: int
    operations: frozenset

    @property
    def name(self):
        return f"{self.bns}_{self.symbol}"

    @property
    def space_group(self):
        """The first part of the BNS number: the family group, or the maximal space subgroup in type IV."""
        return int(self.bns.split(".")[0])

    @property
    def family(self):
        """Matrices and translation parts of all operations."""
        return {(matrix, translation) for matrix, translation, _ in self.operations}

    @property
    def subgroup(self):
        """Matrices and translation parts of the operations that do not reverse time."""
        return {(matrix, translation) for matrix, translation, sign in self.operations if sign == 1}


def in_twelfths(numbers, divisor):
    if any(12 * number % divisor for number in numbers):
        raise ValueError(f"no twelfths: {numbers} / {divisor}")
    return tuple(12 * number // divisor % 12 for number in numbers)


def pieces(blob, size):
    """The bytes of a field, as signed numbers, so many at a time."""
    numbers = array("b", blob).tolist()
    return [numbers[i : i + size] for i in range(0, len(numbers), size)]


# ISO-MAG


def iso_mag_file():
    found = importlib.util.find_spec("pymatgen")
    for folder in found.submodule_search_locations if found else []:
        path = Path(folder) / "symmetry" / "symm_data_magnetic.sqlite"
        if path.exists():
            return path
    raise NotInstalled("python3-pymatgen")


def iso_mag_version():
    return metadata.version("pymatgen")


def matrices_of(database):
    """The matrices by their numbers, from 1, and by whether the axes are hexagonal."""
    rows = database.execute("select idx, hex, matrix from point_operators")
    return {(number + 1, bool(is_hexagonal)): tuple(map(int, text.split(","))) for number, is_hexagonal, text in rows}


def operations_of(matrices, is_hexagonal, operations, lattice):
    """All products of an operation and a translation."""
    translations = {in_twelfths(vector, divisor) for *vector, divisor in pieces(lattice, 4)}
    found = set()
    for number, *part, divisor, sign in pieces(operations, 6):
        at = in_twelfths(part, divisor)
        for translation in translations:
            moved = tuple((a + b) % 12 for a, b in zip(at, translation))
            found.add((matrices[number, is_hexagonal], moved, sign))
    return frozenset(found)


def iso_mag():
    """The groups of ISO-MAG, in ascending order of their BNS numbers."""
    database = sqlite3.connect(f"{iso_mag_file().as_uri()}?mode=ro", uri=True)
    matrices = matrices_of(database)
    columns = "BNS1, BNS2, OG1, OG2, OG3, BNS_label, magtype, BNS_symops, BNS_lattice"
    found = []
    for row in database.execute(f"select {columns} from space_groups order by BNS1, BNS2"):
        bns1, bns2, og1, og2, og3, symbol, kind, operations, lattice = row
        members = operations_of(matrices, 143 <= bns1 <= 194, operations, lattice)
        found.append(Group(f"{bns1}.{bns2}", f"{og1}.{og2}.{og3}", og3, symbol, kind, members))
    database.close()
    return found


# Spglib


def needs_spglib():
    if spglib is None:
        raise NotInstalled("python3-spglib")


def spglib_version():
    needs_spglib()
    return spglib.__version__


def rounded(translation):
    """A translation of floating point in twelfths."""
    twelfths = [round(12 * float(number)) for number in translation]
    if any(abs(12 * float(number) - whole) > 1e-4 for number, whole in zip(translation, twelfths)):
        raise ValueError(f"no twelfths: {translation}")
    return tuple(whole % 12 for whole in twelfths)


def spglib_operations(found):
    matrices = [tuple(int(entry) for entry in matrix.ravel()) for matrix in found["rotations"]]
    translations = [rounded(translation) for translation in found["translations"]]
    signs = [-1 if reverses else 1 for reverses in found.get("time_reversals", [0] * len(matrices))]
    return frozenset(zip(matrices, translations, signs))


def spglib_numbers(uni):
    """The BNS, OG and Litvin numbers and the magnetic type of a UNI number."""
    needs_spglib()
    found = spglib.get_magnetic_spacegroup_type(uni)
    return found["bns_number"], found["og_number"], found["litvin_number"], found["type"]


def uni_numbers():
    """The UNI numbers by BNS numbers."""
    return {spglib_numbers(uni)[0]: uni for uni in range(1, 1652)}


def spglib_group(uni):
    """Spglib's magnetic space group of a UNI number."""
    needs_spglib()
    return spglib_operations(spglib.get_magnetic_symmetry_from_database(uni))


def hall_symbols():
    """Spglib's Hall symbols, in the order of their Hall numbers from 1."""
    needs_spglib()
    return [spglib.get_spacegroup_type(number)["hall_symbol"] for number in range(1, 531)]


def space_group(hall_number):
    """Spglib's space group in the setting of a Hall number."""
    needs_spglib()
    return spglib_operations(spglib.get_symmetry_from_database(hall_number))


def space_group_number(members):
    """The number of a space group, found by Spglib from its matrices and translation parts."""
    needs_spglib()
    ordered = sorted(members)
    matrices = numpy.array([matrix for matrix, _ in ordered], dtype="intc").reshape(-1, 3, 3)
    translations = numpy.array([translation for _, translation in ordered], dtype="double") / 12
    return spglib.get_spacegroup_type_from_symmetry(matrices, translations)["number"]

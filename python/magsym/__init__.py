"""magsym: exact magnetic symmetry of crystals, in front of the proved program of that name.

    import magsym

    cell = magsym.read("MnF2.mcif")            # or a Cell with exact numbers, or magsym.exact(..) from floats
    magsym.bns(cell).bns_number                # '136.499'
    magsym.symmetry(cell).rotations            # integers, shape (operations, 3, 3)

Those who call Spglib today can write `import magsym as spglib` for `get_magnetic_symmetry` and
`get_magnetic_symmetry_dataset`. docs/PYTHON.md has all calls.
"""

from .cell import Atom, Cell, Kind
from .commands import (
    AllowedMoments,
    Comparison,
    Dataset,
    Filled,
    Identification,
    Match,
    Moments,
    Orbit,
    Orbits,
    Primitive,
    Standard,
    compare,
    dataset,
    fill,
    identify,
    moments,
    orbits,
    primitive,
    standard,
    symmetry,
)
from .errors import (
    CellRefused,
    FileRefused,
    MagsymError,
    MemoryWanting,
    MissingPackage,
    NotAllowed,
    NotExact,
    NotIdentified,
    ProgramFailed,
    ProgramNotFound,
    ReadingFailed,
    Refused,
    TableRefused,
    TooLarge,
    WordsRefused,
    WritingFailed,
)
from .exactness import Exact, exact
from .files import from_ase, read, read_ase
from .groups import MagneticSpaceGroup, bns
from .many import map
from .mcif import read_mcif
from .mcif_text import mcif_text, write_mcif
from .operations import Operation, Operations
from .picture import plot
from .runner import program
from .spglib_calls import get_magnetic_symmetry, get_magnetic_symmetry_dataset

__all__ = [
    "AllowedMoments",
    "Atom",
    "bns",
    "Cell",
    "CellRefused",
    "compare",
    "Comparison",
    "Dataset",
    "dataset",
    "Exact",
    "exact",
    "FileRefused",
    "fill",
    "Filled",
    "from_ase",
    "get_magnetic_symmetry",
    "get_magnetic_symmetry_dataset",
    "Identification",
    "identify",
    "Kind",
    "MagneticSpaceGroup",
    "MagsymError",
    "map",
    "Match",
    "mcif_text",
    "MemoryWanting",
    "MissingPackage",
    "Moments",
    "moments",
    "NotAllowed",
    "NotExact",
    "NotIdentified",
    "Operation",
    "Operations",
    "Orbit",
    "Orbits",
    "orbits",
    "plot",
    "Primitive",
    "primitive",
    "program",
    "ProgramFailed",
    "ProgramNotFound",
    "read",
    "read_ase",
    "read_mcif",
    "ReadingFailed",
    "Refused",
    "Standard",
    "standard",
    "symmetry",
    "TableRefused",
    "TooLarge",
    "WordsRefused",
    "write_mcif",
    "WritingFailed",
]

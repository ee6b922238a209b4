"""What can go wrong, one exception for each cause."""

from __future__ import annotations


class MagsymError(Exception):
    """The class of all exceptions of this package."""


class ProgramNotFound(MagsymError):
    """The built program is neither named by MAGSYM, nor beside the package, nor on the path."""


class MissingPackage(MagsymError, ImportError):
    """A package that a call needs is not installed; the text names the package of Debian."""


class NotExact(MagsymError):
    """Numbers of floating point that can't be made exact within the tolerance; the text says why."""


class NotIdentified(MagsymError):
    """No row of the tables of magnetic space groups is matched.

    That says that none is matched by a map of the class that is tried (docs/FORMATS.md), not that the crystal has none.
    """


class FileRefused(MagsymError):
    """A file that has no crystal of whole atoms in it, or none that can be read; the text says why."""


class Refused(MagsymError):
    """The program refused what it was given.

    Attributes:
        reason: the cause in words, as the program tells it
        status: the exit status of the program, or None where the cell was refused before it ran
        line: the line of the cell file, counted from 1, or the row of the table; None where no line is the cause
    """

    def __init__(self, reason: str, status: int | None = None, line: int | None = None):
        super().__init__(reason, status, line)
        self.reason, self.status, self.line = reason, status, line

    def __str__(self) -> str:
        return self.reason if self.line is None else f"line {self.line}: {self.reason}"


class NotAllowed(Refused):
    """The site of the atom doesn't allow this moment (status 1 of `fill`)."""


class WordsRefused(Refused):
    """The words ask for nothing that this program has (status 2), as a command that it was built without."""


class CellRefused(Refused):
    """The cell breaks a rule of the cell file (status 3)."""


class TableRefused(Refused):
    """A Hall symbol, or a row of a table of them, has a fault (status 4)."""


class ReadingFailed(Refused):
    """The program could not read its input or a file (status 5)."""


class WritingFailed(Refused):
    """The program could not write its answer (status 6)."""


class MemoryWanting(Refused):
    """The program had too little memory (status 7)."""


class TooLarge(Refused):
    """The standard cell is too large for a cell file (status 8)."""


class ProgramFailed(Refused):
    """The program ended in a way that it has no status for, as by a signal."""


BY_STATUS: dict[int, type[Refused]] = {
    1: NotAllowed,
    2: WordsRefused,
    3: CellRefused,
    4: TableRefused,
    5: ReadingFailed,
    6: WritingFailed,
    7: MemoryWanting,
    8: TooLarge,
}

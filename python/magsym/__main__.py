"""The command line: python3 -m magsym COMMAND FILE, with any file that `magsym.read` reads.

Atoms count from 1 here, as in the reports of the program.
"""

from __future__ import annotations

import argparse
import json
import sys
from typing import Any, Callable

from . import commands, groups
from .answers_text import as_json, as_text
from .cell import Cell
from .errors import MagsymError
from .files import read
from .mcif_text import mcif_text
from .picture import plot

Call = Callable[[Cell, argparse.Namespace], Any]

# By command: what it tells, what it does, and its further words.
COMMANDS: dict[str, tuple[str, Call, tuple[tuple[str, dict], ...]]] = {
    "bns": ("the magnetic space group", lambda cell, given: groups.bns(cell), ()),
    "symmetry": ("all symmetry operations", lambda cell, given: commands.symmetry(cell), ()),
    "primitive": ("the primitive cell", lambda cell, given: commands.primitive(cell), ()),
    "dataset": ("magnetic type, operations and orbits", lambda cell, given: commands.dataset(cell), ()),
    "orbits": ("equivalent atoms and site-symmetry groups", lambda cell, given: commands.orbits(cell), ()),
    "identify": (
        "which groups of a table of Hall symbols",
        lambda cell, given: commands.identify(cell, given.table),
        (("table", {}),),
    ),
    "compare": (
        "all maps onto the crystal of another file",
        lambda cell, given: commands.compare(cell, read_with(given, given.other)),
        (("other", {}),),
    ),
    "moments": ("which moments each site allows", lambda cell, given: commands.moments(cell), ()),
    "fill": (
        "the primitive cell with a moment filled in",
        lambda cell, given: commands.fill(cell, given.atom - 1, given.moment),
        (("atom", {"type": int}), ("moment", {"type": int, "nargs": "+"})),
    ),
    "standard": (
        "the cell in the axes of its group",
        lambda cell, given: commands.standard(cell, given.table),
        (("table", {"nargs": "?"}),),
    ),
    "cell": ("the exact cell, as a cell file", lambda cell, given: cell, ()),
    "mcif": ("an mcif file of the cell", lambda cell, given: mcif_text(cell).rstrip("\n"), ()),
    "plot": (
        "draws the cell into a picture, PNG or SVG",
        lambda cell, given: plot(cell, given.picture) and f"{given.picture} is written",
        (("picture", {}),),
    ),
}


def read_with(given: argparse.Namespace, path: str) -> Cell:
    """The cell of a file, with the tolerances of the command line."""
    return read(path, symprec=given.symprec, mag_symprec=given.mag_symprec)


def parser() -> argparse.ArgumentParser:
    """What the command line may have."""
    top = argparse.ArgumentParser(prog="python3 -m magsym", description="exact magnetic symmetry of a crystal in a file")
    below = top.add_subparsers(dest="command", required=True, metavar="COMMAND")
    for name, (help_text, _, words) in COMMANDS.items():
        one = below.add_parser(name, help=help_text)
        one.add_argument("file", help="a cell file, an mcif file, or any file that ASE reads")
        add_words(one, words)
    return top


def add_words(one: argparse.ArgumentParser, words: tuple[tuple[str, dict], ...]) -> None:
    """The further words of a command, and the options of all."""
    for word, options in words:
        one.add_argument(word, **options)
    one.add_argument("--json", action="store_true", help="the answer as JSON, for programs")
    one.add_argument("--symprec", type=float, default=1e-3, help="tolerance for files that ASE reads (default 0.001)")
    one.add_argument("--mag-symprec", type=float, default=None, help="tolerance of moments there (default: as symprec)")


def main(words: list[str] | None = None) -> int:
    """Runs one command; ends with 0, or with 1 and a line on the error stream where it is refused."""
    given = parser().parse_args(words)
    try:
        cell = read_with(given, given.file)
        answer = COMMANDS[given.command][1](cell, given)
    except (MagsymError, IndexError, ValueError) as refusal:
        print(f"magsym: {refusal}", file=sys.stderr)
        return 1
    if given.json:
        print(json.dumps(as_json(answer), ensure_ascii=False))
    else:
        print("\n".join([*(f"# {comment}" for comment in cell.comments if given.command != "cell"), as_text(answer)]))
    return 0


if __name__ == "__main__":
    sys.exit(main())

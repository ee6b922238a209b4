"""Finding the built program and running it."""

from __future__ import annotations

import os
import re
import shutil
import subprocess
from pathlib import Path
from typing import NamedTuple, Sequence

from .errors import BY_STATUS, ProgramFailed, ProgramNotFound

TOP = Path(__file__).resolve().parents[2]
BESIDE = TOP / "crates" / "magsym" / "out" / "magsym"
LINE = re.compile(r"(?:other )?(?:line|row) ([0-9]+): (.*)")


class Report(NamedTuple):
    """What the program wrote to its output, and its exit status, 0 or 1."""

    text: str
    status: int


def program() -> str:
    """The path of the program: what MAGSYM names, or the one built beside this package, or `magsym` on the path.

    Raises ProgramNotFound.
    """
    named = os.environ.get("MAGSYM")
    if named:
        if not os.access(named, os.X_OK) or os.path.isdir(named):
            raise ProgramNotFound(f"MAGSYM names {named}, which is no program")
        return named
    if os.access(BESIDE, os.X_OK):
        return str(BESIDE)
    found = shutil.which("magsym")
    if found is None:
        raise ProgramNotFound("the program magsym is not built: run bin/magsym once, which builds it, or name it by MAGSYM")
    return found


def run(words: Sequence[str], text: str = "") -> Report:
    """Runs the program with some words and a cell on its standard input.

    Raises ProgramNotFound, and the subclass of Refused of the status where the program refused.
    """
    done = subprocess.run([program(), *words], input=text.encode(), capture_output=True, check=False)
    said = done.stderr.decode(errors="replace").strip()
    if done.returncode == 0 or done.returncode == 1 and not said:
        return Report(done.stdout.decode("ascii"), done.returncode)
    reason = said.removeprefix("magsym: ") or "no reason was told"
    if done.returncode not in BY_STATUS:
        raise ProgramFailed(f"{reason} (exit status {done.returncode})", done.returncode)
    found = LINE.fullmatch(reason)
    line, reason = (int(found[1]), ("other cell: " if reason.startswith("other") else "") + found[2]) if found else (None, reason)
    raise BY_STATUS[done.returncode](reason, done.returncode, line)

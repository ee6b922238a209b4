#!/usr/bin/env python3
"""Tries whether the cells that `magsym standard` prints have exactly the operations of the symbols, for all 1,651 groups.

Run it by hand, after the gate: bench/standard.py PROGRAM [--processes N] [--rows FIRST-LAST] [--kinds NUMBER] [--alike]
PROGRAM is the built program. crystals.py makes crystals of each row of `tables/magnetic_space_groups.table` from the row's
operations: one with axes of like lengths, a very flat one and a very long one, each in a skew basis and at another origin.
Of these one a row is taken, each kind in its turn; `--kinds 3` takes all. `standard` gets both tables of `tables/`, one after
the other. The row that it tells must be that of the crystal, in the axes of either table, and `symmetry` of the printed cell
must list the operations that `hall` lists of the row's symbol: all of them, each once, and no other, their translation parts
modulo whole ones. Told are the crystals that differ, how many are equal, and how many have no such cell, since it is too
large. Ends with 1 where one differs. `--rows 7-9` does three rows alone. With `--alike` the program gets of both tables those
rows alone that bns.py says, which takes a small part of the time.
"""
import argparse
import multiprocessing
import pathlib
import subprocess
import sys
import tempfile
import time
from functools import lru_cache
from typing import NamedTuple

sys.dont_write_bytecode = True

import bns  # first: it finds the modules of tables/
import crystals
import hall

TOO_LARGE = 8  # the exit status where no cell can hold the standard cell


class Task(NamedTuple):
    """The program, the table that it gets, the row whose crystals are tried, and of which kinds."""

    program: str
    table: str
    row: hall.Row
    kinds: tuple


class Counts(NamedTuple):
    crystals: int
    equal: int
    too_large: int
    further: int


# The program's answers


def run(program, words, text):
    return subprocess.run([program, *words], input=text.encode(), capture_output=True, check=False)


def lines_of(program, words, text=""):
    """The lines of a report, or Wrong where the program refuses."""
    done = run(program, words, text)
    if done.returncode:
        raise bns.Wrong(f"{words[0]} ends with {done.returncode}: {done.stderr.decode().strip()}")
    return done.stdout.decode("ascii").splitlines()


@lru_cache(maxsize=10)
def operations_of(program, symbol):
    return frozenset(lines_of(program, ["hall", symbol]))


@lru_cache(maxsize=1)
def symbols():
    """The symbols of both tables, by the names of their rows."""
    return {row.name: row.symbol for table in (bns.TABLE, bns.FURTHER) for row in hall.read_table(table.read_bytes())}


def standard(program, text, table):
    """The printed cell and the name of its row, or None where it is too large."""
    done = run(program, ["standard", table], text)
    if done.returncode == TOO_LARGE:
        return None
    printed = done.stdout.decode("ascii")
    if done.returncode:
        raise bns.Wrong(f"standard ends with {done.returncode}: {done.stderr.decode().strip() or printed.strip()}")
    mark, word, _, name = printed.splitlines()[1].split(" ")
    if (mark, word) != ("#", "row"):
        raise bns.Wrong("the second line does not tell the row")
    return printed, name


# All crystals


def look(task, kind):
    """Whether the standard cell of a crystal is too large, and whether it is in further axes; Wrong where it differs."""
    group = hall.expand(hall.read_symbol(task.row.symbol))
    made = crystals.crystal(task.row.name, group, kind)
    found = standard(task.program, made.text, task.table)
    if found is None:
        return Counts(1, 0, 1, 0)
    printed, name = found
    if name.partition(":")[0] != task.row.name:
        raise bns.Wrong(f"found is {name}")
    listed = lines_of(task.program, ["symmetry"], printed)
    wanted = operations_of(task.program, symbols()[name])
    if len(listed) != len(wanted) or set(listed) != wanted:
        raise bns.Wrong(f"{len(listed)} operations, which are not the {len(wanted)} of the symbol")
    return Counts(1, 1, 0, ":" in name)


def tried(task):
    """The counts of the crystals of a row, and lines on those that differ."""
    total, lines = Counts(0, 0, 0, 0), []
    for kind in task.kinds:
        try:
            counts = look(task, kind)
        except bns.Wrong as wrong:
            counts = Counts(1, 0, 0, 0)
            lines.append(f"{task.row.name}, {kind}: {wrong}")
        total = Counts(*map(sum, zip(total, counts)))
    return total, lines


def try_all(tasks, processes):
    total = Counts(0, 0, 0, 0)
    with multiprocessing.Pool(processes) as pool:
        for counts, lines in pool.imap(tried, tasks, chunksize=4):
            total = Counts(*map(sum, zip(total, counts)))
            for line in lines:
                print(line, flush=True)
    held = total.crystals - total.too_large
    print(f"{total.equal} of {held} standard cells have exactly the operations of the symbol, {total.further} of them in further axes")
    print(f"{total.too_large} of {total.crystals} crystals have a standard cell that is too large")
    return total.equal == held


def kinds_at(number, count):
    """So many kinds of crystals, each first in its turn."""
    return tuple(crystals.KINDS[(number + i) % len(crystals.KINDS)] for i in range(count))


def done(given, folder):
    """What the options ask for, and whether all is as it should be."""
    table = pathlib.Path(folder) / "both.table"
    table.write_bytes(bns.TABLE.read_bytes() + bns.FURTHER.read_bytes())
    paths = bns.tables_alike(table, folder) if given.alike else {}
    first, _, last = given.rows.partition("-")
    numbered = list(enumerate(bns.rows()))[int(first) - 1 : int(last or first)]
    begun = time.perf_counter()
    tasks = [
        Task(given.program, paths[bns.kinds_of(row)] if given.alike else table, row, kinds_at(number, given.kinds))
        for number, row in numbered
    ]
    is_done = try_all(tasks, given.processes)
    print(f"in {(time.perf_counter() - begun) / 60:.1f} minutes, {given.processes} processes at once")
    return is_done


def main():
    words = argparse.ArgumentParser(description=__doc__.split("\n")[0])
    words.add_argument("program")
    words.add_argument("--processes", type=int, default=multiprocessing.cpu_count())
    words.add_argument("--rows", default="1-1651", metavar="FIRST-LAST")
    words.add_argument("--kinds", type=int, choices=(1, 2, 3), default=1)
    words.add_argument("--alike", action="store_true")
    with tempfile.TemporaryDirectory() as folder:
        return done(words.parse_args(), folder)


if __name__ == "__main__":
    sys.exit(0 if main() else 1)

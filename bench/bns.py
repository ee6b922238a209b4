#!/usr/bin/env python3
"""Identifies crystals of all 1,651 types of magnetic space groups with `magsym identify` and the tables of `tables/`.

Run it by hand, after the gate: bench/bns.py PROGRAM [--processes N] [--rows FIRST-LAST] [--alike]
PROGRAM is the built program. crystals.py makes three crystals for each row, from the row's operations: one with axes of like
lengths, a very flat one and a very long one, each in a skew basis and at another origin. A crystal is identified where its
row is found, or the row in further axes, and the map takes the row's group to the group that the crystal was made from, all
operations and no other. Told are the crystals that were not, those of which another type is found too, how many there are of
both, and how many needed further axes. Ends with 1 where a crystal is not identified or another type is found.
`--rows 7-9` does three rows of the table alone. With `--alike` the program gets of both tables those rows alone whose
matrices have the same determinants, traces and time signs as those of the crystal's row, each as often: no map carries
another group onto that of the crystal, so no other row is found; that takes a small part of the time.

bench/bns.py PROGRAM --times: instead times the 1,651 rows on manganese fluoride, on 300 of these crystals, and what it takes
to read and expand them: processor time of the whole program, best of three. Ends with 1 where that is more than 0.2, 0.5 or
0.05 seconds. Also tells the time of `bns`, which tries the rows in further axes besides, on two of the crystals.

bench/bns.py PROGRAM --examples: instead compares the group of each crystal of `docs/examples` that has a file NAME.bns with
that file and with Spglib's `get_magnetic_symmetry_dataset`; with a Python that sees Spglib (Debian's python3-spglib).
"""
import argparse
import math
import multiprocessing
import pathlib
import resource
import subprocess
import sys
import tempfile
import time
from collections import Counter
from fractions import Fraction
from functools import lru_cache
from typing import NamedTuple

sys.dont_write_bytecode = True

import crystals  # first: it finds the modules of tables/
import axes
import hall
from equivalence import adjugate, determinant

TOP = pathlib.Path(__file__).resolve().parent.parent
TABLE = TOP / "tables" / "magnetic_space_groups.table"
FURTHER = TOP / "tables" / "further_axes.table"
EXAMPLES = TOP / "docs" / "examples"
LIMITS = {"manganese fluoride": 0.2, "the slowest of 300 crystals": 0.5, "reading and expanding": 0.05}


class Wrong(Exception):
    """What is wrong with the answer on a crystal."""


# The program's answer


class Map(NamedTuple):
    """What takes coordinates in the axes of the first table to those in the primitive cell, by a row in some axes."""

    turn: tuple
    origin: tuple
    axes: str


def map_of(name, entries):
    """The map that is told for a row, brought to the axes of the first table."""
    which = name.partition(":")[2]
    turn = tuple(map(int, entries[:9]))
    return Map(crystals.product(turn, axes.TURNS[which]) if which else turn, tuple(map(Fraction, entries[9:])), which)


def answer(program, text, table):
    """The matrix `back`, and the first map of each type that is found, by the name of its row."""
    run = subprocess.run([program, "identify", table], input=text.encode(), capture_output=True, check=False)
    if run.returncode > 1:
        raise Wrong(f"status {run.returncode}: {run.stderr.decode().strip()}")
    first, *lines = run.stdout.decode("ascii").splitlines()
    found = {}
    for line in lines if lines != ["none"] else []:
        _, name, *entries = line.split(" ")
        found.setdefault(name.partition(":")[0], map_of(name, entries))
    return tuple(map(int, first.split(" ")[1:])), found


def processor_time():
    used = resource.getrusage(resource.RUSAGE_CHILDREN)
    return used.ru_utime + used.ru_stime


def seconds(program, text, table):
    """The processor time, the best of three."""
    took = []
    for _ in range(3):
        begun = processor_time()
        answer(program, text, table)
        took.append(processor_time() - begun)
    return min(took)


# What a map does


@lru_cache(maxsize=1000)
def turned(matrix, turn):
    """The matrix in the coordinates to which `turn` takes."""
    entries = crystals.product(crystals.product(turn, matrix), adjugate(turn))
    size = determinant(turn)
    if any(entry % size for entry in entries):
        raise Wrong("the map takes an operation to a matrix that is not of integers")
    return tuple(entry // size for entry in entries)


def carried_group(group, turn, origin):
    """The group in coordinates turn x + origin, modulo whole translations there, with fractions for translation parts."""
    n = math.lcm(12, *(part.denominator for part in origin))
    shift = tuple(int(part * n) for part in origin)
    found = set()
    for matrix, translation, sign in group:
        carried = turned(matrix, turn)
        moved = crystals.image(turn, tuple(part * n // 12 for part in translation))
        held = crystals.image(carried, shift)
        found.add((carried, tuple(Fraction((w + p - h) % n, n) for w, p, h in zip(moved, shift, held)), sign))
    return found


def group_of(crystal, group, back):
    """The group of a crystal in the basis to which `back` takes coordinates of its cell."""
    origin = crystals.image(back, crystal.origin)
    return carried_group(group, crystals.product(back, crystal.turn), tuple(Fraction(x, crystals.N) for x in origin))


def look(task, group, crystal):
    """The further types that are found, and the further axes that were needed; Wrong where it is not identified."""
    back, found = answer(task.program, crystal.text, task.table)
    own = found.pop(task.row.name, None)
    if own is None:
        raise Wrong(f"found is {' '.join(found) or 'none'}")
    if carried_group(group, own.turn, own.origin) != group_of(crystal, group, back):
        raise Wrong("the map does not take the row's group to that of the crystal")
    return list(found), own.axes


# All crystals


class Task(NamedTuple):
    """The program, the table that it gets, and the row whose crystals are tried."""

    program: str
    table: str
    row: hall.Row


class Counts(NamedTuple):
    crystals: int
    identified: int
    others: int
    further: int


def rows():
    return hall.read_table(TABLE.read_bytes())


def kinds_of(row):
    """How many matrices with time signs the row's group has of each determinant, trace and sign."""
    pairs = {(matrix, sign) for matrix, _, sign in hall.expand(hall.read_symbol(row.symbol))}
    return tuple(sorted(Counter((determinant(m), m[0] + m[4] + m[8], sign) for m, sign in pairs).items()))


def tables_alike(table, folder):
    """Paths of tables, each of the rows alike, by what they have in common."""
    alike = {}
    for row in hall.read_table(table.read_bytes()):
        alike.setdefault(kinds_of(row), []).append(f"{row.name} {row.symbol}\n")
    paths = {kinds: pathlib.Path(folder) / f"{number}.table" for number, kinds in enumerate(alike)}
    for kinds, path in paths.items():
        path.write_text("".join(alike[kinds]))
    return paths


def crystals_of(row):
    group = hall.expand(hall.read_symbol(row.symbol))
    return group, [(kind, crystals.crystal(row.name, group, kind)) for kind in crystals.KINDS]


def tried(task):
    """The counts of the crystals of a row, and lines on those that differ."""
    total, lines = Counts(0, 0, 0, 0), []
    group, made = crystals_of(task.row)
    for kind, crystal in made:
        try:
            more, needed = look(task, group, crystal)
            counts = Counts(1, 1, bool(more), bool(needed))
        except Wrong as wrong:
            more, counts = [], Counts(1, 0, 0, 0)
            lines.append(f"{task.row.name}, {kind}: {wrong}")
        total = Counts(*map(sum, zip(total, counts)))
        lines += [f"{task.row.name}, {kind}: also {' '.join(more)}"] if more else []
    return total, lines


def identify_all(tasks, processes):
    total = Counts(0, 0, 0, 0)
    with multiprocessing.Pool(processes) as pool:
        for counts, lines in pool.imap(tried, tasks, chunksize=4):
            total = Counts(*map(sum, zip(total, counts)))
            for line in lines:
                print(line, flush=True)
    print(f"{total.identified} of {total.crystals} identified, {total.others} also as another")
    print(f"{total.further} of them in further axes alone")
    return total.identified == total.crystals and total.others == 0


# Times


def some(count):
    """So many of all crystals, at equal distances."""
    whole = [(row, kind) for row in rows() for kind in range(len(crystals.KINDS))]
    for at in range(count):
        row, kind = whole[at * len(whole) // count]
        yield f"{row.name}, {crystals.KINDS[kind]}", crystals_of(row)[1][kind][1].text


def reading(program, folder):
    """What the table takes more than its first row, on a crystal without rotations."""
    text = "magcell 1\nmetric 4 5 6 1 1 1\natom A 0 0 0 1 2 3\natom B 1/3 1/5 1/7\nend\n"
    short = pathlib.Path(folder) / "short.table"
    short.write_text("P1 P 1\n")
    return seconds(program, text, TABLE) - seconds(program, text, short)


def tell_times(program, table, folder):
    fluoride = (EXAMPLES / "manganese_fluoride.cell").read_text()
    texts = dict(some(300))
    times = sorted((seconds(program, text, TABLE), name) for name, text in texts.items())
    found = dict(zip(LIMITS, (seconds(program, fluoride, TABLE), times[-1][0], reading(program, folder))))
    for what, took in found.items():
        print(f"{what}: {took:.3f} s, to be at most {LIMITS[what]} s")
    print(f"the slowest is {times[-1][1]}; the median of the 300 is {times[len(times) // 2][0]:.3f} s")
    for what, text in (("manganese fluoride", fluoride), ("the slowest", texts[times[-1][1]])):
        print(f"both tables on {what}: {seconds(program, text, table):.3f} s")
    return all(took <= LIMITS[what] for what, took in found.items())


# Examples


def spglib_number(text):
    """The BNS number that Spglib gives, or `none` where it finds no dataset."""
    import bench
    import spglib

    structure = bench.structure_of(text)
    found = spglib.get_magnetic_symmetry_dataset(structure)
    return "none" if found is None else spglib.get_magnetic_spacegroup_type(found["uni_number"])["bns_number"]


def compare_examples(program, table):
    paths = sorted(EXAMPLES.glob("*.bns"))
    agreed = unknown = 0
    for path in paths:
        text = path.with_suffix(".cell").read_text()
        found = [name.partition("_")[0] for name in answer(program, text, table)[1]]
        told, theirs = path.read_text().split(" ")[1], spglib_number(text)
        agreed += found == [told] == [theirs]
        unknown += found == [told] and theirs == "none"
        print(f"{path.stem}: {' '.join(found) or 'none'}; in its file {told}; by Spglib {theirs}")
    print(f"{agreed} of {len(paths)} examples have the BNS number of their file and of Spglib, which gives none of {unknown}")
    return agreed + unknown == len(paths) and agreed > 0


def done(given, folder):
    """What the options ask for, and whether all is as it should be."""
    table = pathlib.Path(folder) / "both.table"
    table.write_bytes(TABLE.read_bytes() + FURTHER.read_bytes())
    if given.times:
        return tell_times(given.program, table, folder)
    if given.examples:
        return compare_examples(given.program, table)
    first, _, last = given.rows.partition("-")
    wanted = rows()[int(first) - 1 : int(last or first)]
    begun = time.perf_counter()
    paths = tables_alike(table, folder) if given.alike else {}
    tasks = [Task(given.program, paths[kinds_of(row)] if given.alike else table, row) for row in wanted]
    is_done = identify_all(tasks, given.processes)
    print(f"in {(time.perf_counter() - begun) / 60:.1f} minutes, {given.processes} processes at once")
    return is_done


def main():
    words = argparse.ArgumentParser(description=__doc__.split("\n")[0])
    words.add_argument("program")
    words.add_argument("--processes", type=int, default=multiprocessing.cpu_count())
    words.add_argument("--rows", default="1-1651", metavar="FIRST-LAST")
    words.add_argument("--alike", action="store_true")
    words.add_argument("--times", action="store_true")
    words.add_argument("--examples", action="store_true")
    with tempfile.TemporaryDirectory() as folder:
        return done(words.parse_args(), folder)


if __name__ == "__main__":
    sys.exit(0 if main() else 1)

#!/usr/bin/env python3
"""Times `magsym identify` on a table of the 230 space-group types with and without time reversal, for ten crystals.

Run it by hand, after the gate, with a Python that sees Spglib (Debian's python3-spglib): bench/identify.py PROGRAM [--rows]
PROGRAM is the built program. The table has 460 rows: the first of Spglib's Hall symbols of each space-group type, and the same
with `1!`. For each crystal come the rows that it has and the time of the whole program, the best of five; with --rows each row
is also tried alone, and the slowest is named. Ends with 1 where a time passes 0.1 s.
"""
import argparse
import os
import subprocess
import sys
import tempfile
import time

sys.path.insert(0, os.path.join(os.path.dirname(os.path.abspath(__file__)), "..", "tables"))
import sources

# metric tensor, and atoms: crystals of all systems, with and without moments
CRYSTALS = {
    "triclinic": ("4 5 6 1 1 1", ["X 0 0 0"]),
    "monoclinic, a moment along b": ("4 5 6 0 1 0", ["X 0 0 0 0 1 0"]),
    "orthorhombic": ("4 5 6 0 0 0", ["X 0 0 0"]),
    "orthorhombic, F, no moment": ("16 25 36 0 0 0", ["X 0 0 0", "X 0 1/2 1/2", "X 1/2 0 1/2", "X 1/2 1/2 0"]),
    "tetragonal, rutile, opposite moments": (
        "2375/100 2375/100 1096/100 0 0 0",
        ["Mn 0 0 0 0 0 1", "Mn 1/2 1/2 1/2 0 0 -1", "F 61/200 61/200 0", "F -61/200 -61/200 0", "F 161/200 39/200 1/2", "F 39/200 161/200 1/2"],
    ),
    "trigonal, R": ("4 4 49 0 0 -2", ["X 0 0 0 0 0 1", "X 2/3 1/3 1/3 0 0 1", "X 1/3 2/3 2/3 0 0 1"]),
    "hexagonal, close-packed": ("1 1 8/3 0 0 -1/2", ["X 1/3 2/3 1/4", "X 2/3 1/3 3/4"]),
    "cubic, P": ("1 1 1 0 0 0", ["X 0 0 0"]),
    "cubic, I, opposite moments": ("1 1 1 0 0 0", ["X 0 0 0 0 0 1", "X 1/2 1/2 1/2 0 0 -1"]),
    "cubic, diamond": (
        "1 1 1 0 0 0",
        [f"C {x} {y} {z}" for x, y, z in ("000", "0hh", "h0h", "hh0", "qqq", "qtt", "tqt", "ttq")],
    ),
}
NAMES = {"0": "0", "h": "1/2", "q": "1/4", "t": "3/4"}


def cell(metric, atoms):
    lines = [" ".join(NAMES.get(word, word) for word in atom.split(" ")) for atom in atoms]
    return "\n".join(["magcell 1", f"metric {metric}", *(f"atom {line}" for line in lines), "end", ""]).encode()


def rows():
    """Name and symbol of each row of the table."""
    sources.needs_spglib()
    first = {}
    for number, symbol in enumerate(sources.hall_symbols(), 1):
        first.setdefault(sources.spglib.get_spacegroup_type(number)["number"], symbol)
    for number, symbol in sorted(first.items()):
        yield f"{number}", symbol
        yield f"{number}.1'", with_time_reversal(symbol)


def with_time_reversal(symbol):
    front, bracket, shift = symbol.partition("(")
    return f"{front.rstrip()} 1! {bracket}{shift}".rstrip()


def best(program, table, text, times):
    took = []
    for _ in range(times):
        begun = time.perf_counter()
        run = subprocess.run([program, "identify", table], input=text, capture_output=True, check=False)
        took.append(time.perf_counter() - begun)
        if run.returncode > 1:
            raise SystemExit(run.stderr.decode())
    return min(took), [line.split(" ")[1] for line in run.stdout.decode().splitlines()[1:] if line != "none"]


def slowest_row(program, folder, table, text):
    found = []
    for name, symbol in table:
        path = os.path.join(folder, "row")
        with open(path, "w", encoding="ascii") as file:
            file.write(f"{name} {symbol}\n")
        found.append((best(program, path, text, 5)[0], name, symbol))
    return max(found)


def main():
    words = argparse.ArgumentParser(description=__doc__.split("\n")[0])
    words.add_argument("program")
    words.add_argument("--rows", action="store_true")
    given = words.parse_args()
    table = list(rows())
    worst = 0
    with tempfile.TemporaryDirectory() as folder:
        path = os.path.join(folder, "table")
        with open(path, "w", encoding="ascii") as file:
            file.writelines(f"{name} {symbol}\n" for name, symbol in table)
        print(f"{len(table)} rows")
        for name, crystal in CRYSTALS.items():
            text = cell(*crystal)
            took, found = best(given.program, path, text, 5)
            worst = max(worst, took)
            print(f"{name}: {1000 * took:.1f} ms; {', '.join(found) or 'none'}")
            if given.rows:
                took, row, symbol = slowest_row(given.program, folder, table, text)
                print(f"    slowest row alone: {row} {symbol}, {1000 * took:.1f} ms")
    return 1 if worst > 0.1 else 0


if __name__ == "__main__":
    sys.exit(main())

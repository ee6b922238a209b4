#!/usr/bin/env python3
"""Compares `magsym hall SYMBOL` with Spglib's 530 tabulated Hall symbols, and times it on a symbol of many translations.

Run it by hand, after the gate, with a Python that sees Spglib (Debian's python3-spglib): bench/hall_symbols.py PROGRAM
PROGRAM is the built program. For each symbol the operations are compared with those of Spglib's database: how many they are,
and whether they are the same. Then comes `-R 3*u 4z 1!`, whose group has 165,888 operations. The last two lines say how many
symbols agree, and how long the large group took, the best of three. Ends with 1 where one differs.
"""
import os
import subprocess
import sys
import time

sys.path.insert(0, os.path.join(os.path.dirname(os.path.abspath(__file__)), "..", "tables"))
import hall
import sources

LARGE = "-R 3*u 4z 1!"


def lines_of(program, symbol):
    run = subprocess.run([program, "hall", symbol], stdin=subprocess.DEVNULL, capture_output=True, check=False)
    if run.returncode:
        raise SystemExit(f"{symbol}: status {run.returncode}: {run.stderr.decode().strip()}")
    return run.stdout.decode("ascii").splitlines()


def group_of(lines):
    """The operations of a report as the tables hold them."""
    return frozenset(hall.operation_of(line) for line in lines)


def main():
    if len(sys.argv) != 2:
        raise SystemExit(__doc__)
    program = sys.argv[1]
    counts = groups = 0
    symbols = sources.hall_symbols()
    for number, symbol in enumerate(symbols, 1):
        lines = lines_of(program, symbol)
        wanted = sources.space_group(number)
        counts += len(lines) == len(wanted)
        groups += group_of(lines) == wanted
        if group_of(lines) != wanted:
            print(f"{number} {symbol}: {len(lines)} operations, Spglib's database has {len(wanted)}, or other ones")
    times = []
    for _ in range(3):
        begun = time.perf_counter()
        count = len(lines_of(program, LARGE))
        times.append(time.perf_counter() - begun)
    print(f"{counts} of {len(symbols)} symbols have as many operations as Spglib's database says, {groups} the same ones")
    print(f"{LARGE}: {count} operations in {min(times):.2f} s")
    return 0 if counts == groups == len(symbols) else 1


if __name__ == "__main__":
    sys.exit(main())

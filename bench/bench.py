#!/usr/bin/env python3
"""Times `magsym symmetry` on the examples, on generated cells and on hostile ones, and Spglib beside it where it is installed.

Run it by hand, after the gate, on a quiet machine: bench/bench.py [--runs N] [--only WORD] [--limit SECONDS]
A time of magsym is the best of N runs of the whole program, from the call that starts it to its end: it reads the cell, and
writes the report to a file.
That of Spglib is the time of one call of get_magnetic_symmetry, at its default tolerances, in a Python that has loaded it;
a call that passes the limit is stopped. The last column says how many times that of magsym the time of Spglib is. The hostile
cells, on which most maps fail late, are those of bench/hostile.py.
"""
import argparse
import os
import pathlib
import subprocess
import sys
import tempfile
import time
from fractions import Fraction

import hostile

TOP = pathlib.Path(__file__).resolve().parent.parent
PROGRAM = TOP / "crates" / "magsym" / "out" / "magsym"

RUTILE = """magcell 1
metric 21 21 9 0 0 0
atom Ti 0 0 0
atom Ti 1/2 1/2 1/2
atom O 3/10 3/10 0
atom O 7/10 7/10 0
atom O 8/10 2/10 1/2
atom O 2/10 8/10 1/2
end
"""

try:
    import numpy
    import spglib
except ImportError:
    spglib = None


def generated(metric, sides, moment_of):
    """A cell of sides[0] by sides[1] by sides[2] atoms at equal distances along the axes."""
    lines = ["magcell 1", "metric " + metric]
    for i in range(sides[0]):
        for j in range(sides[1]):
            for k in range(sides[2]):
                place = f"{i}/{sides[0]} {j}/{sides[1]} {k}/{sides[2]}"
                lines.append(f"atom A {place}{moment_of(i, j, k)}")
    return "\n".join(lines + ["end", ""])


def no_moment(i, j, k):
    return ""


def layers(i, j, k):
    """Moments along c, opposite from layer to layer."""
    return " 0 0 1" if k % 2 == 0 else " 0 0 -1"


def eight_classes(i, j, k):
    """One atom of each block of two by two by two has a moment of its own."""
    return " 0 0 2" if (i % 2, j % 2, k % 2) == (0, 0, 0) else " 0 0 1"


def one_odd(i, j, k):
    """One atom of all has another moment, so the cell is primitive."""
    return " 0 0 2" if (i, j, k) == (0, 0, 0) else " 0 0 1"


def cells():
    for path in sorted((TOP / "docs" / "examples").glob("*.cell")):
        text = path.read_text()
        if not path.with_suffix(".status").exists() and "magcell 1" in text.splitlines():
            yield path.stem, text
    yield "one atom", "magcell 1\nmetric 1 1 1 0 0 0\natom A 0 0 0\nend\n"
    yield "rutile, 6 atoms", RUTILE
    for side in (4, 5, 6, 7, 8):
        square = side * side
        yield f"cube, {side**3} atoms", generated(f"{square} {square} {square} 0 0 0", (side,) * 3, no_moment)
    yield "cube, 512 atoms, opposite layers", generated("64 64 64 0 0 0", (8, 8, 8), layers)
    yield "cube, 512 atoms, 64 translations", generated("64 64 64 0 0 0", (8, 8, 8), eight_classes)
    yield "cube, 512 atoms, primitive", generated("64 64 64 0 0 0", (8, 8, 8), one_odd)
    yield "hexagonal, 512 atoms", generated("64 64 100 0 0 -32", (8, 8, 8), no_moment)
    yield "hexagonal, 512 atoms, opposite layers", generated("64 64 100 0 0 -32", (8, 8, 8), layers)
    yield "flat and skew, 512 atoms", generated("64 64000064 64 0 0 64000", (8, 8, 8), no_moment)
    yield from hostile.named()


def operations_of(text):
    """The time of the program on a cell, and how many operations it lists."""
    with tempfile.NamedTemporaryFile("w", suffix=".cell") as cell, tempfile.TemporaryFile("w+") as out:
        cell.write(text)
        cell.flush()
        with open(cell.name) as given:
            streams = [(os.POSIX_SPAWN_DUP2, given.fileno(), 0), (os.POSIX_SPAWN_DUP2, out.fileno(), 1)]
            start = time.perf_counter()
            child = os.posix_spawn(PROGRAM, [PROGRAM, "symmetry"], os.environ, file_actions=streams)
            _, status = os.waitpid(child, 0)
            seconds = time.perf_counter() - start
        if status != 0:
            return seconds, None
        out.seek(0)
        return seconds, sum(1 for _ in out)


def axes_of(metric):
    """Axes of this metric tensor, as rows: the first along x, the second in the plane of x and y."""
    aa, bb, cc, bc, ac, ab = (float(Fraction(word)) for word in metric)
    return numpy.linalg.cholesky(numpy.array([[aa, ab, ac], [ab, bb, bc], [ac, bc, cc]]))


def structure_of(text):
    """A cell as Spglib takes it: axes, positions, numbers of species, and Cartesian moments."""
    lines = [line.split() for line in text.splitlines() if not line.startswith("#")]
    axes = axes_of(next(words[1:7] for words in lines if words and words[0] == "metric"))
    atoms = [words for words in lines if words and words[0] == "atom"]
    names = sorted({words[1] for words in atoms})
    positions = [[float(Fraction(word)) for word in words[2:5]] for words in atoms]
    along = [[float(Fraction(word)) for word in words[5:8]] or [0.0, 0.0, 0.0] for words in atoms]
    numbers = [names.index(words[1]) + 1 for words in atoms]
    return axes, positions, numbers, numpy.array(along) @ axes


def tell_spglib():
    """In a Python of its own: the time of one call on the cell of standard input, and how many operations it lists."""
    structure = structure_of(sys.stdin.read())
    start = time.perf_counter()
    found = spglib.get_magnetic_symmetry(structure)
    seconds = time.perf_counter() - start
    print(seconds, "none" if found is None else len(found["rotations"]))


def found_by_spglib(text, limit):
    """The time of one call and its number of operations, or None where it passes the limit."""
    command = [sys.executable, __file__, "--spglib"]
    try:
        done = subprocess.run(command, input=text, capture_output=True, text=True, timeout=limit, check=True)
    except subprocess.TimeoutExpired:
        return None
    seconds, count = done.stdout.split()
    return float(seconds), count


def best(runs, text):
    results = [operations_of(text) for _ in range(runs)]
    return min(seconds for seconds, _ in results), results[0][1]


def shown(seconds, count):
    return f"{seconds:10.4f} {count if count is not None else 'none':>11}"


def main():
    parser = argparse.ArgumentParser(description="times magsym, and Spglib beside it where it is installed")
    parser.add_argument("--runs", type=int, default=3)
    parser.add_argument("--only", default="", help="cells whose names hold this word")
    parser.add_argument("--limit", type=float, default=60.0, help="seconds for one call of Spglib")
    parser.add_argument("--spglib", action="store_true", help=argparse.SUPPRESS)
    options = parser.parse_args()
    if options.spglib:
        return tell_spglib()
    if not PROGRAM.exists():
        sys.exit("bench: the program is not built; run bin/magsym once")
    version = "is not installed" if spglib is None else spglib.__version__
    print(f"seconds: magsym, best of {options.runs}; Spglib {version}, one call")
    print(f"{'cell':44} {'magsym':>10} {'operations':>11} {'Spglib':>10} {'operations':>11} {'ratio':>8}")
    for name, text in cells():
        if options.only not in name:
            continue
        own, own_count = best(options.runs, text)
        line = f"{name:44} {shown(own, own_count)}"
        other = None if spglib is None else found_by_spglib(text, options.limit)
        if other is not None:
            line += f" {shown(*other)} {other[0] / own:8.1f}"
        elif spglib is not None:
            line += f"  over {options.limit:.0f} seconds"
        print(line, flush=True)


if __name__ == "__main__":
    main()

#!/usr/bin/env python3
"""Compares how many operations magsym and Spglib find, for all four kinds of moments.

Run it by hand, after the gate: bench/kinds.py PROGRAM [--cells N] [--seed S]
Each of N cells is drawn with small whole numbers: a metric tensor of one of the crystal systems, one to eight atoms of one
or two species at simple positions, at least a quarter of them with moments. Each is given to magsym as `magcell 2` with a
`kind` line, and to Spglib's get_magnetic_symmetry: scalars as collinear moments, vectors as Cartesian ones, and `is_axial`
as the kind says. It prints how many answers were equal, and each cell on which they differ. Wants python3-spglib.
"""
import argparse
import random
import subprocess
import sys
from fractions import Fraction

import numpy
import spglib

METRICS = [
    "4 4 4 0 0 0",
    "4 4 9 0 0 0",
    "4 6 9 0 0 0",
    "4 4 9 0 0 -2",
    "4 4 4 1 1 1",
    "3 3 3 -1 -1 -1",
    "2 2 2 1 1 1",
    "4 7 9 0 2 0",
    "4 5 6 1 1 1",
    "7 11 13 2 -3 1",
]
PLACES = ["0", "0", "1/2", "1/2", "1/4", "3/4", "1/3", "2/3", "1/5"]
KINDS = ["vector axial", "vector plain", "scalar axial", "scalar plain"]


def drawn_atoms(draw, is_vector):
    """Atoms at different positions: species, position and moment."""
    atoms = {}
    count = draw.randint(1, 8)
    shift = draw.choice(["1/2 1/2 1/2", "1/2 1/2 0", "0 0 1/2", None])
    while len(atoms) < count:
        place = tuple(Fraction(draw.choice(PLACES)) for _ in range(3))
        name = draw.choice("AAB")
        size = draw.choice([0, 1, 1, -1, 2])
        moment = [size, 0, 0]
        if is_vector:
            moment = draw.choice([[0, 0, size], [size, 0, 0], [size, size, 0], [size, size, size], [0, size, -size]])
        atoms.setdefault(place, (name, moment))
        if shift and len(atoms) < count:
            moved = tuple((x + Fraction(word)) % 1 for x, word in zip(place, shift.split()))
            sign = draw.choice([1, -1])
            atoms.setdefault(moved, (name, [sign * m for m in moment]))
    return [(name, place, moment) for place, (name, moment) in atoms.items()]


def text_of(kind, metric, atoms):
    lines = ["magcell 2", f"kind {kind}", f"metric {metric}"]
    for name, place, moment in atoms:
        told = moment if kind.startswith("vector") else moment[:1]
        lines.append(" ".join(["atom", name, *map(str, place), *map(str, told)]))
    return "\n".join(lines + ["end", ""])


def found_by_magsym(program, text):
    done = subprocess.run([program, "symmetry"], input=text, capture_output=True, text=True, check=False)
    return done.stdout.count("\n") if done.returncode == 0 else done.stderr


def found_by_spglib(kind, metric, atoms):
    aa, bb, cc, bc, ac, ab = (float(word) for word in metric.split())
    axes = numpy.linalg.cholesky(numpy.array([[aa, ab, ac], [ab, bb, bc], [ac, bc, cc]]))
    names = sorted({name for name, _, _ in atoms})
    numbers = [names.index(name) + 1 for name, _, _ in atoms]
    positions = [[float(x) for x in place] for _, place, _ in atoms]
    along = numpy.array([moment for _, _, moment in atoms], dtype=float)
    moments = along @ axes if kind.startswith("vector") else along[:, 0]
    found = spglib.get_magnetic_symmetry((axes, positions, numbers, moments), is_axial=kind.endswith("axial"))
    return None if found is None else len(found["rotations"])


def main():
    parser = argparse.ArgumentParser(description="compares numbers of operations with Spglib's, for all kinds of moments")
    parser.add_argument("program")
    parser.add_argument("--cells", type=int, default=200)
    parser.add_argument("--seed", type=int, default=1)
    options = parser.parse_args()
    draw = random.Random(options.seed)
    equal, differ, unanswered = 0, 0, 0
    for number in range(options.cells):
        kind = KINDS[number % len(KINDS)]
        metric = draw.choice(METRICS)
        atoms = drawn_atoms(draw, kind.startswith("vector"))
        text = text_of(kind, metric, atoms)
        ours, theirs = found_by_magsym(options.program, text), found_by_spglib(kind, metric, atoms)
        if theirs is None:
            unanswered += 1
        elif ours == theirs:
            equal += 1
        else:
            differ += 1
            print(f"cell {number}: magsym {ours}, Spglib {theirs}\n{text}")
    print(f"{options.cells} cells, {equal} with as many operations, {differ} differ, {unanswered} without an answer of Spglib {spglib.__version__}")
    return 1 if differ else 0


if __name__ == "__main__":
    sys.exit(main())

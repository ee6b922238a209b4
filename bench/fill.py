#!/usr/bin/env python3
"""Tries `magsym moments` and `magsym fill` on generated cells, against the definitions in exact fractions.

Run it by hand, after the gate: bench/fill.py [--binary PROGRAM] [--cells N] [--seed N]
PROGRAM is the built program. For each of 500 cells the projector of each atom has to be the mean of sign · det(W) · W over the
operations (W, w, sign) that leave the position of the atom in the primitive cell, its own square, and its trace the count; it
has to leave the moment of the atom. A moment that it leaves has to fill the cell: at each position to which an operation
carries that of the atom stands the moment to which it carries the given one, whichever operation does so, and the other atoms
are as they were; and `magsym symmetry` has to list of the filled cell each operation that it lists of the primitive one. A
moment that the projector changes has to be refused. Prints how many atoms and cells were tried, and the time; ends with 1 at
the first difference, with its cell.
"""
import argparse
import os
import random
import re
import subprocess
import sys
import time
from fractions import Fraction

PROGRAM = os.path.join(os.path.dirname(os.path.dirname(os.path.abspath(__file__))), "crates/magsym/out/magsym")
METRICS = [
    "1 1 1 0 0 0",
    "1 1 4 0 0 0",
    "1 1 2 0 0 0",
    "4 5 6 0 0 0",
    "2 2 5 0 0 -1",
    "4 4 49 0 0 -2",
    "4 5 6 0 1 0",
    "3 3 3 1 1 1",
    "2 2 2 1 1 1",
    "4 5 6 1 1 1",
    "4 9 6 0 0 2",
]
# a multiple of the order of each site-symmetry group, so that a projector times as much is of integers
SITE_ORDERS = 96
COORDINATES = ["0", "0", "0", "1/2", "1/2", "1/4", "3/4", "1/3", "2/3"]
MOMENTS = ["", "", " 0 0 1", " 0 0 1", " 0 0 -1", " 1 0 0", " -1 0 0", " 0 1 0", " 1 1 0", " 1 -1 1/2", " 1 2 3"]


class Difference(Exception):
    """What the program answers is not what the definitions say."""


def generated(random_of):
    """A cell of one to six atoms of two species at special positions."""
    wanted = random_of.randint(1, 6)
    places = []
    while len(places) < wanted:
        place = " ".join(random_of.choice(COORDINATES) for _ in range(3))
        if place not in places:
            places.append(place)
    lines = [f"atom {random_of.choice('AAB')} {place}{random_of.choice(MOMENTS)}" for place in places]
    return "\n".join(["magcell 1", f"metric {random_of.choice(METRICS)}", *lines, "end", ""])


def image(matrix, column):
    return tuple(sum(entry * x for entry, x in zip(row, column)) for row in matrix)


def product(a, b):
    return [[sum(a[i][k] * b[k][j] for k in range(3)) for j in range(3)] for i in range(3)]


def determinant(w):
    (a, b, c), (d, e, f), (g, h, i) = w
    return a * (e * i - f * h) - b * (d * i - f * g) + c * (d * h - e * g)


def within(position):
    return tuple(x % 1 for x in position)


def rows(entries):
    return [entries[0:3], entries[3:6], entries[6:9]]


class Operation:
    """A matrix, a translation part and a time sign, from a line as -y,x,z+1/2,-1."""

    def __init__(self, line):
        *parts, sign = line.split(",")
        read = [self.part(part) for part in parts]
        self.matrix = [row for row, _ in read]
        self.shift = [shift for _, shift in read]
        self.sign = int(sign)

    @staticmethod
    def part(text):
        row, shift = [0, 0, 0], Fraction(0)
        for sign, size, letter in re.findall(r"([+-]?)(\d+(?:/\d+)?|)([xyz]?)", text):
            if letter:
                row["xyz".index(letter)] += int(sign + (size or "1"))
            elif size:
                shift += Fraction(sign + size)
        return row, shift

    def position(self, p):
        return within(x + t for x, t in zip(image(self.matrix, p), self.shift))

    def moment(self, m):
        factor = self.sign * determinant(self.matrix)
        return tuple(factor * x for x in image(self.matrix, m))


def atoms_of(text):
    """Name, position and moment of each atom of a cell file."""
    found = []
    for line in text.splitlines():
        words = line.split(" ")
        if words[0] == "atom":
            numbers = [Fraction(word) for word in words[2:]] + [Fraction(0)] * 3
            found.append((words[1], within(numbers[0:3]), tuple(numbers[3:6])))
    return found


def answer(program, words, text):
    run = subprocess.run([program, *words], input=text.encode(), capture_output=True, check=False)
    return run.returncode, run.stdout.decode()


def report(program, words, text):
    status, out = answer(program, words, text)
    if status != 0:
        raise Difference(f"{' '.join(words)}: status {status}")
    return out


def expect(held, what):
    if not held:
        raise Difference(what)


def mean(operations):
    matrices = [[[o.sign * determinant(o.matrix) * entry for entry in row] for row in o.matrix] for o in operations]
    return [[Fraction(sum(m[i][j] for m in matrices), len(matrices)) for j in range(3)] for i in range(3)]


def filled(atoms, operations, q, m):
    """The atoms with the moment m at q, and with those to which the operations carry it."""
    made = []
    for name, p, own in atoms:
        carried = {o.moment(m) for o in operations if o.position(q) == p}
        expect(len(carried) <= 1, "two moments at one atom")
        made.append((name, p, carried.pop() if carried else own))
    return made


class Found:
    """What the program finds of a cell, in the basis of its primitive cell."""

    def __init__(self, program, text):
        self.program = program
        self.text = text
        printed = report(program, ["primitive"], text)
        self.primitive = atoms_of(printed)
        self.operation_lines = set(self.symmetry_lines(printed))
        self.operations = [Operation(line) for line in self.operation_lines]
        first, *self.lines = report(program, ["moments"], text).splitlines()
        expect(f"# {first}" in printed.splitlines(), "the line of Q")
        self.back = rows([int(word) for word in first.split(" ")[1:]])

    def symmetry_lines(self, text):
        return report(self.program, ["symmetry"], text).splitlines()

    def try_projector(self, number, name, moment, q):
        """The projector that the line of an atom tells."""
        words = self.lines[number - 1].split(" ")
        expect(words[:4] == ["atom", str(number), name, "allowed"], f"line of atom {number}")
        projector = rows([Fraction(word) for word in words[5:]])
        expect(projector == mean([o for o in self.operations if o.position(q) == q]), f"projector of atom {number}")
        expect(product(projector, projector) == projector, f"projector of atom {number} is not its own square")
        expect(sum(projector[i][i] for i in range(3)) == int(words[4]), f"count of atom {number}")
        turned = image(self.back, moment)
        expect(image(projector, turned) == turned, f"moment of atom {number}")
        return projector

    def try_filled(self, number, q, moment):
        """The cell that is filled with an allowed moment."""
        out = report(self.program, ["fill", str(number), *map(str, moment)], self.text)
        expect(atoms_of(out) == filled(self.primitive, self.operations, q, moment), f"filled at atom {number}")
        expect(self.operation_lines <= set(self.symmetry_lines(out)), f"operations of the cell that is filled at atom {number}")

    def try_refused(self, number, moment):
        status, out = answer(self.program, ["fill", str(number), *map(str, moment)], self.text)
        expect(status == 1 and out == "", f"atom {number}: a moment that is not allowed")


def try_cell(program, text, random_of):
    """Each atom of a cell: its line, and the cell filled at it. How many atoms there are."""
    found = Found(program, text)
    atoms = atoms_of(text)
    expect(len(found.lines) == len(atoms), "lines of the atoms")
    for number, (name, place, moment) in enumerate(atoms, 1):
        q = within(image(found.back, place))
        projector = found.try_projector(number, name, moment, q)
        given = tuple(random_of.randint(-5, 5) for _ in range(3))
        found.try_filled(number, q, tuple(int(x) for x in image(projector, [SITE_ORDERS * x for x in given])))
        if image(projector, given) != given:
            found.try_refused(number, given)
    return len(atoms)


def main():
    words = argparse.ArgumentParser(description=__doc__.split("\n")[0])
    words.add_argument("--binary", default=PROGRAM)
    words.add_argument("--cells", type=int, default=500)
    words.add_argument("--seed", type=int, default=1)
    given = words.parse_args()
    random_of = random.Random(given.seed)
    begun = time.perf_counter()
    atoms = 0
    for _ in range(given.cells):
        text = generated(random_of)
        try:
            atoms += try_cell(given.binary, text, random_of)
        except Difference as difference:
            print(f"{difference}\n{text}", end="")
            return 1
    print(f"{given.cells} cells, {atoms} atoms, {time.perf_counter() - begun:.1f} s")
    return 0


if __name__ == "__main__":
    sys.exit(main())

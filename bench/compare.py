#!/usr/bin/env python3
"""Times `magsym compare` on pairs of cells of 512 atoms, and compares 300 crystals with themselves, told in other words.

Run it by hand, after the gate: bench/compare.py [--binary PROGRAM] [--cells N] [--seed S]
PROGRAM is the built program. Each cell of a pair is a grid of 8 by 8 by 8 atoms; the second is the first in another basis, with
its origin moved, or a crystal that differs in one moment, in the numbers of atoms of a name, or in its lengths. A time is that
of the whole program, the best of five, and is to be at most 0.15 s. The random crystals have one to six atoms of one or two
names, with moments; they are told a second time in a random basis of determinant 1, in a supercell of 1 to 8 cells, about
another origin and in another order. Each time `compare` has to end with 0 and to list as many maps as `dataset` says that
either primitive cell has operations. It has to end with 1 and to print `none` where one moment of the second crystal is three
times as long, or is there where there was none: the sum of the squared lengths of the moments in one volume is another then.
So it has to where one of several atoms is moved by a seventh of an axis: of the vectors from atom to atom, modulo the
translations, some then have an order that 7 divides, and none had before. A crystal of one atom is the same when this is moved.
Ends with 1 where a time passes the limit or a comparison is wrong.
"""
import argparse
import json
import os
import random
import subprocess
import sys
import tempfile
import time
from fractions import Fraction
from itertools import product

PROGRAM = os.path.join(os.path.dirname(os.path.dirname(os.path.abspath(__file__))), "crates/magsym/out/magsym")
LIMIT = 0.15
SIDE = 8
LARGEST_ENTRY = 10**9
IDENTITY = [[1, 0, 0], [0, 1, 0], [0, 0, 1]]


def times(a, b):
    return [[sum(a[i][k] * b[k][j] for k in range(3)) for j in range(3)] for i in range(3)]


def image(a, v):
    return [sum(a[i][k] * v[k] for k in range(3)) for i in range(3)]


def transposed(a):
    return [list(row) for row in zip(*a)]


def determinant(a):
    return sum(a[0][i] * (a[1][(i + 1) % 3] * a[2][(i + 2) % 3] - a[1][(i + 2) % 3] * a[2][(i + 1) % 3]) for i in range(3))


def inverse(a):
    h = determinant(a)
    minors = [[a[(j + 1) % 3][(i + 1) % 3] * a[(j + 2) % 3][(i + 2) % 3] - a[(j + 1) % 3][(i + 2) % 3] * a[(j + 2) % 3][(i + 1) % 3] for j in range(3)] for i in range(3)]
    return [[Fraction(entry, h) for entry in row] for row in minors]


def text_of(metric, atoms):
    """The cell file of a metric tensor and of atoms: name, position and moment, in fractions."""
    entries = (metric[0][0], metric[1][1], metric[2][2], metric[1][2], metric[0][2], metric[0][1])
    lines = ["magcell 1", "metric " + " ".join(map(str, entries))]
    for name, place, moment in atoms:
        lines.append("atom " + " ".join([name, *map(str, place), *map(str, moment)]))
    return "\n".join(lines + ["end", ""])


def whole_cells(q, index):
    """The images by q of as many whole cells as no two of which differ by an image of integers: the index is that of q."""
    found = []
    for cell in product(range(index), repeat=3):
        shift = [x % 1 for x in image(q, cell)]
        if shift not in found:
            found.append(shift)
        if len(found) == index:
            break
    return found


def in_basis(metric, atoms, p, origin):
    """The same crystal in the basis whose vectors are the columns of p, in as many cells as its determinant says, with its origin moved."""
    q = inverse(p)
    shifts = whole_cells(q, determinant(p))
    moved = []
    for name, place, moment in atoms:
        for shift in shifts:
            moved.append((name, [(x + t + o) % 1 for x, t, o in zip(image(q, place), shift, origin)], image(q, moment)))
    return times(transposed(p), times(metric, p)), moved


# ---- cells of 512 atoms


def grid(moment_of, metric):
    places = [(i, j, k) for i in range(SIDE) for j in range(SIDE) for k in range(SIDE)]
    return metric, [("A", [Fraction(x, SIDE) for x in place], [0, 0, moment_of(*place)]) for place in places]


def pairs():
    cube = [[64, 0, 0], [0, 64, 0], [0, 0, 64]]
    flat = [[64, 0, 32], [0, 80, 0], [32, 0, 1000]]
    skew = [[1, 2, 0], [0, 1, 3], [0, 0, 1]]
    origin = [Fraction(1, 16), Fraction(1, 3), Fraction(0)]
    for name, moment_of in (
        ("no moments", lambda i, j, k: 0),
        ("opposite layers", lambda i, j, k: 1 - 2 * (k % 2)),
        ("one moment is another", lambda i, j, k: 1 + ((i, j, k) == (0, 0, 0))),
        ("one atom has a moment", lambda i, j, k: int((i, j, k) == (7, 7, 7))),
    ):
        for kind, metric in (("cube", cube), ("monoclinic", flat)):
            crystal = grid(moment_of, metric)
            yield f"{kind}, {name}", crystal, in_basis(*crystal, skew, origin), True
    metric, atoms = grid(lambda i, j, k: 1 + ((i, j, k) == (0, 0, 0)), cube)
    yield "another moment", (metric, atoms), (metric, [*atoms[:-1], (*atoms[-1][:2], [0, 0, 3])]), False
    yield "two other moments", (metric, [(*atoms[0][:2], [0, 0, 3]), *atoms[1:]]), (metric, [*atoms[:-1], (*atoms[-1][:2], [0, 0, 4])]), False
    yield "another name", (metric, atoms), (metric, [*atoms[:-1], ("B", *atoms[-1][1:])]), False
    yield "other lengths", (metric, atoms), ([[64, 0, 0], [0, 64, 0], [0, 0, 65]], atoms), False


# ---- random crystals


def random_basis(numbers):
    """A product of elementary matrices, of determinant 1."""
    p = IDENTITY
    for _ in range(numbers.randint(1, 6)):
        i, j = numbers.sample(range(3), 2)
        step = [list(row) for row in IDENTITY]
        step[i][j] = numbers.choice((-2, -1, 1, 2))
        p = times(p, step)
    return p


def random_supercell(numbers):
    """A triangular matrix of determinant 1 to 8."""
    index = numbers.randint(1, 8)
    a = numbers.choice([d for d in range(1, index + 1) if index % d == 0])
    b = numbers.choice([d for d in range(1, index // a + 1) if index // a % d == 0])
    return [[a, numbers.randrange(a), numbers.randrange(a)], [0, b, numbers.randrange(b)], [0, 0, index // a // b]]


def random_metric(numbers):
    """Mostly of high symmetry, in a skew basis."""
    a, b, c = (numbers.randint(3, 9) for _ in range(3))
    form = numbers.choice(([[a, 0, 0], [0, a, 0], [0, 0, a]], [[a, 0, 0], [0, a, 0], [0, 0, c]], [[2 * a, -a, 0], [-a, 2 * a, 0], [0, 0, c]], [[a, 0, 0], [0, b, 0], [0, 0, c]], [[a + 4, 1, 2], [1, b + 4, 1], [2, 1, c + 4]]))
    p = random_basis(numbers)
    return times(transposed(p), times(form, p))


def random_crystal(numbers):
    n = numbers.choice((1, 2, 3, 4, 6))
    count = numbers.randint(1, min(6, n**3))
    places = set()
    while len(places) < count:
        places.add(tuple(Fraction(numbers.randrange(n), n) for _ in range(3)))
    names = numbers.choice((["A"], ["A", "B"]))
    return random_metric(numbers), [(numbers.choice(names), list(place), [numbers.randint(-1, 1) for _ in range(3)]) for place in sorted(places)]


def told_again(metric, atoms, numbers):
    """The crystal in another basis, supercell, origin and order of atoms, with entries that a cell file takes."""
    while True:
        p = times(random_basis(numbers), times(random_supercell(numbers), random_basis(numbers)))
        origin = [Fraction(numbers.randrange(12), 12) for _ in range(3)]
        other, moved = in_basis(metric, atoms, p, origin)
        if max(abs(entry) for row in other for entry in row) <= LARGEST_ENTRY:
            numbers.shuffle(moved)
            return text_of(other, moved)


def another_moment(metric, atoms, numbers):
    i = numbers.randrange(len(atoms))
    name, place, moment = atoms[i]
    longer = [3 * m for m in moment] if any(moment) else [1, 0, 0]
    return metric, [*atoms[:i], (name, place, longer), *atoms[i + 1 :]]


def another_position(metric, atoms, numbers):
    i = numbers.randrange(len(atoms))
    name, (x, y, z), moment = atoms[i]
    return metric, [*atoms[:i], (name, [(x + Fraction(1, 7)) % 1, y, z], moment), *atoms[i + 1 :]]


# ---- runs


class Runs:
    def __init__(self, program, folder):
        self.program = program
        self.path = os.path.join(folder, "other.cell")

    def compared(self, one, other):
        """The status, the number of maps, and the seconds."""
        with open(self.path, "w", encoding="ascii") as file:
            file.write(other)
        begun = time.perf_counter()
        run = subprocess.run([self.program, "compare", self.path], input=one.encode(), capture_output=True, check=False)
        took = time.perf_counter() - begun
        if run.returncode > 1:
            raise SystemExit(run.stderr.decode() + one + other)
        lines = run.stdout.decode().splitlines()[2:]
        return run.returncode, 0 if lines == ["none"] else len(lines), took

    def order(self, text):
        run = subprocess.run([self.program, "dataset"], input=text.encode(), capture_output=True, check=True)
        return json.loads(run.stdout)["order"]

    def are_one(self, one, other):
        """Whether as many maps come as each has operations."""
        order = self.order(one)
        return self.compared(one, other)[:2] == (0, order) and self.order(other) == order

    def are_two(self, one, other):
        return self.compared(one, other)[:2] == (1, 0)


def large(runs):
    wrong = 0
    for name, one, other, same in pairs():
        first, second = text_of(*one), text_of(*other)
        tried = [runs.compared(first, second) for _ in range(5)]
        took = min(seconds for _, _, seconds in tried)
        right = took <= LIMIT and (runs.are_one if same else runs.are_two)(first, second)
        wrong += not right
        print(f"{name}: {tried[0][1]} maps, {1000 * took:.1f} ms{'' if right else ', WRONG'}")
    return wrong


def judged(runs, numbers):
    """What is wrong of one random crystal: the pairs of cells that are compared otherwise."""
    metric, atoms = random_crystal(numbers)
    one = text_of(metric, atoms)
    again = told_again(metric, atoms, numbers)
    moment = told_again(*another_moment(metric, atoms, numbers), numbers)
    position = told_again(*another_position(metric, atoms, numbers), numbers)
    moved = runs.are_two if len(atoms) > 1 else runs.are_one
    answers = [(again, runs.are_one(one, again)), (moment, runs.are_two(one, moment)), (position, moved(one, position))]
    return [f"{one}{other}" for other, right in answers if not right]


def small(runs, count, seed):
    numbers = random.Random(seed)
    wrong = 0
    for _ in range(count):
        pairs_of_cells = judged(runs, numbers)
        wrong += bool(pairs_of_cells)
        for cells in pairs_of_cells:
            print(f"WRONG:\n{cells}", end="")
    print(f"{count} crystals, {count - wrong} of them the same in other words, and another with one moment or position changed")
    return wrong


def main():
    words = argparse.ArgumentParser(description=__doc__.split("\n", maxsplit=1)[0])
    words.add_argument("--binary", default=PROGRAM)
    words.add_argument("--cells", type=int, default=300)
    words.add_argument("--seed", type=int, default=1)
    given = words.parse_args()
    with tempfile.TemporaryDirectory() as folder:
        runs = Runs(given.binary, folder)
        wrong = large(runs) + small(runs, given.cells, given.seed)
    return 1 if wrong else 0


if __name__ == "__main__":
    sys.exit(main())

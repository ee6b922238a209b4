#!/usr/bin/env python3
"""Cells on which most maps fail late, and a search among generated ones for the slowest.

Run it by hand, after the gate, on a quiet machine: bench/hostile.py [--cells N] [--atoms N] [--seed N] [--jobs N] [--program FILE]
It makes N cells of up to so many atoms: rows, grids, pairs, stars, coloured grids and chosen places of a grid, some with defects,
times `magsym symmetry` on each, as a whole process, and prints the slowest. A cell is told by its seed: --show SEED prints it.
The named cells below are timed by bench/bench.py.
"""
import argparse
import functools
import math
import multiprocessing
import pathlib
import random
import subprocess
import sys
import time
from fractions import Fraction

TOP = pathlib.Path(__file__).resolve().parent.parent
PROGRAM = TOP / "crates" / "magsym" / "out" / "magsym"
CUBE = "1 1 1 0 0 0"


def cell(metric, atoms):
    """The text of a cell: atoms as species, place in units of 1/n, n along each axis, and moment."""
    lines = ["magcell 1", "metric " + metric]
    for species, place, parts, moment in atoms:
        position = " ".join(f"{x}/{n}" for x, n in zip(place, parts))
        lines.append(f"atom {species} {position}" + "".join(f" {m}" for m in moment))
    return "\n".join(lines + ["end", ""])


def grid(sides):
    return [(i, j, k) for i in range(sides[0]) for j in range(sides[1]) for k in range(sides[2])]


def plain(places, parts):
    return [("A", place, parts, ()) for place in places]


def drawn(rng, parts, count, pairs):
    """Places at random, each with the one opposite to it where pairs are wanted."""
    places = {}
    while len(places) < count:
        place = tuple(rng.randrange(parts) for _ in range(3))
        opposite = tuple(-x % parts for x in place)
        if place in places or (pairs and (opposite == place or opposite in places)):
            continue
        places[place] = None
        if pairs:
            places[opposite] = None
    return list(places)[:count]


def star(arm, parts, further):
    """Atoms on the three axes, up to a distance on both sides, and one more."""
    places = []
    for axis in range(3):
        for distance in [*range(-arm, 0), *range(1, arm + 1)]:
            place = [0, 0, 0]
            place[axis] = distance % parts
            places.append(tuple(place))
    return plain(places, (parts,) * 3) + [further]


def one_odd(sides):
    """A grid with one moment, on the last atom."""
    places = grid(sides)
    return plain(places[:-1], sides) + [("A", places[-1], sides, (0, 0, 1))]


def all_but_first(sides):
    places = grid(sides)
    return plain(places[:1], sides) + [("A", place, sides, (0, 0, 1)) for place in places[1:]]


def random_moments(sides):
    rng = random.Random(5)
    return [("A", place, sides, tuple(rng.randrange(-9, 10) for _ in range(3))) for place in grid(sides)]


def one_moved(sides):
    """A grid whose last atom is moved by 1/32 of the first edge."""
    places = grid(sides)
    i, j, k = places[-1]
    a, b, c = sides
    return plain(places[:-1], sides) + [("A", (32 // a * i + 1, j, k), (32, b, c), ())]


def two_grids():
    """Two grids of two species, one inside the other, with one atom of each exchanged."""
    sides = (8, 8, 8)
    inside = [tuple(2 * x + 1 for x in place) for place in grid(sides)]
    first = [("A", place, sides, ()) for place in grid(sides)]
    second = [("B", place, (16, 16, 16), ()) for place in inside]
    first[-1] = ("B", *first[-1][1:])
    second[-1] = ("A", *second[-1][1:])
    return first + second


def named():
    """Cells with names on which a search that goes through all atoms is slow."""
    eights = (8, 8, 8)
    long = (8, 8, 16)
    for parts in (1000, 999983):
        yield f"random, 512 atoms at n/{parts}", cell(CUBE, plain(drawn(random.Random(1), parts, 512, False), (parts,) * 3))
    for count in (512, 1024):
        places = drawn(random.Random(3), 999983, count, True)
        yield f"random pairs, {count} atoms", cell(CUBE, plain(places, (999983,) * 3))
    for count, metric in ((512, CUBE), (512, "1000000 1 1 0 0 0"), (1024, CUBE)):
        row = plain([(i, 0, 0) for i in range(count)], (2 * count, 1, 1))
        yield f"half a row, {count} atoms, metric {metric}", cell(metric, row)
    yield "star, 511 atoms, one anywhere", cell(CUBE, star(85, 1000, ("A", (1, 1, 1), (3, 7, 9), ())))
    yield "star, 511 atoms, one in the middle", cell(CUBE, star(85, 1000, ("A", (1, 1, 1), (2, 2, 2), ())))
    yield "grid, 512 atoms, one moment", cell(CUBE, one_odd(eights))
    yield "grid, 512 atoms, all moments but one", cell(CUBE, all_but_first(eights))
    yield "grid, 512 atoms, random moments", cell("999999937 999999937 999999937 0 0 0", random_moments(eights))
    yield "grid, 511 atoms, one left out", cell(CUBE, plain(grid(eights)[:-1], eights))
    yield "grid, 512 atoms, one moved", cell(CUBE, one_moved(eights))
    yield "grid, 1,024 atoms", cell("1 1 4 0 0 0", plain(grid(long), long))
    yield "grid, 1,024 atoms, one moment", cell("1 1 4 0 0 0", one_odd(long))
    yield "grid, 1,024 atoms, one moved", cell("1 1 4 0 0 0", one_moved(long))
    yield "grid, 1,023 atoms, one left out", cell("1 1 4 0 0 0", plain(grid(long)[:-1], long))
    yield "two grids, 1,024 atoms, two exchanged", cell("64 64 64 0 0 0", two_grids())
    yield "random, 1,024 atoms", cell(CUBE, plain(drawn(random.Random(9), 999983, 1024, False), (999983,) * 3))
    yield "random, 1,024 atoms, skew metric", cell("7 11 13 2 1 3", plain(drawn(random.Random(9), 999983, 1024, False), (999983,) * 3))


# ---- generated cells

def with_defects(rng, atoms):
    """Some atoms left out, moved, of another species or with another moment."""
    atoms = list(atoms)
    for _ in range(rng.choice((0, 1, 1, 2, 3, 4, 8, 16))):
        i = rng.randrange(len(atoms))
        species, place, parts, moment = atoms[i]
        kind = rng.randrange(4)
        if kind == 0 and len(atoms) > 1:
            del atoms[i]
        elif kind == 1:
            atoms[i] = (species, (32 * place[0] + 1, *place[1:]), (32 * parts[0], *parts[1:]), moment)
        elif kind == 2:
            atoms[i] = ("C", place, parts, moment)
        else:
            atoms[i] = (species, place, parts, (0, 0, rng.choice((1, 2, -1))))
    return atoms


def sides_within(rng, most):
    while True:
        sides = tuple(rng.choice((1, 2, 3, 4, 5, 6, 7, 8, 12, 16)) for _ in range(3))
        if 1 <= sides[0] * sides[1] * sides[2] <= most:
            return sides


def row(rng, most):
    count = rng.randrange(1, most + 1)
    parts = rng.choice((count, 2 * count, count + 1, 3 * count, 1000))
    axis = rng.randrange(3)
    places = {}
    for i in range(min(count, parts)):
        place = [0, 0, 0]
        place[axis] = i
        places[tuple(place)] = None
    return with_defects(rng, plain(places, (parts,) * 3))


def regular(rng, most):
    sides = sides_within(rng, most)
    return with_defects(rng, plain(grid(sides), sides))


def coloured(rng, most):
    """A grid of two species and two moments, each drawn or in a pattern, one of them rare or not."""
    sides = sides_within(rng, most)
    rare = rng.choice((0.01, 0.1, 0.5))
    period = rng.choice((2, 3, 4))
    moments = rng.choice((lambda p: (), lambda p: (0, 0, rng.choice((1, -1))), lambda p: (0, 0, 1 if sum(p) % period else -1)))
    species = rng.choice((lambda p: "B" if rng.random() < rare else "A", lambda p: "AB"[p[0] % 2], lambda p: "A"))
    return with_defects(rng, [(species(place), place, sides, moments(place)) for place in grid(sides)])


def paired(rng, most):
    parts = rng.choice((16, 32, 100, 1000, 999983))
    count = min(rng.randrange(1, most + 1) // 2 * 2 + 2, most, parts**3 // 8)
    return plain(drawn(rng, parts, count, rng.random() < 0.7), (parts,) * 3)


def starred(rng, most):
    arm = rng.randrange(1, (most - 1) // 6 + 1)
    parts = rng.choice((2 * arm + 1, 4 * arm + 3, 1000))
    further = rng.choice((("A", (1, 1, 1), (2, 2, 2), ()), ("A", (1, 1, 1), (3, 7, 9), ()), ("B", (0, 0, 0), (1, 1, 1), ())))
    return with_defects(rng, star(arm, max(parts, 2 * arm + 1), further))


def chosen(rng, most):
    """Places of a fine grid, each taken with one chance."""
    parts = rng.choice((6, 8, 10, 12, 16))
    places = rng.sample(grid((parts,) * 3), min(most, int(parts**3 * rng.choice((0.1, 0.3, 0.5, 0.9)))))
    return plain(places, (parts,) * 3)


METRICS = (CUBE, CUBE, CUBE, "2 2 2 1 1 1", "3 3 3 -1 -1 -1", "2 2 3 0 0 -1", "1 1 2 0 0 0", "1000000 1 1 0 0 0", "1 2 3 0 0 0")


def is_apart(atoms):
    """Whether no two atoms are at one position."""
    places = {tuple(Fraction(x, n) for x, n in zip(place, parts)) for _, place, parts, _ in atoms}
    return len(places) == len(atoms)


def generated(seed, most):
    rng = random.Random(seed)
    while True:
        atoms = rng.choice((row, regular, regular, coloured, paired, starred, chosen))(rng, most)
        parts = math.lcm(*(n for _, _, parts, _ in atoms for n in parts))
        if len(atoms) <= most and parts <= 1000000 and is_apart(atoms):
            return cell(rng.choice(METRICS), atoms)


def seconds_of(program, text):
    start = time.perf_counter()
    done = subprocess.run([program, "symmetry"], input=text.encode(), stdout=subprocess.PIPE, stderr=subprocess.PIPE, check=False)
    return time.perf_counter() - start, done.returncode


def tried(program, most, seed):
    """The time of one generated cell, its seed, its atoms, and whether it is refused."""
    text = generated(seed, most)
    seconds, status = seconds_of(program, text)
    return seconds, seed, text.count("\natom"), status != 0


def main():
    parser = argparse.ArgumentParser(description="searches generated cells for the slowest")
    parser.add_argument("--cells", type=int, default=10000)
    parser.add_argument("--atoms", type=int, default=512)
    parser.add_argument("--seed", type=int, default=0, help="the seed of the first cell; each next cell has the next one")
    parser.add_argument("--jobs", type=int, default=1, help="how many cells are tried at once; the slowest are timed again alone")
    parser.add_argument("--program", default=str(PROGRAM))
    parser.add_argument("--show", type=int, help="print the cell of this seed")
    options = parser.parse_args()
    if options.show is not None:
        print(generated(options.show, options.atoms), end="")
        return None
    if not pathlib.Path(options.program).exists():
        sys.exit("hostile: the program is not built; run bin/magsym once")
    try_seed = functools.partial(tried, options.program, options.atoms)
    with multiprocessing.Pool(options.jobs) as pool:
        results = pool.map(try_seed, range(options.seed, options.seed + options.cells), chunksize=50)
    refused = sum(result[3] for result in results)
    slowest = sorted(results, reverse=True)[:10]
    print(f"{options.cells} cells of up to {options.atoms} atoms, {refused} refused; the slowest:")
    for seconds, seed, atoms, _ in slowest:
        best = min(seconds_of(options.program, generated(seed, options.atoms))[0] for _ in range(3))
        print(f"  seed {seed}, {atoms} atoms: {seconds:.4f} s, best of three more {best:.4f} s")
    return None


if __name__ == "__main__":
    main()

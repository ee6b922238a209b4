"""Random cells in floats, with symmetry: for comparing with another program, and for runs on many cells."""

import random

import numpy

LATTICES = [
    [[4, 0, 0], [0, 4, 0], [0, 0, 4]],
    [[4, 0, 0], [0, 4, 0], [0, 0, 5.5]],
    [[4, 0, 0], [0, 4.7, 0], [0, 0, 5.5]],
    [[4, 0, 0], [-2, 2 * 3**0.5, 0], [0, 0, 5.5]],
    [[0, 3, 3], [3, 0, 3], [3, 3, 0]],
    [[-2, 2, 2], [2, -2, 2], [2, 2, -2]],
    [[4, 0, 0], [0, 4.7, 0], [1.3, 0, 5.5]],
    [[4, 0.3, 0.2], [0.4, 4.7, 0.1], [1.3, 0.7, 5.5]],
]
PLACES = [0, 0, 0.5, 0.5, 0.25, 0.75, 1 / 3, 2 / 3, 0.2, 0.137]
SHIFTS = [(0.5, 0.5, 0.5), (0.5, 0.5, 0), (0, 0, 0.5), None]


def apart(place, others):
    """Whether a position is at none of the others, modulo whole translations."""
    return all(numpy.abs((d := numpy.array(place) - other) - numpy.rint(d)).max() > 0.01 for other in others)


def drawn_atoms(draw, vectors):
    """Positions, numbers and moments along the axes."""
    places, numbers, moments = [], [], []
    shift, count = draw.choice(SHIFTS), draw.randint(1, 6)
    while len(places) < count:
        place, number, size = [draw.choice(PLACES) for _ in range(3)], draw.choice([1, 1, 2]), draw.choice([0, 1, 1, -1, 2])
        moment = draw.choice([[0, 0, size], [size, 0, 0], [size, size, 0], [size, size, size]]) if vectors else [size, 0, 0]
        for moved, sign in [(place, 1)] + ([([x + t for x, t in zip(place, shift)], draw.choice([1, -1]))] if shift else []):
            if apart(moved, places):
                places.append([x % 1 for x in moved])
                numbers.append(number)
                moments.append([sign * part for part in moment])
    return numpy.array(places), numbers, numpy.array(moments, dtype=float)


def skew(draw):
    """A matrix of integers of determinant 1."""
    turn = numpy.eye(3, dtype=int)
    for _ in range(draw.randint(0, 3)):
        i, j = draw.sample(range(3), 2)
        turn[i] += draw.choice((-1, 1)) * turn[j]
    return turn


def structure(seed):
    """Spglib's tuple: lattice, positions, numbers, and moments, three of four times vectors."""
    draw = random.Random(seed)
    vectors = seed % 4 != 3
    places, numbers, moments = drawn_atoms(draw, vectors)
    turn = skew(draw)
    lattice = turn @ numpy.array(draw.choice(LATTICES), dtype=float)
    moments = moments @ lattice if vectors else moments[:, 0]
    origin = draw.choice([[0, 0, 0], [0.1, 0.2, 0.3], [draw.random() for _ in range(3)]])
    return lattice, places + origin, numbers, moments

"""Crystals that have a given magnetic space group, made from nothing but its operations.

A group is a set of operations with translation parts in twelfths, as those of tables/hall.py. Its crystal has two species
in general positions: the second without moments, the first with such that the operations carry, or without where time
reversal itself is an operation. The metric tensor is one that the operations keep:

    moderate   of axes of like lengths
    flat       one direction far shorter than the others
    long       one direction far longer than the others

Then the crystal is brought to another basis of determinant 1, and to another origin: a skew basis of the lattice of pure
translations, or in the moderate metric of the axes of the group where there are not too many atoms. In a cubic group no
direction can be longer than another; there the basis is flat or long, with two axes or one far longer than the others.
All is drawn from name and kind of the crystal.
"""
import itertools
import math
import os
import random
import sys
from functools import lru_cache
from typing import NamedTuple

sys.path.insert(0, os.path.join(os.path.dirname(os.path.abspath(__file__)), "..", "tables"))
import hall
from equivalence import adjugate, determinant, transpose

KINDS = ("moderate", "flat", "long")
RANKS = {"flat": 2, "long": 1}  # of the form that stretches the metric tensor
N = 12 * 1009  # positions are in units of 1/N, of which translation parts are multiples
STRETCH = 300000  # the ratio of squared lengths, about
SHEAR = 300  # the ratio of lengths, about
MOST_ATOMS = 512
MOST_METRIC = 10**9
ENTRIES = (0, 4, 8, 5, 2, 1)  # of the metric tensor, in the order of the cell file
COVECTORS = [v for v in itertools.product(range(-2, 3), repeat=3) if any(v)]


class Crystal(NamedTuple):
    """The cell file, and what takes positions x in the axes of the group to those in the cell: turn x + origin / N."""

    text: str
    turn: tuple
    origin: tuple


# Matrices, row by row; those of hall.py remember each result, which are too many here


def rows_of(matrix):
    return matrix[0:3], matrix[3:6], matrix[6:9]


def image(matrix, column):
    return tuple(sum(x * y for x, y in zip(row, column)) for row in rows_of(matrix))


def product(first, second):
    columns = [second[i::3] for i in range(3)]
    return tuple(sum(x * y for x, y in zip(row, column)) for row in rows_of(first) for column in columns)


# The metric tensor


def kept_by(matrices, covector):
    """The square of a covector, summed over the matrices, as small integers: a form that they keep."""
    images = [image(transpose(matrix), covector) for matrix in matrices]
    total = [sum(v[i] * v[j] for v in images) for i in range(3) for j in range(3)]
    return divided(total)


def divided(form):
    size = math.gcd(*form)
    return tuple(entry // size for entry in form)


def added(one, other, times=1):
    return tuple(a + times * b for a, b in zip(one, other))


def rank(form):
    if determinant(form):
        return 3
    return 2 if any(adjugate(form)) else 1


@lru_cache(maxsize=None)
def forms_of(matrices):
    """Forms that the matrices keep, and by kind of crystal those that are 0 in one direction or in two alone."""
    forms = sorted({kept_by(matrices, covector) for covector in COVECTORS})
    singular = [form for form in forms if rank(form) < 3]
    singular += [added(one, other) for one, other in itertools.combinations(singular, 2)]
    return forms, {kind: [form for form in singular if rank(form) == wanted] for kind, wanted in RANKS.items()}


def metric_of(matrices, kind, rng):
    """A metric tensor of integers that the matrices keep, and whether it is stretched as the kind says."""
    forms, singular = forms_of(matrices)
    form = kept_by(matrices, (1, 1, 1))
    for axis in ((1, 0, 0), (0, 1, 0), (0, 0, 1)):
        form = added(form, kept_by(matrices, axis), rng.randint(3, 9))
    for _ in range(3):
        form = added(form, rng.choice(forms), rng.randint(1, 3))
    stretched = singular.get(kind)
    return (added(form, rng.choice(stretched), STRETCH), True) if stretched else (form, kind == "moderate")


# The basis


def pure_translations(group):
    return [translation for matrix, translation, sign in group if matrix == hall.ONE and sign == 1]


def lattice_basis(translations):
    """A basis of the lattice that whole translations and these generate, as columns, in twelfths."""
    whole = [(12, 0, 0), (0, 12, 0), (0, 0, 12)]
    columns = []
    for axis in range(3):
        found = [v for v in [*translations, whole[axis]] if not any(v[:axis]) and v[axis]]
        columns.append(min(found, key=lambda v: v[axis]))
    return transpose(tuple(entry for column in columns for entry in column))


def turn_to_lattice(group):
    """The matrix of integers that takes coordinates in the axes of the group to those in a basis of its lattice."""
    basis = lattice_basis(pure_translations(group))
    size = determinant(basis)
    return tuple(12 * entry // size for entry in adjugate(basis))


def skew(rng):
    """A matrix of integers of determinant 1."""
    rows = [[1, 0, 0], [0, 1, 0], [0, 0, 1]]
    for _ in range(5):
        i, j = rng.sample(range(3), 2)
        times = rng.choice((-2, -1, 1, 2))
        rows[i] = [a + times * b for a, b in zip(rows[i], rows[j])]
    turns = rng.randrange(3)
    return tuple(entry for row in rows[turns:] + rows[:turns] for entry in row)


def sheared(turn, kind):
    """A turn on, to a basis of which two axes are long, or one."""
    first, second, third = rows_of(turn)
    third = added(third, first, -SHEAR)
    if kind == "flat":
        third = added(third, second, SHEAR + 1)
    return first + second + third


def in_basis(metric, turn):
    """The metric tensor in the basis to which a matrix takes coordinates: numerators, and their denominator."""
    axes = adjugate(turn)
    numerators = product(product(transpose(axes), metric), axes)
    size = math.gcd(*numerators, determinant(turn) ** 2)
    return tuple(entry // size for entry in numerators), determinant(turn) ** 2 // size


def skew_basis(metric, turn, rng):
    """A turn on, to a basis in which the metric tensor is within the limits, and the metric tensor there."""
    while True:
        skewed = product(skew(rng), turn)
        numerators, denominator = in_basis(metric, skewed)
        if max(map(abs, numerators)) <= MOST_METRIC:
            return skewed, numerators, denominator


# Atoms


def carried(operation, position, moment):
    """Where an operation takes an atom: its position in units of 1/N, and its moment."""
    matrix, translation, sign = operation
    moved = image(matrix, position)
    factor = sign * determinant(matrix)
    place = tuple((x + w * (N // 12)) % N for x, w in zip(moved, translation))
    return place, tuple(factor * m for m in image(matrix, moment))


def orbit(group, position, moment):
    """The moments of all atoms to which the group takes one, by their positions."""
    return dict(carried(operation, position, moment) for operation in group)


def drawn(rng, most):
    return tuple(rng.randint(1, most) for _ in range(3))


def general_orbit(group, moment, rng):
    """The orbit of a position that no operation but the identity, or time reversal alone, takes to itself."""
    while True:
        found = orbit(group, drawn(rng, N - 1), moment)
        if len(found) == len({operation[:2] for operation in group}):
            return found


def is_grey(group):
    return (hall.ONE, (0, 0, 0), -1) in group


def atoms_of(group, turn, origin, rng):
    """The atoms in the cell: species, position and moment."""
    moments = {"A": (0, 0, 0) if is_grey(group) else drawn(rng, 99), "B": (0, 0, 0)}
    found = set()
    for species, moment in moments.items():
        for place, carried_moment in general_orbit(group, moment, rng).items():
            moved = tuple((x + p) % N for x, p in zip(image(turn, place), origin))
            found.add((species, moved, image(turn, carried_moment)))
    atoms = sorted(found)
    rng.shuffle(atoms)
    return atoms


# The crystal


def spelled(atom):
    species, place, moment = atom
    words = [species, *(f"{x}/{N}" for x in place)]
    return " ".join(["atom", *words, *map(str, moment)] if any(moment) else ["atom", *words])


def cell_file(name, numerators, denominator, atoms):
    metric = " ".join(f"{numerators[at]}/{denominator}" for at in ENTRIES)
    return "\n".join(["magcell 1", f"# {name}", f"metric {metric}", *map(spelled, atoms), "end", ""])


def is_in_its_axes(group, kind):
    """Whether the cell is one of whole translations of the group's axes, of which its lattice may have more."""
    positions = len({operation[:2] for operation in group})
    return kind == "moderate" and 2 * positions <= MOST_ATOMS


def crystal(name, group, kind):
    """The crystal of a kind that has a group."""
    rng = random.Random(f"{name} {kind}")
    matrices = tuple(sorted({matrix for matrix, _, _ in group}))
    metric, is_stretched = metric_of(matrices, kind, rng)
    start = hall.ONE if is_in_its_axes(group, kind) else turn_to_lattice(group)
    if not is_stretched:
        start = sheared(start, kind)
    turn, numerators, denominator = skew_basis(metric, start, rng)
    origin = drawn(rng, N - 1)
    atoms = atoms_of(sorted(group), turn, origin, rng)
    return Crystal(cell_file(f"{name}, {kind}", numerators, denominator, atoms), turn, origin)

"""When two magnetic space groups, sets of operations with translation parts in twelfths, are of one type.

A map takes a position x to Qx + p and so (W, w, sign) to (QWQ⁻¹, Qw + p - QWQ⁻¹p, sign). Tried are the 24 proper maps
Q that take axes to axes, the identity first, and the origin shifts p in eighths. A map is proof that the types are the
same. That none of these is found is no proof that they differ; that `fixed_points` differs is one.
"""
from collections import Counter
from itertools import permutations, product
from typing import NamedTuple

import hall

EIGHTHS = list(product(range(0, 24, 3), repeat=3))


class Map(NamedTuple):
    """Q, and p in 24ths."""

    axes: tuple
    origin: tuple


def determinant(m):
    return m[0] * (m[4] * m[8] - m[5] * m[7]) - m[1] * (m[3] * m[8] - m[5] * m[6]) + m[2] * (m[3] * m[7] - m[4] * m[6])


def transpose(matrix):
    return matrix[0::3] + matrix[1::3] + matrix[2::3]


def cross(u, v):
    return (u[1] * v[2] - u[2] * v[1], u[2] * v[0] - u[0] * v[2], u[0] * v[1] - u[1] * v[0])


def adjugate(m):
    first, second, third = hall.rows_of(m)
    return transpose(cross(second, third) + cross(third, first) + cross(first, second))


def proper_axes():
    """The 24 matrices of determinant 1 with one 1 or -1 in each row and column, the identity first."""
    found = []
    for order in permutations(range(3)):
        for signs in product((1, -1), repeat=3):
            matrix = tuple(signs[i] if order[i] == j else 0 for i in range(3) for j in range(3))
            if determinant(matrix) == 1:
                found.append(matrix)
    return found


AXES = proper_axes()


def turned(operations, axes):
    """The operations in other axes, with p = 0 and translation parts in 24ths."""
    back = transpose(axes)
    found = []
    for matrix, translation, sign in operations:
        carried = hall.product(hall.product(axes, matrix), back)
        found.append((carried, tuple(2 * part % 24 for part in hall.image(axes, translation)), sign))
    return found


def is_carried(operations, origin, others):
    """Whether the origin shift takes each of the operations to one of the others, all in 24ths."""
    for matrix, translation, sign in operations:
        held = hall.image(matrix, origin)
        if (matrix, tuple((w + p - h) % 24 for w, p, h in zip(translation, origin, held)), sign) not in others:
            return False
    return True


def map_between(operations, others):
    """The first map that takes the one group to the other, or None."""
    if len(operations) != len(others):
        return None
    wanted = set(turned(others, AXES[0]))
    matrices = {(matrix, sign) for matrix, _, sign in others}
    for axes in AXES:
        given = turned(operations, axes)
        if {(matrix, sign) for matrix, _, sign in given} != matrices:
            continue
        for origin in EIGHTHS:
            if is_carried(given, origin, wanted):
                return Map(axes, origin)
    return None


def has_fixed_point(matrix, translation, pure):
    """Whether an operation with a diagonal matrix fixes a point after some pure translation: no screw and no glide."""
    return any(all(matrix[4 * i] == -1 or (translation[i] + t[i]) % 12 == 0 for i in range(3)) for t in pure)


def fixed_points(operations):
    """How many operations of each trace, determinant and sign fix a point, and how many don't, up to pure translations.

    None where a matrix is not diagonal. Groups of one type, in any bases with diagonal matrices, have the same counts.
    """
    if any(matrix[i] for matrix, _, _ in operations for i in (1, 2, 3, 5, 6, 7)):
        return None
    pure = [translation for matrix, translation, sign in operations if matrix == hall.ONE and sign == 1]
    found = Counter()
    for matrix, translation, sign in operations:
        kind = (matrix[0] + matrix[4] + matrix[8], determinant(matrix), sign)
        found[kind + (has_fixed_point(matrix, translation, pure),)] += 1
    return {kind: count // len(pure) for kind, count in found.items()}

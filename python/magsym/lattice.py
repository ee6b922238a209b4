"""Lattices in floats: a reduced basis, and the matrices that keep a lattice within a tolerance.

A lattice is an array of shape (3, 3) with the basis vectors as rows, in any unit of length.
"""

from __future__ import annotations

import itertools

import numpy

# Coordinates of the vectors that are tried as images of the vectors of a reduced basis.
NEAR = numpy.array([v for v in itertools.product(range(-2, 3), repeat=3) if any(v)])
# The edges of a cell and the diagonals of its faces.
SPANS = numpy.array([(1, 0, 0), (0, 1, 0), (0, 0, 1), (0, 1, 1), (1, 0, 1), (1, 1, 0), (0, 1, -1), (1, 0, -1), (1, -1, 0)])
STEPS = 1000
MOST_MATRICES = 48


def metric_tensor(lattice: numpy.ndarray) -> numpy.ndarray:
    """The scalar products of the basis vectors, shape (3, 3)."""
    return lattice @ lattice.T


def lengths(vectors: numpy.ndarray, metric: numpy.ndarray) -> numpy.ndarray:
    """The lengths of vectors of coordinates, shape (.., 3), by a metric tensor."""
    return numpy.sqrt(numpy.maximum(numpy.einsum("...i,ij,...j->...", vectors, metric, vectors), 0))


def length_change(metric: numpy.ndarray, other: numpy.ndarray) -> float:
    """The largest difference of the lengths of an edge or of a diagonal of a face, by two metric tensors."""
    return float(numpy.abs(lengths(SPANS, metric) - lengths(SPANS, other)).max())


def shortened(basis: numpy.ndarray, metric: numpy.ndarray) -> numpy.ndarray:
    """The basis, as rows of integers, with its longest vector made shorter by the two others where that is possible."""
    ordered = basis[numpy.argsort(lengths(basis, metric), kind="stable")]
    steps = numpy.array([(s, t, 1) for s in range(-1, 2) for t in range(-1, 2)])
    tried = steps @ ordered
    sizes = lengths(tried, metric)
    best = int(numpy.argmin(sizes))
    if sizes[best] < sizes[4] * (1 - 1e-9):
        ordered = numpy.vstack([ordered[:2], tried[best]])
    return ordered


def pair_shortened(basis: numpy.ndarray, metric: numpy.ndarray) -> numpy.ndarray:
    """The basis with the second of its two shortest vectors made as short as the first can make it."""
    ordered = basis[numpy.argsort(lengths(basis, metric), kind="stable")]
    first, second = ordered[0], ordered[1]
    times = round(float(first @ metric @ second) / float(first @ metric @ first))
    shorter = second - times * first
    if times and lengths(shorter, metric) < lengths(second, metric) * (1 - 1e-9):
        ordered = numpy.vstack([first, shorter, ordered[2]])
    return ordered


def far_shortened(basis: numpy.ndarray, metric: numpy.ndarray) -> numpy.ndarray:
    """The basis with its longest vector brought near the normal of the plane of the others."""
    ordered = basis[numpy.argsort(lengths(basis, metric), kind="stable")]
    plane = ordered[:2]
    within = numpy.linalg.solve(plane @ metric @ plane.T, plane @ metric @ ordered[2])
    nearer = ordered[2] - numpy.rint(within).astype(int) @ plane
    if lengths(nearer, metric) < lengths(ordered[2], metric) * (1 - 1e-9):
        ordered = numpy.vstack([plane, nearer])
    return ordered


def reduced_basis(lattice: numpy.ndarray) -> numpy.ndarray:
    """A basis of shortest vectors, as columns of integers of determinant 1 in the given axes; shape (3, 3)."""
    metric = metric_tensor(lattice)
    basis, size = numpy.eye(3, dtype=int), numpy.inf
    for _ in range(STEPS):
        basis = shortened(far_shortened(pair_shortened(basis, metric), metric), metric)
        total = float(lengths(basis, metric).sum())
        if total >= size * (1 - 1e-9):
            break
        size = total
    columns = basis.T
    return columns if numpy.linalg.det(columns) > 0 else -columns


def lattice_symmetries(lattice: numpy.ndarray, tolerance: float) -> list[numpy.ndarray]:
    """The integer matrices that take a reduced basis to vectors of the same lengths and angles within a tolerance of length.

    They act on columns of coordinates. Tried are entries from -2 to 2.
    """
    metric = metric_tensor(lattice)
    sizes = lengths(NEAR, metric)
    own = numpy.sqrt(numpy.diag(metric))
    images = [NEAR[numpy.abs(sizes - own[i]) <= tolerance] for i in range(3)]
    near = tolerance * numpy.add.outer(own, own) / 2
    found = []
    for first in images[0]:
        seconds = alike(images[1], first, metric, metric[0, 1], near[0, 1])
        others = alike(images[2], first, metric, metric[0, 2], near[0, 2])
        pairs = ((second, alike(others, second, metric, metric[1, 2], near[1, 2])) for second in seconds)
        found += [numpy.column_stack([first, second, third]) for second, thirds in pairs for third in thirds]
    return [matrix for matrix in found if abs(round(numpy.linalg.det(matrix))) == 1]


def alike(vectors: numpy.ndarray, other: numpy.ndarray, metric: numpy.ndarray, wanted: float, tolerance: float) -> numpy.ndarray:
    """Those of some vectors whose scalar product with another is the wanted one within a tolerance."""
    return vectors[numpy.abs(vectors @ metric @ other - wanted) <= tolerance]


def key(matrix: numpy.ndarray) -> tuple[int, ...]:
    """The entries of an integer matrix, row by row."""
    return tuple(int(entry) for entry in numpy.rint(matrix).ravel())


def is_group(matrices: list[numpy.ndarray]) -> bool:
    """Whether the products of the matrices are among them, and they are no more than a lattice can have."""
    if not 0 < len(matrices) <= MOST_MATRICES:
        return False
    stack = numpy.array(matrices)
    keys = {key(matrix) for matrix in matrices}
    products = numpy.einsum("aij,bjk->abik", stack, stack).reshape(-1, 9)
    return {tuple(row) for row in products.tolist()} <= keys

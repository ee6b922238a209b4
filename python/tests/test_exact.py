"""From floats to exact cells."""

import random
from fractions import Fraction

import numpy
import pytest

import magsym

RUTILE = (
    [[4.8734, 0, 0], [0, 4.8734, 0], [0, 0, 3.3099]],
    [[0, 0, 0], [0.5, 0.5, 0.5], [0.305, 0.305, 0], [0.695, 0.695, 0], [0.805, 0.195, 0.5], [0.195, 0.805, 0.5]],
    [25, 25, 9, 9, 9, 9],
    [[0, 0, 4.6], [0, 0, -4.6], [0, 0, 0], [0, 0, 0], [0, 0, 0], [0, 0, 0]],
)


def shaken(structure, size, seed=1):
    """The structure with noise of a size (in units of length, and of moments) on all its numbers."""
    draw = numpy.random.default_rng(seed)
    lattice, positions, numbers, moments = (numpy.array(part, dtype=float) for part in structure)
    noise = [draw.uniform(-size, size, part.shape) for part in (lattice, positions, moments)]
    return lattice + noise[0], positions + noise[1] @ numpy.linalg.inv(lattice), numbers.astype(int), moments + noise[2]


def test_decimals_stay_as_they_are():
    found = magsym.exact(*RUTILE)
    assert found.cell.atoms[2].position == (Fraction("0.305"), Fraction("0.305"), 0)
    assert found.position_change < 1e-12
    assert found.operations == 16


@pytest.mark.parametrize("size", [1e-7, 1e-5, 1e-3])
def test_noise_within_the_tolerance_is_averaged_out(size):
    found = magsym.exact(*shaken(RUTILE, size), symprec=20 * size)
    assert len(magsym.symmetry(found.cell)) == found.operations == 16
    assert magsym.bns(found.cell).bns_number == "136.499"
    assert found.cell.metric[0] == found.cell.metric[1] and found.cell.metric[3:] == (0, 0, 0)
    assert 0 < found.position_change < 4 * size and found.length_change < 4 * size and found.moment_change < 4 * size


def test_noise_beyond_the_tolerance_is_kept():
    found = magsym.exact(*shaken(RUTILE, 1e-3), symprec=1e-5)
    assert magsym.bns(found.cell).bns_number == "1.1"


def test_another_origin_is_no_obstacle():
    lattice, positions, numbers, moments = (numpy.array(part) for part in RUTILE)
    found = magsym.exact(lattice, positions + [0.1234567, 0.2345678, 0.3456789], numbers, moments, symprec=1e-4)
    assert magsym.bns(found.cell).bns_number == "136.499"


@pytest.mark.parametrize("seed", range(6))
def test_another_basis_has_the_same_group(seed):
    draw = random.Random(seed)
    turn = numpy.eye(3, dtype=int)
    for _ in range(4):
        i, j = draw.sample(range(3), 2)
        turn[i] += draw.choice((-1, 1)) * turn[j]
    lattice, positions, numbers, moments = (numpy.array(part) for part in RUTILE)
    found = magsym.exact(turn @ lattice, positions @ numpy.linalg.inv(turn), numbers, moments, symprec=1e-4)
    assert magsym.bns(found.cell).bns_number == "136.499"


def test_a_larger_cell_has_more_operations():
    lattice, positions, numbers, moments = (numpy.array(part) for part in RUTILE)
    both = numpy.vstack([positions, positions + [0, 0, 1]]) / [1, 1, 2]
    cell = (lattice * [[1], [1], [2]], both, [*numbers, *numbers], numpy.vstack([moments, moments]))
    assert magsym.exact(*cell).operations == 32
    assert len(magsym.symmetry(magsym.exact(*shaken(cell, 1e-4), symprec=2e-3).cell)) == 32


@pytest.mark.parametrize("times, operations", [((1, 1, 2), 64), ((1, 1, 3), 96), ((2, 2, 1), 128), ((1, 2, 3), 96)])
def test_operations_are_those_of_the_given_cell(times, operations):
    places = numpy.array([(i, j, k) for i in range(times[0]) for j in range(times[1]) for k in range(times[2])]) / times
    found = magsym.exact(numpy.diag([3.0 * part for part in times]), places, [26] * len(places))
    assert found.operations == len(magsym.symmetry(found.cell)) == operations


def test_scalars_are_plain_unless_told_otherwise():
    lattice, positions, numbers, moments = RUTILE
    scalars = [moment[2] for moment in moments]
    assert magsym.exact(lattice, positions, numbers, scalars).cell.kind is magsym.Kind.SCALAR_PLAIN
    assert magsym.exact(lattice, positions, numbers, scalars, is_axial=True).cell.kind is magsym.Kind.SCALAR_AXIAL
    assert magsym.exact(lattice, positions, numbers, scalars).operations == 16


def test_thirds_come_out_exactly():
    lattice = [[3, 0, 0], [-1.5, 1.5 * 3**0.5, 0], [0, 0, 5]]
    cell = magsym.exact(lattice, [[0.33333, 0.66667, 0.25], [0.66667, 0.33333, 0.75]], [1, 1], None, symprec=1e-3).cell
    assert cell.atoms[0].position == (Fraction(1, 3), Fraction(2, 3), Fraction(1, 4))
    assert cell.metric[5] == -cell.metric[0] / 2


@pytest.mark.parametrize(
    "cell, reason",
    [
        (([[1, 0, 0], [0, 1, 0], [1, 1, 0]], [[0, 0, 0]], [1]), "one plane"),
        (([[1, 0, 0], [0, 1, 0], [0, 0, float("nan")]], [[0, 0, 0]], [1]), "infinite or none"),
        (([[1e6, 0, 0], [0, 1e6, 0], [0, 0, 1e6]], [[0, 0, 0]], [1]), "beyond the range"),
        (([[1e-10, 0, 0], [0, 1e-10, 0], [0, 0, 1e-10]], [[0, 0, 0]], [1]), "too large for a lattice"),
        (([[4, 0, 0], [0, 4, 0], [0, 0, 4]], [[0, 0, 0], [0, 0, 1]], [1, 2]), "atoms 1 and 2 are within symprec"),
    ],
)
def test_what_is_no_cell_is_refused_with_the_reason(cell, reason):
    with pytest.raises(magsym.NotExact, match=reason):
        magsym.exact(*cell)


def test_a_change_beyond_the_tolerance_is_refused():
    with pytest.raises(magsym.NotExact, match="more than the tolerance"):
        magsym.exact([[50, 0, 0], [0, 51, 0], [0, 0, 52]], [[0.123456789, 0.2345678912, 0.3]], [1], symprec=1e-9)


def test_wrong_shapes_are_refused():
    with pytest.raises(ValueError):
        magsym.exact([[1, 0, 0], [0, 1, 0]], [[0, 0, 0]], [1])
    with pytest.raises(ValueError, match="one name"):
        magsym.exact(*RUTILE, names=["Mn", "Mn"])
    with pytest.raises(TypeError):
        magsym.get_magnetic_symmetry(RUTILE[:3])

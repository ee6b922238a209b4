"""The same calls as Spglib's, on the same floats: 300 random cells."""

import pickle

import numpy
import pytest
from conftest import needs
from drawn import structure

import magsym
import magsym as ours

CELLS = 300
SYMPREC = 1e-4
KEYS = ("rotations", "translations", "time_reversals", "equivalent_atoms", "primitive_lattice")


def operations(found):
    """A set of operations, translations in steps of 1/1000 from 0 to below 1."""
    steps = numpy.rint(found["translations"] * 1000).astype(int) % 1000
    rows = zip(found["rotations"].reshape(-1, 9).tolist(), steps.tolist(), found["time_reversals"].tolist())
    return {(tuple(matrix), tuple(translation), reverses) for matrix, translation, reverses in rows}


def is_close(one, other):
    """Whether each operation of the one is one of the other, translations within steps of 1/1000."""
    left, right = operations(one), operations(other)
    if left == right:
        return True
    near = {}
    for matrix, translation, reverses in right:
        near.setdefault((matrix, reverses), []).append(numpy.array(translation))
    return len(left) == len(right) and all(
        any(numpy.abs((d := numpy.array(w) - v) - 1000 * numpy.rint(d / 1000)).max() <= 2 for v in near.get((matrix, reverses), []))
        for matrix, w, reverses in left
    )


@needs("spglib")
def test_300_random_cells_have_the_operations_that_spglib_finds():
    import spglib

    differing = []
    for seed in range(CELLS):
        cell = structure(seed)
        theirs = spglib.get_magnetic_symmetry(cell, symprec=SYMPREC)
        found = ours.get_magnetic_symmetry(cell, symprec=SYMPREC)
        if theirs is None or not is_close(found, theirs):
            differing.append((seed, len(found["rotations"]), None if theirs is None else len(theirs["rotations"])))
    assert differing == []


@needs("spglib")
def test_keys_shapes_and_dtypes_are_those_of_spglib():
    import spglib

    for seed in (0, 3, 5):
        cell = structure(seed)
        theirs, found = spglib.get_magnetic_symmetry(cell, symprec=SYMPREC), ours.get_magnetic_symmetry(cell, symprec=SYMPREC)
        assert set(found) == set(theirs) == set(KEYS)
        for key in KEYS:
            assert (found[key].shape, found[key].dtype) == (theirs[key].shape, theirs[key].dtype), key
        assert found["equivalent_atoms"].tolist() == theirs["equivalent_atoms"].tolist()


@needs("spglib")
def test_the_dataset_has_the_keys_and_the_numbers_of_spglib():
    import spglib

    rutile = (
        [[4.87, 0, 0], [0, 4.87, 0], [0, 0, 3.31]],
        [[0, 0, 0], [0.5, 0.5, 0.5], [0.305, 0.305, 0], [0.695, 0.695, 0], [0.805, 0.195, 0.5], [0.195, 0.805, 0.5]],
        [25, 25, 9, 9, 9, 9],
        [[0, 0, 4.6], [0, 0, -4.6], [0, 0, 0], [0, 0, 0], [0, 0, 0], [0, 0, 0]],
    )
    theirs, found = spglib.get_magnetic_symmetry_dataset(rutile), ours.get_magnetic_symmetry_dataset(rutile)
    assert set(found) <= set(theirs)
    for key in ("uni_number", "msg_type", "tensor_rank", "n_operations", "n_atoms"):
        assert found[key] == theirs[key], key
    for key in ("transformation_matrix", "origin_shift", "primitive_lattice"):
        assert (found[key].shape, found[key].dtype) == (theirs[key].shape, theirs[key].dtype), key


@needs("spglib")
def test_random_cells_have_the_uni_number_that_spglib_gives():
    import spglib

    pairs = []
    for cell in map(structure, (seed for seed in range(CELLS, CELLS + 60) if seed % 4 != 3)):
        theirs = spglib.get_magnetic_symmetry_dataset(cell, symprec=SYMPREC)
        if theirs is not None:  # in some skew cells Spglib finds none
            found = ours.get_magnetic_symmetry_dataset(cell, symprec=SYMPREC)
            pairs.append(((found.uni_number, found.msg_type), (theirs["uni_number"], theirs["msg_type"])))
    assert len(pairs) > 30
    assert [pair for pair in pairs if pair[0] != pair[1]] == []


def test_the_transformation_takes_positions_to_the_bns_axes():
    found = ours.get_magnetic_symmetry_dataset(([[4, 0, 0], [0, 4, 0], [0, 0, 5]], [[0.3, 0.1, 0.2]], [26], [[0, 0, 2.2]]))
    place = found.transformation_matrix @ [0.3, 0.1, 0.2] + found.origin_shift
    assert numpy.abs(2 * place - numpy.rint(2 * place)).max() < 1e-6


def test_what_was_made_exact_is_told_and_goes_along():
    found = pickle.loads(pickle.dumps(ours.get_magnetic_symmetry(structure(1), symprec=SYMPREC)))
    assert found.exact.position_change < SYMPREC and found.exact.cell.comments[0].startswith("made exact")
    assert "exact" not in found and found["rotations"].shape == found.rotations.shape
    with pytest.raises(AttributeError):
        found.hall_number


def test_operations_without_time_reversal():
    cell = structure(1)
    found = ours.get_magnetic_symmetry(cell, symprec=SYMPREC, with_time_reversal=False)
    assert not found["time_reversals"].any()
    assert found.rotations is found["rotations"]


def test_what_cannot_be_made_exact_is_refused():
    with pytest.raises(magsym.NotExact):
        ours.get_magnetic_symmetry(([[1, 0, 0], [0, 1, 0], [1, 1, 0]], [[0, 0, 0]], [1], [[0, 0, 1]]))

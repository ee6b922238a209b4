"""The commands of the program, on crystals of the documentation."""

import json
import pickle
from fractions import Fraction
from pathlib import Path

import numpy
import pytest
from conftest import has_command

import magsym
from magsym import Cell
from magsym.answers_text import as_json, as_text
from magsym.exact_numbers import inverse
from magsym.groups import both_tables, point_group_order, rows_alike
from magsym.runner import run

TOP = Path(__file__).resolve().parents[2]
EXAMPLES = TOP / "docs" / "examples"
CUBE = Cell("1 1 1 0 0 0", [("A", "0 0 0", "0 0 1")])
CHAIN = Cell("1 1 4 0 0 0", [("A", "0 0 0", "0 0 1"), ("A", "0 0 1/2", "0 0 -1")])
BODY = Cell("1 1 1 0 0 0", [("A", "0 0 0"), ("A", "1/2 1/2 1/2")])
WORDS = {"compare": ["x"], "moments": [], "fill": ["1", "0", "0", "1"], "standard": ["x"]}
BUILT = {command: has_command(command, *words) for command, words in WORDS.items()}


def example(name):
    return Cell.from_text((EXAMPLES / f"{name}.cell").read_text())


def where_built(command):
    return pytest.mark.skipif(not BUILT[command], reason=f"the built program has no {command} yet")


@pytest.mark.parametrize("name", ["cubic_ferromagnet", "manganese_fluoride", "triangular_antiferromagnet", "cubic_ferromagnet_askew"])
def test_symmetry_is_the_report_of_the_program(name):
    assert magsym.symmetry(example(name)).lines() == (EXAMPLES / f"{name}.out").read_text().splitlines()


def test_operations_are_arrays_of_integers_fractions_and_bools():
    found = magsym.symmetry(CHAIN)
    assert (found.rotations.shape, found.rotations.dtype) == ((32, 3, 3), numpy.int64)
    assert (found.translations.shape, found.time_reversals.dtype) == ((32, 3), numpy.bool_)
    assert {type(part) for part in found.translations.ravel()} == {Fraction}
    with pytest.raises(ValueError):
        found.rotations[0, 0, 0] = 2


def test_symmetry_without_time_reversal_and_in_pages():
    assert not magsym.symmetry(CHAIN, time_reversal=False).time_reversals.any()
    whole = magsym.symmetry(CHAIN).lines()
    assert magsym.symmetry(CHAIN, skip=5, take=3).lines() == whole[5:8]


def test_primitive_has_its_basis():
    found = magsym.primitive(BODY)
    assert (found.index, len(found.cell)) == (2, 1)
    metric = found.basis.T.dot(BODY.metric_tensor).dot(found.basis)
    assert (metric == found.cell.metric_tensor).all()


def test_dataset_counts_atoms_from_0():
    found = magsym.dataset(example("manganese_fluoride"))
    assert found.equivalent_atoms.tolist() == [0, 0, 2, 2, 2, 2]
    assert (found.type, found.order, found.site_orders.tolist()) == (3, 16, [8, 8, 4, 4, 4, 4])


def test_orbits_have_site_symmetry_groups():
    found = magsym.orbits(example("manganese_fluoride"))
    assert [(orbit.first, orbit.size, len(orbit.site)) for orbit in found.orbits] == [(0, 2, 8), (2, 4, 4)]


def test_identify_takes_a_path_or_pairs():
    path = EXAMPLES / "tetragonal.table"
    assert [(match.row, match.name) for match in magsym.identify(CUBE, path).matches] == [(3, "P4/mm'm'")]
    assert magsym.identify(CUBE, [("P1", "P 1")]).matches == ()


@pytest.mark.parametrize("path", sorted(EXAMPLES.glob("*.bns")), ids=lambda path: path.stem)
def test_bns_is_that_of_the_script(path):
    group = magsym.bns(Cell.from_text(path.with_suffix(".cell").read_text()))
    told = f"bns {group.bns_number} {group.symbol} type {group.type_name}"
    lines = path.read_text().splitlines()
    assert told == lines[0]
    entries = [*group.matrix.ravel().tolist(), "origin", *group.origin.tolist()]
    assert " ".join(map(str, ["map", *entries])) == lines[1]


def test_rows_alike_are_all_rows_once():
    orders = {point_group_order(number) for number in range(1, 231)}
    parts = [rows_alike(kind, order).splitlines() for kind in range(1, 5) for order in orders]
    lines = [line for line in both_tables().splitlines() if not line.startswith("#")]
    assert sorted(line for part in parts for line in part) == sorted(lines)


def test_bns_tries_all_rows_where_none_of_those_alike_is_matched(monkeypatch):
    monkeypatch.setattr("magsym.groups.rows_alike", lambda kind, order: "P1 P 1\n")
    assert magsym.bns(CUBE).bns_number == "123.345"
    monkeypatch.setattr("magsym.groups.both_tables", lambda: "P1 P 1\n")
    with pytest.raises(magsym.NotIdentified):
        magsym.bns(CUBE)


def test_the_transformation_takes_the_operations_to_the_table():
    cell = example("manganese_fluoride")
    group = magsym.bns(cell)
    matrix, shift = group.transformation_matrix, group.origin_shift
    back = inverse(matrix)
    carried = set()
    for operation in magsym.symmetry(cell):
        turned = matrix.dot(numpy.array(operation.matrix, dtype=object).reshape(3, 3)).dot(back)
        moved = matrix.dot(numpy.array(operation.translation, dtype=object)) + shift - turned.dot(shift)
        carried.add((tuple(turned.ravel()), tuple(moved % 1), operation.sign))
    symbol = next(line.split(" ", 1)[1] for line in both_tables().splitlines() if line.startswith("136.499_"))
    lines = run(["hall", symbol]).text.splitlines()
    assert carried == {(one.matrix, one.translation, one.sign) for one in magsym.Operations.of_lines(lines)}


def test_a_refused_cell_tells_line_and_reason():
    cell = Cell("1 1 1 0 0 0", [("A", "0 0 0"), ("B", "1 0 0")])
    with pytest.raises(magsym.CellRefused) as refusal:
        magsym.symmetry(cell)
    assert (refusal.value.status, refusal.value.line) == (3, 4)
    assert refusal.value.reason == "atoms 1 and 2 stand at one place"
    assert str(pickle.loads(pickle.dumps(refusal.value))) == "line 4: atoms 1 and 2 stand at one place"


def test_a_refused_table_tells_its_row():
    with pytest.raises(magsym.TableRefused) as refusal:
        magsym.identify(CUBE, [("one", "P 1"), ("two", "P 5")])
    assert (refusal.value.status, refusal.value.line, refusal.value.reason) == (4, 2, "token 1 has no known form")


def test_a_missing_program_is_told(monkeypatch):
    monkeypatch.setenv("MAGSYM", "/nowhere")
    with pytest.raises(magsym.ProgramNotFound, match="/nowhere"):
        magsym.symmetry(CUBE)


def test_the_program_is_found_by_name_beside_the_package_or_on_the_path(tmp_path, monkeypatch):
    on_path = tmp_path / "magsym"
    on_path.write_text("#!/bin/sh\n")
    on_path.chmod(0o755)
    monkeypatch.setenv("PATH", str(tmp_path))
    monkeypatch.delenv("MAGSYM", raising=False)
    monkeypatch.setattr("magsym.runner.BESIDE", tmp_path / "nowhere")
    assert magsym.program() == str(on_path)
    monkeypatch.setattr("magsym.runner.BESIDE", on_path)
    monkeypatch.setenv("PATH", "")
    assert magsym.program() == str(on_path)
    monkeypatch.setenv("MAGSYM", "/bin/sh")
    assert magsym.program() == "/bin/sh"
    monkeypatch.delenv("MAGSYM")
    monkeypatch.setattr("magsym.runner.BESIDE", tmp_path / "nowhere")
    with pytest.raises(magsym.ProgramNotFound, match="run bin/magsym once"):
        magsym.program()


def test_answers_are_text_and_json():
    for answer in (magsym.bns(CUBE), magsym.symmetry(CUBE), magsym.primitive(BODY), magsym.dataset(CUBE), magsym.orbits(CUBE)):
        assert json.loads(json.dumps(as_json(answer))) and as_text(answer)


@where_built("compare")
def test_compare_gives_all_maps():
    moved = Cell("1 1 1 0 0 0", [("A", "1/3 0 0", "0 0 1")])
    found = magsym.compare(CUBE, moved)
    assert (found.is_same, len(found.maps), found.maps.lines()[0]) == (True, 16, "-x+1/3,-y,-z,+1")
    assert not magsym.compare(CUBE, Cell("1 1 1 0 0 0", [("A", "0 0 0")])).is_same
    with pytest.raises(magsym.CellRefused, match="other cell"):
        magsym.compare(CUBE, Cell("1 1 1 0 0 2", [("A", "0 0 0")]))


@where_built("moments")
def test_moments_have_a_projector_for_each_atom():
    site = magsym.moments(CUBE).sites[0]
    assert (site.name, site.count) == ("A", 1)
    assert site.projector.tolist() == [[0, 0, 0], [0, 0, 0], [0, 0, 1]]


@where_built("fill")
def test_fill_carries_a_moment_to_the_orbit():
    cell = magsym.fill(CHAIN, 0, (0, 0, 3)).cell
    assert sorted(atom.moment for atom in cell.atoms) == [(0, 0, -3), (0, 0, 3)]
    with pytest.raises(magsym.NotAllowed):
        magsym.fill(CUBE, 0, (1, 0, 0))
    with pytest.raises(IndexError):
        magsym.fill(CUBE, 1, (0, 0, 1))
    with pytest.raises(ValueError):
        magsym.fill(CUBE, 0, ("1/2", 0, 1))


@where_built("standard")
def test_standard_is_in_the_axes_of_the_row():
    found = magsym.standard(CUBE)
    assert found.match.name == "123.345_P4/mm'm'"
    assert found.cell.metric == (1, 1, 1, 0, 0, 0)
    with pytest.raises(magsym.NotIdentified):
        magsym.standard(CUBE, [("P1", "P 1")])

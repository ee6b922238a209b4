"""Files: mcif, cell files, and what ASE reads."""

import csv
import sys
from fractions import Fraction
from pathlib import Path

import numpy
import pytest
from conftest import needs

import magsym
from magsym.mcif_tags import coordinate_of

PYTHON = Path(__file__).resolve().parents[1]
EXAMPLES = PYTHON / "examples"
GROUPS = list(csv.DictReader((EXAMPLES / "groups.csv").open(newline="")))
RUTILE = (EXAMPLES / "MnF2.mcif").read_text()


def with_text(folder, text, name="given.mcif"):
    path = folder / name
    path.write_text(text)
    return path


def cells_equal(one, other):
    """Whether two cells have the same metric tensor and the same atoms, in any order."""
    return one.metric == other.metric and sorted(map(str, one.atoms)) == sorted(map(str, other.atoms))


def test_the_list_has_every_example():
    assert sorted(row["file"] for row in GROUPS) == sorted(path.name for path in EXAMPLES.glob("*.mcif"))
    assert len(GROUPS) >= 12


@needs("gemmi")
@pytest.mark.parametrize("row", GROUPS, ids=lambda row: row["file"])
def test_make_writes_the_file(row, monkeypatch):
    monkeypatch.syspath_prepend(str(EXAMPLES))
    import make

    name = Path(row["file"]).stem
    assert make.file_text(name, make.STRUCTURES[name]) == (EXAMPLES / row["file"]).read_text()


@needs("gemmi")
@pytest.mark.parametrize("row", GROUPS, ids=lambda row: row["file"])
def test_an_example_has_the_group_of_the_list(row):
    group = magsym.bns(magsym.read(EXAMPLES / row["file"]))
    assert (group.bns_number, group.symbol, group.type_name) == (row["bns"], row["symbol"], row["type"])


@needs("gemmi")
@needs("spglib")
@pytest.mark.parametrize("row", GROUPS, ids=lambda row: row["file"])
def test_spglib_gives_the_group_of_the_list(row):
    import spglib

    found = spglib.get_magnetic_symmetry_dataset(magsym.read(EXAMPLES / row["file"]).to_spglib())
    assert spglib.get_magnetic_spacegroup_type(found["uni_number"])["bns_number"] == row["spglib"]
    assert (row["bns"] == row["spglib"]) == (row["reason"] == "")


@needs("gemmi")
@pytest.mark.parametrize("row", GROUPS, ids=lambda row: row["file"])
def test_an_mcif_file_is_read_back_as_the_same_cell(row, tmp_path):
    cell = magsym.read(EXAMPLES / row["file"])
    magsym.write_mcif(cell, tmp_path / "again.mcif")
    again = magsym.read(tmp_path / "again.mcif")
    assert again.metric == cell.metric
    assert sorted(atom.position for atom in again.atoms) == sorted(atom.position for atom in cell.atoms)
    moments = {atom.position: atom.moment for atom in again.atoms}
    changes = [abs(a - b) for atom in cell.atoms for a, b in zip(atom.moment, moments[atom.position])]
    assert max(changes) <= Fraction(2, 10**6)


@needs("gemmi")
def test_decimals_are_taken_exactly():
    cell = magsym.read(EXAMPLES / "MnF2.mcif")
    assert cell.metric == tuple(map(Fraction, ("23.7169", "23.7169", "10.9561", "0", "0", "0")))
    assert {atom.position for atom in cell.atoms if atom.name == "F"} >= {(Fraction("0.305"), Fraction("0.305"), 0)}
    assert {atom.moment[2] for atom in cell.atoms if atom.name == "Mn"} == {Fraction(460, 331), Fraction(-460, 331)}


@pytest.mark.parametrize(
    "text, told",
    [("0.333", "1/3"), ("0.33333", "1/3"), ("0.667", "2/3"), ("0.666", "2/3"), ("-0.1667", "-1/6"), ("1.83333(4)", "11/6")]
    + [("0.33", "33/100"), ("0.334", "167/500"), ("0.5", "1/2"), ("0.3050", "61/200"), ("0.34", "17/50")],
)
def test_thirds_and_sixths_by_the_rule(text, told):
    assert coordinate_of(text) == Fraction(told)


@needs("gemmi")
def test_what_was_taken_for_a_third_is_told(tmp_path):
    cell = magsym.read(EXAMPLES / "Co.mcif")
    assert "0.3333 of Co1 is taken for 1/3" in cell.comments
    assert any(atom.position[:2] == (Fraction(1, 3), Fraction(2, 3)) for atom in cell.atoms)


@needs("gemmi")
def test_a_site_is_brought_to_the_position_that_its_operations_keep(tmp_path):
    path = with_text(tmp_path, RUTILE.replace("F1 F 0.695 0.695 0", "F1 F 0.6951 0.6949 0"))
    cell = magsym.read(path)
    assert (Fraction("0.695"), Fraction("0.695"), 0) in {atom.position for atom in cell.atoms}
    assert "positions by 0.00" in cell.comments[0]


@needs("gemmi")
@pytest.mark.parametrize(
    "old, new, reason",
    [
        ("_cell_length_a 4.87", "_cell_length_a 4.97", "keep the lengths"),
        ("_cell_length_a 4.87", "", "no unit cell"),
        ("_cell_angle_gamma 90", "_cell_angle_gamma 190", "those of no cell|keep the lengths"),
        ("Mn1 0 0 4.6", "Mn1 1 0 4.6", "don't allow its moment"),
        ("F1 F 0.695 0.695 0", "F1 F 0.5 0.5 0.5", "stands where another atom does"),
        ("F1 F 0.695 0.695 0", "F1 F x 0.695 0", "not a number"),
        ("2 -x,-y,-z,+1", "2 -x,-y,-w,+1", "not a part of an operation"),
        ("_space_group_symop_magn_operation.xyz", "_space_group_symop_magn_operation.mxmymz", "no magnetic symmetry operations"),
    ],
)
def test_a_file_without_such_a_crystal_is_refused_with_the_reason(old, new, reason, tmp_path):
    with pytest.raises(magsym.FileRefused, match=reason):
        magsym.read_mcif(with_text(tmp_path, RUTILE.replace(old, new)))


@needs("gemmi")
def test_other_spellings_of_tags_and_numbers_are_read(tmp_path):
    text = RUTILE.replace("symop_magn_operation.xyz", "symop.magn_operation_xyz").replace("_moment.crystal", "_moment_crystal")
    text = text.replace("_cell_length_a 4.87", "_cell_length_a 4.87(2)").replace("1 x,y,z,+1", "1 'X, Y, Z, +1'")
    text = text.replace("Mn1 Mn 0 0 0", "Mn1 Mn2+ 0.000(1) 0 0").replace("-x+1/2,y+1/2,-z+1/2", "1/2-x,1/2+y,0.5-z")
    assert cells_equal(magsym.read(with_text(tmp_path, text)), magsym.read(EXAMPLES / "MnF2.mcif"))


@needs("gemmi")
def test_moments_along_equal_axes_stay_in_their_ratio(tmp_path):
    lines = ["data_a", "_cell_length_a 4.14713", "_cell_length_b 4.14713", "_cell_length_c 6.71137"]
    lines += ["_cell_angle_alpha 90", "_cell_angle_beta 90", "_cell_angle_gamma 120"]
    lines += ["loop_", "_space_group_symop_magn_operation.xyz", "x,y,z,+1", "loop_", "_atom_site_label"]
    lines += [*(f"_atom_site_fract_{x}" for x in "xyz"), "Mn1 0 0 0", "loop_", "_atom_site_moment.label"]
    lines += [*(f"_atom_site_moment.crystalaxis_{x}" for x in "xyz"), "Mn1 1.237 2.474 3.339", ""]
    cell = magsym.read(with_text(tmp_path, "\n".join(lines)))
    assert cell.atoms[0].moment[1] == 2 * cell.atoms[0].moment[0] == 2 * Fraction("1.237") / Fraction("4.14713")
    assert abs(float(cell.atoms[0].moment[2]) * 6.71137 - 3.339) < 1e-5
    assert cell.metric[5] == -cell.metric[0] / 2


@needs("gemmi")
def test_moments_without_magnetic_operations_are_refused(tmp_path):
    text = RUTILE.replace("_space_group_symop_magn_", "_space_group_symop_magn_ssg_")
    with pytest.raises(magsym.FileRefused, match="no magnetic symmetry operations"):
        magsym.read(with_text(tmp_path, text))


@pytest.mark.parametrize("package, name", [("gemmi", "MnF2.mcif"), ("ase", "README.md")])
def test_a_missing_package_is_told(package, name, monkeypatch):
    monkeypatch.setitem(sys.modules, package, None)
    with pytest.raises(magsym.MissingPackage, match=f"python3-{package}"):
        magsym.read(EXAMPLES / name)


@needs("gemmi")
def test_a_partly_occupied_site_is_refused(tmp_path):
    text = RUTILE.replace("_atom_site_fract_z\n", "_atom_site_fract_z\n_atom_site_occupancy\n")
    text = text.replace("Mn1 Mn 0 0 0\n", "Mn1 Mn 0 0 0 0.5\n").replace("F1 F 0.695 0.695 0\n", "F1 F 0.695 0.695 0 1\n")
    with pytest.raises(magsym.FileRefused, match="occupancy"):
        magsym.read(with_text(tmp_path, text))


def test_a_cell_file_is_read(tmp_path):
    cell = magsym.Cell("1 1 1 0 0 0", [("A", "0 0 0", "0 0 1")])
    assert magsym.read(with_text(tmp_path, cell.to_text(), "a.cell")) == cell
    with pytest.raises(magsym.FileRefused):
        magsym.read(tmp_path / "missing.cell")


@needs("ase")
def test_a_poscar_is_read_by_ase(tmp_path):
    lines = ["MnF2", "1.0", "4.87 0 0", "0 4.87 0", "0 0 3.31", "Mn F", "2 4", "Direct", "0 0 0", "0.5 0.5 0.5"]
    lines += ["0.305 0.305 0", "0.695 0.695 0", "0.805 0.195 0.5", "0.195 0.805 0.5"]
    moments = [[0, 0, 4.6], [0, 0, -4.6], *[[0, 0, 0]] * 4]
    path = with_text(tmp_path, "\n".join([*lines, ""]), "POSCAR")
    assert magsym.bns(magsym.read(path)).bns_number == "136.496"
    assert magsym.bns(magsym.read(path, magmoms=moments)).bns_number == "136.499"


@needs("ase")
def test_a_cif_file_is_read_by_ase(tmp_path):
    lines = ["data_rutile", "_cell_length_a 4.87", "_cell_length_b 4.87", "_cell_length_c 3.31"]
    lines += [f"_cell_angle_{name} 90" for name in ("alpha", "beta", "gamma")]
    lines += ["_space_group_IT_number 136", "loop_", "_atom_site_label", *(f"_atom_site_fract_{x}" for x in "xyz")]
    path = with_text(tmp_path, "\n".join([*lines, "Mn1 0 0 0", "F1 0.305 0.305 0", ""]), "rutile.cif")
    cell = magsym.read(path)
    assert (len(cell), magsym.bns(cell).bns_number) == (6, "136.496")
    assert (Fraction("0.305"), Fraction("0.305"), 0) in {atom.position for atom in cell.atoms}
    assert cell.metric[:3] == tuple(map(Fraction, ("23.7169", "23.7169", "10.9561")))


@needs("ase")
def test_moments_of_ase_are_taken():
    from ase import Atoms

    atoms = Atoms("Fe2", scaled_positions=[[0, 0, 0], [0.5, 0.5, 0.5]], cell=[2.87, 2.87, 2.87], pbc=True)
    atoms.set_initial_magnetic_moments([[0, 0, 2.2], [0, 0, 2.2]])
    cell = magsym.from_ase(atoms)
    assert (magsym.bns(cell).bns_number, cell.names) == ("139.537", ["Fe", "Fe"])
    scalars = Atoms("Fe2", scaled_positions=[[0, 0, 0], [0.5, 0.5, 0.5]], cell=[2.87, 2.87, 2.87], magmoms=[2.2, -2.2])
    assert magsym.from_ase(scalars).kind is magsym.Kind.SCALAR_PLAIN


@needs("ase")
def test_what_ase_does_not_read_is_refused(tmp_path):
    with pytest.raises(magsym.FileRefused, match="ASE doesn't read"):
        magsym.read(with_text(tmp_path, "nothing\n", "nothing.txt"))


def test_positions_stay_arrays_of_fractions():
    cell = magsym.Cell("1 1 1 0 0 0", [("A", "0 0 1/3")])
    assert cell.positions.dtype == object and cell.positions[0, 2] == Fraction(1, 3)
    assert numpy.allclose(cell.axes(), numpy.eye(3))

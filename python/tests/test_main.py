"""The command line."""

import json
import os
import subprocess
import sys

import pytest
from conftest import PYTHON, needs

import magsym
from magsym.__main__ import main

FLUORIDE = PYTHON / "examples" / "MnF2.mcif"


@pytest.fixture
def told(capsys):
    """What the command line prints, or what it says on the error stream where it is refused."""

    def make(*words, status=0):
        assert main([str(word) for word in words]) == status
        printed = capsys.readouterr()
        return printed.err if status else printed.out

    return make


@needs("gemmi")
def test_bns_of_an_mcif_file_in_a_process_of_its_own():
    words = [sys.executable, "-m", "magsym", "bns", "examples/MnF2.mcif"]
    done = subprocess.run(words, cwd=PYTHON, capture_output=True, text=True, check=True)
    assert "BNS 136.499  P4_2'/mnm'  type III" in done.stdout.splitlines()


@needs("gemmi")
def test_json_for_programs(told):
    found = json.loads(told("bns", FLUORIDE, "--json"))
    assert (found["bns_number"], found["uni_number"], found["origin"]) == ("136.499", 1159, ["0", "0", "0"])
    assert json.loads(told("symmetry", FLUORIDE, "--json"))[-1] == "x,y,z,+1"


@needs("gemmi")
@pytest.mark.parametrize("command", ["symmetry", "primitive", "dataset", "orbits", "cell", "mcif"])
def test_each_command_answers(command, told):
    assert told(command, FLUORIDE)


@needs("gemmi")
def test_a_table_is_identified(told, tmp_path):
    (tmp_path / "two.table").write_text("P4_2/mnm -P 4n 2n\nP4_2'/mnm' -P 4n! 2n\n")
    assert "row 2 P4_2'/mnm'" in told("identify", FLUORIDE, tmp_path / "two.table")


@needs("gemmi")
def test_the_cell_that_is_printed_is_read_again(told, tmp_path):
    path = tmp_path / "fluoride.cell"
    path.write_text(told("cell", FLUORIDE))
    assert magsym.read(path) == magsym.read(FLUORIDE)
    assert "BNS 136.499" in told("bns", path)


@needs("matplotlib")
@needs("gemmi")
def test_a_picture_is_drawn(told, tmp_path):
    told("plot", FLUORIDE, tmp_path / "cell.svg")
    assert (tmp_path / "cell.svg").stat().st_size > 1000


def test_refusals_are_a_line_on_the_error_stream(told, tmp_path):
    path = tmp_path / "wrong.cell"
    path.write_text("magcell 1\nmetric 1 1 1 0 0 0\natom A 0 0 0\natom B 1 0 0\nend\n")
    assert told("symmetry", path, status=1) == "magsym: line 4: atoms 1 and 2 stand at one place\n"
    assert "No such file" in told("symmetry", tmp_path / "none", status=1)


@needs("gemmi")
@needs("matplotlib")
def test_the_example_of_the_readme_runs(tmp_path, monkeypatch):
    section = (PYTHON.parent / "README.md").read_text().partition("\n## From Python\n")[2].partition("\n## ")[0]
    assert len(section.strip().splitlines()) <= 24
    (tmp_path / "python").symlink_to(PYTHON)
    monkeypatch.chdir(tmp_path)
    names = {}
    exec(section.partition("```python\n")[2].partition("```")[0], names)
    assert magsym.bns(names["cell"]).bns_number == "136.499" and (tmp_path / "MnF2.png").exists()


@needs("spglib")
def test_a_script_that_calls_spglib_runs_with_magsym(tmp_path):
    script = """
import SPGLIB as spglib
cell = ([[4.87, 0, 0], [0, 4.87, 0], [0, 0, 3.31]], [[0, 0, 0], [0.5, 0.5, 0.5]], [25, 25], [[0, 0, 4.6], [0, 0, -4.6]])
symmetry = spglib.get_magnetic_symmetry(cell, symprec=1e-5)
dataset = spglib.get_magnetic_symmetry_dataset(cell, symprec=1e-5)
operations = set()
for w, t, s in zip(symmetry["rotations"], symmetry["translations"], symmetry["time_reversals"]):
    operations.add((tuple(w.ravel().tolist()), tuple((t.round(6) % 1).tolist()), bool(s)))
print(sorted(operations), symmetry["equivalent_atoms"].tolist(), dataset["uni_number"], dataset["msg_type"])
"""
    answers = set()
    for module in ("spglib", "magsym"):
        environment = {**os.environ, "PYTHONPATH": str(PYTHON)}
        words = [sys.executable, "-W", "ignore", "-c", script.replace("SPGLIB", module)]
        answers.add(subprocess.run(words, env=environment, capture_output=True, text=True, check=True).stdout)
    assert len(answers) == 1

"""The examples of docs/MANY_CELLS.md run, all but the last, which is for a batch system."""

import json
import os
import re
import shutil
import subprocess
import sys

import pytest
from conftest import PYTHON, needs

import magsym

BLOCKS = re.findall(r"(?ms)^```(python|sh)\n(.*?)^```", (PYTHON.parent / "docs" / "MANY_CELLS.md").read_text())
EXAMPLES = sorted((PYTHON / "examples").glob("*.mcif"))


def run(number, folder):
    """What a block prints, run in a folder of the examples."""
    for path in EXAMPLES[:2]:
        shutil.copy(path, folder)
    (folder / "bin").mkdir()
    (folder / "bin" / "python3").symlink_to(sys.executable)
    language, text = BLOCKS[number]
    words = [sys.executable, "example.py"] if language == "python" else ["sh", "-e", "example.py"]
    (folder / "example.py").write_text(text)
    path = f"{folder / 'bin'}{os.pathsep}{os.environ['PATH']}"
    environment = {**os.environ, "PYTHONPATH": str(PYTHON), "MAGSYM": magsym.program(), "PATH": path}
    done = subprocess.run(words, cwd=folder, env=environment, capture_output=True, text=True, timeout=100, check=False)
    assert done.returncode == 0, done.stderr
    return done.stdout


def is_without_parallel():
    return shutil.which("parallel") is None


def test_the_last_block_alone_is_not_run():
    assert len(BLOCKS) == 5 and "SBATCH" in BLOCKS[-1][1] and not any("SBATCH" in text for _, text in BLOCKS[:-1])


@needs("gemmi")
def test_map_over_the_processors(tmp_path):
    assert run(0, tmp_path).splitlines()[0] == "Co.mcif 194.270"


@needs("gemmi")
@pytest.mark.skipif(is_without_parallel(), reason="parallel is not installed")
def test_parallel_with_files(tmp_path):
    run(1, tmp_path)
    assert json.loads((tmp_path / "Co.json").read_text())["bns_number"] == "194.270"


@needs("gemmi")
@pytest.mark.skipif(is_without_parallel(), reason="parallel is not installed")
def test_parallel_with_the_program(tmp_path):
    run(2, tmp_path)
    assert json.loads((tmp_path / "Co.dataset.json").read_text())["type"] == 3


@needs("distributed")
def test_dask(tmp_path):
    assert run(3, tmp_path) == "{'123.345'}\n"

"""Pictures."""

import sys

import pytest
from conftest import PYTHON, needs

import magsym
from magsym.picture import edges, shown_atoms

CHAIN = magsym.Cell("9 9 16 0 0 0", [("Ni", "0 0 0", "0 0 1"), ("Ni", "0 0 1/2", "0 0 -1"), ("O", "1/2 1/2 1/4")])


def test_a_cell_has_twelve_edges_and_atoms_on_its_faces_on_both_sides():
    indices, places = shown_atoms(CHAIN)
    assert len(edges()) == 12
    assert (indices == 0).sum() == 8 and (indices == 1).sum() == 4 and (indices == 2).sum() == 1
    assert places.min() >= 0 and places.max() <= 1


@needs("matplotlib")
@pytest.mark.parametrize("suffix, start", [("png", b"\x89PNG"), ("svg", b"<?xml")])
def test_a_picture_is_written(suffix, start, tmp_path):
    path = tmp_path / f"cell.{suffix}"
    figure = magsym.plot(CHAIN, path, title="a chain")
    assert path.read_bytes().startswith(start)
    labels = [text.get_text() for text in figure.axes[0].get_legend().get_texts()]
    assert labels == ["Ni, 2 in the cell", "O, 1 in the cell"]


@needs("matplotlib")
def test_scalars_are_drawn_along_c(tmp_path):
    cell = magsym.Cell("9 9 16 0 0 0", [("Ni", "0 0 0", 1), ("Ni", "0 0 1/2", -1)], magsym.Kind.SCALAR_PLAIN)
    magsym.plot(cell, tmp_path / "scalars.png")


def test_missing_matplotlib_is_told(monkeypatch):
    monkeypatch.setitem(sys.modules, "matplotlib.figure", None)
    with pytest.raises(magsym.MissingPackage, match="python3-matplotlib"):
        magsym.plot(CHAIN)


def test_the_picture_of_the_readme_is_there():
    assert (PYTHON / "examples" / "MnF2.png").read_bytes().startswith(b"\x89PNG")

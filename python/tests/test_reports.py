"""How the reports of `compare`, `moments`, `fill` and `standard` are read, from a program that prints given ones."""

from fractions import Fraction

import pytest

import magsym
from magsym import Cell

CUBE = Cell("1 1 1 0 0 0", [("A", "0 0 0", "0 0 1")])
BACK = "1 0 0 0 1 0 0 0 1"
TABLE = [("P4/mmm", "-P 4 2"), ("P4/mm'm'", "-P 4 2!")]


@pytest.fixture
def printing(tmp_path, monkeypatch):
    """Makes MAGSYM name a program that prints a report, or a line on the error stream, and ends with a status."""

    def make(report, status=0, said=""):
        (tmp_path / "report").write_text(report)
        (tmp_path / "said").write_text(said)
        path = tmp_path / "program"
        path.write_text(f'#!/bin/sh\ncd {tmp_path}\necho "$@" >words\ncat report\ncat said >&2\nexit {status}\n')
        path.chmod(0o755)
        monkeypatch.setenv("MAGSYM", str(path))
        return tmp_path / "words"

    return make


def test_compare(printing):
    printing(f"back1 2 0 0 0 1 0 0 0 1\nback2 {BACK}\n-x+1/3,-y,-z,+1\nx+1/3,y,z,+1\n")
    found = magsym.compare(CUBE, CUBE)
    assert found.is_same and found.back[0, 0] == 2 and found.other_back[0, 0] == 1
    assert found.maps.translations.tolist() == [[Fraction(1, 3), 0, 0]] * 2
    printing(f"back1 {BACK}\nback2 {BACK}\nnone\n", status=1)
    assert not magsym.compare(CUBE, CUBE).is_same
    printing("", status=3, said="magsym: other line 2: metric is missing\n")
    with pytest.raises(magsym.CellRefused) as refusal:
        magsym.compare(CUBE, CUBE)
    assert (refusal.value.line, refusal.value.reason) == (2, "other cell: metric is missing")


def test_moments(printing):
    printing(f"back {BACK}\natom 1 A allowed 1 1 -1/2 0 0 0 0 0 0 0\natom 2 B allowed 0 0 0 0 0 0 0 0 0 0\n")
    found = magsym.moments(CUBE)
    assert [(site.name, site.count) for site in found.sites] == [("A", 1), ("B", 0)]
    assert found.sites[0].projector[0].tolist() == [1, Fraction(-1, 2), 0]


def test_fill(printing):
    words = printing(f"magcell 1\n# back {BACK}\nmetric 1 1 4 0 0 0\natom A 0 0 0 0 0 3\natom A 0 0 1/2 0 0 -3\nend\n")
    found = magsym.fill(CUBE, 0, (0, 0, 3))
    assert [atom.moment for atom in found.cell.atoms] == [(0, 0, 3), (0, 0, -3)]
    assert words.read_text() == "fill 1 0 0 3\n"
    scalar = Cell("1 1 1 0 0 0", [("A", "0 0 0", 1)], magsym.Kind.SCALAR_PLAIN)
    magsym.fill(scalar, 0, -2)
    assert words.read_text() == "fill 1 -2 0 0\n"
    printing("", status=1, said="magsym: moment is not allowed at this site\n")
    with pytest.raises(magsym.NotAllowed, match="not allowed at this site"):
        magsym.fill(CUBE, 0, (1, 0, 0))


def test_standard(printing):
    head = "magcell 1\n# row 2 P4/mm'm'\n# map -1 0 0 0 -1 0 0 0 1 1/7 0 0\n"
    printing(head + "metric 1 1 1 0 0 0\natom A 0 0 0 0 0 1\nend\n")
    found = magsym.standard(CUBE, TABLE)
    assert (found.match.row, found.match.name, found.cell) == (2, "P4/mm'm'", CUBE)
    assert found.match.matrix[0].tolist() == [-1, 0, 0] and found.match.origin[0] == Fraction(1, 7)
    printing("none\n", status=1)
    with pytest.raises(magsym.NotIdentified):
        magsym.standard(CUBE, TABLE)
    printing("", status=8, said="magsym: standard cell is too large\n")
    with pytest.raises(magsym.TooLarge):
        magsym.standard(CUBE)


@pytest.mark.parametrize(
    "status, said, refusal",
    [
        (2, "unknown command", magsym.WordsRefused),
        (5, "reading failed", magsym.ReadingFailed),
        (6, "writing failed", magsym.WritingFailed),
        (7, "out of memory", magsym.MemoryWanting),
        (125, "the build failed", magsym.ProgramFailed),
    ],
)
def test_each_status_has_its_exception(status, said, refusal, printing):
    printing("", status=status, said=f"magsym: {said}\n")
    with pytest.raises(refusal, match=said) as found:
        magsym.symmetry(CUBE)
    assert found.value.status == status

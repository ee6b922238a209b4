"""The cell and its text."""

from decimal import Decimal
from fractions import Fraction
from pathlib import Path

import numpy
import pytest

import magsym
from magsym import Atom, Cell, Kind

EXAMPLES = Path(__file__).resolve().parents[2] / "docs" / "examples"
RUTILE = "magcell 1\nmetric 23.75 23.75 10.96 0 0 0\natom Mn 0 0 0 0 0 1\nend\n"


def accepted_examples():
    return [path for path in sorted(EXAMPLES.glob("*.cell")) if not path.with_suffix(".err").exists()]


@pytest.mark.parametrize("path", accepted_examples(), ids=lambda path: path.stem)
def test_a_text_is_read_back_as_the_same_cell(path):
    cell = Cell.from_text(path.read_text())
    assert Cell.from_text(cell.to_text()) == cell


def test_numbers_are_exact():
    cell = Cell((1, "1/2", Decimal("0.25"), Fraction(0), numpy.int64(0), "0.0"), [("A", "0 0 0", (0, 0, 1))])
    assert cell.metric == (1, Fraction(1, 2), Fraction(1, 4), 0, 0, 0)
    assert cell.metric_tensor[2, 2] == Fraction(1, 4)


@pytest.mark.parametrize("number", [0.5, numpy.float64(1), True])
def test_a_float_is_not_taken(number):
    with pytest.raises(TypeError, match="not exact"):
        Atom("A", (number, 0, 0))


@pytest.mark.parametrize("name, comments", [("A B", ()), ("A\natom", ()), ("", ()), ("A", ("one\ntwo",))])
def test_names_are_words_and_comments_lines(name, comments):
    with pytest.raises(ValueError):
        Cell("1 1 1 0 0 0", [(name, "0 0 0")], Kind.VECTOR_AXIAL, comments)


def test_kinds_are_told_in_version_2():
    cell = Cell("1 1 1 0 0 0", [("A", "0 0 0", 1), ("A", "1/2 0 0")], Kind.SCALAR_PLAIN)
    assert cell.to_text().splitlines() == [
        "magcell 2",
        "kind scalar plain",
        "metric 1 1 1 0 0 0",
        "atom A 0 0 0 1",
        "atom A 1/2 0 0",
        "end",
    ]
    assert Cell.from_text(cell.to_text()) == cell


@pytest.mark.parametrize(
    "text, line, reason",
    [
        ("magcell 3\n", 1, "not a magcell 1 or 2 file"),
        ("magcell 1\nmetric 1 1 1 0 0\n", 3, "end is missing"),
        ("magcell 1\nmetric 1 1 1 0 0\natom A 0 0 0\nend\n", 2, "line has no known form"),
        ("magcell 1\natoms\nend\n", 2, "line has no known form"),
        ("magcell 1\natom A 0 0 x\nmetric 1 1 1 0 0 0\nend\n", 2, "not a number"),
        ("magcell 1\natom A 0 0 1/0\nmetric 1 1 1 0 0 0\nend\n", 2, "not a number"),
        ("magcell 1\natom A 0 0 0\nend\n", 3, "metric is missing"),
        ("magcell 1\nmetric 1 1 1 0 0 0\nend\n", 3, "no atom"),
        ("magcell 1\nmetric 1 1 1 0 0 0\nmetric 1 1 1 0 0 0\natom A 0 0 0\nend\n", 3, "metric is given twice"),
        ("magcell 2\natom A 0 0 0\nkind scalar\nmetric 1 1 1 0 0 0\nend\n", 3, "kind must stand before the atoms"),
        ("magcell 1\nmetric 1 1 1 0 0 0\natom A 0 0 0\nend\nend\n", 5, "text after end"),
    ],
)
def test_a_text_of_another_form_is_refused_with_its_line(text, line, reason):
    with pytest.raises(magsym.CellRefused) as refusal:
        Cell.from_text(text)
    assert (refusal.value.line, refusal.value.reason) == (line, reason)


def test_comments_are_kept_and_do_not_count():
    text = RUTILE.replace("metric", "# made by hand\nmetric")
    assert Cell.from_text(text).comments == ("made by hand",)
    assert Cell.from_text(text) == Cell.from_text(RUTILE)

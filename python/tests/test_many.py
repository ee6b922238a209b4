"""Many cells: over the processors of this machine, and on a Dask cluster."""

import sys

import pytest
from conftest import PYTHON, needs

import magsym
from magsym import Cell

CELLS = 1000
REFUSED = Cell("1 1 1 0 0 1", [("A", "0 0 0")])


def chains(count):
    """Chains of two atoms at c/2, in cells of other lengths: every second one a ferromagnet, which has half the period."""
    signs = ("0 0 1", "0 0 -1")
    return [Cell(f"1 1 {at + 2} 0 0 0", [("A", "0 0 0", signs[0]), ("A", "0 0 1/2", signs[at % 2])]) for at in range(count)]


def numbers(cells, **options):
    return [found.order for found in magsym.map("dataset", cells, progress=False, **options)]


def test_a_thousand_cells_on_this_machine():
    assert numbers(chains(CELLS)) == [16, 32] * (CELLS // 2)


def test_a_function_of_a_cell_is_a_command_too():
    assert magsym.map(len, chains(3), progress=False) == [2, 2, 2]


def test_refusals_are_raised_or_kept():
    cells = [*chains(1), REFUSED]
    with pytest.raises(magsym.CellRefused, match="metric is not positive"):
        magsym.map("bns", cells, progress=False)
    found = magsym.map("bns", cells, progress=False, keep_refusals=True)
    assert found[0].bns_number == "123.345" and isinstance(found[1], magsym.CellRefused)


@needs("tqdm")
def test_the_progress_bar_counts_cells(capsys):
    magsym.map("primitive", chains(4), processes=2)
    assert "4/4" in capsys.readouterr().err


def test_without_tqdm_there_is_no_bar(monkeypatch, capsys):
    monkeypatch.setitem(sys.modules, "tqdm", None)
    assert magsym.map(len, chains(2)) == [2, 2] and capsys.readouterr().err == ""


@needs("distributed")
def test_a_thousand_cells_on_a_cluster_of_two_workers(monkeypatch):
    from distributed import Client, LocalCluster

    monkeypatch.setenv("PYTHONPATH", str(PYTHON))
    options = {"n_workers": 2, "threads_per_worker": 1, "processes": True, "dashboard_address": None}
    with LocalCluster(**options) as cluster, Client(cluster) as client:
        assert numbers(chains(CELLS), client=client) == [16, 32] * (CELLS // 2)
        assert isinstance(magsym.map("bns", [REFUSED], client=client, progress=False, keep_refusals=True)[0], magsym.CellRefused)

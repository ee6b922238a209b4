"""Pictures of cells, by matplotlib."""

from __future__ import annotations

import itertools
import os
from typing import Any, Union

import numpy

from .cell import Cell
from .commands import dataset
from .errors import MissingPackage

CORNERS = numpy.array(list(itertools.product((0, 1), repeat=3)))
COLOURS = ("#4477aa", "#ee6677", "#228833", "#ccbb44", "#66ccee", "#aa3377", "#bbbbbb", "#222222")
EDGE = "#888888"
ARROW = 0.45  # the length of the longest arrow, in units of the shortest axis
NEAR = 1e-9
LABELS = numpy.array([(0.5, 0, -0.12), (1.06, 0.5, 0), (-0.06, 0, 0.5)])  # of a, b and c, in units of the axes


def figures() -> Any:
    """matplotlib's `Figure`, which needs no screen. Raises MissingPackage."""
    try:
        from matplotlib.figure import Figure
    except ImportError:
        raise MissingPackage("pictures are drawn by matplotlib: install python3-matplotlib") from None
    return Figure


def edges() -> list[numpy.ndarray]:
    """The twelve edges of a cell, each the coordinates of its two ends."""
    pairs = itertools.combinations(CORNERS, 2)
    return [numpy.array(pair) for pair in pairs if numpy.abs(pair[0] - pair[1]).sum() == 1]


def broken_line(pairs: list[numpy.ndarray], lattice: numpy.ndarray) -> numpy.ndarray:
    """The Cartesian points of some edges, with a break behind each, shape (3, points)."""
    gap = numpy.full((1, 3), numpy.nan)
    return numpy.vstack([part for pair in pairs for part in (pair @ lattice, gap)]).T


def shown_atoms(cell: Cell) -> tuple[numpy.ndarray, numpy.ndarray]:
    """The atoms within the cell, those on its faces on both sides: their indices, and their coordinates."""
    indices, places = [], []
    for at, position in enumerate(cell.positions.astype(float) % 1):
        copies = [position + corner for corner in CORNERS]
        inside = [copy for copy in copies if (copy <= 1 + NEAR).all()]
        indices += [at] * len(inside)
        places += inside
    return numpy.array(indices), numpy.array(places)


def arrows(cell: Cell) -> numpy.ndarray:
    """The Cartesian vectors that show the moments, shape (atoms, 3); a scalar is shown along c."""
    lattice = cell.axes()
    moments = cell.moments.astype(float)
    vectors = moments @ lattice if cell.kind.is_vector else moments * lattice[2] / numpy.linalg.norm(lattice[2])
    longest = numpy.linalg.norm(vectors, axis=1).max()
    shortest = numpy.linalg.norm(lattice, axis=1).min()
    return vectors * (ARROW * shortest / longest) if longest else vectors


def label_of(cell: Cell, first: int, orbits: numpy.ndarray) -> str:
    """What the legend has for the orbit of an atom."""
    return f"{cell.atoms[first].name}, {int((orbits == first).sum())} in the cell"


def draw_cell(axes: Any, cell: Cell) -> None:
    """Draws the edges of a cell, with a, b and c beside three of them."""
    lattice = cell.axes()
    axes.plot(*broken_line(edges(), lattice), color=EDGE, linewidth=0.8)
    for name, place in zip("abc", LABELS):
        axes.text(*(place @ lattice), name, fontstyle="italic")


def draw_atoms(axes: Any, cell: Cell, orbits: numpy.ndarray) -> None:
    """Draws the atoms coloured by orbit, with their moments."""
    indices, places = shown_atoms(cell)
    points, vectors = places @ cell.axes(), arrows(cell)[indices]
    for colour, first in zip(itertools.cycle(COLOURS), numpy.unique(orbits)):
        chosen = orbits[indices] == first
        axes.scatter(*points[chosen].T, s=90, color=colour, label=label_of(cell, first, orbits), depthshade=False)
        carrying = chosen & (numpy.abs(vectors).max(axis=1) > 0)
        starts = points[carrying] - vectors[carrying] / 2
        axes.quiver(*starts.T, *vectors[carrying].T, color=colour, linewidth=2.2, arrow_length_ratio=0.35)


def plot(cell: Cell, path: Union[str, "os.PathLike[str]", None] = None, *, title: str | None = None) -> Any:
    """Draws a cell: its edges, its atoms coloured by orbit, and their moments as arrows.

    Atoms on faces are drawn on both sides, and scalars along c. Gives matplotlib's figure, and writes it where a path is
    given, as PNG or SVG by its suffix. Raises MissingPackage without matplotlib, CellRefused and other Refused.
    """
    figure = figures()(figsize=(6, 6))
    axes = figure.add_subplot(projection="3d", computed_zorder=True)
    draw_cell(axes, cell)
    draw_atoms(axes, cell, dataset(cell).equivalent_atoms)
    axes.set_box_aspect(numpy.ptp(CORNERS @ cell.axes(), axis=0))
    axes.set_proj_type("ortho")
    axes.view_init(elev=18, azim=-65)
    axes.set_axis_off()
    axes.legend(loc="upper left", frameon=False)
    if title:
        axes.set_title(title)
    if path is not None:
        figure.savefig(path, dpi=120, bbox_inches="tight")
    return figure

"""One command on many cells: over the processors of this machine, or on the workers of a Dask cluster."""

from __future__ import annotations

import os
from concurrent.futures import ThreadPoolExecutor
from typing import Any, Callable, Iterable, Iterator, Union

from . import commands, groups
from .cell import Cell
from .errors import MagsymError

COMMANDS: dict[str, Callable[[Cell], Any]] = {
    "symmetry": commands.symmetry,
    "primitive": commands.primitive,
    "dataset": commands.dataset,
    "orbits": commands.orbits,
    "moments": commands.moments,
    "standard": commands.standard,
    "bns": groups.bns,
}
BATCH = 64  # cells that a worker of a cluster takes at once


def answer(call: Callable[[Cell], Any], cell: Cell) -> Any:
    """The answer on a cell, or the exception that refuses it."""
    try:
        return call(cell)
    except MagsymError as refusal:
        return refusal


def answers(call: Callable[[Cell], Any], cells: list[Cell]) -> list[Any]:
    """The answers on some cells in order, or the exceptions that refuse them."""
    return [answer(call, cell) for cell in cells]


def accepted(some: list[Any]) -> list[Any]:
    """The same answers; raises the first refusal among them."""
    for one in some:
        if isinstance(one, MagsymError):
            raise one
    return some


def processors() -> int:
    """How many processors this process may use."""
    return len(os.sched_getaffinity(0)) if hasattr(os, "sched_getaffinity") else os.cpu_count() or 1


def on_threads(call: Callable[[Cell], Any], cells: list[Cell], count: int | None) -> Iterator[list[Any]]:
    """The answers one by one, each in a list; the program runs beside this one, so threads are enough."""
    with ThreadPoolExecutor(count or processors()) as pool:
        yield from pool.map(lambda cell: [answer(call, cell)], cells)


def on_cluster(call: Callable[[Cell], Any], cells: list[Cell], client: Any) -> Iterator[list[Any]]:
    """The answers of a Dask client's workers, some at once, in order."""
    batches = [cells[at : at + BATCH] for at in range(0, len(cells), BATCH)]
    for future in client.map(answers, [call] * len(batches), batches, pure=False):
        yield future.result()


def progress_bar(total: int, is_shown: bool) -> Callable[[int], Any]:
    """What is to be told how many more cells are done: a bar of tqdm where it is installed and wanted."""
    if is_shown:
        try:
            from tqdm import tqdm
        except ImportError:
            return lambda count: None
        return tqdm(total=total, unit="cell").update
    return lambda count: None


def map(
    command: Union[str, Callable[[Cell], Any]],
    cells: Iterable[Cell],
    *,
    client: Any = None,
    processes: int | None = None,
    progress: bool = True,
    keep_refusals: bool = False,
) -> list[Any]:
    """The answers of a command on many cells, in order.

    Args:
        command: the name of a command that takes a cell alone, or any function of a cell
        cells: the cells
        client: a Dask client (`distributed.Client`), on whose workers the command runs; without one on this machine. The
            workers have to find this package and the program
        processes: how many runs at once on this machine; as many as it has processors where it is none
        progress: whether a bar on the error stream tells how far it is, where tqdm is installed
        keep_refusals: whether a cell that is refused has its exception in the place of an answer; else the first is raised

    >>> cells = [Cell(f"1 1 {c} 0 0 0", [("Fe", "0 0 0", "0 0 1")]) for c in (1, 2)]
    >>> [group.bns_number for group in map("bns", cells, progress=False)]
    ['123.345', '123.345']
    """
    call, given = COMMANDS[command] if isinstance(command, str) else command, list(cells)
    tell, found = progress_bar(len(given), progress), []
    for some in on_cluster(call, given, client) if client is not None else on_threads(call, given, processes):
        found += some if keep_refusals else accepted(some)
        tell(len(some))
    return found

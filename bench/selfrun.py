#!/usr/bin/env python3
"""Compares what `magsym selfrun SEED` says of its generated cell with `dataset` of the same cell, and with a count made here.

Run it by hand, after the gate: bench/selfrun.py PROGRAM [--seeds N] [--kinds N] [--jobs N] [--dataset-only]
PROGRAM is the built program. The text of each seed is made here, by a copy of the definition of its own, and handed to
`dataset`; the index, the orders and the magnetic type are also counted here, over the 48 isometries of the cubic grid.
First come N seeds in a row (200), then the kinds of generated cells: there are 3^8 = 6,561, one for each eight draws. The
seeds from 0 on are searched for the first that gives each kind, and each kind is tried (or the first N of them). A kind that
no seed gives is tried through `dataset` alone. With --dataset-only `selfrun` is never called. Ends with 1 at a difference.
"""
import argparse
import itertools
import json
import subprocess
import sys
from concurrent.futures import ThreadPoolExecutor

KINDS = 3**8
MOMENTS = ("", " 0 0 1", " 0 0 -1")
KEYS = ("atoms", "index", "order", "type", "cell_order")
SEEDS = 10**9


def draws(seed):
    state, drawn = seed, []
    for _ in range(8):
        state = (state * 1103515245 + 12345) % 2**31
        drawn.append(state // 65536 % 3)
    return tuple(drawn)


def text(drawn):
    lines = ["magcell 1", "metric 64 64 64 0 0 0"]
    for i, j, k in itertools.product(range(8), repeat=3):
        moment = MOMENTS[drawn[4 * (i % 2) + 2 * (j % 2) + k % 2]]
        lines.append(f"atom A {i}/8 {j}/8 {k}/8{moment}")
    return "\n".join(lines + ["end", ""])


# ---- the count

def isometries():
    """The 48 matrices that permute the axes and turn some round, each as (axis, sign) a row, with their determinants."""
    for axes in itertools.permutations(range(3)):
        swaps = sum(axes[a] > axes[b] for a in range(3) for b in range(a + 1, 3))
        for signs in itertools.product((1, -1), repeat=3):
            yield tuple(zip(axes, signs)), (-1) ** swaps * signs[0] * signs[1] * signs[2]


ISOMETRIES = list(isometries())
CLASSES = list(itertools.product(range(2), repeat=3))
IDENTITY = ((0, 1), (1, 1), (2, 1))


def counted(drawn):
    """The summary, from the maps of the grid modulo two steps that keep the moments of all classes."""
    moment = {c: (0, 0, (0, 1, -1)[drawn[4 * c[0] + 2 * c[1] + c[2]]]) for c in CLASSES}

    def keeps(rows, factor, shift):
        for c in CLASSES:
            image = tuple((c[axis] + shift[row]) % 2 for row, (axis, _) in enumerate(rows))
            turned = tuple(factor * sign * moment[c][axis] for axis, sign in rows)
            if moment[image] != turned:
                return False
        return True

    found = [(rows, shift, sign) for rows, determinant in ISOMETRIES for shift in CLASSES for sign in (1, -1)
             if keeps(rows, sign * determinant, shift)]
    same = [shift for rows, shift, sign in found if rows == IDENTITY and sign == 1]
    reversed_ = [shift for rows, shift, sign in found if rows == IDENTITY and sign == -1]
    if (0, 0, 0) in reversed_:
        kind = 2
    elif reversed_:
        kind = 4
    else:
        kind = 3 if any(sign == -1 for _, _, sign in found) else 1
    index, order = 64 * len(same), len(found) // len(same)
    return {"atoms": 512, "index": index, "order": order, "type": kind, "cell_order": order * index}


# ---- the program

def run(program, words, given=""):
    done = subprocess.run([program, *words], input=given, capture_output=True, text=True)
    if done.returncode != 0:
        raise SystemExit(f"{' '.join(words)}: status {done.returncode}: {done.stderr.strip()}")
    return done.stdout


def of_selfrun(program, seed):
    """The summary that `selfrun` prints, its lines exactly as they are to be."""
    lines = run(program, ["selfrun", str(seed)])
    summary = dict(line.split(" ", 1) for line in lines.splitlines())
    if lines != "".join(f"{key} {summary.get(key)}\n" for key in KEYS):
        raise SystemExit(f"selfrun {seed}: these are no five lines: {lines!r}")
    return {key: int(summary[key]) for key in KEYS}


def of_dataset(program, drawn):
    found = json.loads(run(program, ["dataset"], text(drawn)))
    return {"atoms": len(found["orbits"]), **{key: found[key] for key in KEYS[1:]}}


def differences(program, seed, drawn, dataset_only):
    """What differs, of a seed, or of draws that no seed gives."""
    wanted = counted(drawn)
    told = [("dataset", of_dataset(program, drawn))]
    if seed is not None and not dataset_only:
        told.append(("selfrun", of_selfrun(program, seed)))
    return [f"seed {seed}, draws {drawn}: {name} says {says}, counted {wanted}" for name, says in told if says != wanted]


def first_seeds(most):
    """For each eight draws the first seed that gives them, and how many seeds were searched."""
    first = {}
    for seed in range(most):
        first.setdefault(draws(seed), seed)
        if len(first) == KINDS:
            return first, seed + 1
    return first, most


def main():
    words = argparse.ArgumentParser(description=__doc__.split("\n")[0])
    words.add_argument("program")
    words.add_argument("--seeds", type=int, default=200)
    words.add_argument("--kinds", type=int, default=KINDS)
    words.add_argument("--jobs", type=int, default=4)
    words.add_argument("--dataset-only", action="store_true")
    given = words.parse_args()

    first, searched = first_seeds(min(SEEDS, 2_000_000))
    print(f"{len(first)} of {KINDS} kinds come out of the {searched} seeds from 0 on")
    kinds = list(itertools.product(range(3), repeat=8))[:given.kinds]
    tries = [(seed, draws(seed)) for seed in range(given.seeds)] + [(first.get(kind), kind) for kind in kinds]
    with ThreadPoolExecutor(given.jobs) as pool:
        found = list(pool.map(lambda it: differences(given.program, *it, given.dataset_only), tries))
    wrong = [line for lines in found for line in lines]
    for line in wrong:
        print(line)
    print(f"{given.seeds} seeds and {len(kinds)} kinds tried, {sum(map(bool, found))} differ")
    return 1 if wrong else 0


if __name__ == "__main__":
    sys.exit(main())

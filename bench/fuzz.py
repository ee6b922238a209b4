#!/usr/bin/env python3
"""Gives magsym cells, tables, symbols and words that are nearly right, and looks for a run that ends as none may.

Run it by hand, after the gate: bench/fuzz.py PROGRAM [--runs N] [--seed N] [--jobs N] [--only N]
PROGRAM is the built program. A run is drawn in one of two ways: a file of docs/examples, a row of tables/ or words of theirs,
of which bytes, words and lines are changed, cut, doubled or exchanged; or a text that a grammar writes, most of whose parts
are right. No run may end by a signal or with another status than 0 to 8. Of the statuses 2 to 5, 7 and 8 nothing is on standard
output, and of each but 0 and 1 one line of printable bytes is on the error stream; with 0 there is none, and with 1 a report or
a line. A run of more than a minute is counted as slow, and is no difference, for how long a run takes is not promised.

Prints how many runs ended with each status, and the last line says how many were none of these. Each run is drawn from the seed
and its number alone: --only N shows one, its words and its input. Ends with 1 at a difference.
"""
import argparse
import collections
import glob
import multiprocessing
import os
import random
import re
import subprocess
import sys
import tempfile

TOP = os.path.dirname(os.path.dirname(os.path.abspath(__file__)))
COMMANDS = ["symmetry", "primitive", "dataset", "orbits", "moments", "identify", "standard", "compare", "fill", "hall", "selfrun"]
OPTIONS = ["--no-time-reversal", "--skip", "--take"]
SECONDS = 60

# Numbers at and past each limit, and words that are nearly numbers.
HOSTILE = """0 -0 00 1 -1 2 1/2 -1/2 1/3 2/3 1/0 0/5 0/0 7/7 1/4 3/8 999999999999999999 1000000000000000000 -999999999999999999
1/999999999999999999 1/1000000 1/1000001 1/999999 1/999983 1000000000 1000000001 -1000000000 1000000000/999999937 0.5 -0.25 1. .5 .
1e3 +1 1/ /2 1/-2 -/2 0.000000000000000001 0.1234567 0.123456789012345678 0.1234567890123456789 --1 1/2/3 - / x 1,5 1/2. ٣ é""".split()

# Metric tensors of each system, and flat, long and skew ones.
METRICS = """1 1 1 0 0 0|1 1 4 0 0 0|2 2 5 0 0 -1|4 5 6 1 1 1|4 9 6 0 0 2|2 2 2 1 1 1|3 3 3 -1 -1 -1|4 4 6 -1 0 0|1 50 1 0 0 7
1 1000001 1 0 0 1000|1 1 1000000000 0 0 0|1000000000 1000000000 1000000000 0 0 0|2375/100 2375/100 1096/100 0 0 0
3/4 3/4 3/4 -1/4 -1/4 -1/4|10001 10001 822217778 23333 -16667 10000|7 11 13 5 3 4|1/999999999 1 1 0 0 0
1000000000 999999999 999999998 499999999 499999999 499999999""".replace("\n", "|").split("|")

HEADINGS = ["magcell 1"] * 60 + ["magcell 2"] * 60 + ["magcell 3", "magcell", "Magcell 1", " magcell\t1 ", "magcell 1 1", "#", ""]
KINDS = ["kind vector", "kind scalar", "kind vector plain", "kind vector axial", "kind scalar plain", "kind scalar axial"]
LINES = ["end", "#", "", " ", "\t", "metric 1 1 1 0 0 0", "atom A 0 0 0", "kind scalar", "atoms A 0 0 0", "end end", "atom", "metric", "\r", "magcell 1"]
NAMES = ["A", "B", "Fe", "Mn", "O2", "A_1", "abcdefgh", "abcdefghi", "1A", "_", "é", "atom", "end"]
SMALL = ["0"] * 4 + ["1/2"] * 3 + ["1/4", "3/4", "1/3", "2/3", "1/8", "-1/6", "5/6", "2/5", "1/7", "3/10"]
MOMENTS = ["0", "0", "0", "1", "-1", "2", "1/2", "3"]
LATTICES = list("PPPABCIRF" * 6) + ["H", "S", "p", "", "-"]
ORDERS = "1122334466" * 9 + "507"
AXES = {"2": ["", "", "x", "y", "z", "'", '"', "="], "3": ["", "", "x", "y", "z", "*"], "1": [""]}
SHIFTS = ["(0 0 1)", "(0 0 -1)", "(1 2 3)", "(12 0 0)", "(0 0)", "(0 0 0 0)", "(100 0 0)", "(", ")", "(0 0 x)", "(-6 6 0)"]


def read(path):
    with open(path, "rb") as file:
        return file.read()


def examples(pattern, most):
    """The example files of this pattern that have up to so many bytes."""
    files = (read(path) for path in sorted(glob.glob(os.path.join(TOP, pattern))))
    return [it for it in files if len(it) <= most]


def rows_of(pattern):
    """The rows of the tables of this pattern."""
    lines = b"".join(map(read, sorted(glob.glob(os.path.join(TOP, pattern))))).splitlines()
    return [it for it in lines if it and not it.startswith(b"#")]


CELLS = examples("docs/examples/*.cell", 4000)
ROWS = rows_of("tables/*.table") + rows_of("docs/examples/*.table")
WORDS = [it.decode().splitlines() for it in examples("docs/examples/*.words", 400)]


# Changes of a text


def cut(rng, text):
    return text[: rng.randrange(len(text) + 1)]


def with_byte(rng, text):
    at = rng.randrange(len(text) + 1)
    byte = rng.choice(b" \t\r\n#-/.0123456789\0\x7f\xff" + bytes([rng.randrange(256)]))
    return text[:at] + bytes([byte]) + text[at + rng.randrange(2) :]


def without_piece(rng, text):
    at = rng.randrange(len(text) + 1)
    return text[:at] + text[at + rng.choice([1, 1, 2, 5, 20]) :]


def with_copy(rng, text):
    at, to = rng.randrange(len(text) + 1), rng.randrange(len(text) + 1)
    return text[:to] + text[at : at + rng.choice([1, 3, 10, 40])] + text[to:]


def with_bit(rng, text):
    if not text:
        return text
    at = rng.randrange(len(text))
    return text[:at] + bytes([text[at] ^ 1 << rng.randrange(8)]) + text[at + 1 :]


def with_number(rng, text):
    words = list(re.finditer(rb"[-\d./]+", text))
    if not words:
        return text
    word = rng.choice(words)
    return text[: word.start()] + rng.choice(HOSTILE).encode() + text[word.end() :]


def with_lines_changed(rng, text):
    lines = text.split(b"\n")
    at, to = rng.randrange(len(lines)), rng.randrange(len(lines))
    way = rng.randrange(4)
    if way == 0:
        lines[at], lines[to] = lines[to], lines[at]
    elif way == 1:
        lines.insert(to, lines[at])
    elif way == 2:
        del lines[at]
    else:
        lines.insert(to, rng.choice(LINES).encode())
    return b"\n".join(lines)


CHANGES = [cut, with_byte, with_byte, without_piece, with_copy, with_bit, with_number, with_number, with_lines_changed, with_lines_changed]


def changed(rng, text):
    """The text with one to four changes, and now and then none."""
    for _ in range(rng.choice([0, 1, 1, 1, 1, 2, 2, 3, 4])):
        text = rng.choice(CHANGES)(rng, text)
    return text


# The grammar


def number(rng, usual):
    return rng.choice(HOSTILE) if rng.random() < 0.01 else rng.choice(usual)


def atom_line(rng, scalar):
    name = rng.choice(NAMES) if rng.random() < 0.02 else rng.choice("AAB")
    moments = rng.choice([0, 1 if scalar else 3]) if rng.random() < 0.97 else rng.randrange(5)
    words = [number(rng, SMALL) for _ in range(3)] + [number(rng, MOMENTS) for _ in range(moments)]
    return " ".join(["atom", name, *words])


def cell(rng):
    """A cell whose lines are mostly right and mostly in order."""
    if rng.random() < 0.4:
        return changed(rng, rng.choice(CELLS))
    heading = rng.choice(HEADINGS)
    kind = rng.choice(KINDS) if heading == "magcell 2" and rng.random() < 0.7 else None
    metric = rng.choice(METRICS) if rng.random() < 0.95 else " ".join(number(rng, "0 0 1 2 3 4 5 -1 1/2".split()) for _ in range(6))
    atoms = [atom_line(rng, kind and "scalar" in kind) for _ in range(rng.choice([0, 1, 1, 1, 2, 2, 2, 3, 3, 4, 8, 30]))]
    lines = [heading, *[kind] * bool(kind), f"metric {metric}", *atoms, "end"]
    if rng.random() < 0.1:
        lines.insert(rng.randrange(len(lines) + 1), rng.choice(LINES))
    text = rng.choice(["\n"] * 9 + ["\r\n"]).join([*lines, ""]).encode()
    return changed(rng, text) if rng.random() < 0.2 else text


def token(rng):
    order = rng.choice(ORDERS)
    axis = rng.choice(AXES.get(order, ["", "x", "y", "z"])) if rng.random() < 0.95 else rng.choice(["q", "*", "x", "'"])
    screw = rng.choice("12345") if rng.random() < 0.1 else ""
    letters = rng.choice(["", "", "", "a", "b", "c", "n", "d", "uv", "w", "e" if rng.random() < 0.1 else ""])
    return rng.choice(["", "", "-"]) + order + screw + axis + letters + rng.choice(["", "", "!"])


def symbol(rng):
    """A Hall symbol whose parts are mostly right, as bytes."""
    if rng.random() < 0.4:
        return changed(rng, rng.choice(ROWS).partition(b" ")[2])
    words = [rng.choice(["", "-"]) + rng.choice(LATTICES)] + [token(rng) for _ in range(rng.choice([1, 1, 1, 2, 2, 2, 3, 3, 4, 5] * 4 + [0, 6]))]
    words += [rng.choice(SHIFTS)] * (rng.random() < 0.1)
    return rng.choice([" "] * 9 + ["  ", "\t", ""]).join(words).encode()


def table(rng):
    """A table of a few rows, mostly of the magnetic space groups."""
    lines = []
    for i in range(rng.choice([0, 1, 2, 3, 5, 9])):
        lines.append(rng.choice(ROWS) if rng.random() < 0.7 else b"row%d " % i + symbol(rng))
        if rng.random() < 0.1:
            lines.append(rng.choice([b"", b"# no row", b" \t", b"x", b"n" * 33 + b" P 1", b"\r"]))
    text = b"\n".join([*lines, b""])
    return changed(rng, text) if rng.random() < 0.4 else text


def words_of(rng, command):
    """The words of a command, mostly as it wants them."""
    number_word = lambda: rng.choice(["0", "1", "2", "3", "-1", "-0", "000000001", "999999999", "1000000000", "x", "", "1/2", "é", "-"])
    if command == "symmetry":
        return [it for _ in range(rng.choice([0, 0, 1, 1, 2, 3])) for it in (rng.choice(OPTIONS), number_word())][: rng.randrange(7)]
    if command == "fill":
        return [number_word() if rng.random() < 0.1 else rng.choice(["1", "2", "0", "-1", "3"]) for _ in range(rng.choice([4] * 9 + [3]))]
    if command == "selfrun":
        return [str(rng.randrange(10**9))] if rng.random() < 0.8 else [number_word()]
    if command == "hall":
        return [symbol(rng)]
    if command in ("identify", "standard", "compare"):
        return [b"file"]
    return []


def asked(rng):
    """The words of a run, as bytes without 0."""
    if rng.random() < 0.05:
        words = list(rng.choice(WORDS))
    elif rng.random() < 0.05:
        words = [rng.choice([*COMMANDS, *OPTIONS, "1", "--skip=1", "file", "", "--", "-h"]) for _ in range(rng.randrange(6))]
    else:
        # few of the commands whose runs are long
        command = rng.choice(COMMANDS[:-1] * 9 + ["selfrun"])
        words = [command, *words_of(rng, command)]
    words = [it if isinstance(it, bytes) else it.encode() for it in words]
    if words and rng.random() < 0.05:
        at = rng.randrange(len(words))
        words[at] = changed(rng, words[at])
    if rng.random() < 0.02:
        words.insert(rng.randrange(len(words) + 1), rng.choice([b"", b"1", b"--take", b"\xff", b"x" * 5000]))
    return [it.replace(b"\0", b"") for it in words]


class Drawn:
    """The run of a number: its words, the input, and the file `file`, a table or another cell."""

    def __init__(self, seed, run):
        rng = random.Random(f"{seed} {run}")
        self.words = asked(rng)
        self.input = cell(rng)
        if self.words[:1] == [b"compare"]:
            self.file = rng.choice([self.input, changed(rng, self.input), cell(rng)])
        else:
            self.file = table(rng)


# The runs


def wrong_with(status, out, err):
    """What is wrong with a run that ended so, or None."""
    if not 0 <= status <= 8:
        return f"status {status}"
    if out and status in (2, 3, 4, 5, 7, 8):
        return f"status {status}, and {len(out)} bytes on standard output"
    told = re.fullmatch(rb"magsym: [ -~]+\n", err)
    if status in (0, 1) and not err:
        # a page may be empty
        return "status 1 without report or line" if status == 1 and not out else None
    if status == 0 or not told or (status == 1 and out):
        return f"status {status}, and on the error stream {err[:80]!r}"
    return None


def run(program, drawn, folder):
    """How a run ended: its status, or `slow`, and what is wrong with it."""
    with open(os.path.join(folder, "file"), "wb") as file:
        file.write(drawn.file)
    try:
        ran = subprocess.run([program, *drawn.words], input=drawn.input, capture_output=True, cwd=folder, timeout=SECONDS)
    except subprocess.TimeoutExpired:
        return "slow", None
    return ran.returncode, wrong_with(ran.returncode, ran.stdout, ran.stderr)


def tried(work):
    """The statuses of the runs of these numbers, and what is wrong with which."""
    program, seed, runs = work
    statuses, wrong = collections.Counter(), []
    with tempfile.TemporaryDirectory(prefix="magsym-fuzz-") as folder:
        for number in runs:
            status, what = run(program, Drawn(seed, number), folder)
            statuses[status] += 1
            if what:
                wrong.append((number, what))
    return statuses, wrong


def show(program, seed, number):
    """Prints one run whole."""
    drawn = Drawn(seed, number)
    print("words:", *drawn.words)
    print("input:", drawn.input.decode(errors="backslashreplace"), sep="\n")
    print("file:", drawn.file.decode(errors="backslashreplace"), sep="\n")
    with tempfile.TemporaryDirectory(prefix="magsym-fuzz-") as folder:
        print(*run(program, drawn, folder))


def main():
    parser = argparse.ArgumentParser(description=__doc__.splitlines()[0])
    parser.add_argument("program")
    parser.add_argument("--runs", type=int, default=1000000)
    parser.add_argument("--seed", type=int, default=1)
    parser.add_argument("--jobs", type=int, default=1)
    parser.add_argument("--only", type=int)
    given = parser.parse_args()
    program = os.path.abspath(given.program)
    if given.only is not None:
        return show(program, given.seed, given.only)
    work = [(program, given.seed, range(at, min(at + 500, given.runs))) for at in range(0, given.runs, 500)]
    statuses, differences = collections.Counter(), 0
    with multiprocessing.Pool(given.jobs) as pool:
        for counted, wrong in pool.imap(tried, work):
            statuses += counted
            differences += len(wrong)
            for number, what in wrong:
                print(f"run {number} of seed {given.seed}: {what}", flush=True)
    print("statuses:", ", ".join(f"{status}: {statuses[status]}" for status in sorted(statuses, key=str)))
    print(f"{sum(statuses.values())} runs of seed {given.seed}: {differences} ended as none may")
    return 1 if differences else 0


if __name__ == "__main__":
    sys.exit(main())

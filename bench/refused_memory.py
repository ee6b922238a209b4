#!/usr/bin/env python3
"""Refuses magsym memory, one allocation at a time, and looks whether it ends with its answer or tells that memory is wanting.

Run it by hand, after the gate, in one of two ways:
    bench/refused_memory.py try [--first N] [--last N]   by `rt try --fail-alloc`, with no proof and with checks of each access
    bench/refused_memory.py built PROGRAM                over the built program, with a `malloc` that refuses
Both go over the same runs: reports of a few small cells, of each command one at least, and `selfrun 1`. In turn the first, second
and each further allocation is refused, up to the last that the run makes. A run has to end as it does where none is refused, or
with the exit status 7, nothing on standard output, and on the error stream the line that memory is wanting, or nothing where
there was none for the words. Prints for each run how many of these came, and last

    N runs: A answered, M out of memory, 0 else

`rt try` builds the program anew for each number, over all runs at once, so it takes hours where the runs make thousands of
allocations: --last says where it stops (300, which is past the last of all runs but `selfrun`). `built` takes seconds; it wants
a C compiler, `cc`. Ends with 1 where a run ended in another way.
"""
import argparse
import collections
import os
import re
import subprocess
import sys
import tempfile

TOP = os.path.dirname(os.path.dirname(os.path.abspath(__file__)))
FERROMAGNET = b"magcell 1\nmetric 1 1 1 0 0 0\natom A 0 0 0 0 0 1\nend\n"
TILTED = b"magcell 1\nmetric 4 5 6 1 1 1\natom X 0 0 0 1 2 3\nend\n"
CHAIN = b"magcell 1\nmetric 1 1 4 0 0 0\natom A 0 0 0 0 0 1\natom A 0 0 1/2 0 0 -1\nend\n"
DOUBLED = b"magcell 1\nmetric 4 1 1 0 0 0\natom A 0 0 0\natom A 1/2 0 0\nend\n"

# The files that the words name.
FILES = {
    "two_rows": b"P4/mmm -P 4 2\nP4/mm'm' -P 4 2!\n",
    "no_match": b"P1 P 1\n",
    "other": b"magcell 1\nmetric 1 1 1 0 0 0\natom A 1/3 0 0 0 0 1\nend\n",
}

# The runs: a name, the words and the input.
RUNS = {
    "symmetry": (["symmetry"], FERROMAGNET),
    "symmetry_tilted": (["symmetry"], TILTED),
    "dataset": (["dataset"], TILTED),
    "identify": (["identify", "two_rows"], FERROMAGNET),
    "identify_none": (["identify", "no_match"], FERROMAGNET),
    "primitive": (["primitive"], DOUBLED),
    "orbits": (["orbits"], CHAIN),
    "hall": (["hall", "P 31 2c (0 0 1)"], b""),
    "standard": (["standard", "two_rows"], FERROMAGNET),
    "compare": (["compare", "other"], FERROMAGNET),
    "moments": (["moments"], CHAIN),
    "fill": (["fill", "1", "0", "0", "3"], CHAIN),
    "selfrun": (["selfrun", "1"], b""),
}

LINE = b"magsym: out of memory\n"

# Counts the allocations from the start of the program on, refuses that of the number REFUSED, and says at the end how many they were.
REFUSING = r"""
#include <errno.h>
#include <stdio.h>
#include <stdlib.h>
#include <unistd.h>
void *__libc_malloc(size_t), *__libc_calloc(size_t, size_t), *__libc_realloc(void *, size_t), *__libc_memalign(size_t, size_t);
static unsigned long made, refused;
__attribute__((constructor)) static void begin(void) {
    refused = strtoul(getenv("REFUSED"), 0, 10);
    made = 0;
}
static int refuses(void) { return ++made == refused && (errno = ENOMEM); }
void *malloc(size_t size) { return refuses() ? 0 : __libc_malloc(size); }
void *calloc(size_t count, size_t size) { return refuses() ? 0 : __libc_calloc(count, size); }
void *realloc(void *old, size_t size) { return refuses() ? 0 : __libc_realloc(old, size); }
void *aligned_alloc(size_t align, size_t size) { return refuses() ? 0 : __libc_memalign(align, size); }
int posix_memalign(void **made_at, size_t align, size_t size) {
    *made_at = refuses() ? 0 : __libc_memalign(align, size);
    return *made_at ? 0 : ENOMEM;
}
__attribute__((destructor)) static void end(void) {
    char text[24];
    if (write(9, text, snprintf(text, sizeof text, "%lu", made)) < 0) _exit(99);
}
"""

Ended = collections.namedtuple("Ended", "status out err")


class Count:
    """How many runs ended in each way, and how each run ends where nothing is refused."""

    def __init__(self):
        self.ways = {name: collections.Counter() for name in RUNS}

    def add(self, name, number, ended, whole):
        if ended.status == 7 and not ended.out and ended.err in (b"", LINE):
            way = "out of memory"
        elif ended == whole:
            way = "answered"
        else:
            way = "else"
            print(f"{name}, allocation {number}: status {ended.status}, {len(ended.out)} bytes, {ended.err[:80]!r}", flush=True)
        self.ways[name][way] += 1

    def told(self):
        """Prints the counts; the exit status."""
        for name, ways in self.ways.items():
            print(f"{name}: {sum(ways.values())} runs: " + ", ".join(f"{ways[it]} {it}" for it in ("answered", "out of memory", "else")))
        total = sum(self.ways.values(), collections.Counter())
        print(f"{total.total()} runs: {total['answered']} answered, {total['out of memory']} out of memory, {total['else']} else")
        return 1 if total["else"] or not total["out of memory"] else 0


# The built program


def refusing(folder):
    """The library whose allocations are refused."""
    source, library = os.path.join(folder, "refusing.c"), os.path.join(folder, "refusing.so")
    with open(source, "w", encoding="ascii") as file:
        file.write(REFUSING)
    subprocess.run(["cc", "-O1", "-shared", "-fPIC", "-fno-builtin", "-o", library, source], check=True)
    return library


def run_built(program, library, folder, name, number):
    """How a run ends whose allocation of this number is refused, 0 for none, and how many it made."""
    words, given = RUNS[name]
    counted = os.path.join(folder, "counted")
    shell = ["sh", "-c", 'exec "$@" 9>counted', "sh", "env", f"LD_PRELOAD={library}", f"REFUSED={number}", program, *words]
    ran = subprocess.run(shell, input=given, capture_output=True, cwd=folder, timeout=60)
    with open(counted, encoding="ascii") as file:
        return Ended(ran.returncode, ran.stdout, ran.stderr), int(file.read())


def over_built(program, folder, count):
    """Refuses each allocation of each run of the built program."""
    library = refusing(folder)
    for name in RUNS:
        whole, made = run_built(program, library, folder, name, 0)
        for number in range(1, made + 1):
            count.add(name, number, run_built(program, library, folder, name, number)[0], whole)


# `rt try`


def cases(folder):
    """The folder of the runs, each with its input and its words."""
    made = os.path.join(folder, "cases")
    os.mkdir(made)
    for name, (words, given) in RUNS.items():
        with open(os.path.join(made, name), "wb") as file:
            file.write(given)
        with open(os.path.join(made, f"{name}.args"), "w", encoding="ascii") as file:
            file.write("".join(f"{word}\n" for word in words))
    return made


def try_all(folder, number):
    """How each run ends by `rt try` whose allocation of this number is refused, 0 for none. What `rt try` tells of a case besides
    its status and its output is kept as its error stream, without what the program did not write."""
    words = ["rt", "try", *(["--fail-alloc", str(number)] if number else []), "--cases", os.path.join(folder, "cases")]
    for name in FILES:
        words += ["--data", f"{name}={os.path.join(folder, name)}"]
    ran = subprocess.run(words, cwd=os.path.join(TOP, "crates/magsym"), capture_output=True, timeout=3600)
    statuses = {name.decode(): int(status) for name, status in re.findall(rb"(?m)^case=(\S+) .*?\bstatus=(\d+)", ran.stderr)}
    outputs = {}
    for piece in re.split(rb"(?m)^== ", ran.stdout)[1:]:
        name, _, out = piece.partition(b"\n")
        outputs[name.decode().strip()] = out
    if set(statuses) != set(RUNS):
        sys.exit(f"rt try, allocation {number}: not every run ended with a status\n{ran.stderr.decode(errors='replace')[-2000:]}")
    return {name: Ended(statuses[name], outputs.get(name, b""), b"") for name in RUNS}


def over_try(first, last, folder, count):
    """Refuses each allocation up to the last, by `rt try`."""
    cases(folder)
    whole = try_all(folder, 0)
    for number in range(first, last + 1):
        ended = try_all(folder, number)
        for name in RUNS:
            count.add(name, number, ended[name], whole[name])
        if number > 1 and all(ended[name] == whole[name] for name in RUNS):
            print(f"no run makes {number} allocations")
            break


def main():
    parser = argparse.ArgumentParser(description=__doc__.splitlines()[0])
    ways = parser.add_subparsers(dest="way", required=True)
    by_try = ways.add_parser("try")
    by_try.add_argument("--first", type=int, default=1)
    by_try.add_argument("--last", type=int, default=300)
    ways.add_parser("built").add_argument("program")
    given = parser.parse_args()
    count = Count()
    with tempfile.TemporaryDirectory(prefix="magsym-memory-") as folder:
        for name, content in FILES.items():
            with open(os.path.join(folder, name), "wb") as file:
                file.write(content)
        if given.way == "built":
            over_built(os.path.abspath(given.program), folder, count)
        else:
            over_try(given.first, given.last, folder, count)
    return count.told()


if __name__ == "__main__":
    sys.exit(main())

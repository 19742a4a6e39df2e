#!/usr/bin/python3
"""Counts, by callgrind, the instructions an edge of the library for C as it was compiled for x86-64-v2 and for x86-64-v3.

    tools/dev/count_processors.py [--write] [V2 V3]    two object files or texts; by default libedgebpf.s and libedgebpf-v3.s of dist/

A figure is a difference: of a program that does the work once, less the same program without it. Both libraries have to give the same sums.
With --write the rows go into docs/figures/processors.txt. It needs valgrind, and a processor with what x86-64-v3 asks for.
"""
import argparse
import pathlib
import re
import subprocess
import sys
import tempfile

import figures

TOP = pathlib.Path(__file__).resolve().parent.parent.parent
HEADS = ("Instructions an edge", "x86-64-v2", "x86-64-v3", "v3 : v2")
WORKS = {
    "two": "two instructions",
    "filter": "a filter of 15 instructions",
    "lookups": "`has_edge` and `degree`",
    "weights": "weights by the argument",
    "row": "252 instructions in a row: sums and exclusive ors in turn",
    "hash": "a hash of 10 instructions with two products",
    "numbers": "the number of each edge, two instructions",
    "ingest": "ingest, an edit in batches of 65,536",
}


def output(*command):
    run = subprocess.run([str(word) for word in command], capture_output=True, text=True)
    if run.returncode:
        sys.exit(f"count_processors.py: {command[0]} failed: {run.stderr.strip()[-300:]}")
    return run.stdout, run.stderr


def counted(program, work, rounds):
    """The instructions of so many rounds, and what they printed: the edges and a sum."""
    said, counts = output("valgrind", "--tool=callgrind", "--callgrind-out-file=/dev/null", program, work, rounds)
    return int(re.search(r"Collected : (\d+)", counts)[1]), said.split()


def of_an_edge(program, work):
    before, (edges, _) = counted(program, work, 0)
    after, (_, sum_of_work) = counted(program, work, 1)
    return (after - before) / int(edges), sum_of_work


def counts(libraries, folder):
    """The rows of the table, which are printed as they come."""
    programs = []
    for number, library in enumerate(libraries):
        programs.append(folder / f"count_{number}")
        sources = [TOP / "tools" / "dev" / "count_processors.c", library, TOP / "bindings" / "c" / "heap.c"]
        output("cc", "-O2", f"-I{TOP / 'bindings' / 'c'}", "-o", programs[-1], *sources)
    for work, title in WORKS.items():
        (one, of_one), (other, of_other) = (of_an_edge(program, work) for program in programs)
        if of_one != of_other:
            sys.exit(f"count_processors.py: {work}: v2 gives {of_one}, and v3 {of_other}")
        row = (title, f"{one:.1f}", f"{other:.1f}", f"{other / one:.2f}")
        print(figures.line_of(row), flush=True)
        yield row


def main():
    parser = argparse.ArgumentParser(description=__doc__, formatter_class=argparse.RawDescriptionHelpFormatter)
    parser.add_argument("--write", action="store_true")
    parser.add_argument("libraries", metavar="V2 V3", nargs="*", type=pathlib.Path)
    options = parser.parse_args()
    libraries = options.libraries or [TOP / "dist" / name for name in ("libedgebpf.s", "libedgebpf-v3.s")]
    if len(libraries) != 2:
        parser.error("two libraries are compared")
    with tempfile.TemporaryDirectory() as folder:
        rows = list(counts(libraries, pathlib.Path(folder)))
    if options.write:
        figures.write("processors", HEADS, rows, figures.now(has_load=False))


if __name__ == "__main__":
    main()

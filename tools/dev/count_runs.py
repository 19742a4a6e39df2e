#!/usr/bin/python3
"""Counts the instructions that runs and pushes take for each edge, by callgrind: whole ones, over a range, and in steps of 100,000 units.

    tools/dev/count_runs.py [LIBRARY] [--write]   libedgebpf.a, by default that of dist/build

The graph has 16,384 vertices and some 4 or 12 edges for each, in random places. A cell has the figures of both graphs. With --write they go into
docs/figures/runs.txt; what was measured there of older code stays. The library's code for x86-64-v2 is taken, unless EDGEBPF_CPU names another.
"""
import argparse
import os
import pathlib
import re
import subprocess
import sys
import tempfile

import figures

TOP = pathlib.Path(__file__).resolve().parent.parent.parent
# What a program of count_runs.c is called in the table, and the head of what each kind of run takes there.
PROGRAMS = {
    "two": "two instructions",
    "filter": "19 instructions with a branch",
    "calls": "three calls of a function",
    "column": "two instructions, the target's number of a column",
    "columns": "four instructions, the targets' numbers of two columns",
}
KINDS = {"run": "Run", "range": "Over a range", "steps": "In steps", "push": "Push", "numbers": "Numbers", "some": "Numbers in steps"}
BATCHES = (1, 3)


def output(*command):
    run = subprocess.run([str(word) for word in command], capture_output=True, text=True)
    if run.returncode:
        sys.exit(f"count_runs.py: {command[0]} failed: {run.stderr.strip()[-300:]}")
    return run.stdout, run.stderr


def instructions(program, *words):
    said = output("valgrind", "--tool=callgrind", "--callgrind-out-file=/dev/null", program, *words)[1]
    return int(re.search(r"Collected : (\d+)", said)[1])


def of_an_edge(program, *words):
    edges = int(output(program, *words, 0)[0])
    return (instructions(program, *words, 1) - instructions(program, *words, 0)) / edges


def counted(program, name):
    """The cells of a program, by the heads of their columns."""
    return {head: " and ".join(f"{of_an_edge(program, name, kind, batches):.1f}" for batches in BATCHES) for kind, head in KINDS.items()}


def main():
    parser = argparse.ArgumentParser(description=__doc__, formatter_class=argparse.RawDescriptionHelpFormatter)
    parser.add_argument("library", nargs="?", type=pathlib.Path, default=TOP / "dist" / "build" / "libedgebpf.a")
    parser.add_argument("--write", action="store_true")
    options = parser.parse_args()
    os.environ.setdefault("EDGEBPF_CPU", "x86-64-v2")
    rows = {}
    with tempfile.TemporaryDirectory() as folder:
        program = pathlib.Path(folder) / "count_runs"
        output("cc", "-O2", f"-I{TOP / 'bindings' / 'c'}", "-o", program, TOP / "tools" / "dev" / "count_runs.c", options.library)
        for name, title in PROGRAMS.items():
            rows[title] = counted(program, name)
            print(name, *(f"{head}: {cell}" for head, cell in rows[title].items()), sep="; ", flush=True)
    if options.write:
        figures.update("runs", rows, figures.now(has_load=False))


if __name__ == "__main__":
    main()

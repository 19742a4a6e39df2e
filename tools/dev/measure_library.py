#!/usr/bin/python3
"""Measures calls of libedgebpf in C by measure_library.c: the best CPU time of some tries, on a random graph of 262,144 vertices.

    tools/dev/measure_library.py [LIBRARY] [--write]   libedgebpf.a, by default that of dist/build

With --write the figures go into docs/figures/library.txt and library_steps.txt, where what was wanted stays, and the instructions of an edit, which
were counted by hand.
"""
import argparse
import pathlib
import re
import tempfile

import figures
from count_runs import TOP, output

# What the program says of a call, how its row is named, and how its cell is said. The second table has the calls that pause.
CALLS = [
    ("a batch of 65,536 edits", "a batch of 65,536 edits from arrays", "{} ms"),
    ("a batch of one edit", "a batch of one edge", "{} µs"),
    ("a rebase, without the log's memory", "a rebase of a store whose log is empty", "{} µs"),
    ("share and close a version", "share and close a version", "{} ns"),
    ("lend the slices of a vertex at random", "lend the slices of a vertex at random", "{} ns"),
    ("a run over all edges", "a run over all edges", "{} ns an edge"),
    ("a run over one vertex", "a run over one vertex at random", "{} µs"),
    ("the number of each edge", "the number of each edge", "{} ns an edge"),
    ("all edges as two arrays", "all edges as two arrays", "{} ms"),
]
STEPS = [
    ("a run over all edges in steps", "a run over all edges in steps of 100,000 units", "{} ns an edge"),
    ("a step over one edge", "a step of a run over one vertex at random", "{} µs"),
    ("the numbers of one vertex's edges", "the numbers of one vertex's edges, 8 of them", "{} µs, {ratio:.1f} of the run that sums them"),
    ("the numbers of pairs", "the numbers of pairs at random", "{} ns a pair"),
]


def digits(text):
    """Two digits below one, one after the point below twenty, and none above."""
    number = float(text)
    return f"{number:.2f}" if number < 1 else f"{number:.1f}" if number < 20 else f"{number:.0f}"


def measured(library):
    """What the program says: a number for each of its lines."""
    with tempfile.TemporaryDirectory() as folder:
        program = pathlib.Path(folder) / "measure_library"
        output("cc", "-O2", f"-I{TOP / 'bindings' / 'c'}", "-o", program, TOP / "tools" / "dev" / "measure_library.c", library)
        return dict(re.findall(r"^(.*): ([\d.]+) ", output(program)[0], re.M))


def rows(calls, said):
    ratio = float(said["the numbers of one vertex's edges"]) / float(said["a run over one vertex"])
    return {name: {"Here": form.format(digits(said[words]), ratio=ratio)} for words, name, form in calls}


def counted_by_hand(name, row):
    """What a cell has after its first part."""
    _, heads, old = figures.read(name)
    cell = next((dict(zip(heads, cells))["Here"] for cells in old if cells[0] == row), "")
    return cell[cell.find("; "):] if "; " in cell else ""


def main():
    parser = argparse.ArgumentParser(description=__doc__, formatter_class=argparse.RawDescriptionHelpFormatter)
    parser.add_argument("library", nargs="?", type=pathlib.Path, default=TOP / "dist" / "build" / "libedgebpf.a")
    parser.add_argument("--write", action="store_true")
    options = parser.parse_args()
    said = measured(options.library)
    for name, calls in (("library", CALLS), ("library_steps", STEPS)):
        found = rows(calls, said)
        for row, cells in found.items():
            cells["Here"] += counted_by_hand(name, row)
            print(f"{row}: {cells['Here']}")
        if options.write:
            figures.update(name, found)


if __name__ == "__main__":
    main()

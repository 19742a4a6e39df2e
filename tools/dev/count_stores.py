#!/usr/bin/python3
"""Counts the instructions of a branch and its end, and of each sorted edge that becomes a store in one call or by batches, by callgrind.

    tools/dev/count_stores.py [LIBRARY] [--write]   libedgebpf.a, by default that of dist/build

With --write the counts go into docs/figures/stores.txt.
"""
import argparse
import pathlib
import tempfile

import figures
from count_runs import TOP, instructions, output

# Vertices, and batches of 65,536 random edges.
GRAPHS = (1 << 14, 1), (1 << 14, 4), (1 << 18, 4)


def of_a_time(program, kind, *graph):
    """The instructions of one time more, and how many edges there are."""
    edges = int(output(program, kind, *graph, 0)[0])
    return instructions(program, kind, *graph, 1) - instructions(program, kind, *graph, 0), edges


def counted(program):
    """The cells of each graph, by the graph and the heads of their columns, which are printed as they come."""
    for graph in GRAPHS:
        branch, edges = of_a_time(program, "of", *graph)
        sorted_edges, batches = (of_a_time(program, kind, *graph)[0] / edges for kind in ("from", "apply"))
        name = f"{graph[0]:,} vertices, {edges:,} edges"
        cells = {"A branch": f"{branch:,}", "An edge of sorted arrays": f"{sorted_edges:.1f}", "An edge by batches": f"{batches:.1f}"}
        print(name, *(f"{head}: {cell}" for head, cell in cells.items()), sep="; ", flush=True)
        yield name, cells


def main():
    parser = argparse.ArgumentParser(description=__doc__, formatter_class=argparse.RawDescriptionHelpFormatter)
    parser.add_argument("library", nargs="?", type=pathlib.Path, default=TOP / "dist" / "build" / "libedgebpf.a")
    parser.add_argument("--write", action="store_true")
    options = parser.parse_args()
    with tempfile.TemporaryDirectory() as folder:
        program = pathlib.Path(folder) / "count_stores"
        output("cc", "-O2", f"-I{TOP / 'bindings' / 'c'}", "-o", program, TOP / "tools" / "dev" / "count_stores.c", options.library)
        rows = dict(counted(program))
    if options.write:
        figures.update("stores", rows, figures.now(has_load=False))


if __name__ == "__main__":
    main()

#!/usr/bin/python3
"""Measures what an edit of a small batch costs on loaded graphs, through the library for C: bytes that are copied, requests of memory, CPU time, and
what each version keeps that is pinned.

    tools/dev/measure_batches.py [--edges 4 14 ..] [--library FILE] [--write]

Graphs have 65,536 vertices, or 16,384 where a vertex has 600 edges, uniform and skewed. Half of the edits take out an edge that is there. Instructions
hide this cost, as copies are counted by the byte or by the line. --library is libedgebpf.a, by default that of dist/build. With --write the rows go into
docs/figures/batches.txt. The library's code for x86-64-v2 is taken, which copies by calls, unless EDGEBPF_CPU names another.
"""
import argparse
import os
import pathlib
import subprocess
import tempfile

import figures

TOP = pathlib.Path(__file__).resolve().parent.parent.parent
EDGES, KINDS = (4, 14, 32, 76, 200, 600), ("uniform", "skewed")
# How many edits a batch has, how many batches are measured, and how many versions are pinned after them.
BATCHES = (1, 2_000, 0), (64, 200, 32), (1_024, 40, 0), (65_536, 6, 0)
VERTICES, FEWER, MANY_EDGES = 65_536, 16_384, 600
# Wanted of uniform graphs, by the edges of a vertex: bytes that an edit of a batch of 64 copies, and KB that a version keeps.
WANTED = {14: (5_500, 280), 32: (8_000, 420), 76: (8_000, 430), 200: (9_500, 500), 600: (13_000, 700)}
HEADS = (
    "Edges a vertex", "Copied an edit, in batches of 1; 64; 1,024; 65,536", "Wanted with 64; and KB", "Requests of memory an edit", "Microseconds an edit",
    "A version of 64 edits keeps", "Bytes an edge",
)


def built(folder, library):
    program = pathlib.Path(folder) / "measure_batches"
    source = TOP / "tools" / "dev" / "measure_batches.c"
    wrapped = [f"-Wl,--wrap={name}" for name in ("memcpy", "memmove")]
    subprocess.run(["cc", "-O2", f"-I{TOP / 'bindings' / 'c'}", *wrapped, "-o", program, source, library], check=True)
    return program


def measured(program, edges, kind, batch):
    vertices = FEWER if edges >= MANY_EDGES else VERTICES
    size, batches, pins = batch
    words = [program, vertices, vertices * edges, kind, size, batches, pins]
    run = subprocess.run([*map(str, words)], stdout=subprocess.PIPE, text=True, check=True)
    return [float(word) for word in run.stdout.split()]


def row(program, edges, kind):
    of_batches = [measured(program, edges, kind, batch) for batch in BATCHES]
    copied, requests, nanoseconds, kept, bytes_an_edge = zip(*of_batches)
    wanted = WANTED.get(edges) if kind == "uniform" else None
    return [
        f"{edges}, {kind}", "; ".join(f"{number:,.0f}" for number in copied), "{:,}; {}".format(*wanted) if wanted else "",
        "; ".join(f"{number:.3g}" for number in requests), "; ".join(f"{number / 1_000:.2g}" for number in nanoseconds), f"{max(kept) / 1_000:,.0f} KB",
        f"{bytes_an_edge[0]:.1f}",
    ]


def main():
    parser = argparse.ArgumentParser(description=__doc__, formatter_class=argparse.RawDescriptionHelpFormatter)
    parser.add_argument("--edges", type=int, nargs="+", default=EDGES)
    parser.add_argument("--library", type=pathlib.Path, default=TOP / "dist" / "build" / "libedgebpf.a")
    parser.add_argument("--write", action="store_true")
    options = parser.parse_args()
    os.environ.setdefault("EDGEBPF_CPU", "x86-64-v2")
    with tempfile.TemporaryDirectory() as folder:
        program = built(folder, options.library)
        rows = []
        for kind in KINDS:
            for edges in options.edges:
                rows.append(row(program, edges, kind))
                print(figures.line_of(rows[-1]), flush=True)
    if options.write:
        figures.write("batches", HEADS, rows)


if __name__ == "__main__":
    main()

#!/usr/bin/env python3
"""Counts what an edit of a small batch copies and a version keeps, through the library for C, and fails above limits: count_copies.py [LIBRARY]

No contract says what a version shares with the one before, and instructions hardly show it, since they count a copy by the line. A limit is a tenth above
what was counted on 2026-11-30. A library that rebuilds each page with an edit, made of that one by a changed jump, is past one where a vertex has 60 or
200 edges; of fewer it copies hardly more.
"""
import os
import pathlib
import subprocess
import sys
import tempfile

from measure_batches import TOP, built

# Vertices of the graph, edits of a batch, of which half take out an edge that is there, and batches, of the last of which so many are pinned.
VERTICES, EDITS, BATCHES, PINS = 16_384, 64, 64, 32
# The object for wider vectors makes more of its copies without a call.
PROCESSOR = {"EDGEBPF_CPU": "x86-64-v2"}
# Edges of a vertex, and the most for an edit: bytes that are copied, requests of memory, and bytes that each pinned version keeps. Skewed graphs have
# vertices with thousands of edges.
MOST = {
    (3, "uniform"): (3_890, 5.9, 1_320),
    (8, "uniform"): (5_830, 7.7, 3_580),
    (20, "uniform"): (7_170, 5.8, 5_240),
    (60, "uniform"): (7_820, 5.0, 6_060),
    (200, "uniform"): (10_540, 5.1, 8_470),
    (60, "skewed"): (8_450, 8.1, 6_610),
}


def counted(program, edges, kind):
    words = [program, VERTICES, VERTICES * edges, kind, EDITS, BATCHES, PINS]
    run = subprocess.run([*map(str, words)], stdout=subprocess.PIPE, text=True, env=os.environ | PROCESSOR, check=True)
    copied, requests, _, kept, _ = map(float, run.stdout.split())
    return copied, requests, kept / EDITS


def main(library):
    wrong = False
    with tempfile.TemporaryDirectory() as folder:
        program = built(folder, library)
        for (edges, kind), most in MOST.items():
            each = counted(program, edges, kind)
            texts = (f"{number:,.{digits}f} of {limit:,} {words}" for number, limit, words, digits in
                     zip(each, most, ("bytes copied", "requests of memory", "bytes kept"), (0, 2, 0)))
            print(f"count_copies: an edit of {EDITS} where a vertex has {edges} edges, {kind}: {', '.join(texts)}", flush=True)
            wrong |= any(number > limit for number, limit in zip(each, most))
    if wrong:
        sys.exit("count_copies: more than that: is something copied that was shared?")


if __name__ == "__main__":
    main(pathlib.Path(sys.argv[1]) if len(sys.argv) > 1 else TOP / "dist/build/libedgebpf.a")

#!/usr/bin/env python3
"""Counts by callgrind what a `rebase` costs in the session, its reading and its receipt's text left out: count_rebases.py [PROGRAM] [--write]

A count is the instructions below Session::perform of a script that ends with a rebase, less those of the same script without it. The same
seed makes the same script. With --write the counts go into docs/figures/rebases.txt.
"""
import random
import sys

import figures
from count_hubs import MOST_EDITS, PROGRAM, VERTICES, batch, instructions

PERFORM = "--toggle-collect=session::session::Session::perform*"
BATCHES = 64


def batches(count, size, seed):
    """Insertions of random edges."""
    choice = random.Random(seed)
    return [line for _ in range(count) for line in batch(f"+ {choice.randrange(VERTICES)} {choice.randrange(VERTICES)}" for _ in range(size))]


def scripts():
    """What comes before the rebase that is counted, and its name. The graph has 64 batches of 65,536 edits."""
    graph = [f"graph {VERTICES}", *batches(BATCHES, MOST_EDITS, 1)]
    yield "64 of 65,536 edits, with no rebase before", graph
    yield "none, right after that", [*graph, "rebase"]
    twice = [*graph, "rebase", "rebase"]
    yield "none, once more", twice
    for count in (64, 4_000):
        yield f"{count:,} of one edit", [*twice, *batches(count, 1, 2)]
    yield "64 of 65,536 edits", [*twice, *batches(BATCHES, MOST_EDITS, 3)]


def count_rebases(program):
    for name, lines in scripts():
        with_it, without = (instructions([program], given, PERFORM) for given in ([*lines, "rebase"], lines))
        row = (name, f"{with_it - without:,}")
        print(figures.line_of(row), flush=True)
        yield row


def main():
    words = [word for word in sys.argv[1:] if word != "--write"]
    rows = list(count_rebases(words[0] if words else PROGRAM))
    if "--write" in sys.argv:
        figures.write("rebases", ("Batches since the rebase before it", "Instructions"), rows, figures.now(has_load=False))


if __name__ == "__main__":
    main()

#!/usr/bin/env python3
"""Counts by callgrind what a batch at a vertex of many neighbours costs: count_hubs.py [PROGRAM] [--write]

A count is the instructions of a script less those of the same script without the measured batches, so it has their text, too. The same seed
makes the same script. With --write the counts go into docs/figures/hubs.txt.
"""
import pathlib
import random
import re
import subprocess
import sys

import figures

PROGRAM = pathlib.Path(__file__).resolve().parent.parent.parent / "dist/build/edgebpf"
VERTICES, MOST_EDITS = 1_048_576, 65_536
DEGREES = (10_000, 100_000, 500_000, 1_000_000)
SEEDS = (1, 2, 3)


def instructions(command, lines, *options):
    command = ["valgrind", "--tool=callgrind", "--callgrind-out-file=/dev/null", *options, *command]
    run = subprocess.run(command, input="\n".join(lines).encode() + b"\n", stdout=subprocess.DEVNULL, stderr=subprocess.PIPE, check=True)
    return int(re.search(rb"Collected : (\d+)", run.stderr).group(1))


def batch(edits):
    return ["batch A", *edits, "end"]


def hub(degree):
    """A graph of which one vertex has the even targets from 0 on, or all if there are not so many even ones."""
    targets = range(0, 2 * degree, 2) if 2 * degree <= VERTICES else range(degree)
    pieces = [targets[start:start + MOST_EDITS] for start in range(0, degree, MOST_EDITS)]
    return [f"graph {VERTICES}", *(line for piece in pieces for line in batch(f"+ 7 {target}" for target in piece))]


def hub_batches(degree, count, size, seed):
    """Insertions and removals at random, of targets below twice the degree."""
    choice, limit = random.Random(seed), min(2 * degree, VERTICES)
    return [line for _ in range(count) for line in
            batch(f"{choice.choice('+-')} 7 {choice.randrange(limit)}" for _ in range(size))]


def half_changing(degree, count, size, seed):
    """Edits of which half put in a target that is missing or take one out, and half change nothing."""
    choice, there = random.Random(seed), set(range(degree))
    lines = []
    for _ in range(count):
        edits = []
        for _ in range(size):
            target, changes = choice.randrange(VERTICES), choice.random() < 0.5
            edits.append(f"{'+' if (target in there) != changes else '-'} 7 {target}")
            if changes:
                there ^= {target}
        lines += batch(edits)
    return lines


def mean(program, graph, batches, count):
    """The mean of the instructions of a batch with each seed's batches, and these."""
    before = instructions([program], graph)
    each = [(instructions([program], graph + batches(seed)) - before) // count for seed in SEEDS]
    return sum(each) // len(each), each


def count_hubs(program):
    """The rows of the table, which are printed as they come."""
    for name, size, count in (("one edit", 1, 64), ("64 edits", 64, 16)):
        row = [name]
        for degree in DEGREES:
            row.append(f"{mean(program, hub(degree), lambda seed: hub_batches(degree, count, size, seed), count)[0]:,}")
        print(figures.line_of(row), flush=True)
        yield row
    middle, each = mean(program, hub(DEGREES[-1]), lambda seed: half_changing(DEGREES[-1], 16, 64, seed), 16)
    name, empty = "64 edits, of which half change the tree", [""] * (len(DEGREES) - 1)
    for row in ([name, *empty, f"{middle:,}"], [f"{name}, the seed that costs most", *empty, f"{max(each):,}"]):
        print(figures.line_of(row), flush=True)
        yield row


def main():
    words = [word for word in sys.argv[1:] if word != "--write"]
    rows = list(count_hubs(words[0] if words else PROGRAM))
    if "--write" in sys.argv:
        figures.write("hubs", ("Batch at a vertex of so many targets", *(f"{degree:,}" for degree in DEGREES)), rows, figures.now(has_load=False))


if __name__ == "__main__":
    main()

#!/usr/bin/env python3
"""Counts by callgrind what a batch of one edit at a random vertex costs, of graphs that begin without an edge: count_batches.py [PROGRAM]

A count is the instructions of a script less those of the same script without the measured batches, so it has their text, too.
"""
import random
import sys

from count_hubs import PROGRAM, SEEDS, batch, mean

MEASURED = 1_024
# The vertices, and how many batches come before those that are measured.
ROWS = [(65_536, 0), (65_536, 3_072), (1_048_576, 0)]


def batches(vertices, count, seed):
    choice = random.Random(seed)
    return [line for _ in range(count) for line in batch([f"+ {choice.randrange(vertices)} {choice.randrange(vertices)}"])]


def count_batches(program):
    for vertices, earlier in ROWS:
        graph = [f"graph {vertices}", *batches(vertices, earlier, len(SEEDS) + 1)]
        middle, each = mean(program, graph, lambda seed: batches(vertices, MEASURED, seed), MEASURED)
        print(f"{vertices:,} vertices, {MEASURED:,} batches after {earlier:,}: {middle:,} a batch, by seed {each}", flush=True)


if __name__ == "__main__":
    count_batches(sys.argv[1] if len(sys.argv) > 1 else PROGRAM)

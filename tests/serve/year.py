#!/usr/bin/python3
"""Many batches on one folder without HTTP: memory, files and pauses, and at the end the edges against a set.

    tests/serve/year.py --batches 100000
"""
import argparse
import collections
import os
import pathlib
import queue
import random
import sys
import time

from harness import folder

TOP = pathlib.Path(__file__).resolve().parent.parent.parent
sys.path[:0] = [str(TOP / "tools"), str(TOP / "bindings" / "python")]

import numpy as np  # noqa: E402
from edgebpf_serve.disk import Disk  # noqa: E402
from edgebpf_serve.engine import Engine  # noqa: E402
from edgebpf_serve.limits import REMOVE, Options  # noqa: E402
from edgebpf_serve.service import resident_bytes  # noqa: E402

VERTICES, EDGES, EDITS, UNDER_WAY = 20_000, 500_000, 64, 256


class Meter:
    """What the engine tells, of which the longest is kept."""

    def __init__(self):
        self.longest, self.snapshots = 0.0, 0

    def group(self, count, synced, applied):
        self.longest = max(self.longest, applied)

    def full(self):
        raise SystemExit("year: the disk is full")

    def snapshot(self, seconds):
        self.snapshots += 1


class Edges:
    """The model: a table of which edges there are."""

    def __init__(self):
        self.table = np.zeros((VERTICES, VERTICES // 8), np.uint8)

    def apply(self, edits):
        for source, target in edits.tolist():
            vertex, bit = source & (REMOVE - 1), 1 << (target & 7)
            if source & REMOVE:
                self.table[vertex, target >> 3] &= ~bit & 255
            else:
                self.table[vertex, target >> 3] |= bit

    def starts_and_targets(self):
        rows = np.unpackbits(self.table, axis=1, bitorder="little")
        return np.concatenate(([0], np.cumsum(rows.sum(axis=1, dtype=np.int64)))), np.concatenate([np.flatnonzero(row) for row in rows])


def random_edits(chance, pool, count):
    """As many edges that come as go, once there are some: `pool` has those that are there."""
    edits = []
    for number in range(count):
        if number % 2 and pool:
            place = chance.randrange(len(pool))
            pool[place], pool[-1] = pool[-1], pool[place]
            source, target = pool.pop()
            edits.append((source | REMOVE, target))
        else:
            pool.append((chance.randrange(VERTICES), chance.randrange(VERTICES)))
            edits.append(pool[-1])
    return np.array(edits, np.uint32)


def feed(engine, edges, pool, options):
    """Has so many batches applied, and prints what memory and files they take."""
    chance, answers, under_way, begun = random.Random(options.seed), queue.SimpleQueue(), 0, time.perf_counter()
    for number in range(1, options.batches + 1):
        edits = random_edits(chance, pool, EDITS)
        edges.apply(edits)
        engine.submit(f"id{number}", edits, answers.put)
        under_way += 1
        while under_way >= UNDER_WAY or number == options.batches and under_way:
            answer = answers.get()
            if isinstance(answer, Exception):
                raise SystemExit(f"year: {answer}")
            under_way -= 1
        if number % (options.batches // 10) == 0:
            size = sum(path.stat().st_size for path in engine.disk.folder.iterdir())
            print(f"year: {number} batches, {time.perf_counter() - begun:.0f} s, {resident_bytes() >> 20} MB of memory, {size >> 20} MB of files,"
                  f" {engine.graph.rebases} rebases, {engine.meter.snapshots} snapshots", flush=True)


def check(engine, edges):
    starts, targets = engine.latest.version.csr()
    wanted = edges.starts_and_targets()
    if not (np.array_equal(starts, wanted[0]) and np.array_equal(targets, wanted[1])):
        raise SystemExit("year: the edges are not those of the batches")


def main():
    parser = argparse.ArgumentParser(description=__doc__, formatter_class=argparse.RawDescriptionHelpFormatter)
    parser.add_argument("--batches", type=int, default=100_000)
    parser.add_argument("--seed", type=int, default=1)
    options = parser.parse_args()
    edges, counts = Edges(), collections.Counter()
    with folder() as place:
        limits = Options(data=str(place / "graph"), reserve_bytes=0, kept_bytes=1 << 20, snapshot_batches=max(10, options.batches // 20))

        def log(what, **fields):
            counts[what] += 1

        for life in range(2):
            engine = Engine(Disk(limits.data, VERTICES), limits, Meter(), log)
            engine.start()
            if life == 0:
                chance = random.Random(0)
                pool = [(chance.randrange(VERTICES), chance.randrange(VERTICES)) for _ in range(EDGES)]
                for part in np.array_split(np.array(pool, np.uint32), 16):
                    edges.apply(part)
                    engine.submit(None, part, lambda answer: None)
                feed(engine, edges, pool, options)
                longest = engine.meter.longest
            check(engine, edges)
            engine.close()
    print(f"year: {options.batches} batches: the edges are right, also after a start that took {engine.recovery_seconds:.1f} s;"
          f" the longest group took {1e3 * longest:.0f} ms after its sync; load {os.getloadavg()[0]:.1f}")


if __name__ == "__main__":
    main()

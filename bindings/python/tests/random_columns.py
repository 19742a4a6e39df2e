#!/usr/bin/python3
"""Runs, numbers, pairs and pushes with columns beside the second implementation, over random graphs, programs, columns, frontiers and budgets.
By hand:

    random_columns.py [--comparisons N] [--seed S]

Programs have branches, local calls, helpers and tables, as the second implementation draws them. It runs each of them on the record of each
edge, which is put together here: the edge's four numbers, the argument, and of each column the source's number and the target's. What the
library gives in one call, in pieces and by threads has to be the same. It ends with status 1 at the first difference.
"""
import argparse
import pathlib
import random
import struct
import sys

import numpy as np

TOP = pathlib.Path(__file__).resolve().parents[3]
sys.path[:0] = [str(TOP / "bindings" / "python"), str(TOP / "tests" / "second_implementation")]
sys.dont_write_bytecode = True

import bpf
import edgebpf
from programs import Programs

EDGE, COLUMN, MOST_RECORD_LENGTH = 16, 16, 256
BUDGETS = (0, 1, 10, 1_000, 10**6)
# The second implementation runs some 300,000 instructions a second.
MOST_INSTRUCTIONS = 200_000
WORD = 1 << 64
REDUCTIONS = {
    "sum": lambda numbers: sum(numbers) % WORD,
    "min": lambda numbers: min(numbers, default=WORD - 1),
    "max": lambda numbers: max(numbers, default=0),
}


class Difference(Exception):
    """What differs."""


class Trial:
    """One graph with its set of edges, and one program with what its runs are lent."""

    def __init__(self, chance):
        self.chance, self.count = chance, 0
        self.vertices = chance.choice([1, 2, 5, 20, 60, 300])
        draw = lambda: chance.randrange(self.vertices)
        edges = {(draw(), draw()) for _ in range(chance.choice([0, 1, 10, 60]))}
        for _ in range(chance.choice([0, 0, 1, 2])):
            hub = draw()
            edges |= {(hub, draw()) for _ in range(chance.choice([8, 64, 150]))}
        self.targets = {vertex: sorted(target for source, target in edges if source == vertex) for vertex in range(self.vertices)}
        self.edges, self.graph = sorted(edges), bpf.Graph(self.vertices, {v: set(t) for v, t in self.targets.items()}, len(edges))
        store = edgebpf.Store(self.vertices)
        store.batch("A", edges=self.edges)
        self.version = store.pin()
        self.programs = Programs(chance)

    def draw(self):
        """A program that is accepted, whose runs are short enough, with an argument and columns for it."""
        while True:
            columns = self.chance.choice([1, 1, 2, 3, 8])
            record = EDGE + COLUMN * columns + self.chance.choice([0, 0, 8, 5, 40])
            table = self.chance.randbytes(self.chance.choice([0, 0, 0, 16]))
            try:
                self.program = edgebpf.Program(self.programs.code(record, table), record, table)
            except edgebpf.Refused:
                continue
            if self.program.bound * max(1, len(self.edges)) <= MOST_INSTRUCTIONS:
                break
        self.argument = self.chance.randbytes(record - EDGE - COLUMN * columns)
        number = lambda: self.chance.choice([0, 1, self.chance.randrange(300), self.chance.randrange(WORD), WORD - 1])
        self.columns = [np.array([number() for _ in range(self.vertices)], np.uint64) for _ in range(columns)]

    def number(self, source, target, place):
        ends = [int(column[end]) if end < self.vertices else 0 for column in self.columns for end in (source, target)]
        degree = len(self.targets.get(source, ()))
        record = struct.pack("<4I", source, target, place, degree) + self.argument + struct.pack(f"<{len(ends)}Q", *ends)
        return bpf.run(self.program.code, record, self.graph, self.program.bound, self.program.table)

    def same(self, what, here, there):
        self.count += 1
        if here != there:
            raise Difference(f"{what}: {str(here)[:300]} and {str(there)[:300]}")

    def finished(self, run):
        budget = self.chance.choice([*BUDGETS, None])
        while not run.done:
            if self.chance.random() < 0.05:
                run = run.share()
            run.step(self.chance.choice(BUDGETS) if budget is None else budget)
        return run

    def compare(self):
        """Some comparisons of one program."""
        self.draw()
        numbers = {(u, v): self.number(u, v, place) for u, targets in self.targets.items() for place, v in enumerate(targets)}
        some = [self.chance.randrange(self.vertices) for _ in range(self.chance.choice([0, 1, 2, 20]))]
        frontier, reduction = self.chance.choice([list(range(self.vertices)), some]), self.chance.choice([*REDUCTIONS])
        rows = [[numbers[vertex, target] for target in self.targets[vertex]] for vertex in frontier]
        flat, reduce = [number for row in rows for number in row], REDUCTIONS[reduction]
        wanted = [reduce(row) for row in rows], len(flat), reduce(flat)
        lent = {"columns": self.columns}
        given = self.program, reduction, frontier, self.argument
        for threads in (1, self.chance.choice([2, 5])):
            whole = self.version.run(*given, **lent, threads=threads)
            self.same(f"a run by {threads} threads", (whole.values.tolist(), whole.edges, whole.total), wanted)
        pieces = self.finished(self.version.begin(*given, **lent))
        self.same("a run in pieces", (pieces.values.tolist(), pieces.edges, pieces.total), wanted)
        self.compare_pushes(given, numbers, frontier, reduction, wanted[1:])
        self.same("numbers", self.version.numbers(self.program, self.argument, frontier, **lent).tolist(), flat)
        in_pieces = self.finished(self.version.begin_numbers(self.program, frontier, self.argument, **lent))
        self.same("numbers in pieces", in_pieces.numbers.tolist(), flat)
        ends = lambda: [self.chance.choice([self.chance.randrange(self.vertices), self.vertices, WORD >> 33]) for _ in range(6)]
        sources, targets = ends() + [u for u, _ in self.edges[:20]], ends() + [v for _, v in self.edges[:20]]
        # Of a pair that is no edge the record has the source's degree for a place.
        place = lambda u, v: self.targets[u].index(v) if v in self.targets.get(u, ()) else len(self.targets.get(u, ()))
        of_pairs = [self.number(u, v, place(u, v)) for u, v in zip(sources, targets)]
        self.same("pairs", self.version.pairs(self.program, sources, targets, self.argument, **lent).tolist(), of_pairs)

    def compare_pushes(self, given, numbers, frontier, reduction, wanted):
        begins = [self.chance.choice([0, 5, self.chance.randrange(WORD), WORD - 1]) for _ in range(self.vertices)]
        gone = {vertex: [] for vertex in range(self.vertices)}
        for vertex in frontier:
            for target in self.targets[vertex]:
                gone[target].append(numbers[vertex, target])
        left = [REDUCTIONS[reduction]([begins[vertex], *gone[vertex]]) for vertex in range(self.vertices)]
        changed = [vertex for vertex in range(self.vertices) if left[vertex] != begins[vertex]]
        into = np.array(begins, np.uint64)
        pushed = self.version.push(*given, into=into, columns=self.columns, changed=True)
        self.same("a push", (into.tolist(), pushed.edges, pushed.total, pushed.changed.tolist()), (left, *wanted, changed))
        pieces = self.finished(self.version.begin_push(*given, into=np.array(begins, np.uint64), columns=self.columns))
        self.same("a push in pieces", (pieces.values.tolist(), pieces.edges, pieces.total), (left, *wanted))


def compared(comparisons, first_seed):
    """How many comparisons were made, at least so many, each with a seed from the first on."""
    done, seed = 0, first_seed
    while done < comparisons:
        trial = Trial(random.Random(seed))
        try:
            for _ in range(4):
                trial.compare()
        except Difference as difference:
            raise Difference(f"seed {seed}, comparison {trial.count}: {difference}") from None
        done += trial.count
        seed += 1
    return done


def main():
    parser = argparse.ArgumentParser(description=__doc__, formatter_class=argparse.RawDescriptionHelpFormatter)
    parser.add_argument("--comparisons", type=int, default=1_000)
    parser.add_argument("--seed", type=int, default=1)
    options = parser.parse_args()
    try:
        done = compared(options.comparisons, options.seed)
    except Difference as difference:
        sys.exit(f"random_columns: {difference}")
    print(f"random_columns: {done} comparisons from seed {options.seed} on, none different")


if __name__ == "__main__":
    main()

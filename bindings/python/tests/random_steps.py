#!/usr/bin/python3
"""Work in pieces beside the same work by one call, over random graphs, programs, frontiers and budgets. By hand:

    random_steps.py [--comparisons N] [--seed S]

Programs have branches, local calls, helpers and tables, as the second implementation draws them. Of each, a run in pieces is compared with one by
`edgebpf_run`, the numbers of a frontier in pieces with slices of what `edgebpf_numbers` gives, the numbers of all edges as pairs with those, and
the edges of the pieces with the degrees of a set of edges. Some pieces are made by a share of the one before. It ends with status 1 at the first
difference.
"""
import argparse
import pathlib
import random
import sys

import cffi
import numpy as np

TOP = pathlib.Path(__file__).resolve().parents[3]
sys.path[:0] = [str(TOP / "bindings" / "python"), str(TOP / "tests" / "second_implementation")]
sys.dont_write_bytecode = True

import edgebpf
from edgebpf import library
from programs import Programs

EDGE = 16
BUDGETS = (0, 1, 10, 1_000, 10**6)
# Programs whose bound times the edges is more are drawn again: so a comparison takes some milliseconds.
MOST_INSTRUCTIONS = 2 * 10**7
DECLARATIONS = """
uint32_t edgebpf_run(void *, void *, const uint8_t *, size_t, const uint32_t *, size_t, uint32_t, uint64_t *, size_t, uint64_t *);
uint32_t edgebpf_numbers(void *, void *, const uint8_t *, size_t, uint64_t *, size_t);
"""


class Difference(Exception):
    """What differs."""


class Whole:
    """The calls of the library that do all at once."""

    def __init__(self):
        self.types = cffi.FFI()
        self.types.cdef(DECLARATIONS)
        self.library = self.types.dlopen(library.path())

    def handles(self, version, program):
        there = library.foreign()
        return [self.types.cast("void *", int(there.cast("uintptr_t", each))) for each in (version._at(), program._handles().own().at)]

    def run(self, version, program, argument, frontier, reduction):
        values, totals, vertices = np.empty(len(frontier), np.uint64), np.empty(2, np.uint64), np.array(frontier, np.uint32)
        at = lambda array, kind: self.types.cast(kind, array.ctypes.data)
        status = self.library.edgebpf_run(
            *self.handles(version, program), argument, len(argument), at(vertices, "uint32_t *"), len(frontier),
            ("sum", "min", "max").index(reduction), at(values, "uint64_t *"), len(frontier), at(totals, "uint64_t *"))
        if status:
            raise Difference(f"edgebpf_run answered {status}")
        return values.tolist(), int(totals[0]), int(totals[1])

    def numbers(self, version, program, argument):
        numbers = np.empty(version.edges, np.uint64)
        at = self.types.cast("uint64_t *", numbers.ctypes.data)
        status = self.library.edgebpf_numbers(*self.handles(version, program), argument, len(argument), at, len(numbers))
        if status:
            raise Difference(f"edgebpf_numbers answered {status}")
        return numbers.tolist()


class Trial:
    """One graph with its set of edges."""

    def __init__(self, chance, whole):
        self.chance, self.whole, self.count = chance, whole, 0
        self.vertices = chance.choice([1, 2, 5, 20, 60, 300, 3_000])
        draw = lambda: chance.randrange(self.vertices)
        edges = {(draw(), draw()) for _ in range(chance.choice([0, 1, 10, 60, 400]))}
        # Rows of many edges are done in blocks, and those of more than 768 lie in many slices.
        for _ in range(chance.choice([0, 0, 1, 2])):
            hub = draw()
            edges |= {(hub, draw()) for _ in range(chance.choice([8, 64, 200, 2_000]))}
        self.edges, self.programs = sorted(edges), Programs(chance)
        store = edgebpf.Store(self.vertices)
        store.batch("A", edges=self.edges)
        if chance.random() < 0.2:
            store.rebase()
        self.version = store.pin()
        self.degrees = [0] * self.vertices
        for source, _ in self.edges:
            self.degrees[source] += 1
        self.starts = np.concatenate([[0], np.cumsum(self.degrees)]).astype(int).tolist()

    def program(self):
        """One that is accepted, and whose runs are short enough."""
        while True:
            record, table = self.chance.choice([EDGE, EDGE, EDGE + 8]), self.chance.randbytes(self.chance.choice([0, 0, 0, 1, 16, 300]))
            try:
                program = edgebpf.Program(self.programs.code(record, table), record, table)
            except edgebpf.Refused:
                continue
            if program.bound * max(1, len(self.edges)) <= MOST_INSTRUCTIONS:
                return program, self.chance.randbytes(record - EDGE)

    def frontier(self):
        some = [self.chance.randrange(self.vertices) for _ in range(self.chance.choice([0, 1, 2, 20, 100]))]
        return self.chance.choice([list(range(self.vertices)), some, sorted(set(some))])

    def finished(self, run):
        """The run at its end, by pieces of one budget or of many, in some of which a share goes on."""
        budget, is_shared, before = self.chance.choice([*BUDGETS, None]), self.chance.random() < 0.2, (0, -1)
        while not run.done:
            if is_shared and self.chance.random() < 0.2:
                run = run.share()
            run.step(self.chance.choice(BUDGETS) if budget is None else budget)
            if not before < run.at:
                raise Difference(f"a step led from {before} to {run.at}")
            before = run.at
        return run

    def same(self, what, here, there):
        self.count += 1
        if here != there:
            raise Difference(f"{what}: {str(here)[:300]} and {str(there)[:300]}")

    def compare(self):
        """Four comparisons of one program."""
        (program, argument), frontier, reduction = self.program(), self.frontier(), self.chance.choice(["sum", "min", "max"])
        run = self.finished(self.version.begin(program, reduction, frontier, argument))
        wanted = self.whole.run(self.version, program, argument, frontier, reduction)
        self.same("a run in pieces", (run.values.tolist(), run.edges, run.total), wanted)
        self.same("the edges of pieces", run.edges, sum(self.degrees[vertex] for vertex in frontier))
        all_of = self.whole.numbers(self.version, program, argument)
        numbers = self.finished(self.version.begin_numbers(program, frontier, argument))
        of_frontier = [number for vertex in frontier for number in all_of[self.starts[vertex]:self.starts[vertex + 1]]]
        self.same("numbers in pieces", numbers.numbers.tolist(), of_frontier)
        ends = [source for source, _ in self.edges], [target for _, target in self.edges]
        self.same("pairs of all edges", self.finished(self.version.begin_pairs(program, *ends, argument)).numbers.tolist(), all_of)


def compared(comparisons, first_seed):
    """How many comparisons were made, at least so many, each with a seed from the first on."""
    whole, done, seed = Whole(), 0, first_seed
    while done < comparisons:
        trial = Trial(random.Random(seed), whole)
        for _ in range(5):
            if done + trial.count >= comparisons:
                break
            try:
                trial.compare()
            except Difference as difference:
                raise Difference(f"seed {seed}, comparison {trial.count}: {difference}") from None
        done += trial.count
        seed += 1
    return done


def main():
    parser = argparse.ArgumentParser(description=__doc__, formatter_class=argparse.RawDescriptionHelpFormatter)
    parser.add_argument("--comparisons", type=int, default=1_000)
    parser.add_argument("--seed", type=int, default=1)
    options = parser.parse_args()
    try:
        done = compared(options.comparisons, options.seed)
    except Difference as difference:
        sys.exit(f"random_steps: {difference}")
    print(f"random_steps: {done} comparisons from seed {options.seed} on, none different")


if __name__ == "__main__":
    main()

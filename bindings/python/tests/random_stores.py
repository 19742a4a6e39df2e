#!/usr/bin/python3
"""Random batches and programs through `edgebpf.Store`, beside sets, scipy and the second implementation. By hand:

    random_stores.py [--batches N] [--seed S] [--vertices N]

Stores have 1 to 300 vertices, or so many as are asked for, of which some 300 have edges then. Some batches come after a rebase, in a branch of the last version, or in a store of its sorted edges. After each batch the counts are those of a set, the arrays those of scipy, and one random program, half of the
time with a table, is verified, run and asked for each edge's number, all as the second implementation has it. It ends with status 1 at the first
difference.
"""
import argparse
import pathlib
import random
import sys

import numpy as np
import scipy.sparse as sparse

TOP = pathlib.Path(__file__).resolve().parents[3]
sys.path[:0] = [str(TOP / "bindings" / "python"), str(TOP / "tests" / "second_implementation")]
sys.dont_write_bytecode = True

import bpf
import edgebpf
from programs import Programs
from verifier import judged

EDGE = 16
FEW = (1, 2, 5, 20, 60, 300)
# Longer programs are verified and not run: the second implementation is slow.
MOST_STEPS = 300
REDUCE = {"sum": lambda numbers: sum(numbers) % 2**64, "min": lambda numbers: min(numbers, default=2**64 - 1), "max": lambda numbers: max(numbers, default=0)}


class Difference(Exception):
    """What differs."""


def same(what, here, there):
    if here != there:
        raise Difference(f"{what}: {str(here)[:300]} and {str(there)[:300]}")


def same_array(what, here, there):
    if not np.array_equal(here, there):
        raise Difference(f"{what}: {str(here)[:300]} and {str(there)[:300]}")


def record_of(edge, place, degree, argument):
    return b"".join(number.to_bytes(4, "little") for number in (*edge, place, degree)) + argument


class Trial:
    """One store with the set of its edges."""

    def __init__(self, chance, vertices=None):
        self.chance, self.vertices = chance, vertices or chance.choice(FEW)
        # The last one is always among those that have edges.
        self.chosen = range(self.vertices) if self.vertices <= FEW[-1] else [*chance.sample(range(self.vertices - 1), FEW[-1] - 1), self.vertices - 1]
        self.store, self.edges, self.epoch, self.number = edgebpf.Store(self.vertices), set(), 0, 0
        self.programs = Programs(chance)

    def some_edges(self):
        most = self.chance.choice([0, 1, 8, 60])
        return [(self.chance.choice(self.chosen), self.chance.choice(self.chosen)) for _ in range(self.chance.randint(0, most))]

    def begin_anew(self):
        """Goes on in a branch of the last version, or in a store of the set's edges, sorted."""
        if self.chance.random() < 0.5:
            version = self.store.pin()
            self.store.close()
            self.store = version.branch()
        else:
            ordered = sorted(self.edges)
            starts = np.searchsorted([one for one, _ in ordered], np.arange(self.vertices + 1))
            self.store = edgebpf.Store.from_csr(starts, [other for _, other in ordered])
        self.epoch, self.number = 0, 0
        self.compare_arrays(self.store.pin())

    def batch(self):
        if self.chance.random() < 0.1:
            self.begin_anew()
        if self.chance.random() < 0.1:
            self.epoch += 1
            self.number = 0
            same("epoch", self.store.rebase(), self.epoch)
        inserts, removes = self.some_edges(), self.some_edges()
        ends = lambda edges: ([one for one, _ in edges], [other for _, other in edges])
        feed = self.chance.choice("ABCD")
        if self.chance.random() < 0.5:
            counts, later = self.store.batch(feed, ends(inserts), ends(removes)), (self.edges | set(inserts)) - set(removes)
        else:
            counts, later = self.applied(feed, inserts + removes)
        self.number += 1
        same("counts", counts, edgebpf.Counts(self.number, len(later - self.edges), len(self.edges - later)))
        self.edges = later
        version = self.store.pin()
        same("version", (version.epoch, version.number), (self.epoch, self.number))
        if self.chance.random() < 0.3:
            version = version.share()
        self.compare_arrays(version)
        self.compare_program(version)

    def applied(self, feed, edits):
        """The counts of edits in their order, each of which puts its edge in or takes it out, and the edges after them."""
        marks, later = [self.chance.random() < 0.4 for _ in edits], set(self.edges)
        for edit, mark in zip(edits, marks):
            (later.discard if mark else later.add)(edit)
        if self.chance.random() < 0.5:
            return self.store.apply(edges=edits, removes=marks, feed=feed), later
        return self.store.apply([one for one, _ in edits], [other for _, other in edits], marks, feed), later

    def compare_arrays(self, version):
        rows = [one for one, _ in self.edges], [other for _, other in self.edges]
        matrix = sparse.csr_array((np.ones(len(self.edges), np.int8), rows), shape=(self.vertices, self.vertices))
        matrix.sort_indices()
        starts, targets = version.csr()
        same_array("starts", starts, matrix.indptr)
        same_array("targets", targets, matrix.indices)
        vertex = self.chance.choice(self.chosen)
        same("neighbours", version.neighbours(vertex).tolist(), matrix.indices[matrix.indptr[vertex]:matrix.indptr[vertex + 1]].tolist())
        frontier = [self.chance.choice(self.chosen) for _ in range(self.chance.choice([0, 1, 5, 2 * len(self.chosen)]))]
        chosen = matrix[frontier] if frontier else sparse.csr_array((0, self.vertices), dtype=np.int8)
        starts, targets = version.lists(frontier)
        same("starts of a frontier", starts.tolist(), chosen.indptr.tolist())
        same("lists of a frontier", targets.tolist(), chosen.indices.tolist())
        same("degrees", version.degrees(frontier).tolist(), np.diff(chosen.indptr).tolist())
        same_array("all degrees", version.degrees(), np.diff(matrix.indptr))
        others = [(self.chance.choice(self.chosen), self.chance.choice(self.chosen)) for _ in range(5)]
        same("has_edge", [version.has_edge(*edge) for edge in others], [edge in self.edges for edge in others])
        same("neighbour", [version.neighbour(vertex, place) for place in range(version.degree(vertex))], version.neighbours(vertex).tolist())

    def compare_program(self, version):
        record = self.chance.choice([EDGE, EDGE, EDGE + 8])
        table = self.chance.randbytes(self.chance.choice([0, 0, 0, 1, 16, 300]))
        code = self.programs.code(record, table)
        wanted = judged(code, record, table)
        try:
            program = edgebpf.Program(code, record, table)
        except edgebpf.Refused as refused:
            same("refusal", (refused.cause, refused.unit), getattr(wanted, "args", wanted))
            return
        same("verdict", (program.bound, program.frames), wanted[:2] if isinstance(wanted, tuple) else wanted.args)
        if program.bound <= MOST_STEPS:
            self.compare_runs(version, program, self.chance.randbytes(record - EDGE))

    def compare_runs(self, version, program, argument):
        ordered, targets = sorted(self.edges), {}
        for one, other in ordered:
            targets.setdefault(one, []).append(other)
        graph = bpf.Graph(self.vertices, targets, len(ordered))
        run = lambda record: bpf.run(program.code, record, graph, MOST_STEPS, program.table)
        numbers = {one: [run(record_of((one, other), place, len(all_of), argument)) for place, other in enumerate(all_of)] for one, all_of in targets.items()}
        flat = [number for one in sorted(numbers) for number in numbers[one]]
        same("numbers", version.numbers(program, argument).tolist(), flat)
        reduction = self.chance.choice(list(REDUCE))
        result = version.run(program, reduction, argument=argument)
        values = np.full(self.vertices, REDUCE[reduction]([]), np.uint64)
        for vertex, all_of in numbers.items():
            values[vertex] = REDUCE[reduction](all_of)
        same_array("values", result.values, values)
        same("total", (result.edges, result.total), (len(flat), REDUCE[reduction](flat)))


def main():
    parser = argparse.ArgumentParser(description=__doc__, formatter_class=argparse.RawDescriptionHelpFormatter)
    parser.add_argument("--batches", type=int, default=1_000)
    parser.add_argument("--seed", type=int, default=1)
    parser.add_argument("--vertices", type=int)
    options = parser.parse_args()
    done, seed = 0, options.seed
    while done < options.batches:
        trial = Trial(random.Random(seed), options.vertices)
        for _ in range(min(trial.chance.randint(1, 60), options.batches - done)):
            try:
                trial.batch()
            except Difference as difference:
                sys.exit(f"random_stores: seed {seed}, batch {trial.number}: {difference}")
            done += 1
        seed += 1
    print(f"random_stores: {done} batches in {seed - options.seed} stores, none different")


if __name__ == "__main__":
    main()

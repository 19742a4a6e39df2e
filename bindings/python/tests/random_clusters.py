#!/usr/bin/python3
"""Random streams through `edgebpf.Cluster`, beside one store. By hand:

    random_clusters.py [--streams N] [--seed S] [--losses]

Each stream has a graph of 1 to 3,000 vertices in 1 to 5 parts over an engine in this process, whose messages come late and in any order.
Batches, some at once, pins, questions and runs at old pins follow one another, and parts rebase after 1 to 7 batches. The counts of each batch, and
each answer at each pin, are those of one `edgebpf.Store`. It ends with status 1 at the first difference.

With `--losses` parts are lost at random, also while they begin again, and the router ends as if it were killed and begins again from its folder: what
was acknowledged is there, in order, and of what was under way the first batches, if any.
"""
import argparse
import asyncio
import concurrent.futures
import contextlib
import pathlib
import random
import shutil
import sys
import tempfile
import time
import typing
import unittest.mock

import numpy as np

TOP = pathlib.Path(__file__).resolve().parents[3]
sys.path[:0] = [str(TOP / "bindings" / "python"), str(TOP / "tests" / "second_implementation")]
sys.dont_write_bytecode = True

import edgebpf
from edgebpf import cluster, cluster_copies, cluster_part, cluster_router
from edgebpf.cluster_engine import Gone
from programs import Programs

# After so long something hangs, also on a machine with much to do.
HANGS_SECONDS = 600
SIZES = (1, 255, 256, 257, 600, 3_000)
REDUCTIONS = ("sum", "min", "max")
# The target, the place with the degree, what helpers say of the source, and what an argument and a table have; of each what record it wants.
TEXTS = (
    ("ldxw r0, [r1+4]\nexit", 16), ("ldxw r0, [r1+8]\nldxw r2, [r1+12]\nlsh r2, 32\nadd r0, r2\nexit", 16),
    ("ldxw r1, [r1+0]\ncall 1\nexit", 16), ("mov r6, r1\nldxw r1, [r6+0]\nldxw r2, [r6+16]\ncall 2\nldxw r3, [r6+4]\nadd r0, r3\nexit", 20),
    ("ldxw r1, [r1+0]\nmov r2, 0\ncall 3\nexit", 16), ("call 4\nexit", 16), ("ldxdw r0, [r1+16]\nneg r0\nexit", 24),
    ("ldxw r2, [r1+4]\nand r2, 7\nadd r3, r2\nldxb r0, [r3+0]\nexit", 16), ("ldxdw r0, [r1+24]\nldxdw r2, [r1+16]\nsub r0, r2\nexit", 32),
)
# What helpers say of the target: its degree, an edge back, its first neighbour, and the first four at once with a column's number.
OF_TARGETS = (
    ("ldxw r1, [r1+4]\ncall 1\nexit", 16), ("mov r6, r1\nldxw r1, [r6+4]\nldxw r2, [r6+0]\ncall 2\nexit", 16),
    ("ldxw r1, [r1+4]\nmov r2, 0\ncall 3\nexit", 16),
    ("mov r6, r1\nstdw [r10-16], 0\nstdw [r10-8], 0\nldxw r1, [r6+4]\nmov r2, 0\nmov r3, r10\nadd r3, -16\nmov r4, 16\ncall 5\nldxdw r1, [r10-16]\n"
     "add r0, r1\nldxdw r1, [r10-8]\nadd r0, r1\nldxdw r1, [r6+24]\nadd r0, r1\nexit", 32),
)
# Of others: the degree of vertex 1, and that of the target's first neighbour.
OF_ANY = ("mov r1, 1\ncall 1\nexit", 16), ("ldxw r1, [r1+4]\nmov r2, 0\ncall 3\nmov r1, r0\ncall 1\nexit", 16)
MAY = {"own": ("own",), "target": ("own", "target"), "all": ("own", "target", "all")}


class Difference(Exception):
    """What differs."""


def same(what, here, there):
    if isinstance(here, tuple) and len(here) == len(there):
        for one, other in zip(here, there):
            same(what, one, other)
    elif not np.array_equal(here, there):
        raise Difference(f"{what}: {str(here)[:300]} and {str(there)[:300]}")


class Worker(typing.NamedTuple):
    """A part of a wild engine. `lost` has something once it is lost."""

    part: cluster_part.Part
    lost: list


class Wild:
    """An engine in this process: each message comes after a random time, and so does its answer. A part that is lost answers nothing more. To
    those that are held no batches come."""

    def __init__(self, chance, most=0.002, refusals=0):
        # The loop of the router is another thread's.
        self.chance, self.most, self.placed, self.held = random.Random(chance.random()), most, [], []
        # How often no worker is there, and whether a worker of a second part ends as soon as it gets a batch.
        self.refusals, self.poison = refusals, False

    def workers(self):
        return ["here"]

    async def place(self):
        if self.chance.random() < self.refusals:
            raise edgebpf.Error("the engine has no worker")
        worker = Worker(cluster_part.Part(), [])
        self.placed.append(worker)
        return worker

    async def ask(self, worker, method, *given):
        for is_answer in (False, True):
            await asyncio.sleep(self.chance.random() * self.most)
            while method == "apply" and any(worker is one for one in self.held):
                await asyncio.sleep(self.most)
            if self.poison and method == "apply" and len(given[2].edits):
                worker.lost.append("poisoned")
            if self.is_gone(worker):
                raise Gone("it was lost")
            if not is_answer:
                answer = getattr(worker.part, method)(*given)
                answer = await answer if asyncio.iscoroutine(answer) else answer
        return answer

    def is_gone(self, worker):
        return bool(worker.lost)

    def drop(self, worker, is_wrong=False):
        worker.lost.append("dropped")

    def lose(self):
        """Loses one of the parts that are there."""
        there = [worker for worker in self.placed if not worker.lost]
        if there:
            self.chance.choice(there).lost.append("lost")


class Trial:
    """A cluster, one store, and the versions of both that are pinned."""

    def __init__(self, chance, engine=None, size=None, folder=None, asks=None):
        vertices, parts = size or (None, None)
        self.chance, self.vertices, self.asks = chance, vertices or chance.choice(SIZES), asks or chance.choice((*MAY, "target"))
        self.chosen = chance.choices(range(self.vertices), k=15)
        self.engine, self.folder = engine or Wild(chance), folder
        self.open(self.vertices, parts or chance.randint(1, 5))
        self.store, self.number, self.under_way, self.pins = edgebpf.Store(self.vertices), 0, [], []
        self.versions, self.programs = {0: self.store.pin()}, Programs(chance)

    def open(self, *more):
        """Begins a cluster, for which there are workers."""
        refusals, self.engine.refusals = getattr(self.engine, "refusals", 0), 0
        self.cluster = edgebpf.Cluster._over(self.engine, *(more or (None, None)), self.folder, self.asks)
        self.engine.refusals = refusals

    def edits(self, most=60):
        """Some edits, among few vertices, so that many name an edge that is there."""
        count = self.chance.choice((0, 1, 2, self.chance.randrange(most)))
        return [self.chance.choices(self.chosen, k=count) for _ in range(2)] + [[self.chance.random() < 0.4 for _ in range(count)]]

    def batch(self):
        """Hands a batch in, and does not wait."""
        edits = self.edits()
        wanted = self.store.apply(*edits)
        self.number += 1
        self.versions[self.number] = self.store.pin()
        if self.store.pin().number > 4_000:
            self.store.rebase()
        self.under_way.append((self.number, wanted, self.cluster.begin(*edits)))

    def finish(self):
        """Waits for all batches."""
        for number, wanted, counts in self.under_way:
            told = counts.result(HANGS_SECONDS)
            same(f"batch {number}", (told.version, told.added, told.removed), (number, wanted.added, wanted.removed))
        self.under_way = []

    def pin(self):
        version = self.cluster.pin()
        if version.number < (self.under_way[0][0] - 1 if self.under_way else self.number):
            raise Difference(f"version {version.number} is pinned, and a later one was told")
        self.pins.append(version)

    def unpin(self):
        if self.pins:
            self.pins.pop(self.chance.randrange(len(self.pins))).close()

    def ask(self):
        """Asks a pinned version something, and the same of one store."""
        if not self.pins:
            self.pin()
        version = self.chance.choice(self.pins)
        one, chosen = self.versions[version.number], np.array(self.chance.choices(range(self.vertices), k=self.chance.randrange(1, 40)))
        others = np.array(self.chance.choices(range(self.vertices), k=len(chosen)))
        question = self.chance.randrange(5)
        what = f"question {question} at {version.number}"
        if question == 0:
            same(what, (version.edges, *version.csr()), (one.edges, *one.csr()))
        elif question == 1:
            same(what, version.degrees(), one.degrees())
        elif question == 2:
            same(what, (version.degrees(chosen), version.lists(chosen)), (one.degrees(chosen), one.lists(chosen)))
        elif question == 3:
            starts, targets = one.csr()
            at = [place for place in range(min(20, len(targets)))]
            chosen = np.append(chosen, np.searchsorted(starts, at, "right") - 1).astype(int)
            others = np.append(others, targets[at])
            same(what, version.has_edges(chosen, others), [one.has_edge(*pair) for pair in zip(chosen.tolist(), others.tolist())])
        else:
            source, target = int(chosen[0]), int(others[0])
            same(what, (version.neighbours(source), version.degree(source)), (one.neighbours(source), one.degree(source)))
            same(what, version.has_edge(source, target), one.has_edge(source, target))

    def numbers(self):
        """A number for each vertex."""
        most = self.chance.choice((10, 2**64))
        return np.array([self.chance.randrange(most) for _ in range(self.vertices)], np.uint64)

    def program(self):
        """A program that asks about what it may: one of those above, or a random one."""
        table = self.chance.randbytes(8)
        if self.chance.random() < 0.7:
            texts = [TEXTS, *[OF_TARGETS] * (self.asks != "own"), *[OF_ANY] * (self.asks == "all")]
            text, record = self.chance.choice(self.chance.choice(texts))
            return edgebpf.assemble(text, record, table)
        record = self.chance.choice((16, 24, 40))
        while True:
            try:
                program = edgebpf.Program(self.programs.code(record, table), record, table)
            except edgebpf.Refused:
                continue
            if cluster.asks_of(program.code) in MAY[self.asks]:
                return program

    def run(self):
        """Runs a program over a pinned version, and over the same of one store."""
        if not self.pins:
            self.pin()
        version, program = self.chance.choice(self.pins), self.program()
        one, kind = self.versions[version.number], self.chance.randrange(5)
        # What the record has beyond the edge's own bytes are numbers of columns, as far as these go, or an argument.
        count = self.chance.randint(0, (program.record - 16) // 16)
        given = {"argument": self.chance.randbytes(program.record - 16 - 16 * count), "columns": [self.numbers() for _ in range(count)]}
        threads = self.chance.choice((1, 1, 3))
        if kind == 4:
            given["reduction"], begins = self.chance.choice(REDUCTIONS), self.numbers()
            given["frontier"] = None if self.chance.random() < 0.5 else self.chance.choices((*self.chosen, self.vertices - 1), k=self.chance.randrange(30))
            values = begins.copy(), begins.copy()
            kind = self.chance.choice(("push", "each"))
            more = {"threads": threads}, {}
            told = [getattr(graph, kind)(program, into=into, changed=True, **given, **by) for graph, into, by in zip((version, one), values, more)]
            same(kind, *((*one, into) for one, into in zip(told, values)))
            return
        if kind == 3:
            most = self.chance.choice((self.vertices, 1 << 32))
            ends = [self.chance.choices((*self.chosen, self.chance.randrange(most)), k=20) for _ in range(2)]
            same("pairs", version.pairs(program, *ends, **given, threads=threads), one.pairs(program, *ends, **given))
            return
        if kind < 2:
            given["frontier"] = self.chance.choices((*self.chosen, self.vertices - 1), k=self.chance.randrange(30))
        if self.chance.random() < 0.3:
            given["seconds"] = 60
        if self.chance.random() < 0.5:
            same("numbers", version.numbers(program, **given, threads=threads), one.numbers(program, **given))
            return
        given["reduction"] = self.chance.choice(REDUCTIONS)
        answers = [version.run(program, **given, threads=threads), one.run(program, **given)]
        same("run", *((answer.edges, answer.total, answer.values) for answer in answers))

    def step(self):
        do = self.chance.choices((self.batch, self.finish, self.pin, self.unpin, self.ask, self.run), (8, 1, 2, 1, 4, 5))[0]
        do()

    def check_kept(self):
        """Parts keep no version that nobody asks for, once they were told so."""
        for _ in range(2):
            self.batch()
            self.finish()
        low = min([self.number - 1, *(version.number for version in self.pins)])
        for worker in self.engine.placed:
            if not worker.lost:
                same("kept versions", sorted(worker.part._versions), list(range(low, self.number + 1)))

    def check_copies(self):
        """Each part has the lists of its own sources, and those that its edges name, as they are. Of others it has none or the whole list."""
        self.finish()
        one, parts = self.versions[self.number], self.cluster._router._parts
        starts, targets = one.csr()
        ends = time.monotonic() + HANGS_SECONDS
        while any(part.done < self.number or part.handle.lost for part in parts):
            if time.monotonic() > ends:
                raise Difference("a part that was lost does not begin again")
            time.sleep(0.01)
        for place, part in enumerate(parts):
            version, every = part.handle.part._versions[self.number], np.arange(self.vertices)
            is_own = every // 256 % self.cluster.parts == place
            is_named = np.isin(every, targets[np.repeat(is_own, np.diff(starts))])
            wanted = is_own if self.asks == "own" else is_own | is_named if self.asks == "target" else every >= 0
            has = version.degrees() > 0
            same("copies", has & wanted, (one.degrees() > 0) & wanted)
            if self.asks == "own":
                same("lists of others", has & ~is_own, every < 0)
            same("lists", version.lists(every[has]), one.lists(every[has]))

    def lose(self):
        self.engine.lose()

    def checkpoint(self):
        async def lowest():
            return self.cluster._router.low()

        # A part that gets copies has a version pinned, too.
        low = min([self.cluster.pin().number, *(version.number for version in self.pins), self.cluster._router.call(lowest()).result(HANGS_SECONDS)])
        number = self.cluster.checkpoint()
        if number < low or number > self.number:
            raise Difference(f"a checkpoint at {number}, and not from {low} to {self.number}")

    def crash(self):
        """Goes on with what a kill of the router would leave: a copy of its folder, made between two things that its loop does."""
        copied, router = concurrent.futures.Future(), self.cluster._router
        self.folder, folder = f"{self.folder}-{self.number}", self.folder

        def copy():
            try:
                shutil.copytree(folder, self.folder, ignore=shutil.ignore_patterns("*-shm"))
                copied.set_result(router.committed)
            except shutil.Error:
                # A thread gave the file of a checkpoint its name meanwhile.
                shutil.rmtree(self.folder)
                router.soon(copy)

        router.soon(copy)
        acknowledged = copied.result(HANGS_SECONDS)
        self.close()
        self.open()
        now = self.cluster.pin()
        if not acknowledged <= now.number <= self.number:
            raise Difference(f"{acknowledged} batches were acknowledged of {self.number}, and {now.number} are there")
        self.number, self.under_way, self.pins, self.store = now.number, [], [now], self.versions[now.number].branch()
        same(f"the graph of {now.number}", now.csr(), self.store.pin().csr())

    def close(self):
        self.cluster.close()


def lossy_stream(chance, steps=80):
    """One random stream with losses, and how many batches and losses it had."""
    patches = (cluster_part, "REBASE_BATCHES", chance.randint(1, 7)), (cluster_part, "LEAST_PIECE", 2), (cluster_router, "LOOK_SECONDS", 0.005), \
        (cluster_router, "CHECKPOINT_BATCHES", chance.randint(5, 30)), (cluster_copies, "LEAST_LOOK", 2)
    with tempfile.TemporaryDirectory() as folder, contextlib.ExitStack() as stack:
        for patch in patches:
            stack.enter_context(unittest.mock.patch.object(*patch))
        trial, losses = Trial(chance, Wild(chance, refusals=0.2), folder=f"{folder}/first"), 0
        try:
            for _ in range(steps):
                trial.step()
                if chance.random() < 0.15:
                    losses += 1
                    chance.choices((trial.lose, trial.crash, trial.checkpoint), (6, 1, 2))[0]()
            trial.check_copies()
            trial.ask()
            trial.run()
            return trial.number, losses
        finally:
            trial.close()


def stream(chance, steps=80):
    """One random stream, and how many batches it had."""
    patches = (cluster_part, "REBASE_BATCHES", chance.randint(1, 7)), (cluster_part, "LEAST_PIECE", 2), (cluster_copies, "LEAST_LOOK", 2)
    with contextlib.ExitStack() as stack:
        for patch in patches:
            stack.enter_context(unittest.mock.patch.object(*patch))
        trial = Trial(chance)
        try:
            for _ in range(steps):
                trial.step()
            trial.check_copies()
            trial.check_kept()
            trial.ask()
            return trial.number, 0
        finally:
            trial.close()


def main():
    parser = argparse.ArgumentParser(description=__doc__.split("\n")[0])
    parser.add_argument("--streams", type=int, default=100)
    parser.add_argument("--seed", type=int, default=random.randrange(10**9))
    parser.add_argument("--losses", action="store_true")
    options = parser.parse_args()
    batches = losses = 0
    for number in range(options.streams):
        try:
            done = (lossy_stream if options.losses else stream)(random.Random(f"{options.seed}/{number}"))
            batches, losses = batches + done[0], losses + done[1]
        except Exception as error:
            print(f"stream {number} of seed {options.seed}: {type(error).__name__}: {error}")
            sys.exit(1)
    print(f"{options.streams} streams, {batches} batches, {losses} losses and checkpoints: all as one store, seed {options.seed}")


if __name__ == "__main__":
    main()

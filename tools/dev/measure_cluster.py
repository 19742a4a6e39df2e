#!/usr/bin/python3
"""Measures `edgebpf.Cluster` with 1, 2 and 4 parts on this machine beside one store in process, and prints a table.

    measure_cluster.py [--vertices N] [--edges N] [--hosts]

Each part has a worker process of Dask; with --hosts, as root, each is in a network namespace of its own, with an address, behind a bridge. All is wall
time, so a busy machine shows: the least of some tries. Batches have random edges. Messages are those of the router to parts, and their answers
are not counted. Memory is what all workers have more than before there was a graph.
"""
import argparse
import contextlib
import pathlib
import sys
import tempfile
import time
import warnings

TOP = pathlib.Path(__file__).resolve().parents[2]
sys.path[:0] = [str(TOP / "bindings" / "python"), str(TOP / "bindings" / "python" / "tests")]

import numpy as np

import edgebpf
from cluster_hosts import Hosts
from edgebpf.cluster_engine import Engine

PARTS = (1, 2, 4)
TRIES, FEW, MANY, BATCH = 5, 50, 400, 64
SHORT = "ldxw r0, [r1+4]\nexit"
LONG = "\n".join(["ldxw r0, [r1+4]", *["mul r0, 3", "xor r0, 5"] * 200, "exit"])
DEGREE = "ldxw r1, [r1+4]\ncall 1\nexit"


def least(call, tries=TRIES):
    times = []
    for _ in range(tries):
        begun = time.perf_counter()
        call()
        times.append(time.perf_counter() - begun)
    return min(times)


class Counted(Engine):
    """An engine that counts what the router asks, and the bytes of arrays."""

    def __init__(self, client):
        super().__init__(client)
        self.messages = self.bytes = 0

    async def ask(self, handle, method, *given):
        self.messages += 1
        arrays = [array for one in given for array in (one if isinstance(one, tuple) else (one,))]
        self.bytes += sum(array.nbytes for array in arrays if isinstance(array, np.ndarray))
        return await super().ask(handle, method, *given)


def memory():
    """The bytes that this process has in memory, by the system."""
    for line in open("/proc/self/status"):
        if line.startswith("VmRSS"):
            return int(line.split()[1]) * 1024


class Measured:
    """One graph, in this process or in parts, by what is asked of it."""

    def __init__(self, graph, vertices):
        self.graph, self.vertices, self.chance = graph, vertices, np.random.default_rng(1)

    def edits(self, count):
        return self.chance.integers(0, self.vertices, (2, count))

    def many(self, size, count):
        """Hands in so many batches at once, and waits for all."""
        batches = [self.edits(size) for _ in range(count)]
        begun = time.perf_counter()
        if isinstance(self.graph, edgebpf.Cluster):
            for counts in [self.graph.begin(*batch) for batch in batches]:
                counts.result()
        else:
            for batch in batches:
                self.graph.apply(*batch)
        return (time.perf_counter() - begun) / count

    def rows(self, edges):
        load = self.many(65_536, edges // 65_536)
        yield "a batch of 65,536 edits, all handed in at once: ms", 1e3 * load
        yield "a batch of one edit, alone: ms", 1e3 * least(lambda: [self.graph.apply(*self.edits(1)) for _ in range(FEW)]) / FEW
        yield f"a batch of {BATCH} edits, {MANY} handed in at once: ms", 1e3 * min(self.many(BATCH, MANY) for _ in range(TRIES))
        yield "a pin, and its end: µs", 1e6 * least(lambda: [self.graph.pin().close() for _ in range(FEW)]) / FEW
        with self.graph.pin() as version:
            yield "the neighbours of a vertex: µs", 1e6 * least(lambda: [version.neighbours(vertex) for vertex in range(FEW)]) / FEW
            for name, text in (("one load", SHORT), ("400 operations", LONG)):
                program = edgebpf.assemble(text)
                yield f"a run over all edges, {name} an edge: ms", 1e3 * least(lambda: version.run(program))
            if not isinstance(self.graph, edgebpf.Cluster):
                yield self.degrees()

    def degrees(self):
        with self.graph.pin() as version:
            program = edgebpf.assemble(DEGREE)
            return "a run over all edges, the target's degree: ms", 1e3 * least(lambda: version.run(program))


@contextlib.contextmanager
def workers(count, options):
    """A client of so many workers."""
    import distributed

    if options.hosts:
        with Hosts(count) as hosts, hosts.client() as client:
            yield client
        return
    words = {"threads_per_worker": 1, "dashboard_address": None, "silence_logs": 50, "memory_limit": 0, "direct_to_workers": True}
    with distributed.Client(n_workers=count, **words) as client:
        yield client


def asking(client, count, options, asks, name):
    """The rows of a graph for programs that ask about so much."""
    engine, before = Counted(client), sum(client.run(memory).values())
    with edgebpf.Cluster._over(engine, options.vertices, count, None, asks) as graph:
        measured = Measured(graph, options.vertices)
        rows = {"a batch of 65,536 edits, all handed in at once: ms": 1e3 * measured.many(65_536, options.edges // 65_536)}
        more = {"memory of all parts: MB": (sum(client.run(memory).values()) - before) / 1e6}
        rows["a batch of one edit, alone: ms"] = 1e3 * least(lambda: [graph.apply(*measured.edits(1)) for _ in range(FEW)]) / FEW
        messages, size = engine.messages, engine.bytes
        rows[f"a batch of {BATCH} edits, {MANY} handed in at once: ms"] = 1e3 * min(measured.many(BATCH, MANY) for _ in range(TRIES))
        more["messages, and bytes of edits, of such a batch"] = (engine.messages - messages) / MANY / TRIES, (engine.bytes - size) / MANY / TRIES
        if asks != "own":
            # Without copies the other rows have these.
            more = {**rows, **more, **dict([measured.degrees()])}
    return {f"{name}: {row}": number for row, number in more.items()}


def in_parts(count, options, folder):
    """The rows of a graph in so many parts."""
    with workers(count, options) as client:
        with edgebpf.Cluster(client, options.vertices, count) as graph:
            yield from Measured(graph, options.vertices).rows(options.edges)
        with edgebpf.Cluster(client, options.vertices, count, f"{folder}/{count}") as graph:
            measured = Measured(graph, options.vertices)
            yield "with a folder: a batch of one edit, alone: ms", 1e3 * least(lambda: [graph.apply(*measured.edits(1)) for _ in range(FEW)]) / FEW
            yield f"with a folder: a batch of {BATCH} edits, {MANY} at once: ms", 1e3 * min(measured.many(BATCH, MANY) for _ in range(TRIES))
            measured.many(65_536, options.edges // 65_536)
            yield "with a folder: a checkpoint: ms", 1e3 * least(graph.checkpoint, 1)
    for asks, name in (("own", "no copies"), ("target", "copies"), ("all", "whole")):
        # Of new workers, as those that had a graph keep memory.
        with workers(count, options) as client:
            yield from asking(client, count, options, asks, name).items()


def shown(number):
    if number is None:
        return ""
    if isinstance(number, tuple):
        return f"{number[0]:.2f}; {number[1]:,.0f}"
    return f"{number:,.0f}" if number >= 100 else f"{number:.3g}"


def main():
    parser = argparse.ArgumentParser(description=__doc__.split("\n")[0])
    parser.add_argument("--vertices", type=int, default=1 << 18)
    parser.add_argument("--edges", type=int, default=1 << 22)
    parser.add_argument("--hosts", action="store_true")
    options = parser.parse_args()
    warnings.simplefilter("ignore")
    with tempfile.TemporaryDirectory() as folder:
        with edgebpf.Store(options.vertices) as store:
            columns = [dict(Measured(store, options.vertices).rows(options.edges))]
        columns += [dict(in_parts(count, options, folder)) for count in PARTS]
    print(f"| {options.vertices:,} vertices, {options.edges:,} random edges | one store | " + " | ".join(f"{count} part{'s' * (count > 1)}" for count in PARTS) + " |")
    print("|---" * (2 + len(PARTS)) + "|")
    for name in dict.fromkeys(name for column in columns for name in column):
        print(f"| {name} | " + " | ".join(shown(column.get(name)) for column in columns) + " |")


if __name__ == "__main__":
    main()

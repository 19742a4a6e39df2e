"""Work by the Python package that send_signals.py interrupts: uses_of_package.py NAME INPUTS. After a Ctrl-C each use goes on with what it has, and
ends with a line if that is not as it should be."""
import functools
import os
import pathlib
import sys
import time

import edgebpf
import numpy as np
from edgebpf import algorithms

VERTICES = 65_536
TARGET, LONG = "ldxw r0, [r1+4]\nexit", "mov r0, 0\n" + "add r0, 1\n" * 300 + "ldxw r2, [r1+4]\nadd r0, r2\nexit"
SECONDS = 0.3


def require(condition, words):
    """Ends the process with a line that send_signals.py takes for a fault."""
    if not condition:
        print(f"WRONG: {words}", file=sys.stderr, flush=True)
        os._exit(70)


@functools.cache
def edges(seed=7, count=150_000):
    return np.random.default_rng(seed).integers(0, VERTICES, (2, count), dtype=np.uint32)


def filled(store):
    for begin in range(0, edges().shape[1], 50_000):
        store.batch("A", tuple(edges()[:, begin:begin + 50_000]))
    return store.pin()


def total_of(version):
    """The sum of all targets, by numpy."""
    return int(version.csr()[1].astype(np.uint64).sum())


def long_enough(work):
    """Does something again and again for some tenths of a second."""
    until = time.monotonic() + SECONDS
    while time.monotonic() < until:
        work()


def use_run(_):
    with edgebpf.Store(VERTICES) as store:
        version, target, long = filled(store), edgebpf.assemble(TARGET), edgebpf.assemble(LONG)
        try:
            long_enough(lambda: version.run(long, "max", seconds=10))
        except KeyboardInterrupt:
            require(version.run(target).total == total_of(version), "a run after an interrupt")
            require(len(version.numbers(target)) == version.edges, "numbers after an interrupt")
            raise


def use_threads(_):
    with edgebpf.Store(VERTICES) as store:
        version, target, long = filled(store), edgebpf.assemble(TARGET), edgebpf.assemble(LONG)
        try:
            long_enough(lambda: version.run(long, "max", threads=4))
        except KeyboardInterrupt:
            require(version.run(target, threads=3).total == total_of(version), "a run by threads after an interrupt")
            raise


def use_steps(_):
    with edgebpf.Store(VERTICES) as store:
        version, target = filled(store), edgebpf.assemble(TARGET)
        made = [version.begin(target), version.begin(target, frontier=range(VERTICES)), version.begin_numbers(target)]
        try:
            until = time.monotonic() + SECONDS
            while time.monotonic() < until:
                for run in made:
                    run.step(2_000)
        except KeyboardInterrupt:
            for run in made:
                while not run.done:
                    run.step()
            require((made[0].total, made[0].edges) == (total_of(version), version.edges), "a run in steps")
            require((made[1].total, made[1].values.tolist()) == (made[0].total, made[0].values.tolist()), "a run over a range in steps")
            require(made[2].numbers.tolist() == version.csr()[1].tolist(), "numbers in steps")
            raise


def use_push(_):
    with edgebpf.Store(VERTICES) as store:
        version, source = filled(store), edgebpf.assemble("ldxdw r0, [r1+16]\nexit", record=32)
        column, into = np.arange(VERTICES, dtype=np.uint64), np.zeros(VERTICES, np.uint64)
        run = version.begin_push(source, "max", into=into, columns=[column])
        try:
            long_enough(lambda: run.step(3_000))
        except KeyboardInterrupt:
            while not run.done:
                run.step()
            wanted, (starts, targets) = np.zeros(VERTICES, np.uint64), version.csr()
            np.maximum.at(wanted, targets, np.repeat(column, np.diff(starts)))
            require(np.array_equal(into, wanted), "a push in steps")
            raise


def use_live(_):
    """Each batch puts in one edge more, so the edges of the last version say how many batches there were."""
    with edgebpf.Live(VERTICES, batches=50) as live:
        given = iter(range(10**9))
        try:
            long_enough(lambda: live.apply(edges=[divmod(next(given), VERTICES - 1)]))
        except KeyboardInterrupt:
            live.apply([VERTICES - 1], [VERTICES - 1])
            number, version = live.numbered()
            require(number == version.edges, f"Live counts {number} batches, and {version.edges} were applied")
            raise


def use_connect(_):
    with edgebpf.connect(VERTICES, 2) as store:
        target, edge = edgebpf.assemble(TARGET), iter(range(10**9))
        try:
            version = filled(store)

            def work():
                store.batch("A", ([next(edge)], [VERTICES - 1]))
                require(version.run(target).edges == version.edges, "a run by a process")

            long_enough(work)
        except KeyboardInterrupt:
            try:
                before = store.batch("B").version
                require(store.pin().number == before, "the last version of a process is not that of its last batch")
            except edgebpf.Closed:
                pass
            raise


def use_algorithms(_):
    with edgebpf.Store(VERTICES) as store:
        store.batch("A", tuple(edges()[:, :50_000]))
        store.batch("A", tuple(edges()[::-1, :50_000]))
        version = store.pin()
        asked = [functools.partial(algorithms.triangles, threads=4), algorithms.cores, algorithms.components, algorithms.pagerank]
        wanted = algorithms.components(version).tolist()
        try:
            long_enough(lambda: [ask(version) for ask in asked])
        except KeyboardInterrupt:
            require(algorithms.components(version, tested=True).tolist() == wanted, "components after an interrupt")
            raise


def use_updates(_):
    with edgebpf.Store(VERTICES) as store:
        store.batch("A", tuple(edges()[:, :50_000]))
        store.batch("A", tuple(edges()[::-1, :50_000]))
        live, chance = algorithms.LiveComponents(store.pin()), np.random.default_rng(1)
        pending = []

        def work():
            one, other = chance.integers(0, VERTICES, (2, 50), dtype=np.uint32)
            pending.append((np.concatenate([one, other]), np.concatenate([other, one])))
            store.batch("A", pending[-1])
            live.update(store.pin(), pending[-1])
            pending.clear()

        try:
            long_enough(work)
        except KeyboardInterrupt:
            try:
                live.update(store.pin(), *pending[:1])
                require(live.labels.tolist() == algorithms.components(store.pin()).tolist(), "components after an update that was interrupted")
            except edgebpf.Closed:
                pass
            raise


def use_files(inputs):
    """Sorted edges lie in a file."""
    def work():
        with edgebpf.read_edges(inputs / "edges", memory=100_000) as store:
            require(store.pin().edges > 100_000, "a store of a file")

    long_enough(work)


def use_compile(inputs):
    edgebpf.compile_c(inputs / "score.c", "score")


def main():
    name, inputs = sys.argv[1:]
    # Before this it was Python, numpy and the package that started.
    print("begun", flush=True)
    globals()[f"use_{name}"](pathlib.Path(inputs))
    print("done")


if __name__ == "__main__":
    main()

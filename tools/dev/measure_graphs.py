#!/usr/bin/python3
"""Measures stores in this process beside scipy's sparse matrices, on R-MAT graphs, and prints a table.

    tools/dev/measure_graphs.py [--powers 16 18 ..] [--edges N] [--large NAME..] [--write]

A graph of 2^16 to 2^28 vertices has 8,000,000 drawn edges, and the large ones as many as the graphs that they are named after; edges that were
drawn twice count once. Each store and each matrix has a process of its own, and both are given the same sorted edges. Seconds are CPU time.
With --write the rows also go into docs/figures/graphs.txt. Debian's packages: python3-numpy python3-scipy python3-cffi.
"""
import argparse
import ctypes
import json
import os
import pathlib
import subprocess
import sys
import tempfile
import time

import figures
import numpy as np

TOP = pathlib.Path(__file__).resolve().parent.parent.parent
sys.path.insert(0, str(TOP / "bindings" / "python"))
EDITS, DRAWN, BATCHES_A_REBASE, TRIES = 65_536, 1 << 22, 1_000, 3
POWERS, EDGES = (16, 18, 20, 22, 24, 26, 28), 8_000_000
LARGE = {"LiveJournal": (4_847_571, 69_000_000), "Orkut": (3_072_441, 234_000_000)}
TARGET = "ldxw r0, [r1+4]\nexit"
# How likely both ends are in the lower half, the source alone, and the source or the target alone.
LOWER, SOURCE_LOWER, ONE_LOWER = 0.57, 0.76, 0.95
HEADS = (
    "Graph", "Edges", "Store: bytes an edge, peak", "scipy: bytes an edge, peak", "To load, to scipy", "A run, to a product", "65,536 edits, to a sum",
    "One edit",
)


def drawn(chance, vertices, count):
    """So many edges in the style of R-MAT, each as one number: the source, and in the lower 32 bits the target."""
    sources, targets = np.zeros(count, np.uint64), np.zeros(count, np.uint64)
    for _ in range((vertices - 1).bit_length()):
        place = chance.random(count, np.float32)
        source = place >= SOURCE_LOWER
        target = ((place >= LOWER) & ~source) | (place >= ONE_LOWER)
        sources, targets = sources << np.uint64(1) | source, targets << np.uint64(1) | target
    return sources % np.uint64(vertices) << np.uint64(32) | targets % np.uint64(vertices)


def write_edges(path, vertices, count):
    """Writes the edges, sorted and each once, and returns how many they are."""
    chance = np.random.default_rng(7)
    keys = np.empty(count, np.uint64)
    for start in range(0, count, DRAWN):
        end = min(start + DRAWN, count)
        keys[start:end] = drawn(chance, vertices, end - start)
    keys.sort()
    is_first = np.ones(count, bool)
    np.not_equal(keys[1:], keys[:-1], out=is_first[1:])
    keys = keys[is_first]
    keys.tofile(path)
    return len(keys)


def ends(keys):
    return (keys >> np.uint64(32)).astype(np.uint32), keys.astype(np.uint32)


def memory(name):
    """A line of this process's status, in bytes, after freed memory went back to the system."""
    ctypes.CDLL(None).malloc_trim(0)
    text = pathlib.Path("/proc/self/status").read_text()
    return 1024 * int(next(line for line in text.splitlines() if line.startswith(name + ":")).split()[1])


def timed(call):
    begun = time.process_time()
    answer = call()
    return time.process_time() - begun, answer


def of_store(path, vertices, edges):
    import edgebpf

    before, (made, store) = memory("RssAnon"), timed(lambda: edgebpf.Store(vertices))

    def load():
        with open(path, "rb") as file:
            for number in range(-(-edges // EDITS)):
                store.apply(*ends(np.fromfile(file, np.uint64, EDITS)))
                if number % BATCHES_A_REBASE == BATCHES_A_REBASE - 1:
                    store.rebase()
        store.rebase()

    loaded, _ = timed(load)
    held, peak = memory("RssAnon") - before, memory("VmHWM")
    version, program = store.pin(), edgebpf.assemble(TARGET)
    run, result = min((timed(lambda: version.run(program, "sum")) for _ in range(TRIES)), key=lambda each: each[0])
    chance = np.random.default_rng(11)
    many = min(timed(lambda: store.apply(*ends(drawn(chance, vertices, EDITS))))[0] for _ in range(TRIES))
    singles = [(int(chance.integers(vertices)), int(chance.integers(vertices))) for _ in range(256)]
    one, _ = timed(lambda: [store.apply([source], [target]) for source, target in singles])
    return {"made": made, "load": loaded, "held": held, "peak": peak, "run": run, "many": many, "one": one / len(singles), "total": result.total}


def of_scipy(path, vertices, edges):
    import scipy.sparse

    before = memory("RssAnon")
    sources, targets = ends(np.fromfile(path, np.uint64))
    sources, targets = sources.astype(np.int32), targets.astype(np.int32)

    def matrix(sources, targets):
        return scipy.sparse.csr_matrix((np.ones(len(sources), np.float32), (sources, targets)), shape=(vertices, vertices))

    loaded, all_edges = timed(lambda: matrix(sources, targets))
    del sources, targets
    held, peak = memory("RssAnon") - before, memory("VmHWM")
    numbers = np.ones(vertices, np.float32)
    run = min(timed(lambda: all_edges @ numbers)[0] for _ in range(TRIES))
    chance = np.random.default_rng(11)
    more = [ends(drawn(chance, vertices, EDITS)) for _ in range(TRIES)]
    many = min(timed(lambda each=each: all_edges + matrix(each[0].astype(np.int32), each[1].astype(np.int32)))[0] for each in more)
    return {"load": loaded, "held": held, "peak": peak, "run": run, "many": many}


def measured(kind, path, vertices, edges):
    """What a process of its own measures."""
    words = [sys.executable, __file__, "--child", kind, path, str(vertices), str(edges)]
    run = subprocess.run(words, stdout=subprocess.PIPE, text=True)
    if run.returncode:
        sys.exit(f"measure_graphs.py: {kind} of {vertices} vertices ended with status {run.returncode}")
    return json.loads(run.stdout)


def row(name, vertices, count):
    with tempfile.TemporaryDirectory(dir=os.environ.get("TMPDIR") or "/var/tmp") as folder:
        path = f"{folder}/edges"
        edges = write_edges(path, vertices, count)
        here, peer = (measured(kind, path, vertices, edges) for kind in ("store", "scipy"))
    cells = [
        name, f"{edges:,}", f"{here['held'] / edges:.2f}, {here['peak'] / 1e6:,.0f} MB", f"{peer['held'] / edges:.2f}, {peer['peak'] / 1e6:,.0f} MB",
        *(f"{here[key] / peer[key]:.2f} ({here[key]:.2f} s)" for key in ("load", "run", "many")), f"{1e6 * here['one']:.0f} µs",
    ]
    print(figures.line_of(cells), flush=True)
    return cells


def main():
    parser = argparse.ArgumentParser(description=__doc__, formatter_class=argparse.RawDescriptionHelpFormatter)
    parser.add_argument("--powers", type=int, nargs="*", default=POWERS)
    parser.add_argument("--edges", type=int, default=EDGES)
    parser.add_argument("--large", nargs="*", choices=list(LARGE), default=["LiveJournal"])
    parser.add_argument("--write", action="store_true")
    parser.add_argument("--child", nargs=4, help=argparse.SUPPRESS)
    options = parser.parse_args()
    if options.child:
        kind, path, vertices, edges = options.child
        print(json.dumps({"store": of_store, "scipy": of_scipy}[kind](path, int(vertices), int(edges))))
        return
    print(figures.line_of(HEADS))
    rows = [row(f"2^{power}", 1 << power, options.edges) for power in options.powers]
    rows += [row(name, *LARGE[name]) for name in options.large]
    if options.write:
        figures.write("graphs", HEADS, rows)


if __name__ == "__main__":
    main()

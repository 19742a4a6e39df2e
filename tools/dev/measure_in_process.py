#!/usr/bin/python3
"""Measures calls of the Python package in this process beside scipy, igraph and networkx, on one random graph, and prints a table.

    tools/dev/measure_in_process.py [--batches N] [--peers scipy,igraph,networkx]

Times are CPU time of this process, the best of some tries. Below the table stands how long a thread takes to get the last version of a `Live` while
another one applies batches: 99 of 100 times within so much, by the clock. Debian's packages: python3-numpy python3-scipy python3-igraph python3-networkx.
"""
import argparse
import pathlib
import sys
import threading
import time

import numpy as np

TOP = pathlib.Path(__file__).resolve().parent.parent.parent
sys.path.insert(0, str(TOP / "bindings" / "python"))
VERTICES, EDITS, ASKED = 1 << 18, 65_536, 2_000
# So often the last version is asked for beside batches, with a pause of so many seconds between.
LOOKS, PAUSE = 10_000, 1e-4
TARGET = "ldxw r0, [r1+4]\nexit"
BACK = "ldxw r2, [r1+0]\nldxw r1, [r1+4]\ncall 2\nexit"
ROWS = {
    "batch": "a batch of 65,536 edges",
    "one": "a batch of one edge",
    "keep": "a version that stays while edges come",
    "neighbours": "the neighbours of a vertex",
    "again": "the neighbours of the same vertex again",
    "sum": "the targets of all edges, summed by source",
    "back": "edges that lead back, counted",
    "numbers": "the number of each edge, as an array",
    "csr": "all edges as two arrays",
    "vertex": "a run over one vertex",
    "frontier": "a run over 16 vertices",
    "each": "the lists of 3,000 vertices, as 3,000 views",
    "lists": "the lists of 3,000 vertices, in one call",
    "degrees": "the degrees of 3,000 vertices",
}


def best(call, tries):
    """The least CPU time of some tries, in seconds, and the last answer."""
    times = []
    for _ in range(tries):
        begun = time.process_time()
        answer = call()
        times.append(time.process_time() - begun)
    return min(times), answer


def batches(count):
    """Edges of some batches: half of the sources are uniform, and half follow a power law."""
    chance = np.random.default_rng(7)
    for _ in range(count):
        hubs = np.minimum(chance.pareto(0.8, EDITS // 2) * 4, VERTICES - 1).astype(np.int64)
        sources = np.concatenate([hubs, chance.integers(0, VERTICES, EDITS - EDITS // 2)])
        yield sources, chance.integers(0, VERTICES, EDITS)


def of_edgebpf(edges, asked):
    import edgebpf

    store, times = edgebpf.Store(VERTICES), {}
    times["batch"] = min(best(lambda each=each: store.batch("A", inserts=each), 1)[0] for each in edges)
    times["one"] = min(best(lambda at=at: store.batch("A", inserts=([at], [at])), 1)[0] for at in range(200))
    times["keep"], version = best(store.pin, 50)
    whole, _ = best(lambda: [version.neighbours(at) for at in asked], 3)
    times["neighbours"] = whole / len(asked)
    again, first = [], int(asked[0])
    for _ in range(200):
        again.append(best(lambda: [version.neighbours(first) for _ in range(200)], 1)[0] / 200)
    times["again"] = min(again)
    target, back = edgebpf.assemble(TARGET), edgebpf.assemble(BACK)
    times["sum"], result = best(lambda: version.run(target, "sum"), 3)
    times["back"], mutual = best(lambda: version.run(back, "sum"), 3)
    times["numbers"], numbers = best(lambda: version.numbers(target), 3)
    times["csr"], _ = best(lambda: store.pin().csr(), 3)
    frontier = np.array([int(asked[0])])
    times["vertex"], _ = best(lambda: version.run(target, "sum", frontier=frontier), 200)
    some = asked[:16].astype(np.uint32)
    times["frontier"], _ = best(lambda: version.run(target, "sum", frontier=some), 200)
    many = np.random.default_rng(11).integers(0, VERTICES, 3_000)
    times["each"], views = best(lambda: [version.neighbours(at) for at in many], 5)
    times["lists"], (_, targets) = best(lambda: version.lists(many), 20)
    times["degrees"], degrees = best(lambda: version.degrees(many), 20)
    assert int(numbers.sum()) == result.total
    assert len(targets) == degrees.sum() and (targets == np.concatenate(views)).all()
    return times, (version.edges, int(result.total), int(mutual.total))


def beside_batches(edges):
    """The seconds within which 99 of 100 calls get the last version, and a share of it, while another thread applies batches."""
    import edgebpf

    with edgebpf.Live(VERTICES) as live:
        is_over = threading.Event()

        def write():
            while not is_over.is_set():
                for sources, targets in edges:
                    live.apply(sources, targets)

        writer = threading.Thread(target=write)
        writer.start()
        try:
            return [most_of(call) for call in (live.latest, lambda: live.latest().share())]
        finally:
            is_over.set()
            writer.join()


def most_of(call):
    """The seconds within which 99 of 100 calls return."""
    times = []
    for _ in range(LOOKS):
        begun = time.perf_counter()
        call()
        times.append(time.perf_counter() - begun)
        time.sleep(PAUSE)
    return sorted(times)[LOOKS * 99 // 100]


def of_scipy(edges, asked):
    import scipy.sparse as sparse

    def matrix(each):
        return sparse.csr_array((np.ones(len(each[0]), np.int8), each), shape=(VERTICES, VERTICES))

    def add(graph, each):
        graph = graph + matrix(each)
        graph.data[:] = 1
        return graph

    graph, times = matrix((np.empty(0, int), np.empty(0, int))), {}
    for each in edges:
        times["batch"], graph = best(lambda each=each: add(graph, each), 1)
    times["one"], graph = best(lambda: add(graph, (np.array([5]), np.array([5]))), 3)
    times["keep"], _ = best(graph.copy, 3)
    whole, _ = best(lambda: [graph.indices[graph.indptr[at]:graph.indptr[at + 1]] for at in asked], 3)
    times["neighbours"] = whole / len(asked)
    many = np.random.default_rng(11).integers(0, VERTICES, 3_000)
    times["lists"], _ = best(lambda: graph[many], 20)
    times["degrees"], _ = best(lambda: np.diff(graph.indptr)[many], 20)
    rows = np.repeat(np.arange(VERTICES), np.diff(graph.indptr))
    times["sum"], _ = best(lambda: np.bincount(rows, graph.indices.astype(np.float64), VERTICES), 3)
    times["back"], _ = best(lambda: graph.multiply(graph.T.tocsr()).nnz, 2)
    times["numbers"], _ = best(lambda: graph.indices.astype(np.uint64), 3)
    return times, None


def of_igraph(edges, asked):
    import igraph

    graph, times = igraph.Graph(VERTICES, directed=True), {}
    for each in edges:
        times["batch"], _ = best(lambda each=each: graph.add_edges(np.column_stack(each)), 1)
    times["one"], _ = best(lambda: graph.add_edges([(5, 5)]), 2)
    times["keep"], _ = best(graph.copy, 2)
    whole, _ = best(lambda: [graph.successors(int(at)) for at in asked], 2)
    times["neighbours"] = whole / len(asked)
    times["back"], _ = best(lambda: sum(graph.is_mutual()), 1)
    times["csr"], _ = best(lambda: np.array(graph.get_edgelist()), 1)
    return times, None


def of_networkx(edges, asked):
    import networkx

    graph, times = networkx.DiGraph(), {}
    graph.add_nodes_from(range(VERTICES))
    for each in edges:
        times["batch"], _ = best(lambda each=each: graph.add_edges_from(zip(*map(np.ndarray.tolist, each))), 1)
    times["one"], _ = best(lambda: graph.add_edge(5, 5), 20)
    times["keep"], _ = best(graph.copy, 1)
    whole, _ = best(lambda: [list(graph.successors(int(at))) for at in asked], 2)
    times["neighbours"] = whole / len(asked)
    times["sum"], _ = best(lambda: {at: sum(targets) for at, targets in graph.adjacency()}, 1)
    times["back"], _ = best(lambda: sum(graph.has_edge(target, source) for source, target in graph.edges()), 1)
    return times, None


def shown(seconds):
    if seconds is None:
        return ""
    for unit, size in (("s", 1), ("ms", 1e-3), ("µs", 1e-6)):
        if seconds >= size:
            return f"{seconds / size:.3g} {unit}"
    return f"{seconds / 1e-9:.3g} ns"


def main():
    parser = argparse.ArgumentParser(description=__doc__, formatter_class=argparse.RawDescriptionHelpFormatter)
    parser.add_argument("--batches", type=int, default=32)
    parser.add_argument("--peers", default="scipy,igraph,networkx")
    options = parser.parse_args()
    edges = list(batches(options.batches))
    asked = np.random.default_rng(9).integers(0, VERTICES, ASKED)
    measured, facts = {}, None
    measured["edgebpf"], facts = of_edgebpf(edges, asked)
    for peer in filter(None, options.peers.split(",")):
        measured[peer], _ = globals()[f"of_{peer}"](edges, asked)
    print(f"{VERTICES} vertices, {facts[0]} edges, total {facts[1]}, {facts[2]} that lead back")
    print("| |" + "".join(f" {name} |" for name in measured))
    print("|---|" + "---|" * len(measured))
    for key, words in ROWS.items():
        print(f"| {words} |" + "".join(f" {shown(times.get(key))} |" for times in measured.values()))
    print("beside batches, 99 of 100 times: the last version within {}, a share of it within {}".format(*map(shown, beside_batches(edges))))


if __name__ == "__main__":
    sys.dont_write_bytecode = True
    main()

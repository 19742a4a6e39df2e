#!/usr/bin/python3
"""Measures `edgebpf.algorithms` beside scipy and igraph in one process, and what an update after a batch costs beside the whole answer.

    tools/dev/measure_algorithms.py [--graphs 18:7.63,20:7.63] [--rounds 3] [--only WORD]   prints the tables
    tools/dev/measure_algorithms.py --by-rounds [--graphs 20:3.815,20:15.26]                 prints the table of rounds of programs
    .. --write     and writes the rows into docs/figures/: algorithms.txt, and algorithm_updates_18.txt and _20.txt by the graph; or algorithm_rounds.txt

A graph is told by the power of two that it has vertices, and its edges for each vertex: 20:7.63 has 1,048,576 and 8,000,000. Times are CPU time of this
process, the least of some rounds in which each form has its turn. Each answer is compared with the peer's. Debian's packages: python3-numpy
python3-cffi python3-scipy python3-igraph.
"""
import argparse
import os
import sys
import unittest.mock

import numpy as np

sys.dont_write_bytecode = True
import figures  # noqa: E402
from algorithm_forms import Forms, agree, graph_of, stored, timed  # noqa: E402

GRAPHS, GRAPHS_OF_ROUNDS = "18:7.63,20:7.63", "20:3.815,20:15.26"
EDITS = (10, 100, 1_000, 10_000)
FORMS = ("edgebpf", "scipy", "igraph")
HEADS_OF_UPDATES = ("Milliseconds, for so many undirected edits", *(f"{count:,}" for count in EDITS), "anew")
HEADS_OF_ROUNDS = ("CPU seconds", "ready made", "by rounds", "igraph", "by rounds : igraph", "rounds", "a round, milliseconds")


def measure(forms, rounds, only):
    """For each row the least time of each form."""
    for title, calls, compare in forms.rows():
        if only and only not in title:
            continue
        least, found = {}, {}
        for _ in range(rounds):
            for name, call in calls.items():
                spent, found[name] = timed(call)
                least[name] = min(spent, least.get(name, spent))
        if compare:
            compare(found)
        print(f"  {title}: " + ", ".join(f"{name} {spent:.4f}" for name, spent in least.items()), file=sys.stderr, flush=True)
        yield title, least


def counted(version, call):
    """How many runs and pushes of a version a call makes."""
    kind, calls = type(version), []
    def counting(method):
        return lambda *given, **options: (calls.append(method), method(*given, **options))[1]

    with unittest.mock.patch.multiple(kind, run=counting(kind.run), push=counting(kind.push)):
        call()
    return len(calls)


def beside_rounds(forms, rounds):
    """For each algorithm the least times of both forms and of igraph, and of how many runs or pushes the second is."""
    for title, ready, by_rounds, peer in forms.by_rounds():
        agree(title, ready(), by_rounds())
        least = [min(timed(call)[0] for _ in range(rounds)) if call else None for call in (ready, by_rounds, peer)]
        yield title, (*least, counted(forms.version, by_rounds))


def rounds_cells(ready, by_rounds, peer, count):
    beside = ["", ""] if peer is None else [two_digits(peer), two_digits(by_rounds / peer)]
    return [two_digits(ready), two_digits(by_rounds), *beside, str(count), two_digits(1_000 * by_rounds / count)]


def batch_of(chance, version, count):
    """So many undirected edits, of which one in ten removes an edge that is there."""
    out = max(1, count // 10)
    starts, targets = version.csr()
    chosen = chance.integers(0, len(targets), out)
    removes = np.searchsorted(starts, chosen, side="right") - 1, targets[chosen].astype(np.int64)
    inserts = chance.integers(0, version.vertices, (2, count - out))
    return tuple(tuple(np.concatenate([pair[end], pair[1 - end]]) for end in (0, 1)) for pair in (inserts, removes))


def after_batches(store, version, rounds, within):
    """What updates cost, in milliseconds, the middle of some, beside the whole answer."""
    from edgebpf import algorithms as a

    live = {"components": a.LiveComponents(version), "triangles": a.LiveTriangles(version)}
    live[f"ranks, apart by at most {within:g}"] = a.LiveRank(version, within=within)
    chance, names = np.random.default_rng(5), ["apply the batch", *live, "vertices read for components"]
    spent = {name: {count: [] for count in EDITS} for name in names}
    for count in EDITS:
        for _ in range(rounds):
            edits = batch_of(chance, version, count)
            spent["apply the batch"][count].append(timed(lambda edits=edits: store.batch("A", *edits))[0])
            version = store.pin()
            for name, kept in live.items():
                spent[name][count].append(timed(lambda kept=kept, edits=edits, version=version: kept.update(version, *edits))[0])
            spent["vertices read for components"][count].append(live["components"].read)
        agree("live components", live["components"].labels, a.components(version))
        agree("live triangles", live["triangles"].each, a.triangles(version, assume_mirrored=True))
    wholes = {
        "components": lambda: a.components(version), "triangles": lambda: a.triangles(version, assume_mirrored=True),
        f"ranks, apart by at most {within:g}": lambda: a.LiveRank(version, within=within),
    }
    for name, call in wholes.items():
        spent[name]["anew"] = [timed(call)[0] for _ in range(2)]
    spent["labels of all vertices, after an update"] = {EDITS[0]: []}
    for _ in range(rounds):
        edits = batch_of(chance, version, EDITS[0])
        store.batch("A", *edits)
        version = store.pin()
        live["components"].update(version, *edits)
        spent["labels of all vertices, after an update"][EDITS[0]].append(timed(lambda: live["components"].labels)[0])
    return spent


def two_digits(number):
    return f"{number:.0f}" if number >= 10 else f"{number:.2g}"


def made(graphs):
    """For each graph its power of two, its store and its forms. What it is goes to standard error too."""
    # The companion is loaded before the clock starts.
    import edgebpf

    edgebpf.algorithms.bfs(edgebpf.Store(1).pin(), 0)
    for graph in graphs.split(","):
        scale, edges_of_a_vertex = graph.split(":")
        store, version = stored(*graph_of(int(scale), float(edges_of_a_vertex)), 1 << int(scale))
        forms = Forms(version)
        print(forms.words(), file=sys.stderr, flush=True)
        yield int(scale), store, forms


def both(cells):
    """A cell with what each graph has."""
    return "; ".join(cells).strip("; ")


def update_row(name, times):
    """The middle of some times for each number of edits."""
    factor, kinds = 1 if name.startswith("vertices") else 1_000, (*EDITS, "anew")
    return [name, *(two_digits(factor * sorted(times[kind])[len(times[kind]) // 2]) if times.get(kind) else "" for kind in kinds)]


def tables(graphs, rounds, only):
    """The tables, each with its name, its heads, its rows, and on what it was measured."""
    columns, sizes, updates = {}, [], []
    for scale, store, forms in made(graphs):
        sizes.append(forms.words())
        for title, least in measure(forms, rounds, only):
            columns.setdefault(title, []).append(least)
        if not only or only == "update":
            rows = [update_row(name, times) for name, times in after_batches(store, forms.version, 2 * rounds + 1, 1e-4).items()]
            updates.append((f"algorithm_updates_{scale}", HEADS_OF_UPDATES, rows, ""))
    rows = [[title, *(both(two_digits(one[name]) if name in one else "" for one in least) for name in FORMS)] for title, least in columns.items()]
    return [("algorithms", ("CPU seconds", *FORMS), rows, f"; on {'; '.join(sizes)}"), *updates]


def rounds_tables(graphs, rounds):
    """The one table on rounds, in the same way."""
    found, sizes = {}, []
    for _, _, forms in made(graphs):
        sizes.append(forms.words())
        for title, measured in beside_rounds(forms, rounds):
            print(f"  {title}: {measured}", file=sys.stderr, flush=True)
            found.setdefault(title, []).append(rounds_cells(*measured))
    rows = [[title, *map(both, zip(*cells))] for title, cells in found.items()]
    return [("algorithm_rounds", HEADS_OF_ROUNDS, rows, f"; on {'; '.join(sizes)}")]


def main():
    parser = argparse.ArgumentParser(description=__doc__, formatter_class=argparse.RawDescriptionHelpFormatter)
    parser.add_argument("--graphs")
    parser.add_argument("--rounds", type=int, default=3)
    parser.add_argument("--only", help="rows with this word alone; update for what follows a batch")
    parser.add_argument("--by-rounds", action="store_true")
    parser.add_argument("--write", action="store_true")
    options = parser.parse_args()
    if options.write and options.only:
        parser.error("--write is for whole tables")
    if options.by_rounds:
        found = rounds_tables(options.graphs or GRAPHS_OF_ROUNDS, options.rounds)
    else:
        found = tables(options.graphs or GRAPHS, options.rounds, options.only)
    when = f"{figures.now()} on {os.cpu_count()} processors"
    for name, heads, rows, where in found:
        print(when + where, *map(figures.line_of, (heads, *rows)), sep="\n")
        if options.write:
            figures.write(name, heads, rows, when + where)


if __name__ == "__main__":
    main()

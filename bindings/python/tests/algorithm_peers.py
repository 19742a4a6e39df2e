"""Random graphs on which `edgebpf.algorithms` is compared with networkx, igraph and scipy, and with models in plain Python where these have no such
answer. `check_graph` and `check_stream` raise an AssertionError that names what differs."""
import collections
import itertools
import math
import warnings

import edgebpf
import igraph
import networkx
import numpy as np
import scipy.sparse
import scipy.sparse.csgraph
from edgebpf import algorithms

MOST_SMALL, MOST_EDITS = 40, 65_536
# Lists of so many targets lie in a tree, in many slices.
HUB = range(5_000, 9_000)


def same(name, found, wanted):
    if not np.array_equal(found, wanted):
        raise AssertionError(f"{name}: found {np.asarray(found).tolist()}, wanted {np.asarray(wanted).tolist()}")


def close(name, found, wanted, most=1e-9):
    if not np.abs(np.asarray(found) - np.asarray(wanted)).sum() <= most:
        raise AssertionError(f"{name}: found {np.asarray(found).tolist()}, wanted {np.asarray(wanted).tolist()}")


def random_edges(chance, is_mirrored, vertices):
    """A set of edges, with loops and vertices without an edge, and of a large graph with a hub."""
    count = chance.randrange(1 + int(vertices * chance.choice((0.5, 1, 2, 5))))
    # Some vertices have many edges, and others none.
    width = chance.randint(1, vertices)
    edges = {(chance.randrange(chance.randint(1, width)), chance.randrange(width)) for _ in range(min(count, 4 * vertices))}
    if vertices in HUB:
        hub = chance.randrange(vertices)
        edges |= {(hub, target) for target in chance.sample(range(vertices), vertices * 2 // 3)}
    if is_mirrored:
        edges |= {(target, source) for source, target in edges}
    elif chance.random() < 0.3:
        # As many edges lead to each vertex as from it, and yet it is not mirrored.
        circle = chance.sample(range(vertices), chance.randint(1, vertices)) if chance.random() < 0.5 else range(min(3, vertices))
        edges = {(one, other) for one, other in zip(circle, [*circle[1:], circle[0]])}
    return edges


def columns(edges):
    return tuple(np.array(sorted(edges), np.int64).reshape(-1, 2).T)


def stored(edges, vertices):
    """A version of a store with these edges, after some that came and are gone again."""
    store, others = edgebpf.Store(vertices), {(source, (3 * target + 1) % vertices) for source, target in edges}
    for name, some in (("inserts", others), ("inserts", edges), ("removes", others - edges)):
        ends = columns(some)
        for begin in range(0, len(some), MOST_EDITS):
            store.batch("B", **{name: [end[begin:begin + MOST_EDITS] for end in ends]})
    return store, store.pin()


class Graph:
    """The same graph as peers have it."""

    def __init__(self, edges, vertices):
        self.edges, self.count = edges, vertices
        self.out = [set() for _ in range(vertices)]
        for source, target in edges:
            self.out[source].add(target)
        self.directed = networkx.DiGraph()
        self.directed.add_nodes_from(range(vertices))
        self.directed.add_edges_from(edges)
        self.matrix = scipy.sparse.csr_array((np.ones(len(edges)), columns(edges)), shape=(vertices, vertices))
        self.plain = networkx.Graph()
        self.plain.add_nodes_from(range(vertices))
        self.plain.add_edges_from((source, target) for source, target in edges if source != target)

    def array(self, of_vertices):
        return [of_vertices[vertex] for vertex in range(self.count)]


def check_search(chance, graph, version):
    roots = chance.sample(range(graph.count), chance.randint(1, min(3, graph.count)))
    far = scipy.sparse.csgraph.shortest_path(graph.matrix, unweighted=True, indices=roots).min(axis=0)
    levels = np.where(np.isinf(far), -1, far).astype(int)
    parents = [-1] * graph.count
    for source, target in graph.edges:
        if levels[source] >= 0 and levels[target] == levels[source] + 1 and not 0 <= parents[target] <= source:
            parents[target] = source
    for root in roots:
        parents[root] = root
    found = algorithms.bfs(version, roots if len(roots) > 1 or chance.random() < 0.5 else roots[0])
    same("levels", found.levels, levels)
    same("parents", found.parents, parents)
    same("reached", found.reached, sum(levels >= 0))
    most = chance.randrange(4)
    found, is_near = algorithms.bfs(version, roots, most), (levels >= 0) & (levels <= most)
    same("levels up to some", found.levels, np.where(is_near, levels, -1))
    same("parents up to some", found.parents, np.where(is_near, parents, -1))
    same("reached up to some", found.reached, sum(is_near))


def check_components(graph, version):
    _, names = scipy.sparse.csgraph.connected_components(graph.matrix, directed=False)
    least = {}
    for vertex, name in enumerate(names.tolist()):
        least.setdefault(name, vertex)
    same("components", algorithms.components(version), [least[name] for name in names.tolist()])


def fixed(graph, rounds, damping):
    """PageRank in whole numbers by its formula, edge by edge."""
    one = 1 << 40
    ranks = [one // graph.count] * graph.count
    for _ in range(rounds):
        loose = sum(rank for rank, out in zip(ranks, graph.out) if not out)
        later = [(one * (100 - damping) + damping * loose) // (100 * graph.count)] * graph.count
        for source, target in graph.edges:
            later[target] += ranks[source] * damping // (100 * len(graph.out[source]))
        ranks = later
    return ranks


def ranks_by_networkx(graph, *given):
    with warnings.catch_warnings():
        # Of a part of itself that networkx will remove.
        warnings.simplefilter("ignore", DeprecationWarning)
        return networkx.pagerank(graph.directed, *given, tol=1e-11 / graph.count, max_iter=1_000)


def check_ranks(chance, graph, version):
    wanted = ranks_by_networkx(graph)
    close("ranks", algorithms.pagerank(version, within=1e-13, most=1_000).ranks, graph.array(wanted))
    ranks = igraph.Graph(n=graph.count, edges=sorted(graph.edges), directed=True).pagerank()
    close("ranks, by igraph", algorithms.pagerank(version, within=1e-13, most=1_000).ranks, ranks)
    weights = [chance.choice((0, 0, 1, 2.5)) for _ in range(graph.count)]
    weights[chance.randrange(graph.count)] = 3
    damping = chance.choice((0.5, 0.85))
    wanted = ranks_by_networkx(graph, damping, dict(enumerate(weights)))
    found = algorithms.pagerank(version, damping, 1e-13, 1_000, start=weights, first=[1] * graph.count if chance.random() < 0.5 else None)
    close("personal ranks", found.ranks, graph.array(wanted))
    rounds, damping = chance.randrange(4), chance.choice((0, 50, 85, 100))
    same("ranks in whole numbers", algorithms.pagerank_fixed(version, rounds, damping), fixed(graph, rounds, damping))


def check_mirrored(graph, version):
    threads = 1 + len(graph.edges) % 3
    same("cores", algorithms.cores(version), graph.array(networkx.core_number(graph.plain)))
    plain = igraph.Graph(n=graph.count, edges=list(graph.plain.edges()))
    same("cores, by igraph", algorithms.cores(version, assume_mirrored=True), plain.coreness())
    same("triangles", algorithms.triangles(version, threads=threads), graph.array(networkx.triangles(graph.plain)))
    close("clustering", algorithms.clustering(version, threads=threads), graph.array(networkx.clustering(graph.plain)))


def mixed(number):
    """`hash` of tools/edgebpf.h, in whole numbers."""
    for _ in range(2):
        number = (number ^ number >> 32) * 0xD6E8FEB86659FD93 % 2**64
    return number ^ number >> 32


def check_independent(chance, graph, version):
    seed = chance.choice((0, 1, chance.randrange(1 << 32)))
    taken = set()
    for vertex in sorted(range(graph.count), key=lambda vertex: (mixed(vertex + (seed << 32)), vertex)):
        if not taken & set(graph.plain[vertex]):
            taken.add(vertex)
    same("independent set", np.flatnonzero(algorithms.independent_set(version, seed)), sorted(taken))


def check_labels(chance, graph, version):
    most = chance.choice((0, 1, 2, 30))
    labels, changed, rounds = list(range(graph.count)), graph.count, 0
    while changed and rounds < most:
        changed, rounds = 0, rounds + 1
        for vertex in range(graph.count):
            votes = collections.Counter(labels[target] for target in graph.out[vertex] if target != vertex)
            if votes and votes[labels[vertex]] < max(votes.values()):
                labels[vertex] = min(label for label, count in votes.items() if count == max(votes.values()))
                changed += 1
    found = algorithms.label_propagation(version, most)
    same("labels", found.labels, labels)
    same("rounds and changes of labels", (found.rounds, found.changed), (rounds, changed))


def score(graph, kind, one, other):
    both, either = graph.out[one] & graph.out[other], graph.out[one] | graph.out[other]
    if kind == "jaccard":
        return len(both) / len(either) if either else 0
    degrees = [len(graph.out[shared]) for shared in both]
    if kind == "common":
        return len(degrees)
    if kind == "adamic_adar":
        return sum(1 / math.log(degree) for degree in degrees if degree > 1)
    return sum(1 / degree for degree in degrees if degree > 0)


def check_pairs(chance, graph, version, is_mirrored):
    pairs = [(chance.randrange(graph.count), chance.randrange(graph.count)) for _ in range(chance.choice((0, 1, 20)))]
    pairs = [pair for pair in pairs for _ in range(chance.choice((1, 1, 2)))]
    sources, targets = columns(pairs) if not pairs else map(list, zip(*pairs))
    for kind in ("common", "jaccard", "adamic_adar", "allocation"):
        wanted = [score(graph, kind, *pair) for pair in pairs]
        found = algorithms.pair_scores(version, sources, targets, kind, threads=chance.choice((1, 1, 2)))
        close(kind, found, wanted)
    apart = [pair for pair in pairs if pair[0] != pair[1]]
    if is_mirrored and apart and not any(source == target for source, target in graph.edges):
        for kind, asked in (("jaccard", networkx.jaccard_coefficient), ("adamic_adar", networkx.adamic_adar_index), ("allocation", networkx.resource_allocation_index)):
            close(f"{kind}, by networkx", algorithms.pair_scores(version, *map(list, zip(*apart)), kind), [score for *_, score in asked(graph.plain, apart)])


def check_candidates(chance, graph, version):
    vertex, count, kind = chance.randrange(graph.count), chance.choice((0, 3, 10_000)), chance.choice(("common", "adamic_adar", "allocation"))
    scores = collections.Counter()
    for near in graph.out[vertex] - {vertex}:
        degree = len(graph.out[near])
        share = 1 if kind == "common" else 1 / max(degree, 1) if kind == "allocation" else 1 / math.log(degree) if degree > 1 else 0
        for there in graph.out[near]:
            scores[there] += share
    wanted = sorted((-round(score, 9), there) for there, score in scores.items() if there != vertex and there not in graph.out[vertex] and score > 0)
    kept = algorithms.Candidates(version, kind)
    for _ in range(2):
        found, numbers = kept.of(vertex, count)
        # Of sums in another order the last digits differ.
        ordered = sorted(zip((-np.round(numbers, 9)).tolist(), found.tolist()))
        close("scores of candidates", [one for one, _ in ordered], [one for one, _ in wanted[:count]])
        if count > len(wanted):
            same("candidates", sorted(found), sorted(there for _, there in wanted))
        same("candidates are in order", numbers, np.sort(numbers)[::-1])


def check_graph(chance, number):
    """One random graph. Each 400th is a large one with a hub."""
    is_mirrored = chance.random() < 0.6
    vertices = chance.choice(HUB) if number % 400 == 399 else chance.randint(1, MOST_SMALL)
    edges = random_edges(chance, is_mirrored, vertices)
    graph, (store, version) = Graph(edges, vertices), stored(edges, vertices)
    is_mirrored = all((target, source) in edges for source, target in edges)
    same("mirrored", algorithms.is_mirrored(version), is_mirrored)
    check_search(chance, graph, version)
    check_components(graph, version)
    check_ranks(chance, graph, version)
    check_labels(chance, graph, version)
    check_pairs(chance, graph, version, is_mirrored)
    check_candidates(chance, graph, version)
    same("degrees", algorithms.degree_distribution(version), np.bincount([len(out) for out in graph.out]))
    if is_mirrored:
        check_mirrored(graph, version)
        check_independent(chance, graph, version)
    else:
        for ask in (algorithms.cores, algorithms.triangles, algorithms.clustering, algorithms.independent_set, algorithms.LiveComponents, algorithms.LiveTriangles):
            try:
                ask(version)
            except algorithms.NotMirrored:
                continue
            raise AssertionError(f"{ask.__name__} took a graph that is not mirrored")
    store.close()


def random_batch(chance, edges, vertices, is_mirrored):
    """Insertions and removals with loops, edges that are there, edges that are not, and edges twice."""
    def some():
        found = [(chance.randrange(vertices), chance.randrange(vertices)) for _ in range(chance.choice((0, 1, 3, 12)))]
        found += chance.sample(sorted(edges), min(len(edges), chance.choice((0, 1, 5))))
        found += [(target, source) for source, target in found] if is_mirrored else []
        return found + found[:chance.choice((0, 1))]
    inserts, removes = some(), some()
    if is_mirrored:
        # A removal wins, also of the edge back.
        removes = list(itertools.chain.from_iterable((edge, edge[::-1]) for edge in removes))
        inserts = list(itertools.chain.from_iterable((edge, edge[::-1]) for edge in inserts))
    return inserts, removes


def check_stream(chance, batches):
    """The live forms beside answers that are computed again, after each batch or after some at once. Returns how many batches there were."""
    is_mirrored, vertices = chance.random() < 0.8, chance.choice((1, 2, 5, 20, 60, 200))
    edges = random_edges(chance, is_mirrored, vertices)
    store, version = stored(edges, vertices)
    within = chance.choice((1e-3, 1e-6, 1e-9))
    rank = algorithms.LiveRank(version, within=within)
    live = [algorithms.LiveComponents(version), algorithms.LiveTriangles(version)] if is_mirrored else []
    gathered = [], []
    for _ in range(batches):
        inserts, removes = random_batch(chance, edges, vertices, is_mirrored)
        store.batch("A", inserts=columns_in_order(inserts), removes=columns_in_order(removes))
        edges = edges | set(inserts)
        edges -= set(removes)
        gathered[0].extend(inserts), gathered[1].extend(removes)
        if chance.random() < 0.3:
            continue
        version.close()
        version = store.pin()
        same("edges", version.edges, len(edges))
        for kept in (rank, *live):
            kept.update(version, *map(columns_in_order, gathered))
        gathered = [], []
        exact = algorithms.pagerank(version, within=1e-14, most=1_000).ranks
        close("live ranks", rank.ranks, exact, rank.apart + 1e-12)
        close("apart", max(rank.apart, within), within)
        if live:
            wanted = algorithms.components(version)
            same("live components", live[0].labels, wanted)
            pairs = [[chance.randrange(vertices) for _ in range(5)] for _ in range(2)]
            same("joined", live[0].are_joined(*pairs), wanted[pairs[0]] == wanted[pairs[1]])
            same("live triangles", live[1].each, algorithms.triangles(version))
            same("all live triangles", 3 * live[1].all, live[1].each.sum())
    store.close()
    return batches


def columns_in_order(edges):
    return tuple(np.array(edges, np.int64).reshape(-1, 2).T)

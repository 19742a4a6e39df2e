"""The algorithms of edgebpf.algorithms on a random graph, each with its peers of scipy and igraph: for measure_algorithms.py.

Graphs are recursive matrices (57, 19, 19 and 5 %) whose vertices' numbers were mixed, mirrored and without loops.
"""
import pathlib
import sys
import time

import numpy as np

TOP = pathlib.Path(__file__).resolve().parent.parent.parent
sys.path[:0] = [str(TOP / "bindings" / "python"), str(TOP / "examples" / "cookbook")]
# Where the shares of the quarters end: top left, top right, bottom left.
QUARTERS = (0.57, 0.76, 0.95)
BATCH, ROUNDS_OF_RANKS = 65_536, 20


def graph_of(scale, edges_of_a_vertex, seed=1):
    """The ends of a mirrored graph, each edge once."""
    chance, count = np.random.default_rng(seed), 1 << scale
    wanted, keys = int(count * edges_of_a_vertex / 2), np.empty(0, np.int64)
    mixed = chance.permutation(count)
    while len(keys) < wanted:
        sources, targets = np.zeros((2, wanted), np.int64)
        for _ in range(scale):
            place = chance.random(wanted, dtype=np.float32)
            is_low, is_right = place >= QUARTERS[1], (place >= QUARTERS[0]) & (place < QUARTERS[1]) | (place >= QUARTERS[2])
            sources, targets = 2 * sources + is_low, 2 * targets + is_right
        sources, targets = mixed[sources], mixed[targets]
        low, high = np.minimum(sources, targets), np.maximum(sources, targets)
        keys = np.unique(np.concatenate([keys, (low << scale | high)[low != high]]))
    keys = chance.permutation(keys)[:wanted]
    low, high = keys >> scale, keys & count - 1
    return np.concatenate([low, high]), np.concatenate([high, low])


def stored(sources, targets, count):
    import edgebpf

    store = edgebpf.Store(count)
    for at in range(0, len(sources), BATCH):
        store.batch("A", inserts=(sources[at:at + BATCH], targets[at:at + BATCH]))
    store.rebase()
    return store, store.pin()


def timed(call):
    begun = time.process_time()
    answer = call()
    return time.process_time() - begun, answer


def agree(name, found, wanted):
    """Stops where two forms answer something else. Floats may differ by rounding."""
    found, wanted = np.asarray(found), np.asarray(wanted)
    is_same = np.abs(found - wanted).sum() < 1e-6 if found.dtype.kind == "f" else np.array_equal(found, wanted)
    if not is_same:
        sys.exit(f"measure_algorithms: {name}: other answers")


class Forms:
    """What is measured on one graph: for each row the calls of each form, and how their answers are compared."""

    def __init__(self, version):
        import igraph
        import scipy.sparse
        from edgebpf import algorithms
        from scipy.sparse import csgraph

        self.version, self.algorithms, self.igraph, self.csgraph, self.sparse = version, algorithms, igraph, csgraph, scipy.sparse
        starts, targets = version.csr()
        self.count = version.vertices
        self.matrix = scipy.sparse.csr_array((np.ones(version.edges), targets.astype(np.int32), starts.astype(np.int32)), shape=(self.count, self.count))
        self.sources = np.repeat(np.arange(self.count), np.diff(starts))
        keep = self.sources < targets
        self.ends = np.column_stack([self.sources[keep], targets[keep]])
        self.peer = igraph.Graph(n=self.count, edges=self.ends)
        self.hub = int(np.argmax(np.diff(starts)))

    def words(self):
        degrees = self.version.degrees()
        return (f"{self.count:,} vertices, {self.version.edges:,} edges, at most {degrees.max():,} of a vertex, {int((degrees == 0).sum()):,} without one")

    def rows(self):
        a, v, matrix, peer = self.algorithms, self.version, self.matrix, self.peer
        def mine(name, *given, **options):
            return lambda: getattr(a, name)(v, *given, **options)

        assumed, ours, igraph, scipy = {"assume_mirrored": True}, "edgebpf", "igraph", "scipy"
        targets = v.csr()[1]
        return [
            ("the copy, a matrix, a graph", {ours: self.copy, scipy: self.make_matrix, igraph: self.make_graph}, None),
            ("search from the vertex with most edges",
             {ours: mine("bfs", self.hub), scipy: lambda: self.csgraph.breadth_first_order(matrix, self.hub), igraph: lambda: peer.bfs(self.hub)},
             self.searches),
            ("components",
             {ours: mine("components"), scipy: lambda: self.csgraph.connected_components(matrix, directed=False),
              igraph: lambda: peer.connected_components().membership},
             self.components),
            (f"PageRank, {ROUNDS_OF_RANKS} rounds; scipy: products alone",
             {ours: mine("pagerank", within=0, most=ROUNDS_OF_RANKS), scipy: self.products}, None),
            ("the same in whole numbers", {ours: mine("pagerank_fixed", ROUNDS_OF_RANKS)}, None),
            ("PageRank within 10^-10; igraph: to its end", {ours: mine("pagerank", within=1e-10, most=1_000), igraph: peer.pagerank}, self.ranks),
            ("test that mirrored", {ours: mine("is_mirrored")}, None),
            ("cores, assumed mirrored", {ours: mine("cores", **assumed), igraph: peer.coreness}, self.cores),
            ("triangles of each vertex, assumed mirrored",
             {ours: mine("triangles", **assumed), igraph: lambda: peer.transitivity_local_undirected(mode="zero")}, self.triangles),
            ("independent set, assumed mirrored", {ours: mine("independent_set", **assumed)}, None),
            ("labels, up to 20 rounds; igraph: in random order",
             {ours: mine("label_propagation"), igraph: peer.community_label_propagation}, None),
            ("common neighbours of 100,000 edges", {ours: mine("pair_scores", self.sources[:100_000], targets[:100_000], "common")}, None),
            *self.proved_tests(),
        ]

    def proved_tests(self):
        """What it takes to ask whether answers are right, by the tests that are proved."""
        a, v = self.algorithms, self.version
        search, chosen = a.bfs(v, self.hub), a.independent_set(v, assume_mirrored=True)
        asked = {
            "proved test of a search": lambda: v.is_search(self.hub, search.levels, search.parents),
            "proved test of an independent set": lambda: v.is_independent_set(chosen),
        }
        return [(name, {"edgebpf": call}, lambda found: agree("tests", found["edgebpf"], True)) for name, call in asked.items()]

    def copy(self):
        """As `csr` makes it, which keeps it."""
        self.version._csr = None
        return self.version.csr()

    def make_matrix(self):
        starts, targets = self.version.csr()
        return self.sparse.csr_array((np.ones(len(targets)), targets.astype(np.int32), starts.astype(np.int32)), shape=(self.count, self.count))

    def make_graph(self):
        return self.igraph.Graph(n=self.count, edges=self.ends)

    def products(self):
        ranks = np.full(self.count, 1 / self.count)
        for _ in range(ROUNDS_OF_RANKS):
            ranks = self.matrix @ ranks
        return ranks

    def by_rounds(self):
        """What is ready made, the same by rounds of programs, as the cookbook has them, and what igraph has."""
        import pushes
        import rounds

        a, v, peer = self.algorithms, self.version, self.peer
        return [
            (f"PageRank in whole numbers, {ROUNDS_OF_RANKS} rounds", lambda: a.pagerank_fixed(v, ROUNDS_OF_RANKS), lambda: rounds.ranks(v, ROUNDS_OF_RANKS), None),
            ("search, by runs", lambda: a.bfs(v, self.hub).levels, lambda: rounds.levels(v, self.hub), lambda: peer.bfs(self.hub)),
            ("search, by pushes", lambda: a.bfs(v, self.hub).levels, lambda: pushes.hops(v, self.hub).astype(np.int64),
             lambda: peer.bfs(self.hub)),
            ("components, by runs", lambda: a.components(v), lambda: rounds.components(v), lambda: peer.connected_components().membership),
            ("components, by pushes", lambda: a.components(v), lambda: pushes.components(v), lambda: peer.connected_components().membership),
            ("cores, by pushes", lambda: a.cores(v, assume_mirrored=True), lambda: pushes.cores(v), peer.coreness),
            ("independent set, by pushes", lambda: a.independent_set(v, assume_mirrored=True), lambda: pushes.independent(v), None),
        ]

    def searches(self, found):
        agree("reached", found["edgebpf"].reached, len(found["scipy"][0]))

    def components(self, found):
        agree("components", len(np.unique(found["edgebpf"])), found["scipy"][0])
        agree("components", len(np.unique(found["edgebpf"])), max(found["igraph"]) + 1)

    def cores(self, found):
        agree("cores", found["edgebpf"], found["igraph"])

    def ranks(self, found):
        agree("ranks", found["edgebpf"].ranks, found["igraph"])

    def triangles(self, found):
        agree("clustering", self.algorithms.clustering(self.version), found["igraph"])

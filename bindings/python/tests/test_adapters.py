"""Graphs of scipy, igraph and networkx of a version, and stores of such graphs."""
import importlib.util
import os
import pathlib
import random
import sys
import unittest
import unittest.mock

sys.path.insert(0, str(pathlib.Path(__file__).resolve().parent))
from test_package import edgebpf, np

MISSING = [name for name in ("cffi", "igraph", "networkx", "numpy", "scipy") if importlib.util.find_spec(name) is None]
if not MISSING:
    import igraph
    import networkx
    import scipy.sparse
    from edgebpf import algorithms


def nodes_of(graph, edges):
    """Made of edges at once, networkx looks for other packages, and warns that they are missing."""
    graph.add_edges_from(edges)
    return graph


@unittest.skipIf(MISSING, f"not there: {MISSING}")
@unittest.skipIf(np is not None and edgebpf.library.path() is None, "not there: libedgebpf.so, which make -C dist makes")
class Adapters(unittest.TestCase):
    def version(self, edges, vertices):
        store = edgebpf.Store(vertices)
        self.addCleanup(store.close)
        store.batch("A", edges=np.array(sorted(edges), int).reshape(-1, 2))
        return store.pin()

    def edges_of(self, version):
        starts, targets = version.csr()
        return set(zip(np.repeat(np.arange(version.vertices), np.diff(starts)).tolist(), targets.tolist()))

    def graphs(self):
        chance = random.Random(4)
        for _ in range(60):
            vertices = chance.randint(1, 30)
            edges = {(chance.randrange(vertices), chance.randrange(vertices)) for _ in range(chance.randrange(3 * vertices))}
            yield edges, vertices
            yield edges | {edge[::-1] for edge in edges}, vertices

    def same(self, store, edges, vertices):
        self.addCleanup(store.close)
        version = store.pin()
        self.assertEqual((self.edges_of(version), version.vertices, version.number), (edges, vertices, 0))

    def test_of_a_version_and_back(self):
        for edges, vertices in self.graphs():
            version = self.version(edges, vertices)
            matrix, graph, nodes = version.to_scipy(), version.to_igraph(), version.to_networkx()
            self.assertEqual(set(zip(*map(np.ndarray.tolist, matrix.nonzero()))), edges)
            self.assertEqual((matrix.shape, matrix.sum(), matrix.dtype), ((vertices, vertices), len(edges), np.float64))
            self.assertEqual((set(graph.get_edgelist()), graph.ecount(), graph.vcount()), (edges, len(edges), vertices))
            self.assertEqual((set(nodes.edges()), list(nodes)), (edges, list(range(vertices))))
            self.assertTrue(graph.is_directed() and nodes.is_directed())
            for store in (edgebpf.Store.from_scipy(matrix), edgebpf.Store.from_igraph(graph), edgebpf.Store.from_networkx(nodes)):
                self.same(store, edges, vertices)

    def test_undirected(self):
        for edges, vertices in self.graphs():
            version, is_mirrored = self.version(edges, vertices), all(edge[::-1] in edges for edge in edges)
            if not is_mirrored:
                for ask in (version.to_igraph, version.to_networkx):
                    with self.assertRaisesRegex(algorithms.NotMirrored, "directed"):
                        ask(directed=False)
                continue
            graph, nodes = version.to_igraph(directed=False), version.to_networkx(directed=False)
            self.assertEqual((graph.ecount(), nodes.number_of_edges()), (len({frozenset(edge) for edge in edges}),) * 2)
            self.assertFalse(graph.is_directed() or nodes.is_directed())
            for store in (edgebpf.Store.from_igraph(graph), edgebpf.Store.from_networkx(nodes)):
                self.same(store, edges, vertices)

    def test_of_peers_alone(self):
        """Stored zeros, parallel edges, nodes in another order, and matrices of other forms."""
        entries = scipy.sparse.csr_matrix((np.array([0.0, 2.5]), ([0, 2], [1, 2])), shape=(3, 3))
        self.same(edgebpf.Store.from_scipy(entries), {(0, 1), (2, 2)}, 3)
        self.same(edgebpf.Store.from_scipy(np.array([[0, 1], [0, 0]])), {(0, 1)}, 2)
        self.same(edgebpf.Store.from_scipy(scipy.sparse.lil_array((1, 1))), set(), 1)
        self.same(edgebpf.Store.from_igraph(igraph.Graph(3, [(0, 1), (0, 1), (2, 2)])), {(0, 1), (1, 0), (2, 2)}, 3)
        nodes = nodes_of(networkx.MultiGraph(), [(2, 1), (1, 2), (0, 2)])
        self.same(edgebpf.Store.from_networkx(nodes), {(1, 2), (2, 1), (0, 2), (2, 0)}, 3)
        self.same(edgebpf.Store.from_networkx(nodes_of(networkx.DiGraph(), [(np.int64(1), 0)])), {(1, 0)}, 2)

    def test_many_edges(self):
        """More than one batch, and more batches than stand between two rebases there."""
        ends = np.unique(np.random.default_rng(1).integers(0, 2_000, (300_000, 2)), axis=0)
        matrix = scipy.sparse.coo_array((np.ones(len(ends)), ends.T), shape=(2_000, 2_000))
        with unittest.mock.patch("edgebpf.adapters.BATCHES", 2):
            store = edgebpf.Store.from_scipy(matrix)
        self.same(store, set(map(tuple, ends.tolist())), 2_000)
        self.assertGreater(store.pin().epoch, 2)

    def test_what_is_refused(self):
        for error, words, ask in (
            (ValueError, "matrix", lambda: edgebpf.Store.from_scipy(np.zeros((2, 3)))),
            (ValueError, "matrix", lambda: edgebpf.Store.from_scipy(scipy.sparse.csr_array((0, 0)))),
            (ValueError, "matrix", lambda: edgebpf.Store.from_scipy([[0, 1], [1, 0]])),
            (TypeError, "graph", lambda: edgebpf.Store.from_igraph(networkx.Graph())),
            (ValueError, "graph", lambda: edgebpf.Store.from_igraph(igraph.Graph())),
            (TypeError, "graph", lambda: edgebpf.Store.from_networkx(7)),
            (ValueError, "graph", lambda: edgebpf.Store.from_networkx(networkx.Graph())),
            (ValueError, "convert_node_labels_to_integers", lambda: edgebpf.Store.from_networkx(nodes_of(networkx.Graph(), [("a", "b")]))),
            (ValueError, "graph", lambda: edgebpf.Store.from_networkx(nodes_of(networkx.Graph(), [(0, 2)]))),
        ):
            with self.subTest(words), self.assertRaisesRegex(error, words):
                ask()
        version = self.version({(0, 1)}, 2)
        for wrong in ("x", 5, [1]):
            with self.assertRaisesRegex(TypeError, "^dtype"):
                version.to_scipy(wrong)
        version.close()
        for ask in (version.to_scipy, version.to_igraph, version.to_networkx):
            with self.assertRaises(edgebpf.Closed):
                ask()

    def test_a_package_that_is_missing(self):
        version = self.version({(0, 1)}, 2)
        for name, ask in (("scipy.sparse", version.to_scipy), ("igraph", version.to_igraph), ("networkx", version.to_networkx)):
            with unittest.mock.patch.dict(sys.modules, {name: None}), self.assertRaisesRegex(edgebpf.Error, f"python3-{name.split('.')[0]}$"):
                ask()

    def test_over_a_process(self):
        if not os.environ.get("EDGEBPF"):
            self.skipTest("not there: edgebpf")
        with edgebpf.connect(3) as store:
            store.batch("A", edges=[(0, 1), (1, 0), (2, 2)])
            version = store.pin()
            self.assertEqual(set(version.to_igraph().get_edgelist()), {(0, 1), (1, 0), (2, 2)})
            self.assertEqual(set(version.to_networkx(directed=False).edges()), {(0, 1), (2, 2)})
            self.same(edgebpf.Store.from_scipy(version.to_scipy(bool)), {(0, 1), (1, 0), (2, 2)}, 3)


if __name__ == "__main__":
    unittest.main()

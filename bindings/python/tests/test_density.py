"""Graphs that get dense and sparse again. A range keeps its lists in pages of fewer vertices the more edges it has, so these streams cross each limit
both ways; each version is compared with a matrix of bits, also the pinned ones of before."""
import pathlib
import sys
import unittest

sys.path.insert(0, str(pathlib.Path(__file__).resolve().parent))
from test_package import edgebpf, np

# Two whole ranges and one of 88 vertices.
VERTICES = 600
# Edges a vertex, from none to nearly all that there may be and back. Pages are cut anew at 12, 54, 128 and 342, and at 128, 48, 20 and 6.
DENSITIES = (3, 15, 17, 53, 60, 120, 140, 330, 360, 590, 300, 120, 100, 47, 40, 19, 10, 5, 2, 0)
# How many edits a batch has at most.
MOST_EDITS = 65_536


@unittest.skipIf(np is None, "not there: numpy")
@unittest.skipIf(np is not None and edgebpf.library.path() is None, "not there: cffi, or libedgebpf.so, which make -C dist makes")
class Density(unittest.TestCase):
    def store(self):
        store = edgebpf.Store(VERTICES)
        self.addCleanup(store.close)
        return store

    def same(self, version, edges):
        """A version has the edges of a matrix of bits, whichever way it is asked."""
        starts, targets = version.csr()
        self.assertEqual(version.edges, int(edges.sum()))
        self.assertEqual(np.diff(starts).tolist(), edges.sum(axis=1).tolist())
        self.assertEqual(targets.tolist(), np.nonzero(edges)[1].tolist())
        self.assertEqual(version.degrees(np.arange(VERTICES)).tolist(), edges.sum(axis=1).tolist())
        for source, target in ((0, 0), (255, 3), (256, 256), (511, 599), (512, 0), (599, 599)):
            self.assertEqual(version.has_edge(source, target), bool(edges[source, target]), (source, target))
            self.assertEqual(version.neighbours(source).tolist(), np.nonzero(edges[source])[0].tolist())

    def change(self, store, edges, density, chance):
        """Batches after which a matrix has so many edges a vertex; as many are taken out of those that stay, and put in, too."""
        order = chance.permutation(VERTICES * VERTICES)
        wanted = np.zeros(VERTICES * VERTICES, bool)
        there = order[edges.reshape(-1)[order]]
        missing = order[~edges.reshape(-1)[order]]
        count = density * VERTICES
        kept = there[: min(count, len(there)) * 9 // 10]
        wanted[kept] = True
        wanted[missing[: count - len(kept)]] = True
        wanted = wanted.reshape(VERTICES, VERTICES)
        changed = np.argwhere(wanted != edges)
        chance.shuffle(changed)
        for some in np.array_split(changed, len(changed) // MOST_EDITS + 1):
            sources, targets = some[:, 0], some[:, 1]
            removes = edges[sources, targets]
            change = store.apply(sources, targets, removes)
            self.assertEqual((change.added, change.removed), (int((~removes).sum()), int(removes.sum())))
            edges[sources, targets] = ~removes
        return edges

    def test_denser_and_sparser(self):
        chance, store, edges, pins = np.random.default_rng(11), self.store(), np.zeros((VERTICES, VERTICES), bool), []
        for density in DENSITIES:
            self.change(store, edges, density, chance)
            # A batch of one edit comes next, as it finds the shard of its range as the batches before have left it.
            source, target = (int(number) for number in chance.integers(VERTICES, size=2))
            store.apply([source], [target], [bool(edges[source, target])])
            edges[source, target] = not edges[source, target]
            pins.append((store.pin(), edges.copy()))
            self.same(*pins[-1])
        for version, before in pins:
            self.same(version, before)

    def test_one_dense_list(self):
        """One vertex with many edges, in a tree and out of it, beside others with few."""
        chance, store, edges = np.random.default_rng(12), edgebpf.Store(5_000), set()
        self.addCleanup(store.close)
        for count in (900, 1_100, 4_800, 1_000, 700, 3_000, 10):
            there = np.array(sorted(edges), int)
            wanted = chance.choice(5_000, count, replace=False)
            removed = np.setdiff1d(there, wanted)
            added = np.setdiff1d(wanted, there)
            store.apply(np.full(len(removed) + len(added), 300), np.r_[removed, added], np.r_[np.ones(len(removed), bool), np.zeros(len(added), bool)])
            edges = set(wanted.tolist())
            others = chance.integers(256, 512, size=40)
            store.apply(others[others != 300], chance.integers(5_000, size=(others != 300).sum()))
            self.assertEqual(store.pin().neighbours(300).tolist(), sorted(edges))

    def test_sorted_edges(self):
        """Stores of sorted edges at each density, edited after that."""
        chance = np.random.default_rng(13)
        for density in (1, 14, 32, 76, 200, 500):
            edges = chance.random((VERTICES, VERTICES)) < density / VERTICES
            starts = np.r_[0, edges.sum(axis=1).cumsum()]
            with edgebpf.Store.from_csr(starts, np.nonzero(edges)[1]) as store:
                self.same(store.pin(), edges)
                for _ in range(3):
                    sources, targets = chance.integers(VERTICES, size=(2, 50))
                    removes = chance.random(50) < 0.5
                    store.apply(sources, targets, removes)
                    for source, target, is_out in zip(sources, targets, removes):
                        edges[source, target] = not is_out
                    self.same(store.pin(), edges)


if __name__ == "__main__":
    unittest.main()

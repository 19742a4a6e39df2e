"""Pushes: rows that were found by hand, rounds of search, components and cores, and what is wrong."""
import pathlib
import sys
import unittest

sys.path.insert(0, str(pathlib.Path(__file__).resolve().parent))
from test_package import edgebpf, np

ENDS = [(0, 1), (0, 2), (1, 2), (2, 3), (3, 4), (5, 6)]
EDGES = sorted(ENDS + [(target, source) for source, target in ENDS])
MOST = 2**64 - 1
FIRST = "ldxdw r0, [r1+16]\nexit"


@unittest.skipIf(np is None, "not there: numpy")
@unittest.skipIf(np is not None and edgebpf.library.path() is None, "not there: cffi, or libedgebpf.so, which make -C dist makes")
class Pushes(unittest.TestCase):
    def setUp(self):
        self.store, self.small = edgebpf.Store(8), edgebpf.Store(4)
        self.addCleanup(self.store.close)
        self.addCleanup(self.small.close)
        self.store.batch("A", edges=EDGES)
        self.small.batch("A", edges=[(0, 1), (0, 2), (1, 2), (3, 2)])
        self.version, self.few = self.store.pin(), self.small.pin()
        self.of_source, self.of_argument = edgebpf.assemble(FIRST, record=32), edgebpf.assemble(FIRST, record=24)
        self.y = np.array([1, 10, 100, 1000], np.uint64)

    def test_rows(self):
        rows = [
            ("sum", None, 0, [0, 1, 1011, 0], 4, 1012, [1, 2]),
            ("sum", None, MOST, [MOST, 0, 1010, MOST], 4, 1012, [1, 2]),
            ("min", None, MOST, [MOST, 1, 1, MOST], 4, 1, [1, 2]),
            ("max", [0, 3], 5, [5, 5, 1000, 5], 3, 1000, [2]),
            ("sum", [0, 0], 0, [0, 2, 2, 0], 4, 4, [1, 2]),
            ("sum", [], 7, [7, 7, 7, 7], 0, 0, []),
        ]
        for reduction, frontier, begins, values, edges, total, changed in rows:
            into = np.full(4, begins, np.uint64)
            pushed = self.few.push(self.of_source, reduction, frontier, into=into, columns=[self.y], changed=True)
            self.assertEqual((into.tolist(), pushed.edges, pushed.total, pushed.changed.tolist()), (values, edges, total, changed))
            into = np.full(4, begins, np.uint64)
            self.assertIsNone(self.few.push(self.of_source, reduction, frontier, into=into, columns=[self.y]).changed)
            self.assertEqual(into.tolist(), values)

    def test_search(self):
        hops, front, fronts = np.full(8, MOST, np.uint64), [0], []
        hops[0] = 0
        while len(front):
            level = (len(fronts) + 1).to_bytes(8, "little")
            front = self.version.push(self.of_argument, "min", front, level, into=hops, changed=True).changed
            fronts.append(front.tolist())
        self.assertEqual((hops.tolist(), fronts), ([0, 1, 1, 2, 3, MOST, MOST, MOST], [[1, 2], [3], [4], []]))

    def test_components(self):
        labels, front, rounds = np.arange(8, dtype=np.uint64), None, []
        while front is None or len(front):
            front = self.version.push(self.of_source, "min", front, into=labels, columns=[labels.copy()], changed=True).changed
            rounds.append((labels.tolist(), front.tolist()))
        self.assertEqual(rounds, [
            ([0, 0, 0, 2, 3, 5, 5, 7], [1, 2, 3, 4, 6]), ([0, 0, 0, 0, 2, 5, 5, 7], [3, 4]), ([0, 0, 0, 0, 0, 5, 5, 7], [4]),
            ([0, 0, 0, 0, 0, 5, 5, 7], []),
        ])

    def test_cores(self):
        """What is left where every vertex has two neighbours at least."""
        one, degrees = edgebpf.assemble("mov r0, 1\nexit"), self.version.degrees().astype(np.int64)
        is_there, rounds = np.ones(8, bool), 0
        while len(gone := np.flatnonzero(is_there & (degrees < 2))):
            is_there[gone] = False
            lost = np.zeros(8, np.uint64)
            self.version.push(one, "sum", gone, into=lost)
            degrees -= lost.astype(np.int64)
            rounds += 1
        self.assertEqual((np.flatnonzero(is_there).tolist(), rounds), ([0, 1, 2], 2))

    def test_each(self):
        """A program at each vertex, by this process and by one of its own: degrees, places, and numbers of columns, by hand."""
        degree, place = edgebpf.assemble("ldxw r0, [r1+12]\nexit"), edgebpf.assemble("ldxw r0, [r1+8]\nexit")
        both = edgebpf.assemble("ldxdw r0, [r1+24]\nldxdw r2, [r1+32]\nadd r0, r2\nldxdw r2, [r1+16]\nadd r0, r2\nexit", record=40)
        x, one = np.arange(10, 90, 10, dtype=np.uint64), (1).to_bytes(8, "little")
        with edgebpf.connect(8) as other:
            for store in (self.store, other):
                if store is other:
                    store.batch("A", edges=EDGES)
                version, into = store.pin(), np.full(8, 9, np.uint64)
                self.assertEqual(version.each(degree, into=into), (8, 12, None))
                self.assertEqual(into.tolist(), [2, 2, 3, 2, 1, 1, 1, 0])
                found = version.each(both, "max", [1, 3], one, into=into, columns=[x], changed=True)
                self.assertEqual((found[:2], found.changed.tolist(), into.tolist()), ((2, 81), [1, 3], [2, 41, 3, 81, 1, 1, 1, 0]))
                self.assertEqual(version.each(both, "min", [], one, into=into, columns=[x]), (0, MOST, None))
                # Without an edge to itself a vertex has its degree as the place, and with one that of the edge.
                store.batch("A", edges=[(2, 2)])
                self.assertEqual(store.pin().each(place, frontier=[2, 3], into=into), (2, 4, None))
                self.assertEqual((into.tolist(), x.tolist()), ([2, 41, 2, 2, 1, 1, 1, 0], list(range(10, 90, 10))))
                for error, words, call in (
                        (ValueError, "into and column 0 share", lambda: version.each(both, into=x, columns=[x], argument=one)),
                        (ValueError, "reduction", lambda: version.each(degree, "mean", into=into)), (TypeError, "into", lambda: version.each(degree, into=[0] * 8)),
                        (edgebpf.ArgumentLength, "8", lambda: version.each(degree, argument=one, into=into)),
                        (edgebpf.VertexRange, "8", lambda: version.each(degree, frontier=[8], into=into))):
                    with self.assertRaisesRegex(error, words):
                        call()
                version.close()
                with self.assertRaises(edgebpf.Closed):
                    version.each(degree, into=into)
                self.assertEqual(into.tolist(), [2, 41, 2, 2, 1, 1, 1, 0])

    def test_each_of_random_columns(self):
        """What a process gives is what numpy computes, also for frontiers longer than a line."""
        chance, count = np.random.default_rng(6), 30_000
        sums = edgebpf.assemble("ldxdw r0, [r1+16]\nldxdw r2, [r1+32]\nadd r0, r2\nexit", record=48)
        columns = [chance.integers(0, 1 << 64, count, np.uint64) for _ in range(2)]
        with edgebpf.connect(count) as store:
            version = store.pin()
            for frontier in (None, np.unique(chance.integers(0, count, 25_000))):
                for reduction, join in (("sum", np.add), ("min", np.minimum), ("max", np.maximum)):
                    into = chance.integers(0, 1 << 64, count, np.uint64)
                    chosen, wanted = slice(None) if frontier is None else frontier, into.copy()
                    wanted[chosen] = (columns[0] + columns[1])[chosen]
                    found = version.each(sums, reduction, frontier, into=into, columns=columns)
                    self.assertTrue((into == wanted).all())
                    self.assertEqual(found, (len(wanted[chosen]), int(join.reduce(wanted[chosen])), None))

    def test_steps(self):
        for budget in (0, 1, 10, 1_000, None):
            into = np.zeros(4, np.uint64)
            push = self.few.begin_push(self.of_source, into=into, columns=[self.y])
            self.assertEqual((push.done, push.edges, push.total), (False, 0, 0))
            while not push.done:
                push.step(budget)
            self.assertEqual((into.tolist(), push.values.tolist(), push.edges, push.total), ([0, 1, 1011, 0], [0, 1, 1011, 0], 4, 1012))
        into = np.zeros(4, np.uint64)
        push = self.few.begin_push(self.of_source, into=into, columns=[self.y])
        push.step(0)
        other = push.share()
        while not other.done:
            other.step(0)
        self.assertEqual((other.values.tolist(), push.edges, into.tolist()), ([0, 1, 1011, 0], 1, [0, 1, 0, 0]))

    def test_ends_by_time(self):
        slow, into = edgebpf.assemble("mov r0, 0\n" + "add r0, 1\n" * 4000 + "exit"), np.zeros(8, np.uint64)
        frontier = list(range(8)) * 200
        with self.assertRaises(edgebpf.TimedOut) as raised:
            self.version.push(slow, frontier=frontier, into=into, seconds=0)
        self.assertLess(raised.exception.run.edges, len(EDGES) * 200)
        while not raised.exception.run.done:
            raised.exception.run.step()
        # So many edges lead to each vertex.
        self.assertEqual(into.tolist(), [4000 * 200 * many for many in (2, 2, 3, 2, 1, 1, 1, 0)])

    def test_what_is_wrong(self):
        into = np.zeros(4, np.uint64)
        push = lambda into=into, **others: self.few.push(self.of_source, **({"into": into, "columns": [self.y]} | others))
        frozen = np.zeros(4, np.uint64)
        frozen.flags.writeable = False
        longer = np.zeros(8, np.uint64)
        askew = np.frombuffer(bytearray(33), np.uint64, 4, offset=1)
        for wrong in ([0] * 4, np.zeros(4), np.zeros(4, np.int64), np.zeros((4, 1), np.uint64), longer[::2], frozen, askew, None):
            with self.assertRaisesRegex(TypeError, "into"):
                push(wrong)
        for wrong in (longer, longer[:3]):
            with self.assertRaisesRegex(ValueError, "into"):
                push(wrong)
        with self.assertRaisesRegex(ValueError, "into and column 0 share memory"):
            push(self.y)
        with self.assertRaisesRegex(ValueError, "into and column 1 share memory"):
            push(longer[:4], columns=[self.y, longer[2:6]])
        with self.assertRaises(edgebpf.ArgumentLength):
            push(argument=b"12345678")
        with self.assertRaisesRegex(ValueError, "column 0"):
            push(columns=[longer])
        with self.assertRaisesRegex(ValueError, "reduction"):
            push(reduction="mean")
        with self.assertRaises(edgebpf.VertexRange):
            push(frontier=[4])
        self.few.close()
        with self.assertRaises(edgebpf.Closed):
            push()
        self.assertEqual((into.tolist(), longer.tolist()), ([0] * 4, [0] * 8))


if __name__ == "__main__":
    unittest.main()

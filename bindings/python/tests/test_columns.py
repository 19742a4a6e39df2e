"""Records with the numbers of columns: the worked rows of a graph of 8 vertices, rounds of algorithms, and what is wrong."""
import array
import pathlib
import sys
import unittest

sys.path.insert(0, str(pathlib.Path(__file__).resolve().parent))
from test_package import edgebpf, np

if np is not None and edgebpf.library.path():
    import random_columns
ENDS = [(0, 1), (0, 2), (1, 2), (2, 3), (3, 4), (5, 6)]
EDGES = sorted(ENDS + [(target, source) for source, target in ENDS])
MOST = 2**64 - 1
TARGET = "ldxdw r0, [r1+24]\nexit"
SOURCE = "ldxdw r0, [r1+16]\nexit"
# The target's risk, 0 below the argument, and twice as much where the lands of the ends differ.
SCORE = """ldxdw r0, [r1+32]
ldxdw r2, [r1+16]
jge r0, r2, known
mov r0, 0
known:
ldxdw r2, [r1+40]
ldxdw r3, [r1+48]
jeq r2, r3, same
lsh r0, 1
same:
exit"""


@unittest.skipIf(np is None, "not there: numpy")
@unittest.skipIf(np is not None and edgebpf.library.path() is None, "not there: cffi, or libedgebpf.so, which make -C dist makes")
class Columns(unittest.TestCase):
    def setUp(self):
        self.store = edgebpf.Store(8)
        self.addCleanup(self.store.close)
        self.store.batch("A", edges=EDGES)
        self.version = self.store.pin()
        self.target, self.source = edgebpf.assemble(TARGET, record=32), edgebpf.assemble(SOURCE, record=32)
        self.x = np.arange(10, 90, 10, dtype=np.uint64)

    def test_rows(self):
        rows = {
            "sum": [50, 40, 70, 80, 40, 70, 60, 0], "min": [20, 10, 10, 30, 40, 70, 60, MOST], "max": [30, 30, 40, 50, 40, 70, 60, 0],
        }
        for reduction, values in rows.items():
            for threads in (1, 3):
                result = self.version.run(self.target, reduction, columns=[self.x], threads=threads)
                self.assertEqual((result.values.tolist(), result.edges), (values, 12))
        self.assertEqual(self.version.run(self.target, frontier=[2, 2, 7], columns=[self.x]).values.tolist(), [70, 70, 0])
        self.assertEqual(self.version.run(self.source, columns=[self.x]).values.tolist(), [20, 40, 90, 80, 50, 60, 70, 0])

    def test_scores(self):
        """An argument and two columns."""
        score = edgebpf.assemble(SCORE, record=56)
        risk, land = (np.array(column, np.uint64) for column in ([3, 9, 4, 7, 1, 8, 2, 6], [1, 1, 2, 2, 1, 1, 3, 3]))
        least = (4).to_bytes(8, "little")
        for reduction, values in ("max", [9, 8, 18, 4, 14, 0, 16, 0]), ("sum", [17, 8, 25, 4, 14, 0, 16, 0]):
            self.assertEqual(self.version.run(score, reduction, argument=least, columns=[risk, land]).values.tolist(), values)

    def test_stores_into_the_ends(self):
        """A program may write where its record has the numbers: each edge finds its own there, and no column is written."""
        writes = edgebpf.assemble("ldxdw r0, [r1+24]\nstdw [r1+16], 7\nstdw [r1+24], 9\nexit", record=32)
        into = np.zeros(8, np.uint64)
        self.assertEqual(self.version.run(writes, columns=[self.x]).values.tolist(), [50, 40, 70, 80, 40, 70, 60, 0])
        self.assertEqual(self.version.numbers(writes, frontier=[2, 0], columns=[self.x]).tolist(), [10, 20, 40, 20, 30])
        self.assertEqual(self.version.pairs(writes, [0, 7], [3, 0], columns=[self.x]).tolist(), [40, 10])
        self.version.push(writes, into=into, columns=[self.x])
        # Each edge brings its target's own number.
        self.assertEqual(into.tolist(), [20, 40, 90, 80, 50, 60, 70, 0])
        self.assertEqual(self.x.tolist(), list(range(10, 90, 10)))

    def test_ranks(self):
        one, degree, rank = 10**9, self.version.degrees().astype(np.uint64), np.full(8, 125_000_000, np.uint64)
        after = {}
        for turn in range(1, 21):
            give = np.where(degree > 0, rank * 85 // (100 * np.maximum(degree, 1)), 0).astype(np.uint64)
            rank = 15 * one // 800 + self.version.run(self.target, columns=[give]).values
            after[turn] = rank.tolist()
        self.assertEqual(after[1], [107291666, 107291666, 178125000, 160416666, 71875000, 125000000, 125000000, 18750000])
        self.assertEqual(after[3], [118016274, 118016274, 171727862, 143106769, 74132812, 125000000, 125000000, 18750000])
        self.assertEqual(after[20], [119882822, 119882822, 177149872, 132846313, 75238138, 125000000, 125000000, 18750000])

    def test_components(self):
        label, rounds = np.arange(8, dtype=np.uint64), 0
        while True:
            rounds, least = rounds + 1, np.minimum(label, self.version.run(self.target, "min", columns=[label]).values)
            if (least == label).all():
                break
            label = least
        self.assertEqual((label.tolist(), rounds), ([0, 0, 0, 0, 0, 5, 5, 7], 4))

    def test_pieces(self):
        """The columns are those of the run, also after the caller has dropped them, and in a share."""
        run = self.version.begin(self.target, columns=[self.x.copy()])
        for _ in range(4):
            run.step(0)
        other = run.share()
        for each in (run, other):
            while not each.done:
                each.step(0)
            self.assertEqual((each.values.tolist(), each.total), ([50, 40, 70, 80, 40, 70, 60, 0], 410))

    def test_numbers_and_pairs(self):
        self.assertEqual(self.version.numbers(self.target, frontier=[2, 0, 7, 5], columns=[self.x]).tolist(), [10, 20, 40, 20, 30, 70])
        pairs = [0, 0, 7, 9, 1], [1, 3, 0, 1, 9]
        self.assertEqual(self.version.pairs(self.target, *pairs, columns=[self.x]).tolist(), [20, 40, 10, 20, 0])
        self.assertEqual(self.version.pairs(self.source, *pairs, columns=[self.x]).tolist(), [10, 10, 80, 0, 20])

    def test_not_copied(self):
        """What is written to a column before a step is seen by it, and arrays of other kinds are taken as they lie."""
        run = self.version.begin(self.target, columns=[self.x])
        self.x += 1
        while not run.done:
            run.step()
        self.assertEqual(run.total, 422)
        for column in (array.array("Q", range(8)), memoryview(np.arange(8, dtype=np.uint64)), np.arange(16, dtype=np.uint64)[8:]):
            self.assertEqual(self.version.run(self.target, columns=[column]).edges, 12)
        readonly = np.arange(8, dtype=np.uint64)
        readonly.flags.writeable = False
        self.assertEqual(self.version.run(self.target, columns=(readonly,)).total, 29)
        self.assertEqual(self.version.run(edgebpf.assemble(TARGET, record=48), columns=np.stack([self.x, self.x])).edges, 12)

    def test_wrong_columns(self):
        short, long = self.x[:7], np.arange(9, dtype=np.uint64)
        wrong = [
            ([short], ValueError, "column 0 has 7 numbers, and the graph 8 vertices"),
            ([self.x, long], ValueError, "column 1 has 9 numbers"),
            ([self.x[:0]], ValueError, "column 0 has 0 numbers"),
            ([self.x] * 9, ValueError, "there are 9 columns"),
            ([self.x.astype(np.float64)], TypeError, "column 0 is an array of uint64"),
            ([self.x.astype(np.int64)], TypeError, "column 0 is an array of uint64"),
            ([self.x.astype(">u8")], TypeError, "column 0 is an array of uint64"),
            ([self.x[::2]], TypeError, "no gaps"),
            ([np.stack([self.x, self.x])], TypeError, "one dimension"),
            ([list(range(8))], TypeError, "column 0 is an array of uint64, not list: it is not copied"),
            ([self.x, None], TypeError, "column 1 is an array of uint64, not NoneType"),
            (self.x, TypeError, "columns are a list of arrays"),
            (b"12345678", TypeError, "columns are a list of arrays"),
            (None, TypeError, "columns are a list of arrays"),
        ]
        for columns, error, words in wrong:
            for call in (
                lambda: self.version.run(self.target, columns=columns), lambda: self.version.numbers(self.target, columns=columns),
                lambda: self.version.pairs(self.target, [0], [1], columns=columns), lambda: self.version.begin(self.target, columns=columns),
            ):
                with self.subTest(columns=str(columns)[:40]), self.assertRaises(error) as raised:
                    call()
                self.assertIn(words, str(raised.exception))

    def test_wrong_arguments(self):
        with self.assertRaisesRegex(edgebpf.ArgumentLength, "the argument has 0 bytes beside 1 columns, not 8"):
            self.version.run(self.target, argument=bytes(8), columns=[self.x])
        # A column that was forgotten looks like an argument that is missing.
        with self.assertRaisesRegex(edgebpf.ArgumentLength, "^the argument has 16 bytes if no column is lent, not 0$"):
            self.version.run(self.target)
        with self.assertRaisesRegex(edgebpf.ArgumentLength, "a record of 32 bytes has no room for 2 columns"):
            self.version.run(self.target, columns=[self.x, self.x])
        # Without a column the bytes are the argument's.
        self.assertEqual(self.version.run(self.target, argument=bytes(8) + (5).to_bytes(8, "little")).total, 60)

    def test_process(self):
        """A process is sent columns for runs and pushes, and gives what this process gives; numbers of edges with columns it does not."""
        chance, count = np.random.default_rng(5), 300
        source = edgebpf.assemble("ldxdw r0, [r1+24]\nexit", record=40)
        edges = chance.integers(0, count, (2_000, 2))
        with edgebpf.connect(count) as store, edgebpf.Store(count) as own:
            versions = []
            for one in (store, own):
                one.batch("A", edges=edges)
                versions.append(one.pin())
            for reduction in ("sum", "min", "max"):
                columns = [chance.integers(0, 1 << 64, count, np.uint64), chance.integers(0, 9, count).astype(np.uint64)]
                for frontier in (None, [], [7], np.unique(chance.integers(0, count, 80))):
                    for given in ((self.target, columns[:1], b""), (source, columns[1:], bytes(8))):
                        found = [version.run(given[0], reduction, frontier, given[2], columns=given[1]) for version in versions]
                        self.assertEqual(found[0].values.tolist(), found[1].values.tolist())
                        self.assertEqual((found[0].edges, found[0].total), (found[1].edges, found[1].total))
                        into = [chance.integers(0, 1 << 64, count, np.uint64)] * 2
                        into = [array.copy() for array in into]
                        pushed = [version.push(given[0], reduction, frontier, given[2], into=array, columns=given[1], changed=True)
                                  for version, array in zip(versions, into)]
                        self.assertEqual(into[0].tolist(), into[1].tolist())
                        self.assertEqual(pushed[0][:2], pushed[1][:2])
                        self.assertEqual(pushed[0].changed.tolist(), pushed[1].changed.tolist())
            # Without a column a push needs a record for the argument alone.
            into = np.zeros(count, np.uint64)
            self.assertEqual(versions[0].push(edgebpf.assemble("mov r0, 1\nexit"), into=into).edges, versions[0].edges)
            self.assertEqual(into.tolist(), np.bincount(versions[0].csr()[1], minlength=count).tolist())
            for error, call in (
                    (edgebpf.NotHere, lambda: versions[0].numbers(self.target, columns=[self.x])), (ValueError, lambda: versions[0].run(self.target, columns=[self.x])),
                    (edgebpf.NotHere, lambda: versions[0].push(self.target, into=into, columns=columns[:1], seconds=1)),
                    (TypeError, lambda: versions[0].push(self.target, into=into.astype(float), columns=columns[:1])),
                    (edgebpf.ArgumentLength, lambda: versions[0].run(self.target, argument=bytes(1), columns=columns[:1])),
                    (ValueError, lambda: versions[0].run(self.target, frontier=[3, 2], columns=columns[:1]))):
                with self.assertRaises(error):
                    call()
            self.assertEqual(versions[0].run(self.target, columns=columns[:1]).edges, versions[0].edges)

    def test_random(self):
        """Some of what `random_columns.py` compares by hand."""
        self.assertGreaterEqual(random_columns.compared(60, 1), 60)


if __name__ == "__main__":
    unittest.main()

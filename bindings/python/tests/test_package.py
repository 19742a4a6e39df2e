"""The Python package over an `edgebpf` process: what README shows, answers against sets and scipy, and each error."""
import concurrent.futures
import copy
import os
import pathlib
import pickle
import random
import re
import signal
import subprocess
import sys
import tempfile
import threading
import unittest
import unittest.mock

FOLDER = pathlib.Path(__file__).resolve().parent.parent
TOP = FOLDER.parent.parent
sys.path.insert(0, str(FOLDER))

try:
    import numpy as np

    import edgebpf
except ImportError:
    np = None
try:
    import scipy.sparse
except ImportError:
    scipy = None

TARGET = "ldxw r0, [r1+4]\nexit"
BATCHES = int(os.environ.get("RANDOM_BATCHES", "60"))


def python_blocks(path):
    return re.findall(r"^```python\n(.*?)^```", path.read_text(), re.M | re.S)


@unittest.skipIf(np is None, "not there: numpy")
class Package(unittest.TestCase):
    def store(self, vertices, **words):
        store = edgebpf.connect(vertices, **words)
        self.addCleanup(store.close)
        return store

    def test_documents(self):
        """Each example in Python runs as printed, and its `assert`s hold."""
        blocks = [block for page in (TOP / "README.md", TOP / "docs/EMBEDDING.md", FOLDER / "README.md") for block in python_blocks(page)]
        self.assertGreaterEqual(len(blocks), 2)
        for block in blocks:
            if "edgebpf.Store(" not in block or edgebpf.library.path():
                exec(compile(block, "README.md", "exec"), {})

    def test_cookbook(self):
        """Its functions give on a process with two workers what was found by hand."""
        sys.path.insert(0, str(TOP / "examples" / "cookbook"))
        from live import follow
        from mutual import mutual
        from parts import total
        from snapshots import changed
        from top import top

        sources, targets = np.array([0, 1, 0, 2, 1, 2, 2, 3]), np.array([1, 0, 2, 0, 2, 1, 3, 2])
        store = self.store(4, workers=2)
        store.batch("A", inserts=(sources, targets))
        before = store.pin()
        self.assertEqual((mutual(before), top(before, 2)), (8, [(2, 3), (0, 2)]))
        store.batch("B", removes=([0], [1]))
        self.assertEqual(changed(before, store.pin()).tolist(), [0, 1])
        self.assertEqual(list(follow(self.store(4), [([0, 1], [1, 0]), ([0, 1], [2, 2]), ([2, 3], [0, 2])])), [2, 2, 1])
        self.assertEqual(total(4, sources, targets, edgebpf.assemble(TARGET), 3), 11)

    def test_not_here(self):
        """What a process has not is refused in words, and the store goes on."""
        store, target = self.store(4), edgebpf.assemble(TARGET)
        store.batch("A", ([0, 0], [1, 2]))
        version = store.pin()
        for ask in (
            lambda: version.begin(target), lambda: version.begin_numbers(target, [0]), lambda: version.begin_pairs(target, [0], [1]),
            lambda: version.pairs(target, [0], [1]), lambda: version.numbers(target, frontier=[0]), lambda: version.numbers(target, seconds=1),
            lambda: version.run(target, seconds=1), lambda: version.run(target, threads=2),
        ):
            with self.assertRaisesRegex(edgebpf.NotHere, "^an edgebpf process .*edgebpf.Store$"):
                ask()
        self.assertEqual((version.run(target, threads=1).total, version.numbers(target).tolist()), (3, [1, 2]))

    def test_random_batches(self):
        """After each batch the pinned version has the edges of a set, and an earlier pin those of its own moment."""
        chance, count = random.Random(11), 400
        store, edges, kept = self.store(count, workers=2), set(), []
        target = edgebpf.assemble(TARGET)
        for number in range(1, BATCHES + 1):
            inserts, removes = ([(chance.randrange(count), chance.randrange(30)) for _ in range(chance.randrange(90))] for _ in range(2))
            counts = store.batch(chance.choice("ABCD"), zip_ends(inserts), zip_ends(removes))
            later = (edges | set(inserts)) - set(removes)
            self.assertEqual(counts, edgebpf.Counts(number, len(later - edges), len(edges - later)))
            edges = later
            version = store.pin()
            kept.append((version, sorted(edges)))
            self.assertEqual((version.number, version.edges, version.vertices), (number, len(edges), count))
        for version, wanted in random.Random(3).sample(kept, 12):
            starts, targets = version.csr()
            sources = np.repeat(np.arange(count), np.diff(starts))
            self.assertEqual(list(zip(sources.tolist(), targets.tolist())), wanted)
            result = version.run(target)
            self.assertEqual(result.values.tolist(), np.bincount(sources, targets, count).astype(int).tolist())
            self.assertEqual((result.edges, result.total), (len(wanted), sum(to for _, to in wanted)))
            self.assertEqual(version.numbers(target).tolist(), targets.tolist())
            frontier = sorted(random.Random(version.number).sample(range(count), 50))
            least = version.run(target, "min", frontier)
            self.assertEqual(least.values.tolist(), [min((to for fro, to in wanted if fro == vertex), default=2**64 - 1) for vertex in frontier])

    @unittest.skipIf(scipy is None, "not there: scipy")
    def test_beside_scipy(self):
        """Edges that have an edge back, as scipy counts them."""
        chance, count = np.random.default_rng(4), 300
        store = self.store(count)
        sources, targets = chance.integers(0, count, (2, 6_000))
        store.batch("A", (sources, targets))
        version = store.pin()
        mutual = edgebpf.assemble("ldxw r2, [r1+0]\nldxw r1, [r1+4]\ncall 2\nexit")
        starts, ends = version.csr()
        matrix = scipy.sparse.csr_array((np.ones(len(ends), np.int64), ends, starts), shape=(count, count))
        self.assertEqual(version.run(mutual).values.tolist(), np.asarray(matrix.multiply(matrix.T).sum(axis=1)).ravel().tolist())

    def test_long_frontier(self):
        """A frontier that no line holds is run in parts."""
        count = 40_000
        store = self.store(count, workers=4)
        store.batch("A", (np.arange(count), np.arange(count)[::-1]))
        version, target = store.pin(), edgebpf.assemble(TARGET)
        for reduction in ("sum", "min", "max"):
            whole, parts = version.run(target, reduction), version.run(target, reduction, np.arange(count))
            self.assertEqual((whole.values.tolist(), whole.edges, whole.total), (parts.values.tolist(), parts.edges, parts.total))
        none = version.run(target, "min", [])
        self.assertEqual((none.values.tolist(), none.edges, none.total), ([], 0, 2**64 - 1))

    def test_large_numbers_of_a_long_frontier(self):
        """Parts of a frontier join to a number whose uppermost bit is set, in runs and in pushes."""
        count, least = 20_001, 2**63 + 3
        store = self.store(count)
        store.batch("A", (np.arange(count), np.zeros(count, np.uint32)))
        version = store.pin()
        program = edgebpf.assemble(f"ldxw r1, [r1+0]\nlddw r0, {least}\nadd r0, r1\nexit")
        numbers = [least + source for source in range(count)]
        for reduction, wanted in (("sum", sum(numbers) % 2**64), ("min", min(numbers)), ("max", max(numbers))):
            self.assertGreaterEqual(wanted, 2**63)
            run = version.run(program, reduction, np.arange(count))
            self.assertEqual((run.edges, run.total, run.values.tolist()), (count, wanted, numbers))
            into = np.full(count, 2**64 - 1 if reduction == "min" else 0, np.uint64)
            pushed = version.push(program, reduction, np.arange(count), into=into)
            self.assertEqual((pushed.edges, pushed.total, into[0]), (count, wanted, wanted))

    def test_views(self):
        store = self.store(5)
        self.assertEqual(store.pin().csr()[0].tolist(), [0] * 6)
        store.batch("A", ([1, 1, 4], [0, 3, 2]))
        version = store.pin()
        for array in version.csr():
            self.assertFalse(array.flags.writeable)
            with self.assertRaises(ValueError):
                array.setflags(write=True)
        view = version.neighbours(1)
        self.assertEqual(view.tolist(), [0, 3])
        self.assertEqual(version.neighbours(0).tolist(), [])
        with self.assertRaises(ValueError):
            view[0] = 7
        store.batch("A", removes=([1], [0]))
        self.assertEqual(version.neighbours(1).tolist(), [0, 3])
        self.assertEqual(store.pin().neighbours(1).tolist(), [3])

    def test_questions(self):
        """Degrees, edges and neighbours at a place are those of the lists, and what is outside of the graph is named."""
        store, targets = self.store(900), sorted({number * 7 % 900 for number in range(800)})
        store.batch("A", ([0] * len(targets) + [2], targets + [899]))
        version = store.pin()
        self.assertEqual([version.degree(vertex) for vertex in (0, 1, np.int64(2))], [len(targets), 0, 1])
        self.assertEqual(version.degrees([2, 0, 1, 2]).tolist(), [1, len(targets), 0, 1])
        self.assertEqual((version.degrees().sum(), len(version.degrees()), version.degrees([]).tolist()), (len(targets) + 1, 900, []))
        self.assertEqual([target for target in range(900) if version.has_edge(0, target)], targets)
        self.assertEqual((version.has_edge(2, 899), version.has_edge(899, 2)), (True, False))
        self.assertEqual([version.neighbour(0, place) for place in range(len(targets))], targets)
        for vertex, place in ((0, len(targets)), (1, 0), (0, -1), (0, 1 << 40)):
            with self.assertRaisesRegex(IndexError, f"^vertex {vertex} has no neighbour at place {place}$"):
                version.neighbour(vertex, place)
        for ask, name in ((version.degree, "vertex"), (version.neighbours, "vertex"), (lambda one: version.neighbour(one, 0), "vertex"),
                          (lambda one: version.has_edge(one, 0), "source"), (lambda one: version.has_edge(0, one), "target")):
            for wrong in (-1, 900, 1 << 32, 1 << 70):
                with self.assertRaisesRegex(edgebpf.VertexRange, f"^{name} {wrong} is not below 900$"):
                    ask(wrong)
            for wrong in ("1", 1.0, None, [1], b"1"):
                with self.assertRaisesRegex(TypeError, f"^{name} is a whole number, not {type(wrong).__name__}$"):
                    ask(wrong)
        with self.assertRaisesRegex(TypeError, "^place is a whole number, not float$"):
            version.neighbour(0, 0.0)
        for wrong, error in (([900], edgebpf.VertexRange), ([-1], edgebpf.VertexRange), ([0.5], TypeError), ([[0]], TypeError), (["0"], TypeError), ([[0], [1, 2]], TypeError), (0, TypeError), ([True], TypeError)):
            for ask in (version.degrees, version.lists, lambda one: version.run(edgebpf.assemble(TARGET), "sum", one)):
                with self.assertRaisesRegex(error, "frontier"):
                    ask(wrong)
        version.close()
        for ask in (lambda: version.degree(0), lambda: version.degrees([0]), version.degrees, lambda: version.lists([0]), lambda: version.has_edge(0, 1), lambda: version.neighbour(0, 0), version.share):
            with self.assertRaises(edgebpf.Closed):
                ask()

    def test_lists(self):
        """The lists of a frontier are those of its vertices, in any order, as often as they stand there, and without any."""
        store, edges = self.store(2_000), {(source, source * 7 * place % 2_000) for source in range(0, 2_000, 3) for place in range(source % 40)}
        edges |= {(1, target) for target in range(0, 2_000, 2)}
        store.batch("A", edges=sorted(edges))
        store.batch("B", edges=[(5, 5)])
        store.batch("C", removes=([5], [5]))
        version, rows = store.pin(), {}
        for source, target in sorted(edges):
            rows.setdefault(source, []).append(target)
        for frontier in ([], [2], [1], [1_999, 0, 1, 1, 39, 4, 1_998], np.arange(2_000)[::-1], np.arange(2_000, dtype=">i8"), range(0, 2_000, 5)):
            starts, targets = version.lists(frontier)
            lists = [rows.get(vertex, []) for vertex in np.asarray(frontier, int).tolist()]
            self.assertEqual((starts.dtype, targets.dtype), (np.int64, np.uint32))
            self.assertEqual(starts.tolist(), [sum(map(len, lists[:place])) for place in range(len(lists) + 1)])
            self.assertEqual(targets.tolist(), [target for one in lists for target in one])
            self.assertEqual(version.degrees(frontier).tolist(), list(map(len, lists)))
        starts, targets = version.lists(range(2_000))
        self.assertTrue((starts == version.csr()[0]).all() and (targets == version.csr()[1]).all())
        # What is given and what comes are apart: a frontier may be read-only, and a view of what came before.
        frozen = np.array([3, 1, 3], np.uint32)
        frozen.flags.writeable = False
        self.assertEqual(version.lists(frozen)[0].tolist(), version.lists(frozen.tolist())[0].tolist())
        targets[:] = 9
        starts[:] = 9
        again = version.lists(targets[:4])
        self.assertEqual((version.degrees(starts[:4]).tolist(), again[1].tolist()), ([len(rows[9])] * 4, rows[9] * 4))
        self.assertEqual(version.csr()[1][:3].tolist(), rows[min(rows)][:3] if 0 in rows else rows[1][:3])
        with self.assertRaisesRegex(TypeError, "^frontier is an array of vertices; the lists of all are csr\\(\\)$"):
            version.lists(None)

    def test_shares(self):
        """A share of a version stays when the other one is closed, and one of a program when the other one is gone."""
        store = self.store(4)
        store.batch("A", ([0, 1], [3, 2]))
        version, target = store.pin(), edgebpf.assemble(TARGET)
        other, again = version.share(), target.share()
        self.assertEqual((again.bound, again.frames, again.record, again.text), (2, 1, 16, TARGET))
        self.assertEqual((other.epoch, other.number, other.vertices, other.edges), (0, 1, 4, 2))
        version.close()
        del target
        store.batch("A", ([2], [2]))
        self.assertEqual((other.run(again).total, other.neighbours(1).tolist(), other.share().edges), (5, [2], 2))
        other.close()
        with self.assertRaises(edgebpf.Closed):
            other.run(again)
        # A process has a program once, however often it is shared.
        last = store.pin()
        self.assertEqual({last.run(again.share()).total for _ in range(300)}, {7})

    def test_shown(self):
        store = self.store(4)
        store.batch("A", ([0, 1], [3, 2]))
        store.rebase()
        version = store.pin()
        self.assertEqual((repr(version), len(version)), ("<edgebpf.Version: epoch 1, number 0, 4 vertices, 2 edges>", 4))
        version.close()
        self.assertEqual(repr(version), "<edgebpf.Version: epoch 1, number 0, 4 vertices, 2 edges, closed>")
        self.assertEqual(repr(edgebpf.assemble(TARGET)), "<edgebpf.Program: records of 16 bytes, a table of 0, bound 2, frames 1>")

    def test_what_is_not_pickled(self):
        """The words say what it is, and a copy is over the same."""
        store, words = self.store(4), "^a {} is not pickled: it belongs to this process"
        pid = store._process.child.pid
        self.assertEqual(repr(store), f"<edgebpf.Store: 4 vertices, in process {pid}>")
        for kept, what in ((store, "store"), (store.pin(), "version")):
            for call in (pickle.dumps, copy.deepcopy):
                with self.assertRaisesRegex(TypeError, words.format(what)):
                    call(kept)
        self.assertEqual(store.batch(edges=[(0, 1)]).version, 1)
        self.assertEqual((copy.copy(store.pin()).edges, store.pin().share().edges), (1, 1))
        store.close()
        self.assertEqual(repr(store), f"<edgebpf.Store: 4 vertices, in process {pid}, closed>")

    def test_wrong_arguments(self):
        """What has the wrong type is named, and the graph stays as it was."""
        store, target = self.store(4), edgebpf.assemble(TARGET)
        version = store.pin()
        for words, call in (
            ("code is bytes", lambda: edgebpf.Program(8)), ("code is bytes", lambda: edgebpf.Program("95")), ("table is bytes", lambda: edgebpf.Program(bytes(8), 16, 7)),
            ("record is a whole number", lambda: edgebpf.Program(bytes(8), "16")), ("record is a whole number", lambda: edgebpf.assemble(TARGET, 16.0)),
            ("argument is bytes", lambda: version.run(target, argument=1)), ("argument is bytes", lambda: version.numbers(target, "")),
            ("a program is made by", lambda: version.run(TARGET)), ("a program is made by", lambda: version.numbers(None)),
            ("vertices is a whole number", lambda: self.store("4")), ("sources are an array", lambda: store.batch("A", ([0.5], [1]))),
            ("targets are an array", lambda: store.batch("A", ([0], ["1"]))), ("targets are no array", lambda: store.batch("A", ([0], [[0], [1, 2]]))),
            ("text is a str", lambda: edgebpf.assemble(7)), ("text is a str", lambda: edgebpf.assemble(None)),
            ("table is bytes", lambda: edgebpf.assemble(TARGET, table=np.array([store, None]))), ("table is bytes", lambda: edgebpf.Program(bytes(8), 16, np.array(["2026"], "M8[Y]"))),
        ):
            with self.assertRaisesRegex(TypeError, f"^{words}"):
                call()
        for words, call in (
            ("a reduction is", lambda: version.run(target, ["sum"])), ("a reduction is", lambda: version.run(target, 0)), ("a feed is", lambda: store.batch(["A"])),
            ("a feed is", lambda: store.batch(0)), ("inserts are", lambda: store.batch("A", 5)), ("inserts are", lambda: store.batch("A", np.array(5))),
            ("removes are", lambda: store.batch("A", removes=None)),
        ):
            with self.assertRaisesRegex(ValueError, f"^{words}"):
                call()
        self.assertEqual(store.batch("A"), edgebpf.Counts(1, 0, 0))

    def test_edits_in_their_order(self):
        """Of two edits of one edge the later one decides, as in a script; each random batch leaves what a set has after it."""
        store = self.store(4)
        self.assertEqual(store.apply([0, 0, 0], [1, 1, 1], [0, 1, 0]), edgebpf.Counts(1, 1, 0))
        self.assertEqual(store.apply(edges=[(0, 1), (2, 3), (2, 3)], removes=[False, False, True], feed="D"), edgebpf.Counts(2, 0, 0))
        self.assertEqual(store.apply(removes=[True, True], edges=np.array([[0, 1], [3, 3]])), edgebpf.Counts(3, 0, 1))
        # A mark of 256 is no 0, and neither is -1.
        self.assertEqual(store.apply([1, 1], [2, 2], np.array([0, 256])), edgebpf.Counts(4, 0, 0))
        self.assertEqual(store.apply([1, 1], [2, 2], np.array([-1, 0], np.int8)), edgebpf.Counts(5, 1, 0))
        self.assertEqual(store.apply(), edgebpf.Counts(6, 0, 0))
        store, chance, edges = self.store(9), random.Random(5), set()
        for _ in range(60):
            edits = [(chance.randrange(9), chance.randrange(9), chance.random() < 0.5) for _ in range(chance.randrange(60))]
            for source, target, is_out in edits:
                (edges.discard if is_out else edges.add)((source, target))
            store.apply(edges=[edit[:2] for edit in edits], removes=[edit[2] for edit in edits])
            starts, targets = store.pin().csr()
            self.assertEqual(list(zip(np.repeat(np.arange(9), np.diff(starts)).tolist(), targets.tolist())), sorted(edges))

    def test_pairs(self):
        """A list of pairs and an (n, 2) array are taken by `edges`, and by nothing else, so that two edges are never read as two columns."""
        store = self.store(5)
        for number, edges in enumerate(([(0, 1), (2, 3)], [[0, 1], [2, 3]], ((0, 1), (2, 3)), np.array([[0, 1], [2, 3]], ">u2"), np.array([[1, 0], [3, 2]])[:, ::-1]), 1):
            if not isinstance(edges, np.ndarray):
                with self.assertRaisesRegex(ValueError, "^inserts are a pair of arrays, .* by edges=$"):
                    store.batch("A", edges)
                with self.assertRaisesRegex(ValueError, "^removes are a pair of arrays, .* by edges=$"):
                    store.batch("A", removes=edges)
            store.batch("A", edges=edges)
            self.assertEqual([store.pin().neighbours(vertex).tolist() for vertex in range(4)], [[1], [], [3], []])
            self.assertEqual(store.apply(edges=edges, removes=[1, 1]), edgebpf.Counts(2 * number, 0, 2))
        # Tuples are refused however long they are, so that a caller learns it from the first batch.
        for edges in ([(0, 1, 2), (1, 2, 3)], [(0,), (1,)], ((0, 1, 2), (1, 2, 3)), ([0, 1], (2, 3))):
            with self.assertRaisesRegex(ValueError, "by edges=$"):
                store.batch("A", edges)
        # Columns: a pair of lists, two lists that are no pairs, and the two rows of an array.
        for edges in (([0, 1], [2, 3]), [[0, 1, 1], [2, 3, 3]], np.array([(0, 2), (1, 3)]).T, np.array([(0, 2), (1, 3), (1, 3)]).T):
            self.assertEqual(store.batch("A", edges).added, 2)
            self.assertEqual(store.batch("A", removes=edges).removed, 2)
        with self.assertRaisesRegex(ValueError, "there is edges=$"):
            store.batch("A", np.array([(0, 2), (1, 3), (1, 3)]))
        # Where pairs are wanted, two columns in a tuple are refused however long they are, so that two of two are never read as two edges.
        for edges in (([0, 1], [2, 3]), (np.array([0, 1]), np.array([2, 3])), ([0, 1, 1], [2, 3, 4]), ([], [])):
            for call in (store.apply, store.batch):
                with self.assertRaisesRegex(ValueError, "^edges are a list of pairs, and these may be sources and targets"):
                    call(edges=edges)
        counts = store.batch("A", ([0, 1], [2, 3]), ([4], [4]), edges=[(4, 4), (4, 0)])
        self.assertEqual((counts.added, counts.removed, store.pin().neighbours(4).tolist()), (3, 0, [0]))
        for edges in ([], (), np.empty((0, 2), int), np.empty((0, 2))):
            self.assertEqual(store.apply(edges=edges).added, 0)

    def test_wrong_edits(self):
        """Each is named, and then nothing was published."""
        store = self.store(4)
        for words, error, given in (
            ("edges are an .n, 2. array", TypeError, {"edges": [(0, 1, 2)]}), ("edges are an .n, 2. array", TypeError, {"edges": [0, 1]}),
            ("edges are an .n, 2. array", TypeError, {"edges": [(0.5, 1)]}), ("edges are an .n, 2. array", TypeError, {"edges": 7}),
            ("edges are an .n, 2. array", TypeError, {"edges": iter([(0, 1)])}), ("edges are an .n, 2. array", TypeError, {"edges": np.empty((2, 0))}),
            ("edges are an .n, 2. array", TypeError, {"edges": [(True, False)]}), ("edges are no array", TypeError, {"edges": [(0, 1), (2,)]}),
            ("a vertex of edges is", edgebpf.VertexRange, {"edges": [(0, 4)]}), ("a vertex of edges is", edgebpf.VertexRange, {"edges": [(-1, 0)]}),
            ("edits are either", ValueError, {"sources": [0], "targets": [1], "edges": [(0, 1)]}), ("there are 1 sources and 2 targets", ValueError, {"sources": [0], "targets": [1, 2]}),
            ("sources are an array", TypeError, {"sources": ["0"], "targets": [1]}), ("a vertex of targets is", edgebpf.VertexRange, {"sources": [0], "targets": [4]}),
            ("removes are an array", TypeError, {"sources": [0], "targets": [1], "removes": ["yes"]}), ("removes are an array", TypeError, {"edges": [(0, 1)], "removes": True}),
            ("removes are an array", TypeError, {"edges": [(0, 1)], "removes": [0.0]}), ("there are 2 removes and 1 edits", ValueError, {"edges": [(0, 1)], "removes": [0, 1]}),
            ("there are 0 removes and 1 edits", ValueError, {"edges": [(0, 1)], "removes": []}), ("a feed is", ValueError, {"edges": [(0, 1)], "feed": "E"}),
            ("65537 edits", edgebpf.TooManyEdits, {"edges": np.zeros((65_537, 2), int)}),
        ):
            with self.subTest(given=given), self.assertRaisesRegex(error, f"^{words}"):
                store.apply(**given)
        frozen = np.array([[0, 1]])
        frozen.flags.writeable = False
        self.assertEqual(store.apply(edges=frozen), edgebpf.Counts(1, 1, 0))
        store.close()
        with self.assertRaises(edgebpf.Closed):
            store.apply(edges=[(0, 1)])

    def test_release(self):
        """The package, its wheel and the program have one number."""
        found = [re.search(r'^version = "(.*)"', (FOLDER / "pyproject.toml").read_text(), re.M)[1]]
        found.append(re.search(r"^release: (.*)", (TOP / "dist" / "PROVED").read_text(), re.M)[1])
        self.assertEqual(found, [edgebpf.__version__] * 2)

    def test_arguments(self):
        store = self.store(3)
        store.batch("A", ([0, 1], [1, 2]))
        scaled = edgebpf.assemble("ldxw r0, [r1+4]\nldxb r2, [r1+16]\nmul r0, r2\nexit", record=17)
        self.assertEqual(store.pin().run(scaled, argument=b"\x05").values.tolist(), [5, 10, 0])
        with self.assertRaises(edgebpf.ArgumentLength):
            store.pin().run(scaled)
        with self.assertRaisesRegex(ValueError, "^a reduction is sum, min or max$"):
            store.pin().run(scaled, "product", argument=b"\x05")
        # An array counts by its bytes.
        word = edgebpf.assemble("ldxdw r0, [r1+16]\nexit", record=24)
        self.assertEqual(store.pin().run(word, argument=np.array([1 << 40], np.uint64)).total, 1 << 41)
        with self.assertRaises(edgebpf.ArgumentLength):
            store.pin().run(scaled, argument=np.array([5], np.uint16))
        with self.assertRaises(TypeError):
            store.pin().run(scaled, argument=1)
        # The first and the last byte of the longest argument, and the place, which is not the target.
        text = "ldxb r0, [r1+16]\nlsh r0, 8\nldxb r2, [r1+255]\nor r0, r2\nldxw r2, [r1+8]\nlsh r2, 16\nor r0, r2\nexit"
        ends, argument = edgebpf.assemble(text, record=256), bytes(range(1, 241))
        store.batch("A", ([0], [2]))
        version = store.pin()
        self.assertEqual(version.numbers(ends, argument).tolist(), [1 << 8 | 240, 1 << 16 | 1 << 8 | 240, 1 << 8 | 240])
        self.assertEqual(version.run(ends, argument=argument).values.tolist(), [1 << 16 | 992, 496, 0])

    def test_explained(self):
        """The states of an accepted program and of a refused one, worked out by hand."""
        text = edgebpf.explain("ldxw r0, [r1+4]\nexit")
        self.assertEqual(text.splitlines()[1:], [
            "0: ldxw r0, [r1+4]", "    r1 record+0  r2 16  r10 stack[0]+0", "1: exit", "    r0 0 to 4294967295  r1 record+0  r2 16  r10 stack[0]+0",
            "accepted, bound 2, frames 1"])
        self.assertEqual(edgebpf.explain(edgebpf.assemble("ldxw r0, [r1+4]\nexit").assembled()), text)
        told = edgebpf.explain(["ldxw r0, [r3+8]", "exit"], 24, bytes(11))
        self.assertIn("    r1 record+0  r2 24  r3 table+0  r10 stack[0]+0\n", told)
        self.assertIn("refused at 0: ldxw r0, [r3+8]\nrule 11: ", told)
        # It is longer than what is asked for first.
        long = edgebpf.explain("mov r0, 1\n" * 4095 + "exit")
        self.assertEqual((len(long) > 65_536, long.splitlines()[-1]), (True, "accepted, bound 4096, frames 1"))
        for wrong, words in (((b"",), "code has"), ((b"\x95",), "code has"), (("exit", 15), "16 to 256"), (("exit", 16, bytes(4097)), "4,096 bytes")):
            with self.assertRaisesRegex(ValueError, words):
                edgebpf.explain(*wrong)
        with self.assertRaisesRegex(edgebpf.WrongText, "^line 2: no statement has this word$"):
            edgebpf.explain("mov r0, 1\nreturn r0")

    def test_refused(self):
        with self.assertRaises(edgebpf.Refused) as told:
            edgebpf.assemble("ldxw r0, [r1+13]\nexit")
        self.assertEqual((told.exception.cause, told.exception.unit), (11, 0))
        self.assertIn("rule 11", told.exception.explain())
        with self.assertRaises(edgebpf.Refused) as told:
            edgebpf.assemble("mov r2, 1\nldxw r0, [r1+21]\nexit", record=24)
        self.assertEqual((told.exception.cause, told.exception.unit), (11, 1))
        self.assertEqual(str(told.exception), f"refused, cause 11 at unit 1: {edgebpf.errors.CAUSES[11]}")
        self.assertIn("records of 24 bytes", told.exception.explain())
        with self.assertRaises(edgebpf.Refused) as told:
            edgebpf.Program(bytes.fromhex("9500000000000000"))
        self.assertEqual(told.exception.cause, 8)
        self.assertIn("rule 8", told.exception.explain())
        with self.assertRaises(edgebpf.WrongText) as told:
            edgebpf.assemble("mov r0, 7\njmp x")
        self.assertEqual((told.exception.cause, told.exception.line), (2, 2))
        with self.assertRaisesRegex(edgebpf.WrongText, "^line 3: no statement has this word$"):
            edgebpf.assemble("mov r0, 7\nmov r1, 1\njmp x")
        self.assertEqual(edgebpf.assemble("; only a comment\nmov r0, 7 ; and more\nexit").bound, 2)
        for text in ("mov r0, 1\nend\nexit", "mov r0, 1 ; \xe9\nexit"):
            with self.assertRaises(ValueError):
                edgebpf.assemble(text)
        calls = edgebpf.assemble("calllocal f\nexit\nf:\nmov r0, 1\nexit")
        self.assertEqual((calls.bound, calls.frames), (4, 2))
        for code in (b"", bytes(7), bytes(8 * 4_097), bytes(8 * 70_000)):
            for table in (b"", b"\x07"):
                with self.assertRaisesRegex(ValueError, "code has 1 to 4,096"):
                    edgebpf.Program(code, table=table)
        for record in (15, 257):
            with self.assertRaises(ValueError):
                edgebpf.assemble(TARGET, record)

    def test_a_letter_that_is_not_ascii(self):
        for text in ("mov r0, 1\nexit ; na\u00efve", ["mov r0, 1", "; \u00ef", "exit"], "mov r0, 1\r\nma\u00efs r0\nexit \u4e2d"):
            for call in (edgebpf.assemble, edgebpf.explain):
                with self.assertRaisesRegex(ValueError, r"^line 2: a program's text is ASCII, also in comments, and '\\xef' is not$"):
                    call(text)

    def test_lines_of_a_text(self):
        """A line end separates and `;` begins a comment, as in a script; a statement that follows `;` is refused, and a remark is not."""
        texts = ("; the target\nldxw r0, [r1+4]   ; 4 bytes; exit r0 with it\nexit ; call of no helper", ["ldxw r0, [r1+4] ; and so on", "exit\n"])
        for text in (*texts, "ldxw r0, [r1+4]\r\nexit\r\n", tuple(texts[1])):
            self.assertEqual(edgebpf.assemble(text).bound, 2)
        words = ("exit", "call 2", "ja out", "mov r0, 9", "ldxw r0, [r1 + 4]", "stxdw [r10-8], r1", " and32 r0 , 0x0f ", "lddw r1, -1", "neg r0")
        for line, wrong in enumerate(words, 1):
            with self.assertRaisesRegex(edgebpf.WrongText, f"^line {line}: `;` begins a comment, .* on a line of its own$") as told:
                edgebpf.assemble("\n" * (line - 1) + f"mov r0, 7 ; a remark;{wrong}\nexit")
            self.assertEqual((told.exception.cause, told.exception.line), (0, line))
        for wrong, error in ((b"exit", TypeError), (["exit", 7], TypeError), (7, TypeError), (["mov r0, 1\nexit"], ValueError), ([], ValueError), ("", ValueError)):
            with self.assertRaises(error):
                edgebpf.assemble(wrong)

    def test_words_of_statements(self):
        """Each word of the table in docs/BPF.md is found after a `;`, and no other word is."""
        sys.path.insert(0, str(TOP / "tools" / "tests"))
        import documents

        forms = {"exit": "{}", "call": "{} 2", "ja": "{} x", "ja32": "{} x", "calllocal": "{} x"}
        found = lambda word: edgebpf.programs.STATEMENT.fullmatch(forms.get(word, "{} r1").format(word)) is not None
        words = documents.words()
        self.assertGreater(len(words), 80)
        self.assertEqual([word for word in sorted(words) if not found(word)], [])
        others = ("in", "of", "jmp", "exits", "call32", "ldxw32", "ldxsdw", "stxsb", "le8", "movsx64", "mov32sx32", "xand", "lddw32")
        self.assertEqual([word for word in others if found(word)], [])

    def test_tables(self):
        """Each edge has the word of the table at its target; what is read past the end, written or there without a table is refused."""
        words = np.array([40, 10, 20, 286], np.uint32)
        code = bytes.fromhex("6112040000000000570200000300000067020000020000000f2300000000000061300000000000009500000000000000")
        store = self.store(4)
        store.batch("A", ([0, 0, 2], [1, 3, 0]))
        version = store.pin()
        for table in (words, words.tobytes()):
            program = edgebpf.Program(code, table=table)
            self.assertEqual((program.bound, program.frames, program.table), (6, 1, words.tobytes()))
            self.assertEqual(version.numbers(program).tolist(), [10, 286, 40])
            self.assertEqual(version.run(program, "max").values.tolist(), [286, 0, 40, 0])
        with self.assertRaises(edgebpf.Refused) as refused:
            edgebpf.Program(code, table=words.tobytes()[:15])
        self.assertEqual((refused.exception.cause, refused.exception.unit), (11, 4))
        self.assertIn("known of r3: table+0 to 12", refused.exception.explain())
        with self.assertRaises(edgebpf.Refused) as refused:
            edgebpf.Program(code)
        self.assertEqual((refused.exception.cause, refused.exception.unit), (8, 3))
        write = bytes.fromhex("62030000000000009500000000000000")
        with self.assertRaises(edgebpf.Refused) as refused:
            edgebpf.Program(write, table=bytes(4))
        self.assertEqual((refused.exception.cause, refused.exception.unit), (17, 0))
        last = bytes.fromhex("7130ff0f000000009500000000000000")
        self.assertEqual(version.run(edgebpf.Program(last, table=bytes(4_095) + b"\x07")).total, 21)
        for wrong in (bytes(4_097), "00"):
            with self.assertRaises((ValueError, TypeError)):
                edgebpf.Program(last, table=wrong)
        if edgebpf.library.path() is None:
            with self.assertRaisesRegex(edgebpf.Error, "pass the code"):
                edgebpf.assemble("ldxb r0, [r3+0]\nexit", table=b"\x09")
        else:
            byte = edgebpf.assemble("ldxb r0, [r3+0]\nexit", table=b"\x09")
            self.assertEqual(version.run(byte).total, 27)

    def test_numbers_of_errors(self):
        """Each cause and each error of a text has words, and the library's statuses are those of the header."""
        self.assertEqual((sorted(edgebpf.errors.CAUSES), sorted(edgebpf.errors.TEXT_ERRORS)), (list(range(1, 19)), list(range(7))))
        words = ["instruction", "out of its", "back", "call", "exit", "eight", "may run", "unset", "r10", "only a number", "outside", "stack byte", "argument"]
        words += ["helper", "in r0", "memory", "table", "verified"]
        for number, word in enumerate(words, 1):
            self.assertIn(word, edgebpf.errors.CAUSES[number])
        for number, word in enumerate(["no label", "has this word", "earlier", "no line", "number", "4,096"], 1):
            self.assertIn(word, edgebpf.errors.TEXT_ERRORS[number])
        raised = {1: edgebpf.NoMemory, 2: edgebpf.Closed, 5: edgebpf.VertexRange, 6: edgebpf.TooManyEdits, 7: edgebpf.LogFull, 13: edgebpf.ArgumentLength}
        for status, error in (raised | {17: edgebpf.EpochsFull, 99: edgebpf.Error}).items():
            with self.assertRaises(error) as told:
                edgebpf.library.check(status)
            self.assertIs(type(told.exception), error)
        for status, word in ((11, "record"), (12, "units")):
            with self.assertRaisesRegex(ValueError, word):
                edgebpf.library.check(status)
        statuses = re.findall(r"^    EDGEBPF_(\w+) = (\d+)", (TOP / "bindings/c/edgebpf.h").read_text(), re.M)
        named = {name: int(number) for name, number in statuses if hasattr(edgebpf.library, name)}
        self.assertEqual({name: getattr(edgebpf.library, name) for name in named}, named)
        self.assertGreater(len(named), 10)

    def test_long_texts(self):
        """A text may have lines that a script must not have, and the process of a store goes on."""
        longest = edgebpf.assemble("mov r0, 7\n" * 4_095 + "exit")
        self.assertEqual((longest.bound, edgebpf.Program(bytes.fromhex("b700000007000000" * 4_095 + "9500000000000000")).bound), (4_096, 4_096))
        store = self.store(4)
        store.batch("A", inserts=([0], [3]))
        for before in (" " * 80_001 + "\n", "\n" * 65_537):
            self.assertEqual(store.pin().run(edgebpf.assemble(before + TARGET)).total, 3)

    def test_first_runs_at_once(self):
        """Two threads that are the first to run a program load it once: at more than 256 programs a process ends."""
        store = self.store(4)
        store.batch("A", inserts=([0], [3]))
        with concurrent.futures.ThreadPoolExecutor(2) as pool:
            for number in range(256):
                program = edgebpf.assemble(f"mov r0, {number}\nexit")
                totals = [each.result().total for each in [pool.submit(store.pin().run, program) for _ in range(2)]]
                self.assertEqual(totals, [number, number])
        with self.assertRaises(edgebpf.TooManyNames):
            store.pin().run(edgebpf.assemble(TARGET))
        self.assertEqual(store.batch("A", inserts=([1], [2])).version, 2)

    def test_without_the_library(self):
        """A program is verified by a process, with the same answers."""
        with unittest.mock.patch("edgebpf.library.path", return_value=None):
            for program in (edgebpf.assemble(TARGET), edgebpf.Program(bytes.fromhex("61100400000000009500000000000000"))):
                self.assertEqual((program.bound, program.frames), (2, 1))
            self.test_refused()
        with self.assertRaises(TypeError):
            self.store(1).pin().run(TARGET)

    def test_wrong_batches(self):
        """After each error nothing was published, and the store goes on."""
        store = self.store(4)
        outside = edgebpf.VertexRange
        for edges, error in ((([4], [0]), outside), (([0], [-1]), outside), (([0, 1], [0]), ValueError), (([0.5], [1]), TypeError), ((["a"], [1]), TypeError), (([1 << 32], [0]), outside), (([True], [False]), TypeError), (([[0]], [[1]]), TypeError), (np.array([[0, 1], [2, 3], [3, 0]]), ValueError)):
            with self.assertRaises(error):
                store.batch("A", edges)
        with self.assertRaises(edgebpf.TooManyEdits):
            store.batch("A", (np.zeros(65_537, int), np.zeros(65_537, int)))
        with self.assertRaises(ValueError):
            store.batch("E", ([0], [1]))
        self.assertEqual(store.batch("B", (np.zeros(65_536, np.uint8), np.zeros(65_536, np.int64))), edgebpf.Counts(1, 1, 0))
        version = store.pin()
        for frontier in ([1, 0], [0, 0]) if isinstance(store, edgebpf.store.Store) else ():
            with self.assertRaises(ValueError):
                version.run(edgebpf.assemble(TARGET), "sum", frontier)
        with self.assertRaises(edgebpf.VertexRange):
            version.run(edgebpf.assemble(TARGET), "sum", [4])
        for vertex in (-1, 4):
            with self.assertRaises(edgebpf.VertexRange):
                version.neighbours(vertex)

    def test_rebase(self):
        """Numbers begin again, the graph stays as it is, and so does a version from before."""
        store = self.store(4)
        store.pin(), store.rebase()
        self.assertEqual((store.pin().epoch, store.pin().number), (1, 0))
        store, target = self.store(4), edgebpf.assemble(TARGET)
        store.batch("A", ([0, 0, 1], [1, 2, 2]))
        first = store.pin()
        self.assertEqual(store.rebase(), 1)
        based = store.pin()
        self.assertEqual(store.batch("D", removes=([0], [1])), edgebpf.Counts(1, 0, 1))
        last = store.pin()
        shapes = [(version.epoch, version.number, version.edges, version.run(target).total) for version in (first, based, last)]
        self.assertEqual(shapes, [(0, 1, 3, 5), (1, 0, 3, 5), (1, 1, 2, 4)])
        # A store of a process takes 1,024 rebases, and one in this process any number.
        is_served = isinstance(store, edgebpf.store.Store)
        for number in range(2, 1_025 if is_served else 10_001):
            self.assertEqual(store.rebase(), number)
        if is_served:
            with self.assertRaises(edgebpf.EpochsFull):
                store.rebase()
        self.assertEqual(store.batch("C", ([3], [3])), edgebpf.Counts(1, 1, 0))

    def test_limits(self):
        store = self.store(1)
        for number in range(4_096):
            self.assertEqual(store.batch("A").version, number + 1)
        with self.assertRaises(edgebpf.LogFull):
            store.batch("A")
        # Pins without a batch between them are of one version.
        self.assertEqual({store.pin().number for _ in range(300)}, {4_096})
        self.assertEqual((store.rebase(), store.batch("A").version), (1, 1))
        store = self.store(1)
        for number in range(256):
            self.assertEqual(store.pin().number, number)
            store.batch("B")
        with self.assertRaises(edgebpf.TooManyNames):
            store.pin()
        # After so many programs one more is refused, and the process goes on.
        store = self.store(1)
        version, programs = store.pin(), [edgebpf.assemble(f"mov r0, {number}\nexit") for number in range(257)]
        for program in programs[:256]:
            version.run(program)
        with self.assertRaises(edgebpf.TooManyNames):
            version.run(programs[256])
        self.assertEqual(version.run(programs[255]).total, 0)

    def test_closed(self):
        store = self.store(2)
        version = store.pin()
        version.csr()
        version.close()
        for ask in (version.csr, lambda: version.run(edgebpf.assemble(TARGET)), lambda: version.neighbours(0)):
            with self.assertRaises(edgebpf.Closed):
                ask()
        store.close()
        store.close()
        with self.assertRaises(edgebpf.Closed):
            store.batch("A", ([0], [1]))
        edgebpf.connect(4, 16).close()
        for vertices, workers in ((0, 1), (1 << 20 | 1, 1), (4, 0), (4, 17)):
            with self.assertRaises(ValueError):
                edgebpf.connect(vertices, workers)
        for vertices, workers in ((4.0, 1), (4, 1.0), ("4", 1)):
            with self.assertRaises(TypeError):
                edgebpf.connect(vertices, workers)

    def test_interrupted(self):
        """After a call that was interrupted no other call takes the rest of its answer."""
        store = self.store(2000)
        store.batch("A", (np.repeat(np.arange(2000), 30), np.arange(60_000) % 2000))
        version, long = store.pin(), edgebpf.assemble("mov r0, 0\n" + "add r0, 1\n" * 4000 + "exit")
        version.run(edgebpf.assemble(TARGET))

        def interrupt(*_):
            raise KeyboardInterrupt

        before = signal.signal(signal.SIGALRM, interrupt)
        try:
            signal.setitimer(signal.ITIMER_REAL, 0.1)
            with self.assertRaises(KeyboardInterrupt):
                for _ in range(1000):
                    version.run(long)
        finally:
            signal.signal(signal.SIGALRM, before)
        for ask in (lambda: version.run(edgebpf.assemble(TARGET)), lambda: store.batch("A"), store.rebase):
            with self.assertRaises(edgebpf.Closed):
                ask()

    def test_interrupted_after_an_answer(self):
        """An interrupt between the answer to a batch or a rebase and the end of the call leaves no version before it for the last one."""
        store = self.store(8)
        ask = store._process.ask

        def interrupted(*words):
            ask(*words)
            raise KeyboardInterrupt

        for number, change in enumerate((lambda: store.batch("A", ([0], [1])), lambda: store.batch("A", ([2], [3])), store.rebase), 1):
            store.pin()
            with unittest.mock.patch.object(store._process, "ask", interrupted), self.assertRaises(KeyboardInterrupt):
                change()
            self.assertEqual((store.pin().number, store.pin().edges), (number % 3, min(number, 2)))
        self.assertEqual((store.batch("B", ([4], [5])).version, store.pin().number, store.pin().edges), (1, 1, 3))

    def test_no_pin_of_a_process_that_has_ended(self):
        """Also if the version that was pinned last would be the one."""
        for end, words in ((lambda process: process.child.kill(), "^edgebpf has ended with status -9$"), (lambda process: process.close(), "^the store is closed$")):
            store = self.store(4)
            store.pin()
            end(store._process)
            while store._process.child.poll() is None:
                pass
            for _ in range(2):
                with self.assertRaisesRegex(edgebpf.Closed, words):
                    store.pin()

    def test_interrupted_at_a_terminal(self):
        """A Ctrl-C goes to the whole group of processes, and the store goes on nevertheless."""
        code = """
import os, signal, edgebpf
signal.signal(signal.SIGINT, signal.default_int_handler)
store = edgebpf.connect(4)
try:
    os.killpg(0, signal.SIGINT)
    signal.pause()
except KeyboardInterrupt:
    print(store.batch("A", ([0], [1])).added)
"""
        environment = {**os.environ, "PYTHONPATH": str(FOLDER)}
        run = subprocess.run([sys.executable, "-c", code], env=environment, capture_output=True, text=True, start_new_session=True)
        self.assertEqual((run.stdout, run.stderr, run.returncode), ("1\n", "", 0))

    def test_near_the_root(self):
        """In /edgebpf, which has no four folders above it, no checkout is around the package."""
        for name, known, place in (("library", "DIST", "/dist"), ("programs", "CHECKOUT", "/")):
            module = {"__name__": name, "__file__": f"/edgebpf/{name}.py"}
            exec(compile((FOLDER / "edgebpf" / f"{name}.py").read_text(), name, "exec"), module)
            self.assertEqual(str(module[known]), place)

    def test_ended(self):
        """A process that ends is an error with its words, and not a wait."""
        with tempfile.TemporaryDirectory() as folder:
            memory, closed = edgebpf.NoMemory, edgebpf.Closed
            for words, to, error in (("edgebpf: memory", "2", memory), ("edgebpf: worker", "2", memory), ("edgebpf: write", "2", closed), ("fault 3 line 2, and more", "1", closed)):
                ends = pathlib.Path(folder) / "ends"
                ends.write_text(f"#!/bin/sh\nread line; echo graph 4; read line; echo '{words}' >&{to}; exit 1\n")
                ends.chmod(0o755)
                store = edgebpf.connect(4, program=str(ends))
                with self.assertRaises(error) as told:
                    store.batch("A", ([0], [1]))
                self.assertEqual(str(told.exception), f"edgebpf has ended: {words}")

    def test_killed(self):
        """A process that is killed is an error with the signal, and without the line of a checkout that it was built now."""
        for number, name in ((9, "SIGKILL, which the system sends if memory is short"), (15, "SIGTERM"), (11, "SIGSEGV")):
            store = self.store(4)
            store._process.child.send_signal(number)
            with self.assertRaisesRegex(edgebpf.Closed, f"^edgebpf has ended by signal {number}, {name}$"):
                store.batch("A", ([0], [1]))
            with self.assertRaisesRegex(edgebpf.Closed, "^the store is closed$"):
                store.pin()
        with tempfile.TemporaryDirectory() as folder:
            ends = pathlib.Path(folder) / "ends"
            ends.write_text("#!/bin/sh\necho 'edgebpf: built from dist/, and so on' >&2\nread line; echo graph 4; read line; eval $END\n")
            ends.chmod(0o755)
            for end, said in (("kill -9 $$", "by signal 9, SIGKILL, which the system sends if memory is short"), ("exit 3", ": with status 3"), ("echo more >&2", ": more")):
                with unittest.mock.patch.dict(os.environ, END=end):
                    store = edgebpf.connect(4, program=str(ends))
                    with self.assertRaises(edgebpf.Closed) as told:
                        store.batch("A", ([0], [1]))
                self.assertEqual(str(told.exception).removeprefix("edgebpf has ended").strip(), said)

    def test_threads(self):
        """Two threads on one store: each answer is of one version, and numbers never go back."""
        store, target, wrong = self.store(8, workers=2), edgebpf.assemble(TARGET), []

        def reads():
            last = 0
            for _ in range(40):
                version = store.pin()
                total = version.run(target).total
                if version.number < last or version.edges != version.number or total != sum(range(version.number)):
                    wrong.append((version.number, version.edges, total))
                last = version.number

        readers = [threading.Thread(target=told, args=(reads, wrong)) for _ in range(2)]
        for reader in readers:
            reader.start()
        for number in range(8):
            store.batch("A", ([0], [number]))
        for reader in readers:
            reader.join()
        self.assertEqual(wrong, [])


def told(work, wrong):
    """What a thread raises is wrong, too: without this it would only end."""
    try:
        work()
    except Exception as error:
        wrong.append(repr(error))


def zip_ends(edges):
    return [source for source, _ in edges], [target for _, target in edges]


if __name__ == "__main__":
    unittest.main()

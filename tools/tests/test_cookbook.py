"""What stands in examples/cookbook/, which docs/COOKBOOK.md shows: the programs in C, the functions in Python and the scripts, on a small graph
with totals that were found by hand, and on random graphs beside plain sets."""
import importlib
import importlib.util
import os
import pathlib
import random
import re
import shutil
import subprocess
import sys
import tempfile
import unittest
import unittest.mock

from tools_here import MISSING, TOOLS, run_tool

TOP = TOOLS.parent
FOLDER = TOP / "examples" / "cookbook"
sys.path[:0] = [str(FOLDER), str(TOP / "bindings" / "python")]
PAGE = (TOP / "docs" / "COOKBOOK.md").read_text()
STORE = os.environ.get("EDGEBPF") or str(TOOLS / "tests" / "second_store.py")
EDGES = [(0, 1), (0, 2), (1, 2), (2, 3)]
BOTH = [pair for one, other in EDGES for pair in ((one, other), (other, one))]
TABLE = bytes(37 * place % 256 for place in range(240))
# The total of each program of an edge on the small graph, and what it needs: the length of its record, its argument, its reduction. The weights
# are twice that of 0 and of 1, thrice that of 2, and that of 3: 0, 37, 74 and 111.
PROGRAMS = {
    "mutual": (8, "16"), "common": (6, "16"), "triangles": (1, "16"), "upward": (4, "16"), "weight": (407, "16"), "bloom": (3, "16"),
    "distance": (1, "20", "--argument", "03000000", "--reduce", "min"),
}
MORE = re.findall(r"^\| `(\w+)`(?: with `([0-9a-f]+)`)? \| ([0-9]+) \| ([0-9]+) \|", PAGE, re.M)
# Lines of each script's output, in their order.
SCRIPTS = {
    "mutual": ["total 8", "row 0 2", "row 1 2", "row 2 3", "row 3 1"],
    "common": ["total 6", "row 0 2", "row 1 2", "row 2 2", "row 3 0", "edge 0 1 1", "edge 2 3 0"],
    "triangles": ["total 1", "row 0 1"],
    "bfs": ["total 1", "row 0 2", "row 1 2", "row 2 1", "row 3 2", "total 1", "row 0 2", "row 1 1", "row 2 1", "row 3 2"],
    "weight": ["total 407", "row 0 111", "row 1 74", "row 2 148", "row 3 74"],
    "bloom": ["total 3", "row 0 1", "row 1 0", "row 2 2", "row 3 0"],
    "live": ["total 2", "row 0 1", "row 1 1", "total 2", "row 0 1", "row 1 1", "total 1", "row 2 1", "row 3 0"],
    "snapshots": ["total 8", "row 0 2", "row 1 2", "row 2 3", "row 3 1", "total 6", "row 0 1", "row 1 1", "row 2 3", "row 3 1"],
    "top": ["total 8", "row 0 2", "row 1 2", "row 2 3", "row 3 1"],
    "parts": ["total 3", "row 0 2", "row 1 1", "total 1", "row 2 1", "row 3 0"],
}


def lines(edges, sign=""):
    return "".join(f"{sign}{source} {target}\n" for source, target in edges)


def load(name):
    """A module of the folder. Its name may be that of another one."""
    return importlib.import_module(name)


def columns(edges):
    import numpy

    return numpy.array(edges).T


class Graph:
    """What plain sets say of a graph."""

    def __init__(self, edges):
        self.edges, self.out = sorted(set(edges)), {}
        for source, target in self.edges:
            self.out.setdefault(source, set()).add(target)

    def mutual(self):
        rows = {source: sum(source in self.out.get(target, ()) for target in there) for source, there in self.out.items()}
        return sum(rows.values()), rows

    def common(self):
        return [len(self.out[source] & self.out.get(target, set())) for source, target in self.edges]

    def triangles(self):
        return sum(len({word for word in self.out[one] & self.out.get(other, set()) if word > other}) for one, other in self.edges if one < other)

    def distances(self, root, vertices):
        found, frontier, steps = {root: 0}, {root}, 0
        while frontier:
            steps += 1
            frontier = {target for vertex in frontier for target in self.out.get(vertex, ())} - found.keys()
            found.update(dict.fromkeys(frontier, steps))
        return [found.get(vertex, -1) for vertex in range(vertices)]


class Scripts(unittest.TestCase):
    def test_each_gives_what_was_found_by_hand(self):
        self.assertEqual(sorted(path.stem for path in FOLDER.glob("*.script")), sorted(SCRIPTS))
        for name, wanted in SCRIPTS.items():
            run = subprocess.run([STORE], input=(FOLDER / f"{name}.script").read_text(), capture_output=True, text=True)
            self.assertEqual((run.returncode, run.stdout), (0, (FOLDER / f"{name}.output").read_text()), name)
            left = iter(run.stdout.splitlines())
            for said in wanted:
                self.assertTrue(any(line.endswith(said) for line in left), f"{name}: {said}")


@unittest.skipIf(MISSING, f"not there: {MISSING}")
class Programs(unittest.TestCase):
    def test_totals_on_the_small_graph(self):
        asked = {name: (found[0], found[1:]) for name, found in PROGRAMS.items()}
        asked |= {name: (int(total), (length, *(["--argument", argument] if argument else []))) for name, argument, length, total in MORE}
        sources = {name: path for path in FOLDER.glob("*.c") for name in re.findall(r"^u64 (\w+)\(struct edge", path.read_text(), re.M)}
        self.assertEqual(sorted(sources), sorted([*asked, "short_bloom"]))
        with tempfile.TemporaryDirectory() as made, unittest.mock.patch.dict(os.environ, {"EDGEBPF": STORE}):
            graph, table = pathlib.Path(made) / "graph.script", pathlib.Path(made) / "table"
            graph.write_text("graph 4\nbatch A\n" + lines(BOTH, "+ ") + "end\n")
            for name, (total, words) in asked.items():
                if name in ("weight", "bloom"):
                    table.write_bytes(TABLE if name == "weight" else load("bloom").bloom_filter([1, 3], 32_768))
                    words = (*words, "--table", str(table))
                run = run_tool("edgebpf-c", str(sources[name]), name, *words, "--on", str(graph))
                self.assertIn(f"run {name} last edges 8 total {total}\n", run.stdout, run.stderr)


@unittest.skipUnless(shutil.which("cc") and shutil.which("make"), "not there: cc, make")
class ProgramsOverTheLibrary(unittest.TestCase):
    @classmethod
    def setUpClass(cls):
        made = tempfile.TemporaryDirectory()
        cls.addClassCleanup(made.cleanup)
        cls.folder = pathlib.Path(made.name)
        library = cls.folder / "libedgebpf.a"
        subprocess.run(["make", "-s", "-C", TOP / "dist", f"BUILD={cls.folder}", library], check=True)
        for name in ("bfs", "live", "snapshots", "top"):
            words = ["cc", "-std=c11", "-O2", "-Wall", "-Wextra", "-Werror", f"-I{TOP}/bindings/c", "-o", cls.folder / name, FOLDER / f"{name}.c", library]
            subprocess.run(words, check=True)

    def said(self, name, *words, edges):
        run = subprocess.run([self.folder / name, *words], input=lines(edges), capture_output=True, text=True)
        self.assertEqual(run.returncode, 0, run.stderr)
        return run.stdout.splitlines()

    def before(self, edges):
        (self.folder / "before").write_text(lines(edges))
        return str(self.folder / "before")

    def test_on_the_small_graph(self):
        self.assertEqual(self.said("bfs", "4", edges=BOTH), ["4 vertices, the last at distance 2"])
        self.assertEqual(self.said("top", "4", "2", edges=BOTH), ["2 3", "0 2"])
        self.assertEqual(self.said("live", "4", "2", edges=[(0, 1), (1, 0), (0, 2), (1, 2), (2, 0), (3, 2)]), ["2", "2", "1"])
        # The edges 0-1 and 3-2 get their opposites.
        self.assertEqual(self.said("snapshots", "4", self.before([(0, 1), (0, 2), (3, 2)]), edges=[(1, 0), (2, 3)]), ["0", "1", "2", "3"])

    def test_what_is_no_edge(self):
        """It is told, and nothing is counted that stands before it alone."""
        for text in ("# a comment\n0 1\n", "0 1\n1,2\n", "0 1 5\n1 2 7\n"):
            run = subprocess.run([self.folder / "bfs", "4"], input=text, capture_output=True, text=True)
            self.assertEqual((run.stdout, run.returncode), ("", 1))
            self.assertRegex(run.stderr, "^no edge: ")
        run = subprocess.run([self.folder / "snapshots", "4", "nosuch"], input="", capture_output=True, text=True)
        self.assertEqual((run.stderr, run.returncode), ("edges: No such file or directory\n", 1))

    def test_numbers_that_are_too_great(self):
        self.assertEqual(self.said("top", "4", "10", edges=BOTH), ["2 3", "0 2", "1 2", "3 1"])
        run = subprocess.run([self.folder / "live", "4", "65537"], input="0 1\n", capture_output=True, text=True)
        self.assertEqual((run.stdout, run.returncode), ("", 1))

    def test_on_a_random_graph(self):
        chance = random.Random(5)
        edges = [(chance.randrange(90), chance.randrange(90)) for _ in range(700)]
        graph, older = Graph(edges), Graph(edges[:600])
        distances = graph.distances(0, 90)
        found = [one for one in distances if one >= 0]
        self.assertEqual(self.said("bfs", "90", edges=edges), [f"{len(found)} vertices, the last at distance {max(found)}"])
        rows = sorted(graph.mutual()[1].items(), key=lambda row: (-row[1], row[0]))
        self.assertEqual(self.said("top", "90", "5", edges=edges), [f"{vertex} {many}" for vertex, many in rows[:5]])
        old, new = older.mutual()[1], graph.mutual()[1]
        changed = [str(vertex) for vertex in range(90) if old.get(vertex, 0) != new.get(vertex, 0)]
        self.assertEqual(self.said("snapshots", "90", self.before(edges[:600]), edges=edges[600:]), changed)


class FunctionsInPython(unittest.TestCase):
    def setUp(self):
        try:
            import edgebpf
            import numpy  # noqa: F401
            from edgebpf import library
        except ImportError as error:
            self.skipTest(f"not there: {error.name}")
        if not library.path():
            self.skipTest("not there: libedgebpf.so, or a C compiler that builds it")
        self.edgebpf = edgebpf

    def version(self, edges, vertices):
        store = self.edgebpf.Store(vertices)
        self.addCleanup(store.close)
        store.batch("A", inserts=columns(edges))
        return store, store.pin()

    def test_on_the_small_graph(self):
        store, version = self.version(BOTH, 4)
        self.assertEqual(load("mutual").mutual(version), 8)
        self.assertEqual(load("bfs").distances(version, 3).tolist(), [2, 2, 1, 0])
        self.assertEqual(load("weight").weight(version, TABLE), 407)
        self.assertEqual(load("top").top(version, 2), [(2, 3), (0, 2)])
        store.batch("B", removes=([0], [1]))
        self.assertEqual(load("snapshots").changed(version, store.pin()).tolist(), [0, 1])
        empty = self.edgebpf.Store(4)
        self.addCleanup(empty.close)
        batches = [columns(edges) for edges in ([(0, 1), (1, 0)], [(0, 2), (1, 2)], [(2, 0), (3, 2)])]
        self.assertEqual(list(load("live").follow(empty, batches)), [2, 2, 1])

    @unittest.skipIf(MISSING, f"not there: {MISSING}")
    def test_programs_in_c(self):
        version = self.version(BOTH, 4)[1]
        self.assertEqual(load("common").common(version).tolist(), [1, 1, 1, 1, 1, 1, 0, 0])
        self.assertEqual(load("triangles").triangles(version), 1)
        self.assertEqual(load("bloom").listed(version, [1, 3]), 3)

    def test_columns(self):
        ends = [(0, 1), (0, 2), (1, 2), (2, 3), (3, 4), (5, 6)]
        version = self.version(ends + [(target, source) for source, target in ends], 8)[1]
        np = load("rounds").np
        risk, land = (np.array(column, np.uint64) for column in ([3, 9, 4, 7, 1, 8, 2, 6], [1, 1, 2, 2, 1, 1, 3, 3]))
        self.assertEqual(load("scores").scores(version, risk, land, 4, range(8)).tolist(), [9, 8, 18, 4, 14, 0, 16, 0])
        # As docs/ALGORITHMS.md has them, of the same formula by hand in one round.
        first = [132571323869, 132571323869, 210453397502, 190982879095, 93630287052, 152041842278, 152041842278, 35218731827]
        self.assertEqual(load("rounds").ranks(version, 1).tolist(), first)
        self.assertEqual(load("rounds").components(version).tolist(), [0, 0, 0, 0, 0, 5, 5, 7])
        pushes = load("pushes")
        self.assertEqual(pushes.hops(version, 0).tolist(), [0, 1, 1, 2, 3, *[pushes.NONE] * 3])
        self.assertEqual(pushes.components(version).tolist(), [0, 0, 0, 0, 0, 5, 5, 7])
        self.assertEqual(pushes.cores(version).tolist(), [2, 2, 2, 1, 1, 1, 1, 0])
        for seed, wanted in ((0, [0, 3, 5, 7]), (1, [2, 4, 5, 7])):
            self.assertEqual(pushes.independent(version, seed).nonzero()[0].tolist(), wanted)
        self.assertEqual(load("rounds").levels(version, 4).tolist(), [3, 3, 2, 1, 0, -1, -1, -1])

    def test_algorithms(self):
        ends = [(0, 1), (0, 2), (1, 2), (2, 3), (3, 4), (5, 6)]
        store, version = self.version(ends + [(target, source) for source, target in ends], 8)
        ready = load("ready")
        self.assertEqual(ready.leaders(version, 3), [2, 3, 0])
        self.assertEqual(ready.suggestions(version, [0, 4, 7], 2), {0: [3], 4: [2], 7: []})
        batches = [columns([(5, 7), (7, 5)]), columns([(4, 6), (6, 4)])]
        self.assertEqual(list(ready.joined(store, batches, 0, 7)), [False, True])
        if importlib.util.find_spec("igraph"):
            found = ready.communities(version)
            self.assertTrue(found[5] == found[6] != found[7] != found[0] == found[1], found)

    def test_rounds_of_programs_and_algorithms(self):
        """On mirrored graphs they give the same, ranks to the last bit."""
        from edgebpf import algorithms

        chance, rounds, pushes = random.Random(9), load("rounds"), load("pushes")
        for number in range(40):
            vertices, has_loops = chance.randint(1, 60), bool(number % 2)
            edges = [(chance.randrange(vertices), chance.randrange(vertices)) for _ in range(chance.randrange(4 * vertices))]
            edges = [(source, target) for source, target in edges if has_loops or source != target]
            store = self.edgebpf.Store(vertices)
            store.batch("A", edges=edges + [(target, source) for source, target in edges])
            version, root, many = store.pin(), chance.randrange(vertices), chance.randrange(30)
            self.assertEqual(rounds.ranks(version, many).tolist(), algorithms.pagerank_fixed(version, many).tolist())
            self.assertEqual(rounds.components(version).tolist(), algorithms.components(version).tolist())
            self.assertEqual(pushes.components(version).tolist(), algorithms.components(version).tolist())
            self.assertEqual(rounds.levels(version, root).tolist(), algorithms.bfs(version, root).levels.tolist())
            self.assertEqual(pushes.hops(version, root).view("int64").tolist(), algorithms.bfs(version, root).levels.tolist())
            if not has_loops:
                self.assertEqual(pushes.cores(version).tolist(), algorithms.cores(version).tolist())
                self.assertEqual(pushes.independent(version, many).tolist(), algorithms.independent_set(version, many).tolist())
            store.close()

    @unittest.mock.patch.dict(os.environ, {"EDGEBPF": STORE})
    def test_over_several_processes(self):
        upward = self.edgebpf.assemble("ldxw r2, [r1+0]\nldxw r1, [r1+4]\nmov r0, 1\njgt r1, r2, up\nmov r0, 0\nup:\nexit")
        self.assertEqual(load("parts").total(4, *columns(BOTH), upward, 2), 4)

    def test_on_random_graphs(self):
        chance = random.Random(6)
        for vertices, count in ((40, 300), (200, 1500)):
            edges = [(chance.randrange(vertices), chance.randrange(vertices)) for _ in range(count)]
            graph, (store, version) = Graph(edges), self.version(edges, vertices)
            total, rows = graph.mutual()
            self.assertEqual(load("mutual").mutual(version), total)
            self.assertEqual(load("bfs").distances(version, 1).tolist(), graph.distances(1, vertices))
            self.assertEqual(load("weight").weight(version, TABLE), sum(TABLE[target % 240] for _, target in graph.edges))
            self.assertEqual(load("top").top(version, 7), sorted(rows.items(), key=lambda row: (-row[1], row[0]))[:7])
            if not MISSING:
                self.assertEqual(load("common").common(version).tolist(), graph.common())
                self.assertEqual(load("triangles").triangles(version), graph.triangles())
                # A filter leaves out none of the list.
                self.assertGreaterEqual(load("bloom").listed(version, [3, 7]), sum(target in (3, 7) for _, target in graph.edges))


if __name__ == "__main__":
    unittest.main()

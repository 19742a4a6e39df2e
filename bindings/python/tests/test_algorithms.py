"""`edgebpf.algorithms`: rows that were found by hand, random graphs and streams beside networkx, igraph and scipy, what is refused, and calls that end
before they are done."""
import contextlib
import copy
import importlib.util
import io
import os
import pathlib
import pickle
import random
import signal
import subprocess
import sys
import threading
import time
import unittest
import warnings

sys.path.insert(0, str(pathlib.Path(__file__).resolve().parent))
import test_package
from test_package import edgebpf, np

if np is not None:
    from edgebpf import algorithms, companion

MISSING = [name for name in ("igraph", "networkx", "scipy") if importlib.util.find_spec(name) is None]
# Each 400th graph has a hub.
GRAPHS, BATCHES = 400, 400
# Both directions of these are the graph of eight vertices.
ENDS = [(0, 1), (0, 2), (1, 2), (2, 3), (3, 4), (5, 6)]
LOG_3 = 1.0986122886681098


def both(pairs):
    """The columns of some edges in both directions."""
    sources, targets = [one for one, _ in pairs], [other for _, other in pairs]
    return np.array(sources + targets, int), np.array(targets + sources, int)


@unittest.skipIf(np is None, "not there: numpy")
@unittest.skipIf(np is not None and edgebpf.library.path() is None, "not there: cffi, or libedgebpf.so, which make -C dist makes")
class WithStores(unittest.TestCase):
    def version(self, edges, vertices):
        store = edgebpf.Store(vertices)
        self.addCleanup(store.close)
        sources, targets = edges
        for begin in range(0, len(sources), 65_536):
            store.batch("A", inserts=(sources[begin:begin + 65_536], targets[begin:begin + 65_536]))
        return store, store.pin()

    def eight(self):
        return self.version(both(ENDS), 8)[1]

    def large(self, vertices=60_000, edges=400_000, seed=3):
        chance = np.random.default_rng(seed)
        ends = chance.integers(0, vertices, (edges, 2))
        return self.version(tuple(np.concatenate([ends, ends[:, ::-1]]).T), vertices)[1]


class ByHand(WithStores):
    def test_searches(self):
        for roots, most, levels, parents, reached in (
            (0, None, [0, 1, 1, 2, 3, -1, -1, -1], [0, 0, 0, 2, 3, -1, -1, -1], 5),
            ([4, 5], None, [3, 3, 2, 1, 0, 0, 1, -1], [2, 2, 3, 4, 4, 5, 5, -1], 7),
            (np.array([4, 5, 4], np.uint8), 9, [3, 3, 2, 1, 0, 0, 1, -1], [2, 2, 3, 4, 4, 5, 5, -1], 7),
            (0, 1, [0, 1, 1, -1, -1, -1, -1, -1], [0, 0, 0, -1, -1, -1, -1, -1], 3),
            (7, 0, [-1] * 7 + [0], [-1] * 7 + [7], 1),
        ):
            found = algorithms.bfs(self.eight(), roots, most)
            self.assertEqual((found.levels.tolist(), found.parents.tolist(), found.reached), (levels, parents, reached))
            self.assertEqual((found.levels.dtype, found.parents.dtype), (np.int32, np.int32))

    def test_numbers_of_vertices(self):
        version = self.eight()
        self.assertEqual(algorithms.components(version).tolist(), [0, 0, 0, 0, 0, 5, 5, 7])
        self.assertEqual(algorithms.cores(version).tolist(), [2, 2, 2, 1, 1, 1, 1, 0])
        self.assertEqual(algorithms.triangles(version).tolist(), [1, 1, 1, 0, 0, 0, 0, 0])
        self.assertEqual(algorithms.clustering(version, threads=2).tolist(), [1, 1, 1 / 3, 0, 0, 0, 0, 0])
        self.assertEqual(np.flatnonzero(algorithms.independent_set(version)).tolist(), [0, 3, 5, 7])
        self.assertEqual(np.flatnonzero(algorithms.independent_set(version, 1)).tolist(), [2, 4, 5, 7])
        labels = algorithms.label_propagation(version)
        self.assertEqual((labels.labels.tolist(), labels.rounds, labels.changed), ([1, 1, 1, 1, 1, 6, 6, 7], 2, 0))
        self.assertEqual(algorithms.degree_distribution(version).tolist(), [1, 3, 3, 1])
        self.assertTrue(algorithms.is_mirrored(version))

    def test_ranks(self):
        version = self.eight()
        for rounds, lacks, wanted in (
            (0, 0, [137438953472] * 8),
            (1, 6, [132571323869, 132571323869, 210453397502, 190982879095, 93630287052, 152041842278, 152041842278, 35218731827]),
            (3, 19, [144670235555, 144670235555, 212001722025, 174727087781, 92721979761, 153758252137, 153758252137, 23203862806]),
            (20, 65, [147484105720, 147484105720, 217927578745, 163438214284, 92555245671, 153777850033, 153777850033, 23066677505]),
        ):
            ranks = algorithms.pagerank_fixed(version, rounds)
            self.assertEqual((ranks.tolist(), 2**40 - int(ranks.sum())), (wanted, lacks))
        wanted = [0.134141110, 0.134141110, 0.198183943, 0.148670538, 0.084163999, 0.139860140, 0.139860140, 0.020979021]
        found = algorithms.pagerank(version, within=1e-14, most=500)
        self.assertEqual(np.round(found.ranks, 9).tolist(), wanted)
        self.assertTrue(found.change < 1e-14 and found.rounds < 500)
        wanted = [0.322204899, 0.216941741, 0.282369385, 0.125251912, 0.053232063, 0, 0, 0]
        found = algorithms.pagerank(version, within=1e-14, most=500, start=[2] + [0] * 7)
        self.assertEqual(np.round(found.ranks, 9).tolist(), wanted)
        found = algorithms.pagerank(version, most=0)
        self.assertEqual((found.ranks.tolist(), found.rounds, found.change), ([1 / 8] * 8, 0, 0))

    def test_pairs(self):
        version = self.eight()
        for kind, wanted in (
            ("common", [1, 1, 1, 0, 1]), ("jaccard", [1 / 3, 1 / 3, 1 / 3, 0, 1]), ("allocation", [1 / 3, 1 / 3, 1 / 3, 0, 1]),
            ("adamic_adar", [1 / LOG_3, 1 / LOG_3, 1 / LOG_3, 0, 0]),
        ):
            self.assertEqual(algorithms.pair_scores(version, [0, 0, 1, 7, 5], [1, 3, 3, 7, 5], kind).tolist(), wanted)
        for vertex, wanted in ((0, ([3], [1])), (4, ([2], [1])), (7, ([], []))):
            found, scores = algorithms.Candidates(version, "common").of(vertex)
            self.assertEqual((found.tolist(), scores.tolist()), wanted)

    def test_candidates_of_one_vertex_after_another(self):
        """What is kept from question to question is not seen in a later answer."""
        for kind in ("common", "adamic_adar", "allocation"):
            kept = algorithms.Candidates(self.eight(), kind)
            for vertex in (0, 3, 1, 0, 2):
                fresh = algorithms.Candidates(self.eight(), kind)
                self.assertEqual([part.tolist() for part in kept.of(vertex)], [part.tolist() for part in fresh.of(vertex)])

    def test_candidates_with_equal_scores(self):
        """The least vertex comes first, whichever was met first."""
        _, version = self.version(([0, 0, 1, 2, 2], [1, 2, 9, 5, 9]), 10)
        kept = algorithms.Candidates(version, "common")
        self.assertEqual([part.tolist() for part in kept.of(0)], [[9, 5], [2.0, 1.0]])
        _, version = self.version(([0, 0, 0, 1, 2, 3], [1, 2, 3, 9, 5, 7]), 10)
        kept = algorithms.Candidates(version, "common")
        self.assertEqual([kept.of(0, count)[0].tolist() for count in (1, 2, 3)], [[5], [5, 7], [5, 7, 9]])

    def test_a_directed_graph(self):
        version = self.version(([0, 0, 1, 3], [1, 2, 2, 2]), 4)[1]
        found = algorithms.bfs(version, 0)
        self.assertEqual((found.levels.tolist(), found.parents.tolist()), ([0, 1, 1, -1], [0, 0, 0, -1]))
        self.assertEqual(algorithms.components(version).tolist(), [0, 0, 0, 0])
        self.assertEqual(algorithms.pagerank_fixed(version, 1).tolist(), [99643241267, 216466351718, 683758793522, 99643241267])
        ranks = algorithms.pagerank(version, within=1e-14, most=500).ranks
        self.assertEqual(np.round(ranks, 9).tolist(), [0.144691626, 0.206185567, 0.504431181, 0.144691626])
        self.assertFalse(algorithms.is_mirrored(version))
        for ask in (algorithms.cores, algorithms.triangles, algorithms.clustering, algorithms.independent_set, algorithms.LiveComponents):
            with self.assertRaisesRegex(algorithms.NotMirrored, "^version: "):
                ask(version)

    def test_a_stream(self):
        store, version = self.version(both(ENDS), 8)
        live, triangles, rank = algorithms.LiveComponents(version), algorithms.LiveTriangles(version), algorithms.LiveRank(version)
        for inserts, removes, labels, each in (
            ([(4, 5)], [], [0, 0, 0, 0, 0, 0, 0, 7], [1, 1, 1, 0, 0, 0, 0, 0]),
            ([], [(0, 2)], [0, 0, 0, 0, 0, 0, 0, 7], [0] * 8),
            ([(1, 3)], [(2, 3)], [0, 0, 0, 0, 0, 0, 0, 7], [0] * 8),
            ([], [(0, 1), (1, 2), (1, 3)], [0, 1, 2, 3, 3, 3, 3, 7], [0] * 8),
            ([(0, 7), (6, 7), (0, 6)], [(0, 1)], [0, 1, 2, 0, 0, 0, 0, 0], [1, 0, 0, 0, 0, 0, 1, 1]),
        ):
            before = live.labels
            kept = before.tolist()
            edits = both(inserts), both(removes)
            store.batch("A", *edits)
            version = store.pin()
            for each_of in (live, triangles, rank):
                each_of.update(version, *edits)
            self.assertEqual((live.labels.tolist(), triangles.each.tolist(), 3 * triangles.all), (labels, each, sum(each)))
            self.assertEqual(before.tolist(), kept)
            self.assertFalse(before.flags.writeable)
            exact = algorithms.pagerank(version, within=1e-14, most=500).ranks
            self.assertLessEqual(np.abs(rank.ranks - exact).sum(), rank.apart)
            self.assertLessEqual(rank.apart, 1e-6)
        self.assertEqual(live.are_joined([0, 0, 1], [5, 2, 1]).tolist(), [True, False, True])

    def test_pushes_after_whole_rounds(self):
        """Vertices that waited for a push as whole rounds took over are pushed by the next update."""
        chance = np.random.default_rng(0)
        store, version = self.version(chance.integers(0, 3_000, (2, 12_000)), 3_000)
        rank = algorithms.LiveRank(version, within=1e-9)
        for count in (3_000, 2):
            inserts = tuple(chance.integers(0, 3_000, (2, count)))
            store.batch("A", inserts)
            rank.update(store.pin(), inserts)
            self.assertGreater(rank.rounds, 0)
            self.assertGreater(rank.pushed, 1_000)

    def test_parts_that_fall_apart_again_and_again(self):
        """Parts have new numbers each time, and at last more than there is room for."""
        edges = both([(0, vertex) for vertex in range(1, 6)])
        store, version = self.version(edges, 6)
        live = algorithms.LiveComponents(version)
        for number in range(20):
            store.batch("A", removes=edges)
            live.update(store.pin(), removes=edges)
            if number % 3 == 0:
                self.assertEqual(live.labels.tolist(), [0, 1, 2, 3, 4, 5])
            store.batch("A", inserts=edges)
            live.update(store.pin(), inserts=edges)
            if number % 4 == 0:
                self.assertEqual(live.labels.tolist(), [0] * 6)

    def test_the_smallest_graph(self):
        version = self.version(([], []), 1)[1]
        self.assertEqual(algorithms.bfs(version, 0).levels.tolist(), [0])
        for ask, wanted in (
            (algorithms.components, [0]), (algorithms.cores, [0]), (algorithms.triangles, [0]), (algorithms.clustering, [0]),
            (algorithms.independent_set, [True]), (algorithms.pagerank_fixed, [2**40]), (algorithms.degree_distribution, [1]),
        ):
            self.assertEqual(ask(version).tolist(), wanted)
        self.assertEqual(algorithms.pagerank(version).ranks.tolist(), [1])
        self.assertEqual(algorithms.LiveRank(version).ranks.tolist(), [1])
        self.assertEqual(algorithms.label_propagation(version).labels.tolist(), [0])
        loop = self.version(([0], [0]), 1)[1]
        self.assertEqual(algorithms.cores(loop).tolist(), [0])
        self.assertEqual(algorithms.independent_set(loop).tolist(), [True])

    def test_over_a_process(self):
        """What reads the whole graph takes a copy of it; what reads lists where they lie is not there."""
        if not os.environ.get("EDGEBPF"):
            self.skipTest("not there: edgebpf")
        with edgebpf.connect(8) as store:
            store.batch("A", inserts=both(ENDS))
            version = store.pin()
            self.assertEqual(algorithms.components(version).tolist(), [0, 0, 0, 0, 0, 5, 5, 7])
            self.assertEqual(algorithms.bfs(version, 0, most=1).levels.tolist(), [0, 1, 1, -1, -1, -1, -1, -1])
            self.assertEqual(algorithms.cores(version).tolist(), [2, 2, 2, 1, 1, 1, 1, 0])
            for ask in (lambda: algorithms.pair_scores(version, [0], [1]), lambda: algorithms.Candidates(version),
                        lambda: algorithms.LiveComponents(version), lambda: algorithms.LiveTriangles(version), lambda: algorithms.LiveRank(version)):
                with self.assertRaises(edgebpf.NotHere):
                    ask()


    def test_documents(self):
        """Each example in Python of docs/ALGORITHMS.md runs as printed, and its `assert`s hold."""
        blocks = test_package.python_blocks(test_package.TOP / "docs" / "ALGORITHMS.md")
        self.assertEqual(len(blocks), 4)
        for block in blocks:
            if "scipy" in block and MISSING:
                continue
            with contextlib.redirect_stdout(io.StringIO()), warnings.catch_warnings():
                # Of what peers do themselves.
                warnings.simplefilter("ignore")
                exec(compile(block, "ALGORITHMS.md", "exec"), {})


class Refused(WithStores):
    """What is wrong is said with the argument's name, and nothing was changed."""

    def test_arguments(self):
        version = self.eight()
        for error, words, ask in (
            (edgebpf.VertexRange, "roots", lambda: algorithms.bfs(version, 8)),
            (edgebpf.VertexRange, "roots", lambda: algorithms.bfs(version, [0, -1])),
            (ValueError, "roots", lambda: algorithms.bfs(version, [])),
            (TypeError, "roots", lambda: algorithms.bfs(version, 1.5)),
            (TypeError, "roots", lambda: algorithms.bfs(version, [[0]])),
            (ValueError, "most", lambda: algorithms.bfs(version, 0, -1)),
            (TypeError, "most", lambda: algorithms.bfs(version, 0, 1.5)),
            (TypeError, "version", lambda: algorithms.bfs("v", 0)),
            (TypeError, "version", lambda: algorithms.components(None)),
            (TypeError, "version", lambda: algorithms.LiveRank(7)),
            (TypeError, "progress is a function of two numbers, not int", lambda: algorithms.components(version, progress=3)),
            (TypeError, "progress is a function", lambda: algorithms.LiveComponents(version).update(version, progress=[])),
            (ValueError, "damping", lambda: algorithms.pagerank(version, 1.5)),
            (ValueError, "damping", lambda: algorithms.pagerank(version, float("nan"))),
            (TypeError, "damping", lambda: algorithms.pagerank(version, "0.85")),
            (ValueError, "within", lambda: algorithms.pagerank(version, within=-1)),
            (ValueError, "most", lambda: algorithms.pagerank(version, most=-1)),
            (ValueError, "start", lambda: algorithms.pagerank(version, start=[1] * 7)),
            (ValueError, "start", lambda: algorithms.pagerank(version, start=[0] * 8)),
            (ValueError, "start", lambda: algorithms.pagerank(version, start=[2] * 7 + [-1])),
            (ValueError, "start", lambda: algorithms.pagerank(version, start=[1] * 7 + [float("nan")])),
            (ValueError, "the sum is finite", lambda: algorithms.pagerank(version, start=[1e308] * 8)),
            (TypeError, "start", lambda: algorithms.pagerank(version, start=["a"] * 8)),
            (ValueError, "first", lambda: algorithms.pagerank(version, first=[1] * 9)),
            (ValueError, "rounds", lambda: algorithms.pagerank_fixed(version, -1)),
            (ValueError, "damping", lambda: algorithms.pagerank_fixed(version, damping=101)),
            (TypeError, "damping", lambda: algorithms.pagerank_fixed(version, damping=0.85)),
            (ValueError, "seed", lambda: algorithms.independent_set(version, 2**32)),
            (ValueError, "most", lambda: algorithms.label_propagation(version, -1)),
            (ValueError, "kind", lambda: algorithms.pair_scores(version, [0], [1], "cosine")),
            (ValueError, "sources", lambda: algorithms.pair_scores(version, [0], [1, 2])),
            (edgebpf.VertexRange, "targets", lambda: algorithms.pair_scores(version, [0], [8])),
            (ValueError, "kind", lambda: algorithms.Candidates(version, "jaccard")),
            (edgebpf.VertexRange, "vertex", lambda: algorithms.Candidates(version).of(8)),
            (ValueError, "count", lambda: algorithms.Candidates(version).of(0, -1)),
            (ValueError, "threads", lambda: algorithms.triangles(version, threads=0)),
            (ValueError, "seconds", lambda: algorithms.cores(version, seconds=-1)),
            (ValueError, "within", lambda: algorithms.LiveRank(version, within=0)),
            (ValueError, "damping", lambda: algorithms.LiveRank(version, damping=1)),
            (ValueError, "name", lambda: algorithms.begin("dijkstra", version)),
        ):
            with self.subTest(words), self.assertRaisesRegex(error, rf"\b{words}\b"):
                ask()

    def test_closed_versions(self):
        version = self.eight()
        version.csr()
        kept = algorithms.Candidates(version, "common")
        version.close()
        for ask in (lambda: algorithms.bfs(version, 0), lambda: algorithms.bfs(version, 0, 1), lambda: algorithms.components(version),
                    lambda: algorithms.pair_scores(version, [0], [1]), lambda: algorithms.LiveTriangles(version), lambda: algorithms.degree_distribution(version)):
            with self.assertRaises(edgebpf.Closed):
                ask()
        self.assertEqual(kept.of(0)[0].tolist(), [3])

    def test_updates(self):
        """One that is refused leaves the object as it was."""
        store, version = self.version(both(ENDS), 8)
        live, triangles, rank = kept = algorithms.LiveComponents(version), algorithms.LiveTriangles(version), algorithms.LiveRank(version)
        ranks = rank.ranks.tolist()
        store.batch("A", inserts=([4], [5]))
        lame = store.pin()
        store.batch("A", inserts=([5], [4]))
        after = store.pin()
        other = self.version(both(ENDS), 9)[1]
        for object in kept:
            for error, words, ask in (
                (ValueError, "version", lambda: object.update(other)),
                (ValueError, "inserts and removes", lambda: object.update(after)),
                (ValueError, "inserts and removes", lambda: object.update(after, ([4], [5]))),
                (edgebpf.VertexRange, "sources", lambda: object.update(after, ([8], [0]))),
                (ValueError, "inserts", lambda: object.update(after, [(4, 5), (5, 4), (0, 1)])),
                (TypeError, "version", lambda: object.update(None)),
            ):
                with self.subTest(words), self.assertRaisesRegex(error, words):
                    ask()
        for object in (live, triangles):
            with self.assertRaises(algorithms.NotMirrored):
                object.update(lame, ([4], [5]))
        self.assertEqual((live.labels.tolist(), triangles.all, rank.ranks.tolist()), ([0, 0, 0, 0, 0, 5, 5, 7], 1, ranks))
        for object in kept:
            object.update(after, both([(4, 5)]), both([(0, 7)]))
        self.assertEqual((live.labels.tolist(), triangles.all), ([0, 0, 0, 0, 0, 0, 0, 7], 1))

    def test_no_companion(self):
        """It is said in words, with the command."""
        code = "import edgebpf\nfrom edgebpf import algorithms\ntry: algorithms.components(edgebpf.Store(1).pin())\nexcept edgebpf.Error as error: print(error)"
        room = {**os.environ, "PYTHONPATH": str(pathlib.Path(edgebpf.__file__).parents[1])}
        for named, words in (("/nowhere.so", "cannot be loaded"), (edgebpf.library.path(), "lacks edgebpf_algorithms_interface_1")):
            run = subprocess.run([sys.executable, "-c", code], env={**room, "EDGEBPF_ALGORITHMS": named}, capture_output=True, text=True)
            self.assertEqual((run.returncode, run.stderr), (0, ""))
            self.assertIn(words, run.stdout)


class Stop(Exception):
    pass


class Pieces(WithStores):
    CALLS = {
        "bfs": ([0], {}), "components": ([], {}), "pagerank": ([], {"most": 3}), "pagerank_fixed": ([2], {}), "cores": ([], {}), "triangles": ([], {}),
        "clustering": ([], {"threads": 2}), "independent_set": ([5], {}), "label_propagation": ([2], {}),
        "pair_scores": ([[0] * 20_000, np.arange(20_000) if np is not None else ()], {}),
    }

    def test_progress_that_raises_at_each_call_in_turn(self):
        """The version is as it was, and the next call is right."""
        version = self.large()
        self.assertEqual(sorted(self.CALLS), sorted(algorithms.STEPS))
        for name, (given, options) in self.CALLS.items():
            ask, seen = getattr(algorithms, name), []
            wanted = ask(version, *given, progress=lambda *at: seen.append(at), **options)
            self.assertGreater(len(seen), 3, name)
            self.assertTrue(all(0 <= done <= of for done, of in seen), (name, seen))
            self.assertEqual(seen[-1][0], seen[-1][1], name)
            if "threads" not in options:
                self.assertEqual(seen, sorted(seen), name)
            # With threads it is not the same number of calls each time.
            for last in (0, 2) if "threads" in options else range(0, len(seen), max(1, len(seen) // 7)):
                calls = []

                def progress(*at):
                    calls.append(at)
                    if len(calls) > last:
                        raise Stop

                with self.assertRaises(Stop):
                    ask(version, *given, progress=progress, **options)
            self.same(ask(version, *given, **options), wanted, name)

    def same(self, found, wanted, name):
        for one, other in zip(vars(found).values(), vars(wanted).values()) if hasattr(found, "__dict__") and not isinstance(found, np.ndarray) else [(found, wanted)]:
            self.assertTrue(np.array_equal(one, other), name)

    def test_tasks(self):
        """They pause, go on in another thread, and give what the call gives; a version that is closed meanwhile changes nothing."""
        version, wanted = self.large(), {}
        for name, (given, options) in self.CALLS.items():
            wanted[name] = getattr(algorithms, name)(version, *given, **options)
        tasks = {name: algorithms.begin(name, version, *given, **options) for name, (given, options) in self.CALLS.items()}
        self.assertFalse(tasks["pagerank"].done)
        with self.assertRaisesRegex(edgebpf.Error, "not done"):
            tasks["pagerank"].result
        version.close()

        def go_on():
            while not all(task.done for task in tasks.values()):
                for task in tasks.values():
                    task.step(0)

        threads = [threading.Thread(target=go_on) for _ in range(2)]
        for thread in threads:
            thread.start()
        for thread in threads:
            thread.join()
        for name, task in tasks.items():
            task.step()
            self.same(task.result, wanted[name], name)
            self.assertLessEqual(*task.at)

    def test_seconds(self):
        version = self.large()
        with self.assertRaisesRegex(edgebpf.TimedOut, "^0 seconds were over after 0 of ") as caught:
            algorithms.pagerank(version, within=0, seconds=0)
        task = caught.exception.run
        while not task.done:
            task.step()
        self.assertEqual(task.result.ranks.tolist(), algorithms.pagerank(version, within=0, seconds=1000).ranks.tolist())

    def test_what_a_task_is(self):
        task = algorithms.begin("components", self.eight())
        self.assertRegex(repr(task), r"^<edgebpf\.algorithms\.Task: \d+ of \d+>$")
        for copied in (pickle.dumps, copy.deepcopy):
            with self.assertRaisesRegex(TypeError, "^an algorithm under way is not pickled: it belongs to this process$"):
                copied(task)
        task.step(60)
        self.assertRegex(repr(task), r"^<edgebpf\.algorithms\.Task: \d+ of \d+, done>$")

    def test_a_failed_task(self):
        version = self.eight()
        task = algorithms.begin("components", version)
        with unittest.mock.patch.object(companion, "call", side_effect=MemoryError):
            with self.assertRaises(MemoryError):
                task.step()
        with self.assertRaisesRegex(edgebpf.Closed, "cut off"):
            task.step()

    def test_an_update_that_is_cut_off(self):
        """A live object is marked once anything of it was changed."""
        store, version = self.version(both(ENDS), 8)
        kept = algorithms.LiveComponents(version), algorithms.LiveTriangles(version), algorithms.LiveRank(version)
        edits = both([(2, 5), (2, 6), (4, 6)]), both([(2, 3)])
        store.batch("A", *edits)
        after = store.pin()
        for object in kept:
            seen = []
            with self.assertRaises(Stop):
                # Before anything is changed it stays.
                object.update(after, *edits, progress=self.raising_at(0, seen))
            while True:
                # Once it was changed, it is closed.
                seen.clear()
                try:
                    object.update(after, *edits, progress=self.raising_at(2, seen))
                except Stop:
                    with self.assertRaisesRegex(edgebpf.Closed, type(object).__name__):
                        object.update(after, *edits)
                    break
        with self.assertRaises(edgebpf.Closed):
            kept[0].labels
        with self.assertRaises(edgebpf.Closed):
            kept[2].apart

    def raising_at(self, last, seen):
        def progress(*at):
            seen.append(at)
            if len(seen) > last:
                raise Stop
        return progress

    def test_threads_on_one_version(self):
        version, found = self.large(), []
        wanted = algorithms.components(version).tolist(), algorithms.bfs(version, 1, 3).levels.tolist()

        def ask():
            for _ in range(3):
                found.append((algorithms.components(version).tolist(), algorithms.bfs(version, 1, 3).levels.tolist()))

        threads = [threading.Thread(target=ask) for _ in range(4)]
        for thread in threads:
            thread.start()
        for thread in threads:
            thread.join()
        self.assertEqual(len(found), 12)
        self.assertTrue(all(one == wanted for one in found))

    def test_threads_that_share_work(self):
        version = self.large()
        wanted = algorithms.triangles(version)
        for threads in (2, 5):
            self.same(algorithms.triangles(version, threads=threads), wanted, "triangles")
        sources, targets = np.random.default_rng(5).integers(0, 60_000, (2, 30_000))
        scores = algorithms.pair_scores(version, sources, targets, "adamic_adar")
        self.same(algorithms.pair_scores(version, sources, targets, "adamic_adar", threads=3), scores, "pairs")
        # Of few pairs the degrees are asked for one by one.
        self.same(algorithms.pair_scores(version, sources[:40], targets[:40], "adamic_adar"), scores[:40], "few pairs")

    def test_threads_end_before_an_interrupt_is_told(self):
        """Who waits for threads and is interrupted has none of them at work any more."""
        crew, before = companion.Crew([(place, place + 1) for place in range(100)], lambda: lambda *_: time.sleep(0.1)), threading.active_count()
        pieces = crew.finished(3, 100)
        next(pieces)
        self.assertEqual(threading.active_count(), before + 3)
        pieces.close()
        self.assertEqual(threading.active_count(), before)

    def test_interrupted(self):
        """A Ctrl-C comes through within a second, also while threads share the work."""
        version = self.large(262_144, 1_500_000)
        version.csr()
        for ask in (lambda: algorithms.pagerank(version, within=0, most=10**6), lambda: [algorithms.triangles(version, threads=2) for _ in range(100)]):
            sent = []

            def interrupt():
                sent.append(time.monotonic())
                os.kill(os.getpid(), signal.SIGINT)

            timer = threading.Timer(0.3, interrupt)
            timer.start()
            with self.assertRaises(KeyboardInterrupt):
                ask()
            self.assertLess(time.monotonic() - sent[0], 1)
            timer.join()


@unittest.skipIf(MISSING, f"not there: {MISSING}")
class BesidePeers(WithStores):
    def test_random_graphs(self):
        from algorithm_peers import check_graph

        for number in range(GRAPHS):
            check_graph(random.Random(f"gate graph {number}"), number)

    def test_random_streams(self):
        from algorithm_peers import check_stream

        done = stream = 0
        while done < BATCHES:
            done += check_stream(random.Random(f"gate stream {stream}"), 10)
            stream += 1


if __name__ == "__main__":
    unittest.main()

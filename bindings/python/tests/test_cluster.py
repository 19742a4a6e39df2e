"""`edgebpf.Cluster`: random streams beside one store over an engine in this process, the words of what goes wrong, and two workers of Dask."""
import contextlib
import importlib.util
import os
import pathlib
import pickle
import random
import signal
import sqlite3
import subprocess
import sys
import tempfile
import threading
import time
import unittest
import unittest.mock
import warnings

sys.path.insert(0, str(pathlib.Path(__file__).resolve().parent))
from test_package import TARGET, TOP, edgebpf, np, python_blocks

if np is not None:
    import random_clusters
    from edgebpf import cluster_copies, cluster_part, cluster_router
    from test_steps import HOSTILE

# How many targets the target has, whether an edge leads back, and the degree of vertex 1.
DEGREE_OF_TARGET = "ldxw r1, [r1+4]\ncall 1\nexit"
BACK = "mov r6, r1\nldxw r1, [r6+4]\nldxw r2, [r6+0]\ncall 2\nexit"
OF_ANY = "mov r1, 1\ncall 1\nexit"


@contextlib.contextmanager
def wild(vertices=600, parts=3, folder=None, asks="own"):
    """A cluster over an engine in this process, and the engine."""
    engine = random_clusters.Wild(random.Random(1), 0.001)
    with edgebpf.Cluster._over(engine, vertices, parts, folder, asks) as cluster:
        yield cluster, engine


@contextlib.contextmanager
def dask(workers):
    """A client of so many worker processes, which end with it. What Dask warns of is not tested here."""
    with warnings.catch_warnings():
        warnings.simplefilter("ignore")
        import dask.config
        import distributed

        # One that is killed is begun again once: on a machine with much to do it may take more than half a minute to find the scheduler.
        dask.config.set({"distributed.comm.timeouts.connect": "300s", "distributed.comm.timeouts.tcp": "300s"})
        more = {"threads_per_worker": 1, "processes": True, "memory_limit": 0} if workers else {}
        with distributed.Client(n_workers=workers, dashboard_address=None, silence_logs=50, **more) as client:
            yield client


class Base(unittest.TestCase):
    def run(self, result=None):
        """A test that hangs fails, and the next one runs."""
        if np is None:
            return super().run(result)

        def fail(*_):
            raise AssertionError(f"the test hangs: it has taken {random_clusters.HANGS_SECONDS} seconds")

        before = signal.signal(signal.SIGUSR1, fail)
        watch = threading.Timer(random_clusters.HANGS_SECONDS, signal.pthread_kill, (threading.main_thread().ident, signal.SIGUSR1))
        watch.daemon = True
        watch.start()
        try:
            return super().run(result)
        finally:
            watch.cancel()
            signal.signal(signal.SIGUSR1, before)

    def raises(self, kind, words, call, *given, **more):
        with self.assertRaisesRegex(kind, words) as told:
            call(*given, **more)
        self.assertIs(type(told.exception), kind)


@unittest.skipIf(np is None, "not there: numpy")
@unittest.skipIf(np is not None and edgebpf.library.path() is None, "not there: cffi, or libedgebpf.so, which make -C dist makes")
class OverAnEngine(Base):
    def test_streams(self):
        """Random streams of batches, pins and questions, with rebases, are those of one store."""
        for number in range(12):
            with self.subTest(number=number):
                random_clusters.stream(random.Random(f"test {number}"))

    def test_any_order(self):
        """A part applies batches in the order of their numbers, however they come, and as often as they come."""
        part = cluster_part.Part()
        self.assertEqual(part.begin(1, edgebpf.__version__, 4, 0, None), 0)
        edits = np.array([[0, 1], [2, 3], [0 | 1 << 31, 1], [0, 2]], np.uint32)
        nothing = edits[:0]

        def apply(era, first, batches, low):
            return part.apply(era, first, cluster_part.Batches.of(batches), cluster_part.Batches.of([nothing] * len(batches)), low)

        self.assertEqual(apply(1, 3, [edits[2:3], edits[3:]], 0), [])
        self.assertEqual(apply(1, 2, [nothing], 0), [])
        self.assertEqual(apply(1, 1, [edits[:2]], 0), [(1, 2, 0, 2), (2, 0, 0, 2), (3, 0, 1, 1), (4, 1, 0, 2)])
        self.assertEqual(apply(1, 1, [edits[:2]], 3), [])
        self.assertEqual((sorted(part._versions), part._early), ([3, 4], {}))
        with self.assertRaises(cluster_part.OtherEra):
            apply(2, 5, [nothing], 0)

    def test_under_way(self):
        """Readers go on at committed numbers while later batches are under way, and no number is committed that one part does not have."""
        with wild() as (cluster, engine):
            cluster.apply([0, 256, 512], [1, 2, 3])
            version = cluster.pin()
            engine.held.append(engine.placed[1])
            counts = [cluster.begin([0, 256], [place, place]) for place in range(5, 25)]
            while engine.placed[0].part.done < 21:
                self.assertEqual(version.csr()[1].tolist(), [1, 2, 3])
            self.assertEqual((cluster.pin().number, [one.done() for one in counts]), (1, [False] * 20))
            engine.held.clear()
            self.assertEqual([one.result() for one in counts], [edgebpf.Counts(number, 2, 0) for number in range(2, 22)])
            self.assertEqual((cluster.pin().number, cluster.pin().edges, version.edges), (21, 43, 3))

    def test_no_end(self):
        """There is room for more batches than a log has, since parts rebase."""
        with wild(vertices=300, parts=2) as (cluster, engine):
            counts = [cluster.begin([number % 300], [number // 300]) for number in range(4_200)]
            self.assertEqual(sum(one.result().added for one in counts), 4_200)
            self.assertEqual([worker.part._versions[4_200].epoch for worker in engine.placed], [4_200 // cluster_part.REBASE_BATCHES - (4_200 % cluster_part.REBASE_BATCHES == 0)] * 2)

    def test_what_is_not_pickled(self):
        with wild(parts=2) as (cluster, _):
            self.assertEqual(repr(cluster), "<edgebpf.Cluster: 600 vertices, 2 parts>")
            self.raises(TypeError, "^a Cluster is not pickled: it belongs to this process", pickle.dumps, cluster)
            self.raises(TypeError, "^a version is not pickled: it belongs to this process", pickle.dumps, cluster.pin())
        self.assertEqual(repr(cluster), "<edgebpf.Cluster: 600 vertices, 2 parts, closed>")

    def test_versions_are_let_go(self):
        """A version that is dropped without `close` is not kept, and a closed one answers nothing."""
        with wild() as (cluster, engine):
            version = cluster.pin()
            cluster.apply([0], [1])
            del version
            with cluster.pin() as held:
                self.assertEqual(repr(held), "<edgebpf.ClusterVersion 1: 600 vertices, 1 edges>")
            held.close()
            self.assertEqual(repr(held)[-9:], ", closed>")
            self.raises(edgebpf.Closed, "^the version is closed$", held.csr)
            cluster.apply([0], [2])
            cluster.apply([0], [3])
            self.assertEqual([sorted(worker.part._versions) for worker in engine.placed], [[2, 3]] * 3)
        self.raises(edgebpf.Closed, "^the cluster is closed$", cluster.pin)
        self.raises(edgebpf.Closed, "^the cluster is closed$", cluster.apply, [0], [1])
        cluster.close()

    def test_wrong_batches(self):
        """A batch that a part would refuse gets no number."""
        with wild(vertices=300) as (cluster, _):
            for call in (cluster.apply, cluster.begin):
                self.raises(edgebpf.VertexRange, "^a vertex of targets is not below 300$", call, [0], [300])
                self.raises(edgebpf.TooManyEdits, "^65537 edits", call, np.zeros(65_537, int), np.zeros(65_537, int))
                self.raises(ValueError, "one of each for an edge", call, [0], [])
            self.raises(ValueError, "^a graph has 1 to", edgebpf.Cluster._over, None, 0)
            self.raises(ValueError, "^parts is 1 to 64", edgebpf.Cluster._over, None, 4, 65)
            self.assertEqual(cluster.apply(np.arange(65_536) % 300, np.arange(65_536) // 300).added, 65_536)
            self.assertEqual(cluster.batch(inserts=([0], [299]), removes=([0], [0])), edgebpf.Counts(2, 1, 1))
            for ask in (cluster.pin().degrees, cluster.pin().lists):
                self.raises(edgebpf.VertexRange, "^a vertex of frontier is not below 300$", ask, [300])
            self.raises(edgebpf.VertexRange, "^source 300 is not below 300$", cluster.pin().has_edge, 300, 0)

    def test_no_memory(self):
        """A batch that a part cannot hold is not committed, nor is a later one; versions stay."""
        with wild() as (cluster, engine):
            cluster.apply([0, 300], [1, 2])
            version, store = cluster.pin(), engine.placed[1].part._store
            apply = store.apply
            store.apply = lambda sources, *more: apply(sources, *more) if len(sources) == 0 else no_memory()
            counts = [cluster.begin([source], [5]) for source in (0, 300, 0)]
            words = "^part 1 could not apply a batch, and no batch after [12] is taken: none is left$"
            for one in counts[1:]:
                self.raises(edgebpf.NoMemory, words, one.result, 60)
            self.raises(edgebpf.NoMemory, words, cluster.apply, [0], [7])
            self.assertEqual(version.csr()[1].tolist(), [1, 2])
            self.assertEqual(cluster.pin().has_edges([0, 300], [5, 5]).tolist(), [counts[0].exception() is None, False])

    def test_lost(self):
        """After a loss no batch is taken, and the versions of other parts stay."""
        with wild() as (cluster, engine):
            cluster.apply([0, 300], [1, 2])
            version = cluster.pin()
            engine.placed[1].lost.append(True)
            self.raises(edgebpf.PartLost, "^part 1 was lost", cluster.apply, [0], [3])
            self.raises(edgebpf.PartLost, "^part 1 was lost", version.csr)
            self.assertEqual(version.neighbours(0).tolist(), [1])

    def test_programs_of_others(self):
        """A program that may ask about another vertex than its edge's source is refused, and so is what a run of one store refuses."""
        with wild(vertices=300) as (cluster, _):
            cluster.apply([0, 256], [256, 0])
            version = cluster.pin()
            others = edgebpf.assemble("ldxw r1, [r1+4]\ncall 1\nexit")
            for call in (lambda: version.run(others), lambda: version.numbers(others), lambda: version.pairs(others, [0], [1])):
                self.raises(edgebpf.NotHere, "^the program may ask about other vertices than its edge's source: about its target in .* copies=True$", call)
            self.raises(edgebpf.NotHere, ": about any in a cluster with whole=True$", version.run, edgebpf.assemble(OF_ANY))
            target = edgebpf.assemble(TARGET)
            self.raises(ValueError, "^a reduction is sum, min or max$", version.run, target, "mean")
            self.raises(edgebpf.ArgumentLength, "^the argument has 0 bytes, not 1$", version.run, target, argument=b"1")
            self.raises(TypeError, "^a program is made by", version.run, TARGET)
            self.raises(ValueError, "^seconds is 0 to", version.run, target, seconds=-1)
            self.raises(edgebpf.VertexRange, "^a vertex of frontier", version.run, target, frontier=[300])
            result = version.run(target, "min", seconds=0)
            self.assertEqual((result.edges, result.total, result.values[[0, 1, 256]].tolist()), (2, 0, [256, 2**64 - 1, 0]))
            nothing = version.run(target, "min", [])
            self.assertEqual((nothing.edges, nothing.total, len(nothing.values), len(version.numbers(target, b"", []))), (0, 2**64 - 1, 0, 0))

    def test_own_source_only(self):
        """The user's word is taken, also where it is wrong: vertex 256 is of another part, and has no edge in that of vertex 0."""
        program = edgebpf.assemble(DEGREE_OF_TARGET)
        with wild() as (cluster, _):
            cluster.apply([0, 0, 256], [1, 256, 3])
            self.raises(edgebpf.NotHere, "copies=True$", cluster.pin().run, program)
            cluster._router.trusts = True
            self.assertEqual((cluster.pin().run(program).total, cluster.pin().run(program).edges), (0, 3))
        for more in ({"copies": True}, {"whole": True}):
            self.raises(ValueError, "^own_source_only is for a cluster without copies and without whole$", lambda: edgebpf.Cluster(None, 4, own_source_only=True, **more))

    def test_a_run_that_is_given_up(self):
        """Parts are told before the cluster closes, also right after it was given up."""
        told = []
        with unittest.mock.patch.object(cluster_part.Part, "cancel", lambda part, era, token: told.append(token)), wild() as (cluster, _):
            cluster.apply([0, 256, 512], [1, 1, 1])
            cluster._router.soon(cluster._router.cancel, 7)
        self.assertEqual(told, [7, 7, 7])

    def test_copies(self):
        """A program asks about targets of other parts at each version as it was, also while their lists change; about any vertex it is refused."""
        with wild(asks="target") as (cluster, _), edgebpf.Store(600) as store:
            versions = []
            for number in range(60):
                # 300 and 512 are of two other parts; each list gets an edge and later loses it, and 0 leads to 512 from some batch on.
                edits = [0, 300, 300, 512], [300 if number < 20 else 512, number, number - 7, 2 * number], [False, False, number > 6, number % 5 == 0]
                edits = tuple(column[number <= 6 and 3:] if number == 0 else column for column in edits) if number < 7 else edits
                edits = tuple([value for value, target in zip(column, edits[1]) if target >= 0] for column in edits)
                cluster.begin(*edits)
                store.apply(*edits)
                versions.append((cluster.apply([0], [number]).version, store.apply([0], [number]) and store.pin(), cluster.pin()))
            for text in (DEGREE_OF_TARGET, BACK):
                program = edgebpf.assemble(text)
                for number, one, version in versions:
                    told, wanted = (graph.run(program) for graph in (version, one))
                    self.assertEqual(number, version.number)
                    random_clusters.same(text, *((result.edges, result.total, result.values) for result in (told, wanted)))
                    random_clusters.same(text, (version.edges, version.degrees(), *version.csr()), (one.edges, one.degrees(), *one.csr()))
            self.raises(edgebpf.NotHere, ": about any in a cluster with whole=True$", versions[-1][2].run, edgebpf.assemble(OF_ANY))

    def test_copies_under_way(self):
        """Many batches of one message each name lists for the first time, which change before, in the same message and after."""
        program = edgebpf.assemble("ldxw r1, [r1+4]\nmov r2, 0\ncall 3\nexit")
        for seed in range(4):
            chance = random.Random(seed)
            with wild(vertices=1_200, parts=3, asks="target") as (cluster, engine), edgebpf.Store(1_200) as store:
                engine.held.append(engine.placed[0])
                # By this pin parts keep all versions.
                first, counts, wanted, there = cluster.pin(), [], [], {source: [] for source in range(256, 330)}
                for number in range(120):
                    far = [chance.randrange(256, 330) for _ in range(8)]
                    # Some lists get an edge, and some lose the last one that they got; one or two are named, by vertex 0.
                    targets = [number] * 4 + [there[source].pop() if there[source] else 0 for source in far[4:]]
                    for source in far[:4]:
                        there[source].append(number)
                    edits = [*far, 0, 0], [*targets, *far[3:5]], [*[False] * 4, *[True] * 4, False, chance.random() < 0.5]
                    store.apply(*edits)
                    wanted.append(store.pin())
                    counts.append(cluster.begin(*edits))
                    if len(counts) in (10, 60, 90):
                        engine.held.clear() if engine.held else engine.held.append(engine.placed[0])
                engine.held.clear()
                counts[-1].result(60)
                random_clusters.same(f"seed {seed}", cluster.pin().numbers(program), store.pin().numbers(program))
                for number, one in enumerate(wanted, 1):
                    told, named = engine.placed[0].part._versions[number], one.neighbours(0)
                    random_clusters.same(f"seed {seed}, version {number}", (told.neighbours(0), told.lists(named)), (named, one.lists(named)))
                first.close()

    def test_pairs_of_copies(self):
        """The target of a pair need not be that of an edge, so its list comes with the run; its ends may be no vertices."""
        with wild(asks="target") as (cluster, engine):
            cluster.apply([300, 300, 0], [1, 2, 5])
            version, degree = cluster.pin(), edgebpf.assemble(DEGREE_OF_TARGET)
            self.assertEqual(version.pairs(degree, [0, 0, 300, 599, 2**31], [300, 600, 0, 300, 300]).tolist(), [2, 0, 1, 2, 2])
            self.assertEqual([worker.part._versions[1].edges for worker in engine.placed], [1, 2, 0])
            into = np.zeros(600, np.uint64)
            with unittest.mock.patch.object(cluster._router, "read", wraps=cluster._router.read) as read:
                self.assertEqual((version.each(degree, into=into).total, into[[0, 300]].tolist()), (3, [1, 2]))
            # Of its own lists none is sent to a part.
            self.assertEqual([question for (_, question, given), _ in read.call_args_list if given], ["run"])

    def test_copies_that_are_not_needed(self):
        """A part drops lists that its edges do not name any more, once it has twice as many as it needs; versions before keep theirs."""
        with unittest.mock.patch.object(cluster_copies, "LEAST_LOOK", 40), wild(vertices=512, parts=2, asks="target") as (cluster, engine):
            far, nulls = np.arange(256, 306), np.zeros(50, int)
            cluster.apply(far, np.arange(50))
            cluster.apply(nulls[:30], far[:30])
            version = cluster.pin()
            cluster.apply(nulls[:30], far[:30], nulls[:30] == 0)
            cluster.apply(nulls[:20], far[30:])
            # With the next batches, which name no list, it drops 30 of 50; it has 20 edges of its own then, and one to vertex 1.
            ends = time.monotonic() + 20
            while engine.placed[0].part._versions[cluster.apply([0], [1]).version].edges != 41 and time.monotonic() < ends:
                time.sleep(0.01)
            now, degree = cluster.pin(), edgebpf.assemble(DEGREE_OF_TARGET)
            self.assertEqual(engine.placed[0].part._versions[now.number].edges, 41)
            self.assertEqual((now.run(degree, frontier=[0]).total, version.run(degree, frontier=[0]).total), (20, 30))
            # What was dropped is had again.
            cluster.apply(nulls, far)
            self.assertEqual(cluster.pin().run(degree, frontier=[0]).total, 50)

    def test_a_long_list(self):
        """A list that is longer than a batch is copied, to one store of part and beside pairs."""
        with wild(vertices=140_000, parts=2, asks="target") as (cluster, _):
            for begin in (0, 65_536):
                cluster.apply(np.full(65_536, 256), np.arange(begin, begin + 65_536))
            program = edgebpf.assemble(DEGREE_OF_TARGET)
            self.assertEqual(cluster.pin().pairs(program, [0], [256]).tolist(), [131_072])
            cluster.apply([0], [256])
            self.assertEqual(cluster.pin().run(program, frontier=[0]).total, 131_072)

    def test_more_batches_than_a_log_has(self):
        """A list that is put in by more batches than a log has room for is copied, since the store rebases meanwhile."""
        with wild(vertices=4_500, parts=2, asks="target") as (cluster, engine):
            cluster.apply(np.full(4_500, 256), np.arange(4_500))
            program = edgebpf.assemble(DEGREE_OF_TARGET)
            with unittest.mock.patch.object(cluster_part, "MOST_EDITS", 1):
                self.assertEqual(cluster.pin().pairs(program, [0], [256]).tolist(), [4_500])
                cluster.apply([0], [256])
            self.assertEqual(cluster.pin().run(program, frontier=[0]).total, 4_500)
            self.assertEqual([worker.part._versions[2].epoch for worker in engine.placed], [2, 0])

    def test_whole(self):
        """With every edge in each part a program asks about any vertex, and edges count once."""
        with wild(asks="all") as (cluster, engine):
            cluster.apply([0, 1, 300, 300], [300, 5, 1, 2])
            version = cluster.pin()
            result = version.run(edgebpf.assemble(OF_ANY))
            self.assertEqual((version.edges, result.edges, result.total, version.degrees([0, 300]).tolist()), (4, 4, 4, [1, 2]))
            self.assertEqual((version.csr()[1].tolist(), len(version.csr()[0])), ([300, 5, 1, 2], 601))
            self.assertEqual(version.pairs(edgebpf.assemble(DEGREE_OF_TARGET), [599, 0], [300, 1]).tolist(), [2, 1])
            self.assertEqual([worker.part._versions[1].edges for worker in engine.placed], [4] * 3)

    def test_no_memory_for_copies(self):
        """A batch of whose copies a part has no memory is not committed, and versions stay."""
        for asks in ("target", "all"):
            with wild(asks=asks) as (cluster, engine):
                cluster.apply([0, 300], [300, 1])
                version = cluster.pin()
                with unittest.mock.patch.object(engine.placed[0].part, "_copy", side_effect=no_memory):
                    self.raises(edgebpf.NoMemory, "^part 0 could not apply a batch, and no batch after 1 is taken: none is left$", cluster.apply, [300], [2])
                self.assertEqual((version.run(edgebpf.assemble(DEGREE_OF_TARGET)).total, cluster.pin().number), (1, 1))

    def test_ends_of_runs(self):
        """The seconds of a run and a Ctrl-C reach all parts."""
        running = []

        def counted(*given):
            running.append(given)
            try:
                return finished(*given)
            finally:
                running.remove(given)

        finished = cluster_part.finished
        with wild() as (cluster, _), unittest.mock.patch.object(cluster_part, "finished", counted):
            cluster.apply(np.arange(60_000) % 600, np.arange(60_000) // 600)
            version, hostile = cluster.pin(), edgebpf.assemble(HOSTILE)
            begun = time.monotonic()
            for call in (lambda: version.run(hostile, seconds=0.05), lambda: version.numbers(hostile, seconds=0.05),
                         lambda: version.pairs(hostile, range(600), range(600), seconds=0.05)):
                # It is the parts that end it, and not those who wait, also on a machine with much to do.
                with unittest.mock.patch("edgebpf.cluster.LATE_SECONDS", 60), self.assertRaisesRegex(edgebpf.TimedOut, "^0.05 seconds were over$") as told:
                    call()
                self.assertIsNone(told.exception.run)
            self.assertLess(time.monotonic() - begun, 30)
            self.addCleanup(signal.signal, signal.SIGALRM, signal.signal(signal.SIGALRM, signal.default_int_handler))
            signal.setitimer(signal.ITIMER_REAL, 0.2)
            with self.assertRaises(KeyboardInterrupt):
                version.run(hostile)
            ends = time.monotonic() + 30
            while running and time.monotonic() < ends:
                time.sleep(0.01)
            self.assertEqual(running, [])
            self.assertEqual(version.run(edgebpf.assemble(TARGET)).edges, 60_000)

    def test_threads(self):
        """Several threads of each part make a run, and its answer is that of one."""
        at_work, most = [], []

        def counted(*given):
            at_work.append(given)
            most.append(len(at_work))
            try:
                # Whoever begins meanwhile is at work beside this one.
                time.sleep(0.02)
                return finished(*given)
            finally:
                at_work.remove(given)

        finished, vertices = cluster_part.finished, 4096
        program = edgebpf.assemble("ldxw r0, [r1+4]\nldxdw r2, [r1+24]\nmul r0, 3\nadd r0, r2\nexit", 32)
        chance = np.random.default_rng(5)
        column, ends = chance.integers(0, 1 << 62, vertices, np.uint64), chance.integers(0, vertices, (2, 30_000)).astype(np.uint32)
        with wild(vertices, 2) as (cluster, _), unittest.mock.patch.object(cluster_part, "finished", counted):
            cluster.apply(*ends)
            version, more = cluster.pin(), {"columns": [column]}
            calls = [
                lambda threads: version.run(program, "sum", **more, threads=threads).values,
                lambda threads: version.run(program, "min", **more, threads=threads).total,
                lambda threads: version.numbers(program, **more, threads=threads),
                lambda threads: version.pairs(program, *ends, **more, threads=threads),
            ]
            for call in calls:
                alone = call(1)
                most.clear()
                self.assertTrue(np.array_equal(call(3), alone))
                self.assertGreater(max(most), 2)
            for reduction in ("sum", "min", "max"):
                one, three = (np.full(vertices, 7, np.uint64) for _ in range(2))
                alone = version.push(program, reduction, into=one, changed=True, **more)
                several = version.push(program, reduction, into=three, changed=True, **more, threads=3)
                self.assertEqual((several.edges, several.total), (alone.edges, alone.total))
                self.assertTrue(np.array_equal(several.changed, alone.changed) and np.array_equal(one, three))
            self.raises(edgebpf.TimedOut, "^0.01 seconds were over$", version.run, edgebpf.assemble(HOSTILE), seconds=0.01, threads=3)
            for wrong in (0, 65):
                self.raises(ValueError, "^threads is 1 to 64$", version.run, program, threads=wrong, **more)

    def test_no_worker(self):
        engine = random_clusters.Wild(random.Random(1))
        with unittest.mock.patch.object(engine, "place", side_effect=edgebpf.Error("the engine has no worker")):
            self.raises(edgebpf.Error, "^the engine has no worker$", edgebpf.Cluster._over, engine, 4)

    def test_other_release(self):
        part = cluster_part.Part()
        self.raises(edgebpf.Error, "^a worker has edgebpf .*, and the cluster 0.0.9: install the same release$", part.begin, 1, "0.0.9", 4, 0, None)


@unittest.skipIf(np is None, "not there: numpy")
@unittest.skipIf(np is not None and edgebpf.library.path() is None, "not there: cffi, or libedgebpf.so, which make -C dist makes")
class WithAFolder(Base):
    def setUp(self):
        folder = tempfile.TemporaryDirectory()
        self.addCleanup(folder.cleanup)
        self.folder = f"{folder.name}/graph"

    def again(self, **more):
        """The graph of the folder once more."""
        return wild(**{"vertices": None, "parts": None, "folder": self.folder, **more})

    def edges(self):
        with self.again() as (cluster, _), cluster.pin() as version:
            return version.number, version.csr()[1].tolist()

    def test_streams(self):
        """Random streams in which parts and the router are lost are those of one store."""
        losses = 0
        for number in range(8):
            with self.subTest(number=number):
                losses += random_clusters.lossy_stream(random.Random(f"test {number}"), 50)[1]
        self.assertGreater(losses, 40)

    def test_a_pin_outlives_its_part(self):
        """A version that was pinned before parts were lost answers as before, also after a checkpoint and a loss of all."""
        with self.again(vertices=600, parts=3) as (cluster, engine):
            cluster.apply([0, 300, 599], [1, 2, 3])
            version = cluster.pin()
            for target in range(4, 40):
                cluster.apply([0, 300], [target, target])
            self.assertEqual(cluster.checkpoint(), 1)
            for worker in engine.placed[:3]:
                worker.lost.append(True)
            self.assertEqual(version.csr()[1].tolist(), [1, 2, 3])
            self.assertEqual(cluster.apply([599], [4]), edgebpf.Counts(38, 1, 0))
            self.assertEqual((version.edges, cluster.pin().edges, cluster.pin().degree(599), len(engine.placed)), (3, 76, 2, 6))

    def test_copies_of_lost_parts(self):
        """A part that begins again has its copies at the oldest pinned version and at all later ones, also if all parts are lost."""
        program = edgebpf.assemble(DEGREE_OF_TARGET)
        for asks in ("target", "all"):
            folder = f"{self.folder}-{asks}"
            with wild(600, 3, folder, asks) as (cluster, engine):
                cluster.apply([0, 300, 599], [300, 1, 0])
                versions = [cluster.pin()]
                for number in range(1, 10):
                    cluster.apply([300, 599, 0], [number + 1, 300, 599 if number == 5 else 300])
                    versions.append(cluster.pin())
                self.assertEqual(cluster.checkpoint(), 1)
                wanted = [[1, 1]] + [[number + 1 + (number >= 5) * 2, 1 + (number >= 5) + number + 1] for number in range(1, 10)]
                for lost in ([0], [1, 2], [0, 1, 2]):
                    for place in lost:
                        cluster._router._parts[place].handle.lost.append(True)
                    values = [version.run(program, frontier=[0, 599]).values.tolist() for version in versions]
                    self.assertEqual(values, wanted)
                self.assertEqual(cluster.apply([599], [599]), edgebpf.Counts(11, 1, 0))
                self.assertEqual(versions[0].csr()[1].tolist(), [300, 1, 0])
                for version in versions:
                    version.close()
                # Nothing else is pinned, so that parts may forget.
                self.assertEqual((cluster.apply([599], [599]).added, dict(cluster._router.pins)), (0, {}))
            with wild(None, None, folder, asks) as (cluster, _):
                version = cluster.pin()
                self.assertEqual((version.number, version.edges, version.run(program, frontier=[0]).total), (12, 15, 13))
            with wild(None, None, folder) as (cluster, _):
                self.raises(edgebpf.NotHere, "copies=True$", cluster.pin().run, program)

    def test_no_memory_for_copies_of_a_lost_part(self):
        """A part for whose copies no memory is left ends the batches, and what asks it; others answer, and nothing acknowledged is lost."""
        program = edgebpf.assemble(DEGREE_OF_TARGET)
        with wild(600, 3, self.folder, "target") as (cluster, engine):
            cluster.apply([0, 300], [300, 1])
            version = cluster.pin()
            with unittest.mock.patch.object(cluster_part.Part, "adopt", no_memory):
                engine.placed[0].lost.append(True)
                self.raises(edgebpf.NoMemory, "^part 0 could not begin again, and no batch after 1 is taken: none is left$", cluster.apply, [0], [1])
            self.raises(edgebpf.PartLost, "^part 0 was lost: .*none is left$", version.run, program)
            self.assertEqual(version.neighbours(300).tolist(), [1])
        with unittest.mock.patch.object(cluster_part.Part, "adopt", no_memory):
            self.raises(edgebpf.NoMemory, "^part 0 could not begin again, .*: none is left$", wild(None, None, self.folder, "target").__enter__)
        self.assertEqual(self.edges(), (1, [300, 1]))

    def test_lost_before_the_commit(self):
        """A batch of which a part told before it was lost is committed once the part has it again, with the counts of all parts."""
        with self.again(vertices=600, parts=3) as (cluster, engine):
            engine.held.append(engine.placed[1])
            counts = [cluster.begin([0, 300], [target, target]) for target in range(3)]
            while cluster._router._parts[0].done < 3 or cluster._router._parts[2].done < 3:
                time.sleep(0.001)
            engine.refusals = 1
            engine.placed[0].lost.append(True)
            while cluster._router._parts[0].is_live:
                time.sleep(0.001)
            engine.held.clear()
            while cluster._router._parts[1].done < 3:
                time.sleep(0.001)
            self.assertEqual([one.done() for one in counts], [False] * 3)
            engine.refusals = 0
            self.assertEqual([one.result() for one in counts], [edgebpf.Counts(number, 2, 0) for number in (1, 2, 3)])
            self.assertEqual(cluster.pin().edges, 6)

    def test_checkpoints(self):
        """A checkpoint lets batches be dropped that are before the one before it; a damaged one is replaced by that."""
        with self.again(vertices=600, parts=2) as (cluster, _):
            for number in range(1, 31):
                cluster.apply([number, 256 + number], [number, number])
                if number % 10 == 0:
                    self.assertEqual((cluster.checkpoint(), cluster.checkpoint()), (number, number))
            journal = cluster._router.journal
            self.assertEqual([len(list(journal.batches(number))) for number in (20, 30)], [10, 0])
            self.assertEqual(journal._batches.first_batch(), 21)
        targets = [*range(1, 31), *range(1, 31)]
        self.assertEqual(self.edges(), (30, targets))
        for part, number in (("part-0", 30), ("part-1", 30), ("part-1", 20)):
            path = pathlib.Path(self.folder, part, f"snapshot-{number:016}.csr")
            self.assertTrue(path.exists())
            body = bytearray(path.read_bytes())
            body[-1] ^= 1
            path.write_bytes(body)
            if number == 30:
                self.assertEqual(self.edges(), (30, targets))
        self.raises(edgebpf.Error, "no checkpoint of part 1 is whole$", self.edges)
        self.assertEqual(sorted(path.name for path in pathlib.Path(self.folder, "part-0").glob("snapshot*")),
                         [f"snapshot-{number:016}.csr" for number in (20, 30)])

    def test_by_itself(self):
        """A checkpoint comes by itself after so many batches, or edits."""
        for name, number in (("CHECKPOINT_BATCHES", 7), ("CHECKPOINT_EDITS", 14)):
            with unittest.mock.patch.object(cluster_router, name, number), wild(folder=f"{self.folder}-{name}") as (cluster, _):
                for number in range(1, 20):
                    cluster.apply([0, 300], [number, number])
                ends = time.monotonic() + 10
                while cluster._router.journal.newest == 0 and time.monotonic() < ends:
                    time.sleep(0.01)
                self.assertGreater(cluster._router.journal.newest, 6)

    def test_wrong_folders(self):
        with self.again(vertices=600, parts=2) as (cluster, _):
            cluster.apply([0], [1])
            self.raises(edgebpf.Error, "graph: another service has this folder$", self.edges)
        self.raises(edgebpf.Error, "graph: the graph has 600 vertices, and not 601$", self.again(vertices=601).__enter__)
        self.raises(edgebpf.Error, "graph: the graph has 2 parts, and not 3$", self.again(parts=3).__enter__)
        self.assertEqual(self.edges(), (1, [1]))
        with contextlib.closing(sqlite3.connect(f"{self.folder}/serve.db")) as db, db:
            db.execute("delete from journal")
        self.raises(edgebpf.Error, "graph: batches 1 to 1 were acknowledged, and are missing$", self.edges)
        pathlib.Path(self.folder, "serve.db-wal").unlink(missing_ok=True)
        pathlib.Path(self.folder, "serve.db").write_bytes(bytes(range(256)) * 64)
        self.raises(edgebpf.Error, "graph: file is not a database$", self.edges)
        self.raises(edgebpf.Error, "lock: .*File exists", self.again(folder=f"{self.folder}/lock").__enter__)
        self.raises(TypeError, "^a cluster has vertices, or a folder that has them$", edgebpf.Cluster._over, None)
        with wild() as (cluster, _):
            self.raises(edgebpf.Error, "^the cluster has no folder$", cluster.checkpoint)

    def test_no_memory(self):
        """A batch that a part cannot hold is not in the folder, nor is one after it."""
        with self.again(vertices=600, parts=3) as (cluster, engine):
            cluster.apply([0, 300], [1, 2])
            store = engine.placed[1].part._store
            store.apply = lambda *_: no_memory()
            counts = [cluster.begin([source], [5]) for source in (0, 300, 0)]
            words = "^part 1 could not apply a batch, and no batch after 1 is taken: none is left$"
            for one in counts:
                self.raises(edgebpf.NoMemory, words, one.result, 60)
            self.assertEqual(cluster.pin().csr()[1].tolist(), [1, 2])
            for worker in engine.placed[:3]:
                worker.lost.append(True)
            self.assertEqual(cluster.pin().csr()[1].tolist(), [1, 2])
            self.raises(edgebpf.NoMemory, words, cluster.apply, [0], [7])
        self.assertEqual(self.edges(), (1, [1, 2]))

    def test_a_disk_that_fails(self):
        """A batch that is not on the disk is seen by nobody."""
        with self.again(vertices=600, parts=3) as (cluster, _):
            cluster.apply([0], [1])
            journal = cluster._router.journal
            with unittest.mock.patch.object(journal._batches, "append", side_effect=OSError("No space left on device")):
                self.raises(edgebpf.Error, "^the journal cannot be written, and no batch after 1 is taken: .*No space left on device$", cluster.apply, [0], [2])
            self.raises(edgebpf.Error, "^the journal cannot be written", cluster.apply, [0], [2])
            self.assertEqual(cluster.pin().csr()[1].tolist(), [1])
        self.assertEqual(self.edges(), (1, [1]))

    def test_lost_again_and_again(self):
        """A part that no worker can have ends the batches, and what asks it; nothing waits for ever, and nothing that was acknowledged is lost."""
        for name, number, refusals in (("MOST_LOSSES", 3, 0), ("PATIENCE_SECONDS", 0.3, 1)):
            with unittest.mock.patch.object(cluster_router, name, number), wild(folder=f"{self.folder}-{name}") as (cluster, engine):
                cluster.apply([0, 300], [1, 2])
                version = cluster.pin()
                engine.refusals, engine.poison = refusals, refusals == 0
                engine.placed[1].lost.append(True)
                self.raises(edgebpf.PartLost, "^part 1 was lost, and no batch after 1 is taken: ", cluster.apply, [300], [3])
                self.raises(edgebpf.PartLost, "^part 1 was lost", version.csr)
                self.assertEqual(version.neighbours(0).tolist(), [1])
            engine = random_clusters.Wild(random.Random(1), 0.001)
            engine.poison = True
            with unittest.mock.patch.object(cluster_router, "MOST_LOSSES", 3):
                self.raises(edgebpf.PartLost, "^part . was lost, and no batch after 0 is taken: ", edgebpf.Cluster._over, engine, folder=f"{self.folder}-{name}")
            with wild(None, None, folder=f"{self.folder}-{name}") as (cluster, _):
                self.assertEqual((cluster.pin().number, cluster.pin().csr()[1].tolist()), (1, [1, 2]))


def no_memory(*_):
    raise edgebpf.NoMemory("none is left")


@unittest.skipIf(np is None, "not there: numpy")
@unittest.skipIf(np is not None and edgebpf.library.path() is None, "not there: cffi, or libedgebpf.so, which make -C dist makes")
@unittest.skipIf(importlib.util.find_spec("distributed") is None, "not there: distributed, of python3-distributed")
class OverDask(Base):
    def test_a_stream(self):
        """Two worker processes, three parts: workers of another release; a random stream in which workers are killed, and the router's process."""
        from edgebpf.cluster_engine import Engine

        # On a machine with much to do a worker that was killed is there again later than a cluster waits.
        patience = unittest.mock.patch.object(cluster_router, "PATIENCE_SECONDS", 600)
        with patience, dask(2) as client, tempfile.TemporaryDirectory() as folder:
            client.run(set_release, "0.0.9")
            self.raises(edgebpf.Error, "^a worker has edgebpf 0.0.9, and the cluster", edgebpf.Cluster, client, 4)
            client.run(set_release, edgebpf.__version__)
            trial = random_clusters.Trial(random.Random(5), Engine(client), (3_000, 3), f"{folder}/one", "target")
            for step in range(60):
                trial.step()
                if step in (20, 40):
                    os.kill(min(client.run(os.getpid).values()), 9)
            trial.finish()
            trial.ask()
            trial.run()
            trial.close()
            self.kill_a_router(client, f"{folder}/two")
            self.kill_beside_a_wrong_worker(client, f"{folder}/three")

    def kill_beside_a_wrong_worker(self, client, folder):
        """A part that is lost does not stay with a worker that has another release."""
        client.wait_for_workers(2, timeout=300)
        with edgebpf.Cluster(client, 600, 1, folder) as cluster:
            cluster.apply([0], [1])
            mine = cluster._router._parts[0].handle.worker
            others = [worker for worker in client.scheduler_info()["workers"] if worker != mine]
            client.run(set_release, "0.0.9", workers=others)
            os.kill(client.run(os.getpid, workers=[mine])[mine], 9)
            self.assertEqual(cluster.apply([0], [2]), edgebpf.Counts(2, 1, 0))

    def kill_a_router(self, client, folder):
        """A process that edits is killed in the midst of it; what it was told is there, and what was under way is there up to some batch."""
        words = [sys.executable, "-W", "ignore", __file__, client.scheduler.address, folder]
        with subprocess.Popen(words, stdout=subprocess.PIPE, stderr=subprocess.DEVNULL) as process:
            told = [int(process.stdout.readline()) for _ in range(30)]
            process.kill()
            told += [int(line) for line in process.stdout.read().split(b"\n")[:-1]]
        with edgebpf.Cluster(client, folder=folder) as cluster, edgebpf.Store(cluster.vertices) as store:
            version = cluster.pin()
            self.assertEqual(told, list(range(1, len(told) + 1)))
            self.assertTrue(len(told) <= version.number <= len(told) + 20, (len(told), version.number))
            for edits in streamed(version.number):
                store.apply(*edits)
            random_clusters.same("the graph", version.csr(), store.pin().csr())

    def test_document(self):
        """The example of docs/BEYOND.md runs as printed."""
        for block in python_blocks(TOP / "docs/BEYOND.md"):
            with warnings.catch_warnings():
                warnings.simplefilter("ignore")
                exec(compile(block, "BEYOND.md", "exec"), {"__name__": "__main__"})

    def test_clients(self):
        with dask(0) as client:
            self.raises(TypeError, "^client is a distributed.Client, not int$", edgebpf.Cluster, 4, 4)
            self.raises(edgebpf.Error, "^the engine has no worker$", edgebpf.Cluster, client, 4)


def streamed(count):
    """The batches of the process that is killed."""
    chance = np.random.default_rng(3)
    return ((*chance.integers(0, 2_000, (2, 200)), chance.random(200) < 0.3) for _ in range(count))


def stream_until_killed(address, folder):
    """Edits a cluster, 20 batches at once, and says the number of each that is acknowledged."""
    import distributed

    with distributed.Client(address) as client, edgebpf.Cluster(client, 2_000, 3, folder) as cluster:
        waiting = []
        for edits in streamed(1_000_000):
            waiting.append(cluster.begin(*edits))
            if len(waiting) == 20:
                print(waiting.pop(0).result().version, flush=True)


def set_release(release):
    import edgebpf

    edgebpf.__version__ = release


if __name__ == "__main__":
    stream_until_killed(*sys.argv[1:])

"""The Python package over `libedgebpf.so`: the cases of the package over a process, and what only a store in this process has."""
import gc
import os
import pathlib
import random
import re
import shutil
import signal
import subprocess
import sys
import tempfile
import threading
import unittest
import unittest.mock

sys.path.insert(0, str(pathlib.Path(__file__).resolve().parent))
import test_package
from test_package import FOLDER, TARGET, TOP, edgebpf, np, told


@unittest.skipIf(np is None, "not there: numpy")
@unittest.skipIf(np is not None and edgebpf.library.path() is None, "not there: cffi, or libedgebpf.so, which make -C dist makes")
class Native(test_package.Package):
    # These are of a process, or of the package as it lies on disk.
    test_ended = test_killed = test_interrupted = test_cookbook = test_first_runs_at_once = None
    test_interrupted_after_an_answer = test_interrupted_at_a_terminal = test_near_the_root = test_not_here = test_no_pin_of_a_process_that_has_ended = test_what_is_not_pickled = None

    def store(self, vertices, workers=1):
        store = edgebpf.Store(vertices)
        self.addCleanup(store.close)
        return store

    def test_limits(self):
        store = self.store(1)
        for number in range(4_096):
            self.assertEqual(store.batch("A").version, number + 1)
        with self.assertRaises(edgebpf.LogFull):
            store.batch("A")
        self.assertEqual({store.pin().number for _ in range(300)}, {4_096})
        self.assertEqual((store.rebase(), store.batch("A").version), (1, 1))
        for vertices in (0, 1 << 28 | 1):
            with self.assertRaises(ValueError):
                edgebpf.Store(vertices)
        with self.assertRaises(TypeError):
            edgebpf.Store(4.0)

    def test_greatest_graphs(self):
        """More vertices than a script has, and as many as there may be: an edge from the last one to itself."""
        program = edgebpf.assemble(TARGET)
        for vertices in ((1 << 20) + 1, 1 << 28):
            last = vertices - 1
            with edgebpf.Store(vertices) as store:
                self.assertEqual(store.apply([last], [last]).added, 1)
                with self.assertRaises(edgebpf.VertexRange):
                    store.apply([last], [vertices])
                version = store.pin()
                self.assertEqual((version.vertices, version.edges, version.degree(last), version.neighbour(last, 0)), (vertices, 1, 1, last))
                self.assertEqual((version.has_edge(last, last), version.has_edge(last, last - 1)), (True, False))
                self.assertEqual(version.neighbours(last).tolist(), [last])
                result = version.run(program, "sum", frontier=[last, 0])
                self.assertEqual((result.edges, result.total, result.values.tolist()), (1, last, [last, 0]))

    def test_feeds(self):
        """The library gets the numbers of the header, 0 to 3. No call of it tells a feed, so they are looked at on their way."""
        store, real, sent = self.store(2), edgebpf.library.load(), []

        class Recorder:
            def __getattr__(self, name):
                return getattr(real, name)

            def edgebpf_store_apply(self, handle, feed, *more):
                sent.append(feed)
                return real.edgebpf_store_apply(handle, feed, *more)

        with unittest.mock.patch.object(edgebpf.library, "load", return_value=Recorder()):
            self.assertEqual([store.batch(feed).version for feed in "ABCD"], [1, 2, 3, 4])
        self.assertEqual(sent, [0, 1, 2, 3])

    def test_sorted_edges(self):
        """Sorted arrays are the edges, with no batch before; they are those that `csr` gives, and what is wrong is said."""
        chance = random.Random(2)
        for vertices in (1, 63, 64, 65, 256, 257, 1_000):
            # The last vertex's list may be in a tree, that of the first in an array, and others in blocks.
            wanted = {(chance.randrange(vertices), chance.randrange(vertices)) for _ in range(chance.randrange(5 * vertices))}
            wanted |= {(0, target) for target in range(min(vertices, 40))} | {(vertices - 1, target) for target in range(vertices)}
            edges = sorted(wanted)
            starts = np.searchsorted([source for source, _ in edges], np.arange(vertices + 1))
            with edgebpf.Store.from_csr(starts, np.array([target for _, target in edges])) as store:
                version = store.pin()
                self.assertEqual((store.vertices, version.epoch, version.number, version.edges), (vertices, 0, 0, len(edges)))
                found = version.csr()
                self.assertEqual((found[0].tolist(), found[1].tolist()), (starts.tolist(), [target for _, target in edges]))
                # It is edited as any other.
                store.apply(edges=edges[::3], removes=[True] * len(edges[::3]))
                wanted -= set(edges[::3])
                starts, targets = store.pin().csr()
                self.assertEqual(set(zip(np.repeat(np.arange(vertices), np.diff(starts)).tolist(), targets.tolist())), wanted)
                copied = edgebpf.Store.from_csr(starts.astype(np.int32), targets).pin().csr()
                self.assertEqual((copied[0].tolist(), copied[1].tolist()), (starts.tolist(), targets.tolist()))
        for starts, targets, error, words in (
            ([], [], ValueError, "^starts have a place"), ([0], [], ValueError, "^starts have a place"), ([[0, 0]], [], TypeError, "starts are"),
            ([0.0, 1.0], [0], TypeError, "starts are"), ([0, 1], [0.5], TypeError, "targets are"), ([0, 1, 1], [2], edgebpf.VertexRange, "targets"),
            ([1, 1], [0], ValueError, "not sorted"), ([0, 2], [0], ValueError, "not sorted"), ([0, 0], [0], ValueError, "not sorted"),
            ([0, 2, 1, 2], [0, 1], ValueError, "not sorted"), ([0, -1, 1], [0], ValueError, "not sorted"),
            ([0, 2, 2], [1, 1], ValueError, "not sorted"), ([0, 2, 2], [1, 0], ValueError, "not sorted"),
        ):
            with self.assertRaisesRegex(error, words):
                edgebpf.Store.from_csr(starts, targets)

    def test_branches(self):
        """A branch and a branch of it are edited by themselves: each has the edges of its own set, and versions stay as they are."""
        def edges_of(version):
            starts, targets = version.csr()
            return set(zip(np.repeat(np.arange(version.vertices), np.diff(starts)).tolist(), targets.tolist()))

        chance, store, edges = random.Random(8), self.store(300), set()
        stores, sets, versions = [store], [edges], []
        for number in range(400):
            which = chance.randrange(len(stores))
            edits = [(chance.randrange(300), chance.randrange(7) * 43, chance.random() < 0.4) for _ in range(chance.randrange(40))]
            for source, target, is_out in edits:
                (sets[which].discard if is_out else sets[which].add)((source, target))
            stores[which].apply(edges=[edit[:2] for edit in edits], removes=[edit[2] for edit in edits])
            if number % 50 == 49:
                stores[which].rebase()
            if number % 80 == 79:
                pinned = stores[which].pin()
                versions.append((pinned, set(sets[which])))
                branch = pinned.branch()
                self.addCleanup(branch.close)
                first = branch.pin()
                self.assertEqual((first.epoch, first.number, first.vertices, edges_of(first)), (0, 0, 300, sets[which]))
                stores.append(branch), sets.append(set(sets[which]))
        stores[0].close()
        for branch, wanted in list(zip(stores, sets))[1:]:
            self.assertEqual(edges_of(branch.pin()), wanted)
            self.assertEqual(branch.batch("D").added, 0)
        for version, wanted in versions:
            self.assertEqual(edges_of(version), wanted)
        version.close()
        with self.assertRaises(edgebpf.Closed):
            version.branch()

    def test_closed(self):
        store = self.store(2)
        store.batch("A", ([0], [1]))
        with store.pin() as version:
            view, copied = version.neighbours(0), version.csr()
        version.close()
        for ask in (version.csr, lambda: version.run(edgebpf.assemble(TARGET)), lambda: version.neighbours(0)):
            with self.assertRaises(edgebpf.Closed):
                ask()
        pin = store.pin()
        store.close()
        store.close()
        with self.assertRaises(edgebpf.Closed):
            store.batch("A", ([0], [1]))
        with self.assertRaises(edgebpf.Closed):
            store.pin()
        self.assertEqual((view.tolist(), copied[1].tolist(), pin.neighbours(0).tolist()), ([1], [1], [1]))

    def test_views_keep_their_version(self):
        """A view stays as it is after its version and its store were closed, and memory was used again."""
        store = self.store(3_000)
        store.batch("A", (np.zeros(700, int), np.arange(700)))
        version = store.pin()
        view = version.neighbours(0)
        self.assertFalse(view.flags.owndata or view.flags.writeable)
        version.close()
        store.close()
        del version, store
        gc.collect()
        others = [edgebpf.Store(3_000) for _ in range(20)]
        for other in others:
            other.batch("A", (np.zeros(700, int), np.arange(700) + 1))
        self.assertEqual(view.tolist(), list(range(700)))

    def test_lists_while_a_signal_is_handled(self):
        """What handles a signal may ask for lists, at any moment of another question."""
        store, seen = self.store(10), []
        store.batch("A", edges=[(0, 1), (0, 2), (3, 4), (3, 5), (3, 6)])
        version = store.pin()
        before = signal.signal(signal.SIGALRM, lambda *_: seen.append(version.neighbours(3).tolist()))
        self.addCleanup(signal.signal, signal.SIGALRM, before)
        signal.setitimer(signal.ITIMER_REAL, 0.0003, 0.0003)
        try:
            for _ in range(50_000):
                self.assertEqual(version.neighbours(0).tolist(), [1, 2])
        finally:
            signal.setitimer(signal.ITIMER_REAL, 0)
        self.assertGreater(len(seen), 10)
        self.assertTrue(all(one == [4, 5, 6] for one in seen))

    def watched(self, watch):
        """Until the test ends each call of the library goes through `watch`, with its name, the call itself and what it is given."""
        real = edgebpf.library.load()

        class Watching:
            def __getattr__(self, name):
                return lambda *given: watch(name.removeprefix("edgebpf_"), getattr(real, name), given)

        patch = unittest.mock.patch("edgebpf.library.load", return_value=Watching())
        patch.start()
        self.addCleanup(patch.stop)
        edgebpf.library.calls.cache_clear()
        self.addCleanup(edgebpf.library.calls.cache_clear)

    def test_handles_and_closing(self):
        """No handle is in two calls at once, whatever threads do with one store, version and program, and all handles are closed."""
        foreign, lock, busy, wrong, opened, closed = edgebpf.library.foreign(), threading.Lock(), set(), [], set(), set()
        handle = foreign.typeof("handle *")

        def watch(name, call, given):
            handles = {int(foreign.cast("uintptr_t", one)) for one in given if isinstance(one, foreign.CData) and foreign.typeof(one) is handle}
            with lock:
                if handles & busy:
                    wrong.append(name)
                busy.update(handles)
                (closed if name == "close" else opened).update(handles)
            try:
                return call(*given)
            finally:
                with lock:
                    busy.difference_update(handles)

        self.watched(watch)
        store = edgebpf.Store(64)
        target, version = edgebpf.assemble(TARGET), store.pin()

        def work():
            for number in range(200):
                store.batch("A", ([number % 64], [number % 50]))
                version.run(target), version.numbers(target), version.neighbours(3), version.degree(3)
                with store.pin() as last, last.share() as shared:
                    shared.run(target.share())

        threads = [threading.Thread(target=told, args=(work, wrong)) for _ in range(4)]
        for thread in threads:
            thread.start()
        for thread in threads:
            thread.join()
        store.close(), version.close()
        del store, target, version, work
        gc.collect()
        self.assertEqual(wrong, [])
        # A place in memory may have had a handle twice.
        self.assertLessEqual(opened, closed)
        self.assertGreater(len(opened), 20)

    def test_no_turns(self):
        """Two threads run one program on one version at the same time."""
        store, together, wrong = self.store(4), threading.Barrier(2), []
        store.batch("A", ([0], [3]))

        def watch(name, call, given):
            if name in ("pull_some", "version_lend"):
                together.wait(20)
            return call(*given)

        self.watched(watch)
        target, version = edgebpf.assemble(TARGET), store.pin()

        def work():
            self.assertEqual((version.run(target).total, version.neighbours(0).tolist()), (3, [3]))

        threads = [threading.Thread(target=told, args=(work, wrong)) for _ in range(2)]
        for thread in threads:
            thread.start()
        for thread in threads:
            thread.join()
        self.assertEqual(wrong, [])

    def test_threads_that_end(self):
        """What a thread had of a program is let go when it ends."""
        counts = {"program_share": 0, "close": 0}

        def watch(name, call, given):
            if name in counts:
                counts[name] += 1
            return call(*given)

        store = self.store(4)
        self.watched(watch)
        target, version = edgebpf.assemble(TARGET), store.pin()
        for _ in range(20):
            thread = threading.Thread(target=version.run, args=(target,))
            thread.start()
            thread.join()
        gc.collect()
        # Each has one handle of the version, and one of the program.
        self.assertEqual(counts, {"program_share": 20, "close": 40})

    def test_small_stacks(self):
        """A thread whose stack is smaller than a program needs for its verification makes, runs and explains it all the same."""
        code = """
import threading, edgebpf
store = edgebpf.Store(4)
store.batch("A", ([0], [3]))
version, before, found = store.pin(), edgebpf.assemble("mov r0, 9\\nexit"), []
def work():
    target = edgebpf.assemble("ldxw r0, [r1+4]\\nexit")
    found.append((version.run(target).total, version.run(target.share()).total, version.run(before).total))
    try:
        edgebpf.assemble("ldxw r0, [r1+13]\\nexit")
    except edgebpf.Refused as refused:
        found.append((refused.cause, "rule 11" in edgebpf.explain("ldxw r0, [r1+13]\\nexit")))
for size in (SIZE, 0):
    threading.stack_size(size)
    thread = threading.Thread(target=work)
    thread.start()
    thread.join()
print(found, threading.stack_size())
"""
        for size in (64 << 10, 128 << 10, 300 << 10):
            run = subprocess.run([sys.executable, "-c", code.replace("SIZE", str(size))], env={**os.environ, "PYTHONPATH": str(FOLDER)}, capture_output=True, text=True)
            self.assertEqual((run.stdout, run.stderr, run.returncode), ("[(3, 3, 9), (11, True), (3, 3, 9), (11, True)] 0\n", "", 0))

    def test_types_of_threads(self):
        """Threads that use the library first at the same time have the same types: handles of one kind of types are refused by another."""
        code = """
import sys, threading
from edgebpf import library
sys.setswitchinterval(1e-6)
found, at = [], threading.Barrier(8)
def look():
    at.wait()
    found.append(library.foreign())
threads = [threading.Thread(target=look) for _ in range(8)]
for thread in threads:
    thread.start()
for thread in threads:
    thread.join()
print(len(found), len({id(types) for types in found}))
"""
        run = subprocess.run([sys.executable, "-c", code], env={**os.environ, "PYTHONPATH": str(FOLDER)}, capture_output=True, text=True)
        self.assertEqual((run.stdout, run.stderr, run.returncode), ("8 1\n", "", 0))

    def test_no_thread_for_a_small_stack(self):
        """Where the thread with enough stack cannot be started, nothing is verified."""
        before = threading.stack_size()
        with unittest.mock.patch("threading.Thread.start", side_effect=RuntimeError("can't start new thread")):
            with self.assertRaisesRegex(edgebpf.NoMemory, "^a thread with enough stack could not be started: can't"):
                edgebpf.stacks.elsewhere(lambda: 1)
        self.assertEqual(threading.stack_size(), before)
        with self.assertRaises(ZeroDivisionError):
            edgebpf.stacks.elsewhere(lambda: 1 // 0)

    def test_frontiers(self):
        """A frontier has any order, and a vertex counts as often as it stands there."""
        store = self.store(4)
        store.batch("A", ([0, 0, 1, 3], [1, 2, 2, 3]))
        version, target = store.pin(), edgebpf.assemble(TARGET)
        result = version.run(target, "sum", [3, 0, 2, 0])
        self.assertEqual((result.values.tolist(), result.edges, result.total), ([3, 3, 0, 3], 5, 9))
        self.assertEqual(version.run(target, "min", [2, 1]).values.tolist(), [2**64 - 1, 2])
        frozen = np.array([1, 9, 0, 9])
        frozen.flags.writeable = False
        for kind in ("<i8", ">i8", "<u2", ">u4", "i1", "<u8"):
            self.assertEqual(version.run(target, "sum", frozen.astype(kind)[-2::-2]).values.tolist(), [3, 2])
        self.assertEqual(version.run(target, "sum", frozen[::2]).values.tolist(), [2, 3])
        with unittest.mock.patch.object(edgebpf.native, "MOST_VERTICES", 6):
            self.assertEqual(len(version.run(target, "sum", [0] * 6).values), 6)
            with self.assertRaisesRegex(ValueError, "^a frontier has at most 6 vertices, not 7$"):
                version.run(target, "sum", [0] * 7)
        self.assertEqual(edgebpf.native.MOST_VERTICES, 1 << 28)
        self.assertEqual(len(version.run(target, "sum", np.zeros(1 << 20, np.uint8)).values), 1 << 20)

    def test_which_library(self):
        """What is named comes first, and what is installed last; the checkout's is built again where its text is newer."""
        path, library = edgebpf.library.path.__wrapped__, "edgebpf.library."
        with unittest.mock.patch.dict(os.environ, EDGEBPF_LIBRARY="/named"):
            self.assertEqual(path(), "/named")
        with unittest.mock.patch.dict(os.environ), unittest.mock.patch("ctypes.util.find_library", return_value="/installed"):
            os.environ.pop("EDGEBPF_LIBRARY", None)
            for built, wanted in (("/built", "/built"), (None, "/installed")):
                with unittest.mock.patch(library + "in_checkout", return_value=built):
                    self.assertEqual(path(), wanted)
        with tempfile.TemporaryDirectory() as name:
            folder = pathlib.Path(name)
            (folder / "build").mkdir()
            text, built, link = folder / "libedgebpf.s", folder / "build" / "libedgebpf.so", folder / "link"
            for file, words in ((text, ""), (built, "old"), (link, "#!/bin/sh\necho new$MACHINE > $2\n")):
                file.write_text(words)
            link.chmod(0o755)
            os.utime(built, (1, 1))
            with unittest.mock.patch(library + "DIST", folder), unittest.mock.patch.dict(os.environ, MACHINE="another"):
                self.assertEqual((edgebpf.library.in_checkout(), built.read_text()), (str(built), "new\n"))
                built.write_text("kept")
                self.assertEqual((edgebpf.library.in_checkout(), built.read_text()), (str(built), "kept"))
                for changed in ("link", "libedgebpf-v3.s", *edgebpf.library.BESIDE[:2]):
                    built.write_text("old")
                    with open(folder / changed, "a"):
                        later = built.stat().st_mtime + 9
                        os.utime(folder / changed, (later, later))
                    self.assertEqual((edgebpf.library.in_checkout(), built.read_text()), (str(built), "new\n"), changed)
                    os.utime(folder / changed, (1, 1))

    def test_code_without_a_library(self):
        """What a process verified has no code here, if the library cannot be loaded: that is said."""
        program, library = edgebpf.assemble("mov r0, 1\nexit"), edgebpf.library
        self.assertEqual(program.assembled(), bytes.fromhex("b7000000010000009500000000000000"))
        with unittest.mock.patch.multiple(library, cffi=None, load=library.load.__wrapped__, foreign=library.foreign.__wrapped__):
            with self.assertRaisesRegex(edgebpf.Error, "cffi is not there"):
                program.assembled()

    def test_wrong_libraries(self):
        """What is no library, or one of another interface, is named, whatever is asked first."""
        number = re.search(r"^interface=(\d+)$", (TOP / "dist" / "link").read_text(), re.M)[1]
        self.assertEqual(str(edgebpf.library.INTERFACE), number)
        with tempfile.TemporaryDirectory() as folder:
            other, older, short = (pathlib.Path(folder, name) for name in ("other.so", "older.so", "short.so"))
            other.write_text("no library")
            shutil.copyfile(edgebpf.library.path(), older)
            older.write_bytes(older.read_bytes().replace(f"edgebpf_interface_{number}".encode(), b"edgebpf_interface_0"))
            newest = edgebpf.library.NEWEST
            short.write_bytes(pathlib.Path(edgebpf.library.path()).read_bytes().replace(newest.encode(), newest.encode()[:-1] + b"_"))
            for path, said in (
                (short, f"is older than this package, and lacks {newest}: "), (other, "cannot be loaded: "), (pathlib.Path(folder, "none.so"), "cannot be loaded: "), (older, f"is no libedgebpf.so.{number}, which this package needs"),
            ):
                for ask in ("edgebpf.Store(4)", "edgebpf.assemble('exit')", "edgebpf.Program(bytes(8))", "edgebpf.Live(4)"):
                    code = f"import edgebpf\ntry: {ask}\nexcept edgebpf.Error as error: print(error)"
                    run = subprocess.run([sys.executable, "-c", code], env={**os.environ, "PYTHONPATH": str(FOLDER), "EDGEBPF_LIBRARY": str(path)}, capture_output=True, text=True)
                    self.assertEqual((run.stderr, run.stdout.startswith(f"{path} {said}")), ("", True), run.stdout)

    def test_many_slices(self):
        """A list in a tree lies in many slices, which together have all targets."""
        store = self.store(70_000)
        store.batch("A", (np.full(60_000, 5), np.arange(60_000)))
        version = store.pin()
        slices = version.slices(5)
        self.assertGreater(len(slices), 64)
        self.assertEqual(np.concatenate(slices).tolist(), list(range(60_000)))
        target = edgebpf.assemble(TARGET)
        self.assertEqual(version.numbers(target).tolist(), list(range(60_000)))
        result = version.run(target)
        self.assertEqual((result.edges, result.total, int(result.values[5])), (60_000, 1_799_970_000, 1_799_970_000))
        wide = self.store(1 << 20 | 1)
        wide.batch("A", ([1 << 20], [7]))
        values = wide.pin().run(target, frontier=[0, 1 << 20]).values
        self.assertEqual(values.tolist(), [0, 7])
        whole = version.neighbours(5)
        self.assertEqual(len(whole), 60_000)
        with self.assertRaises(ValueError):
            whole[0] = 1

    def test_versions_in_threads(self):
        """One thread applies batches, and two read pins: each has as many edges as its number says, also on one version."""
        store, target, wrong, shared = self.store(64), edgebpf.assemble(TARGET), [], []

        def reads():
            for _ in range(3_000):
                version = store.pin()
                shared.append(version)
                for one in (version, shared[0]):
                    total, edges = one.run(target).total, one.csr()[1]
                    if one.edges != one.number or len(edges) != one.edges or total != int(edges.sum()):
                        wrong.append((one.number, one.edges, total))

        readers = [threading.Thread(target=told, args=(reads, wrong)) for _ in range(2)]
        for reader in readers:
            reader.start()
        for number in range(64):
            store.batch("A", ([number], [63 - number]))
        for reader in readers:
            reader.join()
        self.assertEqual(wrong, [])


if __name__ == "__main__":
    unittest.main()

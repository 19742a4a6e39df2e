"""`edgebpf.Live`: one thread edits, others read the last version, and rebases come by themselves."""
import pathlib
import random
import sys
import threading
import unittest
import unittest.mock

sys.path.insert(0, str(pathlib.Path(__file__).resolve().parent))
from test_package import TARGET, edgebpf, np, told


@unittest.skipIf(np is None, "not there: numpy")
@unittest.skipIf(np is not None and edgebpf.library.path() is None, "not there: cffi, or libedgebpf.so, which make -C dist makes")
class Live(unittest.TestCase):
    def edges_of(self, version):
        starts, targets = version.csr()
        return list(zip(np.repeat(np.arange(version.vertices), np.diff(starts)).tolist(), targets.tolist()))

    def test_numbers_and_rebases(self):
        """Each version has the edges of a set, and is numbered over all rebases; a version that is held stays as it was."""
        chance, edges, held = random.Random(3), set(), []
        with edgebpf.Live(20, batches=7, edits=200) as live:
            self.assertEqual((live.numbered()[0], live.latest().edges, live.vertices), (0, 0, 20))
            for number in range(1, 200):
                edits = [(chance.randrange(20), chance.randrange(20), chance.random() < 0.4) for _ in range(chance.randrange(70))]
                before = set(edges)
                for source, target, is_out in edits:
                    (edges.discard if is_out else edges.add)((source, target))
                counts = live.apply(edges=[edit[:2] for edit in edits], removes=[edit[2] for edit in edits], feed=chance.choice("ABCD"))
                self.assertEqual(counts, edgebpf.Counts(number, len(edges - before), len(before - edges)))
                self.assertEqual((live.numbered()[0], self.edges_of(live.latest())), (number, sorted(edges)))
                self.assertLessEqual(live.latest().number, 7)
                held.append((live.latest(), sorted(edges)))
            self.assertEqual(live.batch("A", ([0], [1]), ([0], [1])).version, 200)
        # Of 200 batches a rebase came after at most 7 each, and after some of many edits sooner.
        self.assertGreater(held[-1][0].epoch, 200 // 7)
        for version, wanted in held:
            self.assertEqual(self.edges_of(version), wanted)

    def test_of_a_version(self):
        """A graph that begins with a version's is one of its own, and is numbered from 0."""
        with edgebpf.Store(4) as store:
            store.apply(edges=[(0, 1), (2, 3)])
            version = store.pin()
        with edgebpf.Live.of(version, batches=1) as live:
            self.assertEqual((live.numbered()[0], live.vertices, self.edges_of(live.latest())), (0, 4, [(0, 1), (2, 3)]))
            self.assertEqual(live.apply([0, 3], [1, 0], [True, False]).version, 1)
            self.assertEqual(live.apply([3], [1]).version, 2)
            self.assertEqual((live.latest().epoch, self.edges_of(live.latest())), (1, [(2, 3), (3, 0), (3, 1)]))
        self.assertEqual(self.edges_of(version), [(0, 1), (2, 3)])
        with self.assertRaisesRegex(TypeError, "^version is a version of a Store, not int"):
            edgebpf.Live.of(4)
        with self.assertRaisesRegex(ValueError, "^batches is"):
            edgebpf.Live.of(version, batches=0)
        version.close()
        with self.assertRaises(edgebpf.Closed):
            edgebpf.Live.of(version)

    def test_edits_end_an_epoch(self):
        live = edgebpf.Live(4, edits=6)
        epochs = []
        for _ in range(6):
            live.batch("A", edges=[(0, 1), (0, 2), (0, 3)])
            epochs.append((live.latest().epoch, live.latest().number))
        self.assertEqual(epochs, [(0, 1), (0, 2), (1, 1), (1, 2), (2, 1), (2, 2)])

    def test_interrupted_after_a_batch_was_applied(self):
        """Such a batch is in the graph, and all that come after it count it. Each puts one edge in, so the edges say how many there were."""
        with edgebpf.Live(64, batches=4) as live:
            for number in range(20):
                edited = live._store._edited

                def interrupted(*words):
                    edited(*words)
                    raise KeyboardInterrupt

                with unittest.mock.patch.object(live._store, "_edited", interrupted), self.assertRaises(KeyboardInterrupt):
                    live.apply([0], [number])
                for target in range(number % 3):
                    self.assertEqual(live.apply([1 + number], [target]).version, live.latest().edges)
                    self.assertEqual(live.numbered()[0], live.latest().edges)

    def test_no_end(self):
        """There is no end to rebases."""
        live, edges = edgebpf.Live(5, batches=1), set()
        for number in range(1, 10_002):
            edges ^= {(number % 5, number * number % 5)}
            live.apply([number % 5], [number * number % 5], [(number % 5, number * number % 5) not in edges])
        self.assertEqual((live.numbered()[0], live.latest().epoch, live.latest().number), (10_001, 10_000, 1))
        self.assertEqual(self.edges_of(live.latest()), sorted(edges))

    def test_no_memory(self):
        """A rebase that has no memory is made later, and what was not applied is said."""
        live = edgebpf.Live(4, batches=2)
        with unittest.mock.patch.object(edgebpf.Store, "rebase", side_effect=edgebpf.NoMemory("none")):
            for number in range(1, 4_097):
                self.assertEqual(live.batch("A", ([0], [number % 4])).version, number)
            with self.assertRaises(edgebpf.NoMemory):
                live.batch("A", ([1], [1]))
        self.assertEqual(live.batch("A", ([1], [1])), edgebpf.Counts(4_097, 1, 0))
        self.assertEqual((live.latest().epoch, live.latest().number), (1, 1))
        with unittest.mock.patch.object(edgebpf.Store, "_pinned", side_effect=edgebpf.NoMemory("none")):
            with self.assertRaisesRegex(edgebpf.NoMemory, "^the batches were applied"):
                live.batch("A", ([2], [2]))
        self.assertEqual((live.batch("A", ([3], [3])).version, live.numbered()[0], live.latest().has_edge(2, 2)), (4_099, 4_099, True))

    def test_no_memory_after_a_rebase(self):
        """A rebase that cannot be shown does not keep the batch from being applied, and shown."""
        live, pinned, refused = edgebpf.Live(4, batches=1), edgebpf.Store._pinned, ["the version of the rebase"]
        live.batch("A", ([0], [1]))

        def pins(store):
            if refused:
                raise edgebpf.NoMemory(refused.pop())
            return pinned(store)

        with unittest.mock.patch.object(edgebpf.Store, "_pinned", pins):
            self.assertEqual(live.batch("A", ([1], [1])), edgebpf.Counts(2, 1, 0))
        self.assertEqual((refused, live.numbered()[0], live.latest().epoch), ([], 2, 1))
        self.assertEqual(self.edges_of(live.latest()), [(0, 1), (1, 1)])

    def test_wrong_arguments(self):
        for words, error, call in (
            ("batches is 1 to 4096", ValueError, lambda: edgebpf.Live(4, batches=0)), ("batches is 1 to 4096", ValueError, lambda: edgebpf.Live(4, 4_097)),
            ("batches is a whole number", TypeError, lambda: edgebpf.Live(4, 1.5)), ("edits is at least 1", ValueError, lambda: edgebpf.Live(4, edits=0)),
            ("edits is a whole number", TypeError, lambda: edgebpf.Live(4, edits="9")), ("a graph has 1 to", ValueError, lambda: edgebpf.Live(0)),
        ):
            with self.assertRaisesRegex(error, f"^{words}"):
                call()
        live = edgebpf.Live(4, batches=1)
        for number in range(3):
            for call, error in ((lambda: live.apply([4], [0]), edgebpf.VertexRange), (lambda: live.apply([0], [1], feed="E"), ValueError), (lambda: live.batch("A", [(0, 1), (2, 3)]), ValueError)):
                with self.assertRaises(error):
                    call()
            self.assertEqual((live.numbered()[0], live.latest().edges), (number, number))
            live.apply([0], [number])
        version = live.latest()
        with version:
            pass
        self.assertEqual((version.edges, live.latest().degree(0)), (3, 3))
        # A share is of who asked for it.
        with version.share() as shared:
            self.assertEqual(shared.degree(0), 3)
        with self.assertRaises(edgebpf.Closed):
            shared.degree(0)
        live.close()
        live.close()
        with self.assertRaisesRegex(edgebpf.Closed, "^the graph is closed$"):
            live.apply([0], [1])
        self.assertEqual(live.latest().neighbours(0).tolist(), [0, 1, 2])

    def test_readers_do_not_wait(self):
        """While a batch is being applied the version before it is read."""
        live, target, real = edgebpf.Live(4), edgebpf.assemble(TARGET), edgebpf.Store._edited
        live.apply([0], [3])
        begun, go_on = threading.Event(), threading.Event()

        def slow(*given):
            begun.set()
            go_on.wait(20)
            return real(*given)

        with unittest.mock.patch.object(edgebpf.Store, "_edited", slow):
            writer = threading.Thread(target=live.apply, args=([0], [2]))
            writer.start()
            begun.wait(20)
            self.assertEqual((live.numbered()[0], live.latest().run(target).total), (1, 3))
            go_on.set()
            writer.join()
        self.assertEqual((live.numbered()[0], live.latest().run(target).total), (2, 5))

    def test_a_close_waits_for_a_batch(self):
        """A batch that is being applied as another thread closes the graph is applied whole, and answered."""
        live, real, counts = edgebpf.Live(4), edgebpf.Store._edited, []
        begun, go_on = threading.Event(), threading.Event()

        def slow(*given):
            begun.set()
            go_on.wait(20)
            return real(*given)

        with unittest.mock.patch.object(edgebpf.Store, "_edited", slow):
            writer = threading.Thread(target=lambda: counts.append(live.apply([0], [2])))
            closer = threading.Thread(target=live.close)
            writer.start()
            begun.wait(20)
            closer.start()
            closer.join(0.2)
            self.assertTrue(closer.is_alive())
            go_on.set()
            writer.join()
            closer.join()
        self.assertEqual((counts, live.latest().edges), ([edgebpf.Counts(1, 1, 0)], 1))

    def test_threads(self):
        """Each version that a reader sees is whole, and numbers never go back, over rebases."""
        live, target, wrong, is_over = edgebpf.Live(64, batches=5), edgebpf.assemble(TARGET), [], threading.Event()

        def reads():
            last = 0
            while not is_over.is_set():
                number, version = live.numbered()
                if number < last or version.edges != number or version.run(target).total != sum(range(number)):
                    wrong.append((last, number, version))
                last = number

        readers = [threading.Thread(target=told, args=(reads, wrong)) for _ in range(3)]
        for reader in readers:
            reader.start()
        for number in range(64):
            live.apply([number], [number])
        is_over.set()
        for reader in readers:
            reader.join()
        self.assertEqual((wrong, live.latest().edges), ([], 64))


if __name__ == "__main__":
    unittest.main()

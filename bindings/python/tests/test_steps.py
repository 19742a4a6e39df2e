"""Runs in steps: the worked rows of a graph of 8 vertices, what is wrong, pauses, and runs that are ended by a host."""
import contextlib
import copy
import io
import os
import pathlib
import pickle
import signal
import sys
import threading
import time
import unittest
import unittest.mock

sys.path.insert(0, str(pathlib.Path(__file__).resolve().parent))
from test_package import BATCHES, TARGET, TOP, edgebpf, np, told

if np is not None and edgebpf.library.path():
    import random_steps
MOST = 2**64 - 1
ENDS = [(0, 1), (0, 2), (1, 2), (2, 3), (3, 4), (5, 6)]
EDGES = sorted(ENDS + [(target, source) for source, target in ENDS])
TARGETS = {vertex: [target for source, target in EDGES if source == vertex] for vertex in range(10)}
VALUES = [sum(TARGETS[vertex]) for vertex in range(8)]
# What stands after each call with a budget of 0: each does one edge, and with a vertex's last one the vertex, or one vertex without edges.
SINGLE = [((0, 1), 1, 1), ((1, 0), 2, 3), ((1, 1), 3, 3), ((2, 0), 4, 5)]
# A program with a bound of 946,010 instructions by local calls, all of which each run takes.
HOSTILE = "\n".join(
    [line for level in range(3) for line in (f"f{level}:", *[f"calllocal f{level + 1}"] * 21, "mov r0, 0", "exit")]
    + ["f3:", *["mov r0, 1"] * 100, "exit"])
HOSTILE_BOUND = 946_010
# A latency is the least of so many, since other processes may have the machine.
TRIES = 7


def stands(run):
    return run.at, run.edges, run.total


@unittest.skipIf(np is None, "not there: numpy")
@unittest.skipIf(np is not None and edgebpf.library.path() is None, "not there: cffi, or libedgebpf.so, which make -C dist makes")
class Steps(unittest.TestCase):
    def setUp(self):
        self.store = edgebpf.Store(8)
        self.addCleanup(self.store.close)
        self.store.batch("A", edges=EDGES)
        self.version, self.target = self.store.pin(), edgebpf.assemble(TARGET)

    def test_what_is_not_pickled(self):
        """A store, a version and runs say what they are, and why they are not pickled."""
        run, live = self.version.begin(self.target, frontier=[0, 1, 7]), edgebpf.Live.of(self.version)
        self.addCleanup(live.close)
        run.step(0)
        pairs = self.version.begin_pairs(self.target, [0, 1], [3, 4])
        pairs.step()
        with self.assertRaises(edgebpf.TimedOut) as raised:
            self.version.run(edgebpf.assemble(HOSTILE), threads=2, seconds=0.0)
        live.apply(edges=[(7, 7)])
        for kept, what, wanted in (
            (self.store, "store", "<edgebpf.Store: 8 vertices>"), (self.version, "version", "<edgebpf.Version: epoch 0, number 1, 8 vertices, 12 edges>"),
            (run, "run", "<edgebpf.Run: 0 of 3 vertices, 1 numbers>"), (pairs, "run", "<edgebpf.PairsRun: 2 of 2 pairs, 2 numbers, done>"),
            (raised.exception.run, "run", None), (live, "Live", "<edgebpf.Live 1: 8 vertices, 13 edges>"),
            (live.latest(), "version", "<edgebpf.Version: epoch 0, number 1, 8 vertices, 13 edges>"),
        ):
            self.assertEqual(repr(kept), wanted or repr(kept))
            for call in (pickle.dumps, copy.deepcopy):
                with self.assertRaisesRegex(TypeError, f"^a {what} is not pickled: it belongs to this process"):
                    call(kept)
        self.assertRegex(repr(raised.exception.run), "^<edgebpf.Parts: [0-8] of 8 vertices, [0-9]+ numbers(, done)?>$")
        self.assertEqual(copy.copy(self.version).edges, 12)
        self.store.close()
        live.close()
        self.assertEqual((repr(self.store), repr(live)), ("<edgebpf.Store: 8 vertices, closed>", "<edgebpf.Live 1: 8 vertices, 13 edges, closed>"))

    def test_budget_of_nothing(self):
        """One edge a call, and a vertex without edges in a call of its own."""
        run, stood = self.version.begin(self.target), []
        self.assertEqual((stands(run), run.done, run.vertex, run.used, run.values.tolist()), (((0, 0), 0, 0), False, 0, 0, [0] * 8))
        for _ in range(14):
            run.step(0)
            stood.append((stands(run), run.done, run.values.tolist()))
        self.assertEqual([stand for stand, _, _ in stood[:4]], SINGLE)
        self.assertEqual([values[:2] for _, _, values in stood[:4]], [[1, 0], [3, 0], [3, 0], [3, 2]])
        self.assertEqual(stood[9], (((5, 0), 10, 18), False, [3, 2, 4, 6, 3, 0, 0, 0]))
        for place in (12, 13):
            self.assertEqual(stood[place], (((8, 0), 12, 29), True, [3, 2, 4, 6, 3, 6, 5, 0]))
        self.assertEqual([is_done for _, is_done, _ in stood], [False] * 12 + [True] * 2)
        self.assertEqual((run.used, run.values.tolist()), (0, VALUES))

    def test_budget_of_forty(self):
        run, stood = self.version.begin(self.target, frontier=range(8)), []
        for _ in range(5):
            run.step(40)
            stood.append(stands(run))
        self.assertEqual(stood, [((2, 0), 4, 5), ((3, 1), 8, 11), ((5, 0), 10, 18), ((7, 0), 12, 29), ((8, 0), 12, 29)])
        # The last vertex takes 16, and each of four calls all that it had.
        self.assertEqual((run.used, run.values.tolist()), (4 * 40 + 16, VALUES))

    def test_budget_without_end(self):
        run = self.version.begin(self.target)
        run.step(MOST)
        # 12 edges of 6 units, and 8 vertices of 16.
        for more in (1_000, 0, MOST):
            self.assertEqual((stands(run), run.done, run.values.tolist(), run.used), (((8, 0), 12, 29), True, VALUES, 12 * 6 + 8 * 16))
            run.step(more)

    def test_least(self):
        run, stood = self.version.begin(self.target, "min", [2, 2, 7]), []
        self.assertEqual((run.total, run.values.tolist()), (MOST, [MOST] * 3))
        for _ in range(7):
            run.step(0)
            stood.append(stands(run))
        self.assertEqual([stood[call - 1] for call in (2, 3, 4, 7)], [((0, 2), 2, 0), ((1, 0), 3, 0), ((1, 1), 4, 0), ((3, 0), 6, 0)])
        self.assertEqual((run.done, run.values.tolist()), (True, [0, 0, MOST]))

    def test_without_edges(self):
        """A vertex without edges, one that is outside, which the package itself refuses, and no vertex."""
        run = edgebpf.steps.Run(self.version, self.target, "sum", np.array([7, 9], np.uint32), edgebpf.steps.Inputs(b"", []))
        for place in ((1, 0), (2, 0)):
            run.step(0)
            self.assertEqual(stands(run), (place, 0, 0))
        self.assertEqual((run.done, run.values.tolist()), (True, [0, 0]))
        with self.assertRaises(edgebpf.VertexRange):
            self.version.begin(self.target, frontier=[7, 9])
        for reduction, total in (("sum", 0), ("min", MOST), ("max", 0)):
            run = self.version.begin(self.target, reduction, [])
            self.assertEqual((run.done, stands(run)), (True, ((0, 0), 0, total)))
            run.step(0)
            self.assertEqual((run.done, stands(run), run.values.tolist()), (True, ((0, 0), 0, total), []))
            self.assertEqual(self.version.run(self.target, reduction, []).total, total)

    def test_numbers_of_a_frontier(self):
        wanted = [target for vertex in (2, 0, 7, 5) for target in TARGETS[vertex]]
        self.assertEqual(wanted, [0, 1, 3, 1, 2, 6])
        self.assertEqual(self.version.numbers(self.target, frontier=[2, 0, 7, 5]).tolist(), wanted)
        self.assertEqual(self.version.numbers(self.target).tolist(), [target for _, target in EDGES])
        self.assertEqual(self.version.numbers(self.target, b"", []).tolist(), [])
        run = edgebpf.NumbersRun(self.version, self.target, np.array([2, 0, 7, 5], np.uint32), edgebpf.steps.Inputs(b"", []), 4)
        run.step(MOST)
        first = run.numbers
        self.assertEqual((first.tolist(), run.at, run.done), ([0, 1, 3, 1], (1, 1), False))
        run.step(MOST)
        self.assertEqual((run.numbers.tolist(), run.at, run.done, run.edges), (wanted, (4, 0), True, 6))
        self.assertEqual(first.tolist(), wanted[:4])
        run, counts = self.version.begin_numbers(self.target, [2, 0, 7, 5]), []
        while not run.done:
            run.step(0)
            counts.append(len(run.numbers))
            self.assertEqual(run.numbers.tolist(), wanted[:counts[-1]])
        self.assertEqual(counts, [1, 2, 3, 4, 5, 5, 6])
        with self.assertRaises(ValueError):
            run.numbers[0] = 1

    def test_pairs(self):
        """The record of each pair, by its first and its last eight bytes."""
        rows = [
            (0, 1, "00000000010000000000000002000000"), (0, 2, "00000000020000000100000002000000"), (2, 3, "02000000030000000200000003000000"),
            (0, 3, "00000000030000000200000002000000"), (0, 0, "00000000000000000200000002000000"), (7, 0, "07000000000000000000000000000000"),
            (9, 1, "09000000010000000000000000000000"), (1, 9, "01000000090000000200000002000000"),
        ]
        sources, targets = [row[0] for row in rows], [row[1] for row in rows]
        for part in (0, 8):
            word = edgebpf.assemble(f"ldxdw r0, [r1+{part}]\nexit")
            wanted = [int.from_bytes(bytes.fromhex(row[2])[part:part + 8], "little") for row in rows]
            self.assertEqual(self.version.pairs(word, sources, targets).tolist(), wanted)
            run = self.version.begin_pairs(word, sources, targets)
            for count in range(1, 9):
                run.step(0)
                self.assertEqual((run.vertex, run.edges, run.at, run.numbers.tolist()), (count, count, (count, 0), wanted[:count]))
            self.assertTrue(run.done)
        of_edges = self.version.pairs(self.target, [source for source, _ in EDGES], [target for _, target in EDGES])
        self.assertEqual(of_edges.tolist(), self.version.numbers(self.target).tolist())
        self.assertEqual(self.version.pairs(self.target, [], []).tolist(), [])
        self.assertEqual(self.version.pairs(self.target, [2**32 - 1, 0], [0, 2**32 - 1]).tolist(), [0, 2**32 - 1])

    def test_progress_that_is_no_place(self):
        """It is refused, and nothing is written. The package itself makes none."""
        for vertex, place in ((9, 0), (8, 1), (0, 3), (7, 1), (2**32 - 1, 0), (2, 2**32 - 1)):
            run = self.version.begin(self.target)
            run._at.vertex, run._at.place, run._at.edges, run._at.total = vertex, place, 5, 6
            with self.assertRaisesRegex(edgebpf.Error, "^the progress names no place of this frontier$"):
                run.step(MOST)
            self.assertEqual((stands(run), run.values.tolist(), run.used), (((vertex, place), 5, 6), [0] * 8, 0))
        # The place after a vertex's last edge is one: its value is what stands there. What was made up is added to.
        run = self.version.begin(self.target)
        run._values[:3] = 70, 71, 72
        run._at.vertex, run._at.place, run._at.edges, run._at.total = 2, 3, MOST, MOST
        run.step(MOST)
        self.assertEqual(run.values.tolist(), [70, 71, 72, *VALUES[3:]])
        self.assertEqual(stands(run), ((8, 0), 4, sum(VALUES[3:]) - 1))
        # A vertex under way goes on from the value that it finds.
        run = self.version.begin(self.target)
        run.step(0)
        run._values[0] = 100
        run.step(MOST)
        self.assertEqual((run.values.tolist(), run.total), ([102, *VALUES[1:]], sum(VALUES)))

    def test_wrong_arguments(self):
        run = self.version.begin(self.target)
        for budget in (-1, 2**64, -2**70):
            with self.assertRaisesRegex(ValueError, "^a budget is 0 to 2\\^64 - 1$"):
                run.step(budget)
        for budget in (1.0, "1", [1]):
            with self.assertRaisesRegex(TypeError, "^budget is a whole number, not "):
                run.step(budget)
        run.step(np.uint64(MOST))
        self.assertTrue(run.done)
        begun = lambda **words: lambda: self.version.begin(self.target, **words)
        asked = lambda **words: lambda: self.version.run(self.target, **words)
        for call, error, words in (
            (begun(reduction="mean"), ValueError, "a reduction is sum"), (begun(frontier=[8]), edgebpf.VertexRange, "a vertex of frontier"),
            (begun(frontier=[0.5]), TypeError, "frontier are an array"), (begun(argument=b"x"), edgebpf.ArgumentLength, "the argument has 0"),
            (lambda: self.version.begin(TARGET), TypeError, "a program is made"),
            (lambda: self.version.begin_numbers(self.target, [8]), edgebpf.VertexRange, "a vertex of frontier"),
            (lambda: self.version.numbers(self.target, [8]), TypeError, "argument is bytes"),
            (lambda: self.version.pairs(self.target, [0], [1, 2]), ValueError, "there are 1 sources and 2 targets"),
            (lambda: self.version.pairs(self.target, [-1], [1]), edgebpf.VertexRange, "a vertex of sources"),
            (lambda: self.version.pairs(self.target, [1], [2**32]), edgebpf.VertexRange, "a vertex of targets"),
            (lambda: self.version.pairs(self.target, [1.5], [2]), TypeError, "sources are an array"),
            (asked(seconds=-1), ValueError, "seconds is 0 to"), (asked(seconds=float("nan")), ValueError, "seconds is 0 to"),
            (asked(seconds=float("inf")), ValueError, "seconds is 0 to"), (asked(seconds="1"), TypeError, "seconds is a number"),
            (asked(seconds=True), TypeError, "seconds is a number"), (asked(threads=0), ValueError, "threads is 1 to 64"),
            (asked(threads=65), ValueError, "threads is 1 to 64"), (asked(threads=2.0), TypeError, "threads is a whole number"),
        ):
            with self.assertRaisesRegex(error, f"^{words}"):
                call()
        with unittest.mock.patch.object(edgebpf.native, "MOST_VERTICES", 6), self.assertRaisesRegex(ValueError, "^a frontier has at most 6"):
            self.version.begin(self.target, frontier=[0] * 7)

    def test_closed_between_steps(self):
        run, numbers, pairs = self.version.begin(self.target), self.version.begin_numbers(self.target), self.version.begin_pairs(self.target, [0, 1], [1, 0])
        for each in (run, numbers, pairs):
            each.step(0)
        kept = run.share()
        self.version.close()
        for each in (run, numbers, pairs):
            before = each.at, each.edges, each.used
            for _ in range(2):
                with self.assertRaises(edgebpf.Closed):
                    each.step(MOST)
                with self.assertRaises(edgebpf.Closed):
                    each.step()
            self.assertEqual((each.at, each.edges, each.used), before)
        with self.assertRaises(edgebpf.Closed):
            run.share()
        kept.step(MOST)
        self.assertEqual((stands(run), stands(kept), kept.values.tolist()), (((0, 1), 1, 1), ((8, 0), 12, 29), VALUES))
        for begin in (self.version.begin, self.version.begin_numbers):
            with self.assertRaises(edgebpf.Closed):
                begin(self.target)

    def test_each_pause_in_another_thread(self):
        """One run by a thread for each step, and one that is shared at each pause."""
        for shared in (False, True):
            runs, wrong, calls = [self.version.begin(self.target)], [], 0

            def work():
                if shared:
                    runs[0] = runs[0].share()
                runs[0].step(0)

            while not runs[0].done:
                thread = threading.Thread(target=told, args=(work, wrong))
                thread.start()
                thread.join()
                calls += 1
            self.assertEqual((wrong, calls, stands(runs[0]), runs[0].values.tolist()), ([], 13, ((8, 0), 12, 29), VALUES))
        for begin, wanted in (
            (lambda: self.version.begin_numbers(self.target), [target for _, target in EDGES]),
            (lambda: self.version.begin_pairs(self.target, [9, 2], [1, 3]), [1, 3]),
        ):
            run = begin()
            while not run.done:
                first, run = run, run.share()
                run.step(0)
            self.assertEqual(run.numbers.tolist(), wanted)
            self.assertFalse(first.done)

    def test_two_threads_step_one_run(self):
        """Their steps take turns, and nothing is done twice."""
        store, wrong = edgebpf.Store(500), []
        store.batch("A", (np.arange(20_000) % 500, np.arange(20_000) // 500))
        run = store.pin().begin(self.target)

        def work():
            while not run.done:
                run.step(50)

        threads = [threading.Thread(target=told, args=(work, wrong)) for _ in range(4)]
        for thread in threads:
            thread.start()
        for thread in threads:
            thread.join()
        self.assertEqual((wrong, stands(run)), ([], ((500, 0), 20_000, 500 * sum(range(40)))))

    def test_paused_over_a_batch_and_a_rebase(self):
        """The version stays, and so does the run."""
        run, numbers = self.version.begin(self.target), self.version.begin_numbers(self.target)
        run.step(0), numbers.step(0)
        self.store.batch("B", removes=([0, 1], [2, 2]), edges=[(0, 7), (7, 0)])
        run.step(0), numbers.step(0)
        self.store.rebase()
        self.store.batch("C", removes=(list(range(8)), [0] * 8))
        self.store.close()
        run.step(MOST), numbers.step(MOST)
        self.assertEqual((stands(run), run.values.tolist()), (((8, 0), 12, 29), VALUES))
        self.assertEqual(numbers.numbers.tolist(), [target for _, target in EDGES])

    def test_values_are_for_reading(self):
        run = self.version.begin(self.target)
        with self.assertRaises(ValueError):
            run.values[0] = 1
        run.step()
        self.assertTrue(run.done)
        result = self.version.run(self.target)
        result.values[0] = 9
        self.assertEqual(run.values.tolist(), VALUES)

    def test_short_runs_are_one_call(self):
        """A short run, a run of numbers and of pairs are one call of the library each."""
        asked, real = [], edgebpf.library.calls()
        for name in ("pull_some", "numbers_of", "pairs_of"):
            call = getattr(real, name)
            patch = unittest.mock.patch.object(real, name, lambda *given, name=name, call=call: asked.append(name) or call(*given))
            patch.start()
            self.addCleanup(patch.stop)
        self.version.run(self.target)
        self.version.numbers(self.target, frontier=[2])
        self.version.numbers(self.target)
        self.version.pairs(self.target, [0], [1])
        self.assertEqual(asked, ["pull_some", "numbers_of", "numbers_of", "pairs_of"])

    def test_steps_without_a_budget(self):
        """Each has a budget by the rate of the one before, and less where a unit may be a helper, a pair's search, or numbers of columns."""
        helper = edgebpf.assemble("mov r1, 0\ncall 1\nexit")
        column, lent = edgebpf.assemble("ldxdw r0, [r1+24]\nexit", record=32), [np.zeros(8, np.uint64)]
        self.assertEqual([program._has_helpers for program in (self.target, edgebpf.assemble(HOSTILE), helper, helper.share())], [False, False, True, True])
        for begin, most in (
            (lambda: self.version.begin(self.target), edgebpf.steps.MOST_OF_A_STEP), (lambda: self.version.begin(helper), edgebpf.steps.MOST_WITH_HELPERS),
            (lambda: self.version.begin_pairs(self.target, [0], [1]), edgebpf.steps.MOST_WITH_HELPERS),
            (lambda: self.version.begin(column, columns=lent), edgebpf.steps.MOST_WITH_HELPERS),
        ):
            run, budgets = begin(), []

            def took(_, budget, __):
                budgets.append(budget)
                # As if it took what it was given, at a rate that nobody has.
                run._granted += budget

            with unittest.mock.patch.object(type(run), "_go_on", took):
                for _ in range(12):
                    run.step()
            self.assertEqual((budgets[0], budgets[-1], max(budgets)), (edgebpf.steps.FIRST_BUDGET, most, most))
            self.assertTrue(all(later <= 4 * before for before, later in zip(budgets, budgets[1:])))

            def slow(_, budget, __):
                budgets.append(budget)
                run._granted += budget
                time.sleep(0.03)

            with unittest.mock.patch.object(type(run), "_go_on", slow):
                run.step(), run.step()
            self.assertLess(budgets[-1], 0.5 * budgets[-2])

    def in_windows(self, size):
        """No array of a range is made, but of so many vertices."""
        self.enterContext(unittest.mock.patch.multiple(edgebpf.native, MOST_IN_ARRAY=0))
        self.enterContext(unittest.mock.patch.object(edgebpf.steps, "WINDOW", size))

    def test_ranges(self):
        """All vertices, and a range of them, without an array of them: as a frontier gives it, however it is cut and by however many threads."""
        for size in (1, 3, 1 << 16):
            self.in_windows(size)
            for chosen in (None, range(8), range(2, 5), range(5, 8)):
                vertices = list(range(8) if chosen is None else chosen)
                targets = [target for vertex in vertices for target in TARGETS[vertex]]
                for reduction, nothing, reduced in (("sum", 0, sum), ("min", MOST, min), ("max", 0, max)):
                    values = [reduced(TARGETS[vertex]) if TARGETS[vertex] else nothing for vertex in vertices]
                    for threads in (1, 3):
                        result = self.version.run(self.target, reduction, chosen, threads=threads)
                        self.assertEqual((result.values.tolist(), result.total, result.edges), (values, reduced(targets), len(targets)))
                    for budget in (0, 6, 23, 40, MOST):
                        run, before = self.version.begin(self.target, reduction, chosen), (-1, 0)
                        while not run.done:
                            self.assertLess(before, run.at)
                            before = run.at
                            run.step(budget)
                            run = run.share() if run.at[1] else run
                        self.assertEqual((run.values.tolist(), run.total, run.edges), (values, reduced(targets), len(targets)))
                        self.assertEqual((before[0] < 0, run.used <= 6 * len(targets) + 16 * len(vertices)), (False, True))
                numbers = self.version.begin_numbers(self.target, chosen)
                while not numbers.done:
                    numbers.step(7)
                self.assertEqual((numbers.numbers.tolist(), self.version.numbers(self.target, frontier=chosen).tolist()), (targets, targets))
                self.assertEqual(self.version.degrees(chosen).tolist(), [len(TARGETS[vertex]) for vertex in vertices])
            for wrong in (range(5, 9), range(-1, 3)):
                with self.assertRaisesRegex(edgebpf.VertexRange, "frontier"):
                    self.version.run(self.target, frontier=wrong)
            self.assertEqual(self.version.run(self.target, frontier=range(6, 1, -2)).values.tolist(), [VALUES[6], VALUES[4], VALUES[2]])

    def test_a_range_that_is_interrupted(self):
        """An interrupt that comes as a call of the library returns leaves a run that goes on to the same end."""
        self.in_windows(3)
        for name, made in (("pull_some", self.version.begin), ("numbers_of", self.version.begin_numbers)):
            call, calls = getattr(self.version._calls, name), [0]

            def interrupted(*words):
                status = call(*words)
                calls[0] += 1
                if calls[0] % 3:
                    raise KeyboardInterrupt
                return status

            run = made(self.target)
            with unittest.mock.patch.object(self.version._calls, name, interrupted):
                while not run.done:
                    with contextlib.suppress(KeyboardInterrupt):
                        run.step(6)
            self.assertGreater(calls[0], 30)
            self.assertEqual((run.edges, run.used <= 12 * 6 + 8 * 16), (12, True))
            if name == "pull_some":
                self.assertEqual((run.values.tolist(), run.total), (VALUES, sum(VALUES)))
            else:
                self.assertEqual(run.numbers.tolist(), [target for _, target in EDGES])

    def test_random_pieces(self):
        """A few of the comparisons that random_steps.py makes by the thousands."""
        self.assertEqual(random_steps.compared(5 * BATCHES, 1), 5 * BATCHES)


@unittest.skipIf(np is None, "not there: numpy")
@unittest.skipIf(np is not None and edgebpf.library.path() is None, "not there: cffi, or libedgebpf.so, which make -C dist makes")
class Ended(unittest.TestCase):
    """Runs of a program that takes some milliseconds an edge, which a host pauses and ends."""

    EDGES = 20_000

    def setUp(self):
        self.store = edgebpf.Store(200)
        self.addCleanup(self.store.close)
        self.store.batch("A", (np.arange(self.EDGES) % 200, np.arange(self.EDGES) // 200))
        self.version, self.hostile, self.target = self.store.pin(), edgebpf.assemble(HOSTILE), edgebpf.assemble(TARGET)
        self.assertEqual(self.hostile.bound, HOSTILE_BOUND)

    def test_a_hostile_program(self):
        """It is paused after each edge, billed for each, goes on elsewhere, and is dropped."""
        run = self.version.begin(self.hostile)
        for edges in range(1, 6):
            run.step(1)
            self.assertEqual((run.edges, run.at), (edges, (0, edges)))
            # A call of one unit is billed one, whatever its edge took.
            self.assertEqual(run.used, edges)
        run.step(10 * (HOSTILE_BOUND + 4))
        self.assertGreaterEqual(run.edges, 15)
        self.assertEqual(run.used, 5 + 10 * (HOSTILE_BOUND + 4))
        other = run.share()
        del run
        other.step()
        self.assertFalse(other.done)
        self.assertLess(other.edges, 200)

    def test_seconds(self):
        begun = time.perf_counter()
        with self.assertRaisesRegex(edgebpf.TimedOut, "^0.05 seconds were over after [0-9]+ edges$") as raised:
            self.version.run(self.hostile, seconds=0.05)
        self.assertLess(time.perf_counter() - begun, 2)
        run = raised.exception.run
        self.assertEqual((run.done, run.vertex), (False, run.edges // 100))
        # What is done with its first step needs no time.
        self.assertEqual((self.version.run(self.target, "sum", [5], seconds=0).edges, len(self.version.numbers(self.target, b"", [5], seconds=0))), (100, 100))
        before = run.edges
        self.assertGreater(before, 0)
        run.step(1)
        self.assertEqual(run.edges, before + 1)
        for ask in (
            lambda: self.version.numbers(self.hostile, seconds=0), lambda: self.version.numbers(self.hostile, frontier=[1], seconds=0.01),
            lambda: self.version.pairs(self.hostile, range(200), range(200), seconds=0.01), lambda: self.version.run(self.hostile, threads=3, seconds=0.01),
        ):
            with self.assertRaises(edgebpf.TimedOut) as raised:
                ask()
            before = raised.exception.run.edges
            raised.exception.run.step(0)
            self.assertEqual(raised.exception.run.edges, before + 1)

    def test_what_timed_out_goes_on(self):
        """Its run has the same answer in the end, by one thread and by several."""
        slow = edgebpf.assemble("\n".join(["mov r6, r1", *["calllocal f"] * 40, "ldxw r0, [r6+4]", "exit", "f:", *["mov r0, 1"] * 400, "exit"]))
        sums = [sum(range(100)) for _ in range(200)]
        for threads in (1, 2, 5):
            with self.assertRaises(edgebpf.TimedOut) as raised:
                self.version.run(slow, seconds=0.001, threads=threads)
            run = raised.exception.run
            shared = run.share()
            self.assertFalse(run.done)
            for each in (run, shared):
                while not each.done:
                    vertex = each.vertex
                    self.assertEqual(each.values[:vertex].tolist(), sums[:vertex])
                    each.step(2_000_000)
                self.assertEqual((each.values.tolist(), each.edges, each.total, each.at), (sums, self.EDGES, sum(sums), (200, 0)))

    def test_threads(self):
        """Parts of a frontier by several threads are the whole by one."""
        frontier = np.concatenate([np.arange(200)[::-1], np.arange(150), [3] * 900])
        more = edgebpf.assemble("ldxw r0, [r1+4]\nadd r0, 7\nexit")
        for reduction, combine, none in (("sum", sum, 0), ("min", min, MOST), ("max", max, 0)):
            value = combine(range(7, 107))
            for threads in (2, 3, 7, 64):
                result = self.version.run(more, reduction, frontier, threads=threads)
                wanted = [value] * len(frontier), 100 * len(frontier), combine([value] * len(frontier))
                self.assertEqual((result.values.tolist(), result.edges, result.total), wanted)
                empty = self.version.run(self.target, reduction, [], threads=threads)
                self.assertEqual((empty.values.tolist(), empty.edges, empty.total), ([], 0, none))
        with unittest.mock.patch("threading.Thread.start", side_effect=RuntimeError("can't start new thread")):
            self.assertEqual(self.version.run(self.target, frontier=frontier, threads=4).edges, 100 * len(frontier))
        self.version.close()
        with self.assertRaises(edgebpf.Closed):
            self.version.run(self.target, threads=4)

    def test_cookbook(self):
        """The bar of the cookbook moves on to its end, and the run has the same answer."""
        sys.path.insert(0, str(TOP / "examples" / "cookbook"))
        from progress import text_bar, with_bar

        shown, version = [], self.version
        run = with_bar(version, self.target, "max", lambda done, edges: shown.append((done, edges)))
        self.assertEqual((run.values.tolist(), run.total, shown[-1]), ([99] * 200, 99, (self.EDGES, self.EDGES)))
        self.assertEqual((len(shown), shown), (len({done for done, _ in shown}), sorted(shown)))
        said = io.StringIO()
        with contextlib.redirect_stderr(said):
            text_bar(5_000, self.EDGES), text_bar(0, 0), text_bar(self.EDGES, self.EDGES)
        self.assertEqual(said.getvalue().split("\r")[1:], [
            f"[{'#' * 10}{'.' * 30}] 5,000 of 20,000 edges", f"[{'.' * 40}] 0 of 0 edges", f"[{'#' * 40}] 20,000 of 20,000 edges"])

    def test_closed_while_it_runs(self):
        """What was asked for before is answered."""
        frontier, sources = [0, 1], [0] * 200
        for ask in (
            lambda version: version.run(self.hostile, frontier=frontier).edges, lambda version: version.run(self.hostile, frontier=frontier, threads=2).edges,
            lambda version: len(version.numbers(self.hostile, frontier=frontier)), lambda version: len(version.pairs(self.hostile, sources, sources)),
        ):
            version = self.version.share()
            closing = threading.Timer(0.03, version.close)
            closing.start()
            self.assertEqual(ask(version), 200)
            closing.join()
            with self.assertRaises(edgebpf.Closed):
                ask(version)

    def test_an_error_in_a_thread(self):
        """It ends the others, and is raised where the run was asked for."""
        real, seen = edgebpf.Run._go_on, []

        def failing(run, budget, shared):
            seen.append(threading.get_ident())
            if len(seen) > 5:
                raise edgebpf.NoMemory("none")
            real(run, budget, shared)

        with unittest.mock.patch.object(edgebpf.Run, "_go_on", failing), self.assertRaises(edgebpf.NoMemory):
            self.version.run(self.hostile, threads=3)
        self.assertEqual(threading.active_count(), 1)

    def interrupted(self, ask):
        """How long after a signal a call ends by it: the least of some."""
        took = []
        for _ in range(TRIES):
            sent = []
            timer = threading.Timer(0.1, lambda: (sent.append(time.perf_counter()), os.kill(os.getpid(), signal.SIGINT)))
            timer.start()
            with self.assertRaises(KeyboardInterrupt):
                ask()
                time.sleep(20)
            took.append(time.perf_counter() - sent[0])
            timer.join()
        return min(took)

    def test_ctrl_c(self):
        """It ends each kind of run within 20 ms, and what was under way is as a step left it."""
        before = signal.signal(signal.SIGINT, signal.default_int_handler)
        self.addCleanup(signal.signal, signal.SIGINT, before)
        run = self.version.begin(self.hostile)

        def steps():
            while True:
                run.step()

        for ask in (
            lambda: self.version.run(self.hostile), lambda: self.version.run(self.hostile, threads=2), lambda: self.version.numbers(self.hostile),
            lambda: self.version.numbers(self.hostile, frontier=range(200)), lambda: self.version.pairs(self.hostile, [7] * 9_999, [7] * 9_999), steps,
        ):
            self.assertLess(self.interrupted(ask), 0.02)
        self.assertEqual(threading.active_count(), 1)
        edges, used = run.edges, run.used
        self.assertGreater(edges, 0)
        run.step(0)
        self.assertEqual((run.edges, run.used), (edges + 1, used))


if __name__ == "__main__":
    unittest.main()

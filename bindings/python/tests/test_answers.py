"""The tests of answers, beside answers that a model found, each once as it is and once with an entry changed."""
import collections
import pathlib
import random
import sys
import unittest
import unittest.mock

sys.path.insert(0, str(pathlib.Path(__file__).resolve().parent))
from test_package import edgebpf, np

if np is not None:
    from edgebpf import algorithms, companion


def searched(count, edges, root):
    """Levels and parents by a queue."""
    after = collections.defaultdict(list)
    for source, target in edges:
        after[source].append(target)
    levels, parents, queue = [-1] * count, [0] * count, [root]
    levels[root] = 0
    for vertex in queue:
        for target in after[vertex]:
            if levels[target] < 0:
                levels[target], parents[target] = levels[vertex] + 1, vertex
                queue.append(target)
    return levels, parents


def labelled(count, edges):
    """Labels, parents and steps: a search from each vertex that has no label yet, over edges in both directions."""
    both = edges + [(target, source) for source, target in edges]
    labels, parents, steps = [-1] * count, [0] * count, [0] * count
    for vertex in range(count):
        if labels[vertex] < 0:
            levels, before = searched(count, both, vertex)
            for other in range(count):
                if levels[other] >= 0:
                    labels[other], parents[other], steps[other] = vertex, before[other], levels[other]
    return labels, parents, steps


def cored(count, edges):
    """Core numbers and places: each time the vertex with the fewest edges to others that are left is taken out."""
    left, numbers, places, most = set(range(count)), [0] * count, [0] * count, 0
    for place in range(count):
        degrees = {vertex: sum(source == vertex and target != vertex and target in left for source, target in edges) for vertex in left}
        vertex = min(left, key=lambda one: (degrees[one], one))
        most = max(most, degrees[vertex])
        numbers[vertex], places[vertex] = most, place
        left.remove(vertex)
    return numbers, places


def in_a_core(count, edges, k):
    """The vertices of the greatest set of which each has edges to k others, by taking out all that have fewer."""
    left = set(range(count))
    while True:
        few = {vertex for vertex in left if sum(source == vertex and target != vertex and target in left for source, target in edges) < k}
        if not few:
            return left
        left -= few


def apart(count, edges):
    """A set of which no two are joined, and to which none can be added, of a mirrored graph: the least that can be taken, each time."""
    chosen = []
    for vertex in range(count):
        if not any((vertex, other) in edges for other in chosen):
            chosen.append(vertex)
    return [vertex in chosen for vertex in range(count)]


@unittest.skipIf(np is None, "not there: numpy")
@unittest.skipIf(np is not None and edgebpf.library.path() is None, "not there: cffi, or libedgebpf.so, which make -C dist makes")
class Answers(unittest.TestCase):
    def version_of(self, count, edges):
        store = edgebpf.Store(count)
        self.addCleanup(store.close)
        store.batch("A", edges=edges or np.empty((0, 2), int))
        return store.pin()

    def test_random(self):
        chance = random.Random(3)
        for _ in range(200):
            count = chance.choice([1, 2, 5, 12, 40])
            edges = sorted({(chance.randrange(count), chance.randrange(count)) for _ in range(chance.choice([0, 1, count, 3 * count]))})
            version, root, vertex = self.version_of(count, edges), chance.randrange(count), chance.randrange(count)
            levels, parents = searched(count, edges, root)
            self.assertTrue(version.is_search(root, levels, parents))
            for other in {-1, *range(count)} - {levels[vertex]}:
                self.assertFalse(version.is_search(root, levels[:vertex] + [other] + levels[vertex + 1:], parents))
            labels, parents, steps = labelled(count, edges)
            self.assertTrue(version.are_components(labels, parents, steps))
            for other in {*range(count)} - {labels[vertex]}:
                self.assertFalse(version.are_components(labels[:vertex] + [other] + labels[vertex + 1:], parents, steps))

    def test_random_cores(self):
        chance = random.Random(5)
        for _ in range(200):
            count = chance.choice([1, 2, 5, 9, 14])
            edges = sorted({(chance.randrange(count), chance.randrange(count)) for _ in range(chance.choice([0, 1, count, 3 * count]))})
            edges += [] if chance.random() < 0.5 else [(target, source) for source, target in edges if (target, source) not in edges]
            version, (numbers, places), vertex = self.version_of(count, edges), cored(count, edges), chance.randrange(count)
            for k in range(count):
                self.assertEqual({one for one in range(count) if numbers[one] >= k}, in_a_core(count, edges, k))
            self.assertTrue(version.are_cores(numbers, places))
            for other in {*range(count + 1)} - {numbers[vertex]}:
                self.assertFalse(version.are_cores(numbers[:vertex] + [other] + numbers[vertex + 1:], places))

    def test_orders_of_cores(self):
        """A ring of four, in which each vertex has two edges: all orders but those that leave one of them more."""
        version = self.version_of(5, [(u, v) for u in range(4) for v in ((u + 1) % 4, (u + 3) % 4)] + [(4, 0), (0, 4), (2, 2)])
        self.assertTrue(version.are_cores([2, 2, 2, 2, 1], [1, 2, 3, 4, 0]))
        self.assertTrue(version.are_cores([2, 2, 2, 2, 1], [0] * 5))
        self.assertFalse(version.are_cores([2, 2, 2, 2, 2], [1, 2, 3, 4, 0]))
        star = self.version_of(4, [(0, 1), (1, 0), (0, 2), (2, 0), (0, 3), (3, 0)])
        self.assertTrue(star.are_cores([1, 1, 1, 1], [3, 0, 1, 2]))
        self.assertFalse(star.are_cores([1, 1, 1, 1], [0, 1, 2, 3]))

    def test_random_sets(self):
        chance = random.Random(6)
        for _ in range(200):
            count = chance.choice([1, 2, 5, 12, 40])
            some = {(chance.randrange(count), chance.randrange(count)) for _ in range(chance.choice([0, 1, count, 3 * count]))}
            edges = sorted(some | {(target, source) for source, target in some})
            version, marks, vertex = self.version_of(count, edges), apart(count, edges), chance.randrange(count)
            self.assertTrue(version.is_independent_set(marks))
            self.assertTrue(version.is_independent_set(np.array(marks, np.int64) * 256))
            self.assertFalse(version.is_independent_set(marks[:vertex] + [not marks[vertex]] + marks[vertex + 1:]))

    def test_sets_of_a_directed_graph(self):
        version = self.version_of(3, [(0, 1), (1, 2), (2, 2)])
        for marks, answer in (([1, 0, 1], True), ([0, 0, 1], False), ([0, 1, 0], False), ([1, 1, 0], False), ([0, 1, 1], False), ([0, 0, 0], False)):
            self.assertEqual(version.is_independent_set(marks), answer, marks)

    def test_what_is_wrong_with_cores_and_sets(self):
        version = self.version_of(3, [(0, 1), (1, 0)])
        self.assertTrue(version.are_cores(np.array([1, 1, 0], np.int8), [0, 0, 0]))
        self.assertFalse(version.are_cores([1, 1], [0, 0]))
        self.assertFalse(version.is_independent_set([True, False]))
        self.assertFalse(version.is_independent_set([]))
        with self.assertRaisesRegex(TypeError, "numbers"):
            version.are_cores([1.0, 1.0, 0.0], [0, 0, 0])
        with self.assertRaisesRegex(ValueError, "places"):
            version.are_cores([1, 1, 0], [[0, 0, 0]])
        with self.assertRaisesRegex(TypeError, "marks"):
            version.is_independent_set([1.0, 0.0, 1.0])
        with self.assertRaisesRegex(ValueError, "marks"):
            version.is_independent_set([[1, 0, 1]])
        version.close()
        with self.assertRaises(edgebpf.Closed):
            version.are_cores([1, 1, 0], [0, 0, 0])
        with self.assertRaises(edgebpf.Closed):
            version.is_independent_set([1, 0, 1])

    def test_what_is_wrong(self):
        version = self.version_of(3, [(0, 1)])
        self.assertTrue(version.is_search(0, np.array([0, 1, -1], np.int8), np.array([0, 0, 0], np.uint64)))
        self.assertFalse(version.is_search(0, [0, 1], [0, 0]))
        self.assertFalse(version.are_components([0, 0, 2, 3], [0, 0, 0, 0], [0, 1, 0, 0]))
        for wrong in ([0.0, 1.0, 2.0], ["0", "1", "2"]):
            with self.assertRaisesRegex(TypeError, "levels"):
                version.is_search(0, wrong, [0, 0, 0])
        with self.assertRaisesRegex(TypeError, "^levels are no array"):
            version.is_search(0, [[0], [1, 2], 3], [0, 0, 0])
        with self.assertRaisesRegex(TypeError, "^marks are no array"):
            version.is_independent_set([[0], [1, 2], 3])
        for wrong in ([0, 1, -2], [0, 1, 1 << 32], [[0, 1, -1]]):
            with self.assertRaisesRegex(ValueError, "parents"):
                version.is_search(0, [0, 1, -1], wrong)
        with self.assertRaises(edgebpf.VertexRange):
            version.is_search(3, [0, 1, -1], [0, 0, 0])
        version.close()
        with self.assertRaises(edgebpf.Closed):
            version.are_components([0, 0, 2], [0, 0, 0], [0, 1, 0])

    @unittest.skipIf(np is None or companion.path() is None, "not there: libedgebpf_algorithms.so")
    def test_algorithms_that_are_tested(self):
        chance = random.Random(4)
        for _ in range(100):
            count = chance.choice([1, 2, 5, 12, 40])
            edges = sorted({(chance.randrange(count), chance.randrange(count)) for _ in range(chance.choice([0, 1, count, 2 * count]))})
            version, root = self.version_of(count, edges), chance.randrange(count)
            self.assertEqual(algorithms.bfs(version, root, tested=True).levels.tolist(), searched(count, edges, root)[0])
            self.assertEqual(algorithms.components(version, tested=True).tolist(), labelled(count, edges)[0])
            both = sorted({*edges} | {(target, source) for source, target in edges})
            mirrored = self.version_of(count, both)
            self.assertEqual(algorithms.cores(mirrored, tested=True).tolist(), cored(count, both)[0])
            chosen = algorithms.independent_set(mirrored, seed=count, tested=True)
            self.assertTrue(mirrored.is_independent_set(chosen))
            task = algorithms.begin("bfs", version, root, tested=True)
            while not task.done:
                task.step()
            self.assertEqual(task.result.reached, algorithms.bfs(version, root).reached)

    @unittest.skipIf(np is None or companion.path() is None, "not there: libedgebpf_algorithms.so")
    def test_algorithms_that_are_wrong(self):
        version, search = self.version_of(4, [(0, 1), (1, 2)]), algorithms._searched

        def wrong(*given):
            levels, parents, reached = yield from search(*given)
            levels[2] += 1
            return levels, parents, reached

        with unittest.mock.patch.object(algorithms, "_searched", wrong):
            self.assertEqual(algorithms.bfs(version, 0).levels.tolist(), [0, 1, 3, -1])
            for find in (lambda: algorithms.bfs(version, 0, tested=True), lambda: algorithms.components(version, tested=True)):
                with self.assertRaisesRegex(edgebpf.Error, "proved test"):
                    find()
        for roots, most in (([0, 1], None), (0, 1)):
            with self.assertRaisesRegex(ValueError, "tested"):
                algorithms.bfs(version, roots, most, tested=True)


if __name__ == "__main__":
    unittest.main()

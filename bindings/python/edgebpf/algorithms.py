"""Graph algorithms over a version. Results are arrays with a place for each vertex; docs/ALGORITHMS.md has the exact meanings.

    from edgebpf import algorithms

    search = algorithms.bfs(version, 0)
    search.levels, search.parents

Each call works in pieces. Between them `progress(done, of)` is called, if it is given, and a Ctrl-C is heard: what that call raises ends the
algorithm, and the version is as it was. With `seconds=` it raises `TimedOut` after that time, whose `run` is a `Task` that goes on, and `begin` makes
one of which nothing is done. The companion library in C that does the work is tested, and not proved. With `tested=True` a search and components
are asked of the proved library before they are returned.
"""
from __future__ import annotations

import dataclasses
import threading
from typing import Any

import numpy as np
import numpy.typing as npt

from edgebpf import native
from edgebpf.companion import (
    F64, NO_VERTEX, PIECE, SHARED_PIECE, U8, U32, U64, AnyVersion, Copy, Lender, Pieces, Progress, Task, by_threads, call, cut, finished, foreign,
    pointer, version_of,
)
from edgebpf.errors import Error, NotHere
from edgebpf.given import Numbers, Vertices, given_array, threads_of, vertex_of, vertices_of, whole
from edgebpf.live_algorithms import LiveComponents, LiveRank, LiveTriangles, NotMirrored, mirrored

__all__ = [
    "Candidates", "Labels", "LiveComponents", "LiveRank", "LiveTriangles", "NotMirrored", "Rank", "Search", "Task", "begin", "bfs", "clustering",
    "components", "cores", "degree_distribution", "independent_set", "is_mirrored", "label_propagation", "pagerank", "pagerank_fixed", "pair_scores",
    "triangles",
]

# What a rank of 1 is in whole numbers.
ONE = 1 << 40
HUNDREDTHS = 100
MOST_SEED = 1 << 32
# Pairs of which one thread makes the scores at a time, and so many pairs for each vertex make it worth while to look up all degrees at once.
PAIRS_PIECE, PAIRS_OF_A_VERTEX = 1 << 12, 1 / 8
KINDS = {"common": 0, "jaccard": 1, "adamic_adar": 2, "allocation": 3}
JACCARD, ADAMIC_ADAR = KINDS["jaccard"], KINDS["adamic_adar"]
Floats = npt.NDArray[np.float64]


@dataclasses.dataclass(frozen=True)
class Search:
    """What a search found. `levels` has how many edges the shortest way from a root has, and `parents` the vertex before on such a way, the
    least that there is; a root is its own parent. Both have -1 where there is no way. `reached` is how many vertices have a way."""

    levels: npt.NDArray[np.int32]
    parents: npt.NDArray[np.int32]
    reached: int


@dataclasses.dataclass(frozen=True)
class Rank:
    """The ranks after so many rounds, and by how much all of them together changed in the last one."""

    ranks: Floats
    rounds: int
    change: float


@dataclasses.dataclass(frozen=True)
class Labels:
    """The labels after so many rounds, and how many of them changed in the last one: 0 if they are final."""

    labels: Vertices
    rounds: int
    changed: int


def bfs(
    version: AnyVersion, roots: npt.ArrayLike, most: int | None = None, *, tested: bool = False, progress: Progress | None = None,
    seconds: float | None = None,
) -> Search:
    """Breadth first search along the edges' direction. roots: a vertex, or an array of some. most: the last level that is wanted; where it is
    given, lists are read where they lie, and nothing is copied.

    tested: the library's proved test looks at the answer, and one that is wrong is an `Error`. It takes one root, no `most`, and a version of
    `edgebpf.Store`.
    """
    return finished(_bfs(version, roots, most, tested), progress, seconds)


def _bfs(version: AnyVersion, roots: npt.ArrayLike, most: int | None = None, tested: bool = False) -> Pieces[Search]:
    count = version_of(version).vertices
    begins = np.unique(vertices_of(np.atleast_1d(given_array(roots, "roots")), count, "roots"))
    if len(begins) == 0:
        raise ValueError("roots has at least one vertex")
    tester = _tester(version) if tested else None
    if tester and (most is not None or len(begins) > 1):
        raise ValueError("tested takes one root, and no most")
    last = count if most is None else min(at_least(most, 0, "most"), count)
    lists: Copy | Lender = Copy(version) if most is None or not isinstance(version, native.Version) else Lender(version)
    levels, parents, reached = yield from _searched(lists, begins, last)
    if tester and not tester.is_search(int(begins[0]), levels, parents):
        raise Error("the search found other levels than the proved test: please report this")
    return Search(levels, parents, reached)


def _searched(lists: Copy | Lender, begins: Vertices, last: int) -> Pieces[tuple[npt.NDArray[np.int32], npt.NDArray[np.int32], int]]:
    """Levels and parents of a search from some vertices at once, and how many it reached."""
    name, count = "search_from" if isinstance(lists, Copy) else "search_lent", lists.count
    levels, parents, found = np.full(count, NO_VERTEX, U32), np.full(count, NO_VERTEX, U32), np.empty(count, U32)
    levels[begins], parents[begins], found[:len(begins)] = 0, begins, begins
    queue = foreign().new("edgebpf_queue *", (pointer(found), 0, len(begins)))
    while queue.at < queue.end:
        yield queue.at, count
        lists.call(name, queue, PIECE, last, levels, parents)
    return levels.view(np.int32), parents.view(np.int32), queue.end


def _tester(version: AnyVersion) -> native.Version:
    """The version, if the library in this process can test what is found in it."""
    if not isinstance(version, native.Version):
        raise NotHere("an edgebpf process tests no answers: use edgebpf.Store")
    return version


def components(
    version: AnyVersion, *, tested: bool = False, progress: Progress | None = None, seconds: float | None = None,
) -> Vertices:
    """The components, whatever the direction of edges: each vertex has the least vertex of its own.

    tested: the library's proved test looks at the answer, and one that is wrong is an `Error`. A search from all labels, over a copy with
    both directions of each edge, finds the trees that the test asks for. It takes a version of `edgebpf.Store`.
    """
    return finished(_components(version, tested), progress, seconds)


def _components(version: AnyVersion, tested: bool = False) -> Pieces[Vertices]:
    tester = _tester(version) if tested else None
    graph = Copy(version)
    up = np.arange(graph.count, dtype=U32)
    yield 0, graph.count
    yield from graph.over("join_edges", up)
    call("name_parts", graph.count, up)
    if tester:
        labels = np.flatnonzero(up == np.arange(graph.count)).astype(U32)
        steps, parents, _ = yield from _searched(graph.both_ways(), labels, graph.count)
        if not tester.are_components(up, parents, steps):
            raise Error("the components are others than those of the proved test: please report this")
    return up


def pagerank(
    version: AnyVersion, damping: float = 0.85, within: float = 1e-9, most: int = 100, start: npt.ArrayLike | None = None,
    first: npt.ArrayLike | None = None, *, progress: Progress | None = None, seconds: float | None = None,
) -> Rank:
    """PageRank, which sums to 1. It ends when all ranks together change by less than `within`, or after `most` rounds.

    start: one weight for each vertex, where walks begin, for personalised PageRank; None is all alike. What vertices without an edge have goes
    there, too. first: the ranks to begin with, such as those of an earlier version.
    """
    return finished(_pagerank(version, damping, within, most, start, first), progress, seconds)


def _pagerank(
    version: AnyVersion, damping: float = 0.85, within: float = 1e-9, most: int = 100, start: npt.ArrayLike | None = None,
    first: npt.ArrayLike | None = None,
) -> Pieces[Rank]:
    count = version_of(version).vertices
    damping, within, last = number_of(damping, 0, 1, "damping"), number_of(within, 0, np.inf, "within"), at_least(most, 0, "most")
    begin = None if start is None else weights_of(start, count, "start")
    ranks = weights_of(first, count, "first") if first is not None else np.full(count, 1 / count) if begin is None else begin.copy()
    graph, gives, sums = Copy(version), np.empty(count), np.empty(count)
    change, rounds, of = 1.0, 0, 2 * last * count
    yield 0, of
    while rounds < last and (rounds == 0 or change >= within):
        kept = sum((yield from graph.over("rank_gives", ranks, gives, done=2 * rounds * count, of=of)))
        sums.fill(0)
        yield from graph.over("rank_spread", gives, sums, done=(2 * rounds + 1) * count, of=of)
        base = (1 - damping + damping * kept) / (count if begin is None else 1)
        change = sum(call("rank_finish", *ends, damping, base, begin, ranks, sums) for ends in cut(count))
        ranks, sums, rounds = sums, ranks, rounds + 1
    return Rank(ranks, rounds, change if rounds else 0.0)


def pagerank_fixed(
    version: AnyVersion, rounds: int = 20, damping: int = 85, *, progress: Progress | None = None, seconds: float | None = None,
) -> Numbers:
    """PageRank in whole numbers, in which one is 2^40: the same bits everywhere. damping: in hundredths, 0 to 100. Each division rounds down, so
    the sum is at most 2^40."""
    return finished(_pagerank_fixed(version, rounds, damping), progress, seconds)


def _pagerank_fixed(version: AnyVersion, rounds: int = 20, damping: int = 85) -> Pieces[Numbers]:
    count, last, hundredths = version_of(version).vertices, at_least(rounds, 0, "rounds"), at_least(damping, 0, "damping")
    if hundredths > HUNDREDTHS:
        raise ValueError(f"damping is 0 to {HUNDREDTHS}, not {hundredths}")
    graph, ranks, gives = Copy(version), np.full(count, ONE // count, U64), np.empty(count, U64)
    of = 2 * last * count
    yield 0, of
    for number in range(last):
        kept = sum((yield from graph.over("fixed_gives", hundredths, ranks, gives, done=2 * number * count, of=of)))
        ranks.fill((ONE * (HUNDREDTHS - hundredths) + hundredths * kept) // (HUNDREDTHS * count))
        yield from graph.over("fixed_spread", gives, ranks, done=(2 * number + 1) * count, of=of)
    return ranks


def is_mirrored(version: AnyVersion, *, progress: Progress | None = None, seconds: float | None = None) -> bool:
    """Whether the graph has an edge back for each edge."""
    return finished(mirrored(Copy(version), False, 0, version.vertices), progress, seconds)


def _mirrored(version: AnyVersion, assume_mirrored: bool, passes: int) -> Pieces[tuple[Copy, int]]:
    """The copy of a mirrored graph, and of how much work all its passes are."""
    graph = Copy(version)
    of = passes * graph.count
    yield 0, of
    if not (yield from mirrored(graph, assume_mirrored, 0, of)):
        raise NotMirrored("version: the graph has an edge without an edge back")
    return graph, of


def cores(
    version: AnyVersion, *, assume_mirrored: bool = False, tested: bool = False, progress: Progress | None = None, seconds: float | None = None,
) -> Vertices:
    """The greatest k for which each vertex is in the k-core, the largest part of the graph in which each vertex has k neighbours. Loops do not
    count. The graph is mirrored (`NotMirrored`); assume_mirrored leaves out the test.

    tested: the library's proved test looks at the numbers and at the order in which vertices were taken out, and an answer that is wrong is an
    `Error`. It takes a version of `edgebpf.Store`.
    """
    return finished(_cores(version, assume_mirrored, tested), progress, seconds)


def _cores(version: AnyVersion, assume_mirrored: bool = False, tested: bool = False) -> Pieces[Vertices]:
    tester = _tester(version) if tested else None
    graph, of = yield from _mirrored(version, assume_mirrored, 3)
    count, found = graph.count, np.empty(graph.count, U32)
    most = max((yield from graph.over("degrees", found, done=count, of=of)))
    order, place, bins = np.empty(count, U32), np.empty(count, U32), np.empty(most + 2, U32)
    call("order_by_degree", count, found, most, order, place, bins)
    yield from graph.over("cores", found, order, place, bins, done=2 * count, of=of)
    if tester and not tester.are_cores(found, place):
        raise Error("the core numbers are others than those of the proved test: please report this")
    return found


def triangles(
    version: AnyVersion, *, assume_mirrored: bool = False, threads: int = 1, progress: Progress | None = None, seconds: float | None = None,
) -> Numbers:
    """In how many triangles each vertex is; a third of the sum are all of them. Loops do not count. The graph is mirrored (`NotMirrored`).
    threads: 1 to 64 of this process, each of which takes 12 bytes for each vertex; the answer is the same."""
    return finished(_triangles(version, assume_mirrored, threads), progress, seconds)


def _triangles(version: AnyVersion, assume_mirrored: bool = False, threads: int = 1) -> Pieces[Numbers]:
    each, _ = yield from _triangles_and_degrees(version, assume_mirrored, threads)
    return each


def _triangles_and_degrees(version: AnyVersion, assume_mirrored: bool, threads: int) -> Pieces[tuple[Numbers, Vertices]]:
    """The triangles and the neighbours of each vertex."""
    many = threads_of(threads)
    graph, of = yield from _mirrored(version, assume_mirrored, 5)
    count = graph.count
    degrees, starts = np.empty(count, U32), np.zeros(count + 1, U64)
    yield from graph.over("degrees", degrees, done=count, of=of)
    yield from graph.over("count_up", degrees, starts, done=2 * count, of=of)
    targets = np.empty(int(starts[count]), U32)
    yield from graph.over("write_up", degrees, starts, targets, done=3 * count, of=of)
    up, parts = Copy.of(starts, targets), list[Numbers]()

    def worker() -> Any:
        marks, each = np.full(count, NO_VERTEX, U32), np.zeros(count, U64)
        parts.append(each)
        return lambda begin, end: up.call("triangles", begin, end, marks, each)

    for done, _ in by_threads(list(cut(count, SHARED_PIECE)), many, worker):
        yield 4 * count + done, of
    each: Numbers = sum(parts[1:], parts[0])
    return each, degrees


def clustering(
    version: AnyVersion, *, assume_mirrored: bool = False, threads: int = 1, progress: Progress | None = None, seconds: float | None = None,
) -> Floats:
    """Which share of the pairs of a vertex's neighbours are edges; 0 where there are fewer than two. Loops do not count. The graph is
    mirrored (`NotMirrored`). threads: as for `triangles`."""
    return finished(_clustering(version, assume_mirrored, threads), progress, seconds)


def _clustering(version: AnyVersion, assume_mirrored: bool = False, threads: int = 1) -> Pieces[Floats]:
    each, degrees = yield from _triangles_and_degrees(version, assume_mirrored, threads)
    pairs = degrees * (degrees - 1.0) / 2
    return np.divide(each, pairs, out=np.zeros(len(each)), where=pairs > 0)


def independent_set(
    version: AnyVersion, seed: int = 0, *, assume_mirrored: bool = False, tested: bool = False, progress: Progress | None = None,
    seconds: float | None = None,
) -> npt.NDArray[np.bool_]:
    """A maximal independent set: whether each vertex is in it. Vertices are taken in an order that `seed`, 0 to 2^32 - 1, gives, each of which no
    neighbour was taken before. Loops do not count. The graph is mirrored (`NotMirrored`).

    tested: the library's proved test looks at the set, and one that is not independent, or to which a vertex could be added, is an `Error`. It
    takes a version of `edgebpf.Store`.
    """
    return finished(_independent_set(version, seed, assume_mirrored, tested), progress, seconds)


def _independent_set(
    version: AnyVersion, seed: int = 0, assume_mirrored: bool = False, tested: bool = False,
) -> Pieces[npt.NDArray[np.bool_]]:
    tester = _tester(version) if tested else None
    first = at_least(seed, 0, "seed")
    if first >= MOST_SEED:
        raise ValueError(f"seed is below 2^32, and not {first}")
    graph, of = yield from _mirrored(version, assume_mirrored, 2)
    count, states = graph.count, np.zeros(graph.count, U8)
    order = np.argsort(hashed(np.arange(count, dtype=U64) + np.uint64(first << 32)), kind="stable").astype(U32)
    for begin, end in cut(count):
        graph.call("take_independent", order[begin:end], end - begin, states)
        yield count + end, of
    chosen: npt.NDArray[np.bool_] = states == 1
    if tester and not tester.is_independent_set(chosen):
        raise Error("the set is not what the proved test asks for: please report this")
    return chosen


def hashed(numbers: Numbers) -> Numbers:
    """`hash` of tools/edgebpf.h."""
    for _ in range(2):
        numbers = (numbers ^ numbers >> np.uint64(32)) * np.uint64(0xD6E8FEB86659FD93)
    return numbers ^ numbers >> np.uint64(32)


def label_propagation(version: AnyVersion, most: int = 20, *, progress: Progress | None = None, seconds: float | None = None) -> Labels:
    """Communities by labels, in rounds. At first each vertex has its own number. In a round the vertices, ascending, take the most frequent label
    of their targets: their own if it is among the most frequent ones, else the least of these. Loops do not count. It ends after a round without a
    change, or after `most` rounds."""
    return finished(_label_propagation(version, most), progress, seconds)


def _label_propagation(version: AnyVersion, most: int = 20) -> Pieces[Labels]:
    last, graph = at_least(most, 0, "most"), Copy(version)
    count = graph.count
    labels, votes, changed, rounds = np.arange(count, dtype=U32), np.zeros(count, U32), count, 0
    yield 0, last * count
    while changed and rounds < last:
        changed = sum((yield from graph.over("label_round", labels, votes, done=rounds * count, of=last * count)))
        rounds += 1
    return Labels(labels, rounds, changed)


def pair_scores(
    version: AnyVersion, sources: npt.ArrayLike, targets: npt.ArrayLike, kind: str = "jaccard", *, threads: int = 1, progress: Progress | None = None,
    seconds: float | None = None,
) -> Floats:
    """A score of each pair by the targets that both have: how many ("common"), which share of all their targets ("jaccard"), or the sum of
    1 / log d ("adamic_adar") or 1 / d ("allocation"), where d is how many targets the common one has. Lists are read where they lie, so a
    version of `connect` is `NotHere`. threads: 1 to 64 of this process."""
    return finished(_pair_scores(version, sources, targets, kind, threads), progress, seconds)


def _pair_scores(
    version: AnyVersion, sources: npt.ArrayLike, targets: npt.ArrayLike, kind: str = "jaccard", threads: int = 1,
) -> Pieces[Floats]:
    lists, number, many = Lender(version), kind_of(kind), threads_of(threads)
    one, other = vertices_of(sources, lists.count, "sources"), vertices_of(targets, lists.count, "targets")
    if len(one) != len(other):
        raise ValueError(f"there are {len(one)} sources and {len(other)} targets, which are one of each for a pair")
    has_many = len(one) >= PAIRS_OF_A_VERTEX * lists.count
    degrees = version.degrees() if has_many and number >= ADAMIC_ADAR else None
    scores = np.empty(len(one))
    yield 0, len(one)

    def worker() -> Any:
        spare = np.empty(2 * lists.count, U32)
        return lambda begin, end: lists.call(
            "pair_scores", number, one[begin:end], other[begin:end], end - begin, degrees, lists.count, spare, scores[begin:end])

    yield from by_threads(list(cut(len(one), PAIRS_PIECE)), many, worker)
    return scores


class Candidates:
    """Friends of friends: vertices two edges away, and the score of each. It keeps its version and some arrays, 28 bytes for each vertex, from question
    to question. Threads take turns. kind: "common", "adamic_adar" or "allocation"."""

    def __init__(self, version: AnyVersion, kind: str = "adamic_adar") -> None:
        self._lists, self._kind = Lender(version), kind_of(kind)
        if self._kind == JACCARD:
            raise ValueError("kind is common, adamic_adar or allocation, not jaccard")
        count = self._lists.count
        self._spare, self._score = np.empty(2 * count, U32), np.zeros(count)
        self._found, self._numbers, self._lock = np.empty(count, U32), np.empty(count), threading.Lock()

    def of(self, vertex: int, count: int = 10) -> tuple[Vertices, Floats]:
        """The `count` vertices with the greatest scores, the least vertex first where scores are equal, and these scores. None of them is the
        vertex itself or a target of it."""
        lists, most = self._lists, at_least(count, 0, "count")
        source = vertex_of(vertex, lists.count)
        with self._lock:
            many = lists.call("two_steps", self._kind, source, lists.count, self._spare, self._score, self._found, self._numbers)
            found, numbers = self._found[:many], self._numbers[:many]
            ascending = np.argsort(found)
            best = ascending[np.argsort(-numbers[ascending], kind="stable")][:most]
            return found[best], numbers[best]


def degree_distribution(version: AnyVersion) -> npt.NDArray[np.int64]:
    """How many vertices have 0, 1, 2, .. targets."""
    return np.bincount(version_of(version).degrees())


STEPS = {
    "bfs": _bfs, "components": _components, "pagerank": _pagerank, "pagerank_fixed": _pagerank_fixed, "cores": _cores, "triangles": _triangles,
    "clustering": _clustering, "independent_set": _independent_set, "label_propagation": _label_propagation, "pair_scores": _pair_scores,
}


def begin(name: str, *given: Any, **options: Any) -> Task[Any]:
    """An algorithm of this page by its name, with what it takes but for `progress` and `seconds`, as a `Task` of which at most the first piece is done."""
    if name not in STEPS:
        raise ValueError(f"name is one of {', '.join(STEPS)}, not {name!r}")
    return Task(STEPS[name](*given, **options))  # type: ignore[operator]


def at_least(number: int, least: int, name: str) -> int:
    """A whole number that is not too small. `name` is what the caller calls it."""
    value = whole(number, name)
    if value < least:
        raise ValueError(f"{name} is at least {least}, not {value}")
    return value


def number_of(number: float, least: float, most: float, name: str) -> float:
    """A number within a range."""
    if isinstance(number, bool) or not isinstance(number, (int, float, np.integer, np.floating)):
        raise TypeError(f"{name} is a number, not {type(number).__name__}")
    if not least <= number <= most:
        raise ValueError(f"{name} is {least:g} to {most:g}, not {number}")
    return float(number)


def weights_of(weights: npt.ArrayLike, count: int, name: str) -> Floats:
    """A weight for each vertex, none of them negative, divided by their sum."""
    array = given_array(weights, name)
    if array.ndim != 1 or array.dtype.kind not in "biuf":
        raise TypeError(f"{name} is an array of numbers with one dimension")
    if len(array) != count:
        raise ValueError(f"{name} has {len(array)} numbers, and the graph {count} vertices")
    numbers = array.astype(F64)
    with np.errstate(over="ignore"):
        total = float(numbers.sum())
    if not (np.isfinite(total) and numbers.min() >= 0 and total > 0):
        raise ValueError(f"{name} has numbers of which none is negative, not all are 0, and the sum is finite")
    shares: Floats = numbers / total
    return shares


def kind_of(kind: str) -> int:
    """The number of a kind of scores."""
    if not isinstance(kind, str) or kind not in KINDS:
        raise ValueError(f"kind is one of {', '.join(KINDS)}, not {kind!r}")
    return KINDS[kind]

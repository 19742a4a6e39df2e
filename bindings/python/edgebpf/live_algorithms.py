"""Answers about a graph that are kept while batches come. Each update takes the next version, and the edits between the two."""
from __future__ import annotations

import threading
from collections.abc import Iterator
from contextlib import contextmanager
from typing import NamedTuple

import numpy as np
import numpy.typing as npt

from edgebpf.companion import I64, NO_VERTEX, U8, U32, U64, AnyVersion, Copy, Lender, Pieces, Progress, call, cut, finished, foreign, pointer
from edgebpf.errors import Closed
from edgebpf.given import Edges, Numbers, Vertices, ends_of, frozen

NO_EDGES: Edges = ((), ())
# So many vertices are read, edges looked up or residuals pushed before a Ctrl-C is heard.
READ_AT_ONCE = 1 << 12
LOW_HALF, HIGH_HALF = np.uint64(0xFFFFFFFF), np.uint64(32)
# Residuals are pushed that are so many times their limits, so that small ones add up before they go on.
TIMES = (64.0, 16.0, 4.0, 1.0)
# Once pushes went along so large a share of the edges, whole rounds do the rest.
SHARE_OF_EDGES = 1 / 4


class NotMirrored(ValueError):
    """The algorithm is for graphs that have an edge back for each edge."""


def mirrored(graph: Copy, assume: bool, done: int, of: int) -> Pieces[bool]:
    """Whether the graph has an edge back for each edge; where that is assumed, it is not tested."""
    if assume:
        return True
    met = graph.starts.astype(U64)
    for begin, end in cut(graph.count):
        if not graph.call("is_mirrored", begin, end, met):
            return False
        yield done + end, of
    return True


class Pairs(NamedTuple):
    """Edges, each once, ascending."""

    sources: Vertices
    targets: Vertices

    @classmethod
    def of(cls, keys: Numbers) -> Pairs:
        return cls((keys >> HIGH_HALF).astype(U32), (keys & LOW_HALF).astype(U32))

    def keys(self) -> Numbers:
        return keys_of(self.sources, self.targets)


def keys_of(sources: Vertices, targets: Vertices) -> Numbers:
    """A number for each edge, by which they ascend as in a list of all."""
    keys: Numbers = sources.astype(U64) << HIGH_HALF | targets
    return keys


def have_edges(lists: Lender, pairs: Pairs) -> Pieces[npt.NDArray[np.bool_]]:
    """Whether each pair is an edge."""
    answers = np.empty(len(pairs.sources), U8)
    for begin, end in cut(len(answers), READ_AT_ONCE):
        lists.call("have_edges", pairs.sources[begin:end], pairs.targets[begin:end], end - begin, answers[begin:end])
        yield 0, lists.count
    return answers.view(bool)


class Kept:
    """What is kept of a graph, with the version that it is of. An update that is cut off leaves it half done, so it is closed then."""

    def __init__(self, version: AnyVersion) -> None:
        self._lists, self._edges = Lender(version), version.edges
        self._lock, self._is_cut_off = threading.Lock(), False

    @contextmanager
    def _turn(self) -> Iterator[None]:
        """The turn of a thread."""
        with self._lock:
            if self._is_cut_off:
                raise Closed(f"an update of this {type(self).__name__} was cut off: make another one")
            yield

    def update(
        self, version: AnyVersion, inserts: Edges = NO_EDGES, removes: Edges = NO_EDGES, *, progress: Progress | None = None,
    ) -> None:
        """Goes on to another version. inserts, removes: pairs of arrays (sources, targets) with each edge that only one of the two versions has.
        Others do no harm, and the order does not matter. What `progress` raises, and a Ctrl-C, closes the object unless nothing was changed yet."""
        with self._turn():
            finished(self._updated(version, inserts, removes), progress, None)

    def _updated(self, version: AnyVersion, inserts: Edges, removes: Edges) -> Pieces[None]:
        lists = Lender(version)
        if lists.count != self._lists.count:
            raise ValueError(f"version has {lists.count} vertices, and the one before {self._lists.count}")
        ends = [ends_of(edges, lists.count, name) for edges, name in ((inserts, "inserts"), (removes, "removes"))]
        edits = Pairs.of(np.unique(np.concatenate([keys_of(*pair) for pair in ends])))
        before, after = (yield from have_edges(self._lists, edits)), (yield from have_edges(lists, edits))
        came, gone = (Pairs(edits.sources[there], edits.targets[there]) for there in (after & ~before, before & ~after))
        if version.edges - self._edges != len(came.sources) - len(gone.sources):
            raise ValueError("inserts and removes are not all edits between the two versions")
        self._check(came, gone)
        self._is_cut_off = True
        yield from self._change(lists, came, gone)
        self._lists, self._edges = lists, version.edges
        self._is_cut_off = False

    def _check(self, came: Pairs, gone: Pairs) -> None:
        """Raises an error if these edges cannot come or go."""

    def _change(self, lists: Lender, came: Pairs, gone: Pairs) -> Pieces[None]:
        """Follows the edges that came and are gone."""
        raise NotImplementedError


def check_mirrored(came: Pairs, gone: Pairs) -> None:
    """Raises `NotMirrored` if an edge came or is gone without the one back."""
    for edges in (came, gone):
        if not np.array_equal(edges.keys(), np.sort(keys_of(edges.targets, edges.sources))):
            raise NotMirrored("version: the graph has an edge without an edge back")


def upward(edges: Pairs) -> Pairs:
    """One of each edge and the one back, without loops."""
    chosen = edges.sources < edges.targets
    return Pairs(edges.sources[chosen], edges.targets[chosen])


class LiveComponents(Kept):
    """The components of a mirrored graph, kept while batches come (`NotMirrored`). `read` is how many vertices' lists the last update read."""

    # Made at the first question after an update.
    _labels: Vertices | None

    def __init__(self, version: AnyVersion, *, assume_mirrored: bool = False, progress: Progress | None = None) -> None:
        super().__init__(version)
        finished(self._begun(version, assume_mirrored), progress, None)

    def _begun(self, version: AnyVersion, assume_mirrored: bool) -> Pieces[None]:
        graph = Copy(version)
        count = graph.count
        yield 0, 2 * count
        if not (yield from mirrored(graph, assume_mirrored, 0, 2 * count)):
            raise NotMirrored("version: the graph has an edge without an edge back")
        up = np.arange(count, dtype=U32)
        yield from graph.over("join_edges", up, done=count, of=2 * count)
        call("name_parts", count, up)
        self.read = 0
        self._owner, self._next = np.full(count, NO_VERTEX, U32), np.empty(count, U32)
        self._renumber(up)

    def _renumber(self, labels: Vertices) -> None:
        """Gives each part the number of its least vertex. Parts that are cut off later have greater numbers."""
        self._parts, self._up = labels.copy(), np.arange(2 * len(labels), dtype=U32)
        self._numbers, self._labels = len(labels), frozen(labels)

    def _check(self, came: Pairs, gone: Pairs) -> None:
        check_mirrored(came, gone)

    @property
    def labels(self) -> Vertices:
        """For each vertex the least one of its component: a read-only array, which stays as it is. It is made at the first question after an
        update, by one pass over all vertices."""
        with self._turn():
            return self._labelled()

    def _labelled(self) -> Vertices:
        if self._labels is None:
            count = len(self._parts)
            least, labels = np.empty(self._numbers, U32), np.empty(count, U32)
            call("label_parts", count, self._numbers, self._parts, self._up, least, labels)
            self._labels = frozen(labels)
        return self._labels

    def are_joined(self, sources: npt.ArrayLike, targets: npt.ArrayLike) -> npt.NDArray[np.bool_]:
        """Whether the two vertices of each pair are in one component, without a pass over all vertices."""
        with self._turn():
            one, other = ends_of((np.asarray(sources), np.asarray(targets)), len(self._parts), "pairs")
            joined: npt.NDArray[np.bool_] = self._roots(one) == self._roots(other)
            return joined

    def _roots(self, vertices: Vertices) -> Vertices:
        """The number of the part of each of some vertices."""
        roots = np.empty(len(vertices), U32)
        call("find_parts", self._up, self._parts[vertices], len(vertices), roots)
        return roots

    def _change(self, lists: Lender, came: Pairs, gone: Pairs) -> Pieces[None]:
        came, gone = upward(came), upward(gone)
        self.read, many = 0, len(came.sources)
        if many or len(gone.sources):
            self._labels = None
        call("join_pairs", self._parts[came.sources], self._parts[came.targets], many, self._up)
        seeds = np.unique(np.concatenate(gone))
        roots = self._roots(seeds)
        order = np.argsort(roots, kind="stable")
        seeds, begins = seeds[order], np.flatnonzero(np.diff(roots[order], prepend=NO_VERTEX))
        for begin, end in zip(begins.tolist(), [*begins[1:].tolist(), len(seeds)]):
            yield from self._split(lists, seeds[begin:end])

    def _split(self, lists: Lender, seeds: Vertices) -> Pieces[None]:
        """Finds the parts of a part from which the edges between some vertices are gone."""
        many = len(seeds)
        if self._numbers + many > len(self._up):
            self._labels = None
            self._renumber(self._labelled().copy())
            self._labels = None
        searches, ring = foreign().new("edgebpf_search[]", many), np.empty(many, U32)
        split = foreign().new("edgebpf_split *", (searches, pointer(ring), pointer(self._owner), pointer(self._next), 0, 0, 0))
        call("split_begin", split, seeds, many)
        while split.live > 1:
            self.read += lists.calls("split_go_on", (split,), READ_AT_ONCE)
            yield self.read, lists.count
        self._numbers += call("split_end", split, self._numbers, self._parts)


class LiveTriangles(Kept):
    """The triangles of a mirrored graph, kept while batches come (`NotMirrored`). `all` is how many there are."""

    def __init__(self, version: AnyVersion, *, assume_mirrored: bool = False, threads: int = 1, progress: Progress | None = None) -> None:
        from edgebpf import algorithms

        super().__init__(version)
        each = algorithms.triangles(version, assume_mirrored=assume_mirrored, threads=threads, progress=progress)
        self._each, self.all = each.astype(I64), int(each.sum()) // 3
        self._spare = np.empty(2 * len(each), U32)

    @property
    def each(self) -> Numbers:
        """In how many triangles each vertex is, as `triangles` has it: a copy."""
        with self._turn():
            return self._each.astype(U64)

    def _check(self, came: Pairs, gone: Pairs) -> None:
        check_mirrored(came, gone)

    def _change(self, lists: Lender, came: Pairs, gone: Pairs) -> Pieces[None]:
        for where, edges, sign in ((self._lists, upward(gone), -1), (lists, upward(came), 1)):
            count = len(edges.sources)
            for begin, end in cut(count, READ_AT_ONCE):
                found = where.call("triangles_of", *edges, count, begin, end, sign, where.count, self._spare, self._each)
                self.all += sign * found
                yield end, count


class LiveRank(Kept):
    """PageRank, kept while batches come: `apart` of `ranks` is at most `within` after each update, up to rounding. `pushed` is how many times the last
    update moved what a vertex lacked to its targets, and `rounds` how many times it did so for the whole graph."""

    def __init__(self, version: AnyVersion, damping: float = 0.85, within: float = 1e-6, *, progress: Progress | None = None) -> None:
        from edgebpf.algorithms import number_of

        super().__init__(version)
        self._damping, self._within = number_of(damping, 0, 0.999, "damping"), number_of(within, 1e-12, 2, "within")
        count = self._lists.count
        self._degrees = version.degrees()
        self._ranks, self._residuals = np.zeros(count), np.full(count, (1 - self._damping) / count)
        self._queue, self._touched = np.empty(count, U32), np.empty(count, U32)
        self._queued, self._is_touched = np.zeros(count, U8), np.zeros(count, U8)
        arrays = self._degrees, self._ranks, self._residuals, self._queue, self._touched, self._queued, self._is_touched
        self._state = foreign().new("edgebpf_residuals *", (self._damping, 0, *map(pointer, arrays), count, 0, 0, 0, 0))
        self.pushed = self.rounds = 0
        finished(self._whole_rounds(version), progress, None)

    @property
    def ranks(self) -> npt.NDArray[np.float64]:
        """The ranks, which sum to 1: a copy."""
        with self._turn():
            ranks: npt.NDArray[np.float64] = self._ranks / self._ranks.sum()
            return ranks

    @property
    def apart(self) -> float:
        """A bound on the sum of all differences between `ranks` and the exact ones."""
        with self._turn():
            return self._apart()

    def _apart(self) -> float:
        # What a residual adds in the end is at most itself divided by 1 - damping, and the sum by which ranks are divided differs by as much.
        return float(2 * np.abs(self._residuals).sum() / (1 - self._damping) / self._ranks.sum())

    def _whole_rounds(self, version: AnyVersion) -> Pieces[None]:
        """Moves what all vertices lack to their targets, until they lack little enough."""
        graph: Copy | None = None
        self.rounds = 0
        while self._ranks.sum() == 0 or self._apart() > self._within:
            graph = graph or Copy(version)
            count = graph.count
            self._ranks += self._residuals
            gives, sums = np.empty(count), np.zeros(count)
            for begin, end in cut(count):
                graph.call("rank_gives", begin, end, self._residuals, gives)
            for begin, end in cut(count):
                graph.call("rank_spread", begin, end, gives, sums)
                yield end, count
            np.multiply(sums, self._damping, out=self._residuals)
            self.rounds += 1

    def _updated(self, version: AnyVersion, inserts: Edges, removes: Edges) -> Pieces[None]:
        self._version = version
        yield from super()._updated(version, inserts, removes)

    def _change(self, lists: Lender, came: Pairs, gone: Pairs) -> Pieces[None]:
        state, version, count = self._state, self._version, lists.count
        changed = np.unique(np.concatenate([came.sources, gone.sources]))
        state.touched_count = state.at = state.count = state.edges = self.pushed = 0
        for where, sign in ((self._lists, -1.0), (lists, 1.0)):
            for begin, end in cut(len(changed), READ_AT_ONCE):
                where.calls("move_residuals", (state,), changed[begin:end], end - begin, sign)
                yield 0, count
        self._degrees[changed] = version.degrees(changed)
        state.unit = self._within * (1 - self._damping) / 2 * self._ranks.sum() / (version.edges + count)
        most = SHARE_OF_EDGES * version.edges
        for times in TIMES:
            call("queue_residuals", state, times)
            while state.count and state.edges < most:
                self.pushed += lists.calls("push_residuals", (state,), times, READ_AT_ONCE)
                yield min(state.edges, version.edges), version.edges
        self._queued[:] = 0
        self._is_touched[self._touched[:state.touched_count]] = 0
        yield from self._whole_rounds(version)

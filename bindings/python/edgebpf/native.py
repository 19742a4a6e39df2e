"""A store in this process, over `libedgebpf.so`, and its versions."""
from __future__ import annotations

import ctypes
import threading
from operator import index
from typing import Any

import numpy as np
import numpy.typing as npt

from edgebpf import adapters, library
from edgebpf.errors import Closed, TooManyEdits, VertexRange
from edgebpf.given import (
    NO_COLUMNS, REDUCTIONS, Columns, Edges, Numbers, Pairs, Vertices, columns_of, edits_of, edits_of_batch, ends_of_pairs,
    feed_of, found_of, frozen, members_of, reduction_of, starts_of, threads_of, values_into, vertex_count, vertex_of, vertices_of, whole,
)
from edgebpf.kept_here import KeptHere
from edgebpf.limits import MOST_EDITS, MOST_VERTICES
from edgebpf.parts import Parts
from edgebpf.programs import Program, argument_of, handle_of
from edgebpf.steps import FIRST_BUDGET, LEAST_NUMBERS, End, Frontier, Inputs, NumbersRun, PairsRun, Push, Run, Windows, end_after
from edgebpf.store import Counts, Pushed, Result, Visited, described
from edgebpf.store import REDUCTIONS as JOINS

# Most lists lie in one slice. `lend` fills the room if there may be more.
LEAST_ROOM, MORE_ROOM = 2, 64
# Of a graph of more vertices no array of all is made.
MOST_IN_ARRAY = 1 << 20
U32, U64 = np.dtype(np.uint32), np.dtype(np.uint64)
view_of = np.frombuffer
NO_VERTICES: Vertices = frozen(np.empty(0, U32))


class Memory(ctypes.c_uint8 * (1 << 47)):  # type: ignore[misc]
    """All addresses, for views of a version's slices. It keeps the version's handle."""

    handle: library.Handle


def memory_of(handle: library.Handle) -> memoryview:
    """Where the slices of a version lie, for reading alone; whoever has it keeps the version."""
    memory = Memory.from_address(0)
    memory.handle = handle
    return memoryview(memory).toreadonly()


class Store(KeptHere):
    """A graph in this process, without an edge at first. Batches and runs have one worker; it may be used by several threads, which take
    turns, and is a context manager. vertices: 1 to 268,435,456. `ids` has the id of each vertex where `read_edges` renumbered them, else None."""

    _called, _instead = "a store", "; csr() of a version has its edges, and Store.from_csr takes them"
    ids: npt.NDArray[np.int64] | list[str] | None = None

    def __init__(self, vertices: int) -> None:
        vertices = vertex_count(vertices, MOST_VERTICES)
        handle = library.Handle()
        library.check(library.load().edgebpf_store_new(vertices, handle.at))
        self._hold(handle, vertices)

    def _hold(self, handle: library.Handle, vertices: int) -> None:
        self.vertices = vertices
        self._handle: library.Handle | None = handle
        self._lock = threading.Lock()

    @classmethod
    def from_csr(cls, starts: npt.ArrayLike, targets: npt.ArrayLike) -> Store:
        """A store of edges that are sorted, as `Version.csr` and a `scipy.sparse.csr_array` have them, in one call and without a log.

        starts: for each vertex the place in `targets` at which its list begins, and after the last one the number of targets. targets: the
        lists, each ascending without one twice. Raises `ValueError` if they are not so, `VertexRange` if a target is no vertex, and
        `NoMemory`.
        """
        places = starts_of(starts)
        vertices = len(places) - 1
        if not 1 <= vertices <= MOST_VERTICES:
            raise ValueError(f"starts have a place for each vertex, of which there are 1 to {MOST_VERTICES}, and one more, not {len(places)} places")
        lists = vertices_of(targets, vertices, "targets")
        store, handle, calls = cls.__new__(cls), library.Handle(), library.calls()
        arrays = calls.buffer(calls.numbers, places), len(places), calls.buffer(calls.words, lists), len(lists)
        library.check(library.load().edgebpf_store_from(vertices, *arrays, handle.at))
        store._hold(handle, vertices)
        return store

    @classmethod
    def _of(cls, version: Version) -> Store:
        """A store whose first version is this one."""
        store, handle = cls.__new__(cls), library.Handle()
        library.check(library.load().edgebpf_store_of(version._at(), handle.at))
        store._hold(handle, version.vertices)
        return store

    @classmethod
    def _with(cls, vertices: int, sources: npt.NDArray[Any], targets: npt.NDArray[Any]) -> Store:
        """A store with these edges, which has forgotten the batches that put them in."""
        store = cls(vertices)
        adapters.put(store, sources, targets)
        return store

    @classmethod
    def from_scipy(cls, matrix: Any) -> Store:
        """A store with an edge for each entry that a square matrix has, also for one that is stored as 0. Its first version is number 0 of a
        later epoch: no batch is kept."""
        return cls._with(*adapters.from_scipy(matrix))

    @classmethod
    def from_igraph(cls, graph: Any) -> Store:
        """The same of an `igraph.Graph`. One that is undirected gives edges in both directions, and parallel edges are one."""
        return cls._with(*adapters.from_igraph(graph))

    @classmethod
    def from_networkx(cls, graph: Any) -> Store:
        """The same of a graph of networkx whose nodes are the numbers from 0 on, in any order."""
        return cls._with(*adapters.from_networkx(graph))

    def _open(self) -> library.Handle:
        if self._handle is None:
            raise Closed("the store is closed")
        return self._handle

    def batch(
        self, feed: str = "A", inserts: Edges = ((), ()), removes: Edges = ((), ()), edges: Pairs | None = None,
    ) -> Counts:
        """Applies one batch by feed "A", "B", "C" or "D", and returns its `Counts`.

        inserts, removes: pairs of arrays (sources, targets), each of whole numbers below `vertices`. edges: an (n, 2) array or a list
        of pairs, inserted too. Insertions are applied before removals. Raises `TooManyEdits`, `VertexRange`, `LogFull` and
        `NoMemory`; then the store is as it was.
        """
        return self._edited(feed, *edits_of_batch(inserts, removes, edges, self.vertices))

    def apply(
        self, sources: npt.ArrayLike = (), targets: npt.ArrayLike = (), removes: npt.ArrayLike | None = None, feed: str = "A", *,
        edges: Pairs | None = None,
    ) -> Counts:
        """Applies one batch whose edits are in their order: where two name the same edge, the later one decides.

        sources, targets: arrays of whole numbers below `vertices`; or edges: an (n, 2) array or a list of pairs in their place.
        removes: for each edit whether its edge is taken out; None puts all in. Raises what `batch` raises.
        """
        return self._edited(feed, *edits_of(sources, targets, removes, edges, self.vertices))

    def _edited(self, feed: str, sources: Vertices, targets: Vertices, marks: npt.NDArray[np.uint8]) -> Counts:
        """Applies a batch."""
        number, handle, change = feed_of(feed), self._open(), library.new("change *")
        if len(sources) > MOST_EDITS:
            raise TooManyEdits(f"{len(sources)} edits; a batch has at most {MOST_EDITS}")
        calls, count = library.calls(), len(sources)
        arrays = calls.buffer(calls.words, sources), count, calls.buffer(calls.words, targets), count, calls.buffer(calls.bytes, marks), count
        with self._lock:
            library.check(library.load().edgebpf_store_apply(handle.at, number, *arrays, change))
        return Counts(change.number, change.added, change.removed)

    def rebase(self) -> int:
        """Forgets the batches that made the last version, and returns how many rebases there were. The graph stays as it is, and version
        numbers begin again: there is room for 4,096 batches more. The memory of the forgotten batches is free once no older version is
        open. There is no end to rebases; each takes 32 bytes. Raises `NoMemory`; then the store is as it was."""
        handle, epoch = self._open(), library.new("uint64_t *")
        with self._lock:
            library.check(library.load().edgebpf_store_rebase(handle.at, epoch))
        return int(epoch[0])

    def pin(self) -> Version:
        """The last version. It stays as it is while batches come."""
        return Version(self._pinned())

    def _pinned(self) -> library.Shared:
        """The library's handles of the last version."""
        handle, pin, calls = self._open(), library.Handle(), library.calls()
        with self._lock:
            library.check(calls.pin(handle.at, pin.at))
        return library.Shared(pin, calls.share_version)

    def __repr__(self) -> str:
        return f"<edgebpf.Store: {self.vertices} vertices{', closed' if self._handle is None else ''}>"

    def close(self) -> None:
        """Drops the store; its versions stay. May be called twice."""
        self._handle = None

    def __enter__(self) -> Store:
        return self

    def __exit__(self, *_: object) -> None:
        self.close()


class Version(KeptHere):
    """A version of a store's graph. `epoch` is how many rebases there were before it, `number` how many batches there were since then,
    `vertices` and `edges` how large it is, and `len` gives the vertices. Threads may use it at the same time. Its memory is freed once it
    and its shares are closed and no view of it is left."""

    _called, _instead = "a version", "; csr() has its edges"

    def __init__(self, shared: library.Shared) -> None:
        calls = self._calls = library.calls()
        info = calls.new(calls.info)
        self._shared: library.Shared | None = shared
        self._csr: tuple[npt.NDArray[np.int64], Vertices] | None = None
        # Made by the first question for a vertex's targets.
        self._memory: memoryview | None = None
        library.check(calls.describe(shared.first.at, info))
        self.epoch: int = info.epoch
        self.number: int = info.number
        self.vertices: int = info.vertices
        self.edges: int = info.edges

    def _open(self) -> library.Shared:
        shared = self._shared
        if shared is None:
            raise Closed("the version is closed")
        return shared

    def _at(self) -> Any:
        """What the library knows this thread's version by."""
        shared = self._shared
        return (shared or self._open()).own().at

    def share(self) -> Version:
        """The same version once more, which stays when this one is closed. Threads need none: each of them has a handle of its own."""
        other = Version.__new__(Version)
        other.__dict__.update(self.__dict__)
        other._shared = library.Shared(self._open().another(), self._calls.share_version)
        return other

    def branch(self) -> Store:
        """A store of its own whose graph is this version's, without its history: it begins with version 0 of epoch 0. No list is copied, so it
        takes some microseconds. Nothing that is done to it changes this version, or the store that the version is of. Raises `NoMemory`."""
        return Store._of(self)

    def __len__(self) -> int:
        return self.vertices

    def __repr__(self) -> str:
        return described(self, self._shared is None)

    def run(
        self, program: Program, reduction: str = "sum", frontier: npt.ArrayLike | None = None, argument: bytes = b"", *,
        columns: Columns = NO_COLUMNS, seconds: float | None = None, threads: int = 1,
    ) -> Result:
        """Runs a program for each edge of some vertices, and reduces the numbers.

        reduction: "sum" (modulo 2^64), "min" or "max". frontier: an array of vertices in any order, each of which counts as often
        as it stands there, or None for all. argument: as many bytes as the program's record has beyond 16, and beyond 16 for each column.
        columns: up to 8 arrays of uint64 with a number for each vertex; after the argument the record has of each the number of the
        edge's source and that of its target. They are not copied: do not write to them meanwhile. seconds: after so long it
        raises `TimedOut`, whose `run` may be stepped on. threads: 1 to 64 of this process, which share the frontier; the answer is the
        same for each number. A Ctrl-C ends it within some 20 ms.
        """
        number, chosen = REDUCTIONS[reduction_of(reduction)], self._frontier(frontier)
        inputs = self._inputs(argument, columns)
        end = None if seconds is None else end_after(seconds)
        if threads != 1 or type(threads) is not int or isinstance(chosen, range):
            return self._run_in_parts(program, reduction, chosen, inputs, end, threads_of(threads))
        # Most runs are short, and done by this one call.
        calls, count = self._calls, len(chosen)
        values, at = np.empty(count, U64), calls.new(calls.progress)
        at.budget = FIRST_BUDGET
        arrays = calls.buffer(calls.words, chosen), count, number, at, calls.buffer(calls.numbers, values), count
        shared = self._shared or self._open()
        code, given = handle_of(program), argument_of(program, argument, len(inputs.columns))
        status = calls.pull_some(shared.own().at, code.at, given, len(given), *calls.columns(inputs.columns), *arrays)
        if status:
            library.check(status)
        if at.vertex != count:
            run = Run(self, program, reduction, chosen, inputs, values)
            run._go_on_from(at, FIRST_BUDGET)
            run._finish(end, shared)
            return Result(values, run.edges, run.total)
        return Result(values, at.edges, at.total)

    def _run_in_parts(
        self, program: Program, reduction: str, chosen: Frontier, inputs: Inputs, end: End | None, threads: int,
    ) -> Result:
        shared = self._open()
        parts = Parts._over(self, program, reduction, chosen, inputs, threads)
        parts._finish_by(threads, end, shared)
        return Result(parts._values, parts.edges, parts.total)

    def begin(
        self, program: Program, reduction: str = "sum", frontier: npt.ArrayLike | None = None, argument: bytes = b"", *,
        columns: Columns = NO_COLUMNS,
    ) -> Run:
        """A run as `run` makes it, of which nothing is done yet: each `step` of it goes on with it."""
        self._open()
        return Run(self, program, reduction_of(reduction), self._frontier(frontier), self._inputs(argument, columns))

    def push(
        self, program: Program, reduction: str = "sum", frontier: npt.ArrayLike | None = None, argument: bytes = b"", *, into: Numbers,
        columns: Columns = NO_COLUMNS, changed: bool = False, seconds: float | None = None,
    ) -> Pushed:
        """Runs a program for each edge of some vertices, and reduces the number of each edge into the value of its target.

        into: an array of uint64 with a value for each vertex of the graph, which is written in place; a vertex to which none of the edges
        leads keeps its value. changed: tells which vertices have another value than before, at the cost of a copy of `into`. The others are
        as for `run`. After `TimedOut`, `into` has what the edges so far have left, and its `run` may be stepped on.
        """
        end, shared = end_after(seconds), self._open()
        run = self.begin_push(program, reduction, frontier, argument, into=into, columns=columns)
        before = into.copy() if changed else None
        run._finish(end, shared)
        others = None if before is None else np.flatnonzero(before != into).astype(U32)
        return Pushed(run.edges, run.total, others)

    def begin_push(
        self, program: Program, reduction: str = "sum", frontier: npt.ArrayLike | None = None, argument: bytes = b"", *, into: Numbers,
        columns: Columns = NO_COLUMNS,
    ) -> Push:
        """A push as `push` makes it, of which nothing is done yet: each `step` of it goes on with it. Leave `into` alone until it is done."""
        self._open()
        inputs = self._inputs(argument, columns)
        values, chosen = values_into(into, self.vertices, inputs.columns), self._frontier(frontier)
        # The values are as many as the vertices, so an array of these may be, too.
        vertices = np.arange(chosen.start, chosen.stop, dtype=U32) if isinstance(chosen, range) else chosen
        return Push(self, program, reduction_of(reduction), vertices, inputs, values)

    def each(
        self, program: Program, reduction: str = "sum", frontier: npt.ArrayLike | None = None, argument: bytes = b"", *, into: Numbers,
        columns: Columns = NO_COLUMNS, changed: bool = False,
    ) -> Visited:
        """Runs a program once for each vertex of a frontier, on the record of the pair of the vertex with itself, whose number becomes the
        vertex's value: what `pairs` gives of these pairs. into, changed: as for `push`. reduction: of all the numbers, for the total."""
        self._open()
        start, combine = JOINS[reduction_of(reduction)]
        values, given = values_into(into, self.vertices, columns_of(columns, self.vertices)), self._frontier(frontier)
        chosen = np.asarray(given, U32)
        numbers = self.pairs(program, chosen, chosen, argument, columns=columns)
        before = values.copy() if changed else None
        values[chosen] = numbers
        others = None if before is None else np.flatnonzero(before != values).astype(U32)
        return Visited(len(chosen), int(combine.reduce(numbers, initial=np.uint64(start))), others)

    def numbers(
        self, program: Program, argument: bytes = b"", frontier: npt.ArrayLike | None = None, *, columns: Columns = NO_COLUMNS,
        seconds: float | None = None,
    ) -> Numbers:
        """The number of each edge, a uint64 array in the order of `csr`; or those of a frontier's edges, one vertex after another, each of
        which counts as often as it stands there. columns: as for `run`. seconds: after so long it raises `TimedOut`."""
        end, shared, run = end_after(seconds), self._open(), self.begin_numbers(program, frontier, argument, columns=columns)
        run._finish(end, shared)
        return run._numbers[:run.edges]

    def begin_numbers(
        self, program: Program, frontier: npt.ArrayLike | None = None, argument: bytes = b"", *, columns: Columns = NO_COLUMNS,
    ) -> NumbersRun:
        """The numbers as `numbers` has them, none of which is there yet: each `step` goes on with them."""
        self._open()
        chosen = self._frontier(frontier)
        room = self.edges if frontier is None else len(chosen) * (1 + self.edges // self.vertices) + LEAST_NUMBERS
        return NumbersRun(self, program, chosen, self._inputs(argument, columns), room)

    def pairs(
        self, program: Program, sources: npt.ArrayLike, targets: npt.ArrayLike, argument: bytes = b"", *,
        columns: Columns = NO_COLUMNS, seconds: float | None = None,
    ) -> Numbers:
        """A number for each pair of a source and a target, a uint64 array. A pair need not be an edge, nor its ends in the graph: its record
        has the target's place among the source's targets, or the source's degree where it is none of them. columns: as for `run`; a
        vertex outside the graph has 0. seconds: after so long it raises `TimedOut`."""
        end, shared, run = end_after(seconds), self._open(), self.begin_pairs(program, sources, targets, argument, columns=columns)
        run._finish(end, shared)
        return run._numbers

    def begin_pairs(
        self, program: Program, sources: npt.ArrayLike, targets: npt.ArrayLike, argument: bytes = b"", *, columns: Columns = NO_COLUMNS,
    ) -> PairsRun:
        """The numbers as `pairs` has them, none of which is there yet: each `step` goes on with them."""
        self._open()
        return PairsRun(self, program, ends_of_pairs(sources, targets), self._inputs(argument, columns))

    def _inputs(self, argument: bytes, columns: Columns) -> Inputs:
        """What runs are lent besides their edges."""
        return Inputs(argument, columns_of(columns, self.vertices))

    def _frontier(self, frontier: npt.ArrayLike | None) -> Frontier:
        """The vertices of a frontier, or all. Of a range an array is made only where it is short."""
        chosen = range(self.vertices) if frontier is None else frontier
        if isinstance(chosen, range) and chosen.step == 1 and len(chosen) > MOST_IN_ARRAY:
            vertex_of(chosen.start, self.vertices, "frontier"), vertex_of(chosen.stop - 1, self.vertices, "frontier")
            return chosen
        return np.arange(self.vertices, dtype=U32) if frontier is None else self._vertices(chosen)

    def _vertices(self, frontier: npt.ArrayLike) -> Vertices:
        """The vertices of a frontier."""
        chosen = vertices_of(frontier, self.vertices, "frontier")
        if len(chosen) > MOST_VERTICES:
            raise ValueError(f"a frontier has at most {MOST_VERTICES} vertices, not {len(chosen)}")
        return chosen

    def csr(self) -> tuple[npt.NDArray[np.int64], Vertices]:
        """All edges: `starts`, an int64 array of `vertices` + 1 places, and `targets`, a uint32 array, ascending for each source. Both
        are read-only, for `scipy.sparse.csr_array((ones, targets, starts))`."""
        at = self._at()
        if self._csr is None:
            calls, starts, targets = self._calls, np.empty(self.vertices + 1, U64), np.empty(self.edges, U32)
            arrays = calls.buffer(calls.numbers, starts), len(starts), calls.buffer(calls.words, targets), len(targets)
            library.check(library.load().edgebpf_version_copy(at, *arrays))
            self._csr = frozen(starts).view(np.int64), frozen(targets)
        return self._csr

    def to_scipy(self, dtype: npt.DTypeLike = np.float64) -> Any:
        """The graph as a `scipy.sparse.csr_array` with a one for each edge, for `scipy.sparse.csgraph` and products."""
        return adapters.to_scipy(self, dtype)

    def to_igraph(self, directed: bool = True) -> Any:
        """The graph as an `igraph.Graph`. directed: False makes one edge of each two that lead back and forth, and raises
        `algorithms.NotMirrored` if one leads only forth."""
        return adapters.to_igraph(self, directed)

    def to_networkx(self, directed: bool = True) -> Any:
        """The graph as a `networkx.DiGraph`, or as a `networkx.Graph`, for which the same holds."""
        return adapters.to_networkx(self, directed)

    def degree(self, vertex: int) -> int:
        """How many targets a vertex has."""
        count = library.new("uint32_t *")
        library.check(library.load().edgebpf_version_degree(self._at(), vertex_of(vertex, self.vertices), count))
        return int(count[0])

    def degrees(self, frontier: npt.ArrayLike | None = None) -> Vertices:
        """How many targets each vertex of a frontier has, or of the graph, as a uint32 array. A frontier has any order, and may have a vertex
        more than once."""
        calls, chosen, done = self._calls, self._frontier(frontier), 0
        counts = np.empty(len(chosen), U32)
        for some in Windows(chosen).each() if isinstance(chosen, range) else (chosen,):
            arrays = calls.buffer(calls.words, some), len(some), calls.buffer(calls.words, counts[done:done + len(some)]), len(some)
            library.check(library.load().edgebpf_version_degrees(self._at(), *arrays))
            done += len(some)
        return counts

    def lists(self, frontier: npt.ArrayLike) -> tuple[npt.NDArray[np.int64], Vertices]:
        """The targets of the vertices of a frontier, in one call: those of the vertex at place `i` of it are `targets[starts[i]:starts[i + 1]]`,
        ascending. `starts` is an int64 array of one place more than the frontier, and `targets` a uint32 array; both are copies. A
        frontier has any order, and may have a vertex more than once."""
        if frontier is None:
            raise TypeError("frontier is an array of vertices; the lists of all are csr()")
        calls, chosen, found = self._calls, self._vertices(frontier), library.new("size_t *")
        starts, targets = np.empty(len(chosen) + 1, U64), np.empty(0, U32)
        ask, at = library.load().edgebpf_version_lists, self._at()
        asked = calls.buffer(calls.words, chosen), len(chosen), calls.buffer(calls.numbers, starts), len(starts)
        status = ask(at, *asked, calls.buffer(calls.words, targets), 0, found)
        if status == library.LENGTHS:
            # Without room it said how many there are.
            targets = np.empty(found[0], U32)
            status = ask(at, *asked, calls.buffer(calls.words, targets), len(targets), found)
        library.check(status)
        return starts.view(np.int64), targets

    def is_search(self, root: int, levels: npt.ArrayLike, parents: npt.ArrayLike) -> bool:
        """Whether levels and parents are the answer of a breadth first search from a vertex, whoever computed them; the test is proved.

        levels: for each vertex the length of a shortest way from the root, -1 where there is none. parents: the vertex before each on such a
        way; those of the root, and of vertices without a level, do not matter.
        """
        calls, answer = self._calls, library.new("uint32_t *")
        arrays = [found_of(array, name) for array, name in ((levels, "levels"), (parents, "parents"))]
        asked = [given for array in arrays for given in (calls.buffer(calls.words, array), len(array))]
        library.check(library.load().edgebpf_is_search(self._at(), vertex_of(root, self.vertices, "root"), *asked, answer))
        return bool(answer[0])

    def are_components(self, labels: npt.ArrayLike, parents: npt.ArrayLike, steps: npt.ArrayLike) -> bool:
        """Whether labels, parents and steps are an answer of the graph's components, whatever the direction of its edges, and whoever computed them; the
        test is proved.

        labels: for each vertex the least one of its component. parents: for a vertex that is not its own label another one, to which an edge
        joins it. steps: one more for each vertex than for its parent, 0 for labels.
        """
        calls, answer = self._calls, library.new("uint32_t *")
        arrays = [found_of(array, name) for array, name in ((labels, "labels"), (parents, "parents"), (steps, "steps"))]
        asked = [given for array in arrays for given in (calls.buffer(calls.words, array), len(array))]
        library.check(library.load().edgebpf_are_components(self._at(), *asked, answer))
        return bool(answer[0])

    def are_cores(self, numbers: npt.ArrayLike, places: npt.ArrayLike) -> bool:
        """Whether numbers and places are an answer of the graph's core numbers, whoever computed them; the test is proved.

        numbers: for each vertex the greatest k for which it belongs to a set of vertices, of which each has edges to at least k others of it.
        places: for each vertex a place in an order. Taken out one after another, lower numbers first and those of one number by their places,
            each then has no more edges to others than its number.
        """
        calls, answer = self._calls, library.new("uint32_t *")
        arrays = [found_of(array, name) for array, name in ((numbers, "numbers"), (places, "places"))]
        asked = [given for array in arrays for given in (calls.buffer(calls.words, array), len(array))]
        library.check(library.load().edgebpf_are_cores(self._at(), *asked, answer))
        return bool(answer[0])

    def is_independent_set(self, marks: npt.ArrayLike) -> bool:
        """Whether some vertices, whoever found them, pass the proved test of an independent set to which none can be added.

        marks: for each vertex whether it is in the set. No edge joins two of the set, and from each vertex outside an edge leads to one of it: in a
        graph that is not mirrored this asks for more than an edge in one direction or the other.
        """
        calls, answer, chosen = self._calls, library.new("uint32_t *"), members_of(marks, "marks")
        library.check(library.load().edgebpf_is_independent_set(self._at(), calls.buffer(calls.bytes, chosen), len(chosen), answer))
        return bool(answer[0])

    def has_edge(self, source: int, target: int) -> bool:
        """Whether there is an edge from `source` to `target`."""
        answer = library.new("uint32_t *")
        ends = vertex_of(source, self.vertices, "source"), vertex_of(target, self.vertices, "target")
        library.check(library.load().edgebpf_version_has_edge(self._at(), *ends, answer))
        return bool(answer[0])

    def neighbour(self, vertex: int, place: int) -> int:
        """The target at a place, from 0, of a vertex. Raises `IndexError` if the vertex has none there."""
        found, number, asked = library.new("uint32_t *"), vertex_of(vertex, self.vertices), whole(place, "place")
        at = self._at()
        # A place that is no number of 32 bits is past all, too.
        status = library.NO_NEIGHBOUR
        if 0 <= asked < self.vertices:
            status = library.load().edgebpf_version_neighbour(at, number, asked, found)
        if status == library.NO_NEIGHBOUR:
            raise IndexError(f"vertex {number} has no neighbour at place {asked}")
        library.check(status)
        return int(found[0])

    def slices(self, vertex: int) -> list[Vertices]:
        """The read-only arrays in which the targets of a vertex lie, ascending. They are not copied, and keep the version."""
        room = MORE_ROOM
        while True:
            lent, count = self._calls.room(room)
            status = self._calls.lend(self._at(), vertex_of(vertex, self.vertices), lent, room, count)
            if status:
                library.check(status)
            if count[0] < room:
                return [self._view(lent[2 * place], lent[2 * place + 1]) for place in range(count[0])]
            room *= 4

    def _all_memory(self) -> memoryview:
        """Where this version's slices lie."""
        if self._memory is None:
            self._memory = memory_of(self._open().first)
        return self._memory

    def _view(self, at: int, count: int) -> Vertices:
        """The array of a slice."""
        return view_of(self._all_memory(), U32, count, at)

    def neighbours(self, vertex: int) -> Vertices:
        """The targets of a vertex, ascending, as a read-only uint32 array: a view where they lie in one slice, else a copy."""
        shared, calls = self._shared or self._open(), self._calls
        # Here no function is called that need not be: each takes as long as a tenth of the whole.
        try:
            handle = shared._own.handle
        except AttributeError:
            handle = shared.own()
        if type(vertex) is not int:
            try:
                vertex = index(vertex)
            except TypeError:
                whole(vertex, "vertex")
        if not 0 <= vertex < self.vertices:
            vertex_of(vertex, self.vertices)
        # The handle keeps the room but for this time: what handles a signal may ask for a list meanwhile.
        room, handle.room = handle.room or calls.read_often(LEAST_ROOM), None
        lent, count, numbers = room
        status = calls.lend(handle.at, vertex, lent, LEAST_ROOM, count)
        found, at, length = numbers[-1], numbers[0], numbers[1]
        handle.room = room
        if status:
            library.check(status)
        if found == 1:
            return view_of(self._memory or self._all_memory(), U32, length, at)
        if not found:
            return NO_VERTICES
        copied: Vertices = np.concatenate(self.slices(vertex))
        copied.flags.writeable = False
        return copied

    def close(self) -> None:
        """Gives the version up. Views of it stay. May be called twice."""
        self._shared = None

    def __enter__(self) -> Version:
        return self

    def __exit__(self, *_: object) -> None:
        self.close()

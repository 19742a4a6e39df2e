"""A graph in parts on the workers of Dask's distributed scheduler, of which batches make versions that agree over all parts. Each part is a store of
this package, and proved; the joining is tested."""
from __future__ import annotations

import concurrent.futures
import functools
import itertools
import os
import threading
import weakref
from collections.abc import Callable
from typing import Any, NamedTuple

import numpy as np
import numpy.typing as npt

from edgebpf.cluster_copies import ANY, NO_EDITS, OWN, TARGET, edits_of_lists
from edgebpf.cluster_disk import Journal
from edgebpf.cluster_engine import Engine
from edgebpf.cluster_part import REMOVE, Asked, owners
from edgebpf.cluster_router import Router
from edgebpf.errors import Closed, NotHere, TimedOut, TooManyEdits
from edgebpf.given import (
    NO_COLUMNS, Columns, Edges, Numbers, Pairs, Vertices, columns_of, edits_of, edits_of_batch, ends_of_pairs, reduction_of, seconds_of, threads_of,
    values_into, vertex_count, vertex_of, vertices_of, whole,
)
from edgebpf.given import columns as ends_of
from edgebpf.kept_here import KeptHere
from edgebpf.limits import MOST_EDITS, MOST_VERTICES
from edgebpf.own_source import asks_of
from edgebpf.programs import Program, argument_of, handle_of
from edgebpf.steps import Inputs
from edgebpf.store import REDUCTIONS, Counts, Pushed, Result, Visited

MOST_PARTS = 64
# Batches that are handed in and not committed; who hands in more waits.
MOST_UNDER_WAY = 256
# Parts that had so many seconds more than they were given have not answered in time.
LATE_SECONDS = 2.0
TOKENS = itertools.count(1)
# About which vertices the runs of a code may ask.
asks_about = functools.lru_cache(256)(asks_of)


class Cluster(KeptHere):
    """A graph whose edges lie in parts, each in a worker of Dask. It may be used by several threads, and is a context manager.

    client: a `distributed.Client`, which stays the caller's. vertices: 1 to 268,435,456. parts: 1 to 64, as many as there are workers if it is
    None. A worker may have several. folder: where batches and checkpoints are kept, on this machine; it is made if it is not there, and else has
    the graph, its vertices and its parts. The version of the whole graph is one number: how many batches there were.

    copies: programs may also ask the graph about the target of their edge; each part keeps copies of the lists that its edges name. whole: they may
    ask about any vertex; each part has every edge, and runs over its own sources. own_source_only: no program's code is looked at. A part answers as if
    vertices whose edges others have had none, so numbers are wrong if a program asks about them.

    With a folder a part that is lost begins again on another worker, and an acknowledged batch is on the disk. Without one a lost part ends the
    batches, and its versions are gone.
    """

    _called, _instead = "a Cluster", ", and workers have its parts"
    _router: Router

    def __init__(
        self, client: Any, vertices: int | None = None, parts: int | None = None, folder: str | os.PathLike[str] | None = None, *,
        copies: bool = False, whole: bool = False, own_source_only: bool = False,
    ) -> None:
        if own_source_only and (copies or whole):
            raise ValueError("own_source_only is for a cluster without copies and without whole")
        self._open(Engine(client), vertices, parts, folder, ANY if whole else TARGET if copies else OWN)
        self._router.trusts = own_source_only

    @classmethod
    def _over(cls, engine: Any, vertices: int | None = None, parts: int | None = None, folder: Any = None, asks: str = OWN) -> Cluster:
        """The same over another engine, which has the methods of `Engine`. asks: about which vertices programs may ask."""
        cluster = cls.__new__(cls)
        cluster._open(engine, vertices, parts, folder, asks)
        return cluster

    def _open(self, engine: Any, vertices: int | None, parts: int | None, folder: Any, asks: str) -> None:
        if vertices is None and folder is None:
            raise TypeError("a cluster has vertices, or a folder that has them")
        asked = None if vertices is None else vertex_count(vertices, MOST_VERTICES)
        count = 0 if parts is None else whole(parts, "parts")
        if parts is not None and not 1 <= count <= MOST_PARTS:
            raise ValueError(f"parts is 1 to {MOST_PARTS}")
        usual = count or max(1, min(MOST_PARTS, len(engine.workers())))
        journal = None if folder is None else Journal(folder, asked, count, usual)
        self.vertices, self.parts = (journal.vertices, journal.count) if journal else (asked or 0, usual)
        self._room = threading.BoundedSemaphore(MOST_UNDER_WAY)
        self._router = Router(engine, self.vertices, self.parts, journal, asks)
        opened = self._router.call(self._router.open())
        try:
            opened.result()
        except BaseException:
            opened.cancel()
            self.close()
            raise

    def apply(
        self, sources: npt.ArrayLike = (), targets: npt.ArrayLike = (), removes: npt.ArrayLike | None = None, *, edges: Pairs | None = None,
    ) -> Counts:
        """Applies one batch whose edits are in their order, as `Store.apply` does, and returns its `Counts` once all parts have it. The `version`
        is its number. Raises what `begin` and its future raise. A batch under way when the cluster is closed is in doubt."""
        return self._taken(*edits_of(sources, targets, removes, edges, self.vertices)).result()

    def batch(self, inserts: Edges = ((), ()), removes: Edges = ((), ()), edges: Pairs | None = None) -> Counts:
        """Applies one batch, its insertions first, as `Store.batch` does."""
        return self._taken(*edits_of_batch(inserts, removes, edges, self.vertices)).result()

    def begin(
        self, sources: npt.ArrayLike = (), targets: npt.ArrayLike = (), removes: npt.ArrayLike | None = None, *, edges: Pairs | None = None,
    ) -> concurrent.futures.Future[Counts]:
        """Hands a batch in, as `apply`, and does not wait: the `Counts` come once it is committed. Batches of one thread are numbered in their order;
        with 256 under way the next one waits here. Raises `VertexRange`, `TooManyEdits` and `Closed`; the future also `PartLost` if no worker takes
        a part, `NoMemory` if a part cannot hold a batch, and `Error` if the folder cannot be written. After these the graph takes no batch, versions
        stay, and nothing of the batch is in the folder."""
        return self._taken(*edits_of(sources, targets, removes, edges, self.vertices))

    def _taken(self, sources: Vertices, targets: Vertices, marks: npt.NDArray[np.uint8]) -> concurrent.futures.Future[Counts]:
        """Hands in a batch that no part can refuse for what it says."""
        if len(sources) > MOST_EDITS:
            raise TooManyEdits(f"{len(sources)} edits; a batch has at most {MOST_EDITS}")
        edits = np.stack([sources | REMOVE * marks.astype(np.uint32), targets], axis=1)
        self._router.check()
        self._room.acquire()
        try:
            counts = self._router.call(self._router.batch(edits))
        except BaseException:
            self._room.release()
            raise
        counts.add_done_callback(lambda _: self._room.release())
        return counts

    def pin(self) -> ClusterVersion:
        """The last version that all parts have. It stays as it is while batches come, until it is closed."""
        pinned = self._router.call(self._router.pin())
        try:
            number, edges = pinned.result()
        except BaseException:
            pinned.add_done_callback(self._router.give_back)
            raise
        return ClusterVersion(self._router, number, edges)

    def checkpoint(self) -> int:
        """Has each part write its edges into the folder, at the oldest version that is pinned, or the last one, and returns its number. The cluster pins
        versions itself while parts get copies. Batches before it are dropped from the disk, but for those since the checkpoint before. It also
        comes by itself, after 10,000 batches or 8,388,608 edits."""
        return self._router.call(self._router.checkpoint()).result()

    def __repr__(self) -> str:
        return f"<edgebpf.Cluster: {self.vertices} vertices, {self.parts} parts{', closed' if self._router.is_closed else ''}>"

    def close(self) -> None:
        """Drops the graph, with its versions. The workers and the folder stay. What other threads wait for raises `Closed`. May be called twice."""
        self._router.end()

    def __enter__(self) -> Cluster:
        return self

    def __exit__(self, *_: object) -> None:
        self.close()


class Effort(NamedTuple):
    """How a run is made: how many seconds it may take, and by how many threads of each part."""

    seconds: float | None
    threads: int


class ClusterVersion(KeptHere):
    """A version of a cluster's graph, by its number in all parts. `vertices` and `edges` are how large it is. Threads may use it at the same time.
    Parts keep it until it is closed, or dropped. A question waits for a part that begins again, and raises `PartLost` if no worker takes it."""

    _called, _instead = "a version", "; csr() has its edges"

    def __init__(self, router: Router, number: int, edges: int) -> None:
        self.number, self.edges, self.vertices = number, edges, router.vertices
        self._router, self._given_up = router, weakref.finalize(self, router.soon, router.release, number)

    def __len__(self) -> int:
        return self.vertices

    def __repr__(self) -> str:
        return f"<edgebpf.ClusterVersion {self.number}: {self.vertices} vertices, {self.edges} edges{'' if self._given_up.alive else ', closed'}>"

    def _ask(self, question: str, given: dict[int, tuple[Any, ...]], seconds: float | None = None) -> dict[int, Any]:
        """What parts answer, each by its place."""
        if not self._given_up.alive:
            raise Closed("the version is closed")
        answers = self._router.call(self._router.read(self.number, question, given))
        try:
            return answers.result(seconds)
        except BaseException:
            answers.cancel()
            raise

    def _split(self, sources: Vertices, *others: npt.NDArray[Any]) -> tuple[list[npt.NDArray[Any]], dict[int, tuple[Any, ...]]]:
        """Where the sources of each part stand, and what those parts are given that have some."""
        owned = owners(sources, self._router.count)
        places = [np.flatnonzero(owned == place) for place in range(self._router.count)]
        return places, {place: (sources[at], *(other[at] for other in others)) for place, at in enumerate(places) if len(at)}

    def _scattered(self, question: str, sources: Vertices, *others: npt.NDArray[Any], kind: Callable[..., npt.NDArray[Any]]) -> npt.NDArray[Any]:
        """An answer for each source, each put to its place."""
        places, given = self._split(sources, *others)
        answers = kind(len(sources))
        for place, answer in self._ask(question, given).items():
            answers[places[place]] = answer
        return answers

    def _run(
        self, program: Program, kind: str, reduction: str, ends: tuple[Vertices, ...], inputs: Inputs, effort: Effort,
    ) -> tuple[Any, dict[int, Any]]:
        """Where the sources of each part stand, and what a run gives over them."""
        handle_of(program)
        argument = argument_of(program, inputs.argument, len(inputs.columns))
        seconds = None if effort.seconds is None else seconds_of(effort.seconds)
        code, threads = program.assembled(), threads_of(effort.threads)
        asked = Asked(kind, code, program.record, program.table, argument, reduction, seconds, threads, next(TOKENS))
        asks = OWN if self._router.trusts else asks_about(asked.code)
        refuse(asks, self._router.asks)
        places, given = self._split(*ends)
        try:
            late = None if seconds is None else seconds + LATE_SECONDS
            given = {place: (*one, inputs.columns, asked) for place, one in given.items()}
            if kind == "pairs" and asks == self._router.asks == TARGET:
                self._put_lists(given, ends, late)
            answers = self._ask("run", given, late)
        except BaseException as error:
            self._router.soon(self._router.cancel, asked.token)
            if seconds is not None and isinstance(error, concurrent.futures.TimeoutError):
                raise TimedOut(f"{seconds:g} seconds were over", None) from None
            raise
        if seconds is not None and any(answer is None for answer in answers.values()):
            raise TimedOut(f"{seconds:g} seconds were over", None)
        return places, answers

    def _put_lists(self, given: dict[int, tuple[Any, ...]], pairs: tuple[Vertices, ...], seconds: float | None) -> None:
        """Gives each part the lists of the targets of its pairs, which need not be edges, so that it may have no copies of them."""
        of_sources, of_targets = (owners(ends, self._router.count) for ends in pairs)
        wanted = self._split(np.unique(pairs[1][(of_sources != of_targets) & (pairs[1] < self.vertices)]))[1]
        lists = [edits_of_lists(wanted[place][0], *answer) for place, answer in self._ask("lists", wanted, seconds).items()]
        edits = np.concatenate([NO_EDITS, *lists])
        for place, (*ends, columns, asked) in given.items():
            is_other = np.isin(edits[:, 0], ends[1]) & (owners(edits[:, 0], self._router.count) != place)
            given[place] = (*ends, columns, asked._replace(lists=edits[is_other]))

    def _frontier(self, frontier: npt.ArrayLike | None) -> Vertices:
        if frontier is None:
            return np.arange(self.vertices, dtype=np.uint32)
        return vertices_of(frontier, self.vertices, "frontier")

    def _inputs(self, argument: bytes, columns: Columns) -> Inputs:
        return Inputs(argument, columns_of(columns, self.vertices))

    def run(
        self, program: Program, reduction: str = "sum", frontier: npt.ArrayLike | None = None, argument: bytes = b"", *,
        columns: Columns = NO_COLUMNS, seconds: float | None = None, threads: int = 1,
    ) -> Result:
        """Runs a program for each edge of some vertices, each part its own, and reduces the numbers, as `Version.run` does. Raises `NotHere` for a
        program that may ask the graph about other vertices than the cluster is for: its edge's source, with `copies` its target too, and with
        `whole` any. Raises `TimedOut`, whose `run` is None, after so many seconds. A Ctrl-C ends the run in all parts. Columns are sent whole to each
        part. threads: so many threads of each part share its sources, 1 to 64."""
        chosen = self._frontier(frontier)
        places, answers = self._run(program, "run", reduction_of(reduction), (chosen,), self._inputs(argument, columns), Effort(seconds, threads))
        values = np.empty(len(chosen), np.uint64)
        for place, (_, _, found) in answers.items():
            values[places[place]] = found
        return Result(values, *reduced(reduction, answers))

    def push(
        self, program: Program, reduction: str = "sum", frontier: npt.ArrayLike | None = None, argument: bytes = b"", *, into: Numbers,
        columns: Columns = NO_COLUMNS, changed: bool = False, seconds: float | None = None, threads: int = 1,
    ) -> Pushed:
        """Runs a program for each edge of some vertices, and reduces the number of each edge into the value of its target, as `Version.push` does. Each
        part reduces into values of its own, which are joined with `into`. After an error of a part `into` is as it was."""
        inputs = self._inputs(argument, columns)
        values, ends = values_into(into, self.vertices, inputs.columns), (self._frontier(frontier),)
        _, answers = self._run(program, "push", reduction_of(reduction), ends, inputs, Effort(seconds, threads))
        before = values.copy() if changed else None
        for _, _, some, found in answers.values():
            at = slice(None) if some is None else some
            values[at] = REDUCTIONS[reduction][1](values[at], found)
        others = None if before is None else np.flatnonzero(before != values).astype(np.uint32)
        return Pushed(*reduced(reduction, answers), others)

    def numbers(
        self, program: Program, argument: bytes = b"", frontier: npt.ArrayLike | None = None, *, columns: Columns = NO_COLUMNS,
        seconds: float | None = None, threads: int = 1,
    ) -> Numbers:
        """The number of each edge in the order of `csr`, or of a frontier's edges, as `Version.numbers` has them. Raises what `run` raises."""
        chosen = self._frontier(frontier)
        places, answers = self._run(program, "numbers", "", (chosen,), self._inputs(argument, columns), Effort(seconds, threads))
        numbers: Numbers = joined(len(chosen), [(places[place], *answer) for place, answer in answers.items()], np.uint64)[1]
        return numbers

    def pairs(
        self, program: Program, sources: npt.ArrayLike, targets: npt.ArrayLike, argument: bytes = b"", *,
        columns: Columns = NO_COLUMNS, seconds: float | None = None, threads: int = 1,
    ) -> Numbers:
        """A number for each pair of a source and a target, which need not be an edge, as `Version.pairs` has them. Raises what `run` raises."""
        ends = ends_of_pairs(sources, targets)
        places, answers = self._run(program, "pairs", "", ends, self._inputs(argument, columns), Effort(seconds, threads))
        numbers = np.empty(len(ends[0]), np.uint64)
        for place, (answer,) in answers.items():
            numbers[places[place]] = answer
        return numbers

    def each(
        self, program: Program, reduction: str = "sum", frontier: npt.ArrayLike | None = None, argument: bytes = b"", *, into: Numbers,
        columns: Columns = NO_COLUMNS, changed: bool = False, seconds: float | None = None, threads: int = 1,
    ) -> Visited:
        """Runs a program once for each vertex of a frontier, whose number becomes the vertex's value in `into`, as `Version.each` does."""
        start, combine = REDUCTIONS[reduction_of(reduction)]
        values, chosen = values_into(into, self.vertices, columns_of(columns, self.vertices)), self._frontier(frontier)
        numbers = self.pairs(program, chosen, chosen, argument, columns=columns, seconds=seconds, threads=threads)
        before = values.copy() if changed else None
        values[chosen] = numbers
        others = None if before is None else np.flatnonzero(before != values).astype(np.uint32)
        return Visited(len(chosen), int(combine.reduce(numbers, initial=np.uint64(start))), others)

    def degrees(self, frontier: npt.ArrayLike | None = None) -> Vertices:
        """How many targets each vertex of a frontier has, or of the graph, as a uint32 array."""
        return self._scattered("degrees", self._frontier(frontier), kind=words)

    def degree(self, vertex: int) -> int:
        """How many targets a vertex has."""
        return int(self.degrees([vertex_of(vertex, self.vertices)])[0])

    def has_edges(self, sources: npt.ArrayLike, targets: npt.ArrayLike) -> npt.NDArray[np.bool_]:
        """Whether there is an edge from each source to its target."""
        return self._scattered("has_edges", *ends_of(sources, targets, self.vertices), kind=marks)

    def has_edge(self, source: int, target: int) -> bool:
        """Whether there is an edge from `source` to `target`."""
        ends = vertex_of(source, self.vertices, "source"), vertex_of(target, self.vertices, "target")
        return bool(self.has_edges([ends[0]], [ends[1]])[0])

    def lists(self, frontier: npt.ArrayLike) -> tuple[npt.NDArray[np.int64], Vertices]:
        """The targets of the vertices of a frontier: those of the vertex at place `i` of it are `targets[starts[i]:starts[i + 1]]`, ascending."""
        chosen = vertices_of(frontier, self.vertices, "frontier")
        places, given = self._split(chosen)
        return joined(len(chosen), [(places[place], starts, found) for place, (starts, found) in self._ask("lists", given).items()])

    def neighbours(self, vertex: int) -> Vertices:
        """The targets of a vertex, ascending, as a uint32 array."""
        return self.lists([vertex_of(vertex, self.vertices)])[1]

    def csr(self) -> tuple[npt.NDArray[np.int64], Vertices]:
        """All edges: `starts`, an int64 array of `vertices` + 1 places, and `targets`, a uint32 array, ascending for each source."""
        every = np.arange(self.vertices)
        asked = [self._router.csr_of(place) for place in range(self._router.count)]
        given: dict[int, tuple[Any, ...]] = {place: one for place, (_, one) in enumerate(asked)}
        return joined(self.vertices, [(every, starts, found) for starts, found in self._ask(asked[0][0], given).values()])

    def close(self) -> None:
        """Gives the version up. May be called twice."""
        self._given_up()

    def __enter__(self) -> ClusterVersion:
        return self

    def __exit__(self, *_: object) -> None:
        self.close()


def refuse(asks: str, may: str) -> None:
    """Refuses a program that asks about other vertices than it may."""
    if asks == OWN or may == ANY or asks == may:
        return
    if asks == TARGET:
        raise NotHere("the program may ask about other vertices than its edge's source: about its target in a cluster with copies=True")
    raise NotHere("the program may ask about other vertices than its edge's source: about any in a cluster with whole=True")


def reduced(reduction: str, answers: dict[int, Any]) -> tuple[int, int]:
    """The edges and the total of a run, of those of parts."""
    start, combine = REDUCTIONS[reduction]
    total = combine.reduce(np.array([start, *(answer[1] for answer in answers.values())], np.uint64))
    return sum(answer[0] for answer in answers.values()), int(total)


def joined(count: int, lists: list[Any], kind: Any = np.uint32) -> tuple[npt.NDArray[np.int64], Any]:
    """The lists of `count` vertices, of which each part has those at some places; at a place that several have, all but one are empty. `lists` has
    of each part these places, where each list begins, and all of them."""
    lengths = np.zeros(count + 1, np.int64)
    for places, starts, _ in lists:
        lengths[places + 1] += np.diff(starts)
    begins = np.cumsum(lengths)
    targets = np.empty(begins[-1], kind)
    for places, starts, found in lists:
        # How far the targets of each vertex move.
        targets[np.arange(len(found)) + np.repeat(begins[places] - starts[:-1], np.diff(starts))] = found
    return begins, targets


def words(count: int) -> npt.NDArray[np.uint32]:
    return np.zeros(count, np.uint32)


def marks(count: int) -> npt.NDArray[np.bool_]:
    return np.zeros(count, np.bool_)

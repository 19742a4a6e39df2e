"""One part of the graph of a `Cluster`, on a worker of the engine: a store that applies batches in the order of their numbers, and answers at each
number that is kept. Each part has all vertices, and the edges of its own sources: those of each range of 256 whose turn it is. It may also have
copies of lists of other parts, which only programs see."""
from __future__ import annotations

import asyncio
import collections
import concurrent.futures
import functools
import threading
from collections.abc import Callable, Sequence
from typing import Any, NamedTuple, Optional

import numpy as np
import numpy.typing as npt

import edgebpf
from edgebpf.errors import Error
from edgebpf.given import Numbers, Vertices
from edgebpf.limits import MOST_BATCHES, MOST_EDITS, RANGE_VERTICES
from edgebpf.native import Store, Version
from edgebpf.programs import Program
from edgebpf.steps import End, Steps, end_after
from edgebpf.store import REDUCTIONS, Counts

# Edits as two words each: the source, with this bit if the edge is taken out, and the target.
REMOVE = np.uint32(1 << 31)
Edits = npt.NDArray[np.uint32]
# The target of an edit that takes out all edges of its source. No vertex has this number.
WHOLE_LIST = np.uint32((1 << 32) - 1)
# A part rebases after each number that this divides, so that logs are short, and as long in all parts.
REBASE_BATCHES = 256
# It also does if its log is so long, as copies of long lists are many batches.
MOST_LOG = MOST_BATCHES // 2
# Questions that a part answers at once.
MOST_READERS = 4
# If one of so many values was changed, all are sent without their vertices.
DENSE = 2
# Each thread of a run takes so many pieces of it, so that none waits long for another; and a piece has so many sources at least.
PIECES_OF_A_THREAD, LEAST_PIECE = 4, 256
# Programs that stay verified, and runs that were cancelled and are known.
MOST_PROGRAMS, MOST_CANCELLED = 64, 1_000
# What a part tells of a batch: its number, how many edges came and went, and how many there are.
Told = tuple[int, int, int, int]
# The edges that a part begins with, as `Version.csr` has them; None has none.
Base = Optional[tuple[npt.NDArray[np.int64], Vertices]]


def owners(sources: npt.NDArray[Any], count: int) -> npt.NDArray[Any]:
    """Which of so many parts has each source."""
    owned: npt.NDArray[Any] = sources // RANGE_VERTICES % count
    return owned


def cut(edits: Edits, count: int) -> list[Edits]:
    """The edits of each part, in their order."""
    owned = owners(edits[:, 0] & ~REMOVE, count)
    return [edits[owned == place] for place in range(count)]


def has_edges(version: Version, sources: Vertices, targets: Vertices) -> npt.NDArray[np.bool_]:
    """Whether there is an edge from each source to its target."""
    chosen, places = np.unique(sources, return_inverse=True)
    starts, lists = version.lists(chosen)
    # With its place among the sources before each target the lists are one ascending array.
    keys = np.repeat(np.arange(len(chosen), dtype=np.uint64), np.diff(starts)) << np.uint64(32) | lists
    wanted = places.astype(np.uint64) << np.uint64(32) | targets
    at = np.searchsorted(keys, wanted)
    found: npt.NDArray[np.bool_] = np.append(keys, np.uint64(np.iinfo(np.uint64).max))[at] == wanted
    return found


class Batches(NamedTuple):
    """Some batches one after another: where each ends, and the edits of all."""

    ends: npt.NDArray[np.int64]
    edits: Edits

    @classmethod
    def of(cls, batches: list[Edits]) -> Batches:
        return cls(np.cumsum([len(batch) for batch in batches]), np.concatenate(batches))

    def each(self) -> list[Edits]:
        return np.split(self.edits, self.ends[:-1])


class Asked(NamedTuple):
    """What a run is asked: its kind (`run`, `numbers`, `pairs` or `push`), a program, its argument, a reduction, how long it may take, by how many
    threads of each part, a number by which it is cancelled, and edits that put in the lists of vertices that pairs name, for a part that has none of
    them."""

    kind: str
    code: bytes
    record: int
    table: bytes
    argument: bytes
    reduction: str
    seconds: float | None
    threads: int
    token: int
    lists: Edits | None = None


@functools.lru_cache(MOST_PROGRAMS)
def program_of(code: bytes, record: int, table: bytes) -> Program:
    return Program(code, record, table)


def put(store: Store, edits: Edits) -> Counts:
    """Applies a batch."""
    return store.apply(edits[:, 0] & ~REMOVE, edits[:, 1], edits[:, 0] & REMOVE)


def pieces(edits: Edits) -> list[Edits]:
    """The batches of many edits."""
    return [edits[begin:begin + MOST_EDITS] for begin in range(0, len(edits), MOST_EDITS)]


def with_more(version: Version, edits: Edits) -> Version:
    """The graph of a version with some edits."""
    with version.branch() as store:
        for place, piece in enumerate(pieces(edits), 1):
            put(store, piece)
            if place % MOST_LOG == 0:
                store.rebase()
        return store.pin()


def in_pieces(asked: Asked, ends: Sequence[Vertices]) -> list[Sequence[Vertices]]:
    """The ends of a run in pieces for its threads. Each piece of a push has an array of all vertices, so there is one for each thread."""
    most = asked.threads * (1 if asked.kind == "push" or asked.threads == 1 else PIECES_OF_A_THREAD)
    count = max(1, min(most, len(ends[0]) // LEAST_PIECE))
    return list(zip(*(np.array_split(each, count) for each in ends)))


def begun(version: Version, asked: Asked, ends: Sequence[Vertices], columns: list[Numbers]) -> Any:
    """A run over sources of a part, of which nothing is done yet. `ends` are a frontier, or the sources and the targets of pairs."""
    program = program_of(asked.code, asked.record, asked.table)
    if asked.kind == "pairs":
        return version.begin_pairs(program, ends[0], ends[1], asked.argument, columns=columns)
    if asked.kind == "numbers":
        return version.begin_numbers(program, ends[0], asked.argument, columns=columns)
    if asked.kind == "run":
        return version.begin(program, asked.reduction, ends[0], asked.argument, columns=columns)
    into = np.full(version.vertices, REDUCTIONS[asked.reduction][0], np.uint64)
    return version.begin_push(program, asked.reduction, ends[0], asked.argument, into=into, columns=columns)


def answer_of(works: list[Any], asked: Asked, version: Version, ends: Sequence[Vertices]) -> tuple[Any, ...]:
    """What the pieces of a run gave: edges, total and values; for a push those that edges changed, and their vertices, or all if they are many; where the
    numbers of each vertex begin, and the numbers; or the numbers of pairs."""
    if asked.kind == "pairs":
        return (np.concatenate([work.numbers for work in works]),)
    if asked.kind == "numbers":
        starts = np.append(np.int64(0), np.cumsum(version.degrees(ends[0]), dtype=np.int64))
        return starts, np.concatenate([work.numbers for work in works])
    start, combine = REDUCTIONS[asked.reduction]
    edges, total = sum(work.edges for work in works), int(combine.reduce(np.array([work.total for work in works], np.uint64)))
    if asked.kind == "run":
        return edges, total, np.concatenate([work.values for work in works])
    values = functools.reduce(combine, [work.values for work in works])
    changed = np.flatnonzero(values != start).astype(np.uint32)
    if DENSE * len(changed) >= len(values):
        return edges, total, None, values
    return edges, total, changed, values[changed]


def finished(work: Steps, asked: Asked, end: End | None, cancelled: collections.deque[int]) -> bool:
    """Does all that is left, in steps, unless it is the end of its time before, or it is cancelled."""
    while not work.done:
        if asked.token in cancelled:
            return False
        work.step()
        if end is not None and end.is_over():
            break
    return work.done


def own_csr(version: Version, place: int, count: int) -> tuple[npt.NDArray[np.int64], Vertices]:
    """All edges of a part's own sources, without copies."""
    starts, targets = version.csr()
    lengths, is_own = np.diff(starts), owners(np.arange(version.vertices), count) == place
    return np.append(np.int64(0), np.cumsum(np.where(is_own, lengths, 0))), targets[np.repeat(is_own, lengths)]


def named(version: Version, place: int, count: int) -> Vertices:
    """The vertices of other parts to which the edges of a part lead."""
    targets = np.unique(own_csr(version, place, count)[1])
    others: Vertices = targets[owners(targets, count) != place]
    return others


QUESTIONS: dict[str, Callable[..., Any]] = {
    "degrees": Version.degrees,
    "lists": Version.lists,
    "csr": Version.csr,
    "own_csr": own_csr,
    "named": named,
    "has_edges": has_edges,
}


class OtherEra(Exception):
    """A message is of a part that was lost, or of one that came after this."""


class Part:
    """What a worker has. `apply` is of one thread at a time, and questions are answered beside it by some threads."""

    def __init__(self) -> None:
        self.era = self.done = 0
        self._store: Store | None = None
        # How many edges it has of its own, and how many batches its log has.
        self._edges = self._log = 0
        self._early: dict[int, tuple[Edits, Edits]] = {}
        self._versions: dict[int, Version] = {}
        self._applying, self._cancelled = threading.Lock(), collections.deque[int](maxlen=MOST_CANCELLED)
        self._readers = concurrent.futures.ThreadPoolExecutor(MOST_READERS, thread_name_prefix="edgebpf-part")

    def begin(self, era: int, release: str, vertices: int, number: int, base: Base) -> int:
        """Begins with the graph of a number, and returns how many edges the part has then."""
        if release != edgebpf.__version__:
            raise Error(f"a worker has edgebpf {edgebpf.__version__}, and the cluster {release}: install the same release")
        self._store = Store(vertices) if base is None else Store.from_csr(*base)
        self.era, self.done, self._early = era, number, {}
        self._versions = {number: self._store.pin()}
        self._edges, self._log = self._versions[number].edges, 0
        return self._edges

    def apply(self, era: int, first: int, own: Batches, copied: Batches, low: int) -> list[Told]:
        """Takes the batches from a number on, and for each what changes in copies, applies all that are next, and forgets the versions below a
        number. Returns what was applied. Batches that came early wait for those before them."""
        with self._applying:
            store = self._of(era)
            for number, batch in enumerate(zip(own.each(), copied.each()), first):
                if number > self.done:
                    self._early[number] = batch
            told = []
            while self.done + 1 in self._early:
                told.append(self._apply(store, *self._early.pop(self.done + 1)))
            for number in [number for number in self._versions if number < low]:
                del self._versions[number]
            return told

    def adopt(self, era: int, number: int, edits: Edits) -> None:
        """Puts copies into the version of the last number."""
        with self._applying:
            store = self._of(era)
            if number != self.done:
                raise Error(f"copies are of version {number}, and the part has {self.done}")
            self._copy(store, edits)
            self._versions[number] = store.pin()

    def _apply(self, store: Store, own: Edits, copied: Edits) -> Told:
        """Applies the next batch, and keeps its version."""
        counts = put(store, own)
        self._copy(store, copied)
        self.done += 1
        self._versions[self.done] = store.pin()
        self._edges += counts.added - counts.removed
        self._log += 1
        if self.done % REBASE_BATCHES == 0 or self._log >= MOST_LOG:
            self._rebase(store)
        return self.done, counts.added, counts.removed, self._edges

    def _copy(self, store: Store, edits: Edits) -> None:
        """Changes copies; those that are dropped come first."""
        is_whole = edits[:, 1] == WHOLE_LIST
        if is_whole.any():
            dropped = edits[is_whole, 0]
            with store.pin() as version:
                starts, targets = version.lists(dropped & ~REMOVE)
            edits = np.concatenate([np.stack([np.repeat(dropped, np.diff(starts)), targets], axis=1), edits[~is_whole]])
        for piece in pieces(edits):
            put(store, piece)
            self._log += 1
            if self._log >= MOST_LOG:
                self._rebase(store)

    def _rebase(self, store: Store) -> None:
        store.rebase()
        self._log = 0

    async def read(self, era: int, number: int, question: str, given: tuple[Any, ...]) -> Any:
        """What a version answers."""
        self._of(era)
        version = self._versions.get(number)
        if version is None:
            raise Error(f"version {number} is not kept")
        questions = {**QUESTIONS, "run": self._run}
        return await asyncio.get_running_loop().run_in_executor(self._readers, questions[question], version, *given)

    def cancel(self, era: int, token: int) -> None:
        """Ends a run soon, or one that comes later than this."""
        self._cancelled.append(token)

    def _run(self, version: Version, *given: Any) -> tuple[Any, ...] | None:
        """What a run over some vertices, or pairs, gives; None if it was ended."""
        *ends, columns, asked = given
        # What came over a network may lie at any address.
        columns = [np.require(column, np.uint64, ["C", "A"]) for column in columns]
        end, lent = end_after(asked.seconds), version if asked.lists is None else with_more(version, asked.lists)
        works = [begun(lent, asked, piece, columns) for piece in in_pieces(asked, ends)]
        with concurrent.futures.ThreadPoolExecutor(min(asked.threads, len(works))) as threads:
            are_done = all([*threads.map(lambda work: finished(work, asked, end, self._cancelled), works)])
        return answer_of(works, asked, version, ends) if are_done else None

    def _of(self, era: int) -> Store:
        if era != self.era or self._store is None:
            raise OtherEra(f"the part is of era {self.era}, and not {era}")
        return self._store

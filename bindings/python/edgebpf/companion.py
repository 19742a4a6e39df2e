"""The companion library `libedgebpf_algorithms.so` by cffi, how its functions read a graph, and work that goes on in pieces. What it does stands in
bindings/c/edgebpf_algorithms.h; it is tested, and not proved. A call releases the interpreter's lock."""
from __future__ import annotations

import ctypes.util
import functools
import os
import pathlib
import threading
from collections.abc import Callable, Generator, Iterator
from typing import Any, Generic, TypeVar, Union

import numpy as np
import numpy.typing as npt

from edgebpf import library, native, store
from edgebpf.errors import Closed, Error, NotHere, TimedOut
from edgebpf.kept_here import KeptHere
from edgebpf.steps import STEP_SECONDS, end_after

Answer = TypeVar("Answer")
Progress = Callable[[int, int], object]
# Work in pieces: after each of them it tells how much is done, and of how much, and at the end it has an answer.
Pieces = Generator[tuple[int, int], None, Answer]
AnyVersion = Union[native.Version, store.Version]

NAME = "libedgebpf_algorithms"
# The last call that was added to the companion.
NEWEST = "edgebpf_push_residuals"
NO_VERTEX = 0xFFFFFFFF
# Vertices of a piece. Of a piece of which threads take one after another there are fewer.
PIECE, SHARED_PIECE = 1 << 14, 1 << 10
# How long the thread that waits for others waits before it hears a Ctrl-C.
WAIT_SECONDS = 0.02
U8, U32, U64, I64, F64 = np.dtype(np.uint8), np.dtype(np.uint32), np.dtype(np.uint64), np.dtype(np.int64), np.dtype(np.float64)
C_TYPES = {U8: "uint8_t[]", U32: "uint32_t[]", U64: "uint64_t[]", I64: "int64_t[]", F64: "double[]"}
# What bindings/c/edgebpf_algorithms.h declares. A slice is two numbers here, as in `library`.
DECLARATIONS = f"""
void edgebpf_algorithms_interface_{library.INTERFACE}(void);
uint32_t edgebpf_version_lend_from(handle *, uint32_t, uint32_t, size_t *, size_t, size_t *);
uint32_t edgebpf_version_degree(handle *, uint32_t, uint32_t *);
uint32_t edgebpf_version_has_edge(handle *, uint32_t, uint32_t, uint32_t *);
typedef struct {{ const uint64_t *starts; const uint32_t *targets; uint32_t vertices; }} edgebpf_graph;
typedef struct {{
    uint32_t (*lend_from)(handle *, uint32_t, uint32_t, size_t *, size_t, size_t *);
    uint32_t (*degree)(handle *, uint32_t, uint32_t *);
    uint32_t (*has_edge)(handle *, uint32_t, uint32_t, uint32_t *);
    handle *version;
    uint32_t status;
}} edgebpf_lender;
typedef struct {{ uint32_t todo, todo_last, done, done_last, up, place; }} edgebpf_search;
typedef struct {{ edgebpf_search *searches; uint32_t *ring, *owner, *next; uint32_t count, live, turn; }} edgebpf_split;
typedef struct {{
    double damping, unit;
    const uint32_t *degrees;
    double *ranks, *residuals;
    uint32_t *queue, *touched;
    uint8_t *queued, *is_touched;
    uint32_t vertices, at, count, touched_count;
    uint64_t edges;
}} edgebpf_residuals;
typedef struct {{ uint32_t *vertices; size_t at, end; }} edgebpf_queue;
void edgebpf_search_from(const edgebpf_graph *, edgebpf_queue *, size_t, uint32_t, uint32_t *, uint32_t *);
void edgebpf_search_lent(edgebpf_lender *, edgebpf_queue *, size_t, uint32_t, uint32_t *, uint32_t *);
void edgebpf_join_edges(const edgebpf_graph *, uint32_t, uint32_t, uint32_t *);
void edgebpf_join_pairs(const uint32_t *, const uint32_t *, size_t, uint32_t *);
void edgebpf_name_parts(uint32_t, uint32_t *);
void edgebpf_find_parts(uint32_t *, const uint32_t *, size_t, uint32_t *);
double edgebpf_rank_gives(const edgebpf_graph *, uint32_t, uint32_t, const double *, double *);
void edgebpf_rank_spread(const edgebpf_graph *, uint32_t, uint32_t, const double *, double *);
double edgebpf_rank_finish(uint32_t, uint32_t, double, double, const double *, const double *, double *);
uint64_t edgebpf_fixed_gives(const edgebpf_graph *, uint32_t, uint32_t, uint32_t, const uint64_t *, uint64_t *);
void edgebpf_fixed_spread(const edgebpf_graph *, uint32_t, uint32_t, const uint64_t *, uint64_t *);
int edgebpf_is_mirrored(const edgebpf_graph *, uint32_t, uint32_t, uint64_t *);
uint32_t edgebpf_degrees(const edgebpf_graph *, uint32_t, uint32_t, uint32_t *);
void edgebpf_order_by_degree(uint32_t, const uint32_t *, uint32_t, uint32_t *, uint32_t *, uint32_t *);
void edgebpf_cores(const edgebpf_graph *, uint32_t, uint32_t, uint32_t *, uint32_t *, uint32_t *, uint32_t *);
void edgebpf_count_up(const edgebpf_graph *, uint32_t, uint32_t, const uint32_t *, uint64_t *);
void edgebpf_write_up(const edgebpf_graph *, uint32_t, uint32_t, const uint32_t *, const uint64_t *, uint32_t *);
void edgebpf_triangles(const edgebpf_graph *, uint32_t, uint32_t, uint32_t *, uint64_t *);
void edgebpf_take_independent(const edgebpf_graph *, const uint32_t *, size_t, uint8_t *);
size_t edgebpf_label_round(const edgebpf_graph *, uint32_t, uint32_t, uint32_t *, uint32_t *);
void edgebpf_pair_scores(
    edgebpf_lender *, uint32_t, const uint32_t *, const uint32_t *, size_t, const uint32_t *, uint32_t, uint32_t *, double *);
size_t edgebpf_two_steps(edgebpf_lender *, uint32_t, uint32_t, uint32_t, uint32_t *, double *, uint32_t *, double *);
void edgebpf_have_edges(edgebpf_lender *, const uint32_t *, const uint32_t *, size_t, uint8_t *);
void edgebpf_split_begin(edgebpf_split *, const uint32_t *, uint32_t);
size_t edgebpf_split_go_on(edgebpf_split *, edgebpf_lender *, size_t);
uint32_t edgebpf_split_end(edgebpf_split *, uint32_t, uint32_t *);
void edgebpf_label_parts(uint32_t, uint32_t, const uint32_t *, uint32_t *, uint32_t *, uint32_t *);
uint64_t edgebpf_triangles_of(
    edgebpf_lender *, const uint32_t *, const uint32_t *, size_t, size_t, size_t, int64_t, uint32_t, uint32_t *, int64_t *);
void edgebpf_move_residuals(edgebpf_residuals *, edgebpf_lender *, const uint32_t *, size_t, double);
void edgebpf_queue_residuals(edgebpf_residuals *, double);
size_t edgebpf_push_residuals(edgebpf_residuals *, edgebpf_lender *, double, size_t);
"""


@functools.cache
def path() -> str | None:
    """Where the companion is: what EDGEBPF_ALGORITHMS names, else beside the library or this package, else of the checkout, else one that is
    installed. None where there is none."""
    if named := os.environ.get("EDGEBPF_ALGORITHMS"):
        return named
    found = library.path()
    source = library.DIST.parent / "bindings" / "c" / "edgebpf_algorithms.c"
    if found and os.path.dirname(found) != str(library.DIST / "build"):
        for name in (f"{NAME}.so", f"{NAME}.so.{library.INTERFACE}"):
            beside = pathlib.Path(found).with_name(name)
            if os.path.isfile(beside):
                return str(beside)
    return library.in_checkout(NAME, source) or ctypes.util.find_library(NAME.removeprefix("lib"))


@functools.cache
def foreign() -> Any:
    """The types of the companion's calls."""
    types = library.cffi.FFI()
    types.include(library.foreign())
    types.cdef(DECLARATIONS)
    return types


@functools.cache
def load() -> Any:
    """The companion, whose calls are its attributes."""
    library.load()
    found = path()
    if found is None:
        raise Error(f"{NAME}.so is not there: run make -C dist in a checkout, or install edgebpf, or name the file by EDGEBPF_ALGORITHMS")
    try:
        companion = foreign().dlopen(found)
    except OSError as error:
        raise Error(f"{found} cannot be loaded: {error}") from None
    for name in (f"edgebpf_algorithms_interface_{library.INTERFACE}", NEWEST):
        if not hasattr(companion, name):
            raise Error(f"{found} lacks {name}: take edgebpf and the package of one release")
    return companion


@functools.cache
def lending() -> tuple[Any, Any, Any]:
    """The calls of the library by which the companion reads lists."""
    calls = foreign().dlopen(library.path())
    return calls.edgebpf_version_lend_from, calls.edgebpf_version_degree, calls.edgebpf_version_has_edge


def pointer(given: Any) -> Any:
    """What a call takes for an array, or for none; anything else is taken as it is."""
    if given is None:
        return foreign().NULL
    return foreign().from_buffer(C_TYPES[given.dtype], given) if isinstance(given, np.ndarray) else given


def call(name: str, *given: Any) -> Any:
    """A call of the companion, without its prefix."""
    return getattr(load(), f"edgebpf_{name}")(*map(pointer, given))


def version_of(version: Any, name: str = "version") -> AnyVersion:
    """A version, of whichever kind of store."""
    if not isinstance(version, (native.Version, store.Version)):
        raise TypeError(f"{name} is a version of a store, not {type(version).__name__}")
    return version


class Copy:
    """All edges of a version, in the arrays of `csr`."""

    def __init__(self, version: AnyVersion) -> None:
        starts, self.targets = version_of(version).csr()
        self._hold(starts.view(np.uint64), self.targets)

    @classmethod
    def of(cls, starts: npt.NDArray[np.uint64], targets: npt.NDArray[np.uint32]) -> Copy:
        copy = cls.__new__(cls)
        copy._hold(starts, targets)
        return copy

    def _hold(self, starts: npt.NDArray[np.uint64], targets: npt.NDArray[np.uint32]) -> None:
        load()
        self.starts, self.targets, self.count = starts, targets, len(starts) - 1
        self._graph = foreign().new("edgebpf_graph *", (pointer(starts), pointer(targets), self.count))

    def both_ways(self) -> Copy:
        """The edges in both directions, some of them twice."""
        degrees = np.diff(self.starts.view(np.int64))
        sources = np.concatenate([np.repeat(np.arange(self.count, dtype=U32), degrees), self.targets])
        targets = np.concatenate([self.targets, sources[:len(self.targets)]])
        starts = np.zeros(self.count + 1, U64)
        np.cumsum(np.bincount(sources, minlength=self.count), out=starts[1:].view(np.int64))
        return Copy.of(starts, targets[np.argsort(sources, kind="stable")])

    def call(self, name: str, *given: Any) -> Any:
        return call(name, self._graph, *given)

    def over(self, name: str, *given: Any, done: int = 0, of: int = 0) -> Pieces[list[Any]]:
        """A call for all vertices in pieces, and what each returned. `done` and `of` say how much of the whole was done before."""
        returned = []
        for begin, end in cut(self.count):
            returned.append(self.call(name, begin, end, *given))
            yield done + end, of or self.count
        return returned


class Lender:
    """A version whose lists are read where they lie. Each thread uses a handle of its own, and closing the version changes nothing."""

    def __init__(self, version: AnyVersion) -> None:
        load()
        version_of(version)
        if not isinstance(version, native.Version):
            raise NotHere("an edgebpf process lends no lists: use edgebpf.Store")
        self._shared = version._open()
        self.count = version.vertices

    def call(self, name: str, *given: Any) -> Any:
        return self.calls(name, (), *given)

    def calls(self, name: str, before: tuple[Any, ...], *given: Any) -> Any:
        """The same for a call that takes something before the version."""
        lender = foreign().new("edgebpf_lender *", (*lending(), self._shared.own().at, library.DONE))
        returned = call(name, *before, lender, *given)
        library.check(lender.status)
        return returned


def cut(count: int, size: int = PIECE) -> Iterator[tuple[int, int]]:
    """Where each piece begins and ends."""
    for begin in range(0, count, size):
        yield begin, min(begin + size, count)


Worker = Callable[[], Callable[[int, int], object]]


def by_threads(cuts: list[tuple[int, int]], threads: int, worker: Worker) -> Pieces[None]:
    """Pieces that are independent of each other. Each thread asks `worker` for a function of its own, and does by it one piece after another that
    nobody has."""
    of = cuts[-1][1] if cuts else 0
    if threads > 1:
        yield from Crew(cuts, worker).finished(threads, of)
        return
    own = worker()
    for begin, end in cuts:
        own(begin, end)
        yield end, of


class Crew:
    """Threads that share pieces. If one of them fails, or who waits for them is interrupted, they stop after their pieces."""

    def __init__(self, cuts: list[tuple[int, int]], worker: Worker) -> None:
        self._left, self._worker, self._done = iter(cuts), worker, 0
        self._lock, self._stop, self._failed = threading.Lock(), threading.Event(), list[BaseException]()

    def _work(self) -> None:
        try:
            own = self._worker()
            while not self._stop.is_set():
                with self._lock:
                    piece = next(self._left, None)
                if piece is None:
                    return
                own(*piece)
                with self._lock:
                    self._done += piece[1] - piece[0]
        except BaseException as error:
            self._failed.append(error)
            self._stop.set()

    def finished(self, threads: int, of: int) -> Pieces[None]:
        """Has so many threads do all pieces."""
        workers = [threading.Thread(target=self._work, daemon=True) for _ in range(threads)]
        try:
            for thread in workers:
                thread.start()
            for thread in workers:
                while thread.is_alive():
                    thread.join(WAIT_SECONDS)
                    if not self._failed:
                        yield self._done, of
        finally:
            self._stop.set()
            for thread in workers:
                if thread.ident is not None:
                    thread.join()
        if self._failed:
            raise self._failed[0]


class Task(KeptHere, Generic[Answer]):
    """An algorithm under way. `at` is how much is done, and of how much; `result` is its answer once it is `done`. Threads may step it in turns. To
    cancel it, drop it."""

    _called = "an algorithm under way"

    def __init__(self, pieces: Pieces[Answer]) -> None:
        self._pieces, self._lock = pieces, threading.Lock()
        self._answer: list[Answer] = []
        self._is_cut_off = False
        self.at = (0, 0)
        # What was given is tested before the first piece.
        self._go_on()

    def __repr__(self) -> str:
        return f"<edgebpf.algorithms.Task: {self.at[0]} of {self.at[1]}{', done' if self.done else ''}>"

    def _go_on(self) -> None:
        """One piece more."""
        with self._lock:
            if self._is_cut_off:
                raise Closed("the algorithm was cut off by an error")
            if self._answer:
                return
            self._is_cut_off = True
            try:
                self.at = next(self._pieces)
            except StopIteration as end:
                self._answer.append(end.value)
            self._is_cut_off = False

    def step(self, seconds: float = STEP_SECONDS) -> None:
        """Goes on for about so many seconds, and by one piece at least. It does nothing once all is done."""
        end = end_after(seconds)
        while not self.done:
            self._go_on()
            if end is not None and end.is_over():
                return

    @property
    def done(self) -> bool:
        return bool(self._answer)

    @property
    def result(self) -> Answer:
        """The answer. Raises `Error` if it is not there yet."""
        if not self._answer:
            raise Error(f"the algorithm is not done: {self.at[0]} of {self.at[1]}")
        return self._answer[0]


def finished(pieces: Pieces[Answer], progress: Progress | None, seconds: float | None) -> Answer:
    """The answer of work in pieces. Between them `progress` is called with how much is done, and of how much; what it raises ends the
    work, and so does a Ctrl-C. After so many seconds it raises `TimedOut`."""
    if progress is not None and not callable(progress):
        raise TypeError(f"progress is a function of two numbers, not {type(progress).__name__}")
    end = end_after(seconds)
    task = Task(pieces)
    while not task.done:
        if progress is not None:
            progress(*task.at)
        if end is not None and end.is_over():
            raise TimedOut(f"{end.seconds:g} seconds were over after {task.at[0]} of {task.at[1]}", task)
        task._go_on()
    if progress is not None and task.at[0] < task.at[1]:
        progress(task.at[1], task.at[1])
    return task.result

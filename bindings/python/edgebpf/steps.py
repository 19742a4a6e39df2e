"""Work that pauses: each step does some of it, and the next one goes on where that ended, in any thread."""
from __future__ import annotations

import copy
import threading
import time
from collections.abc import Iterator
from typing import TYPE_CHECKING, Any, NamedTuple, Union

import numpy as np
import numpy.typing as npt

from edgebpf import library
from edgebpf.errors import TimedOut
from edgebpf.given import REDUCTIONS, WORD, Numbers, Vertices, budget_of, seconds_of
from edgebpf.kept_here import KeptHere
from edgebpf.programs import Program, argument_of, handle_of

if TYPE_CHECKING:
    from edgebpf.native import Version

# How long a step without a budget takes, about, and the most that it does however fast the one before was: the next edges may be others.
# Most units take 5 ns at most, and a division of 64 bits up to 20. One that calls a helper, or a pair's search for its place, takes some hundreds,
# and numbers of columns that are in no cache may take as long.
STEP_SECONDS = 0.01
MOST_OF_A_STEP, MOST_WITH_HELPERS = 1_000_000, 300_000
# The first such step expects so many units a second, fewer than any program does. Each later one takes the rate of the one before, if that
# is not too many times the rate that was expected.
FIRST_RATE, GROWTH = 1e7, 4
LEAST_RATE = 1e5
FIRST_BUDGET, LEAST_BUDGET = int(FIRST_RATE * STEP_SECONDS), int(LEAST_RATE * STEP_SECONDS)
# So many numbers have room at first, beside those that a frontier has on average.
LEAST_NUMBERS = 64
# So many vertices of a range are written down at a time.
WINDOW = 1 << 16
U32, U64 = np.dtype(np.uint32), np.dtype(np.uint64)

# Vertices in any order; or a range, of which no array is made.
Frontier = Union[Vertices, range]


class End(NamedTuple):
    """When a call ends by itself: the time, and how many seconds it was given."""

    time: float
    seconds: float

    def is_over(self) -> bool:
        return time.perf_counter() >= self.time

    def raised(self, run: Steps) -> TimedOut:
        return TimedOut(f"{self.seconds:g} seconds were over after {run.edges} edges", run)


def end_after(seconds: float | None) -> End | None:
    """The end of a call that begins now; None is without end."""
    if seconds is None:
        return None
    given = seconds_of(seconds)
    return End(time.perf_counter() + given, given)


class Inputs(NamedTuple):
    """What runs are lent besides their edges: an argument, and columns, which are not copied."""

    argument: bytes
    columns: list[Numbers]


class Steps(KeptHere):
    """Work under way over a version. Threads may use it in turns, also `step` of one while another calls it: the second waits. Closing the
    version ends it where it is, and a `share` has handles of its own."""

    _called, _of = "a run", "vertices"

    def __init__(self, version: Version, program: Program, inputs: Inputs, count: int) -> None:
        handle_of(program)
        self._version, self._program, self._inputs = version, program, inputs
        self._given, self._columns = argument_of(program, inputs.argument, len(inputs.columns)), version._calls.columns(inputs.columns)
        self._calls, self._count, self._lock = version._calls, count, threading.Lock()
        self._at = version._calls.new(version._calls.progress)
        # What all steps had as budgets, of which `_at` has what is left.
        self._granted, self._rate = 0, FIRST_RATE
        self._most = MOST_WITH_HELPERS if program._has_helpers or inputs.columns else MOST_OF_A_STEP

    def __repr__(self) -> str:
        end = ", done" if self.done else ""
        return f"<edgebpf.{type(self).__name__}: {self.vertex} of {self._count} {self._of}, {self.edges} numbers{end}>"

    def step(self, budget: int | None = None) -> None:
        """Goes on as far as a budget of units goes, 0 to 2^64 - 1, and by one edge or one vertex at least. README has what an edge takes.
        Without a number it takes about 10 ms by the rate of the steps before, or less. It does nothing once all is done."""
        number, shared = budget if budget is None else budget_of(budget), self._version._open()
        if number is None:
            self._take(STEP_SECONDS, shared)
            return
        with self._lock:
            self._go_on(number, shared)

    @property
    def done(self) -> bool:
        """Whether all is done."""
        return bool(self._at.vertex == self._count)

    @property
    def edges(self) -> int:
        """How many edges, or pairs, have a number so far."""
        return int(self._at.edges)

    @property
    def vertex(self) -> int:
        """How many vertices of the frontier are done."""
        return int(self._at.vertex)

    @property
    def at(self) -> tuple[int, int]:
        """How many vertices of the frontier are done, and how many edges of the next one."""
        return self._at.vertex, self._at.place

    @property
    def used(self) -> int:
        """What all steps together took from their budgets: the bill, in the same unit for all programs. A step takes its budget at most."""
        return self._granted - int(self._at.budget)

    def _go_on(self, budget: int, shared: library.Shared) -> None:
        """One call of the library. `shared` are the handles of the version, as it was when it was asked for this."""
        version, program, at = shared.own().at, handle_of(self._program).at, self._at
        # An interrupt comes after a call and not between these lines, so `used` is right after one, too.
        self._granted += budget - at.budget
        at.budget = budget
        status = self._call(version, program, self._given, len(self._given), *self._columns)
        if status:
            library.check(status)

    def _call(self, *handles: Any) -> int:
        raise NotImplementedError

    def _take(self, seconds: float, shared: library.Shared) -> None:
        """A step that takes about so long."""
        with self._lock:
            used, begun = self.used, time.perf_counter()
            self._go_on(max(LEAST_BUDGET, min(self._most, int(self._rate * seconds))), shared)
            rate = (self.used - used) / max(time.perf_counter() - begun, 1e-9)
            self._rate = max(LEAST_RATE, min(rate, GROWTH * self._rate))

    def _finish(self, end: End | None, shared: library.Shared) -> None:
        """All that is left, or `TimedOut` at the end. It is done also if another thread closes the version in the meantime."""
        while not self.done:
            left = STEP_SECONDS if end is None else min(STEP_SECONDS, end.time - time.perf_counter())
            self._take(max(left, 0.0), shared)
            if end is not None and end.is_over() and not self.done:
                raise end.raised(self)

    def _go_on_from(self, at: Any, budget: int) -> None:
        """What a call with a budget did becomes the beginning of this."""
        self._at[0], self._granted = at[0], budget

    def _another(self: Any) -> Any:
        """The same at the same place, with a progress, a lock and a handle of its own. The arrays are those of this one."""
        other = copy.copy(self)
        other._version, other._lock = self._version.share(), threading.Lock()
        other._at = self._calls.new(self._calls.progress, self._at[0])
        return other


class Windows:
    """The vertices of a range from a place on, as arrays. The last array is kept, since a step may end within it."""

    def __init__(self, vertices: range) -> None:
        self._vertices, self._begin, self._last = vertices, 0, np.empty(0, U32)

    def at(self, place: int) -> Vertices:
        """The vertices from a place on, some at least; there are none at the end."""
        if not self._begin <= place < self._begin + len(self._last):
            part = self._vertices[place:place + WINDOW]
            self._begin, self._last = place, np.arange(part.start, part.stop, dtype=U32)
        return self._last[place - self._begin:]

    def each(self) -> Iterator[Vertices]:
        """All of them, one array after another."""
        return (self.at(place) for place in range(0, len(self._vertices), WINDOW))


class Run(Steps):
    """A run over a frontier under way, made by `Version.begin`. `edges` and `total` are those of the edges so far. `vertex` values are final;
    the next one is that of its edges so far, and the others that of a vertex without edges."""

    def __init__(
        self, version: Version, program: Program, reduction: str, frontier: Frontier, inputs: Inputs, values: Numbers | None = None,
    ) -> None:
        super().__init__(version, program, inputs, len(frontier))
        self._frontier, self._reduction = frontier, REDUCTIONS[reduction]
        # What no edge gives.
        self._at.total = none = WORD - 1 if reduction == "min" else 0
        # Of a range the value of the next vertex at each of two places: where this run was before a call, and where it is after that.
        self._begun: dict[tuple[int, int], int] = {}
        if values is None:
            values = np.full(self._count, none, U64) if none else np.zeros(self._count, U64)
        self._keep(values)

    def _keep(self, values: Numbers) -> None:
        calls, count = self._calls, self._count
        self._values = values
        if isinstance(self._frontier, range):
            self._windows = Windows(self._frontier)
        else:
            self._arrays = calls.buffer(calls.words, self._frontier), count, self._reduction, self._at, calls.buffer(calls.numbers, values), count

    def _call(self, *handles: Any) -> int:
        if not isinstance(self._frontier, range):
            return int(self._calls.pull_some(*handles, *self._arrays))
        while not (status := self._call_window(handles)) and self._at.budget and not self.done:
            pass
        return status

    def _call_window(self, handles: tuple[Any, ...]) -> int:
        """A call for the next vertices of a range, which adds what it did to what was done before. An interrupt comes at any line here: until
        `at` is written, all is as it was."""
        calls, at, window = self._calls, self._at, self._windows.at(self._at.vertex)
        vertex, place, count = at.vertex, at.place, len(window)
        # The edges of the next vertex that are done belong to this call's part, and so does their value.
        begun = self._begun[vertex, place] if place else 0
        if place:
            self._values[vertex] = begun
        part = calls.new(calls.progress, {"budget": at.budget, "edges": place, "total": begun, "place": place})
        values = self._values[vertex:vertex + count]
        arrays = calls.buffer(calls.words, window), count, self._reduction, part, calls.buffer(calls.numbers, values), count
        status = int(calls.pull_some(*handles, *arrays))
        if not status:
            total = (at.total - begun) % WORD if self._reduction == REDUCTIONS["sum"] else at.total
            part.edges, part.total, part.vertex = at.edges - place + part.edges, self._joined(total, part.total), vertex + part.vertex
            next_value = int(self._values[part.vertex]) if part.place else 0
            self._begun = {(vertex, place): begun, (part.vertex, part.place): next_value}
            at[0] = part[0]
        return status

    def _joined(self, one: int, other: int) -> int:
        """What two parts reduce to."""
        if self._reduction == REDUCTIONS["sum"]:
            return (one + other) % WORD
        return min(one, other) if self._reduction == REDUCTIONS["min"] else max(one, other)

    @property
    def total(self) -> int:
        """The reduction of the numbers of all edges so far."""
        return int(self._at.total)

    @property
    def values(self) -> Numbers:
        """A value for each vertex of the frontier, read-only, which the next steps go on to write."""
        return readable(self._values)

    def share(self) -> Run:
        """A run of its own that goes on from the same place, for another thread; it stays when the version is closed."""
        with self._lock:
            other: Run = self._another()
            other._keep(self._values.copy())
        return other


class Push(Run):
    """A push over a frontier under way, made by `Version.begin_push`. `values` is the array that it writes, with one for each vertex of the
    graph; `edges` and `total` are those of the edges so far. A `share` goes on over a copy of it."""

    def _keep(self, values: Numbers) -> None:
        calls = self._calls
        self._values = values
        frontier = calls.buffer(calls.words, self._frontier)
        self._arrays = frontier, self._count, self._reduction, self._at, calls.buffer(calls.numbers, values), len(values)

    def _call(self, *handles: Any) -> int:
        return int(self._calls.push_some(*handles, *self._arrays))


class NumbersRun(Steps):
    """The numbers of a frontier's edges under way, made by `Version.begin_numbers`."""

    def __init__(self, version: Version, program: Program, frontier: Frontier, inputs: Inputs, room: int) -> None:
        super().__init__(version, program, inputs, len(frontier))
        self._frontier, self._numbers = frontier, np.empty(room, U64)
        self._written = self._calls.new(self._calls.size)
        if isinstance(frontier, range):
            self._windows = Windows(frontier)

    def _call(self, *handles: Any) -> int:
        if self._at.edges == len(self._numbers):
            self._grow()
        if not isinstance(self._frontier, range):
            return self._call_some(handles, self._frontier, self._at)
        while not (status := self._call_window(handles)) and self._at.budget and not self.done and self._at.edges < len(self._numbers):
            pass
        return status

    def _call_some(self, handles: tuple[Any, ...], frontier: Vertices, at: Any) -> int:
        """A call for the next edges of a frontier, whose numbers come after those of all edges so far."""
        calls, written = self._calls, self._at.edges
        numbers, room = calls.buffer(calls.numbers, self._numbers) + written, len(self._numbers) - written
        return int(calls.numbers_of(*handles, calls.buffer(calls.words, frontier), len(frontier), at, numbers, room, self._written))

    def _call_window(self, handles: tuple[Any, ...]) -> int:
        """A call for the next vertices of a range. Until `at` is written, all is as it was."""
        calls, at = self._calls, self._at
        part = calls.new(calls.progress, {"budget": at.budget, "edges": at.place, "place": at.place})
        status = self._call_some(handles, self._windows.at(at.vertex), part)
        if not status:
            part.edges, part.vertex = at.edges - at.place + part.edges, at.vertex + part.vertex
            at[0] = part[0]
        return status

    def _grow(self) -> None:
        """Room for twice as many numbers. An array that somebody has stays as it is."""
        longer = np.empty(2 * len(self._numbers) + LEAST_NUMBERS, U64)
        longer[:len(self._numbers)] = self._numbers
        self._numbers = longer

    @property
    def numbers(self) -> Numbers:
        """The numbers so far, read-only: one vertex of the frontier after another, and for each its targets ascending."""
        return readable(self._numbers[:self.edges])

    def share(self) -> NumbersRun:
        """A run of its own that goes on from the same place, for another thread; it stays when the version is closed."""
        with self._lock:
            other: NumbersRun = self._another()
            other._numbers, other._written = self._numbers.copy(), self._calls.new(self._calls.size)
        return other


class PairsRun(Steps):
    """The numbers of pairs under way, made by `Version.begin_pairs`. `vertex` and `edges` are how many pairs are done."""

    _of = "pairs"

    def __init__(self, version: Version, program: Program, ends: tuple[Vertices, Vertices], inputs: Inputs) -> None:
        super().__init__(version, program, inputs, len(ends[0]))
        self._ends, self._most = ends, MOST_WITH_HELPERS
        self._keep(np.empty(self._count, U64))

    def _keep(self, numbers: Numbers) -> None:
        calls, count, (sources, targets) = self._calls, self._count, self._ends
        self._numbers = numbers
        ends = calls.buffer(calls.words, sources), count, calls.buffer(calls.words, targets), count
        self._arrays = *ends, self._at, calls.buffer(calls.numbers, numbers), count

    def _call(self, *handles: Any) -> int:
        return int(self._calls.pairs_of(*handles, *self._arrays))

    @property
    def numbers(self) -> Numbers:
        """The numbers so far, read-only, one for each pair."""
        return readable(self._numbers[:self.vertex])

    def share(self) -> PairsRun:
        """A run of its own that goes on from the same place, for another thread; it stays when the version is closed."""
        with self._lock:
            other: PairsRun = self._another()
            other._keep(self._numbers.copy())
        return other


def readable(array: npt.NDArray[Any]) -> npt.NDArray[Any]:
    """A view of an array for reading."""
    view = array.view()
    view.flags.writeable = False
    return view

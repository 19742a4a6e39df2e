"""A run over a frontier in parts, which threads of this process go on with at the same time."""
from __future__ import annotations

import threading
from collections.abc import Callable, Iterator
from typing import TYPE_CHECKING

import numpy as np

from edgebpf import library
from edgebpf.given import Numbers
from edgebpf.programs import Program
from edgebpf.steps import STEP_SECONDS, U64, End, Frontier, Inputs, Run, Steps, readable

if TYPE_CHECKING:
    from edgebpf.native import Version

# Each thread takes the next part that nobody has, so that it matters less where the vertices with many edges are.
PARTS_OF_A_THREAD, LEAST_PART = 8, 64
# How the totals of parts are put together.
COMBINED = {"sum": np.add.reduce, "min": np.minimum.reduce, "max": np.maximum.reduce}


class Parts(Steps):
    """A run over a frontier in parts. `vertex` and `at` are where its first part stands that is not done."""

    def __init__(self, runs: list[Run], reduction: str, values: Numbers) -> None:
        self._runs, self._reduction, self._values = runs, reduction, values
        self._stop, self._count = threading.Event(), len(values)

    @classmethod
    def _over(cls, version: Version, program: Program, reduction: str, frontier: Frontier, inputs: Inputs, threads: int) -> Parts:
        count = len(frontier)
        size = max(LEAST_PART, -(-count // (threads * PARTS_OF_A_THREAD)))
        values = np.empty(count, U64)
        cuts = [slice(begin, begin + size) for begin in range(0, max(count, 1), size)]
        return cls([Run(version, program, reduction, frontier[cut], inputs, values[cut]) for cut in cuts], reduction, values)

    def _next(self) -> Run:
        return next((run for run in self._runs if not run.done), self._runs[-1])

    def step(self, budget: int | None = None) -> None:
        """Goes on with the first part that is not done, as a run does."""
        self._next().step(budget)

    @property
    def done(self) -> bool:
        return all(run.done for run in self._runs)

    @property
    def edges(self) -> int:
        return sum(run.edges for run in self._runs)

    @property
    def used(self) -> int:
        return sum(run.used for run in self._runs)

    @property
    def at(self) -> tuple[int, int]:
        first = self._next()
        before = self._runs[:self._runs.index(first)]
        return sum(run._count for run in before) + first.vertex, first.at[1]

    @property
    def vertex(self) -> int:
        return self.at[0]

    @property
    def total(self) -> int:
        """The reduction of the numbers of all edges so far."""
        return int(COMBINED[self._reduction](np.array([run.total for run in self._runs], U64)))

    @property
    def values(self) -> Numbers:
        """A value for each vertex of the frontier, read-only, which the next steps go on to write."""
        return readable(self._values)

    def share(self) -> Parts:
        """A run of its own that goes on from the same place, for another thread; it stays when the version is closed."""
        runs, values = [run.share() for run in self._runs], self._values.copy()
        begin = 0
        for run in runs:
            end = begin + run._count
            values[begin:end] = run._values
            run._keep(values[begin:end])
            begin = end
        return Parts(runs, self._reduction, values)

    def _finish_by(self, threads: int, end: End | None, shared: library.Shared) -> None:
        """All that is left by so many threads, of which this is one, or `TimedOut` at the end."""
        waiting, taking, raised = iter([run for run in self._runs if not run.done]), threading.Lock(), []

        def work() -> None:
            try:
                for run in taken(waiting, taking):
                    while not run.done:
                        if self._stop.is_set():
                            return
                        run._take(STEP_SECONDS, shared)
                        if end is not None and end.is_over():
                            self._stop.set()
            except Exception as error:
                raised.append(error)
                self._stop.set()

        self._stop.clear()
        others = started(work, min(threads, len(self._runs)) - 1)
        try:
            work()
            for other in others:
                other.join()
        finally:
            # After an interrupt each other thread ends with the step that it makes.
            self._stop.set()
            for other in others:
                other.join()
        if raised:
            raise raised[0]
        if end is not None and not self.done:
            raise end.raised(self)


def taken(waiting: Iterator[Run], taking: threading.Lock) -> Iterator[Run]:
    """The next run that no thread has, until there is none."""
    while True:
        with taking:
            run = next(waiting, None)
        if run is None:
            return
        yield run


def started(work: Callable[[], None], count: int) -> list[threading.Thread]:
    """So many threads at work, or as many as the system lets this process have."""
    threads: list[threading.Thread] = []
    for _ in range(count):
        thread = threading.Thread(target=work, daemon=True)
        try:
            thread.start()
        except RuntimeError:
            break
        threads.append(thread)
    return threads

"""A graph that one thread edits and all threads read: what is read is the last version, and rebases come by themselves."""
from __future__ import annotations

import contextlib
import dataclasses
import threading
from collections.abc import Callable
from typing import Any

import numpy.typing as npt

from edgebpf.errors import Closed, NoMemory
from edgebpf.given import FEEDS, Edges, Pairs, edits_of, edits_of_batch, feed_of, whole
from edgebpf.kept_here import KeptHere
from edgebpf.limits import MOST_BATCHES
from edgebpf.native import Store, Version
from edgebpf.store import Counts

REBASE_BATCHES, REBASE_EDITS = 1_000, 1 << 22


class Last(Version):
    """The last version of a `Live`, which all its readers have at once, so that none of them closes it."""

    def close(self) -> None:
        """Does nothing: the version is dropped with the last that refers to it."""


class Live(KeptHere):
    """A graph in this process of which threads read the last version, without waiting, while one at a time edits it. It is a context manager.

    vertices: 1 to 268,435,456. A rebase comes by itself after `batches` batches, 1 to 4,096, or after `edits` edits, so that the memory of what
    was edited stays small. It has no end: there is none to rebases.
    """

    _called, _instead = "a Live", "; csr() of a version has its edges"

    def __init__(self, vertices: int, batches: int = REBASE_BATCHES, edits: int = REBASE_EDITS) -> None:
        self._begin(lambda: Store(vertices), batches, edits)

    @classmethod
    def of(cls, version: Version, batches: int = REBASE_BATCHES, edits: int = REBASE_EDITS) -> Live:
        """A graph of its own that begins with a version's, as a branch of it does, such as that of a store of a file of edges."""
        live = cls.__new__(cls)
        if not isinstance(version, Version):
            raise TypeError(f"version is a version of a Store, not {type(version).__name__}")
        live._begin(version.branch, batches, edits)
        return live

    def _begin(self, made: Callable[[], Store], batches: int, edits: int) -> None:
        self._batches, self._edits = whole(batches, "batches"), whole(edits, "edits")
        if not 1 <= self._batches <= MOST_BATCHES:
            raise ValueError(f"batches is 1 to {MOST_BATCHES}")
        if self._edits < 1:
            raise ValueError("edits is at least 1")
        self._store = made()
        self.vertices = self._store.vertices
        self._writing, self._is_closed = threading.Lock(), False
        # How many batches there were before the last rebase, and since then, with how many edits.
        self._before, self._since, self._edited = 0, 0, 0
        self._latest: tuple[int, Version] = 0, Last(self._store._pinned())

    def apply(
        self, sources: npt.ArrayLike = (), targets: npt.ArrayLike = (), removes: npt.ArrayLike | None = None, feed: str = "A", *,
        edges: Pairs | None = None,
    ) -> Counts:
        """Applies a batch of edits in their order, and raises what `Store.apply` raises. The `version` of its `Counts` counts all batches
        of this graph."""
        return self._take(feed, *edits_of(sources, targets, removes, edges, self.vertices))

    def batch(
        self, feed: str = "A", inserts: Edges = ((), ()), removes: Edges = ((), ()), edges: Pairs | None = None,
    ) -> Counts:
        """Applies a batch, its insertions first, and raises what `Store.batch` raises. The `version` of its `Counts` counts all batches
        of this graph."""
        return self._take(feed, *edits_of_batch(inserts, removes, edges, self.vertices))

    def latest(self) -> Version:
        """The last version, which stays as it is while batches come. Threads may use it at the same time. Its `close` does nothing."""
        return self._latest[1]

    def numbered(self) -> tuple[int, Version]:
        """How many batches of this graph made the last version, and the version, whose own `number` counts those since a rebase."""
        return self._latest

    def __repr__(self) -> str:
        number, version = self._latest
        return f"<edgebpf.Live {number}: {self.vertices} vertices, {version.edges} edges{', closed' if self._is_closed else ''}>"

    def close(self) -> None:
        """Drops the store; versions that are held stay. May be called twice."""
        with self._writing:
            self._is_closed = True
            self._store.close()

    def __enter__(self) -> Live:
        return self

    def __exit__(self, *_: object) -> None:
        self.close()

    def _take(self, feed: str, *edits: Any) -> Counts:
        """Applies a batch after a rebase where it is time for one, and shows its version."""
        feed = FEEDS[feed_of(feed)]
        with self._writing:
            if self._is_closed:
                raise Closed("the graph is closed")
            if self._since >= self._batches or self._edited >= self._edits:
                self._forget()
            counts = self._store._edited(feed, *edits)
            # By the store's own number: a batch before, which an interrupt cut off once it was applied, was not counted here.
            self._since, self._edited = counts.version, self._edited + len(edits[0])
            self._show()
            return dataclasses.replace(counts, version=self._before + self._since)

    def _forget(self) -> None:
        """Makes room for batches. Without memory for that the next batch tries it again, as long as there is room for batches."""
        try:
            self._store.rebase()
        except NoMemory:
            if self._since >= MOST_BATCHES:
                raise
            return
        self._before, self._since, self._edited = self._before + self._since, 0, 0
        # The graph is the same, so readers may have the version before until the batch is shown. It is not applied yet, and no error says so.
        with contextlib.suppress(NoMemory):
            self._show()

    def _show(self) -> None:
        try:
            self._latest = self._before + self._since, Last(self._store._pinned())
        except NoMemory:
            raise NoMemory("the batches were applied, and there is no memory to show their version before the next one") from None

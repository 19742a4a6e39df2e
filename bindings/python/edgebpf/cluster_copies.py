"""Which lists of other parts a part of a `Cluster` has copies of, and what it is sent so that they are exact at each number."""
from __future__ import annotations

from collections.abc import Mapping
from typing import NamedTuple

import numpy as np
import numpy.typing as npt

from edgebpf.cluster_part import REMOVE, WHOLE_LIST, Edits, owners
from edgebpf.given import Vertices

# What programs may ask about: their edge's source, also its target, any vertex.
OWN, TARGET, ANY = "own", "target", "all"
# A part is asked which copies it needs once it has so many, and twice as many as it needed before.
LEAST_LOOK = 1_024
NO_EDITS: Edits = np.empty((0, 2), np.uint32)
NO_VERTICES: Vertices = np.empty(0, np.uint32)
# Of each vertex that is wanted the batch from which on.
Wanted = tuple[Vertices, npt.NDArray[np.int64]]


class Sent(NamedTuple):
    """What a part is sent of a batch: the edits of its own sources, those of lists of which it has copies, the vertices whose lists it needs from
    this batch on, as they were before it, and edits that drop copies, which come first."""

    own: Edits
    copied: Edits
    wanted: Vertices
    dropped: Edits


class Holdings:
    """The vertices of other parts whose lists a part has: those that its edges name, and those that they named when it was last asked, or since."""

    def __init__(self, vertices: int, place: int, count: int, asks: str) -> None:
        self._place, self._count, self._asks = place, count, asks
        self._held = np.zeros(vertices if asks == TARGET else 0, np.bool_)
        # How many are held, and how many were after the last look.
        self._many = self._needed = 0
        # What was named since a look began, if there is one.
        self._named_since: list[Vertices] | None = None
        self._dropped = NO_EDITS

    def of(self, cuts: list[Edits]) -> Sent:
        """What the part is sent of the next batch, of which each part has some edits."""
        own, others = cuts[self._place], [edits for place, edits in enumerate(cuts) if place != self._place and len(edits)]
        if self._asks == OWN:
            return Sent(own, NO_EDITS, NO_VERTICES, NO_EDITS)
        copied = np.concatenate(others) if others else NO_EDITS
        if self._asks == ANY:
            return Sent(own, copied, NO_VERTICES, NO_EDITS)
        dropped, self._dropped = self._dropped, NO_EDITS
        targets = own[own[:, 0] < REMOVE, 1]
        if self._named_since is not None:
            self._named_since.append(targets)
        targets = targets[~self._held[targets]]
        wanted: Vertices = np.unique(targets[owners(targets, self._count) != self._place])
        self.hold(wanted)
        return Sent(own, copied[self._held[copied[:, 0] & ~REMOVE]], wanted, dropped)

    def hold(self, vertices: Vertices) -> None:
        """The part has these lists from now on, which it did not have."""
        self._held[vertices] = True
        self._many += len(vertices)

    def is_due(self) -> bool:
        """Whether the part may have many copies that it needs no more."""
        return self._asks == TARGET and self._named_since is None and self._many >= max(LEAST_LOOK, 2 * self._needed)

    def begin_look(self, later: list[Edits]) -> None:
        """The part is asked which vertices its edges name at a number, after which it was sent some edits."""
        self._named_since = [edits[edits[:, 0] < REMOVE, 1] for edits in later]

    def end_look(self, named: Vertices) -> None:
        """The part drops what it needs no more, with the next batch."""
        held = np.flatnonzero(self._held)
        kept = np.concatenate([named, *(self._named_since or ())])
        unneeded = held[~np.isin(held, kept)].astype(np.uint32)
        self._held[unneeded] = False
        self._dropped = np.stack([unneeded | REMOVE, np.full(len(unneeded), WHOLE_LIST)], axis=1)
        self._many = self._needed = len(held) - len(unneeded)
        self._named_since = None

    def give_up_look(self) -> None:
        """The part did not answer; the next look is as late as after an answer by which it needs all."""
        self._needed, self._named_since = self._many, None


def edits_of_lists(vertices: Vertices, starts: npt.NDArray[np.int64], targets: Vertices) -> Edits:
    """Edits that put the lists of some vertices in."""
    return np.stack([np.repeat(vertices, np.diff(starts)).astype(np.uint32), targets], axis=1)


def wanted_of(first: int, batches: list[Sent]) -> Wanted:
    """The vertices that batches want, of which none is wanted twice, ascending."""
    vertices = np.concatenate([batch.wanted for batch in batches])
    numbers = np.repeat(np.arange(first, first + len(batches)), [len(batch.wanted) for batch in batches])
    order = np.argsort(vertices)
    return vertices[order], numbers[order]


def since(wanted: Wanted, cuts: Mapping[int, list[Edits]], number: int) -> list[tuple[Edits, npt.NDArray[np.int64]]]:
    """What changed in the lists of wanted vertices after a number and before the batch that wants them, in order, with these batches."""
    vertices, numbers = wanted
    found = []
    for later in range(number + 1, int(numbers.max())):
        edits = np.concatenate(cuts[later])
        sources = edits[:, 0] & ~REMOVE
        places = np.minimum(np.searchsorted(vertices, sources), len(vertices) - 1)
        chosen = (vertices[places] == sources) & (numbers[places] > later)
        found.append((edits[chosen], numbers[places[chosen]]))
    return found


def with_lists(first: int, batches: list[Sent], found: list[tuple[Edits, npt.NDArray[np.int64]]]) -> list[Edits]:
    """What each batch has for copies: first the lists that it wants, as they were and as they changed before it."""
    edits = np.concatenate([some for some, _ in found])
    numbers = np.concatenate([of for _, of in found])
    order = np.argsort(numbers, kind="stable")
    ends = np.searchsorted(numbers[order], np.arange(first + 1, first + len(batches)))
    return [np.concatenate([batch.dropped, lists, batch.copied]) for lists, batch in zip(np.split(edits[order], ends), batches)]

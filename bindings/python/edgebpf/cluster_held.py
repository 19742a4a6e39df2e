"""What the router of a `Cluster` knows of each part and of each batch, and the words of what goes wrong."""
from __future__ import annotations

import asyncio
from typing import Any, NamedTuple

from edgebpf.cluster_part import Edits, Told
from edgebpf.errors import Error, NoMemory
from edgebpf.store import Counts


class Waiting(NamedTuple):
    """A batch that was handed in, and who waits for its `Counts`."""

    edits: Edits
    counts: asyncio.Future[Counts]


class Held:
    """What the router knows of a part. `sent` is the last number that it was sent in its era, `own` the one up to which it told of all, and `done` the
    same once it also has its copies. `told` has what it told of those that are not committed."""

    def __init__(self, place: int) -> None:
        self.place, self.era = place, 0
        self.handle: Any = None
        self.sent = self.own = self.done = -1
        # At which number it gets the copies that it begins with, and whether it has them; the number that is pinned for that.
        self.mark, self.is_complete = 0, False
        self.pinned: int | None = None
        self.holdings: Any = None
        self.told: dict[int, Told] = {}
        # How often it was lost since it had all that there was when it was lost, and up to which number that is.
        self.losses = self.owed = 0
        # Whether it can be asked; whether it never will be again; and whether somebody found that it does not answer.
        self.is_live = self.is_over = self.is_gone = False
        self.news = asyncio.Event()


def again(error: Error) -> Error:
    """The same error once more, for another caller."""
    return type(error)(str(error))


def refused(part: Held, error: Exception, committed: int) -> Error:
    """What is said of a batch that a part could not apply, or of copies that one that begins could not take."""
    kind = NoMemory if isinstance(error, (NoMemory, MemoryError)) else Error
    words, does = error or type(error).__name__, "apply a batch" if part.is_complete else "begin again"
    return kind(f"part {part.place} could not {does}, and no batch after {committed} is taken: {words}")

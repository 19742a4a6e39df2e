"""The graph of a service in memory: a store, the same turned round if it is wanted, and the versions that are shown."""
import typing

import edgebpf
import numpy as np

from edgebpf_serve.limits import MOST_BATCHES, MOST_EDITS, REMOVE


class Moment(typing.NamedTuple):
    """What is shown after a group of batches: the number of the last one, and the graph, which never changes."""

    seq: int
    version: edgebpf.Version
    # The same with each edge turned round; None without --mirror.
    mirror: edgebpf.Version | None


class Graph:
    """A store that is edited by one thread. Rebases come by themselves."""

    def __init__(self, vertices, options):
        self.options = options
        self.stores = [edgebpf.Store(vertices)] + ([edgebpf.Store(vertices)] if options.mirror else [])
        self.batches = self.edits = self.rebases = 0

    def load(self, starts, targets):
        """Adds the edges of a snapshot to an empty store."""
        sources = np.repeat(np.arange(len(starts) - 1, dtype=np.uint32), np.diff(starts).astype(np.int64))
        ends = [sources, targets]
        for store in self.stores:
            for place in range(0, len(targets), MOST_EDITS):
                if place // MOST_EDITS % MOST_BATCHES == MOST_BATCHES - 1:
                    store.rebase()
                store.apply(ends[0][place:place + MOST_EDITS], ends[1][place:place + MOST_EDITS])
            if len(targets):
                store.rebase()
            ends = turned(*ends) if store is not self.stores[-1] else ends

    def apply(self, edits, free=lambda: None):
        """Applies edits in their order, after a rebase if one is due, and returns how many edges came and went. Memory that is refused is
        asked for once more after `free` and a rebase."""
        if self.batches >= self.options.rebase_batches or self.edits >= self.options.rebase_edits:
            self.rebase()
        marks, sources, targets = (edits[:, 0] & REMOVE) != 0, edits[:, 0] & ~np.uint32(REMOVE), edits[:, 1]
        counts = [applied(store, ends, marks, free) for store, ends in zip(self.stores, ((sources, targets), (targets, sources)))]
        self.batches, self.edits = self.batches + 1, self.edits + len(edits)
        return counts[0].added, counts[0].removed

    def rebase(self):
        for store in self.stores:
            store.rebase()
        self.batches = self.edits = 0
        self.rebases += 1

    def moment(self, seq):
        """The last version, to be shown under a number."""
        versions = [store.pin() for store in self.stores]
        return Moment(seq, versions[0], versions[1] if len(versions) > 1 else None)


def applied(store, ends, marks, free):
    try:
        return store.apply(*ends, marks)
    except edgebpf.NoMemory:
        free()
        store.rebase()
        return store.apply(*ends, marks)


def turned(sources, targets):
    """The same edges turned round, sorted by their new sources."""
    order = np.argsort(targets, kind="stable")
    return [targets[order], sources[order]]


def lists_of(version, vertices):
    """All targets of some vertices, one list after another."""
    return version.lists(vertices)[1] if len(vertices) else np.empty(0, np.uint32)

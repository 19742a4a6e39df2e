"""The state that a folder says: the newest whole snapshot, and the batches of the journal after it. Nothing is written."""
import dataclasses
import sqlite3

import numpy as np

from edgebpf_serve.disk import Wrong
from edgebpf_serve.graph import Graph
from edgebpf_serve.limits import EDIT_BYTES, MOST_EDITS, MOST_MERGED, REMOVE
from edgebpf_serve.rows import Damaged, digest_of


@dataclasses.dataclass
class State:
    """What was recovered. `ids` has (seq, digest, added, removed) by id, oldest first; `results` those that the disk does not have yet, and
    `since` how many batches, with how many bytes, came after the newest snapshot."""

    graph: Graph
    seq: int
    snapshot: int
    ids: dict
    results: list
    since: list


def recover(disk, options, log):
    """Recovers a folder. Raises `Wrong` if it is damaged."""
    try:
        return _recovered(disk, options, log)
    except (Damaged, sqlite3.Error) as error:
        raise Wrong(f"{disk.folder}: {error}") from None


def _recovered(disk, options, log):
    graph, snapshot = Graph(disk.vertices, options), 0
    found = _newest(disk, log)
    if found:
        snapshot = found[0]
        graph.load(*found[1:])
    kept = disk.results()
    known = kept[-1][0] if kept else 0
    if known < snapshot:
        raise Damaged(f"the results of batches {known + 1} to {snapshot} are missing")
    seq, results, since = _replay(disk, graph, snapshot, known)
    if seq < max(known, disk.last_noted()):
        raise Damaged(f"batches {seq + 1} to {max(known, disk.last_noted())} were acknowledged, and are missing")
    newest = disk.snapshots()[0][0] if found else 0
    if newest > seq:
        raise Damaged(f"batches {seq + 1} to {newest} are missing")
    ids = {key: (number, *told) for number, key, *told in (*kept, *results) if key is not None}
    return State(graph, seq, snapshot, ids, results, since)


def _newest(disk, log):
    """(seq, starts, targets) of the newest snapshot that is whole; None to begin without an edge."""
    entered = disk.snapshots()
    for row in entered:
        try:
            return row[0], *disk.read_snapshot(row)
        except (Damaged, OSError) as error:
            log("snapshot damaged", file=row[1], error=str(error))
    if entered and disk.first_batch() != 1:
        raise Damaged(f"no snapshot is whole: {', '.join(row[1] for row in entered)}")
    return None


def _replay(disk, graph, snapshot, known):
    """Applies the batches after a snapshot, and returns the last one's number, the results that the disk does not have, and how many batches
    there were, with how many bytes. As the results of batches up to `known` are kept, these are applied together."""
    seq, results, since, merged = snapshot, [], [0, 0], Merged(graph)
    for seq, key, edits in disk.batches(snapshot):
        since = [since[0] + 1, since[1] + EDIT_BYTES * len(edits)]
        if seq <= known:
            merged.add(edits)
        else:
            merged.apply()
            results.append((seq, key, digest_of(edits.tobytes()), *graph.apply(edits)))
    merged.apply()
    return seq, results, since


class Merged:
    """Batches whose edits are applied together. Of the edits of an edge the last one decides, so the others are left out; the store takes far
    less time for edits in the order of their sources than for as many batches with sources here and there."""

    def __init__(self, graph):
        self.graph, self.parts, self.count = graph, [], 0

    def add(self, edits):
        self.parts.append(edits)
        self.count += len(edits)
        if self.count >= MOST_MERGED:
            self.apply()

    def apply(self):
        if self.count:
            edits = last_of_each(np.concatenate(self.parts))
            for place in range(0, len(edits), MOST_EDITS):
                self.graph.apply(edits[place:place + MOST_EDITS])
        self.parts, self.count = [], 0


def last_of_each(edits):
    """The last edit of each edge, in the order of their sources."""
    keys = (edits[:, 0] & ~np.uint32(REMOVE)).astype(np.uint64) << np.uint64(32) | edits[:, 1]
    order = np.argsort(keys, kind="stable")
    keys = keys[order]
    return edits[order[np.append(keys[1:] != keys[:-1], True)]]

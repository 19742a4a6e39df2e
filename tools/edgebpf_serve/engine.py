"""The writer of a service, one thread: journal, sync, store, and then answers. Batches that wait are synced as one group."""
import collections
import itertools
import os
import sqlite3
import threading
import time
import typing

import numpy as np

from edgebpf_serve.disk import transaction
from edgebpf_serve.limits import (
    AGAIN_SECONDS, BEAT_SECONDS, COPIED_EDGES, CUT_SECONDS, MOST_CHANGED, MOST_GROUPS, MOST_KEPT_VERSIONS, PAGE_BYTES, PAGE_EDGES, PAGE_VERTICES,
    RANGE_VERTICES, RANGES_LOOKED_AT, REMOVE, WRONG_DISK,
)
from edgebpf_serve.recovery import recover
from edgebpf_serve.rows import digest_of


class Busy(Exception):
    """Too much waits already: nothing was changed."""


class NoRoom(Exception):
    """The disk is full: nothing was changed."""


class OtherBatch(Exception):
    """Another batch had this id: nothing was changed."""


class Stopped(Exception):
    """The service is ending, and takes nothing more: nothing was changed."""


class Batch(typing.NamedTuple):
    """A batch that waits. `done` is called with its Outcome, or an error."""

    key: str | None
    edits: np.ndarray
    body: bytes
    digest: bytes
    done: typing.Callable


class Outcome(typing.NamedTuple):
    version: int
    added: int
    removed: int
    new: bool


class Task(typing.NamedTuple):
    """Rows that are written with a group. `write(db)` raises an error before it writes, or returns what `then` is called with once all is
    synced; `done` is called with what `then` returns, or the error."""

    write: typing.Callable
    then: typing.Callable
    done: typing.Callable


class Queue:
    """What waits for the writer, within limits."""

    def __init__(self, options):
        self.options, self.items, self.bytes, self.is_closed = options, collections.deque(), 0, False
        self.changed = threading.Condition()

    def put(self, item, size):
        with self.changed:
            if self.is_closed:
                raise Stopped("the service is ending")
            if len(self.items) >= self.options.queue_batches or self.items and self.bytes + size > self.options.queue_bytes:
                raise Busy(f"{len(self.items)} batches wait already")
            self.items.append((item, size))
            self.bytes += size
            self.changed.notify()

    def take(self, seconds):
        """A group of what waits; an empty one after some seconds; None once the queue is closed and empty."""
        group, size = [], 0
        with self.changed:
            if not self.items and not self.is_closed:
                self.changed.wait(seconds)
            if not self.items and self.is_closed:
                return None
            while self.items and len(group) < self.options.group_batches and size < self.options.group_bytes:
                item, bytes_of_it = self.items.popleft()
                group.append(item)
                size += bytes_of_it
            self.bytes -= size
        return group

    def close(self):
        with self.changed:
            self.is_closed = True
            self.changed.notify()


def copied_bytes(version, changed):
    """About how much a store copied for batches that changed the lists of some vertices: the pages in which these lists are. Of many ranges some are
    looked at."""
    ranges = np.unique(changed // RANGE_VERTICES)
    times = -(-len(ranges) // RANGES_LOOKED_AT) or 1
    cost = 0
    for first in RANGE_VERTICES * ranges[::times].astype(np.int64):
        degrees = np.zeros(RANGE_VERTICES, np.int64)
        own = np.arange(first, min(first + RANGE_VERTICES, version.vertices), dtype=np.uint32)
        degrees[: len(own)] = np.minimum(version.degrees(own), COPIED_EDGES)
        size = PAGE_VERTICES[np.searchsorted(PAGE_EDGES, degrees.sum() / len(own), "right")]
        pages = np.unique((changed[changed // RANGE_VERTICES == first // RANGE_VERTICES] - first) // size)
        cost += PAGE_BYTES * len(pages) + 4 * int(degrees.reshape(-1, size)[pages].sum())
    return times * cost


class Shown:
    """The versions that readers see, and which sources changed between them."""

    def __init__(self, moment, options):
        self.options, self.latest, self.floor = options, moment, moment.seq
        self.lock, self.kept, self.kept_bytes = threading.Lock(), collections.deque([(moment, 0)]), 0
        self.changes, self.changed_count = collections.deque(), 0

    def show(self, moment, changed):
        """Shows a version. `changed` are the sources of the batches since the last one."""
        cost = copied_bytes(moment.version, changed)
        with self.lock:
            self.changes.append((moment.seq, changed))
            self.changed_count += len(changed)
            while self.changed_count > MOST_CHANGED or len(self.changes) > MOST_GROUPS:
                self.floor, gone = self.changes.popleft()
                self.changed_count -= len(gone)
            self.kept.append((moment, cost))
            self.kept_bytes += cost
            self._drop(self.options.kept_bytes)
            self.latest = moment

    def _drop(self, most_bytes):
        """Drops the oldest versions, until the others take no more than so much. The last two stay."""
        while len(self.kept) > 2 and (self.kept_bytes > most_bytes or len(self.kept) > MOST_KEPT_VERSIONS):
            self.kept.popleft()
            # What a version takes alone is what the one after it had to copy.
            self.kept_bytes -= self.kept[0][1]

    def free(self):
        """Drops all but the last version, for their memory."""
        with self.lock:
            while len(self.kept) > 1:
                self.kept.popleft()
            self.kept_bytes = 0

    def at(self, seq):
        """The version of a number, if it is kept."""
        with self.lock:
            return next((moment for moment, _ in reversed(self.kept) if moment.seq == seq), None)

    def since(self, seq):
        """The latest version, and the sources that changed between one and that, ascending; None in their place where that is not known any more."""
        with self.lock:
            latest = self.latest
            if seq < self.floor:
                return latest, None
            later = itertools.takewhile(lambda change: change[0] > seq, reversed(self.changes))
            parts = [changed for _, changed in later]
        return latest, np.unique(np.concatenate(parts)) if parts else np.empty(0, np.uint32)


class Engine:
    """The graph of a folder, recovered, and the thread that writes. `published` is called after each group, by that thread."""

    def __init__(self, disk, options, meter, log, published=lambda: None):
        self.disk, self.options, self.meter, self.log, self.published = disk, options, meter, log, published
        begun = time.perf_counter()
        state = recover(disk, options, log)
        self.graph, self.seq, self.snapshot_seq, self.ids, self.results, self.since = (
            state.graph, state.seq, state.snapshot, state.ids, state.results, state.since)
        self.shown = Shown(self.graph.moment(self.seq), options)
        self.recovery_seconds = time.perf_counter() - begun
        self.queue, self.beat, self.is_full = Queue(options), time.monotonic(), False
        self.cut_to, self.is_making_snapshot, self.snapshot_after, self.reserve_after = 0, False, 0.0, 0.0
        self.wanted, self.snapshot_lock = [], threading.Lock()
        self.writer = threading.Thread(target=self._work, name="writer")

    def start(self):
        self.disk.remove_strays()
        self.writer.start()

    @property
    def latest(self):
        return self.shown.latest

    def submit(self, key, edits, done):
        """Hands a batch in: edits as pairs of numbers, the highest bit of whose source takes the edge out. Raises `Busy` and `Stopped`."""
        body = np.ascontiguousarray(edits, "<u4").tobytes()
        self.queue.put(Batch(key, edits, body, digest_of(body), done), len(body))

    def do(self, task):
        """Hands rows in. Raises `Busy` and `Stopped`."""
        self.queue.put(task, 0)

    def snapshot(self, done):
        """Has a snapshot taken now; `done` is called with its version, or an error."""
        self.do(Task(lambda db: None, lambda _: self.wanted.append(done), lambda _: None))

    def close(self):
        """Writes what waits, and ends the writer."""
        self.queue.close()
        self.writer.join()
        self.disk.close()

    def _work(self):
        try:
            while (group := self.queue.take(CUT_SECONDS if self.cut_to else BEAT_SECONDS)) is not None:
                self.beat = time.monotonic()
                if group or self.cut_to:
                    self._write(group)
                self._maintain()
            self._keep_last_results()
        except BaseException as error:
            self.log("the writer failed", error=f"{type(error).__name__}: {error}")
            # What the disk has decides what was kept: the next start reads it. Nothing is tried again, also no sync.
            os._exit(WRONG_DISK)

    def _keep_last_results(self):
        """Writes the results of the last group, if there is room for them: else the next start finds them again."""
        try:
            with transaction(self.disk.db):
                self.disk.keep_results(self.results)
        except sqlite3.OperationalError as error:
            if error.sqlite_errorname not in ("SQLITE_FULL", "SQLITE_BUSY"):
                raise

    # A group

    def _write(self, group):
        begun = time.perf_counter()
        news, told, tasks = self._sorted_out(group)
        try:
            with transaction(self.disk.db):
                self._write_rows(news, tasks)
        except sqlite3.OperationalError as error:
            if error.sqlite_errorname == "SQLITE_FULL":
                self._make_room()
                self._refuse(group, NoRoom("the disk is full"))
            elif error.sqlite_errorname == "SQLITE_BUSY":
                self._refuse(group, Busy("another process has locked the folder"))
            else:
                raise
            return
        self.is_full, self.results = False, []
        if news:
            self.disk.note_last(news[-1][0])
        synced = time.perf_counter()
        counts = self._apply(news)
        self._finish(tasks)
        # Whoever has the answer finds its group counted.
        self.meter.group(len(news), synced - begun, time.perf_counter() - synced)
        for batch, (seq, digest, *earlier), is_new in told:
            is_same = digest == batch.digest
            batch.done(Outcome(seq, *(earlier or counts[seq]), is_new) if is_same else OtherBatch(f"another batch had the id {batch.key}"))

    def _sorted_out(self, group):
        """The new batches of a group as (seq, batch); each of its batches with what is known of the one with its id, as in `ids`, and whether it
        is new; and its tasks, with room for what became of them."""
        news, told, seen, tasks = [], [], {}, []
        for item in group:
            if isinstance(item, Task):
                tasks.append([item, None, None])
                continue
            known = None if item.key is None else seen.get(item.key) or self.ids.get(item.key)
            if known is None:
                known = self.seq + len(news) + 1, item.digest
                news.append((known[0], item))
                if item.key is not None:
                    seen[item.key] = known
                told.append((item, known, True))
            else:
                told.append((item, known, False))
        return news, told, tasks

    def _write_rows(self, news, tasks):
        db = self.disk.db
        self.disk.keep_results(self.results)
        self.disk.append([(seq, batch.key, batch.body) for seq, batch in news])
        for entry in tasks:
            db.execute("savepoint task")
            try:
                entry[1], entry[2] = entry[0].write(db), None
            except sqlite3.Error:
                raise
            except Exception as error:
                db.execute("rollback to task")
                entry[2] = error
            db.execute("release task")
        if self.cut_to and self.disk.cut(self.cut_to):
            self.cut_to = 0

    def _refuse(self, group, error):
        for item in group:
            item.done(error)

    def _make_room(self):
        """The disk is full. If a reserve is given up, a snapshot may make room."""
        self.meter.full()
        if not self.is_full:
            self.log("the disk is full")
        self.is_full = True
        if self.disk.give_up_reserve():
            self.log("the reserve is given up")
            self.snapshot_after, self.reserve_after = 0.0, time.monotonic() + AGAIN_SECONDS
            self.wanted.append(lambda _: None)

    def _apply(self, news):
        """Applies batches that were synced, shows the version, and returns what each did."""
        counts, touched = {}, []
        for seq, batch in news:
            counts[seq] = added, removed = self.graph.apply(batch.edits, self.shown.free)
            self.results.append((seq, batch.key, batch.digest, added, removed))
            if batch.key is not None:
                self.ids[batch.key] = seq, batch.digest, added, removed
            touched.append(batch.edits[:, 0] & ~np.uint32(REMOVE))
            self.since = [self.since[0] + 1, self.since[1] + len(batch.body)]
        if news:
            self.seq = news[-1][0]
            self.shown.show(self.graph.moment(self.seq), np.unique(np.concatenate(touched)))
            while len(self.ids) > self.disk.ids:
                self.ids.pop(next(iter(self.ids)))
            self.published()
        return counts

    def _finish(self, tasks):
        for task, written, error in tasks:
            task.done(error if error is not None else task.then(written))

    # Snapshots and room

    def _maintain(self):
        now = time.monotonic()
        is_due = self.since[1] > self.options.snapshot_bytes or self.since[0] > self.options.snapshot_batches
        if (is_due and now >= self.snapshot_after or self.wanted) and not self.is_making_snapshot:
            self.is_making_snapshot, self.since = True, [0, 0]
            wanted, self.wanted = self.wanted, []
            threading.Thread(target=self._take_snapshot, args=(self.latest, wanted), name="snapshot", daemon=True).start()
        if self.options.reserve_bytes and now >= self.reserve_after:
            self.reserve_after = now + AGAIN_SECONDS
            room = os.statvfs(self.disk.folder)
            if room.f_bavail * room.f_frsize >= 2 * self.options.reserve_bytes:
                self.disk.make_reserve()

    def _take_snapshot(self, moment, wanted):
        """Writes a snapshot's file, and has the writer enter it."""
        begun, row = time.perf_counter(), None

        def answer(result):
            self.is_making_snapshot = False
            for done in wanted:
                done(result)

        def failed(error):
            self.log("snapshot failed", version=moment.seq, error=f"{type(error).__name__}: {error}")
            self.snapshot_after, self.since = time.monotonic() + AGAIN_SECONDS, [1 << 60, 0]
            # Else it would take the room that it was to make. At the end of the service the next start does that.
            if row is not None and not isinstance(error, Stopped):
                self.disk.remove_unentered(row)
            answer(error if isinstance(error, (Busy, Stopped, NoRoom)) else NoRoom(f"the snapshot failed: {error}"))

        def entered(told):
            self.cut_to, self.snapshot_seq = told[0], moment.seq
            for name in told[1]:
                (self.disk.folder / name).unlink(missing_ok=True)
            self.meter.snapshot(time.perf_counter() - begun)
            self.log("snapshot", version=moment.seq, edges=moment.version.edges, seconds=round(time.perf_counter() - begun, 3))
            return moment.seq

        try:
            # The copy of the edges lies in a share of the version, which goes with it.
            with self.snapshot_lock:
                row = self.disk.write_snapshot(moment.seq, *moment.version.share().csr())
            self.do(Task(lambda db: self.disk.enter_snapshot(row), entered,
                         lambda result: failed(result) if isinstance(result, Exception) else answer(result)))
        except Exception as error:
            failed(error)

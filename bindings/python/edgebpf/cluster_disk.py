"""The folder of a `Cluster`: a journal of all batches, and checkpoints of each part, by the storage of `edgebpf-serve`. It is of the router's machine,
so that a part may begin again on any worker."""
from __future__ import annotations

import concurrent.futures
import contextlib
import pathlib
import sqlite3
from collections.abc import Iterator
from typing import Any

import numpy as np

from edgebpf.beside import module
from edgebpf.cluster_part import Base, Edits
from edgebpf.errors import Error

SERVES = "edgebpf-serve"
PARTS = "parts"
# Batches that are read at once for a part that begins again.
MOST_READ = 256
# Threads that read and write checkpoints.
FILES = 4


class Journal:
    """A folder that this process has for itself, and makes if it is not there. All calls are of the router's loop, but for `read` and `write`, which
    take long, and touch files alone. Raises `Error` if it is in use, damaged, or of another graph."""

    def __init__(self, folder: Any, vertices: int | None, count: int, usual: int) -> None:
        self._disk, self._rows = (module("edgebpf_serve", name, SERVES) for name in ("disk", "rows"))
        self.folder, self._all = pathlib.Path(folder), list[Any]()
        # The threads of `read` and `write`.
        self.files = concurrent.futures.ThreadPoolExecutor(FILES, thread_name_prefix="edgebpf-files")
        with self._told():
            try:
                self._batches = self._opened(self.folder, vertices)
                self.vertices: int = self._batches.vertices
                self.count = self._counted(count, usual)
                self._parts = [self._opened(self.folder / f"part-{place}", self.vertices) for place in range(self.count)]
                # The last batch that was there when this began.
                self.last = self._last()
            except BaseException:
                self.close()
                raise
        # The number of the last checkpoint that all parts have.
        self.newest: int = min((part.snapshots()[0][0] if part.snapshots() else 0) for part in self._parts)

    @contextlib.contextmanager
    def _told(self) -> Iterator[None]:
        """What is wrong with the folder, as an error of this package."""
        try:
            yield
        except (self._disk.Wrong, self._rows.Damaged, OSError, sqlite3.Error) as error:
            raise Error(f"{self.folder}: {str(error).removeprefix(f'{self.folder}: ')}") from None

    def _opened(self, folder: pathlib.Path, vertices: int | None) -> Any:
        disk = self._disk.Disk(folder, vertices)
        self._all.append(disk)
        disk.remove_strays()
        return disk

    def _counted(self, count: int, usual: int) -> int:
        """How many parts the folder has, which keeps it; a new one has the usual number. 0 is any."""
        db = self._batches.db
        kept = self._rows.read_meta(db).get(PARTS)
        if kept is None:
            if self._batches.first_batch() is not None or self._batches.snapshots():
                raise self._disk.Wrong("the folder is of edgebpf-serve")
            with self._disk.transaction(db):
                self._rows.set_meta(db, PARTS, kept := usual)
        if count not in (0, kept):
            raise self._disk.Wrong(f"the graph has {kept} parts, and not {count}")
        return int(kept)

    def _last(self) -> int:
        """The number of the last batch. None that was acknowledged may be missing."""
        found = self._batches.db.execute("select max(seq) from journal").fetchone()[0] or 0
        wanted = max([self._batches.last_noted(), *(row[0] for part in self._parts for row in part.snapshots())])
        if found < wanted:
            raise self._disk.Wrong(f"batches {found + 1} to {wanted} were acknowledged, and are missing")
        return int(found)

    def append(self, number: int, batches: list[Edits]) -> None:
        """Puts batches on the disk, from a number on."""
        with self._told(), self._disk.transaction(self._batches.db):
            self._batches.append([(number + place, None, batch.tobytes()) for place, batch in enumerate(batches)])

    def committed(self, number: int) -> None:
        """Notes what is acknowledged, by which a lost end of the journal is seen."""
        with contextlib.suppress(OSError):
            self._batches.note_last(number)

    def withdraw(self, number: int) -> None:
        """Takes the batches after a number out, for good: nobody was told that they are in effect."""
        with self._told(), self._disk.transaction(self._batches.db):
            self._batches.db.execute("delete from journal where seq > ?", (number,))

    def batches(self, number: int) -> Iterator[Edits]:
        """Some of the batches after a number, in order."""
        with self._told():
            for _, _, edits in self._batches.batches(number, most=MOST_READ):
                yield edits

    def rows(self, place: int) -> list[Any]:
        """Where a part may begin, for `read`: its checkpoints, the newest first, and before all batches if these are there."""
        with self._told():
            entered, first = self._parts[place].snapshots(), self._batches.first_batch()
        found: list[Any] = [*entered, None] if first == 1 or first is None and not entered else entered
        return found

    def read(self, place: int, rows: list[Any]) -> tuple[int, Base]:
        """The number and the edges of the first row whose file is whole, by any thread: it only reads files."""
        for row in rows:
            if row is None:
                return 0, None
            with contextlib.suppress(self._rows.Damaged, OSError):
                return row[0], self._parts[place].read_snapshot(row)
        raise Error(f"{self.folder}: no checkpoint of part {place} is whole")

    def write(self, place: int, number: int, starts: Any, targets: Any) -> Any:
        """Writes the file of a checkpoint, by any thread, and returns the row that `enter` takes."""
        with self._told():
            return self._parts[place].write_snapshot(number, starts, np.asarray(targets))

    def enter(self, place: int, row: Any) -> None:
        """From now on the part begins at this checkpoint, or at the one before it if this is damaged."""
        part = self._parts[place]
        with self._told():
            with self._disk.transaction(part.db):
                _, files = part.enter_snapshot(row)
            for name in files:
                (part.folder / name).unlink(missing_ok=True)

    def cut(self, number: int) -> bool:
        """Drops some of the batches that no part's checkpoints need, after one at this number, and returns whether all are gone."""
        self.newest = number
        kept = [part.snapshots() for part in self._parts]
        with self._told(), self._disk.transaction(self._batches.db):
            return bool(self._batches.cut(min((rows[1][0] if len(rows) > 1 else 0) for rows in kept)))

    def close(self) -> None:
        """Gives the folder up, once nothing is written there any more."""
        self.files.shutdown()
        for disk in self._all:
            disk.close()
        self._all = []

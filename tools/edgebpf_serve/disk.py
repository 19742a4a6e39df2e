"""The folder of a service: `serve.db` (SQLite: the journal, ids of batches, programs, columns, tokens), snapshots of the graph, columns, and `last`.

Nothing here is written by a recovery. All writes to `serve.db` are of one connection, by one thread, but for those of other processes (tokens).
"""
import contextlib
import errno
import fcntl
import os
import pathlib
import sqlite3
import struct
import zlib

import numpy as np

from edgebpf_serve import rows
from edgebpf_serve.limits import CUT_BYTES, CUT_ROWS, EDIT_BYTES, FIRST_VERTICES, FORMAT, MOST_IDS, SYNCED_BYTES
from edgebpf_serve.rows import Damaged, checked, digest_of

NAME = "serve.db"
PRAGMAS = ("journal_mode=wal", "synchronous=full", "wal_autocheckpoint=500", "journal_size_limit=67108864", "busy_timeout=10000")
LAST = struct.Struct("<QI")


class Wrong(Exception):
    """The folder cannot be served: it is in use, of another format, or damaged."""


class Full(Wrong):
    """The disk has no room for the file by which SQLite's processes share their index. With room the folder can be served."""


NO_ROOM = (errno.ENOSPC, errno.EDQUOT, "SQLITE_FULL", "SQLITE_IOERR_SHMSIZE")


def address(folder, mode):
    """By which SQLite opens the file of a folder to read ("ro") or to write ("rw"), and makes none: the folder's name may have any sign."""
    return f"{pathlib.Path(folder, NAME).absolute().as_uri()}?mode={mode}"


def is_full(error):
    return getattr(error, "errno", None) in NO_ROOM or getattr(error, "sqlite_errorname", None) in NO_ROOM


class Disk:
    """A folder that this process has for itself, and makes if it is not there. `ids`: for how many batches a new folder knows their ids."""

    def __init__(self, folder, vertices=None, ids=MOST_IDS, reserve=0):
        self.folder, self.ids, self.reserve, self.lock = pathlib.Path(folder), ids, reserve, None
        try:
            self._take(vertices)
        except BaseException:
            if self.lock is not None:
                os.close(self.lock)
            raise

    def _take(self, vertices):
        try:
            self.folder.mkdir(parents=True, exist_ok=True)
            self._lock()
            self.db = self._first_connection()
            self._begin(vertices)
        except (OSError, sqlite3.Error, OverflowError) as error:
            kind = Full if is_full(error) else Wrong
            raise kind(f"{self.folder}: {'the disk is full: ' if kind is Full else ''}{error}") from None
        except Damaged as error:
            raise Wrong(f"{self.folder}: {error}") from None

    def _lock(self):
        self.lock = os.open(self.folder / "lock", os.O_CREAT | os.O_RDWR | os.O_CLOEXEC, 0o600)
        try:
            fcntl.flock(self.lock, fcntl.LOCK_EX | fcntl.LOCK_NB)
        except BlockingIOError:
            raise Wrong(f"{self.folder}: another service has this folder") from None

    def _first_connection(self):
        """On a full disk SQLite finds no room for the file by which its processes share their index: the reserve is given up for that."""
        try:
            return self.connect()
        except sqlite3.Error:
            if not self.give_up_reserve():
                raise
            return self.connect()

    def connect(self):
        db = sqlite3.connect(self.folder / NAME, isolation_level=None, check_same_thread=False)
        for line in PRAGMAS:
            db.execute(f"pragma {line}")
        return db

    def reader(self):
        """A connection that only reads, for the thread that asks for it."""
        return contextlib.closing(sqlite3.connect(address(self.folder, "ro"), uri=True, isolation_level=None))

    def _begin(self, vertices):
        db = self.db
        if db.execute("select count(*) from sqlite_master").fetchone()[0] == 0:
            with transaction(db):
                for line in rows.TABLES.strip().split(";"):
                    db.execute(line)
                rows.set_meta(db, "format", FORMAT)
                rows.set_meta(db, "vertices", vertices or FIRST_VERTICES)
                rows.set_meta(db, "ids", self.ids)
            sync_folder(self.folder)
            sync_folder(self.folder.parent)
        meta = rows.read_meta(db)
        if meta.get("format") != FORMAT:
            raise Wrong(f"{self.folder}: the folder has format {meta.get('format')}, and this program reads {FORMAT}")
        self.vertices, self.ids = meta["vertices"], meta["ids"]
        if vertices not in (None, self.vertices):
            raise Wrong(f"{self.folder}: the graph has {self.vertices} vertices, and not {vertices}")
        self.last = os.open(self.folder / "last", os.O_CREAT | os.O_RDWR | os.O_CLOEXEC, 0o600)

    def close(self):
        self.db.close()
        os.close(self.last)
        os.close(self.lock)

    # Batches

    def append(self, batches):
        """Adds batches, each (seq, id, edits), within a transaction."""
        rows.insert(self.db, "journal", batches)

    def keep_results(self, results):
        """Adds results, each (seq, id, digest, added, removed), and drops those of batches whose ids need not be known any more."""
        rows.insert(self.db, "results", results)
        if results and results[-1][0] > self.ids:
            self.db.execute("delete from results where seq <= ?", (results[-1][0] - self.ids,))

    def note_last(self, seq):
        """Writes down, without a sync, that a batch was synced: a recovery that finds less has lost something."""
        body = struct.pack("<Q", seq)
        os.pwrite(self.last, LAST.pack(seq, zlib.crc32(body)), 0)

    def last_noted(self):
        body = os.pread(self.last, LAST.size, 0)
        if len(body) < LAST.size:
            return 0
        seq, number = LAST.unpack(body)
        return seq if number == zlib.crc32(struct.pack("<Q", seq)) else 0

    def batches(self, after, db=None, most=-1):
        """The batches of the journal after a number, in order, as (seq, id, edits)."""
        found = (db or self.db).execute("select * from journal where seq > ? order by seq limit ?", (after, most))
        for row in found:
            seq, key, body = checked("journal", row)
            after += 1
            if seq != after or not isinstance(body, bytes) or len(body) % EDIT_BYTES:
                raise Damaged(f"batch {after} is not in the journal")
            yield seq, key, np.frombuffer(body, "<u4").reshape(-1, 2)

    def first_batch(self, db=None):
        return (db or self.db).execute("select min(seq) from journal").fetchone()[0]

    def results(self):
        """The results that are known, in order and without a gap."""
        found = [checked("results", row) for row in self.db.execute("select * from results order by seq")]
        first = max(1, found[-1][0] - self.ids + 1) if found else 1
        for place, row in enumerate(found):
            if row[0] != first + place:
                raise Damaged(f"the result of batch {first + place} is missing")
        return found

    def journal_bytes(self):
        """How large `serve.db` is, which has the journal, with the log that SQLite keeps beside it."""
        return sum(path.stat().st_size for path in self.folder.glob(f"{NAME}*") if not path.name.endswith("-shm"))

    def snapshot_time(self):
        """When the newest snapshot was written, in seconds since 1970; 0 if there is none."""
        times = [0.0]
        for path in self.folder.glob("snapshot-*.csr"):
            # An older one may be removed meanwhile.
            with contextlib.suppress(FileNotFoundError):
                times.append(path.stat().st_mtime)
        return max(times)

    def cut(self, seq):
        """Deletes the first batches up to a number, within a transaction, but not so many that writers wait long. Returns whether all are gone."""
        last, size, is_all = 0, 0, True
        for last, length in self.db.execute("select seq, length(edits) from journal where seq <= ? order by seq limit ?", (seq, CUT_ROWS)):
            size += length
            if size > CUT_BYTES:
                break
        if last:
            self.db.execute("delete from journal where seq <= ?", (last,))
            is_all = self.first_batch() is None or self.first_batch() > seq
        return is_all

    # Snapshots

    def write_snapshot(self, seq, starts, targets):
        """Writes the file of a snapshot, whose row is not there yet: where the list of each vertex begins, 64 bits each, and then the targets,
        32 bits each. Returns the row."""
        name, number = f"snapshot-{seq:016}.csr", 0
        with replaced(self.folder / name) as file:
            for array in (starts.astype("<i8", copy=False), targets.astype("<u4", copy=False)):
                data = memoryview(array).cast("B") if len(array) else b""
                number = zlib.crc32(data, number)
                # A sync of the journal may have to wait for what lies unsynced here.
                for place in range(0, len(data), SYNCED_BYTES):
                    file.write(data[place:place + SYNCED_BYTES])
                    file.flush()
                    os.fdatasync(file.fileno())
        return seq, name, len(targets), number

    def enter_snapshot(self, row):
        """Enters a snapshot, within a transaction, and keeps the one before it. Returns up to which batch the journal is superfluous, and the
        files that are."""
        rows.put(self.db, "snapshots", row)
        entered = rows.read(self.db, "snapshots")
        for old, *_ in entered[:-2]:
            rows.remove(self.db, "snapshots", old)
        return entered[-2][0] if len(entered) > 1 else 0, [name for _, name, *_ in entered[:-2]]

    def remove_unentered(self, row):
        """Removes the file of a snapshot, by any thread, unless a row names it: that version may have been entered before."""
        with contextlib.suppress(sqlite3.Error, OSError), self.reader() as db:
            if db.execute("select 1 from snapshots where seq = ?", row[:1]).fetchone() is None:
                (self.folder / row[1]).unlink(missing_ok=True)

    def snapshots(self):
        """(seq, file, edges, sum of the file) of each snapshot, the newest first."""
        return list(reversed(rows.read(self.db, "snapshots")))

    def read_snapshot(self, row):
        """The arrays of a snapshot. Raises `Damaged`, and errors of files."""
        _, name, edges, number = row
        with open(self.folder / name, "rb") as file:
            starts, targets = np.fromfile(file, "<i8", self.vertices + 1), np.fromfile(file, "<u4", edges)
            is_longer = bool(file.read(1))
        if zlib.crc32(targets, zlib.crc32(starts)) != number or is_longer:
            raise Damaged(f"the file {name} is damaged")
        return starts, targets

    # Columns

    def write_column(self, seq, numbers):
        """Writes the file of a column, whose row is not there yet, and returns its name and its sum."""
        name, body = f"column-{seq:016}.bin", numbers.astype("<u8", copy=False).tobytes()
        with replaced(self.folder / name) as file:
            file.write(body)
        return name, digest_of(body)

    def read_column(self, name, file, digest):
        body = (self.folder / file).read_bytes()
        if digest_of(body) != digest or len(body) != 8 * self.vertices:
            raise Damaged(f"the file {file} of the column {name} is damaged")
        return np.frombuffer(body, "<u8")

    # Room

    def give_up_reserve(self):
        """Whether there was a reserve to be given up."""
        try:
            os.unlink(self.folder / "reserve")
        except FileNotFoundError:
            return False
        return True

    def make_reserve(self):
        """Makes the reserve if there is none of its size and there is room for it; returns whether there is one. A start with another size,
        or one that was killed here, has left another file."""
        path = self.folder / "reserve"
        if not self.reserve or path.exists() and path.stat().st_size == self.reserve:
            return True
        try:
            with open(path, "wb") as file:
                os.posix_fallocate(file.fileno(), 0, self.reserve)
        except OSError:
            path.unlink(missing_ok=True)
            return False
        return True

    def remove_strays(self):
        """Removes files that no row names: a crash left them."""
        named = {row[1] for row in rows.read(self.db, "snapshots")} | {row[2] for row in rows.read(self.db, "columns")}
        for pattern in ("snapshot-*", "column-*"):
            for path in self.folder.glob(pattern):
                if path.name not in named:
                    path.unlink(missing_ok=True)


@contextlib.contextmanager
def transaction(db):
    """What is done within is on the disk when this ends, or else nothing of it is done."""
    db.execute("begin immediate")
    try:
        yield
        db.execute("commit")
    except BaseException:
        if db.in_transaction:
            db.execute("rollback")
        raise


@contextlib.contextmanager
def replaced(path):
    """A file that is there whole under its name, or not at all."""
    draft = path.with_name(f"{path.name}.tmp")
    try:
        with open(draft, "wb") as file:
            yield file
            file.flush()
            os.fsync(file.fileno())
        os.rename(draft, path)
        sync_folder(path.parent)
    except BaseException:
        draft.unlink(missing_ok=True)
        raise


def sync_folder(path):
    folder = os.open(path, os.O_RDONLY | os.O_DIRECTORY)
    try:
        os.fsync(folder)
    finally:
        os.close(folder)

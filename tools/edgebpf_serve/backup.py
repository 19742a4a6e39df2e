"""Copies of a folder, while it is served, and folders made of them."""
import contextlib
import errno
import fcntl
import glob
import os
import pathlib
import secrets
import shutil
import sqlite3

from edgebpf_serve import rows
from edgebpf_serve.disk import NAME, Disk, Wrong, address, sync_folder
from edgebpf_serve.limits import Options
from edgebpf_serve.recovery import recover
from edgebpf_serve.rows import Damaged

# A file that the copied rows name may have been superseded meanwhile; then the copy begins again.
TRIES = 5


def back_up(folder, target):
    """Makes a folder that is a copy of another as it is at this moment, and returns the version of it. It is there whole, or not at all."""
    folder, target = pathlib.Path(folder), pathlib.Path(target)
    if target.exists():
        raise FileExistsError(f"{target} is there already")
    target.parent.mkdir(parents=True, exist_ok=True)
    version = _copy_again(folder, target)
    sync_folder(target.parent)
    return version


def _copy_again(folder, target):
    """Copies a folder, again if a file of it went meanwhile."""
    for left in range(TRIES - 1, -1, -1):
        with draft_of(target) as draft:
            try:
                version = _copy(folder, draft)
            except FileNotFoundError:
                if not left:
                    raise
                continue
            _rename(draft, target)
            return version


def _rename(draft, target):
    try:
        os.rename(draft, target)
    except OSError as error:
        if error.errno not in (errno.EEXIST, errno.ENOTEMPTY):
            raise
        raise FileExistsError(f"{target} is there already") from None


def remove_drafts(folder, name="*"):
    """Removes the drafts of copies that no lock holds any more: their makers were ended. A folder that cannot be opened is left alone."""
    with contextlib.suppress(OSError), _alone_in(folder):
        _remove_left(folder, name)


def _remove_left(folder, name):
    for left in folder.glob(f".{name}.*.draft"):
        with contextlib.suppress(OSError), _held(left, os.O_RDWR):
            shutil.rmtree(left, ignore_errors=True)


@contextlib.contextmanager
def draft_of(target):
    """A new folder beside a target, for the time of a block, which holds a lock in it: two may make the same copy at once."""
    draft = target.parent / f".{target.name}.{secrets.token_hex(8)}.draft"
    try:
        with contextlib.ExitStack() as holds:
            with _alone_in(target.parent):
                _remove_left(target.parent, glob.escape(target.name))
                draft.mkdir(mode=0o700)
                holds.enter_context(_held(draft, os.O_RDWR | os.O_CREAT))
            yield draft
    finally:
        try:
            shutil.rmtree(draft, ignore_errors=True)
        finally:
            # An interrupt may have cut that off. No other one comes after it.
            shutil.rmtree(draft, ignore_errors=True)


@contextlib.contextmanager
def _alone_in(folder):
    """The lock of a folder in which drafts are made and removed, so that none is seen before it holds its own. Where folders have no locks, none is
    taken."""
    file = os.open(folder, os.O_RDONLY | os.O_DIRECTORY | os.O_CLOEXEC)
    try:
        with contextlib.suppress(OSError):
            fcntl.flock(file, fcntl.LOCK_EX)
        yield
    finally:
        os.close(file)


@contextlib.contextmanager
def _held(draft, flags):
    file = os.open(draft / "lock", flags | os.O_CLOEXEC, 0o600)
    try:
        fcntl.flock(file, fcntl.LOCK_EX | fcntl.LOCK_NB)
        yield
    finally:
        os.close(file)


def _copy(folder, draft):
    with contextlib.closing(sqlite3.connect(address(folder, "ro"), uri=True)) as db:
        with contextlib.closing(sqlite3.connect(draft / NAME, isolation_level=None)) as copy:
            # While another process holds the file, Python hears of a signal in what is called here alone.
            db.backup(copy, progress=lambda *_: None)
            copy.execute("pragma journal_mode=delete")
            names = [row[1] for row in rows.read(copy, "snapshots")] + [row[2] for row in rows.read(copy, "columns")]
            batches = copy.execute("select max(seq) from journal").fetchone()[0]
            snapshots = copy.execute("select max(seq) from snapshots").fetchone()[0]
    for name in names:
        shutil.copyfile(folder / name, draft / name)
    for path in (*(draft / name for name in (NAME, *names)), draft):
        file = os.open(path, os.O_RDONLY)
        try:
            os.fsync(file)
        finally:
            os.close(file)
    return max(batches or 0, snapshots or 0)


def check(folder, log):
    """Recovers a folder, and says what it has. Raises `Wrong` if it is damaged, or in use."""
    if not (pathlib.Path(folder) / NAME).is_file():
        raise Wrong(f"{folder}: it has no {NAME}")
    disk = Disk(folder)
    try:
        state = recover(disk, Options(), log)
        for name, seq, file, digest, _ in rows.read(disk.db, "columns"):
            disk.read_column(name, file, digest)
        told = {name: len(rows.read(disk.db, name)) for name in ("programs", "columns", "tokens")}
        moment = state.graph.moment(state.seq)
        return {"version": state.seq, "vertices": disk.vertices, "edges": moment.version.edges, "ids": len(state.ids), **told}
    except (Damaged, OSError) as error:
        raise Wrong(f"{folder}: {error}") from None
    finally:
        disk.close()


def restore(copy, folder, log):
    """Makes a folder of a backup, once that was recovered without an error, and returns what it has."""
    folder = pathlib.Path(folder)
    if folder.exists() and any(folder.iterdir()):
        raise Wrong(f"{folder}: it is not empty")
    folder.parent.mkdir(parents=True, exist_ok=True)
    try:
        with draft_of(folder) as draft:
            back_up(copy, draft / "made")
            found = check(draft / "made", log)
            if folder.exists():
                folder.rmdir()
            _rename(draft / "made", folder)
        sync_folder(folder.parent)
        return found
    except (sqlite3.Error, Damaged) as error:
        raise Wrong(f"{copy}: {error}") from None

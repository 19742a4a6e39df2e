"""Programs and columns by their names, kept on disk.

Some tasks for one name may be written with one group, before readers see what any of them did. So each looks at the rows, which have what the
tasks before it wrote.
"""
import collections
import threading
import typing

import edgebpf
import numpy as np
from edgebpf.own_source import asks_of

from edgebpf_serve import rows
from edgebpf_serve.disk import Wrong
from edgebpf_serve.engine import Busy, Stopped, Task
from edgebpf_serve.limits import MOST_TRIED
from edgebpf_serve.rows import Damaged


class Conflict(Exception):
    """Another thing has this name already."""


class Missing(Exception):
    """Nothing has this name."""


class TooMany(Exception):
    """This token has as many as it may, or the service has."""


class Source(typing.NamedTuple):
    """What a program is made of. `form` is "text" or "code", and `body` the bytes of that."""

    record: int
    form: str
    body: bytes
    table: bytes


class Kept(typing.NamedTuple):
    """A program under its name. `asks` is "own", "target" or "all": which vertices it asks the graph about."""

    name: str
    program: edgebpf.Program
    asks: str
    source: Source
    owner: str

    def row(self):
        return self.name, *self.source, self.owner

    def about(self):
        program = self.program
        return {"name": self.name, "record": program.record, "bound": program.bound, "frames": program.frames, "asks": self.asks, "owner": self.owner}


def verified(name, source, owner=""):
    """A program that the verifier has accepted. Raises what the package raises."""
    record, form, body, table = source
    program = edgebpf.assemble(body.decode("utf-8", "surrogatepass"), record, table) if form == "text" else edgebpf.Program(body, record, table)
    return Kept(name, program, asks_of(program.assembled()), source, owner)


class Programs:
    """All programs of a service. What is read is read by any thread, and written by the writer's."""

    def __init__(self, disk, most):
        self.most, self.of = most, {}
        try:
            for name, *source, owner in rows.read(disk.db, "programs"):
                self.of[name] = verified(name, Source(*source), owner)
        except (Damaged, edgebpf.Error, ValueError) as error:
            raise Wrong(f"{disk.folder}: programs: {error}") from None

    def get(self, name):
        found = self.of.get(name)
        if found is None:
            raise Missing(f"no program has the name {name}")
        return found

    def keep(self, kept, most_of_owner, done):
        """A task that keeps a program. `done` is called with the program and whether it is new."""
        def write(db):
            row = rows.find(db, "programs", kept.name)
            if row is not None:
                if Source(*row[1:-1]) != kept.source:
                    raise Conflict(f"another program has the name {kept.name}")
                return False
            refuse_more(db, "programs", kept.owner, (self.most, most_of_owner))
            rows.put(db, "programs", kept.row())
            return True

        def then(is_new):
            return self.of.setdefault(kept.name, kept), is_new

        return Task(write, then, done)

    def drop(self, name, done):
        def write(db):
            if not rows.remove(db, "programs", name):
                raise Missing(f"no program has the name {name}")

        return Task(write, lambda _: self.of.pop(name), done)


class Tried:
    """The programs that were brought last. They stay verified, since whoever tries one asks several times."""

    def __init__(self):
        self.of = collections.OrderedDict()

    def find(self, source):
        """The program of a source; None if it has to be verified."""
        if source in self.of:
            self.of.move_to_end(source)
        return self.of.get(source)

    def keep(self, kept):
        self.of[kept.source] = kept
        while len(self.of) > MOST_TRIED:
            self.of.popitem(last=False)


class Column(typing.NamedTuple):
    """A number for each vertex. `seq` grows with each column that is put: an equal one is the same column."""

    name: str
    seq: int
    numbers: np.ndarray
    file: str
    digest: bytes
    owner: str


class Columns:
    """All columns of a service."""

    def __init__(self, disk, most):
        self.disk, self.most, self.of, self.lock = disk, most, {}, threading.Lock()
        try:
            for name, seq, file, digest, owner in rows.read(disk.db, "columns"):
                self.of[name] = Column(name, seq, disk.read_column(name, file, digest), file, digest, owner)
            self.seq = rows.read_meta(disk.db).get("column", 0)
        except (Damaged, OSError) as error:
            raise Wrong(f"{disk.folder}: columns: {error}") from None

    def get(self, name):
        found = self.of.get(name)
        if found is None:
            raise Missing(f"no column has the name {name}")
        return found

    def draft(self, name, numbers, owner):
        """Writes the file of a new column, by any thread."""
        with self.lock:
            self.seq += 1
            seq = self.seq
        file, digest = self.disk.write_column(seq, numbers)
        return Column(name, seq, numbers, file, digest, owner)

    def keep(self, column, most_of_owner, done):
        """A task that puts a column in the place of one with its name. `done` is called with the column."""
        def write(db):
            old = rows.find(db, "columns", column.name)
            if old is None:
                refuse_more(db, "columns", column.owner, (self.most, most_of_owner))
            elif old[1] > column.seq:
                raise Busy(f"a newer column {column.name} came first")
            rows.put(db, "columns", (column.name, column.seq, column.file, column.digest, column.owner))
            if column.seq > rows.read_meta(db).get("column", 0):
                rows.set_meta(db, "column", column.seq)
            return old and old[2]

        def then(old_file):
            self.of[column.name] = column
            self._unlink(old_file)
            return column

        def told(result):
            if isinstance(result, Exception):
                self._unlink(column.file)
            done(result)

        return Task(write, then, told)

    def hand_in(self, engine, column, most_of_owner, done):
        """Has the writer keep a column. Raises `Busy` and `Stopped`; then its file is gone."""
        try:
            engine.do(self.keep(column, most_of_owner, done))
        except (Busy, Stopped):
            self._unlink(column.file)
            raise

    def drop(self, name, done):
        def write(db):
            if not rows.remove(db, "columns", name):
                raise Missing(f"no column has the name {name}")

        return Task(write, lambda _: self._unlink(self.of.pop(name).file), done)

    def _unlink(self, file):
        if file is not None:
            (self.disk.folder / file).unlink(missing_ok=True)


def refuse_more(db, what, owner, limits):
    """Raises `TooMany` if one more row would be too many in all, or for its owner."""
    most, most_of_owner = limits
    owners = rows.owners(db, what)
    if len(owners) >= most:
        raise TooMany(f"the service keeps {most} {what}")
    if owners.count(owner) >= most_of_owner:
        raise TooMany(f"this token keeps {most_of_owner} {what}")

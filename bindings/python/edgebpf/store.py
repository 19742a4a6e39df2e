"""A store in a process of its own, its versions, and what runs give."""
from __future__ import annotations

import contextlib
import copy
import dataclasses
import functools
import io
import itertools
import signal
import subprocess
import threading
from collections.abc import Iterable, Iterator, Sequence
from typing import IO, Any, NamedTuple, NoReturn, cast

import numpy as np
import numpy.typing as npt

from edgebpf import adapters
from edgebpf.errors import Closed, EpochsFull, Error, LogFull, NoMemory, NotHere, TooManyEdits, TooManyNames
from edgebpf.given import (
    FEEDS, NO_COLUMNS, Columns, Edges, Numbers, Pairs, Vertices, columns_of, edits_of, edits_of_batch, feed_of, frozen, reduction_of,
    threads_of, values_into, vertex_count, vertex_of, vertices_of, whole,
)
from edgebpf.kept_here import KeptHere
from edgebpf.limits import MOST_BATCHES, MOST_EDITS, MOST_KEPT, MOST_LINE_BYTES, SERVED_EPOCHS, SERVED_VERTICES
from edgebpf.programs import Program, argument_of, command, said_lines

# The vertices of a run get what its other words leave of a line of a script.
FRONTIER_BYTES = MOST_LINE_BYTES - 2_000
# So many numbers of a column, each of up to 20 digits, fit into a line.
NUMBERS_OF_LINE = 3_500
REDUCTIONS: dict[str, tuple[int, Any]] = {"sum": (0, np.add), "min": (2**64 - 1, np.minimum), "max": (0, np.maximum)}
CHUNK = 1 << 20
NO_MEMORY_LINES = ("edgebpf: memory", "edgebpf: worker")


@dataclasses.dataclass(frozen=True)
class Counts:
    """What a batch did: the number of the version that it made, which counts batches since the last rebase, and how many edges it added
    and removed."""

    version: int
    added: int
    removed: int


@dataclasses.dataclass(frozen=True, init=False)
class Result:
    """What a run gave. `values` is a uint64 array with one number for each vertex of the frontier, `edges` the number of runs, and
    `total` the reduction of all numbers. A vertex without neighbours has 0, and 2^64 - 1 for `min`."""

    values: Numbers
    edges: int
    total: int

    def __init__(self, values: Numbers, edges: int, total: int) -> None:
        # Each short run makes one. The class would set these in twice the time.
        own = self.__dict__
        own["values"], own["edges"], own["total"] = values, edges, total


class Pushed(NamedTuple):
    """What a push gave beside what it wrote: the number of runs, the reduction of all their numbers, and, if that was asked for, the
    vertices whose value is another than before, ascending."""

    edges: int
    total: int
    changed: Vertices | None = None


class Given(NamedTuple):
    """What a command that writes a column is given beside its program, reduction and frontier."""

    argument: bytes
    columns: Columns
    into: Numbers
    changed: bool


class Visited(NamedTuple):
    """What `each` gave beside what it wrote: the number of runs, the reduction of all their numbers, and, if that was asked for, the
    vertices whose value is another than before, ascending."""

    vertices: int
    total: int
    changed: Vertices | None = None


def described(version: Any, is_closed: bool) -> str:
    """What `repr` says of a version."""
    about = f"epoch {version.epoch}, number {version.number}, {version.vertices} vertices, {version.edges} edges"
    return f"<edgebpf.Version: {about}{', closed' if is_closed else ''}>"


class Process:
    """The `edgebpf` process of a store. One command at a time is under way."""

    def __init__(self, words: Sequence[str]) -> None:
        self.lock = threading.Lock()
        # Between commands a Ctrl-C at the terminal leaves edgebpf and its graph as they are.
        self.child = subprocess.Popen(
            words, stdin=subprocess.PIPE, stdout=subprocess.PIPE, stderr=subprocess.PIPE, start_new_session=True,
        )
        self.input, self.output = cast(IO[bytes], self.child.stdin), cast(io.BufferedReader, self.child.stdout)
        self.errors = cast(IO[bytes], self.child.stderr)

    def ask(self, text: bytes, has_rows: bool = False) -> tuple[list[str], bytes]:
        """The first line of the answer as words, and the rest as bytes if it has rows. If it is interrupted, the process ends: the
        rest of the answer would be taken for the next one."""
        with self.lock:
            if self.input.closed:
                raise Closed("the store is closed")
            try:
                return self.answer(text, has_rows)
            except Error:
                raise
            except BaseException:
                self.child.kill()
                self.close()
                raise

    def check(self) -> None:
        """Raises `Closed` if the process has ended. It asks nothing of the process, and does not wait for what is under way there."""
        if self.input.closed:
            raise Closed("the store is closed")
        if self.child.poll() is not None:
            raise Closed(f"edgebpf has ended with status {self.child.returncode}")

    def answer(self, text: bytes, has_rows: bool) -> tuple[list[str], bytes]:
        try:
            # The answer to one question more says that the rows have ended.
            self.input.write(text + (b"home 0\n" if has_rows else b""))
            self.input.flush()
        except BrokenPipeError:
            raise self.ended() from None
        head = self.output.readline()
        if not head or head.startswith(b"fault "):
            raise self.ended(head)
        return head.decode().split(), self.rows() if has_rows else b""

    def rows(self) -> bytes:
        parts, tail = [], b""
        while not (tail.startswith(b"home 0 ") or b"\nhome 0 " in tail) or not tail.endswith(b"\n"):
            part = self.output.read1(CHUNK)
            if not part:
                raise self.ended()
            parts.append(part)
            # As many bytes as hold the last line, wherever a read has cut it.
            tail = (tail + part)[-200:]
        text = b"".join(parts)
        return text[:text.rfind(b"home 0 ")]

    def ended(self, said: bytes = b"") -> Error:
        """The error of a process that has ended: what it said, or by which signal or with which status it ended."""
        words = said_lines(said or self.errors.read())
        self.close()
        status = self.child.returncode
        if status < 0:
            how = f"by signal {-status}, {signal.Signals(-status).name}{', which the system sends if memory is short' if status == -signal.SIGKILL else ''}"
            return Closed(f"edgebpf has ended {how}" + (f": {words}" if words else ""))
        return (NoMemory if words in NO_MEMORY_LINES else Closed)(f"edgebpf has ended: {words or f'with status {status}'}")

    def close(self) -> None:
        if not self.input.closed:
            try:
                self.input.close()
            except BrokenPipeError:
                pass
        self.child.wait()
        self.output.close()
        self.errors.close()


class Store(KeptHere):
    """A graph that is edited by batches. Made by `connect`; may be used by several threads, and is a context manager."""

    _called, _instead = "a store", ", which has its edgebpf"

    def __init__(self, process: Process, vertices: int) -> None:
        self._process, self.vertices = process, vertices
        # Held while something is published, pinned or loaded, so that what is kept here is what the process has.
        self._turn = threading.Lock()
        # Held while a run is lent columns, which have the same names each time.
        self._lending = threading.Lock()
        # How many rebases there were, and how many batches since the last one.
        self._epoch, self._batches = 0, 0
        self._pins, self._names = 0, itertools.count()
        # The last pin: its name, epoch, number and edges.
        self._last: tuple[str, int, int, int] | None = None
        self._programs: dict[object, str] = {}
        process.ask(f"graph {vertices}\n".encode())

    def batch(
        self, feed: str = "A", inserts: Edges = ((), ()), removes: Edges = ((), ()), edges: Pairs | None = None,
    ) -> Counts:
        """Publishes one batch by feed "A", "B", "C" or "D", and returns its `Counts`.

        inserts, removes: pairs of arrays (sources, targets), each of whole numbers below `vertices`. edges: an (n, 2) array or a list
        of pairs, inserted too. Insertions are applied before removals. Raises `TooManyEdits`, `VertexRange` and `LogFull`; then
        nothing was published.
        """
        return self._edited(feed, *edits_of_batch(inserts, removes, edges, self.vertices))

    def apply(
        self, sources: npt.ArrayLike = (), targets: npt.ArrayLike = (), removes: npt.ArrayLike | None = None, feed: str = "A", *,
        edges: Pairs | None = None,
    ) -> Counts:
        """Publishes one batch whose edits are in their order: where two name the same edge, the later one decides.

        sources, targets: arrays of whole numbers below `vertices`; or edges: an (n, 2) array or a list of pairs in their place.
        removes: for each edit whether its edge is taken out; None puts all in. Raises what `batch` raises.
        """
        return self._edited(feed, *edits_of(sources, targets, removes, edges, self.vertices))

    def _edited(self, feed: str, sources: Vertices, targets: Vertices, marks: npt.NDArray[np.uint8]) -> Counts:
        """Publishes a batch."""
        feed = FEEDS[feed_of(feed)]
        if len(sources) > MOST_EDITS:
            raise TooManyEdits(f"{len(sources)} edits; a batch has at most {MOST_EDITS}")
        edits = zip(marks.tolist(), sources.tolist(), targets.tolist())
        lines = [f"{'-' if mark else '+'} {source} {target}\n" for mark, source, target in edits]
        with self._turn:
            if self._batches >= MOST_BATCHES:
                raise LogFull(f"{MOST_BATCHES} batches were published since the last rebase")
            # Before it is sent: an interrupt may come before it is counted.
            self._last = None
            words, _ = self._process.ask(f"batch {feed}\n{''.join(lines)}end\n".encode())
            self._batches = int(words[3])
        return Counts(int(words[3]), int(words[5]), int(words[7]))

    def rebase(self) -> int:
        """Forgets the batches that made the last version, and returns how many rebases there were. The graph stays as it is, and version
        numbers begin again: there is room for 4,096 batches more. A version that was pinned before keeps its batches until the store is
        closed. Raises `EpochsFull` after 1,024 rebases; then nothing was changed."""
        with self._turn:
            if self._epoch >= SERVED_EPOCHS:
                raise EpochsFull(f"{SERVED_EPOCHS} rebases were made")
            self._last = None
            words, _ = self._process.ask(b"rebase\n")
            self._epoch, self._batches = int(words[2]), 0
            return self._epoch

    def pin(self) -> Version:
        """The last version. It stays as it is while batches come. A process keeps at most 256 versions (`TooManyNames`). Raises `Closed`
        also of a version that was pinned before, once the process has ended."""
        with self._turn:
            last = self._last
            if last is None:
                if self._pins >= MOST_KEPT:
                    raise TooManyNames(f"the process keeps at most {MOST_KEPT} pinned versions")
                self._pins += 1
                name = f"v{next(self._names)}"
                words, _ = self._process.ask(f"pin {name}\n".encode())
                self._last = last = name, self._epoch, int(words[3]), int(words[5])
            else:
                self._process.check()
            return Version(self, *last)

    @contextlib.contextmanager
    def _lent(self, columns: list[Numbers]) -> Iterator[list[str]]:
        """The names under which the process has columns meanwhile. Each has the numbers that it has now."""
        if not columns:
            yield []
            return
        with self._lending:
            names = [f"c{place}" for place in range(len(columns))]
            for name, numbers in zip(names, columns):
                for first in range(0, len(numbers), NUMBERS_OF_LINE):
                    words = " ".join(map(str, numbers[first:first + NUMBERS_OF_LINE].tolist()))
                    self._process.ask(f"column {name} {first} {words}\n".encode())
            yield names

    def _name_of(self, program: Program) -> str:
        """The name under which the process has a program; it is loaded at its first use."""
        if not isinstance(program, Program):
            raise TypeError("a program is made by Program, assemble or compile_c")
        with self._turn:
            if program._same not in self._programs:
                if len(self._programs) >= MOST_KEPT:
                    raise TooManyNames(f"the process keeps at most {MOST_KEPT} programs")
                name = f"p{next(self._names)}"
                words, _ = self._process.ask(program._lines(name))
                if words[0] != "program":
                    raise Error(f"edgebpf did not load the program: {' '.join(words)}")
                self._programs[program._same] = name
            return self._programs[program._same]

    def __repr__(self) -> str:
        return f"<edgebpf.Store: {self.vertices} vertices, in process {self._process.child.pid}{', closed' if self._process.input.closed else ''}>"

    def close(self) -> None:
        """Ends the process, and with it the graph and its versions. May be called twice."""
        self._process.close()

    def __enter__(self) -> Store:
        return self

    def __exit__(self, *_: object) -> None:
        self.close()


class Version(KeptHere):
    """A version of a store's graph. `epoch` is how many rebases there were before it, `number` how many batches there were since then,
    `vertices` and `edges` how large it is, and `len` gives the vertices."""

    _called, _instead = "a version", "; csr() has its edges"

    def __init__(self, store: Store, name: str, epoch: int, number: int, edges: int) -> None:
        self._store, self._name, self.epoch, self.number, self.edges = store, name, epoch, number, edges
        self.vertices = store.vertices
        self._csr: tuple[npt.NDArray[np.int64], Vertices] | None = None
        self._is_closed = False

    def run(
        self, program: Program, reduction: str = "sum", frontier: npt.ArrayLike | None = None, argument: bytes = b"", *,
        columns: Columns = NO_COLUMNS, seconds: float | None = None, threads: int = 1,
    ) -> Result:
        """Runs a program for each edge of some vertices, and reduces the numbers.

        reduction: "sum" (modulo 2^64), "min" or "max". frontier: an ascending array of vertices, or None for all.
        argument: as many bytes as the program's record has beyond 16, and beyond 16 for each column. columns: arrays of uint64 with a number
        for each vertex, which are sent to the process each time. A limit by `seconds` and `threads` of this process are `NotHere`.
        """
        if seconds is not None or threads_of(threads) > 1:
            raise NotHere("an edgebpf process has no limit of time, and workers of its own: pass them to connect, or use edgebpf.Store")
        start, combine = REDUCTIONS[reduction_of(reduction)]
        lent = columns_of(columns, self.vertices)
        digits = self._argument(program, argument, len(lent))
        found, edges, total = [np.empty((0, 2), np.uint64)], 0, start
        with self._store._lent(lent) as names:
            for words in self._parts(frontier):
                rows, some, part = self._part(program, reduction, digits, names, words)
                found.append(rows)
                edges, total = edges + some, int(combine(np.uint64(total), np.uint64(part)))
        chosen = np.arange(self.vertices, dtype=np.uint32) if frontier is None else self._ascending(frontier)
        return Result(self._filled(chosen, np.concatenate(found), start), edges, total)

    def _parts(self, frontier: npt.ArrayLike | None) -> Iterable[str]:
        """The vertices of a frontier as words of lines; no word stands for all vertices."""
        return [""] if frontier is None else frontier_parts(self._ascending(frontier))

    def _ascending(self, frontier: npt.ArrayLike) -> Vertices:
        chosen = vertices_of(frontier, self.vertices, "frontier")
        if np.any(chosen[1:] <= chosen[:-1]):
            raise ValueError("a frontier ascends, and has no vertex twice")
        return chosen

    def numbers(
        self, program: Program, argument: bytes = b"", frontier: npt.ArrayLike | None = None, *, columns: Columns = NO_COLUMNS,
        seconds: float | None = None,
    ) -> Numbers:
        """The number of each edge, a uint64 array in the order of `csr`. A `frontier`, `columns` and a limit by `seconds` are `NotHere`."""
        if frontier is not None or columns is not NO_COLUMNS or seconds is not None:
            raise NotHere("an edgebpf process gives the numbers of all edges, without columns or a limit of time: use edgebpf.Store")
        return self._list(program, argument)[:, 2]

    def begin(self, *_: Any, **__: Any) -> NoReturn:
        """Raises `NotHere`."""
        raise NotHere("an edgebpf process makes no runs in steps: use edgebpf.Store")

    begin_numbers = begin_pairs = begin_push = begin

    def push(
        self, program: Program, reduction: str = "sum", frontier: npt.ArrayLike | None = None, argument: bytes = b"", *, into: Numbers,
        columns: Columns = NO_COLUMNS, changed: bool = False, seconds: float | None = None,
    ) -> Pushed:
        """Runs a program for each edge of some vertices, and reduces the number of each edge into the value of its target.

        into: an array of uint64 with a value for each vertex of the graph, which is written in place; a vertex to which none of the edges
        leads keeps its value. It is sent to the process and back, as the columns are sent. changed: tells which vertices have another value
        than before. The others are as for `run`.
        """
        if seconds is not None:
            raise NotHere("an edgebpf process has no limit of time: use edgebpf.Store")
        edges, total, others = self._written("push", program, reduction, frontier, Given(argument, columns, into, changed))
        return Pushed(edges, total, others)

    def each(
        self, program: Program, reduction: str = "sum", frontier: npt.ArrayLike | None = None, argument: bytes = b"", *, into: Numbers,
        columns: Columns = NO_COLUMNS, changed: bool = False,
    ) -> Visited:
        """Runs a program once for each vertex of a frontier, on the record of the pair of the vertex with itself, whose number becomes the
        vertex's value.

        Source and target are the vertex, and so are both numbers of a column; the place is that of the edge from the vertex to itself, or
        the degree without one. into: as for `push`; what is not of the frontier keeps its value. reduction: of all the numbers, for the total.
        """
        return Visited(*self._written("each", program, reduction, frontier, Given(argument, columns, into, changed)))

    def _written(
        self, command: str, program: Program, reduction: str, frontier: npt.ArrayLike | None, given: Given,
    ) -> tuple[int, int, Vertices | None]:
        """Sends a command that writes a column: how many runs it made, their total, and where a value is another one, if that was asked for."""
        start, combine = REDUCTIONS[reduction_of(reduction)]
        lent = columns_of(given.columns, self.vertices)
        values, digits, runs, total = values_into(given.into, self.vertices, lent), self._argument(program, given.argument, len(lent)), 0, start
        name, parts, before = self._store._name_of(program), list(self._parts(frontier)), values.copy()
        with self._store._lent([*lent, values]) as names:
            *read, written = names
            run = f"{command} {name} {self._name} {reduction} {digits} {','.join(read) or '-'} {written}"
            for number, words in enumerate(parts, 1):
                # The last of them is asked for the values, too.
                is_last = number == len(parts)
                text = f"{run}{words}\n" + (f"values {written}\n" if is_last else "")
                head, rows = self._store._process.ask(text.encode(), has_rows=is_last)
                runs, total = runs + int(head[4]), int(combine(np.uint64(total), np.uint64(int(head[6]))))
                if is_last:
                    shown = numbers_in(rows, b"value ", 2)
                    values.fill(0)
                    values[shown[:, 0].astype(np.int64)] = shown[:, 1]
        return runs, total, np.flatnonzero(before != values).astype(np.uint32) if given.changed else None

    def pairs(self, *_: Any, **__: Any) -> NoReturn:
        """Raises `NotHere`."""
        raise NotHere("an edgebpf process gives no numbers of pairs: use edgebpf.Store")

    def csr(self) -> tuple[npt.NDArray[np.int64], Vertices]:
        """All edges: `starts`, an int64 array of `vertices` + 1 places, and `targets`, a uint32 array, ascending for each source. Both
        are read-only, for `scipy.sparse.csr_array((ones, targets, starts))`."""
        self._open()
        if self._csr is None:
            edges = self._list(zero_program(), b"")
            degrees = np.bincount(edges[:, 0].astype(np.int64), minlength=self.vertices)
            starts = np.concatenate((np.zeros(1, np.int64), np.cumsum(degrees)))
            targets = edges[:, 1].astype(np.uint32)
            self._csr = frozen(starts), frozen(targets)
        return self._csr

    def to_scipy(self, dtype: npt.DTypeLike = np.float64) -> Any:
        """The graph as a `scipy.sparse.csr_array` with a one for each edge, for `scipy.sparse.csgraph` and products."""
        return adapters.to_scipy(self, dtype)

    def to_igraph(self, directed: bool = True) -> Any:
        """The graph as an `igraph.Graph`. directed: False makes one edge of each two that lead back and forth, and raises
        `algorithms.NotMirrored` if one leads only forth."""
        return adapters.to_igraph(self, directed)

    def to_networkx(self, directed: bool = True) -> Any:
        """The graph as a `networkx.DiGraph`, or as a `networkx.Graph`, for which the same holds."""
        return adapters.to_networkx(self, directed)

    def neighbours(self, vertex: int) -> Vertices:
        """The targets of a vertex, ascending: a read-only uint32 view of `csr`, which the first question for edges makes."""
        number, (starts, targets) = vertex_of(vertex, self.vertices), self.csr()
        return targets[starts[number]:starts[number + 1]]

    def degree(self, vertex: int) -> int:
        """How many targets a vertex has."""
        return len(self.neighbours(vertex))

    def degrees(self, frontier: npt.ArrayLike | None = None) -> Vertices:
        """How many targets each vertex of a frontier has, or of the graph, as a uint32 array."""
        degrees = np.diff(self.csr()[0]).astype(np.uint32)
        return degrees if frontier is None else degrees[vertices_of(frontier, self.vertices, "frontier")]

    def lists(self, frontier: npt.ArrayLike) -> tuple[npt.NDArray[np.int64], Vertices]:
        """The targets of the vertices of a frontier: those of the vertex at place `i` of it are `targets[starts[i]:starts[i + 1]]`, ascending.
        `starts` is an int64 array of one place more than the frontier, and `targets` a uint32 array."""
        if frontier is None:
            raise TypeError("frontier is an array of vertices; the lists of all are csr()")
        chosen, (starts, targets) = vertices_of(frontier, self.vertices, "frontier"), self.csr()
        ends = np.concatenate((np.zeros(1, np.int64), np.cumsum(np.diff(starts)[chosen])))
        parts = [targets[starts[vertex]:starts[vertex + 1]] for vertex in chosen.tolist()]
        return ends, np.concatenate(parts) if parts else np.empty(0, np.uint32)

    def has_edge(self, source: int, target: int) -> bool:
        """Whether there is an edge from `source` to `target`."""
        own, wanted = self.neighbours(vertex_of(source, self.vertices, "source")), vertex_of(target, self.vertices, "target")
        place = int(np.searchsorted(own, wanted))
        return place < len(own) and int(own[place]) == wanted

    def neighbour(self, vertex: int, place: int) -> int:
        """The target at a place, from 0, of a vertex. Raises `IndexError` if the vertex has none there."""
        own, asked = self.neighbours(vertex), whole(place, "place")
        if not 0 <= asked < len(own):
            raise IndexError(f"vertex {vertex} has no neighbour at place {asked}")
        return int(own[asked])

    def share(self) -> Version:
        """The same version once more, which stays when this one is closed."""
        self._open()
        return copy.copy(self)

    def __len__(self) -> int:
        return self.vertices

    def __repr__(self) -> str:
        return described(self, self._is_closed)

    def _open(self) -> None:
        if self._is_closed:
            raise Closed("the version is closed")

    def close(self) -> None:
        """Gives the version up: no run is made on it from now on. The process keeps it until the store is closed."""
        self._is_closed = True

    def __enter__(self) -> Version:
        return self

    def __exit__(self, *_: object) -> None:
        self.close()

    def _argument(self, program: Program, argument: bytes, columns: int = 0) -> str:
        self._open()
        if not isinstance(program, Program):
            raise TypeError("a program is made by Program, assemble or compile_c")
        return argument_of(program, argument, columns).hex() or "-"

    def _part(self, program: Program, reduction: str, argument: str, columns: list[str], vertices: str) -> tuple[Numbers, int, int]:
        name = self._store._name_of(program)
        command, lent = ("pull", f" {','.join(columns)} -") if columns else ("run", "")
        text = f"{command} {name} {self._name} {reduction} {argument}{lent}{vertices}\n"
        words, rows = self._store._process.ask(text.encode(), has_rows=True)
        return numbers_in(rows, b"row ", 2), int(words[4]), int(words[6])

    def _list(self, program: Program, argument: bytes) -> Numbers:
        digits = self._argument(program, argument)
        name = self._store._name_of(program)
        _, rows = self._store._process.ask(f"list {name} {self._name} {digits}\n".encode(), has_rows=True)
        return numbers_in(rows, b"edge ", 3)

    def _filled(self, frontier: Vertices, rows: Numbers, start: int) -> Numbers:
        """One number for each vertex of a frontier, where only some have a row."""
        values = np.full(len(frontier), start, np.uint64)
        values[np.searchsorted(frontier, rows[:, 0].astype(np.uint32))] = rows[:, 1]
        return values


def numbers_in(rows: bytes, word: bytes, columns: int) -> Numbers:
    """The numbers of lines that begin with a word."""
    return np.fromstring(rows.replace(word, b"").decode(), np.uint64, sep=" ").reshape(-1, columns)


def frontier_parts(frontier: Vertices) -> Iterator[str]:
    """The vertices of a frontier as words, each part short enough for a line. An empty frontier has no part."""
    part: list[str] = []
    size = 0
    for vertex in map(str, frontier.tolist()):
        if size + len(vertex) + 1 > FRONTIER_BYTES:
            yield " " + " ".join(part)
            part, size = [], 0
        part.append(vertex)
        size += len(vertex) + 1
    if part:
        yield " " + " ".join(part)


@functools.cache
def zero_program() -> Program:
    """The program that returns 0 for each edge: by it edges are listed."""
    return Program(bytes.fromhex("b7000000000000009500000000000000"))


def connect(vertices: int, workers: int = 1, program: str | None = None) -> Store:
    """Starts an `edgebpf` process with a graph of `vertices` vertices and no edge, and returns its `Store`.

    vertices: 1 to 1,048,576. workers: 1 to 16 threads that apply batches and make runs. program: the path of `edgebpf`; by default the
    variable EDGEBPF, the checkout's launcher, or what is on PATH.
    """
    vertices, workers = vertex_count(vertices, SERVED_VERTICES), whole(workers, "workers")
    if not 1 <= workers <= 16:
        raise ValueError("there are 1 to 16 workers")
    return Store(Process([program or command("edgebpf"), "--workers", str(workers)]), vertices)

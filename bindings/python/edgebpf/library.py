"""The library `libedgebpf.so` by cffi. A call releases the interpreter's lock. No handle is used by two calls at once: that of a store is
used under its lock, and of a version or a program each thread has its own."""
from __future__ import annotations

import ctypes.util
import functools
import importlib.util
import os
import pathlib
import subprocess
import threading
from collections.abc import Callable
from typing import Any

import numpy.typing as npt

from edgebpf.errors import ArgumentLength, Closed, EpochsFull, Error, LogFull, NoMemory, TooManyEdits, VertexRange
from edgebpf.limits import (
    COLUMN_BYTES, EDGE_BYTES, LEAST_RECORD_LENGTH, MOST_BATCHES, MOST_COLUMNS, MOST_EDITS, MOST_RECORD_LENGTH, MOST_TABLE_LENGTH, MOST_UNITS,
)

cffi: Any = importlib.import_module("cffi") if importlib.util.find_spec("cffi") else None

HERE = pathlib.Path(__file__).resolve()
# A package that lies near the root has fewer folders above it.
DIST = HERE.parent.parent.parent.parent / "dist"
NAME = "libedgebpf.so"
# What is compiled beside a library's text.
BESIDE = ("processor.h", "choose_library.c", *(f"../bindings/c/{name}" for name in ("heap.c", "edgebpf.h", "edgebpf_algorithms.h")))
# The number of the library's interface that this package calls, as dist/link has it.
INTERFACE = 1
DONE, NO_MEMORY, EMPTY = 0, 1, 2
VERTEX_RANGE, TOO_MANY_EDITS, LOG_FULL, LENGTHS, REFUSED, RECORD_LENGTH, CODE_LENGTH, ARGUMENT_LENGTH, WRONG_TEXT = 5, 6, 7, 9, 10, 11, 12, 13, 15
NO_NEIGHBOUR, EPOCHS_FULL, TABLE_LENGTH, COLUMNS, PROGRESS, NOT_SORTED = 16, 17, 18, 19, 20, 21
# The last call that was added to the interface: a library without it is of an older release.
NEWEST = "edgebpf_is_independent_set"
ERRORS: dict[int, tuple[type[Exception], str]] = {
    NO_MEMORY: (NoMemory, "there is no memory; nothing was changed"),
    EMPTY: (Closed, "it is closed"),
    VERTEX_RANGE: (VertexRange, "a vertex is not in the graph"),
    TOO_MANY_EDITS: (TooManyEdits, f"a batch has at most {MOST_EDITS:,} edits"),
    LOG_FULL: (LogFull, f"{MOST_BATCHES:,} batches were applied since the last rebase"),
    NO_NEIGHBOUR: (IndexError, "the vertex has no neighbour at this place"),
    EPOCHS_FULL: (EpochsFull, "as many rebases were made as 64 bits count"),
    RECORD_LENGTH: (ValueError, f"a record has {LEAST_RECORD_LENGTH} to {MOST_RECORD_LENGTH} bytes"),
    CODE_LENGTH: (ValueError, f"code has 1 to {MOST_UNITS:,} whole units of 8 bytes"),
    TABLE_LENGTH: (ValueError, f"a table has at most {MOST_TABLE_LENGTH:,} bytes"),
    ARGUMENT_LENGTH: (
        ArgumentLength, f"the argument does not have the record's length less {EDGE_BYTES} bytes, and less {COLUMN_BYTES} for each column"),
    COLUMNS: (ValueError, f"there are at most {MOST_COLUMNS} columns, each with a number for each vertex"),
    NOT_SORTED: (
        ValueError, "the arrays are not sorted: starts ascend from 0 to the number of targets, and the targets of each vertex ascend"),
    PROGRESS: (Error, "the progress names no place of this frontier"),
}
# What bindings/c/edgebpf.h declares, as far as this package calls it. A slice is two numbers here, its address and its length.
DECLARATIONS = f"""
void edgebpf_interface_{INTERFACE}(void);
typedef struct {{ void *at; }} handle;
typedef struct {{ uint64_t added, removed, number; }} change;
typedef struct {{ uint64_t number, edges, epoch; uint32_t vertices; }} info;
typedef struct {{ uint32_t bound, frames, cause, pc; }} verdict;
typedef struct {{ size_t length, line; uint32_t cause; }} assembled;
typedef struct {{ uint64_t budget, edges, total; uint32_t vertex, place; }} progress;
typedef struct {{ const uint64_t *at; size_t count; }} column;
uint32_t edgebpf_store_new(uint32_t, handle *);
uint32_t edgebpf_store_of(handle *, handle *);
uint32_t edgebpf_store_from(uint32_t, const uint64_t *, size_t, const uint32_t *, size_t, handle *);
uint32_t edgebpf_store_apply(handle *, uint8_t, const uint32_t *, size_t, const uint32_t *, size_t, const uint8_t *, size_t, change *);
uint32_t edgebpf_store_rebase(handle *, uint64_t *);
uint32_t edgebpf_store_pin(handle *, handle *);
uint32_t edgebpf_version_share(handle *, handle *);
uint32_t edgebpf_version_info(handle *, info *);
uint32_t edgebpf_version_degree(handle *, uint32_t, uint32_t *);
uint32_t edgebpf_version_has_edge(handle *, uint32_t, uint32_t, uint32_t *);
uint32_t edgebpf_version_neighbour(handle *, uint32_t, uint32_t, uint32_t *);
uint32_t edgebpf_version_lend(handle *, uint32_t, size_t *, size_t, size_t *);
uint32_t edgebpf_version_copy(handle *, uint64_t *, size_t, uint32_t *, size_t);
uint32_t edgebpf_version_degrees(handle *, const uint32_t *, size_t, uint32_t *, size_t);
uint32_t edgebpf_version_lists(handle *, const uint32_t *, size_t, uint64_t *, size_t, uint32_t *, size_t, size_t *);
uint32_t edgebpf_is_search(handle *, uint32_t, const uint32_t *, size_t, const uint32_t *, size_t, uint32_t *);
uint32_t edgebpf_are_components(handle *, const uint32_t *, size_t, const uint32_t *, size_t, const uint32_t *, size_t, uint32_t *);
uint32_t edgebpf_are_cores(handle *, const uint32_t *, size_t, const uint32_t *, size_t, uint32_t *);
uint32_t edgebpf_is_independent_set(handle *, const uint8_t *, size_t, uint32_t *);
uint32_t edgebpf_program_new(uint16_t, const uint8_t *, size_t, const uint8_t *, size_t, verdict *, handle *);
uint32_t edgebpf_program_share(handle *, handle *);
uint32_t edgebpf_assemble(const uint8_t *, size_t, uint8_t *, size_t, assembled *);
uint32_t edgebpf_explain(uint16_t, const uint8_t *, size_t, const uint8_t *, size_t, uint8_t *, size_t, size_t *);
uint32_t edgebpf_pull_some(
    handle *, handle *, const uint8_t *, size_t, const column *, size_t, const uint32_t *, size_t, uint32_t, progress *, uint64_t *, size_t);
uint32_t edgebpf_push_some(
    handle *, handle *, const uint8_t *, size_t, const column *, size_t, const uint32_t *, size_t, uint32_t, progress *, uint64_t *, size_t);
uint32_t edgebpf_numbers_of(
    handle *, handle *, const uint8_t *, size_t, const column *, size_t, const uint32_t *, size_t, progress *, uint64_t *, size_t, size_t *);
uint32_t edgebpf_pairs_of(
    handle *, handle *, const uint8_t *, size_t, const column *, size_t, const uint32_t *, size_t, const uint32_t *, size_t, progress *,
    uint64_t *, size_t);
void edgebpf_close(handle *);
"""
# Held while the types of calls are made: those of one making are not those of another.
MAKING = threading.Lock()


def in_checkout(name: str = "libedgebpf", source: pathlib.Path = DIST / "libedgebpf.s") -> str | None:
    """A library of the checkout's `dist/`, which the C compiler builds at the first use; None where there is no checkout or compiler."""
    # The texts for other processors have the library's name before a hyphen.
    built, beside = DIST / "build" / f"{name}.so", filter(os.path.isfile, (DIST / file for file in BESIDE))
    parts = [source, DIST / "link", *DIST.glob(f"{name}-*.s"), *beside]
    # Path.is_file raises an error where a folder may not be read.
    if not all(map(os.path.isfile, parts)):
        return None
    if not os.path.isfile(built) or built.stat().st_mtime < max(part.stat().st_mtime for part in parts):
        try:
            built.parent.mkdir(exist_ok=True)
            # It would build for the machine that this variable names.
            here = {word: value for word, value in os.environ.items() if word != "MACHINE"}
            subprocess.run([DIST / "link", name, built], check=True, capture_output=True, env=here)
        except (OSError, subprocess.CalledProcessError):
            return None
    return str(built)


@functools.cache
def path() -> str | None:
    """Where the library is: what EDGEBPF_LIBRARY names, else beside this package, else of the checkout, else one that is installed. None
    where there is none, or no cffi."""
    if cffi is None:
        return None
    if named := os.environ.get("EDGEBPF_LIBRARY"):
        return named
    beside = HERE.parent / NAME
    if os.path.isfile(beside):
        return str(beside)
    # Where Debian's Python has packages, the libraries lie three folders above.
    installed = HERE.parents[min(3, len(HERE.parents) - 1)] / f"{NAME}.{INTERFACE}"
    return in_checkout() or (str(installed) if os.path.isfile(installed) else ctypes.util.find_library("edgebpf"))


@functools.cache
def foreign() -> Any:
    """The types of the library's calls, the same for all threads, also where some ask for them first at the same time."""
    with MAKING:
        return made_foreign()


@functools.cache
def made_foreign() -> Any:
    types = cffi.FFI()
    types.cdef(DECLARATIONS)
    return types


@functools.cache
def kind(name: str) -> Any:
    """A C type by its name."""
    return foreign().typeof(name)


def new(name: str) -> Any:
    """A value of a C type, all of whose bytes are 0."""
    return foreign().new(kind(name))


@functools.cache
def load() -> Any:
    """The library, whose calls are its attributes."""
    if cffi is None:
        raise Error("the Python package cffi is not there: apt-get install python3-cffi, or use edgebpf.connect")
    found = path()
    if found is None:
        raise Error(f"{NAME} is not there: install edgebpf, or run make -C dist in a checkout, or name the library by EDGEBPF_LIBRARY")
    try:
        library = foreign().dlopen(found)
    except OSError as error:
        raise Error(f"{found} cannot be loaded: {error}") from None
    if not hasattr(library, f"edgebpf_interface_{INTERFACE}"):
        raise Error(f"{found} is no {NAME}.{INTERFACE}, which this package needs: take edgebpf and the package of one release")
    if not hasattr(library, NEWEST):
        raise Error(f"{found} is older than this package, and lacks {NEWEST}: take edgebpf and the package of one release")
    return library


def check(status: int) -> None:
    """Raises the error of a status that is not 0."""
    if status != DONE:
        error, words = ERRORS.get(status, (Error, f"the library answered {status}"))
        raise error(words)


class Handle:
    """What the library hands out. It is let go with the last object that refers to it. Of a version it keeps the memory in which the slices
    of one list after another are told."""

    __slots__ = ("at", "room")

    def __init__(self) -> None:
        here = calls()
        self.at = here.keep(here.new(here.handle), here.close)
        self.room: tuple[Any, Any, memoryview] | None = None


class Shared:
    """A thing of the library, with a handle for each thread that uses it, so that no call waits for another. The handles of a thread are let
    go when it ends, and all with this object. `share` is the library's call that makes one handle of another."""

    __slots__ = ("first", "_share", "_lock", "_own")
    _own: threading.local

    def __init__(self, first: Handle, share: Callable[[Any, Any], int]) -> None:
        # Most versions are pinned and used by one thread, so `_own` is made at the first use.
        self.first, self._share, self._lock = first, share, threading.Lock()

    def another(self) -> Handle:
        """A new handle. Of the first one handles are made, and nothing else is asked."""
        made = Handle()
        with self._lock:
            check(self._share(self.first.at, made.at))
        return made

    def own(self) -> Handle:
        """The handle of this thread."""
        try:
            return self._own.handle  # type: ignore[no-any-return]
        except AttributeError:
            made = self.another()
            with self._lock:
                if not hasattr(self, "_own"):
                    self._own = threading.local()
            self._own.handle = made
            return made


class Calls:
    """What the calls that are made most often need, looked up once."""

    def __init__(self) -> None:
        library, types = load(), foreign()
        self.new, self.buffer, self.keep, self.close = types.new, types.from_buffer, types.gc, library.edgebpf_close
        self.bytes_of = types.buffer
        self.bytes, self.words, self.numbers = kind("uint8_t[]"), kind("uint32_t[]"), kind("uint64_t[]")
        self.progress, self.size, self.sizes = kind("progress *"), kind("size_t *"), kind("size_t[]")
        self.handle, self.info = kind("handle *"), kind("info *")
        self.pull_some, self.numbers_of, self.pairs_of = library.edgebpf_pull_some, library.edgebpf_numbers_of, library.edgebpf_pairs_of
        self.push_some = library.edgebpf_push_some
        self.column = kind("column[]")
        self.no_columns = self.new(self.column, 1), 0
        self.lend, self.pin = library.edgebpf_version_lend, library.edgebpf_store_pin
        self.share_version, self.describe = library.edgebpf_version_share, library.edgebpf_version_info

    def room(self, slices: int) -> tuple[Any, Any]:
        """Memory for so many slices, each of which is an address and a length, and for how many there are."""
        lent = self.new(self.sizes, 2 * slices + 1)
        return lent, lent + 2 * slices

    def read_often(self, slices: int) -> tuple[Any, Any, memoryview]:
        """The same, and its numbers, which are read sooner from there."""
        lent, count = self.room(slices)
        return lent, count, memoryview(self.bytes_of(lent)).cast("B").cast("N")

    def columns(self, arrays: list[npt.NDArray[Any]]) -> tuple[Any, int]:
        """What a call takes for columns, an array and how many they are. The arrays have to stay until it has returned."""
        if not arrays:
            return self.no_columns
        lent = self.new(self.column, len(arrays))
        for place, array in enumerate(arrays):
            lent[place].at, lent[place].count = self.buffer(self.numbers, array), len(array)
        return lent, len(arrays)


@functools.cache
def calls() -> Calls:
    return Calls()

"""Stores of files of edges, which the modules beside `edgebpf-import` read and sort."""
from __future__ import annotations

import contextlib
import io
import os
import types
import warnings
from collections.abc import Iterator
from typing import Any

import numpy as np

from edgebpf.beside import module
from edgebpf.errors import NoMemory
from edgebpf.given import vertex_count, whole
from edgebpf.limits import MOST_EDITS, MOST_VERTICES
from edgebpf.native import Store

TOOLS = "edgebpf_tools"
# Sorted edges beyond so many bytes lie in a file.
MEMORY = 1 << 30
# The log of so many batches has 50 MB.
REBASE_BATCHES = 64
# What the reader calls an option is an argument here.
OPTIONS = {
    "--rectangular same": 'rectangular="same"', "--rectangular apart": 'rectangular="apart"', "--skip 1": "skip=1", "--names": "names=True",
    "--base": "base",
}


def reader() -> Any:
    """The module that sorts the edges of a file."""
    return module(TOOLS, "sorted_edges")


@contextlib.contextmanager
def opened(path: Any) -> Iterator[tuple[str, Any]]:
    """The name and the bytes of a file, or of a stream, which stays open."""
    if isinstance(path, (str, bytes, os.PathLike)):
        with open(path, "rb") as stream:
            yield os.fsdecode(path), stream
        return
    if not isinstance(path, io.IOBase) or isinstance(path, io.TextIOBase):
        raise TypeError(f"path is the name of a file, or a stream of bytes, not {type(path).__name__}")
    buffered: Any = path if hasattr(path, "peek") else io.BufferedReader(path)  # type: ignore[arg-type]
    try:
        yield str(getattr(path, "name", "the stream")), buffered
    finally:
        if buffered is not path:
            buffered.detach()


def test_options(options: types.SimpleNamespace) -> None:
    """Refuses what the reader could not take."""
    if options.base is not None and whole(options.base, "base") not in (0, 1):
        raise ValueError("base is 0, 1 or None")
    if whole(options.skip, "skip") < 0:
        raise ValueError("skip is a number of lines")
    if options.rectangular not in (None, "same", "apart"):
        raise ValueError('rectangular is "same", "apart" or None')
    if options.names and (options.renumber or options.base is not None or options.rectangular is not None):
        raise ValueError("names numbers the vertices itself, without renumber, base and rectangular")


def loaded(edges: Any, count: int) -> Store:
    """A store of sorted edges, with no batch before."""
    tools, kept = module(TOOLS, "edge_runs"), np.zeros(MOST_EDITS, np.uint8)
    with Store(count) as store:
        for number, batch in enumerate(edges.batches(MOST_EDITS)):
            if number % REBASE_BATCHES == 0:
                store.rebase()
            sources, targets = (np.ascontiguousarray(column, np.uint32) for column in tools.columns_of(batch))
            store._edited("A", sources, targets, kept[:len(batch)])
        with store.pin() as version:
            made = version.branch()
    made.ids = edges.ids
    return made


def read(path: Any, options: types.SimpleNamespace, least: int, memory: int, folder: str | None) -> tuple[Store, list[str]]:
    """A store of the edges of a file, with `least` vertices at least, and what the reader warns of."""
    sorting, said = reader(), list[str]()
    files, sorter = (module(TOOLS, name) for name in ("edge_files", "edge_runs"))
    try:
        with sorter.EdgeRuns(memory, folder) as runs:
            with opened(path) as (name, stream):
                edges = sorting.SortedEdges(files.Text(name, stream), options, MOST_VERTICES, said.append, runs)
            return loaded(edges, max(edges.count, least)), said
    except sorting.Refusal as refusal:
        words = str(refusal)
        for option, argument in OPTIONS.items():
            words = words.replace(option, argument)
        raise ValueError(words) from None
    except MemoryError:
        raise NoMemory("there is no memory for the edges") from None


def read_edges(
    path: Any, *, base: int | None = None, skip: int = 0, names: bool = False, renumber: bool = False, undirected: bool = False,
    rectangular: str | None = None, vertices: int | None = None, memory: int = MEMORY, folder: str | os.PathLike[str] | None = None,
) -> Store:
    """A store of the edges of a file, in this process: two columns of ids separated by blanks, tabs or commas, or a Matrix Market file, as
    `edgebpf-import` reads them, also compressed by gzip. The first version of the store is number 0 of epoch 0.

    path: the name of a file, or a stream of bytes. base: the least id, 0 or 1; None is 0, and 1 in a Matrix Market file. skip: how many lines
    are left out first. names: ids are words. renumber: ids are renumbered in ascending order, as they also are if one is above what a graph
    may have; then `ids` of the store has the id of each vertex, an array, or of names a list, and else None. undirected: each edge also
    leads back. rectangular: for a matrix with another number of columns than rows, "same" if row K and column K are one vertex, "apart" if
    columns are vertices after those of the rows. vertices: how many the graph has at least. memory: sorted edges beyond so many bytes lie in
    a file without a name in `folder`, else in that of TMPDIR, else in /var/tmp. Raises `ValueError`, which names the line, for what is no such
    file, `NoMemory`, and `OSError`.
    """
    options = types.SimpleNamespace(
        base=base, skip=skip, names=bool(names), renumber=bool(renumber), undirected=bool(undirected), rectangular=rectangular, quiet=True,
    )
    test_options(options)
    least = 1 if vertices is None else vertex_count(vertices, MOST_VERTICES)
    if whole(memory, "memory") < 0:
        raise ValueError("memory is a number of bytes")
    if folder is not None and not isinstance(folder, (str, os.PathLike)):
        raise TypeError(f"folder is the name of a folder, not {type(folder).__name__}")
    store, said = read(path, options, least, int(memory), None if folder is None else os.fspath(folder))
    for words in said:
        warnings.warn(words, stacklevel=2)
    return store

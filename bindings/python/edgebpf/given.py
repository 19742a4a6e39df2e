"""What callers give: each argument is tested here, and what is wrong with it is said with its name."""
from __future__ import annotations

import operator
from collections.abc import Sequence
from typing import Any

import numpy as np
import numpy.typing as npt

from edgebpf.errors import VertexRange
from edgebpf.limits import MOST_COLUMNS

FEEDS = ("A", "B", "C", "D")
# The number of each reduction in the library.
REDUCTIONS = {"sum": 0, "min": 1, "max": 2}
# Numbers and budgets are below this.
WORD = 1 << 64
MOST_THREADS = 64
MOST_SECONDS = 1_000_000_000
# Of arrays up to this length Python finds the greatest number sooner than numpy does.
SHORT = 100

# The sources and the targets of some edges, numbers of 64 bits, and vertices as the library has them.
Edges = tuple[npt.ArrayLike, npt.ArrayLike]
# Some edges, each a pair: an (n, 2) array or a list.
Pairs = npt.ArrayLike
Numbers = npt.NDArray[np.uint64]
# Arrays with a number for each vertex, or what numpy takes for such arrays without a copy.
Columns = Sequence[Any]
NO_COLUMNS: Columns = ()
Vertices = npt.NDArray[np.uint32]
Ends = tuple[Vertices, Vertices]


def whole(number: int, name: str) -> int:
    """A number that is whole by its type, as a place in a list has to be. `name` is what the caller calls it."""
    try:
        return int(operator.index(number))
    except TypeError:
        raise TypeError(f"{name} is a whole number, not {type(number).__name__}") from None


def bytes_of(value: Any, name: str) -> bytes:
    """The bytes of an argument. An array gives the bytes of its items."""
    if type(value) is bytes:
        return value
    try:
        view = memoryview(value)
    except (TypeError, ValueError, BufferError):
        raise TypeError(f"{name} is bytes, or an array, not {type(value).__name__}") from None
    if "O" in view.format:
        raise TypeError(f"{name} is bytes, or an array of numbers, not of objects")
    return view.tobytes()


def vertex_count(vertices: int, most: int) -> int:
    """How many vertices a graph has, which may have `most`."""
    count = whole(vertices, "vertices")
    if not 1 <= count <= most:
        raise ValueError(f"a graph has 1 to {most} vertices")
    return count


def feed_of(feed: str) -> int:
    """The number of a feed."""
    if not isinstance(feed, str) or feed not in FEEDS:
        raise ValueError("a feed is A, B, C or D")
    return FEEDS.index(feed)


def reduction_of(reduction: str) -> str:
    """A reduction that there is."""
    if not isinstance(reduction, str) or reduction not in REDUCTIONS:
        raise ValueError("a reduction is sum, min or max")
    return reduction


def given_array(values: npt.ArrayLike, name: str) -> npt.NDArray[Any]:
    """What was given as an array. `name` is what the caller calls it."""
    try:
        return np.asarray(values)
    except ValueError as error:
        raise TypeError(f"{name} are no array: {error}") from None


def vertices_of(values: npt.ArrayLike, count: int, name: str = "vertices") -> Vertices:
    """A copy of an array of vertices as uint32, if all are in the graph. `name` is what the caller calls it. It is a copy, so that nobody
    writes to it while the library reads it."""
    array = given_array(values, name)
    if array.ndim != 1 or (array.size and array.dtype.kind not in "iu"):
        raise TypeError(f"{name} are an array of whole numbers with one dimension")
    if array.size <= SHORT:
        numbers = array.tolist()
        is_outside = bool(numbers) and not 0 <= min(numbers) <= max(numbers) < count
    else:
        # A negative number becomes one of 2^63 and more.
        is_outside = bool(array.astype(np.uint64, copy=False).max() >= count)
    if is_outside:
        raise VertexRange(f"a vertex of {name} is not below {count}")
    return array.astype(np.uint32, order="C")


def starts_of(values: npt.ArrayLike) -> Numbers:
    """A copy of where lists begin. A negative number becomes one that is past every list."""
    array = given_array(values, "starts")
    if array.ndim != 1 or (array.size and array.dtype.kind not in "iu"):
        raise TypeError("starts are an array of whole numbers with one dimension")
    return array.astype(np.uint64, order="C")


def vertex_of(vertex: int, count: int, name: str = "vertex") -> int:
    """A vertex that the graph has. `name` is what the caller calls it."""
    number = vertex if type(vertex) is int else whole(vertex, name)
    if not 0 <= number < count:
        raise VertexRange(f"{name} {number} is not below {count}")
    return number


def looks_like_pairs(edges: Any) -> bool:
    """Whether someone may mean one edge by each of two items, where the first are sources, and the second targets: where these are tuples,
    however long, or two lists of two in a list. An array has two rows."""
    if isinstance(edges, np.ndarray):
        return False
    return any(isinstance(item, tuple) and len(item) > 0 for item in edges) or (
        isinstance(edges, list) and all(isinstance(item, list) and len(item) == 2 for item in edges)
    )


def ends_of(edges: Edges, count: int, name: str) -> Ends:
    """The sources and the targets of some edges, as many of each, if all are in the graph. `name` is what the caller calls them."""
    if not isinstance(edges, (tuple, list, np.ndarray)) or getattr(edges, "ndim", 1) == 0 or len(edges) != 2:
        raise ValueError(f"{name} are a pair of arrays, the sources and the targets; for a list of pairs there is edges=")
    if looks_like_pairs(edges):
        raise ValueError(f"{name} are a pair of arrays, the sources and the targets, and this may be two edges: pass a list of pairs by edges=")
    return columns(edges[0], edges[1], count)


def columns(sources: npt.ArrayLike, targets: npt.ArrayLike, count: int) -> Ends:
    """Sources and targets, as many of each, if all are in the graph."""
    ends = vertices_of(sources, count, "sources"), vertices_of(targets, count, "targets")
    if len(ends[0]) != len(ends[1]):
        raise ValueError(f"there are {len(ends[0])} sources and {len(ends[1])} targets, which are one of each for an edge")
    return ends


def looks_like_columns(edges: Any) -> bool:
    """Whether someone may mean by two items in a tuple the sources and the targets, and not two edges."""
    return isinstance(edges, tuple) and len(edges) == 2 and all(isinstance(item, (list, np.ndarray)) for item in edges)


def pairs_of(edges: Pairs, count: int) -> Ends:
    """The sources and the targets of a list of pairs."""
    if looks_like_columns(edges):
        raise ValueError("edges are a list of pairs, and these may be sources and targets: pass those by inserts= and removes=, or to apply")
    array = given_array(edges, "edges")
    if array.size == 0 and array.shape in ((0,), (0, 2)):
        array = np.empty((0, 2), np.uint32)
    if array.ndim != 2 or array.shape[1] != 2 or array.dtype.kind not in "iu":
        raise TypeError("edges are an (n, 2) array of whole numbers, or a list of pairs of them")
    return vertices_of(array[:, 0], count, "edges"), vertices_of(array[:, 1], count, "edges")


def marks_of(removes: npt.ArrayLike | None, count: int) -> npt.NDArray[np.uint8]:
    """For each edit 1 if it takes its edge out, and else 0."""
    if removes is None:
        return np.zeros(count, np.uint8)
    array = given_array(removes, "removes")
    if array.ndim != 1 or (array.size and array.dtype.kind not in "biu"):
        raise TypeError("removes are an array of bools, or of numbers of which 0 keeps its edge")
    if len(array) != count:
        raise ValueError(f"there are {len(array)} removes and {count} edits, which are one for each edit")
    marks: npt.NDArray[np.uint8] = np.not_equal(array, 0).astype(np.uint8)
    return marks


def edits_of(
    sources: npt.ArrayLike, targets: npt.ArrayLike, removes: npt.ArrayLike | None, edges: Pairs | None, count: int,
) -> tuple[Vertices, Vertices, npt.NDArray[np.uint8]]:
    """The edits of a batch in their order."""
    ends = columns(sources, targets, count)
    if edges is not None:
        if len(ends[0]):
            raise ValueError("edits are either sources with targets, or edges")
        ends = pairs_of(edges, count)
    return *ends, marks_of(removes, len(ends[0]))


def edits_of_batch(inserts: Edges, removes: Edges, edges: Pairs | None, count: int) -> tuple[Vertices, Vertices, npt.NDArray[np.uint8]]:
    """The edits of a batch, its insertions first."""
    parts = ends_of(inserts, count, "inserts"), pairs_of(() if edges is None else edges, count), ends_of(removes, count, "removes")
    sources, targets = (np.concatenate([part[end] for part in parts]) for end in (0, 1))
    marks = np.zeros(len(sources), np.uint8)
    marks[len(sources) - len(parts[2][0]):] = 1
    return sources, targets, marks


def ends_of_pairs(sources: npt.ArrayLike, targets: npt.ArrayLike) -> Ends:
    """The sources and the targets of pairs, which may name vertices that the graph does not have."""
    ends = vertices_of(sources, 1 << 32, "sources"), vertices_of(targets, 1 << 32, "targets")
    if len(ends[0]) != len(ends[1]):
        raise ValueError(f"there are {len(ends[0])} sources and {len(ends[1])} targets, which are one of each for a pair")
    return ends


def column_of(column: Any, place: int) -> Numbers:
    """The array of a column, which is not copied. `place` is which of the columns it is."""
    try:
        array = np.asarray(column if isinstance(column, np.ndarray) else memoryview(column))
    except (TypeError, ValueError):
        raise TypeError(f"column {place} is an array of uint64, not {type(column).__name__}: it is not copied") from None
    if array.dtype != np.dtype(np.uint64) or array.ndim != 1 or not (array.flags.c_contiguous and array.flags.aligned):
        raise TypeError(f"column {place} is an array of uint64 with one dimension and no gaps, which is not copied")
    return array


def columns_of(columns: Columns, count: int) -> list[Numbers]:
    """The columns that a run is lent, each with a number for each of `count` vertices. None is copied."""
    if columns is NO_COLUMNS:
        return []
    if isinstance(columns, (str, bytes)) or (isinstance(columns, np.ndarray) and columns.ndim == 1):
        raise TypeError("columns are a list of arrays")
    try:
        arrays = [column_of(column, place) for place, column in enumerate(columns)]
    except TypeError as error:
        raise TypeError(f"columns are a list of arrays: {error}") from None
    if len(arrays) > MOST_COLUMNS:
        raise ValueError(f"there are {len(arrays)} columns; a record has numbers of {MOST_COLUMNS} at most")
    for place, array in enumerate(arrays):
        if len(array) != count:
            raise ValueError(f"column {place} has {len(array)} numbers, and the graph {count} vertices")
    return arrays


def found_of(entries: npt.ArrayLike, name: str) -> Vertices:
    """What an algorithm found for each vertex, as words of 32 bits; -1 is the greatest of them, which says that there is nothing."""
    array = given_array(entries, name)
    if array.ndim != 1:
        raise ValueError(f"{name} has one dimension, not {array.ndim}")
    if array.size and array.dtype.kind not in "iu":
        raise TypeError(f"{name} are whole numbers, not {array.dtype}")
    if array.size and (int(array.min()) < -1 or int(array.max()) >= 1 << 32):
        raise ValueError(f"{name} are -1 to 2^32 - 1")
    return np.ascontiguousarray(array.astype(np.int64) & 0xFFFFFFFF, np.uint32)


def members_of(marks: npt.ArrayLike, name: str) -> npt.NDArray[np.uint8]:
    """A mark for each vertex, 1 where it is true or not 0."""
    array = given_array(marks, name)
    if array.ndim != 1:
        raise ValueError(f"{name} has one dimension, not {array.ndim}")
    if array.size and array.dtype.kind not in "biu":
        raise TypeError(f"{name} are true and false, or whole numbers, not {array.dtype}")
    return np.ascontiguousarray(array != 0).view(np.uint8)


def values_into(into: Numbers, count: int, columns: list[Numbers]) -> Numbers:
    """The array that a push writes: a value for each of `count` vertices, none of which is a column's."""
    if not isinstance(into, np.ndarray) or into.dtype != np.uint64 or into.ndim != 1 or not (into.flags.c_contiguous and into.flags.aligned):
        raise TypeError("into is an array of uint64 in one dimension, aligned and without steps; it is written in place")
    if not into.flags.writeable:
        raise TypeError("into is read-only")
    if len(into) != count:
        raise ValueError(f"into has {len(into)} numbers, and the graph {count} vertices")
    for place, column in enumerate(columns):
        if np.may_share_memory(into, column):
            raise ValueError(f"into and column {place} share memory")
    return into


def budget_of(budget: int) -> int:
    """How much work a step may do."""
    number = budget if type(budget) is int else whole(budget, "budget")
    if not 0 <= number < WORD:
        raise ValueError("a budget is 0 to 2^64 - 1")
    return number


def seconds_of(seconds: float) -> float:
    """How long a call may take."""
    if isinstance(seconds, bool) or not isinstance(seconds, (int, float, np.integer, np.floating)):
        raise TypeError(f"seconds is a number, not {type(seconds).__name__}")
    if not 0 <= seconds <= MOST_SECONDS:
        raise ValueError(f"seconds is 0 to {MOST_SECONDS}")
    return float(seconds)


def threads_of(threads: int) -> int:
    """How many threads share a run."""
    number = threads if type(threads) is int else whole(threads, "threads")
    if not 1 <= number <= MOST_THREADS:
        raise ValueError(f"threads is 1 to {MOST_THREADS}")
    return number


def frozen(array: npt.NDArray[Any]) -> npt.NDArray[Any]:
    """A view of an array that nobody can make writable."""
    array.flags.writeable = False
    return array.view()

"""Graphs of scipy, igraph and networkx made of a version, and stores made of such graphs. These packages are imported when they are asked for."""
from __future__ import annotations

import importlib
from collections.abc import Iterable
from typing import Any, Protocol

import numpy as np
import numpy.typing as npt

from edgebpf.errors import Error
from edgebpf.given import Vertices
from edgebpf.limits import MOST_EDITS

# Batches between two rebases, so that no log grows large.
BATCHES = 256
# The greatest number of edges that 32-bit indices of scipy count.
MOST_INT32 = 2**31 - 1


class Read(Protocol):
    """A version, as far as it is read here."""

    vertices: int
    edges: int

    def csr(self) -> tuple[npt.NDArray[np.int64], Vertices]: ...


class Edited(Protocol):
    """A store, as far as it is edited here."""

    def batch(self, feed: str, inserts: Any) -> Any: ...
    def rebase(self) -> int: ...


def package(name: str) -> Any:
    """A package of a peer, or an `Error` that says how it is installed."""
    try:
        return importlib.import_module(name)
    except ImportError:
        whole = name.partition(".")[0]
        raise Error(f"the Python package {whole} is not there: apt-get install python3-{whole}") from None


def ends(version: Read) -> tuple[npt.NDArray[np.int64], Vertices]:
    """The source and the target of each edge."""
    starts, targets = version.csr()
    return np.repeat(np.arange(version.vertices, dtype=np.int64), np.diff(starts)), targets


def upward(version: Read) -> tuple[npt.NDArray[np.int64], Vertices]:
    """One of each edge and the one back, of a graph that has both."""
    from edgebpf.algorithms import NotMirrored, is_mirrored

    if not is_mirrored(version):  # type: ignore[arg-type]
        raise NotMirrored("version: directed=False is for graphs that have an edge back for each edge")
    sources, targets = ends(version)
    chosen = sources <= targets
    return sources[chosen], targets[chosen]


def to_scipy(version: Read, dtype: npt.DTypeLike) -> Any:
    starts, targets = version.csr()
    # Its graph functions take 32-bit indices alone.
    kind = np.int32 if version.edges <= MOST_INT32 else np.int64
    try:
        ones = np.ones(version.edges, dtype)
    except (TypeError, ValueError) as error:
        raise TypeError(f"dtype is a type of numpy's: {error}") from None
    shape = version.vertices, version.vertices
    return package("scipy.sparse").csr_array((ones, targets.astype(kind), starts.astype(kind)), shape=shape)


def to_igraph(version: Read, directed: bool) -> Any:
    igraph = package("igraph")
    edges = np.column_stack(ends(version) if directed else upward(version))
    return igraph.Graph(n=version.vertices, edges=edges, directed=bool(directed))


def to_networkx(version: Read, directed: bool) -> Any:
    networkx = package("networkx")
    sources, targets = ends(version) if directed else upward(version)
    graph = networkx.DiGraph() if directed else networkx.Graph()
    graph.add_nodes_from(range(version.vertices))
    graph.add_edges_from(zip(sources.tolist(), targets.tolist()))
    return graph


def put(store: Edited, sources: npt.NDArray[Any], targets: npt.NDArray[Any]) -> None:
    """Puts edges into a store, in batches that it then forgets."""
    for number, begin in enumerate(range(0, len(sources), MOST_EDITS), 1):
        store.batch("A", inserts=(sources[begin:begin + MOST_EDITS], targets[begin:begin + MOST_EDITS]))
        if number % BATCHES == 0:
            store.rebase()
    store.rebase()


def from_scipy(matrix: Any) -> tuple[int, npt.NDArray[Any], npt.NDArray[Any]]:
    """The vertices, and the ends of each edge, of a square matrix."""
    sparse = package("scipy.sparse")
    shape = getattr(matrix, "shape", None)
    if not (isinstance(shape, tuple) and len(shape) == 2 and shape[0] == shape[1] and shape[0] >= 1):
        raise ValueError(f"matrix is square, with a row for each vertex, not of shape {shape}")
    entries = sparse.coo_array(matrix)
    return int(shape[0]), entries.row, entries.col


def both_ways(sources: npt.NDArray[Any], targets: npt.NDArray[Any], is_directed: bool) -> tuple[npt.NDArray[Any], npt.NDArray[Any]]:
    """Edges, of an undirected graph with those back."""
    return (sources, targets) if is_directed else (np.concatenate([sources, targets]), np.concatenate([targets, sources]))


def pairs_of(edges: Iterable[tuple[int, int]]) -> tuple[npt.NDArray[Any], npt.NDArray[Any]]:
    array = np.array(list(edges), np.int64).reshape(-1, 2)
    return array[:, 0], array[:, 1]


def from_igraph(graph: Any) -> tuple[int, npt.NDArray[Any], npt.NDArray[Any]]:
    """The vertices, and the ends of each edge, of an `igraph.Graph`."""
    if not isinstance(graph, package("igraph").Graph):
        raise TypeError(f"graph is an igraph.Graph, not {type(graph).__name__}")
    if graph.vcount() == 0:
        raise ValueError("graph has at least one vertex")
    return graph.vcount(), *both_ways(*pairs_of(graph.get_edgelist()), graph.is_directed())


def from_networkx(graph: Any) -> tuple[int, npt.NDArray[Any], npt.NDArray[Any]]:
    """The vertices, and the ends of each edge, of a graph of networkx whose nodes are 0, 1, 2, .."""
    networkx = package("networkx")
    if not isinstance(graph, networkx.Graph):
        raise TypeError(f"graph is a graph of networkx, not {type(graph).__name__}")
    count = graph.number_of_nodes()
    if count == 0:
        raise ValueError("graph has at least one node")
    if any(isinstance(node, bool) or not isinstance(node, (int, np.integer)) or not 0 <= node < count for node in graph):
        raise ValueError("graph has nodes other than 0, 1, 2, ..: networkx.convert_node_labels_to_integers numbers them")
    return count, *both_ways(*pairs_of(graph.edges()), graph.is_directed())

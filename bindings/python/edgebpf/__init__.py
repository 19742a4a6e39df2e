"""edgebpf: a versioned in-memory graph that runs BPF programs on its edges.

    import edgebpf

    with edgebpf.Store(vertices=4) as store:
        store.batch("A", inserts=([0, 0, 1], [1, 2, 2]))
        target = edgebpf.assemble(["ldxw r0, [r1+4]", "exit"])
        with store.pin() as version:
            result = version.run(target, "sum")
            result.total, result.values        # 5, array([3, 2, 0, 0], dtype=uint64)

The graph of a `Store` lives in this process, in the memory of `libedgebpf.so`. That of `connect` lives in an `edgebpf` process, which it
starts and `close` ends; batches and runs may have several workers there.
"""
from edgebpf import algorithms
from edgebpf.cluster import Cluster, ClusterVersion
from edgebpf.errors import (
    ArgumentLength, Closed, EpochsFull, Error, LogFull, NoMemory, NotHere, PartLost, Refused, TimedOut, TooManyEdits, TooManyNames, VertexRange,
    WrongText,
)
from edgebpf.from_c import compile_c
from edgebpf.from_files import read_edges
from edgebpf.live import Live
from edgebpf.native import Store, Version
from edgebpf.programs import Program, assemble, explain
from edgebpf.steps import NumbersRun, PairsRun, Push, Run, Steps
from edgebpf.store import Counts, Pushed, Result, Visited, connect

__version__ = "0.1.0"

__all__ = [
    "ArgumentLength", "Closed", "Cluster", "ClusterVersion", "Counts", "EpochsFull", "Error", "Live", "LogFull", "NoMemory", "NotHere", "NumbersRun",
    "PairsRun", "PartLost", "Program", "Push", "Pushed", "Refused", "Result", "Run", "Steps", "Store", "TimedOut", "TooManyEdits", "TooManyNames",
    "Version", "VertexRange", "Visited", "WrongText", "algorithms", "assemble", "compile_c", "connect", "explain", "read_edges",
]

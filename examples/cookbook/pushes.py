import numpy as np

import edgebpf
from edgebpf.algorithms import hashed

NONE = 2**64 - 1    # of a vertex that was not reached, or has no core yet
FIRST = "ldxdw r0, [r1+16]\nexit"


def hops(version, start):
    level, far, front, round = edgebpf.assemble(FIRST, record=24), np.full(version.vertices, NONE, np.uint64), [start], 0
    far[start] = 0
    while len(front):
        round += 1
        front = version.push(level, "min", front, round.to_bytes(8, "little"), into=far, changed=True).changed
    return far


def components(version):
    of_source, label, front = edgebpf.assemble(FIRST, record=32), np.arange(version.vertices, dtype=np.uint64), None
    while front is None or len(front):
        front = version.push(of_source, "min", front, into=label, columns=[label.copy()], changed=True).changed
    return label


def cores(version):
    one, left, core, k = edgebpf.assemble("mov r0, 1\nexit"), version.degrees().astype(np.int64), np.full(version.vertices, NONE, np.uint64), 0
    while (core == NONE).any():
        while len(gone := np.flatnonzero((core == NONE) & (left <= k))):
            core[gone] = k
            lost = np.zeros(version.vertices, np.uint64)
            version.push(one, "sum", gone, into=lost)
            left -= lost.astype(np.int64)
        k += 1
    return core


def independent(version, seed=0):
    """In the order of a hash: a vertex whose turn comes before those of all its neighbours that are not decided is in the set."""
    count, first, one = version.vertices, edgebpf.assemble(FIRST, record=32), edgebpf.assemble("mov r0, 1\nexit")
    turn, chosen, is_open = np.empty(count, np.uint64), np.zeros(count, bool), np.ones(count, bool)
    turn[np.argsort(hashed(np.arange(count, dtype=np.uint64) + np.uint64(seed << 32)), kind="stable")] = np.arange(count)
    while is_open.any():
        least, near = np.full(count, NONE, np.uint64), np.zeros(count, np.uint64)
        version.push(first, "min", np.flatnonzero(is_open), into=least, columns=[turn])
        joins = is_open & (turn < least)
        version.push(one, "max", np.flatnonzero(joins), into=near)
        chosen, is_open = chosen | joins, is_open & ~joins & (near == 0)
    return chosen

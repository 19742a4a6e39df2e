import numpy as np

import edgebpf

ONE = 1 << 40   # what all ranks are together, in whole numbers
FAR = 1 << 32   # more than any level
OF_TARGET = ["ldxdw r0, [r1+24]", "exit"]


def ranks(version, rounds=20):
    of_target, count = edgebpf.assemble(OF_TARGET, record=32), version.vertices
    degrees = version.degrees().astype(np.uint64)
    rank = np.full(count, ONE // count, np.uint64)
    for _ in range(rounds):
        kept = int(rank[degrees == 0].sum())
        gives = rank * 85 // (100 * np.maximum(degrees, 1))
        rank = (15 * ONE + 85 * kept) // (100 * count) + version.run(of_target, columns=[gives]).values
    return rank


def components(version):
    of_target, label = edgebpf.assemble(OF_TARGET, record=32), np.arange(version.vertices, dtype=np.uint64)
    while True:
        least = np.minimum(label, version.run(of_target, "min", columns=[label]).values)
        if (least == label).all():
            return label
        label = least


def levels(version, root):
    of_target, level = edgebpf.assemble(OF_TARGET, record=32), np.full(version.vertices, FAR, np.uint64)
    level[root] = 0
    while True:
        nearest = version.run(of_target, "min", columns=[level]).values
        less = np.minimum(level, np.minimum(nearest, FAR - 1) + 1)
        if (less == level).all():
            return np.where(level < FAR, level, -1)
        level = less

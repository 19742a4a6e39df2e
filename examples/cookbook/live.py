"""A query after each batch: how many edges of the sources that it edited have an edge back."""
import edgebpf
import numpy


def follow(store, batches):
    back = edgebpf.assemble(["ldxw r2, [r1+0]", "ldxw r1, [r1+4]", "call 2", "exit"])
    for sources, targets in batches:
        store.batch("A", inserts=(sources, targets))
        with store.pin() as version:
            yield version.run(back, frontier=numpy.unique(sources)).total

"""Two versions compared: the vertices whose count of edges that lead back differs."""
import edgebpf
import numpy


def changed(before, after):
    back = edgebpf.assemble(["ldxw r2, [r1+0]", "ldxw r1, [r1+4]", "call 2", "exit"])
    return numpy.flatnonzero(before.run(back).values != after.run(back).values)

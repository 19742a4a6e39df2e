"""The vertices with the most edges that lead back, and how many these are; of equal ones the lowest first."""
import edgebpf
import numpy


def top(version, count):
    back = edgebpf.assemble(["ldxw r2, [r1+0]", "ldxw r1, [r1+4]", "call 2", "exit"])
    rows = version.run(back).values.astype(numpy.int64)
    first = numpy.argsort(-rows, kind="stable")[:count]
    return list(zip(first.tolist(), rows[first].tolist()))

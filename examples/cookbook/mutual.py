"""Counts the edges that have an edge back."""
import edgebpf


def mutual(version):
    back = edgebpf.assemble(["ldxw r2, [r1+0]", "ldxw r1, [r1+4]", "call 2", "exit"])
    return version.run(back).total

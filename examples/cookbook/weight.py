"""Scores each edge by a table of 240 bytes, which is the argument of the run."""
import edgebpf


def weight(version, table):
    look = edgebpf.assemble(["ldxw r2, [r1+4]", "mod r2, 240", "add r1, r2", "ldxb r0, [r1+16]", "exit"], record=256)
    return version.run(look, argument=table).total

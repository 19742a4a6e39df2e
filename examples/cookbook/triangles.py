"""The triangles of a graph that has each edge in both directions, each counted once."""
import pathlib

import edgebpf


def triangles(version):
    source = pathlib.Path(__file__).with_name("triangles.c")
    return version.run(edgebpf.compile_c(source, "triangles")).total

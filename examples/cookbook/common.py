"""The neighbours that the two ends of each edge have in common: one number for each edge, in the order of `version.csr()`."""
import pathlib

import edgebpf


def common(version):
    source = pathlib.Path(__file__).with_name("common.c")
    return version.numbers(edgebpf.compile_c(source, "common"))

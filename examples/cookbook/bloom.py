"""Counts the edges to vertices of a list, by a bloom filter in the argument of the run; a filter for a table has 32,768 bits."""
import pathlib

import edgebpf
import numpy


def hashed(vertices):
    """`hash` of edgebpf.h, for an array."""
    number = numpy.asarray(vertices, numpy.uint64)
    for _ in range(2):
        number = (number ^ number >> numpy.uint64(32)) * numpy.uint64(0xd6e8feb86659fd93)
    return number ^ number >> numpy.uint64(32)


def bloom_filter(vertices, bits):
    """The bytes of a filter that lets these vertices through."""
    number, places = hashed(vertices), numpy.zeros(bits, bool)
    places[(number & numpy.uint64(0xffffffff)) % numpy.uint64(bits)] = True
    places[(number >> numpy.uint64(32)) % numpy.uint64(bits)] = True
    return numpy.packbits(places, bitorder="little").tobytes()


def listed(version, vertices):
    source = pathlib.Path(__file__).with_name("bloom.c")
    program = edgebpf.compile_c(source, "short_bloom", record=256)
    return version.run(program, argument=bloom_filter(vertices, 1920)).total

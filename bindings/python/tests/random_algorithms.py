#!/usr/bin/env python3
"""Compares `edgebpf.algorithms` with networkx, igraph and scipy on random graphs, and what is kept over streams of random batches with what is made
anew after each. Run by hand; the gate does some hundreds of both.

    bindings/python/tests/random_algorithms.py --seed 1 --graphs 10000 --batches 2000
"""
import argparse
import pathlib
import random
import sys
import time

sys.dont_write_bytecode = True
sys.path[:0] = [str(pathlib.Path(__file__).resolve().parents[1]), str(pathlib.Path(__file__).resolve().parent)]

from algorithm_peers import check_graph, check_stream

BATCHES_OF_A_STREAM = 12


def main():
    parser = argparse.ArgumentParser(description=__doc__, formatter_class=argparse.RawDescriptionHelpFormatter)
    parser.add_argument("--seed", type=int, default=1)
    parser.add_argument("--graphs", type=int, default=1_000)
    parser.add_argument("--batches", type=int, default=1_000)
    options = parser.parse_args()
    begun = time.monotonic()
    for number in range(options.graphs):
        try:
            check_graph(random.Random(f"{options.seed} graph {number}"), number)
        except Exception as error:
            sys.exit(f"graph {number} of seed {options.seed}: {type(error).__name__}: {error}")
    print(f"{options.graphs} graphs of seed {options.seed}, none wrong, {time.monotonic() - begun:.0f} seconds", flush=True)
    done = stream = 0
    while done < options.batches:
        try:
            done += check_stream(random.Random(f"{options.seed} stream {stream}"), BATCHES_OF_A_STREAM)
        except Exception as error:
            sys.exit(f"stream {stream} of seed {options.seed}: {type(error).__name__}: {error}")
        stream += 1
    print(f"{done} batches in {stream} streams of seed {options.seed}, none wrong, {time.monotonic() - begun:.0f} seconds in all")


if __name__ == "__main__":
    main()

#!/usr/bin/env python3
"""Serves batches, and a run, by a program that may start no thread: refuse_threads.py PROGRAM.

By one worker each is served whole, and so is a small batch by more. A large one, and the run, end by more with status 1, the line of a refused worker, and a
beginning of that output.
"""
import os
import resource
import shutil
import subprocess
import sys
import tempfile

WORKER, NOBODY = b"edgebpf: worker\n", 65534
# Two workers of a batch have so many edits.
LARGE = 1_024


def refuse_threads():
    if os.getuid() == 0:
        os.setgroups([])
        os.setgid(NOBODY)
        os.setuid(NOBODY)
    resource.setrlimit(resource.RLIMIT_NPROC, (0, 0))


def served(program, lines, workers):
    script = "".join(f"{line}\n" for line in ("graph 4096", *lines)).encode()
    run = subprocess.run([program, "--workers", str(workers)], input=script, capture_output=True, preexec_fn=refuse_threads)
    return run.returncode, run.stdout, run.stderr


def batch(count):
    """So many edits in eight ranges."""
    return ["batch A", *(f"+ {256 * (place % 8)} {place}" for place in range(count)), "end"]


# Scripts, each with whether two workers start a thread. The run is of edges of two pieces.
SCRIPTS = [
    (batch(LARGE - 1), False),
    (batch(LARGE), True),
    (["batch A", *(f"+ {vertex} {vertex}" for vertex in range(128)), "end", "code t 16 61100400000000009500000000000000", "pin a", "run t a sum -"], True),
]


def serve_all(program):
    for lines, starts in SCRIPTS:
        status, whole, said = served(program, lines, 1)
        assert (status, said) == (0, b""), f"one worker: status {status}, {said}"
        for workers in (2, 16):
            status, text, said = served(program, lines, workers)
            if starts:
                assert (status, said) == (1, WORKER), f"{workers} workers: status {status}, {said}"
                assert whole.startswith(text) and text != whole, f"{workers} workers: another output"
            else:
                assert (status, text, said) == (0, whole, b""), f"{workers} workers, a small batch: status {status}, {said}"


def main():
    # A copy of the program, since nobody may not enter each checkout.
    with tempfile.TemporaryDirectory() as folder:
        os.chmod(folder, 0o755)
        serve_all(shutil.copy(sys.argv[1], f"{folder}/program"))
    print("refuse_threads: without a thread, one worker serves all, and more serve a small batch and else end with their line")


if __name__ == "__main__":
    main()

#!/usr/bin/env python3
"""Serves a script under limits of address space, by 1, 4 and 16 workers: limits.py PROGRAM [SCRIPT]

Each limit refuses memory, or a thread, at another place. Each run has to end with status 0 and all of the output, or with
status 1, one line that the documents name, and a beginning of the output. It says how often each came.
"""
import collections
import resource
import subprocess
import sys

LINES = {b"edgebpf: memory\n", b"edgebpf: worker\n", b"edgebpf: store\n"}
KILOBYTES = list(range(4_000, 70_000, 500)) + list(range(70_000, 240_000, 5_000))


def default_script():
    """64 ranges of the largest graph in each of two batches, a pin of the first, and a run over it."""
    edits = [f"+ {256 * place} {place}" for place in range(64)]
    again = [f"- {256 * place} {place}" for place in range(64)]
    lines = ["graph 1048576", "batch A", *edits, "end", "code t 16 61100400000000009500000000000000", "pin a"]
    lines += ["batch B", *again, "end", "run t a sum -"]
    return "".join(f"{line}\n" for line in lines).encode()


def served(program, workers, script, kilobytes=None):
    def limit():
        if kilobytes is not None:
            resource.setrlimit(resource.RLIMIT_AS, (1024 * kilobytes, 1024 * kilobytes))

    return subprocess.run([program, "--workers", str(workers)], input=script, capture_output=True, preexec_fn=limit)


def main():
    program = sys.argv[1]
    script = open(sys.argv[2], "rb").read() if len(sys.argv) > 2 else default_script()
    whole = served(program, 1, script)
    if whole.returncode:
        sys.exit(f"without a limit it ended with status {whole.returncode}")
    counts, wrong = collections.Counter(), 0
    for workers in (1, 4, 16):
        for kilobytes in KILOBYTES:
            got = served(program, workers, script, kilobytes)
            if got.returncode == 0:
                right = got.stdout == whole.stdout and got.stderr == b""
            else:
                right = got.returncode == 1 and got.stderr in LINES and whole.stdout.startswith(got.stdout)
            counts[workers, got.stderr.decode(errors="replace").strip() or "complete"] += 1
            if not right:
                wrong += 1
                print(f"{workers} workers, {kilobytes} KB: status {got.returncode}, {got.stderr!r}")
    for (workers, said), times in sorted(counts.items()):
        print(f"{workers} workers: {said}: {times} limits")
    sys.exit(1 if wrong else 0)


if __name__ == "__main__":
    main()

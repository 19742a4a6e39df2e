#!/usr/bin/env python3
"""Serves scripts whose ends fail: ends.py PROGRAM

Standard input is a folder or closed; standard output is full, closed, or closed by who reads it after one line; a script has 100 MB
and no end of a line. Each run has to end with status 1 and with the line that the documents name, and never by a signal.
"""
import os
import subprocess
import sys
import tempfile

PROGRAM = sys.argv[1]
LONG = 100_000_000


def ended(what, status, error, wanted):
    right = status == 1 and error == wanted
    print(f"{what}: {'as documented' if right else f'status {status}, {error!r}'}")
    return right


def run(before="", after="", script=b"graph 4\n"):
    """The program in a shell, where its ends can be closed."""
    command = f'{before} "$0" {after}'
    return subprocess.run(["bash", "-c", command, PROGRAM], input=script, capture_output=True)


def main():
    edits = "".join(f"+ {v} {t}\n" for v in range(3000) for t in range(20))
    rows = f"graph 4000\nbatch A\n{edits}end\ncode t 16 61100400000000009500000000000000\npin a\nrun t a sum -\n".encode()
    all_right = True
    with tempfile.TemporaryDirectory() as folder:
        got = run(after=f'< "{folder}"')
        all_right &= ended("input is a folder", got.returncode, got.stderr, b"edgebpf: read\n")
    got = run(after="<&-")
    all_right &= ended("input is closed", got.returncode, got.stderr, b"edgebpf: read\n")
    got = run(after="> /dev/full")
    all_right &= ended("output is full", got.returncode, got.stderr, b"edgebpf: write\n")
    got = run(after=">&-")
    all_right &= ended("output is closed", got.returncode, got.stderr, b"edgebpf: write\n")
    reading, writing = os.pipe()
    os.close(reading)
    with subprocess.Popen([PROGRAM], stdin=subprocess.PIPE, stdout=writing, stderr=subprocess.PIPE) as process:
        os.close(writing)
        _, error = process.communicate(rows)
    all_right &= ended("output is closed by who reads it", process.returncode, error, b"edgebpf: write\n")
    got = subprocess.run([PROGRAM], stdin=subprocess.Popen(["head", "-c", str(LONG), "/dev/zero"], stdout=subprocess.PIPE).stdout, capture_output=True)
    all_right &= ended("100 MB without the end of a line", got.returncode, got.stdout + got.stderr, b"fault 1 line 1\n")
    spaces = subprocess.run([PROGRAM], input=b" " * LONG, capture_output=True)
    all_right &= ended("100 MB of spaces", spaces.returncode, spaces.stdout + spaces.stderr, b"fault 1 line 1\n")
    sys.exit(0 if all_right else 1)


if __name__ == "__main__":
    main()

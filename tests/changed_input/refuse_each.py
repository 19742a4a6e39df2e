#!/usr/bin/env python3
"""Runs a built program once for each of its allocations, each time with that one refused.

    refuse_each.py PROGRAM [SCRIPT ...]       edgebpf on scripts; without one, on first.script, homes and ranges of its own
    refuse_each.py PROGRAM --says LINE ...    a program of the gate that prints what was refused: each run one of these lines, and some run each

A library that is loaded before the C library's counts the calls that ask for memory, and refuses one. A run of edgebpf has to end
with status 0 and all of the output, or with status 1, one line that the documents name, and a beginning of the output; or, before
anything is read, with status 2 and the line of the command line's reader. A refused worker is reported only where a thread was started.
"""
import argparse
import collections
import os
import subprocess
import sys
import tempfile

WORKER = b"edgebpf: worker\n"
# No refused allocation is reported as an error of the store.
LINES = {b"edgebpf: memory\n", WORKER}
# One worker starts no thread, and neither do many for a script whose batches and runs have one piece each.
ONE_PIECE, MOST_WORKERS = "first.script", 16
# How many threads a script starts for two workers. Two allocations are of a start, which comes at no certain place where another thread runs
# already; all others are of memory.
STARTS, MOST_A_START = {"homes": 1, "ranges": 2, "epochs": 2}, 4
# What is said where the words of the command line could not be read for want of memory.
UNREAD = (2, b"", b"error: out of memory\n")
TARGET = "code t 16 61100400000000009500000000000000"
# It makes the file TOLD where it refuses one: without that file the run asked for fewer.
SHIM = r"""
#include <errno.h>
#include <fcntl.h>
#include <stddef.h>
#include <stdlib.h>
#include <unistd.h>

extern void *__libc_malloc(size_t), *__libc_calloc(size_t, size_t), *__libc_realloc(void *, size_t), *__libc_memalign(size_t, size_t);
static long refused, calls;

__attribute__((constructor)) static void begin(void)
{
    refused = atol(getenv("REFUSED"));
    __atomic_store_n(&calls, 0, __ATOMIC_SEQ_CST);
}

static int refuses(void)
{
    if (refused == 0 || __atomic_add_fetch(&calls, 1, __ATOMIC_SEQ_CST) != refused)
        return 0;
    close(open(getenv("TOLD"), O_CREAT | O_WRONLY, 0600));
    errno = ENOMEM;
    return 1;
}

void *malloc(size_t n) { return refuses() ? NULL : __libc_malloc(n); }
void *calloc(size_t a, size_t b) { return refuses() ? NULL : __libc_calloc(a, b); }
void *realloc(void *p, size_t n) { return refuses() ? NULL : __libc_realloc(p, n); }
void *aligned_alloc(size_t a, size_t n) { return refuses() ? NULL : __libc_memalign(a, n); }
int posix_memalign(void **out, size_t a, size_t n)
{
    if (refuses())
        return ENOMEM;
    *out = __libc_memalign(a, n);
    return *out ? 0 : ENOMEM;
}
"""


def homes():
    """A vertex that goes from its block to the array, to a tree, which is edited twice where it stands, and back to its block. Each batch has
    one piece: a run alone starts threads."""
    def batch(sign, begin, end):
        return ["batch A", *[f"{sign} 0 {target}" for target in range(begin, end)], "end", "home 0"]

    lines = ["graph 2000", *batch("+", 0, 12), *batch("+", 12, 1025), "pin a", *batch("+", 1025, 1026), *batch("-", 1025, 1026)]
    lines += [*batch("-", 769, 1025), *batch("-", 8, 769)]
    return "".join(f"{line}\n" for line in [*lines, TARGET, "pin b", "run t a sum -", "run t b max - 0", "list t b -"]).encode()


def ranges():
    """Edges in five ranges, from two feeds, and runs by one program over two pins. Each run has one piece: the first batch alone starts threads."""
    edits = [f"+ {256 * place + 7 * (target % 2)} {target}" for target in range(206) for place in range(5)]
    lines = ["graph 1280", "batch A", *edits, "end", "pin a", "batch B", "- 0 0", "- 263 1", "+ 9 9", "end", TARGET]
    return "".join(f"{line}\n" for line in [*lines, "pin b", "run t a sum - 0 256 512 768 1024", "run t b min - 0 9 263", "list t a -"]).encode()


def epochs():
    """Two rebases between batches of three feeds, pins from before and after them, and runs of an image with a table."""
    edits = [f"+ {256 * place} {place}" for place in range(5)]
    image = "image w 42504532100002000400" + "6130000000000000" + "9500000000000000" + "0a000000"
    lines = ["graph 1280", "batch C", *edits, "end", "pin a", "rebase", "pin b", "batch D", "- 0 0", "+ 256 9", "end", image, TARGET]
    lines += ["run w a sum -", "rebase", "batch B", "+ 1 1", "+ 700 2", "end", "pin c", "run t c sum -", "list w c -", "list t a -"]
    return "".join(f"{line}\n" for line in lines).encode()


def run(program, shim, refused, given, words, told):
    room = {**os.environ, "LD_PRELOAD": shim, "REFUSED": str(refused), "TOLD": told}
    return subprocess.run([program, *words], input=given, capture_output=True, env=room)


def try_each(program, shim, folder, name, given, words, is_right, kind):
    """Runs it with each allocation refused, and tells how often each kind of end came. Returns how many were wrong, and the kinds."""
    told = f"{folder}/told"
    whole = run(program, shim, 0, given, words, told)
    kinds, wrong, refused = collections.Counter(), 0, 0
    while True:
        refused += 1
        got = run(program, shim, refused, given, words, told)
        if not os.path.exists(told):
            break
        os.remove(told)
        kinds[kind(got)] += 1
        if not is_right(got, whole):
            wrong += 1
            print(f"{name}: allocation {refused} refused: status {got.returncode}, {got.stdout[-60:]!r}, {got.stderr!r}")
    ends = ", ".join(f"{said} {times}" for said, times in sorted(kinds.items()))
    print(f"{name}: each of {refused - 1} allocations refused: {ends}", flush=True)
    return wrong, kinds


def is_served(got, whole, lines):
    if got.returncode == 0:
        return got.stdout == whole.stdout and got.stderr == b""
    if (got.returncode, got.stdout, got.stderr) == UNREAD:
        return True
    return got.returncode == 1 and got.stderr in lines and whole.stdout.startswith(got.stdout)


def serve_each(program, shim, folder, name, script, workers):
    """Serves a script with each allocation refused. Returns how many ends were wrong: a refused worker, too, where no
    thread is started, and where threads are, no refused worker or too many."""
    starts_threads = workers > 1 and name != ONE_PIECE
    lines = LINES if starts_threads else LINES - {WORKER}
    kind = lambda got: got.stderr.decode(errors="replace").strip() or "complete"
    right = lambda got, whole: is_served(got, whole, lines)
    title = f"{name} by {workers}"
    wrong, kinds = try_each(program, shim, folder, title, script, ["--workers", str(workers)], right, kind)
    refused = kinds[WORKER.decode().strip()]
    if starts_threads and not refused:
        print(f"{title}: no worker was refused")
        wrong += 1
    if workers == 2 and name in STARTS and refused > MOST_A_START * STARTS[name]:
        print(f"{title}: more workers were refused than threads are started")
        wrong += 1
    return wrong


def main():
    reader = argparse.ArgumentParser(description=__doc__, formatter_class=argparse.RawDescriptionHelpFormatter)
    reader.add_argument("program")
    reader.add_argument("scripts", nargs="*")
    reader.add_argument("--says", nargs="+", default=[])
    reader.add_argument("--workers", nargs="+", type=int, default=[1, 2])
    asked = reader.parse_args()
    program = os.path.abspath(asked.program)
    wrong = 0
    with tempfile.TemporaryDirectory() as folder:
        shim = f"{folder}/refusing.so"
        subprocess.run(["cc", "-O1", "-shared", "-fPIC", "-o", shim, "-x", "c", "-"], input=SHIM.encode(), check=True)
        if asked.says:
            said = lambda got: got.stdout.decode(errors="replace").strip()
            right = lambda got, _whole: got.returncode == 0 and said(got) in [*asked.says, "done"]
            wrong, kinds = try_each(program, shim, folder, os.path.basename(program), b"", [], right, said)
            missing = [line for line in asked.says if line not in kinds]
            print(*[f"{line}: never said" for line in missing], sep="\n", end="\n" if missing else "")
            sys.exit(1 if wrong or missing else 0)
        own = {"homes": homes(), "ranges": ranges(), "epochs": epochs()}
        first = os.path.join(os.path.dirname(os.path.abspath(__file__)), "../../examples/first.script")
        for path in asked.scripts or [first]:
            own[os.path.basename(path)] = open(path, "rb").read()
        for name, script in own.items():
            counts = [*asked.workers, MOST_WORKERS] if name == ONE_PIECE else asked.workers
            wrong += sum(serve_each(program, shim, folder, name, script, workers) for workers in counts)
    sys.exit(1 if wrong else 0)


if __name__ == "__main__":
    main()

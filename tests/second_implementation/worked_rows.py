#!/usr/bin/env python3
"""Judges programs whose verdicts were worked out by hand, all of them with functions that are lent frames: worked_rows.py, and see README.md.

Statements stand as in the assembler, with `/` between them. Each program is also run, on the first edge of a small graph, where it is accepted."""
import sys

from assembler import assemble
from bpf import Graph, frame_top, run
from verifier import Refused, judged

LENGTH = 16
GRAPH = Graph(3, {0: {1, 2}, 1: {2}}, 3)
# The edge from 0 to 1: its place is 0, and its source has two edges.
RECORD_BYTES = bytes.fromhex("00000000" "01000000" "00000000" "02000000")

# The verdict is the bound, the frames and the number with which a run exits; or the cause and the pc.
ROWS = {
    "a callee writes its caller's frame": ("mov r1, r10/add r1, -8/calllocal f/ldxdw r0, [r10-8]/exit/f:/stdw [r1+0], 9/mov r0, 0/exit", (8, 2, 9)),
    "a callee reads a byte that is unset": ("mov r1, r10/add r1, -8/calllocal f/exit/f:/ldxb r0, [r1+0]/exit", (12, 4)),
    "one pc meets the record and a frame": (
        "calllocal f/mov r1, r10/add r1, -1/calllocal f/ldxb r0, [r10-1]/exit/f:/stb [r1+0], 1/mov r0, 0/exit",
        (12, 2, 1),
    ),
    "a pointer to the dropped frame is spilled": (
        "mov r1, r10/add r1, -8/calllocal f/ldxdw r1, [r10-8]/ldxb r0, [r1+0]/exit/f:/stxdw [r1+0], r10/mov r0, 0/exit",
        (10, 4),
    ),
    "a pointer to a frame is no result": ("mov r1, r10/calllocal f/exit/f:/mov r0, r1/exit", (15, 4)),
    "a callee's callee writes the frame of frame 0": (
        "mov r1, r10/calllocal f/ldxdw r0, [r10-8]/exit/f:/calllocal g/exit/g:/stdw [r1-8], 5/mov r0, 0/exit",
        (9, 3, 5),
    ),
    "a pointer to the frame dropped first, read as a number": (
        "mov r1, r10/calllocal f/ldxdw r0, [r10-8]/exit/f:/calllocal g/exit/g:/stxdw [r1-8], r10/mov r0, 0/exit",
        (9, 3, frame_top(2)),
    ),
    "a pointer to the frame between, spilled by its callee": (
        "mov r1, r10/calllocal f/ldxdw r2, [r10-8]/ldxb r0, [r2-1]/exit/f:/mov r2, r10/stb [r10-1], 1/calllocal g/exit/g:/stxdw [r1-8], r2/mov r0, 0/exit",
        (10, 3),
    ),
    "two frames at one offset meet": (
        "ldxb r2, [r1+0]/mov r1, r10/calllocal f/exit/f:/mov r3, r1/jeq r2, 0, j/mov r3, r10/j:/stdw [r3-8], 1/mov r0, 0/exit",
        (8, 7),
    ),
    "gather into the caller's frame": (
        "mov r1, r10/calllocal f/ldxw r0, [r10-4]/exit/f:/mov r3, r1/add r3, -8/mov r1, 0/mov r2, 0/mov r4, 8/call 5/mov r0, 0/exit",
        (12, 2, 2),
    ),
    "the same function with a set byte and an unset one": (
        "stb [r10-1], 7/mov r1, r10/calllocal f/mov r1, r10/add r1, -1/calllocal f/mov r0, r9/exit/f:/ldxb r0, [r1-1]/exit",
        (12, 8),
    ),
    "the same function with a set byte twice": (
        "sth [r10-2], 7/mov r1, r10/calllocal f/mov r1, r10/add r1, -1/calllocal f/exit/f:/ldxb r0, [r1-1]/exit",
        (11, 2, 7),
    ),
    "a rule broken in a callee comes before one behind the call": ("calllocal f/mov r0, r9/exit/f:/mov r0, r8/exit", (8, 3)),
    "a rule broken behind the call": ("calllocal f/mov r0, r9/exit/f:/mov r0, 1/exit", (8, 1)),
    "r6 to r9 of a callee are unset": ("mov r6, 1/calllocal f/exit/f:/mov r0, r6/exit", (8, 3)),
    "r6 to r9 of a caller stay": ("mov r6, 4/calllocal f/mov r0, r6/exit/f:/mov r6, 1/mov r0, 0/exit", (7, 2, 4)),
    "r1 to r5 are unset behind a call": ("calllocal f/mov r0, r1/exit/f:/mov r0, 1/exit", (8, 1)),
    "what a callee answers is known": ("mov r6, r1/calllocal f/add r6, r0/ldxb r0, [r6+0]/exit/f:/mov r0, 12/exit", (7, 2, 2)),
    "what a callee answers on either way": (
        "mov r6, r1/ldxb r1, [r1+0]/calllocal f/add r6, r0/ldxb r0, [r6+0]/exit/f:/jeq r1, 0, z/mov r0, 15/exit/z:/mov r0, 16/exit",
        (11, 4),
    ),
    "a byte set on one way alone": (
        "ldxb r2, [r1+0]/mov r1, r10/calllocal f/ldxb r0, [r10-1]/exit/f:/mov r0, 0/jeq r2, 0, z/stb [r1-1], 1/z:/exit",
        (12, 3),
    ),
    "a byte set by one exit alone": (
        "ldxb r2, [r1+0]/mov r1, r10/calllocal f/ldxb r0, [r10-1]/exit/f:/mov r0, 0/jeq r2, 0, z/stb [r1-1], 1/exit/z:/exit",
        (12, 3),
    ),
    "a callee's store of a byte ends a spill": (
        "mov r1, r10/stxdw [r10-8], r10/calllocal f/ldxdw r2, [r10-8]/ldxb r0, [r2-1]/exit/f:/stb [r1-1], 0/mov r0, 0/exit",
        (10, 4),
    ),
    "a caller's spill stays": ("stxdw [r10-8], r1/calllocal f/ldxdw r2, [r10-8]/ldxb r0, [r2+4]/exit/f:/mov r0, 0/exit", (7, 2, 1)),
    "a caller's frame by way of the callee's": (
        "mov r1, r10/calllocal f/ldxdw r0, [r10-8]/exit/f:/stxdw [r10-8], r1/ldxdw r2, [r10-8]/stdw [r2-8], 3/mov r0, 0/exit",
        (9, 2, 3),
    ),
    "a pointer into the caller's frame, spilled there by the callee": (
        "mov r1, r10/calllocal f/ldxdw r2, [r10-8]/stb [r2-16], 1/ldxb r0, [r10-16]/exit/f:/stxdw [r1-8], r1/mov r0, 0/exit",
        (9, 2, 1),
    ),
    "a frame opened again is unset": ("calllocal f/calllocal g/exit/f:/stb [r10-1], 1/mov r0, 0/exit/g:/ldxb r0, [r10-1]/exit", (12, 6)),
    "a pointer leaves the caller's frame": ("mov r1, r10/add r1, -4/calllocal f/exit/f:/add r1, 8/mov r0, 0/exit", (11, 4)),
    "an access leaves the caller's frame": ("mov r1, r10/calllocal f/exit/f:/stb [r1+0], 1/mov r0, 0/exit", (11, 3)),
    "a range on a caller's frame": ("ldxb r2, [r1+0]/mov r1, r10/calllocal f/exit/f:/sub r1, r2/mov r0, 0/exit", (10, 4)),
    "the frame of a caller and the record's address are compared": ("mov r2, r10/calllocal f/exit/f:/jeq r1, r2, e/e:/mov r0, 0/exit", (10, 3)),
    "a pointer to a frame is stored to the record": ("mov r2, r10/calllocal f/exit/f:/stxdw [r1+0], r2/mov r0, 0/exit", (10, 3)),
    "a pointer to a frame in r5": ("mov r5, r10/calllocal f/exit/f:/stb [r5-1], 1/ldxb r0, [r5-1]/exit", (6, 2, 1)),
    "eight functions, one call of the next and an exit each": ("".join(f"f{k}:/calllocal f{k + 1}/exit/" for k in range(7)) + "f7:/mov r0, 0/exit", (16, 8, 0)),
    "eight functions, of which each writes the frame of the first": (
        "mov r1, r10/" + "".join(f"f{k}:/stb [r1-{k + 1}], {k}/calllocal f{k + 1}/exit/" for k in range(7)) + "f7:/ldxb r0, [r1-3]/exit",
        (24, 8, 2),
    ),
}


def branching_calls():
    """Eight functions. Each of the first seven has ten branches past a call of the next one and an exit."""
    text = ""
    for function in range(7):
        text += f"f{function}:/"
        for call in range(10):
            text += f"jeq r0, 0, n{function}_{call}/calllocal f{function + 1}/exit/n{function}_{call}:/"
        text += "exit/"
    return text + "f7:/mov r0, 0/exit"


def calls_of_ten(first):
    """Some code, and behind it five functions with ten calls of the next, seven more instructions and an exit; the sixth has eight instructions."""
    text = first
    for function in range(5):
        text += f"f{function}:/" * (function > 0) + f"calllocal f{function + 1}/" * 10 + "mov r0, 0/" * 7 + "exit/"
    return text + "f5:/" + "mov r0, 0/" * 7 + "exit"


ROWS |= {
    "nine functions, of which a load and a branch pass the first call": (
        "ldxw r3, [r1+0]/mov r1, 5/jeq r3, 0, e/calllocal f1/e:/mov r0, 0/exit/"
        + "".join(f"f{k}:/calllocal f{k + 1}/exit/" for k in range(1, 8)) + "f8:/mov r0, 0/exit",
        (6, 0),
    ),
    "54,444,441 pairs, and no walk of more than 86": (branching_calls(), (18, 0)),
    "1,000,000 pairs": (calls_of_ten("mov r0, 0/exit/"), (2, 1, 0)),
    "1,000,001 pairs": (calls_of_ten("mov r0, 0/mov r0, 0/exit/"), (18, 0)),
    "400 functions with two calls each that no walk reaches": (
        "mov r0, 3/exit/" + "".join(f"f{k}:/calllocal f{k + 1}/calllocal f{k + 1}/exit/" for k in range(399)) + "f399:/mov r0, 0/exit",
        (18, 0),
    ),
}


def found(text):
    """The verdict on a program, with the number of a run where it is accepted."""
    code = assemble(text.replace("/", "\n"))
    verdict = judged(code, LENGTH)
    if isinstance(verdict, Refused):
        return verdict.cause, verdict.pc
    return verdict[0], verdict[1], run(code, RECORD_BYTES, GRAPH, verdict[0])


def main():
    wrong = 0
    for name, (text, wanted) in ROWS.items():
        if found(text) != wanted:
            wrong += 1
            print(f"{name}: wanted {wanted}, found {found(text)}")
    print(f"{len(ROWS)} programs judged, {wrong} otherwise than wanted")
    sys.exit(1 if wrong else 0)


if __name__ == "__main__":
    main()

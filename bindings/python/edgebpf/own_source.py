"""Whether a program asks the graph only about the source of its own edge, or only about both its ends: a walk over its code."""
from __future__ import annotations

import struct
from typing import Union

# What a register holds, as said below.
Value = Union[str, int, None]
Registers = list[Value]
Ends = dict[int, str]

# What a register holds. A number N means the record's address plus N, and None means anything.
SOURCE, TARGET, STACK = "the edge's source", "the edge's target", "an address in the stack"
# The ends of the edge that a program may ask about, by where the record has them, each in so many bytes.
OWN, BOTH = {0: SOURCE}, {0: SOURCE, 4: TARGET}
END_BYTES = 4
COUNT_VERTICES, GATHER = 4, 5
KNOWN_HELPERS = range(1, 6)


class NotSeen(Exception):
    """The walk does not see that the program asks only about its edge's source."""


def asks_of(code: bytes) -> str:
    """Which vertices runs of the code ask about, once a verifier accepted it: "own" is the edge's source alone, "target" its source and its
    target alone, and "all" may be any.

    The walk goes through the instructions in their order, as jumps and calls only go forward in accepted code. It begins with the
    record's address in r1, and takes four bytes that are loaded from there for the source, and the next four for the target. A store that
    may change these bytes ends the walk. Accepted code reaches by an address that it made of r10 nothing but the stack."""
    for answer, ends in (("own", OWN), ("target", BOTH)):
        try:
            _walk(code, ends)
        except NotSeen:
            continue
        return answer
    return "all"


def _walk(code: bytes, ends: Ends) -> None:
    if not code or len(code) % 8:
        raise NotSeen
    units = len(code) // 8
    entry: Registers = [None] * 11
    entry[1], entry[10] = 0, STACK
    known = {0: entry}
    for pc in range(units):
        if pc not in known:
            continue
        for target, registers in _ways(code, pc, known.pop(pc), ends):
            if not pc < target < units:
                raise NotSeen
            other = known.get(target, registers)
            known[target] = [mine if mine == its else None for mine, its in zip(registers, other)]


def _ways(code: bytes, pc: int, registers: Registers, ends: Ends) -> list[tuple[int, Registers]]:
    """The places where a run may go on after an instruction, with what the registers hold there."""
    opcode, both, offset, immediate = struct.unpack_from("<BBhi", code, 8 * pc)
    destination, source = both & 15, both >> 4
    if destination > 10 or source > 10:
        raise NotSeen
    kind = opcode & 7
    if opcode == 0x85:
        return _called(pc, registers, (source, immediate), ends)
    if kind in (5, 6):
        return _jumped(pc, opcode, registers, offset, immediate)
    behind = registers[:]
    if kind in (4, 7):
        behind[destination] = _computed(opcode, registers, destination, source, offset, immediate)
    elif opcode == 0x18 and source == 0:
        behind[destination] = None
        return [(pc + 2, behind)]
    elif kind == 1 and opcode >> 5 in (3, 4):
        base = registers[source]
        behind[destination] = ends.get(base + offset) if opcode == 0x61 and isinstance(base, int) else None
    elif kind in (2, 3) and opcode >> 5 == 3:
        _keeps_ends(registers[destination], offset, ends)
    else:
        raise NotSeen
    return [(pc + 1, behind)]


def _jumped(pc: int, opcode: int, registers: Registers, offset: int, immediate: int) -> list[tuple[int, Registers]]:
    if opcode == 0x95:
        return []
    if opcode in (0x05, 0x06):
        return [(pc + 1 + (offset if opcode == 0x05 else immediate), registers)]
    return [(pc + 1, registers), (pc + 1 + offset, registers)]


def _called(pc: int, registers: Registers, callee: tuple[int, int], ends: Ends) -> list[tuple[int, Registers]]:
    """A call of a function of the program, or of a helper. Both leave r1 to r5 unset."""
    kind, immediate = callee
    behind: Registers = [*[None] * 6, *registers[6:]]
    if kind == 1:
        return [(pc + 1, behind), (pc + 1 + immediate, [None, *registers[1:6], *[None] * 4, STACK])]
    if kind != 0 or immediate not in KNOWN_HELPERS:
        raise NotSeen
    if immediate != COUNT_VERTICES and registers[1] not in ends.values():
        raise NotSeen
    if immediate == GATHER:
        _keeps_ends(registers[3], 0, ends)
    return [(pc + 1, behind)]


def _computed(opcode: int, registers: Registers, destination: int, source: int, offset: int, immediate: int) -> Value:
    """What an arithmetic instruction leaves in its destination."""
    if opcode == 0xBF and offset == 0:
        return registers[source]
    # The low half of an end is that end: a vertex has at most 28 bits.
    if opcode == 0xBC and offset == 0 and registers[source] in (SOURCE, TARGET):
        return registers[source]
    old = registers[destination]
    if opcode in (0x07, 0x17) and isinstance(old, int):
        return old + immediate if opcode == 0x07 else old - immediate
    return STACK if opcode in (0x07, 0x17, 0x0F, 0x1F) and old == STACK else None


def _keeps_ends(base: Value, offset: int, ends: Ends) -> None:
    """Goes on only if writing from an address on leaves these ends of the edge in the record as they are."""
    if base != STACK and not (isinstance(base, int) and base + offset >= END_BYTES * len(ends)):
        raise NotSeen

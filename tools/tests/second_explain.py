#!/usr/bin/python3
"""Explains a program of a record length by the second implementation, in the form of edgebpf_explain, where a test needs that and none
is built. Instructions stand there as the second implementation has them, and what usually helps is not said."""
import pathlib
import sys

HERE = pathlib.Path(__file__).resolve().parent
sys.path[:0] = [str(HERE.parent.parent / "tests/second_implementation"), str(HERE.parent)]

from bpf import FRAME_BYTES  # noqa: E402
from verifier import Passing, Refused, State, UNSET, UNSET_BYTE, functions_of, listed, verify  # noqa: E402

from edgebpf_tools.words import CAUSES  # noqa: E402


def ends(low, high):
    return str(low) if low == high else f"{low} to {high}"


def value_text(value):
    if value[0] == "number":
        return ends(*value[1:])
    return f"stack[{value[1]}]{value[2] or '+0'}" if value[0] == "stack" else f"{value[0]}+{ends(*value[1:])}"


def state_text(state):
    parts = [f"r{register} {value_text(value)}" for register, value in enumerate(state.registers) if value != UNSET]
    return "  ".join(parts + [text for number, frame in enumerate(state.frames) if (text := frame_text(number, frame))])


def frame_text(number, frame):
    parts = [f"bytes[{number}] {min(frame.is_set) - FRAME_BYTES} to {max(frame.is_set) - FRAME_BYTES}"] if frame.is_set else []
    return "  ".join(parts + [f"slot[{number}] {8 * slot - FRAME_BYTES} {value_text(value)}" for slot, value in sorted(frame.spilled.items())])


def operands(instruction):
    """The registers that a refused instruction reads, as far as the tests ask."""
    kind, *parts = instruction
    if kind == "load":
        return [parts[3]]
    return [parts[2], parts[3][1]] if kind == "alu" and parts[3][0] == "register" else []


class Telling(Passing):
    """The abstract pass, which notes the states of the calls that are open, by pc; and where each function was called, and the states of
    the first call of it."""

    def __init__(self, functions, length, table):
        super().__init__(functions, length, table)
        self.open, self.first, self.last = [], {}, 0

    def through(self, entry, state):
        self.open.append((entry, self.last, {}))
        behind = super().through(entry, state)
        entry, caller, states = self.open.pop()
        self.first.setdefault(entry, (entry, caller, states))
        return behind

    def ways(self, state, pc, instruction, units):
        self.open[-1][2][pc], self.last = state.copy(), pc
        return super().ways(state, pc, instruction, units)

    def told(self):
        """What is told: of a refused program the calls that are open, of an accepted one the first call of each function."""
        return {entry: (caller, states) for entry, caller, states in self.open or self.first.values()}


def walk(code, length, table):
    """Prints each instruction with the state before it, up to one that breaks a rule; returns the state there."""
    instructions = listed(code)
    telling, refused = Telling(functions_of(instructions), length, table), None
    try:
        telling.through(0, State.entry(length, table))
    except Refused as broken:
        refused = broken
    told, states, end = telling.told(), {}, len(code)
    for pc, (instruction, _) in instructions.items():
        if pc in telling.functions:
            caller, states = told.get(pc, (None, None))
            end = len(code) if refused is None else max(states, default=0) if states else 0
            if caller is not None and pc:
                print(f"called at {caller}")
        print(f"{pc}: {instruction}")
        if states is not None and pc <= end:
            nowhere = "this call does not come here" if caller is not None else "no run comes here"
            print("    " + (state_text(states[pc]) if pc in states else nowhere))
    return (instructions[refused.pc][0], telling.open[-1][2][refused.pc]) if refused else (None, None)


OBSTACLES = {"store": "stores to memory", "local": "calls a function", "helper": "calls gather"}
GATHER = 5
# Too many live functions, instructions, and pairs: rules that no single instruction breaks.
OF_THE_WHOLE = (6, 7, 18)
SLOTS_BYTES = 128


def pace_text(instructions, units):
    """How the edges of an accepted program run, which only leads forward: breadth first, as far as an exit."""
    for pc, (instruction, _) in sorted(instructions.items()):
        kind, *parts = instruction
        if (kind == "store" and not fills_slot(*parts[:3])) or kind == "local" or (kind == "helper" and parts[0] == GATHER):
            return f"runs edge by edge, since the instruction at pc {pc} {OBSTACLES[kind]}"
    steps, here = 1, {0}
    while all(instructions[pc][0][0] != "exit" for pc in here):
        steps, here = steps + 1, {way for pc in here for way in ways_from(pc, *instructions[pc])}
    if units > 3 * steps:
        return f"runs edge by edge, since a run may execute only {steps} instructions of its {units} units"
    return "runs in blocks of edges, edge by edge where one gives up"


def fills_slot(size, base, offset):
    """Whether a store is of eight bytes to one of the uppermost slots of the program's own frame."""
    return (size, base) == (8, 10) and offset in range(-SLOTS_BYTES, 0, 8)


def ways_from(pc, instruction, units):
    if instruction[0] == "jump":
        return [pc + 1 + instruction[1]]
    return [pc + units] + ([pc + 1 + instruction[5]] if instruction[0] == "branch" else [])


def main(length, code, table=b""):
    print(f"program of {len(code) // 8} units, records of {length} bytes")
    try:
        bound, frames, _ = verify(code, length, table)
    except Refused as refused:
        instruction, state = walk(code, length, table)
        place = "as a whole" if refused.cause in OF_THE_WHOLE else f"at {refused.pc}: {instruction}"
        print(f"refused {place}\nrule {refused.cause}: {CAUSES[refused.cause]}")
        for register in operands(instruction) if instruction else ():
            value = state.registers[register]
            print(f"known of r{register}: {'nothing' if value == UNSET else value_text(value)}")
        for number, frame in enumerate(state.frames if state and refused.cause == UNSET_BYTE else ()):
            text = frame_text(number, frame)
            print(f"known of frame {number}:  {text}" if text else f"known of frame {number}: no byte is set")
        print("what helps: see docs/BPF.md")
        return 1
    walk(code, length, table)
    print(f"accepted, bound {bound}, frames {frames}")
    print(pace_text(listed(code), len(code) // 8))
    return 0


# LENGTH HEX, and perhaps --table HEX.
sys.exit(main(int(sys.argv[1]), *map(bytes.fromhex, sys.argv[2:3] + sys.argv[4:])))

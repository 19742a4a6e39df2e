"""The verifier: the causes by which a program is refused, and the bound and the frames of one that is accepted."""
from bisect import bisect_right
from functools import lru_cache
from typing import NamedTuple

from bpf import ARGUMENTS, BITS_32, BITS_64, FRAME_BYTES, MOST_FRAMES, ROOMS, NoInstruction, calculated, decode, extended, negated, signed, swapped

UNSET = ("unset",)
BAD_INSTRUCTION, JUMP_OUT, JUMP_BACK, CALL_TARGET, FALLS_OFF, TOO_DEEP, TOO_LONG = 1, 2, 3, 4, 5, 6, 7
MOST_COUNTED = MOST_PAIRS = 1_000_000
UNSET_REGISTER, FRAME_REGISTER, POINTER_USE, OUT_OF_RANGE, UNSET_BYTE, NOT_A_NUMBER = 8, 9, 10, 11, 12, 15
HELPER_ARGUMENT, UNKNOWN_HELPER = 13, 14
READ_ONLY, TOO_MANY_PAIRS = 17, 18
OPPOSITES = {"eq": "ne", "gt": "le", "ge": "lt", "sgt": "sle", "sge": "slt"}
OPPOSITES |= {second: first for first, second in OPPOSITES.items()}


class Refused(Exception):
    def __init__(self, cause, pc):
        super().__init__(cause, pc)
        self.cause, self.pc = cause, pc


def number(lo, hi):
    return ("number", lo, hi)


def stack(frame, offset):
    """A place in a frame, counted from its top: the frame of number 0 is that of the function at pc 0."""
    return ("stack", frame, offset)


def is_pointer(value):
    return value[0] in ("record", "stack", "table")


def joined(left, right):
    if left == right:
        return left
    if left[0] == right[0] and left[0] in ("number", "record", "table"):
        return (left[0], min(left[1], right[1]), max(left[2], right[2]))
    return UNSET


def of_width(bits, known):
    """What a 32-bit instruction takes its input for."""
    return known if known[1] < 2**bits else (0, 2**bits - 1)


def is_constant(known):
    return known[0] == known[1]


def computed(bits, operation, left, right):
    """The range of an operation on two ranges."""
    everything = (0, 2**bits - 1)
    left, right = of_width(bits, left), of_width(bits, right)
    if operation == "mov":
        return right
    if is_constant(left) and is_constant(right):
        return (calculated(bits, operation, left[0], right[0]),) * 2
    (a, b), (c, d) = left, right
    count = c % bits if c == d else None
    fitting = lambda lo, hi: (lo, hi) if hi < 2**bits else everything
    rules = {
        "add": lambda: fitting(a + c, b + d),
        "sub": lambda: (a - d, b - c) if a >= d else everything,
        "mul": lambda: fitting(a * c, b * d),
        "div": lambda: (a // d, b // c) if c > 0 else (0, b),
        "mod": lambda: (0, min(b, d - 1)) if c > 0 else (0, b),
        "and": lambda: (0, min(b, d)),
        "or": lambda: (0, 2 ** max(b, d).bit_length() - 1),
        "xor": lambda: (0, 2 ** max(b, d).bit_length() - 1),
        "lsh": lambda: everything if count is None else fitting(a << count, b << count),
        "rsh": lambda: (0, b) if count is None else (a >> count, b >> count),
    }
    return rules.get(operation, lambda: everything)()


def of_one(bits, function, known):
    """The range of a function of one number."""
    known = of_width(bits, known)
    return (function(known[0]),) * 2 if is_constant(known) else (0, 2**bits - 1)


def without(known, other):
    """A range without the one number of another, where that is an end of it."""
    if not is_constant(other):
        return known
    if known[0] == other[0]:
        return (known[0] + 1, known[1])
    return (known[0], known[1] - 1) if known[1] == other[0] else known


def narrowed(bits, comparison, left, right):
    """Both ranges where a comparison holds; None where no numbers of them pass."""
    limit = 2 ** (bits - 1) if comparison.startswith("s") else 2**bits
    if comparison in ("set", "not set") or left[1] >= limit or right[1] >= limit:
        return left, right
    (a, b), (c, d) = left, right
    both = (max(a, c), min(b, d))
    sides = {
        "eq": (both, both),
        "ne": (without(left, right), without(right, left)),
        "gt": ((max(a, c + 1), b), (c, min(d, b - 1))),
        "ge": ((max(a, c), b), (c, min(d, b))),
        "lt": ((a, min(b, d - 1)), (max(c, a + 1), d)),
        "le": ((a, min(b, d)), (max(c, a), d)),
    }
    sides = sides[comparison[1:] if comparison.startswith("s") else comparison]
    return None if any(lo > hi for lo, hi in sides) else sides


class Frame(NamedTuple):
    """What is known of a frame: which of its bytes are set, and what was spilled to its slots. It is never changed."""

    is_set: frozenset = frozenset()
    spilled: dict = {}

    def joined(self, other):
        spilled = {slot: joined(value, other.spilled.get(slot, UNSET)) for slot, value in self.spilled.items()}
        return Frame(self.is_set & other.is_set, {slot: value for slot, value in spilled.items() if value != UNSET})

    def written(self, place, size):
        """After a write to some of its bytes: the slots that it touches hold nothing that was spilled."""
        touched = range(place // 8, (place + size - 1) // 8 + 1)
        spilled = {slot: value for slot, value in self.spilled.items() if slot not in touched}
        return Frame(self.is_set | set(range(place, place + size)), spilled)

    def spilling(self, slot, value):
        return Frame(self.is_set, self.spilled | {slot: value})

    def without_pointers(self, dropped):
        """After a frame was dropped: what was spilled of pointers to it is no longer known, and its bytes stay set."""
        return Frame(self.is_set, {slot: value for slot, value in self.spilled.items() if value[:2] != ("stack", dropped)})


class State:
    """What is known of the registers, of each live frame, the current one last, and of R6 to R9 of each function that waits."""

    def __init__(self, registers, frames, kept):
        self.registers, self.frames, self.kept = registers, frames, kept

    @staticmethod
    def entry(record_length, table=b""):
        registers = [UNSET] * 11
        registers[1], registers[2], registers[10] = ("record", 0, 0), number(record_length, record_length), stack(0, 0)
        if table:
            registers[3] = ("table", 0, 0)
        return State(registers, [Frame()], [])

    @property
    def frame(self):
        """The current frame."""
        return self.frames[-1]

    def copy(self):
        return State(self.registers[:], self.frames[:], self.kept)

    def key(self):
        """A value that is the same for states of which the same is known."""
        frames = [(frame.is_set, frozenset(frame.spilled.items())) for frame in self.frames]
        return tuple(self.registers), tuple(frames), tuple(map(tuple, self.kept))

    def joined(self, other):
        meet = lambda left, right: [joined(*pair) for pair in zip(left, right)]
        frames = [left.joined(right) for left, right in zip(self.frames, other.frames)]
        return State(meet(self.registers, other.registers), frames, [meet(*pair) for pair in zip(self.kept, other.kept)])

    def entered(self):
        """What is known where a function begins that is called here."""
        registers = [UNSET, *self.registers[1:6], *[UNSET] * 4, stack(len(self.frames), 0)]
        return State(registers, [*self.frames, Frame()], [*self.kept, self.registers[6:10]])

    def left(self):
        """What is known behind the call, where the function that was called exits here."""
        *kept, registers = self.kept
        *frames, _ = self.frames
        registers = [self.registers[0], *[UNSET] * 5, *registers, stack(len(frames) - 1, 0)]
        return State(registers, [frame.without_pointers(len(frames)) for frame in frames], kept)

    def answered(self, answer):
        """What is known behind the call of a helper."""
        return State([answer, *[UNSET] * 5, *self.registers[6:]], self.frames[:], self.kept)

    def write(self, base, place, size):
        """Some bytes of the frame of a pointer are written."""
        self.frames[base[1]] = self.frames[base[1]].written(place, size)

    def operand(self, operand, bits):
        kind, value = operand
        return self.registers[value] if kind == "register" else number(value & 2**bits - 1, value & 2**bits - 1)


class Broken(Exception):
    """The causes of the rules that an instruction breaks."""


def moved(limits, operation, pointer, known):
    """A pointer after an addition or a subtraction of a number."""
    lo, hi = (signed(known[0], 64),) * 2 if is_constant(known) else known
    if pointer[0] == "stack":
        if not is_constant(known):
            raise Broken(POINTER_USE)
        offset = pointer[2] + lo if operation == "add" else pointer[2] - lo
        if not -FRAME_BYTES <= offset <= 0:
            raise Broken(OUT_OF_RANGE)
        return stack(pointer[1], offset)
    lo, hi = (pointer[1] + lo, pointer[2] + hi) if operation == "add" else (pointer[1] - hi, pointer[2] - lo)
    if lo < 0 or hi > limits[pointer[0]]:
        raise Broken(OUT_OF_RANGE)
    return (pointer[0], lo, hi)


def arithmetic(limits, bits, operation, left, right):
    if operation == "mov" and is_pointer(right) and bits == 64:
        return right
    if operation in ("add", "sub") and bits == 64 and is_pointer(left) and right[0] == "number":
        return moved(limits, operation, left, right[1:])
    if is_pointer(right) or is_pointer(left) and operation != "mov":
        raise Broken(POINTER_USE)
    return number(*computed(bits, operation, left[1:] if operation != "mov" else (0, 0), right[1:]))


def read(*values):
    if UNSET in values:
        raise Broken(UNSET_REGISTER)


def write(state, destination, value):
    """The rules that come behind the reading: R10 first, and then those of the value."""
    if destination == 10:
        raise Broken(FRAME_REGISTER)
    state.registers[destination] = value()


def place_in_frame(base, offset, size):
    """The lowest byte of an access through a stack pointer, in its frame; None outside of that."""
    place = FRAME_BYTES + base[2] + offset
    return place if 0 <= place and place + size <= FRAME_BYTES else None


def is_inside(limits, base, offset, size):
    """Whether an access through a pointer into the record or the table lies wholly in it."""
    return base[1] + offset >= 0 and base[2] + offset + size <= limits[base[0]]


def loaded(state, limits, size, extends, base, offset):
    if base[0] == "number":
        raise Broken(POINTER_USE)
    value = number(0, BITS_64 if extends else 2 ** (8 * size) - 1)
    if base[0] in limits:
        if not is_inside(limits, base, offset, size):
            raise Broken(OUT_OF_RANGE)
        return value
    place = place_in_frame(base, offset, size)
    if place is None:
        raise Broken(OUT_OF_RANGE)
    frame = state.frames[base[1]]
    if not frame.is_set.issuperset(range(place, place + size)):
        raise Broken(UNSET_BYTE)
    if size == 8 and place % 8 == 0:
        return frame.spilled.get(place // 8, value)
    return value


def write_record(limits, base, offset, size):
    """A write through a pointer into the record, or into the table, which is never written."""
    if not is_inside(limits, base, offset, size):
        raise Broken(OUT_OF_RANGE)
    if base[0] == "table":
        raise Broken(READ_ONLY)


def store(state, limits, size, base, offset, value):
    place = place_in_frame(base, offset, size) if base[0] == "stack" else None
    is_slot = place is not None and size == 8 and place % 8 == 0
    if base[0] == "number" or is_pointer(value) and not is_slot:
        raise Broken(POINTER_USE)
    if base[0] in limits:
        write_record(limits, base, offset, size)
        return
    if place is None:
        raise Broken(OUT_OF_RANGE)
    state.write(base, place, size)
    if is_slot:
        state.frames[base[1]] = state.frames[base[1]].spilling(place // 8, value)


def ask(state, limits, helper):
    """What is known behind the call of a helper."""
    if helper not in ARGUMENTS:
        raise Broken(UNKNOWN_HELPER)
    arguments = state.registers[1 : 1 + ARGUMENTS[helper]]
    read(*arguments)
    if any(value[0] != "number" for value in arguments[:2]):
        raise Broken(HELPER_ARGUMENT)
    if helper == 5:
        return gather(state, limits, *arguments[2:])
    most = {1: BITS_32, 2: 1, 3: BITS_64, 4: BITS_32}[helper]
    return state.answered(number(0, most))


def gather(state, limits, base, room):
    if not is_pointer(base) or room[0] != "number" or not is_constant(room[1:]) or room[1] not in ROOMS:
        raise Broken(HELPER_ARGUMENT)
    size = room[1]
    behind = state.answered(number(0, size // 4))
    if base[0] in limits:
        write_record(limits, base, 0, size)
        return behind
    place = place_in_frame(base, 0, size)
    if place is None:
        raise Broken(OUT_OF_RANGE)
    behind.write(base, place, size)
    return behind


def branch_ways(state, pc, bits, comparison, left, operand, distance):
    first, second = state.registers[left], state.operand(operand, bits)
    read(first, second)
    if is_pointer(first) or is_pointer(second):
        raise Broken(POINTER_USE)
    ways = []
    for side, target in ((comparison, pc + 1 + distance), (OPPOSITES.get(comparison, "not set"), pc + 1)):
        if operand == ("register", left):
            ways.append((target, state.copy()))
            continue
        ranges = narrowed(bits, side, first[1:], second[1:])
        if ranges is None:
            continue
        way = state.copy()
        way.registers[left] = number(*ranges[0])
        if operand[0] == "register":
            way.registers[operand[1]] = number(*ranges[1])
        ways.append((target, way))
    return ways


def ways_from(state, record_length, pc, instruction, units, table=b""):
    """Where a run may go on, and what is known there. A local call is no matter of one instruction: see `Passing`."""
    kind, *parts = instruction
    limits = {"record": record_length, "table": len(table)}
    registers = state.registers
    if kind == "exit":
        read(registers[0])
        if is_pointer(registers[0]):
            raise Broken(NOT_A_NUMBER)
        return []
    if kind == "jump":
        return [(pc + 1 + parts[0], state)]
    if kind == "branch":
        return branch_ways(state, pc, *parts)
    if kind == "helper":
        return [(pc + 1, ask(state, limits, parts[0]))]
    if kind == "alu":
        bits, operation, destination, operand = parts
        left, right = registers[destination], state.operand(operand, bits)
        read(right, *([] if operation == "mov" else [left]))
        write(state, destination, lambda: arithmetic(limits, bits, operation, left, right))
    elif kind in ("neg", "swap", "extend"):
        bits = 64 if kind == "swap" else parts[0]
        functions = {
            "neg": lambda n: negated(bits, n),
            "swap": lambda n: swapped(parts[0], parts[1], n),
            "extend": lambda n: extended(bits, parts[1], n),
        }
        destination = parts[1] if kind == "neg" else parts[2]
        source = registers[parts[3] if kind == "extend" else destination]
        read(source)

        def result():
            if is_pointer(source):
                raise Broken(POINTER_USE)
            return number(*of_one(bits, functions[kind], source[1:]))

        write(state, destination, result)
    elif kind == "wide":
        write(state, parts[0], lambda: number(parts[1], parts[1]))
    elif kind == "load":
        size, extends, destination, base, offset = parts
        base = registers[base]
        read(base)
        write(state, destination, lambda: loaded(state, limits, size, extends, base, offset))
    else:
        size, base, offset, operand = parts
        base, value = registers[base], state.operand(operand, 64)
        read(base, value)
        store(state, limits, size, base, offset, value)
    return [(pc + units, state)]


def listed(code):
    """The instructions by their pcs."""
    instructions, pc = {}, 0
    while 8 * pc < len(code):
        try:
            instruction, units = decode(code, pc)
        except NoInstruction:
            raise Refused(BAD_INSTRUCTION, pc) from None
        instructions[pc] = (instruction, units)
        pc += units
    return instructions


def next_pcs(pc, instruction, units):
    kind = instruction[0]
    if kind == "exit":
        return []
    if kind == "jump":
        return [pc + 1 + instruction[1]]
    return [pc + 1 + instruction[-1], pc + 1] if kind == "branch" else [pc + units]


def entry_called(instructions, pc, instruction):
    """Where the function begins that is called, if the instruction is a call of one."""
    entry = pc + 1 + instruction[1] if instruction[0] == "local" else None
    return entry if entry in instructions and entry > pc else None


def function_entries(instructions):
    """Where the functions begin, ascending: at pc 0, and where calls go."""
    called = {entry_called(instructions, pc, instruction) for pc, (instruction, _) in instructions.items()}
    return sorted({0} | called - {None})


def test_flow(instructions, units_of_code):
    entries = function_entries(instructions)
    for pc, (instruction, units) in instructions.items():
        place = bisect_right(entries, pc)
        end = entries[place] if place < len(entries) else units_of_code
        if instruction[0] in ("jump", "branch"):
            target = pc + 1 + (instruction[1] if instruction[0] == "jump" else instruction[-1])
            if target not in instructions or target >= end:
                raise Refused(JUMP_OUT, pc)
            if target <= pc:
                raise Refused(JUMP_BACK, pc)
        if instruction[0] == "local" and entry_called(instructions, pc, instruction) is None:
            raise Refused(CALL_TARGET, pc)
        if pc + units >= end and instruction[0] not in ("exit", "jump"):
            raise Refused(FALLS_OFF, pc)


def functions_of(instructions):
    """The instructions of each function by its entry, ascending."""
    functions, entry = {entry: {} for entry in function_entries(instructions)}, 0
    for pc, found in instructions.items():
        entry = pc if pc in functions else entry
        functions[entry][pc] = found
    return functions


def pairs_of(functions):
    """For each function its instructions, and once more those of each function that it calls, for each call of it."""
    pairs = {}
    for entry, body in reversed(functions.items()):
        called = [pc + 1 + instruction[1] for pc, (instruction, _) in body.items() if instruction[0] == "local"]
        pairs[entry] = len(body) + sum(pairs[callee] for callee in called)
    return pairs


def noted(state, instruction, ways):
    """What an instruction that breaks no rule shows of its program: for counting what programs are made of."""
    kind, *parts = instruction
    if kind == "local":
        yield "call functions"
        if any(value[0] == "stack" for value in state.registers[1:6]):
            yield "lend a frame to a function"
    elif kind == "helper":
        yield f"call helper {parts[0]}"
        if parts[0] == 5 and state.registers[3][0] == "stack" and state.registers[3][1] < len(state.frames) - 1:
            yield "gather into a caller's frame"
    elif kind == "branch":
        yield "branch"
        if len(ways) == 1:
            yield "have a side that no number takes"
    elif kind in ("load", "store"):
        size, (base, offset) = parts[0], parts[3:] if kind == "load" else parts[1:3]
        base = state.registers[base]
        if base[0] == "table":
            yield "load from the table"
        elif base[0] == "record":
            yield "store to the record" if kind == "store" else "load from the record"
            if base[1] < base[2]:
                yield "access the record at a range of places"
        else:
            yield from noted_of_frame(state, kind, size, base, offset)


def noted_of_frame(state, kind, size, base, offset):
    """What an access to a frame shows."""
    callers = len(state.frames) - 1 - base[1]
    if callers:
        yield f"{kind} {'from' if kind == 'load' else 'to'} {'the' if callers == 1 else 'a farther'} caller's frame"
    place = FRAME_BYTES + base[2] + offset
    spilled = state.frames[base[1]].spilled.get(place // 8, UNSET) if kind == "load" and size == 8 and place % 8 == 0 else UNSET
    if spilled != UNSET:
        yield "take back a spilled pointer" if is_pointer(spilled) else "take back a spilled number"


def joined_way(state, other):
    """What is known where one more way leads, or where no way has led before."""
    return other if state is None else state.joined(other)


class Passing:
    """The abstract pass over a program that no earlier pass refuses: each call goes through its function in the call's own state."""

    def __init__(self, functions, record_length, table):
        self.functions, self.record_length, self.table = functions, record_length, table
        self.notes, self.exits, self.gone = set(), set(), {}

    def called(self, entry, state):
        """What is known behind a call. A function is gone through once for each state in which it is called."""
        key = entry, state.key()
        if key not in self.gone:
            self.gone[key] = self.through(entry, state)
        behind = self.gone[key]
        return behind and behind.copy()

    def through(self, entry, state):
        """Goes through a function from what is known at its entry. The answer is what is known behind its exits; None where none is walked."""
        states, behind = {entry: state}, None
        for pc, (instruction, units) in self.functions[entry].items():
            state = states.pop(pc, None)
            if state is None:
                continue
            ways = self.ways(state, pc, instruction, units)
            if instruction[0] == "exit":
                self.exits.add(pc)
                behind = joined_way(behind, state.left() if state.kept else state)
            for target, way in ways:
                if target in states:
                    self.notes.add("have two ways that meet")
                states[target] = joined_way(states.get(target), way)
        return behind

    def ways(self, state, pc, instruction, units):
        before = state.copy()
        if instruction[0] == "local":
            behind = self.called(pc + 1 + instruction[1], state.entered())
            ways = [] if behind is None else [(pc + units, behind)]
        else:
            try:
                ways = ways_from(state, self.record_length, pc, instruction, units, self.table)
            except Broken as broken:
                raise Refused(broken.args[0], pc) from None
        self.notes.update(noted(before, instruction, ways))
        return ways


def verify(code, record_length, table=b""):
    """The bound, the frames and what is noted of an accepted program, or the refusal as an exception."""
    instructions = listed(code)
    test_flow(instructions, len(code) // 8)
    counts, frames = {}, {}
    for pc, (instruction, units) in reversed(instructions.items()):
        onward, entry = next_pcs(pc, instruction, units), entry_called(instructions, pc, instruction)
        counts[pc] = 1 + counts.get(entry, 0) + max((counts[target] for target in onward), default=0)
        frames[pc] = max([1 + frames.get(entry, 0)] + [frames[target] for target in onward])
    if frames[0] > MOST_FRAMES:
        raise Refused(TOO_DEEP, 0)
    if counts[0] > MOST_COUNTED:
        raise Refused(TOO_LONG, 0)
    functions = functions_of(instructions)
    if pairs_of(functions)[0] > MOST_PAIRS:
        raise Refused(TOO_MANY_PAIRS, 0)
    passing = Passing(functions, record_length, table)
    passing.through(0, State.entry(record_length, table))
    if len(passing.exits) > 1:
        passing.notes.add("have several exits")
    return counts[0], frames[0], frozenset(passing.notes)


@lru_cache(1000)
def judged(code, record_length, table=b""):
    """What `verify` says, with a refusal as a value."""
    try:
        return verify(code, record_length, table)
    except Refused as refused:
        return refused

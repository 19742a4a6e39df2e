"""What is known before each instruction of a function whose blocks are in order, and which registers matter after it."""
import itertools
import struct
from dataclasses import dataclass, field
from functools import lru_cache

from edgebpf_tools.blocks import CALL, EXIT, JUMP, JUMP_CLASSES, LOCAL_CALL, LONG_JUMP, UNIT, WIDE, is_branch
from edgebpf_tools.limits import LEAST_RECORD_LENGTH, MOST_GATHER_BYTES, MOST_RECORD_LENGTH
from edgebpf_tools.values import ALL_32, ALL_64, ANYTHING, NUMBER, RECORD, STACK, UNSET, Value, computed, constant, extended, joined, narrowed, number, settled

FRAME_REGISTER = 10
OPERATIONS = {0: "add", 1: "sub", 2: "mul", 4: "or", 5: "and", 6: "lsh", 7: "rsh", 10: "xor", 11: "mov", 12: "arsh"}
CHOSEN = {(3, 0): "div", (3, 1): "sdiv", (9, 0): "mod", (9, 1): "smod"}
COMPARISONS = {1: "eq", 2: "gt", 3: "ge", 4: "set", 5: "ne", 6: "sgt", 7: "sge", 10: "lt", 11: "le", 12: "slt", 13: "sle"}
OPPOSITES = {"eq": "ne", "gt": "le", "ge": "lt", "sgt": "sle", "sge": "slt", "set": "not set"}
OPPOSITES |= {second: first for first, second in OPPOSITES.items()}
EXCHANGED = {"eq": "eq", "ne": "ne", "gt": "lt", "ge": "le", "lt": "gt", "le": "ge", "sgt": "slt", "sge": "sle", "slt": "sgt", "sle": "sge"}
LOADS = {0x61: 4, 0x69: 2, 0x71: 1, 0x79: 8}
SIGNED_LOADS = {0x81: 4, 0x89: 2, 0x91: 1}
STORES = {0x62: 4, 0x6A: 2, 0x72: 1, 0x7A: 8}
REGISTER_STORES = {0x63: 4, 0x6B: 2, 0x73: 1, 0x7B: 8}
HELPER_ANSWERS = {1: ALL_32, 2: 1, 4: ALL_32, 5: 64}
HELPER_ARGUMENTS = {1: 1, 2: 2, 3: 2, 4: 0, 5: 4}
DOUBLE_LOAD, DOUBLE_STORE = 0x79, 0x7B
# The opcodes of RFC 9669's groups base64 and divmul64, and from how many bits `mov` extends a sign.
OPCODES = {code << 4 | source | kind for kind in (4, 7) for code in (*OPERATIONS, *(code for code, _ in CHOSEN)) for source in (0, 8)}
OPCODES |= {code << 4 | source | kind for kind in JUMP_CLASSES for code in COMPARISONS for source in (0, 8)}
OPCODES |= {0x84, 0x87, 0xD4, 0xDC, 0xD7, WIDE, JUMP, LONG_JUMP, CALL, EXIT} | {*LOADS, *SIGNED_LOADS, *STORES, *REGISTER_STORES}
SIGN_BITS = (0, 8, 16, 32)
GATHER = 5


@dataclass(frozen=True)
class Fields:
    """The fields of a unit."""

    opcode: int
    destination: int
    source: int
    offset: int
    immediate: int

    @staticmethod
    @lru_cache(100_000)
    def of(units):
        opcode, registers, offset, immediate = struct.unpack("<BBhi", units[:8])
        return Fields(opcode, registers & 15, registers >> 4, offset, immediate)

    def units(self):
        return struct.pack("<BBhi", self.opcode, self.source << 4 | self.destination, self.offset, self.immediate)

    @property
    def is_arithmetic(self):
        return self.opcode & 7 in (4, 7)

    @property
    def bits(self):
        """The width of an operation or of a comparison."""
        return 64 if self.opcode & 7 in (7, 5) else 32

    @property
    def by_register(self):
        return bool(self.opcode & 8)

    @property
    def operation(self):
        """The word of an operation; None for a negation, a swap or an extension by the sign."""
        code = self.opcode >> 4
        if code == 11 and self.offset:
            return None
        return CHOSEN.get((code, self.offset)) or OPERATIONS.get(code)

    @property
    def comparison(self):
        return COMPARISONS[self.opcode >> 4]


def is_instruction(units):
    """Whether units are an instruction, as far as its opcode, its registers and its length say."""
    fields = Fields.of(units)
    is_whole = len(units) == (2 * UNIT if fields.opcode == WIDE else UNIT)
    has_registers = fields.destination <= FRAME_REGISTER and fields.source <= FRAME_REGISTER
    is_move = fields.is_arithmetic and OPERATIONS.get(fields.opcode >> 4) == "mov"
    return is_whole and has_registers and fields.opcode in OPCODES and (not is_move or fields.offset in SIGN_BITS)


def access_of(fields):
    """The base register, the offset and the bytes of a load or a store; None for any other instruction."""
    if fields.opcode in LOADS or fields.opcode in SIGNED_LOADS:
        return fields.source, fields.offset, (LOADS | SIGNED_LOADS)[fields.opcode]
    if fields.opcode in STORES or fields.opcode in REGISTER_STORES:
        return fields.destination, fields.offset, (STORES | REGISTER_STORES)[fields.opcode]
    return None


def copies_frame_register(blocks):
    """Whether an address in the frame stands in another register or in memory, so that a function that is called may be handed it.
    An access through the frame register itself makes no such address."""
    all_fields = [Fields.of(instruction.units) for block in blocks.values() for instruction in block.instructions]
    read = [fields for fields in all_fields if fields.source == FRAME_REGISTER]
    return any(fields.is_arithmetic and fields.by_register or fields.opcode in REGISTER_STORES for fields in read)


def may_be_handed(state):
    """Whether a function that is called here may be handed an address in a frame."""
    return any(value.kind in (STACK, ANYTHING) for value in state.registers[1:6])


@dataclass
class State:
    """What is known of registers, of places of the frame by offset and size, and of values that were tested, by their marks."""

    registers: list
    places: dict = field(default_factory=dict)
    tested: dict = field(default_factory=dict)

    def copy(self):
        return State(self.registers[:], dict(self.places), self.tested)

    def forget(self, first, end):
        """Drops what is known of the places that touch these bytes of the frame."""
        for offset, size in list(self.places):
            if offset < end and first < offset + size:
                del self.places[offset, size]

    def replace_marked(self, mark, value):
        """Notes of all equal values what is known of one."""
        if mark is None:
            return
        self.tested = self.tested | {mark: value}
        self.registers = [value if known.mark == mark else known for known in self.registers]
        self.places = {place: value if known.mark == mark else known for place, known in self.places.items()}


class Flow:
    """The states before the instructions of one function, by block and index."""

    def __init__(self, blocks, order, entry):
        self.blocks, self.order = blocks, order
        self.lends_frame = copies_frame_register(blocks)
        # Marks of values: the same for values that are computed alike of the same ones.
        self.marks, self.meetings, self.results = itertools.count(1), {}, {}
        # The mark of the number whose low half a value is.
        self.wholes = {}
        # Of a value that is another one's bits under a mask, the mark of that one and the mask.
        self.masked = {}
        self.before, self.ends, self.starts = {}, {}, {order[0]: entry}
        # The state at each call of another function, by the function.
        self.calls = {}
        # The sides of branches that no run takes: the block and which of its ways.
        self.dead = []
        for label in order:
            if label in self.starts:
                self._walk(label)

    def _walk(self, label):
        state, block = self.starts[label].copy(), self.blocks[label]
        states = self.before[label] = []
        for instruction in block.instructions:
            states.append(state.copy())
            if instruction is not block.ending:
                self.step(state, instruction)
        self.ends[label] = state
        for side, way in enumerate(block.ways):
            after = self.after_branch(state, block.ending, side == 0) if len(block.ways) == 2 else state
            if after is None:
                self.dead.append((label, side))
            else:
                self.starts[way] = self._meet(way, self.starts[way], after) if way in self.starts else after

    def _meet(self, label, one, other):
        def mark(left, right):
            if left.mark == right.mark and left.mark is not None:
                return left.mark
            return self.meetings.setdefault((label, left.mark, right.mark), next(self.marks))

        registers = [joined(left, right, mark(left, right)) for left, right in zip(one.registers, other.registers)]
        places = {key: joined(value, other.places[key], mark(value, other.places[key])) for key, value in one.places.items() if key in other.places}
        tested = {key: joined(value, other.tested[key], key) for key, value in one.tested.items() if key in other.tested}
        return State(registers, places, tested)

    def marked(self, value):
        return value._replace(mark=next(self.marks))

    def operand(self, state, fields):
        return state.registers[fields.source] if fields.by_register else constant(fields.immediate)

    def after_branch(self, state, branch, taken):
        """What is known on a side of a branch; None where no run takes it."""
        fields = Fields.of(branch.units)
        comparison = fields.comparison if taken else OPPOSITES[fields.comparison]
        left, right = state.registers[fields.destination], self.operand(state, fields)
        state = state.copy()
        if not (left.is_number and right.is_number) or comparison not in EXCHANGED:
            return state
        if fields.by_register and fields.destination == fields.source:
            return state
        if fields.bits == 32 and not fields.by_register:
            right = constant(fields.immediate & ALL_32)
        both = narrowed(left, right, fields.bits, comparison), narrowed(right, left, fields.bits, EXCHANGED[comparison])
        if any(value.is_empty() for value in both):
            return None
        state.replace_marked(left.mark, both[0])
        state.registers[fields.destination] = both[0]
        if both[0].high == 0 and left.mark in self.masked:
            self._clear_bits(state, *self.masked[left.mark])
        if fields.by_register:
            state.replace_marked(right.mark, both[1])
            state.registers[fields.source] = both[1]
        return state

    def _clear_bits(self, state, mark, mask):
        """Notes that a value has none of the bits of a mask."""
        for of in {mark, self.wholes.get(mark, mark)}:
            known = [value for value in state.registers + list(state.places.values()) if value.mark == of and value.is_number]
            for value in known[:1]:
                state.replace_marked(of, settled(value._replace(bits=value.bits & ~mask)))

    def step(self, state, instruction):
        """Changes a state as an instruction that is no branch does."""
        fields = Fields.of(instruction.units)
        if fields.opcode == WIDE:
            high = int.from_bytes(instruction.units[12:16], "little")
            state.registers[fields.destination] = self.marked(constant(high << 32 | fields.immediate & ALL_32))
        elif fields.is_arithmetic:
            state.registers[fields.destination] = self._computed(state, fields)
        elif fields.opcode == CALL:
            self._call(state, instruction, fields)
        elif access_of(fields):
            self._access(state, fields)

    def _computed(self, state, fields):
        left, right = state.registers[fields.destination], self.operand(state, fields)
        operation, bits = fields.operation, fields.bits
        if operation == "mov" and (bits == 64 or right.is_number and right.fits(32)):
            return right if right.mark is not None else self.marked(right)
        if left.is_pointer and operation in ("add", "sub") and bits == 64:
            return self._moved(left, right, operation)
        if right.is_pointer and operation == "add" and bits == 64:
            return self._moved(right, left, operation)
        if operation is None:
            kept = fields.offset if fields.opcode >> 4 == 11 else 0
            source = state.registers[fields.source]
            if not kept or not source.is_number:
                return self.marked(number(0, 2**bits - 1) if fields.opcode >> 4 != 13 else number())
            result = extended(bits, kept, source)
            return result if result is source and result.mark is not None else self.marked(result)
        if not right.is_number or operation != "mov" and not left.is_number:
            unknown = fields.bits == 64 and operation in ("add", "sub") and ANYTHING in (left.kind, right.kind)
            return self.marked(Value() if unknown else number(0, 2**bits - 1))
        if operation == "and" and left.bits & right.low == left.bits and right.low == right.high and left.mark is not None:
            return left
        result = self._result(state, computed(bits, operation, left, right), self._key(fields, left, right))
        if operation == "mov":
            self.wholes[result.mark] = right.mark
        elif operation == "and" and not fields.by_register and fields.immediate >= 0:
            self.masked[result.mark] = left.mark, fields.immediate
        return result

    def _key(self, fields, left, right):
        """What makes two results of an operation equal."""
        operation, bits = fields.operation, fields.bits
        other = right.mark if fields.by_register else fields.immediate
        if operation == "and" and not fields.by_register and fields.immediate >= 0:
            # The low half alone matters, in either width.
            return operation, self.wholes.get(left.mark, left.mark), other
        return operation, bits, None if operation == "mov" else left.mark, other, fields.by_register

    def _result(self, state, value, key):
        """A value with the mark of an equal one, and with what tests of that have shown."""
        mark = self.results.setdefault(key, next(self.marks))
        return state.tested.get(mark) or value._replace(mark=mark)

    def _moved(self, pointer, value, operation):
        offset = None
        if pointer.kind == STACK and pointer.offset is not None and value.is_number and value.low == value.high:
            offset = pointer.offset + (value.signed[0] if operation == "add" else -value.signed[0])
        return self.marked(Value(pointer.kind, offset=offset))

    def _call(self, state, instruction, fields):
        answer = number()
        if fields.source == LOCAL_CALL:
            self.calls.setdefault(instruction.callee, []).append(state.copy())
            if self.lends_frame and may_be_handed(state):
                state.places.clear()
        else:
            answer = number(0, HELPER_ANSWERS.get(fields.immediate, ALL_64))
            base = state.registers[3]
            if fields.immediate == GATHER and base.kind != RECORD:
                self._write(state, base, 0, MOST_GATHER_BYTES, None)
        state.registers[0] = self.marked(answer)
        for register in range(1, 6):
            state.registers[register] = self.marked(Value(UNSET))

    def _write(self, state, base, offset, size, value):
        if base.kind == RECORD:
            return
        if base.kind != STACK or base.offset is None:
            state.places.clear()
            return
        first = base.offset + offset
        state.forget(first, first + size)
        if value is not None:
            state.places[first, size] = value

    def _access(self, state, fields):
        base, offset, size = access_of(fields)
        pointer = state.registers[base]
        if fields.opcode in STORES or fields.opcode in REGISTER_STORES:
            stored = constant(fields.immediate) if fields.opcode in STORES else state.registers[fields.source]
            is_kept = size == 8 or size == 4 and stored.is_number and stored.fits(32)
            self._write(state, pointer, offset, size, stored if is_kept else None)
            return
        known = state.places.get((pointer.offset + offset, size)) if pointer.kind == STACK and pointer.offset is not None else None
        if fields.opcode in SIGNED_LOADS:
            known = number(signed=(-(2 ** (8 * size - 1)), 2 ** (8 * size - 1) - 1))
        elif known is None and size == 8 and pointer.kind != RECORD:
            known = Value()
        state.registers[fields.destination] = known if known and known.mark is not None else self.marked(known or number(0, 2 ** (8 * size) - 1))


def entry_state(length=None):
    """What is known where a program begins, perhaps with the length of its records."""
    # The third argument is the address of the table, if there is one.
    registers = [Value(ANYTHING if register == 3 else UNSET, mark=-1 - register) for register in range(11)]
    registers[1] = Value(RECORD, mark=-2)
    registers[2] = (number(LEAST_RECORD_LENGTH, MOST_RECORD_LENGTH) if length is None else constant(length))._replace(mark=-3)
    registers[FRAME_REGISTER] = Value(STACK, mark=-20, offset=0)
    return State(registers)


def called_state(states):
    """What is known where a function begins, from the states at all calls of it."""
    arguments = [state.registers[1:6] for state in states]
    registers = [Value(UNSET, mark=-1 - register) for register in range(11)]
    for place in range(5):
        value = arguments[0][place]
        for other in arguments[1:]:
            value = joined(value, other[place], None)
        # An address in a caller's frame is none in the function's own.
        registers[1 + place] = value._replace(mark=-2 - place) if value.kind != STACK else Value(mark=-2 - place)
    registers[FRAME_REGISTER] = Value(STACK, mark=-20, offset=0)
    return State(registers)


def reads_of(instruction):
    """The registers that an instruction reads."""
    fields = Fields.of(instruction.units)
    if fields.opcode == WIDE:
        return set()
    if fields.opcode == EXIT:
        return {0}
    if fields.opcode == CALL:
        count = 5 if fields.source == LOCAL_CALL else HELPER_ARGUMENTS.get(fields.immediate, 5)
        return set(range(1, 1 + count))
    if fields.is_arithmetic:
        source = {fields.source} if fields.by_register and fields.opcode >> 4 not in (8, 13) else set()
        return source if fields.opcode >> 4 == 11 else source | {fields.destination}
    if is_branch(instruction.units):
        return {fields.destination} | ({fields.source} if fields.by_register else set())
    base, _, _ = access_of(fields)
    return {base} | ({fields.source} if fields.opcode in REGISTER_STORES else set())


def writes_of(instruction):
    """The registers that an instruction writes."""
    fields = Fields.of(instruction.units)
    if fields.opcode == CALL:
        return set(range(6))
    if fields.opcode == WIDE or fields.is_arithmetic or fields.opcode in LOADS or fields.opcode in SIGNED_LOADS:
        return {fields.destination}
    return set()


def _addressing(instruction, after):
    """The registers from which an address is made at or after an instruction, by those after it; and places of the frame that are
    loaded for it, by their offsets, which are negative."""
    fields = Fields.of(instruction.units)
    kept = after - writes_of(instruction)
    if access := access_of(fields):
        base, offset, _ = access
        is_in_frame = base == FRAME_REGISTER and offset < 0
        if is_in_frame and fields.opcode == DOUBLE_LOAD:
            return kept | {offset} if fields.destination in after else kept
        if is_in_frame and fields.opcode == DOUBLE_STORE:
            return kept - {offset} | ({fields.source} if offset in after else set())
        return kept | {base}
    if fields.opcode == CALL:
        return kept | (set(range(1, 6)) if fields.source == LOCAL_CALL else {3} if fields.immediate == GATHER else set())
    if fields.is_arithmetic and fields.destination in after:
        return kept | reads_of(instruction)
    return kept


def backward(blocks, order, answers=True):
    """By block, for each place between its instructions: the registers that are read later, and those that addresses are made
    from. An exit reads the result, unless the function answers nothing."""
    live, addresses = {}, {}
    for label in reversed(order):
        block = blocks[label]
        read = set().union(*(live[way][0] for way in block.ways))
        address = set().union(*(addresses[way][0] for way in block.ways))
        reads, from_here = [read], [address]
        for instruction in reversed(block.instructions):
            read = (read - writes_of(instruction)) | (reads_of(instruction) if answers or instruction.opcode != EXIT else set())
            address = _addressing(instruction, address)
            reads.append(read)
            from_here.append(address)
        live[label], addresses[label] = reads[::-1], from_here[::-1]
    return live, addresses

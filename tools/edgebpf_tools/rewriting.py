"""Writes code so that the verifier follows it, without a change to what it computes: each instruction is replaced where what is known
there makes another one equal, and equal registers are copied after a test of one of them."""
from dataclasses import replace

from edgebpf_tools.blocks import EXIT, Block, Instruction, in_order
from edgebpf_tools.flow import DOUBLE_LOAD, DOUBLE_STORE, FRAME_REGISTER, Fields, Flow, backward
from edgebpf_tools.plain_flow import PlainFlow
from edgebpf_tools.spills import widen_spills
from edgebpf_tools.values import RECORD, constant

ADD, SUB, OR, XOR, MOVE, SHIFT_SIGNED, SHIFT = 0x0, 0x1, 0x4, 0xA, 0xB, 0xC, 0x7
MOVE_64, MOVE_32, MOVE_CONSTANT, AND_32, AND_64 = 0xBF, 0xBC, 0xB7, 0x54, 0x57
# No record has more bytes, so that a larger index is refused whatever is known of it.
MOST_INDEX = 255
LEFT_BY_CONSTANT = 0x67
NARROW_LOADS = (0x61, 0x69, 0x71)
# Shifts back to the right by a constant, each with the move that extends by zeros or by the sign.
EXTENSIONS = {0x77: (MOVE_32, 0), 0xC7: (MOVE_64, 32)}
# Codes of signed comparisons, each with the unsigned one that says the same of numbers that are not negative.
UNSIGNED = {0x6: 0x2, 0x7: 0x3, 0xC: 0xA, 0xD: 0xB}
GREATER, LESS_OR_EQUAL = 0x2, 0xB
# Comparisons with a constant that ask whether a number is negative, and whether they hold for negative numbers.
SIGN_TESTS = {("slt", 0): True, ("sge", 0): False, ("sgt", -1): False, ("sle", -1): True}
LEAST_IMMEDIATE, MOST_IMMEDIATE = -(2**31), 2**31 - 1


def with_code(fields, code, **changes):
    return replace(fields, opcode=code << 4 | fields.opcode & 15, **changes)


def move(destination, source):
    return Fields(MOVE_64, destination, source, 0, 0)


def with_extensions(body):
    """Instructions where a shift to the left and one back by 32 bits are one extension: of what is shifted more is known then."""
    body = iter(body)
    for instruction in body:
        fields = Fields.of(instruction.units)
        while fields.opcode == LEFT_BY_CONSTANT and fields.immediate == 32:
            after = next(body, None)
            back = after and Fields.of(after.units)
            if back and (back.destination, back.immediate) == (fields.destination, 32) and back.opcode in EXTENSIONS:
                opcode, offset = EXTENSIONS[back.opcode]
                instruction, after = Instruction(Fields(opcode, fields.destination, fields.destination, offset, 0).units(), after.place), None
            yield instruction
            if after is None:
                break
            instruction, fields = after, Fields.of(after.units)
        else:
            yield instruction


def _of_arithmetic(fields, left, right):
    """Another instruction that computes the same of these values, and of which more is known; or None."""
    operation, bits = fields.operation, fields.bits
    if operation is None:
        is_extension = fields.opcode >> 4 == MOVE
        # `right` is what is extended: where its sign is not set, nothing changes.
        if is_extension and bits == 64 and right.is_number and right.high < 2 ** (fields.offset - 1):
            return move(fields.destination, fields.source)
        return None
    if not (left.is_number and right.is_number):
        return None
    if operation == "add" and not fields.by_register and LEAST_IMMEDIATE < fields.immediate < 0 and left.fits(bits):
        if left.low >= -fields.immediate:
            return with_code(fields, SUB, immediate=-fields.immediate)
    if operation in ("or", "xor") and left.fits(bits) and right.fits(bits) and left.bits & right.bits == 0:
        if left.high + right.high < 1 << max(left.high, right.high).bit_length():
            return with_code(fields, ADD)
    if left.high < 2 ** (bits - 1):
        if operation == "arsh":
            return with_code(fields, SHIFT)
        if operation in ("sdiv", "smod") and right.high < 2 ** (bits - 1):
            return replace(fields, offset=0)
    return None


def _of_branch(fields, left, right):
    """A comparison that holds of the same values, and that narrows them more; or None."""
    if not (left.is_number and right.is_number) or fields.opcode >> 4 not in UNSIGNED:
        return None
    signed, other = left.of_width(fields.bits), right.of_width(fields.bits)
    if signed[0] >= 0 and other[0] >= 0:
        return with_code(fields, UNSIGNED[fields.opcode >> 4])
    holds_below = None if fields.by_register else SIGN_TESTS.get((fields.comparison, fields.immediate))
    if holds_below is None or not 0 <= signed[1] <= MOST_IMMEDIATE:
        return None
    return with_code(fields, GREATER if holds_below else LESS_OR_EQUAL, immediate=signed[1])


def _rewritten(instruction, state, after, addressing):
    """The instructions that stand for one that is no branch. `after` is the state after it."""
    fields = Fields.of(instruction.units)
    if not fields.is_arithmetic:
        return [instruction]
    left = state.registers[fields.destination]
    right = state.registers[fields.source] if fields.by_register else constant(fields.immediate)
    result = after.registers[fields.destination]
    made = _of_arithmetic(fields, left, right)
    if fields.destination in addressing and fields.operation != "mov" and (kept := _kept(fields, state, result)) is not None:
        made = move(fields.destination, kept)
    elif fields.operation == "and" and not fields.by_register and result.is_number and 0 <= fields.immediate & result.bits < fields.immediate:
        made = replace(fields, immediate=fields.immediate & result.bits)
    elif fields.destination in addressing and _is_tested_half(fields, right, result):
        # The verifier learns nothing of the low half of a wider number that is tested.
        cut = Fields(AND_32, fields.destination, 0, 0, (1 << result.high.bit_length()) - 1)
        return [instruction, Instruction(cut.units(), instruction.place)]
    return [Instruction(made.units(), instruction.place) if made else instruction]


def _needs_width(fields, state, body, addressing):
    """Whether a number that is tested in 32 bits, and from which an address is made, has to be shown to have no more of them."""
    known = state.registers[fields.destination]
    if fields.bits == 64 or fields.by_register or fields.destination not in addressing or not (known.is_number and known.fits(32)):
        return False
    made = [each for each in map(_fields, body) if each.destination == fields.destination and each.opcode & 7 in (0, 1, 4, 7)]
    if made and (made[-1].opcode & 7 == 4 or made[-1].opcode in NARROW_LOADS):
        return False
    # Whole values that come from other blocks, or of 64 bits.
    return not made or made[-1].opcode & 7 == 7 and made[-1].operation not in ("mov", "and") or made[-1].opcode == DOUBLE_LOAD


def _is_indexing(fields, state):
    """Whether an instruction adds a number in a register to a pointer into the record."""
    is_sum = fields.is_arithmetic and fields.operation in ("add", "sub") and fields.bits == 64 and fields.by_register
    return is_sum and state.registers[fields.destination].kind == RECORD and state.registers[fields.source].is_number


def _shown(instruction, index, states, place):
    """The instruction that cuts an index, if the verifier would know less of it."""
    fields = _fields(instruction)
    mask = (1 << index.high.bit_length()) - 1
    known = states[place].registers[fields.source] if states else None
    if known is None or not known.is_number or known.high <= mask or mask > MOST_INDEX:
        return []
    return [Instruction(Fields(AND_64, fields.source, 0, 0, mask).units(), instruction.place)]


def _fields(instruction):
    return Fields.of(instruction.units)


def _is_tested_half(fields, right, result):
    return fields.operation == "mov" and fields.bits == 32 and right.is_number and not right.fits(32) and result.high < 2**31


def _kept(fields, state, result):
    """A register that has what an instruction computes already."""
    if not result.is_number or result.low == result.high:
        return None
    same = [register for register, known in enumerate(state.registers) if known.mark == result.mark and register != fields.destination]
    return same[0] if same else None


def _is_from_the_left(instruction, state):
    """Whether it adds a pointer to a number."""
    fields = Fields.of(instruction.units)
    if not fields.is_arithmetic or fields.operation != "add" or fields.bits != 64 or not fields.by_register:
        return False
    return state.registers[fields.source].is_pointer and state.registers[fields.destination].is_number


def _exchanged(instruction, live):
    """A number plus a pointer, as the pointer plus the number: three instructions at most."""
    fields = Fields.of(instruction.units)
    free = [register for register in range(FRAME_REGISTER) if register not in live and register not in (fields.destination, fields.source)]
    if fields.source not in live and fields.source != FRAME_REGISTER:
        made = [replace(fields, destination=fields.source, source=fields.destination), move(fields.destination, fields.source)]
    elif free:
        made = [move(free[0], fields.destination), move(fields.destination, fields.source), replace(fields, source=free[0])]
    else:
        return [instruction]
    return [Instruction(each.units(), instruction.place) for each in made]


class Rewriting:
    """One function that is written anew. It answers something, unless no call of it reads the result."""

    def __init__(self, blocks, entry, answers=True):
        self.blocks, self.entry, self.answers = blocks, entry, answers
        for block in blocks.values():
            block.body = list(with_extensions(block.body))
        self._take_stock()
        if self.flow.dead:
            self._prune()
        if widen_spills(self.blocks, self.flow):
            self._take_stock()
        if self._replace():
            self._take_stock()
        if self._exchange():
            self._take_stock()
        self._copy_after_tests()
        self._take_stock()
        self._show_indices()
        if not answers:
            self._set_results()

    def _take_stock(self):
        self.order = in_order(self.blocks)
        self.flow = Flow(self.blocks, self.order, self.entry)

    def _prune(self):
        """A branch of which no run takes one side becomes a way to the other."""
        for label, side in self.flow.dead:
            block = self.blocks[label]
            block.ending, block.ways = None, [block.ways[1 - side]]
        self._take_stock()

    def _replace(self):
        """Instructions by others that compute the same. Returns whether there were any."""
        (_, addresses), changed = backward(self.blocks, self.order, self.answers), False
        for label, states in self.flow.before.items():
            block, body = self.blocks[label], []
            for place, instruction in enumerate(block.body):
                after = states[place + 1] if place + 1 < len(states) else self.flow.ends[label]
                body += _rewritten(instruction, states[place], after, addresses[label][place + 1])
            if len(block.ways) == 2:
                fields = Fields.of(block.ending.units)
                state = states[-1]
                if _needs_width(fields, state, body, set().union(*(addresses[way][0] for way in block.ways))):
                    body.append(Instruction(Fields(MOVE_32, fields.destination, fields.destination, 0, 0).units(), block.ending.place))
                other = _of_branch(fields, state.registers[fields.destination], self.flow.operand(state, fields))
                if other:
                    block.ending = Instruction(other.units(), block.ending.place)
                    changed = True
            changed = changed or body != block.body
            block.body = body
        return changed

    def _exchange(self):
        """Numbers to which a pointer is added. Returns whether there were any."""
        found = [
            (label, place)
            for label, states in self.flow.before.items()
            for place, instruction in enumerate(self.blocks[label].body)
            if _is_from_the_left(instruction, states[place])
        ]
        live, _ = backward(self.blocks, self.order, self.answers) if found else ({}, {})
        for label, place in reversed(found):
            body = self.blocks[label].body
            body[place : place + 1] = _exchanged(body[place], live[label][place + 1])
        return bool(found)

    def _copy_after_tests(self):
        """After a test of one register, copies it to equal ones from which an address is made."""
        flow, (_, addresses) = self.flow, backward(self.blocks, self.order, self.answers)
        new = max(self.blocks) + 1
        for label in list(flow.before):
            block = self.blocks[label]
            if len(block.ways) != 2:
                continue
            for side, way in enumerate(block.ways):
                copies = self._copies(flow, block, flow.before[label][-1], side == 0, addresses[way][0])
                if copies:
                    self.blocks[new] = Block(copies, None, [way], block.end_place)
                    block.ways[side] = new
                    new += 1

    def _show_indices(self):
        """An index of which the verifier would know too little is cut to the bits that it has, before it is added to a pointer."""
        known = None
        for label, states in self.flow.before.items():
            body = []
            for place, instruction in enumerate(self.blocks[label].body):
                fields, state = _fields(instruction), states[place]
                if _is_indexing(fields, state):
                    known = known or PlainFlow(self.blocks, self.order, self.entry)
                    body += _shown(instruction, state.registers[fields.source], known.before.get(label), place)
                body.append(instruction)
            self.blocks[label].body = body

    def _set_results(self):
        """The verifier wants a number as the result of each function, also of one that answers nothing in C."""
        for label, state in self.flow.ends.items():
            block = self.blocks[label]
            if block.ending and block.ending.opcode == EXIT and not state.registers[0].is_number:
                block.body.append(Instruction(Fields(MOVE_CONSTANT, 0, 0, 0, 0).units(), block.ending.place))

    def reads_of_results(self):
        """The functions that are called, and whether the result is read after the call: once for each call."""
        live, _ = backward(self.blocks, self.order, self.answers)
        for label in self.order:
            for place, instruction in enumerate(self.blocks[label].body):
                if instruction.callee is not None:
                    yield instruction.callee, 0 in live[label][place + 1]

    def _copies(self, flow, block, state, taken, addressing):
        fields = Fields.of(block.ending.units)
        after = flow.after_branch(state, block.ending, taken)
        tested = [fields.destination] + ([fields.source] if fields.by_register else [])
        found = []
        for register in tested if after else []:
            before, now = state.registers[register], after.registers[register]
            is_learned = now.is_number and (now.low, now.high) != (before.low, before.high)
            for other in addressing if is_learned else ():
                copy = self._copy(state, register, other, tested, before.mark)
                if copy:
                    found.append(Instruction(copy.units(), block.end_place))
        return found

    @staticmethod
    def _copy(state, register, other, tested, mark):
        """The copy of a register to an equal one, or to an equal place of the frame, which is named by its offset; else None."""
        if other < 0:
            kept = state.places.get((other, 8))
            return Fields(DOUBLE_STORE, FRAME_REGISTER, register, other, 0) if kept and kept.mark == mark else None
        if other in tested or other == FRAME_REGISTER or state.registers[other].mark != mark:
            return None
        return move(other, register)

"""The code of a function as blocks, and an order of the blocks in which every jump goes forward."""
from dataclasses import dataclass, field

UNIT = 8
WIDE, JUMP, LONG_JUMP, CALL, EXIT = 0x18, 0x05, 0x06, 0x85, 0x95
JUMP_CLASSES = (5, 6)
LOCAL_CALL = 1
# Codes of comparisons, each with the one that holds where it fails. "Shares a bit" has none.
OPPOSITES = {0x1: 0x5, 0x2: 0xB, 0x3: 0xA, 0x6: 0xD, 0x7: 0xC}
OPPOSITES |= {second: first for first, second in OPPOSITES.items()}


@dataclass
class Instruction:
    """One instruction, where it stands in the object file, and the function that it calls, if it is a local call."""

    units: bytes
    place: object = None
    callee: object = None

    @property
    def opcode(self):
        return self.units[0]

    @property
    def size(self):
        """How many units it takes."""
        return len(self.units) // UNIT


@dataclass
class Block:
    """Instructions that follow each other, and where a run goes on after them: nowhere after an exit, to the first of two
    blocks if the branch is taken and else to the second, or to one block."""

    body: list
    ending: object = None
    ways: list = field(default_factory=list)
    # Where the jump or the branch at the end stands in the object file.
    end_place: object = None

    @property
    def instructions(self):
        return self.body + ([self.ending] if self.ending else [])


class Circle(Exception):
    """Some blocks lead back to themselves. It has the last one and the first one."""

    def __init__(self, last, first):
        super().__init__(last, first)
        self.last, self.first = last, first


class Stray(Exception):
    """A way leads to where no block begins. It has the block."""

    def __init__(self, block):
        super().__init__(block)
        self.block = block


def signed(field_bytes):
    return int.from_bytes(field_bytes, "little", signed=True)


def split(code):
    """The units of each instruction, by its place in units."""
    at = 0
    while at < len(code) // UNIT:
        size = 2 if code[UNIT * at] == WIDE else 1
        yield at, bytes(code[UNIT * at : UNIT * (at + size)])
        at += size


def is_branch(units):
    opcode = units[0]
    return opcode & 7 in JUMP_CLASSES and opcode not in (JUMP, LONG_JUMP, CALL, EXIT)


def target_of(at, units):
    """Where a jump or a branch at a place goes; None for any other instruction."""
    if units[0] == LONG_JUMP:
        return at + 1 + signed(units[4:8])
    if units[0] == JUMP or is_branch(units):
        return at + 1 + signed(units[2:4])
    return None


def cut(code, place_of=lambda at: None):
    """The blocks of a function's code, by where they begin. A way may lead to a place where no block begins."""
    found = dict(split(code))
    starts = {0}
    for at, units in found.items():
        target = target_of(at, units)
        if target is not None:
            starts |= {target, at + 1}
        elif units[0] == EXIT:
            starts.add(at + 1)
    blocks, open_block = {}, None
    for at, units in found.items():
        if at in starts:
            block = blocks[at] = Block([])
            if open_block:
                open_block.ways = [at]
            open_block = block
        target, instruction = target_of(at, units), Instruction(units, place_of(at))
        if target is None and units[0] != EXIT:
            block.body.append(instruction)
            continue
        block.end_place, open_block = instruction.place, None
        if units[0] not in (JUMP, LONG_JUMP):
            block.ending = instruction
        block.ways = [] if units[0] == EXIT else [target, at + 1] if is_branch(units) else [target]
    if open_block:
        open_block.ways = [len(code) // UNIT]
    return blocks


def in_order(blocks, first=0):
    """The blocks that can be reached, each before all to which it leads. After a branch that is not taken the next block
    follows at once where that is possible."""
    is_open, order = {first: True}, []
    stack = [(first, iter(blocks[first].ways))]
    while stack:
        label, ways = stack[-1]
        for way in ways:
            if way not in blocks:
                raise Stray(blocks[label])
            if is_open.get(way):
                raise Circle(blocks[label], blocks[way])
            if way not in is_open:
                is_open[way] = True
                stack.append((way, iter(blocks[way].ways)))
                break
        else:
            is_open[label] = False
            order.append(label)
            stack.pop()
    return order[::-1]


def opposite(units):
    """The branch with the comparison that holds where this one fails; None if there is none."""
    code = OPPOSITES.get(units[0] >> 4)
    return None if code is None else bytes([code << 4 | units[0] & 15]) + units[1:]


def placed(blocks, order):
    """The instructions in an order of blocks, each with the label to which it goes, or None; and where each block begins."""
    listing, starts, at = [], {}, 0

    def put(instruction, target=None):
        nonlocal at
        listing.append((instruction, target))
        at += instruction.size

    for label, after in zip(order, order[1:] + [None]):
        block = blocks[label]
        starts[label] = at
        for instruction in block.body:
            put(instruction)
        ways = block.ways
        if len(ways) == 2:
            turned = opposite(block.ending.units) if ways[0] == after and ways[1] != after else None
            if turned:
                put(Instruction(turned, block.ending.place), ways[1])
                continue
            put(block.ending, ways[0])
        elif block.ending:
            put(block.ending)
        if ways and ways[-1] != after:
            put(Instruction(bytes([JUMP]) + bytes(7), block.end_place), ways[-1])
    return listing, starts


def aimed(units, distance):
    """A jump or a branch of a distance."""
    return units[:2] + distance.to_bytes(2, "little", signed=True) + units[4:]


def joined(listing, starts):
    """The instructions with the distances of their jumps, as the layout has placed them."""
    at, result = 0, []
    for instruction, target in listing:
        at += instruction.size
        units = instruction.units if target is None else aimed(instruction.units, starts[target] - at)
        result.append(Instruction(units, instruction.place, instruction.callee))
    return result


def laid_out(blocks):
    """The instructions of a function whose every jump goes forward."""
    return joined(*placed(blocks, in_order(blocks)))

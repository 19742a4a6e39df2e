"""Words that clang keeps in the frame become double words: the verifier knows what was kept in those."""
from dataclasses import dataclass, replace

from edgebpf_tools.blocks import CALL, LOCAL_CALL, UNIT, Instruction, is_branch
from edgebpf_tools.flow import FRAME_REGISTER, GATHER, Fields, State, access_of, may_be_handed
from edgebpf_tools.limits import FRAME_BYTES, MOST_GATHER_BYTES
from edgebpf_tools.values import ANYTHING, STACK

WORD = 4
# Loads and stores of a word, each with that of a double word.
DOUBLES = {0x61: 0x79, 0x63: 0x7B, 0x62: 0x7A}
WORD_LOAD, WORD_STORE, WORD_CONSTANT = DOUBLES
DOUBLE_LOAD = 0x79


@dataclass
class Use:
    """An access to the frame: where it stands, the first byte and how many, and whether it names the frame register itself."""

    label: int
    index: int
    fields: Fields
    state: State
    first: int
    size: int
    is_direct: bool

    def keeps_a_word(self):
        """Whether it may be of a double word just as well."""
        if not self.is_direct or self.fields.opcode not in DOUBLES:
            return False
        if self.fields.opcode == WORD_CONSTANT:
            return self.fields.immediate >= 0
        if self.fields.opcode == WORD_LOAD:
            return True
        stored = self.state.registers[self.fields.source]
        return stored.is_number and stored.fits(32)

    def reads_what_was_kept(self):
        """Whether it is no load, or one of what an access of its own size has stored."""
        return self.is_direct and (self.fields.opcode not in (WORD_LOAD, DOUBLE_LOAD) or (self.first, self.size) in self.state.places)


def _base(fields, state):
    """The register, the offset and the greatest number of bytes of an access; None for any other instruction."""
    if fields.opcode == CALL and fields.source != LOCAL_CALL and fields.immediate == GATHER:
        room = state.registers[4]
        return 3, 0, min(MOST_GATHER_BYTES, room.high) if room.is_number else MOST_GATHER_BYTES
    return access_of(fields)


def _is_somewhere(fields, access, state):
    """Whether an instruction of a function that makes addresses in its frame may go to any place there: by an address of which nothing
    is known, or in a function that is called."""
    if fields.opcode == CALL and fields.source == LOCAL_CALL:
        return may_be_handed(state)
    return access is not None and state.registers[access[0]].kind == ANYTHING


def _uses(blocks, flow):
    """The accesses to the frame by first byte and size; None if one is somewhere in it."""
    found = {}
    for label, states in flow.before.items():
        for index, state in enumerate(states):
            instruction = blocks[label].instructions[index]
            fields = Fields.of(instruction.units)
            access = None if is_branch(instruction.units) else _base(fields, state)
            if flow.lends_frame and _is_somewhere(fields, access, state):
                return None
            if access is None or state.registers[access[0]].kind != STACK:
                continue
            base, offset, size = access
            if state.registers[base].offset is None:
                return None
            use = Use(label, index, fields, state, state.registers[base].offset + offset, size, base == FRAME_REGISTER)
            found.setdefault((use.first, use.size), []).append(use)
    return found


def _keeps_word(instruction):
    fields = Fields.of(instruction.units)
    return fields.opcode in (WORD_STORE, WORD_CONSTANT) and fields.destination == FRAME_REGISTER


def _place(uses, first, free):
    """Where a word that is kept at a place is kept as a double word, with a free place: there, or where it is already among double
    words that are kept at other times; None if it has to stay."""
    touching = [place for place in uses if place != (first, WORD) and place[0] < first + WORD and first < place[0] + place[1]]
    if not all(use.keeps_a_word() for use in uses[first, WORD]):
        return None
    if not touching:
        return free
    together = uses[first, WORD] + uses.get((first, UNIT), [])
    is_shared = touching == [(first, UNIT)] and first % UNIT == 0 and all(use.reads_what_was_kept() for use in together)
    return first if is_shared else None


def widen_spills(blocks, flow):
    """Changes accesses in the blocks. Returns whether there were any."""
    if not any(_keeps_word(instruction) for label in flow.before for instruction in blocks[label].body):
        return False
    uses, changed = _uses(blocks, flow) or {}, False
    lowest = min((first for first, _ in uses), default=0)
    for first, size in uses:
        free = (lowest - UNIT) // UNIT * UNIT
        place = _place(uses, first, free) if size == WORD else None
        if place is None or place < -FRAME_BYTES:
            continue
        lowest, changed = min(lowest, place), True
        for use in uses[first, size]:
            old = blocks[use.label].body[use.index]
            wide = replace(use.fields, opcode=DOUBLES[use.fields.opcode], offset=place)
            blocks[use.label].body[use.index] = Instruction(wide.units(), old.place)
    return changed

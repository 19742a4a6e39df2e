"""Which variable of C a register holds, from what clang notes for debuggers, as far as llvm-dwarfdump is there and knows."""
import re
from dataclasses import dataclass, field

from edgebpf_tools.clang import newest, said_by

SCOPES = ("subprogram", "inlined_subroutine", "lexical_block")
RANGE = re.compile(r"\[(0x[0-9a-f]+), (0x[0-9a-f]+)\): DW_OP_reg(\d+) W\d+\)?$")
ONE_PLACE = re.compile(r"DW_AT_location\s+\(DW_OP_reg(\d+) W\d+\)$")


@dataclass
class Entry:
    """A variable, or a scope with its first byte and its end."""

    tag: str
    name: str = ""
    low: int = None
    end: int = None
    # The registers, with the bytes of the code in which they hold it; without an end they hold it in its whole scope.
    held: list = field(default_factory=list)


def _read(entry, text):
    if found := re.search(r"DW_AT_(?:name|abstract_origin)\s+\((?:0x[0-9a-f]+ )?\"([^\"]*)\"", text):
        entry.name = entry.name or found[1]
    elif found := re.search(r"DW_AT_low_pc\s+\((0x[0-9a-f]+)\)", text):
        entry.low = int(found[1], 16)
    elif found := re.search(r"DW_AT_high_pc\s+\((0x[0-9a-f]+)\)", text):
        entry.end = int(found[1], 16)
    elif found := ONE_PLACE.search(text):
        entry.held.append((int(found[1]), None, None))
    elif found := RANGE.search(text.strip()):
        entry.held.append((int(found[3]), int(found[1], 16), int(found[2], 16)))


def _entries(object_file):
    dwarfdump = newest("llvm-dwarfdump")
    if dwarfdump is None:
        return
    run = said_by([dwarfdump, object_file])
    entry = None
    for text in run.stdout.splitlines():
        if found := re.match(r"0x[0-9a-f]+:\s+DW_TAG_(\w+)", text):
            if entry:
                yield entry
            entry = Entry(found[1])
        elif entry:
            _read(entry, text)
    if entry:
        yield entry


def variables(object_file):
    """The variables: register, first byte of the code and its end, and the name. Inner ones come last."""
    found, scope = [], None
    for entry in _entries(object_file):
        if entry.tag in SCOPES:
            scope = entry if entry.low is not None else scope
        elif entry.tag in ("variable", "formal_parameter") and entry.name:
            for register, low, end in entry.held:
                if low is None and scope:
                    low, end = scope.low, scope.end
                if low is not None and end is not None:
                    found.append((register, low, end, entry.name))
    return found


def names_at(found, offset):
    """The names of the registers at a byte of the code."""
    return {register: name for register, low, end, name in found if low <= offset < end}

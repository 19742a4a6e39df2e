"""Takes one function, with those that it calls, out of an object file that clang made for BPF."""
import dataclasses
import functools
import io
import pathlib

from edgebpf_tools.blocks import CALL, LOCAL_CALL, UNIT, Circle, Instruction, Stray, cut, in_order, joined, placed
from edgebpf_tools.clang import lines_of
from edgebpf_tools.flow import Flow, called_state, entry_state, is_instruction
from edgebpf_tools.limits import MOST_UNITS
from edgebpf_tools.refusal import Refusal, needs_package
from edgebpf_tools.rewriting import Rewriting
from edgebpf_tools.tables import SECTION as TABLE_SECTION

EM_BPF = 247
# The flag of a section that may be written.
WRITABLE = 1
DEBUG_SECTIONS = (".debug", ".BTF", ".eh_frame")
# Opcodes of instructions outside RFC 9669's groups base64 and divmul64, with what a person calls them.
OUTSIDE = {
    0x8D: "a call through a pointer to a function",
    0xC3: "an atomic operation",
    0xDB: "an atomic operation",
    0x20: "an old packet load",
    0x28: "an old packet load",
    0x30: "an old packet load",
    0x40: "an old packet load",
    0x48: "an old packet load",
    0x50: "an old packet load",
    0xE5: "a `may_goto`",
}


@dataclasses.dataclass(frozen=True)
class Function:
    """Where a function stands in the object file; places and sizes count bytes."""

    name: str
    section: int
    start: int
    size: int
    is_static: bool


@dataclasses.dataclass(frozen=True)
class Symbol:
    """What a relocation names."""

    name: str
    section: object
    value: int
    is_section: bool


class ObjectFile:
    """The functions of an object file, their bytes, and what its relocations name."""

    def __init__(self, path):
        try:
            from elftools.elf.elffile import ELFFile
        except ImportError:
            raise needs_package("pyelftools, which reads object files,", "python3-pyelftools") from None
        self.path = path
        # In memory, where no size and no place that a damaged file claims is too large to be asked for.
        stream = io.BytesIO(pathlib.Path(path).read_bytes())
        try:
            elf = ELFFile(stream)
            if elf.header["e_machine"] not in ("EM_BPF", EM_BPF):
                raise Refusal(f"{path} is an object file of another machine; compile it with -target bpf")
            self._read(elf)
        except (Refusal, MemoryError):
            raise
        except Exception:
            # The package meets a damaged file with errors of many kinds.
            raise Refusal(f"{path} is a damaged object file") from None

    def _read(self, elf):
        table = elf.get_section_by_name(".symtab")
        self.code = {}
        self.names = {}
        self.tables = []
        self.is_written = False
        self.functions = []
        self.relocations = {}
        for index, section in enumerate(elf.iter_sections()):
            self.names[index] = section.name
            if section["sh_type"] == "SHT_PROGBITS":
                self.code[index] = section.data()
            if section.name == TABLE_SECTION:
                self.is_written = bool(section["sh_flags"] & WRITABLE)
        for symbol in table.iter_symbols():
            if symbol["st_info"]["type"] == "STT_OBJECT" and self.names.get(symbol["st_shndx"]) == TABLE_SECTION:
                self.tables.append(symbol)
            if symbol["st_info"]["type"] == "STT_FUNC" and isinstance(symbol["st_shndx"], int):
                is_static = symbol["st_info"]["bind"] == "STB_LOCAL"
                self.functions.append(
                    Function(symbol.name, symbol["st_shndx"], symbol["st_value"], symbol["st_size"], is_static)
                )
        for section in elf.iter_sections():
            if section["sh_type"] != "SHT_REL" or self.names[section["sh_info"]].startswith(DEBUG_SECTIONS):
                continue
            places = self.relocations.setdefault(section["sh_info"], {})
            for relocation in section.iter_relocations():
                symbol = table.get_symbol(relocation["r_info_sym"])
                home = symbol["st_shndx"]
                is_section = symbol["st_info"]["type"] == "STT_SECTION"
                name = self.names.get(home, "") if is_section else symbol.name
                places[relocation["r_offset"]] = Symbol(name, home, symbol["st_value"], is_section)

    def table(self):
        """The bytes of the object that is marked TABLE; none without one."""
        found = [index for index, name in self.names.items() if name == TABLE_SECTION]
        if not found:
            return b""
        names = [symbol.name for symbol in self.tables]
        if len(names) > 1:
            raise Refusal(f"the file has several objects marked TABLE: {', '.join(names)}; a program has one table")
        if self.is_written:
            raise Refusal(f"{names[0] if names else 'the table'} is marked TABLE, and no const; no run writes to its table")
        if self.relocations.get(found[0]):
            raise Refusal(f"{names[0] if names else 'the table'} is marked TABLE, and has an address in it; a table has numbers alone")
        return self.code.get(found[0], b"")

    def function_named(self, name):
        """The function of a name, or the refusal that says which there are."""
        found = [function for function in self.functions if function.name == name]
        if not found:
            there = ", ".join(function.name for function in self.functions) or "none"
            raise Refusal(
                f"there is no function {name} in the object file (functions there: {there}). A static function that "
                "nobody calls, or that is copied to where it is called, is not kept"
            )
        if found[0].size == 0:
            raise Refusal(f"the function {name} has no code: its section {self.names[found[0].section]} is empty")
        return found[0]

    def only_function(self):
        """The one function that is not static, where no name was given."""
        known = [function for function in self.functions if not function.is_static]
        if len(known) == 1:
            return self.function_named(known[0].name)
        if not known:
            raise Refusal("the file has no function that is not static, so nothing to begin with")
        names = ", ".join(function.name for function in known)
        raise Refusal(f"the file has several functions: {names}; say which one the program is")

    @functools.cached_property
    def lines(self):
        return lines_of(self.path)

    def line(self, function, offset):
        """The file and line of an instruction, where they are known."""
        return self.lines.get((self.names[function.section], function.start + offset))

    def place(self, function, offset):
        """The same for the beginning of a message, which else has the function and the unit."""
        line = self.line(function, offset)
        return f"{line}: " if line else f"{function.name}, unit {offset // UNIT}: "

    def function_at(self, section, start):
        """The function that begins at a place."""
        for function in self.functions:
            if function.section == section and function.start == start:
                return function
        return None


def _refuse_relocation(objects, function, offset, unit, symbol):
    where = objects.place(function, offset)
    if unit[0] == CALL:
        raise Refusal(
            f"{where}calls {symbol.name}, of which the file has no code. A program calls functions of its own file, and "
            "the helpers of edgebpf.h"
        )
    if symbol.section == "SHN_UNDEF":
        raise Refusal(f"{where}uses {symbol.name}, which the file does not have")
    home = objects.names.get(symbol.section, "")
    if home == TABLE_SECTION:
        raise Refusal(f"{where}uses the table by its name; a program reads it by the third parameter of its function")
    what = "constant data (a table, a string, or a `switch` that became a table)" if home.startswith(".rodata") else "data"
    raise Refusal(
        f"{where}uses {what} in section {home or '?'} by {symbol.name or home}. A program has no data of its own: mark "
        "one const object TABLE, and read it by the third parameter of the function; or write the values as numbers in the code, or "
        "hand them in as the argument at the end of the record"
    )


def _callee(objects, function, offset, unit):
    """The function that a local call at an offset goes to."""
    immediate = int.from_bytes(unit[4:8], "little", signed=True)
    symbol = objects.relocations.get(function.section, {}).get(function.start + offset)
    if symbol is None:
        section, start = function.section, function.start + offset + UNIT + UNIT * immediate
    elif not isinstance(symbol.section, int):
        _refuse_relocation(objects, function, offset, unit, symbol)
    else:
        section = symbol.section
        start = symbol.value + (UNIT * (immediate + 1) if symbol.is_section else 0)
    callee = objects.function_at(section, start)
    if callee is None:
        raise Refusal(f"{objects.place(function, offset)}calls a place where no function begins")
    return callee


def _refuse_circle(objects, function, circle):
    """A loop is told at the jump that leads back, or else where it begins."""
    places = [circle.last.end_place, *(each.place for each in circle.last.instructions[::-1] + circle.first.instructions)]
    known = [place for place in places if objects.line(function, place)]
    where = objects.place(function, (known or places)[0])
    raise Refusal(
        f"{where}this loop in {function.name} is left as a loop, and programs have none. Write EDGEBPF_UNROLL(64) before it, with "
        "the greatest number of its rounds, which a constant has to bound; or go over neighbours by for_each_neighbour"
    )


def _blocks(objects, function):
    """The blocks of a function that a run reaches."""
    code = objects.code.get(function.section, b"")[function.start : function.start + function.size]
    blocks = cut(code, lambda at: UNIT * at)
    if not blocks:
        raise Refusal(f"the function {function.name} has no code in the object file")
    try:
        order = in_order(blocks)
    except Circle as circle:
        _refuse_circle(objects, function, circle)
    except Stray as stray:
        where = objects.place(function, stray.block.end_place or (stray.block.body or [Instruction(b"", 0)])[-1].place)
        raise Refusal(
            f"{where}{function.name} goes on after its end here: it lacks a return, or does what C leaves undefined"
        ) from None
    for label in order:
        for instruction in blocks[label].instructions:
            _look_at(objects, function, instruction)
    return {label: blocks[label] for label in order}


def _look_at(objects, function, instruction):
    """Notes which function a local call goes to, and refuses what no program of edgebpf may have."""
    offset, unit = instruction.place, instruction.units
    symbol = objects.relocations.get(function.section, {}).get(function.start + offset)
    if unit[0] in OUTSIDE:
        raise Refusal(f"{objects.place(function, offset)}{OUTSIDE[unit[0]]}, which edgebpf does not have")
    if not is_instruction(unit):
        raise Refusal(f"{objects.place(function, offset)}no instruction of RFC 9669's groups base64 and divmul64 stands here")
    if unit[0] == CALL and unit[1] >> 4 == LOCAL_CALL:
        instruction.callee = _callee(objects, function, offset, unit)
    elif symbol is not None:
        _refuse_relocation(objects, function, offset, unit, symbol)


def _in_order(objects, entry):
    """The functions that the entry reaches, each after all that call it, with their blocks."""
    parts, order, open_now = {}, [], []

    def visit(function):
        if function in open_now:
            way = open_now[open_now.index(function) :] + [function]
            raise Refusal(f"{' calls '.join(each.name for each in way)}: functions may not call themselves")
        if function in parts:
            return
        open_now.append(function)
        found = _blocks(objects, function)
        for block in found.values():
            for instruction in block.body:
                if instruction.callee is not None:
                    visit(instruction.callee)
        open_now.pop()
        parts[function] = found
        order.append(function)

    visit(entry)
    return [(function, parts[function]) for function in reversed(order)]


def _rewritten(parts, length):
    """The instructions of each function, written so that the verifier follows them. Each stands after all that call it."""
    calls, is_read = {}, {parts[0][0]: True}
    for function, blocks in parts:
        state = called_state(calls[function]) if function in calls else entry_state(length)
        rewriting = Rewriting(blocks, state, is_read.get(function, False))
        for callee, reads in rewriting.reads_of_results():
            is_read[callee] = is_read.get(callee, False) or reads
        if any(instruction.callee for block in rewriting.blocks.values() for instruction in block.body):
            for callee, found in Flow(rewriting.blocks, rewriting.order, state).calls.items():
                calls.setdefault(callee, []).extend(found)
        yield function, joined(*placed(rewriting.blocks, rewriting.order))


@dataclasses.dataclass(frozen=True)
class Program:
    """The code of a program, and the function and offset of the object file from which each instruction comes, by its pc."""

    code: bytes
    places: dict


def _refuse_size(objects, entry, parts, size):
    """A program that is too large is told at the function that has most of it."""
    units = {function: sum(instruction.size for instruction in instructions) for function, instructions in parts}
    largest = max(units, key=units.get)
    raise Refusal(
        f"{objects.place(largest, 0)}{entry.name} has {size} units with what it calls, {units[largest]} of them here; a program has at "
        f"most {MOST_UNITS}. Unroll fewer rounds, or let a FUNCTION do what each round repeats"
    )


def link(objects, entry, length=None):
    """The program that begins with a function: it, and behind it those that it calls. Its records have a length, if that is known."""
    parts = list(_rewritten(_in_order(objects, entry), length))
    starts, size = {}, 0
    for function, instructions in parts:
        starts[function] = size
        size += sum(instruction.size for instruction in instructions)
    if size > MOST_UNITS:
        _refuse_size(objects, entry, parts, size)
    code, places = bytearray(), {}
    for function, instructions in parts:
        for instruction in instructions:
            at = len(code) // UNIT
            places[at] = (function, instruction.place)
            units = instruction.units
            if instruction.callee is not None:
                distance = starts[instruction.callee] - at - 1
                units = bytes([CALL, LOCAL_CALL << 4, 0, 0]) + distance.to_bytes(4, "little", signed=True)
            code += units
    return Program(bytes(code), places)

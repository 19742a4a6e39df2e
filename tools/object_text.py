#!/usr/bin/python3
"""A relocatable object file for x86-64 or aarch64 as assembly text: each loaded section's bytes, the symbols in it, and its relocations. Nothing
is added, moved or left out, so that an assembler makes the same sections of it, and the text of what it made is this text again.

    object_text.py FILE.o                        prints the text of an object file
    object_text.py --same-sections FILE OTHER    whether two linked programs have the same loaded sections
"""
import collections
import functools
import re
import struct
import sys

from elftools.common.exceptions import ELFError
from elftools.elf.constants import SH_FLAGS
from elftools.elf.elffile import ELFFile
from elftools.elf.enums import ENUM_RELOC_TYPE_AARCH64, ENUM_RELOC_TYPE_x64
from elftools.elf.relocation import RelocationSection
from elftools.elf.sections import SymbolTableSection

# Some versions of pyelftools lack this one.
ENUM_RELOC_TYPE_AARCH64.setdefault("R_AARCH64_LDST128_ABS_LO12_NC", 299)
RELOCATIONS = {
    "EM_X86_64": {number: name for name, number in ENUM_RELOC_TYPE_x64.items()},
    "EM_AARCH64": {number: name for name, number in ENUM_RELOC_TYPE_AARCH64.items()},
}
# Of aarch64: where code begins in a section, and where data. An assembler makes them itself, of the words by which both are written.
MARKS = re.compile(r"\$([dx])(\..*)?")
INSTRUCTION_BYTES, INSTRUCTIONS_A_LINE = 4, 12
FLAGS = {
    SH_FLAGS.SHF_ALLOC: "a",
    SH_FLAGS.SHF_WRITE: "w",
    SH_FLAGS.SHF_EXECINSTR: "x",
    SH_FLAGS.SHF_MERGE: "M",
    SH_FLAGS.SHF_STRINGS: "S",
    SH_FLAGS.SHF_TLS: "T",
}
KINDS = {
    "SHT_PROGBITS": "@progbits",
    "SHT_NOBITS": "@nobits",
    "SHT_NOTE": "@note",
    "SHT_INIT_ARRAY": "@init_array",
    "SHT_FINI_ARRAY": "@fini_array",
    "SHT_X86_64_UNWIND": "@unwind",
    "SHT_AMD64_UNWIND": "@unwind",
}
BINDINGS = {"STB_LOCAL": None, "STB_GLOBAL": ".globl", "STB_WEAK": ".weak"}
TYPES = {"STT_NOTYPE": None, "STT_FUNC": "@function", "STT_OBJECT": "@object", "STT_TLS": "@tls_object"}
VISIBILITIES = {"STV_DEFAULT": None, "STV_HIDDEN": ".hidden", "STV_PROTECTED": ".protected", "STV_INTERNAL": ".internal"}
BYTES_A_LINE = 32
BYTE_TEXTS = [chr(byte) if 0x20 <= byte < 0x7F and chr(byte) not in "\"\\" else f"\\{byte:03o}" for byte in range(256)]


class Unknown(Exception):
    """The object file has something of which this module knows no text."""


def known(table, key, what):
    """The text of a key. What is not in the table is an error: left out, it would be another program."""
    if key not in table:
        raise Unknown(f"{what} {key} has no text here")
    return table[key]


def quoted(name):
    return '"{}"'.format(name.replace("\\", "\\\\").replace('"', '\\"'))


def section_line(section):
    flags = section["sh_flags"]
    rest = flags & ~sum(FLAGS)
    if rest:
        raise Unknown(f"section {section.name} has the flags {rest:#x}")
    letters = "".join(letter for flag, letter in FLAGS.items() if flags & flag)
    size = f",{section['sh_entsize']}" if flags & SH_FLAGS.SHF_MERGE else ""
    return f'\t.section {quoted(section.name)},"{letters}",{known(KINDS, section["sh_type"], "section type")}{size}'


def symbol_lines(symbol):
    name = quoted(symbol.name)
    binding = known(BINDINGS, symbol["st_info"]["bind"], "binding")
    visibility = known(VISIBILITIES, symbol["st_other"]["visibility"], "visibility")
    kind = known(TYPES, symbol["st_info"]["type"], "symbol type")
    lines = [f"\t{word} {name}" for word in (binding, visibility) if word]
    if kind:
        lines.append(f"\t.type {name},{kind}")
    if symbol["st_size"]:
        lines.append(f"\t.size {name},{symbol['st_size']}")
    return [*lines, f"{name}:"]


def data_lines(data):
    """Bytes in their order: what is a character of ASCII as that, and the others as octal numbers of three digits."""
    for start in range(0, len(data), BYTES_A_LINE):
        yield '\t.ascii "{}"'.format("".join(map(BYTE_TEXTS.__getitem__, data[start : start + BYTES_A_LINE])))


def code_lines(data):
    """Instructions of aarch64 in their order, as numbers."""
    if len(data) % INSTRUCTION_BYTES:
        raise Unknown("an instruction is cut")
    words = [f"0x{word:x}" for (word,) in struct.iter_unpack("<I", data)]
    for start in range(0, len(words), INSTRUCTIONS_A_LINE):
        yield f"\t.inst {','.join(words[start : start + INSTRUCTIONS_A_LINE])}"


class Object:
    """The loaded sections of an object file, with the symbols and the relocations of each."""

    def __init__(self, stream):
        self.elf = ELFFile(stream)
        self.machine = self.elf["e_machine"]
        if self.machine not in RELOCATIONS or self.elf["e_type"] != "ET_REL":
            raise Unknown("this is no relocatable object file for x86-64 or aarch64")
        numbered = list(enumerate(self.elf.iter_sections()))
        self.table = next(section for _, section in numbered if isinstance(section, SymbolTableSection))
        self.relocations = {section["sh_info"]: section for _, section in numbered if isinstance(section, RelocationSection)}
        self.symbols = collections.defaultdict(list)
        self.marks = collections.defaultdict(dict)
        self.weak = []
        self._read_symbols()
        self.sections = [(at, section) for at, section in numbered if self._is_kept(at, section)]
        self._refuse_names_twice()

    def _is_kept(self, at, section):
        """Whether a section is loaded. An empty one has a text only if something names it: an assembler adds some of its own."""
        if not section["sh_flags"] & SH_FLAGS.SHF_ALLOC:
            return False
        return section["sh_size"] > 0 or at in self.symbols or at in self._named_sections()

    @functools.cache
    def _named_sections(self):
        """The sections that relocations name by their own symbols."""
        symbols = [symbol for symbol in self.table.iter_symbols()]
        named = {relocation["r_info_sym"] for table in self.relocations.values() for relocation in table.iter_relocations()}
        return {symbols[number]["st_shndx"] for number in named if symbols[number]["st_info"]["type"] == "STT_SECTION"}

    def _read_symbols(self):
        for symbol in self.table.iter_symbols():
            kind, section = symbol["st_info"]["type"], symbol["st_shndx"]
            if kind in ("STT_SECTION", "STT_FILE") or not symbol.name:
                continue
            mark = MARKS.fullmatch(symbol.name) if self.machine == "EM_AARCH64" else None
            if mark:
                self.marks[section][symbol["st_value"]] = mark[1] == "x"
                continue
            if section == "SHN_UNDEF":
                if symbol["st_info"]["bind"] == "STB_WEAK":
                    self.weak.append(symbol.name)
            elif isinstance(section, int):
                self.symbols[section].append(symbol)
            else:
                raise Unknown(f"symbol {symbol.name} stands in {section}")

    def _refuse_names_twice(self):
        names = [section.name for _, section in self.sections]
        names += [symbol.name for symbols in self.symbols.values() for symbol in symbols]
        twice = [name for name, count in collections.Counter(names).items() if count > 1]
        if twice:
            raise Unknown(f"two sections or symbols have the name {twice[0]}")

    def reference(self, number):
        """What a relocation names. That of a section is its name: a label of ours in its place would let the linker take
        another piece of a merged section."""
        symbol = self.table.get_symbol(number)
        if symbol["st_info"]["type"] == "STT_SECTION":
            return quoted(self.elf.get_section(symbol["st_shndx"]).name)
        return quoted(symbol.name)

    def relocation_lines(self, at, start):
        if at not in self.relocations:
            return
        for relocation in self.relocations[at].iter_relocations():
            kind = known(RELOCATIONS[self.machine], relocation["r_info_type"], "relocation")
            target = self.reference(relocation["r_info_sym"])
            yield f"\t.reloc {start}+{relocation['r_offset']},{kind},{target}{relocation['r_addend']:+d}"

    def changes(self, at):
        """Where code begins in a section after data, and data after code."""
        changes, was_code = {}, False
        for place, is_code in sorted(self.marks[at].items()):
            if is_code != was_code:
                changes[place] = was_code = is_code
        return changes

    def section_lines(self, number, at, section):
        start = f".Lsection_{number}"
        yield section_line(section)
        if section["sh_addralign"] > 1:
            yield f"\t.balign {section['sh_addralign']}"
        yield f"{start}:"
        symbols = collections.defaultdict(list)
        for symbol in self.symbols[at]:
            symbols[symbol["st_value"]].append(symbol)
        data = None if section["sh_type"] == "SHT_NOBITS" else section.data()
        size = section["sh_size"]
        changes, is_code = self.changes(at), False
        cuts = sorted({0, size, *symbols, *changes})
        if cuts[-1] > size:
            raise Unknown(f"a symbol stands after the end of {section.name}")
        for begin, end in zip(cuts, [*cuts[1:], size]):
            for symbol in sorted(symbols[begin], key=lambda symbol: symbol.name):
                yield from symbol_lines(symbol)
            is_code = changes.get(begin, is_code)
            if data is not None:
                yield from (code_lines if is_code else data_lines)(data[begin:end])
            elif begin < end:
                yield f"\t.zero {end - begin}"
        yield from self.relocation_lines(at, start)

    def lines(self):
        # all sections first, so that each name of a section means one whose kind is known
        yield from (section_line(section) for _, section in self.sections)
        yield from (f"\t.weak {quoted(name)}" for name in sorted(self.weak))
        for number, (at, section) in enumerate(self.sections):
            yield from self.section_lines(number, at, section)
        yield '\t.section .note.GNU-stack,"",@progbits'


def object_text(path):
    """The text of an object file, which begins with its first section."""
    with open(path, "rb") as stream:
        return "".join(f"{line}\n" for line in Object(stream).lines())


def loaded_sections(path):
    """The name, place, flags and bytes of each section that is loaded, of a linked program. A build's number says nothing of it."""
    with open(path, "rb") as stream:
        sections = [section for section in ELFFile(stream).iter_sections() if section["sh_flags"] & SH_FLAGS.SHF_ALLOC]
        kept = [section for section in sections if section.name != ".note.gnu.build-id"]
        facts = ("sh_type", "sh_flags", "sh_addr", "sh_size", "sh_addralign", "sh_entsize")
        return [(section.name, *[section[fact] for fact in facts], section.data()) for section in kept]


def main(words):
    if words[:1] == ["--same-sections"]:
        one, other = map(loaded_sections, words[1:])
        if one != other:
            different = [pair for pair in zip(one, other) if pair[0] != pair[1]]
            sys.exit(f"object_text: {different[0][0][0] if different else 'one section more or less'} differs")
    else:
        sys.stdout.write(object_text(words[0]))


if __name__ == "__main__":
    try:
        main(sys.argv[1:])
    except (Unknown, ELFError, OSError) as error:
        sys.exit(f"object_text: {error}")

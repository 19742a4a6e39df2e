"""Calls clang, and what comes with it."""
import re
import shutil
import subprocess

from edgebpf_tools import owned
from edgebpf_tools.clang_words import with_help
from edgebpf_tools.opaque_indices import opaque
from edgebpf_tools.refusal import Refusal, needs_package

VERSIONS = [""] + [f"-{number}" for number in range(25, 13, -1)]
# The first processor that clang knows is taken: later ones have more of RFC 9669's instructions.
PROCESSORS = ["v4", "v3"]
OPTIMIZATION = "-O2"
# A program has no tables, so a `switch` is made of branches.
TO_IR = ["-g", "-ffreestanding", "-fno-strict-aliasing", "-fno-stack-protector", "-fno-jump-tables", "-Wall", "-S", "-emit-llvm"]
TO_IR += ["-Xclang", "-disable-llvm-passes"]
# Each loop whose number of rounds is at most a constant is unrolled, as far as a program has room for it.
TO_CODE = ["-Wno-pass-failed", "-c"]
for option in ("unroll-max-upperbound=4096", "unroll-full-max-count=4096", "unroll-threshold=40000", "pragma-unroll-threshold=40000"):
    TO_CODE += ["-mllvm", f"-{option}"]
# What clang notes of each loop that ends, and a note in its place that has the loop unrolled.
LOOP_NOTE, UNROLLED_NOTE = '!"llvm.loop.mustprogress"', '!"llvm.loop.unroll.enable"'


def newest(tool):
    """The newest command of this name, with its version's ending, as `clang-19`; None where there is none."""
    for ending in VERSIONS[1:] + VERSIONS[:1]:
        if shutil.which(tool + ending):
            return tool + ending
    return None


def compile_to_bpf(source, target, folders, optimization=OPTIMIZATION, has_opaque_indices=False):
    """Compiles a file of C to an object file, as it is or with opaque indices. Returns what clang says of the source."""
    clang = newest("clang")
    if clang is None:
        raise needs_package("clang, which compiles C,", "clang-19 llvm-19")
    for processor in PROCESSORS:
        common = [clang, "-target", "bpf", f"-mcpu={processor}"]
        folder_words = [f"-I{folder}" for folder in folders]
        # A name that does not end in .c would be one of another language.
        file_words = ["-x", "c", source]
        # With -O1 clang would note of each loop that it is not to be unrolled.
        ir = said_by([*common, "-O2" if optimization == "-O1" else optimization, *TO_IR, *folder_words, *file_words, "-o", "-"])
        if ir.returncode == 0:
            unrolled = ir.stdout.replace(LOOP_NOTE, UNROLLED_NOTE)
            code = opaque(unrolled) if has_opaque_indices else unrolled
            made = said_by([*common, optimization, *TO_CODE, "-x", "ir", "-", "-o", target], code)
            if made.returncode == 0:
                return ir.stderr + made.stderr
            raise Refusal(f"clang made no code of {source}:\n{with_help(made.stderr)}")
        if "unknown target CPU" not in ir.stderr:
            break
    raise Refusal(f"clang refused {source}:\n{with_help(ir.stderr)}")


def said_by(command, text=None):
    """What a command writes and says for a text, and its status."""
    return owned.finished(command, text, stdout=subprocess.PIPE, stderr=subprocess.PIPE, errors="surrogateescape")


def lines_of(object_file):
    """The file and line of each instruction, by section and offset, as far as llvm-objdump is there and knows."""
    objdump = newest("llvm-objdump")
    if objdump is None:
        return {}
    run = said_by([objdump, "-d", "-l", object_file])
    lines, section, line = {}, None, None
    for text in run.stdout.splitlines():
        if found := re.match(r"Disassembly of section (\S+):", text):
            section, line = found[1], None
        elif found := re.match(r"; (\S.*:\d+)$", text):
            line = found[1]
        elif (found := re.match(r"\s+([0-9a-f]+):\s", text)) and line:
            # BPF instructions are counted in units.
            lines[section, 8 * int(found[1])] = line
    return lines


def type_of_result(object_file, function):
    """How the type of a function's result is called, and its bytes; None where that is not known."""
    dwarfdump = newest("llvm-dwarfdump")
    if dwarfdump is None:
        return None
    run = said_by([dwarfdump, object_file])
    entries, entry = {}, {}
    for text in run.stdout.splitlines():
        if found := re.match(r"(0x[0-9a-f]+):\s+(DW_TAG_\w+)", text):
            entry = entries[found[1]] = {"tag": found[2]}
        elif found := re.match(r"\s+DW_AT_(name|type|byte_size)\s+\(\"?([^ \")]+[^\")]*)", text):
            entry[found[1]] = found[2].strip()
    for entry in entries.values():
        if entry["tag"] == "DW_TAG_subprogram" and entry.get("name") == function:
            return _plain_type(entries, entry)
    return None


def _plain_type(entries, function):
    """What a function's result is once each name for a type is taken away."""
    if "type" not in function:
        return "void", 0
    kind = entries.get(function["type"].split()[0], {})
    while "byte_size" not in kind and "type" in kind:
        kind = entries.get(kind["type"].split()[0], {})
    if "byte_size" not in kind:
        return None
    return kind.get("name", "a type without a name"), int(kind["byte_size"], 16)

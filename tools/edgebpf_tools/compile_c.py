"""From a function in C to the `code` line of a script."""
import argparse
import os
import pathlib
import re
import sys

from edgebpf_tools import clang, columns, ends, explain, owned, tables
from edgebpf_tools.c_words import CWords
from edgebpf_tools.limits import LEAST_RECORD_LENGTH, MOST_NAME_BYTES, MOST_RECORD_LENGTH
from edgebpf_tools.link import ObjectFile, link
from edgebpf_tools.refusal import Refusal
from edgebpf_tools.run_c import asked, run_on

NAME = re.compile(rf"[A-Za-z0-9_-]{{1,{MOST_NAME_BYTES}}}")
HEADERS = pathlib.Path(__file__).resolve().parent.parent


def arguments(words):
    parser = argparse.ArgumentParser(
        prog="edgebpf-c",
        description="Compiles a function in C, with the static functions that it calls, and prints the line "
        "`code NAME LENGTH HEX` of a script. With --on it runs it, too.",
        epilog="The function is u64 NAME(struct edge *edge, u64 length), with a table as its third parameter if there is one, as "
        "tools/edgebpf.h says. Needs clang, "
        "llvm-objdump and pyelftools: apt-get install clang-19 llvm-19 python3-pyelftools",
    )
    parser.add_argument("file", metavar="FILE.c", help="the source, or an object file made with -target bpf")
    parser.add_argument("function", nargs="?", metavar="FUNCTION", help="may be left out where one is not static")
    parser.add_argument("length", type=int, metavar="LENGTH", help=f"bytes of a record, {LEAST_RECORD_LENGTH} to {MOST_RECORD_LENGTH}: {LEAST_RECORD_LENGTH} and the argument's")
    parser.add_argument("--name", help="the program's name in the script; else the function's")
    parser.add_argument("--table", metavar="FILE", help="the bytes of a table, which the function reads by its third parameter; "
                        "else those of the object marked TABLE. The line is `image NAME HEX` then")
    parser.add_argument("--table-type", choices=list(tables.TYPES), help="the file of --table has numbers of this type, one a line")
    parser.add_argument("--on", metavar="GRAPH", help="a script that makes a graph: run the program on its last version")
    parser.add_argument("--script", action="store_true", help="with --on: print the script in place of running it")
    parser.add_argument("--reduce", default="sum", choices=["min", "max", "sum"], help="with --on; else sum")
    parser.add_argument("--argument", default=None, metavar="HEX", help="with --on: the record's end; else zeros")
    parser.add_argument("--column", action="append", default=[], metavar="NAME=FILE", help="with --on: a number for each vertex, of numpy's "
                        "file or one on each line, of which the record has those of the source and the target; may be said again")
    parser.add_argument("--vertices", nargs="*", default=[], metavar="U", help="with --on: the sources; else all")
    parser.add_argument("--workers", type=int, metavar="N", help="with --on: how many threads of edgebpf share the work")
    parser.add_argument("--explain", action="store_true", help="print the source with the verifier's state before each line, and "
                        "why the program is refused or how long its runs are")
    parser.add_argument("--html", metavar="FILE", help="write the same as a page, with the instructions of each line")
    parser.add_argument("--optimize", default=clang.OPTIMIZATION, choices=["-O1", "-O2", "-O3", "-Os", "-Oz"],
                        help="clang's level of optimization; else -O2. Write it as --optimize=-Os")
    return parser.parse_args(words)


def warn(text):
    print(f"edgebpf-c: warning: {text}", file=sys.stderr)


def warn_of_result(object_file, function):
    """The result is the whole register: an `int` leaves its upper half to chance, or extends its sign."""
    found = clang.type_of_result(object_file, function)
    if found is None:
        return
    name, size = found
    if size == 0:
        raise Refusal(f"{function} has no result; a program answers a u64")
    if size != 8:
        warn(f"{function} answers {name}, of {size} bytes; edgebpf takes all 8 bytes of r0. Declare it u64")
    elif "unsigned" not in name:
        warn(f"{function} answers {name}; edgebpf takes it as unsigned, so -1 counts as 18446744073709551615")


def is_object_file(path):
    with open(path, "rb") as stream:
        return stream.read(4) == b"\x7fELF"


def linked(options, folder):
    """The object file, the function that the program begins with, and the program."""
    if is_object_file(options.file):
        found = of_object(options, options.file)
        warn_of_result(options.file, found[1].name)
        return found
    compiled = f"{folder}/program.o"
    sys.stderr.write(clang.compile_to_bpf(options.file, compiled, [HEADERS], options.optimize))
    found = of_object(options, compiled)
    table = tables.of_program(options, found[0])
    told = told_if_ready(options.length, found[2].code, table)
    if lacking := told and CWords(found[0], found[2], options.length).lacking_table(told):
        raise Refusal(f"{found[1].name} reads its table, {lacking}, and no table was given: --table FILE, or mark one const object TABLE")
    # An index of which too little is known.
    if "\nrule 11:" in told:
        again = f"{folder}/again.o"
        clang.compile_to_bpf(options.file, again, [HEADERS], options.optimize, has_opaque_indices=True)
        other = of_object(options, again)
        if told_of(options.length, other[2].code, table)[1] == 0:
            found = other
    warn_of_result(compiled, found[1].name)
    return found


def of_object(options, compiled):
    objects = ObjectFile(compiled)
    entry = objects.function_named(options.function) if options.function else objects.only_function()
    return objects, entry, link(objects, entry, options.length)


def told_of(length, code, table):
    """What is told of a program, without a table if that is empty, and the status."""
    return explain.explain(length, code.hex(), table=table.hex() or None)


def told_if_ready(length, code, table):
    """What is told of a program, as far as the program that explains is there; else nothing."""
    try:
        return told_of(length, code, table)[0] if explain.is_ready() else ""
    except Refusal:
        return ""


def explained(words, name, length, code, table):
    """Why a program is refused, at its line of C: `edgebpf_explain` knows the values, if it is there."""

    def explain_refusal(verdict, meaning):
        if explain.is_ready():
            told, _ = told_of(length, code, table)
            if told:
                lines = words.refusal(told)
                return "\n".join([f"{name} is refused: {lines[0]}", *lines[1:]])
        pc = int(verdict.split()[5]) if verdict.startswith("refused") else 0
        return f"{name} is {meaning.partition(' at unit')[0]}: {words.place(pc)}{meaning.partition(': ')[2]}"

    return explain_refusal


def show(options, words, code, table):
    """Prints the source with the verifier's state, or writes a page of it. Returns 1 for a refused program."""
    told, status = told_of(options.length, code, table)
    if not told:
        raise Refusal("edgebpf_explain wrote nothing")
    if options.html:
        with owned.whole_file(options.html) as stream:
            stream.write(words.page(told))
    if options.explain:
        sys.stdout.write(words.listing(told))
        # What is told of a refusal drops what is not written yet.
        sys.stdout.flush()
    if status == 1:
        raise Refusal("\n".join(words.refusal(told)))
    return status


def read_graph(path):
    try:
        # A carriage return alone ends no line of a script.
        with open(path, newline="") as stream:
            return stream.read().replace("\r\n", "\n").rstrip("\n")
    except (OSError, UnicodeDecodeError) as error:
        raise Refusal(f"{path}: {getattr(error, 'strerror', None) or 'it is no text'}") from None


def perform(words):
    options = arguments(words)
    if not LEAST_RECORD_LENGTH <= options.length <= MOST_RECORD_LENGTH:
        raise Refusal(f"a record has {LEAST_RECORD_LENGTH} to {MOST_RECORD_LENGTH} bytes, not {options.length}")
    if options.file.startswith("-"):
        # clang would take it for an option.
        options.file = os.path.join(".", options.file)
    with owned.folder() as folder:
        try:
            objects, entry, program = linked(options, folder)
        except OSError as error:
            raise Refusal(f"{options.file}: {error.strerror}") from None
        return finish(options, objects, entry.name, program)


def finish(options, objects, function, program):
    """Prints the line of a linked program, its source with the verifier's state, or what a run over a graph writes."""
    name = options.name or function
    if not NAME.fullmatch(name):
        raise Refusal(f"{name} is no name of a script (1 to 32 of A-Z a-z 0-9 _ -); give one by --name")
    words = CWords(objects, program, options.length)
    table = tables.of_program(options, objects)
    if options.explain or options.html:
        return show(options, words, program.code, table)
    line = tables.line_of(name, options.length, program.code, table)
    if options.on is None:
        print(line)
        return 0
    run = asked(options, name, line)
    graph = read_graph(options.on)
    vertices = columns.vertices_of(graph)
    if vertices is not None:
        columns.refuse_other_lengths(run.columns, options.on, vertices)
    if options.script:
        print("\n".join([graph, *run.lines]))
        return 0
    return run_on(options.on, graph, run, options.workers, explained(words, name, options.length, program.code, table))


def main():
    ends.run("edgebpf-c", perform)

#!/usr/bin/python3
"""Writes the codes into the scripts of examples/cookbook/, as `edgebpf-c` makes them of the functions in C beside them, with clang-19.

A line `code NAME LENGTH HEX` or `image NAME HEX` gets the code of the function NAME; its file is the one that has it.
"""
import pathlib
import re
import subprocess
import sys
import tempfile

TOP = pathlib.Path(__file__).resolve().parent.parent.parent
FOLDER = TOP / "examples" / "cookbook"
sys.path[:0] = [str(FOLDER), str(TOP / "bindings" / "python")]


def table(name):
    """The table of a program that has one."""
    if name == "weight":
        return bytes(37 * place % 256 for place in range(240))
    from bloom import bloom_filter

    return bloom_filter([1, 3], 32_768)


def line_of(name, length, has_table):
    """The line of a function: its `code`, or the `image` of it and its table."""
    source = next(path for path in sorted(FOLDER.glob("*.c")) if re.search(rf"^u64 {name}\(struct edge", path.read_text(), re.M))
    words = [sys.executable, TOP / "tools" / "edgebpf-c", source, name, length]
    with tempfile.NamedTemporaryFile() as file:
        if has_table:
            file.write(table(name))
            file.flush()
            words += ["--table", file.name]
        return subprocess.run(words, check=True, capture_output=True, text=True).stdout


def rewritten(text):
    text = re.sub(r"^code (\w+) (\d+) .*\n", lambda found: line_of(found[1], found[2], False), text, flags=re.M)
    return re.sub(r"^image (\w+) .*\n", lambda found: line_of(found[1], "16", True), text, flags=re.M)


def main():
    for path in sorted(FOLDER.glob("*.script")):
        path.write_text(rewritten(path.read_text()))


if __name__ == "__main__":
    sys.dont_write_bytecode = True
    main()

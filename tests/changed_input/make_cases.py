#!/usr/bin/env python3
"""Writes scripts of changed programs, each with what is to be written: make_cases.py FOLDER [COUNT]

Of COUNT programs, 10,000 without it, 15 in 16 differ from the valid ones of examples/ and tests/native_numbers/ in one byte of their code,
text or image, and one in 16 is a random image with a table. Each that is accepted is run. What is to be written comes from the second
implementation, tests/second_implementation/. The same place always has the same program. See README.md.
"""
import pathlib
import random
import re
import struct
import sys

ROOT = pathlib.Path(__file__).parent.parent.parent
sys.path.insert(0, str(ROOT / "tests/second_implementation"))
from programs import Programs  # noqa: E402
from script import REDUCTIONS, Session  # noqa: E402
from verifier import Refused, judged  # noqa: E402

# Programs of one script: no more are kept.
IN_ONE = 250
# Vertex 3 has so many neighbours that some of its edges are run in a block, and others one by one.
MANY = [f"+ 3 {target}" for target in range(66)]
OPENING = ["graph 70", "batch A", "+ 0 1", "+ 0 2", "+ 1 2", "+ 2 2", "+ 2 4", "+ 4 0", *MANY, "end", "pin a"]
# A run of a random program executes no more instructions than this, so that the second implementation is soon done.
MOST_STEPS = 100
ALLOWED = [9, *range(32, 127)]


def valid_programs():
    """The codes and the texts of the examples, each with the length of its record, and the images."""
    codes, texts, images = [], [], []
    for path in sorted((ROOT / "examples").glob("*.script")):
        script = path.read_text()
        codes += [(int(length), bytes.fromhex(code)) for length, code in re.findall(r"^code \S+ (\d+) ([0-9a-fA-F]+)$", script, re.M)]
        blocks = re.findall(r"^program \S+ (\d+)\n(.*?)^end$", script, re.M | re.S)
        texts += [(int(length), text.encode()) for length, text in blocks]
        images += [bytes.fromhex(image) for image in re.findall(r"^image \S+ ([0-9a-fA-F]+)$", script, re.M)]
    rows = (ROOT / "crates/test_script_rows/stdin").read_text().partition("%^ compiled by clang\n")[2].partition("\n%! ")[0]
    codes += [(int(length), bytes.fromhex(code)) for length, code in re.findall(r"^code \S+ (\d+) ([0-9a-fA-F]+)$", rows, re.M)]
    return codes, texts, images


def random_image(choice):
    """An image of a random program with a table, of which no run is long."""
    while True:
        length, table = choice.choice([16, 20, 32]), choice.randbytes(choice.choice([1, 4, 16, 256]))
        code = Programs(choice).code(length, table)
        verdict = judged(code, length, table)
        if isinstance(verdict, Refused) or verdict[0] <= MOST_STEPS:
            return b"BPE2" + struct.pack("<3H", length, len(code) // 8, len(table)) + code + table


def changed(choice, valid, allowed):
    """The bytes with one of them changed, and sometimes one left out, put in or doubled."""
    program = bytearray(valid)
    place = choice.randrange(len(program))
    kind = choice.randrange(10)
    if kind < 5:
        program[place] = choice.choice(allowed)
    elif kind < 7:
        program[place] = program[place] ^ 1 << choice.randrange(8)
    elif kind == 7:
        del program[place]
    elif kind == 8:
        program.insert(place, choice.choice(allowed))
    else:
        program.insert(place, program[place])
    return bytes(program)


class Script:
    """A script that grows, and what the second implementation says of it so far."""

    def __init__(self):
        self.session, self.lines = Session(), []
        self.add(*OPENING)

    def add(self, *lines):
        for line in lines:
            self.lines.append(line)
            self.session.line(line.encode(), len(self.lines))

    def program(self, name, lines, choice=None):
        """A program, and a run of it where it is accepted: one of random choices, if they are given."""
        self.add(*lines)
        if name in self.session.programs:
            length = self.session.programs[name][0]
            argument = choice.randbytes(length - 16) if choice else bytes(range(1, length - 15))
            reducer = choice.choice(sorted(REDUCTIONS)) if choice else "sum"
            self.add(f"run {name} a {reducer} {argument.hex() or '-'}")

    def bytes(self):
        return "".join(f"{line}\n" for line in self.lines).encode()

    def write(self, path):
        path.write_bytes(self.bytes())
        path.with_suffix(".stdout").write_text("".join(f"{line}\n" for line in self.session.said))


def is_one_block(text):
    """Whether the text has no byte that is a fault, and no line that ends the block."""
    lines = text.split(b"\n")
    return all(byte in ALLOWED or byte == 10 for byte in text) and not any(line.split() == [b"end"] for line in lines)


def main():
    folder, count = pathlib.Path(sys.argv[1]), int(sys.argv[2]) if len(sys.argv) > 2 else 10_000
    codes, texts, images = valid_programs()
    choice, script = random.Random(1), None
    for number in range(count):
        if number % IN_ONE == 0:
            script = Script()
        name = f"p{number % IN_ONE}"
        if number % 16 == 3:
            lines = [f"image {name} {random_image(choice).hex()}"]
        elif number % 8 == 7:
            lines = [f"image {name} {changed(choice, choice.choice(images), range(256)).hex()}"]
        elif number % 2:
            length, valid = choice.choice(codes)
            lines = [f"code {name} {length} {changed(choice, valid, range(256)).hex()}"]
        else:
            length, valid = choice.choice(texts)
            text = changed(choice, valid, ALLOWED + [10])
            while not is_one_block(text):
                text = changed(choice, valid, ALLOWED + [10])
            lines = [f"program {name} {length}", *text.decode().removesuffix("\n").split("\n"), "end"]
        script.program(name, lines)
        if number % IN_ONE == IN_ONE - 1 or number == count - 1:
            script.write(folder / f"changed_{number // IN_ONE:02}")


if __name__ == "__main__":
    main()

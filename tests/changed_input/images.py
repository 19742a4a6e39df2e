#!/usr/bin/env python3
"""Serves scripts of random and of changed images by the built program and by the second implementation. See README.md, and --help."""
import argparse
import os
import pathlib
import random
import struct
import sys
from collections import Counter
from concurrent.futures import ProcessPoolExecutor
from functools import lru_cache, partial

# This puts the second implementation on the path.
from make_cases import IN_ONE, MOST_STEPS, ROOT, Script, changed, valid_programs
from assembler import assemble
from bpf import NoInstruction, Trap
from compare import is_same, kind_of
from programs import Programs
from verifier import Refused, judged

PROGRAM = ROOT / "crates/edgebpf/out/edgebpf"
MOST_UNITS = MOST_TABLE_LENGTH = 4096
RECORD_LENGTHS = [16, 16, 17, 20, 24, 32, 255, 256]
TABLE_LENGTHS = [1, 2, 3, 4, 8, 16, 255, 256, 257, 1000, MOST_TABLE_LENGTH - 1, MOST_TABLE_LENGTH]
# Numbers for a field of the front: the limits, the numbers beside them, and the ends of two bytes.
FIELD_NUMBERS = [0, 1, 15, 16, 17, 255, 256, 257, MOST_UNITS - 1, MOST_UNITS, MOST_UNITS + 1, 65535]
MARKS = [b"BPE1", b"BPE2", b"BPE0", b"BPE3", b"bpe1", b"BPE\0", b"\0\0\0\0", b"2EPB"]
NEVER_REACHED = bytes.fromhex("b700000007000000")


def bytes_of(mark, fields, code, table):
    return mark + struct.pack(f"<{len(fields)}H", *fields) + code + table


def image_of(length, code, table):
    """The bytes of an image whose lengths are right."""
    if table:
        return bytes_of(b"BPE2", [length, len(code) // 8, len(table)], code, table)
    return bytes_of(b"BPE1", [length, len(code) // 8], code, b"")


@lru_cache(1)
def valid_parts():
    """The record length, the code and the table of each valid program of the repository."""
    codes, texts, images = valid_programs()
    parts = [(length, code, b"") for length, code in codes] + [(length, assemble(text.decode()), b"") for length, text in texts]
    for image in images:
        length, units, table = struct.unpack("<3H", image[4:10])
        # These are worth more, since they are few.
        parts += 20 * [(length, image[10 : 10 + 8 * units], image[len(image) - table :])]
    return parts


def lengthened(code, units):
    """The same program in so many units: its first one leads over more of them than it had."""
    more = units - len(code) // 8 - 1
    return code if more < 0 else struct.pack("<BBhi", 5, 0, more, 0) + more * NEVER_REACHED + code


class Images:
    """Random and changed images, the same for the same choices."""

    def __init__(self, choice):
        self.choice = choice

    def parts(self):
        """The parts of a random image, of which no run is long."""
        while True:
            length = self.choice.choice([*RECORD_LENGTHS, self.choice.randrange(16, 257)])
            table = self.table() if self.choice.randrange(2) else b""
            writing = Programs(self.choice)
            writing.table = table
            code = writing.code(length, table) if self.choice.randrange(2) else b"".join(writing.with_functions(length))
            verdict = judged(code, length, table)
            if isinstance(verdict, Refused) or verdict[0] <= MOST_STEPS:
                return length, code, table

    def table(self):
        return self.choice.randbytes(self.choice.choice([*TABLE_LENGTHS, self.choice.randrange(1, MOST_TABLE_LENGTH + 1)]))

    def valid(self):
        """The parts of a valid image: one of the repository, or a random one that is accepted."""
        if self.choice.randrange(2):
            return self.choice.choice(valid_parts())
        parts = self.parts()
        while isinstance(judged(parts[1], parts[0], parts[2]), Refused):
            parts = self.parts()
        return parts

    def changed(self):
        """A valid image with something changed in its front, its code or its table."""
        length, code, table = self.valid()
        kind = self.choice.randrange(12)
        if kind < 2:
            return self.with_fields(length, code, table)
        if kind == 2:
            return self.at_a_limit(length, code, table)
        image = image_of(length, code, table)
        if kind == 3:
            return self.cut(image)
        front = len(image) - len(code) - len(table)
        regions = [image[:front], code, table]
        place = self.choice.choice([0, 1, 1, 1, 2, 2] if table else [0, 1, 1, 1])
        regions[place] = changed(self.choice, regions[place], range(256))
        return b"".join(regions)

    def with_fields(self, length, code, table):
        """The image with one field of its front or its mark set otherwise, and the rest as it was."""
        mark, fields = (b"BPE2", [length, len(code) // 8, len(table)]) if table else (b"BPE1", [length, len(code) // 8])
        if self.choice.randrange(6) == 0:
            return bytes_of(self.choice.choice(MARKS), fields, code, table)
        place = self.choice.randrange(len(fields))
        beside = [(fields[place] + step) % 65536 for step in (-1, 1)]
        fields[place] = self.choice.choice(FIELD_NUMBERS + 3 * beside)
        return bytes_of(mark, fields, code, table)

    def at_a_limit(self, length, code, table):
        """The image with code, a table or a record at a limit or past it, all of whose lengths are those of its front."""
        kind = self.choice.randrange(4)
        if kind == 0:
            length = self.choice.choice([0, 15, 16, 255, 256, 257, 65535])
        if kind in (1, 3):
            code = self.choice.choice([b"", *(lengthened(code, MOST_UNITS + step) for step in (-1, 0, 0, 1))])
        if kind in (2, 3):
            size = self.choice.choice([0, 1, MOST_TABLE_LENGTH - 1, MOST_TABLE_LENGTH, MOST_TABLE_LENGTH, MOST_TABLE_LENGTH + 1])
            table = (table + self.choice.randbytes(size))[:size]
            return bytes_of(b"BPE2", [length, len(code) // 8, len(table)], code, table)
        return image_of(length, code, table)

    def cut(self, image):
        """The image without its end, or with more behind it."""
        kind = self.choice.randrange(4)
        if kind == 0:
            return image[: self.choice.randrange(min(len(image), 14))]
        if kind == 1:
            return image[: self.choice.randrange(len(image))]
        if kind == 2:
            return image[: -self.choice.choice([1, 2, 4, 7, 8, 9, 16])]
        return image + self.choice.randbytes(self.choice.choice([1, 2, 7, 8, 16]))


def case_of(number):
    """A script of images with what the second implementation writes for it, its status, and what is counted of both."""
    choice, script = random.Random(number), Script()
    images, counts = Images(choice), Counter()
    try:
        for place in range(IN_ONE):
            is_random = place % 2 == 0
            name, image = f"p{place}", image_of(*images.parts()) if is_random else images.changed()
            script.program(name, [f"image {name} {image.hex() or '-'}"], choice)
            accepted = "accepted" if name in script.session.programs else "not accepted"
            counts[f"{'random' if is_random else 'changed'} images {accepted}"] += 1
    except (NoInstruction, Trap) as stopped:
        return script.bytes(), f"a program was accepted that does not exit: {stopped!r}", 0, Counter()
    said = script.session.said
    counts += script.session.seen + Counter("line " + kind_of(line) for line in said)
    return script.bytes(), "".join(f"{line}\n" for line in said), 0, counts


def compared(program, seconds, workers, number):
    """What was counted of a script, and whether it was served otherwise."""
    case = case_of(number)
    counts = Counter(case[3])
    counts["another output"] += not all([is_same(program, seconds, number, count, case) for count in workers])
    return counts


def arguments():
    words = argparse.ArgumentParser(description=f"Serves scripts of {IN_ONE} random and changed images by the built program and by the second implementation.")
    words.add_argument("--count", type=int, default=160, help=f"how many scripts of {IN_ONE} images (160)")
    words.add_argument("--from", type=int, default=0, dest="first", help="the number of the first one (0)")
    words.add_argument("--workers", type=int, nargs="+", default=[1, 2, 16], help="with how many workers each script is served, in turn (1 2 16)")
    words.add_argument("--processes", type=int, default=os.cpu_count(), help="how many processes work side by side (as many as cores)")
    words.add_argument("--seconds", type=int, default=120, help="how long a serving may take by the clock; more on a busy machine (120)")
    words.add_argument("--program", type=pathlib.Path, default=PROGRAM, help="the program that serves")
    return words.parse_args()


def main():
    said = arguments()
    if not said.program.exists():
        sys.exit(f"images.py: {said.program} is not there: build it by tools/prove edgebpf, or name another by --program")
    numbers = range(said.first, said.first + said.count)
    with ProcessPoolExecutor(said.processes) as pool:
        counts = sum(pool.map(partial(compared, said.program, said.seconds, said.workers), numbers), Counter())
    for kind, times in sorted(counts.items()):
        print(f"{kind}: {times}")
    workers = " and ".join(map(str, said.workers))
    other = counts["another output"]
    print(f"{said.count} scripts of {IN_ONE} images from {said.first} on served with {workers} workers, {other} with another output")
    sys.exit(1 if other else 0)


if __name__ == "__main__":
    main()

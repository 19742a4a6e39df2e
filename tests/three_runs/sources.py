"""Programs to run: those that the repository has, and random ones. Each is a record length, its code and its table."""
import importlib.util
import pathlib
import re
import struct
import sys
import tempfile
from concurrent.futures import ProcessPoolExecutor
from functools import partial

ROOT = pathlib.Path(__file__).resolve().parent.parent.parent
for folder in ("tests/second_implementation", "tools", "tools/tests"):
    sys.path.insert(0, str(ROOT / folder))

from assembler import Fault, assemble, unit  # noqa: E402
from bpf import FRAME_BYTES, decode  # noqa: E402
from programs import NUMBERS, Programs  # noqa: E402
from script import NoImage, image_of  # noqa: E402
from verifier import UNSET, State, ways_from  # noqa: E402

LEVELS = ["-O1", "-O2", "-O3", "-Os"]
FIRST_C, RANDOM_C, RANDOM_C_IN_ONE = 500_000, 100, 20
EDGE_BYTES = 16
# The lowest slot of the frame that a block has.
LOWEST_SLOT = -128
TABLE_LENGTHS = [1, 4, 16, 256, 300, 4096]


def assembled(text):
    """The code of a text, or none for one with a fault."""
    try:
        return assemble(text)
    except Fault:
        return b""


def of_scripts():
    """The programs of each script in examples/ and of the rows of scripts."""
    paths = [*sorted((ROOT / "examples").rglob("*.script")), ROOT / "crates/test_script_rows/stdin"]
    for path in paths:
        script = path.read_text(errors="replace")
        for length, code in re.findall(r"^code \S+ (\d+) ((?:[0-9a-fA-F]{2})+)$", script, re.M):
            yield int(length), bytes.fromhex(code), b""
        for length, text in re.findall(r"^program \S+ (\d+)\n(.*?)^end$", script, re.M | re.S):
            yield int(length), assembled(text), b""
        for image in re.findall(r"^image \S+ ((?:[0-9a-fA-F]{2})+)$", script, re.M):
            try:
                yield image_of(bytes.fromhex(image))
            except NoImage:
                continue


def bytes_of(words):
    """The bytes of words of digits, each of which may say after a star how often it comes."""
    found = b""
    for word in words.split():
        digits, _, count = word.partition("*")
        found += bytes.fromhex(digits) * int(count or 1)
    return found


def of_program_rows():
    """The programs that crates/test_program_rows runs, verifies and explains."""
    text = (ROOT / "crates/test_program_rows/stdin").read_text()
    for part in text.split("\n%% ")[1:]:
        head, _, lines = part.partition("\n")
        kind, _, number = head.partition(":")[0].partition(" ")
        if kind not in ("run", "verify", "explain"):
            continue
        whole = re.split(r"^%[=~]\n", lines, maxsplit=1, flags=re.M)
        rows = whole[:1] if len(whole) > 1 else [line.partition(" | ")[0].replace("/", "\n") for line in lines.splitlines() if line and line[0] != "%"]
        for row in rows:
            program, _, table = row.partition(" table ")
            code = bytes_of(program[5:]) if program.startswith("code ") else assembled(program)
            yield 16 if kind == "run" else int(number), code, bytes_of(table)


def compiled(folder, job):
    """The functions of a file of C, by clang at one level."""
    from edgebpf_tools import clang
    from edgebpf_tools.compile_c import HEADERS
    from edgebpf_tools.link import ObjectFile, link
    from edgebpf_tools.refusal import Refusal

    path, level = job
    length = int(re.match(r"// Records of ([0-9]+) bytes\.", path.read_text())[1])
    made, found = f"{folder}/{path.stem}{level}.o", []
    clang.compile_to_bpf(str(path), made, [HEADERS], level)
    objects = ObjectFile(made)
    for function in objects.functions:
        if function.is_static:
            continue
        try:
            found.append((length, link(objects, function, length).code, b""))
        except Refusal:
            continue
    return found


def of_c(processes):
    """The functions of tests/from_c, and random functions in C, by clang at each level; none where the packages are not there."""
    if importlib.util.find_spec("elftools") is None:
        print("the programs in C are left out: pyelftools is not there", file=sys.stderr)
        return
    import random_c

    with tempfile.TemporaryDirectory() as folder, ProcessPoolExecutor(processes) as pool:
        paths = [pathlib.Path(folder) / f"random{first}.c" for first in range(0, RANDOM_C, RANDOM_C_IN_ONE)]
        for first, path in zip(range(FIRST_C, FIRST_C + RANDOM_C, RANDOM_C_IN_ONE), paths):
            path.write_text(f"// Records of {random_c.LENGTH} bytes.\n" + random_c.source(first, first + RANDOM_C_IN_ONE))
        paths += [path for path in sorted((ROOT / "tests/from_c").glob("*.c")) if path.name != "native.c"]
        for found in pool.map(partial(compiled, folder), [(path, level) for path in paths for level in LEVELS]):
            yield from found


def of_repository(processes):
    """All programs of the repository that have code, each once and with the name of its source."""
    sources = {"script": of_scripts, "row": of_program_rows, "c": partial(of_c, processes)}
    found = {}
    for name, programs in sources.items():
        for length, code, table in programs():
            if 16 <= length <= 256 and 0 < len(code) <= 32768 and len(code) % 8 == 0 and len(table) <= 4096:
                found.setdefault((length, code, table), f"{name}{len(found)}")
    return [(name, parts) for parts, name in found.items()]


def fits_blocks(state, item):
    """Whether a block can do an instruction, as far as that is seen here: of the accesses only some."""
    kind, sizes = item[0] & 7, {0x00: 4, 0x08: 2, 0x10: 1, 0x18: 8}
    if kind not in (1, 2, 3):
        return True
    base = state.registers[item[1] >> 4 if kind == 1 else item[1] & 15]
    offset, size = struct.unpack("<h", item[2:4])[0], sizes[item[0] & 0x18]
    if base[0] == "record":
        first, last = base[1] + offset, base[2] + offset
        return kind == 1 and (first >= EDGE_BYTES or size == 4 and first == last and first % 4 == 0)
    place = base[2] + offset if base[0] == "stack" else -8
    return base[0] == "table" and kind == 1 or size == 8 and place % 8 == 0 and place >= LOWEST_SLOT


class BlockPrograms(Programs):
    """Random programs that blocks of edges mostly do not give up at: they call no function, and most accesses are those that a block can do."""

    def instruction(self, state):
        item = super().instruction(state)
        while not fits_blocks(state, item) and not self.often(0.01):
            item = super().instruction(state)
        return item

    def kept(self, state, target, value):
        slots = [slot for slot, known in state.frame.spilled.items() if known != UNSET]
        if slots and self.often(0.6):
            return unit(0x79, target, 10, 8 * self.choice(slots) - FRAME_BYTES)
        return unit(0x7B, 10, value, self.choice([-8, -8, -16, -24, -120, LOWEST_SLOT]))

    def asking(self, state):
        items = super().asking(state)
        while struct.unpack("<i", items[-1][4:])[0] == 5:
            items = super().asking(state)
        return items

    def indexing(self, state, length):
        """The index is one of the edge's numbers, and what is at the place is loaded."""
        items = super().indexing(state, length)
        while items[-1][0] & 7 != 1:
            items = super().indexing(state, length)
        return [b"\x61" + items[0][1:], *items[1:]]

    def set_up(self, state, length):
        """Each register is set, mostly; R8 and R9 are often places in the argument."""
        items = []
        for register in (0, 3, 4, 5, 6, 7, 8, 9):
            if state.registers[register][0] == "table" or self.often(0.1):
                continue
            if register > 7 and length > EDGE_BYTES and self.often(0.7):
                items += [unit(0xBF, register, 1), unit(7, register, immediate=EDGE_BYTES)]
                continue
            items.append(self.choice([unit(0x61, register, 1, self.choice([0, 4, 8, 12])), unit(0xB7, register, immediate=self.choice(NUMBERS))]))
        for item in items:
            ways_from(state, length, 0, *decode(item, 0), self.table)
        return items

    def block_code(self, length):
        state = State.entry(length, self.table)
        return b"".join(self.with_distances(self.ended(*self.steps(state, length, self.set_up(state, length), 40))))


def random_program(choice):
    """A random program. Some have functions, most of which are lent frames, some a table, and half are mostly done in blocks."""
    length = choice.choice([16, 16, 17, 20, 32, 256])
    table = choice.randbytes(choice.choice(TABLE_LENGTHS)) if choice.random() < 0.35 else b""
    kind = choice.random()
    writing = BlockPrograms(choice) if kind > 0.5 else Programs(choice)
    writing.table = table
    if kind > 0.5:
        return length, writing.block_code(length), table
    if kind < 0.01:
        return length, b"".join(writing.chain()), table
    return length, b"".join(writing.with_functions(length)) if kind < 0.25 else writing.code(length, table), table

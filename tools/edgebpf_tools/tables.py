"""The read-only table of a program: of an object in C marked TABLE, or of a file."""
import struct

from edgebpf_tools.limits import MOST_TABLE_LENGTH
from edgebpf_tools.refusal import Refusal

SECTION = ".edgebpf_table"
# The longest text of numbers that is read.
MOST_TEXT = 1_000_000
TYPES = {"u8": "<B", "u16": "<H", "u32": "<I", "u64": "<Q"}


def _number(path, line, word, form):
    try:
        return struct.pack(form, int(word))
    except (ValueError, struct.error):
        most = 2 ** (8 * struct.calcsize(form)) - 1
        raise Refusal(f"{path}:{line}: {word} is no number from 0 to {most}") from None


def of_file(path, kind=None):
    """The bytes of a file, or of the numbers of its lines, each of a type."""
    most = MOST_TABLE_LENGTH if kind is None else MOST_TEXT
    try:
        with open(path, "rb") as stream:
            read = stream.read(most + 1)
        if len(read) > most:
            raise Refusal(f"{path} has more than {most} bytes, the most of a table{'' if kind is None else ' as text'}")
        lines = [] if kind is None else read.decode().split("\n")
    except (OSError, UnicodeDecodeError) as error:
        raise Refusal(f"{path}: {getattr(error, 'strerror', None) or 'it is no text'}") from None
    if kind is None:
        return read
    return b"".join(_number(path, at, word, TYPES[kind]) for at, line in enumerate(lines, 1) for word in line.split())


def of_program(options, objects):
    """The table of a program; without one it is empty."""
    if options.table_type and options.table is None:
        raise Refusal("--table-type says what the lines of --table FILE are")
    marked = objects.table()
    if options.table is None:
        table = marked
    elif marked:
        raise Refusal("a program has one table: drop --table, or the object marked TABLE")
    else:
        table = of_file(options.table, options.table_type)
        if not table:
            raise Refusal(f"{options.table} has no byte; a table has 1 to {MOST_TABLE_LENGTH}")
    if len(table) > MOST_TABLE_LENGTH:
        raise Refusal(f"the table has {len(table)} bytes; it may have 1 to {MOST_TABLE_LENGTH}")
    return table


def line_of(name, length, code, table):
    """The line of a script that loads a program."""
    if not table:
        return f"code {name} {length} {code.hex()}"
    front = b"BPE2" + struct.pack("<HHH", length, len(code) // 8, len(table))
    return f"image {name} {(front + code + table).hex()}"


def parts_of(image):
    """The record length, the code and the table of an image's bytes, as its numbers say."""
    length, units = (int.from_bytes(image[place : place + 2], "little") for place in (4, 6))
    front = 10 if image[:4] == b"BPE2" else 8
    end = front + 8 * units
    return length, image[front:end], image[end:]

"""Columns that a run is lent: a number for each vertex, of numpy's file or of a text with one on each line."""
import io
import re

from edgebpf_tools import decimals, packages
from edgebpf_tools.limits import MOST_COLUMNS, MOST_NAME_BYTES
from edgebpf_tools.refusal import Refusal

NAME = re.compile(rf"(?!-$)[A-Za-z0-9_-]{{1,{MOST_NAME_BYTES}}}")
NUMPY = b"\x93NUMPY"
LIMIT = 1 << 64
# With so many numbers a line of a script is not too long.
NUMBERS_OF_LINE = 3_000


def is_name(text):
    """Whether a script may have a column of this name: `-` names none."""
    return NAME.fullmatch(text) is not None


def named(options, option="--column"):
    """The columns of an option by their names, in their order."""
    found = {}
    for word in options:
        name, _, file = word.partition("=")
        if not is_name(name) or not file:
            raise Refusal(f"{option} is NAME=FILE, where a name has 1 to 32 of A-Z a-z 0-9 _ -, not {word!r}")
        if name in found:
            raise Refusal(f"{option} {name} is given twice")
        found[name] = _read(file)
    if len(found) > MOST_COLUMNS:
        raise Refusal(f"a run is lent at most {MOST_COLUMNS} columns, not {len(found)}")
    return found


def _read(path):
    try:
        with open(path, "rb") as stream:
            data = stream.read()
    except OSError as error:
        raise Refusal(f"{path}: {error.strerror}") from None
    return _of_array(path, data) if data.startswith(NUMPY) else _of_text(path, data)


def _of_array(path, data):
    numpy = packages.numpy()
    try:
        array = numpy.load(io.BytesIO(data), allow_pickle=False)
    except Exception as error:
        # Of a damaged head numpy raises what Python's parser does, or has no memory for as many numbers as it says.
        raise Refusal(f"{path} is no file that numpy reads: {(str(error) or type(error).__name__).splitlines()[0]}") from None
    if array.ndim != 1 or array.dtype.kind not in "biu":
        raise Refusal(f"{path} is an array of {array.dtype} in {array.ndim} dimensions; a column has whole numbers in one")
    numbers = [int(number) for number in array.tolist()]
    if min(numbers, default=0) < 0:
        raise Refusal(f"{path} has {min(numbers)}; a column has numbers from 0 to 2^64 - 1")
    return numbers


def _of_text(path, data):
    try:
        lines = data.decode().splitlines()
    except UnicodeDecodeError:
        raise Refusal(f"{path}: it is no text, and no file of numpy") from None
    numbers = []
    for place, line in enumerate(lines, 1):
        word = line.strip()
        if not decimals.is_number(word) or decimals.value(word) >= LIMIT:
            raise Refusal(f"{path}:{place}: {word[:40]!r} is no number from 0 to 2^64 - 1, which stand one on each line")
        numbers.append(decimals.value(word))
    return numbers


def vertices_of(graph):
    """How many vertices a script's graph has; None if no line makes one."""
    made = re.search(r"^[ \t]*graph[ \t]+([0-9]+)[ \t]*$", graph, re.MULTILINE)
    return made and decimals.value(made[1])


def refuse_other_lengths(columns, graph_file, vertices, option="--column"):
    """Refuses a column that has not a number for each vertex of a graph."""
    for name, numbers in columns.items():
        if len(numbers) != vertices:
            raise Refusal(f"{option} {name} has {len(numbers)} numbers, and {graph_file} {vertices} vertices")


def lines_of(columns):
    """The lines of a script that set columns."""
    for name, numbers in columns.items():
        for first in range(0, max(len(numbers), 1), NUMBERS_OF_LINE):
            yield " ".join(["column", name, str(first), *map(str, numbers[first:first + NUMBERS_OF_LINE])])

"""Decimal numbers: one as a word, and many at a time in arrays of bytes."""
from edgebpf_tools import packages

# Python's `int` refuses words of more than 4,300 digits. One of more digits than these, zeros in front apart, is a number above all limits.
MOST_DIGITS, ABOVE_ALL = 30, 10**30

# The digits of the greatest vertex.
WIDTH = 7
NONE, TEN, ZERO = 0, 10, ord("0")


def is_number(word):
    """Whether a word is decimal digits."""
    return word.isascii() and word.isdecimal()


def value(word):
    """The number of a word of decimal digits, of which there may be many."""
    digits = word.lstrip("0") or "0"
    return int(digits) if len(digits) <= MOST_DIGITS else ABOVE_ALL


def edits(sources, targets):
    """The lines that add edges to a batch, as bytes."""
    numpy = packages.numpy()
    line = numpy.frombuffer(b"+ " + bytes(WIDTH) + b" " + bytes(WIDTH) + b"\n", dtype=numpy.uint8)
    text = numpy.tile(line, (len(sources), 1))
    _write(text[:, 2 : 2 + WIDTH], sources)
    _write(text[:, 3 + WIDTH : 3 + 2 * WIDTH], targets)
    return text[text != NONE].tobytes()


def _write(text, numbers):
    """Writes each number to the end of a row. What stands before its first digit is left as it is."""
    rest = numbers.astype(packages.numpy().uint32)
    for column in range(WIDTH - 1, -1, -1):
        tenth = rest // TEN
        digit = rest - TEN * tenth + ZERO
        text[:, column] = digit if column == WIDTH - 1 else digit * (rest != 0)
        rest = tenth


def pairs(text):
    """The numbers of a text whose lines are each two of them and one blank or tab between, as rows; None for another text."""
    numpy = packages.numpy()
    if text.translate(None, b"0123456789 \t\n"):
        return None
    letters = numpy.frombuffer(text, dtype=numpy.uint8)
    gaps = letters[letters <= ord(" ")]
    if len(gaps) % 2 or (gaps[1::2] != ord("\n")).any() or (gaps[0::2] == ord("\n")).any():
        return None
    # A line with one gap has at most two numbers.
    numbers = numpy.fromstring(text, dtype=numpy.int64, sep=" ")
    is_cut = len(numbers) and numbers.max() == numpy.iinfo(numpy.int64).max
    return None if len(numbers) != len(gaps) or is_cut else numbers.reshape(-1, 2)


def numbers_at(letters, places):
    """The decimal number that begins at each place of a text, and where it ends. A text has to go on for `WIDTH` + 1 bytes after
    the last place; of a number with more digits only the first of them count, and the end is before its others."""
    numpy = packages.numpy()
    numbers = numpy.zeros(len(places), dtype=numpy.uint32)
    ends = places.copy()
    for place in range(WIDTH):
        digits = letters[ends] - ZERO
        goes_on = (digits < TEN) & (ends - places == place)
        numbers = numpy.where(goes_on, numbers * TEN + digits, numbers)
        ends += goes_on
    return numbers, ends

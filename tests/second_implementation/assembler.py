"""The assembler: the code that a text means, or its first fault."""
import re
import struct

from bpf import signed

SYNTAX, UNKNOWN_NAME, DOUBLE_LABEL, UNKNOWN_LABEL, NUMBER_RANGE, TOO_LONG = range(1, 7)
OPERATIONS = {"add": 0, "sub": 1, "mul": 2, "div": 3, "sdiv": 3, "or": 4, "and": 5, "lsh": 6, "rsh": 7}
OPERATIONS |= {"mod": 9, "smod": 9, "xor": 10, "mov": 11, "arsh": 12}
COMPARISONS = {"jeq": 1, "jgt": 2, "jge": 3, "jset": 4, "jne": 5, "jsgt": 6, "jsge": 7, "jlt": 10, "jle": 11, "jslt": 12, "jsle": 13}
LOADS = {"ldxb": 0x71, "ldxh": 0x69, "ldxw": 0x61, "ldxdw": 0x79, "ldxsb": 0x91, "ldxsh": 0x89, "ldxsw": 0x81}
STORES = {"stb": 0x72, "sth": 0x6A, "stw": 0x62, "stdw": 0x7A}
REGISTER_STORES = {"stxb": 0x73, "stxh": 0x6B, "stxw": 0x63, "stxdw": 0x7B}
EXTENSIONS = {"movsx8": (0xBF, 8), "movsx16": (0xBF, 16), "movsx32": (0xBF, 32), "mov32sx8": (0xBC, 8), "mov32sx16": (0xBC, 16)}
SWAPS = {"le": 0xD4, "be": 0xDC, "swap": 0xD7}
MOST_UNITS, MOST_NAME_BYTES = 4096, 32
GOING = {"ja": (0x05, 15), "ja32": (0x06, 31), "calllocal": (0x85, 31)}

# The kinds of arguments of each word: r a register, n a number, m a place in memory, l a label.
KINDS = {word + width: ("rr", "rn") for word in OPERATIONS for width in ("", "32")}
KINDS |= {word + width: ("rrl", "rnl") for word in COMPARISONS for width in ("", "32")}
KINDS |= {word + bits: ("r",) for word in SWAPS for bits in ("16", "32", "64")}
KINDS |= dict.fromkeys(("neg", "neg32"), ("r",)) | dict.fromkeys(EXTENSIONS, ("rr",)) | dict.fromkeys(GOING, ("l",))
KINDS |= dict.fromkeys(LOADS, ("rm",)) | dict.fromkeys(STORES, ("mn",)) | dict.fromkeys(REGISTER_STORES, ("mr",))
KINDS |= {"call": ("n",), "exit": ("",), "lddw": ("rn",)}


class Fault(Exception):
    def __init__(self, cause, line):
        super().__init__(cause, line)
        self.cause, self.line = cause, line


def is_register(text):
    return re.fullmatch(r"r([0-9]|10)", text) is not None


def is_name(text):
    return re.fullmatch(rf"[A-Za-z_][A-Za-z0-9_]{{0,{MOST_NAME_BYTES - 1}}}", text) is not None and not is_register(text)


def argument(text):
    """The kind of an argument and its value, or None."""
    if is_register(text):
        return "r", int(text[1:])
    if re.fullmatch(r"-?[0-9]+", text):
        return "n", int(text)
    if re.fullmatch(r"0x[0-9a-fA-F]+", text):
        return "n", int(text, 16)
    place = re.fullmatch(r"\[r([0-9]|10)([+-][0-9]+)?\]", text)
    if place:
        return "m", (int(place[1]), int(place[2] or "0"))
    return ("l", text) if is_name(text) else None


def unit(opcode, destination=0, source=0, offset=0, immediate=0):
    return struct.pack("<BBhi", opcode, source << 4 | destination, offset, immediate)


def is_within(number, bits):
    return -(2**bits) <= number < 2**bits


def are_in_range(word, values):
    if word == "lddw":
        return 0 <= values[1] < 2**64
    offsets = [value[1] for value in values if isinstance(value, tuple)]
    numbers = [value for value in values if isinstance(value, int)]
    return all(is_within(offset, 15) for offset in offsets) and all(is_within(number, 31) for number in numbers)


def stem(word, words):
    """A word without its width, and whether that is 32 bits."""
    return (word, False) if word in words else (word[:-2], True)


def goes_to(word):
    """How many bits the distance of a word has that goes to a label, its sign left out."""
    return GOING[word][1] if word in GOING else 15


def bytes_of(word, kinds, values, distance):
    """The bytes of a statement."""
    if word in GOING:
        near = word == "ja"
        return unit(GOING[word][0], 0, int(word == "calllocal"), distance if near else 0, 0 if near else distance)
    if word == "exit":
        return unit(0x95)
    if word == "call":
        return unit(0x85, immediate=values[0])
    if word == "lddw":
        return unit(0x18, values[0], immediate=signed(values[1], 32)) + unit(0, immediate=signed(values[1] >> 32, 32))
    if word in LOADS:
        return unit(LOADS[word], values[0], *values[1])
    if word in STORES:
        return unit(STORES[word], values[0][0], 0, values[0][1], values[1])
    if word in REGISTER_STORES:
        return unit(REGISTER_STORES[word], values[0][0], values[1], values[0][1])
    if word in EXTENSIONS:
        return unit(EXTENSIONS[word][0], values[0], values[1], EXTENSIONS[word][1])
    if word in ("neg", "neg32"):
        return unit(0x84 if word == "neg32" else 0x87, values[0])
    if kinds == "r":
        return unit(SWAPS[word.rstrip("0123456789")], values[0], immediate=int(word.lstrip("beswaplp")))
    compares = len(kinds) == 3
    name, is_short = stem(word, COMPARISONS if compares else OPERATIONS)
    opcode = COMPARISONS[name] << 4 | (6 if is_short else 5) if compares else OPERATIONS[name] << 4 | (4 if is_short else 7)
    offset = distance if compares else int(name in ("sdiv", "smod"))
    if kinds[1] == "r":
        return unit(opcode | 8, values[0], values[1], offset)
    return unit(opcode, values[0], 0, offset, values[1])


def statement(text):
    """The word of a statement with the kinds and values of its arguments, or a cause."""
    word, rest = re.fullmatch(r"([^ \t]+)(.*)", text).groups()
    if not re.fullmatch(r"[A-Za-z_][A-Za-z0-9_]*", word):
        return SYNTAX
    arguments = [argument(part.strip(" \t")) for part in rest.split(",")] if rest else []
    if None in arguments:
        return SYNTAX
    if word not in KINDS:
        return UNKNOWN_NAME
    kinds = "".join(kind for kind, _ in arguments)
    return (word, kinds, [value for _, value in arguments]) if kinds in KINDS[word] else SYNTAX


def assemble(text):
    """The code, or the first fault as an exception."""
    labels, statements, units = {}, [], 0
    for line, whole in enumerate(text.split("\n"), 1):
        said = whole.split(";")[0].strip(" \t")
        if said.endswith(":"):
            if not is_name(said[:-1]) or said[:-1] in labels:
                raise Fault(DOUBLE_LABEL if said[:-1] in labels else SYNTAX, line)
            labels[said[:-1]] = units
        elif said:
            found = statement(said)
            if isinstance(found, int):
                raise Fault(found, line)
            if not are_in_range(found[0], found[2]):
                raise Fault(NUMBER_RANGE, line)
            statements.append((line, units, found))
            units += 2 if found[0] == "lddw" else 1
            if units > MOST_UNITS:
                raise Fault(TOO_LONG, line)
    code = b""
    for line, pc, (word, kinds, values) in statements:
        distance = 0
        if kinds.endswith("l"):
            if values[-1] not in labels:
                raise Fault(UNKNOWN_LABEL, line)
            distance = labels[values[-1]] - (pc + 1)
            if not is_within(distance, goes_to(word)):
                raise Fault(NUMBER_RANGE, line)
        code += bytes_of(word, kinds, values, distance)
    return code

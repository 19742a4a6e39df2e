"""What is known of a register: more than the verifier's rules keep, so that code can be written in the way that they follow."""
from typing import NamedTuple

ALL_64, ALL_32 = 2**64 - 1, 2**32 - 1
# A register that nothing was written to is no pointer; anything may be one.
NUMBER, RECORD, STACK, UNSET, ANYTHING = "number", "record", "stack", "unset", "anything"


def signed_range(bits):
    return -(2 ** (bits - 1)), 2 ** (bits - 1) - 1


class Value(NamedTuple):
    """A number in ranges, as unsigned, and as signed of 64 bits and of the low 32; which of its bits may be set; and a mark that
    equal values share. Of a pointer only its kind, and of one into the frame its offset."""

    kind: str = ANYTHING
    low: int = 0
    high: int = ALL_64
    signed: tuple = signed_range(64)
    short: tuple = signed_range(32)
    bits: int = ALL_64
    mark: object = None
    offset: int = None

    @property
    def is_number(self):
        return self.kind == NUMBER

    @property
    def is_pointer(self):
        return self.kind in (RECORD, STACK)

    def is_empty(self):
        return self.low > self.high or self.signed[0] > self.signed[1] or self.short[0] > self.short[1]

    def fits(self, bits):
        """Whether it is no more than an unsigned number of so many bits."""
        return self.high < 2**bits

    def of_width(self, bits):
        """The signed range in a width."""
        return self.signed if bits == 64 else self.short


def meet(one, other):
    return max(one[0], other[0]), min(one[1], other[1])


def settled(value):
    """The same value, with what each of its ranges says of the others."""
    kind, low, high, signed, short, bits, mark, offset = value
    while True:
        before = low, high, signed, short, bits
        high = min(high, bits)
        if high < 2**63:
            signed = meet(signed, (low, high))
        if signed[0] >= 0:
            low, high = meet((low, high), signed)
        if high < 2**31:
            short = meet(short, (low, high))
        if short[0] >= 0 and high < 2**32:
            low, high = meet((low, high), short)
        if signed[0] >= -(2**31) and signed[1] < 2**31:
            signed = short = meet(signed, short)
        bits &= (1 << max(high, 0).bit_length()) - 1
        if before == (low, high, signed, short, bits):
            return Value(kind, low, high, signed, short, bits, mark, offset)


def number(low=0, high=ALL_64, bits=ALL_64, signed=signed_range(64)):
    return settled(Value(NUMBER, low, high, signed, signed_range(32), bits))


def constant(value):
    value &= ALL_64
    as_signed = value - 2**64 if value >> 63 else value
    short = value & ALL_32
    short = short - 2**32 if short >> 31 else short
    return Value(NUMBER, value, value, (as_signed, as_signed), (short, short), value)


def joined(one, other, mark):
    """What is known where two ways meet."""
    if one == other:
        return one
    if one.is_number and other.is_number:
        signed = min(one.signed[0], other.signed[0]), max(one.signed[1], other.signed[1])
        short = min(one.short[0], other.short[0]), max(one.short[1], other.short[1])
        return Value(NUMBER, min(one.low, other.low), max(one.high, other.high), signed, short, one.bits | other.bits, mark)
    if one.kind == other.kind == STACK:
        return Value(STACK, mark=mark, offset=one.offset if one.offset == other.offset else None)
    return Value(one.kind if one.kind == other.kind else ANYTHING, mark=mark)


def short_of(value):
    """The low half of a number, as 32-bit instructions read it."""
    if value.fits(32):
        return value
    least, most = value.short
    low, high = (least + 2**32, most + 2**32) if most < 0 else (0, ALL_32)
    return settled(Value(NUMBER, low, high, signed_range(64), value.short, value.bits & ALL_32))


def _added(bits, left, right):
    if left.high + right.high < 2**bits:
        low, high = left.low + right.low, left.high + right.high
    elif left.low + right.low >= 2**bits:
        # Each sum is too large for the width, as where a negative number is added to a larger one.
        low, high = left.low + right.low - 2**bits, left.high + right.high - 2**bits
    else:
        low, high = 0, 2**bits - 1
    signed = left.signed[0] + right.signed[0], left.signed[1] + right.signed[1]
    fits = bits == 64 and signed[0] >= -(2**63) and signed[1] < 2**63
    return number(low, high, signed=signed if fits else signed_range(64))


def _subtracted(bits, left, right):
    low, high = (left.low - right.high, left.high - right.low) if left.low >= right.high else (0, 2**bits - 1)
    signed = left.signed[0] - right.signed[1], left.signed[1] - right.signed[0]
    fits = bits == 64 and signed[0] >= -(2**63) and signed[1] < 2**63
    return number(low, high, signed=signed if fits else signed_range(64))


def _shifted(bits, operation, left, right):
    if right.low != right.high:
        least = right.low if right.high < bits else 0
        return number(0, left.high >> least if operation == "rsh" else 2**bits - 1)
    count = right.low % bits
    if operation == "rsh":
        return number(left.low >> count, left.high >> count, left.bits >> count)
    if operation == "lsh":
        high = left.high << count
        kept = (left.bits << count) & (2**bits - 1)
        return number(left.low << count, high, kept) if high < 2**bits else number(0, 2**bits - 1, kept)
    if bits == 64:
        return number(signed=(left.signed[0] >> count, left.signed[1] >> count))
    return number(0, ALL_32)


def computed(bits, operation, left, right):
    """What is known of an operation's result."""
    if bits == 32:
        left, right = short_of(left), short_of(right)
    most = 2**bits - 1
    if operation == "mov":
        return right
    if operation == "add":
        return _added(bits, left, right)
    if operation == "sub":
        return _subtracted(bits, left, right)
    if operation == "mul":
        high = left.high * right.high
        return number(left.low * right.low, high) if high <= most else number(0, most)
    if operation == "div":
        return number(left.low // right.high, left.high // right.low) if right.low > 0 else number(0, left.high)
    if operation == "mod":
        return number(0, min(left.high, right.high - 1) if right.low > 0 else left.high)
    if operation == "and":
        return number(0, min(left.high, right.high), left.bits & right.bits)
    if operation in ("or", "xor"):
        return number(max(left.low, right.low) if operation == "or" else 0, most, left.bits | right.bits)
    if operation in ("lsh", "rsh", "arsh"):
        return _shifted(bits, operation, left, right)
    return number(0, most)


def extended(bits, kept, value):
    """A number whose low bits are extended by their sign."""
    if value.high < 2 ** (kept - 1):
        return value
    if kept == 32 and bits == 64:
        return number(signed=value.short)
    return number(signed=signed_range(kept)) if bits == 64 else number(0, ALL_32)


def _without_end(low, high, other):
    if other[0] != other[1]:
        return low, high
    if low == other[0]:
        return low + 1, high
    return (low, high - 1) if high == other[0] else (low, high)


def limited(left, right, comparison):
    """The left range where a comparison with the right one holds."""
    low, high = left
    bounds = {
        "eq": meet(left, right),
        "ne": _without_end(low, high, right),
        "gt": (max(low, right[0] + 1), high),
        "ge": (max(low, right[0]), high),
        "lt": (low, min(high, right[1] - 1)),
        "le": (low, min(high, right[1])),
    }
    return bounds[comparison]


def narrowed(value, other, bits, comparison):
    """The left value where a comparison with the other holds; it may be empty."""
    if comparison in ("set", "not set"):
        return value
    plain = comparison.removeprefix("s") if comparison in ("sgt", "sge", "slt", "sle") else comparison
    is_signed = plain != comparison
    signed, short, low, high = value.signed, value.short, value.low, value.high
    if is_signed or plain in ("eq", "ne"):
        if bits == 64:
            signed = limited(signed, other.signed, plain)
        else:
            short = limited(short, other.short, plain)
    if not is_signed and (bits == 64 or value.fits(32) and other.fits(32)):
        low, high = limited((low, high), (other.low, other.high), plain)
    elif not is_signed and other.fits(32):
        # Of a wider number the low half is compared, and what is known of it is kept as a signed range.
        half = limited(short if short[0] >= 0 else (0, ALL_32), (other.low, other.high), plain)
        short = meet(short, half) if half[1] < 2**31 else short
    return settled(value._replace(low=low, high=high, signed=signed, short=short))

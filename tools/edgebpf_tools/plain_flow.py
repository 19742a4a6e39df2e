"""What the verifier knows by its own rules, as far as ranges of numbers go: docs/BPF.md has them."""
from edgebpf_tools.flow import EXCHANGED, OPPOSITES, Fields, Flow
from edgebpf_tools.values import ALL_64, NUMBER, Value, limited, signed_range


def plain(low, high):
    return Value(NUMBER, low, high, signed_range(64), signed_range(32), ALL_64)


def _computed(bits, operation, left, right):
    most = 2**bits - 1
    (a, b), (c, d) = [(value.low, value.high) if value.high <= most else (0, most) for value in (left, right)]
    count = c % bits if c == d else None
    largest = 2 ** max(b, d).bit_length() - 1
    rules = {
        "mov": lambda: (c, d),
        "add": lambda: (a + c, b + d),
        "sub": lambda: (a - d, b - c) if a >= d else (0, most),
        "mul": lambda: (a * c, b * d),
        "div": lambda: (a // d, b // c) if c else (0, b),
        "mod": lambda: (0, min(b, d - 1) if c else b),
        "and": lambda: (0, min(b, d)),
        "or": lambda: (0, largest),
        "xor": lambda: (0, largest),
        "lsh": lambda: (0, most) if count is None else (a << count, b << count),
        "rsh": lambda: (0, b) if count is None else (a >> count, b >> count),
    }
    low, high = rules.get(operation, lambda: (0, most))()
    return plain(low, high) if high <= most else plain(0, most)


class PlainFlow(Flow):
    """The same walk with ranges alone."""

    def _computed(self, state, fields):
        left, right = state.registers[fields.destination], self.operand(state, fields)
        if fields.operation == "mov" and fields.bits == 64:
            return right
        if left.is_pointer or right.is_pointer:
            return super()._computed(state, fields)
        if fields.operation is None or not right.is_number:
            return plain(0, ALL_64)
        return _computed(fields.bits, fields.operation, left if left.is_number else plain(0, ALL_64), right)

    def after_branch(self, state, branch, taken):
        fields = Fields.of(branch.units)
        comparison = fields.comparison if taken else OPPOSITES[fields.comparison]
        left, right = state.registers[fields.destination], self.operand(state, fields)
        state = state.copy()
        if not fields.by_register and fields.bits == 32:
            right = plain(fields.immediate & 2**32 - 1, fields.immediate & 2**32 - 1)
        is_signed = comparison in ("sgt", "sge", "slt", "sle")
        limit = 2 ** (fields.bits - is_signed)
        if not (left.is_number and right.is_number) or comparison not in EXCHANGED or max(left.high, right.high) >= limit:
            return state
        if fields.by_register and fields.destination == fields.source:
            return state
        ranges = (left.low, left.high), (right.low, right.high)
        sides = [
            limited(*pair, word.removeprefix("s") if is_signed else word)
            for pair, word in ((ranges, comparison), (ranges[::-1], EXCHANGED[comparison]))
        ]
        if any(low > high for low, high in sides):
            return None
        state.registers[fields.destination] = plain(*sides[0])
        if fields.by_register:
            state.registers[fields.source] = plain(*sides[1])
        return state

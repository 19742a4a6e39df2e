"""Keeps clang from parting an index and its test.

The verifier knows of an index what the instructions say that compare it. clang likes to compare another number that says the same: the
original of a copy, a flag, or some bits. Here a variable that is used as an index gets its value through an empty piece of
assembler, in clang's code before it is optimized. clang then knows nothing of the value but the variable itself, and tests that.
"""
import re

FUNCTION = re.compile(r"^define .*?\{\n.*?^\}\n", re.M | re.S)
VALUE = re.compile(r"\s+(%[\w.]+) = (.*)")
LOAD = re.compile(r"load i\d+, ptr (%[\w.]+)")
CHANGE_OF_WIDTH = re.compile(r"(?:zext|sext|trunc)(?: nneg)? \w+ (%[\w.]+) to")
STORE = re.compile(r"(\s+)store (i8|i16|i32|i64) (%[\w.]+), ptr (%[\w.]+)(.*)")
ADDRESS = re.compile(r"= getelementptr [^,]*, ptr %[\w.]+, (.*)")


class Function:
    """A function's lines, and what each value in them is made of."""

    def __init__(self, text):
        self.lines = text.split("\n")
        self.made = {found[1]: found[2] for line in self.lines if (found := VALUE.match(line))}

    def variable(self, value):
        """The variable whose value this is, in any width; None if it is computed."""
        while found := CHANGE_OF_WIDTH.match(self.made.get(value, "")):
            value = found[1]
        loaded = LOAD.match(self.made.get(value, ""))
        return loaded[1] if loaded and self.made.get(loaded[1], "").startswith("alloca") else None

    def indices(self):
        """The variables that are used as an index."""
        places = [found[1] for line in self.lines if (found := ADDRESS.search(line))]
        used = [value for place in places for value in re.findall(r"i(?:32|64) (%[\w.]+)", place)]
        return {variable for value in used if (variable := self.variable(value))}

    def counts(self, value, variable, seen=()):
        """Whether a value is computed of the variable itself, as a counter's next value is."""
        made = self.made.get(value, "")
        if value in seen or made.startswith("load"):
            return made.startswith("load") and LOAD.match(made) is not None and LOAD.match(made)[1] == variable
        return any(self.counts(part, variable, (*seen, value)) for part in re.findall(r"%[\w.]+", made))

    def opaque(self):
        """The function with each index opaque."""
        indices, lines = self.indices(), []
        for number, line in enumerate(self.lines):
            found = STORE.match(line)
            if found and found[4] in indices and not self.counts(found[3], found[4]):
                lines += through_assembler(found, f"%opaque.{number}")
            else:
                lines.append(line)
        return "\n".join(lines)


def through_assembler(store, name):
    """The lines of a store whose value goes through an empty piece of assembler."""
    indent, width, value, variable, rest = store.groups()
    place = re.search(r", !dbg !\d+", rest)
    end = place[0] if place else ""
    if width == "i64":
        yield f'{indent}{name} = call i64 asm "", "=r,0"(i64 {value}){end}'
    else:
        # A whole register: clang takes the upper half of a 32-bit result for zero, and an empty piece of assembler clears nothing.
        yield f"{indent}{name}.wide = zext {width} {value} to i64{end}"
        yield f'{indent}{name}.same = call i64 asm "", "=r,0"(i64 {name}.wide){end}'
        yield f"{indent}{name} = trunc i64 {name}.same to {width}{end}"
    yield f"{indent}store {width} {name}, ptr {variable}{rest}"


def opaque(code):
    """clang's code, not yet optimized, with each index opaque."""
    return FUNCTION.sub(lambda found: Function(found[0]).opaque(), code)

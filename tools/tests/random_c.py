"""Random loop-free functions in C over edges, whose meaning C defines: no sum of signed numbers overflows, no shift goes too far and
nothing is divided by zero. The same number always makes the same function."""
import random

LENGTH = 32
ARGUMENT = LENGTH - 16
FIELDS = ["edge->source", "edge->target", "edge->place", "edge->degree"]
CONSTANTS = [0, 1, 2, 3, 7, 8, 15, 16, 31, 63, 100, 255, 256, 1000, 65535, 2**31 - 1, 2**32 - 1, 2**32 + 5, 2**63]
COMPARISONS = ["<", "<=", ">", ">=", "==", "!="]
TYPES = ["u64", "u64", "u32", "u32", "u16", "u8"]


class RandomFunction:
    def __init__(self, seed):
        self.random, self.name = random.Random(f"c {seed}"), f"random_{seed}"
        self.variables, self.helpers, self.lenders = [], [], []

    def choice(self, values):
        return self.random.choice(values)

    def leaf(self):
        kind = self.random.random()
        if kind < 0.35 and self.variables:
            return f"(u64){self.choice(self.variables)}"
        if kind < 0.6:
            return f"(u64){self.choice(FIELDS)}"
        if kind < 0.8:
            place = self.random.randrange(ARGUMENT)
            size = self.choice(["u8", "u16", "u32", "s8", "s16"])
            return f"(u64)(s64)*({size} *)(edge->argument + {min(place, ARGUMENT - 4)})"
        return f"{self.choice(CONSTANTS)}ULL"

    def expression(self, depth=3):
        if depth == 0 or self.random.random() < 0.15:
            return self.leaf()
        one, other = self.expression(depth - 1), self.expression(depth - 1)
        forms = [
            f"({one} {self.choice(['+', '-', '*', '&', '|', '^'])} {other})",
            f"({one} {self.choice(['/', '%'])} (({other}) | 1))",
            f"(({one}) {self.choice(['<<', '>>'])} (({other}) & 63))",
            f"(u64)((u32)({one}) {self.choice(['+', '-', '*', '^', '>>', '<<'])} ((u32)({other}) & 31))",
            f"(u64)((s64)({one}) >> (({other}) & 63))",
            f"(u64)((s64)(s32)({one}) {self.choice(['+', '-', '*'])} (s64)(s16)({other}))",
            f"(u64)((s64)(s32)({one}) {self.choice(['/', '%'])} {self.random.randint(1, 99)})",
            f"(u64)({self.choice(['u8', 'u16', 'u32'])})({one})",
            f"({self.condition(depth - 1)} ? {one} : {other})",
            f"(u64)({self.condition(depth - 1)})",
            f"{self.choice(['smaller', 'larger', 'add_saturated', 'sub_saturated'])}({one}, {other})",
            f"degree({one})",
            f"has_edge({one}, {other})",
            f"neighbour({one}, ({other}) & 7)",
            f"(u64)edge->argument[({one}) {self.choice([f'& {ARGUMENT - 1}', '% 13', '& 7'])}]",
            f"(u64)((u16 *)edge->argument)[({one}) & 7]",
        ]
        return self.choice(forms)

    def condition(self, depth=2):
        one, other = self.expression(depth), self.expression(depth) if self.random.random() < 0.5 else f"{self.choice(CONSTANTS)}ULL"
        comparison = self.choice(COMPARISONS)
        forms = [
            f"({one}) {comparison} ({other})",
            f"(s64)({one}) {comparison} (s64)({other})",
            f"(u32)({one}) {comparison} (u32)({other})",
            f"(s32)({one}) {comparison} (s32)({other})",
            f"({one}) & {self.choice([1, 4, 255])}",
        ]
        found = self.choice(forms)
        if depth and self.random.random() < 0.25:
            return f"({found}) {self.choice(['&&', '||'])} ({self.condition(depth - 1)})"
        return found

    def indexed(self, indent):
        """An index that is compared before it is used."""
        kind, target = self.choice(["u64", "u32", "u16", "u8", "int"]), self.choice(self.variables)
        test = {"int": f"index >= 0 && index < {ARGUMENT}"}.get(kind, f"index < {ARGUMENT}")
        use = self.choice([f"{target} += edge->argument[index];", f"edge->argument[index] = {target};", f"{target} ^= edge->argument[index] + index;"])
        return [f"{indent}{{ {kind} index = {self.expression(2)}; if ({test}) {use} }}"]

    def gathered(self, indent):
        words, target = self.random.choice([2, 4, 8]), self.choice(self.variables)
        sums = " + ".join(f"words[{place}]" for place in range(words))
        first = f"gather({self.expression(1)}, ({self.expression(1)}) & 3, words, sizeof words)"
        return [f"{indent}{{ u32 words[{words}]; u64 found = {first}; {target} += ({sums}) * found; }}"]

    def lending(self, indent):
        """The address of a local variable, of a struct or of an array is handed to a function, and perhaps on to another one."""
        name, target = f"{self.name}_lent_{len(self.lenders)}", self.choice(self.variables)
        kind, count = self.choice(["u64", "u32", "u32", "u16", "u8"]), self.choice([1, 1, 2, 4])
        first, last = "*place", f"place[{count - 1}]"
        change = f"{last} = ({kind})({first} {self.choice(['+', '^', '*', '-'])} x); {first} += y;"
        result = self.choice([f"return {last} ^ y;", "return 0;", ""])
        on = self.choice(["", f"if (x & {self.choice([1, 2, 4])}) {name}_on(place, x >> 3);"])
        own = self.choice(["", f"{kind} own = ({kind})(x * 3); {name}_on(&own, y); {first} ^= own;"])
        self.lenders.append(f"FUNCTION void {name}_on({kind} *place, u64 x) {{ *place = ({kind})(*place * 5 + x); }}")
        self.lenders.append(f"FUNCTION {'u64' if result else 'void'} {name}({kind} *place, u64 x, u64 y) {{ {change} {on} {own} {result} }}")
        values = ", ".join(f"({kind})({self.expression(1)})" for _ in range(count))
        call = f"{name}(kept, {self.expression(1)}, {self.expression(1)})"
        calls = f"{target} += {call};" if result else f"{call};"
        sums = " + ".join(f"kept[{place}] * {2 * place + 3}ULL" for place in range(count))
        return [f"{indent}{{ {kind} kept[{count}] = {{{values}}}; {calls} {target} ^= {sums}; }}"]

    def chosen(self, depth, indent):
        count = self.random.randint(2, 9)
        lines = [f"{indent}switch (({self.expression(2)}) % {count}) {{"]
        for case in range(count - 1):
            lines += [f"{indent}case {case}: {self.assignment()}"] + ([f"{indent}    break;"] if self.random.random() < 0.8 else [])
        return lines + [f"{indent}default: {self.assignment()}", f"{indent}}}"]

    def assignment(self):
        target = self.choice(self.variables)
        return f"{target} {self.choice(['=', '+=', '-=', '^=', '|=', '&=', '*='])} {self.expression()};"

    def statement(self, depth, indent):
        kind = self.random.random()
        if kind < 0.35 or depth == 0:
            return [f"{indent}{self.assignment()}"]
        if kind < 0.6:
            lines = [f"{indent}if ({self.condition()}) {{", *self.statements(depth - 1, indent + "    "), f"{indent}}}"]
            if self.random.random() < 0.5:
                lines[-1] += " else {"
                lines += [*self.statements(depth - 1, indent + "    "), f"{indent}}}"]
            return lines
        if kind < 0.7:
            return self.indexed(indent)
        if kind < 0.75:
            return self.gathered(indent)
        if kind < 0.82:
            return self.chosen(depth, indent)
        if kind < 0.88:
            return [f"{indent}edge->argument[({self.expression(1)}) & {ARGUMENT - 1}] = {self.expression(2)};"]
        if kind < 0.92:
            return [f"{indent}if ({self.condition()}) return {self.expression(2)};"]
        if kind < 0.96:
            return self.lending(indent)
        self.helpers.append(f"{self.name}_{len(self.helpers)}")
        return [f"{indent}{self.choice(self.variables)} += {self.helpers[-1]}({self.expression(1)}, {self.expression(1)});"]

    def statements(self, depth, indent):
        return [line for _ in range(self.random.randint(1, 3)) for line in self.statement(depth, indent)]

    def text(self):
        declared = []
        for place in range(self.random.randint(2, 5)):
            declared.append(f"    {self.choice(TYPES)} v{place} = {self.expression(1)};")
            self.variables.append(f"v{place}")
        body = [line for _ in range(self.random.randint(3, 6)) for line in self.statement(2, "    ")]
        result = " ^ ".join(f"{variable} * {2 * place + 1}ULL" for place, variable in enumerate(self.variables))
        functions = [
            f"FUNCTION u64 {name}(u64 x, u64 y) {{ return x {self.choice(['+', '*', '^'])} y > 9 ? x ^ degree(y) : has_edge(y, x) + {place}; }}"
            for place, name in enumerate(self.helpers)
        ]
        head = f"u64 {self.name}(struct edge *edge, u64 length) {{"
        return "\n".join([*functions, *self.lenders, head, *declared, *body, f"    return {result};", "}"]) + "\n"


def source(first, end):
    return "#include <edgebpf.h>\n" + "".join(RandomFunction(seed).text() for seed in range(first, end))

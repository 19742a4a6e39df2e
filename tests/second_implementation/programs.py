"""Random programs, as bytes and as text."""
import struct

from assembler import KINDS, unit
from bpf import COMPARISONS, FRAME_BYTES, NoInstruction, decode
from texts import lines_of
from verifier import UNSET, Broken, State, number, ways_from

NUMBERS = [0, 1, 2, 3, 4, 7, 8, 15, 16, 31, 32, 63, 64, 65, 127, 255, 256, 511, 512, -1, -2, -4, -8, -16, 2**31 - 1, -(2**31), 1000]
WIDE_NUMBERS = [0, 5, 2**31 - 1, 2**31, 2**32 - 1, 2**32, 2**32 + 5, 2**63, 2**64 - 1]
RECORD_PLACES = [0, 1, 3, 4, 8, 12, 13, 15]
FRAME_PLACES = [-512, -16, -16, -16, -12, -12, -9, -8, -8, -8, -7, -4, -1, 0]
GOOD_ARGUMENTS = {
    "r": [f"r{number}" for number in range(11)] + ["r0", "r3"],
    "n": ["0", "1", "7", "-1", "0x10", "4", "255", "2147483647", "-2147483648", "007", "-0"],
    "m": ["[r1+0]", "[r1]", "[r1+4]", "[r1+8]", "[r10-8]", "[r10-16]", "[r10-4]", "[r2+1]"],
    "l": ["x", "y", "out", "r11"],
}
ODD_ARGUMENTS = ["2147483648", "-2147483649", "18446744073709551616", "[r1+32768]", "[r10-32769]", "???", "[r1 + 4]", "0x", ""]
ODD_ARGUMENTS += ["+1", "-0x1", "0X1", "[r11]", "[r1+]", "[r1+0x4]", "a" * 32, "a" * 33, "r1 r2", "-", "r1:", "1x", "r01", "[r1--4]"]
ODD_LINES = ["r1:", "r11:", "x :", "x: exit", ":", "a" * 33 + ":", "end x", "jmp x", "foo r1", "foo r1,", "12 r1", "mov! r0, 1", "#"]


class Programs:
    """Random programs of one script."""

    def __init__(self, random):
        self.random = random
        # What the program that is being written reads besides its record.
        self.table = b""

    def often(self, share):
        return self.random.random() < share

    def choice(self, values):
        return self.random.choice(values)

    # Programs as bytes. What is known on the way of no branch taken steers them, so that many are accepted.

    def instruction(self, state):
        """One instruction; a jump and a branch have their distance later."""
        of_kind = lambda *kinds: [place for place, value in enumerate(state.registers) if value[0] in kinds] or [1]
        some = lambda: self.choice(of_kind("number")) if self.often(0.93) else self.choice(range(11))
        any_set = self.choice(of_kind("number", "record", "stack", "table"))
        pointer, target, value = self.choice(of_kind("record", "stack", "table")), self.choice(range(10)), self.choice(NUMBERS)
        places = {"record": RECORD_PLACES, "table": [0, 0, 1, max(0, len(self.table) - 4), len(self.table)]}
        offset = self.choice(places.get(state.registers[pointer][0], FRAME_PLACES))
        kind = self.choice("mmccaaaaapplllsssskkbbboew")
        width = self.choice([7, 7, 4])
        lent = [place for place, value in enumerate(state.registers) if value[0] == "stack" and value[1] < len(state.frames) - 1]
        if lent and self.often(0.3):
            return self.in_lent_frame(self.choice(lent), target, any_set, value)
        if kind == "m":
            return unit(0xB0 | width, target, immediate=value)
        if kind == "c":
            return unit(0xB8 | width, target, any_set)
        if kind in "ap":
            code = self.choice([0, 1]) if kind == "p" else self.choice([0, 1, 2, 3, 4, 5, 6, 7, 9, 10, 12])
            left, width = (pointer, 7) if kind == "p" else (some(), width)
            chosen = self.choice([0, 1]) if code in (3, 9) else 0
            if self.often(0.5):
                return unit(code << 4 | width, left, 0, chosen, self.choice([1, 4, 8, -4, -8, -16, 16]) if kind == "p" else value)
            return unit(code << 4 | 8 | width, left, some(), chosen)
        if kind == "k":
            return self.kept(state, target, any_set)
        if kind == "l":
            return unit(self.choice([0x61, 0x69, 0x71, 0x79, 0x79, 0x81, 0x89, 0x91]), target, pointer, offset)
        if kind == "s" and self.often(0.35):
            return unit(self.choice([0x62, 0x6A, 0x72, 0x7A]), pointer, 0, offset, value)
        if kind == "s":
            return unit(self.choice([0x63, 0x6B, 0x73, 0x7B, 0x7B]), pointer, any_set, offset)
        if kind == "b":
            opcode = self.choice(list(COMPARISONS)) << 4 | self.choice([5, 5, 6])
            return unit(opcode, some(), 0, 0, value) if self.often(0.6) else unit(opcode | 8, some(), some())
        if kind == "o":
            return unit(5)
        if kind == "e":
            swap = unit(self.choice([0xD4, 0xDC, 0xD7]), some(), 0, 0, self.choice([16, 32, 64]))
            extension = unit(0xBF, target, some(), self.choice([8, 16, 32]))
            return self.choice([unit(0x87, some()), unit(0x84, some()), swap, extension, unit(0xBC, target, some(), 8)])
        low, high = struct.unpack("<ii", struct.pack("<Q", self.choice(WIDE_NUMBERS)))
        return unit(0x18, target, immediate=low) + unit(0, immediate=high)

    def in_lent_frame(self, pointer, target, any_set, value):
        """An access through a pointer to a frame of a caller."""
        offset = self.choice([0, 0, 0, 0, 4, 7, 8, -1, -4, -8, -16])
        load, store = unit(self.choice([0x61, 0x71, 0x79, 0x79]), target, pointer, offset), unit(self.choice([0x62, 0x72, 0x7A]), pointer, 0, offset, value)
        return self.choice([load, load, store, unit(self.choice([0x63, 0x7B, 0x7B]), pointer, any_set, offset)])

    def kept(self, state, target, value):
        """A register is put into a slot of the frame, or taken back from one."""
        slots = [slot for slot, known in state.frame.spilled.items() if known != UNSET]
        if slots and self.often(0.6):
            return unit(0x79, target, 10, 8 * self.choice(slots) - FRAME_BYTES)
        return unit(0x7B, 10, value, self.choice([-8, -16, -24, -504, -512, -512]))

    def indexing(self, state, length):
        """A place in the record or the table that is known but for a range, mostly one that fits, and an access there."""
        base = self.choice([place for place, value in enumerate(state.registers) if value[0] in ("record", "table")])
        source = self.choice([place for place, value in enumerate(state.registers) if value[0] == "record"] or [base])
        index, moved = self.random.sample([register for register in (0, 3, 4, 5, 6, 7, 8, 9) if register not in (base, source)], 2)
        loads = [(4, 0x61), (2, 0x69), (1, 0x71), (8, 0x79), (4, 0x81), (2, 0x89), (1, 0x91)]
        in_table = state.registers[base][0] == "table"
        size, opcode = self.choice(loads if in_table and self.often(0.97) else loads + [(8, 0x7B), (4, 0x63), (1, 0x72)])
        length = len(self.table) if in_table else length
        start, offset = state.registers[base][2], self.choice([0, 0, 1, 8, -1])
        most = max(1, length - size - offset - start + self.choice([0, 0, 0, 0, 1]))
        limit = {
            "and": [unit(0x57, index, immediate=2 ** max(0, most.bit_length() - 1) - 1)],
            "mod": [unit(0x97, index, immediate=most + 1)],
            "mod32": [unit(0x94, index, immediate=most + 1)],
            "jump": [unit(0xB5, index, 0, 2, most), unit(0xB7, 0), unit(0x95)],
            "jump32": [unit(0xA6, index, 0, 2, most + 1), unit(0xB7, 0), unit(0x95)],
            "none": [],
        }[self.choice(["and", "and", "mod", "mod32", "jump", "jump32", "none"])]
        access = unit(opcode, moved, index, offset) if opcode & 7 == 3 else unit(opcode, moved, 0 if opcode == 0x72 else moved, offset)
        return [unit(self.choice([0x61, 0x71, 0x71, 0x69]), index, source, self.choice([0, 4]) if in_table else 0), *limit, unit(0xBF, moved, base), unit(0x0F, moved, index), access]

    def asking(self, state):
        """The call of a helper, and the instructions that give it its arguments."""
        helper = self.choice([1, 2, 3, 3, 4, 5, 5, 5]) if self.often(0.97) else self.choice([0, 6, -1, 7, 261])
        items = []
        for register in (1, 2):
            if state.registers[register][0] != "number" or self.often(0.6):
                items.append(self.choice([unit(0xB7, register, immediate=self.choice([0, 1, 2, 3, 4, -1])), unit(0xBF, register, self.choice([0, 3, 6, 7]))]))
                if state.registers[1] == ("record", 0, 0) and register == 2 and self.often(0.5):
                    items = [unit(0x61, 2, 1, self.choice([0, 4, 8])), unit(0x61, 1, 1, self.choice([0, 4]))]
        if helper == 5:
            base = self.choice([place for place, value in enumerate(state.registers) if value[0] in ("record", "stack")])
            step = self.choice([0, 0, 4, 1]) if state.registers[base][0] == "record" else self.choice([-256, -64, -24, -20, -16, -16, -13, -8])
            items = [unit(0xBF, 3, base), unit(7, 3, immediate=step)] + [item for item in items if item[1] >> 4 != 3]
            items.append(unit(0xB7, 4, immediate=self.choice([4, 8, 8, 12, 16, 16, 24, 64, 256]) if self.often(0.95) else self.choice([0, 2, 18, 260, -4])))
        if self.often(0.03) and items:
            items.pop(self.random.randrange(len(items)))
        return items + [unit(0x85, immediate=helper)]

    def code(self, length, table=b""):
        self.table = table
        if self.often(0.03):
            items = self.chain()
        elif self.often(0.3):
            items = self.with_functions(length)
        else:
            state = State.entry(length, self.table)
            items = self.with_distances(self.ended(*self.steps(state, length, self.set_up(state, length), 40)))
        code = b"".join(items)
        if self.often(0.02):
            place = self.random.randrange(len(code))
            code = code[:place] + bytes([self.random.randrange(256)]) + code[place + 1 :]
        return code

    def chain(self):
        """Functions of which each calls the next one some times: at the edge of how deep and how long a walk may be."""
        count, most, items = self.choice([2, 7, 8, 8, 8, 9]), self.choice([1, 1, 2, 7, 8, 10]), []
        times = [max(1, most - self.choice([0, 0, 0, 1])) for _ in range(count - 1)]
        for function, calls in enumerate(times):
            for call in range(calls):
                # The rest of this function's calls and its exit stand between.
                items.append(unit(0x85, 0, 1, immediate=calls - call))
            items.append(unit(0x95))
        return items + [unit(0xB7, 0, immediate=count), unit(0x95)]

    def with_functions(self, length):
        """A program and functions behind it, each of which calls some of those behind itself, mostly with a pointer to a frame."""
        count = self.choice([2, 2, 3, 4, 9])
        # What is known where each function begins, by the first call of it: later calls may know less.
        entries, parts, calls = {0: State.entry(length, self.table)}, [], []
        for function in range(count):
            state = entries.get(function) or State.entry(length, self.table).entered()
            items, state = self.steps(state, length, self.set_up(state, length), 6)
            for _ in range(self.choice([0, 1, 1, 2, 3]) if function + 1 < count else 0):
                callee = self.random.randrange(function + 1, count)
                items, state = self.lending(state, length, items)
                calls.append((function, len(items), callee))
                entries.setdefault(callee, state.entered())
                state = self.supposed(state.entered()).left()
                items, state = self.steps(state, length, items + [unit(0x85, 0, 1)], 6)
            parts.append(self.with_distances(self.ended(items, state)))
        starts = [sum(len(item) for part in parts[:function] for item in part) // 8 for function in range(count)]
        for function, place, callee in calls:
            pc = starts[function] + sum(len(item) for item in parts[function][:place]) // 8
            distance = self.random.randrange(-3, 9) if self.often(0.02) else starts[callee] - pc - 1
            parts[function][place] = unit(0x85, 0, 1, immediate=distance)
        return [item for part in parts for item in part]

    def lending(self, state, length, items):
        """Mostly a pointer to a frame is put into one of R1 to R5, moved down and perhaps written to."""
        of_frames = [place for place, value in enumerate(state.registers) if value[0] == "stack"]
        if not self.often(0.7):
            return items, state
        target = self.choice([1, 1, 2, 3, 4, 5])
        more = [unit(0xBF, target, self.choice(of_frames)), unit(7, target, immediate=self.choice([-8, -8, -16, -4, -1, -512, 0]))]
        if self.often(0.5):
            more.append(self.choice([unit(0x7A, target, immediate=7), unit(0x72, target, immediate=1), unit(0x7B, target, 10)]))
        if self.often(0.3):
            more.append(unit(0x7B, 10, target, self.choice([-8, -16])))
        behind = state.copy()
        try:
            for item in more:
                ((_, behind),) = ways_from(behind, length, 0, *decode(item, 0), self.table)
        except (Broken, NoInstruction):
            return items, state
        return items + more, behind

    def supposed(self, state):
        """What a function may leave that is written later: some of the bytes that were lent to it are set, and R0 is a number."""
        state.registers[0] = number(0, self.choice([7, 255, 2**64 - 1]))
        for base in state.registers[1:6]:
            if base[0] == "stack" and base[2] <= -8 and self.often(0.7):
                state.write(base, FRAME_BYTES + base[2], 8)
        return state

    def set_up(self, state, length):
        """Registers are set, as what is known allows."""
        items = []
        for register in (0, 3, 4, 5, 6, 7, 8, 9) if self.often(0.7) else ():
            # The table's address mostly stays.
            if state.registers[register][0] == "table" and self.often(0.9):
                continue
            items.append(self.choice([unit(0xB7, register, immediate=self.choice(NUMBERS)), unit(0x71, register, 1, 3), unit(0x79, register, 1)]))
            if state.registers[1] != ("record", 0, 0):
                items[-1] = unit(0xB7, register, immediate=self.choice(NUMBERS))
            ways_from(state, length, 0, *decode(items[-1], 0), self.table)
        return items

    def steps(self, state, length, items, most):
        """More instructions, and what is known behind them."""
        for _ in range(self.random.randrange(most)):
            if self.often(0.1):
                items, state = self.asked(state, length, items)
                continue
            for _ in range(8):
                item = self.instruction(state)
                try:
                    ways = ways_from(state.copy(), length, 0, *decode(item, 0), self.table)
                except (Broken, NoInstruction):
                    if self.often(0.004):
                        break
                    continue
                if ways:
                    state = ways[-1][1]
                    break
            items.append(item)
        return items, state

    def asked(self, state, length, items):
        """The call of a helper or an access at a range, mostly one that is accepted, and what is known behind it."""
        for _ in range(4):
            is_index = self.often(0.6 if self.table else 0.25) and any(value[0] in ("record", "table") for value in state.registers)
            more, behind, left = self.indexing(state, length) if is_index else self.asking(state), state.copy(), 0
            try:
                for item in more:
                    # The exit behind a branch has registers of its own.
                    if left:
                        left -= 1
                        continue
                    ways = ways_from(behind, length, 0, *decode(item, 0), self.table)
                    behind = ways[0][1]
                    left = 2 if is_index and item[0] & 7 in (5, 6) else 0
                return items + more, behind
            except (Broken, NoInstruction):
                if self.often(0.03):
                    return items + more, state
        return items, state

    def ended(self, items, state):
        if self.often(0.01):
            return items + [unit(0xBF, 0, self.choice([1, 10])), unit(0x95)]
        return items + [unit(0xB7, 0, immediate=3)] * (state.registers[0][0] != "number") + [unit(0x95)]

    def with_distances(self, items):
        """Jumps and branches go a few instructions on."""
        starts = [sum(len(item) for item in items[:place]) // 8 for place in range(len(items))]
        for place, item in enumerate(items):
            if item[0] == 0x05 or item[0] & 7 in (5, 6) and item[0] >> 4 in COMPARISONS and item[2:4] == b"\0\0":
                target = starts[min(len(items) - 1, place + 1 + self.choice([0, 1, 1, 2, 2, 3, 5]))]
                distance = self.random.randrange(-3, 9) if self.often(0.002) else target - starts[place] - 1
                items[place] = item[:2] + struct.pack("<h", distance) + item[4:]
        return items

    # Programs as texts.

    def text_line(self):
        if self.often(0.15):
            return self.choice(["", "; c", " \t", "x:", "y:", " out: ; c"] if self.often(0.9) else ODD_LINES)
        word = self.choice(sorted(KINDS))
        arguments = [self.choice(GOOD_ARGUMENTS[kind] if self.often(0.97) else ODD_ARGUMENTS) for kind in self.choice(KINDS[word])]
        if self.often(0.03):
            arguments = arguments[1:] if self.often(0.5) else arguments + ["r1"]
        statement = word + self.choice([" ", "\t", "  "]) + self.choice([", ", ",", " ,\t"]).join(arguments) if arguments else word
        return self.choice(["", " ", "\t"]) + statement + self.choice(["", " ", " ; note", ";x"])

    def odd_text(self):
        """Statements that have little to do with each other, most of them as the grammar wants."""
        lines = [self.text_line() for _ in range(self.random.randrange(6))]
        return lines + [self.choice(["exit", "exit", self.text_line()])]

    def damaged(self, lines):
        """Lines of which one is another one, stands twice or is left out."""
        place, kind = self.random.randrange(len(lines)), self.random.randrange(4)
        labels = [place for place, line in enumerate(lines) if line.strip(" \t").endswith(":")]
        if labels and self.often(0.5):
            place = self.choice(labels)
        if kind == 0:
            return lines[:place] + lines[place + 1 :]
        return lines[:place] + [lines[place]] * (kind < 3) + [lines[place] if kind == 1 else self.text_line()] + lines[place + 1 :]

    def text(self, length):
        """The lines of a block, without one that ends it."""
        lines = lines_of(self.random, self.code(length)) if self.often(0.7) else None
        if lines is None:
            lines = self.odd_text()
        elif self.often(0.15):
            lines = self.damaged(lines)
        return [line for line in lines if line.split() != ["end"]]

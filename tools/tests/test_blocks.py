"""Layout and rewriting: random acyclic graphs of blocks, in any order, keep their numbers, and each jump goes forward. The machine
of the second implementation runs them. BLOCK_GRAPHS in the environment says how many graphs are tried."""
import os
import random
import struct
import unittest

from tools_here import TOOLS  # noqa: F401

import sys

sys.path.insert(0, str(TOOLS.parent / "tests/second_implementation"))

from bpf import Graph, run  # noqa: E402
from verifier import judged  # noqa: E402

from edgebpf_tools.blocks import Circle, Stray, cut, in_order, joined, laid_out, placed, split, target_of  # noqa: E402
from edgebpf_tools.flow import entry_state  # noqa: E402
from edgebpf_tools.rewriting import Rewriting  # noqa: E402

GRAPHS = int(os.environ.get("BLOCK_GRAPHS", "2000"))
REWRITTEN = GRAPHS // 2
NO_GRAPH = Graph(4, {}, 0)
ALU = [0x07, 0x0F, 0x04, 0x0C, 0x17, 0x1F, 0x27, 0x2F, 0x47, 0x4F, 0x57, 0x5F, 0xA7, 0xAF, 0xAC, 0xB7, 0xBF, 0xB4, 0xBC]
ALU += [0x57, 0x54, 0x44, 0x4C, 0xC7, 0xC4, 0x77, 0x74, 0x67, 0xB4, 0xBF]
# Extensions by the sign, and signed division and modulo, by opcode and offset.
SIGNED = [(0xBF, 8), (0xBF, 16), (0xBF, 32), (0xBC, 8), (0x37, 1), (0x34, 1), (0x97, 1)]
COMPARED = [1, 2, 3, 4, 5, 6, 7, 10, 11, 12, 13]


def unit(opcode, destination=0, source=0, offset=0, immediate=0):
    return struct.pack("<BBhi", opcode, source << 4 | destination, offset, immediate)


class RandomCode:
    """Blocks each of which leads to later ones, written in any order but for the first."""

    def __init__(self, seed):
        self.random = random.Random(seed)
        self.count = self.random.randint(1, 14)
        order = [0, *self.random.sample(range(1, self.count), self.count - 1)]
        parts = [self.block(number) for number in order]
        starts, at = {}, 0
        for number, (body, ending) in zip(order, parts):
            starts[number] = at
            at += len(body) // 8 + len(ending)
        self.code, at = b"", 0
        for body, ending in parts:
            self.code += body
            for template, target in ending:
                at = len(self.code) // 8
                distance = 0 if target is None else starts[target] - at - 1
                wide = template[0] == 0x06
                field = struct.pack("<i" if wide else "<h", distance)
                self.code += template[:4] + field if wide else template[:2] + field + template[4:]

    def value(self):
        return self.random.choice([0, 1, 2, 3, 7, 8, 255, -1, -2, 2**31 - 1, self.random.randint(-1000, 1000)])

    def instruction(self):
        kind, target, source = self.random.random(), self.random.randint(0, 5), self.random.randint(0, 5)
        if kind < 0.1:
            return unit(0x18, target, 0, 0, self.value()) + unit(0, immediate=self.value())
        if kind < 0.2:
            return unit(0x7B, 10, source, -8 * self.random.randint(1, 2))
        if kind < 0.3:
            return unit(0x79, target, 10, -8 * self.random.randint(1, 2))
        if kind < 0.4:
            opcode, registers = self.random.choice([(0x63, (10, source)), (0x61, (target, 10)), (0x62, (10, 0))])
            return unit(opcode, *registers, self.random.choice([-20, -24, -28]), self.random.choice([5, -5]) if opcode == 0x62 else 0)
        if kind < 0.45:
            opcode, offset = self.random.choice(SIGNED)
            return unit(opcode, target, source, offset) if opcode & 8 else unit(opcode, target, 0, offset, self.value())
        opcode = self.random.choice(ALU)
        return unit(opcode, target, source) if opcode & 8 else unit(opcode, target, 0, 0, self.value())

    def block(self, number):
        """The bytes of a block, and its last instructions with the blocks to which they go."""
        body = b"".join(self.instruction() for _ in range(self.random.randint(0, 4)))
        if number == 0:
            start = b"".join(unit(0x61, register, 1, 4 * (register % 4)) for register in (0, 2, 3, 4, 5))
            kept = unit(0x7B, 10, 2, -8) + unit(0x7B, 10, 4, -16) + b"".join(unit(0x63, 10, 3, place) for place in (-20, -24, -28))
            body = start + unit(0xBF, 1, 3) + kept + body
        later = range(number + 1, self.count)
        if not later or self.random.random() < 0.1:
            return body, [(unit(0x95), None)]
        jump = unit(self.random.choice([0x05, 0x05, 0x06])), self.random.choice(later)
        if self.random.random() < 0.3:
            return body, [jump]
        code, width = self.random.choice(COMPARED) << 4, self.random.choice([5, 6])
        left, right = self.random.randint(0, 5), self.random.randint(0, 5)
        branch = unit(code | width | 8, left, right) if self.random.random() < 0.5 else unit(code | width, left, 0, 0, self.value())
        return body, [(branch, self.random.choice(later)), jump]


def code_of(instructions):
    return b"".join(instruction.units for instruction in instructions)


class Layout(unittest.TestCase):
    def test_random_graphs_keep_their_numbers(self):
        backward, dropped = 0, 0
        for seed in range(GRAPHS):
            made = RandomCode(seed)
            laid = code_of(laid_out(cut(made.code)))
            for at, units in split(laid):
                target = target_of(at, units)
                self.assertTrue(target is None or target > at, seed)
            self.assertIsInstance(judged(laid, 16), tuple, seed)
            backward += not isinstance(judged(made.code, 16), tuple)
            dropped += len(laid) < len(made.code)
            for number in range(3):
                record = made.random.randbytes(16)
                most = len(made.code) // 8 + 1
                self.assertEqual(run(laid, record, NO_GRAPH, most), run(made.code, record, NO_GRAPH, most), (seed, record))
        # Most of the graphs have a jump that goes back at first, and many have blocks that nothing reaches.
        self.assertGreater(backward, GRAPHS // 2)
        self.assertGreater(dropped, GRAPHS // 4)

    def test_rewritten_code_computes_the_same(self):
        changed = 0
        for seed in range(REWRITTEN):
            made = RandomCode(seed + 1_000_000)
            plain, length = code_of(laid_out(cut(made.code))), len(made.code)
            rewriting = Rewriting(cut(made.code), entry_state(16))
            code = code_of(joined(*placed(rewriting.blocks, rewriting.order)))
            changed += code != plain
            self.assertIsInstance(judged(code, 16), tuple, seed)
            for number in range(4):
                record = made.random.randbytes(16) if number % 2 else bytes(made.random.choice([0, 0, 1, 7, 255]) for _ in range(16))
                self.assertEqual(run(code, record, NO_GRAPH, length), run(plain, record, NO_GRAPH, length), (seed, record))
        self.assertGreater(changed, REWRITTEN // 4)

    def test_blocks_that_are_in_order_stay(self):
        # if r1 != 0 goto +1; r0 = 1; exit, as clang would write it.
        code = unit(0xB7, 0, 0, 0, 7) + unit(0x55, 1, 0, 1, 0) + unit(0xB7, 0, 0, 0, 1) + unit(0x95)
        self.assertEqual(code_of(laid_out(cut(code))), code)

    def test_a_branch_is_turned_where_that_saves_a_jump(self):
        # ja +2; [a:] r0 = 1; exit; [b:] if r1 > r2 goto a; r0 = 2; exit.
        code = unit(0x05, 0, 0, 2) + unit(0xB7, 0, 0, 0, 1) + unit(0x95) + unit(0x2D, 1, 2, -3) + unit(0xB7, 0, 0, 0, 2) + unit(0x95)
        wanted = unit(0x2D, 1, 2, 2) + unit(0xB7, 0, 0, 0, 2) + unit(0x95) + unit(0xB7, 0, 0, 0, 1) + unit(0x95)
        self.assertEqual(code_of(laid_out(cut(code))), wanted)

    def test_circles_and_ways_out(self):
        # r0 = 7; [loop:] r0 -= 1; if r0 != 0 goto loop; exit.
        loop = unit(0xB7, 0, 0, 0, 7) + unit(0x17, 0, 0, 0, 1) + unit(0x55, 0, 0, -2) + unit(0x95)
        with self.assertRaises(Circle) as told:
            in_order(cut(loop, lambda at: at))
        self.assertEqual((told.exception.last.end_place, told.exception.first.body[0].place), (2, 1))
        for stray in (unit(0x05, 0, 0, 5) + unit(0x95), unit(0xB7), unit(0x05, 0, 0, -2)):
            self.assertRaises(Stray, in_order, cut(stray))

    def test_a_loop_that_nothing_reaches_is_no_loop(self):
        code = unit(0xB7, 0, 0, 0, 7) + unit(0x95) + unit(0x05, 0, 0, -1)
        self.assertEqual(code_of(laid_out(cut(code))), code[:16])


if __name__ == "__main__":
    unittest.main()

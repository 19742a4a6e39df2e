"""Functions have at most five parameters, but for those that docs/DECISIONS.md names, each crate or function with its reason."""
import re
import unittest

import documents

MOST = 5
CRATES = documents.ROOT / "crates"
PAGE = documents.ROOT / "docs" / "DECISIONS.md"
# The paragraph that names what has more: `CRATE`, or `CRATE::FUNCTION`.
PARAGRAPH = re.compile(r"^\*\*A function has at most five parameters\*\*.*?(?=\n\n)", re.M | re.S)
OPENING, CLOSING = "([{<", ")]}>"


def parts_of(text, at):
    """The parts between commas inside the bracket that opens at a place, and where it ends. Arrows close no bracket."""
    depth, parts, begins = 0, [], at + 1
    for place in range(at, len(text)):
        letter = text[place]
        if letter in OPENING:
            depth += 1
        elif letter in CLOSING and not (letter == ">" and text[place - 1] in "-="):
            depth -= 1
        if depth == 0 or (depth == 1 and letter == ","):
            parts.append(text[begins:place].strip())
            begins = place + 1
        if depth == 0:
            return [part for part in parts if part], place
    raise ValueError("a bracket has no end")


def functions_of(text):
    """Each function of a source, and how many parameters it has, `self` among them."""
    text = re.sub(r"//.*", "", text)
    for found in re.finditer(r"\bfn\s+(\w+)\s*(?=[<(])", text):
        at = found.end()
        if text[at] == "<":
            at = text.index("(", parts_of(text, at)[1])
        yield found[1], len(parts_of(text, at)[0])


def named():
    return {*re.findall(r"`(\w+(?:::\w+)?)`", PARAGRAPH.search(PAGE.read_text())[0])}


class Parameters(unittest.TestCase):
    def test_counting(self):
        text = "fn a<F: Fn(u8, u8) -> bool>(&self, f: F, (x, y): (u8, u8)) {} // fn b(x: u8)\nfn c() {}\nfn d(\n    x: [u8; 2],\n) -> u8 {}"
        self.assertEqual([*functions_of(text)], [("a", 3), ("c", 0), ("d", 1)])

    def test_each_function_has_at_most_five_or_is_named(self):
        more = {}
        for path in CRATES.glob("*/src/**/*.rt"):
            crate = path.relative_to(CRATES).parts[0]
            for name, count in functions_of(path.read_text()):
                if count > MOST:
                    more.setdefault(crate, set()).add(f"{crate}::{name}")
        allowed = named()
        self.assertEqual({name for crate, names in more.items() if crate not in allowed for name in names} - allowed, set())
        self.assertEqual(allowed - {*more} - {name for names in more.values() for name in names}, set())


if __name__ == "__main__":
    unittest.main()

#!/usr/bin/env python3
"""Tries docs/playground.html in headless Chromium: what it shows of each example is what the library for C answers; what it says of wrong fields,
without WebAssembly, and if the module traps; and whether keyboard, screen reader, telephone, light and dark are served. Python's unittest runs it.
Chromium is needed, python3-numpy, python3-cffi and binaryen; a test whose program is missing is skipped, and says so.
"""
import base64
import gzip
import json
import pathlib
import re
import shutil
import subprocess
import sys
import tempfile
import unittest
from urllib.parse import urlencode

import numpy as np

HERE = pathlib.Path(__file__).resolve().parent
ROOT = HERE.parent.parent
sys.path[:0] = [str(ROOT / "bindings/python"), str(HERE)]
import browser  # noqa: E402
import compare  # noqa: E402
import edgebpf  # noqa: E402
from edgebpf import library  # noqa: E402
from reach import CONTRAST, contrast, letters  # noqa: E402

PAGE = ROOT / "docs/playground.html"
EXAMPLES = json.loads((ROOT / "tools/playground/examples.json").read_text())
SHOWN = "document.body.dataset.shown === 'yes'"
# What the assembler says of a line, as docs/BPF.md has it in words.
MISTAKE = "Line 3: no statement has this word"
EVERYTHING_TRAPS = '(module (memory (export "memory") 20) (global (export "__heap_base") i64 (i64.const 1024)) %s)'


def text_of(name):
    return f"document.getElementById('{name}').textContent"


def cells_of(name):
    return f"[...document.querySelectorAll('#{name} tbody tr')].map((row) => [...row.cells].map((cell) => cell.textContent))"


def address(**fields):
    return f"{PAGE.as_uri()}#{urlencode(fields)}"


def counted(count, word):
    return f"{count} {word}{'' if count == 1 else 's'}"


def line_of_unit(text, unit):
    """The line of the statement that begins at a unit, by counting two for each `lddw`, and the statement."""
    at = 0
    for number, line in enumerate(text.splitlines(), 1):
        statement = line.split(";")[0].strip()
        if statement and not statement.endswith(":"):
            if at == unit:
                return number, statement
            at += 2 if statement.startswith("lddw") else 1
    raise ValueError(unit)


class Expected:
    """What the library for C says of an example."""

    def __init__(self, example):
        edges = [tuple(map(int, line.split())) for line in example["edges"].splitlines()]
        self.vertices = 1 + max(max(edge) for edge in edges)
        self.argument = bytes.fromhex(example.get("argument", ""))
        self.columns = [np.array(line.split(":")[1].split(), np.uint64) for line in example.get("columns", "").splitlines()]
        self.record = 16 + len(self.argument) + 16 * len(self.columns)
        self.code = compare.code_of({"text": example["program"]})
        self.edges, self.rows, self.numbers = sorted(edges), [], []
        if isinstance(self.code, list):
            self.explained, self.verdict = "", MISTAKE
            return
        self.explained, verdict = compare.explain(self.record, self.code, b""), compare.judged(self.record, self.code, b"")
        if verdict[0] == library.REFUSED:
            self.verdict = "Refused at line {}: {}".format(*line_of_unit(example["program"], verdict[2]))
            return
        self.verdict = f"Accepted: at most {counted(verdict[1], 'instruction')} for an edge, {counted(verdict[2], 'frame')}"
        self._run(example)

    def _run(self, example):
        program = edgebpf.Program(self.code, self.record)
        with edgebpf.Store(vertices=self.vertices) as store:
            store.apply(edges=self.edges)
            version, given = store.pin(), {"argument": self.argument, "columns": self.columns}
            result = version.run(program, ["sum", "min", "max"][int(example["reduction"])], **given)
            numbers = version.numbers(program, self.argument, columns=self.columns)
        degrees = [sum(source == vertex for source, _ in self.edges) for vertex in range(self.vertices)]
        self.rows = [[str(vertex), str(degrees[vertex]), str(value)] for vertex, value in enumerate(result.values) if degrees[vertex]]
        self.numbers = [[str(source), str(target), str(number)] for (source, target), number in zip(self.edges, numbers)]
        self.total = str(result.total)


class InBrowser(unittest.TestCase):
    """Tests that share a browser."""

    flags = ()

    @classmethod
    def setUpClass(cls):
        if browser.found() is None:
            raise unittest.SkipTest("there is no chromium")
        cls.page = cls.enterClassContext(browser.Browser(*cls.flags))

    def open(self, **fields):
        self.page.faults.clear()
        self.page.size(1280, 900)
        self.page.open(address(**fields), SHOWN)

    def shown(self, name):
        return self.page.evaluate(text_of(name))

    def fill(self, program):
        """Puts a program into its field, as a person does who pastes it."""
        given = f"field.value = {json.dumps(program)}; field.dispatchEvent(new Event('input'));"
        self.page.evaluate(f"(() => {{ const field = document.getElementById('program'); {given} }})()")


class Examples(InBrowser):
    def test_each_example_shows_what_the_library_answers(self):
        for example in EXAMPLES:
            with self.subTest(example["name"]):
                self.open(example=example["name"])
                expected = Expected(example)
                self.assertEqual(self.shown("text"), expected.explained)
                self.assertEqual(self.shown("verdict"), expected.verdict)
                self.assertEqual(self.page.evaluate(cells_of("rows")), expected.rows)
                self.assertEqual(self.page.evaluate(cells_of("numbers-table")), expected.numbers)
                drawn = self.page.evaluate("[...document.querySelectorAll('.number')].map((text) => text.firstChild.textContent)")
                self.assertEqual(drawn, [f"{source} to {target}: {number}" for source, target, number in expected.numbers])
                self.assertEqual(len(self.page.evaluate("[...document.querySelectorAll('.edge')].map(() => 1)")), len(expected.edges))
                if expected.rows:
                    self.assertTrue(self.shown("state").endswith(f" of all numbers is {expected.total}."), self.shown("state"))
                self.assertEqual(self.page.faults, [])

    def test_lines_have_the_states_of_the_explanation(self):
        """The list and the explanation as text have the same states, in the same order, and the refused line is marked."""
        for example in EXAMPLES:
            with self.subTest(example["name"]):
                self.open(example=example["name"])
                parts = "[...line.children].map((part) => part.textContent).join('  ')"
                known = self.page.evaluate(f"[...document.querySelectorAll('#lines .known')].map((line) => {parts})")
                self.assertEqual(known, [line.strip() for line in self.shown("text").splitlines() if line.startswith("    ")])
                broken = self.page.evaluate("[...document.querySelectorAll('#lines .broken .line')].map((line) => line.textContent)")
                marked = re.match(r"(?:Refused at l|L)ine (\d+):", self.shown("verdict"))
                self.assertEqual(broken, [marked[1]] if marked else [])


class Fields(InBrowser):
    def test_what_is_wrong_is_said_at_its_field(self):
        good = {"program": "mov r0, 1\nexit", "edges": "0 1", "argument": "", "columns": "", "reduction": "0"}
        wrong = {
            "edges": [
                ("0", "Line 1 is not two vertices"), ("0 1\n1 70000", "Line 2 is not two vertices"), ("a b", "Line 1 is not"),
                ("0 1\n" * 4097, "takes 4096 edges"),
            ],
            "argument": [("0", "pairs of the digits"), ("0g", "pairs of the digits"), ("00" * 241, "240 bytes at most")],
            "columns": [
                ("1", "Column 1 has 1 number, and the graph 2 vertices"), ("1 -1", "without a sign"), ("1 18446744073709551616", "from 0 to"),
                ("1 2\n" * 9, "8 columns at most"),
            ],
        }
        for name, cases in wrong.items():
            for text, words in cases:
                with self.subTest(name, text=text[:20]):
                    self.open(**{**good, name: text})
                    self.assertIn(words, self.shown(f"{name}-wrong"))
                    self.assertEqual(self.page.evaluate(f"document.getElementById('{name}').getAttribute('aria-invalid')"), "true")
                    self.assertTrue(self.shown("state").startswith("No run") or name == "argument", self.shown("state"))
                    self.assertEqual(self.page.faults, [])
        self.open(**good)
        self.assertEqual((self.shown("edges-wrong"), self.shown("verdict")), ("", "Accepted: at most 2 instructions for an edge, 1 frame"))

    def test_text_stays_text(self):
        attack = '<img src=x onerror="document.title=1"></textarea></script><script>document.title=1</script>'
        self.open(program=attack, edges=attack, argument=attack, columns=attack)
        self.assertEqual(self.page.evaluate("document.title"), "edgebpf playground")
        self.assertEqual(self.page.evaluate("document.querySelectorAll('img').length"), 0)
        self.assertEqual(self.page.evaluate("document.getElementById('program').value"), attack)
        self.open(program=attack, edges="0 1")
        self.assertEqual(self.page.evaluate("document.querySelector('#lines .broken .statement').textContent"), attack)
        self.assertEqual(self.page.evaluate("document.querySelectorAll('img').length"), 0)

    def test_a_refusal_in_a_function_names_its_calls(self):
        """The state in a function is that of the calls that are open: each is named by its line."""
        lines = ["stb [r10-1], 5", "mov r1, r10", "add r1, -8", "", "calllocal f", "exit", "f:", "calllocal g", "exit", "g:", "ldxdw r0, [r1+0]", "exit"]
        self.open(program="\n".join(lines), edges="0 1")
        self.assertEqual(self.shown("verdict"), "Refused at line 11: ldxdw r0, [r1+0]")
        called = self.page.evaluate("[...document.querySelectorAll('#lines .called')].map((line) => line.textContent)")
        places = re.findall(r"^called at (\d+)$", self.shown("text"), re.M)
        self.assertEqual(places, ["3", "5"])
        named = [line for text in called for line in re.findall(r"\d+", text)]
        self.assertEqual(named, [str(line_of_unit("\n".join(lines), int(place))[0]) for place in places])

    def test_a_large_graph_has_tables(self):
        self.open(program="ldxw r0, [r1+4]\nexit", edges="\n".join(f"{at} {at + 1}" for at in range(3000)))
        self.assertEqual(self.shown("graph"), "No drawing: 3001 vertices and 3000 edges are too many for one.")
        self.assertEqual(self.shown("state"), f"3000 edges; the sum of all numbers is {3000 * 3001 // 2}.")
        self.assertEqual(self.page.evaluate(cells_of("rows"))[-1], ["and 2800 more"])
        self.assertTrue(self.page.evaluate("document.getElementById('numbers').open"))

    def test_a_long_run_goes_in_steps_and_gives_way(self):
        """Seven functions, of which each but the last calls the next eight times, run up to 861,329 instructions for an edge."""
        lines = []
        for function in range(6):
            lines += [f"f{function}:", *[f"calllocal f{function + 1}"] * 8, "exit"]
        program = "\n".join([*lines, "f6:", "mov r0, 1", "exit"])
        self.open(program="mov r0, 1\nexit", edges="\n".join(f"{at} {at + 1}" for at in range(4000)))
        self.fill(program)
        self.page.wait("document.getElementById('state').textContent.startsWith('The run goes on')")
        self.fill("mov r0, 2\nexit")
        self.page.wait("document.getElementById('state').textContent === '4000 edges; the sum of all numbers is 8000.'")
        self.assertEqual(self.page.faults, [])

    def test_an_empty_program_and_no_edges(self):
        self.open(program="; nothing", edges="")
        self.assertEqual(self.shown("verdict"), "There is no program yet.")
        self.open(program="mov r0, 1\nexit", edges="")
        self.assertEqual(self.shown("state"), "There is no edge, so there is no number.")


class Reach(InBrowser):
    def test_by_keyboard(self):
        self.open(example=EXAMPLES[0]["name"])
        self.page.evaluate("document.body.focus()")
        reached = []
        for _ in range(14):
            self.page.key("Tab")
            reached.append(self.page.evaluate("(({ id, tagName, textContent }) => id || `${tagName}: ${textContent}`)(document.activeElement)"))
        wanted = ["example", "program", "A: All words", "edges", "argument", "columns", "reduction", "lines", "SUMMARY: The same as text"]
        self.assertEqual([name for name in dict.fromkeys(reached) if name in wanted], wanted)
        self.assertIn("SUMMARY: The number of each edge, as a table", reached)
        self.assertEqual(self.page.evaluate("getComputedStyle(document.activeElement).outlineStyle"), "solid")
        # What is typed is verified at once, and the address keeps it.
        self.page.evaluate("(() => { const field = document.getElementById('program'); field.focus(); field.select(); })()")
        self.page.type("mov r0, r2\nadd r0, r9\nexit")
        self.page.wait("document.getElementById('verdict').textContent === 'Refused at line 2: add r0, r9'")
        self.assertEqual(self.page.evaluate("document.getElementById('example').value"), "of your own")
        self.page.wait("new URLSearchParams(location.hash.slice(1)).get('program') === 'mov r0, r2\\nadd r0, r9\\nexit'")

    def test_by_a_screen_reader(self):
        self.open(example=EXAMPLES[0]["name"])
        nodes = self.page.call("Accessibility.getFullAXTree")["nodes"]
        named = [(node["role"]["value"], node.get("name", {}).get("value", "")) for node in nodes if not node.get("ignored") and "role" in node]
        for role in ("textbox", "combobox", "image", "list", "region", "table", "heading", "link"):
            names = [name for kind, name in named if kind == role]
            self.assertTrue(names, role)
            self.assertNotIn("", names, role)
        self.assertEqual(len([1 for kind, _ in named if kind == "status"]), 2)
        self.assertEqual(self.page.evaluate("document.documentElement.lang"), "en")

    def test_on_a_telephone(self):
        for example in EXAMPLES:
            self.open(example=example["name"])
            for width in (320, 390, 800):
                self.page.size(width, 800, mobile=width < 800)
                self.assertLessEqual(self.page.evaluate("document.documentElement.scrollWidth"), width, (example["name"], width))
        # The verdict stays in sight while the fields below are changed.
        self.page.size(390, 800, mobile=True)
        self.page.evaluate("document.getElementById('edges').scrollIntoView({ block: 'end' })")
        top, bottom = self.page.evaluate("(({ top, bottom }) => [top, bottom])(document.getElementById('verdict').getBoundingClientRect())")
        self.assertTrue(0 <= top < bottom <= 800, (top, bottom))

    def test_letters_stand_out_in_light_and_dark(self):
        places = ["#verdict", "#reasons", "#reasons a", ".known", ".changed", ".broken .known", ".broken .here", ".line"]
        places += [".help", ".help a", "header p", "footer p", "footer a", "textarea", "td", "thead th"]
        seen = {}
        for scheme in ("light", "dark"):
            self.page.scheme(scheme)
            for example in EXAMPLES[:2]:
                self.open(example=example["name"])
                for place, ink, paper in self.page.evaluate(letters(places)):
                    self.assertGreaterEqual(contrast(ink, paper), CONTRAST, (scheme, place, ink, paper))
                    seen.setdefault(place, set()).add(paper)
        self.page.scheme("")
        self.assertEqual({place for place, papers in seen.items() if len(papers) < 2}, set())
        self.assertEqual(set(places) - set(seen), set())


class WithoutWebAssembly(InBrowser):
    # An engine that compiles nothing has no WebAssembly.
    flags = ("--js-flags=--jitless",)

    def test_it_says_what_is_missing(self):
        self.page.open(address(), f"{text_of('verdict')}.startsWith('This browser')")
        self.assertIn("needs WebAssembly with numbers of 64 bits", self.shown("verdict"))


class WithAModuleThatTraps(InBrowser):
    def test_it_says_that_the_module_stopped(self):
        if shutil.which("wasm-as") is None:
            self.skipTest("there is no wasm-as: apt-get install binaryen")
        names = re.findall(r"^(?:uint32_t|void) (edgebpf_\w+)\(", (ROOT / "bindings/c/edgebpf.h").read_text(), re.M)
        with tempfile.TemporaryDirectory() as folder:
            text, module, page = (pathlib.Path(folder) / name for name in ("module.wat", "module.wasm", "page.html"))
            text.write_text(EVERYTHING_TRAPS % " ".join(f'(func (export "{name}") (unreachable))' for name in names))
            subprocess.run(["wasm-as", text, "-o", module], check=True)
            packed = base64.b64encode(gzip.compress(module.read_bytes())).decode()
            whole = re.sub(r'(<script type="text/plain" id="module">\n).*?(</script>)', rf"\g<1>{packed}\2", PAGE.read_text(), flags=re.S)
            page.write_text(whole)
            self.page.open(page.as_uri(), SHOWN)
        self.assertEqual(self.shown("verdict"), "This is an error of the page: the module stopped: unreachable. What you typed stays: change it to go on.")


if __name__ == "__main__":
    unittest.main()

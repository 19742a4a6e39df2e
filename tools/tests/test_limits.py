"""Limits: docs/LIMITS.md says what a user meets at each, and here each cell about scripts is tried, at the limit and one past it. The numbers are those
of the crates (`tools/dev/write_limits.py`), and what repeats them elsewhere is found by the constants' names and compared."""
import importlib.util
import os
import pathlib
import re
import subprocess
import sys
import tempfile
import unittest

import documents
from tools_here import TOOLS, run_tool

sys.path.insert(0, str(TOOLS / "dev"))
sys.path.insert(0, str(TOOLS.parent / "tests/second_implementation"))

import write_limits  # noqa: E402
from edgebpf_tools import run_c  # noqa: E402
from limit_scripts import NEXT, SCRIPTS  # noqa: E402
from script import serve  # noqa: E402

TOP = TOOLS.parent
PROGRAM = os.environ.get("EDGEBPF") or str(TOP / "crates/edgebpf/out/edgebpf")
IS_BUILT = os.access(PROGRAM, os.X_OK)
SECOND_STORE = str(TOOLS / "tests" / "second_store.py")
# Numbers that stand in the words of statuses, and are no limits: the least number of anything, and the bytes of a unit.
ONE, UNIT = 1, 8
REFUSALS = re.compile(r"^(?:fault|refused|image|assembler) .*", re.M)


def answers(script):
    """What a script writes of what is refused: by the program where it is built, and else by the second implementation."""
    if IS_BUILT:
        said = subprocess.run([PROGRAM], input=script.encode(), capture_output=True).stdout.decode()
    else:
        said = serve(script.encode())[0]
    return REFUSALS.findall(said)


def given_in(path):
    """The numbers that a source gives to names in capitals."""
    said = path.read_text()
    if path.suffix == ".py":
        return write_limits.numbers_in_python(said)
    found = re.findall(r"^#define (?:EDGEBPF_)?([A-Z][A-Z_0-9]*) (\w+)u\b", said, re.M) if path.suffix == ".h" else []
    found += re.findall(r"\b(?:EDGEBPF_)?([A-Z][A-Z_0-9]*)(?:: \w+)? = ([0-9][0-9_]*(?: << [0-9]+)?)[,; ]", said)
    return {name: write_limits.number_of(number) for name, number in found}


def sources():
    run = subprocess.run(["git", "ls-files", "bindings", "examples", "tests", "tools"], cwd=TOP, capture_output=True, text=True)
    paths = [TOP / name for name in run.stdout.split()] or [path for name in ("bindings", "tests", "tools") for path in (TOP / name).rglob("*")]
    return [path for path in paths if path.suffix in (".py", ".c", ".h", ".rs", ".js") and path.exists()]


class Page(unittest.TestCase):
    def test_numbers_of_expressions(self):
        """What is read of a crate's constants is what Rust makes of them."""
        for key, number in (("bpf_isa::MOST_CODE_BYTES", 8 * 4_096), ("abstract_values::FRAME_BOTTOM", -512), ("bpf_blocks::MOST_ARGUMENT", 256 - 16),
                            ("past_model::MOST_EPOCHS", 2**64 - 1), ("history::MOST_PUBLICATIONS", 2**64 - 1), ("bpf_model::STACK_BASE", 2 << 32)):
            self.assertEqual(write_limits.of_key(key).value, number, key)

    def test_each_limit_of_the_crates_is_on_it(self):
        page = (TOP / "docs/LIMITS.md").read_text()
        keys = list(write_limits.all_of_limits())
        self.assertGreater(len(keys), 35)
        for key in keys:
            self.assertEqual(page.count(f"`{key}`"), 1, key)

    def test_words_of_its_cells(self):
        """Each status of the page is one of the header, which the tests in C meet, and each exception one of the package or of Python."""
        header = (TOP / "bindings/c/edgebpf.h").read_text()
        tried = "".join(path.read_text() for path in (TOP / "bindings/c/tests").glob("*.c"))
        errors = (TOP / "bindings/python/edgebpf/errors.py").read_text()
        faults = {int(row[0]) for row in documents.rows(documents.between(documents.SCRIPT, "| C | Means | Script", "\nAn endless line"))}
        for key, met in write_limits.MET.items():
            for status in re.findall(r"`(\w+)`", met.c):
                self.assertTrue(f"    EDGEBPF_{status} = " in header, f"{key}: {status}")
                # Nobody makes so many rebases.
                self.assertTrue(status == "EPOCHS_FULL" or re.search(rf"\bEDGEBPF_{status}\b", tried), f"{key}: {status}")
            for error in re.findall(r"`([A-Z]\w+)`", met.python):
                self.assertTrue(error == "ValueError" or f"class {error}(Error)" in errors, f"{key}: {error}")
            self.assertLessEqual({int(number) for number in re.findall(r"fault (\d+)", met.script)}, faults, key)
        self.assertEqual(set(run_c.FAULTS), faults)


class Scripts(unittest.TestCase):
    def test_each_is_tried(self):
        """But for the threads, which the next test tries."""
        self.assertEqual(set(SCRIPTS), {key for key, met in write_limits.MET.items() if met.script and met.script != "status 2"})

    def test_at_each_limit_and_past_it(self):
        for key, scripts in SCRIPTS.items():
            most, wanted = write_limits.of_key(key).value, write_limits.MET[key].script.split("; ")
            past = NEXT.get(key, lambda number: number + 1)(most)
            for place, script in enumerate(scripts):
                kind, *words, number = wanted[min(place, len(wanted) - 1)].split(" ")
                line = {"fault": "fault {}", "cause": "refused p cause {}", "image": "image p error {}", "assembler": "assembler p error {}"}[kind].format(number)
                with self.subTest(key, place=place):
                    self.assertEqual(answers(script(most)), [])
                    said = answers(script(past))
                    self.assertEqual([one[:len(line) + 1].strip() for one in said], [line])

    @unittest.skipUnless(IS_BUILT, "no program is built")
    def test_threads(self):
        most = write_limits.of_key("workers::MOST_WORKERS").value
        for count, status in ((most, 0), (most + 1, 2)):
            run = subprocess.run([PROGRAM, "--workers", str(count)], input="graph 1\n", capture_output=True, text=True)
            self.assertEqual(run.returncode, status, run.stderr)


class Companions(unittest.TestCase):
    """Limits that the companions have besides those of the crates."""

    def number(self, path, name):
        return write_limits.own_number(f"tools/edgebpf_tools/{path}", name)

    def test_processes(self):
        most = self.number("spread.py", "MOST_PROCESSES")
        run = run_tool("edgebpf-spread", "--processes", str(most + 1), "none", "none")
        self.assertEqual((run.returncode, run.stdout), (1, ""))
        self.assertIn(f"--processes is 1 to {most}, not {most + 1}", run.stderr)

    @unittest.skipUnless(importlib.util.find_spec("numpy"), "there is no numpy")
    def test_names(self):
        most = self.number("named_edges.py", "MOST_NAME_BYTES")
        with tempfile.TemporaryDirectory() as folder:
            path = pathlib.Path(folder) / "edges"
            for count, status, words in ((most, 0, "2 vertices, 1 edges"), (most + 1, 1, f"line 1: a name has more than {most} bytes")):
                path.write_text("a" * count + " b\n")
                run = run_tool("edgebpf-import", "--names", str(path))
                self.assertEqual(run.returncode, status, run.stderr)
                self.assertIn(words, run.stderr)

    def test_files(self):
        most = self.number("shell.py", "MOST_FILES")
        with tempfile.TemporaryDirectory() as folder:
            for place in range(most + 1):
                (pathlib.Path(folder) / f"{place}").write_text(f".read {folder}/{place + 1}\n")
            (pathlib.Path(folder) / f"{most + 1}").write_text("graph 7\n")
            for first, is_read in ((2, True), (1, False)):
                run = run_tool("edgebpf-shell", text=f".read {folder}/{first}\n", env=os.environ | {"EDGEBPF": PROGRAM if IS_BUILT else SECOND_STORE})
                self.assertEqual("graph 7" in run.stdout.splitlines(), is_read, run.stdout + run.stderr)
                self.assertEqual(f"at most {most} files" in run.stdout + run.stderr, not is_read)


class Elsewhere(unittest.TestCase):
    """Numbers of the crates that other sources repeat."""

    @classmethod
    def setUpClass(cls):
        cls.known = write_limits.by_name((*write_limits.MET, *write_limits.ALSO, *write_limits.HOMES))

    def test_constants_of_the_same_name(self):
        """A constant in C, Python, Rust or JavaScript that has the name of a limit has its number, unless the page has it as one of its own."""
        found, others = {}, []
        for path in sources():
            name, own = str(path.relative_to(TOP)), write_limits.OWN.get(str(path.relative_to(TOP)), {})
            for limit, number in given_in(path).items():
                if limit in self.known and limit not in own:
                    found.setdefault(name, set()).add(limit)
                    others += [] if number == self.known[limit] else [f"{name}: {limit} = {number}"]
        self.assertEqual(others, [])
        # Without these nothing would have been compared.
        for name in ("bindings/c/edgebpf.h", "bindings/rust/src/lib.rs", "bindings/js/host.js", "tools/edgebpf_client.py", "tools/edgebpf_serve/limits.py",
                     "tests/second_implementation/script.py", "tests/second_implementation/bpf.py", "tests/second_implementation/verifier.py"):
            self.assertIn(name, found)

    def test_public_limits(self):
        """Each limit that the header and the crate for Rust have in public is one of the crates' by its name."""
        header, rust = ((TOP / "bindings" / name).read_text() for name in ("c/edgebpf.h", "rust/src/lib.rs"))
        public = re.findall(r"^#define EDGEBPF_(MOST_\w+) ", header, re.M) + re.findall(r"^pub const (\w+)", rust, re.M)
        self.assertGreaterEqual(len(public), 11)
        self.assertLessEqual(set(public), set(self.known))
        self.assertTrue("#define EDGEBPF_MOST_EPOCHS UINT64_MAX\n" in header)
        self.assertEqual(self.known["MOST_EPOCHS"], 2**64 - 1)

    def test_words_of_statuses(self):
        """A number in the words of a status is one of the limits that the page has for that status. Rust and JavaScript have the same words."""
        header, script = ((TOP / "bindings" / name).read_text() for name in ("c/edgebpf.h", "js/host.js"))
        statuses = re.findall(r"^    EDGEBPF_(\w+) = \d+,?$", header.partition("};")[0], re.M)
        words = re.findall(r'^        "(.*)",$', header, re.M)
        self.assertEqual(len(words), len(statuses))
        compared = 0
        for status, said in zip(statuses, words):
            limits = {name.split("::")[1]: write_limits.of_key(name).value for name, met in write_limits.MET.items() if f"`{status}`" in met.c}
            allowed = {ONE, *limits.values(), *(number.bit_length() for number in limits.values()), self.known["EDGE_BYTES"]} | ({UNIT} if "MOST_UNITS" in limits else set())
            for number in map(int, re.findall(r"\d+", said)):
                self.assertIn(number, allowed, said)
                compared += 1
        self.assertGreaterEqual(compared, 10)
        self.assertEqual(re.findall(r'^  "(.*)",$', script.partition("WORDS = ")[2].partition("]);")[0], re.M), words)
        rust = re.findall(r'write_str\(\s*"([^"]*[0-9][^"]*)"', (TOP / "bindings/rust/src/error.rs").read_text())
        self.assertGreaterEqual(len(rust), 8)
        self.assertLessEqual(set(rust), set(words))

    def test_numbers_of_texts_in_process(self):
        """Comments of the header and of the crate for Rust name a large number only if it is a limit in process or a constant of theirs."""
        limits = {write_limits.of_key(key).value for key, met in write_limits.MET.items() if met.c}
        paths = [TOP / "bindings/c/edgebpf.h", *sorted((TOP / "bindings/rust/src").glob("*.rs"))]
        own = {number for path in paths for number in given_in(path).values()}
        count = 0
        for path in paths:
            for number in re.findall(r"\b[0-9]{1,3}(?:,[0-9]{3})+\b", path.read_text()):
                self.assertIn(int(number.replace(",", "")), limits | own, f"{path.name}: {number}")
                count += 1
        self.assertGreater(count, 10)

    def test_numbers_of_readme(self):
        """Each number in the table of limits is one of the page."""
        known = set(self.known.values())
        table = documents.rows(documents.between(documents.README, "\n## Limits\n", "\n[docs/LIMITS.md]"))
        numbers = [int(number.replace(",", "")) for _, cell in table[1:] for number in re.findall(r"(?<![\w^-])[0-9][0-9,]*\b(?!-)", re.sub(r"\([^)]*\)", "", cell))]
        self.assertGreater(len(numbers), 15)
        self.assertLessEqual(set(numbers) - {0}, known)


if __name__ == "__main__":
    unittest.main()

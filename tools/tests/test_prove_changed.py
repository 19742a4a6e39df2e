"""tools/dev/prove_changed over libraries that tools/prove kept, and tools/dev/try: which of them are taken, and what is said of tiny crates."""
import importlib.machinery
import importlib.util
import os
import pathlib
import shutil
import subprocess
import tempfile
import unittest
from unittest import mock

from tools_here import PYTHON, TOOLS

import kept_libraries

SOURCE = """//! A crate of the test.
#![tactic(auto)]

ghost use Rattle.std.specs.Prelude.{{◌≡◌}};
{use}
/// Gives its number back.
pub fn {name}(n: u32) -> u32
    ensures {{ result ≡ n }}
{{
    {body}
}}
"""
PROGRAM = """//! A program of the test.
#![tactic(auto)]

use low::same;
use std::io;

fn main(rt: HostRuntime) -> io::Result<()> {
    println!(rt; "{}", same(7))
}
"""
# Stands for the prover's checker: it says what it is told.
CHECKER = "#!/bin/sh\necho \"$@\"\n"
PROVER = "#!/bin/sh\necho kit of the test\n"


class TwoCrates(unittest.TestCase):
    def setUp(self):
        folder = tempfile.TemporaryDirectory()
        self.addCleanup(folder.cleanup)
        self.room = pathlib.Path(folder.name).resolve()
        self.top = self.room / "checkout"
        self.cache = mock.patch.dict(os.environ, {"XDG_CACHE_HOME": str(self.room / "cache")})
        self.cache.start()
        self.addCleanup(self.cache.stop)
        for crate in ("low", "high"):
            (self.top / "crates" / crate / "src").mkdir(parents=True)
        self.write("low", "same", "n")
        self.write("high", "twice", "same(same(n))", "\nuse low::same;\n")
        (self.top / "crates.txt").write_text("# lowest first\nlow:\nhigh: low\n")
        (self.top / "HANDLES").write_text("Handles allowed: none.\n")
        (self.top / ".git").mkdir()
        (self.top / "tools" / "dev").mkdir(parents=True)
        for tool in ("kept_libraries.py", "prove", "sources", "variants", "dev/installed_kit.py", "dev/prove_changed", "dev/try"):
            shutil.copy(TOOLS / tool, self.top / "tools" / tool)

    def write(self, crate, name, body, use=""):
        (self.top / "crates" / crate / "src/lib.rt").write_text(SOURCE.format(name=name, body=body, use=use))

    def run_tool(self, tool, *words):
        ran = subprocess.run([PYTHON, self.top / "tools" / tool, *words], stdout=subprocess.PIPE, stderr=subprocess.STDOUT, text=True)
        return ran.returncode, ran.stdout


class Kept(TwoCrates):
    """Which libraries are taken, with a prover that proves nothing."""

    def setUp(self):
        super().setUp()
        self.bin = self.room / "kit/bin"
        self.bin.mkdir(parents=True)
        for name, text in (("rt", PROVER), ("rattle", CHECKER)):
            (self.bin / name).write_text(text)
            (self.bin / name).chmod(0o755)
        path = mock.patch.dict(os.environ, {"PATH": f"{self.bin}:/usr/bin:/bin"})
        path.start()
        self.addCleanup(path.stop)
        self.made = self.top / "crates/low/out/rlib"
        (self.made / "low.rlib").mkdir(parents=True)
        (self.made / "low.rlib/format").write_text("made\n")

    def keep(self):
        kept_libraries.keep(self.top, "low", "kit of the test")

    def find(self, kit="kit of the test"):
        return kept_libraries.find(self.top, "low", kit)

    def checked(self):
        status, said = self.run_tool("dev/prove_changed", "high", "twice")
        self.assertEqual(0, status, said)
        return said

    def test_only_a_library_of_these_sources_and_this_kit(self):
        as_source = f"--lib low:std={self.top}/crates/low/src/lib.rt"
        self.assertIn(as_source, self.checked())
        self.keep()
        self.assertIn(f"--extern low={self.find()}", self.checked())
        self.assertIsNone(self.find("another kit"))
        self.write("low", "same", "n / 1")
        self.assertIn(as_source, self.checked())
        self.write("low", "same", "n")
        self.assertNotIn(as_source, self.checked())

    def test_the_last_ones_are_kept(self):
        for number in range(kept_libraries.MOST_OF_A_CRATE + 2):
            self.write("low", "same", f"n / {number + 1}")
            self.keep()
        self.assertEqual(kept_libraries.MOST_OF_A_CRATE, len(list(kept_libraries.folder().glob("low-*"))))
        self.assertIsNotNone(self.find())

    def test_half_a_library_is_never_taken(self):
        def half(made, to):
            os.makedirs(f"{to}/low.rlib")
            raise KeyboardInterrupt

        with mock.patch("shutil.copytree", half), self.assertRaises(KeyboardInterrupt):
            self.keep()
        self.assertEqual([], list(kept_libraries.folder().iterdir()))
        # what is left of a run that could not clean up: no process has this number
        left = kept_libraries.folder() / ".99999999-left"
        shutil.copytree(self.made, left / kept_libraries.place_of(self.top, "low", "kit of the test").name)
        self.assertIsNone(self.find())
        self.keep()
        self.assertFalse(left.exists())
        self.assertEqual("made\n", (self.find() / "format").read_text())

    def test_a_library_is_made_ready_with_its_stamp(self):
        stamps = "def lock(crates):\n    return []\n\n\nclass Crate:\n    def __init__(self, folder, root, known):\n        self.root = root\n    name, rlib = 'low', '%s/low.rlib'\n" \
            "    def below(self):\n        return [self]\n    def is_built(self):\n        return False\n    def stamp(self):\n        %s\n"
        self.keep()
        shutil.rmtree(self.made)
        (self.bin / "rtlib.py").write_text(stamps % (self.made, "raise OSError('stopped')"))
        self.assertEqual((1, "prove_changed: stopped\n"), self.run_tool("dev/prove_changed", "--ready", "high"))
        self.assertFalse(self.made.exists())
        (self.bin / "rtlib.py").write_text(stamps % (self.made, "return 'stamp of the test'"))
        self.assertEqual((0, ""), self.run_tool("dev/prove_changed", "--ready", "high"))
        self.assertEqual("stamp of the test", (self.made / "stamp").read_text())

    def test_an_unknown_crate(self):
        self.assertEqual((1, "prove_changed: nothing is no crate of crates.txt\n"), self.run_tool("dev/prove_changed", "nothing"))


@unittest.skipUnless(shutil.which("rt") and shutil.which("rattle"), "there is no prover")
class Proved(TwoCrates):
    """The prover's own answers, over a library of one function."""

    def is_built(self):
        """Whether rt takes the library of `low` that stands where it looks."""
        kit = pathlib.Path(shutil.which("rt")).resolve().parent / "rtlib.py"
        loader = importlib.machinery.SourceFileLoader("rtlib", str(kit))
        module = importlib.util.module_from_spec(importlib.util.spec_from_loader("rtlib", loader))
        loader.exec_module(module)
        return module.Crate(str(self.top / "crates/low"), str(self.top), {}).is_built()

    def test_two_crates(self):
        status, said = self.run_tool("prove", "low")
        self.assertEqual(0, status, said)
        status, said = self.run_tool("dev/prove_changed", "high")
        self.assertEqual(0, status, said)
        self.assertIn("fn high::twice: proved\n", said)
        self.assertNotIn("fn low::same", said)
        self.assertFalse(self.is_built())
        self.assertEqual((0, ""), self.run_tool("dev/prove_changed", "--ready", "high"))
        self.assertTrue(self.is_built())

        self.write("low", "same", "n / 2")
        self.assertFalse(self.is_built())
        status, said = self.run_tool("dev/prove_changed", "high")
        self.assertEqual(1, status, said)
        self.assertIn("read as sources: low\n", said)
        self.assertIn("fn high::twice: no proof: it calls `low::same`, which is not proved\n", said)
        status, said = self.run_tool("prove", "low")
        self.assertEqual(1, status, said)
        self.assertIn("rt: low NOT PROVED\n    crates/low/src/lib.rt:7:1: it is not proved that what the function ensures holds", said)
        self.assertIn("must prove: c.args.n / 2 ≡ c.args.n\n", said)

    def test_a_program_is_tried(self):
        (self.top / "crates/program/src").mkdir(parents=True)
        (self.top / "crates/program/src/main.rt").write_text(PROGRAM)
        (self.top / "crates.txt").write_text("low:\nprogram: low\n")
        self.write("low", "same", "m")
        status, said = self.run_tool("dev/try", "program")
        self.assertEqual(1, status, said)
        self.assertIn("crates/low/src/lib.rt:10:5: error", said)
        # no proof is asked for: this does not keep to its contract
        self.write("low", "same", "n + 1")
        status, said = self.run_tool("dev/try", "program")
        self.assertEqual(0, status, said)
        self.assertRegex(said, "^(try: built after .* seconds\n8\n|8\ntry: built after .* seconds\n)$")
        self.assertEqual((0, "8\n"), self.run_tool("dev/try", "program"))


if __name__ == "__main__":
    unittest.main()

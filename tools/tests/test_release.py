"""dist/ and what the gate says of it, before it proves anything: .ci/release --early; and the text of object files."""
import pathlib
import shutil
import subprocess
import tempfile
import unittest

from tools_here import MISSING, TOOLS

TOP = TOOLS.parent
PROGRAM = r"""
#include <stdio.h>
#include <stdlib.h>
static const double table[] = {1.0, 2.5, 3.25, 4.125};
static int counter;
int shared = 7;
__thread int own = 5;
__attribute__((noinline)) static int twice(int x) { return x * 2 + counter++; }
__attribute__((weak)) int weakly(void) { return 3; }
extern int maybe(void) __attribute__((weak));
int main(int count, char **words) {
    (void)words;
    const char *names[] = {"one", "a\"b\\c", "line\n", "one of these"};
    printf("%s%s%s%f %d\n", names[count & 3], names[1], names[2], table[count & 3], twice(count) + shared + own + weakly());
    return maybe ? maybe() : 0;
}
"""


@unittest.skipUnless((TOP / "dist" / "PROVED").exists(), "there is no dist/")
class Early(unittest.TestCase):
    def setUp(self):
        folder = tempfile.TemporaryDirectory()
        self.addCleanup(folder.cleanup)
        self.copy = pathlib.Path(folder.name) / "copy"
        for part in ("crates", "dist", "tools", ".ci"):
            shutil.copytree(TOP / part, self.copy / part, ignore=shutil.ignore_patterns("out", "build", "__pycache__"))
        for file in ("crates.txt", "HANDLES"):
            shutil.copy(TOP / file, self.copy)

    def early(self):
        run = subprocess.run([self.copy / ".ci/release", "--early"], capture_output=True, text=True)
        return run.returncode, run.stdout

    def test_the_release_is_of_these_sources(self):
        self.assertEqual(self.early(), (0, ""))

    def refused(self):
        status, said = self.early()
        self.assertEqual(status, 1)
        self.assertTrue(said.endswith("release: make dist/ again, and commit it: tools/make_dist\n"), said)

    def test_a_changed_byte(self):
        source = self.copy / "crates/verifier/src/lib.rt"
        text = source.read_text()
        for path in (source, self.copy / "crates/bpf_asm/specs/Lib.antt", self.copy / "HANDLES"):
            before = path.read_bytes()
            path.write_bytes(bytes([before[0] ^ 1]) + before[1:])
            self.refused()
            path.write_bytes(before)
        self.assertEqual((self.early()[0], source.read_text()), (0, text))

    def test_a_file_more(self):
        (self.copy / "crates/verifier/proofs/More.antt").write_text("")
        self.refused()

    def test_an_edit_less(self):
        next(self.copy.glob("crates/*/must-fail/*.edit")).unlink()
        self.refused()


class CanRun(unittest.TestCase):
    def test_only_a_refused_processor_is_a_no(self):
        refusal = "echo edgebpf: EDGEBPF_CPU is $EDGEBPF_CPU, and this processor has not all of that >&2; exit 127"
        for words, wanted in (("exit 0", (0, "yes\n")), (refusal, (0, "no\n")), ("exit 127", (1, "")), ("exit 1", (1, "")), ("kill -9 $$", (1, ""))):
            run = subprocess.run([TOP / ".ci/can_run", "x86-64-v3", "sh", "-c", words], capture_output=True, text=True)
            self.assertEqual((run.returncode, run.stdout), wanted, words)


@unittest.skipIf(MISSING, f"missing: {MISSING}")
class ObjectText(unittest.TestCase):
    def setUp(self):
        folder = tempfile.TemporaryDirectory()
        self.addCleanup(folder.cleanup)
        self.room = pathlib.Path(folder.name)

    def compiled(self, name, *words, source=PROGRAM):
        made = self.room / name
        subprocess.run(["cc", *words, "-o", made, "-x", "c", "-"], input=source, text=True, check=True)
        return made

    def text(self, path):
        run = subprocess.run([TOOLS / "object_text.py", path], capture_output=True, text=True)
        return run.stdout, run.stderr

    @unittest.skipUnless(shutil.which("aarch64-linux-gnu-gcc"), "there is no aarch64-linux-gnu-gcc")
    def test_code_and_data_of_another_machine(self):
        """Its marks are made again: a linker looks for what a processor does wrong in code alone."""
        source = PROGRAM + '__asm__(".text\\n\\t.word 7, 8\\nafter: ret\\n");\n'

        def marks(path):
            said = subprocess.run(["readelf", "-sW", path], capture_output=True, text=True, check=True).stdout
            return sorted((row[1], row[7]) for row in map(str.split, said.splitlines()) if len(row) == 8 and row[7] in ("$x", "$d") and row[6] == "1")

        made = self.room / "one.o"
        subprocess.run(["aarch64-linux-gnu-gcc", "-O2", "-c", "-o", made, "-x", "c", "-"], input=source, text=True, check=True)
        text, said = self.text(made)
        self.assertEqual(said, "")
        self.assertIn("\t.inst 0x", text)
        (self.room / "one.s").write_text(text)
        subprocess.run(["aarch64-linux-gnu-gcc", "-c", "-o", self.room / "two.o", self.room / "one.s"], check=True)
        self.assertEqual(self.text(self.room / "two.o"), (text, ""))
        self.assertEqual([mark for mark in marks(made) if mark[1] == "$x"], [mark for mark in marks(self.room / "two.o") if mark[1] == "$x"])

    def test_an_assembler_gives_the_text_again(self):
        for words in (["-O2", "-fPIC", "-ffunction-sections", "-fdata-sections"], ["-O0", "-fPIC"], ["-O2", "-fno-pic"]):
            text, said = self.text(self.compiled("one.o", "-c", *words))
            self.assertEqual(said, "")
            (self.room / "one.s").write_text(text)
            subprocess.run(["cc", "-c", "-o", self.room / "two.o", self.room / "one.s"], check=True)
            self.assertEqual(self.text(self.room / "two.o"), (text, ""))
            subprocess.run(["cc", "-no-pie", "-o", self.room / "two", self.room / "two.o"], check=True)
            direct = subprocess.run([self.compiled("direct", *words, "-no-pie")], capture_output=True)
            again = subprocess.run([self.room / "two"], capture_output=True)
            self.assertEqual((again.stdout, again.returncode), (direct.stdout, direct.returncode))

    def test_what_has_no_text_is_refused(self):
        common = "int first; int main(void) { return first; }"
        for path in (self.compiled("common.o", "-c", "-fcommon", source=common), self.compiled("program"), pathlib.Path(__file__)):
            text, said = self.text(path)
            self.assertEqual((text, said.count("\n")), ("", 1), said)

    def test_other_sections_are_seen(self):
        one, other = self.compiled("one", "-O2"), self.compiled("other", "-O2", source=PROGRAM.replace("3.25", "3.5"))
        same = [TOOLS / "object_text.py", "--same-sections"]
        self.assertEqual(subprocess.run([*same, one, one]).returncode, 0)
        run = subprocess.run([*same, one, other], capture_output=True, text=True)
        self.assertEqual((run.returncode, run.stderr), (1, "object_text: .rodata differs\n"))

"""tools/compile: what it tells the kit's compiler, and what it leaves, with a kit that only writes down what it is told."""
import os
import pathlib
import shutil
import subprocess
import tempfile
import unittest

from tools_here import TOOLS

# Writes its words into the file that it is to make; of a library that is an archive with them, or with two members.
RATTLE = r"""#!/bin/sh
[ "$FAILS" = yes ] && { echo "error: it is not proved"; exit 1; }
for word; do made=$word; done
case "$*" in
*staticlib*)
    cd "$(mktemp -d)"
    echo "$*" >one.o
    if [ "$TWO" = yes ]; then echo two >two.o; fi
    ar rc "$made" *.o
    ;;
*) echo "$*" >"$made" ;;
esac
"""


@unittest.skipUnless(shutil.which("ar"), "there is no ar")
class Compile(unittest.TestCase):
    def setUp(self):
        folder = tempfile.TemporaryDirectory()
        self.addCleanup(folder.cleanup)
        self.room = pathlib.Path(folder.name).resolve()
        self.top, self.kit = self.room / "checkout", self.room / "kit"
        for path in ("crates/app/src", "crates/low/src", "crates/high/src", "crates/for_c/src", "crates/low/out/rlib/low.rlib", "crates/high/out/rlib/high.rlib"):
            (self.top / path).mkdir(parents=True)
        (self.top / "crates/app/src/main.rt").write_text("")
        (self.top / "crates.txt").write_text("# all\nlow: hex\nhigh: low\napp: clap high\nfor_c staticlib: high\n")
        for path in ("bin", "toolchain/bin"):
            (self.kit / path).mkdir(parents=True)
        (self.kit / "toolchain/bin/llvm-ar").symlink_to(shutil.which("ar"))
        for name, text in (("rt", "#!/bin/sh\n"), ("rattle", RATTLE)):
            (self.kit / "bin" / name).write_text(text)
            (self.kit / "bin" / name).chmod(0o755)
        self.file = self.room / "made" / "it.o"

    def compile(self, *words, **more):
        room = {**os.environ, "PATH": f"{self.kit}/bin:{os.environ['PATH']}", **more}
        run = subprocess.run([TOOLS / "compile", *words, "--in", self.top], env=room, capture_output=True, text=True)
        return run.returncode, run.stderr

    def told(self):
        return self.file.read_text().split()

    def test_a_program(self):
        self.assertEqual(self.compile("app", self.file), (0, ""))
        words = self.told()
        self.assertEqual(words[:4], ["build", "--crate-name", "app", "src/main.rt"])
        libraries = [words[at + 1] for at, word in enumerate(words) if word == "--extern"]
        self.assertEqual(libraries, [f"std={self.kit}/rlibs/std.rlib", f"clap={self.kit}/rlibs/clap.rlib", f"high={self.top}/crates/high/out/rlib/high.rlib"])
        folders = [words[at + 1] for at, word in enumerate(words) if word == "-L"]
        self.assertEqual(folders, [f"dependency={self.kit}/rlibs", *(f"dependency={self.top}/crates/{name}/out/rlib" for name in ("low", "high"))])
        self.assertFalse({"--cpu", "--target", "--crate-type"} & {*words})

    def test_other_processors(self):
        self.assertEqual(self.compile("for_c", self.file, "--cpu", "x86-64-v3", "--target", "x86_64-unknown-linux-gnu"), (0, ""))
        words = self.told()
        for word, value in (("--crate-type", "staticlib"), ("--cpu", "x86-64-v3"), ("--target", "x86_64-unknown-linux-gnu")):
            self.assertEqual(words[words.index(word) + 1], value)

    def test_all_of_dist(self):
        """Each object file of tools/variants, for its processor; the programs' own stay, which rt ci leaves."""
        rows = [line.split(None, 2) for line in (TOOLS / "variants").read_text().splitlines() if not line.startswith("#")]
        crates = {row[1] for row in rows}
        for crate in crates:
            (self.top / "crates" / crate / "src").mkdir(parents=True)
            if crate != "edgebpf_c":
                (self.top / "crates" / crate / "src/main.rt").write_text("")
        (self.top / "crates.txt").write_text("low:\n" + "".join(f"{crate}{' staticlib' * (crate == 'edgebpf_c')}: low\n" for crate in sorted(crates)))
        kept = self.top / "crates/edgebpf/out/edgebpf.o"
        kept.parent.mkdir()
        kept.write_text("of rt\n")
        self.assertEqual(self.compile("--dist"), (0, ""))
        for name, crate, *words in rows:
            text = (self.top / "crates" / crate / "out" / f"{name}.o").read_text()
            if name == crate == "edgebpf":
                self.assertEqual(text, "of rt\n")
                continue
            for word in (f"--crate-name {crate} ", *words, "--incremental "):
                self.assertIn(word, text)
            self.assertEqual("--cpu" in text or "--target" in text, bool(words))
        made = {path.name for path in self.top.glob("crates/*/out/*") if path.suffix}
        self.assertEqual(made, {f"{row[0]}.o" for row in rows})
        self.assertEqual(self.compile("--dist", FAILS="yes")[0], 1)

    def test_what_is_not_compiled(self):
        """It is said in words, and what was there stays."""
        self.file.parent.mkdir()
        self.file.write_text("before")
        lines = [
            (("nowhere", self.file), {}, "nowhere is no crate of crates.txt"), (("low", self.file), {}, "low is neither a program nor a library for C"),
            (("app", self.file), {"FAILS": "yes"}, "app was not compiled:\nerror: it is not proved"),
            (("for_c", self.file), {"TWO": "yes"}, "the archive of for_c has 2 members, and one is looked for: one.o two.o"),
        ]
        for words, more, said in lines:
            self.assertEqual(self.compile(*words, **more), (1, f"compile: {said}\n"))
        shutil.rmtree(self.top / "crates/low/out")
        self.assertEqual(self.compile("app", self.file), (1, "compile: the library of low is not there: rt ci or tools/prove builds it\n"))
        self.assertEqual([path.name for path in self.file.parent.iterdir()], ["it.o"])
        self.assertEqual(self.file.read_text(), "before")
        for words in ([], ["app"], ["--dist", "app"], ["--dist", "--cpu", "x86-64-v3"]):
            self.assertEqual(self.compile(*words)[0], 2)

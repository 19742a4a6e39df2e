"""`make -C dist install` and `make -C dist deb`: edgebpf and its companions from an installation, through links, as another user."""
import importlib.util
import os
import pathlib
import platform
import re
import shutil
import signal
import subprocess
import tempfile
import unittest
import zipfile

from tools_here import MISSING, PYTHON, TOOLS

TOP = TOOLS.parent
NOBODY = {"user": 65534, "group": 65534, "extra_groups": []} if os.geteuid() == 0 else {}
GRAPH = "graph 4\nbatch A\n+ 0 1\n+ 0 2\n+ 1 2\nend\n"
SCORE = "#include <edgebpf.h>\nu64 score(struct edge *edge, u64 length) { return edge->target; }\n"
LOOP = """#include <edgebpf.h>
u64 loop(struct edge *edge, u64 length) {
    u64 sum = 0;
    for (u32 place = 0; place < degree(edge->target); place++) sum += degree(neighbour(edge->target, place));
    return sum;
}
"""
OUTSIDE = "#include <edgebpf.h>\nu64 outside(struct edge *edge, u64 length) { return edge->argument[0]; }\n"
BACKWARD = "again:\n    ja again\n"
HELP = """\
Serves a script from standard input, and writes the answers to standard output.
A script makes a directed graph by batches of edges, pins its versions, and runs
small BPF programs once for each edge. Programs are verified before they run.

Usage: edgebpf [OPTIONS]

Options:
      --workers <N>  How many threads work on a batch or a run, from 1 to 16; 1 if it is not said
  -h, --help         Print help
  -V, --version      Print version

Three lines to try. The last one prints the sum of the numbers that a program
gives to the edges of a graph with two vertices and one edge:
  printf '%s\\n' 'graph 2' 'batch A' '+ 0 1' end 'pin now' > graph.script
  printf '%s\\n' 'program p 16' 'mov r0, 7' exit end 'run p now sum -' > run.script
  cat graph.script run.script | edgebpf --workers 2

The status is 0 once the whole script was executed, and 1 after a fault, which
is the last line of the output. Help goes to standard error, with status 2, so
that standard output has only the answers of a script.
"""

NEEDS_MAKE = unittest.skipUnless((TOP / "dist" / "edgebpf.s").exists() and shutil.which("make"), "there is no dist/, or no make")

HAS_BOTH = platform.machine() == "x86_64" and (TOP / "dist" / "libedgebpf-v3.s").exists()


def make(*words):
    run = subprocess.run(["make", "-s", "-C", TOP / "dist", *words], capture_output=True, text=True)
    if run.returncode:
        raise AssertionError(f"make {' '.join(map(str, words))}: {run.stdout}{run.stderr}")
    return run.stdout


@NEEDS_MAKE
class Built(unittest.TestCase):
    def setUp(self):
        folder = tempfile.TemporaryDirectory()
        self.addCleanup(folder.cleanup)
        self.room = pathlib.Path(folder.name)

    def test_folders_with_a_blank(self):
        """They are refused before anything is removed: of `a b` it would be all of `a`."""
        kept = self.room / "a" / "kept"
        kept.parent.mkdir()
        kept.write_text("")
        for name, target in (("PREFIX", "uninstall"), ("DESTDIR", "uninstall"), ("BUILD", "clean")):
            for folder in (f"{self.room}/a b", f"{self.room}/a "):
                with self.assertRaisesRegex(AssertionError, "BUILD, DESTDIR and PREFIX may have no blanks"):
                    make(f"{name}={folder}", target)
            self.assertTrue(kept.exists())

    def test_another_machine(self):
        """It is named, and nothing is built for it."""
        run = subprocess.run([TOP / "dist/link", "edgebpf", self.room / "made"], env={**os.environ, "MACHINE": "riscv64"}, capture_output=True, text=True)
        self.assertEqual((run.returncode, run.stderr), (1, "edgebpf: dist/ is for Linux on x86-64 and on aarch64, and this is Linux riscv64\n"))
        with self.assertRaisesRegex(AssertionError, "dist/ is for Linux on x86-64 and on aarch64, and this is (Linux )?riscv64"):
            make(f"BUILD={self.room / 'build'}", "MACHINE=riscv64", "deb")
        self.assertEqual(list(self.room.glob("made*")), [])
        for machine in ("x86_64", "aarch64"):
            here = "build" if machine == platform.machine() else f"build/{machine}"
            self.assertIn(f"./link edgebpf {here}/edgebpf\n", make("-n", "-B", f"MACHINE={machine}", f"{here}/edgebpf"))

    @unittest.skipUnless(shutil.which("cc"), "there is no cc")
    def test_a_text_that_was_not_proved(self):
        """It is named, and nothing is made of it: neither a changed text, nor one whose sum PROVED has for another name."""
        machine = "-aarch64" if platform.machine() == "aarch64" else ""
        for name in ("libedgebpf", "edgebpf"):
            text = f"{name}{machine}.s"
            for is_changed in (True, False):
                folder = self.room / f"{name}{is_changed}"
                folder.mkdir()
                for path in (TOP / "dist").iterdir():
                    (folder / path.name).symlink_to(path)
                for copied in ("link", "PROVED", text):
                    (folder / copied).unlink()
                    shutil.copy(TOP / "dist" / copied, folder / copied)
                if is_changed:
                    with open(folder / text, "a") as stream:
                        stream.write("# one line more\n")
                else:
                    proved = (folder / "PROVED").read_text()
                    (folder / "PROVED").write_text(re.sub(rf"^text of {text[:-2]}: \w+$", f"text of {text[:-2]}: {'0' * 64}", proved, flags=re.M))
                run = subprocess.run([folder / "link", name, self.room / "made.so"], capture_output=True, text=True)
                told = f"{name}: dist/{text} is not the file that dist/PROVED names, so it is not built\n"
                self.assertEqual((run.stdout, run.stderr, run.returncode), ("", told, 1))
                self.assertFalse((self.room / "made.so").exists())

    def test_a_compiler_that_fails(self):
        """What it wrote until then is gone, and a file that was there before is as it was."""
        compiler, made = self.room / "compiler", self.room / "made.so"
        compiler.write_text('#!/bin/sh\nwhile [ "$1" != -o ]; do shift; done\necho half >"$2"\necho no room >&2\nexit 1\n')
        compiler.chmod(0o755)
        made.write_text("before")
        run = subprocess.run([TOP / "dist/link", "libedgebpf_algorithms", made], env={**os.environ, "CC": str(compiler)}, capture_output=True, text=True)
        self.assertEqual((run.returncode, run.stdout, run.stderr.splitlines()[0]), (1, "", "no room"))
        self.assertIn(f"libedgebpf_algorithms: {compiler} could not build it from dist/", run.stderr)
        self.assertEqual(({path.name for path in self.room.iterdir()}, made.read_text()), ({"compiler", "made.so"}, "before"))

    @unittest.skipUnless(shutil.which("cc"), "there is no cc")
    def test_words_that_do_not_fit(self):
        """Of a word that is longer than its buffer nothing is written past the end."""
        source, made = self.room / "words.c", self.room / "words"
        source.write_text(
            "#include <stdio.h>\n#include <stddef.h>\nptrdiff_t rattle_arg(size_t, char *, size_t);\nsize_t rattle_arg_count(void);\n"
            "int main(void) {\n    for (size_t index = 1; index <= 5; index++) {\n        char room[] = \"......\";\n"
            "        ptrdiff_t length = rattle_arg(index, room, 3);\n        printf(\"%td %s\\n\", length, room);\n    }\n"
            "    printf(\"%zu\\n\", rattle_arg_count());\n}\n")
        subprocess.run(["cc", "-Wall", "-Wextra", "-Werror", "-o", made, source, TOP / "dist/platform.c"], check=True)
        run = subprocess.run([made, "", "ab", "abc", "abcd"], capture_output=True, text=True)
        self.assertEqual((run.stdout, run.returncode), ("0 ......\n2 ab....\n3 abc...\n-2 abc...\n-1 ......\n5\n", 0))

    @unittest.skipUnless(shutil.which("cc"), "there is no cc")
    def test_a_compiler_with_more_words(self):
        for compiler in ("env cc", " cc -g0"):
            made = self.room / f"{len(compiler)}.so"
            run = subprocess.run([TOP / "dist/link", "libedgebpf", made], env={**os.environ, "CC": compiler}, capture_output=True, text=True)
            self.assertEqual((run.stdout, run.stderr, run.returncode), ("", "", 0))
            self.assertEqual(made.read_bytes()[:4], b"\x7fELF")


@NEEDS_MAKE
class Installed(unittest.TestCase):
    @classmethod
    def setUpClass(cls):
        folder = tempfile.TemporaryDirectory()
        cls.addClassCleanup(folder.cleanup)
        cls.room = pathlib.Path(folder.name).resolve()
        cls.room.chmod(0o755)
        cls.place = cls.room / "place"
        # what is installed is for all users, whatever its owner's habit
        cls.addClassCleanup(os.umask, os.umask(0o077))
        make(f"BUILD={cls.room / 'build'}", "install", f"PREFIX={cls.place}")
        # what a user has: a folder of links of their own, and one to work in
        cls.links = cls.room / "links"
        cls.links.mkdir(mode=0o755)
        cls.links.chmod(0o755)
        for command in (cls.place / "bin").iterdir():
            (cls.links / command.name).symlink_to(command)
        cls.work = cls.room / "work"
        cls.work.mkdir()
        cls.work.chmod(0o777)
        for name, text in (("graph.script", GRAPH), ("score.c", SCORE), ("loop.c", LOOP), ("outside.c", OUTSIDE), ("edges.txt", "10 20\n20 30\n"), ("back.asm", BACKWARD)):
            (cls.work / name).write_text(text)
            (cls.work / name).chmod(0o644)

    def run_as_user(self, name, *words, text="", **more):
        """Runs a command by its link, as a user who owns nothing of the installation."""
        room = {"PATH": f"{self.links}:/usr/bin:/bin", "HOME": str(self.work), **more}
        words = [self.links / name, *words]
        return subprocess.run(words, cwd=self.work, env=room, input=text, capture_output=True, text=True, **NOBODY)

    def test_edgebpf(self):
        first = (TOP / "examples" / "first.script").read_text()
        run = self.run_as_user("edgebpf", "--workers", "2", text=first)
        self.assertEqual((run.stdout, run.stderr, run.returncode), ((TOP / "examples" / "first.output").read_text(), "", 0))

    def test_version(self):
        run = self.run_as_user("edgebpf", "--version")
        self.assertEqual((run.stderr, run.returncode), ("", 0))
        first, commit, proved = run.stdout.splitlines()
        facts = dict(line.split(": ", 1) for line in (TOP / "dist" / "PROVED").read_text().splitlines() if ": " in line)
        self.assertEqual(first, f"edgebpf {facts['release']}")
        self.assertRegex(commit, "^commit [0-9a-f]{12}(-dirty)?$" if (TOP / ".git").exists() else "^commit ")
        self.assertIn(facts["kit"], proved)
        self.assertIn(facts["sources of edgebpf"], proved)

    def test_words_and_ends_that_fail(self):
        """What the program says of a word that is no text, of an input that is a folder, and of an output that is full."""
        for line, said, status in (
            ('edgebpf "$(printf "\\377")"', "edgebpf: a word is not UTF-8\n", 2),
            ("edgebpf < .", "edgebpf: read\n", 1),
            ("echo graph 2 | edgebpf > /dev/full", "edgebpf: write\n", 1),
        ):
            room = {"PATH": f"{self.links}:/usr/bin:/bin", "HOME": str(self.work)}
            run = subprocess.run(["sh", "-c", line], cwd=self.work, env=room, capture_output=True, text=True, **NOBODY)
            self.assertEqual((run.stdout, run.stderr, run.returncode), ("", said, status))

    def test_help(self):
        for word in ("--help", "-h"):
            run = self.run_as_user("edgebpf", word)
            self.assertEqual((run.stdout, run.stderr, run.returncode), ("", HELP, 2))

    def test_help_shows_lines_that_work(self):
        text = self.run_as_user("edgebpf", "--help").stderr
        lines = [line.strip() for line in text.splitlines() if line.startswith("  printf") or line.startswith("  cat")]
        self.assertEqual(len(lines), 3)
        # The lines write files, and what the other tests read stays.
        room = self.work / "help"
        room.mkdir()
        room.chmod(0o777)
        for line in lines:
            run = subprocess.run(["sh", "-ec", line], cwd=room, env={"PATH": f"{self.links}:/usr/bin:/bin"}, capture_output=True, text=True, **NOBODY)
            self.assertEqual((run.returncode, run.stderr), (0, ""))
        self.assertTrue(run.stdout.endswith("run p now edges 1 total 7\nrow 0 7\n"), run.stdout)

    def test_refused_where_it_has_to_be_proved_here(self):
        run = self.run_as_user("edgebpf", text="graph 2\n", EDGEBPF_PROVED="here")
        self.assertEqual((run.stdout, run.returncode), ("", 2))
        self.assertIn("proved elsewhere", run.stderr)

    @unittest.skipIf(MISSING, f"missing: {MISSING}")
    def test_from_c(self):
        run = self.run_as_user("edgebpf-c", "score.c", "score", "16", "--on", "graph.script")
        self.assertEqual((run.stderr, run.returncode), ("", 0))
        self.assertIn("run score last edges 3 total 5\nrow 0 3\nrow 1 2\n", run.stdout)
        refused = self.run_as_user("edgebpf-c", "loop.c", "loop", "16", "--on", "graph.script")
        self.assertEqual(refused.returncode, 1)
        self.assertIn("this loop in loop is left as a loop", refused.stderr)
        refused = self.run_as_user("edgebpf-c", "outside.c", "outside", "16", "--on", "graph.script")
        self.assertEqual(refused.returncode, 1)
        self.assertIn("bytes may lie outside the record", refused.stderr)

    @unittest.skipIf(MISSING, f"missing: {MISSING}")
    def test_import(self):
        run = self.run_as_user("edgebpf-import", "--quiet", "edges.txt")
        self.assertEqual((run.stderr, run.returncode), ("", 0))
        self.assertIn("+ 10 20", run.stdout)

    def test_explain(self):
        run = self.run_as_user("edgebpf-explain", "16", text=BACKWARD)
        self.assertEqual((run.stderr, run.returncode), ("", 1))
        self.assertIn("ja", run.stdout)

    def test_shell(self):
        run = self.run_as_user("edgebpf-shell", text=f"{GRAPH}program p 16\n{BACKWARD}end\n.explain p\n")
        self.assertEqual((run.stderr, run.returncode), ("", 0))
        self.assertIn("refused", run.stdout)

    @unittest.skipIf(any(importlib.util.find_spec(name) is None for name in ("distributed", "numpy", "cffi")), "missing: python3-distributed or python3-cffi")
    def test_spread(self):
        """It says what to install if the Python package is not there, and finds the one of its own installation."""
        (self.work / "score.code").write_text("code score 16 61100400000000009500000000000000\n")
        (self.work / "score.code").chmod(0o644)
        words = ["edgebpf-spread", "--processes", "2", "graph.script", "score.code"]
        if importlib.util.find_spec("edgebpf") is None:
            run = self.run_as_user(*words)
            said = "edgebpf-spread: the Python package edgebpf is missing; install it by: apt-get install python3-edgebpf\n"
            self.assertEqual((run.stdout, run.stderr, run.returncode), ("", said, 1))
        make(f"BUILD={self.room / 'build'}", "install-python", f"PREFIX={self.place}")
        self.addCleanup(shutil.rmtree, self.place / "lib/python3")
        run = self.run_as_user(*words)
        self.assertEqual(run.returncode, 0, run.stderr)
        self.assertEqual(run.stdout, "run score last edges 3 total 5\nrow 0 3\nrow 1 2\n")

    def test_completion(self):
        file = self.place / "share/bash-completion/completions/edgebpf"
        asked = f"source {file}; COMP_WORDS=(edgebpf --w); COMP_CWORD=1; _edgebpf; echo ${{COMPREPLY[@]}}"
        asked += "; COMP_WORDS=(edgebpf-c --red); _edgebpf; echo ${COMPREPLY[@]}"
        run = subprocess.run(["bash", "-c", asked], env={"PATH": f"{self.links}:/usr/bin:/bin"}, capture_output=True, text=True)
        self.assertEqual(run.stdout, "--workers\n--reduce\n", run.stderr)

    @unittest.skipIf(shutil.which("man") is None, "there is no man")
    def test_man_page(self):
        for name, said in (("man1/edgebpf-c.1", "--workers"), ("man3/edgebpf.3", "edgebpf_version_lists("), ("man3/edgebpf_run_some.3", "EDGEBPF_PROGRESS"), ("man3/edgebpf_join_edges.3", "edgebpf_name_parts("), ("man3/edgebpf_lender_of.3", "not proved"), ("man5/edgebpf-script.5", "edgebpf: memory"), ("man7/edgebpf-bpf.7", "calllocal")):
            page = self.place / "share/man" / name
            words = ["man", "--warnings", "-l", page]
            run = subprocess.run(words, env={**os.environ, "MANWIDTH": "100", "LC_ALL": "C"}, capture_output=True, text=True)
            self.assertEqual((run.returncode, run.stderr), (0, ""))
            self.assertIn(said, run.stdout)

    def test_man_page_has_the_words_of_help(self):
        page = " ".join(line for line in (TOP / "dist/edgebpf.1").read_text().splitlines() if not line.startswith("."))
        about = " ".join(HELP.partition("\n\n")[0].split())
        option = HELP.partition("--workers <N>")[2].partition("\n")[0].strip()
        for words in [*about.removeprefix("Serves ").rstrip(".").split(". "), option]:
            self.assertIn(words, page)

    def test_library(self):
        """The program in C of docs/EMBEDDING.md, over what is installed."""
        source = (TOP / "docs/EMBEDDING.md").read_text().split("```c\n")[1].split("```")[0]
        (self.work / "host.c").write_text(source)
        for more in ([], ["-static"]):
            made = self.work / f"host{len(more)}"
            subprocess.run(["cc", f"-I{self.place}/include", f"-L{self.place}/lib", "-o", made, self.work / "host.c", "-ledgebpf", *more], check=True)
            run = subprocess.run([made], env={"LD_LIBRARY_PATH": f"{self.place}/lib"}, capture_output=True, text=True)
            self.assertEqual((run.stdout, run.stderr, run.returncode), ("0 has 2 neighbours: 1 and 2\ntotal 5\n", "", 0))

    @unittest.skipUnless(HAS_BOTH, "dist/ has one object for this machine")
    def test_which_object_is_taken(self):
        """Each is forced by its name, other names are refused, and so is one that the processor lacks. Programs and the library say the same."""
        (self.work / "host.c").write_text((TOP / "examples/host.c").read_text())
        host, program = self.work / "either", self.place / "lib/edgebpf/programs/edgebpf"
        subprocess.run(["cc", "-static", f"-I{self.place}/include", f"-L{self.place}/lib", "-o", host, self.work / "host.c", "-ledgebpf"], check=True)
        other = "edgebpf: EDGEBPF_CPU may be x86-64-v2 or x86-64-v3\n"
        lacking = "edgebpf: EDGEBPF_CPU is x86-64-v3, and this processor, or its system, has not all of that\n"
        old = ["qemu-x86_64", "-cpu", "Nehalem"]
        for words, output in (([host], "0 has 2 neighbours: 1 and 2\ntotal 5\n"), ([program, "--version"], subprocess.run([program, "--version"], capture_output=True, text=True).stdout)):

            def forced(processor, before=()):
                run = subprocess.run([*before, *words], env={"EDGEBPF_CPU": processor} if processor is not None else {}, capture_output=True, text=True)
                return run.returncode, run.stdout, run.stderr

            for processor in (None, "", "x86-64-v2"):
                self.assertEqual(forced(processor), (0, output, ""))
            self.assertIn(forced("x86-64-v3"), [(0, output, ""), (127, "", lacking)])
            for processor in ("v3", "x86-64-v33", "x86-64-v3 ", "x86-64-v4"):
                self.assertEqual(forced(processor), (127, "", other))
            if shutil.which(old[0]):
                for processor, wanted in ((None, (0, output, "")), ("x86-64-v2", (0, output, "")), ("x86-64-v3", (127, "", lacking))):
                    self.assertEqual(forced(processor, old), wanted)

    def test_how_the_library_is_found(self):
        """By pkg-config where that is there, and by the number of its interface where a program is loaded."""
        described = (self.place / "lib/pkgconfig/edgebpf.pc").read_text()
        facts = dict(line.split(": ", 1) for line in (TOP / "dist" / "PROVED").read_text().splitlines() if ": " in line)
        for line in (f"prefix={self.place}", f"Version: {facts['release']}", "Libs: -L${libdir} -ledgebpf", "Cflags: -I${includedir}"):
            self.assertIn(line, described.splitlines())
        if shutil.which("pkg-config"):
            room = {**os.environ, "PKG_CONFIG_PATH": str(self.place / "lib/pkgconfig")}
            found = subprocess.run(["pkg-config", "--cflags", "--libs", "edgebpf"], env=room, capture_output=True, text=True, check=True).stdout.split()
            self.assertEqual(found, [f"-I{self.place}/include", f"-L{self.place}/lib", "-ledgebpf"])
        libraries = sorted(path.name for path in (self.place / "lib").glob("libedgebpf*"))
        names = ("libedgebpf", "libedgebpf_algorithms")
        self.assertEqual(libraries, sorted(f"{name}.{end}" for name in names for end in ("a", "so", "so.1")))
        for name in names:
            self.assertEqual(os.readlink(self.place / f"lib/{name}.so"), f"{name}.so.1")
            for library in (self.place / f"lib/{name}.so.1", self.room / f"build/{name}.so.1"):
                said = subprocess.run(["readelf", "-dW", library], capture_output=True, text=True, check=True).stdout
                self.assertRegex(said, rf"SONAME.*\[{name}\.so\.1\]")

    def test_algorithms(self):
        """The program in C of docs/ALGORITHMS.md, over what is installed, with the flags that pkg-config is told."""
        described = (self.place / "lib/pkgconfig/edgebpf-algorithms.pc").read_text().splitlines()
        for line in (f"prefix={self.place}", "Requires: edgebpf", "Libs: -L${libdir} -ledgebpf_algorithms -lm", "Cflags: -I${includedir}"):
            self.assertIn(line, described)
        (self.work / "parts.c").write_text((TOP / "docs/ALGORITHMS.md").read_text().split("```c\n")[1].split("```")[0])
        for more in ([], ["-static"]):
            made = self.work / f"parts{len(more)}"
            words = ["cc", f"-I{self.place}/include", f"-L{self.place}/lib", "-o", made, self.work / "parts.c", "-ledgebpf_algorithms", "-ledgebpf", "-lm", *more]
            subprocess.run(words, check=True)
            run = subprocess.run([made], env={"LD_LIBRARY_PATH": f"{self.place}/lib"}, capture_output=True, text=True)
            self.assertEqual((run.stdout, run.stderr, run.returncode), ("0 0 2 2\n", "", 0))

    def test_links_of_pages(self):
        """Each leads to a page that is installed, and those that would not are plain words."""
        pages, seen = self.place / "share/doc/edgebpf", 0
        for page in pages.rglob("*.md"):
            for target in re.findall(r"\]\(([^()\s]+)\)", page.read_text()):
                if "://" not in target and not target.startswith("#"):
                    seen += 1
                    self.assertTrue((page.parent / target.partition("#")[0]).exists(), f"{page}: {target}")
        self.assertGreater(seen, 60)
        self.assertNotIn("](../crates/", (pages / "docs/CRATES.md").read_text())
        self.assertIn("`bpf_asm`", (pages / "docs/CRATES.md").read_text())

    def test_uninstall_leaves_nothing(self):
        place = self.room / "gone"
        make(f"BUILD={self.room / 'build'}", "install", f"PREFIX={place}")
        make(f"BUILD={self.room / 'build'}", "install-python", f"PREFIX={place}")
        make(f"BUILD={self.room / 'build'}", "install-serve", f"PREFIX={place}")
        make(f"BUILD={self.room / 'build'}", "uninstall", f"PREFIX={place}")
        self.assertEqual([path for path in place.rglob("*") if not path.is_dir()], [])
        self.assertFalse((place / "lib/edgebpf").exists())


@unittest.skipUnless((TOP / "dist" / "edgebpf.s").exists() and shutil.which("dpkg-deb") and shutil.which("make"), "there is no dist/, or no dpkg-deb")
class Package(unittest.TestCase):
    def test_the_same_bytes_twice(self):
        with tempfile.TemporaryDirectory() as folder:
            rooms = [pathlib.Path(folder) / name for name in ("one", "another_place")]
            both = [[pathlib.Path(line) for line in make(f"BUILD={room}", "deb").split()[-3:]] for room in rooms]
            for one, other in zip(*both):
                self.assertEqual(one.read_bytes(), other.read_bytes())
            made = both[0]
            unpacked = pathlib.Path(folder) / "unpacked"
            subprocess.run(["dpkg-deb", "-x", made[0], unpacked], check=True)
            first = TOP / "examples" / "first"
            with open(first.with_suffix(".script")) as script:
                run = subprocess.run([unpacked / "usr/bin/edgebpf"], stdin=script, capture_output=True, text=True)
            self.assertEqual((run.stdout, run.stderr), (first.with_suffix(".output").read_text(), ""))
            subprocess.run(["dpkg-deb", "-x", made[1], unpacked], check=True)
            subprocess.run(["dpkg-deb", "-x", made[2], unpacked], check=True)
            for name in ("edgebpf", "python3-edgebpf", "edgebpf-serve"):
                self.assertIn("no licence", (unpacked / "usr/share/doc" / name / "copyright").read_text())
            for package in made:
                listed = subprocess.run(["dpkg-deb", "-c", package], stdout=subprocess.PIPE, text=True, check=True).stdout
                self.assertNotIn("__pycache__", listed)
                self.assertTrue(all(line.split()[1] == "root/root" for line in listed.splitlines()))
            said = subprocess.run(["dpkg-deb", "-f", made[0], "Recommends"], capture_output=True, text=True, check=True).stdout
            self.assertRegex(said, r"^python3, python3-edgebpf \(= [0-9.]+\)$")
            self.python_in(unpacked, made[1])
            self.service_in(unpacked, made[2])

    def test_the_same_wheel_twice(self):
        """It has the library and all that `make install` puts into lib/edgebpf, and says which of it is run."""
        with tempfile.TemporaryDirectory() as folder:
            rooms = [pathlib.Path(folder) / name for name in ("one", "another_place")]
            both = [room / make(f"BUILD={room}", "wheel").split()[-1] for room in rooms]
            self.assertEqual(both[0].name.split("-", 2)[2], f"py3-none-linux_{platform.machine()}.whl")
            self.assertEqual(both[0].read_bytes(), both[1].read_bytes())
            with zipfile.ZipFile(both[0]) as wheel:
                entries = {entry.filename: entry.external_attr >> 16 for entry in wheel.infolist()}
                record = [name for name in entries if name.endswith("/RECORD")]
                listed = {line.split(",")[0] for line in wheel.read(*record).decode().splitlines()}
            self.assertEqual(listed, set(entries))
            make(f"BUILD={rooms[0]}", "install", f"PREFIX={folder}/place")
            programs = pathlib.Path(folder, "place", "lib", "edgebpf")
            wanted = {f"edgebpf/installed/{path.relative_to(programs)}" for path in programs.rglob("*") if path.is_file()}
            wanted |= {"edgebpf/libedgebpf.so", "edgebpf/libedgebpf_algorithms.so"}
            self.assertEqual({name for name in entries if not name.endswith((".py", ".typed")) or "/installed/" in name if ".dist-info/" not in name and ".data/" not in name}, wanted)
            companions = {path.name for path in (programs / "tools").iterdir() if path.name.startswith("edgebpf-")}
            self.assertEqual({name.rpartition("/")[2] for name in entries if ".data/scripts/" in name}, companions | {"edgebpf"})
            run = {name for name, mode in entries.items() if mode & 0o111}
            self.assertEqual(run & {"edgebpf/installed/edgebpf", "edgebpf/installed/programs/edgebpf", "edgebpf/installed/tools/edgebpf-c", "edgebpf/native.py", "edgebpf/libedgebpf.so", "edgebpf/libedgebpf_algorithms.so"},
                             {"edgebpf/installed/edgebpf", "edgebpf/installed/programs/edgebpf", "edgebpf/installed/tools/edgebpf-c"})

    def service_in(self, unpacked, package):
        """The service starts from what is unpacked, and its client finds it; the unit is what systemd takes."""
        said = subprocess.run(["dpkg-deb", "-f", package, "Depends"], capture_output=True, text=True, check=True).stdout
        self.assertRegex(said, r"^python3-edgebpf \(= [0-9.]+\), python3 \(>= 3\.11\), python3-aiohttp, python3-numpy, python3-prometheus-client$")
        unit = unpacked / "usr/lib/systemd/system/edgebpf-serve.service"
        self.assertIn("ExecStart=/usr/bin/edgebpf-serve --data %S/edgebpf-serve\n", unit.read_text())
        if any(importlib.util.find_spec(name) is None for name in ("numpy", "cffi", "aiohttp", "prometheus_client")):
            return
        socket = unpacked / "socket"
        room = {"PATH": f"{unpacked}/usr/bin:/usr/bin:/bin", "PYTHONPATH": f"{unpacked}/usr/lib/python3/dist-packages", "PYTHONDONTWRITEBYTECODE": "1"}
        words = ["edgebpf-serve", "--data", unpacked / "graph", "--vertices", "10", "--listen", f"unix:{socket}", "--reserve-bytes", "0"]
        default = {"preexec_fn": lambda: signal.signal(signal.SIGTERM, signal.SIG_DFL)}
        server = subprocess.Popen([unpacked / "usr/bin" / words[0], *words[1:]], env=room, stderr=subprocess.DEVNULL, **default)
        try:
            client = [unpacked / "usr/bin/edgebpf-client", "--url", f"unix:{socket}"]
            run = subprocess.run([*client, "batch"], input="0 1\n0 2\n", env=room, capture_output=True, text=True)
            self.assertEqual((run.stdout, run.stderr), ("version 1 added 2 removed 0\n", ""))
        finally:
            server.terminate()
            self.assertEqual(server.wait(30), 0)

    def python_in(self, unpacked, package):
        """The package for Python has its library and the compiler of C from the other one."""
        subprocess.run(["dpkg-deb", "-x", package, unpacked], check=True)
        said = subprocess.run(["dpkg-deb", "-f", package, "Depends"], capture_output=True, text=True, check=True).stdout
        self.assertRegex(said, r"^edgebpf \(= [0-9.]+\), python3 \(>= 3\.9\), python3-numpy, python3-cffi$")
        if importlib.util.find_spec("numpy") is None or importlib.util.find_spec("cffi") is None:
            return
        code = "import edgebpf; print(edgebpf.library.path()); store = edgebpf.Store(4); print(store.apply([0], [1]).added)"
        code += "; print(edgebpf.companion.path(), edgebpf.algorithms.components(store.pin()))"
        code += "; import io; print(edgebpf.read_edges(io.BytesIO(b'0 1')).vertices)"
        if not MISSING:
            code += f"; print(edgebpf.compile_c(text={SCORE!r}, function='score').bound)"
        room = {"PATH": f"{unpacked}/usr/bin:/usr/bin:/bin", "PYTHONPATH": f"{unpacked}/usr/lib/python3/dist-packages", "PYTHONDONTWRITEBYTECODE": "1"}
        run = subprocess.run([PYTHON, "-c", code], env=room, cwd="/", capture_output=True, text=True)
        wanted = f"{unpacked}/usr/lib/libedgebpf.so.1\n1\n{unpacked}/usr/lib/libedgebpf_algorithms.so [0 0 2 3]\n2\n" + ("" if MISSING else "2\n")
        self.assertEqual((run.stdout, run.stderr), (wanted, ""))

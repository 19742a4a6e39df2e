"""./edgebpf and tools/prove: which build of a program is run, with a prover that only says that it proves."""
import hashlib
import os
import pathlib
import shutil
import signal
import subprocess
import tempfile
import time
import unittest
from importlib.machinery import SourceFileLoader
from unittest import mock

from tools_here import TOOLS

PROVER = r"""#!/bin/sh
case "$1" in
version) echo "prover of the test"; exit ;;
ci) ;;
*) exit 9 ;;
esac
echo run >>"$RUNS"
for crate in $(sed '/^#/d; s/[ :].*//' crates.txt); do
    if [ "$crate" = "$BROKEN" ]; then echo "rt: $crate NOT PROVED"; echo "0 passed, 1 failed"; exit 1; fi
    echo "rt: $crate proved"
    sleep "$WAIT"
    if [ -f "crates/$crate/src/main.rt" ]; then
        mkdir -p "crates/$crate/out"
        printf '#!/bin/sh\ncat\n' >"crates/$crate/out/$crate"
        chmod +x "crates/$crate/out/$crate"
        # what was kept has no object file
        if [ "$KEPT" != yes ]; then echo object of rt >"crates/$crate/out/$crate.o"; fi
    fi
done
"""
PROGRAM = "#include <stdio.h>\nint main(void) { int c; fputs(\"of dist: \", stdout); while ((c = getchar()) != EOF) putchar(c); return 0; }\n"
# It is told --dist --in FOLDER.
COMPILER = r"""#!/bin/sh
sed '/^#/d' "${0%/*}/variants" | while read -r name crate words; do
    mkdir -p "$3/crates/$crate/out"
    if [ "$name" != "$crate" ] || [ ! -f "$3/crates/$crate/out/$name.o" ]; then echo "object$words" >"$3/crates/$crate/out/$name.o"; fi
done
"""
BESIDE = "dist/, whose sources are these and were proved elsewhere"


class Checkout(unittest.TestCase):
    def setUp(self):
        folder = tempfile.TemporaryDirectory()
        self.addCleanup(folder.cleanup)
        self.room = pathlib.Path(folder.name).resolve()
        self.top = self.room / "checkout"
        for crate in ("low", "middle", "other", "edgebpf", "unused"):
            (self.top / "crates" / crate / "src").mkdir(parents=True)
            (self.top / "crates" / crate / "src" / "lib.rt").write_text(f"//! {crate}\n")
        (self.top / "crates/edgebpf/src/lib.rt").rename(self.top / "crates/edgebpf/src/main.rt")
        (self.top / "crates.txt").write_text("# all\nlow:\nmiddle: low kit\nother: low\nedgebpf: middle other\nunused: low\n")
        (self.top / "HANDLES").write_text("Handles allowed: none.\n")
        shutil.copy(TOOLS.parent / "edgebpf", self.top)
        (self.top / "tools").mkdir()
        for tool in ("proved_program", "prove", "kept_libraries.py", "sources", "variants"):
            shutil.copy(TOOLS / tool, self.top / "tools")
        self.commands = self.room / "commands"
        self.commands.mkdir()
        (self.commands / "rt").write_text(PROVER)
        (self.commands / "rt").chmod(0o755)
        self.link = self.room / "edgebpf"
        self.link.symlink_to(self.top / "edgebpf")

    def settle(self):
        """Runs once so long after the last change that the run notes what it found."""
        time.sleep(1.1)
        self.serve()

    def environment(self, **more):
        room = {**os.environ, "PATH": f"{self.commands}:/usr/bin:/bin", "RUNS": str(self.room / "runs"), "TMPDIR": str(self.room)}
        room.pop("EDGEBPF_PROVED", None)
        return {**room, "BROKEN": "", "WAIT": "0", "KEPT": "no", "XDG_CACHE_HOME": str(self.room / "cache"), **more}

    def serve(self, *words, **more):
        """Serves a text through the symbolic link."""
        return subprocess.run([self.link, *words], input="text\n", capture_output=True, text=True, env=self.environment(**more))

    def prover_runs(self):
        return len((self.room / "runs").read_text().split()) if (self.room / "runs").exists() else 0

    def is_clean(self):
        """Whether no copy is left and no file is half written."""
        return not list(self.room.glob("edgebpf-prove-*")) and not [path for path in self.top.rglob("*.[0-9]*") if path.is_file()]

    def sum_of_sources(self):
        run = subprocess.run([self.top / "tools/sources", "--sum", "edgebpf"], capture_output=True, text=True)
        return run.stdout.strip()

    def release(self):
        """Makes a dist/ of these sources, whose program writes what it reads after some words."""
        dist = self.top / "dist"
        dist.mkdir()
        for file in ("link", "platform.c"):
            shutil.copy(TOOLS.parent / "dist" / file, dist)
        subprocess.run(["cc", "-O1", "-fPIC", "-S", "-x", "c", "-o", dist / "edgebpf.s", "-"], input=PROGRAM, text=True, check=True)
        text = hashlib.sha256((dist / "edgebpf.s").read_bytes()).hexdigest()
        (dist / "PROVED").write_text(f"kit: kit of the test\nsources of edgebpf: {self.sum_of_sources()}\ntext of edgebpf: {text}\n")


class Proving(Checkout):
    def test_first_and_later_runs(self):
        first = self.serve()
        self.assertEqual((first.stdout, first.returncode), ("text\n", 0), first.stderr)
        why = "edgebpf: the sources are not those that dist/ was made from, so tools/prove proves and builds them now\n"
        self.assertTrue(first.stderr.startswith(why), first.stderr)
        self.assertIn("tools/prove: crate 1 of 4, low, is proved, after 0:0", first.stderr)
        self.assertIn("crate 4 of 4, edgebpf, is proved", first.stderr)
        self.assertNotIn("unused", first.stderr)
        self.assertEqual((self.top / "out" / "build.log").read_text().count("proved"), 4)
        for _ in range(2):
            again = self.serve()
            self.assertEqual((again.stdout, again.stderr), ("text\n", ""))
        self.assertEqual(self.prover_runs(), 1)
        self.assertTrue(self.is_clean())

    def test_a_changed_byte_is_seen_whatever_its_time(self):
        self.serve()
        self.settle()
        source = self.top / "crates/low/src/lib.rt"
        times = source.stat()
        source.write_text("//! loW\n")
        os.utime(source, ns=(times.st_atime_ns, times.st_mtime_ns))
        self.assertIn("crate 4 of 4", self.serve().stderr)
        self.settle()
        # one that is put in the place of another, with an old time
        other = self.room / "other.rt"
        other.write_text("//! loX\n")
        os.utime(other, (0, 0))
        other.rename(source)
        self.assertIn("crate 4 of 4", self.serve().stderr)
        for path in ("crates/middle/specs/New.antt", "crates/edgebpf/proofs/New.antt"):
            (self.top / path).parent.mkdir()
            (self.top / path).write_text("-- new\n")
            self.assertIn("crate 4 of 4", self.serve().stderr)
        (self.top / "crates/unused/src/lib.rt").write_text("//! not below edgebpf\n")
        self.assertEqual(self.serve().stderr, "")

    def test_touched_and_changed_back(self):
        self.serve()
        source = self.top / "crates/low/src/lib.rt"
        source.write_text(source.read_text())
        self.assertEqual(self.serve().stderr, "")
        self.assertEqual(self.prover_runs(), 1)

    def test_no_proof(self):
        run = self.serve(BROKEN="middle")
        self.assertEqual((run.stdout, run.returncode), ("", 1))
        self.assertIn("rt: middle NOT PROVED", run.stderr)
        self.assertIn("not all of it is proved", run.stderr)
        self.assertFalse((self.top / "crates/edgebpf/out/edgebpf").exists())
        self.assertTrue(self.is_clean())

    @unittest.skipIf(shutil.which("rt", path="/usr/bin:/bin"), "rt stands beside the system's commands")
    def test_no_prover(self):
        run = self.serve(PATH="/usr/bin:/bin")
        self.assertEqual((run.returncode, run.stdout), (1, ""))
        self.assertIn("edgebpf: the sources are not those that dist/ was made from. rt is not there", run.stderr)

    def test_two_at_once(self):
        words = {"stdin": subprocess.DEVNULL, "stderr": subprocess.PIPE, "text": True, "env": self.environment(WAIT="0.3")}
        runs = [subprocess.Popen([self.link], **words) for _ in range(2)]
        said = [run.communicate()[1] for run in runs]
        self.assertEqual([run.returncode for run in runs], [0, 0], said)
        self.assertEqual(self.prover_runs(), 1)
        self.assertIn("waiting for another run", "".join(said))
        self.assertTrue(self.is_clean())

    def test_stopped_and_started_again(self):
        for sign, status in ((signal.SIGINT, 130), (signal.SIGTERM, 143)):
            words = {"stderr": subprocess.PIPE, "text": True, "env": self.environment(WAIT="30"), "start_new_session": True}
            run = subprocess.Popen([self.top / "tools/prove", "edgebpf"], **words)
            while "crate 1 of 4" not in run.stderr.readline():
                self.assertIsNone(run.poll())
            run.send_signal(sign)
            self.assertEqual(run.wait(240), status)
            run.stderr.close()
            self.assertTrue(self.is_clean())
            self.assertFalse((self.top / "out/edgebpf.proved").exists())
        self.assertEqual(self.serve().stdout, "text\n")

    def test_another_program_in_its_place(self):
        self.serve()
        (self.top / "crates/edgebpf/out/edgebpf").write_text("#!/bin/sh\necho another\n")
        run = self.serve()
        self.assertEqual(run.stdout, "text\n")
        self.assertEqual(self.prover_runs(), 2)

    def have_both_programs(self):
        (self.top / "crates.txt").write_text("edgebpf:\nedgebpf_explain:\nedgebpf_c staticlib:\n")
        (self.top / "crates/edgebpf_c/src").mkdir(parents=True)
        (self.top / "crates/edgebpf_c/src/lib.rt").write_text("//! for C\n")
        (self.top / "tools/compile").write_text(COMPILER)
        (self.top / "tools/compile").chmod(0o755)
        (self.top / "crates/edgebpf_explain/src").mkdir(parents=True)
        (self.top / "crates/edgebpf_explain/src/main.rt").write_text("//! explains\n")

    def prove(self, *words, **more):
        run = subprocess.run([self.top / "tools/prove", *words], env=self.environment(**more), capture_output=True, text=True)
        return run.returncode, run.stderr

    def test_object_files_are_made_for_each_processor(self):
        self.have_both_programs()
        objects = [self.top / f"crates/{path}.o" for path in ("edgebpf/out/edgebpf", "edgebpf/out/edgebpf-v3", "edgebpf_explain/out/edgebpf_explain")]
        objects += [self.top / f"crates/edgebpf_c/out/libedgebpf{suffix}.o" for suffix in ("", "-v3", "-aarch64")]
        self.assertEqual(self.prove("edgebpf", KEPT="yes")[0], 0)
        self.assertFalse(objects[0].exists())
        status, said = self.prove("--objects", KEPT="yes")
        self.assertEqual(status, 0, said)
        wanted = ["object", "object--cpu x86-64-v3"]
        wanted += ["object", "object", "object--cpu x86-64-v3", "object--target aarch64-unknown-linux-gnu"]
        self.assertEqual([path.read_text() for path in objects], [f"{word}\n" for word in wanted])
        self.assertIn("nothing has changed", self.prove("--objects")[1])
        for path in objects:
            path.write_text("another\n")
            self.assertNotIn("nothing has changed", self.prove("--objects", KEPT="yes")[1])
        self.assertEqual([path.read_text() for path in objects], [f"{word}\n" for word in wanted])

    def test_object_files_of_rt_stay(self):
        self.have_both_programs()
        self.assertEqual(self.prove("--objects")[0], 0)
        self.assertEqual((self.top / "crates/edgebpf/out/edgebpf.o").read_text(), "object of rt\n")

    def test_what_is_not_compiled(self):
        self.have_both_programs()
        (self.top / "tools/compile").write_text("#!/bin/sh\nexit 1\n")
        status, said = self.prove("--objects")
        self.assertEqual(status, 1)
        self.assertIn("all is proved, and not all was compiled", said)
        self.assertFalse((self.top / "crates/edgebpf/out/edgebpf").exists())

    def test_a_full_disk(self):
        prove = SourceFileLoader("prove", str(TOOLS / "prove")).load_module()
        with mock.patch("shutil.disk_usage", return_value=mock.Mock(free=62 * 10**6)):
            with self.assertRaisesRegex(prove.Stop, "has 62 MB left, and proofs need 3000: make room, or set TMPDIR"):
                with prove.copy_of([]):
                    self.fail("a copy was made")

    def test_words_that_mean_nothing(self):
        for words in (["nowhere"], ["--all"], ["--built", "edgebpf"]):
            status, said = self.prove(*words)
            self.assertEqual((status, said.count("\n")), (1, 1))

    def test_what_rt_ci_built_is_noted(self):
        self.have_both_programs()
        subprocess.run(["rt", "ci"], cwd=self.top, env=self.environment(), capture_output=True, check=True)
        note = [self.top / "tools/prove", "--built"]
        self.assertEqual(subprocess.run(note, env=self.environment()).returncode, 0)
        self.assertEqual((self.serve().stderr, self.prover_runs()), ("", 1))
        time.sleep(0.1)
        older = self.top / "crates/edgebpf/out/edgebpf-v3.o"
        older.write_text("object\n")
        os.utime(older, (1, 1))
        self.assertEqual(subprocess.run(note, env=self.environment()).returncode, 0)
        self.assertFalse(older.exists())
        (self.top / "crates/edgebpf/src/main.rt").write_text("//! changed\n")
        refused = subprocess.run(note, env=self.environment(), capture_output=True, text=True)
        self.assertEqual(refused.returncode, 1)
        self.assertIn("changed after edgebpf was built", refused.stderr)


class Released(Checkout):
    def setUp(self):
        super().setUp()
        self.release()

    def test_a_fresh_clone(self):
        for number in range(6):
            run = self.serve()
            self.assertEqual((run.stdout, run.returncode), ("of dist: text\n", 0), run.stderr)
            # Once a build: the fourth run builds it again.
            self.assertEqual(run.stderr.count("\n"), int(number in (0, 3)), run.stderr)
            if number in (0, 3):
                self.assertIn(BESIDE, run.stderr)
                self.assertIn("tools/prove", run.stderr)
            if number == 2:
                shutil.rmtree(self.top / "dist/build")
        shutil.rmtree(self.top / "dist/build")
        # A variable that says for which machine to build is of make -C dist; what runs here is built for this one.
        self.assertEqual(self.serve(EDGEBPF_PROVED="elsewhere", MACHINE="another").stderr, "")
        self.assertEqual(self.prover_runs(), 0)
        self.assertIn("kit of the test", self.serve("--version").stdout)

    def test_what_was_proved_here_comes_first(self):
        self.serve()
        here = self.serve(EDGEBPF_PROVED="here")
        self.assertEqual(here.stdout, "text\n")
        self.assertEqual((self.serve().stdout, self.serve().stderr), ("text\n", ""))
        self.assertIn("prover of the test", self.serve("--version").stdout)

    def test_what_was_proved_since_is_taken(self):
        self.settle()
        self.assertEqual(self.serve().stdout, "of dist: text\n")
        subprocess.run([self.top / "tools/prove", "edgebpf"], env=self.environment(), capture_output=True, check=True)
        run = self.serve()
        self.assertEqual((run.stdout, run.stderr), ("text\n", ""))

    def test_changed_sources_are_never_those_of_dist(self):
        self.settle()
        (self.top / "crates/other/src/lib.rt").write_text("//! changed\n")
        run = self.serve()
        self.assertEqual(run.stdout, "text\n")
        self.assertNotIn(BESIDE, run.stderr)

    def test_ready_without_a_proof(self):
        asked = [self.top / "tools/proved_program", "--ready", "edgebpf"]

        def is_ready():
            run = subprocess.run(asked, capture_output=True, text=True, env=self.environment())
            self.assertEqual(run.stdout, "")
            return run.returncode == 0

        self.assertTrue(is_ready())
        (self.top / "crates/low/src/lib.rt").write_text("//! changed\n")
        self.assertFalse(is_ready())
        self.assertEqual(self.prover_runs(), 0)
        self.serve()
        self.assertTrue(is_ready())

    def test_a_changed_text_is_refused(self):
        self.settle()
        with open(self.top / "dist/edgebpf.s", "a") as text:
            text.write("# one line more\n")
        run = self.serve()
        self.assertEqual(run.stdout, "text\n")
        self.assertIn("dist/edgebpf.s is not the file that dist/PROVED names", run.stderr)

    def test_no_compiler(self):
        run = self.serve(CC="/nowhere/cc")
        self.assertEqual((run.returncode, run.stdout), (1, ""))
        self.assertIn("edgebpf: a C compiler is needed, and there is none (/nowhere/cc): apt-get install gcc", run.stderr)

    def test_missing_commands(self):
        """What the sums of the sources need is named, and the prover is not asked for."""
        for name, package in (("xargs", "findutils"), ("find", "findutils"), ("awk", "mawk"), ("sha256sum", "coreutils")):
            folder = self.room / f"without {name}"
            folder.mkdir()
            for command in pathlib.Path("/usr/bin").iterdir():
                if command.name not in (name, "rt"):
                    (folder / command.name).symlink_to(command)
            run = self.serve(PATH=str(folder))
            self.assertEqual((run.stdout, run.returncode), ("", 1))
            self.assertEqual(run.stderr, f"sources: {name} is missing; install it by: apt-get install {package}\n")

    def test_no_room_in_the_checkout(self):
        for taken in ("out", "dist/build"):
            (self.top / taken).write_text("this is no folder\n")
        for _ in range(2):
            self.assertEqual(self.serve().stdout, "of dist: text\n")
        self.assertTrue(list((self.room / "cache/edgebpf").glob("*/edgebpf")))

    def test_two_at_once(self):
        words = {"stdin": subprocess.DEVNULL, "stdout": subprocess.PIPE, "stderr": subprocess.PIPE, "env": self.environment()}
        runs = [subprocess.Popen([self.link], **words) for _ in range(4)]
        self.assertEqual([run.communicate()[0] for run in runs], [b"of dist: "] * 4)
        self.assertTrue(self.is_clean())

    def test_an_unknown_wish(self):
        run = self.serve(EDGEBPF_PROVED="yes")
        self.assertEqual((run.returncode, run.stdout), (2, ""))
        self.assertIn("it may be here or elsewhere", run.stderr)


class Quick(Checkout):
    def test_a_start_reads_no_source(self):
        """A run after which nothing changed looks at times alone: it starts neither the sums nor the prover."""
        self.serve()
        self.settle()
        (self.top / "tools/sources").write_text("#!/bin/sh\nexit 1\n")
        (self.top / "tools/prove").write_text("#!/bin/sh\nexit 1\n")
        run = self.serve()
        self.assertEqual((run.stdout, run.stderr, run.returncode), ("text\n", "", 0))


# Its methods are those of the classes above.
del Checkout

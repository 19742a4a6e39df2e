"""edgebpf-shell: what it tells of lines before they are sent, what it sends, and how a session is taken up again."""
import functools
import importlib.util
import itertools
import os
import pathlib
import pty
import resource
import select
import signal
import subprocess
import tempfile
import time
import unittest
import unittest.mock

from sample_programs import SOURCE
from tools_here import MISSING, PYTHON, TOOLS, memory_of, run_tool

from edgebpf_tools import store
from edgebpf_tools.commands import changes
from edgebpf_tools.language import Language, edits_below

BEGUN = "graph 4\nbatch A\n+ 0 1\n+ 0 2\n+ 1 2\nend\npin a\n"
BEGUN_SAID = "graph 4\nbatch A version 1 added 3 removed 0\npin a version 1 edges 3\n"
TARGET = "code t 16 61100400000000009500000000000000\n"
TARGET_SAID = "program t bound 2 frames 1\n"


class EdgebpfShell(unittest.TestCase):
    def setUp(self):
        os.environ["EDGEBPF"] = str(TOOLS / "tests" / "second_store.py")
        folder = tempfile.TemporaryDirectory()
        self.addCleanup(folder.cleanup)
        self.folder = pathlib.Path(folder.name)

    def said(self, text, *words, status=0):
        run = run_tool("edgebpf-shell", *words, text=text)
        self.assertEqual((run.stderr, run.returncode), ("", status))
        return run.stdout

    def begun(self, *words, **options):
        """A session whose lines are still to come."""
        files = {"stdin": subprocess.PIPE, "stdout": subprocess.PIPE, **options}
        return subprocess.Popen([PYTHON, TOOLS / "edgebpf-shell", *words], text=True, **files)

    def test_a_slip_ends_nothing(self):
        """Each line that would be a fault is told with its word, and what stands behind it goes on."""
        slips = [
            ("graph 5", "^^^^^ there is a graph already"),
            ("grpah 4", "^^^^^ no command has this name"),
            ("pin a", "    ^ a pin has this name"),
            ("pin a+", "    ^^ a name is 1 to 32"),
            ("batch E", "      ^ a feed is A, B, C or D"),
            ("code p 15 00", "       ^^ the length of a record is 16 to 256"),
            ("code p 16 0", "          ^ bytes are pairs"),
            ("image p 0", "        ^ bytes are pairs"),
            ("image t -", "      ^ a program has this name"),
            ("run t a sum 00", "            ^^ this program's argument has 0 bytes"),
            ("run t a sum - 1 0", "                ^ vertices ascend"),
            ("run t a sum - 4", "              ^ a vertex is 0 to 3"),
            ("run u a sum -", "    ^ no program has this name"),
            ("run t b sum -", "      ^ no pin has this name"),
            ("run t a sun -", "        ^^^ numbers are reduced"),
            ("home 4", "     ^ a vertex is 0 to 3"),
            (f"home {'4' * 5000}", f"     {'^' * 5000} a vertex is 0 to 3"),
            ("list t b -", "       ^ no pin has this name"),
            ("list t a 00", "         ^^ this program's argument has 0 bytes"),
        ]
        text = "pin a\n" + BEGUN + TARGET + "".join(line + "\n" for line, _ in slips) + "run t a sum -\n"
        said = self.said(text, status=1)
        self.assertTrue(said.startswith("pin a\n^^^ make a graph first: graph N\n" + BEGUN_SAID + TARGET_SAID), said)
        for line, told in slips:
            self.assertIn(f"{line}\n{told}", said)
        self.assertTrue(said.endswith("run t a edges 3 total 5\nrow 0 3\nrow 1 2\n"), said)

    def test_answers_of_many_lines(self):
        """What stands behind a run or a list is answered with its own line."""
        said = self.said(BEGUN + TARGET + "run t a sum -\nhome 1\nlist t a -\nhome 0\n")
        rows = "run t a edges 3 total 5\nrow 0 3\nrow 1 2\nhome 1 block degree 1\n"
        edges = "list t a edges 3\nedge 0 1 1\nedge 0 2 2\nedge 1 2 2\nhome 0 block degree 2\n"
        self.assertEqual(said, BEGUN_SAID + TARGET_SAID + rows + edges)

    def test_columns(self):
        """Columns are set, shown, pulled, pushed and mapped; slips about them are told; a journal that is shortened gives the same columns."""
        lines = BEGUN + "code s 32 79101000000000009500000000000000\n" + "column x 1 5 0 7\ncolumn y 0\n"
        slips = [
            ("values z", "       ^ no column has the name z"),
            ("values -", "       ^ - names no column"),
            ("column x 3 1 2", "         ^ there are 1 vertices from there on"),
            ("column x 0 a", "           ^ a number is in decimal digits"),
            ("pull s a sum - x,, -", "               ^^^ columns are names with a comma"),
            ("pull s a sum - x,z -", "               ^^^ no column has the name z"),
            ("push s a sum - x -", "                 ^ - names no column"),
            ("push s a sum 00 x y", "             ^^ this program's argument has 0 bytes with 1 columns"),
            ("each s a sum - x -", "                 ^ - names no column"),
            ("each s a sum - x z", "                 ^ no column has the name z"),
            ("values x 1 1", "           ^ vertices ascend"),
        ]
        asked = "".join(line + "\n" for line, _ in slips) + "push s a sum - x y\nvalues y\npull s a max - x -\npull s a sum - x x\nvalues x\neach s a sum - y x 2\nvalues y 0\n"
        journal = self.folder / "journal"
        said = self.said(lines + asked, "--journal", str(journal), status=1)
        for line, told in slips:
            self.assertIn(f"{line}\n{told}", said)
        pulled = "pull s a edges 3 total 5\nrow 0 0\nrow 1 5\npull s a edges 3 total 5 changed 1\nvalue 1 5\neach s a vertices 1 total 5 changed 1\nvalue 0 0\n"
        self.assertTrue(said.endswith("push s a edges 3 total 5 changed 1\nvalue 2 5\n" + pulled), said)
        shown = "values x\nvalues y\nhome 0\n"
        self.assertIn("value 1 5\nvalue 2 5\nvalue 2 5\nhome 0", self.said(".compact\n" + shown, "--journal", str(journal)))
        self.assertIn("value 1 5\nvalue 2 5\nvalue 2 5\nhome 0", self.said(shown, "--journal", str(journal)))
        self.assertIn("\ncolumn x 0\ncolumn x 1 5 5\ncolumn y 0\ncolumn y 2 5\n", journal.read_text())

    def test_what_changes_something(self):
        """It is done again if a session is taken up; a pull that writes rows is a question, as a run is."""
        changing = ["pull s a sum - x x", "push s a sum - x y 1 2"]
        asking = ["pull s a max - x -", "pull s a max - x - 1 2", "run s a sum 00", "list s a 00", "values x", "home 0"]
        self.assertEqual(changes([*asking, *changing]), [[line] for line in changing])

    def test_blocks(self):
        """A wrong edit is not part of its batch, and a block that is dropped is not sent."""
        text = "graph 4\nbatch A\n+ 0 1\n+ 0 9\n* 0 1\n.cancel\nbatch A\n+ 0 2\nend\nprogram p 16\nmov r0, 7\nexit\nend\n.script\n"
        said = self.said(text, status=1)
        self.assertIn("+ 0 9\n    ^ a vertex is 0 to 3\n", said)
        self.assertIn("* 0 1\n^ a line of a batch is", said)
        sent = "graph 4\nbatch A\n+ 0 2\nend\nprogram p 16\nmov r0, 7\nexit\nend\n"
        self.assertTrue(said.endswith("batch A version 1 added 1 removed 0\nprogram p bound 2 frames 1\n" + sent), said)

    def test_refusals_in_words(self):
        said = self.said(BEGUN + "code u 16 61100d00000000009500000000000000\ncode e 16 -\nprogram p 16\nmov r11, 1\nend\n")
        self.assertIn("refused u cause 11 pc 0\nrefused at unit 0: bytes may lie outside", said)
        self.assertIn("image e error 4\nthe code is not 1 to 4,096 whole units", said)
        self.assertIn("assembler p error 1 line 1\nline 1 of the program: it is no statement", said)

    def test_images_and_epochs(self):
        """An image from a file is sent and explained with its table; `.compact` begins an epoch, and batches count from 1 again."""
        image = self.folder / "image"
        image.write_bytes(bytes.fromhex("425045321000020004006130000000000000" + "9500000000000000" + "0a000000"))
        said = self.said(f"{BEGUN}.image t {image}\nrun t a sum -\n.compact\nbatch B\n+ 3 0\nend\n.image t {image}\n", status=1)
        runs = "program t bound 2 frames 1\nrun t a edges 3 total 30\nrow 0 20\nrow 1 10\n"
        self.assertIn(f"{runs}rebase epoch 1 edges 3\nbatch B version 1 added 1 removed 0\n", said)
        self.assertIn("a program has this name", said)
        self.assertIn("image e error 2\nthe image has more or fewer bytes", self.said(BEGUN + "image e 42504531\n"))

    def test_greatest_rows(self):
        said = self.said(BEGUN + TARGET + ".top 1\nrun t a sum -\n")
        self.assertTrue(said.endswith("total 5\nrow 0 3\n.. the greatest 1 of 2 rows (.top 0 shows all)\n"), said)

    def test_a_session_is_taken_up_again(self):
        journal = str(self.folder / "journal")
        begun = run_tool("edgebpf-shell", "--journal", journal, text=BEGUN + TARGET + "pin\nbatch B\n- 0 1\n")
        self.assertEqual((begun.stderr, begun.returncode), ("edgebpf-shell: the input ended within a batch, which was not sent\n", 1))
        self.assertEqual(pathlib.Path(journal).read_text(), BEGUN + TARGET)
        again = self.said("run t a sum -\n", "--journal", journal)
        self.assertEqual(again, f"taken up again: 8 lines of {journal}\nrun t a edges 3 total 5\nrow 0 3\nrow 1 2\n")

    def test_a_torn_journal(self):
        """What a crash left of the last command is left out, and said; the journal goes on after the commands before it."""
        journal = self.folder / "journal"
        for torn, shown in (
            ("pin ab", "pin ab"), ("batch A\n+ 0 1\n", "batch A .."), ("batch B\n+ 3\n", "batch B .."), ("program p 16\nexit", "program p 16 .."), ("\0\0\0", "\0\0\0"),
            ("batch A\n+ 0 3\nend", "batch A .."), ("x", "x"), ("run t a sum -\nbatch C\n", "batch C"),
        ):
            journal.write_text(BEGUN + TARGET + torn)
            kept = "run t a sum -\n" if torn.startswith("run") else ""
            again = self.said("pin b\n", "--journal", str(journal))
            taken = f"taken up again: {8 + kept.count(chr(10))} lines of {journal}\nits last command is torn, and left out: {shown}\n"
            self.assertEqual(again, taken + "pin b version 1 edges 3\n")
            self.assertEqual(journal.read_text(), BEGUN + TARGET + kept + "pin b\n")

    def test_questions_are_not_asked_again(self):
        """A session is taken up without its runs, which a journal keeps and `.script` shows."""
        journal = self.folder / "journal"
        text = BEGUN + TARGET + "run t a sum -\nlist t a -\nhome 0\npin b\n"
        self.said(text, "--journal", str(journal))
        store = self.folder / "store"
        store.write_text(f'#!/bin/sh\nexec tee {self.folder}/asked | {PYTHON} {TOOLS}/tests/second_store.py\n')
        store.chmod(0o755)
        with unittest.mock.patch.dict(os.environ, EDGEBPF=str(store)):
            again = self.said("home 1\n.script\n", "--journal", str(journal))
        self.assertEqual(again, f"taken up again: 12 lines of {journal}\nhome 1 block degree 1\n{text}home 1\n")
        self.assertEqual((self.folder / "asked").read_text(), BEGUN + TARGET + "pin b\nhome 1\n")

    def test_synced_journals(self):
        """With --sync each command is on the disk before its answer is shown, and without it none is waited for."""
        journal = self.folder / "journal"
        from edgebpf_tools.journal import Journal

        for is_synced in (False, True):
            with unittest.mock.patch("os.fsync") as synced:
                kept = Journal(str(journal), is_synced)
                kept.add(["graph 4"])
                kept.add(["pin a"])
                # The name of the file once, and each command.
                self.assertEqual(synced.call_count, 3 * is_synced)
            with unittest.mock.patch("os.fsync", side_effect=OSError(28, "No space left on device")):
                size = journal.stat().st_size
                if is_synced:
                    with self.assertRaises(OSError):
                        kept.add(["pin b"])
                    self.assertEqual(journal.stat().st_size, size)
            kept.file.close()
        journal.unlink()
        self.said(BEGUN, "--journal", str(journal), "--sync")
        self.assertEqual(journal.read_text(), BEGUN)
        run = run_tool("edgebpf-shell", "--sync", text="")
        self.assertEqual((run.stderr, run.returncode), ("edgebpf-shell: --sync is of a journal, which --journal names\n", 1))

    def test_a_synced_journal_in_place_of_another(self):
        """A journal that was shortened is on the disk before it has its name, is synced as before, and then the disk has the name too."""
        from edgebpf_tools.journal import Journal

        told, sync, replace = [], os.fsync, os.replace

        def synced(file):
            told.append(os.readlink(f"/proc/self/fd/{file}"))
            sync(file)

        def replaced(old, new):
            told.append("replace")
            replace(old, new)

        journal = os.path.realpath(self.folder / "journal")
        first = Journal(journal, True)
        with unittest.mock.patch("os.fsync", synced), unittest.mock.patch("os.replace", replaced):
            first.add(["graph 4"])
            other = first.replace(["graph 4"])
            other.add(["pin a"])
            other.add(["pin b"])
        other.file.close()
        folder = os.path.dirname(journal)
        self.assertEqual(told, [journal, folder, f"{journal}.part{os.getpid()}", "replace", journal, folder, journal])
        self.assertEqual(pathlib.Path(journal).read_text(), "graph 4\npin a\npin b\n")

    def test_a_folder_that_is_not_synced(self):
        """A file system that syncs no folders leaves the journal of use; any other error is one of the journal."""
        from edgebpf_tools import journal

        for error, is_kept in ((OSError(22, "Invalid argument"), True), (PermissionError(13, "Permission denied"), True), (OSError(5, "Input/output error"), False)):
            kept = journal.Journal(str(self.folder / "journal"), True)
            with unittest.mock.patch("os.fsync", side_effect=[None, error]):
                if is_kept:
                    kept.add(["graph 4"])
                else:
                    with self.assertRaises(OSError):
                        kept.add(["graph 4"])
            kept.file.close()
        self.assertEqual((self.folder / "journal").read_text(), "graph 4\n" * 2)

    def test_compact_journals(self):
        """A journal that was shortened gives the same graph, pins, programs and edges, in fewer lines; `.script` shows these."""
        journal = self.folder / "journal"
        other = "code u 16 b7000000070000009500000000000000\n"
        refused = "code u 16 61100d00000000009500000000000000\n"
        edits = "".join(f"batch B\n+ 3 {number % 4}\n- 3 {(number + 1) % 4}\nend\n" for number in range(30))
        text = BEGUN + TARGET + refused + edits + "pin b\nprogram p 16\nmov r0, 9\nexit\nend\nrebase\n" + other + "batch C\n- 0 1\nend\n"
        asked = "".join(f"list {program} {pin} -\n" for pin in ("a", "b", "c") for program in ("t", "u", "p"))
        before = self.said(text + "pin c\n" + asked)
        wanted = before[before.index("list t a"):]
        self.said(text, "--journal", str(journal))
        said = self.said(".compact\n.script\n", "--journal", str(journal))
        lines = journal.read_text()
        # Of vertex 3 the edges to 3, 0 and 1 were inserted last, and that to 2 was removed last.
        self.assertIn(f"rebase epoch 2 edges 5\n{journal} has {lines.count(chr(10))} lines now\n", said)
        self.assertTrue(said.endswith(f"lines now\n{lines}"))
        self.assertLess(lines.count("\n"), 30)
        for _ in range(2):
            again = self.said("pin c\n" + asked if _ == 0 else asked, "--journal", str(journal))
            self.assertTrue(again.endswith(wanted), again)
        self.assertEqual([path.name for path in self.folder.iterdir()], ["journal"])
        kept = journal.read_text()
        (self.folder / "once").write_text(f'#!/bin/sh\nif mkdir {self.folder}/begun 2>/dev/null; then exec {PYTHON} {TOOLS}/tests/second_store.py; fi\nexit 3\n')
        (self.folder / "once").chmod(0o755)
        with unittest.mock.patch.dict(os.environ, EDGEBPF=str(self.folder / "once")):
            said = self.said(".compact\nhome 0\n", "--journal", str(journal), status=1)
        self.assertIn("the journal stays as it is: edgebpf has ended, with status 3\nhome 0", said)
        self.assertEqual(journal.read_text(), kept + "rebase\nhome 0\n")
        self.assertIn("there are 256 pins", self.said("graph 1\n" + "".join(f"pin n{number}\n" for number in range(256)) + ".compact\n", "--journal", f"{journal}2", status=1))

    def test_batches_in_part(self):
        """A batch of input that is no terminal is sent whole or not at all, and so is a program."""
        wrong = ("+ 1 0 5", "+ 0 77", "* 0 1", "+ 0 \x07", ".nothing", ".read /nowhere")
        for line in wrong:
            said = self.said(f"graph 4\nbatch A\n+ 0 1\n{line}\n+ 0 2\nend\nbatch A\n+ 0 3\nend\nprogram p 16\nmov r0, 1\n\x07\nexit\nend\nprogram p 16\nmov r0, 1\nexit\nend\n", status=1)
            self.assertIn("the batch is not sent, since a line of it was wrong\nbatch A version 1 added 1 removed 0\n", said)
            self.assertTrue(said.endswith("the program is not sent, since a line of it was wrong\nprogram p bound 2 frames 1\n"), said)

    def test_journals_that_cannot_be_taken_up(self):
        journal = self.folder / "journal"
        for lines, said in (
            ("graph 4\nquit\npin a\n", "a line of it ends the session"),
            ("batch A\n+ 0 1\n", "^^^^^ make a graph first: graph N; that was line 1; what follows it was not sent"),
            ("graph 4\nno script\npin", "^^ no command has this name; .help lists them; that was line 2; what follows it was not sent"),
            ("no script", "^^ no command has this name; .help lists them; that was line 1; what follows it was not sent"),
        ):
            journal.write_text(lines)
            run = run_tool("edgebpf-shell", "--journal", str(journal), text="pin b\n")
            told = f"edgebpf-shell: {journal} is no journal that can be taken up: {said}\n"
            self.assertEqual((run.stdout, run.stderr, run.returncode), ("", told, 1))
            self.assertEqual(journal.read_text(), lines)

    def test_a_journal_of_two_sessions(self):
        """The second one is refused while the first one goes on."""
        words = ["--journal", str(self.folder / "journal")]
        with self.begun(*words) as first:
            first.stdin.write("graph 4\n")
            first.stdin.flush()
            self.assertEqual(first.stdout.readline(), "graph 4\n")
            second = run_tool("edgebpf-shell", *words, text="pin b\n")
            told = f"edgebpf-shell: {words[1]} is the journal of another session, which goes on\n"
            self.assertEqual((second.stdout, second.stderr, second.returncode), ("", told, 1))
        self.assertIn("pin b version 0 edges 0\n", self.said("pin b\n", *words))

    def test_files_that_read_others(self):
        """A file that reads itself and a chain of 41 files are complaints; one of 32 is read to its end."""
        (self.folder / "own").write_text(f".read {self.folder}/own\n")
        for number in range(40):
            (self.folder / f"{number}").write_text(f".read {self.folder}/{number + 1}\n")
        (self.folder / "40").write_text("graph 4\n")
        said = self.said("".join(f".read {self.folder}/{name}\n" for name in ("own", "0", "8", "9")) + "home 0\n", status=1)
        self.assertEqual(said.count("^ this file is being read already\n"), 1)
        self.assertEqual(said.count("^ at most 32 files are read one from within another\n"), 2)
        self.assertTrue(said.endswith("not sent\ngraph 4\nhome 0 block degree 0\n"), said)

    # Without numpy the import ends before it reads anything.
    @unittest.skipIf(importlib.util.find_spec("numpy") is None, "missing: numpy")
    def test_an_import_of_no_file(self):
        """It ends at once, and does not wait for the lines of the session."""
        with self.begun(stderr=subprocess.DEVNULL) as shell:
            shell.stdin.write(".import -\n")
            shell.stdin.flush()
            self.assertTrue(select.select([shell.stdout], [], [], 20)[0])
            said, _ = shell.communicate("graph 4\n")
        self.assertEqual(said, "edgebpf-import ended with status 1\ngraph 4\n")

    def test_bytes_that_are_no_text(self):
        """Also where Python writes no such bytes again, as in all locales but those of C."""
        environment = {**os.environ, "PYTHONIOENCODING": "utf-8:strict"}
        text = "graph 4\n.x\udcff\npin \udcff\nhome 0\n"
        run = run_tool("edgebpf-shell", text=text, env=environment, encoding="utf-8", errors="surrogateescape")
        said = "graph 4\n.x\\udcff\n^^^ nothing has this name; .help lists what there is\na line has only printable ASCII and tabs\n"
        self.assertEqual((run.stdout, run.stderr, run.returncode), (said + "home 0 block degree 0\n", "", 1))

    def test_a_name_with_a_byte_0(self):
        self.assertIn("no name has a byte 0\ngraph 4\n", self.said(".read a\0b\ngraph 4\n", status=1))

    def test_a_locale_of_ascii(self):
        environment = {**os.environ, "LC_ALL": "C", "PYTHONUTF8": "0", "PYTHONCOERCECLOCALE": "0"}
        run = run_tool("edgebpf-shell", text="graph 4\n", env=environment)
        self.assertEqual((run.stdout, run.stderr, run.returncode), ("graph 4\n", "", 0))

    def test_input_without_an_end(self):
        """Neither a file nor a line takes more memory than a line may have."""
        said, little = "a line has at most 80000 bytes\n", memory_of(150)
        run = run_tool("edgebpf-shell", text="graph 4\n.image p /dev/zero\nhome 0\n", **little)
        self.assertEqual((run.stdout, run.stderr, run.returncode), (f"graph 4\n{said}home 0 block degree 0\n", "", 1))
        with open(self.folder / "long", "w+b") as long:
            long.truncate(100_000_000)
            run = run_tool("edgebpf-shell", stdin=long, **little)
        self.assertEqual((run.stdout, run.stderr, run.returncode), (said, "", 1))

    def test_a_store_without_a_name(self):
        with unittest.mock.patch.dict(os.environ, EDGEBPF=""):
            self.assertEqual(store.command(), [str(TOOLS.parent / "edgebpf")])

    def test_other_files(self):
        (self.folder / "s").write_text(BEGUN + "pin a\npin b\n")
        said = self.said(f".read {self.folder}/s\n.read {self.folder}/none\n.nothing\n.top x\n", status=1)
        self.assertIn("that was line 8; what follows it was not sent\n", said)
        self.assertIn("none: No such file or directory\n", said)
        self.assertIn(".nothing\n^^^^^^^^ nothing has this name", said)

    @unittest.skipIf(MISSING, f"not there: {MISSING}")
    def test_other_companions(self):
        (self.folder / "edges").write_text("0 1\n0 2\n1 2\n")
        (self.folder / "p.c").write_text(SOURCE)
        text = f".import {self.folder}/edges\npin a\n.load {self.folder}/p.c target 16\nrun target a sum -\n"
        run = run_tool("edgebpf-shell", text=text)
        self.assertEqual(run.stderr, "edgebpf-import: 3 vertices, 3 edges, 1 batches\n")
        self.assertTrue(run.stdout.endswith("frames 1\nrun target a edges 3 total 5\nrow 0 3\nrow 1 2\n"), run.stdout)

    def test_plain_words(self):
        said = self.said("help\n? pin\nhelp .top\ngraph 4\nprogram p 16\nmov r0, 7\nexit\nend\nexit\ngraph 5\n")
        self.assertIn("\ngraph N: makes the graph", "\n" + said)
        self.assertIn("pin NAME: names the last version\n.top K: shows", said)
        self.assertTrue(said.endswith("graph 4\nprogram p bound 2 frames 1\n"), said)
        self.assertEqual(self.said("quit\ngraph 4\n"), "")

    def test_edits_below(self):
        """The pattern of edits takes what the check of a line lets pass, up to the last vertex and no further."""
        for vertices in (1, 2, 9, 10, 11, 99, 100, 101, 109, 110, 1000, 1024, 65_537, 999_999, 1_000_000, 1_048_576):
            pattern = edits_below(vertices)
            numbers = [*range(min(vertices + 20, 1200)), vertices - 1, vertices, vertices + 1, 10 * vertices, vertices // 10, 2**64]
            for number in numbers:
                for line in (f"+ {number} 0\n", f"- 0 {number}\n"):
                    self.assertEqual(pattern.match(line).end() > 0, number < vertices, (vertices, line))
        for line in ("+ 1\n", "+ 1 2 3\n", "+  1 2\n", "* 1 2\n", "+ 1 2", "+ 1 x\n", "+ 1 \u0662\n", "end\n", "\n", "+1 2\n", "+ 1 2 \n"):
            self.assertEqual(edits_below(10).match(line).end(), 0, line)

    def test_many_edits(self):
        """Blocks of edits that are taken at once are sent and kept as they are, up to the last one that a batch may have."""
        edits = [f"+ {place // 300} {place % 300}\n" for place in range(65_536)]
        text = "graph 300\nbatch A\n" + "".join(edits) + "end\npin a\n"
        (self.folder / "graph").write_text(text)
        said = self.said(f".read {self.folder}/graph\n.script\n")
        self.assertEqual(said, "graph 300\nbatch A version 1 added 65536 removed 0\npin a version 1 edges 65536\n" + text)
        run = run_tool("edgebpf-shell", text=text.replace("end\n", "+ 299 0\nend\n"))
        self.assertEqual(run.returncode, 1)
        self.assertIn("the block is full; end it\nthe batch is not sent, since a line of it was wrong\npin a version 0", run.stdout)
        mixed = self.said(text.replace("+ 100 7\n", "+ 100 300\n\t+  100   7\n"), status=1)
        self.assertIn("+ 100 300\n      ^^^ a vertex is 0 to 299\n", mixed)
        self.assertIn("the batch is not sent, since a line of it was wrong\npin a version 0 edges 0", mixed)
        blanks = self.said(text.replace("+ 100 7\n", "\t+  100   7\n"))
        self.assertIn("version 1 added 65536 removed 0", blanks)

    def test_too_many_edits(self):
        """Of more edits than a batch may have all that it may have are taken at once, and the first one more is told at its line."""
        edits = [f"+ {place // 300} {place % 300}\n" for place in range(70_000)]
        text, language = "".join(edits), Language()
        language.heard(["graph 300"], "graph 300")
        language.take("batch A")
        end = len("".join(edits[:65_536]))
        self.assertEqual([language.take_edits(text, start) for start in (0, end)], [(end, 65_536), (end, 0)])
        (self.folder / "graph").write_text(f"graph 300\nbatch A\n{text}end\n")
        said = self.said(f".read {self.folder}/graph\nend\n", status=1)
        told = "graph 300\nthe block is full; end it\nthat was line 65539; what follows it was not sent\n"
        self.assertEqual(said, told + "the batch is not sent, since a line of it was wrong\n")

    def test_journal_that_cannot_be_kept(self):
        journal, lines = self.folder / "journal", "graph 4\nhome 0\n"
        command = f"ulimit -f 0; exec {PYTHON} {TOOLS / 'edgebpf-shell'} --journal {journal}"
        run = subprocess.run(["sh", "-c", command], input=lines, capture_output=True, text=True)
        self.assertEqual((run.stderr, run.returncode, journal.read_text()), ("", 1, ""))
        said = f"{journal}: File too large; the session goes on without its journal\n"
        self.assertEqual(run.stdout, said + "graph 4\nhome 0 block degree 0\n")
        self.assertIn("/dev/full is no file", run_tool("edgebpf-shell", "--journal", "/dev/full", text=lines).stderr)
        (self.folder / "journal").write_text("graph 4\npin a\npin a\n")
        run = run_tool("edgebpf-shell", "--journal", str(self.folder / "journal"), text="")
        self.assertEqual((run.stdout, run.returncode, len(run.stderr.splitlines())), ("", 1, 1))
        self.assertIn("no journal that can be taken up", run.stderr)

    def test_a_journal_that_becomes_too_long(self):
        """It keeps the whole commands before the one that has no room, however much of that was written, and is taken up again."""
        journal, batch = self.folder / "journal", "batch A\n+ 0 1\nend\n"
        commands = [BEGUN.partition("pin")[0], "pin a\n", *[batch] * 30]
        for most in (40, len(BEGUN), 200, 333, 512):
            journal.write_text("")
            run = run_tool("edgebpf-shell", "--journal", str(journal), text="".join(commands),
                           preexec_fn=functools.partial(resource.setrlimit, resource.RLIMIT_FSIZE, (most, most)))
            self.assertEqual((run.stderr, run.returncode), ("", 1))
            self.assertIn(f"{journal}: File too large; the session goes on without its journal\n", run.stdout)
            self.assertIn("batch A version 31 added 0 removed 0\n", run.stdout)
            ends = itertools.accumulate(("graph 4\n", "batch A\n+ 0 1\n+ 0 2\n+ 1 2\nend\n", *commands[1:]))
            kept = [text for text in ends if len(text) <= most]
            self.assertEqual(journal.read_text(), kept[-1])
            again = self.said("home 0\n", "--journal", str(journal))
            self.assertIn(f"taken up again: {kept[-1].count(chr(10))} lines of {journal}\n", again)

    def test_store_that_ends(self):
        (self.folder / "store").write_text("#!/bin/sh\nread line\necho \"$line\"\nexit 3\n")
        (self.folder / "store").chmod(0o755)
        os.environ["EDGEBPF"] = str(self.folder / "store")
        run = run_tool("edgebpf-shell", text="graph 4\nhome 0\nhome 1\n")
        self.assertEqual((run.stdout, run.returncode), ("graph 4\n", 1))
        self.assertEqual(run.stderr, "edgebpf-shell: edgebpf has ended, with status 3\n")


class Terminal(unittest.TestCase):
    """A shell at a terminal of its own, as a person has it: a Ctrl-C goes to all processes that the terminal knows."""

    def setUp(self):
        folder = tempfile.TemporaryDirectory()
        self.addCleanup(folder.cleanup)
        self.folder = pathlib.Path(folder.name)
        self.process, self.seen = None, ""

    def start(self, store):
        try:
            self.process, self.leader = pty.fork()
        except OSError as error:
            self.skipTest(f"there are no terminals here: {error}")
        if self.process == 0:
            os.environ |= {"EDGEBPF": str(store), "TERM": "dumb"}
            os.execv(PYTHON, [PYTHON, str(TOOLS / "edgebpf-shell")])
        self.addCleanup(os.close, self.leader)

    def until(self, part, again=None):
        """What the terminal shows up to a part that is new. `again` is typed once more after each five seconds in vain: Python's readline
        may miss a signal that comes just before it waits for a key, and a person would press Ctrl-C once more."""
        begun = typed = time.monotonic()
        while part not in self.seen:
            self.assertLess(time.monotonic() - begun, 30, f"not seen: {part!r} in {self.seen!r}")
            if again and time.monotonic() - typed > 5:
                typed = time.monotonic()
                self.types(again)
            if select.select([self.leader], [], [], 1)[0]:
                try:
                    self.seen += os.read(self.leader, 4096).decode().replace("\r", "")
                except OSError:
                    self.assertIn(part, self.seen)
        shown, _, self.seen = self.seen.partition(part)
        return shown

    def types(self, text):
        os.write(self.leader, text.encode())

    def status(self):
        for _ in range(300):
            process, status = os.waitpid(self.process, os.WNOHANG)
            if process:
                return os.waitstatus_to_exitcode(status)
            time.sleep(0.1)
        os.kill(self.process, signal.SIGKILL)
        return os.waitstatus_to_exitcode(os.waitpid(self.process, 0)[1])

    def test_prompt(self):
        self.start(TOOLS / "tests" / "second_store.py")
        self.until("edgebpf> ")
        self.types("graph 4\nbatch A\n")
        self.until("batch> ")
        self.types(".quit\n")
        self.assertEqual(self.status(), 0)

    def test_interrupt_drops_the_line(self):
        self.start(TOOLS / "tests" / "second_store.py")
        self.until("edgebpf> ")
        self.types("graph 4\n")
        self.until("graph 4\nedgebpf> ")
        self.types("pin x\x03")
        self.until("(dropped)\nedgebpf> ", again="\x03")
        for line in ("batch A\n", "+ 0 1\n"):
            self.types(line)
            self.until("batch> ")
        self.types("+ 0 2\x03")
        self.until(".cancel drops the block that was begun\nbatch> ", again="\x03")
        self.types("end\npin x\n")
        self.until("pin x version 1 edges 1\nedgebpf> ")
        self.types("exit\n")
        self.assertEqual(self.status(), 0)

    def test_interrupt_of_an_answer(self):
        """The answer to what was sent is awaited, and the next one is not taken for it."""
        store = self.folder / "store"
        store.write_text('#!/bin/sh\nwhile read line; do case "$line" in pin*) sleep 2;; esac; echo "said $line"; done\n')
        store.chmod(0o755)
        self.start(store)
        self.until("edgebpf> ")
        self.types("graph 4\npin a\n")
        self.until("pin a\n")
        time.sleep(0.5)
        self.types("\x03\x03")
        self.until("edgebpf is at work")
        self.assertNotIn("said pin a", self.until("(dropped)"))
        self.types("home 1\n")
        self.until("said home 1\nedgebpf> ")
        self.types("pin a\n")
        self.until("a pin has this name\nedgebpf> ")
        self.types("\x04")
        self.assertEqual(self.status(), 0)

    def test_interrupt_of_a_run(self):
        """A run ends, also one that would go on for long: edgebpf is started again, with all that changed something."""
        store = self.folder / "store"
        store.write_text(f"""#!/bin/sh
echo started >> {self.folder}/asked
while read line; do
    echo "$line" >> {self.folder}/asked
    case "$line" in
    run*) sleep 1000 ;;
    code*) echo program t bound 2 frames 1 ;;
    batch*) read edit; read end; echo batch A version 1 added 1 removed 0 ;;
    *) echo "said $line" ;;
    esac
done
""")
        store.chmod(0o755)
        self.start(store)
        self.until("edgebpf> ")
        self.types("graph 4\nbatch A\n+ 0 1\nend\npin a\ncode t 16 61100400000000009500000000000000\nhome 0\n")
        self.until("said home 0\nedgebpf> ")
        for _ in range(2):
            self.types("run t a sum -\n")
            self.until("run t a sum -\n")
            time.sleep(0.5)
            self.types("\x03")
            self.until("(edgebpf is started again, with what was sent)", again="\x03")
            self.until("(dropped)\nedgebpf> ")
        self.types("home 1\n")
        self.until("said home 1\nedgebpf> ")
        self.types("\x04")
        self.assertEqual(self.status(), 0)
        changes = ["graph 4", "batch A", "pin a", "code t 16 61100400000000009500000000000000"]
        asked = (self.folder / "asked").read_text().split("started\n")[1:]
        self.assertEqual([part.splitlines() for part in asked], [[*changes, "home 0", "run t a sum -"], [*changes, "run t a sum -"], [*changes, "home 1"]])

    def counting_store(self, seconds):
        """A store whose runs take so many seconds, and whose numbers are the vertices: each vertex has one edge."""
        store = self.folder / "store"
        store.write_text(f"""#!{PYTHON}
import sys, time
with open("{self.folder}/asked", "a") as asked:
    for line in sys.stdin:
        words = line.split()
        assert len(line) <= 80_001
        print(*words[:1], len(words) - 5, file=asked, flush=True)
        if words[0] == "run":
            time.sleep({seconds})
            chosen = list(map(int, words[5:]))
            total = dict(sum=sum, min=min, max=max)[words[3]](chosen)
            print("run t a edges", len(chosen), "total", total)
            print("".join("row %d %d\\n" % (vertex, vertex) for vertex in chosen), end="", flush=True)
        elif words[0] == "code":
            print("program t bound 2 frames 1", flush=True)
        elif words[0] == "batch":
            sys.stdin.readline(), sys.stdin.readline()
            print("batch A version 1 added 1 removed 0", flush=True)
        else:
            print(words[0], "said", flush=True)
""")
        store.chmod(0o755)
        self.start(store)
        self.until("edgebpf> ")
        self.types("graph 20000\nbatch A\n+ 0 1\nend\npin a\ncode t 16 61100400000000009500000000000000\n.top 3\nhome 0\n")
        self.until("home said\nedgebpf> ")

    def asked(self):
        return [tuple(line.split()) for line in (self.folder / "asked").read_text().splitlines()]

    def test_long_run_goes_in_parts(self):
        """The parts are all vertices, in lines that edgebpf takes, and the answer is that of the whole run."""
        self.counting_store(0)
        for reduction, total in (("sum", sum(range(20_000))), ("min", 0), ("max", 19_999)):
            self.types(f"run t a {reduction} -\n")
            shown = self.until("edgebpf> ")
            self.assertIn(f"run t a edges 20000 total {total}\nrow 19999 19999\nrow 19998 19998\nrow 19997 19997\n.. the greatest 3 of 20000 rows", shown)
        self.types(f"run t a sum - {' '.join(map(str, range(0, 900)))}\n")
        self.until("run t a edges 900 total 404550\n")
        self.until("edgebpf> ")
        self.types("\x04")
        self.assertEqual(self.status(), 0)
        runs = [int(count) for word, count in self.asked() if word == "run"]
        self.assertEqual((sum(runs), runs[-1]), (60_900, 900))

    def test_lines_and_totals_of_parts(self):
        """No line of a part is too long, also where later vertices have more digits, and sums wrap at 2^64 as those of one run do."""
        import io
        from edgebpf_tools.limits import MOST_LINE_BYTES
        from edgebpf_tools.run_in_parts import RunInParts

        class Stored:
            lines = []

            def ask(self, lines):
                self.lines += lines
                return [f"run t a edges 1 total {2**64 - 1}"]

        frontier, stored = [0, *range(1_000_000, 1_040_000)], Stored()
        answer = RunInParts(stored, "run t a sum -".split(), frontier, io.StringIO()).answer()
        count = len(stored.lines)
        self.assertEqual(answer, [f"run t a edges {count} total {2**64 - count}"])
        self.assertLessEqual(max(map(len, stored.lines)), MOST_LINE_BYTES)
        self.assertEqual([int(word) for line in stored.lines for word in line.split()[5:]], frontier)

    def test_interrupt_between_parts(self):
        """A Ctrl-C ends a run between two parts, edgebpf goes on, and what follows is asked of the same one; until then it says how far it is."""
        self.counting_store(0.3)
        for _ in range(2):
            self.types("run t a sum -\n")
            self.until(" % of 20000 vertices; Ctrl-C ends the run)")
            self.types("\x03")
            self.until("(the run has ended, and is not whole)", again="\x03")
            self.until("(dropped)\nedgebpf> ")
        self.types("home 1\n")
        self.until("home said\nedgebpf> ")
        self.types(".script\n")
        self.assertNotIn("run t a", self.until("edgebpf> "))
        self.types("\x04")
        self.assertEqual(self.status(), 0)
        runs = [int(count) for word, count in self.asked() if word == "run"]
        self.assertLess(sum(runs), 20_000)
        self.assertEqual([word for word, _ in self.asked()].count("graph"), 1)

    # Without numpy the import ends before it opens the file, and nobody would read what the test writes.
    @unittest.skipIf(importlib.util.find_spec("numpy") is None, "missing: numpy")
    def test_interrupt_of_an_import(self):
        os.mkfifo(self.folder / "edges")
        self.start(TOOLS / "tests" / "second_store.py")
        self.until("edgebpf> ")
        self.types(f".import {self.folder}/edges\n")
        self.until("edges\n")
        with open(self.folder / "edges", "w"):
            self.types("\x03")
            self.until("(dropped)\nedgebpf> ")
        self.types("graph 4\nquit\n")
        self.until("graph 4\n")
        self.assertEqual(self.status(), 0)

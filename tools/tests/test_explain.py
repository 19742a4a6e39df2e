"""edgebpf-explain: what it hands to the program, the page that it makes of what that tells, and the shell's .explain. Where
EDGEBPF_EXPLAIN names a built program, real refusals are tried too."""
import html.parser
import os
import pathlib
import stat
import sys
import tempfile
import unittest
import unittest.mock

from tools_here import TOOLS, run_tool

sys.path.append(str(TOOLS.parent / "tests/second_implementation"))

from assembler import assemble  # noqa: E402

from edgebpf_tools.explain_page import labels, page, read, ways  # noqa: E402
from edgebpf_tools.words import CAUSES, HELP, in_words, words_of  # noqa: E402

# A program that answers what it was asked, and with this text.
STAND_IN = """#!/bin/sh
echo "program of 5 units, records of $1 bytes"
echo "0, line 1: lddw r6, 7"
echo "    r1 record+0  r10 stack[0]+0"
echo "2, line 2: calllocal f"
echo "    r1 record+0  r6 7  r10 stack[0]+0  bytes[0] -8 to -5  byte[0] -1  slot[0] -16 stack[0]-8"
echo "3, line 4: exit"
echo "    no run comes here"
echo "called at 2"
echo "4, line 6: jlt r1, 2 < 3"
echo "refused at 2, line 2: calllocal f"
echo "rule 4: asked with $# words, $2, and the text $(tr '\\n' '/')"
echo "what helps: a & b"
exit 1
"""
# Nine functions, each of which calls the next. The first instruction reads R1, which is 5 where the last passage ends.
NEST = ("ldxw r3, [r1+0]\nmov r1, 5\njeq r3, 0, end\ncalllocal f1\nend:\nmov r0, 0\nexit\n"
        + "".join(f"f{number}:\ncalllocal f{number + 1}\nexit\n" for number in range(1, 8)) + "f8:\nmov r0, 0\nexit\n")
IN_BLOCKS = "runs in blocks of edges, edge by edge where one gives up"
SOURCE = "lddw r6, 7\ncalllocal f  ; a call\n\nexit\nf:\njlt r1, 2 < 3\n"


class Tags(html.parser.HTMLParser):
    """Sees that each element is closed where it has to be."""

    EMPTY = {"meta", "path", "br"}

    def __init__(self):
        super().__init__()
        self.open, self.pcs, self.paths, self.faults = [], [], [], []

    def handle_starttag(self, tag, attributes):
        attributes = dict(attributes)
        if "data-pc" in attributes:
            self.pcs.append(int(attributes["data-pc"]))
        if tag == "path":
            self.paths.append(attributes["class"])
        if tag not in self.EMPTY:
            self.open.append(tag)

    def handle_startendtag(self, tag, attributes):
        if tag == "path":
            self.paths.append(dict(attributes)["class"])

    def handle_endtag(self, tag):
        if not self.open or self.open.pop() != tag:
            self.faults.append(tag)


class Explain(unittest.TestCase):
    def setUp(self):
        folder = tempfile.TemporaryDirectory()
        self.addCleanup(folder.cleanup)
        self.folder = pathlib.Path(folder.name)
        self.given = os.environ.get("EDGEBPF_EXPLAIN")
        self.addCleanup(self.restore)
        stand_in = self.folder / "program"
        stand_in.write_text(STAND_IN)
        stand_in.chmod(stand_in.stat().st_mode | stat.S_IXUSR)
        os.environ["EDGEBPF_EXPLAIN"] = str(stand_in)
        os.environ["EDGEBPF"] = str(TOOLS / "tests" / "second_store.py")

    def restore(self):
        os.environ.pop("EDGEBPF_EXPLAIN", None)
        if self.given:
            os.environ["EDGEBPF_EXPLAIN"] = self.given

    def test_what_is_handed_on(self):
        code = run_tool("edgebpf-explain", "20", "9500000000000000")
        self.assertEqual((code.stderr, code.returncode), ("", 1))
        self.assertIn("records of 20 bytes\n", code.stdout)
        self.assertIn("asked with 2 words, 9500000000000000, and the text \n", code.stdout)
        text = run_tool("edgebpf-explain", "16", text=SOURCE)
        self.assertIn("asked with 1 words, , and the text lddw r6, 7/calllocal f  ; a call//exit/f:/jlt r1, 2 < 3/\n", text.stdout)

    def test_there_is_no_program(self):
        os.environ["EDGEBPF_EXPLAIN"] = str(self.folder / "nothing")
        run = run_tool("edgebpf-explain", "16", "95")
        self.assertEqual((run.stdout, run.returncode), ("", 2))
        self.assertIn("No such file", run.stderr)
        self.assertEqual(run_tool("edgebpf-explain").returncode, 2)

    def told(self):
        return run_tool("edgebpf-explain", "16", text=SOURCE).stdout

    def test_what_is_read(self):
        told = read(self.told())
        self.assertEqual([one.pc for one in told.listing], [0, 2, 3, 4])
        self.assertEqual([one.line for one in told.listing], [1, 2, 4, 6])
        known = [("r1", "record+0"), ("r6", "7"), ("r10", "stack[0]+0"), ("bytes[0]", "-8 to -5"), ("byte[0]", "-1"), ("slot[0] -16", "stack[0]-8")]
        self.assertEqual(told.listing[1].known, known)
        self.assertEqual([one.called_at for one in told.listing], [None, None, None, 2])
        self.assertEqual(told.listing[2].unreached, "no run comes here")
        self.assertEqual([one.unreached for one in (told.listing[1], told.listing[3])], [None, None])
        self.assertIsNone(told.listing[3].known)
        self.assertEqual(len(told.end), 3)

    def test_what_only_another_call_reaches(self):
        """The listing, the page and the lines of C say so in the same words."""
        text = self.told().replace("4, line 6: jlt r1, 2 < 3\n", "4, line 6: jlt r1, 2 < 3\n    this call does not come here\n")
        told = read(text)
        self.assertEqual((told.listing[3].unreached, told.listing[3].known), ("this call does not come here", None))
        self.assertIn('<p class="note">This call does not come here.</p>', page(text, SOURCE))

    def test_the_ways(self):
        """Of a source text by its labels, of code by the units that the disassembler names."""
        listing = read(self.told()).listing
        self.assertEqual(labels(listing, SOURCE), {"f": 3})
        found = [(way.kind, way.start, way.end) for way in ways(listing, SOURCE)]
        self.assertEqual(found, [("next", 0, 1), ("call", 1, 3), ("next", 1, 2)])
        text = "program of 4 units, records of 16 bytes\n0: jeq32 r1, r2, L3\n1: ja L3\n2: mov r0, 1\n3: exit\naccepted, bound 3, frames 1\n"
        found = [(way.kind, way.start, way.end) for way in ways(read(text).listing, None)]
        self.assertEqual(found, [("jump", 0, 3), ("next", 0, 1), ("jump", 1, 3), ("next", 2, 3)])

    def test_the_page(self):
        path = self.folder / "page.html"
        run = run_tool("edgebpf-explain", "16", "--html", str(path), text=SOURCE)
        self.assertEqual((run.stderr, run.returncode), ("", 1))
        written = path.read_text()
        tags = Tags()
        tags.feed(written)
        tags.close()
        self.assertEqual((tags.open, tags.faults), ([], []))
        self.assertEqual(tags.pcs, [0, 2, 3, 4])
        self.assertEqual(sorted(tags.paths), ["call", "head-call", "next", "next"])
        self.assertIn("jlt r1, 2 &lt; 3", written)
        self.assertIn("<p>what helps: a &amp; b</p>", written)
        self.assertIn("A function begins here, called at 2.", written)
        self.assertIn('<li id="pc-2" data-pc="2" tabindex="0" class="refused">', written)
        self.assertNotRegex(written, r"(src|href)=")

    def test_how_edges_run(self):
        """The last line of an accepted program: it stands in the page, too."""
        for pace in (IN_BLOCKS, "runs edge by edge, since the instruction at pc 1 calls gather"):
            text = f"program of 2 units, records of 16 bytes\n0: mov r0, 1\n1: exit\naccepted, bound 2, frames 1\n{pace}\n"
            self.assertEqual(read(text).end, ["accepted, bound 2, frames 1", pace])
            self.assertIn(f'<div class="verdict"><p>accepted, bound 2, frames 1</p><p>{pace}</p></div>', page(text))

    def test_from_the_shell(self):
        """The last program of a name, refused or not, by its code or its text."""
        sent = "graph 4\ncode c 16 61100d00000000009500000000000000\nprogram p 17\nmov r0, 7\nexit\nend\n"
        run = run_tool("edgebpf-shell", text=sent + ".explain c\n.explain p\n.explain q\n.explain\n")
        # The third question is about a program that was not sent.
        self.assertEqual((run.stderr, run.returncode), ("", 1))
        self.assertIn("asked with 2 words, 61100d00000000009500000000000000, and the text \n", run.stdout)
        self.assertIn("records of 17 bytes\n", run.stdout)
        self.assertIn("asked with 1 words, , and the text mov r0, 7/exit/\n", run.stdout)
        self.assertIn("^ no program of this name was sent", run.stdout)
        self.assertTrue(run.stdout.rstrip().endswith("by edgebpf-explain"), run.stdout)


@unittest.skipUnless(os.environ.get("EDGEBPF_EXPLAIN"), "real refusals are tried where EDGEBPF_EXPLAIN names a built program")
class RealRefusals(unittest.TestCase):
    def test_of_code_and_of_text(self):
        """A load across the record's end, as docs/BPF.md has it for cause 11."""
        source = "ldxw r0, [r1+13]\nexit\n"
        for words, text, place in (
            (["61100d00000000009500000000000000"], None, "0"),
            ([], source, "0, line 1"),
            ([], "; a comment\n" * 299 + source, "0, line 300"),
        ):
            run = run_tool("edgebpf-explain", "16", *words, text=text)
            self.assertEqual((run.stderr, run.returncode), ("", 1))
            self.assertIn(f"\nrefused at {place}: ldxw r0, [r1+13]\nrule 11: ", run.stdout)
            self.assertIn("\nknown of r1: record+0\nwhat helps: ", run.stdout)
            self.assertTrue(run.stdout.splitlines()[-1].startswith("what helps: "), run.stdout)

    def test_a_nest_of_nine_functions(self):
        """It is refused as a whole, as the second implementation has it, and no register is shown."""
        said = run_tool("edgebpf-explain", "16", text=NEST).stdout.splitlines()
        self.assertEqual(said[-3:-1], ["refused as a whole", f"rule 6: {CAUSES[6]}"])
        code = assemble(NEST).hex()
        with unittest.mock.patch.dict(os.environ, {"EDGEBPF_EXPLAIN": str(TOOLS / "tests" / "second_explain.py")}):
            second = run_tool("edgebpf-explain", "16", code).stdout.splitlines()
        self.assertEqual(second[-3:-1], said[-3:-1])

    def test_how_edges_run(self):
        """What blocks cannot do, the first of it by its unit; and a switch of which a run passes over most."""
        singly = "runs edge by edge, since "
        switch = "ldxw r0, [r1+4]\njeq r0, 0, end\n" + "add r0, 1\n" * 7 + "end:\nexit\n"
        past = "ldxw r0, [r1+4]\njeq r0, 0, few\n{} end\nfew:\n" + "add r0, 1\n" * 9 + "end:\nexit\n"
        early = "ldxw r0, [r1+4]\njne r0, 0, many\nexit\nmany:\n" + "add r0, 1\n" * 7 + "exit\n"
        for text, table, pace in (
            ("mov r0, 7\nneg r0\nexit\n", None, IN_BLOCKS),
            ("ldxb r0, [r3+1]\nexit\n", "0102", IN_BLOCKS),
            ("lddw r0, 7\nstdw [r10-8], 1\nstxdw [r10-128], r1\nexit\n", None, IN_BLOCKS),
            ("mov r0, 7\nstdw [r10-136], 1\nexit\n", None, singly + "the instruction at pc 1 stores to memory"),
            ("lddw r0, 7\nstw [r10-8], 1\nstdw [r10-16], 1\nexit\n", None, singly + "the instruction at pc 2 stores to memory"),
            ("mov r0, 7\nstdw [r10-20], 1\nexit\n", None, singly + "the instruction at pc 1 stores to memory"),
            ("mov r2, r10\nmov r0, 7\nstdw [r2-16], 1\nexit\n", None, singly + "the instruction at pc 2 stores to memory"),
            ("calllocal f\nexit\nf:\nstxdw [r10-8], r1\nmov r0, 1\nexit\n", None, singly + "the instruction at pc 0 calls a function"),
            (switch, None, singly + "a run may execute only 3 instructions of its 10 units"),
            ("mov r3, r10\nadd r3, -8\nmov r1, 0\nmov r2, 0\nmov r4, 8\ncall 5\nexit\n", None, singly + "the instruction at pc 5 calls gather"),
            ("mov r0, 7\nstw [r10-8], 1\nsth [r10-2], 1\nexit\n", None, singly + "the instruction at pc 1 stores to memory"),
            (past.format("ja"), None, singly + "a run may execute only 4 instructions of its 13 units"),
            (past.format("ja32"), None, singly + "a run may execute only 4 instructions of its 13 units"),
            (early, None, singly + "a run may execute only 3 instructions of its 11 units"),
            (switch.replace("add r0, 1\n", "", 1), None, IN_BLOCKS),
        ):
            run = run_tool("edgebpf-explain", "16", *(["--table", table] if table else []), text=text)
            self.assertEqual((run.stderr, run.returncode), ("", 0))
            accepted, last = run.stdout.splitlines()[-2:]
            self.assertEqual((accepted.split(",")[0], last), ("accepted", pace))

    def test_at_the_limits(self):
        """The last byte of the longest record, and that of the longest table, by text and by code."""
        for length, words, text in (
            ("256", [], "ldxb r0, [r1+255]\nexit\n"),
            ("16", ["--table", "00" * 4096], "ldxb r0, [r3+4095]\nexit\n"),
            ("16", ["7130ff0f000000009500000000000000", "--table", "00" * 4096], None),
        ):
            run = run_tool("edgebpf-explain", length, *words, text=text)
            self.assertEqual((run.stderr, run.returncode), ("", 0))
            self.assertIn("\naccepted, bound 2, frames 1\n", run.stdout)

    def test_no_program(self):
        for words, text, said in (
            (["16", "9"], None, "hexadecimal"),
            (["16", "95"], None, "whole units"),
            (["16"], "mov r11, 1\n", "line 1: "),
            (["15", "9500000000000000"], None, "15"),
            (["257", "9500000000000000"], None, "257"),
            (["16", "--table", "00" * 4097], "exit\n", "the table is not 1 to 4096 bytes"),
            (["16", "95", "--table", "00" * 4097], None, "whole units"),
            (["16", "--table", ""], "exit\n", "the table is not 1 to 4096 bytes"),
            (["16", ""], "exit\n", "the code is not 1 to 4096 whole units"),
            (["16", "9500000000000000", "--table", "000"], None, "hexadecimal"),
        ):
            run = run_tool("edgebpf-explain", *words, text=text)
            self.assertEqual((run.stdout, run.returncode), ("", 2))
            self.assertIn(said, run.stderr)


class OneSourceOfWords(unittest.TestCase):
    def test_the_words_are_those_of_the_crate(self):
        """All eighteen rules are found in the source, in the order of their numbers, and each has words that help."""
        self.assertEqual(len(CAUSES), 18)
        self.assertEqual(CAUSES[11], "bytes may lie outside the record, the table or the frame, or a pointer may leave them")
        self.assertEqual(CAUSES[15], "a function answers a pointer")
        self.assertEqual((sorted(HELP), set(HELP.values()) - set(words_of("Advice"))), (sorted(CAUSES), set()))
        for error, word in enumerate(["no label", "has this word", "earlier", "no line", "range", "4,096", "memory"], 1):
            self.assertIn(word, in_words(f"assembler p error {error} line 3"))
        told = in_words("refused t cause 4 pc 7")
        self.assertTrue(told.startswith("refused at unit 7: a call leads where no instruction starts"), told)
        self.assertTrue(told.endswith("put each function after all that call it, and use no recursion"), told)


if __name__ == "__main__":
    unittest.main()

"""The parts of documents that are written from the sources (`tools/dev/write_parts.py`)."""
import datetime
import pathlib
import re
import sys
import tempfile
import unittest
import unittest.mock
import xml.etree.ElementTree

from tools_here import TOOLS

sys.path.insert(0, str(TOOLS / "dev"))

import draw_house  # noqa: E402
import draw_store  # noqa: E402
import figures  # noqa: E402
import write_manual  # noqa: E402
import write_pages  # noqa: E402
import write_parts  # noqa: E402
import write_rounds  # noqa: E402


class Manual(unittest.TestCase):
    def test_code_within_strong_words(self):
        self.assertEqual(write_manual.inline("**8 `UnsetRegister`.** It reads `r0`."), r"\fB8 UnsetRegister.\fR It reads \fBr0\fR.")


class House(unittest.TestCase):
    """The picture of the crates, by what it has: boxes with names, and lines."""

    @classmethod
    def setUpClass(cls):
        cls.uses = write_pages.uses()
        cls.boxes, _, cls.size = draw_house.house()
        cls.lines = draw_house.reduced(cls.uses)

    def test_each_crate_has_a_box_above_what_it_uses(self):
        top = xml.etree.ElementTree.fromstring(draw_house.picture())
        names = [text.text for text in top.iter("{http://www.w3.org/2000/svg}text") if "class" not in text.attrib]
        self.assertEqual(sorted(names), sorted(self.uses))
        self.assertEqual({crate for crate, used in self.uses.items() for one in used if self.boxes[crate].y >= self.boxes[one].y}, set())

    def test_no_box_lies_over_another_or_outside(self):
        boxes = list(self.boxes.values())
        for place, one in enumerate(boxes):
            self.assertTrue(0 <= one.x and one.x + one.width <= self.size[0] and 0 <= one.y and one.y + draw_house.BOX_HEIGHT <= self.size[1], one.name)
            for other in boxes[place + 1:]:
                self.assertTrue(one.y != other.y or one.x + one.width <= other.x or other.x + other.width <= one.x, f"{one.name} and {other.name}")

    def test_lines_lead_to_all_that_is_used_and_to_nothing_else(self):
        def reached(crate, lines):
            return set(lines[crate]).union(*(reached(one, lines) for one in lines[crate]))

        for crate, used in self.uses.items():
            self.assertEqual(reached(crate, self.lines), reached(crate, self.uses), crate)
            self.assertLessEqual(set(self.lines[crate]), set(used))
        self.assertEqual(draw_house.picture().count("<path "), sum(map(len, self.lines.values())))
        # By hand: service has script, which has all else that it uses; script_model has session_model alone of its own.
        self.assertEqual((self.lines["service"], self.lines["script_model"]), (["script"], ["session_model"]))

    def test_kinds(self):
        kinds = {crate: draw_house.kind_of(crate) for crate in self.uses}
        self.assertEqual({crate for crate, kind in kinds.items() if kind == "ends"}, {"edgebpf", "edgebpf_explain", "edgebpf_c"})
        self.assertEqual({crate for crate, kind in kinds.items() if kind == "tests"}, {"test_calls", "test_program_rows", "test_script_rows", "test_refused_calls"})

    def test_parts_of_the_architecture(self):
        """Its table names each crate once."""
        page = (TOOLS.parent / "docs/ARCHITECTURE.md").read_text().partition("## What exists")[2].partition("\n## ")[0]
        self.assertEqual(sorted(re.findall(r"`(\w+)`", page)), sorted(self.uses))


class Parts(unittest.TestCase):
    def test_first_sentences(self):
        for docs, first in (
            ("The empty set.", "The empty set."),
            ("What is left. It ends `here. not`.", "What is left."),
            ("A hold (as `Pin.share` makes one. Or two) on `a.b`. More.", "A hold (as `Pin.share` makes one. Or two) on `a.b`."),
            ("Below 2.5 of it. Then", "Below 2.5 of it."),
            ("At most [`PLACES`] words | or none. More", "At most `PLACES` words \\| or none."),
            ("No full stop", "No full stop"),
        ):
            self.assertEqual(write_parts.first_sentence(docs), first)

    def test_clauses_stand_under_the_name_of_their_function(self):
        shown = write_parts.clauses(write_pages, "crates/verifier/src/verified.rt image.sound bound.few")
        self.assertEqual(shown, ["```", "Verified::image:", "    ensures sound { NeverGoesWrong self.now }", "Verified::bound:",
                                 "    ensures few { result ≤ most_counted }", "```"])

    def test_a_file_from_a_line_to_another(self):
        shown = write_parts.file(write_pages, "examples/first.script batch A ... + 0 2")
        self.assertEqual(shown, ["```", "batch A", "+ 0 1", "+ 0 2", "```"])

    def test_the_rounds_of_a_script(self):
        """By hand: the steps from vertex 0 over 0-1, 0-2, 1-3, 2-3 and 3-0, and the vertices that go if each has to keep two neighbours."""
        shown = write_parts.KINDS["rounds"](write_pages, "examples/search.script steps - push")
        self.assertEqual([line.split() for line in shown[1:-1]], [
            ["round", "frontier", *"01234"], ["0", *"0----"], ["1", "0", "0", "+1", "+1", "-", "-"], ["2", "1", "2", "0", "1", "1", "+2", "-"], ["3", "3", *"0112-"],
        ])
        shown = write_parts.KINDS["rounds"](write_pages, "examples/cores.script left gone each goes")
        frontiers = [line[7:7 + write_rounds.FRONTIER_WIDTH].strip() for line in shown[3:-1]]
        self.assertEqual(frontiers, ["7", "4 5 6", "3", "none", "0 1 2"])

    def test_figures_of_a_file(self):
        with tempfile.TemporaryDirectory() as folder, unittest.mock.patch.object(figures, "FIGURES", pathlib.Path(folder)):
            figures.write("one", ("What", "Seconds"), [("a run", "0.5"), ("a list", "2")], "2026-11-30, commit 12345678, load 2")
            shown = write_parts.figures(write_pages, "one")
            self.assertEqual(shown, ["", "Measured on 2026-11-30, commit 12345678, load 2:", "", "| What | Seconds |", "|---|---|", "| a run | 0.5 |", "| a list | 2 |", ""])
            figures.write("two", ("What",), [("a run",)], "Each row has its day")
            self.assertEqual(write_parts.figures(write_pages, "two"), ["", "Each row has its day:", "", "| What |", "|---|", "| a run |", ""])
            figures.add("one", ["a pin", ""])
            self.assertTrue((pathlib.Path(folder) / "one.txt").read_text().endswith("\na list | 2\na pin | -\n"))
            self.assertEqual(figures.read("one")[2], [["a run", "0.5"], ["a list", "2"], ["a pin", ""]])
            figures.write("one", ("What", "Seconds"), [("a run",)])
            self.assertRegex((pathlib.Path(folder) / "one.txt").read_text(), r"^20\d\d-\d\d-\d\d, commit [0-9a-f]{8,}, load \d+\nWhat \| Seconds\na run\n$")
            with self.assertRaisesRegex(ValueError, "a run has not as many cells"):
                figures.read("one")

    def test_what_is_not_measured_stays(self):
        """By the name of the row: a limit stays, a row that is new has none, and one that is no longer measured goes."""
        with tempfile.TemporaryDirectory() as folder, unittest.mock.patch.object(figures, "FIGURES", pathlib.Path(folder)):
            figures.write("one", ("What", "Here", "Limit"), [("a run", "0.5", "2"), ("a pin", "1", "3")], "then")
            figures.update("one", {"a list": {"Here": "7"}, "a run": {"Here": "0.4"}}, "now")
            self.assertEqual(figures.read("one"), ("now", ["What", "Here", "Limit"], [["a list", "7", ""], ["a run", "0.4", "2"]]))

    def test_figures_that_miss_a_limit(self):
        heads, rows = ["What", "Time", "Ratio"], [["a run of 90", "1,000.5 and 7", "0.31"], ["a list", "2:30", "0.2: 5 of `x9`"], ["a list again", "", "0.5"]]
        for limit, found in (
            ("@ Ratio <= 0.30", [["1,000.5 and 7", "**0.31**"], ["2:30", "0.2: **5** of `x9`"], ["", "**0.5**"]]),
            ("a run <= 7", [["**1,000.5** and 7", "0.31"], ["2:30", "0.2: 5 of `x9`"], ["", "0.5"]]),
            ("a list @ Ratio <= 0.4", [["1,000.5 and 7", "0.31"], ["2:30", "0.2: **5** of `x9`"], ["", "**0.5**"]]),
        ):
            self.assertEqual(write_parts.judged(heads, rows, limit), [[row[0], *cells] for row, cells in zip(rows, found)], limit)
            self.assertEqual(write_parts.judged(heads, rows, f"{limit} : {limit}"), write_parts.judged(heads, rows, limit))
        for limit in ("@ Speed <= 1", "a pin <= 1", "a run <= @ Speed"):
            with self.assertRaisesRegex(LookupError, "no figure is judged"):
                write_parts.judged(heads, rows, limit)
        with self.assertRaisesRegex(LookupError, "no rule for bold figures: a run <="):
            write_parts.judged(heads, rows, "a run <=")

    def test_figures_that_miss_another_column(self):
        """At a place of the cell, or so many times the figure at the same place; where there is none, at the last one or not at all."""
        heads, rows = ["Graph", "Here", "v3 : v2", "Wanted"], [["4", "30; 20", "0.6; 0.3", "0.5; 0.2"], ["14", "30; 20; 25", "0.6", "10; 22"], ["76", "30", "9", ""]]
        for words, found in (
            ("@ v3 : v2 <= 1 @ Wanted", [["30; 20", "**0.6**; **0.3**"], ["30; 20; 25", "0.6"], ["30", "9"]]),
            ("@ v3 : v2 [2] <= 1.5 @ Wanted", [["30; 20", "0.6; 0.3"], ["30; 20; 25", "0.6"], ["30", "9"]]),
            ("@ v3 : v2 <= 1.25 @ Wanted", [["30; 20", "0.6; **0.3**"], ["30; 20; 25", "0.6"], ["30", "9"]]),
            ("@ Here <= @ Wanted : 76 [1] >= 31", [["**30**; **20**", "0.6; 0.3"], ["**30**; 20; **25**", "0.6"], ["**30**", "**9**"]]),
            ("14 @ Here[2] <= @ Wanted[1] : @ Here [1] >= 31", [["**30**; 20", "0.6; 0.3"], ["**30**; **20**; 25", "0.6"], ["**30**", "9"]]),
        ):
            self.assertEqual([row[1:3] for row in write_parts.judged(heads, rows, words)], found, words)
        self.assertEqual(write_parts.judged(["", "Here", "Peer"], [["a run", "0.028; 0.029", "0.02"]], "@ Here <= 1.4 @ Peer"), [["a run", "0.028; **0.029**", "0.02"]])

    def test_counts_grow(self):
        heads = ("Test", "Count", "Of them", "Last", "By")
        rows = [("a script", "1,500", "", "2026-11-29", "x"), ("a store", "9", "4", "2026-11-29", "y"), ("a call", "2 million", "", "", "")]
        with tempfile.TemporaryDirectory() as folder, unittest.mock.patch.object(figures, "FIGURES", pathlib.Path(folder)):
            figures.write("some", heads, rows, "then")
            today = str(datetime.date.today())
            for row, number, newer, found in (
                ("a script", 500, False, ["2,000", ""]), ("a store", 1, False, ["10", "5"]), ("a store", 7, True, ["17", "7"]), ("a script", 8, True, ["2,008", "8"]),
            ):
                figures.count("some", row, number, newer)
                self.assertIn([row, *found, today], [cells[:4] for cells in figures.read("some")[2]])
            for row, words in (("a", "3 rows"), ("none", "0 rows"), ("a call", "no counts")):
                with self.assertRaisesRegex(SystemExit, words):
                    figures.count("some", row, 1, False)
            self.assertEqual(figures.read("some")[0], "then")

    def test_quoted_rows(self):
        """Columns of another page's table, in the order that is asked for, and of them the rows that begin so."""
        page = "| A | B | C |\n|---|---|---|\n| one | 1 | `x` |\n| two | 2 | y |\n\n| B | D |\n|---|---|\n| 7 | 8 |\n"
        with tempfile.TemporaryDirectory() as folder:
            pathlib.Path(folder, "page.md").write_text(page)
            pages = unittest.mock.Mock(TOP=pathlib.Path(folder))
            self.assertEqual(write_parts.quote(pages, "page.md C | A"), ["", "| C | A |", "|---|---|", "| `x` | one |", "| y | two |", ""])
            self.assertEqual(write_parts.quote(pages, "page.md A | B : two")[3:-1], ["| two | 2 |"])
            self.assertEqual(write_parts.quote(pages, "page.md B | D")[3:-1], ["| 7 | 8 |"])
            for wrong in ("page.md A | B : three", "page.md A | D"):
                with self.assertRaises((LookupError, StopIteration)):
                    write_parts.quote(pages, wrong)

    def test_a_quoted_table_that_is_made(self):
        """It is quoted as it will be written, not as it stood."""
        page = "<!-- made: figures one -->\n| A | B |\n|---|---|\n| old | 1 |\n<!-- end -->\n"
        with tempfile.TemporaryDirectory() as folder, unittest.mock.patch.object(figures, "FIGURES", pathlib.Path(folder)):
            pathlib.Path(folder, "page.md").write_text(page)
            figures.write("one", ("A", "B"), [("new", "2")], "then")
            self.assertEqual(write_parts.quote(unittest.mock.Mock(TOP=pathlib.Path(folder)), "page.md B | A")[3:-1], ["| 2 | new |"])

    def test_a_part_of_a_file_by_its_name(self):
        shown = write_parts.part(write_pages, "examples/refused.c data")
        self.assertEqual((shown[0], shown[1], shown[-1]), ("```c", "// no code: data", "```"))
        self.assertNotIn("// [", "\n".join(write_parts.part(write_pages, "examples/refused.c loops")))

    def test_pictures_of_the_store(self):
        """Each box is a type of the sources, within the picture, and none lies over another."""
        for name, drawing in (("version", draw_store.version), ("threads", draw_store.threads)):
            top = xml.etree.ElementTree.fromstring(drawing())
            self.assertEqual(drawing(), (TOOLS.parent / "docs" / f"{name}.svg").read_text())
            places = [tuple(int(rect.get(key)) for key in ("x", "y")) for rect in top.iter("{http://www.w3.org/2000/svg}rect") if rect.get("x")]
            self.assertGreater(len(places), 10)
            for x, y in places:
                self.assertLess(x + draw_store.WIDTH, int(top.get("width")))
                self.assertLess(y + draw_store.HEIGHT, int(top.get("height")))
                over = [one for one in places if abs(one[0] - x) < draw_store.WIDTH and abs(one[1] - y) < draw_store.HEIGHT]
                self.assertEqual(over, [(x, y)])
        with self.assertRaisesRegex(LookupError, "no source of store has a type Nothing"):
            draw_store.name_of(draw_store.Box("store::Nothing", "", 0, 0))

    def test_places_that_name_a_word(self):
        shown = "\n".join(write_parts.follow(write_pages, "bpf_isa::MoveSigned : " + "mov" + "sx"))
        for said in ("- `bpf_model`: `specs/Step`: effect\n", "`specs/Encoding`: fields_of, spelling", "`src`: alu, effect\n"):
            self.assertIn(said, shown)
        self.assertIn("\n- outside: `bindings/python/edgebpf/programs.py`", shown)

    def test_places_have_the_crate_of_the_item_and_those_above(self):
        """The word stands in crates below, beside and above: an item is looked for where it can be named."""
        shown = "\n".join(write_parts.follow(write_pages, "script::list_of"))
        self.assertIn("- `script`: ", shown)
        self.assertTrue(re.search(r"\blist_of\b", (TOOLS.parent / "crates/vertex_block/src/block.rt").read_text()))
        self.assertNotIn("vertex_block", shown)
        for wrong in ("list_of", "no_crate::list_of"):
            with self.assertRaises(LookupError):
                write_parts.follow(write_pages, wrong)

    def test_a_part_without_words_ends_at_its_own_end(self):
        text = "<!-- made: reading -->\n<!-- end -->\nbetween\n<!-- made: file examples/first.output -->\n<!-- end -->\n"
        self.assertIn("<!-- end -->\nbetween\n<!-- made: file", write_parts.written(write_pages, text))

    def test_parts_that_are_there_are_written_again(self):
        text = "before\n<!-- made: file examples/first.output -->\nold\n<!-- end -->\nafter\n"
        new = write_parts.written(write_pages, text)
        self.assertTrue(new.startswith("before\n<!-- made: file examples/first.output -->\n```\ngraph 4\n"))
        self.assertTrue(new.endswith("row 1 2\n```\n<!-- end -->\nafter\n"))
        self.assertEqual(write_parts.written(write_pages, new), new)

    def test_functions_for_c_are_public_calls(self):
        exports = re.findall(r"^uint32_t (\w+)\(|^void (\w+)\(", (TOOLS.parent / "bindings/c/edgebpf.h").read_text(), re.M)
        items = [item for _, item in write_pages.public_items("edgebpf_c")]
        self.assertEqual(sorted(item.name for item in items), sorted(one or other for one, other in exports))
        self.assertTrue(all(write_pages.line_of(item).startswith(f"- `{item.name}(alloc: Global, ") for item in items))

    def test_a_call_without_a_clause_says_so(self):
        items = {item.name: item for _, item in write_pages.public_items("workers")}
        said = {part.name: part.docs.endswith(" " + write_pages.NO_CLAUSE) for name in ("HoldingGate", "Workers") for part in items[name].parts}
        self.assertEqual(said, {"until": True, "entered": True, "left": True, "in_vain": True, "new": False, "one": False, "count": False})

    def test_laws_stand_under_laws(self):
        page = write_pages.contracts()
        for crate, law in (("bpf_model", "swap_twice"), ("verifier", "step_describes"), ("store_model", "nothing_lost")):
            section = page.split(f"## `{crate}`\n")[1].split("\n## ")[0]
            self.assertIn(f"- `{law}(", section.split("### `laws`")[1], law)


if __name__ == "__main__":
    unittest.main()

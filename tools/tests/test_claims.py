"""What documents name of the crates is there: the wrong bodies of docs/GATE.md with the edits, laws and rows that refuse them, the definitions of
docs/HEADLINE.md, and the calls whose words docs/CONTRACTS.md takes back."""
import re
import unittest

import documents

CRATES = documents.ROOT / "crates"
# Wrong bodies that something in the gate has to refuse by name, each with its crate and edit, its crate and law, or a row of test_program_rows.
EDITS = {
    "bpf_machine/r1_left_set_after_a_helper", "verifier/argument_known_after_a_helper", "shards/changed_list_shared", "shards/edited_page_shared",
    "store/earlier_version_pinned", "store/earlier_epoch_pinned", "session/pin_of_another_epoch", "bpf_runs/table_written",
    "bpf_blocks/table_read_a_byte_early", "verifier/gather_is_no_write", "bpf_runs/words_gathered_without_a_limit",
}
ROWS = {
    "a bad address is masked into the record", "a bad address is masked into a frame", "a bad address is masked into the table",
    "the weight of a function counts once, however often it is called", "the count of a shift is not masked in a run",
    "the count of a shift is not masked in the verifier", "fuel is tested after a step", "a caller's R6 stays as its function left it",
    "a jump back is accepted", "falling off the end is not seen", "a caller's frame does not count in a run",
    "a caller's frame does not count in the verifier",
}
# The same of test_script_rows.
ROWS_OF_SCRIPTS = {"a push reduces each number into its edge's source", "a push reads what it writes", "a pull reads what it writes"}
# So many lines of definitions are to be believed at most.
MOST_TO_READ = 1_250


def page(name):
    return (documents.ROOT / "docs" / name).read_text()


def rows_under(text, heading):
    """The cells of the first table after a heading, without its head."""
    lines = text.partition(f"\n{heading}\n")[2].splitlines()
    table = lines[next(at for at, line in enumerate(lines) if line.startswith("|")):]
    rows = [line.strip("|").split(" | ") for line in table[:next((at for at, line in enumerate(table) if not line.startswith("|")), len(table))]]
    return [[cell.strip() for cell in row] for row in rows[2:]]


def words_of(cell):
    return re.findall(r"`([^`]+)`", cell)


class WrongBodies(unittest.TestCase):
    def test_edits(self):
        """Each edit that the page names for a wrong body is a file, and no wrong body of the list is missing."""
        cells = [refusal for _, refusal in rows_under(page("GATE.md"), "## Wrong bodies that stay")]
        named, folder = set(), ""
        for word in (word for cell in cells for word in words_of(cell)):
            crate, slash, name = word.rpartition("/")
            folder = crate if slash and not crate.startswith(".") else folder
            if (CRATES / folder / "must-fail" / f"{name}.edit").exists():
                named.add(f"{folder}/{name}")
        self.assertEqual(named, EDITS)

    def test_laws(self):
        """Each law that stands in place of edits is a function of its crate's laws."""
        crate, count = "", 0
        for first, _, cell in rows_under(page("GATE.md"), "## Laws in place of edits"):
            crate = (words_of(first) or [crate])[0]
            text = "".join(path.read_text() for path in (CRATES / crate / "src").glob("*laws.rt"))
            for law in words_of(cell):
                self.assertIn(f"pub fn {law}(", text, crate)
                count += 1
        self.assertEqual(count, 22)

    def test_rows(self):
        """Each row that stands in place of an edit is one of test_program_rows, with this answer."""
        lines = (CRATES / "test_program_rows" / "stdin").read_text().splitlines()
        found = rows_under(page("GATE.md"), "## Rows in place of edits")
        self.assertEqual({body for body, _, _ in found}, ROWS)
        for _, row, answer in found:
            section = words_of(row)[1:]
            begun = next(at for at, line in enumerate(lines) if line.startswith(f"%% {section[0]}:")) if section else 0
            self.assertIn(f"{words_of(row)[0]} | {words_of(answer)[0]}", lines[begun:])

    def test_rows_of_scripts(self):
        """Each row of test_script_rows that stands in place of an edit has this line in its answer, and the clause is of its crate."""
        text = (CRATES / "test_script_rows" / "stdin").read_text()
        found = rows_under(page("GATE.md"), "### Rows of scripts in place of edits")
        self.assertEqual({body for body, *_ in found}, ROWS_OF_SCRIPTS)
        for _, clause, row, answer in found:
            rest = text.partition(f"\n%% {words_of(row)[0]}\n")[2].partition("\n%% ")[0]
            self.assertIn(words_of(answer)[0], rest.partition("\n%=\n")[2].splitlines())
            name, crate = words_of(clause)[:2]
            files = [path for part in ("src", "specs") for path in (CRATES / crate / part).rglob("*") if path.suffix in (".rt", ".antt")]
            self.assertTrue(any(re.search(rf"(?m)^(pub fn|abbrev pub) {name}\b", path.read_text()) for path in files), name)


class Definitions(unittest.TestCase):
    def test_what_stands_outside_of_the_list(self):
        """Each definition that the page names beside its reading list stands in the file that it names."""
        rows = rows_under(page("HEADLINE.md"), "The clauses of this page also name what stands here, outside of the list:")
        self.assertGreaterEqual(len(rows), 9)
        for names, files, _ in rows:
            text = "".join((CRATES / path).read_text() for path in words_of(files))
            for name in words_of(names):
                self.assertRegex(text, rf"(?m)^(unfoldable )?(abbrev pub|pub record|record pub|pub abbrev) {name}\b")

    def test_the_reading_list_is_short(self):
        """The files of the list have a number each, and are no more to read together than a person may be asked for."""
        rows = rows_under(page("HEADLINE.md"), "<!-- made: reading -->")
        counts = [int(to_read) for number, _, _, to_read, _ in rows if number]
        self.assertGreater(len(counts), 30)
        self.assertEqual([int(to_read) for _, name, _, to_read, _ in rows if name == "**In all**"], [sum(counts)])
        self.assertLessEqual(sum(counts), MOST_TO_READ)

    def test_words_without_a_clause(self):
        """Each call whose words the page takes back is on it."""
        head, _, text = page("CONTRACTS.md").partition("\n## ")
        calls = [call for cell, _ in rows_under("\n" + head, "Some words say more than their clauses:") for call in words_of(cell)]
        self.assertGreaterEqual(len(calls), 9)
        for call in calls:
            self.assertRegex(text, rf"`{call}[<(]")


class Memory(unittest.TestCase):
    def test_what_the_header_says_of_the_heap(self):
        """The type and the three functions that a host may define are those of heap.c."""
        header = (documents.ROOT / "bindings/c/edgebpf.h").read_text()
        heap = (documents.ROOT / "bindings/c/heap.c").read_text()
        said = re.findall(r"`(typedef struct [^`]*;|[a-z]+ rattle_[^`]*)`", " ".join(header.split()))
        self.assertEqual(len(said), 4)
        for declaration in said:
            self.assertIn(declaration, heap)

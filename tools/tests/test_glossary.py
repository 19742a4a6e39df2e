"""docs/GLOSSARY.md: each name that it gives to a word is in the sources, and no page and no public name has a word that it has another for, unless it
is listed there. A line of its lists that nothing needs any more fails as well."""
import ast
import re
import subprocess
import unittest

import documents
from tools_here import TOOLS

TOP = TOOLS.parent
PAGE = documents.ROOT / "docs/GLOSSARY.md"
PARTS = ("Graphs and versions", "Programs", "What goes wrong", "How we know it")
KINDS = r"pub (?:const )?(?:unsafe )?(?:struct|enum|trait|fn|const|type)"


def tables():
    """The rows of each table of the page, by its heading."""
    found = {}
    for part in re.split(r"^## ", PAGE.read_text(), flags=re.M)[1:]:
        title, _, text = part.partition("\n")
        found[title] = [[cell.strip() for cell in line.strip("|").split("|")] for line in text.splitlines() if line.startswith("|")][2:]
    return found


def names_in(cell):
    return re.findall(r"`([^`]+)`", cell)


def is_there(name):
    """Whether a name of the third column is in the sources: crate::Item, a name of the header for C, or a path."""
    if "::" in name:
        crate, item = name.split("::")
        sources = (TOP / "crates" / crate / "src").rglob("*.rt")
        return any(re.search(rf"^\s*{KINDS} {item}\b", path.read_text(), re.M) for path in sources)
    if name.startswith("edgebpf_"):
        return re.search(rf"\b{name}\b(?=[ (;{{])", (TOP / "bindings/c/edgebpf.h").read_text()) is not None
    return (TOP / name).exists()


def tracked(*patterns):
    run = subprocess.run(["git", "ls-files", *patterns], cwd=TOP, capture_output=True, text=True)
    return [TOP / name for name in run.stdout.split()]


def prose(text):
    """A page without its code."""
    return re.sub(r"`[^`\n]*`", "", re.sub(r"^```.*?^```", "", text, flags=re.M | re.S))


def parted(name):
    """A name as words: of `edgebpf_store_new`, `RunSome` or `MOST_EDITS`."""
    return re.sub(r"(?<=[a-z0-9])(?=[A-Z])", " ", name).replace("_", " ").lower()


def public_names(path):
    """The public names of a source, as words."""
    text = path.read_text()
    if path.suffix == ".rt" or path.suffix == ".rs":
        found = re.findall(rf"^\s*{KINDS} (\w+)", text, re.M)
    elif path.suffix == ".h":
        found = re.findall(r"\b(edgebpf_\w+)(?=[ (;])|#define (\w+)|^ +(EDGEBPF_\w+)", text, re.M)
        found = [one or other or third for one, other, third in found]
    else:
        nodes = [node for node in ast.walk(ast.parse(text)) if isinstance(node, (ast.ClassDef, ast.FunctionDef, ast.AsyncFunctionDef))]
        found = [node.name for node in nodes if not node.name.startswith("_")]
    return "\n".join(map(parted, found))


def said():
    """What each page says in prose, and each source by its public names, by its path."""
    pages = {path: prose(path.read_text()) for path in tracked("*.md") if path != PAGE}
    sources = tracked("crates/*/src/*.rt", "bindings/c/*.h", "bindings/rust/src/*.rs", "bindings/python/edgebpf/*.py", "tools/edgebpf_client.py")
    return {str(path.relative_to(TOP)): text for path, text in {**pages, **{path: public_names(path) for path in sources}}.items()}


def is_within(path, place):
    return path == place or path.startswith(place + "/")


class Glossary(unittest.TestCase):
    @classmethod
    def setUpClass(cls):
        cls.tables = tables()
        cls.rows = [row for title in PARTS for row in cls.tables[title]]

    def test_its_words(self):
        """Each word is said in other pages, has a name in the sources, and stands in one row."""
        words = [word for row in self.rows for word in row[0].split(", ")]
        self.assertEqual(len(words), len(set(words)))
        self.assertGreater(len(words), 50)
        texts = [prose(path.read_text()) for path in tracked("*.md") if path != PAGE]
        for word in words:
            pattern = re.compile(rf"\b{word.removeprefix('the ').removesuffix(' that must fail')}", re.I)
            self.assertGreaterEqual(sum(bool(pattern.search(text)) for text in texts), 2, word)
        for word, _, cell, _ in self.rows:
            self.assertTrue(names_in(cell), word)
            for name in names_in(cell):
                self.assertTrue(is_there(name), f"{word}: {name}")

    def test_what_is_not_said(self):
        """No page and no public name has a word of the last column, but in the other sense that is listed for it."""
        others = {}
        for word, places, _ in self.tables["Words in another sense"]:
            others.setdefault(word, []).extend(names_in(places))
        rejected = {word: row[0] for row in self.rows for word in row[3].split(", ") if word}
        self.assertGreater(len(rejected), 20)
        self.assertLessEqual(set(others), set(rejected))
        found, texts = {}, said()
        self.assertGreater(len(texts), 400)
        pattern = re.compile(rf"\b({'|'.join(rejected)})s?\b", re.I)
        for path, text in texts.items():
            for word in {word.lower() for word in pattern.findall(text)}:
                found.setdefault(word, []).append(path)
        left, gone = [], []
        for word in rejected:
            paths, listed = found.get(word, []), others.get(word, [])
            left += [f"{path}: {word}, for {rejected[word]}" for path in paths if not any(is_within(path, place) for place in listed)]
            gone += [f"{place}: {word}" for place in listed if not any(is_within(path, place) for path in paths)]
        self.assertEqual((left, gone), ([], []))

    def test_second_names(self):
        """What the page says to have another name still has it there."""
        words = [word for row in self.rows for word in row[0].split(", ")] + ["store"]
        rows = self.tables["Second names"]
        self.assertGreaterEqual(len(rows), 5)
        for word, other, place in rows:
            self.assertIn(word, words)
            self.assertRegex((TOP / names_in(place)[0]).read_text(), rf"(?<!\w){re.escape(names_in(other)[0])}\b")


if __name__ == "__main__":
    unittest.main()

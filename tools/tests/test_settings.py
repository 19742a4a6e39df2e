"""The files of the repository are as `.editorconfig` sets editors: bytes, ends of lines, blanks at their ends, and what indents them."""
import configparser
import fnmatch
import itertools
import re
import subprocess
import unittest

from tools_here import TOOLS

TOP = TOOLS.parent
PICTURES = (".png",)
SETTINGS = {"charset", "end_of_line", "insert_final_newline", "trim_trailing_whitespace", "indent_style", "indent_size"}


def spelled(pattern):
    """The patterns that one with words in braces stands for."""
    parts = [part.split(",") for part in re.split(r"[{}]", pattern)]
    # Outside of braces a comma is none of a list.
    parts = [part if place % 2 else [",".join(part)] for place, part in enumerate(parts)]
    return ["".join(words) for words in itertools.product(*parts)]


def settings():
    """(pattern, settings) of each part of the file, in order: later ones are stronger."""
    text = (TOP / ".editorconfig").read_text()
    parser = configparser.ConfigParser()
    parser.read_string("[DEFAULT OF ALL]\n" + text)
    return [(pattern, dict(parser[pattern])) for pattern in parser.sections() if pattern != "DEFAULT OF ALL"]


def settings_of(name, known):
    """What holds for a file. A pattern with a slash is one of whole paths."""
    found = {}
    for pattern, part in known:
        if any(fnmatch.fnmatchcase(name if "/" in one else name.rpartition("/")[2], one) for one in spelled(pattern)):
            found |= part
    return {key: value for key, value in found.items() if value != "unset"}


def wrong(text, wanted):
    """What of a file is not as its settings say."""
    indented = re.findall(r"^([ \t]+)\S", text, re.M)
    return [words for words, is_so in (
        ("carriage returns", "\r" in text), ("no line feed at the end", text and not text.endswith("\n")),
        ("blanks at the end of a line", "trim_trailing_whitespace" in wanted and re.search(r"[ \t]+$", text, re.M)),
        ("tabs", wanted.get("indent_style") == "space" and any("\t" in blanks for blanks in indented)),
        ("no tabs", wanted.get("indent_style") == "tab" and not any(blanks.startswith("\t") for blanks in indented)),
    ) if is_so]


class Settings(unittest.TestCase):
    def test_patterns(self):
        known = [("*", {"a": "1"}), ("*.{c,h}", {"b": "2"}), ("x/{y,z}/in", {"a": "unset"})]
        for name, found in (("x.py", {"a": "1"}), ("deep/x.h", {"a": "1", "b": "2"}), ("x/z/in", {}), ("x/y/other", {"a": "1"})):
            self.assertEqual(settings_of(name, known), found, name)

    def test_what_is_wrong(self):
        spaces, tabs = {"trim_trailing_whitespace": "true", "indent_style": "space"}, {"indent_style": "tab"}
        for text, wanted, found in (
            ("a\n    b\n", spaces, []), ("a \n", spaces, ["blanks at the end of a line"]), ("\ta\n", spaces, ["tabs"]), ("a", {}, ["no line feed at the end"]),
            ("a\r\n", {}, ["carriage returns"]), ("a:\n\tb\n", tabs, []), ("a:\n    b\n", tabs, ["no tabs"]),
        ):
            self.assertEqual(wrong(text, wanted), found, text)

    def test_each_file(self):
        run = subprocess.run(["git", "ls-files", "-z"], cwd=TOP, capture_output=True, text=True)
        if run.returncode:
            self.skipTest("this is no checkout of git's")
        known, found = settings(), {}
        self.assertEqual({key for _, part in known for key in part}, SETTINGS)
        names = [name for name in run.stdout.split("\0")[:-1] if not name.endswith(PICTURES) and (TOP / name).is_file()]
        self.assertGreater(len(names), 1_000)
        for name in names:
            # Text of another encoding raises.
            if words := wrong((TOP / name).read_bytes().decode(), settings_of(name, known)):
                found[name] = words
        self.assertEqual(found, {})
        for pattern, _ in known:
            self.assertTrue(any(fnmatch.fnmatchcase(name if "/" in one else name.rpartition("/")[2], one) for one in spelled(pattern) for name in names), pattern)


if __name__ == "__main__":
    unittest.main()

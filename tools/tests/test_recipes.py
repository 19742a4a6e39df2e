"""docs/RECIPES.md names the files that the last changes of its kinds needed: each of these commits is held to its recipe."""
import functools
import re
import subprocess
import unittest

from tools_here import TOOLS

TOP = TOOLS.parent
PAGE = TOP / "docs" / "RECIPES.md"
GENERAL = "How to follow a change"
# The kinds of change that have been made since the recipes, with files that the commit changed for another reason.
REPLAYED = {
    "How to add a command": {
        "720e153e": [],
        # Columns were new, so a session keeps one thing more; what reads names and numbers moved into files of its own.
        "ebc17af6": [
            "crates/script/src/reading.rt", "crates/script/src/reading/hex.rt", "crates/script/src/reading/names.rt", "crates/session/src/frontier.rt",
            "crates/session/src/runs.rt", "crates/session_model/specs/Session.antt", "crates/session_model/src/limits.rt",
        ],
        "121f2891": [],
    },
    # What three weights had in common became one definition. The number of a cause stood in two crates then.
    "A new cause of refusal": {"4fc6fea2": ["crates/verifier/specs/Walks.antt", "crates/script_model/specs/Texts.antt"]},
}
# Of a limit the recipe searches for its name and its digits: what stood before the commit.
SEARCHED = {
    # The cookbook had arrays of the most vertices, and a limit of memory is met that was none before.
    "6bec692c": (["MOST_VERTICES", "1,048,576", "1_048_576", "1048576", "2^20", "20 bits"], ["docs/COOKBOOK.md", "docs/EMBEDDING.md", "examples/cookbook/load.h"]),
}
# The prover names a proof that fails, and the gate a generated page. A file that is new is declared beside it.
BY_OTHERS = re.compile(
    r"crates/\w+/(proofs/|must-fail/|README\.md$|specs/Lib\.antt$|src/lib\.rt$)|CHANGELOG\.md$|README\.md$|dist/"
    r"|docs/(figures/|(CONTRACTS|DEFINITIONS|CRATES|DECISIONS|HEADLINE|GATE|PROVED|SPEED|SPEED_NOTES|GLOSSARY|LIMITS)\.md)"
)


def git(*words):
    return subprocess.run(["git", *words], cwd=TOP, capture_output=True, text=True)


def sections():
    """Each part of the page under its heading."""
    parts = re.split(r"^##+ (.*)\n", PAGE.read_text(), flags=re.M)
    return dict(zip(parts[1::2], parts[2::2]))


def listed(line):
    """The files of one line of a made list: of a crate, or outside of all."""
    crate, _, rest = line.removeprefix("- ").partition(": ")
    if crate == "outside":
        return re.findall(r"`([^`]+)`", rest)
    folder, found = f"crates/{crate.strip('`')}", []
    for cell in rest.split("; "):
        part, _, names = cell.partition(": ")
        part = part.strip("`")
        if part.startswith("specs/"):
            found.append(f"{folder}/{part}.antt")
        else:
            ending = {"src": ".rt", "proofs": ".antt"}[part]
            found += [f"{folder}/{part}/{name}" + ("" if name.endswith("/") else ending) for name in names.split(", ")]
    return found


@functools.cache
def tracked():
    return git("ls-files").stdout.split()


def in_prose(text):
    """The files that words in backticks name: by path, by name, as a crate or a folder."""
    for word in re.findall(r"`([^`\n]+)`", text):
        yield from (path for path in tracked() if path == word or path.endswith(f"/{word}") or path.startswith((f"crates/{word}/", f"{word.rstrip('/')}/")))
        yield from (path for path in tracked() if re.fullmatch(rf"crates/\w+/(src/)?{re.escape(word)}\.(rt|antt)", path))


def named(text):
    """All files that a part of the page names."""
    made = re.compile(r"^<!-- made: follow [^\n]*\n(.*?)^<!-- end -->", re.S | re.M)
    lists = [line for found in made.findall(text) for line in re.sub(r"\n +", " ", found).splitlines() if line]
    return {path for line in lists for path in listed(line)} | {*in_prose(made.sub("", text))}


class Recipes(unittest.TestCase):
    maxDiff = None

    def changed(self, commit):
        """The files that a commit changed, are there today, and that no other check names."""
        shown = git("show", "--name-only", "--format=", commit)
        if shown.returncode:
            self.skipTest(f"this clone has no commit {commit}")
        return [path for path in shown.stdout.split() if (TOP / path).exists() and not BY_OTHERS.match(path)]

    def test_each_file_that_is_listed_is_there(self):
        for heading, text in sections().items():
            for path in named(text):
                self.assertTrue((TOP / path).exists(), f"{heading}: {path}")

    def test_the_last_changes_are_in_their_recipes(self):
        parts = sections()
        for heading, commits in REPLAYED.items():
            files = named(parts[heading]) | named(parts[GENERAL])
            for commit, of_it_alone in commits.items():
                with self.subTest(heading=heading, commit=commit):
                    self.assertEqual([], [path for path in self.changed(commit) if path not in files and path not in of_it_alone])

    def test_a_limit_is_found_by_its_name_and_digits(self):
        for commit, (words, of_it_alone) in SEARCHED.items():
            with self.subTest(commit=commit):
                changed = self.changed(commit)
                patterns = [word for each in words for word in ("-e", each)]
                found = git("grep", "-lF", *patterns, f"{commit}^").stdout.replace(f"{commit}^:", "").split()
                self.assertEqual([], [path for path in changed if path not in found and path not in of_it_alone])


if __name__ == "__main__":
    unittest.main()

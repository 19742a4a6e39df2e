"""docs/OPERATING.md names what is there: each metric of the service and no other, options, tests, constants, calls and statuses; and no figure is typed."""
import re
import sys
import unittest

import documents
from tools_here import TOOLS

sys.path.insert(0, str(TOOLS / "dev"))

import write_limits  # noqa: E402
import write_parts  # noqa: E402
import write_service  # noqa: E402

TOP = TOOLS.parent
PAGE = (documents.ROOT / "docs/OPERATING.md").read_text()
WORDS = set(re.findall(r"`([^`\n]+)`", PAGE))
MOST_LINES = 150
# What stands behind a number that was measured.
UNITS = r"ns|µs|ms|s|seconds|minutes|KB|MB|GB|bytes|%|instructions"


def source(name):
    return (TOP / name).read_text()


class Operating(unittest.TestCase):
    def test_metrics(self):
        """Each metric that the service has is in the table, and each of the table is one."""
        serve = "tools/edgebpf_serve/"
        known = re.findall(r'self\._(?:histogram|counter)\("(\w+)"', source(serve + "metrics.py"))
        known += re.findall(r'^ +\("(\w+)", "', source(serve + "service.py").partition("def _gauges")[2].partition("\n    def ")[0], re.M)
        self.assertGreater(len(known), 25)
        rows = documents.rows(documents.between(PAGE, "| Metric | Says |", "\nA store in your process"))
        named = [name for row in rows for name in re.findall(r"`edgebpf_(\w+)`", row[0] + row[2])]
        self.assertEqual(sorted(set(named)), sorted(known))

    def test_options(self):
        others = {"--workers": "crates/command_line/src/words.rt", "--rebase": "tools/edgebpf_tools/import_edges.py"}
        known = {name for name, *_ in write_service.options()}
        named = set(re.findall(r"--[a-z][a-z-]+", PAGE))
        self.assertGreater(len(named), 8)
        self.assertLessEqual(named - set(others), known)
        for name, path in others.items():
            self.assertTrue(name.strip("-") in source(path), name)

    def test_files_and_constants(self):
        files = {word for word in WORDS if re.fullmatch(r"\.?[a-z_]+/[\w./]+", word) and not word.startswith("/")}
        self.assertGreaterEqual(len(files), 6)
        for name in files:
            self.assertTrue((TOP / name).exists(), name)
        constants = {word for word in WORDS if "::" in word}
        self.assertGreaterEqual(len(constants), 2)
        for key in constants:
            write_limits.of_key(key)

    def test_calls_statuses_and_routes(self):
        header, errors, routes = (source(name) for name in ("bindings/c/edgebpf.h", "bindings/python/edgebpf/errors.py", "tools/edgebpf_serve/app.py"))
        metrics = set(re.findall(r"`(edgebpf_\w+)`", documents.between(PAGE, "| Metric | Says |", "\nA store in your process")))
        calls = {word for word in WORDS if re.fullmatch(r"edgebpf_\w+", word)} - metrics
        self.assertGreaterEqual(len(calls), 4)
        for call in calls:
            self.assertTrue(f" {call}(" in header, call)
        self.assertTrue("EDGEBPF_NO_MEMORY = " in header and "class NoMemory(Error)" in errors and "`NO_MEMORY`" in PAGE and "`NoMemory`" in PAGE)
        for path in ("/metrics", "/healthz", "/readyz"):
            self.assertTrue(path in PAGE and f'"{path}"' in routes, path)

    def test_large_pages(self):
        """What the page says that is asked for is what both programs ask for that start `edgebpf`."""
        asked = re.search(r"`GLIBC_TUNABLES=([\w.=]+)`", PAGE)[1]
        for name in ("tools/proved_program", "dist/installed_program"):
            self.assertRegex(source(name), rf"(?m)^export GLIBC_TUNABLES=\"\$\{{GLIBC_TUNABLES:-(?:.*:)?{re.escape(asked)}(?::.*)?\}}\"$")

    def test_no_figure_is_typed(self):
        """Figures stand in made parts alone; a limit has its name. Statuses are numbers without a unit."""
        self.assertEqual(len(write_parts.MADE.findall(PAGE)), 3)
        typed = write_parts.MADE.sub("", PAGE)
        self.assertEqual(re.findall(rf"[0-9][0-9.,]*(?:-| )?(?:{UNITS})\b", typed), [])
        self.assertLessEqual(set(re.findall(r"(?<![\w.-])[0-9][0-9,.]*[0-9]\b", typed)), {"64", "70", "410", "503", "507"})

    def test_length(self):
        self.assertLessEqual(len(PAGE.splitlines()), MOST_LINES)


if __name__ == "__main__":
    unittest.main()

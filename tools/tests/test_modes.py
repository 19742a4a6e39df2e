"""Which files are executable: those that begin with `#!`, and no other."""
import stat
import subprocess
import unittest

from tools_here import TOOLS

TOP = TOOLS.parent
ANY_EXECUTE = stat.S_IXUSR | stat.S_IXGRP | stat.S_IXOTH


class Modes(unittest.TestCase):
    def test_files_with_an_interpreter_are_executable(self):
        run = subprocess.run(["git", "ls-files", "-z"], cwd=TOP, capture_output=True, text=True)
        if run.returncode:
            self.skipTest("this is no checkout of git's")
        paths = [path for path in map(TOP.joinpath, run.stdout.split("\0")[:-1]) if path.is_file()]
        self.assertGreater(len(paths), 1_000)
        wrong = {"not executable": [], "no interpreter": []}
        for path in paths:
            with path.open("rb") as file:
                # In Rust `#![` begins an attribute.
                has_interpreter = file.read(3) == b"#!/"
            is_executable = bool(path.stat().st_mode & ANY_EXECUTE)
            if has_interpreter != is_executable:
                wrong["not executable" if has_interpreter else "no interpreter"].append(str(path.relative_to(TOP)))
        self.assertEqual(wrong, {"not executable": [], "no interpreter": []})


if __name__ == "__main__":
    unittest.main()

#!/usr/bin/env python3
"""Writes the programs that the tests of bpf_runs run both ways: those of examples/, and those that clang compiled.

Run it at the top of the repository, after tests/native_numbers/make.py. An example's text is assembled by tests/second_implementation/assembler.py.
"""
import sys
from pathlib import Path

sys.path.insert(0, "tests/second_implementation")
from assembler import assemble  # noqa: E402

HEAD = '''\
//! The programs of `examples/` and the accepted ones of `tests/native_numbers/`, which `tools/dev/write_run_programs.py` wrote.

/// Of each program: its name, its record length and its code, with a bar between.
pub const PROGRAMS: &str = "\\
'''


def of_examples():
    """A line for each accepted program of the examples, by its text or by its code."""
    for path in sorted(Path("examples").glob("*.script")):
        said = path.with_suffix(".output").read_text().splitlines()
        accepted = {words.split()[1] for words in said if words.startswith("program ")}
        lines = iter(path.read_text().splitlines())
        for line in lines:
            words = line.split()
            if words[:1] not in (["code"], ["program"]) or words[1] not in accepted:
                continue
            if words[0] == "code":
                yield f"{path.stem}_{words[1]}|{words[2]}|{words[3]}"
            else:
                text = []
                for row in lines:
                    if row.strip() == "end":
                        break
                    text.append(row)
                code = assemble("\n".join(text) + "\n")
                yield f"{path.stem}_{words[1]}|{words[2]}|{code.hex()}"


def of_compiled():
    """A line for each accepted program that clang compiled."""
    rows = Path("crates/test_script_rows/stdin").read_text().partition("%^ compiled by clang\n")[2].partition("\n%! ")[0]
    for row in rows.split("\n%% ")[1:]:
        if "\n%=\nprogram " in row:
            _, name, length, code = row.splitlines()[1].split()
            yield f"{name}|{length}|{code}"


if __name__ == "__main__":
    programs = list(of_examples()) + list(of_compiled())
    out = Path("crates/test_calls/src/runs/programs.rt")
    out.write_text(HEAD + "\n".join(programs) + '";\n')

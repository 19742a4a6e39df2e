#!/usr/bin/python3
"""make_cases.py FOLDER: writes scripts, each with what edgebpf has to write, for `rt try --cases`: those of the documents, and runs of
programs in C. Of the latter it writes none where a package is missing, and says so."""
import pathlib
import sys
import tempfile

import documents
from sample_programs import GRAPH, RUNS, SOURCE
from tools_here import MISSING, TOOLS, run_tool

sys.path.insert(0, str(TOOLS.parent / "tests/second_implementation"))

from script import serve  # noqa: E402

GRAPH_SAID = "graph 4\nbatch A version 1 added 3 removed 0\n"


def write_case(folder, name, script, said):
    (pathlib.Path(folder) / name).write_text(script)
    (pathlib.Path(folder) / f"{name}.stdout").write_text(said)


def write_documents(folder):
    """The lines that the documents tell of are in the output; the second implementation adds those between them."""
    for cases in documents.all_cases().values():
        for name, case in cases.items():
            said, _, _ = serve(case.script.encode())
            assert documents.is_said(case, said), name
            write_case(folder, f"document_{name}", case.script, said)


def write_programs(folder):
    if MISSING:
        print(f"companions: runs of programs in C are skipped; not there: {MISSING}")
        return
    with tempfile.TemporaryDirectory() as made:
        source, graph = pathlib.Path(made) / "programs.c", pathlib.Path(made) / "graph.script"
        source.write_text(SOURCE)
        graph.write_text(GRAPH)
        for name, (words, said) in RUNS.items():
            run = run_tool("edgebpf-c", str(source), *words, "--on", str(graph), "--script")
            assert run.returncode == 0, run.stderr
            write_case(folder, f"c_{name}", run.stdout, GRAPH_SAID + said)


write_documents(sys.argv[1])
write_programs(sys.argv[1])

"""Asks the proved program of this checkout why a program is refused, and what is known at each place of it."""
import argparse
import os
import pathlib
import subprocess

from edgebpf_tools import ends, owned
from edgebpf_tools.explain_page import page
from edgebpf_tools.limits import EDGE_BYTES, LEAST_RECORD_LENGTH, MOST_RECORD_LENGTH
from edgebpf_tools.refusal import Refusal

TOOLS = pathlib.Path(__file__).resolve().parent.parent


def command():
    """How the program is started: EDGEBPF_EXPLAIN in the environment, or the checkout's own, which is built where needed."""
    given = os.environ.get("EDGEBPF_EXPLAIN")
    return [given] if given else [TOOLS / "proved_program", "edgebpf_explain"]


def is_ready():
    """Whether the program is there, or is built of dist/ within a second. Nothing is proved for it."""
    if os.environ.get("EDGEBPF_EXPLAIN"):
        return True
    asked = [TOOLS / "proved_program", "--ready", "edgebpf_explain"]
    return subprocess.run(asked, stdout=subprocess.DEVNULL, stderr=subprocess.DEVNULL).returncode == 0


def explain(length, code=None, text=None, is_asked_for=False, table=None):
    """What is told of code in hexadecimal digits or of assembler text, perhaps with a table, and the status: 1 of a refused program.
    Of what is no program nothing is told; the program's standard error, which says why, is passed on. Unless the user asked for it,
    the program does not say which build of it runs."""
    words = [str(length)] + ([] if code is None else [code]) + ([] if table is None else ["--table", table])
    environment = dict(os.environ) if is_asked_for else {"EDGEBPF_PROVED": "elsewhere", **os.environ}
    try:
        run = owned.finished([*command(), *words], text or "", stdout=subprocess.PIPE, env=environment)
    except OSError as error:
        raise Refusal(f"{error.filename}: {error.strerror}") from None
    return run.stdout, run.returncode


def arguments(words):
    parser = argparse.ArgumentParser(
        prog="edgebpf-explain",
        description="Prints the verifier's state before each instruction of a program, and why it is refused or how long its runs are. "
        "Without HEX it reads assembler text from standard input. The status is 1 if the program is refused, and 2 if "
        "there is none.",
    )
    parser.add_argument("length", metavar="LENGTH", help=f"how many bytes a record has, from {LEAST_RECORD_LENGTH} to {MOST_RECORD_LENGTH}; of an edge it is {EDGE_BYTES} and "
                        "what the run's argument has")
    parser.add_argument("code", metavar="HEX", nargs="?", help="the code in hexadecimal digits, as a script's code line has it")
    parser.add_argument("--table", metavar="HEX", help="the table that the program reads, in hexadecimal digits")
    parser.add_argument("--html", metavar="FILE", help="write a page, with the paths drawn, and the state at the line under the pointer")
    return parser.parse_args(words)


def perform(words):
    options = arguments(words)
    text = ends.standard_input().read() if options.code is None else None
    told, status = explain(options.length, options.code, text, is_asked_for=True, table=options.table)
    print(told, end="")
    if options.html and told:
        with owned.whole_file(options.html) as stream:
            stream.write(page(told, text))
    return status


def main():
    ends.run("edgebpf-explain", perform, failed=2)

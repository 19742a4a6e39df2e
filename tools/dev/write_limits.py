#!/usr/bin/env python3
"""Writes docs/LIMITS.md, bindings/python/edgebpf/limits.py and tools/edgebpf_tools/limits.py of the constants in the crates.

    tools/dev/write_limits.py

A limit is a constant of a crate, mostly in its `src/limits.rt`. Its number is read there, and nowhere else. `MET` says what a user meets at it, and
`OWN` the same of limits that the packages, the service or the companions have besides. tools/tests/test_limits.py tries what is said.
"""
import ast
import operator
import re
import sys
from collections import namedtuple
from pathlib import Path

sys.dont_write_bytecode = True
import write_parts  # noqa: E402

TOP = Path(__file__).resolve().parent.parent.parent
CRATES = TOP / "crates"
COMMAND = "tools/dev/write_limits.py"
MODULES = ("bindings/python/edgebpf/limits.py", "tools/edgebpf_tools/limits.py")

Constant = namedtuple("Constant", "value docs is_address")
# A limit that a user meets: what there may be so many of, and what comes of one more (of a least number: one less) in a script, from C, in Python and
# over HTTP. An empty cell: it is not met there.
Met = namedtuple("Met", "what script c python http", defaults=["", "", "", ""])
REFUSED = ("`REFUSED`", "`Refused`", "422")

MET = {
    "past_model::MOST_VERTICES": Met("vertices of a graph in your process, and of a frontier", "", "`VERTEX_COUNT`; `LENGTHS`", "`ValueError`"),
    "past_model::SERVED_VERTICES": Met("vertices of a graph in a script", "fault 4", "", "`ValueError` of `connect`"),
    "past_model::MOST_EDITS": Met("edits of a batch", "fault 8", "`TOO_MANY_EDITS`", "`TooManyEdits`", "422"),
    "past_model::MOST_BATCHES": Met("batches between two rebases", "fault 9", "`LOG_FULL`", "`LogFull`"),
    "past_model::SERVED_EPOCHS": Met("rebases in a script", "fault 11", "", "`EpochsFull` of `connect`"),
    "past_model::MOST_EPOCHS": Met("rebases in your process", "", "`EPOCHS_FULL`", "`EpochsFull`"),
    "past_model::FEEDS": Met("feeds of batches", "fault 2", "`FEED`", "`ValueError`"),
    "bpf_isa::MOST_UNITS": Met("units of code, of 8 bytes each", "image error 4; assembler error 6", "`CODE_LENGTH`; `WRONG_TEXT`", "`ValueError`; `WrongText`", "400; 422"),
    "bpf_image::LEAST_RECORD_LENGTH": Met("bytes of a record, at least", "fault 4; image error 3", "`RECORD_LENGTH`", "`ValueError`", "400"),
    "bpf_image::MOST_RECORD_LENGTH": Met("bytes of a record", "fault 4; image error 3", "`RECORD_LENGTH`", "`ValueError`", "400"),
    "bpf_blocks::MOST_ARGUMENT": Met("bytes of an argument", "fault 6", "`ARGUMENT_LENGTH`", "`ArgumentLength`", "422"),
    "bpf_image::MOST_TABLE_LENGTH": Met("bytes of a table", "image error 6", "`TABLE_LENGTH`", "`ValueError`", "400"),
    "map_model::MOST_COLUMNS": Met("columns that a run is lent", "fault 8", "`COLUMNS`", "`ValueError`", "400"),
    "verifier::MOST_COUNTED": Met("instructions of one run, as the verifier counts them", "cause 7", *REFUSED),
    "verifier::MOST_PAIRS": Met("instructions that are verified, those of a function once for each call", "cause 18", *REFUSED),
    "bpf_model::MOST_FRAMES": Met("functions that are live at once", "cause 6", *REFUSED),
    "bpf_model::FRAME_BYTES": Met("bytes of a function's frame", "cause 11", *REFUSED),
    "bpf_model::MOST_GATHER_BYTES": Met("bytes that one `gather` writes", "cause 13", *REFUSED),
    "session_model::MOST_KEPT": Met("programs that a script keeps, and pins", "fault 8", "", "`TooManyNames` of `connect`"),
    "session_model::MOST_KEPT_COLUMNS": Met("columns that a script keeps", "fault 8"),
    "script_model::MOST_LINE_BYTES": Met("bytes of a script's line", "fault 1"),
    "script_model::MOST_PROGRAM_LINES": Met("lines of a program in a script", "fault 8"),
    "script::MOST_NAME_BYTES": Met("bytes of a name in a script", "fault 2"),
    "bpf_asm::MOST_NAME_BYTES": Met("bytes of a label", "assembler error 1", "`WRONG_TEXT`", "`WrongText`", "422"),
    "workers::MOST_WORKERS": Met("threads of a batch or a run in a script", "status 2", "", "`ValueError` of `connect`"),
}
# What the modules for Python have beside these: no user meets them as a limit.
ALSO = ("map_model::EDGE_BYTES", "map_model::COLUMN_BYTES", "past_model::RANGE_VERTICES", "bpf_isa::MOST_CODE_BYTES")
# When a list of neighbours changes its home.
HOMES = ("past_model::BLOCK_MOST", "past_model::BLOCK_RETURN", "past_model::ARRAY_MOST", "past_model::ARRAY_RETURN")
# Limits that stand outside of the crates, by file and name, with what comes of more.
OWN = {
    "tools/edgebpf_serve/limits.py": {
        "MOST_VERTICES": ("vertices of the graph that `edgebpf-serve` has", "it ends with status 2"),
        "MOST_NUMBERS": ("numbers in one answer of `/numbers`", "422"),
        "MOST_BODY_BYTES": ("bytes of all bodies under way", "503"),
        "MOST_TEXT": ("characters of a program's text", "400"),
        "MOST_AROUND": ("vertices of an answer of `/around`", "400"),
        "MOST_STEPS": ("steps of `/around` and `/expand`", "400"),
        "MOST_REACHED": ("vertices of an answer of `/expand`", "400"),
        "MOST_PAGE": ("neighbours of one page", "400"),
        "MOST_IDS": ("batches whose ids are known, so that each takes effect once", "the oldest ids are forgotten"),
        "MOST_KEPT_VERSIONS": ("versions that a service keeps", "the oldest is dropped"),
        "MOST_TRIED": ("programs that nobody keeps and that stay verified", "the oldest is verified again"),
    },
    "bindings/python/edgebpf/cluster.py": {
        "MOST_PARTS": ("`parts=` of a `Cluster`", "`ValueError`"),
        "MOST_UNDER_WAY": ("batches of a `Cluster` that are not committed", "the next one waits"),
    },
    "bindings/python/edgebpf/cluster_part.py": {
        "MOST_READERS": ("questions that a part of a `Cluster` answers at once, runs too", "the next one waits"),
    },
    "bindings/python/edgebpf/given.py": {"MOST_THREADS": ("`threads=` of a call in Python", "`ValueError`")},
    "bindings/rust/src/steps.rs": {"MOST_THREADS": ("threads of a call in Rust", "as many as the limit work on it")},
    "tools/playground/reading.js": {
        "MOST_VERTICES": ("vertices of the playground's graph", "words that name the line"),
        "MOST_EDGES": ("edges of the playground's graph", "words"),
    },
    "tools/playground/drawing.js": {
        "MOST_VERTICES": ("vertices that a page draws", "that of a service draws the nearest, the playground none"),
        "MOST_EDGES": ("edges that a page draws", "the same"),
    },
    "tools/playground/service.js": {"MOST_READ": ("vertices of a graph over all of which the page of a service runs", "words that name `/runs`")},
    "tools/edgebpf_tools/spread.py": {"MOST_PROCESSES": ("`--processes` of `edgebpf-spread`", "it ends with status 1 and words")},
    "tools/edgebpf_tools/named_edges.py": {"MOST_NAME_BYTES": ("bytes of a name in a file of edges", "it ends with status 1, and names the line")},
    "tools/edgebpf_tools/shell.py": {"MOST_FILES": ("files that `.read` reads one from within another", "words, and no line of the file")},
}

HEAD = f"""\
# Limits

`{COMMAND}` writes this page. It reads each number in the crate that is named beside it. A number is the most that is accepted, unless the row
says otherwise; the cells after it say what comes of one more. An empty cell: the limit is not met there.

[SCRIPT.md](SCRIPT.md#faults) has the faults and the errors of images and of the assembler, [BPF.md](BPF.md#each-cause-and-a-program-that-meets-it) the causes,
[EMBEDDING.md](EMBEDDING.md#rules-for-c) the statuses, [bindings/python](../bindings/python/README.md) the exceptions, and
[SERVICE.md](SERVICE.md#requests) the statuses over HTTP.

| Limit | Number | Constant | In a script | From C | In Python | Over HTTP |
|---|---|---|---|---|---|---|
"""
OWN_HEAD = """\

In your process any number of programs, versions and columns may be kept. A service rebases by itself, and keeps as many of each as its
[options](SERVICE.md#operation) say. `EDGEBPF_` stands before a constant's name in `edgebpf.h`.

## Beside the crates

| Limit | Number | Constant | Comes of more |
|---|---|---|---|
"""
INNER_HEAD = """\

## Inside

No user meets these as a limit. The other crates cite them by name.

| Number | Constant | Is |
|---|---|---|
"""

CONSTANT = re.compile(r"^(?:pub(?:\(crate\))? )?const ([A-Z][A-Z_0-9]*): *(\w+) *= *([^;]+);", re.M)
OPERATORS = {ast.Add: operator.add, ast.Sub: operator.sub, ast.Mult: operator.mul, ast.FloorDiv: operator.floordiv, ast.Pow: operator.pow, ast.LShift: operator.lshift}


def folded(node):
    """The number of an expression of numbers."""
    if isinstance(node, ast.Constant) and isinstance(node.value, int):
        return node.value
    if isinstance(node, ast.BinOp) and type(node.op) in OPERATORS:
        return OPERATORS[type(node.op)](folded(node.left), folded(node.right))
    if isinstance(node, ast.UnaryOp) and isinstance(node.op, ast.USub):
        return -folded(node.operand)
    raise ValueError("no number")


def number_of(text):
    return folded(ast.parse(text.strip().replace("/", "//"), mode="eval").body)


def docs_before(text, at):
    """The `///` above a place of a text, in one line."""
    lines = []
    for line in reversed(text[:at].rstrip("\n").split("\n")):
        if not line.startswith("///"):
            break
        lines.insert(0, line[3:].strip())
    return " ".join(lines)


def path_with(crate, name):
    """The one source of a crate that has a constant of this name, `limits.rt` before all others."""
    folder = CRATES / crate / "src"
    paths = [path for path in (folder / "limits.rt", *sorted(folder.rglob("*.rt"))) if path.exists()]
    found = [path for path in paths if any(match[1] == name for match in CONSTANT.finditer(path.read_text()))]
    if not found or len(set(found)) > 1 and found[0].name != "limits.rt":
        raise LookupError(f"{crate} has no constant {name}, or several")
    return found[0]


def constant(crate, name):
    """A constant of a crate: its number, its words, and whether it is an address."""
    path = path_with(crate, name)
    text = path.read_text()
    match = next(match for match in CONSTANT.finditer(text) if match[1] == name)
    expression = re.sub(r"\b[iu](8|16|32|64)::MAX\b", lambda most: str(2 ** (int(most[1]) - (most[0][0] == "i")) - 1), match[3])
    expression = re.sub(r"\bas \w+", "", expression)

    def named(word):
        owner = re.search(rf"^use (\w+)::[^;]*\b{word[0]}\b", text, re.M)
        return str(constant(owner[1] if owner else crate, word[0]).value)

    return Constant(number_of(re.sub(r"\b[A-Z][A-Z_0-9]*\b", named, expression)), docs_before(text, match.start()), match[3].startswith("0x"))


def of_key(key):
    return constant(*key.split("::"))


def all_of_limits():
    """Each constant of a `limits.rt`, as crate::NAME, the lowest crate first by its name in crates.txt."""
    order = [line.split(":")[0].split()[0] for line in (TOP / "crates.txt").read_text().splitlines() if ":" in line and not line.startswith("#")]
    for crate in order:
        path = CRATES / crate / "src" / "limits.rt"
        if path.exists():
            yield from (f"{crate}::{match[1]}" for match in CONSTANT.finditer(path.read_text()))


def inner_keys():
    """The limits that no user meets."""
    return [*(key for key in all_of_limits() if key not in MET), *HOMES]


def by_name(keys):
    """The numbers of some limits by the names of their constants."""
    found = {}
    for key in keys:
        name, value = key.split("::")[1], of_key(key).value
        if found.setdefault(name, value) != value:
            raise LookupError(f"{name} has two numbers")
    return found


def own_number(path, name):
    """The number of a constant outside of the crates."""
    text = (TOP / path).read_text()
    if path.endswith(".py"):
        return numbers_in_python(text)[name]
    return number_of(re.search(rf"^(?:pub |export )?const (?:.*, )?{name}(?:: \w+)? = ([^,;]+)[,;]", text, re.M)[1])


def numbers_in_python(text):
    """The numbers that names have at the top of a module."""
    found = {}
    for node in ast.parse(text).body:
        targets = node.targets if isinstance(node, ast.Assign) else [node.target] if isinstance(node, ast.AnnAssign) else []
        for target in targets:
            pairs = zip(target.elts, getattr(node.value, "elts", [])) if isinstance(target, ast.Tuple) else [(target, node.value)]
            for name, value in pairs:
                try:
                    found[name.id] = folded(value)
                except (ValueError, AttributeError):
                    continue
    return found


def digits(number, is_address=False):
    """A number as documents write it."""
    if number == 2**64 - 1:
        return "2^64 - 1"
    return f"{number:#_x}" if is_address else f"{number:,}"


def row(*cells):
    return "| " + " | ".join(cells) + " |\n"


def page():
    text = HEAD + "".join(row(met.what, digits(of_key(key).value), f"`{key}`", *met[1:]) for key, met in MET.items())
    text += OWN_HEAD
    for path, names in OWN.items():
        text += "".join(row(what, digits(own_number(path, name)), f"`{name}` of `{path}`", more) for name, (what, more) in names.items())
    text += INNER_HEAD
    for key in inner_keys():
        found = of_key(key)
        text += row(digits(found.value, found.is_address), f"`{key}`", write_parts.first_sentence(found.docs))
    return text


def module():
    """The limits as a module for Python."""
    lines = [f'"""The limits of the crates, by their names there. {COMMAND} writes this file; docs/LIMITS.md has them with what a user meets."""']
    words = {key.split("::")[1]: write_parts.first_sentence(of_key(key).docs) for key in (*MET, *ALSO)}
    for name, number in by_name((*MET, *ALSO)).items():
        lines += [*([f"# {words[name]}"] if words[name] else []), f"{name} = {number:_}"]
    return "\n".join(lines) + "\n"


def main():
    (TOP / "docs" / "LIMITS.md").write_text(page())
    for path in MODULES:
        (TOP / path).write_text(module())


if __name__ == "__main__":
    main()

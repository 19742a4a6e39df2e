#!/usr/bin/env python3
"""Writes dist/edgebpf.3 and dist/edgebpf_algorithms.3, the manual pages of the library for C and its companion, of the comments and declarations of
bindings/c/edgebpf.h and edgebpf_algorithms.h.

A block of a header is a comment and what it describes, up to an empty line. A comment in dashes is a heading.
"""
import re
import textwrap
from pathlib import Path

from write_manual import code, escaped

TOP = Path(__file__).resolve().parent.parent.parent
HEADERS = TOP / "bindings" / "c"
FIRST, LAST = 'extern "C" {\n#endif\n', "#ifdef __cplusplus\n}"
# Of a terminal of 80 columns, less what code is indented.
CODE_COLUMNS = 68
# Stands for a blank at which no line ends.
KEPT = "\x02"
# Of each page what it is about, the package of pkg-config, and what else to read.
PAGES = {
    "edgebpf": (
        "a graph store with verified programs over its edges, in process", "edgebpf",
        "\\fBedgebpf\\fR(1), \\fBedgebpf_algorithms\\fR(3), \\fBedgebpf\\-bpf\\fR(7), and \\fBEMBEDDING.md\\fR in the documentation: who owns what, threads, memory, and what is proved",
    ),
    "edgebpf_algorithms": (
        "graph algorithms over edgebpf, tested and not proved", "edgebpf-algorithms",
        "\\fBedgebpf\\fR(3), and \\fBALGORITHMS.md\\fR in the documentation: what each answers",
    ),
}
# The head of a declaration of a function, and a comment that is a heading.
FUNCTION, HEADING = r"(static inline )?[a-z_0-9]+ edgebpf_\w+\(", r"-+ (.*?) -+"


def text(comment):
    """The words of a comment as a paragraph, names in bold."""
    words = escaped(" ".join(comment.split()))
    words = re.sub(r"`([^`]*)`|\\\(ga(.*?)\\\(ga", lambda found: f"\\fB{found[1] or found[2]}\\fR", words)
    return [".PP", f"\\&{words}"]


def blocks(header):
    """Each block between the guards: its comment, or "", and the lines after it."""
    body = header[header.index(FIRST) + len(FIRST):header.index(LAST, header.index(FIRST) + len(FIRST))]
    for part in re.split(r"\n\n+", body.strip("\n")):
        comment, rest = re.match(r"(?:/\*\s*(.*?)\s*\*/(?:\n|$))?(.*)", part, re.S).groups()
        yield comment or "", rest.splitlines()


def statuses(header):
    """The rows of the statuses, by the list of names and that of words, which are in the same order."""
    names = dict(re.findall(r"(EDGEBPF_\w+) = (\d+)", header[:header.index("static inline")]))
    words = re.search(r"words\[\] = \{(.*?)\};", header, re.S)[1]
    texts = re.findall(r'^\s*(?:"(.*)"|NULL),', words, re.M)
    return [(number, name, texts[int(number)]) for name, number in names.items()]


def status_table(header):
    rows = [("Number", "Name", "Meaning"), *statuses(header)]
    cells = ["\x07".join(f"T{{\n{escaped(cell)}\nT}}" for cell in row) for row in rows]
    return [".TS", "allbox tab(\x07);", "lw(6n) lw(24n) lw(30n).", *cells, ".TE"]


def declared(lines):
    """Declarations alone, of an inline function its head, each on as many lines as it needs. A structure of several lines stays as it is."""
    if lines and lines[0].startswith("typedef struct") and lines[0].endswith("{"):
        return lines
    heads = re.sub(r"^(static inline [^{]*) \{( [^\n]* \}$|\n.*?^\}$)", r"\1;", "\n".join(lines), flags=re.M | re.S)
    # Of a function whose body has an empty line only the head is here.
    heads = re.sub(r"^(static inline [^{]*) \{$.*", r"\1;", heads, flags=re.M | re.S)
    whole = re.split(r"(?<=;)\n", heads)
    return [line for each in whole for line in ([each] if each.startswith("#") else wrapped(each))]


def wrapped(declaration):
    """A declaration on lines that end behind a parameter or a field."""
    whole = re.sub(r"(?<![,;{]) ", KEPT, " ".join(declaration.split()))
    lines = textwrap.wrap(whole, CODE_COLUMNS, subsequent_indent="    ", break_long_words=False, break_on_hyphens=False)
    return [line.replace(KEPT, " ") for line in lines]


def manual(name, header):
    said, package, see_also = PAGES[name]
    about = re.match(r"/\*\s*(.*?)\s*\*/", header, re.S)[1]
    synopsis = [f"#include <{name}.h>", "", f"cc host.c $(pkg-config --cflags --libs {package})"]
    made = ["'\\\" t", f".\\\" tools/dev/write_library_manual.py writes this of bindings/c/{name}.h.", f'.TH {name.upper()} 3 "" "edgebpf" "Library functions"']
    made += [".ad l", ".nh", ".SH NAME", f"{name} \\- {escaped(said)}", ".SH SYNOPSIS", *code(synopsis), ".SH DESCRIPTION", *text(about)]
    made += [".SH STATUSES"] if "EDGEBPF_DONE = 0," in header else []
    is_at_calls = False
    for comment, lines in blocks(header):
        if heading := re.fullmatch(HEADING, comment):
            made.append(f".SS {escaped(heading[1])}")
            continue
        if not is_at_calls and any(re.match(FUNCTION, line) and "edgebpf_words" not in line for line in lines):
            is_at_calls = True
            made.append(".SH FUNCTIONS")
        if not lines:
            made += text(comment)
        elif "EDGEBPF_DONE = 0," in "".join(lines):
            made += [*text(comment), *status_table(header), ".SH TYPES AND CONSTANTS"]
        elif is_at_calls:
            made += [*code(declared(lines)), *(text(comment) if comment else [])]
        elif lines[0].startswith("static inline const char"):
            made += [*text(comment), *code(["const char *edgebpf_words(uint32_t status);"])]
        else:
            made += [*(text(comment) if comment else []), *code(lines if lines[0].startswith("#") else declared(lines))]
    return "\n".join([*made, ".SH SEE ALSO", see_also]) + "\n"


def main():
    for name in PAGES:
        (TOP / "dist" / f"{name}.3").write_text(manual(name, (HEADERS / f"{name}.h").read_text()))


if __name__ == "__main__":
    main()

#!/usr/bin/env python3
"""Writes the manual pages of dist/ that are pages of docs/: edgebpf-script(5) of SCRIPT.md, and edgebpf-bpf(7) of BPF.md.

It knows what these pages use of Markdown: headings, paragraphs, lists, tables, code and emphasis.
"""
import re
from pathlib import Path

TOP = Path(__file__).resolve().parent.parent.parent
PAGES = [
    ("SCRIPT.md", "edgebpf-script", 5, "the script language of edgebpf", "File formats"),
    ("BPF.md", "edgebpf-bpf", 7, "programs of edgebpf: instructions, helpers, rules and assembler text", "Miscellanea"),
]
# Of a terminal of 80 columns, less what a page is indented.
COLUMNS = 70
# Stands in a text where roff may break a word.
BREAK = "\x01"
ITEM = re.compile(r"(?:- |(\d+)\. )")


def escaped(text):
    """Text as roff has it."""
    return text.replace("\\", "\\e").replace(BREAK, "\\:").replace("-", "\\-").replace("'", "\\(aq").replace("`", "\\(ga")


def breakable(text):
    """A cell whose long words may be broken, as digits of code."""
    return re.sub(r"[^\s`*]{17,}", lambda word: re.sub(r"(.{12})(?=.)", rf"\1{BREAK}", word[0]), text)


def inline(text):
    """A line's code and strong words in bold, and of a link its words."""
    text = re.sub(r"\[([^\]]*)\]\([^)]*\)", r"\1", text)
    parts = re.split(r"(`[^`]*`|\*\*[^*]*\*\*)", text)
    made = "".join(f"\\fB{escaped(part.replace('`', '').strip('*'))}\\fR" if place % 2 else escaped(part) for place, part in enumerate(parts))
    return f"\\&{made}" if made.startswith((".", "\\(aq")) else made


def table(lines):
    """A table for tbl, each cell a text block that is filled."""
    rows = [[cell.strip() for cell in re.split(r"(?<!\\)\|", line.strip().strip("|"))] for line in lines]
    del rows[1]
    columns = len(rows[0])
    widths = [(COLUMNS - 3 * columns) // columns] * columns
    made = [".TS", "allbox tab(\x07);", " ".join(f"lw({width}n)" for width in widths) + "."]
    for row in rows:
        cells = [f"T{{\n{inline(breakable(cell))}\nT}}" for cell in (row + [""] * columns)[:columns]]
        made.append("\x07".join(cells))
    return [*made, ".TE"]


def code(lines):
    return [".PP", ".RS 4", ".nf", *(f"\\&{escaped(line)}" for line in lines), ".fi", ".RE"]


def blocks(text):
    """The blocks of a page, each with its kind."""
    kind, lines, fence = None, [], False
    for line in text.splitlines() + [""]:
        if line.startswith("```"):
            if not fence:
                yield kind, lines
                lines = []
            else:
                yield "code", lines
                kind, lines = None, []
            fence = not fence
            continue
        if fence:
            lines.append(line)
            continue
        new = kind_of(line, kind)
        if new != kind or new in ("heading", "item") and line.strip() and not line.startswith(" "):
            if lines:
                yield kind, lines
            kind, lines = new, []
        if new:
            lines.append(line)
    if lines:
        yield kind, lines


def kind_of(line, before):
    """What a line belongs to, by the block before it."""
    if not line.strip():
        return "code" if before == "code" else None
    if line.startswith("#"):
        return "heading"
    if line.startswith("|"):
        return "table"
    if ITEM.match(line) or before == "item" and line.startswith("  "):
        return "item"
    if line.startswith("    "):
        return "code"
    return "text"


def block(kind, lines):
    """A block as roff. A picture has no place there."""
    if lines[0].startswith("!["):
        return []
    if kind == "heading":
        level, title = re.match(r"(#+) (.*)", lines[0]).groups()
        return [f"{'.SH' if level == '##' else '.SS'} {inline(title.upper() if level == '##' else title)}"] if level != "#" else []
    if kind == "table":
        return table(lines)
    if kind == "code":
        shown = [line.removeprefix("    ") for line in lines]
        while shown and not shown[-1].strip():
            shown.pop()
        return code(shown)
    words = " ".join(line.strip() for line in lines)
    if kind == "item":
        mark = ITEM.match(words)
        return [f".IP {mark[1] + '.' if mark[1] else chr(92) + '(bu'} 3", inline(words[mark.end():])]
    return [".PP", inline(words)]


def manual(page, name, section, title, part):
    lines = ["'\\\" t", f".\\\" tools/dev/write_manual.py writes this of docs/{page}.", f'.TH {name.upper()} {section} "" "edgebpf" "{part}"']
    lines += [".ad l", ".SH NAME", f"{escaped(name)} \\- {title}"]
    text = re.sub(r"^<!-- .* -->\n", "", (TOP / "docs" / page).read_text(), flags=re.M)
    for kind, inner in blocks(text):
        if kind:
            lines += block(kind, inner)
    return "\n".join(lines + [".SH SEE ALSO", "\\fBedgebpf\\fR(1)"]) + "\n"


def main():
    for page, name, section, title, part in PAGES:
        (TOP / "dist" / f"{name}.{section}").write_text(manual(page, name, section, title, part))


if __name__ == "__main__":
    main()

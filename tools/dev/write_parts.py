"""Writes the parts of documents that are made of the sources. They stand between two comments, `made: KIND WORDS` and `end`.

    made: calls CRATE        the first sentence of each public call, type and law of a crate, from its `///`
    made: crate CRATE        the same after what the crate says of itself in `//!`
    made: file PATH [FROM ... TO]  a file as a block, or of it the lines from one that begins with FROM up to the next that begins with TO
    made: part PATH NAME     the lines of a file after the line `// [NAME]`, up to the next such line
    made: clauses PATH FUNCTION[.LABEL] ..  the clauses of functions of a source, or those with a label; a clause may have none
    made: edits              the edits that must fail, by crate, in the words of their names
    made: times              the table of the cookbook's times, of what measure_cookbook.py printed
    made: programs FOLDER    the first sentence of each program in a folder
    made: modules CRATE      the first sentence of each module of a crate, from its `//!`
    made: classes PATH       the classes of a file in Python, with what they say
    made: reading            the reading list, of count_reading.py
    made: figures NAME [: RULE] ..  a table of docs/figures, with when it was measured; figures that miss a limit are bold, by the rules of judged.py
    made: quote PATH HEAD | .. [: ROW | ..]  of the table of a document with these heads the columns below them, or of it the rows that begin so
    made: rounds PATH COLUMN MARK BEGIN  the frontier and a column of a script, round by round
    made: follow CRATE::WORD .. [: WORD ..]  the files that name the items, with the definitions and functions that do, by crate; then those
                             outside of the crates that name the words
"""
import ast
import re
import subprocess
import sys
import textwrap

import figures as measured
from judged import judged
from write_rounds import rounds

MADE = re.compile(r"(^<!-- made: (\w+)(?: ([^\n]*))? -->\n).*?(?=^<!-- end -->)", re.S | re.M)
LANGUAGES = {".py": "python", ".c": "c", ".h": "c", ".rs": "rust", ".rt": "rust"}
COLUMNS = 120


def first_sentence(docs):
    """The first sentence of a text. A full stop inside of backticks, brackets or a name ends none."""
    found = re.match(r"(?:`[^`]*`|\([^)]*\)|[^`(])*?[.](?=\s|$)", docs)
    return re.sub(r"\[(`[^`]*`)\]", r"\1", found[0] if found else docs).replace("|", "\\|")


def rows(pages, crate):
    """The rows of a crate's calls, and those of its laws."""
    calls, laws = [], []
    for path, item in pages.public_items(crate):
        if not item.docs:
            continue
        row = f"| `{item.name}` | {first_sentence(item.docs)} |"
        (laws if pages.has_laws(path) else calls).append(row)
        calls += [f"| `{item.name}::{part.name}` | {first_sentence(part.docs)} |" for part in item.parts if part.kind == "fn" and part.docs]
    return calls, laws


USED = re.compile(r"^ghost use Rattle\.(\w+)\.specs\.(\w+)\.(?:\{([^}]*)\}|(\w+));", re.M)


def definitions(pages, crate):
    """The definitions that the sources of a crate's public calls use, by crate and file, its own first."""
    found = {}
    for path in dict.fromkeys(path for path, _ in pages.public_items(crate)):
        for owner, name, many, one in USED.findall(path.read_text()):
            words = [word.strip() for word in (many or one).split(",") if re.fullmatch(r"\s*\w+\s*", word)]
            if owner != "std" and name != "declared":
                found.setdefault((owner != crate, owner, name), dict.fromkeys(words)).update(dict.fromkeys(words))
    files = [f"{'' if owner == crate else owner + '/'}specs/{name}.antt` ({', '.join(words)})" for (_, owner, name), words in sorted(found.items())]
    return [pages.wrapped("Its contracts use the definitions of " + ", ".join(f"`{file}" for file in files) + "."), ""] if files else []


def calls(pages, crate):
    lines = [""]
    for title, table in zip(("Call or type", "Law"), rows(pages, crate)):
        lines += [f"| {title} | What it is |", "|---|---|", *table, ""] if table else []
    lines += [f"[CONTRACTS.md](../../docs/CONTRACTS.md#{crate}) has each whole, with its errors.", ""]
    return lines + definitions(pages, crate) + neighbours(pages, crate)


def crate(pages, name):
    return ["", pages.wrapped(pages.head_of(pages.CRATES / name / "src" / "lib.rt")), *calls(pages, name)]


def neighbours(pages, crate):
    """The crates that a crate stands on, and those that use it."""
    uses = pages.uses()
    below, above = uses[crate], [name for name, used in uses.items() if crate in used]
    said = [f"{words} {', '.join(f'`{name}`' for name in names)}" for words, names in (("stands on", below), ("is used by", above)) if names]
    return [pages.wrapped(f"It {' and '.join(said)}."), ""] if said else []


def block(path, text):
    """A text as a block. Of a script long lines are cut, which have digits of code."""
    lines = [line if path.suffix != ".script" or len(line) <= COLUMNS else line[:COLUMNS - 3] + ".." for line in text.splitlines()]
    return [f"```{LANGUAGES.get(path.suffix, '')}", *lines, "```"]


def file(pages, words):
    """A file, or the lines of it from one that begins with a text up to one that does with another."""
    name, *ends = words.split(" ", 1)
    path = pages.TOP / name
    text = path.read_text()
    if ends:
        first, last = ends[0].split(" ... ")
        lines = text.splitlines()
        begun = next(at for at, line in enumerate(lines) if line.strip().startswith(first))
        ended = next(at for at, line in enumerate(lines) if at >= begun and line.strip().startswith(last))
        text = textwrap.dedent("\n".join(lines[begun:ended + 1]))
    return block(path, text)


def part(pages, words):
    """The lines of a file that stand under a name in brackets."""
    name, title = words.split()
    path = pages.TOP / name
    parts = dict(re.findall(r"^// \[(\w+)\]\n(.*?)(?=^// \[|\Z)", path.read_text(), re.M | re.S))
    return block(path, parts[title].strip())


IMPLEMENTS = re.compile(r"impl(?:<.*?>)? (?:\w+(?:<.*?>)? for )?(\w+)")


def clauses_of(lines, name):
    """The name of a function with its type, and its clauses, each with its label."""
    begun = next(at for at, line in enumerate(lines) if re.match(rf"\s*pub fn {name}\b", line))
    owners = [IMPLEMENTS.match(line)[1] for line in lines[:begun] if IMPLEMENTS.match(line)]
    found, owner = [], owners[-1] + "::" if lines[begun].startswith(" ") else ""
    for line in lines[begun:]:
        text = line.strip()
        clause = re.match(r"(?:requires|ensures) (\w*) ?\{", text)
        if clause:
            found.append((clause[1], [text]))
        elif text == "{":
            break
        elif found and text and not text.startswith("//"):
            found[-1][1].append("    " + text)
    return owner + name, found


def clauses(pages, words):
    path, *asked = words.split()
    lines, shown = (pages.TOP / path).read_text().splitlines(), {}
    for name, _, label in (each.partition(".") for each in asked):
        whole, every = clauses_of(lines, name)
        shown.setdefault(whole, []).extend(line for told, text in every if label in ("", told) for line in text)
    return ["```", *(line for name, texts in shown.items() for line in (f"{name}:", *(f"    {text}" for text in texts))), "```"]


def edits(pages, _):
    lines = []
    for crate in pages.crates():
        names = sorted(path.stem.replace("_", " ") for path in (pages.CRATES / crate / "must-fail").glob("*.edit"))
        lines += [pages.wrapped(f"- `{crate}`: {'; '.join(names)}", "  ")] if names else []
    return ["", *lines, ""]


def is_python(path):
    return path.suffix == ".py" or path.is_file() and path.read_bytes().startswith(b"#!/usr/bin/env python3")


def first_words(path):
    """The first sentence of a program, of its docstring or its first comment, without how it is called."""
    text = path.read_text()
    if is_python(path):
        said = (ast.get_docstring(ast.parse(text)) or "").split("\n\n")[0]
    else:
        said = re.match(r"/\* (.*?)(?: \*/|\Z)|// (?:Records of \d+ bytes\. )?(.*)", text, re.S)
        # Each further line of a comment in C begins with a star.
        said = ((said[1] or "").replace("\n * ", "\n") or said[2].split("\n")[0]) if said else ""
    said = re.sub(rf": {path.name}.*", ".", " ".join(said.split()))
    return first_sentence(said)


def programs(pages, folder):
    paths = [path for path in sorted((pages.TOP / folder).iterdir()) if (is_python(path) or path.suffix == ".c") and not path.name.startswith(".")]
    return ["", "| Program | Does |", "|---|---|", *(f"| `{path.name}` | {first_words(path)} |" for path in paths), ""]


def modules(pages, name):
    paths = [path for path in sorted((pages.CRATES / name / "src").glob("*.rt")) if path.stem not in ("lib", "main")]
    return ["", "| Module | What it is |", "|---|---|", *(f"| `{path.stem}` | {first_sentence(' '.join(pages.head_of(path).split()))} |" for path in paths), ""]


def classes(pages, name):
    found = [node for node in ast.parse((pages.TOP / name).read_text()).body if isinstance(node, ast.ClassDef)]
    return ["", "| Class | What it is |", "|---|---|", *(f"| `{one.name}` | {' '.join((ast.get_docstring(one) or '').split())} |" for one in found), ""]


FORMS = ("c", "python", "script", "scipy", "sqlite", "networkx")
THINGS = {
    "mutual": "1. edges that have an edge back", "common": "2. neighbours in common", "triangles": "3. triangles",
    "bfs": "4. breadth first search; in a script three steps", "weight": "5. scores by a table",
    "bloom": "6. a Bloom filter; by the others an exact set", "live": "7. 64 batches of 1,000 edges, each with a query",
    "snapshots": "8. two snapshots compared", "top": "9. the ten greatest rows", "parts": "10. over four processes, with loading",
}


def times(pages, _):
    """A row for each thing. A program of an edge in C takes what its script takes."""
    text, found = (pages.TOP / "examples" / "cookbook" / "times.txt").read_text(), {}
    for form, said in re.findall(r"^== (\w+)\n(.*?)(?=^== |\Z)", text, re.M | re.S):
        found[form] = dict(re.findall(r"^(\w+) +([\d.]+)  ", said, re.M))
        found[form] |= {name: f"over {second}" for name, second in re.findall(r"^(\w+) +([\d]+)\.\d+  given up", said, re.M)}
    found["c"] = {**{name: second for name, second in found["script"].items() if name != "parts"}, **found["c"]}
    lines = ["", f"| | {' | '.join('C' if form == 'c' else form.capitalize() if form == 'python' else form for form in FORMS)} |", "|---" * 7 + "|"]
    for name, title in THINGS.items():
        cells = [found.get(form, {}).get(name, "") for form in FORMS]
        lines.append(f"| {title} | {' | '.join(map(two_digits, cells))} |")
    return [*lines, ""]


def two_digits(cell):
    """A number of seconds as it is read; words stay."""
    return cell if not cell or cell.startswith("over") else f"{float(cell):.2g}" if float(cell) < 10 else f"{float(cell):.0f}"


def table(heads, rows):
    return [f"| {' | '.join(heads)} |", "|---" * len(heads) + "|", *(f"| {' | '.join(cells)} |" for cells in rows)]


def figures(pages, words):
    name, _, rules = words.partition(" : ")
    when, heads, rows = measured.read(name)
    rows = judged(heads, rows, rules)
    return ["", f"Measured on {when}:" if when[0].isdigit() else f"{when}:", "", *table(heads, rows), ""]


def tables_of(text):
    """The tables of a document: for each its heads, and its rows."""
    for found in re.findall(r"(?:^\|.*\|\n){2,}", text, re.M):
        heads, _, *rows = [[cell.strip() for cell in line.strip("|").split(" | ")] for line in found.splitlines()]
        yield heads, rows


def quote(pages, words):
    """Columns of another document's table, so that nobody types its figures again."""
    name, _, asked = words.partition(" ")
    heads, _, firsts = (part.strip() for part in asked.partition(" : "))
    wanted, firsts = heads.split(" | "), [first for first in firsts.split(" | ") if first]
    # As it will be, if it has made tables.
    text = written(pages, (pages.TOP / name).read_text())
    known, rows = next((known, rows) for known, rows in tables_of(text) if set(wanted) <= set(known))
    places = [known.index(head) for head in wanted]
    taken = [row for row in rows if not firsts or row[0].startswith(tuple(firsts))]
    if len(taken) < len(firsts):
        raise LookupError(f"{name} has not all rows that begin with {', '.join(firsts)}")
    # What a bold figure misses is said at the table that is quoted.
    return ["", *table(wanted, [[row[place].replace("**", "") for place in places] for row in taken]), ""]


def reading(pages, _):
    run = subprocess.run([sys.executable, pages.TOP / "tools" / "dev" / "count_reading.py"], check=True, capture_output=True, text=True)
    return ["", *run.stdout.splitlines(), ""]


DEFINED = re.compile(r"(?:[a-z]+ )*([^\s(){}]+) :(?: |$)|\s*(?:pub )?(?:const )?fn (\w+)|pub (?:enum|struct|trait) (\w+)")
NOT_CODE = ("--", "//", "use ", "pub use ", "ghost use ")


def definitions_that_name(path, pattern):
    """Whether a file names a word in its code, and the definitions that do."""
    found, owner, is_named = {}, None, False
    for line in path.read_text().splitlines():
        if line.strip().startswith(NOT_CODE):
            continue
        begun = DEFINED.match(line)
        if begun:
            owner = next(filter(None, begun.groups()))
        if pattern.search(line):
            is_named = True
            found.update({owner: True} if owner else {})
    return is_named, list(found)


def cells_of(folder, pattern):
    """What a crate's `specs/`, `src/` and `proofs/` have of the words."""
    specs, others = [], {"src": [], "proofs": []}
    for path in sorted(folder.rglob("*")):
        part, *inner = path.relative_to(folder).parts
        if part not in ("src", "specs", "proofs") or "tests" in inner or not inner:
            continue
        name = "/".join(inner).removesuffix(".antt").removesuffix(".rt")
        if path.is_dir():
            others["proofs"] += [name + "/"] if part == "proofs" and pattern.fullmatch(path.name) else []
        elif path.suffix in (".rt", ".antt") and not (part == "proofs" and len(inner) > 1):
            is_named, definitions = definitions_that_name(path, pattern)
            if is_named and part == "specs":
                specs.append(f"`specs/{name}`" + (f": {', '.join(definitions)}" if definitions else ""))
            elif is_named:
                others[part].append(name)
    return specs + [f"`{part}`: {', '.join(names)}" for part, names in others.items() if names]


def items_by_crate(pages, items):
    """For each crate the words of the items that it can name: those of its own and of the crates below it. An item is CRATE::WORD."""
    uses, above = pages.uses(), {}
    for item in items:
        crate, colons, word = item.partition("::")
        if not colons or crate not in uses:
            raise LookupError(f"{item} is no item: write CRATE::WORD")
        for each in pages.crates():
            if each == crate or crate in below(uses, each):
                above.setdefault(each, []).append(word)
    return above


def below(uses, crate):
    """All crates of the repository below one."""
    return {each for name in uses[crate] if name in uses for each in {name} | below(uses, name)}


def follow(pages, words):
    """The places that name the items, crate by crate, and the files outside of the crates that name the words after a colon."""
    items, _, said = words.partition(" : ")
    lines, named = [], items_by_crate(pages, items.split())
    for crate in [each for each in pages.crates() if each in named]:
        cells = cells_of(pages.CRATES / crate, any_of(named[crate]))
        if cells:
            lines.append(pages.wrapped(f"- `{crate}`: {'; '.join(cells)}", "  "))
    outside, pattern = [], any_of(said.split())
    for name in sorted(path for folder in ("bindings", "tests", "tools") if said for path in (pages.TOP / folder).rglob("*")):
        if name.suffix in (".py", ".c", ".h", ".rs") and name.parent.name != "dev" and "build" not in name.parts and pattern.search(name.read_text()):
            outside.append(f"`{name.relative_to(pages.TOP)}`")
    return ["", *lines, *([pages.wrapped(f"- outside: {', '.join(outside)}", "  ")] if outside else []), ""]


def any_of(words):
    return re.compile(r"\b(?:" + "|".join(map(re.escape, dict.fromkeys(words))) + r")\b")


KINDS = {"calls": calls, "crate": crate, "file": file, "part": part, "clauses": clauses, "edits": edits, "programs": programs, "modules": modules, "classes": classes, "times": times, "figures": figures, "quote": quote, "reading": reading, "rounds": rounds, "follow": follow}


def written(pages, text):
    """A document with its made parts written again."""
    return MADE.sub(lambda found: found[1] + "\n".join(KINDS[found[2]](pages, found[3])) + "\n", text)


def tracked(pages):
    """All documents of the repository; in a copy without git, all that are there."""
    run = subprocess.run(["git", "ls-files", "-co", "--exclude-standard", "*.md"], cwd=pages.TOP, capture_output=True, text=True)
    names = run.stdout.split() or [str(path.relative_to(pages.TOP)) for path in pages.TOP.rglob("*.md")]
    return [path for path in map(pages.TOP.joinpath, sorted(names)) if path.exists()]


def documents(pages):
    """The documents that have a made part."""
    return [path for path in tracked(pages) if MADE.search(path.read_text())]


def adopt_readme(pages, crate):
    """Puts the made part into a crate's README, in place of its table of calls that is written by hand."""
    path = pages.CRATES / crate / "README.md"
    text = path.read_text()
    if re.search("<!-- made: (calls|crate)", text) or not (pages.CRATES / crate / "src" / "lib.rt").exists():
        return
    part = f"<!-- made: calls {crate} -->\n<!-- end -->\n"
    table = re.search(r"^\| (?:Call|Item|Law|Name)[^\n]*\n\|[-|]+\n(?:\|[^\n]*\n)+", text, re.M)
    if table:
        path.write_text(text[:table.start()] + part + text[table.end():])


def adopt_gate(pages):
    """Puts the list of edits into docs/GATE.md, in place of the rows that name nothing but edits that are there."""
    path = pages.TOP / "docs" / "GATE.md"
    head, title, text = path.read_text().partition("## Wrong bodies that stay\n")
    if not title or "<!-- made: edits" in text:
        return
    names = {edit.stem for edit in pages.CRATES.glob("*/must-fail/*.edit")}
    kept = []
    for line in text.splitlines():
        cell = line.rsplit(" | ", 1)[-1].rstrip(" |")
        if line.startswith("| ") and not re.sub(r"`[^`]*`|[,; ]", "", cell) and all(name.split("/")[-1] in names for name in re.findall(r"`([^`]*)`", cell)):
            continue
        kept.append(line)
    path.write_text(head + title + "\n".join(kept).rstrip() + "\n\n<!-- made: edits -->\n<!-- end -->\n")


def adopt(pages):
    """Puts made parts into documents that still have them written by hand."""
    for crate in pages.crates():
        adopt_readme(pages, crate)
    adopt_gate(pages)

#!/usr/bin/env python3
"""Writes docs/CONTRACTS.md, docs/DEFINITIONS.md and docs/CRATES.md of what stands in the sources, and the made parts of all documents.

    tools/dev/write_pages.py                 writes them
    tools/dev/write_pages.py --check         writes nothing, and fails if a page would change
    tools/dev/write_pages.py --adopt         also puts made parts where tables of calls and of edits are still written by hand
    tools/dev/write_pages.py --by-hand       prints how many bytes of each document are kept by hand

CONTRACTS has each public item of each library, with its `///`, and the functions that C calls. DEFINITIONS has each public definition in `specs/`, with its comment.
CRATES has the towers of crates as crates.txt has them, with the `//!` of each. write_parts.py says what a made part may be.
"""
import re
import sys
import textwrap
from pathlib import Path

sys.dont_write_bytecode = True
import write_parts  # noqa: E402

THIS = sys.modules[__name__]
TOP = Path(__file__).resolve().parent.parent.parent
CRATES = TOP / "crates"
COMMAND = "tools/dev/write_pages.py"
COLUMNS = 120

# What stands after a call that has no clause.
NO_CLAUSE = "No clause."

CONTRACTS_HEAD = f"""\
# Contracts

What each public call promises, in the words of its source. `{COMMAND}` writes this page of the `///` in `crates/*/src`.
The clauses (`requires`, `ensures`) stand in the source, under the signature. They are what is proved, and say it exactly.

- "{NO_CLAUSE}" marks a call without any: it is proved to be safe, and nothing that its words say is proved.
- Other words that no clause says are about who does the work and in which order, what memory is taken, shared, copied or dropped,
  the cause of an answer such as `OutOfMemory`, `WorkerRefused` or `Full`, and what saves time. No contract says how long a call takes.
- `edgebpf_c` has the functions that C calls. In C `alloc` is no parameter, and a slice is a pointer and a count.
- "Takes no memory" means that the call has no allocator, or only keeps it, and so never reports that there is none. If a call may answer out
  of memory, it may do so at any growth. That it does so only then is not claimed.
- `From<AllocError>` and `From<AllocFailed<T>>` of an error make its answer for out of memory.
- A law is a call that does nothing: its contract states a theorem. A law of calls only makes public calls, often at their limits, and
  is proved from their contracts.
- A value whose type has private fields was made by one of the calls below, and keeps the invariant that its source states, if any.

Some words say more than their clauses:

| Call | No clause says |
|---|---|
| `Publisher::step` | that the batch which is taken waits longest. `Publisher::finish` says it at the end, of each feed's batches of the last epoch |
| `Head::add`, `Head::rebase` | that nothing is added where the answer is `None`; long scripts are served as if nothing is |
| `Publisher::finish` | that readers are answered `Closed` from then on; it is tested |
| `Reader::pin` | that the version is shown at a moment of the call |
| `lend_held`, `lend_from_held`, `edgebpf_version_lend`, `edgebpf_version_lend_from` | that slices stay; they are tested |
| `Session::perform` | what a session holds after `Store` of a batch, and that another batch than the held one is answered so |
| `do_job` | which part of the frontier a worker has, and what it does where no thread can be started; that threads are inside at once is tested |
| `source_lines` | that each line of a text that means a program is one of its instructions; rows of explanations test it |
"""

DEFINITIONS_HEAD = f"""\
# Definitions

The contracts speak in words that `crates/*/specs/*.antt` define. Definitions are not proved: read them to know what is claimed.
[HEADLINE.md](HEADLINE.md) lists the few that have to be believed for the main claim, in reading order. `{COMMAND}` writes this page
of the comments in `specs/`. A definition of one line without a comment stands here itself.
"""

CRATES_HEAD = f"""\
# Crates

`{COMMAND}` writes this page of `crates.txt` and the first lines of each crate. [ARCHITECTURE.md](ARCHITECTURE.md) says how they work together.

Programs stand on `bpf_isa`, the store on `past_model`, and neither knows the other. A crate stands above all that it uses, so a change
proves the crates above it again, and none beside it. No program has `stream_core`, the store's events as one machine: tests run it.
"""

# What a tower stands on.
PROGRAMS, STORE = "bpf_isa", "past_model"
TOWERS = {(False, False): "Base", (True, False): "Programs", (False, True): "Store", (True, True): "Both"}

CODE = re.compile(r"^```[^`]*^```$|^    [^\n]*$", re.M)
ITEM = re.compile(r'pub (?:const )?(extern "C" )?(struct|enum|trait|fn|const|type) (\w+)')
METHOD = re.compile(r"    (pub )?(?:const )?fn (\w+)")
IMPLEMENTS = re.compile(r"(?:unsafe )?impl(?:<.*?>)? (?:(\w+)(?:<.*?>)? for )?(\w+)")
VARIANT = re.compile(r"    (\w+)(?:\(.*\)| \{.*)?(?: = (\d+))?,?$")
CLAUSE = re.compile(r"\s*((requires|ensures|decreases|measure|ghost|where)\b|\{|//)")
DEFINITION = re.compile(r"(?:abbrev|opaque|def|record|data|enum) pub (\S+)|pub (?:abbrev|record|data) (\S+)")


class Item:
    """A public item: its kind, its name, its signature, its `///` in one line, what belongs to it, and whether C calls it."""

    def __init__(self, kind, name, said, docs, is_export=False):
        self.kind, self.name, self.said, self.docs, self.is_export = kind, name, said, docs, is_export
        self.parts = []


def signature(lines, at):
    """The signature of the function whose first line is at `at`, in one line."""
    words = []
    for line in lines[at:]:
        if words and CLAUSE.match(line):
            break
        words.append(line.strip())
        if line.rstrip().endswith(("{", ";")):
            break
    text = re.sub(r"\s*[{;]$", "", " ".join(words))
    text = re.sub(r"\( ", "(", re.sub(r",? \)", ")", text))
    return re.sub(r'^pub (?:extern "C" )?', "", text)


def with_clauses(docs, lines, at):
    """What a function says, and that it has no clause if none stands under its signature."""
    for line in lines[at:]:
        if re.match(r"\s*(requires|ensures)\b", line):
            return docs
        if line.rstrip().endswith(("{", "}", ";")):
            break
    return f"{docs} {NO_CLAUSE}".strip()


def paragraphs(docs):
    """Doc lines as one line of text; an empty line parts sentences as a blank does."""
    return " ".join(word for word in (line.strip() for line in docs) if word)


def items_of(path):
    """The items of one source, by name."""
    found, owner, docs = {}, None, []
    lines = path.read_text().splitlines()
    for at, line in enumerate(lines):
        text = line.strip()
        if text.startswith("///"):
            docs.append(text[3:])
            continue
        if text.startswith("#["):
            continue
        top, method, begun = ITEM.match(line), METHOD.match(line), IMPLEMENTS.match(line)
        if top:
            export, kind, name = top.groups()
            said = signature(lines, at) if kind == "fn" else f"{kind} {name}"
            if kind == "const":
                said = re.sub(r"^pub ", "", text.rstrip(";"))
            words = with_clauses(paragraphs(docs), lines, at) if kind == "fn" else paragraphs(docs)
            owner = found.setdefault(name, Item(kind, name, said, words, bool(export)))
            if kind in ("fn", "const", "type"):
                owner = None
        elif begun and not line.startswith(" "):
            trait, name = begun.groups()
            owner = None if trait else found.setdefault(name, Item("impl", name, name, ""))
        elif line.startswith("}"):
            owner = None
        elif owner and method and docs and (method.group(1) or owner.kind == "trait"):
            owner.parts.append(Item("fn", method.group(2), signature(lines, at), with_clauses(paragraphs(docs), lines, at)))
        elif owner and owner.kind == "enum" and (variant := VARIANT.match(line)):
            number = f" = {variant.group(2)}" if variant.group(2) else ""
            owner.parts.append(Item("variant", variant.group(1), variant.group(1) + number, paragraphs(docs)))
        docs = []
    return found


def module(folder, name):
    """The source of a module."""
    beside = folder / f"{name}.rt"
    return beside if beside.exists() else folder / name / "mod.rt"


def listed(text):
    """The names of a `pub use`, without those that it brings from other crates' paths."""
    return [name.strip().split(" as ")[-1] for name in text.strip("{}").split(",") if name.strip()]


def sources_below(path):
    """A module's source and those of its inner modules."""
    yield path
    inner = path.with_suffix("")
    if inner.is_dir():
        yield from sorted(inner.rglob("*.rt"))


def public_items(crate):
    """The public items of a library with the source of each, in the order of its `lib.rt`."""
    folder = CRATES / crate / "src"
    text = (folder / "lib.rt").read_text()
    modules = re.findall(r"^(?:pub )?mod (\w+);", text, re.M)
    known = {name: [(path, items_of(path)) for path in sources_below(module(folder, name))] for name in modules}
    for name in re.findall(r"^pub mod (\w+);", text, re.M):
        for path, items in known[name]:
            yield from ((path, item) for item in items.values() if item.kind != "impl")
    for name, names in re.findall(r"^pub use (?:self::)?(\w+)(?:::\w+)*::(\{[^}]*\}|\w+);", text, re.M):
        if name not in known:
            continue
        for wanted in listed(names):
            for path, items in known[name]:
                if wanted in items:
                    yield path, items[wanted]
    yield from ((path, item) for sources in known.values() for path, items in sources for item in items.values() if item.is_export)
    yield from ((folder / "lib.rt", item) for item in items_of(folder / "lib.rt").values())


def has_laws(path):
    """Whether the functions of a source are laws."""
    return path.stem == "laws" or path.stem.endswith("_laws")


def head_of(path):
    """What a source says of itself."""
    return paragraphs(line[3:] for line in path.read_text().splitlines() if line.startswith("//!"))


def wrapped(text, later=""):
    return textwrap.fill(text, COLUMNS, subsequent_indent=later, break_long_words=False, break_on_hyphens=False)


def line_of(item, owner=""):
    said = f"{owner}{item.said.removeprefix('fn ')}" if item.kind == "fn" else item.said
    return wrapped(f"- `{said}`" + (f": {item.docs}" if item.docs else ""), "  ")


def only_named(names):
    """The names that say all themselves, in one line."""
    names = list(names)
    return [wrapped("- " + ", ".join(f"`{name}`" for name in names), "  ")] if names else []


def section_of(item):
    """A type or a trait, and the lines of what belongs to it."""
    lines = [f"### `{item.name}`", "", *([wrapped(item.docs), ""] if item.docs else [])]
    lines.extend(line_of(part, f"{item.name}::" if part.kind == "fn" else "") for part in item.parts if part.docs)
    lines.extend(only_named(part.name for part in item.parts if not part.docs))
    return [*lines, ""] if item.parts else lines


def contracts():
    """The page on contracts."""
    page = [CONTRACTS_HEAD]
    for crate in crates():
        library = CRATES / crate / "src" / "lib.rt"
        if not library.exists():
            continue
        page.extend([f"## `{crate}`", "", wrapped(head_of(library)), ""])
        items = list(public_items(crate))
        laws = [line_of(item) for path, item in items if has_laws(path)]
        loose = [line_of(item) for path, item in items if item.kind in ("fn", "const") and not has_laws(path)]
        for _, item in items:
            if item.kind not in ("fn", "const"):
                page.extend(section_of(item))
        if loose:
            page.extend(["### Functions and limits", "", *loose, ""])
        if laws:
            page.extend(["### `laws`", "", *laws, ""])
    return "\n".join(page)


def uses():
    """Of each crate, lowest first, the crates of this repository that it uses."""
    lines = (TOP / "crates.txt").read_text().splitlines()
    rows = [line.split(":") for line in lines if ":" in line and not line.startswith("#")]
    named = {name.split()[0]: below.split() for name, below in rows}
    return {name: [word for word in below if word in named] for name, below in named.items()}


def crates():
    return list(uses())


def about(crate):
    """What a crate says of itself, in one line for a table."""
    folder = CRATES / crate / "src"
    path = folder / "lib.rt" if (folder / "lib.rt").exists() else folder / "main.rt"
    return head_of(path).replace("|", "\\|")


def placed():
    """Of each crate its level, and its tower."""
    level, below = {}, {}
    for crate, used in uses().items():
        level[crate] = 1 + max((level[one] for one in used), default=0)
        below[crate] = {crate}.union(*(below[one] for one in used))
    return level, {crate: TOWERS[PROGRAMS in all_of, STORE in all_of] for crate, all_of in below.items()}


def towers():
    """The page on crates: the towers level by level, and a row for each crate."""
    level, tower = placed()
    page = [CRATES_HEAD, "## Towers", "", f"| Level | {' | '.join(TOWERS.values())} |", "|---|---|---|---|---|"]
    for height in range(max(level.values()), 0, -1):
        cells = [", ".join(f"`{crate}`" for crate in level if level[crate] == height and tower[crate] == name) for name in TOWERS.values()]
        page.append(f"| {height} | {' | '.join(cells)} |")
    page += ["", "## Each crate", "", "| Crate | Stands on | Is |", "|---|---|---|"]
    for crate, used in uses().items():
        page.append(f"| [`{crate}`](../crates/{crate}/README.md) | {', '.join(f'`{one}`' for one in used)} | {about(crate)} |")
    return "\n".join(page)


def definitions_of(path):
    """Of each public definition of a file: its name, its comment, and its body where it has one line."""
    comment = []
    lines = path.read_text().splitlines()
    for at, line in enumerate(lines):
        if line.startswith("--"):
            comment.append(line[2:])
            continue
        begun = DEFINITION.match(line)
        if begun:
            name = begun.group(1) or begun.group(2)
            body = [text for text in lines[at + 1:at + 3] if text.strip()]
            yield name, paragraphs(comment), body[0] if len(body) == 1 else None
        comment = []


def definitions():
    """The page on definitions."""
    page = [DEFINITIONS_HEAD]
    for crate in crates():
        files = [path for path in sorted((CRATES / crate / "specs").glob("*.antt")) if path.name != "Lib.antt"]
        if not files:
            continue
        page.extend([f"## `{crate}/specs`", ""])
        for path in files:
            first = []
            for line in path.read_text().splitlines():
                if not line.startswith("--"):
                    break
                first.append(line[2:])
            page.extend([f"### `{path.name}`", "", *([wrapped(paragraphs(first)), ""] if first else [])])
            known = list(definitions_of(path))
            page.extend(wrapped(f"- `{name}`: {comment}" if comment else f"- `{body}`", "  ")
                        for name, comment, body in known if comment or body)
            page.extend(only_named(name for name, comment, body in known if not comment and not body))
            page.extend([""] if known else [])
    return "\n".join(page)


def by_hand():
    """Prints how many bytes of each document are kept by hand: all but the pages that are written whole and the made parts with their marks."""
    whole = [TOP / "docs" / f"{name}.md" for name in ("CONTRACTS", "DEFINITIONS", "CRATES", "LIMITS", "TRANSCRIPT")]
    texts = {path: write_parts.MADE.sub("", path.read_text()).replace("<!-- end -->\n", "") for path in write_parts.tracked(THIS) if path not in whole}
    sizes = {path: len(text.encode()) for path, text in texts.items()}
    for path, size in sorted(sizes.items(), key=lambda row: row[1]):
        print(f"{size:8} {path.relative_to(TOP)}")
    blocks = sum(len(block.encode()) for text in texts.values() for block in CODE.findall(text))
    print(f"{sum(sizes.values()):8} bytes in {len(sizes)} documents are kept by hand, of which {blocks} are blocks of code")


def main():
    words = sys.argv[1:]
    if words == ["--by-hand"]:
        return by_hand()
    if words == ["--adopt"]:
        write_parts.adopt(THIS)
    pages = {TOP / "docs" / f"{name}.md": text.rstrip() + "\n" for name, text in
             (("CONTRACTS", contracts()), ("DEFINITIONS", definitions()), ("CRATES", towers()))}
    pages |= {path: write_parts.written(THIS, path.read_text()) for path in write_parts.documents(THIS)}
    for path, text in pages.items():
        if words != ["--check"]:
            path.write_text(text)
        elif path.read_text() != text:
            print(f"{path.relative_to(TOP)} is not what the sources say: {COMMAND} writes it", file=sys.stderr)
            sys.exit(1)


if __name__ == "__main__":
    main()

"""The scripts and programs that README.md, docs/TOUR.md, docs/SCRIPT.md and docs/BPF.md show, as they stand there, each with what the document says
that comes of it."""
import pathlib
import re
from collections import namedtuple

ROOT = pathlib.Path(__file__).resolve().parent.parent.parent
README, TOUR, SCRIPT, BPF = [(ROOT / name).read_text() for name in ("README.md", "docs/TOUR.md", "docs/SCRIPT.md", "docs/BPF.md")]
FIRST = (ROOT / "examples/first.script").read_text()
GRAPH = "graph 4\nbatch A\n+ 0 1\n+ 0 2\n+ 1 2\nend\npin a\n"

# A script, and lines of its output: `said` stand in it in this order, and `last`, where it is given, is the last one.
Case = namedtuple("Case", "script said last", defaults=[None])


def between(text, start, end):
    """The part of a document behind the one place where `start` stands, up to `end`."""
    assert text.count(start) == 1, f"{start!r} stands {text.count(start)} times in a document"
    part = text.split(start)[1]
    assert end in part, f"{end!r} does not stand behind {start!r}"
    return part.split(end)[0]


def rows(text):
    """The cells of each row of a table."""
    return [[cell.strip() for cell in line.strip("|").split(" | ")] for line in text.splitlines() if line.startswith("| ")]


def on_one_line(text):
    """A text wherever its lines are broken."""
    return text.replace("\n", " ")


def codes(cell):
    return re.findall(r"`([^`]*)`", cell)


def blocks(text):
    """The indented blocks of a text."""
    found = re.findall(r"(?:^(?:    .*)?\n)*^    .*\n", text, re.M)
    return [block.strip("\n") + "\n" for block in found]


def number(text):
    return int(text.replace(",", ""))


def program(lines, length=16, name="p"):
    return f"program {name} {length}\n{lines.rstrip()}\nend\n"


def refused(lines, cause, pc, length=16):
    return Case("graph 4\n" + program(lines, length), [f"refused p cause {cause} pc {pc}"])


# docs/SCRIPT.md


def faulty_script(cell):
    """The script of a row of the faults, by the words of its cell."""
    said = codes(cell)
    if cell.startswith("the example, then "):
        return FIRST + said[0] + "\n"
    if match := re.fullmatch(r"([0-9,]+) spaces", cell):
        return " " * number(match[1])
    if match := re.fullmatch(r"`graph 1`, then ([0-9]+) pins with different names", cell):
        return "graph 1\n" + "".join(f"pin p{place}\n" for place in range(int(match[1])))
    if match := re.fullmatch(r"`graph 1`, then ([0-9,]+) times `(.*)`", cell):
        return "graph 1\n" + (match[2].replace(" / ", "\n") + "\n") * number(match[1])
    assert len(said) == 1 and cell == f"`{said[0]}`", f"no script: {cell}"
    return said[0].replace(" / ", "\n") + "\n"


def faults():
    for row in rows(between(SCRIPT, "| C | Means | Script", "\nAn endless line")):
        yield f"fault_{row[0]}", Case(faulty_script(row[2]), [], codes(row[3])[0])


def assembler_faults():
    for row in rows(between(SCRIPT, "| E | Means | Lines", "\nA program has at most")):
        if match := re.fullmatch(r"([0-9,]+) times `(.*)`", row[2]):
            lines = (match[2] + "\n") * number(match[1])
        else:
            lines = codes(row[2])[0].replace(" / ", "\n")
        yield f"assembler_{row[0]}", Case("graph 4\n" + program(lines), codes(row[3]))


def answers_of_code():
    part = between(SCRIPT, "`code` writes one of three lines:", "\nThe edits of a batch")
    for said, code in re.findall(r"^- `(.*)`, as for `(.*)`:", part, re.M):
        yield f"code_{said.split()[0]}", Case("graph 4\n" + code + "\n", [said])


def zeros():
    for line, said in re.findall(r"Leading zeros are allowed: `(.*?)` writes `(.*?)`", SCRIPT):
        yield "zeros", Case(line + "\n", [said], said)


def home_moves():
    """Each end of each range of the table of homes: a list that is in the row's home before gets so many targets."""
    header, *body = rows(between(SCRIPT, "and on how many targets it has then:\n", "\nA batch counts"))
    grown = {"block": 0, "gapped": 13, "tree": 1025}
    for before, *cells in body:
        for home, cell in zip(header[1:], cells):
            for degree in map(number, re.findall(r"[0-9,]+", cell)):
                edits = [f"+ 0 {target}" for target in range(grown[before])]
                later = [f"{'+' if degree > grown[before] else '-'} 0 {target}" for target in range(*sorted((degree, grown[before])))]
                lines = ["graph 1100", "batch A", *edits, "end", "home 0", "batch B", *later, "end", "home 0"]
                said = [f"home 0 {before} degree {grown[before]}", f"home 0 {home} degree {degree}"]
                yield f"home_{before}_{degree}", Case("\n".join(lines) + "\n", said, said[1])


# README.md and docs/TOUR.md


def readme_lines():
    for place, text in enumerate(map(on_one_line, (README, TOUR))):
        code = re.search(r"`(code u 16 [0-9a-f]+)`", text)[1]
        said = re.search(r"`(refused u cause [0-9]+ pc [0-9]+)`", text)[1]
        yield f"readme_refused_{place}", Case(FIRST + code + "\n", [said], said)
    *lines, said = codes(between(on_one_line(TOUR), "A later batch changes nothing that `pin a` holds: ", ", and the same run"))
    rows_before = ["run t a edges 3 total 5", "row 0 3", "row 1 2"]
    yield "readme_removal", Case(FIRST + "\n".join(lines) + "\nrun t a sum -\n", [*rows_before, said, *rows_before], rows_before[-1])
    block = re.search(r"^```\n(program degree .*?)^```$", TOUR, re.M | re.S)[1]
    said = re.search(r"answered with its line, as `(.*?)`", on_one_line(TOUR))[1]
    yield "readme_faulty_text", Case("graph 4\n" + block.replace("ldxw r0, ", "ldxw ") + "pin a\n", [said, "pin a version 0 edges 0"])
    least = re.search(r"^\| `(edges 0 total [0-9]+)` \| `min` over zero edges", TOUR, re.M)[1]
    yield "readme_least_of_none", Case("graph 4\npin a\ncode t 16 61100400000000009500000000000000\nrun t a min -\n", ["run t a " + least])


def shown_of_examples():
    """What README and the tour say that examples write; the tour has their text from their files."""
    yield "first", between(README, "$ ./edgebpf < examples/first.script\n", "$ ")
    for said in re.findall(r"`(program degree bound .*?|refused careless .*?)`", on_one_line(TOUR)):
        yield "score" if "degree" in said else "weights", said + "\n"


def explained():
    """The words of README's explanation, and what it prints."""
    words, said = between(README, "$ tools/edgebpf-explain ", "```").split("\n", 1)
    return words.split(), said


# docs/BPF.md


def helper_programs():
    part = between(BPF, "exit with the number that stands beside `exit`. They\nare tests.\n", "\nThis one gathers")
    for place, block in enumerate(blocks_apart(part)):
        # There is no branch, so all of its lines are executed.
        bound, result = len(block.splitlines()), re.search(r"exit *; ([0-9]+)$", block, re.M)[1]
        said = [f"program p bound {bound} frames 1", f"run p a edges 2 total {result}", f"row 0 {result}"]
        yield f"helper_{place + 1}", Case(GRAPH + program(block) + "run p a min - 0\n", said, said[-1])


def blocks_apart(text):
    """The indented blocks, where a blank line ends one."""
    return [part + "\n" for part in re.split(r"\n\n+", text.strip("\n")) if part.startswith("    ")]


def gathering():
    part = between(BPF, "\nThis one gathers", "\n`examples/mutual.script`")
    words, block = part.replace("\n", " "), blocks_apart(part)[-1]
    result, bound = re.search(r"the run exits with ([0-9]+)\. The bound is ([0-9]+):", words).groups()
    graph = "graph 4\nbatch A\n+ 0 1\n+ 0 2\n+ 0 3\nend\npin a\n"
    said = [f"program p bound {bound} frames 1", f"run p a edges 3 total {result}", f"row 0 {result}"]
    yield "gather", Case(graph + program(block) + "run p a min -\n", said, said[-1])
    answered = re.search(r"so `call 5` answers ([0-9]+)", words)[1]
    early = block.replace("    ldxw r0, [r10-8]\n", "")
    yield "gather_count", Case(graph + program(early) + "run p a min -\n", [f"run p a edges 3 total {answered}"])
    wrong = block.replace("mov r4, 16", codes(between(BPF, "So is the program above that gathers, at its `call 5`, with ", "\n"))[0])
    yield "gather_room", refused(wrong, 13, [line.strip() for line in block.splitlines()].index("call 5"))


def causes():
    part = between(BPF, "### Each cause, and a program that meets it\n", "\n### What is known after")
    for said in re.split(r"^(?=\*\*[0-9]+ `)", part, flags=re.M)[1:]:
        cause = int(re.match(r"\*\*([0-9]+)", said)[1])
        shown = blocks_apart(said)
        if cause == 1:
            code = re.search(r"refused at pc 0 since no\ninstruction .*: `([0-9a-f]+)`", said)[1]
            yield "cause_1", Case(f"graph 4\ncode p 16 {code}\n", ["refused p cause 1 pc 0"])
        if cause == 6:
            assert "Nine functions, each of which calls the next, are refused\nat pc 0; eight are not" in said
            yield "cause_6", refused(chain(9, 1), 6, 0)
        if cause == 7:
            assert "Eight functions, of which each but the last calls\nthe next ten times, are refused at pc 0" in said
            yield "cause_7", refused(chain(8, 10), 7, 0)
        if cause == 18:
            assert "take eight functions. Each but the\nlast has ten times a branch, which skips a call of the next function and an exit; then it exits. They are refused at pc 0" in said
            yield "cause_18", refused(branching(8, 10), 18, 0)
        for place, block in enumerate(shown):
            length = 20 if "With record length 20" in said.split(block)[0] else 16
            yield f"cause_{cause}_{place}", refused(block, cause, re.search(r"; pc ([0-9]+)", block)[1], length)
    # A call and an exit of each of seven, and the two lines of the last one.
    yield "cause_6_eight", Case("graph 4\n" + program(chain(8, 1)), ["program p bound 16 frames 8"])


def branching(count, times):
    """So many functions, of which each but the last has some times a branch past a call of the next and an exit, and then an exit."""
    lines = []
    for function in range(count - 1):
        lines += [f"f{function}:"]
        for call in range(times):
            lines += [f"    jeq r0, 0, n{function}_{call}", f"    calllocal f{function + 1}", "    exit", f"n{function}_{call}:"]
        lines += ["    exit"]
    return "\n".join([*lines, f"f{count - 1}:", "    mov r0, 0", "    exit"]) + "\n"


def chain(count, times):
    """Functions of which each but the last calls the next so many times."""
    lines = []
    for function in range(count - 1):
        lines += [f"f{function}:", *[f"    calllocal f{function + 1}"] * times, "    exit"]
    return "\n".join([*lines, f"f{count - 1}:", "    mov r0, 0", "    exit"]) + "\n"


def bounds():
    part = between(BPF, "This program has\nbound ", "\nAn accepted program never traps")
    bound, frames, result = re.match(r"([0-9]+) and frames ([0-9]+), and exits with ([0-9]+):", part).groups()
    said = [f"program p bound {bound} frames {frames}", f"run p a edges 2 total {result}"]
    yield "bound", Case(GRAPH + program(blocks_apart(part)[0]) + "run p a min - 0\n", said)


def narrowing():
    part = between(BPF, "With record length 20 this loads one of the four bytes", "\n## Programs from C")
    block, words = blocks_apart(part)[0], part.replace("\n", " ")
    bound = re.search(r"is accepted with bound ([0-9]+):", words)[1]
    yield "narrowed", Case("graph 4\n" + program(block, 20), [f"program p bound {bound} frames 1"])
    other, cause, pc = re.search(r"With `(.*?)` it is refused, cause ([0-9]+) at pc ([0-9]+)\.", words).groups()
    yield "narrowed_wide", refused(block.replace("jge r3, 4, out", other), cause, pc, 20)
    pc, load, old_load, jump, old_jump = re.search(r"So is it, at pc ([0-9]+), with `(\w+)` in place of `(\w+)` and `(\w+)` in place of `(\w+)`:", words).groups()
    short = block.replace(f"{old_load} r3", f"{load} r3").replace(f"{old_jump} ", f"{jump} ")
    yield "narrowed_short", refused(short, cause, pc, 20)
    line = re.search(r"`(mov32 r3, r3)` before the branch .* is accepted again", words)[1]
    # One line more on the longest walk.
    cut = short.replace(f"    {jump}", f"    {line}\n        {jump}")
    yield "narrowed_again", Case("graph 4\n" + program(cut, 20), [f"program p bound {int(bound) + 1} frames 1"])


def assembler_lines():
    part = between(BPF, "The first fault is reported with its line", "\nIf all lines are well")
    listed = between(BPF, "and `NumberRange` if it is too far away. The causes have the numbers ", "`OutOfMemory`.")
    numbers = {name: int(cause) for cause, name in re.findall(r"([1-7]) `(\w+)`", listed)}
    for name, rest in re.findall(r"^[0-9]\. `(\w+)`(.*)$", part, re.M):
        for place, line in enumerate(codes(rest.split(": ", 1)[1])):
            yield f"line_{name}_{place}_{line.split()[0].strip(':')}", Case("graph 4\n" + program(line), [f"assembler p error {numbers[name]} line 1"])


def all_cases():
    """The cases of each part of the documents, by their names."""
    parts = [faults, assembler_faults, answers_of_code, zeros, home_moves, readme_lines]
    parts += [helper_programs, gathering, causes, bounds, narrowing, assembler_lines]
    return {part.__name__: dict(part()) for part in parts}


def traps():
    """The number and name of each trap, the bytes of its program and of its table, and the pc where it stops."""
    for row in rows(between(BPF, "| Kind | When | Program |", "\nIf several apply")):
        kind, name = re.match(r"([0-9]+) `(\w+)`", row[0]).groups()
        pc = re.search(r", at pc ([0-9]+)$", row[2])
        code, table = (*codes(row[2]), "")[:2]
        yield int(kind), name, bytes.fromhex(code), bytes.fromhex(table), int(pc[1]) if pc else 0


def disassembly():
    """A code, and the text of it."""
    part = between(BPF, "`Lk:`. So\n", "\nIt refuses code")
    return bytes.fromhex(codes(part)[0]), re.sub("^    ", "", blocks_apart(part)[0], flags=re.M)


def long_text():
    """The text by which the grammar is shown."""
    return blocks_apart(between(BPF, "are such a text. Each line says one thing:\n", "\nA line is one of these"))[0]


def words():
    """The words of statements; those of some rows, and the branches, may have 32 behind them."""
    table = rows(between(BPF, "| Words | Arguments |", "\nThe words of the first two rows and the branches"))
    of_rows = [[word for word in codes(row[0]) if word != "[r1]"] for row in table]
    branches = next(row for row in of_rows if "jeq" in row)
    return {word for row in of_rows for word in row} | {word + "32" for row in (*of_rows[:2], branches) for word in row}


def c_program():
    """The C of the first program in C, and the words of the command below it."""
    source, command = blocks_apart(between(BPF, "makes the `code` line of a function in C:\n", "\n`tools/edgebpf.h` has"))
    return re.sub("^    ", "", source, flags=re.M), command.split()


def is_said(case, output):
    """Whether an output has what the document says."""
    lines = output.splitlines()
    left = iter(lines)
    in_order = all(said in left for said in case.said)
    return in_order and (case.last is None or lines[-1:] == [case.last])

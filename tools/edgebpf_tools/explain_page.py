"""A page of what the program `edgebpf_explain` tells: the listing, the ways drawn beside it, and what is known at the place
that one points at. It is made of the program's text, and nothing of it is proved."""
import html
import re
from dataclasses import dataclass, field

ROW = 24
LANE = 12
INSTRUCTION = re.compile(r"(\d+)(?:, line (\d+))?: (.*)")
STYLE = """
body { font: 15px/1.4 system-ui, sans-serif; margin: 1.5rem; color: #222; background: #fff; }
h1 { font-size: 1.2rem; } h2 { font-size: 1rem; margin: 0 0 .5rem; }
.verdict { border-left: .3rem solid #2a7; padding: .2rem .8rem; margin: 1rem 0; }
.verdict.refused { border-color: #c33; }
.verdict p { margin: .2rem 0; }
.columns { display: flex; gap: 1.5rem; align-items: flex-start; }
.listing { display: flex; overflow-x: auto; }
.listing svg { flex: none; }
ol { list-style: none; margin: 0; padding: 0; font: 14px/24px ui-monospace, monospace; }
ol li { white-space: pre; height: 24px; padding: 0 .8rem 0 .3rem; cursor: default; border-radius: .2rem; }
ol li:hover, ol li:focus, ol li.shown { background: #e4eefc; outline: none; }
ol li.refused { background: #fbdcdc; }
ol li.refused.shown { background: #f6bcbc; }
ol li.unreached { color: #888; }
ol .pc { display: inline-block; width: 2.4em; text-align: right; color: #777; margin-right: 1em; }
ol .line { color: #999; margin-left: 1.5em; }
aside { position: sticky; top: 1rem; min-width: 20rem; border: 1px solid #ccc; border-radius: .3rem; padding: .7rem 1rem; }
aside dl { display: grid; grid-template-columns: auto 1fr; gap: .1rem 1rem; margin: 0; font: 14px/1.5 ui-monospace, monospace; }
aside dd { margin: 0; } aside .note { color: #777; }
path { fill: none; stroke-width: 1.6; } .next { stroke: #bbb; } .jump { stroke: #36c; } .call { stroke: #a50; stroke-dasharray: 4 2; }
.head-jump { fill: #36c; } .head-call { fill: #a50; }
.key span { margin-right: 1.2rem; } .key .jump { color: #36c; } .key .call { color: #a50; } .key .next { color: #888; }
"""
SCRIPT = """
const aside = document.querySelector("aside");
function show(row) {
  for (const other of document.querySelectorAll("li.shown")) other.classList.remove("shown");
  row.classList.add("shown");
  aside.innerHTML = document.getElementById("known-" + row.dataset.pc).innerHTML;
}
for (const row of document.querySelectorAll("ol li")) {
  row.addEventListener("mouseenter", () => show(row));
  row.addEventListener("focus", () => show(row));
}
show(document.querySelector("li.refused") || document.querySelector("ol li"));
"""


# What stands in place of a state.
UNREACHED = ("no run comes here", "this call does not come here")


@dataclass
class Instruction:
    """An instruction of the listing. What is known before it is None where nothing is told of it."""

    pc: int
    line: int | None
    text: str
    known: list[tuple[str, str]] | None = None
    # Why nothing is known, where no run comes, or none by the call that is listed.
    unreached: str | None = None
    # Of a function's first instruction the call that is told.
    called_at: int | None = None


@dataclass
class Told:
    """What the program tells."""

    head: str = ""
    listing: list[Instruction] = field(default_factory=list)
    end: list[str] = field(default_factory=list)


@dataclass
class Way:
    """A way from one row of the listing to another."""

    kind: str
    start: int
    end: int
    lane: int = 0


def known_things(line):
    """What is known, as names and values: `  r1 record+0  bytes[0] -8 to -1` and the like."""
    things = []
    for thing in line.strip().split("  "):
        words = thing.split(" ")
        count = 2 if words[0].startswith("slot") else 1
        things.append((" ".join(words[:count]), " ".join(words[count:])))
    return things


def read(text):
    """What the text of the program tells."""
    told = Told()
    lines = text.splitlines()
    told.head, called_at = lines[0], None
    for number, line in enumerate(lines[1:], 1):
        if line.startswith(("accepted", "refused")):
            told.end = lines[number:]
            break
        if line.startswith("    "):
            if line.strip() in UNREACHED:
                told.listing[-1].unreached = line.strip()
            else:
                told.listing[-1].known = known_things(line)
        elif line.startswith("called at "):
            called_at = int(line.removeprefix("called at "))
        else:
            pc, source_line, statement = INSTRUCTION.fullmatch(line).groups()
            told.listing.append(Instruction(int(pc), source_line and int(source_line), statement, called_at=called_at))
            called_at = None
    return told


def labels(listing, source):
    """The row to which each label goes: those of a source text, or the disassembler's, which name the unit."""
    rows = {f"L{instruction.pc}": row for row, instruction in enumerate(listing)} if source is None else {}
    for number, line in enumerate((source or "").split("\n"), 1):
        said = line.split(";")[0].strip()
        if said.endswith(":"):
            behind = [row for row, instruction in enumerate(listing) if instruction.line > number]
            if behind:
                rows[said[:-1]] = behind[0]
    return rows


def ways(listing, source):
    """The ways between the rows of a listing: to the next one, by jumps, and by calls."""
    rows, found = labels(listing, source), []
    for row, instruction in enumerate(listing):
        word, *arguments = re.split(r"[ ,]+", instruction.text)
        jumps = word.startswith("j") or word == "calllocal"
        if jumps and arguments and arguments[-1] in rows:
            found.append(Way("call" if word == "calllocal" else "jump", row, rows[arguments[-1]]))
        goes_on = word not in ("exit", "ja", "ja32", "no")
        if goes_on and row + 1 < len(listing):
            found.append(Way("next", row, row + 1))
    return found


def spread(found):
    """Gives each jump and call a lane in which no other one runs beside it: short ones stand next to the listing."""
    lanes = []
    arcs = sorted((way for way in found if way.kind != "next"), key=lambda way: (abs(way.end - way.start), way.start))
    for way in arcs:
        low, high = sorted((way.start, way.end))
        for lane, taken in enumerate(lanes):
            if all(high < other_low or other_high < low for other_low, other_high in taken):
                break
        else:
            lane, taken = len(lanes), []
            lanes.append(taken)
        taken.append((low, high))
        way.lane = lane
    return len(lanes)


def drawing(found, count):
    """The ways as a drawing that stands left of the rows."""
    width = 24 + LANE * spread(found)
    edge = width - 4
    parts = []
    for way in found:
        start, end = ROW * way.start + ROW // 2, ROW * way.end + ROW // 2
        if way.kind == "next":
            parts.append(f'<path class="next" d="M{edge - 4} {start + 5}V{end - 5}"/>')
            continue
        side = edge - 14 - LANE * way.lane
        down = 1 if end >= start else -1
        from_y, to_y = start + 3, end - 3 * down
        parts.append(
            f'<path class="{way.kind}" d="M{edge - 8} {from_y}H{side + 5}Q{side} {from_y} {side} {from_y + 5 * down}'
            f'V{to_y - 5 * down}Q{side} {to_y} {side + 5} {to_y}H{edge - 8}"/>'
            f'<path class="head-{way.kind}" style="fill:currentColor" color="{"#a50" if way.kind == "call" else "#36c"}" '
            f'd="M{edge - 3} {to_y}l-6 -3.5v7z"/>'
        )
    title = "<title>The ways between the instructions</title>"
    return f'<svg role="img" width="{width}" height="{ROW * count}" viewBox="0 0 {width} {ROW * count}">{title}{"".join(parts)}</svg>'


def known_text(instruction):
    """What is known before an instruction, as the panel shows it."""
    head = f"<h2>Before {instruction.pc}: <code>{html.escape(instruction.text)}</code></h2>"
    if instruction.called_at is not None:
        head += f'<p class="note">A function begins here, called at {instruction.called_at}.</p>'
    if instruction.unreached:
        return head + f'<p class="note">{instruction.unreached.capitalize()}.</p>'
    if instruction.known is None:
        return head + '<p class="note">Nothing is told of this place.</p>'
    things = "".join(f"<dt>{html.escape(name)}</dt><dd>{html.escape(value)}</dd>" for name, value in instruction.known)
    return f"{head}<dl>{things}</dl>"


def row_text(instruction, refused_at):
    kinds = [name for name, holds in (("refused", instruction.pc == refused_at), ("unreached", instruction.unreached)) if holds]
    marks = f' class="{" ".join(kinds)}"' if kinds else ""
    line = f'<span class="line">line {instruction.line}</span>' if instruction.line else ""
    return (
        f'<li id="pc-{instruction.pc}" data-pc="{instruction.pc}" tabindex="0"{marks}><span class="pc">{instruction.pc}</span>'
        f"{html.escape(instruction.text)}{line}</li>"
    )


def page(text, source=None):
    """The page of what the program told, of a source text if there is one."""
    told = read(text)
    refused = INSTRUCTION.fullmatch(told.end[0].removeprefix("refused at "))
    refused_at = int(refused[1]) if refused else None
    rows = "\n".join(row_text(instruction, refused_at) for instruction in told.listing)
    known = "\n".join(f'<template id="known-{one.pc}">{known_text(one)}</template>' for one in told.listing)
    verdict = "".join(f"<p>{html.escape(line)}</p>" for line in told.end)
    kind = "verdict refused" if told.end[0].startswith("refused") else "verdict"
    return f"""<!DOCTYPE html>
<html lang="en">
<head><meta charset="utf-8"><title>{html.escape(told.end[0])}</title><style>{STYLE}</style></head>
<body>
<h1>{html.escape(told.head)}</h1>
<div class="{kind}">{verdict}</div>
<p class="key"><span class="next">&#9474; goes on</span><span class="jump">&#8594; jumps</span><span class="call">&#8674; calls</span></p>
<div class="columns">
<div class="listing">{drawing(ways(told.listing, source), len(told.listing))}<ol>
{rows}
</ol></div>
<aside></aside>
</div>
{known}
<script>{SCRIPT}</script>
</body>
</html>
"""

"""What the verifier says of a program, at its lines of C: the state with the names of variables, the rule, and what usually helps."""
import functools
import html
import os
import pathlib
import re

from edgebpf_tools.debug_info import names_at, variables
from edgebpf_tools.explain_page import STYLE, read

TOO_MANY_INSTRUCTIONS, UNSET_REGISTER, POINTER_USE, OUT_OF_RANGE = 7, 8, 10, 11
FEWER_NEIGHBOURS = (
    "; the bound of for_each_neighbour counts 65,536 neighbours, so no other loop over neighbours fits into it: for_64_neighbours_or fits "
    "into for_1024_neighbours_or, and both answer a number of yours for a vertex that has more"
)
LOCAL_ARRAY = (
    "a local array cannot be indexed by a variable. Use the end of the record in its place, which may be: give it more bytes, and index "
    "SCRATCH(edge, u8) with an index that was compared with a constant"
)
UNDEFINED = (
    "set the variable on each way that leads here; clang also leaves out what C does not define, as a shift by more bits than there are"
)
PACE = re.compile(r"(runs edge by edge, since the instruction) at pc (\d+) (.*)")
INDEX = (
    "compare the index with a constant before it is used, as in `if (index >= N) return 0;`, and use what was compared; at_most(index, N - 1) "
    "of edgebpf.h does both. The record has {length} bytes, and its argument {argument}"
)


class CWords:
    """A linked program beside its source."""

    def __init__(self, objects, program, length):
        self.objects, self.program, self.length = objects, program, length

    @functools.cached_property
    def variables(self):
        return variables(self.objects.path)

    def line(self, pc):
        """The file and the line of an instruction, the file as seen from here; None where they are not known."""
        place = self.program.places.get(pc)
        line = self.objects.line(*place) if place and place[1] is not None else None
        if line is None:
            return None
        path, _, number = line.rpartition(":")
        relative = os.path.relpath(path)
        return (path if relative.startswith("..") else relative), int(number)

    def place(self, pc):
        """The same for the beginning of a message."""
        line = self.line(pc)
        return f"{line[0]}:{line[1]}: " if line else f"unit {pc}: "

    def named(self, register, pc):
        """A register as a person knows it: by its variable, if one is there."""
        function, offset = self.program.places[pc]
        names = names_at(self.variables, function.start + offset) if offset is not None else {}
        number = int(register[1:])
        return f"{names[number]} ({register})" if number in names else register

    def source(self, path, number):
        """The text of a line."""
        lines = _lines(path)
        return lines[number - 1] if 0 < number <= len(lines) else ""

    def state(self, known, pc):
        """The state before an instruction, with names; the frame register is left out."""
        parts = []
        for name, value in known or ():
            if name != "r10":
                parts.append(f"{self.named(name, pc) if re.fullmatch('r[0-9]', name) else name} {value}")
        return "  ".join(parts)

    def advice(self, cause, pc, known, usual):
        """What helps at a refused instruction. `known` has what was known of the registers that it reads."""
        if cause in (POINTER_USE, OUT_OF_RANGE) and any(value.startswith("stack") for value in known.values()) and len(known) > 1:
            return LOCAL_ARRAY
        if cause == UNSET_REGISTER:
            return UNDEFINED
        if cause == TOO_MANY_INSTRUCTIONS:
            return usual + FEWER_NEIGHBOURS
        if cause == OUT_OF_RANGE and any(" to " in value and not value.startswith("record") for value in known.values()):
            return INDEX.format(length=self.length, argument=self.length - 16)
        return usual

    def lacking_table(self, told):
        """The name of the third parameter, if a program is refused since it reads that and has no table; else None."""
        explained = read(told)
        if not any(line.startswith(f"rule {UNSET_REGISTER}:") for line in explained.end) or "known of r3: nothing" not in explained.end:
            return None
        first = explained.listing[0]
        if "r3" in dict(first.known or ()) or any(instruction.called_at is not None for instruction in explained.listing):
            return None
        function, _ = self.program.places[0]
        return names_at(self.variables, function.start).get(3)

    def refusal(self, told):
        """The lines that say why a program is refused, from the text of edgebpf-explain."""
        end = read(told).end
        head = re.match(r"refused at (\d+)", end[0])
        pc = int(head[1]) if head else 0
        rule = re.match(r"rule (\d+): (.*)", end[1])
        known = dict(re.fullmatch(r"known of (r\d+): (.*)", line).groups() for line in end[2:] if line.startswith("known of r"))
        frames = [line.removeprefix("known of ") for line in end[2:] if line.startswith("known of frame")]
        usual = end[-1].removeprefix("what helps: ")
        lines = [f"{self.place(pc)}{rule[2]}"]
        if line := self.line(pc):
            lines.append(f"    {self.source(*line).strip()}")
        # Of the calls that are open the last one first.
        calls = [instruction.called_at for instruction in read(told).listing if instruction.called_at is not None]
        lines += [f"    called at {self.place(call).removesuffix(': ')}" for call in reversed(calls)]
        lines += [f"    {self.named(register, pc)}: {value}" for register, value in known.items()]
        lines += [f"    {frame}" for frame in frames]
        lines.append(f"    what helps: {self.advice(int(rule[1]), pc, known, usual)}")
        return lines

    def accepted(self, told):
        """The lines that say how runs of an accepted program go, an instruction at its line of C."""
        return [self.pace(line) for line in read(told).end]

    def pace(self, line):
        found = PACE.fullmatch(line)
        place = self.line(int(found[2])) if found else None
        return f"{found[1]} at {place[0]}:{place[1]} {found[3]}" if place else line

    def by_line(self, told):
        """For each line of C, in the order of the files and lines, the instructions that it became."""
        found = {}
        for instruction in read(told).listing:
            if line := self.line(instruction.pc):
                found.setdefault(line, []).append(instruction)
        return sorted(found.items())

    def listing(self, told):
        """The source with the state before each line that became code."""
        lines, last = [], None
        for (path, number), instructions in self.by_line(told):
            if path != last:
                lines.append(f"{path}:")
                last = path
            lines.append(f"{number:5} | {self.source(path, number)}")
            first = instructions[0]
            units = f"{len(instructions)} instruction{'s' if len(instructions) > 1 else ''} from unit {first.pc}"
            known = first.unreached or self.state(first.known, first.pc)
            lines.append(f"      |     [{units}] {known}")
        end = read(told).end
        return "\n".join(lines + (end[:1] if end[0].startswith("refused") else self.accepted(told))) + "\n"

    def page(self, told):
        """The same as a page: each line of C with the instructions that it became, and the state before each."""
        rows, refused = [], re.match(r"refused at (\d+)", read(told).end[0])
        for (path, number), instructions in self.by_line(told):
            is_refused = refused and any(one.pc == int(refused[1]) for one in instructions)
            head = f"<summary{' class=refused' if is_refused else ''}>{html.escape(f'{path}:{number}')} <code>" + html.escape(self.source(path, number))
            states = [
                f"<dt>{one.pc}: <code>{html.escape(one.text)}</code></dt><dd>{html.escape(self.state(one.known, one.pc))}</dd>" for one in instructions
            ]
            rows.append(f"<details{' open' if is_refused else ''}>{head}</code></summary><dl>{''.join(states)}</dl></details>")
        end = "".join(f"<p>{html.escape(line)}</p>" for line in (self.refusal(told) if refused else self.accepted(told)))
        kind = "verdict refused" if refused else "verdict"
        title = html.escape(read(told).end[0])
        style = STYLE + "summary { white-space: pre; } summary.refused { background: #fbdcdc; } dl { margin: .2rem 2rem; }"
        return (
            f'<!DOCTYPE html>\n<html lang="en">\n<head><meta charset="utf-8"><title>{title}</title><style>{style}</style></head>\n'
            f'<body>\n<h1>{title}</h1>\n<div class="{kind}">{end}</div>\n' + "\n".join(rows) + "\n</body>\n</html>\n"
        )


@functools.lru_cache(100)
def _lines(path):
    try:
        return pathlib.Path(path).read_text(errors="replace").split("\n")
    except OSError:
        return []

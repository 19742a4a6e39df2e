"""Prints the reading list of docs/HEADLINE.md: each file with its lines, and how many of these are to be read.

Run it at the top of the repository. A line is to be read if it is neither empty nor a comment, an import or an attribute, and stands outside of
each `impl`: the calls of a type are inner.
"""
import re
from pathlib import Path

LIST = [
    ("What a program is", [
        ("bpf_image/src/limits.rt", "how long records and tables are"),
        ("bpf_image/src/lengths.rt", "the lengths of both, as a type"),
        ("bpf_isa/src/limits.rt", "how long code is"),
        ("bpf_image/specs/Program.antt", "a program; which lengths are allowed"),
        ("bpf_isa/src/instruction.rt", "the instructions, as types (their calls are inner)"),
        ("bpf_isa/specs/Encoding.antt", "which bytes spell each"),
        ("bpf_isa/specs/Sizes.antt", "how many bytes loads and stores move"),
    ]),
    ("What a run is", [
        ("bpf_model/src/limits.rt", "addresses, frames, limits"),
        ("bpf_model/src/trap.rt", "why a run may stop"),
        ("bpf_model/specs/State.antt", "registers, memory, frames; which accesses are allowed"),
        ("bpf_model/specs/Arithmetic.antt", "what is computed and compared"),
        ("bpf_model/specs/Calls.antt", "functions and their frames"),
        ("bpf_model/specs/Next.antt", "goes on, exits or traps"),
        ("bpf_model/specs/Helpers.antt", "what a program may ask of the graph"),
        ("bpf_model/specs/Step.antt", "one step of each instruction"),
        ("bpf_model/specs/Run.antt", "steps in turn; the outcome of a run, and its number"),
        ("map_model/src/limits.rt", "the edge's part of a record"),
        ("map_model/specs/EdgeMap.antt", "the record of an edge; all edges with their numbers"),
        ("map_model/specs/Parts.antt", "a map in parts; the numbers of pairs"),
        ("verifier/specs/Sound.antt", "`IsFine`, `IsRecord`, `NeverGoesWrong`, `AlwaysExits`; the others are inner"),
        ("bpf_locality/specs/Locality.antt", "what a step touches"),
    ]),
    ("What a version is", [
        ("past_model/src/limits.rt", "how many vertices, edits, batches, feeds"),
        ("graph_model/specs/Graph.antt", "graphs, neighbours, degree"),
        ("graph_model/specs/Views.antt", "what a graph answers a program"),
        ("past_model/specs/Edits.antt", "what a batch does"),
        ("past_model/specs/Past.antt", "the replay of a log on its base"),
        ("past_model/specs/Epochs.antt", "a rebase, and which past is before another"),
    ]),
    ("What may happen, in which order", [
        ("store_model/src/limits.rt", "readers, places of the queue"),
        ("store_model/src/event.rt", "the events, as a type (its call is inner)"),
        ("store_model/src/reply.rt", "the answers, as a type"),
        ("store_model/specs/Core.antt", "all that the store has"),
        ("store_model/specs/Events.antt", "which event may happen, what it does and is answered; lists of events"),
        ("store_model/specs/Laws.antt", "`IsRight` and the laws; the worked row is inner"),
    ]),
]

IMPORTS = ("use ", "pub use ", "ghost use ")
NOT_READ = ("--", "//", "#[")


# The calls of a type, up to the brace that ends them.
CALLS = re.compile(r"^impl\b.*?^}$", re.M | re.S)


def to_read(text):
    """How many lines of a file are neither empty nor of calls, a comment, an attribute or an import, which may go over several lines."""
    count, inside = 0, False
    for line in map(str.strip, CALLS.sub("", text).splitlines()):
        if inside:
            inside = "}" not in line
        elif line.startswith(IMPORTS):
            inside = "{" in line and "}" not in line
        elif line and not line.startswith(NOT_READ):
            count += 1
    return count


def main():
    """Prints one table, with a sum after each part and at the end."""
    crates = Path(__file__).resolve().parent.parent.parent / "crates"
    print("| | File, under `crates/` | Lines | To read | Has |\n|---|---|---|---|---|")
    place, all_lines, all_read = 0, 0, 0
    for part, files in LIST:
        part_lines, part_read, rows = 0, 0, []
        for path, what in files:
            text = (crates / path).read_text()
            lines, read = len(text.splitlines()), to_read(text)
            place += 1
            rows.append(f"| {place} | `{path}` | {lines} | {read} | {what} |")
            part_lines, part_read = part_lines + lines, part_read + read
        print(f"| | **{part}** | {part_lines} | {part_read} | |")
        print("\n".join(rows))
        all_lines, all_read = all_lines + part_lines, all_read + part_read
    print(f"| | **In all** | {all_lines} | {all_read} | |")


main()

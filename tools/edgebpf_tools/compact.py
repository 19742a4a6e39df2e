"""A session in fewer lines: the graph of each pin and the last one, each by what differs from the one before, and the programs."""
from edgebpf_tools.commands import changes
from edgebpf_tools.language import Complaint
from edgebpf_tools.limits import MOST_EDITS, MOST_KEPT
from edgebpf_tools.live_store import LiveStore

# It answers 0 for each edge.
ZERO = "b7000000000000009500000000000000"
REBASE_BATCHES = 4_000
# So many numbers fit into a line.
MOST_NUMBERS = 3_000
OF_COLUMNS = ("column", "pull", "push", "each")


def differences(before, after):
    """The batches that make one set of edges of another."""
    edits = [f"- {edge}" for edge in before - after] + [f"+ {edge}" for edge in after - before]
    edits.sort(key=lambda edit: tuple(map(int, edit.split()[1:])))
    return [["batch A", *edits[at : at + MOST_EDITS], "end"] for at in range(0, len(edits), MOST_EDITS)]


def unused(names):
    return next(name for name in (f"p{number}" for number in range(len(names) + 1)) if name not in names)


def edges_at(scratch, pin):
    return {line.split(" ", 1)[1].rpartition(" ")[0] for line in scratch.ask([f"list zero {pin} -"])[1:]}


def column_lines(live, name):
    """The lines that make a column as it is in a session."""
    spans = [[0]]
    for vertex, number in (map(int, line.split()[1:]) for line in live.ask([f"values {name}"])):
        first, *numbers = spans[-1]
        if vertex != first + len(numbers) or len(numbers) == MOST_NUMBERS:
            spans.append([vertex])
        spans[-1].append(number)
    return [" ".join(map(str, ["column", name, *span])) for span in spans]


def compacted(sent, programs):
    """The lines of a session with the same graph, pins and programs, of which `programs` are kept, after a rebase. Its columns are left out."""
    every, last_of, lines = [command for command in changes(sent) if command[0].split()[0] not in OF_COLUMNS], {}, []
    pins = [command[0].split()[1] for command in every if command[0].startswith("pin")]
    last = unused(pins)
    if len(pins) >= MOST_KEPT:
        raise Complaint(f"there are {MOST_KEPT} pins, and the last graph needs one more to be listed")
    for command in every:
        if command[0].split()[0] in ("code", "image", "program"):
            last_of[command[0].split()[1]] = command
    with LiveStore.started() as scratch:
        for command in [*every, [f"pin {last}"], [f"code zero 16 {ZERO}"]]:
            if command[0].split()[0] not in ("image", "program") and (command[0].split()[0] != "code" or ZERO in command[0]):
                scratch.ask(command)
        lines, before, batches = every[0][:], set(), 0
        for pin in [*pins, last]:
            after = edges_at(scratch, pin)
            for batch in differences(before, after):
                batches += 1
                lines += batch if batches % REBASE_BATCHES else [*batch, "rebase"]
            lines += [f"pin {pin}"] if pin != last else ["rebase"]
            before = after
    return lines + [line for name, command in last_of.items() if name in programs for line in command]

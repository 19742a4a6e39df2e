#!/usr/bin/python3
"""Measures the CPU time of the prover by crate, from outside: start it beside an `rt ci`, and end it by Ctrl-C.

    tools/dev/measure_gate.py [PROCESS] [--write]   PROCESS is the number of the `rt ci`: no other prover counts

Every second it reads what each prover process has used so far. A process whose folder is one of an edit counts as edits, any other as proofs.
Seconds that a process uses after its last sample are missed. The table goes to standard output, and with --write into docs/figures/gate_crates.txt; the
whole run is then a row more of gate_runs.txt.
"""
import collections
import datetime
import os
import pathlib
import signal
import sys
import time

import figures

TICKS = os.sysconf("SC_CLK_TCK")
# Crates that take less are one row.
LEAST_SECONDS = 200
CRATES = pathlib.Path(__file__).resolve().parent.parent.parent / "crates"


def is_below(process, top):
    """Whether a process was started by another, or by one that was."""
    while process > 1:
        if process == top:
            return True
        process = int(pathlib.Path(f"/proc/{process}/stat").read_text().rpartition(")")[2].split()[1])
    return False


def provers(top):
    """The prover's processes: their number with the time of their start, their crate, whether they try an edit, and the seconds used."""
    for folder in pathlib.Path("/proc").glob("[0-9]*"):
        try:
            words = (folder / "cmdline").read_text(errors="replace").split("\0")
            if "--crate-name" not in words or not words[0].endswith("/rattle"):
                continue
            if top is not None and not is_below(int(folder.name), top):
                continue
            fields = (folder / "stat").read_text().rpartition(")")[2].split()
            place = os.readlink(folder / "cwd")
        except OSError:
            continue
        crate = words[words.index("--crate-name") + 1]
        is_edit = any("rt-edit" in word for word in [place, *words])
        yield (folder.name, fields[19]), crate, is_edit, (int(fields[11]) + int(fields[12])) / TICKS


def edits_of(crate):
    return len(list((CRATES / crate / "must-fail").glob("*.edit")))


def rows_of(sums):
    """A row for each crate that takes long, and one for the others."""
    found = sorted(sums.items(), key=lambda item: -sum(item[1]))
    long = [(crate, seconds) for crate, seconds in found if sum(seconds) >= LEAST_SECONDS]
    rows = [[f"`{crate}`", f"{proofs:.0f}", f"{edits:.0f}" if edits else "", str(edits_of(crate) or "")] for crate, (proofs, edits) in long]
    rest = found[len(long):]
    return rows + [[f"the other {len(rest)} crates, each less than {LEAST_SECONDS}", f"{sum(map(sum, (seconds for _, seconds in rest))):,.0f} in all", "", ""]]


def write(sums, seconds):
    """The table by crates, and the run as one row: its day and commit, the machine, edits, CPU minutes, and minutes by the clock."""
    when, minutes = figures.now(), [sum(column) / 60 for column in zip(*sums.values())]
    day, commit, load = when.replace("commit ", "").split(", ")
    edits = sum(edits_of(path.name) for path in CRATES.iterdir())
    figures.write("gate_crates", ("Crate", "Proof, CPU seconds", "Edits, CPU seconds", "Edits tried"), rows_of(sums), when)
    figures.add("gate_runs", [
        "`rt ci`", f"{day}, {commit}", f"{os.cpu_count()} cores, {load}", str(edits),
        f"{sum(minutes):.0f} ({minutes[0]:.0f} for proofs and tests, {minutes[1]:.0f} for edits)", str(datetime.timedelta(seconds=round(seconds)))])


def main():
    # a shell has its jobs in the background ignore Ctrl-C
    signal.signal(signal.SIGINT, signal.default_int_handler)
    words, begun = [word for word in sys.argv[1:] if word != "--write"], time.monotonic()
    top, used = int(words[0]) if words else None, {}
    try:
        while True:
            for process, *what in provers(top):
                used[process] = what
            time.sleep(1)
    except KeyboardInterrupt:
        pass
    sums = collections.defaultdict(lambda: [0.0, 0.0])
    for crate, is_edit, seconds in used.values():
        sums[crate][is_edit] += seconds
    if "--write" in sys.argv and sums:
        write(sums, time.monotonic() - begun)
    print("| Crate | Proofs | Edits |\n|---|---|---|")
    for crate, (proofs, edits) in sorted(sums.items(), key=lambda item: -sum(item[1])):
        print(f"| `{crate}` | {proofs:.0f} | {edits:.0f} |")
    print(f"| all | {sum(s[0] for s in sums.values()):.0f} | {sum(s[1] for s in sums.values()):.0f} |")


if __name__ == "__main__":
    main()

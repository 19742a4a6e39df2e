#!/usr/bin/python3
"""Sends signals to the programs of this repository at moments over their whole lives, and looks at how they end. By hand:

    send_signals.py [--uses WORD ..] [--signals INT TERM HUP KEY TWICE PIPE STOP] [--moments 100]

KEY is SIGINT to the whole group of processes, as a terminal sends it, and TWICE sends that again some milliseconds later. PIPE is no signal: who
reads standard output closes it. STOP stops the group for some milliseconds; the program has to go on as if nothing was. Each start has its own
folders. It has to end in time, with the status and the words that the documents name, standard output a beginning of what it writes else, each file
whole or absent, and with no process and no temporary file left. `uses.py` has the programs. It ends with status 1 if one did otherwise.
"""
import argparse
import collections
import contextlib
import os
import pathlib
import random
import re
import shutil
import signal
import sys
import tempfile
import time

import uses
from starts import LONGEST, End, Start, state_of

EXPLAIN = uses.TOP / "crates/edgebpf_explain/out/edgebpf_explain"
SENT = {"INT": signal.SIGINT, "TERM": signal.SIGTERM, "HUP": signal.SIGHUP, "KEY": signal.SIGINT, "TWICE": signal.SIGINT, "PIPE": signal.SIGPIPE, "STOP": signal.SIGTSTP}
WORDS = {signal.SIGINT: "interrupted", signal.SIGTERM: "terminated", signal.SIGHUP: "the terminal was closed"}
# How long a stop lasts, when a Ctrl-C comes again, and how much longer than the life of a program moments go.
PAUSE, AGAIN, BEYOND = 0.03, 0.005, 1.1
# A service lives until it is told to end: moments go so many seconds over its life.
SERVED_SECONDS = 2.0


def send(start, name):
    """Sends what a name stands for; the process may have ended."""
    if name == "PIPE":
        start.is_closed.set()
        return
    with contextlib.suppress(OSError):
        if name in ("KEY", "TWICE", "STOP"):
            os.killpg(start.process.pid, SENT[name])
        else:
            os.kill(start.process.pid, SENT[name])
    if name == "STOP":
        time.sleep(PAUSE)
        start.was_stopped = state_of(start.process.pid) == "T"
        os.killpg(start.process.pid, signal.SIGCONT)


def send_all(start, name):
    """Sends it, perhaps again, and to what goes on without end a termination after it."""
    send(start, name)
    if name == "TWICE":
        time.sleep(AGAIN)
        send(start, name)
    if start.use.is_service and name in ("PIPE", "STOP"):
        time.sleep(PAUSE)
        send(start, "TERM")


def is_as_documented(use, name, end):
    """Whether a program that did not come to its end says what the documents name, with the status of it."""
    name = "TERM" if use.is_service and name == "STOP" else name
    number, program = SENT[name], use.program
    own = "".join(line for line in end.said.splitlines(True) if not line.startswith("{"))
    if name == "PIPE":
        failed = 2 if program == "edgebpf-explain" else 1
        said = {"program": "edgebpf: write\n"}.get(use.kind, f"{program}: standard output: Broken pipe\n")
        return (end.status, own) in [(failed, said), (-number, "")] or use.is_service and is_as_documented(use, "TERM", end)
    if use.kind == "script" and number == signal.SIGINT:
        said = end.said.strip().splitlines()
        return end.status == -number and (not said or said[-1] == "KeyboardInterrupt" and "Exception ignored" not in end.said)
    ways = [(-number, "")]
    if use.kind == "companion" or use.kind == "service" and number == signal.SIGINT:
        ways.append((128 + number, f"{program}: {WORDS[number]}\n"))
    if use.kind == "service" and number != signal.SIGHUP:
        ways.append((0, ""))
    return (end.status, own) in ways


def faults_of(use, name, end, whole, patience):
    """What is not as it should be, after it had so many seconds to end."""
    # Python ends a script by a termination at once, and cleans up nothing.
    found = [left for left in end.left if use.kind != "script" or name not in ("TERM", "HUP") or not left.startswith("temporary")]
    # While Python and numpy start, what they say of a Ctrl-C is their own.
    if use.kind == "script" and end.status == 1 and not end.written:
        return found
    if end.status is None:
        return [*found, f"it did not end in {patience:g} seconds"]
    is_whole = end.status == whole.status and not use.is_service
    if use.kind != "script" and "Traceback" in end.said:
        found.append("a traceback")
    if not is_whole and (name == "STOP" and not use.is_service or not is_as_documented(use, name, end)):
        found.append(f"status {end.status}")
    if use.says_same and not whole.written.startswith(end.written):
        found.append("standard output is no beginning of what it writes")
    if use.says_same and is_whole and name != "PIPE" and (end.written, *timeless(end.said)) != (whole.written, *timeless(whole.said)):
        found.append("it ended as if undisturbed, and wrote or said something else")
    for path in {*whole.made, *end.made}:
        here, there = end.made.get(path), whole.made.get(path)
        part = path.split("/")[0]
        if here is None and not any(other.split("/")[0] == part for other in end.made):
            continue
        if here != there and not (part in use.grows and here is not None and there.startswith(here)):
            found.append(f"{path} is neither whole nor absent")
    return found


def timeless(said):
    """The lines of what was said, without the seconds that something took."""
    return re.sub(r"[0-9.]+ s\b", "", said).splitlines()


def undisturbed(use, given, base):
    """What an undisturbed start gives, and how long it takes: the second of three."""
    if use.is_service:
        return End(0, b"", "", {}, [], 0.0), SERVED_SECONDS
    ends = []
    for place in range(3):
        folder = base / f"whole{place}"
        folder.mkdir()
        ends.append(Start(use, given, folder).ended(LONGEST, uses.START_SECONDS))
        if ends[-1].status != 0 or ends[-1].left:
            sys.exit(f"send_signals: {use.name} undisturbed: status {ends[-1].status}, left {ends[-1].left}, said {ends[-1].said[-500:]}")
        shutil.rmtree(folder)
    return ends[-1], sorted(end.seconds for end in ends)[1]


def swept(use, given, base, name, whole, life):
    """Sends one signal at each of the moments, and counts how the starts end."""
    counts, chance = collections.Counter(), random.Random(f"{given.seed} {use.name} {name}")
    for place in range(given.moments):
        moment, folder = BEYOND * life * (place + chance.random()) / given.moments, base / f"{name}{place}"
        folder.mkdir()
        start = Start(use, given, folder, is_read=name == "PIPE")
        time.sleep(moment)
        send_all(start, name)
        patience = use.patience + (life * 10 if name in ("STOP", "PIPE") else 0)
        end = start.ended(patience, use.patience)
        found = faults_of(use, name, end, whole, patience)
        is_over = end.status == whole.status and not use.is_service
        counts["stopped" if getattr(start, "was_stopped", False) else "before" if is_over else "by it"] += 1
        counts["faults"] += bool(found)
        counts["slowest"] = max(counts["slowest"], round(1000 * end.seconds))
        if found:
            print(f"{use.name}, {name} after {moment:.4f} s: {'; '.join(found)}; said {end.said[-given.shown:]!r}", flush=True)
        shutil.rmtree(folder)
    return counts


def add_programs(words):
    """The words of the command line that say what is started."""
    words.add_argument("--uses", nargs="+", default=[], metavar="WORD", help="those whose name has one of these words (all)")
    words.add_argument("--shown", type=int, default=300, help="so many letters of what a program said are shown with a fault (300)")
    words.add_argument("--program", type=pathlib.Path, default=os.environ.get("EDGEBPF", uses.TOP / "edgebpf"), help="edgebpf")
    words.add_argument("--explain", type=pathlib.Path, default=os.environ.get("EDGEBPF_EXPLAIN", EXPLAIN), help="edgebpf_explain")


def arguments():
    words = argparse.ArgumentParser(description=__doc__, formatter_class=argparse.RawDescriptionHelpFormatter)
    add_programs(words)
    words.add_argument("--signals", nargs="+", default=list(SENT), choices=list(SENT), help="which (all)")
    words.add_argument("--moments", type=int, default=100, help="of each use and signal (100)")
    words.add_argument("--seed", type=int, default=1, help="of the moments, which lie anywhere in their part of the life (1)")
    return words.parse_args()


@contextlib.contextmanager
def prepared(given):
    """A folder with what programs read, the uses that were chosen, and a service where they need one."""
    # A shell may have started this so that signals are ignored, and so they would be by all that is started here.
    for number in {*SENT.values()} - {signal.SIGPIPE}:
        if signal.getsignal(number) == signal.SIG_IGN:
            signal.signal(number, signal.SIG_DFL)
    with tempfile.TemporaryDirectory(prefix="signals-") as name:
        base, inputs = pathlib.Path(name), pathlib.Path(name) / "inputs"
        inputs.mkdir()
        uses.write_inputs(inputs)
        os.environ.update(EDGEBPF=str(given.program), EDGEBPF_EXPLAIN=str(given.explain), PYTHONDONTWRITEBYTECODE="1")
        chosen = [use for use in uses.all_uses(inputs, given.program) if not given.uses or any(word in use.name for word in given.uses)]
        service = uses.begin_service(inputs) if any("client" in use.name or "serve" in use.name for use in chosen) else None
        try:
            yield base, chosen
        finally:
            if service:
                service.terminate()
                service.wait()


def main():
    given, faults = arguments(), 0
    with prepared(given) as (base, chosen):
        print("| Use | Signal | Tries | Ended by it | Finished before | Stopped, went on | Slowest end, ms | Faults |", flush=True)
        for use in chosen:
            whole, life = undisturbed(use, given, base)
            # What Python says of a closed pipe, or of a Ctrl-C while it ends by one, is its own.
            for name in (name for name in given.signals if use.kind != "script" or name not in ("PIPE", "TWICE")):
                counts = swept(use, given, base, name, whole, life)
                faults += counts["faults"]
                cells = [use.name, name, given.moments, *(counts[word] for word in ("by it", "before", "stopped", "slowest", "faults"))]
                print(f"| {' | '.join(map(str, cells))} |", flush=True)
    sys.exit(1 if faults else 0)


if __name__ == "__main__":
    main()

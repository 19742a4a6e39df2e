#!/usr/bin/python3
"""Sends a signal to a companion after each call in its modules that start processes and make files, and looks at how it ends. By hand:

    at_each_call.py [--uses WORD ..] [--signals INT TERM HUP] [--every 1]

Python hears of a signal after a call, and as a function or the next round of a loop begins. `send_signals.py` meets each of these places by chance; here the
companion sends itself the signal there, at the first time and the last that it comes by. What is looked at is the same.
"""
import argparse
import collections
import contextlib
import dataclasses
import dis
import functools
import os
import pathlib
import runpy
import shutil
import signal
import sys

HERE = pathlib.Path(__file__).resolve().parent
# The modules whose places are met, of ours and of Python's.
OURS = "backup clang command compile_c ends explain import_edges journal live_store owned run_c spread store workers".split()
PYTHONS = "contextlib shutil subprocess tempfile".split()
HEARS_AFTER = ("CALL", "CALL_FUNCTION_EX", "JUMP_BACKWARD", "RESUME")
LIST = "SIGNALS_LIST"


@functools.cache
def places(code):
    """Where in a function Python has just looked for signals. Between a call and what follows it no block may begin or end, since an error raised
    here is one of what follows."""
    steps, table = list(dis.get_instructions(code)), dis._parse_exception_table(code)
    blocks = lambda offset: [entry for entry in table if entry.start <= offset < entry.end]
    pairs = zip(steps, steps[1:])
    return {after.offset for step, after in pairs if step.opname in HEARS_AFTER and blocks(step.offset) == blocks(after.offset)}


@functools.cache
def is_met(code):
    path = pathlib.Path(code.co_filename)
    is_ours = path.stem in OURS and path.parent.name in ("edgebpf_tools", "edgebpf_serve") or path.parent.name == "tools"
    return is_ours or path.stem in PYTHONS and "python3" in path.parent.name


def callers(frame):
    """The names of a function and of those that called it."""
    while frame:
        yield frame.f_code.co_name
        frame = frame.f_back


class Inside:
    """The trace of a companion in its own process. It counts how often it comes by each place, and sends a signal at one of these times."""

    def __init__(self, place, time, number):
        self.place, self.time, self.number, self.met = place, time, number, collections.Counter()

    def trace(self, frame, event, _):
        if event == "call":
            # Python drops what is raised while it takes an object away.
            if not is_met(frame.f_code) or any(name in ("__del__", "_cleanup") for name in callers(frame)):
                return None
            frame.f_trace_opcodes, frame.f_trace_lines = True, False
        elif event == "opcode" and frame.f_lasti in places(frame.f_code):
            code = frame.f_code
            place = f"{pathlib.Path(code.co_filename).name}:{frame.f_lineno}:{code.co_name}:{frame.f_lasti}"
            self.met[place] += 1
            if place == self.place and self.met[place] == self.time:
                os.kill(os.getpid(), self.number)
        return self.trace


def inside(place, time, number, words):
    """Runs a companion with a trace of its places, which are written down if none is asked for."""
    sys.argv = words
    # The companion's first lines, which are those of a shell, have this one wait.
    signal.pthread_sigmask(signal.SIG_BLOCK, {signal.SIGINT})
    kept = Inside(place, time, number)
    sys.settrace(kept.trace)
    try:
        runpy.run_path(words[0], run_name="__main__")
    finally:
        sys.settrace(None)
        if not place:
            # The first time and the last.
            times = [(found, time) for found, last in kept.met.items() for time in sorted({1, last})]
            pathlib.Path(os.environ[LIST]).write_text("".join(f"{found} {time}\n" for found, time in times))


def traced(use, place, time, name):
    """The use, which sends itself a signal at a place."""
    words = [sys.executable, HERE / "at_each_call.py", "--inside", place, str(time), name, *use.words]
    return dataclasses.replace(use, words=words, called=use.program)


def started(sender, use, given, base, part):
    folder = base / part
    folder.mkdir()
    end = sender.Start(use, given, folder).ended(sender.LONGEST, use.patience)
    shutil.rmtree(folder)
    return end


def met(sender, use, given, base):
    """What an undisturbed companion gives, and its places."""
    os.environ[LIST] = str(base / "places")
    whole = started(sender, traced(use, "", 0, "INT"), given, base, "whole")
    if whole.status or whole.left:
        sys.exit(f"at_each_call: {use.name} undisturbed: status {whole.status}, left {whole.left}, said {whole.said[-500:]}")
    return whole, [line.split() for line in (base / "places").read_text().splitlines()]


def swept(sender, use, given, base, name, whole, chosen):
    """Sends a signal at each of the places, and returns how many tries there were, how many were ended by it, and the faults."""
    ended, faults = 0, 0
    for place, time in chosen:
        end = started(sender, traced(use, place, time, name), given, base, "try")
        found = sender.faults_of(use, name, end, whole, use.patience)
        ended, faults = ended + (end.status != whole.status), faults + bool(found)
        if found:
            print(f"{use.name}, {name} at {place}, time {time}: {'; '.join(found)}; said {end.said[-given.shown:]!r}", flush=True)
    return len(chosen), ended, faults


def main():
    if sys.argv[1:2] == ["--inside"]:
        inside(sys.argv[2], int(sys.argv[3]), getattr(signal, f"SIG{sys.argv[4]}"), sys.argv[5:])
        return
    import send_signals as sender

    words = argparse.ArgumentParser(description=__doc__, formatter_class=argparse.RawDescriptionHelpFormatter)
    sender.add_programs(words)
    words.add_argument("--signals", nargs="+", default=["INT", "TERM", "HUP"], choices=["INT", "TERM", "HUP"], help="which (all)")
    words.add_argument("--every", type=int, default=1, help="of the places every so manyth (1)")
    words.add_argument("--first", type=int, default=0, help="from which on (0)")
    words.add_argument("--places", default="", metavar="WORD", help="those alone whose name has this word (all)")
    given, faults = words.parse_args(), 0
    with sender.prepared(given) as (base, chosen), contextlib.suppress(BrokenPipeError):
        print("| Use | Signal | Places | Ended by it | Faults |", flush=True)
        for use in (use for use in chosen if use.kind == "companion" and not use.is_service):
            whole, found = met(sender, use, given, base)
            found = [one for one in found if given.places in one[0]]
            for name in given.signals:
                counts = swept(sender, use, given, base, name, whole, found[given.first::given.every])
                faults += counts[2]
                print(f"| {use.name} | {name} | {' | '.join(map(str, counts))} |", flush=True)
    sys.exit(1 if faults else 0)


if __name__ == "__main__":
    main()

"""A prompt for scripts: lines are checked before they are sent, and answers are explained."""
import argparse
import contextlib
import io
import os
import pathlib
import signal
import subprocess
import sys
import time

from edgebpf_tools import decimals, ends, explain, owned, tables
from edgebpf_tools.commands import changes, is_question, whole_length
from edgebpf_tools.compact import column_lines, compacted
from edgebpf_tools.journal import Journal
from edgebpf_tools.language import FORMS, Complaint, Language
from edgebpf_tools.limits import MOST_LINE_BYTES
from edgebpf_tools.live_store import LiveStore
from edgebpf_tools.refusal import Refusal
from edgebpf_tools.run_in_parts import RunInParts
from edgebpf_tools.words import in_words

TOOLS = pathlib.Path(__file__).resolve().parent.parent
DOTS = {
    ".help": ".help [COMMAND]: what there is, or how a command goes; also help and ?",
    ".import": ".import FILE: makes the graph of a file of edges, by edgebpf-import",
    ".load": ".load FILE.c [FUNCTION] LENGTH: compiles a function, by edgebpf-c, and sends its line",
    ".image": ".image NAME FILE: sends the image in a file, which begins with BPE1 or BPE2",
    ".compact": ".compact: forgets all batches, by a rebase; the graph, pins and columns stay, and a journal has no more lines than these need",
    ".explain": ".explain NAME: what is known at each place of a program that was sent, and why it is refused, by edgebpf-explain",
    ".read": ".read FILE: takes the lines of a script",
    ".script": ".script: all lines that were sent",
    ".cancel": ".cancel: drops the batch or program that was begun",
    ".top": ".top K: shows the K greatest rows of a run, and 0 for all",
    ".timer": ".timer on|off: says how long an answer took",
    ".quit": ".quit: ends, as the end of the input does; also quit and exit",
}


# Words that are no commands of a script, outside of blocks.
PLAIN = {"help": ".help", "?": ".help", "quit": ".quit", "exit": ".quit"}
# How many bytes of lines are read at a time, where there are so many.
BLOCK = 1 << 20
# The seconds after a Ctrl-C in which the rest of an answer may come.
MOST_WAIT = 2
# So many files may be read one from within another.
MOST_FILES = 32
NOTE = b"\n(edgebpf is at work: its answer will be dropped, and its graph stays. Ctrl-\\ ends the session.)\n"


def parts_of(image):
    """The length of records, the code and the table in an image's bytes, as `_program` tells them."""
    length, code, table = tables.parts_of(image)
    return str(length), code.hex(), None, table.hex() or None


class Shell:
    """A session at the prompt."""

    def __init__(self, live, out):
        self.store, self.out, self.journal = live, out, None
        self.language = Language()
        self.sent, self.reading, self.top, self.has_timer, self.is_right = [], [], 10, False, True
        # Whether a person is there; whether a journal is being taken up; and a block of which a line was wrong.
        self.is_typed, self.is_taken_up, self.spoiled = False, False, None

    def prompt(self):
        return f"{self.language.block[0].split()[0] if self.language.block else 'edgebpf'}> "

    def say(self, text):
        print(text, file=self.out, flush=True)

    def line(self, line):
        """Does what a line asks for. Answers whether it was right."""
        try:
            words = line.split()
            if line.startswith("."):
                self.dot(words)
            elif words and words[0] in PLAIN and not self.language.is_in_program():
                self.dot([PLAIN[words[0]], *words[1:]])
            else:
                self.command(line)
            return True
        except Complaint as complaint:
            self.say(complaint.shown(line))
        except OSError as error:
            self.say(ends.in_words(error))
        self.is_right = False
        # A person sees what was wrong, and types it again.
        if not self.is_typed:
            self.spoiled = self.language.block
        return False

    def command(self, line):
        if self.language.block is not None and self.spoiled is self.language.block and line.split() == ["end"]:
            kind, self.language.block = self.language.block[0].split()[0], None
            raise Complaint(f"the {kind} is not sent, since a line of it was wrong")
        self.language.check(line)
        begun = time.monotonic()
        # A Ctrl-C waits until what was sent is answered and noted, but of a question.
        with ends.Signals.held({signal.SIGINT}):
            lines = self.language.take(line)
            if not lines:
                return
            asks = is_question(lines[0])
            if asks and self.is_taken_up:
                self.sent += lines
                return
            said = None if asks and self.is_typed else self.store.ask(lines)
            if said is not None:
                self.note(lines, said)
        if said is None:
            said = self.asked(lines)
            with ends.Signals.held({signal.SIGINT}):
                self.note(lines, said)
        self.show(said)
        if self.has_timer:
            self.say(f"({time.monotonic() - begun:.3f} s)")

    def note(self, lines, said):
        """Takes note of what was sent, and what it was answered, which may be nothing."""
        self.language.heard(lines, said[0] if said else "")
        self.sent += lines
        self.keep(lines)

    def asked(self, lines):
        """The answer to what changes nothing, of which a run goes in parts. After a Ctrl-C the rest of the answer is awaited for a moment; if it
        does not come, edgebpf is started again, with all that changed something."""
        parts = RunInParts.of(self.store, lines, self.language.vertices, self.out)
        try:
            return parts.answer() if parts else self.store.ask(lines)
        except ends.Interrupted as interrupt:
            if interrupt.number == signal.SIGINT:
                with ends.Signals.held({signal.SIGINT}):
                    if self.store.settles(MOST_WAIT):
                        self.say("\n(the run has ended, and is not whole)" if parts else "\n(its answer is dropped)")
                    else:
                        self.say("\n(edgebpf is started again, with what was sent)")
                        self.store.restart(changes(self.sent))
            raise

    def keep(self, lines):
        """Keeps lines in the journal. Without a journal the session goes on, but does not end well."""
        try:
            if self.journal:
                self.journal.add(lines)
        except OSError as error:
            self.is_right = False
            self.say(f"{self.journal.path}: {error.strerror}; the session goes on without its journal")
            self.journal = None

    def show(self, said):
        if not said:
            return
        rows = [line for line in said if line.startswith("row ")]
        if self.top and len(rows) > self.top:
            rows = sorted(rows, key=lambda row: -int(row.split()[2]))[: self.top]
            self.say(said[0])
            self.say("\n".join(rows) + f"\n.. the greatest {self.top} of {len(said) - 1} rows (.top 0 shows all)")
        else:
            self.say("\n".join(said))
        meaning = in_words(said[0])
        if meaning:
            self.say(meaning)

    def lines(self, stream, stops):
        """Takes the lines of a stream of bytes as they come. If it stops, then at the first that is wrong."""
        number, rest = 0, b""
        while block := stream.read1(BLOCK):
            whole, end, rest = (rest + block).rpartition(b"\n")
            number = self.some_lines((whole + end).decode("utf-8", "surrogateescape"), number, stops)
            # Of a line that is too long no more is kept than is needed to refuse it.
            rest = rest[: MOST_LINE_BYTES + 1]
        if rest:
            self.some_lines(rest.decode("utf-8", "surrogateescape") + "\n", number, stops)

    def some_lines(self, text, number, stops):
        """Takes whole lines, of which edits as many at once as can be. Answers how many lines there were until then."""
        at = 0
        while at < len(text):
            end, count = self.language.take_edits(text, at)
            if count:
                at, number = end, number + count
                continue
            end = text.index("\n", at)
            number += 1
            if not self.line(text[at:end]) and stops:
                raise Complaint(f"that was line {number}; what follows it was not sent")
            at = end + 1
        return number

    def dot(self, words):
        if words[0] not in DOTS:
            raise Complaint("nothing has this name; .help lists what there is", 0)
        if any("\0" in word for word in words):
            raise Complaint("no name has a byte 0")
        getattr(self, f"_{words[0][1:]}")(words)

    def _help(self, words):
        known = {**FORMS, **DOTS}
        if len(words) == 1:
            self.say("\n".join(known.values()))
        elif words[1] in known:
            self.say(known[words[1]])
        else:
            raise Complaint("nothing has this name; .help lists what there is", 1)

    def _companion(self, *words):
        """Takes the lines that a companion writes; what it says on standard error is passed on."""
        with owned.child([TOOLS / words[0], *words[1:]], stdin=subprocess.DEVNULL, stdout=subprocess.PIPE) as process:
            self.lines(process.stdout, True)
            status = process.wait()
        if status:
            self.language.block = None
            raise Complaint(f"{words[0]} ended with status {status}")

    def _import(self, words):
        self._wants(words, len(words) == 2)
        self._companion("edgebpf-import", words[1])

    def _load(self, words):
        self._wants(words, len(words) in (3, 4))
        self._companion("edgebpf-c", *words[1:])

    def _image(self, words):
        self._wants(words, len(words) == 3)
        with open(words[2], "rb") as stream:
            image = stream.read(MOST_LINE_BYTES)
        self.command(f"image {words[1]} {image.hex() or '-'}")

    def _compact(self, words):
        self._wants(words, len(words) == 1)
        self.command("rebase")
        if self.journal:
            try:
                with ends.Signals.held({signal.SIGINT}):
                    lines = compacted(self.sent, self.language.programs)
                    lines += [line for name in sorted(self.language.columns) for line in column_lines(self.store, name)]
                    self.journal, self.sent = self.journal.replace(lines), lines
            except (Refusal, OSError) as error:
                raise Complaint(f"the journal stays as it is: {ends.in_words(error) if isinstance(error, OSError) else error}") from None
            self.say(f"{self.journal.path} has {len(lines)} lines now")

    def _program(self, name):
        """The length of a program's records, its code or its text, the other of which is None, and its table: the last that was sent by
        this name."""
        for number in range(len(self.sent) - 1, -1, -1):
            words = self.sent[number].split()
            if words[:2] == ["code", name]:
                return words[2], words[3].replace("-", ""), None, None
            if words[:2] == ["image", name]:
                return parts_of(bytes.fromhex(words[2].replace("-", "")))
            if words[:2] == ["program", name]:
                end = next(at for at in range(number, len(self.sent)) if self.sent[at].split() == ["end"])
                return words[2], None, "\n".join(self.sent[number + 1 : end]) + "\n", None
        raise Complaint("no program of this name was sent", 1)

    def _explain(self, words):
        self._wants(words, len(words) == 2)
        length, code, text, table = self._program(words[1])
        told, _ = explain.explain(length, code, text, table=table)
        self.say(told.rstrip("\n") or "there is nothing to explain")

    def _read(self, words):
        self._wants(words, len(words) == 2)
        path = os.path.realpath(words[1])
        if path in self.reading:
            raise Complaint("this file is being read already", 1)
        if len(self.reading) == MOST_FILES:
            raise Complaint(f"at most {MOST_FILES} files are read one from within another", 1)
        self.reading.append(path)
        try:
            with open(words[1], "rb") as stream:
                self.lines(stream, True)
        finally:
            self.reading.pop()

    def _script(self, words):
        self.say("\n".join(self.sent))

    def _cancel(self, words):
        self.language.block = None

    def _top(self, words):
        self._wants(words, len(words) == 2 and decimals.is_number(words[1]))
        self.top = decimals.value(words[1])

    def _timer(self, words):
        self._wants(words, words[1:] in (["on"], ["off"]))
        self.has_timer = words[1] == "on"

    def _quit(self, words):
        raise EOFError

    @staticmethod
    def _wants(words, is_right):
        if not is_right:
            raise Complaint(DOTS[words[0]], 0)


def arguments(words):
    parser = argparse.ArgumentParser(
        prog="edgebpf-shell",
        description="A prompt for scripts. Each line is checked before it is sent, so that a slip ends nothing; refusals are "
        "explained; a batch or a program is sent once it has ended. At the prompt, help lists what there is, and Ctrl-C drops a "
        "line, or ends a run. If the input is no terminal, a line that is wrong makes the status 1, and a batch with it is not sent.",
    )
    parser.add_argument("--journal", metavar="FILE", help="keep what was sent in FILE; if it has lines, resume that session")
    parser.add_argument("--sync", action="store_true", help="with --journal: go on only when the disk has what was sent")
    return parser.parse_args(words)


class Beginning:
    """The first bytes of a stream."""

    def __init__(self, stream, count):
        self.stream, self.left = stream, count

    def read1(self, count):
        block = self.stream.read(min(count, self.left))
        self.left -= len(block)
        return block


def take_up(shell, path, is_synced):
    """Sends the lines of a journal that change something, and keeps the session's lines there. What a crash left of a last command is
    left out."""
    if os.path.exists(path) and not os.path.isfile(path):
        raise Refusal(f"{path} is no file")
    journal = Journal(path, is_synced)
    kept, shell.out, shell.is_taken_up = shell.out, io.StringIO(), True
    try:
        with open(path, "rb") as stream:
            # A file without a whole command may be something else: it is looked at whole, and stays.
            length = whole_length(stream) or journal.size
            stream.seek(0)
            shell.lines(Beginning(stream, length), True)
    except Complaint as complaint:
        said = shell.out.getvalue().splitlines()
        raise Refusal(f"{path} is no journal that can be taken up: {said[-1] if said else ''}; {complaint}") from None
    except EOFError:
        raise Refusal(f"{path} is no journal that can be taken up: a line of it ends the session") from None
    if shell.language.block:
        raise Refusal(f"{path} is no journal that can be taken up: it ends within a {shell.language.block[0].split()[0]}")
    shell.out, shell.journal, shell.is_taken_up = kept, journal, False
    if shell.sent:
        shell.say(f"taken up again: {sum(lines.count(chr(10)) + 1 for lines in shell.sent)} lines of {path}")
    if length < journal.size:
        torn = journal.cut(length).splitlines()
        shell.say(f"its last command is torn, and left out: {torn[0]}{' ..' if len(torn) > 1 else ''}")


def complete_names(shell):
    """Completion of commands, programs, pins and columns, and a history of lines, where there is a terminal."""
    try:
        import readline
    except ImportError:
        return

    def completion(text, state):
        known = sorted({*FORMS, *DOTS, *shell.language.programs, *shell.language.pins, *shell.language.columns})
        return ([word for word in known if word.startswith(text)] + [None])[state]

    readline.set_completer_delims(" \t")
    readline.set_completer(completion)
    readline.parse_and_bind("tab: complete")


def at_terminal(shell):
    """Takes the lines that a person types. A Ctrl-C drops the line, or what it asked for, and the graph stays."""
    ends.Signals.survived, ends.Signals.note, shell.is_typed = frozenset({signal.SIGINT}), NOTE, True
    complete_names(shell)
    while True:
        try:
            shell.line(input(shell.prompt()))
        except EOFError:
            shell.say("")
            return
        except ends.Interrupted as interrupt:
            if interrupt.number != signal.SIGINT:
                raise
            shell.say("\n(dropped)" + (" .cancel drops the block that was begun" if shell.language.block else ""))


def perform(words):
    options = arguments(words)
    if options.sync and not options.journal:
        raise Refusal("--sync is of a journal, which --journal names")
    with LiveStore.started() as live:
        shell = Shell(live, sys.stdout)
        if options.journal:
            take_up(shell, options.journal, options.sync)
        if ends.standard_input().isatty():
            at_terminal(shell)
            return 0
        with contextlib.suppress(EOFError):
            shell.lines(sys.stdin.buffer, False)
        if shell.language.block:
            raise Refusal(f"the input ended within a {shell.language.block[0].split()[0]}, which was not sent")
    return 0 if shell.is_right else ends.FAILED


def main():
    ends.run("edgebpf-shell", perform)

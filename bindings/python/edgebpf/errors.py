"""The errors of this package. All are below `Error`."""
from __future__ import annotations

import typing

from edgebpf.limits import MOST_COUNTED, MOST_PAIRS, MOST_UNITS

if typing.TYPE_CHECKING:
    from edgebpf.companion import Task
    from edgebpf.programs import Program
    from edgebpf.steps import Steps

CAUSES = {
    1: "no instruction stands there",
    2: "a jump goes to no instruction, or out of its function",
    3: "a jump goes back, and there are no loops",
    4: "a call goes to no instruction after itself",
    5: "a function does not end in an exit",
    6: "more than eight functions may be live at once",
    7: f"more than {MOST_COUNTED:,} instructions may run",
    8: "a register is read of which nothing is known: it may be unset, or the ways that lead here set it to unlike values",
    9: "the frame register r10 is written",
    10: "a pointer is used where only a number may be, or a number where only a pointer may be",
    11: "bytes may lie outside the record, the table or the frame, or a pointer may leave them",
    12: "a stack byte is read that may be unset",
    13: "an argument of a helper is not as the helper wants it",
    14: "no helper has this number",
    15: "a function may end with a pointer in r0",
    16: "out of memory",
    17: "a store or gather goes to the table, which is only read",
    18: f"more than {MOST_PAIRS:,} instructions are to be verified, a function once for each call of it",
}

# No cause of the assembler's: to it a comment is any text.
STATEMENT_IN_COMMENT = 0
TEXT_ERRORS = {
    STATEMENT_IN_COMMENT: "`;` begins a comment, and a statement follows it: write each statement on a line of its own",
    1: "the line is no statement and no label, or these are not the arguments of its word",
    2: "no statement has this word",
    3: "an earlier line has this label",
    4: "no line has the label to which the statement goes",
    5: "a number is outside its range, or a label is too far away",
    6: f"the code has more than {MOST_UNITS:,} units",
}


class Error(Exception):
    """The base of all errors of this package."""


class Refused(Error):
    """The verifier refused a program. `cause` is its rule, and `unit` the place in the code, in units of 8 bytes."""

    def __init__(self, cause: int, unit: int, program: Program) -> None:
        super().__init__(f"refused, cause {cause} at unit {unit}: {CAUSES[cause]}")
        self.cause, self.unit, self.words, self._program = cause, unit, CAUSES[cause], program

    def explain(self) -> str:
        """The verifier's state before each instruction, the rule that failed, and the usual fix, as text."""
        return self._program._explain()


class WrongText(Error):
    """A text is no program. `line` is counted from 1. `cause` is the assembler's, and 0 if a statement follows a `;`."""

    def __init__(self, cause: int, line: int) -> None:
        super().__init__(f"line {line}: {TEXT_ERRORS[cause]}")
        self.cause, self.line = cause, line


class VertexRange(Error):
    """A vertex is not in the graph."""


class TooManyEdits(Error):
    """A batch has more than 65,536 edits."""


class LogFull(Error):
    """4,096 batches were published since the last rebase, and the store takes no more before the next one."""


class EpochsFull(Error):
    """1,024 rebases of a store of `connect` were made, and it takes no more. One in this process has no such end."""


class ArgumentLength(Error):
    """The argument of a run does not have the record's length less 16 bytes, and less 16 for each column."""


class TooManyNames(Error):
    """The process keeps 256 programs and 256 pinned versions at most, and none of them can be dropped."""


class NoMemory(Error):
    """A `Store` had no memory, and nothing changed. Or the process of `connect` had none, or could start no thread: it has ended, and the graph is gone."""


class Closed(Error):
    """The store or the version was closed, or its process has ended, as after a call that was interrupted."""


class PartLost(Error):
    """A part of a `Cluster` was lost with its worker."""


class TimedOut(Error):
    """The seconds that a call was given are over. `run` has what was done until then, and may be stepped on; of a `Cluster` it is None."""

    def __init__(self, words: str, run: Steps | Task[typing.Any] | None) -> None:
        super().__init__(words)
        self.run = run


class NotHere(Error):
    """A version of `connect` has no steps, no limit of time, no pairs, no numbers of a frontier or with columns, and none of the
    algorithms that read lists where they lie; one of `Store` has them. One of a `Cluster` runs no program that may ask about more vertices than
    the cluster is for."""

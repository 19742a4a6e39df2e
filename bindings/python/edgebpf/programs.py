"""Programs: BPF code or text that the verifier has accepted."""
from __future__ import annotations

import copy
import os
import pathlib
import re
import shutil
import struct
import subprocess
import sys
import threading
from collections.abc import Sequence
from typing import Any

from edgebpf import library, stacks
from edgebpf.errors import STATEMENT_IN_COMMENT, ArgumentLength, Error, Refused, WrongText
from edgebpf.given import bytes_of, whole
from edgebpf.limits import COLUMN_BYTES, EDGE_BYTES, MOST_CODE_BYTES, MOST_RECORD_LENGTH, MOST_TABLE_LENGTH, MOST_UNITS

UNIT = 8
# An explanation that has more bytes is asked for twice.
FIRST_ROOM = 65_536
# The opcode of a call; one of a function of the program's own has a 1 as its source.
CALL = 0x85
WRONG_CODE = f"code has 1 to {MOST_UNITS:,} whole units of {UNIT} bytes"
# The bytes of an image with a table before its code: what it begins with, and the lengths of record, code (in units) and table.
IMAGE = struct.Struct("<4sHHH")
IMAGE_BEGINS = b"BPE2"
BUILT_NOW = "edgebpf: built from dist/"
CHECKOUT = pathlib.Path(__file__).resolve().parent.parent.parent.parent
# Where a wheel has the programs.
INSTALLED = pathlib.Path(__file__).resolve().parent / "installed"
# The words of statements whose first argument is a register or a place in memory; those of arithmetic and branches may have 32 after them.
WORDS_OF_REGISTERS = (
    r"(?:(?:mov|add|sub|mul|s?div|s?mod|or|and|xor|a?rsh|lsh|neg|j(?:eq|ne|s?gt|s?ge|s?lt|s?le|set))(?:32)?"
    r"|(?:le|be|swap)(?:16|32|64)|movsx(?:8|16|32)|mov32sx(?:8|16)|ldxs?[bhw]|ldxdw|stx?(?:[bhw]|dw)|lddw)"
)
NUMBER, LABEL = r"-?(?:0x[0-9a-fA-F]+|[0-9]+)", r"[A-Za-z_]\w*"
FIRST = r"(?:r[0-9]+|\[[^],]*\])"
ARGUMENT = rf"(?:{FIRST}|{NUMBER}|{LABEL})"
STATEMENT = re.compile(
    rf"\s*(?:exit|call\s+{NUMBER}|(?:calllocal|ja|ja32)\s+{LABEL}|{WORDS_OF_REGISTERS}\s+{FIRST}(?:\s*,\s*{ARGUMENT})*)\s*"
)


def command(name: str) -> str:
    """The path of a program of edgebpf: for `edgebpf` what EDGEBPF names, else what stands in a checkout, in this package if it came as a
    wheel, or what is installed."""
    if name == "edgebpf" and os.environ.get("EDGEBPF"):
        return os.environ["EDGEBPF"]
    for path in (CHECKOUT / name, CHECKOUT / "tools" / name):
        if path.is_file() and (CHECKOUT / "crates.txt").is_file():
            return str(path)
    for path in (INSTALLED / name, INSTALLED / "tools" / name):
        if path.is_file():
            return str(path)
    found = shutil.which(name)
    if not found:
        raise Error(f"{name} is not on PATH: install edgebpf")
    return found


def python_command(name: str) -> list[str]:
    """How a program in Python is run: one of a wheel by this Python, whose packages it may need, and any other by its own."""
    path = command(name)
    return [sys.executable, path] if sys.executable and INSTALLED in pathlib.Path(path).parents else [path]


def record_of(record: int) -> int:
    """A length that a record may have."""
    length = whole(record, "record")
    if not EDGE_BYTES <= length <= MOST_RECORD_LENGTH:
        raise ValueError(f"a record has {EDGE_BYTES} to {MOST_RECORD_LENGTH} bytes, not {length}")
    return length


def said_lines(said: bytes) -> str:
    """What a process of edgebpf said, without the line of a checkout that it was built now."""
    lines = said.decode(errors="replace").strip().splitlines()
    return "\n".join(line for line in lines if not line.startswith(BUILT_NOW))


class Program:
    """A verified program.

    code: bytes of RFC 9669 instructions, in units of 8. record: the length of the record of each run, 16 to 256 bytes.
    The argument of a run has the bytes from 16 on. table: up to 4,096 bytes, which each run reads from the address that `r3`
    holds when it begins; an array gives the bytes of its items, and without a byte there is no table. `bound` is the greatest
    number of instructions that a run executes, and `frames` the greatest number of functions that are live at once. Threads may
    run it at the same time. Raises `Refused`.
    """

    def __init__(self, code: bytes, record: int = EDGE_BYTES, table: bytes = b"") -> None:
        self._take(bytes_of(code, "code"), None, record, table)

    @classmethod
    def _of_text(cls, text: str, record: int, table: bytes) -> Program:
        program = cls.__new__(cls)
        program._take(None, text, record, table)
        return program

    @classmethod
    def _of_image(cls, image: bytes) -> Program:
        """The program of an image with a table, as `edgebpf-c` prints it."""
        _, record, units, _ = IMAGE.unpack_from(image)
        end = IMAGE.size + UNIT * units
        return cls(image[IMAGE.size:end], record, image[end:])

    def _take(self, code: bytes | None, text: str | None, record: int, table: bytes) -> None:
        record = record_of(record)
        if code is not None and (len(code) % UNIT or not UNIT <= len(code) <= MOST_CODE_BYTES):
            raise ValueError(WRONG_CODE)
        self.code, self.text, self.record, self.table = code, text, record, bytes_of(table, "table")
        if len(self.table) > MOST_TABLE_LENGTH:
            raise ValueError(f"a table has at most {MOST_TABLE_LENGTH} bytes, not {len(self.table)}")
        self._shared: library.Shared | None = None
        # By this a process knows the program, and each share of it.
        self._same, self._lock, self._has_helpers = object(), threading.Lock(), False
        if library.path():
            self._handles()
            return
        if text is not None and self.table:
            raise Error(f"the assembler takes a table in this process alone, and {library.NAME} or cffi is not there: pass the code")
        run = subprocess.run([command("edgebpf")], input=b"graph 1\n" + self._lines("p"), capture_output=True)
        words = run.stdout.decode().splitlines()[-1].split() if run.stdout else []
        if words[:2] == ["program", "p"]:
            self.bound, self.frames = int(words[3]), int(words[5])
        elif words[:2] == ["refused", "p"]:
            raise Refused(int(words[3]), int(words[5]), self)
        elif words[:2] == ["assembler", "p"]:
            raise WrongText(int(words[3]), int(words[5]))
        elif words[:2] == ["image", "p"]:
            raise ValueError(WRONG_CODE)
        else:
            raise Error(f"edgebpf could not verify the program: {said_lines(run.stderr) or ' '.join(words) or f'it ended with status {run.returncode}'}")

    def share(self) -> Program:
        """The same program once more, which is not verified again and does not end with this one. Threads need none: each of them has a
        handle of its own."""
        other = copy.copy(self)
        if self._shared is not None:
            other._shared = library.Shared(self._shared.another(), self._sharing)
        return other

    def __repr__(self) -> str:
        return f"<edgebpf.Program: records of {self.record} bytes, a table of {len(self.table)}, bound {self.bound}, frames {self.frames}>"

    def _handles(self) -> library.Shared:
        """The library's handles of the program, which is verified there at the first use."""
        with self._lock:
            if self._shared is None:
                self._shared = library.Shared(self._verified(), self._sharing)
            return self._shared

    @staticmethod
    def _sharing(handle: Any, out: Any) -> int:
        return int(stacks.call(library.load().edgebpf_program_share, handle, out))

    def _verified(self) -> library.Handle:
        """Verifies the program by the library."""
        code, verdict = self.assembled(), library.new("verdict *")
        handle = library.Handle()
        given = code, len(code), self.table, len(self.table)
        status = stacks.call(library.load().edgebpf_program_new, self.record, *given, verdict, handle.at)
        if status == library.REFUSED:
            raise Refused(verdict.cause, verdict.pc, self)
        library.check(status)
        self.bound, self.frames = verdict.bound, verdict.frames
        self._has_helpers = calls_helpers(code)
        return handle

    def assembled(self) -> bytes:
        """The code of the program, in units of 8 bytes; the library assembles it if the program was made of a text."""
        if self.code is not None:
            return self.code
        return code_of_text(self.text or "")

    def _lines(self, name: str) -> bytes:
        """The lines of a script that load the program under a name. They have the code of a text that the library assembled: some of its
        lines may be too long for a script, and a process ends at such a line."""
        code = self.assembled() if self._shared else self.code
        if code is not None and self.table:
            front = IMAGE.pack(IMAGE_BEGINS, self.record, len(code) // UNIT, len(self.table))
            return f"image {name} {(front + code + self.table).hex()}\n".encode()
        if code is not None:
            return f"code {name} {self.record} {code.hex() or '-'}\n".encode()
        return f"program {name} {self.record}\n{self.text}\nend\n".encode()

    def _explain(self) -> str:
        words = [*python_command("edgebpf-explain"), str(self.record)] + ([self.code.hex()] if self.code is not None else [])
        words += ["--table", self.table.hex()] if self.table else []
        given = None if self.text is None else self.text + "\n"
        run = subprocess.run(words, input=given, capture_output=True, text=True)
        return run.stdout or run.stderr


def code_of_text(text: str) -> bytes:
    """The code that a text means, which is not verified. Raises `WrongText`."""
    calls, given = library.load(), text.encode()
    assembled, code = library.new("assembled *"), library.foreign().new("uint8_t[]", MOST_CODE_BYTES)
    status = calls.edgebpf_assemble(given, len(given), code, len(code), assembled)
    if status == library.WRONG_TEXT:
        raise WrongText(assembled.cause, assembled.line)
    library.check(status)
    return bytes(library.foreign().buffer(code, assembled.length))


def calls_helpers(code: bytes) -> bool:
    """Whether one of its units may be the call of a helper, and not of a function of its own."""
    units = zip(code[::UNIT], code[1::UNIT])
    return any(opcode == CALL and registers >> 4 == 0 for opcode, registers in units)


def handle_of(program: Program) -> library.Handle:
    """This thread's handle of a program."""
    if not isinstance(program, Program):
        raise TypeError("a program is made by Program, assemble or compile_c")
    return (program._shared or program._handles()).own()


def argument_of(program: Program, argument: bytes, columns: int = 0) -> bytes:
    """The bytes of an argument, if they are as many as the program's record has beyond 16, and beyond 16 for each of so many columns."""
    given, wanted = bytes_of(argument, "argument"), program.record - EDGE_BYTES - COLUMN_BYTES * columns
    if wanted < 0:
        raise ArgumentLength(f"a record of {program.record} bytes has no room for {columns} columns, each of {COLUMN_BYTES} bytes")
    if len(given) != wanted:
        beside = f" beside {columns} columns" if columns else " if no column is lent" if wanted >= COLUMN_BYTES else ""
        raise ArgumentLength(f"the argument has {wanted} bytes{beside}, not {len(given)}")
    return given


def lines_of(text: str | Sequence[str]) -> list[str]:
    """The lines of a text, or of a list of lines, each of which may have its line end."""
    if isinstance(text, str):
        return text.replace("\r\n", "\n").split("\n")
    if isinstance(text, (bytes, bytearray)):
        raise TypeError("text is a str, or a list of lines")
    try:
        lines = list(text)
    except TypeError:
        raise TypeError(f"text is a str, or a list of lines, not {type(text).__name__}") from None
    if not all(isinstance(line, str) for line in lines):
        raise TypeError("text is a str, or a list of lines, each a str")
    lines = [line.removesuffix("\n").removesuffix("\r") for line in lines]
    if any("\n" in line for line in lines):
        raise ValueError("a line in the list `text` has a line end within it")
    return lines


def assemble(text: str | Sequence[str], record: int = EDGE_BYTES, table: bytes = b"") -> Program:
    """The program of an assembler text: a text of lines or a list of lines, with a table as `Program` has it. A line has one statement
    or label, and a comment after `;`, as in scripts, C and Rust.

    Raises `WrongText`, also of a statement after `;`, where earlier releases took one, and `Refused`.
    """
    return Program._of_text(tested_text(text), record, table)


def tested_text(text: str | Sequence[str]) -> str:
    """A text of lines, none of which a script or an earlier release would take for something else."""
    lines = lines_of(text)
    if any(line.strip() == "end" for line in lines):
        raise ValueError("a line `end` would end the program; a label of that name is written `end:`")
    for number, line in enumerate(lines, 1):
        if not line.isascii():
            letter = next(letter for letter in line if not letter.isascii())
            raise ValueError(f"line {number}: a program's text is ASCII, also in comments, and {letter!a} is not")
    for number, line in enumerate(lines, 1):
        if any(map(STATEMENT.fullmatch, line.split(";")[1:])):
            raise WrongText(STATEMENT_IN_COMMENT, number)
    return "\n".join(lines)


def explain(program: bytes | str | Sequence[str], record: int = EDGE_BYTES, table: bytes = b"") -> str:
    """The verifier's state before each instruction of a program, as text, whether it is accepted or refused; and of a refused one the rule
    that failed, and the usual fix. It needs the library in this process.

    program: code, or a text as `assemble` takes it. Raises `WrongText`.
    """
    is_code = isinstance(program, (bytes, bytearray, memoryview))
    code = bytes(program) if is_code else code_of_text(tested_text(program))  # type: ignore[arg-type]
    calls, given, length = library.load(), bytes_of(table, "table"), record_of(record)
    room, count = FIRST_ROOM, library.new("size_t *")
    while True:
        text = library.foreign().new("uint8_t[]", room)
        status = calls.edgebpf_explain(length, code, len(code), given, len(given), text, room, count)
        if status != library.LENGTHS or count[0] <= room:
            break
        room = count[0]
    library.check(status)
    return bytes(library.foreign().buffer(text, count[0])).decode()

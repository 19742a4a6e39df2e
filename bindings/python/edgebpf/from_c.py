"""Programs from C, by `edgebpf-c` and clang in processes of their own, which get so much time and memory and leave nothing."""
from __future__ import annotations

import contextlib
import os
import pathlib
import signal
import subprocess
import tempfile
import threading
import time
from collections.abc import Iterator, Sequence
from typing import Any

from edgebpf.errors import Error
from edgebpf.limits import EDGE_BYTES
from edgebpf.programs import Program, python_command, record_of

SECONDS = 10.0
# The address space of each process, and the bytes of a file that one may write.
MEMORY, FILE_BYTES = 1 << 30, 1 << 26
# So much of what the compiler says is told.
SAID_BYTES = 1 << 14
# The seconds between two looks at whether a process has ended.
PAUSE = 0.005
# sh counts kilobytes of memory and blocks of 512 bytes. Where a limit is lower already, it stays.
LIMITED = f'ulimit -v "$1" 2>/dev/null; ulimit -f {FILE_BYTES // 512} 2>/dev/null; shift; exec "$@"'
SHORT_OF_MEMORY = ("out of memory", "bad_alloc", "MemoryError", "Cannot allocate memory", "failed to map segment")


@contextlib.contextmanager
def held() -> Iterator[None]:
    """A Ctrl-C waits for the end of the block, where this thread is the one that hears it."""
    before, waiting = signal.getsignal(signal.SIGINT), list[Any]()
    if threading.current_thread() is not threading.main_thread() or not callable(before):
        yield
        return
    signal.signal(signal.SIGINT, lambda *given: waiting.append(given))
    try:
        yield
    finally:
        signal.signal(signal.SIGINT, before)
        if waiting:
            before(*waiting[0])


@contextlib.contextmanager
def temporary_folder() -> Iterator[str]:
    """A folder that is gone at the end of the block, also if this thread is interrupted."""
    kept = None
    try:
        with held():
            kept = tempfile.TemporaryDirectory(prefix="edgebpf-")
        yield kept.name
    finally:
        with held():
            if kept:
                kept.cleanup()


def ended(words: Sequence[str], folder: str, cwd: str | None, seconds: float) -> int | None:
    """The status of a command that writes `out` and `said` of a folder, where its temporary files are, too. None if its time was over. It
    and all that it started are gone then, and also if this thread is interrupted."""
    environment, process, status = {**os.environ, "TMPDIR": folder}, None, None
    try:
        with held(), open(f"{folder}/out", "wb") as out, open(f"{folder}/said", "wb") as said:
            process = subprocess.Popen(words, stdin=subprocess.DEVNULL, stdout=out, stderr=said, cwd=cwd, env=environment, start_new_session=True)
        is_over = has_ended(process.pid, time.monotonic() + seconds)
    finally:
        with held():
            if process:
                # It leads the group of all that it started. The group has its number until the process is waited for.
                with contextlib.suppress(ProcessLookupError):
                    os.killpg(process.pid, signal.SIGKILL)
                status = process.wait()
    return status if is_over else None


def has_ended(process: int, deadline: float) -> bool:
    """Whether a process ends by then. It is not waited for, so nothing else gets its number."""
    how = os.WEXITED | os.WNOHANG | os.WNOWAIT
    with contextlib.suppress(ChildProcessError):
        while os.waitid(os.P_PID, process, how) is None:
            if time.monotonic() >= deadline:
                return False
            time.sleep(PAUSE)
    return True


def made_line(words: Sequence[str], folder: str, cwd: str | None, seconds: float) -> list[str]:
    """The words of the line that `edgebpf-c` prints, or the error with what it said."""
    limited = ["sh", "-c", LIMITED, "sh", str(MEMORY >> 10), *python_command("edgebpf-c"), "--name", "p", "--", *words]
    status = ended(limited, folder, cwd, seconds)
    if status is None:
        raise Error(f"the compiler took more than {seconds:g} seconds")
    with open(f"{folder}/said", "rb") as stream:
        # A text has no folder to who gave it.
        said = stream.read(SAID_BYTES).decode(errors="replace").strip().replace(f"{folder}/", "")
    line = pathlib.Path(folder, "out").read_text().split()
    if status or not line:
        if any(sign in said for sign in SHORT_OF_MEMORY):
            raise Error(f"the compiler needs more than {MEMORY >> 20} MB of memory")
        raise Error(said or f"the compiler ended with status {status}")
    return line


def compile_c(
    path: str | os.PathLike[str] | None = None, function: str = "", record: int = EDGE_BYTES, *, text: str | None = None,
    timeout: float = SECONDS,
) -> Program:
    """The program of a function in C, `u64 FUNCTION(struct edge *edge, u64 length)`, by `edgebpf-c` and clang. Its table is the object
    marked `TABLE`, if there is one.

    path: the source's file, or an object file; or text: the source itself in its place. timeout: how many seconds the compiler may take;
    it is killed then, with all that it started. Each of its processes has 1 GB of memory at most, and no file is left. The compiler
    reads any file that this process may read, where the source says so, and its words show lines of such a file: of strangers take code,
    and no source. Raises `Error` with the compiler's or the linker's words, and `Refused`.
    """
    if (path is None) == (text is None):
        raise TypeError("compile_c takes either path or text")
    if not isinstance(function, str) or not function:
        raise TypeError("function is the name of a function in C")
    if text is not None and not isinstance(text, str):
        raise TypeError(f"text is a str, not {type(text).__name__}")
    if not isinstance(timeout, (int, float)) or not 0 < timeout < float("inf"):
        raise ValueError("timeout is a number of seconds above 0")
    if path is not None and not isinstance(path, (str, bytes, os.PathLike)):
        raise TypeError(f"path is the name of a file, not {type(path).__name__}")
    record = record_of(record)
    with temporary_folder() as folder:
        if text is not None:
            pathlib.Path(folder, "program.c").write_text(text, encoding="utf-8", errors="surrogatepass")
        name = "program.c" if path is None else os.fsdecode(path)
        word, *words = made_line([name, function, str(record)], folder, folder if path is None else None, timeout)
    if word == "image":
        return Program._of_image(bytes.fromhex(words[1]))
    return Program(bytes.fromhex(words[2]), record)

"""Files and processes that a companion has only while it needs them, however it ends."""
import contextlib
import os
import signal
import subprocess
import tempfile

from edgebpf_tools import ends
from edgebpf_tools.refusal import Refusal


@contextlib.contextmanager
def folder():
    """A temporary folder, which is gone at the end of the block."""
    kept = None
    try:
        # A signal that came meanwhile is taken as the inner block ends.
        with ends.Signals.held():
            kept = tempfile.TemporaryDirectory(prefix="edgebpf-")
        yield kept.name
    finally:
        with ends.Signals.held():
            if kept:
                kept.cleanup()


@contextlib.contextmanager
def whole_file(path):
    """A text file to write, which takes the place of `path` at the end of the block. A block that fails leaves `path` as it was, but where
    only the file may be written, and not its folder."""
    target = os.path.realpath(path)
    # Of a pipe in /dev/fd the real path is no name of a file.
    is_special = os.path.exists(path) and not (os.path.isfile(path) and os.access(os.path.dirname(target), os.W_OK))
    part = path if is_special else f"{target}.part{os.getpid()}"
    if os.path.isfile(path) and any(os.path.samestat(os.stat(path), os.fstat(number)) for number in (1, 2)):
        raise Refusal(f"{path}: standard output or error is written there")
    try:
        with open(part, "w", encoding="utf-8", errors="surrogateescape") as stream:
            if part != path and os.path.exists(path):
                os.chmod(part, os.stat(path).st_mode & 0o777)
            yield stream
        if not is_special:
            os.replace(part, target)
    except BaseException as error:
        if not is_special:
            with contextlib.suppress(OSError):
                os.unlink(part)
        if isinstance(error, OSError) and error.filename in (None, part):
            raise Refusal(f"{path}: {error.strerror}") from None
        raise


@contextlib.contextmanager
def child(command, **options):
    """A process with a group of its own, so that a Ctrl-C reaches it by way of this one. It and what it started are gone at
    the end of the block."""
    process = None
    try:
        with ends.Signals.held(), _terminal_for_all():
            process = subprocess.Popen(command, process_group=0, **options)
        yield process
    finally:
        with ends.Signals.held():
            if process:
                _stop(process)


def finished(command, text=None, **options):
    """What a process writes and says for a text, and its status, once it has ended; as `subprocess.run`, but that a signal which comes while it
    starts leaves none. It stays in the group of this one: whoever kills that means both."""
    process, given = None, None if text is None else subprocess.PIPE
    try:
        with ends.Signals.held():
            process = subprocess.Popen(command, stdin=given, text=True, **options)
        written, said = process.communicate(text)
        return subprocess.CompletedProcess(command, process.returncode, written, said)
    finally:
        with ends.Signals.held():
            if process:
                _stop(process)


@contextlib.contextmanager
def _terminal_for_all():
    """What is started in the block may write to the terminal from outside of its group, also after `stty tostop`."""
    before = signal.signal(signal.SIGTTOU, signal.SIG_IGN)
    try:
        yield
    finally:
        signal.signal(signal.SIGTTOU, before)


def _stop(process):
    if process.poll() is None:
        with contextlib.suppress(OSError):
            os.killpg(process.pid, signal.SIGKILL)
        process.kill()
    for stream in (process.stdin, process.stdout, process.stderr):
        with contextlib.suppress(OSError):
            if stream:
                stream.close()
    process.wait()

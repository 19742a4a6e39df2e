"""How a companion ends: with all of its output written and status 0, or with one line on standard error and another status."""
import contextlib
import io
import os
import signal
import sys

from edgebpf_tools.refusal import Refusal

SIGNALS = {signal.SIGINT: "interrupted", signal.SIGTERM: "terminated", signal.SIGHUP: "the terminal was closed"}
FAILED, SIGNALLED = 1, 128


class Interrupted(KeyboardInterrupt):
    """A signal asks the process to end."""

    def __init__(self, number):
        super().__init__(number)
        self.number = number


class Signals:
    """The signals that ask the process to end. They raise `Interrupted`, but not within `held`, where they wait for its end."""

    holds, waiting = [], None
    # A signal of these leaves the process to go on, and one that has to wait is answered with the note.
    survived, note = frozenset(), b""

    @classmethod
    def take(cls, number, _):
        if any(number in held for held in cls.holds):
            cls.waiting = cls.waiting or number
            os.write(2, cls.note)
            return
        if number not in cls.survived:
            # What is cleaned up from here on is cleaned up whole.
            handle(signal.SIG_IGN)
        raise Interrupted(number)

    @classmethod
    @contextlib.contextmanager
    def held(cls, numbers=frozenset(SIGNALS)):
        cls.holds.append(numbers)
        try:
            yield
        finally:
            cls.holds.pop()
            if cls.waiting and not cls.holds:
                number, cls.waiting = cls.waiting, None
                cls.take(number, None)


def handle(handler, numbers=SIGNALS):
    """Sets the handler of signals that end a process, but of those that it was started to ignore."""
    for number in numbers:
        if signal.getsignal(number) != signal.SIG_IGN:
            signal.signal(number, handler)


def begin(program, numbers=SIGNALS):
    """Has signals end the process with their line while modules are still being imported and there is nothing to clean up."""

    def end(number, _):
        os.write(2, f"{program}: {SIGNALS[number]}\n".encode())
        os._exit(SIGNALLED + number)

    handle(end, numbers)
    # The tool was started with this one waiting.
    signal.pthread_sigmask(signal.SIG_UNBLOCK, {signal.SIGINT})


def run(program, perform, failed=FAILED, handler=Signals.take, numbers=SIGNALS):
    """Has `perform` do what the words of the command line say, and ends the process with the status that it returns. Any other
    end is one line on standard error and the status `failed`, or 128 plus the number of a signal, of which these raise."""
    try:
        handle(handler, numbers)
        status = performed(program, perform, failed)
    except KeyboardInterrupt as interrupt:
        number = getattr(interrupt, "number", signal.SIGINT)
        status = _told(program, SIGNALS[number], SIGNALLED + number)
    sys.exit(status)


def performed(program, perform, failed=FAILED):
    """Does what the words of the command line say, and returns the status. Signals are the caller's. A fault is one line on standard error
    and the status `failed`, also if standard output could not be written or is closed."""
    try:
        _open_standard_files()
        try:
            status = perform(sys.argv[1:])
        except SystemExit as ended:
            # argparse ends so, after its help or the fault of a word.
            status = ended.code
        sys.stdout.flush()
        handle(signal.SIG_IGN)
        return status
    except Refusal as refusal:
        text = str(refusal)
    except OSError as error:
        text = in_words(error)
    except UnicodeError:
        text = "what was read is no text in UTF-8"
    except ImportError as error:
        text = f"a package is missing or does not load: {error}"
    except MemoryError:
        text = "out of memory"
    return _told(program, text, failed)


def in_words(error):
    """An error of the system, with the file that it is about, if there is one."""
    words = error.strerror or str(error) or type(error).__name__
    return f"{os.fsdecode(error.filename)}: {words}" if error.filename else words


def _told(program, text, status):
    handle(signal.SIG_IGN)
    with contextlib.suppress(OSError):
        print(f"{program}: {text}", file=sys.stderr)
    # What could not be written is not tried again while Python ends.
    for file in (1, 2):
        with contextlib.suppress(OSError), open(os.devnull, "wb") as nowhere:
            os.dup2(nowhere.fileno(), file)
    return status


class _Output(io.FileIO):
    """Standard output, whose faults are told as such."""

    def write(self, data):
        try:
            return super().write(data)
        except OSError as error:
            raise Refusal(f"standard output: {error.strerror}") from None


def _open_standard_files():
    """Gives standard error a file if it was closed, since Python would print its lines to standard output."""
    for stream in (0, 2):
        try:
            os.fstat(stream)
        except OSError:
            nowhere = os.open(os.devnull, os.O_RDWR)
            os.dup2(nowhere, stream)
            os.set_inheritable(stream, True)
            if nowhere != stream:
                os.close(nowhere)
    if sys.stderr is None:
        sys.stderr = open(2, "w", closefd=False)
    if sys.stdout is None:
        raise Refusal("standard output is closed")
    # With PYTHONUNBUFFERED Python's own loses what the system did not take at once.
    out = io.BufferedWriter(_Output(1, "w", closefd=False))
    sys.stdout = io.TextIOWrapper(out, sys.stdout.encoding, "backslashreplace", line_buffering=sys.stdout.isatty())


def standard_input():
    """Standard input, or the refusal if it is closed."""
    if sys.stdin is None:
        raise Refusal("standard input is closed")
    return sys.stdin

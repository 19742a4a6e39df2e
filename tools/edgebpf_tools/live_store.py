"""An edgebpf that is asked line by line."""
import contextlib
import os
import select
import signal
import subprocess
import time

from edgebpf_tools import ends, owned, store
from edgebpf_tools.refusal import Refusal

# A read takes at most so many bytes.
BLOCK = 1 << 18
# A Ctrl-C is taken while an answer is awaited, and at no other moment, so that nothing of an answer is lost.
INTERRUPT = {signal.SIGINT}


def text_of(said):
    return said.decode("utf-8", "surrogateescape")


class LiveStore:
    """The process that keeps the graph of a session."""

    def __init__(self):
        self.stack, self.process = contextlib.ExitStack(), None
        # What was read of the answer, and whether its end is still to come; how the line after it begins.
        self.said, self.is_owed, self.end = bytearray(), False, b""

    @classmethod
    @contextlib.contextmanager
    def started(cls):
        """A store for the time of a block. It has a process group of its own: a Ctrl-C at the terminal leaves it its graph."""
        live = cls()
        try:
            live._start()
            yield live
            with contextlib.suppress(BrokenPipeError):
                live.process.stdin.close()
            live.process.wait()
        finally:
            live.stack.close()

    def _start(self):
        child = owned.child(store.command(), stdin=subprocess.PIPE, stdout=subprocess.PIPE, bufsize=0)
        self.process = self.stack.enter_context(child)
        self.said, self.is_owed = bytearray(), False

    def restart(self, commands):
        """Ends the process, and gives another one these commands."""
        self.stack.close()
        self._start()
        for lines in commands:
            self.ask(lines)

    def ask(self, lines):
        """What is written for the lines of one command. If a Ctrl-C comes meanwhile, the rest of it is owed."""
        # A run ends with as many rows as it has, and a list with its edges: the answer to one question more says that they have ended.
        self.end = b"home " if lines[0].split()[0] in ("run", "list", "pull", "values") else b""
        with ends.Signals.held(INTERRUPT):
            self._write("\n".join(lines + ["home 0"] if self.end else lines) + "\n")
            self.said, self.is_owed = bytearray(), True
        while self.is_owed:
            self._read(None)
        return text_of(self.said).split("\n")[:-1]

    def settles(self, seconds):
        """Whether the rest of an answer that is owed comes within a time. It is dropped."""
        deadline = time.monotonic() + seconds
        while self.is_owed and (left := deadline - time.monotonic()) > 0:
            self._read(left)
        return not self.is_owed

    def _write(self, text):
        left = memoryview(text.encode("utf-8", "surrogateescape"))
        try:
            while left:
                left = left[self.process.stdin.write(left) :]
        except BrokenPipeError:
            raise self._ended() from None

    def _read(self, seconds):
        """Reads what there is, once there is something."""
        out = self.process.stdout.fileno()
        if not select.select([out], [], [], seconds)[0]:
            return
        with ends.Signals.held(INTERRUPT):
            block = os.read(out, BLOCK)
            self.said += block
            if not block:
                raise self._ended()
            self._look_for_end()

    def _look_for_end(self):
        """Takes note of the answer's end, and takes the line after it off. A fault ends the process, so that its line is the last one."""
        if not self.said.endswith(b"\n"):
            return
        last = self.said.rfind(b"\n", 0, len(self.said) - 1) + 1
        is_fault = self.said.startswith(b"fault ", last)
        if not is_fault and self.said.startswith(self.end, last):
            self.is_owed = False
            if self.end:
                del self.said[last:]

    def _ended(self):
        """The refusal after the process has ended, with the fault that it told last."""
        self.is_owed = False
        last = text_of(self.said).splitlines()[-1:]
        fault = last[0] if last and last[0].startswith("fault ") else None
        return Refusal(f"edgebpf has ended: {fault}" if fault else f"edgebpf has ended, with status {self.process.wait()}")

"""One start of a program in a folder of its own: what it reads and writes, how it ends, and what it leaves."""
import contextlib
import dataclasses
import os
import pathlib
import shutil
import signal
import subprocess
import threading
import time
import uuid

import uses

MARK = "SIGNALS_TRIAL"
# How long an undisturbed program may take.
LONGEST = 60
BLOCK = 1 << 16


@dataclasses.dataclass
class End:
    """How a start ended: its status, what it wrote and said, and what it left."""

    status: int | None
    written: bytes
    said: str
    made: dict
    left: list
    seconds: float = 0.0


class Start:
    """A program that was started once, in a folder of its own."""

    def __init__(self, use, given, folder, is_read=False):
        self.use, self.folder, self.mark = use, folder, f"{MARK}={uuid.uuid4().hex}"
        for name in ("temporary", "made"):
            (folder / name).mkdir()
        environment = {**uses.environment(given, folder / "temporary"), MARK: self.mark.partition("=")[2]}
        with contextlib.ExitStack() as stack:
            opened = lambda name, how: stack.enter_context(open(name, how))
            reads = subprocess.PIPE if use.is_piped else opened(use.reads or os.devnull, "rb")
            out = subprocess.PIPE if is_read else opened(folder / "written", "wb")
            self.process = subprocess.Popen(
                use.words, stdin=reads, stdout=out, stderr=opened(folder / "said", "wb"), cwd=folder / "made", env=environment, process_group=0)
        self.taken, self.is_closed = bytearray(), threading.Event()
        self.threads = [threading.Thread(target=work, daemon=True) for work in [self.feed] * use.is_piped + [self.take] * is_read]
        for thread in self.threads:
            thread.start()

    def feed(self):
        with contextlib.suppress(OSError), open(self.use.reads, "rb") as stream, self.process.stdin as pipe:
            shutil.copyfileobj(stream, pipe, BLOCK)

    def take(self):
        """Reads what is written until that is to be closed."""
        out = self.process.stdout.fileno()
        os.set_blocking(out, False)
        while not self.is_closed.is_set():
            with contextlib.suppress(BlockingIOError):
                block = os.read(out, BLOCK)
                if not block:
                    break
                self.taken += block
                continue
            self.is_closed.wait(0.001)
        self.process.stdout.close()

    def wait(self, seconds):
        """The status, or None if it did not end in time and was killed."""
        try:
            return self.process.wait(seconds)
        except subprocess.TimeoutExpired:
            os.killpg(self.process.pid, signal.SIGKILL)
            self.process.wait()
            return None

    def processes(self):
        """What was started by it and is there, by number and words."""
        found = {}
        for entry in os.scandir("/proc"):
            if entry.name.isdigit():
                with contextlib.suppress(OSError):
                    if self.mark.encode() in pathlib.Path(entry.path, "environ").read_bytes():
                        found[int(entry.name)] = pathlib.Path(entry.path, "cmdline").read_bytes().replace(b"\0", b" ").decode(errors="replace")[:80]
        return found

    def ended(self, seconds, patience):
        """How it ended, some seconds after what was sent. Its children have as much time as it has itself."""
        begun = time.monotonic()
        status = self.wait(seconds)
        took = time.monotonic() - begun
        for thread in self.threads:
            thread.join(LONGEST)
        while (there := self.processes()) and time.monotonic() - begun < max(took, patience):
            time.sleep(0.02)
        for number in there:
            with contextlib.suppress(OSError):
                os.kill(number, signal.SIGKILL)
        made = content_of(self.folder / "made")
        allowed = {*self.use.makes, *self.use.grows}
        left = [f"process {words}" for words in there.values()] + [f"file {name}" for name in {name.split("/")[0] for name in made} - allowed]
        left += [f"temporary {path.name}" for path in (self.folder / "temporary").iterdir()]
        written = bytes(self.taken) if not (self.folder / "written").exists() else (self.folder / "written").read_bytes()
        return End(status, written, (self.folder / "said").read_text(errors="replace"), made, left, took)


def content_of(folder):
    """The files of a folder. Of a database, which is not the same each time, the name counts."""
    files = [path for path in folder.rglob("*") if path.is_file()]
    return {str(path.relative_to(folder)): b"" if path.suffix == ".db" else path.read_bytes() for path in files}


def state_of(process):
    with contextlib.suppress(OSError):
        return pathlib.Path(f"/proc/{process}/stat").read_text().rpartition(")")[2].split()[0]
    return "X"

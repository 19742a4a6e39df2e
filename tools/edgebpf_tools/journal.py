"""The lines that a session sent, kept in a file."""
import errno
import fcntl
import os

from edgebpf_tools import owned
from edgebpf_tools.refusal import Refusal

# So many bytes of what is left out are shown.
MOST_SHOWN = 200


def sync_name(path):
    """Waits until the disk has the name of a file. A folder that may not be read, or whose file system syncs none, is left as it is."""
    try:
        folder = os.open(os.path.dirname(os.path.realpath(path)), os.O_RDONLY | os.O_DIRECTORY)
        try:
            os.fsync(folder)
        finally:
            os.close(folder)
    except OSError as error:
        if error.errno not in (errno.EACCES, errno.EINVAL):
            raise


class Journal:
    """A file that holds whole commands, from which a session can be taken up again."""

    def __init__(self, path, is_synced=False):
        # Whether the disk has the file's name, too.
        self.path, self.is_synced, self.is_named = path, is_synced, False
        self.file = open(path, "a+b", buffering=0)
        if not self._is_ours():
            self.file.close()
            raise Refusal(f"{path} is the journal of another session, which goes on")
        self.size = self.file.seek(0, os.SEEK_END)
        # The last line of a script may lack its end.
        self.end = b"\n" if self.size and os.pread(self.file.fileno(), 1, self.size - 1) != b"\n" else b""

    def _is_ours(self):
        """Locks the file, unless another session has. On a file system without locks it is taken as it is."""
        try:
            fcntl.flock(self.file, fcntl.LOCK_EX | fcntl.LOCK_NB)
        except OSError as error:
            return not isinstance(error, BlockingIOError)
        return True

    def _sync(self):
        """Waits until the disk has the lines, and the name of a file that is new or took another's place."""
        os.fsync(self.file.fileno())
        if not self.is_named:
            sync_name(self.path)
            self.is_named = True

    def cut(self, size):
        """Keeps so many bytes of the file, which are whole lines, and returns the rest of them as text."""
        rest = os.pread(self.file.fileno(), MOST_SHOWN, size).decode("utf-8", "replace")
        self.file.truncate(size)
        self.size, self.end = size, b""
        return rest

    def replace(self, lines):
        """A journal with these lines in the place of this one, whole at any moment."""
        with owned.whole_file(self.path) as stream:
            stream.writelines(f"{line}\n" for line in lines)
            stream.flush()
            os.fsync(stream.fileno())
        other = Journal(self.path, self.is_synced)
        self.file.close()
        return other

    def add(self, lines):
        """Keeps the lines of a command. If that fails, nothing of them is kept, and the error is raised."""
        text = self.end + "".join(f"{line}\n" for line in lines).encode("utf-8", "surrogateescape")
        try:
            written = 0
            while written < len(text):
                written += self.file.write(text[written:])
            if self.is_synced:
                self._sync()
        except OSError:
            self.file.truncate(self.size)
            raise
        self.size, self.end = self.size + len(text), b""

"""Serves a script by the built program."""
import os
import signal


def late(_signal, _frame):
    raise TimeoutError


def given(name, content):
    """A file in memory that is read from its beginning."""
    end = os.memfd_create(name)
    with open(end, "wb", closefd=False) as file:
        file.write(content)
    os.lseek(end, 0, os.SEEK_SET)
    return end


def content_of(end):
    with open(end, "rb", closefd=False) as file:
        file.seek(0)
        return file.read()


def served(program, workers, script, seconds):
    """What is written, the status (of a signal its number, negative) and what is said on standard error; or None after so many seconds."""
    ends = [given("script", script), given("output", b""), given("error", b"")]
    actions = [(os.POSIX_SPAWN_DUP2, end, place) for place, end in enumerate(ends)]
    signal.signal(signal.SIGALRM, late)
    try:
        child = os.posix_spawn(program, [program, "--workers", str(workers)], {}, file_actions=actions)
        signal.alarm(seconds)
        try:
            status = os.waitstatus_to_exitcode(os.waitpid(child, 0)[1])
        except TimeoutError:
            os.kill(child, signal.SIGKILL)
            os.waitpid(child, 0)
            return None
        finally:
            signal.alarm(0)
        return content_of(ends[1]), status, content_of(ends[2])
    finally:
        for end in ends:
            os.close(end)

"""What the tests of the service share: services, and clients that count no answer as an answer."""
import contextlib
import json
import os
import pathlib
import signal
import subprocess
import sys
import tempfile
import threading

HERE = pathlib.Path(__file__).resolve().parent
TOP = HERE.parent.parent
TOOLS = TOP / "tools"
sys.path.insert(0, str(TOOLS))

from edgebpf_client import Client, Error, NoAnswer, brought, events_of  # noqa: E402, F401

PYTHON = "/usr/bin/python3"
ALL_ROLES = "read,write,program,admin"


class Fault(Exception):
    """The service did what it must not do."""


def missing():
    """The packages that a service needs and that are not there."""
    names = "numpy cffi aiohttp prometheus_client".split()
    words = f"import importlib.util as u; print(' '.join(n for n in {names} if u.find_spec(n) is None))"
    return subprocess.run([PYTHON, "-c", words], capture_output=True, text=True).stdout.strip()


class Forks:
    """A process that forks services. It ends with this object's block."""

    def __init__(self, log=os.devnull, **environment):
        words = {**os.environ, "SERVE_LOG": str(log), **environment}
        # Whoever runs this may ignore the signals that end a service.
        default = {"preexec_fn": lambda: [signal.signal(number, signal.SIG_DFL) for number in (signal.SIGINT, signal.SIGTERM)]}
        self.process = subprocess.Popen([PYTHON, HERE / "forks.py"], stdin=subprocess.PIPE, stdout=subprocess.PIPE, text=True, env=words, **default)
        self.lock = threading.Lock()

    def __enter__(self):
        return self

    def __exit__(self, *_):
        self.process.stdin.close()
        self.process.wait()

    def told(self):
        line = self.process.stdout.readline()
        if not line:
            raise Fault("the process that forks services has ended")
        return json.loads(line)

    def begin(self, **options):
        """The pid of a service that is not yet there; `port` has to be asked next."""
        self.process.stdin.write(json.dumps({"options": {"listen": "127.0.0.1:0", "reserve_bytes": 0, **options}}) + "\n")
        self.process.stdin.flush()
        return self.told()["pid"]

    def port(self):
        """The port of the service that was begun last; None if it ended before it listened, and then its status."""
        told = self.told()
        return told.get("port"), told.get("status")

    def client(self, port, token=None):
        return Client(f"http://127.0.0.1:{port}", token=token, timeout=30, tries=1)

    def wait(self, pid):
        with self.lock:
            self.process.stdin.write(json.dumps({"wait": pid}) + "\n")
            self.process.stdin.flush()
            return self.told()["status"]


def token_command(data, *words, **environment):
    """What `edgebpf-serve token` prints, by which an administrator makes tokens, also while the folder is served."""
    run = subprocess.run([TOOLS / "edgebpf-serve", "token", data, *words], capture_output=True, text=True, env={**os.environ, **environment})
    require(run.returncode == 0, "a token:", run.stderr)
    return run.stdout.strip()


def status_of(call):
    """The status that a request is answered."""
    try:
        call()
    except Error as error:
        return error.status
    return 200


@contextlib.contextmanager
def served(forks, **options):
    """A service with a client of it, which is ended by SIGTERM, and has to end with status 0."""
    pid = forks.begin(**options)
    port, status = forks.port()
    if port is None:
        raise Fault(f"the service ended with {status} before it listened")
    try:
        yield Client(f"http://127.0.0.1:{port}", tries=1)
    except BaseException:
        os.kill(pid, signal.SIGKILL)
        forks.wait(pid)
        raise
    os.kill(pid, signal.SIGTERM)
    ended = forks.wait(pid)
    if ended:
        raise Fault(f"the service ended with {ended}")


@contextlib.contextmanager
def folder():
    with tempfile.TemporaryDirectory(prefix="edgebpf-serve-") as name:
        yield pathlib.Path(name)


def require(condition, *words):
    if not condition:
        raise Fault(" ".join(map(str, words)))

"""Where the companions are, and what of their packages is missing."""
import importlib.util
import pathlib
import resource
import signal
import subprocess
import sys

TOOLS = pathlib.Path(__file__).resolve().parent.parent
PYTHON = "/usr/bin/python3"
sys.path.insert(0, str(TOOLS))

from edgebpf_tools.clang import newest  # noqa: E402

# What a test starts is sent these signals. A shell may have started the tests to ignore them, and so would all that they start.
for sent in (signal.SIGINT, signal.SIGTERM, signal.SIGHUP):
    if signal.getsignal(sent) == signal.SIG_IGN:
        signal.signal(sent, signal.SIG_DFL)


def missing():
    """The packages that edgebpf-c needs and that are not there."""
    found = [tool for tool in ("clang", "llvm-objdump", "llvm-dwarfdump") if newest(tool) is None]
    found += [package for package in ("elftools", "numpy") if importlib.util.find_spec(package) is None]
    return ", ".join(found)


MISSING = missing()


def run_tool(name, *words, text=None, **options):
    """Runs a companion as a person would."""
    return subprocess.run([PYTHON, TOOLS / name, *words], input=text, capture_output=True, text=True, **options)


def memory_of(megabytes):
    """Options of a process that gets no more memory than this."""
    most = megabytes << 20
    return {"preexec_fn": lambda: resource.setrlimit(resource.RLIMIT_AS, (most, most))}

"""Serves scripts by the edgebpf of this checkout or installation."""
import os
import pathlib
import subprocess

from edgebpf_tools import owned

TOP = pathlib.Path(__file__).resolve().parent.parent.parent


def command():
    """How edgebpf is started: EDGEBPF in the environment, or the checkout's or installation's own."""
    named = os.environ.get("EDGEBPF") or str(TOP / "edgebpf")
    # Workers have folders of their own.
    return [os.path.abspath(named) if os.sep in named else named]


def serve(script):
    """What edgebpf writes for a script, and its status. Its standard error is passed on."""
    with owned.child(command(), stdin=subprocess.PIPE, stdout=subprocess.PIPE, text=True) as process:
        written, status = process.communicate(script)[0], process.wait()
    # where the program was proved is said once
    os.environ.setdefault("EDGEBPF_PROVED", "elsewhere")
    return written, status

"""Starts services for tests: a process that has all modules forks each, so that one is there in some hundredths of a second.

It reads lines of JSON: {"options": {..}} starts a service, and is answered by its pid and, once it listens, its port; {"wait": PID} waits for
its end, and is answered by its status. A service that ends before it listens is answered by its status alone.
"""
import asyncio
import faulthandler
import importlib
import json
import os
import pathlib
import signal
import sys

TOP = pathlib.Path(__file__).resolve().parent.parent.parent
sys.path[:0] = [str(TOP / "tools"), str(TOP / "bindings" / "python")]

import edgebpf  # noqa: E402
from edgebpf import library  # noqa: E402
from edgebpf_serve import app, command, disk, limits  # noqa: E402


def child(options, out):
    """A service until it ends. SIGUSR1 has it print where its threads are."""
    faulthandler.register(signal.SIGUSR1, all_threads=True)
    try:
        with command.stopping(options):
            kept = disk.Disk(options.data, options.vertices, **FOLDER, reserve=options.reserve_bytes)
            asyncio.run(app.serve(kept, options, command.log, lambda service, server: say(out, port=server.sockets[0].getsockname()[1])))
        status = 0
    except SystemExit as end:
        status = end.code
    except BaseException as error:
        command.log("failed", error=f"{type(error).__name__}: {error}")
        status = 1
    os._exit(status)


def say(out, **told):
    os.write(out, f"{json.dumps(told)}\n".encode())


def start(words, log):
    mine, its = os.pipe()
    pid = os.fork()
    if pid == 0:
        os.close(mine)
        os.dup2(log, 2)
        child(limits.Options(**words), its)
    os.close(its)
    say(1, pid=pid)
    with os.fdopen(mine) as told:
        line = told.readline()
    say(1, **(json.loads(line) if line else {"status": os.waitstatus_to_exitcode(os.waitpid(pid, 0)[1])}))


# How a folder is made: tests have ids forgotten soon.
FOLDER = {"ids": int(os.environ.get("SERVE_IDS", limits.MOST_IDS))}


def main():
    # Python's own modules that a service loads late, and the library.
    library.load()
    edgebpf.assemble("mov r0, 0\nexit")
    for name in filter(None, os.environ.get("SERVE_MISTAKE", "").split(",")):
        importlib.import_module("mistakes").plant(name)
    for change in filter(None, os.environ.get("SERVE_LIMITS", "").split(",")):
        # A limit of seconds, which a test would have to wait for: MODULE.NAME=SECONDS.
        (module, name), value = change.split("=")[0].split("."), float(change.split("=")[1])
        setattr(importlib.import_module(f"edgebpf_serve.{module}"), name, value)
    log = os.open(os.environ.get("SERVE_LOG", os.devnull), os.O_CREAT | os.O_WRONLY | os.O_APPEND, 0o600)
    for line in sys.stdin:
        asked = json.loads(line)
        if "options" in asked:
            start(asked["options"], log)
        else:
            say(1, status=os.waitstatus_to_exitcode(os.waitpid(asked["wait"], 0)[1]))


main()

"""The command `edgebpf-serve`."""
import argparse
import asyncio
import contextlib
import dataclasses
import difflib
import functools
import json
import logging
import os
import pathlib
import sqlite3
import sys
import time

from edgebpf_serve.app import serve
from edgebpf_serve.asked import name_of
from edgebpf_serve.backup import back_up, check, restore
from edgebpf_serve.disk import NAME, Disk, Full, Wrong
from edgebpf_serve.limits import HELP, NO_ROOM_YET, ROLES, RUN_LIMITS, TOKEN_LIMITS, WRONG_FOLDER, Options
from edgebpf_serve.rows import Damaged
from edgebpf_serve.service import is_near
from edgebpf_serve.tokens import add, change, drop, read
from edgebpf_tools import ends

USAGE = """a graph over HTTP that keeps on disk what it acknowledged

  edgebpf-serve --data DIR --vertices 100000          serve a folder, which is made at the first start
  edgebpf-serve token DIR --name NAME --roles R,R     print a new token of the roles read, write, program, admin
  edgebpf-serve token DIR --drop NAME                 take a token back
  edgebpf-serve token DIR                             list the tokens
  edgebpf-serve backup DIR COPY                       copy a folder, also while it is served
  edgebpf-serve restore COPY DIR                      check a copy, and make a folder of it
  edgebpf-serve check DIR                             recover a folder that is not served, and say what it has"""
VARIABLE = "EDGEBPF_SERVE_"
MOST_LIMIT = 1_000_000_000
# How near a name has to be to one that is misspelt, by difflib.
NEAR = 0.8


def log(what, **fields):
    """A line of JSON on standard error."""
    line = json.dumps({"time": round(time.time(), 3), "what": what, **fields}, default=str)
    os.write(2, f"{line}\n".encode())


class Lines(logging.Handler):
    """What Python's modules say, as lines of the log, without traces: clients that break off or send no HTTP are no news."""

    def emit(self, record):
        raised = record.exc_info[1] if record.exc_info else None
        more = {"error": f"{type(raised).__name__}: {raised}"} if raised is not None else {}
        log(record.getMessage().splitlines()[0][:300], module=record.name, **more)


def begin_log():
    logging.basicConfig(handlers=[Lines()], level=logging.WARNING)
    logging.getLogger("aiohttp.server").setLevel(logging.CRITICAL)


def parsed(words):
    """The options of a service, of the command's words, and else of the environment."""
    parser = argparse.ArgumentParser("edgebpf-serve", description=USAGE, formatter_class=argparse.RawDescriptionHelpFormatter)
    for field in dataclasses.fields(Options):
        name, how = f"--{field.name.replace('_', '-')}", {"help": HELP[field.name][2]}
        if isinstance(field.default, bool):
            parser.add_argument(name, action="store_true", default=None, **how)
        else:
            parser.add_argument(name, metavar=kind_of(field).__name__.upper(), **how)
    given = vars(parser.parse_args(words))
    check_variables(parser)
    options = Options()
    for field in dataclasses.fields(Options):
        text = given[field.name] if given[field.name] is not None else os.environ.get(VARIABLE + field.name.upper())
        if text is not None:
            setattr(options, field.name, value_of(parser, field, text))
    if not options.data:
        parser.error("--data DIR is missing")
    check_address(parser, options)
    return options


def check_variables(parser):
    """Ends the start if a variable would be an option's and is none, since a misspelt one would be without effect."""
    known = [field.name.upper() for field in dataclasses.fields(Options)]
    for variable in sorted(os.environ):
        name = variable.removeprefix(VARIABLE)
        if variable.startswith(VARIABLE) and name not in known:
            near = difflib.get_close_matches(name.upper(), known, 1, NEAR)
            parser.error(f"the environment variable {variable} names no option" + (f"; there is {VARIABLE}{near[0]}" if near else ""))


def kind_of(field):
    return int if field.name == "vertices" else type(field.default)


def value_of(parser, field, text):
    """The value of an option, if it is within its limits."""
    least, most, _ = HELP[field.name]
    name = f"--{field.name.replace('_', '-')}"
    if isinstance(field.default, bool):
        if text in (True, "1", "yes", "true"):
            return True
        if text in ("0", "no", "false", ""):
            return False
        parser.error(f"{name} is yes or no, not {text!r}")
    try:
        value = kind_of(field)(text)
    except ValueError:
        parser.error(f"{name} is a number, not {text!r}")
    if least is not None and not least <= value <= most:
        parser.error(f"{name} is {least} to {most}, not {text}")
    return value


def check_address(parser, options):
    if options.listen.startswith("unix:"):
        if len(options.listen) == len("unix:"):
            parser.error("--listen unix:PATH has a path")
        return
    host, _, port = options.listen.rpartition(":")
    if not host or not port.isascii() or not port.isdigit() or int(port) > 65_535:
        parser.error(f"--listen is ADDRESS:PORT or unix:PATH, not {options.listen!r}")


def stop(words, status=WRONG_FOLDER):
    sys.stderr.write(f"edgebpf-serve: {words}\n")
    sys.exit(status)


def main_serve(words):
    options = parsed(words)
    begin_log()
    with stopping(options):
        disk = Disk(options.data, options.vertices, reserve=options.reserve_bytes)
        if not is_near(options.listen) and not options.open and not read(disk.db):
            stop(f"{options.listen} is reached by other machines, and {options.data} has no tokens: make one by edgebpf-serve token, or say --open")
        asyncio.run(serve(disk, options, log))


@contextlib.contextmanager
def stopping(options):
    """Ends the process with words and a status where the folder is wrong, or the address is taken."""
    try:
        yield
    except Wrong as error:
        stop(str(error), NO_ROOM_YET if isinstance(error, Full) else WRONG_FOLDER)
    except (Damaged, sqlite3.Error) as error:
        stop(f"{options.data}: {error}")
    except OSError as error:
        stop(f"{options.listen}: {error.strerror or error}", 1)


def limit_of(text):
    if not text.isascii() or not text.isdigit() or int(text) > MOST_LIMIT:
        raise argparse.ArgumentTypeError(f"a whole number up to {MOST_LIMIT}, not {text!r}")
    return int(text)


def limit_of_run(name, text):
    """A limit of runs, within the limits of the service's option of the same name."""
    (least, most, _), kind = HELP[name], type(getattr(Options, name))
    try:
        number = kind(text)
    except ValueError:
        raise argparse.ArgumentTypeError(f"a number, not {text!r}") from None
    if not least <= number <= most:
        raise argparse.ArgumentTypeError(f"{least} to {most}, not {text}")
    return number


def token_name(text):
    try:
        return name_of(text, "it")
    except ValueError as error:
        raise argparse.ArgumentTypeError(str(error)) from None


def main_token(words):
    parser = argparse.ArgumentParser("edgebpf-serve token", description="make, list and take back tokens")
    parser.add_argument("folder", type=pathlib.Path)
    parser.add_argument("--name", type=token_name, help="the name of a new token")
    parser.add_argument("--roles", default="read", help=f"some of {','.join(ROLES)}")
    parser.add_argument("--drop", metavar="NAME", help="take this token back")
    for name, most in TOKEN_LIMITS.items():
        kind = functools.partial(limit_of_run, name) if name in RUN_LIMITS else limit_of
        default = "the service's own" if most is None else most
        parser.add_argument(f"--{name}", type=kind, metavar="NUMBER", help=f"{LIMIT_WORDS[name]}; {default} if this is not said")
    given = parser.parse_args(words)
    roles = given.roles.split(",")
    for role in roles:
        if role not in ROLES:
            parser.error(f"--roles: there is no role {role!r}; there are {', '.join(ROLES)}")
    if not (given.folder / NAME).is_file():
        stop(f"{given.folder}: it has no {NAME}; start the service once")
    try:
        if given.drop is not None:
            if not change(given.folder, lambda db: drop(db, given.drop)):
                stop(f"there is no token {given.drop}", 1)
        elif given.name is not None:
            limits = {name: getattr(given, name) for name in TOKEN_LIMITS if getattr(given, name) is not None}
            secret = change(given.folder, lambda db: add(db, given.name, roles, limits))
            try:
                print(secret, flush=True)
            except BaseException:
                # Nobody has read it, so it opens nothing.
                change(given.folder, lambda db: drop(db, given.name))
                raise
        else:
            for token in change(given.folder, read).values():
                print(token.name, ",".join(sorted(token.roles)), *(f"{name}={most}" for name, most in token.limits.items() if most is not None))
    except (sqlite3.Error, Damaged, ValueError) as error:
        stop(f"{given.folder}: {error}")


LIMIT_WORDS = {
    "runs": "runs at once", "batches": "batches a second", "programs": "programs that it keeps", "watches": "subscriptions of /watch at once",
    "columns": "columns that it keeps", "seconds": "the most seconds of a run", "units": "the most units of a run",
}


def main_copy(words, name):
    parser = argparse.ArgumentParser(f"edgebpf-serve {name}")
    for word in {"backup": ("folder", "copy"), "restore": ("copy", "folder"), "check": ("folder",)}[name]:
        parser.add_argument(word, type=pathlib.Path)
    given = parser.parse_args(words)
    try:
        if name == "check":
            print(json.dumps(check(given.folder, log)))
        elif name == "restore":
            print(json.dumps(restore(given.copy, given.folder, log)))
        else:
            if not (given.folder / NAME).is_file():
                stop(f"{given.folder}: it has no {NAME}")
            print(json.dumps({"version": back_up(given.folder, given.copy)}))
    except (Wrong, Damaged) as error:
        stop(str(error))
    except (OSError, sqlite3.Error) as error:
        stop(f"{name}: {error}", 1)


def main():
    words = sys.argv[1:]
    if words[:1] in (["token"], ["backup"], ["restore"], ["check"]):
        # Nothing of a copy is left. A service may be killed at any moment: its next start removes what it left.
        ends.handle(ends.Signals.take)
    if words[:1] == ["token"]:
        main_token(words[1:])
    elif words[:1] in (["backup"], ["restore"], ["check"]):
        main_copy(words[1:], words[0])
    else:
        main_serve(words)

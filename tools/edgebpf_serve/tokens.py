"""Tokens: who may do what, and how much of it. The folder has only the sums of tokens."""
import collections
import hashlib
import json
import secrets
import sqlite3
import time
import typing

from edgebpf_serve import rows
from edgebpf_serve.disk import address, transaction
from edgebpf_serve.limits import ROLES, RUN_LIMITS, TOKEN_LIMITS


class Token(typing.NamedTuple):
    name: str
    roles: frozenset
    limits: dict


# Who serves without tokens trusts all clients.
ANYBODY = Token("", frozenset(ROLES), dict(TOKEN_LIMITS))


class TooFast(Exception):
    """This token has as much under way as it may: 429."""


def hash_of(secret):
    return hashlib.sha256(secret.encode("utf-8", "surrogateescape")).digest()


def add(db, name, roles, limits):
    """Adds a token, and returns its secret, which nobody can read later."""
    if any(row[1] == name for row in rows.read(db, "tokens")):
        raise ValueError(f"there is a token {name} already")
    secret = secrets.token_urlsafe(32)
    rows.put(db, "tokens", (hash_of(secret), name, " ".join(roles), json.dumps(limits, sort_keys=True)))
    return secret


def drop(db, name):
    """Takes a token out, and returns whether there was one."""
    return any([rows.remove(db, "tokens", row[0]) for row in rows.read(db, "tokens") if row[1] == name])


def read(db):
    """The tokens by their sums."""
    return {key: Token(name, frozenset(roles.split()), {**TOKEN_LIMITS, **json.loads(limits)}) for key, name, roles, limits in rows.read(db, "tokens")}


def run_limits(token, options):
    """The most seconds and the most units of a run of a token: its own, and never more than the service's."""
    own = {} if token is None else token.limits
    return tuple(most if own.get(name) is None else min(own[name], most) for name in RUN_LIMITS for most in [getattr(options, name)])


class Tokens:
    """The tokens of a folder, read again when another process changed them. Without any, `is_open` says whether everybody may do all."""

    def __init__(self, disk, is_open):
        self.is_open = is_open
        # Each commit of another connection changes this connection's number.
        self.db = sqlite3.connect(address(disk.folder, "ro"), uri=True, isolation_level=None, check_same_thread=False)
        self.seen, self.of = None, {}
        self.used = collections.defaultdict(collections.Counter)
        self.began = {}
        self.read_again()

    def read_again(self):
        """Reads the tokens again if the file was changed. A damaged row lets nobody in by it."""
        number = self.db.execute("pragma data_version").fetchone()[0]
        if number != self.seen:
            self.seen, self.of = number, read(self.db)

    def of_request(self, request):
        """The token of a request; None if it has none that is known."""
        if not self.of and self.is_open:
            return ANYBODY
        words = request.headers.get("Authorization", "").split(" ", 1)
        return self.of.get(hash_of(words[1].strip())) if len(words) == 2 and words[0].lower() == "bearer" else None

    def take(self, token, what):
        """Counts one more of what a token has under way, until `give`."""
        used, most = self.used[token.name], token.limits[what]
        if used[what] >= most:
            raise TooFast(f"this token has {most} {what} at once")
        used[what] += 1

    def give(self, token, what):
        used = self.used[token.name]
        used[what] -= 1
        if not used[what]:
            del used[what]

    def count_batch(self, token):
        """Counts a batch of this second."""
        second, most = int(time.monotonic()), token.limits["batches"]
        began, count = self.began.get(token.name, (second, 0))
        if began != second:
            count = 0
        if count >= most:
            raise TooFast(f"this token has {most} batches a second")
        self.began[token.name] = second, count + 1

    def close(self):
        self.db.close()


def change(folder, call):
    """Changes the tokens of a folder, also while it is served."""
    db = sqlite3.connect(address(folder, "rw"), uri=True, isolation_level=None)
    try:
        for line in ("busy_timeout=10000", "synchronous=full"):
            db.execute(f"pragma {line}")
        with transaction(db):
            return call(db)
    finally:
        db.close()

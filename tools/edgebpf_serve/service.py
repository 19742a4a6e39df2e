"""What the requests of a service share."""
import asyncio
import contextlib
import errno
import ipaddress
import json
import resource
import threading
import time

from aiohttp import web

from edgebpf_serve.asked import number_of
from edgebpf_serve.engine import Busy, Engine, NoRoom, Stopped
from edgebpf_serve.limits import BODY_SECONDS, MOST_BODY_BYTES
from edgebpf_serve.metrics import Meter
from edgebpf_serve.named import Columns, Programs, Tried
from edgebpf_serve.runs import Patience, Turns
from edgebpf_serve.tokens import Tokens

NO_ROOM = (errno.ENOSPC, errno.EDQUOT, errno.EFBIG)


class Answers:
    """What the writer's thread gives to futures of the loop, many at a time."""

    def __init__(self, loop):
        self.loop, self.lock, self.ready = loop, threading.Lock(), []

    def settle(self, future, result):
        with self.lock:
            self.ready.append((future, result))
            is_first = len(self.ready) == 1
        if is_first:
            self.loop.call_soon_threadsafe(self._give)

    def _give(self):
        with self.lock:
            ready, self.ready = self.ready, []
        for future, result in ready:
            if future.done():
                continue
            if isinstance(result, Exception):
                future.set_exception(result)
                # Nobody may wait for it any more.
                future.exception()
            else:
                future.set_result(result)


class Service:
    """A graph that is served. It is made in the loop's thread."""

    def __init__(self, disk, options, log):
        self.disk, self.options, self.log, self.meter = disk, options, log, Meter()
        self.loop, self.closing, self.began = asyncio.get_running_loop(), asyncio.Event(), time.time()
        self.answers, self.wake = Answers(self.loop), asyncio.Event()
        self.programs, self.columns, self.tried = Programs(disk, options.programs), Columns(disk, options.columns), Tried()
        self.engine = Engine(disk, options, self.meter, log, lambda: self.loop.call_soon_threadsafe(self.published))
        self.tokens, self.turns, self.standing = Tokens(disk, is_near(options.listen) or options.open), Turns(options.readers, self.meter), {}
        # Whether browsers of this machine alone reach it, which do not know a page of this service from one whose site's name leads here.
        self.is_private = is_near(options.listen) and not options.listen.startswith("unix:") and not options.open
        # Requests under way, with when they began, by their connection; and the connections of which nothing is read meanwhile.
        self.under_way, self.paused, self.body_bytes = {}, set(), 0
        self.meter.gauges(self._gauges())

    def _gauges(self):
        engine = self.engine
        return [
            ("version", "the last version", lambda: engine.latest.seq),
            ("edges", "edges of the last version", lambda: engine.latest.version.edges),
            ("vertices", "vertices of the graph", lambda: self.disk.vertices),
            ("queued_batches", "batches that wait", lambda: len(engine.queue.items)),
            ("queued_bytes", "bytes of the batches that wait", lambda: engine.queue.bytes),
            ("kept_versions", "versions that may be asked", lambda: len(engine.shown.kept)),
            ("kept_bytes", "about how much memory the older ones take", lambda: engine.shown.kept_bytes),
            ("rebases", "rebases since the start", lambda: engine.graph.rebases),
            ("snapshot_version", "the version of the newest snapshot", lambda: engine.snapshot_seq),
            ("journal_batches", "batches since the newest snapshot", lambda: engine.latest.seq - engine.snapshot_seq),
            ("journal_bytes", "bytes of serve.db and its log, which have the journal", self.disk.journal_bytes),
            ("snapshot_time_seconds", "when the newest snapshot was written, 0 without one", self.disk.snapshot_time),
            ("disk_is_full", "whether the last group was refused by a full disk", lambda: int(engine.is_full)),
            ("recovery_seconds", "how long the start took to recover the graph", lambda: engine.recovery_seconds),
            ("watches", "subscribers of /watch", lambda: sum(query.subscribers for query in self.standing.values())),
            ("watch_lag_batches", "how far the slowest subscriber is behind", self._lag),
            ("waiting_calls", "calls that wait for a reader's thread or have one", lambda: self.turns.waiting),
            ("resident_bytes", "memory of this process", resident_bytes),
            ("start_time_seconds", "when this process began", lambda: self.began),
        ]

    def _lag(self):
        told = [seq for query in self.standing.values() for seq in query.told.values()]
        return self.engine.latest.seq - min(told) if told else 0

    def published(self):
        """Wakes all who wait for a version or a column, or for the end of a column or a program."""
        wake, self.wake = self.wake, asyncio.Event()
        wake.set()

    async def written(self, put):
        """What the writer answers. `put` hands something in, given what is to be called with the answer."""
        future = self.loop.create_future()
        put(lambda result: self.answers.settle(future, result))
        return await future

    def moment(self, request):
        """The version that a request names, or the last one."""
        seq = number_of(request, "version", None, 2**63)
        if seq is None:
            return self.engine.latest
        found = self.engine.shown.at(seq)
        if found is None:
            raise web.HTTPGone(text=f"version {seq} is not kept; the last one is {self.engine.latest.seq}")
        return found

    def patience(self, request):
        return Patience(self, request)

    async def body(self, request, most=None):
        """The bytes of a request's body, which has so many at most, and has to come in time."""
        most = self.options.body if most is None else most
        if request.headers.get("Content-Encoding", "identity") != "identity":
            raise web.HTTPUnsupportedMediaType(text="a body has no Content-Encoding")
        if (request.content_length or 0) > most:
            raise web.HTTPRequestEntityTooLarge(most, request.content_length)
        if request.content.is_eof():
            return await self._collected(request, most)
        try:
            return await asyncio.wait_for(self._collected(request, most), BODY_SECONDS)
        except asyncio.TimeoutError:
            raise web.HTTPRequestTimeout(text=f"a body comes within {BODY_SECONDS:g} seconds") from None

    async def _collected(self, request, most):
        """The parts of a body. All bodies of requests under way have so many bytes at most."""
        parts, size = [], 0
        while not request.content.at_eof():
            part = await request.content.readany()
            parts.append(part)
            size += len(part)
            if size > most:
                raise web.HTTPRequestEntityTooLarge(most, size)
            if size != len(part) and self.body_bytes + len(part) > MOST_BODY_BYTES:
                self.meter.refused.labels("bodies").inc()
                raise Busy("the bodies of all requests take too much memory")
            self.body_bytes += len(part)
            request["body"] = size
        return b"".join(parts)

    async def on_disk(self, function, *words):
        """What a function returns that writes files, called by another thread."""
        if self.closing.is_set():
            raise Stopped("the service is ending")
        try:
            return await self.turns.call(function, *words)
        except OSError as error:
            if error.errno in NO_ROOM:
                raise NoRoom("the disk is full") from None
            raise

    def close(self):
        """Writes what waits, and ends all threads."""
        self.turns.close()
        # The last connection has to be the one that writes: SQLite then takes its log into the file.
        self.tokens.close()
        self.engine.close()


@contextlib.contextmanager
def under_way(service, token):
    """A run of a token."""
    service.tokens.take(token, "runs")
    try:
        yield
    finally:
        service.tokens.give(token, "runs")


written = json.JSONEncoder(separators=(",", ":")).encode


def answer(told, status=200, heads=None):
    return web.Response(body=written(told).encode(), status=status, headers=heads, content_type="application/json")


def is_near(listen):
    """Whether only this machine reaches an address."""
    return listen.startswith("unix:") or is_this_machine(listen.rpartition(":")[0])


def is_this_machine(host):
    """Whether a host is one by which a machine names itself."""
    host = host.strip("[]")
    try:
        return host == "localhost" or ipaddress.ip_address(host).is_loopback
    except ValueError:
        return False


def resident_bytes():
    with open("/proc/self/statm") as file:
        return resource.getpagesize() * int(file.read().split()[1])

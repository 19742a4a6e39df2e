"""Connections, within limits: their number, slow heads, answers that nobody reads, and the watchdog of systemd."""
import asyncio
import contextlib
import os
import resource
import socket
import time

from aiohttp import web_protocol

from edgebpf_serve.limits import HEAD_SECONDS, OTHER_FILES, SWEEP_SECONDS, UNREAD_SECONDS
from edgebpf_serve.service import answer


class Handler(web_protocol.RequestHandler):
    """A connection of aiohttp's, whose own errors have the form of all others."""

    __slots__ = ()

    async def start(self):
        try:
            await super().start()
        except Exception as error:
            # The connection is lost before its request was looked at, or the whole address of that has a host that is none. It would be neither
            # answered nor closed.
            is_known = self.transport is None or isinstance(error, ValueError)
            self.force_close()
            if not is_known:
                raise

    def handle_error(self, request, status=500, exc=None, message=None):
        """The answer to bytes that are no HTTP."""
        super().handle_error(request, status, exc, message)
        made = answer({"error": "BadRequest" if status == 400 else "Internal", "words": message or "this request cannot be answered"}, status)
        made.force_close()
        return made


class Refusing(asyncio.Protocol):
    """A connection that is one too many."""

    def connection_made(self, transport):
        transport.write(b"HTTP/1.1 503 Service Unavailable\r\nRetry-After: 1\r\nContent-Length: 0\r\nConnection: close\r\n\r\n")
        transport.close()


class Connections:
    """Makes a protocol for each connection of a server of aiohttp, and looks after them."""

    def __init__(self, server, most, meter):
        _, files = resource.getrlimit(resource.RLIMIT_NOFILE)
        # A sandbox may not let it ask for more.
        with contextlib.suppress(OSError, ValueError):
            resource.setrlimit(resource.RLIMIT_NOFILE, (files, files))
        files = resource.getrlimit(resource.RLIMIT_NOFILE)[0]
        self.server, self.meter, self.most = server, meter, max(1, min(most, files - OTHER_FILES))
        # By connection: since when it has sent no head, and since when how much of an answer lies there unread.
        self.headless, self.unread, self.coming = {}, {}, []

    def __call__(self):
        # Of many that come at once the server knows those that are begun alone.
        self.coming = [one for one in self.coming if one.transport is None and one._manager is not None]
        if len(self.server.connections) + len(self.coming) >= self.most:
            self.meter.refused.labels("connections").inc()
            return Refusing()
        made = Handler(self.server, loop=self.server._loop, **self.server._kwargs)
        self.headless[made] = time.monotonic()
        self.coming.append(made)
        return made

    async def look_after(self):
        while True:
            await asyncio.sleep(SWEEP_SECONDS)
            self.sweep(time.monotonic())

    def sweep(self, now):
        alive = set(self.server.connections)
        for connection, since in list(self.headless.items()):
            if connection not in alive and now - since > SWEEP_SECONDS or connection._request_count:
                del self.headless[connection]
            elif now - since > HEAD_SECONDS:
                self.drop(connection, "head")
        for connection in alive:
            waiting = connection.transport.get_write_buffer_size() if connection.transport else 0
            since, before = self.unread.get(connection, (now, 0))
            if not waiting or waiting != before:
                self.unread[connection] = now, waiting
            elif now - since > UNREAD_SECONDS:
                self.drop(connection, "unread")
        for gone in self.unread.keys() - alive:
            del self.unread[gone]

    def drop(self, connection, limit):
        self.meter.refused.labels(limit).inc()
        if connection.transport is not None:
            connection.transport.abort()


def notify(words):
    """Tells systemd, if that started this process."""
    path = os.environ.get("NOTIFY_SOCKET")
    if path:
        with socket.socket(socket.AF_UNIX, socket.SOCK_DGRAM) as out:
            out.sendto(words.encode(), "\0" + path[1:] if path[0] == "@" else path)


async def feed_watchdog(engine):
    """Tells systemd that this process lives, as long as the loop runs and the writer has looked for work."""
    every = int(os.environ.get("WATCHDOG_USEC", 0)) / 2_000_000
    while every:
        if time.monotonic() - engine.beat < every:
            notify("WATCHDOG=1")
        await asyncio.sleep(every / 2)

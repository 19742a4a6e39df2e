"""Runs that take turns: each goes in steps of some 10 ms over a few threads, and ends after its time, its units, or with its client."""
import asyncio
import concurrent.futures
import select
import time

from edgebpf_serve.engine import Busy, Stopped
from edgebpf_serve.limits import SHORT_BOUND, SMALL_UNITS
from edgebpf_serve.tokens import run_limits

MOST_WAITING = 64


class TookTooLong(Exception):
    """A run was ended by its limit of time or of units: nothing was changed."""


class Gone(Exception):
    """The client has closed its connection: nobody reads an answer."""


class Turns:
    """Threads for calls that take long, which come in turn."""

    def __init__(self, threads, meter):
        self.pool, self.meter, self.waiting, self.most = concurrent.futures.ThreadPoolExecutor(threads, "reader"), meter, 0, threads * MOST_WAITING

    async def call(self, function, *words):
        """What a function returns that another thread calls. Raises `Busy` if too many wait for one."""
        if self.waiting >= self.most:
            self.meter.refused.labels("readers").inc()
            raise Busy("too many calls wait for a thread")
        self.waiting += 1
        try:
            return await asyncio.get_running_loop().run_in_executor(self.pool, function, *words)
        finally:
            self.waiting -= 1

    async def finish(self, run, program, patience):
        """All steps of a run."""
        async for _ in self.steps(run, program, patience):
            pass

    async def steps(self, run, program, patience):
        """The steps of a run, with a turn for the others before each of them but a small run's first."""
        if program.bound <= SHORT_BOUND:
            run.step(SMALL_UNITS)
            yield
        while not run.done:
            patience.look(run)
            await self.call(run.step)
            yield
        self.meter.runs.inc()

    def close(self):
        self.pool.shutdown(wait=True, cancel_futures=True)


class Patience:
    """How long a request waits for its runs."""

    def __init__(self, service, request):
        self.request, self.meter, self.closing = request, service.meter, service.closing
        self.seconds, self.units = run_limits(request.get("token"), service.options)
        self.end = time.monotonic() + self.seconds

    def look(self, run):
        """Raises an error where a run has to end before it is done."""
        if run.used >= self.units:
            self._ended("units", run, f"{self.units} units")
        if time.monotonic() >= self.end:
            self._ended("time", run, f"{self.seconds:g} seconds")
        self.look_at_client()

    def look_at_client(self):
        if self.closing.is_set():
            raise Stopped("the service is ending")
        if has_gone(self.request):
            self.meter.ended.labels("client").inc()
            raise Gone

    def _ended(self, by, run, limit):
        self.meter.ended.labels(by).inc()
        raise TookTooLong(f"the run took more than {limit}: {run.edges} edges and {run.vertex} vertices or pairs were done")


def has_gone(request):
    """Whether the client has closed its connection. Nothing of it is read during a request, so that the loop sees no end of it."""
    connection = request.transport and request.transport.get_extra_info("socket")
    if connection is None or connection.fileno() < 0:
        return True
    ending = select.poll()
    ending.register(connection.fileno(), select.POLLRDHUP)
    return bool(ending.poll(0))

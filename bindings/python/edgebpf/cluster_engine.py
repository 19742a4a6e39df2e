"""Parts as actors of Dask's distributed scheduler: where they are placed, how they are asked, and by what a lost one is known."""
from __future__ import annotations

import asyncio
import contextlib
import importlib
import time
from collections import Counter
from collections.abc import Awaitable
from typing import Any, NamedTuple

from edgebpf.cluster_part import OtherEra, Part
from edgebpf.errors import Error

# How long a worker has to make a part, and for how long one that could not is left alone if there are others.
PLACE_SECONDS, AVOID_SECONDS = 30.0, 10.0
# How often the answer is looked at meanwhile, and after so many looks whether the worker is there.
LOOK_SECONDS, LOOKS = 0.01, 20
# How often it is looked at whether a part is still there that has not answered yet.
WATCH_SECONDS = 0.2


class Gone(Exception):
    """A part does not answer any more: its worker has ended, or cannot be reached."""


class Handle(NamedTuple):
    """A part on a worker."""

    actor: Any
    future: Any
    worker: str


class Engine:
    """The workers of a client of Dask, which stays the caller's. `ask`, `place` and `drop` are of the router's loop."""

    def __init__(self, client: Any) -> None:
        try:
            distributed: Any = importlib.import_module("distributed")
        except ImportError:
            raise Error("a cluster needs Dask's distributed scheduler: apt-get install python3-distributed") from None
        if not isinstance(client, distributed.Client):
            raise TypeError(f"client is a distributed.Client, not {type(client).__name__}")
        if client.asynchronous:
            raise TypeError("client is asynchronous; a cluster needs one that is not")
        self._client = client
        self._load: Counter[str] = Counter()
        self._avoided: dict[str, float] = {}

    def workers(self) -> list[str]:
        """The addresses of the workers that there are now. Raises `Error` if the scheduler does not answer."""
        try:
            return sorted(self._client.scheduler_info()["workers"])
        except Exception as error:
            raise Error(f"the scheduler does not answer: {error or type(error).__name__}") from None

    async def place(self) -> Handle:
        """Makes a part on the worker that has the fewest of them."""
        loop = asyncio.get_running_loop()
        found = await loop.run_in_executor(None, self.workers)
        if not found:
            raise Error("the engine has no worker")
        now = time.monotonic()
        worker = min(found, key=lambda address: (self._avoided.get(address, 0.0) > now, self._load[address], address))
        self._load[worker] += 1
        future = None
        try:
            future = self._client.submit(Part, actor=True, pure=False, workers=[worker], allow_other_workers=False)
            await self._made(future, worker, now + PLACE_SECONDS)
            return Handle(await loop.run_in_executor(None, future.result, PLACE_SECONDS), future, worker)
        except Exception as error:
            if future is not None:
                future.cancel()
            self._load[worker] -= 1
            self._avoided[worker] = now + AVOID_SECONDS
            raise Error(f"the worker {worker} makes no part: {error or type(error).__name__}") from None

    async def _made(self, future: Any, worker: str, end: float) -> None:
        """Waits until a worker has made a part, or cannot; raises `Error` if that takes too long, or the worker has ended."""
        looks = 0
        while str(future.status) == "pending":
            looks += 1
            if looks % LOOKS == 0 and worker not in await asyncio.get_running_loop().run_in_executor(None, self.workers):
                raise Error("it has ended")
            if time.monotonic() > end:
                raise Error(f"it had {PLACE_SECONDS:g} seconds")
            await asyncio.sleep(LOOK_SECONDS)

    async def ask(self, handle: Handle, method: str, *given: Any) -> Any:
        """What a method of a part returns, or raises; `Gone` if it cannot be asked."""
        if self.is_gone(handle):
            raise Gone(f"the worker {handle.worker} was lost")
        try:
            asked = awaited(getattr(handle.actor, method)(*given))
            answer = asyncio.wrap_future(asyncio.run_coroutine_threadsafe(asked, self._client.loop.asyncio_loop))
            try:
                while not (await asyncio.wait({answer}, timeout=WATCH_SECONDS))[0]:
                    # Dask would go on for 30 seconds to connect with a worker that has ended.
                    if self.is_gone(handle):
                        raise Gone(f"the worker {handle.worker} was lost")
                if answer.cancelled():
                    raise Gone("the client was closed")
                return answer.result()
            finally:
                answer.cancel()
        except (OSError, KeyError, RuntimeError, asyncio.TimeoutError, OtherEra) as error:
            raise Gone(f"the worker {handle.worker} was lost: {error}") from None
        except ValueError as error:
            if not self.is_gone(handle):
                raise
            raise Gone(f"the worker {handle.worker} was lost: {error}") from None

    def is_gone(self, handle: Handle) -> bool:
        """Whether the scheduler knows that the worker has ended."""
        return str(handle.future.status) != "finished"

    def drop(self, handle: Handle, is_wrong: bool = False) -> None:
        """Gives a part up; `is_wrong` if its worker could not begin it."""
        self._load[handle.worker] -= 1
        if is_wrong:
            self._avoided[handle.worker] = time.monotonic() + AVOID_SECONDS
        with contextlib.suppress(Exception):
            # The client may be closed.
            handle.future.release()


async def awaited(answer: Awaitable[Any]) -> Any:
    """What an actor's answer is, on the loop of the client."""
    return await answer

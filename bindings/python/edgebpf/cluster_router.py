"""The router of a `Cluster`: one thread with one loop, which alone has the state. It numbers batches, sends each part its edits, and knows which
numbers are committed and which are pinned. Other threads hand it coroutines by `call`."""
from __future__ import annotations

import asyncio
import concurrent.futures
import contextlib
import threading
import time
from collections import Counter
from collections.abc import Callable, Coroutine, Iterable, Mapping
from typing import Any, TypeVar

import numpy as np

import edgebpf
from edgebpf.cluster_copies import (
    ANY, NO_EDITS, NO_VERTICES, OWN, TARGET, Holdings, Sent, edits_of_lists, since, wanted_of, with_lists,
)
from edgebpf.cluster_disk import Journal
from edgebpf.cluster_engine import Gone
from edgebpf.cluster_held import Held, Waiting, again, refused
from edgebpf.cluster_part import Batches, Edits, Told, cut, owners
from edgebpf.given import Vertices
from edgebpf.errors import Closed, Error, NoMemory, PartLost
from edgebpf.store import Counts

Answer = TypeVar("Answer")
# Messages with batches that a part may have at once, and the edits of one of them, beyond which it takes no more batches.
MESSAGES, MESSAGE_EDITS = 4, 65_536
# Vertices whose lists are asked for at once, for a part that begins.
MESSAGE_LISTS = 16_384
# After so many seconds without a message a part is looked at, and one that was lost is tried again.
LOOK_SECONDS = 0.2
# How long the end of a cluster waits for parts that are told to end a run.
CANCEL_SECONDS = 2.0
# A part that was lost so often without having had all its batches in between is given up; and one that no worker takes for so many seconds.
MOST_LOSSES, PATIENCE_SECONDS = 5, 60.0
# After so many batches, or edits, parts write a checkpoint; one that failed is tried again after some seconds.
CHECKPOINT_BATCHES, CHECKPOINT_EDITS, AGAIN_SECONDS = 10_000, 1 << 23, 30.0


class Router:
    """`engine` has the workers, as `cluster_engine.Engine`. A number is committed when each part has told of it. With a journal a batch is on the
    disk before a part sees it, and a part that is lost begins again. `asks` is about which vertices programs may ask."""

    def __init__(self, engine: Any, vertices: int, count: int, journal: Journal | None = None, asks: str = OWN) -> None:
        self.engine, self.vertices, self.count, self.journal, self.asks = engine, vertices, count, journal, asks
        self.loop, self._thread = asyncio.new_event_loop(), threading.Thread(target=self._serve, name="edgebpf-router", daemon=True)
        self.next = self.committed = -1
        self.edges = 0
        self.failure: Error | None = None
        # Whether programs are taken without a look at what they ask.
        self.is_open = self.is_closed = self.trusts = False
        # Whoever asks for something has it handed to the loop before the loop ends, or is refused.
        self._calling = threading.RLock()
        self.pins: Counter[int] = Counter()
        self._parts: list[Held] = []
        # Of each number that is not committed: the edits of each part, and who waits.
        self._cuts: dict[int, list[Edits]] = {}
        self._waiting: dict[int, asyncio.Future[Counts]] = {}
        self._queue: list[Waiting] = []
        # How many edits came since the last checkpoint, and when the next one may begin.
        self._edits, self._next_checkpoint = 0, 0.0
        self._tasks: set[asyncio.Task[None]] = set()
        # Parts that are being told to end a run.
        self._cancels: set[asyncio.Task[None]] = set()
        self._thread.start()

    def _serve(self) -> None:
        asyncio.set_event_loop(self.loop)
        try:
            self.loop.run_forever()
            self.loop.run_until_complete(self._close())
        finally:
            self.loop.close()

    def call(self, work: Coroutine[Any, Any, Answer]) -> concurrent.futures.Future[Answer]:
        """Has the loop do some work, for another thread. Raises `Closed` if the cluster is closed, and so does the future if it is closed meanwhile."""
        with self._calling:
            error = self._refusal()
            if error is None:
                return asyncio.run_coroutine_threadsafe(self._answered(work), self.loop)
        work.close()
        raise error

    def check(self) -> None:
        """Raises what `call` raises."""
        error = self._refusal()
        if error is not None:
            raise error

    def _refusal(self) -> Error | None:
        """Why the loop can do nothing for this thread."""
        if threading.current_thread() is self._thread:
            return Error("callbacks of a cluster's futures run in its own thread, which would wait for itself here: ask it from another thread")
        # After a fork the thread is the other process's.
        return None if not self.is_closed and self._thread.is_alive() else Closed("the cluster is closed")

    async def _answered(self, work: Coroutine[Any, Any, Answer]) -> Answer:
        unheard(asyncio.current_task())
        try:
            return await work
        except asyncio.CancelledError:
            if self.is_closed:
                raise Closed("the cluster is closed") from None
            raise

    def soon(self, work: Callable[..., Any], *given: Any) -> None:
        """Has the loop call something, if it still runs."""
        with contextlib.suppress(RuntimeError):
            self.loop.call_soon_threadsafe(work, *given)

    # Beginning and end

    async def open(self) -> None:
        """Begins all parts."""
        self._changed, self._checkpointing = asyncio.Event(), asyncio.Lock()
        self._parts = [Held(place) for place in range(self.count)]
        self.next = self.journal.last if self.journal else 0
        self.committed = self.next - 1
        for part in self._parts:
            try:
                await self._begin(part)
            except Gone as error:
                raise PartLost(f"part {part.place} was lost: {error}") from None
        self.is_open = True
        self._advance()
        for part in self._parts:
            self._keep(self._tend(part))
        # All batches of the journal are in effect again.
        await self._until(lambda: self.failure is not None or self.committed == self.next)
        if self.failure is not None:
            raise again(self.failure)

    async def _begin(self, part: Held) -> None:
        """Has a worker begin a part, in an era of its own. Raises `Gone`, and `Error` if no worker can."""
        part.era += 1
        era, number, base = part.era, 0, None
        if self.journal is not None:
            number, base = await self.loop.run_in_executor(self.journal.files, self.journal.read, part.place, self.journal.rows(part.place))
        handle = await self.engine.place()
        try:
            edges = await self.engine.ask(handle, "begin", era, edgebpf.__version__, self.vertices, number, base)
        except BaseException:
            self.engine.drop(handle, True)
            raise
        part.handle, part.sent, part.own = handle, number, number
        part.is_live, part.is_gone = True, False
        part.told = {number: (number, 0, 0, edges)} if number > self.committed else {}
        self._begin_copies(part)
        self._advance()

    def _begin_copies(self, part: Held) -> None:
        """A part that begins has no copies. It gets them at the lowest number that somebody may ask for, which stays until it has the rest."""
        part.holdings = Holdings(self.vertices, part.place, self.count, self.asks)
        part.mark = max(part.own, self.low(), self.journal.last if self.journal else 0)
        part.is_complete = self.asks == OWN or part.mark == 0
        part.done = part.own if part.is_complete else -1
        if not part.is_complete:
            self.pins[part.mark] += 1
            part.pinned = part.mark

    def end(self) -> None:
        """Gives all parts up, and ends the thread. Whoever waits is told that the cluster is closed. May be called twice, and by any thread."""
        with self._calling:
            if not self.is_closed:
                self.is_closed = True
                self.soon(self.loop.stop)
        if threading.current_thread() is not self._thread:
            self._thread.join()

    async def _close(self) -> None:
        # What was handed in last has not begun yet.
        await asyncio.sleep(0)
        if self._cancels:
            # A part that was not told would go on with a run for nobody.
            await asyncio.wait(self._cancels, timeout=CANCEL_SECONDS)
        while tasks := asyncio.all_tasks() - {asyncio.current_task()}:
            for task in tasks:
                task.cancel()
            await asyncio.wait(tasks)
        for part in self._parts:
            if part.handle is not None:
                self.engine.drop(part.handle)
        if self.journal is not None:
            self.journal.close()

    # Batches

    async def batch(self, edits: Edits) -> Counts:
        """Has a batch numbered and sent, and waits until it is committed. Each later batch has a greater number."""
        batch = Waiting(edits, self.loop.create_future())
        self._queue.append(batch)
        if len(self._queue) == 1:
            # Those that come meanwhile are synced together.
            self.loop.call_soon(self._flush)
        return await batch.counts

    def _flush(self) -> None:
        """Numbers all batches that wait, once they are on the disk."""
        batches, self._queue = [batch for batch in self._queue if not batch.counts.done()], []
        if batches and self.failure is None and not self.is_closed:
            try:
                cuts = [cut(batch.edits, self.count) for batch in batches]
                if self.journal is not None:
                    self.journal.append(self.next + 1, [batch.edits for batch in batches])
                return self._number(batches, cuts)
            except MemoryError:
                self._fail(NoMemory(f"the router has no memory for a batch, and no batch after {self.committed} is taken"))
            except Error as error:
                self._fail(Error(f"the journal cannot be written, and no batch after {self.committed} is taken: {error}"))
        failure = self.failure or Closed("the cluster is closed")
        for batch in batches:
            batch.counts.set_exception(again(failure))

    def _number(self, batches: list[Waiting], cuts: list[list[Edits]]) -> None:
        for batch, edits in zip(batches, cuts):
            self.next += 1
            self._cuts[self.next], self._waiting[self.next] = edits, batch.counts
        for part in self._parts:
            part.news.set()

    async def _tend(self, part: Held) -> None:
        """Sends a part its batches until the cluster is closed, and begins it again when it is lost."""
        while not part.is_over:
            try:
                await self._feed(part)
            except Gone as error:
                self._lose(part)
                await self._begin_again(part, error)
            except Exception as error:
                # What is committed it has, unless it just began again.
                part.is_over = part.done < self.committed
                self._fail(refused(part, error, self.committed))

    async def _feed(self, part: Held) -> None:
        """Sends a part what is numbered, some messages at once. Raises `Gone`, and what the part raises."""
        flying: set[asyncio.Task[Any]] = set()
        news: asyncio.Task[Any] = asyncio.ensure_future(part.news.wait())
        try:
            while True:
                while part.sent < self._last(part) and len(flying) < MESSAGES:
                    flying.add(asyncio.ensure_future(self._send(part, part.sent + 1, self._following(part))))
                if not part.is_complete and part.own == part.mark and not flying:
                    flying.add(asyncio.ensure_future(self._adopt(part)))
                done, _ = await asyncio.wait({news, *flying}, timeout=LOOK_SECONDS, return_when=asyncio.FIRST_COMPLETED)
                if news in done:
                    part.news.clear()
                    news = asyncio.ensure_future(part.news.wait())
                for task in done & flying:
                    flying.discard(task)
                    task.result()
                if part.done >= min(part.owed, self.next):
                    part.losses = 0
                if part.is_gone or self.engine.is_gone(part.handle):
                    raise Gone("its worker has ended")
        finally:
            for task in (news, *flying):
                task.cancel()

    def _last(self, part: Held) -> int:
        """The last number that a part may be sent now."""
        return self.next if part.is_complete else part.mark

    def _later(self, part: Held) -> Iterable[list[Edits]]:
        """The next batches of a part, each cut by the sources."""
        if self.journal is not None and part.sent + 1 not in self._cuts:
            return (cut(batch, self.count) for batch in self.journal.batches(part.sent))
        return (self._cuts[number] for number in range(part.sent + 1, self.next + 1))

    def _following(self, part: Held) -> list[Sent]:
        """The next batches of a part, for one message. Where a part is behind the committed numbers, a message has one batch: lists that it wants are
        then as they were just before it."""
        found: list[Sent] = []
        edits = 0
        for cuts in self._later(part):
            part.sent += 1
            batch = part.holdings.of(cuts) if part.is_complete else Sent(cuts[part.place], NO_EDITS, NO_VERTICES, NO_EDITS)
            found.append(batch)
            edits += len(batch.own) + len(batch.copied)
            is_behind = self.asks == TARGET and part.is_complete and part.sent <= self.committed
            if edits >= MESSAGE_EDITS or part.sent >= self._last(part) or is_behind:
                break
        return found

    async def _send(self, part: Held, first: int, batches: list[Sent]) -> None:
        """Sends a part its batches from a number on, and takes what it tells. What a part of another era tells is dropped."""
        era = part.era
        copied = [np.concatenate([batch.dropped, batch.copied]) if len(batch.dropped) else batch.copied for batch in batches]
        if any(len(batch.wanted) for batch in batches):
            copied = await self._with_lists(first, batches)
        own = Batches.of([batch.own for batch in batches])
        told = await self.engine.ask(part.handle, "apply", era, first, own, Batches.of(copied), self.low())
        if part.era == era:
            self._tell(part, told)

    # Copies

    async def _with_lists(self, first: int, batches: list[Sent]) -> list[Edits]:
        """What batches change in copies, with the lists that they want. These are read at a number before all of the batches that their parts have,
        or will have without this message; what came since is not committed, so it is here."""
        wanted = wanted_of(first, batches)
        vertices, numbers = wanted
        low, owned = min(first - 1, self.committed), owners(vertices, self.count)
        number = max(low, min([first - 1, *(self._parts[place].own for place in np.unique(owned))]))
        changes = since(wanted, self._cuts, number)
        given = {int(place): (vertices[owned == place],) for place in np.unique(owned)}
        self.pins[number] += 1
        try:
            answers = await self.read(number, "lists", given)
        finally:
            self.release(number)
        lists = [(edits_of_lists(given[place][0], *answer), np.repeat(numbers[owned == place], np.diff(answer[0]))) for place, answer in answers.items()]
        return with_lists(first, batches, [*lists, *changes])

    async def _adopt(self, part: Held) -> None:
        """Gives a part the copies that it begins with, which are those of its mark."""
        era, number = part.era, part.mark
        if self.asks == ANY:
            for other in self._parts:
                if other is not part:
                    starts, targets = await self._read(other, number, *self.csr_of(other.place))
                    await self._give(part, era, edits_of_lists(np.arange(self.vertices, dtype=np.uint32), starts, targets))
        else:
            named = await self.engine.ask(part.handle, "read", era, number, "named", (part.place, self.count))
            for begin in range(0, len(named), MESSAGE_LISTS):
                await self._give(part, era, await self._lists(number, named[begin:begin + MESSAGE_LISTS]))
            part.holdings.hold(named)
        if part.era == era:
            part.is_complete, part.done = True, part.own
            self._caught_up(part)
            self._advance()

    async def _lists(self, number: int, vertices: Vertices) -> Edits:
        """Edits that put in the lists of some vertices, as they are at a number."""
        owned = owners(vertices, self.count)
        given = {int(place): (vertices[owned == place],) for place in np.unique(owned)}
        answers = await self.read(number, "lists", given)
        return np.concatenate([NO_EDITS, *(edits_of_lists(given[place][0], *answer) for place, answer in answers.items())])

    async def _give(self, part: Held, era: int, edits: Edits) -> None:
        """Sends a part copies, of its mark."""
        for begin in range(0, len(edits), MESSAGE_EDITS):
            await self.engine.ask(part.handle, "adopt", era, part.mark, edits[begin:begin + MESSAGE_EDITS])

    async def _look(self, part: Held, holdings: Holdings, number: int) -> None:
        """Learns which copies a part needs at a number, and has it drop the others."""
        self.pins[number] += 1
        try:
            holdings.end_look(await self.engine.ask(part.handle, "read", part.era, number, "named", (part.place, self.count)))
        except Exception:
            # Of a part that is lost others hear.
            holdings.give_up_look()
        finally:
            self.release(number)

    def _caught_up(self, part: Held) -> None:
        """Lets versions go that were kept for a part that began, once it has all that is committed."""
        if part.pinned is not None and part.done >= self.committed:
            self._let_go(part)

    def _let_go(self, part: Held) -> None:
        if part.pinned is not None:
            self.release(part.pinned)
            part.pinned = None

    def csr_of(self, place: int) -> tuple[str, tuple[int, ...]]:
        """By which question a part tells the edges of its own."""
        return ("csr", ()) if self.asks == OWN else ("own_csr", (place, self.count))

    def _tell(self, part: Held, told: list[Told]) -> None:
        """A part has these numbers now."""
        part.told.update((one[0], one) for one in told)
        while part.own + 1 in part.told:
            part.own += 1
            if part.own <= self.committed:
                del part.told[part.own]
        if part.is_complete:
            part.done = part.own
            self._caught_up(part)
            if part.holdings.is_due() and part.done >= self.committed and self.failure is None:
                part.holdings.begin_look([self._cuts[number][part.place] for number in range(part.done + 1, part.sent + 1)])
                self._keep(self._look(part, part.holdings, part.done))
        self._advance()

    def low(self) -> int:
        """The number below which nobody asks any more."""
        return min([self.committed, *self.pins])

    def _advance(self) -> None:
        """Commits each number of which all parts have told."""
        # Parts may have batches that were withdrawn.
        least = min(self.next, *(part.done for part in self._parts))
        while self.is_open and self.committed < least:
            self.committed += 1
            told = [part.told.pop(self.committed) for part in self._parts if self.committed in part.told]
            self._edits += sum(len(batch) for batch in self._cuts.pop(self.committed, ()))
            self.edges = sum(one[3] for one in told)
            waiting = self._waiting.pop(self.committed, None)
            if self.journal is not None:
                self.journal.committed(self.committed)
            if waiting is not None and not waiting.done():
                waiting.set_result(Counts(self.committed, sum(one[1] for one in told), sum(one[2] for one in told)))
        self._notify()
        if self.journal is not None and self.is_open and self._is_checkpoint_due(self.journal):
            self._next_checkpoint = time.monotonic() + AGAIN_SECONDS
            self._keep(self._checkpoint_by_itself())

    def _keep(self, work: Coroutine[Any, Any, None], among: set[asyncio.Task[None]] | None = None) -> None:
        """Does some work that nobody waits for."""
        tasks = self._tasks if among is None else among
        task = asyncio.ensure_future(work)
        tasks.add(task)
        task.add_done_callback(tasks.discard)

    def _lose(self, part: Held) -> None:
        """A part was lost, and so are its versions. No number is committed before it has them again."""
        part.is_live, part.losses, part.owed = False, part.losses + 1, self.next
        part.own = part.done = -1
        self._let_go(part)
        self.engine.drop(part.handle)
        part.handle = None

    async def _begin_again(self, part: Held, error: Exception) -> None:
        """Has a worker begin a part that was lost, as soon as there is one."""
        end = time.monotonic() + PATIENCE_SECONDS
        while self.journal is not None and part.losses <= MOST_LOSSES and time.monotonic() < end:
            try:
                return await self._begin(part)
            except Exception as other:
                error = other
            await asyncio.sleep(LOOK_SECONDS)
        part.is_over = True
        self._fail(PartLost(f"part {part.place} was lost, and no batch after {self.committed} is taken: {error}"))

    # Checkpoints

    def _is_checkpoint_due(self, journal: Journal) -> bool:
        is_much = self.low() - journal.newest >= CHECKPOINT_BATCHES or self._edits >= CHECKPOINT_EDITS
        return is_much and self.low() > journal.newest and time.monotonic() >= self._next_checkpoint

    async def _checkpoint_by_itself(self) -> None:
        with contextlib.suppress(Error, MemoryError):
            await self.checkpoint()
            self._next_checkpoint = 0.0

    async def checkpoint(self) -> int:
        """Writes a checkpoint of each part at the lowest number that somebody may ask for, and drops the batches that are not needed any more.
        Whatever is pinned comes after it, so a part that begins there has it again. Returns the number."""
        journal = self.journal
        if journal is None:
            raise Error("the cluster has no folder")
        async with self._checkpointing:
            number, self._edits = self.low(), 0
            if number <= journal.newest:
                return number
            self.pins[number] += 1
            try:
                for part in self._parts:
                    arrays = await self._read(part, number, *self.csr_of(part.place))
                    journal.enter(part.place, await self.loop.run_in_executor(journal.files, journal.write, part.place, number, *arrays))
                while not journal.cut(number):
                    await asyncio.sleep(0)
            finally:
                self.release(number)
            return number

    def _fail(self, error: Error) -> None:
        """No batch is committed any more. Those that are not, and later ones, are refused; versions stay."""
        if self.failure is None:
            self.failure = error
            if self.journal is not None:
                try:
                    # What it had when this began may be acknowledged, also if it is not in effect again.
                    self.journal.withdraw(max(self.committed, self.journal.last))
                except Error as other:
                    self.failure = type(error)(f"{error}; they may be in effect when the cluster begins again: {other}")
        self.next = self.committed
        self._cuts.clear()
        self._refuse_all(self.failure)
        self._notify()

    def _refuse_all(self, error: Error) -> None:
        for waiting in self._waiting.values():
            if not waiting.done():
                waiting.set_exception(again(error))
        self._waiting.clear()

    # Readers

    async def pin(self) -> tuple[int, int]:
        """The last committed number, which stays until it is released, and how many edges there are."""
        self.pins[self.committed] += 1
        return self.committed, self.edges

    def give_back(self, pinned: concurrent.futures.Future[tuple[int, int]]) -> None:
        """Gives up what `pin` pinned for somebody who does not wait for it any more."""
        if not pinned.cancelled() and pinned.exception() is None:
            self.soon(self.release, pinned.result()[0])

    def release(self, number: int) -> None:
        """Gives a pin up."""
        self.pins[number] -= 1
        if not self.pins[number]:
            del self.pins[number]

    async def read(self, number: int, question: str, given: Mapping[int, tuple[Any, ...]]) -> dict[int, Any]:
        """What some parts answer at a pinned number, by their places."""
        tasks = {place: asyncio.ensure_future(self._read(self._parts[place], number, question, one)) for place, one in given.items()}
        try:
            if tasks:
                done, _ = await asyncio.wait(tasks.values(), return_when=asyncio.FIRST_EXCEPTION)
                for task in done:
                    task.result()
        finally:
            for task in tasks.values():
                task.cancel()
        return {place: task.result() for place, task in tasks.items()}

    def cancel(self, token: int) -> None:
        """Ends a run in all parts soon."""
        for part in self._parts:
            if part.is_live:
                self._keep(self._cancel(part, token), self._cancels)

    async def _cancel(self, part: Held, token: int) -> None:
        with contextlib.suppress(Gone):
            await self.engine.ask(part.handle, "cancel", part.era, token)

    async def _read(self, part: Held, number: int, question: str, given: tuple[Any, ...]) -> Any:
        while True:
            await self._until(lambda: part.is_over or part.is_live and (part.done if question == "run" else part.own) >= number)
            if part.is_over:
                raise PartLost(f"part {part.place} was lost: {self.failure}")
            era = part.era
            try:
                return await self.engine.ask(part.handle, "read", era, number, question, given)
            except Gone:
                if part.era == era:
                    part.is_gone, part.is_live = True, False
                    part.news.set()

    async def _until(self, is_so: Callable[[], bool]) -> None:
        while not is_so():
            await self._changed.wait()

    def _notify(self) -> None:
        """Wakes who waits for a change."""
        self._changed.set()
        self._changed = asyncio.Event()


def unheard(task: Any) -> None:
    """Has asyncio not complain of a task's error if nobody asks for it, as after a Ctrl-C."""
    task.add_done_callback(lambda done: done.cancelled() or done.exception())

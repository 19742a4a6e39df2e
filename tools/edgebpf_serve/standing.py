"""Standing queries: after batches, the rows of a run that changed, as server-sent events. Equal queries share one run."""
import asyncio
import contextlib
import json
import re
import time
import typing

import numpy as np
from aiohttp import web

from edgebpf_serve import asked as ask
from edgebpf_serve.graph import Moment, lists_of
from edgebpf_serve.limits import HEARTBEAT_SECONDS, KEPT_EVENTS, LOOK_SECONDS, PIECE, REST
from edgebpf_serve.named import Missing
from edgebpf_serve.rows import sum_of
from edgebpf_serve.runs import Gone, has_gone

EVENT_ID = re.compile(r"([0-9]{1,19})-[0-9a-f]{8}")


class Point(typing.NamedTuple):
    """What a subscriber has the rows of: a version, the columns that they were made with, and the id of their event. The id has a sum of all
    that was asked, so that nobody goes on from the rows of another query."""

    moment: Moment
    columns: tuple
    id: str


class Query(typing.NamedTuple):
    """What is asked again and again. It is the same for subscribers that ask the same."""

    program: str
    reduction: str
    argument: bytes
    columns: tuple


class Event(typing.NamedTuple):
    """The rows of `point` that are not those of the point before."""

    point: Point
    data: list


class Standing:
    """One standing query, for all its subscribers."""

    def __init__(self, service, query, kept):
        self.service, self.query, self.kept = service, query, kept
        # By the id of the point before.
        self.events, self.lock, self.subscribers, self.told = {}, asyncio.Lock(), 0, {}
        self.rested = 0.0

    def now(self, moment=None):
        """The point of a version, or of the last one, with the columns as they are. Raises `Missing` if a column or the program was dropped."""
        if self.service.programs.get(self.query.program).source != self.kept.source:
            raise Missing(f"the program {self.query.program} was dropped, and another has its name")
        moment, columns = moment or self.service.engine.latest, tuple(self.service.columns.get(name) for name in self.query.columns)
        asked = *self.kept.source, self.query.reduction, self.query.argument, *(column.seq for column in columns)
        return Point(moment, columns, f"{moment.seq}-{sum_of(*asked):08x}")

    async def event_after(self, point, patience):
        """The event after a point; None if nothing has come since."""
        async with self.lock:
            known = self.events.get(point.id)
            if known is not None:
                return known
            moment, changed = self.service.engine.shown.since(point.moment.seq)
            later = self.now(moment)
            if later.id == point.id:
                return None
            event = Event(later, await self._rows_between(point, later, changed, patience))
            self.events[point.id] = event
            while len(self.events) > KEPT_EVENTS:
                self.events.pop(next(iter(self.events)))
            return event

    async def _rows_between(self, before, after, changed, patience):
        """The lines of data of an event."""
        frontier = self._to_ask(before, after, changed)
        if frontier is None:
            await self._rest()
        begun = time.monotonic()
        old, new = await self.values(before, frontier, patience), await self.values(after, frontier, patience)
        if frontier is None:
            spent = time.monotonic() - begun
            self.rested = time.monotonic() + max(self.service.options.scan_seconds, REST * spent)
        places = np.flatnonzero(old != new)
        vertices = places if frontier is None else frontier[places]
        return [piece async for piece in data_lines({"from": before.moment.seq, "version": after.moment.seq}, vertices, new[places])]

    def _to_ask(self, before, after, changed):
        """The vertices whose rows may have changed; None for all."""
        if changed is None or before.columns != after.columns or self.kept.asks == "all":
            return None
        if self.kept.asks == "own":
            return changed
        if after.moment.mirror is None:
            return None
        # A vertex whose edge to a changed one came or went has changed itself.
        return np.unique(np.concatenate((changed, lists_of(after.moment.mirror, changed))))

    async def _rest(self):
        """A run over the whole graph rests a while after the one before."""
        with contextlib.suppress(asyncio.TimeoutError):
            await asyncio.wait_for(self.service.closing.wait(), max(0.0, self.rested - time.monotonic()))
            raise Gone

    async def values(self, point, frontier, patience):
        """The value of each vertex of a frontier, or of all."""
        lent = [column.numbers for column in point.columns]
        run = point.moment.version.begin(self.kept.program, self.query.reduction, frontier, self.query.argument, columns=lent)
        await self.service.turns.finish(run, self.kept.program, patience)
        return run.values


async def data_lines(about, vertices, values):
    """The lines of data of an event with rows, some thousand rows a line; joined by line ends they are one JSON object."""
    head, last = json.dumps(about, separators=(",", ":"))[:-1], len(vertices)
    for place in range(0, max(last, 1), PIECE):
        rows = zip(vertices[place:place + PIECE].tolist(), values[place:place + PIECE].tolist())
        text = ",".join(f"[{vertex},{value}]" for vertex, value in rows)
        front = f'{head},"rows":[' if place == 0 else ""
        yield f"data: {front}{text}{']}' if place + PIECE >= last else ','}\n"
        await asyncio.sleep(0)


class WatchPatience:
    """A subscriber's runs end with its connection, or with the service."""

    def __init__(self, service, request):
        self.service, self.request = service, request

    def look(self, run):
        if self.service.closing.is_set() or has_gone(self.request):
            raise Gone


def query_of(service, request):
    """The standing query of a request, which others may have, too."""
    asked = request.query
    kept = service.programs.get(ask.name_of(asked.get("program"), "program"))
    reduction = ask.choice_of(asked.get("reduction", "sum"), "reduction", tuple(ask.START))
    names = ask.columns_of({"columns": [name for name in asked.get("columns", "").split(",") if name]})
    query = Query(kept.name, reduction, ask.hex_of(asked, "argument"), tuple(names))
    lent = [service.columns.get(name).numbers for name in names]
    # It raises an error if argument and columns are not those of the program.
    service.engine.latest.version.begin(kept.program, reduction, np.empty(0, np.uint32), query.argument, columns=lent)
    found = service.standing.get(query)
    return found if found is not None and found.kept is kept else Standing(service, query, kept)


def resumed(service, standing, request):
    """The point from which a subscriber goes on; None if it has to begin anew."""
    text = request.headers.get("Last-Event-ID") or request.query.get("from", "")
    if not text:
        return None
    matched = EVENT_ID.fullmatch(text)
    if not matched:
        raise ValueError("Last-Event-ID is the id of an event")
    moment = service.engine.shown.at(int(matched[1]))
    if moment is None:
        return None
    point = standing.now(moment)
    return point if point.id == text else None


@contextlib.contextmanager
def subscribed(service, token, standing):
    """One subscriber more."""
    service.tokens.take(token, "watches")
    service.standing[standing.query] = standing
    standing.subscribers += 1
    try:
        yield
    finally:
        service.tokens.give(token, "watches")
        standing.subscribers -= 1
        if not standing.subscribers and service.standing.get(standing.query) is standing:
            del service.standing[standing.query]


class Stream:
    """The events of one subscriber."""

    def __init__(self, service, request, standing):
        self.service, self.request, self.standing, self.key = service, request, standing, object()
        heads = {"Content-Type": "text/event-stream", "Cache-Control": "no-store", "X-Accel-Buffering": "no"}
        self.response = web.StreamResponse(headers=heads)

    async def begin(self):
        self.request["begun"] = True
        await self.response.prepare(self.request)

    async def send(self, kind, point, lines):
        self.service.meter.events.labels(kind).inc()
        await self.response.write(f"id: {point.id}\nevent: {kind}\n".encode())
        for line in lines:
            await self.response.write(line.encode())
        await self.response.write(b"\n")
        self.standing.told[self.key] = point.moment.seq

    async def first(self, patience):
        """All rows but those of a vertex without edges."""
        point = self.standing.now()
        values = await self.standing.values(point, None, patience)
        places = np.flatnonzero(values != np.uint64(ask.START[self.standing.query.reduction]))
        await self.send("rows", point, [line async for line in data_lines({"version": point.moment.seq}, places, values[places])])
        return point

    async def wait(self, wake):
        """Waits for a version, a column or the end, and looks whether the client is there. A comment shows it that the connection stands."""
        waiting, until = [asyncio.ensure_future(one.wait()) for one in (wake, self.service.closing)], time.monotonic() + HEARTBEAT_SECONDS
        try:
            while not (await asyncio.wait(waiting, timeout=LOOK_SECONDS, return_when=asyncio.FIRST_COMPLETED))[0]:
                if has_gone(self.request):
                    raise Gone
                if time.monotonic() >= until:
                    await self.response.write(b": \n\n")
                    return
        finally:
            for one in waiting:
                one.cancel()

    async def go(self, point, patience):
        if point is None:
            point = await self.first(patience)
        self.standing.told[self.key] = point.moment.seq
        while not self.service.closing.is_set():
            wake = self.service.wake
            event = await self.standing.event_after(point, patience)
            if event is None:
                await self.wait(wake)
                continue
            await self.send("changes", event.point, event.data)
            point = event.point
        await self.end()

    async def end(self):
        await self.response.write(b"event: end\ndata: {}\n\n")


async def watch(service, request, token):
    standing = query_of(service, request)
    with subscribed(service, token, standing):
        stream = Stream(service, request, standing)
        point = resumed(service, standing, request)
        await stream.begin()
        try:
            await stream.go(point, WatchPatience(service, request))
        except (Gone, ConnectionError):
            if service.closing.is_set():
                with contextlib.suppress(ConnectionError):
                    await stream.end()
        except Exception as error:
            # A column or the program was dropped, or memory ran out: the client is told, and asks again.
            told = json.dumps({"error": type(error).__name__, "words": str(error)})
            with contextlib.suppress(ConnectionError):
                await stream.response.write(f"event: error\ndata: {told}\n\n".encode())
        finally:
            standing.told.pop(stream.key, None)
    return stream.response

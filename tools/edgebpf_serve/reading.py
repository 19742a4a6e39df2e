"""Requests that read one version."""
import asyncio
import json
import time

import numpy as np
from aiohttp import web

from edgebpf_serve import asked as ask
from edgebpf_serve.asked import Unfit
from edgebpf_serve.graph import lists_of
from edgebpf_serve.limits import AROUND, MOST_AROUND, MOST_NUMBERS, MOST_PAGE, MOST_REACHED, MOST_STEPS, PAGE, PIECE, REMOVE
from edgebpf_serve.service import answer, under_way
from edgebpf_serve.trying import BROUGHT, program_of

FORMATS = ("json", "bytes", "lines")
LINES = "application/x-ndjson"
BLOCK = 1 << 18
# Edges whose lists are copied in one call.
MOST_COPIED = 1 << 20
CHANGES = 256


class Answer:
    """An answer in pieces, so that others are answered between them."""

    def __init__(self, request, version, media=ask.JSON, heads=None):
        self.request = request
        self.response = web.StreamResponse(headers={"Content-Type": media, "X-Version": str(version), **(heads or {})})
        self.is_begun = False

    async def write(self, data):
        if not self.is_begun:
            self.is_begun = self.request["begun"] = True
            await self.response.prepare(self.request)
        await self.response.write(data)

    async def text(self, rows, form):
        """Rows of a few arrays, each written by a function, some thousand at a time."""
        for place in range(0, len(rows[0]), PIECE):
            await self.write(form(zip(*(row[place:place + PIECE].tolist() for row in rows))))
            await asyncio.sleep(0)

    async def array(self, array):
        """The bytes of an array."""
        data = memoryview(np.ascontiguousarray(array)).cast("B") if len(array) else b""
        for place in range(0, len(data), BLOCK):
            await self.write(data[place:place + BLOCK])

    async def end(self, last=b""):
        await self.write(last)
        await self.response.write_eof()
        return self.response


def line_form(rows):
    return "".join(f"{json.dumps(row, separators=(',', ':'))}\n" for row in rows).encode()


def comma_form(first):
    """Numbers after each other with commas between."""
    def form(rows):
        nonlocal first
        text = ",".join(str(number) for number, in rows)
        text, first = (text if first else f",{text}"), False
        return text.encode()
    return form


async def json_answer(request, about, lists):
    """An object whose last fields are lists of numbers."""
    if sum(map(len, lists.values())) <= PIECE:
        return answer({**about, **{name: numbers.tolist() for name, numbers in lists.items()}})
    made = Answer(request, about["version"])
    await made.write(json.dumps(about, separators=(",", ":"))[:-1].encode())
    for name, numbers in lists.items():
        await made.write(f',"{name}":['.encode())
        await made.text([numbers], comma_form(True))
        await made.write(b"]")
    return await made.end(b"}")


async def bytes_answer(request, about, arrays):
    heads = {f"X-{name.title()}": str(value) for name, value in about.items()}
    if sum(array.nbytes for array in arrays) <= BLOCK:
        return web.Response(body=b"".join(array.tobytes() for array in arrays), headers=heads, content_type=ask.BYTES)
    made = Answer(request, about["version"], ask.BYTES, heads)
    made.response.content_length = sum(array.nbytes for array in arrays)
    for array in arrays:
        await made.array(array)
    return await made.end()


class Asked:
    """What a request asks of a program: /runs, /numbers and /pairs. With a body of bytes, the other words are in the query."""

    def __init__(self, service, request, body, numbers):
        names = ("program", "argument", "columns", *numbers)
        # The program is found by `asked_of`.
        self.kept = None
        if ask.media_of(request, ask.JSON, ask.BYTES) == ask.BYTES:
            fields = {name: request.query[name] for name in names if name in request.query}
            fields["columns"] = [name for name in request.query.get("columns", "").split(",") if name]
            if len(body) % 4:
                raise ValueError("the body has 4 bytes for each vertex")
            self.given = np.frombuffer(body, "<u4")
        else:
            fields, self.given = ask.fields_of(request, body, *names, *BROUGHT), None
        self.fields, self.moment = fields, service.moment(request)
        self.argument = ask.hex_of(fields, "argument")
        self.columns = [service.columns.get(name) for name in ask.columns_of(fields)]
        self.format = ask.choice_of(request.query.get("format", "json"), "format", FORMATS)

    def frontier(self):
        vertices = self.moment.version.vertices
        if self.given is None:
            return ask.vertices_of(self.fields.get("frontier"), "frontier", vertices)
        if len(self.given) and int(self.given.max()) >= vertices:
            raise Unfit(f"a vertex of the body is not below {vertices}")
        return self.given

    def ends(self):
        if self.given is None:
            return ask.pairs_of(self.fields.get("pairs"), self.moment.version.vertices)
        if len(self.given) % 2:
            raise ValueError("the body has 8 bytes for each pair")
        sources_targets = self.frontier().reshape(-1, 2)
        return sources_targets[:, 0], sources_targets[:, 1]

    def lent(self):
        return {"columns": [column.numbers for column in self.columns]}

    def about(self, **more):
        """What all answers say first."""
        told = {"version": self.moment.seq, **more}
        return {**told, "columns": [column.seq for column in self.columns]} if self.columns and self.format == "json" else told


async def asked_of(service, request, token, *numbers):
    """What a request asks of a program, with the program."""
    asked = Asked(service, request, await service.body(request), numbers)
    asked.kept = await program_of(service, token, asked.fields)
    return asked


async def run(service, request, token):
    asked = await asked_of(service, request, token, "reduction", "frontier")
    reduction, frontier = ask.choice_of(asked.fields.get("reduction", "sum"), "reduction", tuple(ask.START)), asked.frontier()
    with under_way(service, token):
        work = asked.moment.version.begin(asked.kept.program, reduction, frontier, asked.argument, **asked.lent())
        if asked.format == "lines":
            return await run_lines(service, request, asked, work, frontier)
        await service.turns.finish(work, asked.kept.program, service.patience(request))
        about = asked.about(edges=work.edges, total=work.total)
        if asked.format == "bytes":
            return await bytes_answer(request, about, [work.values])
        return await json_answer(request, about, {"values": work.values})


async def run_lines(service, request, asked, work, frontier):
    """Rows as soon as they are there. An answer without the last line was cut off."""
    made, done = Answer(request, asked.moment.seq, LINES), 0
    async for _ in service.turns.steps(work, asked.kept.program, service.patience(request)):
        place, done = done, work.vertex
        vertices = np.arange(place, done) if frontier is None else frontier[place:done]
        await made.text([vertices, work.values[place:done]], line_form)
    if done < work.vertex:
        vertices = np.arange(done, work.vertex) if frontier is None else frontier[done:]
        await made.text([vertices, work.values[done:]], line_form)
    return await made.end(line_form([asked.about(edges=work.edges, total=work.total)]))


async def numbers(service, request, token):
    """A number for each edge of a frontier."""
    asked = await asked_of(service, request, token, "frontier")
    frontier = asked.frontier()
    if frontier is None:
        raise ValueError("frontier is a list of whole numbers")
    version = asked.moment.version
    count = int(version.degrees(frontier).sum(dtype=np.int64))
    if count > MOST_NUMBERS:
        raise Unfit(f"the vertices of frontier have {count} edges, and an answer {MOST_NUMBERS} numbers at most")
    with under_way(service, token):
        work = version.begin_numbers(asked.kept.program, frontier, asked.argument, **asked.lent())
        await service.turns.finish(work, asked.kept.program, service.patience(request))
        starts, targets = await copied(service, version, frontier)
        about = asked.about(edges=work.edges)
        if asked.format == "bytes":
            return await bytes_answer(request, about, [starts, work.numbers, targets])
        if asked.format == "lines":
            made = Answer(request, asked.moment.seq, LINES)
            sources = np.repeat(frontier, np.diff(starts))
            await made.text([sources, targets, work.numbers], line_form)
            return await made.end(line_form([about]))
        return await json_answer(request, about, {"starts": starts, "targets": targets, "numbers": work.numbers})


async def copied(service, version, frontier):
    """The lists of a frontier."""
    if len(frontier) <= PIECE and int(version.degrees(frontier).sum()) <= PIECE:
        return version.lists(frontier)
    return await service.turns.call(version.lists, frontier)


async def pairs(service, request, token):
    """A number for each pair, which need not be an edge."""
    asked = await asked_of(service, request, token, "pairs")
    sources, targets = asked.ends()
    with under_way(service, token):
        work = asked.moment.version.begin_pairs(asked.kept.program, sources, targets, asked.argument, **asked.lent())
        await service.turns.finish(work, asked.kept.program, service.patience(request))
        if asked.format == "bytes":
            return await bytes_answer(request, asked.about(), [work.numbers])
        if asked.format == "lines":
            made = Answer(request, asked.moment.seq, LINES)
            await made.text([sources, targets, work.numbers], line_form)
            return await made.end(line_form([asked.about()]))
        return await json_answer(request, asked.about(), {"numbers": work.numbers})


async def neighbours(service, request, token):
    moment, direction = service.moment(request), ask.choice_of(request.query.get("direction", "out"), "direction", ("out", "in"))
    vertex = vertex_of(request.match_info["vertex"], moment.version.vertices)
    after, limit = ask.number_of(request, "after", None, 2**32), ask.number_of(request, "limit", PAGE, MOST_PAGE)
    version = moment.version if direction == "out" else mirror_of(moment)
    targets = version.neighbours(vertex)
    first = 0 if after is None else int(np.searchsorted(targets, after, side="right"))
    page = targets[first:first + limit]
    about = {"version": moment.seq, "degree": len(targets)}
    if first + limit < len(targets) and limit:
        about["next"] = int(page[-1])
    return await json_answer(request, about, {"neighbours": page})


def vertex_of(text, count):
    if not ask.WHOLE.fullmatch(text):
        raise ValueError("the vertex is a whole number")
    if int(text) >= count:
        raise Unfit(f"the vertex {text} is not below {count}")
    return int(text)


def mirror_of(moment):
    if moment.mirror is None:
        raise Unfit("direction in: the service was started without --mirror")
    return moment.mirror


async def around(service, request, token):
    """The nearest vertices that are reached from one, and the edges between them."""
    moment = service.moment(request)
    version = moment.version
    vertex = vertex_of(request.match_info["vertex"], version.vertices)
    steps, limit = ask.number_of(request, "steps", 1, MOST_STEPS), ask.number_of(request, "limit", AROUND, MOST_AROUND)
    if not limit:
        raise ValueError(f"limit is a whole number from 1 to {MOST_AROUND}")
    with under_way(service, token):
        told = await service.turns.call(surroundings, version, vertex, steps, limit)
    return answer({"version": moment.seq, "graph": {"vertices": version.vertices, "edges": version.edges}, **told})


def surroundings(version, vertex, steps, limit):
    found, complete = nearest(version, vertex, steps, limit)
    edges = [(source, target) for source in found for target in targets_among(version, source, found)]
    return {"complete": complete, "vertices": found, "degrees": version.degrees(found).tolist(), "edges": edges}


def nearest(version, vertex, steps, limit):
    """The vertices that are reached from one in so many steps, the nearest first, and whether these are all."""
    found, front = {vertex: None}, [vertex]
    for _ in range(steps):
        later = []
        for source in front:
            # Of so many targets one at least has no room, so that further ones need not be read.
            for target in version.neighbours(source)[:limit + 1].tolist():
                if target not in found:
                    if len(found) == limit:
                        return list(found), False
                    found[target] = None
                    later.append(target)
        front = later
    return list(found), True


def targets_among(version, source, vertices):
    """Those of some vertices to which an edge of `source` leads, ascending."""
    targets, wanted = version.neighbours(source), np.sort(np.array(vertices, np.uint32))
    places = np.searchsorted(targets, wanted)
    inside = places < len(targets)
    return wanted[inside][targets[places[inside]] == wanted[inside]].tolist()


async def expand(service, request, token):
    """The vertices that are reached from some in so many steps."""
    asked = ask.fields_of(request, await service.body(request), "vertices", "steps", "limit")
    moment = service.moment(request)
    first = ask.vertices_of(asked.get("vertices"), "vertices", moment.version.vertices)
    if first is None:
        raise ValueError("vertices is a list of whole numbers")
    steps, limit = ask.whole_of(asked, "steps", 1, MOST_STEPS), ask.whole_of(asked, "limit", PAGE, MOST_REACHED)
    with under_way(service, token):
        found, complete = await reached(service, moment.version, first, (steps, limit, service.patience(request)))
    return await json_answer(request, {"version": moment.seq, "count": len(found), "complete": complete}, {"vertices": found})


async def reached(service, version, first, within):
    """The vertices reached, ascending, and whether these are all."""
    steps, limit, patience = within
    seen = np.zeros(version.vertices, bool)
    seen[first] = True
    front = np.unique(first)
    for _ in range(steps):
        later = np.zeros(0, np.uint32)
        for part in parts_of(front, version):
            if time.monotonic() >= patience.end:
                return np.flatnonzero(seen)[:limit], False
            patience.look_at_client()
            targets = lists_of(version, part) if len(part) <= 64 else await service.turns.call(lists_of, version, part)
            fresh = np.unique(targets[~seen[targets]])
            seen[fresh] = True
            later = np.concatenate((later, fresh))
            if np.count_nonzero(seen) > limit:
                return np.flatnonzero(seen)[:limit], False
        front = later
        if not len(front):
            break
    found = np.flatnonzero(seen)
    return found[:limit], len(found) <= limit


def parts_of(front, version):
    """A frontier in parts of so many edges, or of one vertex."""
    ends = np.cumsum(version.degrees(front), dtype=np.int64)
    cuts = np.unique(np.searchsorted(ends, np.arange(MOST_COPIED, int(ends[-1]) if len(ends) else 0, MOST_COPIED)))
    return [part for part in np.split(front, cuts) if len(part)]


async def edges(service, request, token):
    """All edges: a 64-bit number for each vertex and one more, where its list begins, and a 32-bit number for each edge."""
    moment = service.moment(request)
    with under_way(service, token):
        starts, targets = await service.turns.call(lambda: moment.version.share().csr())
        return await bytes_answer(request, {"version": moment.seq, "vertices": len(starts) - 1, "edges": len(targets)}, [starts, targets])


async def changes(service, request, token):
    """The batches after a version, as lines."""
    after = ask.number_of(request, "after", 0, 2**63)
    with under_way(service, token):
        latest = service.engine.latest.seq
        if after > latest:
            raise Unfit(f"after is {after}, and the last version {latest}")
        some = await service.turns.call(batches_after, service.disk, after, latest)
        if some is None:
            raise web.HTTPGone(text=f"the journal has no batch {after + 1} any more: take GET /edges first")
        made = Answer(request, latest, LINES)
        while some:
            for seq, edits in some:
                await made.write(change_line(seq, edits))
                await asyncio.sleep(0)
            after = some[-1][0]
            some = await service.turns.call(batches_after, service.disk, after, latest) if after < latest else []
            if some is None:
                raise web.HTTPGone(text="the journal was cut meanwhile")
        return await made.end(line_form([{"version": latest}]))


def batches_after(disk, after, latest):
    """Some batches after one; None if the journal does not have them."""
    if after == latest:
        return []
    with disk.reader() as db:
        db.execute("begin")
        first = disk.first_batch(db)
        if first is None or first > after + 1:
            return None
        return [(seq, edits.copy()) for seq, _, edits in disk.batches(after, db, min(CHANGES, latest - after))]


def change_line(seq, edits):
    sources, marks = edits[:, 0] & ~np.uint32(REMOVE), edits[:, 0] >> 31
    rows = [[u, v, 1] if out else [u, v] for u, v, out in zip(sources.tolist(), edits[:, 1].tolist(), marks.tolist())]
    return json.dumps({"version": seq, "edits": rows}, separators=(",", ":")).encode() + b"\n"


async def all_programs(service, request, token):
    return answer({"programs": [kept.about() for kept in list(service.programs.of.values())]})


async def one_program(service, request, token):
    kept = service.programs.get(ask.name_of(request.match_info["name"], "the name"))
    record, form, body, table = kept.source
    told = {"text": body.decode()} if form == "text" else {"code": body.hex()}
    return answer({**kept.about(), **told, "table": table.hex()})


async def all_columns(service, request, token):
    columns = list(service.columns.of.values())
    return answer({"columns": [{"name": column.name, "column": column.seq, "owner": column.owner} for column in columns]})


async def one_column(service, request, token):
    column = service.columns.get(ask.name_of(request.match_info["name"], "the name"))
    return await bytes_answer(request, {"version": service.engine.latest.seq, "column": column.seq}, [column.numbers])

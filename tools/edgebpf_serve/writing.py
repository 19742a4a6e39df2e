"""Requests that change something."""
import functools

import numpy as np
from aiohttp import web

from edgebpf_serve import asked as ask
from edgebpf_serve.backup import back_up
from edgebpf_serve.named import verified
from edgebpf_serve.service import answer, under_way
from edgebpf_serve.trying import BROUGHT, source_of


async def batch(service, request, token):
    body, key = await service.body(request), ask.key_of(request)
    edits = ask.edits_of(request, body, service.disk.vertices)
    service.tokens.count_batch(token)
    outcome = await service.written(functools.partial(service.engine.submit, key, edits))
    return answer({"version": outcome.version, "added": outcome.added, "removed": outcome.removed, "new": outcome.new})


async def keep_program(service, request, token):
    asked = ask.fields_of(request, await service.body(request), "name", *BROUGHT)
    kept = await service.turns.call(verified, ask.name_of(asked.get("name"), "name"), source_of(asked), token.name)
    kept, is_new = await service.written(lambda done: service.engine.do(service.programs.keep(kept, token.limits["programs"], done)))
    return answer({**kept.about(), "new": is_new}, 201 if is_new else 200)


async def drop_program(service, request, token):
    name = ask.name_of(request.match_info["name"], "the name")
    await service.written(lambda done: service.engine.do(service.programs.drop(name, done)))
    service.published()
    return answer({"name": name})


async def put_column(service, request, token):
    """Puts a column: bytes, or a list of numbers."""
    with under_way(service, token):
        return await put_numbers(service, request, token)


async def put_numbers(service, request, token):
    name, count = ask.name_of(request.match_info["name"], "the name"), service.disk.vertices
    media, body = ask.media_of(request, ask.JSON, ask.BYTES), await service.body(request, max(service.options.body, 8 * count))
    if media == ask.BYTES:
        if len(body) != 8 * count:
            raise ask.Unfit(f"a column has 8 bytes for each of {count} vertices, {8 * count} in all, and not {len(body)}")
        numbers = np.frombuffer(body, "<u8")
    else:
        numbers = ask.numbers_of(ask.fields_of(request, body, "numbers").get("numbers"), "numbers")
        if len(numbers) != count:
            raise ask.Unfit(f"numbers has one for each of {count} vertices, and not {len(numbers)}")
    column = await service.on_disk(service.columns.draft, name, numbers, token.name)
    column = await service.written(functools.partial(service.columns.hand_in, service.engine, column, token.limits["columns"]))
    service.published()
    return answer({"name": name, "column": column.seq})


async def drop_column(service, request, token):
    name = ask.name_of(request.match_info["name"], "the name")
    await service.written(lambda done: service.engine.do(service.columns.drop(name, done)))
    service.published()
    return answer({"name": name})


async def snapshot(service, request, token):
    return answer({"snapshot": await service.written(service.engine.snapshot)})


async def backup(service, request, token):
    """Copies the folder, while it is served, into its folder `backups`."""
    asked = ask.fields_of(request, await service.body(request), "name")
    name = ask.name_of(asked.get("name"), "name")
    try:
        version = await service.on_disk(back_up, service.disk.folder, service.disk.folder / "backups" / name)
    except FileExistsError:
        raise web.HTTPConflict(text=f"there is a backup {name} already") from None
    return answer({"name": name, "version": version}, 201)

"""Programs that nobody keeps: a request brings one, and has it explained, or run as a kept one is."""
import edgebpf
from aiohttp import web

from edgebpf_serve import asked as ask
from edgebpf_serve.named import Source, verified
from edgebpf_serve.service import answer, under_way

# The fields of a request that brings a program.
BROUGHT = ("text", "code", "record", "table")
ROLE = "program"


def source_of(asked):
    """What a program is made of that a request brings."""
    record, table = ask.whole_of(asked, "record", 16, 1 << 16), ask.hex_of(asked, "table")
    return Source(record, *form_of(asked), table)


def form_of(asked):
    """The form of a program, and its bytes."""
    if ("text" in asked) == ("code" in asked):
        raise ValueError("a program has either text or code")
    if "code" in asked:
        return "code", ask.hex_of(asked, "code")
    text = asked["text"]
    if isinstance(text, list) and all(isinstance(line, str) and "\n" not in line for line in text):
        asked = {"text": "\n".join(text)}
    return "text", ask.text_of(asked, "text").encode("utf-8", "surrogatepass")


async def program_of(service, token, fields):
    """The program of a request: the kept one of a name, or one that the request brings."""
    brought = [name for name in BROUGHT if name in fields]
    if not brought:
        return service.programs.get(ask.name_of(fields.get("program"), "program"))
    if "program" in fields:
        raise ValueError(f"program is the name of a kept program, and {brought[0]} is of one that is brought: a request has one of them")
    if ROLE not in token.roles:
        raise web.HTTPForbidden(text=f"this token has not the role {ROLE}, and runs kept programs alone")
    source = source_of(fields)
    kept = service.tried.find(source)
    if kept is None:
        with under_way(service, token):
            kept = await service.turns.call(verified, "", source)
        service.tried.keep(kept)
    return kept


def explained(source):
    """What the verifier says of a program, and the program if it is accepted, else None. Raises `WrongText`."""
    record, form, body, table = source
    text = edgebpf.explain(body.decode("utf-8", "surrogatepass") if form == "text" else body, record, table)
    try:
        kept = verified("", source)
    except edgebpf.Refused as refused:
        return {"accepted": False, "cause": refused.cause, "unit": refused.unit, "words": refused.words, "explanation": text}, None
    return {"accepted": True, "bound": kept.program.bound, "frames": kept.program.frames, "asks": kept.asks, "explanation": text}, kept


async def explain(service, request, token):
    source = source_of(ask.fields_of(request, await service.body(request), *BROUGHT))
    with under_way(service, token):
        told, kept = await service.turns.call(explained, source)
    if kept is not None:
        service.tried.keep(kept)
    return answer(told)

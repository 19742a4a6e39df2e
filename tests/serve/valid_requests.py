"""Valid requests to each route of a service, at random, for fuzz_requests.py."""
import struct
import typing

from model import KINDS, random_edits

# An answer of more rows than some 8,000 comes in pieces.
VERTICES, MANY = 40, 8_500
JSON, BYTES = "application/json", "application/octet-stream"
# These stand for words that the service made, and are replaced when a request is sent.
ALL, READER, VERSION, EVENT = "token-of-all", "token-of-reader", "version-now", "last-event"
CODES = ("b7000000010000009500000000000000", "6110040000000000950000000000000000", "9500000000000000", "610004000000000095000000000000")
TEXTS = ("mov r0, 1\nexit", "ldxw r0, [r1+13]\nexit", "mov r0, r5\nexit", "fly r0", "exit", "ldxw r1, [r1+4]\ncall 1\nexit")


class Asked(typing.NamedTuple):
    """A request before it is bytes. A body is bytes, or what is written as JSON."""

    path: str
    body: object = None
    query: tuple = ()
    heads: tuple = ()


def number(chance):
    return chance.randrange(VERTICES)


def length(chance):
    """Few rows, or so many that an answer comes in pieces."""
    return chance.randrange(6) if chance.random() < 0.98 else MANY


def some(chance):
    return [number(chance) for _ in range(length(chance))]


def name(chance):
    return f"p{chance.randrange(4)}"


def brought(chance):
    """The fields of a program that a request brings."""
    if chance.random() < 0.3:
        return {"code": chance.choice([*CODES, chance.randbytes(8 * chance.randrange(9)).hex()]), "record": chance.randrange(16, 257)}
    kind = KINDS[chance.choice(list(KINDS))]
    text = chance.choice([kind.text, kind.text, chance.choice(TEXTS), "".join(chance.choices("ajlmor0159[]+,:; \n", k=chance.randrange(40)))])
    fields = {"text": chance.choice([text, text.split("\n")]), "record": kind.record}
    return {**fields, "table": chance.randbytes(8 * chance.randrange(3)).hex()} if chance.random() < 0.3 else fields


def kept(chance):
    """The fields of a run of a kept program."""
    kind = chance.choice(list(KINDS))
    more = {"argument": {"argument": chance.randbytes(8).hex()}, "column": {"columns": ["risk"]}}
    return {"program": kind, **more.get(kind, {})}


def written(fields):
    """Fields as those of a query."""
    return tuple((field, ",".join(value) if isinstance(value, list) else value) for field, value in fields.items())


def run_of(path, field, draw):
    """Runs as JSON, or as bytes with the other fields in the query."""
    def made(chance):
        query = [("version", chance.choice([VERSION, "0", "1"]))] if chance.random() < 0.4 else []
        query += [("format", chance.choice(["json", "bytes", "lines"]))] if chance.random() < 0.6 else []
        reduction = {"reduction": chance.choice(["sum", "min", "max"])} if path == "/runs" and chance.random() < 0.6 else {}
        rows = draw(chance)
        if chance.random() < 0.3:
            flat = [end for row in rows for end in row] if field == "pairs" else rows
            return Asked(path, struct.pack(f"<{len(flat)}I", *flat), (*query, *written({**kept(chance), **reduction})))
        fields = {**(kept(chance) if chance.random() < 0.7 else brought(chance)), **reduction}
        return Asked(path, {**fields, field: rows} if path != "/runs" or chance.random() < 0.8 else fields, tuple(query))
    return made


def batch(chance):
    edits = random_edits(chance, VERTICES, 8 if chance.random() < 0.98 else MANY // 2)
    heads = (("Idempotency-Key", f"key{chance.randrange(60)}"),) if chance.random() < 0.4 else ()
    if chance.random() < 0.4:
        return Asked("/batches", b"".join(struct.pack("<2I", u | (mark[0] << 31 if mark else 0), v) for u, v, *mark in edits), (), heads)
    return Asked("/batches", {"edits": edits}, (), heads)


def watch(chance):
    query = written({**kept(chance), "reduction": chance.choice(["sum", "min", "max"])})
    heads = (("Last-Event-ID", EVENT),) if chance.random() < 0.4 else ()
    return Asked("/watch", None, (*query, ("from", EVENT)) if chance.random() < 0.3 else query, heads)


def column(chance):
    numbers = [chance.randrange(1 << 64) for _ in range(VERTICES)]
    return Asked(f"/columns/{name(chance)}", chance.choice([{"numbers": numbers}, struct.pack(f"<{VERTICES}Q", *numbers)]))


def page(path, *fields):
    """Reads with some of the fields that their query may have."""
    def made(chance):
        query = tuple((field, str(draw(chance))) for field, draw in fields if chance.random() < 0.5)
        return Asked(path.format(number=number(chance), name=chance.choice([name(chance), *KINDS])), None, query)
    return made


AT = "version", lambda chance: VERSION
PAIRS = run_of("/pairs", "pairs", lambda chance: [[number(chance), number(chance)] for _ in range(length(chance))])
# By its method and its path, as openapi.json has them.
SEEDS = {
    "POST /batches": batch,
    "POST /programs": lambda chance: Asked("/programs", {"name": name(chance), **brought(chance)}),
    "GET /programs": page("/programs"), "GET /programs/{name}": page("/programs/{name}"),
    "DELETE /programs/{name}": lambda chance: Asked(f"/programs/{name(chance)}"),
    "POST /explain": lambda chance: Asked("/explain", brought(chance)),
    "POST /runs": run_of("/runs", "frontier", some), "POST /numbers": run_of("/numbers", "frontier", some), "POST /pairs": PAIRS,
    "GET /neighbours/{vertex}": page("/neighbours/{number}", AT, ("after", number), ("limit", number), ("direction", lambda chance: chance.choice(["in", "out"]))),
    "GET /around/{vertex}": page("/around/{number}", AT, ("steps", number), ("limit", number)),
    "POST /expand": lambda chance: Asked("/expand", {"vertices": some(chance), "steps": chance.randrange(4), "limit": number(chance)}),
    "GET /edges": page("/edges", AT), "GET /changes": page("/changes", ("after", lambda chance: VERSION)), "GET /watch": watch,
    "GET /columns": page("/columns"), "PUT /columns/{name}": column, "GET /columns/{name}": page("/columns/risk"),
    "DELETE /columns/{name}": lambda chance: Asked(f"/columns/{name(chance)}"),
    "POST /snapshots": page("/snapshots"), "POST /backups": lambda chance: Asked("/backups", {"name": name(chance)}),
    "GET /healthz": page("/healthz", ("any", number)), "GET /readyz": page("/readyz"), "GET /metrics": page("/metrics"),
    "GET /openapi.json": page("/openapi.json"), "GET /token": page("/token"), "GET /": page("/"),
}
# Routes that sync files are tried less often, and batches more.
WEIGHTS = {"POST /batches": 6, "POST /runs": 3, "POST /snapshots": 0.1, "POST /backups": 0.1, "PUT /columns/{name}": 0.5, "GET /": 0.2}

"""The requests of a service: what they ask for, who may make them, and their description for /openapi.json."""
import typing

from edgebpf_serve import asked, reading, standing, trying, writing
from edgebpf_serve.limits import FORMAT, TOKEN_LIMITS

NUMBER, WORDS = {"type": "integer", "minimum": 0}, {"type": "string"}
NUMBERS, NAMES = {"type": "array", "items": NUMBER}, {"type": "array", "items": WORDS}
PAIRS = {"type": "array", "items": NUMBERS}
REDUCTION = {"type": "string", "enum": ["sum", "min", "max"]}
FORMAT_OF_ANSWER = {"format": {"type": "string", "enum": ["json", "bytes", "lines"]}}
VERSION = {"version": NUMBER}
BROUGHT = {"record": NUMBER, "text": {}, "code": WORDS, "table": WORDS}
RUN = {"program": WORDS, **BROUGHT, "argument": WORDS, "columns": NAMES}
# What the query of a run has besides if the body is bytes. The names of columns have commas between them.
KEPT_RUN = {"program": WORDS, "argument": WORDS, "columns": WORDS}
PROGRAM = {"name": WORDS, **BROUGHT}
# A request that each token may make.
ANY_TOKEN = "any"
STATUSES = {
    200: "done", 201: "made", 400: "the request has a wrong form; the answer names the field", 401: "no token, or an unknown one",
    403: "this token may not do that, or the page is of another site", 404: "nothing has this name", 408: "the body came too slowly",
    409: "another program or backup has this name", 410: "this version is not kept, or the journal does not go back so far",
    413: "the body is too large", 415: "the body has another type than this request wants", 422: "the request cannot be done: the answer says why",
    429: "this token has as much under way as it may", 503: "not now: ask again; or a run took too long, and has no Retry-After", 507: "the disk is full",
}


class Route(typing.NamedTuple):
    """A request. `role` is who may make it; None is everybody, also without a token. `body` are the fields of its body, and `query` those of its query,
    None if it may have any. If its body may be bytes, `by_bytes` are the fields that the query may then have besides. `heads` are the heads that it reads."""

    method: str
    path: str
    handler: typing.Callable
    role: str | None
    words: str
    statuses: tuple = (200,)
    body: dict | None = None
    query: dict | None = {}
    by_bytes: dict | None = None
    heads: tuple = ()

    def query_of(self, media):
        """The fields that the query may have if the body has this type."""
        return {**self.query, **self.by_bytes} if self.by_bytes and media == asked.BYTES else self.query


READ = (200, 400, 404, 410, 415, 422, 429, 503)
WRITE = (200, 400, 408, 413, 415, 422, 429, 503, 507)
ROUTES = [
    Route("POST", "/batches", writing.batch, "write", "Edits the graph; once for each Idempotency-Key.", WRITE, {"edits": PAIRS}, {}, {},
          ("Idempotency-Key",)),
    Route("POST", "/programs", writing.keep_program, "program", "Verifies a program, and keeps it under its name.", (201, 403, 409, *WRITE), PROGRAM),
    Route("GET", "/programs", reading.all_programs, "read", "All programs."),
    Route("GET", "/programs/{name}", reading.one_program, "read", "One program, with its text or code.", (200, 400, 404)),
    Route("DELETE", "/programs/{name}", writing.drop_program, "program", "Drops a program.", (200, 400, 404, 503, 507)),
    Route("POST", "/explain", trying.explain, "program", "The verifier's state before each instruction of a program, which is not kept.",
          (200, 400, 408, 413, 415, 422, 429, 503), BROUGHT),
    Route("POST", "/runs", reading.run, "read", "Runs a program over a frontier, or over all vertices.", READ,
          {**RUN, "reduction": REDUCTION, "frontier": NUMBERS}, {**VERSION, **FORMAT_OF_ANSWER}, {**KEPT_RUN, "reduction": REDUCTION}),
    Route("POST", "/numbers", reading.numbers, "read", "The number of each edge of a frontier.", READ, {**RUN, "frontier": NUMBERS},
          {**VERSION, **FORMAT_OF_ANSWER}, KEPT_RUN),
    Route("POST", "/pairs", reading.pairs, "read", "The number of each pair, which need not be an edge.", READ, {**RUN, "pairs": PAIRS},
          {**VERSION, **FORMAT_OF_ANSWER}, KEPT_RUN),
    Route("GET", "/neighbours/{vertex}", reading.neighbours, "read", "A page of the targets of a vertex; of its sources with direction=in.",
          (200, 400, 410, 422), None, {**VERSION, "after": NUMBER, "limit": NUMBER, "direction": WORDS}),
    Route("GET", "/around/{vertex}", reading.around, "read", "The nearest vertices that are reached from one, and the edges between them.",
          (200, 400, 410, 422, 429, 503), None, {**VERSION, "steps": NUMBER, "limit": NUMBER}),
    Route("POST", "/expand", reading.expand, "read", "The vertices that are reached in so many steps.", READ,
          {"vertices": NUMBERS, "steps": NUMBER, "limit": NUMBER}, VERSION),
    Route("GET", "/edges", reading.edges, "read", "All edges, as bytes.", (200, 400, 410, 429, 503), None, VERSION),
    Route("GET", "/changes", reading.changes, "read", "The batches after a version, as lines.", (200, 400, 410, 422, 429, 503), None,
          {"after": NUMBER}),
    Route("GET", "/watch", standing.watch, "read", "Server-sent events: all rows of a run, then those that changed.", (200, 400, 404, 422, 429),
          None, {"program": WORDS, "reduction": REDUCTION, "argument": WORDS, "columns": WORDS, "from": WORDS}, None, ("Last-Event-ID",)),
    Route("GET", "/columns", reading.all_columns, "read", "All columns."),
    Route("PUT", "/columns/{name}", writing.put_column, "write", "Puts a number for each vertex.", (200, 403, *WRITE), {"numbers": NUMBERS}, {}, {}),
    Route("GET", "/columns/{name}", reading.one_column, "read", "The numbers of a column, as bytes.", (200, 400, 404)),
    Route("DELETE", "/columns/{name}", writing.drop_column, "write", "Drops a column.", (200, 400, 404, 503, 507)),
    Route("POST", "/snapshots", writing.snapshot, "admin", "Takes a snapshot now.", (200, 503, 507)),
    Route("POST", "/backups", writing.backup, "admin", "Copies the folder into its folder backups.", (201, 400, 409, 415, 503, 507), {"name": WORDS}),
]


def described(route, has_tokens):
    """A request in OpenAPI's words."""
    names = [part[1:-1] for part in route.path.split("/") if part.startswith("{")]
    parameters = [{"name": name, "in": "path", "required": True, "schema": WORDS} for name in names]
    parameters += [{"name": name, "in": "query", "schema": schema} for name, schema in (route.query_of(asked.BYTES) or {}).items()]
    parameters += [{"name": name, "in": "header", "schema": WORDS} for name in route.heads]
    statuses = sorted({*route.statuses, 400, 403, *((401,) if route.role else ()), *((408, 413, 415) if route.body is not None else ())})
    told = {"summary": route.words, "parameters": parameters, "responses": {str(status): {"description": STATUSES[status]} for status in statuses}}
    if route.body is not None:
        told["requestBody"] = {"content": {asked.JSON: {"schema": {"type": "object", "properties": route.body, "additionalProperties": False}}}}
        if route.by_bytes is not None:
            told["requestBody"]["content"][asked.BYTES] = {"schema": {"type": "string", "format": "binary"}}
    if route.role and has_tokens:
        told["security"] = [{"token": []}]
    return told


def description(routes, has_tokens):
    """The description of all requests."""
    paths = {}
    for route in routes:
        paths.setdefault(route.path, {})[route.method.lower()] = described(route, has_tokens)
    scheme = {"token": {"type": "http", "scheme": "bearer", "description": f"A token has roles, and limits: {', '.join(TOKEN_LIMITS)}."}}
    return {"openapi": "3.0.3", "info": {"title": "edgebpf-serve", "version": str(FORMAT)}, "paths": paths, "components": {"securitySchemes": scheme}}

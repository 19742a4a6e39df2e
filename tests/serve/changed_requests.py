"""Requests whose parts or bytes are changed at random, for fuzz_requests.py."""
import json
import math
import typing

from valid_requests import ALL, BYTES, EVENT, JSON, READER, SEEDS, VERSION, VERTICES, WEIGHTS

LONG = ["a" * 70, "9" * 30, "9" * 5_000, "x" * 9_000]
VALUES = [
    0, 1, -1, VERTICES, 2**31 - 1, 2**31, 2**32 - 1, 2**32, 2**63 - 1, 2**63, 2**64 - 1, 2**64, -2**31, -2**63, 10**30, 10**4_000, 0.0, -0.0, 1.5, 1e308,
    math.nan, math.inf, "", "0", "x", "é", "\ud800", "\0", "\n", "../x", None, True, False, [], {}, [[]], [0], [None], {"a": 0}, [[0, 1]], [0] * 3_000, *LONG,
]
TEXTS_OF_QUERY = [
    "", "0", "-1", "1.5", "%", "%zz", "%00", "%ff%fe", "%c3%a9", "%25", "%2e%2e", "..", "/", "//", "?", "#", "&", "=", "&&", ";", "+", " ", "\0", "\t", "é",
    "\udcff", "%d9%a1", "[", "xn--a", "a:b", "a@b", "1e3", str(2**63), str(2**64), VERSION, *LONG,
]
HEADS = {
    "Host": ["", "localhost:80", "127.0.0.1", "[::1]:8", "[", "elsewhere.example", "10.0.0.1", "a@localhost", "localhost:x", "\udcff"],
    "Origin": ["", "null", "http://localhost", "http://[", "http://elsewhere.example", "\udcff"],
    "Content-Type": ["", JSON, BYTES, "text/plain", "application/json; charset=utf-16", "APPLICATION/JSON", ";", "\udcff"],
    "Content-Encoding": ["", "identity", "gzip", "deflate", "br", "\udcff"], "Transfer-Encoding": ["chunked", "gzip", "gzip, chunked", "chunked, chunked", "x", ""],
    "Content-Length": ["", "0", "-1", "x", "5", "1e3", "+3", "0x10", "9" * 25, str(2**64), "65537"],
    "Expect": ["", "100-continue", "nothing", "\udcff"], "Connection": ["", "close", "keep-alive", "upgrade", "x, close", "\udcff"],
    "Upgrade": ["", "websocket", "h2c", "\udcff"], "Authorization": ["", "Bearer", f"Bearer {READER}", f"Bearer {ALL}", "Basic eDp4", "bearer \udcff", "Bearer  x"],
    "Idempotency-Key": ["", "a", "a b", "k" * 128, "k" * 129, "\udcff", "é"], "Last-Event-ID": ["", "x", "0-00000000", "9" * 19 + "-00000000", EVENT, "\udcff"],
    "Range": ["bytes=0-1", "x"], "If-None-Match": ["*"], "Cookie": ["\udcff=;;", "a=b"], "Accept-Encoding": ["gzip", "\udcff"], "TE": ["trailers"],
    "Sec-WebSocket-Key": ["x"], "": ["", "x"], "A B": ["x"], "A\0": ["x"], "é": ["é"],
}


def places(value):
    """Where JSON has a value: in which list or object, and where in it."""
    keys = list(value) if isinstance(value, dict) else range(min(len(value), 50)) if isinstance(value, list) else ()
    for key in keys:
        yield value, key
        yield from places(value[key])


def change_value(chance, asked):
    body = json.loads(json.dumps(asked.body))
    found = list(places(body))
    if not isinstance(body, dict) or not found:
        return asked._replace(body=chance.choice(VALUES))
    inside, key = chance.choice(found)
    what = chance.randrange(6)
    if what == 0:
        del inside[key]
    elif what == 1 and isinstance(inside, list):
        inside.insert(key, chance.choice([inside[key], chance.choice(VALUES)]))
    elif what == 1:
        inside[chance.choice(["", "x", "edits", "program", "text", "\ud800"])] = inside[key]
    else:
        inside[key] = chance.choice(VALUES)
    return asked._replace(body=body)


def change_body(chance, asked):
    """A value of JSON, a field that stands twice, JSON that is deep, or bytes."""
    if asked.body is None or isinstance(asked.body, bytes):
        return asked._replace(body=change_bytes(chance, asked.body or b'{"edits": [[0, 1]]}'))
    if not asked.body or chance.random() < 0.8:
        return change_value(chance, asked)
    text = json.dumps(asked.body)
    deep = chance.choice([10, 900, 20_000])
    twice = json.dumps({chance.choice(list(asked.body)): chance.choice(VALUES)}) if isinstance(asked.body, dict) else "{}"
    texts = [f"{text[:-1]},{twice[1:]}", f"{twice[:-1]},{text[1:]}", "[" * deep + "]" * deep, text.encode("utf-16").decode("latin-1"), " " * 70_000 + text]
    return asked._replace(body=chance.choice(texts).encode("latin-1", "replace"))


def change_query(chance, asked):
    query, value = list(asked.query), chance.choice(TEXTS_OF_QUERY)
    what = chance.randrange(4)
    if what == 0 or not query:
        query.append((chance.choice(["x", "", "version", "format", "after", value]), value))
    elif what == 1:
        query.append(chance.choice(query))
    elif what == 2:
        del query[chance.randrange(len(query))]
    else:
        place = chance.randrange(len(query))
        query[place] = query[place][0], value
    return asked._replace(query=tuple(query))


def change_path(chance, asked):
    value, parts = chance.choice(TEXTS_OF_QUERY), asked.path.split("/")
    parts[chance.randrange(len(parts))] = value
    paths = ["/".join(parts), f"{asked.path}/{value}", asked.path + value, f"http://localhost{asked.path}", f"http://{value}{asked.path}", "*", value]
    return asked._replace(path=chance.choice([paths[0], *paths]))


def change_heads(chance, asked):
    heads, field = list(asked.heads), chance.choice(list(HEADS))
    line = field, chance.choice([*HEADS[field], chance.choice(LONG)])
    what = chance.randrange(6)
    if what == 0 and heads:
        heads.append(chance.choice(heads))
    elif what == 1 and heads:
        place = chance.randrange(len(heads))
        heads[place] = heads[place][0], "\r\n ".join([heads[place][1], line[1]])
    elif what == 2:
        heads += [line] * chance.choice([2, 200])
    elif what == 3:
        heads = [one for one in heads if one[0] != chance.choice(list(HEADS))] + [("Content-Type", "")]
    else:
        heads.append(line)
    return asked._replace(heads=tuple(heads))


def change_bytes(chance, data):
    """Bytes that are flipped, put in, taken out, or stand twice."""
    data = bytearray(data)
    for _ in range(chance.choice([1, 1, 2, 5])):
        place, length = chance.randrange(len(data) + 1), chance.choice([1, 1, 2, 8, 60])
        what = chance.randrange(5)
        if what == 0 and place < len(data):
            data[place] ^= 1 << chance.randrange(8)
        elif what == 1:
            data[place:place] = chance.choice([chance.randbytes(length), b"\r\n", b"\n", b"\0", b" ", b"\r\n\r\n", b":"])
        elif what == 2:
            del data[place:place + length]
        elif what == 3:
            data[place:place] = data[place:place + length]
        else:
            data[place:place + 1] = chance.randbytes(1)
    return bytes(data)


def framed(chance, body):
    """The head lines of a body's length, right or wrong, and the body as it is sent."""
    parts = parts_of(body, chance.choices(range(len(body) + 1), k=chance.randrange(4)))
    lengths = [f"{len(part):x}\r\n" for part in parts]
    ending = "0\r\n\r\n"
    wrong = chance.randrange(9)
    if wrong == 0 and lengths:
        place = chance.randrange(len(lengths))
        size = len(parts[place])
        odd = ["zz", "-1", "", "f" * 16, "f" * 17, f"{size + 1:x}", f"{size - 1:x}", f"0x{size:x}", f"{size:x};a=b", f"{size:x} ", f"{size:x}" + " " * 9_000]
        lengths[place] = chance.choice(odd) + chance.choice(["\r\n", "\r\n", "\n"])
    elif wrong == 1:
        ending = chance.choice(["", "0\r\n", "0\r\nA: b\r\n\r\n", "0\r\nA" + "a" * 9_000 + "\r\n\r\n", "00\r\n\r\n"])
    chunks = b"".join(length.encode() + part + b"\r\n" for length, part in zip(lengths, parts)) + ending.encode()
    size = chance.choice([len(body) + 1, len(body) - 1, len(body) + 8, 0, *HEADS["Content-Length"]])
    kinds = {
        "chunks": ([("Transfer-Encoding", "chunked")], chunks), "wrong length": ([("Content-Length", str(size))], body), "no length": ([], body),
        "both": ([("Content-Length", str(len(body))), ("Transfer-Encoding", "chunked")], chunks), "twice": ([("Content-Length", str(len(body)))] * 2, body),
        "two": ([("Content-Length", str(len(body))), ("Content-Length", str(size))], body),
    }
    return kinds[chance.choice(["chunks"] * 5 + ["wrong length"] * 3 + list(kinds))]


def request_of(chance, route, changes):
    """The bytes of a request with so many changes."""
    method, asked = route.split(" ")[0], SEEDS[route](chance)
    media = () if asked.body is None else (("Content-Type", BYTES if isinstance(asked.body, bytes) else JSON),)
    token = chance.choices([ALL, READER, "x", None], [8, 2, 1, 1])[0]
    asked = asked._replace(heads=(*media, *asked.heads, *((("Authorization", f"Bearer {token}"),) if token else ())))
    kinds = [chance.choice([change_body, change_body, change_query, change_path, change_heads, change_heads, "method", "frame", "bytes"]) for _ in range(changes)]
    for change in kinds:
        if callable(change):
            asked = change(chance, asked)
    if "method" in kinds:
        method = chance.choice(["GET", "POST", "PUT", "DELETE", "PATCH", "OPTIONS", "TRACE", "CONNECT", "get", "", "GETT", "PRI", "\0"])
    body = asked.body if asked.body is None or isinstance(asked.body, bytes) else json.dumps(asked.body).encode()
    frame, body = ([], b"") if body is None else framed(chance, body) if "frame" in kinds else ([("Content-Length", str(len(body)))], body)
    target = asked.path + ("?" if asked.query else "") + "&".join(f"{field}={value}" for field, value in asked.query)
    version = chance.choice(["HTTP/1.0", "HTTP/1.2", "HTTP/2.0", "HTTP/9.9", "http/1.1", ""]) if "frame" in kinds and chance.random() < 0.1 else "HTTP/1.1"
    lines = [f"{method} {target} {version}", "Host: localhost", *(f"{field}: {value}" for field, value in (*asked.heads, *frame))]
    data = "\r\n".join([*lines, "", ""]).encode("utf-8", "surrogateescape") + body
    return change_bytes(chance, data) if "bytes" in kinds else data


class Changed(typing.NamedTuple):
    """What is sent by one connection: its pieces, of how many requests, the route of the first, and whether the client leaves at once."""

    pieces: tuple
    count: int
    route: str
    leaves: bool


def changed(chance):
    routes, weights = list(SEEDS), [WEIGHTS.get(route, 1) for route in SEEDS]
    count = chance.choice([1] * 8 + [2, 3])
    picked = chance.choices(routes, weights, k=count)
    requests = [request_of(chance, route, chance.choice([0, 1, 1, 1, 2, 3])) for route in picked]
    data = b"".join(requests)
    what = chance.randrange(12)
    if what == 0:
        other = request_of(chance, chance.choice(routes), 0)
        data = data[:chance.randrange(len(data))] + other[chance.randrange(len(other)):]
    elif what == 1:
        data = data[:chance.randrange(len(data))]
    # Pieces of any lengths, or so that an edit comes whole.
    first, step = chance.choice([(0, 1), (len(requests[0].partition(b"\r\n\r\n")[0]) + 4, 8)])
    places = range(min(first, len(data)), len(data) + 1, step)
    return Changed(tuple(parts_of(data, chance.choices(places, k=chance.choice([0, 0, 0, 1, 3])))), count, picked[0], chance.random() < 0.04)


def parts_of(data, cuts):
    """The parts of some bytes between places."""
    cuts = sorted(cuts)
    return [data[start:end] for start, end in zip([0, *cuts], [*cuts, len(data)]) if start < end]

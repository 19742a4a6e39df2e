"""Requests that a service must refuse, or answer without harm, for hostile_clients.py."""
import collections
import json
import zlib

# What is sent, the statuses that may answer it, and what follows: "answer" waits for one, "cut" closes the connection, "hold" keeps it
# open, "slow" sends byte by byte and closes.
Attack = collections.namedtuple("Attack", "data statuses ending")
CLOSED = "closed"
GOOD = "ldxw r0, [r1+4]\nexit"
HEAVY = "\n".join(
    [line for level in range(3) for line in (f"f{level}:", *[f"calllocal f{level + 1}"] * 21, "mov r0, 0", "exit")]
    + ["f3:", *["mov r0, 1"] * 100, "exit"])


def request(method, path, body=b"", heads="Content-Type: application/json\r\n"):
    return f"{method} {path} HTTP/1.1\r\nHost: localhost\r\n{heads}Content-Length: {len(body)}\r\n\r\n".encode() + body


def post(path, asked, *statuses):
    body = asked if isinstance(asked, bytes) else json.dumps(asked).encode()
    return Attack(request("POST", path, body), statuses, "answer")


def raw(data, *statuses):
    return Attack(data, statuses, "answer")


def refused(chance, _):
    text = chance.choice([
        "ldxw r0, [r1+13]\nexit", "mov r0, r5\nexit", "exit", "stxdw [r10+0], r1\nexit", "x: ja x\nexit", "mov r0, r1\nexit",
        "mov r0, 1", "calllocal 0\nexit", "call 9999\nexit", "mov r10, 1\nexit", "\n" * 70_000 + "exit", " " * 90_000 + "\nexit",
        "ldxdw r0, [r1+16]\nexit", "mov r0, 1\n" * 5_000 + "exit"])
    return post("/programs", {"name": "bad", "text": text}, 422)


def no_text(chance, _):
    text = "".join(chance.choices("abcjlr0159[]+,:;\t \x00\x1f\x7f", k=chance.randrange(1, 300))) + "\n?"
    return post("/programs", {"name": "bad", "text": text}, 422)


def explained(chance, _):
    """Programs that are explained, whatever they are, and forms that are none."""
    if chance.random() < 0.5:
        return post("/explain", {"code": chance.randbytes(8 * chance.randrange(1, 30)).hex(), "record": chance.randrange(16, 257)}, 200)
    wrong, *statuses = chance.choice([
        ({"text": "mov r0, 1\n" * 5_000 + "exit"}, 422), ({"text": "fly"}, 422), ({"text": "é"}, 400), ({"text": "exit", "record": 15}, 400), ({}, 400),
        ({"text": HEAVY}, 200), ({"text": "exit", "table": "00" * 4_097}, 400), ({"text": "exit", "name": "p0"}, 400), ({"code": "95" * 7}, 400)])
    return post("/explain", wrong, *statuses)


def brought(chance, programs):
    """Runs of programs that nobody keeps, of which more come than stay verified."""
    body, *statuses = chance.choice([
        ({"text": f"mov r0, {chance.randrange(1_000)}\nexit", "frontier": [chance.randrange(300)]}, 200), ({"text": GOOD, "program": chance.choice(programs)}, 400),
        ({"text": "ldxw r0, [r1+13]\nexit"}, 422), ({"code": chance.randbytes(16).hex(), "frontier": [0]}, 200, 422), ({"text": HEAVY}, 503),
        ({"record": 16}, 400), ({"text": GOOD, "argument": "00"}, 422)])
    return post("/runs", body, *statuses)


def around(chance, _):
    path, *statuses = chance.choice([
        ("/around/300", 422), ("/around/-1", 400), ("/around/0?limit=0", 400), ("/around/0?limit=101", 400), ("/around/0?steps=65", 400),
        ("/around/299?steps=64&limit=100", 200), ("/around/" + "9" * 5_000, 400), ("/around/0?version=9999999", 410)])
    return raw(request("GET", path), *statuses)


def code_length(chance, _):
    code = chance.choice(["", "9", "zz", "95" * chance.choice([1, 7, 9, 8 * 4_097]), "é", "95 " * 7])
    return post("/programs", {"name": "bad", "code": code}, 400)


def random_code(chance, _):
    code, record = chance.randbytes(8 * chance.randrange(1, 30)).hex(), chance.randrange(16, 257)
    return post("/programs", {"name": f"random{chance.randrange(9)}", "code": code, "record": record}, 200, 201, 409, 422)


def forms(chance, _):
    wrong = chance.choice([
        {"name": "bad"}, {"name": "bad", "text": GOOD, "c": "int x;"}, {"name": "bad", "text": GOOD, "code": "95"}, {"name": "bad", "text": 5}, {"name": "bad", "code": None}, {"name": "bad", "text": "é"}, {"text": GOOD},
        {"name": "bad", "text": "\ud800"}, {"name": "bad", "text": "end"}, {"name": ["bad"], "text": GOOD},
        {"name": "bad", "text": "exit\n" * 100_000}])
    return post("/programs", wrong, 400)


def records(chance, _):
    record = chance.choice([15, 257, -1, 0, 16.0, 16.5, "16", None, True, [16], {}, 10**400, 2**63, float("nan"), float("inf")])
    return post("/programs", {"name": "bad", "text": GOOD, "record": record}, 400)


def names(chance, _):
    name = chance.choice([
        "", "-x", "--html=/tmp/x", "--help", "../../x", "a b", "a\n", "a\x00", "\ud800", "é", "n" * 65, "n" * 300_000, 7, None, True,
        ["a"], {}])
    return post("/programs", {"name": name, "text": GOOD}, 400)


def taken(chance, programs):
    """Another program under the name of an honest client's one."""
    changed = chance.choice([{"text": "mov r0, 9\nexit"}, {"code": "95" + "00" * 7}, {"text": GOOD, "record": 256}])
    return post("/programs", {"name": chance.choice(programs), **changed}, 409, 422)


def fill(chance, _):
    """Accepted programs under many names, some with lines that no script has."""
    number = chance.randrange(400)
    text = chance.choice(["", " " * 90_000 + "\n", "\n" * 70_000]) + f"mov r0, {number}\nexit"
    if chance.random() < 0.5:
        return post("/programs", {"name": f"fill{number}", "text": text}, 200, 201, 403, 409)
    return post("/runs", {"program": f"fill{number}"}, 200, 404)


def heavy(chance, _):
    if chance.random() < 0.2:
        return post("/programs", {"name": "heavy", "text": HEAVY}, 200, 201)
    # It is ended by time; a client that has gone before ends it, too.
    asked = post("/runs", {"program": "heavy"}, 503, 404)
    return asked._replace(statuses=(), ending="cut") if chance.random() < 0.5 else asked


def vertices(chance, _):
    wrong = chance.choice([-1, 300, 2**32, 2**31, -2**63, -2**31, 1_048_576])
    edge = chance.choice([[wrong, 0], [0, wrong], [wrong, wrong]])
    edges = [[1, 2]] * chance.randrange(40) + [edge] + [[3, 4]] * chance.randrange(40)
    return post("/batches", {"edits": edges}, 422)


def edges_of_kinds(chance, _):
    wrong = chance.choice([1.0, 1.5, "1", None, True, False, [1], [], {}, 2**64, -2**64, 10**300, float("nan"), float("inf"), -0.0])
    edges = chance.choice([
        [[1, 2], [0, wrong]], [[wrong, 1], [1, 1]], [[0]], [[0, 1, 2]], [[0, 1, 1, 1]], [0, 1], ["ab"], "ab", {"0": 1}, 5, None, True, [None],
        [[[0, 1]]], [[]]])
    return post("/batches", {"edits": edges}, 400, 422)


def batch_shapes(chance, _):
    body, *statuses = chance.choice([
        (b"", 400), (b"{", 400), (b"[]", 400), (b"5", 400), (b'"x"', 400), (b"null", 400), (b"\xff\xfe", 400), (b"[" * 100_000, 400),
        (b"NaN", 400), (b'{"a":' * 50_000, 400), (b'{"edits":' + b"[" * 900 + b"]" * 900 + b"}", 400),
        (b'{"edits":[[' + b"9" * 5_000 + b",1]]}", 400), (b'{"edits":[],"feed":"E"}', 400), (b"{}", 400), (b'{"edits":[[1,1]],"edits":7}', 400),
        (json.dumps({"edits": [[0, 1]] * 65_537}).encode(), 422), (b" " * (5 << 20), 413, CLOSED), (b"{}" + b" " * (4 << 20), 413, CLOSED)])
    return post("/batches", body, *statuses)


def run_words(chance, programs):
    wrong = chance.choice([
        {"argument": "zz"}, {"argument": 5}, {"argument": None}, {"argument": []}, {"reduction": "mean"}, {"reduction": []},
        {"reduction": None}, {"frontier": "ab"}, {"frontier": {}}, {"frontier": 5},
        {"frontier": [0.5]}, {"frontier": [[0]]}, {"frontier": [False, 1]}, {"frontier": ["1"]}, {"frontier": [None]},
        {"frontier": [2**64]}, {"frontier": [float("nan")]}])
    return post(chance.choice(["/runs", "/runs?format=bytes", "/runs?format=%00"]), {"program": chance.choice(programs), **wrong}, 400, 422)


def run_outside(chance, programs):
    """Arguments of wrong lengths for an honest client's program, and vertices out of range."""
    wrong = chance.choice([{"argument": "00" * chance.choice([1, 7, 9, 240, 9_999])}, {"frontier": [299, 300]}])
    return post("/runs", {"program": chance.choice(programs), **wrong}, 422)


def columns(chance, _):
    body = chance.choice([b"", b"\0" * 8, b"\0" * 2_392, b"\0" * 2_408, b"\0" * (1 << 20)])
    path = chance.choice(["/columns/risk", "/columns/-", "/columns/" + "n" * 65, "/columns/..%2f..%2fx"])
    return raw(request("PUT", path, body, "Content-Type: application/octet-stream\r\n"), 400, 404, 422)


def steps(chance, _):
    wrong = chance.choice([{}, {"vertices": 1}, {"vertices": [300]}, {"vertices": [0], "steps": -1}, {"vertices": [0], "steps": 10**9},
                           {"vertices": [0], "limit": "x"}, {"vertices": [0.5]}, {"vertices": [0], "depth": 2}])
    return post("/expand", wrong, 400, 422)


def run_nothing(chance, _):
    name = chance.choice(["none", "", "../x", "p0", "v0", "\ud800", "n" * 200_000])
    return post("/runs", {"program": name}, 400, 404)


def paths(chance, _):
    path, *statuses = chance.choice([
        ("/neighbours/300", 422), ("/neighbours/" + "9" * 5_000, 400), ("/neighbours/-1", 400), ("/neighbours/%d9%a1", 400),
        ("/neighbours/0/0", 404), ("/neighbours/", 404), ("/neighbours/1.5", 400), ("/versions/99", 404), ("/../../../etc/passwd", 404),
        ("/%2e%2e/server.py", 404), ("/..%2f..%2fserver.py", 404), ("//etc/passwd", 404), ("/page.html", 404), ("/server.py", 404),
        ("/" + "a" * 9_000, 400), ("*", 404),
        ("http://[::1", CLOSED), ("/\x00", 400, 404), ("/metrics/../server.py", 404), ("/neighbours/%zz", 400, 404), ("/watch?program=none", 404),
        ("/watch?program=" + "n" * 2_000, 400), ("/changes?after=-1", 400), ("/edges?version=9999999", 410), ("/columns/none", 404)])
    return raw(request("GET", path), *statuses)


def methods(chance, _):
    method = chance.choice(["PUT", "DELETE", "PATCH", "TRACE", "OPTIONS", "CONNECT"])
    path = chance.choice(["/batches", "/runs", "/neighbours/0", "/"])
    return raw(request(method, path, b'{"edits": [[7, 7]]}'), 400, 404, 405, CLOSED)


def lengths(chance, _):
    length = chance.choice(["-5", "x", "9" * 25, "2\r\nContent-Length: 5", "0x10", "1 2", "+3", ""])
    return raw(f"POST /batches HTTP/1.1\r\nHost: localhost\r\nContent-Length: {length}\r\n\r\n{{}}".encode(), 400, CLOSED)


def short_length(chance, _):
    """A body that is longer than its length says: the rest must not be taken for a request."""
    body = b'{"edits": [[7, 7]], "more"'
    return raw(request("POST", "/batches", body) + b": []}" + request("POST", "/batches", b'{"edits": [[8, 8]]}'), 400, CLOSED)


def wire(chance, _):
    data = chance.choice([
        b"\x16\x03\x01\x02\x00\x01\x00\x01\xfc\x03\x03\r\n\r\n", b"\r\n\r\n\x00\r\n\r\n", b"GET\r\n\r\n",
        b"GET / HTTP/1.1\r\nA: " + b"a" * 20_000 + b"\r\n\r\n",
        b"POST /batches HTTP/1.1\r\nHost: localhost\r\nTransfer-Encoding: chunked\r\n\r\nzz\r\n{}",
        b"POST /batches HTTP/1.1\r\nHost: localhost\r\nTransfer-Encoding: chunked\r\nContent-Length: 3\r\n\r\n2\r\n{}\r\n0\r\n\r\n",
        b"GET / HTTP/1.1\r\n" + b"".join(b"A%d: x\r\n" % number for number in range(40_000)) + b"\r\n"])
    return raw(data, 400, CLOSED)


def heads(chance, _):
    words, body, *statuses = chance.choice([
        ("Content-Encoding: deflate\r\n", zlib.compress(b" " * (8 << 20)), 415), ("Content-Encoding: gzip\r\n", b"x", 415),
        ("Content-Type: application/json; charset=nonsense\r\n", b"[]", 400), ("Content-Type: text/plain; charset=zlib\r\n", b"[]", 415),
        ("", b'{"edits": [[7, 7]]}', 415), ("Content-Type: application/octet-stream\r\n", b'{"edits": [[7, 7]]}'[:15], 400),
        ("Origin: http://elsewhere.example\r\n", b'{"edits": [[7, 7]]}', 403), ("Origin: null\r\n", b'{"edits": [[7, 7]]}', 403),
        ("Expect: nothing\r\n", b"{}", 417)])
    return raw(request("POST", "/batches", body, words), *statuses)


def pipelined(chance, _):
    return raw(request("GET", "/none") * chance.randrange(2, 3_000), 404, CLOSED)


def endings(chance, programs):
    """Requests that are cut off before their last byte, or come byte by byte, and connections that are left open."""
    body = json.dumps({"edits": [[chance.randrange(300), 7] for _ in range(chance.randrange(1, 400))]}).encode()
    whole = request("POST", "/batches", body)
    ending = chance.choice(["cut", "slow", "hold", "unread", "watched"])
    if ending == "watched":
        # Its events are never read.
        return Attack(request("GET", f"/watch?program={chance.choice(programs)}"), (), "hold")
    if ending == "unread":
        return Attack(request("POST", "/runs", json.dumps({"program": chance.choice(programs)}).encode()), (), "hold")
    return Attack(whole[:chance.randrange(len(whole))], (), ending)


ATTACKS = [
    refused, no_text, code_length, random_code, forms, records, names, taken, fill, heavy, vertices, edges_of_kinds, batch_shapes,
    run_words, run_outside, run_nothing, paths, methods, lengths, short_length, wire, heads, pipelined, endings, columns, steps, explained, brought, around,
]

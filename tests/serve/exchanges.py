"""What is sent by one connection, the answers that come, whether these have the form of answers, and what a log may say, for fuzz_requests.py."""
import contextlib
import json
import re
import socket
import struct
import time
import typing

from harness import require

JSON, BYTES, LINES, EVENTS = "application/json", "application/octet-stream", "application/x-ndjson", "text/event-stream"
CLOSED, REFUSED = "closed", "refused"
# What may answer bytes that are no request of a route.
COMMON = {400, 401, 403, 404, 405, 408, 411, 413, 414, 415, 417, 431, 501, 505}
STATUS = re.compile(rb"HTTP/\d\.\d (\d{3}) [ -~]+\r\n((?:[!#-'*+.^_`|~0-9A-Za-z-]+: [^\r\n\0]*\r\n)*)\r\n")
HEAD = re.compile(rb"(GET|POST|PUT|DELETE) (/[!-\"$&-~]*) HTTP/1\.1\r\n((?:[A-Za-z-]+: [!-~][ -~]*\r\n)*)\r\n")
SIZE, CHUNK = re.compile(rb"([0-9a-f]{1,5})\r\n"), re.compile(rb"\r?\n[0-9a-fA-F]+[^\r\n]*\r?\n")
# How long a line of a head may be, and the heads by which a request may be clear, each once.
MOST_LINE = 8_000
CLEAR_HEADS = {"host", "content-type", "content-length", "transfer-encoding", "authorization", "idempotency-key", "last-event-id"}
ERROR_FIELDS = {"error": str, "words": str, "cause": int, "unit": int, "line": int}
ASK_AGAIN = (429, 503, 507)
# The lines of a log that are no news here.
EXPECTED = {"serves", "ends", "ended", "snapshot", "slow request"}
TRACE = re.compile(r"(?m)^(?:[^\n{ ][^\n]*\n)*?Traceback \(most recent call last\):\n(?: [^\n]*\n|\n)*[^\n ][^\n]*\n")
# aiohttp's own errors are about bytes that are no HTTP, and those of yarl about addresses that are none.
OF_HTTP = re.compile(r"(?s).*(\naiohttp\.(http_exceptions|web_protocol)\.[^\n]*|protocol\.data_received\(\) call failed.*/yarl/.*\nValueError:[^\n]*)\n$")
# Each connection has to end within so many seconds, a stream of events is left after so many without one, and so many are between two pieces.
WAIT, STREAM_WAIT, PAUSE = 20, 0.2, 0.002
# By its answer a client sees that its requests are at an end.
LAST = b"GET /healthz HTTP/1.1\r\nHost: localhost\r\nConnection: close\r\n\r\n"


class Outcome:
    """What became of a connection."""

    def __init__(self, asked, sent):
        self.asked, self.sent, self.ending, self.data, self.answers = asked, sent, "", b"", []
        self.requests = clear_requests(sent)


def exchange(port, asked, words):
    """Sends pieces by a connection of their own, and reads until it ends. words: by what some of theirs are replaced."""
    sent = asked.pieces
    for word, value in words.items():
        sent = [piece.replace(word.encode(), value.encode()) for piece in sent]
    outcome = Outcome(asked, b"".join(sent))
    try:
        with socket.create_connection(("127.0.0.1", port), timeout=WAIT) as connection:
            connection.setsockopt(socket.IPPROTO_TCP, socket.TCP_NODELAY, 1)
            # A service that refuses a long body may close before it has all.
            with contextlib.suppress(ConnectionError):
                for piece in sent:
                    connection.sendall(piece)
                    time.sleep(PAUSE)
                connection.sendall(b"" if asked.leaves else LAST)
            if asked.leaves:
                outcome.ending = "left"
            else:
                received(outcome, connection)
    except ConnectionError as error:
        outcome.ending = outcome.ending or (REFUSED if isinstance(error, ConnectionRefusedError) else CLOSED)
    except TimeoutError:
        outcome.ending = "endless"
    return outcome


def received(outcome, connection):
    """Reads until the service closes, or a stream has no event for a while."""
    while True:
        try:
            part = connection.recv(1 << 18)
        except TimeoutError:
            if connection.gettimeout() == WAIT:
                raise
            outcome.ending = "stream"
            return
        outcome.data += part
        if not part:
            outcome.ending = CLOSED
            return
        if b"\r\nContent-Type: text/event-stream" in outcome.data:
            connection.settimeout(STREAM_WAIT)


class Answer(typing.NamedTuple):
    """`ending` is "whole", "cut" if the connection ended before its body, and "stream" for events without an end."""

    status: int
    heads: dict
    body: bytes
    ending: str


class Clear(typing.NamedTuple):
    """A request that can be read in one way only."""

    method: str
    path: str
    heads: dict
    body: bytes

    def route_in(self, statuses):
        """The route that it asks for; None if there is none."""
        for route in statuses:
            method, path = route.split(" ")
            if method == self.method and re.fullmatch(re.sub(r"\\{\w+\\}", "[^/]+", re.escape(path)), self.path.partition("?")[0]):
                return route
        return None


def heads_of(text):
    lines = [line.split(b": ", 1) for line in text.split(b"\r\n")[:-1]]
    return [(name.decode().lower(), value.decode("latin-1")) for name, value in lines]


def answers_in(data, may_be_bare):
    """All answers but those that only say to go on. may_be_bare: an answer to HEAD may be among them, which has no body."""
    found, place = [], 0
    while place < len(data):
        matched = STATUS.match(data, place)
        require(matched, "this is no answer of HTTP:", data[place:place + 200])
        heads, status, place = dict(heads_of(matched[2])), int(matched[1]), matched.end()
        if status < 200:
            continue
        if may_be_bare and data[place:place + 5] in (b"", b"HTTP/"):
            found.append(Answer(status, heads, b"", "whole"))
            continue
        body, place, is_whole = body_at(data, place, heads)
        stream = heads.get("content-type", "").startswith(EVENTS)
        found.append(Answer(status, heads, body, "stream" if stream else "whole" if is_whole else "cut"))
    return found


def body_at(data, place, heads):
    """A body, where it ends, and whether it is whole."""
    if heads.get("transfer-encoding") == "chunked":
        body, place, is_whole = chunks_at(data, place)
        return body, place if is_whole else len(data), is_whole
    end = place + int(heads.get("content-length", len(data) - place))
    return data[place:end], end, end <= len(data)


def chunks_at(data, place):
    body = b""
    while matched := SIZE.match(data, place):
        size, place = int(matched[1], 16), matched.end()
        if data[place + size:place + size + 2] != b"\r\n":
            break
        body += data[place:place + size]
        place += size + 2
        if not size:
            return body, place, True
    return body, place, False


def look_at(answer):
    """Looks at the form of an answer."""
    media = answer.heads.get("content-type", "").partition(";")[0]
    if answer.ending == "cut":
        require(answer.heads.get("transfer-encoding") == "chunked" and answer.status == 200, "an answer is cut off:", answer.status, answer.body[:200])
    elif answer.status >= 400:
        look_at_error(answer, media)
    elif media == JSON:
        told_by(answer.body)
    elif media == LINES:
        lines = answer.body.splitlines()
        require(lines and isinstance([told_by(line) for line in lines][-1], dict), "the last line is no object:", answer.body[-200:])


def look_at_error(answer, media):
    told = told_by(answer.body) if media == JSON and (answer.body or answer.status != 405) else None
    if answer.status == 405 and told is None:
        return
    is_form = isinstance(told, dict) and {"error", "words"} <= set(told) <= set(ERROR_FIELDS)
    require(is_form and all(isinstance(told[name], ERROR_FIELDS[name]) for name in told), f"an error {answer.status} of another form:", answer.body[:200])
    is_later = answer.status in ASK_AGAIN and told["error"] != "TookTooLong"
    for name, is_wanted in (("retry-after", is_later), ("www-authenticate", answer.status == 401), ("allow", answer.status == 405)):
        require((name in answer.heads) == is_wanted, f"an error {answer.status} {'has no' if is_wanted else 'has'} {name}:", answer.body[:200])


def told_by(body):
    try:
        return json.loads(body)
    except ValueError:
        require(False, "this is no JSON:", body[:200])


def clear_requests(data):
    """The requests of some bytes, if these can be read in one way only; else None."""
    found, place = [], 0
    while place < len(data):
        matched = HEAD.match(data, place)
        if not matched or max(map(len, matched[0].split(b"\r\n"))) > MOST_LINE:
            return None
        heads, place = heads_of(matched[3]), matched.end()
        named = dict(heads)
        if len(named) < len(heads) or not CLEAR_HEADS >= set(named):
            return None
        length, coding = named.get("content-length", "0"), named.get("transfer-encoding")
        if coding not in (None, "chunked") or coding and "content-length" in named or not re.fullmatch("[0-9]{1,6}", length):
            return None
        body, end, is_whole = chunks_at(data, place) if coding else (data[place:place + int(length)], place + int(length), place + int(length) <= len(data))
        if not is_whole:
            return None
        found.append(Clear(matched[1].decode(), matched[2].decode(), named, body))
        place = end
    return found


def allowed(statuses, asked):
    """The statuses that may answer a clear request."""
    route = asked.route_in(statuses)
    if route is not None:
        return statuses[route]
    is_path = any(asked._replace(method=method).route_in(statuses) for method in ("GET", "POST", "PUT", "DELETE"))
    return {405} if is_path else {404}


def batch_in(outcome):
    """What was answered to each batch that was taken, and its edits if the request is clear."""
    is_clear = outcome.requests is not None and len(outcome.requests) == len(outcome.answers)
    for place, answer in enumerate(outcome.answers):
        if answer.status == 200 and answer.body.startswith(b'{"version":') and b'"new":' in answer.body:
            yield json.loads(answer.body), edits_of(outcome.requests[place]) if is_clear else None


def edits_of(asked):
    """The edits of a clear request that was taken, as (source, target, whether it takes the edge out)."""
    if asked.heads["content-type"].partition(";")[0].strip().lower() == BYTES:
        return [(u & 0x7FFFFFFF, v, u >> 31) for u, v in struct.iter_unpack("<2I", asked.body)]
    return [(u, v, *(mark or [0])) for u, v, *mark in json.loads(asked.body)["edits"]]


def holds(data, edits):
    """Whether some bytes have a batch, as bytes or as JSON that is whole."""
    packed = b"".join(struct.pack("<2I", u | mark << 31, v) for u, v, mark in edits)
    for text in (data, CHUNK.sub(b"", data)):
        # JSON may be UTF-16.
        if packed in text or any(edits in batches_in(one.decode("latin-1")) for one in (text, text.replace(b"\0", b""))):
            return True
    return False


def batches_in(text):
    """All batches that stand in a text as JSON."""
    found = []
    for place in re.finditer(r"\{", text):
        try:
            told = json.JSONDecoder().raw_decode(text, place.start())[0]
            found.append([(u, v, *(mark or [0])) for u, v, *mark in told["edits"]])
        except (ValueError, KeyError, TypeError, RecursionError):
            pass
    return found


def bad_lines(text):
    """What of a log is neither a line of the service that is no news, nor an error of aiohttp about bytes that are no HTTP."""
    bad = [found[0] for found in TRACE.finditer(text) if not OF_HTTP.match(found[0])]
    for line in TRACE.sub("", text).splitlines():
        try:
            is_expected = json.loads(line)["what"] in EXPECTED
        except (ValueError, KeyError, TypeError):
            is_expected = False
        bad += [] if is_expected else [line]
    return bad

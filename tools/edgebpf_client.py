"""A client of edgebpf-serve. It needs nothing but Python.

    from edgebpf_client import Client

    graph = Client("http://127.0.0.1:8080", token="..")
    graph.batch([(0, 1), (0, 2)])                      # under an id of its own: it takes effect once, whatever happens
    graph.program("target", "ldxw r0, [r1+4]\\nexit")
    graph.run("target", frontier=[0, 1])               # {"version": 1, "edges": 2, "total": 3, "values": [3, 0]}
    for event in graph.watch("target"):                # an Event for each group of batches
        print(event.version, event.rows)
"""
import argparse
import array
import http.client
import json
import operator
import os
import pathlib
import random
import socket
import sys
import threading
import time
import typing
import urllib.parse
import uuid

MOST_EDITS = 65_536
# An edit has 32 bits for each vertex, and the highest one of its source takes the edge out.
EDIT_BYTES, REMOVE = 8, 1 << 31
# The greatest number of 64 bits has so many digits.
MOST_DIGITS = 20
# Of a wrong word so many characters are shown.
MOST_SHOWN = 40
JSON, BYTES = "application/json", "application/octet-stream"
# Statuses that ask to come again, and the error among them that would be the same again, after as long a time.
LATER, TOOK_TOO_LONG = (429, 503, 507), "TookTooLong"
FIRST_PAUSE, MOST_PAUSE = 0.1, 5.0


class Error(Exception):
    """The service refused a request: `status`, the `error`'s name, and `words`. Nothing was changed by it."""

    def __init__(self, status, told):
        self.status, self.error, self.words, self.told = status, told.get("error", ""), told.get("words", ""), told
        place = f" at unit {told['unit']}" if "unit" in told else ""
        super().__init__(f"{status} {self.error}{place}: {self.words}")


class NoAnswer(Exception):
    """The service could not be reached, or the connection was lost: whether a change was made is in doubt."""


class Outcome(typing.NamedTuple):
    """What a batch did. `new` is false if the service had it already under its id."""

    version: int
    added: int
    removed: int
    new: bool


class Event(typing.NamedTuple):
    """Rows (vertex, value) of a standing query. `kind` is "rows" for all but those of a vertex without edges, and "changes" for those that
    are not as in version `before`. `id` is where `watch(after=id)` goes on."""

    kind: str
    id: str
    before: int | None
    version: int
    rows: list


class Unix(http.client.HTTPConnection):
    """A connection to a socket of this machine."""

    def __init__(self, path, timeout):
        super().__init__("localhost", timeout=timeout)
        self.path = path

    def connect(self):
        self.sock = socket.socket(socket.AF_UNIX, socket.SOCK_STREAM)
        self.sock.settimeout(self.timeout)
        self.sock.connect(self.path)


class Client:
    """A service at `http://HOST:PORT`, `https://HOST:PORT` or `unix:PATH`. Threads may use it at once: each has its own connection.

    tries: how often a request is sent that got no answer, or 429, 503 or 507. Batches have ids, so that none takes effect twice. A run that took
    longer than it may is not sent again.
    """

    def __init__(self, url, token=None, timeout=60.0, tries=8):
        self.url, self.token, self.timeout, self.tries = url, token, timeout, tries
        self.own = threading.local()
        parts = urllib.parse.urlsplit(url)
        if not url.startswith("unix:") and (parts.scheme not in ("http", "https") or not parts.hostname):
            raise ValueError("url is http://HOST:PORT, https://HOST:PORT or unix:PATH")

    # Changes

    def batch(self, edits, key=None):
        """Edits in their order: (source, target), or (source, target, 1) to take the edge out; or bytes as the service takes them. A long
        list goes as several batches of 65,536. Returns the `Outcome` of each. key: the id, to which each further batch adds its number."""
        data = bytes(edits) if isinstance(edits, (bytes, bytearray, memoryview)) else packed_edits(edits)
        key, size = key or uuid.uuid4().hex, EDIT_BYTES * MOST_EDITS
        parts = [data[place:place + size] for place in range(0, len(data), size)] or [b""]
        return [self._batch(part, key if number == 0 else f"{key}-{number}") for number, part in enumerate(parts)]

    def _batch(self, data, key):
        return Outcome(**self.json("POST", "/batches", data, {"Idempotency-Key": key}))

    def program(self, name, text=None, *, code=None, record=16, table=b""):
        """Keeps a program, as text (lines, or one text) or as code, and returns what the verifier says of it."""
        return self.json("POST", "/programs", {"name": name, **brought(text, code, record, table)})

    def explain(self, text=None, *, code=None, record=16, table=b""):
        """What the verifier says of a program, which is not kept: `explanation` has its state before each instruction."""
        return self.json("POST", "/explain", brought(text, code, record, table))

    def drop_program(self, name):
        return self.json("DELETE", f"/programs/{quoted(name)}")

    def column(self, name, numbers):
        """Puts a number for each vertex: a list, or an array of numpy or `array` with 64-bit numbers."""
        return self.json("PUT", f"/columns/{quoted(name)}", packed_column(numbers))

    def drop_column(self, name):
        return self.json("DELETE", f"/columns/{quoted(name)}")

    def snapshot(self):
        return self.json("POST", "/snapshots")["snapshot"]

    # Reads

    def run(self, program, reduction="sum", frontier=None, argument=b"", **more):
        """A run over a frontier, or all vertices. program: the name of a kept one, or `brought` one. more: columns (names), version."""
        asked = {**named(program), "reduction": reduction, "frontier": listed(frontier, "frontier"), "argument": digits_of(argument, "argument")}
        return self._ask("/runs", asked, **more)

    def numbers(self, program, frontier, argument=b"", **more):
        """The number of each edge of a frontier: `starts`, `targets` and `numbers`."""
        asked = {**named(program), "frontier": listed(frontier, "frontier"), "argument": digits_of(argument, "argument")}
        return self._ask("/numbers", asked, **more)

    def pairs(self, program, pairs, argument=b"", **more):
        """The number of each pair, which need not be an edge."""
        asked = {**named(program), "pairs": [listed(pair, "pairs") for pair in pairs], "argument": digits_of(argument, "argument")}
        return self._ask("/pairs", asked, **more)

    def _ask(self, path, asked, columns=(), version=None):
        return self.json("POST", path + ("" if version is None else f"?version={version}"), {**asked, "columns": names_of(columns)})

    def neighbours(self, vertex, direction="out", version=None):
        """All targets of a vertex, page by page; its sources by direction "in"."""
        number, found, query = whole(vertex, "vertex"), [], {"direction": direction} | ({} if version is None else {"version": version})
        while True:
            page = self.json("GET", f"/neighbours/{number}?{urllib.parse.urlencode(query)}")
            found += page["neighbours"]
            if "next" not in page:
                return found
            # All pages are of the first one's version.
            query |= {"after": page["next"], "version": page["version"]}

    def around(self, vertex, steps=1, limit=24, version=None):
        """The nearest vertices that are reached from one, the edges between them, and their degrees."""
        query = {"steps": steps, "limit": limit} | ({} if version is None else {"version": version})
        return self.json("GET", f"/around/{whole(vertex, 'vertex')}?{urllib.parse.urlencode(query)}")

    def expand(self, vertices, steps=1, limit=10_000, version=None):
        path = "/expand" + ("" if version is None else f"?version={version}")
        return self.json("POST", path, {"vertices": listed(vertices, "vertices"), "steps": steps, "limit": limit})

    def edges(self, version=None):
        """All edges: (version, starts, targets), two arrays; those of vertex `u` are `targets[starts[u]:starts[u + 1]]`."""
        heads, data = self.ask("GET", "/edges" + ("" if version is None else f"?version={version}"))
        end = 8 * (int(heads["X-Vertices"]) + 1)
        return int(heads["X-Version"]), unpacked(data[:end], "Q"), unpacked(data[end:], "I")

    def changes(self, after):
        """The batches after a version: (version, edits), each."""
        _, data = self.ask("GET", f"/changes?after={after}")
        lines = [json.loads(line) for line in data.splitlines()]
        if not lines or "edits" in lines[-1]:
            raise NoAnswer("the answer was cut off")
        return [(line["version"], line["edits"]) for line in lines[:-1]]

    def status(self):
        return self.json("GET", "/healthz")

    def watch(self, program, reduction="sum", argument=b"", columns=(), after=None, waits=None):
        """Events without end: all rows, then what batches changed. It connects again after a lost connection, and goes on where it was. Only a
        first connection is tried no more than `tries` times. waits: is called with the error of the first try of each time without a service."""
        given = {"argument": digits_of(argument, "argument"), "columns": ",".join(names_of(columns))}
        query = {"program": program, "reduction": reduction, **given}
        reach, pause = Reach(self.tries, waits), FIRST_PAUSE
        while True:
            try:
                for event in self._events(f"/watch?{urllib.parse.urlencode(query)}", after, reach.begins):
                    after, pause = event.id, FIRST_PAUSE
                    yield event
            except (OSError, http.client.HTTPException) as error:
                reach.fails(no_answer(error))
            except Error as error:
                if error.status not in LATER:
                    raise
                reach.fails(error)
            time.sleep(pause * random.uniform(0.5, 1.0))
            pause = min(2 * pause, MOST_PAUSE)

    def _events(self, path, after, begins=lambda: None):
        """The events of one connection. `begins` is called once the service has answered that they come."""
        connection = self._connection()
        try:
            heads = self._heads(None, {"Accept": "text/event-stream", **({"Last-Event-ID": after} if after else {})})
            connection.request("GET", path, headers=heads)
            answer = connection.getresponse()
            if answer.status != 200:
                raise Error(answer.status, told_by(answer.read()))
            begins()
            yield from events_of(answer)
        finally:
            connection.close()

    # Requests

    def json(self, method, path, body=None, heads={}):
        return json.loads(self.ask(method, path, body, heads)[1])

    def ask(self, method, path, body=None, heads={}):
        """Sends a request until it is answered, as often as it may, and returns the answer's heads and body."""
        pause = FIRST_PAUSE
        for left in range(self.tries - 1, -1, -1):
            try:
                return self.once(method, path, body, heads)
            except NoAnswer:
                if not left:
                    raise
            except Error as error:
                if not left or error.status not in LATER or error.error == TOOK_TOO_LONG:
                    raise
            time.sleep(pause * random.uniform(0.5, 1.0))
            pause = min(2 * pause, MOST_PAUSE)

    def once(self, method, path, body=None, heads={}):
        """Sends a request once."""
        data = body if body is None or isinstance(body, bytes) else json.dumps(body).encode()
        connection = getattr(self.own, "connection", None) or self._connection()
        self.own.connection = connection
        try:
            connection.request(method, path, data, self._heads(body, heads))
            answer = connection.getresponse()
            content = answer.read()
        except (OSError, http.client.HTTPException) as error:
            connection.close()
            self.own.connection = None
            raise no_answer(error) from None
        if answer.status >= 300:
            raise Error(answer.status, told_by(content))
        return answer.headers, content

    def _heads(self, body, heads):
        given = {} if body is None else {"Content-Type": BYTES if isinstance(body, bytes) else JSON}
        return {**given, **({"Authorization": f"Bearer {self.token}"} if self.token else {}), **heads}

    def _connection(self):
        if self.url.startswith("unix:"):
            return Unix(self.url.removeprefix("unix:"), self.timeout)
        parts = urllib.parse.urlsplit(self.url)
        kind = http.client.HTTPSConnection if parts.scheme == "https" else http.client.HTTPConnection
        return kind(parts.hostname, parts.port, timeout=self.timeout)

    def close(self):
        """Closes this thread's connection."""
        if getattr(self.own, "connection", None) is not None:
            self.own.connection.close()
            self.own.connection = None

    def __enter__(self):
        return self

    def __exit__(self, *_):
        self.close()


class Reach:
    """How long a watch waits for its service: `tries` times if it was never there, and else without end. `waits` is called once each time."""

    def __init__(self, tries, waits):
        self.left, self.waits, self.is_away = tries, waits, False

    def begins(self):
        self.left, self.is_away = None, False

    def fails(self, error):
        if self.left is not None:
            self.left -= 1
            if self.left <= 0:
                raise error from None
        if self.waits is not None and not self.is_away:
            self.waits(error)
        self.is_away = True


def no_answer(error):
    """What a request raises for an error of its connection."""
    return NoAnswer(f"{type(error).__name__}: {error}")


def brought(text=None, code=None, record=16, table=b""):
    """A program that goes with a request, as text (lines, or one text) or as code. `run`, `numbers` and `pairs` take it in place of a name."""
    form = {"text": text} if code is None else {"code": digits_of(code, "code")}
    return {**form, "record": record, "table": digits_of(table, "table")}


def named(program):
    return program if isinstance(program, dict) else {"program": program}


def quoted(name):
    return urllib.parse.quote(str(name), safe="")


def names_of(columns):
    """The names of columns. One name by itself would be taken for those of its letters."""
    if isinstance(columns, str):
        raise TypeError("columns are a list of names, not a str")
    return list(columns)


def whole(number, name):
    """A number that is whole by its type. `name` is what the caller calls it."""
    try:
        return operator.index(number)
    except TypeError:
        raise TypeError(f"{name}: a whole number is wanted, not {type(number).__name__}") from None


def digits_of(data, name):
    """The bytes of an argument, a code or a table as hexadecimal digits."""
    try:
        return memoryview(data).tobytes().hex()
    except TypeError:
        raise TypeError(f"{name} is bytes, not {type(data).__name__}") from None


def words_of(numbers, kind, name):
    """An array of whole numbers of 32 or 64 bits."""
    try:
        return array.array(kind, numbers)
    except TypeError:
        raise TypeError(f"{name} are whole numbers") from None
    except OverflowError:
        raise ValueError(f"{name}: a number is not from 0 to 2^{32 if kind == 'I' else 64} - 1") from None


def packed(words):
    """The bytes of an array, the lowest byte of each number first."""
    if sys.byteorder == "big":
        words.byteswap()
    return words.tobytes()


def packed_edits(edits):
    """Edits as bytes."""
    edits = list(edits)
    if not all(2 <= len(edit) <= 3 for edit in edits):
        raise ValueError("edits: each is a source, a target, and 1 if the edge is taken out")
    sources, targets = (words_of([edit[end] for edit in edits], "I", "the vertices of edits") for end in (0, 1))
    if edits and max(sources) >= REMOVE:
        raise ValueError(f"edits: the vertex {max(sources)} is not below 2^31")
    for place, edit in enumerate(edits):
        if len(edit) == 3 and edit[2]:
            if edit[2] != 1:
                raise ValueError("edits: the third number of an edit is 0 or 1")
            sources[place] |= REMOVE
    words = array.array("I", bytes(EDIT_BYTES * len(edits)))
    words[0::2], words[1::2] = sources, targets
    return packed(words)


def packed_column(numbers):
    """A column as bytes. An array of numpy gives them all at once."""
    if not hasattr(numbers, "astype"):
        return packed(words_of(numbers, "Q", "numbers"))
    if numbers.dtype.kind not in "biu":
        raise TypeError(f"numbers are whole numbers, not {numbers.dtype}")
    if numbers.size and numbers.min() < 0:
        raise ValueError("numbers: a number is not from 0 to 2^64 - 1")
    return numbers.astype("<u8").tobytes()


def unpacked(data, kind):
    numbers = array.array(kind)
    numbers.frombytes(data)
    if sys.byteorder == "big":
        numbers.byteswap()
    return numbers


def listed(numbers, name):
    """A list of whole numbers, also of an array. `name` is what the caller calls it."""
    return numbers if numbers is None else [whole(number, name) for number in numbers]


def told_by(content):
    """What an answer that is an error says."""
    try:
        told = json.loads(content)
    except ValueError:
        told = None
    return told if isinstance(told, dict) else {"words": content[:300].decode(errors="replace")}


def events_of(lines):
    """The events of a stream, each of which ends with an empty line. One that was cut off is none."""
    kind, number, data = "", "", []
    for line in lines:
        name, _, value = line.decode().rstrip("\r\n").partition(": ")
        if name == "event":
            kind = value
        elif name == "id":
            number = value
        elif name == "data":
            data.append(value)
        elif not name:
            if kind in ("rows", "changes"):
                told = json.loads("\n".join(data))
                yield Event(kind, number, told.get("from"), told["version"], [tuple(row) for row in told["rows"]])
            elif kind == "error":
                raise Error(422, json.loads("\n".join(data)))
            elif kind == "end":
                return
            kind, data = "", []


# The command `edgebpf-client`.

HELP = """talks to edgebpf-serve

  edgebpf-client status
  edgebpf-client batch < EDITS          lines of `SOURCE TARGET`, or `- SOURCE TARGET` to take the edge out
  edgebpf-client program NAME FILE      a text of the assembler
  edgebpf-client run NAME [VERTEX ..]   lines of `VERTEX VALUE`
  edgebpf-client numbers NAME VERTEX .. lines of `SOURCE TARGET NUMBER`
  edgebpf-client pairs NAME < PAIRS     lines of `SOURCE TARGET NUMBER`
  edgebpf-client neighbours VERTEX
  edgebpf-client expand STEPS VERTEX ..
  edgebpf-client column NAME < NUMBERS  a line for each vertex
  edgebpf-client watch NAME             lines of `VERSION VERTEX VALUE`, without end
  edgebpf-client snapshot; edgebpf-client backup NAME

The service is --url, or EDGEBPF_URL; the token is EDGEBPF_TOKEN."""


def is_whole(word):
    return word.isascii() and word.isdigit() and len(word) <= MOST_DIGITS


def whole_of(word, name):
    """The number that a word is."""
    if not is_whole(word):
        raise ValueError(f"{name} is a whole number, not {word[:MOST_SHOWN]!r}")
    return int(word)


def vertices_of(words):
    return [whole_of(word, "VERTEX") for word in words]


def lines_of_numbers(count, has_marks=False):
    """The numbers of standard input's lines, each so many; an edit may begin with `-`."""
    if sys.stdin is None:
        raise ValueError("standard input is closed")
    found = []
    for number, line in enumerate(sys.stdin, 1):
        words = line.split()
        if not words or words[0].startswith("#"):
            continue
        is_out = has_marks and words[0] == "-"
        words = words[1:] if is_out else words
        if len(words) != count or not all(map(is_whole, words)):
            raise ValueError(f"line {number}: {count} whole {'number is' if count == 1 else 'numbers are'} wanted")
        found.append([*map(int, words), 1] if is_out else [*map(int, words)])
    return found


def command_batch(client, given):
    for outcome in client.batch(lines_of_numbers(2, has_marks=True)):
        print(f"version {outcome.version} added {outcome.added} removed {outcome.removed}")


def command_program(client, given):
    try:
        text = pathlib.Path(given.words[1]).read_text("utf-8")
    except UnicodeDecodeError:
        raise ValueError(f"{given.words[1]} is no text") from None
    told = client.program(given.words[0], text, record=given.record)
    print(f"program {told['name']} bound {told['bound']} frames {told['frames']} asks {told['asks']}")


def asked_of(given):
    try:
        return {"argument": bytes.fromhex(given.argument), "columns": given.column}
    except ValueError:
        raise ValueError("--argument is hexadecimal digits, two for a byte") from None


def command_run(client, given):
    name, *vertices = given.words
    frontier = vertices_of(vertices) or None
    told = client.run(name, given.reduction, frontier, **asked_of(given))
    for vertex, value in zip(frontier or range(len(told["values"])), told["values"]):
        print(vertex, value)
    print(f"version {told['version']} edges {told['edges']} total {told['total']}")


def command_numbers(client, given):
    name, *vertices = given.words
    told = client.numbers(name, vertices_of(vertices), **asked_of(given))
    for place, vertex in enumerate(vertices):
        for edge in range(told["starts"][place], told["starts"][place + 1]):
            print(vertex, told["targets"][edge], told["numbers"][edge])


def command_pairs(client, given):
    pairs = lines_of_numbers(2)
    for (source, target), number in zip(pairs, client.pairs(given.words[0], pairs, **asked_of(given))["numbers"]):
        print(source, target, number)


def command_column(client, given):
    client.column(given.words[0], [number for number, in lines_of_numbers(1)])


def say_waiting(error):
    if sys.stderr is not None:
        print(f"edgebpf-client: waits for the service: {error}", file=sys.stderr, flush=True)


def command_watch(client, given):
    for event in client.watch(given.words[0], given.reduction, **asked_of(given), waits=say_waiting):
        for vertex, value in event.rows:
            print(event.version, vertex, value, flush=True)


def command_expand(client, given):
    steps, *vertices = given.words
    print(*client.expand(vertices_of(vertices), whole_of(steps, "STEPS"))["vertices"])


# Of each the least and the most words that it takes, and what it does.
COMMANDS = {
    "status": (0, 0, lambda client, given: print(*(f"{name} {value}" for name, value in client.status().items()))),
    "batch": (0, 0, command_batch), "program": (2, 2, command_program), "run": (1, None, command_run), "numbers": (2, None, command_numbers),
    "pairs": (1, 1, command_pairs), "neighbours": (1, 1, lambda client, given: print(*client.neighbours(*vertices_of(given.words)))),
    "expand": (2, None, command_expand), "column": (1, 1, command_column), "watch": (1, 1, command_watch),
    "snapshot": (0, 0, lambda client, given: print(f"version {client.snapshot()}")),
    "backup": (1, 1, lambda client, given: print(f"version {client.json('POST', '/backups', {'name': given.words[0]})['version']}")),
}


def perform():
    """Does what the words of the command line say. A fault ends the process with a line."""
    parser = argparse.ArgumentParser("edgebpf-client", description=HELP, formatter_class=argparse.RawDescriptionHelpFormatter)
    parser.add_argument("command", choices=COMMANDS)
    parser.add_argument("words", nargs="*")
    parser.add_argument("--url", default=os.environ.get("EDGEBPF_URL", "http://127.0.0.1:8080"))
    parser.add_argument("--reduction", choices=("sum", "min", "max"), default="sum")
    parser.add_argument("--argument", default="", metavar="HEX")
    parser.add_argument("--column", action="append", default=[], metavar="NAME", help="a column of a run; may be said again")
    parser.add_argument("--record", type=int, default=16, metavar="BYTES", help="the length of a program's record")
    try:
        given = parser.parse_intermixed_args()
    except AttributeError as error:
        # If it is interrupted as it begins, argparse puts this error in the place of the interrupt.
        raise (error.__context__ if isinstance(error.__context__, KeyboardInterrupt) else error) from None
    least, most, call = COMMANDS[given.command]
    if not least <= len(given.words) <= (len(given.words) if most is None else most):
        parser.error(f"{given.command} takes {least} more words{' at least' if most is None else ''}; see --help")
    try:
        with Client(given.url, os.environ.get("EDGEBPF_TOKEN")) as client:
            call(client, given)
        sys.stdout.flush()
    except (Error, NoAnswer, ValueError, OSError) as error:
        if isinstance(error, BrokenPipeError):
            os._exit(1)
        sys.exit(f"edgebpf-client: {error}")


def main():
    try:
        perform()
    except KeyboardInterrupt:
        os._exit(130)


if __name__ == "__main__":
    main()

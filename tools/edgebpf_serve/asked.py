"""What requests ask, tested: an error names the field, and says what belongs there."""
import json
import re

import numpy as np
from aiohttp import web

from edgebpf_serve.limits import EDIT_BYTES, MOST_COLUMNS, MOST_EDITS, MOST_TEXT, REMOVE

NAME, KEY = re.compile(r"[A-Za-z_][A-Za-z0-9_-]{0,63}"), re.compile(r"[!-~]{1,128}")
WHOLE = re.compile(r"[0-9]{1,19}")
START = {"sum": 0, "min": 2**64 - 1, "max": 0}
JSON, BYTES = "application/json", "application/octet-stream"
WORD = 1 << 64


class Unfit(Exception):
    """A request that is understood, and cannot be done: 422."""


def said_media(request):
    """The type that a request says its body has."""
    # What aiohttp has for that takes a third of a millisecond.
    return request.headers.get("Content-Type", "").partition(";")[0].strip().lower()


def media_of(request, *allowed):
    """The type of a request's body. It has to be said: a body of JSON must not be taken for edits."""
    media = said_media(request)
    if media not in allowed:
        raise web.HTTPUnsupportedMediaType(text=f"Content-Type is {' or '.join(allowed)}")
    return media


def look_at_query(request, fields):
    """Raises an error if the query has other fields than these, or one twice: what is misspelt must not be left out in silence."""
    for name in request.query:
        if name not in fields:
            told = f"there are {', '.join(fields)}" if fields else "it has none"
            raise ValueError(f"there is no field {name[:64]!r} in the query; {told}")
        if len(request.query.getall(name)) > 1:
            raise ValueError(f"{name} stands twice in the query")


def object_of(body):
    """The fields of a request's body."""
    try:
        asked = json.loads(body)
    except (ValueError, RecursionError) as error:
        raise ValueError(f"the body is no JSON: {str(error)[:200]}") from None
    if not isinstance(asked, dict):
        raise ValueError("the body is a JSON object")
    return asked


def fields_of(request, body, *names):
    """The fields of a request's body, of which there are no others than these."""
    media_of(request, JSON)
    asked = object_of(body)
    for name in asked:
        if name not in names:
            raise ValueError(f"there is no field {name[:64]!r}; there are {', '.join(names)}")
    return asked


def text_of(asked, name, otherwise=None):
    text = asked.get(name, otherwise)
    if not isinstance(text, str):
        raise ValueError(f"{name} is a text")
    if len(text) > MOST_TEXT:
        raise ValueError(f"{name} has more than {MOST_TEXT} characters")
    return text


def name_of(text, field):
    if not isinstance(text, str) or not NAME.fullmatch(text):
        raise ValueError(f"{field} has 1 to 64 letters, digits, _ and -, and begins with a letter or _")
    return text


def key_of(request):
    """The id of a batch, if it has one."""
    key = request.headers.get("Idempotency-Key")
    if key is not None and not KEY.fullmatch(key):
        raise ValueError("Idempotency-Key has 1 to 128 printable characters without blanks")
    return key


def hex_of(asked, name):
    try:
        return bytes.fromhex(text_of(asked, name, ""))
    except ValueError:
        raise ValueError(f"{name} is hexadecimal digits, two for a byte") from None


def number_of(request, name, otherwise, most):
    """A whole number of a request's query."""
    text = request.query.get(name)
    if text is None:
        return otherwise
    if not WHOLE.fullmatch(text) or int(text) > most:
        raise ValueError(f"{name} is a whole number from 0 to {most}")
    return int(text)


def whole_of(asked, name, otherwise, most):
    """A whole number of a request's body."""
    number = asked.get(name, otherwise)
    if type(number) is not int or not 0 <= number <= most:
        raise ValueError(f"{name} is a whole number from 0 to {most}")
    return number


def choice_of(text, field, choices):
    if not isinstance(text, str) or text not in choices:
        raise ValueError(f"{field} is {' or '.join(choices)}")
    return text


def vertices_of(given, field, count):
    """An array of vertices of a list; None for None."""
    if given is None:
        return None
    if not isinstance(given, list) or any(type(number) is not int for number in given):
        raise ValueError(f"{field} is a list of whole numbers")
    if given and not 0 <= min(given) <= max(given) < count:
        raise Unfit(f"a vertex of {field} is not below {count}")
    return np.array(given, np.uint32)


def pairs_of(given, count):
    """The sources and the targets of a list of pairs."""
    if not isinstance(given, list) or not all(isinstance(pair, list) and len(pair) == 2 for pair in given):
        raise ValueError("pairs is a list of pairs, each of a source and a target")
    return tuple(vertices_of([pair[end] for pair in given], "pairs", count) for end in (0, 1))


def columns_of(asked):
    """The names of a run's columns."""
    given = asked.get("columns", [])
    if not isinstance(given, list) or len(given) > MOST_COLUMNS:
        raise ValueError(f"columns is a list of up to {MOST_COLUMNS} names")
    return [name_of(name, "a name of columns") for name in given]


def numbers_of(given, field):
    """An array of numbers of 64 bits."""
    if not isinstance(given, list) or any(type(number) is not int for number in given):
        raise ValueError(f"{field} is a list of whole numbers")
    if given and not 0 <= min(given) <= max(given) < WORD:
        raise ValueError(f"a number of {field} is not from 0 to 2^64 - 1")
    return np.array(given, np.uint64)


def edits_of(request, body, count):
    """The edits of a batch as pairs of 32-bit numbers, the highest bit of whose source takes the edge out."""
    if media_of(request, JSON, BYTES) == BYTES:
        if len(body) % EDIT_BYTES:
            raise ValueError(f"an edit has {EDIT_BYTES} bytes, and the body {len(body)}")
        edits = np.frombuffer(body, "<u4").reshape(-1, 2)
    else:
        edits = edits_in(fields_of(request, body, "edits"))
    if len(edits) > MOST_EDITS:
        raise Unfit(f"a batch has at most {MOST_EDITS} edits, and not {len(edits)}")
    if len(edits) and max(int((edits[:, 0] & ~np.uint32(REMOVE)).max()), int(edits[:, 1].max())) >= count:
        raise Unfit(f"a vertex of edits is not below {count}")
    return edits


def edits_in(asked):
    given = asked.get("edits")
    if not isinstance(given, list) or not all(isinstance(edit, list) and 2 <= len(edit) <= 3 for edit in given):
        raise ValueError("edits is a list of edits, each of a source, a target, and 1 if the edge is taken out")
    if any(type(number) is not int for edit in given for number in edit):
        raise ValueError("an edit of edits has whole numbers")
    if any(len(edit) == 3 and edit[2] not in (0, 1) for edit in given):
        raise ValueError("the third number of an edit is 0 or 1")
    if any(not 0 <= number < REMOVE for edit in given for number in edit[:2]):
        raise Unfit("a vertex of edits is not in the graph")
    edits = np.array([edit[:2] for edit in given], np.uint32).reshape(-1, 2)
    marks = np.array([len(edit) == 3 and edit[2] == 1 for edit in given], bool)
    edits[:, 0] |= marks.astype(np.uint32) << np.uint32(31)
    return edits

"""Requests with a wrong form: (method, path, body, heads, status, a word of the answer)."""
import pathlib
import struct
import sys

TOP = pathlib.Path(__file__).resolve().parent.parent.parent
sys.path[:0] = [str(TOP / "tools/dev"), str(TOP / "tools/tests")]

import write_limits  # noqa: E402
from limit_scripts import NEXT, lines_of  # noqa: E402

VERTICES = 60
TEXT = {"Content-Type": "text/plain"}


def batch(edits, status=400, word="edit"):
    return "POST", "/batches", {"edits": edits}, {}, status, word


def run(fields, status=400, word="", path="/runs"):
    return "POST", path, {"program": "target", **fields}, {}, status, word


WRONG_FORMS = [
    batch(5), batch([5]), batch([[0]]), batch([[0, 1, 2]]), batch([[0, 1, 1, 1]]), batch([[0.0, 1]]), batch([["0", 1]]), batch([[True, 1]]),
    batch([[0, None]]), batch({}), batch(None), batch([[0, VERTICES]], 422), batch([[-1, 0]], 422), batch([[0, 2**70]], 422),
        ("POST", "/batches", {"edits": [], "feed": "A"}, {}, 400, "feed"), ("POST", "/batches", {}, {}, 400, "edits"),
    ("POST", "/batches", b"\0" * 9, {}, 400, "8 bytes"), ("POST", "/batches", struct.pack("<2I", VERTICES, 0), {}, 422, "edits"),
    ("POST", "/batches", b"{", {"Content-Type": "application/json"}, 400, "JSON"),
    ("POST", "/batches", b"[" * 100_000, {"Content-Type": "application/json"}, 400, "JSON"),
    ("POST", "/batches", b'{"edits": []}', TEXT, 415, "Content-Type"),
    ("POST", "/batches", {"edits": []}, {"Idempotency-Key": "a b"}, 400, "Idempotency-Key"),
    ("POST", "/batches", {"edits": []}, {"Idempotency-Key": "k" * 129}, 400, "Idempotency-Key"),
    ("POST", "/batches", {"edits": []}, {"Content-Encoding": "gzip"}, 415, "Content-Encoding"),
    ("POST", "/batches", {"edits": []}, {"Origin": "http://elsewhere.example"}, 403, "Origin"),
    ("POST", "/batches", {"edits": []}, {"Host": "elsewhere.example:8080"}, 403, "Host"),
    ("GET", "/edges", None, {"Host": "elsewhere.example", "Origin": "http://elsewhere.example"}, 403, "Host"),
    ("GET", "/neighbours/0", None, {"Host": "["}, 400, ""), ("GET", "/neighbours/0", None, {"Host": "10.0.0.1"}, 403, "Host"),
    run({"reduction": "mean"}, 400, "reduction"), run({"frontier": 5}, 400, "frontier"), run({"frontier": [VERTICES]}, 422, "frontier"),
    run({"frontier": [1.0]}, 400, "frontier"), run({"argument": "zz"}, 400, "argument"), run({"argument": "00"}, 422, "argument"),
    run({"columns": "risk"}, 400, "columns"), run({"columns": ["risk"]}, 404, "risk"), run({"columns": ["-"]}, 400, "columns"),
    run({"program": "none"}, 404, "none"), run({"program": 5}, 400, "program"), run({"program": ""}, 400, "program"), run({"vertices": []}, 400, "vertices"),
    run({}, 400, "format", "/runs?format=xml"), run({"frontier": []}, 410, "version 99", "/runs?version=99"),
    run({}, 400, "no field 'verson'", "/runs?verson=0"), run({}, 400, "no field 'program'", "/runs?program=target"),
    run({}, 400, "version stands twice", "/runs?version=0&version=1"), ("GET", "/neighbours/0?limt=1", None, {}, 400, "no field 'limt'"),
    ("GET", "/changes?from=1", None, {}, 400, "no field 'from'"), ("GET", "/watch?program=target&argument=00&column=risk", None, {}, 400, "no field 'column'"),
    ("POST", "/batches?version=1", {"edits": []}, {}, 400, "it has none"), ("POST", "/pairs?program=target&reduction=sum", b"", {}, 400, "'reduction'"),
    ("DELETE", "/programs/target?x", None, {}, 400, "no field 'x'"),
    run({}, 400, "version", "/runs?version=-1"), run({}, 400, "frontier", "/numbers"), run({"pairs": [[0]]}, 400, "pairs", "/pairs"),
    run({"pairs": [[0, VERTICES]]}, 422, "pairs", "/pairs"), run({"pairs": 1}, 400, "pairs", "/pairs"),
    ("POST", "/runs?program=target", b"\0" * 3, {}, 400, "4 bytes"), ("POST", "/pairs?program=target", b"\0" * 4, {}, 400, "8 bytes"),
    ("POST", "/programs", {"name": "x", "text": "exit", "code": ""}, {}, 400, "text or code"), ("POST", "/programs", {"name": "x"}, {}, 400, "text or code"),
    ("POST", "/programs", {"name": "-", "text": "exit"}, {}, 400, "name"), ("POST", "/programs", {"name": "x", "text": 5}, {}, 400, "text"),
    ("POST", "/programs", {"name": "x", "text": "exit", "record": 15}, {}, 400, "record"),
    ("POST", "/programs", {"name": "x", "text": "exit", "record": "16"}, {}, 400, "record"),
    ("POST", "/programs", {"name": "x", "text": "fly r0\nexit"}, {}, 422, "line 1"), ("POST", "/programs", {"name": "x", "text": "ä"}, {}, 400, "ASCII"),
    ("POST", "/programs", {"name": "x", "code": "95"}, {}, 400, "code"), ("POST", "/programs", {"name": "x", "code": "zz"}, {}, 400, "code"),
    ("POST", "/programs", {"name": "x", "text": "mov r0, 1\nexit", "table": "0"}, {}, 400, "table"),
    ("DELETE", "/programs/none", None, {}, 404, "none"), ("GET", "/programs/none", None, {}, 404, "none"),
    ("PUT", "/columns/risk", b"\0" * 8, {}, 422, "column"), ("PUT", "/columns/-", b"\0" * 8 * VERTICES, {}, 400, "name"),
    ("PUT", "/columns/risk", {"numbers": [1]}, {}, 422, "numbers"), ("PUT", "/columns/risk", {"numbers": [2**64] * VERTICES}, {}, 400, "numbers"),
    ("PUT", "/columns/risk", {"numbers": [-1] * VERTICES}, {}, 400, "numbers"), ("PUT", "/columns/risk", {}, {}, 400, "numbers"),
    ("GET", "/columns/risk", None, {}, 404, "risk"), ("DELETE", "/columns/risk", None, {}, 404, "risk"),
    ("GET", f"/neighbours/{VERTICES}", None, {}, 422, "vertex"), ("GET", "/neighbours/x", None, {}, 400, "vertex"),
    ("GET", "/neighbours/" + "9" * 30, None, {}, 400, "vertex"), ("GET", "/neighbours/0?limit=x", None, {}, 400, "limit"),
    ("GET", "/neighbours/0?direction=up", None, {}, 400, "direction"), ("GET", "/neighbours/0?direction=in", None, {}, 422, "--mirror"),
    ("POST", "/explain", {}, {}, 400, "text or code"), ("POST", "/explain", {"text": 5}, {}, 400, "text"),
    ("POST", "/explain", {"name": "x", "text": "exit"}, {}, 400, "name"), ("POST", "/explain", {"text": "exit", "record": 257}, {}, 400, "record"),
    ("POST", "/explain", {"text": "fly r0\nexit"}, {}, 422, "line 1"), ("POST", "/explain", {"code": "95"}, {}, 400, "code"),
    ("POST", "/explain", {"text": "exit", "table": "00" * 4097}, {}, 400, "table"), ("POST", "/explain", b"exit", TEXT, 415, "Content-Type"),
    run({"program": "target", "text": "exit"}, 400, "one of them"), run({"text": "exit"}, 400, "one of them"),
    ("POST", "/runs", {"text": "mov r0, 1\nexit", "argument": "00"}, {}, 422, "argument"), ("POST", "/runs", {"text": "exit"}, {}, 422, "register"),
    ("GET", f"/around/{VERTICES}", None, {}, 422, "vertex"), ("GET", "/around/x", None, {}, 400, "vertex"), ("GET", "/around/0?limit=0", None, {}, 400, "limit"),
    ("GET", "/around/0?limit=101", None, {}, 400, "limit"), ("GET", "/around/0?steps=65", None, {}, 400, "steps"),
    ("GET", "/around/0?version=9", None, {}, 410, "version 9"),
    ("POST", "/expand", {}, {}, 400, "vertices"), ("POST", "/expand", {"vertices": [0], "steps": 65}, {}, 400, "steps"),
    ("POST", "/expand", {"vertices": [0], "limit": -1}, {}, 400, "limit"), ("GET", "/edges?version=9", None, {}, 410, "version 9"),
    ("GET", "/changes?after=x", None, {}, 400, "after"), ("GET", "/watch", None, {}, 400, "program"), ("GET", "/watch?program=none", None, {}, 404, "none"),
    ("GET", "/watch?program=target&reduction=x", None, {}, 400, "reduction"), ("GET", "/watch?program=target&argument=00", None, {}, 422, "argument"),
    ("GET", "/watch?program=target&columns=risk", None, {}, 404, "risk"), ("GET", "/watch?program=target", None, {"Last-Event-ID": "x"}, 400, "Last-Event-ID"),
    ("POST", "/backups", {"name": "../x"}, {}, 400, "name"), ("GET", "/none", None, {}, 404, ""), ("PUT", "/batches", {}, {}, 405, ""),
]


def program(fields, status, word):
    return "POST", "/programs", {"name": "x", **fields}, {}, status, word


def refused_text(key, word):
    """A program whose text is past a limit."""
    most = write_limits.of_key(key).value
    return program({"text": lines_of(key, NEXT.get(key, lambda number: number + 1)(most))}, 422, word)


MOVE, EXIT = "b700000000000000", "9500000000000000"
ACCEPTED = "mov r0, 1\nexit"
LIMITS = write_limits.by_name(write_limits.MET)
# By the constant of a limit, what is asked past it: docs/LIMITS.md has the statuses.
PAST_LIMITS = {
    "past_model::MOST_EDITS": [batch([[0, 1]] * (LIMITS["MOST_EDITS"] + 1), 422, str(LIMITS["MOST_EDITS"]))],
    "bpf_isa::MOST_UNITS": [
        program({"code": MOVE * LIMITS["MOST_UNITS"] + EXIT}, 400, "code"), refused_text("bpf_isa::MOST_UNITS", f"line {LIMITS['MOST_UNITS'] + 1}"),
    ],
    "bpf_image::LEAST_RECORD_LENGTH": [program({"text": ACCEPTED, "record": LIMITS["LEAST_RECORD_LENGTH"] - 1}, 400, "record")],
    "bpf_image::MOST_RECORD_LENGTH": [program({"text": ACCEPTED, "record": LIMITS["MOST_RECORD_LENGTH"] + 1}, 400, "record")],
    "bpf_image::MOST_TABLE_LENGTH": [program({"text": ACCEPTED, "table": "00" * (LIMITS["MOST_TABLE_LENGTH"] + 1)}, 400, "table")],
    "bpf_blocks::MOST_ARGUMENT": [
        ("POST", "/runs", {"text": ACCEPTED, "record": LIMITS["MOST_RECORD_LENGTH"], "argument": "00" * (LIMITS["MOST_ARGUMENT"] + 1)}, {}, 422, "argument"),
    ],
    "map_model::MOST_COLUMNS": [run({"columns": ["kept"] * (LIMITS["MOST_COLUMNS"] + 1)}, 400, "columns")],
    "bpf_asm::MOST_NAME_BYTES": [refused_text("bpf_asm::MOST_NAME_BYTES", "line")],
    "verifier::MOST_COUNTED": [refused_text("verifier::MOST_COUNTED", "may run")],
    "verifier::MOST_PAIRS": [refused_text("verifier::MOST_PAIRS", "to be verified")],
    "bpf_model::MOST_FRAMES": [refused_text("bpf_model::MOST_FRAMES", "may be live")],
    "bpf_model::FRAME_BYTES": [refused_text("bpf_model::FRAME_BYTES", "outside")],
    "bpf_model::MOST_GATHER_BYTES": [refused_text("bpf_model::MOST_GATHER_BYTES", "helper")],
}
WRONG_FORMS += [form for forms in PAST_LIMITS.values() for form in forms]

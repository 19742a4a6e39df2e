#!/usr/bin/env python3
"""Compares what the module of docs/playground.html answers with what the library for C answers: compare.py [COUNT]

The programs are all of examples/ and docs/, and COUNT changed ones, 10,000 without it. Compared are faults of texts, codes, explanations, verdicts, and
of what is accepted the numbers, values and totals of runs, also in steps and with columns, of pairs and of pushes. The library is the one that the Python
package finds: that of dist/, or what EDGEBPF_LIBRARY names. Node is needed, python3-numpy and python3-cffi.
"""
import functools
import json
import pathlib
import random
import subprocess
import sys

import numpy as np

HERE = pathlib.Path(__file__).resolve().parent
ROOT = HERE.parent.parent
sys.path[:0] = [str(ROOT / "bindings/python"), str(HERE)]
import compared  # noqa: E402
import edgebpf  # noqa: E402
from compared import make_cases  # noqa: E402
from edgebpf import library  # noqa: E402

COUNT, ROOM = 10_000, 1 << 24
REDUCTIONS = "sum", "min", "max"
# Ends of pairs: an edge, two that are none, and one outside of the graph.
SOURCES, TARGETS = [0, 2, 5, 900], [1, 3, 3, 3]
SHOWN = 3


def graph():
    """The edges of changed programs elsewhere: one vertex has more neighbours than a block of edges has lanes."""
    vertices = int(make_cases.OPENING[0].split()[1])
    edges = [list(map(int, line.split()[1:])) for line in make_cases.OPENING if line.startswith("+ ")]
    return vertices, edges


@functools.cache
def room():
    return library.foreign().new("uint8_t[]", ROOM), library.foreign().new("size_t *")


def explain(record, code, table):
    """An explanation, or the status of none, which the package's call does not return."""
    calls, types, (text, count) = library.load(), library.foreign(), room()
    status = calls.edgebpf_explain(record, code, len(code), table, len(table), text, ROOM, count)
    return bytes(types.buffer(text, count[0])).decode() if status == 0 else status


def judged(record, code, table):
    """The status and the verdict: bound, frames, cause and pc."""
    verdict, handle = library.new("verdict *"), library.Handle()
    status = library.load().edgebpf_program_new(record, code, len(code), table, len(table), verdict, handle.at)
    return [status, *((verdict.bound, verdict.frames) if status == 0 else (verdict.cause, verdict.pc) if status == library.REFUSED else ())]


def code_of(case):
    """The code of a case, or the line and the fault of its text."""
    if "code" in case:
        return bytes.fromhex(case["code"])
    assembled, text = library.new("assembled *"), case["text"].encode()
    place = library.foreign().new("uint8_t[]", 32768)
    status = library.load().edgebpf_assemble(text, len(text), place, len(place), assembled)
    if status == library.WRONG_TEXT:
        return [assembled.line, assembled.cause]
    library.check(status)
    return bytes(library.foreign().buffer(place, assembled.length))


def runs(version, program, given):
    """What runs of an accepted program give, with an argument and columns."""
    argument, columns = bytes.fromhex(given["argument"]), [np.frombuffer(bytes.fromhex(column), np.uint64) for column in given["columns"]]
    answers = [version.numbers(program, argument, columns=columns).tobytes().hex()]
    for reduction in REDUCTIONS:
        result = version.run(program, reduction, argument=argument, columns=columns)
        into = np.arange(version.vertices, dtype=np.uint64)
        version.push(program, reduction, argument=argument, columns=columns, into=into)
        answers += [result.values.tobytes().hex(), str(result.edges), str(result.total), into.tobytes().hex()]
    return [*answers, version.pairs(program, SOURCES, TARGETS, argument, columns=columns).tobytes().hex()]


def answer(version, case):
    """All that the library says of a case."""
    code = code_of(case)
    if isinstance(code, list):
        return {"fault": code}
    record, table = case["record"], bytes.fromhex(case.get("table", ""))
    said = {"code": code.hex(), "explained": explain(record, code, table), "verdict": judged(record, code, table)}
    if said["verdict"][0] == 0:
        program = edgebpf.Program(code, record, table)
        said["runs"] = [runs(version, program, given) for given in case["given"]]
    return said


def cases(count):
    """The cases, each with what its runs are given: an argument alone, and up to two columns."""
    choice, (vertices, _) = random.Random(compared.SEED), graph()
    known = [*compared.of_examples(), *compared.of_documents(), *compared.of_page()]
    known += [{"record": record, "code": code.hex()} for record, code in make_cases.valid_programs()[0]]
    for case in [*known, *compared.changed(count)]:
        case["given"] = []
        for columns in range(3):
            length = case["record"] - 16 - 16 * columns
            if 0 <= length <= 240:
                numbers = [np.frombuffer(choice.randbytes(8 * vertices), np.uint64).tobytes().hex() for _ in range(columns)]
                case["given"].append({"argument": choice.randbytes(length).hex(), "columns": numbers})
        yield case
    print(f"compare: {len(known)} programs of examples/, docs/, the page and tests/native_numbers/, and {count} changed ones")


def main():
    count = int(sys.argv[1]) if len(sys.argv) > 1 else COUNT
    vertices, edges = graph()
    asked = list(cases(count))
    given = json.dumps({"vertices": vertices, "edges": edges, "sources": SOURCES, "targets": TARGETS, "cases": asked})
    ran = subprocess.run(["node", HERE / "answers.js"], input=given, stdout=subprocess.PIPE, text=True, check=True)
    theirs, kinds, wrong = [json.loads(line) for line in ran.stdout.splitlines()], {"fault": 0, "refused": 0, "accepted": 0}, 0
    assert len(theirs) == len(asked), f"{len(theirs)} answers to {len(asked)} cases"
    with edgebpf.Store(vertices=vertices) as store:
        store.apply(edges=edges)
        version = store.pin()
        for case, other in zip(asked, theirs):
            ours = answer(version, case)
            kinds["fault" if "fault" in ours else "accepted" if "runs" in ours else "refused"] += 1
            if ours != other:
                wrong += 1
                if wrong <= SHOWN:
                    differing = [key for key in {*ours, *other} if ours.get(key) != other.get(key)]
                    print(f"compare: {case} differs in {', '.join(differing)}: {[(str(ours.get(key))[:300], str(other.get(key))[:300]) for key in differing]}")
    print(f"compare: {kinds['accepted']} accepted with all their numbers, {kinds['refused']} refused, {kinds['fault']} faults of texts: {len(asked) - wrong} the same")
    sys.exit(wrong != 0)


if __name__ == "__main__":
    main()

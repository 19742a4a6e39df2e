#!/usr/bin/python3
"""Serves a script by the second implementation of the language, where a test needs a store and none is built. It answers
line by line."""
import pathlib
import sys

sys.path.insert(0, str(pathlib.Path(__file__).resolve().parent.parent.parent / "tests/second_implementation"))

from script import Fault, Session  # noqa: E402

session = Session()
try:
    for number, line in enumerate(sys.stdin.buffer, 1):
        session.line(line.rstrip(b"\n"), number)
        print("".join(f"{said}\n" for said in session.said), end="", flush=True)
        session.said.clear()
except Fault as fault:
    print(f"fault {fault} line {number}")
    sys.exit(1)

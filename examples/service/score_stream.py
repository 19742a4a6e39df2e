#!/usr/bin/python3
"""Scores a stream of payments by attributes of accounts, which a service keeps as a column.

    examples/service/score_stream.py --url http://127.0.0.1:8080 < payments.txt

A line is a payer and a payee. Before a payment is taken, it gets a score: the payee's risk, twice as much if the payee has paid the payer
before. Payments above --most are refused; the others become edges, in batches. Accounts are vertices, so the service has as many.
"""
import argparse
import os
import pathlib
import sys

HERE = pathlib.Path(__file__).resolve().parent
# In a checkout the client lies here; the package edgebpf-serve has it where Python finds it.
sys.path.insert(0, str(HERE.parent.parent / "tools"))

from edgebpf_client import Client, Error, NoAnswer  # noqa: E402

# The record of a pair: its ends, and after 16 bytes the column's numbers of the source and of the target.
SCORE = """\
    ldxdw r6, [r1+24]       ; the payee's risk
    ldxw r2, [r1+0]         ; is there an edge from the payee
    ldxw r1, [r1+4]         ; to the payer
    call 2
    lsh r6, r0              ; twice as much if there is
    mov r0, r6
    exit
"""
RECORD = 32


def payments(lines):
    """The payments of some lines."""
    for number, line in enumerate(lines, 1):
        words = line.split()
        if len(words) != 2 or not all(word.isascii() and word.isdigit() for word in words):
            raise ValueError(f"line {number}: a payer and a payee are wanted")
        yield int(words[0]), int(words[1])


def parts(items, size):
    """The items in lists of so many."""
    part = []
    for item in items:
        part.append(item)
        if len(part) == size:
            yield part
            part = []
    if part:
        yield part


def main():
    parser = argparse.ArgumentParser(description=__doc__, formatter_class=argparse.RawDescriptionHelpFormatter)
    parser.add_argument("--url", default=os.environ.get("EDGEBPF_URL", "http://127.0.0.1:8080"))
    parser.add_argument("--risk", help="a file with the risk of each account, a line each; without it the column that is there")
    parser.add_argument("--most", type=int, default=100)
    parser.add_argument("--together", type=int, default=1_000, help="payments that are scored and taken together")
    options = parser.parse_args()
    with Client(options.url, os.environ.get("EDGEBPF_TOKEN")) as graph:
        if options.risk:
            graph.column("risk", [int(line) for line in open(options.risk)])
        graph.program("score", SCORE, record=RECORD)
        for part in parts(payments(sys.stdin), options.together):
            told = graph.pairs("score", part, columns=["risk"])
            taken = [payment for payment, score in zip(part, told["numbers"]) if score <= options.most]
            for (payer, payee), score in zip(part, told["numbers"]):
                print(payer, payee, score, "taken" if score <= options.most else "refused")
            outcome = graph.batch(taken)[-1]
            print(f"version {outcome.version}: {len(taken)} of {len(part)} taken", flush=True)


if __name__ == "__main__":
    try:
        main()
    except (Error, NoAnswer, ValueError, OSError) as error:
        sys.exit(f"score_stream: {error}")
    except KeyboardInterrupt:
        sys.exit(130)

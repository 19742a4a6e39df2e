#!/usr/bin/python3
"""Prints the accounts whose payees have a total risk above a limit, and each that crosses it, as payments come.

    examples/service/watch_accounts.py --url http://127.0.0.1:8080 --above 500

It is a standing query: the service sends the rows that a batch changed, and those that a new column changed. After a lost connection it goes on
where it was.
"""
import argparse
import os
import pathlib
import sys

HERE = pathlib.Path(__file__).resolve().parent
sys.path.insert(0, str(HERE.parent.parent / "tools"))

from edgebpf_client import Client, Error, NoAnswer  # noqa: E402

RISK_OF_PAYEE, RECORD = "ldxdw r0, [r1+24]\nexit", 32


def crossings(events, above):
    """(version, account, total, whether it is above now) for each account that crosses the limit."""
    known = set()
    for event in events:
        # All rows but those of accounts without payments: who is not among them has none any more.
        gone = known - {account for account, _ in event.rows} if event.kind == "rows" else set()
        for account, total in [*((account, 0) for account in sorted(gone)), *event.rows]:
            if (total > above) != (account in known):
                (known.add if total > above else known.discard)(account)
                yield event.version, account, total, total > above


def main():
    parser = argparse.ArgumentParser(description=__doc__, formatter_class=argparse.RawDescriptionHelpFormatter)
    parser.add_argument("--url", default=os.environ.get("EDGEBPF_URL", "http://127.0.0.1:8080"))
    parser.add_argument("--above", type=int, default=500)
    options = parser.parse_args()
    graph = Client(options.url, os.environ.get("EDGEBPF_TOKEN"))
    graph.program("risk_of_payees", RISK_OF_PAYEE, record=RECORD)
    for version, account, total, is_above in crossings(graph.watch("risk_of_payees", columns=["risk"]), options.above):
        print(version, account, total, "above" if is_above else "below", flush=True)


if __name__ == "__main__":
    try:
        main()
    except (Error, NoAnswer, OSError) as error:
        sys.exit(f"watch_accounts: {error}")
    except KeyboardInterrupt:
        sys.exit(130)

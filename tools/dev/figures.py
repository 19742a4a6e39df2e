#!/usr/bin/env python3
"""Figures that were measured or counted: files of docs/figures/, of which `write_pages.py` makes the tables in documents.

    tools/dev/figures.py count NAME ROW NUMBER [--newer]   adds a number to a count of NAME.txt, in the row that begins with ROW, with today's date

The first line of a file says when and on what, such as `2026-11-29, commit 282f5499, load 2`, or that each row has its day. The second one has the heads
of the columns, and each further one a row, with ` | ` between two cells and `-` as an empty one. A script that measures writes the whole file by `write`,
and what grows is counted by the command; nobody types a figure into a document. With --newer the code has changed since the last count, so that what
was counted before is of older code.
"""
import argparse
import datetime
import os
import subprocess
from pathlib import Path

TOP = Path(__file__).resolve().parent.parent.parent
FIGURES = TOP / "docs" / "figures"
BETWEEN, EMPTY = " | ", "-"


def now(has_load=True):
    """When this is: the date, the commit and the load of the machine."""
    run = subprocess.run(["git", "-C", TOP, "rev-parse", "--short=8", "HEAD"], capture_output=True, text=True, check=True)
    load = f", load {os.getloadavg()[1]:.0f}" if has_load else ""
    return f"{datetime.date.today()}, commit {run.stdout.strip()}{load}"


def write(name, heads, rows, when=None):
    """Writes what was measured, with when it was."""
    lines = [when or now(), *(line_of(cells) for cells in (heads, *rows))]
    (FIGURES / f"{name}.txt").write_text("\n".join(lines) + "\n")


def add(name, cells):
    """Adds a row to what was measured before: its first cell says when."""
    when, heads, rows = read(name)
    write(name, heads, [*rows, cells], when)


def update(name, rows, when=None):
    """Writes the rows that were measured, each by its name with its cells by their heads. Other cells of these rows stay as they are."""
    _, heads, old = read(name)
    known = {row[0]: dict(zip(heads, row)) for row in old}
    write(name, heads, [[{**known.get(row, {}), **cells, heads[0]: row}.get(head, "") for head in heads] for row, cells in rows.items()], when)


def line_of(cells):
    return BETWEEN.join(cell or EMPTY for cell in cells)


def read(name):
    """When something was measured, the heads of its columns, and its rows."""
    when, *lines = (FIGURES / f"{name}.txt").read_text().splitlines()
    heads, *rows = [["" if cell == EMPTY else cell for cell in line.split(BETWEEN)] for line in lines]
    wrong = [cells for cells in rows if len(cells) != len(heads)]
    if wrong:
        raise ValueError(f"docs/figures/{name}.txt: {BETWEEN.join(wrong[0])} has not as many cells as there are columns")
    return when, heads, rows


def added(cell, number):
    """A count with so many more."""
    return f"{int(cell.replace(',', '') or 0) + number:,}"


def count(name, begins, number, is_newer):
    """Adds to a count, whose columns are what, all, those on the newest code, and when. Where no number is of the newest code, all are."""
    when, heads, rows = read(name)
    found = [row for row in rows if row[0].startswith(begins)]
    if len(found) != 1:
        raise SystemExit(f"figures.py: {len(found)} rows of docs/figures/{name}.txt begin with {begins!r}")
    row = found[0]
    try:
        newest = added("", number) if is_newer else added(row[2], number) if row[2] else ""
        row[1:4] = [added(row[1], number), newest, str(datetime.date.today())]
    except ValueError:
        raise SystemExit(f"figures.py: {row[1]} and {row[2]} are no counts that a number is added to: change the file by hand") from None
    write(name, heads, rows, when)


def main():
    parser = argparse.ArgumentParser(description=__doc__, formatter_class=argparse.RawDescriptionHelpFormatter)
    parser.add_argument("command", choices=["count"])
    parser.add_argument("name")
    parser.add_argument("row")
    parser.add_argument("number", type=int)
    parser.add_argument("--newer", action="store_true")
    options = parser.parse_args()
    count(options.name, options.row, options.number, options.newer)


if __name__ == "__main__":
    main()

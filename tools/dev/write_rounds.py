"""Draws the rounds of a script: what its frontier is, and the numbers of a column after each, as the second implementation serves it."""
import sys

# What a search begins with stands for no number yet.
NO_NUMBER = 2**64 - 1
# How wide the frontier stands, so that its vertices have the room of eight.
FRONTIER_WIDTH = 16


def numbers_after(pages, lines, column, count):
    """The numbers of a column after some lines of a script."""
    sys.path.insert(0, str(pages.TOP / "tests" / "second_implementation"))
    from script import serve

    text, status, _ = serve("\n".join([*lines, f"values {column}", ""]).encode())
    if status:
        raise ValueError(f"after {lines[-1]!r} the script ends with a fault: {text[-100:]!r}")
    found = dict(map(int, line.split()[1:]) for line in text.splitlines() if line.startswith("value "))
    return [found.get(vertex, 0) for vertex in range(count)]


def frontier_of(command, gone):
    """The vertices of a round: those of a column that are not 0, or those that its first command names."""
    if gone is not None:
        return " ".join(str(vertex) for vertex, number in enumerate(gone) if number) or "none"
    # command PROGRAM PIN REDUCER HEX NAMES INTO, then the vertices
    return " ".join(command.split()[7:]) or "all"


def row(turn, frontier, numbers, before, width):
    """A line of the picture. A `+` stands before what the round has changed."""
    cells = [("+" if number != old else "") + ("-" if number == NO_NUMBER else str(number)) for number, old in zip(numbers, before)]
    return f"{turn:>5}  {frontier:<{FRONTIER_WIDTH}}" + "".join(cell.rjust(width) for cell in cells)


def rounds(pages, words):
    """The picture of a script: `rounds PATH COLUMN MARK BEGIN`, where a round is the lines from one that begins with BEGIN up to the next, and
    MARK is the column of its frontier, or `-` where its first line names it."""
    path, column, mark, begin = words.split(" ", 3)
    lines = (pages.TOP / path).read_text().splitlines()
    count = int(next(line for line in lines if line.startswith("graph ")).split()[1])
    starts = [at for at, line in enumerate(lines) if line.startswith(begin)]
    end = next(at for at, line in enumerate(lines) if line.startswith("values "))
    states = [numbers_after(pages, lines[:at], column, count) for at in [*starts, end]]
    width = 2 + max(len(str(number)) for state in states for number in state if number != NO_NUMBER)
    shown = [f"round  {'frontier':<{FRONTIER_WIDTH}}" + "".join(str(vertex).rjust(width) for vertex in range(count)), row(0, "", states[0], states[0], width)]
    for turn, (start, stop) in enumerate(zip(starts, [*starts[1:], end]), 1):
        gone = None if mark == "-" else numbers_after(pages, lines[:stop], mark, count)
        shown.append(row(turn, frontier_of(lines[start], gone), states[turn], states[turn - 1], width))
    return ["```", *(line.rstrip() for line in shown), "```"]

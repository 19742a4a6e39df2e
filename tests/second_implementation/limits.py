"""Scripts at each limit of the language: what is allowed just so, and one more."""

FIRST = "61100400000000009500000000000000"
MOVE, EXIT = "b700000007000000", "9500000000000000"
EDGES = ["batch A", "+ 0 1", "+ 0 2", "end"]


def pins(more):
    return ["graph 3", *EDGES, *[f"pin p{number}" for number in range(256 + more)]]


def programs(more, random):
    lines = ["graph 3"]
    for number in range(256 + more):
        lines += [f"code t{number} 16 {FIRST}"] if random.randrange(2) else [f"program t{number} 16", "mov r0, 1", "exit", "end"]
    return [*lines, *(["pin p", "run t255 p sum -"] if more == 0 else [])]


def batches(more, random):
    lines = ["graph 3"]
    for _ in range(4096 + more):
        lines += [f"batch {random.choice('ABCD')}", *random.choice([[], [], ["+ 0 1"], ["- 0 1"]]), "end"]
    return [*lines, "home 0"]


def edits(more, random):
    lines = ["graph 1100", "batch B"]
    lines += [f"{random.choice('++-')} {random.randrange(3)} {random.randrange(1100)}" for _ in range(65536 + more)]
    return [*lines, "end", "home 0", "home 1", "home 2"]


def block_lines(more):
    return ["graph 3", "program p 16", "mov r0, 7", "exit", *[""] * (65534 + more), "end", "pin a"]


def long_line(more):
    return ["graph 3", "#" + "x" * (79999 + more), "pin a"]


def long_block_line(more):
    return ["graph 3", "program p 16", ";" + "x" * (79999 + more), "exit", "end"]


def units(more):
    return ["graph 3", *EDGES, "pin p", f"code u 16 {MOVE * (4095 + more)}{EXIT}", "run u p sum -" if more == 0 else "home 0"]


def text_units(more):
    return ["graph 3", "program u 16", *["mov r0, 7"] * (4095 + more), "exit", "end", "home 0"]


def at_a_limit(random):
    more, kinds = random.randrange(2), [pins, block_lines, long_line, long_block_line, units, text_units]
    with_random = [programs, batches, edits]
    kind = random.choice(kinds + with_random)
    lines = kind(more, random) if kind in with_random else kind(more)
    return ("\n".join(lines) + "\n").encode()

"""Scripts with a given number of what is limited, by the constant of each limit that docs/LIMITS.md has for scripts."""
MOVE, EXIT = "b700000000000000", "9500000000000000"
LETTERS = "ABCDEFGH"
# Three edges, and programs with records of 16 bytes.
GRAPH = "graph 4\nbatch A\n+ 0 1\n+ 0 2\n+ 1 2\nend\npin a\n"


def code(length, units=2):
    return f"code p {length} {MOVE * (units - 1)}{EXIT}\n"


def text(lines, length=16):
    return f"program p {length}\n" + "\n".join(lines) + "\nend\n"


def image(length=16, units=2, table=0):
    """An image of whose code the last unit is an exit."""
    numbers = [length, units, *([table] if table else [])]
    front = (b"BPE2" if table else b"BPE1") + b"".join(number.to_bytes(2, "little") for number in numbers)
    return f"image p {front.hex()}{MOVE * (units - 1)}{EXIT}{'07' * table}\n"


def counted(function, calls, more):
    """A program whose main function calls another, of so many instructions, some times, and then has some moves and an exit."""
    return text([*["calllocal f"] * calls, *["mov r0, 0"] * more, "exit", "f:", *function])


def long_walk(most):
    """Just as many instructions as may be counted: of each call itself and 1,000 others, and the rest in the main function."""
    calls = most // 1_001 - 1
    return counted(["mov r0, 0"] * 999 + ["exit"], calls, most - 1_001 * calls - 1)


def many_pairs(most):
    """The same, but no walk counts all: each call goes past one of two instructions."""
    either = ["mov r0, 0", "jeq r0, 0, one", "mov r0, 1", "ja joined", "one:", "mov r0, 2", "joined:"]
    calls = most // 1_001 - 1
    return counted(either + ["mov r0, 0"] * 994 + ["exit"], calls, most - 1_001 * calls - 1)


def chain(functions):
    """So many functions, of which each but the last calls the next."""
    lines = ["calllocal f1"] if functions > 1 else []
    for place in range(1, functions):
        lines += ["mov r0, 0", "exit", f"f{place}:", *([f"calllocal f{place + 1}"] if place + 1 < functions else [])]
    return text([*lines, "mov r0, 0", "exit"])


def gathered(room):
    return text(["mov r1, 0", "mov r2, 0", "mov r3, r10", f"add r3, -{room}", f"mov r4, {room}", "call 5", "exit"])


def lent(count):
    """A pull with so many columns: the record has room for them."""
    return GRAPH + "column x 0 1\n" + code(16 + 16 * count) + f"pull p a sum - {','.join(['x'] * count)} -\n"


def argument(size):
    """A run with an argument of so many bytes, of a program whose record has room for them, or else the longest record."""
    return GRAPH + code(16 + min(size, 240)) + f"run p a sum {'00' * size}\n"


# For each limit that a script meets, by its constant: a script for a number of what is limited, one for each way to meet it.
SCRIPTS = {
    "past_model::SERVED_VERTICES": [lambda most: f"graph {most}\n"],
    "past_model::MOST_EDITS": [lambda most: "graph 1\nbatch A\n" + "+ 0 0\n" * most + "end\n"],
    "past_model::MOST_BATCHES": [lambda most: "graph 1\n" + "batch A\nend\n" * most],
    "past_model::SERVED_EPOCHS": [lambda most: "graph 1\n" + "rebase\n" * most],
    "past_model::FEEDS": [lambda most: f"graph 1\nbatch {LETTERS[most - 1]}\nend\n"],
    "bpf_isa::MOST_UNITS": [lambda most: GRAPH + code(16, most), lambda most: GRAPH + text(["mov r0, 0"] * (most - 1) + ["exit"])],
    "bpf_image::LEAST_RECORD_LENGTH": [lambda least: GRAPH + code(least), lambda least: GRAPH + image(least)],
    "bpf_image::MOST_RECORD_LENGTH": [lambda most: GRAPH + code(most), lambda most: GRAPH + image(most)],
    "bpf_blocks::MOST_ARGUMENT": [argument],
    "bpf_image::MOST_TABLE_LENGTH": [lambda most: GRAPH + image(table=most)],
    "map_model::MOST_COLUMNS": [lent],
    "verifier::MOST_COUNTED": [lambda most: GRAPH + long_walk(most)],
    "verifier::MOST_PAIRS": [lambda most: GRAPH + many_pairs(most)],
    "bpf_model::MOST_FRAMES": [lambda most: GRAPH + chain(most)],
    "bpf_model::FRAME_BYTES": [lambda most: GRAPH + text([f"stb [r10-{most}], 0", "mov r0, 0", "exit"])],
    "bpf_model::MOST_GATHER_BYTES": [lambda most: GRAPH + gathered(most)],
    "session_model::MOST_KEPT": [
        lambda most: GRAPH + "".join(f"pin p{place}\n" for place in range(most - 1)),
        lambda most: GRAPH + "".join(code(16).replace(" p ", f" p{place} ") for place in range(most)),
    ],
    "session_model::MOST_KEPT_COLUMNS": [lambda most: GRAPH + "".join(f"column c{place} 0 1\n" for place in range(most))],
    "script_model::MOST_LINE_BYTES": [lambda most: "#" + "x" * (most - 1) + "\n"],
    "script_model::MOST_PROGRAM_LINES": [lambda most: GRAPH + text(["mov r0, 0", "exit"] + [""] * (most - 2))],
    "script::MOST_NAME_BYTES": [lambda most: GRAPH + f"pin {'x' * most}\n"],
    "bpf_asm::MOST_NAME_BYTES": [lambda most: GRAPH + text(["mov r0, 0", "x" * most + ":", "exit"])],
}
# What the next number of these is: there are rooms of whole words, and of a least number one less is met.
NEXT = {"bpf_model::MOST_GATHER_BYTES": lambda most: most + 4, "bpf_image::LEAST_RECORD_LENGTH": lambda least: least - 1}


def lines_of(key, number):
    """The lines of the program that the last script of a limit has."""
    lines = SCRIPTS[key][-1](number).splitlines()
    return lines[lines.index("program p 16") + 1:-1]

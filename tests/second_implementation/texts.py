"""Texts of programs: an instruction in assembler text, in each way that the grammar allows."""
from bpf import NoInstruction, decode

SIZES = {1: "b", 2: "h", 4: "w", 8: "dw"}
SWAPS = {0xD4: "le", 0xDC: "be", 0xD7: "swap"}


def distance_of(instruction):
    """How far an instruction goes, if it goes to a label."""
    return instruction[-1] if instruction[0] in ("jump", "local", "branch") else None


def number(random, value):
    """A number, in decimal digits or as 0x, perhaps with leading zeros."""
    form = random.randrange(8)
    if form == 0 and value >= 0:
        digits = f"{value:0{random.choice([1, 2, 9])}x}"
        return "0x" + random.choice([digits, digits.upper()])
    if form == 1:
        return f"{'-' if value < 0 or value == 0 and random.randrange(2) else ''}{abs(value):0{random.choice([1, 3, 12])}}"
    return str(value)


def place(random, base, offset):
    if offset == 0 and random.randrange(2):
        return f"[r{base}]"
    return f"[r{base}{'-' if offset < 0 else '+'}{abs(offset):0{random.choice([1, 1, 1, 4])}}]"


def words_of(random, opcode, instruction, label):
    """The word of an instruction and its arguments."""
    kind, *parts = instruction
    operand = lambda said: f"r{said[1]}" if said[0] == "register" else number(random, said[1])
    if kind == "exit":
        return "exit", []
    if kind == "jump":
        return "ja" if opcode == 0x05 else "ja32", [label]
    if kind == "local":
        return "calllocal", [label]
    if kind == "helper":
        return "call", [number(random, parts[0])]
    if kind == "wide":
        return "lddw", [f"r{parts[0]}", number(random, parts[1])]
    if kind == "neg":
        return "neg" if parts[0] == 64 else "neg32", [f"r{parts[1]}"]
    if kind == "swap":
        return f"{SWAPS[opcode]}{parts[1]}", [f"r{parts[2]}"]
    if kind == "extend":
        return f"{'movsx' if parts[0] == 64 else 'mov32sx'}{parts[1]}", [f"r{parts[2]}", f"r{parts[3]}"]
    if kind == "load":
        size, extends, destination, base, offset = parts
        return f"ldx{'s' if extends else ''}{SIZES[size]}", [f"r{destination}", place(random, base, offset)]
    if kind == "store":
        size, base, offset, said = parts
        return f"{'stx' if said[0] == 'register' else 'st'}{SIZES[size]}", [place(random, base, offset), operand(said)]
    bits, word, destination, said = parts[:4]
    return ("j" if kind == "branch" else "") + word + ("32" if bits == 32 else ""), [
        f"r{destination}",
        operand(said),
        *([label] if kind == "branch" else []),
    ]


def listed(code):
    instructions, pc = {}, 0
    while 8 * pc < len(code):
        instruction, units = decode(code, pc)
        instructions[pc] = instruction
        pc += units
    return instructions


def lines_of(random, code):
    """Lines that assemble to the code; None where no text does."""
    try:
        instructions = listed(code)
    except NoInstruction:
        return None
    ways = {pc: distance_of(instruction) for pc, instruction in instructions.items()}
    targets = {pc + 1 + distance for pc, distance in ways.items() if distance is not None}
    if any(target not in instructions and 8 * target != len(code) for target in targets):
        return None
    names = {target: f"{random.choice(['L', 'out_', '_', 'r1', 'end'])}{target}" for target in targets}
    names |= {target: f"a{target}" for target, name in names.items() if name == "r10"}
    blank = lambda: random.choice(["", "", " ", "\t", "    "])
    lines = []
    for pc in [*instructions, len(code) // 8]:
        lines += random.choice([[], [], [], [], ["  ; note"], [""]])
        if pc in names:
            lines.append(blank() + names[pc] + ":" + blank())
        if pc not in instructions:
            continue
        label = None if ways[pc] is None else names[pc + 1 + ways[pc]]
        word, arguments = words_of(random, code[8 * pc], instructions[pc], label)
        said = word + random.choice([" ", "\t", "  "]) + random.choice([", ", ",", " ,\t"]).join(arguments) if arguments else word
        lines.append(blank() + said + random.choice(["", "", " ", " ; x", ";"]))
    return lines

"""What clang says of C that no program can be made of, with a line of what to do here."""
import re

HELPS = (
    (
        r"built-in function '__\w*(?:[sdtx]f|[sd]c)\w*'",
        "programs have no floating point: count in whole parts, as in `u64 thousandths = 1000 * part / all`, or scale the argument before the run",
    ),
    (
        r"built-in function '__\w*ti\w*'|only small returns supported",
        "programs have no numbers of 128 bits: mul_saturated of edgebpf.h stops at the end of u64, and halves of 32 bits multiply without loss",
    ),
    (
        r"BPF stack limit is exceeded",
        "each function has 512 bytes for its variables: keep some in SCRATCH(edge, type), which is the run's argument, or part the function in two by FUNCTION",
    ),
    (
        r"fatal error: '[^']*' file not found",
        "programs have no library: drop the include; edgebpf.h has the types, memcpy, memmove, memset and memcmp",
    ),
)
# What clang advises where it compiles for the kernel.
OTHERS_ADVICE = re.compile(r" Please move large on stack variables into BPF per-cpu array map\. For non-kernel uses, the stack can be increased using -mllvm -bpf-stack-size\.")


def with_help(said):
    """What clang said, each error once, and what helps."""
    lines, errors = [], set()
    for line in OTHERS_ADVICE.sub("", said).rstrip().split("\n"):
        if line.strip() and line not in errors:
            lines.append(line)
        if line.startswith("error: "):
            errors.add(line)
    helps = [f"what helps: {help}" for sign, help in HELPS if re.search(sign, said)]
    return "\n".join([*lines, *helps])

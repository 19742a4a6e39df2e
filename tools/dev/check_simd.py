#!/usr/bin/env python3
"""Checks that LLVM made SIMD instructions of the loops over columns in `bpf_blocks`, by `objdump` on the built program.

    tools/dev/check_simd.py [PROGRAM]         crates/edgebpf/out/edgebpf, if none is named
    tools/dev/check_simd.py --wide PROGRAM    that they have vectors of 32 bytes, in what was compiled for x86-64-v3

A sum, a difference, a product, a bitwise operation, a shift, a comparison and a choice between lanes must each be there.
"""
import re
import subprocess
import sys
from collections import Counter
from pathlib import Path

TOP = Path(__file__).resolve().parent.parent.parent
OURS = re.compile(r"^[0-9a-f]+ <bpf_blocks::")
WANTED = {"sum": {"paddq"}, "difference": {"psubq"}, "product": {"pmuludq"}, "bitwise operation": {"pand", "por", "pxor"}, "shift": {"psrlq", "psllq", "psrlvq", "psllvq"},
          "comparison": {"pcmpgtd", "pcmpgtq"}, "choice between lanes": {"blendvpd", "blendvps", "pblendvb"}}


def instructions_of(program, is_wide):
    """How often each instruction stands in the functions of bpf_blocks; of the wide ones, whose names begin with a v, by the name without it."""
    listing = subprocess.run(["objdump", "-d", "--no-show-raw-insn", program], check=True, stdout=subprocess.PIPE, text=True).stdout
    counts, inside = Counter(), False
    for line in listing.splitlines():
        if line.endswith(">:"):
            inside = bool(OURS.match(line))
        elif inside and "\t" in line and (not is_wide or "%ymm" in line):
            counts[line.split("\t")[1].split()[0].removeprefix("v" * is_wide)] += 1
    return counts


def main():
    words = [word for word in sys.argv[1:] if word != "--wide"]
    counts = instructions_of(words[0] if words else TOP / "crates/edgebpf/out/edgebpf", "--wide" in sys.argv)
    missing = [kind for kind, names in WANTED.items() if not any(counts[name] for name in names)]
    for kind, names in WANTED.items():
        print(f"{kind}: {', '.join(f'{counts[name]} {name}' for name in sorted(names))}")
    if missing:
        sys.exit(f"check_simd: no SIMD instruction for a {', a '.join(missing)}")


if __name__ == "__main__":
    main()

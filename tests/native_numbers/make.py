#!/usr/bin/env python3
"""Compiles programs.c to BPF, and natively, and writes the rows of test_script_rows that serve them. See README.md."""
import pathlib
import subprocess
import tempfile

# Each program and its record length; then those that are refused, with the cause and the pc that docs/BPF.md gives.
LENGTHS = {
    "pair_hash": 16, "short_hash": 16, "weight": 24, "even_degree": 16, "clamp": 20, "signed_parts": 16,
    "unsigned_parts": 17, "bits_set": 16, "swapped": 16, "chosen": 17, "signed_argument": 24, "signed_sums": 16,
    "over_stack": 16, "middle": 21, "many_values": 24, "written_record": 20, "nested": 16, "lent": 20, "framed": 16,
    "mutual": 16, "neighbour_score": 20, "walk": 19, "three_steps": 19, "triangles": 16, "gathered_record": 32,
    "far_numbers": 16,
    "asking": 16, "lent_stack": 16, "lent_array": 16, "lent_struct": 18, "lent_words": 16,
}
REFUSED = {
    "any_byte": (24, 11, 1), "stack_table": (16, 10, 12), "loop": (20, 3, 10), "lent_unset": (16, 12, 7),
    "chosen_room": (16, 13, 9), "pointer_vertex": (16, 13, 0), "wide_gather": (20, 11, 5), "sixth_helper": (16, 14, 1),
}
# The section of test_script_rows that has them, over the graph over which the native code runs.
SECTION = "compiled by clang"
HEAD = f'''\
%^ {SECTION}
graph 70000
batch A
+ 0 1
+ 0 255
+ 0 65535
+ 0 69999
+ 255 0
+ 255 4660
+ 255 65535
+ 4660 255
+ 69999 1
+ 69999 69999
end
pin a
%=
graph 70000
batch A version 1 added 10 removed 0
pin a version 1 edges 10
'''



def extent(code):
    """The greatest number of instructions of a way from the start to an exit, with those of the functions that it
    calls, and the greatest number of frames on it. Jumps and calls only go forward."""
    units = [code[at:at + 8] for at in range(0, len(code), 8)]
    count = [0] * (len(units) + 1)
    frames = [0] * (len(units) + 1)
    for pc in reversed(range(len(units))):
        opcode = units[pc][0]
        offset = int.from_bytes(units[pc][2:4], "little", signed=True)
        entry = None
        if opcode == 0x95:
            onward = []
        elif opcode == 0x05:
            onward = [pc + 1 + offset]
        elif opcode == 0x85:
            onward = [pc + 1]
            if units[pc][1] >> 4 == 1:  # else a helper is called
                entry = pc + 1 + int.from_bytes(units[pc][4:8], "little", signed=True)
        elif opcode & 7 in (5, 6):
            onward = [pc + 1, pc + 1 + offset]
        else:
            onward = [pc + (2 if opcode == 0x18 else 1)]
        count[pc] = 1 + max([count[to] for to in onward], default=0) + (count[entry] if entry else 0)
        frames[pc] = max([frames[to] for to in onward] + [1 + frames[entry] if entry else 1])
    return f"bound {count[0]} frames {frames[0]}"


def main():
    here = pathlib.Path(__file__).parent
    with tempfile.TemporaryDirectory() as folder:
        compiled, native = f"{folder}/programs.o", f"{folder}/native"
        subprocess.run(["clang-19", "-O2", "-target", "bpf", "-mcpu=v4", "-fno-strict-aliasing", "-ffunction-sections", "-c",
                        here / "programs.c", "-o", compiled], check=True)
        subprocess.run(["clang-19", "-O1", "-fwrapv", "-fno-strict-aliasing", here / "native.c", "-o", native], check=True)
        written = subprocess.run([native], check=True, capture_output=True, text=True).stdout

        def code(name):
            part = f"{folder}/{name}"
            subprocess.run(["llvm-objcopy-19", "-O", "binary", f"--only-section=.text.{name}", compiled, part], check=True)
            return pathlib.Path(part).read_bytes()

        rows = []
        for name, length in LENGTHS.items():
            program = code(name)
            runs = [line.split("|")[1:] for line in written.splitlines() if line.split("|")[0] == name]
            rows.append((name, [f"code {name} {length} {program.hex()}", *(run[0] for run in runs)],
                         f"program {name} {extent(program)}\n" + "".join(run[1] for run in runs).replace("/", "\n")))
        for name, (length, cause, pc) in REFUSED.items():
            rows.append((name, [f"code {name} {length} {code(name).hex()}"], f"refused {name} cause {cause} pc {pc}\n"))
    crate = here.parent.parent / "crates/test_script_rows"
    # Scripts at the limits stand behind the section, and stay.
    before, _, behind = (crate / "stdin").read_text().partition(f"%^ {SECTION}\n")
    limits = behind.partition("\n%! ")[2]
    (crate / "stdin").write_text(before + HEAD + "".join(
        "\n".join([f"%% {name}", *script, "%=", text]) for name, script, text in rows) + f"%! {limits}")
    before, _, behind = (crate / "stdout").read_text().partition(f"ok {SECTION}: ")
    limits = [line for line in behind.splitlines(True) if ": status " in line]
    (crate / "stdout").write_text(before + "".join(f"ok {SECTION}: {name}\n" for name, _, _ in rows) + "".join(limits))


main()

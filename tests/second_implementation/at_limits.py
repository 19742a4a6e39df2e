#!/usr/bin/env python3
"""What crates/test_script_rows has to print of scripts at the limits, by the second implementation: at_limits.py [RECIPES], or at_limits.py RECIPES NAME for one script
and its text. See README.md."""
import pathlib
import sys

from script import serve

RECIPES = pathlib.Path(__file__).parent.parent.parent / "crates/test_script_rows/stdin"
SIGNS = {"insert": "+", "remove": "-"}


def steps(first, step, below):
    """The numbers that one steps through, and round to the front."""
    return lambda place: (first + step * place) % below


def expanded(recipe):
    """The script that the lines of a recipe stand for."""
    lines = [""]
    for line in recipe.splitlines():
        word, *rest = line.split(" ")
        edits, _, singly = word.partition("_")
        if edits in SIGNS and len(rest) == 7:
            count, *numbers = map(int, rest)
            sources, targets = steps(*numbers[:3]), steps(*numbers[3:])
            for place in range(count):
                edit = f"{SIGNS[edits]} {sources(place)} {targets(place)}"
                lines += ["batch A", edit, "end"] if singly else [edit]
        elif word == "words":
            count, *numbers = map(int, rest)
            lines[-1] += "".join(f" {steps(*numbers)(place)}" for place in range(count))
        elif word == "batches":
            lines += ["batch B", "end"] * int(rest[0])
        elif word == "lines":
            lines += [" ".join(rest[1:])] * int(rest[0])
        else:
            lines.append(line)
    return "\n".join(lines).encode()


def digest(text):
    """FNV-1a of 64 bits."""
    number = 0xCBF29CE484222325
    for byte in text:
        number = (number ^ byte) * 0x100000001B3 % 2**64
    return number


def main():
    recipes = pathlib.Path(sys.argv[1]) if len(sys.argv) > 1 else RECIPES
    for part in recipes.read_text().partition("\n%! ")[2].split("%")[1:]:
        head, _, recipe = part.partition("\n")
        name, workers = head.split(" ")
        if len(sys.argv) > 2 and name != sys.argv[2]:
            continue
        text, status, _ = serve(expanded(recipe))
        print(f"{name} by {workers}: status {status}, {len(text)} bytes, digest {digest(text.encode())}", flush=True)
        if len(sys.argv) > 2:
            print(expanded(recipe).decode(), text, sep="\n")


if __name__ == "__main__":
    main()

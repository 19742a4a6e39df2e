#!/usr/bin/python3
"""Plants one mistake after another in a service. The loop that has to find it must end with a fault within a minute."""
import pathlib
import subprocess
import sys
import time

HERE = pathlib.Path(__file__).resolve().parent
SECONDS = 60


def names():
    """The mistakes and their loops, without what they import."""
    text = (HERE / "mistakes.py").read_text()
    found = {}
    exec(text[text.index("MISTAKES = {"):text.index("def plant")], found)
    return found["MISTAKES"]


def main():
    missed = []
    for name, loop in names().items():
        begun = time.monotonic()
        words = [sys.executable, HERE / f"{loop}.py", "--seconds", str(SECONDS), "--seed", "1", "--mistake", name]
        run = subprocess.run(words, capture_output=True, text=True)
        said = (run.stderr.strip().splitlines() or ["nothing"])[-1]
        is_found = run.returncode == 1 and said.startswith(f"{loop}: seed")
        print(f"planted: {name}: {'found' if is_found else 'MISSED'} in {time.monotonic() - begun:.0f} s by {said}", flush=True)
        missed += [] if is_found else [name]
    if missed:
        sys.exit(f"planted: not found: {', '.join(missed)}")
    print(f"planted: all {len(names())} mistakes were found")


if __name__ == "__main__":
    main()

"""The programs that are compared: those of examples/, docs/BPF.md, the page's examples and tests/native_numbers/, and changed ones. A program is
the length of its record, its code or its text, and its table; the same seed always gives the same ones."""
import json
import pathlib
import random
import re
import sys

ROOT = pathlib.Path(__file__).resolve().parent.parent.parent
sys.path[:0] = [str(ROOT / "tests/changed_input"), str(ROOT / "tools/tests")]
import documents  # noqa: E402
import make_cases  # noqa: E402

SEED = 3
IMAGE_HEAD = 10


def of_image(image):
    """The program of an image, as docs/SCRIPT.md lays it out, or None if its lengths do not fit."""
    if len(image) < IMAGE_HEAD or image[:4] != b"BPE2":
        return None
    record, units, table = (int.from_bytes(image[at:at + 2], "little") for at in (4, 6, 8))
    end = IMAGE_HEAD + 8 * units
    return {"record": record, "code": image[IMAGE_HEAD:end].hex(), "table": image[end:].hex()} if len(image) == end + table else None


def of_script(script):
    """The programs that a script loads."""
    for record, text in re.findall(r"^program \S+ (\d+)\n(.*?)^end$", script, re.M | re.S):
        yield {"record": int(record), "text": text}
    for record, code in re.findall(r"^code \S+ (\d+) ([0-9a-fA-F]*)$", script, re.M):
        yield {"record": int(record), "code": code}
    for image in re.findall(r"^image \S+ ([0-9a-fA-F]+)$", script, re.M):
        if found := of_image(bytes.fromhex(image)):
            yield found


def of_examples():
    for path in sorted((ROOT / "examples").rglob("*.script")):
        yield from of_script(path.read_text())


def of_documents():
    """Those of README.md, docs/TOUR.md, SCRIPT.md and BPF.md, with its traps."""
    for cases in documents.all_cases().values():
        for case in cases.values():
            yield from of_script(case.script)
    for _, _, code, table, _ in documents.traps():
        yield {"record": 16, "code": code.hex(), "table": table.hex()}


def of_page():
    """The examples of the page."""
    for example in json.loads((ROOT / "tools/playground/examples.json").read_text()):
        columns = len(example.get("columns", "").splitlines())
        yield {"record": 16 + len(example.get("argument", "")) // 2 + 16 * columns, "text": example["program"]}


def changed(count):
    """So many programs of which most differ in one byte from a valid one; one in 16 is a random one with a table."""
    choice = random.Random(SEED)
    codes, texts, images = make_cases.valid_programs()
    while count > 0:
        kind = choice.randrange(16)
        if kind == 0:
            program = of_image(make_cases.random_image(choice))
        elif kind < 3:
            program = of_image(make_cases.changed(choice, choice.choice(images), range(256)))
        elif kind < 9:
            record, valid = choice.choice(codes)
            program = {"record": record, "code": make_cases.changed(choice, valid, range(256)).hex()}
        else:
            record, valid = choice.choice(texts)
            program = {"record": record, "text": make_cases.changed(choice, valid, make_cases.ALLOWED + [10]).decode("latin-1")}
        if program:
            count -= 1
            yield program

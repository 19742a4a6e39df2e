#!/usr/bin/env python3
"""Draws the pictures of docs/ by headless Chromium: `edgebpf-explain --html` of a program that is refused, the page of edgebpf-serve, and the playground.

    tools/dev/make_pictures.py             draws them
    tools/dev/make_pictures.py --compare   draws them elsewhere, and compares: the same size, and few other points, since fonts differ
"""
import contextlib
import json
import pathlib
import random
import shutil
import subprocess
import sys
import tempfile
import time
import urllib.error
import urllib.request

TOP = pathlib.Path(__file__).resolve().parent.parent.parent
LENGTH, PORT = "20", 8099
SECONDS = 20
# A point differs where one of its colours does by more than so much, and so many points of a picture may.
OTHER_COLOUR, OTHER_POINTS = 48, 0.05
PROGRAM = """\
    ldxw r3, [r1+4]         ; the target
    mod r3, 4               ; its kind, 0 to 3
    mov r4, r1
    add r4, r3              ; so many bytes further in the record
    ldxb r0, [r4+16]        ; the weight, out of the four bytes of the argument
    ldxw r5, [r1+8]         ; the place among the neighbours
    jne r5, 0, done
    lsh r0, 1
done:
    ldxb r6, [r4+17]        ; one byte further, which may be outside
    add r0, r6
    exit
"""


def screenshot(browser, page, picture, size, *more):
    flags = ["--headless", "--no-sandbox", "--disable-gpu", "--virtual-time-budget=3000", f"--window-size={size}", *more]
    subprocess.run([browser, *flags, f"--screenshot={picture}", page], check=True, stderr=subprocess.DEVNULL)


def explained(browser, picture):
    with tempfile.TemporaryDirectory() as folder:
        page = f"{folder}/page.html"
        subprocess.run([TOP / "tools" / "edgebpf-explain", LENGTH, "--html", page], input=PROGRAM, text=True, stdout=subprocess.DEVNULL)
        screenshot(browser, page, picture, "1000,520")


def post(path, body):
    heads = {"Content-Type": "application/json"}
    request = urllib.request.Request(f"http://127.0.0.1:{PORT}{path}", json.dumps(body).encode(), heads, method="POST")
    urllib.request.urlopen(request).read()


def wait_for(server):
    """Waits until the server answers."""
    for _ in range(10 * SECONDS):
        with contextlib.suppress(urllib.error.URLError):
            return urllib.request.urlopen(f"http://127.0.0.1:{PORT}/").read()
        if server.poll() is not None:
            break
        time.sleep(0.1)
    sys.exit("make_pictures: the service does not answer")


def served(browser, picture):
    with tempfile.TemporaryDirectory() as folder:
        words = [TOP / "tools" / "edgebpf-serve", "--data", folder, "--vertices", "200", "--listen", f"127.0.0.1:{PORT}", "--reserve-bytes", "0"]
        server = subprocess.Popen(words, stderr=subprocess.DEVNULL)
        try:
            wait_for(server)
            chance = random.Random(3)
            post("/batches", {"edits": [[int(200 * chance.random() ** 2), chance.randrange(200)] for _ in range(600)]})
            screenshot(browser, f"http://127.0.0.1:{PORT}/#vertex=7&steps=1", picture, "1280,740", "--hide-scrollbars")
        finally:
            server.terminate()
            server.wait()


def played(browser, picture):
    screenshot(browser, (TOP / "docs/playground.html").as_uri(), picture, "1280,740", "--hide-scrollbars")


def is_like(picture, kept):
    """Whether two pictures show the same, but for fonts."""
    from PIL import Image, ImageChops

    drawn, known = (Image.open(path).convert("RGB") for path in (picture, kept))
    if drawn.size != known.size:
        return False
    others = sum(max(point) > OTHER_COLOUR for point in ImageChops.difference(drawn, known).getdata())
    print(f"make_pictures: {kept.name}: {others / len(drawn.getdata()):.1%} of the points differ")
    return others <= OTHER_POINTS * len(drawn.getdata())


def main():
    browser = shutil.which("chromium") or sys.exit("make_pictures: chromium is needed: apt-get install chromium")
    draws = {"explain.png": explained, "service.png": served, "playground.png": played}
    if sys.argv[1:] != ["--compare"]:
        for name, draw in draws.items():
            draw(browser, TOP / "docs" / name)
        return
    with tempfile.TemporaryDirectory() as folder:
        for name, draw in draws.items():
            draw(browser, pathlib.Path(folder) / name)
            is_like(pathlib.Path(folder) / name, TOP / "docs" / name) or sys.exit(f"make_pictures: docs/{name} shows something else: draw it again")


if __name__ == "__main__":
    main()

#!/usr/bin/env python3
"""Draws docs/house.svg: the crates as crates.txt has them, each above all that it uses, the programs' tower at the left and the store's at the right.

    tools/dev/draw_house.py

A line leads from a crate to one that it uses, but for those that it also reaches by another line.
"""
import html
import sys
from collections import namedtuple
from pathlib import Path

sys.dont_write_bytecode = True
import write_pages  # noqa: E402
import write_parts  # noqa: E402

TOP = Path(__file__).resolve().parent.parent.parent
PICTURE = TOP / "docs" / "house.svg"
LETTER, BOX_HEIGHT, LEVEL_HEIGHT, GAP, PAD, EDGE, HEAD, FOOT = 7, 24, 54, 12, 8, 20, 30, 34
# The towers from left to right. What knows both stands between them, above what neither needs.
LEFT, MIDDLE, RIGHT = ("Programs",), ("Both", "Base"), ("Store",)
TITLES = {LEFT: "programs: what they mean, and how they are verified and run", MIDDLE: "over both, and below both", RIGHT: "the store: lists, versions, threads"}
FONT = "ui-monospace, 'DejaVu Sans Mono', Menlo, Consolas, monospace"
STYLE = f"""\
text {{ font: 12px {FONT}; fill: #1a1a1a }}
.title {{ font: 13px sans-serif; fill: #555 }}
rect {{ fill: #fff; stroke: #7a8aa0 }}
.ends rect {{ fill: #e4eefb; stroke: #1f5fae; stroke-width: 2 }}
.tests rect {{ fill: #f6f6f6; stroke: #999; stroke-dasharray: 4 3 }}
path {{ fill: none; stroke: #9aa7b8; stroke-width: 0.8 }}"""

Box = namedtuple("Box", "name x y width")


def reduced(uses):
    """Of each crate those that it uses and reaches by no other one that it uses."""
    below = {}
    for crate, used in uses.items():
        below[crate] = set(used).union(*(below[one] for one in used))
    return {crate: [one for one in used if not any(one in below[other] for other in used)] for crate, used in uses.items()}


def width_of(name):
    return LETTER * len(name) + 2 * PAD


def rows_of(part):
    """The crates of a part of the house, level by level, the lowest one first."""
    level, tower = write_pages.placed()
    return [[crate for crate in level if level[crate] == height and tower[crate] in part] for height in range(1, max(level.values()) + 1)]


def widest(rows):
    return max(sum(map(width_of, row)) + GAP * (len(row) - 1) for row in rows)


def place(rows, left, room, known):
    """Boxes in the middle of a part; on a level in the order of the middles of what each stands on."""
    lines, boxes = reduced(write_pages.uses()), {}
    for height, row in enumerate(rows):
        def middle(crate):
            found = [known[one].x + known[one].width / 2 for one in lines[crate] if one in known]
            return sum(found) / len(found) if found else left + room / 2

        x = left + (room - sum(map(width_of, row)) - GAP * (len(row) - 1)) / 2
        for crate in sorted(row, key=lambda crate: (middle(crate), crate)):
            boxes[crate] = Box(crate, x, HEAD + LEVEL_HEIGHT * (len(rows) - 1 - height), width_of(crate))
            x += boxes[crate].width + GAP
        known |= boxes
    return boxes


def house():
    """All boxes by name, the titles of the parts with their middles, and the size."""
    boxes, titles, left = {}, [], EDGE
    for part in (LEFT, MIDDLE, RIGHT):
        rows = rows_of(part)
        room = widest(rows)
        boxes |= place(rows, left, room, dict(boxes))
        titles.append((TITLES[part], left + room / 2))
        left += room + 2 * EDGE
    return boxes, titles, (left - EDGE, HEAD + LEVEL_HEIGHT * len(rows) + FOOT)


def kind_of(crate):
    """`tests`, `ends` of what a user runs or links, or nothing."""
    page = (TOP / "docs" / "ARCHITECTURE.md").read_text()
    tests = next(line for line in page.splitlines() if line.startswith("| tests |"))
    if f"`{crate}`" in tests:
        return "tests"
    line = next(line for line in (TOP / "crates.txt").read_text().splitlines() if line.split(":")[0].split()[:1] == [crate])
    return "ends" if "staticlib" in line or (TOP / "crates" / crate / "src" / "main.rt").exists() else ""


def line(upper, lower):
    """A curve from the bottom of a box to the top of a lower one."""
    x, y, to_x, to_y = upper.x + upper.width / 2, upper.y + BOX_HEIGHT, lower.x + lower.width / 2, lower.y
    return f'<path d="M{x:.1f} {y} C{x:.1f} {y + 18} {to_x:.1f} {to_y - 18} {to_x:.1f} {to_y}"/>'


def drawn(box):
    kind, about = kind_of(box.name), html.escape(write_parts.first_sentence(write_pages.about(box.name)), quote=False)
    words = f'<text x="{box.x + PAD:.1f}" y="{box.y + 16}" textLength="{LETTER * len(box.name)}" lengthAdjust="spacingAndGlyphs">{box.name}</text>'
    shape = f'<rect x="{box.x:.1f}" y="{box.y}" width="{box.width}" height="{BOX_HEIGHT}" rx="3"/>'
    return f'<g{f" class={chr(34)}{kind}{chr(34)}" if kind else ""}><title>{box.name}: {about}</title>{shape}{words}</g>'


def picture():
    boxes, titles, (width, height) = house()
    lines = [line(boxes[crate], boxes[one]) for crate, used in reduced(write_pages.uses()).items() for one in used]
    said = [f'<text class="title" x="{x:.1f}" y="18" text-anchor="middle">{title}</text>' for title, x in titles]
    legend = (f'<text class="title" x="{EDGE}" y="{height - 12}">Each crate stands above all that it uses. Blue: what a user runs or links. '
              'Dashed: tests. A line leads to a crate that is used, but for those that another line leads to.</text>')
    return "\n".join([
        f'<svg xmlns="http://www.w3.org/2000/svg" width="{width:.0f}" height="{height:.0f}" viewBox="0 0 {width:.0f} {height:.0f}" role="img">',
        "<title>The crates of edgebpf, and what each stands on</title>", f"<style>\n{STYLE}\n</style>",
        '<rect width="100%" height="100%" style="stroke: none"/>', *lines, *map(drawn, boxes.values()), *said, legend, "</svg>", ""])


if __name__ == "__main__":
    PICTURE.write_text(picture())

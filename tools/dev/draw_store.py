#!/usr/bin/env python3
"""Draws docs/version.svg, what two versions in memory have and share, and docs/threads.svg, which thread has which end of a store.

    tools/dev/draw_store.py

A box is a type of the sources, and is not drawn if no crate has it. Numbers are the constants of the sources.
"""
import re
import sys
from collections import namedtuple
from pathlib import Path

sys.dont_write_bytecode = True
import write_limits  # noqa: E402
from draw_house import FONT  # noqa: E402

TOP = Path(__file__).resolve().parent.parent.parent
WIDTH, HEIGHT, LINE, PAD = 176, 44, 16, 10
STYLE = f"""\
text {{ font: 12px {FONT}; fill: #1a1a1a }}
.note {{ font: 12px sans-serif; fill: #555 }}
.title {{ font: 13px sans-serif; fill: #555 }}
rect {{ fill: #fff; stroke: #7a8aa0 }}
.made rect {{ fill: #e4eefb; stroke: #1f5fae; stroke-width: 2 }}
.made path {{ stroke: #1f5fae; stroke-width: 1.6 }}
path {{ fill: none; stroke: #9aa7b8; stroke-width: 1 }}"""

# `of` names a type by its crate: CRATE::TYPE.
Box = namedtuple("Box", "of note x y kind", defaults=[""])


def number(crate, name):
    return f"{write_limits.constant(crate, name).value:,}"


def name_of(box):
    """The type's name, once it is found in its crate."""
    crate, name = box.of.split("::")
    if not any(re.search(rf"(struct|enum|trait) {name}\b", path.read_text()) for path in (TOP / "crates" / crate / "src").rglob("*.rt")):
        raise LookupError(f"no source of {crate} has a type {name}")
    return name


def drawn(box):
    words = f'<text x="{box.x + PAD}" y="{box.y + 18}">{name_of(box)}</text><text class="note" x="{box.x + PAD}" y="{box.y + 18 + LINE}">{box.note}</text>'
    return f'<g class="{box.kind}"><title>{box.of}</title><rect x="{box.x}" y="{box.y}" width="{WIDTH}" height="{HEIGHT}" rx="3"/>{words}</g>'


def down(upper, lower):
    """A curve from the bottom of a box to the top of a lower one."""
    x, y, to_x, to_y = upper.x + WIDTH / 2, upper.y + HEIGHT, lower.x + WIDTH / 2, lower.y
    return f'<g class="{upper.kind}"><path d="M{x:.0f} {y} C{x:.0f} {y + 18} {to_x:.0f} {to_y - 18} {to_x:.0f} {to_y}"/></g>'


def along(left, right, said=""):
    """An arrow from the right side of a box to the left side of another, and what it says."""
    x, y, to_x, to_y = left.x + WIDTH, left.y + HEIGHT / 2, right.x, right.y + HEIGHT / 2
    words = f'<text class="note" x="{(x + to_x) / 2:.0f}" y="{(y + to_y) / 2 - 6:.0f}" text-anchor="middle">{said}</text>' if said else ""
    return f'<path d="M{x} {y:.0f} L{to_x - 7} {to_y:.0f} m-5 -4 l6 4 l-6 4"/>{words}'


def picture(title, width, height, lines, boxes, notes):
    said = [f'<text class="title" x="{x}" y="{y}">{text}</text>' for text, x, y in notes]
    return "\n".join([
        f'<svg xmlns="http://www.w3.org/2000/svg" width="{width}" height="{height}" viewBox="0 0 {width} {height}" role="img">', f"<title>{title}</title>",
        f"<style>\n{STYLE}\n</style>", '<rect width="100%" height="100%" style="stroke: none"/>', *lines, *map(drawn, boxes), *said, "</svg>", ""])


def version():
    """Two versions, the second one after a batch that edits one vertex."""
    rows, columns = [30 + 72 * height for height in range(6)], [20, 212, 404, 620]
    first = [Box("version::Version", "the one before", columns[0], rows[0]), Box("shard_table::Table", "all shards, in blocks", columns[0], rows[1])]
    blocks = [Box("shard_table::Block", "shards side by side", columns[place], rows[2]) for place in (0, 1)]
    shards = [Box("shards::Shard", f"{number('past_model', 'RANGE_VERTICES')} vertices", columns[place], rows[3]) for place in (0, 1, 2)]
    pages = [Box("shards::Lists", f"a page, 4 to {number('shards', 'PAGE_VERTICES')} vertices", columns[place], rows[4]) for place in (0, 1, 2)]
    homes = [Box(of, note, columns[place], rows[5]) for place, (of, note) in enumerate((
        ("vertex_block::VertexBlock", "few neighbours"), ("gapped_array::GappedArray", "more, one for a page"), ("neighbour_btree::NeighbourTree", "many")))]
    new = [Box(of, note, columns[3], rows[height], "made") for height, (of, note) in enumerate((
        ("version::Version", "after one edit"), ("shard_table::Table", "shares other blocks"), ("shard_table::Block", "shares other shards"),
        ("shards::Shard", "shares other pages"), ("shards::Lists", "the page of the vertex")))]
    pairs = [(first[0], first[1]), *((first[1], block) for block in blocks), (blocks[0], shards[0]), (blocks[1], shards[1]), (blocks[1], shards[2])]
    pairs += [(shards[1], pages[0]), (shards[1], pages[1]), (shards[2], pages[2])] + [(pages[1], home) for home in homes]
    pairs += [*zip(new, new[1:]), (new[1], blocks[0]), (new[2], shards[2]), (new[3], pages[0])]
    notes = [("Blue: what the version after one edit has for itself. A blue line to a white box leads to what both versions have.", 20, rows[5] + 76)]
    return picture("What two versions in memory have and share", 816, rows[5] + 96, [down(*pair) for pair in pairs], [*first, *blocks, *shards, *pages, *homes, *new], notes)


def threads():
    """The ends of a store, from the feeds to the readers."""
    columns, rows = [20, 276, 532, 788], [40, 120, 200, 280]
    feeds = [Box("store::Feed", f"{letter}, in a thread", columns[0], row) for letter, row in zip("ABCD"[:write_limits.constant("past_model", "FEEDS").value], rows)]
    queue = Box("store::Sender", f"a queue of {number('store_model', 'QUEUE_PLACES')} batches", columns[1], 160)
    publisher = Box("store::Publisher", "in one thread", columns[2], 160, "made")
    workers = Box("workers::Workers", f"1 to {number('workers', 'MOST_WORKERS')} for a batch", columns[2], 280)
    receipt = Box("store::Receipt", "what it did", columns[2], 40)
    board = Box("store::Board", "shows one version", columns[3], 160)
    reader = Box("store::Reader", "each in a thread", columns[3], 240)
    pin = Box("store::Pin", "a version that stays", columns[3], 320)
    lines = [along(feed, queue, "submit" if feed is feeds[0] else "") for feed in feeds] + [along(queue, publisher, "step"), along(publisher, board, "shows")]
    lines += [down(publisher, workers), down(board, reader), down(receipt, publisher), down(reader, pin)]
    notes = [("Feeds submit batches, and a step publishes one. A reader pins the version that is shown.", 20, 390)]
    return picture("Which thread has which end of a store", 984, 410, lines, [*feeds, queue, publisher, workers, receipt, board, reader, pin], notes)


if __name__ == "__main__":
    for name, drawing in (("version", version), ("threads", threads)):
        (TOP / "docs" / f"{name}.svg").write_text(drawing())

#!/usr/bin/env python3
"""The packing of a tree said once more in another language, plainly, and compared with what the tests of rt_tree expect.

usage: tests/packing.py [--rows]

Nothing in here is of the crate's code or of its definitions. A test of rt_tree makes the tables that are made here,
packs them, and identifies each whole tree, every entry and every node of it, by one number:
`crates/rt_tree_tests/src/trees.rt` has the expected numbers. They are compared with those of the trees that
are packed here. `--rows` prints the rows of that file in place of that. The last line is `N passed, M failed`.
"""

import math
import re
import sys
from collections import namedtuple
from pathlib import Path

ROWS = Path(__file__).resolve().parent.parent / "crates/rt_tree_tests/src/trees.rt"
ROW = re.compile(r"\(Kind::(\w+), (\d+), (\d+), (0x[0-9a-f]+)\)")
FANOUTS = 2, 3, 4, 16, 64
FACTOR = 6364136223846793005


# A box is its four sides. An entry has one layer, and a node those of its children, as a set.
Entry = namedtuple("Entry", ["id", "box", "layer"])
Node = namedtuple("Node", ["box", "level", "first", "count", "size", "layers"])


# ---- the tables


class Chance:
    """Numbers of 16 bits, each made of the one before."""

    def __init__(self):
        self.state = 12345

    def below(self, end):
        self.state = (self.state * 1103515245 + 12345) % 2**32
        return self.state // 65536 % end

    def coordinate(self):
        return self.below(65536) * 65536 + self.below(65536) - 2**31


def strewn(place, chance):
    """A small box somewhere, with ids in no order, on any layer."""
    x, y = chance.below(1000), chance.below(1000) - 500
    box = x, x + chance.below(16), y, y + chance.below(32)
    return Entry(place * 7919 % 1_000_003, box, chance.below(64))


def one_place(place, chance):
    """All boxes in one place, with ids that fall, on one layer."""
    return Entry(-place, (7, 9, -7, -7), 0)


def one_line(place, chance):
    """Points on a line, many in one place, with ids at both ends of their range and layers that go with the place."""
    x = chance.below(50)
    return Entry(2**63 - 1 - place if place % 2 else place - 2**63, (x, x, 0, 0), x)


def whole_plane(place, chance):
    """Boxes as large as the plane, with ids that rise. One has a layer of its own, the others have three."""
    a, b, c, d = (chance.coordinate() for _ in range(4))
    return Entry(place, (min(a, b), max(a, b), min(c, d), max(c, d)), place % 3 if place else 63)


KINDS = {"Strewn": strewn, "OnePlace": one_place, "OneLine": one_line, "WholePlane": whole_plane}


def sizes(fanout):
    return 0, 1, fanout, fanout + 1, fanout**2, fanout**2 + 1


# ---- the packing


def groups(items, fanout):
    """The items in tiles: slices by the middles on x, cut by the middles on y; equal middles by place."""
    count = math.ceil(len(items) / fanout)
    side = math.isqrt(count - 1) + 1 if count else 0
    places = sorted(range(len(items)), key=lambda place: (items[place].box[0] + items[place].box[1], place))
    tiles = []
    for start in range(0, len(places), max(1, side * fanout)):
        piece = places[start : start + side * fanout]
        piece.sort(key=lambda place: (items[place].box[2] + items[place].box[3], place))
        tiles += [[items[place] for place in piece[at : at + fanout]] for at in range(0, len(piece), fanout)]
    return tiles


def node(children, level, first):
    """The node over these children, of which the first has this number."""
    hull = (
        min(child.box[0] for child in children),
        max(child.box[1] for child in children),
        min(child.box[2] for child in children),
        max(child.box[3] for child in children),
    )
    if level == 1:
        return Node(hull, level, first, len(children), len(children), {entry.layer for entry in children})
    layers = set().union(*(child.layers for child in children))
    return Node(hull, level, first, len(children), sum(child.size for child in children), layers)


def nodes_over(tiles, level, first):
    made = []
    for tile in tiles:
        made.append(node(tile, level, first))
        first += len(tile)
    return made


def packed(table, fanout):
    """The entries by place, the nodes by number, and how many there are on each level."""
    tiles = groups(sorted(table), fanout)
    entries = [entry for tile in tiles for entry in tile]
    nodes, levels = [], [len(entries)]
    made = nodes_over(tiles, 1, 0)
    level = 1
    while made:
        levels.append(len(made))
        tiles = groups(made, fanout)
        first = len(nodes)
        nodes += [child for tile in tiles for child in tile]
        if len(made) == 1:
            break
        level += 1
        made = nodes_over(tiles, level, first)
    return entries, nodes, levels


# ---- the number of a tree


def digest_of(numbers):
    """One number for many, of 64 bits."""
    all_of_them = 0
    for number in numbers:
        all_of_them = (all_of_them * FACTOR + number) % 2**64
    return all_of_them


def numbers_of(entries, nodes, levels):
    yield len(entries)
    for entry in entries:
        yield entry.id
        yield from entry.box
        yield entry.layer
    yield len(nodes)
    for number, node in enumerate(nodes):
        yield number
        yield from node.box
        yield from (node.level, node.first, node.count, node.size)
        yield sum(2**layer for layer in node.layers)
    yield len(levels)
    yield from levels


def rows():
    for kind, entry in KINDS.items():
        for fanout in FANOUTS:
            for count in sizes(fanout):
                chance = Chance()
                table = [entry(place, chance) for place in range(count)]
                yield kind, fanout, count, digest_of(numbers_of(*packed(table, fanout)))


def main():
    if sys.argv[1:] == ["--rows"]:
        for kind, fanout, count, number in rows():
            print(f"    (Kind::{kind}, {fanout}, {count}, {number:#018x}),")
        return 0
    stored = [
        (kind, int(fanout), int(count), int(number, 16))
        for kind, fanout, count, number in ROW.findall(ROWS.read_text())
    ]
    own = list(rows())
    wrong = [row for row in own if row not in stored] + [row for row in stored if row not in own]
    for kind, fanout, count, number in wrong:
        print(f"{kind}, fanout {fanout}, {count} entries: {number:#018x} stands on one side alone")
    print(f"{len(own) - len([row for row in own if row not in stored])} passed, {len(wrong)} failed")
    return 1 if wrong else 0


if __name__ == "__main__":
    sys.exit(main())

#!/usr/bin/env python3
"""Random tables, searched by a plain best-first search of this script's own.

It makes the tables of crates/rt_search_tests/src/random.rt, packs them sort-tile-recursively, searches and counts in
them, on all layers and on some, and compares a digest of all answers, of the nodes opened after each and of the checks
made with the number that stands there. A test of the crate compares the same number with what its search reports. The
last line is `N passed, M failed`.

usage: tests/search.py [--rows]

`--rows` prints the number of each case in place of that.
"""

import heapq
import math
import os
import re
import sys

TEST = os.path.join(os.path.dirname(__file__), '..', 'crates', 'rt_search_tests', 'src', 'random.rt')
LEAST, MOST = -2**31, 2**31 - 1
ENDS = [LEAST, -1, 0, 1, MOST]
QUERIES = 3
MOST_ANSWERS = 12
ALL_LAYERS = 64
NOT, PARTLY, FULLY = range(3)


class Row:
    """The fixed row of numbers below 2^31."""

    def __init__(self, seed):
        self.state = seed

    def next(self):
        self.state = (self.state * 6364136223846793005 + 1442695040888963407) % 2**64
        return self.state >> 33

    def sides(self, lie):
        if lie is None:
            return sorted([ENDS[self.next() % 5], ENDS[self.next() % 5]])
        reach, width = lie
        low = self.next() % (2 * reach + 1) - reach
        return low, low + self.next() % (width + 1)

    def box(self, lie):
        return (*self.sides(lie), *self.sides(lie))

    def entry(self, place, lie, layers):
        """A box and its layer: one of a number of layers, at random, or, without a number, by the box's index."""
        box = self.box(lie)
        layer = self.next() % layers if layers else (box[0] - LEAST) * ALL_LAYERS // 2**32
        return Item(box, 0, None, place * 7919 % 65537 - 32768, {layer})


# ---- the tree

class Item:
    """An entry, on level 0, or a node with its children. It has the layers of all that lies under it."""

    def __init__(self, box, level, children, number, layers):
        self.box, self.level, self.children, self.number, self.layers = box, level, children, number, layers


def over(children, level):
    """The node over these children, without a number."""
    return Item(hull([it.box for it in children]), level, children, None, {on for it in children for on in it.layers})


def hull(boxes):
    return (min(b[0] for b in boxes), max(b[1] for b in boxes), min(b[2] for b in boxes), max(b[3] for b in boxes))


def pieces(items, size):
    return [items[i:i + size] for i in range(0, len(items), size)]


def groups(items, fanout):
    """Sorted by the middle on the x axis and cut into slices, each sorted on the y axis and cut; sorts are stable."""
    nodes = -(-len(items) // fanout)
    side = math.isqrt(nodes - 1) + 1
    in_x = sorted(items, key=lambda item: item.box[0] + item.box[1])
    # places among the items decide between equal middles, on the y axis too
    place = {id(item): i for i, item in enumerate(items)}
    for part in pieces(in_x, side * fanout):
        yield from pieces(sorted(part, key=lambda item: (item.box[2] + item.box[3], place[id(item)])), fanout)


def pack(entries, fanout):
    """The root, its nodes numbered level by level."""
    items, level, first = sorted(entries, key=lambda entry: entry.number), 0, 0
    while items and (level == 0 or len(items) > 1):
        cut = list(groups(items, fanout))
        if level > 0:
            number = first
            for group in cut:
                for node in group:
                    node.number = number
                    number += 1
            first = number
        level += 1
        items = [over(group, level) for group in cut]
    if not items:
        return None
    items[0].number = first
    return items[0]


# ---- what is asked

def gap(value, low, high):
    return max(low - value, value - high, 0)


def near2(point, box):
    return gap(point[0], box[0], box[1]) ** 2 + gap(point[1], box[2], box[3]) ** 2


def far2(point, box):
    return sum(max(abs(p - low), abs(p - high)) ** 2 for p, low, high in ((point[0], *box[:2]), (point[1], *box[2:])))


def everything(item):
    return FULLY


def in_window(window):
    def state(item):
        a, b = window, item.box
        if a[0] > b[1] or b[0] > a[1] or a[2] > b[3] or b[2] > a[3]:
            return NOT
        return FULLY if a[0] <= b[0] and b[1] <= a[1] and a[2] <= b[2] and b[3] <= a[3] else PARTLY
    return state


def in_circle(centre, radius):
    def state(item):
        if near2(centre, item.box) > radius ** 2:
            return NOT
        return FULLY if far2(centre, item.box) <= radius ** 2 else PARTLY
    return state


def on_layers(inner, selected):
    """The boxes of which a layer is asked for. A node is full only if all of its layers are."""
    def state(item):
        if not item.layers & selected:
            return NOT
        return inner(item) if item.layers <= selected else min(inner(item), PARTLY)
    return state


def ranks(point):
    return [lambda item: 0,
            lambda item: near2(point, item.box),
            lambda item: (item.box[1] - item.box[0]) * (item.box[3] - item.box[2]) if item.level == 0 else 0]


# ---- searches

def search(root, state, score, limit):
    """The answers with the nodes opened up to each, and the nodes opened and the checks made in the end."""
    queue, opened, checks, found = [], 0, 0, []
    if root and limit != 0:
        queue.append((0, 0, root.number, root))
    while queue and (limit is None or len(found) < limit):
        value, is_entry, number, item = heapq.heappop(queue)
        if is_entry:
            found.append((number, value, opened))
            continue
        opened += 1
        for child in item.children:
            checks += 1
            if state(child) != NOT:
                heapq.heappush(queue, (score(child), int(child.level == 0), child.number, child))
    return found, opened, checks


def size(item):
    return 1 if item.level == 0 else sum(size(child) for child in item.children)


def count(root, state):
    """How many are accepted, the nodes opened and the checks made."""
    counts = [0, 0, 0]

    def open_node(node):
        counts[1] += 1
        for child in node.children:
            counts[2] += 1
            within = state(child)
            if within == FULLY or (within == PARTLY and child.level == 0):
                counts[0] += size(child)
            elif within == PARTLY:
                open_node(child)

    if root:
        open_node(root)
    return counts


class Digest:
    def __init__(self):
        self.value = 14695981039346656037

    def add(self, *numbers):
        for number in numbers:
            self.value = (self.value ^ number) * 1099511628211 % 2**64


def add_geometry(digest, root, state, score):
    for limit in [None, *range(1, MOST_ANSWERS + 1)]:
        found, opened, checks = search(root, state, score, limit)
        for id_, value, opened_then in found:
            digest.add(id_ + 32768, value >> 64, value % 2**64, opened_then)
        if limit is None or len(found) < limit:
            digest.add(opened)
        digest.add(checks)
    digest.add(*count(root, state))


def digest_of(seed, lie, entries, fanout, layers):
    row = Row(seed)
    root = pack([row.entry(place, lie, layers) for place in range(entries)], fanout)
    digest = Digest()
    for _ in range(QUERIES):
        area, around = row.box(lie), row.box(lie)
        point = around[0], around[2]
        radius = abs(around[1] - area[1])
        selected = {row.next() % (layers or ALL_LAYERS) for _ in range(2)}
        for shape in in_window(area), in_circle(point, radius), everything:
            for state in shape, on_layers(shape, selected):
                for score in ranks(point):
                    add_geometry(digest, root, state, score)
    return digest.value


def cases(text):
    """The cases of random.rt, each with the number that stands there."""
    number = r'([\d_]+)'
    lie, kinds = rf'(?:Lie::Spread\({number}, {number}\)|Lie::Ends)', rf'(?:Kinds::AnyOf\({number}\)|Kinds::ByPlace)'
    fields = {'seed': number, 'lie': lie, 'entries': number, 'fanout': number, 'kinds': kinds, 'digest': number}
    row = re.compile(r'Case \{\s*' + ''.join(rf'{name}: {value},\s*' for name, value in fields.items()) + r'\}')
    for match in row.finditer(text):
        seed, reach, width, entries, fanout, layers, stored = (part and int(part) for part in match.groups())
        yield (seed, None if reach is None else (reach, width), entries, fanout, layers), stored


def main():
    with open(TEST) as file:
        text = file.read()
    passed = failed = 0
    for case, stored in cases(text):
        mine = digest_of(*case)
        if sys.argv[1:] == ['--rows']:
            print(f'seed {case[0]}: {mine:_}')
        elif mine == stored:
            passed += 1
        else:
            failed += 1
            print(f'seed {case[0]}: {mine:_} is not the number in random.rt, {stored:_}')
    if len(list(cases(text))) != len(re.findall(r'seed: \d', text)):
        failed += 1
        print('a case of random.rt was not read')
    print(f'{passed} passed, {failed} failed')
    return failed != 0


if __name__ == '__main__':
    sys.exit(main())

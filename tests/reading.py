#!/usr/bin/env python3
"""The rules of docs/ said once more in another language, plainly: what a run of the program gives.

usage: tests/reading.py [-H|--header] [--fanout M] [--max-entries N] TABLE [QUERIES]

Nothing in here is of the program's code or of its definitions. The table is read as docs/tables.md says, a query
as docs/query-language.md does, and answers come from a look at every box. A box is its `min_x, max_x, min_y, max_y`,
and in a table its layer behind them. The nodes that a `cost` line asks about are counted by a search of the tree that
`search.py` packs.
"""

import argparse
import functools
import re
import sys
from collections.abc import Callable
from fractions import Fraction
from typing import NamedTuple

sys.dont_write_bytecode = True
import search
from search import FULLY, NOT, PARTLY

LONGEST_LINE = 4096
MARK = b"\xef\xbb\xbf"
COORDINATES = -(2**31), 2**31 - 1
IDS = -(2**63), 2**63 - 1
RADII = 0, 2**32 - 1
LIMITS = 0, 2**64 - 1
VERTICES = 3, 16
LAYERS = 0, 63

FAULTS = {
    "Q1": "line too long",
    "Q2": "unknown verb",
    "Q3": "unknown region",
    "Q4": "missing word",
    "Q5": "not a number",
    "Q6": "out of range",
    "Q7": "minimum above maximum",
    "Q8": "vertex count",
    "Q9": "polygon not strictly convex",
    "Q10": "stray word",
}


def number(text):
    """The number that a text writes, or None."""
    return int(text) if re.fullmatch(rb"[+-]?[0-9]+", text) else None


def is_in(value, ends):
    return ends[0] <= value <= ends[1]


# ---- the table


def records(text):
    """The records of a CSV text, each the list of its fields, byte by byte."""
    found, fields, field, state = [], [], b"", "record"
    for code in text.removeprefix(MARK):
        byte = bytes([code])
        if state == "quotes":
            if byte == b'"':
                state = "quote"
            else:
                field += byte
        elif state == "quote" and byte == b'"':
            field, state = field + byte, "quotes"
        elif byte in b"\r\n":
            if state != "record":
                found.append([*fields, field])
            fields, field, state = [], b"", "record"
        elif byte == b",":
            fields, field, state = [*fields, field], b"", "field"
        elif byte == b'"' and state in ("record", "field"):
            state = "quotes"
        else:
            field, state = field + byte, "text"
    return found if state == "record" else [*found, [*fields, field]]


def judged(fields, ids):
    """The id, the sides and the layer of a record after those with these ids, or what is wrong with it."""
    if len(fields) not in (5, 6):
        return f"wrong number of fields ({len(fields)})"
    numbers = [number(text) for text in fields]
    for at, (value, ends) in enumerate(zip(numbers, [IDS, *[COORDINATES] * 4, LAYERS]), 1):
        if value is None:
            return f"field {at} is not a number"
        if not is_in(value, ends):
            return f"field {at} is out of range"
    for axis, low, high in (("x", 1, 2), ("y", 3, 4)):
        if numbers[low] > numbers[high]:
            return f"minimum above maximum in {axis}"
    if numbers[0] in ids:
        return "repeated id"
    return numbers if len(numbers) == 6 else [*numbers, 0]


def boxes(text, header, most):
    """The boxes of a table by id, or the line that reports its first fault."""
    found = {}
    for at, fields in enumerate(records(text), 1):
        if header and at == 1:
            continue
        record = "too many entries" if len(found) >= most else judged(fields, found)
        if isinstance(record, str):
            return f"rtfilter: table record {at}: {record}\n".encode()
        found[record[0]] = tuple(record[1:])
    return found


# ---- boxes, distances, polygons


def meet(one, other):
    """Whether two boxes share a point."""
    return one[0] <= other[1] and other[0] <= one[1] and one[2] <= other[3] and other[2] <= one[3]


def lies_in(one, other):
    """Whether a box lies in another."""
    return other[0] <= one[0] and one[1] <= other[1] and other[2] <= one[2] and one[3] <= other[3]


def area(box):
    return (box[1] - box[0]) * (box[3] - box[2])


def near2(point, box):
    """The square of the distance of a point to the nearest point of a box."""
    nearest = min(max(point[0], box[0]), box[1]), min(max(point[1], box[2]), box[3])
    return (point[0] - nearest[0]) ** 2 + (point[1] - nearest[1]) ** 2


def turn(a, b, c):
    """Above 0 where c lies to the left of the way from a to b, 0 on its line, below 0 to its right."""
    return (b[0] - a[0]) * (c[1] - a[1]) - (b[1] - a[1]) * (c[0] - a[0])


def is_strictly_convex(vertices):
    """Whether the vertices go round, either way, with each of the others strictly on the inner side of every edge."""
    turns = [
        turn(a, b, c)
        for at, a in enumerate(vertices)
        for b in [vertices[(at + 1) % len(vertices)]]
        for to, c in enumerate(vertices)
        if to not in (at, (at + 1) % len(vertices))
    ]
    return all(it > 0 for it in turns) or all(it < 0 for it in turns)


def cut(vertices, depth):
    """The part of a convex polygon in which `depth`, which is linear along each edge, is at least 0."""
    left, ends = [], [(vertex, depth(vertex)) for vertex in vertices]
    for (a, depth_a), (b, depth_b) in zip(ends, [*ends[1:], *ends[:1]]):
        if depth_a >= 0:
            left.append(a)
        if min(depth_a, depth_b) < 0 < max(depth_a, depth_b):
            part = Fraction(depth_a, depth_a - depth_b)
            left.append((a[0] + part * (b[0] - a[0]), a[1] + part * (b[1] - a[1])))
    return left


@functools.cache
def shares_a_point(vertices, box):
    """Whether a convex polygon and a box share a point: something is left of the polygon between the box's sides."""
    for depth in (
        lambda point: point[0] - box[0],
        lambda point: box[1] - point[0],
        lambda point: point[1] - box[2],
        lambda point: box[3] - point[1],
    ):
        vertices = cut(vertices, depth)
    return bool(vertices)


# ---- query lines


class Fault(Exception):
    """A faulty line, with its code."""


def number_in(text, ends, fault="Q6"):
    """The number that a text writes, if it is one between these ends."""
    value = number(text)
    if value is None:
        raise Fault("Q5")
    if not is_in(value, ends):
        raise Fault(fault)
    return value


class Words:
    """The words of a line, taken from left to right."""

    def __init__(self, line):
        self.left = [word for word in re.split(rb"[ \t]+", line.removesuffix(b"\r")) if word]

    def take(self):
        if not self.left:
            raise Fault("Q4")
        return self.left.pop(0)

    def takes(self, word):
        """Whether the next word is this one, which is then taken."""
        found = self.left[:1] == [word]
        del self.left[:found]
        return found

    def end(self):
        if self.left:
            raise Fault("Q10")

    def number(self, ends, fault="Q6"):
        return number_in(self.take(), ends, fault)

    def point(self):
        return self.number(COORDINATES), self.number(COORDINATES)

    def window(self):
        sides = tuple(self.number(COORDINATES) for _ in range(4))
        if sides[0] > sides[1] or sides[2] > sides[3]:
            raise Fault("Q7")
        return sides

    def polygon(self):
        vertices = tuple(self.point() for _ in range(self.number(VERTICES, "Q8")))
        if not is_strictly_convex(vertices):
            raise Fault("Q9")
        return vertices


def by_id(box):
    return 0


def near(point):
    return lambda box: near2(point, box)


class Region(NamedTuple):
    """Which boxes a region accepts, the score of a box if no order is named, and what is known of the boxes in a node:
    all are accepted (FULLY), none (NOT), or perhaps some (PARTLY)."""

    accepts: Callable
    score: Callable
    state: Callable


def region(words):
    """A region by its name."""
    name = words.take()
    if name == b"all":
        return Region(lambda box: True, by_id, search.everything)
    if name == b"window":
        window = words.window()
        return Region(lambda box: meet(box, window), by_id, search.in_window(window))
    if name == b"inside":
        window = words.window()
        return Region(lambda box: lies_in(box, window), by_id, within(window))
    if name == b"covers":
        window = words.window()
        return Region(lambda box: lies_in(window, box), by_id, covering(window))
    if name == b"circle":
        centre, radius = words.point(), words.number(RADII)
        return Region(lambda box: near2(centre, box) <= radius**2, near(centre), search.in_circle(centre, radius))
    if name == b"polygon":
        vertices = words.polygon()
        return Region(lambda box: shares_a_point(vertices, box), by_id, in_polygon(vertices))
    raise Fault("Q3")


def within(window):
    """A node that meets the window may hold a box that lies in it."""
    meets = search.in_window(window)
    return lambda item: meets(item) if item.level > 0 else FULLY if lies_in(item.box, window) else NOT


def covering(window):
    """A node in which the window lies may hold a box in which it does, and never is sure to."""
    return lambda item: PARTLY if lies_in(window, item.box) else NOT


def in_polygon(vertices):
    """A node lies in the polygon if its corners do."""

    def state(item):
        if not shares_a_point(vertices, item.box):
            return NOT
        corners = ((x, x, y, y) for x in item.box[:2] for y in item.box[2:])
        return FULLY if all(shares_a_point(vertices, corner) for corner in corners) else PARTLY

    return state


def layers(words):
    """The layers that are asked for: those of the list behind `on`, or all."""
    if words.takes(b"on"):
        return {number_in(part, LAYERS) for part in words.take().split(b",")}
    return set(range(LAYERS[0], LAYERS[1] + 1))


def boxes_region(words):
    """A region on the layers that are asked for: of boxes of a table."""
    accepts, score, state = region(words)
    selected = layers(words)
    return Region(lambda box: box[4] in selected and accepts(box), score, search.on_layers(state, selected))


def order(words, otherwise):
    """The score of a box by the order that is named, if one is."""
    if words.takes(b"near"):
        return near(words.point())
    return area if words.takes(b"smallest") else otherwise


def answers(table, accepts, score, limit):
    """The ids and scores of the accepted boxes, by score and then id, as many as the limit lets through."""
    return sorted((score(box), id) for id, box in table.items() if accepts(box))[:limit]


def level_sizes(count, fanout):
    """How many there are of each level, the entries first."""
    sizes = [count]
    while count and (len(sizes) == 1 or sizes[-1] > 1):
        sizes.append(-(-sizes[-1] // fanout))
    return sizes


class Question(NamedTuple):
    """What a `find`, `nearest` or `count` line asks: for which boxes, in which order, and for how many of them."""

    verb: bytes
    region: Region
    score: Callable
    limit: int | None


def question(words):
    """The question that the words of a line ask."""
    verb, limit = words.take(), None
    if verb == b"nearest":
        limit = words.number(LIMITS)
        chosen, score = boxes_region(Words(b"all")), near(words.point())
    elif verb in (b"find", b"count"):
        chosen = boxes_region(words)
        score = order(words, chosen.score) if verb == b"find" else by_id
        if verb == b"find" and words.takes(b"first"):
            limit = words.number(LIMITS)
    else:
        raise Fault("Q2")
    words.end()
    return Question(verb, chosen, score, limit)


def opened(table, fanout, query):
    """How many nodes of the tree over a table are opened to answer a question."""
    root = search.pack([search.Item(box[:4], 0, None, id, {box[4]}) for id, box in table.items()], fanout)
    if query.verb == b"count":
        return search.count(root, query.region.state)[1]

    def least(item):
        """The least score of the boxes in a node: of their areas nothing is known."""
        return 0 if query.score is area and item.level > 0 else query.score(item.box)

    return search.search(root, query.region.state, least, query.limit)[1]


def query_reply(table, fanout, words):
    """The lines that answer a query before the last, and the number in the last one."""
    if words.takes(b"levels"):
        words.end()
        sizes = level_sizes(len(table), fanout)
        return [b"%d %d" % (level, size) for level, size in reversed([*enumerate(sizes)])], len(sizes)
    if words.takes(b"cost"):
        return [], opened(table, fanout, question(words))
    query = question(words)
    if query.verb == b"count":
        return [], sum(map(query.region.accepts, table.values()))
    found = answers(table, query.region.accepts, query.score, query.limit)
    return [b"%d %d" % (id, score) for score, id in found], len(found)


def reply(table, fanout, at, line):
    """The lines that answer line number `at`, and whether it is faulty."""
    try:
        if len(line) > LONGEST_LINE:
            raise Fault("Q1")
        words = Words(line)
        if not words.left or words.left[0].startswith(b"#"):
            return [], False
        lines, count = query_reply(table, fanout, words)
        return [*lines, b"ok %d %d" % (at, count)], False
    except Fault as fault:
        code = str(fault)
        return [f"error {at} {code} {FAULTS[code]}".encode()], True


def lines_of(queries):
    """The lines of query bytes."""
    lines = queries.split(b"\n")
    return lines if lines[-1] else lines[:-1]


def expected(table, queries, header=False, most=2**24, fanout=16):
    """Status, standard output and standard error."""
    found = boxes(table, header, most)
    if isinstance(found, bytes):
        return 3, b"", found
    replies = [reply(found, fanout, at, line) for at, line in enumerate(lines_of(queries), 1)]
    return int(any(bad for _, bad in replies)), b"".join(line + b"\n" for lines, _ in replies for line in lines), b""


def main():
    parser = argparse.ArgumentParser()
    parser.add_argument("-H", "--header", action="store_true")
    parser.add_argument("--fanout", type=int, default=16)
    parser.add_argument("--max-entries", type=int, default=2**24)
    parser.add_argument("table", type=argparse.FileType("rb"))
    parser.add_argument("queries", type=argparse.FileType("rb"), nargs="?", default=sys.stdin.buffer)
    args = parser.parse_args()
    settings = args.header, args.max_entries, args.fanout
    status, output, error = expected(args.table.read(), args.queries.read(), *settings)
    sys.stdout.buffer.write(output)
    sys.stderr.buffer.write(error)
    return status


if __name__ == "__main__":
    sys.exit(main())

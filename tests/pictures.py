#!/usr/bin/env python3
"""Draws the pictures of the pages: docs/pictures/*.svg.

usage: tests/pictures.py [--check]

The railroad diagrams are made from the grammar block of the page. Which boxes of a picture a region accepts is worked
out by `tests/reading.py`, how points are packed by `tests/packing.py`, and distances by `tests/search.py`. With
`--check` nothing is written, and each picture that isn't up to date is a failure; the last line is then
`N passed, M failed`.
"""

import heapq
import re
import sys
from dataclasses import dataclass
from html import escape
from pathlib import Path

ROOT = Path(__file__).resolve().parent.parent
PAGE = ROOT / "docs/query-language.md"
PICTURES = ROOT / "docs/pictures"

sys.dont_write_bytecode = True
import packing
import reading
import search
from svg import ACCEPTED, LINE, MONO, NUMBER, REFUSED, REGION, RETURNED, RULE, SANS, WORD, svg

# ---- railroad diagrams: each piece has a width, and a height above and below the track that runs through it

ARC, GAP = 10, 12


def track(path):
    return f'<path d="{path}" fill="none" stroke="{LINE}" stroke-width="2"/>'


@dataclass
class Stop:
    """A word, a number or the name of a rule."""

    text: str
    fill: str
    corner: int
    up = down = 14

    @property
    def width(self):
        return round(8.5 * len(self.text)) + 24

    def draw(self, x, y):
        shape = f'x="{x:g}" y="{y - 14:g}" width="{self.width}" height="28" rx="{self.corner}" fill="{self.fill}"'
        place = f'x="{x + self.width / 2:g}" y="{y + 5:g}" text-anchor="middle" font-size="14" fill="#ffffff"'
        return [f"<rect {shape}/>", f'<text {place} font-family="{MONO}">{escape(self.text)}</text>']


@dataclass
class InTurn:
    """Pieces one after the other."""

    pieces: list

    def __post_init__(self):
        self.width = sum(piece.width for piece in self.pieces) + GAP * (len(self.pieces) - 1)
        self.up = max(piece.up for piece in self.pieces)
        self.down = max(piece.down for piece in self.pieces)

    def draw(self, x, y):
        parts = []
        for at, piece in enumerate(self.pieces):
            if at:
                parts.append(track(f"M{x:g} {y:g}h{GAP}"))
                x += GAP
            parts += piece.draw(x, y)
            x += piece.width
        return parts


@dataclass
class OneOf:
    """Pieces one below the other, of which one is taken."""

    pieces: list

    def __post_init__(self):
        self.width = max(piece.width for piece in self.pieces) + 4 * ARC
        self.up = self.pieces[0].up
        self.depths, depth = [0], self.pieces[0].down
        for piece in self.pieces[1:]:
            self.depths.append(max(depth + GAP + piece.up, 2 * ARC))
            depth = self.depths[-1] + piece.down
        self.down = depth

    def draw(self, x, y):
        parts, inner = [], x + 2 * ARC
        for depth, piece in zip(self.depths, self.pieces):
            rest = self.width - 4 * ARC - piece.width
            left, right = f"h{2 * ARC}", f"h{rest + 2 * ARC:g}"
            if depth:
                fall = depth - 2 * ARC
                left = f"a{ARC} {ARC} 0 0 1 {ARC} {ARC}v{fall:g}a{ARC} {ARC} 0 0 0 {ARC} {ARC}"
                right = f"h{rest:g}a{ARC} {ARC} 0 0 0 {ARC} -{ARC}v{-fall:g}a{ARC} {ARC} 0 0 1 {ARC} -{ARC}"
            parts += [track(f"M{x:g} {y:g}{left}"), *piece.draw(inner, y + depth)]
            parts.append(track(f"M{inner + piece.width:g} {y + depth:g}{right}"))
        return parts


@dataclass
class MayBe:
    """A piece that the track can pass by, above it."""

    piece: object

    def __post_init__(self):
        self.width = self.piece.width + 4 * ARC
        self.up, self.down = self.piece.up + GAP, self.piece.down

    def draw(self, x, y):
        rise, inner = self.up - 2 * ARC, self.piece.width
        over = f"M{x:g} {y:g}a{ARC} {ARC} 0 0 0 {ARC} -{ARC}v{-rise:g}a{ARC} {ARC} 0 0 1 {ARC} -{ARC}h{inner:g}"
        over += f"a{ARC} {ARC} 0 0 1 {ARC} {ARC}v{rise:g}a{ARC} {ARC} 0 0 0 {ARC} {ARC}"
        through = [track(f"M{x:g} {y:g}h{2 * ARC}"), track(f"M{x + 2 * ARC + inner:g} {y:g}h{2 * ARC}")]
        return [track(over), *through, *self.piece.draw(x + 2 * ARC, y)]


@dataclass
class Again:
    """A piece that is taken once or more, the track leading back below it."""

    piece: object

    def __post_init__(self):
        self.width = self.piece.width + 2 * ARC
        self.up, self.down = self.piece.up, self.piece.down + GAP

    def draw(self, x, y):
        left, right, fall = x + ARC, x + ARC + self.piece.width, self.down - 2 * ARC
        back = f"M{right:g} {y:g}a{ARC} {ARC} 0 0 1 {ARC} {ARC}v{fall:g}a{ARC} {ARC} 0 0 1 -{ARC} {ARC}"
        back += f"H{left:g}a{ARC} {ARC} 0 0 1 -{ARC} -{ARC}v{-fall:g}a{ARC} {ARC} 0 0 1 {ARC} -{ARC}"
        through = [track(f"M{x:g} {y:g}h{ARC}"), track(f"M{right:g} {y:g}h{ARC}")]
        return [track(back), *through, *self.piece.draw(left, y)]


def diagram(name, piece):
    """The picture of a rule."""
    x, y = 30, piece.up + 12
    end = x + GAP + piece.width + GAP
    look = f'r="6" fill="none" stroke="{LINE}" stroke-width="2"'
    ends = [f'<circle cx="{at:g}" cy="{y:g}" {look}/>' for at in (x - 6, end + 6)]
    ways = [track(f"M{x:g} {y:g}h{GAP}"), track(f"M{end - GAP:g} {y:g}h{GAP}")]
    return svg(end + 30, y + piece.down + 12, f"The grammar of {name}", [*ends, *ways, *piece.draw(x + GAP, y)])


# ---- the grammar block


def grammar():
    """The rules of the page's grammar block, in their order: for each name the tokens of its text."""
    block = re.search(r"```grammar\n(.*?)```", PAGE.read_text(encoding="utf-8"), re.DOTALL)[1]
    rules, name = {}, None
    for line in block.splitlines():
        head = re.match(r"(\w+) +=", line)
        if head:
            name = head[1]
            rules[name] = []
        rules[name] += re.findall(r'"\w+"|\w+|[][{}|]', line[head.end():] if head else line)
    return rules


# The rules that have a picture. The others are short, and are drawn inside those that name them.
DRAWN = "query", "question", "region"


def choice(tokens, rules):
    """The piece that stands in front of the tokens, up to a closing bracket; what was read is taken away."""
    ways = [sequence(tokens, rules)]
    while tokens[:1] == ["|"]:
        tokens.pop(0)
        ways.append(sequence(tokens, rules))
    return OneOf(ways) if len(ways) > 1 else ways[0]


def sequence(tokens, rules):
    pieces = []
    while tokens and tokens[0] not in "|]}":
        token = tokens.pop(0)
        if token in "[{":
            piece = choice(tokens, rules)
            tokens.pop(0)
            if token == "{" and pieces and pieces[-1] == piece:
                pieces[-1] = Again(piece)
            else:
                pieces.append(MayBe(piece if token == "[" else Again(piece)))
        elif token in rules and token not in DRAWN:
            pieces.append(choice([*rules[token]], rules))
        else:
            pieces.append(stop(token))
    return InTurn(pieces) if len(pieces) > 1 else pieces[0]


def stop(token):
    if token.startswith('"'):
        return Stop(token.strip('"'), WORD, 14)
    return Stop(token, NUMBER, 14) if token[0].isupper() else Stop(token, RULE, 3)


# ---- boxes and regions

STEP = 9


@dataclass
class Scene:
    """A part of the plane, y upwards, and what is drawn in it."""

    left: int
    right: int
    bottom: int
    top: int

    def place(self, x, y):
        return 12 + STEP * (x - self.left), 12 + STEP * (self.top - y)

    def box(self, box, look):
        (x1, y1), (x2, y2) = self.place(box[0], box[3]), self.place(box[1], box[2])
        return f'<rect x="{x1:g}" y="{y1:g}" width="{x2 - x1:g}" height="{y2 - y1:g}" rx="1" {look}/>'

    def line(self, start, end, look):
        (x1, y1), (x2, y2) = self.place(*start), self.place(*end)
        return f'<line x1="{x1:g}" y1="{y1:g}" x2="{x2:g}" y2="{y2:g}" {look}/>'

    def label(self, x, y, text):
        x, y = self.place(x, y)
        look = f'class="label" text-anchor="middle" font-size="13" font-family="{SANS}"'
        return f'<text x="{x:g}" y="{y + 4.5:g}" {look}>{text}</text>'

    def picture(self, title, parts):
        width, height = STEP * (self.right - self.left) + 24, STEP * (self.top - self.bottom) + 24
        return svg(width, height, title, parts)


AREA = f'fill="{REGION}" fill-opacity="0.13" stroke="{REGION}" stroke-width="2"'
YES = f'fill="{ACCEPTED}" fill-opacity="0.3" stroke="{ACCEPTED}" stroke-width="2"'
AXIS = f'stroke="{LINE}"'
BEYOND = f'stroke="{REGION}" stroke-width="1.5" stroke-dasharray="1 4" stroke-linecap="round"'
NO = f'fill="none" stroke="{REFUSED}" stroke-width="1.5" stroke-dasharray="4 3"'
NEXT = f'fill="none" stroke="{NUMBER}" stroke-width="2.5" stroke-dasharray="8 3"'
GIVEN = f'fill="{ACCEPTED}" stroke="{ACCEPTED}" stroke-width="2"'
UNSEEN = f'fill="none" stroke="{REFUSED}" stroke-width="1"'
SUBTREES = "#1f6feb", "#8250df", "#2da44e", "#bc4c00", "#1b7c83"

# For each region the words that ask for it, and boxes beside it.
SCENES = {
    "all": (
        "all",
        [(2, 7, 2, 6), (10, 15, 5, 12), (18, 18, 9, 13), (5, 13, 9, 10), (17, 22, 2, 5)],
    ),
    "window": (
        "window 8 16 5 11",
        [(10, 13, 7, 9), (3, 9, 8, 13), (16, 20, 11, 14), (11, 15, 2, 5), (18, 22, 3, 8), (2, 5, 2, 5)],
    ),
    "inside": (
        "inside 8 16 5 11",
        [(8, 11, 5, 8), (13, 15, 8, 10), (3, 9, 9, 13), (16, 20, 11, 14), (11, 14, 2, 6), (18, 22, 3, 8)],
    ),
    "covers": (
        "covers 11 13 7 9",
        [(6, 17, 4, 12), (9, 13, 7, 14), (12, 21, 8, 10), (3, 8, 2, 6), (18, 22, 2, 5)],
    ),
    "circle": (
        "circle 12 8 5",
        [(10, 13, 6, 9), (2, 8, 8, 11), (17, 21, 6, 9), (15, 19, 12, 14), (16, 21, 1, 4), (2, 5, 1, 4)],
    ),
    "polygon": (
        "polygon 4 4 4 14 2 20 9 9 14",
        [(8, 11, 6, 9), (2, 6, 8, 12), (16, 22, 6, 8), (18, 22, 12, 14), (17, 22, 1, 4)],
    ),
}


# A region on one layer, and boxes with their layers.
LAYERED = (
    "window 8 16 5 11",
    "on 3",
    [(10, 13, 7, 9, 3), (3, 9, 8, 13, 3), (16, 20, 10, 14, 0), (11, 15, 2, 6, 7), (18, 22, 3, 8, 3), (2, 5, 2, 5, 63)],
)


def outline(name, words, scene):
    """The drawing of a region."""
    numbers = [reading.number(word) for word in words.left[1:]]
    if name in ("window", "inside", "covers"):
        return [scene.box(numbers, AREA)]
    if name == "circle":
        x, y = scene.place(*numbers[:2])
        at = f'cx="{x}" cy="{y}"'
        return [f'<circle {at} r="{STEP * numbers[2]}" {AREA}/>', f'<circle {at} r="2.5" fill="{REGION}"/>']
    if name == "polygon":
        return polygon(list(zip(numbers[1::2], numbers[2::2])), scene)
    return []


def polygon(vertices, scene):
    """The drawing of a polygon that goes counterclockwise, with the lines of edges beyond which a box lies."""
    points = " ".join("{},{}".format(*scene.place(*vertex)) for vertex in vertices)
    parts = [f'<polygon points="{points}" stroke-linejoin="round" {AREA}/>']
    for a, c in zip(vertices, [*vertices[1:], *vertices[:1]]):
        corners = [[(x, y) for x in box[:2] for y in box[2:]] for box in SCENES["polygon"][1]]
        if any(all(reading.turn(a, c, corner) < 0 for corner in box) for box in corners):
            x, y = (c[0] - a[0]) / 2, (c[1] - a[1]) / 2
            parts.append(scene.line((a[0] - x, a[1] - y), (c[0] + x, c[1] + y), BEYOND))
    return parts


def region(name):
    """The picture of a region with the boxes that it accepts and those that it doesn't."""
    query, boxes = SCENES[name]
    scene = Scene(1, 23, 0, 15)
    accepts = reading.region(reading.Words(query.encode())).accepts
    parts = [scene.box(box, YES if accepts(box) else NO) for box in boxes]
    parts += outline(name, reading.Words(query.encode()), scene)
    return scene.picture(f"Boxes that {name} accepts are drawn solid, the others dashed", parts)


def on_layer():
    """The picture of a window on one layer, each box with its layer."""
    query, layer, boxes = LAYERED
    scene = Scene(1, 23, 0, 15)
    accepts = reading.boxes_region(reading.Words(f"{query} {layer}".encode())).accepts
    parts = [scene.box(box, YES if accepts(box) else NO) for box in boxes]
    parts += outline("window", reading.Words(query.encode()), scene)
    parts += [scene.label((box[0] + box[1]) / 2, (box[2] + box[3]) / 2, box[4]) for box in boxes]
    return scene.picture(f"Boxes that {query} {layer} accepts are drawn solid, the others dashed", parts)


def text(x, y, words, font=SANS, anchor="start"):
    """A line of text beside a drawing, at a place in pixels."""
    look = f'class="label" text-anchor="{anchor}" font-size="15" font-family="{font}"'
    return f'<text x="{x:g}" y="{y:g}" xml:space="preserve" {look}>{escape(words)}</text>'


def front():
    """A window over the boxes of examples/data/boxes.csv, the query and its reply."""
    scene = Scene(-7, 32, -7, 17)
    query, table = "find window 8 13 3 8", (ROOT / "examples/data/boxes.csv").read_bytes()
    window = [*map(int, query.split()[2:])]
    boxes = reading.boxes(table, False, 100)
    met = {id for id, box in boxes.items() if reading.meet(box[:4], window)}
    parts = []
    for id, (left, right, bottom, top, _) in boxes.items():
        grown = 0.3 if left == right else 0  # so that a point can be seen
        parts.append(scene.box((left - grown, right + grown, bottom - grown, top + grown), YES if id in met else NO))
        parts.append(scene.label(left + 1.4, top - 1.4, id))
    parts.append(scene.box(window, AREA))
    lines = [f"$ echo '{query}' | rtfilter boxes.csv", *(f"{id} 0" for id in sorted(met)), f"ok 1 {len(met)}"]
    parts += [text(390, 90 + 26 * at, line, MONO) for at, line in enumerate(lines)]
    return svg(860, STEP * 24 + 24, "A window that overlaps two of five boxes, the query and its reply", parts)


def sides():
    """A box with the names of its sides, and the order in which they are written."""
    scene = Scene(0, 30, 0, 18)
    parts = [scene.box((7, 23, 4, 14), YES)]
    parts += [scene.label(3.4, 9, "min_x"), scene.label(26.6, 9, "max_x"), scene.label(15, 2.4, "min_y"), scene.label(15, 15.6, "max_y")]
    rows = ("rtfilter, SQLite", "min_x, max_x, min_y, max_y"), ("shapely, GeoJSON, PostGIS", "min_x, min_y, max_x, max_y")
    for at, (system, order) in enumerate(rows):
        parts += [text(310, 60 + 70 * at, system), text(310, 84 + 70 * at, order, MONO)]
    return svg(590, STEP * 18 + 24, "A box with its four sides, and two orders in which they are written", parts)


def scores():
    """The scores of a box: the square of its distance from a point, and its area."""
    scene = Scene(0, 56, 0, 20)
    point, box = (3, 4), (9, 21, 12, 17)
    x, y = scene.place(*point)
    parts = [scene.box(box, YES), scene.line(point, (9, 12), BEYOND), f'<circle cx="{x}" cy="{y}" r="3.5" fill="{REGION}"/>']
    parts += [scene.label(9, 2.4, "(3, 4)"), scene.label(12, 7.4, "distance 10"), text(scene.place(2, 0)[0], STEP * 20 + 24, "near 3 4: score 6² + 8² = 100")]
    parts += [scene.box((36, 48, 9, 14), YES), scene.label(42, 7.4, "12"), scene.label(50, 11.5, "5")]
    parts.append(text(scene.place(33, 0)[0], STEP * 20 + 24, "smallest: score 12 · 5 = 60"))
    return svg(STEP * 56 + 24, STEP * 20 + 44, "The score of a box: a squared distance, or an area", parts)


# ---- what is beside what

CARD, CARD_GAP = 46, 34  # the height of a card, and the space below it
PROVED, TESTED, YOURS = RETURNED, "#1f6feb", "#57606a"


def card(x, y, width, fill, name, what=""):
    """A part of the product, with a line that says what it is."""
    middle, look = x + width / 2, f'text-anchor="middle" fill="#ffffff" font-family="{SANS}"'
    return [
        f'<rect x="{x:g}" y="{y:g}" width="{width:g}" height="{CARD}" rx="6" fill="{fill}"/>',
        f'<text x="{middle:g}" y="{y + (20 if what else 28):g}" font-size="15" font-weight="600" {look}>{escape(name)}</text>',
        *([f'<text x="{middle:g}" y="{y + 37:g}" font-size="13" {look}>{escape(what)}</text>'] if what else []),
    ]


def link(x, y, length=CARD_GAP):
    """A line with an arrow that points up: a user of what stands above it."""
    return [track(f"M{x:g} {y + length:g}V{y + 4:g}"), track(f"M{x - 5:g} {y + 9:g}l5 -6l5 6")]


def architecture():
    """What the engine, the program, the library, the package, the service and the tools are to each other."""
    row = CARD + CARD_GAP
    drawn = [
        *card(20, 12, 840, PROVED, "engine", "packs boxes into a tree, answers queries; answers proved equal to a plain scan"),
        *card(20, 12 + row, 260, PROVED, "rtfilter", "CSV and query lines in, replies out"),
        *card(300, 12 + row, 560, PROVED, "librtfilter", "the same engine in your process, by a C header"),
        *card(20, 12 + 2 * row, 260, TESTED, "rtfilter-serve", "one table for all connections"),
        *card(300, 12 + 2 * row, 270, TESTED, "C++, Rust, Go", "wrappers of the C header"),
        *card(590, 12 + 2 * row, 270, TESTED, "Python package", "tables, arrays, geometries, clients"),
        *card(20, 12 + 3 * row, 260, YOURS, "clients in any language", "over Unix sockets and TCP"),
        *card(300, 12 + 3 * row, 270, YOURS, "your program", "map server, route planner, checker"),
        *card(590, 12 + 3 * row, 270, TESTED, "rtfilter-fence, rtfilter-tiles", "and Tables, dask for more boxes"),
    ]
    for at, columns in enumerate([(150, 580), (150, 435, 725), (150, 435, 725)]):
        for x in columns:
            drawn += link(x, 12 + at * row + CARD)
    look = text(20, 12 + 4 * row - 4, "green: proved; blue: tested; grey: yours. An arrow points to what is used.")
    return svg(880, 4 * row + 24, "What the engine, the program, the library, the package, the service and the tools are to each other", [*drawn, look])


def scaling():
    """One process with its threads, a service with its processes, and several tables."""


    def row(x, y, fill, names):
        wide = (260 - 10 * (len(names) - 1)) / len(names)
        return [it for at, name in enumerate(names) for it in card(x + at * (wide + 10), y, wide, fill, name)]

    def column(x, title, tables, users, *below):
        arrows = [it for at in range(3) for it in link(x + 260 / 6 + 90 * at, 48 + CARD)]
        lower = 48 + CARD + CARD_GAP
        lines = [text(x, lower + CARD + 26 + 20 * at, line) for at, line in enumerate(below)]
        return [text(x, 30, title), *row(x, 48, PROVED, tables), *arrows, *row(x, lower, TESTED, users), *lines]

    drawn = [
        *column(12, "one process", ["table"], 3 * ["thread"], "many threads query one table,", "each with its own session"),
        *column(312, "a service", ["table"], 3 * ["process"], "a process for each connection;", "all share the table's memory"),
        *column(612, "several tables", 3 * ["table"], ["Tables, dask"], "each table whose bounds overlap", "is queried, answers are merged"),
    ]
    return svg(890, 234, "One process with its threads, a service with its processes, and several tables", drawn)


def reload():
    """What stands in memory while a service replaces its table."""

    def bar(start, end, y, fill, name):
        return [
            f'<rect x="{start:g}" y="{y:g}" width="{end - start:g}" height="26" rx="4" fill="{fill}"/>',
            f'<text x="{start + 10:g}" y="{y + 18:g}" font-size="14" fill="#ffffff" font-family="{SANS}">{escape(name)}</text>',
        ]

    moments = [(250, "SIGHUP"), (430, "new table is loaded"), (690, "last old connection ends")]
    drawn = []
    for x, name in moments:
        drawn += [f'<line x1="{x}" y1="30" x2="{x}" y2="192" {BEYOND}/>', text(x, 22, name, anchor="middle")]
    drawn += [
        *bar(20, 690, 40, RULE, "old table, in memory"),
        *bar(250, 430, 72, NUMBER, "new table loads"), *bar(434, 840, 72, PROVED, "new table, in memory"),
        *bar(60, 690, 104, RULE, "a connection from before: answered from the old table"),
        *bar(460, 800, 136, PROVED, "a connection from after: the new table"),
        *bar(300, 640, 168, RULE, "a connection during the load: the old table"),
        text(20, 222, "Old connections end at most --drain seconds after the new table is loaded. Until then both are in memory."),
    ]
    return svg(890, 236, "What is in memory while a service replaces its table", drawn)


def example():
    """The picture of examples/data/boxes.csv."""
    scene = Scene(-7, 32, -7, 17)
    parts = [
        scene.line((-6, 0), (31, 0), AXIS),
        scene.line((0, -6), (0, 16), AXIS),
        *(scene.label(at, -1.4, at) for at in (10, 20, 30)),
        scene.label(-1.6, 10, 10),
    ]
    table = reading.boxes((ROOT / "examples/data/boxes.csv").read_bytes(), False, 100)
    for id, (left, right, bottom, top, _) in table.items():
        if left == right:
            x, y = scene.place(left, top)
            parts.append(f'<circle cx="{x}" cy="{y}" r="3.5" fill="{ACCEPTED}"/>')
        else:
            parts.append(scene.box((left, right, bottom, top), YES))
        parts.append(scene.label(left + 1.4, top - 1.4, id))
    return scene.picture("The five boxes of examples/data/boxes.csv", parts)


def packed_points():
    """The picture of a packed tree: points that lie closer in the middle, and the boxes of the nodes over them."""
    scene, chance = Scene(-1, 61, -1, 41), packing.Chance()
    table = []
    for id in range(300):
        x, y = (sum(chance.below(end * 10) for _ in range(3)) // 3 for end in (60, 40))
        table.append(packing.Entry(id, (x, x, y, y), 0))
    entries, nodes, levels = packing.packed(table, 8)
    parts = []
    for node, colour in zip([node for node in nodes if node.level == 2], SUBTREES, strict=True):
        whole = f'fill="none" stroke="{colour}" stroke-width="2" stroke-dasharray="6 4"'
        leaf = f'fill="{colour}" fill-opacity="0.13" stroke="{colour}" stroke-width="1.5"'
        parts.append(scene.box([side / 10 for side in node.box], whole))
        parts += [scene.box([side / 10 for side in child.box], leaf) for child in children(node, nodes)]
        for point in (point for child in children(node, nodes) for point in children(child, entries)):
            x, y = scene.place(point.box[0] / 10, point.box[2] / 10)
            parts.append(f'<circle cx="{x:g}" cy="{y:g}" r="2" fill="{colour}"/>')
    title = f"{levels[0]} points in {levels[1]} nodes, drawn solid, and {levels[2]} above them, dashed, each with its nodes in one colour"
    return scene.picture(title, parts)


def children(node, items):
    """The children of a node, among the nodes or, for one of level 1, among the entries."""
    return items[node.first : node.first + node.count]


# A search for the nearest boxes to a point, stopped once this many items were taken out.
SEARCHED, POINT, TAKEN = 27, (27, 17), 5


def best_first(entries, nodes):
    """Which nodes are open and which entries were given when the search stops, and what waits, in order."""
    waiting, opened, given = [(0, 0, len(nodes) - 1)], [], []
    for _ in range(TAKEN):
        _, is_entry, number = heapq.heappop(waiting)
        if is_entry:
            given.append(number)
            continue
        opened.append(number)
        node = nodes[number]
        for place, child in enumerate(children(node, entries if node.level == 1 else nodes), node.first):
            item = (1, child.id) if node.level == 1 else (0, place)
            heapq.heappush(waiting, (search.near2(POINT, child.box), *item))
    return opened, given, sorted(waiting)


def searched():
    """The picture of a search: the nodes that are open, those that wait, and the frontier in order."""
    scene, chance = Scene(-1, 69, -1, 35), packing.Chance()
    table = []
    for id in range(1, SEARCHED + 1):
        x, y = chance.below(46), chance.below(32)
        table.append(packing.Entry(id, (x, x + 1 + chance.below(3), y, y + 1 + chance.below(2)), 0))
    entries, nodes, _ = packing.packed(table, 3)
    opened, given, waiting = best_first(entries, nodes)
    found = [number for _, is_entry, number in waiting if is_entry]
    reached = [number for _, is_entry, number in waiting if not is_entry]
    parts = [scene.box(nodes[number].box, AREA) for number in opened]
    for number in reached:
        parts.append(scene.box(nodes[number].box, NEXT if (0, number) == waiting[0][1:] else NO))
    labels = []
    for number in [*opened, *reached]:
        left, right, _, top = nodes[number].box
        labels.append(scene.label(right - 1 if nodes[number].level == 1 else left + 1, top + 0.9, letter(number)))
    for entry in entries:
        parts.append(scene.box(entry.box, GIVEN if entry.id in given else YES if entry.id in found else UNSEEN))
        if entry.id in given + found:
            left, _, bottom, top = entry.box
            labels.append(scene.label(left - 1.3, (bottom + top) / 2, entry.id))
    parts += labels
    x, y = scene.place(*POINT)
    parts.append(f'<circle cx="{x:g}" cy="{y:g}" r="4" fill="{REGION}"/>')
    for row, (score, is_entry, number) in enumerate(waiting):
        x, y = scene.place(52, 30 - 4 * row)
        name = Stop(f"entry {number}", RETURNED, 14) if is_entry else Stop(f"node {letter(number)}", RULE, 3)
        parts += [*name.draw(x, y), scene.label(65.5, 30 - 4 * row, score)]
    parts.append(scene.label(58, 34, "waiting, with score"))
    opened_nodes, answers = listed(map(letter, opened)), listed(map(str, given))
    title = f"Nodes {opened_nodes} are open, entries {answers} were returned, and the first that waits is taken next"
    return scene.picture(title, parts)


def letter(node):
    """The name of a node, which no entry has."""
    return chr(ord("A") + node)


def listed(names):
    """Some names, in words."""
    *front, last = names
    return f"{', '.join(front)} and {last}" if front else last


# A window over examples/data/uneven.csv, whose larger boxes have a layer of their own; the scale is in pixels a unit.
UNEVEN = (30, 34, 30, 34)
SCALE, FANOUT = 4, 4


def uneven():
    """The picture of the nodes of level 1 over all boxes of examples/data/uneven.csv and over the small ones alone."""
    boxes = reading.boxes((ROOT / "examples/data/uneven.csv").read_bytes(), False, 100)
    every = [packing.Entry(id, box[:4], box[4]) for id, box in boxes.items()]
    left, right, bottom, top = (side / SCALE for side in packing.node(every, 1, 0).box)
    apart = right - left + 3
    scene = Scene(left, right + apart, bottom, top)
    small = [entry for entry in every if entry.layer == 0]
    parts = [*leaf_nodes(scene, 0, every, "all boxes"), *leaf_nodes(scene, apart, small, "small boxes")]
    title = "The nodes of level 1 that overlap a window are drawn solid, the others dashed"
    return svg(STEP * (scene.right - scene.left) + 24, STEP * (scene.top - scene.bottom) + 54, title, parts)


def leaf_nodes(scene, shift, entries, title):
    """The drawing of the nodes of level 1 over entries, those that overlap the window drawn solid, so far to the right."""

    def drawn(box, look):
        min_x, max_x, min_y, max_y = (side / SCALE for side in box)
        return scene.box((min_x + shift, max_x + shift, min_y, max_y), look)

    leaves = [node.box for node in packing.packed(entries, FANOUT)[1] if node.level == 1]
    met = [box for box in leaves if reading.meet(box, UNEVEN)]
    parts = [drawn(box, AREA if box in met else NO) for box in leaves]
    below = scene.place(shift + scene.left, scene.bottom)
    title = text(below[0], below[1] + 28, f"{title}: {len(met)} of {len(leaves)} nodes")
    return [*parts, drawn(UNEVEN, YES), title]


# ---- all of them


def pictures():
    """Each picture by the name of its file."""
    yield "front.svg", front()
    yield "sides.svg", sides()
    yield "scores.svg", scores()
    yield "architecture.svg", architecture()
    yield "scaling.svg", scaling()
    yield "reload.svg", reload()
    yield "boxes.svg", example()
    yield "layers.svg", on_layer()
    yield "packed.svg", packed_points()
    yield "search.svg", searched()
    yield "uneven.svg", uneven()
    rules = grammar()
    for name in DRAWN:
        yield f"grammar-{name}.svg", diagram(name, choice([*rules[name]], rules))
    for name in SCENES:
        yield f"region-{name}.svg", region(name)


def main():
    made = dict(pictures())
    if sys.argv[1:] != ["--check"]:
        PICTURES.mkdir(exist_ok=True)
        for name, text in made.items():
            (PICTURES / name).write_text(text, encoding="utf-8")
        return 0
    kept = {file.name: file.read_text(encoding="utf-8") for file in PICTURES.glob("*.svg")}
    stale = [name for name in {**kept, **made} if kept.get(name) != made.get(name)]
    for name in stale:
        print(f"FAIL docs/pictures/{name} isn't what tests/pictures.py draws")
    print(f"{len(made) - len([name for name in stale if name in made])} passed, {len(stale)} failed")
    return int(bool(stale))


if __name__ == "__main__":
    sys.exit(main())

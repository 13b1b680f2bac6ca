"""Charts as SVG, for a white page and for a dark one: lines over two logarithmic scales, and rows of dots."""

import math
from dataclasses import dataclass, field
from html import escape

from programs import OURS, SCAN
from svg import LINE, REGION, SANS

COLOURS = {  # of lines and dots, and the ink of names
    OURS: ("#1f6feb", "blue"),
    "Boost.Geometry": ("#2da44e", "green"),
    "GEOS": ("#bf8700", "gold"),
    "libspatialindex": ("#8250df", "purple"),
    "SQLite's R*Tree": ("#cf222e", "red"),
    SCAN: ("#768390", "grey"),
}
LEAST_GAP = 14  # between two labels
LEFT, RIGHT, ABOVE, BELOW = 62, 132, 44, 40  # of a panel, round its lines


def colours(name):
    """The colour and the ink of a program, or of what its name begins with."""
    return next((it for program, it in COLOURS.items() if name.startswith(program)), (LINE, "label"))


def colour(name):
    return colours(name)[0]


def ink(name):
    return colours(name)[1]


def text(x, y, words, anchor="start", size=12, ink="label", weight="normal"):
    """A line of text, in the ink of labels or in another one."""
    look = f'text-anchor="{anchor}" font-size="{size}" font-family="{SANS}" class="{ink}" font-weight="{weight}"'
    return f'<text x="{x:.1f}" y="{y:.1f}" {look}>{escape(words)}</text>'


def stroke(x1, y1, x2, y2, look):
    return f'<line x1="{x1:.1f}" y1="{y1:.1f}" x2="{x2:.1f}" y2="{y2:.1f}" {look}/>'


def dot(x, y, name, radius=3.5):
    return f'<circle cx="{x:.1f}" cy="{y:.1f}" r="{radius}" fill="{colour(name)}"/>'


GRID = f'stroke="{LINE}" stroke-opacity="0.25"'
AXIS = f'stroke="{LINE}"'


@dataclass
class Scale:
    """A logarithmic scale between two values, drawn from one place to another."""

    low: float
    high: float
    start: float
    end: float

    @classmethod
    def around(cls, values, start, end):
        """One whose ends are the powers of ten around some values."""
        low = 10.0 ** math.floor(math.log10(min(values)) + 1e-9)
        high = 10.0 ** math.ceil(math.log10(max(values)) - 1e-9)
        return cls(low, max(high, 10 * low), start, end)

    def place(self, value):
        return self.start + (self.end - self.start) * math.log(value / self.low) / math.log(self.high / self.low)

    def tens(self):
        """The powers of ten on it, none too close to the next."""
        first, last = round(math.log10(self.low)), round(math.log10(self.high))
        step = max(1, math.ceil((last - first) * 24 / abs(self.end - self.start)))
        return [10.0**power for power in range(first, last + 1, step)]


def apart(places):
    """Places moved down as little as keeps each so far from the one before; by name."""
    moved, last = {}, -math.inf
    for name, place in sorted(places.items(), key=lambda it: it[1]):
        moved[name] = last = max(place, last + LEAST_GAP)
    over = max(0.0, max(moved[name] - places[name] for name in moved) / 2) if moved else 0
    return {name: place - over for name, place in moved.items()}


@dataclass
class Panel:
    """Lines of some names over two scales, each named at its end."""

    title: str
    across: str  # what is counted from left to right
    tell_across: object  # how a number of it is written
    tell_up: object
    lines: dict  # of each name: the value for each number
    note: str = ""
    rings: list = field(default_factory=list)  # a number and a value each, round which a ring is drawn

    def draw(self, x, y, width, height):
        """The parts of the panel, whose corner is at a place, and which is so large with all that stands round it."""
        left, right, top, bottom = x + LEFT, x + width - RIGHT, y + ABOVE, y + height - BELOW
        numbers = sorted({number for line in self.lines.values() for number in line})
        level = Scale(min(numbers), max(numbers), left, right)
        upright = Scale.around([value for line in self.lines.values() for value in line.values()], bottom, top)
        parts = [text(left, y + 16, self.title, size=14, weight="bold"), text(left, y + 33, self.note)]
        for ten in upright.tens():
            parts.append(stroke(left, upright.place(ten), right, upright.place(ten), GRID))
            parts.append(text(left - 6, upright.place(ten) + 4, self.tell_up(ten), "end"))
        for number in numbers:
            parts.append(stroke(level.place(number), bottom, level.place(number), bottom + 4, AXIS))
            parts.append(text(level.place(number), bottom + 19, self.tell_across(number), "middle"))
        parts.append(stroke(left, bottom, right, bottom, AXIS))
        parts.append(text((left + right) / 2, bottom + 35, self.across, "middle"))
        # rtfilter last, so that it lies above the others
        for name, line in sorted(self.lines.items(), key=lambda it: it[0].startswith(OURS)):
            points = [(level.place(number), upright.place(value)) for number, value in sorted(line.items())]
            parts += self.curve(name, points)
        for number, value in self.rings:
            parts += self.ring(level.place(number), upright.place(value), f"{number:,}")
        return parts + self.names(level, upright)

    @staticmethod
    def curve(name, points):
        is_ours = name.startswith(OURS)
        way = " ".join(f"{x:.1f},{y:.1f}" for x, y in points)
        dashes = ' stroke-dasharray="5 4"' if name.startswith(SCAN) else ""
        look = f'fill="none" stroke="{colour(name)}" stroke-width="{3 if is_ours else 1.8}"{dashes}'
        return [f'<polyline points="{way}" {look}/>', *(dot(x, y, name, 4 if is_ours else 3) for x, y in points)]

    @staticmethod
    def ring(x, y, words):
        look = f'r="7" fill="none" stroke="{LINE}" stroke-width="2"'
        return [f'<circle cx="{x:.1f}" cy="{y:.1f}" {look}/>', text(x, y + 21, words, "middle", weight="bold")]

    def names(self, level, upright):
        """Each name beside the end of its line."""
        ends = {name: max(line) for name, line in self.lines.items()}
        places = apart({name: upright.place(self.lines[name][end]) for name, end in ends.items()})
        parts = []
        for name, place in places.items():
            words, weight = name.partition(": ")[2] or name, "bold" if name.startswith(OURS) else "normal"
            # before its end if the line ends early
            away, anchor = (9, "start") if ends[name] == level.high else (-9, "end")
            end = level.place(ends[name]) + away
            parts.append(text(end, place + 4, words, anchor, ink=ink(name), weight=weight))
        return parts


ROW, NAMES, SECONDS, HEAD = 18, 250, 70, 96  # pixels of rows of dots


@dataclass
class Dots:
    """Rows of how many times rtfilter's time others took, in groups, with rtfilter's own time at the end."""

    title: str
    groups: dict  # of each group's name: its rows, and of each row rtfilter's time in words and the times of the others
    width: float

    @property
    def height(self):
        return HEAD + ROW * (sum(map(len, self.groups.values())) + len(self.groups)) + 30

    def draw(self):
        ratios = [it for rows in self.groups.values() for _, others in rows.values() for it in others.values()]
        left, right, bottom = NAMES, self.width - SECONDS - 20, self.height - 30
        scale = Scale.around([*ratios, 0.99, 1.01], left, right)
        one = scale.place(1)
        parts = [text(8, 18, self.title, size=14, weight="bold"), *self.legend(left)]
        parts.append(f'<rect x="{left}" y="{HEAD - 10}" width="{one - left:.1f}" height="{bottom - HEAD + 10:.1f}"'
                     f' fill="{REGION}" fill-opacity="0.08"/>')
        parts.append(text(one - 8, HEAD - 18, "← the other is faster", "end"))
        parts.append(text(one + 8, HEAD - 18, "rtfilter is faster →"))
        parts.append(text(self.width - 8, HEAD - 18, "rtfilter", "end", ink=ink(OURS), weight="bold"))
        for ten in scale.tens():
            parts.append(stroke(scale.place(ten), HEAD - 10, scale.place(ten), bottom, GRID if ten != 1 else AXIS))
            parts.append(text(scale.place(ten), bottom + 14, f"{ten:,g}", "middle"))
        parts.append(text((left + right) / 2, bottom + 28, "times rtfilter's time", "middle"))
        return parts + self.rows(scale, left, right)

    @staticmethod
    def legend(left):
        parts, x = [], left
        for name in COLOURS:
            if name not in (OURS, SCAN):
                parts += [dot(x, 42, name, 5), text(x + 10, 46, name, ink=ink(name))]
                x += 34 + 7 * len(name)
        return parts

    def rows(self, scale, left, right):
        parts, y = [], HEAD
        for group, rows in self.groups.items():
            parts.append(text(8, y + 8, group, weight="bold"))
            y += ROW
            for name, (seconds, others) in rows.items():
                parts.append(text(left - 10, y + 8, name, "end"))
                parts.append(stroke(left, y + 4, right, y + 4, GRID))
                parts += [dot(scale.place(ratio), y + 4, other, 5) for other, ratio in others.items()]
                parts.append(text(self.width - 8, y + 8, seconds, "end"))
                y += ROW
        return parts

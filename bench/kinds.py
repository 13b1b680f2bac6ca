"""Query lines of every kind, about places where the boxes of a table are."""

import math
import random

from tables import CROSS, HITS, SIDE, TABLES

MANY = 100 * HITS  # boxes of a region that a limit cuts
LINES = 2000  # of each kind
LIMITS = None, 1, 10, 128, 129, 1000
LIST = "1,5"  # of layers: a quarter of the boxes
ORDERS = "by id", "near", "smallest"


class Asker:
    """Lines about one table after the other place of it; a line's region has about this many boxes."""

    def __init__(self, name, boxes):
        self.chance = random.Random(3)
        self.table = TABLES[name](boxes)

    def line(self, verb, region, *, hits=HITS, layers=False, order="by id", limit=None):
        words, x, y = self.region(region, hits)
        parts = [verb, words]
        if layers:
            parts.append(f"on {LIST}")
        if order == "near":
            parts.append(f"near {x} {y}")
        elif order == "smallest":
            parts.append("smallest")
        if limit is not None:
            parts.append(f"first {limit}")
        return " ".join(parts)

    def region(self, name, hits):
        """The words of a region, and its middle."""
        x, y, space = self.table.place(self.chance)
        side = space * math.sqrt(hits)
        x, y = self._inner(x, side), self._inner(y, side)
        if name in ("window", "inside"):
            return f"{name} {square(x, y, side / 2)}", x, y
        if name == "covers":
            return f"covers {square(x, y, 0)}", x, y
        if name == "circle":
            return f"circle {x} {y} {int(side * 0.564)}", x, y
        if name == "polygon":
            return f"polygon 8 {octagon(x, y, int(side * 0.535))}", x, y
        return name, x, y

    def _inner(self, value, side):
        """A value at least this far from the ends of the plane, if it is wide enough."""
        most = max(0, SIDE - side)
        return int(max(-most, min(most, value)))

    def nearest(self, limit):
        return "nearest %d %d %d" % (limit, *self.table.place(self.chance)[:2])

    def quarter(self):
        """The count of a quarter of the plane."""
        x, y = (self.chance.uniform(-SIDE / 2, SIDE / 2) for _ in range(2))
        return f"count window {square(x, y, SIDE / 2)}"

    def from_the_middle(self):
        """The nearest boxes to a point about the middle of the plane."""
        x, y = (self.chance.uniform(-CROSS, CROSS) for _ in range(2))
        return "nearest 10 %d %d" % (x, y)

    def from_anywhere(self):
        """The nearest boxes to a point anywhere."""
        x, y = (self.chance.uniform(-SIDE, SIDE) for _ in range(2))
        return "nearest 10 %d %d" % (x, y)


def square(x, y, half):
    return f"{int(x - half)} {int(x + half)} {int(y - half)} {int(y + half)}"


def octagon(x, y, reach):
    """Eight corners round a point, each within so far of it on either axis; no less than 2."""
    reach = max(2, reach)
    right = [(reach // 2, -reach), (reach, -(reach // 2)), (reach, reach // 2), (reach // 2, reach)]
    corners = right + [(-across, -up) for across, up in right]
    return " ".join(f"{x + across} {y + up}" for across, up in corners)


# What is shown first of each table: a line of each.
MAIN = {
    f"find window, about {HITS} boxes": lambda it: it.line("find", "window"),
    f"find inside, about {HITS} boxes": lambda it: it.line("find", "inside"),
    "find covers, a point": lambda it: it.line("find", "covers"),
    f"find circle, about {HITS} boxes": lambda it: it.line("find", "circle"),
    f"find polygon, about {HITS} boxes": lambda it: it.line("find", "polygon"),
    "nearest 10": lambda it: it.nearest(10),
    "count window, a quarter of the plane": lambda it: it.quarter(),
    "find all": lambda it: "find all",
}
WINDOW, _, _, _, _, NEAREST, QUARTER, ALL = MAIN

# What is asked of tables whose boxes lie otherwise: of all of them, and of some more.
OF_EACH = {"window": MAIN[WINDOW], "nearest 10": MAIN[NEAREST], "count of a quarter": MAIN[QUARTER]}
FROM_THE_MIDDLE = {"nearest 10, from the middle": lambda it: it.from_the_middle()}
FROM_ANYWHERE = {"nearest 10, from anywhere": lambda it: it.from_anywhere()}
OF_SOME = {"on a ring": FROM_THE_MIDDLE, "on a diagonal": FROM_ANYWHERE, "crossing": FROM_ANYWHERE}

REGIONS = "all", "window", "inside", "covers", "circle", "polygon"

# The columns of the table of regions, beside those for limits.
FORMS = {
    "find": lambda it, region: it.line("find", region),
    "find on": lambda it, region: it.line("find", region, layers=True),
    "find near": lambda it, region: it.line("find", region, order="near"),
    "find smallest": lambda it, region: it.line("find", region, order="smallest"),
    "count": lambda it, region: it.line("count", region),
    "count on": lambda it, region: it.line("count", region, layers=True),
    "cost find": lambda it, region: it.line("cost find", region),
    "cost count": lambda it, region: it.line("cost count", region),
}


def limited(region, order, limit):
    return lambda it: it.line("find", region, hits=MANY, order=order, limit=limit)


def nearest(limit):
    return lambda it: it.nearest(limit)


def every_kind():
    """Each kind of line: its group, its row and its column, with the function that makes one."""
    for region in REGIONS:
        for form, line in FORMS.items():
            yield ("regions", region, form), lambda it, region=region, line=line: line(it, region)
        for order in ORDERS:
            for limit in LIMITS:
                yield ("limits", f"{region}, {order}", str(limit)), limited(region, order, limit)
    for limit in LIMITS[1:]:
        yield ("limits", "nearest", str(limit)), nearest(limit)
    yield ("regions", "levels", "find"), lambda it: "levels"


def is_of_the_tree(line):
    """Whether a line asks about rtfilter's own tree, so that no peer knows it."""
    return line.startswith(("cost", "levels"))


def lines_of(make, asker):
    """Lines of a kind: one if all are the same."""
    first, second = make(asker), make(asker)
    return [first] if first == second else [first, second, *(make(asker) for _ in range(LINES - 2))]

"""Tables by how their boxes lie, and the places about which they are queried."""

import bisect
import itertools
import math
import random

SIDE = 10**9  # coordinates are at most so far from 0
LAYERS = 8
HITS = 20  # boxes: a window with the area of this many spaces between boxes finds about as many
CROSS = 10**6  # how far from the middle long boxes cross


def low_and_high(value, length):
    """A side from a value on, within the plane."""
    low = max(-SIDE, min(SIDE, int(value)))
    return low, max(low, min(SIDE, int(value + length)))


class Uniform:
    """Boxes anywhere, with sides of up to a quarter of the space between two."""

    def __init__(self, boxes):
        self.space = 2 * SIDE / math.sqrt(boxes)

    def place(self, chance):
        """A point to query about, and the space between two boxes there."""
        return chance.uniform(-SIDE, SIDE), chance.uniform(-SIDE, SIDE), self.space

    def box(self, chance):
        x, y, space = self.place(chance)
        return *low_and_high(x, space / 4 * chance.random()), *low_and_high(y, space / 4 * chance.random())


class Clustered(Uniform):
    """Nine boxes of ten in cities, few of them large, and closer towards their middles; queries too."""

    def __init__(self, boxes):
        super().__init__(boxes / 10)
        chance, count = random.Random(boxes), max(20, int(math.sqrt(boxes) / 4))
        shares = [1 / (rank + 5) for rank in range(count)]
        total = sum(shares)
        self.upto = [share / total for share in itertools.accumulate(shares)]
        self.cities = [
            (*super(Clustered, self).place(chance)[:2], 1.2e8 * math.sqrt(share / total), 0.9 * boxes * share / total)
            for share in shares
        ]

    def place(self, chance):
        if chance.random() < 0.1:
            return super().place(chance)
        x, y, spread, people = self.cities[min(bisect.bisect(self.upto, chance.random()), len(self.cities) - 1)]
        away, angle = chance.expovariate(1), chance.uniform(0, 2 * math.pi)
        space = min(self.space, spread * math.sqrt(2 * math.pi * math.exp(away) / max(1, people)))
        far = spread * math.sqrt(2 * away)
        return x + far * math.cos(angle), y + far * math.sin(angle), space


class Sizes(Uniform):
    """Boxes anywhere, their sides from 1 to a tenth of the plane, as many between 1 and 10 as between 10 and 100."""

    GREATEST = SIDE // 5

    def box(self, chance):
        x, y, _ = self.place(chance)
        return *low_and_high(x, self.GREATEST ** chance.random()), *low_and_high(y, self.GREATEST ** chance.random())


class Overlapping(Uniform):
    """Boxes anywhere, so large that twenty lie over each point, as around long diagonal lines; and small windows."""

    def place(self, chance):
        x, y, space = super().place(chance)
        return x, y, space / 20

    def box(self, chance):
        x, y, space = super().place(chance)
        length = space * math.sqrt(HITS)
        return *low_and_high(x - length / 2, length), *low_and_high(y - length / 2, length)


class Diagonal(Uniform):
    """Small boxes on the diagonal of the plane."""

    def __init__(self, boxes):
        self.space = 2 * SIDE / boxes * math.sqrt(HITS)

    def place(self, chance):
        x = chance.uniform(-SIDE, SIDE)
        return x, x, self.space


class Ring(Uniform):
    """Points on a circle."""

    def __init__(self, boxes):
        self.space = 2 * math.pi * SIDE / boxes * math.sqrt(HITS) / 1.2

    def place(self, chance):
        angle = chance.uniform(0, 2 * math.pi)
        return SIDE * math.cos(angle), SIDE * math.sin(angle), self.space

    def box(self, chance):
        x, y, _ = self.place(chance)
        return *low_and_high(x, 0), *low_and_high(y, 0)


class Slabs(Uniform):
    """Boxes as high as the plane and 1 wide."""

    def __init__(self, boxes):
        self.space = 2 * SIDE / boxes * math.sqrt(HITS)

    def box(self, chance):
        return *low_and_high(self.place(chance)[0], 1), -SIDE, SIDE


class Crossing(Uniform):
    """Boxes as long as the plane and 1 wide that cross around its middle."""

    def __init__(self, boxes):
        self.space = 2 * CROSS / boxes * math.sqrt(HITS)

    def place(self, chance):
        return chance.uniform(-CROSS, CROSS), chance.uniform(-CROSS, CROSS), self.space

    def box(self, chance):
        x, y, _ = self.place(chance)
        return (-SIDE, SIDE, *low_and_high(y, 1)) if chance.random() < 0.5 else (*low_and_high(x, 1), -SIDE, SIDE)


TABLES = {
    "uniform": Uniform,
    "clustered": Clustered,
    "very different sizes": Sizes,
    "overlapping": Overlapping,
    "on a diagonal": Diagonal,
    "on a ring": Ring,
    "slabs": Slabs,
    "crossing": Crossing,
}


# ---- ids


def mixed(at):
    """A number of 64 bits for each number, no two the same, in no order (the finalizer of splitmix64)."""
    for shift, factor in ((30, 0xBF58476D1CE4E5B9), (27, 0x94D049BB133111EB), (31, 1)):
        at = (at ^ at >> shift) * factor % 2**64
    return at - 2**63


def shuffled(boxes):
    ids = list(range(boxes))
    random.Random(boxes).shuffle(ids)
    return ids


# The ids of a number of boxes.
IDS = {
    "rising": range,
    "shuffled": shuffled,
    "falling": lambda boxes: range(0, -boxes, -1),
    "rising and falling by turns": lambda boxes: (at if at % 2 else -at for at in range(boxes)),
    "of 64 bits, in no order": lambda boxes: map(mixed, range(boxes)),
}


def write_table(path, name, boxes, order):
    """Writes a table, and returns its path. Boxes have layers by turns."""
    chance, table = random.Random(2), TABLES[name](boxes)
    with open(path, "w") as file:
        for at, id in enumerate(IDS[order](boxes)):
            file.write("%d,%d,%d,%d,%d,%d\n" % (id, *table.box(chance), at % LAYERS))
    return str(path)

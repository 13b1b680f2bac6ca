"""Makes a map of a country that doesn't exist: towns, the roads between them, streets and buildings, as boxes.

usage: python3 -m rtfilter.tiles.make_map FOLDER [--boxes N] [--seed S]

writes FOLDER/boxes.csv, the table, FOLDER/names.csv, names of towns and roads by id, and FOLDER/layers.csv, names of
the layers. Coordinates are centimetres of Web Mercator, around the point where the equator meets the zero meridian. The
same seed and number of boxes make the same map.
"""

import csv
import math
import random
import sys
from collections.abc import Iterator
from pathlib import Path
from typing import NamedTuple

from .._console import Parser, reason, whole
from ..table import MOST_ENTRIES

LAYERS = ["towns", "motorways", "main roads", "minor roads", "streets", "buildings"]
TOWNS, MOTORWAYS, MAIN_ROADS, MINOR_ROADS, STREETS, BUILDINGS = range(len(LAYERS))
LETTERS = {MOTORWAYS: "M", MAIN_ROADS: "A", MINOR_ROADS: "B"}
WIDTHS = {MOTORWAYS: 3000, MAIN_ROADS: 1400, MINOR_ROADS: 800}

METRE = 100
KILOMETRE = 1000 * METRE
REACH = 150 * KILOMETRE  # of the country, from its middle
REGIONS = 6  # where towns lie closer
HEAVIEST = 60.0  # of a town
SHORTEST_PIECE = 0.7 * KILOMETRE  # of a road: each piece has a box
FIRST_PARTS = ["Ash", "Black", "Brook", "Elm", "Fair", "Green", "Hart", "King", "Mill", "North", "Oak", "Stone"]
LAST_PARTS = ["bridge", "bury", "field", "ford", "ham", "haven", "ley", "mouth", "port", "stead", "ton", "wick"]

Row = tuple[int, int, int, int, int]
"""min_x, max_x, min_y, max_y, layer."""


class Town(NamedTuple):
    x: float
    y: float
    weight: float

    @property
    def radius(self) -> float:
        return 0.6 * KILOMETRE * math.sqrt(self.weight)

    def distance(self, other: "Town") -> float:
        return math.hypot(self.x - other.x, self.y - other.y)


def box(x: float, y: float, wide: float, high: float, layer: int) -> Row:
    """A box round a point."""
    return round(x - wide / 2), round(x + wide / 2), round(y - high / 2), round(y + high / 2), layer


def some_towns(chance: random.Random, count: int) -> list[Town]:
    """Towns, the heaviest first. Most lie in some regions, and few are heavy."""
    regions = [(chance.uniform(-REACH, REACH) * 0.7, chance.uniform(-REACH, REACH) * 0.7) for _ in range(REGIONS)]
    towns = []
    for _ in range(count):
        x, y = chance.choice([(0.0, 0.0), *regions, *regions])
        spread = REACH / 2 if x == y == 0 else REACH / 8
        weight = min(chance.paretovariate(1.0), HEAVIEST)
        towns.append(Town(chance.gauss(x, spread), chance.gauss(y, spread), weight))
    return sorted(towns, key=lambda town: -town.weight)


def links(towns: list[Town]) -> Iterator[tuple[int, Town, Town]]:
    """The roads: from each town to the nearest of those that are heavier. Its class is by the town's rank."""
    for rank, town in enumerate(towns[1:], 1):
        share = rank / len(towns)
        layer = MOTORWAYS if share < 0.06 else MAIN_ROADS if share < 0.3 else MINOR_ROADS
        yield layer, town, min(towns[:rank], key=town.distance)


def road(chance: random.Random, layer: int, start: Town, end: Town, piece: float) -> Iterator[Row]:
    """The pieces of a road that bends a little, each with the least box round it."""
    pieces = max(1, round(start.distance(end) / piece))
    bend, turns, width = chance.gauss(0, 0.08), chance.randint(1, 3), WIDTHS[layer]

    def point(part: float) -> tuple[float, float]:
        aside = bend * math.sin(math.pi * turns * part) * part * (1 - part) * 4
        across, along = end.x - start.x, end.y - start.y
        return start.x + across * part - along * aside, start.y + along * part + across * aside

    points = [point(part / pieces) for part in range(pieces + 1)]
    for (x1, y1), (x2, y2) in zip(points, points[1:]):
        yield box((x1 + x2) / 2, (y1 + y2) / 2, abs(x2 - x1) + width, abs(y2 - y1) + width, layer)


def in_towns(chance: random.Random, towns: list[Town], count: int) -> Iterator[Row]:
    """Streets and buildings, the more of them the heavier a town is, and closer in its middle."""
    for town in chance.choices(towns, [town.weight for town in towns], k=count):
        x, y = chance.gauss(town.x, town.radius / 2), chance.gauss(town.y, town.radius / 2)
        if chance.random() < 0.2:
            long, wide = chance.uniform(60, 300) * METRE, chance.uniform(6, 12) * METRE
            yield box(x, y, *chance.choice([(long, wide), (wide, long)]), STREETS)
        else:
            yield box(x, y, chance.uniform(8, 30) * METRE, chance.uniform(8, 30) * METRE, BUILDINGS)


def some_map(chance: random.Random, count: int) -> tuple[list[Row], list[str]]:
    """So many boxes, and the names of the first of them."""
    towns = some_towns(chance, max(10, count // 400))
    rows = [box(town.x, town.y, 2 * town.radius, 2 * town.radius, TOWNS) for town in towns]
    names = [chance.choice(FIRST_PARTS) + chance.choice(LAST_PARTS) for _ in towns]
    roads = list(links(towns))
    # A quarter of the boxes at most are pieces of roads.
    piece = max(SHORTEST_PIECE, sum(start.distance(end) for _, start, end in roads) / (count / 4))
    for number, (layer, start, end) in enumerate(roads, 1):
        pieces = list(road(chance, layer, start, end, piece))
        rows += pieces
        names += [f"{LETTERS[layer]}{number}"] * len(pieces)
    rows += in_towns(chance, towns, count - len(rows))
    return rows, names


def write(folder: Path, rows: list[Row], names: list[str]) -> None:
    folder.mkdir(parents=True, exist_ok=True)
    with open(folder / "boxes.csv", "w", encoding="ascii") as file:
        file.writelines("%d,%d,%d,%d,%d,%d\n" % (id, *row) for id, row in enumerate(rows, 1))
    for name, listed in ("names.csv", enumerate(names, 1)), ("layers.csv", enumerate(LAYERS)):
        with open(folder / name, "w", encoding="utf-8", newline="") as file:
            csv.writer(file, lineterminator="\n").writerows(listed)


def main() -> None:
    parser = Parser(prog="rtfilter.tiles.make_map", description="Makes a map of a country that doesn't exist.")
    parser.add_argument("folder", metavar="FOLDER", type=Path, help="folder for boxes.csv, names.csv and layers.csv")
    parser.add_argument("--boxes", type=whole(1000, MOST_ENTRIES), default=100_000, metavar="N", help="boxes, 1000 or more (default 100000)")
    parser.add_argument("--seed", type=int, default=1, metavar="S", help="seed of the random numbers (default 1)")
    args = parser.parse_args()
    try:
        write(args.folder, *some_map(random.Random(args.seed), args.boxes))
    except OSError as error:
        sys.exit(f"{parser.prog}: {reason(error)}")


if __name__ == "__main__":
    main()

#!/usr/bin/env python3
"""Counts the instructions of a load and of lines of every kind, and compares them with the numbers that are stored here.

usage: tests/instructions.py PROGRAM [--show]

Work that a change adds by mistake, if the answers stay right, shows in no other test: a search before each count, an
order that is sorted twice, a polygon that isn't prepared. Instructions hardly change from run to run, whatever else the
machine does, so that a tenth more is seen. A tenth less fails as well: then the number stored here is no longer the
program's. `--show` prints the numbers as they are now. They are counted by valgrind's callgrind; without it all of this is
passed over, and said so. The last line is `N passed, M failed`.
"""

import random
import re
import shutil
import subprocess
import sys
import tempfile
from pathlib import Path

BOXES = 20000
SIDE = 10**9  # coordinates are at most so far from 0
LAYERS = 8
TOLERANCE = 0.1

# The name of each kind of line, with the instructions of one, how many are asked, and the line at a place.
LOAD = 2111
KINDS = {
    "find window": (4898, 300, lambda x, y: f"find window {box(x, y, 3)}"),
    "find window on": (7964, 300, lambda x, y: f"find window {box(x, y, 3)} on 1,5"),
    "find window first 10": (5420, 300, lambda x, y: f"find window {box(x, y, 3)} first 10"),
    "find window smallest first 10": (6230, 300, lambda x, y: f"find window {box(x, y, 3)} smallest first 10"),
    "find window first 100": (5351, 300, lambda x, y: f"find window {box(x, y, 3)} first 100"),
    "find window first 1000": (288413, 20, lambda x, y: f"find window {box(x, y, 60)} first 1000"),
    "find window near": (7034, 300, lambda x, y: f"find window {box(x, y, 3)} near {x} {y}"),
    "find window near first 128": (61269, 100, lambda x, y: f"find window {box(x, y, 40)} near {x} {y} first 128"),
    "find inside": (4603, 300, lambda x, y: f"find inside {box(x, y, 3)}"),
    "find covers": (2487, 300, lambda x, y: f"find covers {x} {x} {y} {y}"),
    "find circle": (13764, 300, lambda x, y: f"find circle {x} {y} {3 * SPACE}"),
    "find circle near": (15632, 300, lambda x, y: f"find circle {x} {y} {3 * SPACE} near {x + SPACE} {y}"),
    "find polygon": (8954, 300, lambda x, y: f"find polygon 4 {diamond(x, y, 4)}"),
    "find polygon of 16": (19300, 300, lambda x, y: f"find polygon 16 {round_polygon(x, y)}"),
    "nearest 1": (4440, 300, lambda x, y: f"nearest 1 {x} {y}"),
    "nearest 10": (9704, 300, lambda x, y: f"nearest 10 {x} {y}"),
    "nearest 129": (79759, 100, lambda x, y: f"nearest 129 {x} {y}"),
    "nearest 1000": (541837, 20, lambda x, y: f"nearest 1000 {x} {y}"),
    "find all": (3386745, 3, lambda x, y: "find all"),
    "find all first 1": (299223, 10, lambda x, y: "find all first 1"),
    "find all first 1000": (731741, 3, lambda x, y: "find all first 1000"),
    "find all smallest first 1000": (1454398, 3, lambda x, y: "find all smallest first 1000"),
    "count window": (10493, 100, lambda x, y: f"count window {box(x, y, 40)}"),
    "count circle": (20295, 100, lambda x, y: f"count circle {x} {y} {20 * SPACE}"),
    "count polygon": (30602, 100, lambda x, y: f"count polygon 4 {diamond(x, y, 20)}"),
    "cost find window": (8802, 300, lambda x, y: f"cost find window {box(x, y, 3)}"),
    "cost nearest 1": (7474, 300, lambda x, y: f"cost nearest 1 {x} {y}"),
    "cost count window": (41558, 100, lambda x, y: f"cost count window {box(x, y, 40)}"),
    "levels": (1292, 300, lambda x, y: "levels"),
    "a fault": (894, 1000, lambda x, y: f"find circle {x} {y} -1"),
    "a comment": (141, 1000, lambda x, y: f"# {x} {y}"),
}

# The distance from a box to the next, if they are uniform.
SPACE = 2 * SIDE // int(BOXES**0.5)


def box(x: int, y: int, spaces: int) -> str:
    return f"{x} {x + spaces * SPACE} {y} {y + spaces * SPACE}"


def diamond(x: int, y: int, spaces: int) -> str:
    half = spaces * SPACE // 2
    return f"{x - half} {y} {x} {y - half} {x + half} {y} {x} {y + half}"


def round_polygon(x: int, y: int) -> str:
    """Sixteen points on a circle, each pair of neighbours a little further round."""
    steps = [(3, 0), (3, 1), (2, 2), (1, 3), (0, 3), (-1, 3), (-2, 2), (-3, 1)]
    steps += [(-dx, -dy) for dx, dy in steps]
    points = [(x, y)]
    for dx, dy in steps[:-1]:
        points.append((points[-1][0] + dx * SPACE // 4, points[-1][1] + dy * SPACE // 4))
    return " ".join(f"{px} {py}" for px, py in points)


def table() -> str:
    """Boxes at even places, with ids in no order, sides up to a quarter of a space, and a layer each."""
    chance = random.Random(1)
    ids = chance.sample(range(BOXES), BOXES)
    records = []
    for id in ids:
        x, y = (chance.randint(-SIDE, SIDE) for _ in range(2))
        width, height = (chance.randrange(SPACE // 4) for _ in range(2))
        records.append(f"{id},{x},{x + width},{y},{y + height},{id % LAYERS}\n")
    return "".join(records)


def places(count: int) -> list[tuple[int, int]]:
    chance = random.Random(2)
    return [(chance.randint(-SIDE, SIDE), chance.randint(-SIDE, SIDE)) for _ in range(count)]


def counted(program: str, boxes: Path, queries: Path) -> int:
    """How many instructions a run takes."""
    words = ["valgrind", "--tool=callgrind", "--callgrind-out-file=/dev/null", program, str(boxes), str(queries)]
    run = subprocess.run(words, stdout=subprocess.DEVNULL, stderr=subprocess.PIPE, text=True)
    found = re.search(r"Collected : (\d+)", run.stderr)
    if not found:
        raise SystemExit(f"valgrind counted nothing:\n{run.stderr}")
    return int(found[1])


def main(program: str, shows: bool) -> int:
    if not shutil.which("valgrind"):
        print("skipped instructions: valgrind: not installed\n0 passed, 0 failed")
        return 0
    failed = 0
    with tempfile.TemporaryDirectory() as folder:
        boxes, queries = Path(folder, "boxes.csv"), Path(folder, "queries")
        boxes.write_text(table())
        queries.write_text("")
        load = counted(program, boxes, queries)
        found = {"a record": (LOAD, load // BOXES)}
        for name, (stored, lines, line) in KINDS.items():
            queries.write_text("".join(f"{line(x, y)}\n" for x, y in places(lines)))
            found[name] = stored, (counted(program, boxes, queries) - load) // lines
    for name, (stored, now) in found.items():
        if shows:
            print(f"{name:32} {now:10}")
        if abs(now - stored) > TOLERANCE * stored:
            failed += 1
            print(f"{name}: {now} instructions, and {stored} are stored", file=sys.stderr)
    print(f"{len(found) - failed} passed, {failed} failed")
    return failed > 0


if __name__ == "__main__":
    sys.exit(main(sys.argv[1], "--show" in sys.argv[2:]))

#!/usr/bin/env python3
"""Loads tables that are meant to make loading slow, and answers two lines over each; then lines that make searches slow.

usage: tests/hostile.py PROGRAM [RECORDS]

Loading sorts the ids, the entries by id, and each level of the tree by its middles, which is to take time in
proportion to n log n whatever the boxes and the ids are. With 1,000,000 records a sort that takes time in proportion
to n * n would not end within the time that is given here, nor would a search on a layer that one box has, if it looked
at every other box, one for all boxes, if it sorted them again for each, one for half of them, if it looked at all that
waits for each, or one for a box alone, if it passed over what an earlier query found or left behind. Nor would
thousands of lines of every kind about one place, if for one of the kinds all boxes were looked at: for its answer, its
cost or its fault. The last line is `N passed, M failed`.
"""

import math
import re
import subprocess
import sys
import tempfile
import time
from pathlib import Path

SECONDS = 30
LOW, HIGH = -(2**31), 2**31 - 1


def organ_pipe(at, count):
    """Rising up to the middle, and falling from there."""
    return 2 * at if 2 * at < count else 2 * (count - at) - 1


def saw(at, count):
    """Rising again and again, each time from a little further on."""
    return at % 1000 * 10**6 + at // 1000


# What a record holds, by its place and how many there are: its id, its sides and perhaps its layer.
TABLES = {
    "all in one place": lambda at, count: (at, 7, 7, 7, 7),
    "all in one place, ids falling": lambda at, count: (-at, 7, 7, 7, 7),
    "on a line along x": lambda at, count: (at, at, at, 0, 0),
    "on a line along y, falling": lambda at, count: (at, 0, 0, -at, -at),
    "on a diagonal": lambda at, count: (at, at, at, at, at),
    "one middle, each within the next": lambda at, count: (at, -at, at, -at, at),
    "two middles by turns": lambda at, count: (at, at % 2, at % 2, -(at % 2), -(at % 2)),
    "as large as the plane": lambda at, count: (at, LOW, HIGH, LOW, HIGH),
    "at two corners of the plane": lambda at, count: (at, *([LOW] * 4 if at % 2 else [HIGH] * 4), at % 64),
    "ids at both ends": lambda at, count: (2**63 - 1 - at if at % 2 else at - 2**63, at, at, at, at),
    "ids up and down": lambda at, count: (organ_pipe(at, count), organ_pipe(at, count), count, 0, at),
    "ids in a thousand runs": lambda at, count: (saw(at, count), saw(at, count), 10**9, 0, saw(at, count)),
}

# One box in the middle of all has a layer of its own, for which as many lines ask in each form. One node of each level
# is opened for it.
RARE = 63
LINES = 5000
FORMS = b"count all on %d\nfind window %d %d 0 0 on %d\nfind all on %d near 0 0 first 2\ncost find all on %d\n"
FANOUT = 16


def one_of_all(at, count):
    return at, at, at, 0, 0, RARE if at == count // 2 else at % 3


# Boxes round one middle, whose sizes stand in no order, so that those of a node differ: who asks for the nearest from
# outside has opened most nodes when half of the boxes are given, and as many boxes wait. So many lines then ask for one
# box, in each of two ways: to pass over half a million numbers takes less than a millisecond.
STEP = 7919
AGAIN = 500_000


def in_no_order(at, count):
    """Each size once, as the step has no divisor in common with the count."""
    size = at * STEP % count
    return at, -size, size, -size, size


def write_table(path, record, count):
    """The least id of the table that is written."""
    records = [record(at, count) for at in range(count)]
    row = b",".join([b"%d"] * len(records[0])) + b"\n"
    with open(path, "wb") as table:
        table.writelines(map(row.__mod__, records))
    return min(records)[0]


def rare_lines(count):
    """The lines that ask for the box on the rare layer, and their replies."""
    box, levels = count // 2, 1
    while FANOUT**levels < count:
        levels += 1
    lines = FORMS % (RARE, LOW, HIGH, RARE, RARE, RARE) * LINES
    expected = (b"ok %d 1\n%d 0\nok %d 1\n%d %d\nok %d 1\nok %d %d\n"
            % (at, box, at + 1, box, box**2, at + 2, at + 3, levels) for at in range(1, 4 * LINES, 4))
    return lines, b"".join(expected)


def nearest_lines(count):
    """The lines that ask for all boxes, for half of them, and then again and again for one, and their replies."""
    at_size, half = pow(STEP, -1, count), count // 2
    largest = (count - 1) * at_size % count
    boxes = [b"%d %d\n" % ((count - away) * at_size % count, away**2) for away in range(1, count + 1)]
    lines = b"find all near %d 0\nnearest %d %d 0\n" % (count, half, count)
    lines += b"nearest 1 %d 0\n" % count * AGAIN + b"find window %d %d 0 0\n" % (count - 1, count) * AGAIN
    expected = [*boxes, b"ok 1 %d\n" % count, *boxes[:half], b"ok 2 %d\n" % half]
    expected += (b"%d 1\nok %d 1\n" % (largest, at) for at in range(3, 3 + AGAIN))
    expected += (b"%d 0\nok %d 1\n" % (largest, at) for at in range(3 + AGAIN, 3 + 2 * AGAIN))
    return lines, b"".join(expected)


# Points on a grid, this far apart, and lines of every kind that each have to do with a few of them, near one place: so many
# of each kind. To look at a million boxes takes some milliseconds, so that a kind that did would take too long by itself.
APART = 1000
EACH = 10_000
PLACE = "123456 234567"
SQUARE = "120000 127000 230000 237000"
CORNERS = "4 120000 230000 127000 230000 127000 237000 120000 237000"
KINDS = [
    f"nearest 2 {PLACE}",
    f"nearest 200 {PLACE}",
    f"find circle {PLACE} 5000 first 2",
    f"find circle {PLACE} 5000 smallest",
    f"find polygon {CORNERS} first 2",
    f"find polygon {CORNERS} near {PLACE}",
    f"find window {SQUARE} first 2",
    f"find window {SQUARE} on 0",
    f"find all near {PLACE} first 2",
    f"find inside {SQUARE} smallest first 129",
    "find covers 123000 123000 234000 234000",
    f"count window {SQUARE}",
    f"count circle {PLACE} 5000",
    f"count polygon {CORNERS} on 0",
    "count all",
    "levels",
    f"cost nearest 1 {PLACE}",
    f"cost find window {SQUARE}",
    "cost count all",
    "find what",
    f"find polygon 3 {PLACE} {PLACE} {PLACE}",
    "# nothing",
    "",
]


def on_a_grid(at, count):
    x, y = (place * APART for place in divmod(at, math.isqrt(count)))
    return at, x, x, y, y


def lines_of_every_kind(program, table):
    """Lines of every kind, and their replies: what one line of the kind gets, which is tested elsewhere, each with its
    number. Of the kinds the last two have no reply."""
    once = answers(program, table, "".join(f"{line}\n" for line in KINDS).encode())[0] or b""
    parts = re.findall(rb"((?:-?\d+ \d+\n)*(?:ok|error) )(\d+)( .*\n)", once)
    replies = (b"%s%d%s" % (before, at, after) for before, kind, after in parts
               for at in range((int(kind) - 1) * EACH + 1, int(kind) * EACH + 1))
    lines = "".join(f"{line}\n" * EACH for line in KINDS)
    return lines.encode(), b"".join(replies) if len(parts) == len(KINDS) - 2 else None


def answers(program, table, lines):
    """What the program says to lines, and the seconds; nothing if it didn't end."""
    start = time.perf_counter()
    try:
        ended = subprocess.run([program, table], input=lines, capture_output=True, timeout=SECONDS)
    except subprocess.TimeoutExpired:
        return None, SECONDS
    return ended.stdout + ended.stderr, time.perf_counter() - start


def main():
    program = str(Path(sys.argv[1]).resolve())
    count = int(sys.argv[2]) if len(sys.argv) > 2 else 1_000_000
    passed = failed = 0
    with tempfile.TemporaryDirectory() as folder:
        table = str(Path(folder, "table.csv"))
        others = {"a layer of one box": one_of_all, "sizes in no order": in_no_order, "every kind of line": on_a_grid}
        for name, record in [*TABLES.items(), *others.items()]:
            least = write_table(table, record, count)
            lines, expected = b"count all\nfind all first 1\n", b"ok 1 %d\n%d 0\nok 2 1\n" % (count, least)
            if record == one_of_all:
                lines, expected = rare_lines(count)
            if record == in_no_order:
                lines, expected = nearest_lines(count)
            if record == on_a_grid:
                lines, expected = lines_of_every_kind(program, table)
            said, seconds = answers(program, table, lines)
            if said == expected:
                passed += 1
                print(f"{name}: {seconds:.2f} s")
            else:
                failed += 1
                print(f"{name}: {'no answer' if said is None else said[:200]!r} after {seconds:.2f} s")
    print(f"{passed} passed, {failed} failed")
    return 1 if failed else 0


if __name__ == "__main__":
    sys.exit(main())

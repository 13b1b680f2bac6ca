#!/usr/bin/env python3
"""Runs the built program on tables of many sizes, with each fanout, and compares what it answers.

usage: tests/sizes.py PROGRAM [--full]

Each fanout from 2 to 64 at the sizes around its powers up to 64 * 64 * 64, at which a tree gains a level, and each size from
0 to a thousand: whatever is made for that many boxes fits. With --full instead the greatest table that is allowed, of
16,777,216 boxes, and one of a box more: it takes some 1 GB of memory, and half a minute. The last line is `N passed, M
failed`.
"""

import subprocess
import sys
import tempfile
from pathlib import Path

from checks import difference, status_of

FANOUTS = range(2, 65)
GREATEST_POWER = 64**3
EACH_SIZE = range(1001)
MOST_ENTRIES = 2**24
QUERIES = b"levels\ncount all\nnearest 1 1 1\ncost count all\n"


def records(sizes):
    """Records with these ids, each of as many bytes: points on a band."""
    return b"".join(b"%08d,%08d,%08d,%02d,%02d\n" % (id, id, id, id % 89, id % 89) for id in sizes)


WIDTH = len(records([1]))


def level_sizes(count, fanout):
    """How many boxes, and then nodes, there are on each level."""
    sizes = [count]
    while count and (len(sizes) == 1 or sizes[-1] > 1):
        sizes.append(-(-sizes[-1] // fanout))
    return sizes


def expected(count, fanout):
    """Status, standard output and standard error of a run over this many boxes."""
    sizes = level_sizes(count, fanout)
    lines = [f"{level} {size}" for level, size in reversed(list(enumerate(sizes)))]
    lines += [f"ok 1 {len(sizes)}", f"ok 2 {count}"]
    lines += ["1 0", "ok 3 1", "ok 4 1"] if count else ["ok 3 0", "ok 4 0"]
    return 0, "".join(f"{line}\n" for line in lines).encode(), b""


def run(program, words, queries, table=None):
    try:
        done = subprocess.run([program, *words, queries], input=table, capture_output=True, timeout=300)
    except subprocess.TimeoutExpired:
        return "no end", b"", b""
    return done.returncode, done.stdout, done.stderr


def cases():
    """Fanouts and sizes."""
    for fanout in FANOUTS:
        power = fanout
        while power <= GREATEST_POWER:
            for count in range(power - 1, power + 2):
                yield fanout, count
            power *= fanout
    for count in EACH_SIZE:
        yield FANOUTS[count % len(FANOUTS)], count


def usual(program, queries):
    """What each run is, what is expected of it, and what it did."""
    all_records = records(range(1, max(count for _, count in cases()) + 1))
    for fanout, count in cases():
        table = memoryview(all_records)[: count * WIDTH]
        found = run(program, ["--fanout", str(fanout), "/dev/stdin"], queries, table)
        yield f"{count} boxes, fanout {fanout}", expected(count, fanout), found


def full(program, queries):
    folder = Path(queries).parent
    table = folder / "table.csv"
    with open(table, "wb") as rows:
        for start in range(1, MOST_ENTRIES + 1, 2**16):
            rows.write(records(range(start, start + 2**16)))
    for fanout in (2, 16):
        found = run(program, ["--fanout", str(fanout), table], queries)
        yield f"{MOST_ENTRIES} boxes, fanout {fanout}", expected(MOST_ENTRIES, fanout), found
    with open(table, "ab") as rows:
        rows.write(records([MOST_ENTRIES + 1]))
    refused = 3, b"", b"rtfilter: table record %d: too many entries\n" % (MOST_ENTRIES + 1)
    yield "a box more", refused, run(program, [table], queries)


def main():
    program = str(Path(sys.argv[1]).resolve())
    with tempfile.TemporaryDirectory() as folder:
        queries = Path(folder, "queries")
        queries.write_bytes(QUERIES)
        outcomes = full if "--full" in sys.argv else usual
        return status_of((name, difference(expected, found)) for name, expected, found in outcomes(program, queries))


if __name__ == "__main__":
    sys.exit(main())

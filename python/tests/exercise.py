"""Makes each call of the extension, with the standard library alone, and prints a sum of what it gave.

It is no test: test_builds.py runs it by other Pythons, by the sanitizers and by valgrind.
"""

import gc
import os
import random
import sys
import threading
import zlib
from array import array
from collections.abc import Callable
from typing import Any

from rtfilter import All, Circle, Covers, Inside, Near, Polygon, QueryError, Rtfilter, Smallest, TableError, Window, _engine

CHANCE = random.Random(1)
ROWS = [(at, at % 40, at % 40 + at % 7, at // 40, at // 40 + at % 5, at % 64) for at in range(1200)]
REGIONS: list[Any] = [All(), Window(3, 9, 4, 8), Inside(0, 20, 0, 20), Covers(5, 5, 5, 5), Circle(7, 7, 9), Window(5, 1, 0, 1)]
REGIONS += [Polygon([(0, 0), (9, 1), (4, 9)]), Polygon([(0, 0), (1, 1), (2, 2)]), Polygon([(0, 0)]), Window(0, 0.5, 0, 1)]  # type: ignore
REGIONS += [Circle(0, 0, -1), Window(0, 2**40, 0, 1), tuple.__new__(Window, (1,)), tuple.__new__(Polygon, (3,)), 7]
ORDERS: list[Any] = [None, Near(3, 3), Smallest(), Near(2**31, 0), All()]
OTHERS: list[dict[str, Any]] = [{}, {"first": 3}, {"on": 3}, {"on": [0, 63]}, {"on": []}, {"on": 64}, {"on": "x"}, {"first": -1}, {"x": 1}]
SQUARE = array("i", [0, 0, 9, 0, 9, 9, 0, 9, 0, 0]), array("q", [0, 5]), array("q", [0, 1])
PAIR = array("q", [0]), array("i", [3, 3])
BAD_ARRAYS: list[Any] = [(array("q", [1]), array("i", [2]), array("q"), b"", b"", None), (1, 2, 3, 4, 5, None)]


def outcome(call: Callable[[], Any]) -> str:
    """What a call gives, or what it raises."""
    try:
        return str(call())
    except Exception as error:
        return type(error).__name__ + (str(error) if isinstance(error, (QueryError, TableError)) else "")


def single(table: Rtfilter) -> list[str]:
    found = []
    for region in REGIONS:
        for others in OTHERS:
            for order in ORDERS:
                found.append(outcome(lambda: table.find(region, order, scores=bool(others), **others)))
            for call in (table.count, table.cost_of_find, table.cost_of_count):
                found.append(outcome(lambda: call(region, **others)))
    found += [outcome(lambda: table.nearest(k, 3, 4)) for k in (0, 1, 5, 5000, -1, 1.5)]  # type: ignore[arg-type]
    return found


def many(table: Rtfilter) -> list[str]:
    queries = _engine.query_of(All, Near(3, 3), 700, [0, 5]) * 200 + _engine.query_of(Circle, None, None, None)
    places, ids, scores = bytearray(), bytearray(), bytearray()
    count = table._find_each(queries, 5, 206, places, ids, scores, 0)
    boxes, windows = array("d", [0.0, 0.0, 1.0, 1.0] * 1200), array("d", [2.0, 2.0, 3.0, 3.0] * 200)
    window = _engine.query_of(All, None, None, None) * 200
    filtered = table._find_each(window, 0, 200, bytearray(), bytearray(), None, 0, boxes, windows)
    bad = _engine.query_of(Window, None, None, None).replace(b"\0" * 8, b"\1\0\0\0\0\0\0\0", 1)
    others = [
        lambda: table._find_each(b"x", 0, 0, places, ids, None, 0),
        lambda: table._find_each(queries, 0, 201, b"", ids, None, 0),  # type: ignore[arg-type]
        lambda: table._find_each(window, -1, 200, places, ids, None, 0, boxes, windows),
        lambda: table._find_each(window, 0, 200, places, ids, None, -1),
        lambda: table._find_each(window, 0, 200, places, ids, 5, 0),  # type: ignore[arg-type]
        lambda: table._count_each(bad * 70, 0),
        lambda: table._count_each(queries, 0),
        lambda: _engine.query_of(Polygon, None, None, None),
        lambda: _engine.holds_each(*SQUARE, array("q", [0] * 3), array("i", [3, 3, 9, 9, 10, 9])),
        *(lambda it=it: _engine.holds_each(*SQUARE, array("q", [it]), PAIR[1]) for it in (-1, 1, 2**62)),
        *(lambda it=it: _engine.holding(*SQUARE, it, 3, 3) for it in ([], [0, 0], [-1], [1], [2**64], ["x"], 5)),
        lambda: _engine.holding(b"x", *SQUARE[1:], [0], 3, 3),
        *(lambda it=it: _engine.holds_each(SQUARE[0], array("q", it), SQUARE[2], *PAIR) for it in ([0, 6], [-1, 5], [5, 0], [0], [])),
        *(lambda it=it: _engine.holds_each(*SQUARE[:2], array("q", it), *PAIR) for it in ([0, 2], [1, 0], [-1, 1], [0], [])),
        lambda: _engine.holds_each(*SQUARE, PAIR[0], b""),
        lambda: _engine.holds_each(*SQUARE[:2], b"x", *PAIR),
    ]
    return [str(count), str(filtered), str(zlib.crc32(places[: 8 * count] + ids[: 8 * count])), *map(outcome, others)]


def lines(table: Rtfilter) -> list[str]:
    text = b"find all near 3 4\nfind x\n# a comment\ncount window 0 5 0 5\n" * 30
    return [str(zlib.crc32(table.text(text))), str(table.replies(["find all first 3", "", "x"])), outcome(lambda: table.text(3))]  # type: ignore


def openings(file: str) -> list[str]:
    faulty = [[(1, 0, 1)], [(1, 0, 1, 0, 1)] * 2, [(1, 5, 1, 0, 1)], [(1, 0, 2**31, 0, 1)], [(1, 0, 1, 0, 1, 64)], [(1, "x", 1, 0, 1)]]
    found = [outcome(lambda: Rtfilter(it)) for it in faulty]
    found += [outcome(lambda: Rtfilter._open_arrays(it, 16, 99)) for it in BAD_ARRAYS]
    found += [outcome(lambda: Rtfilter(ROWS, max_entries=it)) for it in (3, 0, 2**70)]
    return found + [outcome(lambda: len(Rtfilter(file))), outcome(lambda: Rtfilter(file + "x")), outcome(lambda: len(Rtfilter(file, header=True)))]


def by_threads(table: Rtfilter) -> None:
    """Asks from threads, of which some meet the close of the table."""
    threads = [threading.Thread(target=lambda: [outcome(lambda: table.find(All(), Near(1, 2))) for _ in range(100)]) for _ in range(4)]
    for it in threads:
        it.start()
    table.close()
    for it in threads:
        it.join()


def in_a_child(table: Rtfilter) -> None:
    expected = table.find(All(), Smallest())
    child = os.fork()
    if child == 0:
        os._exit(int(table.find(All(), Smallest()) != expected))
    assert os.waitpid(child, 0)[1] == 0


def main() -> None:
    table = Rtfilter(ROWS)
    found = [*single(table), *many(table), *lines(table), *openings(sys.argv[1]), str(table.levels()), str(table.bounds)]
    in_a_child(table)
    by_threads(table)
    del table
    gc.collect()
    print(zlib.crc32("\n".join(found).encode()), len(found))


if __name__ == "__main__":
    main()

#!/usr/bin/python3
"""Measures the Python package beside rtree, shapely, geopandas, GEOS from C and the C call alone.

usage: PYTHONPATH=python bench/python.py [--boxes N] [--only WORD]..

Prints one table: the time of each case, the least of some runs, and how many times that of the first case with the same name it
is. Each case runs alone in a process of its own, and prints a sum of its answers; those of one name have to be the same. With
--only, the cases run whose name has one of these words. It needs `make python library`, python3-numpy, and for what is compared
python3-rtree, python3-shapely, python3-geopandas, and gcc with libgeos-dev: what isn't installed is named. No part of the gate.
"""

import argparse
import contextlib
import ctypes
import json
import os
import subprocess
import sys
import tempfile
import threading
import time
import warnings
import zlib
from pathlib import Path

import numpy

sys.dont_write_bytecode = True
ROOT = Path(__file__).resolve().parent.parent
warnings.simplefilter("ignore")

SIDE, LARGEST, HITS, WINDOWS = 1_000_000, 1_000, 20, 10_000
RUNS, SINGLE, MANY = 7, 500, 1_000_000
MICRO, MILLI = "us", "ms"


def boxes_of(count):
    """Rows of min_x, min_y, max_x, max_y."""
    chance = numpy.random.default_rng(1)
    low, size = chance.integers(0, SIDE, (count, 2)), chance.integers(0, LARGEST, (count, 2))
    return numpy.hstack([low, low + size])


def windows_of(count, boxes):
    low = numpy.random.default_rng(2).integers(0, SIDE, (count, 2))
    return numpy.hstack([low, low + int(SIDE * (HITS / boxes) ** 0.5)])


def sum_of(*arrays):
    """A sum of answers, whatever holds them."""
    return zlib.crc32(b"".join(numpy.asarray(it, "i8").tobytes() for it in arrays))


def least(call, count=1, runs=RUNS):
    """The least time of some runs for each of `count`, and what the last gave."""
    best = None
    for _ in range(runs):
        begun = time.perf_counter()
        found = call()
        taken = time.perf_counter() - begun
        best = taken if best is None else min(best, taken)
    return best / count, found


def pairs_sum(places, ids):
    order = numpy.lexsort([ids, places])
    return sum_of(numpy.asarray(places)[order], numpy.asarray(ids)[order])


# ---- single queries


def table_of(boxes):
    from rtfilter import Rtfilter

    return Rtfilter.from_bounds(boxes)


def find(boxes):
    from rtfilter import Window

    table, windows = table_of(boxes), windows_of(SINGLE, len(boxes)).tolist()
    taken, found = least(lambda: [table.find(Window(it[0], it[2], it[1], it[3])) for it in windows], SINGLE)
    return taken, sum_of(*found)


def find_rtree(boxes):
    from rtree import index

    tree, windows = index.Index((at, it, None) for at, it in enumerate(boxes.tolist())), windows_of(SINGLE, len(boxes)).tolist()
    taken, found = least(lambda: [[*tree.intersection(it)] for it in windows], SINGLE, 3)
    return taken, sum_of(*map(sorted, found))


def find_shapely(boxes):
    from shapely.geometry import box
    from shapely.strtree import STRtree

    tree, windows = STRtree([box(*it) for it in boxes.tolist()]), [box(*it) for it in windows_of(SINGLE, len(boxes)).tolist()]
    ask = tree.query if hasattr(tree, "query_nearest") else tree.query_items
    taken, found = least(lambda: [ask(it) for it in windows], SINGLE, 3)
    return taken, sum_of(*map(sorted, found))


def nearest(boxes):
    table, windows = table_of(boxes), windows_of(SINGLE, len(boxes)).tolist()
    return least(lambda: [table.nearest(10, it[0], it[1]) for it in windows], SINGLE)[0], None


def nearest_rtree(boxes):
    from rtree import index

    tree, windows = index.Index((at, it, None) for at, it in enumerate(boxes.tolist())), windows_of(SINGLE, len(boxes)).tolist()
    return least(lambda: [[*tree.nearest((*it[:2], *it[:2]), 10)] for it in windows], SINGLE, 3)[0], None


def count(boxes):
    from rtfilter import Window

    table, windows = table_of(boxes), windows_of(SINGLE, len(boxes)).tolist()
    taken, found = least(lambda: [table.count(Window(it[0], it[2], it[1], it[3])) for it in windows], SINGLE)
    return taken, sum_of(found)


def count_rtree(boxes):
    from rtree import index

    tree, windows = index.Index((at, it, None) for at, it in enumerate(boxes.tolist())), windows_of(SINGLE, len(boxes)).tolist()
    taken, found = least(lambda: [tree.count(it) for it in windows], SINGLE, 3)
    return taken, sum_of(found)


# ---- many queries at once


class Call(ctypes.Structure):
    _fields_ = [("queries", ctypes.c_void_p), ("len", ctypes.c_size_t), ("vertices", ctypes.c_void_p), ("vertex_len", ctypes.c_size_t)]


class Answers(ctypes.Structure):
    _fields_ = [("ids", ctypes.c_void_p), ("scores", ctypes.c_void_p), ("capacity", ctypes.c_size_t), ("ends", ctypes.c_void_p),
                ("done", ctypes.c_size_t), ("found", ctypes.c_size_t)]  # fmt: skip


def find_each_c(boxes):
    """The call of the library alone, whose queries and arrays are there before."""
    from rtfilter import Window, arrays

    library = ctypes.CDLL(str(ROOT / "build/librtfilter.so"))
    columns = [numpy.arange(len(boxes)), *(numpy.ascontiguousarray(boxes[:, at], "i4") for at in (0, 2, 1, 3))]
    session = ctypes.c_void_p()
    pointers = [ctypes.c_void_p(it.ctypes.data) for it in columns]
    assert library.rtfilter_open_arrays(ctypes.byref(session), ctypes.c_size_t(len(boxes)), *pointers, None, None, None) == 0
    windows = windows_of(WINDOWS, len(boxes))
    packed = arrays.Queries(Window, [windows[:, at] for at in (0, 2, 1, 3)], None, None, None)
    queries = numpy.concatenate([numpy.frombuffer(part.tobytes(), f"V{arrays.QUERY.itemsize}") for _, part in packed.parts()])
    ids, ends = numpy.empty(40 * WINDOWS, "i8"), numpy.empty(WINDOWS, "u8")
    answers = Answers(ids.ctypes.data, None, len(ids), ends.ctypes.data, 0, 0)
    call = Call(queries.ctypes.data, WINDOWS, None, 0)

    def find():
        assert library.rtfilter_find(ctypes.byref(session), ctypes.byref(call), ctypes.c_size_t(0), ctypes.byref(answers)) == 0

    taken, _ = least(find, WINDOWS)
    counts = numpy.diff(ends.astype("i8"), prepend=0)
    return taken, pairs_sum(numpy.repeat(numpy.arange(WINDOWS), counts), ids[: answers.found])


def find_each(boxes):
    table, windows = table_of(boxes), windows_of(WINDOWS, len(boxes))
    taken, found = least(lambda: table.find_each(bounds=windows), WINDOWS)
    return taken, pairs_sum(*found)


def find_each_geopandas(boxes):
    import geopandas
    from shapely.geometry import box

    tree = geopandas.GeoSeries([box(*it) for it in boxes.tolist()]).sindex
    windows = geopandas.GeoSeries([box(*it) for it in windows_of(WINDOWS, len(boxes)).tolist()])
    taken, found = least(lambda: tree.query_bulk(windows) if hasattr(tree, "query_bulk") else tree.query(windows), WINDOWS, 1)
    return taken, pairs_sum(*found)


def nearest_each(boxes):
    table, windows = table_of(boxes), windows_of(WINDOWS, len(boxes))
    return least(lambda: table.nearest_each(windows[:, :2], 10), WINDOWS)[0], None


def count_each(boxes):
    table, windows = table_of(boxes), windows_of(WINDOWS, len(boxes))
    return least(lambda: table.count_each(bounds=windows), WINDOWS)[0], None


# ---- decimals and geometries


def geos_c(boxes):
    """GEOS's tree from C; the pairs come over a pipe."""
    with tempfile.TemporaryDirectory() as folder:
        program = f"{folder}/geos"
        subprocess.run(["gcc", "-O", "-o", program, ROOT / "bench/peers/geos_bulk.c", "-lgeos_c"], check=True, capture_output=True)
        windows = windows_of(WINDOWS, len(boxes))
        for name, rows in (("boxes", boxes), ("windows", windows)):
            rows[:, [0, 2, 1, 3]].astype("i8").tofile(f"{folder}/{name}")
        words = [program, f"{folder}/boxes", f"{folder}/windows"]
        with subprocess.Popen(words, stdin=subprocess.PIPE, stdout=subprocess.PIPE) as process:

            def ask():
                process.stdin.write(b"\n")
                process.stdin.flush()
                (number,) = numpy.frombuffer(process.stdout.read(8), "i8")
                return numpy.frombuffer(process.stdout.read(16 * int(number)), "i8").reshape(-1, 2)

            taken, pairs = least(ask, WINDOWS)
            process.stdin.close()
        return taken, pairs_sum(*pairs.T)


def query_bounds(boxes):
    from rtfilter.geometry import STRtree

    tree, windows = STRtree.from_bounds(boxes / 8 + 0.125), windows_of(WINDOWS, len(boxes)) / 8 + 0.125
    taken, found = least(lambda: tree.query_bounds(windows), WINDOWS)
    return taken, pairs_sum(*found)


def discs(number, radius):
    """Polygons of 40 corners, in whole numbers."""
    from shapely.geometry import Point, Polygon

    centres = numpy.random.default_rng(3).integers(0, SIDE, (number, 2)).tolist()
    return [Polygon([(round(x), round(y)) for x, y in Point(*it).buffer(radius, 10).exterior.coords]) for it in centres]


def holding_each(_):
    from rtfilter.zones import Zones

    zones, points = Zones(discs(10_000, 6_000)), numpy.random.default_rng(4).integers(0, SIDE, (100_000, 2))
    taken, found = least(lambda: zones.holding_each(points), len(points))
    return taken, None


def frames():
    import geopandas
    from shapely.geometry import Point

    points = numpy.random.default_rng(4).integers(0, SIDE, (10_000, 2)).tolist()
    left = geopandas.GeoDataFrame({"n": range(10_000)}, geometry=[Point(*it) for it in points])
    return left, geopandas.GeoDataFrame({"z": range(10_000)}, geometry=discs(10_000, 6_000))


def query_predicate(_):
    from rtfilter.geometry import STRtree

    left, right = frames()
    tree = STRtree(right)
    taken, found = least(lambda: tree.query(left, "intersects"), len(left), 3)
    return taken, pairs_sum(*found)


def sjoin(_):
    from rtfilter.geometry import sjoin

    left, right = frames()
    taken, found = least(lambda: sjoin(left, right), len(left), 3)
    return taken, pairs_sum(found["n"], found["z"])


def sjoin_geopandas(_):
    import geopandas

    left, right = frames()
    taken, found = least(lambda: geopandas.sjoin(left, right), len(left), 1)
    return taken, pairs_sum(found["n"], found["z"])


# ---- loads, memory, threads


def columns(_):
    import pandas

    from rtfilter import Rtfilter

    boxes = boxes_of(MANY)
    frame = {name: numpy.ascontiguousarray(boxes[:, at], "i4") for name, at in zip(("min_x", "max_x", "min_y", "max_y"), (0, 2, 1, 3))}
    table = pandas.DataFrame({"id": numpy.arange(MANY), **frame})
    return least(lambda: Rtfilter(table).close(), 1, 3)[0], None


def rows(_):
    from rtfilter import Rtfilter

    table = numpy.hstack([numpy.arange(MANY)[:, None], boxes_of(MANY)[:, [0, 2, 1, 3]]])
    return least(lambda: Rtfilter(table).close(), 1, 3)[0], None


def file(_):
    from rtfilter import Rtfilter

    with tempfile.NamedTemporaryFile(suffix=".csv") as to:
        numpy.savetxt(to, numpy.hstack([numpy.arange(MANY)[:, None], boxes_of(MANY)[:, [0, 2, 1, 3]]]), "%d", ",")
        to.flush()
        return least(lambda: Rtfilter(to.name).close(), 1, 3)[0], None


def resident():
    """Bytes of this process that are its own."""
    text = Path("/proc/self/smaps_rollup").read_text()
    return sum(int(line.split()[1]) * 1024 for line in text.splitlines() if line.startswith(("Private_Clean", "Private_Dirty")))


def memory(_):
    import pandas

    from rtfilter import Rtfilter, Window

    boxes = boxes_of(MANY)
    names = zip(("min_x", "max_x", "min_y", "max_y"), (0, 2, 1, 3))
    frame = pandas.DataFrame({"id": numpy.arange(MANY), **{name: numpy.ascontiguousarray(boxes[:, at], "i4") for name, at in names}})
    before = resident()
    table = Rtfilter(frame)
    alone = resident() - before
    both = threading.Barrier(9)

    def ask():
        both.wait()
        for _ in range(50):
            table.find(Window(0, 20_000, 0, 20_000))
        both.wait()

    threads = [threading.Thread(target=ask) for _ in range(8)]
    for it in threads:
        it.start()
    both.wait()
    both.wait()
    for it in threads:
        it.join()
    return (alone / 1e6, (resident() - before - alone) / 1e6), None


def by_threads(number):
    def case(boxes):
        table, windows = table_of(boxes), windows_of(WINDOWS, len(boxes))

        def ask():
            threads = [threading.Thread(target=table.find_each, kwargs={"bounds": windows}) for _ in range(number)]
            for it in threads:
                it.start()
            for it in threads:
                it.join()

        return least(ask, number * WINDOWS)[0], None

    return case


CASES = {  # of a name the first is what others are compared with
    "find a window of 20": {"Rtfilter.find": find, "rtree": find_rtree, "shapely": find_shapely},
    "nearest 10": {"Rtfilter.nearest": nearest, "rtree": nearest_rtree},
    "count a window of 20": {"Rtfilter.count": count, "rtree": count_rtree},
    "windows, 10,000 a call": {"the C call alone": find_each_c, "Rtfilter.find_each": find_each, "geopandas": find_each_geopandas},
    "nearest 10, 10,000 a call": {"Rtfilter.nearest_each": nearest_each},
    "counts, 10,000 a call": {"Rtfilter.count_each": count_each},
    "windows of decimals, 10,000 a call": {"GEOS from C": geos_c, "STRtree.query_bounds": query_bounds},
    "a point in 10,000 zones": {"Zones.holding_each": holding_each, "STRtree.query, intersects": query_predicate},
    "join of points and zones": {"sjoin": sjoin, "geopandas": sjoin_geopandas},
    "open 1,000,000 boxes": {"a file": file, "columns of a frame": columns, "an array (n, 5)": rows},
    "1,000,000 boxes in memory; 8 threads more, MB": {"Rtfilter": memory},
    "windows by the wall, of threads": {f"{it}": by_threads(it) for it in (1, 2, 3, 4)},
}


def run_alone(name, case, boxes):
    """A case in a process of its own: its time and the sum of its answers; why it can't be had."""
    words = [sys.executable, __file__, "--boxes", str(boxes), "--case", name, case]
    done = subprocess.run(words, capture_output=True, text=True)
    if done.returncode:
        return None, done.stderr.strip().splitlines()[-1][:100]
    return tuple(json.loads(done.stdout))


def shown(taken):
    if isinstance(taken, list):
        return "; ".join(f"{it:.0f}" for it in taken)
    return f"{taken * 1e6:.2f} {MICRO}" if taken < 0.002 else f"{taken * 1e3:.0f} {MILLI}"


def main():
    parser = argparse.ArgumentParser()
    parser.add_argument("--boxes", type=int, default=100_000)
    parser.add_argument("--only", action="append")
    parser.add_argument("--case", nargs=2, help=argparse.SUPPRESS)
    args = parser.parse_args()
    if args.case:
        with contextlib.redirect_stdout(sys.stderr):
            result = CASES[args.case[0]][args.case[1]](boxes_of(args.boxes))
        print(json.dumps(result))
        return 0
    print(f"{args.boxes:,} boxes, Python {sys.version.split()[0]}, load {os.getloadavg()[0]:.1f}\n\n| | | each | |\n|---|---|---|---|")
    status = 0
    for name, cases in CASES.items():
        if args.only and not any(it in name for it in args.only):
            continue
        first, sums = None, set()
        for case in cases:
            taken, kept = run_alone(name, case, args.boxes)
            if taken is None:
                print(f"| {name} | {case} | not had: {kept} | |", flush=True)
                continue
            sums |= {kept} - {None}
            first = first or taken
            times = "" if isinstance(taken, list) or taken is first else f"{taken / first:.2f}"
            print(f"| {name} | {case} | {shown(taken)} | {times} |", flush=True)
        if len(sums) > 1:
            print(f"the answers to {name} differ", file=sys.stderr)
            status = 1
    return status


if __name__ == "__main__":
    sys.exit(main())

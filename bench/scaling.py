#!/usr/bin/python3
"""Measures more boxes than one table holds: several tables in this process, and the same boxes over the workers of a dask cluster.

usage: bench/scaling.py [--boxes N] [--tables T] [--workers W] [--queries Q]

T tables of N / T boxes each, in this process, are queried as one; then the same boxes are partitioned over W workers of one thread
each, asked the same questions, and asked again while a worker is killed. The answers have to be the same, row by row; the status is
1 if they aren't. Prints seconds of the wall, microseconds of processor time a query and bytes of memory. W = 0 leaves dask out.
It wants the Python package built (make python), and python3-distributed of Debian 12.
"""

import argparse
import os
import signal
import sys
import threading
import time
from pathlib import Path

import numpy
import pandas

SIDES = ["min_x", "max_x", "min_y", "max_y"]
SPAN = 2_000_000_000
IN_A_WINDOW = 20
K = 10
PIECES = 4  # of a table's boxes, as dask reads them


def boxes_of(table, tables, share):
    """A frame of the boxes of a table, which lie uniformly in a slice of the plane, with ids of their own."""
    chance = numpy.random.default_rng(table)
    first, count = table * share, share
    low = chance.integers(-SPAN // 2, SPAN // 2, (count, 2))
    low[:, 0] = -SPAN // 2 + (low[:, 0] + SPAN // 2 + table * SPAN) // tables
    size = chance.integers(0, 2000, (count, 2))
    columns = {"min_x": low[:, 0], "max_x": low[:, 0] + size[:, 0], "min_y": low[:, 1], "max_y": low[:, 1] + size[:, 1]}
    return pandas.DataFrame({"id": numpy.arange(first, first + count), **{name: it.astype("i4") for name, it in columns.items()}})


def queries_of(count, boxes):
    """A frame of windows of some twenty boxes each, with their lower corners as points."""
    side = int(SPAN * (IN_A_WINDOW / boxes) ** 0.5)
    low = numpy.random.default_rng(0).integers(-SPAN // 2, SPAN // 2 - side, (count, 2))
    sides = numpy.stack([low[:, 0], low[:, 0] + side, low[:, 1], low[:, 1] + side], 1)
    return pandas.DataFrame(sides, columns=SIDES).assign(x=low[:, 0], y=low[:, 1])


def memory():
    """The bytes of memory that this process holds."""
    return int(Path("/proc/self/statm").read_text().split()[1]) * os.sysconf("SC_PAGE_SIZE")


def timed(words, count, call, clock=time.process_time):
    """What a call gives. Prints how long it took: seconds by a clock, for each of `count`, and seconds of the wall."""
    begin, wall = clock(), time.monotonic()
    found = call()
    print(f"{words}: {(clock() - begin) / count * 1e6:.2f} us each, {time.monotonic() - wall:.1f} s of the wall", flush=True)
    return found


def processor_time(cluster_pids):
    """Seconds of processor time of this process and of some others."""
    def seconds(pid):
        fields = Path(f"/proc/{pid}/stat").read_text().rpartition(")")[2].split()
        return (int(fields[11]) + int(fields[12])) / os.sysconf("SC_CLK_TCK")

    return time.process_time() + sum(seconds(it) for it in cluster_pids if Path(f"/proc/{it}/stat").exists())


def in_one_process(boxes, tables, queries):
    """The answers of several tables: places and ids of windows, counts, places, ids and scores of the nearest."""
    from rtfilter import Rtfilter, Tables

    held = memory()
    share = boxes // tables
    opened = timed(f"{boxes} boxes in {tables} tables, made and opened", boxes,
                   lambda: [Rtfilter(boxes_of(at, tables, share)) for at in range(tables)])
    print(f"memory: {(memory() - held) / boxes:.0f} bytes a box")
    many = Tables(opened)
    windows, points = queries[SIDES].to_numpy(), queries[["x", "y"]].to_numpy()
    count = len(queries)
    found = timed("a window, in one call", count, lambda: many.find_each(windows))
    by_min_x = windows[windows[:, 0].argsort()]
    timed("a window, in one call, sorted by min_x", count, lambda: many.find_each(by_min_x))
    counts = timed("a count, in one call", count, lambda: many.count_each(windows))
    near = timed(f"the nearest {K}, in one call", count, lambda: many.nearest_each(points, K))
    return found, counts, near


def over_workers(boxes, tables, queries, workers, expected):
    """Whether dask's workers answer the same, with one of them killed in the middle of the last call."""
    import dask
    import dask.dataframe
    from distributed import Client, LocalCluster

    from rtfilter.dask import Boxes, spatial_shuffle

    share = boxes // tables
    with LocalCluster(n_workers=workers, threads_per_worker=1, dashboard_address=None) as cluster, Client(cluster) as client:
        pids = client.run(os.getpid)
        clock = lambda: processor_time(pids.values())  # noqa: E731
        frames = [dask.delayed(piece)(at, tables, share) for at in range(PIECES * tables)]
        frame = dask.dataframe.from_delayed(frames, meta=boxes_of(0, 1, 0))
        parts = max(workers, 2 * tables)
        held = timed("partitioned and loaded", boxes, lambda: Boxes(spatial_shuffle(frame, parts)), clock)
        partitioned = dask.dataframe.from_pandas(queries, npartitions=2 * workers)
        (places, ids), counts, near = expected
        found = timed("a window", len(queries), lambda: held.query(partitioned[SIDES]).compute(), clock)
        same = equal(found, places, id=ids)
        same &= timed("a count", len(queries), lambda: held.count(partitioned[SIDES]).compute(), clock).tolist() == counts.tolist()
        nearest = timed(f"the nearest {K}", len(queries), lambda: held.nearest(partitioned[["x", "y"]], K).compute(), clock)
        same &= equal(nearest, near[0], id=near[1], score=near[2])
        print(f"memory of a worker: {max(client.run(memory).values()) / 2**20:.0f} MB", flush=True)
        threading.Timer(0.2, os.kill, [next(iter(pids.values())), signal.SIGKILL]).start()
        again = timed("a window, while a worker is killed", len(queries), lambda: held.query(partitioned[SIDES]).compute(), time.monotonic)
        return same & equal(again, places, id=ids)


def piece(at, tables, share):
    """A piece of the boxes of one table."""
    table, part = divmod(at, PIECES)
    return boxes_of(table, tables, share).iloc[part::PIECES]


def equal(frame, places, **columns):
    """Whether a frame has these places as its index and these columns."""
    return frame.index.tolist() == places.tolist() and all(frame[name].tolist() == it.tolist() for name, it in columns.items())


def main():
    parser = argparse.ArgumentParser(description="measure several tables, and dask")
    parser.add_argument("--boxes", type=int, default=40_000_000, metavar="N", help="boxes in all (default 40,000,000)")
    parser.add_argument("--tables", type=int, default=4, metavar="T", help="tables in this process (default 4)")
    parser.add_argument("--workers", type=int, default=4, metavar="W", help="workers of dask; 0: without dask (default 4)")
    parser.add_argument("--queries", type=int, default=100_000, metavar="Q", help="queries of each kind (default 100,000)")
    args = parser.parse_args()
    queries = queries_of(args.queries, args.boxes)
    expected = in_one_process(args.boxes, args.tables, queries)
    if args.workers and not over_workers(args.boxes, args.tables, queries, args.workers, expected):
        print("the answers differ")
        return 1
    print("the answers are the same" if args.workers else "dask was left out")
    return 0


if __name__ == "__main__":
    sys.exit(main())

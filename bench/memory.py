#!/usr/bin/python3
"""Measures the memory of tables, and the load of the largest one.

usage: PYTHONPATH=python bench/memory.py PROGRAM [--boxes N] [--only WORD]..

Prints for each case, in a process of its own, the bytes a box that the loaded table takes, the most during the load, and the seconds of
processor time of the load. The first cases are of PROGRAM, the others of this Python and its package; the growth of the process is measured,
so without the columns, rows or geometries that a table is made of. --boxes is 16777216 for the largest table; with --only the cases run
whose name has one of these words. It needs `make python`, python3-pandas and python3-shapely. No part of the gate.
"""

import argparse
import json
import os
import subprocess
import sys
import tempfile
import time
from pathlib import Path

import numpy

sys.dont_write_bytecode = True

SPAN = 2_000_000_000
SIDES = ["min_x", "max_x", "min_y", "max_y"]


def sides_of(count):
    """Columns of small boxes that lie uniformly."""
    chance = numpy.random.default_rng(1)
    low, size = chance.integers(-SPAN // 2, SPAN // 2, (2, count), "i4"), chance.integers(0, 2000, (2, count), "i4")
    return {"min_x": low[0], "max_x": low[0] + size[0], "min_y": low[1], "max_y": low[1] + size[1]}


def frame_of(count):
    import pandas

    return pandas.DataFrame({"id": numpy.random.default_rng(2).permutation(count), **sides_of(count)})


def status_of(process, *fields):
    """Bytes of a process: what is resident now, or was at most."""
    lines = dict(line.split(":", 1) for line in Path(f"/proc/{process}/status").read_text().splitlines())
    return [1024 * int(lines[field].split()[0]) for field in fields]


def grown(make):
    """What a call adds to the memory of this process: in the end, and at most; and its seconds."""
    begun, before = time.process_time(), status_of("self", "VmRSS")[0]
    Path("/proc/self/clear_refs").write_text("5")  # resets the peak of resident memory
    kept = make()
    seconds = time.process_time() - begun
    after, most = status_of("self", "VmRSS", "VmHWM")
    del kept
    return after - before, most - before, seconds


def of_program(program, count, *options):
    with tempfile.NamedTemporaryFile(suffix=".csv") as to:
        frame_of(count).to_csv(to.name, header=False, index=False)
        words = [program, *options, to.name]
        with subprocess.Popen(words, stdin=subprocess.PIPE, stdout=subprocess.PIPE) as process:
            process.stdin.write(b"count all\n")
            process.stdin.flush()
            assert process.stdout.readline() == b"ok 1 %d\n" % count
            after, most = status_of(process.pid, "VmRSS", "VmHWM")
            times = Path(f"/proc/{process.pid}/stat").read_text().rpartition(")")[2].split()[11:13]
            process.stdin.close()
    return after, most, sum(map(int, times)) / os.sysconf("SC_CLK_TCK")


def of_file(_, count):
    from rtfilter import Rtfilter

    with tempfile.NamedTemporaryFile(suffix=".csv") as to:
        frame_of(count).to_csv(to.name, header=False, index=False)
        size = os.path.getsize(to.name)
        kept, most, seconds = grown(lambda: Rtfilter(to.name))
    return kept, most - size, seconds


def of_columns(_, count):
    from rtfilter import Rtfilter

    frame = frame_of(count)
    return grown(lambda: Rtfilter(frame))


def of_bounds(_, count):
    from rtfilter.geometry import STRtree

    sides = sides_of(count)
    rows = numpy.stack([sides[it] for it in ("min_x", "min_y", "max_x", "max_y")], 1) / 1e7
    return grown(lambda: STRtree.from_bounds(rows))


def of_polygons(_, count):
    from shapely.geometry import box

    from rtfilter.geometry import STRtree

    sides = sides_of(count)
    rows = numpy.stack([sides[it] for it in ("min_x", "min_y", "max_x", "max_y")], 1) / 1e7
    polygons = [box(*row) for row in rows.tolist()]
    return grown(lambda: STRtree(polygons))


CASES = {
    "the program, from CSV": of_program,
    "the program, --fanout 2": lambda program, count: of_program(program, count, "--fanout", "2"),
    "the library, from a CSV file, without the file's bytes": of_file,
    "Python, Rtfilter from columns": of_columns,
    "Python, STRtree.from_bounds": of_bounds,
    "Python, STRtree of polygons": of_polygons,
}


def main():
    parser = argparse.ArgumentParser(description="measure the memory of tables")
    parser.add_argument("program", help="the built program")
    parser.add_argument("--boxes", type=int, default=1_000_000, metavar="N", help="boxes in a table (default 1,000,000)")
    parser.add_argument("--only", action="append", metavar="WORD", help="run the cases whose name has this word; may be repeated")
    parser.add_argument("--case", help=argparse.SUPPRESS)
    args = parser.parse_args()
    if args.case:
        print(json.dumps(CASES[args.case](args.program, args.boxes)))
        return 0
    print(f"{args.boxes:,} boxes, bytes a box\n\n| | loaded | at most | load |\n|---|---|---|---|")
    for name in CASES:
        if args.only and not any(word in name for word in args.only):
            continue
        words = [sys.executable, __file__, args.program, "--boxes", str(args.boxes), "--case", name]
        done = subprocess.run(words, capture_output=True, text=True)
        if done.returncode:
            print(f"| {name} | not had: {done.stderr.strip().splitlines()[-1][:100]} | | |", flush=True)
            continue
        kept, most, seconds = json.loads(done.stdout)
        print(f"| {name} | {kept / args.boxes:.0f} | {most / args.boxes:.0f} | {seconds:.2f} s |", flush=True)
    return 0


if __name__ == "__main__":
    sys.exit(main())

#!/usr/bin/env python3
"""Measures a built program and index libraries behind the same text, and draws the results.

usage: bench/bench.py PROGRAM [--only PART].. [--library ARCHIVE]

bench/peers is compiled into build/peers with g++: Boost.Geometry, GEOS, libspatialindex, SQLite's R*Tree, and a scan without an index.
Debian's packages for them are libboost-dev, libgeos++-dev, libspatialindex-dev and libsqlite3-dev. A program whose package is missing is
skipped and named, and so are instructions without valgrind. If a program doesn't give rtfilter's answers, byte for byte, the run fails.
The parts:

- growth: loads, memory and lines over the number of boxes
- lines: every verb, region, order and limit
- tables: other distributions of boxes, those that make searches slow among them
- ids: loads by the order of ids
- instructions: of a record and of lines, by valgrind
- elsewhere: few queries over a big table, and boxes that change, compared with SQLite
- library: librtfilter, the ARCHIVE or build/librtfilter.a, and the libraries of the others in one process

Times are processor time, for threads wall time. All parts take some minutes on four cores and need an otherwise idle machine; they are no
part of the gate. The figures are written into build/bench.json, from which bench/report.py makes tables and pictures.
"""

import argparse
import json
import sys
import tempfile
import time
from concurrent.futures import ProcessPoolExecutor
from pathlib import Path

sys.dont_write_bytecode = True

import kinds
import timing
from counting import instructions
from elsewhere import elsewhere
from in_process import library
from machine import machine, sentence
from programs import OURS, ROOT, SCAN, all_programs, that_differ
from report import RESULTS, report
from tables import IDS, TABLES, write_table

SIZES = 1000, 10_000, 100_000, 1_000_000
BOXES = 100_000
GROWN = kinds.WINDOW, kinds.NEAREST, kinds.QUARTER, kinds.ALL
COMPARED = 5  # lines of each kind
PACKED = OURS, "Boost.Geometry", "GEOS"  # whose load depends on the order of ids, or is fast enough to be seen beside
IDS_BOXES = 1_000_000


def rounded(it):
    """Figures with four digits, which is more than they are worth."""
    if isinstance(it, dict):
        return {name: rounded(value) for name, value in it.items()}
    if isinstance(it, list):
        return [rounded(value) for value in it]
    return float(f"{it:.4g}") if isinstance(it, float) else it


def save(found):
    RESULTS.parent.mkdir(exist_ok=True)
    RESULTS.write_text(json.dumps(rounded(found), indent=1) + "\n")


class Bench:
    """The programs, the folder of tables, and in which tables answers differ."""

    def __init__(self, program, archive, folder):
        self.program, self.archive, self.folder = program, archive, Path(folder)
        self.programs, self.passed_over = all_programs(program)
        self.differences = []

    def table(self, name, boxes, order="shuffled"):
        """The path of a table, written if it isn't there."""
        path = Path(self.folder, f"{name}-{boxes}-{order}.csv".replace(" ", "-"))
        return str(path) if path.exists() else write_table(path, name, boxes, order)

    def write_tables(self):
        """Writes the tables that take long side by side."""
        tables = [("uniform", IDS_BOXES, order) for order in IDS] + [(name, BOXES, "shuffled") for name in TABLES]
        with ProcessPoolExecutor() as pool:
            list(pool.map(self.table, *zip(*tables)))

    def without_scan(self):
        return {name: path for name, path in self.programs.items() if name != SCAN}

    def compare(self, title, table, lines, programs):
        """Notes which programs answer some lines of each kind otherwise than rtfilter."""
        path = self.folder / "compared"
        path.write_text("".join(f"{line}\n" for line in lines if not kinds.is_of_the_tree(line)))
        different = that_differ(programs, table, path)
        self.differences += [f"{name}: {title}" for name in different]
        for name in different:
            print(f"FAILED: {name} answers otherwise: {title}", flush=True)

    def costs(self, sessions, texts):
        """The seconds of a line of each kind, in the sessions that know it."""
        return {
            kind: timing.costs(timing.only_ours(sessions) if kinds.is_of_the_tree(lines[0]) else sessions, lines)
            for kind, lines in texts.items()
        }

    def measured(self, name, boxes, makes, programs):
        """What a table of shuffled ids costs: the load, the memory, and lines of each kind."""
        table, asker = self.table(name, boxes), kinds.Asker(name, boxes)
        texts = {kind: kinds.lines_of(make, asker) for kind, make in makes.items()}
        some = [line for lines in texts.values() for line in lines[:COMPARED]]
        self.compare(f"{name}, {boxes:,} boxes", table, some, programs)
        load, sessions = timing.loads(programs, table)
        loaded = {program: session.memory() for program, session in sessions.items()}
        lines = self.costs(sessions, texts)
        return {"load": load, "loaded": loaded, "lines": lines, "memory": timing.ended(sessions)}

    # ---- the parts

    def growth(self):
        makes = {kind: kinds.MAIN[kind] for kind in GROWN}
        return {boxes: self.measured("uniform", boxes, makes, self.programs) for boxes in SIZES}

    def lines(self):
        every = dict(kinds.every_kind()) | {("main", kind, "find"): make for kind, make in kinds.MAIN.items()}
        found = self.measured("uniform", BOXES, every, self.without_scan())
        rows = [{"group": group, "row": row, "column": column, "seconds": seconds}
                for (group, row, column), seconds in found.pop("lines").items()]
        return {"boxes": BOXES, "rows": rows} | found

    def tables(self):
        makes = {name: kinds.OF_EACH | kinds.OF_SOME.get(name, {}) for name in TABLES}
        found = {name: self.measured(name, BOXES, makes[name], self.without_scan()) for name in TABLES}
        return {"boxes": BOXES, "tables": found}

    def ids(self):
        programs = {name: self.programs[name] for name in PACKED if name in self.programs}
        rows = {}
        for order in IDS:
            load, sessions = timing.loads(programs, self.table("uniform", IDS_BOXES, order))
            loaded = {name: session.memory() for name, session in sessions.items()}
            rows[order] = {"load": load, "loaded": loaded, "find all": timing.costs(sessions, ["find all"])}
            timing.ended(sessions)
        return {"boxes": IDS_BOXES, "rows": rows}

    def instructions(self):
        found = instructions(self.programs, self.folder)
        if not found:
            self.passed_over["instructions"] = "there is no valgrind"
        return found

    def elsewhere(self):
        return elsewhere(self.programs, self.folder)

    def library(self):
        found, differences, passed_over = library(self.archive, self.table("uniform", BOXES), BOXES, self.folder)
        self.passed_over |= passed_over
        self.differences += differences
        for difference in differences:
            print(f"FAILED: answers differ: {difference}", flush=True)
        return found


PARTS = "growth", "lines", "tables", "ids", "instructions", "elsewhere", "library"
ITS_OWN_MACHINE = {"library"}  # parts that have in their figures what they were made on


def main():
    parser = argparse.ArgumentParser(description=__doc__, formatter_class=argparse.RawDescriptionHelpFormatter)
    parser.add_argument("program", metavar="PROGRAM", help="the built program")
    parser.add_argument("--only", action="append", choices=PARTS, metavar="PART", help="measure this part alone; may be repeated (default all)")
    parser.add_argument("--library", default=ROOT / "build/librtfilter.a", metavar="ARCHIVE", help="the library (default build/librtfilter.a)")
    args = parser.parse_args()
    found = json.loads(RESULTS.read_text()) if args.only and RESULTS.exists() else {}
    made_on = machine()
    if {*(args.only or PARTS)} - ITS_OWN_MACHINE:
        found["machine"] = made_on
    print(sentence(made_on), flush=True)
    with tempfile.TemporaryDirectory() as folder:
        bench = Bench(args.program, args.library, folder)
        if not args.only:
            bench.write_tables()
        for part in args.only or PARTS:
            begun = time.monotonic()
            found[part] = getattr(bench, part)()
            print(f"{part}: {time.monotonic() - begun:.0f} s", flush=True)
            save(found | {"passed over": bench.passed_over, "differences": bench.differences})
        for name, reason in bench.passed_over.items():
            print(f"passed over: {name}: {reason}", flush=True)
    report()
    return int(bool(bench.differences))


if __name__ == "__main__":
    sys.exit(main())

"""Counts the instructions of loads and of lines by valgrind's callgrind, which hardly change from run to run."""

import re
import shutil
import subprocess
from concurrent.futures import ThreadPoolExecutor
from pathlib import Path

from kinds import ALL, MAIN, QUARTER, Asker, lines_of
from programs import SCAN
from tables import write_table

BOXES = 10_000
COUNTED = {ALL: 1, QUARTER: 50}  # lines; of each other kind
EACH = 200


def counted(program, table, lines):
    """How many instructions a run takes."""
    words = ["valgrind", "--tool=callgrind", "--callgrind-out-file=/dev/null", program, table]
    with open(lines) as file:
        run = subprocess.run(words, stdin=file, stdout=subprocess.DEVNULL, stderr=subprocess.PIPE, text=True)
    found = re.search(r"Collected : (\d+)", run.stderr)
    return int(found[1]) if found else None


def instructions(programs, folder):
    """The instructions of each program for a record and for a line of each kind, side by side on all cores."""
    if not shutil.which("valgrind"):
        return None
    table = write_table(Path(folder, "counted.csv"), "uniform", BOXES, "shuffled")
    asker, files = Asker("uniform", BOXES), {"a record": (Path(folder, "nothing"), BOXES)}
    files["a record"][0].write_text("")
    for at, (name, make) in enumerate(MAIN.items()):
        lines = lines_of(make, asker)[: COUNTED.get(name, EACH)]
        path = Path(folder, f"counted.{at}")
        path.write_text("".join(f"{line}\n" for line in lines))
        files[name] = path, len(lines)
    pairs = [(kind, name) for name in programs if name != SCAN for kind in files]
    with ThreadPoolExecutor() as pool:
        runs = dict(zip(pairs, pool.map(lambda it: counted(programs[it[1]], table, files[it[0]][0]), pairs)))
    rows = {kind: {} for kind in files}
    for (kind, name), total in runs.items():
        load = runs["a record", name]
        if total and load:
            rows[kind][name] = (total if kind == "a record" else total - load) / files[kind][1]
    return {"boxes": BOXES, "lines": rows}

"""Where another tool may be the better choice: few queries on a big table, and boxes that change."""

import os
import random
import shutil
import sqlite3
import time
from pathlib import Path

from kinds import MAIN, WINDOW, Asker, lines_of
from programs import OURS, SCAN
from tables import write_table

BOXES = 1_000_000
QUERIES = 1, 10, 100, 1000, 10_000, 100_000
SIZES = 1000, 10_000, 100_000, 1_000_000
LONGEST = 1.0  # seconds of a run, which is then made once, and no more queries are asked of the program
RUNS = 3
CHANGES = 2000
IN_FILE = "SQLite's R*Tree in a file"
CREATE = "CREATE VIRTUAL TABLE box USING rtree_i32(id, min_x, max_x, min_y, max_y)"
SELECT = "SELECT id FROM box WHERE min_x <= {1} AND max_x >= {0} AND min_y <= {3} AND max_y >= {2} ORDER BY id;"
UPDATE = "UPDATE box SET min_x = ?, max_x = ?, min_y = ?, max_y = ? WHERE id = ?"


def seconds_of(words, lines):
    """The processor time of a run from its start to its end."""
    files = [(os.POSIX_SPAWN_OPEN, 0, lines, os.O_RDONLY, 0), (os.POSIX_SPAWN_OPEN, 1, os.devnull, os.O_WRONLY, 0)]
    _, status, usage = os.wait4(os.posix_spawn(words[0], words, os.environ, file_actions=files), 0)
    if status:
        raise SystemExit(f"{words} ended with {status}")
    return usage.ru_utime + usage.ru_stime


def in_memory(table):
    """The table as an R*Tree of SQLite in memory; each statement is a transaction."""
    base = sqlite3.connect(":memory:", isolation_level=None)
    base.execute(CREATE)
    base.execute("BEGIN")
    with open(table) as records:
        rows = (tuple(map(int, record.split(",")[:5])) for record in records)
        base.executemany("INSERT INTO box VALUES (?, ?, ?, ?, ?)", rows)
    base.execute("COMMIT")
    return base


def few_queries(programs, table, database, folder):
    """The seconds of whole runs by the number of windows: the load, if there is one, and the lines."""
    lines = lines_of(MAIN[WINDOW], Asker("uniform", BOXES))
    words = {name: [programs[name], table] for name in (OURS, SCAN) if name in programs}
    if shutil.which("sqlite3"):
        words[IN_FILE] = [shutil.which("sqlite3"), str(database)]
    took = {name: {} for name in words}
    for count in QUERIES:
        some = [lines[at % len(lines)] for at in range(count)]
        ours, theirs = Path(folder, "few"), Path(folder, "few.sql")
        ours.write_text("".join(f"{line}\n" for line in some))
        theirs.write_text("".join(SELECT.format(*line.split()[2:]) + "\n" for line in some))
        for _ in range(RUNS):
            for name, command in words.items():
                before = 0 if count == 1 else took[name].get(count // 10, LONGEST)
                if max(before, took[name].get(count, 0)) < LONGEST:
                    seconds = seconds_of(command, str(theirs if name == IN_FILE else ours))
                    took[name][count] = min(seconds, took[name].get(count, seconds))
    return took


def change_of_one(base):
    """The seconds that SQLite takes to move one box, each change by itself."""
    chance, moved = random.Random(4), []
    for id, *sides in base.execute("SELECT * FROM box LIMIT ?", [CHANGES]):
        far = chance.randrange(-1000, 1000)
        moved.append([*(side + far for side in sides), id])
    begun = time.process_time()
    for row in moved:
        base.execute(UPDATE, row)
    return (time.process_time() - begun) / len(moved)


def elsewhere(programs, folder):
    """Few queries over the largest table, and the change of one box in tables of each size."""
    changes, database = {}, Path(folder, "box.sqlite")
    for boxes in SIZES:
        table = write_table(Path(folder, "elsewhere.csv"), "uniform", boxes, "shuffled")
        base = in_memory(table)
        if boxes == BOXES:
            file = sqlite3.connect(database)
            base.backup(file)
            file.close()
        changes[boxes] = min(change_of_one(base) for _ in range(RUNS))
        base.close()
    return {"boxes": BOXES, "queries": few_queries(programs, table, database, folder), "changes": changes}

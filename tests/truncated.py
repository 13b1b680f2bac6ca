#!/usr/bin/env python3
"""Cuts tables off behind each of their bytes, and compares what the program makes of each front with `reading`.

usage: tests/truncated.py PROGRAM

Each table is a test, of two runs for each front: its first record is a header or not. Fronts that load, and fronts that
don't, have to be met in each. The last line is `N passed, M failed`.
"""

import subprocess
import sys
import tempfile
from pathlib import Path

sys.dont_write_bytecode = True
import reading
from checks import difference, status_of

QUERIES = b"find all\nfind all on 3,63\ncost find all near 0 0 first 1\nlevels"
MARK = reading.MARK

TABLES = {
    "plain": b"1,0,10,0,10\n2,5,15,5,15\n-3,-20,+30,0,0010\n4,-5,-1,-5,-1\n",
    "carriage returns and line feeds": b"id,minX,maxX,minY,maxY\r\n1,0,10,0,10\r\n2,5,15,5,15\r\n",
    "carriage returns alone": b"1,0,10,0,10\r2,5,15,5,15\r",
    "empty lines": b"\n\r\n1,0,10,0,10\n\n\r\r\n2,5,15,5,15\n\n",
    "quotes": b'"1","0","10","0","10"\n2,"5",15,"5",15\r\n"3",2"0,3"0",0,1"0"\n',
    "what quotes hold": b'"id ""1""","min,X","max\r\nX",minY,"max\nY"\r\n1,0,10,0,10\n"2","5","15","5""",15\n',
    "quotes in quotes": b'"id""\n1,"" 2",minX\n1,0,10,0,10\n2,5,15,5,"15"",5"\n',
    "text behind quotes": b'"1"2,0,10,0,10\n"1""2",0,10,0,10\n',
    "quotes that are left open": b'1,0,10,0,10\n"2,5,15,5,15\n3,5,15,5,15\n',
    "a mark": MARK + b"1,0,10,0,10\n2,5,15,5,15",
    "a mark before a header": MARK + b'"id",minX,maxX,minY,maxY\r\n"1",0,10,0,10\r\n',
    "two marks": MARK + MARK + b"1,0,10,0,10\n",
    "a mark behind a line": b"1,0,10,0,10\n" + MARK + b"2,5,15,5,15\n",
    "layers": b"1,0,10,0,10,3\n2,5,15,5,15\n-3,0,1,0,1,63\r\n4,0,1,0,1,+003\n",
    "layers at fault": b'1,0,10,0,10,6\n2,9,1,0,1,"x"\n3,0,1,0,1,640\n4,0,0,0,0,0,\n',
    "faults": b"1,0,10,0,10\n2,7,5,0,99999999999,x,1\n",
    "a minimum above a maximum, for a while": b"1,50,60,50,60\n2,5,15,-7,-1\n",
    "ids again": b"12,0,10,0,10\n123,0,10,0,10\n12,5,15,5,15\n",
    "great numbers": b"-9223372036854775808,-2147483648,2147483647,0,2147483648\n",
    "one field": b" \n\"\"\n",
}


def run(program, folder, words):
    done = subprocess.run([program, *words, "table"], cwd=folder, input=QUERIES, capture_output=True, timeout=60)
    return done.returncode, done.stdout, done.stderr


def first_fault(program, folder, table):
    """What is wrong with the first front that isn't as it is read, or with the statuses of all."""
    statuses = set()
    for size in range(len(table) + 1):
        Path(folder, "table").write_bytes(table[:size])
        for header in (False, True):
            expected = reading.expected(table[:size], QUERIES, header)
            found = run(program, folder, ["--header"] * header)
            statuses.add(expected[0])
            if found != expected:
                return f"{size} bytes, header {header}: {difference(expected, found)}"
    return None if statuses == {0, 3} else f"the only statuses were {statuses}"


def main():
    program = str(Path(sys.argv[1]).resolve())
    print(f"{sum(2 * (len(it) + 1) for it in TABLES.values())} fronts of {len(TABLES)} tables")
    with tempfile.TemporaryDirectory() as folder:
        return status_of((name, first_fault(program, folder, table)) for name, table in TABLES.items())


if __name__ == "__main__":
    sys.exit(main())

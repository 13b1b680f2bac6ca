#!/usr/bin/env python3
"""Runs the built program on long input, and holds it to bounds of its memory and of its writes.

usage: tests/limits.py PROGRAM

Tables and queries of hundreds of megabytes, of which little counts; records, numbers, names and words that are long; a
read that fails late, and faults of late records. Five boxes fit in 8 MB of address space. A million take, once they are
loaded, no more bytes each than BYTES_A_BOX says. Answers are handed on in pieces of some 64 kB: if strace is installed,
their writes are looked at. The last line is `N passed, M failed`.
"""

import contextlib
import os
import re
import resource
import shutil
import subprocess
import sys
import tempfile
from pathlib import Path

from checks import difference, status_of

FIVE = b"1,0,10,0,10\n2,5,15,5,15\n3,20,30,0,10\n4,-5,-1,-5,-1\n5,12,12,12,12\n"
COUNT = b"count all\n"
MEGABYTE = 1 << 20
MILLION = 1_000_000
SECONDS = 120

# The most bytes of address space, of memory at its peak, and of memory once the table is loaded, by the system's names.
BYTES_A_BOX = {"VmPeak": 200, "VmHWM": 65, "VmRSS": 40}

# The most bytes of one write, and the fewest on average if much is written.
MOST_WRITTEN = 1 << 16
FEWEST_WRITTEN = 1 << 15


def records(count, start=1):
    """Points on a band, with rising ids."""
    return b"".join(b"%d,%d,%d,%d,%d\n" % (at, at, at, at % 89, at % 89) for at in range(start, start + count))


def run(program, words, given=b"", **options):
    """Status, standard output and standard error."""
    done = subprocess.run([program, *words], input=given, capture_output=True, timeout=SECONDS, **options)
    return done.returncode, done.stdout, done.stderr


def fed(program, words, pieces):
    """The same of a run whose standard input comes in pieces, by a pipe."""
    with subprocess.Popen(
        [program, *words], stdin=subprocess.PIPE, stdout=subprocess.PIPE, stderr=subprocess.PIPE
    ) as process:
        with contextlib.suppress(BrokenPipeError):  # it has ended already, as its status says
            for piece in pieces:
                process.stdin.write(piece)
        out, errors = process.communicate(timeout=SECONDS)
    return process.returncode, out, errors


def well(text):
    return 0, text, b""


def no_table(text):
    return 3, b"", b"rtfilter: " + text + b"\n"


def long_input(program, folder):
    """Tables and queries of which little counts, by a pipe."""
    count = folder / "count"
    count.write_bytes(COUNT)
    blank = [b"\n" * MEGABYTE] * 512
    yield "512 MB of blank lines, then boxes", well(b"ok 1 5\n"), fed(program, ["/dev/stdin", count], [*blank, FIVE])
    five = folder / "five.csv"
    five.write_bytes(FIVE)
    comments = b"# %s\n" % (b"-" * 61)
    many = [comments * (MEGABYTE // len(comments))] * 256
    lines = 256 * (MEGABYTE // len(comments))
    yield "256 MB of comments", well(b"ok %d 5\n" % (lines + 1)), fed(program, [five], [*many, COUNT])
    yield "256 MB of one line", (1, b"error 1 Q1 line too long\nok 2 5\n", b""), fed(
        program, [five], [b"-" * MEGABYTE] * 256 + [b"\n", COUNT]
    )


def long_words(program, folder):
    """Records, names and words that are long."""
    for zeros in (100, 399, 1000, 5000):
        digits = b"0" * zeros
        rows = b"%s1,%s0,%s10,-%s5,+%s10\n" % ((digits,) * 5)
        yield f"numbers behind {zeros} zeros", well(b"ok 1 1\n"), run(
            program, ["/dev/stdin", folder / "count"], rows
        )
        rows = b'"%s9223372036854775808",0,0,0,0\n' % digits
        yield f"an id too great behind {zeros} zeros", no_table(b"table record 1: field 1 is out of range"), run(
            program, ["/dev/stdin"], rows
        )
    rows = b"1,0,0,0,0," + b"x" * MEGABYTE + b"\n"
    yield "a field of a megabyte", no_table(b"table record 1: field 6 is not a number"), run(
        program, ["/dev/stdin"], rows
    )
    yield "a long name of a table", (3, b"", b"rtfilter: cannot open table\n"), run(program, ["n" * 131_000])
    yield "a long name of queries", (4, b"", b"rtfilter: cannot open queries\n"), run(
        program, [folder / "five.csv", "n" * 131_000]
    )
    yield "many words", (2, b"", b"rtfilter: bad command line\n"), run(program, ["w"] * 5000)
    yield "a long word", (2, b"", b"rtfilter: bad command line\n"), run(program, ["--fanout", "1" * 131_000, "t"])


def large_tables(program, folder):
    """Tables of millions of records, and what is wrong with late ones."""
    rows = records(3 * MILLION)
    table = folder / "millions.csv"
    table.write_bytes(rows)
    yield "three million boxes", well(b"ok 1 3000000\n"), run(program, [table], COUNT)
    with open(table, "ab") as file:
        file.write(b"17,0,0,0,0\n")
    yield "a late repeated id", no_table(b"table record 3000001: repeated id"), run(program, [table], COUNT)
    rows = records(MILLION)
    table.write_bytes(rows + b"0,0,0,0\n")
    yield "a late record at fault", no_table(b"table record 1000001: wrong number of fields (4)"), run(
        program, [table], COUNT
    )
    table.write_bytes(rows[: len(rows) // 2])
    if shutil.which("cc") is None:
        print("skipped: a read that fails late, since no C compiler is here")
    else:
        yield "a read that fails late", no_table(b"cannot read table"), late_failure(program, table, folder)


def late_failure(program, table, folder):
    """A run whose table can be read but for its last bytes, by a library that is loaded before the C library."""
    source = Path(__file__).resolve().parent / "refuse.c"
    library = folder / "refuse.so"
    subprocess.run(["cc", "-shared", "-fPIC", "-o", library, source], check=True)
    reads = table.stat().st_size // 8192
    with open(os.devnull, "wb") as report:
        words = {"REFUSE": "read", "REFUSE_AT": str(reads), "REFUSE_MANY": "1", "REFUSE_AS": "5"}
        words |= {"REFUSE_TO": str(report.fileno()), "LD_PRELOAD": str(library)}
        return run(program, [table], COUNT, env={**os.environ, **words}, pass_fds=[report.fileno()])


def memory(program, folder):
    """Bounds of memory in bytes."""
    five = folder / "five.csv"
    limit = 8 * MEGABYTE
    yield "five boxes in 8 MB", well(b"ok 1 5\n"), run(
        program, [five], COUNT, preexec_fn=lambda: resource.setrlimit(resource.RLIMIT_AS, (limit, limit))
    )
    table = folder / "million.csv"
    table.write_bytes(records(MILLION))
    with subprocess.Popen([program, table], stdin=subprocess.PIPE, stdout=subprocess.PIPE) as process:
        process.stdin.write(COUNT)
        process.stdin.flush()
        reply = process.stdout.readline()
        status = Path(f"/proc/{process.pid}/status").read_text()
    yield "a million boxes", b"ok 1 1000000\n", reply
    for name, most in BYTES_A_BOX.items():
        taken = 1024 * int(re.search(rf"^{name}:\s+(\d+)", status, re.MULTILINE)[1]) / MILLION
        yield f"{name} of a million boxes: {taken:.0f} bytes each", True, taken <= most


def writes(program, folder):
    """How the answers of a long line are written."""
    if shutil.which("strace") is None:
        print("skipped: the sizes of writes, since strace isn't here")
        return
    log = folder / "writes"
    lines = folder / "all"
    lines.write_bytes(b"find all\n")
    words = ["strace", "-qq", "-e", "trace=write", "-e", "signal=none", "-o", log, program, folder / "million.csv", lines]
    out = subprocess.run(words, capture_output=True, timeout=SECONDS).stdout
    sizes = [int(size) for size in re.findall(r"= (\d+)$", log.read_text(), re.MULTILINE)]
    yield "all bytes are written", len(out), sum(sizes)
    yield f"the largest write has {max(sizes)} bytes", True, max(sizes) <= MOST_WRITTEN
    yield f"{len(sizes)} writes for {len(out)} bytes", True, len(sizes) * FEWEST_WRITTEN <= len(out)


def main():
    program = str(Path(sys.argv[1]).resolve())
    with tempfile.TemporaryDirectory() as folder:
        parts = (part(program, Path(folder)) for part in (long_input, long_words, large_tables, memory, writes))
        return status_of((name, difference(expected, found)) for part in parts for name, expected, found in part)


if __name__ == "__main__":
    sys.exit(main())

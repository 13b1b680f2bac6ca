#!/usr/bin/env python3
"""Runs the built program and compares standard output, standard error and the exit status, byte for byte.

usage: tests/program.py PROGRAM

What no contract says is shown here: the words, the opening of files, the lines on standard error, and the
exit status. The last line is `N passed, M failed`.
"""

import contextlib
import itertools
import os
import resource
import signal
import subprocess
import sys
import tempfile
import threading
import time
from pathlib import Path

from checks import difference, status_of

BOXES = b"1,0,10,0,10\n2,5,15,5,15\n3,20,30,0,10\n4,-5,-1,-5,-1\n5,12,12,12,12\n"
LAYERED = b"1,0,10,0,10,3\n2,5,15,5,15\n"
HEADER = b"id,minX,maxX,minY,maxY\n"
FIND = b"find window 0 10 0 10\n"
FOUND = b"1 0\n2 0\nok 1 2\n"
USAGE = b"usage: rtfilter [-H|--header] [--fanout M] [--max-entries N] TABLE [QUERIES]\n"

# More boxes than 2^20, in a file with a name of 200 bytes, and more than 64 MB of queries.
COUNT = 2**20 + 1000
MANY_BOXES = b"".join(b"%d,%d,%d,0,0\n" % (n, n, n) for n in range(1, COUNT + 1))
MANY_LINES = b"# a comment\n" * 6_000_000 + b"find window 1 %d 0 0\n" % COUNT
MANY_FOUND = b"".join(b"%d 0\n" % n for n in range(1, COUNT + 1)) + b"ok 6000001 %d\n" % COUNT
LONG_NAME = "boxes" * 40

# A file of queries with a name as long, and paths that are nearly as long as the system takes.
LONG_QUERIES = "queries" * 30
LONG_PATH = "./" * 2000

# More fields and more words than a small count holds.
FIELDS = 70_000
WORDS = 300

# A header that is a query, so that the text is a table and queries too.
BOTH = FIND + b"1,0,10,0,10\n"

# The files that each run finds beside it.
FILES = {
    "boxes.csv": BOXES,
    "header.csv": HEADER + BOXES,
    "quoted.csv": b'id,minX,maxX,minY,maxY\r\n"1",0,10,0,10\r\n',
    "marked.csv": b"\xef\xbb\xbf" + BOXES,
    "returns.csv": BOXES.replace(b"\n", b"\r"),
    "repeated.csv": BOXES + b"1,0,0,0,0\n",
    "swapped_x.csv": b"1,5,4,0,0\n",
    "swapped_y.csv": b"1,0,0,5,4\n",
    "short.csv": b"1,0,1,0\n",
    "letter.csv": b"1,a,0,0,0\n",
    "wide.csv": b"1,0,2147483648,0,0\n",
    "layers.csv": LAYERED,
    "zero_layer.csv": LAYERED.replace(b"15\n", b"15,0\n"),
    "layers_header.csv": b"id,minX,maxX,minY,maxY,layer\r\n" + LAYERED,
    "layer_64.csv": LAYERED + b"3,0,0,0,0,64\n",
    "layer_below.csv": LAYERED + b"3,0,0,0,0,-1\n",
    "layer_letter.csv": LAYERED + b"3,0,0,0,0,x\n",
    "layer_empty.csv": b"1,0,1,0,1,\n",
    "layer_swapped.csv": b"1,5,4,0,0,64\n",
    "layer_wide.csv": b"1,0,0,0,2147483648,x\n",
    "layer_repeated.csv": LAYERED + b"1,0,0,0,0,7\n",
    "seven.csv": LAYERED + b"3,0,0,0,0,0,0\n",
    "six.csv": BOXES.replace(b"\n", b",0\n"),
    "all_quoted.csv": b"".join(b'"%b"\n' % line.replace(b",", b'","') for line in BOXES.splitlines()),
    "lines_and_returns.csv": BOXES.replace(b"\n", b"\r\n"),
    "header_returns.csv": (HEADER + BOXES).replace(b"\n", b"\r\n"),
    "empty.csv": b"",
    "fields.csv": b"1" + b",1" * (FIELDS - 1) + b"\n",
    "-H": BOXES,
    "-": BOTH,
    "queries": FIND,
    LONG_QUERIES: FIND,
    LONG_NAME: MANY_BOXES,
    "late.csv": MANY_BOXES + b"1,0,0,0,0\n",
    "lines": MANY_LINES,
    "letters": b"a" * 50_000_000 + b"\n" + FIND,
}

NO_MEMORY = b"rtfilter: out of memory\n"
CANNOT_READ = b"rtfilter: cannot read queries\n"
CANNOT_WRITE = b"rtfilter: cannot write answers\n"


def table_fault(words, text):
    """A run that is refused for its table."""
    return words, FIND, 3, b"", b"rtfilter: table record " + text + b"\n"


# Lines on layers, each with its reply over layers.csv as line 1.
ON_LAYERS = {
    b"find all on 3": b"1 0\nok 1 1\n",
    b"find all on 0,3": b"1 0\n2 0\nok 1 2\n",
    b"find window 0 4 0 4 on 0": b"ok 1 0\n",
    b"count all on 0,0": b"ok 1 1\n",
    b"find all on +3": b"1 0\nok 1 1\n",
    b"find all on -0,0003": b"1 0\n2 0\nok 1 2\n",
    b"find circle 0 0 2 on 3 near 0 0 first 1": b"1 0\nok 1 1\n",
    b"find circle 20 20 10 on 0": b"2 50\nok 1 1\n",
    b"find all on " + b",".join(b"%d" % layer for layer in range(64)): b"1 0\n2 0\nok 1 2\n",
    b"count all on " + b"63," * 1000 + b"3": b"ok 1 1\n",
    b"find all on": b"error 1 Q4 missing word\n",
    b"find all on 3,": b"error 1 Q5 not a number\n",
    b"find all on ,": b"error 1 Q5 not a number\n",
    b"find all on ,3": b"error 1 Q5 not a number\n",
    b"find all on 0,,3": b"error 1 Q5 not a number\n",
    b"find all on x,64": b"error 1 Q5 not a number\n",
    b"find all on near 1 1": b"error 1 Q5 not a number\n",
    b"find all on 3, 0": b"error 1 Q5 not a number\n",
    b"find all on 64": b"error 1 Q6 out of range\n",
    b"find all on 64,x": b"error 1 Q6 out of range\n",
    b"find all on -1": b"error 1 Q6 out of range\n",
    b"find all on 256": b"error 1 Q6 out of range\n",
    b"find window 1 0 0 0 on 64": b"error 1 Q7 minimum above maximum\n",
    b"find polygon 3 0 0 5 5 10 10 on x": b"error 1 Q9 polygon not strictly convex\n",
    b"find all first 1 on 3": b"error 1 Q10 stray word\n",
    b"find all near 1 1 on 0": b"error 1 Q10 stray word\n",
    b"find all on 0 on 3": b"error 1 Q10 stray word\n",
    b"find all on 0 3": b"error 1 Q10 stray word\n",
    b"count all on 3 first 1": b"error 1 Q10 stray word\n",
    b"nearest 1 0 0 on 0": b"error 1 Q10 stray word\n",
    b"levels on 0": b"error 1 Q10 stray word\n",
}

# Lines that ask for a cost, each with its reply over boxes.csv and a fanout of 2, as line 1.
COSTS = {
    b"cost nearest 2 12 12": b"ok 1 3\n",
    b"cost nearest 3 12 12": b"ok 1 5\n",
    b"cost nearest 5 12 12": b"ok 1 6\n",
    b"cost nearest 0 12 12": b"ok 1 0\n",
    b"cost find all": b"ok 1 6\n",
    b"cost find all first 0": b"ok 1 0\n",
    b"cost find all first 1": b"ok 1 6\n",
    b"cost find all first 18446744073709551615": b"ok 1 6\n",
    b"cost find all near 12 12 first 2": b"ok 1 3\n",
    b"cost find all on 0": b"ok 1 6\n",
    b"cost find all on 1": b"ok 1 1\n",
    b"cost find window 20 30 0 4": b"ok 1 3\n",
    b"cost find window 100 100 100 100": b"ok 1 1\n",
    b"cost find covers 12 12 12 12": b"ok 1 3\n",
    b"cost find circle 0 0 1": b"ok 1 3\n",
    b"cost find polygon 3 11 16 16 11 16 16": b"ok 1 3\n",
    b"cost count all": b"ok 1 1\n",
    b"cost count all on 1": b"ok 1 1\n",
    b"cost count all on 0": b"ok 1 1\n",
    b"cost count window 0 10 0 10": b"ok 1 5\n",
    b" cost\tcount  all\r": b"ok 1 1\n",
    b"cost": b"error 1 Q4 missing word\n",
    b"cost find": b"error 1 Q4 missing word\n",
    b"cost nearest 2 12": b"error 1 Q4 missing word\n",
    b"cost levels": b"error 1 Q2 unknown verb\n",
    b"cost cost": b"error 1 Q2 unknown verb\n",
    b"cost cost find all": b"error 1 Q2 unknown verb\n",
    b"cost window 0 1 0 1": b"error 1 Q2 unknown verb\n",
    b"Cost find all": b"error 1 Q2 unknown verb\n",
    b"costs find all": b"error 1 Q2 unknown verb\n",
    b"find cost all": b"error 1 Q3 unknown region\n",
    b"cost count box": b"error 1 Q3 unknown region\n",
    b"cost find all first x": b"error 1 Q5 not a number\n",
    b"cost find circle 0 0 -1": b"error 1 Q6 out of range\n",
    b"cost find window 10 0 0 10": b"error 1 Q7 minimum above maximum\n",
    b"cost find polygon 2 0 0": b"error 1 Q8 vertex count\n",
    b"cost find polygon 3 0 0 5 5 10 10": b"error 1 Q9 polygon not strictly convex\n",
    b"cost count all first 1": b"error 1 Q10 stray word\n",
    b"cost find all x": b"error 1 Q10 stray word\n",
    b"find all cost": b"error 1 Q10 stray word\n",
    b"cost find all".ljust(4097): b"error 1 Q1 line too long\n",
}

# The same boxes in other forms of a table.
COST_QUERIES = b"cost nearest 2 12 12\ncost nearest 3 12 12\ncost nearest 0 12 12\n"
COST_FORMS = [
    ["boxes.csv"],
    ["-H", "header.csv"],
    ["marked.csv"],
    ["returns.csv"],
    ["six.csv"],
    ["all_quoted.csv"],
    ["lines_and_returns.csv"],
    ["--header", "header_returns.csv"],
]

# Words, standard input, status, standard output, standard error.
RUNS = [
    (["boxes.csv"], FIND, 0, FOUND, b""),
    (["boxes.csv", "queries"], b"", 0, FOUND, b""),
    (["-H", "header.csv"], FIND, 0, FOUND, b""),
    (["--header", "quoted.csv"], FIND, 0, b"1 0\nok 1 1\n", b""),
    (["--fanout", "2", "--max-entries", "5", "boxes.csv"], FIND, 0, FOUND, b""),
    (["--fanout=64", "--max-entries=16777216", "boxes.csv"], FIND, 0, FOUND, b""),
    (["--", "-H"], FIND, 0, FOUND, b""),
    (["marked.csv"], FIND, 0, FOUND, b""),
    (["returns.csv"], FIND, 0, FOUND, b""),
    (["empty.csv"], FIND, 0, b"ok 1 0\n", b""),
    (["-H", "empty.csv"], FIND, 0, b"ok 1 0\n", b""),
    (["boxes.csv"], b"", 0, b"", b""),
    (["boxes.csv", LONG_QUERIES], b"", 0, FOUND, b""),
    ([LONG_PATH + "boxes.csv", LONG_PATH + "queries"], b"", 0, FOUND, b""),
    (["-H", "--fanout", "2", "--max-entries", "5", "--", "header.csv", "queries"], b"", 0, FOUND, b""),
    (["a" * 100_000], FIND, 3, b"", b"rtfilter: cannot open table\n"),
    (["boxes.csv", "a" * 100_000], b"", 4, b"", b"rtfilter: cannot open queries\n"),
    ([LONG_NAME, "lines"], b"", 0, MANY_FOUND, b""),
    ([LONG_NAME], MANY_LINES, 0, MANY_FOUND, b""),
    (["-H", "-"], FIND, 0, b"1 0\nok 1 1\n", b""),
    (["boxes.csv", "-"], b"", 1, FOUND + b"error 2 Q2 unknown verb\n", b""),
    (["boxes.csv"], b"# c\n\nfind window 0 10 0 10", 0, b"1 0\n2 0\nok 3 2\n", b""),
    *((["layers.csv"], line, int(b"error" in reply), reply, b"") for line, reply in ON_LAYERS.items()),
    (["zero_layer.csv"], b"find all on 3\nfind all on 0,3", 0, b"1 0\nok 1 1\n1 0\n2 0\nok 2 2\n", b""),
    (["-H", "layers_header.csv"], b"count all on 3\ncount all on 0", 0, b"ok 1 1\nok 2 1\n", b""),
    (["--fanout", "2", "boxes.csv"], b"count all on 1\ncount all on 0", 0, b"ok 1 0\nok 2 5\n", b""),
    *((["--fanout", "2", "boxes.csv"], line, int(b"error" in reply), reply, b"") for line, reply in COSTS.items()),
    *(
        (["--fanout", "2", *words], COST_QUERIES.replace(b"\n", end), 0, b"ok 1 3\nok 2 5\nok 3 0\n", b"")
        for words in COST_FORMS
        for end in (b"\n", b"\r\n")
    ),
    (["boxes.csv"], b"cost find all\ncost nearest 2 12 12\ncost count all", 0, b"ok 1 1\nok 2 1\nok 3 1\n", b""),
    (["empty.csv"], b"cost find all\ncost count all\ncost nearest 1 0 0", 0, b"ok 1 0\nok 2 0\nok 3 0\n", b""),
    (["boxes.csv"], b"cost\n" + FIND, 1, b"error 1 Q4 missing word\n1 0\n2 0\nok 2 2\n", b""),
    (["boxes.csv"], b"x\n" + FIND, 1, b"error 1 Q2 unknown verb\n1 0\n2 0\nok 2 2\n", b""),
    (["--help"], b"", 0, USAGE, b""),
    (["-h"], b"", 0, USAGE, b""),
    (["--help", "--fanout", "65"], b"", 0, USAGE, b""),
    (["--help", *["boxes.csv"] * WORDS], b"", 0, USAGE, b""),
    *(
        (words, b"", 2, b"", b"rtfilter: bad command line\n")
        for words in (
            [],
            ["boxes.csv", "queries", "more"],
            ["boxes.csv"] * WORDS,
            ["--fanout", "1", "boxes.csv"],
            ["--fanout", "65", "boxes.csv"],
            ["--max-entries", "0", "boxes.csv"],
            ["--max-entries", "16777217", "boxes.csv"],
            ["--fanout", "x", "boxes.csv"],
            ["--fanout", "65", "--help"],
            ["-HH", "boxes.csv"],
            ["--version"],
            [os.fsdecode(b"\xff")],
        )
    ),
    table_fault(["repeated.csv"], b"6: repeated id"),
    table_fault(["swapped_x.csv"], b"1: minimum above maximum in x"),
    table_fault(["swapped_y.csv"], b"1: minimum above maximum in y"),
    table_fault(["short.csv"], b"1: wrong number of fields (4)"),
    table_fault(["letter.csv"], b"1: field 2 is not a number"),
    table_fault(["wide.csv"], b"1: field 3 is out of range"),
    table_fault(["layer_64.csv"], b"3: field 6 is out of range"),
    table_fault(["layer_below.csv"], b"3: field 6 is out of range"),
    table_fault(["layer_letter.csv"], b"3: field 6 is not a number"),
    table_fault(["layer_empty.csv"], b"1: field 6 is not a number"),
    table_fault(["layer_swapped.csv"], b"1: field 6 is out of range"),
    table_fault(["layer_wide.csv"], b"1: field 5 is out of range"),
    table_fault(["layer_repeated.csv"], b"3: repeated id"),
    table_fault(["seven.csv"], b"3: wrong number of fields (7)"),
    table_fault(["layers_header.csv"], b"1: field 1 is not a number"),
    table_fault(["fields.csv"], b"1: wrong number of fields (%d)" % FIELDS),
    table_fault(["late.csv"], b"%d: repeated id" % (COUNT + 1)),
    table_fault(["--max-entries", str(2**20 + 1), "late.csv"], b"%d: too many entries" % (2**20 + 2)),
    table_fault(["--max-entries", "4", "boxes.csv"], b"5: too many entries"),
    table_fault(["-H", "--max-entries", "4", "header.csv"], b"6: too many entries"),
    table_fault(["header.csv"], b"1: field 1 is not a number"),
    (["nowhere.csv"], FIND, 3, b"", b"rtfilter: cannot open table\n"),
    (["nowhere.csv", "nowhere"], FIND, 3, b"", b"rtfilter: cannot open table\n"),
    ([""], FIND, 3, b"", b"rtfilter: cannot open table\n"),
    (["."], FIND, 3, b"", b"rtfilter: cannot read table\n"),
    (["boxes.csv", "nowhere"], b"", 4, b"", b"rtfilter: cannot open queries\n"),
    (["boxes.csv", ""], FIND, 4, b"", b"rtfilter: cannot open queries\n"),
    (["short.csv", "nowhere"], b"", 4, b"", b"rtfilter: cannot open queries\n"),
    (["boxes.csv", "."], b"", 4, b"", CANNOT_READ),
]


def run(program, words, folder, **streams):
    """Status, standard output if it is a pipe, and standard error."""
    try:
        done = subprocess.run([program, *words], cwd=folder, stderr=subprocess.PIPE, timeout=60, **streams)
    except subprocess.TimeoutExpired:
        return "no end within a minute", b"", b""
    return done.returncode, done.stdout, done.stderr


def closed_pipe(program, folder):
    """A run whose standard output is a pipe that nobody reads."""
    reads, writes = os.pipe()
    os.close(reads)
    try:
        return run(program, ["boxes.csv", "queries"], folder, stdout=writes)
    finally:
        os.close(writes)


def full_device(program, words, folder):
    """A run whose standard output is a device without room."""
    with open("/dev/full", "wb") as full:
        return run(program, words, folder, stdout=full)


def closed(program, words, folder, stream, **streams):
    """A run with a standard stream closed, `0<&-`, `1>&-` or `2>&-`."""
    shell = ["-c", f'exec "$0" "$@" {stream}', program, *words]
    return run("/bin/sh", shell, folder, stdout=subprocess.PIPE, **streams)


def little_memory(program, words, folder, memory):
    """A run whose address space has this many bytes, its code included."""
    return run(
        program, words, folder, input=FIND, stdout=subprocess.PIPE,
        preexec_fn=lambda: resource.setrlimit(resource.RLIMIT_AS, (memory, memory)),
    )


def least_memory(program, folder):
    """The address space that a small run needs, in bytes, in whole pages."""
    step, enough = resource.getpagesize(), 1
    while little_memory(program, ["boxes.csv"], folder, enough * step) != (0, FOUND, b""):
        enough *= 2
    short = enough // 2
    while short + 1 < enough:
        middle = (short + enough) // 2
        if little_memory(program, ["boxes.csv"], folder, middle * step) == (0, FOUND, b""):
            enough = middle
        else:
            short = middle
    return enough * step


def endless_line(program, folder, memory):
    """Whether a run goes on in this many bytes of address space whose queries are one line without an end, and what it
    leaves when it is killed."""
    held = subprocess.Popen(
        [program, "boxes.csv", "/dev/zero"], cwd=folder, stdout=subprocess.PIPE, stderr=subprocess.PIPE,
        preexec_fn=lambda: resource.setrlimit(resource.RLIMIT_AS, (memory, memory)),
    )
    time.sleep(1)
    is_on = held.poll() is None
    held.kill()
    output, error = held.communicate()
    return is_on, output, error, held.returncode


def example(program):
    """The run of the examples, with the answers that stand beside them."""
    folder = Path(__file__).parent.parent / "examples/data"
    answers = (folder / "answers.txt").read_bytes()
    return (0, answers, b""), run(program, ["boxes.csv", "queries.txt"], folder, stdout=subprocess.PIPE)


def through_pipe(program, words, folder, pieces):
    """A run whose standard input is a pipe that gives one of these pieces a read, until the run ends."""
    reads, writes = os.pipe2(os.O_DIRECT)

    def send():
        with contextlib.suppress(BrokenPipeError), open(writes, "wb", buffering=0) as sink:
            for piece in pieces:
                sink.write(piece)

    sender = threading.Thread(target=send)
    sender.start()
    with open(reads, "rb") as source:
        found = run(program, words, folder, stdin=source, stdout=subprocess.PIPE)
    sender.join()
    return found


def opened_again(program, words, folder, name):
    """A run whose standard input is a file that was read to its end."""
    with open(Path(folder, name), "rb") as read:
        read.seek(0, os.SEEK_END)
        return run(program, words, folder, stdin=read, stdout=subprocess.PIPE)


def left_open(program, words, folder, text):
    """A run whose standard input is a pipe that gives this text, and then neither more nor an end."""
    reads, writes = os.pipe()
    try:
        os.write(writes, text)
        return run(program, words, folder, stdin=reads, stdout=subprocess.PIPE)
    finally:
        os.close(reads)
        os.close(writes)


def single(text):
    """The bytes of a text, each a piece."""
    return (text[at:at + 1] for at in range(len(text)))


def in_terminal(program, folder):
    """A run whose queries come from a terminal, which reports the end once."""
    ours, theirs = os.openpty()
    try:
        os.write(ours, FIND + b"\x04")
        return run(program, ["boxes.csv"], folder, stdin=theirs, stdout=subprocess.PIPE)
    finally:
        os.close(ours)
        os.close(theirs)


def outcomes(program, folder):
    """What each run is, what is expected of it, and what it did."""
    for words, stdin, *expected in RUNS:
        yield f"{' '.join(words) or 'no words'}, {stdin[:60]}", tuple(expected), run(
            program, words, folder, input=stdin, stdout=subprocess.PIPE
        )
    yield "the examples", *example(program)
    least = least_memory(program, folder)
    for name, words, memory in (
        ("no memory to begin with", ["boxes.csv"], -4 * resource.getpagesize()),
        ("no memory for the table beside a file of queries", [LONG_NAME, "lines"], 1_000_000),
        ("no memory for a record", ["/dev/zero"], 10_000_000),
        *((f"no memory for the table in {memory} bytes", [LONG_NAME], memory) for memory in range(0, 20_000_001, 2_500_000)),
    ):
        yield name, (6, b"", NO_MEMORY), little_memory(program, words, folder, least + memory)
    for name, words, output in (
        ("no more memory for many lines", ["boxes.csv", "lines"], b"1 0\n3 0\nok 6000001 2\n"),
        ("no more memory for a long line", ["boxes.csv", "letters"], b"error 1 Q1 line too long\n1 0\n2 0\nok 2 2\n"),
    ):
        yield name, (int(b"error" in output), output, b""), little_memory(program, words, folder, least)
    endless = True, b"", b"", -signal.SIGKILL
    yield "no more memory for a line without an end", endless, endless_line(program, folder, least)
    yield "a closed pipe", (5, None, CANNOT_WRITE), closed_pipe(program, folder)
    yield "a full device", (5, None, CANNOT_WRITE), full_device(program, ["boxes.csv", "queries"], folder)
    yield "help to a full device", (5, None, CANNOT_WRITE), full_device(program, ["--help"], folder)
    yield "closed output", (5, b"", CANNOT_WRITE), closed(program, ["boxes.csv", "queries"], folder, "1>&-")
    yield "closed input", (4, b"", CANNOT_READ), closed(program, ["boxes.csv"], folder, "0<&-")
    for words, status in ((["boxes.csv"], 0), (["nowhere.csv"], 3), (["boxes.csv", "nowhere"], 4), (["-x"], 2)):
        found = FOUND if status == 0 else b""
        yield f"closed error, {words}", (status, found, b""), closed(program, words, folder, "2>&-", input=FIND)
    yield "closed output and error", (5, b"", b""), closed(program, ["boxes.csv", "queries"], folder, "1>&- 2>&-")
    # more than 2^16 reads
    short = through_pipe(program, ["boxes.csv"], folder, single(b"#\n" * 2**15 + FIND))
    yield "queries in single bytes", (0, b"1 0\n2 0\nok 32769 2\n", b""), short
    table = through_pipe(program, ["/dev/stdin", "queries"], folder, single(BOXES))
    yield "a table in single bytes", (0, FOUND, b""), table
    rows = (b"%d,0,0,0,0\n" % n for n in itertools.count())
    endless = through_pipe(program, ["--max-entries", "1000", "/dev/stdin", "queries"], folder, rows)
    yield "a table without an end", (3, b"", b"rtfilter: table record 1001: too many entries\n"), endless
    one_more = left_open(program, ["--max-entries", "5", "/dev/stdin", "queries"], folder, BOXES + b"6,0,0,0,0\n")
    yield "one record more, and no end", (3, b"", b"rtfilter: table record 6: too many entries\n"), one_more
    for words, name in ((["/dev/stdin", "queries"], "boxes.csv"), (["boxes.csv", "/dev/stdin"], "queries")):
        yield f"{words}, read before", (0, FOUND, b""), opened_again(program, words, folder, name)
    yield "queries from a terminal", (0, FOUND, b""), in_terminal(program, folder)


def main():
    program = str(Path(sys.argv[1]).resolve())
    with tempfile.TemporaryDirectory() as folder:
        for name, content in FILES.items():
            Path(folder, name).write_bytes(content)
        return status_of((name, difference(expected, found)) for name, expected, found in outcomes(program, folder))


if __name__ == "__main__":
    sys.exit(main())

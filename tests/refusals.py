#!/usr/bin/env python3
"""Refuses memory, reads and writes: each call of a run in turn, counting upwards until a run meets no refusal.

usage: tests/refusals.py PROGRAM

Whichever growth of memory is refused, and whether those after it are too, the program ends in status 6 with nothing on
standard output; once the table is loaded there is none. A refused read is one of the table or a pull, a refused write
leaves a front of the answers, and no other write follows it. A read or a write that moves a single byte changes
nothing, one that reports a fault on standard error among them.

Single calls are tests of the crates, which `rt ci` and `rt test` leave in out/: if one of their allocations is refused,
they check that it is reported as out of memory, that nothing else changed and that the same call then succeeds, and say
so. One that isn't built is named and not counted. The calls are refused by tests/refuse.c: without a C compiler nothing
is run. The last line is `N passed, M failed`.
"""

import collections
import errno
import os
import random
import shutil
import subprocess
import sys
import tempfile
from pathlib import Path

sys.dont_write_bytecode = True
import random_runs
import reading
from checks import status_of

ROOT = Path(__file__).resolve().parent.parent
DATA = ROOT / "examples/data"
ANSWERS = (DATA / "answers.txt").read_bytes()
BOXES = (DATA / "boxes.csv").read_bytes()
QUERIES = (DATA / "queries.txt").read_bytes()

LAYERED = (DATA / "layers.csv").read_bytes()

# More boxes than two levels of nodes hold, some of them equal, half of them on layer 7; and more queries than one pull
# takes.
MANY = b"".join(
    b"%d,%d,%d,0,5" % (n * 7919 % 1009, n % 50, n % 50 + n % 7) + b",7" * (n % 2) + b"\n" for n in range(1000)
)
LINES = [b"count all\n"] * 2000
REPLIES = [b"ok %d 1000\n" % at for at in range(1, 2001)]
BUFFER = 4097

FILES = {
    "boxes.csv": BOXES,
    "queries.txt": QUERIES,
    "layers.csv": LAYERED,
    "header.csv": b"id,minX,maxX,minY,maxY\r\n" + BOXES.replace(b"\n", b"\r\n"),
    "many.csv": MANY,
    "lines": b"".join(LINES),
    "repeated.csv": MANY + b"0,0,0,0,0\n",
    "wide.csv": b"1" + b",1" * 5000 + b"\n",
}

# Words, standard input, and what the run gives if nothing is refused.
RUNS = [
    (["boxes.csv", "queries.txt"], b"", (0, ANSWERS, b"")),
    (["-H", "--fanout", "2", "--max-entries", "5", "header.csv"], QUERIES, (0, ANSWERS, b"")),
    (["--fanout=2", "many.csv"], b"count all\ncount all on 7\n", (0, b"ok 1 1000\nok 2 500\n", b"")),
    (["./" * 500 + "boxes.csv"], b"x\ncount all", (1, b"error 1 Q2 unknown verb\nok 2 5\n", b"")),
    (["repeated.csv"], QUERIES, (3, b"", b"rtfilter: table record 1001: repeated id\n")),
    (["wide.csv"], QUERIES, (3, b"", b"rtfilter: table record 1: wrong number of fields (5001)\n")),
    (["--fanout", "65", "boxes.csv"], b"", (2, b"", b"rtfilter: bad command line\n")),
]
NO_MEMORY = (6, b"", b"rtfilter: out of memory\n")
NO_TABLE = (3, b"", b"rtfilter: cannot read table\n")
NO_QUERIES = b"rtfilter: cannot read queries\n"
NOT_OPENED = [(3, b"", b"rtfilter: cannot open table\n"), (4, b"", b"rtfilter: cannot open queries\n")]
NOT_WRITTEN = b"rtfilter: cannot write answers\n"

# The tests of single calls, by the crates that hold them.
TESTS = {
    "rt_tree_tests": [
        "table::a_refused_push_changes_nothing",
        "table::refused_entries_at_once_are_reported",
        "tree::a_refused_packing_is_reported",
    ],
    "rt_search_tests": ["searches::a_refused_frontier_is_reported"],
    "rt_command_tests": ["memory::a_refused_name_is_reported", "memory::refused_settings_are_reported"],
}
# What they say of a refused growth: of the call, and of what was made before it.
REPORTED, BEFOREHAND = b"reported as refused", b"refused beforehand"

# What is refused, with which error, and how often.
Refusal = collections.namedtuple("Refusal", ["call", "error", "many"])
ONCE, FROM_THERE_ON = 1, 2**31


class Refuser:
    """Runs commands in a folder and refuses their calls."""

    def __init__(self, compiler, folder):
        self.library, self.folder = f"{folder}/refuse.so", folder
        subprocess.run([compiler, "-O", "-shared", "-fPIC", "-o", self.library, ROOT / "tests/refuse.c"], check=True)

    def run(self, command, refusal, at, stdin=b""):
        """Status, standard output and standard error, and how many calls were refused, of which the first is number
        `at`."""
        reads, writes = os.pipe()
        given = {
            "LD_PRELOAD": self.library,
            "REFUSE": refusal.call,
            "REFUSE_AS": str(refusal.error),
            "REFUSE_AT": str(at),
            "REFUSE_MANY": str(refusal.many),
            "REFUSE_TO": str(writes),
        }
        with open(reads, "rb") as met:
            try:
                done = subprocess.run(
                    command, cwd=self.folder, env={**os.environ, **given}, input=stdin, capture_output=True,
                    pass_fds=[writes], timeout=60,
                )
            finally:
                os.close(writes)
            return (done.returncode, done.stdout, done.stderr), len(met.read())

    def each(self, command, refusal, stdin=b""):
        """What each run gave in which something was refused, and then what one gave in which nothing was."""
        found = []
        while True:
            result, met = self.run(command, refusal, len(found) + 1, stdin)
            if not met:
                return found, result
            found.append(result)


def differences(found, expected):
    """Which results aren't among those that are wanted of them."""
    wrong = [f"{len(found)} runs, and not {len(expected)}"] if len(found) != len(expected) else []
    for at, (result, allowed) in enumerate(zip(found, expected), 1):
        if result not in allowed:
            wrong.append(f"run {at}: {result!s:.300}")
    return wrong


def memory(refuser, program):
    for words, stdin, expected in RUNS:
        for many in (ONCE, FROM_THERE_ON):
            found, whole = refuser.each([program, *words], Refusal("memory", errno.ENOMEM, many), stdin)
            wrong = differences([*found, whole], [[NO_MEMORY]] * len(found) + [[expected]])
            yield f"memory, {' '.join(words):.50}{', and all after it' * (many > 1)}", len(found), wrong


def after_the_load(refuser, program):
    """A run takes as much memory for many lines of each kind as for none: the next growth is never met."""
    command, refusal = [program, "--fanout", "2", "layers.csv"], Refusal("memory", errno.ENOMEM, FROM_THERE_ON)
    chance = random.Random(1)
    lines = [random_runs.some_line(chance) for _ in range(500)] + [b"a" * 5000, b"find all near 3 3"]
    queries = b"\n".join(lines)
    found, whole = refuser.each(command, refusal)
    result, met = refuser.run(command, refusal, len(found) + 1, queries)
    wrong = differences([whole, result], [[(0, b"", b"")], [reading.expected(LAYERED, queries, fanout=2)]])
    if met:
        wrong.append(f"{met} growths after the load")
    yield f"no memory for {len(lines)} lines after the load", len(found), wrong


def fronts():
    """The replies that are made before each pull, and at the end."""
    made, held, left = 0, 0, b"".join(LINES)
    yield b""
    while left:
        size = min(BUFFER - held, len(left))
        lines = (held + size) // len(LINES[0])
        held = size + held - lines * len(LINES[0])
        made, left = made + lines, left[size:]
        yield b"".join(REPLIES[:made])


def devices(refuser, program):
    """Reads and writes that fail or that a signal interrupts. The first reads are those of the table."""
    command, parts = [program, "many.csv", "lines"], list(fronts())
    answered = 0, parts[-1], b""
    for error in (errno.EIO, errno.EINTR):
        for many in (ONCE, FROM_THERE_ON):
            found, whole = refuser.each(command, Refusal("read", error, many))
            pulls = [[(4, part, NO_QUERIES)] for part in parts]
            wrong = differences([*found, whole], [[NO_TABLE]] * (len(found) - len(pulls)) + pulls + [[answered]])
            if [NO_TABLE] * 3 != found[:3]:
                wrong.append("the table isn't read")
            yield f"reads, {os.strerror(error)}{', and all after it' * (many > 1)}", len(found), wrong
    once = [[(5, part, NOT_WRITTEN)] for part in parts[:-1]]
    none = [[(5, part, b"")] for part in parts[:-1]]
    for name, error, many, expected in (
        ("writes", errno.EIO, ONCE, once),
        ("writes, and all after it", errno.EIO, FROM_THERE_ON, none),
        ("writes that are interrupted", errno.EINTR, ONCE, [[answered]] * len(once)),
    ):
        found, whole = refuser.each(command, Refusal("write", error, many))
        yield name, len(found), differences([*found, whole], [*expected, [answered]])


def long_answers(refuser, program):
    """Writes that fail or are interrupted, with a reply longer than the buffer of standard output."""
    queries = b"find all\n" * 3
    answered = reading.expected(MANY, queries)
    for name, error in (("writes", errno.EIO), ("writes that are interrupted", errno.EINTR)):
        found, whole = refuser.each([program, "many.csv"], Refusal("write", error, ONCE), queries)
        wrong = []
        for at, (status, output, errors) in enumerate([*found, whole], 1):
            is_lost = at <= len(found) and error == errno.EIO
            is_front = answered[1].startswith(output) and (status, errors) == (5, NOT_WRITTEN)
            if not (is_front if is_lost else (status, output, errors) == answered):
                wrong.append(f"run {at}: {status}, {len(output)} bytes, {errors}")
        yield f"{name}, long answers", len(found), wrong


def given_up(refuser, program):
    """Where all writes fail from one on, two are refused: one of the output, and that of the line on standard error."""
    refusal = Refusal("write", errno.EIO, FROM_THERE_ON)
    for name, queries in (("many lines", FILES["lines"]), ("long answers", b"find all\n" * 3)):
        made = []
        while True:
            result, met = refuser.run([program, "many.csv"], refusal, len(made) + 1, queries)
            if not met:
                break
            made.append(met)
        wrong = [f"run {at}: {met} writes refused" for at, met in enumerate(made, 1) if met != 2]
        yield f"no write follows one that failed, {name}", len(made), wrong


def opens(refuser, program):
    """TABLE is opened once, and then QUERIES once, if they are named."""
    for words, expected in ((["boxes.csv", "queries.txt"], NOT_OPENED), (["boxes.csv"], NOT_OPENED[:1])):
        found, whole = refuser.each([program, *words], Refusal("open", errno.EACCES, ONCE), QUERIES)
        wrong = differences([*found, whole], [*([one] for one in expected), [(0, ANSWERS, b"")]])
        yield f"opens, {' '.join(words)}", len(found), wrong


def files_first(refuser, program):
    """No memory is taken between the opening of TABLE and that of QUERIES."""
    refusal = Refusal("memory", errno.ENOMEM, ONCE)
    no_table, no_queries = (
        refuser.each([program, *words], refusal) for words in (["none.csv", "boxes.csv"], ["boxes.csv", "none.csv"])
    )
    wrong = differences([no_table[1], no_queries[1]], [[one] for one in NOT_OPENED])
    if len(no_table[0]) != len(no_queries[0]):
        wrong.append(f"growths without TABLE and without QUERIES: {len(no_table[0])}, {len(no_queries[0])}")
    yield "memory before QUERIES is opened", len(no_queries[0]), wrong


def short(refuser, program):
    """Reads and writes that move a single byte: the run is as ever."""
    for words, stdin, expected in [*RUNS, (["many.csv"], b"find all\n", reading.expected(MANY, b"find all\n"))]:
        # (a run with bad words reads nothing)
        for call in ("read", "write") if expected[0] != 2 else ("write",):
            many = FROM_THERE_ON if len(expected[1]) < 1000 else ONCE
            found, whole = refuser.each([program, *words], Refusal(call, 0, many), stdin)
            wrong = differences([*found, whole], [[expected]] * (len(found) + 1))
            yield f"single bytes a {call}, {' '.join(words):.50}", len(found), wrong


def calls(refuser):
    """The tests of the crates."""
    for crate, names in TESTS.items():
        binary = ROOT / "crates" / crate / "out" / f"{crate}_tests"
        if not binary.exists():
            print(f"the tests of {crate} aren't built: {len(names)} not run")
            continue
        for name in names:
            found, whole = refuser.each([str(binary), name], Refusal("memory", errno.ENOMEM, ONCE))
            said = [error.split(b"\n")[0] if status else b"" for status, _, error in found]
            wrong = differences([*said, whole[0]], [[REPORTED, BEFOREHAND]] * len(said) + [[0]])
            yield f"{crate}, {name}", said.count(REPORTED), wrong


def outcomes(refuser, program):
    yield from memory(refuser, program)
    yield from after_the_load(refuser, program)
    yield from devices(refuser, program)
    yield from long_answers(refuser, program)
    yield from given_up(refuser, program)
    yield from opens(refuser, program)
    yield from files_first(refuser, program)
    yield from short(refuser, program)
    yield from calls(refuser)


def judged(name, count, wrong):
    """A check, by how many runs were refused and what was wrong in them."""
    if count and not wrong:
        print(f"{name}: refused in {count} runs")
        return name, None
    return name, "\n  ".join([*wrong, *["nothing was refused"] * (count == 0)][:5])


def main():
    program = str(Path(sys.argv[1]).resolve())
    compiler = shutil.which(os.environ.get("CC", "cc"))
    if compiler is None:
        print("skipped refusals: no C compiler\n0 passed, 0 failed")
        return 0
    with tempfile.TemporaryDirectory() as folder:
        for name, content in FILES.items():
            Path(folder, name).write_bytes(content)
        return status_of(judged(*it) for it in outcomes(Refuser(compiler, folder), program))


if __name__ == "__main__":
    sys.exit(main())

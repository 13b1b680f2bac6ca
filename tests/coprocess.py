#!/usr/bin/env python3
"""Holds the program open as a process beside this one: each reply is there before the next line is written.

usage: tests/coprocess.py PROGRAM [--lines N]

Replies are those of `reading`. N lines, a million if not given, are the most that one process answers here, while its
memory is looked at. The last line is `N passed, M failed`.
"""

import argparse
import contextlib
import functools
import os
import random
import re
import select
import signal
import socket
import subprocess
import sys
import tempfile
import threading
import time
from pathlib import Path

sys.dont_write_bytecode = True
import random_runs
import reading

# A tree of four levels.
COUNT, FANOUT = 60, 3
ROWS = [(n, n % 9, n % 9 + n % 3, n // 9, n // 9 + n % 5) for n in range(COUNT)]
TABLE = b"".join(b"%d,%d,%d,%d,%d" % row + (b",%d" % (row[0] % 6) if row[0] % 2 else b"") + b"\n" for row in ROWS)
BOXES = reading.boxes(TABLE, False, 2**24)

# How many lines wait for each other; how long to wait to see that nothing comes; and how long for something.
LINES = 10_000
A_WHILE, TOO_LONG = 0.02, 20

TOO_LONG_A_LINE = b"error %d Q1 line too long\n"
CANNOT_READ = b"rtfilter: cannot read queries\n"
CANNOT_WRITE = b"rtfilter: cannot write answers\n"


class Differs(Exception):
    """What isn't as expected."""


def same(name, found, expected):
    if found != expected:
        raise Differs(f"{name}\n  expected {expected!s:.300}\n  found    {found!s:.300}")


@functools.lru_cache(None)
def reply(line):
    """The reply to a line, with a word instead of its number, and whether the line is faulty."""
    lines, bad = reading.reply(BOXES, FANOUT, 0, line)
    lines[-1:] = [last.replace(b" 0", b" NUMBER", 1) for last in lines[-1:]]
    return b"".join(it + b"\n" for it in lines), bad


class Held:
    """A process that is held open. Lines are numbered as it numbers them."""

    def __init__(self, program, folder, *words, **streams):
        streams = {"stdin": subprocess.PIPE, "stdout": subprocess.PIPE, **streams}
        self.process = subprocess.Popen(
            [program, "--fanout", str(FANOUT), "boxes.csv", *words], cwd=folder, stderr=subprocess.PIPE, bufsize=0,
            **streams,
        )
        self.lines, self.bad = 0, False

    def __enter__(self):
        return self

    def __exit__(self, *_):
        self.process.kill()
        self.process.wait()
        for stream in (self.process.stdin, self.process.stdout, self.process.stderr):
            if stream:
                stream.close()

    def write(self, text):
        text = memoryview(text)
        while text:
            text = text[self.process.stdin.write(text):]

    def next_reply(self, line):
        """The reply to the next line."""
        self.lines += 1
        answer, bad = reply(line)
        self.bad |= bad
        return answer.replace(b"NUMBER", b"%d" % self.lines)

    def comes(self, seconds):
        return bool(select.select([self.process.stdout], [], [], seconds)[0])

    def read(self, size):
        """This many bytes, or fewer if no more come."""
        found = b""
        while len(found) < size and self.comes(TOO_LONG):
            piece = self.process.stdout.read(size - len(found))
            if not piece:
                break
            found += piece
        return found

    def expect(self, expected):
        same(f"after line {self.lines}", self.read(len(expected)), expected)

    def expect_nothing(self, seconds=A_WHILE):
        if self.comes(seconds):
            raise Differs(f"after line {self.lines} nothing was to come, but: {self.process.stdout.read(300)}")

    def ask(self, line):
        """Writes a line, and reads its reply."""
        self.write(line + b"\n")
        self.expect(self.next_reply(line))

    def expect_end(self, status, output, error):
        """What the process leaves when it ends by itself."""
        try:
            found = self.process.wait(TOO_LONG)
        except subprocess.TimeoutExpired:
            found = "no end"
        written = self.process.stdout.read() if self.process.stdout else b""
        same("the end", (found, written, self.process.stderr.read()), (status, output, error))

    def close(self, output=b""):
        """Closes the input, after which it ends with the status of its lines."""
        self.process.stdin.close()
        self.expect_end(int(self.bad), output, b"")


def some_lines(seed, count):
    """Sound and faulty lines, and some that have no reply, each of them often."""
    chance = random.Random(seed)
    return chance.choices([random_runs.some_line(chance) for _ in range(500)], k=count)


def waits_for_each_answer(start):
    with start() as held:
        for line in some_lines(1, LINES):
            held.ask(line)
        held.expect_nothing()
        held.close()


def lines_in_two_writes(start):
    """Each line is cut somewhere, and now and then its second part comes late. Until then nothing is printed."""
    chance = random.Random(2)
    with start() as held:
        for line in some_lines(3, LINES):
            whole = line + b"\n"
            end = chance.randrange(len(whole))
            held.write(whole[:end])
            if chance.random() < 0.01:
                held.expect_nothing()
            held.write(whole[end:])
            held.expect(held.next_reply(line))
        held.close()


def several_lines_in_one_write(start):
    """And the beginning of the next, which is ended by the next write."""
    chance = random.Random(4)
    lines, begun = some_lines(5, LINES), 0
    with start() as held:
        while lines:
            count = chance.randint(1, 30)
            some, lines = lines[:count], lines[count:]
            text = b"".join(line + b"\n" for line in some)
            ahead = chance.randint(0, len(lines[0])) if lines else 0
            held.write(text[begun:] + (lines[0][:ahead] if lines else b""))
            held.expect(b"".join(map(held.next_reply, some)))
            begun = ahead
        held.close()


def more_answers_than_a_pipe_holds(start):
    """The process waits while the reader doesn't read, and goes on once it does."""
    lines = [b"find all"] * 400
    with start() as held:
        expected = b"".join(map(held.next_reply, lines))
        held.write(b"find all\n" * 400)
        time.sleep(0.1)
        held.expect(expected)
        held.ask(b"count all")
        held.close()


def a_line_that_does_not_end(start):
    with start() as held:
        held.ask(b"count all")
        held.write(b"a" * 100_000)
        held.expect_nothing(0.2)
        held.write(b"\n")
        held.lines += 1
        held.expect(TOO_LONG_A_LINE % 2)
        held.ask(b"count all")
        # its end may be as far as 4,096 bytes after its beginning, and no farther
        held.ask(b"count all".ljust(4096))
        held.write(b" " * 4096)
        held.expect_nothing()
        held.write(b"x\n")
        held.lines += 1
        held.expect(TOO_LONG_A_LINE % 5)
        held.ask(b"levels")
        held.ask(b"cost find all near 3 3 first 5")
        held.bad = True
        held.close()


def closed_input(start):
    """Whatever stands behind the last line feed is answered at the end."""
    for line, behind, status, output in (
        (b"count all", b"", 0, b""),
        (b"x", b"", 1, b""),
        (b"count all", b"count all", 0, b"ok 2 %d\n" % COUNT),
        (b"count all", b"x", 1, b"error 2 Q2 unknown verb\n"),
        (b"count all", b"# count all", 0, b""),
        (b"count all", b"a" * 5000, 1, TOO_LONG_A_LINE % 2),
    ):
        with start() as held:
            held.ask(line)
            held.write(behind)
            held.expect_nothing()
            held.process.stdin.close()
            held.expect_end(status, output, b"")
    with start() as held:
        held.close()


def reader_goes_away(start):
    for before in (0, 1, 100):
        with start() as held:
            for _ in range(before):
                held.ask(b"x")
            held.process.stdout.close()
            held.process.stdout = None
            held.write(b"count all\n")
            held.expect_end(5, b"", CANNOT_WRITE)


def full_device(start):
    """It ends at its first answer, while its input is open."""
    with open("/dev/full", "wb") as full, start(stdout=full) as held:
        held.write(b"# a comment\n\n")
        time.sleep(A_WHILE)
        same("before an answer", held.process.poll(), None)
        held.write(b"count all\n")
        held.expect_end(5, b"", CANNOT_WRITE)


def input_that_breaks(start):
    """The lines before a read that fails are answered, and what stands behind the last line feed isn't."""
    for behind in (b"", b"count all", b"a" * 5000):
        ours, theirs = socket.socketpair()
        with ours, theirs, start(stdin=theirs) as held:
            ours.sendall(b"count all\nx\n")
            held.expect(held.next_reply(b"count all") + held.next_reply(b"x"))
            ours.sendall(behind)
            # a socket that is closed with bytes unread is reset
            theirs.sendall(b"unread")
            ours.close()
            held.expect_end(4, b"", CANNOT_READ)


def queries_in_a_named_pipe(start, folder):
    path = Path(folder, "named")
    os.mkfifo(path)
    with start("named", stdin=subprocess.DEVNULL) as held:
        with open(path, "wb", buffering=0) as held.process.stdin:
            for line in some_lines(6, 100):
                held.ask(line)
            held.close()


def stopped_and_continued(start):
    """Signals that stop it and let it go on lose nothing, whether it waits or works."""
    with start() as held:
        for _ in range(20):
            held.process.send_signal(signal.SIGSTOP)
            held.write(b"find all\n" * 20)
            held.process.send_signal(signal.SIGCONT)
            held.expect(b"".join(map(held.next_reply, [b"find all"] * 20)))
        held.close()


def memory_of(held):
    """The most memory that a process had so far, in KiB: that of its address space, and what of it was resident."""
    text = Path(f"/proc/{held.process.pid}/status").read_text()
    return [int(re.search(rf"^{name}:\s*(\d+) kB$", text, re.MULTILINE)[1]) for name in ("VmPeak", "VmHWM")]


def pass_on(held, text, times):
    """Writes a text so often, and reads its replies meanwhile, of which the last is given."""
    def send():
        with contextlib.suppress(BrokenPipeError):
            for _ in range(times):
                held.write(text)

    sender = threading.Thread(target=send)
    held.lines += text.count(b"\n") * times
    sender.start()
    found = b""
    while not found.endswith(b"ok %d %d\n" % (held.lines, COUNT)) and held.comes(TOO_LONG):
        found = found[-100:] + (held.process.stdout.read(2**20) or b"x")
    sender.join()
    return found.splitlines()[-1] + b"\n"


def the_same_memory_for_many_lines(start, lines):
    """What is resident doesn't grow, as far as the system counts it: in parts, some of them reported late."""
    text = b"find window 3 4 5 6\nnearest 3 1 1\nfind all smallest\nx\nfind all on 1,5\n" + b"count all\n" * 995
    with start() as held:
        pass_on(held, text, 1)
        space, resident = memory_of(held)
        same("the last reply", pass_on(held, text, lines // 1000), b"ok %d %d\n" % (held.lines, COUNT))
        later_space, later = memory_of(held)
        print(f"{resident} KiB resident after 1000 lines, {later} KiB after {held.lines}")
        same("the address space", later_space, space)
        if later > resident + 512:
            raise Differs("it grows")


def writes_of(program, folder, queries):
    """How many writes a run makes whose queries are in a file, and its output. Each write gives one packet, or one for
    each 4,096 bytes."""
    Path(folder, "queries").write_bytes(queries)
    reads, writes = os.pipe2(os.O_DIRECT)
    with subprocess.Popen([program, "boxes.csv", "queries"], cwd=folder, stdout=writes) as process:
        os.close(writes)
        packets = list(iter(lambda: os.read(reads, 2**16), b""))
        os.close(reads)
    return process.returncode, len(packets), b"".join(packets)


def few_writes_for_a_file(program, folder, lines):
    """The answers to a file of queries go out in large pieces: if no reader waits, a line is no system call."""
    status, packets, output = writes_of(program, folder, b"count all\n" * lines)
    print(f"{packets} packets of at most 4096 bytes for {lines} replies of {len(output)} bytes")
    same("status", status, 0)
    same("output", output == b"".join(b"ok %d %d\n" % (at, COUNT) for at in range(1, lines + 1)), True)
    if packets > lines // 100 + 10:
        raise Differs(f"{packets} packets")


def main():
    parser = argparse.ArgumentParser()
    parser.add_argument("program")
    parser.add_argument("--lines", type=int, default=1_000_000)
    args = parser.parse_args()
    program = str(Path(args.program).resolve())
    passed = failed = 0
    with tempfile.TemporaryDirectory() as folder:
        Path(folder, "boxes.csv").write_bytes(TABLE)

        def start(*words, **streams):
            return Held(program, folder, *words, **streams)

        for test, *given in (
            (waits_for_each_answer, start),
            (lines_in_two_writes, start),
            (several_lines_in_one_write, start),
            (more_answers_than_a_pipe_holds, start),
            (a_line_that_does_not_end, start),
            (closed_input, start),
            (reader_goes_away, start),
            (full_device, start),
            (input_that_breaks, start),
            (queries_in_a_named_pipe, start, folder),
            (stopped_and_continued, start),
            (the_same_memory_for_many_lines, start, args.lines),
            (few_writes_for_a_file, program, folder, args.lines // 10),
        ):
            begun = time.monotonic()
            try:
                test(*given)
                passed += 1
            except (Differs, OSError) as why:
                failed += 1
                print(f"FAIL {test.__name__.replace('_', ' ')}: {why}")
            if "TIMES" in os.environ:
                print(f"{time.monotonic() - begun:.2f} s {test.__name__}")
    print(f"{passed} passed, {failed} failed")
    return int(failed > 0)


if __name__ == "__main__":
    sys.exit(main())

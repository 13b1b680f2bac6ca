"""What a connection can do: read, write, give memory back and end. And prefork.c by tools that find faults in C."""

import os
import re
import shutil
import signal
import socket
import subprocess
import unittest
from pathlib import Path

from served import BOXES, FLAGS, SOURCE, TRIES, Case, table_of
from support import found, output_of_program, until, wants

CALLS = {"read", "write", "munmap", "brk", "exit_group"}
ERROR_OF_VALGRIND = 99
NO_FAULT = r"Parent PID: \d+\n==\d+== \n*$"


class Confinement(Case):
    def test_what_is_tried(self) -> None:
        """By a build that tries: the kernel ends the connection, and nothing else."""
        service = self.served(program=self.build(*TRIES))
        names = ["open", "openat", "socket", "mmap", "more", "high", "fork", "execve", "kill", "x32", "i386"]
        for name in names:
            with self.subTest(name), service.connect() as asker:
                self.count(asker)
                asker.sendall(f"# {name}\ncount all\n".encode())
                self.assertEqual(asker.recv(100), b"")
        self.assertEqual(len(service.logs(rf"signal={signal.SIGSYS:d} ", len(names))), len(names))
        self.assertEqual(service.ask(b"# less\ncount all\n"), b"ok 2 5\n")
        self.assertEqual(service.ask(b"# nothing\ncount all\n"), b"ok 2 5\n")

    def test_its_state(self) -> None:
        """No new privileges, a filter, no signal blocked or caught, the first to be taken where memory is short; and the
        program none of these."""
        service = self.served()
        with service.connect() as asker:
            self.count(asker)
            for (process,), score, filter in ((service.connections, "1000", 2), (service.programs, "0", 0)):
                status = Path(f"/proc/{process}/status").read_text()
                self.assertEqual(int(found(r"Seccomp:\t(\d)", status)[1]), filter)
                self.assertEqual(int(found(r"NoNewPrivs:\t(\d)", status)[1]), filter // 2)
                self.assertEqual(Path(f"/proc/{process}/oom_score_adj").read_text().strip(), score)
            blocked, caught = (found(rf"{name}:\t(\w+)", Path(f"/proc/{service.connections[0]}/status").read_text())[1]
                               for name in ("SigBlk", "SigCgt"))
            self.assertEqual((int(blocked, 16), int(caught, 16)), (0, 0))

    def test_its_memory(self) -> None:
        """Of what it shares, one page can be written, in which lines are counted."""
        service = self.served(BOXES, "--connections", "100000")
        with service.connect() as asker:
            self.count(asker)
            maps = Path(f"/proc/{service.connections[0]}/maps").read_text()
            self.assertIn(" rw-p ", maps)
            shared = [line for line in maps.splitlines() if line.split()[1][3] == "s"]
            self.assertEqual([line.split()[1] for line in shared], ["r--s", "rw-s"])
            for line in shared:
                begin, end = (int(it, 16) for it in line.split()[0].split("-"))
                self.assertEqual((end - begin, "memfd:rtfilter-common" in line), (4096, True))

    def test_calls(self) -> None:
        """What strace sees, of every kind of line, to the end."""
        wants("strace")
        table = table_of(self.folder, "many", 0, 100_000)
        service = self.served(table)
        trace = Path(self.folder, "trace")
        with service.connect() as asker:
            self.count(asker, boxes=100_000)
            (process,) = service.connections
            with open(trace, "w") as file:
                tracer = subprocess.Popen(["strace", "-p", str(process)], stderr=file)
            until(lambda: "attached" in trace.read_text(), "strace")
            asker.sendall(b"find all\nfind window 0 9 0 9 near 3 3\nnearest 5 0 0\nx\nlevels\nfind all smallest first 900\n")
            read_to(asker, b"\nok 7 900\n")
            asker.shutdown(socket.SHUT_WR)
            self.assertEqual(asker.recv(1), b"")
            tracer.wait(10)
        calls = set(re.findall(r"^(\w+)\(", trace.read_text(), re.MULTILINE))
        self.assertLessEqual(calls, CALLS)
        self.assertGreaterEqual(calls, {"read", "write", "exit_group"})
        ends = [int(end, 16) for end in re.findall(r"^brk\((\w+)\)", trace.read_text().replace("NULL", "0x0"), re.MULTILINE)]
        self.assertEqual(ends, sorted(ends, reverse=True))

    def test_by_valgrind(self) -> None:
        """The test build without the filter: no fault, in the program and in connections."""
        wants("valgrind")
        program = self.build("-g", "-DUNCONFINED")
        logs = Path(self.folder, "valgrind")
        logs.mkdir()
        wrapped = self.script(
            f"exec valgrind --error-exitcode={ERROR_OF_VALGRIND} --trace-children=yes --leak-check=full "
            f"--errors-for-leak-kinds=definite --log-file={logs}/%p {program} \"$@\""
        )
        Path(program).with_name("rtfilter-prefork.so").rename(Path(wrapped).with_name("rtfilter-prefork.so"))
        service = self.served(BOXES, "--connections", "2", "--tcp", "0", program=wrapped)
        queries = b"find all\nx\nnearest 2 12 12\n"
        for _ in range(3):
            self.assertEqual(service.ask(queries), output_of_program(BOXES, queries))
        with service.connect() as one, service.connect() as two:
            self.count(one, two)
            with service.connect() as three:
                self.assertTrue(three.recv(100).startswith(b"rtfilter-serve: refused"))
            service.exchange()
        service.logs("status=1 ", 3)
        service.logs("status=0 ", 2)
        service.signal(signal.SIGTERM)
        self.assertEqual(service.process.wait(20), 0)
        reports = [path.read_text() for path in logs.iterdir()]
        self.assertGreaterEqual(len(reports), 7)
        for report in reports:
            # Of a program, which is killed at its end, nothing stands behind the head.
            self.assertRegex(report, r"ERROR SUMMARY: 0 errors|Command: /bin/sh|Command: /usr/bin/valgrind|" + NO_FAULT, report)


UNLINKED = [it for it in FLAGS if it != "-shared"]


class Source(unittest.TestCase):
    def test_by_compilers(self) -> None:
        """With all their warnings, and with gcc's search for faults."""
        tried = 0
        compilers: dict[str, list[str]] = {"gcc": ["-fanalyzer"], "clang": []}
        for compiler, flags in compilers.items():
            if shutil.which(compiler):
                tried += 1
                words = [compiler, "-c", *UNLINKED, "-Wall", "-Wextra", "-Werror", *flags, "-o", os.devnull, str(SOURCE)]
                done = subprocess.run(words, capture_output=True, text=True)
                self.assertEqual((done.returncode, done.stderr), (0, ""))
        if not tried:
            self.skipTest("gcc: not installed")


def read_to(asker: socket.socket, end: bytes) -> None:
    """Reads up to and with an end."""
    found = b""
    while not found.endswith(end):
        found = found[-100:] + asker.recv(1 << 16)

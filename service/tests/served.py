"""A service as a process beside the tests, and askers."""

import contextlib
import os
import random
import re
import shutil
import signal
import socket
import subprocess
import sys
import tempfile
import threading
import time
import unittest
from collections.abc import Iterable, Iterator
from pathlib import Path
from typing import Any, Self

import random_runs
from prefork import library_of
from support import DATA, LONGEST, PROGRAM, ROOT, found, until, wants

SERVICE = ROOT / "service/serve.py"
BOXES = DATA / "boxes.csv"
SOURCE = ROOT / "service/prefork.c"
FLAGS = ["-std=gnu11", "-O", "-fPIC", "-shared"]
TRIES = "-include", Path(__file__).with_name("tries.h")
SYSTEM_PYTHON = "/usr/bin/python3"  # which other users may run too
MOMENT = re.compile(r"^\d{4}-\d\d-\d\dT\d\d:\d\d:\d\dZ ", re.MULTILINE)  # at which a line was logged
HTTP = r"^HTTP/1\.0 (\d{3}) [A-Za-z ]+\r\nContent-Type: text/plain; version=0\.0\.4; charset=utf-8\r\nContent-Length: (\d+)\r\n\r\n(.*)$"


def state_of(process: int) -> tuple[str, int]:
    """The state of a process, as proc(5) has it, and its parent. The state of one that isn't there is X."""
    try:
        state, parent = Path(f"/proc/{process}/stat").read_text().rpartition(")")[2].split()[:2]
        return state, int(parent)
    except (FileNotFoundError, ProcessLookupError):
        return "X", 0


def children_of(process: int) -> list[int]:
    """The processes that a process has started, those of all of its threads, and that haven't ended."""
    states = {int(other.name): state_of(int(other.name)) for other in Path("/proc").glob("[0-9]*")}
    return [other for other, (state, parent) in states.items() if parent == process and state != "Z"]


def is_there(process: int) -> bool:
    """Whether a process runs: one that has ended may still be waited for."""
    return state_of(process)[0] not in "ZX"


def send(number: int, processes: Iterable[int]) -> None:
    """Sends a signal to those of some processes that haven't ended."""
    for process in processes:
        with contextlib.suppress(ProcessLookupError):
            os.kill(process, number)


def stop(processes: Iterable[int]) -> None:
    """Stops processes, and waits until they are stopped."""
    stopped = [*processes]
    send(signal.SIGSTOP, stopped)
    until(lambda: all(state_of(it)[0] == "T" for it in stopped), "the stop")


def put_library(folder: Path) -> None:
    """Has the library beside a program of a test's own."""
    library = library_of(PROGRAM)
    assert library is not None
    (folder / library.name).symlink_to(library)


def copied(folder: Path) -> Path:
    """A copy of the program, with the library beside it."""
    put_library(folder)
    return Path(shutil.copy(PROGRAM, folder))


def command_of(program: str = PROGRAM, python: str = sys.executable) -> list[str]:
    """The words of a service before its own."""
    return [python, "-B", str(SERVICE), "--program", program]


class Started:
    """A service that a command starts, with a Unix socket at a path, whose log is a file in a folder. To be used in a `with` statement,
    which ends it."""

    def __init__(self, folder: str, path: str, command: list[str] | str, is_ready: bool = True, **options: Any) -> None:
        """Waits until the table is loaded, unless it isn't to be."""
        self.path = path
        self.log_file = Path(folder, "log")
        with open(self.log_file, "wb") as log:
            options.setdefault("stderr", log)
            self.process = subprocess.Popen(command, **options)
        if is_ready:
            until(lambda: "ready: " in self.log or self.process.poll() is not None, "the service")

    def __enter__(self) -> Self:
        return self

    def __exit__(self, *_: object) -> None:
        """Ends it. The second signal ends connections that still write."""
        until_then = time.monotonic() + LONGEST
        while True:
            self.process.send_signal(signal.SIGTERM)
            try:
                self.process.wait(0.3)
                return
            except subprocess.TimeoutExpired:
                if time.monotonic() > until_then:
                    self.process.kill()
                    self.process.wait()
                    raise

    @property
    def log(self) -> str:
        """What it has logged, without the times."""
        return MOMENT.sub("", self.log_file.read_text())

    def place(self, what: str = "listening") -> tuple[str, int]:
        """Where it listens on TCP."""
        host, port = found(rf"{what} on \[?([\d.:]+)\]?:(\d+)\n", self.log).groups()
        return host, int(port)

    @property
    def tcp(self) -> tuple[str, int]:
        return self.place()

    def logs(self, pattern: str, count: int = 1) -> list[str]:
        """Waits until so many lines of the log have a part that matches."""
        until(lambda: len(re.findall(pattern, self.log, re.MULTILINE)) >= count, pattern)
        return [line for line in self.log.splitlines() if re.search(pattern, line)]

    def signal(self, number: int) -> None:
        self.process.send_signal(number)

    def exchange(self) -> None:
        """Asks for another table, and waits until it's there."""
        count = self.log.count("the table is exchanged")
        self.signal(signal.SIGHUP)
        self.logs("the table is exchanged", count + 1)

    @property
    def programs(self) -> list[int]:
        """Those that hold a table."""
        return children_of(self.process.pid)

    @property
    def connections(self) -> list[int]:
        """The processes of connections."""
        return [child for program in self.programs for child in children_of(program)]

    @property
    def processes(self) -> list[int]:
        return [self.process.pid, *self.programs, *self.connections]

    @property
    def open_files(self) -> list[int]:
        """How many, of the service and of its programs."""
        return [len(os.listdir(f"/proc/{process}/fd")) for process in [self.process.pid, *self.programs]]

    def files_at_rest(self) -> list[int]:
        """`open_files` once nothing is under way: a connection that comes after all that has ended, and is logged."""
        ended = len(re.findall("^connection ", self.log, re.MULTILINE))
        self.ask(b"")
        self.logs("^connection ", ended + 1)
        return self.open_files

    @property
    def memory(self) -> int:
        """KiB that are resident, of the service and its programs."""
        texts = [Path(f"/proc/{process}/status").read_text() for process in [self.process.pid, *self.programs]]
        return sum(int(found(r"VmRSS:\s*(\d+) kB", text)[1]) for text in texts)

    def connect(self) -> socket.socket:
        asker = socket.socket(socket.AF_UNIX)
        asker.settimeout(LONGEST)
        asker.connect(self.path)
        return asker

    def ask(self, queries: bytes) -> bytes:
        return talk(self.connect(), [queries])

    def is_answered(self, boxes: int = 5) -> bool:
        """Whether a connection is answered how many boxes there are: it isn't if it is refused, or if something was killed."""
        try:
            with self.connect() as asker:
                asker.sendall(b"count all\n")
                asker.shutdown(socket.SHUT_WR)
                return (asker.recv(100), asker.recv(1)) == (b"ok 1 %d\n" % boxes, b"")
        except OSError:
            return False

    def reply_to(self, request: bytes) -> tuple[int, str]:
        """What the address of its health answers: a status, and a text."""
        with socket.create_connection(self.place("health"), LONGEST) as asker:
            asker.sendall(request)
            reply = b"".join(iter(lambda: asker.recv(4096), b"")).decode()
        status, length, text = found(HTTP, reply, re.DOTALL).groups()
        assert len(text) == int(length) * (not request.startswith(b"HEAD ")), reply
        return int(status), text

    def get(self, path: str) -> tuple[int, str]:
        return self.reply_to(f"GET {path} HTTP/1.0\r\nHost: here\r\n\r\n".encode())

    def metric(self, name: str) -> float:
        return float(found(rf"^{re.escape(name)} (\S+)$", self.get("/metrics")[1], re.MULTILINE)[1])


class Served(Started):
    """The service of the checkout over a table, on a Unix socket in a folder."""

    def __init__(
        self, folder: str, table: Path, *words: str, before: Iterable[str] = (), program: str = PROGRAM,
        python: str = sys.executable, **given: Any,
    ) -> None:
        """`before` are words of a command that runs it."""
        path = f"{folder}/socket"
        super().__init__(folder, path, [*before, *command_of(program, python), "--unix", path, *words, str(table)], **given)


class Case(unittest.TestCase):
    """A test with a folder of its own, in which services are started that end with it."""

    def setUp(self) -> None:
        if library_of(PROGRAM) is None:
            self.skipTest("a C compiler: not installed")
        self.folder = self.enterContext(tempfile.TemporaryDirectory())

    def need_another_user(self) -> None:
        """Skips a test that starts a service as another user where that can't be done."""
        if os.geteuid() != 0 or shutil.which("setpriv") is None:
            self.skipTest("root and setpriv: not there")
        if not all(it.stat().st_mode & 1 for it in SERVICE.parents):
            self.skipTest("a checkout that others may read: not there")

    def served(self, table: Path = BOXES, *words: str, **given: Any) -> Served:
        return self.enterContext(Served(self.folder, table, *words, **given))

    def script(self, text: str) -> str:
        """A program of the test's own, a script of the shell, with the library beside it."""
        put_library(Path(self.folder))
        script = Path(self.folder, "program")
        script.write_text(f"#!/bin/sh\n{text}\n")
        script.chmod(0o700)
        return str(script)

    def build(self, *flags: object) -> str:
        """A copy of the program, with a test build of the library."""
        folder = Path(self.folder, "build")
        folder.mkdir()
        subprocess.run(["cc", *FLAGS, *map(str, flags), "-o", folder / "rtfilter-prefork.so", SOURCE], check=True)
        return str(shutil.copy(PROGRAM, folder))

    def preload(self, text: str) -> tuple[dict[str, str], Path]:
        """An environment in which a library of this source is loaded before others, and the file FLAG of that: while it is
        there, a call of the system is to fail."""
        wants("cc")
        source, library, flag = (Path(self.folder, name) for name in ("preload.c", "preload.so", "flag"))
        source.write_text(text)
        subprocess.run(["cc", "-shared", "-fPIC", "-o", library, source], check=True)
        return {**os.environ, "LD_PRELOAD": str(library), "FLAG": str(flag)}, flag

    def count(self, *askers: socket.socket, at: int = 1, boxes: int = 5) -> None:
        """Each of these connections is answered how many boxes there are, which is its line `at`."""
        for asker in askers:
            asker.sendall(b"count all\n")
            self.assertEqual(read_lines(asker, 1), b"ok %d %d\n" % (at, boxes))

    def assert_well(self, service: Served) -> None:
        """Others are answered, and soon."""
        begun = time.monotonic()
        self.assertRegex(service.ask(b"x\ncount all\n"), rb"^error 1 Q2 unknown verb\nok 2 \d+\n$")
        self.assertLess(time.monotonic() - begun, 5)


def talk(asker: socket.socket, pieces: Iterable[bytes]) -> bytes:
    """Writes pieces, ends its input, and reads until the end, both at once."""
    def write() -> None:
        for piece in pieces:
            asker.sendall(piece)
        asker.shutdown(socket.SHUT_WR)

    asker.settimeout(LONGEST)
    with asker:
        writer = threading.Thread(target=write)
        writer.start()
        replies = b"".join(iter(lambda: asker.recv(1 << 18), b""))
        writer.join()
    return replies


def read_lines(asker: socket.socket, count: int) -> bytes:
    """So many lines, and nothing behind them."""
    found = b""
    while found.count(b"\n") < count:
        piece = asker.recv(1 << 16)
        if not piece:
            break
        found += piece
    return found


def some_queries(chance: random.Random, count: int) -> bytes:
    """Sound and faulty lines, some skipped, some too long, the last one with its end or without."""
    lines = [random_runs.some_line(chance) for _ in range(count)]
    return b"\n".join(lines) + chance.choice([b"", b"\n"])


def some_pieces(chance: random.Random, text: bytes) -> Iterator[bytes]:
    """A text in pieces of any length."""
    at = 0
    while at < len(text):
        size = chance.choice([1, 7, 100, 5000, 100_000])
        yield text[at:at + size]
        at += size


def table_of(folder: str, name: str, first: int, count: int) -> Path:
    """Boxes with these ids, each a unit away from the next."""
    table = Path(folder, name)
    table.write_text("".join(f"{first + at},{at},{at},0,0\n" for at in range(count)))
    return table


def answers(first: int, count: int) -> bytes:
    """What `find all` is answered over such a table."""
    return b"".join(b"%d 0\n" % id for id in range(first, first + count))

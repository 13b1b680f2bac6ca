"""What the tests of the map share: the program, a map, a server, and what a process has cost."""

import atexit
import csv
import functools
import json
import shutil
import signal
import socket
import subprocess
import sys
import tempfile
import unittest
from collections.abc import Iterable
from http.client import HTTPConnection, HTTPResponse
from pathlib import Path
from typing import Any

from support import LONGEST, environment, output_of_program, seconds_of

BOXES = 30_000
COMMAND = [sys.executable, "-B", "-m", "rtfilter.tiles"]
HOSTILE_NAME = '<img src=x onerror="throw 1"><script>throw 2</script>'
HOSTILE_LAYER = "<b>buildings</b>"


def make_map(folder: Path, boxes: int, seed: int = 1) -> None:
    words = [sys.executable, "-B", "-m", "rtfilter.tiles.make_map", folder, "--boxes", boxes, "--seed", seed]
    subprocess.run([*map(str, words)], check=True, timeout=LONGEST, env=environment(), stderr=subprocess.PIPE, text=True)


def kept_folder() -> Path:
    """A folder that is removed after all tests."""
    folder = Path(tempfile.mkdtemp())
    atexit.register(shutil.rmtree, folder)
    return folder


@functools.cache
def large_map() -> Path:
    """The folder of a map of 100,000 boxes, which is made once."""
    folder = kept_folder()
    make_map(folder, 100_000)
    return folder


def replies_of(table: Path, lines: Iterable[str]) -> list[list[str]]:
    """What the program writes for each line, the last line of each reply included, where each line has a reply."""
    replies: list[list[str]] = [[]]
    for line in output_of_program(table, "".join(line + "\n" for line in lines).encode()).decode().splitlines():
        replies[-1].append(line)
        if line.startswith(("ok ", "error ")):
            replies.append([])
    return replies[:-1]


def number_of(table: Path, line: str) -> int:
    """The number in the last line of the reply to a line."""
    return int(replies_of(table, [line])[0][-1].split()[2])


def ids_of(table: Path, line: str) -> list[int]:
    return [int(answer.split()[0]) for answer in replies_of(table, [line])[0][:-1]]


class Server:
    """A server of a table, as a process."""

    def __init__(self, table: Path, *options: str, before: Iterable[str] = ()) -> None:
        """`before` are words of a command that runs it."""
        words = [*before, *COMMAND, "--port", "0", *options, table]
        pipe = subprocess.PIPE
        self.process = subprocess.Popen([*map(str, words)], stdout=pipe, stderr=pipe, text=True, env=environment())
        assert self.process.stdout is not None
        self.address = self.process.stdout.readline().strip()
        if not self.address:
            raise RuntimeError(self.end()[1])
        self.port = int(self.address.rstrip("/").rpartition(":")[2])

    def connected(self) -> HTTPConnection:
        return HTTPConnection("127.0.0.1", self.port, timeout=LONGEST)

    def get(self, target: str, **headers: str) -> tuple[HTTPResponse, bytes]:
        """The reply to a request with headers, in whose names `_` stands for `-`, and its body."""
        connection = self.connected()
        try:
            connection.request("GET", target, headers={name.replace("_", "-"): it for name, it in headers.items()})
            reply = connection.getresponse()
            return reply, reply.read()
        finally:
            connection.close()

    def reply_to(self, request: bytes) -> tuple[HTTPResponse, bytes]:
        """The reply to these bytes, and its body."""
        with socket.create_connection(("127.0.0.1", self.port), LONGEST) as connection:
            connection.sendall(request)
            reply = HTTPResponse(connection)
            reply.begin()
            return reply, reply.read()

    def seconds(self) -> float:
        """Processor time so far."""
        return seconds_of(self.process.pid)

    def end(self, number: int = signal.SIGTERM) -> tuple[int, str]:
        """Its exit status and what it has written on standard error."""
        self.process.send_signal(number)
        return self.ended()

    def ended(self) -> tuple[int, str]:
        _, errors = self.process.communicate(timeout=LONGEST)
        return self.process.returncode, errors

    def __enter__(self) -> "Server":
        return self

    def __exit__(self, *_: Any) -> None:
        if self.process.returncode is None:
            self.end()


@functools.cache
def hostile_map() -> tuple[Path, Server]:
    """The table and the server of a map whose first town, and whose last layer, have names that look like markup. They are made once."""
    folder = kept_folder()
    make_map(folder, BOXES)
    for name, line, text in ("names.csv", 0, HOSTILE_NAME), ("layers.csv", 5, HOSTILE_LAYER):
        with open(folder / name, newline="", encoding="utf-8") as file:
            rows = [*csv.reader(file)]
        rows[line][1] = text
        with open(folder / name, "w", newline="", encoding="utf-8") as file:
            csv.writer(file).writerows(rows)
    server = Server(folder / "boxes.csv", "--names", str(folder / "names.csv"), "--layers", str(folder / "layers.csv"))
    atexit.register(server.end)
    return folder / "boxes.csv", server


class Mapped(unittest.TestCase):
    """A map and its server."""

    table: Path
    server: Server

    @classmethod
    def setUpClass(cls) -> None:
        cls.table, cls.server = hostile_map()

    def connected(self) -> HTTPConnection:
        """A connection that is closed at the end of the test."""
        connection = self.server.connected()
        self.addCleanup(connection.close)
        return connection

    def json(self, target: str) -> dict[str, Any]:
        reply, body = self.server.get(target)
        self.assertEqual((reply.status, reply.headers["Content-Type"]), (200, "application/json"), body)
        found: dict[str, Any] = json.loads(body)
        return found

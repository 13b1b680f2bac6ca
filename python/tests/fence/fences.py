"""What the tests of the fence share: a fence that runs, its events, and zones."""

import json
import os
import select
import subprocess
import sys
from collections.abc import Iterable
from pathlib import Path
from typing import Any

from support import LONGEST, environment

COMMAND = [sys.executable, "-B", "-m", "rtfilter.fence"]


class Lines:
    """The lines that come from a descriptor, each as soon as it is there."""

    def __init__(self, descriptor: int) -> None:
        self._descriptor = descriptor
        self._left = b""

    def next(self) -> str:
        """The next one; an empty text at the end."""
        while b"\n" not in self._left:
            if not select.select([self._descriptor], [], [], LONGEST)[0]:
                raise TimeoutError(f"no line: {self._left!r}")
            piece = os.read(self._descriptor, 1 << 16)
            if not piece:
                return ""
            self._left += piece
        line, self._left = self._left.split(b"\n", 1)
        return line.decode()

    def some(self, count: int) -> list[Any]:
        """As many events."""
        return [json.loads(self.next()) for _ in range(count)]


class Running:
    """A fence that runs: positions go to `send`, and events come from `events`."""

    def __init__(self, zones: Path, *options: str) -> None:
        pipe = subprocess.PIPE
        words = [*COMMAND, *options, str(zones)]
        self.process = subprocess.Popen(words, bufsize=0, stdin=pipe, stdout=pipe, stderr=pipe, env=environment())
        assert self.process.stdin and self.process.stdout and self.process.stderr
        self.input = self.process.stdin
        self.events, self.errors = Lines(self.process.stdout.fileno()), Lines(self.process.stderr.fileno())

    def started(self) -> "Running":
        """Itself, once its zones are loaded."""
        self.logs("rtfilter-fence: zones: ")
        return self

    def logs(self, begin: str) -> None:
        """Reads on standard error up to a line that begins so."""
        while not (line := self.errors.next()).startswith(begin):
            assert line, "it has ended"

    def send(self, *lines: str) -> None:
        """Lines without their line feeds, in one write."""
        self.input.write("".join(f"{line}\n" for line in lines).encode())

    def ended(self) -> tuple[int, list[str]]:
        """The status, and what was left to be read on standard error, once its input has ended."""
        self.input.close()
        said = [*iter(self.errors.next, "")]
        return self.process.wait(LONGEST), said

    def __enter__(self) -> "Running":
        return self

    def __exit__(self, *_: Any) -> None:
        self.process.kill()
        self.process.wait(LONGEST)
        for file in (self.process.stdin, self.process.stdout, self.process.stderr):
            assert file is not None
            file.close()


def run(zones: Path, lines: bytes, *options: str) -> list[Any]:
    """The events of a run over lines, which ends with status 0."""
    done = subprocess.run([*COMMAND, *options, str(zones)], input=lines, capture_output=True, timeout=LONGEST, env=environment())
    assert done.returncode == 0, done.stderr
    return [json.loads(line) for line in done.stdout.splitlines()]


def feature(id: Any, *rings: list[list[float]], **properties: Any) -> dict[str, Any]:
    """A zone of one part."""
    return {"type": "Feature", "id": id, "properties": properties, "geometry": {"type": "Polygon", "coordinates": rings}}


def square(x: float, y: float, side: float) -> list[list[float]]:
    """The ring of a square, of which this is the least corner."""
    return [[x, y], [x + side, y], [x + side, y + side], [x, y + side], [x, y]]


def write_zones(file: Path, features: Iterable[Any]) -> None:
    """In one step, since a fence may read it meanwhile."""
    beside = file.with_suffix(".new")
    beside.write_text(json.dumps({"type": "FeatureCollection", "features": [*features]}))
    beside.replace(file)


def brief(events: Iterable[Any]) -> list[tuple[Any, ...]]:
    """Of events the device, what it does, and the zone, or why it was refused."""
    return [(it.get("device"), it["event"], it.get("zone", it.get("why"))) for it in events]

"""What the tests share: the program, a service over it, random tables."""

import asyncio
import contextlib
import os
import random
import signal
import subprocess
import tempfile
from collections.abc import Callable, Iterator
from concurrent.futures import ThreadPoolExecutor
from pathlib import Path
from typing import Any, Self

import pytest
import random_runs
import reading
from served import Served
from support import PROGRAM as PROGRAM, ROOT

from rtfilter import All, Circle, Client, Covers, Inside, Near, Polygon, QueryError, Rtfilter, Smallest, Window, aio
from rtfilter.regions import count_line, find_line, nearest_line

Serve = Callable[..., Served]
Connect = Callable[..., Any]


class Calls:
    """Random queries, of which this share of the numbers is faulty, and calls of them."""

    def __init__(self, chance: random.Random, span: int, faulty: float = 0.05) -> None:
        self.chance, self.span, self.faulty = chance, span, faulty

    def one_of(self, sound: Any, faulty: Any) -> Any:
        return self.chance.choice(faulty if self.chance.random() < self.faulty else sound)

    def number(self) -> int:
        return int(self.one_of([self.chance.randint(-self.span, self.span)] * 9 + [2**31 - 1, -(2**31)], [2**31]))

    def region(self) -> Any:
        x, y, kind = self.number(), self.number(), self.chance.choice([All, Window, Window, Inside, Covers, Circle, Circle, Polygon])
        if kind is All:
            return All()
        if kind is Circle:
            return Circle(x, y, self.one_of([0, 1, 5, 9, 20, 40, 2**32 - 1], [2**32, -1]))
        if kind is Polygon:  # any corners may be valid, and too few or too many
            some = [(self.number(), self.number()) for _ in range(self.chance.choice([2, 3, 4, 17]))]
            return Polygon(self.one_of([[(x // 2, y // 2), (x // 2 + 9, y // 2 + 2), (x // 2 - 3, y // 2 + 12)]], [some]))
        sides = [*sorted([x, self.number()]), *sorted([y, self.number()])]
        return kind(*self.one_of([sides], [sides[::-1]]))

    def options(self) -> dict[str, Any]:
        """What a find may have besides its region."""
        order = self.chance.choice([None, None, Near(self.number(), self.number()), Smallest()])
        first = self.chance.choice([None, self.one_of([0, 1, 2, 3, 5, 100, 2**64 - 1], [2**64, -1])])
        return {"order": order, "first": first, "on": self.chance.choice([None, None, 0, 3, [0, 5], [1, 63], range(64)])}

    def some(self) -> tuple[str, Callable[[Any], Any]]:
        """A query line, and the call that asks the same."""
        region, options = self.region(), self.options()
        k, x, y, on = self.one_of([0, 1, 4, 30, 2**64 - 1], [-1]), self.number(), self.number(), options["on"]
        find, count = find_line(region, options["order"], options["first"], on), count_line(region, on)
        calls: list[tuple[str, Callable[[Any], Any]]] = [
            (find, lambda it: it.find(region, **options, scores=True)),
            (find, lambda it: [(id, score) for id, (_, score) in zip(it.find(region, **options), it.find(region, **options, scores=True), strict=True)]),
            (count, lambda it: it.count(region, on=on)),
            (nearest_line(k, x, y), lambda it: it.nearest(k, x, y)),
            (f"cost {find}", lambda it: it.cost_of_find(region, **options)),
            (f"cost {count}", lambda it: it.cost_of_count(region, on=on)),
        ]
        return self.chance.choice(calls)


def given_by(boxes: Any, call: Callable[[Any], Any]) -> Any:
    """What a call gives, or the code and the text of a fault."""
    try:
        return call(boxes)
    except QueryError as error:
        return error.code, error.text


def written_by_program(table: Path, lines: bytes) -> bytes:
    """What the program writes for lines over a table."""
    return subprocess.run([PROGRAM, table], input=lines, capture_output=True, timeout=120).stdout


def sound_table(chance: random.Random) -> bytes:
    """A random table without a fault, as CSV."""
    while True:
        text: bytes = random_runs.some_table(chance)
        if not isinstance(reading.boxes(text, False, 2**24), bytes):
            return text


def in_threads(count: int, work: Callable[[int], Any]) -> list[Any]:
    """What threads return that work at the same time, by their numbers. Raises what one of them raises."""
    with ThreadPoolExecutor(count) as threads:
        return [*threads.map(work, range(count))]


def in_child(work: Callable[[], bool]) -> bool:
    """Whether something holds in a child of a fork."""
    child = os.fork()
    if child == 0:
        status = 1
        try:
            status = int(not work())
        finally:
            os._exit(status)
    return os.waitpid(child, 0)[1] == 0


@pytest.fixture
def own_alarms() -> Iterator[None]:
    """The handler of SIGALRM is put back."""
    before = signal.getsignal(signal.SIGALRM)
    yield
    signal.setitimer(signal.ITIMER_REAL, 0)
    signal.signal(signal.SIGALRM, before)


@pytest.fixture
def data() -> Path:
    """The tables of the pages."""
    return ROOT / "examples/data"


@pytest.fixture
def boxes(data: Path) -> Iterator[Rtfilter]:
    with Rtfilter(data / "boxes.csv") as table:
        yield table


@pytest.fixture
def serve(tmp_path: Path) -> Iterator[Serve]:
    """Starts a service for a table."""
    with contextlib.ExitStack() as stack:
        yield lambda table, *options: stack.enter_context(Served(tempfile.mkdtemp(dir=tmp_path), table, *options))


class Awaited:
    """The client of asyncio, whose calls are waited for."""

    def __init__(self, address: Any, timeout: float | None = None) -> None:
        self._client, self._runner = aio.Client(address, timeout), asyncio.Runner()

    def __getattr__(self, name: str) -> Any:
        call = getattr(self._client, name)
        return lambda *given, **named: self._runner.run(call(*given, **named))

    def __len__(self) -> int:
        return int(self.size())

    def __enter__(self) -> Self:
        return self

    def __exit__(self, *_: Any) -> None:
        self.close()
        self._runner.close()


@pytest.fixture(params=[Client, Awaited], ids=["threads", "asyncio"])
def connect(request: Any) -> Connect:
    """Makes a client of either kind."""
    kind: Connect = request.param
    return kind


@pytest.fixture
def client(connect: Connect, serve: Serve, data: Path) -> Iterator[Client]:
    with connect(serve(data / "boxes.csv").path, timeout=20) as client:
        yield client

"""Threads, forks, interrupts, and a close in the middle of calls."""

import signal
import threading
import time
from collections.abc import Callable, Iterator
from contextlib import contextmanager
from typing import Any

import numpy
import pytest
from conftest import in_child
from support import LONGEST

from rtfilter import All, Rtfilter, Tables, Window
from rtfilter.zones import Zones

COUNT, SPAN, FORKS = 100_000, 1_000_000, 400
Work = Callable[[], None]


@pytest.fixture(scope="module")
def table() -> Rtfilter:
    chance = numpy.random.default_rng(1)
    low, size = chance.integers(0, SPAN, (COUNT, 2)), chance.integers(0, 1000, (COUNT, 2))
    return Rtfilter.from_bounds(numpy.hstack([low, low + size]))


@pytest.fixture(scope="module")
def windows() -> Any:
    low = numpy.random.default_rng(2).integers(0, SPAN, (200, 2))
    return numpy.hstack([low, low + 14_142])[:, [0, 2, 1, 3]]


@contextmanager
def threads_that(*works: Work) -> Iterator[list[BaseException]]:
    """Runs works again and again in threads, and gives what they raised."""
    raised: list[BaseException] = []
    is_over = threading.Event()

    def repeat(work: Work) -> None:
        try:
            while not is_over.is_set():
                work()
        except BaseException as error:
            raised.append(error)

    threads = [threading.Thread(target=repeat, args=[it]) for it in works]
    for it in threads:
        it.start()
    try:
        yield raised
    finally:
        is_over.set()
        for it in threads:
            it.join()


def test_children_of_forks_in_the_middle_of_calls(table: Rtfilter, windows: Any) -> None:
    single = [Window(*it) for it in windows.tolist()]
    expected = [table.find(it) for it in single]
    _, ids = table.find_each(windows)
    counts = table.count_each(windows)

    def find() -> None:
        assert [table.find(it) for it in single] == expected

    def find_many() -> None:
        assert numpy.array_equal(table.find_each(windows)[1], ids)
        assert numpy.array_equal(table.count_each(windows), counts)

    def is_right() -> bool:
        return [table.find(it) for it in single[:20]] == expected[:20] and numpy.array_equal(table.find_each(windows)[1], ids)

    with threads_that(find, find, find, find_many, find_many) as raised:
        for _ in range(FORKS):
            assert in_child(is_right)
    assert not raised


@pytest.mark.usefixtures("own_alarms")
@pytest.mark.parametrize("name", ["find_each", "nearest_each", "count_each", "holding_each", "Tables"])
def test_a_signal_is_met_between_parts(table: Rtfilter, windows: Any, name: str) -> None:
    whole = numpy.tile([[0, SPAN, 0, SPAN]], (3000, 1))
    edges = whole - numpy.array([[0, 500_000, 0, 0]])
    zones = Zones([{"type": "Polygon", "coordinates": [[(0, 0), *[(5, 0), (5, 9), (9, 9)] * 70_000, (0, 0)]]}])
    call = {
        "holding_each": lambda: zones.holding_each(numpy.full((30_000, 2), (8, 5))),
        "find_each": lambda: table.find_each(whole),
        "nearest_each": lambda: table.nearest_each(whole[:, [1, 3]], COUNT),
        "count_each": lambda: table.count_each(numpy.tile(edges, (100, 1))),
        "Tables": lambda: Tables([table] * 4).count_each(numpy.tile(edges, (100, 1))),
    }[name]

    def interrupt(*_: Any) -> None:
        raise KeyboardInterrupt

    signal.signal(signal.SIGALRM, interrupt)
    for _ in range(3):
        begun = time.monotonic()
        with pytest.raises(KeyboardInterrupt):
            signal.setitimer(signal.ITIMER_REAL, 0.05)
            call()
        assert time.monotonic() - begun < 1.5
        assert table.find(Window(*windows[0].tolist())) == table.find_each(windows[:1])[1].tolist()


def test_a_close_in_the_middle_of_calls(windows: Any) -> None:
    table = Rtfilter.from_bounds(numpy.tile([[0, 0, SPAN, SPAN]], (1000, 1)))
    all_ids = table.find(All())

    def find() -> None:
        assert table.find(All()) == all_ids

    def find_many() -> None:
        table.find_each(windows)

    with threads_that(find, find, find_many, lambda: [table.text(b"find all\n")] and None) as raised:
        time.sleep(0.2)
        table.close()
        until = time.monotonic() + LONGEST
        while len(raised) < 4 and time.monotonic() < until:
            time.sleep(0.01)
    assert len(raised) == 4 and {(type(it), str(it)) for it in raised} == {(ValueError, "the table was closed")}


def test_a_part_of_many_lets_others_run(table: Rtfilter) -> None:
    beats = 0

    def beat() -> None:
        nonlocal beats
        beats += 1
        time.sleep(0.001)

    with threads_that(beat) as raised:
        table.find_each([(0, SPAN, 0, SPAN)] * 100)
    assert not raised and beats > 10


def test_sessions_come_back(table: Rtfilter, windows: Any) -> None:
    """Each call gives its session back, also one that was refused: memory doesn't grow."""
    resident = lambda: int(open("/proc/self/statm").read().split()[1])  # noqa: E731
    for warm_up in (True, False):
        before = resident()
        for _ in range(300):
            table.find(Window(*windows[0].tolist()))
            for bad in (lambda: table.find(Window(1, 0, 0, 1)), lambda: table.find_each([(1, 0, 0, 1)])):
                with pytest.raises(ValueError):
                    bad()
        assert warm_up or (resident() - before) * 4096 < 2_000_000

"""What a fence does while it runs: zones are exchanged, signals end it, readers leave or are slow."""

import os
import queue
import random
import signal
import subprocess
import threading
from collections.abc import Callable, Iterator
from contextlib import ExitStack
from pathlib import Path
from typing import Any

import pytest
from fences import COMMAND, Running, brief, feature, square, write_zones
from support import LONGEST, environment, opened_for_writing

PARK, LAKE = feature("park", square(0, 0, 10)), feature("lake", square(20, 0, 10))
WIDER = feature("park", square(0, 0, 15), name="Park", layer="green")
LATE = "older than the last position of its device"
KEPT = "; the old zones stay"
ENDS = [it for it in (signal.SIGTERM, signal.SIGINT) if signal.getsignal(it) != signal.SIG_IGN]
Start = Callable[..., Running]


@pytest.fixture
def zones(tmp_path: Path) -> Path:
    file = tmp_path / "zones.geojson"
    write_zones(file, [PARK, LAKE])
    return file


@pytest.fixture
def start(zones: Path) -> Iterator[Start]:
    """Starts a fence."""
    with ExitStack() as stack:
        yield lambda *options: stack.enter_context(Running(zones, *options)).started()


def exchange(fence: Running, zones: Path, *features: dict[str, Any]) -> None:
    write_zones(zones, features)
    fence.process.send_signal(signal.SIGHUP)
    assert fence.errors.next() == f"rtfilter-fence: zones: {len(features)}"


def test_zones_that_change(start: Start, zones: Path) -> None:
    """A zone of the same id is the same zone; one that is there no more is left with the next position."""
    fence = start()
    fence.send("a,12,1,1", "b,25,1,1", "c,1,1,1")
    assert brief(fence.events.some(2)) == [("b", "enter", "lake"), ("c", "enter", "park")]
    exchange(fence, zones, WIDER)
    fence.send("a,12,1,2", "b,25,1,2", "c,1,1,2", "c,1,1,1")
    assert brief(fence.events.some(3)) == [("a", "enter", "park"), ("b", "leave", "lake"), ("c", "refused", LATE)]
    assert fence.ended() == (0, [])  # and nothing was loaded once more


def test_zones_that_are_not_taken(start: Start, zones: Path) -> None:
    """Those of before stay, and a later exchange is made."""
    fence = start()
    for text, why in (
        ('{"features": [{"geometry": null}]}', f"rtfilter-fence: {zones}: polygons[0]: dict is no Polygon and no MultiPolygon{KEPT}"),
        (None, f"rtfilter-fence: {zones}: No such file or directory{KEPT}"),
        ("[", f"rtfilter-fence: {zones}: no GeoJSON: Expecting value: line 1 column 2 (char 1){KEPT}"),
    ):
        zones.unlink(missing_ok=True)
        if text is not None:
            zones.write_text(text)
        fence.process.send_signal(signal.SIGHUP)
        assert fence.errors.next() == why
    fence.send("a,1,1,1")
    assert brief(fence.events.some(1)) == [("a", "enter", "park")]
    exchange(fence, zones, LAKE)
    fence.send("a,1,1,1")
    assert brief(fence.events.some(1)) == [("a", "leave", "park")]


def test_each_of_many_signals_is_met(start: Start, zones: Path) -> None:
    """Also one that comes just as the fence begins to read its input, on which nothing comes."""
    fence = start()
    zones.write_text("[")
    for _ in range(1_000):
        fence.process.send_signal(signal.SIGHUP)
        assert fence.errors.next().endswith(KEPT)
    fence.process.send_signal(signal.SIGTERM)
    assert fence.process.wait(LONGEST) == 0


def test_many_exchanges_while_positions_come(start: Start, zones: Path) -> None:
    """Each position is answered by the zones of before or of after: no event comes twice, and none is lost."""
    fence, stop = start(), threading.Event()
    seen: list[tuple[int, str, bool]] = []
    answered: queue.SimpleQueue[int] = queue.SimpleQueue()

    def ask() -> None:
        chance, inside = random.Random(8), False
        for moment in range(1, 1_000_000):
            x = chance.choice([1, 12, 50])
            fence.send(f"a,{x},1,{moment}", "marker")  # which is refused: all events up to there are written
            while (event := fence.events.some(1)[0])["event"] != "refused":
                seen.append((x, event["event"], inside))
                inside = event["event"] == "enter"
            answered.put(moment)
            if stop.is_set():
                return

    asker = threading.Thread(target=ask)
    asker.start()
    try:
        for number in range(20):
            exchange(fence, zones, WIDER if number % 2 else PARK)
            while answered.get(timeout=LONGEST) < 5 * number:
                pass
    finally:
        stop.set()
        asker.join(LONGEST)
    assert len(seen) > 20
    for x, event, was_inside in seen:
        assert (event == "enter") != was_inside
        assert event == "leave" if x == 50 else x == 12 or event == "enter"


def test_a_load_that_does_not_end(start: Start, zones: Path) -> None:
    """Positions are answered meanwhile, there is no second load beside it, and a signal ends the fence."""
    fence = start()
    pipe = zones.with_suffix(".pipe")
    os.mkfifo(pipe)
    pipe.replace(zones)
    threads = set()
    for number in range(4):
        fence.send(f"{number},1,1,1")
        assert brief(fence.events.some(1)) == [(str(number), "enter", "park")]
        threads.add(len(os.listdir(f"/proc/{fence.process.pid}/task")))
        fence.process.send_signal(signal.SIGHUP)
    assert threads == {3}, "one reads the input, one loads zones, one waits for signals"
    fence.process.send_signal(signal.SIGTERM)
    assert fence.ended() == (0, [])


def test_a_storm_of_signals(start: Start, zones: Path) -> None:
    """The last of them is followed by a load."""
    fence = start()
    for _ in range(2000):
        fence.process.send_signal(signal.SIGHUP)
    write_zones(zones, [LAKE])
    fence.process.send_signal(signal.SIGHUP)
    fence.logs("rtfilter-fence: zones: 1")
    fence.send("a,25,1,1", "a,1,1,2")
    assert brief(fence.events.some(2)) == [("a", "enter", "lake"), ("a", "leave", "lake")]
    fence.process.send_signal(signal.SIGTERM)
    assert fence.ended()[0] == 0


@pytest.mark.parametrize("number", ENDS)
def test_an_end_during_the_first_load(number: int, zones: Path) -> None:
    """Whatever the load waits for: here for somebody who writes more of the file."""
    zones.unlink()
    os.mkfifo(zones)
    with Running(zones) as fence:
        writing = opened_for_writing(zones)
        fence.process.send_signal(number)
        assert fence.ended() == (0, [])
        os.close(writing)


@pytest.mark.parametrize("number", ENDS)
def test_an_end_while_nobody_reads_events(number: int, start: Start) -> None:
    fence = start()
    os.set_blocking(fence.input.fileno(), False)
    lines = b"x\n" * 1000
    while fence.input.write(lines) == len(lines):  # until no pipe takes any more
        pass
    fence.process.send_signal(number)
    assert fence.process.wait(LONGEST) == 0


def test_a_reader_that_leaves(start: Start) -> None:
    fence = start()
    assert fence.process.stdout is not None
    fence.process.stdout.close()
    fence.send("a,1,1,1")
    assert fence.ended() == (1, ["rtfilter-fence: standard output: Broken pipe"])
    fence.process.stdout = open(os.devnull, "rb")


CLOSED = "rtfilter-fence: standard input or standard output is closed\n"


@pytest.mark.parametrize(
    ("redirected", "status", "last", "output"),
    [
        ("<&-", 1, CLOSED, ""),
        (">&-", 1, CLOSED, ""),
        ("0> /dev/null", 1, "rtfilter-fence: standard input: Bad file descriptor\n", ""),
        ("1< /dev/null", 1, "rtfilter-fence: standard output: Bad file descriptor\n", ""),
        ("2>&-", 0, "", '{"line": 1, "event": "enter", "zone": "park", "device": "a", "longitude": 1, "latitude": 1, "time": 1}\n'),
    ],
)
def test_a_stream_that_is_closed(redirected: str, status: int, last: str, output: str, zones: Path) -> None:
    """Or opened for the other direction. Messages never stand among events."""
    words = ["sh", "-c", f'exec "$@" {redirected}', "sh", *COMMAND, "--resume", "/dev/null", str(zones)]
    done = subprocess.run(words, input="a,1,1,1\n", capture_output=True, text=True, timeout=LONGEST, env=environment())
    assert (done.returncode, done.stdout, done.stderr.endswith(last)) == (status, output, True), done

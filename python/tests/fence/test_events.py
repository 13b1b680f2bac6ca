"""Events are those that shapely gives, and each line that is no position is refused with its fault."""

import math
import os
import random
import re
import signal
import subprocess
import sys
import time
from fractions import Fraction
from pathlib import Path
from typing import Any

import pytest
from fences import COMMAND, Running, brief, feature, run, square, write_zones
from support import LONGEST, ROOT, environment, printed

from rtfilter.fence import command
from rtfilter.fence.devices import Devices
from rtfilter.fence.events import Fence
from rtfilter.fence.zones import NamedZones

UNIT = 10**7  # whole units of a degree
PAGE = ROOT / "docs/fence.md"
FORM = "not DEVICE,LONGITUDE,LATITUDE,TIME or DEVICE,LONGITUDE,LATITUDE,TIME,LAYERS: the number of fields is"
DEVICE, X, TIME = "field 1, DEVICE, is no name:", "field 2, LONGITUDE, is no number:", "field 4, TIME, is no number:"
MOST = "-1.7976931348623157e+308 to 1.7976931348623157e+308"
MOST_MICROSECONDS = 40  # of processor time for a position: twice what the page says, since others may use the machine
LATE = "older than the last position of its device"
FAULTY = {
    b"d": f"{FORM} 1", b"d,1,1": f"{FORM} 3", b"d,1,1,1,x,x": f"{FORM} 6", b",1,1,1": f"{DEVICE} ''",
    b'"",1,1,1': f"{DEVICE} '\"\"'", b'"d,1,1,1': f"{DEVICE} '\"d'", b'd",1,1,1': f"{DEVICE} 'd\"'",
    b"d,1,1,": f"{TIME} ''", b"d,x,1,1": f"{X} 'x'", b"d,+1,1,1": f"{X} '+1'", b"d,01,1,1": f"{X} '01'",
    b"d,.5,1,1": f"{X} '.5'", b"d,1.,1,1": f"{X} '1.'", b'"d, e",1,y,1': "field 3, LATITUDE, is no number: 'y'",
    b"d,nan,1,1": f"{X} 'nan'", b"d,1,1,inf": f"{TIME} 'inf'", b"d,0x1,1,1": f"{X} '0x1'", b"d, 1,1,1": f"{X} ' 1'",
    b"d,1_0,1,1": f"{X} '1_0'", b"d,1,1,1\r\r": f"{TIME} '1\\r'", b"d,1,1,\xff": f"{TIME} '\ufffd'",
    b'd,1,1,1,"x"': "field 5, LAYERS, has a double quote",
    b"\xff,1,1,1": "field 1, DEVICE, has more than 64 bytes, or isn't UTF-8",
    b"x" * 65 + b",1,1,1": "field 1, DEVICE, has more than 64 bytes, or isn't UTF-8",
    b"d,180.0000001,1,1": "field 2, LONGITUDE, isn't -180 to 180: 180.0000001",
    b"d,1e400,91,1": "field 2, LONGITUDE, isn't -180 to 180: 1e400",
    b"d,1,-90.1,1": "field 3, LATITUDE, isn't -90 to 90: -90.1",
    b"d,1,1,1e999": f"field 4, TIME, isn't {MOST}: 1e999", b"d,1,1,-1e400": f"field 4, TIME, isn't {MOST}: -1e400",
    b"x" * 5000: "a line of more than 4096 bytes", b"d,1,1," + b"1" * 4091: "a line of more than 4096 bytes",
    b"d,1,1,1," + b"x" * 100_000: "a line of more than 4096 bytes",
}  # fmt: skip
MEMORY = """
import resource
from rtfilter.fence.devices import Devices
before = resource.getrusage(resource.RUSAGE_SELF).ru_maxrss
devices = Devices(1_000_000)
for number in range(1_000_000):
    devices.move(b"vehicle-%06d" % number, 1.7e9 + number, ())
print(resource.getrusage(resource.RUSAGE_SELF).ru_maxrss - before)
"""


@pytest.fixture
def zones(tmp_path: Path) -> Path:
    depot = {"type": "MultiPolygon", "coordinates": [[square(20, 0, 1)], [square(22, 0, 1)]]}
    file = tmp_path / "zones.geojson"
    write_zones(file, [
        feature("park", square(0, 0, 10), square(4, 4, 2), name="Park"),
        feature(7, square(8, 0, 10), layer="quiet"),
        {"type": "Feature", "properties": None, "geometry": depot},
    ])  # fmt: skip
    return file


def test_zones_that_are_entered_and_left(zones: Path) -> None:
    track = [(1, 1), (5, 5), (4, 5), (9, 1), (10, 1), (10.1, 1), (20.5, 0.5), (22.5, 1), (21.5, 1), (-180, 90)]
    events = run(zones, "".join(f"d,{x},{y},{at}\n" for at, (x, y) in enumerate(track)).encode())
    assert [(it["line"], it["event"], it["zone"]) for it in events] == [
        (1, "enter", "park"), (2, "leave", "park"), (3, "enter", "park"), (4, "enter", 7), (6, "leave", "park"),
        (7, "leave", 7), (7, "enter", 2), (9, "leave", 2),
    ]  # fmt: skip
    where = {"device": "d", "longitude": 9, "latitude": 1, "time": 3}
    assert events[3] == {"line": 4, "event": "enter", "zone": 7, "layer": "quiet", **where}
    assert events[0]["name"] == "Park"


@pytest.mark.parametrize("end", [b"\n", b"\r\n"])
def test_layers(end: bytes, zones: Path) -> None:
    """Those of a position, else those of the command."""
    lines = b"a,9,1,1\nb,9,1,1,quiet\nc,9,1,1,loud;quiet\nd,9,1,1,loud\nb,9,1,2,\n".replace(b"\n", end)
    assert brief(run(zones, lines)) == [
        ("a", "enter", "park"), ("a", "enter", 7), ("b", "enter", 7), ("c", "enter", 7), ("b", "enter", "park"),
    ]  # fmt: skip
    assert brief(run(zones, lines, "--on", "quiet")) == [("a", "enter", 7), ("b", "enter", 7), ("c", "enter", 7)]
    assert run(zones, b"a,9,1,1\n", "--on", "loud") == []
    assert brief(run(zones, b"a,9,1,1,Park\n", "--layer", "name")) == [("a", "enter", "park")]


def test_positions_that_are_not_taken(zones: Path) -> None:
    events = run(zones, b"d,1,1,5\nd,50,1,4.9\nd,50,1,5\nother,1,1,1\nd,1,1,5e0\nd,50,1,-1\n")
    assert brief(events) == [
        ("d", "enter", "park"), ("d", "refused", LATE), ("d", "leave", "park"), ("other", "enter", "park"), ("d", "enter", "park"),
        ("d", "refused", LATE),
    ]  # fmt: skip
    assert [it["line"] for it in events] == [1, 2, 3, 4, 5, 6]
    assert brief(run(zones, b"a,1,1,1\nb,1,1,1\nc,1,1,1\na,50,1,2\n", "--devices", "2")) == [
        ("a", "enter", "park"), ("b", "enter", "park"), ("c", "refused", "one device more than 2"), ("a", "leave", "park"),
    ]  # fmt: skip


def test_lines_that_are_no_positions(zones: Path) -> None:
    """Each is refused by its number, with the field and the word; blank lines and comments are counted. A byte order mark is no part
    of the first name."""
    sound = b'\xef\xbb\xbfd,1,1,1\n\n# d,1,1,1\n \t\r\n"a, b",1,1,1\r\n\xc3\xa9,1.5e0,1,1\n'
    events = run(zones, sound + b"".join(line + b"\n" for line in FAULTY) + b"last,1,1,1")
    assert [it["device"] for it in events[:3]] == ["d", "a, b", "\u00e9"]
    assert [it["line"] for it in events] == [1, 5, 6, *range(7, 7 + len(FAULTY) + 1)]
    assert {it["event"] for it in events[3:-1]} == {"refused"}
    assert [it["why"] for it in events[3:-1]] == [*FAULTY.values()]
    assert brief(events[-1:]) == [("last", "enter", "park")]


def test_each_read_is_answered_before_the_next(zones: Path) -> None:
    """A client that sends lines has their events before anything more is sent, and no part of a line is taken for a line."""
    with Running(zones) as fence:
        for number in range(100):
            fence.send(*(f"{number}-{at},1,1,1" for at in range(5)))
            assert [it["device"] for it in fence.events.some(5)] == [f"{number}-{at}" for at in range(5)]
            for piece in (b"part,", b"50" if number % 2 else b"1", b",1,%d" % number):
                fence.input.write(piece)
            fence.send("")
            assert brief(fence.events.some(1)) == [("part", "leave" if number % 2 else "enter", "park")]
        assert fence.ended() == (0, ["rtfilter-fence: zones: 3"])


@pytest.mark.parametrize(
    ("features", "why"),
    [
        ([feature(1, square(0, 0, 1)), feature(1, square(5, 0, 1))], "features[1]: its id is that of features[0]: 1"),
        ([feature(True, square(0, 0, 1))], "features[0]: an id that is neither a text nor a number: True"),
        ([feature(float("nan"), square(0, 0, 1))], "features[0]: an id that is neither a text nor a number: nan"),
        ([feature(1, square(0, 0, 1), layer=[1])], "features[0]: a layer that is neither a text nor a whole number: [1]"),
        ([feature(1, [[0, 0], [1, 1], [0, 0]])], "polygons[0]: a ring of 3 positions, and not 4 or more"),
        ([feature(1, [*square(0, 0, 1), [0, float("nan")]])], "polygons[0]: a ring whose last position isn't its first"),
        ([feature("a", square(0, 0, 1)), {"type": "Feature"}], "polygons[1]: dict is no Polygon and no MultiPolygon"),
        ([{"type": "Feature", "geometry": {"type": "Polygon"}}], "polygons[0]: a Polygon without coordinates"),
        ([5], "features[0]: no feature"),
        (b"[" * 100_000, "lists in lists, too deep to be read"),
        (b"{}", "no FeatureCollection"),
        (b"x", "no GeoJSON: Expecting value: line 1 column 1 (char 0)"),
        (b'"\xff"', "'utf-8' codec can't decode byte 0xff in position 1: invalid start byte"),
    ],
)
def test_zones_that_are_not_taken(features: Any, why: str, tmp_path: Path) -> None:
    file = tmp_path / "zones.geojson"
    if isinstance(features, bytes):
        file.write_bytes(features)
    else:
        write_zones(file, features)
    with Running(file) as fence:
        assert fence.ended() == (1, [f"rtfilter-fence: {file}: {why}"])


def test_layers_of_no_zone(tmp_path: Path) -> None:
    """A message says that --on names none; it comes with each load."""
    file = tmp_path / "zones.geojson"
    write_zones(file, [feature(1, square(0, 0, 1), layer=7), feature(2, square(5, 0, 1))])
    said = "rtfilter-fence: --on 99;x: no zone is on these layers; --layer names the property that has a zone's layer"
    for options, more in ((["--on", "99;7"], []), (["--on", "99;x"], [said]), ([], [])):
        with Running(file, *options) as fence:
            assert fence.ended() == (0, ["rtfilter-fence: zones: 2", *more])
    with Running(file, "--on", "99;x") as fence:
        fence.logs(said)
        for layer, more in (("x", []), ("y", [said])):
            write_zones(file, [feature(1, square(0, 0, 1), layer=layer)])
            fence.process.send_signal(signal.SIGHUP)
            assert [fence.errors.next() for _ in ["", *more]] == ["rtfilter-fence: zones: 1", *more]
        assert fence.ended() == (0, [])


def test_options(zones: Path) -> None:
    for options, why in (
        (["--devices", "0"], "argument --devices: '0' is no whole number from 1 to 1000000000000000"),
        (["--first-line", "x"], "argument --first-line: 'x' is no whole number from 1 to 1000000000000000"),
        (["--first-line", "2"], "--first-line goes with --resume"),
        (["--fast"], "unrecognized arguments: --fast"),
    ):
        done = subprocess.run([*COMMAND, *options, zones], capture_output=True, text=True, env=environment(), timeout=LONGEST)
        assert (done.returncode, done.stderr) == (2, f"rtfilter-fence: {why}; rtfilter-fence --help lists the options\n")


def test_as_shapely(tmp_path: Path) -> None:
    """All events of devices that jump about zones with holes, and of several parts, also onto their sides and corners.

    shapely reads the same whole units: degrees in floats would be rounded once more, and a position on a slanting side be taken
    for one beside it.
    """
    geometry = pytest.importorskip("shapely.geometry")
    chance = random.Random(5)
    shapes = [some_zone(chance) for _ in range(120)]
    places = [some_place(chance, shapes) for _ in range(3000)]
    by_shapely = [geometry.shape({**it, "coordinates": scaled(it["coordinates"])}) for it in shapes]
    assert all(it.is_valid for it in by_shapely)
    write_zones(tmp_path / "zones", [{"type": "Feature", "id": f"z{at}", "geometry": it} for at, it in enumerate(shapes)])
    lines: list[str] = []
    expected: list[tuple[int, str, str | None]] = []
    held: dict[str, list[int]] = {}
    last: dict[str, int] = {}
    for line, (x, y) in enumerate(places, 1):
        device, moment, point = f"d{chance.randrange(200)}", chance.randrange(5) + line // 10, geometry.Point(x, y)
        lines.append(f"{device},{degrees(x)},{degrees(y)},{moment}\n")
        if moment < last.get(device, moment):
            expected.append((line, "refused", None))
            continue
        holding = [at for at, it in enumerate(by_shapely) if it.covers(point)]
        before, last[device], held[device] = held.get(device, []), moment, holding
        expected += [(line, "leave", f"z{zone}") for zone in before if zone not in holding]
        expected += [(line, "enter", f"z{zone}") for zone in holding if zone not in before]
    events = run(tmp_path / "zones", "".join(lines).encode())
    assert [(it["line"], it["event"], it.get("zone")) for it in events] == expected
    assert sum(event == "enter" for _, event, _ in expected) > 1000
    assert sum(event == "refused" for _, event, _ in expected) > 50


def test_a_million_devices() -> None:
    done = subprocess.run([sys.executable, "-B", "-c", MEMORY], env=environment(), capture_output=True, check=True, timeout=LONGEST)
    assert int(done.stdout) * 1024 < 200e6


@pytest.mark.parametrize("size", [1, 2, 3, 7, 1000, 4095, 4096, 4097])
def test_reads_of_any_length(size: int, zones: Path, monkeypatch: pytest.MonkeyPatch) -> None:
    """Lines are the same however reads cut them, the last one without an end too."""
    text = b"a,1,1,1\n\nx\n" + b"y" * 9000 + b"\n#\n" + b" " * 5000 + b"x\nb,1,1,2\r\na,50,1,3"
    pieces, written = [text[at : at + size] for at in range(0, len(text), size)], bytearray()
    loaded = NamedZones(str(zones), "layer", "")
    with monkeypatch.context() as patched:
        patched.setattr(command.os, "read", lambda *_: pieces.pop(0) if pieces else b"")
        patched.setattr(command, "write", written.extend)
        command.answer(Fence(loaded, Devices(9)), 1)
    assert bytes(written) == Fence(loaded, Devices(9)).events(1, text.split(b"\n"))


def test_many_zones_at_one_place(tmp_path: Path) -> None:
    """A position takes no longer than in proportion to them."""
    file = tmp_path / "zones.geojson"
    write_zones(file, [feature("half", square(0, 0, 5)), *(feature(id, square(0, 0, 10)) for id in range(3000))])
    fence = Fence(NamedZones(str(file), "layer", ""), Devices(1))
    assert fence.events(1, [b"a,1,1,0"]).count(b"\n") == 3001
    begun = time.process_time()
    assert fence.events(2, [b"a,%d,1,1" % (9 - at % 2 * 8) for at in range(20)]).count(b"\n") == 20
    assert time.process_time() - begun < 2


def test_processor_time() -> None:
    """Of a position, in the best of a few runs, however long they take by the clock: others use the processor too."""
    words = [sys.executable, "-B", ROOT / "bench/tools.py", "none", "--only", "fence", "--rounds", "1"]
    found = []
    while not found or min(found) >= MOST_MICROSECONDS and len(found) < 5:
        done = subprocess.run([*map(str, words)], env=environment(), capture_output=True, text=True, check=True)
        (microseconds,) = re.findall(r"^\| fence: a position, .* \| ([0-9.]+) us \|$", done.stdout, re.MULTILINE)
        found.append(float(microseconds))
    assert min(found) < MOST_MICROSECONDS, found


def test_page(tmp_path: Path) -> None:
    script = tmp_path / "rtfilter-fence"
    script.write_text(f'#!/bin/sh\nexec {" ".join(COMMAND)} "$@"\n')
    os.chmod(script, 0o755)
    examples = [*printed(PAGE, "rtfilter-fence", str(tmp_path))]
    assert len(examples) > 3
    for typed, shown, found in examples:
        assert found == shown, typed


def degrees(units: int) -> str:
    """Whole units as a decimal."""
    sign, size = ("-" if units < 0 else ""), abs(units)
    return f"{sign}{size // UNIT}.{size % UNIT:07}"


def scaled(coordinates: Any) -> Any:
    if isinstance(coordinates, (list, tuple)):
        return [scaled(it) for it in coordinates]
    return round(Fraction(str(coordinates)) * UNIT)


def some_ring(chance: random.Random, x: float, y: float, radius: float) -> list[list[float]]:
    """A ring once around a middle, at least 0.6 of the radius away from it."""
    count = chance.randint(8, 24)
    turns = [2 * math.pi * (at + chance.uniform(0, 0.3)) / count for at in range(count)]
    reaches = [radius * chance.uniform(0.75, 1.0) for _ in turns]
    ring = [[round(x + r * math.cos(t), 7), round(y + r * math.sin(t), 7)] for r, t in zip(reaches, turns)]
    return [*ring, ring[0]]


def some_zone(chance: random.Random) -> dict[str, Any]:
    """Polygons, some with a hole, and some with a second part beside the first."""
    x, y, radius = chance.uniform(16, 17), chance.uniform(-48.5, -47.5), chance.uniform(0.01, 0.2)
    parts = [[some_ring(chance, x, y, radius)]]
    if chance.random() < 0.5:
        parts[0].append(some_ring(chance, x, y, radius / 2))
    if chance.random() < 0.3:
        parts.append([some_ring(chance, x + 2.1 * radius, y, radius)])
    return {"type": "Polygon", "coordinates": parts[0]} if len(parts) == 1 else {"type": "MultiPolygon", "coordinates": parts}


def some_place(chance: random.Random, zones: list[dict[str, Any]]) -> tuple[int, int]:
    """A place among zones: anywhere, on a corner, or on a side or as near to it as a unit allows."""
    if chance.random() < 0.6:
        return chance.randint(159000000, 172000000), chance.randint(-486000000, -474000000)
    zone = chance.choice(zones)
    ring = scaled(chance.choice(zone["coordinates"] if zone["type"] == "Polygon" else zone["coordinates"][0]))
    (ax, ay), (bx, by) = chance.choice([*zip(ring, ring[1:])])
    if chance.random() < 0.3:
        return ax, ay
    step = math.gcd(bx - ax, by - ay)
    if step > 1:
        at = chance.randint(1, step - 1)
        return ax + (bx - ax) // step * at, ay + (by - ay) // step * at
    return (ax + bx) // 2, (ay + by) // 2

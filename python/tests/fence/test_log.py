"""A log that ends early, by a kill or a full disk, becomes the log of one run, or an error names the lines."""

import os
import random
import re
import shutil
import signal
import socket
import subprocess
from pathlib import Path

import pytest
from fences import COMMAND, brief, feature, run, square, write_zones
from support import LONGEST, ROOT, environment, until

from rtfilter.fence.devices import Devices
from rtfilter.fence.events import Fence
from rtfilter.fence.log import Past, resume
from rtfilter.fence.zones import NamedZones

DEVICES = 5
ZONES = [
    feature(12, square(0, 0, 10), name="whole"), feature("11", square(2, 2, 6), name="in \u00e9"), feature(9, square(3, 3, 1)),
    feature(13, square(20, 0, 5)),
]  # fmt: skip
# A fence that reads little at once, and is killed as it writes for the nth time, after so many quarters of that.
KILLED = """
import os, runpy, signal, sys
number, quarters, *words = sys.argv[1:]
count, read, write = 0, os.read, os.write
os.read = lambda descriptor, size: read(descriptor, 400)
def killed(descriptor, text):
    global count
    count += 1
    if count == int(number):
        write(descriptor, text[: len(text) * int(quarters) // 4])
        os.kill(os.getpid(), signal.SIGKILL)
    return write(descriptor, text)
os.write = killed
sys.argv = ["rtfilter-fence", *words]
runpy.run_module("rtfilter.fence", run_name="__main__")
"""


def track(count: int, has_late: bool = True) -> bytes:
    """Positions of devices in and beside zones that lie in each other, and lines that are no positions. The last line has no
    end. Some positions are late, older than those before, and of one device too many."""
    chance = random.Random(count)
    lines = [b"# track", b"", b"no position"]
    for moment in range(count):
        x, y = chance.choice([(1, 1), (2, 2), (3, 3), (5, 5), (15, 15), (21, 1)])
        delay = chance.choice([0, 0, 0, 0, 3]) * has_late
        lines.append(b"device-%d,%d,%d,%d" % (chance.randrange(DEVICES), x, y, moment - delay))
    return b"\n".join([*lines, b"another,1,1,1" if has_late else b"#", b"device-0,1,1,1e9"])


@pytest.fixture
def zones(tmp_path: Path) -> Path:
    file = tmp_path / "zones.geojson"
    write_zones(file, ZONES)
    return file


@pytest.fixture
def log(tmp_path: Path) -> Path:
    return tmp_path / "log"


def whole_log(zones: Path, positions: bytes) -> bytes:
    """What one run writes."""
    return Fence(NamedZones(str(zones), "layer", ""), Devices(DEVICES)).events(1, positions.split(b"\n"))


def go_on(zones: NamedZones, log: Path, positions: bytes, first: int | None = None) -> bytes:
    """The log after a run that resumes it, in this process. The input begins with line `first`, or where the log goes on."""
    devices = Devices(DEVICES)
    past = resume(str(log), devices)
    devices.arrange(zones.zones)
    first, lines = past.next_line if first is None else min(first, past.next_line), positions.split(b"\n")
    fence = Fence(zones, devices, past)
    with open(log, "ab") as file:
        file.write(fence.events(first, lines[first - 1 :]))
    fence.end(len(lines))
    return log.read_bytes()


def start(
    zones: Path, log: Path, positions: bytes, *options: str, before: tuple[str, ...] = (), limit: int | None = None
) -> tuple[int, str]:
    """A fence that appends to the log, a file of at most so many bytes: its status, and what it reports."""
    words = [*(COMMAND[:2] if before else COMMAND), *before, *options, "--devices", str(DEVICES), str(zones)]
    limited = ["prlimit", f"--fsize={limit}", *words] if limit is not None else words
    with open(log, "ab") as file:
        done = subprocess.run(limited, input=positions, stdout=file, stderr=subprocess.PIPE, timeout=LONGEST, env=environment())
    return done.returncode, done.stderr.decode()


@pytest.mark.parametrize(("has_late", "first"), [(True, 1), (True, 2), (False, 3), (False, 9), (False, None)])
def test_cut_at_each_byte(has_late: bool, first: int | None, zones: Path, log: Path) -> None:
    """Each event stands there once, in the order of one run: where the input is the whole one or begins before all positions, and
    where it begins later and has no late positions."""
    positions, loaded = track(12, has_late), NamedZones(str(zones), "layer", "")
    whole = whole_log(zones, positions)
    assert len(whole) > 1500
    for length in range(len(whole) + 1):
        log.write_bytes(whole[:length])
        assert go_on(loaded, log, positions, first) == whole, length


def test_killed_at_each_write(zones: Path, log: Path) -> None:
    """Before it, in it and after it; and each that goes on is killed as well."""
    positions, loaded = track(60), NamedZones(str(zones), "layer", "")
    whole, number = whole_log(zones, positions), 1
    while True:
        for quarters in "024":
            log.unlink(missing_ok=True)
            status, _ = start(zones, log, positions, "--resume", str(log), before=("-c", KILLED, str(number), quarters))
            if status == 0:
                assert number > 4 and log.read_bytes() == whole
                return
            status, said = start(zones, log, positions, "--resume", str(log), before=("-c", KILLED, "1", "2"))
            assert status in (0, -9), said  # 0 where all was written before
            assert whole.startswith(log.read_bytes()) and go_on(loaded, log, positions, 1) == whole
        number += 1


def test_a_disk_that_fills(zones: Path, log: Path) -> None:
    """The fence ends, says why, and goes on once there is space, by the command as it is typed."""
    positions = track(200)
    whole = whole_log(zones, positions)
    for limit in (500, 4096, len(whole) - 1):
        log.write_bytes(b"")
        status, said = start(zones, log, positions, limit=limit)
        assert (status, log.read_bytes()) == (1, whole[:limit]), said
        assert said.endswith("rtfilter-fence: standard output: File too large; run it again with --resume to go on\n")
        cut = limit - (whole.rfind(b"\n", 0, limit) + 1)
        status, said = start(zones, log, positions, "--resume", str(log))
        assert (status, log.read_bytes()) == (0, whole)
        removed = f"rtfilter-fence: {log}: the last line was cut off, and is removed: {cut} bytes\n" if cut else ""
        assert said.startswith(f"{removed}rtfilter-fence: devices: "), said


def test_a_whole_log_and_none(zones: Path, log: Path) -> None:
    """Nothing is added to a whole log. A log that isn't there is an empty one."""
    positions = track(50)
    status, said = start(zones, log, positions, "--resume", str(log.with_name("none")))
    whole = log.read_bytes()
    assert (status, whole) == (0, whole_log(zones, positions)), said
    assert start(zones, log, positions, "--resume", str(log))[0] == 0 and log.read_bytes() == whole


@pytest.mark.parametrize(
    ("kept", "positions", "options", "why"),
    [
        (2, b"b,5,5,3\na,5,5,4\n", ["--first-line", "3"], "the input begins with line 3, and the log goes on from line 2"),
        (0, b"a,15,15,2\n", ["--first-line", "2"], "the input begins with line 2, and the log goes on from line 1"),
        (2, b"b,5,5,3\na,5,5,4\nb,1,1,9\n", [], "line 2 of the input isn't the one that the log answers: does the input begin with line 1?"),
        (2, b"a,1,1,1\n", [], "the input ends with line 1, and the log has line 2"),
        (2, b"a,1,1,1\n#\nb,5,5,3\n", [], "line 2 of the input isn't the one that the log answers: does the input begin with line 1?"),
        (5, b"a,1,1,1\na,15,15,2\nb,5,5,3\na,5,5,4\nb,5,5,1\nc,1,1,1\n", ["--first-line", "2"],
         "line 5 of the input isn't the one that the log answers: does the input begin with line 2?"),
    ],
)  # fmt: skip
def test_another_input(kept: int, positions: bytes, options: list[str], why: str, zones: Path, log: Path) -> None:
    """Lines that are missing, or aren't those that the log answers: an error names them, and nothing is written."""
    whole = whole_log(zones, b"a,1,1,1\na,15,15,2\nb,5,5,3\na,5,5,4\nb,5,5,1\n").splitlines(keepends=True)
    assert len(whole) >= 5
    log.write_bytes(b"".join(whole[: kept if kept < 5 else None]))
    before = log.read_bytes()
    status, said = start(zones, log, positions, "--resume", str(log), *options)
    assert (status, said.splitlines()[-1]) == (1, f"rtfilter-fence: {why}")
    assert log.read_bytes() == before


def test_zones_that_were_entered_in_another_order(zones: Path, log: Path) -> None:
    """They are left in the order of the file."""
    positions = b"a,1,1,1\na,2,2,2\na,3,3,3\nb,3,3,3\nb,2,2,4\nb,5,5,5\na,15,15,4\nb,15,15,6\n"
    write_zones(zones, [ZONES[2], ZONES[1], ZONES[0]])
    whole = whole_log(zones, positions)
    assert whole.count(b'"leave"') == 6
    log.write_bytes(b"".join(whole.splitlines(keepends=True)[:7]))
    assert go_on(NamedZones(str(zones), "layer", ""), log, positions, 1) == whole


def test_lines_that_are_no_events(zones: Path, log: Path) -> None:
    """They are skipped and counted, whatever they are."""
    event = '{"line": 1, "event": "enter", "zone": 12, "device": "a", "longitude": 1, "latitude": 1, "time": 5}'
    strays = [
        "", "x", "[" * 100_000, "5", "null", "{}", '{"event": "refused", "why": "x"}', event.replace("5", "1" + "0" * 400),
        event.replace("5", "NaN"), event.replace("5", '"x"'), event.replace("12", "[1]"), event.replace('"a"', "7"),
        event.replace('"enter"', "[]"), event.replace('"a"', r'"\ud800"'), event.replace(": 1,", ": true,", 1), "\x00\ufffd",
    ]  # fmt: skip
    log.write_text("".join(f"{line}\n" for line in [*strays, event]))
    assert resume(str(log), Devices(1)).strays == len(strays)
    events = run(zones, b"a,1,1,5\na,50,1,6\n", "--resume", str(log))
    assert brief(events) == [("a", "leave", 12)]


@pytest.mark.skipif(shutil.which("nc") is None, reason="nc: not installed")
def test_a_stream_that_cannot_be_repeated(zones: Path, log: Path) -> None:
    """The page's two commands, after both were killed within a line: it is refused, and each other line has its events once."""
    commands = re.findall(r"`(\{ echo; nc [^`]+|tail -n [^`]+)`", (ROOT / "docs/fence.md").read_text())
    folder, script = log.parent, log.with_name("rtfilter-fence")
    positions, events, path = (folder / name for name in ("positions", "events", "positions.socket"))
    script.write_text(f'#!/bin/sh\nexec {" ".join(COMMAND)} "$@"\n')
    script.chmod(0o755)
    positions.write_bytes(b"a,1,1,1\na,5")
    events.write_bytes(whole_log(zones, b"a,1,1,1\n")[:-5])
    typed = "".join(f"{command} &\n".replace("/run", str(folder)) for command in commands)
    words = {**environment(), "PATH": f"{folder}:{os.environ['PATH']}"}
    with subprocess.Popen(["bash", "-c", f"{typed} wait"], cwd=folder, env=words, stderr=subprocess.DEVNULL, process_group=0) as both:
        try:
            with socket.socket(socket.AF_UNIX) as sender:
                until(lambda: sender.connect_ex(str(path)) == 0)
                sender.sendall(b"a,50,1,2\nx\n")
                until(lambda: b'"line": 4' in events.read_bytes())
        finally:
            os.killpg(both.pid, signal.SIGKILL)
    assert positions.read_bytes() == b"a,1,1,1\na,5\na,50,1,2\nx\n"
    assert events.read_bytes() == whole_log(zones, positions.read_bytes().removesuffix(b"\n"))


@pytest.mark.parametrize("text", [b"a,1,1,1\nb,2,2", b"a,1,1,1\n", b"a,1", b'{"lines": 5', b"rtfilter-fence: zones: 4\nx\n"])
def test_a_file_that_is_no_log(text: bytes, zones: Path, log: Path) -> None:
    """It is refused, and not a byte of it is removed."""
    log.write_bytes(text)
    why = f"rtfilter-fence: {log}: no line is an event: give --resume the log of a fence\n"
    assert start(zones, log, b"a,1,1,1\n", "--resume", str(log)) == (1, why)
    assert log.read_bytes() == text


@pytest.mark.parametrize("text", [b"rtfilter-fence: zones: 4\n", b'rtfilter-fence: zones: 4\n{"line": 2, "ev', b"{"])
def test_a_log_without_events_yet(text: bytes, zones: Path, log: Path) -> None:
    """Messages that were written to the same file, and an event that was cut off, are no other file."""
    log.write_bytes(text)
    assert start(zones, log, b"a,1,1,1\n", "--resume", str(log))[0] == 0
    kept = text[: text.rfind(b"\n") + 1]
    assert log.read_bytes() == kept + whole_log(zones, b"a,1,1,1\n")


def test_a_log_in_no_folder(zones: Path, log: Path) -> None:
    """Its path is refused, since no log can be there; a log that isn't there yet is an empty one."""
    status, said = start(zones, log, b"a,1,1,1\n", "--resume", str(log / "none"))
    assert (status, said) == (1, f"rtfilter-fence: {log}/none: Not a directory\n")
    nowhere = log.with_name("nowhere") / "log"
    status, said = start(zones, log, b"a,1,1,1\n", "--resume", str(nowhere))
    why = f"rtfilter-fence: {nowhere}: its folder doesn't exist: make it, or give --resume another path\n"
    assert (status, said, log.read_bytes()) == (1, why, b"")


def test_a_log_from_a_pipe(zones: Path) -> None:
    """What comes from a pipe, whose end can't be removed, is read all the same."""
    reading, writing = os.pipe()
    os.write(writing, whole_log(zones, b"a,1,1,1\n") + b'{"line')
    os.close(writing)
    with os.fdopen(reading):
        past = resume(f"/dev/fd/{reading}", Devices(DEVICES))
    assert (past.strays, past.cut, past.next_line) == (1, 0, 1)
    assert Past().next_line == 1

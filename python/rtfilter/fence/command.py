"""The command rtfilter-fence: positions on standard input, events on standard output."""

import argparse
import os
import queue
import signal
import stat
import sys
import threading
from collections.abc import Callable
from functools import partial

from .. import __version__
from .._console import Parser, reason, say, whole
from .devices import Devices, Refused
from .events import Fence
from .log import Past, resume
from .positions import FORM, LONGEST_LINE
from .zones import NamedZones

NAME = "rtfilter-fence"
READ = 1 << 16  # bytes at once
INPUT, OUTPUT = 0, 1
MOST = 10**15  # of devices, and of lines
GO_ON = "; run it again with --resume to go on"  # if the output is a file


def arguments() -> argparse.Namespace:
    """The words of the command line."""
    parser = Parser(
        prog=NAME, description=f"Reads positions, lines {FORM}, and writes which devices enter and leave zones."
    )
    parser.add_argument("zones", metavar="ZONES", help="GeoJSON file of polygons, in degrees; SIGHUP loads it again")
    parser.add_argument("--layer", default="layer", metavar="PROPERTY", help="property that has a zone's layer (default layer)")
    parser.add_argument("--on", default="", metavar="LAYERS", help="layers of positions that name none, separated by ; (default all)")
    parser.add_argument("--devices", type=whole(1, MOST), default=1_000_000, metavar="N", help="most devices; positions of a further one are refused (default 1000000)")
    parser.add_argument("--resume", metavar="LOG", help="log of an earlier run, whose lines of the input are skipped")
    parser.add_argument("--first-line", type=whole(1, MOST), default=1, metavar="N", help="number of the first line of the input, with --resume (default 1)")
    parser.add_argument("--version", action="version", version=f"{NAME} {__version__}", help="print the version")
    args = parser.parse_args()
    if args.first_line > 1 and args.resume is None:
        parser.error("--first-line goes with --resume")
    return args


def main() -> int:
    """Runs the command. Returns its exit status."""
    requests: queue.SimpleQueue[None] = queue.SimpleQueue()
    on_signals({signal.SIGTERM: lambda: os._exit(0), signal.SIGINT: lambda: os._exit(0), signal.SIGHUP: lambda: requests.put(None)})
    args = arguments()
    # (descriptors that were closed may be those of other files by now)
    if None in (sys.stdin, sys.stdout):
        say(NAME, "standard input or standard output is closed")
        return 1
    try:
        run(args, requests)
    except (Refused, OSError, ValueError, MemoryError) as error:
        say(NAME, reason(error))
        return 1
    return 0


def on_signals(actions: dict[int, Callable[[], None]]) -> None:
    """Runs a signal's action in a thread as soon as the signal arrives.

    A Python handler would run in the main thread, which reads the input. If the signal arrives just before that read begins, the
    handler waits until there is input. The file descriptor of `set_wakeup_fd` is written at once.
    """
    arrived, wakeup = os.pipe()
    os.set_blocking(wakeup, False)
    signal.set_wakeup_fd(wakeup, warn_on_full_buffer=False)
    for number in actions:
        if number == signal.SIGHUP or signal.getsignal(number) != signal.SIG_IGN:  # (a shell's background jobs ignore SIGINT)
            signal.signal(number, lambda *_: None)

    def run_actions() -> None:
        while True:
            for number in os.read(arrived, 64):
                actions[number]()

    threading.Thread(target=run_actions, daemon=True).start()


def run(args: argparse.Namespace, requests: queue.SimpleQueue[None]) -> None:
    """Answers the input to its end, and loads the zones again at each request. Raises OSError and ValueError."""
    devices = Devices(args.devices)
    load = partial(NamedZones, args.zones, args.layer, args.on)
    past = Past() if args.resume is None else resumed(args.resume, devices)
    if args.first_line > past.next_line:
        raise ValueError(f"the input begins with line {args.first_line}, and the log goes on from line {past.next_line}")
    fence = Fence(load(), devices, past)
    devices.arrange(fence.zones.zones)
    report(fence.zones, args.on)

    def keep_loaded() -> None:
        while True:
            requests.get()
            while not requests.empty():  # one load serves all signals until now
                requests.get()
            try:
                fence.zones = load()
                report(fence.zones, args.on)
            except Exception as error:  # whatever it is: the old zones answer positions
                say(NAME, f"{reason(error)}; the old zones stay")

    threading.Thread(target=keep_loaded, daemon=True).start()
    answer(fence, args.first_line)


def report(zones: NamedZones, on: str) -> None:
    """Says how many zones are loaded, and whether the layers of `--on` are those of none."""
    say(NAME, f"zones: {len(zones.zones)}")
    if zones.lacks_layers():
        say(NAME, f"--on {on}: no zone is on these layers; --layer names the property that has a zone's layer")


def resumed(file: str, devices: Devices) -> Past:
    """What a log says, which is reported too."""
    past = resume(file, devices)
    if past.cut:
        say(NAME, f"{file}: the last line was cut off, and is removed: {past.cut} bytes")
    say(NAME, f"devices: {len(devices)}; lines that are no events: {past.strays}; goes on from line {past.next_line} of the input")
    return past


def answer(fence: Fence, number: int) -> None:
    """Answers each read of the input before the next one. The first line has this number."""
    part = b""
    while piece := read():
        *lines, part = (part + piece).split(b"\n")
        # (of a line that is too long no more is kept than shows that)
        part = part[: LONGEST_LINE + 1]
        write(fence.events(number, lines))
        number += len(lines)
    lines = [part] if part else []
    write(fence.events(number, lines))
    fence.end(number + len(lines) - 1)


def read() -> bytes:
    """Some of the input; nothing at its end. Raises ValueError if that fails."""
    try:
        return os.read(INPUT, READ)
    except OSError as error:
        raise ValueError(f"standard input: {error.strerror}") from error


def write(text: bytes) -> None:
    """Writes all of a text. Raises ValueError if that fails."""
    unwritten = memoryview(text)
    try:
        while unwritten:
            unwritten = unwritten[os.write(OUTPUT, unwritten) :]
    except OSError as error:
        is_file = stat.S_ISREG(os.fstat(OUTPUT).st_mode)
        raise ValueError(f"standard output: {error.strerror}{GO_ON if is_file else ''}") from error

"""The log of a fence, its earlier events: the zones of each device, and the line of the input from which it goes on."""

import json
import math
import os
import stat
from typing import BinaryIO, NamedTuple

from .devices import Devices
from .zones import Zone

BLOCK = 1 << 16  # bytes read at once
EVENT = b'{"line": '  # how an event begins
MESSAGE = b"rtfilter-fence: "  # how a message begins, which may be written to the same file


class Change(NamedTuple):
    """A device entered a zone, or left it."""

    zone: Zone
    is_in: bool
    longitude: float
    latitude: float
    time: float


class Event(NamedTuple):
    """A line of a log: the number of the input's line, its device if it has one, and the change; None for a refusal."""

    line: int
    device: bytes
    change: Change | None


class Past(NamedTuple):
    """What a log says, beside what it says of devices."""

    last: Event | None = None
    strays: int = 0  # lines that are no events
    cut: int = 0  # bytes of a last line that was cut off

    @property
    def next_line(self) -> int:
        """The line of the input from which a fence goes on. All lines before it are answered."""
        if self.last is None:
            return 1
        # A refusal is all that is written of its line. An event may be one of several, of which the others were lost.
        return self.last.line + (self.last.change is None)


def resume(file: str, devices: Devices) -> Past:
    """Puts devices into the zones that a log leaves them in, and removes its last line from the file if that was cut off.

    A file that isn't there is an empty log. Raises OSError, Refused for one device too many, and ValueError if there is no such
    folder, or if the file has lines of which none is an event. The file is left as it is then.
    """
    try:
        log = open(file, "rb")
    except FileNotFoundError:
        if not os.path.isdir(os.path.dirname(file) or "."):
            raise ValueError(f"{file}: its folder doesn't exist: make it, or give --resume another path") from None
        return Past()
    strays, last, is_other = 0, None, False
    with log:
        unread, cut = sizes_of(log)
        while unread > 0 and (line := log.readline()):
            unread -= len(line)
            event = event_of(line.decode(errors="replace"))
            if event is None:
                strays += 1
                is_other |= not line.startswith(MESSAGE)
                continue
            last = event
            if event.change is not None:
                devices.put_back(event.device, event.change.time, event.change.zone, event.change.is_in)
        if last is None and (is_other or cut and not EVENT.startswith(log.read(min(cut, len(EVENT))))):
            raise ValueError(f"{file}: no line is an event: give --resume the log of a fence")
    if cut:
        os.truncate(file, os.path.getsize(file) - cut)
    return Past(last, strays, cut)


def event_of(text: str) -> Event | None:
    """The event in a line of a log; None for another line."""
    try:
        it = json.loads(text)
        line, kind, device = it["line"], it["event"], it.get("device", "").encode()
        if type(line) is not int or line < 1:
            return None
        if kind == "refused":
            return Event(line, device, None)
        zone = Zone(it["zone"], it.get("name"), it.get("layer"))
        hash(zone)  # as that of a list, which is no id, can't be made
        change = Change(zone, {"enter": True, "leave": False}[kind], *(float(it[name]) for name in ("longitude", "latitude", "time")))
    except (ValueError, KeyError, TypeError, AttributeError, OverflowError, RecursionError):
        return None
    return Event(line, device, change) if math.isfinite(change.time) else None


def sizes_of(log: BinaryIO) -> tuple[float, int]:
    """How many bytes the whole lines of a log have, and how many stand behind the last line feed. All of what isn't a regular file,
    as a pipe, counts as whole lines."""
    if not stat.S_ISREG(os.fstat(log.fileno()).st_mode):
        return math.inf, 0
    size = log.seek(0, os.SEEK_END)
    whole = 0
    for start in range((size - 1) // BLOCK * BLOCK, -1, -BLOCK):
        log.seek(start)
        if found := log.read(BLOCK).rfind(b"\n") + 1:
            whole = start + found
            break
    log.seek(0)
    return whole, size - whole

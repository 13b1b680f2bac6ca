"""Starts the program with a process of its own for each connection, by a library that is loaded before the C library.

The head of `prefork.c` has the rules.
"""

import contextlib
import mmap
import os
import shutil
import socket
import struct
import subprocess
from collections.abc import Sequence
from pathlib import Path
from typing import NamedTuple

LIBRARY = "rtfilter-prefork.so"
SIZE = b"count all\n"  # what a program is asked first
REPORT = struct.Struct("ii")  # the number of a process, and its status
BEGUN = -1  # in place of a status
NUMBER = struct.Struct("Q")
COUNTS = struct.Struct("QQ")  # lines that were answered, and the nanoseconds that this took
PAGE = 4096
LOG = 2  # the descriptor of standard error


def library_of(program: "str | os.PathLike[str]") -> Path | None:
    """The library that belongs to a program: beside it, or in ../lib/rtfilter from its folder, links followed. None
    if there is no such program, or no library."""
    found = shutil.which(program)
    if found is None:
        return None
    folder = Path(found).resolve().parent
    places = folder / LIBRARY, folder.parent / "lib/rtfilter" / LIBRARY
    return next((place for place in places if place.exists()), None)


class Started(NamedTuple):
    """A program that loads its table, and then serves. Closing `control` ends it, with its connections."""

    process: subprocess.Popen[bytes]  # which leads a group of processes
    control: socket.socket  # non-blocking: `give` gives it connections, and reports come from it
    first: socket.socket  # `ok 1 SIZE` comes here once it serves; an end without that, if it never will


class Common:
    """What a starter has in common with the connections of all its programs: a page that they write to, and one that they
    read."""

    def __init__(self) -> None:
        self.file = os.memfd_create("rtfilter-common")
        os.ftruncate(self.file, 2 * PAGE)
        self._memory = mmap.mmap(self.file, 2 * PAGE)

    def metrics(self) -> dict[str, float]:
        """How many lines were answered, and the seconds from each read of lines to the next read."""
        lines, nanoseconds = COUNTS.unpack_from(self._memory)
        return {"lines_answered_total": lines, "busy_seconds_total": round(nanoseconds / 1e9, 6)}

    def end(self) -> None:
        """Has each connection end behind a line. One that waits for the next has to be woken, by an end of its input."""
        NUMBER.pack_into(self._memory, PAGE, 1)


def give(control: socket.socket, connection: socket.socket) -> None:
    """Hands a connection over. Raises `BlockingIOError` if the program has enough to take, and `ConnectionError` if it
    has ended."""
    socket.send_fds(control, [b"."], [connection.fileno()])


def start(command: Sequence[str], library: Path, errors: int, common: Common) -> Started:
    """Starts a program, and doesn't wait for it. Raises `OSError` if it can't be started.

    `errors` is the descriptor of its standard error until it serves. From then on that is this process's.
    """
    control, its_control = socket.socketpair(socket.AF_UNIX, socket.SOCK_SEQPACKET)
    first, its_first = socket.socketpair()
    with contextlib.ExitStack() as kept, its_control, its_first:
        kept.enter_context(control)
        kept.enter_context(first)
        first.sendall(SIZE)
        first.shutdown(socket.SHUT_WR)
        control.setblocking(False)
        give(control, its_first)
        with open(library) as preloaded:
            # By its descriptor: a path in this list may have neither spaces nor colons.
            paths = f"/proc/self/fd/{preloaded.fileno()} {os.environ.get('LD_PRELOAD', '')}"
            process = subprocess.Popen(
                command, bufsize=0, stdin=its_control.fileno(), stdout=LOG, stderr=errors,
                pass_fds=[preloaded.fileno(), common.file], process_group=0,
                env={**os.environ, "LD_PRELOAD": paths, "RTFILTER_COMMON": str(common.file)},
            )  # fmt: skip
        kept.pop_all()
    return Started(process, control, first)

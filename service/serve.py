#!/usr/bin/env python3
"""Holds a table with rtfilter and answers query lines over sockets: each connection is a process of the program.

The table is exchanged for what its file then holds on SIGHUP. docs/service.md has the rules.
"""

import signal

signal.pthread_sigmask(signal.SIG_BLOCK, [signal.SIGHUP, signal.SIGINT])  # they would end the process, until the service handles them

import argparse
import asyncio
import contextlib
import os
import resource
import shutil
import stat
import sys
from collections.abc import Callable, Sequence
from functools import partial
from pathlib import Path
from typing import Any, NoReturn

import prefork
from listening import given_listeners, name_of, tcp_listener, unix_listener
from service import NO_SERVICE, SIGNALS, Service, log, text_of

VERSION = "0.4.0"
LOOPBACK = "127.0.0.1"
MOST_CONNECTIONS = 1 << 20
MOST_BOXES = 1 << 24  # as the program has it
LONGEST = 1e8  # seconds, three years


def main(words: Sequence[str]) -> int:
    parser = parser_of_words()
    args = parser.parse_args(words)
    try:
        with contextlib.ExitStack() as stack:
            prepare()
            listeners = [stack.enter_context(listener) for listener in given_listeners()]
            listeners += [stack.enter_context(unix_listener(path, args.mode)) for path in args.unix]
            listeners += [stack.enter_context(tcp_listener("--tcp", *place)) for place in args.tcp]
            if not listeners:
                parser.error("nowhere to listen: --unix, --tcp, or a socket of systemd")
            health_listener = stack.enter_context(tcp_listener("--health", *args.health)) if args.health else None
            library = library_of(args.program)
            for listener in listeners:
                log(f"listening on {name_of(listener.getsockname())}")
            if health_listener:
                log(f"health on {name_of(health_listener.getsockname())}")
            start = partial(prefork.start, [args.program, *args.options, "--", args.table], library)
            return asyncio.run(Service(args, start, listeners).run(health_listener))
    except OSError as error:
        log(f"rtfilter-serve: {text_of(error)}")
    return NO_SERVICE


def library_of(program: str) -> Path:
    """The library of a program. Raises `FileNotFoundError`."""
    if shutil.which(program) is None:
        raise FileNotFoundError(f"no program {program}: name it with --program")
    library = prefork.library_of(program)
    if library is None:
        raise FileNotFoundError(f"no {prefork.LIBRARY} beside {program}, nor in ../lib/rtfilter from its folder")
    return library


def prepare() -> None:
    """Standard files are open, or what is opened next would be taken for them; a log that nobody reads keeps no process
    from its end; signals wait to be handled, whatever was ignored; there are descriptors for connections."""
    while (descriptor := os.open(os.devnull, os.O_RDWR)) <= 2:
        pass
    os.close(descriptor)
    with contextlib.suppress(OSError):  # a pipe that is another user's
        if stat.S_ISFIFO(os.fstat(2).st_mode):
            anew = os.open("/proc/self/fd/2", os.O_WRONLY | os.O_NONBLOCK)
            os.dup2(anew, 2)
            os.close(anew)
        elif stat.S_ISSOCK(os.fstat(2).st_mode):  # the journal's
            os.set_blocking(2, False)
    signal.signal(signal.SIGCHLD, signal.SIG_DFL)
    signal.pthread_sigmask(signal.SIG_SETMASK, SIGNALS)
    _, most = resource.getrlimit(resource.RLIMIT_NOFILE)
    resource.setrlimit(resource.RLIMIT_NOFILE, (most, most))


class Parser(argparse.ArgumentParser):
    """A command line. What is wrong with one is a message in one line."""

    def error(self, message: str) -> NoReturn:
        self.exit(2, f"{self.prog}: {message}; {self.prog} --help lists the options\n")


def parser_of_words() -> argparse.ArgumentParser:
    parser = Parser(prog="rtfilter-serve", description="Answers rtfilter's query lines over sockets.")
    add, seconds, octal = parser.add_argument, within(float, 0, LONGEST), partial(int, base=8)
    add("table", metavar="TABLE", help="CSV file of the boxes")
    add("--unix", metavar="PATH", action="append", default=[], help="Unix socket to listen on, replaced if nobody listens on it; may be repeated")
    add("--mode", metavar="MODE", type=within(octal, 0, 0o777, "{:o}"), default=0o600, help="mode of Unix sockets, in octal: users with write permission may connect (default 600)")
    add("--tcp", metavar="[HOST:]PORT", type=host_and_port, action="append", default=[],
        help="TCP port to listen on, 0 for any free one, [::1]:7878 for IPv6; may be repeated (default host 127.0.0.1)")  # fmt: skip
    add("--health", metavar="[HOST:]PORT", type=host_and_port, help="HTTP port of /health and /metrics")
    add("--connections", metavar="N", type=within(int, 1, MOST_CONNECTIONS), default=128, help="connections at a time, 1 to 1048576 (default 128)")
    add("--silence", metavar="SECONDS", type=seconds, default=600.0, help="time after which a silent connection is closed, 0 for never (default 600)")
    add("--patience", metavar="SECONDS", type=seconds, default=60.0, help="time that a write of replies may wait for its reader, 0 for ever (default 60)")
    add("--drain", metavar="SECONDS", type=seconds, default=300.0,
        help="time that connections may keep the old table, and write replies after SIGTERM (default 300)")  # fmt: skip
    add("--load-timeout", metavar="SECONDS", type=seconds, default=300.0, help="time that a load may take (default 300)")
    add("--program", metavar="PROGRAM", default="rtfilter", help="the program, with rtfilter-prefork.so beside it or in ../lib/rtfilter (default rtfilter, on the path)")
    add("--version", action="version", version=f"%(prog)s {VERSION}", help="print the version")
    own: dict[str, Any] = {"dest": "options", "default": []}
    add("-H", "--header", action="append_const", const="--header", help="skip the table's first record", **own)
    add("--fanout", metavar="M", action="append", type=passed_on("--fanout", 2, 64), help="most children of a node, 2 to 64 (default 16)", **own)
    add("--max-entries", metavar="N", action="append", type=passed_on("--max-entries", 1, MOST_BOXES),
        help="most boxes of the table, 1 to 16777216 (default 16777216)", **own)  # fmt: skip
    return parser


def within(kind: Callable[[str], float], least: float, most: float, written: str = "{:.10g}") -> Callable[[str], float]:
    """Reads a number in a range, whose ends are written in this form."""
    def number(word: str) -> float:
        with contextlib.suppress(ValueError):
            if least <= (found := kind(word)) <= most:
                return found
        raise argparse.ArgumentTypeError(f"{word!r} is no number from {written.format(least)} to {written.format(most)}")

    return number


def passed_on(option: str, least: int, most: int) -> Callable[[str], str]:
    """Reads a whole number in a range, and gives the option to the program."""
    number = within(int, least, most)
    return lambda word: f"{option}={number(word)}"


def host_and_port(word: str) -> tuple[str, int]:
    host, _, port = word.rpartition(":")
    return host.removeprefix("[").removesuffix("]") or LOOPBACK, int(within(int, 0, 65535)(port))


if __name__ == "__main__":
    sys.exit(main(sys.argv[1:]))

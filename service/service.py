"""The programs of a service: the one that is given new connections, and for a while another, which loads or drains."""

import asyncio
import contextlib
import errno
import os
import re
import resource
import select
import signal
import socket
import struct
import threading
import time
from argparse import Namespace
from collections import Counter, deque
from collections.abc import Callable, Mapping
from functools import partial

import health
import prefork
from listening import peer_of

PAUSE, BETWEEN_COMPLAINTS = 0.1, 10.0  # seconds before another try to accept, and before such a fault is logged again
FIRST_PAUSE, LONGEST_PAUSE = 0.1, 10.0  # seconds before a program is restarted
GRACE = 2.0  # seconds that a program has to begin what it was given
MOST_PENDING = 4  # connections that a program may have to begin yet: others wait in the backlog
RESERVED = 100  # descriptors that connections leave to loads and to health, or half of all if there are few
LONGEST_ERROR = 1 << 12  # bytes that a program writes of a load
NO_SERVICE = 1
SIGNALS = signal.SIGHUP, signal.SIGTERM, signal.SIGINT
UNREADABLE = 4  # the status of a connection that couldn't be read, or was silent for too long
NAME = "rtfilter-serve"  # how a line begins that is no reply
TOO_MANY, NOT_OPENED = "too many entries", "cannot open table"  # how the program says that

Start = Callable[[int, prefork.Common], prefork.Started]  # of a program, with a descriptor for what it writes of its load
End = asyncio.Future[int | None]  # the status of a connection's process, or None if it wasn't begun


def log(text: str) -> None:
    """One line, if it can be written without a wait. It has the time, unless the journal takes it and adds that."""
    with contextlib.suppress(OSError):
        if select.select([], [2], [], 0)[1]:
            moment = "" if is_journal(2) else time.strftime("%Y-%m-%dT%H:%M:%SZ ", time.gmtime())
            os.write(2, f"{moment}{text}\n".encode(errors="surrogateescape"))


def is_journal(descriptor: int) -> bool:
    """Whether systemd's journal takes what is written, by JOURNAL_STREAM."""
    status = os.fstat(descriptor)
    return os.environ.get("JOURNAL_STREAM") == f"{status.st_dev}:{status.st_ino}"


def reason(path: str) -> str:
    """Why a file can't be opened, behind a colon. Empty if it can."""
    try:
        os.close(os.open(path, os.O_RDONLY | os.O_NONBLOCK))
    except OSError as error:
        return f": {error.strerror}"
    return ""


def text_of(error: OSError) -> str:
    """An error without its number."""
    return f"{error.filename}: {error.strerror}" if error.filename else error.strerror or str(error)


def kill_group(leader: int) -> None:
    """Kills a process with its group, of which there is none if it was killed before it could lead one."""
    with contextlib.suppress(ProcessLookupError):
        os.killpg(leader, signal.SIGKILL)


def send_line(connection: socket.socket, text: str) -> None:
    """Sends a line to a client, if that needs no wait. No reply begins so."""
    with contextlib.suppress(OSError):
        connection.send(f"{NAME}: {text}\n".encode(), socket.MSG_DONTWAIT | socket.MSG_NOSIGNAL)


def handle_signals(loop: asyncio.AbstractEventLoop, handlers: Mapping[int, Callable[[], object]]) -> None:
    """Has the loop call the handlers of signals, from a thread of its own. The signals are blocked, so that none is
    lost however many there are."""
    with contextlib.suppress(RuntimeError):  # the loop is closed
        while True:
            loop.call_soon_threadsafe(handlers[signal.sigwait(handlers)])


def notify(text: str) -> None:
    """Reports to systemd, if that has started this (sd_notify)."""
    if path := os.environ.get("NOTIFY_SOCKET"):
        with contextlib.suppress(OSError), socket.socket(socket.AF_UNIX, socket.SOCK_DGRAM) as there:
            there.sendto(text.encode(), "\0" + path[1:] if path[0] == "@" else path)


class Table:
    """A program that holds a table, from its start to its end."""

    def __init__(self, started: prefork.Started) -> None:
        self.process, self.control, self.first = started
        self.size, self.loaded = 0, 0.0  # boxes, and when
        self.first_end = End()  # the connection that asks for the size
        self.pending = deque([self.first_end])  # connections that it has yet to begin
        self.running: dict[int, End] = {}  # connections by their processes


class Service:
    """Keeps a table behind sockets until a signal ends it."""

    def __init__(self, args: Namespace, start: Start, listeners: list[socket.socket]) -> None:
        self._args, self._start, self._listeners = args, start, listeners
        self._tables: list[Table] = []  # whose programs haven't ended: at most two
        self._table: Table | None = None  # of new connections
        self._is_reload_requested = False
        self._is_ending = self._is_end_urgent = False
        self._changed = asyncio.Event()  # any of these
        self._common = prefork.Common()
        self._open: set[socket.socket] = set()  # connections that a program was given
        self._counts = Counter(
            connections=0, connections_total=0, connections_refused_total=0, connections_not_begun_total=0,
            table_generation=0, loads_failed_total=0,
        )  # fmt: skip
        descriptors, _ = resource.getrlimit(resource.RLIMIT_NOFILE)
        self._most_connections = descriptors - min(RESERVED, descriptors // 2)  # for connections
        self._last_complaint = -BETWEEN_COMPLAINTS
        self._pause = FIRST_PAUSE
        self._status = NO_SERVICE  # if the first table isn't loaded

    async def run(self, health_listener: socket.socket | None) -> int:
        """Serves until a signal ends it, and returns the exit status."""
        loop = asyncio.get_running_loop()
        loop.set_exception_handler(lambda _, it: self._complain(f"{it['message']}: {it.get('exception')}"))
        if health_listener:
            await health.serve(health_listener, self._metrics)
        for listener in self._listeners:
            listener.setblocking(False)
            if listener.family != socket.AF_UNIX:  # connections inherit these
                listener.setsockopt(socket.IPPROTO_TCP, socket.TCP_NODELAY, 1)
                listener.setsockopt(socket.SOL_SOCKET, socket.SO_KEEPALIVE, 1)
        keeping = loop.create_task(self._keep_loaded())
        handlers = dict(zip(SIGNALS, (self._request_reload, *[partial(self._request_end, keeping)] * 2)))
        threading.Thread(target=handle_signals, args=(loop, handlers), daemon=True).start()
        await asyncio.wait([keeping])
        notify("STOPPING=1")
        self._table = None
        self._state_changed()  # clients wait for another service from now on, if systemd has the sockets
        await self._end_connections()
        await asyncio.gather(*map(self._end, self._tables))
        return 0 if keeping.cancelled() else self._status

    def _request_end(self, keeping: "asyncio.Task[None]") -> None:
        """Once, connections may still write what they have begun; the second time they are ended."""
        self._is_end_urgent = keeping.cancelling() > 0
        keeping.cancel()
        self._state_changed()

    async def _end_connections(self) -> None:
        """Has connections end once they have answered the lines that they have read, for as long as `--drain` lets them."""
        self._is_ending = True
        self._common.end()
        for connection in self._open:
            with contextlib.suppress(OSError):
                connection.shutdown(socket.SHUT_RD)
        await self._wait_until(lambda: self._is_end_urgent or not self._open, self._args.drain)

    def _request_reload(self) -> None:
        if not self._is_reload_requested:  # else it is one of a storm of signals, which are to cost little
            if len(self._tables) > 1:
                log(f"the exchange waits until another one is over: {self._exchange()}")
            self._is_reload_requested = True
            self._state_changed()

    def _exchange(self) -> str:
        """What an exchange waits for."""
        old, fresh = self._tables[0], self._tables[-1]
        if fresh is not self._table:
            return f"a table is loaded, for at most {self._args.load_timeout:g} seconds (--load-timeout)"
        return f"connections to the old table: {len(old.running)}, for at most {self._args.drain:g} seconds (--drain)"

    def _state_changed(self) -> None:
        """Wakes what waits for a state. Connections are accepted only while a table can take them at once: else they
        stay in the backlog."""
        loop = asyncio.get_running_loop()
        for listener in self._listeners:
            if self._accepting_table():
                loop.add_reader(listener, self._accept, listener)
            else:
                loop.remove_reader(listener)
        self._changed.set()
        self._changed.clear()

    async def _wait_until(self, is_so: Callable[[], object], most: float | None = None) -> None:
        """Waits until something is so, or for a number of seconds."""
        with contextlib.suppress(TimeoutError):
            async with asyncio.timeout(most):
                while not is_so():
                    await self._changed.wait()

    async def _keep_loaded(self) -> None:
        """Loads the table, and again when asked to, or if its program has ended, after a pause that grows unless that
        has run for a while. A request for another table ends that. Where it can't be loaded, nothing changes."""
        try:
            await self._load("ready")
        except OSError as error:
            return log(text_of(error))
        while True:
            await self._wait_until(lambda: self._table is None or self._is_reload_requested and len(self._tables) == 1)
            if self._table is None:
                await self._wait_until(lambda: self._is_reload_requested, self._pause)
            self._pause = FIRST_PAUSE if self._is_reload_requested else min(2 * self._pause, LONGEST_PAUSE)
            self._is_reload_requested = False
            notify(f"RELOADING=1\nMONOTONIC_USEC={time.monotonic_ns() // 1000}")
            try:
                await self._load("ready again")
            except OSError as error:
                self._counts["loads_failed_total"] += 1
                log(f"the new table isn't taken, {'the old one stays' if self._table else 'there is none'}: {text_of(error)}")
                notify("READY=1")

    async def _load(self, what: str) -> None:
        """Has a program load the table, and then answer. Raises `OSError` if it doesn't."""
        reply = b""
        with open(os.memfd_create("rtfilter-errors"), "rb") as errors:
            try:
                table = Table(self._start(errors.fileno(), self._common))
            except OSError as error:
                raise ChildProcessError(f"the program can't be started: {text_of(error)}") from None
            asyncio.get_running_loop().add_reader(table.control, self._read_reports, table)
            self._tables.append(table)
            with table.first, contextlib.suppress(BlockingIOError, ConnectionError):  # it hasn't answered, nor read
                is_over, _ = await asyncio.wait([table.first_end], timeout=self._args.load_timeout)
                reply = table.first.recv(100, socket.MSG_DONTWAIT)
            found = re.fullmatch(rb"ok 1 (\d+)\n", reply)
            if found and table in self._tables:  # it hasn't ended since
                table.size, table.loaded = int(found[1]), time.monotonic()
                self._counts["table_generation"] += 1
                return self._switch_to(table, what)
            await self._end(table)
            said = os.pread(errors.fileno(), LONGEST_ERROR, 0).decode(errors="replace")
        self._status = max(table.process.returncode, NO_SERVICE)
        if not is_over:
            raise ChildProcessError(f"{self._args.table}: not loaded in {self._args.load_timeout:g} seconds")
        raise ChildProcessError(self._fault(table, " ".join(said.split())))

    def _fault(self, table: Table, said: str) -> str:
        """Why a table isn't loaded whose program wrote this, and has ended."""
        if status := table.first_end.result():
            why = os.strerror(-status) if status < 0 else f"status {os.waitstatus_to_exitcode(status)}"
            return f"it can't serve a connection: {why}"
        if " table" in said:  # else it is about the options
            said = f"{self._args.table}: {said.removeprefix('rtfilter: ')}"
        if TOO_MANY in said:
            said += "; docs/scaling.md says what holds more boxes"
        if said.endswith(NOT_OPENED):
            said += reason(self._args.table)
        return said or f"the program has ended, with status {table.process.returncode}"

    def _switch_to(self, table: Table, what: str) -> None:
        """Gives new connections to a table from now on. The one before keeps its own."""
        if self._table:
            what = "the table is exchanged"
            asyncio.create_task(self._drain(self._table))  # what it waits for keeps it
        self._table = table
        log(f"{what}: {table.size} boxes")
        notify(f"READY=1\nSTATUS={table.size} boxes")
        self._state_changed()

    async def _drain(self, old: Table) -> None:
        """Leaves a table to its connections for a while. A program that doesn't begin what it was given is ended."""
        await self._wait_until(lambda: not old.pending, GRACE)
        await self._wait_until(lambda: old.pending or not old.running, self._args.drain)
        if old.running:
            log("the connections that are left to the old table are ended")
        await self._end(old)

    async def _end(self, table: Table) -> None:
        """Ends a program with its connections."""
        if table in self._tables:
            kill_group(table.process.pid)
            await self._wait_until(lambda: table not in self._tables)

    def _read_reports(self, table: Table) -> None:
        """Reads what a program reports of its connections, as `prefork.c` has it, and reaps it at its end."""
        was_accepting = table is self._accepting_table()  # and nothing waits for what it reports
        with contextlib.suppress(BlockingIOError, ConnectionResetError):  # a reset comes before what there is to read
            while report := table.control.recv(prefork.REPORT.size):
                self._handle_report(table, *prefork.REPORT.unpack(report))
            self._reap(table)
        if not was_accepting or table is not self._table:
            self._state_changed()

    def _handle_report(self, table: Table, process: int, status: int) -> None:
        if process < 0:
            table.pending.popleft().set_result(-status)
        elif status == prefork.BEGUN:
            table.running[process] = table.pending.popleft()
        else:
            table.running.pop(process).set_result(status)

    def _reap(self, table: Table) -> None:
        """Kills what is left of a program's group, its connections too, and waits for it."""
        asyncio.get_running_loop().remove_reader(table.control)
        table.control.close()
        kill_group(table.process.pid)
        status = table.process.wait()
        with contextlib.suppress(ChildProcessError):  # its connections are this process's only if that is process 1
            while True:
                os.waitpid(-table.process.pid, 0)
        self._tables.remove(table)
        while table.pending:
            table.pending.popleft().set_result(None)
        while table.running:
            table.running.popitem()[1].set_result(signal.SIGKILL)
        if table is self._table:
            self._table = None
            log(f"the program has ended, with status {status}: new connections wait until another is loaded")
            if time.monotonic() - table.loaded > LONGEST_PAUSE:
                self._pause = FIRST_PAUSE

    def _accepting_table(self) -> Table | None:
        """The table whose program may be given a connection now, if there is one."""
        return self._table if self._table and len(self._table.pending) < MOST_PENDING else None

    def _accept(self, listener: socket.socket) -> None:
        """Accepts a connection. Where there is no descriptor for it, it is tried again after a pause."""
        loop = asyncio.get_running_loop()
        try:
            if self._counts["connections"] >= self._most_connections:
                raise OSError(errno.EMFILE, os.strerror(errno.EMFILE))
            loop.create_task(self._serve(*listener.accept()))  # what that waits for keeps it
        except (BlockingIOError, ConnectionAbortedError):  # it has been closed meanwhile
            pass
        except OSError as error:
            loop.remove_reader(listener)
            loop.call_later(PAUSE, self._state_changed)
            self._complain(f"no connection accepted: {error.strerror}")

    def _complain(self, text: str) -> None:
        """Logs what may be wrong at each connection, now and then."""
        if time.monotonic() >= self._last_complaint + BETWEEN_COMPLAINTS:
            self._last_complaint = time.monotonic()
            log(text)

    async def _serve(self, connection: socket.socket, address: object) -> None:
        """Serves a connection to its end. The socket stays open here until that is counted: a client that sees the end of one
        may open another."""
        begun = time.monotonic()
        self._counts.update(("connections", "connections_total"))
        name = f"connection {self._counts['connections_total']} ({peer_of(connection, address)})"
        if self._counts["connections"] > self._args.connections:
            self._counts["connections_refused_total"] += 1
            how = f"refused, there are {self._args.connections} connections"
            send_line(connection, how)
        elif (status := await self._exit_status_of(connection)) < 0:
            self._counts["connections_not_begun_total"] += 1
            how = f"not begun: {os.strerror(-status)}"
        else:
            code = os.waitstatus_to_exitcode(status)
            kind, code = ("status", code) if code >= 0 else ("signal", -code)
            self._counts[f'connections_ended_total{{{kind}="{code}"}}'] += 1
            how = f"{kind}={code} seconds={time.monotonic() - begun:.3f}"
            could_be_silent = not self._is_ending and 0 < self._args.silence <= time.monotonic() - begun
            if kind == "status" and code == UNREADABLE and could_be_silent:
                send_line(connection, f"silent for {self._args.silence:g} seconds")
        self._counts["connections"] -= 1
        with contextlib.suppress(OSError), connection:
            connection.shutdown(socket.SHUT_RDWR)  # a process that was killed may hold it for a moment yet
        log(f"{name}: {how}")

    async def _exit_status_of(self, connection: socket.socket) -> int:
        """The wait status of a connection's process; below 0, why there was none. A connection that a program hadn't
        begun when it ended is given to the next."""
        try:
            for option, most in (socket.SO_RCVTIMEO, self._args.silence), (socket.SO_SNDTIMEO, self._args.patience):
                connection.setsockopt(socket.SOL_SOCKET, option, struct.pack("ll", int(most), int(most % 1 * 1e6)))
            while True:
                while not (table := self._accepting_table()):
                    await self._changed.wait()
                with contextlib.suppress(ConnectionError):  # it has just ended, and nothing is begun
                    prefork.give(table.control, connection)
                table.pending.append(end := End())
                self._open.add(connection)
                if not self._accepting_table():
                    self._state_changed()
                status = await end
                self._open.discard(connection)
                if not self._open:
                    self._state_changed()  # the service may wait for the last one, in order to end
                if status is not None:
                    return status
        except OSError as error:
            return -(error.errno or errno.EIO)
        except asyncio.CancelledError:  # the service ends
            return signal.SIGKILL

    def _metrics(self) -> dict[str, float]:
        counts: dict[str, float] = {**self._counts, **self._common.metrics()}
        if self._table is None:
            return {"ready": 0, **counts}
        age = round(time.monotonic() - self._table.loaded, 3)
        return {"ready": 1, "boxes": self._table.size, "table_age_seconds": age, **counts}

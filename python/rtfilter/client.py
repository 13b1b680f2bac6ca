"""A table that a service holds, over a socket."""

import os
import select
import socket
import threading
import time
from collections.abc import Iterable, Iterator
from contextlib import contextmanager, suppress
from typing import Any, Union

from .calls import SingleCalls
from .errors import Disconnected, TimedOut
from .regions import All, Layers, Order, Region, count_line, find_line, nearest_line
from .replies import Answers, Question, Read, Reply, answers_of, is_whole, line_question, lines_question, reason, text_question

Address = Union[str, "os.PathLike[str]", tuple[str, int]]
"""Where a service listens: the path of a Unix socket, or the host and the port of a TCP socket."""

PIECE = 65_536  # bytes
PAUSE = 0.002  # seconds between two tries to connect to a service that has many waiting
LONGEST_WAIT = 2e6  # seconds: poll takes milliseconds of 32 bits


class Deadline:
    """The end of a call, this many seconds from now; None is no end."""

    def __init__(self, seconds: float | None) -> None:
        self._seconds = seconds
        self._until = None if seconds is None else time.monotonic() + seconds

    def left(self) -> float | None:
        """The seconds that are left, or as many as a wait may have. Raises TimedOut if none are."""
        if self._until is None:
            return None
        left = self._until - time.monotonic()
        if left <= 0:
            raise TimedOut(f"no reply in {self._seconds} seconds")
        return min(left, LONGEST_WAIT)


class Connection:
    """A connection to a service, for one call at a time."""

    def __init__(self, address: Address, deadline: Deadline) -> None:
        self._name = name_of(address)
        self._socket = connected(address, deadline)
        self._socket.setblocking(False)
        self.lines = 0  # how many were sent

    def is_lost(self) -> bool:
        """Whether the service closed it, as far as is known between two calls."""
        return is_readable(self._socket)

    def exchange(self, question: Question[Read], deadline: Deadline) -> Read:
        """What the replies to a question say."""
        first, self.lines = self.lines + 1, self.lines + question.lines
        received, unsent = bytearray(), memoryview(question.text)
        poll = select.poll()
        while not is_whole(received, self.lines):
            unsent = unsent[self._sent(unsent) :]
            poll.register(self._socket, select.POLLIN | (select.POLLOUT if unsent else 0))
            left = deadline.left()
            for _, events in poll.poll(None if left is None else left * 1000 + 1):
                if events & ~select.POLLOUT:
                    received += self._received(received)
        return question.read(bytes(received), first)

    def _sent(self, unsent: memoryview) -> int:
        """How many bytes were sent. All, if the service closed the connection: the next read finds out why."""
        try:
            return self._socket.send(unsent) if unsent else 0
        except BlockingIOError:
            return 0
        except ConnectionError:
            return len(unsent)

    def _received(self, before: bytearray) -> bytes:
        try:
            piece = self._socket.recv(PIECE)
        except BlockingIOError:
            return b""
        except ConnectionError:
            piece = b""
        if not piece:
            raise Disconnected(f"the service at {self._name} closed the connection{reason(before)}")
        return piece

    def close(self) -> None:
        self._socket.close()


class Client(SingleCalls):
    """A table that a service holds. The calls are those of `Rtfilter`.

    Threads may share a client, whose connection answers one call at a time. `timeout` is how many seconds a call may take,
    with all of its waits, but for the look-up of a host's name. A call that ends early closes the connection, and the next call
    reconnects; so does one after the service closed it. Raises OSError if there is no service, Disconnected if it closes the
    connection during a call, TimedOut if it doesn't answer in time, and RuntimeError in a child of a fork.
    """

    def __init__(self, address: Address, timeout: float | None = None) -> None:
        self._address, self._timeout, self._process = address, timeout, os.getpid()
        # (one that knows its thread: a signal's handler may raise before `acquire` has returned that it has it)
        self._lock = threading.RLock()
        self._caller: int | None = None  # the thread that is in a call
        self._is_closed = False
        self._connection: Connection | None = Connection(address, Deadline(timeout))  # None during a call

    def __reduce__(self) -> str:
        raise TypeError("a client can't be pickled: make one in each process")

    def __len__(self) -> int:
        """How many boxes there are."""
        return self.count(All())

    def nearest(self, k: int, x: int, y: int) -> list[tuple[int, int]]:
        answers = self._single(nearest_line(k, x, y))
        return [*zip(answers.ids, answers.scores)]

    def count(self, region: Region, *, on: Layers | None = None) -> int:
        return self._single(count_line(region, on)).total

    def cost_of_find(
        self, region: Region, order: Order | None = None, first: int | None = None, *, on: Layers | None = None
    ) -> int:
        """How many nodes of the tree such a find opens."""
        return self._single(f"cost {find_line(region, order, first, on)}").total

    def cost_of_count(self, region: Region, *, on: Layers | None = None) -> int:
        """How many nodes of the tree such a count opens."""
        return self._single(f"cost {count_line(region, on)}").total

    def levels(self) -> list[tuple[int, int]]:
        """The levels of the tree from the top, each with how many nodes it has."""
        answers = self._single("levels")
        return [*zip(answers.ids, answers.scores)]

    def text(self, lines: bytes) -> bytes:
        """What the program writes for the bytes of query lines."""
        return self._exchange(text_question(lines))

    def replies(self, lines: Iterable[str]) -> list[Reply]:
        """The replies to query lines, as `Rtfilter.replies` gives them."""
        return self._exchange(lines_question(lines))

    def close(self) -> None:
        """Closes the connection, at the end of a call that is under way. Later calls raise ValueError."""
        self._is_closed = True
        try:
            if self._lock.acquire(blocking=False):  # else the call that has it does this
                self._drop()
        finally:
            try:
                self._lock.release()
            except RuntimeError:  # another thread has it
                pass

    def _find(self, region: Region, order: Order | None, first: int | None, on: Layers | None, scores: bool) -> list[Any]:
        answers = self._single(find_line(region, order, first, on))
        return [*zip(answers.ids, answers.scores)] if scores else answers.ids

    def _single(self, line: str) -> Answers:
        return answers_of(self._exchange(line_question(line)))

    def _exchange(self, question: Question[Read]) -> Read:
        """What the replies to a question say."""
        deadline, caller = Deadline(self._timeout), threading.get_ident()
        self._check()
        left = deadline.left()
        try:
            if not self._lock.acquire(timeout=-1 if left is None else left):
                deadline.left()
                raise TimedOut("another call took too long")
            self._caller = caller
            self._check_open()
            return self._answered(question, deadline)
        finally:
            # (without a call before the lock's own, at which a signal would be handled)
            if self._caller == caller:
                self._caller = None
            try:
                self._lock.release()
            except RuntimeError:  # another thread has it
                pass
            if self._is_closed:
                self.close()

    def _answered(self, question: Question[Read], deadline: Deadline) -> Read:
        """The same, by the thread that has the lock. What breaks it off leaves no connection, on which replies would still come."""
        connection = self._connected(deadline)
        self._connection = None
        try:
            found = connection.exchange(question, deadline)
        except BaseException:
            connection.close()
            raise
        self._connection = connection
        return found

    def _check(self) -> None:
        if os.getpid() != self._process:
            raise RuntimeError(f"the client belongs to process {self._process}: make another one after a fork")
        self._check_open()
        if self._caller == threading.get_ident():
            raise RuntimeError("a call in the middle of another one of the same thread")

    def _check_open(self) -> None:
        if self._is_closed:
            raise ValueError("the client was closed")

    def _connected(self, deadline: Deadline) -> Connection:
        if self._connection is not None and self._connection.is_lost():
            self._drop()
        if self._connection is None:
            self._connection = Connection(self._address, deadline)
        return self._connection

    def _drop(self) -> None:
        connection, self._connection = self._connection, None
        if connection is not None:
            connection.close()


def name_of(address: Address) -> str:
    """An address in the text of an error. Raises TypeError for what is none."""
    if isinstance(address, tuple) and len(address) == 2:
        return "{}:{}".format(*address)
    if not isinstance(address, (str, os.PathLike)):
        raise TypeError(f"an address is the path of a socket or (host, port), and not {address!r:.50}")
    return os.fspath(address)


@contextmanager
def connecting_to(address: Address) -> Iterator[None]:
    """A block that connects: its errors name the address."""
    try:
        yield
    except TimedOut:
        raise
    except TimeoutError:
        raise TimedOut(f"no connection to {name_of(address)} in time") from None
    except OSError as error:
        if error.errno:  # (else its text says all)
            error.filename = name_of(address)
        raise


def is_readable(file: Any) -> bool:
    """Whether something has come on a connection, or its end."""
    poll = select.poll()
    poll.register(file, select.POLLIN)
    return bool(poll.poll(0))


def connected(address: Address, deadline: Deadline) -> socket.socket:
    """A socket that is connected, by the first address of a host that takes it. Raises OSError with the address."""
    with connecting_to(address):
        *others, last = _places_of(address)
        for family, place in others:
            with suppress(OSError):
                return _connected(family, place, deadline)
        return _connected(*last, deadline)


def _places_of(address: Address) -> list[tuple[int, Any]]:
    """Where to connect to: families and addresses of sockets."""
    if isinstance(address, tuple):
        return [(family, place) for family, _, _, _, place in socket.getaddrinfo(*address, type=socket.SOCK_STREAM)]
    return [(socket.AF_UNIX, os.fspath(address))]


def _connected(family: int, place: Any, deadline: Deadline) -> socket.socket:
    """A socket that is connected. A service at a Unix socket that has many waiting is tried again."""
    found = socket.socket(family)
    try:
        if family != socket.AF_UNIX:
            found.setsockopt(socket.IPPROTO_TCP, socket.TCP_NODELAY, 1)
        while True:
            try:
                found.settimeout(deadline.left())
                found.connect(place)
                return found
            except BlockingIOError:
                time.sleep(PAUSE)
    except BaseException:
        found.close()
        raise

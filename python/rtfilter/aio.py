"""A table that a service holds, with asyncio.

    async with aio.Client("boxes.socket") as boxes:
        print(await boxes.find(Window(0, 10, 0, 10)))

A table in this process needs none of this: call it, or `asyncio.to_thread` for what takes long.
"""

import asyncio
import os
import socket
from collections.abc import Iterable
from types import TracebackType
from typing import Any, Self

from .client import PAUSE, Address, connecting_to, is_readable, name_of
from .errors import Disconnected, TimedOut
from .regions import All, Layers, Order, Region, count_line, find_line, nearest_line
from .replies import Answers, Question, Read, Reply, answers_of, is_whole, line_question, lines_question, reason, text_question


class Connection(asyncio.Protocol):
    """A connection to a service, for one call at a time."""

    def __init__(self) -> None:
        self._received = bytearray()
        self._has_ended = False
        self._news = asyncio.Event()
        self.lines = 0  # how many were sent

    def connection_made(self, transport: Any) -> None:
        self._transport = transport

    def data_received(self, data: bytes) -> None:
        self._received += data
        self._news.set()

    def connection_lost(self, error: Exception | None) -> None:
        self._has_ended = True
        self._news.set()

    def is_lost(self) -> bool:
        """Whether the service closed it, or said something between two calls: the loop may not know it yet."""
        return self._has_ended or bool(self._received) or is_readable(self._transport.get_extra_info("socket"))

    async def exchange(self, question: Question[Read], name: str) -> Read:
        """What the replies to a question say."""
        first, self.lines = self.lines + 1, self.lines + question.lines
        self._transport.write(question.text)
        while not is_whole(self._received, self.lines):
            if self._has_ended:
                raise Disconnected(f"the service at {name} closed the connection{reason(self._received)}")
            self._news.clear()
            await self._news.wait()
        replies, self._received = bytes(self._received), bytearray()
        return question.read(replies, first)

    def close(self) -> None:
        self._transport.close()


class Client:
    """A table that a service holds. The calls and errors are those of `rtfilter.Client`.

    It connects with its first call. Its connection answers one call at a time, in the order of the calls, all of which are made in
    one event loop. A call that is cancelled or takes longer than `timeout` seconds closes the connection, and the next call
    connects again.
    """

    def __init__(self, address: Address, timeout: float | None = None) -> None:
        name_of(address)  # which raises TypeError for none
        self._address, self._timeout, self._process = address, timeout, os.getpid()
        self._lock = asyncio.Lock()
        self._connection: Connection | None = None
        self._is_closed = False

    def __reduce__(self) -> str:
        raise TypeError("a client can't be pickled: make one in each process")

    async def __aenter__(self) -> Self:
        return self

    async def __aexit__(
        self, kind: type[BaseException] | None, error: BaseException | None, trace: TracebackType | None
    ) -> None:
        await self.close()

    async def size(self) -> int:
        """How many boxes there are."""
        return await self.count(All())

    async def find(
        self,
        region: Region,
        order: Order | None = None,
        first: int | None = None,
        *,
        on: Layers | None = None,
        scores: bool = False,
    ) -> list[Any]:
        """The ids of the boxes that a region accepts, in order, or with `scores` pairs (id, score)."""
        answers = await self._single(find_line(region, order, first, on))
        return [*zip(answers.ids, answers.scores)] if scores else answers.ids

    async def nearest(self, k: int, x: int, y: int) -> list[tuple[int, int]]:
        """The k boxes nearest to a point: pairs of an id and the square of the distance."""
        answers = await self._single(nearest_line(k, x, y))
        return [*zip(answers.ids, answers.scores)]

    async def count(self, region: Region, *, on: Layers | None = None) -> int:
        """How many boxes a region accepts."""
        return (await self._single(count_line(region, on))).total

    async def cost_of_find(
        self, region: Region, order: Order | None = None, first: int | None = None, *, on: Layers | None = None
    ) -> int:
        """How many nodes of the tree such a find opens."""
        return (await self._single(f"cost {find_line(region, order, first, on)}")).total

    async def cost_of_count(self, region: Region, *, on: Layers | None = None) -> int:
        """How many nodes of the tree such a count opens."""
        return (await self._single(f"cost {count_line(region, on)}")).total

    async def levels(self) -> list[tuple[int, int]]:
        """The levels of the tree from the top, each with how many nodes it has."""
        answers = await self._single("levels")
        return [*zip(answers.ids, answers.scores)]

    async def text(self, lines: bytes) -> bytes:
        """What the program writes for the bytes of query lines."""
        return await self._exchange(text_question(lines))

    async def replies(self, lines: Iterable[str]) -> list[Reply]:
        """The replies to query lines, as `Rtfilter.replies` gives them."""
        return await self._exchange(lines_question(lines))

    async def close(self) -> None:
        """Closes the connection. Later calls raise ValueError, and one that is under way Disconnected."""
        self._is_closed = True
        self._drop()

    async def _single(self, line: str) -> Answers:
        return answers_of(await self._exchange(line_question(line)))

    async def _exchange(self, question: Question[Read]) -> Read:
        """What the replies to a question say."""
        if os.getpid() != self._process:
            raise RuntimeError(f"the client belongs to process {self._process}: make another one after a fork")
        try:
            async with asyncio.timeout(self._timeout), self._lock:
                if self._is_closed:
                    raise ValueError("the client was closed")
                return await self._answered(question)
        except TimedOut:
            raise
        except TimeoutError:
            raise TimedOut(f"no reply in {self._timeout} seconds") from None

    async def _answered(self, question: Question[Read]) -> Read:
        """The same, by the task that has the lock. What breaks it off leaves no connection, on which replies would still come."""
        try:
            connection = await self._connected()
            return await connection.exchange(question, name_of(self._address))
        except BaseException:
            self._drop()
            raise

    async def _connected(self) -> Connection:
        if self._connection is not None and self._connection.is_lost():
            self._drop()
        if self._connection is None:
            self._connection = await _opened(self._address)
            if self._is_closed:
                self._connection.close()
        return self._connection

    def _drop(self) -> None:
        connection, self._connection = self._connection, None
        if connection is not None:
            connection.close()


async def _opened(address: Address) -> Connection:
    """A connection. Raises OSError with the address."""
    loop = asyncio.get_running_loop()
    with connecting_to(address):
        if isinstance(address, tuple):
            _, connection = await loop.create_connection(Connection, *address)
        else:
            _, connection = await loop.create_unix_connection(Connection, sock=await _connected_here(os.fspath(address)))
        return connection


async def _connected_here(path: str) -> socket.socket:
    """A Unix socket that is connected. A service that has many waiting is tried again."""
    found = socket.socket(socket.AF_UNIX)
    try:
        found.setblocking(False)
        while True:
            try:
                found.connect(path)
                return found
            except BlockingIOError:
                await asyncio.sleep(PAUSE)
    except BaseException:
        found.close()
        raise

"""A service over its socket: its ends, its silence, its absence."""

import asyncio
import errno
import math
import os
import pickle
import random
import resource
import signal
import socket
import threading
import time
from collections.abc import Callable, Iterator
from contextlib import ExitStack, suppress
from pathlib import Path
from typing import Any

import numpy
import pytest
from conftest import Connect, Serve, in_child, in_threads

from rtfilter import All, Client, Disconnected, QueryError, Rtfilter, RtfilterError, Tables, TimedOut, Window, aio

REASON = b"rtfilter-serve: silent for 600 seconds\n"


class Fake:
    """A service that does with each connection what a function does."""

    def __init__(self, path: Path) -> None:
        self.path = path
        self.acts: list[Any] = []
        self.received, self.closed = threading.Event(), threading.Event()  # a query; a connection
        self._socket = socket.socket(socket.AF_UNIX)
        self._socket.bind(str(path))
        self._socket.listen()
        self._thread = threading.Thread(target=self._serve, daemon=True)
        self._thread.start()

    def _serve(self) -> None:
        while True:
            try:
                connection, _ = self._socket.accept()
            except OSError:
                return
            with connection, suppress(ConnectionError):
                self.acts.pop(0)(connection)
            self.closed.set()

    def be_silent(self, connection: socket.socket) -> None:
        """Reads until the other side ends, and notes that something came."""
        while connection.recv(1000):
            self.received.set()

    def close(self) -> None:
        self._socket.shutdown(socket.SHUT_RDWR)
        self._socket.close()
        self._thread.join()


@pytest.fixture
def fake(tmp_path: Path) -> Iterator[Fake]:
    fake = Fake(tmp_path / "fake")
    yield fake
    fake.close()


def answer(connection: socket.socket) -> None:
    """Answers lines of `count all` with 7 until the other side ends."""
    number = 0
    for _ in connection.makefile("rb"):
        number += 1
        connection.sendall(b"ok %d 7\n" % number)


def say(text: bytes) -> Any:
    """Reads once, writes a text and closes."""

    def act(connection: socket.socket) -> None:
        connection.recv(1000)
        connection.sendall(text)

    return act


def alarm(fake: Fake, call: Callable[[], None]) -> None:
    """Makes a call in a handler of a signal, once a query has come: again and again, since a signal that comes just before a wait
    is handled after the wait."""

    def handle(*_: Any) -> None:
        if fake.received.is_set():
            signal.setitimer(signal.ITIMER_REAL, 0)
            call()

    signal.signal(signal.SIGALRM, handle)
    signal.setitimer(signal.ITIMER_REAL, 0.05, 0.05)


@pytest.fixture(params=["unix", "tcp"])
def full(tmp_path: Path, request: Any) -> Iterator[Any]:
    """Where nobody takes connections, and as many wait as may."""
    family, address = {"unix": (socket.AF_UNIX, str(tmp_path / "full")), "tcp": (socket.AF_INET, ("127.0.0.1", 0))}[request.param]
    with ExitStack() as stack:
        listening = stack.enter_context(socket.socket(family))
        listening.bind(address)
        listening.listen(0)
        for _ in range(4):
            waiting = stack.enter_context(socket.socket(family))
            waiting.setblocking(False)
            with suppress(BlockingIOError):
                waiting.connect(listening.getsockname())
        yield listening.getsockname()


def in_time(client: Client) -> int:
    """A count by a client with a short time: the first that has its reply in time."""
    for _ in range(100):
        with suppress(TimedOut):
            return client.count(All())
    raise AssertionError("no reply in time")


class OwnWindow(Window):
    """A class of a user, which is no region of the package."""


def test_calls(client: Client, boxes: Rtfilter) -> None:
    assert len(client) == 5 and client.levels() == boxes.levels() and bool(client)
    assert client.find(Window(0, 10, 0, 10)) == [1, 2] and client.find(All(), scores=True, first=1) == [(1, 0)]
    with pytest.raises(QueryError) as raised:
        client.find(Window(5, 1, 0, 1))
    assert (raised.value.query, raised.value.code) == ("find window 5 1 0 1", "Q7")
    refused: list[tuple[Callable[[], Any], type[Exception]]] = [
        *((lambda it=it: client.find(Window(0, it, 0, 1)), TypeError) for it in (0.5, "x")),
        *((lambda it=it: client.count(All(), on=it), TypeError) for it in (True, "3", 1.5, numpy.bool_(True))),
        *((lambda it=it: client.count(All(), on=it), ValueError) for it in ([], 64)),
        *((lambda it=it: client.text(it), TypeError) for it in ("count all", 5, None)),
        (lambda: client.find(All(), All()), TypeError),  # type: ignore[arg-type]
        (lambda: client.find(OwnWindow(0, 1, 0, 1)), TypeError),
    ]
    for call, error in refused:
        with pytest.raises(error):
            call()


def test_tcp(connect: Connect, data: Path, serve: Serve) -> None:
    with connect(serve(data / "boxes.csv", "--tcp", "0").tcp, timeout=20) as client:
        assert client.count(All()) == 5


def test_long_texts_go_both_ways(client: Client, boxes: Rtfilter) -> None:
    text = b"find all\n" * 60_000
    assert client.text(text) == boxes.text(text) == client.text(memoryview(text))


@pytest.mark.parametrize("address", [5, None, ("localhost",), b"boxes.socket"])
def test_no_address(connect: Connect, address: Any) -> None:
    with pytest.raises(TypeError, match=r"^an address is the path of a socket or \(host, port\), and not "):
        connect(address)


def test_no_service(connect: Connect, tmp_path: Path) -> None:
    def count(address: Any) -> None:
        with connect(address) as client:
            client.count(All())

    with pytest.raises(FileNotFoundError) as raised:
        count(tmp_path / "none")
    assert raised.value.filename == str(tmp_path / "none")
    with pytest.raises(OSError, match="^AF_UNIX path too long$"):
        count(tmp_path / ("x" * 200))
    with socket.socket(socket.AF_UNIX) as stale:
        stale.bind(str(tmp_path / "stale"))
        with pytest.raises(ConnectionRefusedError):
            count(tmp_path / "stale")
    with socket.socket() as free:
        free.bind(("127.0.0.1", 0))
        with pytest.raises(ConnectionRefusedError):
            count(free.getsockname())


def test_a_service_that_takes_no_connections(connect: Connect, full: Any, monkeypatch: pytest.MonkeyPatch) -> None:
    """A host may have several addresses: one deadline holds for all of them."""
    real = socket.getaddrinfo
    monkeypatch.setattr(socket, "getaddrinfo", lambda *given, **named: real(*given, **named) * 3)
    begun = time.monotonic()
    with pytest.raises(TimedOut, match="0.8 seconds|in time"), connect(full, timeout=0.8) as client:
        client.count(All())
    assert 0.7 < time.monotonic() - begun < 2.2


def test_a_connection_that_the_system_gives_up(connect: Connect, monkeypatch: pytest.MonkeyPatch) -> None:
    """It says that there was no connection, and no reply that was awaited without end."""

    def give_up(*_: Any) -> None:
        raise TimeoutError(errno.ETIMEDOUT, "Connection timed out")

    monkeypatch.setattr(socket.socket, "connect", give_up)
    with pytest.raises(TimedOut, match=r"^no connection to 127\.0\.0\.1:7 in time$"), connect(("127.0.0.1", 7)) as client:
        client.count(All())


def test_a_host_with_several_addresses(connect: Connect, monkeypatch: pytest.MonkeyPatch, data: Path, serve: Serve) -> None:
    """The next one is tried where there is no service."""
    host, port = serve(data / "boxes.csv", "--tcp", "0").tcp
    with socket.socket() as free:
        free.bind((host, 0))
        places = [(socket.AF_INET, socket.SOCK_STREAM, 0, "", it) for it in (free.getsockname(), (host, port))]
        monkeypatch.setattr(socket, "getaddrinfo", lambda *_, **__: places)
        with connect(("several", port), timeout=20) as client:
            assert client.count(All()) == 5


@pytest.mark.parametrize("timeout", [1e7, 1e12, math.inf])
def test_long_timeouts(connect: Connect, fake: Fake, timeout: float) -> None:
    fake.acts = [answer]
    with connect(fake.path, timeout=timeout) as client:
        assert client.count(All()) == 7


def test_more_files_than_select_takes(fake: Fake) -> None:
    before = resource.getrlimit(resource.RLIMIT_NOFILE)
    resource.setrlimit(resource.RLIMIT_NOFILE, (min(2000, before[1]), before[1]))
    files: list[int] = []
    try:
        while not files or files[-1] < 1024:
            files.append(os.open("/dev/null", os.O_RDONLY))
        fake.acts = [answer]
        with Client(fake.path, timeout=20) as client:
            assert [client.count(All()), client.count(All())] == [7, 7]
    finally:
        for it in files:
            os.close(it)
        resource.setrlimit(resource.RLIMIT_NOFILE, before)


@pytest.mark.parametrize(
    "text, words",
    [
        *((it, "the service at .*/fake closed the connection") for it in (b"", b"1 0\n")),
        (REASON, "the service at .*/fake closed the connection: silent for 600 seconds"),
        *((it, "no reply of a service: b.*") for it in (b"x\nok 1 7\n", b"ok 1 x\n", b"ok 9 7\nok 1 7\n", b"error 1 Q4 \xff\n", b"1.5 0\nok 1 1\n", b"ok 1 7 8\n")),
    ],
)
def test_what_is_no_reply(connect: Connect, fake: Fake, text: bytes, words: str) -> None:
    """Nothing more is read from such a connection."""
    fake.acts = [say(text), answer]
    with connect(fake.path, timeout=20) as client:
        with pytest.raises(Disconnected, match=f"^{words}$") as raised:
            client.find(All())
        assert isinstance(raised.value, ConnectionError) and isinstance(raised.value, RtfilterError)
        assert client.count(All()) == 7


@pytest.mark.parametrize("text", [b"", REASON])
def test_a_service_that_closed_between_two_calls(connect: Connect, fake: Fake, text: bytes) -> None:
    """And perhaps said why."""
    asked = threading.Event()

    def act(connection: socket.socket) -> None:
        say(b"ok 1 7\n")(connection)
        asked.wait(20)
        connection.sendall(text)

    fake.acts = [act, answer]
    with connect(fake.path, timeout=20) as client:
        assert client.count(All()) == 7
        asked.set()
        assert fake.closed.wait(20)
        assert client.count(All()) == 7


def test_a_reply_byte_by_byte(connect: Connect, fake: Fake) -> None:
    def act(connection: socket.socket) -> None:
        connection.recv(1000)
        for byte in b"12 0\n-3 18446744073709551616\nok 1 2\n":
            connection.sendall(bytes([byte]))
            time.sleep(0.001)
        fake.be_silent(connection)

    fake.acts = [act]
    with connect(fake.path, timeout=20) as client:
        assert client.nearest(2, 0, 0) == [(12, 0), (-3, 2**64)]


def test_a_silent_service(connect: Connect, fake: Fake) -> None:
    fake.acts = [fake.be_silent, *[answer] * 100]
    with connect(fake.path, timeout=0.3) as client:
        begun = time.monotonic()
        with pytest.raises(TimedOut, match="no reply in 0.3 seconds") as raised:
            client.find(All())
        assert 0.2 < time.monotonic() - begun < 5 and isinstance(raised.value, TimeoutError)
        assert in_time(client) == 7


def test_one_deadline_holds_for_the_turn_too(fake: Fake) -> None:
    fake.acts = [fake.be_silent] * 8
    with Client(fake.path, timeout=0.5) as client:

        def ask(_: int) -> float:
            begun = time.monotonic()
            with pytest.raises(TimedOut):
                client.find(All())
            return time.monotonic() - begun

        assert max(in_threads(8, ask)) < 2


def test_a_member_of_tables_that_drops(fake: Fake) -> None:
    """The call has no answers of the other members alone, and the next one is whole."""
    fake.acts = [say(b"ok 1"), answer]
    with Tables([Rtfilter([(1, 0, 1, 0, 1)]), Client(fake.path, timeout=20)]) as tables:
        with pytest.raises(Disconnected):
            tables.count(All())
        assert tables.count(All()) == 8


@pytest.mark.usefixtures("own_alarms")
def test_broken_off_calls_close_the_connection(fake: Fake) -> None:
    def interrupt() -> None:
        raise KeyboardInterrupt

    fake.acts = [fake.be_silent, answer]
    with Client(fake.path) as client:
        alarm(fake, interrupt)
        with pytest.raises(KeyboardInterrupt):
            client.find(All())
        assert client.count(All()) == 7


@pytest.mark.usefixtures("own_alarms")
def test_calls_that_are_broken_off_anywhere(serve: Serve, data: Path) -> None:
    """Also where the call has just taken its turn, or gives it back: it isn't lost then."""

    class BrokenOff(BaseException):
        pass

    def handle(*_: object) -> None:
        raise BrokenOff

    signal.signal(signal.SIGALRM, handle)
    chance, broken_off = random.Random(1), 0
    with Client(serve(data / "boxes.csv", "--connections", "9000").path, timeout=20) as client:
        for at in range(8000):
            try:
                try:
                    signal.setitimer(signal.ITIMER_REAL, chance.uniform(2e-5, 6e-4))
                    client.find(All())
                finally:
                    signal.setitimer(signal.ITIMER_REAL, 0)
            except BrokenOff:
                broken_off += 1
            if at % 50 == 49:
                assert client.find(Window(0, 10, 0, 10)) == [1, 2]
    assert broken_off > 1000


@pytest.mark.usefixtures("own_alarms")
def test_a_call_in_the_middle_of_a_call(fake: Fake) -> None:
    raised: list[BaseException] = []
    fake.acts = [fake.be_silent]
    client = Client(fake.path, timeout=1)

    def ask() -> None:
        try:
            client.count(All())
        except BaseException as error:
            raised.append(error)

    alarm(fake, ask)
    with pytest.raises(TimedOut):
        client.find(All())
    assert [*map(type, raised)] == [RuntimeError]


def test_a_child_of_a_fork(client: Client) -> None:
    def is_refused() -> bool:
        with pytest.raises(RuntimeError, match="make another one after a fork"):
            client.count(All())
        return True

    assert client.count(All()) == 5
    assert in_child(is_refused) and client.count(All()) == 5


def test_closed(client: Client) -> None:
    client.close()
    client.close()
    for call in (lambda: client.find(All()), lambda: client.text(b""), lambda: len(client)):
        with pytest.raises(ValueError, match="the client was closed"):
            call()


def test_not_pickled(serve: Serve, data: Path) -> None:
    with Client(serve(data / "boxes.csv").path) as client:
        for it in (client, aio.Client("boxes.socket")):
            with pytest.raises(TypeError, match="a client can't be pickled"):
                pickle.dumps(it)


def test_asyncio_calls_that_are_cancelled_anywhere(serve: Serve, data: Path) -> None:
    """Others go on, by turns, and get their own replies."""
    chance = random.Random(2)

    async def ask(path: str) -> int:
        cancelled = 0
        async with aio.Client(path, timeout=20) as client:
            for _ in range(300):
                tasks = [asyncio.create_task(client.nearest(1 + at % 5, 0, 0)) for at in range(4)]
                for _ in range(chance.randrange(12)):
                    await asyncio.sleep(0)
                chance.choice(tasks).cancel()
                for at, found in enumerate(await asyncio.gather(*tasks, return_exceptions=True)):
                    if isinstance(found, asyncio.CancelledError):
                        cancelled += 1
                    else:
                        assert not isinstance(found, BaseException) and len(found) == 1 + at % 5
            assert await client.size() == 5
        return cancelled

    assert asyncio.run(ask(serve(data / "boxes.csv", "--connections", "9000").path)) > 20


def test_a_close_while_asyncio_connects(fake: Fake, monkeypatch: pytest.MonkeyPatch) -> None:
    """It leaves no connection open."""
    fake.acts = [fake.be_silent]

    async def ask() -> None:
        reached, go_on, real = asyncio.Event(), asyncio.Event(), aio._opened

        async def opened(address: Any) -> Any:
            reached.set()
            await go_on.wait()
            return await real(address)

        monkeypatch.setattr(aio, "_opened", opened)
        client = aio.Client(fake.path, timeout=20)
        task = asyncio.create_task(client.count(All()))
        await reached.wait()
        await client.close()
        go_on.set()
        with pytest.raises(Disconnected):
            await task
        assert await asyncio.to_thread(fake.closed.wait, 20)

    asyncio.run(ask())


def test_a_service_ends_while_its_last_connection_does(data: Path, serve: Serve) -> None:
    """Whichever of both it notices first."""
    for _ in range(40):
        service = serve(data / "boxes.csv")
        with Client(service.path, timeout=20) as client:
            assert client.count(All()) == 5
        service.signal(signal.SIGTERM)
        assert service.process.wait(30) == 0


class Handing:
    """A lock that lets other threads run first, once it is released."""

    def __init__(self) -> None:
        self._lock = threading.Lock()
        self.acquire = self._lock.acquire

    def release(self) -> None:
        self._lock.release()
        time.sleep(0.001)


def test_a_close_in_the_middle_of_calls(serve: Serve, data: Path, monkeypatch: pytest.MonkeyPatch) -> None:
    """A call is answered, or says that the client was closed, which leaves no connection open."""
    path = serve(data / "boxes.csv").path
    for at in range(50):
        client = Client(path, timeout=20)
        monkeypatch.setattr(client, "_lock", Handing())

        def work(number: int) -> None:
            if number == 3:
                time.sleep(0.0003 * at)
                client.close()
            else:
                with pytest.raises(ValueError, match="^the client was closed$"):
                    while True:
                        assert client.count(All()) == 5

        in_threads(4, work)
        assert client._connection is None

"""The command rtfilter-tiles: loads a table, listens, and reloads it on SIGHUP."""

import argparse
import asyncio
import errno
import hashlib
import logging
import logging.handlers
import os
import signal
import stat
import sys
import time
from pathlib import Path

from aiohttp import web
from aiohttp.http import HttpProcessingError

from .. import __version__
from .._console import Parser, reason, say, whole
from .boxes import Boxes, Files
from .server import Served, Server
from .views import Views

NAME = "rtfilter-tiles"
ACCESSES = logging.getLogger("rtfilter.tiles")
COMMON_LOG_FORMAT = '%a - - %t "%r" %s %{Content-Length}o'  # (%b of aiohttp counts the headers too)
SHUTDOWN = 10.0  # seconds for requests that are under way at the end
BETWEEN_COMPLAINTS = 10.0  # seconds
ENDS = signal.SIGTERM, signal.SIGINT


class Complaints:
    """What may be wrong at each request is said once in a while."""

    def __init__(self) -> None:
        self._last = -BETWEEN_COMPLAINTS

    def say(self, text: str) -> None:
        if time.monotonic() >= self._last + BETWEEN_COMPLAINTS:
            self._last = time.monotonic()
            say(NAME, text)


class AccessLog(logging.handlers.WatchedFileHandler):
    """A log in a file, which is opened again if another file has replaced it. A line that can't be written is dropped."""

    def __init__(self, name: str) -> None:
        super().__init__(name, encoding="utf-8", errors="backslashreplace")
        self._name, self._complaints = name, Complaints()

    def emit(self, record: logging.LogRecord) -> None:
        try:
            super().emit(record)
        except OSError:  # as it is opened
            self.handleError(record)

    def handleError(self, record: logging.LogRecord) -> None:
        error = sys.exc_info()[1]
        why = error.strerror if isinstance(error, OSError) else error
        self._complaints.say(f"--log {self._name}: lines are lost: {why}")


def arguments() -> argparse.Namespace:
    """The words of the command line."""
    parser = Parser(prog=NAME, description="Serves a map of a table of boxes, as a page and as vector tiles.")
    parser.add_argument("table", metavar="TABLE", help="CSV file of boxes, in centimetres of Web Mercator; SIGHUP loads it again")
    parser.add_argument("--header", action="store_true", help="skip the table's first record")
    parser.add_argument("--names", metavar="FILE", help="CSV file of ids and names of boxes")
    parser.add_argument("--layers", metavar="FILE", help="CSV file of layers, 0 to 63, and their names, all different (default layer 3 and so on)")
    parser.add_argument("--listen", default="127.0.0.1", metavar="ADDRESS", help="address to listen on (default 127.0.0.1)")
    parser.add_argument("--port", type=whole(0, 65535), default=8080, metavar="PORT", help="port to listen on, 0 for any free one (default 8080)")
    parser.add_argument("--reuse-port", action="store_true", help="let several processes listen on the port, each with its own table")
    parser.add_argument("--host", action="append", default=[], metavar="NAME", help="another name of this server, as behind a proxy; may be repeated")
    parser.add_argument("--url", type=with_slash, metavar="URL", help="the server's address behind a proxy, as https://example.org/map/ (default http and the Host)")
    parser.add_argument(
        "--origin", action="append", default=[], metavar="ORIGIN",
        help="origin whose pages may read replies, as https://maps.example.org, * for any, null for files; may be repeated",
    )  # fmt: skip
    parser.add_argument("--max-age", type=whole(0, 10**9), default=60, metavar="SECONDS", help="time that a client may keep a tile (default 60)")
    parser.add_argument(
        "--log", metavar="FILE",
        help="file for a line of each request, in the Common Log Format, - for standard error; opened again if it was moved away",
    )  # fmt: skip
    parser.add_argument("--version", action="version", version=f"{NAME} {__version__}", help="print the version")
    return parser.parse_args()


def with_slash(address: str) -> str:
    """An address with a slash at its end."""
    return address.rstrip("/") + "/"


def main() -> int:
    """Runs the command. Returns its exit status."""
    args = arguments()
    for number in ENDS:  # until requests are answered: a load may be long
        signal.signal(number, signal.SIG_DFL)
    try:
        log_accesses(args.log)
        logging.getLogger("aiohttp.server").addFilter(is_own_fault)
        asyncio.run(serve(args))
    except (OSError, ValueError, MemoryError) as error:
        say(NAME, reason(error))
        return 1
    return 0


async def serve(args: argparse.Namespace) -> None:
    """Loads the table, answers until SIGTERM or SIGINT, and ends the process. Raises why it can't."""
    end, again, loop = asyncio.Event(), asyncio.Event(), asyncio.get_running_loop()
    complaints = Complaints()
    loop.set_exception_handler(lambda _, it: complaints.say(f"{it['message']}: {it.get('exception')}"))
    loop.add_signal_handler(signal.SIGHUP, again.set)
    hosts: set[str] = set()
    server = Server(loaded(args), hosts, {*args.origin}, args.url, args.max_age)
    for number in ENDS:
        loop.add_signal_handler(number, end.set)
    runner = web.AppRunner(server.app(), access_log=ACCESSES if args.log else None, access_log_format=COMMON_LOG_FORMAT)
    await runner.setup()
    server.connections = lambda: len(runner.server.connections) if runner.server else 0
    try:
        await listen(runner, args)
        port = runner.addresses[0][1]
        own = f"[{args.listen}]" if ":" in args.listen else args.listen
        # A name may come without the port, as it does for port 80 and behind a proxy.
        for name in (*args.host, "localhost", "127.0.0.1", own):
            hosts |= {name.lower(), f"{name}:{port}".lower()}
        loading = asyncio.create_task(keep_loaded(args, server, again))
        print(f"http://{own}:{port}/", flush=True)
        await end.wait()
        loading.cancel()
    finally:
        await runner.cleanup()
    os._exit(0)  # a thread that loads is waited for otherwise, as long as that takes


async def listen(runner: web.AppRunner, args: argparse.Namespace) -> None:
    """Has the server listen. Raises OSError."""
    site = web.TCPSite(runner, args.listen, args.port, reuse_port=args.reuse_port or None, shutdown_timeout=SHUTDOWN)
    try:
        await site.start()
    except OSError as error:
        if error.errno == errno.EADDRINUSE:
            raise OSError(f"--port {args.port}: the port is in use on {args.listen}: choose another port") from None
        # (without the address, which asyncio adds)
        raise OSError(f"--listen {args.listen}: {reason(error).rpartition(': ')[2]}") from None


def loaded(args: argparse.Namespace, generation: int = 1) -> Served:
    """What the files hold, and a tag of all that replies are made of: these files and the server's own. Raises ValueError if one of
    the files changes meanwhile: each is read more than once."""
    before = {name: state_of(name) for name in (args.table, args.names, args.layers) if name is not None}
    options = args.header, args.url, args.names is None, args.layers is None
    made_of = hashlib.blake2b(f"{options}".encode(), digest_size=8)
    for name in (*before, *sorted(Path(__file__).parent.glob("*.*"))):
        with open(name, "rb") as file:
            if stat.S_ISFIFO(os.fstat(file.fileno()).st_mode):
                raise ValueError(f"{name}: a pipe can't be read twice: write it to a file first")
            made_of.update(hashlib.file_digest(file, "blake2b").digest())
    views = Views(Boxes(Files(args.table, args.header, args.names, args.layers)))
    for name, state in before.items():
        if state_of(name) != state:
            raise ValueError(f"{name}: the file has changed while it was read: load it again")
    return Served(views, made_of.hexdigest(), generation)


def state_of(file: str) -> tuple[int, int]:
    """What changes if a file is written, or if another one takes its place."""
    found = os.stat(file)
    return found.st_ino, found.st_mtime_ns


async def keep_loaded(args: argparse.Namespace, server: Server, again: asyncio.Event) -> None:
    """Loads the files beside those that are served, once for all signals that came meanwhile. What can't be loaded changes
    nothing."""
    while await again.wait():
        again.clear()
        try:
            server.put(await asyncio.to_thread(loaded, args, server.served.generation + 1))
            say(NAME, f"the table is exchanged: {len(server.served.views)} boxes")
        except Exception as error:  # whatever it is: requests are answered from the table that is there
            server.loads_failed += 1
            say(NAME, f"{reason(error)}; the old table stays")


def log_accesses(name: str | None) -> None:
    """Logs accesses to a file, which is opened again if another file has replaced it."""
    if name is not None:
        handler: logging.Handler = logging.StreamHandler()
        if name != "-":
            handler = AccessLog(name)
        ACCESSES.addHandler(handler)
        ACCESSES.setLevel(logging.INFO)
    ACCESSES.propagate = False


def is_own_fault(record: logging.LogRecord) -> bool:
    """Whether aiohttp logs a fault of this server, with its traceback. A request that isn't HTTP is said in one line."""
    error = record.exc_info and record.exc_info[1]
    if not isinstance(error, HttpProcessingError):
        return True
    say(NAME, f"a request that isn't HTTP: {error!s:.200}")
    return False

"""What a service reports of itself: counts for Prometheus, and whether it is ready."""

import asyncio
import contextlib
import itertools
import socket
from collections import deque
from collections.abc import Callable, Mapping

PATIENCE = 5.0  # seconds for one client
MOST_AT_ONCE = 64  # clients: the oldest is dropped for one more
METHODS = b"GET", b"HEAD"
MOST_HEADERS = 100  # lines: what is here already is read without a wait, and the service waits meanwhile


async def serve(listener: socket.socket, metrics: Callable[[], Mapping[str, float]]) -> None:
    """Answers over HTTP/1.0, each client for a few seconds at most. `metrics` gives values by names and labels, those
    of one name together; `ready` is one."""
    asking = deque[asyncio.StreamWriter](maxlen=MOST_AT_ONCE)

    async def answer(reader: asyncio.StreamReader, writer: asyncio.StreamWriter) -> None:
        if len(asking) == MOST_AT_ONCE:
            asking[0].transport.abort()
        asking.append(writer)
        with contextlib.suppress(OSError, ValueError, asyncio.CancelledError), contextlib.closing(writer):  # or the service ends
            async with asyncio.timeout(PATIENCE):
                request = await reader.readline()
                for _ in range(MOST_HEADERS):  # which are skipped
                    if not (await reader.readline()).strip():
                        writer.write(reply(request.split(), metrics()))
                        await writer.drain()
                        break

    await asyncio.start_server(answer, sock=listener, limit=4096)


def reply(request: list[bytes], metrics: Mapping[str, float]) -> bytes:
    method, path = (*request, b"", b"")[:2]
    if method in METHODS and path == b"/health":
        status, text = ("200 OK", "ready\n") if metrics["ready"] else ("503 Service Unavailable", "not ready\n")
    elif method in METHODS and path == b"/metrics":
        status, text = "200 OK", shown(metrics)
    else:
        status, text = "404 Not Found", "GET /health or /metrics\n"
    kind, body = "text/plain; version=0.0.4; charset=utf-8", "" if method == b"HEAD" else text
    return f"HTTP/1.0 {status}\r\nContent-Type: {kind}\r\nContent-Length: {len(text)}\r\n\r\n{body}".encode()


def shown(metrics: Mapping[str, float]) -> str:
    """In Prometheus' text format."""
    lines = ""
    for name, samples in itertools.groupby(metrics, lambda sample: sample.partition("{")[0]):
        lines += f"# TYPE rtfilter_{name} {'counter' if name.endswith('_total') else 'gauge'}\n"
        lines += "".join(f"rtfilter_{sample} {metrics[sample]}\n" for sample in samples)
    return lines

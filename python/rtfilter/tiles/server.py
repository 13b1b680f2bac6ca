"""The server: what is answered to which address, and what is refused."""

import asyncio
import functools
import json
import re
import time
from collections import Counter
from collections.abc import Awaitable, Callable
from dataclasses import dataclass
from importlib.resources import files
from urllib.parse import urlsplit

from aiohttp import ETag, web
from multidict import CIMultiDict, MultiMapping

from .. import QueryError
from .mercator import DEEPEST
from .styles import style, tile_json
from .views import Views

WORKERS = 4  # views and lines that are answered at a time
LEAST_PACKED = 256  # bytes: fewer aren't worth it
PAGES = {"/": ("page.html", "text/html"), "/page.js": ("page.js", "text/javascript"), "/page.css": ("page.css", "text/css")}
TILE = re.compile(r"/(0|[1-9][0-9]?)/(0|[1-9][0-9]{0,6})/(0|[1-9][0-9]{0,6})\.pbf")
NUMBER = re.compile(r"-?[0-9]{1,10}")
LINE = re.compile(r"[^\n\ud800-\udfff]*")
LAYERS = re.compile(r"[0-9]{1,2}(,[0-9]{1,2}){0,63}")
NO_WEIGHT = re.compile(r"q=0(\.0*)?", re.IGNORECASE)
HEADERS = {
    "Server": "rtfilter-tiles",
    "Content-Security-Policy": "default-src 'none'; script-src 'self'; style-src 'self'; connect-src 'self'; "
    "img-src data:; base-uri 'none'; form-action 'none'; frame-ancestors 'none'",
    "X-Content-Type-Options": "nosniff",
    "Referrer-Policy": "no-referrer",
}
ANY_ORIGIN = "*"
METHODS = "GET", "HEAD"

Handler = Callable[[web.Request], Awaitable[web.StreamResponse]]


@dataclass(frozen=True)
class Served:
    """What requests are answered from, whatever is loaded meanwhile."""

    views: Views
    tag: str  # of what is served: what is made of other files has another one
    generation: int = 1  # how many were loaded, with this one


class Server:
    """Answers requests. `served` may be assigned again at any time."""

    def __init__(self, served: Served, hosts: set[str], origins: set[str], url: str | None, max_age: int) -> None:
        """`hosts` are the names that the header Host may have, in small letters; pages of `origins` may read what is served. `url`
        is the address of the server, if it isn't that of the Host. Tiles may be kept for `max_age` seconds."""
        self.loads_failed = 0
        self.connections: Callable[[], int] = lambda: 0
        """The number of open connections: that of aiohttp's server, which is made later."""
        self._hosts, self._origins, self._url, self._max_age = hosts, origins, url, max_age
        self._headers = CIMultiDict(HEADERS)
        self._headers["Vary"] = "Accept-Encoding, Origin" if origins else "Accept-Encoding"
        self._headers["Cross-Origin-Resource-Policy"] = "cross-origin" if origins else "same-origin"
        self._replies: Counter[int] = Counter()
        self._workers = asyncio.Semaphore(WORKERS)
        self.put(served)

    def put(self, served: Served) -> None:
        """Answers from now on from another table."""
        self.served, self._since = served, time.monotonic()

    def app(self) -> web.Application:
        """The application of aiohttp."""
        app = web.Application(middlewares=[self._checked])
        app.on_response_prepare.append(self._prepare)
        app.router.add_get(r"/{z:\d+}/{x:\d+}/{y:\d+}.pbf", self._tile)  # first: what is most often asked for
        for path, (name, kind) in PAGES.items():
            app.router.add_get(path, functools.partial(self._page, files(__package__).joinpath(name).read_text(), kind))
        for path, handler in {
            "/about": self._about, "/tiles.json": self._tile_json, "/style.json": self._style, "/health": self._health,
            "/view": self._view, "/ask": self._ask, "/metrics": self._metrics,
        }.items():  # fmt: skip
            app.router.add_get(path, handler)
        app.router.add_get("/{rest:.*}", self._tile)
        return app

    @web.middleware
    async def _checked(self, request: web.Request, handler: Handler) -> web.StreamResponse:
        try:
            self._check(request)
            return await handler(request)
        except web.HTTPException as refused:
            allowed = {"Allow": ", ".join(METHODS)} if isinstance(refused, web.HTTPMethodNotAllowed) else {}
            return web.Response(status=refused.status, text=refused.reason, headers=allowed)
        except QueryError as fault:
            return web.Response(status=400, text=f"{fault.code} {fault.text}")
        except MemoryError:
            return web.Response(status=503, text="out of memory")

    def _check(self, request: web.Request) -> None:
        """Raises if a request is for another host, or of a page that may not read the reply."""
        if request.method not in METHODS:
            raise web.HTTPMethodNotAllowed(request.method, METHODS)
        hosts: list[str] = request.headers.getall("Host", [])
        if len(hosts) != 1:
            raise web.HTTPBadRequest(reason="one Host is needed")
        if hosts[0].strip().lower() not in self._hosts:
            raise web.HTTPMisdirectedRequest(reason="that Host isn't served here")
        if request.raw_path[:1] != "/":
            raise web.HTTPBadRequest(reason="an address begins with /")
        if request.raw_path[:2] == "//":
            raise web.HTTPNotFound(reason="no such page")
        origin = request.headers.get("Origin")
        if origin is not None and host_of(origin) not in self._hosts and self._allowed(origin) is None:
            raise web.HTTPForbidden(reason="pages of that origin may not read this")

    def _allowed(self, origin: str | None) -> str | None:
        """The value of the header that allows a page of another origin to read a reply."""
        if ANY_ORIGIN in self._origins:
            return ANY_ORIGIN
        return origin if origin in self._origins else None

    async def _prepare(self, request: web.Request, response: web.StreamResponse) -> None:
        self._replies[response.status] += 1
        response.headers.extend(self._headers)
        response.headers.setdefault("Cache-Control", "no-cache")
        if allowed := self._allowed(request.headers.get("Origin")):
            response.headers["Access-Control-Allow-Origin"] = allowed

    def _kept(self, request: web.Request, kind: str, body_of: Callable[[], bytes], max_age: int = 0) -> web.Response:
        """A reply that another table alone would change. It isn't made again for a client that has it."""
        known = ", ".join(request.headers.getall("If-None-Match", []))
        if known.strip() == "*" or f'"{self.served.tag}"' in known:
            response = web.Response(status=304)
        else:
            response = reply(request, kind, body_of())
        response.etag = ETag(self.served.tag, is_weak=True)  # the same for what is packed
        response.headers["Cache-Control"] = f"public, max-age={max_age}" if max_age else "no-cache"
        return response

    async def _page(self, text: str, kind: str, request: web.Request) -> web.Response:
        parameters(request.query)
        return self._kept(request, kind, text.encode)

    async def _about(self, request: web.Request) -> web.Response:
        parameters(request.query)
        return self._kept(request, "application/json", lambda: json_of(self.served.views.about))

    async def _tile_json(self, request: web.Request) -> web.Response:
        views = self.served.views
        parameters(request.query)
        found = tile_json(self._address(request), views.bounds, views.layer_names, views.fields)
        return self._kept(request, "application/json", lambda: json_of(found))

    async def _style(self, request: web.Request) -> web.Response:
        parameters(request.query)
        found = style(self._address(request), self.served.views.layer_names)
        return self._kept(request, "application/json", lambda: json_of(found))

    async def _health(self, request: web.Request) -> web.Response:
        parameters(request.query)
        return reply(request, "application/json", json_of({"boxes": self.served.views.size()}))

    async def _view(self, request: web.Request) -> web.Response:
        sides = ("x1", "x2", "y1", "y2")
        found = parameters(request.query, *sides, "on")
        if not all(NUMBER.fullmatch(found.get(side, "")) for side in sides):
            raise web.HTTPBadRequest(reason="x1, x2, y1 and y2 are whole numbers")
        x1, x2, y1, y2 = (int(found[side]) for side in sides)
        return await self._answer(request, functools.partial(self.served.views.view, (x1, x2, y1, y2), layers_of(found)))

    async def _ask(self, request: web.Request) -> web.Response:
        line = parameters(request.query, "q").get("q")
        # (bytes that are no UTF-8 come as surrogates)
        if line is None or not LINE.fullmatch(line):
            raise web.HTTPBadRequest(reason="q is one query line, in UTF-8")
        return await self._answer(request, functools.partial(self.served.views.ask, line))

    async def _answer(self, request: web.Request, found: Callable[[], object]) -> web.Response:
        """What is found in a thread, when others are done. For a client that has left meanwhile nothing is."""
        async with self._workers:
            if request.transport is None:
                raise web.HTTPRequestTimeout
            return reply(request, "application/json", json_of(await asyncio.to_thread(found)))

    async def _tile(self, request: web.Request) -> web.Response:
        address = TILE.fullmatch(request.raw_path.partition("?")[0])
        if address is None:
            raise web.HTTPNotFound(reason="no such page")
        z, x, y = map(int, address.groups())
        if z > DEEPEST or max(x, y) >= 1 << z:
            raise web.HTTPNotFound(reason=f"tiles are /z/x/y.pbf, z up to {DEEPEST}, x and y below 2^z")
        on = layers_of(parameters(request.query, "on"))
        # (in this thread: to hand it to another one takes as long as a tenth of it)
        make = functools.partial(self.served.views.tile, z, x, y, on)
        return self._kept(request, "application/vnd.mapbox-vector-tile", make, self._max_age)

    async def _metrics(self, request: web.Request) -> web.Response:
        gauges = {
            "ready": 1, "boxes": len(self.served.views), "table_age_seconds": round(time.monotonic() - self._since, 3),
            "table_generation": self.served.generation, "connections": self.connections(),
        }  # fmt: skip
        lines = [f"# TYPE rtfilter_{name} gauge\nrtfilter_{name} {value}\n" for name, value in gauges.items()]
        lines.append(f"# TYPE rtfilter_loads_failed_total counter\nrtfilter_loads_failed_total {self.loads_failed}\n")
        lines.append("# TYPE rtfilter_replies_total counter\n")
        lines += [f'rtfilter_replies_total{{status="{status}"}} {count}\n' for status, count in sorted(self._replies.items())]
        return web.Response(text="".join(lines), headers={"Content-Type": "text/plain; version=0.0.4; charset=utf-8"})

    def _address(self, request: web.Request) -> str:
        """The server's own, as the client reaches it."""
        return self._url or f"http://{request.headers['Host'].strip().lower()}/"


def reply(request: web.Request, kind: str, body: bytes) -> web.Response:
    """A body of a kind, packed if the client takes that; status 204 for none."""
    response = web.Response(status=200 if body else 204, body=body or None)
    if body:
        response.content_type = kind
        if kind.startswith("text/"):
            response.charset = "utf-8"
        if len(body) >= LEAST_PACKED and takes_gzip(request):
            response.enable_compression(web.ContentCoding.gzip)
    return response


def takes_gzip(request: web.Request) -> bool:
    """Whether the client takes gzip, by its name."""
    codings = (it.partition(";") for it in ",".join(request.headers.getall("Accept-Encoding", [])).split(","))
    return any(name.strip().lower() == "gzip" and not NO_WEIGHT.fullmatch(weight.strip()) for name, _, weight in codings)


def host_of(origin: str) -> str | None:
    """The host and the port of an origin; None if it has none."""
    try:
        return urlsplit(origin).netloc.lower() or None
    except ValueError:
        return None


def parameters(query: MultiMapping[str], *names: str) -> dict[str, str]:
    """The parameters of a query, each of these names once at most."""
    found = dict(query.items())
    if len(found) < len(query) or not found.keys() <= {*names}:
        raise web.HTTPBadRequest(reason=f"parameters are {', '.join(names)}, each once" if names else "there are no parameters here")
    return found


def layers_of(found: dict[str, str]) -> list[int] | None:
    """The layers in the parameter `on`; None for all."""
    if "on" not in found:
        return None
    if not LAYERS.fullmatch(found["on"]) or max(map(int, found["on"].split(","))) > 63:
        raise web.HTTPBadRequest(reason="on is layers, 0 to 63, separated by commas")
    return [int(layer) for layer in found["on"].split(",")]


def json_of(value: object) -> bytes:
    """A value as JSON."""
    return json.dumps(value, ensure_ascii=False).encode()

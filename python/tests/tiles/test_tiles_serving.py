"""Descriptions of tiles, caches and compression, pages of other origins, loads, ends and messages."""

import argparse
import contextlib
import csv
import functools
import gzip
import json
import os
import re
import resource
import select
import signal
import socket
import subprocess
import tempfile
import threading
import time
import unittest
from collections.abc import Iterator
from http.client import HTTPConnection
from http.server import SimpleHTTPRequestHandler, ThreadingHTTPServer
from pathlib import Path
from unittest import mock

from aiohttp.test_utils import TestClient, TestServer
from chromium import Chromium
from support import LONGEST, ROOT, all_of, environment, found, until, wants
from tiles_support import BOXES, COMMAND, Mapped, Server, large_map

from rtfilter.tiles import command, server as serving
from rtfilter.tiles.boxes import Boxes, Files
from rtfilter.tiles.mercator import HALF, window_of
from rtfilter.tiles.views import Views


TILE = "/8/128/127.pbf"
EMPTY = "/9/0/0.pbf"
LAYERS = ["towns", "motorways", "main roads", "minor roads", "streets", "<b>buildings</b>"]
ENDLESS = 1 << 38  # bytes
MORE_MEMORY = 20_000_000  # bytes: enough for a thread, and for no million of boxes
MOST_SECONDS = 0.02  # of processor time for a tile of some 100 boxes, which takes a tenth of that


class Descriptions(Mapped):
    def test_tile_json(self) -> None:
        tiles = self.json("/tiles.json")
        self.assertEqual(tiles["tilejson"], "3.0.0")
        self.assertEqual(tiles["tiles"], [f"{self.server.address}{{z}}/{{x}}/{{y}}.pbf"])
        self.assertEqual([it["id"] for it in tiles["vector_layers"]], [*LAYERS, "density"])
        self.assertEqual([it["fields"] for it in tiles["vector_layers"]], [{"name": "String"}] * 6 + [{"count": "Number"}])
        self.assertEqual((tiles["minzoom"], tiles["maxzoom"]), (0, 22))
        x1, x2, y1, y2 = self.json("/about")["bounds"]
        west, south, east, north = tiles["bounds"]
        self.assertAlmostEqual(west, x1 / HALF * 180, delta=1e-6)
        self.assertAlmostEqual(east, x2 / HALF * 180, delta=1e-6)
        self.assertTrue(-90 < south < north < 90 and south < 0 < north)  # near the equator it is as in x, but for a part
        self.assertAlmostEqual(north, y2 / HALF * 180, delta=1e-3 * abs(north))
        z = tiles["center"][2]
        self.assertTrue(max(x2 - x1, y2 - y1) <= 2 * 2 * HALF / 2**z < 2 * max(x2 - x1, y2 - y1) + 2)

    def test_addresses_as_others_have_them(self) -> None:
        for url in ("https://example.org/t/", "https://example.org/t"):
            with Server(self.table, "--host", "tiles.example.org", "--url", url) as server:
                reply, body = server.get("/tiles.json", Host="tiles.example.org")
                self.assertEqual(json.loads(body)["tiles"], ["https://example.org/t/{z}/{x}/{y}.pbf"])
                _, body = server.get("/style.json")
                self.assertEqual(json.loads(body)["sources"]["boxes"]["url"], "https://example.org/t/tiles.json")
        reply, body = self.server.get("/tiles.json", Host=f"LOCALHOST:{self.server.port}")
        self.assertEqual(json.loads(body)["tiles"], [f"http://localhost:{self.server.port}/{{z}}/{{x}}/{{y}}.pbf"])

    def test_gdal_reads_tiles_by_their_description(self) -> None:
        """All boxes of a window at a level, from the TileJSON alone."""
        wants("ogrinfo")
        address = self.server.address
        options = ["-oo", f"METADATA_FILE={address}tiles.json", "-oo", "CLIP=NO"]
        names = subprocess.run(["ogrinfo", "-ro", f"MVT:{address}11", *options], capture_output=True, text=True, timeout=LONGEST)
        self.assertEqual(re.findall(r"^\d+: (.*)$", names.stdout, re.MULTILINE), [*LAYERS, "density"])
        x1, x2, y1, y2 = window_of(11, 1024, 1023)
        inside = [str(it) for it in (x1 / 100 + 1, y1 / 100 + 1, x2 / 100 - 1, y2 / 100 - 1)]
        words = ["ogrinfo", "-ro", "-al", "-q", f"MVT:{address}11", *options, "-spat", *inside]
        done = subprocess.run(words, capture_output=True, text=True, timeout=LONGEST)
        ids = {int(it) for it in re.findall(r"mvt_id \(Integer64\) = (\d+)", done.stdout)}
        view = self.json(f"/view?x1={x1}&x2={x2}&y1={y1}&y2={y2}")
        self.assertEqual(ids, {int(it["id"]) for it in view["boxes"]})
        self.assertGreater(len(ids), 5)

    def test_style(self) -> None:
        """Cells in shades by their counts, and each layer in the colour that the page has for it."""
        colours = re.search(r"COLOURS = (\[.*?\])", (ROOT / "python/rtfilter/tiles/page.js").read_text())
        assert colours is not None
        fill = {"type": "fill", "source": "boxes"}
        shades = (1, 0.15, 4), (4, 0.28, 16), (16, 0.41, 64), (64, 0.54, 256), (256, 0.67, 1024), (1024, 0.8, None)
        self.assertEqual(self.json("/style.json"), {
            "version": 8, "name": "boxes", "sources": {"boxes": {"type": "vector", "url": f"{self.server.address}tiles.json"}},
            "layers": [
                {"id": "land", "type": "background", "paint": {"background-color": "#f6f3ec"}},
                *({**fill, "id": f"fill of density from {least}", "source-layer": "density",
                   "filter": ["all", [">=", ["get", "count"], least], *([["<", ["get", "count"], above]] if above else [])],
                   "paint": {"fill-color": "#1c488c", "fill-opacity": shade}} for least, shade, above in shades),
                *({**fill, "id": f"fill of {layer}", "source-layer": layer,
                   "paint": {"fill-color": colour, "fill-opacity": 0.3, "fill-outline-color": colour}}
                  for layer, colour in zip(LAYERS, json.loads(colours[1]))),
            ],
        })  # fmt: skip

    def test_health(self) -> None:
        self.assertEqual(self.json("/health"), {"boxes": BOXES})


class Caches(Mapped):
    def test_head(self) -> None:
        """It has the status and the headers of GET, and no body, and the connection goes on; also where the client has the reply."""
        connection = self.connected()
        tag = self.server.get(TILE)[0].headers["ETag"].removeprefix("W/")
        packed = [(target, {"Accept-Encoding": "gzip"}) for target in (TILE, EMPTY, "/", "/tiles.json", "/about", "/ask?q=count+all", "/nothing", "/view")]
        for target, headers in (*packed, (TILE, {"If-None-Match": f'"x", {tag}, "y"'}), (TILE, {"If-None-Match": '"x"'})):
            heads = []
            for method in ("GET", "HEAD"):
                connection.request(method, target, headers=headers)
                reply = connection.getresponse()
                body = reply.read()
                heads.append((reply.status, [it for it in reply.getheaders() if it[0] != "Date"]))
            self.assertEqual((heads[0], body), (heads[1], b""), target)

    def test_tags(self) -> None:
        """What whoever asks has already isn't sent again, until the table is another one."""
        for target in (TILE, EMPTY, "/", "/page.js", "/tiles.json", "/style.json", "/about"):
            for encoding in ("gzip", "identity"):
                reply, body = self.server.get(target, Accept_Encoding=encoding)
                tag = reply.headers["ETag"].removeprefix("W/")
                for known in (tag, f"W/{tag}", f'"x", {tag}', "*", f'{tag} ,"x"'):
                    again, nothing = self.server.get(target, Accept_Encoding=encoding, If_None_Match=known)
                    self.assertEqual((again.status, nothing, again.headers["ETag"]), (304, b"", f"W/{tag}"), known)
                    self.assertEqual(again.headers["Cache-Control"], reply.headers["Cache-Control"])
                for other in ('"x"', tag.replace('"', ""), tag[:-1], "", '"*"', '"x", *'):
                    again, body_again = self.server.get(target, Accept_Encoding=encoding, If_None_Match=other)
                    self.assertEqual((again.status, body_again), (reply.status, body), other)
        for target in ("/view?x1=0&x2=9&y1=0&y2=9", "/ask?q=count+all", "/health", "/nothing"):
            reply, _ = self.server.get(target, If_None_Match="*")
            self.assertIsNone(reply.headers["ETag"])
            self.assertEqual(reply.headers["Cache-Control"], "no-cache")
        self.assertEqual(self.server.get("/5/99/0.pbf", If_None_Match="*")[0].status, 404)
        lines = f'GET / HTTP/1.1\r\nHost: localhost\r\nIf-None-Match: "x"\r\nIf-None-Match: {tag}\r\n\r\n'
        self.assertEqual(self.server.reply_to(lines.encode())[0].status, 304)

    def test_another_table_has_another_tag(self) -> None:
        folder = Path(self.enterContext(tempfile.TemporaryDirectory()))
        one, same, other, names = (folder / it for it in ("one", "same", "other", "names"))
        one.write_text("1,0,1,0,1\n")
        same.write_text("1,0,1,0,1\n")
        other.write_text("1,0,1,0,2\n")
        names.write_text("1,x\n")
        tags = []
        for words in ([one], [same], [other], *([one, option, str(names)] for option in ("--names", "--layers")), [one, "--url", "https://example.org/"]):
            with Server(*words) as server:
                tags.append(server.get("/0/0/0.pbf")[0].headers["ETag"])
        self.assertEqual(tags[0], tags[1])
        self.assertEqual(len(set(tags)), 5)

    def test_ages(self) -> None:
        self.assertEqual(self.server.get(TILE)[0].headers["Cache-Control"], "public, max-age=60")
        self.assertEqual(self.server.get(EMPTY)[0].headers["Cache-Control"], "public, max-age=60")
        self.assertEqual(self.server.get("/tiles.json")[0].headers["Cache-Control"], "no-cache")
        for age, control in (("0", "no-cache"), ("86400", "public, max-age=86400")):
            with Server(self.table, "--max-age", age) as server:
                self.assertEqual(server.get(TILE)[0].headers["Cache-Control"], control)

    def test_gzip(self) -> None:
        """The same bytes, for whoever asks for it, where they are some."""
        for target in (TILE, "/", "/page.js", "/tiles.json", "/view?x1=-9000000&x2=9000000&y1=-9000000&y2=9000000"):
            plain, body = self.server.get(target)
            short, packed = self.server.get(target, Accept_Encoding="br, gzip;q=0.5")
            self.assertEqual((plain.headers["Content-Encoding"], short.headers["Content-Encoding"]), (None, "gzip"))
            self.assertEqual((gzip.decompress(packed), packed[4:8]), (body, bytes(4)))  # which would be the time
            self.assertLess(len(packed), len(body))
            self.assertEqual({plain.headers["Vary"], short.headers["Vary"]}, {"Accept-Encoding"})
            self.assertEqual(plain.headers["ETag"], short.headers["ETag"])
        for target in (EMPTY, "/health", "/nothing"):
            self.assertIsNone(self.server.get(target, Accept_Encoding="gzip")[0].headers["Content-Encoding"], target)

    def test_encodings(self) -> None:
        """gzip by its name, on any line, where its weight isn't 0."""
        for lines, encoding in (
            (["gzip;q=0"], None), (["*;q=0"], None), (["gzip;q=0, *"], None), (["br", "gzip"], "gzip"), (["gzip;q=0.000", "br"], None),
            (["identity;q=0, gzip;q=0.1"], "gzip"), (["GZip ; q=1.0"], "gzip"), (["a, gzip"], "gzip"), (["agzip"], None), ([], None),
        ):  # fmt: skip
            connection = self.connected()
            connection.putrequest("GET", TILE, skip_accept_encoding=True)
            for line in lines:
                connection.putheader("Accept-Encoding", line)
            connection.endheaders()
            reply = connection.getresponse()
            self.assertEqual(len(reply.read()), int(reply.headers["Content-Length"]))
            self.assertEqual(reply.headers["Content-Encoding"], encoding, lines)

    def test_headers_that_are_long(self) -> None:
        """They take little time."""
        lines, begun = f"Accept-Encoding: gzip{' ' * 8000}x\r\n" * 50, self.server.seconds()
        self.assertEqual(self.server.reply_to(f"GET {TILE} HTTP/1.1\r\nHost: localhost\r\n{lines}\r\n".encode())[0].status, 200)
        self.assertLess(self.server.seconds() - begun, 1)


class Origins(Mapped):
    def test_pages_that_may_read(self) -> None:
        """Those of this server, and those that options name. A client that is no page may."""
        there, elsewhere = "https://map.example.org", "http://example.org"
        own = [f"http://127.0.0.1:{self.server.port}", "https://localhost"]
        for options, allowed, refused in (
            ([], [], [there, elsewhere, "null", "x", "", "http://[", own[0] + ".example.org"]),
            (["--origin", there], [there], [elsewhere, "null", there + ".x", there + ":444", "http://map.example.org"]),
            (["--origin", there, "--origin", "null"], [there, "null"], [elsewhere]),
        ):
            with Server(self.table, "--port", "0", *options) as server:
                own[0] = f"http://127.0.0.1:{server.port}"
                for origin in (*own, *allowed):
                    reply, _ = server.get(TILE, Origin=origin)
                    answered = origin if origin in allowed else None
                    self.assertEqual((reply.status, reply.headers["Access-Control-Allow-Origin"]), (200, answered), origin)
                for origin in refused:
                    reply, _ = server.get(TILE, Origin=origin)
                    self.assertEqual((reply.status, reply.headers["Access-Control-Allow-Origin"]), (403, None), origin)
                self.assertEqual(server.get(TILE)[0].status, 200)
                self.assertEqual(server.reply_to(b"<x> y z\r\n\r\n")[0].status, 400)
                self.assertEqual("Origin" in server.get(TILE)[0].headers["Vary"], bool(options))
        with Server(self.table, "--origin", "*") as server:
            for origin in (there, "null"):
                self.assertEqual(server.get(TILE, Origin=origin)[0].headers["Access-Control-Allow-Origin"], "*")

    def test_a_page_of_another_origin(self) -> None:
        """In a browser it reads tiles where it may, and else nothing."""
        wants("chromium")
        browser = Chromium(400, 300)
        self.addCleanup(browser.close)
        with files_served(self.table.parent) as port:
            origin = f"http://127.0.0.1:{port}"
            for options, expected in ((["--origin", origin], 200), ([], "TypeError: Failed to fetch")):
                with Server(self.table, *options) as server:
                    browser.open(f"{origin}/")
                    browser.until(f"location.origin === '{origin}' && document.readyState === 'complete'")
                    script = f"fetch('{server.address.rstrip('/')}{TILE}').then(it => it.status, String)"
                    self.assertEqual(browser.value(script), expected)


class Reloads(unittest.TestCase):
    """SIGHUP has the files loaded anew, by one process and by many."""

    def setUp(self) -> None:
        self.folder = Path(self.enterContext(tempfile.TemporaryDirectory()))
        self.table = self.folder / "boxes.csv"
        self.write(5)

    def write(self, boxes: int, rest: str = "") -> None:
        """A table of so many boxes round the middle of the map, put there in one step."""
        lines = "".join(f"{at},{at},{at + 10},0,10\n" for at in range(boxes))
        (self.folder / "new").write_text(lines + rest)
        (self.folder / "new").replace(self.table)

    def test_the_table_is_exchanged(self) -> None:
        """Requests are answered all the while. A faulty table changes nothing."""
        with Server(self.table) as server:
            connection = server.connected()
            tags = {self.tag(server)}
            for boxes in (7, 9):
                self.write(boxes)
                server.process.send_signal(signal.SIGHUP)
                until(lambda: self.kept(connection) == b'{"boxes": %d}' % boxes)
                tags.add(self.tag(server))
            self.assertEqual(len(tags), 3)
            self.write(5, "nonsense\n")
            server.process.send_signal(signal.SIGHUP)
            until(lambda: metric(server, "rtfilter_loads_failed_total") == 1)
            self.assertEqual(self.kept(connection), b'{"boxes": 9}')
            connection.close()
            self.assertEqual([metric(server, f"rtfilter_{it}") for it in ("boxes", "table_generation")], [9, 3])
            until(lambda: metric(server, "rtfilter_connections") == 1)  # the one that asks
            status, errors = server.end(signal.SIGINT)
        self.assertEqual(status, 0)
        self.assertEqual(errors.splitlines(), [
            "rtfilter-tiles: the table is exchanged: 7 boxes", "rtfilter-tiles: the table is exchanged: 9 boxes",
            f"rtfilter-tiles: {self.table}: table record 6: wrong number of fields (1); the old table stays",
        ])  # fmt: skip

    def test_a_table_for_which_there_is_no_memory(self) -> None:
        """The old one stays, and a message says why."""
        with Server(self.table) as server:
            size = int(found(r"VmSize:\s*(\d+) kB", Path(f"/proc/{server.process.pid}/status").read_text())[1])
            resource.prlimit(server.process.pid, resource.RLIMIT_AS, (size * 1024 + MORE_MEMORY,) * 2)
            self.write(1_000_000)
            server.process.send_signal(signal.SIGHUP)
            until(lambda: metric(server, "rtfilter_loads_failed_total") == 1)
            self.assertEqual(json.loads(server.get("/health")[1]), {"boxes": 5})
            self.assertEqual(server.end(), (0, "rtfilter-tiles: out of memory; the old table stays\n"))

    def test_several_on_one_port(self) -> None:
        """With --reuse-port another process may listen too, and goes on where the first ends."""
        with Server(self.table, "--reuse-port") as one:
            with self.assertRaisesRegex(RuntimeError, f"^rtfilter-tiles: --port {one.port}: the port is in use on 127.0.0.1: choose another port\n$"):
                Server(self.table, "--port", str(one.port))
            with Server(self.table, "--reuse-port", "--port", str(one.port)) as other:
                self.assertEqual(one.end(), (0, ""))
                self.assertEqual(json.loads(other.get("/health")[1]), {"boxes": 5})

    def test_an_address_of_another_machine(self) -> None:
        with self.assertRaisesRegex(RuntimeError, "^rtfilter-tiles: --listen 203.0.113.1: cannot assign requested address\n$"):
            Server(self.table, "--listen", "203.0.113.1")

    def test_an_end_during_a_load(self) -> None:
        """However long that takes: here minutes, for a file of nothing. While it is loaded again the status is 0."""
        endless, linked = self.folder / "endless", self.folder / "linked"
        endless.touch()
        os.truncate(endless, ENDLESS)
        for number in (signal.SIGTERM, signal.SIGINT):
            process = subprocess.Popen([*COMMAND, str(endless)], env=environment())
            until(lambda: is_read(process.pid, endless))
            process.send_signal(number)
            self.assertEqual(process.wait(LONGEST), -number)
            self.write(5)
            with Server(self.table) as server:
                linked.hardlink_to(endless)
                linked.replace(self.table)
                server.process.send_signal(signal.SIGHUP)
                until(lambda: is_read(server.process.pid, self.table))
                self.assertEqual(server.end(number), (0, ""))

    def test_a_table_that_changes_while_it_is_read(self) -> None:
        """It is refused: boxes would be shown elsewhere than they are found, or with the tag of others."""
        def late(files: Files) -> Boxes:
            self.write(5)
            return Boxes(files)

        args = argparse.Namespace(table=str(self.table), header=False, names=None, layers=None, url=None)
        with mock.patch.object(command, "Boxes", late), self.assertRaises(ValueError) as raised:
            command.loaded(args)
        self.assertEqual(str(raised.exception), f"{self.table}: the file has changed while it was read: load it again")

    def test_a_table_from_a_pipe(self) -> None:
        """It can't be read twice, and is refused."""
        done = subprocess.run([*COMMAND, "/dev/stdin"], input="1,0,1,0,1\n", capture_output=True, text=True, env=environment(), timeout=LONGEST)
        why = "rtfilter-tiles: /dev/stdin: a pipe can't be read twice: write it to a file first\n"
        self.assertEqual((done.returncode, done.stderr), (1, why))

    def kept(self, connection: HTTPConnection) -> bytes:
        connection.request("GET", "/health")
        return connection.getresponse().read()

    def tag(self, server: Server) -> str | None:
        return server.get("/tiles.json")[0].getheader("ETag")

    def test_accesses_are_logged(self) -> None:
        """In the Common Log Format, to a file that may be moved away, and each as one line, whatever the request."""
        log = self.folder / "log"
        with Server(self.table, "--log", str(log)) as server:
            size = len(server.get("/health")[1])
            server.reply_to(b'GET /"x"\xff\x07 HTTP/1.1\r\nHost: localhost\r\n\r\n')
            server.reply_to(b"GET /\xff HTTP/1.1\r\nHost: localhost\r\n\r\n")
            until(lambda: log.read_text().count("\n") == 3)
            log.replace(self.folder / "older")
            server.get("/22/0/0.pbf")
            until(log.exists)
        older, newer = (it.read_text().splitlines() for it in (self.folder / "older", log))
        moment = r'\[\d\d/[A-Z][a-z]{2}/\d{4}:\d\d:\d\d:\d\d \+0000\]'
        self.assertEqual((len(older), len(newer)), (3, 1))
        self.assertRegex(older[0], rf'^127\.0\.0\.1 - - {moment} "GET /health HTTP/1\.1" 200 {size}$')
        for line in older[1:]:
            self.assertRegex(line, rf'^127\.0\.0\.1 - - {moment} ".*" 40\d \d+$')
        self.assertTrue(newer[0].endswith('"GET /22/0/0.pbf HTTP/1.1" 204 -'), newer)

    def test_a_log_that_cannot_be_written(self) -> None:
        """Requests are answered, and that is said once in a while: the disk is full, or the folder is gone for some time."""
        with Server(self.table, "--log", "/dev/full") as server:
            self.assertEqual([server.get("/health")[0].status for _ in range(5)], [200] * 5)
            self.assert_said(server, "rtfilter-tiles: --log /dev/full: lines are lost: No space left on device")
        folder, other = self.folder / "logs", self.folder / "moved"
        folder.mkdir()
        with Server(self.table, "--log", str(folder / "log")) as server:
            folder.replace(other)
            self.assertEqual([server.get("/health")[0].status for _ in range(5)], [200] * 5)
            other.replace(folder)
            server.get("/nowhere")
            until(lambda: '"GET /nowhere HTTP/1.1" 404 ' in (folder / "log").read_text())
            self.assert_said(server, f"rtfilter-tiles: --log {folder}/log: lines are lost: No such file or directory")

    def assert_said(self, server: Server, line: str) -> None:
        """At its end a server has said a line, once or, on a busy machine, now and then."""
        status, said = server.end()
        self.assertEqual((status, {*said.splitlines()}), (0, {line}))

    def test_messages(self) -> None:
        """What isn't HTTP is a line each, without a traceback; a lack of descriptors is one every ten seconds."""
        with Server(self.table, before=["prlimit", "--nofile=24"]) as server:
            for request in (b"<x> y z", b"GET /\x1b[31m HTTP/1.1", b"\0\0\0\0", b"GET / HTTP/1.1\r\nHost: x\r\nContent-Length: -1"):
                self.assertEqual(server.reply_to(request + b"\r\n\r\n")[0].status, 400)
            connections = [socket.create_connection(("127.0.0.1", server.port)) for _ in range(40)]
            self.assertTrue(select.select([server.process.stderr], [], [], LONGEST)[0])
            time.sleep(1.5)  # in which it tries again
            for connection in connections:
                connection.close()
            self.assertEqual(server.get("/health")[0].status, 200)
            status, said = server.end()
        lines = said.splitlines()
        self.assertEqual((status, len(lines) in range(5, 9)), (0, True), said)
        for line in lines[:4]:
            self.assertRegex(line, "^rtfilter-tiles: a request that isn't HTTP: 400, message=")
        self.assertEqual({*lines[4:]}, {"rtfilter-tiles: socket.accept() out of system resource: [Errno 24] Too many open files"})

    def test_an_address_of_ipv6(self) -> None:
        """Its browser names it in brackets."""
        try:
            socket.create_server(("::1", 0), family=socket.AF_INET6).close()
        except OSError as error:
            self.skipTest(f"IPv6: {error}")
        with Server(self.table, "--listen", "::1") as server:
            self.assertEqual(server.address, f"http://[::1]:{server.port}/")
            connection = HTTPConnection("::1", server.port, timeout=LONGEST)
            self.addCleanup(connection.close)
            for headers in ({}, {"Host": "[::1]"}):
                connection.request("GET", "/health", headers=headers)
                self.assertEqual(connection.getresponse().read(), b'{"boxes": 5}')

    def test_metrics(self) -> None:
        with Server(self.table) as server:
            for target in ("/health", "/nowhere", "/22/0/0.pbf"):
                for _ in range(5):
                    server.get(target)
            reply, body = server.get("/metrics")
            self.assertEqual(reply.getheader("Content-Type"), "text/plain; version=0.0.4; charset=utf-8")
            self.assertIn(b"# TYPE rtfilter_replies_total counter\n", body)
            counts = {status: metric(server, f'rtfilter_replies_total{{status="{status}"}}') for status in (200, 204, 404)}
            self.assertEqual((counts[204], counts[404]), (5, 5))
            self.assertEqual(counts[200], 6)


class OwnFaults(unittest.IsolatedAsyncioTestCase):
    async def test_they_are_counted(self) -> None:
        """A request on which the server fails has status 500, and so has the metric."""
        class Faulty(Views):
            def __init__(self) -> None:
                pass

            def __len__(self) -> int:
                return 5

            def size(self) -> int:
                raise RuntimeError("a fault of a test")

        app = serving.Server(serving.Served(Faulty(), "tag"), {"localhost"}, set(), None, 0).app()
        async with TestClient(TestServer(app)) as client:
            for target, status in ("/health", 500), ("/nowhere", 404), ("/metrics", 200):
                reply = await client.get(target, headers={"Host": "localhost"})
                self.assertEqual(reply.status, status)
            self.assertIn('rtfilter_replies_total{status="500"} 1\n', await reply.text())


def is_read(process: int, file: Path) -> bool:
    """Whether a process has a file open."""
    try:
        return any(os.path.samefile(it, file) for it in Path(f"/proc/{process}/fd").iterdir())
    except FileNotFoundError:  # a descriptor that was closed meanwhile
        return False


def metric(server: Server, name: str) -> float:
    text = server.get("/metrics")[1].decode()
    (found,) = re.findall(rf"^{re.escape(name)} (\S+)$", text, re.MULTILINE)
    return float(found)


class Many(Mapped):
    def test_many_at_once(self) -> None:
        """Each reply is that to one client alone."""
        targets = [TILE, "/ask?q=nearest+3+5+5", "/about", *(f"/10/{x}/{y}.pbf" for x in range(510, 514) for y in range(510, 514))]
        alone = {target: self.server.get(target)[1] for target in targets}
        faults: list[str] = []

        def ask() -> None:
            for _ in range(5):
                faults.extend(target for target in targets if self.server.get(target)[1] != alone[target])

        with all_of(threading.Thread(target=ask) for _ in range(12)):
            pass
        self.assertEqual(faults, [])

    def test_clients_that_leave(self) -> None:
        """Nothing is done for those whose turn hasn't come: others are answered meanwhile."""
        with Server(self.table) as server:
            for _ in range(200):
                with socket.create_connection(("127.0.0.1", server.port)) as leaving:
                    leaving.sendall(b"GET /view?x1=-90000000&x2=90000000&y1=-90000000&y2=90000000 HTTP/1.1\r\nHost: localhost\r\n\r\n")
            until(lambda: re.search(rb'_total{status="408"} \d{3}\n', server.get("/metrics")[1]))


class Cost(unittest.TestCase):
    def test_a_tile(self) -> None:
        """Processor time of the server, compression and all."""
        folder = large_map()
        with Server(folder / "boxes.csv", "--names", str(folder / "names.csv")) as server:
            connection = server.connected()
            self.addCleanup(connection.close)
            with open(folder / "boxes.csv", newline="") as file:
                places = [(int(row[1]), int(row[3])) for row in list(csv.reader(file))[::333]]
            side = 2 * HALF / 2**15
            begun = server.seconds()
            for x, y in places:
                target = f"/15/{int((x + HALF) / side)}/{int((HALF - y) / side)}.pbf"
                connection.request("GET", target, headers={"Accept-Encoding": "gzip"})
                self.assertEqual(len(connection.getresponse().read()) > 0, True)
            self.assertLess((server.seconds() - begun) / len(places), MOST_SECONDS)


@contextlib.contextmanager
def files_served(folder: Path) -> Iterator[int]:
    """A server of another origin, by its port."""
    handler = functools.partial(SimpleHTTPRequestHandler, directory=str(folder))
    with ThreadingHTTPServer(("127.0.0.1", 0), handler) as server, all_of([threading.Thread(target=server.serve_forever)]):
        try:
            yield server.server_address[1]
        finally:
            server.shutdown()

"""Bad requests are refused; tables of every kind are held as they are."""

import json
import random
import re
import tempfile
import unittest
from pathlib import Path
from urllib.parse import quote

import random_runs
from tiles_support import BOXES, Mapped, Server, replies_of

TEXT = "text/plain; charset=utf-8"


class Refusals(Mapped):
    def assert_refused(self, request: bytes, status: int) -> None:
        reply, body = self.server.reply_to(request)
        self.assertEqual((reply.status, reply.headers["Content-Type"]), (status, TEXT), (request[:80], body[:200]))
        # (what isn't HTTP is refused before the application sees it)
        if reply.headers["Server"] == "rtfilter-tiles":
            self.assertEqual(reply.headers["X-Content-Type-Options"], "nosniff")
            self.assertNotIn(b"<", body)

    def test_requests_that_are_not_answered(self) -> None:
        host = b"Host: 127.0.0.1:%d\r\n" % self.server.port
        for method in (b"POST", b"PUT", b"DELETE", b"OPTIONS", b"CONNECT", b"TRACE"):
            self.assert_refused(method + b" / HTTP/1.1\r\n" + host + b"\r\n", 405)
        for method in (b"get", b"<b>"):
            self.assert_refused(method + b" / HTTP/1.1\r\n" + host + b"\r\n", 400)
        own = b"127.0.0.1:%d" % self.server.port
        for name in (
            b"example.org", b"127.0.0.1:1", own + b".example.org", b"<b>", b"", own + b"/", own + b", example.org",
            own + b"\r\n example.org", b"x@" + own, b"127.1", b"2130706433", b"[::1]", b"localhost.",
            b"\xff", b"example.org\r\nX-Forwarded-Host: localhost",
        ):  # fmt: skip
            self.assert_refused(b"GET / HTTP/1.1\r\nHost: " + name + b"\r\n\r\n", 421)
            self.assert_refused(b"GET http://localhost/ HTTP/1.1\r\nHost: " + name + b"\r\n\r\n", 421)
        for headers in (b"Host : localhost", b"Host: localhost\0.org", b"Host: localhost\rx", b"Host: localhost\r\nHOST: localhost"):
            self.assert_refused(b"GET / HTTP/1.1\r\n" + headers + b"\r\n\r\n", 400)
        for name in (own, b"LocalHost:%d " % self.server.port, b"localhost"):
            reply, _ = self.server.reply_to(b"GET /about HTTP/1.1\r\nHost: " + name + b"\r\n\r\n")
            self.assertEqual(reply.status, 200, name)
        self.assert_refused(b"GET / HTTP/1.1\r\n\r\n", 400)
        self.assert_refused(b"GET / HTTP/1.1\r\n" + host + host + b"\r\n", 400)
        self.assert_refused(b"GET /" + b"x" * 5000 + b" HTTP/1.1\r\n" + host + b"\r\n", 404)
        self.assert_refused(b"GET /" + b"x" * 70_000 + b" HTTP/1.1\r\n" + host + b"\r\n", 400)
        self.assert_refused(b"GET / HTTP/1.1\r\n" + host + b"X: y\r\n" + b"Y: " + b"y" * 20_000 + b"\r\n\r\n", 400)
        self.assert_refused(b"<script>alert(1)</script> a b\r\n\r\n", 400)
        self.assert_refused(bytes(range(1, 10)) * 9 + b"\r\n\r\n", 400)
        for target in (b"/ask?q=\xff", b"/ask?q=\xed\xa0\x80", b"/about?\xff", b"/0/0/0.pbf?on=\xff"):
            self.assert_refused(b"GET " + target + b" HTTP/1.1\r\n" + host + b"\r\n", 400)
        self.assertEqual(self.json("/about")["boxes"], BOXES)

    def test_addresses_that_are_none(self) -> None:
        view = "x1=0&x2=9&y1=0&y2=9"
        for target in (
            "/nothing", "/serve.py", "/../serve.py", "/%2e%2e/serve.py", "/page.js/", "/0/0/0", "/00/0/0.pbf",
            "/-1/0/0.pbf", "/0/1/0.pbf", "/0/0/1.pbf", "/5/32/0.pbf", "/5/0/32.pbf", "/23/0/0.pbf", "/99/0/0.pbf",
            "/1/1/99999999.pbf", "//127.0.0.1/view", "/1/0/+1.pbf", "/1/0/1.pbf.gz", "/1/0/\u0661.pbf",
            "/%30/0/0.pbf", "/0%2f0/0.pbf", "/0/0/0.pbf%20", "/22/4194304/0.pbf", "/22/0/4194304.pbf", "/22/-1/0.pbf", "/-0/0/0.pbf",
            "/4294967296/0/0.pbf", "/0/0/0.pbf;x",
        ):  # fmt: skip
            reply, _ = self.server.get(quote(target, safe="/%+"))
            self.assertEqual(reply.status, 404, target)
        for target in (
            "/view", "/view?x1=0", f"/view?{view}&x1=0", f"/view?{view}&z=0", f"/view?{view}&on=64",
            f"/view?{view}&on=", f"/view?{view}&on=1,,2",
            "/view?x1=9&x2=0&y1=0&y2=9", "/view?x1=0&x2=9999999999&y1=0&y2=9",
            "/view?x1=0&x2=1e3&y1=0&y2=9", "/view?x1=0&x2=99999999999999999999&y1=0&y2=9", "/ask", "/ask?q=a&q=b",
            "/ask?q=count+all%0Acount+all", "/ask?" + "&".join(["q="] * 20), "/about?x=1", "/?x=1", "/0/0/0.pbf?on=99",
            "/0/0/0.pbf?x=1", "http://127.0.0.1/",
        ):  # fmt: skip
            reply, body = self.server.get(target)
            self.assertEqual((reply.status, reply.headers["Content-Type"]), (400, TEXT), (target, body))

    def test_a_page_may_load_nothing_from_elsewhere(self) -> None:
        for target, kind in (("/", "text/html"), ("/page.js", "text/javascript"), ("/page.css", "text/css")):
            reply, body = self.server.get(target)
            self.assertEqual((reply.status, reply.headers["Content-Type"]), (200, f"{kind}; charset=utf-8"))
            self.assertIn("default-src 'none'; script-src 'self';", reply.headers["Content-Security-Policy"])
            self.assertNotIn(b"//", re.sub(rb"(?m)(^|\s)// .*$", b"", body))
            self.assertIsNone(re.search(rb"innerHTML|outerHTML|document\.write|insertAdjacentHTML|eval\(", body))

    def test_lines_at_random(self) -> None:
        """Each is answered as the program does, or is refused since it may have too many answers."""
        chance = random.Random(3)
        answered = refused = 0
        for _ in range(250):
            line = random_runs.some_line(chance).decode(errors="ignore")
            reply, body = self.server.get("/ask?q=" + quote(line))
            if reply.status != 200:
                self.assertEqual(reply.status, 400)
                continue
            found, expected = json.loads(body), replies_of(self.table, [line])
            if found.get("fault", "").startswith(("here ", "a line ")):
                refused += 1
                continue
            rows = [f"{answer['id']} {answer['score']}" for answer in found.get("answers", [])]
            last = f"ok 1 {found['total']}" if "total" in found else f"error 1 {found['fault']}"
            self.assertEqual([[*rows, last]], expected, line)
            self.assertLessEqual(len(rows), 1000)
            answered += 1
        self.assertGreater(min(answered, refused), 20)


    def test_faults_before_limits(self) -> None:
        """A line that is invalid has the program's fault, whether it ends with `first K` or not."""
        limit = "here a find has to end with first K, where K is at most 1000"
        for line, fault in (
            ("find box", None), ("find box first 2000", None), ("cost find box", None), ("find window 1 2", None), ("find", None),
            ("find all first x", None), ("nearest 2000 5", None), ("nearest x 5 5", None),
            ("find all", limit), ("cost find all", limit), ("find all smallest first 1001", limit),
        ):  # fmt: skip
            reply, body = self.server.get("/ask?q=" + quote(line))
            self.assertEqual(reply.status, 200)
            found = json.loads(body)["fault"]
            if fault is None:
                self.assertEqual([[f"error 1 {found}"]], replies_of(self.table, [line]), line)
            else:
                self.assertEqual(found, fault, line)


class Tables(unittest.TestCase):
    """What is held beside the ids is what the table says, however it says it."""

    def test_ids_and_records_of_every_kind(self) -> None:
        table = Path(self.enterContext(tempfile.TemporaryDirectory()), "boxes.csv")
        most, least = 2**63 - 1, -(2**63)
        boxes = {most: [1, 2, 3, 4, 0], least: [-5, 6, -7, 8, 63], 0: [9, 9, 9, 9, 2], 7: [-2, 0, 0, 0, 0]}
        records = ["id,a,b,c,größe", f'{most},"1",2,+3,004', "", f"{least},-5,6,-7,8,63", "0,9,9,9,9,2", '"7",-2,0,0,0']
        for encoding, begin, end in (
            ("utf-8", b"\xef\xbb\xbf", "\r\n"), ("latin-1", b"", "\r\n"), ("utf-8", b"\xef\xbb\xbf\r\r\n\n", "\r"), ("latin-1", b"\r\r", "\n"),
        ):  # fmt: skip
            table.write_bytes(begin + end.join(records).encode(encoding))
            self.check_shown(table, boxes)

    def check_shown(self, table: Path, boxes: dict[int, list[int]]) -> None:
        with Server(table, "--header") as server:
            _, body = server.get("/ask?q=" + quote("find all first 9"))
            answers = json.loads(body)["answers"]
            self.assertEqual([answer["id"] for answer in answers], [str(id) for id in sorted(boxes)])
            for answer in answers:
                self.assertEqual(answer["score"], "0")
                self.assertEqual([*answer["box"], answer["layer"]], boxes[int(answer["id"])])
            about = json.loads(server.get("/about")[1])
            self.assertEqual(about["bounds"], [-5, 9, -7, 9])
            self.assertEqual([layer["number"] for layer in about["layers"]], [0, 2, 63])
            self.assertEqual(server.get("/view?x1=2000000000&x2=2000000001&y1=0&y2=0")[1], b'{"count": 0, "boxes": []}')

    def test_a_faulty_table(self) -> None:
        table = Path(self.enterContext(tempfile.TemporaryDirectory()), "boxes.csv")
        table.write_text("1,0,1,0,1\n1,0,1,0,1\n")
        with self.assertRaisesRegex(RuntimeError, f"^rtfilter-tiles: {table}: table record 2: repeated id$"):
            Server(table)

    def test_names_that_are_none(self) -> None:
        folder = Path(self.enterContext(tempfile.TemporaryDirectory()))
        (folder / "boxes.csv").write_text("1,0,1,0,1,3\n2,0,1,0,1,4\n")
        for text, message in (
            ("3,x\nid,name\n", "names.csv, line 2: not a number and a name\n"),
            ("3,x\n4\n", "names.csv, line 2: not a number and a name\n"),
            ("3,x\n4,x\n", "names.csv: two layers have the same name, or one has the name density\n"),
            ("3,density\n", "names.csv: two layers have the same name, or one has the name density\n"),
            ("4,layer 3\n", "names.csv: two layers have the same name, or one has the name density\n"),
        ):
            (folder / "names.csv").write_text(text)
            with self.assertRaises(RuntimeError) as raised:
                Server(folder / "boxes.csv", "--layers", str(folder / "names.csv"))
            self.assertTrue(str(raised.exception).endswith(message), raised.exception)

    def test_names_as_a_spreadsheet_writes_them(self) -> None:
        """With a byte order mark, CR LF, and line ends within a name; a number that no box has says nothing."""
        folder = Path(self.enterContext(tempfile.TemporaryDirectory()))
        (folder / "boxes.csv").write_text("1,0,1,0,1\n2,0,1,0,1\n")
        (folder / "names.csv").write_bytes(b'\xef\xbb\xbf1,"a\r\nb"\r\n\r\n99999999999999999999,x\r\n')
        with Server(folder / "boxes.csv", "--names", str(folder / "names.csv")) as server:
            answers = json.loads(server.get("/ask?q=find+all+first+2")[1])["answers"]
            self.assertEqual([answer.get("name") for answer in answers], ["a\r\nb", None])

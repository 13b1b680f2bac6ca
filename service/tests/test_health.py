"""What a service tells of itself over HTTP."""

import contextlib
import os
import re
import shutil
import signal
import socket
import subprocess
import sys
import time
from pathlib import Path

from served import BOXES, MOMENT, Case, command_of, copied, read_lines, stop, table_of, until

SAMPLE = r'^rtfilter_[a-z_]+(\{(status|signal)="\d+"\})? \d+(\.\d+)?$'
HEALTH = b"GET /health HTTP/1.0\r\n"


class Health(Case):
    def test_metrics(self) -> None:
        service = self.served(BOXES, "--health", "0", "--connections", "2")
        service.ask(b"count all\n")
        service.ask(b"x\n")
        with contextlib.ExitStack() as stack:
            one = stack.enter_context(service.connect())
            self.count(one)
            (first,) = service.connections
            two = stack.enter_context(service.connect())
            self.count(two)
            with service.connect() as three:
                three.recv(1)
            os.kill(first, signal.SIGKILL)
            self.assertEqual(one.recv(1), b"")
            service.exchange()
            until(lambda: service.metric("rtfilter_connections") == 1, "the end of a connection")
            status, text = service.get("/metrics")
        self.assertEqual(status, 200)
        samples = [line for line in text.splitlines() if not line.startswith("#")]
        for line in samples:
            self.assertRegex(line, SAMPLE)
        values = dict(line.rsplit(" ", 1) for line in samples)
        self.assertLess(float(values.pop("rtfilter_table_age_seconds")), 5)
        self.assertTrue(0 < float(values.pop("rtfilter_busy_seconds_total")) < 5)
        self.assertEqual(values, {
            "rtfilter_ready": "1", "rtfilter_boxes": "5", "rtfilter_connections": "1", "rtfilter_connections_total": "5",
            "rtfilter_connections_refused_total": "1", "rtfilter_connections_not_begun_total": "0",
            'rtfilter_connections_ended_total{status="0"}': "1",
            'rtfilter_connections_ended_total{status="1"}': "1", 'rtfilter_connections_ended_total{signal="9"}': "1",
            "rtfilter_lines_answered_total": "4", "rtfilter_table_generation": "2", "rtfilter_loads_failed_total": "0",
        })
        types = dict(re.findall(r"^# TYPE (\w+) (\w+)$", text, re.MULTILINE))
        self.assertEqual({name: "counter" if name.endswith("_total") else "gauge" for name in types}, types)
        self.assertEqual(set(types), {re.split(r"\W", name)[0] for name in values} | {"rtfilter_table_age_seconds", "rtfilter_busy_seconds_total"})

    def test_while_there_is_no_table(self) -> None:
        """Before the first one is loaded, and after the program has ended; not while another one is loaded."""
        table = Path(self.folder, "table")
        os.mkfifo(table)
        service = self.served(table, "--health", "0", is_ready=False)
        service.logs("^health on ")
        self.assertEqual(service.get("/health"), (503, "not ready\n"))
        self.assertNotIn("rtfilter_boxes", service.get("/metrics")[1])
        table.write_bytes(BOXES.read_bytes())
        service.logs("^ready: 5 boxes$")
        self.assertEqual(service.get("/health"), (200, "ready\n"))
        (program,) = service.programs
        service.signal(signal.SIGHUP)
        until(lambda: len(service.programs) == 2, "the load")
        self.assertEqual(service.get("/health"), (200, "ready\n"))
        os.kill(program, signal.SIGKILL)
        until(lambda: service.get("/health") == (503, "not ready\n"), "the end of the program")
        table.write_bytes(BOXES.read_bytes())
        until(lambda: service.get("/health") == (200, "ready\n"), "another program")

    def test_lines_and_loads(self) -> None:
        """Lines of all connections and tables, blank ones and comments included."""
        table = Path(self.folder, "table")
        table.write_bytes(BOXES.read_bytes())
        service = self.served(table, "--health", "0", "--max-entries", "5")
        lines = b"count all\n\n# find all\n \t\r\n  x\n" + b"#" * 70_000 + b"\nfind all"
        self.assertEqual(service.ask(lines).count(b"\n"), 3 + 1 + 5)  # a line that is too long is answered, whatever it is
        self.assertEqual(service.metric("rtfilter_lines_answered_total"), 7)
        service.exchange()
        with service.connect() as asker:
            for at in range(1, 4):
                self.count(asker, at=at)
                until(lambda: service.metric("rtfilter_lines_answered_total") == 7 + at, "a line")
        with open(table, "a") as more:
            more.write("6,0,1,0,1\n")
        service.signal(signal.SIGHUP)
        fault = "table record 6: too many entries; docs/scaling.md says what holds more boxes"
        service.logs(f"^the new table isn't taken, the old one stays: {table}: {fault}$")
        self.assertEqual([service.metric(f"rtfilter_{it}") for it in ("table_generation", "loads_failed_total")], [2, 1])

    def test_loads_that_do_not_begin(self) -> None:
        """They have failed, too: the program is gone, as while a package is exchanged."""
        program = copied(Path(self.folder))
        service = self.served(BOXES, "--health", "0", program=str(program))
        program.unlink()
        service.signal(signal.SIGHUP)
        service.logs(f"^the new table isn't taken, the old one stays: the program can't be started: {program}: No such file or directory$")
        self.assertEqual(service.metric("rtfilter_loads_failed_total"), 1)
        self.assert_well(service)

    def test_an_end_while_a_client_asks(self) -> None:
        """It says nothing of that, in whatever Python."""
        for python in {sys.executable, shutil.which("python3") or sys.executable}:
            service = self.served(BOXES, "--health", "0", python=python)
            with socket.create_connection(service.place("health")) as asker:
                asker.sendall(HEALTH)
                self.assertEqual(service.get("/health")[0], 200)
                service.signal(signal.SIGTERM)
                self.assertEqual(service.process.wait(10), 0)
            self.assertEqual(len(service.log.splitlines()), 3, service.log)

    def test_more_clients_than_descriptors(self) -> None:
        """Those that come at once are tried again and again, which is logged every ten seconds, and leave no trace."""
        service = self.served(BOXES, "--health", "0", before=["prlimit", "--nofile=64"])
        with contextlib.ExitStack() as stack:
            stop([service.process.pid])
            for _ in range(150):
                asker = stack.enter_context(socket.socket())
                asker.setblocking(False)
                asker.connect_ex(service.place("health"))
            service.signal(signal.SIGCONT)
            service.logs("Too many open files$")
            time.sleep(1.5)  # in which it tries again
        until(lambda: service.get("/health") == (200, "ready\n"), "a descriptor")
        self.assert_well(service)
        self.assertLess(service.log.count("Too many open files"), 5)

    def test_busy_seconds(self) -> None:
        """From a read of lines to the next read: a search and its writes, and no wait for lines."""
        service = self.served(table_of(self.folder, "many", 0, 100_000), "--health", "0")
        with service.connect() as asker:
            self.count(asker, boxes=100_000)
            until(lambda: service.metric("rtfilter_lines_answered_total") == 1, "a line")
            before = service.metric("rtfilter_busy_seconds_total")
            time.sleep(1)
            self.count(asker, at=2, boxes=100_000)
            until(lambda: service.metric("rtfilter_lines_answered_total") == 2, "a line")
            self.assertLess(service.metric("rtfilter_busy_seconds_total") - before, 0.5)
            begun = time.monotonic()
            asker.sendall(b"find all near 0 0\n" * 5)
            asker.recv(1, socket.MSG_PEEK)
            time.sleep(0.5)  # in which its replies wait for a reader
            read_lines(asker, 5 * 100_001)
            until(lambda: service.metric("rtfilter_lines_answered_total") == 7, "lines")
            busy = service.metric("rtfilter_busy_seconds_total") - before
            self.assertTrue(0.4 < busy <= time.monotonic() - begun + 0.5, busy)

    def test_times_in_the_log(self) -> None:
        """None if the journal adds them."""
        service = self.served()
        lines = service.log_file.read_text().splitlines()
        self.assertTrue(lines and all(map(MOMENT.match, lines)), lines)
        with open(Path(self.folder, "journal"), "wb") as journal:
            status = os.fstat(journal.fileno())
            stream = {**os.environ, "JOURNAL_STREAM": f"{status.st_dev}:{status.st_ino}"}
            subprocess.run([*command_of(), "--unix", f"{self.folder}/other", "/no/such/table"], stderr=journal, env=stream, timeout=20)
        logged = Path(self.folder, "journal").read_text().splitlines()
        self.assertEqual(logged, [f"listening on {self.folder}/other", "/no/such/table: cannot open table: No such file or directory"])

    def test_requests(self) -> None:
        service = self.served(BOXES, "--health", "0")
        for request, status in (
            (b"GET /health HTTP/1.1\r\nHost: here\r\nConnection: keep-alive\r\n\r\n", 200), (b"GET /health\n\n", 200),
            (b"HEAD /health HTTP/1.0\r\n\r\n", 200), (b"HEAD /metrics HTTP/1.1\r\nHost: here\r\n\r\n", 200), (b"HEAD / HTTP/1.0\r\n\r\n", 404),
            (b"GET / HTTP/1.0\r\n\r\n", 404), (b"GET /healthy HTTP/1.0\r\n\r\n", 404),
            (b"POST /health HTTP/1.0\r\n\r\n", 404), (b"\r\n\r\n", 404), (b"\0\xff\n\n", 404), (b"GET\r\n\r\n", 404),
        ):
            self.assertEqual(service.reply_to(request)[0], status, request)

    def test_slow_and_silly_ones(self) -> None:
        """A client that says nothing, too much, or reads nothing keeps no other waiting, and is dropped after some seconds."""
        service = self.served(BOXES, "--health", "0")
        (before, _) = service.files_at_rest()
        with contextlib.ExitStack() as stack:
            place = service.place("health")
            askers = [stack.enter_context(socket.create_connection(place)) for _ in range(200)]
            for at, asker in enumerate(askers):
                with contextlib.suppress(ConnectionError):
                    asker.sendall([b"", HEALTH, b"GET " + b"x" * 10_000, b"a: b\r\n" * 2000, HEALTH + b"a\n" * 100_000][at % 5])
            begun = time.monotonic()
            self.assertEqual(service.get("/health"), (200, "ready\n"))
            self.assert_well(service)
            self.assertLess(time.monotonic() - begun, 2)
            until(lambda: service.open_files[0] < before + 70, "an end to most of them")
            for asker in askers:
                asker.settimeout(10)
                with contextlib.suppress(ConnectionError):
                    self.assertNotIn(b"200", asker.recv(100))
        until(lambda: service.open_files[0] == before, "nothing left open")
        self.assertNotIn("Traceback", service.log)

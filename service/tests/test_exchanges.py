"""Another table beside the one that answers: each connection has one of them, for as long as it lives."""

import contextlib
import itertools
import os
import signal
import socket
import sys
import threading
import time
from pathlib import Path

from served import BOXES, PROGRAM, Case, Served, answers, read_lines, send, until
from support import AT_IMPORT, HANG_UP, INTERRUPT, all_of, output_of_program


class Exchanges(Case):
    def put(self, text: str) -> None:
        """A new table in the place of the old one, in one step."""
        fresh = Path(self.folder, "fresh")
        fresh.write_text(text)
        fresh.replace(self.table)

    def setUp(self) -> None:
        super().setUp()
        self.table = Path(self.folder, "table")
        self.table.write_bytes(BOXES.read_bytes())

    def test_200_under_load(self) -> None:
        """Each connection is answered from one table, wholly, and after an exchange from the new one; no slot
        is lost, and nothing is left."""
        self.put("".join(f"{at},0,1,0,1\n" for at in range(100)))
        service = self.served(self.table, "--connections", "6", "--health", "0")
        is_over, faults, finished = threading.Event(), list[object](), list[int]()
        least = 0  # of tables that may be met: the last one that was exchanged for

        def ask() -> None:
            while not is_over.is_set():
                known = least
                with service.connect() as asker:
                    for line in range(1, 6):
                        asker.sendall(b"find all\n")
                        found = read_lines(asker, 101)
                        first = int(found.split(b" ", 1)[0])
                        if line == 1:
                            begun = first
                        if first != begun or first < known or found != answers(first, 100) + b"ok %d 100\n" % line:
                            faults.append((line, begun, known, found[:50]))
                    asker.shutdown(socket.SHUT_WR)
                    if asker.recv(1):  # whoever has seen the end has given its slot back
                        faults.append("more than was asked for")
                finished.append(begun)

        with all_of(threading.Thread(target=ask) for _ in range(6)):
            try:
                for at in range(1, 201):
                    first = at * 1000
                    self.put("".join(f"{first + box},0,1,0,1\n" for box in range(100)))
                    service.exchange()
                    least = first
            finally:
                is_over.set()
        self.assertEqual(faults, [])
        ends = [line for line in service.log.splitlines() if line.startswith("connection") and ": status=0 " not in line]
        self.assertEqual(ends, [])
        self.assertGreater(len(set(finished)), 50)
        until(lambda: len(service.programs) == 1 and not service.connections, "the end of old tables")
        service.logs("status=0 ", len(finished))
        self.assertEqual(service.log.count(" status=0 "), len(finished))
        self.assertEqual([service.metric(f"rtfilter_connections{name}") for name in ("", "_total")], [0, len(finished)])
        self.assertNotIn("refused", service.log)

    def test_drain(self) -> None:
        """What is left to the old table after that is ended, and logged."""
        service = self.served(self.table, "--drain", "0.5")
        with service.connect() as old, service.connect() as other:
            self.count(old)
            service.exchange()
            begun = time.monotonic()
            self.assertEqual(old.recv(1), b"")
            self.assertLess(time.monotonic() - begun, 2)
            service.logs("^the connections that are left to the old table are ended$")
            service.logs(r"^connection 1 \(.*\): signal=9 ")
        until(lambda: len(service.programs) == 1, "the end of the old table")
        self.assert_well(service)

    def test_at_most_two_tables(self) -> None:
        """A connection keeps its table. A third one is loaded once the first one's connections have ended; any number of signals is one.
        The log says what that waits for."""
        service = self.served(self.table, "--drain", "120")
        with service.connect() as old:
            self.count(old)
            self.put("7,0,1,0,1\n")
            service.exchange()
            service.logs("^the table is exchanged: 1 boxes$")
            self.put("8,0,1,0,1\n9,0,1,0,1\n")
            for _ in range(50):
                service.signal(signal.SIGHUP)
                time.sleep(0.002)
            what = r"connections to the old table: 1, for at most 120 seconds \(--drain\)"
            service.logs(f"^the exchange waits until another one is over: {what}$")
            self.assertEqual(len(service.programs), 2)
            self.assertEqual(service.ask(b"find all"), b"7 0\nok 1 1\n")
            old.sendall(b"find all\n")
            self.assertEqual(read_lines(old, 6), output_of_program(BOXES, b"\nfind all\n"))
        service.logs("^the table is exchanged: 2 boxes$")
        self.assertEqual(service.ask(b"find all"), b"8 0\n9 0\nok 1 2\n")
        until(lambda: len(service.programs) == 1, "the end of the old table")
        self.assertEqual((service.log.count("is exchanged"), service.log.count("exchange waits")), (2, 1))

    def slow_program(self) -> tuple[str, Path]:
        """A program that begins to load its table once a file is there, and the file."""
        may_load = Path(self.folder, "may load")
        return self.script(f"while ! test -e '{may_load}'; do sleep 0.05; done\nexec {PROGRAM} \"$@\""), may_load

    def test_while_it_is_loaded(self) -> None:
        """The old table answers; a signal for another one has it loaded afterwards."""
        program, may_load = self.slow_program()
        may_load.touch()
        service = self.served(self.table, program=program)
        may_load.unlink()
        self.put("7,0,1,0,1\n")
        service.signal(signal.SIGHUP)
        until(lambda: len(service.programs) == 2, "the load")
        self.assertEqual(service.ask(b"count all"), b"ok 1 5\n")
        service.signal(signal.SIGHUP)
        service.logs(r"^the exchange waits until another one is over: a table is loaded, for at most 300 seconds \(--load-timeout\)$")
        self.assertNotIn("the table is exchanged", service.log)
        may_load.touch()
        service.logs("^the table is exchanged: 1 boxes$", 2)
        self.assertEqual(service.ask(b"find all"), b"7 0\nok 1 1\n")

    def test_a_signal_as_it_starts(self) -> None:
        """It is met once the modules are loaded: the service ends, or loads the table once more as soon as it is ready."""
        interrupted = self.served(before=[sys.executable, "-c", AT_IMPORT, "argparse", INTERRUPT], is_ready=False)
        self.assertEqual(interrupted.process.wait(10), 0)
        self.assertNotIn("Traceback", interrupted.log)
        service = self.served(before=[sys.executable, "-c", AT_IMPORT, "argparse", HANG_UP])
        service.logs("^the table is exchanged: 5 boxes$")
        self.assert_well(service)

    def test_a_signal_to_all_processes(self) -> None:
        """As systemctl kill sends it, or a terminal that hangs up: none of them ends by it, not while it is loaded either."""
        program, may_load = self.slow_program()
        service = self.served(self.table, program=program, is_ready=False)
        until(lambda: service.programs, "the load")
        send(signal.SIGHUP, service.processes)
        may_load.touch()
        service.logs("^the table is exchanged: 5 boxes$")
        with service.connect() as asker:
            for at in range(1, 4):
                self.count(asker, at=at)
                send(signal.SIGHUP, service.processes)
        service.logs("^the table is exchanged", 3)
        service.logs(r"^connection 1 \(.*\): status=0 ")
        self.assertNotIn("ended", service.log)
        self.assert_well(service)

    def test_faulty_tables(self) -> None:
        """They change nothing, are logged in one line, and leave nothing."""
        service = self.served(self.table)
        before = service.files_at_rest()
        with service.connect() as asker:
            for at, (text, reason) in enumerate(
                (
                    ("1,0,1,0,1\n1,0,1,0,1\n", "table record 2: repeated id"),
                    ("1,1,0,0,1\n", "table record 1: minimum above maximum in x"),
                    (None, "cannot open table: No such file or directory"),
                ),
                1,
            ):
                self.table.unlink(missing_ok=True)
                if text is not None:
                    self.table.write_text(text)
                lines = len(service.log.splitlines())
                service.signal(signal.SIGHUP)
                service.logs(f"^the new table isn't taken, the old one stays: {self.table}: {reason}$")
                self.count(asker, at=at)
                self.assertEqual(len(service.log.splitlines()), lines + 1)
                self.assertEqual(len(service.programs), 1)
                self.assertEqual(service.ask(b"find all"), output_of_program(BOXES, b"find all"))
                service.logs("status=0 ", at + 1)
            self.put("7,0,1,0,1\n")
            service.exchange()
            self.assertEqual(service.ask(b"find all\n"), b"7 0\nok 1 1\n")
        until(lambda: len(service.programs) == 1, "the end of the old table")
        until(lambda: service.open_files == before, "nothing left open")

    def test_loads_that_take_too_long(self) -> None:
        """Nothing comes, or more and more rows: the load is ended, with all processes that it has, and nothing is left."""
        service = self.served_in_time("0.5")
        before = service.files_at_rest()
        self.table.unlink()
        os.mkfifo(self.table)
        message = f"^the new table isn't taken, the old one stays: {self.table}: not loaded in 0.5 seconds$"
        service.signal(signal.SIGHUP)
        service.logs(message)

        def write() -> None:
            with contextlib.suppress(BrokenPipeError), open(self.table, "w") as table:
                for at in itertools.count():
                    table.write(f"{at},0,1,0,1\n")

        threading.Thread(target=write, daemon=True).start()  # which waits for a reader
        service.signal(signal.SIGHUP)
        service.logs(message, 2)
        self.assertEqual(len(service.programs), 1)
        self.assert_well(service)
        until(lambda: service.open_files == before, "nothing left open")

    def served_in_time(self, limit: str) -> Served:
        """A service whose loads may take so many seconds. The machine may have other work, but not at each of these starts."""
        for _ in range(50):
            service = self.served(self.table, "--load-timeout", limit)
            if service.process.poll() is None:
                break
        return service

    def test_nothing_is_left_of_old_tables(self) -> None:
        service = self.served(self.table)
        before = service.files_at_rest()
        service.exchange()
        until(lambda: len(service.programs) == 1, "the end of the old table")
        memory = service.memory
        for at in range(1, 21):
            service.exchange()
            self.assertEqual(service.ask(b"count all\n"), b"ok 1 5\n")
        until(lambda: len(service.programs) == 1, "the end of old tables")
        until(lambda: service.open_files == before, "nothing left open")
        self.assertLess(service.memory - memory, 2000)

    def test_a_storm_of_signals(self) -> None:
        """While others ask: no program that ends is overlooked meanwhile, and no signal to end."""
        self.addCleanup(sys.setswitchinterval, sys.getswitchinterval())
        sys.setswitchinterval(0.0001)  # seconds, so that the storm leaves this thread its turns
        service = self.served(self.table)
        is_over = threading.Event()

        def storm() -> None:
            while not is_over.is_set():
                service.signal(signal.SIGHUP)

        with all_of(threading.Thread(target=storm) for _ in range(2)):
            try:
                for at in range(10):
                    send(signal.SIGKILL, service.programs[:1])
                    until(service.is_answered, "an answer")
                service.signal(signal.SIGTERM)
                until(lambda: service.process.poll() is not None, "the end of the service")
            finally:
                is_over.set()
        self.assertEqual(service.process.returncode, 0)

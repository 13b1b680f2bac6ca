"""What the service and its program tell each other: neither waits for the other for ever, and no connection is lost."""

import contextlib
import os
import signal
import socket
import subprocess
import sys
import time

from served import BOXES, MOMENT, Case, Served, is_there, read_lines, send, stop, table_of, until
from support import LONGEST

# A service whose program has reported its size and ended, both before the service looks.
ENDING = """
import asyncio, signal, socket, subprocess, sys
from argparse import Namespace
import prefork
from service import SIGNALS, Service

def start(errors, common):
    control, its_control = socket.socketpair(socket.AF_UNIX, socket.SOCK_SEQPACKET)
    first, its_first = socket.socketpair()
    control.setblocking(False)

    def tell():
        its_first.sendall(b"ok 1 5\\n")
        its_first.close()
        its_control.close()

    asyncio.get_running_loop().call_later(0.1, tell)
    return prefork.Started(subprocess.Popen(["true"], process_group=0), control, first)

signal.pthread_sigmask(signal.SIG_BLOCK, SIGNALS)
sys.exit(asyncio.run(Service(Namespace(load_timeout=10.0, drain=1.0), start, []).run(None)))
"""

MANY = 300  # more than a program is given at once, and more reports than its socket holds


class Control(Case):
    def opened(self, service: Served, count: int, text: bytes = b"count all\n") -> list[socket.socket]:
        """Connections that have sent a query."""
        askers = [self.enterContext(service.connect()) for _ in range(count)]
        for asker in askers:
            asker.sendall(text)
        return askers

    def assert_answered(self, askers: list[socket.socket], boxes: int = 5) -> None:
        for asker in askers:
            self.assertEqual(read_lines(asker, 1), b"ok 1 %d\n" % boxes)

    def test_a_program_that_ends_as_soon_as_it_has_loaded(self) -> None:
        """It isn't the table: its end comes with its size."""
        words = [sys.executable, "-c", ENDING]
        done = subprocess.run(words, capture_output=True, text=True, timeout=LONGEST)
        self.assertEqual((done.returncode, MOMENT.sub("", done.stderr)), (1, "the program has ended, with status 0\n"))

    def test_a_program_that_is_stopped_for_a_while(self) -> None:
        """New connections wait."""
        service = self.served(BOXES, "--connections", str(MANY))
        stop(service.programs)
        askers = self.opened(service, MANY)
        time.sleep(0.3)
        self.assertEqual(service.connections, [])
        send(signal.SIGCONT, service.programs)
        self.assert_answered(askers)
        self.assertNotIn("refused", service.log)

    def test_a_program_that_takes_nothing_and_ends(self) -> None:
        """What it was given, and hasn't taken, is another one's."""
        service = self.served(BOXES, "--connections", "100")
        stop(service.programs)
        askers = self.opened(service, 100)
        time.sleep(0.3)
        send(signal.SIGKILL, service.programs)
        self.assert_answered(askers)
        service.logs("^ready again")
        self.assertNotIn("signal=", service.log)

    def test_a_program_that_takes_nothing_and_is_exchanged(self) -> None:
        """Its connections are kept no longer than it takes to see that."""
        table = table_of(self.folder, "table", 0, 5)
        service = self.served(table, "--connections", "100")
        stop(service.programs)
        askers = self.opened(service, 100)
        time.sleep(0.3)
        table_of(self.folder, "table", 0, 7)
        service.exchange()
        self.assert_answered(askers, 7)
        until(lambda: len(service.programs) == 1, "the end of the old program")

    def test_a_program_that_takes_nothing_and_a_service_that_ends(self) -> None:
        """Connections that wait are logged, too."""
        service = self.served(BOXES, "--drain", "1", "--health", "0")
        stop(service.programs)
        askers = self.opened(service, 3)
        until(lambda: service.metric("rtfilter_connections") == 3, "all of them")
        service.signal(signal.SIGTERM)
        self.assertEqual(service.process.wait(10), 0)
        self.assertEqual(len(service.logs(r"^connection [123] \(.*\): signal=9 ", 3)), 3)
        for asker in askers:
            with contextlib.suppress(ConnectionResetError):  # what it wrote was left unread
                self.assertEqual(asker.recv(1), b"")

    def test_a_service_that_ends_without_a_program(self) -> None:
        """It waits for no connection that the last program was given and hadn't begun, whichever of the two ends first."""
        for is_program_first in (True, False):
            table = table_of(self.folder, "table", 0, 5)
            service = self.served(table, "--drain", "60", "--health", "0")
            stop(service.programs)
            self.opened(service, 3)
            until(lambda: service.metric("rtfilter_connections") == 3, "all of them")
            table.unlink()
            if is_program_first:
                send(signal.SIGKILL, service.programs)
                service.logs("^the new table isn't taken, there is none: ")
            service.signal(signal.SIGTERM)
            if not is_program_first:
                until(lambda: service.metric("rtfilter_ready") == 0, "the end of the table")
                send(signal.SIGKILL, service.programs)
            self.assertEqual(service.process.wait(10), 0)
            self.assertEqual(len(service.logs(r"^connection [123] \(.*\): signal=9 ", 3)), 3)

    def test_ends_while_the_service_is_stopped(self) -> None:
        """More than the program can report at once: all are reported afterwards, and places are free."""
        service = self.served(BOXES, "--connections", str(MANY))
        askers = self.opened(service, MANY)
        self.assert_answered(askers)
        stop([service.process.pid])
        for at, asker in enumerate(askers):
            if at % 3:
                asker.shutdown(socket.SHUT_WR)
        send(signal.SIGKILL, service.connections[::3])
        time.sleep(0.5)
        for number in (signal.SIGSTOP, signal.SIGCONT):  # while it waits to report more
            send(number, service.programs)
        service.signal(signal.SIGCONT)
        for asker in askers:
            asker.close()
        self.assertEqual(len(service.logs(r"^connection \d+ \(.*\): (status=0|signal=9) ", MANY)), MANY)
        self.assert_answered(self.opened(service, MANY))
        self.assertNotIn("refused", service.log)

    def test_nobody_is_left_without_service_and_program(self) -> None:
        """Whichever is killed first, and whatever it was doing."""
        for before, first, second in (
            ((), 0, 1), ((), 1, 0), ((0,), 1, 0), ((1,), 0, 1), ((0, 1), 0, 1), ((0, 1), 1, 0),
        ):
            with self.subTest(stopped=before, first=first):
                service = self.served()
                self.assert_answered(self.opened(service, 3))
                processes = service.processes
                stop(processes[at] for at in before)
                for at in (first, second):
                    os.kill(processes[at], signal.SIGKILL)
                service.process.wait(10)
                until(lambda: not any(map(is_there, processes)), "the end of all processes")

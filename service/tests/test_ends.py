"""Ends of processes, and what is left then."""

import contextlib
import fcntl
import os
import random
import signal
import socket
import struct
import termios
import threading
import time
from pathlib import Path
from typing import Any

from served import BOXES, PROGRAM, TRIES, Case, answers, is_there, read_lines, send, stop, table_of, until
from support import all_of


class Ends(Case):
    def test_the_service_ends(self) -> None:
        """With a connection that reads nothing, one that is silent, one that is stopped, and one to the old table."""
        service = self.served(table_of(self.folder, "many", 0, 100_000), "--tcp", "0", "--drain", "1")
        with service.connect() as old:
            self.count(old, boxes=100_000)
            service.exchange()
            stopped = self.enterContext(socket.create_connection(service.tcp))
            with service.connect() as silent, service.connect() as reads_nothing:
                self.count(silent, stopped, boxes=100_000)
                reads_nothing.sendall(b"find all\n" * 50)
                until(lambda: len(service.connections) == 4, "all of them")
                stop(service.connections[-1:])
                processes = service.processes
                begun = time.monotonic()
                service.signal(signal.SIGTERM)
                self.assertEqual(service.process.wait(10), 0)
                self.assertLess(time.monotonic() - begun, 4)
                self.assertEqual((silent.recv(1), stopped.recv(1), old.recv(1)), (b"", b"", b""))
        self.assertEqual(len(service.logs(r"^connection \d+ \(.*\): (status=0|signal=9) ", 4)), 4)
        service.logs("signal=9 ")
        self.assertFalse(os.path.exists(service.path))
        until(lambda: not any(map(is_there, processes)), "the end of all processes")

    def test_replies_that_are_being_written(self) -> None:
        """They come to their end, and a part of a line isn't answered; the second signal waits for nobody."""
        service = self.served(table_of(self.folder, "many", 0, 100_000), "--tcp", "0", "--drain", "60")
        with service.connect() as reading, socket.create_connection(service.tcp) as other, service.connect() as part:
            expected = b"".join(answers(0, 100_000) + b"ok %d 100000\n" % at for at in range(1, 5))
            for asker in (reading, other):
                asker.settimeout(20)
                asker.sendall(b"find all\n" * 4)
                self.assertTrue(asker.recv(1))
            part.sendall(b"count all\ncount al")
            self.assertEqual(read_lines(part, 1), b"ok 1 100000\n")
            service.signal(signal.SIGTERM)
            self.assertEqual(part.recv(100), b"")
            for asker in (reading, other):
                self.assertEqual(b"".join(iter(lambda: asker.recv(1 << 18), b"")), expected[1:])
        self.assertEqual(service.process.wait(20), 0)
        self.assertEqual(len(service.logs(r"^connection \d \(.*\): status=[04] ", 3)), 3)

    def test_an_end_that_is_urgent(self) -> None:
        service = self.served(table_of(self.folder, "many", 0, 100_000), "--drain", "60", "--health", "0")
        with service.connect() as reads_nothing:
            reads_nothing.sendall(b"find all\n" * 50)
            self.assertTrue(reads_nothing.recv(1))
            service.signal(signal.SIGTERM)
            until(lambda: service.metric("rtfilter_ready") == 0, "the end of the table")
            time.sleep(0.5)
            self.assertIsNone(service.process.poll())
            service.signal(signal.SIGINT)
            self.assertEqual(service.process.wait(10), 0)

    def test_two_signals_at_once(self) -> None:
        """The second is urgent, however soon after the first it comes."""
        many = table_of(self.folder, "many", 0, 100_000)
        for _ in range(8):
            service = self.served(many, "--drain", "60")
            with service.connect() as reads_nothing:
                reads_nothing.sendall(b"find all\n" * 50)
                self.assertTrue(reads_nothing.recv(1))
                stop([service.process.pid])
                for number in (signal.SIGTERM, signal.SIGINT, signal.SIGCONT):
                    service.signal(number)
                self.assertEqual(service.process.wait(10), 0)

    def test_a_part_of_a_line_at_the_end(self) -> None:
        """Its connection was open for longer than `--silence`, and is not said to have been silent."""
        service = self.served(BOXES, "--silence", "2")
        with service.connect() as asker:
            asker.sendall(b"count al")
            until(lambda: not unread(asker), "its read")
            processes = service.connections
            stop(processes)
            time.sleep(2.2)
            service.signal(signal.SIGTERM)
            send(signal.SIGCONT, processes)
            self.assertEqual(asker.recv(100), b"")
        self.assertEqual(service.process.wait(10), 0)
        service.logs(r"^connection 1 \(.*\): status=4 ")

    def test_who_connects_while_it_ends(self) -> None:
        """Waits for the next service, where the socket stays: here a process of the program's ends only when it may."""
        may_end = Path(self.folder, "may end")
        waiting = f"while ! test -e '{may_end}'; do sleep 0.05; done"
        program = self.script(f'exec 3<&0\nLD_PRELOAD= setsid sh -c "{waiting}" <&3 3<&- &\nexec {PROGRAM} "$@" 3<&-')
        with socket.socket(socket.AF_UNIX) as given, socket.socket(socket.AF_UNIX) as asker:
            given.bind(f"{self.folder}/given")
            given.listen()
            script = f'exec 3<&{given.fileno()}; LISTEN_FDS=1 LISTEN_PID=$$ exec "$@"'
            options: dict[str, Any] = {"before": ["bash", "-c", script, "-"], "pass_fds": [given.fileno()]}
            service = self.served(program=program, **options)
            service.signal(signal.SIGTERM)
            until(lambda: not service.programs, "the end of the program")
            asker.connect(given.getsockname())
            asker.sendall(b"count all\n")
            self.assertIsNone(service.process.poll())
            may_end.touch()
            self.assertEqual(service.process.wait(10), 0)
            self.served(**options)
            asker.settimeout(10)
            self.assertEqual(read_lines(asker, 1), b"ok 1 5\n")

    def test_an_end_during_a_load(self) -> None:
        """Of the first table, and of another one: by a signal, and by kill -9."""
        for number, status in ((signal.SIGTERM, 0), (signal.SIGINT, 0), (signal.SIGKILL, -9)):
            for is_first in (True, False):
                table = Path(self.folder, f"table {number} {is_first}")
                if is_first:
                    os.mkfifo(table)
                    service = self.served(table, is_ready=False)
                    until(lambda: service.programs, "the load")
                else:
                    table.write_bytes(BOXES.read_bytes())
                    service = self.served(table)
                    table.unlink()
                    os.mkfifo(table)
                    service.signal(signal.SIGHUP)
                    until(lambda: len(service.programs) == 2, "the load")
                processes = service.processes
                service.signal(number)
                self.assertEqual(service.process.wait(10), status)
                until(lambda: not any(map(is_there, processes)), "the end of all processes")

    def test_an_end_at_any_moment(self) -> None:
        """Of exchanges: the signal is handled."""
        chance = random.Random(1)
        for _ in range(15):
            service = self.served()
            for _ in range(2):
                service.signal(signal.SIGHUP)
                time.sleep(chance.uniform(0, 0.012))
            service.signal(signal.SIGTERM)
            self.assertEqual(service.process.wait(10), 0)

    def test_kill_of_the_service(self) -> None:
        """All end with it, and the path is free for another one."""
        service = self.served()
        with service.connect() as asker, service.connect() as other:
            self.count(asker, other)
            service.exchange()
            processes = service.processes
            self.assertEqual(len(processes), 5)
            service.signal(signal.SIGKILL)
            service.process.wait()
            self.assertEqual((asker.recv(1), other.recv(1)), (b"", b""))
        until(lambda: not any(map(is_there, processes)), "the end of all processes")
        self.assert_well(self.served())

    def test_kill_of_the_program(self) -> None:
        """Its connections end; new ones wait until another one is loaded."""
        service = self.served(BOXES, "--connections", "2")
        for at in range(1, 4):
            with service.connect() as one, service.connect() as two:
                self.count(one, two)
                send(signal.SIGKILL, service.programs)
                self.assertEqual((one.recv(1), two.recv(1)), (b"", b""))
            self.assertEqual(service.ask(b"count all\n"), b"ok 1 5\n")
            service.logs("^the program has ended, with status -9: new connections wait ", at)
            service.logs("^ready again: 5 boxes$", at)
        with service.connect() as one, service.connect() as two:  # no slot was lost
            self.count(one, two)

    def test_a_connection_whose_process_is_long_in_ending(self) -> None:
        """It has ended for its peer once that is logged, whatever holds it still."""
        service = self.served(program=self.build("-DUNCONFINED", *TRIES))
        for at, of in enumerate(("connections", "programs"), 1):
            with service.connect() as asker:
                asker.sendall(b"# outlived\ncount all\n")
                self.assertEqual(read_lines(asker, 1), b"ok 2 5\n")
                send(signal.SIGKILL, getattr(service, of)[:1])
                service.logs("signal=9 ", at)
                asker.setblocking(False)
                self.assertEqual(asker.recv(1), b"")

    def test_kills_at_any_moment(self) -> None:
        """Of connections and programs, while others ask, connect and exchange: what is answered is right, and none of the
        three slots is lost."""
        service = self.served(BOXES, "--connections", "3", "--health", "0")
        expected = b"".join(b"ok %d 5\n" % at for at in range(1, 21))
        is_over, faults = threading.Event(), list[bytes]()

        def ask() -> None:
            while not is_over.is_set():
                with service.connect() as asker, contextlib.suppress(ConnectionError):
                    asker.sendall(b"count all\n" * 20)
                    found = read_lines(asker, 20)
                    if not found.startswith(b"rtfilter-serve: refused") and not expected.startswith(found):
                        faults.append(found)

        with all_of(threading.Thread(target=ask) for _ in range(3)):
            try:
                for at in range(60):
                    time.sleep(0.01)
                    if at % 5 == 1:
                        service.signal(signal.SIGHUP)
                    send(signal.SIGKILL, (service.connections if at % 6 else service.programs)[:1])
            finally:
                is_over.set()
        self.assertEqual(faults, [])
        until(lambda: service.get("/health")[0] == 200 and not service.metric("rtfilter_connections"), "an end to all that")
        until(lambda: len(service.programs) == 1, "one program")
        with service.connect() as one, service.connect() as two, service.connect() as three:
            self.count(one, two, three)

    def test_a_program_that_ends_again_and_again(self) -> None:
        """The pause before it is restarted grows; a signal ends it."""
        table = Path(self.folder, "table")
        table.write_bytes(BOXES.read_bytes())
        service = self.served(table)
        table.unlink()
        begun = time.monotonic()
        send(signal.SIGKILL, service.programs)
        service.logs(f"^the new table isn't taken, there is none: {table}: cannot open table: No such file or directory$", 5)
        self.assertGreater(time.monotonic() - begun, 0.1 + 0.2 + 0.4 + 0.8)
        with service.connect() as asker:
            table.write_bytes(BOXES.read_bytes())
            begun = time.monotonic()
            service.signal(signal.SIGHUP)
            self.count(asker)
            self.assertLess(time.monotonic() - begun, 1)
        for at in range(2):  # and it is a short one again
            service.exchange()
            begun = time.monotonic()
            send(signal.SIGKILL, service.programs)
            self.assert_well(service)
            self.assertLess(time.monotonic() - begun, 1)

    def test_a_first_load_that_fails(self) -> None:
        """There is no service: its status, and the reason. The table is faulty, missing, or doesn't come; the options are faulty; the
        program is another one, or can't set connections up."""
        broken, faulty, missing, pipe = (Path(self.folder, name) for name in ("broken.h", "faulty", "missing", "pipe"))
        broken.write_text("#define _GNU_SOURCE\n#include <unistd.h>\n#define close_range(first, last, flags) -1\n")
        faulty.write_text("1,1,0,0,0\n")
        os.mkfifo(pipe)
        for table, words, program, status, message in (
            (faulty, [], PROGRAM, 3, f"{faulty}: table record 1: minimum above maximum in x"),
            (missing, [], PROGRAM, 3, f"{missing}: cannot open table: No such file or directory"),
            (pipe, ["--load-timeout", "0.3"], PROGRAM, 1, f"{pipe}: not loaded in 0.3 seconds"),
            (BOXES, ["--fanout", "4", "--fanout", "5"], PROGRAM, 2, "rtfilter: bad command line"),
            (BOXES, [], self.script("echo nonsense"), 1, "nonsense\nthe program has ended, with status 0"),
            (BOXES, [], self.build("-include", broken), 1, "it can't serve a connection: status 71"),
        ):
            with self.subTest(message):
                service = self.served(table, *words, program=program, is_ready=False)
                self.assertEqual(service.process.wait(10), status)
                self.assertEqual(service.log, f"listening on {service.path}\n{message}\n")
                self.assertFalse(os.path.exists(service.path))


def unread(asker: socket.socket) -> int:
    """How many bytes that were sent over a Unix socket haven't been read."""
    (count,) = struct.unpack("i", fcntl.ioctl(asker, termios.TIOCOUTQ, bytes(4)))
    return int(count)

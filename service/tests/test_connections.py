"""A connection reads what the program alone would write, whatever others do."""

import contextlib
import os
import random
import re
import signal
import socket
import struct
import subprocess
import threading
import time
from pathlib import Path

from served import (
    BOXES, PROGRAM, Case, Served, answers, found, read_lines, send, some_pieces,
    some_queries, table_of, talk, until,
)  # fmt: skip
from support import all_of, output_of_program, seconds_of

RESET = struct.pack("2i", 1, 0)  # of SO_LINGER: a close sends a reset
NO_FORK = """
#define _GNU_SOURCE
#include <errno.h>
#include <stdlib.h>
#include <sys/syscall.h>
#include <unistd.h>
pid_t fork(void)
{
  if (access(getenv("FLAG"), F_OK))
    return syscall(SYS_fork);
  errno = EAGAIN;
  return -1;
}
"""


NO_GROUP = """
#define _GNU_SOURCE
#include <signal.h>
#include <stdlib.h>
#include <sys/syscall.h>
#include <unistd.h>
int setpgid(pid_t process, pid_t group)
{
  if (!access(getenv("FLAG"), F_OK))
    kill(getpid(), SIGKILL);
  return syscall(SYS_setpgid, process, group);
}
"""


class SameAsProgram(Case):
    def check_replies(self, service: Served, seed: int) -> None:
        """One connection of random lines, cut anywhere."""
        chance = random.Random(seed)
        queries = some_queries(chance, chance.choice([0, 1, 64, 65, 400]))
        asker = socket.create_connection(service.tcp) if seed % 2 else service.connect()
        found = talk(asker, some_pieces(chance, queries))
        if found != output_of_program(BOXES, queries):
            self.different.append(seed)

    def test_random_lines(self) -> None:
        """64 connections at once, and 40 one after another."""
        self.different: list[int] = []
        service = self.served(BOXES, "--tcp", "0")
        for seed in range(40):
            self.check_replies(service, seed)
        with all_of(threading.Thread(target=self.check_replies, args=(service, seed)) for seed in range(40, 104)):
            pass
        self.assertEqual(self.different, [])
        self.assertEqual(len(service.logs("status=[01] ", 104)), 104)

    def test_options(self) -> None:
        service = self.served(BOXES, "--header", "--fanout", "2", "--max-entries", "4")
        queries = b"levels\ncount all\n"
        done = subprocess.run([PROGRAM, "-H", "--fanout", "2", BOXES], input=queries, capture_output=True)
        self.assertEqual(service.ask(queries), done.stdout)

    def test_each_line_is_answered_at_once(self) -> None:
        """A client writes the next line when it has the reply to the one before."""
        service = self.served(BOXES, "--tcp", "[::1]:0")
        for asker in (service.connect(), socket.create_connection(("::1", service.tcp[1]))):
            with asker:
                for at in range(1, 201):
                    self.count(asker, at=at)

    def test_the_log(self) -> None:
        """A line for each connection's end: its client, its status, its time."""
        service = self.served(BOXES, "--tcp", "0", "--tcp", "[::1]:0")
        for number, (queries, status) in enumerate(((b"", 0), (b"count all\n", 0), (b"\n# none\nx", 1)), 1):
            asker = socket.create_connection(service.tcp)
            host, port = asker.getsockname()
            talk(asker, [queries])
            service.logs(rf"^connection {number} \({re.escape(host)}:{port}\): status={status} seconds=\d\.\d{{3}}$")
        service.ask(b"count all")
        service.logs(rf"^connection 4 \(process {os.getpid()} of user {os.getuid()}\): status=0 seconds=")
        asker = socket.create_connection(("::1", int(found(r"\[::1\]:(\d+)\n", service.log)[1])))
        port = asker.getsockname()[1]
        talk(asker, [])
        service.logs(rf"^connection 5 \(\[::1\]:{port}\): status=0 ")


class Askers(Case):
    def test_a_reader_that_leaves_in_mid_answer(self) -> None:
        service = self.served(table_of(self.folder, "many", 0, 50_000))
        expected = output_of_program(Path(self.folder, "many"), b"find all first 1000\ncount all\n" * 20)
        found: list[bytes] = []
        other = threading.Thread(target=lambda: found.append(service.ask(b"find all first 1000\ncount all\n" * 20)))
        with all_of([other]):
            for at in range(10):
                with service.connect() as asker:
                    asker.sendall(b"find all\n" * 100)
                    asker.recv(1000)
        self.assertEqual(found, [expected])
        self.assertEqual(len(service.logs("status=[45] ", 10)), 10)
        self.assert_well(service)

    def test_readers_that_do_not_read(self) -> None:
        """An honest one waits for none of them; each may go on to read whenever it likes."""
        service = self.served(table_of(self.folder, "many", 0, 100_000))
        with contextlib.ExitStack() as stack:
            slow = [stack.enter_context(service.connect()) for _ in range(5)]
            for asker in slow:
                asker.sendall(b"find all\n" * 100)
            time.sleep(0.3)
            # The machine may have other work, but not in each of these rounds.
            self.assertTrue(any(self.worst_wait(service) < 0.05 for _ in range(50)))
            expected = answers(0, 100_000) + b"ok 1 100000\n"
            for asker in slow:
                self.assertEqual(read_lines(asker, 100_001)[:len(expected)], expected)

    def worst_wait(self, service: Served) -> float:
        """Seconds that one of 200 lines waits for its reply."""
        worst = 0.0
        with service.connect() as asker:
            for at in range(1, 201):
                begun = time.monotonic()
                asker.sendall(b"find all first 3\n")
                self.assertEqual(read_lines(asker, 4), answers(0, 3) + b"ok %d 3\n" % at)
                worst = max(worst, time.monotonic() - begun)
        return worst

    def test_patience(self) -> None:
        """A client that lets replies wait for longer has its connection ended, and got a part of them."""
        service = self.served(table_of(self.folder, "many", 0, 100_000), "--patience", "0.3", "--tcp", "0")
        for asker in (service.connect(), socket.create_connection(service.tcp)):
            with asker:
                asker.sendall(b"find all\n" * 100)
                service.logs(r"status=5 seconds=\d\.\d{3}$", 1 + (asker.family != socket.AF_UNIX))
                found = b""
                with contextlib.suppress(ConnectionResetError):  # lines of it were left unread
                    while piece := asker.recv(1 << 18):
                        found += piece
                expected = b"".join(answers(0, 100_000) + b"ok %d 100000\n" % at for at in range(1, 9))
                self.assertTrue(found and expected.startswith(found))
        self.assertNotIn("cannot write", service.log_file.read_text())  # which would have neither a time nor a connection
        self.assert_well(service)

    def test_silence(self) -> None:
        """A connection that is silent for so long is ended; one that sends something now and then isn't."""
        service = self.served(BOXES, "--silence", "0.6", "--tcp", "0")
        with service.connect() as silent, socket.create_connection(service.tcp) as other:
            # The machine may have other work, but not in each of these rounds.
            self.assertTrue(any(self.goes_on(service, 0.6) for _ in range(50)))
            for ended in (silent, other):
                self.assertEqual((ended.recv(100), ended.recv(1)), (b"rtfilter-serve: silent for 0.6 seconds\n", b""))
            for line in service.logs(r"status=4 seconds=\d+\.\d{3}$", 2):
                self.assertGreaterEqual(float(line.rpartition("=")[2]), 0.6)
        self.assertNotIn("cannot read", service.log_file.read_text())

    def goes_on(self, service: Served, silence: float) -> bool:
        """Sends lines for longer than the silence, which are answered. Returns whether each came in time, and else stops."""
        with service.connect() as asker:
            before = time.monotonic()
            for at in range(1, 16):
                begun = time.monotonic()
                with contextlib.suppress(ConnectionError):  # it was ended, where this line comes late
                    asker.sendall(b"count all\n")
                if time.monotonic() - before >= silence:
                    return False
                self.assertEqual(read_lines(asker, 1), b"ok %d 5\n" % at)
                before = begun
                time.sleep(0.1)
        return True

    def test_a_stop_is_no_end(self) -> None:
        """A process that is stopped and goes on has not waited in vain, with limits of time and without."""
        for words in ((), ("--silence", "5", "--patience", "5")):
            service = self.served(BOXES, *words)
            with service.connect() as asker:
                self.count(asker)
                (process,) = service.connections
                for number in (signal.SIGSTOP, signal.SIGCONT):
                    os.kill(process, number)
                    time.sleep(0.05)
                self.count(asker, at=2)
            service.__exit__()

    def test_2000_connections_leave_nothing(self) -> None:
        service = self.served(BOXES, "--tcp", "0")

        def connect(count: int) -> None:
            for at in range(count):
                if at % 4 == 0:
                    self.assertEqual(service.ask(b"count all"), b"ok 1 5\n")
                elif at % 4 == 1:
                    service.connect().close()
                elif at % 4 == 2:
                    with socket.create_connection(service.tcp) as asker:
                        asker.sendall(b"find all\nfind a")
                        asker.setsockopt(socket.SOL_SOCKET, socket.SO_LINGER, RESET)
                else:
                    with socket.create_connection(service.tcp) as asker:
                        for byte in b"count all\n":
                            asker.sendall(bytes([byte]))
                        self.assertEqual(asker.recv(100), b"ok 1 5\n")

        connect(100)
        service.logs("^connection ", 100)
        before, programs, memory = service.open_files, service.programs, service.memory
        connect(2000)
        service.logs("^connection ", 2100)
        self.assertEqual((service.open_files, service.programs, service.connections), (before, programs, []))
        self.assertLess(service.memory - memory, 1000)
        self.assertNotIn("refused", service.log)

    def test_the_limit_on_connections(self) -> None:
        """Those to the old table and to the new one count together."""
        service = self.served(BOXES, "--connections", "2")
        with service.connect() as one, service.connect() as two:
            self.count(one)
            service.exchange()
            self.count(two)
            with service.connect() as three:
                self.assertEqual((three.recv(100), three.recv(1)), (b"rtfilter-serve: refused, there are 2 connections\n", b""))
            service.logs(r"^connection 3 \(.*\): refused, there are 2 connections$")
            one.shutdown(socket.SHUT_WR)
            self.assertEqual(one.recv(1), b"")
            self.assert_well(service)
            self.count(two, at=2)

    def test_one_connection_after_another(self) -> None:
        """Whoever sees the end of a connection may connect again, by whatever it has ended."""
        service = self.served(BOXES, "--connections", "1")
        for at in range(300):
            with service.connect() as asker:
                self.count(asker)
                if at % 3 == 0:
                    send(signal.SIGKILL, service.connections)
                elif at % 3 == 1:
                    asker.sendall(b"x")
                    asker.shutdown(socket.SHUT_WR)
                    read_lines(asker, 1)
                else:
                    asker.shutdown(socket.SHUT_WR)
                self.assertEqual(asker.recv(1), b"")
        self.assertNotIn("refused", service.log)

    def test_kill_meets_one_connection(self) -> None:
        service = self.served()
        with service.connect() as one:
            self.count(one)
            (first,) = service.connections
            with service.connect() as two:
                self.count(two)
                os.kill(first, signal.SIGKILL)
                self.assertEqual(one.recv(1), b"")
                self.count(two, at=2)
        service.logs(r"^connection 1 \(.*\): signal=9 ")
        self.assert_well(service)


class WantOfRoom(Case):
    def test_a_fork_that_fails(self) -> None:
        """It is logged, the connection is closed and its slot free, and others go on."""
        environment, flag = self.preload(NO_FORK)
        service = self.served(BOXES, "--connections", "2", env=environment)
        with service.connect() as asker:
            self.count(asker)
            before = service.files_at_rest()
            flag.touch()
            for _ in range(5):
                with service.connect() as other:
                    self.assertEqual(other.recv(1), b"")
            service.logs(r"^connection \d+ \(.*\): not begun: Resource temporarily unavailable$", 5)
            flag.unlink()
            self.count(asker, at=2)
            self.assert_well(service)
            until(lambda: service.open_files == before, "nothing left open")

    def test_loads_that_end_as_they_start(self) -> None:
        """Without a process for a connection, or by a kill before the program leads a group of processes. The log says why there is no
        table, or why the new one isn't taken, and the next load is made."""
        for source, why in (
            (NO_FORK, "it can't serve a connection: Resource temporarily unavailable"),
            (NO_GROUP, "the program has ended, with status -9"),
        ):
            environment, flag = self.preload(source)
            flag.touch()
            service = self.served(is_ready=False, env=environment)
            self.assertEqual(service.process.wait(10), 1)
            self.assertEqual(service.log, f"listening on {service.path}\n{why}\n")
            flag.unlink()
            with Served(self.folder, BOXES, env=environment) as service:
                before = service.files_at_rest()
                flag.touch()
                service.signal(signal.SIGHUP)
                service.logs(f"^the new table isn't taken, the old one stays: {why}$")
                flag.unlink()
                service.exchange()
                self.assert_well(service)
                until(lambda: service.open_files == before, "nothing left open")

    def test_descriptors(self) -> None:
        """Where the service has no descriptor left, new connections wait, that is logged once, and nothing is busy."""
        service = self.served(BOXES, before=["prlimit", "--nofile=24"])
        processes = [service.process.pid, *service.programs]
        with contextlib.ExitStack() as stack:
            askers = [stack.enter_context(service.connect()) for _ in range(40)]
            service.logs("^no connection accepted: Too many open files$")
            until(lambda: len(service.connections) in range(10, 24), "a process for each that was accepted")
            spent = sum(map(seconds_of, processes))
            time.sleep(1)
            self.assertLess(sum(map(seconds_of, processes)) - spent, 0.1)
            self.assertEqual(service.log.count("no connection accepted"), 1)
            for asker in askers:  # each comes in turn, as others leave
                self.count(asker)
                asker.close()
        service.logs("status=0 ", 40)
        self.assert_well(service)

    def test_descriptors_for_all_else(self) -> None:
        """However many connect, the table is exchanged, and health answers."""
        service = self.served(BOXES, "--health", "0", before=["prlimit", "--nofile=64"])
        with contextlib.ExitStack() as stack:
            askers = [stack.enter_context(service.connect()) for _ in range(60)]
            service.logs("^no connection accepted: Too many open files$")
            service.exchange()
            self.assertEqual(service.get("/health"), (200, "ready\n"))
            for asker in askers:
                self.count(asker)
                asker.close()
        until(lambda: len(service.programs) == 1, "the end of the old table")

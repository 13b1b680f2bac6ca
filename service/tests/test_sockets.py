"""Where a service listens, and as whom it runs."""

import contextlib
import ctypes
import fcntl
import os
import shutil
import signal
import socket
import stat
import subprocess
import sys
import tempfile
import time
from collections.abc import Iterable
from pathlib import Path

from served import BOXES, MOMENT, SYSTEM_PYTHON, Case, Served, Started, children_of, command_of, copied, table_of, talk, until

PIDFD_GETFD = 438  # a call of Linux: another process's descriptor


def run(*words: object, before: Iterable[str] = (), python: str = sys.executable) -> tuple[int, str]:
    """A service that is to end by itself: its status, and what it logs."""
    command = [*before, *command_of(python=python), *map(str, words)]
    done = subprocess.run(command, capture_output=True, text=True, timeout=20)
    return done.returncode, MOMENT.sub("", done.stderr)


class Sockets(Case):
    def test_mode(self) -> None:
        for words, mode in ((), 0o600), (("--mode", "660"), 0o660):
            with Served(self.folder, BOXES, *words) as service:
                self.assert_well(service)
                self.assertEqual(stat.S_IMODE(os.stat(service.path).st_mode), mode)

    def test_a_path_that_was_left(self) -> None:
        """A socket on which nobody listens is replaced; another service's isn't, and neither is a file."""
        with socket.socket(socket.AF_UNIX) as left:
            left.bind(str(Path(self.folder, "socket")))
        service = self.served()
        self.assert_well(service)
        link = Path(self.folder, "link")
        link.symlink_to(Path(self.folder, "nowhere"))
        other = "rtfilter-serve: --unix {}: it is no socket, and isn't replaced: choose another path\n"
        in_use = "rtfilter-serve: --unix {}: another service listens there: choose another path\n"
        no_folder = "rtfilter-serve: --unix {}: its folder doesn't exist: make it, or choose another path\n"
        for path, message in (
            (service.path, in_use), (str(BOXES), other), (str(link), other), (self.folder, other), (f"{self.folder}/none/socket", no_folder),
        ):  # fmt: skip
            self.assertEqual(run("--unix", path, BOXES), (1, message.format(path)))
        self.assert_well(service)

    def test_a_folder_of_another_user(self) -> None:
        self.need_another_user()
        os.chmod(self.folder, 0o755)
        path = f"{self.folder}/socket"
        message = f"rtfilter-serve: --unix {path}: this user may make no socket in its folder: choose another path\n"
        before = ["setpriv", "--reuid", "65534", "--clear-groups"]
        self.assertEqual(run("--unix", path, BOXES, before=before, python=SYSTEM_PYTHON), (1, message))

    def test_a_backlog_that_is_full(self) -> None:
        """Whoever listens there is left alone, even where nobody is accepted."""
        path = str(Path(self.folder, "full"))
        busy, *askers = (self.enterContext(socket.socket(socket.AF_UNIX)) for _ in range(3))
        with busy:
            busy.bind(path)
            busy.listen(0)
            for asker in askers:
                asker.setblocking(False)
                asker.connect_ex(path)
            self.assertEqual(run("--unix", path, BOXES)[0], 1)
            self.assertTrue(os.path.exists(path))

    def test_a_path_that_is_another_ones_by_now(self) -> None:
        """What stands there at the end isn't removed."""
        first = self.served()
        os.unlink(first.path)
        with Served(self.folder, BOXES) as second:
            first.signal(signal.SIGTERM)
            self.assertEqual(first.process.wait(10), 0)
            self.assert_well(second)
        self.assertFalse(os.path.exists(first.path))

    def test_two_at_once(self) -> None:
        """Of services that begin at the same time, over a socket that was left, one has the path."""
        path = str(Path(self.folder, "socket"))
        with socket.socket(socket.AF_UNIX) as left:
            left.bind(path)
        command = [*command_of(), "--unix", path, str(BOXES)]
        folders = [self.enterContext(tempfile.TemporaryDirectory()) for _ in range(4)]
        services = [self.enterContext(Started(it, path, command, is_ready=False)) for it in folders]
        until(lambda: sum(service.process.poll() is not None for service in services) == 3, "the end of three")
        (winner,) = [service for service in services if service.process.poll() is None]
        winner.logs("^ready: 5 boxes$")
        self.assertTrue(winner.log.startswith(f"listening on {path}\n"))
        self.assertEqual(winner.ask(b"count all"), b"ok 1 5\n")
        winner.signal(signal.SIGTERM)
        self.assertEqual(sorted(service.process.wait(10) for service in services), [0, 1, 1, 1])

    def test_one_after_another(self) -> None:
        """A service that looks at a path, and takes or leaves it, is alone in its folder meanwhile."""
        folder = os.open(self.folder, os.O_RDONLY)
        self.addCleanup(os.close, folder)
        fcntl.flock(folder, fcntl.LOCK_EX)
        service = self.served(is_ready=False)
        time.sleep(0.5)
        self.assertFalse(os.path.exists(service.path))
        fcntl.flock(folder, fcntl.LOCK_UN)
        service.logs("^ready: ")
        fcntl.flock(folder, fcntl.LOCK_EX)
        service.signal(signal.SIGTERM)
        time.sleep(0.3)
        self.assertTrue(os.path.exists(service.path))
        fcntl.flock(folder, fcntl.LOCK_UN)
        self.assertEqual(service.process.wait(10), 0)
        self.assertFalse(os.path.exists(service.path))

    def test_a_folder_that_stays_locked(self) -> None:
        """A service says so and doesn't begin, and one that ends leaves what stands there, each after some seconds."""
        service = self.served()
        folder = os.open(self.folder, os.O_RDONLY)
        self.addCleanup(os.close, folder)
        fcntl.flock(folder, fcntl.LOCK_EX)
        service.signal(signal.SIGTERM)
        path = f"{self.folder}/other"
        message = f"rtfilter-serve: --unix {path}: another process keeps its folder locked: end that, or choose another path\n"
        self.assertEqual(run("--unix", path, BOXES), (1, message))
        self.assertEqual(service.process.wait(10), 0)
        self.assertEqual((os.path.exists(service.path), os.path.exists(path)), (True, False))

    def test_a_port_that_is_taken(self) -> None:
        """That is an error before a table is loaded: this one would never be."""
        table = Path(self.folder, "table")
        os.mkfifo(table)
        with socket.create_server(("127.0.0.1", 0)) as taken:
            for option in ("--tcp", "--health"):
                port = taken.getsockname()[1]
                message = f"rtfilter-serve: {option} 127.0.0.1:{port}: the port is in use: choose another port\n"
                self.assertEqual(run("--unix", Path(self.folder, "socket"), option, port, table), (1, message))
        self.assertFalse(os.path.exists(Path(self.folder, "socket")))

    def test_an_address_of_another_machine(self) -> None:
        message = "rtfilter-serve: --tcp 203.0.113.1:5000: Cannot assign requested address\n"
        self.assertEqual(run("--tcp", "203.0.113.1:5000", BOXES), (1, message))

    def test_loopback(self) -> None:
        self.assertEqual(self.served(BOXES, "--tcp", "0").tcp[0], "127.0.0.1")

    def test_socket_activation(self) -> None:
        """Two sockets are given as systemd gives them, from descriptor 3 on, beside those of options."""
        path = str(Path(self.folder, "given"))
        with socket.socket(socket.AF_UNIX) as given, socket.create_server(("127.0.0.1", 0)) as other:
            given.bind(path)
            given.listen()
            early = socket.socket(socket.AF_UNIX)
            early.connect(path)  # before the service is there
            script = f'exec 3<&{given.fileno()} 4<&{other.fileno()}; LISTEN_FDS=2 LISTEN_PID=$$ exec "$@"'
            given_ones = given.fileno(), other.fileno()
            service = self.served(BOXES, before=["bash", "-c", script, "-"], pass_fds=given_ones)
            self.assertEqual(talk(early, [b"count all\n"]), b"ok 1 5\n")
            self.assertEqual(talk(socket.create_connection(other.getsockname()), [b"count all"]), b"ok 1 5\n")
            self.assert_well(service)
            service.exchange()
            self.assertEqual(talk(socket.create_connection(other.getsockname()), [b"count all"]), b"ok 1 5\n")
        service.__exit__()
        self.assertTrue(os.path.exists(path))

    def test_others_sockets(self) -> None:
        """Those that are meant for another process aren't taken."""
        environment = {**os.environ, "LISTEN_FDS": "1", "LISTEN_PID": "1"}
        self.assert_well(self.served(env=environment))

    def test_a_connection_has_nothing_else(self) -> None:
        """Its standard input and output."""
        service = self.served(BOXES, "--tcp", "0", "--health", "0")
        with service.connect() as asker:
            self.count(asker)
            (process,) = service.connections
            folder = f"/proc/{process}/fd"
            files = {name: os.readlink(f"{folder}/{name}") for name in os.listdir(folder)}
            self.assertEqual(files, {"0": files["1"], "1": files["1"]})

    def test_options_of_tcp(self) -> None:
        """A line isn't held back for the next one, and a peer that is gone for good is noticed some day."""
        service = self.served(BOXES, "--tcp", "0")
        with socket.create_connection(service.tcp) as asker:
            self.count(asker)
            process = os.pidfd_open(*service.connections)
            self.addCleanup(os.close, process)
            descriptor = ctypes.CDLL(None, use_errno=True).syscall(PIDFD_GETFD, process, 0, 0)
            if descriptor < 0:
                self.skipTest(f"the right to look at another process: {os.strerror(ctypes.get_errno())}")
            with socket.socket(fileno=descriptor) as theirs:
                self.assertEqual(theirs.getpeername(), asker.getsockname())
                self.assertTrue(theirs.getsockopt(socket.IPPROTO_TCP, socket.TCP_NODELAY))
                self.assertTrue(theirs.getsockopt(socket.SOL_SOCKET, socket.SO_KEEPALIVE))

    def test_folders_with_spaces(self) -> None:
        """The library is found and loaded where its path has what a list of paths can't hold."""
        folder = Path(self.folder, "my: maps")
        folder.mkdir()
        self.enterContext(Served(str(folder), BOXES, program=str(copied(folder))))

    def test_a_library_elsewhere(self) -> None:
        """As it is installed: bin/rtfilter and lib/rtfilter/rtfilter-prefork.so. Without one, it is told."""
        folder = Path(self.folder, "bin")
        folder.mkdir()
        program = copied(folder)
        lib = Path(self.folder, "lib/rtfilter")
        lib.mkdir(parents=True)
        library = folder / "rtfilter-prefork.so"
        library.rename(lib / library.name)
        self.assert_well(self.served(program=str(program)))
        (lib / library.name).unlink()
        message = f"rtfilter-serve: no rtfilter-prefork.so beside {program}, nor in ../lib/rtfilter from its folder\n"
        self.assertEqual(run("--unix", f"{self.folder}/other", "--program", program, BOXES), (1, message))
        program.unlink()
        message = f"rtfilter-serve: no program {program}: name it with --program\n"
        self.assertEqual(run("--unix", f"{self.folder}/other", "--program", program, BOXES), (1, message))

    def test_bad_command_lines(self) -> None:
        """They are refused before the service listens, in one line."""
        path, seconds = Path(self.folder, "socket"), "is no number from 0 to 100000000"
        for words, message in (
            ([BOXES], "nowhere to listen: --unix, --tcp, or a socket of systemd"),
            (["--unix", path], "the following arguments are required: TABLE"),
            (["--unix", path, BOXES, "--fast"], "unrecognized arguments: --fast"),
            *((["--unix", path, option, word, BOXES], rf"argument {option}( \S+)?: '{word.rpartition(':')[2]}' {why}") for option, word, why in (
                ("--mode", "1000", "is no number from 0 to 777"), ("--mode", "x", "is no number from 0 to 777"),
                ("--connections", "0", "is no number from 1 to 1048576"), ("--connections", "1048577", "is no number from 1 to 1048576"),
                ("--silence", "-1", seconds), ("--patience", "inf", seconds), ("--drain", "nan", seconds), ("--load-timeout", "x", seconds),
                ("--tcp", "x:y", "is no number from 0 to 65535"), ("--health", "70000", "is no number from 0 to 65535"),
                ("--fanout", "1", "is no number from 2 to 64"), ("--fanout", "65", "is no number from 2 to 64"),
                ("--max-entries", "0", "is no number from 1 to 16777216"), ("--max-entries", "16777217", "is no number from 1 to 16777216"),
            )),
        ):  # fmt: skip
            status, output = run(*words)
            self.assertEqual(status, 2, words)
            self.assertRegex(output, f"^rtfilter-serve: {message}; rtfilter-serve --help lists the options\n$")


class Surroundings(Case):
    def test_as_another_user(self) -> None:
        self.need_another_user()
        os.chmod(self.folder, 0o777)
        service = self.served(before=["setpriv", "--reuid=61235", "--regid=61235", "--clear-groups"], python=SYSTEM_PYTHON)
        self.assert_well(service)
        service.exchange()
        self.assert_well(service)
        self.assertEqual({os.stat(f"/proc/{process}").st_uid for process in service.processes}, {61235})

    def test_as_process_1(self) -> None:
        """As in a container: it is the parent of what an ended program leaves, and keeps none of that."""
        before = ["unshare", "--pid", "--fork", "--kill-child", "--mount-proc"]
        if shutil.which(before[0]) is None or subprocess.run([*before, "true"], stderr=subprocess.DEVNULL).returncode:
            self.skipTest("the right to a namespace of processes: not there")
        service = self.served(before=before)
        (own,) = children_of(service.process.pid)
        self.addCleanup(lambda: self.assertEqual(service.process.wait(10), 0))
        self.addCleanup(os.kill, own, signal.SIGTERM)  # which unshare takes no notice of
        for at in range(1, 3):
            (program,) = children_of(own)
            with service.connect() as one, service.connect() as two:
                self.count(one, two)
                self.assertEqual(len(children_of(program)), 2)
                os.kill(program, signal.SIGKILL)
                service.logs("^ready again", at)
            listed = Path(f"/proc/{own}/task/{own}/children").read_text().split()
            self.assertEqual(listed, [str(process) for process in children_of(own)])
            self.assertEqual(len(listed), 1)

    def test_signals_that_are_blocked_or_ignored(self) -> None:
        """Whoever starts it may have blocked all signals, or have had these ignored."""
        def prepare() -> None:
            for number in (signal.SIGHUP, signal.SIGTERM, signal.SIGCHLD, signal.SIGINT, signal.SIGIO):
                signal.signal(number, signal.SIG_IGN)
            signal.pthread_sigmask(signal.SIG_BLOCK, signal.valid_signals())

        service = self.served(preexec_fn=prepare)
        self.assert_well(service)
        with service.connect() as asker:
            self.count(asker)
            status = Path(f"/proc/{service.connections[0]}/status").read_text()
            self.assertRegex(status, r"SigBlk:\t0+\n")
            self.assertRegex(status, r"SigCgt:\t0+\n")
        service.exchange()
        service.logs("status=[01] ", 2)
        service.signal(signal.SIGTERM)
        self.assertEqual(service.process.wait(10), 0)

    def test_without_standard_files(self) -> None:
        """Nobody takes its log, and it goes on: closed, or a pipe that nobody reads any more, or that is full."""
        many = table_of(self.folder, "many", 0, 50_000)
        reading, writing = os.pipe()
        os.set_blocking(writing, False)
        for size in (4096, 1):
            with contextlib.suppress(BlockingIOError):
                while True:
                    os.write(writing, b"x" * size)
        os.set_blocking(writing, True)
        left, broken = os.pipe()
        os.close(left)
        scripts = 'exec "$@" 2>&-', 'exec "$@" <&- >&- 2>&-', 'exec "$@"', 'exec "$@"'
        for script, errors in zip(scripts, (None, None, broken, writing)):
            service = self.served(many, "--connections", "1", before=["sh", "-c", script, "-"], is_ready=False, stderr=errors)
            until(lambda: service.is_answered(50_000), "the service")
            for _ in range(3):
                with service.connect() as asker:  # one that ends with a line of its own
                    asker.sendall(b"find all\n" * 50)
                    asker.recv(1)
                until(lambda: service.is_answered(50_000), "an end to that")
                service.signal(signal.SIGHUP)
            service.signal(signal.SIGTERM)
            self.assertEqual(service.process.wait(10), 0)
        for end in (reading, writing, broken):
            os.close(end)

"""The service as it is installed, without the repository and without pip, and its units."""

import configparser
import os
import re
import signal
import socket
import subprocess
from pathlib import Path

from served import BOXES, PROGRAM, ROOT, Case, Started
from support import found, wants

UNITS = ROOT / "service/rtfilter.socket", ROOT / "service/rtfilter.service"
PLAIN = {"PATH": "/usr/bin:/bin"}
LEAST_EXPOSURE = 1.5


class Installed(Case):
    def make(self, target: str) -> None:
        places = f"PROGRAM={PROGRAM}", f"DESTDIR={self.folder}/root", "PREFIX=/opt/it"
        subprocess.run(["make", "--silent", "-C", ROOT, target, *places], check=True, stdout=subprocess.DEVNULL, env={**os.environ, "MAKEFLAGS": ""})

    def setUp(self) -> None:
        super().setUp()
        self.make("install")
        self.place = Path(self.folder, "root/opt/it")

    def test_it_runs(self) -> None:
        """By the system's Python, from another folder, with nothing but the system's paths."""
        path = f"{self.folder}/socket"
        words = [self.place / "bin/rtfilter-serve", "--program", self.place / "bin/rtfilter", "--unix", path, BOXES]
        with Started(self.folder, path, [*map(str, words)], env=PLAIN, cwd="/") as service:
            self.assertEqual(service.log, f"listening on {path}\nready: 5 boxes\n")
            self.assertEqual(service.ask(b"count all\n"), b"ok 1 5\n")
        self.assertEqual(service.process.returncode, 0)

    def test_it_is_removed(self) -> None:
        self.make("uninstall")
        left = [path for path in self.place.rglob("*") if not path.is_dir()]
        self.assertEqual(left, [])

    def test_units(self) -> None:
        """They name what is installed, the socket is its owner's alone, and systemd finds no fault with them."""
        folder = self.place / "lib/systemd/system"
        units = []
        for unit in UNITS:
            self.assertEqual((folder / unit.name).read_text(), unit.read_text().replace("/usr/local", "/opt/it"))
            parser = configparser.RawConfigParser(delimiters="=", strict=False)
            parser.read(unit)
            units.append(parser)
        self.assertEqual(units[0]["Socket"]["SocketMode"], "0600")
        self.assertEqual((units[1]["Unit"]["Requires"], units[1]["Service"]["Type"]), ("rtfilter.socket", "notify"))
        words = units[1]["Service"]["ExecStart"].replace("/usr/local", str(self.place)).split()
        self.assertTrue(os.access(words[0], os.X_OK) and os.access(words[words.index("--program") + 1], os.X_OK), words)
        wants("systemd-analyze")
        for unit in UNITS:
            text = unit.read_text().replace("/usr/local", str(self.place))
            Path(self.folder, unit.name).write_text(text)
        copies = [Path(self.folder, unit.name) for unit in UNITS]
        report = self.analyzed("--man=no", "--recursive-errors=no", "verify", *copies)
        # What it says of other units is the machine's affair.
        self.assertEqual([line for line in report.splitlines() if "rtfilter" in line], [])
        report = self.analyzed("--no-pager", "security", "--offline=true", copies[1])
        self.assertLessEqual(float(found(r"exposure level for rtfilter.service: ([\d.]+)", report)[1]), LEAST_EXPOSURE)

    def analyzed(self, *words: object) -> str:
        command = ["systemd-analyze", *map(str, words)]
        done = subprocess.run(command, stdout=subprocess.PIPE, stderr=subprocess.STDOUT, text=True, timeout=120)
        self.assertEqual(done.returncode, 0, done.stdout)
        return done.stdout


class AsUnit(Case):
    def test_calls_that_its_unit_allows(self) -> None:
        """The service, its programs and its connections make no others."""
        wants("strace", "systemd-analyze")
        trace = Path(self.folder, "trace")
        before = ["strace", "-f", "-qq", "-o", str(trace), "--interruptible=never"]
        service = self.served(BOXES, "--tcp", "0", "--health", "0", before=before)
        with service.connect() as asker:
            self.count(asker)
            (traced,) = service.programs
            os.kill(traced, signal.SIGHUP)
            service.logs("^the table is exchanged")
        self.assertEqual(service.get("/health")[0], 200)
        service.logs("status=0 ")
        os.kill(traced, signal.SIGTERM)
        self.assertEqual(service.process.wait(20), 0)
        called = set(re.findall(r"^\d+ +(\w+)\(", trace.read_text(), re.MULTILINE))
        self.assertGreater(len(called), 40)
        self.assertEqual(called - (allowed("@system-service") - allowed("@privileged")), set())

    def test_what_systemd_receives(self) -> None:
        """READY once the table stands, with its size; RELOADING, and READY again, whether there is a new table or not."""
        with socket.socket(socket.AF_UNIX, socket.SOCK_DGRAM) as systemd:
            systemd.bind(f"{self.folder}/notify")
            systemd.settimeout(10)
            table = Path(self.folder, "table")
            table.write_bytes(BOXES.read_bytes())
            service = self.served(table, env={**os.environ, "NOTIFY_SOCKET": f"{self.folder}/notify"})
            self.assertEqual(systemd.recv(1000), b"READY=1\nSTATUS=5 boxes")
            for text, notice in (("7,0,1,0,1\n", b"READY=1\nSTATUS=1 boxes"), ("nonsense\n", b"READY=1")):
                table.write_text(text)
                service.signal(signal.SIGHUP)
                self.assertRegex(systemd.recv(1000), rb"^RELOADING=1\nMONOTONIC_USEC=\d+$")
                self.assertEqual(systemd.recv(1000), notice)
            service.signal(signal.SIGTERM)
            self.assertEqual(systemd.recv(1000), b"STOPPING=1")


def allowed(name: str) -> set[str]:
    """The calls of a set of systemd's, and of those that it names."""
    listing = subprocess.run(["systemd-analyze", "syscall-filter", name], stdout=subprocess.PIPE, text=True, check=True).stdout
    names = [line.strip() for line in listing.splitlines()[1:] if line.strip() and not line.strip().startswith("#")]
    return {call for it in names for call in (allowed(it) if it.startswith("@") else {it})}

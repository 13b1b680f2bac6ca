"""The programs that are measured: rtfilter and its peers, and what one that has loaded its table takes for lines."""

import fcntl
import hashlib
import os
import re
import struct
import subprocess
import termios
import time
from concurrent.futures import ThreadPoolExecutor
from pathlib import Path

ROOT = Path(__file__).resolve().parent.parent
SOURCES = ROOT / "bench/peers"
OURS = "rtfilter"
SCAN = "a scan"
PEERS = {
    "Boost.Geometry": ("boost.cpp", []),
    "GEOS": ("geos.cpp", ["-DUSE_UNSTABLE_GEOS_CPP_API", "-lgeos"]),
    "libspatialindex": ("spatialindex.cpp", ["-lspatialindex"]),
    "SQLite's R*Tree": ("sqlite.cpp", ["-lsqlite3"]),
    SCAN: ("scan.cpp", []),
}
OPTIMIZATION = 2  # the level at which g++ compiles peers
PIPE_BYTES = 2**20
LOOK_SECONDS = 0.0005  # between two looks at whether a program waits
MOST_SECONDS = 90  # of processor time, for a load or for lines


class TooLong(Exception):
    """A program takes longer than it may."""


def built(name):
    """The path of a peer, compiled if it isn't there or its source is newer, and why there is none."""
    source, options = PEERS[name]
    path = ROOT / "build/peers" / Path(source).stem
    newest = max(file.stat().st_mtime for file in (SOURCES / source, SOURCES / "peer.hpp"))
    if path.exists() and path.stat().st_mtime >= newest:
        return str(path), None
    path.parent.mkdir(parents=True, exist_ok=True)
    command = ["g++", "-std=c++17", f"-O{OPTIMIZATION}", "-DNDEBUG", "-w", "-o", path, SOURCES / source, *options]
    try:
        done = subprocess.run(command, capture_output=True, text=True)
    except FileNotFoundError:
        return None, "there is no g++"
    return (None, reason_of(done.stderr)) if done.returncode else (str(path), None)


def reason_of(errors):
    """Why something can't be compiled or linked."""
    return next(iter(re.findall(r"(?:error|cannot find).*", errors)), "it can't be compiled")


def all_programs(program):
    """The path of each program by its name, and those that are passed over, with the reason."""
    with ThreadPoolExecutor() as pool:
        found = dict(zip(PEERS, pool.map(built, PEERS)))
    paths = {OURS: str(Path(program).resolve())} | {name: path for name, (path, _) in found.items() if path}
    return paths, {name: reason for name, (_, reason) in found.items() if reason}


class Session:
    """A program that loads a table and is then asked over a pipe. What it answers is thrown away."""

    def __init__(self, program, table):
        words = {"stdin": subprocess.PIPE, "stdout": subprocess.DEVNULL, "bufsize": 0}
        self._process = subprocess.Popen([program, table], **words)
        self._pipe = self._process.stdin.fileno()
        fcntl.fcntl(self._pipe, fcntl.F_SETPIPE_SZ, PIPE_BYTES)
        self._clock = ~self._process.pid << 3 | 2  # of all threads of that process, as the kernel counts clocks
        try:
            self.load = self._at_rest()
        except TooLong:
            self.kill()
            raise

    def _seconds(self):
        """The processor time so far."""
        return time.clock_gettime(self._clock)

    def _waits(self):
        """Whether it has read all, and sleeps."""
        state = Path(f"/proc/{self._process.pid}/stat").read_text().rpartition(")")[2].split()[0]
        if state in "ZX":
            raise SystemExit(f"{self._process.args} has ended with {self._process.wait()}")
        unread = struct.unpack("i", fcntl.ioctl(self._pipe, termios.FIONREAD, bytes(4)))[0]
        return unread == 0 and state == "S"

    def _at_rest(self):
        """The processor time once it waits for lines: two looks in a row find it waiting."""
        begun, before = None, None
        while True:
            seconds = self._seconds() if self._waits() else None
            if seconds is not None and seconds == before:
                return seconds
            before, begun = seconds, begun or self._seconds()
            if self._seconds() - begun > MOST_SECONDS:
                raise TooLong
            time.sleep(LOOK_SECONDS)

    def ask(self, text):
        """The seconds of the processor that lines take."""
        before, left = self._seconds(), memoryview(text)
        while left:
            left = left[os.write(self._pipe, left):]
        return self._at_rest() - before

    def memory(self):
        """Bytes: the most address space, the most resident memory, and what is resident now."""
        status = Path(f"/proc/{self._process.pid}/status").read_text()
        names = {"address space": "VmPeak", "most": "VmHWM", "resident": "VmRSS"}
        return {name: 1024 * int(re.search(rf"{field}:\s+(\d+)", status)[1]) for name, field in names.items()}

    def kill(self):
        self._process.kill()
        self._process.wait()
        self._process.stdin.close()

    def end(self):
        self._process.stdin.close()
        if self._process.wait():
            raise SystemExit(f"{self._process.args} has ended with {self._process.returncode}")


def digest(program, table, lines):
    """The digest of what a program answers to a file of lines."""
    with open(lines) as file:
        process = subprocess.Popen([program, table], stdin=file, stdout=subprocess.PIPE)
        found = hashlib.file_digest(process.stdout, "sha256").hexdigest()
        process.stdout.close()
        return found if process.wait() == 0 else f"status {process.returncode}"


def that_differ(programs, table, lines):
    """The names of the programs whose answers aren't rtfilter's, byte for byte."""
    with ThreadPoolExecutor() as pool:
        found = dict(zip(programs, pool.map(lambda path: digest(path, table, lines), programs.values())))
    return [name for name, value in found.items() if value != found[OURS]]

"""What tests around the program share: paths, and the examples of pages."""

import contextlib
import errno
import os
import re
import shutil
import subprocess
import sys
import threading
import time
import unittest
from collections.abc import Callable, Iterable, Iterator
from pathlib import Path
from typing import Any

import pages

ROOT = Path(__file__).resolve().parent.parent
PACKAGE = ROOT / "python"
DATA = ROOT / "examples/data"
PROGRAM = os.environ.get("RTFILTER_PROGRAM", str(ROOT / "build/rtfilter"))

LONGEST = 30.0  # seconds that anything may take

# Stands before the words of a Python command: what it does with a module and a statement is to run the statement as the module is
# looked for.
AT_IMPORT = """
import os, runpy, signal, sys
_, module, statement, python, option, *sys.argv = sys.argv
class Finder:
    def find_spec(name, *_):
        if name == module:
            exec(statement)
signal.signal(signal.SIGHUP, signal.SIG_DFL)
signal.signal(signal.SIGINT, signal.default_int_handler)
sys.meta_path.insert(0, Finder)
if sys.argv[0] == "-m":
    del sys.argv[0]
    runpy.run_module(sys.argv[0], run_name="__main__", alter_sys=True)
else:
    runpy.run_path(sys.argv[0], run_name="__main__")
"""
HANG_UP, INTERRUPT = (f"os.kill(os.getpid(), signal.{it})" for it in ("SIGHUP", "SIGINT"))


def environment() -> dict[str, str]:
    """That of a command over the package of the checkout."""
    return {**os.environ, "PYTHONPATH": str(PACKAGE), "PYTHONDONTWRITEBYTECODE": "1"}


def printed(page: Path, tool: str, path: str = "") -> Iterator[tuple[str, str, str]]:
    """The examples of a page that name a tool: each command, what the page shows, and what it prints in a checkout. `path` comes
    first in PATH."""
    for command, shown in pages.sessions(page.read_text(encoding="utf-8"), tool):
        # (this Python, and not another one that comes first in PATH)
        found = {"PATH": os.pathsep.join([*([path] if path else []), os.path.dirname(sys.executable), os.environ["PATH"]])}
        done = subprocess.run(
            ["bash", "-c", command], cwd=ROOT, env={**environment(), **found}, stdin=subprocess.DEVNULL, stdout=subprocess.PIPE,
            stderr=subprocess.STDOUT, text=True, timeout=LONGEST,
        )  # fmt: skip
        yield command, shown, done.stdout


def output_of_program(table: Path, queries: bytes) -> bytes:
    """What the program writes that is given these bytes alone."""
    return subprocess.run([PROGRAM, table], input=queries, capture_output=True, timeout=120).stdout


def wants(*tools: str) -> None:
    """Skips a test that needs these tools if one of them isn't installed."""
    missing = [tool for tool in tools if shutil.which(tool) is None]
    if missing:
        raise unittest.SkipTest(f"{', '.join(missing)}: not installed")


def found(pattern: str, text: str, flags: int = 0) -> re.Match[str]:
    """Where a text has a part that matches, as it is to have."""
    match = re.search(pattern, text, flags)
    assert match is not None, f"{pattern} isn't in {text[:2000]!r}"
    return match


def seconds_of(process: int) -> float:
    """Processor time of a process so far."""
    # Behind the name, which is in brackets and may hold anything: from the third field of proc(5)'s stat on.
    fields = Path(f"/proc/{process}/stat").read_text().rpartition(")")[2].split()
    return (int(fields[11]) + int(fields[12])) / os.sysconf("SC_CLK_TCK")


def until(is_so: Callable[[], Any], what: str = "what is waited for") -> Any:
    """Waits until something is so. Returns what the call returns then."""
    end = time.monotonic() + LONGEST
    while not (value := is_so()):
        if time.monotonic() > end:
            raise TimeoutError(f"{what} doesn't come")
        time.sleep(0.005)
    return value


@contextlib.contextmanager
def all_of(threads: Iterable[threading.Thread]) -> Iterator[None]:
    """Threads that run meanwhile, and are waited for."""
    begun = list(threads)
    for thread in begun:
        thread.start()
    try:
        yield
    finally:
        for thread in begun:
            thread.join()


def opened_for_writing(pipe: Path) -> int:
    """The end of a named pipe, once another process reads from it."""
    until = time.monotonic() + LONGEST
    while True:
        try:
            return os.open(pipe, os.O_WRONLY | os.O_NONBLOCK)
        except OSError as error:
            if error.errno != errno.ENXIO or time.monotonic() > until:
                raise
            time.sleep(0.01)

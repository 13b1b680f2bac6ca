"""What the commands have in common: how they start."""

import subprocess
import sys

import pytest
from support import AT_IMPORT, HANG_UP, INTERRUPT, LONGEST, environment

LATE = {"rtfilter.fence": "rtfilter.fence.devices", "rtfilter.tiles": "rtfilter.tiles.boxes"}  # a module of its own that each needs
NEEDS = {"rtfilter.fence": "numpy", "rtfilter.tiles": "aiohttp"}


def started(command: str, module: str, statement: str) -> "subprocess.CompletedProcess[str]":
    """A command that prints its version, unless a statement that is run as it looks for a module has it do something else."""
    words = [sys.executable, "-c", AT_IMPORT, module, statement, sys.executable, "-B", "-m", command, "--version"]
    return subprocess.run(words, capture_output=True, text=True, timeout=LONGEST, env=environment())


@pytest.mark.parametrize("command", LATE)
def test_a_signal_as_it_starts(command: str) -> None:
    """SIGHUP doesn't end it while its modules are loaded, and an interrupt says nothing."""
    done, name = started(command, LATE[command], HANG_UP), command.replace(".", "-")
    assert done.returncode == 0 and done.stdout.startswith(f"{name} ") and done.stderr == ""
    done = started(command, LATE[command], INTERRUPT)
    assert (done.returncode, done.stdout, done.stderr) == (130, "", "")


@pytest.mark.parametrize("command", NEEDS)
def test_a_package_that_is_not_installed(command: str) -> None:
    package, name = NEEDS[command], command.replace(".", "-")
    done = started(command, package, f"raise ModuleNotFoundError(name={package!r})")
    needs = f"{name}: it needs the Python package {package}: pip install {package}, or apt install python3-{package}\n"
    assert (done.returncode, done.stdout, done.stderr) == (1, "", needs)

"""Runs the command rtfilter-tiles."""

import signal

signal.signal(signal.SIGHUP, signal.SIG_IGN)  # it would end the command; the table is loaded later anyway

import sys

from .._console import run


def main() -> int:
    """Runs the command. Returns its exit status."""
    return run("rtfilter-tiles", "rtfilter.tiles.command")


if __name__ == "__main__":
    sys.exit(main())

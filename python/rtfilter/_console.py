"""What the commands share: their command lines, their messages, and their start."""

import argparse
import contextlib
import importlib
import sys
from collections.abc import Callable
from typing import NoReturn

INTERRUPTED = 130  # the status, as shells have it


def say(command: str, text: str) -> None:
    """Writes a line of a command to standard error, which may be closed."""
    if sys.stderr is not None:  # as for which `print` would take standard output
        with contextlib.suppress(OSError, ValueError):
            print(f"{command}: {text}", file=sys.stderr, flush=True)


def reason(error: BaseException) -> str:
    """The text of an error: of one of the system the file and why, without its number."""
    if isinstance(error, OSError) and error.strerror:
        return f"{error.filename}: {error.strerror}" if error.filename else error.strerror
    return str(error) or ("out of memory" if isinstance(error, MemoryError) else type(error).__name__)


class Parser(argparse.ArgumentParser):
    """A command line. What is wrong with one is a message in one line."""

    def error(self, message: str) -> NoReturn:
        say(self.prog, f"{message}; {self.prog} --help lists the options")
        sys.exit(2)


def whole(least: int, most: int) -> Callable[[str], int]:
    """Reads a whole number in a range."""

    def number(word: str) -> int:
        with contextlib.suppress(ValueError):
            if least <= (found := int(word)) <= most:
                return found
        raise argparse.ArgumentTypeError(f"{word!r} is no whole number from {least} to {most}")

    return number


def run(name: str, module: str) -> int:
    """Runs the command of a module. Returns its exit status."""
    try:
        status: int = importlib.import_module(module).main()
        return status
    except ModuleNotFoundError as error:
        say(name, f"it needs the Python package {error.name}: pip install {error.name}, or apt install python3-{error.name}")
        return 1
    except KeyboardInterrupt:
        return INTERRUPTED

"""A plugin of pytest: a test that takes too long ends the run, with the stacks of its threads, and SIGINT isn't ignored."""

import faulthandler
import os
import signal

import pytest

TOO_LONG = 300  # seconds of one test: something waits for ever
ERRORS = open(os.dup(2), "w", encoding="utf-8")  # standard error, before pytest captures it


def pytest_configure():
    """A background job of a shell ignores SIGINT, and so would the servers that tests start and interrupt."""
    signal.signal(signal.SIGINT, signal.default_int_handler)


@pytest.hookimpl(hookwrapper=True)
def pytest_runtest_protocol():
    faulthandler.dump_traceback_later(TOO_LONG, exit=True, file=ERRORS)
    yield
    faulthandler.cancel_dump_traceback_later()

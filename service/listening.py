"""The sockets that a service listens on."""

import contextlib
import errno
import fcntl
import os
import socket
import stat
import struct
import time
from collections.abc import Iterator
from typing import Any

FIRST_GIVEN = 3  # the first descriptor that systemd passes
BACKLOG = 4096  # as many as Linux lets wait, by default
PATIENCE = 5.0  # seconds that another process may keep a folder locked
REASONS = {  # why a path can't be listened on, and what to do
    errno.ENOENT: "its folder doesn't exist: make it, or choose another path",
    errno.EACCES: "this user may make no socket in its folder: choose another path",
    errno.EADDRINUSE: "another service listens there: choose another path",
    errno.EAGAIN: "another process keeps its folder locked: end that, or choose another path",
}
NO_SOCKET = "it is no socket, and isn't replaced: choose another path"


@contextlib.contextmanager
def unix_listener(path: str, mode: int) -> Iterator[socket.socket]:
    """A Unix socket at a path, with a mode that it has from the first. One on which nobody listens is replaced; what
    stands there at the end is removed if it is this one."""
    with socket.socket(socket.AF_UNIX) as listener:
        with explained(path), locked(path):
            remove_if_unused(path)
            mask = os.umask(0o777 & ~mode)
            try:
                listener.bind(path)
            finally:
                os.umask(mask)
            listener.listen(BACKLOG)
            own = os.lstat(path)
        try:
            yield listener
        finally:
            with contextlib.suppress(OSError), locked(path):
                if os.path.samestat(own, os.lstat(path)):
                    os.unlink(path)


@contextlib.contextmanager
def explained(path: str) -> Iterator[None]:
    """Has errors of a path say which option it is of, and what to do."""
    try:
        yield
    except OSError as error:
        is_other = error.errno == errno.EADDRINUSE and not stat.S_ISSOCK(os.lstat(path).st_mode)
        why = NO_SOCKET if is_other else REASONS.get(error.errno or 0, error.strerror or str(error))
        raise OSError(f"--unix {path}: {why}") from None


@contextlib.contextmanager
def locked(path: str) -> Iterator[None]:
    """Keeps other services from paths in this folder meanwhile."""
    folder = os.open(os.path.dirname(path) or ".", os.O_RDONLY)
    until = time.monotonic() + PATIENCE
    try:
        while True:
            try:
                fcntl.flock(folder, fcntl.LOCK_EX | fcntl.LOCK_NB)
                break
            except BlockingIOError:  # every user that may read the folder may lock it
                if time.monotonic() > until:
                    raise
                time.sleep(0.01)
        yield
    finally:
        os.close(folder)


def remove_if_unused(path: str) -> None:
    """Removes a socket on which nobody listens."""
    with contextlib.suppress(FileNotFoundError), socket.socket(socket.AF_UNIX) as probe:
        probe.setblocking(False)  # whose backlog is full is in use
        if stat.S_ISSOCK(os.lstat(path).st_mode) and probe.connect_ex(path) == errno.ECONNREFUSED:
            os.unlink(path)


def tcp_listener(option: str, host: str, port: int) -> socket.socket:
    """A TCP socket at the place that an option names."""
    family = socket.AF_INET6 if ":" in host else socket.AF_INET
    try:
        return socket.create_server((host, port), family=family, backlog=BACKLOG)
    except OSError as error:
        # (without the address, which create_server adds)
        why = "the port is in use: choose another port" if error.errno == errno.EADDRINUSE else str(error.strerror).partition(" (")[0]
        raise OSError(f"{option} {name_of((host, port))}: {why}") from None


def given_listeners() -> list[socket.socket]:
    """The sockets that systemd has opened for this process (sd_listen_fds), which come once."""
    process, count = os.environ.pop("LISTEN_PID", ""), os.environ.pop("LISTEN_FDS", "0")
    return [socket.socket(fileno=FIRST_GIVEN + at) for at in range(int(count) * (process == str(os.getpid())))]


def name_of(address: Any) -> str:
    """A socket's address, in words."""
    if isinstance(address, bytes):  # of Linux's abstract names
        return "@" + os.fsdecode(address[1:])
    if isinstance(address, str):
        return address
    host, port, *_ = address
    return f"[{host}]:{port}" if ":" in host else f"{host}:{port}"


def peer_of(connection: socket.socket, address: object) -> str:
    """The client of a connection, in words."""
    if connection.family != socket.AF_UNIX:
        return name_of(address)
    process, user, _ = struct.unpack("iII", connection.getsockopt(socket.SOL_SOCKET, socket.SO_PEERCRED, 12))
    return f"process {process} of user {user}"

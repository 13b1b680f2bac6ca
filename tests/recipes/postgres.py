"""A PostgreSQL server in a folder of its own, for as long as it is wanted."""

import contextlib
import os
import shutil
import subprocess
import tempfile
import unittest
from collections.abc import Iterator
from pathlib import Path

TOOLS = sorted(Path("/usr/lib/postgresql").glob("*/bin"))
USER = "postgres"  # root may not run a server; Debian's package has this user


@contextlib.contextmanager
def server(test: unittest.TestCase) -> Iterator[dict[str, str]]:
    """What the environment of psql says of a server that listens to a socket in its folder alone."""
    if not TOOLS:
        test.skipTest("postgresql: not installed")
    as_user = []
    with tempfile.TemporaryDirectory(prefix="rtfilter-") as folder:
        if os.geteuid() == 0:
            as_user = ["setpriv", f"--reuid={USER}", f"--regid={USER}", "--clear-groups"]
            shutil.chown(folder, USER, USER)

        def run(tool: str, *words: str) -> None:
            subprocess.run([*as_user, TOOLS[-1] / tool, *words], cwd=folder, check=True, stdout=subprocess.DEVNULL)

        run("initdb", "--pgdata=data", f"--username={USER}", "--auth=trust", "--no-sync", "--locale=C.UTF-8")
        run("pg_ctl", "--pgdata=data", "--wait", "--log=log", f"--options=-k {folder} -c listen_addresses= -F", "start")
        try:
            yield {"PGHOST": folder, "PGUSER": USER, "PGDATABASE": "postgres"}
        finally:
            run("pg_ctl", "--pgdata=data", "--mode=immediate", "stop")

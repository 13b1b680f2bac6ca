"""The service as it is typed from its pages, by the system's Python and without pip."""

import contextlib
import os
import re
import shutil
import subprocess
from collections.abc import Iterator
from pathlib import Path
from typing import Any

from served import BOXES, MOMENT, PROGRAM, ROOT, Case, Started
from support import wants

QUICK_START, PAGE = ROOT / "docs/quick-start.md", ROOT / "docs/service.md"
STARTED = re.compile(r"^```\n\$ (rtfilter-serve .*) &\n((?:.*\n)*?)```$", re.MULTILINE)
TYPED = re.compile(r"^```\n\$ (echo .*)\n((?:.*\n)*?)\$ kill -HUP %1\n```$", re.MULTILINE)


class Typed(Case):
    def setUp(self) -> None:
        super().setUp()
        folder = Path(self.folder, "bin")
        folder.mkdir()
        command = folder / "rtfilter-serve"
        command.write_text(f'#!/bin/sh\nexec /usr/bin/python3 -B {ROOT}/service/serve.py --program {PROGRAM} "$@"\n')
        command.chmod(0o755)
        Path(self.folder, "examples").symlink_to(ROOT / "examples")
        shutil.copy(BOXES, self.folder)
        self.words: dict[str, Any] = {"shell": True, "executable": "/bin/bash", "cwd": self.folder, "text": True}
        self.words["env"] = {"PATH": f"{folder}:/usr/bin:/bin"}

    @contextlib.contextmanager
    def started(self, command: str, expected: list[str]) -> Iterator[Started]:
        """The service, which begins with these lines of a page, at other times, and is ended by a signal, with status 0."""
        with Started(self.folder, f"{self.folder}/boxes.socket", f"exec {command}", **self.words) as service:
            logged = service.log_file.read_text().splitlines()
            self.assertEqual([MOMENT.sub("", line) for line in logged], [MOMENT.sub("", line) for line in expected])
            self.assertTrue(all(map(MOMENT.match, [*logged, *expected])))
            yield service
        self.assertEqual(service.process.returncode, 0)
        self.assertFalse(os.path.lexists(service.path))

    def typed(self, command: str) -> str:
        wants("nc")
        return subprocess.run(command, stdout=subprocess.PIPE, timeout=60, **self.words).stdout

    def test_the_page(self) -> None:
        """What it shows: the log, and the replies."""
        served, netcat = re.findall(r"^```\n\$ ((?:rtfilter-serve|printf).*?)^```$", PAGE.read_text(), re.MULTILINE | re.DOTALL)
        command, *expected = served.replace("/usr/share/rtfilter/", "").splitlines()
        with self.started(command, expected):
            command, *shown = netcat.splitlines()
            self.assertEqual(self.typed(command).splitlines(), shown)

    def test_the_quick_start(self) -> None:
        """A query is answered over the socket, and again after SIGHUP has replaced the table."""
        page = QUICK_START.read_text(encoding="utf-8")
        ((serve, log),), ((ask, shown),) = STARTED.findall(page), TYPED.findall(page)
        with self.started(serve, log.splitlines()) as service:
            self.assertEqual(self.typed(ask), shown)
            service.exchange()
            self.assertEqual(self.typed(ask), shown)

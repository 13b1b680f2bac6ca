"""The gate installs what the tests need if it may, and names what is missing; programs of the tests stand for the system's."""

import os
import shutil
import subprocess
import sys
import tempfile
import unittest
from pathlib import Path

from support import ROOT

LONGEST = 60  # seconds
NAMES = (ROOT / "tests/packages.txt").read_text().split()
# Of the packages all are installed whose names don't stand in the file that LACKING names; an installation empties that.
STUBS = {
    "dpkg-query": """for name; do case $name in -*) ;; *) grep -qx "$name" "$LACKING" || echo "installed $name" ;; esac; done""",
    "apt-get": """echo "apt-get $*" >> "$CALLS"; case $* in *install*) [ -z "$NO_NETWORK" ] && : > "$LACKING" ;; esac""",
    "id": "echo $USER_ID",
    "sudo": """echo "sudo $*" >> "$CALLS" """,
    "make": """echo "make $*" >> "$CALLS" """,
    "rt": """printf 'rt: rtfilter proved\\nrt: rtfilter_c proved\\n7 passed, 0 failed\\n'""",
    "python3": """case $* in
  *map*) printf 'skipped test_pages: chromium: not installed\\n3 passed, 0 failed\\n' ;;
  *) printf '1 passed, 0 failed\\n' ;;
esac""",
}


class Gate(unittest.TestCase):
    def setUp(self) -> None:
        self.folder = Path(self.enterContext(tempfile.TemporaryDirectory()))
        for name in (".ci/run", "tests/run", "tests/packages", "tests/packages.txt"):
            (self.folder / name).parent.mkdir(exist_ok=True)
            shutil.copy(ROOT / name, self.folder / name)
        self.stubs, self.calls, self.lacking = (self.folder / name for name in ("bin", "calls", "lacking"))
        self.stubs.mkdir()
        for name, text in STUBS.items():
            (self.stubs / name).write_text(f"#!/bin/bash\n{text}\n")
            (self.stubs / name).chmod(0o755)

    def run_script(self, name: str, *words: str, lacking: str = "", **environment: str) -> tuple[int, list[str], list[str]]:
        """The status of a script, the lines that it prints, and what it calls."""
        self.calls.write_text("")
        self.lacking.write_text("".join(f"{it}\n" for it in lacking.split()))
        it = {"PATH": f"{self.stubs}:{os.environ['PATH']}", "CALLS": str(self.calls), "LACKING": str(self.lacking)}
        # (this Python runs what is written in it: the one of the path is a stub)
        runner = [sys.executable] if name == "tests/run" else []
        done = subprocess.run(
            [*runner, self.folder / name, *words], env={**it, "USER_ID": "0", "NO_NETWORK": "", **environment}, stdout=subprocess.PIPE,
            stderr=subprocess.STDOUT, stdin=subprocess.DEVNULL, text=True, timeout=LONGEST,
        )  # fmt: skip
        return done.returncode, done.stdout.splitlines(), self.calls.read_text().splitlines()

    def test_what_is_installed(self) -> None:
        """What isn't there, in one step; nothing if all is."""
        self.assertEqual(self.run_script("tests/packages"), (0, [], []))
        status, output, calls = self.run_script("tests/packages", lacking="chromium mypy")
        self.assertEqual((status, output), (0, []))
        self.assertRegex("\n".join(calls), "^apt-get .*update\napt-get .*install .* chromium mypy$")
        status, output, _ = self.run_script("tests/packages", lacking="mypy", NO_NETWORK="1")
        self.assertEqual((status, output), (1, ["not installed: mypy"]))
        _, _, calls = self.run_script("tests/packages", lacking="mypy", USER_ID="1000")
        self.assertRegex(calls[0], "^sudo env .* apt-get .*update$")
        self.assertEqual(self.run_script("tests/packages", "--missing", lacking="mypy jq"), (0, ["jq mypy"], []))
        (self.stubs / "dpkg-query").write_text("#!/bin/sh\nexit 127\n")
        self.assertEqual(self.run_script("tests/packages", "--missing"), (0, [" ".join(NAMES)], []))

    def test_the_gate_goes_on(self) -> None:
        """As root it installs first. Where that fails, and for any other user, it goes on."""
        for no_network, user, count in (("", "0", 3), ("1", "0", 3), ("", "1000", 1)):
            status, output, calls = self.run_script(".ci/run", lacking="mypy", NO_NETWORK=no_network, USER_ID=user)
            self.assertEqual((status, len(calls), calls[-1]), (0, count, "make --no-print-directory test"), output)

    def test_what_is_not_tried_is_named(self) -> None:
        """In the last lines but one, which has the numbers."""
        status, output, _ = self.run_script("tests/run", lacking="mypy chromium")
        self.assertEqual(status, 0, output)
        named = ["Not tried:", "skipped test_pages: chromium: not installed", "Not installed (make test-packages): chromium mypy"]
        self.assertEqual(output[-4:-1], named)
        self.assertRegex(output[-1], r"^\d+ passed, 0 failed$")

    def test_the_list(self) -> None:
        """It is in order, without a name twice."""
        self.assertEqual(NAMES, sorted({*NAMES}))
        self.assertLess({"chromium", "mypy", "parallel", "postgresql"}, {*NAMES})

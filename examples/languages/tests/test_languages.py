"""The clients in other languages print what the program says."""

import os
import re
import shutil
import socket
import subprocess
import tempfile
import threading
import unittest
from pathlib import Path

from prefork import library_of
from served import Served
from support import PROGRAM, ROOT, output_of_program

HERE = Path(__file__).resolve().parent.parent
LONG = 120  # seconds that a virtual machine may take on a busy machine

LINES = ["find window 0 10 0 10", "nearest 1 -2147483648 -2147483648", "count all", "levels", "find what"]
TYPED = re.compile(r"^```\n\$ ((?:service/serve|\./ask).*)\n((?:.*\n)*?)```$", re.MULTILINE)
COMMANDS = {
    "ask.js": ("node", ["node", str(HERE / "ask.js")]),
    "Ask.java": ("javac", ["java", str(HERE / "Ask.java")]),
    "ask.sh": ("nc", [str(HERE / "ask.sh")]),
}


class Languages(unittest.TestCase):
    def setUp(self) -> None:
        self.folder = self.enterContext(tempfile.TemporaryDirectory())
        self.table = Path(self.folder, "boxes.csv")
        self.table.write_text("1,0,10,0,10\n2,5,15,5,15\n9223372036854775807,2147483647,2147483647,2147483647,2147483647\n")

    def service(self, table: Path) -> str:
        """Where a service of a table listens, until the test ends."""
        if library_of(PROGRAM) is None:
            self.skipTest("no C compiler, and so no library of the service")
        return self.enterContext(Served(self.folder, table)).path

    def need(self, name: str) -> None:
        """Skips a client that can't be run here."""
        tool, _ = COMMANDS[name]
        if not shutil.which(tool):
            self.skipTest(f"no {tool}")

    def said(self, name: str, path: str, lines: list[str]) -> "subprocess.CompletedProcess[str]":
        """What a client prints that asks lines."""
        words = [*COMMANDS[name][1], path, *lines]
        environment = {**os.environ, "HOME": self.folder}
        return subprocess.run(words, cwd=self.folder, env=environment, capture_output=True, text=True, timeout=LONG)

    def test_each_prints_what_the_program_says(self) -> None:
        path = self.service(self.table)
        expected = output_of_program(self.table, "".join(f"{line}\n" for line in LINES).encode()).decode()
        for name in COMMANDS:
            with self.subTest(name):
                self.need(name)
                self.assertEqual(self.said(name, path, LINES).stdout, expected)

    def test_page(self) -> None:
        """The commands of the page, over sockets of their own, print what it shows."""
        self.need("ask.sh")
        (serve, _), (ask, shown) = TYPED.findall((HERE / "README.md").read_text(encoding="utf-8"))
        named = [word for word in serve.split() if word.startswith("/tmp/")]
        self.assertEqual(len(named), 1)
        path = self.service(ROOT / serve.split()[-1])
        done = subprocess.run(ask.replace(named[0], path), shell=True, cwd=HERE, capture_output=True, text=True, timeout=LONG)
        self.assertEqual(done.stdout, shown)

    def test_each_tells_that_a_connection_has_ended(self) -> None:
        path = str(Path(self.folder, "short.socket"))
        with socket.socket(socket.AF_UNIX) as listener:
            listener.bind(path)
            listener.listen()

            def answer_in_part() -> None:
                connection, _ = listener.accept()
                with connection:
                    connection.recv(100)
                    connection.sendall(b"1 0\n")

            for name in COMMANDS:
                with self.subTest(name):
                    self.need(name)
                    answering = threading.Thread(target=answer_in_part, daemon=True)
                    answering.start()
                    ended = self.said(name, path, LINES[:1])
                    answering.join()
                    self.assertEqual(ended.stdout, "1 0\n")
                    self.assertIn("the connection has ended", ended.stderr)
                    self.assertNotEqual(ended.returncode, 0)

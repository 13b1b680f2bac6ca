"""The wheel is the same each time, and is all that a user needs who has no toolchain and no network."""

import importlib.util
import os
import shutil
import subprocess
import sys
import tempfile
import unittest
import zipfile
from pathlib import Path

from support import DATA, PACKAGE, PROGRAM, ROOT, wants
from test_package import LIBRARY, VERSION, run

MAKE = ROOT / "packaging/make_wheel.py"
PREFORK = Path(PROGRAM).with_name("rtfilter-prefork.so")
NAME = f"rtfilter-{VERSION}-cp311-abi3-manylinux_2_34_x86_64.whl"
SCRIPT = """
import rtfilter
from rtfilter import Rtfilter, Window
print(rtfilter.__version__, Rtfilter("boxes.csv").find(Window(0, 10, 0, 10)), rtfilter.__file__)
"""


class Wheel(unittest.TestCase):
    def setUp(self) -> None:
        wants("gcc", "objdump", "strip")
        if not LIBRARY:
            self.skipTest("tests/pytests.py names no archive of the library")
        self.folder = Path(self.enterContext(tempfile.TemporaryDirectory()))
        self.wheel = Path(run(sys.executable, MAKE, PROGRAM, PREFORK, LIBRARY, self.folder).strip().splitlines()[-1])

    def environment(self, *options: str) -> Path:
        """A fresh virtual environment: the folder of its programs."""
        if importlib.util.find_spec("pip") is None:
            self.skipTest("python3-pip isn't installed")
        run(sys.executable, "-m", "venv", "--without-pip", *options, self.folder / "venv")
        return self.folder / "venv/bin"

    def pip(self, binaries: Path, *words: object, **environment: str) -> None:
        plain = {"PATH": "/usr/bin:/bin", "HOME": str(self.folder), "PYTHONDONTWRITEBYTECODE": "1", **environment}
        run(sys.executable, "-m", "pip", "--disable-pip-version-check", "--python", binaries / "python", *words, env=plain)

    def test_the_same_each_time(self) -> None:
        self.assertEqual(self.wheel.name, NAME)
        first = self.wheel.read_bytes()
        later = self.folder / "later"
        later.mkdir()
        files = [shutil.copy(str(path), later) for path in (PROGRAM, PREFORK, LIBRARY)]  # with other dates and modes
        for path in files:
            os.utime(path, (0, 0))
        made = Path(run(sys.executable, MAKE, *files, later).strip().splitlines()[-1])
        self.assertEqual(made.read_bytes(), first)

    def test_what_is_in_it(self) -> None:
        with zipfile.ZipFile(self.wheel) as archive:
            (record,) = (name for name in archive.namelist() if name.endswith("/RECORD"))
            recorded = [line.split(",")[0] for line in archive.read(record).decode().splitlines()]
            self.assertEqual(recorded, archive.namelist())
            about = archive.read(record.replace("RECORD", "METADATA")).decode()
            modes = {name: archive.getinfo(name).external_attr >> 16 & 0o777 for name in recorded}
            (Path(self.folder, "engine.so")).write_bytes(archive.read("rtfilter/_engine.abi3.so"))
        data = f"rtfilter-{VERSION}.data"
        compiled = {"rtfilter/_engine.abi3.so", f"{data}/scripts/rtfilter", f"{data}/data/lib/rtfilter/rtfilter-prefork.so"}
        self.assertEqual({name for name, mode in modes.items() if mode == 0o755}, compiled)
        for line in (f"Version: {VERSION}", "Requires-Python: >=3.11", "Classifier: Typing :: Typed", "# rtfilter for Python"):
            self.assertIn(f"{line}\n", about)
        self.assertNotRegex(about, "(?i)licen[cs]e|-url:|home-page:")
        exported = {line.split()[-1] for line in run("nm", "-D", "--defined-only", self.folder / "engine.so").splitlines()}
        self.assertEqual(exported, {"PyInit__engine"})

    def test_installed(self) -> None:
        """In a plain environment: the package, and the program with what a service loads."""
        binaries = self.environment()
        self.pip(binaries, "install", "--no-index", self.wheel)
        plain = {"PATH": "/nonexistent", "PYTHONDONTWRITEBYTECODE": "1"}
        version, found, *_, place = run(binaries / "python", "-c", SCRIPT, env=plain, cwd=DATA).replace(", ", ",").split()
        self.assertEqual((version, found), (VERSION, "[1,2]"))
        self.assertTrue(place.startswith(str(self.folder)), place)
        done = subprocess.run([binaries / "rtfilter", DATA / "boxes.csv"], input="count all\n", capture_output=True, text=True, env=plain)
        self.assertEqual((done.returncode, done.stdout, done.stderr), (0, "ok 1 5\n", ""))
        self.assertTrue((binaries.parent / "lib/rtfilter/rtfilter-prefork.so").exists())
        for command in ("rtfilter-fence", "rtfilter-tiles"):
            self.assertTrue(os.access(binaries / command, os.X_OK))
        self.pip(binaries, "uninstall", "--yes", "rtfilter")
        left = [path for path in (self.folder / "venv").rglob("*rtfilter*") if not path.is_dir() or any(path.iterdir())]
        self.assertEqual(left, [])

    def test_from_a_checkout(self) -> None:
        """`pip install --no-build-isolation ./python`, here with the archive in the place of an installed library."""
        assert LIBRARY
        copy = self.folder / "python"
        shutil.copytree(PACKAGE, copy, ignore=shutil.ignore_patterns("*.so", "build", "tests", "__pycache__"))
        binaries = self.environment("--system-site-packages")
        words = {"RTFILTER_ARCHIVE": LIBRARY, "RTFILTER_INCLUDE": str(ROOT / "include")}
        self.pip(binaries, "install", "--no-index", "--no-build-isolation", copy, **words)
        output = run(binaries / "python", "-c", SCRIPT, cwd=DATA, env={"PATH": "/nonexistent", "PYTHONDONTWRITEBYTECODE": "1"})
        self.assertIn("[1, 2]", output)

    def test_what_other_systems_lack(self) -> None:
        source = self.folder / "newer.c"
        source.write_text("#include <stdlib.h>\nunsigned newer(void) { return arc4random(); }\n")
        run("cc", "-shared", "-fPIC", "-o", self.folder / "newer.so", source)
        for file, reason in ((self.folder / "newer.so", "wants GLIBC_2.36"), ("/bin/bash", "wants libtinfo.so.6")):
            words = [sys.executable, MAKE, PROGRAM, str(file), str(LIBRARY), self.folder]
            done = subprocess.run([*map(str, words)], capture_output=True, text=True)
            self.assertEqual((done.returncode, done.stderr.splitlines()[-1]), (1, f"make_wheel.py: {file} {reason}"))

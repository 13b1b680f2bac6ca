"""One build for every later Python, and no fault of memory."""

import os
import shutil
import subprocess
import sys
from collections.abc import Iterator
from pathlib import Path

import pytest
from conftest import ROOT

PACKAGE, EXERCISE = ROOT / "python/rtfilter", ROOT / "python/tests/exercise.py"
LIBRARY = os.environ.get("RTFILTER_LIBRARY", str(ROOT / "build/librtfilter.a"))
LATER = "3.12", "3.13", "3.14"
LONGEST = 250


def exercised(python: list[str], package: Path, table: Path, **environment: str) -> str:
    """What the exercise prints."""
    given = {"PATH": os.environ["PATH"], "PYTHONPATH": str(package.parent), "PYTHONDONTWRITEBYTECODE": "1", **environment}
    done = subprocess.run([*python, str(EXERCISE), str(table)], env=given, capture_output=True, text=True, timeout=LONGEST)
    assert done.returncode == 0, done.stderr[-3000:]
    return done.stdout


@pytest.fixture
def table(data: Path) -> Path:
    return data / "boxes.csv"


@pytest.fixture
def expected(table: Path) -> str:
    return exercised([sys.executable], PACKAGE, table)


def later_pythons() -> Iterator[str]:
    """Later Pythons: those on the path, and those of pyenv."""
    folders = [Path(it) for it in os.environ["PATH"].split(os.pathsep)]
    folders += sorted(Path.home().glob(".pyenv/versions/*/bin"))
    for version in LATER:
        for folder in folders:
            path = folder / f"python{version}"
            if path.exists() and subprocess.run([path, "-c", ""], capture_output=True).returncode == 0:
                yield str(path)
                break


def test_later_pythons(table: Path, expected: str) -> None:
    pythons = [*later_pythons()]
    if not pythons:
        pytest.skip("no later Python than 3.11 is installed")
    for python in pythons:
        assert exercised([python], PACKAGE, table) == expected


def built(folder: Path, *words: str) -> Path:
    """A copy of the package with an extension that gcc builds with these options and files."""
    if not shutil.which("gcc") or not Path(LIBRARY).exists():
        pytest.skip("gcc or librtfilter.a isn't there")
    package = folder / "rtfilter"
    shutil.copytree(PACKAGE, package, ignore=shutil.ignore_patterns("*.so", "__pycache__"))
    include = subprocess.check_output([sys.executable, "-c", "import sysconfig; print(sysconfig.get_paths()['include'])"], text=True)
    files = [f"-I{include.strip()}", f"-I{ROOT / 'include'}", str(ROOT / "python/engine/_engine.c"), LIBRARY]
    subprocess.run(["gcc", "-fPIC", "-shared", *words, *files, "-o", str(package / "_engine.abi3.so")], check=True)
    return package


@pytest.fixture
def sanitized(tmp_path: Path) -> Path:
    """The package with an extension that the sanitizers watch."""
    return built(tmp_path, "-g", "-O", "-fsanitize=address,undefined", "-fno-sanitize-recover=all")


def test_sanitizers(sanitized: Path, table: Path, expected: str) -> None:
    library = subprocess.check_output(["gcc", "-print-file-name=libasan.so"], text=True).strip()
    options = "detect_leaks=0:allocator_may_return_null=1"
    environment = {"LD_PRELOAD": library, "ASAN_OPTIONS": options, "PYTHONMALLOC": "malloc"}
    assert exercised([sys.executable], sanitized, table, **environment) == expected


def test_valgrind(table: Path, expected: str) -> None:
    valgrind = shutil.which("valgrind") or pytest.skip("valgrind isn't installed")
    words = [valgrind, "--quiet", "--error-exitcode=9", "--trace-children=no", sys.executable]
    assert exercised(words, PACKAGE, table, PYTHONMALLOC="malloc") == expected


INTERPRETERS = """
import _xxsubinterpreters
from rtfilter import Rtfilter, Window

table = Rtfilter([(1, 0, 1, 0, 1)])
_xxsubinterpreters.run_string(_xxsubinterpreters.create(), '''
try:
    import rtfilter
except ImportError as error:
    print(error)
''')
print(table.find(Window(0, 1, 0, 1)))
"""


def test_another_interpreter_of_the_process() -> None:
    """Classes of regions belong to one of them, and what it has goes on."""
    words = [sys.executable, "-c", INTERPRETERS]
    done = subprocess.run(words, cwd=PACKAGE.parent, capture_output=True, text=True)
    assert (done.returncode, done.stdout) == (0, "another interpreter of this process has imported rtfilter\n[1]\n"), done.stderr


OLD_PROCESSOR = f"""
#include <cpuid.h>
static int no_cpuid(unsigned leaf, unsigned *a, unsigned *b, unsigned *c, unsigned *d)
{{
    (void)leaf, (void)a, (void)b, (void)c, (void)d;
    return 0;
}}
#define __get_cpuid no_cpuid
#include "{ROOT}/library/rtfilter.c"
"""


def test_another_processor(tmp_path: Path, table: Path) -> None:
    """One that isn't an x86-64-v2: the library says so, and it is raised."""
    source = tmp_path / "old_processor.c"
    source.write_text(OLD_PROCESSOR)
    package = built(tmp_path, f"-I{ROOT}/library", str(source))
    for argument in (repr(str(table)), "[(1, 0, 1, 0, 1)]", "[]"):
        words = [sys.executable, "-c", f"from rtfilter import Rtfilter\nRtfilter({argument})"]
        done = subprocess.run(words, cwd=package.parent, capture_output=True, text=True)
        assert done.returncode == 1 and "RuntimeError: processor is not an x86-64-v2" in done.stderr, done.stderr

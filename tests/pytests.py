#!/usr/bin/env python3
"""Tries what stands around the program: the Python package, the service, the examples, the packages, the recipes of docs/.

usage: tests/pytests.py PROGRAM [--archive ARCHIVE] [--need-all] [--only NAME]..

Each part of PARTS, or those that are named, is tried by pytest in a process of its own, two at a time, with a copy of the
program, beside what a service loads into it if there is a C compiler. ARCHIVE is the library's proved archive, of which
librtfilter and the extension of the Python package are made; without it that of build/ is used. A test that needs what isn't
installed is skipped and named; with --need-all it has failed. The last line is `N passed, M failed`.
"""

import argparse
import os
import shutil
import subprocess
import sys
import tempfile
import xml.etree.ElementTree as tree
from concurrent.futures import ThreadPoolExecutor
from pathlib import Path

sys.dont_write_bytecode = True
ROOT = Path(__file__).resolve().parent.parent
PARTS = {  # those that take longest first
    "service": ["service/tests"],
    "python": ["python/tests", "--ignore=python/tests/fence", "--ignore=python/tests/tiles"],
    "map": ["python/tests/tiles"],
    "fence": ["python/tests/fence"],
    "roads": ["examples/tests"],
    "languages": ["examples/languages/tests"],
    "package": ["packaging/tests"],
    "recipes": ["tests/recipes"],
    "gate": ["tests/gate"],
}
PATHS = "tests", "python", "service", "service/tests"  # what tests import from
PREFORK = "build/rtfilter-prefork.so"
PYTHON = "/usr/bin/python3"  # that of Debian, with its packages
AT_ONCE = 2  # parts: some measure how long a call takes
TOO_LONG = 3000  # seconds of a part


def make(*words):
    """Makes targets of the Makefile."""
    subprocess.run(["make", "--silent", "-C", ROOT, *words], check=True, env={**os.environ, "MAKEFLAGS": ""})


def copied(program, folder):
    """A copy of the program, which any user may run, and what a service loads if that can be built."""
    os.chmod(folder, 0o755)
    if shutil.which("cc"):
        make(PREFORK)
        shutil.copy(ROOT / PREFORK, folder)
    return str(shutil.copy(program, Path(folder, "rtfilter")))


def libraries(archive, parts, folder):
    """What parts need of the library, as a part of their environment."""
    if not shutil.which("cc"):
        return {}
    words = [f"ARCHIVE={archive.resolve()}", f"OUT={folder}/library"] if archive else ["-o", "build/librtfilter.a"]
    if "python" in parts:
        make(*words, "python")
    if not archive or not {"python", "package"} & {*parts}:
        return {}
    make(*words, "library")
    return {"RTFILTER_LIBRARY": f"{folder}/library/librtfilter.a"}


def tried(part, environment, folder, need_all):
    """Tries a part: how many tests have passed and failed, and what is to be shown."""
    report = Path(folder, f"{part}.xml")
    words = [PYTHON, "-B", "-m", "pytest", "-q", "-p", "pytest_limit", "-p", "no:cacheprovider", f"--junitxml={report}", *PARTS[part]]
    # (into a file: a pipe would end no sooner than a process that a test has left behind)
    with tempfile.TemporaryFile("w+", encoding="utf-8", errors="replace") as output:
        try:
            status = subprocess.run(words, cwd=ROOT, env=environment, stdout=output, stderr=output, timeout=TOO_LONG).returncode
        except subprocess.TimeoutExpired:
            status = "none: it took too long"
        output.seek(0)
        text = output.read()
    if status not in (0, 1) or not report.exists():
        return 0, 1, f"{text}\nFAIL {part}: ended with status {status}"
    return counted(part, report, need_all, text if status else "")


def counted(part, report, need_all, shown):
    """The same, from the report of pytest."""
    passed, failed, lines = 0, 0, [shown] if shown else []
    for case in tree.parse(report).iter("testcase"):
        name = f"{part} {case.get('classname')}.{case.get('name')}"
        skipped = case.find("skipped")
        if case.find("failure") is not None or case.find("error") is not None:
            failed += 1
            lines.append(f"FAIL {name}")
        elif skipped is not None:
            failed += need_all
            lines.append(f"{'FAIL' if need_all else 'skipped'} {name}: {skipped.get('message')}")
        else:
            passed += 1
    return passed, failed, "\n".join(lines)


def main():
    parser = argparse.ArgumentParser()
    parser.add_argument("program")
    parser.add_argument("--archive", type=Path)
    parser.add_argument("--need-all", action="store_true")
    parser.add_argument("--only", action="append", choices=PARTS, metavar="NAME")
    args = parser.parse_args()
    parts = args.only or [*PARTS]
    with tempfile.TemporaryDirectory(prefix="rtfilter-") as folder:
        given = {"RTFILTER_PROGRAM": copied(args.program, folder), **libraries(args.archive, parts, folder)}
        environment = {**os.environ, **given, "PYTHONPATH": ":".join(str(ROOT / it) for it in PATHS), "PYTHONDONTWRITEBYTECODE": "1"}
        with ThreadPoolExecutor(AT_ONCE) as threads:
            passed = failed = 0
            for good, bad, text in threads.map(lambda it: tried(it, environment, folder, args.need_all), parts):
                passed, failed = passed + good, failed + bad
                if text:
                    print(text, flush=True)
    print(f"{passed} passed, {failed} failed")
    return int(failed > 0)


if __name__ == "__main__":
    sys.exit(main())

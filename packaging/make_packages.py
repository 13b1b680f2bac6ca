#!/usr/bin/env python3
"""Makes the Debian packages of the built program and library, by debhelper.

usage: packaging/make_packages.py PROGRAM LIBRARY FOLDER

LIBRARY is librtfilter.a, of which the shared one is made. Writes the packages to the folder and prints their names: `rtfilter`
with the program, the library of the service and the pages, `librtfilter0` and `librtfilter-dev`, the debug symbols of both,
`python3-rtfilter`, `rtfilter-service` and `rtfilter-tools`. The version is that of VERSION, the changes and their dates are those
of CHANGELOG.md. The same files make the same bytes. It wants debhelper, dh-python, dpkg-dev, gcc, python3-dev
and python3-setuptools of Debian 12.
"""

import argparse
import datetime
import email.utils
import os
import re
import shutil
import subprocess
import sys
import tempfile
import textwrap
from pathlib import Path

ROOT = Path(__file__).resolve().parent.parent
MAINTAINER = "The maintainers of rtfilter <maintainers@rtfilter.invalid>"  # as debian/control has it
REVISION = "1"  # of the packages of one version
WIDTH = 76  # of the changes

# All pages: README.md links to them, and they to each other.
PAGES = sorted(str(page.relative_to(ROOT)) for page in (ROOT / "docs").rglob("*.md"))

# What packages are made of, beside the program.
SOURCES = [
    "Makefile", "VERSION", "README.md", "CONTRIBUTING.md", "CHANGELOG.md", "crates.txt", *PAGES, "include", "library", "bindings", "docs/pictures", "docs/rtfilter.1",
    "docs/rtfilter-serve.1", "docs/rtfilter-fence.1", "docs/rtfilter-tiles.1", "packaging/completion.bash",
    "service/prefork.c", "service/serve.py", "service/service.py", "service/listening.py", "service/health.py", "service/prefork.py",
    "service/rtfilter.service", "service/rtfilter.socket", "python/rtfilter", "python/engine", "python/setup.py", "python/pyproject.toml", "python/README.md",
    *(f"examples/{name}" for name in ("data", "languages", "library", "roads.py")),
]
RELEASE = re.compile(r"^## (\S+), (\d{4}-\d\d-\d\d)\n(.*?)(?=^## |\Z)", re.MULTILINE | re.DOTALL)
CHANGE = re.compile(r"^- (.*(?:\n  .*)*)", re.MULTILINE)


def releases() -> list[tuple[str, datetime.datetime, list[str]]]:
    """The versions in CHANGELOG.md, the newest first: each with its date and its changes."""
    found = []
    for version, date, text in RELEASE.findall((ROOT / "CHANGELOG.md").read_text(encoding="utf-8")):
        midnight = datetime.datetime.fromisoformat(date).replace(tzinfo=datetime.UTC)
        found.append((version, midnight, [" ".join(it.split()).rstrip(":") for it in CHANGE.findall(text)]))
    return found


def changelog() -> str:
    """The changes as Debian writes them."""
    entries = []
    for version, date, changes in releases():
        lines = [f"rtfilter ({version}-{REVISION}) unstable; urgency=medium", ""]
        lines += [textwrap.fill(change, WIDTH, initial_indent="  * ", subsequent_indent="    ") for change in changes]
        lines += ["", f" -- {MAINTAINER}  {email.utils.format_datetime(date)}", ""]
        entries.append("\n".join(lines))
    return "\n".join(entries)


def place(source: Path, target: Path) -> None:
    """Copies a file or a folder, with modes that don't depend on who checked it out."""
    target.parent.mkdir(parents=True, exist_ok=True)
    if source.is_dir():
        shutil.copytree(source, target, ignore=shutil.ignore_patterns("__pycache__", "tests", "target", "Cargo.lock", "*.so", "*.egg-info"))
    else:
        shutil.copy(source, target)
    for path in (target, *target.rglob("*")):
        path.chmod(0o755 if path.is_dir() or os.access(path, os.X_OK) else 0o644)
        if path.suffix == ".py":  # Debian's own Python, whichever is first on the path
            path.write_bytes(path.read_bytes().replace(b"#!/usr/bin/env python3\n", b"#!/usr/bin/python3\n", 1))


def main() -> None:
    parser = argparse.ArgumentParser(description=__doc__.splitlines()[0])
    parser.add_argument("program", type=Path)
    parser.add_argument("library", type=Path)
    parser.add_argument("folder", type=Path)
    args = parser.parse_args()
    version = (ROOT / "VERSION").read_text(encoding="utf-8").strip()
    newest, date, _ = releases()[0]
    if version != newest:
        sys.exit(f"make_packages: VERSION is {version}, and CHANGELOG.md begins with {newest}")
    os.umask(0o022)
    with tempfile.TemporaryDirectory() as scratch:
        tree = Path(scratch, f"rtfilter-{version}")
        for name in SOURCES:
            place(ROOT / name, tree / name)
        place(args.program, tree / "rtfilter")
        (tree / "rtfilter").chmod(0o755)
        place(args.library, tree / "librtfilter.a")
        (tree / "librtfilter.a").chmod(0o644)
        place(ROOT / "packaging/debian", tree / "debian")
        (tree / "debian/changelog").write_text(changelog(), encoding="utf-8")
        environment = {**os.environ, "SOURCE_DATE_EPOCH": str(int(date.timestamp())), "MAKEFLAGS": "", "LC_ALL": "C.UTF-8"}
        done = subprocess.run(
            ["dpkg-buildpackage", "--no-sign", "--build=binary", "--no-check-builddeps"], cwd=tree, env=environment,
            stdout=subprocess.PIPE, stderr=subprocess.STDOUT, text=True,
        )
        if done.returncode:
            sys.exit(f"make_packages: {done.stdout}")
        for package in sorted(Path(scratch).glob("*.deb")):
            print(shutil.copy(package, args.folder))


if __name__ == "__main__":
    main()

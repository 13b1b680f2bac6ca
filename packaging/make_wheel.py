#!/usr/bin/python3
"""Makes the Python wheel: the package, its extension with librtfilter in it, the program, and the library of services.

usage: packaging/make_wheel.py PROGRAM PREFORK LIBRARY FOLDER

PREFORK is rtfilter-prefork.so, and LIBRARY librtfilter.a. Writes the wheel to the folder and prints its name: one for Python 3.11
and later. The same files make the same bytes. What is compiled must need nothing but what each Linux of the tag has: the C
library from GLIBC on. It needs python3-dev and python3-setuptools, gcc, and strip and objdump of binutils.
"""

import argparse
import base64
import hashlib
import os
import re
import subprocess
import sys
import tempfile
import tomllib
import zipfile
from pathlib import Path
from typing import Any, NamedTuple

sys.dont_write_bytecode = True
ROOT = Path(__file__).resolve().parent.parent
PACKAGE = ROOT / "python"
GLIBC = 2, 34
TAG = f"cp311-abi3-manylinux_{GLIBC[0]}_{GLIBC[1]}_x86_64"
LIBRARIES = {"libc.so.6", "libm.so.6", "ld-linux-x86-64.so.2"}
EXTENSION = "rtfilter/_engine.abi3.so"
SUFFIXES = {".css", ".html", ".js", ".py", ".pyi", ".typed"}


class File(NamedTuple):
    """A file of a wheel."""

    data: bytes
    is_executable: bool = False


def check(path: Path) -> None:
    """Raises `ValueError` if a file needs another machine, library or version than the tag stands for."""
    text = subprocess.run(["objdump", "-p", path], capture_output=True, text=True, check=True).stdout
    if "file format elf64-x86-64" not in text:
        raise ValueError(f"{path} isn't for x86-64")
    needed = set(re.findall(r"^ *NEEDED +(\S+)$", text, re.MULTILINE))
    if needed - LIBRARIES:
        raise ValueError(f"{path} wants {', '.join(sorted(needed - LIBRARIES))}")
    references = text.partition("Version References:")[2]
    for version in re.findall(r"^ +0x[0-9a-f]+ 0x[0-9a-f]+ \d+ (\S+)$", references, re.MULTILINE):
        name, _, number = version.partition("_")
        if name != "GLIBC" or tuple(map(int, number.split("."))) > GLIBC:
            raise ValueError(f"{path} wants {version}")


def stripped(path: Path) -> File:
    """A file without what it doesn't need to run."""
    check(path)
    with tempfile.NamedTemporaryFile() as copy:
        subprocess.run(["strip", "--strip-unneeded", "-o", copy.name, path], check=True)
        return File(Path(copy.name).read_bytes(), is_executable=True)


def built(library: Path, folder: Path) -> Path:
    """The extension, with the library in it."""
    environment = {**os.environ, "RTFILTER_ARCHIVE": str(library.resolve()), "RTFILTER_INCLUDE": str(ROOT / "include")}
    words = [sys.executable, "-B", "setup.py", "--quiet", "build_ext", f"--build-lib={folder}", f"--build-temp={folder}/temporary"]
    subprocess.run(words, cwd=PACKAGE, env=environment, check=True, stdout=sys.stderr)
    return folder / EXTENSION


def write(folder: Path, files: dict[str, File], about: dict[str, Any]) -> Path:
    """Writes a wheel with these files, and what describes them."""
    named = f"{about['name']}-{about['version']}"
    info = f"{named}.dist-info"
    wheel = f"Wheel-Version: 1.0\nGenerator: make_wheel\nRoot-Is-Purelib: false\nTag: {TAG}\n"
    scripts = "".join(f"{name} = {place}\n" for name, place in about["scripts"].items())
    files = {
        **files,
        f"{info}/METADATA": File(metadata(about)),
        f"{info}/WHEEL": File(wheel.encode()),
        f"{info}/entry_points.txt": File(f"[console_scripts]\n{scripts}".encode()),
    }
    recorded = "".join(record(path, file.data) for path, file in files.items())
    files[f"{info}/RECORD"] = File(f"{recorded}{info}/RECORD,,\n".encode())
    path = folder / f"{named}-{TAG}.whl"
    with zipfile.ZipFile(path, "w", zipfile.ZIP_DEFLATED) as archive:
        for name, file in files.items():
            entry = zipfile.ZipInfo(name)  # dated 1980, whenever it is made
            entry.external_attr = (0o100755 if file.is_executable else 0o100644) << 16
            archive.writestr(entry, file.data, zipfile.ZIP_DEFLATED)
    return path


def metadata(about: dict[str, Any]) -> bytes:
    """What a package says of itself."""
    extras = about["optional-dependencies"].items()
    lines = [
        "Metadata-Version: 2.1",
        f"Name: {about['name']}",
        f"Version: {about['version']}",
        f"Summary: {about['description']}",
        *(f"Classifier: {classifier}" for classifier in about["classifiers"]),
        f"Requires-Python: {about['requires-python']}",
        *(line for name, needs in extras for line in [f"Provides-Extra: {name}", *(f'Requires-Dist: {it}; extra == "{name}"' for it in needs)]),
        "Description-Content-Type: text/markdown",
    ]
    return "\n".join([*lines, "", (PACKAGE / about["readme"]).read_text(encoding="utf-8")]).encode()


def record(path: str, data: bytes) -> str:
    """A file's line in RECORD: its name, its hash and its size."""
    digest = base64.urlsafe_b64encode(hashlib.sha256(data).digest()).rstrip(b"=").decode()
    return f"{path},sha256={digest},{len(data)}\n"


def main() -> int:
    parser = argparse.ArgumentParser()
    for name in ("program", "prefork", "library", "folder"):
        parser.add_argument(name, type=Path)
    args = parser.parse_args()
    about = tomllib.loads((PACKAGE / "pyproject.toml").read_text(encoding="utf-8"))["project"]
    data = f"{about['name']}-{about['version']}.data"
    sources = [it for it in sorted((PACKAGE / "rtfilter").rglob("*")) if it.suffix in SUFFIXES]
    files = {path.relative_to(PACKAGE).as_posix(): File(path.read_bytes()) for path in sources}
    try:
        with tempfile.TemporaryDirectory() as scratch:
            files[EXTENSION] = stripped(built(args.library, Path(scratch)))
        files[f"{data}/scripts/rtfilter"] = stripped(args.program)
        files[f"{data}/data/lib/rtfilter/rtfilter-prefork.so"] = stripped(args.prefork)
    except ValueError as error:
        print(f"make_wheel.py: {error}", file=sys.stderr)
        return 1
    print(write(args.folder, files, about))
    return 0


if __name__ == "__main__":
    sys.exit(main())

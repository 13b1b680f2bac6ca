"""The package's types, and that nothing imports private names of another package."""

import ast
import os
import shutil
import subprocess
from collections.abc import Iterator
from pathlib import Path

import pytest
from conftest import ROOT

PACKAGE = ROOT / "python/rtfilter"
FOLDERS = "python", "service", "examples", "packaging", "bench", "tests", "tools"


CHECKED = {  # the folders of modules, and the files that are checked at once: modules of two examples may have one name
    "python:service": ["python/rtfilter", "python/setup.py", "service/*.py", "packaging/*.py"],
    "python": ["examples/*.py"],
}


@pytest.mark.parametrize("folders", CHECKED)
def test_types(folders: str, tmp_path: Path) -> None:
    mypy = shutil.which("mypy") or pytest.skip("mypy isn't installed")
    files = [str(it) for pattern in CHECKED[folders] for it in sorted(ROOT.glob(pattern))]
    words = [mypy, "--config-file", ROOT / "python/pyproject.toml", "--cache-dir", tmp_path, *files]
    environment = {**os.environ, "MYPYPATH": os.pathsep.join(str(ROOT / it) for it in folders.split(":"))}
    done = subprocess.run([*map(str, words)], cwd=ROOT, env=environment, capture_output=True, text=True)
    assert done.returncode == 0, done.stdout


def private_names(file: Path) -> Iterator[str]:
    """The names that a file imports from rtfilter and that begin with an underscore."""
    for node in ast.walk(ast.parse(file.read_text(encoding="utf-8"))):
        if isinstance(node, ast.ImportFrom) and node.module and node.module.split(".")[0] == "rtfilter":
            for name in (*node.module.split("."), *(it.name for it in node.names)):
                if name.startswith("_") and not name.endswith("__"):
                    yield f"{file.relative_to(ROOT)}:{node.lineno}: {name}"


def uses_of_the_path(file: Path) -> Iterator[str]:
    """Where a file uses `sys.path`, or adds a folder to it by `site`."""
    for node in ast.walk(ast.parse(file.read_text(encoding="utf-8"))):
        is_path = isinstance(node, ast.Attribute) and ast.unparse(node) in ("sys.path", "site.addsitedir")
        is_import = isinstance(node, ast.ImportFrom) and node.module in ("sys", "site")
        if is_path or is_import and {"path", "addsitedir"} & {it.name for it in node.names}:
            yield f"{file.relative_to(ROOT)}:{node.lineno}"


def is_python(file: Path) -> bool:
    """Whether a file is a module, or a script that begins with the name of Python."""
    if file.suffix == ".py":
        return True
    return file.is_file() and not file.suffix and b"python3" in file.read_bytes()[:40].partition(b"\n")[0]


def test_no_path_is_edited() -> None:
    """Modules are found beside the script, or by PYTHONPATH."""
    files = [it for folder in (*FOLDERS, "docs") for it in (ROOT / folder).rglob("*") if is_python(it)]
    assert {"edits", "run", "kit.py"} < {it.name for it in files}
    assert [place for it in files for place in uses_of_the_path(it)] == []


def test_no_private_names() -> None:
    files = [it for folder in FOLDERS for it in (ROOT / folder).rglob("*.py")]
    own = [it for it in files if PACKAGE in it.parents or it.parent == ROOT / "python/tests"]
    assert len(files) > 50 and [name for it in files if it not in own for name in private_names(it)] == []

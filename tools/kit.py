"""Copies of the crates to work in, and what `rt` built of them.

`rt` is used by its commands, and by the folders in which these leave what they made: `out/rlib` has a crate's library, and
`out/incremental` what its checks proved.
"""

import contextlib
import functools
import importlib.machinery
import importlib.util
import os
import shutil
import sys
from pathlib import Path

sys.dont_write_bytecode = True
ROOT = Path(__file__).resolve().parent.parent
PARTS = "src", "specs", "proofs", "edits"
# The folder in `out/incremental` for what a check offers to write, which is no proof.
HELP = "*-offers"


def dependencies(top=ROOT):
    """The crates of the repository that each crate stands on, from crates.txt."""
    found = {}
    for line in (top / "crates.txt").read_text().splitlines():
        if line and not line.startswith("#"):
            head, _, words = line.partition(":")
            found[head.split()[0]] = words.split()
    return {name: [it for it in words if it in found] for name, words in found.items()}


def with_below(names, known):
    """Crates and those that they stand on, lowest first."""
    order = []
    for name in names:
        order += [it for it in with_below(known[name], known) if it not in order]
        if name not in order:
            order.append(name)
    return order


def link(source, target):
    """A second name for a file, or a copy on another file system."""
    try:
        os.link(source, target)
    except OSError:
        shutil.copy2(source, target)


def copy_proofs(source, target):
    """Copies what checks proved, without the help that each check writes again."""
    shutil.copytree(source, target, dirs_exist_ok=True, ignore=shutil.ignore_patterns(HELP))


def copy_crates(names, folder, top=ROOT, copy=shutil.copy2):
    """Copies crates into a folder, as they stand, without what was built of them."""
    for name in names:
        for part in PARTS:
            if (top / "crates" / name / part).is_dir():
                shutil.copytree(top / "crates" / name / part, folder / "crates" / name / part, copy_function=copy)
    shutil.copy(top / "HANDLES", folder)
    lines = (top / "crates.txt").read_text().splitlines()
    (folder / "crates.txt").write_text("".join(f"{it}\n" for it in lines if it.split(":")[0].split(" ")[0] in names))


def take_library(name, folder, top=ROOT):
    """Gives a copied crate the library that was built of the original, if one was."""
    if (top / "crates" / name / "out/rlib").is_dir():
        shutil.copytree(top / "crates" / name / "out/rlib", folder / "crates" / name / "out/rlib", copy_function=link)


@functools.cache
def library_of_rt():
    """The module that `rt` has for crates and their libraries."""
    path = Path(os.path.realpath(shutil.which("rt"))).parent / "rtlib.py"
    loader = importlib.machinery.SourceFileLoader("rtlib", str(path))
    module = importlib.util.module_from_spec(importlib.util.spec_from_loader("rtlib", loader))
    loader.exec_module(module)
    return module


def stamp_library(name, folder):
    """Has `rt` take a copied library that `rt ci` built for what it is: built of the files beside it.

    `rt` knows that by a stamp, which `rt ci` doesn't leave, and which is computed here as `rt` does. Where this `rt` does so in another
    way, or has no stamps, `rt lib` proves the library again: right, and slower.
    """
    with contextlib.suppress(Exception, SystemExit):
        crate = library_of_rt().Crate(f"{folder}/crates/{name}", str(folder), {})
        (folder / "crates" / name / "out/rlib/stamp").write_text(crate.stamp())

#!/usr/bin/env python3
"""Makes tables and pictures of what bench/bench.py found.

usage: bench/report.py [RESULTS | --pages | --check]

Prints the tables of RESULTS, build/bench.json by default, and draws the pictures into build/bench. With
`--pages` the tables of build/bench.json take their places in the pages, between the lines `<!-- table NAME -->` and
`<!-- end of table -->`, and the pictures theirs in docs/pictures/measured, with the figures that they are drawn from.
With `--check` nothing is written, and each page and each picture that isn't made of those figures is a failure; the
last line is then `N passed, M failed`.
"""

import json
import re
import shutil
import sys
from pathlib import Path

sys.dont_write_bytecode = True

from drawings import pictures
from markdown import made_tables
from programs import ROOT

PAGES = ROOT / "README.md", ROOT / "docs/performance.md"
DRAWN = ROOT / "docs/pictures/measured"
FIGURES = DRAWN / "figures.json"
RESULTS = ROOT / "build/bench.json"


def figures(path):
    return json.loads(path.read_text())


def with_tables(text, made):
    """A page with each table in the place that names it."""
    for name, it in made.items():
        text = re.sub(rf"(?<=<!-- table {name} -->\n).*?(?=<!-- end of table -->)",
                      lambda _, it=it: f"\n{it}\n", text, count=1, flags=re.DOTALL)
    return text


def drawn(found, folder):
    """Each picture by its path."""
    return {folder / name: picture for name, picture in pictures(found)}


def in_docs(found):
    """Each page and each picture by its path, as the figures make it."""
    made = made_tables(found)
    return {page: with_tables(page.read_text(encoding="utf-8"), made) for page in PAGES} | drawn(found, DRAWN)


def write(files):
    for path, text in files.items():
        path.parent.mkdir(parents=True, exist_ok=True)
        path.write_text(text, encoding="utf-8")


def report(results=RESULTS):
    """Prints the tables, and draws the pictures."""
    found = figures(results)
    for name, text in made_tables(found).items():
        print(f"\n{name}\n\n{text}", end="")
    write(drawn(found, ROOT / "build/bench"))
    print("\npictures: build/bench")


def into_docs():
    DRAWN.mkdir(parents=True, exist_ok=True)
    shutil.copy(RESULTS, FIGURES)
    write(in_docs(figures(FIGURES)))


def check():
    files = in_docs(figures(FIGURES))
    stale = [path for path, text in files.items() if not path.exists() or path.read_text(encoding="utf-8") != text]
    for path in stale:
        print(f"FAIL {path.relative_to(ROOT)} isn't made of {FIGURES.relative_to(ROOT)}")
    print(f"{len(files) - len(stale)} passed, {len(stale)} failed")
    return int(bool(stale))


def main():
    if sys.argv[1:] == ["--check"]:
        return check()
    if sys.argv[1:] == ["--pages"]:
        return into_docs()
    return report(*map(Path, sys.argv[1:]))


if __name__ == "__main__":
    sys.exit(main())

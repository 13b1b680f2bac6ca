#!/usr/bin/env python3
"""Counts the functions of crates/ that run for a `find window`, and for the bytes of a table.

They are those that callgrind sees below `serve` and below `load`, in a program of which nothing is inlined: Rattle's
own compiler builds it, at its lowest level, from a copy of this tree and of what `make` has proved. A function counts
once, for however many types it runs; what drops a value doesn't count, nor does a closure.

Run from anywhere, after `make`: `python3 tools/walk.py`, in some two minutes. `--list` names them. It wants valgrind.
"""

import argparse
import collections
import pathlib
import re
import shutil
import subprocess
import sys
import tempfile

ROOT = pathlib.Path(__file__).resolve().parent.parent
WALKS = {"find window": "rt_filter::serving::serve", "table": "rt_filter::filter::load"}
LINE = b"find window 0 10 0 10\n"
CALLER_OR_CALLED = re.compile(r"^c?fn=(?:\(\d+\) ?)?(.+)$")


def build(tree):
    """The program, built in a copy of this tree: nothing that is proved is proved again."""
    shutil.copytree(ROOT / "crates", tree / "crates", ignore=shutil.ignore_patterns("edits", "incremental"))
    text = (ROOT / "crates.txt").read_text(encoding="utf-8")
    (tree / "crates.txt").write_text(text.replace("\nrtfilter:", "\nrtfilter backend=rattle opt_level=0:"))
    crate = tree / "crates/rtfilter"
    command = ["rt", "run", "--", "/dev/null"]
    ran = subprocess.run(command, cwd=crate, stdin=subprocess.DEVNULL, capture_output=True, text=True)
    program = crate / "out/rtfilter"
    if not program.exists():
        sys.exit(f"the program isn't built:\n{ran.stdout[-2000:]}{ran.stderr[-2000:]}")
    return program


def calls_of(program, tree):
    """Which functions each function called, as a run of the program over the example's boxes has it."""
    profile = tree / "callgrind"
    command = ["valgrind", "--tool=callgrind", "--compress-strings=no", f"--callgrind-out-file={profile}", program]
    subprocess.run([*command, ROOT / "examples/data/boxes.csv"], input=LINE, capture_output=True, check=True)
    calls = collections.defaultdict(set)
    caller = None
    for line in profile.read_text(encoding="utf-8").splitlines():
        if found := CALLER_OR_CALLED.match(line):
            if line.startswith("c"):
                calls[caller].add(found[1])
            else:
                caller = found[1]
    return calls


def plain(symbol):
    """The name of a function without the types that it runs for."""
    before = None
    while before != symbol:
        before, symbol = symbol, re.sub(r"::<[^<>]*>|<[^<>]*>", "", symbol)
    return re.sub(r"'\d+$", "", symbol)


def below(calls, first):
    """The functions of crates/ that a function called, and these in turn, itself included."""
    met, left = set(), [symbol for symbol in calls if plain(symbol) == first]
    while left:
        symbol = left.pop()
        if symbol not in met:
            met.add(symbol)
            left.extend(calls.get(symbol, ()))
    names = {plain(symbol) for symbol in met}
    return sorted(it for it in names if it.startswith("rt_") and "::fn::" not in it and not it.endswith("::drop"))


def main():
    parser = argparse.ArgumentParser(description=__doc__.splitlines()[0])
    parser.add_argument("--list", action="store_true", help="name the functions")
    names_them = parser.parse_args().list
    with tempfile.TemporaryDirectory() as folder:
        tree = pathlib.Path(folder)
        calls = calls_of(build(tree), tree)
    for name, first in WALKS.items():
        walked = below(calls, first)
        print(f"{name}: {len(walked)} functions")
        if names_them:
            print("".join(f"  {it}\n" for it in walked), end="")


if __name__ == "__main__":
    sys.exit(main())

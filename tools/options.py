#!/usr/bin/env python3
"""Writes the options of the commands into their pages and manual pages, from what each prints for --help.

usage: tools/options.py [--check]

A page has the table between the lines `<!-- options -->` and `<!-- end of options -->`, a manual page the list in its section OPTIONS.
The commands are run from the checkout, so that the Python package has to be built there (`make python`). With `--check` nothing is
written, and each file that differs is a failure; the last line is then `N passed, M failed`.
"""

import os
import re
import subprocess
import sys
from pathlib import Path
from typing import NamedTuple

ROOT = Path(__file__).resolve().parent.parent
# Each command's words, and the files that have its options.
COMMANDS = {
    "service/serve.py": ("docs/service.md", "docs/rtfilter-serve.1"),
    "-m rtfilter.fence": ("docs/fence.md", "docs/rtfilter-fence.1"),
    "-m rtfilter.tiles": ("docs/tiles.md", "docs/rtfilter-tiles.1"),
    "examples/roads.py": ("docs/roads.md",),
}


class Option(NamedTuple):
    """An option: its names, each with its value, what it means, and its default."""

    names: str
    means: str
    default: str


def options(words):
    """The options of a command in the order of its help, without -h."""
    # (so wide that no text is broken)
    wide = {**os.environ, "COLUMNS": "1000", "PYTHONPATH": str(ROOT / "python"), "PYTHONDONTWRITEBYTECODE": "1"}
    done = subprocess.run([sys.executable, *words.split(), "--help"], cwd=ROOT, env=wide, stdout=subprocess.PIPE, text=True, check=True)
    _, _, text = done.stdout.partition("\noptions:\n")
    found = []
    for names, help in re.findall(r"^  (-\S.*?)(?:\n?  +)(\S.*)$", text, re.MULTILINE):
        means, default = re.fullmatch(r"(.*?)(?: \(default:? (.*)\))?", help).groups()
        found.append(Option(names, means, default or ""))
    return found[1:]


def table(found):
    """The table of a page."""
    rows = ["| option | means | default |", "|---|---|---|"]
    for it in found:
        means = re.sub(r"--[\w-]+|(?<!\S)(?:\.\.)?/[\w/]+|\[::1\]:\d+|https://[\w./]*[\w/]", r"`\g<0>`", it.means)
        rows.append(f"| `{it.names.replace(', ', '`, `')}` | {means} | {it.default} |")
    return "\n".join(["", *rows, ""])


def bold(name):
    """A name in bold, and its value in italics."""
    return rf"\fB{name[1]}\fR" + (rf" \fI{name[2]}\fR" if name[2] else "")


def section(found):
    """The list of a manual page."""
    lines = []
    for it in found:
        names = ", ".join(re.sub(r"(\S+)(?: (\S+))?", bold, name) for name in it.names.split(", ")).replace("-", r"\-")
        means = f"{it.means[0].upper()}{it.means[1:]}" + (f" (default {it.default})." if it.default else ".")
        lines += [".TP", names, re.sub(r"--(?=\w)", r"\-\-", means)]
    return "\n".join(lines)


def replaced(text, found, is_manual):
    """A file's text with these options."""
    if is_manual:
        head, rest = text.split(".SH OPTIONS\n")
        return f"{head}.SH OPTIONS\n{section(found)}\n{rest[rest.index('.SH '):]}"
    head, rest = text.split("<!-- options -->\n")
    return f"{head}<!-- options -->\n{table(found)}\n<!-- end of options -->{rest.split('<!-- end of options -->')[1]}"


def main():
    is_check = sys.argv[1:] == ["--check"]
    passed = failed = 0
    for words, files in COMMANDS.items():
        found = options(words)
        for file in files:
            text = (ROOT / file).read_text(encoding="utf-8")
            new = replaced(text, found, file.endswith(".1"))
            passed, failed = passed + (new == text), failed + (new != text)
            if is_check and new != text:
                print(f"FAIL {file} has other options than the command's --help: run tools/options.py")
            elif new != text:
                (ROOT / file).write_text(new, encoding="utf-8")
    if is_check:
        print(f"{passed} passed, {failed} failed")
    return int(is_check and failed > 0)


if __name__ == "__main__":
    sys.exit(main())

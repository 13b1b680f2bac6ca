#!/usr/bin/env python3
"""Compares the code that the pages of docs/ show with the code that the gate proves.

The line right above a fenced block of Rattle or antt says from where the block comes:

- `<!-- from PATH -->`: it stands, line for line, in the file PATH of this repository.
- `<!-- from PATH as FILE -->`: the same, as it reads in the file FILE of a reader's own crate, which is
  named my_geometry. Such blocks show the whole of PATH, its imports too, but for the comment at its head:
  a reader who copies them has a file that is proved.
- `<!-- as FILE -->`: the reader's file FILE, which only names modules.

A block without such a line is a failure, so that no page shows code that nothing checks.

Run from anywhere: `python3 tools/check_code.py`. The last line is `N passed, M failed`. With a folder,
`python3 tools/check_code.py FOLDER` writes the files of the reader's crate there in place of that.
"""

import pathlib
import re
import sys

ROOT = pathlib.Path(__file__).resolve().parent.parent
SOURCE = re.compile(r"<!--(?: from (?P<path>\S+))?(?: as (?P<file>\S+))? -->")
MODULES = re.compile(r"(//!.*|#!\[tactic\(auto\)\]|mod \w+;|pub use \w+::\w+;|pub mod \w+|)")
PROVED_LANGUAGES = ("rust", "rattle", "antt")

# The definitions of the reader's crate. The crate of this repository that holds the code has its own name there.
READERS_SPECS = "Rattle.my_geometry.specs."


class Block:
    """A fenced block of a page: its position, its language, its lines, what the line above names."""

    def __init__(self, page, number, language, above, lines):
        source = SOURCE.fullmatch(above.strip())
        self.place = f"{page.relative_to(ROOT)}:{number}"
        self.is_proved = language in PROVED_LANGUAGES
        self.path = source.group("path") if source else None
        self.file = source.group("file") if source else None
        self.lines = lines


def blocks_of(page):
    """The fenced blocks of a page, from its top."""
    lines = page.read_text(encoding="utf-8").splitlines()
    at = 0
    while at < len(lines):
        if lines[at].startswith("```"):
            end = lines.index("```", at + 1)
            above = lines[at - 1] if at > 0 else ""
            yield Block(page, at + 1, lines[at][3:].strip(), above, lines[at + 1 : end])
            at = end
        at += 1


def as_held(block):
    """The lines of a block as this repository has them."""
    if block.file is None or block.path is None:
        return block.lines
    crate = block.path.split("/")[1]
    return [line.replace(READERS_SPECS, f"Rattle.{crate}.specs.") for line in block.lines]


def fault_of(block):
    """Why a block fails, or None."""
    if block.path is None and block.file is None:
        return "no `<!-- from PATH -->` line above"
    if block.path is None:
        strays = [line for line in block.lines if not MODULES.fullmatch(line)]
        return f"more than the names of modules: {strays[0]}" if strays else None
    path = ROOT / block.path
    if not path.is_file():
        return f"there is no file {block.path}"
    held = path.read_text(encoding="utf-8").splitlines()
    shown = as_held(block)
    places = range(len(held) - len(shown) + 1)
    if not shown or not any(held[at : at + len(shown)] == shown for at in places):
        return f"its lines don't stand in {block.path}"
    return None


def fault_of_whole(path, blocks):
    """Why the blocks that come from one file aren't the whole of it, or None."""
    held = (ROOT / path).read_text(encoding="utf-8").splitlines()
    while held and (held[0].startswith(("//!", "-- ")) or not held[0]):
        held.pop(0)
    shown = [line for block in blocks for line in as_held(block) if line]
    held = [line for line in held if line]
    if shown == held:
        return None
    missing = [line for line in held if line not in shown]
    return f"not shown of {path}: {missing[0]}" if missing else f"not in the order of {path}"


def grouped(blocks, key):
    """The blocks by what `key` names, without those for which it names nothing."""
    groups = {}
    for block in blocks:
        if key(block) is not None:
            groups.setdefault(key(block), []).append(block)
    return groups


def write_crate(blocks, folder):
    """Writes the files of the reader's crate."""
    for file, parts in grouped(blocks, lambda block: block.file).items():
        path = folder / file
        path.parent.mkdir(parents=True, exist_ok=True)
        path.write_text("\n\n".join("\n".join(part.lines) for part in parts) + "\n", encoding="utf-8")


def main():
    pages = sorted((ROOT / "docs").rglob("*.md"))
    blocks = [block for page in pages for block in blocks_of(page) if block.is_proved]
    if len(sys.argv) > 1:
        write_crate(blocks, pathlib.Path(sys.argv[1]))
        return 0
    faults = [(block.place, fault_of(block)) for block in blocks]
    if all(fault is None for _, fault in faults):
        wholes = grouped(blocks, lambda block: block.path if block.file else None)
        faults += [(parts[0].place, fault_of_whole(path, parts)) for path, parts in wholes.items()]
    for place, fault in faults:
        if fault is not None:
            print(f"{place}: {fault}")
    failed = sum(fault is not None for _, fault in faults)
    print(f"{len(faults) - failed} passed, {failed} failed")
    return 1 if failed else 0


if __name__ == "__main__":
    sys.exit(main())

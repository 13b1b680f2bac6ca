#!/usr/bin/env python3
"""Counts the lines and the functions of each crate, and the calls from `main` to the line that decides about an answer.

The calls are those that CONTRIBUTING.md names under "Call path of a query line", crate by crate, each called by the one before;
a file in brackets has the calls before it. So are the calls of the second table, from the node's entries to the comparison
of a box, and those of the third, from an export of the library to the search. Definitions that have to be believed are counted
by tools/definitions.py.

Run from anywhere: `python3 tools/counts.py`. `--check` fails if one of these calls isn't called by the one before it,
or if a line of a clause has more than 100 columns; its last line is `N passed, M failed`.
"""

import argparse
import pathlib
import re
import sys

ROOT = pathlib.Path(__file__).resolve().parent.parent
CRATES = ROOT / "crates"

ROW = re.compile(r"^\| `(\w+)` \| (.*) \|$", re.MULTILINE)
CALL_OR_FILE = re.compile(r"`([\w:]+)`|\(`(\w+\.rt)`\)")
CLAUSE = re.compile(r" *(?:requires|ensures|ghost (?!use))")
COLUMNS = 100
HEAD = r"^( *)(?:pub(?:\(crate\))? )?(?:const |extern \"C\" )?fn "
FUNCTION = re.compile(HEAD + r"\w", re.MULTILINE)


def lines_of(crate, folder, pattern):
    return sum(len(path.read_text(encoding="utf-8").splitlines()) for path in (CRATES / crate / folder).rglob(pattern))


def sources_of(crate):
    return [path.read_text(encoding="utf-8") for path in sorted((CRATES / crate / "src").glob("*.rt"))]


def ways_of_a_line():
    """The calls of each table in turn."""
    page = (ROOT / "CONTRIBUTING.md").read_text(encoding="utf-8")
    section = page.partition("\n## Call path of a query line\n")[2].partition("\n## ")[0]
    return [list(calls_of(table)) for table in section.split("\n| crate | calls |\n")[1:]]


def calls_of(table):
    """The calls in turn: of each its crate, its file and its name."""
    for crate, cell in ROW.findall(table):
        names = []
        for name, file in CALL_OR_FILE.findall(cell):
            if name:
                names.append(name)
            else:
                yield from ((crate, file, name) for name in names)
                names = []
        yield from ((crate, "main.rt", name) for name in names)


def body_of(crate, file, name):
    """The text of a function, or `None` if it isn't there. A method is looked for in what is written for its type."""
    path = CRATES / crate / "src" / file
    text = re.sub(r"//.*", "", path.read_text(encoding="utf-8")) if path.is_file() else ""
    owner, _, function = name.rpartition("::")
    if owner:
        impls = re.findall(rf"^impl\b[^{{]*\b{owner}\b[^{{]* {{\n.*?^}}", text, re.MULTILINE | re.DOTALL)
        text = "\n".join(impls)
    found = re.search(rf"{HEAD}{function}\b.*?^\1}}", text, re.MULTILINE | re.DOTALL)
    return found and found[0]


def long_lines(path):
    """The numbers of the lines of clauses, and of what a type says of itself, that have too many columns."""
    depth = 0
    for number, line in enumerate(path.read_text(encoding="utf-8").splitlines(), 1):
        if depth or CLAUSE.match(line):
            depth += line.count("{") - line.count("}")
            if len(line) > COLUMNS:
                yield number


def main():
    parser = argparse.ArgumentParser(description=__doc__.splitlines()[0])
    parser.add_argument("--check", action="store_true", help="fail if the call path of a query line isn't so, or a clause is too wide")
    check = parser.parse_args().check
    ways = ways_of_a_line()
    if not check:
        print(f"{'':<12}{'source':>8}{'specs':>8}{'proofs':>8}{'functions':>11}")
        for crate in sorted(path.name for path in CRATES.iterdir() if not path.name.endswith("_tests")):
            source, specs, proofs = (
                lines_of(crate, folder, pattern)
                for folder, pattern in (("src", "*.rt"), ("specs", "*.antt"), ("proofs", "*.antt"))
            )
            functions = sum(len(FUNCTION.findall(text)) for text in sources_of(crate))
            print(f"{crate:<12}{source:>8}{specs:>8}{proofs:>8}{functions:>11}")
        for way in ways:
            print(f"from {way[0][-1]} to {way[-1][-1]}: {len(way) - 1} calls")
        return 0
    failed = 0
    for (crate, file, name), (*_, called) in (step for way in ways for step in zip(way, way[1:] + [(None,)])):
        body = body_of(crate, file, name)
        word = called and called.rpartition("::")[2]
        if body is None or word and not re.search(rf"\b{word}\b(?:::<[^>]*>)?\(", body.partition("(")[2]):
            print(f"CONTRIBUTING.md: {name} of {crate}/src/{file} {'is not there' if body is None else f'calls no {word}'}")
            failed += 1
    passed = sum(map(len, ways)) - failed
    failed += not ways
    for path in sorted(CRATES.glob("*/src/*.rt")):
        wide = list(long_lines(path))
        for number in wide:
            print(f"{path.relative_to(ROOT)}:{number}: a clause has more than {COLUMNS} columns")
        passed += not wide
        failed += bool(wide)
    print(f"{passed} passed, {failed} failed")
    return 1 if failed else 0


if __name__ == "__main__":
    sys.exit(main())

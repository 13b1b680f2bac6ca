#!/usr/bin/env python3
"""Checks the pages: runs their examples and compares what they show, byte for byte, and follows their links.

usage: tests/pages.py PROGRAM

In README.md, the pages of docs/ and the manual page a console example is a command after `$ `, which may go on over lines, and
what it prints. It is run in a folder with the files of examples/data/. A block that names a tool behind `console` is run by the
tests of that tool. A row of a table with the columns `line` and `reply` is a run with that line alone over boxes.csv, or over the
table that the head of the column names, perhaps with options in front of it. The logic that pages say all is proved with is that
of `rt version`, if `rt` is there. Each link of a page leads to a file of the repository, and to a heading of it; each page of docs/
is reached from README.md by links; each question of questions.md has an answer under a heading that is there; each fenced block has
a row of blocks.md, which names the test that runs it or says why none does. Each limit of docs/limits.md is accepted, and the next
number beyond it refused; its least and greatest score are those of two points. Figures that stand in two places agree (figures.py);
words and sentences are those of wording.py. The last line is `N passed, M failed`.
"""

import fnmatch
import os
import re
import shutil
import subprocess
import sys
import tempfile
from pathlib import Path

from figures import other_figures
from wording import complaints

ROOT = Path(__file__).resolve().parent.parent


def sessions(text, tool=None):
    """The commands of console examples, or of those that name a tool, each with what it prints."""
    head = "```console" if tool is None else f"```console {tool}"
    for block in re.findall(rf"^{head}\n(.*?)^```$", text, re.MULTILINE | re.DOTALL):
        for example in re.split(r"^\$ ", block, flags=re.MULTILINE)[1:]:
            command, _, shown = example.partition("\n")
            yield command, shown


def manual_sessions(text):
    """The same of a manual page, whose examples stand between .EX and .EE."""
    plain = text.replace("\\e", "\\").replace("\\-", "-")
    return sessions(re.sub(r"^\.EX\n(.*?)^\.EE$", r"```console\n\1```", plain, flags=re.MULTILINE | re.DOTALL))


def cells(row):
    return [cell.strip() for cell in row.strip().strip("|").split("|")]


def codes(cell):
    return re.findall(r"`([^`]*)`", cell)


def table_rows(text):
    """The lines of tables with the columns `line` and `reply`, each as a command with its reply."""
    columns = None
    for row in text.splitlines():
        if not row.startswith("|"):
            columns = None
        elif columns is None:
            over = re.search(r"\| line over `([^`]*)` \|", row)
            columns = cells(row.replace(over[0], "| line |") if over else row)
        elif {"line", "reply"} <= {*columns}:
            found = dict(zip(columns, cells(row)))
            for line in codes(found["line"]):
                command = f"echo '{line}' | rtfilter {over[1] if over else 'boxes.csv'}"
                yield command, "".join(f"{it}\n" for it in codes(found["reply"]))


def examples():
    """Each example: the page, the command and what it is to print."""
    for page in [ROOT / "README.md", *sorted((ROOT / "docs").rglob("*.md"))]:
        text = page.read_text(encoding="utf-8")
        yield from ((page, *it) for it in [*sessions(text), *table_rows(text)])
    manual = ROOT / "docs/rtfilter.1"
    yield from ((manual, *it) for it in manual_sessions(manual.read_text(encoding="utf-8")))


def printed(command, folder, path):
    """What a command prints, standard error included."""
    how = {"stdout": subprocess.PIPE, "stderr": subprocess.STDOUT, "stdin": subprocess.DEVNULL}
    environment = {**os.environ, "PATH": f"{path}:{os.environ['PATH']}"}
    done = subprocess.run(["bash", "-c", command], cwd=folder, env=environment, timeout=60, **how)
    return done.stdout.decode(errors="replace")


def limit(text, name):
    """The first two numbers in the row of docs/limits.md that begins with a name, or the only one."""
    numbers = re.findall(r"-?\d[\d,]*", re.search(rf"^\| {re.escape(name)}.*? \| (.*?) \|", text, re.MULTILINE)[1])
    return [int(number.replace(",", "")) for number in numbers[:2]]


def record(**given):
    """A command that loads a table of one box."""
    box = {"id": 1, "x": 0, "y": 0, "layer": 0} | given
    return "echo '{id},{x},{x},{y},{y},{layer}' | rtfilter /dev/stdin /dev/null".format(**box)


def error_of(line):
    """A command that prints the fault of a query line, if it has one."""
    return f"echo '{line}' | rtfilter boxes.csv | grep ^error"


def polygon(vertices):
    """A line with a polygon of this many vertices, which lie on a parabola."""
    return error_of(f"count polygon {vertices} {' '.join(f'{at} {at * at}' for at in range(vertices))}")


AT_LIMITS = [  # a limit by its name, and a command for a number, which prints something exactly if the number is refused
    ("id", lambda number: record(id=number)),
    ("coordinate", lambda number: record(x=number)),
    ("coordinate", lambda number: record(y=number)),
    ("layer", lambda number: record(layer=number)),
    ("polygon", polygon),
    ("radius of a circle", lambda number: error_of(f"count circle 0 0 {number}")),
    ("`first K`, `nearest K`", lambda number: error_of(f"find all first {number}")),
    ("`first K`, `nearest K`", lambda number: error_of(f"nearest {number} 0 0")),
    ("fanout", lambda number: f"rtfilter --fanout {number} boxes.csv /dev/null"),
    ("fields of a CSV record", lambda number: f"echo {','.join('0' * number)} | rtfilter /dev/stdin /dev/null"),
]
GREATEST = [  # of those that are named by their greatest number alone
    ("boxes in a table", lambda number: f"rtfilter --max-entries {number} boxes.csv /dev/null"),
    ("query line", lambda number: f"printf '%-{number}s\\n' 'count all' | rtfilter boxes.csv | grep ^error"),
]


def limits(text):
    """A command for each limit and for what lies just beyond it, with whether the number is to be accepted."""
    for name, command in AT_LIMITS:
        least, greatest = limit(text, name)
        yield from ((command(number), least <= number <= greatest) for number in (least - 1, least, greatest, greatest + 1))
    for name, command in GREATEST:
        greatest = limit(text, name)[0]
        yield from ((command(number), number <= greatest) for number in (greatest, greatest + 1))


def greatest_scores(text):
    """Commands that print the least and the greatest score of docs/limits.md, each with what it is to print."""
    low, high = limit(text, "coordinate")
    distance = "echo '1,{0},{0},{0},{0}' > far.csv; echo 'nearest 1 {1} {1}' | rtfilter far.csv"
    for at, score in zip((low, high), limit(text, "score")):
        yield distance.format(low, at), f"1 {score}\nok 1 1\n"


def all_pages():
    """Each page in Markdown, by its path."""
    return {it: it.read_text(encoding="utf-8") for it in sorted(ROOT.rglob("*.md")) if "/." not in str(it) and "/build/" not in str(it)}


def links(page, text):
    """The files that a page links to, each with the heading that is named, or an empty one."""
    for target in re.findall(r"\]\(([^)\s]+)\)", re.sub(r"^```.*?^```$", "", text, flags=re.MULTILINE | re.DOTALL)):
        name, _, heading = target.partition("#")
        if ":" not in name:
            yield (page.parent / name).resolve() if name else page, heading


def headings(text):
    """The anchors of a page's headings."""
    lines = re.findall(r"^#+ (.*)$", re.sub(r"^```.*?^```$", "", text, flags=re.MULTILINE | re.DOTALL), re.MULTILINE)
    return {re.sub(r"[^\w\- ]", "", line.lower()).replace(" ", "-") for line in lines}


def broken_links(pages):
    """The links that lead nowhere."""
    for page, text in pages.items():
        for target, heading in links(page, text):
            if not target.exists() or (heading and heading not in headings(pages.get(target, ""))):
                yield f"{page.relative_to(ROOT)}: {target.relative_to(ROOT) if target.is_relative_to(ROOT) else target}#{heading}"


def unreached(pages):
    """The pages of docs/ to which no way leads from README.md."""
    found, next_ones = set(), [ROOT / "README.md"]
    while next_ones:
        page = next_ones.pop()
        if page in pages and page not in found:
            found.add(page)
            next_ones += [target for target, _ in links(page, pages[page])]
    return [str(it.relative_to(ROOT)) for it in pages if it.is_relative_to(ROOT / "docs") and it not in found]


def unanswered(pages):
    """The questions of tests/questions.md whose page or heading isn't there."""
    rows = re.findall(r"^\| [a-z]+-\d+ \| (.*?) \| ([^ |]+) \|$", pages[ROOT / "tests/questions.md"], re.MULTILINE)
    for question, place in rows or [("no question is listed", "")]:
        name, _, heading = place.partition("#")
        if ROOT / name not in pages or (heading and heading not in headings(pages[ROOT / name])):
            yield f"{question}: {place}"


def blocks(text):
    """The fenced blocks of a page but for outputs after "prints": of each its language and its first line."""
    block, before = None, ""
    for line in text.splitlines():
        is_fence = line.lstrip().startswith("```")
        if is_fence and block is None:
            block = [line.strip().removeprefix("```")]
        elif is_fence:
            language, *shown = block
            if language or before != "prints":
                yield language, "".join(shown[:1])
            block, before = None, ""
        elif block is not None:
            block.append(line)
        elif line:
            before = line


def unnamed_blocks(pages):
    """The blocks that no row of blocks.md has, the rows that no block has, and those whose test isn't there."""
    by_language, by_line = (
        re.findall(r"^\| (\S+) \| `(.*)` \| (.*) \|$", part, re.MULTILINE) for part in pages[ROOT / "tests/blocks.md"].split("\n## ")[1:]
    )
    unused = {*by_language, *by_line}
    for page, text in pages.items():
        name = str(page.relative_to(ROOT))
        for language, first in blocks(text):
            found = {row for row in by_language if fnmatch.fnmatchcase(name, row[0]) and fnmatch.fnmatchcase(language, row[1])}
            found |= {row for row in by_line if (name, first.replace("|", "\\|")) == row[:2]}
            unused -= found
            if not found:
                yield f"{name}: {language} {first}: no row of tests/blocks.md"
    yield from (f"{name}: {block}: no such block" for name, block, _ in unused)
    for name, block, test in [*by_language, *by_line]:
        if not (ROOT / test).is_file() and ((name, block, test) in by_language or not test.startswith("not run")):
            yield f"{name}: {block}: no such test: {test}"


def contradictions(_pages):
    """The figures that say something else than the table or the page that has them too."""
    return other_figures(lambda name: (ROOT / name).read_text(encoding="utf-8"))


def wordings(pages):
    """The words that pages shouldn't use, and sentences for users that are too long."""
    return complaints({str(page.relative_to(ROOT)): text for page, text in pages.items()})


def logics(text):
    """The logics of the toolchain that a text names."""
    return set(re.findall(r"\blogic ([0-9a-f]{16})\b", text))


def names_of_the_logic():
    """The pages that name a logic, each with those that it names, and the toolchain's own; none if it isn't here."""
    if shutil.which("rt") is None:
        print("skipped: the logic that the pages name, since rt isn't on the path")
        return
    own = logics(subprocess.run(["rt", "version"], capture_output=True, text=True, timeout=60).stdout)
    for page in [ROOT / "README.md", ROOT / "docs/internals/proved.md"]:
        yield page, "the logic of rt version", logics(page.read_text(encoding="utf-8")), own


def main():
    passed = failed = 0
    with tempfile.TemporaryDirectory() as scratch:
        path, folder = Path(scratch, "bin"), Path(scratch, "examples")
        shutil.copytree(ROOT / "examples/data", folder)
        path.mkdir()
        (path / "rtfilter").symlink_to(Path(sys.argv[1]).resolve())
        outcomes = ((page, command, shown, printed(command, folder, path)) for page, command, shown in examples())
        pages = all_pages()
        checks = (
            ("links that lead nowhere", broken_links), ("pages that no link leads to", unreached), ("questions", unanswered),
            ("blocks", unnamed_blocks), ("figures", contradictions), ("wording", wordings),
        )  # fmt: skip
        by_looking = ((ROOT / "README.md", words, [], [*check(pages)]) for words, check in checks)
        at = ROOT / "docs/limits.md"
        at_limits = ((at, command, fits, not printed(command, folder, path)) for command, fits in limits(pages[at]))
        scores = ((at, command, shown, printed(command, folder, path)) for command, shown in greatest_scores(pages[at]))
        for page, command, shown, found in [*outcomes, *names_of_the_logic(), *by_looking, *at_limits, *scores]:
            if found == shown:
                passed += 1
            else:
                failed += 1
                print(f"FAIL {page.relative_to(ROOT)}: {command}\n  shown {shown!r}\n  found {found!r}")
    print(f"{passed} passed, {failed} failed")
    return int(failed > 0)


if __name__ == "__main__":
    sys.exit(main())

#!/usr/bin/env python3
"""Compares the program with the grammar block and the table of numbers of docs/query-language.md.

usage: tests/grammar.py PROGRAM

Each way through the grammar is made into a line, with small numbers. The line has to be answered; each of its
beginnings that isn't one itself wants a word; one word more is stray; and each of its numbers is tried at both ends of
its range, just beyond them, and as no number, a list of layers with such numbers in each place. The last line is
`N passed, M failed`.
"""

import re
import subprocess
import sys
from pathlib import Path

ROOT = Path(__file__).resolve().parent.parent
BOXES = ROOT / "examples/data/boxes.csv"

sys.dont_write_bytecode = True
from checks import status_of
from pictures import PAGE, grammar

# Numbers that suit each other, and the vertices of a polygon for its points.
SMALL = {"X1": 0, "X2": 10, "Y1": 0, "Y2": 10, "X": 3, "Y": 4, "R": 5, "K": 2, "N": 3, "LIST": 0}
VERTICES = [("X", 0), ("Y", 0), ("X", 9), ("Y", 0), ("X", 0), ("Y", 9)]


def ranges():
    """The least and the greatest of each number, by the page."""
    text = PAGE.read_text(encoding="utf-8")
    rows = re.findall(r"^\| ([A-Z0-9, ]+) \|.*\| (-?\d+) \| (-?\d+) \|$", text, re.MULTILINE)
    return {name: (int(least), int(most)) for names, least, most in rows for name in names.split(", ")}


def ways(rules, tokens):
    """Each way through tokens of the grammar, as words and pairs of a number's name and its value."""
    branches, depth = [[]], 0
    for token in tokens:
        depth += (token in "[{") - (token in "]}")
        if token == "|" and depth == 0:
            branches.append([])
        else:
            branches[-1].append(token)
    return [way for branch in branches for way in ways_in_turn(rules, branch)]


def ways_in_turn(rules, tokens):
    if not tokens:
        return [[]]
    first, rest = tokens[0], tokens[1:]
    if first in "[{":
        end = tokens.index("]" if first == "[" else "}")
        # Only a polygon's points come again, and these are put in for N.
        inner = [[], *ways(rules, tokens[1:end])] if first == "[" else [[]]
        rest = tokens[end + 1:]
    elif first == "N":
        return [[("N", SMALL["N"]), *VERTICES]]
    elif first.startswith('"'):
        inner = [[first.strip('"')]]
    elif first[0].isupper():
        inner = [[(first, SMALL[first])]]
    else:
        inner = ways(rules, rules[first])
    return [[*way, *more] for way in inner for more in ways_in_turn(rules, rest)]


def words(way):
    return [piece if isinstance(piece, str) else str(piece[1]) for piece in way]


def cases(way, whole, ends):
    """The lines that are made of a way through the grammar, each with its reply's pattern."""
    yield words(way), r"ok \d+ \d+"
    yield [*words(way), "x"], "error .* Q10 stray word"
    for at, piece in enumerate(way):
        if at and words(way[:at]) not in whole:
            yield words(way[:at]), "error .* Q4 missing word"
        if not isinstance(piece, str):
            yield from number_cases(way, at, piece[0], ends[piece[0]])
            if piece[0] == "LIST":
                yield from list_cases(way, at, *ends["LIST"])


def number_cases(way, at, name, ends):
    """The number of this name, at this place, at the ends of its range and beyond them. After N the line is cut."""
    beyond = "error .* Q8 vertex count" if name == "N" else "error .* Q6 out of range"
    within = "error .* Q4 missing word" if name == "N" else r"ok \d+ \d+|error .* Q[79] .*"
    tried = [("x", "error .* Q5 not a number"), (ends[0] - 1, beyond), (ends[1] + 1, beyond)]
    for value, reply in [*tried, *((end, within) for end in ends)]:
        yield [*words(way[:at]), str(value), *words(way[at + 1:] if name != "N" else [])], reply


def list_cases(way, at, least, most):
    """The list at this place with several parts, of which the first faulty one is reported."""
    no_number, beyond = "error .* Q5 not a number", "error .* Q6 out of range"
    for parts, reply in (
        ((least, most, least), r"ok \d+ \d+"),
        ((least, ""), no_number),
        (("", most), no_number),
        ((least, "", most), no_number),
        ((least, most + 1), beyond),
        ((least, most + 1, "x"), beyond),
        ((least, "x", most + 1), no_number),
        ((least, f" {most}"), "error .*"),
    ):
        yield [*words(way[:at]), ",".join(map(str, parts)), *words(way[at + 1:])], reply


def replies(program, lines):
    """The last line of the reply to each line."""
    queries = "".join(" ".join(line) + "\n" for line in lines).encode()
    done = subprocess.run([program, BOXES], input=queries, capture_output=True, timeout=60)
    return re.findall(r"^(?:ok|error) .*$", done.stdout.decode(), re.MULTILINE)


def first_fault(program, lines):
    """What is wrong with the first reply that isn't the expected one, or with their number."""
    found = replies(program, [line for line, _ in lines])
    wrong = next((case for case in zip(lines, found) if not re.fullmatch(case[0][1], case[1])), None)
    return wrong or (None if len(found) == len(lines) else "lines without reply")


def main():
    program, rules, ends = Path(sys.argv[1]).resolve(), grammar(), ranges()
    found = ways(rules, rules["query"])
    whole = [words(way) for way in found]
    return status_of((" ".join(words(way)), first_fault(program, [*cases(way, whole, ends)])) for way in found)


if __name__ == "__main__":
    sys.exit(main())

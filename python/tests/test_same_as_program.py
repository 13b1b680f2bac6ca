"""Every way to ask gives what the program writes."""

import asyncio
import os
import random
from collections.abc import Callable
from pathlib import Path
from typing import Any

import numpy
import pandas
import pytest
from conftest import Calls, Connect, Serve, given_by, in_child, sound_table, written_by_program
from random_runs import some_line

from rtfilter import Answers, Circle, Covers, Inside, Near, QueryError, Rtfilter, Smallest, Window

TABLES, LINES = 20, 10_000  # random lines over each table
CALLS = 1500


@pytest.mark.parametrize("seed", range(TABLES))
def test_lines(seed: int, tmp_path: Path) -> None:
    chance = random.Random(seed)
    table = tmp_path / "table"
    table.write_bytes(sound_table(chance))
    lines = [some_line(chance).replace(b"\n", b"") for _ in range(LINES)]
    expected = written_by_program(table, b"\n".join(lines) + b"\n")
    with Rtfilter(table) as boxes:
        assert boxes.text(b"\n".join(lines)) == expected
        replies = boxes.replies(map(os.fsdecode, lines))
    assert b"".join(written(at, it) for at, it in enumerate(replies, 1)) == expected
    assert {type(it) for it in replies} == {Answers, QueryError, type(None)}


def written(at: int, reply: Any) -> bytes:
    """A reply as the program writes it."""
    if reply is None:
        return b""
    if isinstance(reply, QueryError):
        return b"error %d %s %s\n" % (at, reply.code.encode(), reply.text.encode())
    answers = b"".join(b"%d %d\n" % pair for pair in zip(reply.ids, reply.scores, strict=True))
    return answers + b"ok %d %d\n" % (at, reply.total)


def expected_of(lines: list[str], text: bytes) -> list[Any]:
    """What calls give for these lines: a list of pairs, a number, or the code and the text of a fault."""
    found: list[Any] = []
    pairs: list[tuple[int, ...]] = []
    for line in text.splitlines():
        if not line.startswith((b"ok", b"error")):
            pairs.append(tuple(map(int, line.split())))
            continue
        if line.startswith(b"error"):
            found.append(tuple(line.decode().split(" ", 3)[2:]))
        else:
            found.append(pairs if lines[len(found)].startswith(("find", "nearest")) else int(line.split()[2]))
        pairs = []
    return found


Case = tuple[Path, list[Callable[[Any], Any]], list[Any]]


@pytest.fixture
def case(tmp_path: Path, request: pytest.FixtureRequest) -> Case:
    """A table, calls, and what the program answers."""
    chance = random.Random(getattr(request, "param", 7))
    table = tmp_path / "table"
    text = b""
    while text.count(b"\n") < 8:
        text = sound_table(chance)
    table.write_bytes(text)
    lines, calls = zip(*(Calls(chance, 12).some() for _ in range(CALLS)))
    expected = expected_of(list(lines), written_by_program(table, "".join(f"{it}\n" for it in lines).encode()))
    assert len(expected) == CALLS and {type(it) for it in expected} == {list, int, tuple}
    return table, list(calls), expected


@pytest.mark.parametrize("case", range(TABLES), indirect=True)
def test_calls(case: Case) -> None:
    table, calls, expected = case
    with Rtfilter(table) as boxes:
        assert [given_by(boxes, it) for it in calls] == expected


def test_calls_of_threads(case: Case) -> None:
    table, calls, expected = case
    with Rtfilter(table) as boxes:

        async def ask() -> list[Any]:
            some = [asyncio.to_thread(lambda: [given_by(boxes, it) for it in calls]) for _ in range(6)]
            return await asyncio.gather(*some, *(asyncio.to_thread(given_by, boxes, it) for it in calls[:300]))

        assert asyncio.run(ask()) == [expected] * 6 + expected[:300]


def test_calls_in_a_child(case: Case) -> None:
    table, calls, expected = case
    with Rtfilter(table) as boxes:
        assert in_child(lambda: [given_by(boxes, it) for it in calls] == expected)


def test_calls_of_a_client(case: Case, connect: Connect, serve: Serve) -> None:
    table, calls, expected = case
    with connect(serve(table).path, timeout=60) as boxes:
        assert [given_by(boxes, it) for it in calls] == expected


def test_lines_of_a_client(tmp_path: Path, connect: Connect, serve: Serve) -> None:
    """Its connection goes on."""
    chance = random.Random(5)
    table = tmp_path / "table"
    table.write_bytes(sound_table(chance))
    lines = [some_line(chance).replace(b"\n", b"") for _ in range(3000)]
    texts = [*map(os.fsdecode, lines)]
    with Rtfilter(table) as boxes, connect(serve(table).path, timeout=60) as client:
        while lines:
            count = chance.choice([0, 1, 2, 30, 700])
            text = b"\n".join(lines[:count])
            assert client.text(text) == boxes.text(text) == written_by_program(table, text)
            assert [*map(str, client.replies(texts[:count]))] == [*map(str, boxes.replies(texts[:count]))]
            lines, texts = lines[count:], texts[count:]
        assert client.levels() == boxes.levels() and len(client) == len(boxes)


@pytest.mark.parametrize("count", [1, 63, 64, 65, 500, 4095, 4097, 9001])
def test_many_at_once(count: int, tmp_path: Path) -> None:
    """Of every kind of query, by windows and by bounds."""
    chance = random.Random(count)
    table = tmp_path / "table"
    table.write_bytes(sound_table(chance))
    rows = numpy.array([[*sorted(chance.sample(range(-20, 20), 2)), *sorted(chance.sample(range(-20, 20), 2))] for _ in range(count)])
    with Rtfilter(table) as boxes:

        def answered(line: str, numbers: Any) -> Any:
            """What the program answers to a line for each of these rows: a list of pairs, or a number."""
            lines = [line.format(*it) for it in numbers.tolist()]
            return expected_of(lines, written_by_program(table, "".join(f"{it}\n" for it in lines).encode()))

        for region, line in (
            (Window, "window {} {} {} {}"), (Inside, "inside {} {} {} {}"), (Covers, "covers {} {} {} {}"), (Circle, "circle {} {} {}"),
        ):  # fmt: skip
            numbers = numpy.abs(rows[:, :3]) if region is Circle else rows
            options: Any
            for options, words in (
                ({}, ""), ({"on": 3}, " on 3"), ({"order": Near(1, 2), "first": 3}, " near 1 2 first 3"), ({"first": 0}, " first 0"),
                ({"order": Smallest(), "on": [0, 3]}, " on 0,3 smallest"),
            ):  # fmt: skip
                places, ids = boxes.find_each(numbers, region=region, **options)
                expected = answered(f"find {line}{words}", numbers)
                assert [*zip(places.tolist(), ids.tolist())] == [(at, id) for at, it in enumerate(expected) for id, _ in it]
            assert boxes.count_each(numbers, region=region, on=[0, 3]).tolist() == answered(f"count {line} on 0,3", numbers)
        places, ids, scores = boxes.nearest_each(rows[:, [0, 2]], 4)
        expected = answered("nearest 4 {} {}", rows[:, [0, 2]])
        assert [*zip(places.tolist(), ids.tolist(), scores.tolist())] == [(at, *it) for at, its in enumerate(expected) for it in its]
        frame = pandas.DataFrame(rows[:, [2, 0, 1, 3]], columns=["min_y", "min_x", "max_x", "max_y"])
        for given in ({"windows": frame}, {"bounds": rows[:, [0, 2, 1, 3]]}, {"bounds": frame}):
            assert numpy.array_equal(boxes.find_each(**given), boxes.find_each(rows))  # type: ignore[arg-type]
            assert numpy.array_equal(boxes.count_each(**given), boxes.count_each(rows))  # type: ignore[arg-type]

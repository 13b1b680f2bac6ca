"""Several tables answer as one table of all boxes does."""

import pickle
import random
from collections.abc import Callable, Iterator
from pathlib import Path
from typing import Any

import numpy
import pytest
from conftest import Calls, Serve, given_by

from rtfilter import All, Circle, Client, Covers, Inside, Near, Polygon, QueryError, Rtfilter, Tables, Window, tables

SEEDS = 40
QUERIES = 120
FAR = 2**31 - 1
Row = tuple[int, ...]


def rows_of(chance: random.Random, span: int) -> list[Row]:
    """Boxes of which many lie at the same distance and have the same area, with distinct ids and layers."""
    rows: list[Row] = []
    for at in chance.sample(range(-500, 500), chance.randint(0, 80)):
        x, y = chance.randint(-span, span), chance.randint(-span, span)
        rows.append((at, x, x + chance.randint(0, 6), y, y + chance.randint(0, 6), chance.choice([0, 0, 1, 63])))
    edges: list[Row] = [(1000, -FAR - 1, -FAR - 1, -FAR - 1, -FAR - 1, 0), (1001, FAR, FAR, FAR, FAR, 1), (1002, -FAR - 1, FAR, -FAR - 1, FAR, 2)]
    return rows + chance.sample(edges, chance.choice([0, 0, 1, 3]))


def cut(chance: random.Random, rows: list[Row]) -> list[list[Row]]:
    """Rows in one to five parts: by place, or by chance. Some parts may be empty."""
    count = chance.randint(1, 5)
    parts: list[list[Row]] = [[] for _ in range(count)]
    for row in rows:
        parts[(row[1] // 8) % count if chance.random() < 0.7 else chance.randrange(count)].append(row)
    return parts


@pytest.fixture(params=[(10**6, 65_536), (0, 50)], ids=["in a loop", "in threads, by parts"])
def ways(request: Any, monkeypatch: pytest.MonkeyPatch) -> None:
    """Both ways of many queries: without threads, and with them for any number of queries, in small parts."""
    monkeypatch.setattr(tables, "FEW", request.param[0])
    monkeypatch.setattr(tables, "PART", request.param[1])


@pytest.mark.parametrize("seed", range(SEEDS))
def test_single_calls(seed: int) -> None:
    chance = random.Random(seed)
    rows, calls = rows_of(chance, chance.choice([5, 20])), Calls(chance, 25)
    with Rtfilter(rows) as one, Tables(map(Rtfilter, cut(chance, rows))) as many:
        assert len(many) == len(one) and many.bounds == one.bounds
        for line, call in [calls.some() for _ in range(4 * QUERIES)]:
            if not line.startswith("cost"):
                assert outcome(lambda: call(many)) == outcome(lambda: call(one)), line


@pytest.mark.usefixtures("ways")
@pytest.mark.parametrize("seed", range(SEEDS // 2))
def test_many_queries(seed: int) -> None:
    chance = random.Random(seed)
    rows, calls = rows_of(chance, chance.choice([5, 20])), Calls(chance, 25, faulty=0.0003)
    with Rtfilter(rows) as one, Tables(map(Rtfilter, cut(chance, rows))) as many:
        for kind in (Window, Inside, Covers, Circle):
            some = [[*it] for it in (calls.region() for _ in range(6 * QUERIES)) if type(it) is kind]
            options = calls.options()
            same(lambda it: it.find_each(some, region=kind, **options), many, one)
            same(lambda it: [it.count_each(some, region=kind, on=options["on"])], many, one)
        points = [(calls.number(), calls.number()) for _ in range(QUERIES)]
        for k in (0, 1, 3, 2**64 - 1):
            same(lambda it: it.nearest_each(points, k), many, one)
        bounds = numpy.array([(x, y, x + 4, y + 4) for x, y in points if max(x, y) < FAR])
        same(lambda it: it.find_each(bounds=bounds), many, one)


def outcome(call: Callable[[], Any]) -> Any:
    """What a call gives, or the fault that it raises."""
    try:
        return call()
    except QueryError as error:
        return error.args


def same(call: Callable[[Any], Any], *tables: Any) -> None:
    """A call for many queries gives the same of two tables."""
    one, other = (outcome(lambda: [(it.tolist(), it.dtype) for it in call(table)]) for table in tables)
    assert one == other


def test_ties_whose_floats_differ() -> None:
    chance = random.Random(9)
    found = 0
    while found < 20:
        x, y = chance.randint(2**30, FAR), chance.randint(2**30, FAR)
        if float(x) ** 2 + float(y) ** 2 > float(x * x + y * y):
            found += 1
            with Tables([Rtfilter([(2, x, x, y, y)]), Rtfilter([(1, y, y, x, x)])]) as many:
                assert many.nearest(1, 0, 0) == [(1, x * x + y * y)] and many.nearest_each([(0, 0)], 1)[1].tolist() == [1]
                assert many.find_each([(0, 0, 2**32 - 1)], region=Circle, first=1)[1].tolist() == [1]


@pytest.mark.parametrize("kind", ["i4", "u4", "i8"])
def test_numbers_of_numpy(kind: str) -> None:
    """Their products would overflow."""
    number = numpy.dtype(kind).type
    rows = [(1, 0, 0, 0, 0), (2, FAR, FAR, FAR, FAR), (3, 70_000, 70_000, 0, 0)]
    with Rtfilter(rows) as one, Tables([Rtfilter([it]) for it in rows]) as many:
        for x, y, radius in ((0, 0, 70_000), (FAR, FAR, 65_536), (69_000, 1, 100_000), (FAR, 0, FAR)):
            region = Circle(number(x), number(y), number(radius))
            assert many.find(region) == one.find(region) and many.count(region) == one.count(region)
            assert many.find(region, first=3, scores=True) == one.find(region, first=3, scores=True)
            assert many.nearest(3, number(x), number(y)) == one.nearest(3, number(x), number(y))
            near = Near(number(x), number(y))
            assert many.find(All(), near, number(2)) == one.find(All(), near, number(2))


class Index:
    """What is no number, and stands for one."""

    def __index__(self) -> int:
        return 2


def test_what_stands_for_a_number(three: "Tables") -> None:
    two: Any = Index()
    assert three.nearest(two, two, 0) == three.nearest(2, 2, 0) and three.find(All(), Near(two, 0), two) == three.find(All(), Near(2, 0), 2)
    assert three.find(Circle(two, two, two), first=two) == three.find(Circle(2, 2, 2), first=2) == [0]
    for kind in (Window, Circle):
        some = [(0, 30, 0, 9), (0, 9, 0, 9)] if kind is Window else [(0, 0, 9)]
        same(lambda it: three.find_each(some, region=kind, order=Near(it, 9), first=it), two, 2)
    same(lambda it: three.nearest_each([(0, 0), (9, 9)], it), two, 2)


@pytest.fixture
def three() -> Iterator[Tables]:
    with Tables([Rtfilter([(at, at * 10, at * 10 + 5, 0, 5)]) for at in range(3)]) as found:
        yield found


def test_layers_that_are_read_once(three: Tables) -> None:
    for first, order in ((None, None), (2, None), (None, Near(0, 0)), (3, Near(0, 0))):
        assert three.find(All(), order, first, on=iter([0, 5])) == three.find(All(), order, first, on=[0, 5]) == [0, 1, 2][:first]
    assert three.count(All(), on=(it for it in [0])) == 3


def raised(call: Callable[[], object]) -> list[object]:
    with pytest.raises((QueryError, TypeError, ValueError, OverflowError)) as error:
        call()
    return [error.type, *error.value.args]


@pytest.mark.usefixtures("ways")
def test_invalid_queries_are_those_of_one_table(three: Tables) -> None:
    one = Rtfilter([(at, at * 10, at * 10 + 5, 0, 5) for at in range(3)])
    turned: list[Any] = [Window(5, 1, 0, 1), Window(900, 1, 0, 1), Circle(999, 0, -1), Inside(0, 2**31, 0, 1), Polygon([(0, 0)]), 7, Near(0, 0)]
    for region in (*turned, Window("0", 1, 0, 1), Circle(0, 0, "1"), Circle(0, 0.5, 1), Polygon([(0, "0"), (1, 0), (0, 1)])):  # type: ignore
        for first in (None, 3):
            assert raised(lambda: three.find(region, None, first)) == raised(lambda: one.find(region, None, first))  # type: ignore
        assert raised(lambda: three.count(region)) == raised(lambda: one.count(region))  # type: ignore[arg-type]
    for options in (
        {"first": -1}, {"first": 1.5}, {"on": 64}, {"on": []}, {"order": 5}, {"order": Near(2**31, 0)}, {"order": Near(0, 0), "first": "1"},
        {"order": Near("0", 0), "first": 1},  # type: ignore[arg-type]
    ):  # fmt: skip
        assert raised(lambda: three.find(All(), **options)) == raised(lambda: one.find(All(), **options))  # type: ignore[arg-type]
    for point in ((1.5, 0, 0), (1, "0", 0), (1, 0, None), (-1, 0, 0), (1, 2**31, 0)):
        assert raised(lambda: three.nearest(*point)) == raised(lambda: one.nearest(*point))  # type: ignore[arg-type]
    good, turned, beyond = (0, 20, 0, 9), (50, 40, 0, 9), (0, 2**40, 0, 9)
    turned_in_second = (12, 11, 0, 9)
    faulty = [[good] * 70 + [turned] + [good, beyond], [good, beyond, turned], [turned] * 9, [good] * 8 + [(10**30, 10**31, 0, 9)]]
    for rows in (*faulty, [good, turned_in_second, good, turned], [turned, good, turned_in_second]):
        assert raised(lambda: three.find_each(rows)) == raised(lambda: one.find_each(rows))
        assert raised(lambda: three.count_each(rows)) == raised(lambda: one.count_each(rows))
    assert raised(lambda: three.nearest_each([(0, 0), (2**31, 0)], 2)) == raised(lambda: one.nearest_each([(0, 0), (2**31, 0)], 2))
    assert raised(lambda: three.find_each([(0, 0.5, 0, 9)])) == raised(lambda: one.find_each([(0, 0.5, 0, 9)]))
    assert [it.tolist() for it in three.find_each([])] == [[], []] and three.count_each([]).tolist() == []


def test_what_several_tables_have_not(three: Tables) -> None:
    for call in (three.levels, lambda: three.cost_of_find(All()), lambda: three.cost_of_count(All()), lambda: pickle.dumps(three)):
        with pytest.raises(TypeError):
            call()
    for members, error in (([], ValueError), ([1], TypeError), ([Rtfilter([]), "boxes.csv"], TypeError), (5, TypeError)):
        with pytest.raises(error):
            Tables(members)  # type: ignore[arg-type]
    assert Tables([Rtfilter([])]).bounds is None and Tables([Rtfilter([]), Rtfilter([])]).nearest(3, 0, 0) == []
    three.close()
    with pytest.raises(ValueError):
        three.find(All())


def test_tables_of_services(serve: Serve, tmp_path: Path) -> None:
    chance = random.Random(1)
    rows = rows_of(chance, 20) + [(at, at % 9, at % 9, at % 7, at % 7, 0) for at in range(2000, 2100)]
    files = [tmp_path / name for name in ("a.csv", "b.csv")]
    for file, some in zip(files, (rows[0::3], rows[1::3])):
        file.write_text("".join(",".join(map(str, it)) + "\n" for it in some))
    clients = [Client(serve(it).path, timeout=20) for it in files]
    with Rtfilter(rows) as one, Tables([*clients, Rtfilter(rows[2::3])]) as many:
        assert len(many) == len(one)
        for line, call in [Calls(chance, 25).some() for _ in range(8 * QUERIES)]:
            if not line.startswith("cost"):
                assert given_by(many, call) == given_by(one, call), line
        with pytest.raises(TypeError, match="client"):
            many.find_each([(0, 1, 0, 1)])
        with pytest.raises(TypeError, match="client"):
            many.count_each([(0, 1, 0, 1)])
        with pytest.raises(TypeError, match="client"):
            many.bounds

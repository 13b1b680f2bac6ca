"""Single calls, and calls about arrays."""

from pathlib import Path
from typing import Any

import numpy
import pytest

from rtfilter import All, Answers, Circle, Covers, Inside, Near, Polygon, QueryError, Rtfilter, Smallest, Window

HUGE = 10**5000  # more digits than Python prints


class OwnWindow(Window):
    """A class of a user, which is no region of the package."""


def test_lists(boxes: Rtfilter) -> None:
    assert boxes.find(Window(0, 10, 0, 10)) == [1, 2]
    assert boxes.find(Covers(5, 5, 5, 5), Smallest(), first=1) == [1]
    assert boxes.find(All(), Near(12, 12), 3, scores=True) == [(2, 0), (5, 0), (1, 8)] == boxes.nearest(3, 12, 12)
    assert boxes.nearest(k=1, x=12, y=12) == [(2, 0)] and boxes.find(Circle(0, 0, 2), scores=True) == [(1, 0), (4, 2)]
    assert boxes.find(region=Circle(0, 0, 2), order=Smallest(), first=None, on=None, scores=0) == [4, 1]
    assert boxes.count(Polygon([(0, 0), (30, 0), (0, 30)])) == 4 and boxes.count(All(), on=0) == 5
    assert boxes.cost_of_find(All(), first=0) == 0 and boxes.cost_of_count(All()) == 1
    assert boxes.find(Window(*numpy.array([0, 10, 0, 10], "u1"))) == [1, 2]


def test_layers(data: Path) -> None:
    with Rtfilter(data / "layers.csv") as table:
        every = table.find(All())
        for layers in (range(64), iter(range(64)), [*range(64), 5, 5], {*range(64)}, numpy.arange(64), None):
            assert table.find(All(), on=layers) == every
        by_layer = [it for layer in range(64) for it in table.find(All(), on=layer)]
        assert sorted(by_layer) == every and len({*map(len, [by_layer, every])}) == 1
        assert table.count(All(), on=numpy.int8(3)) == table.count(All(), on=numpy.array(3)) == len(table.find(All(), on=[3])) < len(every)


def test_scores_of_65_bits() -> None:
    far = 2**31 - 1
    with Rtfilter([(1, -(2**31), -(2**31), -(2**31), -(2**31)), (2, far, far, far, far)]) as table:
        assert table.nearest(2, far, far) == [(2, 0), (1, 2 * (2**32 - 1) ** 2)]
        places, ids, scores = table.nearest_each([(far, far), (0, 0)], 2)
        assert scores.dtype == object and scores.tolist()[1] == 2 * (2**32 - 1) ** 2 and ids.tolist() == [2, 1, 2, 1]
        assert table.nearest_each([(0, 0)], 2)[2].dtype == numpy.uint64
    with Rtfilter([(1, -(2**31), -(2**31), 0, 0)]) as table:  # 2^64 and a little
        assert table.nearest(1, far, 92682) == [(1, 2**64 + 18533)]


def test_lines(boxes: Rtfilter) -> None:
    assert boxes.text(b"count all\nfind window 1") == b"ok 1 5\nerror 2 Q4 missing word\n" and boxes.text(b"") == b""
    assert boxes.text(bytearray(b"count all")) == boxes.text(memoryview(b"lla tnuoc")[::-1]) == b"ok 1 5\n"
    first, second, third, fourth = boxes.replies(["count all", "", "find window 1", "nearest 2 12 12"])
    assert first == Answers([], [], 5) and second is None and fourth == Answers([2, 5], [0, 0], 2)
    assert isinstance(third, QueryError) and (third.query, third.code, third.text) == ("find window 1", "Q4", "missing word")
    assert boxes.replies([]) == [] and boxes.replies(iter(["#"])) == [None]
    for bad, error in (("find all", TypeError), (5, TypeError), ([b"find all"], TypeError), (["a\nb"], ValueError), (["\ud800"], ValueError)):
        with pytest.raises(error):
            boxes.replies(bad)  # type: ignore[arg-type]
    with pytest.raises(TypeError):
        boxes.text("count all")  # type: ignore[arg-type]


@pytest.mark.parametrize(
    "region, code, text",
    [
        (Window(5, 1, 0, 1), "Q7", "minimum above maximum"),
        (Inside(0, 1, 5, 1), "Q7", "minimum above maximum"),
        (Window(0, 2**31, 0, 1), "Q6", "out of range"),
        (Covers(0, 1, -(10**30), 1), "Q6", "out of range"),
        (Circle(0, 0, -1), "Q6", "out of range"),
        (Circle(0, 0, 2**32), "Q6", "out of range"),
        (Polygon([(0, 0), (1, 1)]), "Q8", "vertex count"),
        (Polygon([(0, 0)] * 17), "Q8", "vertex count"),
        (Polygon([(0, 0), (1, 1), (2, 2)]), "Q9", "polygon not strictly convex"),
        (Polygon([(0, 0), (1, 1), (2**31, 2)]), "Q6", "out of range"),
    ],
)
def test_invalid_queries(boxes: Rtfilter, region: Any, code: str, text: str) -> None:
    for call in (boxes.find, boxes.count, boxes.cost_of_find, boxes.cost_of_count):
        with pytest.raises(QueryError) as raised:
            call(region)
        error = raised.value
        assert (error.query, error.place, error.code, error.text) == (region, None, code, text)
        assert isinstance(error, ValueError) and str(error).startswith(f"{code} {text}: {region}")
        assert ("min_x, min_y, max_x, max_y" in str(error)) == (code == "Q7")


@pytest.mark.parametrize(
    "make, error, words",
    [
        (lambda it: it.find(Window(0, 0.5, 0, 1)), TypeError, "0.5 isn't a whole number: Window(min_x=0, max_x=0.5"),
        (lambda it: it.find(Window(0, "1", 0, 1)), TypeError, "'1' isn't a whole number"),
        (lambda it: it.find(Polygon([(0, 0), (1.0, 1), (2, 0)])), TypeError, "1.0 isn't a whole number"),
        (lambda it: it.find(All(), Near(0.0, 1)), TypeError, "0.0 isn't a whole number: Near(x=0.0, y=1)"),
        (lambda it: it.find(All(), first=1.5), TypeError, "1.5 isn't a whole number"),
        (lambda it: it.find(All(), first=-1), QueryError, "Q6 out of range: first -1"),
        (lambda it: it.find(All(), first=2**64), QueryError, "Q6 out of range: first 18446744073709551616"),
        (lambda it: it.find(All(), Near(2**31, 0)), QueryError, "Q6 out of range: near 2147483648 0"),
        (lambda it: it.find(Window(0, HUGE, 0, 1)), QueryError, "Q6 out of range"),
        (lambda it: it.find(All(), first=HUGE), QueryError, "Q6 out of range"),
        (lambda it: it.nearest(1, HUGE, 0), QueryError, "Q6 out of range"),
        (lambda it: it.find([0] * 100_000), TypeError, "[0, 0, 0"),
        (lambda it: it.find(Window(0, [0] * 100_000, 0, 1)), TypeError, "[0, 0, 0"),
        (lambda it: it.find(OwnWindow(0, 1, 0, 1)), TypeError, "OwnWindow(min_x=0, max_x=1, min_y=0, max_y=1) is no region"),
        (lambda it: it.nearest(1.0, 0, 0), TypeError, "1.0 isn't a whole number"),
        (lambda it: it.nearest(1, 2**31, 0), QueryError, "Q6 out of range"),
        (lambda it: it.nearest(1, 2), TypeError, "nearest takes k, x and y"),
        (lambda it: it.nearest(1, 2, 3, y=4), TypeError, "argument 'y' twice"),
        (lambda it: it.nearest(1, 2, z=3), TypeError, "no argument is called 'z'"),
        (lambda it: it.find(Near(1, 1)), TypeError, "Near(x=1, y=1) is no region"),
        (lambda it: it.find((0, 1, 0, 1)), TypeError, "(0, 1, 0, 1) is no region"),
        (lambda it: it.find(All(), All()), TypeError, "All() is no order"),
        (lambda it: it.find(tuple.__new__(Window, (1,))), IndexError, "out of range"),
        (lambda it: it.find(tuple.__new__(Polygon, ())), IndexError, "out of range"),
        (lambda it: it.find(tuple.__new__(Polygon, (7,))), TypeError, "vertices aren't a tuple of pairs (x, y)"),
        (lambda it: it.find(tuple.__new__(Polygon, ([(0, 0), (1, 0), (0, 1)],))), TypeError, "vertices aren't a tuple of pairs (x, y)"),
        (lambda it: it.count(tuple.__new__(Polygon, (((0, 0), (1, 0), [0, 1]),))), TypeError, "vertices aren't a tuple of pairs (x, y)"),
        (lambda it: it.find(tuple.__new__(Polygon, (((0, 0), (1, 0), (0,)),))), TypeError, "a vertex is a pair (x, y)"),
        (lambda it: it.find(), TypeError, "no region"),
        (lambda it: it.find(All(), None, 1, 3), TypeError, "4 arguments by place, of at most 3"),
        (lambda it: it.find(All(), region=All()), TypeError, "argument 'region' twice"),
        (lambda it: it.find(All(), onn=3), TypeError, "no argument is called 'onn'"),
        (lambda it: it.count(All(), first=3), TypeError, "no argument is called 'first'"),
        (lambda it: it.count(All(), Smallest()), TypeError, "2 arguments by place, of at most 1"),
        (lambda it: it.find(All(), on=64), ValueError, "a layer is 0 to 63, and not 64"),
        (lambda it: it.find(All(), on=[3, -1]), ValueError, "a layer is 0 to 63, and not -1"),
        (lambda it: it.find(All(), on=2**80), ValueError, "a layer is 0 to 63"),
        (lambda it: it.find(All(), on=[]), ValueError, "no layer is given; None stands for all layers"),
        (lambda it: it.find(All(), on=True), TypeError, "a layer is a whole number, and not True"),
        (lambda it: it.find(All(), on=[3, False]), TypeError, "a layer is a whole number, and not False"),
        (lambda it: it.find(All(), on=numpy.bool_(True)), TypeError, "a layer is a whole number, and not True"),
        (lambda it: it.find(All(), on=numpy.arange(64) == 3), TypeError, "a layer is a whole number, and not False"),
        (lambda it: it.find(All(), Near(2**31, 0), on=64), ValueError, "a layer is 0 to 63, and not 64"),
        (lambda it: it.find(Polygon([(0, 0), (1, 1), (2, 2)]), on=64), QueryError, "Q9 polygon not strictly convex"),
        (lambda it: it.find(All(), on="3"), TypeError, "layers are whole numbers, and not '3'"),
        (lambda it: it.find(All(), on=1.0), TypeError, "1.0 isn't a whole number"),
        (lambda it: it.find_each(numpy.zeros((1, 4))), TypeError, "windows: numbers are float64, and not whole"),
        (lambda it: it.find_each([numpy.ma.array((0, 1, 0, 1), mask=(0, 0, 0, 1))]), TypeError, "windows: a number is masked"),
        (lambda it: it.find_each([(0, 1, 0)]), TypeError, "windows: the shape is (1, 3), and not (n, 4)"),
        (lambda it: it.find_each([(0, 1, 0, 1), (0, 1)]), TypeError, "windows: rows of different lengths"),
        (lambda it: it.find_each(), TypeError, "give either windows or bounds="),
        (lambda it: it.find_each([], bounds=[]), TypeError, "give either windows or bounds="),
        (lambda it: it.find_each([], region=Polygon), TypeError, "region is Window, Inside, Covers or Circle, and not Polygon"),
        (lambda it: it.find_each([()] * 3, region=All), TypeError, "region is Window, Inside, Covers or Circle, and not All"),
        (lambda it: it.find_each(bounds=[], region=Circle), TypeError, "Circle has no bounds"),
        (lambda it: it.count_each([(0, 1, 0, 1)], on=[]), ValueError, "no layer is given"),
        (lambda it: it.nearest_each([(0, 1)], -1), QueryError, "Q6 out of range"),
        (lambda it: it.nearest(-1, 0, 1), QueryError, "Q6 out of range: nearest -1 0 1"),
        (lambda it: it.text("count all"), TypeError, "lines are bytes, and not a str"),
    ],
)
def test_refused(boxes: Rtfilter, make: Any, error: type[Exception], words: str) -> None:
    with pytest.raises(error) as raised:
        make(boxes)
    assert words in str(raised.value) and len(str(raised.value)) < 500
    assert boxes.count(All()) == 5


class Closing:
    """A number that closes a table as it is read."""

    def __init__(self, table: Rtfilter) -> None:
        self._table = table

    def __index__(self) -> int:
        self._table.close()
        return 1


@pytest.mark.parametrize(
    "call",
    [
        lambda it, number: it.find(Window(0, number, 0, 9)),
        lambda it, number: it.find(Polygon([(0, 0), (9, number), (4, 9)]), first=number, on=number),
        lambda it, number: it.nearest(number, 0, number),
        lambda it, number: it.count(Circle(0, number, 9), on=[number]),
        lambda it, number: it.find_each([(0, number, 0, 9)]),
        lambda it, number: it.nearest_each([(0, 0)], number),
    ],
)
def test_arguments_that_close_the_table(boxes: Rtfilter, call: Any) -> None:
    with pytest.raises(ValueError, match="^the table was closed$"):
        call(boxes, Closing(boxes))


def test_invalid_queries_among_many(boxes: Rtfilter) -> None:
    sound = [(0, 10, 0, 10)]
    for count in (0, 1, 5, 4095, 4096, 9000):
        for bad, code in (((5, 1, 0, 1), "Q7"), ((0, 2**31, 0, 1), "Q6"), ((0, 1, -(2**40), 1), "Q6")):
            rows = numpy.array(sound * count + [bad] + sound * 3 + [(9, 1, 0, 1)])
            for call in (boxes.find_each, boxes.count_each):
                with pytest.raises(QueryError) as raised:
                    call(rows)
                assert (raised.value.query, raised.value.place, raised.value.code) == (Window(*bad), count, code)
    with pytest.raises(QueryError) as raised:
        boxes.nearest_each([(0, 0), (0, 2**31)], 1)
    assert (raised.value.query, raised.value.place) == (Near(0, 2**31), 1)


def test_no_queries(boxes: Rtfilter) -> None:
    for nothing in ([], numpy.empty((0, 4), "i4")):
        places, ids = boxes.find_each(nothing)
        assert len(places) == len(ids) == len(boxes.count_each(nothing)) == 0
    assert [len(it) for it in boxes.nearest_each([], 3)] == [0, 0, 0]


def test_answers_of_many_may_be_many() -> None:
    count = 3000
    table = Rtfilter.from_bounds(numpy.zeros((count, 4), "i4"))
    places, ids = table.find_each([(0, 0, 0, 0)] * 200)
    assert numpy.array_equal(places, numpy.repeat(numpy.arange(200), count))
    assert numpy.array_equal(ids, numpy.tile(numpy.arange(count), 200))
    places, ids, scores = table.nearest_each([(0, 1)] * 200, count)
    assert len(ids) == 200 * count and scores.dtype == numpy.uint64 and (scores == 1).all()
    counts = table.count_each([(0, 0, 0, 0)] * 5000)
    assert table.find(All()) == [*range(count)] and counts.dtype == numpy.uint64 and (counts == count).all()

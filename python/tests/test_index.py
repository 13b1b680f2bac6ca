"""`Index` answers as the package rtree does, and as plain fractions."""

import math
import random
from fractions import Fraction
from typing import Any

import numpy
import pytest

from rtfilter.index import Index

Box = tuple[float, ...]  # min_x, min_y, max_x, max_y


def some_boxes(chance: random.Random, count: int, unit: float) -> list[Box]:
    """Boxes with many ties."""
    boxes = []
    for _ in range(count):
        x, y = chance.randrange(-20, 20), chance.randrange(-20, 20)
        boxes.append((x * unit, y * unit, (x + chance.randrange(4)) * unit, (y + chance.randrange(4)) * unit))
    return boxes


def turned(box: Box) -> Box:
    return box[0], box[2], box[1], box[3]


def overlap(one: Box, other: Box) -> bool:
    return one[0] <= other[2] and other[0] <= one[2] and one[1] <= other[3] and other[1] <= one[3]


def square(one: Box, other: Box) -> Fraction:
    """The square of the distance, exactly."""
    gaps = [max(Fraction(one[at]) - Fraction(other[at + 2]), Fraction(other[at]) - Fraction(one[at + 2]), Fraction()) for at in (0, 1)]
    return gaps[0] ** 2 + gaps[1] ** 2


def nearest(boxes: dict[int, Box], window: Box, count: int) -> list[int]:
    order = sorted((square(window, box), id) for id, box in boxes.items())
    return [id for far, id in order if far <= order[min(count, len(order)) - 1][0]]


@pytest.mark.parametrize("is_interleaved", [True, False])
@pytest.mark.parametrize("unit", [1.0, 0.1, 1e-9, 3e200, 5e-324])
def test_as_plain_numbers(unit: float, is_interleaved: bool) -> None:
    chance = random.Random(str(unit))
    for count in (0, 1, 3, 50, 400):
        boxes = dict(zip(chance.sample(range(-1000, 1000), count), some_boxes(chance, count, unit)))

        def given(box: Box) -> Box:
            return box if is_interleaved else turned(box)

        index = Index(((id, given(it), None) for id, it in boxes.items()), interleaved=is_interleaved)
        for window in some_boxes(chance, 30, unit):
            met = sorted(id for id, it in boxes.items() if overlap(it, window))
            assert [*index.intersection(given(window))] == met and index.count(given(window)) == len(met)
            inside = [id for id in met if all(a <= b for a, b in zip(window[:2], boxes[id])) and boxes[id][2] <= window[2]]
            inside = [id for id in inside if boxes[id][3] <= window[3]]
            assert [*index.contains(given(window))] == inside
            if boxes:
                k = chance.choice([1, 2, 10, 1000])
                with numpy.errstate(all="raise"):
                    assert [*index.nearest(given(window), k)] == nearest(boxes, window, k)
                assert [*index.nearest(window[:2])] == nearest(boxes, (*window[:2], *window[:2]), 1)
        assert len(index) == count
        low = [min((it[at] for it in boxes.values()), default=math.inf) for at in (0, 1)]
        high = [max((it[at] for it in boxes.values()), default=-math.inf) for at in (2, 3)]
        assert index.bounds == [*given((*low, *high))]


def test_as_rtree() -> None:
    rtree = pytest.importorskip("rtree")
    chance = random.Random(2)
    boxes = some_boxes(chance, 300, 0.1)
    ours, other = Index(enumerate(boxes)), rtree.index.Index(((at, it, None) for at, it in enumerate(boxes)))
    for window in some_boxes(chance, 200, 0.1):
        assert [*ours.intersection(window)] == sorted(other.intersection(window))
        assert [*ours.contains(window)] == sorted(other.contains(window))
        assert ours.count(window) == other.count(window)
        point = (*window[:2], *window[:2])
        assert {*ours.nearest(point, 1)} <= {*other.nearest(point, 3)} or len([*ours.nearest(point, 1)]) > 1
    assert ours.bounds == other.bounds


@pytest.mark.parametrize(
    "make, error",
    [
        (lambda: Index([(1, (0, 0, 1, 1)), (1, (0, 0, 1, 1))]), ValueError),
        (lambda: Index([(1, (1, 0, 0, 1))]), ValueError),
        (lambda: Index([(1, (0, 0, math.inf, 1))]), ValueError),
        (lambda: Index([(1, (0, 0, 1))]), TypeError),
        (lambda: Index([(1, 5)]), TypeError),
        (lambda: Index([(1,)]), ValueError),
        (lambda: Index([(1.5, (0, 0, 1, 1))]), TypeError),
        (lambda: Index([(2**63, (0, 0, 1, 1))]), ValueError),
        (lambda: Index([(1, ("0", "0", "1", "1"))]), TypeError),
        (lambda: Index([(1, (0, 0))]).nearest((0, 0), 0), ValueError),
        (lambda: Index([(1, (0, 0))]).intersection((0, math.nan)), ValueError),
        (lambda: Index([(1, (0, 0))]).intersection((1, 0, 0, 1)), ValueError),
    ],
)
def test_refused(make: Any, error: type[Exception]) -> None:
    with pytest.raises(error):
        make()


def test_boxes_without_numbers() -> None:
    index = Index([(1, (math.nan,) * 4), (2, (0, 0, 1, 2))])
    assert index.bounds == [0, 0, 1, 2] and [*index.nearest((9, 9), 2)] == [2] and len(index) == 2


def test_closed() -> None:
    index = Index([(1, (0, 0))])
    index.close()
    with pytest.raises(ValueError):
        index.intersection((0, 0))

"""Regions and orders are values."""

import pickle
from itertools import permutations
from typing import Any

import pytest

from rtfilter import All, Circle, Covers, Inside, Near, Polygon, QueryError, Smallest, TableError, Window

CORNERS = ((0, 0), (30, 0), (0, 30))
VALUES: list[tuple[Any, str]] = [
    (All(), "all"),
    (Window(1, 2, 3, 4), "window 1 2 3 4"),
    (Inside(1, 2, 3, 4), "inside 1 2 3 4"),
    (Covers(1, 2, 3, 4), "covers 1 2 3 4"),
    (Circle(1, 2, 3), "circle 1 2 3"),
    (Polygon(CORNERS), "polygon 3 0 0 30 0 0 30"),
    (Near(1, 2), "near 1 2"),
    (Smallest(), "smallest"),
]


@pytest.mark.parametrize("value, words", VALUES)
def test_words(value: Any, words: str) -> None:
    assert str(value) == words


@pytest.mark.parametrize("value, _", VALUES)
def test_copies_are_equal(value: Any, _: str) -> None:
    copy = pickle.loads(pickle.dumps(value))
    assert copy == value and not copy != value and hash(copy) == hash(value) and type(copy) is type(value)
    assert value in {copy}
    with pytest.raises(AttributeError):
        value.extra = 1


@pytest.mark.parametrize("one, other", permutations([it for it, _ in VALUES], 2))
def test_kinds_differ(one: Any, other: Any) -> None:
    assert one != other and not one == other


def test_plain_tuples_differ() -> None:
    assert Window(1, 2, 3, 4) != (1, 2, 3, 4) and (1, 2, 3, 4) != Window(1, 2, 3, 4)
    assert All() != () and Smallest() != All()


@pytest.mark.parametrize("region", [Window, Inside, Covers])
def test_from_bounds(region: Any) -> None:
    assert region.from_bounds((0, 5, 10, 15)) == region(0, 10, 5, 15)
    assert region.from_bounds(iter([0, 5, 10, 15]))._asdict() == {"min_x": 0, "max_x": 10, "min_y": 5, "max_y": 15}


def test_vertices_are_kept_as_pairs() -> None:
    listed = [[*it] for it in CORNERS]
    for value in (Polygon(listed), Polygon._make([listed]), Polygon([(0, 0)])._replace(vertices=listed)):  # type: ignore
        assert value == Polygon(CORNERS) and value.vertices == CORNERS


@pytest.mark.parametrize("wrong", [5, [1], [(1, 2, 3)], [(0, 0), 5]])
def test_other_values(wrong: Any) -> None:
    for make, words in ((Polygon, "vertices are pairs"), (Window.from_bounds, "bounds are min_x, min_y, max_x and max_y")):
        with pytest.raises(TypeError, match=words):
            make(wrong)


def test_words_want_whole_numbers() -> None:
    for value in (Window(0, 0.5, 0, 1), Circle(0, 0, 1.0), Near("1", 2), Polygon([(0, 0), (1, 0), (0, 1.5)])):  # type: ignore
        with pytest.raises(TypeError):
            str(value)


def test_an_error_without_a_query() -> None:
    assert str(QueryError(None, None, "Q6", "out of range")) == "Q6 out of range"


@pytest.mark.parametrize("error", [TableError(5, 3, 4), QueryError(Window(1, 0, 0, 1), 7, "Q7", "minimum above maximum")])
def test_errors_are_pickled(error: Exception) -> None:
    copy = pickle.loads(pickle.dumps(error))
    assert type(copy) is type(error) and copy.args == error.args and str(copy) == str(error)

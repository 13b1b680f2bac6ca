"""Points in polygons beside fractions."""

import random
from fractions import Fraction
from itertools import pairwise
from typing import Any

import numpy
import pandas
import pytest

from rtfilter.zones import Zones

Ring = list[tuple[int, int]]


def holds(rings: list[Ring], x: int, y: int) -> bool:
    """Whether a point is on rings, or a ray to the right crosses them an odd number of times, in fractions."""
    crossings = 0
    for ring in rings:
        for (ax, ay), (bx, by) in pairwise(ring):
            if min(ay, by) <= y <= max(ay, by):
                if ay == by:
                    if min(ax, bx) <= x <= max(ax, bx):
                        return True
                    continue
                at = ax + Fraction(y - ay, by - ay) * (bx - ax)
                if at == x:
                    return True
                crossings += at > x and (ay > y) != (by > y)
    return crossings % 2 == 1


def some_ring(chance: random.Random, span: int) -> Ring:
    """A ring, which may cross itself."""
    corners = [(chance.randint(-span, span), chance.randint(-span, span)) for _ in range(chance.randint(3, 8))]
    return [*corners, corners[0]]


def polygon(*rings: Any) -> Any:
    """A polygon of GeoJSON."""
    return {"type": "Polygon", "coordinates": [*rings]}


def several(*parts: Any) -> Any:
    """One of several parts, each a list of rings."""
    return {"type": "MultiPolygon", "coordinates": [*parts]}


def some_polygons(chance: random.Random, span: int) -> list[Any]:
    polygons = []
    for _ in range(chance.randint(1, 12)):
        parts = [[some_ring(chance, span) for _ in range(chance.randint(1, 3))] for _ in range(chance.randint(1, 3))]
        polygons.append(polygon(*parts[0]) if len(parts) == 1 else several(*parts))
    return polygons


def parts_of(polygon: Any) -> Any:
    return polygon["coordinates"] if polygon["type"] == "MultiPolygon" else [polygon["coordinates"]]


@pytest.mark.parametrize("span", [3, 20, 1000, 2**31 - 1])
def test_points_are_decided_as_by_fractions(span: int) -> None:
    chance, held = random.Random(span), 0
    for _ in range(60):
        polygons = some_polygons(chance, span)
        corners = [it for polygon in polygons for part in parts_of(polygon) for ring in part for it in ring]
        points = [(chance.randint(-span, span), chance.randint(-span, span)) for _ in range(30)]
        points += [(min(max(x + chance.randint(-1, 1), -span), span), y) for x, y in chance.choices(corners, k=30)]
        expected = [
            (place, zone)
            for place, point in enumerate(points)
            for zone, polygon in enumerate(polygons)
            if any(holds(part, *point) for part in parts_of(polygon))
        ]
        zones = Zones(polygons)
        places, found = zones.holding_each(points)
        assert [*zip(places.tolist(), found.tolist())] == expected
        assert zones.holding(*points[0]) == [zone for place, zone in expected if place == 0]
        held += len(expected)
    assert held > 1000


def test_beside_shapely() -> None:
    geometry = pytest.importorskip("shapely.geometry")
    chance = random.Random(1)
    polygons = [geometry.Point(chance.randrange(100), chance.randrange(100)).buffer(chance.randint(3, 20), 10) for _ in range(60)]
    rounded = [geometry.Polygon([(round(x), round(y)) for x, y in it.exterior.coords]) for it in polygons]
    points = [(chance.randrange(100), chance.randrange(100)) for _ in range(500)]
    zones = Zones(rounded)
    expected = [(at, zone) for at, it in enumerate(points) for zone, polygon in enumerate(rounded) if polygon.covers(geometry.Point(it))]
    assert [*zip(*(it.tolist() for it in zones.holding_each(points)))] == expected and len(zones) == 60


SQUARE = polygon([(0, 0), (0.25, 0), (0.25, 0.25), (0, 0.25), (0, 0)])
TRIANGLE = polygon([(0, 0), (1, 0), (1, 1), (0, 0)])


def test_scale() -> None:
    zones = Zones([SQUARE], scale=10)  # to 3, since a half is rounded upwards
    assert zones.holding(0.3, 0) == [0] and zones.holding(0.349, 0) == [0] and zones.holding(0.35, 0) == []
    assert [it.tolist() for it in zones.holding_each([(0.1, 0.1), (-0.05, 0), (-0.051, 0)])] == [[0, 1], [0, 0]]
    with pytest.raises(TypeError, match=r"polygons\[0\]: 0.25 isn't a whole number: give scale="):
        Zones([SQUARE])
    with pytest.raises(ValueError, match="scale is above 0, and not"):
        Zones([SQUARE], scale=0)
    with numpy.errstate(all="raise"):  # (whatever the product becomes)
        assert [it.tolist() for it in Zones([SQUARE], scale=1e-5).holding_each([(5e-324, 0)])] == [[0], [0]]
        with pytest.raises(ValueError, match="a coordinate that isn't finite"):
            zones.holding_each([(1.7e308, 0)])


def test_ways_in() -> None:
    whole = polygon([(0, 0, 7), (9, 0, 7), (9, 9, 7), (0, 0, 7)])
    feature = {"type": "Feature", "properties": {}, "geometry": whole}
    given: list[Any] = [[whole], iter([feature]), {"type": "FeatureCollection", "features": [feature]}, whole]
    geopandas = pytest.importorskip("geopandas")
    shape = pytest.importorskip("shapely.geometry").shape(whole)
    frame = geopandas.GeoDataFrame(geometry=[shape])
    for it in [*given, [shape], frame, frame.geometry, numpy.array([shape, None])[:1]]:
        zones = Zones(it)
        assert zones.holding(5, 2) == [0] and zones.holding(2, 5) == [] and len(zones) == 1
    zones = Zones([whole])
    for points in (pandas.DataFrame({"y": [2, 5], "x": [5, 2]}), numpy.array([(2, 5), (5, 2)], [("y", "f8"), ("x", "i4")])):
        assert [it.tolist() for it in zones.holding_each(points)] == [[0], [0]]
    assert Zones([]).holding(0, 0) == [] and len(Zones([])) == 0
    assert [len(it) for it in Zones([whole]).holding_each([])] == [0, 0]


@pytest.mark.parametrize("at", [0, 1, 2])
def test_empty_polygons(at: int) -> None:
    """They hold no point, wherever they stand, and have a place."""
    square = polygon([(0, 0), (9, 0), (9, 9), (0, 9), (0, 0)])
    for empty in (polygon(), several([]), several()):
        polygons = [square, square]
        polygons.insert(at, empty)
        assert Zones(polygons).holding(5, 5) == [it for it in range(3) if it != at] and Zones([empty]).holding(0, 0) == []


@pytest.mark.parametrize(
    "wrong, words",
    [
        (polygon([(0, 0), (9, 0), (9, 9)]), "a ring of 3 positions, and not 4 or more"),
        (polygon([(0, 0), (9, 0), (9, 9), (0, 9)]), "a ring whose last position isn't its first"),
        (polygon([(0, 0), (9, 0), (2**31, 9), (0, 0)]), "a coordinate out of the range of 32 bits"),
        (polygon([(0, 0), (9, 0), (float("nan"), 9), (0, 0)]), "a coordinate that isn't finite"),
        (polygon([(0, 0), (9, 0), (float("inf"), 9), (0, 0)]), "a coordinate that isn't finite"),
        (polygon([(0, 0), "ab", (9, 9), (0, 0)]), "a position isn't a pair of numbers"),
        (polygon([(0,), (9,), (5,), (0,)]), "a position isn't a pair of numbers"),
        (polygon([("0", "0"), ("9", "0"), ("9", "9"), ("0", "0")]), "a position isn't a pair of numbers"),
        ({"type": "Point", "coordinates": (0, 0)}, "Point is no Polygon and no MultiPolygon"),
        (None, "NoneType is no Polygon"),
    ],
)
def test_refused_polygons(wrong: Any, words: str) -> None:
    with pytest.raises(ValueError) as raised:
        Zones([TRIANGLE, wrong])
    assert str(raised.value).startswith(f"polygons[1]: {words}")


def test_refused_points() -> None:
    zones = Zones([TRIANGLE])
    for call, error in (
        (lambda: Zones(5), TypeError),
        (lambda: zones.holding(0.5, 0), TypeError),
        (lambda: zones.holding(2**31, 0), ValueError),
        (lambda: zones.holding(float("nan"), 0), ValueError),
        (lambda: Zones([TRIANGLE], scale=1.5).holding(10**400, 0), ValueError),
        (lambda: zones.holding_each([(0, 1, 2)]), TypeError),
        (lambda: zones.holding_each([(0.5, 1)]), TypeError),
        (lambda: zones.holding_each([("0", "1")]), TypeError),
        (lambda: zones.holding_each(pandas.DataFrame({"x": ["0"], "y": ["1"]})), TypeError),
        (lambda: zones.holding_each([(10**400, 0)]), ValueError),
        (lambda: zones.holding_each(numpy.array([(0, b"1")], object)), TypeError),
        (lambda: zones.holding_each(numpy.ma.array([(0, 1)], mask=[[True, False]])), TypeError),
        (lambda: zones.holding_each(pandas.DataFrame({"x": [0]})), TypeError),
    ):
        with pytest.raises(error):
            call()

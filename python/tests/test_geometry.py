"""Geometries beside shapely, geopandas and plain comparisons of floats."""

import pickle
import random
import warnings
from collections.abc import Callable
from types import SimpleNamespace
from typing import Any

import numpy
import pandas
import pytest

geopandas = pytest.importorskip("geopandas")
shapely = pytest.importorskip("shapely")
from shapely.geometry import LineString, MultiPoint, Point, Polygon, box  # noqa: E402

from rtfilter import geometry  # noqa: E402
from rtfilter.geometry import MIRRORED, STRtree, sjoin  # noqa: E402

pytestmark = pytest.mark.filterwarnings("ignore::DeprecationWarning", "ignore::FutureWarning", "ignore:.*STRtree.*")

Rng = numpy.random.Generator
POOLS: list[Callable[[Rng], Any]] = [  # floats from which bounds are drawn
    lambda it: it.random(30) * 360 - 180,
    lambda it: it.random(20) * 1e-300,
    lambda it: (it.random(20) - 0.5) * 1e300,
    lambda it: it.integers(-5, 5, 30).astype(float),
    lambda it: it.integers(-(2**31), 2**31, 20) * 1.0,
    lambda it: 1e9 + it.random(20) * 1e-6,
    lambda it: numpy.array([0.1, 0.2, 0.3, 0.1 + 0.2, -0.0, 0.0]),
    lambda it: it.normal(size=30) * 10.0 ** it.integers(-8, 8, 30),
    lambda it: numpy.nextafter(it.integers(-3, 3, 20).astype(float), it.choice([-9, 9], 20)),
    lambda it: it.random(25) * 2**31,
    lambda it: it.choice([-1.7e308, 1.7e308, 0.0, 5e-324, 1e-310], 20),
    lambda it: numpy.array([2.0**31, 2.0**31 - 1, -(2.0**31), -(2.0**31) - 1, 0.5]),
]


def some_bounds(chance: Rng, pool: Any, count: int) -> Any:
    drawn = chance.choice(pool, (count, 4))
    return numpy.hstack([numpy.minimum(drawn[:, :2], drawn[:, 2:]), numpy.maximum(drawn[:, :2], drawn[:, 2:])])


def meeting(boxes: Any, windows: Any) -> Any:
    """The pairs that share a point, by comparisons of floats alone."""
    low, high = boxes[None, :, :2], boxes[None, :, 2:]
    found = ((low <= windows[:, None, 2:]) & (windows[:, None, :2] <= high)).all(axis=2)
    return numpy.argwhere(found).T


@pytest.mark.parametrize("pool", range(len(POOLS)))
def test_decimals_are_compared_exactly(pool: int) -> None:
    chance = numpy.random.default_rng(pool)
    pairs = 0
    for trial in range(150):
        drawn = POOLS[pool](chance)
        boxes = some_bounds(chance, drawn, int(chance.integers(0, 60)))
        windows = some_bounds(chance, drawn, int(chance.integers(1, 40)))
        if trial % 3 == 0 and pool != 10:
            windows = numpy.sort(windows.reshape(-1, 2, 2) * chance.choice([1, 2, 1e5]), axis=1).reshape(-1, 4)
        with numpy.errstate(all="raise"):
            found = STRtree.from_bounds(boxes).query_bounds(windows)
        assert numpy.array_equal(found, meeting(boxes, windows).reshape(2, -1))
        pairs += found.shape[1]
    assert pairs > 1000


def test_bounds_by_their_names() -> None:
    frame = pandas.DataFrame({"minX": [0.5, 5], "max_x": [1.5, 6], "min_y": [2.5, 7], "max_y": [3.5, 8], "name": ["a", "b"]})
    fields = numpy.array([(0.5, 2.5, 1.5, 3.5)], [("min_x", "f4"), ("min_y", "f8"), ("max_x", "f8"), ("max_y", "f8")])[["max_y", "min_x", "max_x", "min_y"]]
    for given, bounds in ((frame, (0.5, 2.5, 6, 8)), (fields, (0.5, 2.5, 1.5, 3.5))):
        tree = STRtree.from_bounds(given)
        assert tree.bounds == bounds and tree.query_bounds(given)[:, 0].tolist() == [0, 0]
    masked = numpy.ma.array([(0.0, 0.0, 1.0, 1.0)], mask=[[False, False, True, False]])
    refused: list[tuple[Any, str]] = [
        (frame.drop(columns="max_y"), "bounds: there is no column max_y among minX"),
        (frame.assign(min_x=1), "bounds: the columns minX and min_x are both min_x"),
        (frame.assign(min_y=pandas.Timestamp(0)), "bounds: numbers are datetime64[ns]"),
        (masked, "bounds: a number is masked"),
        ([("0", "0", "1", "1")], "bounds: numbers are <U1"),
        (frame.astype({"max_x": str}), "bounds: '1.5' is no number"),
        (frame.astype({"max_x": object}).replace(1.5, pandas.NA), "bounds: float() argument must be"),
        ([(0, 0, 1, 1), (0, 0, 1)], "bounds: rows of different lengths"),
    ]
    for wrong, words in refused:
        for call in (STRtree.from_bounds, STRtree([]).query_bounds):
            with pytest.raises(TypeError) as raised:
                call(wrong)
            assert words in str(raised.value)


def test_bounds_that_their_caller_changes() -> None:
    bounds = numpy.array([(0.0, 0.0, 1.5, 1.5), (5.0, 5.0, 6.0, 6.0)])
    tree = STRtree.from_bounds(bounds)
    bounds += 100
    assert tree.query_bounds((1.2, 1.2, 1.3, 1.3)).tolist() == [0] and tree.bounds == (0, 0, 6, 6)


def some_geometries(chance: random.Random, count: int) -> list[Any]:
    """Geometries that touch, cross and cover each other, None and empty ones among them."""

    def one() -> Any:
        x, y = chance.randrange(10), chance.randrange(10)
        kinds: list[Callable[[], Any]] = [
            lambda: None,
            Point,
            lambda: Point(x, y),
            lambda: Point(x + chance.random(), y + chance.random()),
            lambda: box(x, y, x + chance.randint(1, 3), y + 2),
            lambda: LineString([(x, y), (x + 2, y - 1)]),
            lambda: Point(x, y).buffer(1.2, 3),
            lambda: MultiPoint([(x, y), (y, x)]),
            lambda: box(x, y, x + 4, y + 4).difference(box(x + 1, y + 1, x + 3, y + 3)),
        ]
        return chance.choices(kinds, [1, 1, 6, 4, 6, 4, 3, 1, 2])[0]()

    return [one() for _ in range(count)]


FRAME = geopandas.GeoDataFrame(geometry=[Point(0, 0)])


def is_there(it: Any) -> bool:
    return it is not None and not it.is_empty


def holds(predicate: str, one: Any, other: Any) -> bool:
    """A predicate by shapely 1.8, which lacks two."""
    if predicate == "contains_properly":
        return bool(one.relate_pattern(other, "T**FF*FF*"))
    return bool(other.covers(one) if predicate == "covered_by" else getattr(one, predicate)(other))


@pytest.mark.parametrize("predicate", [*sorted(MIRRORED), "contains_properly"])
def test_predicates_are_those_of_shapely(predicate: str) -> None:
    chance, pairs = random.Random(predicate), 0
    for _ in range(15):
        held, inputs = some_geometries(chance, 60), some_geometries(chance, 40)
        tree = STRtree(held)
        expected = [
            (at, place)
            for at, one in enumerate(inputs)
            for place, it in enumerate(held)
            if is_there(one) and is_there(it) and holds(predicate, one, it)
        ]
        assert [*zip(*tree.query(inputs, predicate).tolist())] == expected
        assert tree.query(inputs[0], predicate).tolist() == [place for at, place in expected if at == 0]
        pairs += len(expected)
    assert pairs > 20


def test_distances_are_those_of_shapely() -> None:
    chance, equal = random.Random(3), 0
    for trial in range(60):
        held, inputs = some_geometries(chance, chance.choice([0, 1, 5, 60])), some_geometries(chance, 25)
        tree, most = STRtree(held), chance.choice([None, None, 0.5, 2.0])
        nearest, distances, near = [], [], []
        reach = chance.choice([0.0, 1.0, 2.5])
        for at, one in enumerate(inputs):
            known = [(one.distance(it), place) for place, it in enumerate(held) if is_there(it)] if is_there(one) else []
            least = min(known, default=(0.0, 0))[0]
            nearest += [(at, place) for far, place in known if far == least and (most is None or far <= most)]
            distances += [far for far, place in known if far == least and (most is None or far <= most)]
            near += [(at, place) for far, place in known if far <= reach]
        found, fars = tree.query_nearest(inputs, max_distance=most, return_distance=True)
        assert [*zip(*found.tolist())] == nearest and fars.tolist() == distances
        firsts = [*{at: (at, place) for at, place in reversed(nearest)}.values()][::-1]
        assert [*zip(*tree.query_nearest(inputs, max_distance=most, all_matches=False).tolist())] == firsts
        assert tree.query_nearest(inputs[0], max_distance=most).tolist() == [place for at, place in nearest if at == 0]
        assert [*zip(*tree.query(inputs, "dwithin", distance=reach).tolist())] == near
        equal += len(nearest) - len({at for at, _ in nearest})
    assert equal > 100


def test_nearest_of_far_and_near_floats() -> None:
    chance = numpy.random.default_rng(4)
    for scale in (1e-320, 1e-200, 1e-9, 1.0, 1e9, 1e150):
        points = [Point(*it) for it in (chance.random((300, 2)) - 0.5) * scale]
        inputs = [Point(*it) for it in (chance.random((40, 2)) - 0.5) * scale * 1.5]
        with numpy.errstate(all="raise"):
            found = STRtree(points).query_nearest(inputs)
        for at, one in enumerate(inputs):
            known = [one.distance(it) for it in points]
            assert found[1][found[0] == at].tolist() == [place for place, far in enumerate(known) if far == min(known)]


def test_ways_in_and_out() -> None:
    held = [Point(1, 1), None, box(0, 0, 2, 2), Point()]
    frame = geopandas.GeoDataFrame({"n": range(4)}, geometry=held)
    for given in (held, iter(held), frame, frame.geometry, frame.geometry.values, numpy.array([*held, 0], object)[:4]):
        tree = STRtree(given)
        assert len(tree) == 2 and tree.query(Point(1, 1)).tolist() == [0, 2]
        assert tree.query(Point(1, 1), "within").tolist() == [0, 2] and tree.query(None).tolist() == []
        for some in (frame, frame.geometry, frame.geometry.values, held):
            assert tree.query(some).tolist() == [[0, 0, 2, 2], [0, 2, 0, 2]]
    copy = pickle.loads(pickle.dumps(STRtree(held)))
    assert copy.query([Point(1, 1), None], "intersects").tolist() == [[0, 0], [0, 2]]
    copy = pickle.loads(pickle.dumps(STRtree.from_bounds([(0, 0, 1.5, 1.5), (numpy.nan,) * 4])))
    assert copy.query_bounds((1.5, 1.5, 2, 2)).tolist() == [0] and copy.query(Point(1.5, 0)).tolist() == [0]
    assert STRtree([]).query([Point(0, 0)]).tolist() == [[], []] and STRtree([]).query_nearest(Point(0, 0)).tolist() == []


@pytest.mark.parametrize(
    "call, words",
    [
        (lambda it: it.query(Point(0, 0), "near"), "'near' is no predicate; there are contains, contains_properly, covered_by, covers,"),
        (lambda it: it.query(Point(0, 0), "dwithin"), "a distance goes with the predicate dwithin"),
        (lambda it: it.query(Point(0, 0), distance=3), "a distance goes with the predicate dwithin"),
        (lambda it: it.query_nearest(Point(0, 0), max_distance=0), "max_distance is above 0"),
        (lambda it: it.query_bounds((0, 0, numpy.inf, 1)), "bounds: infinite bounds at place 0"),
        (lambda it: it.query_bounds((0, 0, 10**400, 1)), "bounds: a number is out of the range of floats"),
        (lambda it: STRtree.from_bounds([(0, 0, 1, 1), (0, -numpy.inf, 1, 1)]), "bounds: infinite bounds at place 1"),
        (lambda it: STRtree.from_bounds([(0, 0, 1, 1), (0, 2, 1, 1)]), "bounds: a minimum above its maximum at place 1"),
        (lambda it: STRtree.from_bounds([(0, 0, 1, 1)]).query_nearest(Point(0, 0)), "has no geometries"),
        (lambda it: sjoin(FRAME, FRAME, how="outer"), "how is inner, left or right, and not 'outer'"),
    ],
)
def test_refused(call: Any, words: str) -> None:
    with pytest.raises(ValueError) as raised:
        call(STRtree([Point(0, 0)]))
    assert words in str(raised.value)


@pytest.mark.parametrize(
    "call, words",
    [
        (lambda: STRtree.from_bounds([(0, 0, 1)]), "bounds: the shape is (1, 3), and not (n, 4)"),
        (lambda: STRtree(5), "geometries are an array, a series, a frame or a list, and not 5"),
        (lambda: STRtree([None, 5]), "geometries[1]: 5 is no geometry"),
        (lambda: STRtree([FRAME.geometry]), "geometries[0]: "),
        (lambda: sjoin(FRAME.geometry, FRAME), "left is a GeoDataFrame, and not GeoSeries"),
        (lambda: sjoin(FRAME, []), "right is a GeoDataFrame, and not list"),
    ],
)
def test_other_types(call: Any, words: str) -> None:
    with pytest.raises(TypeError) as raised:
        call()
    assert str(raised.value).startswith(words)


@pytest.mark.parametrize("how", ["inner", "left", "right"])
@pytest.mark.parametrize("predicate", ["intersects", "within", "contains"])
def test_joins_are_those_of_geopandas(how: str, predicate: str) -> None:
    chance, pairs = random.Random(f"{how} {predicate}"), 0
    plain, levels = range(100, 130), pandas.MultiIndex.from_tuples([(it // 2, it % 2) for it in range(40)], names=["p", "q"])
    indexes: list[tuple[Any, Any]] = [
        ([*range(40)], plain),
        ([f"row{it}" for it in range(40)], plain),
        ([it // 2 for it in range(40)], pandas.Index(plain, name="own")),
        (levels, plain),
        ([*range(40)], levels[:30]),
        (levels, levels[:30]),
    ]
    for index, other in indexes:
        columns = {"n": range(40), "a": 1.5, "n_right": 7, "kind": pandas.Categorical(["p", "q"] * 20)}
        left = geopandas.GeoDataFrame(columns, geometry=some_geometries(chance, 40), index=index, crs=4326)
        columns = {"n": range(30), "b": "x", "some": pandas.array([1, None] * 15, "Int64"), "sort": pandas.Categorical(["r", "s", "t"] * 10)}
        right = geopandas.GeoDataFrame(columns, geometry=some_geometries(chance, 30), index=other, crs=4326)
        with warnings.catch_warnings():
            warnings.simplefilter("ignore")
            expected = geopandas.sjoin(left, right, how=how, predicate=predicate)
        found = sjoin(left, right, how=how, predicate=predicate)
        assert [*found.columns] == [*expected.columns] and type(found) is type(expected)
        for one, other in zip(found.dtypes, expected.dtypes, strict=True):
            assert one == other or how == "right" and {one.kind, other.kind} == {"i", "f"}  # (geopandas makes floats of a second n_right)
        assert listed(found) == listed(expected)
        assert found.geometry.name == expected.geometry.name and found.crs == expected.crs
        pairs += len(found)
    assert pairs > 10


def test_names_of_indexes(monkeypatch: pytest.MonkeyPatch) -> None:
    """geopandas 1 keeps those that there are."""
    monkeypatch.setattr(geopandas, "__version__", "1.0.1")
    frame = geopandas.GeoDataFrame({"n": [1]}, geometry=[Point(0, 0)])
    indexes: list[tuple[Any, list[str]]] = [
        (pandas.Index([3], name="own"), ["own"]),
        (pandas.Index([3]), ["index_right"]),
        (pandas.MultiIndex.from_tuples([(1, 2)], names=["p", None]), ["p", "index_right1"]),
    ]
    for index, names in indexes:
        assert [*sjoin(frame, frame.set_index(index))] == ["n_left", "geometry", *names, "n_right"]
    assert [*sjoin(frame, frame.set_index("n"))] == ["n_left", "geometry", "n_right"]


def test_a_column_that_is_called_as_the_geometry() -> None:
    """The geometry gets a suffix as other columns do, and stays that of the frame."""
    other = FRAME.rename_geometry("shape").assign(geometry=7)
    for joined, name in ((sjoin(FRAME, other), "geometry_left"), (sjoin(other, FRAME, how="right"), "geometry_right")):
        assert {"geometry_left", "geometry_right"} < {*joined.columns} and joined.geometry.name == name and joined.geometry[0] == Point(0, 0)


def listed(frame: Any) -> list[str]:
    """The rows of a frame, in any order: pandas has None and NaN for what is missing."""
    rows = zip(frame.index, *(frame.iloc[:, at] for at in range(frame.shape[1])))
    return sorted(" ".join("-" if it is None or it is pandas.NA or it != it else str(it) for it in row) for row in rows)


def test_frames_with_different_crs() -> None:
    left = geopandas.GeoDataFrame(geometry=[Point(0, 0)], crs=4326)
    with pytest.warns(UserWarning, match="different CRS"):
        assert len(sjoin(left, geopandas.GeoDataFrame(geometry=[Point(0, 0)], crs=3857))) == 1


@pytest.mark.parametrize("predicate", ["touches", "crosses", "overlaps"])
def test_geometries_that_shapely_refuses(predicate: str) -> None:
    """Its own error says why."""
    one, other = Polygon([(3, 2), (5, 4), (5, 2), (3, 4)]), Polygon([(4, 3), (6, 5), (6, 3), (4, 5)])
    with pytest.raises(Exception, match="invalid") as expected:
        getattr(one, predicate)(other)
    with pytest.raises(expected.type, match="invalid"):
        STRtree([one]).query(other, predicate)


def test_the_calls_of_shapely_2(monkeypatch: pytest.MonkeyPatch) -> None:
    """A stand-in for the functions of shapely 2 that are called, over shapely 1.8; they take arrays."""
    prepared: list[int] = []

    def bounds(geometries: Any) -> Any:
        return numpy.array([it.bounds if is_there(it) else (numpy.nan,) * 4 for it in geometries], float).reshape(-1, 4)

    def named(name: str) -> Any:
        def call(some: Any, others: Any) -> Any:
            assert some.dtype == others.dtype == object and some.shape == others.shape
            if name == "distance":
                return numpy.array([one.distance(other) for one, other in zip(some, others)])
            return numpy.array([holds(name, one, other) for one, other in zip(some, others)], bool)

        return call

    stand_in = SimpleNamespace(bounds=bounds, prepare=lambda it: prepared.append(len(it)), distance=named("distance"))
    for name in (*MIRRORED, "contains_properly"):
        setattr(stand_in, name, named(name))
    chance = random.Random(8)
    held, inputs = some_geometries(chance, 60), some_geometries(chance, 40)
    calls: list[Callable[[STRtree], Any]] = [lambda it: it.query(inputs), lambda it: it.query_nearest(inputs, return_distance=True)]
    calls += [lambda it, name=name: it.query(inputs, name) for name in (*MIRRORED, "contains_properly")]  # type: ignore[misc]
    calls += [lambda it: it.query(inputs, "dwithin", distance=1.5), lambda it: it.query_nearest(inputs, max_distance=1.0)]
    expected = [call(STRtree(held)) for call in calls]
    monkeypatch.setattr(geometry, "shapely", stand_in)
    monkeypatch.setattr(geometry, "IS_TWO", True)
    for call, it in zip(calls, expected):
        for one, other in zip(call(STRtree(held)), it, strict=True):
            assert numpy.array_equal(one, other)
    assert len(prepared) == len(MIRRORED) + 1


def test_polygons_of_other_libraries_are_kept_as_they_are() -> None:
    ring = Polygon([(0, 0), (3, 0), (0, 3)])
    tree = STRtree([ring])
    assert tree.geometries is not None and tree.geometries[0] is ring

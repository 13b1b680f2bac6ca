"""Tables in dask's workers answer as one table does."""

import os
import pickle
import random
from collections.abc import Iterator
from pathlib import Path
from typing import Any

import numpy
import pandas
import pytest

from rtfilter import Circle, Covers, Inside, Near, QueryError, Rtfilter, Smallest, Window

dask = pytest.importorskip("dask")
dataframe = pytest.importorskip("dask.dataframe")
from rtfilter.dask import Boxes, Table, WholePart, size_of, spatial_shuffle  # noqa: E402

SIDES = ["min_x", "max_x", "min_y", "max_y"]
SEEDS = 4
FAR = 2**31 - 1


@pytest.fixture(autouse=True)
def in_threads() -> Iterator[None]:
    with dask.config.set(scheduler="threads", num_workers=2):
        yield


def frame_of(chance: random.Random, count: int, span: int = 40) -> pandas.DataFrame:
    """Boxes with many ties, with an index that isn't their id, and a column of their own."""
    low = numpy.array([(chance.randint(-span, span), chance.randint(-span, span)) for _ in range(count)], "i8").reshape(-1, 2)
    size = numpy.array([(chance.randint(0, 5), chance.randint(0, 5)) for _ in range(count)], "i8").reshape(-1, 2)
    high = low + size
    columns = {"min_x": low[:, 0], "max_x": high[:, 0], "min_y": low[:, 1], "max_y": high[:, 1]}
    ids = chance.sample(range(-1000, 1000), count)
    layers = [chance.choice([0, 1, 63]) for _ in range(count)]
    found = pandas.DataFrame({**columns, "id": ids, "layer": layers}, index=range(7, 7 + count), dtype="i8")
    return found.assign(name=[f"box {it}" for it in ids])


def queries_of(chance: random.Random, count: int) -> pandas.DataFrame:
    frame = frame_of(chance, count)[SIDES]
    frame["x"], frame["y"], frame["radius"] = frame["min_x"], frame["min_y"], [chance.choice([0, 4, 30]) for _ in range(count)]
    frame.index = pandas.Index([f"query {at // 2}" for at in range(count)], name="query")  # not distinct
    return frame


def rows_of(frame: pandas.DataFrame) -> Any:
    return frame[["id", *SIDES, "layer"]].to_numpy()


def expected(one: Rtfilter, queries: pandas.DataFrame, region: type = Window, **options: Any) -> list[tuple[Any, int]]:
    columns = ["x", "y", "radius"] if region is Circle else SIDES
    places, ids = one.find_each(queries[columns].to_numpy(), region=region, **options)
    return [*zip(queries.index[places], ids.tolist())]


def listed(frame: Any) -> list[tuple[Any, ...]]:
    return [*frame.compute().itertuples(name=None)]


@pytest.mark.parametrize("kind", ["table", "partitions"])
@pytest.mark.parametrize("seed", range(SEEDS))
def test_queries(kind: str, seed: int, tmp_path: Path) -> None:
    chance = random.Random(seed)
    boxes, queries = frame_of(chance, chance.choice([0, 1, 200])), queries_of(chance, 60)
    partitioned = dataframe.from_pandas(queries, npartitions=3, sort=False)
    one = Rtfilter(rows_of(boxes))
    if kind == "table":
        file = tmp_path / "boxes.csv"
        boxes[["id", *SIDES, "layer"]].to_csv(file, header=False, index=False)
        tables: Any = pickle.loads(pickle.dumps(Table(file)))
    else:
        frame = dataframe.from_pandas(boxes, npartitions=2, sort=False)
        tables = Boxes(spatial_shuffle(frame, chance.choice([1, 2, 5, 7])))
    orders: list[dict[str, Any]] = [{}, {"order": Near(3, 4), "first": 5}, {"order": Smallest(), "first": 3, "on": 1}, {"first": 2}, {"on": [0, 63]}, {"order": Near(0, 0)}]
    for region in (Window, Inside, Covers, Circle):
        for options in orders:
            assert listed(tables.query(partitioned, region, **options)) == expected(one, queries, region, **options)
        columns = ["x", "y", "radius"] if region is Circle else SIDES
        counts = one.count_each(queries[columns].to_numpy(), region=region).tolist()
        assert [*tables.count(partitioned, region).compute().items()] == [*zip(queries.index, counts)]
    for k in (0, 1, 4, 1000):
        places, ids, scores = one.nearest_each(queries[["x", "y"]].to_numpy(), k)
        assert listed(tables.nearest(partitioned, k)) == [*zip(queries.index[places], ids.tolist(), scores.tolist())]


def test_the_index_of_answers(tmp_path: Path) -> None:
    """It is that of the queries, by its name too, before anything is computed."""
    chance = random.Random(3)
    boxes, queries = frame_of(chance, 50), dataframe.from_pandas(queries_of(chance, 20), npartitions=2, sort=False)
    (tmp_path / "boxes.csv").write_text("".join(f"{','.join(map(str, it))}\n" for it in rows_of(boxes).tolist()))
    for tables in (Table(tmp_path / "boxes.csv"), Boxes(dataframe.from_pandas(boxes, npartitions=2))):
        for found, names in ((tables.query(queries), ["id"]), (tables.nearest(queries, 2), ["id", "score"]), (tables.count(queries), ["count"])):
            flat = found.reset_index()
            assert [*flat.columns] == [*flat.compute().columns] == ["query", *names]


def test_layers_that_are_read_once() -> None:
    chance = random.Random(4)
    boxes, queries = frame_of(chance, 90), queries_of(chance, 30)
    tables, partitioned = Boxes(dataframe.from_pandas(boxes, npartitions=2)), dataframe.from_pandas(queries, npartitions=3, sort=False)
    pairs = expected(Rtfilter(rows_of(boxes)), queries, on=[1, 63])
    assert listed(tables.query(partitioned, on=iter([1, 63]))) == pairs
    assert tables.count(partitioned, on=(it for it in (1, 63))).compute().sum() == len(pairs) == len(tables.join(partitioned, on=iter([1, 63])).compute())


def test_scores_of_65_bits() -> None:
    boxes = pandas.DataFrame([(at, x, x, x, x) for at, x in enumerate([-FAR - 1, FAR, 0, 1])], columns=["id", *SIDES])
    points = dataframe.from_pandas(pandas.DataFrame({"x": [FAR, 0], "y": [FAR, 0]}), npartitions=1)
    found = Boxes(dataframe.from_pandas(boxes, npartitions=2)).nearest(points, 4)
    one = Rtfilter(boxes)
    assert [it[1:] for it in listed(found)] == one.nearest(4, FAR, FAR) + one.nearest(4, 0, 0)


def test_ids_are_never_wrapped() -> None:
    for sides in ([0, 1, 0, 1], [0.5, 1, 0.5, 1]):
        rows = [[7, *sides], [5, *sides]]
        queries = dataframe.from_pandas(pandas.DataFrame([sides], columns=SIDES), npartitions=1)
        for ids, kind in (([2**63 - 1, -(2**63)], "i8"), ([2**63 - 1, 5], "u8"), ([2**63 - 1, 5], object), ([2**63 - 1, 5], "Int64")):
            boxes = pandas.DataFrame(rows, columns=["id", *SIDES]).assign(id=pandas.Series(ids, dtype=kind))
            assert [it for _, it in listed(Boxes(dataframe.from_pandas(boxes, npartitions=1)).query(queries))] == sorted(ids)
        for ids, kind, error in (([7, 2**63], "u8", ValueError), ([7, 2**63], object, ValueError), ([7, 5.5], "f8", TypeError), ([7, "5"], object, TypeError)):
            boxes = pandas.DataFrame(rows, columns=["id", *SIDES]).assign(id=pandas.Series(ids, dtype=kind))
            with pytest.raises(error):
                Boxes(dataframe.from_pandas(boxes, npartitions=1))


def test_join() -> None:
    chance = random.Random(5)
    boxes, queries = frame_of(chance, 150), queries_of(chance, 30)
    tables = Boxes(spatial_shuffle(dataframe.from_pandas(boxes, npartitions=3, sort=False), 4))
    joined = tables.join(dataframe.from_pandas(queries, npartitions=2, sort=False))
    found = joined.compute()
    assert list(joined.columns) == list(found.columns) == [*queries.columns, *(f"{it}_right" for it in SIDES), "id", "layer", "name"]
    assert [*zip(found.index, found["id"])] == expected(Rtfilter(rows_of(boxes)), queries)
    assert (found["name"] == "box " + found["id"].astype(str)).all()
    own = boxes.set_index("id").loc[found["id"]]
    assert (found[[f"{it}_right" for it in SIDES]].to_numpy() == own[SIDES].to_numpy()).all()


def test_floats_and_geometries() -> None:
    geopandas = pytest.importorskip("geopandas")
    from shapely.geometry import box

    chance = random.Random(6)
    floats = frame_of(chance, 120)
    floats[SIDES] = floats[SIDES] / 8
    queries = queries_of(chance, 40) / 8.0
    partitioned = dataframe.from_pandas(queries, npartitions=2, sort=False)
    tables = Boxes(spatial_shuffle(dataframe.from_pandas(floats, npartitions=3, sort=False), 4))
    scaled = floats[SIDES].mul(8).astype("i8").assign(id=floats["id"], layer=0)
    pairs = expected(Rtfilter(rows_of(scaled)), queries.mul(8).astype("i8"))
    assert listed(tables.query(partitioned)) == pairs
    assert tables.count(partitioned).compute().sum() == len(pairs)
    shapes = [box(*it) for it in floats[["min_x", "min_y", "max_x", "max_y"]].to_numpy()]
    shaped = geopandas.GeoDataFrame(floats[["id", "name"]], geometry=[*shapes[:-2], None, shapes[-1]])
    others = geopandas.GeoDataFrame({"at": range(40)}, geometry=[box(*it) for it in queries[["min_x", "min_y", "max_x", "max_y"]].to_numpy()])
    parts = [dask.delayed(lambda it: it)(shaped.iloc[at::3]) for at in range(3)]
    frame = dataframe.from_delayed(parts, meta=shaped.iloc[:0])
    tables = Boxes(spatial_shuffle(frame, 3))
    partitioned = dataframe.from_delayed([dask.delayed(lambda: others)()], meta=others.iloc[:0])
    for predicate in ("intersects", "contains", "touches"):
        joined = tables.join(partitioned, predicate=predicate).compute()
        same = geopandas.sjoin(others, shaped, predicate=predicate)
        assert sorted(zip(joined["at"], joined["id"])) == sorted(zip(same["at"], same["id"])) and "geometry" in joined
        assert len(tables.query(partitioned, predicate=predicate).compute()) == len(joined) == tables.count(partitioned, predicate=predicate).compute().sum()
    with pytest.raises(TypeError):
        tables.nearest(partitioned, 3)
    refused: list[dict[str, Any]] = [{"region": Inside}, {"first": 3}, {"order": Smallest()}, {"on": 1}]
    for options in refused:
        with pytest.raises(TypeError):
            tables.query(partitioned, **options)
    for call in (tables.query, tables.count, tables.join):
        with pytest.raises(ValueError, match="'near' is no predicate"):
            call(partitioned, predicate="near")


def test_a_file_that_has_changed(tmp_path: Path) -> None:
    file = tmp_path / "boxes.csv"
    file.write_text("1,0,1,0,1\n")
    before = Table(file)
    pickled = pickle.dumps(before)
    assert before.table.count(Window(0, 9, 0, 9)) == 1 and before.table is pickle.loads(pickled).table
    queries = dataframe.from_pandas(queries_of(random.Random(1), 5), npartitions=2, sort=False)
    names = [it.query(queries, first=first).dask.layers.keys() for it in (before, Table(file)) for first in (1, 2)]
    assert names[:2] == names[2:] and names[0] != names[1]  # (so that dask computes equal queries once)
    file.write_text("1,0,1,0,1\n2,0,1,0,1\n")
    after = Table(file)
    assert len(after.table) == 2 and after.query(queries, first=1).dask.layers.keys() not in names
    with pytest.raises(ValueError, match="has changed"):
        pickle.loads(pickled).table
    os.remove(file)
    with pytest.raises(FileNotFoundError):
        Table(file)
    with pytest.raises(FileNotFoundError):
        pickle.loads(pickled).table


def test_what_is_refused(tmp_path: Path) -> None:
    boxes = frame_of(random.Random(7), 20)
    tables = Boxes(dataframe.from_pandas(boxes, npartitions=2))
    turned = dataframe.from_pandas(pandas.DataFrame([[5, 1, 0, 1]], columns=SIDES), npartitions=1)
    with pytest.raises(QueryError):
        tables.query(turned).compute()
    refused: list[tuple[Any, dict[str, Any]]]
    refused = [(turned[SIDES[:3]], {}), (turned, {"predicate": "touches"}), (turned, {"region": Circle})]
    for frame, options in refused:
        with pytest.raises(TypeError):  # before anything is computed
            tables.query(frame, **options)
    with pytest.raises(TypeError):
        tables.nearest(turned, 3)
    frame, points = dataframe.from_pandas(boxes, npartitions=2), dataframe.from_pandas(pandas.DataFrame({"x": [1]}), npartitions=1)
    wrong: list[tuple[Any, type[Exception], str]] = [
        (lambda: Boxes(boxes), TypeError, "frame is a dask dataframe, and not DataFrame"),
        (lambda: tables.query(boxes), TypeError, "frame is a dask dataframe, and not DataFrame"),
        (lambda: tables.count(boxes), TypeError, "frame is a dask dataframe, and not DataFrame"),
        (lambda: tables.nearest(points, 3), TypeError, "points: there is no column y among x"),
        (lambda: Boxes(frame.drop(columns="id")), TypeError, "frame: there is no column id among min_x"),
        (lambda: Boxes(frame.drop(columns="max_y")), TypeError, "frame: there is no column max_y among min_x"),
        (lambda: spatial_shuffle(frame.drop(columns="min_x"), 2), TypeError, "frame: there is no column min_x among max_x"),
        (lambda: spatial_shuffle(frame, 0), ValueError, "partitions are 1 or more, and not 0"),
        (lambda: tables.join(turned.assign(min_x_right=7)), ValueError, "two columns are called min_x_right"),
        (lambda: Boxes(frame.assign(min_x="7")), TypeError, "bounds: '7' is no number"),
    ]
    for call, error, words in wrong:
        with pytest.raises(error, match=words):
            call()
    part = WholePart(boxes)
    again = pickle.loads(pickle.dumps(part))
    assert again.frame.equals(part.frame) and again.bounds == part.bounds and size_of(part) > 36 * 20


@pytest.mark.parametrize("has_gaps", [False, True])
def test_partitions_are_compact(has_gaps: bool) -> None:
    """Also with boxes that have no numbers."""
    chance = numpy.random.default_rng(8)
    low = chance.integers(0, 10**6, (20_000, 2))
    boxes = pandas.DataFrame({"id": range(20_000), "min_x": low[:, 0], "max_x": low[:, 0] + 9, "min_y": low[:, 1], "max_y": low[:, 1] + 9})
    if has_gaps:
        boxes[SIDES] = boxes[SIDES].where(boxes["id"] % 100 > 0)
    shuffled = spatial_shuffle(dataframe.from_pandas(boxes, npartitions=5), 6)
    parts = [it.compute() for it in shuffled.to_delayed()]
    assert len(parts) == 6 and sorted(pandas.concat(parts)["id"]) == [*range(20_000)]
    assert [*parts[0].columns] == [*boxes.columns]
    for part in parts:
        assert 3000 < len(part) < 3700
        assert (part["max_x"].max() - part["min_x"].min()) * (part["max_y"].max() - part["min_y"].min()) < 1.3 * 10**12 / 6

"""roads.py finds the lines that a scan of all lines finds, in its order, as far as pyproj says."""

import csv
import io
import json
import random
import subprocess
import sys
from pathlib import Path
from typing import Any

import pytest
from support import LONGEST, ROOT, environment, printed

pytest.importorskip("numpy")
pyproj = pytest.importorskip("pyproj")
geometry = pytest.importorskip("shapely.geometry")
ops = pytest.importorskip("shapely.ops")

ROADS = ROOT / "examples/roads.py"
Row = dict[str, str]


def line(id: Any, *paths: Any, **properties: Any) -> dict[str, Any]:
    """A feature of GeoJSON: a LineString, or of several paths a MultiLineString."""
    kind, coordinates = ("LineString", paths[0]) if len(paths) == 1 else ("MultiLineString", paths)
    feature = {"type": "Feature", "properties": properties, "geometry": {"type": kind, "coordinates": coordinates}}
    return feature if id is None else {**feature, "id": id}


def run(folder: Path, features: list[Any] | str, positions: str, *options: str) -> subprocess.CompletedProcess[str]:
    """A run over features, or over a file of lines with this text."""
    lines, records = folder / "lines.geojson", folder / "positions.csv"
    lines.write_text(features if isinstance(features, str) else json.dumps({"type": "FeatureCollection", "features": features}))
    records.write_text(positions)
    words = [sys.executable, str(ROADS), *options, str(lines), str(records)]
    return subprocess.run(words, env=environment(), capture_output=True, text=True, timeout=LONGEST)


def rows(folder: Path, features: list[dict[str, Any]], positions: str, *options: str) -> list[Row]:
    done = run(folder, features, positions, *options)
    assert (done.returncode, done.stderr) == (0, "")
    return list(csv.DictReader(io.StringIO(done.stdout)))


def some_lines(chance: random.Random, count: int) -> list[dict[str, Any]]:
    """Short and long ones, and some of two parts, about a place of 48 degrees north."""
    features = []
    for id in range(count):
        paths = []
        for _ in range(chance.choice([1, 1, 2])):
            x, y, reach = chance.uniform(16, 16.4), chance.uniform(48, 48.2), chance.choice([0.002, 0.02, 0.3])
            paths.append([(x + chance.uniform(-reach, reach), y + chance.uniform(-reach, reach)) for _ in range(chance.randint(2, 6))])
        features.append(line(id, *paths))
    return features


@pytest.mark.parametrize("crs", ["EPSG:3857", "EPSG:32633"])
def test_as_a_scan(crs: str, tmp_path: Path) -> None:
    """Of lines that are as near the one that comes first in the file; the metres are those of a geodesic."""
    chance = random.Random(1)
    features = some_lines(chance, 120)
    features += [{**it, "id": 120 + at} for at, it in enumerate(features[:10])]  # as near as those of before
    places = [(chance.uniform(15.9, 16.5), chance.uniform(47.9, 48.3)) for _ in range(60)]
    to_plane = pyproj.Transformer.from_crs("EPSG:4326", crs, always_xy=True)
    in_plane = [ops.transform(to_plane.transform, geometry.shape(it["geometry"])) for it in features]
    text = "longitude,latitude\n" + "".join(f"{x!r},{y!r}\n" for x, y in places)
    for k in (1, 3, 200):
        found = rows(tmp_path, features, text, "--nearest", str(k), "--crs", crs)
        kept = min(k, len(features))
        for at, (x, y) in enumerate(places):
            point = geometry.Point(to_plane.transform(x, y))
            nearest = sorted(range(len(features)), key=lambda it: (in_plane[it].distance(point), it))[:kept]
            own = found[at * kept : (at + 1) * kept]
            assert [int(it["nearest_line"]) for it in own] == nearest
            assert [int(it["nearest_rank"]) for it in own] == [*range(1, kept + 1)]
            for it in own[:3]:
                foot = float(it["nearest_longitude"]), float(it["nearest_latitude"])
                assert in_plane[int(it["nearest_line"])].distance(geometry.Point(to_plane.transform(*foot))) < 0.05
                metres = pyproj.Geod(ellps="WGS84").inv(x, y, *foot)[2]
                assert abs(metres - float(it["nearest_metres"])) < 0.05


def test_records(tmp_path: Path) -> None:
    """They are written again as they are, in their order; a line without an id has its place, one without a name none."""
    features = [line(None, [(0, 0), (1, 0)]), line("b", [(0, 1), (1, 1)], name="Lane")]
    text = '\ufeffid,y,"a ""note""",x\n' + "".join(f'{at},0.75,"b,\n""",0.5\n' for at in range(2500))
    found = rows(tmp_path, features, text, "--columns", "x,y", "--nearest", "2")
    assert [it["id"] for it in found] == [str(at) for at in range(2500) for _ in range(2)]
    assert {it['a "note"'] for it in found} == {'b,\n"'}
    assert [(it["nearest_line"], it["nearest_name"]) for it in found[:2]] == [("b", "Lane"), ("0", "")]
    assert rows(tmp_path, [], text, "--columns", "x,y") == []


def test_refusals(tmp_path: Path) -> None:
    for positions, options, why in (
        ("longitude,latitude\n0,91\n", [], "outside of the plane"),
        ("longitude,latitude\nx,1\n", [], "roads.py: no number in field 1 of x,1"),
        ("longitude,latitude\n1\n", [], "roads.py: no number in field 2 of 1"),
        (f"longitude,latitude\n1,{'1' * 200_000}\n", [], "roads.py: field larger than field limit (131072)"),
        ("x,y\n1,1\n", [], "positions.csv: it has no columns longitude,latitude: give --columns X,Y"),
        ("longitude,latitude\n1,1\n", ["--crs", "x"], "roads.py: Invalid projection: x: (Internal Proj Error: proj_create: unrecognized format / unknown name)"),
        ("longitude,latitude\n1,1\n", ["--nearest", "-1"], "argument --nearest: 1 or more"),
    ):
        assert_refused(run(tmp_path, [line(1, [(0, 0), (1, 1)])], positions, *options), why)
    some = line(1, [(0, 0), (1, 1)])
    for features in ([{**some, "geometry": None}], [{}], [5], [some, line(2, [])], [{**some, "geometry": {"type": "x"}}], "[", "[" * 100_000):
        assert_refused(run(tmp_path, features, "longitude,latitude\n1,1\n"), "lines.geojson: no FeatureCollection of lines")


def assert_refused(done: subprocess.CompletedProcess[str], why: str) -> None:
    assert done.returncode != 0 and done.stderr.splitlines()[-1].endswith(why) and "Traceback" not in done.stderr


def test_page() -> None:
    examples = [*printed(ROOT / "docs/roads.md", "roads.py")]
    assert len(examples) > 1
    for command, shown, found in examples:
        assert found == shown, command

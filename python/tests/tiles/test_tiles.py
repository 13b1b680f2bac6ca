"""Tiles and views hold the boxes that the program finds in their windows, and cost little."""

import csv
import json
import random
import re
import subprocess
import tempfile
import unittest
from pathlib import Path

from support import LONGEST, ROOT, wants
from tiles_support import HOSTILE_LAYER, HOSTILE_NAME, Mapped, Server, ids_of, large_map, make_map, number_of, replies_of

from rtfilter.tiles.mercator import DEEPEST, HALF, cells_of, cuts, window_of

MILLION = 1_000_000
COPIES = 10  # of a map: to make one of a million boxes takes too long
MOST_SECONDS = 0.05  # of processor time, for a view of a million boxes
VIEWS = 40
FEATURE = re.compile(r"^OGRFeature\((.*)\):\d+\n((?:.+\n)*)", re.MULTILINE)
PROPERTY = re.compile(r"^  (\w+) \(\w+\) = (.*)$", re.MULTILINE)
POLYGON = re.compile(r"^  POLYGON \(\((.*)\)\)$", re.MULTILINE)


class TileAddresses(unittest.TestCase):
    def test_tiles_part_the_world(self) -> None:
        for z in (0, 1, 2, 5):
            windows = [window_of(z, x, 0) for x in range(1 << z)]
            self.assertEqual([windows[0][0], windows[-1][1]], [-HALF, HALF])
            self.assertTrue(all(one[1] + 1 == other[0] for one, other in zip(windows, windows[1:])))
            windows = [window_of(z, 0, y) for y in range(1 << z)]
            self.assertEqual([windows[0][3], windows[-1][2]], [HALF, -HALF])
            self.assertTrue(all(one[2] - 1 == other[3] for one, other in zip(windows, windows[1:])))

    def test_cells_part_an_interval(self) -> None:
        chance = random.Random(1)
        for _ in range(1000):
            low, parts = chance.randint(-100, 100), chance.randint(1, 20)
            high = low + chance.randint(-1, 60)
            numbers = [number for first, last in cuts(low, high, parts) for number in range(first, last + 1)]
            self.assertEqual(numbers, [*range(low, high + 1)])
            self.assertEqual(len(cuts(low, high, parts)), min(parts, high - low + 1))


class Tiles(Mapped):
    """Tiles, read by GDAL."""

    folder: str

    @classmethod
    def setUpClass(cls) -> None:
        wants("ogrinfo")
        super().setUpClass()
        cls.folder = cls.enterClassContext(tempfile.TemporaryDirectory())

    def features(
        self, z: int, x: int, y: int, query: str = "", server: Server | None = None
    ) -> list[tuple[str, dict[str, str], list[float]]]:
        """The features of a tile: the name of the layer, the properties, and the least box in metres."""
        reply, body = (server or self.server).get(f"/{z}/{x}/{y}.pbf{query}")
        if reply.status == 204:
            self.assertEqual(body, b"")
            return []
        self.assertEqual((reply.status, reply.headers["Content-Type"]), (200, "application/vnd.mapbox-vector-tile"))
        file = Path(self.folder, f"{y}.pbf")
        file.write_bytes(body)
        options = [word for option in (f"X={x}", f"Y={y}", f"Z={z}", "CLIP=NO") for word in ("-oo", option)]
        words = ["ogrinfo", "-ro", "-al", *options, f"MVT:{file}"]
        text = subprocess.run(words, check=True, capture_output=True, text=True, timeout=30).stdout
        return [(layer, dict(PROPERTY.findall(lines)), box_of(lines)) for layer, lines in FEATURE.findall(text)]

    def some_tiles(self) -> list[tuple[int, int, int]]:
        """Tiles of each level round the middles of some boxes."""
        chance = random.Random(2)
        rows = rows_of(self.table)
        found = set()
        for z in (7, 9, 11, 12, 13, 14, 16, DEEPEST):
            _, x1, _, y1, _, _ = chance.choice(rows)
            found.add((z, *tile_at(z, (x1, y1))))
        return sorted(found)

    def test_a_tile_has_the_boxes_of_its_window(self) -> None:
        rows = rows_of(self.table)
        layers = {0: "towns", 1: "motorways", 2: "main roads", 3: "minor roads", 4: "streets", 5: HOSTILE_LAYER}
        seen = 0
        for z, x, y in self.some_tiles():
            window = window_of(z, x, y)
            line = "window %d %d %d %d" % window
            if self.is_density(z, x, y, ""):
                continue
            features = self.features(z, x, y)
            self.assertEqual(len(features), number_of(self.table, f"count {line}"), line)
            ids = [int(properties["mvt_id"]) for _, properties, _ in features]
            self.assertEqual(sorted(ids), ids_of(self.table, f"find {line}"))
            for id, (layer, _, box) in zip(ids, features):
                self.assertEqual(layer, layers[rows[id - 1][5]])
                self.assert_near(box, rows[id - 1][1:5], window)
            on = [int(properties["mvt_id"]) for _, properties, _ in self.features(z, x, y, "?on=3,5")]
            self.assertEqual(sorted(on), ids_of(self.table, f"find {line} on 3,5"))
            seen += 1
        self.assertGreater(seen, 4)

    def assert_near(self, box: list[float], sides: list[int], window: tuple[int, int, int, int]) -> None:
        """A feature lies where its box does, cut off beside the tile, but for a unit and a half and two centimetres."""
        self.assertTrue(box[0] < box[1] and box[2] < box[3], box)
        unit = (window[1] - window[0] + 1) / 4096
        for at, (found, side) in enumerate(zip(box, sides)):
            low, high = (window[0], window[1]) if at < 2 else (window[2], window[3])
            expected = min(max(side, low - 64 * unit), high + 64 * unit)
            self.assertLessEqual(abs(found * 100 - expected), 1.6 * unit + 2, (box, sides, window))

    def test_a_tile_of_too_many_boxes_has_counts(self) -> None:
        tiles = [(0, 0, 0), *((6, x, y) for x in (31, 32) for y in (31, 32))]
        counts = [number_of(self.table, "count window %d %d %d %d" % window_of(*tile)) for tile in tiles]
        full = [tile for tile, count in zip(tiles, counts) if count > 5000]
        self.assertGreater(len(full), 1)
        for z, x, y in full:
            across, along = (cuts(*interval, 32) for interval in (window_of(z, x, y)[:2], window_of(z, x, y)[2:]))
            replies = replies_of(self.table, ["count window %d %d %d %d" % cell for cell in cells_of(across, along)])
            expected = [count for reply in replies if (count := int(reply[0].split()[2]))]
            features = self.features(z, x, y)
            self.assertEqual([int(properties["count"]) for _, properties, _ in features], expected)
            self.assertEqual({layer for layer, _, _ in features}, {"density"})

    def test_counts_are_those_of_a_whole_level(self) -> None:
        """No tile with boxes stands beside one with counts, of all layers and of some."""
        kinds = {}
        for on in ("", "?on=3,4", "?on=0"):
            for z in range(5, 11):
                first, last = (tile_at(z, corner) for corner in self.bounds())
                tiles = [(x, y) for x in range(first[0], last[0] + 1) for y in range(last[1], first[1] + 1)]
                shown = {self.is_density(z, x, y, on) for x, y in tiles[:: max(1, len(tiles) // 60)]} - {None}
                self.assertEqual(len(shown), 1, (on, z))
                kinds[on, z] = shown.pop()
        self.assertEqual([kinds["", z] for z in range(5, 11)], sorted((kinds["", z] for z in range(5, 11)), reverse=True))
        self.assertEqual({*kinds.values()}, {True, False})

    def test_a_hot_spot_hides_no_map(self) -> None:
        """6,000 boxes at one place among 100,000: deep tiles that hold it have counts, and all others are as without it."""
        table, hot, (x, y) = large_map() / "boxes.csv", Path(self.folder, "hot.csv"), (1_000_000, 1_000_000)
        more = "".join(f"{1_000_000 + at},{x},{x + 100},{y},{y + 100},5\n" for at in range(6000))
        hot.write_text(table.read_text() + more)
        with Server(table) as plain, Server(hot) as server:
            for z in range(DEEPEST + 1):
                across, down = tile_at(z, (x, y))
                for beside in (0, 1, 2):
                    target = f"/{z}/{min(across + beside, 2**z - 1)}/{down}.pbf"
                    body, before = server.get(target)[1], plain.get(target)[1]
                    holds = beside == 0 or z == 0 or min(across + beside, 2**z - 1) == across
                    self.assertEqual(b"density" in body[:40], holds or b"density" in before[:40], target)
                    self.assertEqual(body == before, not holds, target)
            levels = [b"density" in plain.get("/%d/%d/%d.pbf" % (z, *tile_at(z, (0, 0))))[1][:40] for z in range(9, 14)]
        self.assertEqual(levels, [True, True, True, False, False])

    def test_boxes_outside_of_the_world(self) -> None:
        """They lie in no tile, and turn none into counts."""
        table = Path(self.folder, "outside.csv")
        table.write_text("".join(f"{at},{x},{x},{x},{x}\n" for at, x in enumerate([0] * 10 + [2**31 - 1] * 6000)))
        with Server(table) as server:
            self.assertEqual(len(self.features(DEEPEST, 1 << DEEPEST - 1, (1 << DEEPEST - 1) - 1, server=server)), 10)
            self.assertEqual(self.features(DEEPEST, (1 << DEEPEST) - 1, 0, server=server), [])

    def test_the_command_of_the_page(self) -> None:
        """GDAL writes boxes of the map that make_map makes."""
        wants("ogr2ogr")
        (command,) = re.findall(r"^\$ (ogr2ogr .*)$", (ROOT / "docs/tiles.md").read_text(), re.MULTILINE)
        with Server(large_map() / "boxes.csv", "--layers", str(large_map() / "layers.csv")) as server:
            typed = command.replace("http://127.0.0.1:8080/", server.address)
            subprocess.run(typed, shell=True, cwd=self.folder, check=True, timeout=LONGEST)
        self.assertGreater(len(json.loads(Path(self.folder, "towns.geojson").read_text())["features"]), 5)

    def bounds(self) -> list[tuple[int, int]]:
        """The corners of all boxes."""
        x1, x2, y1, y2 = self.json("/about")["bounds"]
        return [(x1, y1), (x2, y2)]

    def is_density(self, z: int, x: int, y: int, on: str) -> bool | None:
        """Whether a tile has counts; None where it is empty."""
        _, tile = self.server.get(f"/{z}/{x}/{y}.pbf{on}")
        return b"density" in tile[:40] if tile else None

    def test_ids_and_names_of_every_size(self) -> None:
        """The own id of a feature is its box's; below 0 there is none, and the property `id` has it."""
        names = {-(2**63): "", -1: "\u00e9\U0001f600", 0: HOSTILE_NAME, 1: "1", 127: "long" * 1000, 2**63 - 1: '"'}
        ids = sorted([*names, -2, 128, 16383, 16384, 2097151, 2097152, 2**53 + 1])
        table, listed = Path(self.folder, "ids.csv"), Path(self.folder, "names.csv")
        table.write_text("".join(f"{id},0,0,0,0\n" for id in ids))
        with open(listed, "w", encoding="utf-8", newline="") as file:
            csv.writer(file).writerows(names.items())
        with Server(table, "--names", str(listed)) as server:
            for tile in (0, 0, 0), (DEEPEST, 1 << DEEPEST - 1, (1 << DEEPEST - 1) - 1):
                features = self.features(*tile, server=server)
                found = [(int(it.get("mvt_id") or it["id"]), "id" in it, it.get("name")) for _, it, _ in features]
                self.assertEqual(found, [(id, id < 0, names.get(id)) for id in ids])
                self.assertEqual({layer for layer, _, _ in features}, {"layer 0"})
            (layer, _) = json.loads(server.get("/tiles.json")[1])["vector_layers"]
            self.assertEqual(layer["fields"], {"name": "String", "id": "Number"})


def rows_of(table: Path) -> list[list[int]]:
    """The records of a table, as numbers."""
    return [[*map(int, line.split(","))] for line in table.read_text().splitlines()]


def tile_at(z: int, place: tuple[int, int]) -> tuple[int, int]:
    """The tile of a level that holds a place."""
    side = 2 * HALF / 2**z
    return int((place[0] + HALF) / side), int((HALF - place[1]) / side)


def box_of(lines: str) -> list[float]:
    """The least box round a feature's polygon: x1, x2, y1, y2."""
    polygon = POLYGON.search(lines)
    assert polygon is not None, lines
    xs, ys = zip(*(map(float, corner.split()) for corner in polygon[1].split(",")))
    return [min(xs), max(xs), min(ys), max(ys)]


class SomeViews(Mapped):
    def test_views_at_random(self) -> None:
        """Windows with few boxes and with many, on all layers and on some."""
        chance = random.Random(4)
        rows = rows_of(self.table)
        with_boxes = with_counts = 0
        for _ in range(60):
            _, x, _, y, _, _ = chance.choice(rows)
            reach = int(2 ** chance.uniform(10, 26))
            window = (x - reach, x + reach, y - reach, y + reach)
            on = chance.choice(["", "1,2,3", "4", "0,5", "9"])
            view = self.json("/view?x1=%d&x2=%d&y1=%d&y2=%d" % window + (f"&on={on}" if on else ""))
            words = f" on {on}" if on else ""
            line = "window %d %d %d %d" % window + words
            self.assertEqual(view["count"], number_of(self.table, f"count {line}"))
            if "boxes" in view:
                with_boxes += 1
                shown = [[int(box["id"]), *box["box"], box["layer"]] for box in view["boxes"]]
                self.assertEqual(shown, [rows[id - 1] for id in ids_of(self.table, f"find {line}")])
            else:
                with_counts += 1
                cells = cells_of(view["across"], view["along"])
                counts = replies_of(self.table, ["count window %d %d %d %d" % cell + words for cell in cells])
                self.assertEqual(view["counts"], [int(reply[0].split()[2]) for reply in counts])
                self.assertEqual((cells[0][0], cells[-1][1], cells[0][2], cells[-1][3]), window)
        self.assertGreater(min(with_boxes, with_counts), 5)


class Maps(unittest.TestCase):
    def test_the_same_seed_makes_the_same_map(self) -> None:
        folder = Path(self.enterContext(tempfile.TemporaryDirectory()))
        for name, seed in ("one", 1), ("again", 1), ("other", 2):
            make_map(folder / name, 2000, seed)
        for name in ("boxes.csv", "names.csv", "layers.csv"):
            self.assertEqual((folder / "one" / name).read_bytes(), (folder / "again" / name).read_bytes())
        self.assertNotEqual((folder / "one/boxes.csv").read_bytes(), (folder / "other/boxes.csv").read_bytes())
        self.assertEqual(number_of(folder / "one/boxes.csv", "count all"), 2000)

    def test_a_folder_that_cannot_be_made(self) -> None:
        with self.assertRaises(subprocess.CalledProcessError) as raised:
            make_map(Path("/dev/null/map"), 1000)
        self.assertEqual(raised.exception.stderr, "rtfilter.tiles.make_map: /dev/null/map: Not a directory\n")


def copy_map(table: Path) -> None:
    """Some copies of a map in one table, each a little aside, with ids of their own."""
    rows = rows_of(table)
    with open(table, "w", encoding="ascii") as file:
        for at in range(COPIES):
            for id, x1, x2, y1, y2, layer in rows:
                aside = 5000 * at
                file.write(f"{id + at * len(rows)},{x1 + aside},{x2 + aside},{y1 + aside},{y2 + aside},{layer}\n")


class Cost(unittest.TestCase):
    def test_a_view_of_a_million_boxes(self) -> None:
        """Processor time of the server and the program together, by views that are moved a little."""
        folder = Path(self.enterContext(tempfile.TemporaryDirectory()))
        make_map(folder, MILLION // COPIES)
        copy_map(folder / "boxes.csv")
        with Server(folder / "boxes.csv") as server:
            _, body = server.get("/about")
            x1, x2, y1, y2 = json.loads(body)["bounds"]
            connection = server.connected()
            self.addCleanup(connection.close)
            for _ in range(5):  # the machine may have other work, but not in each of these rounds
                begun = server.seconds()
                for at in range(VIEWS):
                    connection.request("GET", f"/view?x1={x1 - 1000 * at}&x2={x2 + 999 * at}&y1={y1}&y2={y2}")
                    view = json.loads(connection.getresponse().read())
                    self.assertEqual(view["count"], MILLION)
                    self.assertEqual(len(view["counts"]), len(view["across"]) * len(view["along"]))
                    self.assertGreater(len(view["counts"]), 2000)
                seconds = (server.seconds() - begun) / VIEWS
                if seconds <= MOST_SECONDS:
                    break
            self.assertLessEqual(seconds, MOST_SECONDS)
            cells = cells_of(view["across"], view["along"])
            counts = replies_of(folder / "boxes.csv", ["count window %d %d %d %d" % cell for cell in cells])
            self.assertEqual(view["counts"], [int(reply[0].split()[2]) for reply in counts])

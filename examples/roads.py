#!/usr/bin/env python3
"""Writes each record of a CSV file again with the lines of a GeoJSON file that are nearest to its position.

usage: examples/roads.py [--nearest K] [--columns X,Y] [--crs CRS] LINES POSITIONS

docs/roads.md is its page. It needs the package rtfilter, numpy, pyproj and shapely.
"""

import argparse
import csv
import json
import sys
from collections.abc import Iterator
from itertools import islice
from typing import Any

import numpy
from pyproj import Geod, Transformer
from pyproj.exceptions import CRSError
from shapely.errors import ShapelyError
from shapely.geometry import Point, shape
from shapely.ops import nearest_points, transform

from rtfilter import Circle, Rtfilter

DEGREES = "EPSG:4326"
AT_ONCE = 1000  # records
COLUMNS = "nearest_rank", "nearest_line", "nearest_name", "nearest_longitude", "nearest_latitude", "nearest_metres"


class Lines:
    """The lines of a GeoJSON file in a plane, and a table of the boxes around them, in whole metres."""

    def __init__(self, file: str, crs: str) -> None:
        self._plane = Transformer.from_crs(DEGREES, crs, always_xy=True)
        self._earth = Geod(ellps="WGS84")
        with open(file, encoding="utf-8-sig") as text:
            try:
                features = json.load(text)["features"]
                self._ids = [feature.get("id", place) for place, feature in enumerate(features)]
                self._names = [(feature.get("properties") or {}).get("name") or "" for feature in features]
                self._lines = [transform(self._plane.transform, shape(feature["geometry"])) for feature in features]
                if any(line.is_empty for line in self._lines):
                    raise ValueError
            except (AttributeError, KeyError, RecursionError, ShapelyError, TypeError, ValueError):
                raise ValueError(f"{file}: no FeatureCollection of lines") from None
        bounds = numpy.array([line.bounds for line in self._lines]).reshape(-1, 4)
        self._boxes = Rtfilter.from_bounds(numpy.hstack([whole(numpy.floor(bounds[:, :2])), whole(numpy.ceil(bounds[:, 2:]))]))

    def nearest_each(self, positions: list[tuple[float, float]], k: int) -> Iterator[tuple[int, list[str]]]:
        """For each position, in degrees, its place and the columns of the k lines nearest to it in the plane, the nearest first."""
        longitudes, latitudes = numpy.array(positions).T
        xy = numpy.column_stack(self._plane.transform(longitudes, latitudes))
        centres = whole(numpy.rint(xy))
        points = [Point(it) for it in xy]
        # None of the k nearest lines is farther than the farthest of any k lines. The lines of the k nearest boxes are good ones.
        places, ids, _ = self._boxes.nearest_each(centres, k)
        reach = numpy.zeros(len(points))
        numpy.maximum.at(reach, places, self._distances(points, places, ids))
        # (a metre more, since a centre lies beside its position)
        places, ids = self._boxes.find_each(numpy.column_stack([centres, whole(numpy.ceil(reach)) + 1]), region=Circle)
        order = numpy.lexsort([ids, self._distances(points, places, ids), places])
        ranks = numpy.arange(len(order)) - numpy.searchsorted(places, places)
        order, ranks = order[ranks < k], ranks[ranks < k] + 1
        places, ids = places[order], ids[order]
        feet = [nearest_points(self._lines[line], points[place])[0] for place, line in zip(places, ids)]
        found = self._plane.transform([it.x for it in feet], [it.y for it in feet], direction="INVERSE")
        metres = self._earth.inv(longitudes[places], latitudes[places], *found)[2]
        for place, rank, line, x, y, far in zip(places, ranks, ids, *found, metres):
            yield place, [str(rank), str(self._ids[line]), self._names[line], f"{x:.7f}", f"{y:.7f}", f"{far:.2f}"]

    def _distances(self, points: list[Point], places: Any, ids: Any) -> Any:
        return numpy.array([self._lines[line].distance(points[place]) for place, line in zip(places, ids)], "f8")


def whole(numbers: Any) -> Any:
    """Metres of the plane as integers. Raises ValueError if it has no such place."""
    if not numpy.isfinite(numbers).all():
        raise ValueError("a place that lies outside of the plane")
    return numbers.astype("i8")


def rows(records: Iterator[list[str]], columns: tuple[int, int], lines: Lines, k: int) -> Iterator[list[str]]:
    """Each record, once for each of the lines nearest to its position."""
    while batch := list(islice(records, AT_ONCE)):
        positions = [(number(record, columns[0]), number(record, columns[1])) for record in batch]
        for place, found in lines.nearest_each(positions, k):
            yield [*batch[place], *found]


def number(record: list[str], column: int) -> float:
    try:
        return float(record[column])
    except (IndexError, ValueError):
        raise ValueError(f"no number in field {column + 1} of {','.join(record):.50}") from None


def main() -> None:
    parser = argparse.ArgumentParser(description="Writes records again with the lines nearest to their positions.")
    parser.add_argument("lines", metavar="LINES", help="GeoJSON file of lines, in degrees")
    parser.add_argument("positions", metavar="POSITIONS", help="CSV file with a header")
    parser.add_argument("--nearest", type=int, default=1, metavar="K", help="lines for each position, all if there are fewer (default 1)")
    parser.add_argument("--columns", default="longitude,latitude", metavar="X,Y", help="columns of longitude and latitude, in degrees (default longitude,latitude)")
    parser.add_argument("--crs", default="EPSG:3857", metavar="CRS", help="plane in which lines are nearest, in metres, by a name that pyproj takes (default EPSG:3857)")
    args = parser.parse_args()
    if args.nearest < 1:
        parser.error("argument --nearest: 1 or more")
    try:
        write(args)
    except (OSError, ValueError, csv.Error, CRSError) as error:
        sys.exit(f"roads.py: {error}")


def write(args: argparse.Namespace) -> None:
    with open(args.positions, encoding="utf-8-sig", newline="") as file:
        records = csv.reader(file)
        header: list[str] = next(records, [])
        columns = args.columns.split(",")
        if len(columns) != 2 or not {*columns} <= {*header}:
            raise ValueError(f"{args.positions}: it has no columns {args.columns}: give --columns X,Y")
        writer = csv.writer(sys.stdout, lineterminator="\n")
        writer.writerow([*header, *COLUMNS])
        x, y = map(header.index, columns)
        writer.writerows(rows(filter(None, records), (x, y), Lines(args.lines, args.crs), args.nearest))


if __name__ == "__main__":
    main()

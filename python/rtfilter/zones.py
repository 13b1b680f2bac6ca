"""Which polygons hold a point, exactly."""

import math
from collections.abc import Iterable, Iterator, Mapping
from typing import Any

import numpy
from numpy.typing import NDArray

from . import _engine, arrays
from .floats import rounding
from .regions import Covers
from .table import Rtfilter

FEWEST = 4  # positions of a ring
LIMITS = numpy.iinfo("i4")


class Zones:
    """Polygons of any form, with holes and of several parts, known by their positions from 0.

    `polygons` are geometries of shapely, a frame or a series of geopandas, or GeoJSON that was read: each a Polygon or a
    MultiPolygon. Without `scale`, coordinates are whole numbers of 32 bits. With it each coordinate, of polygons and of points,
    is multiplied by it and rounded, a half upwards; answers are exact for what was rounded so.

    A polygon holds the points on its rings, and those from which a ray crosses the rings of one part an odd number of times.
    Raises ValueError with the place of what is no polygon, and TypeError for a number that isn't whole if there is no scale.
    """

    def __init__(self, polygons: Any, *, scale: float | None = None) -> None:
        if scale is not None and not scale > 0:
            raise ValueError(f"scale is above 0, and not {scale!r}")
        self._scale = scale
        corners, rings, parts, zones = [numpy.empty((0, 2), "i4")], [0], [0], []
        self._len = 0
        for place, polygon in enumerate(_listed(polygons)):
            try:
                for part in filter(len, _parts(polygon)):  # (an empty polygon has no rings)
                    for ring in part:
                        corners.append(self._ring(ring))
                        rings.append(rings[-1] + len(corners[-1]))
                    parts.append(len(rings) - 1)
                    zones.append(place)
            except (TypeError, ValueError) as error:
                raise type(error)(f"polygons[{place}]: {error}") from None
            self._len += 1
        self._zones = numpy.array(zones, "i8")
        self._load(numpy.concatenate(corners), numpy.array(rings, "i8"), numpy.array(parts, "i8"))

    def _load(self, corners: NDArray[Any], rings: NDArray[Any], parts: NDArray[Any]) -> None:
        self._polygons = corners.tobytes(), rings.tobytes(), parts.tobytes()
        begins = rings[parts[:-1]]
        bounds = numpy.empty((0, 4), "i4")
        if len(begins):
            bounds = numpy.hstack([numpy.minimum.reduceat(corners, begins), numpy.maximum.reduceat(corners, begins)])
        self._table = Rtfilter.from_bounds(bounds)

    def __len__(self) -> int:
        """How many polygons there are."""
        return self._len

    def holding(self, x: float, y: float) -> list[int]:
        """Return the positions of the polygons that contain the point (x, y), ascending."""
        whole_x, whole_y = self._whole_number(x), self._whole_number(y)
        parts = self._table.find(Covers(whole_x, whole_x, whole_y, whole_y))
        held = _engine.holding(*self._polygons, parts, whole_x, whole_y)
        return [*dict.fromkeys([int(self._zones[it]) for it in held])]

    def holding_each(self, points: Any) -> tuple[NDArray[Any], NDArray[Any]]:
        """Return two arrays with a pair for each answer: the position of the point, and that of the polygon. `points` are rows of x
        and y, or a frame with these columns."""
        array = arrays.floats_of(points, "points", arrays.POINT)
        if array.shape != (0,) and (array.ndim != 2 or array.shape[1] != 2):
            raise TypeError(f"points: the shape is {array.shape}, and not (n, 2)")
        whole = self._whole(array.reshape(-1, 2))
        places, parts = self._table.find_each(whole[:, [0, 0, 1, 1]], region=Covers)
        held = numpy.frombuffer(_engine.holds_each(*self._polygons, parts, numpy.ascontiguousarray(whole[places])), bool)
        places, zones = places[held], self._zones[parts[held]]
        is_new = numpy.ones(len(places), bool)  # one answer for a polygon of which two parts hold the point
        is_new[1:] = (places[1:] != places[:-1]) | (zones[1:] != zones[:-1])
        return places[is_new], zones[is_new]

    def _whole_number(self, number: float) -> int:
        """One coordinate in whole numbers: in less time than an array of it."""
        try:
            scaled = number if self._scale is None else number * self._scale
            whole = math.floor(scaled)
        except (ValueError, OverflowError):
            raise ValueError("a coordinate that isn't finite") from None
        whole += scaled - whole >= 0.5
        if self._scale is None and whole != scaled:
            raise TypeError(f"{number} isn't a whole number: give scale=")
        return whole

    def _ring(self, positions: Any) -> NDArray[Any]:
        """A ring in whole numbers."""
        try:
            array = arrays.floats_of([(x, y) for x, y, *_ in positions], "positions", arrays.POINT)
        except (TypeError, ValueError):
            raise ValueError("a position isn't a pair of numbers") from None
        if len(array) < FEWEST:
            raise ValueError(f"a ring of {len(array)} positions, and not {FEWEST} or more")
        if not (array[0] == array[-1]).all():
            raise ValueError("a ring whose last position isn't its first")
        return self._whole(array)

    def _whole(self, numbers: NDArray[numpy.float64]) -> NDArray[Any]:
        """Coordinates in whole numbers of 32 bits."""
        with rounding():
            floats = numbers * (self._scale or 1.0)
        if not numpy.isfinite(floats).all():
            raise ValueError("a coordinate that isn't finite")
        whole = numpy.floor(floats)
        whole += floats - whole >= 0.5
        if self._scale is None and (whole != floats).any():
            raise TypeError(f"{floats[whole != floats][0]} isn't a whole number: give scale=")
        if ((whole < LIMITS.min) | (whole > LIMITS.max)).any():
            raise ValueError("a coordinate out of the range of 32 bits")
        return numpy.asarray(whole, "i4")


def _listed(polygons: Any) -> Iterator[Any]:
    """The geometries, or GeoJSON, of a frame, a collection or anything that can be iterated."""
    if isinstance(polygons, Mapping):
        polygons = polygons["features"] if "features" in polygons else [polygons]
    found = getattr(polygons, "geometry", polygons)
    if not isinstance(found, Iterable):
        raise TypeError(f"polygons are geometries, a frame or GeoJSON, and not {polygons!r:.50}")
    return iter(found)


def _parts(polygon: Any) -> Any:
    """The parts of a polygon, each a list of rings."""
    found = getattr(polygon, "__geo_interface__", polygon)
    if isinstance(found, Mapping) and found.get("type") == "Feature":
        found = found.get("geometry")
    kind = found.get("type") if isinstance(found, Mapping) else None
    if kind not in ("Polygon", "MultiPolygon"):
        raise ValueError(f"{kind or type(polygon).__name__} is no Polygon and no MultiPolygon")
    coordinates = found.get("coordinates")
    if not isinstance(coordinates, (list, tuple)):
        raise ValueError(f"a {kind} without coordinates")
    return [coordinates] if kind == "Polygon" else coordinates

"""Geometries of shapely, 1.8 or 2, in a tree: shapely 2's STRtree, with answers in order, and geopandas' `sjoin`."""

import warnings
from collections.abc import Iterable
from typing import Any, Self

import numpy
import shapely
from numpy.typing import NDArray
from shapely.geometry.base import BaseGeometry

from .arrays import BOUNDS, floats_of
from .floats import FloatBoxes, Floats, Places, rows_of, widened

IS_TWO = shapely.__version__ >= "2"
MIRRORED = {  # predicate(a, b) is MIRRORED[predicate](b, a)
    "contains": "within",
    "within": "contains",
    "covers": "covered_by",
    "covered_by": "covers",
    "crosses": "crosses",
    "intersects": "intersects",
    "overlaps": "overlaps",
    "touches": "touches",
}
BY_INPUT = "contains", "contains_properly", "covers"  # predicates for which the geometry of the query is prepared, not that of the tree
DWITHIN = "dwithin"
PREDICATES = sorted({*MIRRORED, *BY_INPUT, DWITHIN})
PROBES = 4  # boxes close to a geometry, whose distances bound that of the nearest one

Objects = NDArray[Any]


class STRtree:
    """A tree of geometries, known by their positions from 0. None, empty geometries and bounds of NaN are never found.

    `geometries` are a frame or a series of geopandas, an array or a list. Raises ValueError for infinite bounds.
    """

    def __init__(self, geometries: Any) -> None:
        self.geometries: Objects | None = objects(geometries)
        self._boxes = FloatBoxes(rows_of(bounds_of(self.geometries), "geometries"))

    @classmethod
    def from_bounds(cls, bounds: Any) -> Self:
        """A tree of rows (min_x, min_y, max_x, max_y) alone, or of a frame with these columns, for `query_bounds` and `query` without a
        predicate. Whole numbers become floats as by `float`."""
        tree = cls.__new__(cls)
        tree.geometries = None
        tree._boxes = FloatBoxes(rows_of(bounds, "bounds").copy())  # (which no caller changes)
        return tree

    def __reduce__(self) -> Any:
        if self.geometries is None:
            return STRtree.from_bounds, (self._boxes.bounds,)
        return STRtree, (self.geometries,)

    def __len__(self) -> int:
        """How many geometries there are that can be found."""
        return len(self._boxes.table)

    @property
    def bounds(self) -> tuple[float, float, float, float] | None:
        """The least box around all geometries, as min_x, min_y, max_x, max_y; None if there are none."""
        min_x, min_y, max_x, max_y = self._boxes.extent()
        return (min_x, min_y, max_x, max_y) if len(self) else None

    def query_bounds(self, bounds: Any) -> Places:
        """Return the positions of the geometries whose bounds overlap (min_x, min_y, max_x, max_y). For rows of bounds, an array
        of two rows: the positions of the bounds, and of the geometries."""
        array = floats_of(bounds, "bounds", BOUNDS)
        if array.shape == (4,):
            return self._boxes.meeting(rows_of(array[None], "bounds"))[1]
        return numpy.stack(self._boxes.meeting(rows_of(array, "bounds")))

    def query(self, geometry: Any, predicate: str | None = None, distance: Any = None) -> Places:
        """Return the positions of the geometries for which predicate(geometry, other) holds; without a predicate, of those whose
        bounds overlap. For several geometries, an array of two rows: their positions, and those of geometries in the tree.

        Predicates are those of shapely: contains, contains_properly, covered_by, covers, crosses, intersects, overlaps, touches,
        within; and dwithin, for which `distance` is a number, or one for each geometry.
        """
        if predicate is not None and predicate not in PREDICATES:
            raise ValueError(f"{predicate!r} is no predicate; there are {', '.join(PREDICATES)}")
        if (predicate == DWITHIN) != (distance is not None):
            raise ValueError("a distance goes with the predicate dwithin")
        is_single, inputs = inputs_of(geometry)
        bounds = rows_of(bounds_of(inputs), "geometries")
        if predicate is None:
            pairs = self._boxes.meeting(bounds)
        elif predicate == DWITHIN:
            pairs = self._within(inputs, bounds, numpy.broadcast_to(numpy.asarray(distance, "f8"), len(inputs)))
        else:
            pairs = self._kept(inputs, predicate, self._boxes.meeting(bounds, is_exact=False))
        return pairs[1] if is_single else numpy.stack(pairs)

    def query_nearest(
        self, geometry: Any, max_distance: float | None = None, return_distance: bool = False, all_matches: bool = True
    ) -> Any:
        """Return the positions of the geometries nearest to `geometry`: all that are equally near, or with `all_matches` False
        the first of them. For several geometries, an array of two rows. With `return_distance`, also the distances."""
        if max_distance is not None and not max_distance > 0:
            raise ValueError("max_distance is above 0")
        is_single, inputs = inputs_of(geometry)
        bounds = rows_of(bounds_of(inputs), "geometries")
        reach = self._reach(inputs, bounds, numpy.inf if max_distance is None else max_distance)
        places, ids = self._boxes.meeting(widened(bounds, reach), is_exact=False)
        found = distances_of(inputs[places], self._geometries()[ids])
        least = numpy.full(len(inputs), numpy.inf)
        numpy.minimum.at(least, places, found)
        kept = (found == least[places]) & (found <= reach[places])
        places, ids, found = places[kept], ids[kept], found[kept]
        if not all_matches:
            _, firsts = numpy.unique(places, return_index=True)
            places, ids, found = places[firsts], ids[firsts], found[firsts]
        pairs = ids if is_single else numpy.stack([places, ids])
        return (pairs, found) if return_distance else pairs

    def _geometries(self) -> Objects:
        if self.geometries is None:
            raise ValueError("the tree was made of bounds, and has no geometries")
        return self.geometries

    def _kept(self, inputs: Objects, predicate: str, pairs: tuple[Places, Places]) -> tuple[Places, Places]:
        """The pairs for which a predicate holds."""
        places, ids = pairs
        kept = are_so(predicate, inputs[places], self._geometries()[ids])
        return places[kept], ids[kept]

    def _within(self, inputs: Objects, bounds: Floats, distance: Floats) -> tuple[Places, Places]:
        """The pairs that are at most so far apart."""
        places, ids = self._boxes.meeting(widened(bounds, numpy.maximum(distance, 0)), is_exact=False)
        kept = distances_of(inputs[places], self._geometries()[ids]) <= distance[places]
        return places[kept], ids[kept]

    def _reach(self, inputs: Objects, bounds: Floats, most: float) -> Floats:
        """For each geometry a distance within which its nearest one is, or else `most`."""
        reach = numpy.full(len(inputs), most)
        places, ids = self._boxes.close_to(bounds, PROBES)
        numpy.minimum.at(reach, places, distances_of(inputs[places], self._geometries()[ids]))
        return reach


def objects(geometries: Any) -> Objects:
    """Geometries as an array of objects."""
    given = getattr(geometries, "geometry", geometries)
    if not isinstance(given, Iterable):
        raise TypeError(f"geometries are an array, a series, a frame or a list, and not {geometries!r:.200}")
    listed = list(given)
    found = numpy.empty(len(listed), object)
    for at, it in enumerate(listed):
        if it is not None and not isinstance(it, BaseGeometry):
            raise TypeError(f"geometries[{at}]: {it!r:.50} is no geometry")
        found[at] = it
    return found


def inputs_of(geometry: Any) -> tuple[bool, Objects]:
    """Whether it is a single geometry, and it or all of them as an array."""
    is_single = geometry is None or isinstance(geometry, BaseGeometry)
    return is_single, objects([geometry] if is_single else geometry)


def bounds_of(geometries: Objects) -> Any:
    """Rows of min_x, min_y, max_x, max_y; NaN for None and for an empty geometry."""
    if IS_TWO:
        return shapely.bounds(geometries)
    nothing = (numpy.nan,) * 4
    return [nothing if it is None or it.is_empty else it.bounds for it in geometries]


def distances_of(some: Objects, others: Objects) -> Floats:
    """The distance of each pair."""
    if IS_TWO:
        return numpy.asarray(shapely.distance(some, others), "f8")
    return numpy.array([one.distance(other) for one, other in zip(some, others)], "f8")


def are_so(predicate: str, inputs: Objects, geometries: Objects) -> NDArray[numpy.bool_]:
    """Whether predicate(input, geometry), for each pair."""
    name, some, others = predicate, inputs, geometries
    if predicate not in BY_INPUT:
        name, some, others = MIRRORED[predicate], geometries, inputs
    if IS_TWO:
        shapely.prepare(some)
        return numpy.asarray(getattr(shapely, name)(some, others), bool)
    from shapely.prepared import prep

    prepared: dict[int, Any] = {}
    found = numpy.empty(len(some), bool)
    for at, (one, other) in enumerate(zip(some, others)):
        if id(one) not in prepared:
            prepared[id(one)] = prep(one)
        try:
            found[at] = getattr(prepared[id(one)], name)(other)
        except AttributeError:  # (which shapely 1.8 raises of an invalid geometry that is prepared)
            found[at] = getattr(one, name)(other)
    return found


def sjoin(left: Any, right: Any, how: str = "inner", predicate: str = "intersects") -> Any:
    """Join two frames by their geometries, as geopandas' `sjoin` does. Rows are by those of `left` and then of `right`, or with
    `how` "right" the other way round. Different CRS cause a warning; nothing is converted."""
    import pandas
    from geopandas import GeoDataFrame

    for name, given in (("left", left), ("right", right)):
        if not isinstance(given, GeoDataFrame):
            raise TypeError(f"{name} is a GeoDataFrame, and not {type(given).__name__}")
    if how not in ("inner", "left", "right"):
        raise ValueError(f"how is inner, left or right, and not {how!r}")
    if left.crs != right.crs:
        warnings.warn(f"the frames have different CRS: {left.crs} and {right.crs}", stacklevel=2)
    lefts, rights = STRtree(right).query(left.geometry, predicate)
    if how != "right":
        frame, rest = _joined(left, right, lefts, rights, how == "left", ("left", "right"))
    else:
        order = numpy.lexsort([lefts, rights])
        frame, rest = _joined(right, left, rights[order], lefts[order], True, ("right", "left"))
    joined = pandas.concat([frame, rest], axis=1)
    return joined if how != "right" else joined.iloc[:, numpy.roll(range(joined.shape[1]), rest.shape[1])]


def _joined(kept: Any, other: Any, places: Places, others: Places, has_all: bool, names: tuple[str, str]) -> tuple[Any, Any]:
    """The rows of one frame at these places, and beside them those of the other one, whose geometries are dropped. With all, rows
    of the first without a match are there too, in their places."""
    import geopandas
    import pandas

    if has_all:
        alone = numpy.setdiff1d(numpy.arange(len(kept)), places)
        places, others = numpy.concatenate([places, alone]), numpy.concatenate([others, numpy.full(len(alone), -1)])
        order = numpy.argsort(places, kind="stable")
        places, others = places[order], others[order]
    frame, rest = kept.take(places), other.drop(columns=other.geometry.name)
    own = rest.index.names if geopandas.__version__ >= "1" else [None] * rest.index.nlevels  # (geopandas 1 keeps names)
    index = [f"index_{names[1]}{level if len(own) > 1 else ''}" if it is None else it for level, it in enumerate(own)]
    rest = rest.reset_index(names=index).reindex(pandas.RangeIndex(len(rest)))
    rest = rest.reindex(others) if (others < 0).any() else rest.take(others)
    rest.index = frame.index
    shared = [it for it in rest if it in frame]
    frame = frame.rename(columns={it: f"{it}_{names[0]}" for it in shared})
    if kept.geometry.name in shared:
        frame = frame.set_geometry(f"{kept.geometry.name}_{names[0]}")
    return frame, rest.rename(columns={it: f"{it}_{names[1]}" for it in shared})

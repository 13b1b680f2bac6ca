"""Tables in the processes of dask's workers.

`Table` is a file that each worker opens as a whole: for many queries of a table that fits a worker. `Boxes` is a dask dataframe
of boxes, of which each partition is a table: for a table that doesn't fit. `spatial_shuffle` makes its partitions compact.
Queries are the rows of a dask dataframe, and so are the answers, which dask computes when they are needed.
"""

import math
import os
import threading
from collections.abc import Callable, Sequence
from functools import partial
from typing import Any, NamedTuple

import dask
import dask.dataframe
import numpy
import pandas
from dask.dataframe.extensions import make_array_nonempty
from dask.sizeof import sizeof
from numpy.typing import NDArray

from . import arrays, merging
from .arrays import BOUNDS, Nearest, Queries
from .geometry import STRtree, bounds_of, objects
from .merging import Rows
from .regions import Layers, Order, Window, repeatable
from .table import MOST_ENTRIES, Rtfilter

Frame = Any  # of pandas, geopandas or dask, which have no types here
GEOMETRY = "geometry"
SAMPLE, LEAST_SAMPLE = 0.01, 1000  # of each partition of boxes, to find the cuts: this part of its rows, or at least this many
TABLE_BYTES = 36  # of a box in a table
IDS = pandas.DataFrame({"id": pandas.Series(dtype="i8")})
SCORED = IDS.assign(score=pandas.Series(dtype="u8"))
COUNTS = pandas.Series(dtype="u8", name="count")


class Shapes(NamedTuple):
    """Queries in floats: rows of min_x, min_y, max_x and max_y, and perhaps the geometries that have these bounds."""

    bounds: NDArray[Any]
    geometries: NDArray[Any] | None
    predicate: str | None
    first: int | None = None

    def rows(self, at: Rows) -> "Shapes":
        """The queries at some indices."""
        return self._replace(bounds=self.bounds[at], geometries=None if self.geometries is None else self.geometries[at])


class Found(NamedTuple):
    """The answers of one table: indices of queries, ids, scores if they are ordered by them, and for a join columns of the boxes."""

    places: Rows
    ids: NDArray[Any]
    scores: NDArray[Any] | None
    columns: Frame = None


Ask = Callable[[Frame], Queries | Shapes]  # makes queries of a partition's rows
Gather = Callable[[Frame, list[Found], int | None], Frame]


class Table:
    """A CSV table that each worker process opens when it is first queried, and keeps.

    It is pickled as the name, size and time of change of its file, which every worker has to find under the same name. The
    settings are those of `Rtfilter`. Raises ValueError if a worker finds another size or time, OSError if it can't read.
    """

    def __init__(self, file: Any, *, header: bool = False, fanout: int = 16, max_entries: int = MOST_ENTRIES) -> None:
        self._file = os.path.abspath(os.fspath(file))
        self._settings: dict[str, Any] = {"header": header, "fanout": fanout, "max_entries": max_entries}
        self._stamp = _stamp_of(self._file)

    def __dask_tokenize__(self) -> Any:
        return type(self).__name__, self._file, self._settings, self._stamp

    @property
    def table(self) -> Rtfilter:
        """The table, in this process."""
        described = self._settings, self._stamp
        with _lock:
            if self._file not in _opened or _opened[self._file][0] != described:
                table = Rtfilter(self._file, **self._settings)
                if _stamp_of(self._file) != self._stamp:
                    raise ValueError(f"{self._file} has changed since its Table was made")
                _opened[self._file] = described, table
            return _opened[self._file][1]

    def query(
        self, frame: Frame, region: type = Window, order: Order | None = None, first: int | None = None, *, on: Layers | None = None
    ) -> Frame:
        """The column `id` of the boxes that each region accepts, with the index of the region, in order. The columns of `frame`
        are the numbers of the region: min_x, max_x, min_y and max_y of a window; x, y and radius of a circle."""
        return self._answers(frame, IDS, _asking(region, order, first, on), _with_ids)

    def nearest(self, frame: Frame, k: int) -> Frame:
        """The columns `id` and `score`, the square of the distance, of the k boxes nearest to each point (x, y)."""
        return self._answers(frame, SCORED, partial(_points, k), _with_scores)

    def count(self, frame: Frame, region: type = Window, *, on: Layers | None = None) -> Frame:
        """A series, `count`: how many boxes each region accepts."""
        ask = _asking(region, None, None, on)
        ask(_meta_of(frame))
        return frame.map_partitions(_counted_whole, self, ask, meta=_indexed_as(frame, COUNTS))

    def _answers(self, frame: Frame, meta: Frame, ask: Ask, gather: Gather) -> Frame:
        ask(_meta_of(frame))  # raises for a column that isn't there before anything is computed
        return frame.map_partitions(_found_whole, self, ask, gather, meta=_indexed_as(frame, meta))


class Boxes:
    """Boxes in the memory of dask's workers, of which each partition is a table.

    `frame` has the columns id, min_x, max_x, min_y and max_y, perhaps layer, and any others; ids are distinct, which isn't checked.
    The partitions are loaded at once; those of a lost worker dask makes again. Instead of sides in whole numbers there may be
    floats, or a column `geometry`: `query`, `count` and `join` take windows in floats then, or geometries and a predicate.
    """

    def __init__(self, frame: Frame) -> None:
        self._meta = _meta_of(frame, ["id", *_sides_of(frame)])
        self._is_whole = GEOMETRY not in frame.columns and all(frame.dtypes[it].kind in "iu" for it in BOUNDS)
        part = WholePart if self._is_whole else FloatPart
        self._parts = [*dask.persist(*[dask.delayed(part)(it) for it in frame.to_delayed()])]
        bounds = dask.compute(*[dask.delayed(getattr)(it, "bounds") for it in self._parts])
        self._bounds = numpy.array([it or merging.NOTHING for it in bounds])

    def query(
        self,
        frame: Frame,
        region: type = Window,
        order: Order | None = None,
        first: int | None = None,
        *,
        on: Layers | None = None,
        predicate: str | None = None,
    ) -> Frame:
        """As `Table.query`. Of geometries, the ids of those for which predicate(geometry of `frame`, it) holds, or without a
        predicate of those whose bounds overlap."""
        return self._answers(frame, IDS, self._ask(region, order, first, on, predicate), _with_ids)

    def nearest(self, frame: Frame, k: int) -> Frame:
        """As `Table.nearest`, of boxes in whole numbers alone."""
        if not self._is_whole:
            raise TypeError("nearest is for boxes in whole numbers")
        return self._answers(frame, SCORED, partial(_points, k), _with_scores)

    def count(self, frame: Frame, region: type = Window, *, on: Layers | None = None, predicate: str | None = None) -> Frame:
        """As `Table.count`."""
        ask = self._ask(region, None, None, on, predicate)
        ask(_meta_of(frame))

        def counted(some: Frame) -> Any:
            routed = self._routed(some, ask)
            return dask.delayed(_summed)(some, [dask.delayed(_counted)(part, at, routed) for at, part in enumerate(self._parts)])

        return _collected(frame, COUNTS, counted)

    def join(self, frame: Frame, region: type = Window, *, on: Layers | None = None, predicate: str | None = None) -> Frame:
        """The rows of `frame`, each once for every box that it accepts, by id, with the columns of the box but for its geometry. A
        column whose name `frame` has too gets the suffix `_right`. Raises ValueError if `frame` has this name too."""
        nothing = Found(numpy.empty(0, "i8"), numpy.empty(0, "i8"), None, _without_geometry(self._meta))
        meta = _with_columns(_meta_of(frame), [nothing], None)
        return self._answers(frame, meta, self._ask(region, None, None, on, predicate), _with_columns, has_columns=True)

    def _ask(self, region: type, order: Order | None, first: int | None, on: Layers | None, predicate: str | None) -> Ask:
        if self._is_whole:
            if predicate is not None:
                raise TypeError("a predicate is for geometries")
            return _asking(region, order, first, on)
        if (region, order, first, on) != (Window, None, None, None):
            raise TypeError("boxes in floats have windows and geometries, and no other region, order, limit or layers")
        STRtree([]).query([], predicate)  # raises for one that isn't there before anything is computed
        return partial(_shapes, predicate)

    def _answers(self, frame: Frame, meta: Frame, ask: Ask, gather: Gather, has_columns: bool = False) -> Frame:
        kind = ask(_meta_of(frame))
        is_in_two_goes = isinstance(kind, Queries) and merging.is_in_two_goes(kind)

        def answered(some: Frame) -> Any:
            found = self._found(self._routed(some, ask), has_columns)
            if is_in_two_goes:
                found += self._found(self._routed(some, ask, found), has_columns)
            return dask.delayed(gather)(some, found, kind.first)

        return _collected(frame, meta, answered)

    def _routed(self, some: Frame, ask: Ask, found: list[Any] | None = None) -> Any:
        """For each partition of boxes the queries that go there."""
        return dask.delayed(_routed)(some, ask, self._bounds, found)

    def _found(self, routed: Any, has_columns: bool) -> list[Any]:
        return [dask.delayed(_found)(part, at, routed, has_columns) for at, part in enumerate(self._parts)]


class WholePart:
    """A partition of boxes in whole numbers: its rows by id, and a table in which the id of a box is the index of its row."""

    def __init__(self, frame: Frame) -> None:
        self.frame = frame.sort_values("id", ignore_index=True)
        self.ids = arrays.ids_of(numpy.asanyarray(self.frame["id"]), "id")
        layers = self.frame["layer"] if "layer" in self.frame else None
        self.table = Rtfilter.from_bounds(self.frame[[*BOUNDS]], layers=layers)
        self.bounds = self.table.bounds

    def __reduce__(self) -> Any:
        return type(self), (self.frame,)

    def found(self, queries: Queries) -> tuple[Rows, Rows, NDArray[Any] | None]:
        """Indices of queries and of rows, and scores if answers are ordered by them."""
        return self.table._found(queries, queries.is_scored)

    def counted(self, queries: Queries) -> NDArray[Any]:
        """How many boxes each query accepts."""
        return self.table._counted(queries)


class FloatPart:
    """A partition of boxes or geometries in floats: its rows by id, and a tree of them."""

    def __init__(self, frame: Frame) -> None:
        self.frame = frame.sort_values("id", ignore_index=True)
        self.ids = arrays.ids_of(numpy.asanyarray(self.frame["id"]), "id")
        is_bare = GEOMETRY not in frame.columns
        self.tree = STRtree.from_bounds(self.frame[[*BOUNDS]]) if is_bare else STRtree(self.frame)
        self.bounds = self.tree.bounds

    def __reduce__(self) -> Any:
        return type(self), (self.frame,)

    def found(self, queries: Shapes) -> tuple[Rows, Rows, None]:
        """Indices of queries and of rows."""
        if queries.geometries is None:
            places, rows = self.tree.query_bounds(queries.bounds)
        else:
            places, rows = self.tree.query(queries.geometries, queries.predicate)
        return places, rows, None

    def counted(self, queries: Shapes) -> NDArray[Any]:
        """How many boxes each query accepts."""
        return numpy.bincount(self.found(queries)[0], minlength=len(queries.bounds)).astype("u8")


def size_of(part: WholePart | FloatPart) -> int:
    """The bytes of a partition, by which dask spreads them over its workers."""
    return int(sizeof(part.frame)) + TABLE_BYTES * len(part.frame)


sizeof.register((WholePart, FloatPart), size_of)


def spatial_shuffle(frame: Frame, partitions: int) -> Frame:
    """The rows of a frame of boxes in a number of partitions of about the same size, each of boxes whose centres lie close together:
    slices by x, cut by y, at the places that a sample of the rows gives.

    The frame is read twice. Write the new one to files before it is loaded, or a lost worker costs another shuffle.
    """
    _meta_of(frame, _sides_of(frame))
    if partitions < 1:
        raise ValueError(f"partitions are 1 or more, and not {partitions}")
    if GEOMETRY in frame.columns:
        _know_geometries(frame.dtypes[GEOMETRY])
    sample = frame.map_partitions(_sampled, meta=pandas.DataFrame({"x": [0.0], "y": [0.0]})).compute()
    cuts = _cuts_of(sample, partitions)
    numbered = frame.assign(_partition=frame.map_partitions(_numbers, cuts, meta=pandas.Series(dtype="i8")))
    shuffled = numbered.set_index("_partition", divisions=[*range(partitions), partitions - 1])
    return shuffled.reset_index(drop=True)


_lock = threading.Lock()
_opened: dict[str, tuple[Any, Rtfilter]] = {}  # the last table of each file, with its settings and stamp


def _stamp_of(file: str) -> tuple[int, int]:
    """The size of a file in bytes, and the time of its last change in nanoseconds."""
    found = os.stat(file)
    return found.st_size, found.st_mtime_ns


def _meta_of(frame: Frame, required: Sequence[str] = ()) -> Frame:
    """The columns of a dask dataframe. Raises TypeError for another frame, and if one of these columns is missing."""
    if not isinstance(frame, dask.dataframe.DataFrame):
        raise TypeError(f"frame is a dask dataframe, and not {type(frame).__name__}")
    for column in required:
        if column not in frame.columns:
            raise TypeError(f"frame: there is no column {column} among {', '.join(map(str, frame.columns))}")
    return frame._meta


def _sides_of(frame: Frame) -> Sequence[str]:
    """The columns of the sides of boxes."""
    return [GEOMETRY] if GEOMETRY in getattr(frame, "columns", ()) else BOUNDS


def _asking(region: type, order: Order | None, first: int | None, on: Layers | None) -> Ask:
    """What makes queries of the regions of a partition, again and again."""
    return partial(_regions, region, order, first, repeatable(on))


def _regions(region: type, order: Order | None, first: int | None, on: Layers | None, frame: Frame) -> Queries:
    return arrays.queries_of(frame, None, region, order, first, on)


def _points(k: int, frame: Frame) -> Queries:
    return Nearest(arrays.columns_of(frame, "points", arrays.POINT), k)


def _shapes(predicate: str | None, frame: Frame) -> Shapes:
    if GEOMETRY in frame.columns:
        geometries = objects(frame)
        return Shapes(numpy.asarray(bounds_of(geometries), "f8").reshape(-1, 4), geometries, predicate)
    if predicate is not None:
        raise TypeError("a predicate is for geometries")
    return Shapes(arrays.floats_of(frame[[*BOUNDS]], "frame", BOUNDS), None, None)


def _found_whole(frame: Frame, table: Table, ask: Callable[[Frame], Queries], gather: Gather) -> Frame:
    queries = ask(frame)
    return gather(frame, [Found(*table.table._found(queries, queries.is_scored))], queries.first)


def _counted_whole(frame: Frame, table: Table, ask: Callable[[Frame], Queries]) -> Frame:
    return pandas.Series(table.table._counted(ask(frame)), frame.index, name="count")


def _routed(frame: Frame, ask: Ask, bounds: NDArray[Any], found: list[Found] | None) -> list[tuple[Queries | Shapes, Rows]]:
    queries = ask(frame)
    if isinstance(queries, Shapes):
        rows = merging.overlapping_rows(queries.bounds, bounds)
    elif found is None:
        rows = merging.first_rows(queries, bounds)
    else:
        rows = merging.more_rows(queries, bounds, [it[:3] for it in found])
    return [(queries.rows(at), at) for at in rows]


def _found(part: Any, number: int, routed: list[tuple[Any, Rows]], has_columns: bool) -> Found:
    queries, at = routed[number]
    places, rows, scores = part.found(queries)
    columns = _without_geometry(part.frame.iloc[rows]) if has_columns else None
    return Found(at[places], part.ids[rows], scores, columns)


def _counted(part: Any, number: int, routed: list[tuple[Any, Rows]]) -> tuple[Rows, NDArray[Any]]:
    queries, at = routed[number]
    return at, part.counted(queries)


def _summed(frame: Frame, counted: list[tuple[Rows, NDArray[Any]]]) -> Frame:
    counts = numpy.zeros(len(frame), "u8")
    for at, some in counted:
        counts[at] += some
    return pandas.Series(counts, frame.index, name="count")


def _with_ids(frame: Frame, found: list[Found], first: int | None) -> Frame:
    places, ids, _ = merging.merged(len(frame), [it[:3] for it in found], first)
    return pandas.DataFrame({"id": ids}, index=frame.index[places])


def _with_scores(frame: Frame, found: list[Found], first: int | None) -> Frame:
    places, ids, scores = merging.merged(len(frame), [it[:3] for it in found], first)
    return pandas.DataFrame({"id": ids, "score": scores}, index=frame.index[places])


def _with_columns(frame: Frame, found: list[Found], _: int | None) -> Frame:
    places, ids = (numpy.concatenate([it[at] for it in found]) for at in (0, 1))
    order = numpy.lexsort([ids, places])
    joined = frame.iloc[places[order]].copy()
    columns = pandas.concat([it.columns for it in found]).iloc[order]
    for name in columns:
        own = f"{name}_right" if name in frame.columns else name
        if own in joined:
            raise ValueError(f"two columns are called {own}")
        joined[own] = columns[name].array
    return joined


def _without_geometry(frame: Frame) -> Frame:
    return pandas.DataFrame(frame.drop(columns=GEOMETRY)) if GEOMETRY in frame.columns else frame


def _collected(frame: Frame, meta: Frame, work: Callable[[Frame], Any]) -> Frame:
    """A dask dataframe of what is made of each partition of another one."""
    made = [work(it) for it in frame.to_delayed()]
    return dask.dataframe.from_delayed(made, meta=_indexed_as(frame, meta), divisions=frame.divisions, verify_meta=False)


def _indexed_as(frame: Frame, meta: Frame) -> Frame:
    """The columns of answers, with the kind and the name of the index of a dask dataframe."""
    return meta.set_axis(frame._meta.index)


def _know_geometries(dtype: Any) -> None:
    """Lets dask make example values of geopandas' columns, as dask-geopandas does."""
    if type(dtype) not in make_array_nonempty._lookup:
        from geopandas import GeoSeries
        from shapely.geometry import Point

        make_array_nonempty.register(type(dtype), lambda _: GeoSeries([Point(0, 0)] * 2).array)


def _centres(frame: Frame) -> Frame:
    """The centres of boxes or geometries; those without bounds lie at 0."""
    bounds = bounds_of(objects(frame)) if GEOMETRY in frame.columns else frame[[*BOUNDS]].to_numpy("f8")
    rows = numpy.nan_to_num(numpy.asarray(bounds, "f8").reshape(-1, 4))
    return pandas.DataFrame({"x": rows[:, 0] / 2 + rows[:, 2] / 2, "y": rows[:, 1] / 2 + rows[:, 3] / 2}, index=frame.index)


def _sampled(frame: Frame) -> Frame:
    count = min(len(frame), max(LEAST_SAMPLE, int(SAMPLE * len(frame))))
    return _centres(frame.sample(count, random_state=1))


def _cuts_of(sample: Frame, partitions: int) -> tuple[NDArray[Any], list[NDArray[Any]], list[int]]:
    """Where to cut: between slices by x, within each of them by y, and the number of each slice's first partition."""
    slices = math.ceil(math.sqrt(partitions))
    begins = [partitions * it // slices for it in range(slices + 1)]
    x = numpy.quantile(sample["x"], numpy.array(begins[1:-1]) / partitions) if len(sample) else numpy.zeros(slices - 1)
    slice_of = numpy.searchsorted(x, sample["x"], "right")
    within = [sample["y"][slice_of == it] for it in range(slices)]
    sizes = numpy.diff(begins)
    y = [numpy.quantile(some, numpy.arange(1, n) / n) if len(some) else numpy.zeros(n - 1) for some, n in zip(within, sizes)]
    return x, y, begins


def _numbers(frame: Frame, cuts: tuple[NDArray[Any], list[NDArray[Any]], list[int]]) -> Frame:
    """The number of each row's partition."""
    x, y, begins = cuts
    centres = _centres(frame)
    slice_of = numpy.searchsorted(x, centres["x"], "right")
    numbers = numpy.zeros(len(frame), "i8")
    for at, ends in enumerate(y):
        here = slice_of == at
        numbers[here] = begins[at] + numpy.searchsorted(ends, centres["y"][here], "right")
    return pandas.Series(numbers, frame.index)

"""Arrays and frames of numpy, pandas and geopandas: their columns, and queries packed from them.

Only calls about arrays import this module, and numpy with it.
"""

from collections.abc import Iterable, Iterator, Sequence
from contextlib import contextmanager
from copy import copy
from functools import cache
from operator import index
from threading import Event
from typing import Any, Self

import numpy
from numpy.typing import NDArray

from . import _engine
from .errors import FLOATS, QueryError
from .regions import All, Circle, Covers, Inside, Layers, Near, Order, Window

Columns = list[NDArray[Any]]

SIDES = ("min_x", "max_x", "min_y", "max_y")
BOUNDS = ("min_x", "min_y", "max_x", "max_y")
POINT = ("x", "y")
MEMBERS: dict[type, tuple[str, ...]] = {All: (), Window: SIDES, Inside: SIDES, Covers: SIDES, Circle: ("x", "y", "radius")}
PART = 4096  # queries that are packed at once

_names, _formats, _offsets = zip(*_engine.layout)
QUERY = numpy.dtype({"names": _names, "formats": _formats, "offsets": _offsets, "itemsize": _engine.query_size})


def columns_of(value: Any, what: str, required: Sequence[str], optional: Sequence[str] = ()) -> Columns:
    """Columns of whole numbers: of an array of two dimensions, of a list of rows, or of a frame or an array with fields, by
    their names. Raises TypeError if a number isn't whole, a column is missing or there twice, or the shape is another."""
    columns = _named(value, what, required, optional)
    if columns is not None:
        return [whole(it, what) for it in columns]
    array = _array(value, what)
    if array.shape == (0,):
        return [numpy.empty(0, "i8") for _ in required]
    widths = sorted({len(required), len(required) + len(optional)})
    if array.ndim != 2 or array.shape[1] not in widths:
        raise TypeError(f"{what}: the shape is {array.shape}, and not (n, {' or '.join(map(str, widths))})")
    return list(whole(array, what).T)


def columns_of_bounds(bounds: Any, ids: Any, layers: Any) -> Columns:
    """The columns of a table, from rows of min_x, min_y, max_x, max_y. Without ids, these are the places of the rows."""
    min_x, min_y, max_x, max_y = columns_of(bounds, "bounds", BOUNDS)
    count = len(min_x)
    columns = [numpy.arange(count) if ids is None else _column(ids, "ids", count), min_x, max_x, min_y, max_y]
    return columns if layers is None else [*columns, _column(layers, "layers", count)]


def _column(values: Any, what: str, count: int) -> NDArray[Any]:
    """A column of whole numbers, as many as there are boxes."""
    column = _array(values, what)
    if column.shape != (count,):
        raise TypeError(f"{what}: the shape is {column.shape}, and not ({count},)")
    return whole(column, what) if count else numpy.empty(0, "i8")


def floats_of(value: Any, what: str, names: Sequence[str]) -> NDArray[numpy.float64]:
    """An array of floats: an array or a list of numbers, or the columns of a frame or an array with fields, by their names. Raises
    TypeError if something is no number, is masked, or a column is missing or there twice."""
    columns = _named(value, what, names)
    if columns is not None:
        return numpy.stack([_floats(it, what) for it in columns], axis=1)
    return _floats(_unmasked(_read(value, what), what), what)


def _floats(array: NDArray[Any], what: str) -> NDArray[numpy.float64]:
    """An array as floats."""
    if array.dtype.kind not in "biufO":
        raise TypeError(f"{what}: numbers are {array.dtype}")
    if array.dtype.kind == "O":
        for it in array.flat:
            if isinstance(it, (str, bytes)):  # (in which numpy would read a number)
                raise TypeError(f"{what}: {it!r:.50} is no number")
    try:
        return numpy.asarray(array, "f8")
    except TypeError as error:
        raise TypeError(f"{what}: {error}") from None
    except OverflowError:
        raise ValueError(f"{what}: a number is out of the range of floats") from None


def _named(value: Any, what: str, required: Sequence[str], optional: Sequence[str] = ()) -> Columns | None:
    """The columns of a frame or of an array with fields, by their names; None if there are no names."""
    names = value.columns if hasattr(value, "columns") else getattr(getattr(value, "dtype", None), "names", None)
    if names is None:
        return None
    columns = [_unmasked(numpy.asanyarray(value[name]), what) for name in _found(list(names), what, required, optional)]
    if any(it.ndim != 1 for it in columns):
        raise TypeError(f"{what}: a column has one number for each row")
    return columns


def _array(value: Any, what: str) -> NDArray[Any]:
    """An array as it is, or a list as one. Where numpy would make floats of whole numbers in a list, each stays as it is."""
    if hasattr(value, "dtype"):
        return numpy.asanyarray(value)
    if not isinstance(value, Iterable):
        raise TypeError(f"{what}: an array, a frame or a list of rows, and not {value!r:.200}")
    listed = list(value)
    array = _read(listed, what)
    return array if array.dtype.kind in "iu" else numpy.array(listed, dtype=object)


def _read(value: Any, what: str) -> NDArray[Any]:
    """What numpy makes of a value. Rows may have masks of their own, which it would drop."""
    make: Any = numpy.asanyarray
    if isinstance(value, (list, tuple)) and numpy.ma.MaskedArray in map(type, value):
        make = numpy.ma.array
    try:
        return numpy.asanyarray(make(value))
    except ValueError:
        raise TypeError(f"{what}: rows of different lengths") from None


def _found(names: list[Any], what: str, required: Sequence[str], optional: Sequence[str]) -> Iterator[Any]:
    """The names of columns. Capital letters and underscores make no difference."""
    for column in (*required, *optional):
        found = [it for it in names if str(it).replace("_", "").lower() == column.replace("_", "")]
        if len(found) > 1:
            raise TypeError(f"{what}: the columns {' and '.join(map(str, found))} are both {column}")
        if not found and column in required:
            raise TypeError(f"{what}: there is no column {column} among {', '.join(map(str, names))}")
        yield from found


def whole(array: NDArray[Any], what: str) -> NDArray[Any]:
    """An array of whole numbers. Raises TypeError for another type, for floats with whole values too."""
    array = _unmasked(array, what)
    if array.dtype.kind == "O":
        width = array.size // max(len(array), 1)
        numbers = [_whole(it, what, at, width) for at, it in enumerate(array.flat)]
        return numpy.array(numbers, dtype=object).reshape(array.shape)
    if array.dtype.kind not in "iu":
        raise TypeError(f"{what}: numbers are {array.dtype}, and not whole{FLOATS * (array.dtype.kind == 'f')}")
    return array


def _unmasked(array: NDArray[Any], what: str) -> NDArray[Any]:
    """An array without a mask. Raises TypeError if a number is masked."""
    if isinstance(array, numpy.ma.MaskedArray) and array.mask.any():
        raise TypeError(f"{what}: a number is masked")
    return numpy.asarray(array)


def _whole(number: Any, what: str, at: int, width: int) -> int:
    """A number of an array, at this place of its rows, which are so wide."""
    try:
        return index(number)
    except TypeError:
        help = FLOATS * isinstance(number, float)
        raise TypeError(f"{what}: row {at // width}: {number!r} isn't a whole number{help}") from None


def ids_of(values: NDArray[Any], what: str) -> NDArray[numpy.int64]:
    """A column of ids. Raises TypeError if one isn't whole, and ValueError if one is out of range."""
    ids = whole(values, what)
    if first_beyond([ids], ["i8"]) is not None:
        raise ValueError(f"{what}: a number is out of the range of 64 bits")
    return converted([ids], ["i8"])[0]


@cache
def limits_of(format: str) -> tuple[int, int]:
    """The least and the greatest number of a format."""
    info = numpy.iinfo(format)
    return info.min, info.max


def first_beyond(columns: Columns, formats: Sequence[str]) -> tuple[int, int] | None:
    """The first row with a number out of the range of its column's format, and the column; None if there is none."""
    found = []
    for at, (column, format) in enumerate(zip(columns, formats)):
        if numpy.can_cast(column.dtype, format) or not len(column):
            continue
        least, most = limits_of(format)
        # (numpy 1 compares a number of its own of 64 unsigned bits to a signed one in floats)
        if int(column.min()) < least or int(column.max()) > most:
            found.append((int(numpy.argmax((column < least) | (column > most))), at))
    return min(found, default=None)


def converted(columns: Columns, formats: Sequence[str]) -> Columns:
    """Columns as contiguous and aligned arrays of these formats. Their numbers are in range."""
    return [numpy.require(column, format, ["C", "A"]) for column, format in zip(columns, formats)]


class Queries:
    """Many queries of one kind, whose numbers are columns, packed as the library has them."""

    def __init__(self, region: type, columns: Columns, order: Order | None, first: int | None, on: Layers | None) -> None:
        self.region, self.columns, self.order = region, columns, order
        self._members = MEMBERS[region]
        self._prototype = _engine.query_of(region, order, first, on)
        self.first = None if first is None else index(first)
        self.stop: Event | None = None  # set by another thread, once no answers are needed

    def __len__(self) -> int:
        return len(self.columns[0]) if self.columns else 0

    @property
    def is_by_distance(self) -> bool:
        """Whether the nearest answers come first."""
        return isinstance(self.order, Near) or (self.region is Circle and self.order is None)

    @property
    def is_scored(self) -> bool:
        """Whether answers are ordered by a score, and not by id alone."""
        return self.is_by_distance or self.order is not None

    def rows(self, at: Any) -> Self:
        """The queries at some indices, or of a slice."""
        some = copy(self)
        some.columns = [it[at] for it in self.columns]
        return some

    def found_in(self, table: _engine.Table, has_scores: bool, exact: tuple[Any, ...] = ()) -> tuple[Any, Any, Any]:
        """The answers of a table: places, ids and perhaps scores. With `exact`, boxes and windows in floats, those that don't meet
        are left out."""
        places, ids, scores = bytearray(), bytearray(), bytearray() if has_scores else None
        count = 0
        with self._named_errors():
            for place, part in self.parts():
                count = table._find_each(part, place, len(self), places, ids, scores, count, *exact)
        return _numbers_of(places, count), _numbers_of(ids, count), None if scores is None else _scores_of(scores, count)

    def counted_in(self, table: _engine.Table) -> NDArray[Any]:
        """How many boxes of a table each query accepts."""
        counts = numpy.empty(len(self), "u8")
        with self._named_errors():
            for place, part in self.parts():
                counts[place : place + len(part)] = numpy.frombuffer(table._count_each(part, place), "u8")
        return counts

    def parts(self) -> Iterator[tuple[int, NDArray[Any]]]:
        """The place of the first query of each part, and the part. Raises QueryError for a number out of range, once the
        queries before it were given."""
        queries = numpy.repeat(numpy.frombuffer(self._prototype, f"V{QUERY.itemsize}"), min(PART, len(self))).view(QUERY)
        formats = [QUERY[name].str for name in self._members]
        for begin in range(0, len(self), PART):
            if self.stop is not None and self.stop.is_set():
                raise InterruptedError("the call was broken off")
            columns = [it[begin : begin + PART] for it in self.columns]
            beyond = first_beyond(columns, formats)
            count = len(columns[0]) if beyond is None else beyond[0]
            some = queries[:count]
            for name, column in zip(self._members, columns):
                some[name] = column[:count]
            if self.region is Circle and self.order is None:
                some["near_x"], some["near_y"] = some["x"], some["y"]
            yield begin, some
            if beyond is not None:
                raise QueryError(None, begin + count, "Q6", "out of range")

    @contextmanager
    def _named_errors(self) -> Iterator[None]:
        """A block whose QueryError gets the region at its place."""
        try:
            yield
        except QueryError as error:
            assert error.place is not None
            raise QueryError(self.at(error.place), error.place, error.code, error.text) from None

    def at(self, place: int) -> object:
        """The region at a place."""
        return self.region(*(int(it[place]) for it in self.columns))


class Nearest(Queries):
    """Queries for the k boxes nearest to each of many points."""

    def __init__(self, columns: Columns, k: int) -> None:
        super().__init__(All, columns, Near(0, 0), k, None)
        self._members = ("near_x", "near_y")

    def at(self, place: int) -> object:
        return Near(*(int(it[place]) for it in self.columns))


def queries_of(windows: Any, bounds: Any, region: type, order: Order | None, first: int | None, on: Layers | None) -> Queries:
    """Queries from rows of the numbers of a region, or from bounds in their place: rows of min_x, min_y, max_x, max_y."""
    if (windows is None) == (bounds is None):
        raise TypeError("give either windows or bounds=")
    members = MEMBERS.get(region)
    if not members:  # (rows without numbers can't be counted)
        raise TypeError(f"region is Window, Inside, Covers or Circle, and not {getattr(region, '__name__', region)!s:.200}")
    if bounds is None:
        columns = columns_of(windows, "windows", members)
    elif members is not SIDES:
        raise TypeError(f"{region.__name__} has no bounds")
    else:
        min_x, min_y, max_x, max_y = columns_of(bounds, "bounds", BOUNDS)
        columns = [min_x, max_x, min_y, max_y]
    return Queries(region, columns, order, first, on)


def _numbers_of(buffer: bytearray, count: int) -> NDArray[Any]:
    """The first numbers of 64 bits in a buffer, whose rest is freed."""
    del buffer[8 * count :]
    return numpy.frombuffer(buffer, "i8")


def _scores_of(buffer: bytearray, count: int) -> NDArray[Any]:
    """Scores as unsigned numbers of 64 bits, or as objects if one has more bits."""
    low, high = numpy.frombuffer(buffer, "u8", 2 * count).reshape(-1, 2).T
    scores: NDArray[Any] = low + (high.astype(object) << 64) if high.any() else low.copy()
    return scores

"""Boxes in floats, queried exactly.

A table holds them in whole numbers, rounded outwards: by a shift and a power of two, so that the lower of two floats never gets
the greater number and boxes that overlap still do. The candidates are then compared as floats.
"""

import math
from fractions import Fraction
from typing import Any

import numpy
from numpy.typing import NDArray

from .arrays import BOUNDS, Nearest, Queries, floats_of
from .regions import Window
from .table import Rtfilter

Floats = NDArray[numpy.float64]
Places = NDArray[numpy.int64]

LEAST, GREATEST = -(2.0**31), 2.0**31 - 1
SMALLEST_EXTENT = 2.0**-900
SLACK = 1 + 2.0**-40  # more than what rounding takes from a distance
UNDERFLOW = 2.0**-500  # distances below it may be computed as 0, since their squares are


def rows_of(bounds: Any, what: str) -> Floats:
    """Rows of min_x, min_y, max_x, max_y; NaN stands for nothing. Raises ValueError for infinite or turned ones."""
    rows = numpy.ascontiguousarray(floats_of(bounds, what, BOUNDS))
    if rows.size == 0:
        return numpy.empty((0, 4))
    if rows.ndim != 2 or rows.shape[1] != 4:
        raise TypeError(f"{what}: the shape is {rows.shape}, and not (n, 4)")
    if numpy.isinf(rows).any():
        raise ValueError(f"{what}: infinite bounds at place {int(numpy.isinf(rows).any(axis=1).argmax())}")
    is_turned = (rows[:, :2] > rows[:, 2:]).any(axis=1)
    if is_turned.any():
        raise ValueError(f"{what}: a minimum above its maximum at place {int(is_turned.argmax())}")
    return rows


def having_numbers(bounds: Floats) -> Places:
    """The places of bounds without NaN."""
    return numpy.flatnonzero(~numpy.isnan(bounds).any(axis=1))


def rounding() -> Any:
    """A block in which numbers may become infinite or 0, whatever their user had numpy raise."""
    return numpy.errstate(over="ignore", under="ignore")


class Grid:
    """How floats become whole numbers of 32 bits."""

    def __init__(self, bounds: Floats) -> None:
        low, high = (bounds[:, :2].min(0), bounds[:, 2:].max(0)) if len(bounds) else (numpy.zeros(2), numpy.zeros(2))
        is_whole = low.min() >= LEAST and high.max() <= GREATEST and numpy.array_equal(bounds, numpy.rint(bounds))
        with rounding():
            extent = max(float((high / 2 - low / 2).max()), SMALLEST_EXTENT)
            self._shift = numpy.zeros(4) if is_whole else numpy.tile(low / 2 + high / 2, 2)
        self._scale = 1.0 if is_whole else 2.0 ** (29 - math.frexp(extent)[1])
        self.is_whole = bool(is_whole)

    def widened(self, bounds: Floats) -> tuple[NDArray[Any], bool]:
        """Bounds in whole numbers, and whether none of them was rounded."""
        with rounding():
            moved = numpy.clip((bounds - self._shift) * self._scale, LEAST, GREATEST)
        whole = numpy.hstack([numpy.floor(moved[:, :2]), numpy.ceil(moved[:, 2:])])
        return whole.astype("i4"), self.is_whole and bool((whole == bounds).all())

    def points(self, bounds: Floats) -> NDArray[Any]:
        """The centres of bounds, or points near them, in whole numbers."""
        with rounding():
            centres = bounds[:, :2] / 2 + bounds[:, 2:] / 2
        return self.widened(numpy.tile(centres, 2))[0][:, :2]


class FloatBoxes:
    """Boxes in floats, whose ids are their places. Those without numbers are never found."""

    def __init__(self, bounds: Floats) -> None:
        self.bounds = bounds
        ids = having_numbers(bounds)
        self._grid = Grid(bounds[ids])
        whole, self._is_whole = self._grid.widened(bounds[ids])
        self.table = Rtfilter.from_bounds(whole, ids=ids)

    def extent(self) -> list[float]:
        """The least box around all boxes, as min_x, min_y, max_x, max_y; infinite, and turned, for none."""
        rows = self.bounds[having_numbers(self.bounds)]
        return [*rows[:, :2].min(0, initial=numpy.inf).tolist(), *rows[:, 2:].max(0, initial=-numpy.inf).tolist()]

    def meeting(self, bounds: Floats, is_exact: bool = True) -> tuple[Places, Places]:
        """The places of bounds, and of the boxes that overlap each of them; perhaps more, if it needn't be exact."""
        having = having_numbers(bounds)
        sound = numpy.ascontiguousarray(bounds[having])
        whole, are_whole = self._grid.widened(sound)
        min_x, min_y, max_x, max_y = whole.T
        queries = Queries(Window, [min_x, max_x, min_y, max_y], None, None, None)
        exact = (self.bounds, sound) if is_exact and not (are_whole and self._is_whole) else ()
        places, ids, _ = queries.found_in(self.table, False, exact)
        return having[places], ids

    def close_to(self, bounds: Floats, k: int) -> tuple[Places, Places]:
        """The places of bounds, and of k boxes that are close to each of them, or of all boxes: not always the nearest."""
        having = having_numbers(bounds)
        places, ids, _ = Nearest([*self._grid.points(bounds[having]).T], k).found_in(self.table, False)
        return having[places], ids

    def nearest(self, bounds: Floats, k: int) -> list[int]:
        """The k boxes nearest to one, by distance and then place, and all that are as near as the last of them."""
        _, close = self.close_to(bounds, k)
        if len(close) < k:
            found = close
        else:
            _, found = self.meeting(widened(bounds, gaps(bounds, self.bounds[close]).max(keepdims=True)), is_exact=False)
        order = sorted((square(bounds[0], self.bounds[it]), it) for it in found.tolist())
        return [place for distance, place in order if distance <= order[min(k, len(order)) - 1][0]]


def widened(bounds: Floats, by: Floats) -> Floats:
    """Bounds with all that is not farther from them than so far, and perhaps more."""
    with rounding():
        far = (by * SLACK + UNDERFLOW)[:, None]
        low, high = bounds[:, :2] - far, bounds[:, 2:] + far
        return numpy.hstack([numpy.nextafter(low, -numpy.inf), numpy.nextafter(high, numpy.inf)])


def gaps(some: Floats, others: Floats) -> Floats:
    """The distances between boxes, rounded."""
    with rounding():
        between = numpy.maximum(some[:, :2] - others[:, 2:], others[:, :2] - some[:, 2:])
        x, y = numpy.maximum(between, 0).T
        return numpy.asarray(numpy.hypot(x, y), "f8")


def square(one: Floats, other: Floats) -> Fraction:
    """The square of the distance between two boxes, exactly."""
    low_x, low_y, high_x, high_y = map(Fraction, one.tolist())
    min_x, min_y, max_x, max_y = map(Fraction, other.tolist())
    x, y = max(low_x - max_x, min_x - high_x, Fraction()), max(low_y - max_y, min_y - high_y, Fraction())
    return x * x + y * y

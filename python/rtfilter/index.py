"""The part of rtree's `Index` that a table which doesn't change can have."""

from collections.abc import Iterable, Iterator, Sequence
from operator import index, itemgetter
from typing import Any

import numpy

from .arrays import ids_of
from .floats import FloatBoxes, Floats, rows_of


class Index:
    """Boxes that are loaded at once and queried as those of rtree's `Index` are. Ids are ascending.

    `stream` has an item for each box: its id, its coordinates, and whatever else, which is ignored. Coordinates are decimals:
    min_x, min_y, max_x, max_y if `interleaved`, else min_x, max_x, min_y, max_y; two are a point. Raises ValueError for
    infinite or turned coordinates, and for an id that is there twice.
    """

    def __init__(self, stream: Iterable[Sequence[Any]] = (), interleaved: bool = True) -> None:
        self.interleaved = interleaved
        items = [(index(id), self._sides(coordinates)) for id, coordinates, *_ in stream]
        items.sort(key=itemgetter(0))
        self._ids = ids_of(numpy.array([id for id, _ in items], object), "ids")
        if (self._ids[1:] == self._ids[:-1]).any():
            raise ValueError("an id is there twice")
        self._boxes = FloatBoxes(rows_of([sides for _, sides in items], "stream"))

    def _sides(self, coordinates: Sequence[float]) -> tuple[float, ...]:
        """min_x, min_y, max_x, max_y"""
        try:
            x, y, *more = coordinates
            first, second, third, fourth = coordinates if more else (x, y, x, y) if self.interleaved else (x, x, y, y)
        except (TypeError, ValueError):
            raise TypeError(f"coordinates are two or four numbers, and not {coordinates!r:.50}") from None
        return (first, second, third, fourth) if self.interleaved else (first, third, second, fourth)

    def _bounds(self, coordinates: Sequence[float]) -> Floats:
        bounds = rows_of([self._sides(coordinates)], "coordinates")
        if numpy.isnan(bounds).any():
            raise ValueError("a coordinate is no number")
        return bounds

    def intersection(self, coordinates: Sequence[float]) -> Iterator[int]:
        """The ids of the boxes that overlap a window."""
        return iter(self._ids[self._boxes.meeting(self._bounds(coordinates))[1]].tolist())

    def contains(self, coordinates: Sequence[float]) -> Iterator[int]:
        """The ids of the boxes that lie in a window."""
        window = self._bounds(coordinates)
        _, places = self._boxes.meeting(window)
        boxes = self._boxes.bounds[places]
        is_inside = (boxes[:, :2] >= window[:, :2]).all(axis=1) & (boxes[:, 2:] <= window[:, 2:]).all(axis=1)
        return iter(self._ids[places[is_inside]].tolist())

    def count(self, coordinates: Sequence[float]) -> int:
        """How many boxes overlap a window."""
        return len(self._boxes.meeting(self._bounds(coordinates))[1])

    def nearest(self, coordinates: Sequence[float], num_results: int = 1) -> Iterator[int]:
        """The ids of the boxes nearest to a window, by distance and then id, and of all that are as near as the last one."""
        if num_results < 1:
            raise ValueError("num_results is 1 or more")
        return iter(self._ids[self._boxes.nearest(self._bounds(coordinates), num_results)].tolist())

    @property
    def bounds(self) -> list[float]:
        """The least box around all, in the order of the coordinates; infinite, and turned, for none."""
        min_x, min_y, max_x, max_y = self._boxes.extent()
        return [min_x, min_y, max_x, max_y] if self.interleaved else [min_x, max_x, min_y, max_y]

    def __len__(self) -> int:
        return len(self._ids)

    def close(self) -> None:
        """Frees the boxes."""
        self._boxes.table.close()

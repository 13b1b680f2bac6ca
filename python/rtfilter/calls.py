"""The calls that several kinds of table share: for one query, and for many queries at once."""

from types import TracebackType
from typing import TYPE_CHECKING, Any, Self

from .regions import Layers, Order, Region, Window

if TYPE_CHECKING:
    from numpy.typing import NDArray

    from .arrays import Queries


class Closable:
    """A table that is closed at the end of a `with` statement."""

    def __enter__(self) -> Self:
        return self

    def __exit__(self, kind: type[BaseException] | None, error: BaseException | None, trace: TracebackType | None) -> None:
        self.close()

    def __bool__(self) -> bool:
        return True  # for an empty table too

    def close(self) -> None:
        raise NotImplementedError


class SingleCalls(Closable):
    """The calls for one query."""

    def find(
        self,
        region: Region,
        order: Order | None = None,
        first: int | None = None,
        *,
        on: Layers | None = None,
        scores: bool = False,
    ) -> list[Any]:
        """Return the ids of the boxes that `region` accepts, by score and then id; with `scores`, pairs (id, score).

        `first`: at most this many. `on`: only boxes on these layers, 0 to 63.
        """
        return self._find(region, order, first, on, scores)

    def nearest(self, k: int, x: int, y: int) -> list[tuple[int, int]]:
        """Return the k boxes nearest to the point (x, y), as pairs (id, squared distance)."""
        raise NotImplementedError

    def count(self, region: Region, *, on: Layers | None = None) -> int:
        """Return how many boxes `region` accepts. `on`: only boxes on these layers, 0 to 63."""
        raise NotImplementedError

    def _find(self, region: Region, order: Order | None, first: int | None, on: Layers | None, scores: bool) -> list[Any]:
        raise NotImplementedError


class BulkCalls:
    """The calls for many queries of one kind."""

    def find_each(
        self,
        windows: Any = None,
        *,
        bounds: Any = None,
        region: type = Window,
        order: Order | None = None,
        first: int | None = None,
        on: Layers | None = None,
    ) -> "tuple[NDArray[Any], NDArray[Any]]":
        """Return two int64 arrays with a pair for each answer: the position of its window, from 0, and the id.

        `windows` are rows of the region's numbers; or else `bounds` are rows of min_x, min_y, max_x, max_y: an array, a frame
        with columns of these names, or a list. `region` is Window, Inside, Covers or Circle.
        """
        from . import arrays

        places, ids, _ = self._found(arrays.queries_of(windows, bounds, region, order, first, on), False)
        return places, ids

    def nearest_each(self, points: Any, k: int) -> "tuple[NDArray[Any], NDArray[Any], NDArray[Any]]":
        """Return three arrays with an item for each answer: the position of its point, the id, and the squared distance
        (uint64; objects if one has more bits). `points` are rows of x and y."""
        from . import arrays

        columns = arrays.columns_of(points, "points", arrays.POINT)
        return self._found(arrays.Nearest(columns, k), True)

    def count_each(
        self, windows: Any = None, *, bounds: Any = None, region: type = Window, on: Layers | None = None
    ) -> "NDArray[Any]":
        """Return how many boxes each window accepts, as a uint64 array. The arguments are those of `find_each`."""
        from . import arrays

        return self._counted(arrays.queries_of(windows, bounds, region, None, None, on))

    def _found(self, queries: "Queries", has_scores: bool) -> tuple[Any, Any, Any]:
        """The answers to queries: places, ids and, with `has_scores`, scores."""
        raise NotImplementedError

    def _counted(self, queries: "Queries") -> "NDArray[Any]":
        """How many boxes each query accepts."""
        raise NotImplementedError

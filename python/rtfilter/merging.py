"""Many queries over several tables: which tables each query goes to, and the answers of several tables as one.

Numbers are compared as floats that are rounded so that no table with an answer is left out. A needless query costs
time, and changes no answer.
"""

from collections.abc import Sequence
from operator import index
from typing import Any

import numpy
from numpy.typing import NDArray

from .arrays import MEMBERS, SIDES, Nearest, Queries
from .regions import Circle, Covers

Rows = NDArray[numpy.int64]
"""Indices of queries."""
Piece = tuple[Rows, NDArray[Any], NDArray[Any] | None]
"""Answers by query, score and id: the index of the query, the id, and the score if answers have one."""

LEAST, GREATEST = -(2**31), 2**32  # of the numbers of a query
DOWN = 1 - 2.0**-50  # takes more from the square of a distance than rounding adds to it, and takes from a score
NOTHING = (2**31 - 1, 2**31 - 1, LEAST, LEAST)  # bounds that no query overlaps
LIMIT = 2**62  # more than a query can have answers


def bounds_of(tables: Sequence[Any]) -> NDArray[Any]:
    """The bounds of tables as rows of min_x, min_y, max_x, max_y."""
    return numpy.array([it.bounds or NOTHING for it in tables], "i8").reshape(-1, 4)


def first_rows(queries: Queries, bounds: NDArray[Any]) -> list[Rows]:
    """For each table the queries that go to it first, each of which goes to one table at least: a faulty one is refused.

    A query for a number of the nearest boxes goes to the table whose bounds are nearest; another goes to each table that may
    have an answer.
    """
    may_answer = _may_answer(queries, bounds)
    if is_in_two_goes(queries):
        may_answer = _nearest(_reached(queries, bounds, may_answer))
    return _rows(may_answer)


def more_rows(queries: Queries, bounds: NDArray[Any], pieces: list[Piece]) -> list[Rows]:
    """For each table the queries that go to it after that: those for the nearest boxes, if its bounds are at most as
    far away as the last box that was found so far."""
    reached = _reached(queries, bounds, _may_answer(queries, bounds))
    last = _last_scores(len(queries), pieces, queries.first or 0)
    goes_there = (reached <= last[:, None]) & numpy.isfinite(reached) & ~_nearest(reached)
    return [numpy.flatnonzero(it) for it in goes_there.T]


def overlapping_rows(windows: NDArray[Any], bounds: NDArray[Any]) -> list[Rows]:
    """For each table the windows that overlap its bounds: both are rows of min_x, min_y, max_x, max_y. One that overlaps none, or
    is NaN, goes to the first table, which has no answer."""
    low, high = windows[:, None, :2] <= bounds[:, 2:], windows[:, None, 2:] >= bounds[:, :2]
    return _rows((low & high).all(axis=2))


def is_in_two_goes(queries: Queries) -> bool:
    """Whether the first answers say which other tables need to be queried."""
    return queries.is_by_distance and queries.first is not None


def merged(count: int, pieces: list[Piece], limit: int | None) -> Piece:
    """Answers to a number of queries as one piece, of each query at most `limit`."""
    having = [it for it in pieces if len(it[0])]
    if len(having) < 2:
        return [*having, *pieces][0]
    places, ids = (numpy.concatenate([it[at] for it in having]) for at in (0, 1))
    scores = None if having[0][2] is None else numpy.concatenate([it[2] for it in having])
    order = numpy.argsort(places, kind="stable")
    _sort_shared(order, count, having, places, ids, scores)
    if limit is not None:
        order = order[_index_within(count, places[order]) < min(limit, LIMIT)]
    return places[order], ids[order], None if scores is None else _narrow(scores[order])


def _narrow(scores: NDArray[Any]) -> NDArray[Any]:
    """Scores as numbers of 64 bits, if none of them has more."""
    is_wide = scores.dtype == object and max(scores, default=0) >= 2**64
    return scores if is_wide else scores.astype("u8")


def _sort_shared(order: Rows, count: int, pieces: list[Piece], places: Rows, ids: Any, scores: Any) -> None:
    """Sorts the answers to each query that several tables answered. Those of one table are in order as they come."""
    answering = numpy.zeros(count, "i8")
    for it in pieces:
        answering[it[0][numpy.flatnonzero(numpy.diff(it[0], prepend=-1))]] += 1
    is_shared = answering[places[order]] > 1
    shared = order[is_shared]
    for keys in (ids, scores, places):
        if keys is not None:
            shared = shared[numpy.argsort(keys[shared], kind="stable")]
    order[is_shared] = shared


def _index_within(count: int, places: Rows) -> Rows:
    """For each answer, how many of the same query come before it."""
    begins = numpy.bincount(places, minlength=count).cumsum() - numpy.bincount(places, minlength=count)
    return numpy.arange(len(places)) - begins[places]


def _rows(goes_there: NDArray[numpy.bool_]) -> list[Rows]:
    """For each column the rows that hold. A row that holds nowhere becomes one of the first column."""
    goes_there[:, 0] |= ~goes_there.any(axis=1)
    return [numpy.flatnonzero(it) for it in goes_there.T]


def _numbers(columns: Sequence[Any]) -> list[NDArray[Any]]:
    """Columns of 64 bits, each as a column of a table with one row a query. What is out of range is moved to its end."""
    return [numpy.clip(it, LEAST, GREATEST).astype("i8")[:, None] for it in columns]


def _may_answer(queries: Queries, bounds: NDArray[Any]) -> NDArray[numpy.bool_]:
    """Whether a query, by row, may have an answer in a table, by column."""
    least_x, least_y, most_x, most_y = bounds.T
    if queries.region is Circle:
        radius = _numbers(queries.columns[2:])[0].astype("f8")
        return numpy.asarray(_squares(queries.columns[:2], bounds) <= radius * radius)
    if MEMBERS[queries.region] is not SIDES:
        return numpy.ones((len(queries), len(bounds)), bool)
    min_x, max_x, min_y, max_y = _numbers(queries.columns)
    if queries.region is Covers:
        min_x, max_x, min_y, max_y = max_x, min_x, max_y, min_y
    return numpy.asarray((min_x <= most_x) & (max_x >= least_x) & (min_y <= most_y) & (max_y >= least_y))


def _squares(columns: Sequence[Any], bounds: NDArray[Any]) -> NDArray[numpy.float64]:
    """The squares of the distances of points, by row, from bounds, by column, or a little less."""
    least_x, least_y, most_x, most_y = bounds.T
    x, y = _numbers(columns)
    across = numpy.maximum(numpy.maximum(least_x - x, x - most_x), 0).astype("f8")
    along = numpy.maximum(numpy.maximum(least_y - y, y - most_y), 0).astype("f8")
    return numpy.asarray((across * across + along * along) * DOWN)


def _reached(queries: Queries, bounds: NDArray[Any], may_answer: NDArray[numpy.bool_]) -> NDArray[numpy.float64]:
    """The square of the distance of a query's point from the bounds of a table, infinite if the table has no answer."""
    if isinstance(queries, Nearest) or queries.order is None:
        points = queries.columns[:2]
    else:
        points = [numpy.full(len(queries), index(it)) for it in queries.order]
    return numpy.where(may_answer, _squares(points, bounds), numpy.inf)


def _nearest(reached: NDArray[numpy.float64]) -> NDArray[numpy.bool_]:
    """The table that a query goes to first."""
    is_first = numpy.zeros(reached.shape, bool)
    is_first[numpy.arange(len(reached)), reached.argmin(axis=1)] = True
    return is_first


def _last_scores(count: int, pieces: list[Piece], limit: int) -> NDArray[numpy.float64]:
    """The score of the last answer to each query, rounded; infinite if there are less than `limit` answers."""
    last = numpy.full(count, numpy.inf if limit else -numpy.inf)
    for places, _, scores in pieces:
        answers = numpy.bincount(places, minlength=count)
        at = numpy.flatnonzero(answers == min(limit, LIMIT)) if limit else numpy.empty(0, "i8")
        if scores is not None and len(at):
            last[at] = scores[answers.cumsum()[at] - 1].astype("f8")
    return last

"""Several tables queried as one: for more boxes than one table holds."""

from collections.abc import Callable, Iterable
from itertools import chain
from operator import index, itemgetter
from threading import Event
from typing import TYPE_CHECKING, Any, NoReturn

from .calls import BulkCalls, SingleCalls
from .client import Client
from .errors import QueryError
from .regions import All, Circle, Covers, Inside, Layers, Near, Order, Polygon, Region, Window, repeatable
from .table import Rtfilter

if TYPE_CHECKING:
    from numpy.typing import NDArray

    from .arrays import Queries
    from .merging import Piece, Rows

Bounds = tuple[int, int, int, int]
Pair = tuple[int, int]
Member = tuple[Any, Bounds | None]  # a table or a client, with the bounds of its boxes if there are any
ANYWHERE = (-(2**31), -(2**31), 2**31 - 1, 2**31 - 1)
PART = 65_536  # queries that are merged at once: a signal is handled between two parts
FEW = 1000  # queries for which threads take longer to start than the tables to answer


class Tables(SingleCalls, BulkCalls):
    """Several tables, queried as one. Answers are exact: those that one table of all boxes would give.

    `members` are tables of this process, or clients of services. Ids have to be distinct over all members, which isn't checked.
    A query goes to the tables whose bounds it overlaps; a client is always queried, since its service may load another table.
    Any number of threads may query at the same time. Raises ValueError if there are no members, TypeError for other ones.
    The calls for many queries raise TypeError if a member is a client.
    """

    def __init__(self, members: Iterable[Rtfilter | Client]) -> None:
        if not isinstance(members, Iterable):
            raise TypeError(f"members are tables or clients, and not {members!r:.50}")
        self._members = [*members]
        if not self._members:
            raise ValueError("members: no table is given")
        for it in self._members:
            if not isinstance(it, (Rtfilter, Client)):
                raise TypeError(f"a member is an Rtfilter or a Client, and not {it!r:.200}")
        self._bounded: list[Member] = [(it, it.bounds if isinstance(it, Rtfilter) else ANYWHERE) for it in self._members]

    def __reduce__(self) -> str:
        raise TypeError("tables can't be pickled: open them in each process, or fork")

    def __len__(self) -> int:
        """How many boxes there are in all tables."""
        return sum(len(it) for it in self._members)

    @property
    def bounds(self) -> Bounds | None:
        """The least box around all boxes, as min_x, min_y, max_x, max_y; None if there are none. Raises TypeError if a
        member is a client."""
        found = [it.bounds for it in self._tables("bounds") if it.bounds is not None]
        if not found:
            return None
        min_x, min_y, max_x, max_y = zip(*found)
        return min(min_x), min(min_y), max(max_x), max(max_y)

    def close(self) -> None:
        """Closes every member."""
        for it in self._members:
            it.close()

    def _find(self, region: Region, order: Order | None, first: int | None, on: Layers | None, scores: bool) -> list[Any]:
        members, on = self._overlapping(region), repeatable(on)
        if len(members) == 1:
            found: list[Any] = members[0][0].find(region, order, first, on=on, scores=scores)
            return found
        if order is None and not isinstance(region, Circle):
            ids = sorted(chain.from_iterable([it.find(region, None, first, on=on) for it, _ in members]))[:first]
            return [(it, 0) for it in ids] if scores else ids
        pairs = _ordered(members, region, order, first, lambda it: it.find(region, order, first, on=on, scores=True))
        if scores:
            return pairs
        return [it for it, _ in pairs]

    def nearest(self, k: int, x: int, y: int) -> list[Pair]:
        return _by_distance(self._overlapping(All()), x, y, k, lambda it: it.nearest(k, x, y))

    def count(self, region: Region, *, on: Layers | None = None) -> int:
        on = repeatable(on)
        return sum([it.count(region, on=on) for it, _ in self._overlapping(region)])

    def levels(self) -> NoReturn:
        """Raises TypeError: levels are those of one tree."""
        raise TypeError("several tables have no levels in common: ask one of them")

    def cost_of_find(self, *query: object, **options: object) -> NoReturn:
        """Raises TypeError: a cost is that of one tree."""
        raise TypeError("several tables have no cost in common: ask one of them")

    cost_of_count = cost_of_find

    def _overlapping(self, region: Region) -> list[Member]:
        """The members that may have an answer, or one that refuses a region that is none."""
        try:
            return [it for it in self._bounded if it[1] is not None and _may_answer(region, *it[1])] or self._bounded[:1]
        except TypeError:
            return self._bounded[:1]

    def _tables(self, call: str) -> list[Rtfilter]:
        tables = [it for it in self._members if isinstance(it, Rtfilter)]
        if len(tables) < len(self._members):
            raise TypeError(f"{call}: a client has single calls alone")
        return tables

    def _found(self, queries: "Queries", has_scores: bool) -> tuple[Any, Any, Any]:
        import numpy

        tables = self._tables("find_each and nearest_each")
        pieces: list[Any] = []
        for begin in range(0, max(len(queries), 1), PART):
            places, ids, scores = _merged(tables, queries.rows(slice(begin, begin + PART)), begin)
            pieces.append((places + begin, ids, scores))
        places, ids = (numpy.concatenate([it[at] for it in pieces]) for at in (0, 1))
        return places, ids, numpy.concatenate([it[2] for it in pieces]) if has_scores else None

    def _counted(self, queries: "Queries") -> "NDArray[Any]":
        import numpy

        from . import merging

        tables = self._tables("count_each")
        counts = numpy.zeros(len(queries), "u8")
        for begin in range(0, len(queries), PART):
            some = queries.rows(slice(begin, begin + PART))
            jobs = _jobs(tables, merging.first_rows(some, merging.bounds_of(tables)))
            for (_, rows), found in zip(jobs, _run(some, lambda table, rows: table._counted(some.rows(rows)), jobs, begin)):
                counts[begin + rows] += found
        return counts


def _ordered(
    members: list[Member], region: Region, order: Order | None, first: int | None, find: Callable[[Any], Any]
) -> list[Pair]:
    """The first answers of members, by score and id."""
    near = Near(region.x, region.y) if order is None and isinstance(region, Circle) else order
    if isinstance(near, Near) and first is not None:
        return _by_distance(members, near.x, near.y, first, find)
    return sorted(chain.from_iterable([find(it) for it, _ in members]), key=itemgetter(1, 0))[:first]


def _by_distance(members: list[Member], x: int, y: int, first: int, find: Callable[[Any], Any]) -> list[Pair]:
    """The first answers by distance from a point. A table that is farther away than the last of them isn't queried."""
    pairs: list[Pair] = []
    try:
        x, y, first = index(x), index(y), index(first)  # (whose products don't overflow as those of numpy)
    except TypeError:
        pairs = find(members[0][0])  # which refuses what isn't whole
        return pairs
    near = sorted(((_square(x, y, *bounds) if bounds else 0, at) for at, (_, bounds) in enumerate(members)))
    for distance, at in near:
        if pairs and len(pairs) >= first and distance > pairs[-1][1]:
            break
        found = find(members[at][0])
        pairs = sorted(chain(pairs, found), key=itemgetter(1, 0))[:first] if pairs else found
    return pairs


def _square(x: int, y: int, min_x: int, min_y: int, max_x: int, max_y: int) -> int:
    """The square of the distance of a point from bounds."""
    across, along = max(min_x - x, x - max_x, 0), max(min_y - y, y - max_y, 0)
    return across * across + along * along


def _may_answer(region: Region, min_x: int, min_y: int, max_x: int, max_y: int) -> bool:
    """Whether a box within bounds may be an answer. Raises TypeError for some of what a table refuses."""
    if isinstance(region, (Window, Inside)):
        return region[0] <= max_x and region[1] >= min_x and region[2] <= max_y and region[3] >= min_y
    if isinstance(region, Covers):
        return region[0] >= min_x and region[1] <= max_x and region[2] >= min_y and region[3] <= max_y
    if isinstance(region, Circle):
        x, y, radius = map(index, region)
        return bool(_square(x, y, min_x, min_y, max_x, max_y) <= radius * radius)
    if isinstance(region, Polygon) and region.vertices:
        xs, ys = zip(*region.vertices)
        return bool(min(xs) <= max_x and max(xs) >= min_x and min(ys) <= max_y and max(ys) >= min_y)
    return True


def _merged(tables: list[Rtfilter], queries: "Queries", begin: int) -> "Piece":
    """The answers to queries, of which the first has this place."""
    from . import merging

    def find(table: Rtfilter, rows: "Rows") -> "Piece":
        places, ids, scores = table._found(queries.rows(rows), queries.is_scored)
        return rows[places], ids, scores

    bounds = merging.bounds_of(tables)
    pieces = _run(queries, find, _jobs(tables, merging.first_rows(queries, bounds)), begin)
    if merging.is_in_two_goes(queries):
        pieces += _run(queries, find, _jobs(tables, merging.more_rows(queries, bounds, pieces)), begin)
    return merging.merged(len(queries), pieces, queries.first)


def _jobs(tables: list[Rtfilter], rows: "list[Rows]") -> "list[tuple[Rtfilter, Rows]]":
    """The tables to query, each with its queries; the first one if there are none."""
    return [it for it in zip(tables, rows) if len(it[1])] or [(tables[0], rows[0])]


def _run(
    queries: "Queries", ask: "Callable[[Rtfilter, Rows], Any]", jobs: "list[tuple[Rtfilter, Rows]]", begin: int
) -> list[Any]:
    """What each table answers: in threads, if there are many queries. Raises the error of the first query that has one."""
    stop = queries.stop = Event()

    def tried(job: "tuple[Rtfilter, Rows]") -> Any:
        try:
            return ask(*job)
        except QueryError as error:
            assert error.place is not None
            return QueryError(error.query, begin + int(job[1][error.place]), error.code, error.text)

    if len(jobs) == 1 or sum(len(rows) for _, rows in jobs) < FEW:
        found = [*map(tried, jobs)]
    else:
        from concurrent.futures import ThreadPoolExecutor

        with ThreadPoolExecutor(len(jobs)) as threads:
            try:
                found = [*threads.map(tried, jobs)]
            finally:  # (threads go on if a signal has broken off the wait for them)
                stop.set()
    errors = [it for it in found if isinstance(it, QueryError)]
    if errors:
        raise min(errors, key=lambda it: it.place or 0)
    return found

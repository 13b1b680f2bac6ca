"""A table of boxes in this process."""

import os
from array import array
from collections.abc import Iterable
from itertools import islice
from typing import TYPE_CHECKING, Any, NoReturn, Self

from . import _engine
from .calls import BulkCalls, Closable
from .errors import FIELD_COUNT, FLOATS, OUT_OF_RANGE, REPEATED, TOO_MANY, QueryError, TableError
from .regions import ORDERS, REGIONS, layer_bits
from .replies import Reply, bytes_of, cut, joined, listed

if TYPE_CHECKING:
    from numpy.typing import NDArray

    from .arrays import Columns, Queries

_engine.know(REGIONS + ORDERS, TableError, QueryError, layer_bits)

FIELDS = ("id", "min_x", "max_x", "min_y", "max_y", "layer")
FORMATS = ("i8", "i4", "i4", "i4", "i4", "u1")  # as numpy names them
CODES = "qiiiiB"  # as the module array does
MOST_ENTRIES = 16_777_216


class Rtfilter(_engine.Table, Closable, BulkCalls):
    """A table of boxes, which any number of threads may query at the same time.

    `table` is the name of a CSV file; rows of (id, min_x, max_x, min_y, max_y) or of these and a layer; an array of shape
    (n, 5) or (n, 6); or a frame, or an array with fields, that has these columns. Raises TableError for a faulty table, OSError
    for a file that can't be read, TypeError if a number isn't whole, and ValueError for a setting out of range.
    """

    def __new__(cls, table: Any, *, header: bool = False, fanout: int = 16, max_entries: int = MOST_ENTRIES) -> Self:
        if isinstance(table, (str, bytes, os.PathLike)):
            return cls._open_named(table, header, fanout, max_entries)
        if header:
            raise ValueError("only a CSV file has a header")
        if hasattr(table, "dtype") or hasattr(table, "columns"):
            from . import arrays

            columns = arrays.columns_of(table, "the table", FIELDS[:5], FIELDS[5:])
            return cls._open_columns(columns, fanout, max_entries)
        if not isinstance(table, Iterable):
            raise TypeError(f"a table is the name of a file, rows, an array or a frame, and not {table!r:.200}")
        return cls._open_rows(table, fanout, max_entries)

    @classmethod
    def from_bounds(
        cls, bounds: Any, *, ids: Any = None, layers: Any = None, fanout: int = 16, max_entries: int = MOST_ENTRIES
    ) -> Self:
        """A table of rows (min_x, min_y, max_x, max_y), the order of shapely's `bounds`: an array of shape (n, 4), a frame with
        these columns, or a list. Without `ids`, the id of a box is its place, from 0."""
        from . import arrays

        return cls._open_columns(arrays.columns_of_bounds(bounds, ids, layers), fanout, max_entries)

    @classmethod
    def _open_named(cls, name: "str | bytes | os.PathLike[str]", header: bool, fanout: int, max_entries: int) -> Self:
        try:
            return cls._open_file(os.fspath(name), header, fanout, max_entries)
        except TableError as error:
            error.file = os.fsdecode(name)
            raise

    @classmethod
    def _open_columns(cls, columns: "Columns", fanout: int, max_entries: int) -> Self:
        from . import arrays

        beyond = arrays.first_beyond(columns, FORMATS)
        sound = columns if beyond is None else [it[: beyond[0]] for it in columns]
        given = arrays.converted(sound, FORMATS)
        if beyond is not None:
            cls._refuse(given, TableError(OUT_OF_RANGE, beyond[0] + 1, beyond[1] + 1), fanout, max_entries)
        return cls._open_arrays(tuple([*given, None][:6]), fanout, max_entries)

    @classmethod
    def _refuse(cls, before: Iterable[Any], fault: TableError, fanout: int, max_entries: int) -> NoReturn:
        """Raises the first fault of a table: that of the boxes before a record, or that of the record."""
        try:
            cls._open_arrays(tuple([*before, None][:6]), fanout, max_entries).close()
        except TableError as error:
            if error.kind != REPEATED:  # ids are compared once all records are read
                raise
        raise fault if fault.record <= max_entries else TableError(TOO_MANY, fault.record, 0)

    @classmethod
    def _open_rows(cls, rows: Iterable[Any], fanout: int, max_entries: int) -> Self:
        columns = [array(code) for code in CODES]
        for record, row in enumerate(islice(rows, MOST_ENTRIES + 1), 1):  # (one too many is enough)
            if not isinstance(row, Iterable) or isinstance(row, (str, bytes)):
                raise TypeError(f"row {record - 1}: {row!r:.50} isn't a row of {', '.join(FIELDS[:5])}")
            fields = tuple(row)
            if len(fields) not in (5, 6):
                cls._refuse(columns, TableError(FIELD_COUNT, record, len(fields)), fanout, max_entries)
            for at, (column, number) in enumerate(zip(columns, fields if len(fields) == 6 else (*fields, 0))):
                try:
                    column.append(number)
                except OverflowError:
                    before = [it[: record - 1] for it in columns]
                    cls._refuse(before, TableError(OUT_OF_RANGE, record, at + 1), fanout, max_entries)
                except TypeError:
                    help = FLOATS if isinstance(number, float) else ""
                    raise TypeError(f"row {record - 1}: {FIELDS[at]} is {number!r}, and not a whole number{help}") from None
        return cls._open_arrays(tuple(columns), fanout, max_entries)

    def __reduce__(self) -> Any:
        raise TypeError("a table can't be pickled: open it in each process, or fork")

    def __len__(self) -> int:
        """How many boxes there are."""
        return self._info()[0]

    def levels(self) -> list[tuple[int, int]]:
        """The levels of the tree from the top, each with how many nodes it has; level 0 is that of the boxes."""
        return [*reversed([*enumerate(self._info()[1])])]

    @property
    def bounds(self) -> tuple[int, int, int, int] | None:
        """The least box around all boxes, as min_x, min_y, max_x, max_y; None if there are none."""
        boxes, _, bounds = self._info()
        return bounds if boxes else None

    def text(self, lines: bytes) -> bytes:
        """What the program writes for the bytes of query lines. The call runs to its end, whatever signals come."""
        return self._text(bytes_of(lines))

    def replies(self, lines: Iterable[str]) -> list[Reply]:
        """The replies to query lines: Answers, a QueryError for a faulty line, None for a blank one and a comment."""
        texts = listed(lines)
        return cut(self._text(joined(texts)), texts)

    def _found(self, queries: "Queries", has_scores: bool) -> tuple[Any, Any, Any]:
        return queries.found_in(self, has_scores)

    def _counted(self, queries: "Queries") -> "NDArray[Any]":
        return queries.counted_in(self)

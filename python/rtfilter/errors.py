"""The errors of the package."""

KINDS = {  # of a table's faults, as the library numbers them
    1: "too many entries",
    2: "wrong number of fields ({field})",
    3: "field {field} is not a number",
    4: "field {field} is out of range",
    5: "minimum above maximum in {axis}",
    6: "repeated id",
}
TOO_MANY, FIELD_COUNT, OUT_OF_RANGE, REPEATED = 1, 2, 4, 6
SIDES = "; the order here is min_x, max_x, min_y, max_y; that of from_bounds and bounds= is min_x, min_y, max_x, max_y"

FLOATS = ": scale and round floats, or use rtfilter.geometry.STRtree, which compares them"


class RtfilterError(Exception):
    """An error of this package."""


class TableError(RtfilterError, ValueError):
    """A faulty table: the kind of its first fault (see KINDS), the number of its record and its field, from 1, and the name of
    the file, if it is one."""

    def __init__(self, kind: int, record: int, field: int) -> None:
        super().__init__(kind, record, field)
        self.kind, self.record, self.field = kind, record, field
        self.file: str | None = None

    @property
    def text(self) -> str:
        """The fault in the words of the program."""
        words = KINDS[self.kind].format(field=self.field, axis="x" if self.field == 2 else "y")
        return f"table record {self.record}: {words}"

    def __str__(self) -> str:
        return (f"{self.file}: " if self.file else "") + self.text + (SIDES if self.kind == 5 else "")


class QueryError(RtfilterError, ValueError):
    """An invalid query: its region or its line, its place among many, and the code and the text of the fault."""

    def __init__(self, query: object, place: int | None, code: str, text: str) -> None:
        super().__init__(query, place, code, text)
        self.query, self.place, self.code, self.text = query, place, code, text

    def __str__(self) -> str:
        try:
            query = "" if self.query is None else f": {self.query!s:.200}"
        except ValueError:  # a number with more digits than Python prints
            query = ""
        place = "" if self.place is None else f", at place {self.place}"
        return f"{self.code} {self.text}{query}{place}" + (SIDES if self.code == "Q7" else "")


class Disconnected(RtfilterError, ConnectionError):
    """A service closed the connection, or sent what is no reply."""


class TimedOut(RtfilterError, TimeoutError):
    """No reply within the timeout of a `Client`. Its next call reconnects."""

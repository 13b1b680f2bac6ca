"""Ways to open a table, and what is refused."""

import os
import pickle
import subprocess
from collections.abc import Iterator
from itertools import repeat
from pathlib import Path
from typing import Any

import numpy
import pandas
import pytest
from conftest import PROGRAM

from rtfilter import All, RtfilterError, Rtfilter, Smallest, TableError, arrays
from rtfilter import table as module

ROWS = [(1, 0, 10, 0, 10), (2, 5, 15, 5, 15), (3, 20, 30, 0, 10), (4, -5, -1, -5, -1), (5, 12, 12, 12, 12)]
NAMES = ["id", "min_x", "max_x", "min_y", "max_y"]
SIDES = "the order here is min_x, max_x, min_y, max_y; that of from_bounds and bounds= is min_x, min_y, max_x, max_y"


def fielded(rows: Any) -> Any:
    """An array with fields, in another order and with other capital letters."""
    array = numpy.array(rows)
    fields = numpy.empty(len(rows), [("maxX", "i4"), ("ID", "u8"), ("min_y", "i8"), ("MinX", "i2"), ("max_y", "i4")])
    for name, column in zip(["ID", "MinX", "maxX", "min_y", "max_y"], array.T):
        fields[name] = column
    return fields


class Columns(dict[str, Any]):
    """A frame that is no pandas': what it iterates over is its columns."""

    columns = property(dict.keys)

    def __iter__(self) -> Iterator[Any]:
        return iter(self.values())


WAYS: list[Any] = [
    ROWS,
    iter(ROWS),
    map(list, ROWS),
    numpy.array(ROWS),
    numpy.array(ROWS, "i4"),
    numpy.array(ROWS, object),
    numpy.asfortranarray(ROWS),
    numpy.array([(*row, 0) for row in ROWS], "i2"),
    numpy.ma.array(ROWS),
    pandas.DataFrame(ROWS, columns=NAMES),
    pandas.DataFrame(ROWS, columns=NAMES)[NAMES[::-1]].assign(other="x"),
    pandas.DataFrame(ROWS, columns=["ID", "minX", "maxX", "minY", "maxY"], dtype="Int64"),
    fielded(ROWS),
    Columns(zip(NAMES, numpy.array(ROWS).T)),
    [(*row, 0) if row[0] % 2 else row for row in ROWS],
]


@pytest.mark.parametrize("table", WAYS)
def test_ways_in(table: Any, data: Path) -> None:
    with Rtfilter(data / "boxes.csv") as file, Rtfilter(table) as other:
        rows = [*map(tuple, numpy.loadtxt(data / "boxes.csv", delimiter=",", dtype="i8").tolist())]
        assert len(other) == len(ROWS) and len(file) == len(rows)
        assert other.find(All(), Smallest(), scores=True) == [(5, 0), (4, 16), (1, 100), (2, 100), (3, 100)]
        assert other.bounds == (-5, -5, 30, 15)


def test_bounds() -> None:
    bounds = [(0, 5, 10, 15), (20, 0, 30, 10)]
    for given in (bounds, numpy.array(bounds), pandas.DataFrame(bounds, columns=["minx", "miny", "maxx", "maxy"])):
        with Rtfilter.from_bounds(given) as table:
            assert table.find(All(), Smallest(), scores=True) == [(0, 100), (1, 100)] and table.bounds == (0, 0, 30, 15)
        with Rtfilter.from_bounds(given, ids=[7, -7], layers=numpy.array([3, 63], "u1"), fanout=2) as table:
            assert table.find(All(), on=3) == [7] and table.find(All(), on=63) == [-7]
    with pytest.raises(TypeError, match=r"ids: the shape is \(1,\), and not \(2,\)"):
        Rtfilter.from_bounds(bounds, ids=[7])
    with pytest.raises(TypeError, match="layers: numbers are float64, and not whole"):
        Rtfilter.from_bounds(bounds, layers=numpy.array([1.0, 2.0]))
    with pytest.raises(TypeError, match="layers: row 1: 2.0 isn't a whole number"):
        Rtfilter.from_bounds(bounds, layers=[1, 2.0])


def test_nothing() -> None:
    for empty in (Rtfilter([]), Rtfilter(numpy.empty((0, 5), "i8")), Rtfilter.from_bounds([]), Rtfilter.from_bounds([], layers=[])):
        assert (len(empty), empty.bounds, empty.levels(), empty.find(All())) == (0, None, [(0, 0)], [])
        assert bool(empty)


def test_settings(tmp_path: Path, data: Path) -> None:
    table = tmp_path / "-table"
    table.write_text("id,minX,maxX,minY,maxY\n" + (data / "boxes.csv").read_text())
    with Rtfilter(os.fspath(table), header=True, fanout=2, max_entries=5) as boxes:
        assert boxes.levels() == [(3, 1), (2, 2), (1, 3), (0, 5)]
    for bad in ({"fanout": 1}, {"fanout": 65}, {"fanout": 2**70}, {"fanout": -1}, {"max_entries": 0}, {"max_entries": 2**24 + 1}):
        with pytest.raises(ValueError, match="^fanout is 2 to 64, and max_entries 1 to 16777216$"):
            Rtfilter(ROWS, **bad)
    with pytest.raises(TypeError, match="^2.5 isn't a whole number$"):
        Rtfilter(table, fanout=2.5)  # type: ignore[arg-type]
    with pytest.raises(ValueError, match="only a CSV file has a header"):
        Rtfilter(ROWS, header=True)


FAULTS: list[tuple[str, tuple[int, int, int]]] = [
    ("1,0,1,0,1\n2,0,1,0\n", (2, 2, 4)),
    ("x,0,1,0,1\n", (3, 1, 1)),
    ("1,0,1,0,2147483648\n", (4, 1, 5)),
    ("1,0,1,0,1\n2,1,0,0,1\n", (5, 2, 2)),
    ("1,0,1,1,0\n", (5, 1, 4)),
    ("1,0,1,0,1\n1,0,1,0,1\n", (6, 2, 1)),
]


@pytest.mark.parametrize("text, fault", FAULTS)
def test_faulty_files(text: str, fault: tuple[int, int, int], tmp_path: Path) -> None:
    table = tmp_path / "table"
    table.write_text(text)
    with pytest.raises(TableError) as raised:
        Rtfilter(table)
    error = raised.value
    assert (error.kind, error.record, error.field) == fault and isinstance(error, (ValueError, RtfilterError))
    done = subprocess.run([PROGRAM, table], input=b"", capture_output=True)
    assert done.stderr.decode() == f"rtfilter: {error.text}\n"
    assert str(error) == f"{table}: {error.text}" + (f"; {SIDES}" if error.kind == 5 else "")


ONE = (1, 0, 1, 0, 1)


@pytest.mark.parametrize(
    "rows, fault",
    [
        ([ONE, (2, 0, 2**31, 0, 1)], (4, 2, 3)),
        ([(1, 0, 1, -(2**31) - 1, 1), (2, 0, 2**40, 0, 1)], (4, 1, 4)),
        ([ONE, (2**63, 0, 1, 0, 1)], (4, 2, 1)),
        ([ONE, (2**63 + 1024, 0, 1, 0, 1)], (4, 2, 1)),  # 2**63 - 1 in floats, as the one before
        ([ONE, (2**64 - 1, 0, 1, 0, 1)], (4, 2, 1)),
        ([(-(2**63) - 1, 0, 1, 0, 1)], (4, 1, 1)),
        ([(1, 5, 1, 0, 1), (2, 0, 2**31, 0, 1)], (5, 1, 2)),
        ([(*ONE, 64)], (4, 1, 6)),
        ([(*ONE, 256)], (4, 1, 6)),
        ([(*ONE, -1)], (4, 1, 6)),
        ([ONE, ONE], (6, 2, 1)),
        ([ONE, ()], (2, 2, 0)),
        ([ONE, (1, 0, 1, 0)], (2, 2, 4)),
        ([ONE, (*ONE, 0, 0)], (2, 2, 7)),
        ([(1, 5, 1, 0, 1), (2, 0, 1, 0)], (5, 1, 2)),
        ([ONE, ONE, (2, 0, 1, 0)], (2, 3, 4)),
        ([ONE, ONE, (2, 0, 2**31, 0, 1)], (4, 3, 3)),
        ([ONE] * 4, (1, 4, 0)),
        ([ONE] * 3 + [(2, 0, 1, 0)], (1, 4, 0)),
        ([ONE] * 3 + [(2, 0, 2**31, 0, 1)], (1, 4, 0)),
    ],
)
def test_faulty_rows(rows: list[Any], fault: tuple[int, int, int]) -> None:
    """The fault is that of a file of these rows, but for ids, which are compared last."""
    tables: list[Any] = [rows]
    if len({*map(len, rows)}) == 1:
        tables += [numpy.array(rows, object), *(it for it in [numpy.array(rows)] if it.dtype.kind in "iu")]
    for table in tables:
        with pytest.raises(TableError) as raised:
            Rtfilter(table, max_entries=3)
        assert (raised.value.kind, raised.value.record, raised.value.field) == fault


def test_rows_without_end(monkeypatch: pytest.MonkeyPatch) -> None:
    monkeypatch.setattr(module, "MOST_ENTRIES", 5)
    with pytest.raises(TableError, match="^table record 6: too many entries$"):
        Rtfilter(repeat(ONE), max_entries=5)


def test_rows_that_are_not_whole() -> None:
    """An error has the row and the number, of a list, of an array of objects and of a column."""
    rows = [(1, 2, 3, 4), (1, 2, 16.5, 4)]
    for bounds in (rows, numpy.array(rows, object)):
        with pytest.raises(TypeError, match="^bounds: row 1: 16.5 isn't a whole number: scale and round floats, or use rtfilter"):
            Rtfilter.from_bounds(bounds)
    with pytest.raises(TypeError, match="^ids: row 1: 'a' isn't a whole number$"):
        Rtfilter.from_bounds([(1, 2, 3, 4)] * 2, ids=numpy.array([5, "a"], object))


def test_arrays_are_aligned() -> None:
    """The library wants that of its callers."""
    shifted = numpy.frombuffer(b"x" + numpy.arange(10).tobytes(), "i8", offset=1)
    (column,) = arrays.converted([shifted], ["i8"])
    assert not shifted.flags.aligned and column.flags.aligned and column.tolist() == [*range(10)]
    assert arrays.converted([column], ["i8"])[0] is column
    assert Rtfilter.from_bounds([(0, 0, 1, 1)] * 10, ids=shifted).find(All()) == [*range(10)]


def test_numbers_are_never_wrapped() -> None:
    for kind, number in (("i8", 2**32), ("u4", 2**31), ("u8", 2**63), ("i8", -(2**31) - 1)):
        with pytest.raises(TableError, match="out of range"):
            Rtfilter(numpy.array([(1, number, number, 0, 1)], kind))
    for ids in (numpy.array([7, 2**63], "u8"), numpy.array([7, 2**63], object), [7, 2**63]):  # (of the list numpy makes floats)
        with pytest.raises(TableError, match="^table record 2: field 1 is out of range$"):
            Rtfilter.from_bounds([(0, 0, 1, 1)] * 2, ids=ids)


FRAME = pandas.DataFrame(ROWS, columns=NAMES)


@pytest.mark.parametrize(
    "table, words",
    [
        ([(1, 0, 1.5, 0, 1)], "row 0: max_x is 1.5, and not a whole number"),
        ([(1, 0, "1", 0, 1)], "row 0: max_x is '1', and not a whole number"),
        ([ROWS[0], (2, None, 1, 0, 1)], "row 1: min_x is None, and not a whole number"),
        (numpy.array(ROWS, float), "the table: numbers are float64, and not whole"),
        (numpy.array([(1, 0, numpy.nan, 0, 1)]), "the table: numbers are float64, and not whole"),
        (numpy.array([(1, 0, 1.0, 0, 1)], object), "the table: row 0: 1.0 isn't a whole number: scale and round floats"),
        (numpy.array(ROWS, bool), "the table: numbers are bool, and not whole"),
        (numpy.ma.array(ROWS, mask=[[0] * 5] * 4 + [[0, 0, 0, 0, 1]]), "the table: a number is masked"),
        (numpy.zeros((3, 4), "i8"), r"the table: the shape is (3, 4), and not (n, 5 or 6)"),
        (numpy.zeros(5, "i8"), r"the table: the shape is (5,), and not (n, 5 or 6)"),
        (FRAME.drop(columns="max_y"), "the table: there is no column max_y among id, min_x, max_x, min_y"),
        (FRAME.assign(maxY=1), "the table: the columns max_y and maxY are both max_y"),
        (FRAME.assign(min_x=FRAME.min_x / 2), "the table: numbers are float64, and not whole"),
        (FRAME.astype("Int64").replace(30, pandas.NA), "the table: row 2: <NA> isn't a whole number"),
        (7, "a table is the name of a file, rows, an array or a frame, and not 7"),
        ([ROWS[0], 7], "row 1: 7 isn't a row of id, min_x, max_x, min_y, max_y"),
        (["1,0,1,0,1\n"], "row 0: '1,0,1,0,1\\n' isn't a row of id, min_x, max_x, min_y, max_y"),
        ({"id": [1], "min_x": [0]}, "row 0: 'id' isn't a row of id, min_x, max_x, min_y, max_y"),
    ],
)
def test_other_types(table: Any, words: str) -> None:
    with pytest.raises(TypeError) as raised:
        Rtfilter(table)
    assert words in str(raised.value)


def test_files_that_cannot_be_read(tmp_path: Path) -> None:
    for bad, error in ((tmp_path / "none", FileNotFoundError), (tmp_path, IsADirectoryError), (tmp_path / "a" / "b", FileNotFoundError)):
        with pytest.raises(error) as raised:
            Rtfilter(bad)
        assert raised.value.filename == os.fspath(bad) and repr(os.fspath(bad)) in str(raised.value)
    with pytest.raises(ValueError, match="null"):
        Rtfilter("a\0b")


def test_a_table_is_not_pickled(boxes: Rtfilter) -> None:
    with pytest.raises(TypeError, match="a table can't be pickled"):
        pickle.dumps(boxes)


def test_closed(boxes: Rtfilter) -> None:
    boxes.close()
    boxes.close()
    array = numpy.array([(0, 1, 0, 1)])
    for call in (
        lambda: boxes.find(All()),
        lambda: boxes.nearest(1, 0, 0),
        lambda: boxes.count(All()),
        lambda: boxes.cost_of_find(All()),
        lambda: boxes.cost_of_count(All()),
        lambda: boxes.levels(),
        lambda: len(boxes),
        lambda: boxes.bounds,
        lambda: boxes.text(b"count all"),
        lambda: boxes.replies(["count all"]),
        lambda: boxes.find_each(array),
        lambda: boxes.count_each(array),
        lambda: boxes.nearest_each(array[:, :2], 1),
    ):
        with pytest.raises(ValueError, match="the table was closed"):
            call()

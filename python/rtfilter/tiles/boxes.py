"""The boxes of a table with their layers and names, and the index that finds them."""

import codecs
import csv
import os
from collections.abc import Sequence
from typing import Any, BinaryIO, NamedTuple

import numpy
import pandas
from numpy.typing import NDArray

from .. import All, Rtfilter
from .mercator import DEEPEST, HALF, Window

MOST_IN_TILE = 5000  # boxes: a tile with more has counts
SHARE = 0.1  # of the boxes, which make a whole level have counts
LAYERS = 64
FIELDS = ["id", "min_x", "max_x", "min_y", "max_y", "layer"]

Box = list[int]
"""x1, x2, y1, y2 and the layer."""


class Files(NamedTuple):
    """The files that are served: a table, perhaps with a header, and CSV files of numbers and names."""

    table: str
    has_header: bool = False
    names: str | None = None
    layers: str | None = None


class Boxes:
    """The boxes of a table, which is read twice. Raises OSError, TableError for a faulty table, and ValueError for names that can't be
    used."""

    def __init__(self, files: Files) -> None:
        self.found = Rtfilter(files.table, header=files.has_header)
        """What answers queries."""
        frame = read(files, self.found.count(All(), on=range(1, LAYERS)) > 0)
        frame = frame.sort_values("id", kind="stable")
        self._ids = frame["id"].to_numpy()
        self._boxes = numpy.ascontiguousarray(frame[FIELDS[1:]].to_numpy("i8"))
        self.names = names_of(files.names)
        known, layers = names_of(files.layers), numpy.unique(self._boxes[:, 4]).tolist()
        self.layers = {number: known.get(number, f"layer {number}") for number in layers}
        """The names of the layers that have boxes."""
        if len({"density", *self.layers.values()}) <= len(self.layers):
            raise ValueError(f"{files.layers}: two layers have the same name, or one has the name density")
        self.counts = LevelCounts(self._boxes)

    def __len__(self) -> int:
        """How many boxes there are."""
        return len(self._ids)

    def of(self, ids: Sequence[int]) -> list[Box]:
        """The boxes of ids that the table has."""
        boxes: list[Box] = self._boxes[numpy.searchsorted(self._ids, numpy.array(ids, "i8"))].tolist()
        return boxes

    @property
    def bounds(self) -> Window:
        """The smallest window around all boxes; a point if there are none."""
        x1, y1, x2, y2 = self.found.bounds or (0, 0, 0, 0)
        return x1, x2, y1, y2

    @property
    def has_id_below_zero(self) -> bool:
        return len(self._ids) > 0 and bool(self._ids[0] < 0)


def read(files: Files, has_layers: bool) -> Any:
    """A table that `Rtfilter` takes, as a frame. A record without a layer has layer 0."""
    # (if some box has another layer, some record has a sixth field, as pandas needs it of a column)
    names = FIELDS if has_layers else FIELDS[:5]
    kinds = {name: "f8" if name == "layer" else "i8" for name in names}
    with open(files.table, "rb") as file:
        find_first_record(file)
        frame = pandas.read_csv(
            file, header=None, skiprows=int(files.has_header), names=names, usecols=range(len(names)), dtype=kinds,
            encoding_errors="replace",
        )  # fmt: skip
    return frame.assign(layer=frame["layer"].fillna(0).astype("i8") if has_layers else 0)


def find_first_record(file: BinaryIO) -> None:
    """Moves behind a byte order mark and blank lines, of which pandas would take one for the header."""
    if file.read(len(codecs.BOM_UTF8)) != codecs.BOM_UTF8:
        file.seek(0)
    while (byte := file.read(1)) in (b"\r", b"\n"):
        pass
    file.seek(-len(byte), os.SEEK_CUR)


def names_of(file: str | None) -> dict[int, str]:
    """The names in a CSV file of numbers and names. None if there is no file."""
    if file is None:
        return {}
    with open(file, encoding="utf-8-sig", newline="") as text:
        records = csv.reader(text)
        try:
            return {int(number): name for number, name in filter(None, records)}
        except (ValueError, csv.Error):
            raise ValueError(f"{file}, line {records.line_num}: not a number and a name") from None


class LevelCounts:
    """How many boxes of each layer begin in tiles, by level, of the tiles in which too many begin."""

    def __init__(self, boxes: NDArray[Any]) -> None:
        self._totals = numpy.bincount(boxes[:, 4], minlength=LAYERS)
        self._levels: list[NDArray[Any]] = []  # for each level a row of LAYERS for each of its full tiles
        left = boxes[(numpy.abs(boxes[:, [0, 2]]) <= HALF).all(axis=1)]  # (others begin in no tile)
        for z in range(DEEPEST + 1):
            x, y = (tile_of(left[:, side], z) for side in (0, 2))
            _, tiles, counts = numpy.unique(x << 32 | y, return_inverse=True, return_counts=True)
            is_full = counts > MOST_IN_TILE
            if not is_full.any():
                break
            # (a tile is no fuller than the one that holds it)
            is_left = is_full[tiles]
            left, tiles = left[is_left], tiles[is_left]
            by_layer = numpy.zeros((len(counts), LAYERS), "i8")
            numpy.add.at(by_layer, (tiles, left[:, 4]), 1)
            self._levels.append(by_layer[is_full])

    def deepest(self, on: Sequence[int] | None) -> int:
        """The deepest level at which a tenth of the boxes of these layers, or of all, lie in tiles with too many; -1 for none."""
        layers = [*range(LAYERS)] if on is None else sorted({*on})
        total = self._totals[layers].sum()
        for z in range(len(self._levels) - 1, -1, -1):
            counts = self._levels[z][:, layers].sum(axis=1)
            if (full := counts[counts > MOST_IN_TILE].sum()) and full >= SHARE * total:
                return z
        return -1


def tile_of(coordinates: NDArray[Any], z: int) -> NDArray[Any]:
    """The places of the tiles that hold coordinates, counted from the west or the south."""
    return (coordinates + HALF << z) // (2 * HALF + 1)

"""What is shown of a table: windows of a map, tiles, and the answers to a query line. Each has a bound."""

import math
import re
from collections.abc import Sequence
from functools import lru_cache
from typing import Any

from .. import All, QueryError, Rtfilter, Window
from . import mvt
from .boxes import MOST_IN_TILE, Boxes
from .mercator import cells_of, cuts, window_of
from .mercator import Window as Sides

MOST_IN_VIEW = 3000  # boxes: a view of more shows counts
MOST_ANSWERS = 1000
MOST_CELLS = 2304  # of a view
TILE_CELLS = 32  # cells of a tile, on each side
KEPT_LEVELS = 256  # choices of layers whose deepest level with counts is kept

LIMIT = re.compile(r"\+?([0-9]{1,9})")
WITH_BOXES = ("find", "nearest")
NO_BOXES = Rtfilter([])  # a line is invalid for every table or for none, and costs nothing here


class Views:
    """Views of boxes."""

    def __init__(self, boxes: Boxes) -> None:
        self._boxes = boxes
        self._found = boxes.found
        self._deepest = lru_cache(KEPT_LEVELS)(boxes.counts.deepest)
        self.bounds = boxes.bounds
        self.layer_names = [*boxes.layers.values()]
        layers = [{"number": number, "name": name} for number, name in boxes.layers.items()]
        self.fields = {"name": "String"} | ({"id": "Number"} if boxes.has_id_below_zero else {})
        self.about = {"boxes": len(boxes), "bounds": self.bounds, "layers": layers, "answers": MOST_ANSWERS}
        """What a page needs at its start."""

    def __len__(self) -> int:
        """How many boxes were loaded."""
        return len(self._boxes)

    def size(self) -> int:
        """How many boxes the table has, by a query."""
        return self._found.count(All())

    def view(self, window: Sides, on: list[int] | None) -> dict[str, Any]:
        """The boxes that overlap a window, or how many overlap each of its cells. Raises QueryError for another window."""
        count = self._found.count(Window(*window), on=on)
        if count <= MOST_IN_VIEW:
            return {"count": count, "boxes": self._shown(self._found.find(Window(*window), on=on))}
        columns, rows = grid_of(window)
        across, along = cuts(*window[:2], columns), cuts(*window[2:], rows)
        return {"count": count, "across": across, "along": along, "counts": self._counts(cells_of(across, along), on)}

    def _counts(self, cells: list[Sides], on: list[int] | None) -> list[int]:
        """How many boxes overlap each cell. One that lies over a border is counted on both sides of it."""
        counts: list[int] = self._found.count_each(cells, on=on).tolist()
        return counts

    def _shown(self, ids: Sequence[int]) -> list[dict[str, Any]]:
        """Boxes for a page. Their ids are texts: numbers of JavaScript don't hold every id."""
        names = self._boxes.names
        shown: list[dict[str, Any]] = []
        for id, (*sides, layer) in zip(ids, self._boxes.of(ids)):
            shown.append({"id": str(id), "box": sides, "layer": layer, **({"name": names[id]} if id in names else {})})
        return shown

    def ask(self, line: str) -> dict[str, Any]:
        """The program's answer to a line, and how many nodes the query opens. Scores are texts, as ids are."""
        (reply,) = NO_BOXES.replies([line])
        fault = None if isinstance(reply, QueryError) else unbounded(line)
        if fault:
            return {"fault": fault}
        reply, cost = self._found.replies([line, f"cost {line}"])
        if isinstance(reply, QueryError):
            return {"fault": f"{reply.code} {reply.text}"}
        if reply is None:
            return {"fault": "a line that is blank, or a comment, is not answered"}
        answers: list[dict[str, Any]] = [{"id": str(id), "score": str(score)} for id, score in zip(reply.ids, reply.scores)]
        if line.split()[0] in WITH_BOXES:
            answers = [{**shown, **answer} for shown, answer in zip(self._shown(reply.ids), answers)]
        nodes = None if cost is None or isinstance(cost, QueryError) else cost.total
        return {"total": reply.total, "answers": answers, "nodes": nodes}

    def tile(self, z: int, x: int, y: int, on: list[int] | None) -> bytes:
        """A vector tile: a layer for each layer of boxes that overlap it, or one with counts, whose name is `density`.

        A feature's own id is its box's; one below 0, which a tile can't hold, is a property.
        """
        window = window_of(z, x, y)
        deepest = self._deepest(None if on is None else tuple(sorted({*on})))
        if z <= deepest or self._found.count(Window(*window), on=on) > MOST_IN_TILE:
            return self._density_tile(window, on)
        ids = self._found.find(Window(*window), on=on)
        boxes = self._boxes.of(ids)
        layers = {number: mvt.Layer(name) for number, name in self._boxes.layers.items()}
        owns = [*mvt.id_fields(ids)]
        for at, id in enumerate(ids):
            if id in self._boxes.names or id < 0:
                owns[at] += layers[boxes[at][-1]].tags(self._properties(id))
        for (_, _, _, _, number), feature in zip(boxes, mvt.rectangles(window, boxes, owns)):
            layers[number].features.append(feature)
        return b"".join([layer.encoded() for layer in layers.values() if layer.features])

    def _properties(self, id: int) -> dict[str, mvt.Value]:
        """What a feature has beside its own id."""
        found: dict[str, mvt.Value] = {} if id >= 0 else {"id": id}
        if id in self._boxes.names:
            found["name"] = self._boxes.names[id]
        return found

    def _density_tile(self, window: Sides, on: list[int] | None) -> bytes:
        density = mvt.Layer("density")
        cells = cells_of(cuts(*window[:2], TILE_CELLS), cuts(*window[2:], TILE_CELLS))
        counted = [(cell, count) for cell, count in zip(cells, self._counts(cells, on)) if count]
        owns = [density.tags({"count": count}) for _, count in counted]
        density.features += mvt.rectangles(window, [[*cell, 0] for cell, _ in counted], owns)
        return density.encoded()


def grid_of(window: Sides) -> tuple[int, int]:
    """How many columns and rows of cells a view has, so that cells are about as wide as high."""
    x1, x2, y1, y2 = window
    columns = round(math.sqrt(MOST_CELLS * (x2 - x1 + 1) / (y2 - y1 + 1)))
    columns = min(max(columns, 1), MOST_CELLS)
    return columns, MOST_CELLS // columns


def unbounded(line: str) -> str | None:
    """Why a line isn't answered here: it may have too many answers, or cost as much as they do."""
    words = line.split()
    if words[:1] == ["cost"]:
        del words[0]
    if words[:1] == ["find"] and not (words[-2:-1] == ["first"] and is_bounded(words[-1])):
        return f"here a find has to end with first K, where K is at most {MOST_ANSWERS}"
    if words[:1] == ["nearest"] and not is_bounded("".join(words[1:2])):
        return f"here nearest K has a K of at most {MOST_ANSWERS}"
    return None


def is_bounded(word: str) -> bool:
    number = LIMIT.fullmatch(word)
    return number is not None and int(number[1]) <= MOST_ANSWERS

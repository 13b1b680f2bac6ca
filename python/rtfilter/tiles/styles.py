"""Where the tiles are and how to draw them, for other programs: TileJSON 3.0, and a style for MapLibre."""

import math
from itertools import pairwise
from typing import Any

from .mercator import DEEPEST, HALF, Window

TILES = "{z}/{x}/{y}.pbf"
COLOURS = ["#b08d57", "#c8324b", "#e0782a", "#8a7f3c", "#888888", "#4a76b5", "#3c8d6e", "#8a5fae"]  # those of page.js
LAND, DENSE = "#f6f3ec", "#1c488c"
SHADES = [(1, 0.15), (4, 0.28), (16, 0.41), (64, 0.54), (256, 0.67), (1024, 0.8)]  # from these counts on


def tile_json(address: str, bounds: Window, layers: list[str], fields: dict[str, str]) -> dict[str, Any]:
    """Where tiles are, in TileJSON 3.0. `address` is that of the server, with a slash at its end; each layer of boxes has
    these fields."""
    x1, x2, y1, y2 = bounds
    west, east, south, north = longitude(x1), longitude(x2), latitude(y1), latitude(y2)
    return {
        "tilejson": "3.0.0",
        "name": "boxes",
        "scheme": "xyz",
        "tiles": [address + TILES],
        "minzoom": 0,
        "maxzoom": DEEPEST,
        "bounds": [west, south, east, north],
        "center": [(west + east) / 2, (south + north) / 2, level_of(max(x2 - x1, y2 - y1))],
        "vector_layers": [
            *({"id": layer, "fields": fields} for layer in layers),
            {"id": "density", "description": "where boxes are too many", "fields": {"count": "Number"}},
        ],
    }


def style(address: str, layers: list[str]) -> dict[str, Any]:
    """A style for MapLibre (version 8): each layer in a colour, and cells in shades by their counts."""
    drawn: list[dict[str, Any]] = [{"id": "land", "type": "background", "paint": {"background-color": LAND}}]
    # A layer for each shade: other programs that take a style pass over expressions of what a feature has.
    for (least, shade), (above, _) in pairwise([*SHADES, (None, None)]):
        counts: list[Any] = ["all", [">=", ["get", "count"], least]]
        if above is not None:
            counts.append(["<", ["get", "count"], above])
        paint = {"fill-color": DENSE, "fill-opacity": shade}
        drawn.append({**fill(f"density from {least}", "density", paint), "filter": counts})
    for at, layer in enumerate(layers):
        colour = COLOURS[at % len(COLOURS)]
        drawn.append(fill(layer, layer, {"fill-color": colour, "fill-opacity": 0.3, "fill-outline-color": colour}))
    return {
        "version": 8,
        "name": "boxes",
        "sources": {"boxes": {"type": "vector", "url": f"{address}tiles.json"}},
        "layers": drawn,
    }


def fill(id: str, layer: str, paint: dict[str, Any]) -> dict[str, Any]:
    return {"id": f"fill of {id}", "type": "fill", "source": "boxes", "source-layer": layer, "paint": paint}


def longitude(x: int) -> float:
    return max(-180.0, min(180.0, round(x / HALF * 180, 7)))


def latitude(y: int) -> float:
    return max(-85.0511288, min(85.0511288, round(math.degrees(math.atan(math.sinh(y / HALF * math.pi))), 7)))


def level_of(length: int) -> int:
    """The level of zoom at which this length is as wide as two tiles at most."""
    return max(0, min(DEEPEST, math.floor(math.log2(4 * HALF / max(length, 1)))))

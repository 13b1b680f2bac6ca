"""Web Mercator in whole centimetres, which 32 bits hold, and the tiles that part the world in it."""

HALF = 2003750834  # centimetres from the middle of the world to each of its sides
DEEPEST = 22  # levels of zoom: a tile is then about 10 metres wide

Window = tuple[int, int, int, int]
"""x1, x2, y1, y2: closed, and y grows to the north."""

Interval = tuple[int, int]
"""The first and the last of some coordinates."""


def window_of(z: int, x: int, y: int) -> Window:
    """The window of a tile. Tiles are counted from the north west, and two of one level share no coordinate."""
    tiles = 1 << z
    north = tiles - 1 - y
    return edge(x, tiles), edge(x + 1, tiles) - 1, edge(north, tiles), edge(north + 1, tiles) - 1


def edge(place: int, tiles: int) -> int:
    """The first coordinate of a tile, counted from the west or the south."""
    return -HALF + (2 * HALF + 1) * place // tiles


def cuts(low: int, high: int, parts: int) -> list[Interval]:
    """An interval in a number of parts, nearly equal, that share no coordinate. None is empty: of an interval that has fewer
    coordinates there are as many parts as coordinates, and of none none."""
    length = max(0, high - low + 1)
    parts = min(parts, length)
    edges = [low + length * part // parts for part in range(parts + 1)] if parts else []
    return [(first, after - 1) for first, after in zip(edges, edges[1:])]


def cells_of(across: list[Interval], along: list[Interval]) -> list[Window]:
    """The cells of a window that is cut on x and on y, row by row from the south."""
    return [(west, east, south, north) for south, north in along for west, east in across]

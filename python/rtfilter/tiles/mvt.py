"""Vector tiles of boxes as the Mapbox Vector Tile specification 2.1 writes them: protocol buffers, made by hand."""

from collections.abc import Iterable, Iterator

from .boxes import Box
from .mercator import Window

EXTENT = 4096  # units of a tile's side
BUFFER = 64  # units beside the tile, where what is cut off ends
LONGEST = EXTENT + 2 * BUFFER  # side of what is drawn
POLYGON = 3
MOVE_TO, LINE_TO, CLOSE_PATH = 1, 2, 7

Value = int | str


def varint(number: int) -> bytes:
    """A whole number from 0, seven bits a byte, the lowest first."""
    if number < len(VARINTS):
        return VARINTS[number]
    return PAIRS[number & TWO_SEVENS] + varint(number >> 14)


def two_at_most(number: int) -> bytes:
    """A number of 14 bits at most."""
    return bytes((number,)) if number < 128 else bytes((number & 127 | 128, number >> 7))


def zigzag(number: int) -> bytes:
    """A number with a sign: 0, -1, 1, -2, .. as 0, 1, 2, 3, .."""
    return varint(2 * number if number >= 0 else -2 * number - 1)


# A table has most numbers of a tile, and the others are made of two and two of their bytes.
TWO_SEVENS = (1 << 14) - 1
VARINTS = [two_at_most(number) for number in range(TWO_SEVENS + 1)]
PAIRS = [bytes((number & 127 | 128, number >> 7 | 128)) for number in range(TWO_SEVENS + 1)]


def number_field(field: int, number: int) -> bytes:
    return varint(field << 3) + varint(number)


def head(field: int) -> bytes:
    """What stands before the length of a field of bytes."""
    return varint(field << 3 | 2)


def bytes_field(field: int, content: bytes) -> bytes:
    return head(field) + varint(len(content)) + content


def encoded_value(value: Value) -> bytes:
    """A value of a property: a text, or a whole number of 64 bits with a sign."""
    if isinstance(value, str):
        return bytes_field(1, value.encode())
    return WHOLE + zigzag(value)


def command(kind: int, times: int) -> bytes:
    return varint(kind | times << 3)


ID, WHOLE = varint(1 << 3), varint(6 << 3)
ID_PAIRS = [ID + pair for pair in PAIRS]

# A rectangle is written in five parts, each of which is made once: a move to its first corner, along x and along y, and
# three steps from there. What begins below 0 stands at its own index too.
MOVES = [command(MOVE_TO, 1) + zigzag(left) for left in [*range(LONGEST + 1), *range(-BUFFER, 0)]]
STEPS = [zigzag(step) for step in [*range(LONGEST + 1), *range(-BUFFER, 0)]]
ACROSS = [command(LINE_TO, 3) + STEPS[wide] + 2 * STEPS[0] for wide in range(LONGEST + 1)]
BACK = [zigzag(-wide) + STEPS[0] + command(CLOSE_PATH, 1) for wide in range(LONGEST + 1)]

# What stands before a rectangle, and before a feature's own id and tags, by the lengths of what follows.
SHAPES = [number_field(3, POLYGON) + head(4) + varint(size) for size in range(128)]
FEATURES = [head(2) + varint(size + len(SHAPES[0])) for size in range(1 << 10)]


def id_fields(ids: Iterable[int]) -> Iterator[bytes]:
    """Features' own ids: nothing for one below 0, which a feature can't have."""
    for id in ids:
        yield ID_PAIRS[id & TWO_SEVENS] + VARINTS[id >> 14] if 1 << 14 <= id < 1 << 28 else id_field(id)


def id_field(id: int) -> bytes:
    return ID + varint(id) if id >= 0 else b""


def rectangles(window: Window, boxes: Iterable[Box], owns: Iterable[bytes]) -> Iterator[bytes]:
    """A feature for each box, with its own id and tags before its form.

    A box shares a point with the tile's window. It is cut off a little outside of the tile, and has at least a unit of
    breadth and height, so that a point is seen too.
    """
    west, east, _, north = window
    length = east + 1 - west
    # An edge is nearest to the unit whose middle is half a unit before it.
    left_end, top_end = west * EXTENT - length // 2, north * EXTENT + length // 2
    first, last = -BUFFER, EXTENT + BUFFER
    for own, (x1, x2, y1, y2, _) in zip(owns, boxes):
        left, right = (x1 * EXTENT - left_end) // length, (x2 * EXTENT - left_end) // length
        top, bottom = (top_end - y2 * EXTENT) // length, (top_end - y1 * EXTENT) // length
        if left < first or top < first or right > last or bottom > last:
            left, right, top, bottom = max(left, first), min(right, last), max(top, first), min(bottom, last)
        wide = right - left or 1
        # The corners from the north west, clockwise as the map is seen; y grows to the south in a tile.
        ring = b"".join((MOVES[left], STEPS[top], ACROSS[wide], STEPS[bottom - top or 1], BACK[wide]))
        size = len(ring)
        yield b"".join((FEATURES[len(own) + size], own, SHAPES[size], ring))


class Layer:
    """A layer of a tile: features with properties."""

    def __init__(self, name: str) -> None:
        self._name = name
        self.features: list[bytes] = []
        self._keys: dict[str, int] = {}  # each with its place
        self._values: dict[Value, int] = {}

    def tags(self, properties: dict[str, Value]) -> bytes:
        """Properties as a feature has them: the place of each key among the keys, and of its value among the values."""
        places = []
        for key, value in properties.items():
            places.append(varint(self._keys.setdefault(key, len(self._keys))))
            places.append(varint(self._values.setdefault(value, len(self._values))))
        return bytes_field(2, b"".join(places))

    def encoded(self) -> bytes:
        """The layer as a field of its tile: a tile is its layers, one behind the other."""
        parts = [number_field(15, 2), bytes_field(1, self._name.encode())]
        parts += self.features
        parts += [bytes_field(3, key.encode()) for key in self._keys]
        parts += [bytes_field(4, encoded_value(value)) for value in self._values]
        parts.append(number_field(5, EXTENT))
        return bytes_field(3, b"".join(parts))

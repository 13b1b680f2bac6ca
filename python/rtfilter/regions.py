"""Regions and orders as named tuples, and query lines made of them.

Numbers are whole, in the unit of the table; they are checked when a query is made. Regions are closed: what touches overlaps.
`str` of a region or an order is its words in the query language.
"""

from collections.abc import Iterable, Iterator
from operator import index
from typing import Any, NamedTuple, Self, Union

LAYER_COUNT = 64


class _OwnKind(tuple[Any, ...]):
    """Makes a tuple equal to those of its own class alone. Its text is the name of the class and whole numbers."""

    __slots__ = ()

    def __eq__(self, other: object) -> bool:
        return type(self) is type(other) and tuple.__eq__(self, other)

    def __ne__(self, other: object) -> bool:
        return not self == other

    def __hash__(self) -> int:
        return tuple.__hash__(self)

    def __str__(self) -> str:
        return " ".join([type(self).__name__.lower(), *(str(index(it)) for it in self)])


class _Box(_OwnKind):
    """What windows have in common."""

    __slots__ = ()

    @classmethod
    def from_bounds(cls, bounds: Iterable[int]) -> Self:
        """The same from (min_x, min_y, max_x, max_y): the order of shapely's `bounds`, of GeoJSON's `bbox` and of rtree."""
        try:
            min_x, min_y, max_x, max_y = bounds
        except (TypeError, ValueError):
            raise TypeError(f"bounds are min_x, min_y, max_x and max_y, and not {bounds!r:.50}") from None
        return tuple.__new__(cls, (min_x, max_x, min_y, max_y))


# (each class has a named tuple of its own, so that an error names the class)
class All(_OwnKind, NamedTuple("All", [])):
    """Every box."""

    __slots__ = ()


class Window(_Box, NamedTuple("Window", [("min_x", int), ("max_x", int), ("min_y", int), ("max_y", int)])):
    """The boxes that overlap a window."""

    __slots__ = ()


class Inside(_Box, NamedTuple("Inside", [("min_x", int), ("max_x", int), ("min_y", int), ("max_y", int)])):
    """The boxes that lie within a window."""

    __slots__ = ()


class Covers(_Box, NamedTuple("Covers", [("min_x", int), ("max_x", int), ("min_y", int), ("max_y", int)])):
    """The boxes within which a window lies."""

    __slots__ = ()


class Circle(_OwnKind, NamedTuple("Circle", [("x", int), ("y", int), ("radius", int)])):
    """The boxes with a point at most `radius` away from (x, y). Without another order, the nearest come first."""

    __slots__ = ()


class Polygon(_OwnKind, NamedTuple("Polygon", [("vertices", tuple[tuple[int, int], ...])])):
    """The boxes that overlap a strictly convex polygon of 3 to 16 vertices, pairs (x, y) in order round it."""

    __slots__ = ()

    def __new__(cls, vertices: Iterable[tuple[int, int]]) -> Self:
        try:
            return super().__new__(cls, tuple((x, y) for x, y in vertices))
        except (TypeError, ValueError):
            raise TypeError(f"vertices are pairs (x, y), and not {vertices!r:.50}") from None

    @classmethod
    def _make(cls, iterable: Iterable[Any]) -> Self:  # type: ignore[override]  # (which `_replace` calls too)
        return cls(*iterable)

    def __str__(self) -> str:
        return " ".join([f"polygon {len(self.vertices)}", *(f"{index(x)} {index(y)}" for x, y in self.vertices)])


class Near(_OwnKind, NamedTuple("Near", [("x", int), ("y", int)])):
    """Orders boxes by the square of their distance from (x, y)."""

    __slots__ = ()


class Smallest(_OwnKind, NamedTuple("Smallest", [])):
    """Orders boxes by their area."""

    __slots__ = ()


Region = Union[All, Window, Inside, Covers, Circle, Polygon]
Order = Union[Near, Smallest]
Layers = Union[int, Iterable[int]]
"""A layer, or some of them."""

REGIONS: tuple[type, ...] = All, Window, Inside, Covers, Circle, Polygon
ORDERS: tuple[type, ...] = Near, Smallest


def find_line(region: Region, order: Order | None, first: int | None, on: Layers | None) -> str:
    """The query line of a find."""
    words = ["find", str(_checked(region, "region")), *_on(on)]
    words += [str(_checked(order, "order"))] if order is not None else []
    words += [f"first {index(first)}"] if first is not None else []
    return " ".join(words)


def count_line(region: Region, on: Layers | None) -> str:
    """The query line of a count."""
    return " ".join(["count", str(_checked(region, "region")), *_on(on)])


def nearest_line(k: int, x: int, y: int) -> str:
    """The query line of the k nearest."""
    return f"nearest {index(k)} {index(x)} {index(y)}"


def layer_bits(on: Layers) -> int:
    """Layers as bits of a number."""
    if isinstance(on, (str, bytes)):
        raise TypeError(f"layers are whole numbers, and not {on!r:.200}")
    try:
        layers: Iterator[Any] = iter(on)  # type: ignore[arg-type]  # (an array may be a number)
    except TypeError:
        layers = iter([on])
    bits = 0
    for layer in layers:
        if type(layer).__name__ in ("bool", "bool_"):  # (numpy's own is no bool)
            raise TypeError(f"a layer is a whole number, and not {layer}")
        try:
            number = index(layer)
        except TypeError:
            raise TypeError(f"{layer!r:.200} isn't a whole number") from None
        if not 0 <= number < LAYER_COUNT:
            raise ValueError(f"a layer is 0 to {LAYER_COUNT - 1}, and not {layer}")
        bits |= 1 << number
    if not bits:
        raise ValueError("no layer is given; None stands for all layers")
    return bits


def repeatable(on: Layers | None) -> Layers | None:
    """Layers that can be read more than once, as several tables do."""
    return [*on] if isinstance(on, Iterator) else on


def _checked(value: Region | Order, kind: str) -> Region | Order:
    if type(value) not in (ORDERS if kind == "order" else REGIONS):
        raise TypeError(f"{value!r} is no {kind}")
    return value


def _on(on: Layers | None) -> list[str]:
    """The words of a list of layers."""
    if on is None:
        return []
    bits = layer_bits(on)
    return ["on", ",".join(str(layer) for layer in range(LAYER_COUNT) if bits >> layer & 1)]

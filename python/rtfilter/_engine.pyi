"""The extension, engine/_engine.c: tables in this process."""

from collections.abc import Callable
from typing import Any, Literal, Self, overload

from .regions import Layers, Order, Region

version: str
query_size: int
layout: list[tuple[str, str, int]]

class Table:
    def close(self) -> None: ...
    @overload
    def find(
        self,
        region: Region,
        order: Order | None = None,
        first: int | None = None,
        *,
        on: Layers | None = None,
        scores: Literal[False] = False,
    ) -> list[int]: ...
    @overload
    def find(
        self,
        region: Region,
        order: Order | None = None,
        first: int | None = None,
        *,
        on: Layers | None = None,
        scores: Literal[True],
    ) -> list[tuple[int, int]]: ...
    @overload
    def find(
        self, region: Region, order: Order | None = None, first: int | None = None, *, on: Layers | None = None, scores: bool
    ) -> list[Any]: ...
    def nearest(self, k: int, x: int, y: int) -> list[tuple[int, int]]: ...
    def count(self, region: Region, *, on: Layers | None = None) -> int: ...
    def cost_of_find(
        self, region: Region, order: Order | None = None, first: int | None = None, *, on: Layers | None = None
    ) -> int: ...
    def cost_of_count(self, region: Region, *, on: Layers | None = None) -> int: ...
    @classmethod
    def _open_file(cls, name: str | bytes, header: bool, fanout: int, max_entries: int, /) -> Self: ...
    @classmethod
    def _open_arrays(cls, columns: tuple[Any, ...], fanout: int, max_entries: int, /) -> Self: ...
    def _find_each(
        self,
        queries: Any,
        place: int,
        total: int,
        places: bytearray,
        ids: bytearray,
        scores: bytearray | None,
        count: int,
        boxes: Any = ...,
        windows: Any = ...,
        /,
    ) -> int: ...
    def _count_each(self, queries: Any, place: int, /) -> bytearray: ...
    def _text(self, lines: Any, /) -> bytes: ...
    def _info(self) -> tuple[int, tuple[int, ...], tuple[int, int, int, int]]: ...

def know(classes: tuple[type, ...], table_error: type, query_error: type, layer_bits: Callable[[Layers], int], /) -> None: ...
def holding(corners: Any, rings: Any, parts: Any, some: list[int], x: int, y: int, /) -> list[int]: ...
def holds_each(corners: Any, rings: Any, parts: Any, some: Any, points: Any, /) -> bytearray: ...
def query_of(region: type, order: Order | None, first: int | None, on: Layers | None, /) -> bytes: ...

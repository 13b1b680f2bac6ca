"""Zones with ids, names and layers, and which of them hold positions."""

import json
import math
from collections.abc import Sequence
from dataclasses import dataclass, field
from functools import cached_property, lru_cache
from typing import Any, Union

from ..zones import Zones
from .positions import Position, layers_of

SCALE = 1e7  # units of a degree: about a centimetre each
KEPT = 1 << 14  # tuples of zones, each made once


@dataclass(frozen=True)
class Zone:
    """A zone as events name it. One of the same id, before or after an exchange, is the same zone."""

    id: Union[str, int, float]
    name: str | None = field(compare=False, default=None)
    layer: str | None = field(compare=False, default=None)

    @cached_property
    def members(self) -> str:
        """Its members in an object of JSON."""
        values = {"zone": self.id, "name": self.name, "layer": self.layer}
        return json.dumps({name: value for name, value in values.items() if value is not None})[1:-1]


Held = tuple[Zone, ...]
"""The zones that hold a position, in the order of their file."""


class NamedZones:
    """The zones of a GeoJSON file: features that are each a Polygon or a MultiPolygon, in degrees.

    A zone's id is its feature's, or without one its place in the file, from 0. Its name is the property `name`, and its layer the
    property that `layer` names. `on` are the layers of positions that name none, separated by semicolons; empty, all are. Raises
    ValueError with the file's name for another file, and OSError.
    """

    def __init__(self, file: str, layer: str, on: str) -> None:
        self._on = on.encode()
        try:
            features = features_of(file)
            self.zones = zones_of(features, layer)
            self._polygons = Zones(features, scale=SCALE)
        except RecursionError:
            raise ValueError(f"{file}: lists in lists, too deep to be read") from None
        except (TypeError, ValueError) as error:
            raise ValueError(f"{file}: {error}") from error
        self._held_of = lru_cache(KEPT)(self._held)

    def lacks_layers(self) -> bool:
        """Whether positions that name no layers can be in no zone, as none is on the layers `on`."""
        return bool(self._on) and not self._held((*range(len(self.zones)),), self._on)

    def holding_each(self, positions: Sequence[Position]) -> list[Held]:
        """The zones that hold each position. Equal ones are mostly the same tuple."""
        holding, held_of, on = self._polygons.holding, self._held_of, self._on
        return [held_of(tuple(holding(x, y)), layers_of(match) or on) for _, _, x, y, _, match in positions]

    def _held(self, places: tuple[int, ...], layers: bytes) -> Held:
        """The zones at these places that have one of these layers, or all for no layers."""
        named = set(layers.decode(errors="replace").split(";"))
        zones = [self.zones[place] for place in places]
        return tuple([zone for zone in zones if not layers or zone.layer in named])


def features_of(file: str) -> list[Any]:
    """The features of a file that is a FeatureCollection."""
    with open(file, encoding="utf-8-sig") as text:
        try:
            read = json.load(text)
        except json.JSONDecodeError as error:
            raise ValueError(f"no GeoJSON: {error}") from error
    features = read.get("features") if isinstance(read, dict) else None
    if not isinstance(features, list):
        raise ValueError("no FeatureCollection")
    return features


def zones_of(features: list[Any], layer: str) -> list[Zone]:
    """The zones of features, whose ids are all different."""
    places: dict[Zone, int] = {}
    for place, feature in enumerate(features):
        try:
            zone = zone_of(feature, place, layer)
        except ValueError as error:
            raise ValueError(f"features[{place}]: {error}") from None
        if places.setdefault(zone, place) != place:
            raise ValueError(f"features[{place}]: its id is that of features[{places[zone]}]: {zone.id!r:.50}")
    return [*places]


def zone_of(feature: Any, place: int, property: str) -> Zone:
    """The zone of a feature, whose layer is the value of a property."""
    properties = (feature.get("properties") or {}) if isinstance(feature, dict) else None
    if not isinstance(properties, dict):
        raise ValueError("no feature")
    id, name, layer = feature.get("id", place), properties.get("name"), properties.get(property)
    # (Python reads NaN and infinities in JSON, which others don't)
    if isinstance(id, bool) or not isinstance(id, (str, int, float)) or isinstance(id, float) and not math.isfinite(id):
        raise ValueError(f"an id that is neither a text nor a number: {id!r:.50}")
    if isinstance(layer, bool) or not isinstance(layer, (str, int, type(None))):
        raise ValueError(f"a layer that is neither a text nor a whole number: {layer!r:.50}")
    return Zone(id, name if isinstance(name, str) else None, None if layer is None else str(layer))

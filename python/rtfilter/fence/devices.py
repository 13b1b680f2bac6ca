"""Devices: the time of the last position of each, and which zones held it then. Some 140 bytes a device."""

import contextlib
from array import array
from collections.abc import Sequence
from typing import Any

from .zones import Held, Zone


class Refused(Exception):
    """Why a position isn't taken."""


class Devices:
    """The state of devices, up to a maximum number."""

    def __init__(self, most: int) -> None:
        self._most = most
        # By a device's place in two columns: values of its own in the dictionary would take twice the memory.
        self._place_of: dict[bytes, int] = {}
        self._moments = array("d")
        self._held: list[Held] = []
        self._same: dict[Any, Any] = {}  # what `put_back` has seen, so that equal values are kept once

    def __len__(self) -> int:
        return len(self._place_of)

    def move(self, device: bytes, moment: float, held: Held) -> Held:
        """Notes which zones hold a device at a moment. Returns those that held it before, at first none.

        Raises Refused for a moment before the last one, and for one device too many.
        """
        place = self._place_of.get(device)
        if place is None:
            self._add(device, moment, held)
            return ()
        if moment < self._moments[place]:
            raise Refused("older than the last position of its device")
        self._moments[place] = moment
        before, self._held[place] = self._held[place], held
        return before

    def note_time(self, device: bytes, moment: float) -> None:
        """Notes that a device had a position at a moment, which was answered before."""
        place = self._place_of.get(device)
        if place is not None:
            self._moments[place] = max(self._moments[place], moment)
            return
        with contextlib.suppress(Refused):
            self._add(device, moment, ())

    def put_back(self, device: bytes, moment: float, zone: Zone, is_in: bool) -> None:
        """Notes an event of before: a device entered a zone, or left it. Raises Refused for one device too many."""
        if device not in self._place_of:
            self._add(device, moment, ())
        place = self._place_of[device]
        others = tuple(other for other in self._held[place] if other != zone)
        held = (*others, self._same.setdefault(zone, zone)) if is_in else others
        self._held[place] = self._same.setdefault(held, held)
        self._moments[place] = moment

    def arrange(self, zones: Sequence[Zone]) -> None:
        """Puts the zones that hold each device into the order of a file. Zones that it doesn't have come last."""
        places = {zone: place for place, zone in enumerate(zones)}
        arranged = {held: tuple(sorted(held, key=lambda zone: places.get(zone, len(zones)))) for held in {*self._held}}
        self._held = [arranged[held] for held in self._held]
        self._same.clear()

    def _add(self, device: bytes, moment: float, held: Held) -> None:
        if len(self) == self._most:
            raise Refused(f"one device more than {self._most}")
        self._place_of[device] = len(self)
        self._moments.append(moment)
        self._held.append(held)

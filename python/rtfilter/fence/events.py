"""The events of positions: a line of JSON for each zone that a device enters or leaves, and for each line that isn't taken."""

import json
from collections.abc import Iterator
from operator import itemgetter

from .devices import Devices, Refused
from .log import Past
from .positions import Position, Refusal, numbers_of, positions_of
from .zones import Held, NamedZones

MANY = 20  # zones: among fewer a search takes less time than sets of them


class Fence:
    """Zones and devices. `zones` may be assigned again at any time, by any thread."""

    def __init__(self, zones: NamedZones, devices: Devices, past: Past = Past()) -> None:
        self.zones = zones
        self._devices = devices
        self._past = past

    def events(self, first: int, lines: list[bytes]) -> bytes:
        """The events of lines, in their order, of which the first has this number. Lines that the log answers have none.

        Raises ValueError if one of the lines isn't that of the log.
        """
        positions, refusals = positions_of(first, lines)
        if first <= self._past.next_line:
            positions, refusals = self._unanswered(range(first, first + len(lines)), positions, refusals)
        found = [(refusal.line, refusal_line(refusal)) for refusal in refusals]
        for position, held in zip(positions, self.zones.holding_each(positions)):
            line, device, _, _, moment, _ = position
            try:
                before = self._devices.move(device, moment, held)
            except Refused as why:
                found.append((line, refusal_line(Refusal(line, str(why), device))))
                continue
            if before is not held:  # they may be equal all the same
                found += [(line, event) for event in event_lines(position, before, held)]
        if refusals:
            found.sort(key=itemgetter(0))  # which leaves the events of a line as they are
        return "".join([text for _, text in found]).encode()

    def end(self, last: int) -> None:
        """Raises ValueError if the input ended with this line, before the last one that the log answers."""
        if self._past.last is not None and last < self._past.last.line:
            raise ValueError(f"the input ends with line {last}, and the log has line {self._past.last.line}")

    def _unanswered(
        self, lines: range, positions: list[Position], refusals: list[Refusal]
    ) -> tuple[list[Position], list[Refusal]]:
        """The positions and refusals that the log doesn't answer. Of the others the times are noted."""
        next_line = self._past.next_line
        self._check(lines, positions, refusals)
        for line, device, _, _, moment, _ in positions:
            if line < next_line:
                self._devices.note_time(device, moment)
        return [it for it in positions if it[0] >= next_line], [it for it in refusals if it.line >= next_line]

    def _check(self, lines: range, positions: list[Position], refusals: list[Refusal]) -> None:
        """Raises ValueError if the last line that the log answers is among these, and says something else there."""
        last = self._past.last
        if last is None or last.line not in lines:
            return
        found = next(((device, x, y, moment) for line, device, x, y, moment, _ in positions if line == last.line), None)
        if last.change is not None:
            is_same = found == (last.device, last.change.longitude, last.change.latitude, last.change.time)
        else:
            devices = [found[0]] if found else [it.device for it in refusals if it.line == last.line]
            is_same = devices == [last.device]
        if not is_same:
            raise ValueError(f"line {last.line} of the input isn't the one that the log answers: does the input begin with line {lines[0]}?")


def event_lines(position: Position, before: Held, held: Held) -> Iterator[str]:
    """A line for each zone that is left, and then for each that is entered."""
    was_in, is_in = (before, held) if len(before) + len(held) < MANY else ({*before}, {*held})
    changes = [("leave", zone) for zone in before if zone not in is_in]
    changes += [("enter", zone) for zone in held if zone not in was_in]
    if changes:
        line, device, _, _, _, match = position
        longitude, latitude, time = numbers_of(match)
        where = f'"longitude": {longitude}, "latitude": {latitude}, "time": {time}'
        rest = f'"device": {json.dumps(device.decode())}, {where}}}\n'
        for event, zone in changes:
            yield f'{{"line": {line}, "event": "{event}", {zone.members}, {rest}'


def refusal_line(refusal: Refusal) -> str:
    """The event of a line that isn't taken."""
    members = {"line": refusal.line, "event": "refused", "why": refusal.why}
    if refusal.device:
        members["device"] = refusal.device.decode()
    return json.dumps(members) + "\n"

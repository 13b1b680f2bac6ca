"""Positions of devices, a line each: DEVICE,LONGITUDE,LATITUDE,TIME and perhaps layers."""

import re
import sys
from codecs import BOM_UTF8
from math import inf
from typing import NamedTuple

LONGEST_LINE = 4096  # bytes
LONGEST_DEVICE = 64  # bytes

NAME = rb'(?:"([^"\n]+)"|([^"#,\n][^",\n]*))'  # in quotes, or not and no comment
NUMBER = rb"(-?(?:0|[1-9][0-9]*)(?:\.[0-9]+)?(?:[eE][-+]?[0-9]+)?)"  # as in JSON
LINE = re.compile(rb",".join([NAME, NUMBER, NUMBER, NUMBER]) + rb'(?:,([^",\n]*?))?\r?')
FIRST_FIELD = re.compile(rb'"[^"]*"(?=,|$)|[^,]*')
FORMS = re.compile(NAME), re.compile(NUMBER)

FIELDS = "DEVICE", "LONGITUDE", "LATITUDE", "TIME"
FORM = ",".join(FIELDS)
RANGES = (-180, 180), (-90, 90), (-sys.float_info.max, sys.float_info.max)  # of the numbers

Position = tuple[int, bytes, float, float, float, "re.Match[bytes]"]
"""The number of a line, its device, the longitude, the latitude and the time, and the line by its fields. A class would take a
tenth of all the time."""


class Refusal(NamedTuple):
    """A line that isn't taken: its number, why, and its device if it has one."""

    line: int
    why: str
    device: bytes = b""


def positions_of(first: int, lines: list[bytes]) -> tuple[list[Position], list[Refusal]]:
    """The positions in lines, of which the first has this number, and the lines that are none. Blank lines and comments are
    neither. A byte order mark before line 1 is none of it."""
    positions: list[Position] = []
    refusals: list[Refusal] = []
    if first == 1:
        lines = [it.removeprefix(BOM_UTF8) for it in lines[:1]] + lines[1:]
    for line, text in enumerate(lines, first):
        match = LINE.fullmatch(text)
        if match is None or len(text) > LONGEST_LINE:
            # (by no more than `answer` keeps of a line that is too long)
            if text[: LONGEST_LINE + 1].strip()[:1] not in b"#":
                refusals.append(Refusal(line, fault_of(text)))
            continue
        quoted, plain, longitude, latitude, time, _ = match.groups()
        device, x, y, moment = plain or quoted, float(longitude), float(latitude), float(time)
        if len(device) > LONGEST_DEVICE or not (device.isascii() or is_text(device)):
            refusals.append(Refusal(line, f"field 1, DEVICE, has more than {LONGEST_DEVICE} bytes, or isn't UTF-8"))
        elif not (-180 <= x <= 180 and -90 <= y <= 90 and -inf < moment < inf):
            refusals.append(Refusal(line, out_of_range(longitude, latitude, time), device))
        else:
            positions.append((line, device, x, y, moment, match))
    return positions, refusals


def layers_of(match: "re.Match[bytes]") -> bytes:
    """The layers of a position, separated by semicolons; nothing if it names none."""
    return match[6] or b""


def numbers_of(match: "re.Match[bytes]") -> tuple[str, str, str]:
    """The longitude, the latitude and the time of a position as they are written."""
    return match[3].decode(), match[4].decode(), match[5].decode()


def out_of_range(*numbers: bytes) -> str:
    """Which number of a position is the first that is out of its range."""
    for at, (number, (least, greatest)) in enumerate(zip(numbers, RANGES)):
        if not least <= float(number) <= greatest:
            return f"field {at + 2}, {FIELDS[at + 1]}, isn't {least} to {greatest}: {number.decode():.50}"
    raise AssertionError(numbers)


def fault_of(line: bytes) -> str:
    """Why a line isn't a position."""
    if len(line) > LONGEST_LINE:
        return f"a line of more than {LONGEST_LINE} bytes"
    fields = fields_of(line.removesuffix(b"\r"))
    if not 4 <= len(fields) <= 5:
        return f"not {FORM} or {FORM},LAYERS: the number of fields is {len(fields)}"
    for at, (name, field) in enumerate(zip(FIELDS, fields)):
        if FORMS[at > 0].fullmatch(field) is None:
            return f"field {at + 1}, {name}, is no {'number' if at else 'name'}: {field.decode(errors='replace')!r:.50}"
    return f"field {len(fields)}, LAYERS, has a double quote"


def fields_of(line: bytes) -> list[bytes]:
    """The fields of a line: the first may be in quotes, and hold commas then."""
    first = FIRST_FIELD.match(line)
    assert first is not None
    rest = line[first.end() :]
    return [first[0], *(rest[1:].split(b",") if rest else [])]


def is_text(name: bytes) -> bool:
    """Whether bytes are UTF-8."""
    try:
        name.decode()
    except UnicodeDecodeError:
        return False
    return True

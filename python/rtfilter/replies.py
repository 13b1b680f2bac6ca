"""Query lines and the replies to them, as text."""

import os
import re
from collections.abc import Callable, Iterable
from typing import Any, Generic, NamedTuple, TypeVar, Union

from .errors import Disconnected, QueryError

LAST_LINE = re.compile(rb"(ok|error) (\d+) ([^\n]*)\n")  # of a reply; no answer before it holds a letter


class Answers(NamedTuple):
    """The reply to a query line: ids and scores in order, and the number in its last line: of a `count` line what was counted,
    of a `cost` line the nodes, else how many answers there are."""

    ids: list[int]
    scores: list[int]
    total: int


Reply = Union[Answers, QueryError, None]
"""The reply to one line; None for a blank one and a comment, which have none."""


def listed(lines: Iterable[str]) -> list[str]:
    """Query lines as a list. Raises TypeError for one text in place of lines, ValueError for a line that holds a line feed."""
    if isinstance(lines, (str, bytes)) or not isinstance(lines, Iterable):
        raise TypeError(f"lines are an iterable of texts, and not {lines!r:.50}")
    found = list(lines)
    for line in found:
        if not isinstance(line, str):
            raise TypeError(f"a line is a text, and not {line!r:.200}")
        if "\n" in line:
            raise ValueError(f"a line that holds a line feed: {line!r:.200}")
    return found


def joined(lines: list[str]) -> bytes:
    """The bytes of query lines."""
    return b"".join(os.fsencode(line) + b"\n" for line in lines)


def cut(text: bytes, lines: list[str], first: int = 1) -> list[Reply]:
    """The reply to each of these lines, of which the first has this number. Lines without one were skipped. Raises Disconnected
    if a text is no reply."""
    replies: list[Reply] = [None] * len(lines)
    parts = LAST_LINE.split(text)
    try:
        for answers, kind, number, rest in zip(parts[0::4], parts[1::4], parts[2::4], parts[3::4]):
            at = int(number) - first
            if kind == b"ok":
                numbers = [*map(int, answers.split())]
                replies[at] = Answers(numbers[0::2], numbers[1::2], int(rest))
            else:
                code, _, words = rest.decode().partition(" ")
                replies[at] = QueryError(lines[at], None, code, words)
    except (IndexError, ValueError):
        raise Disconnected(f"no reply of a service: {text[:100]!r}") from None
    return replies


MARKER = b"find all first 0\n"
"""A line that is always answered, by one line: it ends lines of which the last may be skipped."""


Read = TypeVar("Read")


class Question(NamedTuple, Generic[Read]):
    """Query lines for a service, of which the last one is answered."""

    text: bytes
    lines: int
    read: Callable[[bytes, int], Read]  # what the replies say, of which the first is to the line that has this number


def line_question(line: str) -> Question[Reply]:
    """A line that isn't blank."""
    return Question(joined([line]), 1, lambda replies, first: cut(replies, [line], first)[0])


def lines_question(lines: Iterable[str]) -> Question[list[Reply]]:
    """Some lines."""
    texts = listed(lines)
    return Question(joined(texts) + MARKER, len(texts) + 1, lambda replies, first: cut(replies, [*texts, ""], first)[:-1])


def text_question(lines: bytes) -> Question[bytes]:
    """The bytes of lines, whose replies are numbered from 1."""
    text = bytes_of(lines)
    if text and not text.endswith(b"\n"):
        text += b"\n"
    return Question(text + MARKER, text.count(b"\n") + 1, renumbered)


def answers_of(reply: Reply) -> Answers:
    """The reply to a line that isn't blank. Raises its fault."""
    if isinstance(reply, QueryError):
        raise reply
    assert reply is not None
    return reply


def bytes_of(lines: Any) -> bytes:
    """The bytes of query lines: a copy, if they could change meanwhile."""
    if isinstance(lines, str):
        raise TypeError("lines are bytes, and not a str: encode it")
    return lines if isinstance(lines, bytes) else bytes(memoryview(lines))


def renumbered(text: bytes, first: int) -> bytes:
    """Replies whose lines are numbered from 1, in place of from another number; that to the marker is dropped."""
    text = text[: text.rstrip(b"\n").rfind(b"\n") + 1]
    return LAST_LINE.sub(lambda found: b"%b %d %b\n" % (found[1], int(found[2]) - first + 1, found[3]), text)


def is_whole(text: bytes | bytearray, last: int) -> bool:
    """Whether a text ends with the reply to the line that has this number."""
    begin = text.rfind(b"\n", 0, -1) + 1
    return text.endswith(b"\n") and text.startswith((b"ok %d " % last, b"error %d " % last), begin)


def reason(text: bytes | bytearray) -> str:
    """Why a service closed a connection, if its last line says so."""
    _, prefix, words = bytes(text).rpartition(b"rtfilter-serve: ")
    return f": {words.decode(errors='replace').strip()}" if prefix else ""

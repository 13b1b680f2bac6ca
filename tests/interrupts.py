"""Exceptions at each moment at which the handler of a signal may raise."""

import sys
from collections.abc import Callable, Collection
from types import FrameType


def is_interrupted(call: Callable[[], object], number: int, files: Collection[str] = ()) -> bool:
    """Makes a call, in which `KeyboardInterrupt` comes at the moment of this number, from 1, of those at which Python may call
    the handler of a signal: as a function begins, and behind each call, in these files, or in all. Whether there are so many such moments.

    Which moments these are is CPython's: between what `with` calls and its block, say, there is none.
    """
    left = number

    def at_moment(frame: FrameType, event: str, _: object) -> None:
        nonlocal left
        left -= event in ("call", "return", "c_return") and (not files or frame.f_code.co_filename in files)
        if not left:
            sys.setprofile(None)
            raise KeyboardInterrupt

    sys.setprofile(at_moment)
    try:
        call()
    except KeyboardInterrupt:
        pass
    finally:
        sys.setprofile(None)
    return not left

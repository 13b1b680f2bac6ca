"""Builds the extension over librtfilter.

With RTFILTER_ARCHIVE, the path of librtfilter.a, the library becomes a part of the extension; RTFILTER_INCLUDE is the folder of
its header. Without it, the extension uses the shared library that pkg-config finds.
"""

import os
import shlex
import subprocess
from typing import Any

from setuptools import Extension, setup


def options() -> dict[str, Any]:
    """What the compiler and the linker need to know of the library."""
    archive = os.environ.get("RTFILTER_ARCHIVE")
    if archive:
        return {
            "include_dirs": [os.environ["RTFILTER_INCLUDE"]],
            "extra_objects": [archive],
            "extra_link_args": ["-Wl,--exclude-libs,ALL"],  # no symbol of the library is visible to others
        }
    words = {it: shlex.split(subprocess.check_output(["pkg-config", it, "rtfilter"], text=True)) for it in ("--cflags", "--libs")}
    return {"extra_compile_args": words["--cflags"], "extra_link_args": words["--libs"]}


setup(
    ext_modules=[Extension("rtfilter._engine", ["engine/_engine.c"], py_limited_api=True, **options())],
    options={"bdist_wheel": {"py_limited_api": "cp311", "plat_name": "manylinux_2_34_x86_64"}},
)

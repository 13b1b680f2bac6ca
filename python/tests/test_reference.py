"""The reference is made of the docstrings without a warning, and leaves nothing out that is public."""

import inspect
import pydoc
import re
import subprocess
import sys
from collections.abc import Iterator
from pathlib import Path
from typing import Any

import pytest
from conftest import ROOT
from support import environment

import rtfilter
import rtfilter.aio

NAMED = re.compile(r'<dt class="sig sig-object py" id="rtfilter\.([\w.]+)">')
MODULES = "errors.", "regions."  # whose names are in the package itself too


PUBLIC = [name for name, value in vars(rtfilter).items() if not name.startswith("_") and not inspect.ismodule(value)]


def public() -> Iterator[tuple[str, Any]]:
    """What users call and catch: classes, functions, and their own methods and properties."""
    geometry = pytest.importorskip("rtfilter.geometry")
    pytest.importorskip("dask.dataframe")
    from rtfilter import dask, index, zones

    others = {"aio.Client": rtfilter.aio.Client, "index.Index": index.Index, "zones.Zones": zones.Zones}
    others |= {"geometry.STRtree": geometry.STRtree, "geometry.sjoin": geometry.sjoin}
    others |= {"dask.Table": dask.Table, "dask.Boxes": dask.Boxes, "dask.spatial_shuffle": dask.spatial_shuffle}
    for name, value in [*((name, getattr(rtfilter, name)) for name in PUBLIC), *others.items()]:
        if inspect.isclass(value) or inspect.isfunction(value):
            yield name, value
        if inspect.isclass(value):
            bases = [it for it in reversed(value.__mro__) if it.__module__.startswith("rtfilter.")]
            members = [(it, getattr(value, it)) for base in bases for it in vars(base) if not it.startswith("_")]
            yield from ((f"{name}.{it}", found) for it, found in members if inspect.isfunction(found) or isinstance(found, property))


def test_help_is_short() -> None:
    """Two screens for the package."""
    assert len(pydoc.plain(pydoc.render_doc(rtfilter)).splitlines()) < 80
    assert {"Rtfilter", "Tables", "Client", "Window", "QueryError", "Answers"} < {*PUBLIC}


def test_errors_name_public_classes() -> None:
    for call in (rtfilter.Window, rtfilter.Circle, rtfilter.Polygon, rtfilter.Near):
        with pytest.raises(TypeError, match=rf"^{call.__name__}\.__new__\(\) missing"):
            call()  # type: ignore[call-arg]


def test_each_has_a_text() -> None:
    assert [name for name, value in public() if not inspect.getdoc(value)] == []
    table = [name for name in dir(rtfilter.Rtfilter) if not name.startswith("_")]
    assert [name for name in table if not inspect.getdoc(getattr(rtfilter.Rtfilter, name))] == []


def test_it_is_made(tmp_path: Path) -> None:
    pytest.importorskip("sphinx")
    words = [sys.executable, "-B", "-W", "ignore", "-m", "sphinx", "-q", "-W", "-d", tmp_path / "trees", ROOT / "docs/reference", tmp_path]
    done = subprocess.run([*map(str, words)], stdout=subprocess.PIPE, stderr=subprocess.STDOUT, text=True, env=environment())
    assert (done.returncode, done.stdout) == (0, "")
    names = NAMED.findall((tmp_path / "index.html").read_text())
    found = {name.split(".", 1)[1] if name.startswith(MODULES) else name for name in names}
    assert [name for name, _ in public() if name not in found] == []

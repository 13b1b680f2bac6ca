"""Allocations that fail, each in turn: MemoryError, and the table answers on.

Arrays are made before: numpy itself may crash where it gets no memory.
"""

import errno
import os
import subprocess
import sys
from pathlib import Path

import pytest
from conftest import ROOT

ATTEMPT = '''
import ctypes, sys
from array import array
from rtfilter import Rtfilter, Window, All, Near, _engine

refuse_soon = ctypes.c_long.in_dll(ctypes.CDLL(None), "refuse_soon")
rows = [(at, at % 50, at % 50 + 5, at // 50, at // 50 + 5) for at in range(400)]
columns = *(array(code, column) for code, column in zip("qiiii", zip(*rows))), None
queries = _engine.query_of(All, Near(3, 3), None, None) * 300
table = Rtfilter(rows)
polygons = array("i", [0, 0, 9, 0, 9, 9, 0, 9, 0, 0]), array("q", [0, 5]), array("q", [0, 1])
points = array("q", [0] * 3000), array("i", [3, 3] * 3000)

def find_each():
    found = bytearray(), bytearray(), bytearray()
    count = table._find_each(queries, 0, 300, *found, 0)
    return [bytes(it[:size * count]) for it, size in zip(found, (8, 8, 16))]

calls = {
    "find": lambda: table.find(All(), Near(3, 3), scores=True),
    "layers": lambda: table.find(All(), on=[0, 63]),
    "count": lambda: table.count(Window(0, 9, 0, 9)),
    "find_each": find_each,
    "count_each": lambda: bytes(table._count_each(queries, 0)),
    "text": lambda: table.text(b"find all\\n" * 9),
    "replies": lambda: table.replies(["find all smallest", "count all", "x"])[:2],
    "open": lambda: Rtfilter._open_arrays(columns, 16, 9999).find(All()),
    "open rows": lambda: Rtfilter(rows).find(All()),
    "open file": lambda: Rtfilter(sys.argv[1]).find(All()),
    "levels": lambda: table.levels(),
    "polygons": lambda: bytes(_engine.holds_each(*polygons, *points)),
}
for name, call in calls.items():
    expected, refused, at = call(), 0, 0
    while True:
        at += 1
        refuse_soon.value = at
        try:
            found = call()
        except MemoryError:
            found = None
            refused += 1
        is_over = refuse_soon.value > 0
        refuse_soon.value = 0
        assert found in (None, expected), name
        assert call() == expected, name
        if is_over:
            break
    print(name, at, refused)
'''


@pytest.fixture(scope="module")
def refusing(tmp_path_factory: pytest.TempPathFactory) -> Path:
    """A library with a malloc that fails on request."""
    library = tmp_path_factory.mktemp("refuse") / "refuse.so"
    subprocess.run(["cc", "-shared", "-fPIC", "-O", "-o", library, ROOT / "tests/refuse.c"], check=True)
    return library


@pytest.mark.parametrize("allocator", ["pymalloc", "malloc"])
def test_each_allocation_in_turn(refusing: Path, allocator: str, tmp_path: Path) -> None:
    """With "malloc", Python's own allocations are refused too."""
    table = tmp_path / "table"
    table.write_text("".join(f"{it},{it},{it + 1},0,9\n" for it in range(500)))
    words = [sys.executable, "-B", "-X", "faulthandler", "-c", ATTEMPT, table]
    given = {"LD_PRELOAD": str(refusing), "REFUSE": "memory", "REFUSE_AS": str(errno.ENOMEM), "PYTHONMALLOC": allocator}
    environment = {**os.environ, **given, "PYTHONPATH": str(ROOT / "python")}
    done = subprocess.run(words, env=environment, capture_output=True, text=True, timeout=250)
    assert done.returncode == 0, done.stderr[-2000:] + done.stdout
    for line in done.stdout.splitlines():
        name, _, refused = line.rsplit(" ", 2)
        assert int(refused) > 0 or name in ("find", "layers", "count", "levels"), done.stdout
    assert len(done.stdout.splitlines()) == 12

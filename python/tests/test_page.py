"""The Python examples of the pages show what Python prints."""

import ast
import contextlib
import doctest
import re
import subprocess
import sys
import warnings
from pathlib import Path
from typing import Any

import pytest
from conftest import ROOT

from rtfilter import Rtfilter

MOST_LINES = {"docs/python.md": 200}


@pytest.mark.filterwarnings("ignore")
@pytest.mark.parametrize("name, least", [("docs/python.md", 25), ("docs/quick-start.md", 4), ("docs/recipes.md", 4)])
def test_examples(name: str, least: int, data: Path) -> None:
    pytest.importorskip("geopandas")
    text = (ROOT / name).read_text(encoding="utf-8")
    examples = "".join(block.split("\n```")[0] + "\n" for block in text.split("```pycon\n")[1:])
    session = doctest.DocTestParser().get_doctest("\n".join(examples.splitlines()) + "\n", {}, name, name, 0)
    assert len(session.examples) > least and text.count("\n") <= MOST_LINES.get(name, 1000)
    with contextlib.chdir(data), warnings.catch_warnings():
        warnings.simplefilter("ignore")
        shown: list[str] = []
        failed, _ = doctest.DocTestRunner().run(session, out=shown.append)
    assert failed == 0, "".join(shown)


def test_options() -> None:
    """The options in pages and manual pages are those of each command's help."""
    for module in ("aiohttp", "pandas", "pyproj", "shapely"):
        pytest.importorskip(module)
    done = subprocess.run([sys.executable, ROOT / "tools/options.py", "--check"], stdout=subprocess.PIPE, text=True)
    assert (done.returncode, done.stdout) == (0, "7 passed, 0 failed\n")


@pytest.mark.filterwarnings("ignore")
def test_readme(capsys: pytest.CaptureFixture[str]) -> None:
    """A newcomer loads a frame with decimals, asks, joins and gets a frame, in ten lines."""
    pytest.importorskip("geopandas")
    (code,) = (ROOT / "README.md").read_text(encoding="utf-8").split("```python\n")[1:]
    code = code.split("```")[0]
    assert code.count("\n") <= 10
    with contextlib.chdir(ROOT), warnings.catch_warnings():
        warnings.simplefilter("ignore")
        exec(compile(code, "README.md", "exec"), {})
    assert "park" in (shown := capsys.readouterr().out) and "harbour" in shown


def values_of(code: str, names: dict[str, Any]) -> list[Any]:
    """The values of the expressions among the statements of a block, which is run with these names."""
    values = []
    for statement in ast.parse(code).body:
        if isinstance(statement, ast.Expr):
            values.append(eval(compile(ast.Expression(statement.value), "block", "eval"), names))
        else:
            exec(compile(ast.Module([statement], []), "block", "exec"), names)
    return values


def blocks_of(name: str) -> list[str]:
    return re.findall(r"^```python\n(.*?)^```$", (ROOT / name).read_text(encoding="utf-8"), re.MULTILINE | re.DOTALL)


def test_readme_of_the_package() -> None:
    """The value is the comment behind it."""
    (code,) = blocks_of("python/README.md")
    assert code.endswith(f"  # {values_of(code, {})[0]}\n")


def test_scaling(tmp_path: Path) -> None:
    """Threads, several tables, and tables in the workers of dask answer as one table does."""
    dataframe, numpy, pandas = pytest.importorskip("dask.dataframe"), pytest.importorskip("numpy"), pytest.importorskip("pandas")
    columns = ["id", "min_x", "max_x", "min_y", "max_y"]
    rows = numpy.array([(at, at % 7, at % 7 + 2, at % 5, at % 5 + 2) for at in range(200)])
    windows = numpy.array([(at % 9, at % 9 + 1, at % 6, at % 6 + 1) for at in range(50)])
    for file, part in [("boxes.csv", rows), ("east.csv", rows[::2]), ("west.csv", rows[1::2])]:
        numpy.savetxt(tmp_path / file, part, "%d", ",")
    for at in range(2):
        pandas.DataFrame(rows[at::2], columns=columns).to_csv(tmp_path / f"part-{at}.csv", index=False)
    one = Rtfilter(rows)
    places, ids = one.find_each(windows)
    pairs = [*zip(places.tolist(), ids.tolist())]
    numpy.savetxt(tmp_path / "windows.csv", windows, "%d", ",")
    names: dict[str, Any] = {}
    threads, several, whole, partitions = [code.replace("/data/", f"{tmp_path}/") for code in blocks_of("docs/scaling.md")]
    with contextlib.chdir(tmp_path):
        values_of(threads, names)
        assert numpy.concatenate([ids for _, ids in names["parts"]]).tolist() == ids.tolist()
        assert values_of(several, names) == [one.find(names["Window"](0, 10, 0, 10))]
        assert [*zip(names["places"].tolist(), names["ids"].tolist())] == pairs
    partitioned = dataframe.from_pandas(pandas.DataFrame(windows, columns=columns[1:]), npartitions=3)
    points = dataframe.from_pandas(pandas.DataFrame({"x": [1, 9], "y": [2, 0]}), npartitions=1)
    names |= {"dask": pytest.importorskip("dask"), "windows": partitioned, "points": points}
    with names["dask"].config.set(scheduler="threads", num_workers=2):
        found, (counts, nearest) = values_of(whole, names)
        assert [*found.compute()[["id"]].itertuples(name=None)] == pairs
        assert counts.compute().tolist() == one.count_each(windows).tolist()
        assert nearest.compute()["id"].tolist() == [id for x, y in ((1, 2), (9, 0)) for id, _ in one.nearest(10, x, y)]
        (joined,) = values_of(partitions, names)
        assert [*joined.compute()[["id"]].itertuples(name=None)] == pairs

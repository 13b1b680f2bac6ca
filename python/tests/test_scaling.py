"""The measure of many boxes, at a hundredth of its size."""

import os
import subprocess
import sys

import pytest
from conftest import ROOT


@pytest.mark.parametrize("workers", [0, 2])
def test_several_tables_and_dask_answer_the_same(workers: int) -> None:
    if workers:
        pytest.importorskip("distributed")
    words = [sys.executable, ROOT / "bench/scaling.py", "--boxes", "400000", "--queries", "2000", "--workers", str(workers)]
    environment = {**os.environ, "PYTHONPATH": str(ROOT / "python")}
    ran = subprocess.run(words, capture_output=True, text=True, timeout=240, env=environment)
    assert ran.returncode == 0, ran.stdout + ran.stderr
    assert ran.stdout.splitlines()[-1] == ("the answers are the same" if workers else "dask was left out")

"""The frame of a picture and its colours, as the other pictures of the pages have them: those of tests/svg.py."""

import importlib.util

from programs import ROOT

spec = importlib.util.spec_from_file_location("svg_of_pages", ROOT / "tests/svg.py")
shared = importlib.util.module_from_spec(spec)
spec.loader.exec_module(shared)

LINE, REGION, SANS, svg = shared.LINE, shared.REGION, shared.SANS, shared.svg

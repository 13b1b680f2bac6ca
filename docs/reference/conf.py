"""How sphinx makes the reference of the Python package, from its docstrings."""

import tomllib
from pathlib import Path

PACKAGE = Path(__file__).resolve().parents[2] / "python"

project = "rtfilter"
release = tomllib.loads((PACKAGE / "pyproject.toml").read_text(encoding="utf-8"))["project"]["version"]
extensions = ["sphinx.ext.autodoc"]
default_role = "code"  # one backtick on each side, as in the pages
html_theme = "alabaster"
html_theme_options = {"show_powered_by": False, "nosidebar": False}
html_copy_source = False
html_show_copyright = False
autodoc_member_order = "bysource"
autodoc_typehints = "signature"
autodoc_default_options = {"members": True, "show-inheritance": True}

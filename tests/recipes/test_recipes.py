"""The recipes of docs/recipes.md and docs/quick-start.md print what they show, each if its tools are installed."""

import os
import re
import shutil
import tempfile
import unittest
from pathlib import Path
from unittest import mock

from support import DATA, PROGRAM, ROOT, wants

import pages
from postgres import server

PAGES = ROOT / "docs/recipes.md", ROOT / "docs/quick-start.md"
TOOLS = "awk", "jq", "mawk", "mlr", "ogr2ogr", "parallel", "psql", "sqlite3"
SECTION = re.compile(r"^## (.*)\n((?:(?!^## ).*\n)*)", re.MULTILINE)
BLOCK = re.compile(r"^```console (.+)\n((?:.*\n)*?)```$", re.MULTILINE)
EXAMPLE = re.compile(r"^\$ (.*\n(?:> .*\n|>\n)*)((?:(?!\$ ).*\n)*)", re.MULTILINE)


def sections() -> dict[str, tuple[set[str], list[tuple[str, str]]]]:
    """The tools of each section, and its commands, each with what it is to print."""
    found = {}
    for title, text in SECTION.findall("".join(it.read_text(encoding="utf-8") for it in PAGES)):
        blocks = BLOCK.findall(text)
        tools = {tool for words, _ in blocks for tool in words.split()}
        examples = [(command.replace("\n> ", "\n"), shown) for _, block in blocks for command, shown in EXAMPLE.findall(block)]
        found[title] = tools, examples
    return found


class Recipes(unittest.TestCase):
    def run_section(self, tools: set[str], examples: list[tuple[str, str]]) -> None:
        wants(*sorted(tools))
        scratch = Path(self.enterContext(tempfile.TemporaryDirectory()))
        path, folder = scratch / "bin", scratch / "examples"
        shutil.copytree(DATA, folder)
        path.mkdir()
        (path / "rtfilter").symlink_to(PROGRAM)
        if "psql" in tools:
            self.enterContext(mock.patch.dict(os.environ, self.enterContext(server(self))))
        for command, shown in examples:
            self.assertEqual(pages.printed(command, folder, path), shown, command)

    def test_that_blocks_are_found(self) -> None:
        commands = PAGES[0].read_text(encoding="utf-8").count("\n$ ") + 5  # of the quick start, whose other commands name no tools
        self.assertEqual(sum(len(examples) for _, examples in sections().values()), commands)
        self.assertGreater(commands, 30)

    def test_that_no_coordinate_is_clamped(self) -> None:
        """A longitude that 32 bits don't hold is reported, by each awk."""
        (line,) = [it for _, examples in sections().values() for it, _ in examples if it.startswith("awk ") and it.endswith(" > table.csv\n")]
        for awk in filter(shutil.which, ("mawk", "gawk")):
            scratch = Path(self.enterContext(tempfile.TemporaryDirectory()))
            (scratch / "rtfilter").symlink_to(PROGRAM)
            (scratch / "places.csv").write_text("far,214.7483648,0\n")
            shown = pages.printed(f"{awk}{line.removeprefix('awk')}rtfilter table.csv /dev/null", scratch, scratch)
            self.assertEqual(shown, "rtfilter: table record 1: field 2 is out of range\n", awk)

    def test_that_tools_are_named(self) -> None:
        """A section whose commands call a tool that not every machine has names it: it is skipped there."""
        for title, (tools, examples) in sections().items():
            text = "\n".join(command for command, _ in examples)
            for tool in TOOLS:
                if re.search(rf"(^|[|;&(] *){tool} ", text, re.MULTILINE):
                    self.assertIn(tool, tools, title)


def add_tests() -> None:
    """A test for each section that has commands, named after its title."""
    for title, (tools, examples) in sections().items():

        def test(self: Recipes, tools: set[str] = tools, examples: list[tuple[str, str]] = examples) -> None:
            self.run_section(tools, examples)

        if examples:
            setattr(Recipes, "test_" + re.sub(r"\W+", "_", title).lower(), test)


add_tests()

#!/usr/bin/env python3
"""Tries tools/edits on a small crate with good and bad edits, and on runners that are wrong.

usage: tests/edits.py

Each edit has to come to what is said of it here: a runner that fails nothing would show nothing. Then the runner is changed, in one
place at a time, into one that doesn't look, or looks at the wrong thing: the same expectations have to refuse each. The last line is
`N passed, M failed`.
"""

import os
import re
import shutil
import subprocess
import sys
import tempfile
from concurrent.futures import ThreadPoolExecutor
from pathlib import Path

ROOT = Path(__file__).resolve().parent.parent
NAME = "edits_tried"
SOURCE = """\
//! Functions whose bodies are changed.
#![tactic(auto)]

ghost use Rattle.std.specs.Prelude.{◌≡◌, ◌+◌};

const STEP: u16 = 3;

/// Two numbers.
pub struct Pair {
    pub first: u8,
    pub second: u8,
}

/// One more.
pub fn one_more(number: u8) -> u16
    ensures more { result ≡ number + 1 }
{
    u16::from(number) + 1
}

/// Two more.
pub fn two_more(number: u8) -> u16
    ensures more { result ≡ number + 2 }
{
    one_more(number) + 1
}

/// Three more.
pub fn three_more(number: u8) -> u16
    ensures more { result ≡ number + 3 }
{
    u16::from(number) + STEP
}

/// The same number.
pub fn same(number: u8) -> u8
    ensures same { result ≡ number }
{
    let found = number;
    found
}

/// A pair of one number.
pub fn twice(number: u8) -> Pair
    ensures both { result ≡ record {
      first = number;
      second = number;
    } }
{
    let (first, second) = (number, number);
    Pair { first, second }
}

/// Four more.
pub fn four_more(number: u8) -> u16
    ensures more { result ≡ number + 4 }
{
    let half = two_more(number);
    half + 2
}
"""
# A check reads these also if what the function calls isn't proved.
ANSWERS = f"""\
use Rattle.std.proofs.Common.{{rules}}
use Rattle.{NAME}.proofs.four_more.Goals as goal

pub returns : goal.returns
returns c = search rules
"""
# The edits: the old line, the new one, and what each comes to. Some have to be refused in a check of several edits, others alone;
# most may be either, since an edit that isn't compiled leaves those beside it open.
REFUSED, TOGETHER, ALONE, FAILS = "refused (?:alone )?at", "refused at", "refused alone at", "FAIL"
EDITS = {
    "one_more_is_two_more": ("    u16::from(number) + 1", "    u16::from(number) + 2", REFUSED),
    "one_more_the_other_way": ("    u16::from(number) + 1", "    1 + u16::from(number)", FAILS),
    "two_more_is_three_more": ("    one_more(number) + 1", "    one_more(number) + 2", REFUSED),
    "two_more_the_other_way": ("    one_more(number) + 1", "    1 + one_more(number)", FAILS),
    "step_of_a_constant": ("const STEP: u16 = 3;", "const STEP: u16 = 4;", ALONE),
    "same_is_nothing": ("    let found = number;", "    let found = 0;", REFUSED),
    "same_without_an_effect": ("    found", "    found + 0", FAILS),
    "same_not_compiled": ("    let found = number;", "    let found = another;", FAILS),
    "same_not_there": ("    let gone = number;", "    let gone = 0;", FAILS),
    "four_more_is_five_more": ("    half + 2", "    half + 3", TOGETHER),
    "four_more_the_other_way": ("    half + 2", "    2 + half", FAILS),
    "twice_is_once": ("    let (first, second) = (number, number);", "    let (first, second) = (number, 0);", TOGETHER),
}  # fmt: skip
# Wrong runners: what is planted, the text that is changed, what it becomes, and edits that show it.
PLANTS = [
    (
        "it never looks",
        "    function = edit.function\n",
        '    return "any"\n',
        ["same_is_nothing", "one_more_the_other_way"],
    ),
    (
        "a function that waits for another is refused",
        'if not said.startswith("not proved"):\n        return None\n',
        'if not said.startswith("not proved"):\n        return None if said == "proved" else "any"\n',
        ["one_more_is_two_more", "two_more_the_other_way", "four_more_is_five_more"],
    ),
    (
        "the verdict of another function is taken",
        "if it and it[1] == function.name]",
        "if it and it[2] != 'proved'][:1]",
        ["same_is_nothing", "one_more_the_other_way"],
    ),
    (
        "two edits of a function are in one check",
        "return name != there and not is_masked(name, there)",
        "return not is_masked(name, there)",
        ["same_is_nothing", "same_without_an_effect"],
    ),
    (
        "any end but a proof is a refusal",
        "is_refused, text = refusal(edit, status, output)",
        'is_refused, text = status != 0, "refused at `anyhow`"',
        ["same_is_nothing", "same_not_compiled", "same_not_there"],
    ),
    (
        "a proof is a refusal",
        'return False, "NOT REFUSED: ',
        'return True, "refused at `NOT`: ',
        ["same_is_nothing", "same_without_an_effect"],
    ),
    (
        "the last edit of a crate is left out",
        '(self.folder / "edits").glob("*.edit"))]',
        '(self.folder / "edits").glob("*.edit"))[:-1]]',
        ["one_more_is_two_more", "same_without_an_effect"],
    ),
]  # fmt: skip
# Of this plant the groups let a function and one that it calls be together.
ALSO = {"a function that waits for another is refused": ("called in reached[caller] and not has_proof[caller]", "False")}


def make_crate(folder):
    """A repository with the crate, and the runner."""
    shutil.copytree(ROOT / "tools", folder / "tools", ignore=shutil.ignore_patterns("__pycache__"))
    (folder / f"crates/{NAME}/src").mkdir(parents=True)
    (folder / f"crates/{NAME}/edits").mkdir()
    (folder / f"crates/{NAME}/src/lib.rt").write_text(SOURCE)
    (folder / f"crates/{NAME}/proofs/four_more").mkdir(parents=True)
    (folder / f"crates/{NAME}/proofs/four_more/Answers.antt").write_text(ANSWERS)
    (folder / "crates.txt").write_text(f"{NAME}:\n")
    (folder / "HANDLES").write_text("Handles allowed: none.\n")
    (folder / ".git").mkdir()


def add_edits(folder, names):
    for name in names:
        old, new, _ = EDITS[name]
        (folder / f"crates/{NAME}/edits/{name}.edit").write_text(f"file: src/lib.rt\nold: {old}\nnew: {new}\n")


def run(folder):
    """The lines that the runner prints."""
    ran = subprocess.run([sys.executable, folder / "tools/edits"], cwd=folder, stdin=subprocess.DEVNULL, stdout=subprocess.PIPE,
                         stderr=subprocess.STDOUT, text=True)  # fmt: skip
    return ran.returncode, ran.stdout.splitlines()


def faults(names, status, lines):
    """Where what the runner says isn't what is said of these edits."""
    found = []
    for name in names:
        expected = EDITS[name][2]
        pattern = rf"FAIL {NAME}/{name}\.edit: .*" if expected == FAILS else rf"{NAME}/{name}\.edit: {expected} `.+`.*"
        if sum(bool(re.fullmatch(pattern, line)) for line in lines) != 1:
            found.append(f"{name}: {next((it for it in lines if f'/{name}.' in it), 'not named')}")
    bad = sum(EDITS[name][2] == FAILS for name in names)
    if not lines or lines[-1] != f"{len(names) - bad} passed, {bad} failed":
        found.append(f"the last line is {lines[-1] if lines else 'not there'}")
    if (status != 0) != (bad > 0):
        found.append(f"the status is {status}")
    return found


def planted(first, folder, plant):
    """Whether the expectations refuse a wrong runner."""
    why, old, new, names = plant
    shutil.copytree(first, folder)
    shutil.rmtree(folder / f"crates/{NAME}/edits")
    (folder / f"crates/{NAME}/edits").mkdir()
    add_edits(folder, names)
    runner = folder / "tools/edits"
    text = runner.read_text()
    for one, other in ((old, new), *([ALSO[why]] if why in ALSO else [])):
        assert text.count(one) == 1, f"{why}: the runner has {one!r} {text.count(one)} times"
        text = text.replace(one, other)
    runner.write_text(text)
    return bool(faults(names, *run(folder)))


def main():
    os.nice(5)
    passed = failed = 0
    with tempfile.TemporaryDirectory(prefix="rtfilter-edits-tried-") as scratch:
        first = Path(scratch, "first")
        make_crate(first)
        subprocess.run(["rt", "check"], cwd=first / "crates" / NAME, stdin=subprocess.DEVNULL, stdout=subprocess.DEVNULL, check=True)
        with ThreadPoolExecutor(2) as pool:
            results = [(it, pool.submit(planted, first, Path(scratch, f"planted-{at}"), it)) for at, it in enumerate(PLANTS)]
            refused = [(it[0], future.result()) for it, future in results]
        add_edits(first, EDITS)
        found = faults(EDITS, *run(first))
        for it in found:
            print(f"FAIL {it}")
        for why, is_refused in refused:
            if not is_refused:
                print(f"FAIL a wrong runner passes: {why}")
            passed, failed = passed + is_refused, failed + (not is_refused)
        # An edit that isn't refused fails the run, and so does a crate without edits.
        passed, failed = passed + (not found), failed + bool(found)
    print(f"{passed} passed, {failed} failed")
    return int(failed > 0)


if __name__ == "__main__":
    sys.exit(main())

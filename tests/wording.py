#!/usr/bin/env python3
"""The wording of the pages: words that they don't use, and how long sentences are.

usage: tests/wording.py

Prints for each page the words of its prose, the words a sentence on average, and those of its longest sentence. Prose is what is in no
fenced block, table, heading, picture, comment or list of links; a link counts by its text, a piece of code as one word.
`tests/pages.py` has `complaints`.
"""

import re
import sys
from pathlib import Path

ROOT = Path(__file__).resolve().parent.parent
# Words that mean too much; say report, return, print, client, again, needed, skipped, out of memory, instead of, alone.
AVOIDED = re.compile(
    r"\b(?:tells?|told|whoever|nobody|somebody|everybody|heard|anew|wanted|is had|passed over|want of|in (?:the )?place of|so many|by itself|"
    r"who asks?)\b|, say\b",
    re.IGNORECASE,
)
LONGEST, MOST_ON_AVERAGE = 40, 18  # words of a sentence, in pages for users
FOR_CONTRIBUTORS = "CHANGELOG.md", "CONTRIBUTING.md", "docs/DECISIONS.md", "docs/internals/", "tests/"


def paragraphs(text):
    """The paragraphs and items of a page's prose."""
    for pattern in (r"^ *```.*?^ *```$", r"<!-- (\w+).*? -->.*?<!-- end of \1s? -->", r"<!--.*?-->"):
        text = re.sub(pattern, "", text, flags=re.MULTILINE | re.DOTALL)
    text = re.sub(r"!\[[^]]*\]\([^)]*\)", "", text)
    text = re.sub(r"\[([^]]*)\]\([^)]*\)", r"\1", re.sub(r"^(?:- )?(?:\[[^]]*\]\([^)]*\)(?:,| ·)?\s*)+$", "", text, flags=re.MULTILINE))
    text = re.sub(r"^(?: {4}|#|\||  \|).*$", "", text, flags=re.MULTILINE)
    text = re.sub(r"^ *(?:- |\d+\. )", "\n", text, flags=re.MULTILINE)
    yield from (" ".join(it.split()) for it in re.split(r"\n\s*\n", text) if it.strip())


def sentences(text):
    """The sentences of a page's prose, each as a list of words."""
    for paragraph in paragraphs(text):
        plain = re.sub(r"`[^`]*`", "CODE", paragraph).replace("**", "")
        yield from (it.split() for it in re.split(r"(?<=[.!?:])\s+(?=[A-Z(\"]|(?:lib)?rtfilter\b|shapely\b|pyproj\b)", plain))


def complaints(pages):
    """The words that pages shouldn't use, and sentences for users that are too long. `pages` are texts by name."""
    for name, text in pages.items():
        found = list(sentences(text))
        used = sorted({match.group().lower() for words in found for match in AVOIDED.finditer(" ".join(words))})
        if used:
            yield f"{name}: {', '.join(used)}"
        if not name.startswith(FOR_CONTRIBUTORS) and found:
            yield from (f"{name}: {len(words)} words: {' '.join(words)}" for words in found if len(words) > LONGEST)
            if sum(map(len, found)) > MOST_ON_AVERAGE * len(found):
                yield f"{name}: {sum(map(len, found)) / len(found):.1f} words a sentence"


def main():
    total = 0
    for path in sorted(ROOT.rglob("*.md")):
        name = str(path.relative_to(ROOT))
        lengths = [len(it) for it in sentences(path.read_text(encoding="utf-8"))] if not name.startswith(("build/", ".")) else []
        if lengths:
            total += sum(lengths)
            print(f"{name:32} {sum(lengths):6} {sum(lengths) / len(lengths):6.1f} {max(lengths):4}")
    print(f"{'all':32} {total:6}")
    return 0


if __name__ == "__main__":
    sys.exit(main())

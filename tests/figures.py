"""Figures that stand in more than one place: what sentences quote of measured tables, and numbers that pages have in common."""

import re

FIGURE = r"([\d.,]*\d(?: (?:ns|µs|ms|s|MB|GB)\b)?)"
TABLES = "docs/performance.md"

QUOTES = [  # a page, words with {} for each figure, a table of docs/performance.md, and the row and the column of each figure
    (TABLES, "loads the whole table: {} for a million boxes", "changes", [("rtfilter, a load", "1,000,000")]),
    (TABLES, "it needs no load, but making it takes {}.", "largest", [("SQLite's R*Tree", "load")]),
    (TABLES, "Each change needs a new load: {} for a million boxes", "changes", [("rtfilter, a load", "1,000,000")]),
    (TABLES, "moves one box in {}.", "changes", [("SQLite's R*Tree in memory, one `UPDATE`", "1,000,000")]),
    (TABLES, "(`on a ring`) take {},", "tables", [("on a ring: nearest 10, from the middle", "rtfilter")]),
    (
        TABLES, "A window takes {} instead of {}, and the nearest 10 take {} instead of {}.", "tables",
        [(f"{table}: {query}", "rtfilter") for query in ("window", "nearest 10") for table in ("very different sizes", "uniform")],
    ),
    (
        TABLES, "A window takes {} over slabs and {} over crossing boxes.", "tables",
        [("slabs: window", "rtfilter"), ("crossing: window", "rtfilter")],
    ),
    (TABLES, "`count all` checks every box: {} instead of {}.", "regions", [("all", "count on"), ("all", "count")]),
    (
        "docs/faq.md", "a window takes {} times as long with Boost and {} times with GEOS", "library",
        [("find window, about 20 boxes", name) for name in ("Boost.Geometry", "GEOS")],
    ),
    (
        "docs/faq.md", "The nearest ten take {} times as long with Boost and {} times with GEOS", "library",
        [("nearest 10", name) for name in ("Boost.Geometry", "GEOS")],
    ),
    ("docs/faq.md", "a large count {} times with both", "library", [("count window, a quarter of the plane", "Boost.Geometry")]),
    ("docs/faq.md", "For `covers` of a point Boost takes {} times as long", "library", [("find covers, a point", "Boost.Geometry")]),
    (
        "docs/faq.md", "A million boxes take {} while the program loads a CSV file, {} afterwards", "largest",
        [("rtfilter", "most while it loads"), ("rtfilter", "resident, loaded")],
    ),
]  # fmt: skip

SHARED = [  # files, each with words that have {} for a number, which is the same in all
    [("VERSION", "{}"), ("README.md", "Version {};"), ("CHANGELOG.md", "# Changes ## {},"), ("include/rtfilter.h", 'such as "{}"')],
    [("docs/limits.md", "A service has {} connections"), ("docs/service.md", "connections at a time, 1 to 1048576 | {} |")],
    [("docs/limits.md", "one that is silent for {} s."), ("docs/service.md", "a silent connection is closed, 0 for never | {} |")],
    [("docs/limits.md", "times](service.md#connections) {} s."), ("docs/service.md", "may wait for its reader, 0 for ever | {} |")],
    [("docs/limits.md", "replaced table end within {} s."), ("docs/service.md", "write replies after SIGTERM | {} |")],
    [
        ("docs/limits.md", "use at most {} GB together (`MemoryMax=`)"), ("docs/service.md", "use at most {} GB of memory together"),
        ("service/rtfilter.service", "MemoryMax={}G"),
    ],
    [
        ("README.md", "or fewer than {} if the boxes are in an SQLite R*Tree file"), (TABLES, "Up to about {}, an existing SQLite R*Tree file is"),
    ],
    [("docs/service.md", "one line at a time | {} |"), ("docs/scaling.md", "[{} lines a second](service.md#speed)")],
    [("docs/library.md", "and four threads {} times]"), ("docs/scaling.md", "four threads answered {} times as many windows as one in [C]")],
    [(TABLES, "Four threads answer {} times as many"), ("docs/scaling.md", ", {} times in [Python]")],
    [
        ("docs/library.md", "what its searches touch of {} n reserved bytes"),
        ("docs/limits.md", "reserved for each thread, session or connection | {} n |"),
    ],
    [(TABLES, "`Rtfilter.find` | {} |"), ("docs/python.md", "a window takes about [{} µs]")],
    [("docs/limits.md", "or later, and the library {}."), ("docs/library.md", "| C library | glibc {} or later")],
]  # fmt: skip


def table_of(text, name):
    """The cells of a measured table, by the first cell of their row and the head of their column."""
    table = re.search(rf"<!-- table {re.escape(name)} -->\n\n(.*?)\n\n<!-- end of table -->", text, re.DOTALL)[1]
    head, _, *rows = [[cell.strip() for cell in line.strip("|").split(" | ")] for line in table.splitlines()]
    return {(row[0], column): cell for row in rows for column, cell in zip(head, row)}


def found(text, words):
    """The figures for each {} of some words, or none if a text hasn't these words."""
    pattern = FIGURE.join(re.escape(part) for part in " ".join(words.split()).split("{}"))
    match = re.search(pattern, " ".join(text.split()))
    return list(match.groups()) if match else []


def other_figures(read):
    """Quotes that aren't what their table has, and numbers that aren't the same in all places. `read` gives the text of a file."""
    tables = read(TABLES)
    for page, words, name, cells in QUOTES:
        table = table_of(tables, name)
        figures = found(read(page), words)
        if len(figures) != len(cells) or not all(
            figure in re.fullmatch(r"(.*?)(?: \((.*)\))?", table[cell]).groups() for figure, cell in zip(figures, cells)
        ):
            yield f"{page}: {words}: {figures}, and the table has {[table[cell] for cell in cells]}"
    for places in SHARED:
        numbers = {(page, words): found(read(page), words) for page, words in places}
        if len({tuple(it) for it in numbers.values()}) != 1 or [] in numbers.values():
            yield f"{numbers}"

"""The pictures of what bench/bench.py found."""

from charts import Dots, Panel
from kinds import ALL, NEAREST, QUARTER, WINDOW
from programs import OURS, SCAN
from svg import svg
from words import bytes_text, count_on_axis, count_text, time_text

WIDTH, HEIGHT = 440, 290  # of a panel with what stands round it


def grid(title, panels, columns=2):
    """Panels side by side and below each other."""
    rows = -(-len(panels) // columns)
    parts = []
    for at, panel in enumerate(panels):
        parts += panel.draw(at % columns * WIDTH, at // columns * HEIGHT, WIDTH, HEIGHT)
    return svg(columns * WIDTH, rows * HEIGHT, title, parts)


def over_boxes(growth, title, value, tell_up=time_text, note="processor time"):
    """What a value of each program is over the number of boxes."""
    lines = {}
    for boxes, found in growth.items():
        for name in found["load"]:
            lines.setdefault(name, {})[int(boxes)] = value(found, name)
    return Panel(title, "boxes", count_on_axis, tell_up, lines, note)


def of_line(growth, title, kind):
    note = "processor time of a line"
    return over_boxes(growth, title, lambda found, name: found["lines"][kind][name], note=note)


def of_load(growth):
    return over_boxes(growth, "Time to load", lambda found, name: found["load"][name])


def grown(growth):
    """How cost grows."""
    return grid("Cost over the number of boxes, for rtfilter and others", [
        of_load(growth),
        over_boxes(growth, "Memory", lambda found, name: found["loaded"][name]["most"], bytes_text, "most while it loads"),
        of_line(growth, "Time of a window with about 20 boxes", WINDOW),
        of_line(growth, "Time of the 10 nearest boxes", NEAREST),
        of_line(growth, "Time of a count of a quarter of all boxes", QUARTER),
        of_line(growth, "Time of all boxes, by id", ALL),
    ])


def short(growth):
    """The picture of README.md."""
    return grid("A load and a window over the number of boxes, for rtfilter and others", [
        of_line(growth, "Time of a window with about 20 boxes", WINDOW),
        of_load(growth),
    ])


def by_table(found):
    """How many times rtfilter's time the others took, over tables whose boxes lie otherwise."""
    groups = {}
    for table, it in found["tables"].items():
        rows = groups[table] = {}
        for name, seconds in [("load", it["load"]), *it["lines"].items()]:
            ours = seconds[OURS]
            rows[name] = time_text(ours), {other: time / ours for other, time in seconds.items() if other != OURS}
    title = f"Other indexes beside rtfilter, by how {count_text(found['boxes'])} boxes lie and what is asked"
    dots = Dots(title, groups, 2 * WIDTH)
    return svg(dots.width, dots.height, title, dots.draw())


def in_process(found):
    """How many times librtfilter's time the libraries of the others take in one process."""
    def row(seconds):
        ours = seconds[OURS]
        return time_text(ours), {name: seconds[name] / ours for name in found["open"] if name != OURS and name in seconds}

    threads = {f"{count} thread{'s' if count != '1' else ''}": row(it) for count, it in found["threads"].items()}
    groups = {
        "one query per call": {kind: row(seconds) for kind, seconds in found["queries"].items()},
        "a table": {"open from arrays": row(found["open"])},
        "windows": threads,
    }
    title = f"Other libraries beside librtfilter, in one process, over {count_text(found['boxes'])} boxes"
    dots = Dots(title, groups, 2 * WIDTH)
    return svg(dots.width, dots.height, title, dots.draw())


def by_number(line):
    """The numbers of JSON, which has them as texts."""
    return {int(number): value for number, value in line.items()}


def meeting(ours, other):
    """The number from which on rtfilter is ahead of another, and its value there; None if that isn't seen.

    Between two numbers each line grows by as much for each, so that the place can be computed.
    """
    numbers = sorted({*ours} & {*other})
    for low, high in zip(numbers, numbers[1:]):
        behind, ahead = ours[low] - other[low], other[high] - ours[high]
        if behind > 0 <= ahead:
            share = behind / (behind + ahead)
            return round(low + share * (high - low)), ours[low] + share * (ours[high] - ours[low])
    return None


def elsewhere(found, growth):
    """Few queries over a big table, and the change of one box."""
    names = {SCAN: f"{SCAN}: a scan, no index", "SQLite's R*Tree in a file": "SQLite's R*Tree: SQLite, in a file"}
    queries = {names.get(name, name): by_number(line) for name, line in found["queries"].items()}
    meetings = [meeting(queries[OURS], line) for line in queries.values() if line is not queries[OURS]]
    loads = {int(boxes): it["load"][OURS] for boxes, it in growth.items()}
    whole = f"A whole run over {count_text(found['boxes'])} boxes"
    return grid("Whole runs by how many queries they ask, and the change of one box", [
        Panel(
            whole, "windows in the run", count_on_axis, time_text, queries,
            "left of a ring, another is faster", [it for it in meetings if it],
        ),
        Panel(
            "A change: until one moved box is seen", "boxes", count_on_axis, time_text,
            {f"{OURS}: rtfilter: loads all": loads, "SQLite's R*Tree: SQLite: UPDATE": by_number(found["changes"])},
            "rtfilter has no updates: it loads the whole table again",
        ),
    ])


def pictures(found):
    """Each picture that can be drawn, by the name of its file."""
    if "growth" in found:
        yield "growth.svg", grown(found["growth"])
        yield "peers.svg", short(found["growth"])
    if "tables" in found:
        yield "tables.svg", by_table(found["tables"])
    if found.get("library"):
        yield "library.svg", in_process(found["library"])
    if "elsewhere" in found and "growth" in found:
        yield "elsewhere.svg", elsewhere(found["elsewhere"], found["growth"])

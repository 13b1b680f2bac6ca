"""Tables in Markdown of what bench/bench.py found."""

import textwrap

import in_process
from kinds import FORMS, LIMITS, MAIN, REGIONS
from machine import sentence
from programs import OURS
from words import bytes_text, count_text, ratio_text, time_text

# The figures of memory: when it was looked at, and what of it.
MEMORY = {
    "resident, loaded": ("loaded", "resident"),
    "most while it loads": ("loaded", "most"),
    "resident, after the lines": ("memory", "resident"),
    "address space": ("memory", "address space"),
}


def table(head, rows):
    """A table in Markdown."""
    lines = [head, ["---"] * len(head), *rows]
    return "".join("| " + " | ".join(line) + " |\n" for line in lines)


def beside(seconds, name):
    """A time, and how many times rtfilter's it is."""
    if name not in seconds:
        return ""
    cell = time_text(seconds[name])
    return cell if name == OURS else f"{cell} ({ratio_text(seconds[name] / seconds[OURS])})"


def beside_fastest(seconds):
    """rtfilter's time, and how many times that the fastest of the others took."""
    others = [value for name, value in seconds.items() if name != OURS]
    cell = time_text(seconds[OURS])
    return f"{cell} ({ratio_text(min(others) / seconds[OURS])})" if others else cell


# ---- each table


def rows_of_group(lines, group):
    """The seconds of a group by row and column."""
    rows = {}
    for it in lines["rows"]:
        if it["group"] == group:
            rows.setdefault(it["row"], {})[it["column"]] = it["seconds"]
    return rows


def peers(found, cell=beside, with_memory=True):
    lines = found["lines"]
    names = list(lines["load"])
    main = rows_of_group(lines, "main")
    rows = [["load", *(cell(lines["load"], name) for name in names)]]
    rows += [[kind, *(cell(main[kind]["find"], name) for name in names)] for kind in MAIN]
    if with_memory:
        for title, (when, what) in MEMORY.items():
            rows.append([f"memory: {title}", *(bytes_text(lines[when][name][what]) for name in names)])
    return table([f"over {count_text(lines['boxes'])} boxes", *names], rows)


def short_peers(found):
    return peers(found, lambda seconds, name: time_text(seconds[name]), with_memory=False)


def regions(found):
    rows = rows_of_group(found["lines"], "regions")
    return table(["region", *FORMS], [
        [region, *(beside_fastest(rows[region][form]) if form in rows[region] else "" for form in FORMS)]
        for region in (*REGIONS, "levels")
    ])


def limits(found):
    rows = rows_of_group(found["lines"], "limits")
    columns = [*map(str, LIMITS)]
    head = ["region and order", "no limit", *(f"first {limit:,}" for limit in LIMITS[1:])]
    return table(head, [
        [name, *(beside_fastest(row[column]) if column in row else "" for column in columns)]
        for name, row in rows.items()
    ])


def tables(found):
    it = found["tables"]
    names = list(next(iter(it["tables"].values()))["load"])
    rows = []
    for name, one in it["tables"].items():
        for kind, seconds in [("load", one["load"]), *one["lines"].items()]:
            rows.append([f"{name}: {kind}", *(beside(seconds, program) for program in names)])
    return table([f"over {count_text(it['boxes'])} boxes", *names], rows)


def growth(found):
    sizes = found["growth"]
    names = list(next(iter(sizes.values()))["load"])
    kinds = list(next(iter(sizes.values()))["lines"])
    rows = []
    for name in names:
        rows.append([f"{name}: load", *(beside(it["load"], name) for it in sizes.values())])
        rows.append([f"{name}: most memory", *(bytes_text(it["loaded"][name]["most"]) for it in sizes.values())])
        rows += [[f"{name}: {kind}", *(beside(it["lines"][kind], name) for it in sizes.values())] for kind in kinds]
    return table(["boxes", *(count_text(int(boxes)) for boxes in sizes)], rows)


def largest(found):
    """The largest table of the growth: loads and memory."""
    boxes, it = list(found["growth"].items())[-1]
    rows = [
        [name, beside(it["load"], name), *(bytes_text(it[when][name][what]) for when, what in MEMORY.values())]
        for name in it["load"]
    ]
    return table([f"over {count_text(int(boxes))} boxes", "load", *MEMORY], rows)


def ids(found):
    it = found["ids"]
    names = list(next(iter(it["rows"].values()))["load"])
    rows = [
        [order, *(beside(row["load"], name) for name in names), bytes_text(row["loaded"][OURS]["most"]),
         beside_fastest(row["find all"])]
        for order, row in it["rows"].items()
    ]
    return table(["ids", *(f"load, {name}" for name in names), "memory", "`find all`"], rows)


def instructions(found):
    it = found["instructions"]
    names = list(next(iter(it["lines"].values())))
    rows = []
    for kind, counts in it["lines"].items():
        cells = {name: f"{count:,.0f} ({ratio_text(count / counts[OURS])})" for name, count in counts.items()}
        cells[OURS] = f"{counts[OURS]:,.0f}"
        rows.append([kind, *(cells.get(name, "") for name in names)])
    return table([f"instructions, over {count_text(it['boxes'])} boxes", *names], rows)


def queries(found):
    it = found["elsewhere"]
    counts = list(dict.fromkeys(count for line in it["queries"].values() for count in line))
    rows = [
        [name, *(time_text(line[count]) if count in line else "" for count in counts)]
        for name, line in it["queries"].items()
    ]
    head = [f"windows, over {count_text(it['boxes'])} boxes", *(count_text(int(count)) for count in counts)]
    return table(head, rows)


def changes(found):
    sizes, changed = found["growth"], found["elsewhere"]["changes"]
    one = (time_text(changed[boxes]) if boxes in changed else "" for boxes in sizes)
    rows = [
        ["rtfilter, a load", *(time_text(it["load"][OURS]) for it in sizes.values())],
        ["SQLite's R*Tree in memory, one `UPDATE`", *one],
    ]
    return table(["boxes", *(count_text(int(boxes)) for boxes in sizes)], rows)


def calls(found):
    """librtfilter beside the libraries of the others."""
    it = found["library"]
    names = [name for name in it["open"] if name != OURS]
    many = f"{OURS}, many queries a call"
    rows = [
        [kind, *(beside(seconds, name) for name in (OURS, many, *names))] for kind, seconds in it["queries"].items()
    ]
    rows.append(["open from arrays", beside(it["open"], OURS), "", *(beside(it["open"], name) for name in names)])
    memory = {name: f"{bytes_text(count)} ({ratio_text(count / it['memory'][OURS])})" for name, count in it["memory"].items()}
    rows.append(["memory, opened", bytes_text(it["memory"][OURS]), "", *(memory[name] for name in names)])
    for count, seconds in it["threads"].items():
        title = f"windows, {count} thread{'s' if count != '1' else ''}"
        rows.append([title, beside(seconds, OURS), "", *(beside(seconds, name) for name in names)])
    head = [f"over {count_text(it['boxes'])} boxes", OURS, f"{OURS}, {in_process.FORMS[many]}", *names]
    return table(head, rows)


def forms(found):
    """librtfilter by queries in numbers and by lines."""
    it = found["library"]
    return table([f"over {count_text(it['boxes'])} boxes", *in_process.FORMS.values()], [
        [kind, *(beside(seconds, name) for name in in_process.FORMS)] for kind, seconds in it["queries"].items()
    ])


def made_on(found):
    return textwrap.fill(sentence(found["machine"]), 118, break_on_hyphens=False) + "\n"


def library_made_on(found):
    return made_on(found["library"])


# Each table by its name, and the parts of the figures that it wants.
TABLES = {
    "machine": (made_on, ["machine"]),
    "peers": (peers, ["lines"]),
    "short peers": (short_peers, ["lines"]),
    "regions": (regions, ["lines"]),
    "limits": (limits, ["lines"]),
    "tables": (tables, ["tables"]),
    "growth": (growth, ["growth"]),
    "largest": (largest, ["growth"]),
    "ids": (ids, ["ids"]),
    "instructions": (instructions, ["instructions"]),
    "queries": (queries, ["elsewhere"]),
    "changes": (changes, ["elsewhere", "growth"]),
    "library machine": (library_made_on, ["library"]),
    "library": (calls, ["library"]),
    "library forms": (forms, ["library"]),
}


def made_tables(found):
    return {name: make(found) for name, (make, parts) in TABLES.items() if all(found.get(part) for part in parts)}

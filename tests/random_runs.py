#!/usr/bin/env python3
"""Compares the built program with a plain reading of the same rules in another language, on random runs.

usage: tests/random_runs.py PROGRAM [--first SEED] [--seeds N]

`reading.expected` says what a run gives. Each seed is a test of `RUNS` runs, whose tables are mostly sound and whose
query lines are at fault as often as not, of `COST_RUNS` whose lines ask what queries cost, without a limit and with
limits below, at and above the number of answers, and of `LIMIT_RUNS` over many boxes with limits about those at which
answers are kept in another way. One more test is that the runs meet each form of the language and each
fault often enough, and faults at least as often as answers. The last line is `N passed, M failed`.
"""

import argparse
import collections
import random
import re
import subprocess
import sys
import tempfile
from pathlib import Path

sys.dont_write_bytecode = True
import reading
from checks import status_of
from reading import FAULTS, LONGEST_LINE, MARK

RUNS, COST_RUNS, LIMIT_RUNS = 40, 8, 2
MOST_ENTRIES = 16777216
FANOUTS = [2, 3, 16, 64]

# ---- numbers

SMALL = -20, 20
COORDINATE_ENDS = [-(2**31), -(2**31) + 1, 2**31 - 2, 2**31 - 1]
EDGES = [n + d for n in (0, 2**31, -(2**31), 2**32, 2**63, -(2**63), 2**64, 2**127, 10**40) for d in (-1, 0, 1)]
NO_NUMBERS = [b"", b"-", b"+", b"x", b"1 ", b" 1", b"--1", b"+-1", b"1.0", b"1e3", b"0x1", b"\0", b"\xff", MARK + b"1"]


def small(chance):
    return chance.randint(*SMALL)


def pair(chance):
    """A least and a greatest number: small ones, near each other or not, now and then at the ends of their range."""
    if chance.random() < 0.3:
        least = small(chance)
        return [least, least + chance.choice([0, 0, 1, 3])]
    return sorted(chance.choice(COORDINATE_ENDS) if chance.random() < 0.05 else small(chance) for _ in range(2))


def box(chance):
    """The sides of a box, now and then with all of them at the ends of their range."""
    if chance.random() < 0.05:
        return [*sorted(chance.choices(COORDINATE_ENDS, k=2)), *sorted(chance.choices(COORDINATE_ENDS, k=2))]
    return [*pair(chance), *pair(chance)]


def written(chance, value):
    """A number with signs and zeros as they may be."""
    sign = b"-" if value < 0 or (value == 0 and chance.random() < 0.1) else chance.choice([b"", b"", b"", b"+"])
    return sign + b"0" * chance.choice([0, 0, 0, 0, 1, 50]) + b"%d" % abs(value)


def some_number(chance):
    """A small number; now and then a great one, or none."""
    if chance.random() < 0.02:
        return chance.choice(NO_NUMBERS)
    return written(chance, chance.choice(EDGES) if chance.random() < 0.03 else small(chance))


# ---- tables

ENDS = [b"\n", b"\r\n", b"\r", b"\n\n"]
# Some are a power of a fanout, or one more.
SIZES = [0, 1, 2, 3, 4, 9, 10, 16, 17, 50, 64, 65, 150]
COST_SIZES = [0, 1, 4, 17, 50, 65, 150, 200]
MANY_SIZES = [130, 400, 900, 1500]
QUOTED = [b'""', b'"1"2', b'1"2', b'"1\n"', b'"1,2"', b'"a""b"', b'"']


# The layer of a box by the kind of its table: chance alone decides it, or the box's place. Where there is none, records
# have five fields, and layer 0 may be written or not.
LAYERS = {
    "five fields": lambda chance, sides: None,
    "no layer but 0": lambda chance, sides: 0,
    "few layers": lambda chance, sides: chance.choice([0, 1, 5]),
    "all layers": lambda chance, sides: chance.randint(0, 63),
    "a rare layer": lambda chance, sides: 63 if chance.random() < 0.03 else 1,
    "layers by place": lambda chance, sides: min(max(sides[0] - SMALL[0], 0), 63),
}
BEYOND_LAYERS = [b"64", b"-1", b"+64", b"65", b"255", b"256", b"0064", b"99999999999999999999"]


def some_bad_layer(chance):
    """The fields of a record whose sixth is at fault, and now and then the fifth, or a minimum above its maximum."""
    fields = [b"%d" % n for n in (chance.randint(-(10**12), 10**12), *box(chance))]
    fields.append(chance.choice(chance.choice([BEYOND_LAYERS, BEYOND_LAYERS, NO_NUMBERS, [b""]])))
    if chance.random() < 0.2:
        fields[4] = some_number(chance)
    if chance.random() < 0.3:
        fields[1:3] = fields[2:0:-1]
    return fields


def some_record(chance, is_sound, layer):
    if is_sound or chance.random() < 0.9:
        sides = box(chance)
        fields = [b"%d" % n for n in (chance.randint(-(10**12), 10**12), *sides)]
        on = layer(chance, sides)
        if on or on == 0 and chance.random() < 0.5:
            fields.append(written(chance, on))
    elif chance.random() < 0.6:
        fields = some_bad_layer(chance)
    else:
        fields = [some_number(chance) for _ in range(chance.choice([5, 5, 6, 6, 4, 7, 1]))]
        if chance.random() < 0.1:
            fields[0] = chance.choice(QUOTED)
    return b",".join(b'"%b"' % field if chance.random() < 0.05 and b'"' not in field else field for field in fields)


def some_table(chance):
    is_sound = chance.random() < 0.8
    end = chance.choice([*ENDS, None])
    layer = chance.choice([*LAYERS.values()])
    rows = [some_record(chance, is_sound, layer) for _ in range(chance.choice(SIZES))]
    if rows and not is_sound and chance.random() < 0.3:
        rows.append(chance.choice([chance.choice(rows), b" ", b'""']))
    text = b"".join(row + (end or chance.choice(ENDS)) for row in rows)
    return MARK * chance.choice([0] * 20 + [1, 2]) + (text if chance.random() < 0.7 else text.rstrip(b"\r\n"))


def some_small_boxes(chance):
    """A sound table whose boxes are small, so that there are nodes in a region and beside it; now and then one is large."""
    layer, longest = chance.choice([*LAYERS.values()]), chance.choice([0, 2, 8])
    rows = []
    for id in chance.sample(range(-1000, 1000), chance.choice(COST_SIZES)):
        x, y, reach = small(chance), small(chance), 100 if chance.random() < 0.005 else longest
        sides = x, x + chance.randint(0, reach), y, y + chance.randint(0, reach)
        on = layer(chance, sides)
        rows.append([id, *sides, *[on] * (on is not None)])
    return b"".join(b",".join(map(b"%d".__mod__, row)) + b"\n" for row in rows)


def some_many_boxes(chance):
    """A sound table of many boxes, whose ids lie close together or far apart; now and then one is at the ends."""
    apart = chance.choice([1, 2**52])
    ids = chance.sample(range(-1000, 1000), chance.choice(MANY_SIZES))
    return b"".join(b"%d,%d,%d,%d,%d\n" % (id * apart, *box(chance)) for id in ids)


# ---- query lines

REGIONS = [b"all", b"window", b"inside", b"covers", b"circle", b"polygon"]
ROUND = [(0, 0), (4, -1), (8, 1), (10, 5), (9, 9), (5, 11), (1, 9), (-1, 4)]
CORNERS = [(-(2**31), -(2**31)), (2**31 - 1, -(2**31)), (2**31 - 1, 2**31 - 1), (-(2**31), 2**31 - 1)]
PARABOLA = [(n, n * n) for n in range(-8, 8)]


def some_vertices(chance):
    """Vertices, mostly of a strictly convex polygon, either way round and begun anywhere."""
    kind = chance.random()
    if kind < 0.35:
        vertices = [(small(chance), small(chance)) for _ in range(3)]
    elif kind < 0.6:
        at, zoom = (small(chance), small(chance)), chance.choice([1, 1, 2, 3])
        vertices = [(at[0] + zoom * x, at[1] + zoom * y) for x, y in ROUND]
    elif kind < 0.7:
        vertices = list(PARABOLA)
    elif kind < 0.8:
        vertices = list(CORNERS)
    else:
        (x1, x2), (y1, y2) = pair(chance), pair(chance)
        vertices = [(x1, y1), (x2, y1), (x2, y2), (x1, y2)]
    kept = chance.randint(3, len(vertices))
    vertices = [vertices[at] for at in sorted(chance.sample(range(len(vertices)), kept))]
    turned = chance.randrange(kept)
    vertices = vertices[turned:] + vertices[:turned]
    return vertices[:: chance.choice([1, -1])]


def some_radius(chance):
    kind = chance.random()
    return chance.choice([2**32 - 1, 2**31, 0]) if kind < 0.1 else chance.randint(0, 30)


def some_region(chance):
    """The words of a region."""
    name = chance.choice(REGIONS)
    if name == b"all":
        return [name]
    if name == b"circle":
        numbers = [small(chance), small(chance), some_radius(chance)]
    elif name == b"polygon":
        vertices = some_vertices(chance)
        numbers = [len(vertices), *(side for vertex in vertices for side in vertex)]
    elif name == b"covers":
        x, y = small(chance), small(chance)
        numbers = [x, x + chance.choice([0, 0, 1, 5]), y, y + chance.choice([0, 0, 1, 5])]
    else:
        numbers = [*pair(chance), *pair(chance)]
    return [name, *(written(chance, number) for number in numbers)]


def some_limit(chance):
    return written(chance, chance.choice([0, 1, 1, 2, 3, 5, 20, 2**64 - 1]))


# Few are kept in order as they are found, up to 64 or 128; of many those behind a sample's bound are given up.
FEW_AND_MANY = [n + d for n in (64, 128) for d in (-1, 0, 1)] + [255, 256, 257, 350, 700]


# Lists at fault: an empty part, one that is no number, one out of range, or two of these.
BAD_LISTS = [b",", b"3,", b",3", b"0,,1", b"x", b"0,x", b"1;2", b"0-3", b"1.0", b"+", b"0,+", b"1,\xff", b"x,64"]
BAD_LISTS += [b"64", b"0,64,1", b"-1", b"64,x", b"64,", b"256", b"18446744073709551616", b"0,99999999999999999999999"]


def some_list(chance):
    """A list of layers, now and then with one of them twice."""
    chosen = chance.choices([0, 0, 1, 1, 5, 63, chance.randint(0, 63)], k=chance.choice([1, 1, 1, 2, 3, 8]))
    return b",".join(written(chance, layer) for layer in chosen)


def some_on(chance):
    return [b"on", some_list(chance)]


def some_point(chance):
    values = chance.choices(COORDINATE_ENDS, k=2) if chance.random() < 0.15 else [small(chance), small(chance)]
    return [written(chance, value) for value in values]


def some_boxes(chance):
    return [*some_region(chance), *chance.choice([[], some_on(chance)])]


def some_wide_region(chance):
    """The words of a region in which whole nodes may lie."""
    left, right, bottom, top = (side * chance.randint(5, 25) for side in (-1, 1, -1, 1))
    names = {
        b"all": [],
        b"window": [left, right, bottom, top],
        b"inside": [left, right, bottom, top],
        b"circle": [small(chance), small(chance), right],
        b"polygon": [4, left, 0, 0, bottom, right, 0, 0, top],
    }
    name = chance.choice([*names])
    return [name, *(b"%d" % number for number in names[name])]


def some_order(chance):
    return chance.choice([[], [], [b"near", *some_point(chance)], [b"smallest"]])


def some_query(chance):
    """The words of a sound query."""
    verb = chance.choice([b"find"] * 5 + [b"nearest", b"count", b"count", b"levels"])
    if verb == b"levels":
        return [verb]
    words = [b"cost"] * (chance.random() < 0.2) + [verb]
    if verb == b"nearest":
        return [*words, some_limit(chance), *some_point(chance)]
    words += some_boxes(chance)
    if verb == b"find":
        words += some_order(chance)
        words += chance.choice([[], [b"first", some_limit(chance)]])
    return words


def some_costs(chance, boxes):
    """Lines that ask what queries for the same boxes cost: a count, all of them, and limits about their number."""
    region, order = chance.choice([some_boxes, some_wide_region])(chance), some_order(chance)
    if chance.random() < 0.2:
        region, order = [b"all"], [b"near", *some_point(chance)]
    find = [b"find", *region, *order]
    try:
        question = reading.question(reading.Words(b" ".join(find)))
    except reading.Fault:  # a polygon that isn't one
        return some_costs(chance, boxes)
    count = len(reading.answers(boxes, question.region.accepts, question.score, None))
    lines = [[b"count", *region], find]
    for limit in {0, 1, chance.randint(0, count), max(count - 1, 0), count, count + 1}:
        lines.append([*find, b"first", b"%d" % limit])
        if region == [b"all"] and order[:1] == [b"near"]:
            lines.append([b"nearest", b"%d" % limit, *order[1:]])
    return [b" ".join([b"cost", *line]) for line in lines]


def some_limited(chance):
    """A line that asks for a number of boxes of a region in which there may be more, after or before one for others."""
    if chance.random() < 0.2:
        return b" ".join([b"nearest", b"%d" % chance.choice(FEW_AND_MANY), *some_point(chance)])
    region = chance.choice([[b"all"], some_wide_region(chance)])
    limit = [b"first", b"%d" % chance.choice(FEW_AND_MANY)] * (chance.random() < 0.9)
    return b" ".join([b"find", *region, *some_order(chance), *limit])


WORDS = [*REGIONS, b"find", b"count", b"nearest", b"levels", b"near", b"smallest", b"first", b"on", b"cost"]
WORDS += [b"x", b"#", b"3", b"-1", b"0,3"]


# ---- near misses: each changes one thing of the words of a sound query


def verb_at(words):
    return int(words[0] == b"cost")


def cut(chance, words):
    del words[chance.randrange(len(words)):]


def drop(chance, words):
    del words[chance.randrange(len(words))]


def add(chance, words):
    words.insert(chance.randint(0, len(words)), chance.choice(WORDS))


def add_last(chance, words):
    words.append(chance.choice(WORDS))


def add_part(chance, words):
    parts = [[b"near", *some_point(chance)], [b"smallest"], [b"first", some_limit(chance)], some_on(chance)]
    words += chance.choice(parts)


def add_on(chance, words):
    at = chance.randint(0, len(words))
    words[at:at] = some_on(chance)


def spoil_list(chance, words):
    """A list at fault in place of the one that is there, or a list in two words."""
    if b"on" in words[:-1]:
        at = words.index(b"on") + 1
        words[at:at + 1] = [chance.choice(BAD_LISTS)] if chance.random() < 0.8 else [words[at] + b",", b"3"]


def respell(chance, words):
    at = chance.randrange(len(words))
    words[at] = words[at].title() if chance.random() < 0.5 else words[at] + b"s"


def replace(chance, words):
    words[chance.randrange(len(words))] = chance.choice(WORDS)


def replace_verb(chance, words):
    at = verb_at(words)
    words[at] = chance.choice([b"", b"get", b"finds", b"fin", b"find\v", b"cost", MARK + words[at]])


def ask_cost(chance, words):
    """The word in front of a query: of some it can't be asked."""
    words.insert(0, b"cost")


def swap(chance, words):
    at = chance.randrange(len(words))
    words[at:at + 2] = reversed(words[at:at + 2])


def swap_sides(chance, words):
    region = verb_at(words) + 1
    if words[region:] and words[region] in (b"window", b"inside", b"covers"):
        at = region + chance.choice([1, 3])
        words[at:at + 2] = reversed(words[at:at + 2])


def misstate(chance, words):
    numbers = [at for at, word in enumerate(words) if reading.number(word) is not None]
    if numbers:
        words[chance.choice(numbers)] = chance.choice([b"%d" % chance.choice(EDGES), chance.choice(NO_NUMBERS)])


MISSES = [cut, drop, add, add_last, add_part, add_part, respell, replace, replace_verb, swap, swap_sides]
MISSES += [misstate] * 4 + [spoil_list] * 3 + [add_on, ask_cost]


def missed(chance, words):
    """The words with one thing changed, which is mostly a fault."""
    words = list(words)
    chance.choice(MISSES)(chance, words)
    return words


# Polygons that aren't strictly convex: three vertices on a line, one twice, a star, a dent, and wrong numbers of them.
BAD_POLYGONS = [
    b"3 0 0 5 5 10 10",
    b"4 0 0 5 0 10 0 0 10",
    b"4 0 0 0 0 10 0 0 10",
    b"4 0 0 10 0 0 10 0 0",
    b"5 0 3 2 -3 -3 1 3 1 -2 -3",
    b"4 0 0 10 0 2 2 0 10",
    b"2 0 0 10 0",
    b"17 0 0",
    b"0",
    b"-3 0 0 5 0 0 5",
    b"99999999999999999999999999999999999999999",
]
OTHER_WORDS = [[], [b"#"], [b"#find"], [b"# find all"], [b"\0"], [b"find\vall"], [b"\xff"], [b"find\0all"]]


def some_words(chance):
    kind = chance.random()
    if kind < 0.38:
        return some_query(chance)
    if kind < 0.9:
        return missed(chance, some_query(chance))
    if kind < 0.95:
        verb = chance.choice([[b"find"], [b"count"], [b"cost", b"find"], [b"cost", b"count"]])
        return [*verb, b"polygon", *chance.choice(BAD_POLYGONS).split()]
    return chance.choice(OTHER_WORDS)


def some_line(chance):
    gaps = chance.choice([[b" "], [b" ", b"  ", b"\t", b" \t "]])
    line = chance.choice([b"", b"", b"", b" ", b"\t"]) + b"".join(
        word + chance.choice(gaps) for word in some_words(chance)
    )
    line = line if chance.random() < 0.3 else line.rstrip(b" \t")
    if chance.random() < 0.04:
        line = line.ljust(LONGEST_LINE + chance.choice([-1, 0, 1, 5000]))
    return line + chance.choice([b""] * 8 + [b"\r", b"\r\r"])


def some_queries(chance):
    return b"\n".join(some_line(chance) for _ in range(chance.randint(0, 24))) + chance.choice([b"", b"\n"])


# ---- the runs


def differs(program, folder, chance, met):
    """Makes a run, and reports it if it isn't as expected. The kinds of lines of the output are counted."""
    table, queries = some_table(chance), some_queries(chance)
    header, most = chance.random() < 0.2, chance.choice([MOST_ENTRIES] * 9 + [5, 1])
    fanout = chance.choice(FANOUTS)
    expected = reading.expected(table, queries, header, most, fanout)
    met.update(re.findall(r"record \d+: (.*)", expected[2].decode()))
    for line, text in enumerate(reading.lines_of(queries) if not expected[2] else [], 1):
        met.update(kinds(line, text, expected[1]))
    return difference(program, folder, table, queries, header, most, fanout, expected)


def costs_differ(program, folder, chance, met):
    """The same of a run whose lines ask what queries cost."""
    table, fanout = some_small_boxes(chance), chance.choice(FANOUTS)
    boxes = reading.boxes(table, False, MOST_ENTRIES)
    lines = [line for _ in range(5) for line in some_costs(chance, boxes)]
    queries = b"".join(line + b"\n" for line in lines)
    expected = reading.expected(table, queries, fanout=fanout)
    for line, cost in zip(lines, re.findall(rb"^ok \d+ (\d+)$", expected[1], re.MULTILINE), strict=True):
        met.update(cost_kinds(boxes, fanout, line, int(cost)))
    return difference(program, folder, table, queries, False, MOST_ENTRIES, fanout, expected)


def limits_differ(program, folder, chance, met):
    """The same of a run over many boxes, with a limit."""
    table, fanout = some_many_boxes(chance), chance.choice(FANOUTS)
    lines = [some_limited(chance) for _ in range(12)]
    expected = reading.expected(table, b"".join(line + b"\n" for line in lines), fanout=fanout)
    boxes = reading.boxes(table, False, MOST_ENTRIES)
    for line in lines:
        met.update(limit_kinds(boxes, line))
    return difference(program, folder, table, b"".join(line + b"\n" for line in lines), False, MOST_ENTRIES, fanout, expected)


def difference(program, folder, table, queries, header, most, fanout, expected):
    """Makes a run, and reports it if it isn't as required."""
    Path(folder, "table").write_bytes(table)
    words = ["--header"] * header + ["--fanout", str(fanout), "--max-entries", str(most), "table"]
    done = subprocess.run([program, *words], cwd=folder, input=queries, capture_output=True, timeout=60)
    found = done.returncode, done.stdout, done.stderr
    if found == expected:
        return None
    return f"{' '.join(words)}\n  table    {table}\n  queries  {queries}\n  expected {expected}\n  found    {found}"


def kinds(at, line, output):
    """What a line is a case of: its fault, or its verb, region, order and limit; with `on` or `cost` that is named too."""
    ending = re.search(rb"^(ok|error) %d ([^ \n]*)" % at, output, re.MULTILINE)
    if ending is None:
        return ["skipped"]
    words = [word.decode(errors="replace") for word in reading.Words(line).left]
    if ending[1] == b"error":
        code = ending[2].decode()
        return ["error", code, *(f"{code} of {word}" for word in ("on", "cost") if word in words)]
    kinds = {word for word in words if word.isalpha()}
    return ["ok", *kinds, *(f"{kind} and {word}" for kind in kinds for word in {"on", "cost"} & kinds)]


def cost_kinds(boxes, fanout, line, cost):
    """What a line that asks for a cost is a case of: its limit beside the number of answers, the nodes beside all."""
    query = reading.question(reading.Words(line.removeprefix(b"cost")))
    scores = [score for score, _ in reading.answers(boxes, query.region.accepts, query.score, None)]
    limit, nodes = query.limit, sum(reading.level_sizes(len(boxes), fanout)[1:])
    if limit in (None, 0, 1):
        yield f"a cost with the limit {limit}"
    elif limit < len(scores):
        yield "a cost with a limit at a tie" if scores[limit - 1] == scores[limit] else "a cost with a limit below"
    else:
        yield "a cost with a limit at the end" if limit == len(scores) else "a cost with a limit beyond"
    yield "a cost of all nodes" if cost == nodes else "a cost of some nodes" if cost > 1 else f"a cost of {cost}"
    if query.verb == b"count" and cost < reading.opened(boxes, fanout, query._replace(verb=b"find")):
        yield f"a node counted whole of {reading.Words(line).left[2].decode()}"


def limit_kinds(boxes, line):
    """What a line with a limit is a case of: which limit, if there are more answers."""
    query = reading.question(reading.Words(line))
    if query.limit in FEW_AND_MANY and query.limit < len(reading.answers(boxes, query.region.accepts, query.score, None)):
        yield f"a limit of {query.limit} below"


PARTS = {"find", "count", "near", "smallest", "first", *(name.decode() for name in REGIONS)}
WHOLE = {"skipped", "nearest", "levels", "on", *PARTS, *(f"{part} and on" for part in PARTS), *FAULTS}
WHOLE |= {"nearest and cost", "on and cost", *(f"{part} and cost" for part in PARTS)}
WHOLE |= {f"{code} of on" for code in ("Q4", "Q5", "Q6", "Q7", "Q10")}
WHOLE |= {f"{code} of cost" for code in FAULTS}
WHOLE |= {f"a cost with the limit {limit}" for limit in (None, 0, 1)}
WHOLE |= {f"a cost with a limit {place}" for place in ("below", "at a tie", "at the end", "beyond")}
WHOLE |= {f"a cost of {nodes}" for nodes in (0, 1, "some nodes", "all nodes")}
WHOLE |= {f"a node counted whole of {name.decode()}" for name in REGIONS if name != b"covers"}
WHOLE |= {f"a limit of {n} below" for n in FEW_AND_MANY}
WHOLE |= {f"field 6 is {fault}" for fault in ("not a number", "out of range")}


def lacks(met, seeds):
    """What the runs of a number of seeds met too seldom: less than once in every fourth seed."""
    seldom = [f"{kind} ({met[kind]})" for kind in sorted(WHOLE) if met[kind] < seeds // 4]
    return seldom + [f"errors ({met['error']}) beside {met['ok']} answered lines"] * (met["error"] < met["ok"])


def outcomes(program, seeds):
    """The runs of each seed, and how often each kind of line was met in all of them."""
    met = collections.Counter()
    with tempfile.TemporaryDirectory() as folder:
        for seed in seeds:
            chance = random.Random(seed)
            runs = [differs(program, folder, chance, met) for _ in range(RUNS)]
            runs += [costs_differ(program, folder, chance, met) for _ in range(COST_RUNS)]
            runs += [limits_differ(program, folder, chance, met) for _ in range(LIMIT_RUNS)]
            yield f"seed {seed}", next(filter(None, runs), None)
    yield "met too seldom", ", ".join(lacks(met, len(seeds))) or None


def main():
    parser = argparse.ArgumentParser()
    parser.add_argument("program")
    parser.add_argument("--first", type=int, default=1)
    parser.add_argument("--seeds", type=int, default=20)
    args = parser.parse_args()
    program = str(Path(args.program).resolve())
    return status_of(outcomes(program, range(args.first, args.first + args.seeds)))


if __name__ == "__main__":
    sys.exit(main())

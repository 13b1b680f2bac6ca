"""librtfilter beside the libraries of other indexes, all called in one process, by bench/library: the part `library`."""

import subprocess
from concurrent.futures import ThreadPoolExecutor
from pathlib import Path

import kinds
from machine import machine
from programs import OURS, PEERS, ROOT, SCAN, SOURCES, reason_of

QUERIES, SLOW_QUERIES = 10_000, 100
FORMS = {  # of calls, as rtfilter.cpp names them
    OURS: "one query per call",
    f"{OURS}, many queries a call": "1,000 queries per call",
    f"{OURS}, a line a call": "one line per call",
    f"{OURS}, many lines a call": "1,000 lines per call",
}
KINDS = {
    name: kinds.MAIN[name]
    for name in (kinds.WINDOW, f"find circle, about {kinds.HITS} boxes", f"find polygon, about {kinds.HITS} boxes",
                 "find covers, a point", kinds.NEAREST)
} | {
    f"count window, about {kinds.HITS} boxes": lambda it: it.line("count", "window"),
    kinds.QUARTER: kinds.MAIN[kinds.QUARTER],
}
OPTIMIZATION = 2
FOLDER = ROOT / "build/library-bench"
HERE = ROOT / "bench/library"


def compiled(source, options):
    """The path of an object, and why there is none."""
    path = FOLDER / f"{source.stem}.o"
    command = ["g++", "-std=c++17", f"-O{OPTIMIZATION}", "-DNDEBUG", "-w", "-c", "-o", path, source, *options]
    try:
        done = subprocess.run(command, capture_output=True, text=True)
    except FileNotFoundError:
        return None, "there is no g++"
    return (path, None) if done.returncode == 0 else (None, reason_of(done.stderr))


def built(library):
    """The path of the program with all that is there, and what is passed over, with the reason; no path without ours."""
    FOLDER.mkdir(parents=True, exist_ok=True)
    if not library.exists():
        return None, {"library": f"there is no {library}, which `make library` makes"}
    peers = {name: it for name, it in PEERS.items() if name != SCAN}
    sources = {OURS: (HERE / "rtfilter.cpp", [])}
    sources |= {name: (SOURCES / file, [f'-DIN_PROCESS="{name}"', *options]) for name, (file, options) in peers.items()}
    sources["main"] = HERE / "main.cpp", []
    with ThreadPoolExecutor(2) as pool:
        found = dict(zip(sources, pool.map(lambda it: compiled(*it), sources.values())))
    for name in (OURS, "main"):
        if not found[name][0]:
            return None, {"library": found[name][1]}
    passed_over = {f"{name}, in process": reason for name, (path, reason) in found.items() if not path}
    objects = [path for path, _ in found.values() if path]
    libraries = [option for name in peers if found[name][0] for option in peers[name][1] if option.startswith("-l")]
    program = FOLDER / "library"
    command = ["g++", "-o", program, *objects, library, *libraries, "-pthread"]
    done = subprocess.run(command, capture_output=True, text=True)
    return (program, passed_over) if done.returncode == 0 else (None, {"library": reason_of(done.stderr)})


def library(archive, table, boxes, folder):
    """What each index costs in one process, the names of those that differ, and what is passed over."""
    program, passed_over = built(Path(archive))
    if not program:
        return None, [], passed_over
    asker, files = kinds.Asker("uniform", boxes), []
    for at, (name, make) in enumerate(KINDS.items()):
        files.append(Path(folder, f"library.{at}"))
        count = SLOW_QUERIES if name == kinds.QUARTER else QUERIES
        files[-1].write_text("".join(f"{make(asker)}\n" for _ in range(count)))
    made_on = machine()
    run = subprocess.run([program, table, *files], capture_output=True, text=True)
    if run.returncode:
        raise SystemExit(f"{program} has ended with {run.returncode}: {run.stderr}")
    it = {"machine": made_on, "boxes": boxes, "open": {}, "memory": {}, "queries": {name: {} for name in KINDS}, "threads": {}}
    differences = []
    for line in run.stdout.splitlines():
        figure, index, number, value = line.split("\t")
        if figure == "differs":
            differences.append(f"{index}, in process: {list(KINDS)[int(number)]}")
        elif figure == "query":
            it["queries"][list(KINDS)[int(number)]][index] = float(value)
        elif figure == "threads":
            it["threads"].setdefault(number, {})[index] = float(value)
        else:
            it[figure][index] = float(value)
    return it, differences, passed_over

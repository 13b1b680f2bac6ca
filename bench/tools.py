#!/usr/bin/env python3
"""Measures the tools: processor time of the service for a line, of the fence for a position, of the tiles for a tile.

usage: bench/tools.py PROGRAM [--rounds N] [--only service|fence|tiles]

It needs the Python package (PYTHONPATH=python after `make python`), numpy, aiohttp and pandas. Figures are the least of some rounds,
since the machine may have other work; rates are by processes beside the tools, on the same processors.
"""

import argparse
import contextlib
import json
import math
import multiprocessing
import os
import random
import re
import resource
import select
import socket
import subprocess
import sys
import tempfile
import time
from collections.abc import Iterator
from http.client import HTTPConnection
from multiprocessing.connection import Connection
from pathlib import Path

ROOT = Path(__file__).resolve().parent.parent
ROW = "| %s | %s |"
SIDE = 1_000_000  # of the plane of the service
SECONDS = 1.0  # of a rate
CLIENTS = 3  # processes
CASES = (1, 1), (8, 1), (64, 1), (1, 1000), (8, 1000), (64, 1000)  # connections, and lines sent at once
HELD = 20  # connections whose memory is measured
WEST, SOUTH, WIDE = 16.0, 48.0, 1.0  # degrees, of the zones
POSITIONS, DEVICES, ZONES, CORNERS = 200_000, 10_000, 2000, 50
HALF = 2003750834  # centimetres from the middle of the world to its sides
TILES = 1500


def seconds_of(process: int) -> float:
    """Processor time of a process so far."""
    fields = Path(f"/proc/{process}/stat").read_text().rpartition(")")[2].split()
    return (int(fields[11]) + int(fields[12])) / os.sysconf("SC_CLK_TCK")


def children(process: int) -> list[int]:
    """The processes that a process has started."""
    return [int(it) for it in Path(f"/proc/{process}/task/{process}/children").read_text().split()]


# ---- the service


def write_table(path: Path, count: int) -> None:
    """Boxes with sides of up to 1,000, anywhere."""
    chance = random.Random(count)
    with open(path, "w") as table:
        for id in range(count):
            x, y = chance.randrange(SIDE), chance.randrange(SIDE)
            table.write(f"{id},{x},{x + chance.randrange(1000)},{y},{y + chance.randrange(1000)}\n")


def some_lines(count: int, boxes: int) -> list[bytes]:
    """Windows with about 20 boxes, each with the nearest 10 to a corner behind it."""
    side, chance, lines = int((20 / boxes) ** 0.5 * SIDE), random.Random(1), []
    for _ in range(count // 2):
        x, y = chance.randrange(SIDE), chance.randrange(SIDE)
        lines += [b"find window %d %d %d %d\n" % (x, x + side, y, y + side), b"nearest 10 %d %d\n" % (x, y)]
    return lines


@contextlib.contextmanager
def service(program: Path, table: Path, folder: Path) -> Iterator[tuple[int, str]]:
    """The process of a service and its path, once it answers."""
    path = str(folder / "socket")
    words = [ROOT / "service/serve.py", "--program", program, "--unix", path, table]
    with subprocess.Popen([*map(str, words)], stderr=subprocess.PIPE, text=True) as process:
        assert process.stderr is not None
        if not any("ready" in line for line in process.stderr):
            sys.exit("the service has ended before it was ready")
        try:
            yield process.pid, path
        finally:
            process.terminate()
            process.communicate()


def connected(path: str) -> socket.socket:
    """A connection to the service."""
    client = socket.socket(socket.AF_UNIX)
    client.connect(path)
    return client


def ask(path: str, connections: int, batch: int, start: float, lines: list[bytes], result: Connection) -> None:
    """Sends lines over some connections from a moment on, and reports how many were answered."""
    texts = [b"".join(lines[at : at + batch]) for at in range(0, len(lines), batch)]
    clients = {it.fileno(): it for it in (connected(path) for _ in range(connections))}
    counts, tails, poll = dict.fromkeys(clients, 0), dict.fromkeys(clients, b""), select.epoll()
    time.sleep(max(0.0, start - time.monotonic()))
    for descriptor, client in clients.items():
        poll.register(client, select.EPOLLIN)
        client.sendall(texts[0])
    while time.monotonic() < start + SECONDS:
        for descriptor, _ in poll.poll(0.1):
            tail = tails[descriptor] = tails[descriptor][-50:] + clients[descriptor].recv(1 << 18)
            last = b"ok %d " % (counts[descriptor] + batch)
            if tail.endswith(b"\n") and last in tail[tail.rfind(b"\n", 0, -1) + 1 :]:
                counts[descriptor] += batch
                tails[descriptor] = b""
                clients[descriptor].sendall(texts[counts[descriptor] // batch % len(texts)])
    result.send(sum(counts.values()))


def rate(path: str, connections: int, batch: int, lines: list[bytes]) -> float:
    """Lines that are answered in a second."""
    start, clients = time.monotonic() + 0.5, []
    for at in range(min(CLIENTS, connections)):
        mine, theirs = multiprocessing.Pipe()
        share = len(range(at, connections, CLIENTS))
        client = multiprocessing.Process(target=ask, args=(path, share, batch, start, lines, theirs))
        client.start()
        clients.append((client, mine))
    total = sum(int(mine.recv()) for _, mine in clients)
    for client, _ in clients:
        client.join()
    return total / SECONDS


def memory(process: int) -> int:
    """The memory of a process in bytes: with its share of what it has in common with others, and its page tables."""
    (shared,) = re.findall(r"^Pss:\s+(\d+) kB", Path(f"/proc/{process}/smaps_rollup").read_text(), re.MULTILINE)
    (tables,) = re.findall(r"^VmPTE:\s+(\d+) kB", Path(f"/proc/{process}/status").read_text(), re.MULTILINE)
    return (int(shared) + int(tables)) * 1024


def answered(path: str, lines: list[bytes]) -> socket.socket:
    """A connection whose lines are answered, one after another."""
    client = connected(path)
    for at, line in enumerate(lines, 1):
        client.sendall(line)
        tail = b""
        while b"ok %d " % at not in tail or not tail.endswith(b"\n"):
            tail = tail[-50:] + client.recv(1 << 18)
    return client


def print_service(program: Path, rounds: int, folder: Path) -> None:
    """Rates over 100,000 boxes, and the memory of connections over 1,000,000."""
    small, large = folder / "small", folder / "large"
    write_table(small, 100_000)
    write_table(large, 1_000_000)
    with service(program, small, folder) as (_, path):
        lines = some_lines(20_000, 100_000)
        for connections, batch in CASES:
            best = max(rate(path, connections, batch, lines) for _ in range(rounds))
            print(ROW % (f"service: lines a second, {connections} connections, {batch} at once", f"{best:,.0f}"), flush=True)
    with service(program, large, folder) as (process, path):
        (loaded,) = children(process)
        before = memory(loaded)
        clients = [answered(path, some_lines(2000, 1_000_000)) for _ in range(HELD)]
        more = sum(map(memory, [loaded, *children(loaded)])) - before
        print(ROW % (f"service: memory over 1,000,000 boxes; of {HELD} connections more", f"{before / 1e6:.1f} MB; {more / 1e6:.1f} MB"))
        for it in clients:
            it.close()


# ---- the fence


def some_zones(chance: random.Random) -> str:
    """Zones of random form, whose boxes together are as large as the square in which they lie."""
    radius, features = WIDE / math.sqrt(ZONES) / 1.77, []
    for number in range(ZONES):
        x, y = WEST + WIDE * chance.random(), SOUTH + WIDE * chance.random()
        turns = sorted(chance.uniform(0, 2 * math.pi) for _ in range(CORNERS))
        reaches = [radius * chance.uniform(0.7, 1.0) for _ in turns]
        ring = [[x + reach * math.cos(turn), y + reach * math.sin(turn)] for reach, turn in zip(reaches, turns)]
        geometry = {"type": "Polygon", "coordinates": [[*ring, ring[0]]]}
        features.append({"type": "Feature", "id": number, "properties": {"name": f"zone {number}"}, "geometry": geometry})
    return json.dumps({"type": "FeatureCollection", "features": features})


def some_positions(chance: random.Random) -> Iterator[bytes]:
    """Lines of devices that drive about, in turn."""
    places = [(WEST + WIDE * chance.random(), SOUTH + WIDE * chance.random()) for _ in range(DEVICES)]
    for at in range(POSITIONS):
        x, y = places[at % DEVICES]
        places[at % DEVICES] = x, y = x + chance.gauss(0, 0.002), y + chance.gauss(0, 0.002)
        yield b"vehicle-%06d,%.6f,%.6f,%d\n" % (at % DEVICES, x, y, 1_700_000_000 + at)


def cost_of(words: list[str], input: Path) -> float:
    """Processor time of a run over an input."""
    before = resource.getrusage(resource.RUSAGE_CHILDREN)
    with open(input, "rb") as lines:
        subprocess.run(words, stdin=lines, stdout=subprocess.DEVNULL, stderr=subprocess.DEVNULL, check=True)
    after = resource.getrusage(resource.RUSAGE_CHILDREN)
    return after.ru_utime + after.ru_stime - before.ru_utime - before.ru_stime


def print_fence(rounds: int, folder: Path) -> None:
    """A load of zones, and a position."""
    chance = random.Random(1)
    zones, lines, nothing = folder / "zones.geojson", folder / "lines", folder / "nothing"
    zones.write_text(some_zones(chance))
    with open(lines, "wb") as file:
        file.writelines(some_positions(chance))
    nothing.touch()
    words = [sys.executable, "-m", "rtfilter.fence", str(zones)]
    load = min(cost_of(words, nothing) for _ in range(rounds))
    run = min(cost_of(words, lines) for _ in range(rounds))
    print(ROW % (f"fence: a load of {ZONES} zones of {CORNERS} corners", f"{load:.2f} s"))
    print(ROW % (f"fence: a position, of {DEVICES} devices", f"{(run - load) / POSITIONS * 1e6:.1f} us"), flush=True)


# ---- the tiles


def some_tiles(table: Path, levels: range) -> list[str]:
    """The paths of tiles in which boxes at random begin."""
    chance, found = random.Random(1), []
    corners = [line.split(",")[1:4:2] for line in table.read_text().splitlines()]
    for _ in range(TILES):
        (x, y), z = chance.choice(corners), chance.choice(levels)
        side = 2 * HALF / 2**z
        found.append(f"/{z}/{int((int(x) + HALF) / side)}/{int((HALF - int(y)) / side)}.pbf")
    return found


def print_tiles(rounds: int, folder: Path) -> None:
    """Tiles of 100,000 boxes, plain and packed, and one that the client has."""
    subprocess.run([sys.executable, "-m", "rtfilter.tiles.make_map", str(folder)], check=True)
    table = folder / "boxes.csv"
    words = [sys.executable, "-m", "rtfilter.tiles", "--port", "0", "--names", str(folder / "names.csv"), str(table)]
    with subprocess.Popen(words, stdout=subprocess.PIPE, text=True) as server:
        assert server.stdout is not None
        port = int(server.stdout.readline().strip().rstrip("/").rpartition(":")[2])
        for levels in (range(12, 17), range(14, 17)):
            tiles = some_tiles(table, levels)
            for name, headers in (("plain", {}), ("packed", {"Accept-Encoding": "gzip"}), ("known", {"If-None-Match": "*"})):
                least, size = min(tile_cost(server.pid, port, tiles, headers) for _ in range(rounds))
                kind = f"tiles: levels {levels[0]} to {levels[-1]}, {name}, {size / 1000:.1f} kB"
                print(ROW % (kind, f"{least * 1e3:.2f} ms"), flush=True)
        server.terminate()


def tile_cost(process: int, port: int, tiles: list[str], headers: dict[str, str]) -> tuple[float, float]:
    """Processor time and bytes of a tile, asked for on one connection."""
    connection, size, before = HTTPConnection("127.0.0.1", port), 0, seconds_of(process)
    for tile in tiles:
        connection.request("GET", tile, headers={"Accept-Encoding": "identity", **headers})
        size += len(connection.getresponse().read())
    connection.close()
    return (seconds_of(process) - before) / len(tiles), size / len(tiles)


def main() -> None:
    parser = argparse.ArgumentParser(description="Measures the tools.")
    parser.add_argument("program", metavar="PROGRAM", type=Path, help="the program rtfilter, which the service runs")
    parser.add_argument("--rounds", type=int, default=3, help="of each figure (3)")
    parser.add_argument("--only", choices=("service", "fence", "tiles"), help="one of the tools (all)")
    args = parser.parse_args()
    print(ROW % ("measured", "is") + "\n|---|---|")
    with tempfile.TemporaryDirectory() as name:
        folder = Path(name)
        if args.only in (None, "service"):
            print_service(args.program.resolve(), args.rounds, folder)
        if args.only in (None, "fence"):
            print_fence(args.rounds, folder)
        if args.only in (None, "tiles"):
            print_tiles(args.rounds, folder)


if __name__ == "__main__":
    main()

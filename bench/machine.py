"""What the figures were made on."""

import os
import platform
import re
import subprocess
import time
from pathlib import Path

from programs import ROOT

PACKAGES = "g++", "libboost-dev", "libgeos++-dev", "libspatialindex-dev", "libsqlite3-dev", "valgrind"


def output_of(*words):
    """What a command prints, in one line; nothing if it isn't there or fails."""
    try:
        return subprocess.run(words, cwd=ROOT, capture_output=True, text=True, check=True).stdout.strip()
    except (OSError, subprocess.CalledProcessError):
        return ""


def machine():
    """The machine, and what was compared on it."""
    names = re.findall(r"^model name\s*:\s*(.*)$", Path("/proc/cpuinfo").read_text(), re.MULTILINE)
    memory = int(re.search(r"MemTotal:\s+(\d+)", Path("/proc/meminfo").read_text())[1]) * 1024
    versions = {name: output_of("dpkg-query", "-W", "-f", "${Version}", name) for name in PACKAGES}
    return {
        "processor": names[0] if names else platform.machine(),
        "cores": os.cpu_count(),
        "memory": memory,
        "kernel": platform.release(),
        "load": os.getloadavg()[0],
        "date": time.strftime("%Y-%m-%d"),
        "commit": output_of("git", "rev-parse", "--short", "HEAD"),
        "versions": {name: version for name, version in versions.items() if version},
    }


def sentence(it):
    """The machine in words."""
    versions = ", ".join(f"{name} {version}" for name, version in it["versions"].items())
    return (
        f"Made on {it['date']} by commit {it['commit']}, on {it['cores']} cores of an {it['processor']} with "
        f"{it['memory'] / 2**30:.0f} GB of memory, kernel {it['kernel']}, load {it['load']:.1f} at the beginning; "
        f"{versions}."
    )

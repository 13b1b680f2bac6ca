#!/usr/bin/env python3
"""Builds the library's archive over what `rt ci` has built in this checkout, without proving the crates below it again.

usage: tools/archive.py FOLDER

`rt ci` proves a static library and builds none. `rt lib` builds it, but takes a library below only if a stamp says from which
files it was built, and `rt ci` leaves none. So the crates are copied into FOLDER with what was built of them, each gets its stamp
(`stamp_library` in kit.py), and `rt lib` proves and builds rtfilter_c there. Prints the path of the archive.
"""

import os
import subprocess
import sys
from pathlib import Path

import kit

NAME = "rtfilter_c"


def main():
    folder = Path(sys.argv[1]).resolve()
    folder.mkdir(exist_ok=True)
    crates = kit.with_below([NAME], kit.dependencies())
    kit.copy_crates(crates, folder)
    os.chdir(folder)
    for name in crates[:-1]:
        kit.take_library(name, folder)
        kit.stamp_library(name, folder)
    ran = subprocess.run(["rt", "lib", "--jobs", "2"], cwd=f"crates/{NAME}", stdin=subprocess.DEVNULL, stdout=subprocess.PIPE,
                         stderr=subprocess.STDOUT, text=True)
    if ran.returncode:
        print("\n".join(ran.stdout.splitlines()[-30:]), file=sys.stderr)
        return 1
    print(folder / f"crates/{NAME}/out/lib{NAME}.a")
    return 0


if __name__ == "__main__":
    sys.exit(main())

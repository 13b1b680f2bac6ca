#!/usr/bin/env python3
"""Tries librtfilter, made of a proved archive, beside the program.

usage: tests/library.py ARCHIVE PROGRAM [--only WORD]..

The library is built and installed in a folder of its own. The programs of tests/library/ make each call and meet each code, as
they are and by the sanitizers and valgrind; answers in lines and in numbers are compared with what the program prints; the
wrappers of bindings/ and the example are built over what is installed. What wants a tool that isn't here is skipped and named.
With --only, checks are made whose name has one of these words. With TIMES in the environment, the time of each check is printed.
The last line is `N passed, M failed`.
"""

import argparse
import ctypes
import errno
import os
import random
import re
import shutil
import subprocess
import sys
import tempfile
import time
import traceback
from concurrent.futures import ThreadPoolExecutor
from pathlib import Path

sys.dont_write_bytecode = True
import random_runs
import reading
import refusals

ROOT = Path(__file__).resolve().parent.parent
SOURCES = ROOT / "tests/library"
HEADER = (ROOT / "include/rtfilter.h").read_text(encoding="utf-8")
WARNINGS = ["-Wall", "-Wextra", "-Wpedantic", "-Werror"]
LONGEST = 300  # seconds of one command
AT_ONCE = 2  # checks
LINES, TABLES = 100_000, 20  # random lines in all, and the tables over which they go
INSTRUCTIONS = {  # of a query in C, by its kind (tests/library/queries.c), how many are asked, and the capacity for answers
    ("window", 300, 64): 4326,
    ("window on", 300, 64): 8896,
    ("covers", 300, 64): 2681,
    ("circle", 300, 64): 12552,
    ("nearest", 300, 64): 9218,
    ("polygon", 300, 64): 24414,
    ("large window", 10, 10): 101252,
    ("all near", 10, 10): 10162,
}
MORE = 0.1  # so much more, or less, is refused
IMPORTS = {  # the functions of the C library that it calls
    "__errno_location", "close", "free", "fstat", "malloc", "memcpy", "memmove", "memset", "mmap", "mremap", "munmap", "open", "read", "realloc",
}  # fmt: skip

OK, FAULTY_LINE, BAD_TABLE, FULL, NO_MEMORY, BAD_QUERY = 0, 1, 3, 5, 6, 7
FAULTS = [  # kinds of a table's faults, in words of the program
    "too many entries", r"wrong number of fields \((\d+)\)", r"field (\d+) is not a number", r"field (\d+) is out of range",
    r"minimum above maximum in (.)", "repeated id",
]  # fmt: skip


class Differs(Exception):
    """What isn't as expected."""


class Skipped(Exception):
    """What can't be tried here, and why."""


def same(found, expected, what=""):
    if found != expected:
        raise Differs(f"{what}\n  expected {expected!s:.500}\n  found    {found!s:.500}")


def wants(*tools):
    missing = [tool for tool in tools if shutil.which(tool) is None]
    if missing:
        raise Skipped(f"{', '.join(missing)}: not installed")


def run(*words, status=0, **options):
    """What a command prints, whose status has to be this."""
    done = subprocess.run([*map(str, words)], stdout=subprocess.PIPE, stderr=subprocess.STDOUT, timeout=LONGEST, **options)
    said = done.stdout.decode(errors="replace")
    same(done.returncode, status, f"{' '.join(map(str, words))}\n{said[-3000:]}")
    return said


# ---- the library by ctypes


def type_of(kind, name):
    """A member's type, by the type's name and the member's."""
    if "*" in name:
        return ctypes.c_void_p
    it = getattr(ctypes, f"c_{kind}" if kind in ("bool", "size_t") else f"c_{kind.removesuffix('_t')}")
    return it * int(name.partition("[")[2][:-1]) if "[" in name else it


def struct(name):
    """A struct of rtfilter.h, with the members that the header has."""
    text = re.search(r"typedef struct rtfilter_%s \{(.*?)\n\}" % name, HEADER, re.DOTALL)[1]
    members = [
        (member.strip().lstrip("*").partition("[")[0], type_of(kind, member))
        for kind, names in re.findall(r"^ +(?:const )?(\w+) ([^;]*);", text, re.MULTILINE)
        for member in names.split(",")
    ]
    return type(name, (ctypes.Structure,), {"_fields_": members})


Settings, Fault, Info, Query, Point = map(struct, ("settings", "fault", "info", "query", "point"))
Score, Queries, Answers = map(struct, ("score", "queries", "answers"))


def array(kind, items):
    return (kind * len(items))(*items)


def address(it):
    return ctypes.cast(it, ctypes.c_void_p)


class Session:
    """An open session; it is closed at the end of a `with`."""

    def __init__(self, library, open_it, *words, fanout=16, most=2**24, header=False):
        self.library, self.at, self.fault = library, (ctypes.c_void_p * 1)(None), Fault()
        settings = Settings(header, fanout, most)
        self.code = library[open_it](self.at, *words, ctypes.byref(settings), ctypes.byref(self.fault))

    def __enter__(self):
        same(self.code, OK, "open")
        return self

    def __exit__(self, *_):
        self.library.rtfilter_close(self.at)

    def ask(self, lines, size):
        """The code, and the reply, which is read in pieces of this size."""
        buffer, len_ = ctypes.create_string_buffer(size), ctypes.c_size_t()
        code = self.library.rtfilter_ask(self.at, lines, ctypes.c_size_t(len(lines)), buffer, ctypes.c_size_t(size),
                                         ctypes.byref(len_))  # fmt: skip
        reply, copied = buffer.raw[: len_.value], ctypes.c_size_t(1)
        while copied.value and len(reply) <= len_.value:
            same(self.library.rtfilter_reply(self.at, ctypes.c_size_t(len(reply)), buffer, ctypes.c_size_t(size),
                                             ctypes.byref(copied)), OK)  # fmt: skip
            reply += buffer.raw[: copied.value]
        same(len(reply), len_.value, "the length of a reply")
        return code, reply

    def info(self):
        info = Info()
        same(self.library.rtfilter_info_of(self.at, ctypes.byref(info)), OK)
        return {name: list(it) if hasattr(it := getattr(info, name), "__len__") else it for name, _ in Info._fields_}

    def find(self, queries, vertices, capacity):
        """The code, and for each query that is answered the ids and scores: found in arrays of this capacity."""
        packed, points = array(Query, queries), array(Point, vertices)
        ids, scores, ends = (ctypes.c_int64 * capacity)(), (Score * capacity)(), (ctypes.c_size_t * len(queries))()
        lists, left, first, skip, code = [], [], 0, 0, FULL
        while code == FULL:
            rest = Queries(address(packed).value + first * ctypes.sizeof(Query), len(queries) - first, address(points), len(points))
            answers = Answers(address(ids), address(scores), capacity, address(ends), 99, 99)
            code = self.library.rtfilter_find(self.at, ctypes.byref(rest), ctypes.c_size_t(skip), ctypes.byref(answers))
            found = [(ids[at], scores[at].low + (scores[at].high << 64)) for at in range(answers.found)]
            begun = 0
            for end in ends[: answers.done]:
                lists.append(left + found[begun:end])
                left, begun = [], end
            left += found[begun:]
            first, skip = first + answers.done, len(left)
        return code, lists

    def measure(self, call, queries, vertices):
        """The code, and the numbers of the queries that are measured."""
        packed, points = array(Query, queries), array(Point, vertices)
        together = Queries(address(packed), len(packed), address(points), len(points))
        measured, done = (ctypes.c_uint64 * len(packed))(), ctypes.c_size_t(99)
        code = self.library[call](self.at, ctypes.byref(together), measured, ctypes.byref(done))
        return code, measured[: done.value]


def of_bytes(library, table, **settings):
    return Session(library, "rtfilter_open_bytes", table, ctypes.c_size_t(len(table)), **settings)


def of_arrays(library, rows, has_layers, **settings):
    columns = [*zip(*rows)] or [[]] * 6
    kinds = [ctypes.c_int64, *[ctypes.c_int32] * 4]
    given = [array(kind, column) for kind, column in zip(kinds, columns)]
    given.append(array(ctypes.c_uint8, columns[5]) if has_layers else None)
    return Session(library, "rtfilter_open_arrays", ctypes.c_size_t(len(rows)), *given, **settings)


# ---- lines and numbers of the same meaning

REGIONS = ["all", "window", "inside", "covers", "circle", "polygon"]


def query_of(words, vertices):
    """What a sound line asks: the name of the call, and the query. The vertices of a polygon are added to these."""
    words = [word.decode() for word in words]
    query = Query(order=0, layers=2**64 - 1, limit=2**64 - 1)
    cost = words[0] == "cost"
    verb, *words = words[cost:]

    def numbers(count):
        taken, words[:count] = [int(word) for word in words[:count]], []
        return taken

    if verb == "nearest":
        query.limit, query.near_x, query.near_y = numbers(3)
        query.order = 1
    else:
        name = words.pop(0)
        query.region = REGIONS.index(name)
        if name in ("window", "inside", "covers"):
            query.min_x, query.max_x, query.min_y, query.max_y = numbers(4)
        if name == "circle":
            query.x, query.y, query.radius = numbers(3)
            query.order, query.near_x, query.near_y = 1, query.x, query.y
        if name == "polygon":
            (query.vertices,), query.first_vertex = numbers(1), len(vertices)
            vertices += [Point(*numbers(2)) for _ in range(query.vertices)]
    while words:
        part = words.pop(0)
        if part == "on":
            query.layers = sum({1 << int(layer) for layer in words.pop(0).split(",")})
        elif part == "near":
            query.order, query.near_x, query.near_y = 1, *numbers(2)
        elif part == "smallest":
            query.order = 2
        else:
            (query.limit,) = numbers(1)
    kind = "count" if verb == "count" else "find"
    return f"rtfilter_cost_of_{kind}" if cost else f"rtfilter_{kind}", query


def replies_of(output):
    """The lines of each reply, the last one without its number."""
    replies, lines = [], []
    for line in output.splitlines():
        words = line.split()
        if words[0] in (b"ok", b"error"):
            replies.append((lines, words[0] == b"ok", int(words[2]) if words[0] == b"ok" else None))
            lines = []
        else:
            lines.append((int(words[0]), int(words[1])))
    return replies


def some_sound_table(chance):
    """Rows of id, sides and layer."""
    table = chance.choice([random_runs.some_small_boxes, random_runs.some_small_boxes, random_runs.some_many_boxes])(chance)
    return [(id, *box) for id, box in reading.boxes(table, False, 2**24).items()], table


# ---- the checks

# An example of a page, and what it prints.
EXAMPLE = r"^```%s\n((?:(?!```).*\n)*)```\n\nprints\n\n```\n((?:(?!```).*\n)*)```$"

# What stands around an example of docs/library.md.
PAGE_PROGRAM = """#include <errno.h>
#include <math.h>
#include <rtfilter.h>
#include <stdio.h>
#include <string.h>
int main(void)
{
%s%s%sreturn 0;
}
"""
OPENED = """rtfilter_session own = RTFILTER_CLOSED, *session = &own;
rtfilter_open_file(session, "layers.csv", NULL, NULL);
"""


class Checks:
    """The library is built in a folder before the first one."""

    def __init__(self, archive, program, folder):
        self.folder, self.archive, self.program = folder, archive, program
        self.out, self.prefix = folder / "out", folder / "usr"
        self.flags = [f"-I{self.prefix}/include", f"-I{SOURCES}", "-g", "-O"]
        self.libraries = os.environ.get("LDLIBS", "").split()
        environment = {**os.environ, "MAKEFLAGS": ""}
        run("make", "--no-print-directory", "-C", ROOT, "install-library", f"ARCHIVE={archive}", f"OUT={self.out}",
            f"PREFIX={self.prefix}", env=environment)  # fmt: skip
        self.library = ctypes.CDLL(str(self.prefix / "lib/librtfilter.so.0"))
        shutil.copy(ROOT / "examples/data/boxes.csv", folder)

    def built(self, name, *flags, compiler="cc", standard="c11", static=False):
        """A program of tests/library/, over the library that is installed; a static one has the calls of C compiled with it."""
        wants(compiler)
        program = self.folder / f"{name.replace('.', '-')}{'-'.join(['', *flags]).replace('=', '-').replace(',', '-')}"
        if static:
            over = [ROOT / "library/rtfilter.c", f"-I{ROOT}/library", self.prefix / "lib/librtfilter.a"]
        else:
            over = [f"-L{self.prefix}/lib", "-lrtfilter", f"-Wl,-rpath,{self.prefix}/lib"]
        run(compiler, f"-std={standard}", *WARNINGS, *self.flags, *flags, "-o", program, SOURCES / name, *over, *self.libraries,
            "-lpthread")  # fmt: skip
        return program

    def sanitized(self, name, flag, *words):
        """Runs a program of tests/library/ whose C, and that of the library, is checked as it runs."""
        compiled = self.built(name, flag, "-fno-sanitize-recover=all", static=True)
        run(compiled, *words, env={**os.environ, "ASAN_OPTIONS": "detect_leaks=1", "TSAN_OPTIONS": "halt_on_error=1"})

    # - the library and its header

    def check_headers(self):
        """Each compiles by itself, in each standard, without a warning."""
        empty = self.folder / "empty.c"
        empty.write_text("int nothing(void);\nint nothing(void) { return 0; }\n")
        compilers = [("cc", "c", ("c99", "c11", "c17"), "rtfilter.h"), ("c++", "c++", ("c++11", "c++17", "c++20"), "rtfilter.h"),
                     ("c++", "c++", ("c++17", "c++20"), "rtfilter.hpp")]  # fmt: skip
        for compiler, language, standards, header in compilers:
            wants(compiler)
            for standard in standards:
                more = ["-Wshadow", "-Wconversion"] if header.endswith("hpp") else []
                run(compiler, "-x", language, f"-std={standard}", *WARNINGS, *more, f"-I{self.prefix}/include", "-include", header, "-c",
                    "-o", os.devnull, empty)  # fmt: skip

    def check_names(self):
        """It has the public names of its header, and no other; it needs the C library alone, and no text of it is written to."""
        wants("nm", "readelf")
        library = self.prefix / "lib/librtfilter.so.0"
        declared = set(re.findall(r"^(?:RTFILTER_INLINE )?(?:int|void|size_t|rtfilter_query|const char \*) ?(rtfilter_\w+)\(", HEADER, re.MULTILINE))
        exported = {line.split()[-1] for line in run("nm", "-D", "--defined-only", library).splitlines()}
        same(exported, {f"{name}@@RTFILTER_0" for name in declared} | {"RTFILTER_0"})
        about = run("readelf", "--dynamic", library)
        same(re.findall(r"SONAME.*\[(.*)\]", about), ["librtfilter.so.0"])
        same("TEXTREL" in about, False)
        if not self.libraries:
            same(re.findall(r"NEEDED.*\[(.*)\]", about), ["libc.so.6"])
            # (none that prints, ends the process, handles a signal or starts a thread, as docs/library.md says)
            imported = {line.split()[-1].partition("@")[0] for line in run("nm", "-D", "--undefined-only", library).splitlines() if " U " in line}
            same(imported - IMPORTS, set())

    def check_version(self):
        self.library.rtfilter_version.restype = ctypes.c_char_p
        version = (ROOT / "VERSION").read_text().strip()
        same(self.library.rtfilter_version().decode(), version)
        wants("pkg-config")
        words = {**os.environ, "PKG_CONFIG_PATH": f"{self.prefix}/lib/pkgconfig"}
        same(run("pkg-config", "--modversion", "rtfilter", env=words).strip(), version)
        same(re.search(r'^version = "(.*)"$', (ROOT / "bindings/rust/Cargo.toml").read_text(), re.MULTILINE)[1], version)

    def check_prefix(self):
        """The lines of docs/library.md for a prefix of one's own, as they are typed."""
        wants("cc", "pkg-config", "bash")
        home = self.folder / "home"
        home.mkdir()
        shutil.copy(ROOT / "examples/library/boxes.c", home)
        page = (ROOT / "docs/library.md").read_text(encoding="utf-8")
        lines = re.search(r"\n### Under a prefix of your own\n.*?```\n(.*?)```", page, re.DOTALL)[1].splitlines(keepends=True)
        typed = "".join(line[2:] for line in lines if line.startswith("$ "))
        made = f"make --silent -C {ROOT} ARCHIVE={self.archive} OUT={self.out} install-library"
        same(typed.count("make library install "), 1, typed)
        script = "set -e\n" + typed.replace("make library install", made)
        words = {"PATH": os.environ["PATH"], "HOME": str(home), "LDLIBS": " ".join(self.libraries)}
        same(run("bash", "-c", script, cwd=home, env=words), "".join(line for line in lines if not line.startswith("$ ")))

    def check_install_keeps_what_is_named(self):
        """A program that is named to be installed stays, though an object file of its name lies beside it."""
        folder, prefix = self.folder / "named", self.folder / "named-prefix"
        folder.mkdir()
        shutil.copy(self.program, folder / "rtfilter")
        (folder / "rtfilter.o").write_bytes(b"")  # newer than the program
        words = f"PROGRAM={folder}/rtfilter", f"PREFIX={prefix}", f"OUT={folder}", "PREFORK="
        run("make", "--silent", "-C", ROOT, "install", *words, env={**os.environ, "MAKEFLAGS": ""})
        kept = [path.read_bytes() == self.program.read_bytes() for path in (folder / "rtfilter", prefix / "bin/rtfilter")]
        same(kept, [True, True])

    def check_uninstall(self):
        """It leaves nothing of an installation."""
        prefix = self.folder / "elsewhere"
        words = f"PREFIX={prefix}", f"OUT={self.out}", f"ARCHIVE={self.archive}"
        environment = {**os.environ, "MAKEFLAGS": ""}
        for target, count in (("install-library", 6), ("uninstall", 0)):
            run("make", "--no-print-directory", "-C", ROOT, target, *words, env=environment)
            same(len([path for path in prefix.rglob("*") if not path.is_dir()]), count, target)

    def check_example(self):
        """The program of docs/library.md, with the flags of pkg-config, over the shared library and over the static one."""
        wants("pkg-config")
        source = ROOT / "examples/library/boxes.c"
        page = (ROOT / "docs/library.md").read_text(encoding="utf-8")
        same(f"```c\n{source.read_text(encoding='utf-8')}```\n" in page, True, "docs/library.md shows examples/library/boxes.c")
        words = {**os.environ, "PKG_CONFIG_PATH": f"{self.prefix}/lib/pkgconfig"}
        flags = run("pkg-config", "--cflags", "--libs", "rtfilter", env=words).split()
        static = [flag if flag != "-lrtfilter" else "-l:librtfilter.a" for flag in flags]
        for name, over in (("shared", flags), ("static", [*static, *self.libraries])):
            run("cc", *WARNINGS, "-o", self.folder / f"example-{name}", source, *over)
            said = run(self.folder / f"example-{name}", env={"LD_LIBRARY_PATH": f"{self.prefix}/lib"} if name == "shared" else {})
            same(said, "box 1\nbox 2\n")
            same(f"$ ./boxes\n{said}```\n" in page, True, "docs/library.md shows what the example prints")
        (typed,) = re.findall(r"^```\n\$ cc .*?^```$", (ROOT / "docs/quick-start.md").read_text(encoding="utf-8"), re.MULTILINE | re.DOTALL)
        same(f"{typed}\n" in page, True, "docs/quick-start.md types the same")

    def check_page(self):
        """The examples of docs/library.md print what it shows."""
        text = (ROOT / "docs/library.md").read_text(encoding="utf-8")
        examples = re.findall(EXAMPLE % "c", text, re.MULTILINE)
        same(len(examples), text.count("```c\n") - 1, "examples that show what they print")
        scratch = self.scratch("page")
        shutil.copy(ROOT / "examples/data/layers.csv", scratch)
        for at, (code, printed) in enumerate(examples):
            source = scratch / f"{at}.c"
            has_own = "rtfilter_session session" in code
            source.write_text(PAGE_PROGRAM % (("", code, "") if has_own else (OPENED, code, "rtfilter_close(session);\n")))
            run("cc", "-std=c11", "-Wall", "-Wextra", "-Werror", f"-I{self.prefix}/include", "-o", scratch / str(at), source,
                f"-L{self.prefix}/lib", "-lrtfilter", "-lm", f"-Wl,-rpath,{self.prefix}/lib", *self.libraries)  # fmt: skip
            same(run(scratch / str(at), cwd=scratch), printed, code)

    # - each call

    def check_calls(self):
        run(self.built("calls.c"), self.folder)

    def check_calls_by_sanitizers(self):
        self.sanitized("calls.c", "-fsanitize=address,undefined", self.scratch("sanitized"))

    def check_calls_by_valgrind(self):
        wants("valgrind")
        run("valgrind", "-q", "--error-exitcode=9", "--leak-check=full", "--errors-for-leak-kinds=all", "--show-leak-kinds=all",
            "--child-silent-after-fork=yes", self.built("calls.c", "-DVALGRIND"), self.scratch("valgrind"))  # fmt: skip

    def scratch(self, name):
        """A folder with the table, of one check."""
        folder = self.folder / name
        folder.mkdir()
        shutil.copy(self.folder / "boxes.csv", folder)
        return folder

    def check_threads(self):
        run(self.built("threads.c"))

    def check_threads_by_sanitizer(self):
        self.sanitized("threads.c", "-fsanitize=thread")

    def check_forks(self):
        run(self.built("forked.c"), self.folder / "boxes.csv")

    def check_processor(self):
        """One that lacks what the library needs."""
        program = self.folder / "old_processor"
        objects = [self.prefix / "lib/librtfilter.a", *self.libraries]
        run("cc", "-std=c11", *WARNINGS, *self.flags, f"-I{ROOT}/library", "-o", program, SOURCES / "old_processor.c", *objects)
        run(program, self.folder / "boxes.csv")

    def check_cpp(self):
        """What the class answers and throws, also by the sanitizers, and the program of its page."""
        for flags in ([], ["-fsanitize=address,undefined"]):
            wrapper = self.built("wrapper.cpp", *flags, compiler="c++", standard="c++17")
            run(wrapper, self.folder / "boxes.csv")
        program, printed = self.page("include/README.md", "cpp")
        wants("pkg-config")
        scratch, words = self.scratch("page-cpp"), {**os.environ, "PKG_CONFIG_PATH": f"{self.prefix}/lib/pkgconfig", "LD_LIBRARY_PATH": f"{self.prefix}/lib"}
        (scratch / "boxes.cpp").write_text(program)
        (typed,) = re.findall(r"^\$ (c\+\+ .*)$", (ROOT / "include/README.md").read_text(encoding="utf-8"), re.MULTILINE)
        run("sh", "-c", f"{typed} {' '.join([*WARNINGS, *self.libraries])}", cwd=scratch, env=words)
        same(run(scratch / "boxes", cwd=scratch, env=words), printed)

    # - what is refused

    def check_memory(self):
        """Each allocation is refused in turn, and each with all after it."""
        wants("cc")
        program, refuser = self.built("refused.c"), refusals.Refuser("cc", self.folder)
        for many, allowed in ((refusals.ONCE, [0]), (refusals.FROM_THERE_ON, [0, NO_MEMORY])):
            found, whole = refuser.each([program, "boxes.csv"], refusals.Refusal("memory", errno.ENOMEM, many))
            same(whole, (0, b"", b""))
            if len(found) < 10:
                raise Differs(f"{len(found)} allocations")
            for at, (status, _, said) in enumerate(found, 1):
                if status not in allowed or said:
                    raise Differs(f"allocation {at}, {many}: status {status}, {said.decode()}")

    def check_reads(self):
        """A file that can't be read, and one that is read a byte at a time."""
        program, refuser = self.built("reads.c"), refusals.Refuser("cc", self.folder)
        for call, error, status in (("read", errno.EIO, 4), ("read", errno.EINTR, 0), ("read", 0, 0), ("open", errno.EMFILE, 4),
                                    ("open", errno.EINTR, 0)):  # fmt: skip
            found, whole = refuser.each([program, "boxes.csv"], refusals.Refusal(call, error, refusals.ONCE))
            same(whole, (0, b"no error 0\n", b""))
            said = b"cannot read file %d\n" % error if status else b"no error 0\n"
            for result in found:
                same(result, (status, said, b""), f"{call}, error {error}")

    def check_allocations(self):
        """No find, count or cost allocates memory; a reply does if none before it was as long."""
        run(self.built("allocations.c"))

    def check_instructions(self):
        """What queries in numbers take. Work that is done twice, or for answers beyond the capacity, shows here alone."""
        wants("valgrind")
        program, found = self.built("queries.c"), {}
        for (kind, number, capacity), stored in INSTRUCTIONS.items():
            one, many = (self.instructions(program, kind, count, capacity) for count in (0, number))
            found[kind] = (many - one) // number
        wrong = {kind: (found[kind], stored) for (kind, _, _), stored in INSTRUCTIONS.items()
                 if abs(found[kind] - stored) > MORE * stored}  # fmt: skip
        same(wrong, {}, f"instructions found and stored; all found: {found}")

    def instructions(self, *words):
        said = run("valgrind", "--tool=callgrind", "--callgrind-out-file=/dev/null", *words)
        return int(re.search(r"Collected : (\d+)", said)[1])

    # - answers beside the program's

    def program_on(self, table, queries, fanout, at):
        """The status of the program, and what it writes."""
        name = self.folder / f"{at}.csv"
        name.write_bytes(table)
        words = [self.program, "--fanout", str(fanout), name]
        done = subprocess.run(words, input=queries, capture_output=True, timeout=LONGEST)
        return done.returncode, done.stdout

    def check_lines(self):
        """Random lines of all kinds are answered byte for byte as by the program, over tables from bytes and from arrays."""
        chance, lines, faulty = random.Random(1), 0, 0
        for at in range(TABLES):
            rows, table = some_sound_table(chance)
            fanout = chance.choice(random_runs.FANOUTS)
            queries = b"\n".join(random_runs.some_line(chance) for _ in range(LINES // TABLES))
            expected = self.program_on(table, queries, fanout, f"lines{at}")
            with of_bytes(self.library, table, fanout=fanout) as session:
                same(session.ask(queries, chance.choice([100_000, 4096, 2**24])), expected, f"lines over table {at}")
            with of_arrays(self.library, rows, True, fanout=fanout) as session:
                same(session.ask(queries, 2**24), expected, f"lines over table {at} in arrays")
            lines += queries.count(b"\n") + 1
            faulty += expected[1].count(b"error ")
        if not lines // 4 < faulty < lines * 3 // 4:
            raise Differs(f"of {lines} lines {faulty} were faulty")

    def check_numbers(self):
        """Queries in numbers are answered as their lines are, many in one call, in arrays of any capacity."""
        chance, met = random.Random(2), {BAD_QUERY: 0, OK: 0}
        for at in range(TABLES):
            _, table = some_sound_table(chance)
            fanout = chance.choice(random_runs.FANOUTS)
            drawn = [words for words in (random_runs.some_query(chance) for _ in range(250)) if words != [b"levels"]]
            queries = b"".join(b" ".join(words) + b"\n" for words in drawn)
            vertices, calls = [], {}
            replies = replies_of(self.program_on(table, queries, fanout, f"numbers{at}")[1])
            with of_bytes(self.library, table, fanout=fanout) as session:
                for words, (answers, is_valid, count) in zip(drawn, replies, strict=True):
                    call, query = query_of(words, vertices)
                    calls.setdefault(call, []).append((query, answers if call == "rtfilter_find" else count, is_valid))
                    met[OK if is_valid else BAD_QUERY] += 1
                for call, its in calls.items():
                    for query, _, is_valid in its:
                        if not is_valid:
                            same(self.answered(session, call, [query], vertices, 9), (BAD_QUERY, []))
                    valid = [(query, answers) for query, answers, is_valid in its if is_valid]
                    expected = OK, [answers for _, answers in valid]
                    for capacity in (1, 7, 100, 2**16) if call == "rtfilter_find" else (0,):
                        part = 20 if capacity < 100 else len(valid)
                        found = self.answered(session, call, [query for query, _ in valid[:part]], vertices, capacity)
                        same(found, (OK, expected[1][:part]), f"{call} over table {at}, capacity {capacity}")
        if min(met.values()) < 20:
            raise Differs(f"met {met}")

    def answered(self, session, call, queries, vertices, capacity):
        if call == "rtfilter_find":
            return session.find(queries, vertices, capacity)
        return session.measure(call, queries, vertices)

    def check_tables(self):
        """A table in bytes and in arrays has the same tree. In bytes its fault is the program's; in arrays ids come last."""
        chance, faults = random.Random(3), 0
        for at in range(200):
            rows = [list(row) for row in some_sound_table(chance)[0][:100]]
            if chance.random() < 0.5:
                for _ in range(chance.choice([1, 1, 2])):
                    self.spoil(chance, rows)
            most, fanout = chance.choice([2**24, 2**24, max(len(rows) - 1, 1)]), chance.choice(random_runs.FANOUTS)
            table = b"".join(b",".join(b"%d" % field for field in row) + b"\n" for row in rows)
            expected = reading.boxes(table, False, most)
            in_bytes = of_bytes(self.library, table, fanout=fanout, most=most)
            in_arrays = of_arrays(self.library, rows, True, fanout=fanout, most=most)
            if isinstance(expected, bytes):
                faults += 1
                same((in_bytes.code, in_arrays.code), (BAD_TABLE, BAD_TABLE))
                for it, fault in ((in_bytes, fault_of(expected.decode())), (in_arrays, fault_of_rows(rows, most))):
                    same((it.fault.kind, it.fault.record, it.fault.field), fault, f"table {table}")
                continue
            with in_bytes, in_arrays:
                info = in_bytes.info()
                same(in_arrays.info(), info)
                sizes = reading.level_sizes(len(rows), fanout)
                hull = [pick(sides) for pick, sides in zip((min, max, min, max), [*zip(*expected.values())])] or [0] * 4
                same(info, dict(zip(info, (len(rows), len(sizes), sizes + [0] * (25 - len(sizes)), *hull, [0] * 9))))
                lines = b"".join(b"cost find %b\n" % b" ".join(random_runs.some_region(chance)) for _ in range(50))
                same(in_arrays.ask(lines, 4096), in_bytes.ask(lines, 4096))
        if not 50 < faults < 150:
            raise Differs(f"{faults} faults")

    def spoil(self, chance, rows):
        """Makes some row faulty."""
        if rows:
            row, kind = chance.choice(rows), chance.randrange(4)
            if kind == 0:
                row[0] = chance.choice(rows)[0]
            elif kind == 3:
                row[5] = chance.choice([64, 255])
            else:
                row[2 * kind - 1] = row[2 * kind] + 1

    # - other languages

    def page(self, name, language):
        """The program of a wrapper's page, and what it prints by it."""
        text = (ROOT / name).read_text(encoding="utf-8")
        return re.search(EXAMPLE % language, text, re.MULTILINE).groups()

    def check_rust(self):
        """Its tests, over the shared library, and the program of its page over the static one, which pkg-config finds."""
        wants("cargo", "rustc", "pkg-config")
        crate = shutil.copytree(ROOT / "bindings/rust", self.folder / "rust", ignore=shutil.ignore_patterns("target"))
        program, printed = self.page("bindings/rust/README.md", "rust")
        (crate / "examples").mkdir()
        (crate / "examples/page.rs").write_text(program)
        words = {**os.environ, "PKG_CONFIG_PATH": f"{self.prefix}/lib/pkgconfig", "LD_LIBRARY_PATH": f"{self.prefix}/lib",
                 "RUSTFLAGS": "-D warnings"}  # fmt: skip
        named = {**words, "RTFILTER_LIB_DIR": f"{self.prefix}/lib", "PKG_CONFIG_PATH": os.devnull}
        said = run("cargo", "test", "--offline", "--quiet", "--jobs", 1, cwd=crate, env=named)
        if sum(map(int, re.findall(r"test result: ok\. (\d+) passed", said))) < 4:
            raise Differs(said)
        static = {} if self.libraries else {"RTFILTER_STATIC": "1"}
        page = "cargo", "run", "--offline", "--quiet", "--jobs", 1, "--example", "page"
        same(run(*page, cwd=crate, env={**words, **static}), printed)

    def check_go(self):
        """Its tests, and the program of its page, over the shared library."""
        wants("go", "pkg-config")
        package, user = shutil.copytree(ROOT / "bindings/go", self.folder / "go"), self.folder / "go-page"
        words = {**os.environ, "PKG_CONFIG_PATH": f"{self.prefix}/lib/pkgconfig", "LD_LIBRARY_PATH": f"{self.prefix}/lib",
                 "GOPATH": str(self.folder / "go-path"), "GOCACHE": str(self.folder / "go-cache"), "GOPROXY": "off"}  # fmt: skip
        run("go", "vet", ".", cwd=package, env=words)
        run("go", "test", ".", cwd=package, env=words)
        program, printed = self.page("bindings/go/README.md", "go")
        user.mkdir()
        (user / "main.go").write_text(program)
        used = "github.com/rtfilter/rtfilter/bindings/go"
        (user / "go.mod").write_text(f"module page\ngo 1.19\nrequire {used} v0.0.0\nreplace {used} => ../go\n")
        same(run("go", "run", ".", cwd=user, env=words), printed)


def fault_of(line):
    """The fault that the program's line reports, in numbers."""
    record, cause = re.fullmatch(r"rtfilter: table record (\d+): (.*)\n", line).groups()
    for kind, pattern in enumerate(FAULTS, 1):
        if found := re.fullmatch(pattern, cause):
            field = {"x": 2, "y": 4}.get(found[1]) or int(found[1]) if found.groups() else kind == 6
            return kind, int(record), int(field)
    raise Differs(line)


def fault_of_rows(rows, most):
    """The fault of a table in arrays."""
    if len(rows) > most:
        return 1, most + 1, 0
    for at, (_, min_x, max_x, min_y, max_y, layer) in enumerate(rows, 1):
        if layer > 63:
            return 4, at, 6
        if min_x > max_x or min_y > max_y:
            return 5, at, 2 if min_x > max_x else 4
    ids = [row[0] for row in rows]
    return 6, next(at for at, id in enumerate(ids, 1) if id in ids[: at - 1]), 1


def outcome(check):
    """Whether a check passed, or None if it was skipped, and what it printed."""
    name, begun = check.__name__.removeprefix("check_").replace("_", " "), time.monotonic()
    try:
        check()
    except Skipped as why:
        return None, f"skipped library, {name}: {why}\n"
    except (Differs, AssertionError) as why:
        return False, f"FAIL {name}: {why}\n"
    except Exception:
        return False, f"FAIL {name}: {traceback.format_exc()}"
    return True, f"{time.monotonic() - begun:.2f} s {name}\n" * ("TIMES" in os.environ)


def main():
    parser = argparse.ArgumentParser()
    parser.add_argument("archive", type=Path)
    parser.add_argument("program", type=Path)
    parser.add_argument("--only", action="append", default=[], metavar="WORD")
    args = parser.parse_args()
    passed = failed = 0
    missing = [tool for tool in ("cc", "ar", "make", "rt") if shutil.which(tool) is None]
    if missing:
        print(f"skipped library: {', '.join(missing)}: not installed", "0 passed, 0 failed", sep="\n")
        return 0
    with tempfile.TemporaryDirectory(prefix="librtfilter-") as folder:
        checks = Checks(args.archive.resolve(), args.program.resolve(), Path(folder))
        named = [getattr(checks, name) for name in dir(checks) if name.startswith("check_")]
        named = [check for check in named if not args.only or any(word in check.__name__ for word in args.only)]
        with ThreadPoolExecutor(AT_ONCE) as threads:
            for has_passed, said in threads.map(outcome, named):
                print(said, end="", flush=True)
                passed += has_passed is True
                failed += has_passed is False
    print(f"{passed} passed, {failed} failed")
    return int(failed > 0)


if __name__ == "__main__":
    sys.exit(main())

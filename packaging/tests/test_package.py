"""The Debian packages are the same each time they are made, and can be installed, run, completed and removed."""

import gzip
import os
import pty
import re
import select
import shutil
import subprocess
import sys
import tempfile
import time
import tomllib
import unittest
from pathlib import Path
from typing import Any

from support import DATA, PACKAGE, PROGRAM, ROOT, found, wants

LIBRARY = os.environ.get("RTFILTER_LIBRARY")  # librtfilter.a
MAKE = ROOT / "packaging/make_packages.py"
VERSION = (ROOT / "VERSION").read_text(encoding="utf-8").strip()
TOOLS = "dpkg-buildpackage", "dh", "dh_python3", "gcc", "objdump"
MODULES = {f"usr/lib/rtfilter/{name}.py": 0o644 for name in ("health", "listening", "prefork", "service")}
LIBRARIES = "usr/lib/x86_64-linux-gnu"
BINDINGS = [path for folder in ("go", "rust", "rust/src") for path in (ROOT / "bindings" / folder).iterdir() if path.is_file()]
FILES = {  # beside each package's own documents
    "rtfilter": {
        "usr/bin/rtfilter": 0o755,
        "usr/lib/rtfilter/rtfilter-prefork.so": 0o644,
        "usr/share/bash-completion/completions/rtfilter": 0o644,
        "usr/share/man/man1/rtfilter.1.gz": 0o644,
    },
    "librtfilter0": {f"{LIBRARIES}/librtfilter.so.0": 0o644},
    "librtfilter-dev": {
        f"{LIBRARIES}/librtfilter.a": 0o644,
        f"{LIBRARIES}/pkgconfig/rtfilter.pc": 0o644,
        "usr/include/rtfilter.h": 0o644,
        "usr/include/rtfilter.hpp": 0o644,
        **{f"usr/share/librtfilter/{it.relative_to(ROOT / 'bindings')}": 0o644 for it in BINDINGS if it.name not in ("Cargo.lock", "README.md", "rustfmt.toml")},
    },
    "rtfilter-service": {
        "etc/default/rtfilter-service": 0o644,
        "usr/bin/rtfilter-serve": 0o755,
        "usr/lib/rtfilter/serve.py": 0o755,
        "usr/share/bash-completion/completions/rtfilter-serve": 0o644,
        **MODULES,
        "usr/share/man/man1/rtfilter-serve.1.gz": 0o644,
    },
    "rtfilter-tools": {
        **{f"usr/bin/rtfilter-{it}": 0o755 for it in ("fence", "tiles")},
        **{f"usr/share/bash-completion/completions/rtfilter-{it}": 0o644 for it in ("fence", "tiles")},
        **{f"usr/share/man/man1/rtfilter-{it}.1.gz": 0o644 for it in ("fence", "tiles")},
    },
}
COMMANDS = {"rtfilter": "rtfilter", "rtfilter-serve": "rtfilter-service", "rtfilter-fence": "rtfilter-tools", "rtfilter-tiles": "rtfilter-tools"}
SHARED = "usr/share/rtfilter/"  # the pages, and what they name
SCRIPTS = {"rtfilter": {f"{SHARED}examples/languages/ask.sh"}, "python3-rtfilter": {f"{SHARED}examples/roads.py"}}
# lintian may say nothing else than that the debug symbols are names alone: the toolchain writes no line numbers.
FINE = ("debug-file-with-no-debug-symbols",)
UNITS = {f"rtfilter{it}" for it in (".service", ".socket", "@.service", "@.socket")}
ALL_UNITS = "rtfilter.service rtfilter.socket"
INSTANCES = "rtfilter@*.socket rtfilter@*.service"
# Stands for a program of the system: it logs its words. Nothing was enabled, and units are as ACTIVE has them.
LOGGING = """#!/bin/sh
echo "${0##*/} $*" >> %s
case $* in
  *was-enabled* | *debian-installed*) exit 1 ;;
  *is-enabled*) echo disabled; exit 1 ;;
  *is-active*) exit "$ACTIVE" ;;
esac
"""
THERE = "Package: {}\nStatus: install ok installed\nVersion: {}\nArchitecture: amd64\nMaintainer: none\nDescription: none\n"
PROMPT = "ready> "
LONGEST = 10  # seconds that bash may take for a line


def run(*words: object, **options: Any) -> str:
    """What a command prints. One that fails raises, with all that it said."""
    done = subprocess.run([*map(str, words)], stdout=subprocess.PIPE, stderr=subprocess.STDOUT, text=True, **options)
    if done.returncode:
        raise AssertionError(f"{words}: {done.stdout}")
    return str(done.stdout)


class Versions(unittest.TestCase):
    def test_all_name_the_same(self) -> None:
        project = tomllib.loads((PACKAGE / "pyproject.toml").read_text(encoding="utf-8"))["project"]
        manuals = [found(r'^\.TH \S+ 1 \S+ "rtfilter (\S+)"', (ROOT / f"docs/{it}.1").read_text())[1] for it in COMMANDS]
        changes = found(r"(?m)^## (\S+), ", (ROOT / "CHANGELOG.md").read_text(encoding="utf-8"))[1]
        served = run(sys.executable, "-B", ROOT / "service/serve.py", "--version").split()[-1]
        header = ".".join(re.findall(r"#define RTFILTER_VERSION_[MP]\w+ (\d+)", (ROOT / "include/rtfilter.h").read_text()))
        crate = tomllib.loads((ROOT / "bindings/rust/Cargo.toml").read_text(encoding="utf-8"))["package"]["version"]
        named = [project["version"], *manuals, changes, served, header, crate]
        self.assertEqual(named, [VERSION] * 9)


class Packages(unittest.TestCase):
    scratch: Path
    packages: dict[str, Path]

    @classmethod
    def setUpClass(cls) -> None:
        if LIBRARY and all(map(shutil.which, TOOLS)):
            cls.scratch = Path(cls.enterClassContext(tempfile.TemporaryDirectory()))
            made = run(sys.executable, MAKE, PROGRAM, LIBRARY, cls.scratch).split()
            cls.packages = {Path(name).name.split("_")[0]: Path(name) for name in made}
            for name, package in cls.packages.items():
                run("dpkg-deb", "--extract", package, cls.scratch / name)

    def setUp(self) -> None:
        wants(*TOOLS)
        if not LIBRARY:
            self.skipTest("tests/pytests.py names no archive of the library")

    def test_they_are_the_same_each_time(self) -> None:
        """From another folder, at another time, with another mask, where the program and the library have other dates."""
        with tempfile.TemporaryDirectory() as folder:
            assert LIBRARY
            program = shutil.copyfile(PROGRAM, Path(folder, "program"))
            library = shutil.copyfile(LIBRARY, Path(folder, "library"))
            made = run(sys.executable, MAKE, program, library, folder, cwd=folder, umask=0o077).split()
            names = ("librtfilter-dev", "librtfilter0-dbgsym", "librtfilter0", "python3-rtfilter-dbgsym", "python3-rtfilter", "rtfilter-dbgsym",
                     "rtfilter-service", "rtfilter-tools", "rtfilter")  # fmt: skip
            kinds = ("amd64", "amd64", "amd64", "amd64", "amd64", "amd64", "all", "all", "amd64")
            self.assertEqual([Path(name).name for name in made], [f"{it}_{VERSION}-1_{kind}.deb" for it, kind in zip(names, kinds)])
            for name in made:
                self.assertEqual(Path(name).read_bytes(), (self.scratch / Path(name).name).read_bytes(), name)

    def held(self, name: str) -> dict[str, int]:
        """The files of a package, and their modes."""
        tree = self.scratch / name
        return {path.relative_to(tree).as_posix(): path.stat().st_mode & 0o7777 for path in tree.rglob("*") if path.is_file()}

    def test_what_they_hold(self) -> None:
        for name, files in FILES.items():
            documents = {it: mode for it, mode in self.held(name).items() if it.startswith("usr/share/doc/")}
            units = {it: mode for it, mode in self.held(name).items() if "systemd" in it}
            shared = {it: mode for it, mode in self.held(name).items() if it.startswith(SHARED)}
            self.assertEqual(self.held(name), files | documents | units | shared)
            self.assertEqual({it for it, mode in shared.items() if mode == 0o755}, SCRIPTS.get(name, set()))
            self.assertEqual({Path(it).name for it in units}, UNITS if "service" in name else set())
            self.assertLessEqual({f"usr/share/doc/{name}/{it}" for it in ("changelog.Debian.gz", "copyright")}, documents.keys())
        sources = [it for it in (PACKAGE / "rtfilter").rglob("*") if it.is_file() and it.suffix != ".pyc"]
        modules = {it.relative_to(PACKAGE).as_posix() for it in sources} | {"rtfilter/_engine.abi3.so"}
        held = [it.partition("dist-packages/")[2] for it in self.held("python3-rtfilter")]
        self.assertEqual({it for it in held if it.startswith("rtfilter/")}, modules)
        about = run("dpkg-deb", "--field", self.packages["python3-rtfilter"], "Depends")
        self.assertRegex(about, r"librtfilter0 \(>= [\d.]+\)")
        self.assertRegex(about, r"python3 \(>= 3\.11\)")
        self.assertEqual({it for it, mode in self.held("python3-rtfilter").items() if mode == 0o755}, SCRIPTS["python3-rtfilter"])
        for package in self.packages.values():
            listed = run("dpkg-deb", "--contents", package)
            self.assertEqual({line.split()[1] for line in listed.splitlines()}, {"root/root"})
        tree = self.scratch / "rtfilter"
        self.assertIn("no symbols", run("objdump", "--syms", tree / "usr/bin/rtfilter"))
        for command, package in COMMANDS.items():
            manual = gzip.decompress((self.scratch / package / f"usr/share/man/man1/{command}.1.gz").read_bytes())
            self.assertEqual(manual, (ROOT / f"docs/{command}.1").read_bytes())
            for other in COMMANDS.keys() - {command}:
                self.assertIn(f".BR {other} (1)", manual.decode())
        changes = gzip.decompress((tree / "usr/share/doc/rtfilter/changelog.Debian.gz").read_bytes()).decode()
        self.assertTrue(changes.startswith(f"rtfilter ({VERSION}-1) "), changes)
        self.assertEqual(changes.count("\n  * "), (ROOT / "CHANGELOG.md").read_text(encoding="utf-8").count("\n- "))

    def test_the_library(self) -> None:
        """In a clean folder, the program of its page is compiled as the page says, and prints what the page shows."""
        wants("cc", "pkg-config")
        with tempfile.TemporaryDirectory() as system:
            for name in ("librtfilter0", "librtfilter-dev"):
                run("dpkg", "-x", self.packages[name], system)
            libraries = Path(system, LIBRARIES)
            self.assertEqual(os.readlink(libraries / "librtfilter.so"), "librtfilter.so.0")
            page = (ROOT / "docs/library.md").read_text(encoding="utf-8")
            Path(system, "boxes.c").write_text(found(r"(?s)```c\n(.*?)```", page)[1])
            shown = found(r"(?s)```\n\$ (cc [^\n]*)\n\$ ./boxes\n(.*?)```", page)
            words = {"PKG_CONFIG_SYSROOT_DIR": system, "PKG_CONFIG_LIBDIR": f"{libraries}/pkgconfig", "PATH": os.environ["PATH"],
                     "PKG_CONFIG_ALLOW_SYSTEM_CFLAGS": "1", "PKG_CONFIG_ALLOW_SYSTEM_LIBS": "1"}  # fmt: skip
            run("sh", "-c", shown[1], cwd=system, env=words)
            self.assertEqual(run("./boxes", cwd=system, env={"LD_LIBRARY_PATH": str(libraries)}), shown[2])
        about = run("dpkg-deb", "--field", self.packages["librtfilter0"], "Depends")
        self.assertRegex(about, r"^libc6 \(>= [\d.]+\)$" if not os.environ.get("LDLIBS") else "libc6")
        symbols = {line.split()[0].split("@")[0] for line in (ROOT / "packaging/debian/librtfilter0.symbols").read_text().splitlines()[2:]}
        public = set(re.findall(r"^    (\w+);$", (ROOT / "library/rtfilter.map").read_text(), re.MULTILINE))
        self.assertEqual(symbols, public | {"RTFILTER_0"})

    def installed_library(self, system: str) -> dict[str, str]:
        """What a build needs to find the library of the packages, which are unpacked into a folder."""
        for name in ("librtfilter0", "librtfilter-dev"):
            run("dpkg", "-x", self.packages[name], system)
        libraries = f"{system}/{LIBRARIES}"
        return {**os.environ, "PKG_CONFIG_SYSROOT_DIR": system, "PKG_CONFIG_LIBDIR": f"{libraries}/pkgconfig",
                "PKG_CONFIG_ALLOW_SYSTEM_CFLAGS": "1", "PKG_CONFIG_ALLOW_SYSTEM_LIBS": "1", "LD_LIBRARY_PATH": libraries}  # fmt: skip

    def page(self, name: str, language: str) -> tuple[str, str]:
        """The program of a wrapper's page, and what it prints."""
        text = (ROOT / name).read_text(encoding="utf-8")
        program = found(rf"(?s)```{language}\n(.*?)```\n\nprints\n\n```\n(.*?)```", text)
        return program[1], program[2]

    def test_a_crate_over_the_package(self) -> None:
        """A new crate in a clean folder builds and runs the program of the page."""
        wants("cargo", "pkg-config")
        program, printed = self.page("bindings/rust/README.md", "rust")
        with tempfile.TemporaryDirectory() as system:
            words = {**self.installed_library(system), "CARGO_TARGET_DIR": f"{system}/target"}
            crate = Path(system, "page")
            run("cargo", "new", "--quiet", "--vcs", "none", "--bin", crate, env=words)
            with open(crate / "Cargo.toml", "a") as manifest:
                manifest.write(f'rtfilter = {{ path = "{system}/usr/share/librtfilter/rust" }}\n')
            (crate / "src/main.rs").write_text(program)
            folder = found("-L(.*)", run("pkg-config", "--libs-only-L", "rtfilter", env=words))[1].strip()
            words["RTFILTER_LIB_DIR"] = folder  # (of a system that isn't the root)
            self.assertEqual(run("cargo", "run", "--offline", "--quiet", cwd=crate, env=words), printed)

    def test_a_module_over_the_package(self) -> None:
        """A new module in a clean folder builds and runs the program of the page."""
        wants("go", "pkg-config", "cc")
        program, printed = self.page("bindings/go/README.md", "go")
        with tempfile.TemporaryDirectory() as system:
            words = {**self.installed_library(system), "GOPATH": f"{system}/path", "GOCACHE": f"{system}/cache", "GOPROXY": "off"}
            module, used = Path(system, "module"), found(r"require (\S+) ", (ROOT / "bindings/go/README.md").read_text())[1]
            module.mkdir()
            (module / "main.go").write_text(program)
            replaced = f"replace {used} => {system}/usr/share/librtfilter/go"
            (module / "go.mod").write_text(f"module page\n\ngo 1.19\n\nrequire {used} v0.0.0\n\n{replaced}\n")
            self.assertEqual(run("go", "run", ".", cwd=module, env=words), printed)

    def test_debug_symbols(self) -> None:
        """They belong to the program, and name its functions."""
        identity = found(r"Build ID: (\w\w)(\w+)", run("readelf", "--notes", self.scratch / "rtfilter/usr/bin/rtfilter"))
        symbols = self.scratch / "rtfilter-dbgsym/usr/lib/debug/.build-id" / identity[1] / f"{identity[2]}.debug"
        self.assertIn("rt_filter", run("objdump", "--syms", symbols))

    def test_by_lintian(self) -> None:
        wants("lintian")
        report = run("lintian", "--allow-root", "--fail-on", "error", *self.packages.values()).splitlines()
        self.assertEqual([line for line in report if not any(tag in line for tag in FINE)], [])

    def test_installed_and_removed(self) -> None:
        """In a folder that stands for the system, which has the library in a version that is old enough, or not."""
        wants("dpkg")
        if os.geteuid() != 0:
            self.skipTest("root: the scripts of packages run in a folder that stands for the system")
        path = f"{os.environ['PATH']}:/usr/sbin:/sbin"  # dpkg looks for tools there, whether it needs them or not
        for library, is_enough in (("2.36-9", True), ("2.31-13", False)):
            with tempfile.TemporaryDirectory() as system:
                data = Path(system, "var/lib/dpkg")
                make_system(Path(system))
                before = {it for it in Path(system).rglob("*") if it.is_file()}
                (data / "status").write_text("\n".join(THERE.format(*it) for it in (("libc6", library), ("python3", "3.11.2-1"), ("python3-numpy", "1:1.24.2-1"))))
                dpkg = ["env", f"PATH={path}", "dpkg", f"--root={system}", f"--log={os.devnull}"]
                if not is_enough:
                    with self.assertRaisesRegex(AssertionError, "dependency problems"):
                        run(*dpkg, "--install", self.packages["rtfilter"])
                    continue
                names = "rtfilter", "librtfilter0", "python3-rtfilter", "rtfilter-tools"
                run(*dpkg, "--install", *(self.packages[it] for it in names))
                output = run(Path(system, "usr/bin/rtfilter"), DATA / "boxes.csv", DATA / "queries.txt")
                self.assertEqual(output, (DATA / "answers.txt").read_text())
                script = f"import rtfilter; print(rtfilter.Rtfilter('{DATA / 'boxes.csv'}').count(rtfilter.All()))"
                words = {"PYTHONPATH": f"{system}/usr/lib/python3/dist-packages", "PATH": f"{system}/usr/bin:{path}", "LD_LIBRARY_PATH": f"{system}/{LIBRARIES}"}
                self.assertEqual(run("/usr/bin/python3", "-B", "-c", script, env=words), "5\n")
                words["PYTHONDONTWRITEBYTECODE"] = "1"
                examples = Path(system, "usr/share/rtfilter/examples")
                zones, lines = examples / "data/zones.geojson", "it,16.38,48.19,1\n"
                self.assertIn('"enter"', run("/usr/bin/python3", Path(system, "usr/bin/rtfilter-fence"), zones, env=words, input=lines))
                run("/usr/bin/python3", "-m", "rtfilter.tiles.make_map", f"{system}/map", "--boxes", "1000", env=words)
                shutil.rmtree(f"{system}/map")
                run(*dpkg, "--verify", *names)
                run(*dpkg, "--purge", *names)
                left = {path for path in Path(system).rglob("*") if path.is_file() and data not in path.parents}
                self.assertEqual(left - before, {Path(system, "log")})

    def test_the_service_of_systemd(self) -> None:
        """Its user and the folder of its table are made; what it is told in /etc/default are words of its command."""
        wants("systemd-analyze")
        tree, control = self.scratch / "rtfilter-service", self.scratch / "control"
        run("dpkg-deb", "--control", self.packages["rtfilter-service"], control)
        self.assertEqual((control / "conffiles").read_text(), "/etc/default/rtfilter-service\n")
        with tempfile.TemporaryDirectory() as folder:
            log_calls(Path(folder), Path(folder, "log"), "adduser", "deb-systemd-helper", "deb-systemd-invoke", "systemctl")
            run("sh", control / "postinst", "configure", env={"PATH": f"{folder}:{os.environ['PATH']}"})
            logged = Path(folder, "log").read_text()
            self.assertIn("adduser --quiet --system --group --home /var/lib/rtfilter", logged)
            self.assertNotIn("deb-systemd-helper enable", logged)
            for unit in (tree / "lib/systemd/system").iterdir():
                Path(folder, unit.name).write_text(unit.read_text().replace("/usr/bin/rtfilter-serve", str(tree / "usr/bin/rtfilter-serve")))
            for kind in ("service", "socket"):
                Path(folder, f"rtfilter@towns.{kind}").symlink_to(f"rtfilter@.{kind}")
            units = [*Path(folder).glob("rtfilter.s*"), *Path(folder).glob("rtfilter@towns.s*")]
            said = run("systemd-analyze", "--man=no", "--recursive-errors=no", "verify", *units)
            self.assertEqual([line for line in said.splitlines() if "rtfilter" in line], [])
        text = (tree / "lib/systemd/system/rtfilter.service").read_text()
        self.assertIn("\nExecStart=/usr/bin/rtfilter-serve --program /usr/bin/rtfilter $OPTIONS ${TABLE}\n", text)
        self.assertIn("\nEnvironmentFile=-/etc/default/rtfilter-service\n", text)
        defaults = (tree / "etc/default/rtfilter-service").read_text()
        self.assertEqual(re.findall(r"^(\w+)=", defaults, re.MULTILINE), ["TABLE", "OPTIONS"])

    def test_an_upgrade_restarts_what_runs(self) -> None:
        """A downgrade too. A first installation starts nothing. A purge stops what runs, instances too."""
        wants("dpkg", "deb-systemd-invoke")
        if os.geteuid() != 0:
            self.skipTest("root: the scripts of packages run in a folder that stands for the system")
        with tempfile.TemporaryDirectory() as folder:
            system, newer = Path(folder, "system"), Path(folder, "newer.deb")
            make_system(system)
            run("dpkg-deb", "--raw-extract", self.packages["rtfilter-service"], f"{folder}/newer")
            control = Path(folder, "newer/DEBIAN/control")
            control.write_text(control.read_text().replace(f"Version: {VERSION}-1\n", f"Version: {VERSION}-2\n"))
            run("dpkg-deb", "--root-owner-group", "--build", f"{folder}/newer", newer)
            dpkg = ["env", f"PATH={os.environ['PATH']}:/usr/sbin:/sbin", "dpkg", f"--root={system}", f"--log={os.devnull}"]
            run(*dpkg, "--install", self.packages["rtfilter"])
            for words, active, expected in (
                (("--install", self.packages["rtfilter-service"]), False, []),
                (("--install", newer), True, [f"--quiet --system restart {ALL_UNITS}", f"try-restart {INSTANCES}"]),
                (("--install", newer), False, [f"try-restart {INSTANCES}"]),
                (("--install", self.packages["rtfilter-service"]), True, [f"--quiet --system restart {ALL_UNITS}", f"try-restart {INSTANCES}"]),
                (("--purge", "rtfilter-service"), True, [f"stop {INSTANCES}", f"stop {ALL_UNITS}"]),
            ):
                (system / "log").unlink(missing_ok=True)
                run(*dpkg, *words)
                self.assertEqual(self.called(system / "log", active), expected, words)

    def called(self, log: Path, active: bool) -> list[str]:
        """What the system's deb-systemd-invoke has systemctl do, as it is called in a log."""
        with tempfile.TemporaryDirectory() as folder:
            log_calls(Path(folder), Path(folder, "log"), "systemctl")
            words = {"PATH": f"{folder}:{os.environ['PATH']}", "ACTIVE": str(int(not active)), "DPKG_ROOT": folder}
            for line in log.read_text().splitlines():
                if line.startswith("deb-systemd-invoke "):
                    run(*line.split(), env=words)
            logged = Path(folder, "log").read_text().splitlines()
        return [line.removeprefix("systemctl ") for line in logged if " is-" not in line]

    def unpacked(self) -> Path:
        """What all packages hold, in one folder."""
        system = Path(self.enterContext(tempfile.TemporaryDirectory()), "system")
        for name in self.packages:
            shutil.copytree(self.scratch / name, system, dirs_exist_ok=True, symlinks=True)
        return system

    def test_links_of_pages(self) -> None:
        """Each leads to a page that is installed, and to a heading of it."""
        system = self.unpacked()
        pages = [*system.rglob("*.md"), *system.rglob("*.md.gz")]
        self.assertIn(system / SHARED / "README.md", pages)
        for page in pages:
            text = gzip.decompress(page.read_bytes()).decode() if page.suffix == ".gz" else page.read_text()
            for link in re.findall(r"\]\(([^)\s]+)\)", text):
                name, _, heading = link.partition("#")
                if ":" not in name:
                    target = page.parent / name if name else page
                    self.assertTrue(target.exists(), f"{page}: {link}")
                    self.assertTrue(not heading or heading in headings(target), f"{page}: {link}")

    def test_pointers_to_pages(self) -> None:
        """What the README.Debian of a package names under /usr, and what a manual page names there, is installed."""
        system, named = self.unpacked(), {}
        for name in ("rtfilter", "librtfilter-dev", "python3-rtfilter"):
            named[name] = (system / f"usr/share/doc/{name}/README.Debian").read_text()
        named |= {f"{it}(1)": (ROOT / f"docs/{it}.1").read_text().partition(".SH SEE ALSO\n")[2] for it in COMMANDS}
        for name, text in named.items():
            paths = re.findall(r"/usr/[\w./-]*\w", text)
            self.assertTrue(paths, name)
            for path in paths:
                self.assertTrue((system / path[1:]).exists(), f"{name}: {path}")


def log_calls(folder: Path, log: Path, *tools: str) -> None:
    """Has programs of these names log their words."""
    for tool in tools:
        Path(folder, tool).write_text(LOGGING % log)
        Path(folder, tool).chmod(0o755)


def make_system(system: Path) -> None:
    """What dpkg and the scripts of a package want of a system that runs systemd."""
    for name in ("var/lib/dpkg/info", "var/lib/dpkg/updates", "usr/bin", "bin", "dev", "run/systemd/system"):
        (system / name).mkdir(parents=True)
    versions = {"libc6": "2.36-9", "python3": "3.11.2-1", "adduser": "3.134"}
    (system / "var/lib/dpkg/status").write_text("\n".join(THERE.format(*it) for it in versions.items()))
    (system / "dev/null").touch()
    for file in ("/bin/sh", *re.findall(r"/\S+", run("ldd", "/bin/sh"))):
        Path(f"{system}{file}").parent.mkdir(parents=True, exist_ok=True)
        shutil.copy(file, f"{system}{file}")
    log_calls(system / "usr/bin", Path("/log"), "adduser", "deb-systemd-helper", "deb-systemd-invoke", "systemctl", "py3compile", "py3clean")


def headings(page: Path) -> set[str]:
    """The headings of a page, as links name them."""
    titles = re.findall(r"^#+ (.*)$", page.read_text(), re.MULTILINE)
    return {re.sub(r"[^\w\- ]", "", title.lower()).replace(" ", "-") for title in titles}


class Completion(unittest.TestCase):
    """Keys go to a bash of its own, where the commands show their words."""

    def setUp(self) -> None:
        folder = self.enterContext(tempfile.TemporaryDirectory())
        for name in ("towns.csv", "my table", "-odd"):
            Path(folder, name).touch()
        start = Path(folder, ".start")
        start.write_text(
            f"PS1='{PROMPT}'; bind 'set enable-bracketed-paste off'; bind 'set bell-style none'; unset HISTFILE\n"
            f". '{ROOT}/packaging/completion.bash'\n" + "".join(f"{it}() {{ printf '<%s>' \"$@\"; echo; }}\n" for it in COMMANDS)
        )
        child, self.terminal = pty.fork()
        if child == 0:
            os.chdir(folder)
            os.environ.update(TERM="dumb", INPUTRC=os.devnull)
            os.execvp("bash", ["bash", "--noprofile", "--rcfile", str(start), "-i"])
        self.addCleanup(os.waitpid, child, 0)
        self.addCleanup(os.close, self.terminal)
        self.shown()

    def shown(self) -> str:
        """What is shown up to the next prompt."""
        text, until = b"", time.monotonic() + LONGEST
        while not text.endswith(PROMPT.encode()):
            if not select.select([self.terminal], [], [], max(0, until - time.monotonic()))[0]:
                raise AssertionError(f"no prompt after {text!r}")
            text += os.read(self.terminal, 4096)
        return text.decode()

    def words(self, keys: str) -> str:
        """The words of the command that these keys make."""
        os.write(self.terminal, f"{keys}\n".encode())
        return self.shown().splitlines()[-2]

    def test_words(self) -> None:
        for keys, words in (
            ("rtfilter --fa\t16 to\t", "<--fanout><16><towns.csv>"),
            ("rtfilter --fanout 3\t to\t", "<--fanout><32><towns.csv>"),
            ("rtfilter --fanout=6\t to\t", "<--fanout=64><towns.csv>"),
            ("rtfilter --max-entries \tto", "<--max-entries><to>"),
            ("rtfilter --m\t9 --hea\tmy\t", "<--max-entries><9><--header><my table>"),
            ("rtfilter -- towns.csv -o\t", "<--><towns.csv><-odd>"),
            ("rtfilter towns.csv m\t", "<towns.csv><my table>"),
            ("rtfilter-serve --con\t9 --fanout 1\t --drain=5 to\t", "<--connections><9><--fanout><16><--drain=5><towns.csv>"),
            ("rtfilter-fence --res\tmy\t --first-line \t3 to\t", "<--resume><my table><--first-line><3><towns.csv>"),
            ("rtfilter-tiles --na\tto\t --reu\t --port=8 to\t", "<--names><towns.csv><--reuse-port><--port=8><towns.csv>"),
            ("rtfilter-serve --unix my\t --patience \tto", "<--unix><my table><--patience><to>"),
        ):
            self.assertEqual(self.words(keys), words, keys)

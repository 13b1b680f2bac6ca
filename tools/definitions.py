#!/usr/bin/env python3
"""Counts the lines of the definitions that a reader of the contracts has to believe.

These are the definitions in `crates/*/specs/*.antt` that contracts of public calls reach: those that a clause names,
those that these name, and so on. A line counts unless it is blank, a comment, an import or a fixity.

- A call is public if `src/lib.rt` of its crate re-exports the function, or its type or trait, or
  if it is exported to C.
  Its contract is its clauses. What a trait asks of a type, what a type says of itself as one, and what it is seen as
  count as well. The view and the invariant of a type don't: they speak of its fields, which no caller sees.
- What the headline reaches, which is one clause of one call, is printed beside what all of them reach.
- What contracts of the library reach, and none of the program's, is counted apart: it concerns the library alone.
- What the library's exports reach, with what of that the program's contracts reach too, is counted beside that.
- What only SAID_AGAIN reaches is printed apart: it follows from what other clauses say, or nobody has to know it.
- Lemmas, in `specs/Lemmas`, are proved: nobody has to believe them. Types that the code declares are read there.

Run from anywhere: `python3 tools/definitions.py`. `--names` prints each definition. `--check` fails if
there are more lines than MOST_LINES, or if docs/internals/design.md names other files or numbers; its last line is `N passed, M failed`.
"""

import argparse
import pathlib
import re
import sys

ROOT = pathlib.Path(__file__).resolve().parent.parent
CRATES = ROOT / "crates"

# The most lines that public contracts may reach, that the headline alone may, that the library may beside the program, and
# that the library's exports may in all.
MOST_LINES = {"contracts": 930, "headline": 700, "library": 348, "exports": 907}

# The columns that docs/internals/design.md has, from the top.
ON_THE_MAP = "headline", "contracts", "exports", "library"

# The headline: its crate, its call and its clause.
HEADLINE = ("rt_filter", "run", "headline")

# The crates of the library, on which the program doesn't stand, that of its exports, and the calls below that are public for
# them alone.
LIBRARY = {"rt_embed", "rt_handle", "rtfilter_c"}
EXPORTS = "rtfilter_c"
LIBRARY_CALLS = {("rt_filter", "answer_batch"), ("rt_filter", "load")}

# That a tree is sound and whole follows from its being the packed tree of its entries, and what a polygon's state says of
# points from the state.
SAID_AGAIN = {
    ("rt_tree", "Packed", "IsSound"),
    ("rt_tree", "Packed", "IsWhole"),
    ("rt_geo", "Polygons", "HoldsEachPoint"),
    ("rt_geo", "Polygons", "SharesNoPoint"),
    ("rt_geo", "Polygons", "SharesPoint"),
}

IMPORT = re.compile(r"^ *(?:ghost )?use Rattle\.(\w+)\.specs\.([A-Z]\w*)(.*?);?$", re.MULTILINE)
GROUP = re.compile(r"^( *(?:ghost )?use Rattle\.\w+\.specs)\.(\{.*\};?)$", re.MULTILINE)
GROUPED = re.compile(r"([\w.]+)\.\{([^{}]*)\}")
HANDED_ON = re.compile(r"^pub use (?:\w+::)+(\w+|\{[^}]*\});", re.MULTILINE)
ITEM = re.compile(r"(?:pub )?(?:(?P<exported>extern \"C\" )?(?P<kind>fn|trait)|impl(?:<.*?>)?(?: (?P<of>\w+)\S* for)?) (?P<name>\w+)")
TRAIT = re.compile(r"^(?:pub\S* )?trait (\w+)", re.MULTILINE)
MEMBER = re.compile(r"(?P<pub>pub )?(?:(?:extern \"C\" )?fn|ghost) (?P<name>\w+)")
CLAUSE = re.compile(r"(?:(?:requires|ensures)\*?(?: (?P<name>\w+))?|ghost (?!view\b|invariant\b)\w+(?::| =)) (?=\{)")
DEFINITION = re.compile(r"(?:(?:abbrev|unfoldable|pub|record) )+(\S+) ")
UNCOUNTED = re.compile(r" *(?:--.*|(?:pub )?use .*|infix.*)?$")
NAME = re.compile(r"(?<![^\s(){},;])[^\s(){}.,;]+")


def words_of(name):
    """The words by which a text may use a name: of an operator its sign, and `do`, which stands for one."""
    return [name.replace("◌", ""), "do"] if "◌" in name else [name]


def ungrouped(line):
    """A line that imports from several modules, as a line for each of them."""
    return "\n".join(f"{line[1]}.{module}.{{{names}}};" for module, names in GROUPED.findall(line[2]))


def imports(text):
    """The definitions that a text imports: by each word the crate, the module and the name."""
    found = {}
    for crate, module, names in IMPORT.findall(GROUP.sub(ungrouped, text)):
        if (CRATES / crate).is_dir() and module != "Lemmas":
            if not re.fullmatch(r"\.\{[^{}]+\}", names):
                raise ValueError(f"names of {crate}/specs/{module}.antt are imported in a way that isn't counted")
            for name in names[2:-1].split(", "):
                found.update((word, (crate, module, name)) for word in words_of(name))
    return found


def braced(text, start):
    """What stands in the braces that open at `start`."""
    depth = 0
    for end in range(start, len(text)):
        depth += {"{": 1, "}": -1}.get(text[end], 0)
        if depth == 0:
            return text[start + 1 : end]
    raise ValueError(f"no brace closes {text[start : start + 80]!r}")


def public_members(text, handed_on, private_traits):
    """The members of the public items of a source: of each its name and its text."""
    for item in re.split(r"^(?=[a-z#])", text, flags=re.MULTILINE):
        head = ITEM.match(item)
        if not head or not head["exported"] and head["name"] not in handed_on or head["of"] in private_traits:
            continue
        members = [item] if head["kind"] == "fn" else re.split(r"^    (?=pub\b|fn |ghost )", item, flags=re.MULTILINE)
        for member in members:
            said = MEMBER.match(member)
            if said and (said["pub"] or head["kind"] == "trait" or head["of"]):
                yield said["name"], member


def clauses(crate):
    """The clauses of a crate's public contracts: the crate, the call, the clause's name, the definitions it names."""
    files = sorted(CRATES.glob(f"{crate}/src/*.rt"))
    sources = [re.sub(r"//.*", "", path.read_text(encoding="utf-8")) for path in files]
    handed_on = {name for text in sources for names in HANDED_ON.findall(text) for name in re.findall(r"\w+", names)}
    private_traits = {name for text in sources for name in TRAIT.findall(text)} - handed_on
    for text in sources:
        known = imports(text)
        for call, member in public_members(text, handed_on, private_traits):
            for clause in CLAUSE.finditer(member):
                words = NAME.findall(braced(member, clause.end()))
                yield crate, call, clause["name"], {known[word] for word in words if word in known}


def definitions(crate, module):
    """The definitions of a module: by name their lines, and the definitions that they name."""
    text = (CRATES / crate / "specs" / f"{module}.antt").read_text(encoding="utf-8")
    lines = {}
    for line in text.splitlines():
        if not UNCOUNTED.match(line):
            start = DEFINITION.match(line)
            if start:
                name = start[1]
            lines.setdefault(name, []).append(line)
    known = imports(text)
    known.update((word, (crate, module, name)) for name in lines for word in words_of(name))
    return {
        name: (len(own), {known[word] for line in own for word in NAME.findall(line) if word in known})
        for name, own in lines.items()
    }


def reached_from(clauses, passed_over=frozenset()):
    """How many lines each definition has that some of the clauses reach, but for what is skipped."""
    modules = {}
    lines = {}
    waiting = {name for clause in clauses for name in clause[-1]} - passed_over
    while waiting:
        crate, module, name = waiting.pop()
        if (crate, module) not in modules:
            modules[crate, module] = definitions(crate, module)
        lines[crate, module, name], named = modules[crate, module][name]
        waiting |= named - lines.keys() - passed_over
    return lines


def section_on_definitions():
    """The section of docs/internals/design.md on the definitions."""
    page = (ROOT / "docs/internals/design.md").read_text(encoding="utf-8")
    return page.split("## The definitions, in reading order")[1].split("\n## ")[0]


def files_on_the_map():
    """The files that docs/internals/design.md names as those of the definitions, as crate and module."""
    rows = re.findall(r"^\| `(\w+)/specs/(.*?) \|", section_on_definitions(), re.MULTILINE)
    return {(crate, module) for crate, files in rows for module in re.findall(r"(\w+)\.antt`", files)}


def lines_on_the_map():
    """The numbers of lines that docs/internals/design.md names."""
    return [int(number) for number in re.findall(r"^\| [^|`]+ \| (\d+)[^|]*\|$", section_on_definitions(), re.MULTILINE)]


def main():
    parser = argparse.ArgumentParser(description=__doc__.splitlines()[0])
    parser.add_argument("--check", action="store_true", help="fail if there are more lines than allowed")
    parser.add_argument("--names", action="store_true", help="print each definition")
    options = parser.parse_args()

    crates = re.findall(r"^(\w+)(?: staticlib)?:", (ROOT / "crates.txt").read_text(encoding="utf-8"), re.MULTILINE)
    every = [clause for crate in crates if not crate.endswith("_tests") for clause in clauses(crate)]
    of_headline = [clause for clause in every if clause[:3] == HEADLINE]
    of_exports = [clause for clause in every if clause[0] == EXPORTS]
    of_program = [clause for clause in every if clause[0] not in LIBRARY and clause[:2] not in LIBRARY_CALLS]
    everything = reached_from(every)
    believed = reached_from(every, SAID_AGAIN)
    counted = {"contracts": reached_from(of_program, SAID_AGAIN), "headline": reached_from(of_headline, SAID_AGAIN)}
    counted["library"] = {name: believed[name] for name in believed.keys() - counted["contracts"].keys()}
    counted["exports"] = reached_from(of_exports, SAID_AGAIN)
    counted["said again"] = {name: everything[name] for name in everything.keys() - believed.keys()}

    if options.names:
        for name in sorted(everything):
            columns = [column for column in counted if name in counted[column]]
            print("/".join(name), everything[name], ", ".join(columns), sep="  ")
    print(f"{'lines':<12}", *(f"{column:>12}" for column in counted))
    for crate in [*crates, "total"]:
        sums = [sum(lines[name] for name in lines if crate in (name[0], "total")) for lines in counted.values()]
        if any(sums):
            print(f"{crate:<12}", *(f"{lines:12}" for lines in sums))

    if options.check:
        passed = [0 < sum(counted[column].values()) <= most for column, most in MOST_LINES.items()]
        passed.append({name[:2] for name in everything} == files_on_the_map())
        passed.append([sum(counted[column].values()) for column in ON_THE_MAP] == lines_on_the_map())
        print(f"{passed.count(True)} passed, {passed.count(False)} failed")
        return not all(passed)
    return 0


if __name__ == "__main__":
    sys.exit(main())

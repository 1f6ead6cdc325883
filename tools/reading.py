#!/usr/bin/env python3
"""Lists the definitions that the clauses of `run` rest on: what has to be read to believe them.

From the definitions that the clauses of `run` cite it follows each name to where it is defined, through the imports of
its file, in `specs/` of each crate. The list is in the order in which a reader comes to them, file by file, with the lines of
each; what stands behind the names of `APART` alone comes in parts of its own. Structs and enums of the sources are named too. std and
the kit's crates are not followed.
Usage: tools/reading.py            writes docs/READING.md
       tools/reading.py --check    says whether docs/READING.md is as it would be written, with status 1 where it is not
"""
import argparse
import glob
import os
import re
import sys

TOP = os.path.dirname(os.path.dirname(os.path.abspath(__file__)))
START = os.path.join("crates", "infer_run", "src", "running.rt")
LIST = os.path.join("docs", "READING.md")
IMPORT = re.compile(r"(?:unfoldable )?(?:pub )?(?:ghost )?use ([^\s;{}]+?)(?:\.\{([^}]*)\})?(?: as ([^\s;]+))?;?$")
WORDS = {"pub", "abbrev", "record", "unfoldable", "data"}
NAME = r"[^\s(){}\[\];,.]+"

# What can be read by itself, and later: a title, what it says, and the definitions that it begins with.
APART = [
    ("What a text stands for", "How the JSON text of facts, and that of a session, is read: what stands behind `raw_facts` and `raw_session` alone.",
     [("Rattle.infer_text.specs.Facts", "raw_facts"), ("Rattle.infer_text.specs.Session", "raw_session")]),
    ("What is lawful", "The laws that facts have to obey: what stands behind `IsLawful` and the tests of laws alone.",
     [("Rattle.hir_facts.specs.Lawful", "IsLawful"), ("Rattle.hir_facts.specs.Lawful", "tests"), ("Rattle.hir_facts.specs.Lawful", "FirstBroken")]),
    ("That goals were selected", "The clause `selected` of `IsPromised`: what stands behind it alone. Without it, what is said of a table by its rules, goals and "
     "complaints is whole.",
     [("Rattle.infer_run.specs.Table", "IsSelectedTable")]),
]

HEAD = """# Reading the theorem

What has to be read to believe the clauses of `run` (`crates/infer_run/src/running.rt`): the definitions that they rest on, each
with its lines, in the order in which a reader comes to them. Made by `tools/reading.py`; do not edit. The laws of std, of the kit's
crates and of the lists and texts of `hir_types` are not listed, and no proof is: what is proved needs no reading.

"""


class Module:
    """A file of definitions: its imports, and its definitions by name, in order."""

    def __init__(self, path):
        self.path = path
        self.names, self.modules, self.definitions = {}, {}, {}
        name = None
        for line in open(os.path.join(TOP, path), encoding="utf-8"):
            line = line.rstrip("\n")
            found = IMPORT.match(line)
            if found:
                self.add_import(*found.groups())
            elif line and not line.startswith((" ", "--", ")", "}", "]")):
                name = self.begin(line, name)
                self.definitions[name].append(line)
            elif name and line.strip() and not line.startswith("--"):
                self.definitions[name].append(line)

    def add_import(self, module, names, alias):
        if names is None:
            self.modules[alias or module.rpartition(".")[2]] = module
        for name in (names or "").split(","):
            own, _, other = name.strip().partition(" as ")
            if own:
                self.names[other or own] = (module, own)

    def begin(self, line, before):
        """The name that a line at the margin defines; a further line of a definition has the same one."""
        words = [word for word in line.split() if word not in WORDS]
        name = words[0] if words else before
        self.definitions.setdefault(name, [])
        return name


def load():
    """Each module of definitions, by its path in imports."""
    modules = {}
    for path in glob.glob(os.path.join(TOP, "crates", "*", "specs", "**", "*.antt"), recursive=True):
        relative = os.path.relpath(path, TOP)
        parts = relative[:-len(".antt")].split(os.sep)[1:]
        modules["Rattle." + ".".join(parts)] = Module(relative)
    return modules


def cited(text, module):
    """The names that a text cites, each with the module that its file says it is from."""
    text = re.sub(r"--.*", "", text)
    for alias, whole in module.modules.items():
        for name in re.findall(r"(?<![\w.])" + re.escape(alias) + r"\.(" + NAME + ")", text):
            yield whole, name
    for word in re.findall(NAME, text):
        if word in module.names:
            yield module.names[word]
        elif word in module.definitions:
            yield None, word


def stands(modules, module):
    """The path of a module where it stands, through the modules that pass it on."""
    parts = module.split(".")
    for count in range(1, len(parts)):
        offered = modules.get(".".join(parts[:count]))
        if offered and parts[count] in offered.modules:
            return stands(modules, ".".join([offered.modules[parts[count]], *parts[count + 1:]]))
    return module


def home(modules, module, name):
    """The module that defines a name, where others may offer it on, and its name there."""
    module, seen = stands(modules, module), set()
    while module in modules and name not in modules[module].definitions and (module, name) not in seen:
        seen.add((module, name))
        module, name = modules[module].names.get(name, ("", name))
        module = stands(modules, module)
    return module, name


def start():
    """What the clauses of `run` cite."""
    clauses = Module.__new__(Module)
    clauses.names, clauses.modules, clauses.definitions = {}, {}, {}
    text = open(os.path.join(TOP, START), encoding="utf-8").read()
    for line in text.split("\n"):
        found = IMPORT.match(line)
        if found and line.startswith("ghost "):
            clauses.add_import(*found.groups())
    begin = text.index("pub fn run")
    return [place for place in cited(text[begin:text.index("\n{", begin)], clauses) if place[0]]


def reach(modules, first, done, apart, types):
    """The definitions that are come to from the first ones, in order, without those that were before and those apart; the types of the
    sources that they name are added."""
    order, waiting = [], first[::-1]
    while waiting:
        module, name = place = home(modules, *waiting.pop())
        if ".specs.declared." in module and module.split(".")[1] in crates():
            kind = ".".join(module.split(".")[1:2] + module.split(".")[4:6])
            if kind not in types:
                types.append(kind)
            continue
        if module not in modules or place in done or place in apart:
            continue
        done.add(place)
        order.append(place)
        own = modules[place[0]]
        lines = "\n".join(own.definitions[place[1]])
        waiting += [(other or place[0], word) for other, word in cited(lines, own)][::-1]
    return order


def crates():
    return {name for name in os.listdir(os.path.join(TOP, "crates"))}


def table(modules, order):
    """How much a part has, and its rows."""
    files, total = {}, 0
    for module, name in order:
        files.setdefault(module, []).append((name, len(modules[module].definitions[name])))
    rows, by_crate = [], {}
    for module, names in files.items():
        lines = sum(count for _, count in names)
        total += lines
        crate = module.split(".")[1]
        by_crate[crate] = by_crate.get(crate, 0) + lines
        listed = ", ".join("`%s`" % name if count == 1 else "`%s` %d" % (name, count) for name, count in names)
        rows.append("| `%s` | %d | %s |" % (modules[module].path, lines, listed))
    parts = ", ".join("%d in `%s`" % (lines, crate) for crate, lines in by_crate.items())
    text = "%d definitions in %d files, %d lines: %s.\n\n" % (len(order), len(files), total, parts)
    return total, text + "| File | Lines | Definitions |\n| --- | --- | --- |\n" + "\n".join(rows) + "\n"


def written(modules):
    """The text of the list."""
    done, types, parts = set(), [], []
    later = {home(modules, *place) for _, _, places in APART for place in places}
    parts.append(("What is said", "What stands behind the clauses of `run`, but for what comes in the next parts.", reach(modules, start(), done, later, types)))
    for title, says, places in APART:
        later -= {home(modules, *place) for place in places}
        parts.append((title, says, reach(modules, places, done, later, types)))
    texts, counts = [], []
    for title, says, order in parts:
        total, rows = table(modules, order)
        counts.append("%d lines in *%s*" % (total, title))
        texts.append("## %s\n\n%s\n%s" % (title, says, rows))
    summary = "A number behind a name is its lines, where it has more than one. All in all: %s.\n\n" % "; ".join(counts)
    named = "\n## Structs and enums of the sources that they name\n\n" + ", ".join("`%s`" % kind for kind in sorted(types)) + "\n"
    return HEAD + summary + "\n".join(texts) + named


def main():
    parser = argparse.ArgumentParser(description=__doc__.split("\n")[0])
    parser.add_argument("--check", action="store_true", help="say whether the list is up to date, and write nothing")
    parser.add_argument("--version", action="version", version="reading 0.1.0")
    asked = parser.parse_args()
    text = written(load())
    path = os.path.join(TOP, LIST)
    if not asked.check:
        with open(path, "w", encoding="utf-8") as file:
            file.write(text)
        return 0
    if os.path.exists(path) and open(path, encoding="utf-8").read() == text:
        return 0
    print("%s is out of date: run tools/reading.py" % LIST, file=sys.stderr)
    return 1


if __name__ == "__main__":
    sys.exit(main())

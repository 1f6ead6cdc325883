#!/usr/bin/env python3
"""Looks whether the facts of the rows in crates/infer_tests/data are those of the Rust beside them, numbers apart.

A row of a file NAME.rows is a block of lines (crates/infer_tests/src/rows.rt says how it is written). Its source, the
lines that begin with |, stands below BASE.rs, where a block `of BASE` says so; rows without a source are passed over.
Facts that two texts number otherwise are taken as the same. Without rustc, or with another than the tools were tried
with, nothing is looked at, and that is said.
Usage: tools/rows.py [--fill] [FILE.rows ..]
  --fill writes the facts into rows with a source that have none yet, by the numbers of BASE.json.
Status 0 where all agree or nothing was looked at, 1 where some do not, 2 where a file cannot be read.
"""
import argparse
import glob
import json
import os
import re
import sys
import tempfile

import program
from facts import NoFacts, facts_of, omission_text
from rustc import why_not_tried

DATA = os.path.join(program.TOP, "crates", "infer_tests", "data")
MARK = r'"\$(\w+)"'

# The lists of facts whose entries are compared, in words.
ITEMS = {"adts": "adt", "fns": "function", "traits": "trait", "aliases": "alias", "impls": "impl"}

# The lists in which types and goals name an entry.
NAMED = {"adt": "adts", "proj": "aliases", "trait": "traits"}


class Unread(Exception):
    """A file of rows or a row cannot be read."""


class Row:
    """A row with a source: the file and line where it begins, its base, and its lines."""

    def __init__(self, path, at, base, lines):
        self.path, self.at, self.base, self.lines = path, at, base, lines
        self.source = "\n".join(line[2:] for line in lines if line.startswith("| "))
        self.has_facts = any(re.match(r"\$|old |facts", line) for line in lines)

    def __str__(self):
        return "%s:%d" % (os.path.basename(self.path), self.at)

    def module(self):
        return "row_%s_%d" % (os.path.basename(self.path).replace(".rows", ""), self.at)

    def facts(self):
        text, old = base_text(self.base), None
        for line in self.lines:
            word, _, rest = line.partition(" ")
            if word == "old":
                old = rest
            elif word == "new":
                text = text.replace(old, rest, 1)
            elif word == "facts":
                text = rest
            elif word.startswith("$"):
                text = text.replace('"%s"' % word, rest, 1)
        try:
            return json.loads(text)
        except ValueError as why:
            raise Unread("%s: its facts are no JSON: %s" % (self, why)) from None


def base_text(base):
    with open(os.path.join(DATA, base + ".json"), encoding="utf-8") as text:
        return text.read().replace("\n", "")


def rows_of(path):
    """The rows of a file that have a source, and those of its headers."""
    rows, base, at = [], None, 1
    with open(path, encoding="utf-8") as text:
        for block in text.read().rstrip("\n").split("\n\n"):
            lines = block.split("\n")
            if lines[0].startswith("of "):
                base = lines[0][3:]
            if any(line.startswith("| ") for line in lines):
                rows.append(Row(path, at, base, lines))
            at += len(lines) + 1
    return rows


class Shape:
    """What facts say, with names in the place of numbers."""

    def __init__(self, facts):
        self.facts = facts

    def ty(self, at):
        ty = self.facts["types"][at]
        if isinstance(ty, str) or ty[0] == "param":
            return ty
        if ty[0] == "tuple":
            return ["tuple", [self.ty(part) for part in ty[1]]]
        return [ty[0], self.name(NAMED[ty[0]], ty[1]), self.arguments(ty[2])]

    def name(self, kind, at):
        """The name of an entry of a list; of an associated type it stands behind that of its trait."""
        entry = self.facts[kind][at]
        return "%s::%s" % (self.name("traits", entry["trait"]), entry["name"]) if kind == "aliases" else entry["name"]

    def arguments(self, arguments):
        return [[word, self.ty(ty)] for word, ty in arguments]

    def adt(self, adt):
        variants = [self.facts["variants"][at] for at in adt["variants"]]
        return [adt["name"], adt["kind"], adt["params"], self.goals(adt["preds"]), adt["repr"], [
            [of["name"], of["ctor"], [[field["name"], self.ty(field["type"]), field["vis"] == "pub"] for field in of["fields"]]]
            for of in variants]]

    def function(self, fn):
        return [fn["name"], fn["params"], self.goals(fn["preds"]), [self.ty(ty) for ty in fn["inputs"]], self.ty(fn["output"]),
                fn["safe"], fn["vis"] == "pub"]

    def trait(self, trait):
        return [trait["name"], trait["params"], self.goals(trait["preds"]),
                [self.name("aliases", at) for at in trait["types"]], trait["auto"]]

    def alias(self, alias):
        return self.goals(alias["bounds"])

    def impl(self, impl):
        trait, arguments = impl["trait"]
        return [self.name("traits", trait), self.arguments(arguments), impl["params"], self.goals(impl["preds"]),
                self.ty(impl["self"]), [[self.name("aliases", at), self.ty(ty)] for at, ty in impl["types"]]]

    def goals(self, goals):
        return [[word, self.name(NAMED[word], at), self.arguments(arguments), [self.ty(ty) for ty in types]]
                for word, at, arguments, *types in goals]

    def items(self, kind, numbers):
        """The items of these numbers in a list: by their names, impls by their places."""
        write = getattr(self, ITEMS[kind])
        return {at if kind == "impls" else self.name(kind, number): write(self.facts[kind][number])
                for at, number in enumerate(numbers)}

    def path(self, path):
        kind, at, written = path
        if kind == "local":
            return ["local", self.binding(at), written]
        return [kind, self.name("fns" if kind == "fn" else "variants", at), written]

    def binding(self, at):
        return [self.numbers.setdefault(at, len(self.numbers)), self.body["bindings"][at]]

    def pat(self, at):
        pat = self.body["pats"][at]
        if pat == "wild":
            return pat
        if pat[0] == "bind":
            return ["bind", self.binding(pat[1]), pat[2]]
        if pat[0] == "tuple":
            return ["tuple", [self.pat(part) for part in pat[1]], pat[2]]
        if pat[0] == "ctor":
            return ["ctor", self.path(pat[1]), [self.pat(part) for part in pat[2]], pat[3]]
        return ["path", self.path(pat[1])] if pat[0] == "path" else ["lit", self.expr(pat[1])]

    def expr(self, at):
        expr = self.body["exprs"][at]
        kind = expr[0]
        if kind == "lit":
            return expr
        if kind == "path":
            return ["path", self.path(expr[1])]
        if kind == "block":
            return ["block", expr[1], [self.statement(*of) for of in expr[2]], self.optional(expr[3])]
        if kind == "match":
            return ["match", self.expr(expr[1]), [[self.pat(pat), self.optional(guard), self.expr(of)] for pat, guard, of in expr[2]]]
        return [kind] + [[self.expr(of) for of in part] if isinstance(part, list) else self.optional(part) for part in expr[1:]]

    def optional(self, at):
        return None if at is None else self.expr(at)

    def statement(self, kind, *parts):
        if kind == "expr":
            return ["expr", self.expr(parts[0]), parts[1]]
        pat, ty, initializer, otherwise = parts
        return ["let", None if ty is None else self.ty(ty), self.optional(initializer), self.pat(pat), otherwise]

    def body_of(self, fn):
        self.body, self.numbers = self.facts["bodies"][fn["body"]], {}
        params = [self.pat(at) for at in self.body["params"]]
        return [params, self.expr(self.body["root"])]


class Fill:
    """The lines of facts for a row, by the numbers of its base."""

    def __init__(self, row, made):
        self.row, self.made, self.text = row, made, base_text(row.base)
        self.facts, self.shape = made.facts, Shape(made.facts)
        self.base = json.loads(re.sub(r'"\$signature"', '"inputs":[],"output":0', self.text))
        self.types = [Shape(self.base).ty(at) for at, ty in enumerate(self.base["types"]) if ty != "$types"]
        self.named, self.added = len(self.types), []

    def ty(self, at):
        """A type's number in the base, to which it is added where it is not there; each `_` is."""
        ty = self.facts["types"][at]
        shape = self.shape.ty(at)
        if shape in self.types and "_" not in json.dumps(shape):
            return self.types.index(shape)
        if '"$types"' not in self.text:
            raise Unread("%s: %s.json has no type %s" % (self.row, self.row.base, json.dumps(shape)))
        if ty[0] == "tuple":
            ty = ["tuple", [self.ty(part) for part in ty[1]]]
        elif ty[0] in NAMED:
            ty = [ty[0], self.number(NAMED[ty[0]], ty[1]), self.arguments(ty[2])]
        self.types.append(shape)
        self.added.append(ty)
        return len(self.types) - 1

    def number(self, items, at):
        base = Shape(self.base)
        return [base.name(items, of) for of in range(len(self.base[items]))].index(self.shape.name(items, at))

    def path(self, path):
        items = {"fn": "fns", "ctor": "variants", "variant": "variants"}.get(path[0])
        return path if items is None else [path[0], self.number(items, path[1]), path[2]]

    def node(self, node):
        if isinstance(node, list) and node[0] == "path":
            return ["path", self.path(node[1])]
        if isinstance(node, list) and node[0] == "ctor":
            return [node[0], self.path(node[1])] + node[2:]
        if isinstance(node, list) and node[0] == "block":
            return node[:2] + [[of if of[0] != "let" or of[2] is None else of[:2] + [self.ty(of[2])] + of[3:] for of in node[2]], node[3]]
        return node

    def goal(self, goal):
        word, at, arguments, *types = goal
        return [word, self.number(NAMED[word], at), self.arguments(arguments), *map(self.ty, types)]

    def arguments(self, arguments):
        return [[word, self.ty(ty)] for word, ty in arguments]

    def impl(self, impl):
        trait, arguments = impl["trait"]
        return dict(impl, trait=[self.number("traits", trait), self.arguments(arguments)],
                    preds=[self.goal(of) for of in impl["preds"]], self=self.ty(impl["self"]),
                    types=[[self.number("aliases", at), self.ty(ty)] for at, ty in impl["types"]])

    def lines(self):
        fn = self.facts["fns"][self.made.number(self.row)]
        body = self.facts["bodies"][fn["body"]]
        keys = ["root", "exprs", "pats", "bindings"]
        if '"root":"$body"' not in self.text:
            keys.insert(0, "params")
        made = dict(body, exprs=[self.node(of) for of in body["exprs"]], pats=[self.node(of) for of in body["pats"]])
        signature = {"params": fn["params"], "preds": [self.goal(of) for of in fn["preds"]],
                     "inputs": [self.ty(ty) for ty in fn["inputs"]], "output": self.ty(fn["output"])}
        written = self.text.partition('"$signature"')[0].rpartition('{"name":')[2]
        impls = [self.impl(self.facts["impls"][number]) for number in self.made.seen_from(self.row)["impls"]]
        fills = {"body": members({key: made[key] for key in keys}).partition(":")[2], "output": str(signature["output"]),
                 "signature": members({key: of for key, of in signature.items() if '"%s"' % key not in written}),
                 "impls": compact(impls), "types": compact(self.added)[1:-1]}
        return ["$%s %s" % (mark, fills[mark]) for mark in re.findall(MARK, self.text)]


def compact(value):
    return json.dumps(value, separators=(",", ":"))


def members(value):
    return compact(value)[1:-1]


class Made:
    """The facts that are made of a base's source with those of its rows, each row in a module of its own."""

    def __init__(self, base, rows):
        prelude = os.path.join(DATA, base + ".rs")
        lines = ["#![allow(warnings)]"]
        if os.path.exists(prelude):
            with open(prelude, encoding="utf-8") as text:
                lines.append(text.read())
        for row in rows:
            lines += ["pub mod %s {" % row.module(), "pub use super::*;", row.source, "}"]
        with tempfile.TemporaryDirectory() as folder:
            path = os.path.join(folder, base + ".rs")
            with open(path, "w", encoding="utf-8") as out:
                out.write("\n".join(lines) + "\n")
            crate = facts_of(path, 2021)
            self.omissions = [omission_text(of, path) for of in crate.omissions()]
        self.facts = json.loads(crate.text)
        self.numbers = {of.name: of.number for of in crate.shown if of.writer is not None}
        self.lists = {"adts": crate.lists.adts, "fns": crate.lists.functions, "traits": crate.lists.traits,
                      "aliases": crate.lists.associated_types, "impls": crate.lists.impls}

    def number(self, row):
        """The number of a row's function, or None where its body is left out."""
        return self.numbers.get(row.module() + "::f")

    def seen_from(self, row):
        """The numbers of the items that are no other row's, list by list."""
        return {kind: [number for item, number in items.items()
                       if not item.path.startswith("row_") or item.path.startswith(row.module() + "::")]
                for kind, items in self.lists.items()}


def differences(facts, made, row):
    """What of a row's facts is not that of its source."""
    number = made.number(row)
    if number is None:
        yield "facts.py writes no body of it"
        return
    ours, theirs = Shape(facts), Shape(made.facts)
    try:
        if ours.body_of(facts["fns"][0]) != theirs.body_of(made.facts["fns"][number]):
            yield "the facts have another body"
        for kind, seen in made.seen_from(row).items():
            mine, others = ours.items(kind, range(len(facts[kind]))), theirs.items(kind, seen)
            if kind == "impls" and len(mine) != len(others):
                yield "the facts have %d impls, and its source has %d" % (len(mine), len(others))
            for name in mine:
                if mine[name] != others.get(name):
                    yield "the facts have another %s `%s`" % (ITEMS[kind], name)
    except (IndexError, KeyError, RecursionError, TypeError, ValueError) as shape:
        yield "the facts have another shape: %s: %s" % (type(shape).__name__, shape)


def write_fills(path, fills):
    with open(path, encoding="utf-8") as text:
        lines = text.read().split("\n")
    for row in sorted(fills, key=lambda row: -row.at):
        at = row.at - 1 + max(at for at, line in enumerate(row.lines) if line.startswith("| ")) + 1
        lines[at:at] = fills[row]
    with open(path, "w", encoding="utf-8") as out:
        out.write("\n".join(lines))


def main():
    parser = argparse.ArgumentParser(description=__doc__, formatter_class=argparse.RawDescriptionHelpFormatter)
    parser.add_argument("--fill", action="store_true", help="write the facts into rows with a source that have none")
    parser.add_argument("files", metavar="FILE.rows", nargs="*")
    given = parser.parse_args()
    why = why_not_tried()
    if why is not None:
        print("rows: nothing is looked at: %s" % why)
        return 0
    paths = given.files or sorted(glob.glob(os.path.join(DATA, "*.rows")))
    rows = [row for path in paths for row in rows_of(path)]
    wrong, fills = 0, {}
    for base in sorted({row.base for row in rows}):
        of_base = [row for row in rows if row.base == base]
        made = Made(base, of_base)
        for row in of_base:
            if row.has_facts:
                found = list(differences(row.facts(), made, row))
            elif given.fill and made.number(row) is not None:
                found, fills[row] = [], Fill(row, made).lines()
            else:
                found = ["it has no facts"]
            wrong += bool(found)
            for what in found:
                print("%s: %s" % (row, what))
        if any(made.number(row) is None for row in of_base):
            print("\n".join(made.omissions))
    for path in {row.path for row in fills}:
        write_fills(path, {row: fills[row] for row in fills if row.path == path})
    if not rows:
        raise Unread("there are no rows")
    print("%d rows with a source, %d wrong%s" % (len(rows), wrong, ", %d filled" % len(fills) if given.fill else ""))
    return 1 if wrong else 0


if __name__ == "__main__":
    try:
        sys.exit(main())
    except (NoFacts, Unread, OSError) as why:
        sys.exit("rows: %s" % why)

#!/usr/bin/env python3
"""Counts the expressions in Rust texts that get a type, and compares with rustc.

The texts are the Rust files in these folders, and the examples in pages of documentation, as those that come with rustc:
tools/coverage.py $(rustc --print sysroot)/share/doc/rust/html/reference. Counted are expressions as they stand in the source, not
what macros write. A type is known where no part of it is open; `{integer}` is one that nothing said. Where rustc accepts a
text, there should be no complaint, and our types should be among those that it has at the same place; types of functions, closures
and traits are written in other ways there, and are not compared.
An interrupt ends it with what is counted so far.
Status 0 where there is no difference, 1 where there is one, 2 where nothing can be compared.
"""
import argparse
import collections
import os
import re
import sys
import tempfile
from concurrent.futures import ThreadPoolExecutor

from crate_items import body_of
from doc_examples import examples_in
from facts import NoFacts, add_file_options, facts_of
from hir_tree import Node, is_expression, name_of, span_of
from program import NoReport, Program, add_program_options
from rustc import NoRustc, rustc, thir_types
from type_view import UNKNOWN, views_of

INTEGER = "{integer}"
INTEGERS = re.compile(r"[iu](?:8|16|32|64|128|size)")
OTHERS = re.compile(r"FnDef|Closure|Binder|Alias|Coroutine|dyn |extern|unsafe|\bfn |\{(?!integer)|impl ")
SUFFIXES = re.compile(r"/#\d+|(?<=\d)_%s\b" % INTEGERS.pattern)
DEFAULTS = re.compile(r", (?:(?:Global|RandomState)\b|\(\)(?=>))")


def expressions_in(part, bodies):
    """The Spans of the expressions that stand in the source, in a part of the tree and in the closures and consts within."""
    if isinstance(part, list):
        for inner in part:
            yield from expressions_in(inner, bodies)
    elif isinstance(part, Node) and part.name not in ("Ty", "ConstArg"):
        if is_expression(part) and name_of(part["kind"]) != "DropTemps":
            span = span_of(part["span"])
            if span is not None and not span.context:
                yield span
            if name_of(part["kind"]) in ("Closure", "ConstBlock"):
                yield from expressions_in(body_of(bodies, part["kind"][0]["body"])["value"], bodies)
        for inner in part.fields.values():
            yield from expressions_in(inner, bodies)


def in_words(ty):
    """A type of rustc's as it stands in the source."""
    ty = re.sub(r"'\{?\w+\}?(?:, | )?", "", ty)
    return re.sub(r"(?:\w+::)+(\w+)", r"\1", SUFFIXES.sub("", ty)).replace("<>", "")


def is_among(ty, theirs):
    """Whether a type is among these, where `{integer}` is each integer type, and arguments that may be left away are."""
    pattern = re.escape(DEFAULTS.sub("", ty)).replace(re.escape(INTEGER), INTEGERS.pattern)
    return any(re.fullmatch(pattern, DEFAULTS.sub("", other)) for other in theirs)


class Count:
    """What is counted of texts; `told` are the differences."""

    def __init__(self):
        self.of, self.told = collections.Counter(), []

    def add(self, other):
        self.of += other.of
        self.told += other.told

    def views(self, name, views, theirs):
        """Counts the functions of a text, beside rustc's types by their places, which are None where it refuses it."""
        for view in views:
            function = view.shown.function
            how = "whole" if view.shown.is_whole else "part" if view.shown.writer else "none"
            self.of["functions", how] += 1
            if how == "none":
                self.told += ["%s:%d: not typed: %s" % (name, function.span.line, of.kind) for of in view.shown.omissions[:1]]
            self.of["expressions", how] += sum(1 for _ in expressions_in(function.body["value"], function.bodies))
            for node in view.nodes:
                if node.kind == "expr" and UNKNOWN not in node.type:
                    self.of["known", how] += 1
                    self.of["integer", how] += INTEGER in node.type
                    self.compare(name, how, node, None if theirs is None else theirs.get(node.span[1:5]))
            if theirs is not None:
                self.of["complaints", how] += len(view.complaints)
                self.told += ["%s:%d:%d: %s: %s" % (name, *of.span[1:3], of.name, of.text) for of in view.complaints]

    def compare(self, name, how, node, theirs):
        if theirs and not OTHERS.search(node.type) and not all(OTHERS.search(ty) for ty in theirs):
            self.of["compared", how] += 1
            if not is_among(node.type, theirs):
                self.of["different", how] += 1
                self.told.append("%s:%d:%d: rustc %s; we %s" % (name, *node.span[1:3], " and ".join(sorted(theirs)), node.type))

    def share(self, word, *ways):
        """A count, in functions that are typed in these ways or in any."""
        return sum(self.of[word, how] for how in ways or ("whole", "part", "none"))

    def __str__(self):
        expressions, known = self.share("expressions"), self.share("known")
        return "; ".join([
            "%d texts, %d without a tree" % (self.of["texts"], self.of["no tree"]),
            "%d functions: %d whole, %d in part, %d not typed" % (
                self.share("functions"), *(self.share("functions", how) for how in ("whole", "part", "none"))),
            "of %d expressions %d have a known type (%.1f %%): %d in whole functions, %d in part (%d with `{integer}`)" % (
                expressions, known, 100 * known / max(expressions, 1), self.share("known", "whole"), self.share("known", "part"),
                self.share("integer")),
            "texts that rustc accepts: %d, complaints there: %d" % (self.of["accepted"], self.share("complaints")),
            "types compared: %d, different: %d" % (self.share("compared"), self.share("different"))])


def count_of(example, program, strict):
    """The Count of a text."""
    count = Count()
    count.of["texts"] += 1
    with tempfile.TemporaryDirectory() as folder:
        path = os.path.join(folder, "example.rs")
        with open(path, "w", encoding="utf-8") as out:
            out.write(example.text)
        try:
            crate = facts_of(path, example.edition, not strict)
        except NoFacts:
            count.of["no tree"] += 1
            return count
        theirs = types_of(path, example.edition)
        count.of["accepted"] += theirs is not None
        count.views(example.name, views_of(crate, program, None, [path]), theirs)
    return count


def types_of(path, edition):
    """rustc's types by their places, in the words of the source, or None where it refuses a file."""
    done = rustc(path, "-Zunpretty=thir-tree", edition=edition)
    if done.returncode:
        return None
    types = collections.defaultdict(set)
    for span, ty in thir_types(done.stdout):
        types[span[1:5]].add(in_words(ty))
    return types


def count_all(examples, program, strict, count):
    """Counts texts; where somebody looks on, how many are done is said."""
    with ThreadPoolExecutor(2) as pool:
        try:
            for one in pool.map(lambda of: count_of(of, program, strict), examples):
                count.add(one)
                if sys.stderr.isatty():
                    print("%d texts" % count.of["texts"], end="\r", file=sys.stderr)
        except KeyboardInterrupt:
            pool.shutdown(cancel_futures=True)
            raise


def main():
    parser = argparse.ArgumentParser(description=__doc__, formatter_class=argparse.RawDescriptionHelpFormatter)
    parser.add_argument("paths", nargs="+", metavar="FOLDER | FILE")
    parser.add_argument("--strict", action="store_true", help="type no function in part")
    add_program_options(parser)
    add_file_options(parser)
    given = parser.parse_args()
    count = Count()
    try:
        program = Program(given.program, given.unproved)
        count_all(examples_in(given.paths, given.edition), program, given.strict, count)
    except KeyboardInterrupt:
        print("coverage.py: interrupted", file=sys.stderr)
    except (NoReport, NoRustc, OSError) as why:
        print("coverage.py: %s" % why, file=sys.stderr)
        sys.exit(2)
    print("\n".join([*count.told, str(count)]))
    sys.exit(1 if count.told else 0)


if __name__ == "__main__":
    main()

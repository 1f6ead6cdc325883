#!/usr/bin/env python3
"""Writes the facts text of the crate in a Rust file, with its names as rustc resolves them.

What has no facts yet is named on standard error with its place, and the function that it stands in has no body in the
text; with --in-part it has one, in which something else stands in its place (`part_bodies.py`), and with --strict nothing
is written then. Items of the core library come from `tools/core.rs`; those of other crates are left out. Needs rustc;
tried with 1.95.
Status 0 where the text is written, 1 where --strict refuses it, 2 where there is no such text.
"""
import argparse
import collections
import functools
import json
import os
import re
import sys

from body_facts import BodyWriter
from crate_head import head_of, integer_repr
from crate_items import IMPLIED, Bound, Items, Lists, Writer, trait_of
from every_facts import EveryFacts
from every_index import Index
from hir_tree import OWN, OtherShape, identifier, name_of, owners_in, span_of
from part_facts import PartFacts
from rustc import TRIED, NoRustc, rustc, version
from sources import Sources

EDITIONS = [2015, 2018, 2021, 2024]
FOLDER = os.path.dirname(os.path.abspath(__file__))
CORE = os.path.join(FOLDER, "core.rs")
LIBRARY = os.path.join(FOLDER, "library.rs")
OF_LIBRARY = re.compile(r"~ library(\[\w*\])::(core|alloc|std)(?=::|\))")
LANG = r'\blang\s*=\s*"(sized|copy|clone)"'

# A function with a body in the source: its path in the crate (see `name_of`), its Function, its number among the facts' functions or
# None, the BodyWriter of its facts' body or None, what of it is left out, and whether that is nothing. Of one in part the
# number is that among the functions of the PartFacts.
Shown = collections.namedtuple("Shown", "name function number writer omissions is_whole")


# A tree that rustc made, as text: the path of its crate's file, the edition, its Sources, and the errors that rustc found.
Tree = collections.namedtuple("Tree", "text path edition sources errors")

# Standard input as it is given, and the file in rustc's places that it is.
STANDARD_INPUT, ANONYMOUS = "-", "<anon>"


class NoFacts(Exception):
    """There are no facts of a file."""


class CrateFacts:
    """The facts of the crate of a Tree (`text`), its functions with bodies (`shown`), and what is left out of it."""

    def __init__(self, tree):
        self.sources, self.path, self.edition, self.errors = tree.sources, tree.path, tree.edition, tree.errors
        self.items = Items(self.sources)
        self.items.read(owners_in(tree.text))
        self.items.read(core_owners())
        self.bodies, self.body_numbers = [], {}
        self.refused = {}  # the items that can't be written, each with what of it is left out
        self.refuse_types_and_traits()
        self.refuse_functions()
        self.lists = Lists(self.items, self.refused)
        for items, number in ((self.items.modules, self.lists.module), (self.items.adts, self.lists.adt),
                              (self.items.functions, self.lists.function), (self.items.traits, self.lists.trait),
                              (self.items.impls, self.lists.impl)):
            for item in items:
                if item.crate == OWN and item not in self.refused:
                    number(item)
        self.shown = [self.show(of) for of in self.items.functions.values() if self.is_shown(of)]
        self.shown.sort(key=lambda of: of.function.span)
        self.facts = self.all_facts()
        self.text = text_of(self.facts)
        self.part = None

    def write_in_part(self):
        """Writes the functions too of which something is left out, each in part."""
        self.part = PartFacts(self)
        self.shown = [of if of.is_whole else self.part.shown(of) for of in self.shown]

    def refuse_types_and_traits(self):
        """Finds the adts, traits and impls that can't be written, until none of the others names one that can't."""
        found = True
        while found:
            found = False
            for items, write in ((self.items.adts, self.adt), (self.items.traits, self.trait), (self.items.impls, self.impl)):
                for item, of in items.items():
                    writer = self.item_writer(of, Lists(self.items, self.refused))
                    write(of, writer)
                    if writer.omissions and item not in self.refused:
                        found = True
                        self.refused[item] = writer.omissions

    def item_writer(self, of, lists):
        """A writer of an adt, a trait or an impl."""
        writer = Writer(lists, of.generics, 1 if of.id in self.items.traits else 0)
        writer.place = of.span
        return writer

    def refuse_functions(self):
        """Finds the functions whose signatures can't be written."""
        for item, function in self.items.functions.items():
            writer = self.writer(function, Lists(self.items, self.refused))
            self.function(function, writer)
            if writer.omissions:
                self.refused[item] = writer.omissions

    def writer(self, function, lists):
        writer = BodyWriter(lists, function.generics, function.id.path)
        writer.place = function.span
        return writer

    def is_shown(self, function):
        """Whether a function has a body that stands in the source, or in that of an own macro by its own name."""
        span = function.span
        return function.body is not None and (not span.context or function.within == "module" and span.file in self.items.files)

    def show(self, function):
        """Writes a function's body, if nothing of the function is left out."""
        trial = self.writer(function, Lists(self.items, self.refused))
        trial.omissions += self.refused.get(function.id, [])
        if function.within == "module":
            trial.body(function, 0)
        if trial.omissions:
            return Shown(self.name_of(function), function, self.lists.functions.get(function.id), None, trial.omissions, False)
        writer = self.writer(function, self.lists)
        self.body_numbers[function.id] = len(self.bodies)
        self.bodies.append(writer.body(function, self.lists.module(function.module)))
        return Shown(self.name_of(function), function, self.lists.function(function.id), writer, [], True)

    def name_of(self, function):
        """The path of a function in the crate; in that of a function of an impl the name of the type that this is for."""
        path, _, name = function.id.path.rpartition("::")
        outer = next((of for item, of in self.items.impls.items() if item[:2] == (function.id.crate, path)), None)
        if function.within != "impl" or outer is None:
            return function.id.path
        ty = re.match(r"&?(?:mut )?[\w:]*", self.sources.text(span_of(outer.ty["span"]))).group()
        return "::".join(of for of in (path.rpartition("::")[0], ty, name) if of)

    def omissions(self):
        """All that is left out of the file's crate, by its place."""
        omissions = set(self.items.others)
        for item, of in self.refused.items():
            if item.crate == OWN and (item not in self.items.functions or self.items.functions[item].body is None):
                omissions.update(of)
        for of in self.shown:
            omissions.update(of.omissions)
        return sorted(omissions, key=lambda of: (of.span or (), of.kind))

    def head(self):
        """The facts that are of no item, and those of kinds that are not carried."""
        return {**head_of(self.sources, self.path, self.edition), "consts": [], "statics": [], "opaques": []}

    def all_facts(self):
        functions = [self.function(self.items.functions[item], self.writer(self.items.functions[item], self.lists))
                     for item in self.lists.functions]
        traits = [self.trait(of, self.item_writer(of, self.lists)) for of in map(self.items.traits.get, self.lists.traits)]
        aliases = [alias for _, of_trait in traits for alias in of_trait]
        impls = [self.impl(of, self.item_writer(of, self.lists)) for of in map(self.items.impls.get, self.lists.impls)]
        adts, variants = [], []
        while len(adts) < len(self.lists.adts):  # an adt of the core library gets its number as it is named
            adt = self.items.adts[list(self.lists.adts)[len(adts)]]
            fact, of_adt = self.adt(adt, self.item_writer(adt, self.lists))
            adts.append(fact)
            variants += of_adt
        return {
            **self.head(), "types": self.lists.types, "modules": [self.parent(module) for module in self.lists.modules],
            "adts": adts, "variants": variants, "fns": functions, "traits": [fact for fact, _ in traits], "aliases": aliases,
            "impls": impls, "lang": self.lang(self.lists), "bodies": self.bodies}

    def parent(self, module):
        parent = self.items.modules[module]
        return None if parent is None else self.lists.module(parent)

    def adt(self, adt, writer):
        """The facts of an adt, and of its variants."""
        params, preds = writer.generics(adt.generics)
        for span in adt.discriminants:
            writer.leave_out("discriminant of a variant", span)
        vis = self.visibility(adt.vis, adt.module, writer.lists)
        variants = []
        for name, data, span in adt.variants:
            if name_of(data) == "Struct":
                writer.leave_out("named fields", span)
                continue
            fields = [] if data.name == "Unit" else [
                {"name": identifier(field["ident"]), "type": writer.type(field["ty"])[0],
                 "vis": vis if adt.kind == "enum" else self.visibility(span_of(field["vis_span"]), adt.module, writer.lists)}
                for field in data[0]]
            variants.append({"adt": writer.lists.adt(adt.id), "name": name, "ctor": data.name.lower(), "fields": fields,
                             "body": None})
        fact = {"name": adt.name, "kind": adt.kind, "params": params, "preds": preds,
                "variants": [writer.lists.variants[adt.id, at] for at in range(len(variants))],
                "repr": self.repr(adt), "unsize": None}
        return fact, variants

    def trait(self, trait, writer):
        """The facts of a trait without functions and consts, and of its associated types."""
        number, own = writer.lists.trait(trait.id), writer.lists.type(["param", 0])
        types = (own, *map(writer.parameter, writer.scope.parameters))
        writer.scope.own_type, writer.scope.own_bound = own, Bound(trait.id, types)
        projections = {writer.lists.projection(of.id, types): of for of in trait.types.values()}
        writer.implying = (own, *projections)
        writer.members("trait", trait)
        if trait.is_auto:
            writer.leave_out("`auto` trait", trait.span)
        if any(impl in self.refused for impl in self.items.impls_of[trait.id]):
            writer.leave_out("trait of which an impl is left out", trait.span)
        supertraits = writer.goals(own, trait.bounds)
        params, stated = writer.generics(trait.generics)
        preds, bounds = [], {ty: writer.associated_type(ty, of) for ty, of in projections.items()}
        for goal in supertraits + stated:  # one on an associated type is the same as a bound that stands at it
            bounds.get(goal[2][0][1], preds).append(goal)
        if not writer.omissions and any(writer.lists.hangs_on(goal[2][0][1], projections) for goal in preds):
            writer.leave_out(IMPLIED, trait.span)
        aliases = [{"name": of.name, "trait": number, "bounds": bounds[ty]} for ty, of in projections.items()]
        return {"name": trait.name, "params": params, "preds": preds, "fns": [], "consts": [],
                "types": [writer.lists.associated_types[of.id] for of in projections.values()], "auto": False}, aliases

    def impl(self, impl, writer):
        """The facts of an impl of a trait without functions and consts."""
        if impl.header is None:
            writer.leave_out("impl without a trait", impl.span)
            return None
        if impl.header["defaultness"] != "Final":
            writer.leave_out("`default` impl", impl.span)
        if "negative" in impl.header["polarity"]:
            writer.leave_out("negative impl", impl.span)
        writer.scope.own_type = own = writer.type(impl.ty)[0]
        trait, arguments = writer.trait(impl.header["trait_ref"], "impl of trait")
        if not writer.omissions:
            writer.members("impl", impl)
            writer.scope.own_bound = Bound(trait_of(impl.header), (own, *(number for _, number in arguments)))
        params, preds = writer.generics(impl.generics)
        types = [] if writer.omissions else [writer.given_type(of) for of in impl.types]
        return {"trait": [trait, arguments], "params": params, "preds": preds, "self": own, "fns": [], "consts": [],
                "types": types}

    def lang(self, lists):
        """The traits that the language knows, by their numbers in these lists."""
        found = {}
        for item, number in lists.traits.items():
            for attribute in self.sources.attributes_before(self.items.traits[item].span):
                found.update((name, number) for name in re.findall(LANG, attribute))
        return found

    def function(self, function, writer):
        """The facts of a function without `self`. Associated types may stand anywhere in what it takes and gives."""
        header, declared = function.signature["header"], function.signature["decl"]
        if function.within != "module":
            writer.leave_out("function of %s" % ("an impl" if function.within == "impl" else "a trait"), function.span)
            return None
        if header["asyncness"] != "NotAsync":
            writer.leave_out("async function", function.span)
        if is_variadic(declared):
            writer.leave_out("function of any number of arguments", function.span)
        params, preds = writer.generics(function.generics)
        inputs = [writer.type(ty)[0] for ty in declared["inputs"]]
        output = declared["output"]
        output = writer.type(output[0])[0] if output.name == "Return" else writer.lists.type(["tuple", []])
        return {"name": function.name, "at": ["module", writer.lists.module(function.module)], "params": params,
                "preds": preds, "has_self": False, "inputs": inputs, "output": output,
                "safe": name_of(header["safety"]) != "Normal" or header["safety"][0] != "Unsafe",
                "vis": self.visibility(function.vis, function.module, writer.lists),
                "body": self.body_numbers.get(function.id)}

    def visibility(self, span, module, lists):
        """What `pub` in an item's source says: "pub", or the module in which and in whose descendants it is visible."""
        text = "" if span is None else self.sources.text(span)
        if text == "pub":
            return "pub"
        found = re.fullmatch(r"pub\s*\(\s*(?:in\s+)?([\w:\s]+?)\s*\)", text)
        for word in re.split(r"\s*::\s*", found.group(1)) if found else ():
            if word == "crate":
                module = self.items.paths[module.crate, ""]
            elif word == "super":
                module = self.items.modules[module] or module
            elif word != "self":
                module = self.items.paths.get((module.crate, (module.path + "::" + word).lstrip(":")), module)
        return lists.module(module)

    def repr(self, adt):
        """The integer type that an enum is said to be represented by."""
        return integer_repr(self.sources, adt.span) if adt.kind == "enum" else None


def text_of(facts):
    return json.dumps(facts, separators=(",", ":"))


def is_variadic(declared):
    """Whether a function takes any number of arguments, as trees of rustc 1.95 say it or those of later ones."""
    if "c_variadic" in declared.fields:
        return declared["c_variadic"]
    return '"CVariadic"' in declared["fn_decl_kind"].fields.values()


def tree_of(path, edition, crate=OWN):
    """The Tree of the crate in a file; - is standard input."""
    sources, text = Sources(), None
    if path == STANDARD_INPUT:
        text = sys.stdin.read()
        sources.read[ANONYMOUS] = text.split("\n")
    done = rustc(path, "-Zunpretty=hir-tree", crate=crate, edition=edition, text=text)
    if not done.stdout.strip():
        raise NoFacts("rustc makes no tree of %s:\n%s" % (path, done.stderr.strip()))
    return Tree(done.stdout, ANONYMOUS if path == STANDARD_INPUT else path, edition, sources, done.stderr.strip())


@functools.cache
def core_owners():
    """The items of the core library."""
    return owners_in(tree_of(CORE, 2021, "core").text)


@functools.cache
def library():
    """The Index of the standard library's crates."""
    index = Index()
    text = tree_of(LIBRARY, 2021, "library").text
    index.read(owners_in(OF_LIBRARY.sub(lambda found: "~ " + found.group(2) + found.group(1), text)))
    return index


def facts_of(path, edition, in_part=False, every_kind=False):
    """The CrateFacts of a file, or its EveryFacts."""
    try:
        return facts_of_tree(tree_of(path, edition), in_part, every_kind)
    except (NoRustc, UnicodeDecodeError) as why:
        raise NoFacts(why) from None


def facts_of_tree(tree, in_part, every_kind=False):
    """The CrateFacts of a Tree, or its EveryFacts."""
    try:
        if every_kind:
            return EveryFacts(tree, library(), in_part)
        crate = CrateFacts(tree)
        if in_part:
            crate.write_in_part()
        return crate
    except RecursionError:
        raise NoFacts("what stands in %s nests too deep" % tree.path) from None
    except (OtherShape, AttributeError, IndexError, KeyError, TypeError) as shape:
        raise NoFacts("the tree that %s makes of %s has another shape than that of rustc %s, with which this was tried: %s: %s"
                      % (version(), tree.path, TRIED, type(shape).__name__, shape)) from shape


def place_text(span, path):
    """A place as editors read it."""
    return "%s:%d:%d" % (span.file, span.line, span.column) if span is not None else path


def omission_text(omission, path):
    within = " (in `%s`)" % omission.function if omission.function else ""
    return "%s: left out: %s%s" % (place_text(omission.span, path), omission.kind, within)


def put_out(text):
    """Writes lines to standard output; where nobody reads on, that is the end."""
    try:
        print(text, flush=True)
    except BrokenPipeError:
        os.dup2(os.open(os.devnull, os.O_WRONLY), sys.stdout.fileno())
        sys.exit(2)


def add_file_options(parser):
    """The options that say how a file is read."""
    parser.add_argument("--edition", type=int, choices=EDITIONS, default=2021, help="of the language; 2021 where not given")
    parser.add_argument("--version", action="version", version="%%(prog)s, of facts of profile 1; tried with rustc %s" % TRIED)


def main():
    parser = argparse.ArgumentParser(description=__doc__, formatter_class=argparse.RawDescriptionHelpFormatter)
    parser.add_argument("file", metavar="FILE.rs")
    how = parser.add_mutually_exclusive_group()
    how.add_argument("--strict", action="store_true", help="write nothing where something is left out")
    how.add_argument("--in-part", action="store_true", help="write all functions, each without what is left out of it")
    parser.add_argument("--every-kind", action="store_true",
                        help="write items and bodies of every kind; what is left out then is no kind of the format")
    add_file_options(parser)
    given = parser.parse_args()
    try:
        crate = facts_of(given.file, given.edition, given.in_part, given.every_kind)
    except NoFacts as why:
        print("facts.py: %s" % why, file=sys.stderr)
        sys.exit(2)
    for omission in crate.omissions():
        print(omission_text(omission, given.file), file=sys.stderr)
    if given.strict and crate.omissions():
        sys.exit(1)
    put_out(text_of(crate.part.facts if given.in_part and not given.every_kind else crate.facts))


if __name__ == "__main__":
    main()

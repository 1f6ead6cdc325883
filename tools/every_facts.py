"""The facts of a crate, of items and bodies of every kind."""
import collections

from crate_head import head_of
from crate_items import Omission, body_of, named_by
from every_bodies import EveryBodyWriter, takes_self
from every_index import Index
from every_items import ItemFacts, lang_items_of
from every_lists import EveryLists
from every_scopes import Scopes
from every_values import const_body
from hir_tree import OWN, name_of, owners_in

# What every body may need.
ALWAYS = ("sized", "copy", "clone")

OTHER_ITEMS = {"GlobalAsm": "global assembly", "TraitAlias": "trait alias"}

# A function with a body in the source, as `facts.Shown` has it.
EveryShown = collections.namedtuple("EveryShown", "name function number writer omissions is_whole")


class EveryFacts(ItemFacts):
    """The facts of the crate of a Tree (`facts`), its functions with bodies (`shown`), and what is left out of them.

    A body of which something is left out is not in the facts, or with `in_part` has `missing` parts and unresolved paths.
    """

    def __init__(self, tree, library, in_part=False):
        self.sources, self.path, self.edition, self.errors = tree.sources, tree.path, tree.edition, tree.errors
        self.in_part = in_part
        self.index = Index(library)
        self.index.read(owners_in(tree.text))
        self.scopes = Scopes(self.index, self.sources, self.edition)
        self.lists = EveryLists(self.index)
        self.lang_items = lang_items_of(self.index, self.sources)
        self.lang_names = set(self.lang_items.values())
        self.opaques, self.opaque_counts = [], collections.Counter()
        self.variants, self.discriminants, self.bodies, self.names = {}, {}, [], set()
        self.format_functions, self.omissions_of, self.left_out, self.others = {}, {}, {}, []
        self.written = collections.defaultdict(dict)
        self.writes = (("adts", self.lists.adts, self.adt), ("fns", self.lists.functions, self.function_fact),
                       ("consts", self.lists.consts, self.const_fact), ("statics", self.lists.statics, self.static_fact),
                       ("traits", self.lists.traits, self.trait_fact), ("aliases", self.lists.aliases, self.alias_fact),
                       ("impls", self.lists.impls, self.impl_fact))
        self.leave_out_items()
        self.number_own_items()
        for name in ALWAYS:
            self.needs(name)
        self.shown = []
        self.write_bodies()
        self.write_items()
        self.facts = self.all_facts()

    def leave_out_items(self):
        """Finds the own items that have no facts."""
        for of in self.index.impls.values():
            if of.header is not None and named_by(of.header["trait_ref"]["path"])[1] not in self.index.traits:
                self.leave_out(of.item, "impl of a trait without facts")
            elif of.is_negative:
                self.leave_out(of.item, "negative impl")
        for of in self.index.items.values():
            if of.kind == "Fn" and of.id.crate == OWN:
                if is_variadic(self.signature(of)["decl"]):
                    self.leave_out(of, "function of any number of arguments")
                elif of.outer in self.left_out:
                    self.left_out[of.id] = self.left_out[of.outer]
            elif of.outer in self.left_out:
                self.left_out[of.id] = self.left_out[of.outer]
            elif of.kind in OTHER_ITEMS and of.id.crate == OWN:
                self.others.append(Omission(OTHER_ITEMS[of.kind], of.span, None))

    def leave_out(self, of, kind):
        self.left_out[of.id] = [Omission(kind, of.span, of.id.path if of.kind == "Fn" else None)]

    def own(self, items):
        return [item for item in items if item.crate == OWN and item not in self.left_out]

    def number_own_items(self):
        for items, number in ((self.index.modules, self.lists.module), (self.index.adts, self.lists.adt),
                              (self.index.traits, self.lists.trait), (self.index.impls, self.lists.impl)):
            for item in self.own(items):
                number(item)
        numbers = {"Fn": self.lists.function, "Const": self.lists.const, "Static": self.lists.static}
        for item in self.own(self.index.items):
            of = self.index.items[item]
            if of.kind in numbers:
                numbers[of.kind](item)

    def needs(self, name):
        """Has an item that the language knows among the facts."""
        item = self.lang_items.get(name)
        if item is not None:
            (self.lists.trait if item in self.index.traits else self.lists.adt)(item)

    def next_index(self, owner):
        """The number of the next `impl` type of an owner."""
        self.opaque_counts[repr(owner)] += 1
        return self.opaque_counts[repr(owner)] - 1

    def traits_in_scope(self, of, names):
        """The numbers of the traits in scope in a body, of those of libraries the ones that have an item of a name in it."""
        self.names.update(names)
        return [self.lists.trait(trait) for trait in self.scopes.traits_at(of)
                if trait.crate == OWN or any(member.name in names for member in self.index.traits[trait].members)]

    # Bodies

    def write_bodies(self):
        """Writes the bodies of own items, after their signatures."""
        for kind, items, write in self.writes:
            if kind in ("fns", "consts", "statics"):
                for item in self.own(items):
                    self.written[kind][item] = write(item)
        for item in self.own(self.index.items):
            of = self.index.items[item]
            if of.kind == "Fn":
                self.write_function(of)
            elif of.kind in ("Const", "Static"):
                self.write_value(of)
            elif item in self.index.adts:
                self.write_discriminants(of)
        self.shown.sort(key=lambda of: of.function.span)

    def write_function(self, of):
        """Writes the body of a function, if nothing of it is left out."""
        body = function_body(of)
        if body is None:
            return
        omissions = self.omissions_of.get(of.id, []) + self.omissions_of.get(of.outer, [])
        writer, left_out = self.write_body(of, self.written["fns"][of.id], body, omissions)
        if not of.span.context or of.within == "module":
            self.shown.append(EveryShown(of.id.path, of, self.lists.functions[of.id], writer, left_out, not left_out))

    def write_body(self, of, fact, body, omissions=()):
        """Puts a body into the fact of what has it, unless something is left out; its writer, and what is left out."""
        mark, writer = self.lists.mark(), EveryBodyWriter(self, of, of.id.path)
        written = writer.body(body, of.outer is not None and of.kind == "Fn" and takes_self(body))
        left_out = [*omissions, *writer.omissions]
        if left_out and not self.in_part or writer.is_too_deep():
            self.lists.cut(mark)
            return None, left_out
        fact["body"] = len(self.bodies)
        self.bodies.append(written)
        return writer, left_out

    def write_value(self, of):
        """Writes the body of a const or a static."""
        body = const_body(of) if of.kind == "Const" else static_body(of)
        if body is not None:
            kind = "consts" if of.kind == "Const" else "statics"
            self.others += self.write_body(of, self.written[kind][of.id], body)[1]

    def write_discriminants(self, of):
        for at, variant in enumerate(self.index.adts[of.id]):
            if variant.discriminant is not None:
                fact = {"body": None}
                self.others += self.write_body(of, fact, body_of(of.bodies, variant.discriminant["body"]))[1]
                self.discriminants[of.id, at] = fact["body"]

    # All facts

    def write_items(self):
        """Writes what is named, until nothing more is."""
        count = None
        while count != self.count():
            count = self.count()
            for kind, items, write in self.writes:
                for item in list(items):
                    if item not in self.written[kind]:
                        self.written[kind][item] = write(item)
            self.number_impls()

    def count(self):
        return sum(len(items) for _, items, _ in self.writes)

    def number_impls(self):
        """Numbers the impls of libraries that speak of what is named."""
        for trait in list(self.lists.traits):
            for impl in self.index.impls_of[trait]:
                if impl not in self.left_out and self.is_reached(self.index.impls[impl]):
                    self.lists.impl(impl)
        for adt in list(self.lists.adts):
            for impl in self.index.impls_for[adt]:
                of = self.index.impls[impl]
                if impl not in self.left_out and of.header is None and any(member.name in self.names for member in of.members):
                    self.lists.impl(impl)

    def is_reached(self, impl):
        """Whether all adts that stand in the type of an impl of a trait, and in its trait's arguments, are named."""
        return all(item in self.lists.adts for item in adts_in(impl.ty)) and all(
            item in self.lists.adts for item in adts_in(impl.header["trait_ref"]["path"]["segments"][-1]))

    def all_facts(self):
        facts = {**head_of(self.sources, self.path, self.edition), "types": self.lists.types,
                 "modules": [self.parent(module) for module in self.lists.modules]}
        for kind, items, _ in self.writes:
            facts[kind] = [self.written[kind][item] for item in items]
        facts["variants"] = [self.variants[number] for number in range(len(self.lists.variants))]
        for (adt, at), body in self.discriminants.items():
            self.variants[self.lists.variant(adt, at)]["body"] = body
        numbers = {**self.lists.adts, **self.lists.traits}
        facts["lang"] = {name: numbers[item] for name, item in self.lang_items.items() if item in numbers}
        return {**facts, "opaques": self.opaques, "bodies": self.bodies}

    def parent(self, module):
        parent = self.index.modules[module]
        return None if parent is None else self.lists.module(parent)

    def omissions(self):
        """All that is left out of the file's crate, by its place."""
        found = set(self.others)
        for of in (self.omissions_of, self.left_out):
            for item, omissions in of.items():
                if item.crate == OWN:
                    found.update(omissions)
        for of in self.shown:
            found.update(of.omissions)
        return sorted(found, key=lambda of: (of.span or (), of.kind))


def function_body(of):
    """The body of a function, or None."""
    kind = of.node["kind"]
    if of.within == "module":
        return body_of(of.bodies, kind["body"]) if kind["has_body"] else None
    if of.within == "foreign":
        return None
    body = kind[1]
    if of.within == "trait":
        body = body[0] if name_of(body) == "Provided" else None
    return None if body is None else body_of(of.bodies, body)


def static_body(of):
    return body_of(of.bodies, of.node["kind"][3]) if of.within == "module" else None


def is_variadic(declared):
    """Whether a function takes any number of arguments."""
    if "c_variadic" in declared.fields:
        return declared["c_variadic"]
    return '"CVariadic"' in declared["fn_decl_kind"].fields.values()


def adts_in(part):
    """The adts that paths in a part of the tree name."""
    if isinstance(part, (list, tuple)):
        for inner in part:
            yield from adts_in(inner)
    elif hasattr(part, "fields"):
        if part.name == "Path" and "segments" in part.fields:
            named, item = named_by(part)
            if named in ("Struct", "Enum", "Union"):
                yield item
        for inner in part.fields.values():
            yield from adts_in(inner)

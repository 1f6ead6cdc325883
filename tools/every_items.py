"""How items of every kind become facts."""
import re

from crate_head import integer_repr
from every_index import ADTS, generics_of
from every_paths import has_self
from every_scopes import PUB
from every_types import TypeWriter
from hir_tree import OWN, def_id, identifier, name_of, span_of

# The items that the language knows, by the names of the format: the name of the crate and the path there.
LANG = {
    "sized": "core marker::Sized", "copy": "core marker::Copy", "clone": "core clone::Clone", "drop": "core ops::drop::Drop",
    "deref": "core ops::deref::Deref", "deref_mut": "core ops::deref::DerefMut", "neg": "core ops::arith::Neg",
    "not": "core ops::bit::Not", "index": "core ops::index::Index", "index_mut": "core ops::index::IndexMut",
    "fn_once": "core ops::function::FnOnce", "fn_mut": "core ops::function::FnMut", "fn": "core ops::function::Fn",
    "eq": "core cmp::PartialEq", "partial_ord": "core cmp::PartialOrd", "owned_box": "alloc boxed::Box",
    "cstr": "core ffi::c_str::CStr", "range_full": "core ops::range::RangeFull", "range": "core ops::range::Range",
    "range_inclusive": "core ops::range::RangeInclusive", "range_from": "core ops::range::RangeFrom",
    "range_to": "core ops::range::RangeTo", "range_to_inclusive": "core ops::range::RangeToInclusive",
    "range_copy": "core range::Range", "range_inclusive_copy": "core range::RangeInclusive",
    "range_from_copy": "core range::RangeFrom", "range_to_inclusive_copy": "core range::RangeToInclusive"}
for _module, _names in (("arith", "Add Sub Mul Div Rem"), ("bit", "BitAnd BitOr BitXor Shl Shr")):
    for _name in _names.split():
        LANG[_name.lower()] = "core ops::%s::%s" % (_module, _name)
        LANG[_name.lower() + "_assign"] = "core ops::%s::%sAssign" % (_module, _name)

LANG_ATTRIBUTE = re.compile(r'\blang\s*=\s*"(%s)"' % "|".join(LANG))

# The structs of the library that may lose the size of a parameter, by its number.
UNSIZED = {("alloc", "boxed::Box"): 0, ("alloc", "rc::Rc"): 0, ("alloc", "sync::Arc"): 0, ("alloc", "rc::Weak"): 0,
           ("alloc", "sync::Weak"): 0, ("core", "ptr::non_null::NonNull"): 0}


class ItemFacts:
    """Writes the facts of items, each once. `omissions_of` has by DefIds what is left out of an item."""

    def item_writer(self, of):
        return TypeWriter(self, of, of.id.path if of.kind == "Fn" else None)

    def done(self, of, writer, fact):
        """A fact that is written; what is left out of it is kept."""
        self.omissions_of.setdefault(of.id, []).extend(writer.omissions)
        return fact

    def at(self, of):
        """What an item stands in."""
        if of.within == "impl":
            return ["impl", self.lists.impl(of.outer)]
        return ["trait", self.lists.trait(of.outer)] if of.within == "trait" else ["module", self.lists.module(of.module)]

    def vis(self, of):
        """Where an item is visible: "pub" or a module's number."""
        if of.within == "trait":
            return self.vis(self.index.items[of.outer])
        span = of.vis
        if of.within == "impl":
            kind = of.node["impl_kind"]
            if name_of(kind) != "Inherent":
                return PUB
            span = span_of(kind["vis_span"])
        return self.vis_at(span, of)

    def vis_at(self, span, of):
        found = self.scopes.visibility(span, of.module)
        return PUB if found == PUB else self.lists.module(found)

    def adt(self, item):
        of, writer = self.index.items[item], self.item_writer(self.index.items[item])
        params, preds = writer.generics(generics_of(of))
        variants, kind = self.index.adts[item], ADTS[of.kind]
        vis = self.vis_at(of.vis, of)
        for at, variant in enumerate(variants):
            self.variants[self.lists.variant(item, at)] = self.variant(of, variant, vis if kind == "enum" else None, writer)
        return self.done(of, writer, {
            "name": of.name, "kind": kind, "params": params, "preds": preds,
            "variants": [self.lists.variant(item, at) for at in range(len(variants))],
            "repr": integer_repr(self.sources, of.span) if kind == "enum" else None, "unsize": UNSIZED.get(item[:2])})

    def variant(self, of, variant, vis, writer):
        """The facts of a variant; those of a struct's fields say themselves where they are visible."""
        data, fields = variant.data, []
        if data.name != "Unit":
            names = set()
            for field in data["fields"] if data.name == "Struct" else data[0]:
                if identifier(field["ident"]) in names:
                    writer.leave_out("field of a name that another one has", span_of(field["span"]))
                    continue
                names.add(identifier(field["ident"]))
                fields.append({"name": identifier(field["ident"]), "type": writer.type(field["ty"]),
                               "vis": self.vis_at(span_of(field["vis_span"]), of) if vis is None else vis})
        return {"adt": self.lists.adt(of.id), "name": variant.name, "fields": fields, "body": None,
                "ctor": "record" if data.name == "Struct" else data.name.lower()}

    def signature(self, of):
        """What the tree has of a function's signature."""
        return of.node["kind"]["sig"] if of.within == "module" else of.node["kind"][0]

    def function_fact(self, item):
        if item in self.format_functions:
            return self.fact_of_format(item)
        of, writer = self.index.items[item], self.item_writer(self.index.items[item])
        signature = self.signature(of)
        header, declared = signature["header"], signature["decl"]
        if header["asyncness"] != "NotAsync":
            writer.leave_out("async function", of.span)
        params, preds = writer.generics(generics_of(of))
        inputs, output = [writer.type(ty) for ty in declared["inputs"]], writer.output(declared["output"])
        return self.done(of, writer, {
            "name": of.name, "at": self.at(of), "params": params, "preds": preds,
            "has_self": of.outer is not None and has_self(of), "inputs": inputs, "output": output,
            "safe": name_of(header["safety"]) != "Normal" or header["safety"][0] != "Unsafe",
            "vis": self.vis(of), "body": None})

    def const_fact(self, item):
        of, writer = self.index.items[item], self.item_writer(self.index.items[item])
        ty = writer.type(of.node["kind"][2 if of.within == "module" else 0])
        return self.done(of, writer, {"name": of.name, "at": self.at(of), "type": ty, "vis": self.vis(of), "body": None})

    def static_fact(self, item):
        of, writer = self.index.items[item], self.item_writer(self.index.items[item])
        ty = writer.type(of.node["kind"][2 if of.within == "module" else 0])
        return self.done(of, writer, {"type": ty, "body": None})

    def members_of(self, members, kind):
        """The associated items of a kind; of those of a library the ones whose names are written, or that the language calls."""
        return [of for of in members if of.kind == kind and of.id not in self.left_out and (
            of.id.crate == OWN or of.name in self.names or of.outer in self.lang_names)]

    def trait_fact(self, item):
        trait, writer = self.index.traits[item], self.item_writer(self.index.items[item])
        own = self.lists.type(["param", 0])
        preds = writer.goals(lambda: own, trait.bounds)
        params, stated = writer.generics(trait.generics)
        types = [of for of in trait.members if of.kind == "Type"]
        return self.done(trait.item, writer, {
            "name": trait.item.name, "params": params, "preds": preds + [goal for goal in stated if goal not in preds],
            "fns": [self.lists.function(of.id) for of in self.members_of(trait.members, "Fn")],
            "consts": [self.lists.const(of.id) for of in self.members_of(trait.members, "Const")],
            "types": [self.lists.alias(of.id) for of in types], "auto": trait.is_auto})

    def alias_fact(self, item):
        of = self.index.items[item]
        writer = TypeWriter(self, self.index.items[of.outer])
        own = self.lists.type(["proj", self.lists.alias(item), writer.identity()])
        bounds = of.node["kind"][0]
        goals = writer.sized_unless(bounds, own) + writer.goals(lambda: own, bounds)
        return self.done(of, writer, {"name": of.name, "trait": self.lists.trait(of.outer), "bounds": goals})

    def impl_fact(self, item):
        impl, writer = self.index.impls[item], self.item_writer(self.index.items[item])
        own = writer.type(impl.ty)
        trait, types = None, []
        if impl.header is not None:
            at = writer.trait_at(impl.header["trait_ref"]["path"], lambda: own)
            trait = [self.lists.trait(at.trait), [write() for write in at.arguments]]
        params, preds = writer.generics(impl.generics)
        if impl.header is not None:
            types = self.given_types(impl, at, writer)
        return self.done(impl.item, writer, {
            "trait": trait, "params": params, "preds": preds, "self": own,
            "fns": [self.lists.function(of.id) for of in self.members_of(impl.members, "Fn")],
            "consts": [self.lists.const(of.id) for of in self.members_of(impl.members, "Const")], "types": types})

    def given_types(self, impl, at, writer):
        """What an impl gives to the associated types of its trait, defaults among it."""
        given = {}
        for of in impl.members:
            if of.kind == "Type":
                alias = self.alias_given_by(of)
                if alias is not None and alias not in given:
                    inner = TypeWriter(self, of)
                    given[alias] = inner.type(of.node["kind"][0])
                    writer.omissions += inner.omissions
        for of in self.index.traits[at.trait].members:
            if of.kind == "Type" and of.id not in given and of.node["kind"][1] is not None:
                given[of.id] = writer.within(writer.scope_of_trait(at), writer.type, of.node["kind"][1])
        return [[self.lists.alias(alias), ty] for alias, ty in given.items()]

    def alias_given_by(self, of):
        """The associated type that a type in an impl is given to, or None."""
        kind = of.node["impl_kind"]
        if name_of(kind) == "Inherent" or kind["trait_item_def_id"].name != "Ok":
            return None
        alias = def_id(kind["trait_item_def_id"][0])
        return alias if alias in self.index.items else None

    # The functions that format macros call

    def format_function(self, asked):
        """The number of the function that a format macro calls which asks this of what it is given, or None."""
        if ("core", "fmt") not in self.index.paths:
            return None
        item = self.index.paths["core", "fmt"]._replace(path="fmt::format of %s" % ", ".join(map("+".join, asked)))
        self.format_functions[item] = asked
        return self.lists.function(item)

    def fact_of_format(self, item):
        asked, params, preds, inputs = self.format_functions[item], [], [], []
        for of in asked:
            if of == ("from_usize",):
                ty = self.lists.type("usize")
            else:
                ty = self.lists.type(["param", len(params)])
                params.append("t")
                for name in of:
                    trait = self.index.paths["core", "fmt"]._replace(path="fmt::" + name)
                    if trait in self.index.traits:
                        preds.append(["trait", self.lists.trait(trait), [["t", ty]]])
            inputs.append(self.lists.type(["ref", "not", "", ty]))
        arguments = self.index.paths["core", "fmt"]._replace(path="fmt::Arguments")
        return {"name": "format", "at": ["module", self.lists.module(self.index.paths["core", "fmt"])], "params": params,
                "preds": preds, "has_self": False, "inputs": inputs,
                "output": self.lists.type(["adt", self.lists.adt(arguments), []]), "safe": True, "vis": PUB, "body": None}


def lang_items_of(index, sources):
    """The items that the language knows, by their names: those that the crate says, else those of the library."""
    known = {item[:2]: item for items in (index.traits, index.adts) for item in items}
    found = {name: known[tuple(place.split())] for name, place in LANG.items() if tuple(place.split()) in known}
    for items in (index.traits, index.adts):
        for item in items:
            if item.crate == OWN:
                for attribute in sources.attributes_before(index.items[item].span) if index.items[item].span else ():
                    found.update((name, item) for name in LANG_ATTRIBUTE.findall(attribute))
    return found

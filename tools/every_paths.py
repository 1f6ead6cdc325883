"""How paths to values and variants become facts."""
from crate_items import body_of, named_by, resolution_of
from every_index import ADTS, generics_of, parameters_in
from every_types import TypeWriter, kind_of
from hir_tree import def_id, identifier, name_of


class PathWriter(TypeWriter):
    """Writes the paths in a body. `locals` has the binding of each local by the HirId of its pattern."""

    def __init__(self, crate, item, function):
        super().__init__(crate, item, function)
        self.locals, self.names = {}, set()

    def list_of(self, segment, of=None):
        """The list that is written at a name in a path, or None; `of` is the item that it is for, if that is known."""
        written = segment["args"]
        given = [] if written is None else [arg for arg in written["args"] if arg.name != "Lifetime"]
        if not given:
            return None
        params = [] if of is None else parameters_in(generics_of(of))
        return [self.listed(arg, kind_of(params[at]) if at < len(params) else "t") for at, arg in enumerate(given)]

    def listed(self, arg, kind):
        """An argument as it stands in a list; `kind` is that of the parameter."""
        if arg.name == "Infer":
            return self.hole(kind)
        return ["t", self.type(arg[0])] if arg.name == "Type" else ["c", self.const(arg[0])]

    def path(self, path, span):
        """A path to a value."""
        if path.name == "TypeRelative":
            return self.relative_path(path[0], path[1], span)
        own, path = path[0], path[1]
        (named, item), segment = named_by(path), path["segments"][-1]
        if named == "Local":
            return ["local", self.locals[path["res"][0]], self.list_of(segment)]
        if named == "SelfCtor":
            return ["implself", self.lists.impl(def_id(path["res"][0])), self.list_of(segment)]
        if named == "ConstParam" and item in self.scope.parameters:
            return ["constparam", self.scope.parameters[item]()[1][1], self.list_of(segment)]
        if named == "Ctor" and item in self.index.constructors:
            adt, at = self.index.constructors[item]
            return ["ctor", self.lists.variant(adt, at), self.list_of_variant(path, adt)]
        if named in ("AssocFn", "AssocConst") and item in self.index.items:
            return self.associated_path(own, path, self.index.items[item], span)
        number = {"Fn": self.lists.function, "Const": self.lists.const, "Static": self.lists.static}.get(named)
        if number is not None and item in self.index.items and item not in self.crate.left_out:
            return [named.lower(), number(item), self.list_of(segment, self.index.items[item])]
        return self.unresolved(path, named, item, span)

    def unresolved(self, path, named, item, span):
        """A path that names nothing that has facts."""
        if item is not None:
            self.leave_out_item(WORDS.get(named, named), item, span)
        return ["unresolved", len(path["segments"]) == 1]

    def list_of_variant(self, path, adt):
        """The list of a path to a variant, which stands at the variant or at its adt."""
        of = self.index.items[adt]
        last, *before = reversed(path["segments"][-2:])
        written = self.list_of(last, of)
        return self.list_of(before[0], of) if written is None and before else written

    def associated_path(self, own, path, of, span):
        """A path `Trait::name` or `<T as Trait>::name`.

        The format has no word for the second. It is written as the first where the type follows from what is given, since
        there is a `self`, and else as `T::name`.
        """
        name, last = of.name, path["segments"][-1]
        self.names.add(name)
        if own is not None and not (of.kind == "Fn" and has_self(of)):
            return ["typed", self.type(own), name, self.list_of(last, of)]
        trait = path["segments"][-2] if len(path["segments"]) > 1 else None
        if of.outer is None or of.outer not in self.index.traits:
            return self.unresolved(path, "AssocFn", of.id, span)
        written = None if trait is None else self.list_of(trait, self.index.items[of.outer])
        return ["trait", self.lists.trait(of.outer), written, name, self.list_of(last, of)]

    def relative_path(self, ty, segment, span):
        """A path `T::name`."""
        name = identifier(segment["ident"])
        variant = self.variant_of(ty, name)
        number = self.type(ty)
        if variant is None:
            self.names.add(name)
            return ["typed", number, name, self.list_of(segment)]
        entry = self.lists.types[number]
        self.lists.take_back(number)
        arguments = entry[2] if entry[0] == "adt" and entry[2] else None
        return ["ctor", self.lists.variant(*variant), arguments]

    def variant_of(self, ty, name):
        """The variant of this name of the enum that a type is, if it is one by its path."""
        adt = self.adt_of(ty)
        for at, variant in enumerate(self.index.adts[adt] if adt is not None else ()):
            if variant.id is not None and variant.name == name:
                return adt, at
        return None

    def adt_of(self, ty):
        """The adt that the path of a type names, by aliases too, or None."""
        for _ in range(len(self.index.items)):
            found = resolution_of(ty)
            if found is None:
                return None
            named, item = found
            if named in ADTS or item in self.index.adts:
                return item if item in self.index.adts else None
            if named == "SelfTyAlias":
                outer = def_id(ty["kind"][0][1]["res"]["alias_to"])
                if outer in self.index.adts:
                    return outer
                ty = self.index.impls[outer].ty
            elif named == "TyAlias" and item in self.index.items:
                ty = self.index.items[item].node["kind"][2]
            else:
                return None
        return None

    def variant_path(self, path, span):
        """A path to a variant, in a pattern or a record."""
        if path.name == "TypeRelative":
            name = identifier(path[1]["ident"])
            if self.variant_of(path[0], name) is None and self.told_by(self.bounds_of(path[0], name), name) is not None:
                return ["type", self.relative_type(path[0], path[1], span)]
            return ["typed", self.type(path[0]), name]
        if path[0] is not None:
            return ["type", self.projection(path[0], path[1], span)]
        path = path[1]
        named, item = named_by(path)
        if named == "Ctor":
            found = self.index.constructors.get(item)
        else:
            found = self.index.variants.get(item) if named in ("Variant", *ADTS) else None
        if found is not None:
            return ["variant", self.lists.variant(*found), self.list_of_variant(path, found[0])]
        if named == "SelfCtor":
            return ["type", self.own_type(def_id(path["res"][0]))]
        if named in ("SelfTyAlias", "TyAlias") and (item is None or item in self.index.items):
            return ["type", self.path_type(path, span)]
        if item is not None:
            self.leave_out_item(WORDS.get(named, "type"), item, span)
        return "unresolved"


WORDS = {"Fn": "function", "AssocFn": "associated function", "AssocConst": "associated const", "Const": "const", "Static": "static",
         "Ctor": "constructor", "Variant": "variant", "ConstParam": "const parameter"}


def has_self(of):
    """Whether a function of a trait or an impl takes `self`."""
    kind = of.node["kind"]
    body = kind[1]
    if of.within == "trait":
        if name_of(body) == "Required":
            names = body[0]
            first = names[0] if names else None
            return first is not None and identifier(first) == "self"
        body = body[0]
    params = body_of(of.bodies, body)["params"]
    return bool(params) and is_self(params[0]["pat"])


def is_self(pat):
    """Whether a pattern of a parameter is `self`."""
    kind = pat["kind"]
    return name_of(kind) == "Binding" and identifier(kind[2]) == "self"

"""How types and bounds that are written in an item become facts, of every kind."""
import collections
import functools

from crate_items import Omission, bounds_on, bounds_on_self, is_within, named_by, resolution_of
from every_index import generics_of, parameters_in
from every_values import value_of
from hir_tree import OWN, Node, def_id, identifier, name_of, span_of

# A trait at a type: its DefId, and what writes the type and the arguments, anew each time.
At = collections.namedtuple("At", "trait own arguments")

# How many associated types may be looked up within one another.
DEEPEST = 24

OTHER_TYPES = {"UnsafeBinder": "unsafe binder type", "Pat": "pattern type", "TraitAscription": "`impl` type at a `let`"}


class Scope:
    """What names stand for where a type is written.

    `parameters` has for each what writes it as an argument, `own` writes the type `Self`, or is None; `generics` are those
    whose bounds hold there, and `bodies` those of the item.
    """

    def __init__(self, item, generics=(), parameters=None, own=None):
        self.item, self.generics, self.own = item, list(generics), own
        self.parameters = {} if parameters is None else parameters
        self.bodies = item.bodies
        self.trait = self.impl = None


class TypeWriter:
    """Writes what stands in one item as facts, and notes what these have no kind for."""

    def __init__(self, crate, item, function=None):
        self.crate, self.index, self.lists, self.item, self.function = crate, crate.index, crate.lists, item, function
        self.omissions, self.place, self.in_body = [], item.span, False
        self.looked_up, self.depth = set(), 0
        self.scope = self.scope_of(item)

    def scope_of(self, item):
        """The scope within an item, in which parameters count those of the trait or impl around it first."""
        scope = Scope(item)
        outer = None if item.outer is None else self.index.items[item.outer]
        if item.kind == "Trait" or outer is not None and outer.kind == "Trait":
            scope.trait = (outer or item).id
            scope.own = functools.partial(self.lists.type, ["param", 0])
        if item.kind == "Impl" or outer is not None and outer.kind == "Impl":
            scope.impl = (outer or item).id
            scope.own = functools.partial(self.own_type, scope.impl)
        number = 1 if scope.trait is not None else 0
        for of in (outer, item):
            generics = None if of is None else generics_of(of)
            if generics is not None:
                scope.generics.append(generics)
                for param in parameters_in(generics):
                    scope.parameters[def_id(param["def_id"])] = functools.partial(self.parameter, kind_of(param), number)
                    number += 1
        return scope

    def parameter(self, kind, number):
        """A parameter as an argument."""
        return ["t", self.lists.type(["param", number])] if kind == "t" else ["c", ["param", number]]

    def own_type(self, item):
        """The number of the type that an impl is for, or of an adt within it."""
        if item in self.index.adts:
            return self.lists.type(["adt", self.lists.adt(item), self.within(self.scope_of(self.index.items[item]), self.identity)])
        of = self.index.impls[item]
        return self.within(self.scope_of(of.item), self.type, of.ty)

    def here(self, write, *parts):
        """What writes something in the scope as it is now."""
        return functools.partial(self.within, self.scope, write, *parts)

    def within(self, scope, write, *parts):
        """What is written in a scope."""
        kept, self.scope = self.scope, scope
        try:
            return write(*parts)
        finally:
            self.scope = kept

    def leave_out(self, kind, span):
        """Notes a kind that is left out. Of what a macro of another place wrote, the first is noted, at the macro's call."""
        if span is None or span.context and not is_within(span, self.place):
            kind, span = kind + " in a macro", self.place or span
        if (kind, span) not in [(of.kind, of.span) for of in self.omissions]:
            self.omissions.append(Omission(kind, span, self.function))

    def leave_out_item(self, what, item, span):
        """Notes a name of an item that has no facts."""
        path = item.path.replace("::{constructor#0}", "")
        self.leave_out("%s `%s`" % (what, path) if item.crate == OWN else "%s `%s::%s`, of another crate" % (what, item.crate, path),
                       span)

    def hole(self, kind):
        """A `_` as an argument, or what stands for it where there may be none."""
        if not self.in_body:
            return self.unknown(kind)
        return ["t", self.lists.type("_")] if kind == "t" else ["c", "_"]

    def unknown(self, kind):
        """An argument of which nothing is known."""
        return ["t", self.lists.type("error")] if kind == "t" else ["c", "unknown"]

    # Types

    def type(self, ty):
        """The number of a written type."""
        kind = ty["kind"]
        write = getattr(self, "type_" + name_of(kind), None)
        if write is None:
            self.leave_out(OTHER_TYPES.get(name_of(kind), "type of the kind " + name_of(kind)), span_of(ty["span"]))
            return self.lists.type("error")
        return write(kind, span_of(ty["span"]))

    def type_Infer(self, _kind, _span):
        return self.hole("t")[1]

    def type_Err(self, _kind, _span):
        return self.lists.type("error")

    def type_Never(self, _kind, _span):
        return self.lists.type("never")

    def type_Tup(self, kind, _):
        return self.lists.type(["tuple", [self.type(part) for part in kind[0]]])

    def type_Slice(self, kind, _):
        return self.lists.type(["slice", self.type(kind[0])])

    def type_Array(self, kind, _):
        return self.lists.type(["array", self.type(kind[0]), self.const(kind[1])])

    def type_Ptr(self, kind, _):
        return self.lists.type(["ptr", mutability(kind[0]["mutbl"]), self.type(kind[0]["ty"])])

    def type_Ref(self, kind, _):
        return self.lists.type(["ref", mutability(kind[1]["mutbl"]), label_of(kind[0]), self.type(kind[1]["ty"])])

    def type_FnPtr(self, kind, _):
        declared, of = kind[0]["decl"], kind[0]
        is_unsafe = of["safety"] == "Unsafe"
        return self.lists.type(["fnptr", not is_unsafe, [self.type(ty) for ty in declared["inputs"]],
                                self.output(declared["output"])])

    def output(self, output):
        """The number of a type that is given back, `()` where none is written."""
        return self.type(output[0]) if output.name == "Return" else self.lists.type(["tuple", []])

    def type_Path(self, kind, span):
        path = kind[0]
        if path.name == "TypeRelative":
            return self.relative_type(path[0], path[1], span)
        if path[0] is not None:
            return self.projection(path[0], path[1], span)
        return self.path_type(path[1], span)

    def path_type(self, path, span):
        """A type that a path names."""
        named, item = named_by(path)
        segment = path["segments"][-1]
        if named == "PrimTy":
            ty = path["res"][0]
            return self.lists.type(ty[0] if isinstance(ty, Node) else ty.lower())
        if item in self.index.adts:
            return self.adt_type(item, segment, span)
        if named == "TyAlias" and item in self.index.items and self.index.items[item].kind == "TyAlias":
            return self.alias_type(self.index.items[item], segment, span)
        if named == "TyParam" and item in self.scope.parameters:
            return self.scope.parameters[item]()[1]
        if named == "SelfTyParam" and self.scope.own is not None:
            return self.scope.own()
        if named == "SelfTyAlias":
            return self.own_type(def_id(path["res"]["alias_to"]))
        if item is not None and (item.crate != OWN or named == "ForeignTy"):
            self.leave_out_item("type", item, span)
        return self.lists.type("error")

    def adt_type(self, item, segment, span):
        arguments = self.arguments(self.index.items[item], segment, span)
        return self.lists.type(["adt", self.lists.adt(item), [of() for of in arguments]])

    def arguments(self, of, segment, span, own=None):
        """What writes the arguments of an item: those that stand in the path, defaults, and `_` where any may stand."""
        written = segment["args"]
        given = [] if written is None else [arg for arg in written["args"] if arg.name != "Lifetime"]
        inner, found = Scope(of, own=own), []
        is_free = not given and bool(segment["infer_args"])
        params = parameters_in(generics_of(of))
        for at, param in enumerate(params):
            kind, default = kind_of(param), param["kind"]["default"]
            if at < len(given):
                write = self.here(self.argument, given[at], kind, span)
            elif is_free and self.in_body:
                write = functools.partial(self.hole, kind)
            elif default is not None:
                write = functools.partial(self.within, inner, self.default, kind, default)
            else:
                self.leave_out("another number of arguments than parameters", span)
                write = functools.partial(self.unknown, kind)
            inner.parameters[def_id(param["def_id"])] = write
            found.append(write)
        if len(given) > len(params):
            self.leave_out("another number of arguments than parameters", span)
        return found

    def argument(self, written, kind, span):
        """An argument in the place of a parameter of this kind."""
        if written.name == "Infer":
            return self.hole(kind)
        if written.name == "Type" and kind == "t":
            return ["t", self.type(written[0])]
        if written.name == "Const" and kind == "c":
            return ["c", self.const(written[0])]
        self.leave_out("argument of another kind than the parameter", span)
        return self.unknown(kind)

    def default(self, kind, default):
        return ["t", self.type(default)] if kind == "t" else ["c", self.const(default)]

    def const(self, const):
        """A const that stands in a type or a list."""
        kind = const["kind"]
        if name_of(kind) == "Infer":
            return self.hole("c")[1]
        if name_of(kind) == "Path" and kind[0].name == "Resolved":
            named, item = named_by(kind[0][1])
            if named == "ConstParam" and item in self.scope.parameters:
                return self.scope.parameters[item]()[1]
        return value_of(self.index, kind, self.scope.bodies)

    def alias_type(self, alias, segment, span):
        """What a name for another type stands for, at its arguments."""
        if alias.id in self.looked_up:
            self.leave_out("type alias that stands for itself", span)
            return self.lists.type("error")
        inner = Scope(alias, [generics_of(alias)])
        for param, write in zip(parameters_in(generics_of(alias)), self.arguments(alias, segment, span)):
            inner.parameters[def_id(param["def_id"])] = write
        return self.looking_up(alias.id, inner, self.type, alias.node["kind"][2])

    def looking_up(self, what, scope, write, *parts):
        """What is written in a scope while this is looked up, which is to be looked up no second time there."""
        self.looked_up.add(what)
        try:
            return self.within(scope, write, *parts)
        finally:
            self.looked_up.discard(what)

    # Associated types

    def projection(self, ty, path, span):
        """A type `<T as Trait>::Name`."""
        named, item = named_by(path)
        if named != "AssocTy" or item not in self.index.items:
            if item is not None and item.crate != OWN:
                self.leave_out_item("associated type", item, span)
            return self.lists.type("error")
        own = self.here(self.type, ty)
        trait = self.index.items[item].outer
        arguments = self.arguments(self.index.items[trait], path["segments"][-2], span, own)
        return self.projected(self.index.items[item], At(trait, own, arguments), span)

    def projected(self, of, at, span):
        """The number of an associated type of a trait at a type."""
        if parameters_in(of.node["generics"]):
            self.leave_out("associated type with parameters of its own", span)
        own = ["t", at.own()]
        return self.lists.type(["proj", self.lists.alias(of.id), [own, *(write() for write in at.arguments)]])

    def relative_type(self, ty, segment, span):
        """A type `T::Name`, which bounds tell."""
        name = identifier(segment["ident"])
        found = self.told_by(self.bounds_of(ty, name), name) if self.depth < DEEPEST else None
        if found is None:
            self.leave_out("associated type `%s`" % name, span)
            return self.lists.type("error")
        self.depth += 1
        number = self.projected(*found, span)
        self.depth -= 1
        return number

    def told_by(self, bounds, name):
        """The associated type of this name, and the trait where it stands, that these bounds tell or what follows from them."""
        seen = []
        for at in bounds:
            self.follow(at, seen)
        for at in seen:
            found = self.index.associated_type(at.trait, name)
            if found is not None:
                return found, at
        return None

    def follow(self, at, seen):
        """Adds a trait at a type to those that are seen, and its supertraits."""
        if at is None or any(of.trait == at.trait for of in seen):
            return
        seen.append(at)
        trait = self.index.traits[at.trait]
        inner = self.scope_of_trait(at)
        for bound in bounds_on_self(trait):
            self.follow(self.within(inner, self.trait_at, bound["trait_ref"]["path"], at.own, True), seen)

    def scope_of_trait(self, at):
        """The scope within a trait that has arguments."""
        trait = self.index.traits[at.trait]
        inner = Scope(trait.item, [trait.generics], own=at.own)
        inner.trait = at.trait
        inner.parameters.update(zip((def_id(of["def_id"]) for of in parameters_in(trait.generics)), at.arguments))
        return inner

    def trait_at(self, path, own, is_silent=False):
        """The trait that a path names, at a type; None where it has no facts."""
        named, item = named_by(path)
        if named != "Trait" or item not in self.index.traits:
            if not is_silent and item is not None and (item.crate != OWN or named == "TraitAlias"):
                self.leave_out_item("trait", item, span_of(path["span"]))
            return None
        arguments = self.arguments(self.index.items[item], path["segments"][-1], span_of(path["span"]), own)
        return At(item, own, arguments)

    def bounds_of(self, ty, name):
        """The traits that a type is known to implement, where it is written, that may tell of an associated type."""
        named, own = resolution_of(ty), self.here(self.type, ty)
        key = (named or id(ty), name)
        if key in self.looked_up:
            return
        self.looked_up.add(key)
        try:
            if named is None:
                yield from self.bounds_of_projection(ty, own)
            elif named[0] == "SelfTyAlias":
                yield from self.bounds_of_own(def_id(ty["kind"][0][1]["res"]["alias_to"]), name)
            else:
                if named[0] == "SelfTyParam" and self.scope.trait is not None:
                    yield self.own_trait(own)
                for generics in self.scope.generics:
                    for bound in bounds_on(generics, named):
                        yield self.trait_at(bound["trait_ref"]["path"], own, True)
        finally:
            self.looked_up.discard(key)

    def own_trait(self, own):
        """The trait in which `Self` stands, at its own parameters."""
        params = parameters_in(self.index.traits[self.scope.trait].generics)
        return At(self.scope.trait, own, [self.scope.parameters[def_id(of["def_id"])] for of in params])

    def bounds_of_own(self, impl, name):
        """What `Self` implements in an impl: its trait, and what bounds say of its type."""
        if impl not in self.index.impls:
            return
        of = self.index.impls[impl]
        scope = self.scope if self.scope.impl == impl else self.scope_of(of.item)
        own = functools.partial(self.own_type, impl)
        if of.header is not None:
            yield self.within(scope, self.trait_at, of.header["trait_ref"]["path"], own, True)
        yield from self.within(scope, lambda: list(self.bounds_of(of.ty, name)))

    def bounds_of_projection(self, ty, own):
        """The bounds at an associated type, and those that stand around."""
        kind = ty["kind"]
        if name_of(kind) != "Path":
            return
        path = kind[0]
        number = own()
        entry = self.lists.types[number]
        if entry[0] == "proj":
            alias = next(item for item, at in self.lists.aliases.items() if at == entry[1])
            of = self.index.items[alias]
            arguments = [functools.partial(list, part) for part in entry[2][1:]]
            inner = self.scope_of_trait(At(of.outer, lambda: entry[2][0][1], arguments))
            for bound in of.node["kind"][0]:
                if bound.name == "Trait":
                    yield self.within(inner, self.trait_at, bound[0]["trait_ref"]["path"], own, True)
        name = identifier(path[1]["ident"] if path.name == "TypeRelative" else path[1]["segments"][-1]["ident"])
        for predicate in (of for generics in self.scope.generics for of in generics["predicates"]):
            bounded = bounded_by(predicate, name)
            if bounded is not None and self.type(bounded) == number:
                for bound in predicate["kind"][0]["bounds"]:
                    if bound.name == "Trait":
                        yield self.trait_at(bound[0]["trait_ref"]["path"], own, True)

    # `dyn` and `impl` types

    def type_TraitObject(self, kind, span):
        own = functools.partial(self.lists.type, "error")
        principal, projections, autos = None, [], []
        for of in kind[0]:
            path = of["trait_ref"]["path"]
            at = self.trait_at(path, own)
            if at is None:
                return self.lists.type("error")
            if self.index.traits[at.trait].is_auto:
                autos.append(self.lists.trait(at.trait))
            elif principal is None:
                principal = [self.lists.trait(at.trait), [write() for write in at.arguments]]
                for goal in self.constraints(at, path["segments"][-1]["args"], span):
                    if goal[0] == "proj" and goal[1] not in [alias for alias, _ in projections]:
                        projections.append([goal[1], goal[3]])
        return self.lists.type(["dyn", principal, projections, sorted(set(autos))])

    def type_OpaqueDef(self, kind, span):
        of, owner = kind[0], self.owner_of_opaque()
        if owner is None:
            self.leave_out("`impl` type of a type alias", span)
            return self.lists.type("error")
        item = def_id(of["def_id"])
        is_new = item not in self.lists.opaques
        number = self.lists.opaques.setdefault(item, len(self.lists.opaques))
        own = self.lists.type(["opaque", number, self.identity()])
        if is_new:
            fact = {"owner": owner, "index": self.crate.next_index(owner), "bounds": []}
            self.crate.opaques.append(fact)
            fact["bounds"] += self.sized_unless(of["bounds"], own) + self.goals(lambda: own, of["bounds"])
        return own

    def identity(self):
        """The parameters in scope as arguments, `Self` of a trait first."""
        own = [] if self.scope.trait is None else [["t", self.scope.own()]]
        return own + [write() for write in self.scope.parameters.values()]

    def owner_of_opaque(self):
        """What an `impl` type here belongs to, or None."""
        item = self.scope.item
        if item.kind == "Fn":
            return ["fn", self.lists.function(item.id)]
        if item.kind == "Type" and item.within == "impl":
            alias = self.crate.alias_given_by(item)
            return None if alias is None else ["impl", self.lists.impl(item.outer), self.lists.alias(alias)]
        return None

    # Bounds

    def goals(self, own, bounds):
        """What bounds ask of a type."""
        return [goal for bound in bounds if bound.name == "Trait" for goal in self.goals_of(own, bound[0])]

    def goals_of(self, own, bound):
        """What a bound that is a trait asks of a type; its binder is left away."""
        if bound["modifiers"]["polarity"] != "Positive":
            if name_of(bound["modifiers"]["polarity"]) != "Maybe":
                self.leave_out("negative bound", span_of(bound["span"]))
            return []
        at = self.trait_at(bound["trait_ref"]["path"], own)
        if at is None:
            return []
        goal = ["trait", self.lists.trait(at.trait), [["t", own()], *(write() for write in at.arguments)]]
        return [goal, *self.constraints(at, bound["trait_ref"]["path"]["segments"][-1]["args"], span_of(bound["span"]))]

    def constraints(self, at, written, span):
        """What the constraints of associated types ask that stand in a list."""
        goals = []
        for of in written["constraints"] if written is not None else ():
            name = identifier(of["ident"])
            found = self.told_by([at], name)
            if found is None or of["kind"].name == "Equality" and of["kind"]["term"].name != "Ty":
                self.leave_out("constraint of `%s`" % name, span)
                continue
            ty = self.projected(*found, span)
            if of["kind"].name == "Equality":
                _, alias, arguments = self.lists.types[ty]
                goals.append(["proj", alias, arguments, self.type(of["kind"]["term"][0])])
            else:
                goals += self.goals(functools.partial(self.projected, *found, span), of["kind"]["bounds"])
        return goals

    def generics(self, generics):
        """The facts of an item's own parameters, and of its predicates."""
        params, preds = [], []
        for of in parameters_in(generics):
            if kind_of(of) == "t":
                params.append("t")
                item = def_id(of["def_id"])
                bounds = [bound for predicate in generics["predicates"]
                          if predicate["kind"].name == "BoundPredicate"
                          and resolution_of(predicate["kind"][0]["bounded_ty"]) == ("TyParam", item)
                          for bound in predicate["kind"][0]["bounds"]]
                preds += self.sized_unless(bounds, self.scope.parameters[item]()[1])
            else:
                params.append(["c", self.type(of["kind"]["ty"])])
        for predicate in generics["predicates"] if generics is not None else ():
            if predicate["kind"].name == "BoundPredicate":
                kind = predicate["kind"][0]
                own = self.here(self.type, kind["bounded_ty"])
                preds += [goal for goal in self.goals(own, kind["bounds"]) if goal not in preds]
        return params, preds

    def sized_unless(self, bounds, ty):
        """That a type has a size, unless one of these bounds says that it need not."""
        if any(bound.name == "Trait" and name_of(bound[0]["modifiers"]["polarity"]) == "Maybe" for bound in bounds):
            return []
        sized = self.crate.lang_items.get("sized")
        return [] if sized is None else [["trait", self.lists.trait(sized), [["t", ty]]]]


def kind_of(param):
    """The kind of a parameter, which is none that is a lifetime."""
    return "t" if name_of(param["kind"]) == "Type" else "c"


def mutability(word):
    return "mut" if name_of(word) == "Mut" else "not"


def label_of(lifetime):
    """The name of a lifetime, empty where none is written."""
    kind, name = name_of(lifetime["kind"]), lifetime["ident"].rpartition("#")[0]
    return name if kind in ("Param", "Static") and name not in ("'_", "") else ""


def bounded_by(predicate, name):
    """The type on which a predicate is, if it is an associated type of this name."""
    if predicate["kind"].name != "BoundPredicate":
        return None
    ty = predicate["kind"][0]["bounded_ty"]
    if name_of(ty["kind"]) != "Path":
        return None
    path = ty["kind"][0]
    if path.name == "TypeRelative":
        last = path[1]
    else:
        last = path[1]["segments"][-1] if path[0] is not None else None
    return ty if last is not None and identifier(last["ident"]) == name else None

"""The items of a crate, as rustc's tree has them, and how types that are written in them become facts."""
import collections
import contextlib
import re

from hir_tree import OWN, Node, def_id, identifier, name_of, span_of

# What is left out: its kind in words, where it stands, and the path of the function that it stands in, or None.
Omission = collections.namedtuple("Omission", "kind span function")

# A struct or an enum. Of each variant: its name, its data as the tree has it, and its span; `discriminants` are the spans
# of those that have one. `module` is the module that the item stands in.
Adt = collections.namedtuple("Adt", "id kind name generics variants discriminants span vis module")

# A function. `within` says what it stands in: "module", "impl" or "trait". `body` is None where there is none; `bodies` are
# those of closures and consts in it too.
Function = collections.namedtuple("Function", "id name within generics signature body bodies span vis module")

# A name for another type.
Alias = collections.namedtuple("Alias", "id generics ty")

# A trait. `bounds` are those on `Self` that follow its name, `members` the kinds of its associated items that are no types,
# `types` its associated types by their names.
Trait = collections.namedtuple("Trait", "id name is_auto generics bounds members types span")

# An associated type of a trait: the trait's DefId, the bounds that stand at it, and its default or None.
AssociatedType = collections.namedtuple("AssociatedType", "id name trait generics bounds default span")

# An impl. `header` is what the tree has of the trait, or None where there is none, `ty` the type that it is for, `types` the
# types that it gives.
Impl = collections.namedtuple("Impl", "id generics header ty members types span")

# A type that an impl gives to an associated type, whose DefId is None where the impl's trait has none of that name.
GivenType = collections.namedtuple("GivenType", "associated generics ty is_final span")

# That types implement a trait: its DefId, and the numbers of the types, the one that implements it first.
Bound = collections.namedtuple("Bound", "trait types")

# Where a trait's node has its parts: `auto` or not, name, generics, bounds and items. Later trees name them.
TRAIT_PARTS = ((1, 3, 4, 5, 6), ("is_auto", "ident", "generics", "bounds", "items"))

# Items that have facts, and those that say nothing of types by themselves.
CARRIED = {"Fn", "Struct", "Enum"}
SILENT = {"ExternCrate", "Use", "Mod", "Macro", "TyAlias"}

OTHER_ITEMS = {
    "Static": "static", "Const": "const", "ForeignMod": "foreign items", "GlobalAsm": "global assembly", "Union": "union",
    "TraitAlias": "trait alias"}

MEMBERS = {"Fn": "a function", "Const": "a const"}

TYPES = {
    "Slice": "slice type", "Array": "array type", "Ptr": "raw pointer type", "Ref": "reference type",
    "FnPtr": "function pointer type", "Never": "type `!`", "TraitObject": "`dyn` type", "OpaqueDef": "`impl` type",
    "UnsafeBinder": "unsafe binder type", "Pat": "pattern type", "Err": "type with an error"}

RESOLUTIONS = {
    "Err": "unresolved name", "SelfTyAlias": "type `Self`", "SelfTyParam": "type `Self`", "SelfCtor": "constructor `Self`",
    "Union": "union", "AssocTy": "associated type", "ForeignTy": "foreign type", "Const": "path to a const",
    "Static": "path to a static", "AssocFn": "associated function", "AssocConst": "associated const",
    "ConstParam": "const parameter", "Trait": "trait as a type", "TraitAlias": "trait alias", "Fn": "function",
    "Ctor": "constructor"}

# Bounds that don't ask for the trait that they name.
POLARITIES = {"Maybe": "`?Sized`", "Negative": "negative bound"}

OWN_TYPES = {"SelfTyParam", "SelfTyAlias"}

IN_SIGNATURE = "`_` in a signature"

# What follows from a trait for a supertrait's `T::Name` or for `<T::Name as Trait>::Other`: no fact says that.
IMPLIED = "bound that a trait implies on another trait's associated type"


class Items:
    """The items of one or more crates by their DefIds; those of a constructor with its adt and the variant's number."""

    def __init__(self, sources):
        self.sources = sources
        self.modules, self.adts, self.functions, self.aliases, self.constructors = {}, {}, {}, {}, {}
        self.variants = {}  # by their crates and paths
        self.traits, self.associated_types, self.impls, self.values = {}, {}, {}, {}  # of consts and statics the types
        self.impls_of = collections.defaultdict(list)  # the impls of each trait
        self.paths = {}  # the modules by their crates and paths
        self.files = set()  # those in which modules of the file's crate stand
        self.others = []  # an Omission for each item of a kind that has no facts

    def read(self, owners):
        """Adds the items of a crate."""
        for item, owner in owners:
            node = owner["node"]["node"]
            if node.name == "Crate" or node.name == "Item" and name_of(node[0]["kind"]) == "Mod":
                self.modules[item] = self.module_of(item)
                self.paths[item[:2]] = item
                span = span_of((node[0] if node.name == "Crate" else node[0]["kind"][1])["spans"]["inner_span"])
                if item.crate == OWN and span is not None:
                    self.files.add(span.file)
        members = {item: owner["node"]["node"][0] for item, owner in owners
                   if owner["node"]["node"].name in ("ImplItem", "TraitItem")}
        for item, owner in owners:
            node = owner["node"]["node"]
            if node.name == "Item" and name_of(node[0]["kind"]) in ("Trait", "Impl"):
                self.read_abstract(item, node[0]["kind"], span_of(node[0]["span"]), members)
            elif node.name == "Item":
                self.read_item(item, node[0], owner["bodies"])
            elif item in members:
                self.read_associated(item, node, owner["bodies"])

    def module_of(self, item):
        """The module that an item stands in, in its functions too."""
        path = item.path
        while path:
            path = path.rpartition("::")[0]
            if (item.crate, path) in self.paths:
                return self.paths[item.crate, path]
        return None

    def read_item(self, item, node, bodies):
        kind, span, vis = node["kind"], span_of(node["span"]), span_of(node["vis_span"])
        name, module = name_of(kind), self.module_of(item)
        if name == "Fn":
            signature = kind["sig"]
            body = body_of(bodies, kind["body"]) if kind["has_body"] else None
            self.functions[item] = Function(item, identifier(kind["ident"]), "module", kind["generics"], signature, body,
                                            bodies, span, vis, module)
        elif name == "Struct":
            variants = [(identifier(kind[0]), kind[2], span)]
            self.add_adt(Adt(item, "struct", identifier(kind[0]), kind[1], variants, [], span, vis, module))
        elif name == "Enum":
            variants = [(identifier(of["ident"]), of["data"], span_of(of["span"])) for of in kind[2]["variants"]]
            discriminants = [span_of(of["span"]) for of in kind[2]["variants"] if of["disr_expr"] is not None]
            self.add_adt(Adt(item, "enum", identifier(kind[0]), kind[1], variants, discriminants, span, vis, module))
        elif name == "TyAlias":
            self.aliases[item] = Alias(item, kind[1], kind[2])
        elif name in ("Const", "Static"):
            self.values[item] = kind[2]
        if name not in CARRIED and name not in SILENT and item.crate == OWN:
            self.others.append(Omission(OTHER_ITEMS.get(name, name), span, None))

    def read_abstract(self, item, kind, span, members):
        """A trait or an impl. `members` are the nodes of associated items by their DefIds."""
        if kind.name == "Trait":
            is_auto, name, generics, bounds, items = (kind[part] for part in TRAIT_PARTS["items" in kind.fields])
            others, nodes = parted([members[def_id(of["owner_id"])] for of in items])
            types = {}
            for of in nodes:
                types.setdefault(identifier(of["ident"]), associated_type(of, item))
            self.associated_types.update((of.id, of) for of in types.values())
            self.traits[item] = Trait(item, identifier(name), is_auto == "Yes", generics, bounds, others, types, span)
        else:
            kind = kind[0]
            header, (others, types) = kind["of_trait"], parted([members[def_id(of["owner_id"])] for of in kind["items"]])
            types = [] if header is None else [given_type(of) for of in types]
            self.impls[item] = Impl(item, kind["generics"], header, kind["self_ty"], others, types, span)
            if header is not None:
                self.impls_of[named_by(header["trait_ref"]["path"])[1]].append(item)

    def may_name(self, item, name):
        """Whether a trait may have an associated type of this name: of one that is not read nothing is known."""
        return item not in self.traits or name in self.traits[item].types

    def may_tell(self, item, name, seen=()):
        """Whether a trait or one that follows from it may have an associated type of this name."""
        return self.may_name(item, name) or item not in seen and any(
            self.may_tell(trait_of(bound), name, (*seen, item)) for bound in bounds_on_self(self.traits[item]))

    def add_adt(self, adt):
        self.adts[adt.id] = adt
        for at, (name, data, _) in enumerate(adt.variants):
            self.variants[adt.id.crate, "%s::%s" % (adt.id.path, name)] = (adt.id, at)
            if name_of(data) in ("Unit", "Tuple"):
                constructor = data[1 if data.name == "Unit" else 2]
                self.constructors[def_id(constructor)] = (adt.id, at)

    def read_associated(self, item, node, bodies):
        """A function of an impl or a trait."""
        within, node = ("impl" if node.name == "ImplItem" else "trait"), node[0]
        kind = node["kind"]
        if name_of(kind) != "Fn":
            return
        body = kind[1]
        if within == "trait":
            body = body[0] if body.name == "Provided" else None
        self.functions[item] = Function(
            item, identifier(node["ident"]), within, node["generics"], kind[0],
            None if body is None else body_of(bodies, body), bodies, span_of(node["span"]), None, self.module_of(item))


def parted(members):
    """The kinds of those associated items that are no types, and the nodes of the types."""
    return ([name_of(of["kind"]) for of in members if name_of(of["kind"]) != "Type"],
            [of for of in members if name_of(of["kind"]) == "Type"])


def associated_type(node, trait):
    """The AssociatedType of a trait."""
    return AssociatedType(def_id(node["owner_id"]), identifier(node["ident"]), trait, node["generics"], node["kind"][0],
                          node["kind"][1], span_of(node["span"]))


def given_type(node):
    """The GivenType of an impl of a trait."""
    of, is_final = node["impl_kind"]["trait_item_def_id"], name_of(node["impl_kind"]["defaultness"]) == "Final"
    return GivenType(def_id(of[0]) if of.name == "Ok" else None, node["generics"], node["kind"][0], is_final,
                     span_of(node["span"]))


def body_of(bodies, body):
    """The body that a BodyId names, among those of its owner."""
    return bodies[re.search(r"(\d+)\)$", body["hir_id"]).group(1)]


def parameters_of(generics, first=0):
    """The parameters that are types, by their DefIds, with their numbers, which count from `first`."""
    types = [def_id(of["def_id"]) for of in generics["params"] if name_of(of["kind"]) != "Lifetime"]
    return {item: number for number, item in enumerate(types, first)}


class Lists:
    """The numbered lists of the facts: what is named gets the next number where it has none."""

    def __init__(self, items, refused=()):
        self.items, self.refused = items, refused  # `refused` are items that can't be written
        self.types, self.known_types = [], {}
        self.modules, self.adts, self.variants, self.functions = {}, {}, {}, {}
        self.traits, self.associated_types, self.impls = {}, {}, {}

    def module(self, module):
        if module not in self.modules:
            parent = self.items.modules[module]
            if parent is not None:
                self.module(parent)
            self.modules[module] = len(self.modules)
        return self.modules[module]

    def adt(self, item):
        if item not in self.adts:
            self.adts[item] = len(self.adts)
            for at in range(len(self.items.adts[item].variants)):
                self.variants[item, at] = len(self.variants)
        return self.adts[item]

    def variant(self, constructor):
        adt, at = self.items.constructors[constructor]
        self.adt(adt)
        return self.variants[adt, at]

    def function(self, item):
        return self.functions.setdefault(item, len(self.functions))

    def trait(self, item):
        if item not in self.traits:
            self.traits[item] = len(self.traits)
            for of in self.items.traits[item].types.values():
                self.associated_types[of.id] = len(self.associated_types)
        return self.traits[item]

    def associated_type(self, item):
        self.trait(self.items.associated_types[item].trait)
        return self.associated_types[item]

    def projection(self, item, types):
        """The number of an associated type at these types, in which no `_` stands."""
        return self.type(["proj", self.associated_type(item), [["t", number] for number in types]])

    def is_projection(self, ty):
        """Whether the type of this number, if there is one, is an associated type."""
        return ty < len(self.types) and self.types[ty][0] == "proj"

    def hangs_on(self, ty, types):
        """Whether a type is an associated type of one of these, or of an associated type that is."""
        while self.is_projection(ty):
            ty = self.types[ty][2][0][1]
            if ty in types:
                return True
        return False

    def impl(self, item):
        return self.impls.setdefault(item, len(self.impls))

    def type(self, entry, has_hole=False):
        """The number of a written type. Where a `_` stands in it, an entry of its own is made."""
        if has_hole:
            return self.add_type(entry)
        if repr(entry) not in self.known_types:
            self.known_types[repr(entry)] = self.add_type(entry)
        return self.known_types[repr(entry)]

    def add_type(self, entry):
        """The number of an entry that is added; its parts come before it."""
        self.types.append(entry)
        return len(self.types) - 1


class Scope:
    """What names stand for where a type is written, and the Generics whose bounds tell what `T::Name` is."""

    def __init__(self, generics, parameters, types=None, own_type=None, own_bound=None):
        self.generics, self.parameters = generics, parameters  # with the numbers of the parameters
        self.types = types  # those that stand for the parameters in what is put in, or None
        self.own_type = own_type  # the number of the type that `Self` stands for, or None where that is not carried
        self.own_bound = own_bound  # the Bound of the trait or impl on `Self`, or None


class Writer:
    """Writes what stands in one item as facts, and notes what it leaves out: then what it writes is of no use."""

    def __init__(self, lists, generics, first=0, function=None):
        self.lists, self.items, self.function = lists, lists.items, function
        self.scope = Scope(generics, parameters_of(generics, first))
        self.within = []  # what is gone into: type aliases, and traits and parameters, with the name that is looked up there
        self.implying = ()  # in a trait `Self` and its associated types: what bounds on these ask follows from the trait
        self.omissions, self.place = [], None

    def parameter_names(self):
        """The names of the parameters, by their numbers."""
        return {number: item.path.rpartition("::")[2] for item, number in self.scope.parameters.items()}

    @contextlib.contextmanager
    def going_into(self, what, scope):
        """Has what is written stand in a scope."""
        kept, self.scope = self.scope, scope
        self.within.append(what)
        yield
        self.within.pop()
        self.scope = kept

    def leave_out(self, kind, span):
        """Notes a kind that is left out. Of what a macro of another place wrote, the first is noted, at the macro's call."""
        if span is None or span.context and not is_within(span, self.place):
            if any(of.span == self.place for of in self.omissions):
                return
            kind, span = kind + " in a macro", self.place or span
        if (kind, span) not in [(of.kind, of.span) for of in self.omissions]:
            self.omissions.append(Omission(kind, span, self.function))

    def leave_out_item(self, item, what, span):
        """Notes a name of an item that has no facts."""
        path = item.path.replace("::{constructor#0}", "")
        if item.crate == OWN:
            self.leave_out("%s `%s`, which is left out" % (what, path), span)
        else:
            self.leave_out("%s `%s::%s`, of another crate" % (what, item.crate, path), span)

    def type(self, ty, hole=IN_SIGNATURE):
        """A written type: its number, and whether a `_` stands in it. `hole` says what one is left out as, or is None."""
        kind, span = ty["kind"], span_of(ty["span"])
        name = name_of(kind)
        if name == "Tup":
            parts = [self.type(part, hole) for part in kind[0]]
            has_hole = any(holds for _, holds in parts)
            return self.lists.type(["tuple", [number for number, _ in parts]], has_hole), has_hole
        if name == "Infer":
            return self.hole(hole, span)
        if name == "Path" and kind[0].name == "Resolved":
            path = kind[0][1]
            return self.path_type(path, hole, span) if kind[0][0] is None else self.projection(kind[0][0], path, hole, span)
        if name == "Path" and kind[0].name == "TypeRelative":
            return self.relative_type(kind[0][0], kind[0][1], span), False
        self.leave_out("associated type" if name == "Path" else TYPES.get(name, "type of the kind " + name), span)
        return 0, False

    def hole(self, hole, span):
        """A `_`."""
        if hole is not None:
            self.leave_out(hole, span)
        return self.lists.type("_", True), True

    def path_type(self, path, hole, span):
        """A type that a path names."""
        named, item = named_by(path)
        if named == "PrimTy":
            return self.primitive(path["res"][0], span)
        if any(of["args"] is not None for of in path["segments"][:-1]):
            self.leave_out("type arguments within a path", span)
        if named in ("Struct", "Enum"):
            return self.adt_type(item, path["segments"][-1]["args"], hole, span)
        if named == "TyAlias" and item in self.items.aliases:
            return self.alias_type(self.items.aliases[item], path["segments"][-1]["args"], hole, span)
        if named == "TyParam" and item in self.scope.parameters:
            return self.parameter(item), False
        if named in OWN_TYPES and self.scope.own_type is not None:
            return self.scope.own_type, False
        if named == "TyAlias":
            self.leave_out_item(item, "type", span)
        else:
            self.leave_out(RESOLUTIONS.get(named, "path to a " + named), span)
        return 0, False

    def parameter(self, item):
        """The number of the type that a parameter is."""
        number, types = self.scope.parameters[item], self.scope.types
        return self.lists.type(["param", number]) if types is None else types[number]

    def primitive(self, ty, span):
        if isinstance(ty, Node) and ty.name in ("Int", "Uint"):
            return self.lists.type(ty[0]), False
        if ty in ("Bool", "Char"):
            return self.lists.type(ty.lower()), False
        self.leave_out("float type" if name_of(ty) == "Float" else "type `%s`" % name_of(ty).lower(), span)
        return 0, False

    def adt_type(self, item, written, hole, span):
        if item not in self.items.adts or item in self.lists.refused:
            self.leave_out_item(item, "type", span)
            self.arguments(written, hole, span)
            return 0, False
        parts = self.arguments(written, hole, span)
        if len(parts) != len(parameters_of(self.items.adts[item].generics)):
            self.leave_out("another number of type arguments than parameters", span)
        has_hole = any(holds for _, holds in parts)
        return self.lists.type(["adt", self.lists.adt(item), [["t", number] for number, _ in parts]], has_hole), has_hole

    def arguments(self, written, hole, span, constraints=False):
        """The written type arguments of a name in a path, where `constraints` of associated types may stand or not."""
        parts = []
        for argument in written["args"] if written is not None else ():
            if argument.name == "Type":
                parts.append(self.type(argument[0], hole))
            elif argument.name == "Infer":
                parts.append(self.hole(hole, span_of(argument[0]["span"])))
            elif argument.name != "Lifetime":
                self.leave_out("const argument", span)
        if written is not None and (len(written["constraints"]) and not constraints or written["parenthesized"] != "No"):
            self.leave_out("constraint of an associated type", span)
        return parts

    def alias_type(self, alias, written, hole, span):
        """What an alias stands for, at its arguments, of which a `_` is none: it may stand at several places then."""
        hole = hole or "`_` as an argument of a type alias"
        arguments = [number for number, _ in self.arguments(written, hole, span)]
        parameters = parameters_of(alias.generics)
        if len(arguments) != len(parameters) or alias.id in self.within:
            self.leave_out("type alias that can't be put in", span)
            return 0, False
        with self.going_into(alias.id, Scope(alias.generics, parameters, arguments)):
            return self.type(alias.ty)[0], False

    def projection(self, ty, path, hole, span):
        """A type `<T as Trait>::Name`."""
        (named, item), (*modules, trait, name) = named_by(path), path["segments"]
        if named != "AssocTy":
            self.leave_out("associated type", span)
            return 0, False
        if any(of["args"] is not None for of in (*modules, name)):
            self.leave_out("type arguments within a path", span)
        parts = [self.type(ty, hole), *self.arguments(trait["args"], hole, span)]
        has_hole = any(holds for _, holds in parts)
        return self.lists.type(["proj", *self.associated(item, [number for number, _ in parts], span)], has_hole), has_hole

    def associated(self, item, types, span):
        """An associated type at these types: its number, and the arguments."""
        arguments = [["t", number] for number in types]
        if item not in self.items.associated_types or self.items.associated_types[item].trait in self.lists.refused:
            self.leave_out_item(item, "associated type", span)
            return 0, arguments
        trait = self.items.traits[self.items.associated_types[item].trait]
        if len(types) != 1 + len(parameters_of(trait.generics)):
            self.leave_out("another number of type arguments than parameters", span)
        return self.lists.associated_type(item), arguments

    def relative_type(self, ty, segment, span):
        """A type `T::Name`, which the bounds on `T` tell."""
        name = identifier(segment["ident"])
        if segment["args"] is not None:
            self.leave_out("type arguments of an associated type", span)
        found = self.told_by(self.bounds_of(resolution_of(ty), name), name, span)
        return 0 if found is None else self.lists.type(["proj", *found])

    def told_by(self, bounds, name, span):
        """The associated type of this name, if these Bounds and what follows from them have one alone."""
        kept, self.omissions = self.omissions, []  # what can't be written of a trait is left out there
        seen = []
        for bound in bounds:
            self.follow(bound, name, seen)
        is_written, self.omissions = not self.omissions, kept
        found = [of for of in seen if self.items.may_name(of.trait, name)]
        if not is_written or len(found) != 1 or found[0].trait not in self.items.traits:
            self.leave_out("associated type", span)
            return None
        return self.associated(self.items.traits[found[0].trait].types[name].id, found[0].types, span)

    def bounds_of(self, named, name):
        """The Bounds on what is named so, a parameter or `Self`, that may tell of an associated type of this name."""
        if named is not None and named[0] in OWN_TYPES and self.scope.own_bound is not None:
            return [self.scope.own_bound]
        if named is None or named[1] not in self.scope.parameters or (named, name) in self.within:
            return []
        with self.going_into((named, name), self.scope):
            return [self.bound(of, self.parameter(named[1])) for of in bounds_on(self.scope.generics, named)
                    if self.items.may_tell(trait_of(of), name)]

    def follow(self, bound, name, seen):
        """Adds a Bound to those that are seen, and what follows from it that may tell of an associated type of this name."""
        if bound in seen:
            return
        seen.append(bound)
        if (bound.trait, name) in self.within:
            self.leave_out("trait that follows from itself", self.place)
        elif self.is_known(bound.trait):
            trait, (own, *types) = self.items.traits[bound.trait], bound.types
            parameters = parameters_of(trait.generics)
            if len(types) != len(parameters):
                self.leave_out("another number of type arguments than parameters", self.place)
                return
            with self.going_into((trait.id, name), Scope(trait.generics, parameters, types, own, bound)):
                for of in bounds_on_self(trait):
                    if self.items.may_tell(trait_of(of), name):
                        self.follow(self.bound(of, own), name, seen)

    def is_known(self, trait):
        """Whether a trait is carried."""
        return trait in self.items.traits and trait not in self.lists.refused

    def bound(self, bound, ty):
        """The Bound that a bound is on a type. That of a trait which is not carried has no arguments."""
        path, trait = bound["trait_ref"]["path"], trait_of(bound)
        written = path["segments"][-1]["args"] if self.is_known(trait) else None
        arguments = self.arguments(written, IN_SIGNATURE, span_of(path["span"]), True)
        return Bound(trait, (ty, *(number for number, _ in arguments)))

    def generics(self, generics):
        """The facts of an item's own parameters, and of its predicates."""
        params = []
        for of in generics["params"]:
            kind, span = of["kind"], span_of(of["span"])
            if kind.name == "Type":
                params.append("t")
                if kind["default"] is not None:
                    self.leave_out("default of a type parameter", span)
                if kind["synthetic"]:
                    self.leave_out("`impl` type", span)
            elif kind.name != "Lifetime":
                self.leave_out("const parameter", span)
        return params, [goal for of in generics["predicates"] for goal in self.predicate(of)]

    def associated_type(self, ty, of):
        """The bounds that stand at an associated type of a trait, which within the trait is this type."""
        self.own_generics(of)
        if of.default is not None:
            self.leave_out("default of an associated type", of.span)
        return self.goals(ty, of.bounds)

    def given_type(self, of):
        """What an impl gives to an associated type."""
        self.own_generics(of)
        if not of.is_final:
            self.leave_out("`default` associated type", of.span)
        if of.associated is None:
            self.leave_out("associated type that the trait does not have", of.span)
            return None
        return [self.lists.associated_type(of.associated), self.type(of.ty)[0]]

    def own_generics(self, of):
        """Notes that an associated type has parameters or predicates of its own."""
        if of.generics["params"]:
            self.leave_out("generic associated type", of.span)
        if any(asks(predicate) for predicate in of.generics["predicates"]):
            self.leave_out("`where` at an associated type", of.span)

    def predicate(self, predicate):
        """The goals of a predicate."""
        kind, span = predicate["kind"], span_of(predicate["span"])
        if kind.name not in ("BoundPredicate", "RegionPredicate"):
            self.leave_out("predicate", span)
        if not asks(predicate):
            return []
        if kind[0]["bound_generic_params"]:
            self.leave_out("higher-ranked bound", span)
        return self.goals(self.type(kind[0]["bounded_ty"])[0], kind[0]["bounds"])

    def goals(self, ty, bounds):
        """What bounds ask of a type."""
        return [goal for bound in bounds if not is_silent(bound) for goal in self.goals_of(ty, bound[0])]

    def goals_of(self, ty, bound):
        """What a bound that is a trait asks of a type: that it implements the trait, then what its constraints ask."""
        span, modifiers = span_of(bound["span"]), bound["modifiers"]
        if bound["bound_generic_params"]:
            self.leave_out("higher-ranked bound", span)
        if modifiers["constness"] != "Never":
            self.leave_out("`const` bound", span)
        if modifiers["polarity"] != "Positive":
            self.leave_out(POLARITIES[name_of(modifiers["polarity"])], span)
            return []
        trait, arguments = self.trait(bound["trait_ref"], "trait", True)
        goals, written = [["trait", trait, [["t", ty], *arguments]]], bound["trait_ref"]["path"]["segments"][-1]["args"]
        if written is not None and self.is_known(trait_of(bound)):
            of_trait = Bound(trait_of(bound), (ty, *(number for _, number in arguments)))
            goals += [goal for of in written["constraints"] for goal in self.constraint(of_trait, of)]
        return goals

    def constraint(self, bound, constraint):
        """What a constraint asks of an associated type of a Bound, or else of one of a supertrait."""
        name, written, kind = identifier(constraint["ident"]), constraint["gen_args"], constraint["kind"]
        span = span_of(constraint["span"])
        if written["args"] or written["constraints"] or written["parenthesized"] != "No":
            self.leave_out("type arguments of an associated type", span)
            return []
        own = self.items.traits[bound.trait].types.get(name)
        found = self.told_by([bound], name, span) if own is None else self.associated(own.id, bound.types, span)
        if found is None:
            return []
        if kind.name == "Bound":
            if bound.types[0] in self.implying:
                self.leave_out(IMPLIED, span)
            return self.goals(self.lists.type(["proj", *found]), kind["bounds"])
        if kind["term"].name != "Ty":
            self.leave_out("const argument", span)
            return []
        return [["proj", *found, self.type(kind["term"][0])[0]]]

    def trait(self, trait_ref, what, constraints=False):
        """A trait that is named: its number, and the arguments that are written. `what` says as what it is left out."""
        path = trait_ref["path"]
        span, (kind, item) = span_of(path["span"]), named_by(path)
        if kind != "Trait":
            self.leave_out(RESOLUTIONS.get(kind, "path to a " + kind), span)
            return 0, []
        if not self.is_known(item):
            self.leave_out_item(item, what, span)
            return 0, []
        parts = self.arguments(path["segments"][-1]["args"], IN_SIGNATURE, span, constraints)
        if len(parts) != len(parameters_of(self.items.traits[item].generics)):
            self.leave_out("another number of type arguments than parameters", span)
        return self.lists.trait(item), [["t", number] for number, _ in parts]

    def members(self, what, of):
        """Notes the kinds of associated items that a trait or an impl has beside types."""
        for member in sorted(set(of.members)):
            self.leave_out("%s with %s" % (what, MEMBERS.get(member, member)), of.span)


def is_within(span, place):
    """Whether a span is part of another one."""
    return place is not None and span.file == place.file and (
        (place.line, place.column) <= (span.line, span.column)
        and (span.end_line, span.end_column) <= (place.end_line, place.end_column))


def named_by(path):
    """The kind of what a path names, and its DefId, or None where it has none."""
    res = path["res"]
    return (name_of(res[0]), def_id(res[1])) if name_of(res) == "Def" else (name_of(res), None)


def resolution_of(ty):
    """What a path that is a type names, as `named_by` says it, or None where a type is none."""
    path = ty["kind"][0] if name_of(ty["kind"]) == "Path" else None
    return named_by(path[1]) if path is not None and path.name == "Resolved" and path[0] is None else None


def bounds_on(generics, named):
    """The bounds in these predicates on what is named so."""
    return [bound for of in generics["predicates"]
            if of["kind"].name == "BoundPredicate" and resolution_of(of["kind"][0]["bounded_ty"]) == named
            for bound in traits_among(of["kind"][0]["bounds"])]


def bounds_on_self(trait):
    """The bounds on `Self` that a trait states."""
    return traits_among(trait.bounds) + bounds_on(trait.generics, ("SelfTyParam", None))


def traits_among(bounds):
    """The bounds that ask for traits."""
    return [bound[0] for bound in bounds if not is_silent(bound) and bound[0]["modifiers"]["polarity"] == "Positive"]


def trait_of(bound):
    """The DefId of the trait that a bound or the header of an impl names, or None."""
    return named_by(bound["trait_ref"]["path"])[1]


def asks(predicate):
    """Whether a predicate asks for a trait."""
    kind = predicate["kind"]
    return kind.name == "BoundPredicate" and not all(is_silent(bound) for bound in kind[0]["bounds"])


def is_silent(bound):
    """Whether a bound is of lifetimes alone, or says `Sized`, as is said of each parameter without it."""
    if bound.name != "Trait":
        return True
    _, item = named_by(bound[0]["trait_ref"]["path"])
    return bound[0]["modifiers"]["polarity"] == "Positive" and item is not None and item[:2] == ("core", "marker::Sized")

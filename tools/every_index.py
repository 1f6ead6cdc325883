"""The items of one or more crates by their DefIds, of every kind, as rustc's tree has them."""
import collections

from crate_items import TRAIT_PARTS, named_by
from hir_tree import OWN, def_id, identifier, name_of, span_of

# An item: what the tree has of its kind, the bodies that it owns, and what it stands in. `within` is "module", "impl", "trait" or
# "foreign", and `outer` the impl's or trait's DefId, or None.
Item = collections.namedtuple("Item", "id kind name node bodies within outer module span vis")

# A variant of an adt: its DefId, or None where it is that of a struct, its name, its data and its discriminant.
Variant = collections.namedtuple("Variant", "id name data discriminant span")

# A trait, with its associated items.
Trait = collections.namedtuple("Trait", "item is_auto generics bounds members")

# An impl. `header` is what the tree has of the trait, or None.
Impl = collections.namedtuple("Impl", "item generics header ty members is_negative")

ADTS = {"Struct": "struct", "Enum": "enum", "Union": "union"}
VALUES = {"Const", "Static"}

# Where an item's generics stand among the parts of its kind.
GENERICS = {"Struct": 1, "Enum": 1, "Union": 1, "TyAlias": 1, "Const": 1}


class Index:
    """The items of crates. `module_items` and `uses` have for each module, or item that is none, what stands in it."""

    def __init__(self, library=None):
        """An Index that has what that of a library has, or nothing."""
        self.has_prelude = False
        for name in ("items", "modules", "paths", "adts", "constructors", "variants", "traits", "impls"):
            setattr(self, name, {} if library is None else dict(getattr(library, name)))
        for name in ("impls_of", "impls_for", "uses", "traits_in"):
            known = {} if library is None else getattr(library, name)
            setattr(self, name, collections.defaultdict(list, {key: list(of) for key, of in known.items()}))

    def read(self, owners):
        """Adds the items of a crate."""
        self.read_modules(owners)
        outers = {}
        for item, owner in owners:
            node = owner["node"]["node"]
            if node.name == "Item" and name_of(node[0]["kind"]) in ("Trait", "Impl"):
                for of in items_of(node[0]["kind"]):
                    outers[def_id(of["owner_id"])] = item
        kept = []
        for item, owner in owners:
            node = owner["node"]["node"]
            if node.name in ("Item", "ImplItem", "TraitItem", "ForeignItem"):
                kept.append(self.add(item, node, owner["bodies"], outers.get(item)))
        for of in kept:
            self.read_kind(of)

    def read_modules(self, owners):
        for item, owner in owners:
            node = owner["node"]["node"]
            if node.name == "Crate" or node.name == "Item" and name_of(node[0]["kind"]) == "Mod":
                self.modules[item] = self.module_of(item)
                self.paths[item[:2]] = item

    def module_of(self, item):
        """The module that an item stands in, in its functions too."""
        path = item.path
        while path:
            path = path.rpartition("::")[0]
            if (item.crate, path) in self.paths:
                return self.paths[item.crate, path]
        return None

    def add(self, item, node, bodies, outer):
        within, node = node.name, node[0]
        kind = node["kind"]
        if within == "Item":
            name = item.path.rpartition("::")[2]
        else:
            name = identifier(node["ident"])
        found = Item(item, name_of(kind), name, node, bodies, {"Item": "module", "ForeignItem": "foreign"}.get(
            within, within[:-len("Item")].lower()), outer, self.module_of(item), span_of(node["span"]),
            span_of(node["vis_span"]) if "vis_span" in node.fields else None)
        self.items[item] = found
        return found

    def read_kind(self, of):
        """Notes what an item is."""
        kind = of.node["kind"]
        if of.kind in ADTS and of.within == "module":
            self.read_adt(of, kind)
        elif of.kind == "Trait":
            self.read_trait(of, kind)
        elif of.kind == "Impl":
            self.read_impl(of, kind[0])
        elif of.kind == "Use":
            self.uses[of.id.crate, of.id.path.rpartition("::")[0]].append(of)
        elif of.kind == "ExternCrate" and of.id.crate == OWN and of.span is None:
            self.has_prelude = True

    def read_adt(self, of, kind):
        if of.kind == "Enum":
            variants = [Variant(def_id(v["def_id"]), identifier(v["ident"]), v["data"], v["disr_expr"], span_of(v["span"]))
                        for v in kind[2]["variants"]]
        else:
            variants = [Variant(None, identifier(kind[0]), kind[2], None, of.span)]
        self.adts[of.id] = variants
        for at, variant in enumerate(variants):
            self.variants[variant.id or of.id] = (of.id, at)
            if name_of(variant.data) in ("Unit", "Tuple"):
                self.constructors[def_id(variant.data[1 if variant.data.name == "Unit" else 2])] = (of.id, at)

    def read_trait(self, of, kind):
        is_auto, _, generics, bounds, items = (kind[part] for part in TRAIT_PARTS["items" in kind.fields])
        members = self.members(items)
        self.traits[of.id] = Trait(of, is_auto == "Yes", generics, bounds, members)
        self.traits_in[of.id.crate, of.id.path.rpartition("::")[0]].append(of)

    def read_impl(self, of, kind):
        header = kind["of_trait"]
        is_negative = header is not None and "negative" in header["polarity"]
        self.impls[of.id] = Impl(of, kind["generics"], header, kind["self_ty"], self.members(kind["items"]), is_negative)
        if header is not None:
            self.impls_of[named_by(header["trait_ref"]["path"])[1]].append(of.id)
        head = head_of(kind["self_ty"])
        if head is not None:
            self.impls_for[head].append(of.id)

    def members(self, items):
        """The associated items, in their order."""
        return [self.items[def_id(of["owner_id"])] for of in items]

    def associated_type(self, trait, name):
        """The associated type of this name of a trait, or None."""
        members = self.traits[trait].members if trait in self.traits else ()
        return next((of for of in members if of.kind == "Type" and of.name == name), None)


def items_of(kind):
    """The associated items that a trait or an impl lists."""
    if kind.name == "Impl":
        return kind[0]["items"]
    return kind[TRAIT_PARTS["items" in kind.fields][-1]]


def generics_of(of):
    """What the tree has of an item's own parameters and predicates, or None where it can have none."""
    kind = of.node["kind"]
    if of.within == "foreign":
        return kind[2] if of.kind == "Fn" else None
    if of.within in ("impl", "trait"):
        return of.node["generics"]
    if of.kind == "Fn":
        return kind["generics"]
    if of.kind == "Impl":
        return kind[0]["generics"]
    if of.kind == "Trait":
        return kind[TRAIT_PARTS["items" in kind.fields][2]]
    return kind[GENERICS[of.kind]] if of.kind in GENERICS else None


def parameters_in(generics):
    """The parameters that are types or consts, as the tree has them."""
    return [of for of in (generics["params"] if generics is not None else ()) if name_of(of["kind"]) != "Lifetime"]


def head_of(ty):
    """The adt whose type this is, or None."""
    kind = ty["kind"]
    if name_of(kind) == "Path" and kind[0].name == "Resolved" and kind[0][0] is None:
        named, item = named_by(kind[0][1])
        if named in ADTS:
            return item
    return None

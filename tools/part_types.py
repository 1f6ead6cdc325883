"""How items and types of which not all is carried are written in part: with placeholders for the rest."""
import collections

from crate_items import IN_SIGNATURE, Lists, Scope, Trait, Writer, named_by, parameters_of
from hir_tree import Node, identifier, name_of, span_of

# A placeholder, an adt that is equal to itself alone: a key, how its type is written, with "{}" for each of its `parts`,
# or None where that can't be said.
Head = collections.namedtuple("Head", "key text parts")

# A function that bodies written in part call: its name, how many type parameters it has, the types that it takes and gives,
# and which it gives where no type is chosen freely.
Helper = collections.namedtuple("Helper", "name params inputs output fixed_output")

# What an adt declares: its parameters and predicates, and of each variant the names and the types of its fields.
Declared = collections.namedtuple("Declared", "params preds names fields")

ITEMS = ("Struct", "Enum", "Union", "ForeignTy")

# What no written type says: the type that each hole has where none is chosen freely.
FIXED = Head("hole", None, 0)


class PartLists(Lists):
    """The numbered lists of the facts, with placeholders among the adts and helpers among the functions."""

    def __init__(self, items, refused):
        super().__init__(items, refused)
        self.outputs = {}  # the types that functions give, by their numbers
        self.alike = set()  # the functions that give the type of their arguments
        self.declared = {}  # the Declared of adts that were asked for
        self.holes = []  # the types in which a `_` stands
        self.functions_of = collections.defaultdict(list)  # those of impls without a trait, by their adts and names
        self.endless = set()  # the names of functions of impls and traits that do not return

    def adt(self, item):
        if isinstance(item, Head):
            return self.adts.setdefault(item, len(self.adts))
        return super().adt(item)

    def placeholder(self, head, parts=(), has_hole=False):
        """The type that a placeholder is; whether a `_` stands in its parts has to be said."""
        return self.type(["adt", self.adt(head), [["t", part] for part in parts]], has_hole)

    def word(self, text):
        """The type that is written so and has no parts."""
        return self.placeholder(Head(text, text, 0))

    def reference(self, ty, is_mutable):
        text = "&mut {}" if is_mutable else "&{}"
        return self.placeholder(Head(text, text, 1), [ty])

    def array(self, ty, length):
        return self.placeholder(Head("[{}; {}]", "[{}; {}]", 2), [ty, length])

    def parameter(self, number):
        return self.type(["param", number])

    def type(self, entry, has_hole=False):
        number = super().type(entry, has_hole)
        if has_hole:
            self.holes.append(number)
        return number

    def signature(self, adt):
        """What an adt declares, in part."""
        if adt not in self.declared:
            of = self.items.adts[adt]
            writer = ItemWriter(self, of.generics)
            writer.place = of.span
            fields = [[] if data == "Unit" or data.name == "Unit" else data[0 if data.name == "Tuple" else "fields"]
                      for _, data, _ in of.variants]
            params, preds = writer.generics(of.generics)
            self.declared[adt] = Declared(
                params, preds, [[identifier(field["ident"]) for field in of_variant] for of_variant in fields],
                [[writer.type(field["ty"])[0] for field in of_variant] for of_variant in fields])
        return self.declared[adt]

    def helper(self, name, params, inputs, output, fixed_output=None):
        """The number of a helper."""
        number = self.function(Helper(name, params, tuple(inputs), output, output if fixed_output is None else fixed_output))
        self.outputs[number] = output
        return number


class PartTypes:
    """A Writer that puts a placeholder in the place of each type that is not carried."""

    def __init__(self, *arguments):
        super().__init__(*arguments)
        self.is_missing = False  # whether the type that is being written is not carried itself
        self.left = 0  # how often something was left out
        self.made_parameters = {}  # the names of parameters that the item doesn't have itself, by their numbers

    def leave_out(self, kind, span):
        self.is_missing = True
        self.left += 1
        self.note(kind, span)

    def note(self, kind, span):
        """Notes what is left out where something stands in its place already."""
        super().leave_out(kind, span)

    def parameter_names(self):
        return {**super().parameter_names(), **self.made_parameters}

    def stand_within(self, outer):
        """Has the parameters of the impl or trait that the item stands in come before its own."""
        own, is_trait = self.scope.generics, isinstance(outer, Trait)
        parameters = parameters_of(outer.generics, 1 if is_trait else 0)
        parameters.update(parameters_of(own, len(parameters) + is_trait))
        self.scope = Scope(own, parameters)
        if is_trait:
            self.made_parameters[0] = "Self"
        self.scope.own_type = self.lists.parameter(0) if is_trait else self.type(outer.ty)[0]

    def type(self, ty, hole=IN_SIGNATURE):
        around, self.is_missing = self.is_missing, False
        written = super().type(ty, hole)
        if self.is_missing:
            written = self.stand_in(ty, hole)
        self.is_missing = around
        return written

    def hole(self, hole, span):
        if hole is None:
            return super().hole(hole, span)
        self.leave_out(hole, span)
        return self.opaque(span), False

    def stand_in(self, ty, hole):
        """The placeholder of a type that is not carried, and whether a `_` stands in it."""
        find = getattr(self, "parts_of_" + name_of(ty["kind"]).lower(), None)
        found = None if find is None else find(ty["kind"], hole)
        if found is None:
            return self.opaque(span_of(ty["span"])), False
        key, text, parts = found
        has_hole = any(holds for _, holds in parts)
        return self.lists.placeholder(Head(key, text, len(parts)), [part for part, _ in parts], has_hole), has_hole

    def opaque(self, span):
        """The placeholder of a type of which nothing is said."""
        return self.lists.placeholder(Head(span, None, 0))

    # Of types that are not carried: a key, how they are written, and their parts, each with whether a `_` stands in it.

    def parts_of_ref(self, kind, hole):
        text = "&mut {}" if kind[1]["mutbl"] == "Mut" else "&{}"
        return text, text, [self.type(kind[1]["ty"], hole)]

    def parts_of_ptr(self, kind, hole):
        text = "*mut {}" if kind[0]["mutbl"] == "Mut" else "*const {}"
        return text, text, [self.type(kind[0]["ty"], hole)]

    def parts_of_slice(self, kind, hole):
        return "[{}]", "[{}]", [self.type(kind[0], hole)]

    def parts_of_array(self, kind, hole):
        return "[{}; {}]", "[{}; {}]", [self.type(kind[0], hole), (self.const(kind[1]), False)]

    def parts_of_never(self, _kind, _hole):
        return "!", "!", []

    def parts_of_fnptr(self, kind, hole):
        declared = kind[0]["decl"]
        if kind[0]["safety"] != "Safe" or kind[0]["abi"] != "Rust" or declared["output"].name != "Return":
            return None
        parts = [self.type(ty, hole) for ty in (*declared["inputs"], declared["output"][0])]
        text = "fn(%s) -> {}" % ", ".join(["{}"] * (len(parts) - 1))
        return text, text, parts

    def parts_of_path(self, kind, hole):
        """A primitive type, or one of another crate."""
        if kind[0].name != "Resolved" or kind[0][0] is not None:
            return None
        path = kind[0][1]
        named, item = named_by(path)
        if named == "PrimTy":
            ty = path["res"][0]
            text = ty[0] if isinstance(ty, Node) else name_of(ty).lower()
            return text, text, []
        if named not in ITEMS or item in self.items.adts:
            return None
        parts = self.arguments(path["segments"][-1]["args"], hole, span_of(path["span"]))
        text = item.path.rpartition("::")[2] + ("<%s>" % ", ".join(["{}"] * len(parts)) if parts else "")
        return (item[:2], len(parts)), text, parts

    def arguments(self, written, hole, span, constraints=False):
        """The type arguments of a name; consts among them are placeholders."""
        parts = []
        for argument in written["args"] if written is not None else ():
            if argument.name == "Const":
                self.note("const argument", span)
                parts.append((self.const(argument[0]), False))
            elif argument.name == "Type":
                parts.append(self.type(argument[0], hole))
            elif argument.name == "Infer":
                parts.append(self.hole(hole, span_of(argument[0]["span"])))
        if written is not None and (len(written["constraints"]) and not constraints or written["parenthesized"] != "No"):
            self.leave_out("constraint of an associated type", span)
        return parts

    def const(self, const):
        """The placeholder that stands for a const."""
        kind, span = const["kind"], span_of(const["span"])
        if name_of(kind) == "Path" and kind[0].name == "Resolved":
            named, item = named_by(kind[0][1])
            if named == "ConstParam" and item in self.scope.parameters:
                return self.parameter(item)
        text = "" if span is None else self.items.sources.text(span)
        return self.lists.word(text) if text.isdecimal() else self.opaque(span)

    def generics(self, generics):
        """The facts of an item's own parameters, each a type, and those predicates that are carried."""
        for of in generics["params"]:
            kind, span = of["kind"], span_of(of["span"])
            if kind.name == "Const":
                self.note("const parameter", span)
            elif kind.name == "Type" and kind["synthetic"]:
                self.note("`impl` type", span)
        return ["t"] * len(parameters_of(generics)), [
            goal for of in generics["predicates"] for goal in self.carried(of)]

    def carried(self, predicate):
        """The goals of a predicate, if all of it is carried."""
        left, goals = self.left, self.predicate(predicate)
        return goals if self.left == left else []


class ItemWriter(PartTypes, Writer):
    """Writes an item without a body in part."""

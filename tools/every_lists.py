"""The numbered lists of the facts: what is named gets the next number where it has none."""


class EveryLists:
    """The numbers of modules, items, variants and types, and the types themselves."""

    def __init__(self, index):
        self.index = index
        self.types, self.known_types, self.holed = [], {}, set()
        self.modules, self.adts, self.variants, self.functions = {}, {}, {}, {}
        self.consts, self.statics, self.traits, self.aliases, self.impls, self.opaques = {}, {}, {}, {}, {}, {}

    def module(self, module):
        if module not in self.modules:
            parent = self.index.modules[module]
            if parent is not None:
                self.module(parent)
            self.modules[module] = len(self.modules)
        return self.modules[module]

    def adt(self, item):
        if item not in self.adts:
            self.adts[item] = len(self.adts)
            for at in range(len(self.index.adts[item])):
                self.variants[item, at] = len(self.variants)
        return self.adts[item]

    def variant(self, adt, at):
        self.adt(adt)
        return self.variants[adt, at]

    def function(self, item):
        return self.functions.setdefault(item, len(self.functions))

    def const(self, item):
        return self.consts.setdefault(item, len(self.consts))

    def static(self, item):
        return self.statics.setdefault(item, len(self.statics))

    def trait(self, item):
        return self.traits.setdefault(item, len(self.traits))

    def alias(self, item):
        self.trait(self.index.items[item].outer)
        return self.aliases.setdefault(item, len(self.aliases))

    def impl(self, item):
        return self.impls.setdefault(item, len(self.impls))

    def type(self, entry):
        """The number of a type; where a `_` stands in it, an entry of its own is made."""
        if holds_hole(entry, self.holed):
            self.types.append(entry)
            self.holed.add(len(self.types) - 1)
            return len(self.types) - 1
        known = repr(entry)
        if known not in self.known_types:
            self.types.append(entry)
            self.known_types[known] = len(self.types) - 1
        return self.known_types[known]

    def mark(self):
        """How many types there are."""
        return len(self.types)

    def cut(self, mark):
        """Takes the types back that were made since there were so many."""
        del self.types[mark:]
        self.holed = {number for number in self.holed if number < mark}
        self.known_types = {known: number for known, number in self.known_types.items() if number < mark}

    def take_back(self, number):
        """Takes a type with a `_` back, which was the last one that was made."""
        if number in self.holed and number == len(self.types) - 1:
            self.holed.discard(number)
            self.types.pop()


def holds_hole(entry, holed):
    """Whether a `_` stands in a type, of whose parts these are known to hold one."""
    if entry == "_":
        return True
    if isinstance(entry, str):
        return False
    word, *rest = entry
    if word == "array":
        return rest[0] in holed or rest[1] == "_"
    if word in ("slice", "ref", "ptr"):
        return rest[-1] in holed
    if word == "tuple":
        return any(part in holed for part in rest[0])
    if word == "fnptr":
        return rest[2] in holed or any(part in holed for part in rest[1])
    if word == "dyn":
        principal, projections, _ = rest
        return principal is not None and any_hole(principal[1], holed) or any(ty in holed for _, ty in projections)
    return word in ("adt", "proj", "opaque") and any_hole(rest[1], holed)


def any_hole(arguments, holed):
    """Whether a `_` stands in one of these arguments."""
    return any(part == "_" if kind == "c" else part in holed for kind, part in arguments)

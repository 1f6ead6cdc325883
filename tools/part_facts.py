"""The facts of a crate of which not all is carried: what is not carried stands there in part (`part_types`, `part_bodies`)."""
from hir_tree import OWN, name_of
from part_bodies import PartWriter, gives_never
from part_types import Head, Helper, PartLists

DEEPEST = 250


class PartFacts:
    """The facts of all functions of a CrateFacts, whose `writers` have them by their DefIds: None where a body is too deep."""

    def __init__(self, crate):
        self.crate, self.items = crate, crate.items
        refused = {item for item in crate.refused if item in self.items.traits or item in self.items.impls}
        self.lists = PartLists(self.items, refused)
        self.prepare()
        self.number_items()
        self.written = {item: self.signature(self.items.functions[item]) for item in self.own(self.items.functions)}
        self.writers, self.bodies = {}, {}
        for item in self.own(self.items.functions):
            if self.items.functions[item].body is not None:
                self.write_body(self.items.functions[item])
        self.facts = self.all_facts()

    def shown(self, of):
        """A `Shown` of which something is left out, in part."""
        writer = self.writers.get(of.function.id)
        if writer is None:
            return of
        return of._replace(number=self.lists.functions[of.function.id], writer=writer, omissions=writer.omissions)

    def own(self, items):
        return [item for item in items if item.crate == OWN]

    def prepare(self):
        """Finds what paths to functions of impls may name."""
        self.outers = {item[:2]: of for of_kind in (self.items.impls, self.items.traits) for item, of in of_kind.items()}
        for item, function in self.items.functions.items():
            outer = self.outer(function)
            if function.within != "module" and gives_never(function):
                self.lists.endless.add(function.name)
            if function.within == "impl" and outer is not None and outer.header is None:
                adt = PartWriter(self.lists, function.generics).adt_named(outer.ty)
                self.lists.functions_of[adt, function.name].append(item)

    def outer(self, function):
        """The impl or trait that a function stands in, or None."""
        within = (function.id.crate, function.id.path.rpartition("::")[0])
        return None if function.within == "module" else self.outers.get(within)

    def number_items(self):
        lists, items = self.lists, self.items
        for of, number in ((items.modules, lists.module), (items.adts, lists.adt), (items.functions, lists.function),
                           (items.traits, lists.trait), (items.impls, lists.impl)):
            for item in self.own(of):
                if item not in lists.refused:
                    number(item)

    def writer(self, function):
        writer = PartWriter(self.lists, function.generics, function.id.path)
        writer.place = function.span
        outer = self.outer(function)
        if outer is not None:
            writer.stand_within(outer)
        return writer

    def signature(self, function):
        """What writes a function, and the facts of it without its body."""
        writer, outer = self.writer(function), self.outer(function)
        declared, number = function.signature["decl"], self.lists.function(function.id)
        if function.within != "module":
            writer.note("function of %s" % ("an impl" if function.within == "impl" else "a trait"), function.span)
        preds = [goal for of in (outer, function) if of is not None for goal in writer.generics(of.generics)[1]]
        params = len(writer.parameter_names())
        inputs = [writer.type(ty)[0] for ty in declared["inputs"]]
        output = declared["output"]
        if gives_never(function):
            writer.note("type `!`", function.span)
            writer.made_parameters[params] = "!"
            output, params = self.lists.parameter(params), params + 1
        else:
            output = writer.type(output[0])[0] if output.name == "Return" else self.lists.type(["tuple", []])
        self.lists.outputs[number] = output
        return writer, fact_of(function.name, ["module", self.lists.module(function.module)], params, preds, inputs, output)

    def write_body(self, function):
        writer, fact = self.written[function.id]
        body = writer.body_in_part(function, fact["inputs"], fact["output"])
        is_deep = depth(body) > DEEPEST
        if is_deep:
            writer.note("body that is too deep", function.span)
        self.writers[function.id] = None if is_deep else writer
        if not is_deep:
            fact["body"] = len(self.bodies)
            self.bodies[function.id] = body

    def all_facts(self):
        lists, items, crate = self.lists, self.items, self.crate
        traits = [crate.trait(of, crate.item_writer(of, lists)) for of in map(items.traits.get, lists.traits)]
        impls = [crate.impl(of, crate.item_writer(of, lists)) for of in map(items.impls.get, lists.impls)]
        helpers = [self.helper(of) for of in lists.functions if isinstance(of, Helper)]
        functions = iter(helpers)
        adts, variants = [], []
        while len(adts) < len(lists.adts):  # those of the core library get their numbers as they are named
            of = list(lists.adts)[len(adts)]
            adts.append(self.adt(of, variants))
        facts = {
            "types": types_without(lists, self.bodies.values()), "modules": [crate.parent(module) for module in lists.modules],
            "adts": adts, "variants": variants,
            "fns": [next(functions) if isinstance(of, Helper) else self.written[of][1] for of in lists.functions],
            "traits": [fact for fact, _ in traits], "aliases": [alias for _, of in traits for alias in of], "impls": impls,
            "lang": crate.lang(lists), "bodies": list(self.bodies.values())}
        return {**crate.head(), **facts}

    def helper(self, helper):
        return fact_of(helper.name, ["module", 0], helper.params, [], list(helper.inputs), helper.output)

    def adt(self, item, variants):
        """The facts of an adt; those of its variants are added to these."""
        if isinstance(item, Head):
            return adt_fact("?%d" % list(self.lists.adts).index(item), "enum", ["t"] * item.parts, [], [], None)
        adt, of = self.items.adts[item], self.lists.signature(item)
        for (name, data, _), fields in zip(adt.variants, of.fields):
            is_unit = name_of(data) == "Unit"
            variants.append({"adt": self.lists.adt(item), "name": name, "ctor": "unit" if is_unit else "tuple", "body": None,
                             "fields": [{"name": str(at), "type": ty, "vis": "pub"} for at, ty in enumerate(fields)]})
        numbers = [self.lists.variants[item, at] for at in range(len(adt.variants))]
        return adt_fact(adt.name, adt.kind, of.params, of.preds, numbers, self.crate.repr(adt))

    def fixed(self):
        """The facts with which no hole has a type that is chosen freely."""
        fns = [{**fact, "output": of.fixed_output} if isinstance(of, Helper) else fact
               for of, fact in zip(self.lists.functions, self.facts["fns"])]
        return {**self.facts, "fns": fns}


def fact_of(name, at, params, preds, inputs, output):
    """The facts of a function without a body."""
    return {"name": name, "at": at, "params": ["t"] * params, "preds": preds, "has_self": False, "inputs": inputs,
            "output": output, "safe": True, "vis": "pub", "body": None}


def adt_fact(name, kind, params, preds, variants, representation):
    return {"name": name, "kind": kind, "params": params, "preds": preds, "variants": variants, "repr": representation,
            "unsize": None}


def types_without(lists, bodies):
    """The types, without each `_` that was written and is of no use then."""
    used = {ty for body in bodies for fact in body["exprs"] if fact[0] == "block" for of in fact[2] if of[0] == "let"
            for ty in (of[2],) if ty is not None}
    for number in reversed(range(len(lists.types))):
        if number in used:
            fact = lists.types[number]
            used.update(fact[1] if fact[0] == "tuple" else [part for _, part in fact[2]] if fact[0] in ("adt", "proj") else ())
    unused = set(lists.holes) - used
    return [["tuple", []] if number in unused else fact for number, fact in enumerate(lists.types)]


def depth(body):
    """How deep the trees of a body are at most."""
    deepest, open_nodes = 0, [("e", body["root"], 1), *(("p", param, 1) for param in body["params"])]
    while open_nodes:
        kind, number, level = open_nodes.pop()
        deepest = max(deepest, level)
        parts = parts_of_expr(body["exprs"][number]) if kind == "e" else parts_of_pat(body["pats"][number])
        open_nodes += [(of, part, level + 1) for of, part in parts if part is not None]
    return deepest


def parts_of_expr(fact):
    """The kinds and numbers of the nodes that stand below an expression; None stands for no node."""
    if fact[0] == "block":
        parts = [of for statement in fact[2] for of in (
            [("p", statement[1]), ("e", statement[3])] if statement[0] == "let" else [("e", statement[1])])]
        return [*parts, ("e", fact[3])]
    if fact[0] == "match":
        arms = [of for pattern, guard, arm in fact[2] for of in (("p", pattern), ("e", guard), ("e", arm))]
        return [("e", fact[1]), *arms]
    if fact[0] == "call":
        return [("e", fact[1]), *(("e", part) for part in fact[2])]
    parts = fact[1] if fact[0] == "tuple" else fact[1:] if fact[0] == "if" else []
    return [("e", part) for part in parts]


def parts_of_pat(fact):
    if fact[0] == "lit":
        return [("e", fact[1])]
    parts = fact[1] if fact[0] == "tuple" else fact[2] if fact[0] == "ctor" else []
    return [("p", part) for part in parts]

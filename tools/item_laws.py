"""The laws of facts (docs/LAWS.md), written apart from the program's: what breaks them is told as (law, place, what is wrong).

They are those of the whole format. What is asked of sizes is looked at in part.
"""
import collections

from body_laws import BodyLaws

LISTS = ("types", "modules", "adts", "variants", "fns", "consts", "statics", "traits", "aliases", "impls", "opaques", "bodies")
LONGEST, DEEPEST_TYPE, WIDEST_TYPE = 2 ** 20, 64, 4096
LIMITS = ((1, 32), (1, 65536), (1, 32), (1, 32))
STRUCTS = ("owned_box", "cstr", "range")


class ItemLaws:
    """Looks at facts; `broken` is what it finds."""

    def __init__(self, facts):
        self.facts, self.broken = facts, []
        self.types, self.uses = facts["types"], collections.Counter()
        self.depths, self.sizes = [], []

    def breaks(self, law, place, what):
        self.broken.append((law, place, what))

    def look(self):
        for at, ty in enumerate(self.types):
            self.look_at_type(at, ty, "types[%d]" % at)
        for at, parent in enumerate(self.facts["modules"]):
            if parent is not None and not 0 <= parent < at:
                self.breaks(1, "modules[%d]" % at, "parent %r" % (parent,))
        self.look_at_ids()
        if self.broken:
            return self.broken
        self.look_at_containers()
        self.look_at_counts()
        self.look_at_bodies()
        self.look_at_sizes()
        self.look_at_lang()
        self.look_at_fields()
        self.look_at_holes()
        return sorted(self.broken, key=lambda of: of[0])

    # Ids

    def is_in(self, number, kind, place):
        if not isinstance(number, int) or not 0 <= number < len(self.facts[kind]):
            self.breaks(1, place, "%s %r is out of range" % (kind, number))
            return False
        return True

    def look_at_type(self, at, ty, place):
        parts = list(parts_of(ty))
        for part in parts:
            if not isinstance(part, int) or not 0 <= part < at:
                self.breaks(1, place, "type %r is no earlier one" % (part,))
                parts = []
                break
        for kind, number in items_in(ty):
            self.is_in(number, kind, place)
        self.uses.update(parts)
        self.depths.append(1 + max((self.depths[part] for part in parts), default=0))
        self.sizes.append(1 + sum(self.sizes[part] for part in parts) + consts_in(ty))
        if self.depths[at] > DEEPEST_TYPE or self.sizes[at] > WIDEST_TYPE:
            self.breaks(5, place, "is too large")

    def type(self, number, place):
        self.is_in(number, "types", place)

    def goal(self, goal, place):
        self.is_in(goal[1], "traits" if goal[0] == "trait" else "aliases", place)
        for kind, part in goal[2]:
            if kind == "t":
                self.type(part, place)
        if goal[0] == "proj":
            self.type(goal[3], place)

    def goals(self, goals, place):
        for goal in goals:
            self.goal(goal, place)

    def vis(self, vis, place):
        if vis != "pub":
            self.is_in(vis, "modules", place)

    def at(self, at, place):
        self.is_in(at[1], at[0] + "s", place)

    def params(self, params, place):
        for of in params:
            if of != "t":
                self.type(of[1], place)

    def look_at_ids(self):
        """Ids of items are in range."""
        for at, of in enumerate(self.facts["adts"]):
            self.params(of["params"], "adts[%d]" % at)
            self.goals(of["preds"], "adts[%d]" % at)
            for variant in of["variants"]:
                self.is_in(variant, "variants", "adts[%d]" % at)
        for at, of in enumerate(self.facts["variants"]):
            self.is_in(of["adt"], "adts", "variants[%d]" % at)
            for field in of["fields"]:
                self.type(field["type"], "variants[%d]" % at)
                self.vis(field["vis"], "variants[%d]" % at)
        for at, of in enumerate(self.facts["fns"]):
            self.look_at_definition(of, "fns[%d]" % at, [*of["inputs"], of["output"]])
            self.params(of["params"], "fns[%d]" % at)
            self.goals(of["preds"], "fns[%d]" % at)
        for kind in ("consts", "statics"):
            for at, of in enumerate(self.facts[kind]):
                self.look_at_definition(of, "%s[%d]" % (kind, at), [of["type"]])
        for at, of in enumerate(self.facts["traits"]):
            self.goals(of["preds"], "traits[%d]" % at)
            self.params(of["params"], "traits[%d]" % at)
            for kind in ("fns", "consts"):
                for member in of[kind]:
                    self.is_in(member, kind, "traits[%d]" % at)
            for member in of["types"]:
                self.is_in(member, "aliases", "traits[%d]" % at)
        for at, of in enumerate(self.facts["aliases"]):
            self.is_in(of["trait"], "traits", "aliases[%d]" % at)
            self.goals(of["bounds"], "aliases[%d]" % at)
        for at, of in enumerate(self.facts["impls"]):
            self.look_at_impl_ids(of, "impls[%d]" % at)
        for at, of in enumerate(self.facts["opaques"]):
            self.at(of["owner"], "opaques[%d]" % at)
            self.goals(of["bounds"], "opaques[%d]" % at)

    def look_at_definition(self, of, place, types):
        for ty in types:
            self.type(ty, place)
        if "at" in of:
            self.at(of["at"], place)
            self.vis(of["vis"], place)
        if of["body"] is not None:
            self.is_in(of["body"], "bodies", place)

    def look_at_impl_ids(self, of, place):
        self.type(of["self"], place)
        self.params(of["params"], place)
        self.goals(of["preds"], place)
        if of["trait"] is not None:
            self.goal(["trait", of["trait"][0], of["trait"][1]], place)
        for kind in ("fns", "consts"):
            for member in of[kind]:
                self.is_in(member, kind, place)
        for alias, ty in of["types"]:
            self.is_in(alias, "aliases", place)
            self.type(ty, place)

    # Containers

    def look_at_containers(self):
        """What says that it stands in something is listed there, once, and the other way round."""
        facts = self.facts
        self.agree("adts", "variants", "variants", lambda of, at: of["adt"] == at, lambda of: True)
        self.agree("traits", "types", "aliases", lambda of, at: of["trait"] == at, lambda of: True)
        for kind in ("fns", "consts"):
            for outer in ("traits", "impls"):
                word = outer[:-1]
                self.agree(outer, kind, kind, lambda of, at, word=word: of["at"] == [word, at],
                           lambda of, word=word: of["at"][0] == word)
        for at, of in enumerate(facts["impls"]):
            given = [alias for alias, _ in of["types"]]
            trait = None if of["trait"] is None else of["trait"][0]
            if len(set(given)) != len(given) or any(facts["aliases"][alias]["trait"] != trait for alias in given):
                self.breaks(1, "impls[%d]" % at, "gives types twice, or to another trait")
        owners = [(*of["owner"], of["index"]) for of in facts["opaques"]]
        if len(set(owners)) != len(owners):
            self.breaks(1, "opaques", "two are the same of one owner")
        for at, of in enumerate(facts["opaques"]):
            if of["owner"][0] == "impl" and of["owner"][2] not in [a for a, _ in facts["impls"][of["owner"][1]]["types"]]:
                self.breaks(1, "opaques[%d]" % at, "its owner does not give the associated type")
        bodies = collections.Counter(of["body"] for kind in ("fns", "consts", "statics", "variants") for of in facts[kind]
                                     if of["body"] is not None)
        for at in range(len(facts["bodies"])):
            if bodies[at] != 1:
                self.breaks(1, "bodies[%d]" % at, "is that of %d definitions" % bodies[at])

    def agree(self, outer, key, inner, says, is_inner):
        """Lists of an item agree with what is listed."""
        listed = collections.Counter()
        for at, of in enumerate(self.facts[outer]):
            for number in of[key]:
                listed[number] += 1
                if not says(self.facts[inner][number], at):
                    self.breaks(1, "%s[%d]" % (outer, at), "%s %d is not its own" % (inner, number))
        for number, of in enumerate(self.facts[inner]):
            if is_inner(of) and listed[number] != 1:
                self.breaks(1, "%s[%d]" % (inner, number), "is listed %d times in %s" % (listed[number], outer))

    # Counts

    def kinds(self, params):
        return ["t" if of == "t" else "c" for of in params]

    def kinds_of(self, at):
        """The kinds of the parameters of what an item stands in."""
        if at[0] == "trait":
            return ["t", *self.kinds(self.facts["traits"][at[1]]["params"])]
        return self.kinds(self.facts["impls"][at[1]]["params"]) if at[0] == "impl" else []

    def kinds_of_opaque(self, opaque):
        owner = self.facts["opaques"][opaque]["owner"]
        if owner[0] == "impl":
            return self.kinds_of(owner[:2])
        of = self.facts["fns"][owner[1]]
        return self.kinds_of(of["at"]) + self.kinds(of["params"])

    def wanted(self, word, number):
        """The kinds of the arguments of an item."""
        if word == "adts":
            return self.kinds(self.facts["adts"][number]["params"])
        if word == "opaques":
            return self.kinds_of_opaque(number)
        return self.kinds_of(["trait", self.facts["aliases"][number]["trait"] if word == "aliases" else number])

    def fits(self, number, scope, place):
        """A type's lists agree, and its parameters are in this scope."""
        stack, seen = [number], set()
        while stack:
            at = stack.pop()
            if at in seen:
                continue
            seen.add(at)
            ty = self.types[at]
            stack.extend(parts_of(ty))
            for kind, parameter in parameters_in(ty):
                if not parameter < len(scope) or scope[parameter] != kind:
                    self.breaks(2, place, "parameter %d in types[%d] is not in scope" % (parameter, at))
            for kind, item, arguments in lists_in(ty):
                self.agrees(self.wanted(kind, item), arguments, place)
            if ty[0] == "dyn":
                self.look_at_dyn(ty, place)

    def agrees(self, wanted, arguments, place):
        if [kind for kind, _ in arguments] != wanted:
            self.breaks(2, place, "a list of %s where %s is wanted" % ([kind for kind, _ in arguments], wanted))

    def look_at_dyn(self, ty, place):
        _, principal, projections, autos = ty
        if len(set(autos)) != len(autos) or any(not self.facts["traits"][of]["auto"] for of in autos):
            self.breaks(2, place, "auto traits of a `dyn`")
        if principal is None:
            if projections:
                self.breaks(2, place, "projections of a `dyn` without a principal")
            return
        self.agrees(self.wanted("traits", principal[0])[1:], principal[1], place)
        known = self.supertraits(principal[0])
        aliases = [alias for alias, _ in projections]
        if len(set(aliases)) != len(aliases) or any(self.facts["aliases"][of]["trait"] not in known for of in aliases):
            self.breaks(2, place, "projections of a `dyn`")

    def supertraits(self, trait):
        found, stack = set(), [trait]
        while stack:
            at = stack.pop()
            if at not in found:
                found.add(at)
                stack += [goal[1] for goal in self.facts["traits"][at]["preds"]
                          if goal[0] == "trait" and self.types[goal[2][0][1]] == ["param", 0]]
        return found

    def goals_fit(self, goals, scope, place):
        for goal in goals:
            self.agrees(self.wanted("traits" if goal[0] == "trait" else "aliases", goal[1]), goal[2], place)
            self.list_fits(goal[2], scope, place)
            if goal[0] == "proj":
                self.fits(goal[3], scope, place)

    def list_fits(self, arguments, scope, place):
        for kind, part in arguments:
            if kind == "t":
                self.fits(part, scope, place)
            elif isinstance(part, list) and (part[1] >= len(scope) or scope[part[1]] != "c"):
                self.breaks(2, place, "const parameter %d is not in scope" % part[1])

    def look_at_counts(self):
        """Lists agree, and parameters are in scope."""
        facts = self.facts
        for at, of in enumerate(facts["adts"]):
            place, scope = "adts[%d]" % at, self.kinds(of["params"])
            self.goals_fit(of["preds"], scope, place)
            for variant in of["variants"]:
                for field in facts["variants"][variant]["fields"]:
                    self.fits(field["type"], scope, "variants[%d]" % variant)
            if of["kind"] != "enum" and len(of["variants"]) != 1:
                self.breaks(2, place, "has %d variants" % len(of["variants"]))
            if of["unsize"] is not None and (of["unsize"] >= len(scope) or scope[of["unsize"]] != "t"):
                self.breaks(2, place, "unsize")
        for at, of in enumerate(facts["fns"]):
            self.look_at_function(of, "fns[%d]" % at)
        for at, of in enumerate(facts["traits"]):
            self.goals_fit(of["preds"], self.kinds_of(["trait", at]), "traits[%d]" % at)
        for at, of in enumerate(facts["aliases"]):
            self.goals_fit(of["bounds"], self.kinds_of(["trait", of["trait"]]), "aliases[%d]" % at)
        for at, of in enumerate(facts["impls"]):
            place, scope = "impls[%d]" % at, self.kinds(of["params"])
            self.goals_fit(of["preds"], scope, place)
            self.fits(of["self"], scope, place)
            if of["trait"] is not None:
                self.agrees(self.wanted("traits", of["trait"][0])[1:], of["trait"][1], place)
                self.list_fits(of["trait"][1], scope, place)
            for _, ty in of["types"]:
                self.fits(ty, scope, place)
        for at, of in enumerate(facts["opaques"]):
            self.goals_fit(of["bounds"], self.kinds_of_opaque(at), "opaques[%d]" % at)

    def look_at_function(self, of, place):
        scope = self.kinds_of(of["at"]) + self.kinds(of["params"])
        for ty in (*of["inputs"], of["output"]):
            self.fits(ty, scope, place)
        self.goals_fit(of["preds"], scope, place)
        if of["has_self"] and (of["at"][0] == "module" or not of["inputs"]):
            self.breaks(2, place, "takes `self`")
        if of["body"] is not None:
            body = self.facts["bodies"][of["body"]]
            if len(body["params"]) + (body["self"] is not None) != len(of["inputs"]):
                self.breaks(2, place, "has %d inputs, its body %d patterns" % (len(of["inputs"]), len(body["params"])))
            if (body["self"] is not None) != of["has_self"]:
                self.breaks(2, place, "`self` of its body")

    # Bodies

    def look_at_bodies(self):
        for kind in ("fns", "consts", "statics", "variants"):
            for of in self.facts[kind]:
                if of["body"] is not None:
                    self.look_at_body(kind, of)

    def look_at_body(self, kind, of):
        at = of.get("at", ["module", 0])
        scope = self.kinds_of(at) + (self.kinds(of["params"]) if kind == "fns" else [])
        if kind == "variants":
            scope = self.kinds(self.facts["adts"][of["adt"]]["params"])
        body = BodyLaws(self.facts, of["body"], at[1] if at[0] == "impl" else None)
        self.broken += body.look()
        if kind != "fns" and (body.body["self"] is not None or body.body["params"]):
            self.breaks(2, body.place, "has parameters")
        for use in body.uses:
            if isinstance(use, int) and self.is_in(use, "types", body.place):
                self.uses[use] += 1
                self.fits(use, scope, body.place)
        for arguments, where in body.arguments:
            self.list_fits([of for of in arguments if of[0] == "c"], scope, body.place + where)
        for number, e in enumerate(body.exprs):
            if e[0] == "path" and e[1][0] == "constparam" and (e[1][1] >= len(scope) or scope[e[1][1]] != "c"):
                self.breaks(2, "%s.exprs[%d]" % (body.place, number), "const parameter %d" % e[1][1])

    # The rest

    def look_at_sizes(self):
        for kind in LISTS:
            if len(self.facts[kind]) > LONGEST:
                self.breaks(5, kind, "is too long")
        for (low, high), limit in zip(LIMITS, self.facts["limits"]):
            if not low <= limit <= high:
                self.breaks(6, "limits", "%r" % (limit,))

    def look_at_lang(self):
        for name, number in self.facts["lang"].items():
            kind = "adts" if name.startswith(STRUCTS) else "traits"
            if not self.is_in(number, kind, "lang.%s" % name):
                continue
            of = self.facts[kind][number]
            if kind == "adts":
                wanted = 0 if name in ("cstr", "range_full") else 1
                is_right = of["params"][:wanted] == ["t"] * wanted and (name == "owned_box" or len(of["params"]) == wanted)
            else:
                wanted = 0 if name in ("sized", "copy", "clone", "drop", "deref", "deref_mut", "neg", "not") else 1
                is_right = of["params"] == ["t"] * wanted
            if not is_right:
                self.breaks(7, "lang.%s" % name, "has other parameters")

    def look_at_fields(self):
        for at, of in enumerate(self.facts["variants"]):
            names = [field["name"] for field in of["fields"]]
            if len(set(names)) != len(names) or of["ctor"] == "tuple" and names != [str(n) for n in range(len(names))]:
                self.breaks(8, "variants[%d]" % at, "names of fields")

    def look_at_holes(self):
        """A `_` stands once, in a type that a body names once."""
        holed = set()
        for at, ty in enumerate(self.types):
            if ty == "_" or any(part in holed for part in parts_of(ty)) or "_" in consts_of(ty):
                holed.add(at)
                if self.uses[at] != 1:
                    self.breaks(9, "types[%d]" % at, "holds a `_`, and is used %d times" % self.uses[at])


def arguments_of(ty):
    """The lists of arguments in a type."""
    if isinstance(ty, str):
        return []
    if ty[0] in ("adt", "proj", "opaque"):
        return [ty[2]]
    return [ty[1][1]] if ty[0] == "dyn" and ty[1] is not None else []


def parts_of(ty):
    """The types that stand in a type."""
    if isinstance(ty, str):
        return
    word = ty[0]
    if word == "tuple":
        yield from ty[1]
    elif word in ("array", "slice"):
        yield ty[1]
    elif word in ("ref", "ptr"):
        yield ty[-1]
    elif word == "fnptr":
        yield from ty[2]
        yield ty[3]
    for arguments in arguments_of(ty):
        yield from (part for kind, part in arguments if kind == "t")
    if word == "dyn":
        yield from (part for _, part in ty[2])


def consts_of(ty):
    found = [part for arguments in arguments_of(ty) for kind, part in arguments if kind == "c"]
    return found + ([ty[2]] if ty[0] == "array" else [])


def consts_in(ty):
    return len(consts_of(ty))


def items_in(ty):
    """The items that a type names, each with its list."""
    if isinstance(ty, str):
        return
    words = {"adt": "adts", "proj": "aliases", "opaque": "opaques"}
    if ty[0] in words:
        yield words[ty[0]], ty[1]
    if ty[0] == "dyn":
        if ty[1] is not None:
            yield "traits", ty[1][0]
        yield from (("aliases", alias) for alias, _ in ty[2])
        yield from (("traits", trait) for trait in ty[3])


def lists_in(ty):
    """The items in a type that take arguments, with these."""
    words = {"adt": "adts", "proj": "aliases", "opaque": "opaques"}
    if not isinstance(ty, str) and ty[0] in words:
        yield words[ty[0]], ty[1], ty[2]


def parameters_in(ty):
    """The parameters that stand directly in a type, by their kinds."""
    if ty[0] == "param":
        yield "t", ty[1]
    for const in consts_of(ty):
        if isinstance(const, list):
            yield "c", const[1]

"""The laws of bodies (docs/LAWS.md), written apart from the program's: what breaks them is told as (law, place, what is wrong)."""

DEEPEST = 256
OPERANDS = {"const": [1], "field": [1], "become": [1], "cast": [1], "ref": [3], "box": [1], "un": [2], "bin": [2, 3],
            "range": [2, 3], "index": [1, 2], "repeat": [1, 2], "if": [1, 2, 3], "break": [2], "return": [1], "loop": [2]}
PLACES = {"path": ("local", "static"), "un": ("deref",), "field": None, "index": None}
INTEGER_BOUND = 2 ** 128


class BodyLaws:
    """Looks at one body; `broken` is what it finds."""

    def __init__(self, facts, number, impl):
        self.facts, self.body, self.impl = facts, facts["bodies"][number], impl
        self.place = "bodies[%d]" % number
        self.exprs, self.pats, self.bindings = self.body["exprs"], self.body["pats"], self.body["bindings"]
        self.broken, self.seen, self.bound, self.labels = [], set(), {}, set()
        self.uses = []  # the types that are written in the body, each time that they are named
        self.arguments = []  # the lists that are written in it

    def breaks(self, law, where, what):
        self.broken.append((law, self.place + where, what))

    def is_in(self, number, items, where, law=1):
        if not isinstance(number, int) or not 0 <= number < len(items):
            self.breaks(law, where, "%r is out of range" % (number,))
            return False
        return True

    def look(self):
        """Looks at the whole body, in the order of the walk."""
        body = self.body
        self.is_in(body["module"], self.facts["modules"], ".module")
        for trait in body["traits"]:
            self.is_in(trait, self.facts["traits"], ".traits")
        if body["self"] is not None and self.is_in(body["self"], self.bindings, ".self"):
            self.bound[body["self"]] = [None]
        for pattern in body["params"]:
            self.walk(("p", pattern), 1, (), False)
        self.walk(("e", body["root"]), 1, (), False)
        for kind, nodes in (("e", self.exprs), ("p", self.pats)):
            for at in range(len(nodes)):
                if (kind, at) not in self.seen:
                    self.breaks(3, ".%s[%d]" % (kind, at), "is not reached")
        for at in range(len(self.bindings)):
            self.look_at_binding(at)
        return self.broken

    def walk(self, node, depth, within, is_target):
        """Looks at a node and what is below; `within` are the or-patterns around it, each with the part."""
        stack = [(node, depth, within, is_target)]
        while stack:
            (kind, number), depth, within, is_target = stack.pop()
            where = ".%s[%s]" % ({"e": "exprs", "p": "pats"}[kind], number)
            if not self.is_in(number, self.exprs if kind == "e" else self.pats, where):
                continue
            if (kind, number) in self.seen:
                self.breaks(3, where, "is reached again")
                continue
            self.seen.add((kind, number))
            if depth > DEEPEST:
                self.breaks(5, where, "is too deep")
            if kind == "e":
                below = self.parts_of_expr(self.exprs[number], where)
                targets = self.is_assignment(self.exprs[number])
                below = [(part, depth + 1, (), targets and part[0] == "p") for part in below]
            else:
                below = self.parts_of_pat(self.pats[number], where, number, within, is_target)
                below = [(part, depth + 1, around, is_target and part[0] == "p") for part, around in below]
            stack.extend(reversed(below))

    def is_assignment(self, e):
        return e[0] == "assign"

    def parts_of_expr(self, e, where):
        """The nodes below an expression in the order of the walk."""
        if isinstance(e, str):
            return []
        word = e[0]
        if word == "lit":
            self.look_at_literal(e[1], where, False)
            return []
        if word == "path":
            self.look_at_path(e[1], where)
            return []
        if word in ("block", "unsafe"):
            return self.parts_of_block(e, where)
        if word in ("loop", "break", "continue"):
            self.look_at_label(e[1], word == "loop", where)
        if word == "cast":
            self.uses.append(e[2])
        if word == "repeat" and e[3] == "_":
            self.uses.append("_")
        if word == "let":
            return [("e", e[2]), ("p", e[1])]
        if word == "match":
            return [("e", e[1]), *(("p", arm[0]) for arm in e[2]), *(("e", part) for arm in e[2] for part in arm[1:] if part is not None)]
        if word in ("call", "method"):
            self.look_at_list(e[3] if word == "method" else None, where)
            arguments = [("e", part) for part in e[-1]]
            return [("e", e[1]), *sorted(arguments, key=lambda part: self.is_closure(part[1]))]
        if word == "record":
            self.look_at_variant(e[1], where)
            return [("e", part) for _, part in e[2]] + ([("e", e[3])] if e[3] is not None else [])
        if word == "assign":
            return [("p", e[1]), ("e", e[2])] if self.is_place(e[1]) else [("e", e[2]), ("p", e[1])]
        if word in ("tuple", "array"):
            return [("e", part) for part in e[1]]
        if word == "closure":
            self.uses += [ty for _, ty in e[1] if ty is not None] + ([e[2]] if e[2] is not None else [])
            return [("p", part) for part, _ in e[1]] + [("e", e[3])]
        return [("e", e[at]) for at in OPERANDS.get(word, ()) if e[at] is not None]

    def is_closure(self, number):
        return number < len(self.exprs) and self.exprs[number][0] == "closure"

    def is_place(self, pattern):
        """Whether the target of an assignment is a place."""
        if pattern >= len(self.pats):
            return False
        pat = self.pats[pattern]
        if pat == "wild" or pat[0] != "expr":
            return False
        e = self.exprs[pat[1]] if pat[1] < len(self.exprs) else "missing"
        if e == "_":
            return True
        if isinstance(e, str) or e[0] not in PLACES:
            return False
        wanted = PLACES[e[0]]
        return wanted is None or (e[1] if e[0] == "un" else e[1][0]) in wanted

    def parts_of_block(self, e, where):
        label, statements, tail = e[1:] if e[0] == "block" else (None, *e[1:])
        self.look_at_label(label, True, where)
        parts = []
        for of in statements:
            if of[0] == "expr":
                parts.append(("e", of[1]))
                continue
            _, pattern, ty, value, other = of
            if ty is not None:
                self.uses.append(ty)
            parts += [("e", value)] if value is not None else []
            parts += [("p", pattern)]
            parts += [("e", other)] if other is not None else []
        return parts + ([("e", tail)] if tail is not None else [])

    def look_at_label(self, label, stands, where):
        if label is None:
            return
        if not self.is_in(label, range(self.body["labels"]), where):
            return
        if stands and label in self.labels:
            self.breaks(3, where, "label %d stands again" % label)
        self.labels |= {label} if stands else set()

    def look_at_literal(self, literal, where, is_in_pattern):
        if literal == "cstr" or literal[0] in ("bool", "str"):
            return
        if literal[0] == "bytes":
            if not 0 <= literal[1] < 2 ** 32:
                self.breaks(8, where, "length %d" % literal[1])
        elif literal[0] == "char":
            if not 0 <= literal[1] < 0x110000 or 0xD800 <= literal[1] < 0xE000:
                self.breaks(8, where, "is no character")
        elif literal[0] == "int":
            digits = literal[1].removeprefix("-") if is_in_pattern else literal[1]
            if not (digits.isascii() and digits.isdigit()) or int(digits) >= INTEGER_BOUND:
                self.breaks(8, where, "literal %s" % literal[1])

    def look_at_list(self, arguments, where):
        if arguments is not None:
            self.arguments.append((arguments, where))
            for kind, part in arguments:
                self.uses.append("_" if kind == "c" and part == "_" else part if kind == "t" else None)

    def look_at_path(self, path, where):
        """A path to a value."""
        word, facts = path[0], self.facts
        if word == "unresolved":
            return
        lists = {"local": self.bindings, "fn": facts["fns"], "const": facts["consts"], "static": facts["statics"],
                 "ctor": facts["variants"], "typed": facts["types"], "trait": facts["traits"], "implself": facts["impls"]}
        if word != "constparam" and not self.is_in(path[1], lists[word], where):
            return
        if word == "local" and path[1] not in self.bound:
            self.breaks(4, where, "binding %d is not typed before" % path[1])
        if word in ("fn", "const") and lists[word][path[1]]["at"][0] != "module":
            self.breaks(1, where, "names an associated item")
        if word == "implself" and path[1] != self.impl:
            self.breaks(1, where, "constructor `Self` of another impl")
        if word == "typed":
            self.uses.append(path[1])
        if word == "trait":
            self.look_at_list(path[2], where)
        self.look_at_list(path[-1], where)

    def look_at_variant(self, path, where):
        """A path to a variant."""
        if path == "unresolved":
            return
        if path[0] == "variant":
            if self.is_in(path[1], self.facts["variants"], where):
                self.look_at_list(path[2], where)
        elif self.is_in(path[1], self.facts["types"], where):
            self.uses.append(path[1])

    def parts_of_pat(self, pat, where, number, within, is_target):
        """The nodes below a pattern in the order of the walk, each with the or-patterns around it."""
        if isinstance(pat, str):
            return []
        word, below = pat[0], []
        if word == "bind":
            if self.is_in(pat[1], self.bindings, where):
                self.bound.setdefault(pat[1], []).append(within)
            below = [("p", pat[2])] if pat[2] is not None else []
        elif word in ("tuple", "or"):
            below = [("p", part) for part in pat[1]]
        elif word == "ctor":
            self.look_at_variant(pat[1], where)
            below = [("p", part) for part in pat[2]]
        elif word == "record":
            self.look_at_variant(pat[1], where)
            below = [("p", part) for _, part in pat[2]]
        elif word == "path":
            self.look_at_path(pat[1], where)
        elif word in ("lit", "range"):
            return [(part, within) for part in self.literals_of(pat, where)]
        elif word == "slice":
            below = [("p", part) for part in (*pat[1], *([] if pat[2] is None else [pat[2]]), *pat[3])]
        elif word in ("ref", "box"):
            below = [("p", pat[-1])]
        elif word in ("const", "expr"):
            if word == "expr" and not is_target:
                self.breaks(8, where, "a place stands under no assignment")
            below = [("e", pat[1])]
        dots = pat[-1] if word in ("tuple", "ctor") else None
        if dots is not None and not 0 <= dots <= len(pat[-2]):
            self.breaks(8, where, "`..` after %d patterns" % dots)
        if word == "or":
            return [(part, (*within, (number, at))) for at, part in enumerate(below)]
        return [(part, within) for part in below]

    def literals_of(self, pat, where):
        """The expressions of a literal or of the ends of a range, in which a minus may stand."""
        for number in pat[1:]:
            if number is None or not self.is_in(number, self.exprs, where):
                continue
            e = self.exprs[number]
            if e[0] == "lit":
                if ("e", number) in self.seen:
                    self.breaks(3, where, "its literal is reached again")
                self.seen.add(("e", number))
                self.look_at_literal(e[1], where, True)
            elif pat[0] == "lit":
                self.breaks(8, where, "is no literal")
            else:
                yield "e", number

    def look_at_binding(self, at):
        """A binding is bound by `self` alone, or by patterns in different parts of one or-pattern."""
        ways = self.bound.get(at, [])
        if not ways:
            self.breaks(3, ".bindings[%d]" % at, "is not bound")
        for first, one in enumerate(ways):
            for other in ways[first + 1:]:
                if one is None or other is None or not are_apart(one, other):
                    self.breaks(3, ".bindings[%d]" % at, "is bound twice")
                    return


def are_apart(one, other):
    """Whether two patterns stand in different parts of one or-pattern."""
    parts = dict(one)
    return any(number in parts and parts[number] != part for number, part in other)

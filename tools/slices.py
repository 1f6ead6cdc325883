"""Asks for the reports on functions of a crate; cuts its facts down to what one function needs, where there is none else."""
import json
import re

from program import NoReport

LISTS = ("modules", "types", "adts", "variants", "fns", "traits", "aliases", "impls")


class Slice:
    """The facts that a function needs, with numbers of their own: their text, and the number of the function."""

    def __init__(self, facts, number):
        self.facts, self.kept = facts, {kind: set() for kind in LISTS}
        self.open = []
        self.body = facts["bodies"][facts["fns"][number]["body"]]
        self.keep("modules", 0)
        for trait in facts["lang"].values():
            self.keep("traits", trait)
        self.keep("fns", number)
        self.keep_of_body(self.body)
        while self.open:
            kind, at = self.open.pop()
            getattr(self, "keep_of_" + kind)(facts[kind][at])
            if kind == "traits":
                for impl, of in enumerate(facts["impls"]):
                    if of["trait"][0] == at:
                        self.keep("impls", impl)
        self.old = {kind: sorted(of) for kind, of in self.kept.items()}
        self.new = {kind: {old: new for new, old in enumerate(of)} for kind, of in self.old.items()}
        self.number = self.new["fns"][number]
        self.text = text_of(self.written(number))

    # What is needed.

    def keep(self, kind, at):
        if at is not None and at not in self.kept[kind]:
            self.kept[kind].add(at)
            self.open.append((kind, at))

    def keep_types(self, types):
        for ty in types:
            self.keep("types", ty)

    def keep_arguments(self, arguments):
        self.keep_types(ty for _, ty in arguments)

    def keep_goals(self, goals):
        for goal in goals:
            self.keep("traits" if goal[0] == "trait" else "aliases", goal[1])
            self.keep_arguments(goal[2])
            self.keep_types(goal[3:])

    def keep_of_modules(self, parent):
        self.keep("modules", parent)

    def keep_of_types(self, ty):
        if ty[0] == "tuple":
            self.keep_types(ty[1])
        elif ty[0] in ("adt", "proj"):
            self.keep("adts" if ty[0] == "adt" else "aliases", ty[1])
            self.keep_arguments(ty[2])

    def keep_of_adts(self, adt):
        self.keep_goals(adt["preds"])
        for variant in adt["variants"]:
            self.keep("variants", variant)

    def keep_of_variants(self, variant):
        self.keep("adts", variant["adt"])
        for field in variant["fields"]:
            self.keep("types", field["type"])
            self.keep_visibility(field["vis"])

    def keep_visibility(self, vis):
        if vis != "pub":
            self.keep("modules", vis)

    def keep_of_fns(self, fn):
        self.keep("modules", fn["at"][1])
        self.keep_visibility(fn["vis"])
        self.keep_types([*fn["inputs"], fn["output"]])
        self.keep_goals(fn["preds"])

    def keep_of_traits(self, trait):
        self.keep_goals(trait["preds"])
        for alias in trait["types"]:
            self.keep("aliases", alias)

    def keep_of_aliases(self, alias):
        self.keep("traits", alias["trait"])
        self.keep_goals(alias["bounds"])

    def keep_of_impls(self, impl):
        self.keep("traits", impl["trait"][0])
        self.keep_arguments(impl["trait"][1])
        self.keep_goals(impl["preds"])
        self.keep_types([impl["self"], *(ty for _, ty in impl["types"])])

    def keep_of_body(self, body):
        self.keep("modules", body["module"])
        for fact in body["exprs"]:
            if fact[0] == "block":
                self.keep_types(statement[2] for statement in fact[2] if statement[0] == "let")
            elif fact[0] == "path":
                self.keep_path(fact[1])
        for fact in body["pats"]:
            if fact[0] in ("path", "ctor"):
                self.keep_path(fact[1])

    def keep_path(self, path):
        if path[0] != "local":
            self.keep("fns" if path[0] == "fn" else "variants", path[1])

    # How it is written.

    def written(self, number):
        written = {kind: [getattr(self, "of_" + kind)(self.facts[kind][at]) for at in self.old[kind]] for kind in LISTS}
        written["fns"][self.number]["body"] = 0
        lang = {name: self.new["traits"][trait] for name, trait in self.facts["lang"].items()}
        return {**self.facts, **written, "lang": lang, "bodies": [self.of_body(self.body)]}

    def renumbered(self, kind, numbers):
        return [None if at is None else self.new[kind][at] for at in numbers]

    def arguments(self, arguments):
        return [[word, self.new["types"][ty]] for word, ty in arguments]

    def goals(self, goals):
        return [[goal[0], self.new["traits" if goal[0] == "trait" else "aliases"][goal[1]], self.arguments(goal[2]),
                 *self.renumbered("types", goal[3:])] for goal in goals]

    def visibility(self, vis):
        return vis if vis == "pub" else self.new["modules"][vis]

    def of_modules(self, parent):
        return None if parent is None else self.new["modules"][parent]

    def of_types(self, ty):
        if ty[0] == "tuple":
            return ["tuple", self.renumbered("types", ty[1])]
        if ty[0] in ("adt", "proj"):
            return [ty[0], self.new["adts" if ty[0] == "adt" else "aliases"][ty[1]], self.arguments(ty[2])]
        return ty

    def of_adts(self, adt):
        return {**adt, "preds": self.goals(adt["preds"]), "variants": self.renumbered("variants", adt["variants"])}

    def of_variants(self, variant):
        fields = [{**field, "type": self.new["types"][field["type"]], "vis": self.visibility(field["vis"])}
                  for field in variant["fields"]]
        return {**variant, "adt": self.new["adts"][variant["adt"]], "fields": fields}

    def of_fns(self, fn):
        return {**fn, "at": ["module", self.new["modules"][fn["at"][1]]], "vis": self.visibility(fn["vis"]), "body": None,
                "inputs": self.renumbered("types", fn["inputs"]), "output": self.new["types"][fn["output"]],
                "preds": self.goals(fn["preds"])}

    def of_traits(self, trait):
        return {**trait, "preds": self.goals(trait["preds"]), "types": self.renumbered("aliases", trait["types"])}

    def of_aliases(self, alias):
        return {**alias, "trait": self.new["traits"][alias["trait"]], "bounds": self.goals(alias["bounds"])}

    def of_impls(self, impl):
        trait, arguments = impl["trait"]
        return {**impl, "trait": [self.new["traits"][trait], self.arguments(arguments)], "preds": self.goals(impl["preds"]),
                "self": self.new["types"][impl["self"]],
                "types": [[self.new["aliases"][alias], self.new["types"][ty]] for alias, ty in impl["types"]]}

    def of_body(self, body):
        return {**body, "module": self.new["modules"][body["module"]], "exprs": list(map(self.of_expr, body["exprs"])),
                "pats": [[fact[0], self.path(fact[1]), *fact[2:]] if fact[0] in ("path", "ctor") else fact
                         for fact in body["pats"]]}

    def of_expr(self, fact):
        if fact[0] == "block":
            statements = [["let", of[1], *self.renumbered("types", of[2:3]), *of[3:]] if of[0] == "let" else of
                          for of in fact[2]]
            return ["block", fact[1], statements, fact[3]]
        return ["path", self.path(fact[1])] if fact[0] == "path" else fact

    def path(self, path):
        return path if path[0] == "local" else [path[0], self.new["fns" if path[0] == "fn" else "variants"][path[1]], *path[2:]]

    # What is said of it.

    def back(self, report):
        """A report on the slice, with the numbers of the whole facts."""
        names = {of["name"] for kind in ("adts", "traits", "aliases") for of in self.facts[kind]}

        def renamed(found):
            kind, number = found.groups()
            if found.group() in names:
                return found.group()
            return kind + str(self.old["fns" if kind == "fn" else "variants"][int(number)])

        def old(text):
            return re.sub(r"\b(fn|variant)(\d+)\b", renamed, text)

        report.types = {node: old(ty) for node, ty in report.types.items()}
        report.variants = {node: self.old["variants"][at] for node, at in report.variants.items()}
        report.complaints = [(name, node, {field: old(text) for field, text in fields.items()})
                             for name, node, fields in report.complaints]
        return report


def reports_on(asked, program):
    """The reports on functions, of which each is facts and a number there; a NoReport where there is none.

    Facts are read once for all their functions. What has no report so is asked once more with what it needs alone, as facts may
    be too long, or refused for another function.
    """
    texts = {id(facts): text_of(facts) for facts in {id(facts): facts for facts, _ in asked}.values()}
    reports = program.reports([(texts[id(facts)], number) for facts, number in asked])
    left = [at for at, report in enumerate(reports) if isinstance(report, NoReport)]
    for at, report in zip(left, reports_alone([asked[at] for at in left], program)):
        reports[at] = report
    return reports


def reports_alone(asked, program):
    """The same, where each function has facts of its own."""
    slices = [Slice(facts, number) for facts, number in asked]
    reports = program.reports([(of.text, of.number) for of in slices])
    return [of if isinstance(of, NoReport) else own.back(of) for own, of in zip(slices, reports)]


def text_of(facts):
    return json.dumps(facts, separators=(",", ":"))

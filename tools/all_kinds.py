#!/usr/bin/env python3
"""Facts with a body that has every kind of expression, pattern, path, literal and statement that the laws let stand.

Function 0 is that of examples/first_run.json, function 1 has the body of all kinds. `facts` gives them to other tools.
Usage: tools/all_kinds.py        prints them as JSON
"""
import json
import os

TOP = os.path.dirname(os.path.dirname(os.path.abspath(__file__)))
FIRST_RUN = os.path.join(TOP, "examples", "first_run.json")

SIGNS = ("&& || + - * / % & | ^ << >> == != < <= > >= += -= *= /= %= &= |= ^= <<= >>=").split()
ARGS = [["t", 0], ["c", 2 ** 64 - 1], ["c", "unknown"], ["c", "_"]]


class Body:
    """A body that is made node by node; each node is used once."""

    def __init__(self):
        self.exprs, self.pats, self.bindings, self.labels = [], [], [], 0

    def expr(self, kind):
        self.exprs.append(kind)
        return len(self.exprs) - 1

    def pat(self, kind):
        self.pats.append(kind)
        return len(self.pats) - 1

    def one(self):
        return self.expr(["lit", ["int", "1", "u8"]])

    def wild(self):
        return self.pat("wild")

    def binding(self, mode="plain"):
        self.bindings.append(["x%d" % len(self.bindings), mode])
        return len(self.bindings) - 1

    def bind(self, binding, below=None):
        return self.pat(["bind", binding, below])

    def local(self, binding, args=None):
        return self.expr(["path", ["local", binding, args]])

    def label(self):
        self.labels += 1
        return self.labels - 1


def literals_and_paths(body):
    kinds = [["lit", literal] for literal in (
        ["bool", True], ["char", 97], ["int", "1", None], ["int", "1", "i64"], ["str", "a"], ["bytes", 1], "cstr")]
    kinds += [["path", path] for path in (
        ["fn", 0, None], ["fn", 0, ARGS], ["ctor", 0, None], ["ctor", 0, ARGS], ["typed", 0, "MAX", None],
        ["typed", 0, "max", ARGS], ["trait", 0, ARGS, "f", None], ["trait", 0, None, "f", ARGS], ["unresolved", True])]
    return [body.expr(kind) for kind in kinds + ["missing", "_", "offset"]]


def blocks(body):
    one, wild, expr = body.one, body.wild, body.expr
    looped, blocked = body.label(), body.label()
    inside = [expr(["break", looped, one()]), expr(["continue", looped]), expr(["return", None]), expr(["return", one()]),
              expr(["become", one()]), expr(["break", None, None]), expr(["continue", None])]
    loop = expr(["loop", looped, expr(["block", blocked, [["expr", e, True] for e in inside], None])])
    return [loop, expr(["loop", None, one()]), expr(["unsafe", [["let", wild(), 0, one(), one()]], one()]), expr(["const", one()]),
            expr(["if", expr(["let", wild(), one()]), one(), None]), expr(["if", one(), one(), one()]),
            expr(["match", one(), [[wild(), one(), one()], [wild(), None, one()]]]), expr(["match", one(), []])]


def calls_and_fields(body):
    one, expr = body.one, body.expr
    x, y = body.binding(), body.binding("mut")
    closure = expr(["closure", [[body.bind(x), 0], [body.bind(y), None]], 0, body.local(x)])
    return [expr(["call", one(), [closure, one()]]), body.local(y, ARGS),
            expr(["method", one(), "f", ARGS, [one(), expr(["closure", [], None, one()])]]), expr(["method", one(), "f", None, []]),
            expr(["field", one(), "0"]), expr(["record", ["variant", 0, ARGS], [["0", one()]], one()]),
            expr(["record", ["type", 0], [], None]), expr(["record", ["typed", 0, "T"], [], None]), expr(["record", "unresolved", [], None]),
            expr(["tuple", [one(), one()]]), expr(["array", [one()]]), expr(["repeat", one(), one(), 3]), expr(["repeat", one(), one(), "_"]),
            expr(["index", one(), one()])]


def operators(body):
    one, expr = body.one, body.expr
    made = [expr(["bin", sign, one(), one()]) for sign in SIGNS + [None]]
    made += [expr(["un", op, one()]) for op in ("not", "neg", "deref")]
    made += [expr(["ref", raw, mutability, one()]) for raw in (False, True) for mutability in ("not", "mut")]
    made += [expr(["range", inclusive, start, end]) for inclusive in (False, True) for start, end in ((None, None), (one(), one()))]
    place = body.pat(["expr", expr(["field", one(), "x"])])
    return made + [expr(["cast", one(), 0]), expr(["cast", one(), 1]), expr(["box", one()]), expr(["assign", place, one()]),
                   expr(["assign", body.pat(["tuple", [body.pat(["expr", expr("_")]), body.wild()], 1]), one()])]


def patterns(body):
    wild, pat, one = body.wild, body.pat, body.one
    x, y, z = body.binding("ref"), body.binding("refmut"), body.binding()
    minus = [body.expr(["lit", ["int", "-1", "i8"]]) for _ in range(2)]
    text = body.expr(["lit", ["str", "a"]])
    return [pat("missing"), wild(), body.bind(x, wild()), body.bind(y), pat(["tuple", [wild()], 1]), pat(["tuple", [wild(), wild()], None]),
            pat(["ctor", ["variant", 0, None], [wild()], None]), pat(["ctor", ["variant", 0, ARGS], [wild()], 0]),
            pat(["ctor", ["type", 0], [], None]), pat(["record", ["typed", 0, "T"], [["a", wild()]]]), pat(["record", "unresolved", []]),
            pat(["path", ["ctor", 0, None]]), pat(["path", ["fn", 0, ARGS]]), pat(["path", ["unresolved", False]]),
            pat(["lit", minus[0]]), pat(["lit", text]), pat(["range", minus[1], one()]), pat(["range", None, one()]),
            pat(["slice", [wild()], wild(), [wild(), wild()]]), pat(["slice", [], None, []]), pat(["ref", "not", wild()]),
            pat(["ref", "mut", wild()]), pat(["or", [body.bind(z), pat(["tuple", [wild(), body.bind(z)], None]), wild()]]),
            pat(["box", wild()]), pat(["const", one()])]


def facts():
    """The facts."""
    with open(FIRST_RUN, encoding="utf-8") as text:
        made = json.load(text)
    body = Body()
    stmts = [["expr", e, True] for e in literals_and_paths(body) + blocks(body) + calls_and_fields(body) + operators(body)]
    stmts += [["let", p, None, body.one(), None] for p in patterns(body)]
    root = body.expr(["block", None, stmts, body.one()])
    made["types"].append("_")
    made["adts"].append({"name": "S", "kind": "struct", "params": [], "preds": [], "variants": [0], "repr": None, "unsize": None})
    made["variants"].append({"adt": 0, "name": "S", "ctor": "tuple", "fields": [{"name": "0", "type": 0, "vis": "pub"}], "body": None})
    made["traits"].append({"name": "Tr", "params": [], "preds": [], "fns": [], "consts": [], "types": [], "auto": False})
    made["fns"].append(dict(made["fns"][0], name="g", body=1))
    made["bodies"].append({"module": 0, "traits": [0], "self": None, "params": [], "root": root, "exprs": body.exprs, "pats": body.pats,
                           "bindings": body.bindings, "labels": body.labels})
    return made


if __name__ == "__main__":
    print(json.dumps(facts(), separators=(",", ":")))

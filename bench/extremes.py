#!/usr/bin/env python3
"""Time and peak memory on texts of just under 2^24 bytes of each extreme shape: one huge list of
each kind, the deepest nesting that JSON may have, one huge string, and what the laws allow at most; and on
bodies of the depth that is allowed, one more, and very much more, of several kinds.

Usage: bench/extremes.py [--program PATH] [NAME ..]
Build the program first: cd crates/infer_tool && rt run -- table fn 0 < ../../examples/first_run.json
"""
import argparse
import json
import lets

MOST = (1 << 24) - 64


def with_facts(**changes):
    value = json.loads(lets.facts(lets.copies, 1))
    value.update(changes)
    return value


def text_of(value):
    return json.dumps(value, separators=(",", ":")).encode()


def filled(make):
    """The largest text of a shape, by the count that it is made with."""
    low, high = 0, 1
    while len(make(high)) <= MOST:
        low, high = high, 2 * high
    while low + 1 < high:
        middle = (low + high) // 2
        if len(make(middle)) <= MOST:
            low = middle
        else:
            high = middle
    return make(low)


def body_with(**changes):
    value = json.loads(lets.facts(lets.copies, 1))
    value["bodies"][0].update(changes)
    return value


ONE = ["lit", ["int", "1", "u8"]]


DEPTHS = (256, 257, 200000)

# Kinds of which one stands in the other: what stands at each level, by the number of the level below.
LEVELS = {
    "blocks": lambda k: ["block", None, [], k],
    "statements": lambda k: ["block", None, [["expr", k, True]], None],
    "operators": lambda k: ["un", "not", k],
    "callees": lambda k: ["call", k, []],
    "closures": lambda k: ["closure", [], None, k],
    "loops": lambda k: ["loop", None, k],
    "scrutinees": lambda k: ["match", k, []],
}
PAT_LEVELS = {
    "patterns": lambda k: ["tuple", [k], None],
    "references": lambda k: ["ref", "not", k],
    "or-patterns": lambda k: ["or", [k]],
}


def deep(level, depth):
    """A body of so many levels of a kind of expression."""
    exprs = [ONE] + [level(k) for k in range(depth - 1)]
    return text_of(body_with(exprs=exprs, pats=[], bindings=[], root=depth - 1))


def deep_pats(level, depth):
    """A body with a `let` in which the pattern stands below so many, less the two around it."""
    pats = ["wild"] + [level(k) for k in range(depth - 2)]
    exprs = [["block", None, [["let", len(pats) - 1, None, None, None]], None]]
    return text_of(body_with(exprs=exprs, pats=pats, bindings=[], root=0))


def statements(exprs, pats=(), bindings=(), **changes):
    """A body of statements: each of these expressions that no other has, and a `let` of pattern 0 where there is one."""
    stmts = [["expr", at, True] for at in range(len(exprs)) if exprs[at] != "missing"]
    if pats:
        stmts = [["let", 0, None, 0, None]]
    return text_of(body_with(exprs=list(exprs) + [["block", None, stmts, None]], pats=list(pats), bindings=list(bindings),
                             root=len(exprs), **changes))


def alternatives(count):
    """An or-pattern whose parts all bind the same."""
    return statements([ONE], [["or", list(range(1, count + 1))]] + [["bind", 0, None]] * count, [["x", "plain"]])


def deep_alternatives(depth):
    """Or-patterns, each in the one before it, all binding the same."""
    pats = []
    for at in range(depth):
        pats += [["or", [2 * at + 1, 2 * at + 2]], ["bind", 0, None]]
    return statements([ONE], pats + [["bind", 0, None]], [["x", "plain"]])


def loops(count):
    """Loops, each with a label of its own."""
    exprs = []
    for at in range(count):
        exprs += ["missing", ["loop", at, 2 * at]]
    return statements(exprs, labels=count)


def around(kind, exprs=(), pats=()):
    """A body whose root has all these expressions and patterns."""
    return text_of(body_with(exprs=[*exprs, kind], pats=list(pats), bindings=[], root=len(exprs)))


def of_exprs(kind):
    """By a count, a body whose root is made of such a list of the numbers of so many expressions."""
    return lambda count: around(kind(range(1, count + 1)), ["missing"] * (count + 1))


def of_pats(kind):
    """By a count, a `let` with a pattern made of such a list of the numbers of so many patterns."""
    def make(count):
        pats = [kind(range(1, count + 1))] + ["wild"] * count
        return around(["block", None, [["let", 0, None, None, None]], None], pats=pats)
    return make


def arms(count):
    """A `match` of so many arms."""
    return around(["match", count, [[k, None, k] for k in range(count)]], ["missing"] * (count + 1), ["wild"] * count)


def params(count):
    """A closure of so many parameters."""
    return around(["closure", [[k, None] for k in range(count)], None, 0], ["missing"], ["wild"] * count)


def closures(count):
    """A call of closures."""
    exprs = ["missing"] * (count + 1) + [["closure", [], None, at] for at in range(1, count + 1)]
    call = ["call", 0, list(range(count + 1, 2 * count + 1))]
    return text_of(body_with(exprs=exprs + [call], pats=[], bindings=[], root=2 * count + 1))


def places(count):
    """An assignment to a tuple of places."""
    exprs = ["_"] * count + [ONE, ["assign", 0, count]]
    pats = [["tuple", list(range(1, count + 1)), None]] + [["expr", at] for at in range(count)]
    return text_of(body_with(exprs=exprs, pats=pats, bindings=[], root=count + 1))


def leaf_first(kind):
    """The same as a list of expressions, of which the first stands before them."""
    return of_exprs(lambda ks: kind(0, list(ks)))


# The texts by their names.
SHAPES = {
    "spaces": lambda: b" " * MOST,
    "one string": lambda: b'"' + b"a" * (MOST - 2) + b'"',
    "one flat list": lambda: b"[" + b"0," * ((MOST - 3) // 2) + b"0]",
    "brackets alone": lambda: b"[" * MOST,
    "modules": lambda: filled(lambda n: text_of(with_facts(modules=[None] * n))),
    "types": lambda: filled(lambda n: text_of(with_facts(types=["u8"] * n))),
    "statements": lambda: lets.facts(lets.copies, 165000),
    "an element list": lambda: filled(lambda n: text_of(body_with(exprs=[["tuple", [0] * n]], pats=[], bindings=[], root=0))),
    "a name": lambda: filled(lambda n: text_of(body_with(bindings=[["a" * n, "plain"]]))),
    "a string": lambda: filled(lambda n: around(["lit", ["str", "a" * n]])),
    "digits": lambda: filled(lambda n: around(["lit", ["int", "1" * n, None]])),
    "written arguments": lambda: filled(lambda n: around(["path", ["fn", 0, [["t", 0]] * n]])),
    "arms": lambda: filled(arms),
    "record fields": lambda: filled(leaf_first(lambda rest, ks: ["record", "unresolved", [["a", k] for k in ks], rest])),
    "arguments": lambda: filled(leaf_first(lambda of, ks: ["method", of, "f", None, ks])),
    "elements": lambda: filled(leaf_first(lambda first, ks: ["array", [first, *ks]])),
    "parameters": lambda: filled(params),
    "slices": lambda: filled(of_pats(lambda ks: ["slice", list(ks), None, []])),
    "slices' ends": lambda: filled(of_pats(lambda ks: ["slice", [], None, list(ks)])),
    "tuple patterns": lambda: filled(of_pats(lambda ks: ["tuple", list(ks), 0])),
    "record patterns": lambda: filled(of_pats(lambda ks: ["record", "unresolved", [["a", k] for k in ks]])),
    "an or-pattern": lambda: filled(alternatives),
    "or-patterns": lambda: filled(deep_alternatives),
    "labelled loops": lambda: filled(loops),
    "closures": lambda: filled(closures),
    "places": lambda: filled(places),
}
SHAPES |= {"%d %s" % (depth, name): lambda level=level, depth=depth: deep(level, depth)
           for name, level in LEVELS.items() for depth in DEPTHS}
SHAPES |= {"%d %s" % (depth, name): lambda level=level, depth=depth: deep_pats(level, depth)
           for name, level in PAT_LEVELS.items() for depth in DEPTHS}


def main():
    parser = argparse.ArgumentParser(description=__doc__, formatter_class=argparse.RawDescriptionHelpFormatter)
    parser.add_argument("--program", metavar="PATH", help="another build of the program")
    parser.add_argument("names", metavar="NAME", nargs="*", help="the texts that are asked; all where none is named")
    given = parser.parse_args()
    lets.PROGRAM = given.program or lets.PROGRAM
    for name in given.names or SHAPES:
        text = SHAPES[name]()
        seconds, peak, status, last = lets.measure(text)
        print("%-19s bytes %9d  seconds %7.3f  peak MiB %7.1f  status %2d  %s"
              % (name, len(text), seconds, peak, status, last[:200]), flush=True)


if __name__ == "__main__":
    main()

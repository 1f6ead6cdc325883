#!/usr/bin/env python3
"""Time and peak memory of `table fn 0` over a function of N statements, at N, 2N and 4N.

The statements are `let v = w;` (copies: each local has the type of the one before); in turn `let v = 1;` and
`let w: u8 = v;` (integers: each second statement says what an integer of the first is); or in turn `let v = 1;`,
`let v = if true { w } else { w };` and `let v = match (w, true) { (a, true) => a, (a, _) => a };` (branches); or in turn
`let v = id(w);` and `same(v, w);` after one `let v = 1;`, of `fn id<T>(x: T) -> T` and `fn same<T>(a: T, b: T)` (calls);
or after one such in turn `let v = Just(w);` and `let u = match v { Just(a) => a, Nothing => w };`, of
`enum Maybe<T> { Nothing, Just(T) }` (constructors); or after one `let v: _ = 1;` in turn `let v: _ = w;` and
`let (v, _): (_, u8) = (w, 1);` (placeholders); or one of `let v = 1;`, `let v = id(w);`, `let v = if true { w } else { w };`
and `let v = 7u8;` at each place, as a linear congruence from 1 on decides (mixed: `r' = (5 r + 3) mod 65536`, of which
`r / 16 mod 4` is the number of the statement, and 0 where there is no local before).
Beside the time of the whole run stands that of the run without reading: less that of a run on a definition that the facts do
not have, which reads the text and tests its laws. Beside each, where rustc is found, the time of its pass
`type_check_crate` over the same function.
Usage: bench/lets.py [copies|integers|branches|calls|constructors|placeholders|mixed] [N]
(copies and 40000 where not given; 4N must fit into 2^24 bytes)
Build the program first: cd crates/infer_tool && rt run -- table fn 0 < ../../examples/first_run.json
"""
import json
import os
import re
import shutil
import subprocess
import sys
import tempfile

TOP = os.path.dirname(os.path.dirname(os.path.abspath(__file__)))
PROGRAM = os.path.join(TOP, "crates", "infer_tool", "out", "infer_tool")
NO_FUNCTION = 1000000  # past the functions of every text made here


class Function:
    """A function's nodes as facts, and its source."""

    def __init__(self):
        self.exprs, self.pats, self.bindings, self.statements, self.source = [], [], [], [], []
        self.types, self.called, self.named_source = [["tuple", []], "u8"], [], ""
        self.adts, self.variants, self.traits, self.aliases, self.impls = [], [], [], [], []
        self.head, self.params, self.preds, self.inputs, self.param_pats = "f()", [], [], [], []

    def expr(self, fact):
        self.exprs.append(fact)
        return len(self.exprs) - 1

    def local(self, binding):
        return self.expr(["path", ["local", binding, None]])

    def pat(self, fact):
        self.pats.append(fact)
        return len(self.pats) - 1

    def bind(self, name):
        self.bindings.append([name, "plain"])
        return self.pat(["bind", len(self.bindings) - 1, None])

    def let(self, name, value, written, source):
        """`let name = value;`, and the binding."""
        self.statements.append(["let", self.bind(name), written, value, None])
        self.source.append(source)
        return len(self.bindings) - 1


def copies(function, count):
    """`let v0 = 1u8; let v1 = v0; ..`"""
    last = function.let("v0", function.expr(["lit", ["int", "1", "u8"]]), None, "let v0 = 1u8;\n")
    for k in range(1, count):
        last = function.let("v%d" % k, function.local(last), None, "let v%d = v%d;\n" % (k, k - 1))


def integers(function, count):
    """`let v0 = 1; let v1: u8 = v0; ..`"""
    last = None
    for k in range(count):
        if k % 2:
            last = function.let("v%d" % k, function.local(last), 1, "let v%d: u8 = v%d;\n" % (k, k - 1))
        else:
            last = function.let("v%d" % k, function.expr(["lit", ["int", "1", None]]), None, "let v%d = 1;\n" % k)


def branches(function, count):
    """`let v0 = 1; let v1 = if true { v0 } else { v0 }; let v2 = match (v1, true) { .. }; ..`"""
    last = None
    for k in range(count):
        name = "v%d" % k
        if k % 3 == 0:
            last = function.let(name, function.expr(["lit", ["int", "1", None]]), None, "let %s = 1;\n" % name)
        elif k % 3 == 1:
            condition = function.expr(["lit", ["bool", True]])
            blocks = [function.expr(["block", None, [], function.local(last)]) for _ in range(2)]
            last = function.let(name, function.expr(["if", condition, *blocks]), None,
                                "let %s = if true { v%d } else { v%d };\n" % (name, k - 1, k - 1))
        else:
            parts = [function.local(last), function.expr(["lit", ["bool", True]])]
            scrutinee, arms = function.expr(["tuple", parts]), []
            for literal in (True, False):
                pats = [function.bind("a")]
                taken = len(function.bindings) - 1
                pats.append(function.pat(["lit", function.expr(["lit", ["bool", True]])] if literal else "wild"))
                arms.append([function.pat(["tuple", pats, None]), None, function.local(taken)])
            last = function.let(name, function.expr(["match", scrutinee, arms]), None,
                                "let %s = match (v%d, true) { (a, true) => a, (a, _) => a };\n" % (name, k - 1))


def calls(function, count):
    """`let v0 = 1; let v1 = id(v0); same(v1, v0); let v3 = id(v1); ..`"""
    function.types.append(["param", 0])
    function.called = [fn_fact("id", ["t"], [2], 2, None), fn_fact("same", ["t"], [2, 2], 0, None)]
    function.named_source = "fn id<T>(x: T) -> T { loop {} }\nfn same<T>(a: T, b: T) {}\n"
    last = before = function.let("v0", function.expr(["lit", ["int", "1", None]]), None, "let v0 = 1;\n")
    for k in range(1, count):
        names = [function.bindings[binding][0] for binding in (last, before)]
        callee = function.expr(["path", ["fn", 1 if k % 2 else 2, None]])
        if k % 2:
            call = function.expr(["call", callee, [function.local(last)]])
            before, last = last, function.let("v%d" % k, call, None, "let v%d = id(%s);\n" % (k, names[0]))
        else:
            call = function.expr(["call", callee, [function.local(last), function.local(before)]])
            function.statements.append(["expr", call, True])
            function.source.append("same(%s, %s);\n" % tuple(names))


def constructors(function, count):
    """`let v0 = 1; let v1 = Just(v0); let v2 = match v1 { Just(a) => a, Nothing => v0 }; let v3 = Just(v2); ..`"""
    function.types.append(["param", 0])
    function.adts = [{"name": "Maybe", "kind": "enum", "params": ["t"], "preds": [], "variants": [0, 1], "repr": None,
                      "unsize": None}]
    function.variants = [variant_fact("Nothing", "unit", []),
                         variant_fact("Just", "tuple", [{"name": "0", "type": 2, "vis": "pub"}])]
    function.named_source = "pub enum Maybe<T> { Nothing, Just(T) }\nuse Maybe::*;\n"
    last = before = function.let("v0", function.expr(["lit", ["int", "1", None]]), None, "let v0 = 1;\n")
    for k in range(1, count):
        name = "v%d" % k
        if k % 2:
            callee = function.expr(["path", ["ctor", 1, None]])
            call = function.expr(["call", callee, [function.local(last)]])
            before, last = last, function.let(name, call, None, "let %s = Just(v%d);\n" % (name, k - 1))
        else:
            scrutinee, part = function.local(last), function.bind("a")
            taken = function.local(len(function.bindings) - 1)
            arms = [[function.pat(["ctor", ["variant", 1, None], [part], None]), None, taken],
                    [function.pat(["path", ["ctor", 0, None]]), None, function.local(before)]]
            last = function.let(name, function.expr(["match", scrutinee, arms]), None,
                                "let %s = match v%d { Just(a) => a, Nothing => v%d };\n" % (name, k - 1, k - 2))


def placeholders(function, count):
    """`let v0: _ = 1; let v1: _ = v0; let (v2, _): (_, u8) = (v1, 1); let v3: _ = v2; ..`"""
    last = function.let("v0", function.expr(["lit", ["int", "1", None]]), hole(function), "let v0: _ = 1;\n")
    for k in range(1, count):
        name = "v%d" % k
        if k % 2:
            last = function.let(name, function.local(last), hole(function), "let %s: _ = v%d;\n" % (name, k - 1))
        else:
            pair = function.expr(["tuple", [function.local(last), function.expr(["lit", ["int", "1", None]])]])
            written = len(function.types) + 1
            function.types += ["_", ["tuple", [written - 1, 1]]]
            part, wild = function.bind(name), function.pat("wild")
            last = len(function.bindings) - 1
            function.statements.append(["let", function.pat(["tuple", [part, wild], None]), written, pair, None])
            function.source.append("let (%s, _): (_, u8) = (v%d, 1);\n" % (name, k - 1))


def mixed(function, count):
    """`let v0 = 1; let v1 = ..`, each of four kinds in an order that looks random and is the same in each run."""
    function.types.append(["param", 0])
    function.called = [fn_fact("id", ["t"], [2], 2, None)]
    function.named_source = "fn id<T>(x: T) -> T { loop {} }\n"
    last, state = None, 1
    for k in range(count):
        state = (5 * state + 3) % 65536
        kind = state // 16 % 4
        if last is None and kind in (1, 2):
            kind = 0
        name, before = "v%d" % k, "v%d" % (k - 1)
        if kind == 1:
            call = function.expr(["call", function.expr(["path", ["fn", 1, None]]), [function.local(last)]])
            last = function.let(name, call, None, "let %s = id(%s);\n" % (name, before))
        elif kind == 2:
            branches_of = [function.expr(["block", None, [], function.local(last)]) for _ in range(2)]
            choice = function.expr(["if", function.expr(["lit", ["bool", True]])] + branches_of)
            last = function.let(name, choice, None, "let %s = if true { %s } else { %s };\n" % (name, before, before))
        else:
            suffix = "u8" if kind == 3 else None
            literal = function.expr(["lit", ["int", "7" if suffix else "1", suffix]])
            last = function.let(name, literal, None, "let %s = %s;\n" % (name, "7u8" if suffix else "1"))


def hole(function):
    """A written `_` of its own."""
    function.types.append("_")
    return len(function.types) - 1


def variant_fact(name, kind, fields):
    return {"adt": 0, "name": name, "ctor": kind, "fields": fields, "body": None}


def fn_fact(name, params, inputs, output, body, preds=()):
    return {"name": name, "at": ["module", 0], "params": params, "preds": preds, "has_self": False, "inputs": inputs,
            "output": output, "safe": True, "vis": "pub", "body": body}


SHAPES = {"copies": copies, "integers": integers, "branches": branches, "calls": calls,
          "constructors": constructors, "placeholders": placeholders, "mixed": mixed}


def made(shape, count):
    function = Function()
    shape(function, count)
    return function


def facts(shape, count):
    """The facts of a function of these statements, as one text."""
    made_of = made(shape, count)
    root = made_of.expr(["block", None, made_of.statements, None])
    body = {
        "module": 0, "traits": [], "self": None, "params": made_of.param_pats, "root": root, "exprs": made_of.exprs,
        "pats": made_of.pats, "bindings": made_of.bindings, "labels": 0,
    }
    functions = [fn_fact("f", made_of.params, made_of.inputs, 0, 0, made_of.preds)] + made_of.called
    value = {
        "profile": 1, "edition": 2021, "never_fallback": False, "new_range": False,
        "limits": [8, 1000, 8, 10], "types": made_of.types, "modules": [None], "adts": made_of.adts,
        "variants": made_of.variants, "fns": functions, "consts": [], "statics": [], "traits": made_of.traits,
        "aliases": made_of.aliases, "impls": made_of.impls, "opaques": [], "lang": {}, "bodies": [body],
    }
    return json.dumps(value, separators=(",", ":")).encode()


# Run by a small process of its own, since a child's peak counts the memory of the process that it is forked from.
RUN = """
import os, subprocess, sys, time
begun = time.monotonic()
child = subprocess.Popen([sys.argv[1], "table", "fn", sys.argv[2]])
_, status, used = os.wait4(child.pid, 0)
print(time.monotonic() - begun, used.ru_maxrss / 1024, os.waitstatus_to_exitcode(status), file=sys.stderr)
child.returncode = 0
"""


def measure(text, number=0):
    """Of `table fn number`: seconds, peak memory in MiB, the status, and the last line of the report or of what was wrong."""
    with tempfile.TemporaryFile() as source, tempfile.TemporaryFile() as sink:
        source.write(text)
        source.seek(0)
        done = subprocess.run([sys.executable, "-c", RUN, PROGRAM, str(number)], stdin=source, stdout=sink,
                              stderr=subprocess.PIPE, text=True, check=True)
        said = done.stderr.splitlines()
        seconds, peak, status = said[-1].split()
        sink.seek(0)
        lines = sink.read().decode().splitlines() or said[:-1] or ["-"]
        return float(seconds), float(peak), int(status), lines[-1]


def rustc_seconds(shape, count):
    """What rustc says of its pass `type_check_crate`, or None where it is not found."""
    rustc = shutil.which("rustc")
    if rustc is None:
        return None
    with tempfile.TemporaryDirectory() as folder:
        source = os.path.join(folder, "lets.rs")
        with open(source, "w") as out:
            function = made(shape, count)
            out.write("#![allow(unused)]\n%spub fn %s {\n%s}\n"
                      % (function.named_source, function.head, "".join(function.source)))
        done = subprocess.run(
            [rustc, "--crate-type=lib", "--emit=metadata", "-Ztime-passes", "-o",
             os.path.join(folder, "lets.rmeta"), source],
            env=dict(os.environ, RUSTC_BOOTSTRAP="1"), capture_output=True, text=True, timeout=600)
        found = re.search(r"time:\s+([0-9.]+);.*\btype_check_crate\b", done.stderr + done.stdout)
        return float(found.group(1)) if found else None


def measure_at(shape, first):
    """Prints the figures of a function of this many statements, of twice and of four times as many."""
    if not os.path.exists(PROGRAM):
        sys.exit("build the program first (see this script's head)")
    before = None
    for count in (first, 2 * first, 4 * first):
        text = facts(shape, count)
        if len(text) > 1 << 24:
            sys.exit("%d statements don't fit into 2^24 bytes" % count)
        seconds, peak, status, last = measure(text)
        reading = measure(text, NO_FUNCTION)[0]
        theirs = rustc_seconds(shape, count)
        print("N %7d  bytes %9d  seconds %7.3f%s  without reading %7.3f  peak MiB %7.1f  status %d  %s  rustc type_check_crate %s"
              % (count, len(text), seconds, "" if before is None else " (%.2f times)" % (seconds / before),
                 seconds - reading, peak, status, last, "-" if theirs is None else "%.3f" % theirs))
        before = seconds


def main():
    if "--help" in sys.argv[1:]:
        print(__doc__.strip())
        return
    words = sys.argv[1:]
    shape = words.pop(0) if words and words[0] in SHAPES else "copies"
    measure_at(SHAPES[shape], int(words[0]) if words else 40000)


if __name__ == "__main__":
    main()

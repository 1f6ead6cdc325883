#!/usr/bin/env python3
"""Time and peak memory of `table fn 0` over a function of N calls that need a bound, at N, 2N and 4N.

The calls are in turn `need(1u8);`, `need(true);` and `need((1u8, true));`, of `fn need<T: Tr>(x: T)`, where `Tr` is implemented
for `u8`, for `bool`, for `i32`, and for each pair of types that implement it; `of(1u8);`, of `fn of<T: Of<U>, U>(x: T) -> U`, where the
one impl of `Of` says what `U` is; and `need(1);`, of which the goal is open till the literal falls back to `i32` in the end.
What is printed is as of `bench/lets.py`, rustc's time of its pass `type_check_crate` with it where rustc is found.
Usage: bench/needs.py [N] [open|read|stay|fields] (30000 where not given; 4N must fit into 2^24 bytes; with `open` there are calls `need(1);` alone, for which
rustc takes minutes from some 40000 on; with `read` calls of `fn get<T: Has>(x: T) -> T::Out`, in turn `get(1u8);`, `get(get(1u8));` and `get(1);`, where
`u8: Has<Out = bool>`, `bool: Has<Out = char>` and `i32: Has<Out = u8>`; with `stay` in turn `get(x);` and `same(get(x), get(x));`, where all that is known of
the type of `x` is that it has an `Out`; with `fields` in turn `let v = Two(1u8, true);` and `let Two(a, b) = v;`, of `struct Two<T: Has>(T, T::Out)`)
Build the program first: cd crates/infer_tool && rt run -- table fn 0 < ../../examples/first_run.json
"""
import sys

from lets import fn_fact, measure_at, variant_fact

SOURCE = """pub trait Tr {}
impl Tr for u8 {}
impl Tr for bool {}
impl Tr for i32 {}
impl<A: Tr, B: Tr> Tr for (A, B) {}
fn need<T: Tr>(x: T) {}
pub trait Of<U> {}
impl Of<bool> for u8 {}
fn of<T: Of<U>, U>(x: T) -> U { loop {} }
"""
CALLS = ["need(1u8);\n", "need(true);\n", "need((1u8, true));\n", "of(1u8);\n", "need(1);\n"]


def needs(function, count):
    """`need(1u8); need(true); need((1u8, true)); of(1u8); need(1); ..`"""
    add_calls(function, [k % len(CALLS) for k in range(count)])


def open_needs(function, count):
    """`need(1); need(1); ..`"""
    add_calls(function, [CALLS.index("need(1);\n")] * count)


READ_SOURCE = """pub trait Has { type Out; }
impl Has for u8 { type Out = bool; }
impl Has for bool { type Out = char; }
impl Has for i32 { type Out = u8; }
fn get<T: Has>(x: T) -> T::Out { loop {} }
"""
READS = ["get(1u8);\n", "get(get(1u8));\n", "get(1);\n"]


def read_needs(function, count):
    """`get(1u8); get(get(1u8)); get(1); ..`"""
    function.types += ["bool", ["param", 0], ["proj", 0, [["t", 3]]], "char", "i32"]
    function.traits = [dict(trait_fact("Has", []), types=[0])]
    function.aliases = [{"name": "Out", "trait": 0, "bounds": []}]
    function.impls = [dict(impl_fact(0, ty), types=[[0, given]]) for ty, given in ((1, 2), (2, 5), (6, 1))]
    function.called = [fn_fact("get", ["t"], [3], 4, None, [goal(3)])]
    function.named_source = READ_SOURCE
    for k in range(count):
        callees = [function.expr(["path", ["fn", 1, None]]) for _ in range(2 if k % 3 == 1 else 1)]
        read = function.expr(["lit", ["int", "1", None if k % 3 == 2 else "u8"]])
        for callee in reversed(callees):
            read = function.expr(["call", callee, [read]])
        function.statements.append(["expr", read, True])
        function.source.append(READS[k % 3])


STAY_SOURCE = """pub trait Has { type Out; }
fn get<T: Has>(x: T) -> T::Out { loop {} }
fn same<T>(x: T, y: T) {}
"""
STAYS = ["get(x);\n", "same(get(x), get(x));\n"]


def staying_needs(function, count):
    """`get(x); same(get(x), get(x)); ..`"""
    function.types += [["param", 0], ["proj", 0, [["t", 2]]]]
    function.traits = [dict(trait_fact("Has", []), types=[0])]
    function.aliases = [{"name": "Out", "trait": 0, "bounds": []}]
    function.called = [fn_fact("get", ["t"], [2], 3, None, [goal(2)]), fn_fact("same", ["t"], [2, 2], 0, None)]
    function.named_source = STAY_SOURCE
    function.head, function.params, function.preds, function.inputs = "f<T: Has + Copy>(x: T)", ["t"], [goal(2)], [2]
    function.param_pats = [function.bind("x")]
    for k in range(count):
        callee = function.expr(["path", ["fn", 2, None]]) if k % 2 == 1 else None
        got = [function.expr(["call", function.expr(["path", ["fn", 1, None]]), [function.local(0)]]) for _ in range(1 + k % 2)]
        call = got[0] if callee is None else function.expr(["call", callee, got])
        function.statements.append(["expr", call, True])
        function.source.append(STAYS[k % 2])


FIELDS_SOURCE = """pub trait Has { type Out; }
impl Has for u8 { type Out = bool; }
pub struct Two<T: Has>(pub T, pub T::Out);
"""


def fields(function, count):
    """`let v0 = Two(1u8, true); let Two(a, b) = v0; let v2 = Two(1u8, true); ..`"""
    function.types += ["bool", ["param", 0], ["proj", 0, [["t", 3]]]]
    function.traits = [dict(trait_fact("Has", []), types=[0])]
    function.aliases = [{"name": "Out", "trait": 0, "bounds": []}]
    function.impls = [dict(impl_fact(0, 1), types=[[0, 2]])]
    function.adts = [{"name": "Two", "kind": "struct", "params": ["t"], "preds": [goal(3)], "variants": [0], "repr": None,
                      "unsize": None}]
    function.variants = [variant_fact("Two", "tuple", [{"name": str(k), "type": ty, "vis": "pub"} for k, ty in enumerate((3, 4))])]
    function.named_source = FIELDS_SOURCE
    made = None
    for k in range(count):
        if k % 2 == 0:
            parts = [function.expr(["lit", ["int", "1", "u8"]]), function.expr(["lit", ["bool", True]])]
            call = function.expr(["call", function.expr(["path", ["ctor", 0, None]]), parts])
            made = function.let("v%d" % k, call, None, "let v%d = Two(1u8, true);\n" % k)
        else:
            parts = [function.bind(name) for name in ("a", "b")]
            taken = function.pat(["ctor", ["variant", 0, None], parts, None])
            function.statements.append(["let", taken, None, function.local(made), None])
            function.source.append("let Two(a, b) = v%d;\n" % (k - 1))


def add_calls(function, kinds):
    """Calls of these kinds, each a place of `CALLS`."""
    function.types += ["bool", ["param", 0], ["param", 1], ["tuple", [3, 4]], "i32"]
    function.traits = [trait_fact("Tr", []), trait_fact("Of", ["t"])]
    function.impls = [impl_fact(0, 1), impl_fact(0, 2), impl_fact(0, 6), impl_fact(2, 5), impl_of()]
    of = ["trait", 1, [["t", 3], ["t", 4]]]
    function.called = [fn_fact("need", ["t"], [3], 0, None, [goal(3)]), fn_fact("of", ["t", "t"], [3], 4, None, [of])]
    function.named_source = SOURCE
    for kind in kinds:
        callee, parts = function.expr(["path", ["fn", 2 if kind == 3 else 1, None]]), []
        if kind != 1:
            parts.append(function.expr(["lit", ["int", "1", None if kind == 4 else "u8"]]))
        if kind in (1, 2):
            parts.append(function.expr(["lit", ["bool", True]]))
        argument = parts[0] if len(parts) == 1 else function.expr(["tuple", parts])
        function.statements.append(["expr", function.expr(["call", callee, [argument]]), True])
        function.source.append(CALLS[kind])


def trait_fact(name, params):
    """A trait without items."""
    return {"name": name, "params": params, "preds": [], "fns": [], "consts": [], "types": [], "auto": False}


def impl_fact(count, ty):
    """An impl of `Tr` for a type over this many parameters, each of which has to implement it."""
    return {"trait": [0, []], "params": ["t"] * count, "preds": [goal(3 + k) for k in range(count)], "self": ty, "fns": [],
            "consts": [], "types": []}


def impl_of():
    """`impl Of<bool> for u8`"""
    return {"trait": [1, [["t", 2]]], "params": [], "preds": [], "self": 1, "fns": [], "consts": [], "types": []}


def goal(ty):
    """That a type implements `Tr`."""
    return ["trait", 0, [["t", ty]]]


def main():
    if "--help" in sys.argv[1:]:
        print(__doc__.strip())
        return
    shapes = {"open": open_needs, "read": read_needs, "stay": staying_needs, "fields": fields}
    numbers = [int(word) for word in sys.argv[1:] if word not in shapes]
    shape = next((shapes[word] for word in sys.argv[1:] if word in shapes), needs)
    measure_at(shape, numbers[0] if numbers else 30000)


if __name__ == "__main__":
    main()

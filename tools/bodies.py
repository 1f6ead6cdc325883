"""What the bodies of `judge.py` are made of, what they may name, and some by hand, with uncommon turns."""
import collections
import dataclasses

# Types are a word, a tuple of types, an adt (`Adt`), or a type parameter of the function, "T" or "U"; in the type of a
# `let` "_" may stand for a type, and where none is written, the type of an item (`Item`) is one too. Expressions are
# ("int", digits, suffix), ("bool", b), ("char", c), ("local", name), ("item", function), ("call", callee, arguments),
# ("tuple", parts), ("if", condition, block, block or None), ("match", scrutinee, arms), where an arm is a pattern, a
# guard or None and an expression, and ("block", statements, tail); statements ("let", pattern, type, initializer) and
# ("expr", e, semicolon). Patterns are a name, `_`, ("tuple", patterns), ("ctor", variant, patterns), the last None
# where the variant has no fields, and a literal. A function is named by a word, and by OWN the one that the body
# belongs to. The name of a variant stands in the place of a function for its constructor.
OWN = "own"
PARAMS = ["T", "U"]


class Adt(collections.namedtuple("Adt", "name args")):
    """An adt at types. No tuple of types equals it, since it begins with a name of ADTS."""


@dataclasses.dataclass(frozen=True)
class Item:
    """The type of a function or of the constructor of a variant with fields, at types."""
    name: str
    args: tuple


# What an item takes and gives. A bound is a type and the trait that it has to implement.
Signature = collections.namedtuple("Signature", "generics inputs output bounds", defaults=[()])

# `own` is the signature of the body's function, `names` are the names of its inputs.
Body = collections.namedtuple("Body", "own names statements tail")


def s_of(ty):
    return Adt("S", (ty,))


def p_of(first, second):
    return Adt("P", (first, second))


def maybe(ty):
    return Adt("Maybe", (ty,))


def kept(ty):
    return Adt("Kept", (ty,))


def slot(ty):
    return Adt("Slot", (ty,))


E = Adt("E", ())
PAIR = Adt("Pair", ())
UNIT = Adt("Unit", ())

# The adts: kind, number of type parameters, and variants with their fields. No two variants have the same name.
ADTS = {
    "S": ("struct", 1, {"S": ["T"]}),
    "E": ("enum", 0, {"A": [], "B": []}),
    "P": ("struct", 2, {"P": ["T", "U"]}),
    "Maybe": ("enum", 1, {"Nothing": [], "Just": ["T"]}),
    "Pair": ("struct", 0, {"Pair": ["u8", "bool"]}),
    "Unit": ("struct", 0, {"Unit": []}),
    "Kept": ("struct", 1, {"Kept": ["T"]}),
    "Slot": ("enum", 1, {"Free": [], "Taken": ["T"]}),
}

# The adts with bounds. No pattern may name their variants yet.
ADT_BOUNDS = {"Kept": [("T", "Tr")], "Slot": [(("T", "bool"), "Tr"), ("T", "Up")]}

# The traits, each with its supertraits.
TRAITS = {"Tr": [], "Up": [], "Sub": ["Up"]}

# The impls: number of type parameters, bounds, and the trait and the type. No other integer type than `i32` is the only
# one that implements a trait: for such a one rustc would take each integer.
IMPLS = [
    (0, [], "Tr", "u8"),
    (0, [], "Tr", "i32"),
    (0, [], "Tr", "bool"),
    (1, [("T", "Tr")], "Tr", s_of("T")),
    (2, [("T", "Tr"), ("U", "Up")], "Tr", ("T", "U")),
    (1, [("T", "Up")], "Tr", maybe("T")),
    (0, [], "Tr", maybe("char")),
    (0, [], "Up", "i32"),
    (0, [], "Up", "bool"),
    (0, [], "Up", ()),
    (0, [], "Up", E),
    (1, [(s_of("T"), "Tr")], "Up", s_of("T")),
    (2, [("T", "Sub"), (maybe("U"), "Tr")], "Up", p_of("T", "U")),
    (0, [], "Sub", "i32"),
    (0, [], "Sub", E),
    (1, [("T", "Sub"), ("T", "Tr")], "Sub", s_of("T")),
]

# The variants in the order of their numbers, and what their constructors take and give.
VARIANTS = {variant: Signature(count, fields, Adt(name, tuple(PARAMS[:count])), ADT_BOUNDS.get(name, ()))
            for name, (_, count, variants) in ADTS.items() for variant, fields in variants.items()}

# What bodies may call besides their own functions. None of these has a body among the facts.
FUNCTIONS = {
    "id": Signature(1, ["T"], "T"),
    "make": Signature(1, [], "T"),
    "same": Signature(1, ["T", "T"], ()),
    "swap": Signature(2, ["T", "U"], ("U", "T")),
    "take": Signature(0, ["u8"], "bool"),
    "check": Signature(0, ["u8"], "bool"),
    "nothing": Signature(0, [], ()),
    "red": Signature(0, [], E),
    "is_red": Signature(0, [E], "bool"),
    "wrap": Signature(1, ["T"], s_of("T")),
    "unwrap": Signature(1, [s_of("T")], "T"),
    "pair": Signature(2, [("T", "U")], p_of("T", "U")),
    "first": Signature(2, [p_of("T", "U")], "T"),
    "either": Signature(1, [("T", "T"), "bool"], "T"),
    "count": Signature(1, [s_of(("T", "u8")), "i64"], ("i64", "T")),
    "force": Signature(1, [maybe("T")], "T"),
    "need": Signature(1, ["T"], (), [("T", "Tr")]),
    "keep": Signature(1, ["T"], "T", [("T", "Up")]),
    "both": Signature(2, ["T", "U"], "bool", [("T", "Tr"), ("U", "Sub")]),
    "lift": Signature(1, ["T"], s_of("T"), [(s_of("T"), "Tr")]),
    "made": Signature(1, [], "T", [("T", "Tr")]),
}

# All of these that can be called.
CALLED = {**FUNCTIONS, **{variant: signature for variant, signature in VARIANTS.items() if signature.inputs}}

# Those of them without type parameters.
PLAIN = [name for name, signature in CALLED.items() if signature.generics == 0]


def int_(digits, suffix=None):
    return ("int", digits, suffix)


def local(name):
    return ("local", name)


def item(function):
    return ("item", function)


def call(function, *arguments):
    return call_of(item(function), *arguments)


def call_of(callee, *arguments):
    """A call of any expression."""
    return ("call", callee, list(arguments))


def let(pattern, init=None, written=None):
    return ("let", pattern, written, init)


def run(e):
    return ("expr", e, True)


def ctor(variant, *parts):
    """The pattern of a constructor."""
    return ("ctor", variant, list(parts) if VARIANTS[variant].inputs else None)


def match(scrutinee, *arms):
    return ("match", scrutinee, [(pattern, None, e) for pattern, e in arms])


def block(tail):
    return ("block", [], tail)


def if_(first, other):
    return ("if", ("bool", True), block(first), block(other))


WITHOUT_CALLS = [Body(Signature(0, [], output), [], statements, tail) for output, statements, tail in [
    ("u8", [("let", "x", None, int_(1))], ("local", "x")),
    ((), [("let", "x", None, int_(1))], None),
    (("u8", "i64"), [("let", "x", None, int_(1))], ("tuple", [("local", "x"), ("local", "x")])),
    ("bool", [("let", "x", "char", int_(1))], int_(2)),
    ("u8", [("let", "x", None, None), ("let", "y", "u8", ("local", "x"))], ("local", "x")),
    ((), [("let", "x", None, None)], None),
    (("u8",), [], ("tuple", [int_(1), int_(2)])),
    (("u8", "i32"), [], ("tuple", [int_(1)])),
    ("u8", [("expr", ("block", [], int_(1)), False)], int_(1)),
    ("u8", [("let", "x", "u8", int_(1))], None),
    ((), [("let", "x", None, ("tuple", [int_(1), int_(2)])), ("let", "y", ("u8", "i64"), ("local", "x"))], None),
    ("i64", [("let", "_", None, ("block", [("let", "x", None, int_(1))], ("local", "x")))], int_(3, "i64")),
    ("u8", [("let", "t", None, ("tuple", [int_(1), int_(2)]))],
     ("match", ("local", "t"), [(("tuple", ["a", int_(7)]), None, ("local", "a")), ("_", None, int_(0))])),
    ("u8", [("let", "x", None, ("if", ("bool", True), block(int_(1)), None))], int_(2)),
    ((), [("expr", ("match", ("bool", True), [(("bool", True), None, ("bool", True)), ("_", None, int_(0))]), True)], None),
    ("u8", [], ("if", int_(1), block(int_(2)), block(("bool", True)))),
    ((), [("let", ("tuple", ["a", "b"]), None, int_(1))], None),
    ((), [("let", ("tuple", ["a", "b"]), None, ("tuple", [int_(1), int_(2), int_(3)]))], None),
    ("u8", [("let", ("tuple", ["a", "b"]), None, None), ("let", "c", "u8", ("local", "a"))], ("local", "b")),
    ("i64", [("let", "a", None, None), ("let", "x", None, ("if", ("bool", True), block(("local", "a")), block(int_(1))))],
     ("local", "x")),
    ((), [("let", "x", None, ("match", int_(1), [(int_(1), ("bool", True), ("char", "a")), ("y", int_(2), ("local", "y"))]))], None),
]]

# Of a function with at most one input, `x`.
WITH_CALLS = [Body(Signature(generics, inputs, output), ["x"][:len(inputs)], statements, tail)
              for generics, inputs, output, statements, tail in [
    (0, [], (), [let("x", call("id", int_(1)))], None),
    (0, [], "u8", [], call("id", int_(1))),
    (0, [], (), [let("x", if_(call("make"), call("make")))], None),
    (0, [], "bool", [let("x", call("id", int_(1, "u8")))], call("id", ("bool", True))),
    (0, [], (), [let("x", call("swap", int_(1, "u8"), ("bool", True)))], None),
    (0, [], "bool", [], call("take", call("id", call("id", int_(1))))),
    (0, [], (), [let("x", item("swap"))], None),
    (0, [], (), [let("x", item("take")), let("y", local("x")), run(call("same", local("x"), item("take")))], None),
    (0, [], (), [run(call("same", item("take"), item("check")))], None),
    (0, [], (), [let("x", if_(item("take"), item("take")))], None),
    (0, [], (), [let("x", if_(item("take"), item("check")))], None),
    (0, [], (), [let("x", if_(item("id"), item("take")))], None),
    (0, [], (), [let("x", if_(item("id"), item("id")))], None),
    (0, [], (), [let("x", if_(item("take"), item("nothing")))], None),
    (0, [], "u8", [let("x", item("id")), run(call("same", ("tuple", [local("x"), int_(1)]), call("make")))], int_(1)),
    (0, [], "bool", [], call("take", ("bool", True))),
    (0, [], (), [run(call("same", int_(1, "u8"), ("bool", True)))], None),
    (0, [], "u8", [], call("take", int_(1))),
    (0, [], (), [let("x", call("make")), run(call("same", local("x"), ("tuple", [local("x")])))], None),
    (0, [], (), [let("x", call("make")), run(call("same", ("tuple", [local("x")]), local("x")))], None),
    (0, [], (), [let("x", call("make")), let("y", call("wrap", local("x"))), run(call("same", local("y"), local("x")))], None),
    (0, [], (), [run(call("nothing", int_(1)))], None),
    (0, [], "bool", [], call("take")),
    (0, [], "u8", [], call("take")),
    (0, [], (), [run(call("same", int_(1, "u8")))], None),
    (0, [], "bool", [], call("take", ("bool", True), int_(1))),
    (0, [], "u8", [], call("id", call("nothing", int_(1)))),
    (0, [], "u8", [let(("tuple", ["a", "b"]), call("swap", int_(1), ("bool", True))),
                   run(call("same", local("a"), ("bool", False)))], local("b")),
    (0, [], "u8", [], call("unwrap", call("wrap", int_(1)))),
    (0, [], "u8", [], call("first", call("pair", ("tuple", [int_(1), call("red")])))),
    (0, [], "u8", [let("x"), run(call("same", local("x"), call("wrap", int_(1))))], call("unwrap", local("x"))),
    (0, [s_of("u8")], "u8", [], call("unwrap", local("x"))),
    (0, [s_of("u8")], E, [], local("x")),
    (0, [E], "u8", [], call("unwrap", local("x"))),
    (0, [E], (E, E), [], ("tuple", [local("x"), local("x")])),
    (0, [("u8", "bool")], p_of("bool", "u8"), [let(("tuple", ["a", "b"]), local("x"))],
     call("pair", call("swap", local("a"), local("b")))),
    (0, ["u8"], "u8", [], call(OWN, call(OWN, int_(1)))),
    (1, ["T"], s_of("T"), [], call("wrap", local("x"))),
    (1, ["T"], "T", [], local("x")),
    (1, ["T"], "T", [], call(OWN, call("id", local("x")))),
    (1, ["T"], "T", [run(call(OWN, int_(1, "u8"))), run(call(OWN, ("tuple", [local("x")])))], local("x")),
    (1, ["T"], ("T", "T"), [], ("tuple", [local("x"), local("x")])),
    (1, ["T"], "u8", [], local("x")),
    (1, ["T"], "u8", [], call(OWN, int_(1))),
    (1, [], "T", [], int_(1)),
    (1, [], "T", [], call(OWN)),
    (2, ["T"], "U", [], local("x")),
    (2, ["T"], "U", [], call(OWN, local("x"))),
    (2, [("T", "U")], p_of("U", "T"), [let(("tuple", ["a", "b"]), local("x"))],
     call("pair", call("swap", local("a"), local("b")))),
    (2, [p_of("T", "U")], "T", [], call("first", local("x"))),
    (2, [p_of("T", "U")], "U", [], call("first", local("x"))),
]]

NOTHING = item("Nothing")

# Of such functions too.
WITH_CONSTRUCTORS = [Body(Signature(generics, inputs, output), ["x"][:len(inputs)], statements, tail)
                     for generics, inputs, output, statements, tail in [
    (0, [], maybe("u8"), [], call("Just", int_(1))),
    (0, [], maybe("u8"), [], NOTHING),
    (0, [], maybe(maybe("u8")), [], call("Just", call("Just", int_(1)))),
    (0, [], maybe(maybe("u8")), [], call("Just", NOTHING)),
    (0, [], (), [let("y", NOTHING)], None),
    (0, [], (), [let("y", item("Just"))], None),
    (0, [], (), [let("y", item("Pair")), run(call("same", local("y"), item("Pair")))], None),
    (0, [], (), [run(call("same", item("Pair"), item("take")))], None),
    (0, [], (), [let("y", if_(item("Pair"), item("Pair")))], None),
    (0, [], (), [let("y", if_(item("Just"), item("Just")))], None),
    (0, [], (), [let("y", if_(item("Just"), NOTHING))], None),
    (1, ["T"], maybe("T"), [let("y", if_(call("Just", local("x")), NOTHING))], local("y")),
    (0, [], PAIR, [], call("Pair", ("bool", True), ("bool", True))),
    (0, [], PAIR, [], call("Pair", int_(1))),
    (0, [], PAIR, [], call("Pair", int_(1), ("bool", True), int_(2))),
    (0, [], maybe("u8"), [], call("Just")),
    (0, [], PAIR, [], item("Pair")),
    (0, [], UNIT, [let(ctor("Unit"), item("Unit"))], NOTHING),
    (0, [], "u8", [], match(item("A"), (ctor("A"), int_(1)), (ctor("B"), int_(2)), ("_", int_(3)))),
    (0, [maybe("u8")], "u8", [], match(local("x"), (ctor("Just", "a"), local("a")), (ctor("Nothing"), int_(0)))),
    (0, [maybe(maybe("u8"))], "u8", [], match(local("x"), (ctor("Just", ctor("Just", "a")), local("a")),
                                              (ctor("Just", ctor("Nothing")), int_(0)), (ctor("Nothing"), int_(1)))),
    (0, [], "bool", [], match(NOTHING, (ctor("Just", "a"), local("a")), ("_", ("bool", True)))),
    (0, [], "u8", [let("y"), let("z", match(local("y"), (ctor("Just", ("tuple", ["a", "_"])), local("a")),
                                            ("_", int_(1)))),
                   run(call("same", local("y"), call("Just", ("tuple", [local("z"), ("char", "a")]))))], local("z")),
    (0, [PAIR], (), [let(ctor("Pair", "a"), local("x"))], None),
    (0, [PAIR], (), [let(ctor("Pair", "a", "_", "_"), local("x"))], None),
    (0, [PAIR], "u8", [let(ctor("Pair", "a", "b", "c"), local("x")), run(call("take", local("b")))], local("c")),
    (0, [PAIR], "u8", [let(ctor("Pair"), local("x"))], int_(1)),
    (0, [UNIT], (), [let(ctor("Pair", "a"), local("x"))], None),
    (0, [UNIT], "u8", [let(ctor("Pair", "a", "b"), local("x")), run(call("take", local("b")))], local("a")),
    (0, [PAIR], (), [let(ctor("Nothing"), local("x"))], None),
    (0, [maybe("u8")], "bool", [], match(local("x"), (ctor("Just", ("bool", True)), ("bool", True)),
                                         ("_", ("bool", False)))),
    (0, [maybe("u8")], "u8", [], match(local("x"), (ctor("Just", int_(7)), int_(1)), (ctor("A"), int_(2)),
                                       ("_", int_(3)))),
    (0, [], "u8", [let(ctor("S", ctor("P", "a", "b")), call("S", call("P", int_(1), int_(2)))),
                   run(call("same", local("b"), int_(3, "i64")))], local("a")),
    (0, [], "u8", [let(ctor("S", "a"), call("make"))], local("a")),
    (0, [], (), [let(ctor("S", "a"), call("make"))], None),
    (0, [], (), [let(ctor("S", "a"), None), let("b", call("force", local("a")))], None),
    (0, [], (), [let("y", call("make")), run(call("same", local("y"), call("Just", local("y"))))], None),
    (0, [], (), [run(match(call("make"), (ctor("Just", "a"), call("same", local("a"), int_(1, "i64"))),
                           ("_", ("tuple", []))))], None),
    (1, ["T"], "T", [let(ctor("S", "a"), call("S", local("x")))], local("a")),
    (1, ["T"], "u8", [let(ctor("S", "a"), call("S", local("x")))], local("a")),
    (1, ["T"], "T", [], call("force", call("Just", call(OWN, local("x"))))),
    (2, [p_of("T", maybe("U"))], p_of("U", "T"), [],
     match(local("x"), (ctor("P", "a", ctor("Just", "b")), call("P", local("b"), local("a"))), ("y", call("make")))),
]]

TRUE = ("bool", True)

# Of such functions too.
WITH_PLACEHOLDERS = [Body(Signature(generics, inputs, output), ["x"][:len(inputs)], statements, tail)
                     for generics, inputs, output, statements, tail in [
    (0, [], (), [let("y", int_(1, "u8"), "_")], None),
    (0, [], "u8", [let("y", int_(1), "_")], local("y")),
    (0, [], (), [let("y", ("tuple", [TRUE, int_(1)]), ("_", "u8"))], None),
    (0, [], (), [let(("tuple", ["a", "b"]), ("tuple", [TRUE, int_(1, "u8")]), "_")], None),
    (0, [], "u8", [let(("tuple", ["a", "b"]), ("tuple", [TRUE, int_(1)]), ("_", "u8"))], local("b")),
    (0, [], "u8", [let(("tuple", ["a", "b"]), ("tuple", [int_(1), int_(2)]), ("_", "i64"))], local("a")),
    (0, [], "u8", [let("y", None, "_")], local("y")),
    (0, [], (), [let("y", None, "_")], None),
    (0, [], (), [let("y", None, ("_", "u8"))], None),
    (0, [], (), [let("y", int_(1, "u8"), "_"), let("z", TRUE, "_")], None),
    (0, [], (), [let("y", ("tuple", [TRUE, int_(1)]), ("_", "_"))], None),
    (0, [], (), [let("y", ("tuple", [("tuple", [int_(1), TRUE]), ("char", "a")]), (("_", "_"), "_"))], None),
    (0, [], (), [let("y", call("Just", int_(1, "u8")), maybe("_"))], None),
    (0, [], (), [let("y", NOTHING, maybe("_")), let("z", local("y"), maybe("u8"))], None),
    (0, [], (), [let("y", NOTHING, maybe("_"))], None),
    (0, [], (), [let("y", NOTHING, maybe("_")), let("z", local("y"), maybe(("_", "bool")))], None),
    (0, [], maybe(("u8", "bool")), [let("y", NOTHING, maybe(("_", "bool")))], local("y")),
    (0, [], "u8", [let(ctor("S", "a"), call("S", int_(1)), s_of("_"))], local("a")),
    (0, [], "u8", [let("y", call("make"), s_of("_"))], call("unwrap", local("y"))),
    (0, [], "bool", [let("y", call("pair", ("tuple", [int_(1), call("wrap", TRUE)])), p_of("_", s_of("_")))],
     match(local("y"), (ctor("P", ctor("S", "_"), "_"), TRUE), (ctor("P", "_", ctor("S", "b")), local("b")))),
    (0, [], "bool", [let("y", call("pair", ("tuple", [int_(1), call("wrap", TRUE)])), p_of("_", s_of("_")))],
     match(local("y"), (ctor("P", "_", ctor("S", "b")), local("b")))),
    (0, [], "u8", [let("y", ("block", [let("z", int_(1), "_")], local("z")), "_")], local("y")),
    (0, [], "i64", [let("y", if_(int_(1), int_(2)), "_")], local("y")),
    (0, [], (), [let("y", if_(int_(1, "u8"), TRUE), "_")], None),
    (0, [], (), [let("y", if_(call("Just", int_(1, "u8")), call("Just", TRUE)), maybe("_"))], None),
    (0, [], (), [let("y", item("take"), "_"), run(call("same", local("y"), item("take")))], None),
    (0, [], (), [let("y", item("id"), "_")], None),
    (0, [], (), [let("y", ("tuple", [item("take"), int_(1)]), ("_", "u8"))], None),
    (0, [], (), [let("y", ("tuple", [int_(1, "u8"), int_(2, "u8")]), ("_", "bool"))], None),
    (0, [], (), [let("y", int_(1, "u8"), maybe("_"))], None),
    (0, [], (), [let("y", call("Just", int_(1, "u8")), maybe(maybe("_")))], None),
    (0, [], (), [let("y", ("tuple", [TRUE]), ("_", "u8"))], None),
    (0, [], (), [let("y", ("tuple", [int_(1), TRUE]), ("_",))], None),
    (0, [], (), [let(("tuple", ["a"]), ("tuple", [TRUE, int_(1)]), ("_", "u8"))], None),
    (0, [], (), [let(("tuple", ["a", "b"]), int_(1), "_")], None),
    (0, [], (), [let(("tuple", ["a", "b"]), None, ("_",))], None),
    (0, [], "bool", [let("y", int_(1, "u8"), "_")], local("y")),
    (0, [], "u8", [let("y", int_(1), "_"), let("z", local("y"), "i64")], local("y")),
    (0, [], (), [let("y", call("nothing", int_(1)), "_")], None),
    (0, [], (), [let("y", call("make"), s_of("_")), run(call("same", call("unwrap", local("y")), local("y")))], None),
    (0, [], (), [let("y", call("make"), "_"), run(call("same", local("y"), call("wrap", local("y"))))], None),
    (0, [PAIR], (), [let(ctor("Pair", "a"), local("x"), "_")], None),
    (0, [PAIR], "u8", [let(ctor("Pair", "a", "_"), local("x"), "_")], local("a")),
    (0, [E], (), [let("y", local("x"), ("_", "_"))], None),
    (0, [E], (), [let("y", local("x"), s_of("_"))], None),
    (1, ["T"], "T", [let("y", local("x"), "_")], local("y")),
    (1, ["T"], "u8", [let("y", local("x"), "_")], local("y")),
    (1, ["T"], s_of("T"), [let("y", call("S", local("x")), s_of("_"))], local("y")),
    (1, ["T"], "T", [let("y", call(OWN, local("x")), "_")], local("y")),
    (2, [p_of("T", "U")], "U", [let(ctor("P", "a", "b"), local("x"), p_of("_", "U"))], local("b")),
    (2, [p_of("T", "U")], "U", [let(ctor("P", "a", "b"), local("x"), p_of("U", "_"))], local("b")),
]]

# Of such functions too.
WITH_CALLEES = [Body(Signature(generics, inputs, output), ["x"][:len(inputs)], statements, tail)
                for generics, inputs, output, statements, tail in [
    (0, [], "bool", [let("h", item("take"))], call_of(local("h"), int_(1))),
    (0, [], "u8", [let("h", item("id"))], call_of(local("h"), int_(1))),
    (0, [], (), [let("h", item("id")), run(call_of(local("h"), int_(1, "u8"))), run(call_of(local("h"), TRUE))], None),
    (0, [], (), [let("h", item("take")), run(call_of(local("h")))], None),
    (0, [], (), [let("h", item("take")), run(call_of(local("h"), int_(1), int_(2)))], None),
    (0, [], (), [let("h", item("take")), run(call_of(local("h"), TRUE))], None),
    (0, [], "u8", [let("h", item("take"))], call_of(local("h"), int_(1))),
    (0, [], "u8", [let("h", item("id")), let("y", call_of(local("h"), call("make")), "u8")], local("y")),
    (0, [], (), [let("h", item("id"))], call_of(local("h"), call("make"))),
    (0, [], (), [let("h", item("make")), let("y", call_of(local("h")))], None),
    (0, [], "u8", [let("h", item("swap")), let(("tuple", ["a", "b"]), call_of(local("h"), int_(1), TRUE))],
     local("b")),
    (0, [], "bool", [let("h", item("take"), "_")], call_of(local("h"), int_(1))),
    (0, [], "bool", [let(("tuple", ["f", "g"]), ("tuple", [item("take"), item("id")]), ("_", "_"))],
     call_of(local("f"), call_of(local("g"), int_(1)))),
    (0, [], "bool", [], match(("tuple", [item("take"), int_(1)]),
                              (("tuple", ["h", "n"]), call_of(local("h"), local("n"))))),
    (0, [], (), [let("h"), run(call("same", local("h"), item("take"))), run(call_of(local("h"), int_(1)))], None),
    (0, [], "u8", [], ("if", call_of(block(item("take")), int_(1)), block(int_(2)), block(int_(3)))),
    (0, [], "u8", [], call_of(block(item("id")), int_(1))),
    (0, [], (), [run(call_of(block(item("id")), int_(1)))], None),
    (0, [], (), [let("y", call_of(block(item("id")), int_(1)))], None),
    (0, [], "bool", [], call_of(("block", [let("h", item("take"))], local("h")), int_(1))),
    (0, [], (), [run(call_of(block(item("id"))))], None),
    (0, [], "bool", [], call_of(block(block(item("take"))), TRUE)),
    (0, [], (), [run(call_of(("block", [run(item("id"))], None), int_(1)))], None),
    (0, [], "bool", [], call_of(if_(item("take"), item("take")), int_(1))),
    (0, [], "u8", [], call_of(if_(item("id"), item("id")), int_(1))),
    (0, [], (), [run(call_of(if_(item("take"), item("take"))))], None),
    (0, [], "bool", [], call_of(if_(item("take"), item("check")), int_(1))),
    (0, [], "bool", [], call_of(match(TRUE, (TRUE, item("take")), ("_", item("take"))), int_(1))),
    (0, [], maybe("u8"), [], call_of(match(TRUE, (TRUE, item("Just")), ("h", item("Just"))), int_(1))),
    (0, [], (), [run(call_of(match(TRUE, (TRUE, item("take")), ("_", int_(1))), int_(1)))], None),
    (0, [], "bool", [], call_of(call("id", item("take")), int_(1))),
    (0, [], "u8", [], call_of(call("id", item("id")), int_(1))),
    (0, [], (), [run(call_of(call("id", item("take")), TRUE))], None),
    (0, [], (), [run(call_of(call("id", item("take"))))], None),
    (0, [], "bool", [], call_of(call_of(block(item("id")), item("take")), int_(1))),
    (0, [], "bool", [], call_of(call("unwrap", call("S", item("take"))), int_(1))),
    (0, [], maybe("u8"), [let("h", item("Just"))], call_of(local("h"), int_(1))),
    (0, [], (), [let("h", item("Just")), run(call_of(local("h")))], None),
    (0, [], PAIR, [let("h", item("Pair"))], call_of(local("h"), int_(1), TRUE)),
    (0, [], PAIR, [let("h", item("Pair"))], call_of(local("h"), TRUE, TRUE)),
    (0, [], PAIR, [let("h", item("Pair"))], call_of(local("h"), int_(1))),
    (0, [], s_of("bool"), [], call_of(block(item("S")), TRUE)),
    (0, [], (), [run(call_of(int_(1, "u8")))], None),
    (0, [], (), [run(call_of(int_(1, "u8"), int_(2)))], None),
    (0, [], (), [run(call_of(int_(1), TRUE))], None),
    (0, [], (), [run(call_of(TRUE))], None),
    (0, [], "u8", [], call_of(("char", "a"), int_(1))),
    (0, [], (), [run(call_of(call("nothing")))], None),
    (0, [], (), [run(call_of(call("take", int_(1)), int_(2)))], None),
    (0, [], (), [run(call_of(call("take"), int_(2)))], None),
    (0, [], (), [run(call_of(call("Pair", int_(1), TRUE)))], None),
    (0, [], (), [run(call_of(int_(1, "u8"), call("take", TRUE)))], None),
    (0, [], (), [run(call_of(int_(1, "u8"), call("take")))], None),
    (0, [], (), [run(call_of(call_of(int_(1, "u8"))))], None),
    (0, [], "bool", [run(call("take", call_of(int_(1, "u8"))))], call_of(block(item("take")), call_of(TRUE))),
    (0, [], "u8", [let("y", TRUE)], call_of(local("y"), int_(1, "u8"), int_(2))),
    (0, [], (), [let("y", call_of(int_(1, "u8"), int_(2)), "bool")], None),
    (0, [], (), [let("y", call_of(int_(1, "u8")), ("_", "u8"))], None),
    (0, [], "bool", [let("y", call_of(int_(1, "u8")))], local("y")),
    (0, [], (), [let("y", ("tuple", [TRUE, int_(1)]), ("_", "u8")), run(call_of(local("y")))], None),
    (0, [], (), [run(call_of(("tuple", [int_(1, "u8"), TRUE])))], None),
    (0, [], (), [run(call_of(("tuple", [])))], None),
    (0, [], (), [run(call_of(("tuple", [item("take")]), int_(1)))], None),
    (0, [], (), [run(call_of(block(int_(1, "u8")), int_(1), int_(2)))], None),
    (0, [], (), [run(call_of(if_(int_(1), int_(2, "u8"))))], None),
    (0, [], (), [run(call_of(if_(int_(1, "u8"), TRUE)))], None),
    (0, [], (), [run(call_of(match(TRUE, (TRUE, item("A")), ("_", item("B")))))], None),
    (0, [], UNIT, [], call("Unit")),
    (0, [], (), [run(call("Unit", int_(1)))], None),
    (0, [], E, [], call("A")),
    (0, [], E, [let("y", item("A"))], call_of(local("y"))),
    (0, [], maybe("u8"), [], call("Nothing")),
    (0, [], maybe("u8"), [], call("Nothing", int_(1))),
    (0, [], (), [run(call("Nothing", call("take")))], None),
    (0, [], (), [run(call("Nothing", call("take", TRUE)))], None),
    (0, [], (), [let("y", NOTHING), run(call_of(local("y"))), let("z", local("y"), maybe("u8"))], None),
    (0, [], (), [run(call_of(call("wrap", call("make"))))], None),
    (0, [], (), [run(call_of(call("make"), int_(1)))], None),
    (0, [], (), [let("y", call("make")), run(call_of(local("y"), int_(1)))], None),
    (0, [], (), [let("y", None, "_"), run(call_of(local("y"), int_(1)))], None),
    (0, [], (), [let("y", ("tuple", [call("make"), int_(1, "u8")])), run(call_of(local("y")))], None),
    (0, [], (), [let("y", ("tuple", [call("make"), int_(1, "u8")])), run(call_of(local("y"))),
                 let("z", local("y"), ("bool", "u8"))], None),
    (0, [], (), [let("y", call("make")), run(call_of(local("y"))), let("z", local("y"), "u8")], None),
    (0, [], (), [let("y", call("make")), run(call_of(local("y"), int_(1))),
                 run(call("same", local("y"), item("take")))], None),
    (0, [], (), [let("y", call("make")), run(call("same", local("y"), item("take"))),
                 run(call_of(local("y"), int_(1)))], None),
    (0, [], "u8", [let("y", call("make")), run(call("same", local("y"), item("id")))], call_of(local("y"), int_(1))),
    (0, ["u8"], "u8", [], call_of(local("x"), int_(1))),
    (0, [E], E, [], call_of(local("x"))),
    (0, [s_of("u8")], "u8", [], call_of(local("x"))),
    (1, ["T"], "T", [], call_of(local("x"))),
    (1, [maybe("T")], "T", [], call_of(local("x"))),
    (1, ["T"], "T", [let("h", item(OWN))], call_of(local("h"), local("x"))),
    (1, ["T"], "u8", [let("h", item(OWN))], call_of(local("h"), int_(1))),
    (1, ["T"], "T", [let("h", item("id"))], call_of(local("h"), local("x"))),
    (1, ["T"], "T", [let("h", item("id")), run(call_of(local("h"), int_(1)))], call_of(local("h"), local("x"))),
    (2, ["T"], s_of("U"), [let("h", item("wrap"))], call_of(local("h"), local("x"))),
]]

# Of such functions too, with bounds.
WITH_BOUNDS = [Body(Signature(generics, inputs, output, bounds), ["x"][:len(inputs)], statements, tail)
               for generics, bounds, inputs, output, statements, tail in [
    (0, [], [], (), [], call("need", int_(1, "u8"))),
    (0, [], [], (), [], call("need", int_(1))),
    (0, [], [], (), [], call("need", int_(1, "i64"))),
    (0, [], [], (), [], call("need", ("char", "a"))),
    (0, [], [], (), [], call("need", ("tuple", [int_(1), TRUE]))),
    (0, [], [], (), [], call("need", ("tuple", [TRUE, ("char", "a")]))),
    (0, [], [], (), [], call("need", call("wrap", call("wrap", int_(1))))),
    (0, [], [], (), [], call("need", call("wrap", call("wrap", ("char", "a"))))),
    (0, [], [], (), [], call("need", call("Just", ("char", "a")))),
    (0, [], [], (), [], call("need", call("Just", call("red")))),
    (0, [], [], (), [], call("need", call("Just", int_(1, "u8")))),
    (0, [], [], (), [], call("need", NOTHING)),
    (0, [], [], (), [], call("need", item("take"))),
    (0, [], [], (), [], call("need", call("nothing"))),
    (0, [], [], (), [], call("need", call("need", TRUE))),
    (0, [], [], (), [], call("need")),
    (0, [], [], (), [], call("need", ("char", "a"), TRUE)),
    (0, [], [], (), [], call("need", call_of(TRUE))),
    (0, [], [], "u8", [], call("need", ("char", "a"))),
    (0, [], [], "u8", [], call("keep", int_(1))),
    (0, [], [], "i32", [], call("keep", int_(1))),
    (0, [], [], "u8", [let("y", int_(1)), run(call("need", local("y")))], local("y")),
    (0, [], [], "i64", [let("y", int_(1)), run(call("need", local("y")))], local("y")),
    (0, [], [], "u8", [let("y", int_(1)), run(call("keep", local("y")))], local("y")),
    (0, [], [], (), [let("y", call("made"))], None),
    (0, [], [], (), [let("y", call("made"), "bool")], None),
    (0, [], [], (), [let("y", call("made"), "char")], None),
    (0, [], [], (), [run(call("need", call("made")))], None),
    (0, [], [], (), [run(call("need", ("tuple", [("char", "a"), call("make")])))], None),
    (0, [], [], "bool", [], call("both", TRUE, call("red"))),
    (0, [], [], "bool", [], call("both", call("red"), TRUE)),
    (0, [], [], "bool", [], call("both", int_(1), int_(1))),
    (0, [], [], s_of("bool"), [], call("lift", TRUE)),
    (0, [], [], s_of("char"), [], call("lift", ("char", "a"))),
    (0, [], [], E, [], call("keep", call("keep", item("A")))),
    (0, [], [], (), [run(call("keep", call("P", call("red"), call("P", int_(1), TRUE))))], None),
    (0, [], [], (), [run(call("keep", call("P", call("red"), TRUE)))], None),
    (0, [], [], (), [run(call("keep", call("P", call("wrap", int_(1)), TRUE)))], None),
    (0, [], [], (), [let("h", item("need")), run(call_of(local("h"), int_(1)))], None),
    (0, [], [], (), [let("h", item("need")), run(call_of(local("h"), ("char", "a")))], None),
    (0, [], [], (), [let("h", item("need"))], None),
    (0, [], [], (), [run(call_of(if_(item("need"), item("need")), ("char", "a")))], None),
    (0, [], [], (), [run(call_of(if_(item("need"), item("take")), ("char", "a")))], None),
    (0, [], [], (), [run(call_of(call("id", item("need")), ("char", "a")))], None),
    (0, [], [], (), [run(call_of(block(item("need")), TRUE)), run(call_of(block(item("need")), call("nothing")))], None),
    (0, [], [], (), [run(call("need", if_(("char", "a"), ("char", "b"))))], None),
    (0, [], [], kept("bool"), [], call("Kept", TRUE)),
    (0, [], [], (), [let("y", call("Kept", ("char", "a")))], None),
    (0, [], [], (), [let("y", call("Kept", ("char", "a"))), let("z", call("id", local("y")))], None),
    (0, [], [], (), [let("y", item("Kept")), run(call_of(local("y"), ("char", "a")))], None),
    (0, [], [], (), [let("y", call("make"), kept("char"))], None),
    (0, [], [], (), [let("y", call("make"), kept("_")), let("z", local("y"), kept("u8"))], None),
    (0, [], [], slot("bool"), [], item("Free")),
    (0, [], [], slot("bool"), [], call("Taken", TRUE)),
    (0, [], [], (), [let("y", item("Free"))], None),
    (0, [], [], (), [let("y", item("Free"), slot("char"))], None),
    (0, [], [], (), [let("y", call("Taken", ("char", "a")))], None),
    (0, [], [], (), [let("y", call("Taken", call("red")))], None),
    (0, [], [], (), [let("y", if_(call("Taken", TRUE), item("Free")))], None),
    (1, [("T", "Tr")], ["T"], (), [], call("need", local("x"))),
    (1, [("T", "Up")], ["T"], (), [], call("need", local("x"))),
    (1, [("T", "Sub")], ["T"], "T", [], call("keep", local("x"))),
    (1, [("T", "Tr")], ["T"], (), [], call("need", call("wrap", local("x")))),
    (1, [("T", "Tr")], ["T"], (), [], call("need", ("tuple", [local("x"), TRUE]))),
    (1, [("T", "Tr")], ["T"], (), [], call("need", ("tuple", [TRUE, local("x")]))),
    (1, [(s_of("T"), "Tr")], ["T"], s_of("T"), [], call("lift", local("x"))),
    (1, [(s_of("T"), "Tr")], ["T"], (), [], call("need", local("x"))),
    (1, [(s_of("T"), "Tr")], ["T"], s_of("T"), [], call("keep", call("wrap", local("x")))),
    (1, [("T", "Tr")], ["T"], kept("T"), [], call("Kept", local("x"))),
    (1, [("T", "Tr")], ["T"], (), [let("y", call("Taken", local("x")))], None),
    (1, [("T", "Tr"), ("T", "Sub")], ["T"], "bool", [], call("both", local("x"), call("make"))),
    (1, [("T", "Tr")], ["T"], "T", [run(call(OWN, TRUE)), run(call(OWN, ("char", "a")))], call(OWN, local("x"))),
    (1, [("T", "Tr")], ["T"], "T",
     [let("h", item(OWN)), run(call_of(local("h"), ("tuple", [local("x"), item("A")])))], call("make")),
    (2, [("T", "Tr"), ("U", "Sub")], [("T", "U")], "bool",
     [let(("tuple", ["a", "b"]), local("x"))], call("both", local("a"), local("b"))),
    (2, [("T", "Tr"), ("U", "Sub")], [("T", "U")], "bool",
     [let(("tuple", ["a", "b"]), local("x"))], call("both", local("b"), local("a"))),
    (2, [("T", "Tr"), ("U", "Sub")], [("T", "U")], (), [], call("need", local("x"))),
]]

BY_HAND = WITHOUT_CALLS + WITH_CALLS + WITH_CONSTRUCTORS + WITH_PLACEHOLDERS + WITH_CALLEES + WITH_BOUNDS

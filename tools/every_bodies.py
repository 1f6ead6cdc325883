"""How bodies become facts, with expressions of every kind."""
import re

import every_format
from crate_items import body_of, named_by
from every_paths import is_self
from every_patterns import PatternWriter
from hir_tree import identifier, name_of, span_of

SIGNS = {"Add": "+", "Sub": "-", "Mul": "*", "Div": "/", "Rem": "%", "And": "&&", "Or": "||", "BitXor": "^", "BitAnd": "&",
         "BitOr": "|", "Shl": "<<", "Shr": ">>", "Eq": "==", "Lt": "<", "Le": "<=", "Ne": "!=", "Ge": ">=", "Gt": ">"}
UNARY = {"Not": "not", "Neg": "neg", "Deref": "deref"}

EXPRESSIONS = {
    "InlineAsm": "inline assembly", "Yield": "`yield`", "UnsafeBinderCast": "unsafe binder cast", "Type": "type ascription",
    "Use": "`use` of a value"}

RANGES = {"Range": False, "RangeFrom": False, "RangeTo": False, "RangeFull": False, "RangeInclusive": True,
          "RangeToInclusive": True}

INCLUSIVE = re.compile(r"core:(?:ops::)?range::\{impl#\d+\}::new")

# The language items that expressions need, beside those that all facts have.
BY_SIGN = {"+": "add", "-": "sub", "*": "mul", "/": "div", "%": "rem", "&": "bitand", "|": "bitor", "^": "bitxor", "<<": "shl",
           ">>": "shr", "==": "eq", "!=": "eq", "<": "partial_ord", "<=": "partial_ord", ">": "partial_ord", ">=": "partial_ord"}
RANGE_ITEMS = {(False, True, True): "range", (False, True, False): "range_from", (False, False, True): "range_to",
               (False, False, False): "range_full", (True, True, True): "range_inclusive",
               (True, False, True): "range_to_inclusive"}

CALLS = ("fn_once", "fn_mut", "fn")

DEEPEST = 256


class EveryBodyWriter(PatternWriter):
    """Writes one body."""

    def __init__(self, crate, item, function):
        super().__init__(crate, item, function)
        self.in_body, self.labels, self.label_count = True, {}, 0

    def body(self, body, takes_self):
        """The facts of a body."""
        params = [of["pat"] for of in body["params"]]
        own = self.binding(params[0]["kind"], span_of(params[0]["span"])) if takes_self else None
        patterns = self.patterns(params[1:] if takes_self else params)
        root = self.expr(body["value"])
        if self.is_too_deep():
            self.leave_out("expression that nests deeper than %d" % DEEPEST, self.item.span)
        module = self.lists.module(self.item.module)
        return {"module": module, "traits": self.crate.traits_in_scope(self.item, self.names), "self": own, "params": patterns,
                "root": root, "exprs": self.exprs, "pats": self.pats, "bindings": self.bindings, "labels": self.label_count}

    def is_too_deep(self):
        return self.deepest > DEEPEST

    def expr(self, e):
        """The number of an expression."""
        while name_of(e["kind"]) == "DropTemps":
            e = e["kind"][0]
        kind, span = e["kind"], span_of(e["span"])
        self.go_down()
        fact = every_format.written(self, e) or self.assigned(kind)
        if fact is None:
            write = getattr(self, "expr_" + name_of(kind), None)
            if write is None:
                self.leave_out(EXPRESSIONS.get(name_of(kind), "expression of the kind " + name_of(kind)), span)
                fact = "missing"
            else:
                fact = write(kind, span, e["hir_id"])
        self.go_up()
        return self.add_expr(fact, span)

    def optional(self, e):
        return None if e is None else self.expr(e)

    def several(self, expressions):
        return [self.expr(e) for e in expressions]

    def needs(self, name):
        """Notes a language item that an expression needs."""
        self.crate.needs(name)

    def needs_deref(self):
        self.needs("deref")
        self.needs("deref_mut")

    def expr_Lit(self, kind, span, _):
        if kind[0]["node"].name == "CStr":
            self.needs("cstr")
        return self.literal(kind[0]["node"], False, span)

    def expr_Err(self, _kind, _span, _id):
        return "missing"

    def expr_Path(self, kind, span, _):
        return ["path", self.path(kind[0], span)]

    def expr_Tup(self, kind, _span, _id):
        return ["tuple", self.several(kind[0])]

    def expr_Array(self, kind, _span, _id):
        return ["array", self.several(kind[0])]

    def expr_Repeat(self, kind, span, _):
        return ["repeat", self.expr(kind[0]), self.count(kind[1], span), self.const(kind[1])]

    def count(self, const, span):
        """The number of a repeated array's elements as an expression."""
        kind = const["kind"]
        if name_of(kind) == "Anon":
            return self.expr(body_of(self.scope.bodies, kind[0]["body"])["value"])
        if name_of(kind) == "Path":
            return self.add_expr(["path", self.path(kind[0], span)], span_of(const["span"]))
        if name_of(kind) == "Infer":
            return self.add_expr("_", span_of(const["span"]))
        return self.add_expr(["lit", ["int", str(self.const(const)), None]], span_of(const["span"]))

    def expr_Call(self, kind, span, _):
        if is_inclusive_range(kind):
            self.needs("range_inclusive")
            return ["range", True, *self.several(kind[1])]
        for name in CALLS if name_of(kind[0]["kind"]) != "Path" or is_local(kind[0]["kind"][0]) else ():
            self.needs(name)
        return ["call", self.expr(kind[0]), self.several(kind[1])]

    def expr_MethodCall(self, kind, _span, _id):
        name = identifier(kind[0]["ident"])
        self.names.add(name)
        self.needs_deref()
        return ["method", self.expr(kind[1]), name, self.list_of(kind[0]), self.several(kind[2])]

    def expr_Binary(self, kind, _span, _id):
        sign = SIGNS[name_of(kind[0]["node"])]
        self.needs(BY_SIGN.get(sign))
        return ["bin", sign, self.expr(kind[1]), self.expr(kind[2])]

    def expr_AssignOp(self, kind, _span, _id):
        sign = SIGNS[name_of(kind[0]["node"]).removesuffix("Assign")]
        self.needs(BY_SIGN[sign] + "_assign")
        return ["bin", sign + "=", self.expr(kind[1]), self.expr(kind[2])]

    def expr_Unary(self, kind, _span, _id):
        sign = UNARY[name_of(kind[0])]
        self.needs_deref() if sign == "deref" else self.needs(sign)
        return ["un", sign, self.expr(kind[1])]

    def expr_Cast(self, kind, _span, _id):
        return ["cast", self.expr(kind[0]), self.type(kind[1])]

    def expr_Let(self, kind, _span, _id):
        value = self.expr(kind[0]["init"])
        return ["let", self.pattern(kind[0]["pat"]), value]

    def expr_If(self, kind, _span, _id):
        return ["if", self.expr(kind[0]), self.expr(kind[1]), self.optional(kind[2])]

    def expr_Match(self, kind, _span, _id):
        scrutinee = self.expr(kind[0])
        patterns = [self.pattern(arm["pat"]) for arm in kind[1]]
        return ["match", scrutinee, [[pattern, self.optional(arm["guard"]), self.expr(arm["body"])]
                                     for pattern, arm in zip(patterns, kind[1])]]

    def label(self, label, target):
        """The number of a label that stands at a loop or block, or None."""
        if label is None:
            return None
        self.labels[target] = self.label_count
        self.label_count += 1
        return self.labels[target]

    def expr_Loop(self, kind, span, target):
        label = self.label(kind[1], target)
        return ["loop", label, self.add_expr(self.block(kind[0], None), span)]

    def target(self, destination):
        """The label that is written at a `break` or `continue`, or None."""
        to = destination["target_id"]
        return None if destination["label"] is None or to.name != "Ok" else self.labels.get(to[0])

    def expr_Break(self, kind, _span, _id):
        return ["break", self.target(kind[0]), self.optional(kind[1])]

    def expr_Continue(self, kind, _span, _id):
        return ["continue", self.target(kind[0])]

    def expr_Ret(self, kind, _span, _id):
        return ["return", self.optional(kind[0])]

    def expr_Become(self, kind, _span, _id):
        return ["become", self.expr(kind[0])]

    def expr_Block(self, kind, _span, target):
        return self.block(kind[0], self.label(kind[1], target))

    def block(self, block, label):
        """The facts of a block."""
        self.go_down()
        statements = [self.statement(of["kind"]) for of in block["stmts"] if name_of(of["kind"]) != "Item"]
        tail = self.optional(block["expr"])
        self.go_up()
        if block["rules"] != "DefaultBlock" and label is None:
            return ["unsafe", statements, tail]
        return ["block", label, statements, tail]

    def statement(self, kind):
        """A statement that is no item."""
        if kind.name == "Let":
            let = kind[0]
            value = self.optional(let["init"])
            ty = None if let["ty"] is None else self.type(let["ty"])
            pattern = self.pattern(let["pat"])
            other = None if let["els"] is None else self.add_expr(self.block(let["els"], None), span_of(let["els"]["span"]))
            return ["let", pattern, ty, value, other]
        return ["expr", self.expr(kind[0]), kind.name == "Semi"]

    def expr_ConstBlock(self, kind, _span, _id):
        return ["const", self.expr(body_of(self.scope.bodies, kind[0]["body"])["value"])]

    def expr_Closure(self, kind, span, _):
        of = kind[0]
        if name_of(of["kind"]) != "Closure":
            self.leave_out("async code" if "Async" in repr_of(of["kind"]) else "coroutine", span)
            return "missing"
        body, declared = body_of(self.scope.bodies, of["body"]), of["fn_decl"]
        params = [[self.pattern(param["pat"]), self.type_unless_free(ty)] for param, ty in zip(body["params"], declared["inputs"])]
        output = declared["output"]
        written = self.type(output[0]) if output.name == "Return" else None
        return ["closure", params, written, self.expr(body["value"])]

    def type_unless_free(self, ty):
        """The written type of a closure's parameter, or None."""
        return None if name_of(ty["kind"]).startswith("Infer") else self.type(ty)

    def expr_Assign(self, kind, _span, _id):
        target, span = kind[0], span_of(kind[0]["span"])
        place = self.add_pat(["expr", self.expr(target)], span)
        return ["assign", place, self.expr(kind[1])]

    def assigned(self, kind):
        """A destructuring assignment, as it was written, or None where an expression is none."""
        if name_of(kind) != "Block" or not kind[0]["stmts"] or kind[0]["expr"] is not None:
            return None
        first, *others = (of["kind"] for of in kind[0]["stmts"])
        if first.name != "Let" or name_of(first[0]["source"]) != "AssignDesugar":
            return None
        for of in others:
            place, value = of[0]["kind"][0], of[0]["kind"][1]
            self.places[value["kind"][0][1]["res"][0]] = place
        value = self.expr(first[0]["init"])
        return ["assign", self.pattern(first[0]["pat"]), value]

    def expr_Field(self, kind, _span, _id):
        self.needs_deref()
        return ["field", self.expr(kind[0]), identifier(kind[1])]

    def expr_Index(self, kind, _span, _id):
        self.needs("index")
        self.needs("index_mut")
        self.needs_deref()
        return ["index", self.expr(kind[0]), self.expr(kind[1])]

    def expr_AddrOf(self, kind, _span, _id):
        return ["ref", name_of(kind[0]) == "Raw", "mut" if name_of(kind[1]) == "Mut" else "not", self.expr(kind[2])]

    def expr_Struct(self, kind, span, _):
        range_ = range_of(kind)
        if range_ is not None:
            start, end, inclusive = range_
            self.needs(RANGE_ITEMS[inclusive, start is not None, end is not None])
            return ["range", inclusive, self.optional(start), self.optional(end)]
        variant = self.variant_path(kind[0], span)
        fields = [[identifier(of["ident"]), self.expr(of["expr"])] for of in kind[1]]
        base = kind[2]
        if base is not None and name_of(base) == "DefaultFields":
            self.leave_out("defaults of fields", span)
        return ["record", variant, fields, self.expr(base[0]) if name_of(base or "None") == "Base" else None]

    def expr_OffsetOf(self, _kind, _span, _id):
        return "offset"


def is_local(path):
    """Whether a path names a local."""
    return path.name == "Resolved" and path[0] is None and named_by(path[1])[0] == "Local"


def repr_of(part):
    """The words in a part of the tree."""
    if isinstance(part, str) or part is None:
        return str(part)
    return " ".join([part.name, *map(repr_of, part.fields.values())])


def ops_struct(path):
    """The name of the struct of the library's ranges that a path names, or None."""
    if path.name != "Resolved" or path[0] is not None:
        return None
    named, item = named_by(path[1])
    if named != "Struct" or item.crate != "core" or not item.path.startswith(("ops::range::", "range::")):
        return None
    return item.path.rpartition("::")[2]


def is_written(ident):
    """Whether the source itself has an identifier."""
    return ident.rpartition("#")[2] == "0"


def range_of(kind):
    """The ends of a range that is written by `..` and whether the last one is in it, or None where a record is none."""
    name = ops_struct(kind[0])
    if name not in RANGES or is_written(kind[0][1]["segments"][-1]["ident"]):
        return None
    ends = {identifier(of["ident"]): of["expr"] for of in kind[1]}
    return ends.get("start"), ends.get("end", ends.get("last")), RANGES[name]


def is_inclusive_range(kind):
    """Whether a call is what rustc writes for `a..=b`."""
    callee = kind[0]["kind"]
    if name_of(callee) != "Path" or callee[0].name != "Resolved":
        return False
    (named, item), last = named_by(callee[0][1]), callee[0][1]["segments"][-1]
    return named == "AssocFn" and not is_written(last["ident"]) and INCLUSIVE.fullmatch(":".join(item[:2])) is not None


def takes_self(body):
    """Whether a body of a function of a trait or an impl has `self` as its first parameter."""
    return bool(body["params"]) and is_self(body["params"][0]["pat"])

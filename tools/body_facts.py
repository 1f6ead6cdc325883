"""How the body of a function in rustc's tree becomes facts."""
import re

from crate_items import RESOLUTIONS, Writer, named_by
from hir_tree import Node, def_id, identifier, name_of, span_of

EXPRESSIONS = {
    "ConstBlock": "const block", "Array": "array", "MethodCall": "method call", "Use": "`use` of a value",
    "Binary": "binary operator", "Unary": "unary operator", "Cast": "cast", "Type": "type ascription",
    "Let": "`let` in a condition", "Loop": "loop", "Closure": "closure", "Assign": "assignment",
    "AssignOp": "compound assignment", "Field": "field access", "Index": "indexing", "AddrOf": "borrow",
    "Break": "`break`", "Continue": "`continue`", "Ret": "`return`", "Become": "`become`", "InlineAsm": "inline assembly",
    "OffsetOf": "`offset_of!`", "Struct": "struct expression with named fields", "Repeat": "array by repetition",
    "Yield": "`yield`", "UnsafeBinderCast": "unsafe binder cast", "Err": "expression with an error"}

LOOPS = {"Loop": "`loop`", "While": "`while` loop", "ForLoop": "`for` loop"}

MATCHES = {"ForLoopDesugar": "`for` loop", "TryDesugar": "`?` operator", "AwaitDesugar": "`await`"}

PATTERNS = {
    "Missing": "missing pattern", "Struct": "pattern with named fields", "Or": "or-pattern", "Never": "pattern `!`",
    "Box": "box pattern", "Deref": "deref pattern", "Ref": "reference pattern", "Range": "range pattern",
    "Slice": "slice pattern", "Guard": "guard pattern", "Err": "pattern with an error"}

LITERALS = {"Str": "string literal", "ByteStr": "byte string literal", "CStr": "C string literal",
            "Float": "float literal", "Err": "literal with an error"}

ESCAPES = {"n": "\n", "r": "\r", "t": "\t", "0": "\0", "\\": "\\", "'": "'", '"': '"'}


class BodyWriter(Writer):
    """Writes one body.

    It keeps by the names that a report gives to nodes, as "e0", "p0" and "b0", their spans (`spans`), and the spans of the
    least part of the source itself around them (`places`), which are the same where no macro wrote them. `written` are
    the bindings whose types stand in the source.
    """

    def __init__(self, lists, generics, function):
        super().__init__(lists, generics, 0, function)
        self.exprs, self.pats, self.bindings, self.spans, self.places = [], [], [], {}, {}
        self.written = set()
        self.locals = {}  # the binding of each local, by the HirId of its pattern

    def body(self, function, module):
        """The facts of a function's body."""
        params = [self.pattern(param["pat"]) for param in function.body["params"]]
        self.has_types(params, function.signature["decl"]["inputs"])
        root = self.expr(function.body["value"])
        return {"module": module, "traits": [], "self": None, "params": params, "root": root, "exprs": self.exprs,
                "pats": self.pats, "bindings": self.bindings, "labels": 0}

    def expr(self, e):
        """The number of an expression."""
        kind, span, around = e["kind"], span_of(e["span"]), self.come_to(e["span"])
        number = self.add_expr(getattr(self, "expr_" + name_of(kind), self.other_expr)(kind, span), span)
        self.place = around
        return number

    def come_to(self, span):
        """Makes a span the place of what is written from now on, if it is the source's own; the place before."""
        around, span = self.place, span_of(span)
        if span is not None and not span.context:
            self.place = span
        return around

    def add_expr(self, fact, span):
        self.exprs.append(fact)
        self.stands("e%d" % (len(self.exprs) - 1), span)
        return len(self.exprs) - 1

    def stands(self, node, span):
        """Keeps where a node stands."""
        self.spans[node], self.places[node] = span, self.place

    def other_expr(self, kind, span):
        self.leave_out(kind_of_expression(kind), span)
        self.bind_all(kind)

    def expr_DropTemps(self, kind, span):  # a `for` loop, as rustc writes it with a `match`
        return getattr(self, "expr_" + name_of(kind[0]["kind"]), self.other_expr)(kind[0]["kind"], span)

    def expr_Lit(self, kind, span):
        return self.literal(kind[0]["node"], False, span)

    def literal(self, literal, negated, span):
        """A literal, before which a minus may stand in a pattern."""
        if literal.name == "Int":
            suffix = None if literal[1] == "Unsuffixed" else literal[1][0]
            return ["lit", ["int", "-" * negated + literal[0][0], suffix]]
        if literal.name == "Byte":
            return ["lit", ["int", literal[0], "u8"]]
        if literal.name == "Bool":
            return ["lit", ["bool", literal[0]]]
        if literal.name == "Char":
            return ["lit", ["char", ord(character(literal[0]))]]
        self.leave_out(LITERALS.get(literal.name, "literal of the kind " + literal.name), span)

    def expr_Path(self, kind, span):
        return ["path", self.path(kind[0], span)]

    def path(self, path, span):
        """A path to a value."""
        if path.name != "Resolved" or path[0] is not None:
            self.leave_out("associated item", span)
            return None
        path = path[1]
        if any(of["args"] is not None for of in path["segments"]):
            self.leave_out("type arguments of a path", span)
        named, item = named_by(path)
        if named == "Local":
            return ["local", self.locals[path["res"][0]], None]
        if named == "Fn":
            return self.item_path(item, "fn", "function", self.items.functions, self.lists.function, span)
        if named == "Ctor":
            return self.item_path(item, "ctor", "constructor", self.items.constructors, self.lists.variant, span)
        self.leave_out(RESOLUTIONS.get(named, "path to a " + named), span)

    def item_path(self, item, word, what, items, number, span):
        """A path to a function or a constructor."""
        if item not in items or self.is_refused(item):
            self.leave_out_item(item, what, span)
            return None
        return [word, number(item), None]

    def is_refused(self, item):
        return self.items.constructors.get(item, (item,))[0] in self.lists.refused

    def expr_Tup(self, kind, _):
        return ["tuple", [self.expr(part) for part in kind[0]]]

    def expr_Call(self, kind, _):
        return ["call", self.expr(kind[0]), [self.expr(argument) for argument in kind[1]]]

    def expr_If(self, kind, _):
        return ["if", *(None if part is None else self.expr(part) for part in (kind[0], kind[1], kind[2]))]

    def expr_Match(self, kind, span):
        if name_of(kind[2]) in MATCHES:
            self.leave_out(MATCHES[name_of(kind[2])], span)
            return None
        if not kind[1]:
            self.leave_out("`match` without an arm", span)
        scrutinee = self.expr(kind[0])
        patterns = [self.pattern(arm["pat"]) for arm in kind[1]]
        arms = []
        for pattern, arm in zip(patterns, kind[1]):
            guard = None if arm["guard"] is None else self.expr(arm["guard"])
            arms.append([pattern, guard, self.expr(arm["body"])])
        return ["match", scrutinee, arms]

    def expr_Block(self, kind, span):
        block = kind[0]
        if kind[1] is not None:
            self.leave_out("labelled block", span)
        if block["rules"] != "DefaultBlock":
            self.leave_out("unsafe block", span)
        statements, tail, around, behind = [], None, self.place, brace_of(span)
        for of in block["stmts"]:
            behind = self.come_to_statement(span_of(of["span"]), behind)
            if name_of(of["kind"]) != "Item":
                statements.append(self.statement(of["kind"]))
        if block["expr"] is not None:
            self.come_to_statement(span_of(block["expr"]["span"]), behind)
            tail = self.expr(block["expr"])
        self.place = around
        return ["block", None, statements, tail]

    def come_to_statement(self, span, behind):
        """Makes the span of a statement the place; where a macro wrote it, the call of the macro, found behind a place."""
        if span is None or span.context:
            span = behind and self.items.sources.word_behind(behind)
        self.place = span or self.place
        return span or behind

    def statement(self, kind):
        """A statement that is no item."""
        if kind.name == "Let":
            return self.let(kind[0])
        return ["expr", self.expr(kind[0]), kind.name == "Semi"]

    def let(self, let):
        if let["els"] is not None:
            self.leave_out("`let` with `else`", span_of(let["span"]))
        init = None if let["init"] is None else self.expr(let["init"])
        ty = None if let["ty"] is None else self.type(let["ty"], None)[0]
        pattern = self.pattern(let["pat"])
        if is_whole_type(let["ty"]):
            self.has_types([pattern], [let["ty"]])
        return ["let", pattern, ty, init, None]

    def has_types(self, patterns, types):
        """Notes that these types of patterns are written; the facts of a pattern that is left out are None."""
        for pattern, ty in zip(patterns, types):
            fact = self.pats[pattern] or "left out"
            if fact[0] == "bind":
                self.written.add("b%d" % fact[1])
            elif fact[0] == "tuple" and name_of(ty["kind"]) == "Tup":
                self.has_types(fact[1], ty["kind"][0])

    def pattern(self, pat):
        """The number of a pattern."""
        kind, span, around = pat["kind"], span_of(pat["span"]), self.come_to(pat["span"])
        self.pats.append(getattr(self, "pattern_" + name_of(kind), self.other_pattern)(kind, span))
        self.stands("p%d" % (len(self.pats) - 1), span)
        self.place = around
        return len(self.pats) - 1

    def other_pattern(self, kind, span):
        self.leave_out(PATTERNS.get(name_of(kind), "pattern of the kind " + name_of(kind)), span)
        self.bind_all(kind)

    def bind_all(self, part):
        """Makes the locals known that a pattern which is left out binds."""
        if getattr(part, "name", None) == "Binding":
            self.locals[part[1]] = 0
        for inner in part if isinstance(part, list) else getattr(part, "fields", {}).values():
            self.bind_all(inner)

    def pattern_Wild(self, _kind, _span):
        return "wild"

    def pattern_Binding(self, kind, span):
        mode = kind[0]
        self.locals[kind[1]] = len(self.bindings)
        self.bindings.append([identifier(kind[2]), "mut" if mode[1] == "Mut" else "plain"])
        self.stands("b%d" % self.locals[kind[1]], span)
        if mode[0] != "No":
            self.leave_out("`ref` binding", span)
        if kind[3] is not None:
            self.leave_out("binding with a subpattern", span)
            self.pattern(kind[3])
        return ["bind", self.locals[kind[1]], None]

    def pattern_Tuple(self, kind, span):
        return ["tuple", self.parts(kind[0], kind[1], span), None]

    def parts(self, parts, dots, span):
        if dots is not None:
            self.leave_out("`..` in a pattern", span)
        return [self.pattern(part) for part in parts]

    def pattern_TupleStruct(self, kind, span):
        path = self.path(kind[0], span)
        variant = path and (["variant", *path[1:]] if path[0] == "ctor" else None)
        return ["ctor", variant, self.parts(kind[1], kind[2], span), None]

    def pattern_Expr(self, kind, span):
        """A literal or a path."""
        kind = kind[0]["kind"]
        if name_of(kind) == "Lit":
            return ["lit", self.add_expr(self.literal(kind["lit"]["node"], kind["negated"], span), span)]
        if name_of(kind) == "Path":
            return ["path", self.path(kind[0], span)]
        self.leave_out("pattern of the kind " + name_of(kind), span)


def is_whole_type(ty):
    """Whether a type is written, and no `_` in it."""
    return ty is not None and not has_hole(ty)


def has_hole(part):
    """Whether a `_` stands in a part of the tree that is a type."""
    if isinstance(part, Node):
        return part.name == "Infer" or part.name != "Lifetime" and any(map(has_hole, part.fields.values()))
    return any(map(has_hole, part)) if isinstance(part, list) else part == "Infer"


def kind_of_expression(kind):
    """The kind of an expression that is left out, in words."""
    name = name_of(kind)
    if name == "Loop":
        return LOOPS.get(kind[2], "loop")
    if name == "Struct" and is_range(kind[0]):
        return "range"
    return EXPRESSIONS.get(name, "expression of the kind " + name)


def brace_of(span):
    """The span of the brace that a block begins with, or None where a macro wrote the block."""
    if span is None or span.context:
        return None
    return span._replace(end_line=span.line, end_column=span.column + 1)


def is_range(path):
    """Whether a path to a struct names one that rustc writes a range with."""
    res = path[1]["res"] if path.name == "Resolved" else None
    return name_of(res) == "Def" and def_id(res[1]).path.startswith("ops::range::") if res is not None else False


def character(text):
    """The character that Rust's debug format writes so."""
    text = text[1:-1]
    found = re.fullmatch(r"\\u\{(\w+)\}", text)
    if found:
        return chr(int(found.group(1), 16))
    return ESCAPES[text[1]] if len(text) == 2 and text[0] == "\\" else text

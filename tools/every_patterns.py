"""How patterns and literals become facts."""
import ast
import re

from body_facts import character
from every_paths import PathWriter
from hir_tree import identifier, name_of, span_of

MODES = {("No", "Not"): "plain", ("No", "Mut"): "mut"}

PATTERNS = {"Never": "pattern `!`", "Deref": "deref pattern", "Guard": "guard pattern"}

ESCAPE = re.compile(r"\\(?:u\{(\w+)\}|(.))", re.DOTALL)
ESCAPES = {"n": "\n", "r": "\r", "t": "\t", "0": "\0"}


class PatternWriter(PathWriter):
    """Writes patterns. `places` has what is assigned to by the HirId of the binding that rustc writes in its place."""

    def __init__(self, crate, item, function):
        super().__init__(crate, item, function)
        self.exprs, self.pats, self.bindings, self.spans, self.places = [], [], [], {}, {}
        self.depth_of_tree, self.deepest = 0, 0

    def go_down(self):
        """Notes that a node stands below the one that is written now."""
        self.depth_of_tree += 1
        self.deepest = max(self.deepest, self.depth_of_tree)

    def go_up(self):
        self.depth_of_tree -= 1

    def add_expr(self, fact, span):
        self.exprs.append(fact)
        self.spans["e%d" % (len(self.exprs) - 1)] = span
        return len(self.exprs) - 1

    def add_pat(self, fact, span):
        self.pats.append(fact)
        self.spans["p%d" % (len(self.pats) - 1)] = span
        return len(self.pats) - 1

    def literal(self, literal, negated, span):
        """The facts of a literal, before which a minus may stand in a pattern."""
        name = literal.name
        if name == "Int":
            return ["lit", ["int", "-" * bool(negated) + literal[0][0], None if literal[1] == "Unsuffixed" else literal[1][0]]]
        if name == "Byte":
            return ["lit", ["int", literal[0], "u8"]]
        if name == "Bool":
            return ["lit", ["bool", bool(literal[0])]]
        if name == "Char":
            return ["lit", ["char", ord(character(literal[0]))]]
        if name == "Str":
            return ["lit", ["str", string(literal[0])]]
        if name == "ByteStr":
            return ["lit", ["bytes", length_of(literal[0])]]
        if name == "CStr":
            return ["lit", "cstr"]
        if name != "Err":
            self.leave_out("float literal" if name == "Float" else "literal of the kind " + name, span)
        return "missing"

    def pattern(self, pat):
        """The number of a pattern."""
        kind, span = pat["kind"], span_of(pat["span"])
        write = getattr(self, "pattern_" + name_of(kind), None)
        if write is None:
            self.leave_out(PATTERNS.get(name_of(kind), "pattern of the kind " + name_of(kind)), span)
            self.bind_all(kind)
            return self.add_pat("missing", span)
        self.go_down()
        fact = write(kind, span)
        self.go_up()
        return self.add_pat(fact, span)

    def bind_all(self, part):
        """Makes the locals known that a pattern which is left out binds."""
        if getattr(part, "name", None) == "Binding":
            self.binding(part, None)
        for inner in part if isinstance(part, (list, tuple)) else getattr(part, "fields", {}).values():
            self.bind_all(inner)

    def pattern_Wild(self, _kind, _span):
        return "wild"

    def pattern_Missing(self, _kind, _span):
        return "missing"

    def pattern_Err(self, _kind, _span):
        return "missing"

    def pattern_Binding(self, kind, span):
        if kind[1] in self.places:
            return ["expr", self.expr(self.places[kind[1]])]
        below = None if kind[3] is None else self.pattern(kind[3])
        return ["bind", self.binding(kind, span), below]

    def binding(self, kind, span):
        """The number of a binding, which may stand in several parts of an or-pattern."""
        if kind[1] not in self.locals:
            self.locals[kind[1]] = len(self.bindings)
            by, mutable = kind[0][0], name_of(kind[0][1])
            if name_of(by) == "Yes":
                mode = "refmut" if name_of(by[len(by.fields) - 1]) == "Mut" else "ref"
            else:
                mode = MODES["No", mutable]
            self.bindings.append([identifier(kind[2]), mode])
            self.spans["b%d" % self.locals[kind[1]]] = span
        return self.locals[kind[1]]

    def patterns(self, parts):
        return [self.pattern(part) for part in parts]

    def pattern_Tuple(self, kind, _):
        return ["tuple", self.patterns(kind[0]), dots(kind[1])]

    def pattern_TupleStruct(self, kind, span):
        variant = self.variant_path(kind[0], span)
        return ["ctor", variant, self.patterns(kind[1]), dots(kind[2])]

    def pattern_Struct(self, kind, span):
        variant = self.variant_path(kind[0], span)
        return ["record", variant, [[identifier(of["ident"]), self.pattern(of["pat"])] for of in kind[1]]]

    def pattern_Or(self, kind, _):
        return ["or", self.patterns(kind[0])]

    def pattern_Ref(self, kind, _):
        return ["ref", "mut" if name_of(kind[len(kind.fields) - 1]) == "Mut" else "not", self.pattern(kind[0])]

    def pattern_Box(self, kind, _):
        return ["box", self.pattern(kind[0])]

    def pattern_Slice(self, kind, _):
        before = self.patterns(kind[0])
        rest = None if kind[1] is None else self.pattern(kind[1])
        return ["slice", before, rest, self.patterns(kind[2])]

    def pattern_Range(self, kind, _):
        return ["range", *(None if end is None else self.pattern_expr(end) for end in (kind[0], kind[1]))]

    def pattern_Expr(self, kind, span):
        """A literal or a path."""
        of = kind[0]["kind"]
        if name_of(of) == "Path":
            return ["path", self.path(of[0], span)]
        return ["lit", self.pattern_expr(kind[0])]

    def pattern_expr(self, of):
        """The number of an expression that stands in a pattern."""
        kind, span = of["kind"], span_of(of["span"])
        self.deepest = max(self.deepest, self.depth_of_tree + 1)
        if name_of(kind) == "Path":
            return self.add_expr(["path", self.path(kind[0], span)], span)
        if name_of(kind) == "Lit":
            return self.add_expr(self.literal(kind["lit"]["node"], kind["negated"], span), span)
        self.leave_out("pattern of the kind " + name_of(kind), span)
        return self.add_expr("missing", span)


def dots(position):
    """How many patterns stand before `..`, or None."""
    return None if position is None else int(position)


def string(text):
    """The text that Rust's debug format writes so."""
    return ESCAPE.sub(lambda found: chr(int(found[1], 16)) if found[1] else ESCAPES.get(found[2], found[2]), text[1:-1])


def length_of(literal):
    """The length of a byte string, as the tree has it: its bytes, or Rust's text of them."""
    if isinstance(literal, (list, tuple)):
        return len(literal)
    return len(ast.literal_eval("[%s]" % literal.strip("[]"))) if literal.startswith("[") else len(ast.literal_eval("b" + literal))

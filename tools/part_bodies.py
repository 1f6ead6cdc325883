"""How bodies of which not all is carried are written in part.

What is not carried is a *hole*, a call of a function that gives any type: its parts are typed before it, each in a `let _`.
Where an expression of such a kind has a type by itself, as a comparison has, the hole is of that type. A pattern that is not
carried is `_`, and the names that it binds are bound at holes. So is a pattern into which a reference may come, which
would bind references then: what comes into it has to say by itself that it is none (its *shape*).
"""
import collections
import re

from body_facts import BodyWriter, brace_of, is_whole_type, kind_of_expression
from crate_items import body_of, named_by
from hir_tree import Node, def_id, identifier, is_expression, name_of, span_of
from part_types import FIXED, PartTypes

# What is known by itself of an expression that is no reference: the head of its type, which is an adt, "tuple" or the word of
# another type, and the shapes of its parts, of which None says nothing.
Shape = collections.namedtuple("Shape", "head parts", defaults=((),))

INTEGERS = {sign + width for sign in "iu" for width in ("8", "16", "32", "64", "128", "size")} | {"integer"}
COMPARISONS = {"Eq", "Ne", "Lt", "Le", "Gt", "Ge"}
SHIFTS = {"Shl", "Shr", "ShlAssign", "ShrAssign"}
MOST_ELEMENTS = 64

# Expressions behind which nothing may come, and what functions of the standard library are called that do not return.
ENDS = {"Ret", "Break", "Continue", "Become", "Loop", "InlineAsm", "Err"}
NEVER_RETURN = re.compile(r"panic|unreachable|exit|abort|unimplemented|resume_unwind|_failed|handle_alloc_error|const_eval")
STANDARD = {"std", "core", "alloc"}

# Nodes that are not gone into where the parts of an expression are looked for.
NO_PARTS = {"Ty", "Resolved", "TypeRelative", "LangItem", "PathSegment", "ConstArg", "Destination"}


class PartWriter(PartTypes, BodyWriter):
    """Writes an item or a body in part. Expressions and patterns that stand for none of the source have no span."""

    def __init__(self, lists, generics, function=None):
        super().__init__(lists, generics, function)
        self.shapes = {}  # of bindings
        self.unbound = []  # the bindings of patterns that are not carried, until they are bound
        self.output, self.bodies = None, {}

    def body_in_part(self, function, inputs, output):
        """The facts of the body of a function that takes and gives these types."""
        self.output, self.bodies = output, function.bodies
        params = [self.fitted(param["pat"], self.shape_of_type(ty)) for param, ty in zip(function.body["params"], inputs)]
        self.has_types(params, function.signature["decl"]["inputs"])
        bound = self.bind()
        root = self.expr(function.body["value"])
        if bound:
            root = self.made(["block", None, bound, root])
        return {"module": self.lists.module(function.module), "traits": [], "self": None, "params": params, "root": root,
                "exprs": self.exprs, "pats": self.pats, "bindings": self.bindings, "labels": 0}

    # What stands for no part of the source.

    def made(self, fact):
        """The number of an expression that is made."""
        return self.add_expr(fact, None)

    def made_pattern(self, fact):
        self.pats.append(fact)
        self.stands("p%d" % (len(self.pats) - 1), None)
        return len(self.pats) - 1

    def made_binding(self, name="made"):
        self.bindings.append([name, "plain"])
        self.stands("b%d" % (len(self.bindings) - 1), None)
        return len(self.bindings) - 1

    def let_made(self, binding, ty, init):
        """A statement that binds a binding."""
        return ["let", self.made_pattern(["bind", binding, None]), ty, init, None]

    def part(self, number, ty=None):
        """A statement that types a part of what is not carried, at a type that is expected of it."""
        return ["let", self.made_pattern("wild"), ty, number, None]

    def call(self, helper, arguments):
        """A call of a helper."""
        return ["call", self.made(["path", ["fn", helper, None]]), arguments]

    def unknown(self, parts=()):
        """A hole behind these parts: numbers, or statements."""
        lists = self.lists
        hole = self.call(lists.helper("hole", 1, (), lists.parameter(0), lists.placeholder(FIXED)), [])
        statements = [self.part(part) if isinstance(part, int) else part for part in parts]
        return ["block", None, statements, self.made(hole)] if statements else hole

    def known(self, ty, parts=()):
        """A hole of this type behind these parts."""
        binding = self.made_binding()
        self.shapes[binding] = self.shape_of_type(ty)
        let = self.let_made(binding, ty, self.made(self.unknown()))
        statements = [self.part(part) if isinstance(part, int) else part for part in parts]
        return ["block", None, [*statements, let], self.made(["path", ["local", binding, None]])]

    def unit(self):
        return self.lists.type(["tuple", []])

    def bind(self, first=0):
        """Statements that bind at holes what is unbound from a number on."""
        bindings, self.unbound[first:] = self.unbound[first:], []
        return [self.let_made(binding, None, self.made(self.unknown())) for binding in bindings]

    # Shapes.

    def shape_of_type(self, ty, arguments=None):
        """The Shape of a written type, with these shapes in the place of parameters."""
        fact = self.lists.types[ty]
        if isinstance(fact, str):
            return None if fact == "_" else Shape(fact)
        if fact[0] == "param":
            return Shape("param") if arguments is None else arguments[fact[1]] if fact[1] < len(arguments) else None
        if fact[0] == "tuple":
            return Shape("tuple", tuple(self.shape_of_type(part, arguments) for part in fact[1]))
        if fact[0] == "adt" and (adt := list(self.lists.adts)[fact[1]]) in self.items.adts:
            return Shape(adt, tuple(self.shape_of_type(part, arguments) for _, part in fact[2]))
        return None

    def shape(self, number):
        """The Shape of an expression."""
        fact = self.exprs[number]
        kind = fact[0]
        if kind == "lit":
            return Shape(fact[1][2] or "integer" if fact[1][0] == "int" else fact[1][0])
        if kind == "path":
            return self.shapes.get(fact[1][1]) if fact[1][0] == "local" else self.shape_of_constructor(fact[1], ())
        if kind == "tuple":
            return Shape("tuple", tuple(map(self.shape, fact[1])))
        if kind == "block":
            return Shape("tuple") if fact[3] is None else self.shape(fact[3])
        if kind == "call":
            return self.shape_of_call(self.exprs[fact[1]], fact[2])
        if kind == "if":
            return Shape("tuple") if fact[3] is None else self.first_shape(fact[2:])
        return self.first_shape([arm for _, _, arm in fact[2]])

    def first_shape(self, numbers):
        """The Shape of branches, which the first gives that has one."""
        return next((shape for shape in map(self.shape, numbers) if shape is not None), None)

    def shape_of_call(self, callee, arguments):
        if callee[0] != "path" or callee[1][0] == "local":
            return None
        if callee[1][0] == "ctor":
            return self.shape_of_constructor(callee[1], arguments)
        number = callee[1][1]
        if number in self.lists.alike:
            shapes = list(map(self.shape, arguments))
            return next((shape for shape in shapes if shape.head != "integer"), shapes[0])
        return self.shape_of_type(self.lists.outputs[number], ())

    def shape_of_constructor(self, path, arguments):
        """The Shape of what a constructor gives: its type's parameters have the shapes of the fields that are of them."""
        if path[0] != "ctor":
            return None
        adt, at = list(self.lists.variants)[path[1]]
        parameters, shapes = self.parameters_of_adt(adt), list(map(self.shape, arguments))
        for number, field in enumerate(self.fields_of(adt, at)[:len(shapes)]):
            fact = self.lists.types[field]
            if fact[0] == "param" and parameters[fact[1]] is None:
                parameters[fact[1]] = shapes[number]
        return Shape(adt, tuple(parameters))

    def parameters_of_adt(self, adt):
        return [None] * len(self.lists.signature(adt).params)

    def fields_of(self, adt, at):
        """The types of the fields of a variant."""
        return self.lists.signature(adt).fields[at]

    # Paths.

    def path(self, path, span):
        """What a path to a value names, or None where that is not carried."""
        if path.name == "Resolved" and path[0] is None and named_by(path[1])[0] == "Local":
            local = self.locals.get(path[1]["res"][0])
            return None if local is None else ["local", local, None]
        found = super().path(path, span)
        return self.related(path) if found is None else found

    def related(self, path):
        """What a path names that needs more than its name: a function or variant of an own type, or of a trait."""
        if path.name == "TypeRelative":
            adt = self.adt_named(path[0])
            name = identifier(path[1]["ident"])
            if adt is None:
                return None
            for at, (variant, data, _) in enumerate(self.items.adts[adt].variants):
                if variant == name and self.items.adts[adt].kind == "enum":
                    return self.variant_path(adt, at) if name_of(data) != "Struct" else None
            found = self.lists.functions_of.get((adt, name), ())
            return ["fn", self.lists.function(found[0]), None] if len(found) == 1 else None
        if path.name != "Resolved" or path[0] is not None:
            return None
        named, item = named_by(path[1])
        if named == "AssocFn" and item in self.items.functions:
            return ["fn", self.lists.function(item), None]
        if named == "SelfCtor":
            adt = self.adt_of_impl(def_id(path[1]["res"][0]))
            return None if adt is None else self.variant_path(adt, 0)
        return None

    def variant_path(self, adt, at):
        self.lists.adt(adt)
        return ["ctor", self.lists.variants[adt, at], None]

    def adt_named(self, ty):
        """The adt that a written type names, or None."""
        path = ty["kind"][0] if name_of(ty["kind"]) == "Path" else None
        return None if path is None or path.name != "Resolved" or path[0] is not None else self.adt_at(path[1])

    def adt_at(self, path):
        """The adt that a path to a type names, through aliases, or None."""
        named, item = named_by(path)
        if named in ("Struct", "Enum") and item in self.items.adts:
            return item
        if named == "TyAlias" and item in self.items.aliases:
            return self.adt_named(self.items.aliases[item].ty)
        if named == "SelfTyAlias":
            return self.adt_of_impl(def_id(path["res"]["alias_to"]))
        return None

    def adt_of_impl(self, impl):
        return self.adt_named(self.items.impls[impl].ty) if impl in self.items.impls else None

    def variant_with_fields(self, path):
        """The adt and the number of the variant that a path before fields in braces names, or None."""
        if path.name == "TypeRelative":
            adt, name = self.adt_named(path[0]), identifier(path[1]["ident"])
            names = [] if adt is None else [variant for variant, _, _ in self.items.adts[adt].variants]
            return (adt, names.index(name)) if name in names else None
        if path.name != "Resolved" or path[0] is not None:
            return None
        named, item = named_by(path[1])
        if named == "Ctor":
            return self.items.constructors.get(item)
        if named == "Variant":
            return self.items.variants.get(item[:2])
        adt = self.adt_at(path[1])
        return (adt, 0) if adt is not None and self.items.adts[adt].kind == "struct" else None

    # Expressions.

    def expr(self, e):
        kind, span, around = e["kind"], span_of(e["span"]), self.come_to(e["span"])
        fact = getattr(self, "expr_" + name_of(kind), self.other_expr)(kind, span)
        number = fact if isinstance(fact, int) else self.add_expr(fact, span)
        self.place = around
        return number

    def other_expr(self, kind, span):
        self.note(kind_of_expression(kind), span)
        return self.unknown(self.parts_in(kind))

    def parts_in(self, part):
        """Statements that type the expressions directly within a part of the tree."""
        if isinstance(part, list):
            return [statement for inner in part for statement in self.parts_in(inner)]
        if not isinstance(part, Node) or part.name in NO_PARTS:
            return []
        if is_expression(part):
            return [self.part(self.expr(part))]
        if part.name == "Block":
            return [self.part(self.made(self.block(part, None)))]
        return [statement for inner in part.fields.values() for statement in self.parts_in(inner)]

    def expr_Lit(self, kind, span):
        literal = kind[0]["node"]
        if literal.name in ("Int", "Byte", "Bool", "Char"):
            return self.literal(literal, False, span)
        self.literal(literal, False, span)
        if literal.name == "Str":
            return self.known(self.lists.reference(self.lists.word("str"), False))
        if literal.name == "Float" and isinstance(literal[1], Node):
            return self.known(self.lists.word(literal[1][0]))
        return self.unknown()

    def expr_Path(self, kind, span):
        path = self.path(kind[0], span)
        if path is not None:
            return ["path", path]
        ty = self.items.values.get(named_by(kind[0][1])[1]) if kind[0].name == "Resolved" and kind[0][0] is None else None
        return self.unknown() if ty is None else self.known(self.type(ty)[0])

    def expr_Call(self, kind, _):
        callee = kind[0]
        path = callee["kind"][0] if name_of(callee["kind"]) == "Path" else None
        found = None if path is None else self.path(path, span_of(callee["span"]))
        if found is None or found[0] == "local":
            parts = [self.expr(callee)] if path is None or found else []
            return self.unknown(parts + [self.expr(argument) for argument in kind[1]])
        return ["call", self.add_expr(["path", found], span_of(callee["span"])), [self.expr(argument) for argument in kind[1]]]

    def expr_Struct(self, kind, span):
        self.note(kind_of_expression(kind), span)
        found = self.variant_with_fields(kind[0])
        if found is None:
            return self.unknown(self.parts_in([kind[1], kind[2]]))
        names, fields, others = self.lists.signature(found[0]).names[found[1]], {}, []
        for field in kind[1]:
            name, number = identifier(field["ident"]), self.expr(field["expr"])
            if name in fields or name not in names:
                others.append(number)
            fields.setdefault(name, number)
        parts = [self.part(number) for number in others] + self.parts_in(kind[2])
        value = ["path", self.variant_path(*found)]
        if name_of(self.items.adts[found[0]].variants[found[1]][1]) != "Unit":
            value = ["call", self.made(value), [fields[name] if name in fields else self.made(self.unknown()) for name in names]]
        return ["block", None, parts, self.made(value)] if parts else value

    def expr_Let(self, kind, span):
        """A `let` in a condition."""
        self.note(kind_of_expression(kind), span)
        first, init = len(self.unbound), self.expr(kind[0]["init"])
        pattern = self.fitted(kind[0]["pat"], self.shape(init))
        return self.known(self.lists.type("bool"), [["let", pattern, None, init, None], *self.bind(first)])

    def expr_Match(self, kind, span):
        source = name_of(kind[2])
        if source == "ForLoopDesugar":
            return self.for_loop(kind, span)
        if source in ("TryDesugar", "AwaitDesugar"):
            self.note({"TryDesugar": "`?` operator"}.get(source, "`await`"), span)
            return self.unknown([self.expr(part) for part in kind[0]["kind"][1]])
        if not kind[1]:
            self.note("`match` without an arm", span)
            return self.unknown([self.expr(kind[0])])
        first, scrutinee = len(self.unbound), self.expr(kind[0])
        patterns = [self.fitted(arm["pat"], self.shape(scrutinee)) for arm in kind[1]]
        bound, arms = self.bind(first), []
        for pattern, arm in zip(patterns, kind[1]):
            guard = None if arm["guard"] is None else self.expr(arm["guard"])
            arms.append([pattern, guard, self.expr(arm["body"])])
        if not bound:
            return ["match", scrutinee, arms]
        return self.made(["block", None, bound, self.add_expr(["match", scrutinee, arms], span)])

    def for_loop(self, kind, span):
        """A `for` loop, which rustc writes as `match into_iter(..) { mut iter => loop { match next(&mut iter) { .. } } }`."""
        self.note("`for` loop", span)
        loop = kind[1][0]["body"]["kind"]
        inner = loop[0]["stmts"][0]["kind"][0]["kind"] if loop[0]["stmts"] else loop[0]["expr"]["kind"]
        arm, first = inner[1][1], len(self.unbound)
        items = [self.part(self.expr(part)) for part in kind[0]["kind"][1]]
        pattern = self.fitted(arm["pat"]["kind"][1][0]["pat"], None)
        items.append(["let", pattern, None, self.made(self.unknown()), None])
        items += self.bind(first)
        items.append(self.part(self.expr(arm["body"]), self.unit()))
        return self.known(self.unit(), items)

    def expr_Loop(self, kind, span):
        self.note(kind_of_expression(kind), span)
        block = kind[0]
        if name_of(kind[2]) != "While":
            return self.unknown([self.part(self.made(self.block(block, None)), self.unit())])
        branches = block["expr"]["kind"]
        loop = self.made(["if", self.expr(branches[0]), self.expr(branches[1]), None])
        return self.known(self.unit(), [loop])

    def expr_Block(self, kind, span):
        block = kind[0]
        if kind[1] is not None:
            self.note("labelled block", span)
            return self.unknown([self.made(self.block(block, span))])
        if block["rules"] != "DefaultBlock":
            self.note("unsafe block", span)
        return self.block(block, span)

    def block(self, block, span):
        """A block; where its end may not be reached, it gives a hole."""
        statements, tail, around, behind = [], None, self.place, None if span is None else brace_of(span)
        for of in block["stmts"]:
            behind = self.come_to_statement(span_of(of["span"]), behind)
            statements += self.statements(of["kind"])
        if block["expr"] is not None:
            self.come_to_statement(span_of(block["expr"]["span"]), behind)
            tail = self.expr(block["expr"])
        elif self.may_end(block):
            tail = self.made(self.unknown())
        self.place = around
        return ["block", None, statements, tail]

    def statements(self, kind):
        """What a statement is written as."""
        if kind.name == "Item":
            return []
        return self.lets(kind[0]) if kind.name == "Let" else [["expr", self.expr(kind[0]), kind.name == "Semi"]]

    def lets(self, let):
        """A `let`, what comes of an `else`, and the bindings of a pattern that is not carried."""
        first = len(self.unbound)
        init = None if let["init"] is None else self.expr(let["init"])
        ty = None if let["ty"] is None else self.type(let["ty"], None)[0]
        is_told = ty is not None and self.lists.types[ty] != "_"
        shape = self.shape_of_type(ty) if is_told else None if init is None else self.shape(init)
        pattern = self.fitted(let["pat"], shape)
        if is_whole_type(let["ty"]):
            self.has_types([pattern], [let["ty"]])
        statements = [["let", pattern, ty, init, None]]
        if let["els"] is not None:
            self.note("`let` with `else`", span_of(let["span"]))
            statements.append(self.part(self.made(self.block(let["els"], None))))
        return statements + self.bind(first)

    def may_end(self, part):
        """Whether what is typed within this part of the tree may end what is around it."""
        if isinstance(part, list):
            return any(map(self.may_end, part))
        if not isinstance(part, Node) or part.name in ("Ty", "Pat", "Item", "Closure"):
            return False
        if is_expression(part):
            kind = part["kind"]
            name = name_of(kind)
            if name in ENDS and not (name == "Loop" and name_of(kind[2]) == "While") or name == "Match" and not kind[1]:
                return True
            if name == "Call" and self.may_not_return(kind[0]) or name == "MethodCall" and self.is_endless(kind[0]):
                return True
        return any(map(self.may_end, part.fields.values()))

    def may_not_return(self, callee):
        """Whether what is called may be a function that does not return."""
        path = callee["kind"][0] if name_of(callee["kind"]) == "Path" else None
        if path is None or path.name != "Resolved":
            return path is None or self.is_endless(path[1])
        named, item = named_by(path[1])
        if item in self.items.functions:
            return gives_never(self.items.functions[item])
        if item is not None and item.crate in STANDARD:
            return NEVER_RETURN.search(item.path) is not None
        return named != "Ctor" and named != "SelfCtor"

    def is_endless(self, segment):
        """Whether an own method of this name does not return."""
        return identifier(segment["ident"]) in self.lists.endless

    def expr_Closure(self, kind, span):
        closure, around, first = kind[0], self.output, len(self.unbound)
        is_block = is_async_block(closure)
        self.note("async block" if is_block else kind_of_expression(kind), span)
        body, declared = body_of(self.bodies, closure["body"]), closure["fn_decl"]
        statements = []
        for param, written in () if is_block else zip(body["params"], declared["inputs"]):
            is_written = not name_of(written["kind"]).startswith("Infer")
            ty = self.type(written, None)[0] if is_written else None
            pattern = self.fitted(param["pat"], None if ty is None else self.shape_of_type(ty))
            if is_written:
                self.has_types([pattern], [written])
            statements.append(["let", pattern, ty, self.made(self.unknown()), None])
        statements += self.bind(first)
        output = self.type(declared["output"][0], None)[0] if declared["output"].name == "Return" else None
        self.output = None
        statements.append(self.part(self.expr(body["value"]), output))
        self.output = around
        return self.unknown(statements)

    def expr_ConstBlock(self, kind, span):
        self.note(kind_of_expression(kind), span)
        around, self.output = self.output, None
        parts = [self.expr(body_of(self.bodies, kind[0]["body"])["value"])]
        self.output = around
        return self.unknown(parts)

    def expr_Ret(self, kind, span):
        self.note(kind_of_expression(kind), span)
        return self.unknown([] if kind[0] is None else [self.part(self.expr(kind[0]), self.output)])

    def expr_Cast(self, kind, span):
        self.note(kind_of_expression(kind), span)
        return self.known(self.type(kind[1], None)[0], [self.expr(kind[0])])

    def expr_Binary(self, kind, span):
        self.note(kind_of_expression(kind), span)
        operator, truth = name_of(kind[0]["node"]), self.lists.type("bool")
        left, right = self.expr(kind[1]), self.expr(kind[2])
        if operator in ("And", "Or"):
            return self.known(truth, [self.part(left, truth), self.part(right, truth)])
        if operator in COMPARISONS:
            return self.known(truth, [left, right])
        if self.are_alike(left, right) and operator not in SHIFTS:
            return self.alike([left, right])
        return self.unknown([left, right])

    def alike(self, parts):
        """A call of a helper that gives the type of its arguments."""
        own = self.lists.parameter(0)
        helper = self.lists.helper("alike", 1, [own] * len(parts), own)
        self.lists.alike.add(helper)
        return self.call(helper, parts)

    def are_alike(self, left, right):
        """Whether two expressions are integers, of one type as far as is known, so that arithmetic gives this type."""
        heads = {shape and shape.head for shape in (self.shape(left), self.shape(right))}
        return heads <= INTEGERS and len(heads - {"integer"}) <= 1

    def expr_Unary(self, kind, span):
        self.note(kind_of_expression(kind), span)
        part = self.expr(kind[1])
        shape = self.shape(part)
        if name_of(kind[0]) in ("Not", "Neg") and shape is not None and shape.head in INTEGERS | {"bool"}:
            return self.alike([part])
        return self.unknown([part])

    def expr_Assign(self, kind, span):
        self.note(kind_of_expression(kind), span)
        return self.assign(self.expr(kind[0]), self.expr(kind[1]))

    def assign(self, place, value):
        own = self.lists.parameter(0)
        return self.call(self.lists.helper("assign", 1, (own, own), self.unit()), [place, value])

    def expr_AssignOp(self, kind, span):
        self.note(kind_of_expression(kind), span)
        place, value = self.expr(kind[1]), self.expr(kind[2])
        if self.are_alike(place, value) and name_of(kind[0]["node"]) not in SHIFTS:
            return self.assign(place, value)
        return self.known(self.unit(), [place, value])

    def expr_AddrOf(self, kind, span):
        """A borrow: of what is borrowed the type is known, where none is chosen freely; else a coercion may hide it."""
        self.note(kind_of_expression(kind), span)
        part = self.expr(kind[2])
        if name_of(kind[0]) != "Ref":
            return self.unknown([part])
        lists, is_mutable = self.lists, name_of(kind[1]) == "Mut"
        helper = lists.helper("borrow_mut" if is_mutable else "borrow", 2, (lists.parameter(0),), lists.parameter(1),
                              lists.reference(lists.parameter(0), is_mutable))
        binding = self.made_binding()
        let = self.let_made(binding, None, self.made(self.call(helper, [part])))
        return ["block", None, [let], self.made(["path", ["local", binding, None]])]

    def expr_Array(self, kind, span):
        self.note(kind_of_expression(kind), span)
        parts, own = [self.expr(part) for part in kind[0]], self.lists.parameter(0)
        if len(parts) > MOST_ELEMENTS:
            return self.unknown(parts)
        output = self.lists.array(own, self.lists.word(str(len(parts))))
        return self.call(self.lists.helper("array", 1, [own] * len(parts), output), parts)

    def expr_Repeat(self, kind, span):
        self.note(kind_of_expression(kind), span)
        part, own, length = self.expr(kind[0]), self.lists.parameter(0), kind[1]
        text = self.items.sources.text(span_of(length["span"])) if span_of(length["span"]) else ""
        if not text.isdecimal():
            return self.unknown([part])
        return self.call(self.lists.helper("array", 1, (own,), self.lists.array(own, self.lists.word(text))), [part])

    # Patterns.

    def pattern(self, pat):
        return self.fitted(pat, None)

    def fitted(self, pat, shape):
        """The number of a pattern into which what has this Shape comes."""
        kind, span, around = pat["kind"], span_of(pat["span"]), self.come_to(pat["span"])
        fact = getattr(self, "fitted_" + name_of(kind), self.lost)(kind, span, shape)
        if fact == "lost":
            number = self.made_pattern("wild")
        else:
            self.pats.append(fact)
            number = len(self.pats) - 1
            self.stands("p%d" % number, span)
        self.place = around
        return number

    def lost(self, kind, span, _shape):
        """A pattern that is not carried."""
        self.other_pattern(kind, span)
        return "lost"

    def bind_all(self, part):
        """Makes bindings of all names that a pattern binds, which are unbound so far."""
        if getattr(part, "name", None) == "Binding" and part[1] not in self.locals:
            self.locals[part[1]] = len(self.bindings)
            self.unbound.append(len(self.bindings))
            self.bindings.append([identifier(part[2]), "mut" if part[0][1] == "Mut" else "plain"])
            self.stands("b%d" % (len(self.bindings) - 1), None)
        for inner in part if isinstance(part, list) else getattr(part, "fields", {}).values():
            self.bind_all(inner)

    def may_be_reference(self, kind, shape):
        """Whether a reference may come into a pattern: then the names within are bound at holes."""
        if shape is None:
            self.bind_all(kind)
        return shape is None

    def fitted_Wild(self, _kind, _span, _shape):
        return "wild"

    def fitted_Binding(self, kind, span, shape):
        if kind[0][0] != "No" or kind[3] is not None or kind[1] in self.locals:
            self.note("`ref` binding" if kind[0][0] != "No" else "binding with a subpattern", span)
            self.bind_all(kind)
            return "lost"
        fact = self.pattern_Binding(kind, span)
        self.shapes[fact[1]] = shape
        return fact

    def fitted_Tuple(self, kind, span, shape):
        if self.may_be_reference(kind, shape):
            return "lost"
        if kind[1] is not None:
            self.note("`..` in a pattern", span)
        parts = self.spread(kind[0], kind[1], len(shape.parts))
        return ["tuple", self.parts_fitted(parts, shape.parts if shape.head == "tuple" else ()), None]

    def parts_fitted(self, parts, shapes):
        """The numbers of the patterns of parts, into which what has these shapes comes; None is a part that `..` leaves away."""
        shapes = [*shapes, *[None] * len(parts)]
        return [self.made_pattern("wild") if part is None else self.fitted(part, shape) for part, shape in zip(parts, shapes)]

    def spread(self, parts, dots, count):
        """The parts of a pattern of so many parts, with None for those that `..` leaves away."""
        if dots is None or name_of(dots) == "None":
            return list(parts)
        at, parts = int(dots), list(parts)
        return parts[:at] + [None] * max(0, count - len(parts)) + parts[at:]

    def fitted_TupleStruct(self, kind, span, shape):
        path = self.path(kind[0], span)
        if self.may_be_reference(kind, shape):
            return "lost"
        if path is None or path[0] != "ctor":
            self.bind_all(kind)
            return "lost"
        if kind[2] is not None:
            self.note("`..` in a pattern", span)
        adt, at = list(self.lists.variants)[path[1]]
        parts = self.spread(kind[1], kind[2], len(self.fields_of(adt, at)))
        return self.of_variant(path, adt, at, parts, shape)

    def of_variant(self, path, adt, at, parts, shape):
        """A pattern of a constructor over these parts."""
        arguments = shape.parts if shape.head == adt else ()
        shapes = [self.shape_of_type(field, arguments) for field in self.fields_of(adt, at)]
        return ["ctor", ["variant", *path[1:]], self.parts_fitted(parts, shapes), None]

    def fitted_Struct(self, kind, span, shape):
        self.note("pattern with named fields", span)
        found = self.variant_with_fields(kind[0])
        if self.may_be_reference(kind, shape) or found is None:
            self.bind_all(kind)
            return "lost"
        written = {identifier(field["ident"]): field["pat"] for field in kind[1]}
        parts = [written.get(name) for name in self.lists.signature(found[0]).names[found[1]]]
        return self.of_variant(self.variant_path(*found), *found, parts, shape)

    def fitted_Or(self, kind, span, shape):
        """An or-pattern: its first alternative, which binds what the others do."""
        self.note("or-pattern", span)
        if self.may_be_reference(kind, shape):
            return "lost"
        return getattr(self, "fitted_" + name_of(kind[0][0]["kind"]), self.lost)(kind[0][0]["kind"], span, shape)

    def fitted_Expr(self, kind, span, shape):
        """A literal or a path."""
        inner = kind[0]["kind"]
        if name_of(inner) == "Lit" and inner["lit"]["node"].name in ("Int", "Byte", "Bool", "Char"):
            return "lost" if shape is None else self.pattern_Expr(kind, span)
        if name_of(inner) != "Path":
            self.lost(kind, span, shape)
            return "lost"
        path = self.path(inner[0], span)
        return "lost" if shape is None or path is None or path[0] != "ctor" else ["path", path]


def is_async_block(closure):
    """Whether a closure is what rustc makes of an `async` block or body, of which no parameter stands in the source."""
    return name_of(closure["kind"]) == "Coroutine" and name_of(closure["kind"][0]) == "Desugared"


def gives_never(function):
    """Whether a function does not return."""
    output = function.signature["decl"]["output"]
    return output.name == "Return" and name_of(output[0]["kind"]) == "Never"

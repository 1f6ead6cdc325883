"""The values of consts that stand in types, where they are plain enough to be read."""
from crate_items import body_of, named_by
from hir_tree import Node, name_of

UNKNOWN = "unknown"
BOUND = 2 ** 64
DEEPEST = 32

OPERATORS = {
    "Add": lambda a, b: a + b, "Sub": lambda a, b: a - b, "Mul": lambda a, b: a * b,
    "Div": lambda a, b: a // b if b else UNKNOWN, "Rem": lambda a, b: a % b if b else UNKNOWN,
    "Shl": lambda a, b: a << b if b < 64 else UNKNOWN, "Shr": lambda a, b: a >> b,
    "BitOr": lambda a, b: a | b, "BitAnd": lambda a, b: a & b, "BitXor": lambda a, b: a ^ b}


def value_of(index, const, bodies):
    """The number that a const is, or "unknown"; `const` is what the tree has of its kind."""
    if name_of(const) == "Anon":
        value = value_of_expression(index, body_of(bodies, const[0]["body"])["value"], bodies, 0)
    elif name_of(const) == "Lit":
        value = value_of_literal(const["lit"] if "lit" in const.fields else const[0])
    elif name_of(const) == "Path" and const[0].name == "Resolved":
        value = value_of_path(index, const[0], 0)
    else:
        value = UNKNOWN
    return value if value != UNKNOWN and 0 <= value < BOUND else UNKNOWN


def value_of_literal(literal):
    while isinstance(literal, Node) and "node" in literal.fields:
        literal = literal["node"]
    name = name_of(literal)
    if name == "Int":
        return int(literal[0][0])
    if name == "Bool":
        return int(bool(literal[0]))
    return int(literal[0]) if name == "Byte" else UNKNOWN


def value_of_path(index, path, depth):
    """The value of a const item."""
    if path.name != "Resolved" or path[0] is not None:
        return UNKNOWN
    named, item = named_by(path[1])
    if named != "Const" or item not in index.items or depth > DEEPEST:
        return UNKNOWN
    of = index.items[item]
    body = const_body(of)
    return UNKNOWN if body is None else value_of_expression(index, body["value"], of.bodies, depth + 1)


def const_body(of):
    """The body of a const item, or None."""
    rhs = of.node["kind"][3 if of.within == "module" else 1]
    if rhs is None:
        return None
    if name_of(rhs) == "Body":
        rhs = rhs[0]
    return body_of(of.bodies, rhs) if isinstance(rhs, Node) and rhs.name == "BodyId" else None


def value_of_expression(index, e, bodies, depth):
    """The value of an expression of numbers."""
    kind = e["kind"]
    name = name_of(kind)
    if depth > DEEPEST:
        return UNKNOWN
    if name == "Lit":
        return value_of_literal(kind[0])
    if name == "Path":
        return value_of_path(index, kind[0], depth)
    if name in ("DropTemps", "Cast"):
        return value_of_expression(index, kind[0], bodies, depth + 1)
    if name == "Block" and not kind[0]["stmts"] and kind[0]["expr"] is not None:
        return value_of_expression(index, kind[0]["expr"], bodies, depth + 1)
    if name == "Binary" and name_of(kind[0]["node"]) in OPERATORS:
        values = [value_of_expression(index, part, bodies, depth + 1) for part in (kind[1], kind[2])]
        return UNKNOWN if UNKNOWN in values else OPERATORS[name_of(kind[0]["node"])](*values)
    return UNKNOWN

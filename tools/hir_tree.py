"""Reads what `rustc -Zunpretty=hir-tree` prints: a crate after name resolution, in the layout of Rust's debug format.

What is printed is rustc's own and may change with each version. What has another shape than is read here is an
`OtherShape`, which says where.
"""
import collections
import re

# Where something stands in a file: lines and columns count from 1, columns in characters, and the end is behind the
# last one. The context is 0 where the source itself has it; another where a macro or the compiler wrote it.
Span = collections.namedtuple("Span", "file line column end_line end_column context")

# The name of the crate that a tree is of, where it is no library's: items of it alone have numbers that tell them apart.
OWN = "this"

# An item: the name of its crate, its path there, as "option::Option" ("" is the crate itself), and a number or 0.
DefId = collections.namedtuple("DefId", "crate path number")

SPAN = re.compile(r"(.*):(\d+):(\d+): (\d+):(\d+) \(#(\d+)\)")
DEF_ID = re.compile(r"DefId\(\d+:(\d+) ~ (\w+)\[\w*\](?:::(.*))?\)")
CLOSERS = {"{": "}", "(": ")", "[": "]"}
WORDS = {"None": None, "true": True, "false": False, "[]": ()}


class OtherShape(Exception):
    """The tree has another shape than is read here."""


class Node:
    """A struct, or a variant with fields: its name, and its fields by name, or else by position from 0."""

    def __init__(self, name):
        self.name, self.fields = name, {}

    def __getitem__(self, key):
        if key not in self.fields:
            raise OtherShape("`%s` has no field `%s`" % (self.name, key))
        return self.fields[key]

    def put(self, key, value):
        self.fields[len(self.fields) if key is None else key] = value

    def done(self):
        """What the node stands for, as it is closed: `Some` for what is in it."""
        return self[0] if self.name == "Some" else self


class Items(list):
    """A list."""

    def put(self, _, value):
        self.append(value)

    def done(self):
        return self


def owners_in(text):
    """The items of a crate and what they own, in the order of the text: for each its DefId, and a Node."""
    owners, lines = [], enumerate(text.splitlines(), 1)
    for number, line in lines:
        item, arrow, opening = line.partition(" => ")
        if not arrow or opening[-1:] not in CLOSERS:
            raise OtherShape("line %d: no item begins at `%s`" % (number, line))
        owners.append((def_id(item), value_of(opening, lines)))
    return owners


def value_of(opening, lines):
    """The value that this text opens and the lines that follow close."""
    stack = [begun(None, opening)]  # of each value that is open its name in the one around it, itself, and its closer
    for number, line in lines:
        line = line.strip()
        key, value, closer = stack[-1]
        if line in (closer, closer + ","):
            stack.pop()
            if not stack:
                return value.done()
            stack[-1][1].put(key, value.done())
            continue
        key = None
        if closer == "}":
            key, colon, line = line.partition(": ")
            if not colon:
                raise OtherShape("line %d: `%s` has no name" % (number, key))
        if line[-1:] in CLOSERS:
            stack.append(begun(key, line))
        elif line[-1:] == ",":
            value.put(key, WORDS.get(line[:-1], line[:-1]))
        else:
            raise OtherShape("line %d: `%s` has no end" % (number, line))
    raise OtherShape("the text ends within a value, %d levels deep" % len(stack))


def begun(key, opening):
    """An entry of the stack for the value that this text opens."""
    value = Items() if opening == "[" else Node(opening[:-1].strip())
    return key, value, CLOSERS[opening[-1]]


def name_of(value):
    """The name of a variant, whether it has fields or not."""
    name = value.name if isinstance(value, Node) else value
    if not isinstance(name, str):
        raise OtherShape("`%s` stands where a variant is wanted" % (name,))
    return name


def is_expression(part):
    """Whether a part of a tree is an expression: a statement or a pattern that is one has this name too."""
    return isinstance(part, Node) and part.name == "Expr" and "kind" in part.fields


def span_of(text):
    """The Span that a text says, or None where it says that there is none."""
    found = SPAN.fullmatch(text)
    if found:
        return Span(found.group(1), *(int(part) for part in found.groups()[1:]))
    if text.startswith("no-location"):
        return None
    raise OtherShape("`%s` stands where a span is wanted" % text)


def def_id(text):
    """The DefId that a text says."""
    found = DEF_ID.fullmatch(text)
    if not found:
        raise OtherShape("`%s` stands where an item is wanted" % text)
    number, crate, path = found.groups()
    return DefId(crate, path or "", int(number) if crate == OWN else 0)


def identifier(text):
    """The name in an identifier, which is printed as `name#0` or `r#name#0`."""
    return text.rpartition("#")[0].removeprefix("r#")

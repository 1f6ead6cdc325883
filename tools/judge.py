#!/usr/bin/env python3
"""Asks rustc about functions of the carried kinds, and lists where it and `table fn N` say different things.

The functions are those in the files and folders that are named: of each file `facts.py` writes the facts. Where none is
named they are some by hand (`bodies.py`) and COUNT made at random from SEED. Each of those is written as Rust source and as
facts, with the items that it may name; it may have type parameters with bounds, and call itself. What stands side by side
is said in `verdicts.py`. Of the bodies made at random, one in which a value is used after it moved (E0382) has rustc's
types from a source in which all can be copied; in files it has none, nor has any other with an error. With --from-source
the bodies made at random and by hand are judged as files, so that `facts.py` is tried on them.
A file that can't be judged is named on standard error, and the others are judged.
Status 1 where a difference is listed, 2 where nothing, or some file not, can be compared.
"""
import argparse
import collections
import json
import os
import random
import re
import subprocess
import sys
import tempfile

from bodies import ADT_BOUNDS, ADTS, BY_HAND, CALLED, E, FUNCTIONS, IMPLS, OWN, PAIR, PARAMS, PLAIN, TRAITS, UNIT, VARIANTS
from bodies import Adt, Body, Item, Signature, call, call_of, int_, item, local, run
from facts import NoFacts, add_file_options
from judge_files import bounded_in, judge_files
from program import NoReport, Program, add_program_options
from rustc import NoRustc, errors_in, in_our_words, rustc, thir_types, with_parameters
from verdicts import MOVES, NO_ANSWER, Judged, Nodes, summary, verdict

WORDS = ["u8", "i32", "i64", "bool", "char"]


def instance(ty, args):
    """The type with these in the place of "T" and "U"."""
    if isinstance(ty, Adt):
        return Adt(ty.name, tuple(instance(part, args) for part in ty.args))
    if isinstance(ty, tuple):
        return tuple(instance(part, args) for part in ty)
    return args.get(ty, ty)


def is_instance(written, ty, args):
    """Whether a type is an instance of a written one; the types in the place of its parameters are put into `args`."""
    if written in PARAMS:
        return args.setdefault(written, ty) == ty
    if isinstance(written, Adt):
        return isinstance(ty, Adt) and written.name == ty.name and all(
            is_instance(*pair, args) for pair in zip(written.args, ty.args))
    if isinstance(written, tuple):
        return isinstance(ty, tuple) and not isinstance(ty, Adt) and len(written) == len(ty) and all(
            is_instance(*pair, args) for pair in zip(written, ty))
    return written == ty


def implements(ty, trait, given):
    """Whether a type implements a trait, by these bounds that are given, or by an impl."""
    if any(of == ty and trait in [own, *TRAITS[own]] for of, own in given):
        return True
    for _, bounds, of, written in IMPLS:
        args = {}
        if of == trait and is_instance(written, ty, args) and are_met(bounds, args, given):
            return True
    return False


def are_met(bounds, args, given):
    """Whether bounds are met at these types for "T" and "U"; of what has none nothing is asked."""
    return all(implements(instance(ty, args), trait, given) for ty, trait in bounds if params_in(ty) <= set(args))


def params_in(ty):
    """The parameters in a written type."""
    if isinstance(ty, (Adt, tuple)):
        return set().union(*(params_in(part) for part in (ty.args if isinstance(ty, Adt) else ty)))
    return {ty} & set(PARAMS)


class Maker:
    """Makes one body at random, whose function has some type parameters."""

    def __init__(self, rng):
        self.rng = rng
        self.generics = rng.choice([0, 0, 1, 2])
        self.slip = rng.choice([0, 0, 0.01, 0.05])  # how often it goes wrong on purpose
        inputs = [self.type(2) for _ in range(rng.randrange(3))]
        bounds = [(param, trait) for param in PARAMS[:self.generics] for trait in TRAITS if rng.random() < 0.3]
        self.own = Signature(self.generics, inputs, self.type(2), bounds)

    def body(self):
        names = {"a%d" % k: ty for k, ty in enumerate(self.own.inputs)}
        _, statements, tail = self.block(names, self.own.output, 3)
        return Body(self.own, list(names), statements, tail)

    def slips(self):
        return self.rng.random() < self.slip

    def unwritten(self, depth):
        """A type, of which some can't be written."""
        if self.rng.random() < 0.08:
            return self.item_type(depth)
        if depth and self.rng.random() < 0.06:
            return tuple(self.unwritten(0) for _ in range(2))
        if depth and self.rng.random() < 0.06:
            name = self.rng.choice(sorted(ADT_BOUNDS))
            return Adt(name, self.arguments(ADTS[name][1], ADT_BOUNDS[name], {}, lambda: self.type(depth - 1)))
        return self.type(depth)

    def item_type(self, depth):
        """The type of an item that can be called."""
        name = self.rng.choice(PLAIN if self.rng.random() < 0.5 else sorted(CALLED) + [OWN])
        of = self.signature(name)
        return Item(name, self.arguments(of.generics, of.bounds, {}, lambda: self.type(max(depth - 1, 0))))

    def arguments(self, count, bounds, found, make):
        """Types for this many parameters, of which some are found, and the others made, mostly so that bounds are met."""
        for _ in range(10):
            args = {param: found[param] if param in found else make() for param in PARAMS[:count]}
            if self.slips() or are_met(bounds, args, self.own.bounds):
                break
        return tuple(args.values())

    def signature(self, name):
        """What an item that can be called takes and gives."""
        return self.own if name == OWN else CALLED[name]

    def written(self, ty):
        """The type as a `let` may write it, with a `_` for some parts, and for all that can't be written."""
        if isinstance(ty, Item) or self.rng.random() < 0.15:
            return "_"
        if isinstance(ty, Adt):
            return Adt(ty.name, tuple(self.written(part) for part in ty.args))
        return tuple(self.written(part) for part in ty) if isinstance(ty, tuple) else ty

    def type(self, depth):
        rng = self.rng
        if depth == 0 or rng.random() < 0.7:
            return rng.choice(WORDS + PARAMS[:self.generics] * 2 + [E, PAIR, UNIT])
        if rng.random() < 0.35:
            name = rng.choice(sorted(set(ADTS) - set(ADT_BOUNDS)))
            return Adt(name, tuple(self.type(depth - 1) for _ in range(ADTS[name][1])))
        return tuple(self.type(depth - 1) for _ in range(rng.randrange(4)))

    def expr(self, names, wanted, depth):
        """An expression, mostly of the type that is wanted (None: of any). `names` has the locals and their types."""
        rng = self.rng
        if wanted is None or self.slips():
            wanted = self.unwritten(2)
        fitting = [name for name, ty in names.items() if ty == wanted]
        if fitting and rng.random() < 0.5:
            return local(rng.choice(fitting))
        if names and self.slips():
            return local(rng.choice(list(names)))
        if depth > 0 and rng.random() < 0.25:
            return self.call(names, wanted, depth - 1)
        if depth > 0 and rng.random() < 0.18:
            return self.block(names, wanted, depth - 1)
        if depth > 0 and rng.random() < 0.15:
            lone = rng.random() < 0.4 if wanted == () else self.slips()
            other = None if lone else self.block(names, wanted, depth - 1)
            return ("if", self.expr(names, "bool", depth - 1), self.block(names, wanted, depth - 1), other)
        if depth > 0 and rng.random() < 0.15:
            return self.match(names, wanted, depth - 1)
        if self.slips():
            return item(rng.choice(sorted(FUNCTIONS) + sorted(VARIANTS) + [OWN]))
        if isinstance(wanted, tuple) and not isinstance(wanted, Adt):
            return ("tuple", [self.expr(names, part, depth - 1) for part in wanted])
        return self.leaf(wanted)

    def call(self, names, wanted, depth):
        """A call, mostly of what can have this output, and mostly with the inputs that it has then."""
        rng = self.rng
        if rng.random() < 2 * self.slip:
            return call_of(*(self.expr(names, None, depth) for _ in range(rng.randrange(1, 4))))
        held = [(name, of) for name, of in names.items() if isinstance(of, Item) and self.output(of) == wanted]
        if held and rng.random() < 0.7:
            name, of = rng.choice(held)
            callee = local(name)
        else:
            of = self.called(wanted)
            callee = item(of.name) if rng.random() < 0.8 else self.expr(names, of, depth)
        inputs = [instance(ty, dict(zip(PARAMS, of.args))) for ty in self.signature(of.name).inputs]
        if self.slips():
            if inputs and rng.random() < 0.5:
                inputs.pop()
            else:
                inputs.append(self.type(1))
        return call_of(callee, *(self.expr(names, ty, depth) for ty in inputs))

    def output(self, of):
        """What a call of an item of this type gives."""
        return instance(self.signature(of.name).output, dict(zip(PARAMS, of.args)))

    def called(self, wanted):
        """The type of an item whose output is mostly this."""
        fitting = []
        for name, signature in sorted(CALLED.items()) + [(OWN, self.own)]:
            found = {}
            if name in ("make", "made") and self.rng.random() < 0.7:
                continue  # its type has to come from elsewhere
            fits = is_instance(signature.output, wanted, found) and are_met(signature.bounds, found, self.own.bounds)
            if self.slips() or fits:
                fitting.append((name, signature, found))
        name, signature, found = self.rng.choice(fitting)  # `id` and `make` fit always
        return Item(name, self.arguments(signature.generics, signature.bounds, found, lambda: self.unwritten(1)))

    def match(self, names, wanted, depth):
        """A `match`, whose last arm takes whatever is left."""
        rng = self.rng
        of, arms = self.unwritten(2), []
        for at in range(rng.randrange(1, 4)):
            bound = {}
            pattern = self.pattern(of, len(names), bound, True) if at else rng.choice(["_", "v%d" % len(names)])
            if not at and pattern != "_":
                bound[pattern] = of
            inside = {**names, **bound}
            guard = self.expr(inside, "bool", 0) if at and rng.random() < 0.2 else None
            arms.insert(0, (pattern, guard, self.expr(inside, wanted, depth)))
        return ("match", self.expr(names, of, depth), arms)

    def pattern(self, ty, first, bound, refutable):
        """A pattern, mostly of this type. What it binds is added to `bound`; names are numbered from `first` on."""
        rng = self.rng
        if self.slips():
            ty = self.type(1)
        if isinstance(ty, tuple) and not isinstance(ty, Adt) and rng.random() < 0.7:
            return ("tuple", [self.pattern(part, first, bound, refutable) for part in ty])
        if isinstance(ty, Adt) and rng.random() < 0.6:
            variants = list(ADTS[ty.name][2].items())
            if refutable or len(variants) == 1:
                return self.constructor(*rng.choice(variants), ty, first, bound, refutable)
        if refutable and ty in WORDS and rng.random() < 0.4:
            return self.leaf(ty)
        if rng.random() < 0.3:
            return "_"
        name = "v%d" % (first + len(bound))
        bound[name] = ty
        return name

    def constructor(self, variant, fields, ty, first, bound, refutable):
        """A pattern of a constructor of this type, mostly with as many parts as there are fields."""
        if not fields:
            return ("ctor", variant, None)
        parts = [instance(field, dict(zip(PARAMS, ty.args))) for field in fields]
        if self.rng.random() < 3 * self.slip:
            if self.rng.random() < 0.5:
                parts.pop()
            else:
                parts.append(self.type(1))
        return ("ctor", variant, [self.pattern(part, first, bound, refutable) for part in parts])

    def leaf(self, ty):
        """A literal, or of other types a path or a call that gives one."""
        rng = self.rng
        if ty not in WORDS and rng.random() < 0.1:
            return call("make")
        if isinstance(ty, Item):
            return item(ty.name)
        if isinstance(ty, Adt):
            variant, fields = rng.choice(list(ADTS[ty.name][2].items()))
            parts = [self.leaf(instance(field, dict(zip(PARAMS, ty.args)))) for field in fields]
            if ty.name in ("S", "P") and rng.random() < 0.5:
                return call("wrap", *parts) if ty.name == "S" else call("pair", ("tuple", parts))
            return call(variant, *parts) if fields else item(variant)
        if isinstance(ty, tuple):
            return ("tuple", [self.leaf(part) for part in ty])
        if ty in PARAMS:
            return call("make")
        if ty == "bool":
            return ("bool", rng.random() < 0.5)
        if ty == "char":
            return ("char", rng.choice("abc"))
        return int_(rng.randrange(100), ty if rng.random() < 0.2 else None)

    def block(self, names, wanted, depth):
        rng = self.rng
        names, statements = dict(names), []
        for _ in range(rng.randrange(4)):
            if rng.random() < 0.75:
                held = [of for of in names.values() if isinstance(of, Item)]
                if held and rng.random() < 0.6:
                    of = self.output(rng.choice(held))
                else:
                    of = self.item_type(1) if rng.random() < 0.08 else self.unwritten(2)
                written, bound = self.written(of) if rng.random() < 0.4 else None, {}
                init = self.expr(names, of, depth) if rng.random() < 0.97 else None
                pattern = self.pattern(of, len(names), bound, False)
                statements.append(("let", pattern, written, init))
                names.update(bound)
            elif rng.random() < 0.8:
                statements.append(run(self.expr(names, None, depth)))
            else:
                inner = self.block(names, (), max(depth - 1, 0))
                kind = rng.randrange(3)
                if kind == 1:
                    inner = ("if", ("bool", True), inner, None)
                elif kind == 2:
                    inner = self.match(names, (), max(depth - 1, 0))
                statements.append(("expr", inner, False))
        tail = self.expr(names, wanted, depth) if wanted != () or rng.random() < 0.3 else None
        if tail is None and statements and statements[-1][0] == "expr" and not statements[-1][2]:
            tail = statements.pop()[1]  # Rust takes it for the tail
        return ("block", statements, tail)


def type_text(ty):
    if isinstance(ty, Adt):
        return ty.name + ("<%s>" % ", ".join(type_text(part) for part in ty.args) if ty.args else "")
    if isinstance(ty, tuple):
        return "(%s)" % (", ".join(type_text(part) for part in ty) + ("," if len(ty) == 1 else ""))
    return ty


def generics_text(count):
    """Type parameters. Their bound says nothing, and is as wide as the one that `copied` puts in its place."""
    return "<%s>" % ", ".join(name + ": Sized" for name in PARAMS[:count]) if count else ""


def bounds_text(bounds):
    """Bounds as a `where`, which speaks of types that `copied` leaves as they are."""
    return " where " + ", ".join("%s: %s" % (type_text(ty), trait) for ty, trait in bounds) if bounds else ""


def item_lines():
    """All that bodies may name as source."""
    return [*adt_lines(), *trait_lines(), *function_lines()]


def adt_lines():
    """The adts as source."""
    for name, (kind, count, variants) in ADTS.items():
        generics, bounds = "<%s>" % ", ".join(PARAMS[:count]) if count else "", bounds_text(ADT_BOUNDS.get(name, ()))
        texts = [variant + ("(%s)" % ", ".join(type_text(ty) for ty in fields) if fields else "")
                 for variant, fields in variants.items()]
        if kind == "struct":
            yield "pub struct %s%s;" % (texts[0].replace(name, name + generics, 1), bounds)
        else:
            yield "pub enum %s%s%s { %s }" % (name, generics, bounds, ", ".join(texts))


def trait_lines():
    """TRAITS and IMPLS as source."""
    for name, supertraits in TRAITS.items():
        yield "pub trait %s%s {}" % (name, ": " + " + ".join(supertraits) if supertraits else "")
    for count, bounds, trait, ty in IMPLS:
        yield "impl<%s> %s for %s%s {}" % (", ".join(PARAMS[:count]), trait, type_text(ty), bounds_text(bounds))


def function_lines():
    """FUNCTIONS as source."""
    for name, signature in FUNCTIONS.items():
        inputs = ", ".join("x%d: %s" % (k, type_text(ty)) for k, ty in enumerate(signature.inputs))
        yield "pub fn %s%s(%s) -> %s%s { loop {} }" % (name, generics_text(signature.generics), inputs,
                                                        type_text(signature.output), bounds_text(signature.bounds))


def copied(line):
    """The line with what can be copied in place of what can't, each thing at its place."""
    if re.match("pub (struct|enum)", line):
        return "#[derive(Clone, Copy)] " + line
    return line.replace(": Sized", ": Copy ")


class Writer:
    """Writes one body as source and as facts, and keeps the place of each expression and pattern in the line."""

    def __init__(self, own):
        self.types, self.text, self.own = [], "", own
        self.exprs, self.pats, self.bindings, self.places = [], [], [], {}

    def type_id(self, ty):
        if isinstance(ty, Adt):
            entry = ["adt", list(ADTS).index(ty.name), [["t", self.type_id(part)] for part in ty.args]]
        elif isinstance(ty, tuple):
            entry = ["tuple", [self.type_id(part) for part in ty]]
        else:
            entry = ["param", PARAMS.index(ty)] if ty in PARAMS else ty
        if ty == "_":  # each is an entry of its own, and then so is each type in which one stands
            self.types.append(entry)
            return len(self.types) - 1
        if entry not in self.types:
            self.types.append(entry)
        return self.types.index(entry)

    def signature(self, name, signature, body):
        """The facts of a function."""
        return {"name": name, "at": ["module", 0], "params": ["t"] * signature.generics, "preds": self.goals(signature.bounds),
                "has_self": False, "inputs": [self.type_id(ty) for ty in signature.inputs],
                "output": self.type_id(signature.output), "safe": True, "vis": "pub", "body": body}

    def adts(self):
        """The facts of the adts and of their variants."""
        adts, all_variants = [], []
        for name, (kind, count, variants) in ADTS.items():
            adts.append({"name": name, "kind": kind, "params": ["t"] * count, "preds": self.goals(ADT_BOUNDS.get(name, ())),
                         "variants": [len(all_variants) + k for k in range(len(variants))],
                         "repr": None, "unsize": None})
            for variant, fields in variants.items():
                all_variants.append({"adt": len(adts) - 1, "name": variant, "ctor": "tuple" if fields else "unit",
                                     "fields": [{"name": str(k), "type": self.type_id(ty), "vis": 0}
                                                for k, ty in enumerate(fields)], "body": None})
        return adts, all_variants

    def traits(self):
        """The facts of the traits."""
        return [{"name": name, "params": [], "preds": self.goals([("T", supertrait) for supertrait in supertraits]), "fns": [],
                 "consts": [], "types": [], "auto": False} for name, supertraits in TRAITS.items()]

    def impls(self):
        """The facts of the impls."""
        return [{"trait": [list(TRAITS).index(trait), []], "params": ["t"] * count, "preds": self.goals(bounds),
                 "self": self.type_id(ty), "fns": [], "consts": [], "types": []} for count, bounds, trait, ty in IMPLS]

    def goals(self, bounds):
        """The facts of bounds."""
        return [["trait", list(TRAITS).index(trait), [["t", self.type_id(ty)]]] for ty, trait in bounds]

    def param(self, name, ty):
        binding = len(self.bindings)
        self.pattern(name, {})
        self.text += ": %s, " % type_text(ty)
        return binding

    def pattern(self, pattern, scope):
        """Writes a pattern, whose bindings come into scope."""
        begun = len(self.text)
        if pattern == "_":
            self.text += "_"
            fact = "wild"
        elif isinstance(pattern, str):
            self.text += pattern
            fact = ["bind", len(self.bindings), None]
            scope[pattern] = len(self.bindings)
            self.bindings.append([pattern, "plain"])
        elif pattern[0] == "tuple":
            fact = ["tuple", self.patterns(pattern[1], scope), None]
        elif pattern[0] == "ctor":
            _, variant, parts = pattern
            self.variant(variant)
            if parts is None:
                fact = ["path", ["ctor", number_of(variant), None]]
            else:
                fact = ["ctor", ["variant", number_of(variant), None], self.patterns(parts, scope), None]
        else:
            fact = ["lit", self.expr(pattern, scope)]
        self.pats.append(fact)
        self.place("p%d" % (len(self.pats) - 1), begun)
        return len(self.pats) - 1

    def patterns(self, parts, scope):
        self.text += "("
        ids = []
        for part in parts:
            ids.append(self.pattern(part, scope))
            self.text += ", "
        self.text += ")"
        return ids

    def variant(self, variant):
        """Writes the path to a variant."""
        name = VARIANTS[variant].output.name
        self.text += variant if ADTS[name][0] == "struct" else name + "::" + variant

    def place(self, node, begun):
        self.places[node] = (begun + 1, len(self.text) + 1)

    def expr(self, e, scope):
        begun = len(self.text)
        fact = getattr(self, e[0] + "_")(scope, *e[1:])
        self.exprs.append(fact)
        self.place("e%d" % (len(self.exprs) - 1), begun)
        return len(self.exprs) - 1

    def int_(self, _, digits, suffix):
        self.text += "%d%s" % (digits, suffix or "")
        return ["lit", ["int", str(digits), suffix]]

    def bool_(self, _, value):
        self.text += "true" if value else "false"
        return ["lit", ["bool", value]]

    def char_(self, _, value):
        self.text += "'%s'" % value
        return ["lit", ["char", ord(value)]]

    def local_(self, scope, name):
        self.text += name
        return ["path", ["local", scope[name], None]]

    def item_(self, _, function):
        """A path to a function or a constructor."""
        if function in VARIANTS:
            self.variant(function)
            return ["path", ["ctor", number_of(function), None]]
        self.text += self.own if function == OWN else function
        return ["path", ["fn", number_of(function), None]]

    def call_(self, scope, callee, arguments):
        callee = self.called(callee, scope)
        self.text += "("
        ids = []
        for argument in arguments:
            ids.append(self.expr(argument, scope))
            self.text += ", "
        self.text += ")"
        return ["call", callee, ids]

    def called(self, e, scope):
        """Writes what is called, in parentheses where a statement could end after it; its place is with these."""
        begun, is_block_like = len(self.text), e[0] in ("block", "if", "match")
        self.text += "(" if is_block_like else ""
        callee = self.expr(e, scope)
        self.text += ")" if is_block_like else ""
        self.place("e%d" % callee, begun)
        return callee

    def tuple_(self, scope, parts):
        self.text += "("
        ids = []
        for part in parts:
            ids.append(self.expr(part, scope))
            self.text += ", "
        self.text += ")"
        return ["tuple", ids]

    def block_(self, scope, statements, tail):
        scope, facts = dict(scope), []
        self.text += "{ "
        for statement in statements:
            facts.append(getattr(self, "statement_" + statement[0])(scope, *statement[1:]))
        last = None
        if tail is not None:
            last = self.expr(tail, scope)
            self.text += " "
        self.text += "}"
        return ["block", None, facts, last]

    def if_(self, scope, condition, first, other):
        self.text += "if "
        ids = [self.expr(condition, scope)]
        self.text += " "
        ids.append(self.expr(first, scope))
        if other is not None:
            self.text += " else "
            return ["if", *ids, self.expr(other, scope)]
        return ["if", *ids, None]

    def match_(self, scope, scrutinee, arms):
        self.text += "match "
        value, facts = self.expr(scrutinee, scope), []
        self.text += " { "
        for pattern, guard, e in arms:
            inner = dict(scope)
            fact = [self.pattern(pattern, inner), None, None]
            if guard is not None:
                self.text += " if "
                fact[1] = self.expr(guard, inner)
            self.text += " => "
            fact[2] = self.expr(e, inner)
            self.text += ", "
            facts.append(fact)
        self.text += "}"
        return ["match", value, facts]

    def statement_let(self, scope, pattern, written, init):
        self.text += "let "
        bound = {}
        pat = self.pattern(pattern, bound)
        if written is not None:
            self.text += ": " + type_text(written)
        value = None
        if init is not None:
            self.text += " = "
            value = self.expr(init, scope)
        self.text += "; "
        scope.update(bound)
        return ["let", pat, None if written is None else self.type_id(written), value, None]

    def statement_expr(self, scope, e, semicolon):
        value = self.expr(e, scope)
        self.text += "; " if semicolon else " "
        return ["expr", value, semicolon]


def write_body(number, body):
    """A function as source, the facts of a crate of it and of all that it may name, and what wrote them."""
    name = "f%d" % number
    writer = Writer(name)
    writer.text = "pub fn %s%s(" % (name, generics_text(body.own.generics))
    scope = {name: writer.param(name, ty) for name, ty in zip(body.names, body.own.inputs)}
    writer.text += ") -> %s%s " % (type_text(body.own.output), bounds_text(body.own.bounds))
    root = writer.expr(("block", body.statements, body.tail), scope)
    functions = [writer.signature(name, body.own, 0)]
    functions += [writer.signature(name, signature, None) for name, signature in FUNCTIONS.items()]
    adts, variants = writer.adts()
    traits, impls = writer.traits(), writer.impls()
    facts = {"module": 0, "traits": [], "self": None, "params": list(range(len(body.names))), "root": root,
             "exprs": writer.exprs, "pats": writer.pats, "bindings": writer.bindings, "labels": 0}
    text = json.dumps({
        "profile": 1, "edition": 2021, "never_fallback": False, "new_range": False, "limits": [8, 1000, 8, 10],
        "types": writer.types, "modules": [None], "adts": adts, "variants": variants, "fns": functions, "consts": [],
        "statics": [], "traits": traits, "aliases": [], "impls": impls, "opaques": [], "lang": {}, "bodies": [facts]})
    return writer.text, text, writer


def rustc_of(lines, *options, timeout=None, change=str):
    """What rustc says of a crate of these lines, below which stands all that they may name, each line changed first."""
    with tempfile.TemporaryDirectory() as folder:
        with open(os.path.join(folder, "judged.rs"), "w") as out:
            out.write("#![allow(warnings)]\n")
            out.writelines(change(line) + "\n" for line in [*lines, *item_lines()])
        return rustc("judged.rs", *options, folder=folder, timeout=timeout)


def errors_of(lines):
    """rustc's errors, each by its code and place in the line, by the number of the line that they stand in.

    Lines without an error are asked again by themselves: of some errors (E0275) rustc ends before it looks at moves.
    """
    errors = errors_in_groups(lines)
    again = errors_in_groups([line if at not in errors else "" for at, line in enumerate(lines)])
    return {**errors, **again}


def errors_in_groups(lines):
    """rustc's errors, as above.

    It asks of some hundred lines at a time, and of fewer where no answer comes, down to the line that rustc doesn't
    end at (its search for a hint can be endless), whose only code is NO_ANSWER.
    """
    errors, groups = {}, [range(at, min(at + 200, len(lines))) for at in range(0, len(lines), 200)]
    while groups:
        group = groups.pop()
        try:
            found = errors_of_group([lines[at] for at in group], 5 + len(group) / 20)
        except subprocess.TimeoutExpired:
            found = {0: {(NO_ANSWER, None)}}
            if len(group) > 1:
                half = len(group) // 2
                groups += [group[:half], group[half:]]
                continue
        errors.update((group[at], of) for at, of in found.items())
    return errors


def errors_of_group(lines, seconds):
    """rustc's errors, as above."""
    errors = {}
    done = rustc_of(lines, "--emit=metadata", "--error-format=json", timeout=seconds)
    if done.returncode not in (0, 1):
        raise NoRustc("rustc ended with status %d" % done.returncode)
    for code, span in errors_in(done):
        errors.setdefault(span["line_start"] - 2, set()).add((code, (span["column_start"], span["column_end"])))
    if max(errors, default=0) >= len(lines):
        raise NoRustc("rustc refuses what bodies may name: %s" % done.stderr)
    return errors


def types_of(lines):
    """rustc's types, by the line and the columns of what has them, as our reports would write them."""
    types = collections.defaultdict(lambda: collections.defaultdict(set))
    done = rustc_of(lines, "-Zunpretty=thir-tree", change=copied)
    if done.returncode:
        raise NoRustc("rustc gives no types: %s" % done.stderr)
    for span, ty in thir_types(done.stdout):
        ty = with_parameters(in_our_words(ty, word_of), PARAMS)
        types[span.line - 2][span.column, span.end_column].add(ty)
    return types


def word_of(item):
    """The word for a function or a constructor in a report on a body that names it."""
    path = item.path.removesuffix("::{constructor#0}")
    return "%s%d" % ("fn" if path == item.path else "variant", number_of(path.rpartition("::")[2]))


def number_of(name):
    """The number of a variant or of a function in the facts of a body that names it, whose own function is 0."""
    if name in VARIANTS:
        return list(VARIANTS).index(name)
    return 1 + list(FUNCTIONS).index(name) if name in FUNCTIONS else 0


def bodies_of(count, seed):
    """The bodies by hand and some made at random: of each its source, its facts, and what wrote them."""
    rng = random.Random(seed)
    bodies = BY_HAND + [Maker(rng).body() for _ in range(count)]
    return zip(*(write_body(number, body) for number, body in enumerate(bodies)))


def judge_sources(count, seed, edition, program):
    """The Verdicts on these bodies from their sources alone, which stand in files of 20, and the files that can't be judged."""
    lines, _, _ = bodies_of(count, seed)
    with tempfile.TemporaryDirectory() as folder:
        for at in range(0, len(lines), 20):
            with open(os.path.join(folder, "bodies%06d.rs" % at), "w") as out:
                out.writelines(line + "\n" for line in [*lines[at:at + 20], *item_lines()])
        return judge_files([folder], edition, program, False)


def judge_bodies(count, seed, program):
    """The Verdicts on these bodies, whose differences are printed."""
    lines, texts, writers = bodies_of(count, seed)
    errors = errors_of(list(lines))
    theirs = types_of([line if {code for code, _ in errors.get(number, ())} <= MOVES else ""
                       for number, line in enumerate(lines)])
    reports = program.reports([(text, 0) for text in texts])
    for report in reports:
        if isinstance(report, NoReport):
            raise report
    verdicts = []
    for number, (line, text, report, writer) in enumerate(zip(lines, texts, reports, writers)):
        nodes = Nodes(writer.exprs, writer.pats, writer.places, bounded_in(json.loads(text)))
        verdicts.append(verdict(Judged(errors.get(number, set()), theirs[number], report, nodes)))
        for one in verdicts[-1].told:
            print("%s\n    %s" % (line, one))
    return verdicts


def main():
    parser = argparse.ArgumentParser(description=__doc__, formatter_class=argparse.RawDescriptionHelpFormatter)
    parser.add_argument("words", nargs="*", metavar="COUNT [SEED] | FILE.rs..",
                        help="numbers, 300 and 1 where not given, or files and folders of them")
    parser.add_argument("--from-source", action="store_true", help="judge the random bodies as files")
    add_program_options(parser)
    add_file_options(parser)
    given = parser.parse_args()
    if len(given.words) > 2 and all(word.isdecimal() for word in given.words):
        parser.error("at most COUNT and SEED are numbers")
    try:
        program, failed = Program(given.program, given.unproved), []
        if not all(word.isdecimal() for word in given.words):
            verdicts, failed = judge_files(given.words, given.edition, program)
        else:
            count, seed = [*map(int, given.words), *(300, 1)[len(given.words):]]
            if given.from_source:
                verdicts, failed = judge_sources(count, seed, given.edition, program)
            else:
                verdicts = judge_bodies(count, seed, program)
    except (NoFacts, NoReport, NoRustc) as why:
        print("judge.py: %s" % why, file=sys.stderr)
        sys.exit(2)
    print("%d bodies: %s%s" % (len(verdicts), summary(verdicts), "; files not judged: %d" % len(failed) if failed else ""))
    sys.exit(1 if any(of.told for of in verdicts) else 2 if failed else 0)


if __name__ == "__main__":
    main()

"""Facts of every kind with bodies as they are, and items and types of the kinds that the program carries already.

The program then looks at all that the laws say of bodies, though not at the items and types that it refuses so far. A type becomes the
tuple of its parts, a const or a static a function, and an associated function one of a module.
"""
import copy

from item_laws import parts_of

CALLED = {"vis": "pub", "safe": True, "params": [], "preds": [], "has_self": False, "at": ["module", 0]}


def bodies_alone(facts):
    """The facts that are so."""
    types = [carried_type(ty) for ty in facts["types"]] + ["bool"]
    functions = [{**CALLED, "name": of["name"], "inputs": of["inputs"], "output": of["output"], "body": of["body"]}
                 for of in facts["fns"]]
    firsts = {"fn": 0}
    for word, kind in (("const", "consts"), ("static", "statics")):
        firsts[word] = len(functions)
        functions += [called(of, of["type"]) for of in facts[kind]]
    variants = []
    for of in facts["variants"]:
        if of["body"] is not None:
            functions.append(called(of, len(types) - 1))
        fields = [{**field, "name": str(at), "vis": "pub"} for at, field in enumerate(of["fields"])]
        variants.append({**of, "fields": fields, "ctor": "unit" if of["ctor"] == "unit" else "tuple", "body": None})
    adts = [{**of, "kind": "enum", "params": [], "preds": [], "repr": None, "unsize": None} for of in facts["adts"]]
    bodies = [carried_body(of, firsts, len(types) - 1) for of in facts["bodies"]]
    empty = {key: [] for key in ("consts", "statics", "traits", "aliases", "impls", "opaques")}
    return {**facts, **empty, "types": types, "adts": adts, "variants": variants, "fns": functions, "lang": {}, "bodies": bodies}


def called(of, ty):
    """The function that stands for a definition with a value."""
    return {**CALLED, "name": of.get("name", "value"), "inputs": [], "output": ty, "body": of["body"]}


def carried_type(ty):
    if ty == "_" or isinstance(ty, list) and ty[0] == "array" and ty[2] == "_":
        return "_"
    return ["tuple", list(parts_of(ty))] if isinstance(ty, list) and ty[0] != "param" else "bool"


def carried_body(body, firsts, any_type):
    """A body whose paths name what is left of the items; `self` is its first parameter."""
    body = copy.deepcopy(body)
    if body["self"] is not None:
        body["pats"].append(["bind", body["self"], None])
        body["params"].insert(0, len(body["pats"]) - 1)
    body.update({"self": None, "traits": []})
    for e in body["exprs"]:
        if e[0] == "path":
            e[1] = carried_path(e[1], firsts, any_type)
        elif e[0] == "repeat":
            e[3] = carried_const(e[3])
        elif e[0] == "method":
            e[3] = carried_list(e[3])
        elif e[0] == "record":
            e[1] = carried_variant(e[1])
    for pat in body["pats"]:
        if pat[0] == "path":
            pat[1] = carried_path(pat[1], firsts, any_type)
        elif pat[0] in ("ctor", "record"):
            pat[1] = carried_variant(pat[1])
    return body


def carried_const(const):
    return "unknown" if isinstance(const, list) else const


def carried_list(arguments):
    return None if arguments is None else [[kind, part if kind == "t" else carried_const(part)] for kind, part in arguments]


def carried_variant(path):
    return ["variant", path[1], carried_list(path[2])] if path[0] == "variant" else path


def carried_path(path, firsts, any_type):
    word = path[0]
    if word in firsts:
        return ["fn", firsts[word] + path[1], carried_list(path[2])]
    if word == "trait":
        both = [of for part in (path[2], path[4]) for of in carried_list(part) or []]
        return ["typed", any_type, path[3], both]
    if word in ("implself", "constparam"):
        return ["unresolved", True]
    return path if word == "unresolved" else [*path[:-1], carried_list(path[-1])]

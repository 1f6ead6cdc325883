"""The format macros as facts: a call of a function that takes what is formatted by reference, each with its own bound.

rustc's own machinery stays out of the facts. `println!("{} {:?}", a, b)` prints what `format(&a, &b)` gives, where `format` is a
function of the core library's module `fmt` that is made for this, `fn format<T: Display + ?Sized, U: Debug + ?Sized>(_: &T, _: &U) -> Arguments`.
"""
from crate_items import named_by
from hir_tree import identifier, name_of, span_of

TRAITS = {"new_display": "Display", "new_debug": "Debug", "new_lower_hex": "LowerHex", "new_upper_hex": "UpperHex",
          "new_octal": "Octal", "new_binary": "Binary", "new_pointer": "Pointer", "new_lower_exp": "LowerExp",
          "new_upper_exp": "UpperExp", "new_debug_noop": "Debug"}
COUNT = "from_usize"
WHOLE = ("new", "from_str", "from_str_nonconst", "new_const")


def written(writer, e):
    """The facts of an expression that rustc writes for a format macro, or None where it is none."""
    found = macro_of(e["kind"])
    if found is None or not all(how == COUNT or how in TRAITS for _, how in found[1]):
        return None
    arguments, uses = found
    asked = [set() for _ in arguments]
    for at, how in uses:
        asked[at].add(TRAITS.get(how, COUNT))
    number = writer.crate.format_function(tuple(tuple(sorted(of)) for of in asked))
    if number is None:
        return None
    callee = writer.add_expr(["path", ["fn", number, None]], span_of(e["span"]))
    return ["call", callee, [writer.expr(of) for of in arguments]]


def macro_of(kind):
    """What a format macro takes, and for each use the position of what is used and how; None where there is no macro."""
    if name_of(kind) == "Call":
        if method_of(kind[0], "fmt::Arguments") not in WHOLE:
            return None
        array = array_in(kind[1][-1])
        return ([], []) if array is None else uses_in(array, [])
    if name_of(kind) != "Block" or kind[0]["expr"] is None:
        return None
    lets = [of["kind"][0]["init"] for of in kind[0]["stmts"] if of["kind"].name == "Let"]
    inner = kind[0]["expr"]["kind"]
    if len(lets) != len(kind[0]["stmts"]) or not lets or None in lets or name_of(inner) != "Block" or inner[0]["expr"] is None:
        return None
    call = inner[0]["expr"]["kind"]
    if name_of(call) != "Call" or method_of(call[0], "fmt::Arguments") not in WHOLE or name_of(lets[-1]["kind"]) != "Array":
        return None
    return uses_in(lets[-1]["kind"], lets[0]["kind"][0] if len(lets) > 1 and name_of(lets[0]["kind"]) == "Tup" else [])


def uses_in(array, arguments):
    """What is formatted, and its uses, where these arguments are known by their positions."""
    arguments, uses = list(arguments), []
    for of in array[0]:
        call = of["kind"]
        how = method_of(call[0], "fmt::rt::Argument") if name_of(call) == "Call" else None
        if how is None:
            return None
        value = call[1][0]
        if name_of(value["kind"]) == "Field" and identifier(value["kind"][1]).isdigit() and arguments:
            uses.append((int(identifier(value["kind"][1])), how))
        else:
            uses.append((len(arguments), how))
            arguments.append(value)
    return arguments, uses


def array_in(e):
    """The kind of an array behind a reference, or None."""
    kind = e["kind"]
    if name_of(kind) == "AddrOf" and name_of(kind[2]["kind"]) == "Array":
        return kind[2]["kind"]
    return None


def method_of(callee, struct):
    """The name of the function of a struct of the core library that rustc calls, or None."""
    kind = callee["kind"]
    if name_of(kind) != "Path" or kind[0].name != "TypeRelative":
        return None
    ty, segment = kind[0][0]["kind"], kind[0][1]
    if name_of(ty) != "Path" or ty[0].name != "Resolved" or ty[0][0] is not None:
        return None
    _, item = named_by(ty[0][1])
    is_written = segment["ident"].rpartition("#")[2] == "0"
    return identifier(segment["ident"]) if item is not None and item[:2] == ("core", struct) and not is_written else None

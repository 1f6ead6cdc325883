"""What rustc and our reports say of a body, side by side.

rustc's verdict (a type error or none) stands against whether there is a complaint, and whether it finds a wrong number of a
pattern's parts (E0023) against whether that is complained of. The calls that rustc finds to have a wrong number of
arguments (E0061) or to call no function (E0618) stand against those of which we complain so. Where rustc finds no type
error, its types stand against those of the report, for expressions and patterns. The variants that nodes resolve to stand
against those that they name. The paths of which rustc says that a bound is not met (E0277, E0271 of an associated type, or
E0275 where impls ask for each other without end) stand against those of which we say so (see `may_differ`).
Counted apart, and no difference: bodies in which rustc wants a type written out (E0282, E0283, E0284), where the
report has `{unknown}`; bodies to which an impl says a type in rustc, which is `i32` or has `{unknown}` in ours; bounds that
rustc asks of written types alone; calls of what is no function, where the report has `{unknown}` in the type of what is
called, so that nothing is said; what we alone complain of where rustc has an error and no type for what is called (see
`is_excused`); reads of locals that were never set (E0381) and other errors that are no matter of types (`OTHERS`), where
rustc's types can't be had; bodies where rustc reads two function items as pointers (see `reads_pointers`), which are not
carried; and bodies at which rustc does not end.
"""
import collections
import re

# What is said of a wrong number of a pattern's parts; and of calls, where rustc says it at what is called: of a wrong
# number of arguments, and that what is called is no function.
PARTS = "MismatchedTupleStructPatArgCount"
CALLS = {"MismatchedArgCount": "E0061", "ExpectedFunction": "E0618"}

# What is said where a bound is not met.
UNPROVED = "Unproved"
BOUNDS = {"E0277", "E0271"}
UNMET = {*BOUNDS, "E0275"}

# rustc's type errors. E0275 is what it says of some types without end, too. From the arguments of a call with a wrong number
# of them, and from the parts of a pattern with one, the two take different types, so whether E0308 stands beside is not
# compared.
MISMATCHES = {"E0308", "E0317", "E0023", *UNMET, *CALLS.values()}
WANTS = {"E0282", "E0283", "E0284"}
MOVES = {"E0382"}
NEVER_SET = {"E0381"}
OTHERS = {"E0004", "E0005", "E0015", "E0133", "E0493"}  # patterns leave values out; what is not const or not safe
NO_ANSWER = "no answer"

# What a body is counted as.
KINDS = ["accepted by both", "refused by both", "a type is wanted", "an impl says a type", "a written type asks",
         "a local is never set", "no matter of types", "{unknown} is called", "rustc doesn't know what is called",
         "items are pointers", "rustc doesn't end"]

# A body: rustc's errors, each by its code and its place, and its types by places, where it has no error but of moves; our
# report; and of the body's nodes (see `Nodes`) which stand where and what they are.
Judged = collections.namedtuple("Judged", "errors theirs report nodes")

# How a body is counted, whether a value is used there after it moved, the differences in words, and how many nodes have types
# on both sides.
Verdict = collections.namedtuple("Verdict", "kind moved told compared")


class Nodes:
    """The nodes of a body's facts, by the names that reports give them.

    `places` has where they stand, as rustc says it, `named` which of them name a variant, `callees` what each call calls, and
    `constructing` by what they call the calls of paths to constructors. `asks` says whether one is a path to an item with
    bounds, which are given as kinds and numbers.
    """

    def __init__(self, exprs, pats, places, bounded=()):
        self.exprs, self.places = exprs, places
        self.asks = any(fact[0] == "path" and tuple(fact[1][:2]) in bounded for fact in exprs)
        self.named, self.callees, self.constructing = {}, {}, {}
        for at, fact in enumerate(exprs):
            if fact[0] == "path" and fact[1][0] == "ctor":
                self.named["e%d" % at] = fact[1][1]
            elif fact[0] == "call":
                self.callees["e%d" % at] = "e%d" % fact[1]
        for at, fact in enumerate(pats):
            if fact[0] == "path" or fact[0] == "ctor":
                self.named["p%d" % at] = fact[1][1]
        self.constructing = {callee: node for node, callee in self.callees.items() if callee in self.named}

    def tells(self, callee):
        """Whether what is called says by itself what it is: a literal, a tuple, or a path to an item."""
        fact = self.exprs[int(callee[1:])]
        return fact[0] in ("lit", "tuple") or fact[0] == "path" and fact[1][0] != "local"


def types_in(theirs, nodes, node):
    """rustc's types of a node.

    What is called to construct an adt has no node in its tree: it has the types of the adt that the call gives.
    """
    if node not in nodes.constructing:
        return theirs.get(nodes.places[node], set())
    return {re.sub(r"^\w+", "variant%d" % nodes.named[node], ty)
            for ty in types_in(theirs, nodes, nodes.constructing[node])}


def reads_pointers(theirs):
    """Whether rustc gives something in a body the type of a pointer to a function.

    It does so where the branches of an `if` or the arms of a `match` are different function items, with inputs and
    outputs that can be the same. Such types are not carried, and we have a complaint there.
    """
    return any("fn(" in ty for types in theirs.values() for ty in types)


def said_of_calls(errors, said, nodes):
    """What just one of the two says of calls, rustc alone and we alone: each by its kind and what is called."""
    called = {nodes.places[callee]: callee for callee in nodes.callees.values()}
    theirs = {(kind, called.get(place)) for kind, of in CALLS.items() for code, place in errors if code == of}
    ours = {(kind, nodes.callees[node]) for kind, node in said if kind in CALLS}
    return theirs - ours, ours - theirs


def is_excused(unsaid, oversaid, codes, ours, nodes):
    """Whether these, which rustc alone and we alone say of calls, may stand.

    We say nothing of a call of what is no function where `{unknown}` is in its type. rustc says no more of a call of a
    hole, for which it wants a type unless there was an error before, and of what comes of that or of another error: of
    a call of what is no function, of a pattern that does not fit, of alternatives that have no type in common. What
    says by itself what it is can be neither. And it says nothing behind a type without end.
    """
    if oversaid and not codes & (MISMATCHES | WANTS):
        return False
    return all(kind == "ExpectedFunction" and "{unknown}" in ours.get(callee, "") for kind, callee in unsaid) and all(
        not nodes.tells(callee) or "E0275" in codes for _, callee in oversaid)


def paths_of_unmet(errors, codes, nodes):
    """The paths of which rustc says with one of these codes that a bound is not met; None is a written type.

    It says so at the path, at what a call calls, or at the call.
    """
    at = {place: node for node, place in nodes.places.items() if node[0] == "e"}
    said = {at.get(place) for code, place in errors if code in codes}
    return {nodes.callees.get(node, node) for node in said}


def fell_back(ty):
    """Whether a part of a type may be one that fell back, so that an impl may say it in rustc."""
    return re.search(r"\bi32\b|{unknown}", ty) is not None


def is_said(ours, theirs):
    """Whether a type of rustc's is ours but for parts that fell back."""
    parts = re.escape(ours).replace(re.escape("{unknown}"), ".+")
    return re.fullmatch(re.sub(r"\bi32\b", r"[iu]\\w+", parts), theirs) is not None


def said_of_bounds(errors, report, nodes):
    """What rustc alone says of bounds, by paths, what we alone say, by paths and goals, and whether both speak of a path."""
    ours = {(node, fields["goal"]) for name, node, fields in report.complaints if name == UNPROVED}
    theirs, unended = (paths_of_unmet(errors, codes, nodes) for codes in (BOUNDS, {"E0275"}))
    oversaid = {(node, goal) for node, goal in ours if node not in theirs | unended}
    return theirs - {node for node, _ in ours}, oversaid, oversaid != ours


def may_differ(bounds, errors, report):
    """Whether what just one of the two says of bounds may stand.

    rustc says nothing where an impl says a type that fell back here, and may say nothing after another error. It says more of
    written types, whose bounds it asks too, and of types that fell back here. And where a bound is not met it says so of all
    that has the type which is at fault, as what is given a function has that needs one.
    """
    unsaid, oversaid, has_shared = bounds
    others = MISMATCHES - UNMET | {"E0282"}
    if not all(fell_back(goal) for _, goal in oversaid) and not any(code in others for code, _ in errors):
        return False
    if not unsaid or None in unsaid or has_shared:
        return True
    types = [report.types[node] for node in unsaid]
    return any(fell_back(ty) if oversaid else "{unknown}" in ty for ty in types)


def differing(theirs, report, nodes):
    """The nodes whose types differ, each with rustc's."""
    found = {node: types_in(theirs, nodes, node) for node in nodes.places}
    return {node: types for node, types in found.items() if types != {report.types[node]}}


def verdict(judged):
    """The Verdict on a body."""
    errors, theirs, report, nodes = judged
    ours, said = report.types, {(name, node) for name, node, _ in report.complaints}
    codes, complaints = {code for code, _ in errors}, {name for name, _ in said}
    kind, fits = kind_of(judged, codes, complaints, said)
    told = [] if fits else ["rustc: %s; we: %s" % (
        ", ".join(sorted(codes)) or "no error", ", ".join(sorted(complaints)) or "no complaint")]
    if report.variants != nodes.named:
        told.append("variants: named %s; we %s" % (nodes.named, report.variants))
    compared = 0
    if codes <= MOVES and kind in ("accepted by both", "an impl says a type") and fits and theirs is not None:
        compared = len(nodes.places)
        for node, types in differing(theirs, report, nodes).items():
            if kind == "accepted by both" or not types or not all(is_said(ours[node], ty) for ty in types):
                told.append("%s: rustc %s; we %s" % (node, " and ".join(sorted(types)) or "nothing", ours[node]))
    return Verdict(kind, bool(codes & MOVES), told, compared)


def kind_of(judged, codes, complaints, said):
    """How a body is counted, and whether the two say what fits together."""
    errors, theirs, report, nodes = judged
    unsaid, oversaid = said_of_calls(errors, said, nodes)
    bounds = said_of_bounds(errors, report, nodes)
    bounds_alike = may_differ(bounds, errors, report)
    # E0275, too deep a search, ends rustc at once: it says nothing of what comes later.
    parts_alike = (PARTS in complaints) == ("E0023" in codes) or PARTS in complaints and "E0275" in codes
    alike = parts_alike and bounds_alike
    is_silent = complaints <= {UNPROVED} and bounds_alike
    calls_a_hole = any(report.types[callee] == "{unknown}" for callee in nodes.callees.values())
    if codes == {NO_ANSWER}:
        return "rustc doesn't end", True
    if codes <= MOVES and complaints and reads_pointers(theirs or {}):
        return "items are pointers", True
    if unsaid or oversaid:
        kind = "{unknown} is called" if unsaid else "rustc doesn't know what is called"
        return kind, alike and (complaints or codes & MISMATCHES - BOUNDS == {"E0618"}) and is_excused(
            unsaid, oversaid, codes, report.types, nodes)
    if codes & MISMATCHES and codes & MISMATCHES <= BOUNDS and not complaints:
        return "a written type asks" if None in bounds[0] else "an impl says a type", bounds_alike
    if codes & MISMATCHES:
        return "refused by both", complaints and alike and are_others_alike(codes, complaints, bounds)
    if codes & WANTS and complaints and calls_a_hole:
        return "rustc doesn't know what is called", alike
    if codes & WANTS:
        return "a type is wanted", is_silent and any("{unknown}" in ty for ty in report.types.values())
    if codes - MOVES == NEVER_SET:
        return "a local is never set", is_silent
    if codes - MOVES and codes - MOVES <= NEVER_SET | OTHERS:
        return "no matter of types", is_silent
    if nodes.asks and is_silent and impl_says(theirs, report, nodes, {node for _, node in said}):
        return "an impl says a type", codes <= MOVES
    return "accepted by both", codes <= MOVES and not complaints


def are_others_alike(codes, complaints, bounds):
    """Whether both have errors that are not of bounds, or neither has.

    rustc may have one alone where an impl says a type for which we have another.
    """
    theirs, ours = codes & MISMATCHES - UNMET, complaints - {UNPROVED}
    if theirs and not ours:
        return bool(bounds[1])
    return not ours or bool(theirs) or "E0275" in codes


def impl_says(theirs, report, nodes, unproved):
    """Whether rustc, which accepts a body, has other types there than we, also at these paths.

    Where it has no types, it does so at these paths alone.
    """
    if theirs is None:
        return bool(unproved)
    others = differing(theirs, report, nodes)
    return bool(others) and unproved <= set(others)


def summary(verdicts):
    """How many bodies are counted as what, where no difference is told, and how many differ."""
    counts = collections.Counter(of.kind for of in verdicts if not of.told)
    moved = sum(of.moved for of in verdicts if of.kind == KINDS[0] and not of.told)
    return "%s; of the accepted, moved from twice: %d; types compared: %d; differences: %d" % (
        ", ".join("%s %d" % (kind, counts[kind]) for kind in KINDS), moved, sum(of.compared for of in verdicts),
        sum(bool(of.told) for of in verdicts))

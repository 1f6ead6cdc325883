"""What the program finds in the functions of a Rust file, in the words and at the places of the source."""
import collections
import re

import slices
from crate_items import Omission
from facts import omission_text, place_text
from part_reports import PartReports
from part_types import Head, Helper
from program import NoReport

# A node of the source: "expr", "pat" or "binding", its Span, its type, and whether the source has that already.
Node = collections.namedtuple("Node", "kind span type is_written")

# A complaint or a remark: its name, the Span that it speaks of, and what it says.
Complaint = collections.namedtuple("Complaint", "name span text")

# A function with a body, which is a `Shown` of `facts.py`, and its nodes, complaints and remarks: none where it is not typed.
View = collections.namedtuple("View", "shown nodes complaints remarks")

KINDS = {"e": "expr", "p": "pat", "b": "binding"}
UNKNOWN = "{unknown}"

SAID = {
    "TypeMismatch": "expected `{expected}`, found `{actual}`",
    "MismatchedArgCount": "arguments: expected {expected}, found {found}",
    "ExpectedFunction": "expected a function, found `{found}`",
    "MismatchedTupleStructPatArgCount": "parts: expected {expected}, found {found}",
    "Unproved": "no proof of `{goal}`",
    "Clash": "`{alias}` is `{first}` elsewhere, `{second}` here"}


class Words:
    """The types of reports in the words of the source, of the facts with these Items and Lists."""

    def __init__(self, items, lists):
        self.functions = [of.name if isinstance(of, Helper) else items.functions[of].name for of in lists.functions]
        self.variants = [items.adts[adt].variants[at][0] for adt, at in lists.variants]
        self.heads = list(lists.adts)
        self.names = {items.adts[adt].name for adt in lists.adts if not isinstance(adt, Head)}
        self.names |= {items.traits[trait].name for trait in lists.traits}
        self.names |= {items.associated_types[item].name for item in lists.associated_types}

    def type(self, ty, shown):
        """A type or goal of the report on a function: with the names of functions, constructors and parameters."""
        parameters = shown.writer.parameter_names()

        def named(found):
            word, what, number = found.group(), found.group(1), int(found.group(2))
            if word in self.names:
                return word
            if what == "param":
                return parameters[number]
            return "fn " + (self.functions if what == "fn" else self.variants)[number]

        return self.spelt(re.sub(r"\b(fn|variant|param)(\d+)\b", named, ty))

    def spelt(self, ty):
        """A type with what the source has in the place of each placeholder."""
        before, mark, behind = ty.partition("?")
        if not mark:
            return ty
        number = re.match(r"\d+", behind).group()
        parts, behind = parts_before(behind[len(number):])
        head = self.heads[int(number)]
        spelt = UNKNOWN if head.text is None else head.text.format(*map(self.spelt, parts))
        return before + spelt + self.spelt(behind)

    def complaint(self, name, fields, shown):
        """What a complaint says."""
        if name not in SAID:
            return ", ".join("%s: %s" % (field, self.type(value, shown)) for field, value in fields.items())
        return SAID[name].format(**{field: self.type(value, shown) for field, value in fields.items()})


def parts_before(text):
    """The arguments in angle brackets that a text begins with, and what is behind them."""
    parts, depth, begun = [], 0, 1
    if not text.startswith("<"):
        return parts, text
    for at, sign in enumerate(text):
        depth += (sign in "<([") - (sign in ">)]")
        if depth == 0 or depth == 1 and sign == ",":
            parts.append(text[begun:at].strip())
            begun = at + 1
        if depth == 0:
            return parts, text[at + 1:]
    return parts, ""


def views_of(crate, program, function=None, files=None):
    """The View of each function of a crate, or of those alone that are called so and stand in these files."""
    chosen = [of for of in crate.shown if (files is None or of.function.span.file in files)
              and function in (None, of.function.name, of.name)]
    reports = reports_on(crate, chosen, program)
    whole, part = Words(crate.items, crate.lists), crate.part and Words(crate.items, crate.part.lists)
    return [view_of(of, report, whole if of.is_whole else part) for of, report in zip(chosen, reports)]


def reports_on(crate, chosen, program):
    """The report on each of these functions, None where it is not typed, or a NoReport."""
    parts = PartReports(crate.part) if any(of.writer is not None and not of.is_whole for of in chosen) else None
    asked = [[] if of.writer is None else [(crate.facts, of.number)] if of.is_whole else parts.asked(of.number)
             for of in chosen]
    reports = iter(slices.reports_on([pair for pairs in asked for pair in pairs], program))
    found = [[next(reports) for _ in pairs] for pairs in asked]
    return [next((of for of in both if isinstance(of, NoReport)), None) or (parts.together(*both) if both[1:] else both[0])
            if both else None for both in found]


def view_of(shown, report, words):
    """The View of a function, whose report is None where it is not typed, and a NoReport where the program gives none."""
    if isinstance(report, NoReport):
        refused = Omission(str(report), shown.function.span, shown.function.id.path)
        return View(shown._replace(writer=None, omissions=[refused, *shown.omissions], is_whole=False), [], [], [])
    if report is None:
        return View(shown, [], [], [])
    writer = shown.writer
    # An `async` function binds its parameters twice at one place, and the types that are written are those of the first.
    written = {span[:5] for span in map(writer.spans.get, writer.written) if span is not None}
    nodes = [Node(KINDS[node[0]], span, words.type(ty, shown), span[:5] in written) for node, ty in report.types.items()
             if (span := writer.spans[node]) is not None and span == writer.places[node]]
    complaints = [Complaint(name, writer.places[node], words.complaint(name, fields, shown))
                  for name, node, fields in report.complaints]
    if shown.is_whole:
        return View(shown, nodes, complaints, remarks_on(nodes))
    return View(shown, [node for node in nodes if node.type != UNKNOWN], complaints, [])


def remarks_on(nodes):
    """The places where nothing says a type: bindings, or else the first expression."""
    unknown = sorted((node for node in nodes if UNKNOWN in node.type), key=lambda node: node.span)
    bindings = [node for node in unknown if node.kind == "binding"]
    return [Complaint("Unknown", node.span, "nothing says all of the type here, `%s`" % node.type)
            for node in bindings or unknown[:1]]


def counts(views):
    """How many functions there are, are typed, and are so in part."""
    typed = [view.shown for view in views if view.shown.writer is not None]
    return len(views), len(typed), sum(not of.is_whole for of in typed)


def summary(views):
    """How many functions are typed, in words."""
    functions, typed, in_part = counts(views)
    return "%d of %d functions typed, %d in part" % (typed, functions, in_part)


def folded(omissions, crate):
    """What is left out, a line each; what a `derive` makes is one."""
    lines, derived = {}, collections.defaultdict(list)
    for omission in omissions:
        place = omission.span and crate.sources.derive_around(omission.span)
        if place is None:
            lines[omission_text(omission, crate.path)] = None
        elif (name := crate.sources.text(omission.span)) not in derived[place]:
            derived[place].append(name)
            lines[place] = None
    return [line if isinstance(line, str) else "%s: left out: derived %s" % (place_text(line, crate.path), ", ".join(derived[line]))
            for line in lines]


def standing(shown):
    """Whether a function is typed, whole or in part, and how much is left out."""
    if shown.is_whole:
        return "whole"
    return "%s: %d left out" % ("in part" if shown.writer else "not typed", len(shown.omissions))


def kinds_left_out(shown):
    """What is left out of a function, counted, in words."""
    kinds = collections.Counter(of.kind for of in shown.omissions)
    return ", ".join("%s %d" % of if of[1] > 1 else of[0] for of in sorted(kinds.items(), key=lambda of: (-of[1], of[0])))

"""What the reports on a function that is written in part say together.

One has holes whose types are chosen freely, and one in which each hole has a type of its own. What the first says stands,
but for types with placeholders: those are taken from the second, since a coercion that is not carried may lie between a
hole and its place. A complaint stands where both have it and no placeholder is in it: then no hole decides it.
"""
import json
import re

from program import Report

INTEGERS = [sign + width for width in ("128", "16", "64", "size", "32", "8") for sign in "iu"]
INTEGER = "i32"
VAGUE = re.compile(r"\{unknown\}|\{integer\}|\?\d|\b(fn|variant)\d")


class PartReports:
    """The facts of a PartFacts, in which another integer type stands for `i32`: so `i32` in a report is one that fell back."""

    def __init__(self, part):
        text = json.dumps(part.facts)
        self.other = next((word for word in INTEGERS if '"%s"' % word not in text), None)
        self.free, self.fixed = self.without_integer(part.facts), self.without_integer(part.fixed())

    def without_integer(self, facts):
        """The facts with the other type in the place of `i32`."""
        if self.other is None:
            return facts
        return json.loads(json.dumps(facts).replace('"%s"' % INTEGER, '"%s"' % self.other))

    def asked(self, number):
        """What the program is asked of a function."""
        return [(self.free, number), (self.fixed, number)]

    def together(self, free, fixed):
        """The Report that the two on a function make."""
        report = Report("")
        for node, ty in free.types.items():
            report.types[node] = self.named(fixed.types[node] if "?" in ty or "{unknown}" in ty else ty)
        both = [of for of in free.complaints if of in fixed.complaints]
        for name, node, fields in both:
            fields = {field: self.named(text) for field, text in fields.items()}
            if not any(VAGUE.search(text) for text in fields.values()):
                report.complaints.append((name, node, fields))
        return report

    def named(self, ty):
        """A type with the word for integers in the place of what fell back, and `i32` again."""
        words = {INTEGER: "{integer}", self.other: INTEGER}
        return re.sub(r"\b[iu](?:\d+|size)\b", lambda found: words.get(found.group(), found.group()), ty)

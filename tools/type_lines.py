"""Views of functions as text: the source with what was found in place, or one JSON object a line."""
import collections
import json
import re

from type_view import counts, standing

DIM, RED, PLAIN = "\033[2m", "\033[31m", "\033[0m"

# What is said below a part of the source: its Span, the sign that marks it, the text, and its color.
Mark = collections.namedtuple("Mark", "span sign text color")


def json_lines(views, omissions):
    """The views as objects, each on a line, and what is left out beside them."""
    for view in views:
        shown = view.shown
        head = {"fn": shown.name, "file": shown.function.span.file, "line": shown.function.span.line,
                "typed": shown.writer is not None, "whole": shown.is_whole}
        yield json.dumps({**head, "left_out": [left_out(of) for of in shown.omissions]})
        for node in view.nodes:
            yield json.dumps({"node": node.kind, **place(node.span, shown), "type": node.type})
        for name, found in (("complaint", view.complaints), ("remark", view.remarks)):
            for of in found:
                yield json.dumps({name: of.name, **place(of.span, shown), "text": of.text})
    inside = {omission for view in views for omission in view.shown.omissions}
    for omission in omissions:
        if omission not in inside:
            yield json.dumps({"left_out": left_out(omission)})
    functions, typed, in_part = counts(views)
    yield json.dumps({"functions": functions, "typed": typed, "in_part": in_part})


def place(span, shown):
    """A place in an object, with its file where that is another than the function's."""
    file = {} if span.file == shown.function.span.file else {"file": span.file}
    return {**file, "span": list(span[1:5])}


def left_out(omission):
    """What is left out, as an object."""
    span = omission.span
    return {"kind": omission.kind, "file": span and span.file, "span": span and list(span[1:5])}


class Listing:
    """The lines of a file, with a hint behind each binding and complaints below what they speak of.

    The views have what stands in this file. `every` has the types of all expressions below them too.
    """

    def __init__(self, file, lines, views, every=False, colored=False):
        self.lines, self.colored = lines, colored
        self.hints, self.marks = collections.defaultdict(list), collections.defaultdict(list)
        for view in views:
            span = view.shown.function.span
            if span.file == file:
                self.hints[span.line].append((len(lines[span.line - 1]) + 1, "  // " + standing(view.shown)))
            for complaint in view.complaints:
                text = "%s:%d:%d: %s: %s" % (*complaint.span[:3], complaint.name, complaint.text)
                self.marks[complaint.span.line].append(Mark(complaint.span, "^", text, RED))
            for remark in view.remarks:
                text = "%s:%d:%d: remark: %s" % (*remark.span[:3], remark.text)
                self.marks[remark.span.line].append(Mark(remark.span, "~", text, DIM))
            for node in sorted(view.nodes, key=lambda of: of.span):
                if node.kind == "binding" and not node.is_written:
                    self.hints[node.span.end_line].append((node.span.end_column, "/*: %s*/" % node.type))
                elif node.kind == "expr" and every:
                    self.marks[node.span.line].append(Mark(node.span, "-", node.type, DIM))

    def text(self, first, last):
        """The lines from one number to another, and what stands below them."""
        width = len(str(last))
        for number in range(first, last + 1):
            line = self.lines[number - 1]
            hints = sorted(self.hints[number])
            yield "%*d | %s" % (width, number, self.with_hints(line, hints, self.colored))
            for mark in self.marks[number]:
                yield "%*s | %s" % (width, "", self.marked(line, hints, mark, number))

    def with_hints(self, line, hints, colored):
        """A line with its hints."""
        for column, hint in reversed(hints):
            line = line[:column - 1] + (DIM + hint + PLAIN if colored else hint) + line[column - 1:]
        return line.rstrip()

    def marked(self, line, hints, mark, number):
        """What stands below a line: signs under a part of it, to the line's end where that goes on, and the text."""
        written = self.with_hints(line, hints, False)
        begun = mark.span.column - 1 + sum(len(hint) for column, hint in hints if column <= mark.span.column)
        ended = len(written)
        if mark.span.end_line == number:
            ended = mark.span.end_column - 1 + sum(len(hint) for column, hint in hints if column < mark.span.end_column)
        text = mark.sign * max(ended - begun, 1) + " " + mark.text
        return re.sub(r"[^\t]", " ", written[:begun]) + (mark.color + text + PLAIN if self.colored else text)

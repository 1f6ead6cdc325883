"""Views of functions as a page: the source, the type of the least expression under the pointer, complaints with links."""
import collections
import html

from type_view import standing

STYLE = """
:root { color-scheme: light dark; --text: #1f2328; --page: #fff; --dim: #636c76; --bad: #c21c2c; --line: #d1d9e0; --mark: #b6d4fe;
  --tip: #1f2328; --on-tip: #fff; }
@media (prefers-color-scheme: dark) {
  :root { --text: #e6edf3; --page: #0d1117; --dim: #9198a1; --bad: #ff7b72; --line: #3d444d; --mark: #1f4b8a; --tip: #e6edf3;
    --on-tip: #0d1117; }
}
* { box-sizing: border-box; }
body { margin: 0; padding: 1rem; background: var(--page); color: var(--text); font: 16px/1.5 system-ui, sans-serif; }
h1, h2 { margin: 0 0 0.5rem; font-size: 1.2rem; overflow-wrap: anywhere; }
h2 { margin-top: 1.5rem; font-size: 1rem; }
p { margin: 0 0 0.5rem; }
ul { margin: 0 0 1rem; padding-left: 1.2rem; }
li { overflow-wrap: anywhere; }
a { color: inherit; }
.source { overflow-x: auto; padding: 0.5rem 0 3rem; border: solid var(--line); border-width: 1px 0; }
.source, code { font: 14px/1.6 ui-monospace, "DejaVu Sans Mono", monospace; }
.line { width: max-content; min-width: 100%; white-space: pre; scroll-margin-top: 30vh; }
.line:target { background: color-mix(in srgb, var(--bad) 15%, transparent); }
.number { display: inline-block; min-width: 3em; padding-right: 1em; text-align: right; user-select: none; color: var(--dim); }
.note { position: sticky; left: 0; padding-left: 4em; font-size: 13px; overflow-wrap: anywhere; }
.hint, .remark, details { color: var(--dim); }
.hint { font-size: 0.9em; }
details ul { margin: 0; }
.complaint { color: var(--bad); }
.bad { text-decoration: underline wavy var(--bad); }
.node { position: relative; border-radius: 3px; }
.node:hover:not(:has(.node:hover)), .node:target { background: var(--mark); }
.node:hover:not(:has(.node:hover))::after, .node:target:not(:has(.node:hover))::after {
  content: attr(data-type); position: absolute; left: 0; top: 1.6em; z-index: 1; padding: 0 0.5em; border-radius: 3px;
  background: var(--tip); color: var(--on-tip); white-space: nowrap; }
@media (max-width: 600px) {
  body { padding: 0.75rem; }
  .number { min-width: 2em; padding-right: 0.75em; }
  .note { padding-left: 2.75em; }
  .node:hover:not(:has(.node:hover))::after, .node:target:not(:has(.node:hover))::after {
    position: fixed; left: 0; right: 0; top: auto; bottom: 0; padding: 0.75rem; border-radius: 0; white-space: normal;
    overflow-wrap: anywhere; }
}
"""

PAGE = """<!DOCTYPE html>
<html lang="en">
<head>
<meta charset="utf-8">
<meta name="viewport" content="width=device-width, initial-scale=1">
<title>%(title)s</title>
<style>%(style)s</style>
</head>
<body>
<h1>%(title)s</h1>
<p>%(summary)s. The type of an expression shows where the pointer is.</p>
%(complaints)s
%(files)s
%(left_out)s
</body>
</html>
"""


class FilePage:
    """The lines of a file in ranges, each from one number to another; `at` is the number of the file on the page.

    The views have what stands in this file.
    """

    def __init__(self, at, file, lines, ranges, views):
        self.at, self.file, self.lines, self.ranges = at, file, lines, ranges
        self.tags, self.hints, self.notes = (collections.defaultdict(list) for _ in range(3))
        for view in views:
            self.add(view)

    def add(self, view):
        """Adds what was found in a function."""
        shown, bad = view.shown, {complaint.span for complaint in view.complaints}
        omissions = sorted((of for of in shown.omissions if of.span is not None), key=lambda of: of.span)
        left_out = ["%d:%d: %s" % (*of.span[1:3], of.kind) for of in omissions]
        if shown.function.span.file == self.file:
            self.notes[shown.function.span.line].append(details(standing(shown), left_out))
        for node in view.nodes:
            if node.kind == "binding" and not node.is_written:
                self.hints[node.span.end_line, node.span.end_column].append(node.type)
            elif node.kind != "binding":
                for number in range(node.span.line, node.span.end_line + 1):
                    self.tags[number].append(self.tag(node, number, bad))
        for complaint in view.complaints:
            self.notes[complaint.span.line].append(note("complaint", complaint.span, "%s: %s" % complaint[::2]))
        for remark in view.remarks:
            self.notes[remark.span.line].append(note("remark", remark.span, remark.text))

    def tag(self, node, number, bad):
        """The part of a node on a line: the columns where it begins and ends, and what begins it."""
        line, span = self.lines[number - 1], node.span
        begun = span.column if number == span.line else len(line) - len(line.lstrip()) + 1
        ended = span.end_column if number == span.end_line else len(line.rstrip()) + 1
        is_first = number == span.line
        own = ' id="n-%d-%d-%d-%d-%d-%s"' % (self.at, *span[1:5], node.kind) if is_first else ""
        marks = " bad" if is_first and span in bad else ""
        return begun, ended, '<span%s class="node%s" data-type="%s">' % (own, marks, html.escape(node.type))

    def text(self):
        rows = [row for first, last in self.ranges for number in range(first, last + 1) for row in self.rows(number)]
        return '<div class="source">%s</div>' % "".join(rows)

    def rows(self, number):
        """A line, and what stands below it."""
        yield '<div class="line" id="%s"><span class="number">%d</span><code>%s</code></div>' % (
            line_id(self.at, number), number, self.code(number))
        yield from self.notes[number]

    def code(self, number):
        """A line with its nodes, of which those around others begin first, and with hints."""
        line, begins, ends, pieces = self.lines[number - 1], collections.defaultdict(list), collections.Counter(), []
        for begun, ended, opening in sorted(reversed(self.tags[number]), key=lambda of: (of[0], -of[1])):
            if begun < ended:
                begins[begun].append(opening)
                ends[ended] += 1
        for column in range(1, len(line) + 2):
            pieces.append("</span>" * ends[column])
            pieces += ['<span class="hint">: %s</span>' % html.escape(hint) for hint in self.hints.get((number, column), ())]
            pieces += begins[column]
            pieces.append(html.escape(line[column - 1:column]))
        return "".join(pieces)


def page(title, parts, left_out, summary):
    """The page of some files, of each its path, its lines, the ranges of them to show, and its views.

    What is left out of no function is named in lines.
    """
    files, complaints = [], []
    for at, (file, lines, ranges, views) in enumerate(parts):
        if len(parts) > 1:
            files.append("<h2>%s</h2>" % html.escape(file))
        files.append(FilePage(at, file, lines, ranges, views).text())
        complaints += [complaint_link(at, of) for view in views for of in view.complaints]
    listed = "<ul>%s</ul>" % "".join(complaints) if complaints else "<p>No complaint.</p>"
    items = details("left out of items: %d" % len(left_out), left_out) if left_out else ""
    return PAGE % {"title": html.escape(title), "style": STYLE, "summary": html.escape(summary), "complaints": listed,
                   "files": "\n".join(files), "left_out": items}


def line_id(at, number):
    return "L%d-%d" % (at, number)


def complaint_link(at, complaint):
    """An entry of the list of complaints."""
    span = complaint.span
    return '<li class="complaint"><a href="#%s">%s:%d:%d</a> %s: %s</li>' % (
        line_id(at, span.line), html.escape(span.file), span.line, span.column, complaint.name, html.escape(complaint.text))


def note(kind, span, text):
    return '<div class="note %s">%d:%d: %s</div>' % (kind, span.line, span.column, html.escape(text))


def details(summary, lines):
    """Lines that are hidden until they are asked for."""
    if not lines:
        return '<div class="note remark">%s</div>' % html.escape(summary)
    listed = "".join("<li>%s</li>" % html.escape(line) for line in lines)
    return '<details class="note"><summary>%s</summary><ul>%s</ul></details>' % (html.escape(summary), listed)

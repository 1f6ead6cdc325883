"""The texts of source files."""
import re

WORD_BEHIND = re.compile(r"(?:\s|;|//.*|/\*.*?\*/)*([\w:]+!?)?")
DERIVE = re.compile(r"\bderive\s*\((?!.*\))")
ATTRIBUTE_OR_COMMENT = re.compile(r"\s*(#!?\[.*\])?\s*(?://.*)?")


class Sources:
    """The lines of files, each read once."""

    def __init__(self):
        self.read = {}

    def lines(self, path):
        """The lines of a file, without their ends; none where it can't be read."""
        if path not in self.read:
            try:
                with open(path, encoding="utf-8-sig") as file:
                    self.read[path] = file.read().split("\n")
            except (OSError, UnicodeDecodeError):
                self.read[path] = []
        return self.read[path]

    def text(self, span):
        """What stands at a span of one line."""
        lines = self.lines(span.file)
        return lines[span.line - 1][span.column - 1:span.end_column - 1] if span.line <= len(lines) else ""

    def word_behind(self, span):
        """The span of the word that follows a span, past comments, or None where a file ends."""
        column = span.end_column - 1
        for number, line in enumerate(self.lines(span.file)[span.end_line - 1:], span.end_line):
            found = WORD_BEHIND.match(line, column)
            if found.group(1):
                return span._replace(line=number, column=found.start(1) + 1, end_line=number, end_column=found.end(1) + 1)
            column = 0
        return None

    def derive_around(self, span):
        """The Span of the `derive` in whose parentheses something stands, or None."""
        for number, line in reversed([*enumerate(self.lines(span.file)[:span.line], 1)]):
            line = line[:span.column - 1] if number == span.line else line
            found = list(DERIVE.finditer(line))
            if found:
                column = found[-1].start() + 1
                return span._replace(line=number, column=column, end_line=number, end_column=column, context=0)
            if ")" in line or "{" in line or ";" in line:
                return None
        return None

    def attributes_before(self, span):
        """The attributes on the lines above an item and on its own, those next to it first."""
        lines = self.lines(span.file)[:span.line]
        if lines:
            lines[-1] = lines[-1][:span.column - 1]
        return attributes_in(reversed(lines))

    def attributes_of_file(self, path):
        """The attributes at the head of a file."""
        return attributes_in(self.lines(path))


def attributes_in(lines):
    """The attributes that these lines begin with; there may be comments among them."""
    attributes = []
    for line in lines:
        found = ATTRIBUTE_OR_COMMENT.fullmatch(line.rstrip())
        if not found:
            break
        attributes.append(found.group(1) or "")
    return attributes

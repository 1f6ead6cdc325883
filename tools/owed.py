#!/usr/bin/env python3
"""Lists what rules say and no proof shows yet: the definitions of crates/infer_result/specs/Owed.antt that are still `Unit`.

A definition there is paid once none of its clauses is `Unit`. What stands above it as a comment is what it is to say.
Usage: tools/owed.py             writes the table in docs/PROMISES.md between its two marks
       tools/owed.py --check     says whether that table, and the sentence in the first paragraph of README.md, are as they should
                                 be, with status 1 where they are not
"""
import os
import re
import sys

TOP = os.path.dirname(os.path.dirname(os.path.abspath(__file__)))
OWED = os.path.join("crates", "infer_result", "specs", "Owed.antt")
PROMISES = os.path.join("docs", "PROMISES.md")
README = "README.md"
BEGIN, END = "<!-- owed: tools/owed.py -->", "<!-- end of owed -->"
NOTHING = "Nothing is owed."


def text_of(path):
    """Returns the text of a file of the repository."""
    with open(os.path.join(TOP, path), encoding="utf-8") as it:
        return it.read()


def definitions(text):
    """Yields each definition: its name, what stands above it as a comment, and what its clauses are."""
    said, name, clauses = [], None, []
    for line in text.splitlines() + [""]:
        found = re.match(r"(?:abbrev )?(?:pub )?(\S+) : ", line)
        if name and line.startswith(name + " ") and " = " in line:
            clauses.append(line.partition(" = ")[2].strip())
            continue
        if name and not line.strip():
            yield name, " ".join(said), clauses
            said, name, clauses = [], None, []
        elif found and not line.startswith((" ", "--")):
            name = found[1]
        elif line.startswith("-- ") and not name:
            said.append(line[3:].strip())
        elif not line.strip():
            said = []


def owed():
    """Returns the name of each definition that has a clause which is `Unit`, with what it is to say."""
    return [(name, said) for name, said, clauses in definitions(text_of(OWED))
            if any(re.fullmatch(r"Unit( \{0\})?", it) for it in clauses)]


def table(rows):
    """Returns the text between the marks."""
    if not rows:
        return f"{NOTHING}\n"
    lines = ["| Definition | Says, once it is shown |", "| --- | --- |"]
    return "\n".join(lines + [f"| `{name}` | {said} |" for name, said in rows]) + "\n"


def sentence(rows):
    """Returns the sentence that the first paragraph of the README has."""
    return "Owed are " + ", ".join(f"`{name}`" for name, _ in rows) + "." if rows else NOTHING


def first_paragraph(text):
    """Returns the first paragraph below the title, on one line."""
    return " ".join(text.split("\n\n")[1].split())


def main():
    if sys.argv[1:] not in ([], ["--check"]):
        sys.exit(__doc__)
    rows, promises = owed(), text_of(PROMISES)
    head, mark, rest = promises.partition(BEGIN)
    _, last, tail = rest.partition(END)
    if not mark or not last:
        sys.exit(f"{PROMISES}: {BEGIN} and {END} have to stand there")
    new = f"{head}{BEGIN}\n{table(rows)}{END}{tail}"
    if not sys.argv[1:]:
        with open(os.path.join(TOP, PROMISES), "w", encoding="utf-8") as it:
            it.write(new)
        return
    wrong = []
    if new != promises:
        wrong.append(f"{PROMISES}: what is owed has changed: run tools/owed.py")
    if sentence(rows) not in first_paragraph(text_of(README)):
        wrong.append(f"{README}: the first paragraph has to say: {sentence(rows)}")
    if wrong:
        sys.exit("\n".join(wrong))


if __name__ == "__main__":
    main()

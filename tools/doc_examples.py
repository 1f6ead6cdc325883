"""The Rust texts in folders: files, and the examples in pages of documentation that mdBook made, as those beside rustc are."""
import collections
import html.parser
import os

# A text: what names it, its edition, and its lines.
Example = collections.namedtuple("Example", "name edition text")

BOOK_EDITION = 2015  # of an example whose page names none
WHOLE_BOOK = "print.html"


class Examples(html.parser.HTMLParser):
    """The Rust examples of a page, each with the words that stand beside its language; `language` is that of the page."""

    def __init__(self):
        super().__init__()
        self.language, self.found, self.words, self.text = None, [], None, ""

    def handle_starttag(self, tag, attributes):
        attributes = dict(attributes)
        if tag == "html":
            self.language = attributes.get("lang")
        words = (attributes.get("class") or "").replace(",", " ").split()
        if tag == "code" and "language-rust" in words:
            self.words, self.text = words, ""

    def handle_endtag(self, tag):
        if tag == "code" and self.words is not None:
            self.found.append((self.words, self.text))
            self.words = None

    def handle_data(self, data):
        if self.words is not None:
            self.text += data


def examples_in(paths, edition):
    """The texts of these files and folders; of files that are no pages the edition is this one."""
    for path in paths:
        for file in files_in(path):
            with open(file, encoding="utf-8", errors="replace") as source:
                text = source.read()
            if file.endswith(".html"):
                yield from of_page(os.path.relpath(file, path), text)
            else:
                yield Example(file, edition, text)


def files_in(path):
    """The Rust files and pages of a folder and of those in it, or a file."""
    if not os.path.isdir(path):
        yield path
    for folder, folders, files in os.walk(path):
        folders.sort()
        for file in sorted(files):
            if file.endswith(".rs") or file.endswith(".html") and file != WHOLE_BOOK:
                yield os.path.join(folder, file)


def of_page(name, text):
    """The examples of a page in English that are said to be Rust as it is now."""
    page = Examples()
    page.feed(text)
    for at, (words, example) in enumerate(page.found if page.language in (None, "en") else ()):
        if "ignore" not in words:
            editions = [int(word[len("edition"):]) for word in words if word.startswith("edition") and word[7:].isdigit()]
            yield Example("%s:%d" % (name, at + 1), (editions or [BOOK_EDITION])[0], example)

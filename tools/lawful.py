#!/usr/bin/env python3
"""Writes the facts of every kind of Rust texts, and looks whether they obey the laws (docs/LAWS.md).

The texts are the Rust files in these folders, and the examples in pages of documentation. What is looked for is written apart from
the program, in `item_laws.py` and `body_laws.py`. With --with-program the program is asked too, of bodies as they are with items that it
carries (`bodies_alone.py`).
Status 0 where no law is broken, 1 where one is, 2 where nothing can be looked at.
"""
import argparse
import collections
import os
import re
import sys
import tempfile
import time

from bodies_alone import bodies_alone
from doc_examples import examples_in
from facts import NoFacts, add_file_options, facts_of, text_of
from item_laws import ItemLaws
from program import NoReport, Program, add_program_options
from rustc import NoRustc

REFUSES = re.compile(r"status (?!0|1\b)\d+: (.*)")


class Count:
    """What is counted of texts; `told` are the laws that are broken."""

    def __init__(self, program):
        self.of, self.why, self.told, self.seconds = collections.Counter(), collections.Counter(), [], 0.0
        self.program = program

    def add(self, name, path, edition, in_part):
        """Counts a text."""
        self.of["texts"] += 1
        try:
            start = time.process_time()
            crate = facts_of(path, edition, in_part, True)
            self.seconds += time.process_time() - start
        except NoFacts as why:
            self.of["no tree"] += 1
            if "makes no tree" not in str(why):
                self.told.append("%s: %s" % (name, why))
            return
        for of in crate.shown:
            self.of["functions"] += 1
            self.of["whole"] += of.is_whole
            self.why.update({kind_of(omission) for omission in of.omissions})
        for law, place, what in ItemLaws(crate.facts).look():
            self.told.append("%s: law %d is broken at `%s`: %s" % (name, law, place, what))
        if self.program is not None:
            self.ask(name, bodies_alone(crate.facts))

    def ask(self, name, facts):
        """Asks the program whether it reads these facts, for the function whose body is the first."""
        number = next((at for at, of in enumerate(facts["fns"]) if of["body"] is not None), None)
        if number is not None:
            self.of["asked"] += 1
            refusal = REFUSES.search(str(self.program.reports([(text_of(facts), number)])[0]))
            if refusal is not None:
                self.told.append("%s: the program says: %s" % (name, refusal.group(1)))

    def lines(self, most):
        yield from self.told
        for kind, count in self.why.most_common(most):
            yield "%6d %s" % (count, kind)
        yield "%d texts, %d without a tree, of %d the program was asked; %d functions, %d whole; %d laws broken; %.1f seconds" % (
            self.of["texts"], self.of["no tree"], self.of["asked"], self.of["functions"], self.of["whole"], len(self.told),
            self.seconds)


def kind_of(omission):
    """What is left out, without names of the text's own items."""
    return re.sub(r"`([\w:{}#]*)`(?!, of another)(?= in a macro$|$)", "`..`", omission.kind).replace(" in a macro", "")


def main():
    parser = argparse.ArgumentParser(description=__doc__, formatter_class=argparse.RawDescriptionHelpFormatter)
    parser.add_argument("paths", nargs="+", metavar="FOLDER | FILE")
    parser.add_argument("--in-part", action="store_true", help="write bodies too of which something is left out")
    parser.add_argument("--most", type=int, default=20, metavar="N", help="say so many of the kinds that are left out (20)")
    parser.add_argument("--with-program", action="store_true", help="ask the program too")
    add_program_options(parser)
    add_file_options(parser)
    given = parser.parse_args()
    try:
        count = Count(Program(given.program, given.unproved) if given.with_program else None)
        with tempfile.TemporaryDirectory() as folder:
            for example in examples_in(given.paths, given.edition):
                path = os.path.join(folder, "example.rs")
                with open(path, "w", encoding="utf-8") as out:
                    out.write(example.text)
                count.add(example.name, path, example.edition, given.in_part)
    except KeyboardInterrupt:
        print("lawful.py: interrupted", file=sys.stderr)
    except (NoReport, NoRustc, OSError) as why:
        print("lawful.py: %s" % why, file=sys.stderr)
        sys.exit(2)
    print("\n".join(count.lines(given.most)))
    sys.exit(1 if count.told else 0)


if __name__ == "__main__":
    main()

#!/usr/bin/env python3
"""Looks whether types.py says of the files in tools/corpus and of examples/shapes.rs what is stored beside them.

What it says, its lines, those on standard error and its status, is in NAME.types beside NAME.rs. Without rustc, or with
another than the tools were tried with, nothing is looked at, and that is said.
Usage: tools/types_check.py [--fill] [--program PATH | --unproved] [FILE.rs ..]
  --fill writes what is said in the place of what is stored.
Status 0 where all agree or nothing was looked at, 1 where some do not.
"""
import argparse
import difflib
import glob
import os
import subprocess
import sys

from program import TOP, Program, add_program_options
from rustc import why_not_tried

FILES = [os.path.join("tools", "corpus", "*.rs"), os.path.join("examples", "shapes.rs")]


def said_of(path, options):
    """What types.py says of a file."""
    done = subprocess.run([sys.executable, os.path.join("tools", "types.py"), path, *options], capture_output=True, text=True,
                          cwd=TOP)
    return "%s--- standard error\n%s--- status %d\n" % (done.stdout, done.stderr, done.returncode)


def stored_at(path):
    return os.path.join(TOP, os.path.splitext(path)[0] + ".types")


def read(path):
    if not os.path.exists(path):
        return ""
    with open(path, encoding="utf-8") as text:
        return text.read()


def main():
    parser = argparse.ArgumentParser(description=__doc__, formatter_class=argparse.RawDescriptionHelpFormatter)
    parser.add_argument("--fill", action="store_true", help="write what is said, and compare nothing")
    parser.add_argument("files", metavar="FILE.rs", nargs="*", help="these alone")
    add_program_options(parser)
    given = parser.parse_args()
    options = ["--program=" + given.program] if given.program else ["--unproved"] * given.unproved
    why = why_not_tried()
    if why is not None:
        print("types: nothing is looked at: %s" % why)
        return
    # Built here where it has to be, so that no file's answer tells of it.
    Program(given.program, given.unproved)
    files = given.files or [path for pattern in FILES for path in glob.glob(os.path.join(TOP, pattern))]
    paths = sorted(os.path.relpath(path, TOP) for path in files)
    wrong = 0
    for path in paths:
        said, stored = said_of(path, options), read(stored_at(path))
        if given.fill:
            with open(stored_at(path), "w", encoding="utf-8") as out:
                out.write(said)
        elif said != stored:
            wrong += 1
            lines = difflib.unified_diff(stored.splitlines(), said.splitlines(), "stored", "said", lineterm="", n=1)
            print("%s:\n%s" % (path, "\n".join(lines)))
    print("types of %d files, %d wrong" % (len(paths), wrong))
    sys.exit(1 if wrong else 0)


if __name__ == "__main__":
    main()

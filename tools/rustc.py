"""Asks rustc about a file. The tools that use its trees were tried with rustc 1.95."""
import json
import os
import re
import subprocess

from hir_tree import OWN, def_id, span_of

TRIED = "1.95"

# Without lints, and without files for long types.
QUIETLY = ["--cap-lints=allow", "-Zwrite-long-types-to-disk=no"]

# How an error says which call asks for a bound, where its main place is an argument.
BY_CALL = "required by a bound introduced by this call"


class NoRustc(Exception):
    """There is no rustc, or it gives no answer that is of use."""


def rustc(path, *options, crate=OWN, edition=2021, folder=None, timeout=None, text=None):
    """What rustc says of the crate in this file, which is called so; it takes the options of nightly ones.

    The file - has this text.
    """
    words = ["rustc", "--crate-type=lib", "--crate-name=" + crate, "--edition=%d" % edition, *QUIETLY]
    try:
        return subprocess.run([*words, *options, path], capture_output=True, text=True, cwd=folder, input=text,
                              env=dict(os.environ, RUSTC_BOOTSTRAP="1"), timeout=timeout)
    except FileNotFoundError:
        raise NoRustc("no rustc is found: install a Rust toolchain (tried with %s)" % TRIED) from None


def version():
    """What rustc says of its version."""
    return subprocess.run(["rustc", "--version"], capture_output=True, text=True).stdout.strip()


def why_not_tried():
    """Why the trees of the rustc that is here need not be as those of the one that was tried, or None."""
    try:
        said = version()
    except FileNotFoundError:
        return "no rustc is found"
    return None if " %s." % TRIED in said else "rustc is not %s, but %s" % (TRIED, said)


def errors_in(done):
    """The errors that rustc tells as JSON: for each of its main places its code, or "?", and the place as it says it.

    Where a call asks for a bound, the place is that of what is called.
    """
    for text in done.stderr.splitlines():
        said = json.loads(text)
        if said.get("level") == "error":
            callees = [span for span in said["spans"] if span["label"] == BY_CALL]
            for span in callees or [span for span in said["spans"] if span["is_primary"]]:
                yield said["code"]["code"] if said["code"] else "?", span


def thir_types(text):
    """The types in a tree of `-Zunpretty=thir-tree`: of each expression and pattern its Span and type, in rustc's words."""
    ty = None
    for line in text.splitlines():
        line = line.strip()
        if line.startswith("ty: "):
            ty = line[4:]
        elif line.startswith("span: ") and ty is not None:
            span = span_of(line[6:])
            if span is not None:
                yield span, ty
            ty = None


def with_parameters(ty, parameters):
    """A type of rustc's with the words of a report for parameters, whose names are these in order; rustc counts lifetimes too."""
    words = {name + "/": "param%d" % number for number, name in enumerate(parameters)}
    return re.sub(r"(\w+/)#\d+", lambda found: words.get(found.group(1), found.group()), ty)


def in_our_words(ty, item):
    """A type of rustc's as a report writes it, but for parameters; `item` gives the word for the item of a DefId."""
    ty = re.sub(r"'{\w+}(, )?", "", ty)
    ty = re.sub(r"def_id: DefId\([^()]*\)", lambda found: def_id(found.group()[len("def_id: "):]).path, ty)
    ty = re.sub(r"DefId\([^()]*\)", lambda found: item(def_id(found.group())), ty)
    before = None
    while before != ty:  # the innermost items and associated types first
        before = ty
        ty = re.sub(r"FnDef\((\w+), \[([^\[\]]*)\]\)", lambda found: found.group(1) + in_angles(found.group(2)), ty)
        ty = re.sub(r"Alias\(Projection, AliasTy { args: \[([^\[\]]*)\], ([\w:]+)::(\w+), \.\. }\)", projection, ty)
    return re.sub(r"(?:\w+::)+(\w+)", r"\1", ty)


def in_angles(arguments):
    return "<%s>" % arguments if arguments else ""


def projection(found):
    """An associated type, of whose arguments the first is the self type, and the others those of the trait."""
    arguments, trait, name = found.groups()
    depth = 0
    for at, sign in enumerate(arguments + ","):
        depth += (sign in "(<") - (sign in ")>")
        if sign == "," and depth == 0:
            return "<%s as %s%s>::%s" % (arguments[:at], trait, in_angles(arguments[at + 2:]), name)
    return found.group()

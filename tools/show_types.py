"""Shows the types of the functions in a Rust file, or in the crate of a cargo package.

The program runs on each function with a body. The source is shown with the type of each binding behind it, as a comment,
and each complaint below the code that it speaks of. Of a function of which something is not carried the rest is typed, "in
part". What is left out is named on standard error, of a function typed in part counted. With FUNCTION, its name or its path,
that function alone is shown. FILE.rs is - for standard input; with --cargo more of them may be named.
Status 0 where there is no complaint, 1 where there is one, 2 where nothing can be shown, 3 where a function is asked for
that is not typed.
"""
import argparse
import collections
import os
import sys

from cargo import cargo_tree
from facts import NoFacts, add_file_options, facts_of, facts_of_tree, place_text, put_out
from program import NoReport, Program, add_program_options
from type_lines import Listing, json_lines
from type_page import page
from type_view import folded, kinds_left_out, summary, views_of


def options():
    parser = argparse.ArgumentParser(prog="types.py", description=__doc__,
                                     usage="types.py [options] FILE.rs [FUNCTION] | --cargo [DIR] [FILE.rs ..] [FUNCTION]",
                                     formatter_class=argparse.RawDescriptionHelpFormatter)
    parser.add_argument("words", nargs="*", metavar="FILE.rs | FUNCTION")
    parser.add_argument("--cargo", metavar="DIR", nargs="?", const=os.curdir,
                        help="show the crate of the cargo package in a folder, this one where none is named: of its library, or "
                             "else of its first program, or that of which a FILE.rs is the root")
    parser.add_argument("--all-files", action="store_true",
                        help="show the files of all modules, as --cargo does where none is named")
    form = parser.add_mutually_exclusive_group()
    form.add_argument("--all", action="store_true", help="the type of each expression too")
    form.add_argument("--json", action="store_true", help="one JSON object a line: functions, nodes and complaints")
    form.add_argument("--html", metavar="OUT", help="write a page that shows the types where the pointer is")
    parser.add_argument("--strict", action="store_true", help="type no function in part")
    add_program_options(parser)
    add_file_options(parser)
    given = parser.parse_args()
    if given.cargo is not None and given.cargo.endswith(".rs"):
        given.words, given.cargo = [given.cargo, *given.words], os.curdir
    given.files = [word for word in given.words if is_file(word)]
    functions = [word for word in given.words if not is_file(word)]
    if given.cargo is None and not given.files and functions:
        given.files = [functions.pop(0)]
    given.function = functions[0] if functions else None
    if len(functions) > 1 or given.cargo is None and len(given.files) != 1:
        parser.error("a file and at most a function are named")
    return given


def is_file(word):
    return word == "-" or word.endswith(".rs")


def crate_of(given):
    """The CrateFacts of what is asked for."""
    if given.cargo is None:
        return facts_of(given.files[0], given.edition, not given.strict)
    return facts_of_tree(cargo_tree(given.cargo, given.files), not given.strict)


def files_of(crate, given):
    """The files to show, in their order."""
    own = crate.items.files | {of.function.span.file for of in crate.shown} | {crate.path}
    if given.all_files or given.cargo is not None and not given.files:
        return sorted(own, key=lambda file: (file != crate.path, file))
    if given.cargo is None:
        return [crate.path]
    places = {os.path.realpath(file): file for file in own}
    for file in given.files:
        if os.path.realpath(file) not in places:
            raise NoFacts("%s is no file of the crate of %s" % (file, crate.path))
    return [places[os.path.realpath(file)] for file in given.files]


def show(given):
    """Shows what is asked for. The status that says how it went."""
    crate = crate_of(given)
    if crate.errors:
        print(crate.errors, file=sys.stderr)
    files = files_of(crate, given)
    views = [placed(of, files) for of in views_of(crate, Program(given.program, given.unproved), given.function, files)]
    if given.function is not None and not views:
        raise NoFacts("no function with a body in %s is called %s" % (", ".join(files), given.function))
    omissions = omissions_of(given, crate, files, views)
    put(given, crate, files, views, omissions)
    tell_omissions(crate, views, omissions)
    tell_others(crate, files, given.function)
    if given.function is not None and any(view.shown.writer is None for view in views):
        return 3
    return 1 if any(view.complaints for view in views) else 0


def placed(view, files):
    """A view with complaints at its function where they stand in files that are not shown, as a macro may have them."""
    own = view.shown.function.span
    return view._replace(complaints=[of if of.span.file in files else of._replace(span=own) for of in view.complaints])


def omissions_of(given, crate, files, views):
    """What is left out of what is asked for, by its place."""
    omissions = {omission for view in views for omission in view.shown.omissions}
    if given.function is None:
        omissions.update(of for of in crate.omissions() if of.span is None or of.span.file in files)
    return sorted(omissions, key=lambda of: (of.span or (), of.kind))


def put(given, crate, files, views, omissions):
    """Writes the views in the form that is asked for."""
    if given.json:
        for line in json_lines(views, omissions):
            put_out(line)
        return
    parts = [(file, crate.sources.lines(file), ranges_of(given.function, crate.sources.lines(file), file, views),
              [in_file(view, file) for view in views]) for file in files]
    if given.html:
        with open(given.html, "w", encoding="utf-8") as out:
            out.write(page(crate.path, parts, outside_functions(crate, views, omissions), summary(views)))
        return
    for file, lines, ranges, of_file in parts:
        if len(files) > 1 and ranges:
            put_out("%s:" % file)
        if ranges:
            listing = Listing(file, lines, of_file, given.all, sys.stdout.isatty() and not os.environ.get("NO_COLOR"))
            put_out("\n...\n".join("\n".join(listing.text(*of)) for of in ranges))
    put_out(summary(views))


def in_file(view, file):
    """A view with what of it stands in a file: what a macro is given may stand in another than the function."""
    return view._replace(**{kind: [of for of in getattr(view, kind) if of.span.file == file]
                            for kind in ("nodes", "complaints", "remarks")})


def ranges_of(function, lines, file, views):
    """The lines to show: all, or those of the functions that are asked for."""
    if function is None:
        last = len(lines) if lines and lines[-1] else len(lines) - 1
        return [(1, last)] if last > 0 else []
    spans = [view.shown.function.span for view in views]
    return [(span.line, span.end_line) for span in spans if span.file == file]


def outside_functions(crate, views, omissions):
    """What is left out of no function that is typed in part, in lines."""
    in_part = {view.shown.function.id.path for view in views if is_in_part(view.shown)}
    return folded([of for of in omissions if of.function not in in_part], crate)


def is_in_part(shown):
    return shown.writer is not None and not shown.is_whole


def tell_omissions(crate, views, omissions):
    """Names on standard error what is left out; of functions that are typed in part it is counted."""
    for line in outside_functions(crate, views, omissions):
        print(line, file=sys.stderr)
    for shown in (view.shown for view in views if is_in_part(view.shown)):
        print("%s: `%s` is typed in part, without: %s" % (
            place_text(shown.function.span, crate.path), shown.name, kinds_left_out(shown)), file=sys.stderr)


def tell_others(crate, files, function):
    """Says on standard error in which files there are functions that are not shown."""
    others = collections.Counter(of.function.span.file for of in crate.shown if of.function.span.file not in files)
    if function is None:
        for file, count in sorted(others.items()):
            print("%s: not shown: %d functions (--all-files)" % (file, count), file=sys.stderr)


def main():
    given = options()
    try:
        sys.exit(show(given))
    except (NoFacts, NoReport, OSError) as why:
        print("types.py: %s" % why, file=sys.stderr)
        sys.exit(2)

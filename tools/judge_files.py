"""Judges the functions of Rust files: rustc's verdicts and types beside ours."""
import collections
import glob
import os
import sys
import tempfile

from crate_items import parameters_of
from facts import NoFacts, facts_of, omission_text
from hir_tree import span_of
from program import NoReport
from rustc import NoRustc, errors_in, in_our_words, rustc, thir_types, with_parameters
from slices import reports_on
from verdicts import Judged, Nodes, verdict


def judge_files(paths, edition, program, tells_omissions=True):
    """The Verdicts on the functions of these files and of those in these folders, and the files that can't be judged.

    The differences are printed, and what is left out of the files where that is wanted; why a file can't be judged is said
    on standard error.
    """
    verdicts, failed = [], []
    for path in files_of(paths):
        try:
            crate = facts_of(path, edition)
            verdicts += judge_file(crate, edition, program)
        except (NoFacts, NoReport, NoRustc, OSError) as why:
            failed.append(path)
            print("%s: not judged: %s" % (path, why), file=sys.stderr)
            continue
        for omission in crate.omissions() if tells_omissions else ():
            print(omission_text(omission, path))
    return verdicts, failed


def judge_file(crate, edition, program):
    """The Verdicts on the functions of a file, whose differences are printed."""
    shown = [of for of in crate.shown if of.writer is not None]
    reports = list(reports_on([(crate.facts, of.number) for of in shown], program))
    for report in reports:
        if isinstance(report, NoReport):
            raise report
    errors, bounded = errors_of(crate, edition), bounded_in(crate.facts)
    theirs, verdicts = types_of(crate, edition, errors), []
    for function, report in zip(shown, reports):
        types = None if around_with_errors(crate, errors, function) else theirs
        verdicts.append(verdict(judged(function, report, errors[function.function.id], types, bounded)))
        for one in verdicts[-1].told:
            print("%s:%d: %s\n    %s" % (crate.path, function.function.span.line, function.name, one))
    return verdicts


def files_of(paths):
    """The files, and of folders the Rust files in them."""
    for path in paths:
        yield from sorted(glob.glob(os.path.join(path, "*.rs"))) if os.path.isdir(path) else [path]


def around_with_errors(crate, errors, function):
    """A function in which rustc has an error, this one or one around it, the outermost first: of these it gives no types."""
    return [of for of in crate.shown if errors[of.function.id] and holds(of.function.span, function.function.span[1:])]


def bounded_in(facts):
    """The functions and constructors with bounds, as paths name them."""
    functions = {("fn", at) for at, function in enumerate(facts["fns"]) if function["preds"]}
    return functions | {("ctor", at) for at, variant in enumerate(facts["variants"]) if facts["adts"][variant["adt"]]["preds"]}


def judged(function, report, errors, theirs, bounded):
    """A function for its verdict, with rustc's types of it from those of its file, if there are any."""
    writer, around = function.writer, function.function.span
    places = {node: span and span[1:] for node, span in writer.spans.items() if node[0] != "b"}
    own = set(places.values())
    if theirs is not None:
        parameters = [item.path.rpartition("::")[2] for item in parameters_of(function.function.generics)]
        theirs = {place: {with_parameters(ty, parameters) for ty in types}
                  for place, types in theirs.items() if place in own or holds(around, place)}
    return Judged(errors, theirs, report, Nodes(writer.exprs, writer.pats, places, bounded))


def holds(span, place):
    """Whether a place, which begins with its lines and columns, is part of a span."""
    return span[1:3] <= place[:2] and place[2:4] <= span[3:5]


def errors_of(crate, edition):
    """rustc's errors by the functions that they stand in, the innermost, each by its code and place.

    It is asked again with other bodies in place of those with errors, since it says nothing of moves before.
    """
    errors, is_new = collections.defaultdict(set), True
    while is_new:
        is_new = False
        lines, shifts = with_emptied_bodies(crate, errors)
        for code, said in errors_in(rustc_of(lines, edition, "--emit=metadata", "--error-format=json")):
            place = (said["line_start"], unshifted(shifts[said["line_start"]], said["column_start"]),
                     said["line_end"], unshifted(shifts[said["line_end"]], said["column_end"]), 0)
            function = function_at(crate, place)
            if function is None:
                raise NoRustc("%s:%d:%d: rustc has an error in no function with a body: %s" % (crate.path, *place[:2], code))
            is_new = is_new or (code, place) not in errors[function.function.id]
            errors[function.function.id].add((code, place))
    return errors


def function_at(crate, place):
    """The innermost function with a body around a place."""
    around = [of for of in crate.shown if holds(of.function.span, place)]
    return max(around, key=lambda of: of.function.span[1:3], default=None)


def types_of(crate, edition, errors):
    """rustc's types by their places, from the file with other bodies in place of those with errors."""
    lines, shifts = with_emptied_bodies(crate, errors)
    done = rustc_of(lines, edition, "-Zunpretty=thir-tree")
    if done.returncode:
        raise NoRustc("rustc gives no types of %s: %s" % (crate.path, done.stderr.strip()))
    types, words = collections.defaultdict(set), words_of(crate)
    for span, ty in thir_types(done.stdout):
        place = (span.line, unshifted(shifts[span.line], span.column),
                 span.end_line, unshifted(shifts[span.end_line], span.end_column), span.context)
        types[place].add(in_our_words(ty, lambda item: words.get(item[:2], "left_out")))
    return types


def rustc_of(lines, edition, *options):
    """What rustc says of a file of these lines."""
    with tempfile.TemporaryDirectory() as folder:
        with open(os.path.join(folder, "judged.rs"), "w", encoding="utf-8") as out:
            out.write("\n".join(lines))
        return rustc("judged.rs", *options, edition=edition, folder=folder)


def with_emptied_bodies(crate, errors):
    """The lines of a file with other bodies in place of those with errors, and by line what has moved there."""
    lines, shifts = list(crate.sources.lines(crate.path)), collections.defaultdict(list)
    for function in reversed(crate.shown):
        if around_with_errors(crate, errors, function)[:1] == [function]:
            empty_body(lines, shifts, span_of(function.function.body["value"]["span"]))
    return lines, shifts


def empty_body(lines, shifts, span):
    """Puts a body of any type in the place of the one at a span.

    What follows it on its last line stays at its column, or is as far behind that as `shifts` says of the line.
    """
    behind = lines[span.end_line - 1][span.end_column - 1:]
    lines[span.line - 1] = lines[span.line - 1][:span.column - 1] + "{loop{}}"
    for number in range(span.line + 1, span.end_line + 1):
        lines[number - 1] = ""
    last = lines[span.end_line - 1].ljust(span.end_column - 1)
    lines[span.end_line - 1] = last + behind
    shifts[span.end_line].insert(0, (span.end_column, len(last) - span.end_column + 1))


def unshifted(shifts, column):
    """The column of the file that has come to this one, by what has moved on its line, from left to right."""
    for behind, shift in shifts:
        if column - shift >= behind:
            column -= shift
    return column


def words_of(crate):
    """The words for functions and constructors in our reports, by their crates and paths."""
    words = {item[:2]: "fn%d" % number for item, number in crate.lists.functions.items()}
    for constructor, variant in crate.items.constructors.items():
        if variant in crate.lists.variants:
            words[constructor[:2]] = "variant%d" % crate.lists.variants[variant]
    return words

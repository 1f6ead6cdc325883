#!/usr/bin/env python3
"""Time and peak memory of `session` over N small functions in one text, at N/100, N/10 and N, beside `table` called for each.

Function k is `fn fk(a: u8) -> u8 { let x = id(fj(a)); let y = if true { x } else { 1 }; y }`, where j is k - 1, and the first
calls itself; `id` is `fn id<T>(x: T) -> T`. The commands ask for each once. "Without reading" is less the time of a session
over the same text that asks for nothing, which reads it and tests its laws. Time and memory are the least of some runs.
`table` is called for up to SAMPLE functions, evenly spread, and its time for all is reckoned from these. Where rustc is
found, the time of its pass `type_check_crate` over the same functions stands beside. With `--items` a struct, `struct Sk;`, and
an impl of one trait for it stand beside each function, which no function names.
Usage: bench/session.py [--program PATH] [--items] [N]       (10000 where none is given; the text must fit into 2^24 bytes)
Build the program first: cd crates/infer_tool && rt run -- table fn 0 < ../../examples/first_run.json
"""
import argparse
import json
import os
import re
import shutil
import subprocess
import sys
import tempfile

TOP = os.path.dirname(os.path.dirname(os.path.abspath(__file__)))
PROGRAM = os.path.join(TOP, "crates", "infer_tool", "out", "infer_tool")
SAMPLE = 20
FEWEST, MOST = 3, 12  # runs; as many as fit into ENOUGH
ENOUGH = 2  # seconds

# Run by a small process of its own, since a child's peak counts the memory of the process that it is forked from.
RUN = """
import os, subprocess, sys, time
begun = time.monotonic()
child = subprocess.Popen(sys.argv[1:])
_, status, used = os.wait4(child.pid, 0)
print(time.monotonic() - begun, used.ru_maxrss / 1024, os.waitstatus_to_exitcode(status), file=sys.stderr)
child.returncode = 0
"""


def body(number):
    """The body of a function, whose own number and those of `id` and of what it calls are those of the facts."""
    called = max(number - 1, 1)
    exprs = [["path", ["fn", 0, None]], ["path", ["fn", called, None]], ["path", ["local", 0, None]],
             ["call", 1, [2]], ["call", 0, [3]],
             ["lit", ["bool", True]], ["path", ["local", 1, None]], ["block", None, [], 6],
             ["lit", ["int", "1", None]], ["block", None, [], 8], ["if", 5, 7, 9],
             ["path", ["local", 2, None]],
             ["block", None, [["let", 1, None, 4, None], ["let", 2, None, 10, None]], 11]]
    return {"module": 0, "traits": [], "self": None, "params": [0], "root": 12, "exprs": exprs,
            "pats": [["bind", at, None] for at in range(3)],
            "bindings": [[name, "plain"] for name in ("a", "x", "y")], "labels": 0}


def function(name, params, types, body_number):
    return {"name": name, "at": ["module", 0], "params": params, "preds": [], "has_self": False, "inputs": [types],
            "output": types, "safe": True, "vis": "pub", "body": body_number}


def facts(count, items):
    """The facts of this many functions, and of this many structs with an impl."""
    return {
        "profile": 1, "edition": 2021, "never_fallback": False, "new_range": False, "limits": [8, 1000, 8, 10],
        "types": ["u8", ["param", 0]] + [["adt", at, []] for at in range(items)], "modules": [None],
        "adts": [{"name": "S%d" % at, "kind": "struct", "params": [], "preds": [], "variants": [at], "repr": None, "unsize": None}
                 for at in range(items)],
        "variants": [{"adt": at, "name": "S%d" % at, "ctor": "unit", "fields": [], "body": None} for at in range(items)],
        "fns": [function("id", ["t"], 1, None)] + [function("f%d" % at, [], 0, at) for at in range(count)],
        "consts": [], "statics": [],
        "traits": [{"name": "Tr", "params": [], "preds": [], "fns": [], "consts": [], "types": [], "auto": False}],
        "aliases": [], "opaques": [], "lang": {},
        "impls": [{"trait": [0, []], "params": [], "preds": [], "self": at + 2, "fns": [], "consts": [], "types": []}
                  for at in range(items)],
        "bodies": [body(at + 1) for at in range(count)],
    }


def source(count, items):
    lines = ["#![allow(unused, unconditional_recursion)]\npub fn id<T>(x: T) -> T { x }\npub trait Tr {}\n"]
    lines += ["pub struct S%d;\nimpl Tr for S%d {}\n" % (at, at) for at in range(items)]
    for at in range(count):
        lines.append("pub fn f%d(a: u8) -> u8 { let x = id(f%d(a)); let y = if true { x } else { 1 }; y }\n"
                     % (at, max(at - 1, 0)))
    return "".join(lines)


def text_of(value):
    return json.dumps(value, separators=(",", ":")).encode()


def session(value, numbers):
    return text_of({"facts": value, "commands": [["table", "fn", number] for number in numbers]})


def run(program, words, text):
    """Seconds, peak memory in MiB and the last line of one run; ends the script where that does not end well."""
    with tempfile.TemporaryFile() as given, tempfile.TemporaryFile() as sink:
        given.write(text)
        given.seek(0)
        done = subprocess.run([sys.executable, "-c", RUN, program] + words, stdin=given, stdout=sink,
                              stderr=subprocess.PIPE, text=True, check=True)
        said = done.stderr.splitlines()
        seconds, peak, status = said[-1].split()
        if int(status) != 0:
            sys.exit("%s: status %s: %s" % (" ".join(words), status, " ".join(said[:-1])))
        sink.seek(0)
        return float(seconds), float(peak), sink.read().decode().splitlines()[-1]


def best(program, words, text, wanted):
    """The least seconds and memory of some runs, the more the shorter they are, all of which end with this line."""
    runs = []
    while len(runs) < MOST and (len(runs) < FEWEST or sum(seconds for seconds, _ in runs) < ENOUGH):
        seconds, peak, last = run(program, words, text)
        if last != wanted:
            sys.exit("%s ends with %r in the place of %r" % (" ".join(words), last, wanted))
        runs.append((seconds, peak))
    return min(seconds for seconds, _ in runs), min(peak for _, peak in runs)


def tables(program, value, count):
    """The seconds that `table` takes for each function, reckoned from some of them."""
    text, numbers = text_of(value), range(1, count + 1, max(count // SAMPLE, 1))
    return sum(run(program, ["table", "fn", str(number)], text)[0] for number in numbers) * count / len(numbers)


def rustc_seconds(count, items):
    """What rustc says of its pass `type_check_crate`, or None where it is not found."""
    rustc = shutil.which("rustc")
    if rustc is None:
        return None
    with tempfile.TemporaryDirectory() as folder:
        path = os.path.join(folder, "session.rs")
        with open(path, "w") as out:
            out.write(source(count, items))
        done = subprocess.run([rustc, "--crate-type=lib", "--emit=metadata", "-Ztime-passes", "-o",
                               os.path.join(folder, "session.rmeta"), path],
                              env=dict(os.environ, RUSTC_BOOTSTRAP="1"), capture_output=True, text=True, timeout=600)
        found = re.search(r"time:\s+([0-9.]+);.*\btype_check_crate\b", done.stderr + done.stdout)
        return float(found.group(1)) if found else None


def measure(program, count, items):
    """Prints the figures of this many functions, beside this many structs."""
    value = facts(count, items)
    text = session(value, range(1, count + 1))
    if len(text) > 1 << 24:
        sys.exit("%d functions don't fit into 2^24 bytes" % count)
    seconds, peak = best(program, ["session"], text, "inferred %d" % count)
    reading, read_peak = best(program, ["session"], session(value, []), "inferred 0")
    theirs = rustc_seconds(count, items)
    print("N %6d  bytes %8d  seconds %7.3f  without reading %7.3f (one %6.1f us)  peak MiB %6.1f (reading %6.1f)  "
          "table for each %9.3f  rustc type_check_crate %s"
          % (count, len(text), seconds, seconds - reading, 1e6 * (seconds - reading) / count, peak, read_peak,
             tables(program, value, count), "-" if theirs is None else "%.3f" % theirs), flush=True)


def main():
    parser = argparse.ArgumentParser(description=__doc__, formatter_class=argparse.RawDescriptionHelpFormatter)
    parser.add_argument("--program", default=PROGRAM)
    parser.add_argument("--items", action="store_true", help="a struct with an impl beside each function")
    parser.add_argument("count", nargs="?", type=int, default=10000)
    given = parser.parse_args()
    if not os.path.exists(given.program):
        sys.exit("build the program first (see this script's head)")
    for count in (given.count // 100, given.count // 10, given.count):
        if count:
            measure(given.program, count, count if given.items else 0)


if __name__ == "__main__":
    main()

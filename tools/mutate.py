#!/usr/bin/env python3
"""Runs the program on random mutations of the examples and of a text with a body of all kinds (all_kinds.py): each must end with
one of its statuses.

Bytes are flipped, cut out and doubled, keys dropped, numbers changed, lists cut, entries of lists put in the place of others. Of each
example the last function is asked for, and of the text with all kinds any; in a session all functions and one more, the last of them
twice. Prints how often each status came of either, and fails at a crash, a hang (ten minutes), a status that is none of the program's,
9 in a session, output at a status that writes none, and a last line that isn't the command's.
"""
import argparse
import collections
import glob
import json
import os
import random
import subprocess
import sys
from concurrent.futures import ThreadPoolExecutor

import all_kinds
from program import TOP, NoReport, Program, add_program_options

REPORTS = {0, 1}
SILENT = {2, 3, 5, 6, 7, 8, 9, 10}


def places(value, path=()):
    """Each place in a value of JSON, as a list of keys and positions."""
    yield path
    if isinstance(value, dict):
        for key in value:
            yield from places(value[key], path + (key,))
    elif isinstance(value, list):
        for at, item in enumerate(value):
            yield from places(item, path + (at,))


def change(rng, value):
    """The value with something changed at one place."""
    path = rng.choice([p for p in places(value) if p])
    inside = value
    for step in path[:-1]:
        inside = inside[step]
    old = inside[path[-1]]
    kind = rng.randrange(7)
    if kind == 0:
        del inside[path[-1]]
    elif kind == 1 and isinstance(old, int) and not isinstance(old, bool):
        inside[path[-1]] = rng.choice([old + 1, old - 1, 0, 1, 2 ** 32 - 1, 2 ** 32, 2 ** 64, old + 0.5])
    elif kind == 2 and isinstance(old, list):
        inside[path[-1]] = old[:rng.randrange(len(old) + 1)]
    elif kind == 3 and isinstance(old, list):
        inside[path[-1]] = old + old[:1]
    elif kind == 4:
        inside[path[-1]] = rng.choice([None, True, 0, "", [], {}, "_", "missing", ["lit", ["bool", True]], ["t", 0], ["c", "_"]])
    elif kind == 5 and isinstance(inside, list):
        inside[path[-1]] = rng.choice(inside)
    elif isinstance(inside, dict):
        inside[rng.choice(["name", "at", "more"])] = old
    return value


def mutated(rng, text):
    """A text that differs from a valid one."""
    if rng.randrange(2):
        value = json.loads(text)
        for _ in range(rng.randrange(1, 4)):
            value = change(rng, value)
        return json.dumps(value, separators=(",", ":")).encode()
    out = bytearray(text)
    for _ in range(rng.randrange(1, 6)):
        at = rng.randrange(len(out))
        kind = rng.randrange(4)
        if kind == 0:
            out[at] ^= 1 << rng.randrange(8)
        elif kind == 1:
            out[at] = rng.randrange(256)
        elif kind == 2:
            del out[at:at + rng.randrange(1, 9)]
        else:
            out[at:at] = out[at:at + rng.randrange(1, 9)]
        if not out:
            out = bytearray(b"{")
    return bytes(out)


def session_of(facts):
    """A session over an example's facts."""
    count = len(facts["fns"])
    return {"facts": facts, "commands": [["table", "fn", number] for number in (*range(count + 1), count - 1)]}


def asked_of(value):
    """What is asked of an example: pairs of words and a text. The last function calls those before it."""
    if "commands" in value:
        return [(["session"], json.dumps(value).encode())]
    return [(["table", "fn", str(len(value["fns"]) - 1)], json.dumps(value).encode()),
            (["session"], json.dumps(session_of(value)).encode())]


def asked_of_all_kinds():
    """The same of the text with a body of all kinds, for any of its functions."""
    facts = all_kinds.facts()
    text = json.dumps(facts).encode()
    of_one = [(["table", "fn", str(number)], text) for number in range(len(facts["fns"]))]
    return of_one + [(["session"], json.dumps(session_of(facts)).encode())]


def is_fine(words, status, out, err):
    """Whether a run ended as one of its command may."""
    is_session = words == ["session"]
    if status in REPORTS:
        last = out.splitlines()[-1] if out.endswith(b"\n") else b""
        return last.startswith(b"inferred " if is_session else b"complaints ") and not err
    return status in SILENT and not (is_session and status == 9) and not out and bool(err)


def program_path(given):
    """The path of the program that is asked for."""
    try:
        path = Program(given.program, given.unproved).path
    except NoReport as why:
        sys.exit("mutate.py: %s" % why)
    return path or sys.exit("mutate.py: no build without proof is kept: build the program (README)")


def main():
    parser = argparse.ArgumentParser(description=__doc__, formatter_class=argparse.RawDescriptionHelpFormatter)
    parser.add_argument("count", metavar="COUNT", nargs="?", type=int, default=20000, help="20000 where none is given")
    parser.add_argument("seed", metavar="SEED", nargs="?", type=int, default=1, help="1 where none is given")
    add_program_options(parser)
    given = parser.parse_args()
    path, rng = program_path(given), random.Random(given.seed)
    examples = [json.load(open(name, encoding="utf-8")) for name in sorted(glob.glob(os.path.join(TOP, "examples", "*.json")))]
    asked = [pair for value in examples for pair in asked_of(value)] + asked_of_all_kinds() * 4
    batch = [(words, mutated(rng, text)) for words, text in (rng.choice(asked) for _ in range(given.count))]
    seen, wrong = collections.Counter(), 0
    with ThreadPoolExecutor(4) as pool:
        for (words, text), (status, out, err) in zip(batch, pool.map(lambda of: attempt(path, *of), batch)):
            seen[words[0], status] += 1
            if not is_fine(words, status, out, err):
                wrong += 1
                print("%s: status %r, %d bytes out, for %r" % (" ".join(words), status, len(out), text[:2000]))
    counts = ("%s %s %d" % (*of, count) for of, count in sorted(seen.items(), key=str))
    print("%d texts, %d wrong; commands and statuses: %s" % (given.count, wrong, ", ".join(counts)))
    sys.exit(1 if wrong else 0)


def attempt(path, words, text):
    """The status of a run, and what it wrote on both outputs."""
    try:
        done = subprocess.run([path] + words, input=text, capture_output=True, timeout=600)
        return done.returncode, done.stdout, done.stderr
    except subprocess.TimeoutExpired:
        return "hang", b"", b""


if __name__ == "__main__":
    main()

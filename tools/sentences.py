#!/usr/bin/env python3
"""Asks the program for its sentences on standard error: each case of examples/sentences.txt must end with its status, write
nothing on standard output, and say its sentence.

A case is a block of lines, each a word and what follows it:
  words WORD..      the words of the command, `table fn 0` where there is no such line
  of EXAMPLE        the text: that of examples/EXAMPLE.json
  text "..."        or this one, as a string of JSON
  bytes 22 ff ..    or these bytes, in hexadecimal
  made NAME         or one that is made here (MADE)
  set PATH VALUE    the value of JSON that stands at a path, as bodies[0].root; a list is added to at its length
  drop PATH         what is taken out of it
  each PATH         as `set`, with each of the values that stand below it, a line each and indented; a case for each
  nest exprs        body 0 is 256 levels over a leaf, of each of the kinds that stand below it so, "in" being the level below, "leaf"
                    a further expression, "wild" a pattern; or `nest pats`, levels of patterns
  fails END         `input` or `output`, which fails (not asked of a build without proof that is not kept)
  says N SENTENCE   the status, and what is said; {} in it is what stands behind the value of an `each` or a `nest` on its line,
                    and {value} is the value
The text "2^20+1 ARG" in a value stands for a list of so many arguments. A line that begins with # is passed over.
Usage: tools/sentences.py [--program PATH | --unproved] [--print]
  --print writes what the program says in the place of the stored sentences, and compares nothing.
Build the program first: cd crates/infer_tool && rt run -- table fn 0 < ../../examples/first_run.json
"""
import argparse
import copy
import json
import os
import re
import subprocess
import sys
import tempfile
from concurrent.futures import ThreadPoolExecutor

import program

CASES = os.path.join(program.TOP, "examples", "sentences.txt")
FIRST = os.path.join(program.TOP, "examples", "first_run.json")

# How long a run may take: a build without proof has no optimization, and reads the longest lists in a minute.
SECONDS = 600


def first_run():
    return json.load(open(FIRST, encoding="utf-8"))


def nested():
    """One array more than may nest."""
    return "[\n" + "[" * 127 + "]" * 128


def too_long():
    return " " * (2 ** 24 + 1)


def deep_tree():
    """A body in which tuples nest too deep."""
    facts = first_run()
    facts["bodies"][0].update(root=257, pats=[], bindings=[],
                              exprs=[["lit", ["bool", True]]] + [["tuple", [at]] for at in range(257)])
    return json.dumps(facts)


def deep_type():
    """Tuple types that nest too deep."""
    facts = first_run()
    facts["types"] += [["tuple", [at]] for at in range(64)]
    return json.dumps(facts)


def large_type():
    """A type that doubles its part, twelve times."""
    facts = first_run()
    facts["types"] += [["tuple", [at, at]] for at in range(12)]
    return json.dumps(facts)


def many_modules():
    facts = first_run()
    facts["modules"] = [None] * (2 ** 20 + 1)
    return json.dumps(facts)


def wide_type():
    """A tuple with more parts than a list may have."""
    facts = first_run()
    facts["types"].append(["tuple", [0] * (2 ** 20 + 1)])
    return json.dumps(facts)


MADE = {make.__name__: make for make in (nested, too_long, deep_tree, deep_type, large_type, many_modules, wide_type)}


def steps_of(path):
    """The keys and positions of a path."""
    return [int(at) if at else key for key, at in re.findall(r"(\w+)|\[(\d+)\]", path)]


def put(facts, path, value):
    """Sets the value at a path."""
    *outer, last = steps_of(path)
    for step in outer:
        facts = facts[step]
    if isinstance(facts, list) and last == len(facts):
        facts.append(value)
    else:
        facts[last] = value


def drop(facts, path):
    """Takes out what stands at a path."""
    *outer, last = steps_of(path)
    for step in outer:
        facts = facts[step]
    del facts[last]


def filled(value):
    """A value in which each list of arguments that is too long is written out."""
    if value == "2^20+1 ARG":
        return [["t", 0]] * (2 ** 20 + 1)
    return [filled(part) for part in value] if isinstance(value, list) else value


def nested_in(facts, key, kind):
    """Makes body 0 256 levels of a kind, in a `let` where it is a pattern. The innermost leaf is number 0 of its list."""
    leaves = {"exprs": ["lit", ["bool", True]], "pats": "wild"}
    nodes = {"exprs": [], "pats": []}

    def leaf(of):
        nodes[of].append(leaves[of])
        return len(nodes[of]) - 1

    def level(value, inner):
        if isinstance(value, list):
            return [level(part, inner) for part in value]
        if value == "in":
            return inner
        return leaf({"leaf": "exprs", "wild": "pats"}[value]) if value in ("leaf", "wild") else value

    inner = leaf(key)
    for _ in range(256 if key == "exprs" else 255):
        nodes[key].append(level(kind, inner))
        inner = len(nodes[key]) - 1
    if key == "pats":
        nodes["exprs"].append(["block", None, [["let", inner, None, None, None]], None])
        inner = len(nodes["exprs"]) - 1
    facts["bodies"][0].update(nodes, root=inner, bindings=[])


class Case:
    """A case: the words, the text, the status and the sentence; `at` is the line that it begins at."""

    def __init__(self, at):
        self.at, self.words, self.text, self.facts = at, ["table", "fn", "0"], b"", None
        self.status, self.sentence, self.fails, self.fills = None, None, None, {}

    def of_lines(self, lines):
        """The cases of these lines, each a number, a word and what follows it; one that has values below it is a case for each."""
        cases = [self]
        for at, word, rest, below in lines:
            if below:
                cases = [copy.deepcopy(case).at_value(word, rest, *value) for case in cases for value in below]
            else:
                for case in cases:
                    case.read(word, rest)
        return cases

    def at_value(self, word, rest, at, line):
        """The case in which a value stands at a path or is nested; `{}` is what stands behind it on its line."""
        value, end = json.JSONDecoder().raw_decode(line)
        self.at, self.fills = at, {"{}": line[end:].strip(), "{value}": json.dumps(value, separators=(",", ":"))}
        if word == "nest":
            nested_in(self.facts, rest, value)
        else:
            put(self.facts, rest, filled(value))
        return self

    def read(self, word, rest):
        if word == "words":
            self.words = rest.split()
        elif word == "of":
            self.facts = json.load(open(os.path.join(program.TOP, "examples", rest + ".json"), encoding="utf-8"))
        elif word == "text":
            self.text = json.loads(rest).encode()
        elif word == "bytes":
            self.text = bytes.fromhex(rest)
        elif word == "made":
            self.text = MADE[rest]().encode()
        elif word == "set":
            path, _, value = rest.partition(" ")
            put(self.facts, path, filled(json.loads(value)))
        elif word == "drop":
            drop(self.facts, rest)
        elif word == "fails":
            self.fails = rest
        elif word == "says":
            status, _, self.sentence = rest.partition(" ")
            self.status = int(status)
            for hole, text in self.fills.items():
                self.sentence = self.sentence.replace(hole, text)
        else:
            sys.exit("%s:%d: no line begins with %s" % (CASES, self.at, word))

    def input(self):
        return self.text if self.facts is None else json.dumps(self.facts, separators=(",", ":")).encode()


def read_cases():
    """The cases of the file."""
    cases, lines = [], []
    for at, line in enumerate([*open(CASES, encoding="utf-8"), "\n"], 1):
        line = line.rstrip("\n")
        if line.startswith("    "):
            lines[-1][-1].append((at, line.strip()))
        elif line and not line.startswith("#"):
            word, _, rest = line.partition(" ")
            lines.append((at, word, rest, []))
        elif not line and lines:
            cases += Case(lines[0][0]).of_lines(lines)
            lines = []
    return cases


def answer(path, case):
    """The status, what was written, and what was said. A folder can't be read, and on /dev/full nothing can be written."""
    ends = {"input": case.input(), "stdout": subprocess.PIPE}
    with open("/dev/full", "wb") as full:
        if case.fails == "output":
            ends["stdout"] = full
        elif case.fails == "input":
            del ends["input"]
            ends["stdin"] = os.open(program.TOP, os.O_RDONLY)
        try:
            done = subprocess.run([path] + case.words, stderr=subprocess.PIPE, timeout=SECONDS, **ends)
        except subprocess.TimeoutExpired:
            return -1, "", "nothing in %d seconds" % SECONDS
        finally:
            if "stdin" in ends:
                os.close(ends["stdin"])
    return done.returncode, (done.stdout or b"").decode(), done.stderr.decode()


def answers_of_try(cases):
    """The same by a build without proof, of which one run has all cases."""
    with tempfile.TemporaryDirectory() as folder:
        for at, case in enumerate(cases):
            with open(os.path.join(folder, "%04d" % at), "wb") as out:
                out.write(case.input())
            with open(os.path.join(folder, "%04d.args" % at), "w", encoding="utf-8") as out:
                out.writelines(word + "\n" for word in case.words)
        done = subprocess.run(["rt", "try", "--cases", folder], capture_output=True, text=True, cwd=program.FOLDER)
    said = re.findall(r"(.*?)^case=(\d+) run=\S+(?: status=(\d+))?.*?\n", done.stderr, re.MULTILINE | re.DOTALL)
    outputs = dict(re.findall(r"^== (\d+)\n(.*?)(?=^== \d+\n|\Z)", done.stdout, re.MULTILINE | re.DOTALL))
    if len(said) != len(cases):
        sys.exit("`rt try` gives no answer:\n%s" % done.stderr)
    return [(int(status or -1), outputs.get(name, ""), errors) for errors, name, status in said]


def main():
    parser = argparse.ArgumentParser(description=__doc__, formatter_class=argparse.RawDescriptionHelpFormatter)
    program.add_program_options(parser)
    parser.add_argument("--print", action="store_true", help="write what the program says, and compare nothing")
    options = parser.parse_args()
    cases = read_cases()
    path = options.program or (program.Program(unproved=True).path if options.unproved else program.PROGRAM)
    if path is None:
        cases = [case for case in cases if not case.fails]
        answers = answers_of_try(cases)
    else:
        if not os.path.exists(path):
            sys.exit("there is no program at %s: build it (README), name one with --program, or give --unproved" % path)
        with ThreadPoolExecutor(2) as pool:
            answers = list(pool.map(lambda case: answer(path, case), cases))
    wrong = 0
    for case, (status, output, errors) in zip(cases, answers):
        if options.print:
            print("%s:%d: %d %s" % (os.path.basename(CASES), case.at, status, errors.strip() or output.strip()))
        elif (status, output, errors) != (case.status, "", "infer_tool: %s\n" % case.sentence):
            wrong += 1
            print("%s:%d: wanted %d, %s\n    and got %d, %s%s" % (
                os.path.basename(CASES), case.at, case.status, case.sentence, status, output, errors.strip()))
    print("%d sentences, %d wrong" % (len(cases), wrong))
    sys.exit(1 if wrong else 0)


if __name__ == "__main__":
    main()

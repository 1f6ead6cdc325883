#!/usr/bin/env python3
"""Writes the table of crates in docs/FIGURES.md: lines, imports, ways down the list of crates, and minutes of the gate.

Usage: tools/figures.py [LOG]
LOG is what `rt ci` printed, each line after its time, as `rt ci | while read -r line; do echo "$(date +%T) $line"; done` writes it. A crate's
minutes go from when the last crate that it lists was proved until it was. Without a log the minutes stay that the table has.
"""
import os
import re
import sys

import crate_list

TOP = os.path.dirname(os.path.dirname(os.path.abspath(__file__)))
FIGURES = os.path.join(TOP, "docs", "FIGURES.md")
BEGIN, END = "<!-- crates: tools/figures.py -->\n", "<!-- end of crates -->\n"
HEAD = "| Crate | Source | Definitions | Proofs | Imports | Ways | Minutes |\n| --- | --- | --- | --- | --- | --- | --- |\n"
IMPORT = re.compile(r"\s*(?:pub |unfoldable |ghost )*use \S")
PROVED = re.compile(r"(\d\d):(\d\d):(\d\d) .*?\b(\w+) proved$")


def lines_of(crate, part, ending):
    """The lines of a part of a crate, and how many of these are imports."""
    count = imports = 0
    for at, _, files in os.walk(os.path.join(TOP, "crates", crate, part)):
        for name in files:
            if name.endswith(ending):
                with open(os.path.join(at, name), encoding="utf-8") as it:
                    lines = it.readlines()
                count += len(lines)
                imports += sum(bool(IMPORT.match(line)) for line in lines)
    return count, imports


def minutes_in(log, crates):
    """The minutes of each crate that the log says was proved."""
    at, first = {}, None
    with open(log, encoding="utf-8") as it:
        for line in it:
            time = re.match(r"(\d\d):(\d\d):(\d\d) ", line)
            if time:
                hours, minutes, seconds = map(int, time.groups())
                now = hours * 60 + minutes + seconds / 60
                first = now if first is None else first
                found = PROVED.match(line.rstrip("\n"))
                if found and found.group(4) in crates:
                    at.setdefault(found.group(4), now + (1440 if now < first else 0))
    begun = {crate: max([at[it] for it in below if it in at], default=first) for crate, below in crates.items()}
    return {crate: f"{at[crate] - begun[crate]:.1f}" for crate in crates if crate in at}


def minutes_before(text):
    """The minutes that the table has."""
    rows = [row.strip("| \n").split(" | ") for row in text.splitlines() if row.startswith("| `")]
    return {row[0].strip("`"): row[6] for row in rows if len(row) == 7}


def table(crates, minutes):
    """The table's rows, and a last one of sums."""
    ways, rows, sums = crate_list.ways(crates), [], [0] * 4
    for crate in crates:
        parts = [lines_of(crate, "src", ".rt"), lines_of(crate, "specs", ".antt"), lines_of(crate, "proofs", ".antt")]
        counts = [count for count, _ in parts] + [sum(imports for _, imports in parts)]
        sums = [a + b for a, b in zip(sums, counts)]
        rows.append(f"| `{crate}` | " + " | ".join(f"{it:,}" for it in counts) + f" | {ways[crate]:,} | {minutes.get(crate, '-')} |\n")
    return HEAD + "".join(rows) + "| all | " + " | ".join(f"{it:,}" for it in sums) + " | | |\n"


def main():
    if len(sys.argv) > 2 or sys.argv[1:2] in (["-h"], ["--help"]):
        sys.exit(__doc__)
    crates = crate_list.listed()
    with open(FIGURES, encoding="utf-8") as it:
        text = it.read()
    if text.count(BEGIN) != 1 or text.count(END) != 1:
        sys.exit(f"{FIGURES} has no place for the table: a line {BEGIN.strip()} and a line {END.strip()}")
    before, _, rest = text.partition(BEGIN)
    old, _, after = rest.partition(END)
    minutes = minutes_in(sys.argv[1], crates) if sys.argv[1:] else minutes_before(old)
    with open(FIGURES, "w", encoding="utf-8") as it:
        it.write(before + BEGIN + table(crates, minutes) + END + after)


if __name__ == "__main__":
    main()

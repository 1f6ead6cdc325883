#!/usr/bin/env python3
"""Shows what crates.txt costs the gate: for each crate the ways down the list from it, and the crates listed that it does not name.

Where a library is built, `rt` sums up all that it is made of, twice, by a walk that comes to a crate once for each way down to it: some seven
milliseconds each. Where every crate lists all those below it, the ways double with each layer. So a crate lists those alone that its code
names; definitions and proofs reach names of crates further down through these (`specs/Words.antt`, `proofs/Words.antt`).

--check: prints nothing but what is wrong, and ends with status 1 if a crate lists one that it does not name, or there are too many ways.
"""
import os
import re
import sys

TOP = os.path.join(os.path.dirname(os.path.abspath(__file__)), "..")
MOST_WAYS = 6_500


def listed():
    """Returns the crates of crates.txt, each with those that it lists."""
    with open(f"{TOP}/crates.txt", encoding="utf-8") as it:
        rows = [line.partition("#")[0].partition(":") for line in it if line.partition("#")[0].strip()]
    return {name.split()[0]: below.split() for name, _, below in rows}


def text_of(crate):
    """Returns the whole source of the crate: code, definitions and proofs."""
    texts = []
    for part in ("src", "specs", "proofs"):
        for at, _, files in os.walk(f"{TOP}/crates/{crate}/{part}"):
            for name in files:
                with open(f"{at}/{name}", encoding="utf-8") as it:
                    texts.append(it.read())
    return "\n".join(texts)


def ways(crates):
    """Returns for each crate the number of ways down the list that begin there, the one that goes nowhere too."""
    found = {}

    def at(crate):
        if crate not in found:
            found[crate] = 1 + sum(at(it) for it in crates[crate] if it in crates)
        return found[crate]

    return {it: at(it) for it in crates}


def main():
    crates, is_check, wrong = listed(), sys.argv[1:] == ["--check"], []
    if sys.argv[1:] and not is_check:
        sys.exit(__doc__)
    counts = ways(crates)
    for crate, below in crates.items():
        text = text_of(crate)
        unnamed = [it for it in below if not re.search(rf"\b{it}(::|\.)", text)]
        if unnamed:
            wrong.append(f"crates.txt: {crate} lists {', '.join(unnamed)}, and names nothing of it")
        # No sum is asked for of a program.
        if counts[crate] > MOST_WAYS and os.path.isfile(f"{TOP}/crates/{crate}/src/lib.rt"):
            wrong.append(f"crates.txt: {counts[crate]} ways down from {crate}, and {MOST_WAYS} are the most: let it take names from fewer crates")
        if not is_check:
            print(f"{crate}: {counts[crate]} ways; lists {' '.join(below) or 'none'}")
    print("\n".join(wrong), end="\n" * bool(wrong))
    return bool(wrong)


if __name__ == "__main__":
    sys.exit(main())

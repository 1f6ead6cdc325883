#!/usr/bin/env python3
"""Processor time of an answer of `goal_bench MODE N`, and the peak memory of a run, for each mode at some N.

A run makes the impls once and asks its goal again and again for ENOUGH seconds, with nothing kept from one time to the next.
From the least time of some such runs that of a run which asks once is taken off, and what is left is divided. A peak is that
of a run which asks once, and at least that of the process that starts the program.
Usage: bench/goals.py
Build the program first: cd crates/goal_bench && rt run -- all 20
"""
import os
import subprocess
import sys

TOP = os.path.dirname(os.path.dirname(os.path.abspath(__file__)))
PROGRAM = os.path.join(TOP, "crates", "goal_bench", "out", "goal_bench")
ANSWERS = {"impls": "yes", "chain": "yes", "endless": "undecided"}
SIZES = {"impls": (10, 100, 1000, 10000), "chain": (2, 4, 8, 16, 32, 64), "endless": (2, 4, 8, 16, 32, 64)}
RUNS = 5
ENOUGH = 0.3  # seconds
MOST = 1 << 30  # times
LONGEST = 600  # seconds

# Run by a small process of its own, since a child's peak counts the memory of the process that it is forked from.
RUN = """
import os, subprocess, sys
child = subprocess.Popen(sys.argv[1:])
_, status, used = os.wait4(child.pid, 0)
print(used.ru_utime + used.ru_stime, used.ru_maxrss / 1024, os.waitstatus_to_exitcode(status), file=sys.stderr)
child.returncode = 0
"""


def run(mode, size, times):
    """Processor seconds and peak memory in MiB of one run; ends the script where that does not end well."""
    done = subprocess.run([sys.executable, "-c", RUN, PROGRAM, mode, str(size), str(times)], capture_output=True,
                          text=True, check=True, timeout=LONGEST)
    said = done.stderr.splitlines()
    seconds, peak, status = said[-1].split()
    if int(status) != 0 or done.stdout.splitlines() != [ANSWERS[mode]]:
        sys.exit("%s %d %d: status %s: %s" % (mode, size, times, status, " ".join([done.stdout.strip()] + said[:-1])))
    return float(seconds), float(peak)


def best(mode, size, times):
    """The least seconds and the most memory of some runs."""
    runs = [run(mode, size, times) for _ in range(RUNS)]
    return min(seconds for seconds, _ in runs), max(peak for _, peak in runs)


def times_for(mode, size, once):
    """How often to ask, so that the answers take ENOUGH seconds."""
    times = 4
    while times < MOST and run(mode, size, times)[0] - once < ENOUGH:
        times *= 2
    return times


def measure(mode, size):
    """Prints the figures of a mode at a size."""
    once, peak = best(mode, size, 1)
    times = times_for(mode, size, once)
    seconds, _ = best(mode, size, times)
    each = max(seconds - once, 0) / (times - 1)
    print("%-8s N %6d  asked once: seconds %6.3f  peak MiB %6.1f  an answer: us %12.2f (%d more)"
          % (mode, size, once, peak, 1e6 * each, times - 1), flush=True)


def main():
    if "--help" in sys.argv[1:]:
        print(__doc__.strip())
        return
    if not os.path.exists(PROGRAM):
        sys.exit("build the program first (see this script's head)")
    for mode, sizes in SIZES.items():
        for size in sizes:
            measure(mode, size)


if __name__ == "__main__":
    main()

#!/usr/bin/env python3
"""Processor time and peak memory of `table_bench MODE N`, for each mode, at N, 4N and 16N.

The time is the least of some runs. From that of a step, the time of a run with one step is taken off; it stays flat
where at 4N and 16N it is at most 1.5 times that at N. A peak is at least that of the process that starts the program.
Usage: bench/table.py [N]       (10000 where none is given)
Build the program first: cd crates/table_bench && rt run -- all 20
"""
import os
import subprocess
import sys

TOP = os.path.dirname(os.path.dirname(os.path.abspath(__file__)))
PROGRAM = os.path.join(TOP, "crates", "table_bench", "out", "table_bench")
MODES = ("chain", "pairs", "snapshots", "rollbacks", "takes")
FEWEST, MOST = 3, 12  # runs of each size; as many as fit into ENOUGH
ENOUGH = 1  # seconds
FLAT = 1.5
LONGEST = 600  # seconds

# Run by a small process of its own, since a child's peak counts the memory of the process that it is forked from.
RUN = """
import os, subprocess, sys
child = subprocess.Popen(sys.argv[1:])
_, status, used = os.wait4(child.pid, 0)
print(used.ru_utime + used.ru_stime, used.ru_maxrss / 1024, os.waitstatus_to_exitcode(status), file=sys.stderr)
child.returncode = 0
"""


def run(mode, count):
    """Processor seconds and peak memory in MiB of one run; ends the script where that does not end well."""
    done = subprocess.run([sys.executable, "-c", RUN, PROGRAM, mode, str(count)], capture_output=True, text=True,
                          check=True, timeout=LONGEST)
    said = done.stderr.splitlines()
    seconds, peak, status = said[-1].split()
    wanted = "%s %d: %d steps, %d right" % (mode, count, count, count)
    if int(status) != 0 or done.stdout.splitlines() != [wanted]:
        sys.exit("%s %d: status %s: %s" % (mode, count, status, " ".join([done.stdout.strip()] + said[:-1])))
    return float(seconds), float(peak)


def best(mode, count):
    """The least seconds and the most memory of some runs, the more the shorter they are."""
    runs = []
    while len(runs) < MOST and (len(runs) < FEWEST or sum(seconds for seconds, _ in runs) < ENOUGH):
        runs.append(run(mode, count))
    return min(seconds for seconds, _ in runs), max(peak for _, peak in runs)


def measure(mode, first):
    """Prints the figures of a mode, and answers whether the time of a step stays flat."""
    start, _ = best(mode, 1)
    steps = []
    for count in (first, 4 * first, 16 * first):
        seconds, peak = best(mode, count)
        steps.append(max(seconds - start, 1e-9) / count)
        print("%-9s N %8d  seconds %8.3f  peak MiB %7.1f  a step %8.3f us (%.2f times)"
              % (mode, count, seconds, peak, 1e6 * steps[-1], steps[-1] / steps[0]), flush=True)
    flat = max(steps) <= FLAT * steps[0]
    print("%-9s %s" % (mode, "flat" if flat else "NOT FLAT"), flush=True)
    return flat


def main():
    if "--help" in sys.argv[1:]:
        print(__doc__.strip())
        return
    first = int(sys.argv[1]) if len(sys.argv) > 1 else 10000
    if not os.path.exists(PROGRAM):
        sys.exit("build the program first (see this script's head)")
    flat = [mode for mode in MODES if measure(mode, first)]
    print("flat within %.1f times: %s" % (FLAT, ", ".join(flat) or "none"))
    sys.exit(0 if len(flat) == len(MODES) else 1)


if __name__ == "__main__":
    main()

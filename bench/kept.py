#!/usr/bin/env python3
"""Times a second pass over a dataset that the first one cached, beside one that computes it again.

    bench/kept.py [--rows N] [--reps N] [--workers N] [--heap BYTES ...]

Two passes go over a dataset that a filter makes of the input, the second of them through another filter. The
second pass is what the job takes beyond the first query alone. It is measured with the dataset kept in memory,
kept on disk, and not kept; in a heap that is given, the least processor and wall clock seconds of --reps runs
in turn. The tables of all have to agree. The input is by the generator of jobs.py, made once under --dir.
"""

import argparse
import os
import sys

from jobs import PROGRAM, make_input, prepare, run_once

DATASET = "let pos = input where price >= 0 and not key = 'k7'{keep}; let low = pos where price < 100; "
FIRST = "group key: count from pos"
SECOND = "; group key: count, sum price from low"
LEVELS = {"memory": " keep memory", "disk": " keep disk", "not kept": ""}


def least(command, path, folder, output, before):
    """The least wall clock and processor seconds of a command so far, and what it printed."""
    wall, cpu, _ = run_once(command, path, folder, output)
    with open(output, "rb") as printed:
        text = printed.read()
    if before:
        wall, cpu = min(wall, before[0]), min(cpu, before[1])
    return wall, cpu, text


def main():
    arguments = argparse.ArgumentParser(description=__doc__, formatter_class=argparse.RawDescriptionHelpFormatter)
    arguments.add_argument("--rows", type=int, default=10**6)
    arguments.add_argument("--reps", type=int, default=3)
    arguments.add_argument("--workers", type=int, default=1)
    arguments.add_argument("--heap", type=int, nargs="+", default=[2**32, 2**26])
    arguments.add_argument("--dir", default="/tmp/luvenashil-bench")
    given = arguments.parse_args()
    folder = prepare(given.dir)
    path = os.path.join(given.dir, f"keys_{given.rows}.csv")
    if not os.path.exists(path):
        make_input(path, "keys", given.rows)
    output = os.path.join(given.dir, "output")
    for heap in given.heap:
        best = {}
        for _ in range(given.reps):
            for level, keep in LEVELS.items():
                for queries in (FIRST, FIRST + SECOND):
                    words = [f"--workers={given.workers}", "--reserved=0", "--fraction=1000", f"--heap={heap}"]
                    command = [PROGRAM, "run", *words, DATASET.format(keep=keep) + queries]
                    at = (level, queries)
                    best[at] = least(command, path, folder, output, best.get(at))
        print(f"{given.rows} rows, heap {heap}, {given.workers} workers: seconds of the second pass")
        plain = None
        for level in reversed(LEVELS):
            one, two = best[level, FIRST], best[level, FIRST + SECOND]
            if two[2] != best["not kept", FIRST + SECOND][2]:
                sys.exit("the tables differ")
            wall, cpu = two[0] - one[0], two[1] - one[1]
            plain = plain or cpu
            print(f"{level:<10} wall {wall:6.2f}  processor {cpu:6.2f}  {cpu / plain:5.2f} of computing it again")
    return 0


if __name__ == "__main__":
    sys.exit(main())

#!/usr/bin/env python3
"""Times a trial beside a run of its job over a file with the same rows.

    bench/trial.py [--rows N] [--reps N] [--workers N ...] [--heap BYTES]

Both go through the program that was built. For each number of workers the least wall clock and processor seconds
of --reps runs in turn are printed, and what the trial takes of the run. The lines of all trials have to be the same.
"""

import argparse
import os
import sys

from jobs import PROGRAM, prepare
from kept import least

JOB = (
    "let pos = input where price >= 0 keep disk; let high = pos where price >= 500; "
    "group key: count, sum price from pos; order number price down: key, price from pos; "
    "group key: min price, max price from high; group key: count"
)


def make_rows(path, rows):
    """The rows of a trial, by its generator."""
    number = 1
    with open(path, "w", encoding="ascii") as made:
        made.write("key,price\n")
        for _ in range(rows):
            number = (number * 6364136223846793005 + 1442695040888963407) % 2**64
            made.write(f"k{(number >> 33) % 1000},{(number >> 40) % 2001 - 1000}\n")


def main():
    arguments = argparse.ArgumentParser(description=__doc__, formatter_class=argparse.RawDescriptionHelpFormatter)
    arguments.add_argument("--rows", type=int, default=10**6)
    arguments.add_argument("--reps", type=int, default=3)
    arguments.add_argument("--workers", type=int, nargs="+", default=[1, 4])
    arguments.add_argument("--heap", type=int, default=2**30)
    arguments.add_argument("--dir", default="/tmp/luvenashil-bench")
    given = arguments.parse_args()
    folder = prepare(given.dir)
    path = os.path.join(given.dir, f"trial_{given.rows}.csv")
    if not os.path.exists(path):
        make_rows(path, given.rows)
    output = os.path.join(given.dir, "output")
    lines = None
    for workers in given.workers:
        options = [f"--workers={workers}", "--reserved=0", "--fraction=1000", f"--heap={given.heap}"]
        commands = {"run": [PROGRAM, "run", *options, JOB], "trial": [PROGRAM, "trial", *options, str(given.rows)]}
        best = {}
        for _ in range(given.reps):
            for word, command in commands.items():
                best[word] = least(command, path, folder, output, best.get(word))
        lines = lines or best["trial"][2]
        if best["trial"][2] != lines:
            sys.exit("the lines differ")
        for word, (wall, cpu, _) in best.items():
            print(f"{workers} workers  {word:<6} wall {wall:6.2f}  processor {cpu:6.2f}  {cpu / best['run'][1]:5.2f} of run")
    return 0


if __name__ == "__main__":
    sys.exit(main())

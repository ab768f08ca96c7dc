#!/usr/bin/env python3
"""Times the audit of a journal of a million entries, with few blocks in memory and with 1,000.

Run it at the top of the repository, after `rt run` in crates/rates has built the program. The journals are made by
tools/audit_model.py: a task that asks and gives back, and with blocks a pin and its unpin between two asks; blocks of which
each admission evicts one; blocks of which each ask evicts one; blocks whose dataset is refused more of them; blocks whose
dataset stays, where each further one of it evicts a block of another; blocks that are too few for a further one since a pin
keeps the largest; blocks of two datasets of which one is removed and comes again; blocks that go to copies and are read back;
and blocks that an ask evicts all but one. Each round audits all of them, one right after another, so that other work on the
machine meets them alike.
"""
import os
import subprocess
import sys
import tempfile
import time

sys.path.insert(0, "tools")
from audit_model import asking, copying, emptying, keeping, many, pinned, refusing, removing, turning

PROGRAM = [os.path.abspath("crates/rates/out/rates"), "audit"]
ENTRIES = int(sys.argv[1]) if len(sys.argv) > 1 else 1_000_000
ROUNDS = 3
JOURNALS = [
    ("no block", many, 0),
    ("10 blocks", many, 10),
    ("1,000 blocks", many, 1000),
    ("10 blocks, an admission evicts", turning, 10),
    ("1,000 blocks, an admission evicts", turning, 1000),
    ("10 blocks, an ask evicts", asking, 10),
    ("1,000 blocks, an ask evicts", asking, 1000),
    ("10 blocks, and refusals", refusing, 10),
    ("1,000 blocks, and refusals", refusing, 1000),
    ("10 blocks that stay", keeping, 10),
    ("1,000 blocks that stay", keeping, 1000),
    ("10 blocks, a pin refuses", pinned, 10),
    ("1,000 blocks, a pin refuses", pinned, 1000),
    ("10 blocks, one removed", removing, 10),
    ("1,000 blocks, one removed", removing, 1000),
    ("10 blocks, copies read back", copying, 10),
    ("1,000 blocks, copies read back", copying, 1000),
    ("10 blocks, an ask evicts all", emptying, 10),
    ("1,000 blocks, an ask evicts all", emptying, 1000),
]


def audited(path):
    """The seconds of an audit of a file, and its answer."""
    with open(path, encoding="utf-8") as given:
        start = time.perf_counter()
        done = subprocess.run(PROGRAM, stdin=given, stdout=subprocess.PIPE, check=False)
        return time.perf_counter() - start, done.stdout.decode().strip()


def main():
    with tempfile.TemporaryDirectory() as folder:
        paths = [os.path.join(folder, f"{number}.csv") for number in range(len(JOURNALS))]
        for path, (_, made, blocks) in zip(paths, JOURNALS):
            with open(path, "w", encoding="utf-8") as file:
                file.write(made(ENTRIES, blocks))
        rounds = [[audited(path) for path in paths] for _ in range(ROUNDS)]
    for number, (name, _, _) in enumerate(JOURNALS):
        took, answer = min(each[number] for each in rounds)
        entries = int(answer.split()[1])
        print(f"{name:33} {entries:8} entries  {took:6.2f} s  {entries / took / 1e6:5.2f} million/s  {answer}")
    print(f"load {os.getloadavg()[0]:.1f}")


if __name__ == "__main__":
    main()

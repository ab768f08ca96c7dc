"""Long journals, audited by the built program and by tools/audit_model.py, which share nothing. Run it at the top of the
repository, after `rt run` in crates/rates has built the program.

    python3 tools/audit_sweep.py                 that program, crates/rates/out/rates audit
    python3 tools/audit_sweep.py PROGRAM WORD..  another one, as ./luvenashil audit
        --entries N  how long a drawn journal is at least: 100000
        --tries N    how many entries of each kind are changed in each journal, one number of one entry at a time: 4
        --cuts N     how many lines the journal has that is cut, before each line and behind each of its bytes: 240

The journals are drawn over the model of tools/pool_model.py: few blocks and many, 1 to 16 workers, and pools that grow. Each is a
text of the second version, and once more one of the first, in which a growth is no line. The journal that is cut is of the second
version and, without growths, of the first. The status is 0 where the program tells of each text what the model tells.
"""
import argparse
import collections
import copy
import os
import random
import subprocess
import sys
import time

sys.path.insert(0, "tools")
from audit_model import FORMS, Pool, VERSIONS, changed, entry, head, history, verdict

# The seed, the workers, and how many datasets and parts blocks are of.
JOURNALS = [(11, 1, 3, 3), (12, 2, 3, 3), (13, 4, 4, 10), (14, 16, 6, 20)]
GROWTHS = 12


class Audits:
    """The program beside the model: how many answers are alike, by their words, and the first that aren't."""

    def __init__(self, program):
        self.program, self.alike, self.apart = program, collections.Counter(), []

    def compare(self, name, text, wanted):
        done = subprocess.run(self.program, input=text.encode(), stdout=subprocess.PIPE, stderr=subprocess.PIPE, check=False)
        told = done.stdout.decode()
        if told == wanted + "\n":
            self.alike[" ".join(word for word in wanted.split() if not word.isdigit())] += 1
        else:
            self.apart.append(f"{name}: {told!r} with status {done.returncode}, and not {wanted!r}")


def answer(pool, entries, number):
    """What the model tells of entries from this number on, where the pool is as it is before them."""
    for at, event in enumerate(entries, number):
        rule = pool.broken(event)
        if rule:
            return f"no {at} {rule}"
        pool.add(event)
    last = number + len(entries) - 1
    return f"no {last + 1} pending" if pool.gone else f"yes {last}"


def firsts(setup):
    """The first line of each version."""
    return [",".join([version, *map(str, setup)]) for version in VERSIONS]


def long_journal(audits, seed, workers, datasets, parts, wanted, tries):
    setup, lines = history(seed, workers, wanted, datasets, parts, wanted, GROWTHS)
    older, first = firsts(setup)
    name = f"seed {seed}"
    audits.compare(name, "\n".join([first, *lines, ""]), f"yes {len(lines)}")
    grown = next(at for at, line in enumerate(lines) if line.startswith("grow,"))
    audits.compare(f"{name}, first version", "\n".join([older, *lines, ""]), f"bad line {grown + 2}")
    draw = random.Random(seed)
    places = collections.defaultdict(list)
    for at, line in enumerate(lines):
        places[line.split(",")[0]].append(at)
    assert set(places) == set(FORMS), f"{name} has no {set(FORMS) - set(places)}"
    chosen = sorted(draw.choice(places[kind]) for kind in FORMS for _ in range(tries))
    events = [entry(line) for line in lines]
    pool, reached = Pool(*head(first)), 0
    for at in chosen:
        for event in events[reached:at]:
            assert pool.broken(event) is None, f"{name}: the models differ at entry {reached + 1}"
            pool.add(event)
        reached = at
        other = changed(draw, lines[at])
        told = answer(copy.deepcopy(pool), [entry(other), *events[at + 1:]], at + 1)
        audits.compare(f"{name}, entry {at + 1}: {other}", "\n".join([first, *lines[:at], other, *lines[at + 1:], ""]), told)
    return len(lines)


def cuts(audits, count):
    """Each front of a legal text, which ends behind a byte of one of its lines: one of the second version, and the same without
    its growths as one of the first."""
    for growths, version in (0, 0), (GROWTHS, 1):
        setup, lines = history(21, 2, count, 3, 3, count, growths)
        text = "\n".join([firsts(setup)[version], *lines[:count], ""])
        for end in range(len(text) + 1):
            audits.compare(f"{VERSIONS[version]}, the first {end} bytes", text[:end], verdict(text[:end]))


def main():
    words = argparse.ArgumentParser(description=__doc__, formatter_class=argparse.RawDescriptionHelpFormatter)
    words.add_argument("program", nargs="*", default=[os.path.abspath("crates/rates/out/rates"), "audit"])
    words.add_argument("--entries", type=int, default=100_000)
    words.add_argument("--tries", type=int, default=4)
    words.add_argument("--cuts", type=int, default=240)
    asked = words.parse_args()
    audits = Audits(asked.program)
    for seed, workers, datasets, parts in JOURNALS:
        start = time.perf_counter()
        count = long_journal(audits, seed, workers, datasets, parts, asked.entries, asked.tries)
        print(f"seed {seed}, {workers} workers: {count} entries, {2 + asked.tries * len(FORMS)} texts, {time.perf_counter() - start:.0f} s")
    start = time.perf_counter()
    before = sum(audits.alike.values())
    cuts(audits, asked.cuts)
    print(f"cuts: {sum(audits.alike.values()) - before} texts, {time.perf_counter() - start:.0f} s")
    print("answers: " + ", ".join(f"{words} {number}" for words, number in sorted(audits.alike.items())))
    for line in audits.apart[:10]:
        print(line)
    print("audit_sweep: all as the model answers" if not audits.apart else f"audit_sweep: {len(audits.apart)} wrong")
    return 1 if audits.apart else 0


if __name__ == "__main__":
    sys.exit(main())

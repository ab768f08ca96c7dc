#!/usr/bin/env python3
"""Says what the gate costs, crate by crate, and measures it. Run it at the top of the repository.

    python3 tools/gate.py                     adds up tools/gate.csv beside the limit, and says which crates cost most, which
                                              pass what a new crate may cost, and which have no row
    python3 tools/gate.py measure [CRATE ..]  measures these crates, or all, and writes their rows
    python3 tools/gate.py run                 runs `rt ci` as it is, says what the whole run took, and writes each crate's row

A row is a crate's name and processor seconds, of users and of the system: `proof` is its proof from nothing, `tests` the check
of its tests over what the proof kept, `edits` that of its must-fail edits without the proof that they begin with, and `count`
how many edits there are. `source` says whether a run or `measure` saw them, or some of them are an estimate. The gate proves a
crate with tests a second time from nothing, and one with edits again: the sum has these proofs too. It hasn't what the gate
takes to link and to run programs and tests.

`run` looks at the prover's processes each second; a proof has up to four there while processors are idle. `measure` works with
one job in a copy in a temporary folder, over the libraries that are built here, and builds there what is missing. Beside other
work a crate costs up to a third more. The status is 0, or 1 where a row or a crate is missing, the sum passes the limit, or
something wasn't proved.
"""
import csv
import os
import re
import shutil
import signal
import subprocess
import sys
import tempfile
import threading
import time

TABLE = 'tools/gate.csv'
COLUMNS = ('crate', 'proof', 'tests', 'edits', 'count', 'source')
NUMBERS = COLUMNS[1:-1]
# Processor minutes of the whole gate.
LIMIT = 118
# Processor minutes of a new crate: its proof (3 where it joins others), its tests, all of it, and all of one with edits.
NEW_PROOF, NEW_TESTS, NEW_WHOLE, NEW_WITH_EDITS = 3, 0.7, 2.2, 5
NEW_COUNT = 4


def crates():
    """Each crate of crates.txt with the crates that it uses, in that order."""
    found = {}
    with open('crates.txt', encoding='utf-8') as file:
        for line in file:
            name, colon, uses = line.partition('#')[0].partition(':')
            if colon:
                found[name.split()[0]] = uses.split()
    return {name: [it for it in uses if it in found] for name, uses in found.items()}


def below(name, uses):
    """The crates that a crate stands on, each after those that it uses."""
    found = []
    for used in uses[name]:
        found += [it for it in [*below(used, uses), used] if it not in found]
    return found


def read_rows():
    if not os.path.isfile(TABLE):
        return {}
    with open(TABLE, encoding='utf-8', newline='') as file:
        return {row['crate']: {**row, **{it: int(row[it]) for it in NUMBERS}} for row in csv.DictReader(file)}


def write_rows(rows, names):
    with open(TABLE, 'w', encoding='utf-8', newline='') as file:
        table = csv.writer(file, lineterminator='\n')
        table.writerow(COLUMNS)
        order = [*[it for it in names if it in rows], *sorted(it for it in rows if it not in names)]
        table.writerows([name, *[rows[name][it] for it in COLUMNS[1:]]] for name in order)


def parts(row):
    """What a crate costs the gate, in seconds: three proofs, its tests, its edits."""
    second = row['proof'] if row['tests'] else 0
    third = row['proof'] if row['count'] else 0
    return row['proof'], second, third, row['tests'], row['edits']


def minutes(seconds):
    return f'{seconds / 60:.1f}'


def told(name, row):
    """A crate with its minutes."""
    proof, second, third, tests, edits = map(minutes, parts(row))
    return f'  {name}: {minutes(sum(parts(row)))}, proofs {proof} + {second} + {third}, tests {tests}, {row["count"]} edits {edits}'


def passes(row):
    """Whether a crate costs more than a new one may."""
    most = NEW_WITH_EDITS if row['count'] else NEW_WHOLE
    return (row['proof'] > 60 * NEW_PROOF or row['tests'] > 60 * NEW_TESTS or row['count'] > NEW_COUNT
            or sum(parts(row)) > 60 * most)


def add_up():
    rows, names = read_rows(), crates()
    sums = [sum(column) for column in zip(*map(parts, rows.values()))]
    whole = sum(sums)
    words = ('proofs', 'second proofs, of crates with tests', 'third proofs, of crates with edits', 'tests', 'edits')
    print('Processor minutes:')
    for word, seconds in zip(words, sums):
        print(f'  {minutes(seconds):>6} {word}')
    print(f'  {minutes(whole):>6} of {LIMIT} that the gate may take')
    dearest = sorted(rows, key=lambda it: -sum(parts(rows[it])))
    print('The dearest:', *[told(it, rows[it]) for it in dearest[:5]], sep='\n')
    print('Beyond what a new crate may cost:', ', '.join(it for it in dearest if passes(rows[it])) or 'none')
    guessed = [it for it in dearest if rows[it]['source'] == 'estimate']
    if guessed:
        print('Estimated, and not measured:', ', '.join(guessed))
    lacking, extra = [it for it in names if it not in rows], [it for it in rows if it not in names]
    if lacking:
        print('Crates without a row:', ', '.join(lacking))
    if extra:
        print('Rows without a crate:', ', '.join(extra))
    return 1 if lacking or extra or whole > 60 * LIMIT else 0


def ended(ran):
    """Waits for a process, and returns its status and what it and all that it waited for used."""
    try:
        _, status, used = os.wait4(ran.pid, 0)
    except BaseException:
        ran.terminate()
        raise
    ran.returncode = os.waitstatus_to_exitcode(status)
    return ran.returncode, used


def timed(folder, *words):
    """Runs a command, and returns its status and its processor seconds."""
    with tempfile.TemporaryFile('w+', errors='replace') as said:
        status, used = ended(subprocess.Popen(words, cwd=folder, stdin=subprocess.DEVNULL, stdout=said, stderr=subprocess.STDOUT))
        if status:
            said.seek(0)
            print(*said.read().splitlines()[-8:], sep='\n')
    return status, used.ru_utime + used.ru_stime


def has_tests(folder):
    for at, _, files in os.walk(f'{folder}/src'):
        for name in files:
            with open(f'{at}/{name}', encoding='utf-8') as file:
                if re.search(r'^\s*#\[test\]', file.read(), re.M):
                    return True
    return False


def edits_of(folder):
    """How many edits the gate tries."""
    folder = f'{folder}/must-fail'
    return sum(it.endswith('.edit') for it in os.listdir(folder)) if os.path.isdir(folder) else 0


def measure_one(name, uses, top):
    """A crate's row, or None where it isn't proved."""
    folder = f'{top}/crates/{name}'
    for used in below(name, uses):
        if timed(f'{top}/crates/{used}', 'rt', 'lib', '--jobs', '1')[0]:
            return None
    shutil.rmtree(f'{folder}/out', ignore_errors=True)
    status, proof = timed(folder, 'rt', 'check', '--jobs', '1')
    tests = edits = 0
    count = edits_of(folder)
    if not status and has_tests(folder):
        status, tests = timed(folder, 'rt', 'check', '--test', '--jobs', '1')
    if not status and count:
        status, edits = timed(top, 'rt', 'must-fail', name)
        edits = max(edits - proof, 0)
    return None if status else dict(zip(COLUMNS[1:], (round(proof), round(tests), round(edits), count, 'measure')))


def measure(given):
    uses = crates()
    unknown = [it for it in given if it not in uses]
    if unknown:
        print('No crate of crates.txt:', ', '.join(unknown))
        return 1
    failed = []
    with tempfile.TemporaryDirectory(prefix='gate-') as room:
        top, names = f'{room}/copy', [it for it in uses if not given or it in given]
        shutil.copytree('.', top, ignore=shutil.ignore_patterns('.git', 'out', 'spill'))
        for used in {it for name in names for it in below(name, uses)}:
            for part in ('rlib', 'incremental'):
                if os.path.isdir(f'crates/{used}/out/{part}'):
                    shutil.copytree(f'crates/{used}/out/{part}', f'{top}/crates/{used}/out/{part}')
        for name in names:
            row = measure_one(name, uses, top)
            if row is None:
                failed.append(name)
                continue
            # Read again, since a run takes hours and the table may have changed.
            write_rows({**read_rows(), name: row}, uses)
            print(told(name, row), flush=True)
    if failed:
        print('Not measured, since a check failed:', ', '.join(failed))
    return 1 if failed else 0


def kind_of(pid):
    """The crate that a process proves, and what for, or None."""
    try:
        with open(f'/proc/{pid}/cmdline', encoding='utf-8', errors='replace') as file:
            words = file.read().split('\0')
        folder = os.path.basename(os.readlink(f'/proc/{pid}/cwd'))
    except OSError:
        return None
    if '--crate-name' not in words:
        return None
    kind = 'edits' if folder.startswith('rt-edit-') else 'tests' if '--test' in words else 'proof'
    return words[words.index('--crate-name') + 1], kind


class Watch:
    """What a process and all below it use, looked at each second."""

    def __init__(self, top):
        self.top, self.most, self.kinds, self.seconds = top, 0, {}, {}

    def look(self):
        parents, sizes = {}, {}
        for pid in map(int, filter(str.isdigit, os.listdir('/proc'))):
            try:
                with open(f'/proc/{pid}/stat', encoding='utf-8', errors='replace') as file:
                    fields = file.read().rpartition(')')[2].split()
            except OSError:
                continue
            parents[pid], sizes[pid] = int(fields[1]), int(fields[21]) * os.sysconf('SC_PAGE_SIZE')
            # A process that isn't one of the prover's yet may become it.
            if self.kinds.get(pid) is None:
                self.kinds[pid] = kind_of(pid)
            if self.kinds[pid]:
                self.seconds[pid] = (int(fields[11]) + int(fields[12])) / os.sysconf('SC_CLK_TCK')
        found, last = {self.top}, set()
        while found != last:
            last = found
            found = last | {it for it, parent in parents.items() if parent in last}
        self.seconds = {it: spent for it, spent in self.seconds.items() if it in found or it not in parents}
        self.most = max(self.most, sum(sizes.get(it, 0) for it in found))

    def rows(self):
        """A row for each crate that was seen."""
        sums = {}
        for pid, spent in self.seconds.items():
            crate, kind = self.kinds[pid]
            sums.setdefault(crate, dict.fromkeys(NUMBERS, 0))[kind] += spent
        for crate, row in sums.items():
            row['count'] = edits_of(f'crates/{crate}')
            row['tests'] = max(row['tests'] - row['proof'], 1) if row['tests'] else 0
            row['edits'] = max(row['edits'] - row['proof'], 1) if row['edits'] else 0
        return {crate: {**{it: round(value) for it, value in row.items()}, 'source': 'run'} for crate, row in sums.items()}


def run():
    start = time.monotonic()
    ran = subprocess.Popen(['rt', 'ci'], stdin=subprocess.DEVNULL)
    watch = Watch(ran.pid)

    def watch_it():
        while True:
            watch.look()
            time.sleep(1)

    threading.Thread(target=watch_it, daemon=True).start()
    status, used = ended(ran)
    print(f'rt ci took {minutes(time.monotonic() - start)} minutes and {minutes(used.ru_utime + used.ru_stime)} processor'
          f' minutes; the largest process had {used.ru_maxrss / 1e6:.1f} GB, all together up to {watch.most / 1e9:.1f} GB')
    if not status:
        write_rows(watch.rows(), crates())
    return status


def main(words):
    if not os.path.isfile('crates.txt'):
        print('crates.txt is not here: run this at the top of the repository')
        return 1
    if not words:
        return add_up()
    # So that what was started ends too.
    signal.signal(signal.SIGTERM, lambda *_: sys.exit(143))
    if words[0] == 'measure':
        return measure(words[1:])
    if words == ['run']:
        return run()
    print(__doc__)
    return 1


if __name__ == '__main__':
    sys.exit(main(sys.argv[1:]))

#!/usr/bin/env python3
"""Looks what the built program does with the folder `spill/` and with closed standard streams: in new working folders it makes
what a stranger may have put there, runs a command as a shell would, and compares the status, the text on standard error and what
is left. Run it at the top of the repository, after `./luvenashil build` or `rt ci`.

    python3 tools/check_folder.py            with the built program
    python3 tools/check_folder.py PROGRAM    with another one, as ./luvenashil

The status is 0 where all is as it has to be, else 1.
"""
import fcntl
import os
import subprocess
import sys
import tempfile

PROGRAM = 'crates/csv_program/out/csv_program'
ORDERS = 'examples/orders.csv'
RUN = "run 'group city: count'"
MADE = 'it has files and no lock, so no run made it'
# A folder as a run leaves it, with a file that a run may remove.
OURS = 'mkdir -p spill/post0; : > spill/lock; echo old > spill/post0/7;'
THEIRS = 'mkdir -p spill/store spill/post3; echo precious > spill/store/7; echo precious > spill/post3/2024;'
ELSE = 'mkdir elsewhere; echo precious > elsewhere/2024; echo precious > keep;'
KEPT = ['spill/store/7', 'spill/post3/2024']
AWAY = ['elsewhere/2024', 'keep']

# What is made, the words with what the shell does to streams, the status, the text on standard error (None: any), files that have
# to say `precious` still, and files that have to be empty or not there.
CASES = [
    (THEIRS, 'run --help', 2, None, KEPT, []),
    (THEIRS, 'run --heap x ' + RUN[4:], 2, None, KEPT, []),
    (THEIRS, 'trial 0', 2, None, KEPT, []),
    (THEIRS, "run 'group'", 3, None, KEPT, []),
    (THEIRS, 'run --heap 1 --reserved 2 ' + RUN[4:], 4, None, KEPT, []),
    (THEIRS, RUN, 16, f'spill: {MADE}', KEPT, []),
    (THEIRS, 'trial 10', 16, f'spill: {MADE}', KEPT, []),
    (OURS, 'run --help', 2, None, [], []),
    (OURS, RUN, 0, '', [], ['spill/post0/7', 'spill/lock']),
    ('mkdir spill;', RUN, 0, '', [], ['spill/lock']),
    ('', RUN, 0, '', [], ['spill/lock']),
    ('echo precious > spill;', RUN, 16, 'spill: not a directory', ['spill'], []),
    (ELSE + 'ln -s elsewhere spill;', RUN, 16, 'spill: is a link', AWAY, []),
    ('ln -s nowhere spill;', RUN, 16, 'spill: is a link', [], []),
    (ELSE + 'mkdir spill; : > spill/lock; ln -s ../elsewhere spill/post0;', RUN, 16, 'spill/post0: is a link', AWAY, []),
    (ELSE + 'mkdir spill; ln -s ../keep spill/lock;', RUN, 16, 'spill/lock: is a link', AWAY, []),
    (ELSE + 'mkdir spill; ln -s ../keep spill/lock;', RUN + ' >&-', 16, 'spill/lock: is a link', AWAY, []),
    (OURS + 'mkdir spill/post0/5;', RUN, 16, 'spill/post0/5: not a plain file', [], []),
    ('', RUN + ' >&-', 14, 'output failed', [], ['spill/lock']),
    ('', RUN + ' <&-', 13, 'input failed', [], ['spill/lock']),
    ('', RUN + ' <&- >&-', 13, 'input failed', [], ['spill/lock']),
    ('', RUN + ' >&- 2>&-', 14, '', [], ['spill/lock']),
    ('', "run 'group citi: count' 2>&-", 6, '', [], ['spill/lock']),
    ('', 'run --journal ' + RUN[4:] + ' <&- >&- 2>&-', 13, '', [], ['spill/lock', 'journal.csv']),
    ('', 'trial 10 >&-', 14, 'output failed', [], ['spill/lock']),
    ('', 'trial 10 <&-', 0, '', [], ['spill/lock']),
    ('', "plan 'group city: count' >&-", 14, 'output failed', [], ['spill/lock']),
    ('', "plan 'group city: count' <&-", 13, 'input failed', [], ['spill/lock']),
    ('', 'audit >&-', 14, 'output failed', [], []),
    ('', 'audit <&-', 13, 'input failed', [], []),
]
# The same where another process holds the lock.
BESIDE = [
    (OURS, RUN, 16, 'spill: another run is using it', [], []),
    (OURS, 'run --bad', 2, None, [], []),
    (OURS, 'trial', 2, None, [], []),
]


def read(path):
    with open(path, encoding='utf-8') as file:
        return file.read()


def differs(case, program, orders, is_held):
    """What isn't as it has to be, in words, or nothing."""
    made, words, status, text, precious, empty = case
    with tempfile.TemporaryDirectory() as folder:
        subprocess.run(['sh', '-ec', made or ':'], cwd=folder, check=True)
        had = is_held and read(f'{folder}/spill/post0/7')
        lock = open(f'{folder}/spill/lock', 'ab') if is_held else None
        if lock:
            fcntl.flock(lock, fcntl.LOCK_EX)
        # A stream that the words close is closed behind the one that is given here.
        command = f"exec {program} {words}" if '<&-' in words else f"exec {program} {words} < '{orders}'"
        with open(f'{folder}.out', 'wb') as out:
            ran = subprocess.run(['sh', '-c', command], cwd=folder, stdout=out, stderr=subprocess.PIPE, check=False)
        os.remove(f'{folder}.out')
        said = ran.stderr.decode().strip()
        found = []
        if ran.returncode != status:
            found.append(f'status {ran.returncode}, not {status}')
        if text is not None and said != text:
            found.append(f'says {said!r}, not {text!r}')
        found += [f'{path} was changed' for path in precious if read(f'{folder}/{path}') != 'precious\n']
        found += [f'{path} has bytes' for path in empty if os.path.exists(f'{folder}/{path}') and read(f'{folder}/{path}')]
        if is_held and (not had or read(f'{folder}/spill/post0/7') != had):
            found.append('spill/post0/7 was changed')
        if lock:
            lock.close()
    return '; '.join(found)


def main():
    program, orders = os.path.abspath(sys.argv[1] if len(sys.argv) > 1 else PROGRAM), os.path.abspath(ORDERS)
    if not os.access(program, os.X_OK):
        sys.exit(f'check_folder: {program} isn\'t built')
    count = 0
    for is_held, cases in ((False, CASES), (True, BESIDE)):
        for case in cases:
            found = differs(case, program, orders, is_held)
            if found:
                count += 1
                print(f'{case[0]} luvenashil {case[1]}: {found}')
    print(f'{len(CASES) + len(BESIDE)} commands, {count} that differ')
    return 1 if count else 0


if __name__ == '__main__':
    sys.exit(main())

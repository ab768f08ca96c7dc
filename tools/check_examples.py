#!/usr/bin/env python3
"""Runs the examples of README.md and docs/manual/ by the program that was built, and compares. Run it at the top of the
repository, once the program is built.

    python3 tools/check_examples.py

An example is a line that begins with `$ ` in a block of a page; what the command prints, on standard output and on standard
error, has to stand below it. Those of one block run in one new folder, with `examples/` beside them. A page's other blocks
aren't looked at. The status is 1 where one differs.
"""
import os
import re
import subprocess
import sys
import tempfile

PAGES = ['README.md'] + sorted(f'docs/manual/{name}' for name in os.listdir('docs/manual'))
PROGRAM = os.path.abspath('crates/csv_program/out/csv_program')


def blocks(text):
    """The lines of each block."""
    return [match.group(1).split('\n') for match in re.finditer(r'```\w*\n(.*?)\n```', text, re.S)]


def examples(lines):
    """Each command of a block, with what stands below it."""
    found = []
    for line in lines:
        if line.startswith('$ '):
            found.append([line[2:], []])
        elif found:
            found[-1][1].append(line)
    return found


def main():
    if not os.path.exists(PROGRAM):
        sys.exit('the program isn\'t built: ./luvenashil build')
    count, differ = 0, 0
    for page in PAGES:
        with open(page, encoding='utf-8') as file:
            text = file.read()
        for lines in blocks(text):
            commands = examples(lines)
            if not commands:
                continue
            with tempfile.TemporaryDirectory() as folder:
                os.symlink(os.path.abspath('examples'), f'{folder}/examples')
                for command, wanted in commands:
                    command = re.sub(r'(?:\./)?\bluvenashil (?=\w)', f'{PROGRAM} ', command)
                    done = subprocess.run(['bash', '-c', command], cwd=folder, stdout=subprocess.PIPE, stderr=subprocess.STDOUT)
                    got = done.stdout.decode().rstrip('\n').replace('\r', '')
                    count += 1
                    if got != '\n'.join(wanted).rstrip('\n'):
                        differ += 1
                        print(f'{page}: $ {command}\nstands:\n' + '\n'.join(wanted) + f'\nis:\n{got}\n')
    print(f'{count} examples, {differ} that differ')
    return 1 if differ else 0


if __name__ == '__main__':
    sys.exit(main())

#!/usr/bin/env python3
"""Looks whether each clause that docs/PROVED.md names is there. Run it at the top of the repository.

A row's second column names calls and, behind a colon, clauses of theirs; words in parentheses are definitions of specs/ or
their fields. A field that is written behind its record and a dot has to be a field of it. A clause has to be one of a call that
is named before it; where none is named that is known by name (as in "its calls"), of some call. Words are looked for in src/
and specs/. A call has to be one that a crate above can make: a public function or method that the library's lib.rt hands out,
by its name or by that of its type or trait in `pub use`, or in a public module. Calls of a program are looked for alone, and so
are those of a part that says "within the crate". It doesn't tell whether a clause says what the row says. The status is 0 where
all are there, and 1 where some aren't.
"""
import glob
import os
import re
import sys
from collections import namedtuple

CALL = re.compile(r'\bfn ([a-z_0-9]+)')
CLAUSE = re.compile(r'\bensures\*?\s+([a-z_0-9]+)\s*\{')
LAW = re.compile(r'\bghost ([a-z_0-9]+)\s*[:=]')
WORD = re.compile(r'[A-Za-z_][A-Za-z_0-9]*')
RECORD = re.compile(r'^pub record ([A-Za-z_0-9]+).*\n((?:  .*\n)+)', re.M)
FIELD = re.compile(r'^  pub ([a-z_0-9]+) :', re.M)
# The head of an impl or a trait, and a function that stands alone or in one, at the layout of rt fmt.
BLOCK = re.compile(r'^(?:pub |pub\([a-z ]+\) )?(impl|trait)\b([^{;]*)\{', re.M)
FUNCTION = re.compile(r'^(    )?(pub )?(?:pub\([a-z ]+\) )?(?:const |unsafe )*fn ([a-z_0-9]+)', re.M)
HANDED_OUT = re.compile(r'^pub use ([^;]+);', re.M)
PUBLIC_MODULE = re.compile(r'^pub mod ([a-z_0-9]+)', re.M)
# A call that a crate above can make, or one of a program; `owners` are its type and trait, or none.
Call = namedtuple('Call', 'crate owners name')


def read_all(pattern):
    for path in sorted(glob.glob(pattern, recursive=True)):
        with open(path, encoding='utf-8') as file:
            yield file.read()


def clauses_by_call():
    """The names of the clauses of each call, by the call's name alone; all words of the sources; the fields of each record."""
    found, words, fields = {}, set(), {}
    for text in read_all('crates/*/src/**/*.rt'):
        words.update(WORD.findall(text))
        starts = [match.start() for match in CALL.finditer(text)] + [len(text)]
        for start, end in zip(starts, starts[1:]):
            name = CALL.match(text, start).group(1)
            found.setdefault(name, set()).update(CLAUSE.findall(text[start:end]))
        found.setdefault('', set()).update(LAW.findall(text))
    for text in read_all('crates/*/specs/**/*.antt'):
        words.update(WORD.findall(text))
        for name, block in RECORD.findall(text):
            fields.setdefault(name, set()).update(FIELD.findall(block))
    return found, words, fields


def owners_of(kind, head):
    """The names of a trait, of the type of an impl, or of its trait and its type, without what is generic in them."""
    plain, before = head, None
    while plain != before:
        plain, before = re.sub(r'<[^<>]*>', '', plain.replace('->', '')), plain
    sides = plain.partition(' where ')[0].split(' for ') if kind == 'impl' else [plain.partition(':')[0]]
    return [WORD.findall(side)[-1] for side in sides if WORD.search(side)]


def reachable_calls():
    """The calls of programs, and those that libraries hand out."""
    found = []
    for folder in sorted(glob.glob('crates/*/src')):
        crate, root = folder.split('/')[1], f'{folder}/lib.rt'
        is_program, text = not os.path.isfile(root), ''.join(read_all(root))
        names = {word for item in HANDED_OUT.findall(text) for word in WORD.findall(re.split(r'::(?=\{)|::(?=\w+$)', item)[-1])}
        modules = set(PUBLIC_MODULE.findall(text)) | {'lib'}
        traits = {owner for source in read_all(f'{folder}/**/*.rt') for block in BLOCK.findall(source) if block[0] == 'trait'
                  for owner in owners_of(*block)}
        for path in sorted(glob.glob(f'{folder}/**/*.rt', recursive=True)):
            module = re.split(r'[/.]', path[len(folder) + 1:])[0]
            source, = read_all(path)
            blocks = [(block.start(), block[1], owners_of(*block.groups())) for block in BLOCK.finditer(source)]
            for call in FUNCTION.finditer(source):
                inside, is_public, name = call.groups()
                within = [block for block in blocks if block[0] < call.start()] if inside else []
                kind, owners = within[-1][1:] if within else ('', [])
                # What a trait has is as public as the trait, and what it has of a type as both are.
                is_public = is_public or kind == 'trait' or len(owners) == 2
                asked = traits.intersection(owners) or owners[-1:] or [name]
                if is_program or is_public and (module in modules or names.intersection(asked)):
                    found.append(Call(crate, owners, name))
    return found


def is_reachable(tick, calls):
    """Whether a call is known that is named so, alone or behind its crate or its type."""
    *path, name = tick.split('::')
    return any(call.name == name and (not path or path[-1] in (call.crate, *call.owners)) for call in calls)


def ticked(text):
    return re.findall(r'`([^`]+)`', text)


def rows(path):
    """The line, the heading and the second column of each row."""
    with open(path, encoding='utf-8') as file:
        heading = ''
        for number, line in enumerate(file, 1):
            if line.startswith('## '):
                heading = line[3:].strip()
            cells = [cell.strip() for cell in line.strip().strip('|').split(' | ')]
            if line.startswith('| ') and cells[0] != 'Claim' and len(cells) >= 2:
                yield number, heading, cells[1]


def is_no_field(tick, fields):
    record, dot, field = tick.partition('.')
    return bool(dot) and record in fields and field not in fields[record]


def private(column, clauses, calls):
    """The calls of a column that no crate above can make. Behind no colon a word is a call where it is no clause's name."""
    known, found = set().union(*clauses.values()), []
    for part in column.split(';'):
        before, colon, behind = re.sub(r'\([^)]*\)', '', part).rpartition(': ')
        names = [tick for tick in ticked(before or behind) if tick.split('::')[-1] in clauses and (colon or tick not in known)]
        if 'within the crate' not in part:
            found += [tick for tick in names if not is_reachable(tick, calls)]
    return found


def missing(heading, column, clauses, words, fields):
    """The clauses and words of a column that aren't there, and how many clauses it names."""
    known, lost, count = set().union(*clauses.values()), [], 0
    for part in column.split(';'):
        outside = re.sub(r'\([^)]*\)', '', part)
        lost += [word for tick in ticked(part) for word in WORD.findall(tick) if word not in words]
        lost += [tick for tick in ticked(part) if is_no_field(tick, fields)]
        before, colon, behind = outside.rpartition(': ')
        if heading == 'The run' and not colon:
            before, behind = '`run`', outside
        calls = [tick.split('::')[-1] for tick in ticked(before)]
        of = set().union(*(clauses[call] for call in calls if call in clauses)) or known
        names = [tick for tick in ticked(behind) if re.fullmatch(r'[a-z_0-9]+', tick)] if before else []
        count += len(names)
        lost += [name for name in names if name not in of]
    return lost, count


def main():
    clauses, words, fields = clauses_by_call()
    calls = reachable_calls()
    rows_read, named, failed = 0, 0, False
    for number, heading, column in rows('docs/PROVED.md'):
        lost, count = missing(heading, column, clauses, words, fields)
        rows_read, named = rows_read + 1, named + count
        for name in lost:
            failed = True
            print(f'docs/PROVED.md:{number}: {name} is no clause or word of {column}')
        for name in private(column, clauses, calls):
            failed = True
            print(f'docs/PROVED.md:{number}: {name} is no call that a crate above can make: {column}')
    print(f'{rows_read} rows, {named} clauses')
    return 1 if failed or not rows_read else 0


if __name__ == '__main__':
    sys.exit(main())

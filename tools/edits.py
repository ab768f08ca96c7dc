#!/usr/bin/env python3
"""Tries the edits that the prover has to refuse: those of crates/NAME/must-fail/, which `rt ci` tries too, and those of
tools/edits/NAME/, which only this script does. Run it at the top of the repository.

    python3 tools/edits.py --look       whether each edit's old text stands where it says, once; proves nothing
    python3 tools/edits.py NAME ..      tries the edits of these crates; CRATE/EDIT names one
    python3 tools/edits.py              tries all
        --since REV of these only the edits of crates whose src/, specs/ or proofs/ changed since the commit REV, also by what
                    isn't committed, but for lines of comments, and those that are new since then or have another text. One that was moved to the other
                    folder of its crate, or has another name, isn't new. What a change does to crates above isn't looked at
        --jobs N    so many checks side by side, whatever memory they take; else one a processor, as many as memory holds
        --alone     one edit a check
        --keep F    writes each verdict to the file F, and takes it from there while the edit, its crate and those below are
                    as they were: so a run that was stopped goes on

An edit is tried on a copy of its crate, over what earlier checks kept of it in out/, so that little more is proved than the
function that it changes. What isn't proved there or below is proved first, once, and edits take what processors proofs leave.

Edits of different functions are tried together. The prover tells of each goal that it can't prove by a line of the function or
of the function's proof by hand, so an edit counts as refused there where its own function has such a goal. Every other one is
tried alone, and is judged as `rt ci` judges it. At the end of each lot the crate as it is has to be proved over what the tries
left, else the lot is tried anew, one by one. The status is 0 where all were refused, else 1.
"""
import argparse
import copy
import hashlib
import importlib.machinery
import importlib.util
import json
import os
import re
import shutil
import subprocess
import sys
import tempfile
import threading
import time
from collections import namedtuple

sys.dont_write_bytecode = True
IN_A_CHECK = 10
NOT_TRIED = 'not tried'
# What the prover says of a proof file that names what an edit took away, and of what cites that proof, as `rt` has it.
LOST_NAME = re.compile(r'(note: )?(\./)?proofs/.*(has no field|is not in scope|has no `|was not admitted)')
PART_OF_CRATE = re.compile(r'crates/([^/]+)/(?:src|specs|proofs)/')
EDIT_OF_CRATE = re.compile(r'(?:crates/([^/]+)/must-fail|tools/edits/([^/]+))/[^/]+\.edit$')
FUNCTION = re.compile(r'^( *)(?:pub(?:\([a-z]+\))? )?(?:const |unsafe )*fn ([a-z_0-9]+)')


def load_rt():
    """The toolchain's command as a module: what an edit is, and what counts as refused, is told by it alone."""
    path = shutil.which('rt')
    if not path:
        sys.exit('edits: the toolchain\'s command rt is not on the path')
    path = os.path.realpath(path)
    loader = importlib.machinery.SourceFileLoader('rt', path)
    module = importlib.util.module_from_spec(importlib.util.spec_from_loader('rt', loader))
    loader.exec_module(module)
    return module


class Edit:
    def __init__(self, rt, crate, path, is_gated):
        self.crate, self.path, self.is_gated = crate, path, is_gated
        self.name = os.path.basename(path)[:-len('.edit')]
        self.texts, self.fault = rt.read_edit(path, crate.folder)
        self.fault = self.fault or unread_line(path)
        self.place = None if self.fault else place_of(crate, self.texts)
        self.refused, self.said = False, NOT_TRIED

    def sum(self):
        """A sum over the edit, its crate, those below, and the toolchain."""
        with open(self.path, 'rb') as file:
            return hashlib.sha256(self.crate.stamp().encode() + file.read()).hexdigest()

    def folder(self):
        return 'must-fail' if self.is_gated else 'tools/edits'


def unread_line(path):
    """What is wrong with an edit that has a line which nobody reads, or None."""
    with open(path, encoding='utf-8') as file:
        for number, line in enumerate(file, 1):
            if line.strip() and not line.startswith(('file:', 'old:', 'new:')):
                return f'line {number} is none that is read: each text stands on one line'
    return None


Place = namedtuple('Place', 'path name first last')


def place_of(crate, texts):
    """The file, the function in whose body the only change stands, and its first and last lines, or None."""
    if len(texts) != 1:
        return None
    (path, text), = texts.items()
    if not path.startswith('src/'):
        return None
    with open(f'{crate.folder}/{path}', encoding='utf-8') as file:
        lines, others = file.read().split('\n'), text.split('\n')
    if len(lines) != len(others):
        return None
    changed = [at for at, (one, other) in enumerate(zip(lines, others)) if one != other]
    if len(changed) != 1:
        return None
    for at in range(changed[0], -1, -1):
        found = FUNCTION.match(lines[at])
        if found and at < changed[0]:
            indent, name = found.groups()
            opens = [row for row in range(at, changed[0]) if lines[row] == indent + '{' or row == at and lines[at].endswith(' {')]
            ends = [row for row in range(at + 1, len(lines)) if lines[row] == indent + '}']
            while lines[at - 1].startswith(indent + '#['):
                at -= 1
            return Place(path, name, at + 1, ends[0] + 1) if opens and ends and ends[0] > changed[0] else None
    return None


def apply_all(edits, folder):
    """The texts with the changes of all these edits, each of one line in a function of its own."""
    texts = {}
    for edit in edits:
        (path, text), = edit.texts.items()
        with open(f'{folder}/{path}', encoding='utf-8') as file:
            lines = file.read().split('\n')
        so_far = texts.setdefault(path, list(lines))
        for at, (one, other) in enumerate(zip(lines, text.split('\n'))):
            if one != other:
                so_far[at] = other
    return {path: '\n'.join(lines) for path, lines in texts.items()}


def is_own_refusal(output, crate, place):
    """Whether a goal of this function itself wasn't proved: in its lines, or in a file of its proof by hand."""
    module = re.sub(r'(^|/)(lib|main|mod)$', '', place.path[len('src/'):-len('.rt')])
    start = '::'.join(part for part in (crate.name, *module.split('/')) if part) + '::'
    for line in output.split('\n'):
        found = re.match(r'fn (\S+): (?:not proved|no proof)(.*)', line)
        if found and found[1].startswith(start) and found[1].split('::')[-1] == place.name and 'did not prove' in found[2]:
            return True
        found = re.match(r'(?:note: )?(?:\./)?(\S+?):(\d+):\d+: (?:error|it is not proved)', line)
        if not found or LOST_NAME.match(line):
            continue
        if found[1] == place.path and place.first <= int(found[2]) <= place.last:
            return True
        if found[1].startswith('/'.join(part for part in ('proofs', module) if part) + '/') and f'/{place.name}/' in found[1]:
            return True
    return False


def lots_of(edits, alone):
    """Lists of edits that are tried in one check: of different functions, ten at most."""
    lots = []
    for edit in edits:
        free = [lot for lot in lots if edit.place and len(lot) < IN_A_CHECK and all(it.place for it in lot)
                and edit.place[:2] not in [it.place[:2] for it in lot]]
        if alone or not free:
            lots.append([edit])
        else:
            free[0].append(edit)
    return lots


class Verdicts:
    """Those of earlier runs, in a file."""

    def __init__(self, path):
        self.path, self.turn = path, threading.Lock()
        self.found = self.written()

    def written(self):
        if not self.path or not os.path.isfile(self.path):
            return {}
        with open(self.path, encoding='utf-8') as file:
            return json.load(file)

    def give(self, edits):
        for edit in edits:
            edit.refused, edit.said = self.found.get(edit.sum(), (edit.refused, edit.said))

    def take(self, edits):
        with self.turn:
            # Another run over the same file may have written there since.
            self.found = {**self.written(), **self.found, **{edit.sum(): (edit.refused, edit.said) for edit in edits}}
            if self.path:
                with open(f'{self.path}.new', 'w', encoding='utf-8') as file:
                    json.dump(self.found, file)
                os.replace(f'{self.path}.new', self.path)


class Trial:
    def __init__(self, rt, crate, verdicts):
        self.rt, self.crate, self.verdicts = rt, crate, verdicts

    def keep(self, work):
        kept = tempfile.mkdtemp(prefix='kept-', dir=work)
        own = f'{self.crate.folder}/out/incremental'
        if os.path.isdir(own):
            shutil.copytree(own, kept, dirs_exist_ok=True)
        return kept

    def one(self, edit, kept):
        kind, said = self.rt.must_fail(self.crate, edit.path, ['--jobs', '1'], kept)
        edit.refused = kind in (self.rt.REFUSED, self.rt.AT_LIMIT)
        edit.said = said.partition(': ')[2]

    def together(self, lot, kept):
        if len(lot) > 1:
            texts = apply_all(lot, self.crate.folder)
            ran = self.rt.checked(self.crate, texts, ['--jobs', '1', '--progress'], kept)
            is_read = not any(self.rt.unread(line, texts) for line in ran.stdout.split('\n'))
            for edit in lot:
                if is_read and ran.returncode == 1 and is_own_refusal(ran.stdout, self.crate, edit.place):
                    edit.refused, edit.said = True, 'refused in a check with others'
        for edit in lot:
            if not edit.refused:
                self.one(edit, kept)

    def run(self, lots):
        """Tries lots one after another over one copy of what is kept."""
        start = time.time()
        with tempfile.TemporaryDirectory(prefix='edits-') as work:
            kept = self.keep(work)
            for lot in lots:
                self.together(lot, kept)
            edits = [edit for lot in lots for edit in lot]
            if self.rt.checked(self.crate, {}, ['--jobs', '1'], kept).returncode:
                for edit in edits:
                    self.one(edit, None)
        self.verdicts.take(edits)
        return time.time() - start


def prove(crate, jobs):
    """Proves a crate where it stands, over the libraries below, and builds a library, unless that is kept. Whether it is proved."""
    flags, crate = ['--jobs', str(jobs)], copy.copy(crate)
    with tempfile.TemporaryFile('w+', errors='replace') as crate.out:
        proved = not (crate.check(flags) if crate.is_program else crate.build_rlib(flags, anew=False))
        if not proved:
            crate.out.seek(0)
            print(crate.out.read()[-4000:])
    return proved


def tried(rt, crates, edits, alone, verdicts):
    """Proves what these edits need, and tries them, in the toolchain's own order. The crates that weren't proved."""
    printing, tasks = threading.Lock(), {}
    own = {crate: [edit for edit in edits if edit.crate is crate] for crate in crates}
    needed = {it.name for crate in crates if own[crate] for it in [crate, *crate.below()]}

    def proof(crate, given, jobs):
        proved = all(given[it.name, 'proof'] for it in crate.below()) and prove(crate, jobs)
        with printing:
            print(f'{crate.name}: {"proved" if proved else "NOT PROVED"}', flush=True)
        return proved

    def trial(crate, lots, given):
        if not given[crate.name, 'proof']:
            return
        seconds = Trial(rt, crate, verdicts).run(lots)
        with printing:
            for edit in [edit for lot in lots for edit in lot]:
                print(f'{crate.name}/{edit.name}: {edit.said[:150]}', flush=True)
            print(f'{crate.name}: {sum(len(lot) for lot in lots)} edits in {seconds:.0f} s', flush=True)

    for crate in [crate for crate in crates if crate.name in needed]:
        lines, need = crate.count(rb'\n'), rt.need(crate)
        waits = [(it.name, 'proof') for it in crate.below()]
        tasks[crate.name, 'proof'] = waits, lines, need, lambda given, jobs, it=crate: proof(it, given, jobs)
        lots = lots_of(own[crate], alone)
        # Each lane takes a copy of what is kept, and ends with a check of the crate as it is.
        lanes = min(len(lots), 1 + len(own[crate]) // 16)
        for at in range(lanes):
            call = lambda given, jobs, it=crate, lots=lots[at::lanes]: trial(it, lots, given)
            tasks[crate.name, 'edits', at] = [(crate.name, 'proof')], lines, rt.OVER * need, call
    given = rt.in_lanes(tasks)
    return [name for name in sorted(needed) if not given[name, 'proof']]


def is_wanted(edit, names):
    return not names or edit.crate.name in names or f'{edit.crate.name}/{edit.name}' in names


def edits_of(rt, crates, names):
    found = []
    for crate in crates:
        for folder, is_gated in ((f'{crate.folder}/must-fail', True), (f'tools/edits/{crate.name}', False)):
            for name in sorted(os.listdir(folder)) if os.path.isdir(folder) else ():
                if name.endswith('.edit'):
                    found.append(Edit(rt, crate, f'{folder}/{name}', is_gated))
    known = {crate.name for crate in crates}
    strays = [name for name in sorted(os.listdir('tools/edits')) if name not in known] if os.path.isdir('tools/edits') else []
    for name in strays:
        print(f'edits: tools/edits/{name} is of no crate')
    return [edit for edit in found if is_wanted(edit, names)], bool(strays)


def git(*words, given=None):
    """What git prints, and nothing where it fails."""
    ran = subprocess.run(['git', *words], input=given, capture_output=True, text=True, check=False)
    return '' if ran.returncode else ran.stdout


def code_of(text):
    """The lines of a source that aren't comments as a whole, nor empty."""
    return [line for line in text.split('\n') if line.strip() and not line.lstrip().startswith(('//', '--'))]


def is_changed(path, rev):
    """Whether a source has another code than at a commit."""
    before = git('show', f'{rev}:./{path}')
    if not os.path.isfile(path):
        return bool(code_of(before))
    with open(path, encoding='utf-8') as file:
        return code_of(file.read()) != code_of(before)


def since(rev, edits):
    """Those of the edits that are tried for what changed since a commit, and the names of the crates that changed."""
    at = git('rev-parse', '--verify', '--quiet', '--end-of-options', f'{rev}^{{commit}}').split()
    if not at:
        sys.exit(f'edits: no such commit: {rev}')
    paths = git('diff', '--relative', '--no-renames', '--name-only', '-z', at[-1], '--', 'crates')
    paths += git('ls-files', '--others', '--exclude-standard', '-z', '--', 'crates')
    changed = []
    for path in paths.split('\0'):
        found = PART_OF_CRATE.match(path)
        if found and found[1] not in changed and is_changed(path, at[-1]):
            changed.append(found[1])
    known = set()
    for line in git('ls-tree', '-r', '-z', at[-1], '--', 'crates', 'tools/edits').split('\0'):
        kind, _, path = line.partition('\t')
        found = EDIT_OF_CRATE.match(path)
        if found:
            known.add((found[1] or found[2], kind.split()[2]))
    sums = git('hash-object', '--stdin-paths', given=''.join(f'{edit.path}\n' for edit in edits)).split()
    wanted = [edit for edit, of_text in zip(edits, sums, strict=True)
              if edit.crate.name in changed or (edit.crate.name, of_text) not in known]
    return wanted, changed


def commit():
    ran = subprocess.run(['git', 'describe', '--always', '--dirty', '--abbrev=7'], capture_output=True, text=True, check=False)
    return ran.stdout.strip() or 'no commit'


def show(edits, seconds):
    print(f'\nTried at {commit()}:\n\n| Crate | In the gate | Apart | Refused | With others | Not refused |\n|---|---|---|---|---|---|')
    rows = []
    for crate in dict.fromkeys(edit.crate.name for edit in edits):
        own = [edit for edit in edits if edit.crate.name == crate]
        rows.append([sum(it.is_gated for it in own), sum(not it.is_gated for it in own), sum(it.refused for it in own),
                     sum('with others' in it.said for it in own), sum(not it.refused for it in own)])
        print(f'| `{crate}` | ' + ' | '.join(str(it or '') for it in rows[-1]) + ' |')
    print('| all | ' + ' | '.join(str(sum(column)) for column in zip(*rows)) + ' |')
    named = [edit for edit in edits if 'only because a proof file' in edit.said]
    for edit in named:
        print(f'refused only since a proof file names what it takes away: {edit.crate.name}/{edit.name}')
    for edit in edits:
        if not edit.refused:
            print(f'NOT REFUSED: {edit.folder()}, {edit.crate.name}/{edit.name}: {edit.said}')
    print(f'{sum(edit.refused for edit in edits)} refused, {sum(not edit.refused for edit in edits)} not, in {seconds / 60:.0f} minutes')


def main():
    parser = argparse.ArgumentParser(description=__doc__, formatter_class=argparse.RawDescriptionHelpFormatter)
    parser.add_argument('names', nargs='*')
    parser.add_argument('--look', action='store_true')
    parser.add_argument('--since', metavar='REV')
    parser.add_argument('--jobs', type=int)
    parser.add_argument('--alone', action='store_true')
    parser.add_argument('--keep', metavar='F')
    words = parser.parse_args()
    rt = load_rt()
    rt.rtlib.guarded()
    crates = rt.rtlib.crates_below(os.getcwd())
    unknown = {name.partition('/')[0] for name in words.names} - {crate.name for crate in crates}
    if unknown or not crates:
        sys.exit(f'edits: no such crate: {", ".join(sorted(unknown)) or "run this at the top of the repository"}')
    edits, has_strays = edits_of(rt, crates, words.names)
    named = {f'{edit.crate.name}/{edit.name}' for edit in edits}
    unknown = [name for name in words.names if '/' in name and name not in named]
    if unknown:
        sys.exit(f'edits: no such edit: {", ".join(unknown)}')
    if words.since is not None:
        edits, changed = since(words.since, edits)
        changed = [crate.name for crate in crates if crate.name in changed]
        print(f'Changed since {words.since}: {", ".join(changed) or "no crate"}. Edits to try: {len(edits) or "none"}', flush=True)
        if not edits:
            return 1 if has_strays else 0
    faults = [edit for edit in edits if edit.fault]
    for edit in faults:
        print(f'{edit.folder()}, {edit.crate.name}/{edit.name}: {edit.fault}')
    if words.look or faults:
        print(f'{len(edits)} edits, {len(faults)} that can\'t be applied')
        return 1 if faults or has_strays else 0

    if words.jobs:
        os.environ['RT_JOBS'] = str(words.jobs)
    start, verdicts = time.time(), Verdicts(words.keep)
    verdicts.give(edits)
    for crate in tried(rt, crates, [edit for edit in edits if edit.said == NOT_TRIED], words.alone, verdicts):
        print(f'edits: {crate} is not proved')
    show(edits, time.time() - start)
    return 0 if all(edit.refused for edit in edits) and not has_strays else 1


if __name__ == '__main__':
    sys.exit(main())

"""A model of the audit that shares nothing with the Rattle code: it reads a journal's text, applies the table of rules in
docs/FORMATS.md, and prints the line that `audit` answers. Histories come from tools/pool_model.py. Run it at the top of the
repository.

    python3 tools/audit_model.py check      do the journals of crates/words_tests have the answers that the model gives, and those with
                                            growths that were worked by hand, below?
    python3 tools/audit_model.py drawn      the table of drawn journals, each with one number changed at each kind of entry
    python3 tools/audit_model.py answer     the answer to the text on standard input
    python3 tools/audit_model.py many N B   a legal journal of N entries beside B blocks in memory, for bench/audit_rate.py
"""
import glob
import random
import re
import sys

TESTS = 'crates/words_tests/src/tests'
DRAWN = f'{TESTS}/drawn_journals.rt'
VERSIONS = ('memory journal 1', 'memory journal 2')
NUMBER = re.compile(r'0|[1-9][0-9]*')
FORMS = {
    'begin': 'ss', 'attempt': 'sslllg', 'release': 'ssl', 'end': 'ssl', 'evict': 'ssslf', 'admit': 'sssloll', 'refused': 'ssslll',
    'pin': 'sssp', 'unpin': 'sss', 'remove': 'sssl', 'grow': 'sl',
}
WORDS = {'f': ('disk', 'gone', 'nomem'), 'o': ('memory', 'disk'), 'p': ('resident', 'copy')}


def field(kind, text):
    """The value of a field, or None where it isn't of the form."""
    if kind in WORDS:
        return text if text in WORDS[kind] else None
    if kind == 'g' and text == 'wait':
        return text
    if not NUMBER.fullmatch(text):
        return None
    value = int(text)
    return value if value < (2 ** 32 if kind == 's' else 2 ** 64) else None


def entry(line, version=2):
    """The entry of a line, or None. A text of the first version has no growth."""
    word, *texts = line.split(',')
    form = FORMS.get(word)
    if form is None or len(texts) != len(form) or word == 'grow' and version == 1:
        return None
    values = [field(kind, text) for kind, text in zip(form, texts)]
    return None if None in values else (word, *values)


def version_of(line):
    """The version that a first line names."""
    return VERSIONS.index(line.split(',')[0]) + 1


def head(line):
    word, *texts = line.split(',')
    values = [field('l', text) for text in texts]
    if word not in VERSIONS or len(values) != 3 or None in values:
        return None
    maximum, region, workers = values
    return (maximum, region, workers) if region <= maximum <= 2 ** 40 and 1 <= workers <= 16 else None


class Pool:
    """The pool as it was before the evictions that wait, and they."""

    def __init__(self, maximum, region, workers):
        self.maximum, self.region, self.workers = maximum, region, workers
        self.execution = maximum - region
        self.blocks, self.begun, self.open, self.held = [], set(), {}, {}
        self.active, self.pins, self.copies = set(), {}, set()
        self.gone, self.owner = [], None

    def now(self):
        return [b for b in self.blocks if b[:2] not in [g[:2] for g in self.gone]]

    def resident(self, name):
        return next((b for b in self.now() if b[:2] == name), None)

    def stored(self):
        return sum(b[2] for b in self.blocks)

    def free(self):
        return self.maximum - self.execution - self.stored()

    def victims(self, need, own):
        """The first blocks that free so much; none where all don't."""
        chosen = []
        for block in self.blocks:
            if need <= 0:
                break
            if block[:2] not in self.pins.values() and block[0] != own:
                chosen.append(block)
                need -= block[2]
        return chosen if need <= 0 else []

    def went(self, blocks, told):
        return [g[:3] for g in self.gone] == [b[:3] for b in blocks] and told == len(blocks)

    def growth(self, asked):
        lacks = max(0, asked - (self.execution - sum(self.held.values())))
        target = min(lacks, max(self.free(), self.maximum - self.execution - self.region))
        unused = min(target, self.free())
        blocks = self.victims(target - unused, None) if target > unused else []
        return blocks, unused + sum(b[2] for b in blocks)

    def answer(self, task, asked):
        blocks, moved = self.growth(asked)
        stored = self.stored() - sum(b[2] for b in blocks)
        pool, held = self.execution + moved, self.held[task]
        active = len(self.active | {task})
        most = max(0, (self.maximum - min(stored, self.region)) // active - held)
        grant = min(asked, most, pool - sum(self.held.values()))
        return 'wait' if grant < asked and held + grant < pool // (2 * active) else grant

    def admission(self, dataset, size):
        if size > self.region // self.workers or size > self.maximum - sum(self.held.values()):
            return False, 0, []
        borrowed = min(self.execution - sum(self.held.values()), max(0, size - self.free()))
        need = max(0, size - self.free() - borrowed)
        blocks = self.victims(need, dataset) if need else []
        return size <= self.free() + borrowed + sum(b[2] for b in blocks), borrowed, blocks

    def broken(self, e):
        """The first rule that the entry breaks."""
        kind, w = e[0], e[1]
        if w >= self.workers:
            return 'worker'
        if self.gone and (kind not in ('evict', 'attempt', 'admit', 'refused') or w != self.owner):
            return 'pending'
        if kind == 'grow':
            return 'grow' if w != 0 or not 1 <= e[2] <= 2 ** 36 or self.maximum + e[2] > 2 ** 41 else None
        if kind == 'begin':
            return 'task' if e[2] in self.begun or w in self.open else None
        if kind in ('attempt', 'release', 'end'):
            if self.open.get(w) != e[2]:
                return 'task'
            if kind == 'release':
                return 'freed' if e[3] > self.held[e[2]] else None
            if kind == 'end':
                return 'freed' if e[3] != self.held[e[2]] else None
            if not 1 <= e[3] <= 2 ** 50:
                return 'asked'
            blocks, moved = self.growth(e[3])
            if not self.went(blocks, e[5]):
                return 'victims'
            if moved != e[4]:
                return 'growth'
            return 'share' if self.answer(e[2], e[3]) != e[6] else None
        name = list(e[2:4])
        block = self.resident(name)
        if kind in ('evict', 'remove'):
            if block is None or block[2] != e[4] or name in self.pins.values():
                return 'block'
            return 'block' if kind == 'evict' and e[5] != 'gone' and block[3] == 'memory' else None
        if kind in ('admit', 'refused'):
            if block is not None:
                return 'block'
            admitted, borrowed, blocks = self.admission(e[2], e[4])
            told, number = (e[6], e[7]) if kind == 'admit' else (e[5], e[6])
            if not self.went(blocks, number):
                return 'victims'
            return 'store' if borrowed != told or admitted != (kind == 'admit') else None
        if kind == 'pin':
            if (block is None) if e[4] == 'resident' else (block is not None or tuple(name) not in self.copies):
                return 'block'
            return 'pin' if w in self.pins else None
        return 'pin' if self.pins.get(w) != name else None

    def add(self, e):
        kind, w = e[0], e[1]
        name = list(e[2:4])
        if kind == 'evict':
            self.gone.append(self.resident(name))
            self.owner = w
            if e[5] == 'disk':
                self.copies.add(tuple(name))
            return
        self.blocks, self.gone, self.owner = self.now(), [], None
        if kind == 'begin':
            self.begun.add(e[2])
            self.open[w] = e[2]
            self.held[e[2]] = 0
        elif kind == 'attempt':
            self.active.add(e[2])
            self.execution += e[4]
            self.held[e[2]] += 0 if e[6] == 'wait' else e[6]
        elif kind in ('release', 'end'):
            self.held[e[2]] -= e[3]
            if self.held[e[2]] == 0:
                self.active.discard(e[2])
            if kind == 'end':
                del self.open[w], self.held[e[2]]
        elif kind == 'admit':
            self.blocks.append([e[2], e[3], e[4], e[5]])
            self.execution -= e[6]
        elif kind == 'refused':
            self.execution -= e[5]
        elif kind == 'remove':
            self.blocks.remove(self.resident(name))
        elif kind == 'pin' and e[4] == 'resident':
            block = self.resident(name)
            self.blocks.remove(block)
            self.blocks.append(block)
            self.pins[w] = name
        elif kind == 'unpin':
            del self.pins[w]
        elif kind == 'grow':
            self.maximum += e[2]
            self.execution += e[2]


def verdict(text):
    lines = text.split('\n')
    last = lines.pop()
    setup = head(lines[0]) if lines else None
    if setup is None:
        return 'bad line 1'
    version = version_of(lines[0])
    entries = [entry(line, version) for line in lines[1:]]
    if None in entries:
        return f'bad line {entries.index(None) + 2}'
    if last:
        return f'bad line {len(lines) + 1}'
    pool = Pool(*setup)
    for number, e in enumerate(entries, 1):
        rule = pool.broken(e)
        if rule:
            return f'no {number} {rule}'
        pool.add(e)
    return f'no {len(entries) + 1} pending' if pool.gone else f'yes {len(entries)}'


# Tables: a row is a text with a slash for each line feed, an arrow, and the answer. It may lack the two words ahead of the version, or
# the version too, which then is the first.
def text_of(row):
    if not row.startswith('memory journal'):
        row = f'memory journal {row}' if row.split('/')[0].count(',') == 3 else f'{VERSIONS[0]},{row}'
    return row.replace('/', '\n')


def rows_in(path):
    for line in open(path, encoding='utf-8'):
        if re.search('/ -> |/[^ /]* -> ', line):
            row, answer = line.strip().rstrip('";').split(' -> ')
            yield row.split(': ')[-1], answer


# Journals in which the pool grows, worked by hand.
WAITING = '600,300,2/begin,0,0/attempt,0,0,500,200,0,500/begin,1,1/attempt,1,1,200,100,0,wait'
LARGEST = '1099511627776,0,1' + '/grow,0,68719476736' * 16
GROWTHS = [
    (f'memory journal 2,{WAITING}/grow,0,400/attempt,1,1,200,0,0,200/', 'yes 6'),
    (f'memory journal 2,{WAITING}/grow,0,100/attempt,1,1,200,0,0,200/', 'yes 6'),
    (f'memory journal 2,{WAITING}/grow,0,99/attempt,1,1,200,0,0,200/', 'no 6 share'),
    (f'memory journal 1,{WAITING}/grow,0,400/attempt,1,1,200,0,0,200/', 'bad line 6'),
    (f'memory journal 1,{WAITING}/', 'yes 4'),
    (f'memory journal 3,{WAITING}/', 'bad line 1'),
    (f'memory journal 2,{WAITING}/grow,1,400/', 'no 5 grow'),
    (f'memory journal 2,{WAITING}/grow,2,400/', 'no 5 worker'),
    (f'memory journal 2,{WAITING}/grow,0,0/', 'no 5 grow'),
    (f'memory journal 2,{WAITING}/grow,0,68719476736/', 'yes 5'),
    (f'memory journal 2,{WAITING}/grow,0,68719476737/', 'no 5 grow'),
    (f'memory journal 2,{WAITING}/grow,0,18446744073709551615/', 'no 5 grow'),
    (f'memory journal 2,{WAITING}/grow,0,18446744073709551616/', 'bad line 6'),
    (f'memory journal 2,{WAITING}/grow,0/', 'bad line 6'),
    (f'memory journal 2,{WAITING}/grow,0,1,1/', 'bad line 6'),
    (f'memory journal 2,{LARGEST}/', 'yes 16'),
    (f'memory journal 2,{LARGEST}/grow,0,1/', 'no 17 grow'),
    ('memory journal 2,600,300,2/admit,0,1,0,150,disk,0,0/evict,0,1,0,150,disk/grow,0,1/', 'no 3 pending'),
    ('memory journal 2,600,300,1/grow,0,300/admit,0,1,0,301,disk,1,0/', 'no 2 store'),
    ('memory journal 2,600,300,1/grow,0,300/refused,0,1,0,301,0,0/', 'yes 2'),
]


def history(seed, workers, calls, datasets=3, parts=3, entries=0, growths=0):
    """A drawn journal of so many calls, or so many entries at least, made by the model of the pool. In it the pool grows so many
    times, each time after as many of those entries."""
    sys.path.insert(0, 'tools')
    from pool_model import Model
    draw = random.Random(seed)
    model = Model(draw.choice([600, 997, 4096]), 500, workers)
    setup = (model.maximum, model.region, workers)
    task, grown = 0, 0
    while calls > 0 or len(model.journal) < entries:
        calls -= 1
        if grown < growths and len(model.journal) * (growths + 1) >= entries * (grown + 1):
            model.grow(0, draw.choice([1, 40, 150]))
            grown += 1
        w = draw.randrange(workers)
        name = (draw.randrange(1, datasets + 1), draw.randrange(parts))
        what = draw.choice(['task', 'ask', 'ask', 'ask', 'release', 'end', 'admit', 'admit', 'admit', 'pin', 'pin', 'unpin', 'remove'])
        if what == 'task' and w not in model.open:
            model.begin(w, task)
            task += 1
        elif what == 'ask' and w in model.open:
            model.attempt(w, draw.choice([1, 40, 150, 300, model.maximum]))
        elif what == 'release' and w in model.open:
            model.release(w, draw.choice([1, 50, 1000]))
        elif what == 'end' and w in model.open:
            model.end(w)
        elif what == 'admit':
            model.admit(w, *name, draw.choice([1, 60, model.region // workers]), draw.choice(['memory', 'disk']))
        elif what == 'pin' and w not in model.pins:
            model.pin(w, *name)
        elif what == 'unpin' and w in model.pins:
            model.unpin(w)
        elif what == 'remove' and draw.randrange(3) == 0:
            model.remove(w, name[0])
    return setup, model.journal


def changed(draw, line):
    """The line with one number changed, if it has one past its word."""
    parts = line.split(',')
    places = [i for i in range(1, len(parts)) if NUMBER.fullmatch(parts[i])]
    place = draw.choice(places)
    parts[place] = str(max(0, int(parts[place]) + draw.choice([-1, 1, 1, 7])))
    return ','.join(parts)


def drawn():
    rows = []
    for seed, workers, calls in [(1, 1, 40), (2, 2, 50), (3, 3, 60), (4, 4, 60)]:
        setup, lines = history(seed, workers, calls)
        first = ','.join(map(str, setup))
        rows.append('/'.join([first, *lines, '']))
        draw = random.Random(seed)
        for kind in FORMS:
            at = [i for i, line in enumerate(lines) if line.startswith(kind + ',')]
            if at:
                i = draw.choice(at)
                rows.append('/'.join([first, *lines[:i], changed(draw, lines[i]), *lines[i + 1:], '']))
    return [f'{row} -> {verdict(text_of(row))}' for row in rows]


def many(count, blocks):
    """A legal journal: blocks that stay, and a task that asks and gives back, with a pin now and then."""
    size = 1000
    region = max(1, blocks) * size
    out = [f'memory journal 1,{2 * region},{region},1']
    out += [f'admit,0,1,{part},{size},disk,0,0' for part in range(blocks)]
    out.append('begin,0,0')
    step = 0
    while len(out) <= count:
        part = step % blocks if blocks else 0
        out += ['attempt,0,0,500,0,0,500', 'release,0,0,500']
        if blocks:
            out += [f'pin,0,1,{part},resident', f'unpin,0,1,{part}']
        step += 7919
    return '\n'.join(out[:count + 1]) + '\n'


SIZE = 1000


def filled(blocks, named, level='memory', room=0):
    """The first lines of a journal: a pool with room for so many blocks of 1,000 bytes and for some more, and these blocks, each
    named by its number."""
    region = (blocks + room) * SIZE
    admitted = [f'admit,0,{named(number)},{SIZE},{level},0,0' for number in range(blocks)]
    return [f'memory journal 1,{region},{region},1', *admitted]


def turning(count, blocks):
    """A legal journal of blocks that fill the pool: each admission evicts the least recently used one."""
    out = filled(blocks, lambda number: f'{1 + number},0')
    oldest = 1
    while len(out) + 1 <= count:
        new = oldest + blocks
        out += [f'evict,0,{oldest},0,{SIZE},gone', f'admit,0,{new},0,{SIZE},memory,0,1']
        oldest += 1
    return '\n'.join(out) + '\n'


def asking(count, blocks):
    """A legal journal of blocks that fill the pool: each ask evicts the least recently used one, and gives back to the next."""
    out = [f'memory journal 1,{blocks * SIZE},{(blocks - 1) * SIZE},1']
    out += [f'admit,0,{1 + part},0,{SIZE},memory,{0 if part < blocks - 1 else SIZE},0' for part in range(blocks)]
    out.append('begin,0,0')
    oldest = 1
    while len(out) + 3 <= count:
        out += [f'evict,0,{oldest},0,{SIZE},gone', f'attempt,0,0,{SIZE},{SIZE},1,{SIZE}', f'release,0,0,{SIZE}',
                f'admit,0,{oldest + blocks},0,{SIZE},memory,{SIZE},0']
        oldest += 1
    return '\n'.join(out) + '\n'


def refusing(count, blocks):
    """A legal journal of blocks of one dataset that fill the pool: no further block of it is admitted."""
    out = filled(blocks, lambda number: f'1,{number}')
    while len(out) <= count:
        out.append(f'refused,0,1,{len(out)},{SIZE},0,0')
    return '\n'.join(out) + '\n'


def keeping(count, blocks):
    """A legal journal of blocks of one dataset that stay: each further one evicts the block of another, and is removed for the next."""
    out = filled(blocks, lambda number: f'1,{number}', room=1)
    other = 0
    out.append(f'admit,0,2,{other},{SIZE},memory,0,0')
    while len(out) + 3 <= count:
        out += [f'evict,0,2,{other},{SIZE},gone', f'admit,0,1,{blocks},{SIZE},memory,0,1', f'remove,0,1,{blocks},{SIZE}',
                f'admit,0,2,{other + 1},{SIZE},memory,0,0']
        other += 1
    return '\n'.join(out) + '\n'


def pinned(count, blocks):
    """A legal journal of refusals that only a pin causes: a large block of another dataset has more than is wanted, and without
    it all the others have too little, each of one byte and of its own dataset."""
    size = 2 * blocks
    region = size + blocks
    out = [f'memory journal 1,{region},{region},1']
    out += [f'admit,0,{1 + part},0,1,memory,0,0' for part in range(blocks)]
    out += [f'admit,0,0,0,{size},memory,0,0', 'pin,0,0,0,resident']
    while len(out) <= count:
        out.append(f'refused,0,{len(out)},1,{size},0,0')
    return '\n'.join(out) + '\n'


def removing(count, blocks):
    """A legal journal of blocks of two datasets in turn: one of them is removed each time, and comes again as the last."""
    out = filled(blocks, lambda number: f'{number % 2},{number}', level='disk')
    step = 0
    while len(out) + 1 <= count:
        part = step % blocks
        out += [f'remove,0,{part % 2},{part},{SIZE}', f'admit,0,{part % 2},{part},{SIZE},disk,0,0']
        step += 7919
    return '\n'.join(out) + '\n'


def copying(count, blocks):
    """A legal journal of blocks of level disk that fill the pool: the oldest goes to a copy, is read back, and evicts the next."""
    out = filled(blocks, lambda number: f'{1 + number},0', level='disk')
    oldest, missing = 0, blocks
    while len(out) + 2 <= count:
        out += [f'evict,0,{1 + oldest},0,{SIZE},disk', f'admit,0,{1 + missing},0,{SIZE},disk,0,1', f'pin,0,{1 + oldest},0,copy']
        oldest, missing = (oldest + 1) % (blocks + 1), oldest
    return '\n'.join(out) + '\n'


def emptying(count, blocks):
    """A legal journal of blocks that fill the pool: each ask evicts all of them but one, and gives back, and they come again."""
    out = [f'memory journal 1,{blocks * SIZE},{SIZE},1', 'begin,0,0']
    asked = (blocks - 1) * SIZE
    while len(out) + 2 * blocks + 1 <= count:
        out += [f'admit,0,{1 + part},0,{SIZE},memory,{SIZE if part else 0},0' for part in range(blocks)]
        out += [f'evict,0,{1 + part},0,{SIZE},gone' for part in range(blocks - 1)]
        out += [f'attempt,0,0,{asked},{asked},{blocks - 1},{asked}', f'release,0,0,{asked}', f'remove,0,{blocks},0,{SIZE}']
    return '\n'.join(out) + '\n'


def main(words):
    if words[0] == 'answer':
        print(verdict(sys.stdin.read()))
    elif words[0] == 'drawn':
        print('\n'.join(drawn()))
    elif words[0] == 'many':
        sys.stdout.write(many(int(words[1]), int(words[2])))
    else:
        wrong = 0
        tables = [(path, list(rows_in(path))) for path in sorted(glob.glob(f'{TESTS}/*.rt'))]
        for path, rows in [*tables, ('growths', GROWTHS)]:
            for row, answer in rows:
                given = verdict(text_of(row))
                if given != answer:
                    wrong += 1
                    print(f'{path}: {row[:90]}..: {given}, and not {answer}')
        if sorted(f'{r} -> {a}' for r, a in rows_in(DRAWN)) != sorted(drawn()):
            wrong += 1
            print(f'{DRAWN}: not as drawn')
        print('audit_model: all as the model answers' if not wrong else f'audit_model: {wrong} wrong')
        return 1 if wrong else 0
    return 0


if __name__ == '__main__':
    sys.exit(main(sys.argv[1:]))

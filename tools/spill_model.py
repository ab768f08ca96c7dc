"""A model of a task's memory that shares nothing with the Rattle code. It is written from the rules of asks and spills
alone, and computes what the scripts of `crates/spill_tests/src/tests/*scripts.rt` are answered. Run it at the top of the
repository.

    python3 tools/spill_model.py table NAME..   these tables as they stand there
    python3 tools/spill_model.py faults         the script of which one call of the disk fails, and what is left each time
    python3 tools/spill_model.py check          do the scripts there have the answers that the model gives?

A script's steps are `acquire:C:MUST:WISH`, `feed:C:KEY` and `drain:C`, on the consumers 0 to 3. Each is answered by the
bytes that it got (0 but for an acquire) and what the four consumers use then, or by its refusal, which ends the script.
"""
import re
import sys

NUMBERS = range(4)
COST = 33  # 32, and a key of one byte with an empty value


class NoRoom(Exception):
    pass


class Fault(Exception):
    pass


class Disk:
    """Files by number. The calls that make a file and those that write a page are numbered together, from 0."""

    def __init__(self, fails):
        self.fails, self.calls, self.created = set(fails), 0, 0

    def call(self):
        number = self.calls
        self.calls += 1
        if number in self.fails:
            raise Fault()

    def create(self):
        self.call()
        self.created += 1
        return self.created - 1


class Consumer:
    """A part spiller: the bytes that its spill asks for, the most entries of a run, the most of a page, and the bytes that
    it gives back before it asks, where it has the room."""

    def __init__(self, asks, most, part, early):
        self.asks, self.most, self.part, self.early = asks, most, part, early
        self.used, self.keys, self.runs, self.spills = 0, [], [], False

    def room(self):
        return self.used - COST * len(self.keys)

    def front(self):
        """How many of the first entries ascend."""
        count = 1
        while count < min(self.most, len(self.keys)) and self.keys[count - 1] <= self.keys[count]:
            count += 1
        return count


class Task:
    def __init__(self, maximum, parts, fails=()):
        self.maximum, self.held, self.disk = maximum, 0, Disk(fails)
        self.pool = []  # what was asked of the pool and granted, and what was given back
        self.all = [Consumer(*part) for part in parts]
        self.chosen = []  # the consumers that were told to spill, in order
        self.deepest = 0

    # The pool, for a task alone
    def attempt(self, asked):
        granted = min(asked, self.maximum - self.held)
        self.held += granted
        self.pool.append(f'{asked}={granted}')
        return granted

    def release(self, bytes):
        self.held -= bytes
        if bytes > 0:
            self.pool.append(f'-{bytes}')

    # Choosing
    def choice(self, asker, remainder):
        candidates = [(0 if i == asker else one.used, i) for i, one in enumerate(self.all) if one.keys and not one.spills]
        if not candidates:
            return None
        enough = [use for use, _ in candidates if use >= remainder]
        use = min(enough) if enough else max(use for use, _ in candidates)
        return max(i for u, i in candidates if u == use)

    # An ask: what was got for it, which may be too little where no candidate is left
    def serve(self, asker, must, wish):
        got = self.attempt(wish)
        while got < must:
            who = self.choice(asker, must - got)
            if who is None:
                break
            self.release(self.spill(who))
            got += self.attempt(must - got)
        return got

    # A spill, and what it freed
    def spill(self, who):
        one = self.all[who]
        self.chosen.append(who)
        one.spills = True
        self.deepest = max(self.deepest, sum(other.spills for other in self.all))
        room, freed = one.room(), 0
        if 0 < one.early <= room:
            one.used -= one.early
            freed += one.early
        if one.asks > 0:
            one.used += self.serve(who, one.asks, one.asks)
        count = one.front()
        run, file = one.keys[:count], None
        while count > 0:
            page = min(count, one.part)
            file = self.disk.create() if file is None else file
            self.disk.call()
            one.keys = one.keys[page:]
            count -= page
        # With entries left, the room is again what it was as the spill began.
        spare = one.room() - room if one.keys else one.used
        one.used -= spare
        one.runs.append((file, ''.join(run)))
        one.spills = False
        return freed + spare

    # Calls
    def acquire(self, who, must, wish):
        got = self.serve(who, must, wish)
        if got < must:
            self.release(got)
            raise NoRoom(must)
        self.all[who].used += got
        return got

    def feed(self, who, key):
        one = self.all[who]
        while one.room() < COST:
            must = COST - one.room()
            self.acquire(who, must, max(must, 16384))
        one.keys.append(key)
        return 0

    def drain(self, who):
        while self.all[who].keys:
            self.release(self.spill(who))
        return 0

    def check(self):
        assert 0 <= self.held <= self.maximum
        assert self.held == sum(one.used for one in self.all)
        assert all(one.room() >= 0 and not one.spills for one in self.all)


def run(maximum, parts, fails, script):
    """The script with its answers, and the model after it."""
    task = Task(maximum, parts, fails)
    words = []
    for word in script.split():
        step = word.split('=')[0]
        kind, who, *rest = step.split(':')
        who = int(who)
        try:
            if kind == 'acquire':
                answer = task.acquire(who, int(rest[0]), int(rest[1]))
            elif kind == 'feed':
                answer = task.feed(who, rest[0])
            elif kind == 'drain':
                answer = task.drain(who)
            else:
                raise ValueError(step)
        except NoRoom as refusal:
            words.append(f'{step}=no_room:{refusal.args[0]}')
            break
        except Fault:
            words.append(f'{step}=disk_fault')
            break
        task.check()
        words.append(f'{step}={answer}/' + '.'.join(str(one.used) for one in task.all))
    return words, task


def runs_of(task):
    return ' '.join(f'{i}:{file}:{keys}' for i in NUMBERS for file, keys in task.all[i].runs)


def uses(*amounts):
    """Steps that set what the first consumers use, with an entry each; a negative amount is one without an entry."""
    steps = []
    for who, amount in enumerate(amounts):
        if amount:
            steps.append(f'acquire:{who}:{abs(amount)}:{abs(amount)}')
        if amount > 0:
            steps.append(f'feed:{who}:{"abcd"[who]}')
    return ' '.join(steps) + ' '


ALL = 'drain:0 drain:1 drain:2 drain:3'
PLAIN = (0, 8, 8, 0)


def asks(bytes):
    return (bytes, 8, 8, 0)


NONE = [PLAIN] * 4
ONE = [PLAIN, asks(50), PLAIN, PLAIN]

SCRIPTS = {
    'WORKED': ('The rows that were worked out by hand.', [
        ('the asker spills for a spill', 600, ONE, [], uses(100, 300, 200) + 'acquire:0:250:250'),
        ('the asker spills for a spill, and all are drained', 600, ONE, [], uses(100, 300, 200) + 'acquire:0:250:250 ' + ALL),
        ('another consumer spills for a spill', 600, ONE, [], uses(0, 400, 200) + 'acquire:0:250:250'),
        ('a spill that nobody can help is told of nothing', 600, ONE, [], uses(0, 600, 0) + 'acquire:0:250:250'),
        ('the first append after the first choice fails', 600, ONE, [1], uses(100, 300, 200) + 'acquire:0:250:250'),
    ]),
    'GRANTS': ('What is granted without a spill, and what is refused.', [
        ('a wish is granted whole', 600, NONE, [], 'acquire:0:100:300 feed:0:a acquire:1:1:300 acquire:2:1:1'),
        ('a short grant that is enough spills nobody', 600, NONE, [], uses(200, 300) + 'acquire:2:50:400 ' + ALL),
        ('a grant that is one byte short spills', 600, NONE, [], uses(200, 300) + 'acquire:2:101:400 ' + ALL),
        ('a wish is no more once somebody spilled', 600, NONE, [], uses(200, 300, 50) + 'acquire:3:60:500 ' + ALL),
        ('nobody has an entry left to spill', 600, NONE, [], uses(-300, -200) + 'acquire:2:101:101'),
        ('more than the pool is refused once all are empty', 600, NONE, [], uses(100, 200, 300) + 'acquire:3:601:601'),
        ('more than the pool is refused beside idle bytes', 600, NONE, [], uses(100, -250) + 'acquire:2:351:351'),
        ('all but idle bytes are got', 600, NONE, [], uses(100, -250) + 'acquire:2:350:350 ' + ALL),
        ('a feed that lacks room is refused', 65, NONE, [], uses(-33) + 'feed:1:a'),
        ('a feed takes what the pool has', 100, NONE, [], 'feed:0:a feed:0:b feed:0:c feed:1:d drain:1 feed:1:e ' + ALL),
        ('a feed spills its own consumer', 100, NONE, [], 'feed:0:a feed:0:b feed:0:c feed:0:d feed:0:e drain:0'),
    ]),
    'CHOICES': ('Who is chosen, where no spill asks.', [
        ('the least use that is enough goes', 600, NONE, [], uses(100, 250, 200) + 'acquire:3:150:150 ' + ALL),
        ('a use that is just enough goes', 600, NONE, [], uses(150, 250, 200) + 'acquire:3:200:200 ' + ALL),
        ('the greatest use goes where none is enough', 600, NONE, [], uses(150, 250, 200) + 'acquire:3:300:300 ' + ALL),
        ('of equal uses the higher number goes', 600, NONE, [], uses(200, 200, 200) + 'acquire:3:150:150 ' + ALL),
        ('of equal uses that are too few the higher number goes', 600, NONE,
         [], uses(200, 200, 200) + 'acquire:3:350:350 ' + ALL),
        ('the asker comes last', 600, NONE, [], uses(300, 33, 267) + 'acquire:0:290:290 ' + ALL),
        ('the asker spills itself where nobody else is left', 600, NONE, [], uses(300, 100, 200) + 'acquire:0:301:301 ' + ALL),
        ('the asker alone spills itself', 600, NONE, [], uses(600) + 'acquire:0:600:600 feed:0:b ' + ALL),
        ('a consumer without an entry keeps its bytes', 600, NONE, [], uses(-300, 150, 150) + 'acquire:3:140:140 ' + ALL),
    ]),
    'NESTED': ('Spills within spills.', [
        ('a spill asks and the one that is chosen for it does not', 600, [PLAIN, asks(50), asks(60), PLAIN],
         [], uses(100, 300, 120, 80) + 'acquire:0:250:250 ' + ALL),
        ('three spills stand on one another', 600, [PLAIN, asks(50), asks(60), asks(70)],
         [], uses(100, 300, 120, 80) + 'acquire:0:250:250 ' + ALL),
        ('four spills stand on one another', 600, [asks(40), asks(50), asks(60), asks(70)],
         [], uses(100, 300, 120, 80) + 'acquire:0:250:250 ' + ALL),
        ('an ask within a spill takes two spills', 600, [asks(0), asks(150), PLAIN, PLAIN],
         [], uses(100, 300, 120, 80) + 'acquire:0:250:250 ' + ALL),
        ('an ask within a spill is told of less than it asks', 600, [PLAIN, asks(500), PLAIN, PLAIN],
         [], uses(100, 300, 120, 80) + 'acquire:0:250:250 ' + ALL),
        ('a drain asks and another consumer spills', 600, [PLAIN, asks(50), PLAIN, PLAIN],
         [], uses(100, 300, 120, 80) + 'drain:1 ' + ALL),
        ('a spill that has what it asks spills nobody', 600, [PLAIN, asks(50), PLAIN, PLAIN],
         [], uses(100, 300, 100) + 'drain:1 ' + ALL),
        ('equal uses within a spill', 600, [PLAIN, asks(50), PLAIN, PLAIN],
         [], uses(100, 300, 100, 100) + 'acquire:0:250:250 ' + ALL),
        ('the asker of the outer ask is an ordinary candidate of the inner', 600, [PLAIN, PLAIN, asks(90), PLAIN],
         [], uses(95, 205, 300) + 'acquire:0:280:280 ' + ALL),
        ('a refusal after spills within spills', 600, [asks(40), asks(50), PLAIN, PLAIN],
         [], uses(100, 300, 200) + 'acquire:3:601:700'),
    ]),
    'PARTS': ('Spills that write a part of the entries, and in several pages.', [
        ('the same consumer is chosen again', 300, [PLAIN, (0, 1, 8, 0), PLAIN, PLAIN],
         [], uses(0, 300) + 'feed:1:c feed:1:d acquire:0:60:60 ' + ALL),
        ('the same consumer is chosen until it is empty', 300, [PLAIN, (0, 1, 8, 0), PLAIN, PLAIN],
         [], uses(0, 300) + 'feed:1:c feed:1:d acquire:0:100:100 ' + ALL),
        ('a part goes and then another consumer', 300, [PLAIN, (0, 1, 8, 0), PLAIN, PLAIN],
         [], uses(0, 200, 100) + 'feed:1:c feed:1:d acquire:0:101:101 ' + ALL),
        ('a front that ascends is a run', 300, NONE,
         [], 'acquire:0:300:300 feed:0:b feed:0:d feed:0:a feed:0:c feed:0:c acquire:1:20:20 ' + ALL),
        ('a run is written in pages of one entry', 300, [(0, 8, 1, 0)] * 4,
         [], 'acquire:0:300:300 feed:0:a feed:0:b feed:0:c acquire:1:20:20 ' + ALL),
        ('the second page fails', 300, [(0, 8, 1, 0)] * 4, [2], 'acquire:0:300:300 feed:0:a feed:0:b feed:0:c acquire:1:20:20'),
        ('bytes are given back early', 300, [(0, 1, 8, 16)] * 4,
         [], 'acquire:0:300:300 feed:0:a feed:0:b feed:0:c acquire:1:20:20 acquire:2:40:40 ' + ALL),
        ('bytes are not given back early without the room', 300, [(0, 1, 8, 16)] * 4,
         [], 'acquire:0:114:114 feed:0:a feed:0:b feed:0:c acquire:1:186:186 feed:1:d acquire:2:20:20 acquire:2:40:40 ' + ALL),
        ('bytes are given back early and asked for', 300, [(50, 2, 1, 16), (0, 1, 1, 7), PLAIN, PLAIN],
         [], uses(180, 120) + 'feed:0:b feed:0:c feed:1:c acquire:2:60:60 ' + ALL),
        ('an ask within a spill of a part', 600, [PLAIN, (50, 1, 8, 0), (30, 2, 1, 8), PLAIN],
         [], uses(100, 300, 200) + 'feed:1:a feed:2:d feed:2:b acquire:0:250:250 acquire:3:90:120 ' + ALL),
        ('a disk fault within a spill keeps what was not given back', 600, [PLAIN, (50, 1, 8, 16), (30, 2, 1, 8), PLAIN],
         [3], uses(100, 300, 200) + 'feed:1:a feed:2:d feed:2:b acquire:0:250:250 acquire:3:90:120'),
    ]),
}

# A script with spills within spills, spills of a part, and runs of several pages.
FAULT_SCRIPT = ('call k alone fails', 600, [PLAIN, (50, 2, 1, 16), (30, 1, 8, 0), (40, 8, 8, 8)], [],
                uses(100, 200, 200, 100) + 'feed:1:c feed:2:d feed:3:a acquire:0:250:250 acquire:3:90:120 ' + ALL)


FILES = ['scripts', 'choice_scripts', 'nested_scripts', 'part_scripts']


def number(n):
    return f'{n:_}' if n >= 1000 else str(n)


def table(names):
    for table, (about, rows) in SCRIPTS.items():
        if table not in names:
            continue
        print(f'/// {about}')
        print(f'pub const {table}: &[Script] = &[')
        for name, maximum, parts, fails, script in rows:
            print('\n'.join('    ' + line for line in script_text((name, maximum, parts, fails, script))) + ',')
        print('];\n')


def text(words, indent, width=88):
    """Words as one Rust string literal over lines."""
    lines, line = [], ''
    for word in words:
        if line and len(line) + 1 + len(word) > width:
            lines.append(line + ' \\')
            line = word
        else:
            line = f'{line} {word}' if line else word
    lines.append(line)
    return '"' + ('\n' + ' ' * indent).join(lines) + '"'


def script_text(row):
    """A script with its answers, as the fields of a `Script`."""
    name, maximum, parts, fails, script = row
    words, task = run(maximum, parts, fails, script)
    return ['Script {', f'    name: "{name}",', f'    max: {number(maximum)},',
            f'    parts: [{", ".join(map(str, parts))}],', f'    fails: &{fails},', f'    script: {text(words, 12)},',
            f'    pool: {text(task.pool, 12)},', f'    held: {task.held},', f'    runs: "{runs_of(task)}",',
            f'    created: {task.disk.created},', '}']


def faults():
    """For each call of the disk, what is left where it alone fails."""
    name, maximum, parts, _, script = FAULT_SCRIPT
    whole, task = run(maximum, parts, [], script)
    rows = []
    for call in range(task.disk.calls):
        words, task = run(maximum, parts, [call], script)
        assert words[-1].endswith('=disk_fault') and words[:-1] == whole[:len(words) - 1]
        rows.append(f'({len(words) - 1}, {task.held}, "{runs_of(task)}", {task.disk.created}),')
    print('/// The script of which one call of the disk fails.')
    print('pub const FAULT_SCRIPT: Script = ' + '\n'.join(script_text(FAULT_SCRIPT)) + ';\n')
    print('/// Where call 0 fails, call 1, and so on to its last: how many steps are answered before, what the task held at its')
    print('/// end, the runs, and how many files were made.')
    print('pub const FAULTS: &[(usize, u64, &str, u64)] = &[')
    for row in rows:
        print('    ' + row)
    print('];')


def check():
    folder = 'crates/spill_tests/src/tests/'
    source = ''.join(open(folder + name + '.rt').read() for name in FILES)
    row = (r'name: "([^"]*)",\s*max: ([\d_]+),\s*parts: \[([^\]]*)\],\s*fails: &\[([^\]]*)\],\s*script: "([^"]*)",'
           r'\s*pool: "([^"]*)",\s*held: ([\d_]+),\s*runs: "([^"]*)",\s*created: (\d+),')
    found = re.findall(row, source)
    names = []
    for name, maximum, parts, fails, script, pool, held, runs, created in found:
        parts = [tuple(map(int, part.split(','))) for part in re.findall(r'\(([^)]*)\)', parts)]
        assert len(parts) == 4, name
        fails = [int(n) for n in fails.split(',') if n.strip()]
        script = ' '.join(script.replace('\\', ' ').split())
        words, task = run(int(maximum.replace('_', '')), parts, fails, script)
        assert ' '.join(words) == script, (name, words)
        assert task.pool == pool.replace('\\', ' ').split(), (name, task.pool)
        assert (task.held, runs_of(task), task.disk.created) == (int(held.replace('_', '')), runs, int(created)), name
        names.append(name)
    wanted = [row[0] for _, rows in SCRIPTS.values() for row in rows] + [FAULT_SCRIPT[0]]
    assert sorted(names) == sorted(wanted), 'other scripts'
    _, maximum, parts, _, script = FAULT_SCRIPT
    left = re.findall(r'\((\d+), (\d+), "([^"]*)", (\d+)\)', source)
    assert len(left) == run(maximum, parts, [], script)[1].disk.calls, 'another number of calls'
    for call, (answered, held, runs, created) in enumerate(left):
        words, task = run(maximum, parts, [call], script)
        wanted = (int(answered), int(held), runs, int(created))
        assert (len(words) - 1, task.held, runs_of(task), task.disk.created) == wanted, call
    print(f'{len(names)} scripts and {len(left)} faults have the answers of the model')


if __name__ == '__main__':
    if sys.argv[1] == 'table':
        table(sys.argv[2:] or SCRIPTS)
    elif sys.argv[1] == 'faults':
        faults()
    else:
        check()

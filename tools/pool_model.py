"""A model of the pool's rules that shares nothing with the Rattle code. It computes what the scripts of
`crates/pool_tests/src/tests` are answered. Run it at the top of the repository.

    python3 tools/pool_model.py check     do the scripts without blocks, in asks.rt, have the answers that the model gives, and so the
                                          growths that were worked by hand, below; do the tables of scripts.rt, copies.rt and faults.rt,
                                          and the journal of docs/JOURNAL.md, stand there as it prints them?
    python3 tools/pool_model.py table     scripts.rt, copies.rt: the scripts with blocks, with answers, journals, blocks and files
    python3 tools/pool_model.py faults    faults.rt: the script with a store disk that fails at one call, and what each call changes
    python3 tools/pool_model.py journal   the journal of docs/JOURNAL.md and examples/journal.csv
"""
import re
import sys

TESTS = 'crates/pool_tests/src/tests'


class Disk:
    """Files by number. The calls of all methods are numbered together, from 0; those in `fails` fail."""

    def __init__(self, fails=()):
        self.fails, self.calls, self.log = set(fails), 0, []
        self.files, self.created = set(), 0

    def call(self, what):
        number = self.calls
        self.calls += 1
        self.log.append(what)
        return number not in self.fails

    def write(self, what):
        """A new file, or None. A file that was begun is removed, if the disk does so."""
        if not self.call(('write', what)):
            return None
        file = self.created
        self.created += 1
        self.files.add(file)
        if not self.call(('write', what)):
            self.remove(file, ('clean', what))
            return None
        return file

    def remove(self, file, what):
        if self.call(what):
            self.files.discard(file)


class Model:
    def __init__(self, maximum, storage, workers, fails=()):
        self.opening, self.maximum, self.workers = maximum, maximum, workers
        self.region = maximum * storage // 1000
        self.storage_pool = self.region
        self.execution_pool = maximum - self.region
        self.blocks = []  # [dataset, part, size, level], the least recently used first
        self.pins = {}  # worker: (dataset, part)
        self.open = {}  # worker: task
        self.held, self.active = {}, set()
        self.copies = {}  # (dataset, part): (file, size)
        self.disk = Disk(fails)
        self.journal = []
        self.evictions = 0

    # Sizes
    def block_limit(self):
        return self.region // self.workers

    def stored(self):
        return sum(block[2] for block in self.blocks)

    def exec(self):
        return sum(self.held.values())

    def storage_free(self):
        return self.storage_pool - self.stored()

    def execution_free(self):
        return self.execution_pool - self.exec()

    def add(self, *words):
        self.journal.append(','.join(str(word) for word in words))

    def begin(self, worker, task):
        assert worker not in self.open
        self.open[worker] = task
        self.held[task] = 0
        self.add('begin', worker, task)

    # An ask
    def attempt(self, worker, asked):
        task = self.open[worker]
        self.active.add(task)
        extra = asked - self.execution_free()
        target = 0
        if extra > 0:
            reclaimable = max(self.storage_free(), self.storage_pool - self.region)
            if reclaimable > 0:
                target = min(extra, reclaimable)
        unused = min(target, self.storage_free())
        need = target - unused
        gone = self.victims(need, None) if need > 0 else []
        for block in gone:
            self.evict(worker, block)
        moved = unused + sum(block[2] for block in gone)
        self.storage_pool -= moved
        self.execution_pool += moved
        limit = self.maximum - min(self.stored(), self.region)
        greatest = limit // len(self.active)
        least = self.execution_pool // (2 * len(self.active))
        most = min(asked, max(0, greatest - self.held[task]))
        grant = min(most, self.execution_free())
        wait = grant < asked and self.held[task] + grant < least
        if not wait:
            self.held[task] += grant
        answer = 'wait' if wait else grant
        self.add('attempt', worker, task, asked, moved, len(gone), answer)
        return answer

    # Releases and ends
    def release(self, worker, n):
        task = self.open[worker]
        freed = min(n, self.held[task])
        self.held[task] -= freed
        if self.held[task] == 0:
            self.active.discard(task)
        self.add('release', worker, task, freed)
        return freed

    def end(self, worker):
        task = self.open.pop(worker)
        freed = self.held.pop(task)
        self.active.discard(task)
        self.add('end', worker, task, freed)
        return freed

    # Victims
    def victims(self, need, own):
        gone, freed = [], 0
        for block in self.blocks:
            if freed >= need:
                break
            if (block[0], block[1]) in self.pins.values() or block[0] == own:
                continue
            gone.append(block)
            freed += block[2]
        return gone if freed >= need else []

    def evict(self, worker, block):
        dataset, part, size, level = block
        self.blocks.remove(block)
        fate = 'gone'
        if level == 'disk':
            if (dataset, part) in self.copies:
                fate = 'disk'
            else:
                file = self.disk.write((self.evictions, dataset, part))
                if file is not None:
                    self.copies[dataset, part] = (file, size)
                    fate = 'disk'
        self.evictions += 1
        self.add('evict', worker, dataset, part, size, fate)

    # An admission
    def resident(self, dataset, part):
        return [block for block in self.blocks if block[:2] == [dataset, part]]

    def admit(self, worker, dataset, part, size, level):
        if self.resident(dataset, part):
            return 'resident'
        if size > self.block_limit() or size > self.maximum - self.exec():
            self.add('refused', worker, dataset, part, size, 0, 0)
            return 'refused'
        borrowed = 0
        if size > self.storage_free():
            borrowed = min(self.execution_free(), size - self.storage_free())
        self.execution_pool -= borrowed
        self.storage_pool += borrowed
        need = max(0, size - self.storage_free())
        gone = self.victims(need, dataset) if need > 0 else []
        for block in gone:
            self.evict(worker, block)
        if size <= self.storage_free():
            self.blocks.append([dataset, part, size, level])
            self.add('admit', worker, dataset, part, size, level, borrowed, len(gone))
            return 'in'
        self.add('refused', worker, dataset, part, size, borrowed, len(gone))
        return 'refused'

    # Pins
    def pin(self, worker, dataset, part):
        assert worker not in self.pins
        found = self.resident(dataset, part)
        if found:
            self.blocks.remove(found[0])
            self.blocks.append(found[0])
            self.pins[worker] = (dataset, part)
            self.add('pin', worker, dataset, part, 'resident')
            return 'hit'
        if (dataset, part) in self.copies and self.disk.call(('read', (dataset, part))):
            self.add('pin', worker, dataset, part, 'copy')
            return 'copy'
        return 'miss'

    def unpin(self, worker):
        dataset, part = self.pins.pop(worker)
        self.add('unpin', worker, dataset, part)

    def remove(self, worker, dataset):
        for block in sorted(block for block in self.blocks if block[0] == dataset):
            if (block[0], block[1]) not in self.pins.values():
                self.blocks.remove(block)
                self.add('remove', worker, block[0], block[1], block[2])
        for name in [name for name in self.copies if name[0] == dataset]:
            self.disk.remove(self.copies.pop(name)[0], ('forget', name))

    def grow(self, worker, n):
        """Both pools together get so many bytes more, all of them execution's. Region, block limit and floor stay."""
        assert worker == 0 and 1 <= n <= 2 ** 36 and self.maximum + n <= 2 ** 41
        self.maximum += n
        self.execution_pool += n
        self.add('grow', worker, n)

    def check(self):
        assert 0 <= self.stored() <= self.storage_pool and 0 <= self.exec() <= self.execution_pool
        assert self.storage_pool + self.execution_pool == self.maximum
        pinned = set(self.pins.values())
        assert sum(block[2] for block in self.blocks if (block[0], block[1]) in pinned) <= self.region


def run(maximum, storage, workers, tasks, script, fails=()):
    """The script with its answers, and the model after it."""
    model = Model(maximum, storage, workers, fails)
    for worker in range(tasks):
        model.begin(worker, worker)
    number, words = tasks, []
    for word in script.split():
        step = word.split('=')[0]
        kind, worker, *rest = step.split(':')
        worker, answer = int(worker), None
        if kind == 'begin':
            model.begin(worker, number)
        elif kind == 'ask':
            answer = model.attempt(worker, int(rest[0]))
        elif kind == 'release':
            answer = model.release(worker, int(rest[0]))
        elif kind == 'end':
            answer = model.end(worker)
        elif kind == 'admit':
            dataset, part = rest[0].split('.')
            answer = model.admit(worker, int(dataset), int(part), int(rest[1]), rest[2])
        elif kind == 'pin':
            dataset, part = rest[0].split('.')
            answer = model.pin(worker, int(dataset), int(part))
        elif kind == 'unpin':
            model.unpin(worker)
        elif kind == 'remove':
            model.remove(worker, int(rest[0]))
        elif kind == 'grow':
            model.grow(worker, int(rest[0]))
        else:
            raise ValueError(step)
        model.check()
        number += 1
        words.append(step if answer is None else f'{step}={answer}')
    return words, model


SCRIPTS = [
    ('blocks go in use order', 1_200, 500, 1, 1,
     'admit:0:1.0:200:disk admit:0:2.0:200:memory admit:0:3.0:200:disk admit:0:4.0:200:memory admit:0:5.0:200:disk ask:0:300 '
     'ask:0:200 ask:0:100'),
    ('a pin makes a block the last to go', 600, 500, 1, 1,
     'admit:0:1.0:150:disk admit:0:2.0:150:memory admit:0:3.0:150:memory pin:0:1.0 unpin:0 pin:0:2.0 unpin:0 ask:0:150 '
     'ask:0:150 pin:0:3.0 pin:0:1.0 unpin:0 pin:0:2.0'),
    ('an admission that finds the block in memory is no use of it', 600, 500, 1, 1,
     'admit:0:1.0:150:memory admit:0:2.0:150:memory admit:0:3.0:150:memory admit:0:1.0:150:memory ask:0:160 pin:0:1.0'),
    ('a block in memory stays as it was admitted', 600, 500, 1, 1,
     'admit:0:1.0:300:memory ask:0:300 admit:0:1.1:101:memory admit:0:1.0:200:disk admit:0:1.0:601:disk pin:0:1.1 pin:0:1.0'),
    ('a pin keeps a block from an ask', 600, 500, 1, 1,
     'admit:0:1.0:300:disk admit:0:2.0:300:disk pin:0:1.0 ask:0:600 unpin:0 ask:0:300'),
    ('a pin keeps a block from an admission', 600, 500, 1, 1,
     'admit:0:1.0:300:disk admit:0:2.0:300:disk pin:0:1.0 admit:0:3.0:300:disk unpin:0 admit:0:2.0:150:disk pin:0:1.0'),
    ('a block puts out none of its own dataset', 600, 500, 1, 1,
     'ask:0:300 admit:0:1.0:100:disk admit:0:1.1:100:disk admit:0:1.2:100:disk admit:0:1.3:100:disk admit:0:2.0:100:disk '
     'admit:0:1.3:100:disk'),
    ('those of its own dataset are passed over on the way', 900, 500, 1, 1,
     'ask:0:450 admit:0:1.0:150:disk admit:0:2.0:150:disk admit:0:2.1:150:memory admit:0:1.1:200:disk pin:0:1.0 unpin:0 '
     'pin:0:2.0 pin:0:2.1'),
    ('no block passes the part of the region of each worker', 600, 500, 2, 1,
     'admit:0:1.0:151:disk admit:1:1.1:150:disk admit:1:1.2:300:memory ask:0:300 admit:1:1.2:150:memory'),
    ('a region without bytes takes no block', 600, 0, 1, 1,
     'admit:0:1.0:100:disk ask:0:600 admit:0:1.0:100:disk end:0 admit:0:1.0:100:disk'),
    ('no block passes what tasks leave', 600, 1000, 1, 1,
     'ask:0:400 release:0:100 admit:0:1.0:301:disk admit:0:1.0:300:disk ask:0:100 end:0 admit:0:1.1:301:disk admit:0:1.2:600:disk '
     'admit:0:2.0:600:disk'),
    ('a block of just what tasks leave puts others out', 600, 500, 1, 1,
     'ask:0:300 admit:0:1.0:300:memory admit:0:2.0:300:disk ask:0:1 admit:0:3.0:300:disk release:0:1 admit:0:3.0:300:disk'),
    ('just what is missing is borrowed', 600, 500, 1, 1,
     'admit:0:1.0:300:disk admit:0:2.0:100:disk ask:0:50 admit:0:3.0:150:disk ask:0:1 admit:0:4.0:100:disk'),
    ('what storage has free comes first', 600, 500, 1, 1,
     'admit:0:1.0:200:memory admit:0:2.0:100:memory admit:0:3.0:100:memory remove:0:2 admit:0:4.0:150:memory '
     'admit:0:5.0:150:memory admit:0:6.0:110:memory'),
    ('what was borrowed stays after a refusal', 600, 500, 1, 1,
     'ask:0:100 admit:0:1.0:250:memory pin:0:1.0 admit:0:2.0:300:memory ask:0:100 unpin:0 admit:0:2.0:300:memory'),
    ('nothing goes where all of them are too few', 900, 500, 1, 1,
     'ask:0:450 admit:0:1.0:200:disk admit:0:2.0:100:disk admit:0:2.1:100:disk admit:0:1.1:251:disk admit:0:1.1:250:disk'),
    ('nothing goes for an admission while all are pinned', 600, 500, 2, 1,
     'ask:0:300 admit:0:1.0:150:disk admit:0:2.0:150:disk pin:0:1.0 pin:1:2.0 admit:0:3.0:100:disk unpin:1 admit:0:3.0:100:disk'),
    ('execution takes back down to the region alone', 600, 500, 1, 1,
     'admit:0:1.0:150:disk admit:0:2.0:150:disk admit:0:3.0:150:disk admit:0:4.0:150:disk ask:0:600 ask:0:1'),
    ('execution takes no block where storage borrowed nothing', 600, 500, 1, 1,
     'admit:0:1.0:300:disk ask:0:301 ask:0:100 release:0:50 ask:0:51'),
    ('what storage has free goes before any block', 600, 500, 1, 1,
     'admit:0:1.0:200:disk admit:0:2.0:200:disk remove:0:1 ask:0:300 ask:0:100 admit:0:1.0:100:disk ask:0:101'),
    ('several blocks go for one ask', 1_200, 500, 1, 1,
     'admit:0:1.0:200:disk admit:0:1.1:200:memory admit:0:2.0:200:disk admit:0:2.1:200:memory admit:0:3.0:200:disk '
     'admit:0:3.1:200:memory ask:0:500'),
    ('several blocks go for one admission', 1_200, 500, 1, 1,
     'ask:0:600 admit:0:1.0:150:disk admit:0:2.0:150:memory admit:0:3.0:150:disk admit:0:4.0:150:memory pin:0:2.0 '
     'admit:0:5.0:301:disk unpin:0 admit:0:6.0:299:disk'),
    ('a large block takes storage below its region', 1_000, 500, 1, 1,
     'admit:0:1.0:400:disk admit:0:2.0:300:memory ask:0:400 ask:0:400 admit:0:1.0:300:disk admit:0:3.0:100:disk'),
    ('the last of three blocks takes storage below its region', 1_500, 500, 1, 1,
     'admit:0:1.0:150:disk admit:0:2.0:150:disk admit:0:3.0:700:disk admit:0:4.0:150:memory ask:0:651 ask:0:700 ask:0:1 '
     'admit:0:5.0:151:memory'),
    ('two workers pin one block', 600, 500, 2, 1,
     'admit:0:1.0:150:disk admit:1:2.0:150:disk admit:1:3.0:150:memory pin:0:1.0 pin:1:1.0 unpin:0 ask:0:300 ask:0:100 '
     'pin:0:2.0 unpin:1 admit:1:4.0:140:disk'),
    ('four workers pin all that the region takes', 800, 500, 4, 4,
     'admit:0:1.0:100:disk admit:1:2.0:100:disk admit:2:3.0:100:disk admit:3:4.0:100:disk admit:0:5.0:100:disk '
     'admit:1:5.1:100:memory pin:0:1.0 pin:1:2.0 pin:2:3.0 pin:3:4.0 ask:0:400 ask:1:200 unpin:2 ask:3:100 remove:2:3 ask:3:100'),
    ('a block comes back after its eviction', 600, 500, 1, 1,
     'admit:0:1.0:250:disk admit:0:2.0:200:disk ask:0:300 pin:0:1.0 admit:0:1.0:250:disk end:0 admit:0:1.0:250:disk '
     'pin:0:1.0 unpin:0 pin:0:2.0'),
    ('a copy is written once', 600, 500, 1, 1,
     'admit:0:1.0:300:disk admit:0:2.0:300:disk ask:0:300 end:0 pin:0:1.0 admit:0:1.0:300:disk begin:0 ask:0:300 '
     'pin:0:1.0 unpin:0 end:0 admit:0:2.0:300:disk pin:0:2.0 unpin:0 begin:0 ask:0:300 pin:0:1.0 pin:0:2.0'),
    ('a removal forgets copies and their files', 600, 500, 1, 1,
     'admit:0:1.0:150:disk admit:0:2.0:150:disk admit:0:1.1:150:disk admit:0:3.0:150:disk ask:0:300 pin:0:1.0 pin:0:2.0 '
     'remove:0:1 pin:0:1.0 pin:0:1.1 pin:0:2.0 admit:0:1.0:150:disk ask:0:150 admit:0:4.0:150:disk admit:0:5.0:300:disk pin:0:1.0'),
    ('a block of level memory leaves the copy that it has', 600, 500, 1, 1,
     'admit:0:1.0:300:disk admit:0:2.0:300:disk ask:0:300 end:0 admit:0:1.0:300:memory pin:0:2.0 unpin:0 begin:0 ask:0:300 '
     'pin:0:1.0 end:0 admit:0:1.0:300:memory remove:0:1 pin:0:1.0'),
    ('a block of level memory leaves no copy', 600, 500, 1, 1,
     'admit:0:1.0:300:memory admit:0:2.0:300:memory ask:0:300 pin:0:1.0 end:0 admit:0:1.0:300:disk begin:0 ask:0:300 pin:0:2.0 '
     'end:0 admit:0:3.0:300:memory begin:0 ask:0:300 pin:0:1.0'),
    ('a removal leaves a pinned block', 600, 500, 1, 1,
     'admit:0:1.0:100:disk admit:0:1.1:100:disk admit:0:1.2:100:memory admit:0:2.0:100:disk pin:0:1.1 remove:0:1 unpin:0 '
     'pin:0:1.0 pin:0:1.1 unpin:0 remove:0:1 pin:0:1.1'),
    ('a removal forgets the copy of a block that is pinned', 600, 500, 2, 1,
     'admit:0:1.0:150:disk admit:0:2.0:150:disk admit:0:3.0:150:memory ask:0:300 end:0 admit:0:1.0:150:disk pin:0:1.0 '
     'remove:1:1 unpin:0 begin:0 pin:1:2.0 admit:1:4.0:150:memory admit:1:5.0:150:memory ask:0:300 pin:0:1.0'),
    ('a removal goes up by part', 600, 500, 1, 1,
     'admit:0:1.7:100:disk admit:0:1.2:100:memory admit:0:2.0:100:disk admit:0:1.9:100:disk admit:0:1.4:100:disk pin:0:1.2 '
     'unpin:0 remove:0:1 remove:0:1 pin:0:2.0'),
    ('a removal of what is nowhere makes no entry', 600, 500, 1, 1,
     'remove:0:1 admit:0:1.0:300:disk remove:0:2 admit:0:2.0:300:disk ask:0:300 remove:0:1 pin:0:1.0 remove:0:3'),
    ('a copy that is read is no pin and no use', 600, 500, 2, 1,
     'admit:0:1.0:150:disk admit:0:2.0:150:disk admit:0:3.0:150:disk ask:0:300 pin:0:1.0 pin:0:1.0 pin:1:1.0 pin:0:2.0 '
     'unpin:0 ask:0:150 pin:1:3.0'),
    ('a task that waits has put a block out', 1_000, 400, 2, 2,
     'ask:0:560 admit:0:1.0:100:disk admit:1:2.0:170:disk admit:1:2.1:170:disk ask:1:300 pin:1:1.0 ask:1:300 release:0:64 '
     'ask:1:300 release:0:1 ask:1:300'),
    ('a task that waits has put two blocks out', 3_000, 400, 2, 2,
     'ask:0:1600 admit:0:1.0:150:disk admit:1:1.1:150:memory admit:1:2.0:600:disk admit:0:2.1:500:disk ask:1:900 ask:1:900 '
     'ask:0:100 end:0 ask:1:900 ask:1:2000'),
    ('a task waits while storage keeps its region', 600, 500, 2, 2,
     'admit:0:1.0:150:disk admit:1:1.1:150:disk ask:0:300 ask:1:100 release:0:150 ask:1:100 remove:1:1 ask:1:300'),
    ('what moved for a wait stays moved', 800, 500, 2, 2,
     'ask:0:400 admit:1:1.0:200:disk admit:1:2.0:200:memory admit:1:3.0:100:disk ask:1:300 release:0:100 admit:1:3.0:200:disk '
     'ask:1:300 release:0:150 ask:1:300'),
    ('blocks lower the fair share up to the region', 1_000, 500, 2, 2,
     'admit:0:1.0:250:disk admit:1:2.0:150:disk ask:0:300 ask:1:300 ask:0:100 remove:0:2 ask:0:100 ask:1:100'),
    ('sixteen workers share a region', 3_200, 500, 16, 16,
     'admit:0:1.0:100:disk admit:1:1.1:100:memory admit:2:1.2:100:disk admit:3:1.3:100:disk admit:15:1.15:101:disk '
     'admit:15:1.15:100:disk pin:15:1.0 pin:14:1.0 pin:13:1.15 ask:0:2900 ask:15:200 remove:7:1 ask:15:10'),
    ('larger pools in odd sizes', 100_003, 613, 3, 3,
     'ask:0:38701 admit:0:1.0:20434:disk admit:1:1.0:20433:disk admit:1:1.1:20433:memory admit:2:2.0:20433:disk '
     'admit:0:2.1:19999:disk ask:1:7777 pin:2:1.1 ask:2:12345 release:0:10101 admit:1:3.0:20433:disk ask:2:12345 ask:1:10000 '
     'unpin:2 end:0 ask:1:29999 end:1 remove:2:2 ask:2:77777 end:2'),
]

# A script with evictions of blocks of level disk, for asks and for admissions, copies that are read back, and removals. A
# block that is missed is made anew, so the admissions are the same whatever a pin was answered.
FAULTS = (600, 500, 1, 1,
          'admit:0:1.0:150:disk admit:0:1.1:150:disk admit:0:2.0:150:disk admit:0:3.0:150:memory ask:0:300 pin:0:1.0 pin:0:1.0 '
          'end:0 admit:0:1.0:150:disk pin:0:1.1 pin:0:1.1 admit:0:1.1:150:disk begin:0 ask:0:300 pin:0:2.0 pin:0:2.0 '
          'admit:0:4.0:300:disk pin:0:1.0 pin:0:1.0 admit:0:5.0:151:disk pin:0:4.0 pin:0:4.0 pin:0:2.0 remove:0:1 pin:0:1.0 '
          'remove:0:5 end:0 pin:0:2.0 pin:0:4.0')

# What docs/JOURNAL.md goes through.
JOURNAL = (1_000, 400, 2, 2,
           'ask:0:300 admit:1:1.0:200:disk admit:1:1.1:100:disk ask:0:400 ask:1:200 ask:0:50 release:0:100 ask:1:200 release:0:120 '
           'ask:1:200 ask:1:100 release:0:280 admit:0:2.0:200:memory pin:0:1.0 ask:0:100 pin:1:1.1 admit:1:1.1:100:disk release:1:10 '
           'admit:1:1.2:200:disk unpin:0 end:0 ask:1:490 grow:0:500 ask:1:600 remove:0:1 end:1')

# Pools that grow, worked by hand: a script with its answers, the journal's entries behind the begins, and the bytes of the
# execution and of the storage pool after it.
GROWTHS = [
    ('a task that waits is granted after a growth', (600, 500, 2, 2),
     'ask:0:500=500 ask:1:200=wait grow:0:400 ask:1:200=200 ask:0:50=0',
     'attempt,0,0,500,200,0,500 attempt,1,1,200,100,0,wait grow,0,400 attempt,1,1,200,0,0,200 attempt,0,0,50,0,0,0', 1_000, 0),
    ('a growth leaves blocks and the storage pool', (600, 500, 1, 1),
     'admit:0:1.0:200:disk=in admit:0:2.0:200:memory=in grow:0:300 ask:0:500=500 ask:0:200=200 ask:0:200=0 pin:0:1.0=copy pin:0:2.0=hit',
     'admit,0,1,0,200,disk,0,0 admit,0,2,0,200,memory,100,0 grow,0,300 attempt,0,0,500,0,0,500 evict,0,1,0,200,disk '
     'attempt,0,0,200,200,1,200 attempt,0,0,200,0,0,0 pin,0,1,0,copy pin,0,2,0,resident', 700, 200),
    ('a block borrows what a growth gave', (600, 500, 1, 1),
     'ask:0:300=300 admit:0:1.0:300:memory=in grow:0:200 admit:0:1.1:200:disk=in admit:0:1.2:100:disk=refused admit:0:1.3:301:disk=refused',
     'attempt,0,0,300,0,0,300 admit,0,1,0,300,memory,0,0 grow,0,200 admit,0,1,1,200,disk,200,0 refused,0,1,2,100,0,0 '
     'refused,0,1,3,301,0,0', 300, 500),
    ('a lone task takes all before a growth and after it', (600, 500, 1, 1),
     'ask:0:700=600 grow:0:150 ask:0:200=150 grow:0:1 ask:0:1=1 ask:0:1=0 end:0=751',
     'attempt,0,0,700,300,0,600 grow,0,150 attempt,0,0,200,0,0,150 grow,0,1 attempt,0,0,1,0,0,1 attempt,0,0,1,0,0,0 end,0,0,751', 751, 0),
    ('a growth raises what a task that waits has to reach', (600, 0, 3, 3),
     'ask:0:450=450 ask:1:300=150 ask:2:100=wait grow:0:60 ask:2:100=wait grow:0:60 ask:2:120=120 end:1=150 ask:2:200=150',
     'attempt,0,0,450,0,0,450 attempt,1,1,300,0,0,150 attempt,2,2,100,0,0,wait grow,0,60 attempt,2,2,100,0,0,wait grow,0,60 '
     'attempt,2,2,120,0,0,120 end,1,1,150 attempt,2,2,200,0,0,150', 720, 0),
    ('a pool without a byte grows to 2^36', (0, 500, 1, 1),
     'ask:0:1=0 grow:0:68719476736 ask:0:68719476737=68719476736',
     'attempt,0,0,1,0,0,0 grow,0,68719476736 attempt,0,0,68719476737,0,0,68719476736', 2 ** 36, 0),
]


# The tables, each with what it is about and its scripts.
TABLES = {
    'USES': ('the order in which blocks were used, and pins', [
        'blocks go in use order',
        'a pin makes a block the last to go',
        'an admission that finds the block in memory is no use of it',
        'a block in memory stays as it was admitted',
        'a pin keeps a block from an ask',
        'a pin keeps a block from an admission',
        'two workers pin one block',
    ]),
    'LIMITS': ('which blocks find no room', [
        'a block puts out none of its own dataset',
        'those of its own dataset are passed over on the way',
        'no block passes the part of the region of each worker',
        'a region without bytes takes no block',
        'no block passes what tasks leave',
        'a block of just what tasks leave puts others out',
        'nothing goes where all of them are too few',
        'nothing goes for an admission while all are pinned',
    ]),
    'LOANS': ('what storage borrows, and what it gives back', [
        'just what is missing is borrowed',
        'what storage has free comes first',
        'what was borrowed stays after a refusal',
        'execution takes back down to the region alone',
        'execution takes no block where storage borrowed nothing',
        'what storage has free goes before any block',
    ]),
    'EVICTIONS': ('several blocks, and large ones', [
        'several blocks go for one ask',
        'several blocks go for one admission',
        'a large block takes storage below its region',
        'the last of three blocks takes storage below its region',
    ]),
    'COPIES': ('copies on the store disk', [
        'a block comes back after its eviction',
        'a copy is written once',
        'a block of level memory leaves the copy that it has',
        'a block of level memory leaves no copy',
        'a copy that is read is no pin and no use',
    ]),
    'REMOVALS': ('datasets that are removed', [
        'a removal forgets copies and their files',
        'a removal leaves a pinned block',
        'a removal forgets the copy of a block that is pinned',
        'a removal goes up by part',
        'a removal of what is nowhere makes no entry',
    ]),
    'WAITS': ('tasks that wait beside blocks', [
        'a task that waits has put a block out',
        'a task that waits has put two blocks out',
        'a task waits while storage keeps its region',
        'what moved for a wait stays moved',
        'blocks lower the fair share up to the region',
    ]),
    'CROWDS': ('several workers with blocks and tasks', [
        'four workers pin all that the region takes',
        'sixteen workers share a region',
        'larger pools in odd sizes',
    ]),
}


def line(words, width=96):
    """Words as one line of a Rust text, which may be written over several."""
    lines, line = [], ''
    for word in words:
        if line and len(line) + 1 + len(word) > width:
            lines.append(line + ' \\')
            line = '    ' + word
        else:
            line = f'{line} {word}' if line else word
    lines.append(line)
    return '\n'.join(lines)


def joined(text):
    """A Rust text as it is read: lines that end by a backslash go on in the next."""
    return re.sub(r'\\\n\s*', '', text)


def check():
    with open(f'{TESTS}/asks.rt', encoding='utf-8') as file:
        asks = file.read()
    scripts = [script for table in re.findall('"([^"]*)"', asks) for script in joined(table).split('\n\n')]
    for script in scripts:
        head, wanted = script.split('\n')
        maximum, storage, workers, tasks, name = head.split(' ', 4)
        words, _ = run(int(maximum), int(storage), int(workers), int(tasks), wanted)
        assert words == wanted.split(), (name, words, wanted)
    print(len(scripts), 'scripts agree')
    for name, sizes, script, entries, execution, storage in GROWTHS:
        words, model = run(*sizes, script)
        assert words == script.split(), (name, words)
        assert model.journal[sizes[3]:] == entries.split(), (name, model.journal)
        assert (model.execution_pool, model.storage_pool) == (execution, storage), name
        assert model.region == model.opening * sizes[1] // 1000, name
    print(len(GROWTHS), 'growths agree')
    for names, texts in (('scripts.rt', 'copies.rt'), tables()), (('faults.rt',), fault_tables()):
        source = ''
        for name in names:
            with open(f'{TESTS}/{name}', encoding='utf-8') as file:
                source += file.read()
        for text in texts:
            assert text in source, text
        print(len(texts), 'tables of', ' and '.join(names), 'agree')
    for name in 'docs/JOURNAL.md', 'examples/journal.csv':
        with open(name, encoding='utf-8') as file:
            assert journal_text() in file.read(), name
    print('the journal of docs/JOURNAL.md agrees')


def storage_script(name, maximum, storage, workers, tasks, script):
    """A script with its answers, its journal, and what is left after it, as lines of a Rust text."""
    words, model = run(maximum, storage, workers, tasks, script)
    pinned = set(model.pins.values())
    blocks = [f'{d}.{p}:{s}' + (':pinned' if (d, p) in pinned else '') for d, p, s, _ in model.blocks]
    return '\n'.join([
        f'{maximum} {storage} {workers} {tasks} {name}',
        line(words),
        line(['journal', *model.journal]),
        line(['blocks', *blocks]),
        f'files {model.disk.created} {len(model.disk.files)}',
        f'storage {model.storage_pool}'])


def tables():
    """Each table of scripts with blocks."""
    rows, texts = {row[0]: row for row in SCRIPTS}, []
    for table, (about, names) in TABLES.items():
        scripts = '\n\n'.join(storage_script(*rows.pop(name)) for name in names)
        texts.append(f'// Scripts with blocks: {about}.\npub const {table}: &str = "\\\n{scripts}";')
    assert not rows
    return texts


def table():
    print('\n\n'.join(tables()))


def journal_text():
    """The text of the journal of docs/JOURNAL.md: a line of the sizes, and one for each entry."""
    _, model = run(*JOURNAL)
    return '\n'.join([f'memory journal 2,{model.opening},{model.region},{model.workers}', *model.journal, ''])


def journal():
    print(journal_text(), end='')


def fates(model):
    return [line.split(',')[-1] for line in model.journal if line.startswith('evict')]


def others(model):
    return [line for line in model.journal if not line.startswith(('evict', 'pin'))]


def fault_tables():
    """The script, and a row for each of its calls of the disk and one for none."""
    maximum, storage, workers, tasks, script = FAULTS
    words, whole = run(maximum, storage, workers, tasks, script)
    copies = [i for i, word in enumerate(words) if word.endswith('=copy')]
    rows = []
    for n in range(whole.disk.calls + 1):
        got, model = run(maximum, storage, workers, tasks, script, [n])
        assert others(model) == others(whole)
        assert all(a == b or a.endswith('=copy') and b == a.replace('=copy', '=miss') for a, b in zip(words, got))
        missed = [k for k, i in enumerate(copies) if got[i] != words[i]]
        gone = [k for k, (a, b) in enumerate(zip(fates(whole), fates(model))) if a != b]
        rows.append('; '.join(' '.join(map(str, part)) for part in [
            ['missed', *missed], ['gone', *gone], ['files', model.disk.created, len(model.disk.files)]]))
    return ['pub const SCRIPT: &str = "\\\n' + storage_script('a disk that fails once', *FAULTS) + '";',
            'pub const FAULTS: &str = "\\\n' + '\n'.join(rows) + '";']


def faults():
    maximum, storage, workers, tasks, script = FAULTS
    for i, what in enumerate(run(maximum, storage, workers, tasks, script)[1].disk.log):
        print('//', i, *what)
    print('\n\n'.join(fault_tables()))


if __name__ == '__main__':
    {'check': check, 'table': table, 'faults': faults, 'journal': journal}[sys.argv[1]]()

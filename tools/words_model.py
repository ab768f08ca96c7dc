#!/usr/bin/env python3
"""A plain reader of the programs' words, which shares nothing with the Rattle code. Run it at the top of the repository.

    python3 tools/words_model.py check                does crates/words_tests/src/tests/drawn_words.rt stand there as this prints it?
    python3 tools/words_model.py table                drawn_words.rt: 300 lists of words, with what they say
    python3 tools/words_model.py lists SEED COUNT TO  draws so many lists, and writes TO.in, a list a line with tabs between the
                                                      words, and TO.out, what each says; a program that answers TO.in with
                                                      TO.out reads words as this does

A list is drawn as a good one, and then changed in up to two places: a word is left out, doubled, moved or replaced, or a value
is one beyond its range. Of many such lists the table has those that differ in why they are refused, or in what they give.
"""
import random
import sys

TABLE = 'crates/words_tests/src/tests/drawn_words.rt'
WORK = {'workers': (1, 16, 4), 'heap': (1, 2**40, 2**30), 'reserved': (0, 2**40, 300 * 2**20),
        'fraction': (1, 1000, 600), 'storage': (0, 1000, 500), 'part-rows': (1, 10**6, 10**4)}
RUN = dict(WORK, **{'max-rows': (1, 10**7, 10**7)})
# Each program's options, flags and positional words.
PROGRAMS = {'run': (RUN, ('journal',), ('JOB',)), 'trial': (WORK, (), ('N',)), 'plan': ({}, (), ('JOB',)), 'audit': ({}, (), ())}
ODD = ('', '-', '--', '---', '--=', '--=4', '-h', '--help', '-V', '--version', '--journal', '--journal=', '--journal=x', '-x',
       '-5', '--worker', '--worker=4', '--workerss=4', '--Workers=4', '--workers', '--heap', '--workers=', '--workers=4=5',
       '--heap=-1', '--heap=+5', '--heap= 5', '--heap=5k', '--storage=0x1', '--workers=000000000000000000004',
       '--workers=00000000000000000004', '--reserved=99999999999999999999', '--reserved=18446744073709551616', '--part_rows=5',
       '--max-rows=5', '--max-rows', '--fraction=1.5', '--workers=\u0664', '-\u00e9', '\u00e9', 'job', 'run', 'N', '7', '0',
       '1000001', '007', '+7', '-7', '5 ', '--é=1')


class Refused(Exception):
    """Why the words are none of the program's."""


def number(text, least, greatest):
    if not 1 <= len(text) <= 20 or any(c not in '0123456789' for c in text):
        raise Refused('no number')
    if not least <= int(text) <= greatest:
        raise Refused('out of range')
    return int(text)


def given(words, options, flags, places):
    """The texts by name, of options, flags and positional words."""
    found, left, places = {}, list(words), list(places)

    def put(name, text):
        if name in found:
            raise Refused('given twice')
        found[name] = text

    def put_place(text):
        if not places:
            raise Refused('too many')
        put(places.pop(0), text)

    while left:
        word = left.pop(0)
        if word == '--':
            for text in left:
                put_place(text)
            break
        if word.startswith('--'):
            name, equals, value = word[2:].partition('=')
            if name in flags:
                if equals:
                    raise Refused('a flag with a value')
                put(name, 'true')
            elif name in options:
                if not equals and not left:
                    raise Refused('no value')
                put(name, value if equals else left.pop(0))
            else:
                raise Refused('unknown')
        elif word.startswith('-') and word != '-':
            raise Refused('begins with -')
        else:
            put_place(word)
    if places:
        raise Refused('too few')
    return found


def said(program, words):
    """What the words behind the first one say: the options' numbers, the flags, then the rows, or the job in brackets."""
    options, flags, places = PROGRAMS[program]
    found = given(words, options, flags, places)
    parts = []
    for name, (least, greatest, default) in options.items():
        parts.append(str(number(found[name], least, greatest) if name in found else default))
    parts += [name for name in flags if name in found]
    for place in places:
        parts.append(str(number(found[place], 1, 10**6)) if place == 'N' else '[%s]' % found[place])
    return ' '.join(parts) if parts else 'ok'


def answer(words):
    """What is said of a list, or `bad`; and why."""
    try:
        return said(words[0], words[1:]), 'good'
    except Refused as reason:
        return 'bad', str(reason)


def drawn_value(draw, least, greatest, default):
    value = draw.choice([least, greatest, default, draw.randint(least, greatest), draw.randint(least, min(greatest, 20))])
    return '0' * draw.choice([0, 0, 0, 1, 3]) + str(value)


def drawn_good(draw, program):
    options, flags, places = PROGRAMS[program]
    groups = [['--' + name] for name in flags if draw.random() < 0.3]
    for name in draw.sample(list(options), draw.randint(0, min(3, len(options)))):
        value = drawn_value(draw, *options[name])
        groups.append(['--%s=%s' % (name, value)] if draw.random() < 0.5 else ['--' + name, value])
    for place in places:
        groups.append([drawn_value(draw, 1, 10**6, 10**4) if place == 'N' else draw.choice(['job', '', '-', 'a=b', '7'])])
    draw.shuffle(groups)
    if draw.random() < 0.2 and (not groups or len(groups[-1]) == 1 and not groups[-1][0].startswith('--')):
        last = groups.pop() if groups else []
        groups.append(['--'] + (['-x'] if last and places == ('JOB',) and draw.random() < 0.5 else last))
    return [word for group in groups for word in group]


def changed(draw, program, words):
    words, options = list(words), PROGRAMS[program][0]
    place = draw.randint(0, len(words))
    how = draw.randint(0, 5)
    if how == 0 and words:
        del words[place % len(words)]
    elif how == 1 and words:
        words.insert(place, draw.choice(words))
    elif how == 2 and words:
        words.insert(place, words.pop(draw.randrange(len(words))))
    elif how == 3 and words:
        words[place % len(words)] = draw.choice(ODD)
    elif how == 4 and options:
        name = draw.choice(list(options))
        least, greatest, _ = options[name]
        words.insert(place, '--%s=%d' % (name, draw.choice([least - 1, least, greatest, greatest + 1])))
    else:
        words.insert(place, draw.choice(ODD))
    return words


def drawn(draw):
    program = draw.choices(list(PROGRAMS), (60, 25, 10, 5))[0]
    words = drawn_good(draw, program)
    for _ in range(draw.choice([0, 1, 1, 2])):
        words = changed(draw, program, words)
    return [program] + words


def telling(count):
    """Lists of all classes in turn: the program and why it is refused, or which options are given and how."""
    draw, classes, seen = random.Random(20), {}, set()
    for _ in range(40000):
        words = drawn(draw)
        line = '|'.join(words)
        if line in seen or len(line) > 60:
            continue
        seen.add(line)
        told, why = answer(words)
        key = (words[0], why if why != 'good' else 'good %d%s' % (len(words), ' journal' * (' journal ' in told)))
        classes.setdefault(key, []).append(words)
    chosen, turn = [], 0
    while len(chosen) < count:
        for key in sorted(classes):
            if turn < len(classes[key]) and len(chosen) < count:
                chosen.append((key, classes[key][turn]))
        turn += 1
    return [words for _, words in sorted(chosen, key=lambda pair: pair[0])]


def table():
    lines = ['// Lists of words, with bars between them, and what they say: the numbers of the options in the order of the fields, the',
             '// flag, and the rows, or the job in brackets. They were drawn by a program that reads words by the rules alone,',
             '// tools/words_model.py, as good lists and their near misses, and are those that differ most.', '',
             'pub const DRAWN: &str = "\\']
    for words in telling(300):
        text = '%s -> %s' % ('|'.join(words), answer(words)[0])
        lines.append(text.replace('\\', '\\\\').replace('"', '\\"'))
    lines[-1] += '";'
    return '\n'.join(lines) + '\n'


def main(arguments):
    if arguments == ['table']:
        sys.stdout.write(table())
    elif arguments == ['check']:
        with open(TABLE, encoding='utf-8') as file:
            same = file.read() == table()
        print('the table is as it was drawn' if same else 'the table differs')
        return 0 if same else 1
    elif len(arguments) == 4 and arguments[0] == 'lists':
        draw = random.Random(int(arguments[1]))
        lists = [drawn(draw) for _ in range(int(arguments[2]))]
        with open(arguments[3] + '.in', 'w', encoding='utf-8') as file:
            file.writelines('\t'.join(words) + '\n' for words in lists)
        with open(arguments[3] + '.out', 'w', encoding='utf-8') as file:
            file.writelines(answer(words)[0] + '\n' for words in lists)
        print('%d lists, %d of which are read' % (len(lists), sum(answer(words)[1] == 'good' for words in lists)))
    else:
        print(__doc__.strip())
        return 2
    return 0


if __name__ == '__main__':
    sys.exit(main(sys.argv[1:]))

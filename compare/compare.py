#!/usr/bin/env python3
"""Compares what the Rust answered (the lines of `compare generate` or `compare answers`, on standard input) with document 01
(tests/model.py), and where the library answered too, the library with the model.

    compare.py headers NAME [--record FILE]     lines of headers; with --record a sample of them is added to FILE
    compare.py alone                            lines of `compare alone`
    compare.py replay FILE                      a recorded sample against the model: no Rust needed

Each disagreement must be explained by rows of docs/DIFFERENCES.md (rust_like.py says which); ends with 1 if one is not."""
import re
import sys
from collections import Counter

sys.dont_write_bytecode = True
from rust_like import PLAIN, ROWS, WHOLE, RustLike, classed, explain

model = PLAIN.model


def unescape(text):
    return text.encode('ascii').decode('unicode_escape').encode('latin-1')


def escape(data):
    named = {0x5c: '\\\\', 10: '\\n', 13: '\\r', 9: '\\t'}
    return ''.join(named.get(b) or (chr(b) if 32 <= b <= 126 else f'\\x{b:02x}') for b in data)


def version_of(text):
    return None if text == '-' else tuple(map(int, text.split('.')))


def whole(lines):
    """The lines up to the one that says that they are all."""
    for line in lines:
        if line == 'end\n':
            return
        yield line
    sys.exit('the lines are cut short')


class Tally:
    def __init__(self):
        self.count, self.accepted, self.refused = 0, 0, Counter()
        self.rows, self.together, self.smallest = Counter(), Counter(), {}
        self.unexplained, self.library, self.cases = [], [], []

    def explained(self, rows, header, rust, ours):
        self.rows.update(rows)
        if len(rows) > 1:
            self.together[rows] += 1
        elif len(header) < len(self.smallest.get(rows[0], (header + b'x',))[0]):
            self.smallest[rows[0]] = header, rust, ours

    def show(self, name):
        differing = sum(self.rows.values()) - sum((len(rows) - 1) * n for rows, n in self.together.items())
        agreed = self.accepted + sum(self.refused.values())
        print(f'{name}: {self.count} headers; agreed {agreed}, of them accepted {self.accepted}; explained {differing}; unexplained {len(self.unexplained)}')
        print('  agreed refusals: ' + ' '.join(f'{number}:{n}' for number, n in sorted(self.refused.items())))
        for row in ROWS:
            if self.rows[row]:
                print(f'  {row}: {self.rows[row]}' + self.shown_smallest(row))
        if self.together:
            print('  by several rows together: ' + '; '.join(f'{"+".join(rows)} {n}' for rows, n in sorted(self.together.items())))
        for header, imposed, rust, ours in self.unexplained[:10]:
            print(f'  UNEXPLAINED {escape(header)} imposed {imposed}: the Rust {rust}, document 01 {ours}')
        for header, said, expected in self.library[:10]:
            print(f'  LIBRARY {escape(header)}: says {said}, document 01 {expected}')

    def shown_smallest(self, row):
        if row not in self.smallest:
            return ''
        header, rust, ours = self.smallest[row]
        return f', smallest {cut(escape(header))}: the Rust {said(rust)}, document 01 {said(ours)}'


def said(answer):
    number, line, form = answer
    return f'refuses {number} at line {line}' if number else 'reads ' + cut(escape(form))


def cut(text):
    return text if len(text) <= 240 else f'{text[:200]}.. ({len(text)} characters)'


def compare(lines, sample):
    tally = Tally()
    for line in lines:
        words = line.rstrip('\n').split('\t')
        header, imposed, number = unescape(words[0]), version_of(words[1]), int(words[2])
        rust = number, int(words[3]), None if number else unescape(words[4])
        exact = PLAIN.exact(header, imposed)
        ours = classed(exact)
        tally.count += 1
        if tally.count <= 100:
            tally.cases.append((header, imposed, rust))
        rows = ()
        if rust != ours:
            rows = explain(header, imposed, rust)
        elif WHOLE.answer(header, imposed) != rust:
            rows = None
        elif number:
            tally.refused[number] += 1
        else:
            tally.accepted += 1
        if rows is None:
            tally.unexplained.append((header, imposed, rust, ours))
        elif rows:
            tally.explained(rows, header, rust, ours)
        if len(words) > 5:
            compare_library(tally, header, imposed, words[5:])
        if rows is not None and sample is not None:
            sample.offer(words[:2], rust, exact, rows)
    return tally


def needed(cases):
    """The rows that no others make up for: with all the others on, one of the headers is answered otherwise than by the Rust."""
    without = {row: RustLike(set(ROWS) - {row}) for row in ROWS}
    return [row for row in ROWS if any(without[row].answer(header, imposed) != rust for header, imposed, rust in cases)]


def compare_library(tally, header, imposed, words):
    """The library's whole answer is the model's: number, line, start and entry count of the read, number and form of the
    house form."""
    room, output = 2 * len(header) + 2, 4 * len(header) + 1024
    r, h = model.read(header, imposed, room), model.house(header, imposed, room, output)
    expected = [str(n) for n in (r.number, r.line, r.start, len(r.entries), h.number)] + [escape(h.form)]
    if words != expected:
        tally.library.append((header, words, expected))


class Sample:
    """Each case, or a few of each sort; a sort is the number that the Rust answered, document 01's, and the rows that
    explain a difference."""

    def __init__(self, each):
        self.each, self.seen, self.lines = each, Counter(), []

    def offer(self, case, rust, ours, rows):
        sort = rust[0], ours[0], rows
        self.seen[sort] += 1
        if self.each or kept(*sort, self.seen[sort]):
            self.lines.append('\t'.join(case + [recorded(rust), recorded(ours), '+'.join(rows) or '-']))


def kept(rust, ours, rows, n):
    """The eighth of a sort that differs; of a number that both answer the first, eighth, 64th and so on, and of the headers
    that both read the first, second, fourth and so on."""
    if rows:
        return n == 8
    return n & (n - 1) == 0 and (rust == 0 or n.bit_length() % 3 == 1)


def recorded(answer):
    number, line, form = answer
    return f'{number} {line}' + ('' if number else ' ' + escape(form))


def replay(lines):
    """Whether the model still answers what was recorded, of the Rust through its rows and of document 01 by itself."""
    wrong = count = 0
    for line in lines:
        header, imposed, rust, ours, rows = line.rstrip('\n').split('\t')
        data, version = unescape(header), version_of(imposed)
        count += 1
        exact, whole_answer = PLAIN.exact(data, version), WHOLE.answer(data, version)
        agrees = classed(exact) == whole_answer
        if recorded(exact) != ours or recorded(whole_answer) != rust or agrees != (rows == '-'):
            wrong += 1
            print('  WRONG ' + line.rstrip('\n'))
    print(f'recorded: {count} cases; wrong {wrong}')
    return wrong


# The three files on their own

def alone(lines):
    count, agreed, rows, smallest, wrong = Counter(), Counter(), Counter(), {}, 0
    for line in lines:
        what, text, *rust = line.rstrip('\n').split('\t')
        row = {'bare': bare, 'quoted': quoted, 'version': version, 'map': string_map}[what](text, rust)
        count[what] += 1
        if row == 'agrees':
            agreed[what] += 1
        elif row is None:
            wrong += 1
            print(f'  UNEXPLAINED {what} {text}: {rust}')
        else:
            rows[what, row] += 1
            if len(text) < len(smallest.get((what, row), text + 'x')):
                smallest[what, row] = text
    for what in count:
        print(f'{what}: {count[what]} inputs; agreed {agreed[what]}')
        for (of, row), n in sorted(rows.items()):
            if of == what:
                print(f'  {row}: {n}, smallest {smallest[of, row]!r}')
    print(f'alone: unexplained {wrong}')
    return wrong


def bare(text, rust):
    data = unescape(text)
    value = model.BARE.match(data)[0]
    if rust[0] == 'ok':
        return 'agrees' if (unescape(rust[1]), int(rust[2])) == (value, len(data) - len(value)) else None
    if value == data:
        return 'runs to the end' if rust[1] == 'unexpected EOF' else None
    return 'not UTF-8' if not model.is_utf8(value) and rust[1] == 'invalid UTF-8' else None


def quoted(text, rust):
    """The input is what follows the opening quote."""
    data = unescape(text)
    value = model.QUOTED.match(b'"' + data)
    if rust[0] == 'ok':
        return 'agrees' if value and (unescape(rust[1]), int(rust[2])) == (model.unescape(value[1]), len(data) + 1 - value.end()) else None
    if value is None:
        return 'agrees' if rust[1] != 'invalid UTF-8' else None
    return 'not UTF-8' if not model.is_utf8(value[1]) and rust[1] == 'invalid UTF-8' else None


def version(text, rust):
    data = unescape(text)
    try:
        ours = 'ok', '%d.%d' % model.file_format(data)
    except model.Refused:
        ours = 'refused',
    if ours == tuple(rust[:len(ours)]):
        return 'agrees'
    return 'empty part' if re.fullmatch(rb'VCFv([0-9]*)\.([0-9]*)', data) and (data.startswith(b'VCFv.') or data.endswith(b'.')) else None


def string_map(text, rust):
    """Against a list of places and a dictionary of numbers; then whether it is a dictionary as request 9 of document 02 wants it."""
    places, numbers, replaced = [], {}, []
    for step in text.split(' '):
        name, at, place = step.partition('@')
        place = int(place) if at else numbers.get(name, len(places))
        places += [None] * (place + 1 - len(places))
        replaced.append(places[place])
        places[place] = numbers_of(numbers, name, place)
    names = ('a', 'b', 'PASS')
    full = [None if n not in numbers else str(numbers[n]) + places[numbers[n]] for n in names]
    ours = [dashed(replaced), dashed((places + [None] * 5)[:5]), dashed(numbers.get(n) for n in names), dashed(full)]
    if ours != rust:
        return None
    if len(set(numbers.values())) < len(numbers):
        return 'one number for two strings'
    return 'one string at two places' if len([p for p in places if p]) > len(numbers) else 'agrees'


def numbers_of(numbers, name, place):
    numbers[name] = place
    return name


def dashed(values):
    return ' '.join('-' if v is None else str(v) for v in values)


def main(args):
    if args[:1] == ['headers']:
        sample = Sample(args[1] == 'smallest') if '--record' in args else None
        tally = compare(whole(sys.stdin), sample)
        tally.show(args[1])
        if args[1] in ('smallest', 'limits'):
            print('  rows that cannot be left out: ' + ' '.join(needed(tally.cases)))
        if sample:
            with open(args[args.index('--record') + 1], 'a') as f:
                f.writelines(line + '\n' for line in sample.lines)
        return 1 if tally.unexplained or tally.library else 0
    if args == ['alone']:
        return 1 if alone(whole(sys.stdin)) else 0
    if args[:1] == ['replay']:
        with open(args[1]) as f:
            return 1 if replay(f) else 0
    print(__doc__)
    return 2


sys.exit(main(sys.argv[1:]))

#!/usr/bin/env python3
"""Makes the recorded cases of document 02, §10, crates/cases/data/counts, from model.py: the third word of every kind of entry, third words
that say too much or too little for each call that reads a line again, and entries turned under versions by which their lines read
otherwise. What is asked is as in the other files."""
import calls_table
import model
import record
import told
from pieces import COLS, F, GOOD, map_line, text, words
from model import FIRST, SECOND

CASES = {}
UNTOUCHED = 7777

# A line of every kind, with more than one map, and keys of several lengths
LINES = {'fileformat': F, 'INFO': map_line(b'INFO', GOOD[b'INFO']), 'FILTER': map_line(b'FILTER', GOOD[b'FILTER']), 'FORMAT': map_line(b'FORMAT', GOOD[b'FORMAT'] + b',x=y'),
         'ALT': map_line(b'ALT', GOOD[b'ALT']), 'contig': map_line(b'contig', b'ID="c,d",length=5'), 'map': b'##cell=<K="0.98",ID="W07">', 'one-byte-key': b'##k=<ID=x>',
         'META': map_line(b'META', b'ID=x,Values=[a,K=b]'), 'text': b'##source=made', 'empty-text': b'##t=', 'columns': COLS + b'\tFORMAT\ts\tt'}
HEADER = text(*LINES.values())
NAMES = list(LINES) + ['sample', 'second-sample']
SIZE = SECOND.words * len(NAMES)


def add(name, asked, header, expected):
    assert name not in CASES, name
    CASES[name] = (name, asked, record.escaped(header), expected)


def forged_table(header, forged, form=SECOND, size=SIZE):
    """The words that reading leaves, some forged, and what is asked for that."""
    left = told.words_in(model.read(header, None, size, form).entries)
    table = [forged.get(k, word) for k, word in enumerate(left + [0] * (size - len(left)))]
    return table, [str(forged.get(k, '-')) for k in range(max(forged, default=-1) + 1)]


def third(n, zero=0, **numbers):
    """The third word of entry n with some numbers changed."""
    e = model.held(SECOND, forged_table(HEADER, {})[0], n)[0]
    return {SECOND.words * n + 2: model.words_of(SECOND, e._replace(**numbers), 0, 0, zero)[2]}


def show(name, n, forged, version=(4, 3), header=HEADER):
    table, written = forged_table(header, forged)
    add('show-' + name, words('show2', version, SIZE, n, 'each', *written), header, calls_table.entry_line(header, table, n, version, None, SECOND))


def odd(name, forged, version=(4, 3), header=HEADER, size=SIZE, room=2):
    table, written = forged_table(header, forged, SECOND, size)
    list_ = [UNTOUCHED] * room
    try:
        found = model.odd_entries(header, table, version, room, SECOND)
        list_[:len(found)] = found
        answer = 0, len(found)
    except model.Refused as refused:
        answer = refused.number, 0
    add('odd-' + name, words('odd2', version, size, room, '-', *written), header, b'number=%d listed=%d list:' % answer + b''.join(b' %d' % word for word in list_))
    return answer[0]


def turn(name, header, version, forged=None, source=FIRST, entries=None, other=64):
    to = SECOND if source is FIRST else FIRST
    entries = len(model.read(header, None, 64, source).entries) if entries is None else entries
    table, written = forged_table(header, forged or {}, source, source.words * entries)
    try:
        count, target = model.turn(header, table, [7] * other, source, to, version)
        number = 0
    except model.Refused as refused:
        number, count, target = refused.number, 0, []
    came = ' '.join([f'number={number} entries={count}'] + told.table(target[:to.words * count]))
    add(name, words('to-second' if source is FIRST else 'to-first', len(table), other, version, '-', *written), header, came.encode())
    return number


def as_read():
    add('read', words('read2', None, SIZE), HEADER, told.reading(model.read(HEADER, None, SIZE, SECOND)))
    for room in (SIZE - 1, SIZE - 3, 3, 2, 0):
        add(f'read-{room}', words('read2', None, room), HEADER, told.reading(model.read(HEADER, None, room, SECOND)))
    assert odd('as-read', {}) == 0
    for n, name in enumerate(NAMES):
        show(name, n, {})
    show('past-the-table', len(NAMES), {})
    # the first form has no third word
    table = told.words_in(model.read(HEADER, None, FIRST.words * len(NAMES)).entries)
    for n, name in enumerate(NAMES):
        add('show-first-' + name, words('show', (4, 3), len(table), n, 'each'), HEADER, calls_table.entry_line(HEADER, table, n, (4, 3), None))


def forged():
    """One more and one fewer of each number, in each kind; bits that no number has."""
    for n, name in enumerate(NAMES):
        e = model.held(SECOND, forged_table(HEADER, {})[0], n)[0]
        for number in ('key_length', 'field_count'):
            for change, label in ((1, 'more'), (-1, 'fewer')):
                if getattr(e, number) + change >= 0:
                    show(f'{name}-{number}-{label}', n, third(n, **{number: getattr(e, number) + change}))
                    assert odd(f'{name}-{number}-{label}', third(n, **{number: getattr(e, number) + change})) == 29
        for bit in (0, 7, 15):
            show(f'{name}-bit-{bit}', n, third(n, 1 << bit))
        odd(f'{name}-bit', third(n, 1))
        show(f'{name}-most', n, third(n, key_length=2**24 - 1, field_count=2**24 - 1))
        show(f'{name}-nothing', n, third(n, key_length=0, field_count=0))
        # a key that ends with the line, and one byte past it
        show(f'{name}-key-to-end', n, third(n, key_length=max(e.length - 2, 0)))
        show(f'{name}-key-past-end', n, third(n, key_length=max(e.length - 1, 0)))
    # those of another entry
    for n, m in ((1, 3), (3, 1), (6, 7), (9, 10), (0, 9)):
        other = model.held(SECOND, forged_table(HEADER, {})[0], m)[0]
        show(f'{NAMES[n]}-of-{NAMES[m]}', n, third(n, key_length=other.key_length, field_count=other.field_count))


def lists():
    """Kinds 1 and 8 are read again too; a list is refused by any of them."""
    bad = text(F, b'##a=b', COLS)
    for kind in range(1, 11):
        for line, start, length in (('fileformat', 0, 20), ('text', 21, 5), ('columns', 27, len(COLS)), ('cut', 21, 2)):
            for key in (0, 1, 10):
                word = dict(enumerate(model.words_of(SECOND, model.Entry(kind, start, length, 0, 0, 0, 0, key, 0))))
                odd(f'kind-{kind}-{line}-{key}', word, header=bad, size=3)
    odd_number = text(F, b'##contig=<ID=c,length=01>', b'##n=t', COLS)
    for room in (0, 1, 2):
        odd(f'room-{room}', {}, header=odd_number, size=12, room=room)
    for version in VERSIONS:
        for name, header in OTHERWISE.items():
            odd('%s-under-%d.%d' % (name, *version), {}, version, header, 9)


VERSIONS = ((4, 1), (4, 2), (4, 3), (4, 4), (4, 5), (5, 0))
OTHERWISE = {
    'meta': text(F, b'##META=<ID=x,Values=[a,K=b]>', COLS), 'meta-one': text(F, b'##META=<ID=x,Values=[a]>', COLS), 'meta-old': text(b'##fileformat=VCFv4.2', b'##META=<ID=x,Values=[a,K=b]>', COLS),
    'pedigree': text(F, b'##PEDIGREE=<ID=x,Father=y>', COLS), 'pedigree-old': text(b'##fileformat=VCFv4.2', b'##PEDIGREE=<Derived=x,Original=y>', COLS),
    'child-old': text(b'##fileformat=VCFv4.2', b'##PEDIGREE=<Child=x,Mother=y,Father=z>', COLS), 'late-id': text(F, b'##a=<K=1,ID=x>', COLS),
    'late-id-old': text(b'##fileformat=VCFv4.2', b'##a=<K=1,ID=x>', COLS), 'first-id': text(F, b'##a=<ID=x,K=1>', COLS), 'no-id-old': text(b'##fileformat=VCFv4.2', b'##a=<K=1>', COLS),
    'reserved-old': text(b'##fileformat=VCFv4.2', b'##INFO=<ID=DP,Number=2,Type=Integer,Description=d>', COLS), 'text': text(F, b'##a=b', COLS),
}


def turned():
    """Under each version: a line may have other fields by it, be of another kind, or be refused."""
    for name, header in OTHERWISE.items():
        for version in VERSIONS:
            turn('second-%s-under-%d.%d' % (name, *version), header, version)
    turn('second-all', HEADER, (4, 3))
    turn('second-all-short', HEADER, (4, 3), other=SIZE - 1)
    turn('second-all-fits', HEADER, (4, 3), other=SIZE)
    turn('first-all', HEADER, (4, 3), source=SECOND)
    # counts that no line has are dropped, where they are well formed
    turn('first-forged', HEADER, (4, 3), {**third(1, key_length=9, field_count=9), **third(9, key_length=77)}, SECOND, len(NAMES))
    for n, name in enumerate(NAMES):
        turn(f'first-{name}-fields', HEADER, (4, 3), third(n, field_count=1), SECOND, len(NAMES))
        turn(f'first-{name}-key', HEADER, (4, 3), third(n, key_length=1), SECOND, len(NAMES))
        turn(f'first-{name}-bit', HEADER, (4, 3), third(n, 1), SECOND, len(NAMES))
    # lines that are no records, and records of another kind
    for kind in range(1, 11):
        for line, start, length in (('fileformat', 0, 20), ('map', HEADER.index(b'##cell'), 26), ('text', HEADER.index(b'##source'), 13), ('cut', 1, 19), ('nothing', 0, 0)):
            entry = model.words_of(FIRST, model.Entry(kind, start, length, 0, 0, 0, 0))
            turn(f'second-kind-{kind}-{line}', HEADER, (4, 3), dict(enumerate(entry)), FIRST, 1)


for group in (as_read, forged, lists, turned):
    group()
record.write('counts', list(CASES.values()))

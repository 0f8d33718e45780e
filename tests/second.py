#!/usr/bin/env python3
"""Makes the recorded cases of document 02, §5, crates/cases/data/second, from model.py: recorded headers read in the second form, the limits
of both forms, forged words of the second form for each condition of well-formedness, and entries turned from one form into the other.
What is asked is as in the other files, with a 2 after the first word for the second form; to-second and to-first have the words of the
table that is read, those of the other table, the version under which lines are read again, and the words forged."""
import calls_table
import dictionary_model
import model
import record
import told
from pieces import COLS, EXAMPLE, F, QUOTED_EXAMPLE, map_line, stretched, text, words
from model import FIRST, SECOND, Entry

CASES = {}
LAST = 2**64 - 1


def add(name, asked, given, expected):
    assert name not in CASES, name
    CASES[name] = (name, asked, given, expected)


def version(word):
    return tuple(map(int, word[4:].split('.'))) if word.startswith('VCFv') else None


# Recorded headers, every so many of a file

def again(file, every, answered):
    """answered: the words of what is asked after the first, and the header -> what must come."""
    for index, (name, asked, given) in enumerate(record.recorded(file)):
        if index % every == 0 and not asked[0].startswith('c-'):
            # as many entries as in the first form, as far as the program has words for them
            room = min(int(asked[2]) * SECOND.words // FIRST.words, 8192)
            asked = [asked[0] + '2', asked[1], str(room)] + asked[3:]
            add(f'{file}-{name}', ' '.join(asked), given, answered(asked[1:], record.unescaped(given)))


def read_again(asked, header):
    return told.reading(model.read(header, version(asked[0]), int(asked[1]), SECOND))


def form_again(asked, header):
    return told.house(model.house(header, version(asked[0]), int(asked[1]), int(asked[2]), SECOND))


def dictionaries_again(asked, header):
    return told.dictionaries(dictionary_model.dictionaries(header, version(asked[0]), *map(int, asked[1:4]), form=SECOND))


def register_again(asked, header):
    return told.register(model.register(header, version(asked[0]), int(asked[1]), SECOND))


# Limits

def limits():
    """Lines of 65,535 and 65,536 bytes and headers of 1,048,575 and 1,048,576 in both forms; those of the first are recorded there too."""
    column = COLS + b'\tFORMAT\t'
    for name, header, line in [
            ('text', (text(F) + b'##a=').ljust(1024, b'x') + text(b'', COLS), 1003), ('late-id', (text(F) + b'##a=<K=').ljust(1024, b'x') + text(b',ID=abc>', COLS), 1011),
            ('long-id', (text(F) + b'##a=<ID="').ljust(1024, b'x') + text(b'">', COLS), 1005), ('sample', (text(F) + column).ljust(1024, b's') + text(b'\tt'), 1005)]:
        for length in (65535, 65536, 70000):
            for form in (FIRST, SECOND):
                read_long(f'line-{length}-{name}-{form.number}', header, len(header) + length - line, 64, form)
    line_to = lambda size: b'##a='.ljust(size - 1, b'x') + b'\n'
    many = text(F) + line_to(512 - 21) + line_to(512)
    for length in (2**20 - 1, 2**20):
        for form in (FIRST, SECOND):
            for room in (8192, 4096):
                read_long(f'header-{length}-{form.number}-{room}', many + line_to(length % 512 + 512 - 39) + text(COLS), length, room, form)
    read_long('one-line-1048575', (text(F) + b'##a=').ljust(1024, b'x') + text(b'', COLS), 2**20 - 1, 64, SECOND)
    description = (text(F, b'##b=1') + b'##ALT=<ID=x,Description=').ljust(1024, b'd') + text(b'>', COLS)
    for length in (65533, 65534, 100000):
        for form in (FIRST, SECOND):
            whole = len(description) + length - max(map(len, description.split(b'\n')))
            answer = model.house(stretched(description, whole), None, 64, 2**20, form)
            add(f'form-line-{length}-{form.number}', words(asked_as('form', form), None, 64, 2**20), record.stretched(description, whole), told.house(answer))


def asked_as(what, form):
    return what + '2' * (form is SECOND)


def read_long(name, header, length, room, form):
    answer = model.read(stretched(header, length), None, room, form)
    add(name, words(asked_as('read', form), None, room), record.stretched(header, length), told.reading(answer))


# Forged words

KINDS = text(F, b'##INFO=<ID=q,Number=1,Type=Integer,Description="d, e">', b'##cell=<K="0.98",ID="W07">', b'##source=made', COLS + b'\tFORMAT\ts\tt')
LINES = {'fileformat': 0, 'INFO': 1, 'map': 2, 'text': 3, 'columns': 4, 'sample': 5}
SIZE = 7 * SECOND.words


def show(name, header, size, entry, forged):
    """forged: the number of a word -> what stands there."""
    left = told.words_in(model.read(header, None, size, SECOND).entries)
    table = [forged.get(k, word) for k, word in enumerate(left + [0] * (size - len(left)))]
    written = [str(forged.get(k, '-')) for k in range(max(forged, default=-1) + 1)]
    shown = calls_table.entry_line(header, table, entry, (4, 3), None, SECOND)
    add('show-' + name, words('show2', (4, 3), size, entry, 'each', *written), record.escaped(header), shown)


def forge(name, line, zero_one=0, zero_two=0, **numbers):
    n = LINES[line]
    words_left = model.read(KINDS, None, SIZE, SECOND).entries
    e = model.held(SECOND, told.words_in(words_left), n)[0]._replace(**numbers)
    show(name, KINDS, SIZE, n, {SECOND.words * n + k: word for k, word in enumerate(model.words_of(SECOND, e, zero_one, zero_two))})


def forged():
    size = len(KINDS)
    for line, n in LINES.items():
        show(f'{line}-as-read', KINDS, SIZE, n, {})
    show('past-the-table', KINDS, SIZE, 7, {})
    for kind in (0, 11, 12, 13, 14, 15):
        forge(f'kind-{kind}', 'INFO', kind=kind)
    for bit in (0, 6, 11):
        forge(f'word-one-bit-{bit}', 'INFO', zero_one=1 << bit)
    for bit in (0, 7, 12):
        forge(f'word-two-bit-{bit}', 'INFO', zero_two=1 << bit)
    for line in ('INFO', 'map'):
        for tag in (1, 2, 3):
            forge(f'{line}-tag-{tag}', line, tag=tag)
    for line in ('fileformat', 'text', 'columns', 'sample'):
        for number in ('offset', 'id_length', 'quoted', 'tag'):
            forge(f'{line}-with-{number}', line, **{number: 1})
    e = model.held(SECOND, told.words_in(model.read(KINDS, None, SIZE, SECOND).entries), LINES['map'])[0]
    for name, numbers in {
            'ends-with-header': {'length': size - e.start}, 'ends-past-header': {'length': size - e.start + 1}, 'begins-at-end': {'start': size, 'length': 0, 'offset': 0, 'id_length': 0},
            'begins-past-end': {'start': size + 1, 'length': 0, 'offset': 0, 'id_length': 0}, 'last-start': {'start': 2**24 - 1}, 'longest': {'length': 2**24 - 1},
            'last-start-longest': {'start': 2**24 - 1, 'length': 2**24 - 1}, 'id-to-end': {'offset': 2, 'id_length': e.length - 2}, 'id-past-end': {'offset': 3, 'id_length': e.length - 2},
            'id-at-end': {'offset': e.length, 'id_length': 0}, 'id-after-end': {'offset': e.length + 1, 'id_length': 0}, 'id-both-most': {'offset': 2**24 - 1, 'id_length': 2**24 - 1},
            'unquoted': {'quoted': 0}, 'as-contig': {'kind': 6}, 'as-text': {'kind': 8, 'offset': 0, 'id_length': 0, 'quoted': 0}}.items():
        forge('map-' + name, 'map', **numbers)
    forge('all-bits', 'map', zero_one=2**12 - 1, zero_two=2**13 - 1, kind=15, start=2**24 - 1, length=2**24 - 1, offset=2**24 - 1, id_length=2**24 - 1, quoted=1, tag=3)
    forge('no-bits', 'map', kind=0, start=0, length=0, offset=0, id_length=0, quoted=0)
    # words of the first form are not those of the second
    first = told.words_in(model.read(EXAMPLE).entries)
    for n in range(3):
        show(f'first-form-{n}', EXAMPLE, 9, n, {SECOND.words * n + k: word for k, word in enumerate(first[2 * n:2 * n + 2])})


# Turning

def turn(name, header, source, size, other, forged=None, length=None, version=(4, 3)):
    """The entries that reading left in `size` words, some forged, into a table of `other` words."""
    to = SECOND if source is FIRST else FIRST
    forged = forged or {}
    full = stretched(header, length)
    left = told.words_in(model.read(full, None, size, source).entries)
    table = [forged.get(k, word) for k, word in enumerate(left + [0] * (size - len(left)))]
    written = [str(forged.get(k, '-')) for k in range(max(forged, default=-1) + 1)]
    try:
        count, target = model.turn(full, table, [7] * other, source, to, version)
        number = 0
    except model.Refused as refused:
        number, count, target = refused.number, 0, []
    came = ' '.join([f'number={number} entries={count}'] + told.table(target[:to.words * count]))
    asked = words('to-second' if source is FIRST else 'to-first', size, other, version, '-', *written)
    add(f'{"second" if source is FIRST else "first"}-{number}-{name}', asked, record.stretched(header, length), came.encode())


def turned():
    for name, header, entries in (('example', EXAMPLE, 3), ('quoted', QUOTED_EXAMPLE, 3), ('kinds', KINDS, 7), ('refused', text(F, b'##a=b', b'##'), 2),
                                  ('pedigree', text(b'##fileformat=VCFv4.2', map_line(b'PEDIGREE', b'Derived="d",x=1'), COLS), 3)):
        for source in (FIRST, SECOND):
            size = source.words * entries
            to = SECOND if source is FIRST else FIRST
            turn(name, header, source, size, to.words * entries)
            turn(name + '-roomy', header, source, size, to.words * entries + 9)
            turn(name + '-word-over', header, source, size + 1, to.words * entries + 1)
            turn(name + '-word-short', header, source, size, to.words * entries - 1)
            turn(name + '-no-room', header, source, size, 0)
            turn(name + '-zeros', header, source, size + source.words, 60)
            turn(name + '-some', header, source, size - 1, 60)
    turn('none', b'', FIRST, 0, 0)
    turn('none', b'', SECOND, 0, 0)
    turn('odd-word', b'', FIRST, 1, 1)


def bounds():
    """Each number at its bound in the first form, and one past it, in a header of more than a megabyte."""
    header, length = (text(F) + b'##a=').ljust(1024, b'x') + text(b'', COLS), 2**20 + 70000
    # the largest of a start, and of the length of a line, an ID and its place in the line
    start, most = 2**20 - 1, 2**16 - 1
    cases = {
        'start': (Entry(8, start, 9, 0, 0, 0, 0), Entry(8, start + 1, 9, 0, 0, 0, 0)),
        'length': (Entry(8, 5, most, 0, 0, 0, 0), Entry(8, 5, most + 1, 0, 0, 0, 0)),
        'offset': (Entry(7, 5, most, most, 0, 1, 2), Entry(7, 5, most + 1, most + 1, 0, 1, 2)),
        'id-length': (Entry(6, 5, most, 0, most, 0, 0), Entry(6, 5, most + 1, 0, most + 1, 0, 0)),
        'all': (Entry(7, start, most, 1, most - 1, 1, 1), Entry(7, start, most, 0, 0, 0, 1)),
        # whose line is not read again
        'sample-start': (Entry(10, start, 9, 0, 0, 0, 0), Entry(10, start + 1, 9, 0, 0, 0, 0)),
        'sample-length': (Entry(10, 5, most, 0, 0, 0, 0), Entry(10, 5, most + 1, 0, 0, 0, 0)),
    }
    for name, (within, past) in cases.items():
        good = dict(enumerate(model.words_of(SECOND, within)))
        turn(name + '-at-bound', header, SECOND, 3, 2, good, length)
        turn(name + '-past-bound', header, SECOND, 3, 2, dict(enumerate(model.words_of(SECOND, past))), length)
        turn(name + '-back', header, FIRST, 2, 3, dict(enumerate(model.words_of(FIRST, within))), length)
    wide, bad = model.words_of(SECOND, cases['start'][1]), (1, 0, 0)
    # 29 comes before 32, and 32 before 24, wherever they stand
    turn('wide-then-bad', header, SECOND, 6, 4, dict(enumerate(wide + bad)), length)
    turn('bad-then-wide', header, SECOND, 6, 4, dict(enumerate(bad + wide)), length)
    turn('wide-no-room', header, SECOND, 3, 0, dict(enumerate(wide)), length)
    turn('bad-no-room', header, SECOND, 3, 0, dict(enumerate(bad)), length)
    turn('bad-no-room', header, FIRST, 2, 0, dict(enumerate(bad[:2])), length)
    for form, to in ((FIRST, SECOND), (SECOND, FIRST)):
        for name, words_ in {'zero-one': model.words_of(form, cases['sample-start'][0], 1), 'zero-two': model.words_of(form, cases['offset'][0], 0, 1), 'all-bits': (LAST,) * form.words}.items():
            turn(name, header, form, form.words, to.words, dict(enumerate(words_)), length)


again('reads', 6, read_again)
again('forms', 12, form_again)
again('dictionaries', 5, dictionaries_again)
again('registers', 6, register_again)
for group in (limits, forged, turned, bounds):
    group()
record.write('second', list(CASES.values()))

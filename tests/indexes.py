#!/usr/bin/env python3
"""Makes the recorded indexes and searches, crates/cases/data/indexes, from index_model.py. Asked are the table's words, the places, the
kind, the ID's length with the words forged of places (-: the word that the build left), and the words forged of the table (-: the
word that reading left). The ID stands behind the header; c-index asks the library for C."""
import index_model
import model
import record
import told
from calls_table import identity, place
from model import ALT, CONTIG, FILTER, FIRST, FORMAT, INFO, SECOND
from pieces import COLS, F, text, words

CASES = {}
UNTOUCHED = 7777


def add(name, header, places, kind, id_, size=None, forged=None, index=None, form=FIRST, number=None, found=None):
    """forged, index: the number of a word of the table, of a place -> what stands there. Without a size the table is as large as its
    entries. number and found are what the case was made for: the build's number, and (entry or None, looked)."""
    name += '-second' * (form is SECOND)
    assert name not in CASES, name
    forged, index = forged or {}, index or {}
    size = len(told.words_in(model.read(header, None, 64, form).entries)) if size is None else size
    left = told.words_in(model.read(header, None, size, form).entries)
    table = [forged.get(k, word) for k, word in enumerate(left + [0] * (size - len(left)))]
    try:
        built, placed = index_model.build(header, table, places, form)
        refused = 0
    except model.Refused as refusal:
        refused, built, placed = refusal.number, [UNTOUCHED] * places, 0
    searched = [index.get(k, word) for k, word in enumerate(built)]
    entry, looked = index_model.find(header, table, searched, kind, id_, form)
    assert number is None or refused == number, (name, refused)
    assert found is None or (entry, looked) == found, (name, entry, looked)
    assert looked <= places
    came = f'number={refused} placed={placed} index:' + ''.join(f' {word}' for word in built)
    came += (' none' if entry is None else f' entry={entry}') + f' looked={looked}'
    list_ = [str(len(id_))] + [str(index.get(k, '-')) for k in range(max(index, default=-1) + 1)]
    words_forged = [str(forged.get(k, '-')) for k in range(max(forged, default=-1) + 1)]
    asked = words('index' + '2' * (form is SECOND), size, places, kind, ','.join(list_), *words_forged)
    CASES[name] = (name, asked, record.escaped(header + id_), came.encode())
    return entry, looked


def line(kind, id_):
    """A line of the kind with the ID as it stands."""
    named = {INFO: b'INFO', FILTER: b'FILTER', FORMAT: b'FORMAT', ALT: b'ALT', CONTIG: b'contig'}[kind]
    more = {INFO: b',Number=1,Type=Integer,Description=d', FILTER: b',Description=d', FORMAT: b',Number=1,Type=Integer,Description=d', ALT: b',Description=d', CONTIG: b''}
    return b'##' + named + b'=<ID=' + id_ + more[kind] + b'>'


def contigs(*ids):
    return text(F, *(line(CONTIG, id_) for id_ in ids), COLS)


NAMES = {INFO: 'INFO', FILTER: 'FILTER', FORMAT: 'FORMAT', ALT: 'ALT', CONTIG: 'contig'}

# a header with an entry of every kind, and one ID in four of them
MIXED = text(F, line(CONTIG, b'chr1'), b'##cell=<ID=x,K=1>', line(INFO, b'x'), b'##source=x', line(FILTER, b'x'), line(ALT, b'x'), line(FORMAT, b'x'),
             line(CONTIG, b'x'), line(INFO, b'y'), COLS + b'\tFORMAT\tx')


# Places

def places():
    """No place, one, as many as entries, one less, twice as many; each ID, and one that is missing."""
    for name, header, ids in (('none', text(F, COLS), []), ('one', contigs(b'a'), [b'a']), ('two', contigs(b'a', b'b'), [b'a', b'b']),
                              ('five', contigs(b'a', b'b', b'c', b'd', b'e'), [b'a', b'b', b'c', b'd', b'e'])):
        count = len(ids)
        for room in sorted({0, 1, max(count - 1, 0), count, count + 1, 2 * count, 64}):
            for form in (FIRST, SECOND):
                for id_ in ids + [b'missing', b'']:
                    add(f'{name}-{room}-{id_.decode() or "empty"}', header, room, CONTIG, id_, form=form, number=33 if room < count else 0)


def kinds():
    """One ID in several kinds, and the kinds that no index covers."""
    for form in (FIRST, SECOND):
        for kind, name in NAMES.items():
            for room in (7, 8, 14):
                for id_ in (b'x', b'y', b'chr1'):
                    add(f'kind-{name}-{room}-{id_.decode()}', MIXED, room, kind, id_, form=form, number=0)
    for kind in (0, 1, 7, 8, 9, 10, 11, 15, 255, 256, 258, 262, 2**32 + 2, 2**32 + 6, 2**63, 2**64 - 1):
        for room in (7, 14):
            add(f'kind-{kind}-{room}', MIXED, room, kind, b'x', number=0, found=(None, 0))
    for kind in (1, 6, 7, 11):
        add(f'kind-{kind}-no-place', MIXED, 0, kind, b'x', number=33, found=(None, 0))


# Walks

def falling_on(first, room, count, kind=CONTIG):
    """IDs whose first place of `room` is this one."""
    ids, n = [], 0
    while len(ids) < count:
        id_ = b'c%d' % n
        if index_model.hashed(kind, id_) % room == first:
            ids.append(id_)
        n += 1
    return ids


def walks():
    """IDs that fall on one place, and wrap round."""
    for room in (4, 5, 8, 9):
        for first in (0, room - 2, room - 1):
            ids = falling_on(first, room, 5)
            header = contigs(*ids[:4])
            for k, id_ in enumerate(ids[:4]):
                add(f'walk-{room}-{first}-{k}', header, room, CONTIG, id_, number=0, found=(1 + k, k + 1))
            add(f'walk-{room}-{first}-missing', header, room, CONTIG, ids[4], number=0, found=(None, min(5, room)))
            add(f'walk-{room}-{first}-second', header, room, CONTIG, ids[3], form=SECOND, number=0, found=(4, 4))
    # one falls behind others' places, and takes the next that is open
    late, on = falling_on(2, 6, 1), falling_on(0, 6, 4)
    header = contigs(*on[:3], *late)
    add('behind-others', header, 6, CONTIG, late[0], number=0, found=(4, 2))
    add('behind-others-last', header, 6, CONTIG, on[2], number=0, found=(3, 3))
    add('behind-others-missing', header, 6, CONTIG, on[3], number=0, found=(None, 5))


# IDs

def escapes():
    """Quoted and escaped IDs, by meaning."""
    written = {'bare': (b'a.b', b'a.b'), 'quoted': (b'"a.b"', b'a.b'), 'quote': (b'"a\\"b"', b'a"b'), 'backslash': (b'"a\\\\b"', b'a\\b'), 'both': (b'"\\\\\\""', b'\\"'),
               'comma': (b'"a,b>"', b'a,b>'), 'space': (b'" "', b' '), 'bare-backslash': (b'a\\b', b'a\\b'), 'bare-two': (b'a\\\\b', b'a\\\\b'),
               'bare-last': (b'a\\', b'a\\'), 'beyond': ('ä€'.encode(), 'ä€'.encode())}
    for name, (spelled, meaning) in written.items():
        for kind in (INFO, CONTIG):
            header = text(F, line(kind, b'other'), line(kind, spelled), COLS)
            assert model.read(header).number == 0, (name, kind)
            for form in (FIRST, SECOND):
                assert add(f'escape-{name}-{NAMES[kind]}', header, 4, kind, meaning, form=form, number=0)[0] == 2
            raw = spelled[1:-1] if spelled[:1] == b'"' else spelled
            if raw != meaning:
                assert add(f'escape-{name}-{NAMES[kind]}-raw', header, 4, kind, raw, number=0)[0] is None
            if spelled != raw:
                assert add(f'escape-{name}-{NAMES[kind]}-with-quotes', header, 4, kind, spelled, number=0)[0] is None


def strays():
    """Backslashes in forged IDs: each stands before an escapable byte or stays, where the quoted bit is 1; all stay where it is 0."""
    for number, (raw, meaning) in enumerate([
            (b'a\\b', b'a\\b'), (b'a\\', b'a\\'), (b'\\', b'\\'), (b'\\\\', b'\\'), (b'\\\\\\', b'\\\\'), (b'\\\\\\\\', b'\\\\'), (b'"', b'"'), (b'\\"', b'"'), (b'\\\\"', b'\\"'),
            (b'\\\\\\"', b'\\"'), (b'\\n\\"\\', b'\\n"\\'), (b'a\\\\\\b', b'a\\\\b'), (b'\\a\\\\\\"\\', b'\\a\\"\\'), (b'', b''), (b'\xff\\\xff', b'\xff\\\xff')]):
        header = text(F) + b'##' + raw + b'=' + text(b'', COLS)
        for quoted, means in ((1, meaning), (0, raw)):
            forged = {2: place(CONTIG, 21, 2 + len(raw)), 3: identity(2, len(raw), quoted)}
            for asked, id_ in (('raw', raw), ('meaning', meaning)):
                entry, _ = add(f'stray-{number}-{quoted}-{asked}', header, 3, CONTIG, id_, size=4, forged=forged, number=0)
                assert (entry == 1) == (id_ == means)


# Forged tables

def tables():
    """Entries that are not well formed or equal, tables that are cut, and 29 before 33."""
    header = contigs(b'a', b'b', b'c')
    start = header.index(b'##contig')
    one = place(CONTIG, start, 15)
    a = {2: one, 3: identity(13, 1)}
    for name, words_, number in (
            ('kind-0', (place(0, start, 15), identity(13, 1)), 29), ('kind-11', (place(11, start, 15), identity(13, 1)), 29), ('zero-bit', (place(CONTIG, start, 15, 1), identity(13, 1)), 29),
            ('zero-bit-two', (one, identity(13, 1, zero=1)), 29), ('tag', (one, identity(13, 1, tag=1)), 29), ('id-past-line', (one, identity(15, 1)), 29),
            ('line-past-header', (place(CONTIG, start, len(header)), identity(13, 1)), 29), ('id-in-text', (place(8, start, 15), identity(13, 1)), 29),
            ('text', (place(8, start, 15), 0), 0), ('sample', (place(10, start, 15), 0), 0), ('other-map', (place(7, start, 15), identity(13, 1)), 0),
            ('filter', (place(FILTER, start, 15), identity(13, 1)), 0), ('whole-line', (one, identity(0, 15)), 0), ('no-id', (one, 0), 0)):
        for room in (2, 3, 6):
            for kind, id_ in ((CONTIG, b'a'), (CONTIG, b'b'), (FILTER, b'a')):
                forged = {2: words_[0], 3: words_[1]}
                count = 3 if name in ('filter', 'whole-line', 'no-id') else 2
                add(f'table-{name}-{room}-{kind}-{id_.decode()}', header, room, kind, id_, forged=forged, number=number or (33 if room < count else 0))
    # 29 wherever it stands, and with too few places
    for n in range(5):
        for room in (0, 1, 3, 8):
            add(f'malformed-{n}-{room}', header, room, CONTIG, b'b', forged={2 * n: 0}, number=29, found=None if room else (None, 0))
    # an entry three times: all are placed, and the first is found
    thrice = {**a, 4: one, 5: identity(13, 1), 6: one, 7: identity(13, 1)}
    for room in (2, 3, 4, 6):
        add(f'thrice-{room}', header, room, CONTIG, b'a', forged=thrice, number=33 if room < 3 else 0)
        add(f'thrice-{room}-missing', header, room, CONTIG, b'b', forged=thrice, number=33 if room < 3 else 0)
    for size in range(11):
        add(f'cut-{size}', header, 3, CONTIG, b'b', size=size, number=0)
    add('zeros-behind', header, 3, CONTIG, b'b', size=12, number=29)
    # the same line as two kinds
    both = {2: place(INFO, start, 15), 3: identity(13, 1), 4: one, 5: identity(13, 1)}
    for kind, entry in ((INFO, 1), (CONTIG, 2)):
        assert add(f'two-kinds-{NAMES[kind]}', header, 6, kind, b'a', forged=both, number=0)[0] == entry
    # an entry of no bytes at the header's end
    end = {2: place(CONTIG, len(header), 0), 3: 0}
    assert add('at-the-end', header, 3, CONTIG, b'', forged=end, number=0)[0] == 1


# Forged indexes

def indexes():
    """Words that no build leaves: what names no equal entry is passed over and counts."""
    header = contigs(b'a', b'b', b'c')
    full = lambda room, word: {k: word for k in range(room)}
    for room in (1, 2, 3, 4, 8):
        first = index_model.hashed(CONTIG, b'b') % room
        last = (first + room - 1) % room
        for name, word in (('past', 6), ('far-past', 4294967295), ('most', 4294967294), ('fileformat', 1), ('columns', 5), ('other', 2)):
            number = 33 if room < 3 else 0
            add(f'full-{name}-{room}', header, room, CONTIG, b'b', index=full(room, word), number=number, found=(None, room))
            add(f'full-{name}-{room}-hit-last', header, room, CONTIG, b'b', index={**full(room, word), last: 3}, number=number, found=(2, room))
            if 1 < room:
                add(f'full-{name}-{room}-0-last', header, room, CONTIG, b'b', index={**full(room, word), last: 0}, number=number, found=(None, room))
        add(f'full-hits-{room}', header, room, CONTIG, b'b', index=full(room, 3), found=(2, 1))
        add(f'full-hits-{room}-for-nothing', header, room, INFO, b'b', index=full(room, 3), found=(None, room))
        add(f'empty-{room}', header, room, CONTIG, b'b', index=full(room, 0), found=(None, 1))
        add(f'first-0-{room}', header, room, CONTIG, b'b', index={**full(room, 3), first: 0}, found=(None, 1))
        if 2 < room:
            second = (first + 1) % room
            add(f'hit-second-{room}', header, room, CONTIG, b'b', index={first: 2, second: 3}, found=(2, 2))
            add(f'behind-0-{room}', header, room, CONTIG, b'b', index={first: 2, second: 0, (first + 2) % room: 3}, found=(None, 2))
    # an index beside a table with an entry that is not well formed: that one is passed over, the others are found
    for room in (1, 3, 4):
        add(f'malformed-passed-{room}', header, room, CONTIG, b'b', forged={2: 0}, index=full(room, 2), number=29, found=(None, room))
        add(f'malformed-beside-{room}', header, room, CONTIG, b'b', forged={2: 0}, index=full(room, 3), number=29, found=(2, 1))
    # a place of another kind of the same ID
    assert add('same-id-other-kind', MIXED, 8, ALT, b'x', index=full(8, 4), number=0) == (None, 8)
    assert add('same-id-this-kind', MIXED, 8, INFO, b'x', index=full(8, 4), number=0) == (3, 1)
    # that is the index of the second form too
    add('second-form-full', header, 4, CONTIG, b'b', index=full(4, 9), form=SECOND, number=0, found=(None, 4))
    add('second-form-hits', header, 4, CONTIG, b'c', index=full(4, 4), form=SECOND, number=0, found=(3, 1))


for group in (places, kinds, walks, escapes, strays, tables, indexes):
    group()
# through the library for C
for name, asked, given, came in list(CASES.values())[::10]:
    CASES['c-' + name] = ('c-' + name, 'c-' + asked, given, came)
record.write('indexes', list(CASES.values()))

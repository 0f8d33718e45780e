#!/usr/bin/env python3
"""Makes the recorded lists of entries with oddly spelled numbers, crates/cases/data/odd, from model.py. Asked are the version, the
table's words, the list's words, a word that says nothing, and the words forged (-: the word that reading left)."""
import model
import record
from calls_table import identity, place
from pieces import COLS, EXAMPLE, F, GOOD, map_line, text, words

CASES = {}
UNTOUCHED = 7777


def add(name, header, version=(4, 3), size=None, room=8, forged=None, number=None):
    """forged: the number of a word -> what stands there. Without a size the table is as large as its entries."""
    assert name not in CASES, name
    forged = forged or {}
    left = [word for pair in model.read(header, None, 64).entries for word in pair]
    size = len(left) if size is None else size
    left = [word for pair in model.read(header, None, size).entries for word in pair]
    table = [forged.get(k, word) for k, word in enumerate(left + [0] * (size - len(left)))]
    words_forged = [str(forged.get(k, '-')) for k in range(max(forged, default=-1) + 1)]
    list_ = [UNTOUCHED] * room
    try:
        odd = model.odd_entries(header, table, version, room)
        list_[:len(odd)] = odd
        answer = 0, len(odd)
    except model.Refused as refused:
        answer = refused.number, 0
    assert number is None or answer[0] == number, (name, answer)
    came = b'number=%d listed=%d list:' % answer + b''.join(b' %d' % word for word in list_)
    CASES[name] = (name, words('odd', version, size, room, '-', *words_forged), record.escaped(header), came)
    return answer


SPELLINGS = {'zero': b'0', 'one': b'1', 'ten': b'10', 'last': b'18446744073709551615', 'zeros': b'00', 'plus-zero': b'+0', 'leading': b'007', 'plus': b'+5',
             'plus-leading': b'+05', 'long': b'0' * 30 + b'1', 'plus-last': b'+18446744073709551615'}
ODD = {'zeros', 'plus-zero', 'leading', 'plus', 'plus-leading', 'long', 'plus-last'}
FIELDS = {b'INFO': (b'Number', b'IDX', b'length'), b'FORMAT': (b'Number', b'IDX', b'length'), b'FILTER': (b'IDX', b'Number', b'length'),
          b'contig': (b'length', b'IDX', b'Number'), b'ALT': (b'IDX', b'Number', b'length'), b'META': (b'IDX', b'length'), b'PEDIGREE': (b'IDX', b'Number'),
          b'a': (b'IDX', b'length', b'Number')}
KNOWN = {(b'INFO', b'Number'), (b'INFO', b'IDX'), (b'FORMAT', b'Number'), (b'FORMAT', b'IDX'), (b'FILTER', b'IDX'), (b'contig', b'IDX'), (b'contig', b'length')}


def with_field(key, field, value):
    fields = GOOD[key].replace(b'Number=1', b'Number=' + value) if field == b'Number' and b'Number' in GOOD[key] else GOOD[key] + b',' + field + b'=' + value
    return map_line(key, fields)


def spellings():
    """Each spelling in each field of each kind, bare and quoted."""
    for key, fields in FIELDS.items():
        for field in fields:
            for name, value in SPELLINGS.items():
                odd = name in ODD and (key, field) in KNOWN
                for form, written in (('bare', value), ('quoted', b'"' + value + b'"')):
                    header = text(F, with_field(key, field, written), COLS)
                    answer = add(f'{key.decode()}-{field.decode()}-{name}-{form}', header, number=0)
                    assert answer == (0, int(odd)), (key, field, name, answer)


def letters():
    for letter in (b'A', b'R', b'G', b'.', b'P', b'LA', b'LR', b'LG', b'M'):
        header = text(b'##fileformat=VCFv4.5', with_field(b'FORMAT', b'Number', letter), COLS)
        assert add(f'letter-{letter.decode()}', header, version=(4, 5)) == (0, 0)


SEVERAL = text(F, b'##INFO=<ID=a,Number=+1,Type=Integer,Description=d,IDX=007>', b'##contig=<ID=c,length=5,IDX=0>', b'##b=text', b'##contig=<ID=d,IDX=+1,length=00>',
               b'##FILTER=<ID=q,Description=007>', b'##FORMAT=<ID=e,Number=01,Type=String,Description=d>', COLS + b'\tFORMAT\t007\t+1')


def lists():
    """Several entries, each once, and lists that are too short."""
    assert add('several', SEVERAL) == (0, 3)
    for room in range(7):
        add(f'several-room-{room}', SEVERAL, room=room, number=31 if room < 3 else 0)
    add('version-parts', text(b'##fileformat=VCFv0004.0003', COLS))
    add('none', EXAMPLE, room=0, number=0)
    add('no-table', SEVERAL, size=0, room=0, number=0)
    add('one-word', SEVERAL, size=1, room=0, number=0)
    add('odd-last-word', SEVERAL, size=5, number=0)
    add('empty-header', b'', size=0, number=0)
    add('entries-of-zeros', SEVERAL, size=30, number=29)
    for version in ((4, 2), (4, 3), (4, 4), (4, 5), (4, 10), (5, 0), (0, 0)):
        add('several-under-%d.%d' % version, SEVERAL, version=version)
    reserved = text(b'##fileformat=VCFv4.2', b'##INFO=<ID=DP,Number=02,Type=Integer,Description=d>', COLS)
    add('refused-under-4.3', reserved, number=29)
    add('fine-under-4.2', reserved, version=(4, 2), number=0)
    add('29-before-31', reserved, room=0, number=29)
    meta = text(F, b'##META=<ID=x,Values=[a,b]>', b'##contig=<ID=c,length=01>', COLS)
    add('meta-under-4.3', meta, number=0)
    add('meta-under-4.2', meta, version=(4, 2), number=29)
    add('text-under-4.2', text(F, b'##a=<K=1,ID=x>', b'##contig=<ID=c,length=01>', COLS), version=(4, 2), number=29)


def forged():
    """Entries of every kind that lie about the line, and words that no reading leaves."""
    header = SEVERAL
    starts = [len(header[:k]) for k in range(len(header)) if k == 0 or header[k - 1:k] == b'\n']
    lengths = [header.find(b'\n', s) - s for s in starts]
    for kind in range(16):
        for line in (0, 1, 3, 4, 7):
            add(f'kind-{kind}-line-{line}', header, size=2, forged={0: place(kind, starts[line], lengths[line]), 1: 0}, room=2)
    add('zero-bits', header, size=2, forged={0: place(8, 0, 5, 1)}, number=29)
    add('tag-three', header, size=2, forged={0: place(7, starts[1], lengths[1]), 1: identity(0, 0, tag=3)}, number=29)
    add('id-in-text', header, size=2, forged={0: place(8, starts[3], lengths[3]), 1: identity(1, 1)}, number=29)
    add('past-the-end', header, size=2, forged={0: place(8, len(header), 1), 1: 0}, number=29)
    add('at-the-end', header, size=2, forged={0: place(8, len(header), 0), 1: 0}, number=0)
    add('id-past-the-line', header, size=2, forged={0: place(6, starts[2], lengths[2]), 1: identity(60000, 1)}, number=29)
    add('other-id', header, size=2, forged={0: place(6, starts[4], lengths[4]), 1: identity(0, 2, quoted=1)}, number=0)
    add('twice', header, size=4, forged={0: place(6, starts[4], lengths[4]), 1: 0, 2: place(6, starts[4], lengths[4]), 3: 0}, number=0)
    add('last-refused', header, size=4, forged={0: place(6, starts[4], lengths[4]), 1: 0, 2: place(11, 0, 0), 3: 0}, number=29)
    add('last-refused-no-room', header, size=4, room=0, forged={0: place(6, starts[4], lengths[4]), 1: 0, 2: place(11, 0, 0), 3: 0}, number=29)
    bad = text(F, b'##a=x')[:-1] + b'\xff\n##contig=<ID=\xff,length=01>\n'
    at = bad.index(b'##contig')
    add('not-utf8', bad, size=2, forged={0: place(6, at, len(bad) - at - 1), 1: 0}, number=29)
    add('not-utf8-text', bad, size=2, forged={0: place(8, at, len(bad) - at - 1), 1: 0}, number=0)
    add('two-lines', header, size=2, forged={0: place(6, starts[4], lengths[4] + 1 + lengths[5]), 1: 0}, number=29)
    add('part-of-a-line', header, size=2, forged={0: place(6, starts[4], lengths[4] - 1), 1: 0}, number=29)


spellings()
letters()
lists()
forged()
record.write('odd', list(CASES.values()))

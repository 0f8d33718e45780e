#!/usr/bin/env python3
"""Makes the recorded calls, crates/cases/data/calls, from model.py: what the calls show of the entries that reading leaves, and
of forged ones. Asked are the version of the field calls, the table's words, the entry and the field (each: all of them, and one
past the last), and the words forged (-: the word that reading left)."""
import model
import record
from calls_table import entry_line, identity, part, place
from pieces import COLS, EXAMPLE, F, FILTER_CASE, QUOTED_EXAMPLE, text, words

LAST = 2**64 - 1
CASES = {}

LINES = {
    'fileformat': F,
    'INFO': b'##INFO=<ID=q,Number=1,Type=Integer,Description="d, e">',
    'FILTER': b'##FILTER=<ID="a\\"b",Description=x>',
    'FORMAT': b'##FORMAT=<Description=,ID=GT,Number=1,Type=String>',
    'ALT': b'##ALT=<ID=DEL,Description="">',
    'contig': b'##contig=<ID=1,length=5,URL=u>',
    'map': b'##cell=<K="0.98",ID="W07">',
    'META': b'##META=<ID=x,Values=[a,b]>',
    'text': b'##source=made',
    'columns': COLS + b'\tFORMAT\ts\tt',
}
KINDS = text(*LINES.values())
NUMBERS = {name: number for number, name in enumerate(LINES)}
SIZE = 26


def add(name, header, version=(4, 3), size=SIZE, entry=None, field=None, forged=None):
    """forged: the number of a word -> what stands there."""
    assert name not in CASES, name
    forged = forged or {}
    left = [word for pair in model.read(header, None, size).entries for word in pair]
    table = [forged.get(k, word) for k, word in enumerate(left + [0] * (size - len(left)))]
    words_forged = [str(forged.get(k, '-')) for k in range(max(forged, default=-1) + 1)]
    entries = range(size // 2 + 1) if entry is None else [entry]
    steps = [b'steps=%d' % steps_over(header, table)] if entry is None else []
    shown = steps + [entry_line(header, table, n, version, field) for n in entries]
    asked = words('show', version, size, 'each' if entry is None else entry, 'each' if field is None else field, *words_forged)
    CASES[name] = (name, asked, record.escaped(header), b'\n'.join(shown))


def steps_over(header, table):
    """How many entries a view shows, from the first on."""
    n = 0
    while part(model.entry, header, table, n):
        n += 1
    return n


def as_read():
    add('each-kind', KINDS)
    add('each-kind-crlf', KINDS.replace(b'\n', b'\r\n'))
    add('each-kind-under-4.2', KINDS, version=(4, 2))
    add('each-kind-under-4.5', KINDS, version=(4, 5))
    add('doc-83-bytes', EXAMPLE, size=6)
    add('doc-83-bytes-quoted', QUOTED_EXAMPLE, size=6)
    add('refused-keeps-some', FILTER_CASE, size=6)
    add('empty-header', b'', size=4)
    add('no-table', EXAMPLE, size=0)
    add('one-word', EXAMPLE, size=1)
    add('odd-last-word', EXAMPLE, size=5)
    add('many-fields', text(F, b'##a=<' + b','.join(b'k%d=%d' % (n, n) for n in range(40)) + b',ID=x>', COLS), size=6)
    add('marks-in-fields', text(F, b'##a=<a\\=\\,b="",c=,d="\\"\\\\,>",e==,ID=[,f="x">', COLS), size=6)
    add('brackets', text(F, b'##META=<Values=[a,b>"],ID="x",z=[c]>', b'##META=<ID=y,Values=[a>', COLS), size=8)
    add('bytes-past-ascii', text(F, '##é=<ID=日本,é="\u07ff,\U0010ffff">'.encode(), COLS + '\tFORMAT\té'.encode()), size=8)
    add('empty-name', text(F, COLS + b'\tFORMAT\ta\t\tb'), size=10)
    pedigree = text(b'##fileformat=VCFv4.2', b'##PEDIGREE=<Child=c,Mother=m>', b'##PEDIGREE=<Derived="d",x=1>', b'##PEDIGREE=<x=1,ID=e>',
                    COLS)
    add('pedigree', pedigree, version=(4, 2), size=10)
    add('pedigree-under-4.3', pedigree, size=10)
    early = text(b'##fileformat=VCFv4.2', b'##INFO=<ID=DP,Number=A,Type=Float,Description="">', b'##META=<ID=x,Values=[a]b>',
                 b'##a=<ID=x,K=1>', b'##b=<K=1,ID=x>', COLS)
    for version in [(4, 2), (4, 3), (0, 0), (2**32 - 1, 0)]:
        add('before-4.3-under-%d.%d' % version, early, version=version, size=12)
    late = text(b'##fileformat=VCFv4.5', b'##FORMAT=<ID=x,Number=LA,Type=Integer,Description="">', COLS)
    for version in [(4, 4), (4, 5), (4, 10), (5, 0)]:
        add('local-letter-under-%d.%d' % version, late, version=version, size=6)


def numbers():
    """Entries and fields past those that there are."""
    for entry in (2, 3, 4, 2**32, 2**63 - 1, 2**63, 2**63 + 1, LAST - 1, LAST):
        add(f'entry-{entry}', EXAMPLE, size=6, entry=entry)
    for field in (0, 1, 2, 2**32, 2**63, LAST):
        add(f'field-{field}', EXAMPLE, size=6, entry=1, field=field)
    add('field-last-of-entry-last', EXAMPLE, size=6, entry=LAST, field=LAST)


def forge(name, line, one=None, two=None, header=KINDS, **options):
    """Changes the words of the entry of this line: each a function of the entry's kind, start and length, or of its ID's word."""
    n = NUMBERS[line]
    left = model.read(header, None, SIZE).entries[n]
    kind, start, length = left[0] >> 60, left[0] >> 40 & 0xFFFFF, left[0] >> 24 & 0xFFFF
    forged = {}
    if one:
        forged[2 * n] = one(kind, start, length)
    if two:
        forged[2 * n + 1] = two(left[1])
    add(name, header, entry=n, forged=forged, **options)


def forged_kinds():
    for kind in (0, 11, 12, 13, 14, 15):
        forge(f'kind-{kind}', 'INFO', lambda k, s, l: place(kind, s, l))
    for line in LINES:
        kind = 2 if line == 'map' else 7
        forge(f'{line}-as-kind-{kind}', line, lambda k, s, l: place(kind, s, l))
    forge('contig-as-FILTER', 'contig', lambda k, s, l: place(model.FILTER, s, l))
    forge('INFO-as-FORMAT', 'INFO', lambda k, s, l: place(model.FORMAT, s, l))
    forge('text-as-columns', 'text', lambda k, s, l: place(model.COLUMNS, s, l))
    forge('map-as-text', 'map', lambda k, s, l: place(model.OTHER_TEXT, s, l), lambda x: 0)
    forge('map-as-sample', 'map', lambda k, s, l: place(model.SAMPLE, s + 2, 4), lambda x: 0)
    forge('map-as-text-with-id', 'map', lambda k, s, l: place(model.OTHER_TEXT, s, l))


def forged_bits():
    for bit in (0, 12, 23):
        forge(f'word-one-bit-{bit}', 'INFO', lambda k, s, l: place(k, s, l, 1 << bit))
    for bit in (0, 14, 28):
        forge(f'word-two-bit-{bit}', 'INFO', None, lambda x: x | 1 << bit)
    for line in ('INFO', 'FILTER', 'FORMAT', 'ALT', 'contig'):
        for tag in (1, 2, 3):
            forge(f'{line}-tag-{tag}', line, None, lambda x: x | tag << 29)
    for tag in (1, 2, 3):
        forge(f'map-tag-{tag}', 'map', None, lambda x: x | tag << 29)
    for line in ('fileformat', 'text', 'columns'):
        for name, word in [('offset', identity(1, 0)), ('id', identity(0, 1)), ('quoted', identity(0, 0, 1)), ('tag', identity(0, 0, 0, 1)),
                           ('zero', 1)]:
            forge(f'{line}-with-{name}', line, None, lambda x: word)
    add('sample-with-id', KINDS, entry=10, forged={21: identity(0, 1)})
    forge('quoted-turned', 'map', None, lambda x: x ^ 1 << 31)
    forge('all-bits', 'map', lambda k, s, l: LAST, lambda x: LAST)
    forge('no-bits', 'map', lambda k, s, l: 0, lambda x: 0)


def forged_places():
    size = len(KINDS)
    for name, one in {
        'ends-with-header': lambda k, s, l: place(k, s, size - s), 'ends-past-header': lambda k, s, l: place(k, s, size - s + 1),
        'begins-at-end': lambda k, s, l: place(k, size, 0), 'begins-past-end': lambda k, s, l: place(k, size + 1, 0),
        'last-start': lambda k, s, l: place(k, 2**20 - 1, l), 'longest': lambda k, s, l: place(k, s, 2**16 - 1),
        'last-start-longest': lambda k, s, l: place(k, 2**20 - 1, 2**16 - 1), 'no-length': lambda k, s, l: place(k, s, 0),
        'begins-later': lambda k, s, l: place(k, s + 1, l), 'ends-earlier': lambda k, s, l: place(k, s, l - 1),
        'ends-with-lf': lambda k, s, l: place(k, s, l + 1), 'other-line': lambda k, s, l: place(k, s - 30 - 1, 30),
    }.items():
        forge('map-' + name, 'map', one)
        forge(f'map-{name}-no-id', 'map', one, lambda x: 0)
    for name, two in {
        'id-to-end': lambda x: identity(2, 24), 'id-past-end': lambda x: identity(3, 24), 'id-whole': lambda x: identity(0, 26),
        'id-too-long': lambda x: identity(0, 27),
        'id-at-end': lambda x: identity(26, 0), 'id-after-end': lambda x: identity(27, 0),
        'id-last-offset': lambda x: identity(2**16 - 1, 1),
        'id-longest': lambda x: identity(1, 2**16 - 1), 'id-both-most': lambda x: identity(2**16 - 1, 2**16 - 1),
        'id-elsewhere': lambda x: identity(2, 4, 1),
    }.items():
        forge('map-' + name, 'map', None, two)
    for n in (0, 4, 9, 11):
        add(f'entry-{n}-zero', KINDS, forged={2 * n: 0, 2 * n + 1: 0})
    add('words-swapped', EXAMPLE, size=6, entry=1, forged={2: identity(11, 3), 3: place(7, 21, 22)})
    add('same-line-twice', EXAMPLE, size=8, forged={6: place(7, 21, 22), 7: identity(11, 3)})
    add('past-what-reading-left', EXAMPLE, size=8, entry=3, forged={6: place(8, 0, 4), 7: 0})


def forged_lines():
    """Entries of lines that no reading keeps."""
    for name, line, version in [
        ('not-utf8', b'##a=<ID=x,K=\xff>', (4, 3)), ('cut-utf8', b'##a=<ID=x,K=\xc3>', (4, 3)),
        ('lf-quoted', b'##a=<ID=x,K="1\n2">', (4, 3)),
        ('lf-bare', b'##a=<ID=x,K=1\n2>', (4, 3)), ('lf-in-key', b'##a\n=<ID=x,\n=1>', (4, 3)), ('no-id', b'##a=<K=1,L=2>', (4, 3)),
        ('unclosed', b'##a=<ID=x,K=1', (4, 3)), ('bad-field', b'##a=<ID=x,K>', (4, 3)), ('key-twice', b'##a=<ID=x,K=1,K=2>', (4, 3)),
        ('good', b'##a=<ID=x,K=1,L=2>', (4, 3)), ('id-later-4.2', b'##a=<K=1,ID=x>', (4, 2)), ('id-first-4.2', b'##a=<ID=x,K=1>', (4, 2)),
        ('fileformat-map', b'##fileformat=<ID=x>', (4, 3)), ('meta-4.3', b'##META=<ID=x,Values=[a,b]>', (4, 3)),
        ('meta-4.2', b'##META=<ID=x,Values=[a,b]>', (4, 2)),
        ('meta-no-field', b'##META=<>', (4, 3)),
    ]:
        add('line-' + name, line, version=version, size=2, entry=0, forged={0: place(7, 0, len(line)), 1: identity(4, 1)})
    inner = b'##cell=<ID=W07,K=0.98>'
    header = text(F, b'##t=' + inner, COLS)
    add('line-inside-a-text', header, size=6, forged={2: place(7, 25, len(inner)), 3: identity(11, 3)})


for group in (as_read, numbers, forged_kinds, forged_bits, forged_places, forged_lines):
    group()
record.write('calls', list(CASES.values()))

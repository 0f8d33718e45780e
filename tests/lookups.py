#!/usr/bin/env python3
"""Makes the recorded cases of the library's calls by name, crates/cases/data/lookups, from model.py. Asked are c-told (the version imposed),
c-look (the version, the table's words, an entry, a field, a key, an ID, a field's key, the output's bytes), c-meaning (quoted, the
output's bytes, what it is held against) and c-end."""
import model
import record
import told
from pieces import COLS, EXAMPLE, F, FILTER_CASE, text, words

CASES = []
ROOM = 24
OUTPUT = 16
NAMES = text(F, b'##b=text', b'##c=<K=1,L="2,\\"3\\\\",ID="a\\"b">', b'##c=<ID="x",K="">', b'##contig=<ID=x,length=5>', COLS + b'\tFORMAT\ts\t##t')
META = text(F, b'##META=<ID=x,Values=[a,b]>', COLS)
PEDIGREE = text(b'##fileformat=VCFv4.2', b'##PEDIGREE=<Child=c,Mother=m>', b'##PEDIGREE=<Derived="d",Mother=n>', COLS)
TWICE = text(F, b'##c=<ID=x,K=1>', b'##d=<ID=x,K=2>', COLS)


def second(form):
    return '2' if form is model.SECOND else ''


def refusing(call):
    """What a call answers, or nothing where it is refused by 29."""
    try:
        return call()
    except model.Refused as refused:
        assert refused.number == 29
        return None


def key_in(header, e):
    """The key on an entry's line: from after ## up to the first =."""
    line = header[e.start:e.start + e.length]
    return line[2:].split(b'=')[0] if e.kind <= model.OTHER_TEXT and line.startswith(b'##') else b''


def id_in(header, e):
    raw = header[e.start + e.offset:e.start + e.offset + e.id_length]
    return model.unescape(raw) if e.quoted else raw


def described(header, e):
    if e is None:
        return b'entry 29 kind=0 start=0 length=0 key=0 length=0 has-id=0 id=0 length=0 quoted=0'
    key, has_id = key_in(header, e), e.kind in model.KNOWN
    return b'entry 0 kind=%d start=%d length=%d key=%d length=%d has-id=%d id=%d length=%d quoted=%d' % (
        e.kind, e.start, e.length, e.start + 2 if key else 0, len(key), has_id, e.start + e.offset if has_id else 0, e.id_length, e.quoted)


def fields_of(header, table, n, version, form):
    """The start of an entry's line and its fields; Refused where it has none."""
    e = model.well_formed(header, table, n, form)
    model.require(e.kind in model.KNOWN, 29)
    return e.start, model.read_again(header, e, version, form).fields


def value_told(found):
    if found is None:
        return b'29 start=0 length=0 quoted=0'
    start, f = found
    return b'0 start=%d length=%d quoted=%d' % (start + f.text_start, f.text_end - f.text_start, f.quoted)


def keyed(found, name):
    """The first field with this key, and its line's start."""
    if found is None:
        return None
    return next(((found[0], f) for f in found[1] if f.key == name), None)


def field_told(found, number):
    if found is None or number >= len(found[1]):
        return b'29 key=0 length=0 start=0 length=0 quoted=0'
    start, f = found[0], found[1][number]
    return b'0 key=%d length=%d %s' % (start + f.start, len(f.key), value_told((start, f))[2:])


def text_told(meaning, space):
    number = 29 if meaning is None else 28 if len(meaning) > space else 0
    written = meaning if number == 0 else b''
    return b', text %d length=%d %s' % (number, len(written), written.ljust(OUTPUT, b'.'))


def look(name, header, n, number, key, id_, field, version=(4, 3), space=OUTPUT, form=model.FIRST):
    table = told.words_in(model.read(header, None, ROOM, form).entries)
    table += [7] * (ROOM - len(table))
    entries = [refusing(lambda: model.well_formed(header, table, i, form)) for i in range(ROOM // form.words)]
    found = refusing(lambda: fields_of(header, table, n, version, form))
    under = next((i for i, e in enumerate(entries) if e and e.kind in model.KNOWN and key_in(header, e) == key and id_in(header, e) == id_), None)
    value = None if under is None else keyed(refusing(lambda: fields_of(header, table, under, version, form)), field)
    came = b'%s, field %s, value %s, under %s, found %s%s' % (
        described(header, entries[n] if n < len(entries) else None), field_told(found, number), value_told(keyed(found, field)),
        b'29 entry=0' if under is None else b'0 entry=%d' % under, value_told(value), text_told(value and value[1].value, space))
    asked = words('c-look' + second(form), version, ROOM, n, number, *(word.decode() for word in (key, id_, field)), space)
    CASES.append((f'look{second(form)}-{name}', asked, record.escaped(header), came))


def reading(name, header, imposed=None, form=model.FIRST):
    answer = model.read(header, imposed, form=form)
    version = answer.version or (0, 0)
    came = b'%d samples=%d major=%d minor=%d' % (answer.number, answer.samples, *version)
    CASES.append((f'told{second(form)}-{name}', words('c-told' + second(form), imposed), record.escaped(header), came))


def meaning(name, data, quoted, space, other):
    means = model.unescape(data) if quoted else data
    came = b'means %d%s' % (means == other, text_told(means, space))
    CASES.append((f'meaning-{name}', words('c-meaning', quoted, space, other.decode()), record.escaped(data), came))


def end(name, data):
    size = 0
    for line in data.split(b'\n'):
        size += len(line) + 1
        if line.startswith(b'#CHROM'):
            break
    CASES.append((f'end-{name}', 'c-end', record.escaped(data), b'%d' % min(size, len(data))))


for form in (model.FIRST, model.SECOND):
    for name, header in (('example', EXAMPLE), ('names', NAMES), ('twice', FILTER_CASE), ('nothing', b''), ('no-columns', text(F)), ('after', EXAMPLE + b'x\n')):
        for imposed in (None, (4, 4), (9, 7)):
            reading(f'{name}-{"own" if imposed is None else "%d.%d" % imposed}', header, imposed, form)
    for n in range(9):
        for number in range(4):
            look(f'{n}-{number}', NAMES, n, number, b'c', b'x', b'K', form=form)
    for name, key, id_, field in (('escaped', b'c', b'a"b', b'L'), ('as-written', b'c', b'a\\"b', b'L'), ('id', b'c', b'a"b', b'ID'), ('empty', b'c', b'x', b'K'),
                                  ('no-field', b'c', b'x', b'L'), ('no-id', b'c', b'y', b'K'), ('no-key', b'd', b'x', b'K'), ('other-key', b'contig', b'x', b'length'),
                                  ('text', b'b', b'', b'K'), ('nothing', b'', b'', b''), ('key-begins', b'cont', b'x', b'length'), ('format', b'fileformat', b'', b'')):
        for space in (16, 5, 4, 0):
            look(f'{name}-{space}', NAMES, 2, 1, key, id_, field, space=space, form=form)
    for version in ((4, 3), (4, 2), (3, 4)):
        look('brackets-%d.%d' % version, META, 1, 1, b'META', b'x', b'Values', version, form=form)
        look('names-%d.%d' % version, NAMES, 2, 2, b'c', b'a"b', b'L', version, form=form)
        look('child-%d.%d' % version, PEDIGREE, 1, 0, b'PEDIGREE', b'c', b'Child', version, form=form)
        look('derived-%d.%d' % version, PEDIGREE, 2, 1, b'PEDIGREE', b'd', b'Mother', version, form=form)
    look('two-keys', TWICE, 1, 1, b'd', b'x', b'K', form=form)
for name, data in (('plain', b'ab'), ('escapes', b'a\\"b\\\\c'), ('stray', b'a\\b\\'), ('none', b'')):
    for quoted in (0, 1, 2**32):
        size = len(model.unescape(data) if quoted else data)
        for space in {16, size, max(size - 1, 0)}:
            meaning(f'{name}-{quoted}-{space}', data, quoted, space, b'a"b\\c' if name == 'escapes' else data)
for name, data in (('header', EXAMPLE), ('vcf', EXAMPLE + b'1\t2\n#CHROM\n'), ('no-lf', EXAMPLE[:-1]), ('no-columns', text(F, b'##a=#CHROM')), ('nothing', b''), ('lf', b'\n\n'),
                   ('first', b'#CHROM\n##a\n'), ('cr', b'##a\r\n#CHROM\r\nx\r\n'), ('longer-name', b'#CHROMOSOME\nx'), ('cut', b'#CHRO\nM\n')):
    end(name, data)
record.write('lookups', CASES)

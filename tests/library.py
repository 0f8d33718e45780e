#!/usr/bin/env python3
"""Makes the recorded cases of the library for C, crates/cases/data/library, from model.py: numbers that stand side by side at that
boundary never have one value. Asked are c-read and c-form (the version imposed, the table's words, the output's bytes), c-show
(the version, the table's words, the entry, the field) and c-utf8."""
import model
import record
import told
from pieces import COLS, EXAMPLE, F, FILTER_CASE, stretched, text, words

CASES = []
META = text(b'##fileformat=VCFv4.2', b'##META=<ID=x,Values=[a,b]>', COLS)
LETTERS = text(b'##fileformat=VCFv4.4', b'##FORMAT=<ID=x,Number=LA,Type=Float,Description="">', COLS)
FIELDS = text(F, b'##b=text', b'##contig=<ID=one,length=5,URL=u>', b'##c=<K=1,L="2,3",ID="W07",M=4>', COLS + b'\tFORMAT\ts\tt')


def second(form):
    """What an asked word ends in."""
    return '2' if form is model.SECOND else ''


def read(name, header, imposed=None, room=24, form=model.FIRST):
    answer = model.read(header, imposed, room, form)
    came = ' '.join([told.place(answer)] + told.table(told.words_in(answer.entries))).encode()
    CASES.append((f'read{second(form)}-{name}', words('c-read' + second(form), imposed, room), record.escaped(header), came))


def form(name, header, imposed=None, room=24, output=4096, length=None, form=model.FIRST):
    answer = model.house(stretched(header, length), imposed, room, output, form)
    asked = words('c-form' + second(form), imposed, room, output)
    CASES.append((f'form{second(form)}-{name}', asked, record.stretched(header, length), told.house(answer)))


def show(name, header, entry, field, version=(4, 3), room=24, form=model.FIRST):
    table = told.words_in(model.read(header, None, room, form).entries)
    table += [7] * (room - len(table))
    parts = [part(model.entry, header, table, entry, form), part(model.entry_id, header, table, entry, form),
             part(model.entry_field, header, table, entry, field, version, form)]
    CASES.append((f'show{second(form)}-{name}', words('c-show' + second(form), version, room, entry, field), record.escaped(header),
                  b'entry %s, id %s, field %s, key %s' % (*parts, key(header, table, entry, form))))


def part(call, *arguments):
    try:
        start, end = call(*arguments)
    except model.Refused as refused:
        return b'%d start=0 length=0' % refused.number
    return b'0 start=%d length=%d' % (start, end - start)


def key(header, table, entry, form):
    try:
        (start, end), fields = model.entry_key(header, table, entry, form)
    except model.Refused as refused:
        return b'%d start=0 length=0 fields=0' % refused.number
    return b'0 start=%d length=%d fields=%d' % (start, end - start, fields)


for versions in (None, (4, 3), (3, 4), (4, 2), (2, 4), (4, 5), (5, 4), (4, 10), (10, 4)):
    name = 'own' if versions is None else '%d.%d' % versions
    read('brackets-' + name, META, versions)
    form('brackets-' + name, META, versions)
    read('letters-' + name, LETTERS, versions)
    form('letters-' + name, LETTERS, versions)
    for entry, field in ((1, 0), (1, 1)):
        show(f'brackets-{name}-{entry}-{field}', META.replace(b'4.2', b'4.3'), entry, field, versions or (4, 3))
for name, header in (('example', EXAMPLE), ('two-ids', FILTER_CASE), ('fields', FIELDS), ('nothing', b''), ('no-columns', text(F))):
    for room in (24, 4):
        read(f'{name}-{room}', header, room=room)
        form(f'{name}-{room}', header, room=room)
    form(name + '-no-output', header, output=0)
long = (text(F, b'##b=1') + b'##ALT=<ID=x,Description=').ljust(1024, b'd') + text(b'>', COLS)
form('line-too-long', long, length=len(long) + 65534 - max(map(len, long.split(b'\n'))))
for entry in range(9):
    for field in range(5):
        show(f'{entry}-{field}', FIELDS, entry, field)
for name, header in (('example', EXAMPLE), ('two-ids', FILTER_CASE), ('fields', FIELDS)):
    for room in (24, 4):
        read(f'{name}-{room}', header, room=room, form=model.SECOND)
        form(f'{name}-{room}', header, room=room, form=model.SECOND)
form('line-too-long', long, length=len(long) + 65534 - max(map(len, long.split(b'\n'))), output=2**20, form=model.SECOND)
for entry in range(9):
    show(f'{entry}-1', FIELDS, entry, 1, form=model.SECOND)
for name, data in (('ascii', b'a'), ('none', b''), ('two-bytes', '\u00e9'.encode()), ('cut', b'\xc3'), ('overlong', b'\xc0\x80')):
    CASES.append(('utf8-' + name, 'c-utf8', record.escaped(data), b'%d' % model.is_utf8(data)))
assert model.read(META, (4, 3)).number == 0 and model.read(META, (3, 4)).number == model.read(META).number == 9
record.write('library', CASES)

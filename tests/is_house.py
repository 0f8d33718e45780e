#!/usr/bin/env python3
"""Makes the recorded verdicts of document 02, §13, crates/cases/data/is-house, from the house form of model.py. A name begins with yes, no
or the number that the case must answer; asked are the version imposed (own: none) and the table's words, with a 2 after the first word for
the second form; c-is-house goes through the library for C. Every form that the model writes is a yes."""
import random

import model
import record
import told
from model import FIRST, SECOND
from pieces import COLS, EXAMPLE, F, GOOD, QUOTED_EXAMPLE, map_line, stretched, text, words

random.seed(13)

ROOM = 66
CASES = {}


def is_house(header, imposed, room, form):
    """The house-form call's answer, whether the header is its form, and if not, the first place where the two differ."""
    answer = model.house(header, imposed, room, form.header, form)
    assert answer.number != 28
    if answer.number or header == answer.form:
        return answer, answer.number == 0, 0
    place = 0
    while place < min(len(header), len(answer.form)) and header[place] == answer.form[place]:
        place += 1
    return answer, False, place


def add(name, header, imposed=None, room=ROOM, length=None, form=FIRST, must=None, through=''):
    """must: yes, the place of a no, or a refusal as a negative number."""
    answer, holds, place = is_house(stretched(header, length), imposed, room, form)
    verdict = str(answer.number) if answer.number else 'yes' if holds else 'no'
    assert must in (None, 'yes' if holds else -answer.number if answer.number else place), (name, verdict, place)
    name = f'{verdict}-{name}' + '-second' * (form is SECOND) + '-c' * (through != '')
    assert name not in CASES, name
    came = f'{told.place(answer)} house={int(holds)} differs={place} {told.changed(answer)}'
    asked = words(through + 'is-house' + '2' * (form is SECOND), imposed, room)
    CASES[name] = (name, asked, record.stretched(header, length), came.encode())
    return verdict


def both(name, header, **asked):
    """In both forms, and one of them through the library for C."""
    add(name, header, **asked)
    add(name, header, form=SECOND, **asked)
    add(name, header, form=random.choice((FIRST, SECOND)), through='c-', **asked)


def of(*lines, version='4.3', columns=COLS):
    return text(b'##fileformat=VCFv' + version.encode(), *lines, columns)


INFO = b'##INFO=<ID=DP,Number=1,Type=Integer,Description="Depth",IDX=3,Source=s>'
FORM = of(INFO, b'##FILTER=<ID=q10,Description="Low, or lower">', b'##FORMAT=<ID=GT,Number=1,Type=String,Description="Genotype">',
          b'##ALT=<ID=DEL,Description="Deletion">', b'##contig=<ID=chr1,length=5,md5=m,URL=u,IDX=0,assembly=a>', b'##a=1', b'##a=2',
          b'##cell=<ID=W07,K="0,98",J=x>', b'##META=<ID=x,Values=[a, b]>', columns=COLS + b'\tFORMAT\ts\tt')


def broken(name, old, new, form=None, **asked):
    """A form in which one text is put for another: a no, at the first byte that differs or behind it."""
    form = FORM if form is None else form
    assert form.count(old) == 1, name
    header = form.replace(old, new)
    add(f'{name}-form', form, must='yes', **asked)
    answer, holds, place = is_house(header, asked.get('imposed'), ROOM, FIRST)
    assert not holds and answer.number == 0, (name, answer[:3])
    both(name, header, must=place, **asked)


def rules():
    """Each rule of the form, broken in one place."""
    both('form', FORM, must='yes')
    both('example', EXAMPLE, must='yes')
    both('quoted-example', QUOTED_EXAMPLE)
    lines = FORM.split(b'\n')
    swap = lambda a, b: b'\n'.join(lines[b] if k == a else lines[a] if k == b else line for k, line in enumerate(lines))
    for name, a, b in [('filter-before-info', 1, 2), ('format-before-filter', 2, 3), ('alt-before-format', 3, 4), ('contig-before-alt', 4, 5),
                       ('other-before-contig', 5, 6), ('key-apart', 7, 8)]:
        both(name, swap(a, b), must=sum(len(line) + 1 for line in lines[:a]) + next(
            k for k, (x, y) in enumerate(zip(lines[b] + b'\n', lines[a] + b'\n')) if x != y) if a != 7 else None)
    broken('version-zeros', b'4.3', b'4.03')
    broken('version-zeros-major', b'v4.3', b'v04.3')
    broken('id-later', b'ID=DP,Number=1', b'Number=1,ID=DP')
    broken('type-before-number', b'Number=1,Type=Integer', b'Type=Integer,Number=1', form=of(INFO))
    broken('idx-before-description', b'Description="Depth",IDX=3', b'IDX=3,Description="Depth"')
    broken('other-before-known', b'IDX=3,Source=s', b'Source=s,IDX=3')
    broken('other-first', b'ID=DP,', b'Zone=z,ID=DP,')
    broken('length-later', b'length=5,md5=m', b'md5=m,length=5')
    broken('url-before-md5', b'md5=m,URL=u', b'URL=u,md5=m')
    broken('idx-before-url', b'URL=u,IDX=0', b'IDX=0,URL=u')
    broken('assembly-before-idx', b'IDX=0,assembly=a', b'assembly=a,IDX=0')
    broken('description-bare', b'"Depth"', b'Depth')
    broken('id-quoted', b'ID=DP', b'ID="DP"')
    broken('other-quoted', b'J=x', b'J="x"')
    broken('type-quoted', b'Type=Integer', b'Type="Integer"')
    broken('number-plus', b'Number=1,Type=Integer', b'Number=+1,Type=Integer')
    broken('number-quoted', b'Number=1,Type=Integer', b'Number="1",Type=Integer')
    broken('idx-zeros', b'IDX=3', b'IDX=03')
    broken('length-plus', b'length=5', b'length=+5')
    broken('length-zeros', b'length=5', b'length=005')
    broken('length-quoted', b'length=5', b'length="5"')
    broken('idx-zero-zero', b'IDX=0', b'IDX=00')
    broken('values-quoted', b'[a, b]', b'"[a, b]"')
    broken('values-open-bare', b'"[a"', b'[a', form=of(b'##META=<ID=x,Values="[a">'))
    broken('values-before-4.3', b'Values=[a]', b'Values="[a]"', form=of(b'##META=<ID=x,Values=[a]>', version='4.2'))
    broken('quote-escaped', b'K=a"b', b'K="a\\"b"', form=of(b'##b=<ID=x,K=a"b>'))
    broken('backslash-escaped', b'K=a\\b', b'K="a\\\\b"', form=of(b'##b=<ID=x,K=a\\b>'))
    broken('empty-quoted', b'K=>', b'K="">', form=of(b'##b=<ID=x,K=>'))
    broken('less-quoted', b'K=<>', b'K="<">', form=of(b'##b=<ID=x,K=<>'))
    broken('child-later', b'Child=x,Mother=m', b'Mother=m,Child=x', form=of(b'##PEDIGREE=<Child=x,Mother=m>', version='4.2'))
    broken('derived-quoted', b'Derived=x', b'Derived="x"', form=of(b'##PEDIGREE=<Derived=x>', version='4.2'))
    broken('keys-interleaved', b'##a=1\n##a=2\n##b=1', b'##a=1\n##b=1\n##a=2', form=of(b'##a=1', b'##a=2', b'##b=1'))
    broken('meta-between', b'##b=1\n##META=<ID=x>', b'##META=<ID=x>\n##b=1\n##META=<ID=y>', form=of(b'##b=1', b'##META=<ID=x>'))
    add('others-by-appearance', of(b'##b=1', b'##a=1'), must='yes')
    add('alt-idx-is-text', of(b'##ALT=<ID=x,Description="d",IDX=+01>'), must='yes')
    add('text-odd-number', of(b'##length=007'), must='yes')
    add('cr-kept', text(F, b'##a=b\r\r', COLS), must='yes')


def endings():
    """Forms cut short and lengthened, and CR LF."""
    size = len(FORM)
    for name, form in (('all', FORM), ('example', EXAMPLE)):
        both(f'{name}-crlf', form.replace(b'\n', b'\r\n'), must=20)
        both(f'{name}-crlf-last', form[:-1] + b'\r\n', must=len(form) - 1)
        both(f'{name}-no-last-lf', form[:-1], must=len(form) - 1)
        for more in (b'\n', b'x', b'\r\n', b'\0', form):
            both(f'{name}-and-{record.escaped(more[:4])}', form + more, must=-1)
        for less in (2, 3, 4, 5, 8, 20):
            add(f'{name}-less-{less}', form[:-less])
            add(f'{name}-less-{less}-lf', form[:-less] + b'\n')
    for line in range(FORM.count(b'\n')):
        at = [k for k, b in enumerate(FORM) if b == 10][line]
        add(f'crlf-in-line-{line + 1}', FORM[:at] + b'\r' + FORM[at:], must=at)
    for cut in random.sample(range(size), 30):
        add(f'cut-{cut}', FORM[:cut])
    add('sample-more', FORM[:-1] + b'\tu\n', must='yes')
    add('sample-cr', text(F) + COLS + b'\tFORMAT\ts\r', must=len(text(F) + COLS) + 10)
    add('nothing', b'', must=-25)


def versions():
    """A version imposed is written in the form's first line."""
    for imposed in ((4, 3), (4, 2), (4, 4), (4, 30), (40, 3), (3, 4)):
        both('imposed-%d.%d' % imposed, EXAMPLE, imposed=imposed, must='yes' if imposed == (4, 3) else None)
    add('imposed-longer-minor', of(version='4.3'), imposed=(4, 30), must=20)
    add('imposed-longer-major', of(version='4.3'), imposed=(40, 3), must=18)
    add('imposed-shorter', of(version='4.30'), imposed=(4, 3), must=20)
    broken('imposed-quotes', b'ID=W07', b'ID="W07"', form=EXAMPLE, imposed=(4, 3))


def refusals():
    """Those of reading, with their place; the table's room."""
    for number, name, header in [(26, 'no-columns', text(F, b'##a=b')), (4, 'first-line', text(b'##a=b')), (6, 'no-record', of(b'x')),
                                 (19, 'id-twice', of(b'##contig=<ID=x>', b'##contig=<ID="x">')), (1, 'after-columns', of() + b'\n'),
                                 (23, 'samples', of(columns=COLS + b'\tFORMAT\ta\ta')), (3, 'not-utf8', of(b'##a=\xff')),
                                 (21, 'other-twice', of(b'##a=<ID=x>', b'##a=<ID="x">')), (20, 'text-and-map', of(b'##a=<ID=x>', b'##a=b')),
                                 (18, 'reserved', of(b'##INFO=<ID=DP,Number=2,Type=Integer,Description="d">')), (22, 'columns', of(columns=b'#CHROM')),
                                 (5, 'second-fileformat', of(F)), (14, 'no-id', of(b'##contig=<length=1>')), (8, 'bad-map', of(b'##a=<ID=x'))]:
        both(name, header, must=-number)
        add(name + '-after-a-difference', header.replace(b'4.3', b'004.3'), must=-number)
    for room in range(10):
        add(f'room-{room}', EXAMPLE, room=room, must='yes' if room >= 6 else -24)
        add(f'room-{room}', EXAMPLE, room=room, form=SECOND, must='yes' if room >= 9 else -24)


def limits():
    """A form over its limits, whatever differs before: 27 and 2 come before any no. Lines of the form of 65,535 and 65,536 bytes."""
    line_to = lambda size: b'##a='.ljust(size - 1, b'x') + b'\n'
    for early, first in (('', text(F)), ('-early', text(F, b'##ALT=<Description="d",ID=x>'))):
        for name, length, last, first_form, second_form in [('form-1048575', 2**20 - 1, b'\n', 'yes', 'yes'), ('form-1048576', 2**20 - 1, b'', -27, 2**20 - 1),
                                                            ('header-1048576', 2**20, b'\n', -27, 'yes')]:
            end = COLS + last
            header = first + line_to(512 - len(first)) + line_to(512) + line_to(length % 512 + 512 - len(end)) + end
            for form, must in ((FIRST, first_form), (SECOND, second_form)):
                add(name + early, header, room=8192, length=length, form=form, must=must if not early or must == -27 else 28)
    description = (text(F, b'##b=1') + b'##ALT=<ID=x,Description=').ljust(1024, b'd') + text(b'>', COLS)
    for name, file in (('bare', description), ('early', description.replace(b'4.3', b'4.03')),
                       ('quoted', (text(F) + b'##ALT=<ID=x,Description="').ljust(1024, b'd') + text(b'">', COLS))):
        for line in (65533, 65534, 65535, 65536):
            length = len(file) + line - max(map(len, file.split(b'\n')))
            for form in (FIRST, SECOND):
                add(f'{name}-line-{line}', file, length=length, form=form)
    assert CASES['2-early-line-65534'] and CASES['yes-quoted-line-65535'] and CASES['no-early-line-65534-second']
    both('form-of-a-long-line', (text(F) + b'##a=').ljust(1024, b'x') + text(b'', COLS), length=40000)


def drawn():
    """Forms that were recorded, and forms with a byte put for another, left out or put in."""
    for index, (name, asked, given) in enumerate(record.recorded('forms')):
        if index % 25 == 0 and '\\+' not in given:
            version = tuple(map(int, asked[1][4:].split('.'))) if asked[1].startswith('VCFv') else None
            header = record.unescaped(given)
            add(f'header-of-{name}', header, imposed=version)
            answer = model.house(header, version)
            if answer.number == 0:
                add(f'form-of-{name}', answer.form, must='yes')
                add(f'form-of-{name}', answer.form, form=SECOND, must='yes')
    for count in range(150):
        at = random.randrange(len(FORM))
        put = random.choice([b'', b'"', b'\\', b',', b'0', b'x', b' ', b'\r', b'\t', b'=', b'>', FORM[at:at + 1] * 2])
        add(f'byte-{count}', FORM[:at] + put + FORM[at + 1:])


for group in (rules, endings, versions, refusals, limits, drawn):
    group()
sorts = {name.split('-')[0] for name in CASES}
assert {'yes', 'no', '27', '2', '24', '25', '26'} <= sorts, sorts
record.write('is-house', list(CASES.values()))

#!/usr/bin/env python3
"""Makes the recorded house forms, crates/cases/data/forms, and the input and output of crates/vcfhouse, from model.py. A name
begins with the number that the case must answer; asked are the version imposed (own: none), the table's words and the output's
bytes. Of every form it sees that it is its own form and means what its header means."""
import itertools
import os
import random

import model
import record
import told
from pieces import COLS, EXAMPLE, F, GOOD, QUOTED_EXAMPLE, map_line, stretched, text, words

random.seed(28)

ROOM, OUTPUT = 64, 4096
CASES = {}


def add(number, name, header, imposed=None, room=ROOM, output=OUTPUT, length=None):
    full = stretched(header, length)
    answer = model.house(full, imposed, room, output)
    assert answer.number == number, (name, number, answer[:3])
    if number == 0:
        assert model.house(answer.form).form == answer.form, name
        assert model.meaning(answer.form) == model.meaning(full, imposed), name
    name = f'{number}-{name}'
    assert name not in CASES, name
    CASES[name] = (header, imposed, room, output, length, answer)
    return answer.form


def same(name, *headers, imposed=None):
    """Headers of one meaning: one form, which is the last case of the group."""
    forms = {add(0, f'{name}-{index}', header, imposed) for index, header in enumerate(headers, 1)}
    assert len(forms) == 1, name
    add(0, f'{name}-form', forms.pop())


def differ(name, *headers):
    """Headers of which no two mean the same."""
    forms = {add(0, f'unlike-{name}-{index}', header) for index, header in enumerate(headers, 1)}
    assert len(forms) == len(headers), name


def exchanged(name, upper, lower, alike=True, number=0, above=text(F), below=text(COLS), **asked):
    """Document 02, §12: two neighbouring lines in both orders, each with its own ending. Where they may change places the answers are
    alike in all but the entries' order; where nothing is claimed the forms differ."""
    answers = []
    for index, header in enumerate((above + upper + lower + below, above + lower + upper + below), 1):
        case = f'exchanged-{name}-{index}'
        add(number, case, header, **asked)
        answer = CASES[f'{number}-{case}'][-1]
        answers.append((answer.line, answer.start, len(answer.entries), answer.form))
    assert (answers[0] == answers[1]) == alike, name


def of(*lines, version='4.3', columns=COLS):
    return text(b'##fileformat=VCFv' + version.encode(), *lines, columns)


def maps(*fields, key=b'a', version='4.3'):
    return [of(map_line(key, f), version=version) for f in fields]


def one_form():
    same('example', EXAMPLE, QUOTED_EXAMPLE, EXAMPLE.replace(b'\n', b'\r\n'), EXAMPLE[:-1], EXAMPLE.replace(b'4.3', b'004.03'),
         EXAMPLE.replace(b'W07', b'"W07"'))
    same('imposed', EXAMPLE.replace(b'4.3', b'4.2'), EXAMPLE, EXAMPLE.replace(b'4.3', b'9.9'), imposed=(4, 3))
    same('imposed-big', EXAMPLE, imposed=(2**32 - 1, 0))
    info = map_line(b'INFO', GOOD[b'INFO'])
    kinds = [info, map_line(b'FILTER', GOOD[b'FILTER']), map_line(b'FORMAT', GOOD[b'FORMAT']), map_line(b'ALT', GOOD[b'ALT']),
             map_line(b'contig', b'ID=x'), b'##a=b', b'##META=<ID=x>']
    same('kinds', of(*kinds), of(*kinds[5:], *kinds[:5]), of(*kinds[4::-1], *kinds[5:]),
         of(kinds[5], kinds[2], kinds[6], kinds[4], kinds[0], kinds[3], kinds[1]))
    same('within-kinds', of(b'##contig=<ID=b>', b'##b=1', b'##contig=<ID=a>', b'##a=1', b'##b=0'),
         of(b'##b=1', b'##b=0', b'##a=1', b'##contig=<ID=b>', b'##contig=<ID=a>'))
    same('info-fields', *maps(b'ID=x,Number=1,Type=Float,Description="d",IDX=7,K=1,L=2',
                              b'IDX=+07,Description=d,Type="Float",Number=01,ID="x",K=1,L=2',
                              b'K=1,ID=x,L="2",IDX=7,Number="+1",Type=Float,Description="d"', key=b'INFO'))
    same('format-fields', *maps(b'ID=x,Number=G,Type=Float,Description="d",IDX=0', b'Type=Float,IDX=000,Number="G",Description=d,ID=x',
                                key=b'FORMAT'))
    same('filter-fields', *maps(b'ID=x,Description="d",IDX=1,K=2', b'K=2,IDX=1,Description=d,ID=x', key=b'FILTER'))
    same('alt-fields', *maps(b'ID=x,Description="",IDX=q', b'IDX=q,Description=,ID=x', key=b'ALT'))
    same('contig-fields', *maps(b'ID=x,length=5,md5=m,URL=u,IDX=3,assembly=a', b'assembly=a,IDX=03,URL=u,md5=m,length=+5,ID=x',
                                b'IDX="3",md5="m",assembly="a",length="5",URL="u",ID="x"', key=b'contig'))
    same('biggest-integer', *maps(b'ID=x,length=18446744073709551615,IDX=0', b'ID=x,IDX=+0,length=+018446744073709551615', key=b'contig'))
    same('other-fields', *maps(b'ID=x,K=1,J=2', b'K=1,J=2,ID=x', b'K="1",ID=x,J="2"'))
    same('quoted-bare', *maps(b'ID=x,K=a b,J=[c]', b'ID="x",K="a b",J="[c]"'))
    same('backslash', *maps(b'ID=a\\b,K=\\', b'ID="a\\\\b",K="\\\\"'))
    same('quote-inside', *maps(b'ID=a"b,K=c"', b'ID="a\\"b",K="c\\""'))
    same('must-quote', *maps(b'ID="a,b",K="c>d",J="\\"e",L="<"', b'K="c>d",J="\\"e",ID="a,b",L=<'))
    same('must-quote-escapes', *maps(b'ID=x,K=",\\\\\\"",J="\\\\,"', b'K=",\\\\\\"",J="\\\\,",ID=x'))
    same('empty', *maps(b'ID=,K=', b'ID="",K=""', b'K="",ID='))
    same('description-other', *maps(b'ID=x,Description="d"', b'Description=d,ID=x'))
    same('description-escapes', *maps(b'ID=x,Description="a\\"b\\\\c"', b'ID=x,Description=a"b\\c', key=b'ALT'))
    same('small-description', *maps(b'ID=x,description=d', b'ID=x,description="d"'))
    same('equals', *maps(b'ID=x=y,K==', b'ID="x=y",K="="'))
    same('idx-of-alt', *maps(b'ID=x,Description="d",IDX=+01', b'IDX="+01",ID=x,Description="d"', key=b'ALT'))
    same('values', *maps(b'ID=x,Values=[a,b]', b'Values="[a,b]",ID=x', key=b'META'))
    same('values-empty', *maps(b'ID=x,Values=[]', b'ID=x,Values="[]"', key=b'META'))
    same('values-close', *maps(b'ID=x,Values=[>,"\\]', b'ID=x,Values="[>,\\"\\\\]"', key=b'META'))
    same('values-open', *maps(b'ID=x,Values="[a",K="]"', b'Values="[a",ID=x,K=]', key=b'META'))
    same('values-more', *maps(b'ID=x,Values="[]["', b'Values="[][",ID="x"', key=b'META'))
    same('values-plain', *maps(b'ID=x,Values=a]', b'ID=x,Values="a]"', key=b'META'))
    same('values-open-bare', *maps(b'ID=x,Values=[a', b'ID=x,Values="[a"', key=b'META'))
    same('values-comma', *maps(b'ID=x,Values="a,b"', b'Values="a,b",ID=x', key=b'META'))
    same('values-before-4.3', *maps(b'ID=x,Values=[a]', b'ID=x,Values="[a]"', key=b'META', version='4.2'))
    same('values-comma-before-4.3', *maps(b'ID=x,Values="[a,b]"', b'Values="[a,b]",ID=x', key=b'META', version='4.2'))
    same('values-elsewhere', *maps(b'ID=x,Values=[a', b'ID=x,Values="[a"'))
    same('pedigree', *maps(b'Child=x,Mother=m', b'Mother=m,Child="x"', key=b'PEDIGREE', version='4.2'))
    same('pedigree-derived', *maps(b'Derived=x,Original=o', b'Original="o",Derived=x', key=b'PEDIGREE', version='4.2'))
    same('pedigree-4.3', *maps(b'ID=x,Child=c,Derived=d', b'Child=c,ID=x,Derived=d', key=b'PEDIGREE'))
    same('other-before-4.3', *maps(b'ID=x,K=1', b'ID="x",K="1"', version='4.1'))
    same('local-letters', *maps(b'ID=x,Number=LA,Type=Float,Description="d"', b'Number="LA",ID=x,Type=Float,Description=d', key=b'FORMAT',
                                version='4.5'))
    same('texts', of(b'##a=<', b'##b=1', b'##a=', version='4.2'), of(b'##a=<', b'##a=', b'##b=1', version='4.2'))
    same('unicode', *maps('ID=\u00e9,K=\u65e5'.encode(), 'K="\u65e5",ID="\u00e9"'.encode()))
    same('crlf-samples', of(columns=COLS + b'\tFORMAT\ts\tt'), of(columns=COLS + b'\tFORMAT\ts\tt').replace(b'\n', b'\r\n'))
    same('last-cr', text(F, b'##a=b\r\r', COLS), text(F, b'##a=b\r\r', COLS)[:-1])
    same('name-ends-in-cr', text(F) + COLS + b'\tFORMAT\ts\r', text(F) + COLS + b'\tFORMAT\ts\r\r\n')
    same('cr-inside', *maps(b'ID=\r,K=a\rb', b'ID="\r",K="a\rb"'))


def many_forms():
    differ('values-of-k', *maps(b'ID=x', b'ID=x,K=1', b'ID=x,K=2', b'ID=x,K=', b'ID=x,k=1', b'ID=x,K=1 ', b'ID=x,K=01', b'ID=x,K="1\\""',
                                b'ID=x,K=1,K2=1', b'ID=X,K=1'))
    differ('order-of-others', *maps(b'ID=x,K=1,J=2', b'ID=x,J=2,K=1', b'ID=x,K=2,J=1'))
    differ('backslashes', *maps(b'ID=x,K=\\', b'ID=x,K=\\\\', b'ID=x,K="\\\\\\\\\\\\"', b'ID=x,K="\\""', b'ID=x,K=\\"'))
    differ('order-of-lines', of(b'##a=<ID=x>', b'##a=<ID=y>'), of(b'##a=<ID=y>', b'##a=<ID=x>'), of(b'##a=<ID=x>'))
    differ('order-of-keys', of(b'##a=1', b'##b=1'), of(b'##b=1', b'##a=1'), of(b'##a=1', b'##B=1'), of(b'##a=1', b'##a=1'), of(b'##a=1'),
           of(b'##a=1', b'##a=1', b'##b=1'))
    differ('texts', *[of(b'##a=' + value) for value in (b'', b'b', b'b ', b' b', b'"b"', b'=b', b'B', b'\\b', b'b\r\r', b'b\r\r\r')])
    differ('text-or-map', of(b'##a=ID=x'), of(b'##a=<ID=x>'), of(b'##a= <ID=x>'), of(b'##A=<ID=x>'), of(b'##META=<ID=x>'),
           of(b'##PEDIGREE=<ID=x>'), of(b'##contig=<ID=x>'))
    differ('format', of(), of(columns=COLS + b'\tFORMAT'), of(columns=COLS + b'\tFORMAT\t'), of(columns=COLS + b'\tFORMAT\ts'))
    differ('samples',
           *[of(columns=COLS + b'\tFORMAT\t' + names) for names in (b's\tt', b't\ts', b's', b's\t', b'\ts', b's t', b'st', b'S\tt')])
    differ('versions', *[of(version=version) for version in ('4.3', '4.2', '4.30', '43.0', '3.4', '0.0', '4294967295.4294967295')])
    differ('numbers',
           *maps(*[b'ID=x,Number=' + number + b',Type=Float,Description=d' for number in (b'0', b'1', b'10', b'A', b'R', b'G', b'.')],
                 key=b'INFO'))
    differ('types', *maps(*[b'ID=x,Number=1,Type=' + type_ + b',Description=d' for type_ in model.TYPES + (b'Flag',)], key=b'INFO'))
    differ('descriptions', *maps(*[b'ID=x,Description=' + d for d in (b'', b'd', b'"d\\""', b'D', b'"d,"', b'd\\', b'" d"')], key=b'ALT'))
    differ('contigs', *maps(b'ID=x', b'ID=x,md5=', b'ID=x,URL=', b'ID=x,length=0', b'ID=x,IDX=0', b'ID=x,IDX=1', b'ID=x,length=1',
                            b'ID=x,md5=a', b'ID=x,MD5=', b'ID=x,Length=0', key=b'contig'))
    differ('idx-as-bytes', *maps(b'ID=x,Description=d,IDX=1', b'ID=x,Description=d,IDX=01', b'ID=x,Description=d,IDX=+1', key=b'ALT'))
    differ('tags', *maps(b'ID=x', b'Child=x', b'Derived=x', b'ID=x,child=x', key=b'PEDIGREE', version='4.2'))
    differ('values-spelled', *maps(b'ID=x,Values=[a]', b'ID=x,Values="[a"', b'ID=x,Values="[a]]"', b'ID=x,Values="[a] "', b'ID=x,Values=a',
                                   b'ID=x,values=[a]', b'ID=x,Values=[[a]', key=b'META'))
    differ('values-version', of(b'##META=<ID=x,Values="[a">'), of(b'##META=<ID=x,Values="[a">', version='4.2'))
    differ('kinds-of-one-map',
           *[of(map_line(key, GOOD[b'INFO'])) for key in (b'INFO', b'FORMAT', b'FILTER', b'ALT', b'contig', b'a', b'META')])


def exchanges():
    typed = {key.decode(): text(map_line(key, GOOD[key])) for key in (b'INFO', b'FILTER', b'FORMAT', b'ALT', b'contig')}
    other = {'text': text(b'##a=b'), 'map': text(b'##a=<ID=x>'), 'META': text(b'##META=<ID=x>'), 'PEDIGREE': text(b'##PEDIGREE=<ID=x>')}
    for first, second in itertools.combinations(typed, 2):
        exchanged(f'{first}-{second}', typed[first], typed[second])
    for first, second in itertools.product(typed, other):
        exchanged(f'{first}-{second}', typed[first], other[second])
    for first, second in itertools.combinations(other, 2):
        if (first, second) != ('text', 'map'):  # one key has texts or maps: 20
            exchanged(f'{first}-{second}', other[first], other[second], alike=False)
    exchanged('texts', b'##a=1\n', b'##b=1\n', alike=False)
    exchanged('texts-of-one-key', b'##a=1\n', b'##a=2\n', alike=False)
    exchanged('maps', b'##a=<ID=x>\n', b'##b=<ID=x>\n', alike=False)
    for key in typed:
        exchanged(f'two-{key}', typed[key], typed[key].replace(b'ID=x', b'ID=y'), alike=False)
    info, contig = typed['INFO'], typed['contig']
    exchanged('crlf-upper', info.replace(b'\n', b'\r\n'), contig)
    exchanged('crlf-lower', info, contig.replace(b'\n', b'\r\n'))
    exchanged('text-with-cr', b'##a=b\r\r\n', contig)
    exchanged('last-line-without-lf', contig, info, below=COLS)
    exchanged('child-before-4.3', b'##PEDIGREE=<Child=x>\n', contig, above=text(F.replace(b'4.3', b'4.2')))
    exchanged('imposed', b'##a=<K=x>\n', contig, imposed=(4, 2))
    between = {'above': text(F, b'##b=1', b'##contig=<ID=y>', b'##a=c'), 'below': text(b'##contig=<ID=z>', b'##a=d', b'##b=2', COLS)}
    exchanged('between', contig, b'##a=b\n', **between)
    exchanged('between-typed', contig, info, **between)
    form = model.house(text(F) + contig + info + text(COLS)).form
    for output in (len(form), len(form) - 1):
        exchanged(f'output-{output}-of-{len(form)}', contig, info, number=0 if output == len(form) else 28, room=8, output=output)


def refusals():
    """Those of reading, and 27, 2 and 28 of the form, by which nothing is written."""
    for output in (0, 1, 82, 83, 84):
        add(0 if output >= 83 else 28, f'output-{output}-of-83', QUOTED_EXAMPLE, output=output)
    for room in (0, 5, 6, 7):
        add(0 if room >= 6 else 24, f'room-{room}-of-6', QUOTED_EXAMPLE, room=room)
    add(28, 'output-too-small-imposed', EXAMPLE, imposed=(10, 10), output=84)
    add(0, 'output-just-imposed', EXAMPLE, imposed=(10, 10), output=85)
    add(0, 'form-longer-than-header', of(b'##ALT=<ID=x,Description=\\>')[:-1], output=90)
    add(28, 'form-longer-than-output', of(b'##ALT=<ID=x,Description=\\>')[:-1], output=89)
    add(28, 'crlf-counts', text(F, b'##a=b\r\r', COLS), output=67)
    add(0, 'crlf-fits', text(F, b'##a=b\r\r', COLS), output=68)
    for number, name, header in [(25, 'empty', b''), (26, 'no-columns', text(F, b'##a=b')), (4, 'first-line', text(b'##a=b')),
                                 (6, 'no-record', of(b'x')), (19, 'id-twice', of(b'##contig=<ID=x>', b'##contig=<ID="x">')),
                                 (1, 'after-columns', of() + b'\n'), (23, 'samples', of(columns=COLS + b'\tFORMAT\ta\ta')),
                                 (3, 'not-utf8', of(b'##a=\xff')), (21, 'other-twice', of(b'##a=<ID=x>', b'##a=<ID="x">'))]:
        add(number, name, header)
        add(number, name + '-no-output', header, output=0)


def limits():
    """Forms of 1,048,575 and 1,048,576 bytes; lines of the form of 65,535 and 65,536."""
    line_to = lambda size: b'##a='.ljust(size - 1, b'x') + b'\n'
    many = text(F) + line_to(512 - 21) + line_to(512)
    for number, name, length, output in [(0, 'form-1048575', 2**20 - 2, 2**20), (28, 'form-1048575', 2**20 - 2, 2**20 - 2),
                                         (27, 'form-1048576', 2**20 - 1, 2**20), (27, 'form-1048576-no-output', 2**20 - 1, 0),
                                         (27, 'header-1048576', 2**20, 2**20)]:
        rest = length % 512 + 512
        add(number, name, many + line_to(rest - 38) + COLS, room=8192, output=output, length=length)
    description = (text(F, b'##b=1') + b'##ALT=<ID=x,Description=').ljust(1024, b'd') + text(b'>', COLS)
    backslashes = (text(F) + b'##b=1\n##ALT=<ID=x,Description=').ljust(1024, b'\\') + text(b'>', COLS)
    samples = (text(F) + COLS + b'\tFORMAT\t').ljust(1024, b's') + b'\n'
    for number, name, file, line in [(0, 'line-65535', description, 65533), (2, 'line-65536', description, 65534),
                                     (2, 'line-65537', description, 65535), (2, 'header-line-65536', description, 65536),
                                     (2, 'escapes-double', backslashes, 40000), (0, 'escapes-fit', backslashes, 32779),
                                     (0, 'columns-65535', samples, 65535), (2, 'columns-65536', samples, 65536)]:
        add(number, name, file, output=2**20, length=with_line(file, line))
    add(2, 'line-65536-no-output', description, output=0, length=with_line(description, 65534))
    add(28, 'line-65535-no-output', description, output=0, length=with_line(description, 65533))
    later = description.replace(COLS, b'##FILTER=<ID=x,Description=d>\n' + COLS)
    add(2, 'line-65536-after-filter', later, output=0, length=with_line(later, 65534))


def with_line(file, length):
    """The length of the header in which the file's longest line has this length."""
    return len(file) + length - max(len(line) for line in file.split(b'\n'))


def drawn():
    """Accepted headers put together at random."""
    values = [b'a', b'"a"', b'', b'""', b'"a,b"', b'"\\""', b'a"', b'a\\', b'"a\\\\"', b'[a', b'"[a]"', b'"[a,b]"', b'"[]["', b'"<>"', b' ',
              '\u00e9'.encode(), b'+1', b'01']
    extra = [b'K', b'J', b'Values', b'Description', b'IDX', b'Source', b'md5', b'Child', b'k']
    count = 0
    while count < 90:
        lines = []
        for _ in range(random.randint(2, 7)):
            key = random.choice(list(GOOD) + [b'b', b'META', b'PEDIGREE'])
            fields = GOOD.get(key, b'ID=x').replace(b'ID=x',
                                                    random.choice([b'ID=', b'ID="', b'ID=']) + random.choice([b'x', b'y', b'z', b'a\\\\b',
                                                                                                              b'w'])).split(b',')
            fields = [f + b'"' if f.startswith(b'ID="') else f for f in fields]
            fields += [name + b'=' + random.choice(values) for name in random.sample(extra, random.choice([0, 1, 2, 3]))]
            random.shuffle(fields)
            lines.append(map_line(key, b','.join(fields)) if random.random() < 0.85 else b'##' + random.choice([b'c',
                                                                                                                b'd']) + b'=' + random.choice(values))
        header = of(*lines, version=random.choice(['4.1', '4.2', '4.3', '4.3', '4.5']),
                    columns=random.choice([COLS, COLS + b'\tFORMAT\ts\tt']))
        imposed = random.choice([None, None, None, (4, 2), (4, 4)])
        if model.read(header, imposed).number == 0:
            add(0, f'drawn-{count:02}', random.choice([header, header.replace(b'\n', b'\r\n'), header[:-1]]), imposed)
            count += 1


def compared():
    """The sample that compare/ keeps of headers read by the Rust too: here for our answer, which that file has beside the Rust's."""
    path = os.path.join(os.path.dirname(os.path.abspath(__file__)), '..', 'compare', 'recorded')
    with open(path, encoding='ascii') as lines:
        for index, line in enumerate(lines):
            header, imposed, _, ours, _ = line.rstrip('\n').split('\t')
            number, _, rest = ours.partition(' ')
            line_number, _, form = rest.partition(' ')
            version = None if imposed == '-' else tuple(map(int, imposed.split('.')))
            name = f'rust-{index:03}'
            written = add(int(number), name, plain(header), version, room=8192, output=2**20)
            assert CASES[f'{number}-{name}'][-1].line == int(line_number) and written == plain(form), name


def plain(text):
    return text.encode('ascii').decode('unicode_escape').encode('latin-1')


for group in (one_form, many_forms, exchanges, refusals, limits, drawn, compared):
    group()
assert model.house(QUOTED_EXAMPLE).form == EXAMPLE
record.write('forms', [(name, words('form', imposed, room, output), record.stretched(header, length), told.house(answer))
                       for name, (header, imposed, room, output, length, answer) in CASES.items()])
record.keep('vcfhouse', {'stdin': QUOTED_EXAMPLE, 'stdout': EXAMPLE})

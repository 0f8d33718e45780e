#!/usr/bin/env python3
"""Makes the recorded readings, crates/cases/data/reads, and the input and output of crates/vcfhead, from model.py. A name begins
with the number that the case must answer; asked are the version imposed (own: none) and the table's words."""
import random

import model
import record
import told
from pieces import COLS, EXAMPLE, F, FILTER_CASE, GOOD, QUOTED_EXAMPLE, map_line, stretched, text, words

random.seed(83)

ROOM = 12
CASES = {}


def add(number, name, header, imposed=None, room=ROOM, length=None):
    answer = model.read(stretched(header, length), imposed, room)
    assert number is None or answer.number == number, (name, number, answer[:3])
    name = f'{answer.number}-{name}'
    assert name not in CASES, name
    CASES[name] = (header, imposed, room, length, answer)
    return answer


def rows(version, table, imposed=None, room=ROOM):
    """Each row: number, name, and the lines between a fileformat line and the column line, the last of which is refused."""
    for number, name, *lines in table:
        header = text(b'##fileformat=VCFv' + version.encode(), *lines, COLS)
        answer = add(number, name, header, imposed, room)
        assert number == 0 or answer.line == 1 + len(lines), (name, answer[:3])


def first(*lines):
    """A header whose first line is the first of these, or the column line."""
    return text(*lines, COLS)


def documented():
    """The lines on both sides of document 01, with what it says of them."""
    add(25, 'doc-empty-input', b'')
    add(26, 'doc-only-fileformat', text(F))
    add(0, 'doc-83-bytes', EXAMPLE)
    add(0, 'doc-83-bytes-quoted', QUOTED_EXAMPLE)
    add(19, 'doc-filter', FILTER_CASE)
    rows('4.3', [
        (0, 'doc-idx-plus', b'##contig=<ID=c,IDX=+5>'),
        (13, 'doc-idx-minus-zero', b'##contig=<ID=c,IDX=-0>'),
        (0, 'doc-meta-values', b'##META=<ID=x,Values=[a,b]>'),
        (14, 'doc-pedigree-no-id', b'##PEDIGREE=<Child=c,Derived=d>'),
    ])
    rows('4.2', [
        (9, 'doc-meta-values-before-4.3', b'##META=<ID=x,Values=[a,b]>'),
        (10, 'doc-pedigree-child-derived', b'##PEDIGREE=<Child=c,Derived=d>'),
    ])
    add(23, 'doc-names-a-a', text(F, COLS + b'\tFORMAT\ta\ta'))
    add(0, 'doc-format-no-name', text(F, COLS + b'\tFORMAT'))
    add(22, 'doc-info-tab', text(F, COLS + b'\t'))


def line_endings():
    crlf = b'\r\n'.join([F, b'##a=b', b'##FILTER=<ID=q,Description=x>', COLS + b'\tFORMAT\ts', b''])
    add(0, 'crlf-throughout', crlf)
    add(0, 'no-last-lf', text(F) + COLS)
    add(0, 'text-keeps-one-cr', text(F, b'##a=b\r\r', COLS))
    add(0, 'cr-inside', text(F, b'##a=b\rc', b'##b\r=<ID=\r,K\r="\r">', COLS))
    add(8, 'map-then-two-cr', text(F, b'##a=<ID=x>\r\r', COLS))
    add(7, 'fileformat-then-two-cr', text(F + b'\r\r', COLS))
    add(22, 'last-cr-no-lf', text(F) + COLS + b'\r')
    add(22, 'columns-two-cr', text(F, COLS + b'\r\r'))
    add(0, 'last-name-keeps-cr', text(F) + COLS + b'\tFORMAT\ts\r')
    add(0, 'names-differ-by-cr', text(F) + COLS + b'\tFORMAT\ts\ts\r')
    add(23, 'names-without-cr', text(F) + COLS + b'\tFORMAT\ts\ts\r\n')
    add(6, 'cr-only-separators', F + b'\r\n\r' + COLS)
    add(7, 'lone-cr-is-no-ending', F + b'\r' + COLS + b'\n')
    for name, header in [('lf', b'\n'), ('crlf', b'\r\n'), ('cr', b'\r')]:
        add(6, name + '-only', header)
    for name, rest in [('empty', b'\n'), ('cr', b'\r'), ('crlf', b'\r\n'), ('space', b' '), ('columns', text(COLS)), ('text', b'##a=b'),
                       ('variant', b'1\t2\n'),
                       ('fileformat', text(F)), ('not-utf8', b'\xff'), ('bad', b'#')]:
        add(1, name + '-after-columns', text(F, COLS) + rest)
    add(1, 'after-columns-with-full-table', text(F, COLS, b'##a=b'), room=4)
    add(1, 'third-line-after-columns', text(F, COLS + b'\tFORMAT\ta\tb', b'', b''))


def first_lines():
    for key, fields in GOOD.items():
        add(4, 'first-' + key.decode(), first(map_line(key, fields)))
    add(4, 'first-text', first(b'##a=b'))
    add(4, 'first-empty-text', first(b'##a='))
    add(4, 'first-then-fileformat', first(b'##a=b', F))
    add(4, 'first-local-letter', first(b'##FORMAT=<ID=x,Number=LA,Type=Integer,Description="d">'), imposed=(4, 2))
    add(4, 'first-values-bracketed', first(b'##META=<ID=x,Values=[a,b]>'), imposed=(4, 2))
    add(6, 'first-columns', first())
    add(6, 'first-bom', first('\ufeff'.encode() + F))
    add(6, 'first-space', first(b' ' + F))
    add(6, 'first-no-equals', first(b'##fileformat'))
    add(6, 'first-one-hash', first(b'#fileformat=VCFv4.3'))
    add(8, 'first-no-bracket', first(b'##INFO=x'))
    add(8, 'first-other-unclosed', first(b'##a=<K=1'), imposed=(4, 2))
    add(14, 'first-other-no-id', first(b'##a=<K=1>'), imposed=(4, 2))
    add(14, 'first-pedigree-child', first(b'##PEDIGREE=<Child=c>'), imposed=(4, 2))
    add(18, 'first-reserved', first(b'##INFO=<ID=DP,Number=A,Type=Integer,Description="d">'))
    add(18, 'first-reserved-imposed-4.2', first(b'##INFO=<ID=DP,Number=A,Type=Integer,Description="d">'), imposed=(4, 2))
    add(24, 'first-no-room', first(F), room=1)
    add(4, 'first-no-room-other', first(b'##a=b'), room=0)


def fileformats():
    bad = {'empty': b'', 'no-point': b'VCFv4', 'no-major': b'VCFv.3', 'no-minor': b'VCFv4.', 'only-prefix': b'VCFv',
           'plus-major': b'VCFv+4.3', 'plus-minor': b'VCFv4.+3',
           'minus': b'VCFv-4.3', 'third-part': b'VCFv4.3.1', 'space-after': b'VCFv4.3 ', 'space-before': b' VCFv4.3', 'lower': b'vcfv4.3',
           'upper': b'VCFV4.3',
           'quoted': b'"VCFv4.3"', 'letter': b'VCFv4.x', 'comma': b'VCFv4,3', 'map': b'<ID=x>', 'major-too-big': b'VCFv4294967296.3',
           'minor-too-big': b'VCFv4.4294967296',
           'unicode-digit': 'VCFv\u0664.3'.encode(), 'huge': b'VCFv99999999999999999999.3', 'equals': b'=VCFv4.3'}
    for name, value in bad.items():
        add(7, 'version-' + name, first(b'##fileformat=' + value))
    add(7, 'version-bad-though-imposed', first(b'##fileformat=VCFv4'), imposed=(4, 3))
    good = {'zeros': b'VCFv0004.00003', 'biggest': b'VCFv4294967295.4294967295', 'zero': b'VCFv0.0',
            'zeros-past-ten-digits': b'VCFv00000000000004.3', '4.10': b'VCFv4.10', '5.0': b'VCFv5.0'}
    for name, value in good.items():
        add(0, 'version-' + name, first(b'##fileformat=' + value))
    add(0, 'imposed-biggest', first(F), imposed=(2**32 - 1, 2**32 - 1))
    add(0, 'imposed-zero', first(F), imposed=(0, 0))
    rows('4.3', [
        (5, 'fileformat-again', F),
        (5, 'other-fileformat-later', b'##a=b', b'##fileformat=VCFv4.2'),
        (7, 'bad-fileformat-later', b'##fileformat=VCFv4'),
        (6, 'fileformat-later-no-equals', b'##fileformat'),
        (0, 'fileformat-in-capitals', b'##FILEFORMAT=VCFv4.3', b'##fileformat =VCFv4'),
    ])


def unicode_lines():
    good = 'd\u00e9\u2262\u65e5\U000233b4\u07ff\u0800\ud7ff\ue000\uffff\U00010000\U0010ffff\x00\x7f'.encode()
    add(0, 'unicode-everywhere', text(F, b'##' + good + b'=' + good,
                                      map_line(b'b' + good, b'ID=' + good + b',' + good + b'="' + good + b'"'),
                                      COLS + b'\tFORMAT\t' + good))
    bad = {'lone-continuation': b'\x80', 'overlong-2': b'\xc0\x80', 'overlong-3': b'\xe0\x9f\xbf', 'overlong-4': b'\xf0\x8f\xbf\xbf',
           'surrogate': b'\xed\xa0\x80', 'past-the-end': b'\xf4\x90\x80\x80',
           'f5': b'\xf5\x80\x80\x80', 'ff': b'\xff', 'cut-2': b'\xc3', 'cut-3': b'\xe2\x89', 'cut-4': b'\xf0\xa3\x8e',
           'latin-1': b'caf\xe9'}
    for name, data in bad.items():
        add(3, 'text-' + name, text(F, b'##a=' + data, COLS))
    places = {'first-line': text(b'\xff' + F), 'version': text(F + b'\xff'), 'no-record': text(F, b'\xff'), 'key': text(F, b'##\xff=b'),
              'map-value': text(F, b'##INFO=<ID=\xff'),
              'field-key': text(F, b'##a=<\xff=x>'), 'quoted': text(F, b'##a=<ID="\xff">'), 'column': text(F, COLS + b'\xff'),
              'sample': text(F, COLS + b'\tFORMAT\t\xff'),
              'last-line-cut': text(F) + COLS + b'\tFORMAT\t\xc3'}
    for name, header in places.items():
        add(3, name + '-not-utf8', header)
    add(3, 'split-by-lf', text(F, b'##a=\xc3', b'\xa9'))
    add(3, 'before-full-table', text(F, b'##a=\xff'), room=2)


def keys():
    rows('4.3', [
        (6, 'no-hashes', b'a=b'), (6, 'one-hash', b'#a=b'), (6, 'empty-line', b''), (6, 'only-hashes', b'##'), (6, 'no-equals', b'##a'),
        (6, 'empty-key', b'##=b'), (6, 'space-first', b' ##a=b'), (6, 'chrom-in-small', b'#chrom\tPOS'), (6, 'chrom-short', b'#CHRO'),
        (6, 'info-no-equals', b'##INFO'), (6, 'tab', b'\t'), (6, 'chrom-after-space', b' ' + COLS),
        (6, 'hash-space-hash', b'# #a=b'), (6, 'variant', b'1\t100\t.\tA\tC\t.\t.\tDP=1'),
        (0, 'three-hashes', b'###a=b'), (0, 'key-of-hashes', b'####=b'), (0, 'key-with-space', b'##INFO =x', b'## INFO=y'),
        (0, 'small-meta-is-text', b'##meta=x'),
        (0, 'empty-text', b'##a='), (0, 'text-of-equals', b'##a==b='), (0, 'text-after-space', b'##a= <ID=x>'),
        (0, 'text-with-all-marks', b'##a=">,<\\['),
        (0, 'small-info-is-other', b'##info=<ID=x>'), (0, 'capital-contig-is-other', b'##CONTIG=<ID=x>'),
        (0, 'bracket-in-key', b'##INFO<ID=x>'),
        (0, 'double-hash-chrom', b'##CHROM=x'), (0, 'key-like-field', b'##ID=x'), (0, 'text-quoted', b'##a="x'),
    ])


def maps():
    """The grammar of a map, for every key that has one."""
    for key, good in GOOD.items():
        name, needs = key.decode(), key in model.ALWAYS_MAPS
        no_text = [] if key == b'a' else [(8, name + '-no-bracket', b'##' + key + b'=x'), (8, name + '-no-value', b'##' + key + b'='),
                                          (8, name + '-bracket-later', b'##' + key + b'= <' + good + b'>')]
        rows('4.3', no_text + [(n, name + '-' + case, b'##' + key + b'=<' + rest) for n, case, rest in [
            (9 if needs else 8, 'only-bracket', b''), (9 if needs else 14, 'no-field', b'>'),
            (9 if needs else 8, 'no-field-then-byte', b'>x'),
            (8, 'unclosed', good), (8, 'byte-after', good + b'>x'), (8, 'space-after', good + b'> '), (8, 'closed-twice', good + b'>>'),
            (8, 'byte-after-quote', good + b',z="q"w>'), (8, 'quote-then-end', good + b',z="q"'), (9, 'comma-then-close', good + b',>'),
            (9, 'comma-then-end', good + b','), (9, 'no-equals', good + b',z>'), (9, 'no-key', good + b',=z>'),
            (9, 'bracket-in-key', good + b',a<b=z>'),
            (9, 'quote-in-key', good + b',a"b=z>'), (9, 'two-commas', good + b',,z=q>'), (9, 'quote-unclosed', good + b',z="q>'),
            (9, 'bad-escape', good + b',z="\\q">'), (9, 'escape-at-end', good + b',z="q\\"'), (9, 'comma-first', b',' + good + b'>'),
            (10, 'id-twice', good + b',ID=y>'), (10, 'id-twice-quoted', good + b',ID="x">'), (10, 'other-twice', good + b',z=1,z="2">'),
            (14, 'no-id', b'z=1>' if b'Description' not in good else good.replace(b'ID=x,', b'') + b'>'),
            (0, 'good', good + b'>'), (0, 'others', good + b',z=,y="",x=a=b,w=\\q,v= ,u="\\"\\\\,>",t=b"c"d,Z=[>'),
            (0, 'others-first', b'z=1,' + good + b'>'),
            (0, 'id-quoted', good.replace(b'ID=x', b'ID="x\\"\\\\,>"') + b'>'), (0, 'id-empty', good.replace(b'ID=x', b'ID=') + b'>'),
        ]])
    rows('4.3', [
        (0, 'other-id-later', b'##a=<K=1,ID=x>'), (0, 'key-any-byte', b'##a=<ID=x, K ]\t[\\=1,id=y>'),
        (9, 'other-close-in-key', b'##a=<ID=x,a>b=c>'),
        (14, 'small-id', b'##a=<id=x>'), (14, 'id-with-space', b'##a=< ID=x>'), (14, 'other-quoted-only', b'##a=<K="ID=x">'),
        (0, 'id-quoted-empty', b'##a=<ID="">'), (0, 'quote-inside-bare', b'##a=<ID=x"y,K=z">'),
        (9, 'other-value-quote-comma', b'##a=<ID=x,K="a,b>'),
    ])


def bracketed():
    table = [
        (0, 'values', b'ID=x,Values=[a,b>c]>'), (0, 'values-empty', b'ID=x,Values=[]>'), (0, 'values-first', b'Values=[a,b],ID=x>'),
        (14, 'values-swallow-id', b'Values=[a,ID=x]>'),
        (8, 'values-byte-after', b'Values=[a]b>'), (8, 'values-bracket-after', b'ID=x,Values=[a]]>'),
        (0, 'values-no-bracket-end', b'ID=x,Values=[a>'), (9, 'values-bare-comma', b'ID=x,Values=[a,b>'),
        (0, 'values-quoted', b'ID=x,Values="[a",K="]">'), (0, 'values-quoted-brackets', b'ID=x,Values="[][">'),
        (8, 'values-end-far', b'ID=x,Values=[a>]'), (0, 'values-close-inside', b'ID=x,Values=[a>],K=1>'),
        (0, 'values-not-bracketed', b'ID=x,Values=a]>'), (9, 'values-in-small', b'ID=x,values=[a,b]>'),
        (9, 'value-in-singular', b'ID=x,Value=[a,b]>'), (0, 'values-quote-inside', b'ID=x,Values=["],K="q">'),
        (0, 'values-escape-inside', b'ID=x,Values=[\\]>'), (10, 'values-twice', b'ID=x,Values=[a],Values=[b]>'),
        (8, 'values-then-end', b'ID=x,Values=[a]'), (0, 'values-two-brackets', b'ID=x,Values=[[],K=]>'),
        (9, 'id-bracketed', b'ID=[a,b]>'), (0, 'values-then-comma', b'Values=[a,b],ID=[c]>'),
    ]
    rows('4.3', [(number, name, b'##META=<' + rest) for number, name, rest in table])
    rows('4.3', [(9, 'values-of-other-key', b'##a=<ID=x,Values=[a,b]>'), (9, 'values-of-pedigree', b'##PEDIGREE=<ID=x,Values=[a,b]>'),
                 (9, 'values-of-info', map_line(b'INFO', GOOD[b'INFO'] + b',Values=[a,b]'))])
    rows('4.2', [(0, 'values-bare-before-4.3', b'##META=<ID=x,Values=[a]b>'),
                 (0, 'values-quoted-before-4.3', b'##META=<ID=x,Values="[a,b]">')])


def numbers():
    """Number, Type, IDX and length."""
    bad = {'empty': b'', 'letter': b'B', 'small': b'a', 'minus': b'-1', 'plus': b'+', 'point': b'1.0', 'space': b'1 ',
           'too-big': b'18446744073709551616', 'twice': b'AA', 'two-points': b'..'}
    good = {'zero': b'0', 'plus': b'+1', 'zeros': b'007', 'biggest': b'18446744073709551615', 'A': b'A', 'R': b'R', 'G': b'G',
            'point': b'.', 'quoted': b'"+01"', 'long-zeros': b'0' * 30 + b'1'}
    for key in (b'INFO', b'FORMAT'):
        for number, values in [(11, bad), (0, good)]:
            rows('4.3', [(number, f'{key.decode()}-number-{name}', map_line(key, GOOD[key].replace(b'=1,', b'=' + value + b','))) for name,
                         value in values.items()])
        types = {'empty': b'', 'small': b'integer', 'unknown': b'Int', 'space': b'"Integer "', 'boolean': b'Boolean'}
        rows('4.3', [(12, f'{key.decode()}-type-{name}', map_line(key, GOOD[key].replace(b'Integer', value))) for name,
                     value in types.items()])
        rows('4.3',
             [(12 if key == b'FORMAT' and value == b'Flag' else 0, f'{key.decode()}-type-{value.decode()}',
               map_line(key, GOOD[key].replace(b'Integer', b'"' + value + b'"'))) for value in model.TYPES + (b'Flag',)])
    counts = {'empty': b'', 'minus-zero': b'-0', 'letter': b'x', 'A': b'A', 'too-big': b'18446744073709551616', 'plus': b'+'}
    for key, name in [(b'INFO', b'IDX'), (b'FORMAT', b'IDX'), (b'FILTER', b'IDX'), (b'contig', b'IDX'), (b'contig', b'length')]:
        label = f'{key.decode()}-{name.decode()}'
        rows('4.3', [(13, f'{label}-{case}', map_line(key, GOOD[key] + b',' + name + b'=' + value)) for case, value in counts.items()])
        rows('4.3', [(0, label + '-good', map_line(key, GOOD[key] + b',' + name + b'="+018446744073709551615"'))])
    rows('4.3', [
        (0, 'IDX-elsewhere', map_line(b'ALT', GOOD[b'ALT'] + b',IDX=q'), map_line(b'META', b'ID=x,IDX=q'),
         map_line(b'a', b'ID=x,IDX=q,length=q,Number=q,Type=q')),
        (0, 'length-elsewhere', map_line(b'INFO', GOOD[b'INFO'] + b',length=q,md5=q'),
         map_line(b'FILTER', GOOD[b'FILTER'] + b',Number=q,Type=q')),
        (0, 'number-of-contig', map_line(b'contig', b'ID=x,Number=q,Type=q,Description=q'),
         map_line(b'ALT', GOOD[b'ALT'] + b',Number=q,Type=q,length=q')),
        (0, 'small-idx', map_line(b'contig', b'ID=x,idx=q,Length=q')),
        (0, 'contig-all', map_line(b'contig', b'URL=u,md5=,IDX=0,length=0,ID=x,assembly=a')),
    ])


def missing():
    for key in (b'INFO', b'FORMAT'):
        fields = GOOD[key].split(b',')
        for number, name in [(14, b'ID'), (15, b'Number'), (16, b'Type'), (17, b'Description')]:
            left = [f for f in fields if not f.startswith(name)]
            rows('4.3', [(number, f'{key.decode()}-missing-{name.decode()}', map_line(key, b','.join(left))),
                         (number, f'{key.decode()}-missing-from-{name.decode()}',
                          map_line(key, b','.join(fields[:fields.index(next(f for f in fields if f.startswith(name)))] or [b'z=1'])))])
    for key in (b'FILTER', b'ALT'):
        rows('4.3', [(17, key.decode() + '-missing-Description', map_line(key, b'ID=x,IDX=1')),
                     (14, key.decode() + '-missing-both', map_line(key, b'z=1')),
                     (17, key.decode() + '-small-description', map_line(key, b'ID=x,description=d'))])
    rows('4.3', [(0, 'contig-only-id', b'##contig=<ID=>'), (0, 'description-bare', b'##FILTER=<ID=x,Description=>'),
                 (14, 'contig-missing-id', b'##contig=<length=1,URL=u>')])


def declared(key, id_, number, type_):
    number = b'%d' % number if isinstance(number, int) else number
    return map_line(key, b'ID=' + id_ + b',Number=' + number + b',Type=' + type_ + b',Description="d"')


def reserved_table(key, version, table, lacking):
    """Every row as it is, with another Number and with another Type; and what the version lacks, declared freely."""
    name = f'reserved-{key.decode()}-{version}'
    line = lambda id_, number, type_: declared(key, id_, number, type_)
    rows(version, [(0, name + '-all', *[line(id_, *row) for id_, row in table.items()])], room=256)
    rows(version, [(18, f'{name}-{id_.decode()}-number', line(id_, 3, type_)) for id_, (_, type_) in table.items()])
    rows(version, [(18, f'{name}-{id_.decode()}-type', line(id_, number, b'Character')) for id_, (number, _) in table.items()])
    rows(version, [(0, name + '-lacking', *[line(id_, 3, b'Character') for id_ in lacking])], room=256)


def reserved_ids():
    for key, kind in [(b'INFO', model.INFO), (b'FORMAT', model.FORMAT)]:
        tables = model.RESERVED[kind]
        every = {id_: row for table in tables.values() for id_, row in table.items()}
        for version in ('4.3', '4.4', '4.5'):
            table = tables[model.version_of(version)]
            reserved_table(key, version, table, [id_ for id_ in every if id_ not in table])
        last = tables[4, 5]
        for version in ('4.6', '4.10', '5.0'):
            rows(version, [(0, f'reserved-{key.decode()}-{version}-all', *[declared(key, id_, *row) for id_, row in last.items()])], room=256)
            rows(version, [(18, f'reserved-{key.decode()}-{version}-{id_.decode()}', declared(key, id_, 3, type_))
                           for id_, (_, type_) in last.items()])
        rows('4.2', [(0, f'reserved-{key.decode()}-before-4.3', *[declared(key, id_, 3, b'Character') for id_ in every])], room=256)
        for version in ('4.3', '4.4', '4.5'):
            older = {id_: row for id_, row in tables[4, 3].items() if tables[4, 4].get(id_, row) != row}
            rows(version, [(0 if version == '4.3' else 18, f'reserved-{key.decode()}-{id_.decode()}-of-4.3-in-{version}', declared(key, id_, *row))
                           for id_, row in older.items()])
            rows('4.2', [(0 if version == '4.3' else 18, f'reserved-{key.decode()}-{id_.decode()}-of-4.3-imposed-{version}',
                          declared(key, id_, *row)) for id_, row in older.items()], imposed=model.version_of(version))
    rows('4.3', [(0, 'reserved-SVLEN-point-in-4.3', declared(b'INFO', b'SVLEN', b'.', b'Integer')),
                 (18, 'reserved-SVLEN-A-in-4.3', declared(b'INFO', b'SVLEN', b'A', b'Integer'))])
    rows('4.4', [(18, 'reserved-SVLEN-point-in-4.4', declared(b'INFO', b'SVLEN', b'.', b'Integer')),
                 (0, 'reserved-SVLEN-A-in-4.4', declared(b'INFO', b'SVLEN', b'A', b'Integer'))])
    info = b'##INFO=<ID=%s,Number=%s,Type=%s,Description="d">'
    rows('4.3', [
        (18, 'reserved-id-quoted', info % (b'"DP"', b'A', b'Integer')), (18, 'reserved-point', info % (b'DP', b'.', b'Integer')),
        (18, 'reserved-letter', info % (b'AC', b'R', b'Integer')),
        (0, 'reserved-plus', info % (b'DP', b'"+01"', b'"Integer"')), (0, 'reserved-in-small', info % (b'dp', b'A', b'Float')),
        (0, 'reserved-longer', info % (b'DPX', b'A', b'Float')),
        (0, 'reserved-of-format', info % (b'GT', b'3', b'Flag')),
        (0, 'reserved-of-info', b'##FORMAT=<ID=AF,Number=3,Type=String,Description="d">'),
        (0, 'reserved-other-kinds', b'##FILTER=<ID=DP,Description=d>', b'##ALT=<ID=DP,Description=d>', b'##contig=<ID=DP>',
         b'##a=<ID=DP,Number=A,Type=x>'),
        (18, 'reserved-fields-turned', b'##INFO=<Description=d,Type=Float,Number=A,ID=AC>'),
    ])
    wrong = info % (b'DP', b'A', b'Integer')
    rows('4.2', [(18, 'reserved-imposed-4.3', wrong)], imposed=(4, 3))
    rows('4.3', [(0, 'reserved-imposed-4.2', wrong)], imposed=(4, 2))
    for version in ('4.4', '4.5', '4.10', '5.0'):
        rows(version, [(18, 'reserved-in-' + version, wrong)])
    rows('3.9', [(0, 'reserved-in-3.9', wrong)])


def versions():
    """What changes at 4.3, 4.4 and 4.5, by the file's own version and by an imposed one."""
    line = '##FORMAT=<ID=x,Number=%s,Type=Integer,Description="d">'
    letters = {letter: version for version in reversed(model.LETTERS[model.FORMAT]) for letter in model.LETTERS[model.FORMAT][version]}
    for letter, since in letters.items():
        for version in ('4.2', '4.3', '4.4', '4.5', '4.6', '5.0'):
            number = 0 if since <= model.version_of(version) else 11
            rows(version, [(number, f'letter-{letter.decode()}-in-{version}', line.encode() % letter),
                           (0 if letter in model.LETTERS[model.INFO][0, 0] else 11, f'letter-{letter.decode()}-of-INFO-in-{version}',
                            line.replace('FORMAT', 'INFO').encode() % letter)])
    rows('4.5', [(11, 'local-letter-of-info', line.replace('FORMAT', 'INFO').encode() % b'LA'),
                 (11, 'local-letter-twice', line.encode() % b'LALR'), (11, 'local-letter-in-small', line.encode() % b'la'),
                 (0, 'local-letter-quoted', line.encode() % b'"M"')])
    for version, number in [('4.10', 0), ('3.10', 11)]:
        rows(version, [(number, 'local-letter-in-' + version, line.encode() % b'P')])
    rows('4.3', [(0, 'local-letter-imposed-4.5', line.encode() % b'LG')], imposed=(4, 5))
    rows('4.5', [(11, 'local-letter-imposed-4.4', line.encode() % b'LG')], imposed=(4, 4))
    for version, from_43 in [('4.2', False), ('4.3', True), ('4.10', True), ('5.0', True), ('3.9', False), ('0.0', False)]:
        pick = lambda new, old: new if from_43 else old
        rows(version, [
            (pick(14, 0), 'no-id-map-in-' + version, b'##a=<K=1>'), (pick(8, 0), 'open-map-in-' + version, b'##a=<'),
            (pick(14, 0), 'id-space-in-' + version, b'##a=<ID =x>'),
            (8, 'id-map-unclosed-in-' + version, b'##a=<ID=x'),
            (pick(14, 0), 'pedigree-child-in-' + version, b'##PEDIGREE=<Child=c,Father=f>'),
            (pick(0, 9), 'meta-values-in-' + version, b'##META=<ID=x,Values=[a,b]>'),
        ])
        imposed = tuple(int(part) for part in version.split('.'))
        rows(pick('4.2', '4.3'), [(pick(14, 0), 'no-id-map-imposed-' + version, b'##a=<K=1>'),
                                  (pick(14, 0), 'pedigree-imposed-' + version, b'##PEDIGREE=<Derived=d>')], imposed=imposed)


def pedigrees():
    rows('4.2', [
        (0, 'pedigree-tags', b'##PEDIGREE=<ID=x>', b'##PEDIGREE=<Child="y">', b'##PEDIGREE=<Original=o,Derived=z>'),
        (10, 'pedigree-id-child', b'##PEDIGREE=<ID=x,Child=c>'),
        (10, 'pedigree-derived-id', b'##PEDIGREE=<Derived=d,ID=x>'), (10, 'pedigree-child-child', b'##PEDIGREE=<Child=c,Child=d>'),
        (14, 'pedigree-no-name', b'##PEDIGREE=<Mother=m>'),
        (14, 'pedigree-small-child', b'##PEDIGREE=<child=c>'), (21, 'pedigree-same-id-other-tag', b'##PEDIGREE=<Child=x>',
                                                                b'##PEDIGREE=<Derived=x>'),
        (21, 'pedigree-same-id-quoted', b'##PEDIGREE=<ID=x>', b'##PEDIGREE=<Child="x">'), (8, 'pedigree-text', b'##PEDIGREE=x'),
        (8, 'meta-text', b'##META=x'),
        (14, 'child-of-meta', b'##META=<Child=x>'), (0, 'child-of-other', b'##a=<ID=x,Child=y,Derived=z>'),
        (14, 'child-of-contig', b'##contig=<Child=x>'),
        (0, 'pedigree-in-small', b'##pedigree=<Child=x,Derived=y>', b'##PedigreeDB=<u>'),
    ])
    rows('4.3', [(0, 'pedigree-child-is-a-field', b'##PEDIGREE=<ID=x,Child=c,Derived=d>'),
                 (10, 'pedigree-child-twice-4.3', b'##PEDIGREE=<ID=x,Child=c,Child=d>'),
                 (0, 'pedigree-same-child-4.3', b'##PEDIGREE=<ID=x,Child=c>', b'##PEDIGREE=<ID=y,Child=c>')])


def distinct_ids():
    """19, 20 and 21: an ID again, spelled in another way too."""
    spelled = [('plain', b'q', b'q'), ('quoted', b'q', b'"q"'), ('bare-after-quoted', b'"q"', b'q'), ('escaped-quote', b'a"b', b'"a\\"b"'),
               ('escaped-backslash', b'"a\\\\b"', b'a\\b'),
               ('empty', b'', b'""'), ('unicode', '\u00e9'.encode(), '"\u00e9"'.encode()), ('both-quoted', b'"a,b>"', b'"a,b>"')]
    for key, good in GOOD.items():
        number = 19 if key in model.TYPED else 21
        line = lambda id_: map_line(key, good.replace(b'ID=x', b'ID=' + id_))
        rows('4.3', [(number, f'{key.decode()}-again-{name}', line(one), line(two)) for name, one, two in spelled])
    rows('4.3', [
        (0, 'ids-raw-equal', b'##a=<ID="a\\\\b">', b'##a=<ID=a\\\\b>', b'##a=<ID="a\\"b">', b'##a=<ID=a\\"b>'),
        (0, 'ids-prefix', b'##a=<ID=q>', b'##a=<ID=qq>', b'##a=<ID="q ">', b'##a=<ID=Q>'),
        (0, 'ids-normal-forms', '##a=<ID=\u00e9>'.encode(), '##a=<ID=e\u0301>'.encode()),
        (0, 'id-under-two-keys', b'##a=<ID=x>', b'##b=<ID=x>', b'##META=<ID=x>'),
        (19, 'info-again-far', *[b'##INFO=<ID=x,Number=1,Type=Integer,Description="d">', b'##a=b', b'##FILTER=<ID=x,Description=d>',
                                 b'##INFO=<Description="d",Type=Float,Number=A,ID="x">']),
        (21, 'cell-again', b'##cell=<ID=W07,K=0.98>', b'##cell=<ID=W08,K=0.97>', b'##cell=<K=1.00,ID="W07">'),
        (20, 'map-after-text', b'##a=b', b'##a=<ID=x>'), (20, 'text-after-map', b'##a=<ID=x>', b'##a=b'),
        (20, 'empty-text-after-map', b'##a=<ID=x>', b'##a='), (20, 'mix-far', b'##a=b', b'##b=<ID=x>', b'##a=b', b'##a=<ID=x>'),
        (0, 'equal-texts', b'##a=b', b'##a=b', b'##a=b'), (0, 'two-keys-mix', b'##a=b', b'##b=<ID=x>', b'##A=<ID=x>'),
        (0, 'key-prefix', b'##a=b', b'##aa=<ID=x>', b'##a =<ID=x>'),
    ])
    for one, two in [(b'INFO', b'FORMAT'), (b'FILTER', b'ALT'), (b'contig', b'a')]:
        rows('4.3', [(0, f'{one.decode()}-and-{two.decode()}-share-id', map_line(one, GOOD[one]), map_line(two, GOOD[two]))])
    rows('4.2', [(20, 'mix-before-4.3', b'##a=<K=1>', b'##a=<ID=x>'), (20, 'mix-before-4.3-turned', b'##a=<ID=x>', b'##a=<K=1>'),
                 (0, 'texts-like-maps', b'##a=<K=1>', b'##a=<K=1>', b'##a=<id=x>')])


def columns():
    bad = {'only-chrom': b'#CHROM', 'chromx': b'#CHROMX', 'seven': COLS[:-5], 'info-in-small': COLS[:-4] + b'info',
           'info-longer': COLS + b'X', 'space-parted': COLS.replace(b'\t', b' '), 'last-tab': COLS + b'\t',
           'ninth': COLS + b'\tX', 'ninth-small': COLS + b'\tformat', 'ninth-empty': COLS + b'\t\ts', 'format-space': COLS + b'\tFORMAT ',
           'two-tabs': COLS.replace(b'\tID', b'\t\tID'), 'equals': b'#CHROM=x',
           'samples-without-format': COLS + b'\ts1\ts2', 'chrom-then-tab': b'#CHROM\t'}
    for name, line in bad.items():
        add(22, 'columns-' + name, text(F, line))
    for index, column in enumerate(model.COLUMN_NAMES[1:], 1):
        parts = COLS.split(b'\t')
        add(22, 'columns-without-' + column.decode(), text(F, b'\t'.join(parts[:index] + parts[index + 1:])))
        add(22, 'columns-wrong-' + column.decode(), text(F, b'\t'.join(parts[:index] + [column + b'S'] + parts[index + 1:])))
    names = {'one': [b's'], 'two': [b's', b't'], 'empty': [b''], 'empty-last': [b's', b''], 'empty-first': [b'', b's'],
             'odd': [b'FORMAT', b'#CHROM', b'a=b', b' '], 'case': [b's', b'S', b's '],
             'unicode': ['\u00e9'.encode(), 'e\u0301'.encode()], 'prefix': [b'ab', b'a', b'abc', b'b']}
    for name, samples in names.items():
        add(0, 'samples-' + name, text(F, b'\t'.join([COLS, b'FORMAT'] + samples)))
    twice = {'apart': [b'a', b'b', b'a'], 'empty': [b'', b''], 'empty-apart': [b'', b'a', b''], 'last': [b'a', b'b', b'c', b'c'],
             'spaces': [b' ', b' ']}
    for name, samples in twice.items():
        add(23, 'samples-' + name, text(F, b'\t'.join([COLS, b'FORMAT'] + samples)))


def rooms():
    """24: every table around what is needed."""
    for room in range(8):
        add(None, f'room-{room}-of-6', EXAMPLE, room=room)
    samples = text(F, b'##a=b', b'\t'.join([COLS, b'FORMAT', b's', b't', b'u']))
    for room in range(2, 14):
        add(None, f'samples-room-{room}-of-12', samples, room=room)
    add(25, 'no-table-no-line', b'', room=0)
    add(26, 'only-fileformat-room-2', text(F), room=2)
    add(24, 'only-fileformat-no-table', text(F), room=0)
    add(24, 'only-fileformat-one-word', text(F), room=1)
    add(0, 'biggest-table', EXAMPLE, room=8192)
    for number, name, lines in [
            (6, 'record', [b'x']), (7, 'fileformat', [b'##fileformat=x']), (5, 'fileformat', [F]), (8, 'map', [b'##INFO=x']),
            (9, 'field', [b'##META=<>']), (10, 'key', [b'##a=<ID=x,ID=y>']),
            (14, 'no-id', [b'##a=<>']), (18, 'reserved', [b'##INFO=<ID=DP,Number=A,Type=Integer,Description=d>']),
            (22, 'columns', [b'#CHROM']), (23, 'samples', [COLS + b'\tFORMAT\ta\ta']),
            (24, 'text', [b'##a=b']), (24, 'columns', [COLS])]:
        add(number, f'{name}-before-no-room', text(F, *lines), room=3)
    for number, name, one, two in [(19, 'typed', b'##contig=<ID=x>', b'##contig=<ID=x>'), (20, 'mix', b'##a=b', b'##a=<ID=x>'),
                                   (21, 'other', b'##a=<ID=x>', b'##a=<ID=x>'), (24, 'distinct', b'##a=<ID=x>', b'##a=<ID=y>')]:
        add(number, f'{name}-ids-before-no-room', text(F, one, two, COLS), room=5)


def ends():
    for name, header in {'no-lf': F, 'records': text(F, b'##a=b', b'##contig=<ID=x>'), 'imposed': text(F), 'crlf': F + b'\r\n##a=b\r\n',
                         'last-record-no-lf': text(F) + b'##a=b\r'}.items():
        add(26, 'end-' + name, header, imposed=(4, 2) if name == 'imposed' else None)
    add(25, 'end-imposed', b'', imposed=(4, 2))


def order():
    """Two faults in one line, or in two lines: which one is answered."""
    rows('4.3', [
        (11, '11-before-8', b'##INFO=<Number="Q"z>'), (11, '11-before-8-at-end', b'##INFO=<Number=Q'),
        (10, '10-before-8', b'##a=<ID=x,ID="y"z>'), (10, '10-before-8-at-end', b'##a=<ID=x,ID=y'),
        (8, '8-ends-the-fields', b'##INFO=<ID="x"y,Number=Q>'), (8, '8-ends-the-fields-twice', b'##a=<ID="x"y,ID=z,=>'),
        (11, '11-before-12', b'##INFO=<Number=Q,Type=Q>'), (12, '12-before-11', b'##INFO=<Type=Q,Number=Q>'),
        (13, '13-before-11', b'##INFO=<IDX=Q,Number=Q>'), (11, '11-before-13', b'##FORMAT=<Number=Q,IDX=Q>'),
        (11, '11-before-10', b'##INFO=<Number=1,Number=Q>'), (10, '10-of-numbers', b'##INFO=<Number=1,Number=2>'),
        (12, '12-before-10', b'##INFO=<Type=Float,Type=Q>'), (13, '13-before-10', b'##contig=<length=1,length=Q>'),
        (10, '10-before-11', b'##INFO=<ID=x,ID=y,Number=Q>'), (11, '11-then-10', b'##INFO=<Number=Q,ID=x,ID=y>'),
        (9, '9-before-10', b'##a=<ID=x,K,ID=y>'), (10, '10-before-9', b'##a=<ID=x,ID=y,K>'), (9, '9-before-11', b'##INFO=<K,Number=Q>'),
        (11, '11-before-9', b'##INFO=<Number=Q,K>'), (9, '9-in-the-bad-number', b'##INFO=<Number="Q>'),
        (9, '9-before-8', b'##a=<ID=x,K'), (8, '8-before-14', b'##a=<K=1'), (8, '8-before-15', b'##INFO=<ID=x>y'),
        (8, '8-before-18', b'##INFO=<ID=DP,Number=A,Type=Integer,Description=d>x'),
        (14, '14-before-15', b'##INFO=<Type=Float>'), (15, '15-before-16', b'##INFO=<ID=x>'),
        (16, '16-before-17', b'##INFO=<ID=x,Number=1>'), (17, '17-before-18', b'##INFO=<ID=DP,Number=A,Type=Integer>'),
        (15, '15-before-18', b'##INFO=<ID=DP,Type=Float,Description=d>'), (8, '8-before-9', b'##META=ID'),
        (9, 'meta-9-before-14', b'##META=<>'), (13, '13-before-14', b'##contig=<IDX=Q>'), (6, '6-before-8', b'##=<'),
        (18, '18-before-19', b'##INFO=<ID=DP,Number=1,Type=Integer,Description=d>', b'##INFO=<ID=DP,Number=A,Type=Integer,Description=d>'),
        (8, '8-before-20', b'##a=b', b'##a=<ID=x'), (14, '14-before-20', b'##a=b', b'##a=<>'),
        (8, '8-before-19', b'##contig=<ID=x>', b'##contig=<ID=x>y'), (10, '10-before-19', b'##contig=<ID=x>', b'##contig=<ID=x,ID=x>'),
        (17, '17-before-19', b'##ALT=<ID=x,Description=d>', b'##ALT=<ID=x>'), (9, '9-before-21', b'##a=<ID=x>', b'##a=<ID=x,>'),
        (6, 'earlier-line-first', b'##a=b', b'x'), (3, '3-before-6', b'\xff'), (3, '3-before-8', b'##INFO=\xff'),
        (3, '3-before-19', b'##contig=<ID=x>', b'##contig=<ID=x,K=\xff>'), (5, '5-of-a-good-one', b'##fileformat=VCFv0.0'),
    ])
    add(22, '22-before-23', text(F, COLS + b'X\tFORMAT\ta\ta'))
    add(22, '22-ninth-before-23', text(F, COLS + b'\tFORMATS\ta\ta'))
    add(23, '23-before-1', text(F, COLS + b'\tFORMAT\ta\ta', b'x'))
    add(6, '6-before-later-23', text(F, b'x', COLS + b'\tFORMAT\ta\ta'))
    add(7, '7-before-later-1', text(b'##fileformat=', COLS, b'x'))
    add(24, '24-before-later-6', text(F, b'##a=b', b'x'), room=2)


def limits():
    """Lines of 65,535 and 65,536 bytes, headers of 1,048,575 and 1,048,576."""
    for number, name, before, start, fill, end in [
            (0, 'first', b'', b'##fileformat=VCFv4.', b'0', b'3'), (0, 'text', text(F), b'##a=', b'x', b''),
            (0, 'crlf', text(F), b'##a=', b'x', b'\r'),
            (0, 'bare-id', text(F), b'##INFO=<ID=', b'x', b',Number=1,Type=Integer,Description=d>'),
            (0, 'number', text(F), b'##INFO=<ID=x,Number=', b'0', b'1,Type=Integer,Description=d>'),
            (0, 'quoted-id', text(F), b'##a=<ID="', b'x', b'">'), (0, 'escapes', text(F), b'##a=<ID="', b'\\', b'">'),
            (0, 'late-id', text(F), b'##a=<K=', b'x', b',ID=abc>'), (0, 'field-key', text(F), b'##a=<', b'K', b'=1,ID="x">'),
            (0, 'values', text(F), b'##META=<ID=x,Values=[', b',', b']>'), (0, 'key', text(F), b'##', b'k', b'=t'),
            (0, 'sample', text(F), COLS + b'\tFORMAT\t', b's', b''), (0, 'late-sample', text(F), COLS + b'\tFORMAT\t', b's', b'\tt'),
            (1, 'after-columns', text(F, COLS), b'##a=', b'x', b''), (3, 'not-utf8', text(F), b'##a=', b'\xff', b''),
            (4, 'first-text', b'', b'##a=', b'x', b''), (6, 'no-record', text(F), b'', b'x', b''),
            (8, 'unclosed', text(F), b'##a=<ID=', b'x', b''), (9, 'quote-unclosed', text(F), b'##a=<ID="', b'x', b''),
            (22, 'columns', text(F), COLS + b'\t', b'x', b''), (23, 'samples', text(F), COLS + b'\tFORMAT\t', b'\t', b'')]:
        head = (before + start).ljust(1024, fill) + end
        line = len(head) - len(before) - end.endswith(b'\r')
        whole = head + (b'\n' if start.startswith(b'#CHROM') else text(b'', COLS))
        for length in (65535, 65536):
            expected = number if length == 65535 or number == 1 else 2
            add(expected, f'line-{length}-{name}', whole, length=len(whole) + length - line)
    text_to = lambda size: b'##a='.ljust(size - 1, b'x') + b'\n'
    many = text(F) + text_to(512 - 21) + text_to(512)
    for number, name, length, room in [(0, 'header-1048575', 2**20 - 1, 8192), (27, 'header-1048576', 2**20, 8192),
                                       (27, 'header-1048577', 2**20 + 1, 8192), (27, 'header-1048576-no-table', 2**20, 0),
                                       (24, 'header-1048575-small-table', 2**20 - 1, 9),
                                       (24, 'header-1048575-one-entry-less', 2**20 - 1, 4097)]:
        rest = length % 512 + 512
        add(number, name, many + text_to(rest - 39) + text(COLS), room=room, length=length)
    add(27, 'header-1048576-not-utf8', b'\xff' * 1024, length=2**20)
    add(2, 'header-1048575-one-line', b'x' * 1024, length=2**20 - 1)
    add(2, 'line-65536-no-room', text(F).ljust(1024, b'x'), room=2, length=21 + 65536)
    add(2, 'last-line-65535-and-cr', text(F) + b'##a='.ljust(1003, b'x') + b'\r', length=21 + 65536)
    add(2, 'line-65535-then-cr-cr-lf', text(F) + b'##a='.ljust(1003, b'x') + b'\r\r\n', length=21 + 65538)


def drawn():
    """Headers put together at random, for what nobody thought of."""
    pieces = [b'ID=x', b'ID="x"', b'ID=y', b'Number=1', b'Number=A', b'Number="R"', b'Type=Integer', b'Type=Flag', b'Type=String',
              b'Description="d"', b'Description=d', b'IDX=1', b'IDX=+2', b'K=1', b'K="a\\"b"', b'Values=[a,b]',
              b'Child=x', b'Derived=y', b'length=5', b'md5=', b'Number=Q', b'IDX=', b'K', b'=', b'']
    keys = [b'INFO', b'INFO', b'FORMAT', b'FILTER', b'FILTER', b'ALT', b'contig', b'contig', b'META', b'PEDIGREE', b'PEDIGREE', b'a', b'a',
            b'b']
    marks = [b'=', b'"', b'\\', b',', b'>', b'<', b'[', b']', b'#', b'\r', b'ID=', b'a', b'1']
    for index in range(160):
        lines = [b'##fileformat=VCFv' + random.choice([b'4.1', b'4.2', b'4.3', b'4.3', b'4.5'])]
        for _ in range(random.randint(1, 5)):
            key = random.choice(keys)
            good = GOOD[key if key in GOOD else b'a'].split(b',')
            fields = random.sample(good, len(good)) if random.random() < 0.7 else []
            fields += random.sample(pieces, random.choice([0, 0, 1, 2] if fields else [1, 2, 4]))
            line = map_line(key, b','.join(fields).replace(b'ID=x', b'ID=' + random.choice([b'x', b'"y"', b'z', b'w', b'"v\\""'])))
            if random.random() < 0.15:
                at = random.randint(0, len(line))
                line = line[:at] + random.choice(marks) + line[at + random.choice([0, 1]):]
            lines.append(line if random.random() < 0.9 else b'##' + key + b'=' + b''.join(random.choices(marks, k=4)))
        lines.append(random.choice([COLS, COLS, COLS + b'\tFORMAT\ts\tt', COLS + b'\tFORMAT\ts\ts', b'']))
        imposed = random.choice([None, None, None, (4, 2), (4, 3), (4, 5)])
        add(None, f'drawn-{index:03}', random.choice([b'\n', b'\n', b'\r\n']).join(lines) + random.choice([b'', b'\n']), imposed,
            random.choice([ROOM, 20, 20, 5]))


def check_document():
    """What document 01 says of its own cases, beside their numbers."""
    assert len(EXAMPLE) == 83
    shown = [f'{word:016X}' for pair in model.read(EXAMPLE).entries for word in pair]
    assert shown == '1000000014000000 0000000000000000 7000150016000000 000B000300000000 90002C0026000000 0000000000000000'.split()
    assert model.house(QUOTED_EXAMPLE).form == EXAMPLE
    assert model.record(b'##contig=<ID=c,IDX=+5>', (4, 3)).known[b'IDX'] == 5
    assert model.report(EXAMPLE) == b'ok version=4.3 entries=3 samples=0'
    assert model.report(FILTER_CASE) == b'refused 19 line=3 offset=51'
    assert model.report(b'x' * 65537) == b'refused 27 line=0 offset=0'
    assert model.read(FILTER_CASE)[:3] == (19, 3, 51)
    for number in range(1, 28):
        assert any(name.startswith(f'{number}-') for name in CASES), number


def check_entry_calls():
    """What the model's calls show of every accepted case is what the entry was made from, and past the last entry is 29."""
    for header, imposed, room, length, answer in CASES.values():
        if answer.number == 0:
            full = stretched(header, length)
            table = [word for pair in answer.entries for word in pair]
            starts = dict(model.lines(full))
            for n in range(min(40, len(answer.entries))):
                check_entry(full, table, n, answer.version, starts)
            for call in (model.entry, model.entry_id):
                assert refuses(call, full, table, len(answer.entries))


def check_entry(header, table, n, version, starts):
    start, end = model.entry(header, table, n)
    kind = table[2 * n] >> 60
    assert kind == model.SAMPLE or starts[start] == header[start:end]
    if kind not in model.KNOWN:
        assert refuses(model.entry_id, header, table, n) and refuses(model.entry_field, header, table, n, 0, version)
        return
    r = model.record(header[start:end], version)
    at, to = model.entry_id(header, table, n)
    assert (model.unescape(header[at:to]) if r.id.quoted else header[at:to]) == r.known[b'ID']
    parts = [model.entry_field(header, table, n, index, version) for index in range(len(r.fields))]
    assert header[start:end] == b'##' + r.key + b'=<' + b','.join(header[a:b] for a, b in parts) + b'>'
    assert refuses(model.entry_field, header, table, n, len(parts), version)


def refuses(call, *arguments):
    try:
        call(*arguments)
    except model.Refused as refused:
        return refused.number == 29
    return False


for group in (documented, line_endings, first_lines, fileformats, unicode_lines, keys, maps, bracketed, numbers, missing, reserved_ids,
              versions, pedigrees, distinct_ids, columns, rooms, ends, order, limits, drawn):
    group()
check_document()
check_entry_calls()
record.write('reads', [(name, words('read', imposed, room), record.stretched(header, length), told.reading(answer))
                       for name, (header, imposed, room, length, answer) in CASES.items()])
record.keep('vcfhead', {'stdin': EXAMPLE, 'stdout': model.report(EXAMPLE) + b'\n'})

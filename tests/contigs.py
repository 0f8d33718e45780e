#!/usr/bin/env python3
"""Writes the recorded SAM headers of crates/cases from contigs_model.py: the output's bytes, the header, and what must come: number, place,
how many contigs, how many bytes, and these. What was written is also read back, by model.py, between a fileformat line and a column line."""
import random

import contigs_model
import model
import record
from pieces import COLS, stretched, text

random.seed(14)

ROOM = 4096
CASES = []
F = b'##fileformat=VCFv4.5'


def read_back(answer):
    """The written lines are accepted, and are their own house form."""
    header = text(F) + answer.form + text(COLS)
    house = model.house(header, room=2 * answer.contigs + 4)
    assert (house.number, house.form, len(house.entries)) == (0, header, answer.contigs + 2), header


def add(number, sam, output=ROOM, length=None):
    """length: the bytes from 512 to 1,024 are repeated up to it."""
    answer = contigs_model.contigs(stretched(sam, length), output)
    assert number in (None, answer.number), (number, answer, sam)
    if answer.number == 0:
        read_back(answer)
    asked = f'contigs {output}', record.stretched(sam, length)
    told = b'%d line=%d start=%d contigs=%d length=%d written=%d\n' % (*answer[:4], len(answer.form), len(answer.form))
    if asked in [case[1:3] for case in CASES]:
        assert number is None, 'this is a case already'
        return
    CASES.append((f'{answer.number}-{len(CASES):03}', *asked, told + (answer.form if len(answer.form) <= 2048 else answer.form[-64:])))


def sq(*tags):
    return b'\t'.join((b'@SQ',) + tags)


def named(name, *more):
    return sq(b'SN:' + name, b'LN:7', *more)


def ones(number, *tags):
    """As the only line, between others, and with a CR."""
    line = sq(*tags)
    add(number, text(line))
    add(number, text(b'@HD\tVN:1.6', line, b'@CO\tend'))
    add(number, text(line + b'\r'))


def accepted():
    add(0, b'')
    add(0, text(b'@HD\tVN:1.6\tSO:coordinate'))
    add(0, text(b'@HD\tVN:1.6', named(b'chr1'), named(b'chr2', b'M5:6aef897c3d6ff0c78aff06ac189178dd', b'UR:file:/data/ref.fa'), b'@RG\tID:a', b'@PG\tID:b'))
    add(0, text(sq(b'UR:u', b'M5:m', b'LN:5', b'SN:n')))
    add(0, text(sq(b'LN:5', b'M5:m', b'SN:n', b'UR:u')))
    add(0, text(sq(b'M5:m', b'AS:GRCh38', b'SN:n', b'SP:Homo sapiens', b'LN:5', b'AN:a,b', b'TP:linear', b'DS:d')))
    add(0, text(sq(b'SN:n', b'LN:5', b'M5:m')))
    add(0, text(sq(b'SN:n', b'LN:5', b'UR:u')))
    for name in (b'a,b', b'a>b', b'"a', b'a"b', b'\\', b'a\\', b'a\\,b', b'"\\"', b'<a', b'a=b', b'=', b'*', b':', b'SN:', b'a b', b'[a]', b'Description',
                 'Gr\u00fc\u00dfe'.encode(), '\U0001f9ec'.encode(), b'\x00\x7f', b'HLA:DRB1*15:01:01:01', b'chrUn_KI270742v1'):
        add(0, text(named(name)))
        add(0, text(sq(b'SN:a', b'LN:1', b'UR:' + name, b'M5:' + name)))
    for size in (b'1', b'01', b'0000000000000000000000000000000001', b'2147483647', b'002147483647', b'10', b'1000000000'):
        add(0, text(sq(b'SN:a', b'LN:' + size)))


def sizes():
    for size in (b'0', b'00', b'2147483648', b'4294967297', b'18446744073709551616', b'18446744073709551617', b'9' * 40, b'+1', b'-1', b'1.0', b'1 ', b' 1',
                 b'0x1', b'1e3', b'a', '\u0661'.encode()):
        add(42, text(sq(b'SN:a', b'LN:' + size)))


def lines():
    add(0, b'@SQ\tSN:a\tLN:1')
    add(0, b'@SQ\tSN:a\tLN:1\r\n@SQ\tSN:b\tLN:1\r\n')
    add(42, b'@SQ\tSN:a\tLN:1\r')
    add(0, b'@SQ\tLN:1\tSN:a\r')
    add(0, b'@SQ\tLN:1\tSN:a\r\r\n')
    add(0, b'@SQ\tLN:1\tSN:a\r\r\n@SQ\tLN:1\tSN:a\n')
    add(43, b'@SQ\tLN:1\tSN:a\r\n@SQ\tLN:1\tSN:a\n')
    add(42, b'@SQ')
    add(42, b'@SQ\n')
    add(42, b'@SQ\r\n')
    add(0, b'@SQ\r')
    add(0, b'@SQ\r\r\n')
    add(41, b'@SQ\t')
    add(41, b'@SQ\t\r')
    add(41, b'@SQ\t\n')
    add(41, b'@SQ\t\t\n')
    for line in (b'@SQX\tSN', b'@SQ X', b'@S', b'@', b'@sq\t', b' @SQ\tx', b'\t@SQ\tx', b'SQ\tx', b'@RG\tSN:a\tSN:a', b'@CO\t@SQ\tx', b'@SQ,x', b'@SQSN:a\tLN:1'):
        add(0, line + b'\n')
        add(0, text(line, named(b'a'), line))
    add(0, b'\n\n' + text(named(b'a')) + b'\n\n')
    add(42, b'\n@SQ\n')


def tags():
    good = b'SN:a', b'LN:1'
    for bad in (b'', b'S', b'SN', b'SN:', b'S:', b':', b'SN=a', b'1N:a', b'S-:a', b'-N:a', b'S\xc3\xa9:a', b'SNX:a', b'SN :a', b'@N:a', b'[N:a', b'`N:a', b'{N:a',
                b'S@:a', b'S[:a', b'S`:a', b'S{:a', b'S/:a', b'S::a'):
        ones(41, *good, bad)
        add(41, text(sq(bad, *good)))
    for fine in (b'A0:x', b'Z9:x', b'a0:x', b'z9:x', b'AA:x', b'zz:x', b'X5::', b'xY: '):
        ones(0, *good, fine)
    for twice in (b'SN:b', b'LN:1', b'AS:x'):
        ones(41, *good, b'AS:y', twice)
    ones(41, *good, b'M5:x', b'M5:x')
    ones(41, *good, b'UR:x', b'UR:y')
    ones(41, *good, b'xx:1', b'yy:2', b'xx:3')
    ones(0, *good, b'XX:1', b'xx:2', b'Xx:3', b'xX:4')
    every = [bytes((a, b)) + b':' for a in b'AZaz' for b in b'AZaz09']
    ones(0, *good, *(name + b'x' for name in every))
    ones(41, *good, *(name + b'x' for name in every), every[-1] + b'y')


def required():
    ones(42, b'LN:1')
    ones(42, b'SN:a')
    ones(42, b'AS:a')
    ones(42, b'sn:a', b'LN:1')
    ones(42, b'SN:a', b'ln:1')
    ones(42, b'SN:b', b'LN:0')


def ordered():
    """Each refusal with every one below it, on one line and on the lines after it."""
    bad = {3: b'X\xff:', 41: b'bad', 42: b'LN:0'}
    first = text(named(b'a'))
    for number, line in ((3, sq(b'SN:a', *bad.values())), (41, sq(b'SN:a', b'bad', b'LN:0')), (42, sq(b'SN:a', b'LN:0')), (43, named(b'a'))):
        for after in (b'', text(line, line), text(named(b'a')), text(sq(b'SN:b', b'LN:0')), text(sq(b'bad'), b'\xff'), text(sq(b'\xff'))):
            add(number, first + text(line) + after)
            add(number, first + text(b'@CO\t\xff', line) + after, output=0)
    for skipped in (b'@CO\t\xff', b'@RG\tbad', b'@HD', b'\xff'):
        add(0, text(skipped, named(b'a'), skipped))
    add(43, text(named(b'a'), named(b'b'), named(b'c'), named(b'b'), named(b'a')))
    add(43, text(named(b'a'), sq(b'LN:9', b'SN:a')))
    add(0, text(named(b'a'), named(b'A'), named(b'a '), named(b'a:'), named(b'aa')))


def rooms():
    sam = text(named(b'a,b', b'M5:m'), b'@CO', named(b'c', b'UR:"u'))
    form = contigs_model.contigs(sam, ROOM).form
    for output in (len(form), len(form) + 1):
        add(0, sam, output=output)
    for output in (0, 1, 20, len(form) - 1):
        add(28, sam, output=output)
    add(0, text(b'@CO'), output=0)
    add(43, sam + text(named(b'c')), output=0)


def long():
    """Lines of 65,535 bytes and of one more, with an ending, without one, and skipped; and a header that is longer than VCF's may be."""
    start = text(named(b'a')) + b'@SQ\tSN:b\tLN:1\tDS:'
    padded = start.ljust(1100, b'd')
    at = len(text(named(b'a')))
    for ending in (b'', b'\n', b'\r\n'):
        for excess, number in ((0, 0), (1, 2)):
            add(number, padded + ending, length=at + 65535 + excess + len(ending))
    add(2, padded.replace(b'DS:', b'bad') + b'\n', length=at + 65537)
    add(2, padded.replace(b'b\tLN', b'\xff\tLN') + b'\n', length=at + 65537)
    skipped = text(named(b'a')) + b'@CO\t'
    add(0, skipped.ljust(1100, b'd') + b'\n' + text(named(b'b')), length=at + 70000)
    add(0, skipped.ljust(1100, b'd') + b'\n' + text(named(b'b')), length=1048577)
    many = text(*(named(b'chr%d' % n) for n in range(400)))
    add(0, many, output=65536)
    add(43, many + text(named(b'chr0')), output=65536)
    add(43, many + text(named(b'chr399')), output=0)
    add(28, many, output=ROOM)


def at_random():
    """Few names, tags and values, so that all answers come."""
    for _ in range(80):
        made = []
        for _ in range(random.randint(1, 4)):
            pool = [b'SN:' + random.choice((b'a', b'b', b'c,d', b'"')), b'LN:' + random.choice((b'1', b'007', b'2147483647', b'5', b'9', b'8', b'7', b'6', b'0')),
                    b'M5:' + random.choice((b'm', b'>')), b'UR:u', b'AS:x', random.choice((b'DS:y', b'DS:z', b'AS:w', b'x'))]
            chosen = pool[:2] + random.sample(pool[2:], random.choice((0, 1, 1, 2, 2, 3)))
            random.shuffle(chosen)
            made.append(sq(*chosen))
        add(None, text(*made), output=random.choice((40, ROOM, ROOM, ROOM)))


def main():
    for make in (accepted, sizes, lines, tags, required, ordered, rooms, long, at_random):
        make()
    record.write('contigs', CASES)


main()

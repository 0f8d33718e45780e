#!/usr/bin/env python3
"""Writes the recorded dictionaries of crates/cases from dictionary_model.py: what is asked, the header, and what must come: number, place,
entries, how many pairs, how many of the table's words were written, and the words of both slices in hex."""
import random

import dictionary_model
import record
import told
from pieces import COLS

random.seed(9)

ROOM = 64
CASES = []


def add(number, *lines, strings=ROOM, contigs=ROOM, room=ROOM, imposed=None, version='4.3', columns=COLS):
    header = b''.join(line + b'\n' for line in (b'##fileformat=VCFv' + version.encode(), *lines, columns) if line is not None)
    answer = dictionary_model.dictionaries(header, imposed, room, strings, contigs)
    assert number in (None, answer.number), (number, answer, lines)
    asked = f"dictionaries {'own' if imposed is None else 'VCFv%d.%d' % imposed} {room} {strings} {contigs}", record.escaped(header)
    assert asked not in [case[1:3] for case in CASES], 'this is a case already'
    CASES.append((f'{answer.number}-{len(CASES):03}', *asked, told.dictionaries(answer)))


def line(key, name, idx=None, more=b''):
    given = b'' if idx is None else b',IDX=' + (idx if isinstance(idx, bytes) else b'%d' % idx)
    fields = {b'FILTER': b',Description=d', b'contig': b''}.get(key, b',Number=1,Type=String,Description=d')
    return b'##' + key + b'=<ID=' + name + fields + more + given + b'>'


def filter_(name, idx=None, more=b''):
    return line(b'FILTER', name, idx, more)


def info(name, idx=None, more=b''):
    return line(b'INFO', name, idx, more)


def format_(name, idx=None, more=b''):
    return line(b'FORMAT', name, idx, more)


def contig(name, idx=None, more=b''):
    return line(b'contig', name, idx, more)


STRINGS = (filter_, info, format_)
BIGGEST = 2**64 - 1


def counted():
    add(0)
    add(0, b'##a=b', b'##ALT=<ID=DEL,Description=d>', b'##META=<ID=x,IDX=5>')
    for one in STRINGS:
        add(0, one(b'x'))
        add(0, one(b'PASS'))
        add(0, one(b'x'), one(b'y'), one(b'z'))
        for other in STRINGS:
            if one is not other:
                add(0, one(b'x'), other(b'x'))
                add(0, one(b'x'), other(b'y'), one(b'z'), other(b'x'), other(b'w'))
                add(0, one(b'PASS'), other(b'PASS'), other(b'x'))
    add(0, contig(b'1'), contig(b'2'), contig(b'X'))
    add(0, contig(b'PASS'), contig(b'q'), filter_(b'q'))
    add(0, contig(b'1'), info(b'a'), contig(b'2'), filter_(b'b'), b'##c=d', format_(b'a'))
    add(0, info(b'a'), columns=COLS + b'\tFORMAT\ts1\ts2')
    for lines in ([filter_(b'PASS'), filter_(b'q'), info(b'a')], [filter_(b'q'), info(b'a'), filter_(b'PASS')],
                  [filter_(b'q'), filter_(b'PASS'), info(b'a')], [filter_(b'q'), info(b'a')], [info(b'a'), format_(b'PASS'), filter_(b'PASS')]):
        add(0, *lines)


def indexed():
    add(0, filter_(b'PASS', 0))
    add(0, filter_(b'PASS', 0), filter_(b'q', 1), info(b'a', 2), format_(b'b', 3))
    add(0, info(b'a', 2), filter_(b'q', 1), format_(b'b', 3))
    add(0, info(b'a', 7), filter_(b'q', 3), format_(b'b', 100), filter_(b'PASS', 0))
    add(0, info(b'a', BIGGEST), info(b'b', BIGGEST - 1), info(b'c', 1))
    add(0, info(b'a', 1), format_(b'a', 1), filter_(b'a', 1))
    add(0, info(b'a', b'+1'), format_(b'a', b'001'), filter_(b'b', b'"2"'))
    add(0, filter_(b'PASS', b'+00'), info(b'a', 4096), info(b'b', 8192), info(b'c', 4095))
    add(0, contig(b'1', 0), contig(b'2', 1))
    add(0, contig(b'1', 1), contig(b'2', 0), contig(b'3', BIGGEST))
    add(0, contig(b'1', 5, b',length=9'), contig(b'PASS', 1))
    add(0, contig(b'1', 0), info(b'a'))
    add(0, contig(b'1'), info(b'a', 1))
    add(0, b'##ALT=<ID=DEL,Description=d,IDX=q>', b'##a=<ID=x,IDX=0>', contig(b'1', 0))
    for one in STRINGS:
        for other in STRINGS:
            if one is not other:
                add(0, one(b'x', 5), other(b'x', 5), other(b'y', 6))
                add(35, one(b'x', 5), other(b'x', 6))
                add(35, one(b'x', 5), other(b'y', 5))


def by_meaning():
    add(0, filter_(b'"x"'), info(b'x'))
    add(0, filter_(b'"a\\"b"'), info(b'a"b'), format_(b'"a\\\\b"'))
    add(0, filter_(b'"a\\\\b"'), info(b'a\\b'))
    add(0, filter_(b'"PASS"'), info(b'x'))
    add(0, filter_(b'"PASS"', 0), info(b'x', 1))
    add(0, filter_(b'"a\\"b"', 3), info(b'a"b', 3))
    add(35, filter_(b'"a\\"b"', 3), info(b'a"b', 4))
    add(35, filter_(b'"a,b"', 3), info(b'"a,c"', 3))
    add(0, filter_(b'', 3), info(b'""', 3))
    add(0, filter_(b''), info(b'""'), format_(b'x'))
    add(0, filter_('Grüße'.encode()), info('"Grüße"'.encode()))


def refused():
    # 34
    add(34, filter_(b'PASS'), filter_(b'q', 1))
    add(34, filter_(b'PASS', 0), filter_(b'q'))
    add(34, info(b'a', 1), format_(b'a'))
    add(34, info(b'a'), info(b'b'), info(b'c', 3))
    add(34, contig(b'1'), contig(b'2', 0))
    add(34, contig(b'1', 0), contig(b'2'))
    # 35
    add(35, filter_(b'PASS', 1))
    add(35, filter_(b'PASS', BIGGEST), info(b'a', 0))
    add(35, info(b'a', 0))
    add(35, info(b'a', 3), format_(b'b', 0))
    add(35, info(b'a', 0), filter_(b'PASS', 0))
    add(35, contig(b'1', 5), contig(b'2', 5))
    add(35, contig(b'1', 5), contig(b'2', 6), contig(b'3', 5))
    add(35, info(b'a', 4096), info(b'b', 0))
    add(35, info(b'a', 1), info(b'b', 4097), info(b'c', 4097))
    add(0, info(b'a', 1), info(b'b', 4097), info(b'c', 8193))
    # 36: too small by one word, and by more
    for strings, contigs, number in ((3, 4, 36), (4, 3, 36), (4, 4, 0), (5, 5, 0), (0, 4, 36), (4, 0, 36), (1, 1, 36)):
        add(number, filter_(b'q'), contig(b'1'), info(b'a'), contig(b'2'), format_(b'q'), strings=strings, contigs=contigs)
        add(number, filter_(b'q', 2), contig(b'1', 9), info(b'a', 1), contig(b'2', 3), format_(b'q', 2), strings=strings, contigs=contigs)
    add(0, strings=0, contigs=0)
    add(0, contig(b'1'), strings=0, contigs=2)
    add(0, info(b'a'), strings=2, contigs=0)


def ordered():
    # each refusal with every one below it present: the reading's, 34 of either, 35 of either, 36
    mixed_s, mixed_c = [info(b'a', 1), info(b'b')], [contig(b'1', 1), contig(b'2')]
    clash_s, clash_c = [info(b'a', 1), format_(b'c', 1)], [contig(b'1', 1), contig(b'2', 1)]
    good_s, good_c = [info(b'a', 1)], [contig(b'1', 1)]
    for s in (mixed_s, clash_s, good_s):
        for c in (mixed_c, clash_c, good_c):
            expected = 34 if s is mixed_s or c is mixed_c else 35 if s is clash_s or c is clash_c else 36
            add(expected, *s, *c, strings=1, contigs=1)
            add(expected, *c, *s, strings=0, contigs=64)
            add(19, *s, *c, s[0], strings=0, contigs=0)
            add(26, *s, *c, strings=0, contigs=0, columns=None)
            add(24, *s, *c, strings=0, contigs=0, room=2 * (len(s) + len(c)) + 2)
    add(13, info(b'a', b'-1'), info(b'b'))
    add(34, b'##META=<ID=x,Values=[a,b]>', *mixed_s)
    add(9, b'##META=<ID=x,Values=[a,b]>', *mixed_s, imposed=(4, 2))
    add(35, *clash_s, imposed=(4, 5), version='4.1')


def at_random():
    """Few IDs and few numbers, so that all answers come."""
    for _ in range(60):
        some = random.random() < 0.5
        lines = {}
        for _ in range(random.randint(1, 6)):
            make = random.choice((*STRINGS, contig))
            name = random.choice((b'a', b'b', b'c', b'd', b'PASS', b'"a"', b'"b"'))
            idx = random.choice((0, 0, 1, 2, 3, 4)) if some and random.random() < 0.93 else None
            lines.setdefault((make, name.strip(b'"')), make(name, idx))
        asked = [*lines.values()]
        random.shuffle(asked)
        try:
            add(None, *asked, strings=random.choice((2, 6, 8, 64)))
        except AssertionError as again:
            assert isinstance(again.args[0], str), again


def main():
    for make in (counted, indexed, by_meaning, refused, ordered, at_random):
        make()
    record.write('dictionaries', CASES)


main()

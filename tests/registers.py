#!/usr/bin/env python3
"""Writes the recorded registers of crates/cases from model.py: what is asked, the header, and what must come: number, place, entries, the
constants, and how many of the table's words were written."""
import random

import model
import record
import told
from pieces import COLS, F, text

random.seed(11)

CASES = []
WELLS = range(1, 41)


def cell(well, k=b'1.00', name=None):
    return b'##cell=<ID=%s,K=%s>' % (b'W%02d' % well if name is None else name, k)


def cells(k=lambda w: b'%d.%02d' % divmod(50 + w * 37 % 151, 100), wells=WELLS):
    return [cell(w, k(w)) for w in wells]


def add(number, lines, version=b'4.3', imposed=None, room=256, columns=COLS, ending=b'\n', place=None):
    header = text(b'##fileformat=VCFv' + version, *lines, columns).replace(b'\n', ending)
    answer = model.register(header, imposed, room)
    assert answer.number == number, (number, answer[:3], header)
    assert place is None or (answer.line, answer.start) == place, (place, answer[:3])
    CASES.append((imposed, room, header, answer))


def replaced(well, line):
    """Forty wells, of which one has another line."""
    return [line if w == well else cell(w) for w in WELLS]


def accepted():
    add(0, cells())
    add(0, cells(), ending=b'\r\n')
    add(0, cells()[::-1])
    for _ in range(8):
        lines = cells(lambda w: b'%d.%02d' % divmod(random.randint(50, 200), 100))
        random.shuffle(lines)
        add(0, lines)
    for version in (b'4.3', b'4.4', b'4.5', b'4.10', b'5.0', b'004.03'):
        add(0, cells(), version)
    others = [b'##FILTER=<ID=W07,Description=x>', b'##Cell=<ID=W07,K=9>', b'##cell2=<ID=W07>', b'##cells=W07', b'##cel=<ID=x>', b'##CELL=W41']
    add(0, others + cells() + [b'##source=a,b'])
    mixed = [line for pair in zip(cells(), [b'##note=%d' % w for w in WELLS]) for line in pair]
    add(0, mixed)
    add(0, cells(), columns=COLS + b'\tFORMAT\tNA1\tNA2')
    for k in (b'0.50', b'0.51', b'0.99', b'1.99', b'2.00', b'"1.00"', b'"0.50"', b'"2.00"'):
        add(0, replaced(7, cell(7, k)))
    for line in (b'##cell=<K=0.98,ID=W07>', b'##cell=<ID="W07",K="0.98">', b'##cell=<a=b,K=0.98,ID=W07,k=9>', b'##cell=<ID=W07,K=0.98,Description="x,>">',
                 b'##cell=<ID=W07,kk=3.00,K=0.98>', b'##cell=<ID=W07,IDX=q,K=0.98>', b'##cell=<Number=Q,ID=W07,K=0.98>'):
        add(0, replaced(7, line))


def early():
    bad = [cell(7, b'9'), cell(0)]
    for lines in (cells(), bad, []):
        for version, imposed in ((b'4.2', None), (b'4.0', None), (b'3.9', None), (b'4.3', (4, 2)), (b'4.3', (0, 9))):
            add(37, lines, version, imposed, place=(0, 0))
    add(0, cells(), b'4.2', (4, 3))
    add(0, cells(), b'4.1', (4, 4))


def unknown():
    for name in (b'W00', b'W1', b'W41', b'w07', b'W007', b'W7', b'W99', b'X07', b'W0a', b'Wa1', b'', b' W07', b'W07 ', b'W40W', b'"W41"', b'"W0\\\\"', b'"W0\\"7"', b'"W\\\\07"'):
        add(38, replaced(7, cell(7, name=name)), place=(8, 21 + 6 * 23))
    add(38, [cell(7, b'9', b'W41'), cell(8, b'9', b'W42')], place=(2, 21))
    add(38, cells(wells=range(1, 40)) + [b'##cell=<ID=x>'])
    add(38, [b'##cell=<ID=x>'] + cells())
    add(38, cells() + [b'##cell=<ID=W41,K=1.00>'], place=(42, 21 + 40 * 23))


def absent():
    for well in (1, 7, 20, 40):
        add(39, [line for line in cells() if b'W%02d' % well not in line], place=(0, 0))
    add(39, [], place=(0, 0))
    add(39, [b'##cell=W01', b'##cell=<'[:7] + b'x'], place=(0, 0))
    add(39, [b'##cell=W%02d' % w for w in WELLS], place=(0, 0))
    add(39, [b'##cell=', b'##cell=', b'##cell=a<b'], place=(0, 0))
    add(39, cells(lambda w: b'9', range(2, 41)), place=(0, 0))
    add(39, [b'##FILTER=<ID=W%02d,Description=x>' % w for w in WELLS], place=(0, 0))


def faulty():
    for k in (b'0.49', b'2.01', b'1.5', b'01.50', b'+1.00', b'1.000', b'1,00', b'', b'.98', b'1.0', b'100', b'1:00', b'a.bc', b'-1.00', b'1.0a', b'9.99', b'0.00',
              b'"1.00 "', b'"1.\\"0"', b'"1.0\\\\"', b'"\\\\1.00"', b'"1.5"', b'"0.49"'):
        if b',' in k:
            continue
        add(40, replaced(7, cell(7, k)), place=(8, 21 + 6 * 23))
    add(40, replaced(7, b'##cell=<ID=W07>'), place=(8, 21 + 6 * 23))
    add(40, replaced(7, b'##cell=<ID=W07,k=1.00>'), place=(8, 21 + 6 * 23))
    add(40, replaced(7, b'##cell=<ID=W07,KK=1.00>'), place=(8, 21 + 6 * 23))
    add(40, replaced(7, b'##cell=<ID=W07,Kx=1.00,description="K=1.00">'), place=(8, 21 + 6 * 23))
    add(40, cells(lambda w: b'2.01' if w > 20 else b'1.00')[::-1])
    add(40, cells(lambda w: b'0.49' if w in (3, 9, 40) else b'1.00', [40, 9, 3] + [w for w in WELLS if w not in (3, 9, 40)]), place=(4, 21 + 2 * 23))
    add(40, cells(lambda w: b'x.yz'), place=(2, 21))


def header_first():
    """The header's own refusals come first and unchanged."""
    add(21, cells() + cells(lambda w: b'1.00'), place=(42, 21 + 40 * 23))
    for spelled in (b'W07', b'"W07"'):
        add(21, cells() + [cell(7, b'0.98', spelled)], place=(42, 21 + 40 * 23))
        add(21, [cell(7, b'0.98', spelled)] + cells(), place=(9, 21 + len(cell(7, b'0.98', spelled)) + 1 + 6 * 23))
    add(21, cells()[:7] + [b'##note=x'] * 5 + [cell(7)] + cells()[7:])
    add(10, replaced(7, b'##cell=<ID=W07,K=1.00,K=1.00>'), place=(8, 21 + 6 * 23))
    add(20, cells() + [b'##cell=W07'], place=(42, 21 + 40 * 23))
    add(20, [b'##cell=W07'] + cells(), place=(3, 32))
    add(8, replaced(7, b'##cell=<ID=W07,K="1.00"'))
    add(9, replaced(7, b'##cell=<ID=W07,K="1.\\00">'))
    add(14, replaced(7, b'##cell=<K=1.00>'))
    add(22, cells(), columns=COLS + b'\t')
    add(24, cells(), room=82)
    add(24, cells(), room=0)
    add(0, cells(), room=84)
    add(0, cells(), room=85)
    add(39, [], room=4)
    add(24, [], room=3)
    add(7, cells(), version=b'4')
    add(26, cells(), columns=b'##x=y')


for group in (accepted, early, unknown, absent, faulty, header_first):
    group()
assert F == b'##fileformat=VCFv4.3'


def case(number, imposed, room, header, answer):
    asked = 'own' if imposed is None else 'VCFv%d.%d' % imposed
    return f'{answer.number}-{number:03}', f'register {asked} {room}', record.escaped(header), told.register(answer)


assert len(CASES) >= 120
record.write('registers', [case(number, *each) for number, each in enumerate(CASES)])

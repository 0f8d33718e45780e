#!/usr/bin/env python3
"""Writes the recorded seasons of crates/cases from season_model.py. Asked are the totals that the sheet has before, and for each header
its form, the version imposed, the table's words, and from where to where it stands in the input; what must come is each answer with how
many of its table's words were written, and the totals that are not 0. Of a merge both sheets are asked, and there is no input."""
import itertools
import random
from collections import Counter, namedtuple

import model
import record
import season_model
import told
from pieces import COLS, EXAMPLE, F, FILTER_CASE, stretched, text
from season_model import NAMES, TOP

random.seed(1)

CASES = []
FORMS = model.FIRST, model.SECOND

# A header with its own version and room, which is counted in entries; stretched: its length, where bytes of it stand repeated.
Given = namedtuple('Given', 'header imposed room form stretched', defaults=(None, 64, model.FIRST, None))

KINDS = text(F, b'##INFO=<ID=a,Number=1,Type=String,Description=d>', b'##INFO=<ID=b,Number=1,Type=String,Description=d>', b'##FILTER=<ID=q,Description=d>',
             b'##FORMAT=<ID=c,Number=1,Type=String,Description=d>', b'##ALT=<ID=DEL,Description=d>', b'##contig=<ID=1>', b'##contig=<ID=2>', b'##contig=<ID=3>',
             b'##cell=<ID=W07,K=0.98>', b'##source=x', b'##source=y', COLS + b'\tFORMAT\ts1\ts2\ts3\ts4')
BARE = text(F, COLS)
TWO = text(F, b'##contig=<ID=1>', b'##contig=<ID=2>', COLS)


def header_of(given):
    return stretched(given.header, given.stretched)


def totals(sheet):
    return ','.join(f'{place}={sheet[name]}' for place, name in enumerate(NAMES) if sheet[name]) or '-'


def printed(sheet):
    return ''.join(f' {place}={sheet[name]}' for place, name in enumerate(NAMES) if sheet[name])


def add(name, before, *headers, numbers=None):
    """Headers added in turn to a sheet; answers the sheet after them."""
    sheet, asked, came, at, written = Counter(before), [], [], 0, ''
    for given in headers:
        words, header = given.room * given.form.words, header_of(given)
        answer, sheet = season_model.add(sheet, header, given.imposed, words, given.form)
        imposed = 'own' if given.imposed is None else 'VCFv%d.%d' % given.imposed
        asked.append(f'{given.form.number},{imposed},{words},{at},{at + len(header)}')
        came.append((answer.number, f'{told.place(answer)} {told.changed(answer)}\n'))
        written += record.stretched(given.header, given.stretched)
        at += len(header)
    assert numbers is None or [number for number, _ in came] == list(numbers), (name, came)
    expected = ''.join(line for _, line in came) + 'sheet' + printed(sheet)
    CASES.append((name, ' '.join(['season', totals(Counter(before)), *asked]), written, expected.encode()))
    return sheet


def merge(name, sheet, other, number=None):
    came, after = season_model.merge(sheet, other)
    assert number in (None, came), (name, came)
    CASES.append((name, f'merge {totals(sheet)} {totals(other)}', '', f'{came} sheet{printed(after)}'.encode()))
    return after


def refusals():
    """Number -> a header that is refused by it, from the recorded readings, the shortest one that needs little room; 0: one accepted."""
    found = {}
    for _, asked, escaped in record.recorded('reads'):
        if asked[0] == 'read' and len(escaped) < 3000 and '\\+' not in escaped:
            imposed = None if asked[1] == 'own' else model.version_of(asked[1][4:])
            given = Given(record.unescaped(escaped), imposed, int(asked[2]) // 2)
            if given.room <= 4096:
                number = model.read(given.header, imposed, 2 * given.room).number
                if number not in found or len(given.header) < len(found[number].header):
                    found[number] = given
    filler = text(F, b'##note=' + b'a' * 1500, COLS)
    found[2] = Given(filler, stretched=66000 + len(filler))
    found[27] = Given(text(F, *[b'##note=%04d' % n for n in range(150)], COLS), stretched=2**20)
    return found


REFUSED = refusals()
assert sorted(REFUSED) == list(range(28)), sorted(REFUSED)


def numbers():
    """Each number once, alone and all of them in one season."""
    for number, given in sorted(REFUSED.items()):
        sheet = add(f'number-{number}', {}, given, numbers=[number])
        assert sheet == (Counter(['read', ('refused', number)]) if number else sheet) and sheet['read'] == 1
        if number not in (2, 27):
            add(f'number-{number}-second', {}, given._replace(form=model.SECOND), numbers=[number])
    every = [REFUSED[n] for n in range(28) if n not in (2, 27)]
    sheet = add('numbers', {}, *every, numbers=[n for n in range(28) if n not in (2, 27)])
    assert sheet['read'] == 26 and all(sheet['refused', n] == 1 for n in range(1, 27) if n != 2)
    for turn in range(3):
        random.shuffle(every)
        assert add(f'numbers-shuffled-{turn}', {}, *every) == sheet
    doubled = every + every
    random.shuffle(doubled)
    assert add('numbers-twice', {}, *doubled) == sheet + sheet


def orders():
    """Headers in every order, with their own versions, rooms and forms."""
    assert add('nothing', {}) == Counter()
    kinds = add('kinds', {}, Given(KINDS), numbers=[0])
    assert [kinds['entries', k] for k in range(1, 11)] == [1, 2, 1, 1, 1, 3, 1, 2, 1, 4]
    few = [Given(KINDS), Given(FILTER_CASE), Given(b''), Given(EXAMPLE, form=model.SECOND)]
    sheets = [add('order-' + ''.join(map(str, order)), {}, *(few[k] for k in order)) for order in itertools.permutations(range(4))]
    assert all(sheet == sheets[0] for sheet in sheets)
    own = [Given(text(F, b'##a=<K=1>', COLS)), Given(text(F, b'##a=<K=1>', COLS), imposed=(4, 2)), Given(text(b'##fileformat=VCFv4.2', b'##a=<K=1>', COLS)),
           Given(text(b'##fileformat=VCFv4.2', b'##a=<K=1>', COLS), imposed=(4, 5))]
    assert add('versions', {}, *own, numbers=[14, 0, 0, 14])['entries', 8] == 2
    add('versions-reversed', {}, *own[::-1], numbers=[14, 0, 0, 14])
    entries = len(model.read(KINDS).entries)
    rooms = [Given(KINDS, room=room, form=form) for form in FORMS for room in (0, 1, entries - 1, entries, entries + 1)]
    assert add('rooms', {}, *rooms, numbers=[24, 24, 24, 0, 0] * 2)['refused', 24] == 6
    for turn in range(4):
        mixed = [given._replace(form=random.choice(FORMS), imposed=random.choice((None, None, (4, 2), (4, 3), (4, 4)))) for given in random.choices(few + rooms + own, k=20)]
        sheet = add(f'mixed-{turn}', {}, *mixed)
        random.shuffle(mixed)
        assert add(f'mixed-{turn}-shuffled', {}, *mixed) == sheet


def full():
    """Totals at the largest number: each place alone, and what may still be added beside it."""
    headers = {'accepted': Given(KINDS), 'read': Given(b'')}
    for place, name in enumerate(NAMES):
        given = headers.get(name) or (REFUSED[name[1]] if name[0] == 'refused' else Given(KINDS))
        by = season_model.counted(model.read(header_of(given), given.imposed, 2 * given.room), model.FIRST)[name]
        more = [Given(EXAMPLE), Given(b''), Given(BARE, form=model.SECOND)]
        assert by >= 1
        before = Counter({name: TOP - by})
        own = add(f'full-{place}-fits', before, given)
        assert own[name] == TOP
        before = Counter({name: TOP - by + 1})
        assert add(f'full-{place}-over', before, given, numbers=[30]) == before
        again = [given] if given.stretched is None else []
        add(f'full-{place}-beside', Counter({name: TOP}), given, *more, *again)
    everything = Counter({name: TOP for name in NAMES})
    assert add('full-everywhere', everything, Given(KINDS), Given(b''), Given(FILTER_CASE, form=model.SECOND), numbers=[30, 30, 30]) == everything
    nearly = Counter({name: TOP - 1 for name in NAMES})
    add('nearly-everywhere', nearly, Given(KINDS), Given(EXAMPLE), Given(EXAMPLE), Given(b''), numbers=[30, 0, 30, 30])
    add('one-kind-alone', Counter({('entries', 6): TOP - 1}), Given(TWO), Given(KINDS), Given(BARE), numbers=[30, 30, 0])
    add('one-kind-alone-second', Counter({('entries', 10): TOP - 3}), Given(KINDS, form=model.SECOND), Given(TWO, form=model.SECOND), numbers=[30, 0])
    add('room-kept', Counter({'read': TOP}), Given(KINDS, room=3), Given(TWO), Given(FILTER_CASE), Given(REFUSED[27].header, stretched=2**20), numbers=[30] * 4)


def merges():
    merge('merge-nothing', Counter(), Counter(), 0)
    for place, name in enumerate(NAMES):
        beside = Counter({other: 5 for other in NAMES if other != name})
        for a, b in ((TOP, 1), (1, TOP), (2**63, 2**63), (TOP, TOP)):
            assert merge(f'merge-{place}-{a}-{b}', Counter({name: a}) + beside, Counter({name: b}) + beside, 30)[name] == a
        for a, b in ((TOP, 0), (0, TOP), (TOP - 1, 1), (2**63, 2**63 - 1)):
            assert merge(f'merge-{place}-{a}-{b}', Counter({name: a}) + beside, Counter({name: b}) + beside, 0)[name] == TOP
    few = [Given(KINDS), Given(FILTER_CASE), Given(b''), Given(EXAMPLE, form=model.SECOND), Given(TWO), Given(BARE)]
    whole = add('parts-whole', {}, *few)
    for cut in range(len(few) + 1):
        parts = [add(f'parts-{cut}-first', {}, *few[:cut]), add(f'parts-{cut}-rest', {}, *few[cut:])]
        assert merge(f'merge-parts-{cut}', *parts, 0) == whole
        assert merge(f'merge-parts-{cut}-turned', *parts[::-1], 0) == whole
    for turn in range(20):
        draw = lambda: Counter({name: random.choice((0, 1, random.randrange(2**20), 2**63 - 1, 2**63, random.randrange(2**62))) for name in random.sample(NAMES, random.randint(0, 39))})
        merge(f'merge-drawn-{turn}', draw(), draw())


numbers()
orders()
full()
merges()
record.write('seasons', CASES)

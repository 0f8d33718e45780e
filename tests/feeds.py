#!/usr/bin/env python3
"""Makes the recorded headers in pieces, crates/cases/data/feeds. `cut`: a header of the recorded readings, of which every cut must come to
what model.py says of it whole. `feed`: calls one after the other, with states, words and bytes forged, as feed_model.py has them."""
import random

import feed_model
import model
import record
from pieces import COLS, EXAMPLE, F, FILTER_CASE, text, words

random.seed(8)

CASES = []
UNWRITTEN, BLANK = 7, b'\xff'


def put_place(number, line, start, entries):
    return b'%d line=%d start=%d entries=%d' % (number, line, start, entries)


def put_table(table):
    written = len(table)
    while written and table[written - 1] == UNWRITTEN:
        written -= 1
    shown = lambda part: b''.join(b' %x' % word for word in part)
    return b' changed=%d' % written + (shown(table[:written]) if written <= 24 else shown(table[:24]) + b' ..' + shown(table[written - 2:written]))


def put_accepted(version, samples):
    return b' version=%d.%d samples=%d' % (*version, samples)


def cut(name, header, given, imposed, room, form):
    """Every cut of a recorded header must come to its reading; those too long for the limit are not covered."""
    if len(header) > form.header:
        return
    r = model.read(header, imposed, room, form)
    table = [word for entry in r.entries for word in entry]
    came = put_place(r.number, r.line, r.start, len(r.entries)) + (put_accepted(r.version, r.samples) if r.number == 0 else b'')
    table += [UNWRITTEN] * (room - len(table))
    CASES.append((name, words('cut' + '2' * (form is model.SECOND), imposed, room), given, came + put_table(table)))


def recorded(file, form):
    for name, asked, given in record.recorded(file):
        if asked[0] not in ('read', 'read2'):
            continue
        imposed = None if asked[1] == 'own' else model.version_of(asked[1][4:])
        cut(f'{file}-{name}', record.unescaped(given), given, imposed, int(asked[2]), form)


PHASES = {'E': ('Empty', None), 'R': ('Ready', (4, 3)), 'r': ('Ready', (4, 2)), 'D': ('Done', (4, 3))}
OVER = feed_model.Answer(0, 8, 7, 6, ((4, 5), 9), False)


def forge(state, word, buffer, table):
    label, _, value = word.partition('=')
    if label in ('held', 'at', 'line', 'count'):
        return state._replace(**{label: int(value)})
    if label == 'phase':
        phase, version = PHASES[value]
        return state._replace(phase=phase, version=version, samples=5 if phase == 'Done' else 0)
    if word in ('open', 'over'):
        return state._replace(over=OVER if word == 'over' else None)
    target = table if label[0] == 'w' else buffer
    if int(label[1:]) < len(target):
        target[int(label[1:])] = int(value)
    return state


def put_answer(a):
    came = put_place(a.number, a.line, a.start, a.entries)
    return came + (put_accepted(*a.accepted) if a.accepted else b' more' if a.more else b'')


def put_state(s):
    version = b' %d.%d' % s.version if s.phase != 'Empty' else b''
    samples = b' %d' % s.samples if s.phase == 'Done' else b''
    return b' | %s%s%s held=%d at=%d line=%d count=%d%s' % (s.phase.lower().encode(), version, samples, s.held, s.at, s.line, s.count, b' over' * bool(s.over))


def fed(name, header, todo, imposed=None, room=12, size=100, form=model.FIRST, numbers=None):
    """numbers: those that the calls must answer, where document 02 says them."""
    buffer, table, sent, came, answers = bytearray(BLANK * size), [UNWRITTEN] * room, 0, b'', []
    state = feed_model.start(imposed)
    todo = todo.split() if isinstance(todo, str) else todo
    for word in todo:
        if word == 'c':
            state, answer = feed_model.close(state, form, buffer, table)
        elif word.startswith('+'):
            piece = header[sent:sent + int(word[1:])]
            sent += len(piece)
            state, answer = feed_model.feed(state, piece, form, buffer, table)
        else:
            state = forge(state, word, buffer, table)
            continue
        answers.append(answer.number)
        came += b'; ' + put_answer(answer)
    assert numbers is None or answers == numbers, (name, answers)
    came += put_state(state) + put_table(table) + b' buffer=' + bytes(buffer).rstrip(BLANK)
    CASES.append((name, words('feed' + '2' * (form is model.SECOND), imposed, room, size, *todo), record.escaped(header), came))


def single(n):
    return ['+1'] * n + ['c']


# The second piece is sent once more after it was not taken.
AGAIN = EXAMPLE + EXAMPLE[44:]
CRLF = EXAMPLE.replace(b'\n', b'\r\n')


def documented():
    """What document 02 says, step by step."""
    fed('whole', EXAMPLE, '+83 c', numbers=[0, 0])
    fed('empty-pieces', EXAMPLE, '+0 +30 +0 +0 +53 +0 c', numbers=[0] * 7)
    fed('byte-by-byte', EXAMPLE, single(83), numbers=[0] * 84)
    fed('nothing', b'', 'c', numbers=[25])
    fed('only-empty', b'', '+0 +0 c', numbers=[0, 0, 25])
    fed('no-columns', text(F), '+21 c', numbers=[0, 26])
    fed('last-line-at-the-close', EXAMPLE[:-1], '+82 c', numbers=[0, 0])
    fed('last-line-refused-at-the-close', EXAMPLE[:-2], '+81 c', numbers=[0, 22])
    fed('second-filter', FILTER_CASE, '+52 +31 c', numbers=[0, 19, 19])
    fed('second-filter-as-soon-as-its-lf', FILTER_CASE, '+82 +1 +0', numbers=[0, 19, 19])
    for cut_ in (20, 21, 22):
        fed(f'cr-and-lf-{cut_}', CRLF, f'+{cut_} +70 c', numbers=[0, 0, 0])
    fed('cr-in-the-last-piece', EXAMPLE[:-1] + b'\r', '+82 +1 c', numbers=[0, 0, 22])
    fed('cr-then-lf-at-the-end', EXAMPLE[:-1] + b'\r\n', '+82 +1 +1 c', numbers=[0, 0, 0, 0])
    fed('after-a-refusal', b'##a=b\n' + EXAMPLE, '+6 +40 c +0 c', numbers=[4] * 5)
    fed('after-a-close', EXAMPLE + b'##a=b\n', '+83 c +6 c +0', numbers=[0, 0, 0, 0, 0])
    fed('second-close', text(F), '+21 c c', numbers=[0, 26, 26])
    fed('after-columns', EXAMPLE + b'\n', '+83 +1 c', numbers=[0, 1, 1])
    fed('part-after-columns', EXAMPLE + b'x', '+83 +1 c', numbers=[0, 0, 1])
    fed('table-full', EXAMPLE, '+44 +39 c', room=5, numbers=[0, 24, 24])
    fed('table-of-none', EXAMPLE, '+83 c', room=1, numbers=[24, 24])
    fed('imposed', EXAMPLE, '+30 +53 c', imposed=(4, 2), numbers=[0, 0, 0])
    fed('second-form', EXAMPLE, '+30 +53 c', form=model.SECOND, numbers=[0, 0, 0])


def long_pieces():
    """27: none of the piece is taken, and more that would fit is not taken either."""
    fed('one-byte-short', EXAMPLE, '+44 +39 c', size=82, numbers=[0, 27, 27])
    fed('one-byte-short-then-less', EXAMPLE, '+44 +39 +10 c', size=82, numbers=[0, 27, 27, 27])
    fed('buffer-just-enough', EXAMPLE, '+44 +39 +0 c', size=83, numbers=[0, 0, 0, 0])
    fed('buffer-full-then-one', EXAMPLE + b'x', '+83 +1 c', size=83, numbers=[0, 27, 27])
    fed('no-buffer', b'x', '+0 +1 c', size=0, numbers=[0, 27, 27])
    fed('no-buffer-nothing', b'', 'c', size=0, numbers=[25])
    fed('refused-before-27', b'##a=b\n' + EXAMPLE, '+6 +83', size=20, numbers=[4, 4])
    fed('too-long-with-a-bad-line', b'##a=b\n' + EXAMPLE, '+89', size=88, numbers=[27])


def forged_counts():
    """29 first, whatever follows; nothing changes, and it isn't remembered."""
    bound = {'held': ('held=101', 'held=44'), 'count': ('count=7', 'count=2'), 'at': ('at=45', 'at=44'), 'line': ('line=45', 'line=2')}
    for name, (wrong, right) in bound.items():
        fed(f'{name}-past', AGAIN, f'+44 {wrong} +39 c {right} +39 c', numbers=[0, 29, 29, 0, 0])
        fed(f'{name}-past-over', EXAMPLE, f'+44 over {wrong} +39 c', numbers=[0, 29, 29])
    for name in bound:
        fed(f'{name}-huge', EXAMPLE, f'+44 {name}=18446744073709551615 +39 c', numbers=[0, 29, 29])
    fed('held-more', EXAMPLE, '+44 held=60 +39 c')
    fed('held-less', EXAMPLE, '+44 held=43 +39 c', numbers=[0, 29, 29])
    fed('held-more-than-the-limit', EXAMPLE, '+44 held=1048576 +1', size=1048600, numbers=[0, 29])
    fed('held-as-the-limit', EXAMPLE, '+44 held=1048575 +1 c', size=1048600, numbers=[0, 27, 27])
    fed('at-back', EXAMPLE, '+44 at=21 +39 c')
    fed('at-forth', EXAMPLE, '+83 at=44 phase=R count=2 line=2 c')
    fed('at-within-a-line', EXAMPLE, '+44 at=23 +39 c')
    fed('line-less', EXAMPLE, '+44 line=0 +39 c', numbers=[0, 0, 0])
    fed('line-as-many-as-bytes', EXAMPLE, '+44 line=44 +39 c', numbers=[0, 0, 0])
    fed('count-less', EXAMPLE, '+44 count=1 +39 c', numbers=[0, 0, 0])
    fed('count-none', EXAMPLE, '+44 count=0 +39 c', numbers=[0, 0, 0])
    fed('count-of-unwritten', EXAMPLE, '+44 count=3 +39 c', numbers=[0, 29, 29])
    fed('lf-among-the-held', EXAMPLE, '+44 at=21 line=1 count=1 +0 +39 c', numbers=[0, 0, 0, 0])
    fed('lf-among-the-held-at-the-close', EXAMPLE, '+83 at=21 line=1 count=1 phase=R c', numbers=[0, 0])
    fed('held-of-the-blank', EXAMPLE, '+44 held=46 +2 c')


def forged_phases():
    for phase in 'ERrD':
        fed(f'phase-{phase}', EXAMPLE, f'+44 phase={phase} +39 c')
        fed(f'phase-{phase}-at-once', EXAMPLE, f'phase={phase} +44 +39 c')
        fed(f'phase-{phase}-then-close', EXAMPLE, f'+44 phase={phase} c')
        fed(f'phase-{phase}-over', EXAMPLE, f'+44 phase={phase} over +39 c open +39 c')
    fed('over-at-once', EXAMPLE, 'over +83 c open +0 c')
    fed('opened-again', b'##a=b\n' + EXAMPLE, '+6 open +83 c')
    fed('opened-after-the-close', EXAMPLE, '+83 c open +0 c c')
    fed('opened-with-more', EXAMPLE + b'##a=b\n', '+83 c open +6 c', numbers=[0, 0, 1, 1])


def forged_words():
    """A broken entry, and well-formed ones that no line gave."""
    one, two = model.words_of(model.FIRST, model.Entry(7, 21, 22, 11, 3, 0, 0))
    broken = {'zero-bit-one': (one | 1, two), 'zero-bit-two': (one, two | 1), 'kind-0': (one % 2**60, two), 'kind-11': (one % 2**60 | 11 << 60, two), 'tag-3': (one, two | 3 << 29),
              'past-the-held': model.words_of(model.FIRST, model.Entry(7, 23, 22, 11, 3, 0, 0)), 'id-past-the-line': model.words_of(model.FIRST, model.Entry(7, 21, 22, 20, 3, 0, 0)),
              'text-with-id': model.words_of(model.FIRST, model.Entry(8, 21, 22, 11, 3, 0, 0))}
    for name, (a, b) in broken.items():
        fed(f'broken-{name}', AGAIN, f'+44 w2={a} w3={b} +39 c w2={one} w3={two} +39 c', numbers=[0, 29, 29, 0, 0])
        fed(f'broken-{name}-over', EXAMPLE, f'+44 over w2={a} w3={b} +0 c', numbers=[0, 29, 29])
    fed('broken-past-the-count', EXAMPLE, '+44 w4=1 w5=1 +39 c', numbers=[0, 0, 0])
    fed('broken-first', EXAMPLE, '+44 w0=0 +39 c', numbers=[0, 29, 29])
    contig = text(F, b'##contig=<ID=a>', b'##contig=<ID=b>', COLS)
    place = contig.index(b'a>')
    forged = {'same-id': model.Entry(6, 21, 15, 13, 1, 0, 0), 'other-kind': model.Entry(5, 21, 15, 13, 1, 0, 0), 'sample': model.Entry(10, 21, 15, 0, 0, 0, 0),
              'empty-id': model.Entry(6, 21, 15, 13, 0, 0, 0), 'quoted': model.Entry(6, 21, 15, 13, 1, 1, 0)}
    assert contig[place:place + 1] == b'a'
    for name, e in forged.items():
        a, b = model.words_of(model.FIRST, e)
        for byte in (b'a', b'b'):
            # what the entry shows is forged in the buffer: the line that comes then has the same ID, or another
            fed(f'forged-{name}-{byte.decode()}', contig, f'+37 w2={a} w3={b} b{place}={byte[0]} +100 c', room=20, size=200)
    held = b'##fileformat=VCFv4.3\n##x="W\\"\\\\07\\q\\\n##cell=<ID="W\\"\\\\07",K=1>\n##cell=<ID=W,K=1>\n' + COLS + b'\n'
    line = len(b'##fileformat=VCFv4.3\n')
    for name, e in {'escapes': model.Entry(7, line, 16, 5, 8, 1, 0), 'bare': model.Entry(7, line, 16, 5, 8, 0, 0), 'last-backslash': model.Entry(7, line, 16, 5, 11, 1, 0)}.items():
        a, b = model.words_of(model.FIRST, e)
        fed(f'forged-id-{name}', held, f'+38 w2={a} w3={b} +200 c', room=20, size=200)
    # an entry under another key, a text where a map comes, and one whose line is a part of another
    for name, e in {'cell-map': model.Entry(7, 21, 7, 0, 0, 0, 0), 'cell-text': model.Entry(8, 21, 7, 0, 0, 0, 0), 'cell-key-cut': model.Entry(8, 21, 6, 0, 0, 0, 0),
                    'typed-of-the-line': model.Entry(2, 21, 22, 11, 3, 0, 0), 'columns': model.Entry(9, 21, 22, 0, 0, 0, 0)}.items():
        a, b = model.words_of(model.FIRST, e)
        fed(f'forged-{name}', text(F, b'##cell=<ID=W07,K=0.98>', b'##cell=<ID=W08,K=0.98>', b'##cell=<ID=,K=0.98>', COLS), f'+44 w2={a} w3={b} +23 +20 +39 c', room=20, size=200)
        fed(f'forged-{name}-then-text', text(F, b'##cell=<ID=W07,K=0.98>', b'##cell=x', COLS), f'+44 w2={a} w3={b} +9 +39 c', room=20, size=200)
    # entries in the part of the buffer that no line was read from yet
    unread = text(F, b'##contig=<ID=a>', b'##contig=<ID=a>', COLS)
    a, b = model.words_of(model.FIRST, model.Entry(6, 37, 4, 0, 2, 0, 0))
    fed('forged-in-the-unread', unread, f'+42 w2={a} w3={b} count=2 +100 c', room=20, size=200)
    a, b, c = model.words_of(model.SECOND, model.Entry(7, 21, 22, 11, 3, 0, 0, 4, 2))
    for name, third in {'as-it-is': c, 'other-counts': 1 << 40, 'zero-bits': c | 1}.items():
        fed(f'third-word-{name}', EXAMPLE, f'+44 w5={third} +39 c', form=model.SECOND, numbers=[0, 29, 29] if name == 'zero-bits' else [0, 0, 0])


def clashes_ahead():
    """An ID of the first piece once more, after enough lines that IDs ahead are noted: as it stands, quoted or escaped, under the same key or another."""
    fillers = [b'##contig=<ID=filler_%04d,length=1000>' % n for n in range(8)]
    noise = [b'##x%d="a \\"word\\" \\\\"' % n for n in range(3)]
    ids = {'short': (b'c1', b'"c1"'), 'seven': (b'contig7', b'"contig7"'), 'eight': (b'contig_8', b'"contig_8"'), 'long': (b'scaffold_12345', b'"scaffold_12345"'),
           'escaped': (b'scaf"fold_1', b'"scaf\\"fold_1"'), 'escaped-last': (b'scaffold"', b'"scaffold\\""'), 'backslash': (b'scaf\\fold_1', b'"scaf\\\\fold_1"')}
    for name, spellings in ids.items():
        for old, new in [(a, b) for a in spellings for b in spellings]:
            for key, number in ((b'contig', 19), (b'cell', 21)):
                for between in (fillers, fillers + noise):
                    first = text(F, b'##%s=<ID=%s,K=1>' % (key, old))
                    rest = text(*between, b'##%s=<K=2,ID=%s>' % (key, new), COLS)
                    label = f'ahead-{name}-{spellings.index(old)}{spellings.index(new)}-{key.decode()}-{len(between)}'
                    fed(label, first + rest, f'+{len(first) + 5} +{len(rest)} c', room=60, size=1000, numbers=[0, number, number])
        other = spellings[0][:-1] + b'x'
        rest = text(*fillers, b'##contig=<ID=%s>' % other, b'##INFO=<ID="%s",Number=1,Type=Integer,Description="d">' % name.encode(), COLS)
        first = text(F, b'##contig=<ID=%s>' % spellings[1])
        fed(f'ahead-{name}-free', first + rest, f'+{len(first)} +{len(rest)} c', room=90, size=1000, form=model.SECOND, numbers=[0, 0, 0])
    # a text after a map of its key, and a map after a text
    for name, old, new in (('text', b'##cell=<ID=W07,K=1>', b'##cell=x'), ('map', b'##cell=x', b'##cell=<ID=W07,K=1>')):
        first, rest = text(F, old), text(*fillers, new, COLS)
        fed(f'ahead-mixed-{name}', first + rest, f'+{len(first)} +{len(rest)} c', room=60, size=1000, numbers=[0, 20, 20])


def at_random():
    """Headers of several lines, with repeats and mistakes, cut and forged at random."""
    lines = [F, b'##fileformat=VCFv4.2', b'##a=b', b'##a=<ID=x>', b'##a=<ID="x">', b'##b=<ID=x>', b'##contig=<ID=c>', b'##contig=<ID="c",IDX=+1>', b'##contig=<ID=d>',
             b'##INFO=<ID=DP,Number=1,Type=Integer,Description="d">', b'##FILTER=<ID=q,Description=x>', b'##META=<ID=x,Values=[a,b]>', b'x', b'', COLS, COLS + b'\tFORMAT\ta\tb']
    for k in range(300):
        first = [F] if random.random() < .9 else []
        header = b''.join(line + random.choice((b'\n', b'\n', b'\r\n')) for line in first + random.sample(lines[1:], random.randrange(1, 6)) + [COLS] * random.randrange(2))
        todo = []
        while sum(int(word[1:]) for word in todo if word[0] == '+') < len(header) and len(todo) < 30:
            todo.append(f'+{random.choice((0, 1, 2, 5, 20, 40, 200))}')
            if random.random() < .15:
                n = random.randrange(len(header) + 1)
                todo.append(random.choice((f'held={n}', f'at={n}', f'line={n % 7}', f'count={n % 6}', 'phase=R', 'phase=r', 'phase=E', 'open', 'c', f'b{n}=10', f'w{n % 12}={random.randrange(2**64)}')))
        form = random.choice((model.FIRST, model.SECOND))
        fed(f'random-{k}', header, todo + ['c', 'c'], imposed=random.choice((None, None, (4, 2), (4, 5))), room=random.choice((3, 6, 12, 30)), size=random.choice((40, 300, 300, 300)), form=form)


def main():
    recorded('reads', model.FIRST)
    recorded('second', model.SECOND)
    for make in (documented, long_pieces, forged_counts, forged_phases, forged_words, clashes_ahead, at_random):
        make()
    record.write('feeds', CASES)


if __name__ == '__main__':
    main()

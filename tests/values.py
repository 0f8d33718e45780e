#!/usr/bin/env python3
"""Makes the recorded cases of the crate `values`, crates/cases/data/values, from model.py. Asked is what the bytes are: utf8, u64 a
number, u32 a version's part, field, meta a field of a META."""
import random

import model
import record

random.seed(3629)


def utf8_cases():
    texts = ['', 'A', 'A\u2262\u0391.', '\ud55c\uad6d\uc5b4', '\u65e5\u672c\u8a9e', '\ufeff\U000233b4', '\x00', '\x7f', '\x80', '\u07ff', '\u0800',
             '\ud7ff', '\ue000', '\uffff', '\U00010000', '\U0010ffff']
    good = [t.encode() for t in texts]
    bad = [b'\xc0\x80', b'\xc1\xbf', b'\xe0\x9f\xbf', b'\xed\xa0\x80', b'\xed\xbf\xbf', b'\xf0\x8f\xbf\xbf', b'\xf4\x90\x80\x80', b'\xf5\x80\x80\x80',
           b'\x80', b'\xbf', b'\xfe', b'\xff', b'\xc3', b'\xc3A', b'\xe2\x89', b'\xe2\x89A', b'\xf0\xa3\x8e', b'A\xf0\xa3\x8e', b'\xc3\xa9\xa9']
    mixed = [bytes(random.choice(b'aZ\x7f\x80\xbf\xc2\xdf\xe0\xe1\xed\xef\xf0\xf4') for _ in range(random.randint(1, 6))) for _ in range(60)]
    return good + bad + mixed


# a character of each row of RFC 3629 beyond ASCII, and the byte that must not follow its first one
ROWS = [(b'\xc3\xa9', 0x7f), (b'\xe0\xa0\x80', 0x9f), (b'\xe2\x82\xac', 0xc0), (b'\xed\x9f\xbf', 0xa0), (b'\xef\xbf\xbf', 0x7f),
        (b'\xf0\x90\x80\x80', 0x8f), (b'\xf3\xa0\x80\x81', 0xc0), (b'\xf4\x8f\xbf\xbf', 0x90)]


def edge_cases():
    """A character that begins at each place round the thirty-third byte, where a second block begins: whole, cut with ASCII behind it,
    cut at the end, and with a wrong second byte; before it ASCII, or the same character where the place is odd."""
    for whole, wrong in ROWS:
        for place in range(28, 34):
            before = (whole * (place // len(whole)) if place % 2 else b'').rjust(place, b'a')
            yield before + whole + b'z' * 40
            yield before + whole[:-1] + b'z' * 40
            yield before + whole[:-1]
            yield before + whole[:1] + bytes([wrong]) + whole[2:] + b'z' * 40


def number_cases():
    plain = ['', '0', '5', '+5', '-0', '-5', '+', '++5', ' 5', '5 ', '007', '+007', '0' * 40 + '9', '0' * 41, '1_000', '0x10', '5.0', '\u0665']
    edges = [str(n + d) for n in (2**32 - 1, 2**64 - 1) for d in (-1, 0, 1)] + ['1' * 25, '99999999999999999999', '+' + str(2**64), '18446744073709551620', '4294967300']
    return [t.encode() for t in plain + edges]


def field_cases():
    fixed = [b'', b'"', b'=', b'a', b'a=', b'=b', b'a=b', b'a=b,', b'a=b>', b'a=>', b'a=,', b'a==', b'a=b=c', b'ID=W07,K=0.98>', b'K="0.98",ID=x>',
             b'a="', b'a=""', b'a="x', b'a="\\', b'a="\\"', b'a="\\""', b'a="\\\\"', b'a="\\x"', b'a="x\\"y\\\\"z', b'a="b"c,', b'a=\\,b', b'a=b"c"',
             b'a,b=c', b'a<b=c', b'a>b=c', b'a"b=c', b' a =b', b'\xc3\xa9=\xe2\x89\xa2>', b'Values=[a,b]>', b'Values=[a', b'Values=[]', b'Values=[', b'Values=]',
             b'Values=[a]b>', b'Values=[a,K=]>', b'Values="[a",K="]">', b'values=[a,b]>', b'Valuess=[a,b]>', b'Value=[a,b]>', b'Values=x[a,b]>', b'Values=["a,"]']
    drawn = [b''.join(random.choice([b'a', b'=', b'"', b'\\', b',', b'>', b'<', b'[', b']', b'Values=']) for _ in range(random.randint(1, 9))) for _ in range(120)]
    return fixed + drawn


def field_line(data, meta):
    f = model.field(data, 0, meta)
    if f is None:
        return b'refused'
    places = f'equals={f.equals} start={f.text_start} end={f.text_end} next={f.end} {"quoted" if f.quoted else "bare"}'
    return places.encode() + b' means ' + f.value + b' written ' + model.quote(f.value)


def number_line(number, data):
    return b'refused' if number is None else b'value=%d' % number + (b'' if model.PLAIN.fullmatch(data) else b' odd')


def numbered(asked, inputs, expect):
    return [(f'{asked}-{i:03}', asked, record.escaped(data), expect(data)) for i, data in enumerate(inputs)]


record.write('values', numbered('utf8', utf8_cases() + list(edge_cases()), lambda d: b'utf8' if model.is_utf8(d) else b'refused')
             + numbered('u64', number_cases(), lambda d: number_line(model.u64(d), d))
             + numbered('u32', number_cases(), lambda d: number_line(model.u32(d), d))
             + numbered('field', field_cases(), lambda d: field_line(d, False))
             + numbered('meta', field_cases(), lambda d: field_line(d, True)))

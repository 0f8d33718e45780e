"""Document 01 once more, in Python, for the expected values of the recorded cases. It shares nothing with the crates:
UTF-8 is Python's own decoder, integers Python's own, and the grammar is regular expressions.
A version is a pair (major, minor), so Python's order of pairs is the document's; a part of the header is (start, end)."""
import os
import re
from collections import namedtuple

# Sizes

BUFFER, TABLE = 65536, 8192

# The forms of entries: the limits of a header and a line, the words of an entry, and how many bits each number of a word has. Document
# 01's, and the second of document 02, §5 and §10.

Form = namedtuple('Form', 'number header line words ones twos threes')
FIRST = Form(1, 2**20 - 1, 2**16 - 1, 2, (4, 20, 16, 24), (16, 16, 1, 2, 29), None)
SECOND = Form(2, 2**24 - 1, 2**24 - 1, 3, (4, 24, 24, 12), (24, 24, 1, 2, 13), (24, 24, 16))

# Kinds and their known fields, in the table's order; those in MISSING are required wherever they are known.

FILEFORMAT, INFO, FILTER, FORMAT, ALT, CONTIG, OTHER_MAP, OTHER_TEXT, COLUMNS, SAMPLE = range(1, 11)
TYPED = {b'INFO': INFO, b'FILTER': FILTER, b'FORMAT': FORMAT, b'ALT': ALT, b'contig': CONTIG}
ALWAYS_MAPS = (b'META', b'PEDIGREE')
KNOWN = {
    INFO: (b'ID', b'Number', b'Type', b'Description', b'IDX'),
    FORMAT: (b'ID', b'Number', b'Type', b'Description', b'IDX'),
    FILTER: (b'ID', b'Description', b'IDX'),
    ALT: (b'ID', b'Description'),
    CONTIG: (b'ID', b'length', b'md5', b'URL', b'IDX'),
    OTHER_MAP: (b'ID',),
}
MISSING = {b'ID': 14, b'Number': 15, b'Type': 16, b'Description': 17}
ID_NAMES = (b'ID', b'Child', b'Derived')
TYPES = (b'Integer', b'Float', b'Character', b'String')
COLUMN_NAMES = [b'#CHROM', b'POS', b'ID', b'REF', b'ALT', b'QUAL', b'FILTER', b'INFO']


def page(title):
    """The rows of a table of docs/RESERVED.md, each a list of its cells, without the head."""
    lines = RESERVED_PAGE.split(f'\n## {title}\n')[1].split('\n## ')[0].splitlines()
    return [[cell.strip() for cell in line.strip('|').split('|')] for line in lines if line.startswith('|')][2:]


def version_of(text):
    major, minor = text.split('.')
    return int(major), int(minor)


def reserved(title):
    """Version -> ID -> the Number and Type that it must have."""
    tables = {(4, 3): {}, (4, 4): {}, (4, 5): {}}
    for ids, *cells, _ in page(title):
        for version, cell in zip(tables, cells):
            if cell != '–':
                number, type_ = cell.replace('`', '').encode().split()
                tables[version].update({id_: (int(number) if number.isdigit() else number, type_) for id_ in ids.encode().split(b', ')})
    return tables


def by_version(tables, version):
    """What holds in a version: the table of the last version that is not later."""
    return tables[max(v for v in tables if v <= version)]


with open(os.path.join(os.path.dirname(os.path.abspath(__file__)), '..', 'docs', 'RESERVED.md'), encoding='utf-8') as f:
    RESERVED_PAGE = f.read()
RESERVED = {INFO: reserved('INFO'), FORMAT: reserved('FORMAT')}
LETTERS = {kind: {version_of(row[0]): row[column].encode().split() for row in page('Letters of Number')} for kind, column in ((INFO, 1), (FORMAT, 2))}


class Refused(Exception):
    def __init__(self, number):
        self.number = number


def require(condition, number):
    if not condition:
        raise Refused(number)


# Values

KEY = re.compile(rb'([^,<>"=]+)=')
QUOTED = re.compile(rb'"((?:[^"\\]|\\["\\])*)"')
BARE = re.compile(rb'[^,>]*')
BRACKETED = re.compile(rb'\[[^\]]*\]')
VERSION = re.compile(rb'VCFv([0-9]+)\.([0-9]+)')
RECORD = re.compile(rb'##([^=]+)=')


def is_utf8(data):
    try:
        data.decode('utf-8')
        return True
    except UnicodeDecodeError:
        return False


def integer(data, sign, bound):
    """Rust's parse of an unsigned number, or None."""
    if not re.fullmatch(rb'\+?[0-9]+' if sign else rb'[0-9]+', data):
        return None
    digits = data.lstrip(b'+').lstrip(b'0')
    if len(digits) > len(str(bound)):
        return None
    number = int(digits or b'0')
    return number if number <= bound else None


def u64(data):
    return integer(data, True, 2**64 - 1)


def u32(data):
    return integer(data, False, 2**32 - 1)


def unescape(text):
    return re.sub(rb'\\(["\\])', rb'\1', text)


def quote(meaning):
    return b'"' + re.sub(rb'(["\\])', rb'\\\1', meaning) + b'"'


class Field:
    """A field as it stands: places count from the start of `line`."""

    def __init__(self, line, start, key_end, text_start, text_end, quoted, end):
        self.start, self.equals, self.end = start, key_end, end
        self.text_start, self.text_end, self.quoted = text_start, text_end, quoted
        self.key = line[start:key_end]
        text = line[text_start:text_end]
        self.value = unescape(text) if quoted else text


def field(line, start, meta):
    """The field at `start`, or None; meta: a META from 4.3."""
    key = KEY.match(line, start)
    if not key:
        return None
    equals, at = key.end(1), key.end()
    if line[at:at + 1] == b'"':
        value = QUOTED.match(line, at)
        return value and Field(line, start, equals, value.start(1), value.end(1), True, value.end())
    value = meta and key[1] == b'Values' and BRACKETED.match(line, at) or BARE.match(line, at)
    return Field(line, start, equals, value.start(), value.end(), False, value.end())


# Records

class Record:
    """One line as read. A map has its fields as they stand, the ID's field with its tag, and what it means: the known
    values in the table's order (None where absent) and the other fields as (key, value)."""

    def __init__(self, kind, key, version=None, text=None):
        self.kind, self.key, self.version, self.text = kind, key, version, text
        self.fields, self.id, self.tag, self.known, self.others = [], None, 0, {}, []

    def meaning(self):
        if self.kind == OTHER_TEXT:
            return self.text
        return self.tag, tuple(self.known.get(name) for name in KNOWN[self.kind]), tuple(self.others)


def record(line, version):
    """The record that the line is under the version, or Refused."""
    head = RECORD.match(line)
    require(head, 6)
    key, value = head[1], line[head.end():]
    if key == b'fileformat':
        return Record(FILEFORMAT, key, version=file_format(value))
    if key in TYPED:
        return read_map(TYPED[key], key, line, head.end(), version)
    if key in ALWAYS_MAPS or value.startswith(b'<' if version >= (4, 3) else b'<ID='):
        return read_map(OTHER_MAP, key, line, head.end(), version)
    return Record(OTHER_TEXT, key, text=value)


def file_format(value):
    parts = VERSION.fullmatch(value)
    require(parts, 7)
    version = u32(parts[1]), u32(parts[2])
    require(None not in version, 7)
    return version


def read_map(kind, key, line, at, version):
    require(line[at:at + 1] == b'<', 8)
    r = Record(kind, key)
    at += 1
    if line[at:at + 1] in (b'', b'>'):
        require(key not in ALWAYS_MAPS, 9)
    else:
        at = read_fields(r, line, at, version)
    require(line[at:] == b'>', 8)
    for name in KNOWN[kind]:
        require(name in r.known or name not in MISSING, MISSING.get(name))
    require(not breaks_reserved(r, version), 18)
    return r


def read_fields(r, line, at, version):
    """Puts the fields into r, and answers where they end."""
    while True:
        f = field(line, at, r.key == b'META' and version >= (4, 3))
        require(f, 9)
        take_field(r, f, version)
        at = f.end
        if line[at:at + 1] != b',':
            return at
        at += 1


def take_field(r, f, version):
    tag = id_tag(r.key, f.key, version)
    name = f.key if tag is None else b'ID'
    if name in KNOWN[r.kind]:
        value = known_value(r.kind, name, f.value, version)
        require(name not in r.known, 10)
        r.known[name] = value
    else:
        require(f.key not in [other for other, _ in r.others], 10)
        r.others.append((f.key, f.value))
    r.fields.append(f)
    if tag is not None:
        r.id, r.tag = f, tag


def id_tag(record_key, key, version):
    """0, 1, 2 if a field of this key names the ID, otherwise None."""
    names = ID_NAMES if record_key == b'PEDIGREE' and version < (4, 3) else ID_NAMES[:1]
    return names.index(key) if key in names else None


def known_value(kind, name, value, version):
    """What the value of a known field means, integers as numbers."""
    if name == b'Number':
        number = value if value in by_version(LETTERS[kind], version) else u64(value)
        require(number is not None, 11)
        return number
    if name == b'Type':
        require(value in TYPES or kind == INFO and value == b'Flag', 12)
    if name in (b'IDX', b'length'):
        number = u64(value)
        require(number is not None, 13)
        return number
    return value


def breaks_reserved(r, version):
    if version < (4, 3) or r.kind not in RESERVED:
        return False
    declared = r.known[b'Number'], r.known[b'Type']
    return by_version(RESERVED[r.kind], version).get(r.known[b'ID'], declared) != declared


# Lines

def lines(header):
    """(start, line) of each line, as Rust's `lines` has them."""
    start = 0
    while start < len(header):
        end = header.find(b'\n', start)
        if end < 0:
            yield start, header[start:]
            return
        line = header[start:end]
        yield start, line[:-1] if line.endswith(b'\r') else line
        start = end + 1


class Machine:
    """What is known after some lines: the phase, the version in force, entries as their words, and the records."""

    def __init__(self, imposed, room, form):
        self.imposed, self.room, self.form = imposed, room, form
        self.phase, self.version = 'Empty', None
        self.entries, self.records = [], []
        self.format_stood, self.samples = False, []

    def step(self, start, line):
        require(self.phase != 'Done', 1)
        require(len(line) <= self.form.line, 2)
        require(is_utf8(line), 3)
        if self.phase == 'Ready' and line.startswith(b'#CHROM'):
            self.column_line(start, line)
        else:
            self.record_line(start, line)

    def record_line(self, start, line):
        first = self.phase == 'Empty'
        r = record(line, (4, 5) if first else self.version)
        require(first == (r.kind == FILEFORMAT), 4 if first else 5)
        require_distinct(r, self.records)
        self.keep([record_entry(r, start, len(line))])
        if first:
            self.phase, self.version = 'Ready', self.imposed or r.version
        self.records.append(r)

    def column_line(self, start, line):
        names = line.split(b'\t')
        require(names[:8] == COLUMN_NAMES and names[8:9] in ([], [b'FORMAT']), 22)
        samples = names[9:]
        require(len(set(samples)) == len(samples), 23)
        at, entries = start + len(b'\t'.join(names[:9])) + 1, [plain_entry(COLUMNS, start, len(line))]
        for name in samples:
            entries.append(plain_entry(SAMPLE, at, len(name)))
            at += len(name) + 1
        self.keep(entries)
        self.phase, self.format_stood, self.samples = 'Done', len(names) > 8, samples

    def keep(self, entries):
        require(self.form.words * (len(self.entries) + len(entries)) <= self.room, 24)
        self.entries += [words_of(self.form, e) for e in entries]


def require_distinct(r, records):
    """19 to 21 against the records before."""
    same = [other for other in records if other.key == r.key]
    require(all(other.kind == r.kind for other in same), 20)
    if r.id:
        ids = [other.known[b'ID'] for other in same]
        require(r.known[b'ID'] not in ids, 21 if r.kind == OTHER_MAP else 19)


# Entries

Entry = namedtuple('Entry', 'kind start length offset id_length quoted tag key_length field_count', defaults=(0, 0))


def plain_entry(kind, start, length):
    return Entry(kind, start, length, 0, 0, 0, 0)


def record_entry(r, start, length):
    if not r.id:
        return counted(plain_entry(r.kind, start, length), r)
    return counted(Entry(r.kind, start, length, r.id.text_start, r.id.text_end - r.id.text_start, int(r.id.quoted), r.tag), r)


def counted(e, r):
    return e._replace(key_length=len(r.key), field_count=len(r.fields))


def packed(widths, numbers):
    """A word of numbers side by side, most significant first."""
    word = 0
    for width, number in zip(widths, numbers):
        word = word << width | number
    return word


def numbers_in(widths, word):
    numbers = []
    for width in reversed(widths):
        numbers.insert(0, word % 2**width)
        word >>= width
    return numbers


def words_of(form, e, zero_one=0, zero_two=0, zero_three=0):
    one = packed(form.ones, (e.kind, e.start, e.length, zero_one))
    two = packed(form.twos, (e.offset, e.id_length, e.quoted, e.tag, zero_two))
    return (one, two, packed(form.threes, (e.key_length, e.field_count, zero_three))) if form.threes else (one, two)


Reading = namedtuple('Reading', 'number line start entries version samples')


def run(header, imposed, room, form=FIRST):
    """The machine after the header's lines, with the answer's number, line and start."""
    m = Machine(imposed, room, form)
    if len(header) > form.header:
        return m, (27, 0, 0)
    count = 0
    for start, line in lines(header):
        count += 1
        try:
            m.step(start, line)
        except Refused as refused:
            return m, (refused.number, count, start)
    if count == 0:
        return m, (25, 0, 0)
    return m, (0 if m.phase == 'Done' else 26, count, len(header))


def read(header, imposed=None, room=TABLE, form=FIRST):
    """room: the table's words. Version and samples are those of the answer of an accepted header, else None and 0."""
    m, (number, line, start) = run(header, imposed, room, form)
    version, samples = (None, 0) if number else (m.version, len(m.samples))
    return Reading(number, line, start, m.entries, version, samples)


def report(header):
    """The line that the check program prints, without its LF."""
    if len(header) > BUFFER:
        return b'refused 27 line=0 offset=0'
    r = read(header)
    if r.number:
        return b'refused %d line=%d offset=%d' % (r.number, r.line, r.start)
    return b'ok version=%d.%d entries=%d samples=%d' % (*r.version, len(r.entries), r.samples)


def held(form, table, n):
    """Entry n of a table of words, and the bits that no number has; Refused if it does not lie in the table."""
    require(form.words * (n + 1) <= len(table), 29)
    kind, start, length, zero_one = numbers_in(form.ones, table[form.words * n])
    offset, id_length, quoted, tag, zero_two = numbers_in(form.twos, table[form.words * n + 1])
    key_length, field_count, zero_three = numbers_in(form.threes, table[form.words * n + 2]) if form.threes else (0, 0, 0)
    return Entry(kind, start, length, offset, id_length, quoted, tag, key_length, field_count), (zero_one, zero_two, zero_three)


def well_formed(header, table, n, form=FIRST):
    """Entry n of a table of words, or Refused."""
    e, zeros = held(form, table, n)
    require(FILEFORMAT <= e.kind <= SAMPLE, 29)
    require(not any(zeros), 29)
    require(e.tag <= (2 if e.kind == OTHER_MAP else 0), 29)
    require(e.kind in KNOWN or (e.offset, e.id_length, e.quoted, e.tag) == (0, 0, 0, 0), 29)
    require(e.start + e.length <= len(header) and e.offset + e.id_length <= e.length, 29)
    require(e.kind in KNOWN or e.field_count == 0, 29)
    require(e.kind not in (COLUMNS, SAMPLE) or e.key_length == 0, 29)
    return e


def read_alone(header, e, version):
    """The record on an entry's line, which must be of the entry's kind."""
    line = header[e.start:e.start + e.length]
    require(is_utf8(line), 29)
    try:
        r = record(line, version)
    except Refused:
        raise Refused(29) from None
    require(r.kind == e.kind, 29)
    return r


def read_again(header, e, version, form):
    """The same, and the third word must be what the line says."""
    r = read_alone(header, e, version)
    require(not form.threes or counted(e, r) == e, 29)
    return r


def entry(header, table, n, form=FIRST):
    e = well_formed(header, table, n, form)
    return e.start, e.start + e.length


def entry_id(header, table, n, form=FIRST):
    e = well_formed(header, table, n, form)
    require(e.kind in KNOWN, 29)
    return e.start + e.offset, e.start + e.offset + e.id_length


def entry_field(header, table, n, index, version, form=FIRST):
    """Field number `index` of entry n, whose line is read again under the version."""
    e = well_formed(header, table, n, form)
    require(e.kind in KNOWN, 29)
    r = read_again(header, e, version, form)
    require(index < len(r.fields), 29)
    return e.start + r.fields[index].start, e.start + r.fields[index].end


def entry_key(header, table, n, form=FIRST):
    """The part of the key and the number of fields, from the third word alone."""
    e = well_formed(header, table, n, form)
    require(form.threes and e.kind <= OTHER_TEXT and 2 + e.key_length <= e.length, 29)
    return (e.start + 2, e.start + 2 + e.key_length), e.field_count


# How numbers were spelled

NUMBERS = (b'Number', b'IDX', b'length')
PLAIN = re.compile(rb'0|[1-9][0-9]*')


def is_odd(kind, f, version):
    """Whether a field is a number, by the kind's table, and not plainly spelled."""
    return f.key in NUMBERS and f.key in KNOWN[kind] and u64(f.value) is not None and not PLAIN.fullmatch(f.value)


def odd_entry(header, table, n, version, form):
    e = well_formed(header, table, n, form)
    if not (e.kind in KNOWN or form.threes and e.kind in (FILEFORMAT, OTHER_TEXT)):
        return False
    r = read_again(header, e, version, form)
    return any(is_odd(r.kind, f, version) for f in r.fields)


def odd_entries(header, table, version, room, form=FIRST):
    """The numbers of the entries that carry an oddly spelled number."""
    odd = [n for n in range(len(table) // form.words) if odd_entry(header, table, n, version, form)]
    require(len(odd) <= room, 31)
    return odd


# Meaning and house form

Meaning = namedtuple('Meaning', 'version groups format_stood samples')


def meaning(header, imposed=None, form=FIRST):
    """Of an accepted header, whatever the table; None of a refused one."""
    m, answer = run(header, imposed, form.words * (len(header) + 1), form)
    return None if answer[0] else meaning_of(m)


def meaning_of(m):
    """A group is a key, its kind and the meanings of its lines in order: typed kinds, then other keys by first appearance."""
    keys = list(TYPED) + [r.key for r in m.records if r.kind in (OTHER_MAP, OTHER_TEXT)]
    groups = []
    for key in dict.fromkeys(keys):
        same = [r for r in m.records if r.key == key]
        if same:
            groups.append((key, same[0].kind, tuple(r.meaning() for r in same)))
    return Meaning(m.version, tuple(groups), m.format_stood, tuple(m.samples))


def house_lines(means):
    """The lines of the house form, without their endings."""
    yield b'##fileformat=VCFv%d.%d' % means.version
    for key, kind, records in means.groups:
        for r in records:
            yield b'##' + key + b'=' + (r if kind == OTHER_TEXT else written_map(key, kind, r, means.version))
    yield b'\t'.join(COLUMN_NAMES + [b'FORMAT'] * means.format_stood + list(means.samples))


def written_map(key, kind, map_meaning, version):
    tag, known, others = map_meaning
    names = (ID_NAMES[tag],) + KNOWN[kind][1:]
    fields = [(name, value) for name, value in zip(names, known) if value is not None] + list(others)
    return b'<' + b','.join(name + b'=' + written(key, name, value, version) for name, value in fields) + b'>'


def written(record_key, name, value, version):
    if isinstance(value, int):
        return b'%d' % value
    if name == b'Description':
        return quote(value)
    if record_key == b'META' and name == b'Values' and version >= (4, 3) and value.startswith(b'['):
        return value if value.find(b']') == len(value) - 1 else quote(value)
    return quote(value) if value.startswith(b'"') or b',' in value or b'>' in value else value


def house_form(means):
    return b''.join(line + (b'\r\n' if line.endswith(b'\r') else b'\n') for line in house_lines(means))


House = namedtuple('House', 'number line start entries form')


def house(header, imposed=None, room=TABLE, output=FIRST.header, form=FIRST):
    """output: the bytes of the output. The house form is empty if refused."""
    m, (number, line, start) = run(header, imposed, room, form)
    written = b''
    if number == 0:
        written = house_form(meaning_of(m))
        number, at_line, at = form_refusal(written, output, form)
        if number:
            line, start, written = at_line, at, b''
    return House(number, line, start, m.entries, written)


def form_refusal(written, output, form):
    if len(written) > form.header:
        return 27, 0, 0
    for count, (start, line) in enumerate(lines(written), 1):
        if len(line) > form.line:
            return 2, count, start
    return (28 if len(written) > output else 0), 0, 0


# Document 02, §5 and §10: entries turned from one form into the other

def turned_entry(header, e, to, version):
    """To the second form a record's line is read again; to the first its counts are dropped."""
    if to.threes and e.kind <= OTHER_TEXT:
        return counted(e, read_alone(header, e, version))
    return e


def turn(header, table, target, source, to, version=None):
    """How many entries of a table were turned, and the target's words after it; Refused, and then they stay."""
    entries = [turned_entry(header, well_formed(header, table, n, source), to, version) for n in range(len(table) // source.words)]
    for e in entries:
        fits = e.start <= to.header and max(e.length, e.offset, e.id_length) <= to.line
        require(fits, 32)
    require(to.words * len(entries) <= len(target), 24)
    words = [word for e in entries for word in words_of(to, e)]
    return len(entries), words + target[len(words):]


# Document 02, §11: the cell register

Register = namedtuple('Register', 'number line start entries constants')

WELL = re.compile(rb'W(0[1-9]|[123][0-9]|40)')
CONSTANT = re.compile(rb'([0-9])\.([0-9][0-9])')


def hundredths(k):
    """A constant in whole hundredths, or None; k: the meaning of K, None where the field is missing."""
    spelled = k is not None and CONSTANT.fullmatch(k)
    n = spelled and int(spelled[1] + spelled[2])
    return n if spelled and 50 <= n <= 200 else None


def register(header, imposed=None, room=TABLE, form=FIRST):
    """The forty constants in well order, or none; line and start are 0 where document 02 gives no place."""
    m, (number, line, start) = run(header, imposed, room, form)
    if number:
        return Register(number, line, start, m.entries, ())
    if m.version < (4, 3):
        return Register(37, 0, 0, m.entries, ())
    starts = [at for at, _ in lines(header)]
    cells = [(n, r) for n, r in enumerate(m.records) if r.key == b'cell' and r.kind == OTHER_MAP]
    for n, r in cells:
        if not WELL.fullmatch(r.known[b'ID']):
            return Register(38, n + 1, starts[n], m.entries, ())
    wells = {r.known[b'ID']: (n, r) for n, r in cells}
    if len(wells) < 40:
        return Register(39, 0, 0, m.entries, ())
    constants = []
    for _, (n, r) in sorted(wells.items()):
        k = hundredths({f.key: f.value for f in r.fields}.get(b'K'))
        if k is None:
            return Register(40, n + 1, starts[n], m.entries, ())
        constants.append(k)
    return Register(0, line, start, m.entries, tuple(constants))

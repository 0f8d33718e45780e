"""tests/model.py made to answer as the sources given do: each way in which they answer otherwise than document 01 is a
row of docs/DIFFERENCES.md, and can be switched on by its name. With all of them on, the answers must be the Rust's."""
import importlib.util
import os
import re
from itertools import combinations

MODEL = os.path.join(os.path.dirname(os.path.abspath(__file__)), '..', 'tests', 'model.py')

# The names of the rows, in the table's order.
ROWS = ('comma', 'separator', 'after', 'end', 'id-anywhere', 'version', 'reserved', 'utf8', 'format', 'size')


class RustLike:
    """A copy of the model with some rows switched on. `fired` has the rows that came into play since it was cleared."""

    def __init__(self, rows):
        spec = importlib.util.spec_from_file_location('model', MODEL)
        self.model = importlib.util.module_from_spec(spec)
        spec.loader.exec_module(self.model)
        self.rows, self.fired = frozenset(rows), set()
        first = self.model.FIRST
        self.form = first._replace(header=float('inf')) if 'size' in rows else first
        if rows:
            self.patch()

    def on(self, row, condition=True):
        """Whether the row is on and the condition holds, that is whether the Rust goes its own way here."""
        if condition and row in self.rows:
            self.fired.add(row)
            return True
        return False

    def patch(self):
        m = self.model
        self.document = {name: getattr(m, name) for name in ('file_format', 'breaks_reserved', 'meaning_of', 'is_utf8')}
        m.record, m.read_map = self.record, self.read_map
        m.file_format, m.breaks_reserved, m.meaning_of = self.file_format, self.breaks_reserved, self.meaning_of
        m.Machine.step = lambda machine, start, line: self.step(machine, start, line)

    def exact(self, header, imposed):
        """(number, line, house form or None)."""
        self.on('size', len(header) > self.model.FIRST.header)
        machine, (number, line, _) = self.model.run(header, imposed, 2 * len(header) + 2, self.form)
        return number, line, None if number else self.model.house_form(self.model.meaning_of(machine))

    def answer(self, header, imposed):
        """The same with 8 for 9, as they are compared."""
        return classed(self.exact(header, imposed))

    # Lines

    def step(self, machine, start, line):
        """UTF-8 is asked of the column line as a whole, otherwise piece by piece."""
        m = self.model
        m.require(machine.phase != 'Done', 1)
        m.require(len(line) <= machine.form.line or self.on('size'), 2)
        columns = machine.phase == 'Ready' and line.startswith(b'#CHROM')
        if not m.is_utf8(line) and (columns or not self.on('utf8')):
            raise m.Refused(3)
        (machine.column_line if columns else machine.record_line)(start, line)

    def utf8(self, piece):
        self.model.require('utf8' not in self.rows or self.document['is_utf8'](piece), 3)

    # Records

    def record(self, line, version):
        m = self.model
        head = m.RECORD.match(line)
        m.require(head, 6)
        key, value = head[1], line[head.end():]
        self.utf8(key)
        if key == b'fileformat':
            return m.Record(m.FILEFORMAT, key, version=m.file_format(value))
        if key in m.TYPED:
            return m.read_map(m.TYPED[key], key, line, head.end(), version)
        if key in m.ALWAYS_MAPS or self.looks_map(value, version):
            return m.read_map(m.OTHER_MAP, key, line, head.end(), version)
        self.utf8(value)
        return m.Record(m.OTHER_TEXT, key, text=value)

    def looks_map(self, value, version):
        if version >= (4, 3):
            return value.startswith(b'<')
        return value.startswith(b'<ID=') or self.on('id-anywhere', value.startswith(b'<') and b'ID=' in value)

    def file_format(self, value):
        m = self.model
        parts = re.fullmatch(rb'VCFv([0-9]*)\.([0-9]*)', value)
        if parts and self.on('version', b'' in parts.groups()):
            version = tuple(m.u32(part or b'0') for part in parts.groups())
            m.require(None not in version, 7)
            return version
        return self.document['file_format'](value)

    def breaks_reserved(self, r, version):
        broken = self.document['breaks_reserved'](r, version)
        return broken and not self.on('reserved', broken and version not in ((4, 3), (4, 4), (4, 5)))

    def meaning_of(self, machine):
        means = self.document['meaning_of'](machine)
        if self.on('format', means.format_stood and not means.samples):
            return means._replace(format_stood=False)
        return means

    # Maps

    def read_map(self, kind, key, line, at, version):
        m = self.model
        m.require(line[at:at + 1] == b'<', 8)
        r = m.Record(kind, key)
        at = (self.read_loop if key in m.ALWAYS_MAPS else self.read_split)(r, line, at + 1, version)
        m.require(line[at:at + 1] == b'>', 8)
        m.require(len(line) == at + 1 or self.on('after'), 8)
        for name in m.KNOWN[kind]:
            m.require(name in r.known or name not in m.MISSING, m.MISSING.get(name))
        m.require(not m.breaks_reserved(r, version), 18)
        return r

    def read_loop(self, r, line, at, version):
        """META and PEDIGREE: only a bare value that runs to the end is refused before its field is taken."""
        while True:
            f = self.field(line, at, r.key == b'META' and version >= (4, 3))
            bare = not f.quoted and not (r.key == b'META' and f.key == b'Values' and version >= (4, 3) and f.value[:1] == b'['
                                         and f.value[-1:] == b']')
            self.model.require(not self.on('end', bare and f.end == len(line)), 8)
            self.model.take_field(r, f, version)
            at = f.end
            if line[at:at + 1] != b',':
                return at
            at += 1

    def read_split(self, r, line, at, version):
        """The other maps: fields up to a `>`, whatever stands between them."""
        if line[at:at + 1] in (b'', b'>'):
            return at
        while True:
            f = self.field(line, at, False)
            self.model.require(not self.on('end', f.end == len(line)), 8)
            self.model.take_field(r, f, version)
            at = f.end
            if line[at:at + 1] == b',':
                at += 1
                if self.on('comma', line[at:at + 1] == b'>'):
                    return at
            elif not self.on('separator', line[at:at + 1] not in (b'', b'>')):
                return at

    def field(self, line, at, meta):
        m = self.model
        key = m.KEY.match(line, at)
        m.require(key, 9)
        self.utf8(key[1])
        f = m.field(line, at, meta)
        m.require(f, 9)
        if not self.on('end', not f.quoted and f.end == len(line) and not m.is_utf8(f.value)):
            self.utf8(line[f.text_start:f.text_end])
        return f


def classed(answer):
    return (8, *answer[1:]) if answer[0] == 9 else answer


PLAIN, WHOLE = RustLike(()), RustLike(ROWS)
SOME = {}


def explain(header, imposed, rust):
    """The fewest rows with which the model answers as the Rust did, or None."""
    WHOLE.fired.clear()
    if WHOLE.answer(header, imposed) != rust:
        return None
    fired = [row for row in ROWS if row in WHOLE.fired]
    for count in range(1, len(fired) + 1):
        for rows in combinations(fired, count):
            if rows not in SOME:
                SOME[rows] = RustLike(rows)
            if SOME[rows].answer(header, imposed) == rust:
                return rows
    return None

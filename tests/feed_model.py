"""Document 02, §8, in Python: a header that comes in pieces. A line is read by model.py, which shares nothing with the crates; what it
may clash with is told by the entries that the table holds, whatever they are."""
import model
from model import Refused, require

State = model.namedtuple('State', 'imposed phase version samples line at count held over')
Answer = model.namedtuple('Answer', 'number line start entries accepted more')


def start(imposed=None):
    return State(imposed, 'Empty', None, 0, 0, 0, 0, 0, None)


def refused(number, line=0, at=0, entries=0):
    return Answer(number, line, at, entries, None, False)


def is_sound(state, form, buffer, table):
    """Whether a call can go by the state; otherwise it is 29."""
    if not (state.held <= min(len(buffer), form.header) and state.count <= len(table) // form.words and state.line <= state.at <= state.held):
        return False
    try:
        for n in range(state.count):
            model.well_formed(bytes(buffer[:state.held]), table, n, form)
    except Refused:
        return False
    return True


def require_free(header, entries, r):
    """19 to 21 beside the entries: a typed kind has one key, the key of another record is told by its line."""
    prefix = b'##' + r.key + b'='
    line = lambda e: header[e.start:e.start + e.length]
    text = lambda e: line(e)[e.offset:e.offset + e.id_length]
    meaning = lambda e: model.unescape(text(e)) if e.quoted else text(e)
    if r.kind in model.TYPED.values():
        require(r.known[b'ID'] not in [meaning(e) for e in entries if e.kind == r.kind], 19)
        return
    same = [e for e in entries if line(e).startswith(prefix)]
    kinds = [e.kind for e in same]
    if r.kind == model.OTHER_TEXT:
        require(model.OTHER_MAP not in kinds, 20)
        return
    require(model.OTHER_TEXT not in kinds, 20)
    require(r.known[b'ID'] not in [meaning(e) for e in same if e.kind == model.OTHER_MAP], 21)


def read_line(state, form, header, table, line, next_):
    """The state after a line that stands at state.at and its entries in the table, or Refused."""
    m = model.Machine(state.imposed, 0, form)
    m.phase, m.version = state.phase, state.version
    new = []
    m.keep = new.extend  # room is asked for after 19 to 21
    m.step(state.at, line)
    if m.records and m.records[0].kind != model.FILEFORMAT:
        require_free(header, [model.held(form, table, n)[0] for n in range(state.count)], m.records[0])
    require(form.words * (state.count + len(new)) <= len(table), 24)
    for n, e in enumerate(new, state.count):
        table[form.words * n:form.words * (n + 1)] = model.words_of(form, e)
    samples = len(m.samples) if m.phase == 'Done' else state.samples
    return state._replace(phase=m.phase, version=m.version, samples=samples, line=state.line + 1, at=next_, count=state.count + len(new))


def read_lines(state, form, header, table, end):
    """The lines that begin before `end`; the state, and the refusal of the next line or None."""
    while state.at < end:
        lf = header.find(b'\n', state.at)
        stop = len(header) if lf < 0 else lf
        line, next_ = header[state.at:stop], stop if lf < 0 else lf + 1
        if lf >= 0 and line.endswith(b'\r'):
            line = line[:-1]
        try:
            state = read_line(state, form, header, table, line, next_)
        except Refused as r:
            return state, refused(r.number, state.line + 1, state.at, state.count)
    return state, None


def ended(state, answer):
    return state._replace(over=answer), answer


def feed(state, piece, form, buffer, table):
    """The state and the answer; buffer and table are changed in place."""
    if not is_sound(state, form, buffer, table):
        return state, refused(29)
    if state.over:
        return state, state.over
    held = state.held + len(piece)
    if held > len(buffer) or held > form.header:
        return ended(state, refused(27, entries=state.count))
    buffer[state.held:held] = piece
    header = bytes(buffer[:held])
    end = header.rfind(b'\n', state.at) + 1
    state, answer = read_lines(state._replace(held=held), form, header, table, end)
    return ended(state, answer) if answer else (state, Answer(0, state.line, held, state.count, None, True))


def close(state, form, buffer, table):
    if not is_sound(state, form, buffer, table):
        return state, refused(29)
    if state.over:
        return state, state.over
    state, answer = read_lines(state, form, bytes(buffer[:state.held]), table, state.held)
    if answer:
        return ended(state, answer)
    if state.phase == 'Empty':
        return ended(state, refused(25, entries=state.count))
    if state.phase == 'Ready':
        return ended(state, refused(26, state.line, state.at, state.count))
    return ended(state, Answer(0, state.line, state.at, state.count, (state.version, state.samples), False))

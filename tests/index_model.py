"""Document 02, §7, in Python: the index beside the table and the search in it, over model.py's entries."""
import model

COVERED = range(model.INFO, model.CONTIG + 1)


def hashed(kind, id_):
    """FNV-1a of 32 bits, of the kind as one byte and the ID's bytes."""
    value = 2166136261
    for byte in bytes([kind]) + id_:
        value = (value ^ byte) * 16777619 % 2**32
    return value


def meant(header, e):
    """An entry's ID, unescaped where it is quoted; a stray backslash stays."""
    raw = header[e.start + e.offset:e.start + e.offset + e.id_length]
    out, at = bytearray(), 0
    while at < len(raw):
        at += bool(e.quoted and raw[at:at + 1] == b'\\' and raw[at + 1:at + 2] in (b'"', b'\\'))
        out.append(raw[at])
        at += 1
    return bytes(out)


def tried(places, kind, id_):
    """The places in the order in which they are tried."""
    first = hashed(kind, id_) % places
    return [(first + k) % places for k in range(places)]


def build(header, table, places, form=model.FIRST):
    """The index, and how many entries were placed; or Refused 29 or 33."""
    entries = [model.well_formed(header, table, n, form) for n in range(len(table) // form.words)]
    covered = [(n, e) for n, e in enumerate(entries) if e.kind in COVERED]
    model.require(len(covered) <= places and all(n + 1 < 2**32 for n, _ in covered), 33)
    index = [0] * places
    for n, e in covered:
        place = next(p for p in tried(places, e.kind, meant(header, e)) if index[p] == 0)
        index[place] = n + 1
    return index, len(covered)


def names(header, table, n, kind, id_, form):
    try:
        e = model.well_formed(header, table, n, form)
    except model.Refused:
        return False
    return (e.kind, meant(header, e)) == (kind, id_)


def find(header, table, index, kind, id_, form=model.FIRST):
    """The number of the entry that was found, or None, and how many places were looked at."""
    if not index or kind not in COVERED:
        return None, 0
    for looked, place in enumerate(tried(len(index), kind, id_), 1):
        if index[place] == 0:
            return None, looked
        if names(header, table, index[place] - 1, kind, id_, form):
            return index[place] - 1, looked
    return None, len(index)

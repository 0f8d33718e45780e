"""Words of a table, put together from their numbers, and what the calls show of an entry."""
import model


def place(kind, start, length, zero=0):
    return kind << 60 | start << 40 | length << 24 | zero


def identity(offset, length, quoted=0, tag=0, zero=0):
    return offset << 48 | length << 32 | quoted << 31 | tag << 29 | zero


def entry_line(header, table, n, version, field, form=model.FIRST):
    id_ = part(model.entry_id, header, table, n, form)
    fields = [part(model.entry_field, header, table, n, field, version, form)] if field is not None else all_fields(header, table, n, version, form)
    bytes_ = header[id_[0]:id_[1]] if id_ else b''
    key = part(model.entry_key, header, table, n, form)
    return b'%d entry=%s id=%s %s key=%s fields: %s' % (n, said(part(model.entry, header, table, n, form)), said(id_), bytes_,
                                                         said(key[0]) + b' of %d' % key[1] if key else b'29', b' '.join(said(f) for f in fields))


def all_fields(header, table, n, version, form):
    """Up to and with the first that is refused."""
    fields = [part(model.entry_field, header, table, n, 0, version, form)]
    while fields[-1]:
        fields.append(part(model.entry_field, header, table, n, len(fields), version, form))
    return fields


def part(call, *arguments):
    try:
        return call(*arguments)
    except model.Refused as refused:
        assert refused.number == 29
        return None


def said(shown):
    return b'%d-%d' % shown if shown else b'29'

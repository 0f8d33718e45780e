"""A model of document 02's §1, over model.py: the sheet of a season. A sheet is a Counter of its totals by name."""
from collections import Counter, namedtuple

import model

TOP = 2**64 - 1
NAMES = ['read', 'accepted', *(('refused', n) for n in range(1, 28)), *(('entries', kind) for kind in range(1, 11))]

# The entries of the header, as words, are those that the table keeps.
Added = namedtuple('Added', 'number line start entries')


def counted(reading, form):
    """What one header adds."""
    if reading.number:
        return Counter(['read', ('refused', reading.number)])
    kinds = [model.numbers_in(form.ones, words[0])[0] for words in reading.entries]
    return Counter(['read', 'accepted', *(('entries', kind) for kind in kinds)])


def merge(sheet, other):
    """The number, and the sheet after it."""
    both = sheet + other
    return (30, sheet) if any(both[name] > TOP for name in NAMES) else (0, both)


def add(sheet, header, imposed=None, room=model.TABLE, form=model.FIRST):
    """room: the table's words."""
    reading = model.read(header, imposed, room, form)
    number, after = merge(sheet, counted(reading, form))
    if number:
        return Added(number, 0, 0, reading.entries), after
    return Added(reading.number, reading.line, reading.start, reading.entries), after

"""A model of document 02's §9, over model.py: the two dictionaries of BCF, from the records of an accepted header."""
from collections import namedtuple

import model

INFO, FILTER, FORMAT, CONTIG = 2, 3, 4, 6

Line = namedtuple('Line', 'entry id idx')
Dictionaries = namedtuple('Dictionaries', 'number line start entries strings contigs')


def lines(records, kinds):
    """The lines of a dictionary in table order, the ID by meaning; the entry's number is the record's place among all."""
    return [Line(n, r.known[b'ID'], r.known.get(b'IDX')) for n, r in enumerate(records) if r.kind in kinds]


def is_mixed(found):
    return len({line.idx is None for line in found}) == 2


def numbers(found, implied):
    """The number of each line's ID, or None where they clash; `implied`: PASS is 0, written or not."""
    if all(line.idx is None for line in found):
        order = list(dict.fromkeys([b'PASS'] * implied + [line.id for line in found]))
        return [order.index(line.id) for line in found]
    pairs = {(line.id, line.idx) for line in found} | ({(b'PASS', 0)} if implied else set())
    if len({x for x, _ in pairs}) < len(pairs) or len({n for _, n in pairs}) < len(pairs):
        return None
    return [line.idx for line in found]


def listed(found, given):
    """Entry number and ID number, for each ID at its first line."""
    first = {}
    for line, number in zip(found, given):
        first.setdefault(line.id, (line.entry, number))
    return list(first.values())


def dictionaries(header, imposed=None, room=model.TABLE, strings=0, contigs=0, form=model.FIRST):
    """room, strings and contigs: the words of the table and of the slices."""
    m, (number, line, start) = model.run(header, imposed, room, form)
    refused = lambda n, l, s: Dictionaries(n, l, s, m.entries, [], [])
    if number:
        return refused(number, line, start)
    both = [lines(m.records, kinds) for kinds in ({INFO, FILTER, FORMAT}, {CONTIG})]
    if any(map(is_mixed, both)):
        return refused(34, 0, 0)
    given = [numbers(both[0], True), numbers(both[1], False)]
    if None in given:
        return refused(35, 0, 0)
    pairs = [listed(*each) for each in zip(both, given)]
    if 2 * len(pairs[0]) > strings or 2 * len(pairs[1]) > contigs:
        return refused(36, 0, 0)
    return Dictionaries(0, line, start, m.entries, *pairs)

"""A model of document 02's §14, over model.py: contig lines from the header of an alignment file."""
import re
from collections import namedtuple

import model

TAG = re.compile(rb'[A-Za-z][A-Za-z0-9]:.+', re.S)
LONGEST_SEQUENCE = 2147483647

Contigs = namedtuple('Contigs', 'number line start contigs form')


def size(digits):
    """The number of a run of digits, or None; a number of more than ten digits is too large."""
    significant = digits.lstrip(b'0')
    return int(significant or b'0') if re.fullmatch(rb'[0-9]+', digits) and len(significant) <= 10 else None


def contig(line, seen):
    """The contig of an @SQ line: the values of ID, length, md5, URL and IDX."""
    model.require(len(line) <= model.FIRST.line, 2)
    model.require(model.is_utf8(line), 3)
    tags = line.split(b'\t')[1:]
    values = {tag[:2]: tag[3:] for tag in tags}
    model.require(all(TAG.fullmatch(tag) for tag in tags) and len(values) == len(tags), 41)
    length = size(values.get(b'LN', b''))
    model.require(b'SN' in values and length is not None and 1 <= length <= LONGEST_SEQUENCE, 42)
    model.require(values[b'SN'] not in seen, 43)
    return values[b'SN'], length, values.get(b'M5'), values.get(b'UR'), None


def contigs(sam, output):
    """output: the bytes of the output. The form is empty if refused."""
    found, count = {}, 0
    for start, line in model.lines(sam):
        count += 1
        if line.split(b'\t')[0] == b'@SQ':
            try:
                known = contig(line, found)
            except model.Refused as refused:
                return Contigs(refused.number, count, start, 0, b'')
            found[known[0]] = known
    maps = (model.written_map(b'contig', model.CONTIG, (0, known, ()), (4, 5)) for known in found.values())
    form = b''.join(b'##contig=' + written + b'\n' for written in maps)
    if len(form) > output:
        return Contigs(28, 0, 0, 0, b'')
    return Contigs(0, count, len(sam), len(found), form)

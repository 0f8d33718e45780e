"""What the recorded headers are put together from."""

F = b'##fileformat=VCFv4.3'
COLS = b'#CHROM\tPOS\tID\tREF\tALT\tQUAL\tFILTER\tINFO'

# A good map of each key that has maps, without the brackets.
GOOD = {
    b'INFO': b'ID=x,Number=1,Type=Integer,Description="d"',
    b'FORMAT': b'ID=x,Number=1,Type=Integer,Description="d"',
    b'FILTER': b'ID=x,Description="d"',
    b'ALT': b'ID=x,Description="d"',
    b'contig': b'ID=x',
    b'META': b'ID=x',
    b'PEDIGREE': b'ID=x',
    b'a': b'ID=x',
}


def text(*lines):
    return b''.join(line + b'\n' for line in lines)


EXAMPLE = text(F, b'##cell=<ID=W07,K=0.98>', COLS)
QUOTED_EXAMPLE = text(F, b'##cell=<K="0.98",ID="W07">', COLS)
FILTER_CASE = text(F, b'##FILTER=<ID=q,Description=x>', b'##FILTER=<ID="q",Description=x>')


def map_line(key, fields):
    return b'##' + key + b'=<' + fields + b'>'


def stretched(data, length):
    """The bytes from 512 to 1,024 are repeated at their place, up to the length."""
    if length is None:
        return data
    more = length - len(data)
    assert more >= 0
    return data[:1024] + (data[512:1024] * (more // 512 + 1))[:more] + data[1024:]


def words(*options):
    """The words of what is asked: a version, a number, a word, or None."""
    return ' '.join('own' if o is None else 'VCFv%d.%d' % o if isinstance(o, tuple) else str(o) for o in options)

"""What crates/cases prints of an answer of the model, in either form."""


def words_in(entries):
    return [word for words in entries for word in words]


def place(answer):
    return f'{answer.number} line={answer.line} start={answer.start} entries={len(answer.entries)}'


def changed(answer):
    """How far the table was written."""
    return f'changed={len(words_in(answer.entries))}'


def table(written):
    """How many words were written, the first 24 of those, and the last two if there are more."""
    shown = [f'{word:x}' for word in written]
    return [f'changed={len(shown)}'] + shown[:24] + (['..'] + shown[-2:] if len(shown) > 24 else [])


def reading(answer):
    accepted = f' version={answer.version[0]}.{answer.version[1]} samples={answer.samples}' if answer.number == 0 else ''
    return ' '.join([place(answer) + accepted] + table(words_in(answer.entries))).encode()


def house(answer):
    """The answer, how far table and output were written, then the output; of a long one its last 64 bytes."""
    written = answer.form
    first = f'{place(answer)} length={len(written)} {changed(answer)} written={len(written)}\n'
    return first.encode() + (written if len(written) <= 2048 else written[-64:])


def dictionaries(answer):
    flat = lambda pairs: ''.join(f' {n:x}' for pair in pairs for n in pair)
    counts = f'strings={len(answer.strings)} contigs={len(answer.contigs)}'
    return f'{place(answer)} {counts} {changed(answer)} |{flat(answer.strings)} |{flat(answer.contigs)}'.encode()


def register(answer):
    return (place(answer) + ''.join(f' {constant}' for constant in answer.constants) + ' ' + changed(answer)).encode()

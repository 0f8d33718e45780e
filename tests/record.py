"""Writes recorded cases: crates/cases/data/NAME has a line for each, of its name, what is asked, the input and what must come,
parted by tabs and escaped. With --check it writes nothing, and fails if a file isn't what it would have written."""
import os
import re
import sys

CRATES = os.path.join(os.path.dirname(os.path.abspath(__file__)), '..', 'crates')
CASES = os.path.join(CRATES, 'cases')
LETTERS = {b'\\'[0]: '\\\\', b'\n'[0]: '\\n', b'\r'[0]: '\\r', b'\t'[0]: '\\t'}


def escaped(data):
    return ''.join(LETTERS.get(b) or (chr(b) if 32 <= b < 127 else f'\\x{b:02x}') for b in data)


def stretched(data, length):
    """The escaped input: `\\+N;` stands for the 512 bytes before it, over and over, N bytes of them."""
    return escaped(data) if length is None else f'{escaped(data[:1024])}\\+{length - len(data)};{escaped(data[1024:])}'


def unescaped(text):
    """The input that an escaped text stands for."""
    data = bytearray()
    for part in re.findall(r'\\x..|\\\+\d+;|\\.|[^\\]+', text):
        if part.startswith('\\x'):
            data.append(int(part[2:], 16))
        elif part.startswith('\\+'):
            again = data[-512:]
            more = int(part[2:-1])
            data += (again * (more // 512 + 1))[:more]
        elif part.startswith('\\'):
            data += {'\\\\': b'\\', '\\n': b'\n', '\\r': b'\r', '\\t': b'\t'}[part]
        else:
            data += part.encode('ascii')
    return bytes(data)


def recorded(name):
    """The cases of a file: name, the words of what is asked, and the escaped input."""
    with open(os.path.join(CASES, 'data', name), encoding='ascii') as f:
        for line in f:
            case, asked, given, _ = line.rstrip('\n').split('\t')
            yield case, asked.split(' '), given


def write(name, cases):
    """cases: (name, what is asked, the escaped input, what must come)."""
    if len({case[0] for case in cases}) < len(cases):
        sys.exit(f'{name}: two cases have one name')
    lines = ['\t'.join([case, asked, given, escaped(expected)]) for case, asked, given, expected in cases]
    keep('cases', {'data/' + name: ''.join(line + '\n' for line in lines).encode('ascii')})
    names = sorted(os.listdir(os.path.join(CASES, 'data')))
    counts = ''.join(f'{each}: {read(CASES, "data/" + each).count(10)} cases, 0 wrong\n' for each in names)
    keep('cases', {'args': ''.join(each + '\n' for each in names).encode(), 'stdout': counts.encode()})
    print(f'{name}: {len(cases)} cases')


def keep(crate, files):
    """files: name in the crate -> bytes."""
    root = os.path.join(CRATES, crate)
    if '--check' in sys.argv[1:]:
        differ = sorted(name for name, data in files.items() if read(root, name) != data)
        if differ:
            sys.exit(f'{crate}: not as the script has it: {" ".join(differ)}')
        return
    for name, data in files.items():
        path = os.path.join(root, name)
        os.makedirs(os.path.dirname(path), exist_ok=True)
        with open(path, 'wb') as f:
            f.write(data)


def read(root, name):
    path = os.path.join(root, name)
    if not os.path.isfile(path):
        return None
    with open(path, 'rb') as f:
        return f.read()

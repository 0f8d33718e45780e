"""VCF headers, read by proved code: a header is either accepted, with its entries, or refused with a number and a place.

    >>> header = Header(
    ...     b"##fileformat=VCFv4.3\\n"
    ...     b"##cell=<ID=W07,K=0.98>\\n"
    ...     b"#CHROM\\tPOS\\tID\\tREF\\tALT\\tQUAL\\tFILTER\\tINFO\\tFORMAT\\tplant\\n"
    ... )
    >>> header.version, header.samples, header["cell", "W07"]["K"]
    ((4, 3), ['plant'], '0.98')

This file is all that is needed beside the shared library libvcfh.so, which bindings/build makes: the file that VCFH_LIBRARY names, or else
one beside this file, in target/bindings of a checkout, or where the system looks for libraries.
"""
from __future__ import annotations

import ctypes
import functools
import gzip
import io
import os
import pathlib
from typing import BinaryIO, Dict, Iterator, List, NamedTuple, Optional, Tuple, Union, overload

__all__ = [
    "Entry", "FIRST", "Feed", "Header", "Index", "KINDS", "MAX_LENGTH", "MAX_LINE", "MESSAGES", "Refused", "Register", "SECOND", "Season",
    "contigs", "dictionaries", "header_end", "header_of", "house_difference", "house_form", "is_house", "is_utf8",
]

Bytes = Union[bytes, bytearray, memoryview]
Name = Union[str, bytes]
Version = Tuple[int, int]

KINDS = ("fileformat", "INFO", "FILTER", "FORMAT", "ALT", "contig", "other map", "other text", "columns", "sample")

# the forms in which entries can be stored
FIRST, SECOND = 1, 2

# the longest header or house form of each, and the longest line, in bytes
MAX_LENGTH = {FIRST: 1048575, SECOND: 16777215}
MAX_LINE = {FIRST: 65535, SECOND: 16777215}
# how many words of a table an entry takes
_WORDS = {FIRST: 2, SECOND: 3}

# what each refusal number says
MESSAGES = {
    # bindings/messages begins
    1: "a line follows the column line",
    2: "the line is longer than 65,535 bytes, or than 16,777,215 in the second form",
    3: "the line is not UTF-8",
    4: "the first line is a record, but not the fileformat line",
    5: "there is a second fileformat line",
    6: "the line does not begin with ##, has no =, or has nothing between them",
    7: "the fileformat value is not VCFv, digits, a point and digits",
    8: "the value is not a whole map: < or > is missing, or something else follows a value or the >",
    9: "a field has a bad key or value, or is missing after a comma or in a META or PEDIGREE line",
    10: "a field appears twice in the map, or the map has two IDs",
    11: "the Number is neither a count nor one of the letters allowed here",
    12: "the Type is not one of those allowed here",
    13: "the IDX or length is not a number of at most 18446744073709551615",
    14: "the ID is missing",
    15: "the Number is missing",
    16: "the Type is missing",
    17: "the Description is missing",
    18: "a reserved ID is declared with a Number or Type that is not the specification's",
    19: "the ID appears twice among the lines of its kind",
    20: "the key has text in one line and a map in another",
    21: "the ID appears twice among the lines of its key",
    22: "a column is wrong or missing",
    23: "a sample name appears twice",
    24: "the table has no room for the entries",
    25: "the input is empty",
    26: "the column line is missing",
    27: "the header is longer than 1,048,575 bytes, or than 16,777,215 in the second form",
    28: "the house form, the contig lines or the text is longer than the output",
    29: "there is no such entry, ID or field, or an entry is not well formed",
    30: "a total of the sheet would be larger than 18446744073709551615",
    31: "more entries are to be listed than the list has room for",
    32: "an entry does not fit the first form",
    33: "an index has fewer places than there are entries to index",
    34: "some lines of a dictionary have an IDX and others have none",
    35: "one ID has two numbers, or two IDs have one number",
    36: "a dictionary has more pairs than its slice has room for",
    37: "a cell register needs version 4.3 or later",
    38: "the ID of the cell line is none of W01 to W40",
    39: "one of the wells W01 to W40 has no cell line",
    40: "the cell line has no K, or its K is not a number such as 0.98, from 0.50 through 2.00",
    41: "a tag is not a letter, a letter or digit, a colon and a value, or it appears twice",
    42: "the @SQ line has no SN, or no LN from 1 to 2147483647",
    43: "the SN appears twice among the @SQ lines",
    # bindings/messages ends
}


class _Answer(ctypes.Structure):
    _fields_ = [(name, ctypes.c_uint64) for name in ("number", "line", "start", "entries")]


class _Read(ctypes.Structure):
    _fields_ = _Answer._fields_ + [("samples", ctypes.c_uint64), ("major", ctypes.c_uint32), ("minor", ctypes.c_uint32)]


class _Described(ctypes.Structure):
    _fields_ = [(name, ctypes.c_uint64) for name in ("number", "kind", "start", "length", "key_start", "key_length", "has_id", "id_start", "id_length", "quoted")]


class _Field(ctypes.Structure):
    _fields_ = [(name, ctypes.c_uint64) for name in ("number", "key_start", "key_length", "start", "length", "quoted")]


class _Value(ctypes.Structure):
    _fields_ = [(name, ctypes.c_uint64) for name in ("number", "start", "length", "quoted")]


class _Under(ctypes.Structure):
    _fields_ = [(name, ctypes.c_uint64) for name in ("number", "entry")]


class _Meant(ctypes.Structure):
    _fields_ = [(name, ctypes.c_uint64) for name in ("number", "length")]


class _House(ctypes.Structure):
    _fields_ = _Answer._fields_ + [("length", ctypes.c_uint64)]


class _Register(ctypes.Structure):
    _fields_ = _Answer._fields_ + [("constants", ctypes.c_uint64 * 40)]


class _Differences(ctypes.Structure):
    _fields_ = [("count", ctypes.c_uint64)] + [(name, ctypes.c_uint64 * 40) for name in ("wells", "old", "new")]


class _Dictionaries(ctypes.Structure):
    _fields_ = _Answer._fields_ + [("strings", ctypes.c_uint64), ("contigs", ctypes.c_uint64)]


class _Contigs(ctypes.Structure):
    _fields_ = [(name, ctypes.c_uint64) for name in ("number", "line", "start", "contigs", "length")]


class _Part(ctypes.Structure):
    _fields_ = [(name, ctypes.c_uint64) for name in ("number", "start", "length")]


class _Key(ctypes.Structure):
    _fields_ = [(name, ctypes.c_uint64) for name in ("number", "start", "length", "fields")]


class _Listed(ctypes.Structure):
    _fields_ = [(name, ctypes.c_uint64) for name in ("number", "listed")]


class _Indexed(ctypes.Structure):
    _fields_ = [(name, ctypes.c_uint64) for name in ("number", "placed")]


class _Found(ctypes.Structure):
    _fields_ = [(name, ctypes.c_uint64) for name in ("found", "entry", "looked")]


class _Turned(ctypes.Structure):
    _fields_ = [(name, ctypes.c_uint64) for name in ("number", "entries")]


class _Sheet(ctypes.Structure):
    _fields_ = [("totals", ctypes.c_uint64 * 39)]


class _Added(ctypes.Structure):
    _fields_ = _Answer._fields_ + [("sheet", _Sheet)]


class _Merged(ctypes.Structure):
    _fields_ = [("number", ctypes.c_uint64), ("sheet", _Sheet)]


class _Verdict(ctypes.Structure):
    _fields_ = _Answer._fields_ + [("house", ctypes.c_uint64), ("differs", ctypes.c_uint64)]


class _Feeding(ctypes.Structure):
    _fields_ = [
        ("imposed", ctypes.c_uint64),
        ("imposed_major", ctypes.c_uint32),
        ("imposed_minor", ctypes.c_uint32),
        ("phase", ctypes.c_uint64),
        ("major", ctypes.c_uint32),
        ("minor", ctypes.c_uint32),
    ] + [(name, ctypes.c_uint64) for name in ("samples", "held", "at", "lines", "kept", "over", "number", "line", "start", "entries")]


class _Fed(ctypes.Structure):
    _fields_ = _Answer._fields_ + [("state", _Feeding)]


_BYTES = [ctypes.c_char_p, ctypes.c_size_t]
_TABLE = [ctypes.POINTER(ctypes.c_uint64), ctypes.c_size_t]
_INDEX = [ctypes.POINTER(ctypes.c_uint32), ctypes.c_size_t]
_NUMBER = [ctypes.c_uint64]
_VERSION = [ctypes.c_uint32, ctypes.c_uint32]
# the header, the version imposed, the form and the table
_READING = _BYTES + _NUMBER + _VERSION + _NUMBER + _TABLE
# the header, the table and the form
_SHOWING = _BYTES + _TABLE + _NUMBER

_CALLS = {
    "vcfh_utf8": (ctypes.c_uint64, _BYTES),
    "vcfh_header_end": (ctypes.c_uint64, _BYTES),
    "vcfh_read": (_Read, _READING),
    "vcfh_house": (_House, _READING + _BYTES),
    "vcfh_register": (_Register, _READING),
    "vcfh_compare": (_Differences, [_Register, _Register]),
    "vcfh_dictionaries": (_Dictionaries, _READING + _TABLE + _TABLE),
    "vcfh_contigs": (_Contigs, _BYTES + _BYTES),
    "vcfh_key": (_Key, _SHOWING + _NUMBER),
    "vcfh_field": (_Part, _SHOWING + _NUMBER + _VERSION + _NUMBER),
    "vcfh_describe": (_Described, _SHOWING + _NUMBER),
    "vcfh_field_parts": (_Field, _SHOWING + _NUMBER + _VERSION + _NUMBER),
    "vcfh_value": (_Value, _SHOWING + _NUMBER + _VERSION + _BYTES),
    "vcfh_find_entry": (_Under, _SHOWING + _BYTES + _BYTES),
    "vcfh_find_value": (_Value, _SHOWING + _VERSION + _BYTES + _BYTES + _BYTES),
    "vcfh_find_text": (_Meant, _SHOWING + _VERSION + _BYTES + _BYTES + _BYTES + _BYTES),
    "vcfh_meaning": (_Meant, _BYTES + _NUMBER + _BYTES),
    "vcfh_odd": (_Listed, _SHOWING + _VERSION + _TABLE),
    "vcfh_build_index": (_Indexed, _SHOWING + _INDEX),
    "vcfh_find": (_Found, _SHOWING + _INDEX + _NUMBER + _BYTES),
    "vcfh_to_second": (_Turned, _BYTES + _TABLE + _VERSION + _TABLE),
    "vcfh_to_first": (_Turned, _BYTES + _TABLE + _TABLE),
    "vcfh_is_house": (_Verdict, _READING),
    "vcfh_season_add": (_Added, _READING + [_Sheet]),
    "vcfh_season_merge": (_Merged, [_Sheet, _Sheet]),
    "vcfh_feed_start": (_Feeding, _NUMBER + _VERSION),
    "vcfh_feed": (_Fed, [_Feeding] + _BYTES + _NUMBER + _BYTES + _TABLE),
    "vcfh_close": (_Fed, [_Feeding] + _NUMBER + _BYTES + _TABLE),
}


def _library() -> ctypes.CDLL:
    here = pathlib.Path(__file__).resolve().parent
    named = os.environ.get("VCFH_LIBRARY")
    places = [here / "libvcfh.so", here.parent.parent / "target" / "bindings" / "libvcfh.so"]
    found = named or next((str(place) for place in places if place.exists()), "libvcfh.so")
    try:
        library = ctypes.CDLL(found)
        for name, (result, arguments) in _CALLS.items():
            function = getattr(library, name)
            function.restype, function.argtypes = result, arguments
    except (OSError, AttributeError) as error:
        looked = named or ", ".join(map(str, places)) + " and where the system looks"
        raise ImportError(f"no libvcfh.so of this version in {looked}: run bindings/build, or name it by VCFH_LIBRARY ({error})") from error
    return library


_vcfh = _library()


class Refused(ValueError):
    """Why a header or a call was refused, and where: number, line (from 1) and the byte at which the line begins, both 0 where the refusal
    is of no line."""

    def __init__(self, number: int, line: int = 0, start: int = 0):
        place = f"line {line}, byte {start}: " if line else ""
        super().__init__(f"{place}{MESSAGES[number]} (refusal {number})")
        self.number, self.line, self.start = number, line, start


# What may be given


def _bytes(data: Bytes) -> bytes:
    if isinstance(data, (str, os.PathLike)):
        raise TypeError(f"bytes are needed, not {type(data).__name__}; for a file there is header_of(pathlib.Path(...)), or Header.from_vcf")
    try:
        return memoryview(data).tobytes()
    except TypeError:
        raise TypeError(f"bytes are needed, not {type(data).__name__}") from None


def _name(name: Name) -> bytes:
    return name.encode() if isinstance(name, str) else _bytes(name)


def _version(version: Optional[Version]) -> Tuple[int, int, int]:
    """Whether a version is imposed, and which."""
    if version is None:
        return 0, 0, 0
    if not isinstance(version, tuple) or len(version) != 2 or not all(isinstance(part, int) for part in version):
        raise TypeError(f"a version is a pair of numbers such as (4, 3), or None, not {version!r}")
    if not all(0 <= part < 2**32 for part in version):
        raise ValueError(f"the numbers of a version are from 0 to 4294967295, not {version!r}")
    return 1, version[0], version[1]


def _form(form: int) -> int:
    if form not in (FIRST, SECOND):
        raise ValueError("the form is neither FIRST nor SECOND")
    return form


def _kind(kind: str) -> int:
    if kind not in KINDS:
        raise ValueError(f"no kind is {kind!r}; the kinds are {', '.join(KINDS)}")
    return KINDS.index(kind) + 1


# Reading


def _accepted(answer):
    """The answer, unless it is a refusal; a call on a table names no place."""
    if answer.number:
        raise Refused(answer.number, getattr(answer, "line", 0), getattr(answer, "start", 0))
    return answer


def _answered(call, data: bytes, version: Optional[Version], form: int, *more):
    """The answer of a call that reads the header, accepted or refused, the table and its size."""
    # each line and each tab gives one entry at most
    words = _WORDS[_form(form)] * (data.count(b"\n") + data.count(b"\t") + 1)
    table = (ctypes.c_uint64 * words)()
    return call(data, len(data), *_version(version), form, table, words, *more), table, words


def _called(call, data: bytes, version: Optional[Version], form: int, *more):
    answer, table, words = _answered(call, data, version, form, *more)
    return _accepted(answer), table, words


def header_end(data: Bytes) -> int:
    """Where the header of a whole VCF ends: past its column line, or after all bytes where it has none."""
    data = _bytes(data)
    return _vcfh.vcfh_header_end(data, len(data))


def _header_in(stream: BinaryIO) -> bytes:
    """What a stream has up to and with the column line; no more than a byte past the longest header is kept."""
    data, size = b"", 1 << 16
    while True:
        more = stream.read(size)
        data += more
        end = header_end(data)
        if end < len(data) or not more or len(data) > MAX_LENGTH[SECOND]:
            return data[:end]
        size = len(data)


def header_of(source: Union[Bytes, os.PathLike]) -> bytes:
    """The header of a whole VCF, packed by gzip or not: its bytes, or the path of a file, of which no more is read than that."""
    if isinstance(source, os.PathLike):
        with open(source, "rb") as file:
            return _unpacked(file)
    return _unpacked(io.BytesIO(_bytes(source)))


def _unpacked(file: BinaryIO) -> bytes:
    packed = file.read(2) == b"\x1f\x8b"
    file.seek(0)
    return _header_in(gzip.GzipFile(fileobj=file)) if packed else _header_in(file)


class Entry:
    """An entry of a header. Its fields are had by their keys: entry["K"], entry.get("K"), "K" in entry."""

    def __init__(self, header: Header, number: int):
        self._header, self.number = header, number
        self._told = header._call(_vcfh.vcfh_describe, number)

    @property
    def kind(self) -> str:
        """One of KINDS."""
        return KINDS[self._told.kind - 1]

    @property
    def line(self) -> str:
        """The line without its ending, or the sample's name."""
        return self._header._text(self._told.start, self._told.length)

    @property
    def key(self) -> Optional[str]:
        """What stands after ##; None of the column line and of samples."""
        return self._header._text(self._told.key_start, self._told.key_length) or None

    @property
    def id(self) -> Optional[str]:
        """What the ID means, without quotes and escapes; None where the entry is no map."""
        return self._header._meaning(self._told.id_start, self._told.id_length, self._told.quoted) if self._told.has_id else None

    @property
    def quoted(self) -> bool:
        """Whether the ID stands between quotes."""
        return bool(self._told.quoted)

    @functools.cached_property
    def fields(self) -> Dict[str, str]:
        """The fields of a map in their order, by key, with what their values mean; none where the entry is no map."""
        return {field.key: field.value for field in self._fields()}

    @property
    def written(self) -> List[str]:
        """The fields as they are written, each from its key through its value with its quotes."""
        return [self._header._text(part.start, part.length) for part in self._header._numbered(_vcfh.vcfh_field, self.number)]

    def get(self, key: Name, default: Optional[str] = None) -> Optional[str]:
        """What the value of the field with this key means, or the default where there is none."""
        name = _name(key)
        value = self._header._call(_vcfh.vcfh_value, self.number, *self._header.version, name, len(name))
        return default if value.number else self._header._meaning(value.start, value.length, value.quoted)

    def __getitem__(self, key: Name) -> str:
        value = self.get(key)
        if value is None:
            raise KeyError(key)
        return value

    def __contains__(self, key: Name) -> bool:
        return self.get(key) is not None

    def __eq__(self, other: object) -> bool:
        return isinstance(other, Entry) and (self.number, self.kind, self.line) == (other.number, other.kind, other.line)

    def __hash__(self) -> int:
        return hash((self.number, self.line))

    def __repr__(self) -> str:
        return f"Entry({self.number}, {self.kind!r}, {self.line!r})"

    def _fields(self) -> Iterator[Field]:
        for part in self._header._numbered(_vcfh.vcfh_field_parts, self.number):
            yield Field(self._header._text(part.key_start, part.key_length), self._header._meaning(part.start, part.length, part.quoted), bool(part.quoted))


class Field(NamedTuple):
    """A field: its key, what its value means, and whether that stands between quotes."""

    key: str
    value: str
    quoted: bool


class Header:
    """An accepted header: entries in order, one for each line, then one for each sample. header[n], header[-1] and header[2:5] are entries
    by number, and header["cell", "W07"] is the entry under a key and an ID."""

    def __init__(self, data: Bytes, version: Optional[Version] = None, *, form: int = FIRST):
        """Reads the bytes of a header, by the version given, such as (4, 3), or else by their own, within the limits of the form."""
        self.bytes, self.form = _bytes(data), form
        answer, self._table, _ = _called(_vcfh.vcfh_read, self.bytes, version, form)
        self.lines, self._entries, self._samples = answer.line, answer.entries, answer.samples
        self.version: Version = (answer.major, answer.minor)

    @classmethod
    def from_vcf(cls, source: Union[Bytes, os.PathLike], version: Optional[Version] = None, *, form: int = FIRST) -> Header:
        """Reads the header of a whole VCF, packed by gzip or not: its bytes, or the path of a file, of which no more is read than that."""
        return cls(header_of(source), version, form=form)

    @property
    def samples(self) -> List[str]:
        """The names of the samples, in order."""
        return [self[n].line for n in range(self._entries - self._samples, self._entries)]

    def find(self, key: Name, identity: Name) -> Optional[Entry]:
        """The entry under this key whose ID means this, or None."""
        key, identity = _name(key), _name(identity)
        found = self._call(_vcfh.vcfh_find_entry, key, len(key), identity, len(identity))
        return None if found.number else Entry(self, found.entry)

    def value(self, key: Name, identity: Name, field: Name) -> Optional[str]:
        """What the value of a field of that entry means, or None where there is no such entry or field."""
        names = [part for name in (key, identity, field) for part in (_name(name), len(_name(name)))]
        place = self._call(_vcfh.vcfh_find_value, *self.version, *names)
        out = ctypes.create_string_buffer(place.length)
        meant = self._call(_vcfh.vcfh_find_text, *self.version, *names, out, place.length)
        return None if meant.number else out.raw[: meant.length].decode()

    def __len__(self) -> int:
        return self._entries

    def __iter__(self) -> Iterator[Entry]:
        return (Entry(self, number) for number in range(self._entries))

    @overload
    def __getitem__(self, which: Union[int, Tuple[Name, Name]]) -> Entry: ...

    @overload
    def __getitem__(self, which: slice) -> List[Entry]: ...

    def __getitem__(self, which):
        if isinstance(which, slice):
            return [Entry(self, number) for number in range(self._entries)[which]]
        if isinstance(which, tuple) and len(which) == 2:
            entry = self.find(*which)
            if entry is None:
                raise KeyError(which)
            return entry
        if not isinstance(which, int):
            raise TypeError(f"an entry is had by its number or by (key, ID), not by {which!r}")
        try:
            return Entry(self, range(self._entries)[which])
        except IndexError:
            raise IndexError(f"entry {which} of {self._entries}") from None

    def __contains__(self, which: Tuple[Name, Name]) -> bool:
        return self.find(*which) is not None

    def __repr__(self) -> str:
        return f"<Header: version {self.version[0]}.{self.version[1]}, {self._entries} entries, {self._samples} samples>"

    def odd(self) -> List[int]:
        """The numbers of the entries that carry a Number, IDX or length with a sign or a leading zero, such as +5 or 007."""
        room = max(self._entries, 1)
        listed = (ctypes.c_uint64 * room)()
        return list(listed[: _accepted(self._call(_vcfh.vcfh_odd, *self.version, listed, room)).listed])

    def index(self, places: Optional[int] = None) -> Index:
        """An index of the IDs, of so many places, or else of twice as many as entries; Refused, with number 33, where these are too few."""
        return Index(self, 2 * self._entries if places is None else places)

    def to_form(self, form: int) -> Header:
        """This header with its entries stored in the form given; Refused, with number 32, where one does not fit the first form."""
        if _form(form) == self.form:
            return self
        source, words = _WORDS[self.form] * self._entries, _WORDS[form] * self._entries
        table = (ctypes.c_uint64 * words)()
        read = (self.bytes, len(self.bytes), self._table, source)
        if form == SECOND:
            _accepted(_vcfh.vcfh_to_second(*read, *self.version, table, words))
        else:
            _accepted(_vcfh.vcfh_to_first(*read, table, words))
        return self._like(self.bytes, form, table, self.lines, self._entries, self._samples, self.version)

    def counted(self, number: int) -> Optional[Tuple[str, int]]:
        """The key of an entry and how many fields it has, without reading its line; None in the first form, and of the column line and samples."""
        found = self._call(_vcfh.vcfh_key, number)
        return None if found.number else (self._text(found.start, found.length), found.fields)

    @classmethod
    def _like(cls, data: bytes, form: int, table, lines: int, entries: int, samples: int, version: Version) -> Header:
        """A header that was read already."""
        header = cls.__new__(cls)
        header.bytes, header.form, header._table, header.lines = data, form, table, lines
        header._entries, header._samples, header.version = entries, samples, version
        return header

    def _call(self, call, *more):
        """A call on the entries."""
        return call(self.bytes, len(self.bytes), self._table, _WORDS[self.form] * self._entries, self.form, *more)

    def _numbered(self, call, entry: int) -> Iterator:
        """The answers of a call for field 0, 1 and so on of an entry, up to the last."""
        number = 0
        while True:
            answer = self._call(call, entry, *self.version, number)
            if answer.number:
                return
            yield answer
            number += 1

    def _text(self, start: int, length: int) -> str:
        # every line of an accepted header is UTF-8
        return self.bytes[start : start + length].decode()

    def _meaning(self, start: int, length: int, quoted: int) -> str:
        text, out = self.bytes[start : start + length], ctypes.create_string_buffer(length)
        meant = _accepted(_vcfh.vcfh_meaning(text, length, quoted, out, length))
        return out.raw[: meant.length].decode()


class Index:
    """An index of a header's INFO, FILTER, FORMAT, ALT and contig IDs, by which one is found without walking over all entries."""

    def __init__(self, header: Header, places: int):
        self._header, self._places = header, places
        self._index = (ctypes.c_uint32 * max(places, 1))()
        _accepted(header._call(_vcfh.vcfh_build_index, self._index, places))

    def find(self, kind: str, identity: Name) -> Tuple[Optional[int], int]:
        """The number of the first entry of this kind (one of KINDS) whose ID means this, or None; and how many places were looked at."""
        identity = _name(identity)
        answer = self._header._call(_vcfh.vcfh_find, self._index, self._places, _kind(kind), identity, len(identity))
        return (answer.entry if answer.found else None), answer.looked


class Feed:
    """A header that comes in pieces: `feed` each, then `close`. A line is read when its LF is there, and Refused is raised as soon as one
    is refused, and by every later call."""

    def __init__(self, version: Optional[Version] = None, *, form: int = FIRST):
        """The header is read by the version given, such as (4, 3), or else by its own, within the limits of the form."""
        self.form = _form(form)
        self._state = _vcfh.vcfh_feed_start(*_version(version))
        self._buffer, self._table, self._ends = ctypes.create_string_buffer(4096), (ctypes.c_uint64 * 64)(), 0

    def feed(self, data: Bytes) -> Tuple[int, int, int]:
        """Takes some bytes more; answers how many lines, bytes and entries there are so far."""
        data = _bytes(data)
        self._make_room(data)
        return self._answered(_vcfh.vcfh_feed(self._state, data, len(data), self.form, self._buffer, len(self._buffer), self._table, len(self._table)))

    def close(self) -> Header:
        """The accepted header, once all of it was fed."""
        lines, length, entries = self._answered(_vcfh.vcfh_close(self._state, self.form, self._buffer, len(self._buffer), self._table, len(self._table)))
        version = (self._state.major, self._state.minor)
        return Header._like(self._buffer.raw[:length], self.form, self._table, lines, entries, self._state.samples, version)

    def _make_room(self, data: bytes) -> None:
        size = min(self._state.held + len(data), MAX_LENGTH[self.form])
        if size > len(self._buffer):
            larger = ctypes.create_string_buffer(2 * size)
            ctypes.memmove(larger, self._buffer, self._state.held)
            self._buffer = larger
        # each line and each tab gives one entry at most
        self._ends += data.count(b"\n") + data.count(b"\t")
        words = _WORDS[self.form] * (self._ends + 1)
        if words > len(self._table):
            larger = (ctypes.c_uint64 * (2 * words))()
            ctypes.memmove(larger, self._table, 8 * _WORDS[self.form] * self._state.kept)
            self._table = larger

    def _answered(self, answer) -> Tuple[int, int, int]:
        self._state = answer.state
        _accepted(answer)
        return answer.line, answer.start, answer.entries


def house_form(data: Bytes, version: Optional[Version] = None, *, form: int = FIRST) -> bytes:
    """The house form of a header: the one form of all headers with the same meaning. `form` is that of the entries, and sets the limits."""
    data = _bytes(data)
    # quotes and escapes at most double a line
    space = min(2 * len(data), MAX_LENGTH[_form(form)])
    out = ctypes.create_string_buffer(space)
    answer, _, _ = _called(_vcfh.vcfh_house, data, version, form, out, space)
    return out.raw[: answer.length]


class Register:
    """The cell register of a probe header: the constants of W01 to W40 in whole hundredths, in well order."""

    def __init__(self, data: Bytes, version: Optional[Version] = None, *, form: int = FIRST):
        """Reads the bytes by the version given, such as (4, 3), or else by their own, within the limits of the form."""
        self._answer, _, _ = _called(_vcfh.vcfh_register, _bytes(data), version, form)
        self.constants: Tuple[int, ...] = tuple(self._answer.constants)

    def compare(self, new: Register) -> List[Tuple[int, int, int]]:
        """The wells in which another register differs, lowest first: (well, this one's number, the other's)."""
        found = _vcfh.vcfh_compare(self._answer, new._answer)
        return [(found.wells[i], found.old[i], found.new[i]) for i in range(found.count)]


def dictionaries(data: Bytes, version: Optional[Version] = None, *, form: int = FIRST) -> Tuple[List[Tuple[int, int]], List[Tuple[int, int]]]:
    """The two dictionaries of BCF, strings and contigs: each a list of (entry number, ID number), for each ID at its first line."""
    data = _bytes(data)
    words = 2 * (data.count(b"\n") + 1)
    slices = [(ctypes.c_uint64 * words)() for _ in range(2)]
    answer, _, _ = _called(_vcfh.vcfh_dictionaries, data, version, form, slices[0], words, slices[1], words)
    strings, contigs_ = ([(pairs[2 * n], pairs[2 * n + 1]) for n in range(count)] for pairs, count in zip(slices, (answer.strings, answer.contigs)))
    return strings, contigs_


def contigs(sam: Bytes) -> bytes:
    """The contig lines of the header of an alignment file, in house form: one for each @SQ line, with ID, length, md5 and URL."""
    sam = _bytes(sam)
    # escapes at most double a value, and what stands around the values of a line has less than 40 bytes
    space = 2 * len(sam) + 40 * (sam.count(b"\n") + 1)
    out = ctypes.create_string_buffer(space)
    answer = _accepted(_vcfh.vcfh_contigs(sam, len(sam), out, space))
    return out.raw[: answer.length]


class Season:
    """The sheet of a season: totals over the headers that were added, which are the same in whatever order they were."""

    def __init__(self) -> None:
        self._sheet = _Sheet()

    def add(self, data: Bytes, version: Optional[Version] = None, *, form: int = FIRST) -> Optional[Refused]:
        """Counts a header, by the version given or else its own: why it is refused, or None where it is accepted. Raises Refused, with
        number 30, and counts nothing where a total would be larger than 64 bits hold."""
        answer, _, _ = _answered(_vcfh.vcfh_season_add, _bytes(data), version, form, self._sheet)
        if answer.number == 30:
            _accepted(answer)
        self._sheet = answer.sheet
        return Refused(answer.number, answer.line, answer.start) if answer.number else None

    def merge(self, other: Season) -> None:
        """Adds the totals of another sheet; raises Refused so where one would be too large."""
        self._sheet = _accepted(_vcfh.vcfh_season_merge(self._sheet, other._sheet)).sheet

    @property
    def read(self) -> int:
        """How many headers were read."""
        return self._sheet.totals[0]

    @property
    def accepted(self) -> int:
        """How many of them were accepted."""
        return self._sheet.totals[1]

    @property
    def refused(self) -> Dict[int, int]:
        """How many were refused, by number, of the numbers that came."""
        return {n: self._sheet.totals[1 + n] for n in range(1, 28) if self._sheet.totals[1 + n]}

    @property
    def entries(self) -> Dict[str, int]:
        """How many entries of each of KINDS the accepted headers have."""
        return {kind: self._sheet.totals[29 + n] for n, kind in enumerate(KINDS)}


def house_difference(data: Bytes, version: Optional[Version] = None, *, form: int = FIRST) -> Optional[int]:
    """The first place where a header and its house form differ, or the shorter one's length; None if the header is its house form."""
    answer, _, _ = _called(_vcfh.vcfh_is_house, _bytes(data), version, form)
    return None if answer.house else answer.differs


def is_house(data: Bytes, version: Optional[Version] = None, *, form: int = FIRST) -> bool:
    """Whether a header is its own house form, told without writing that form."""
    return house_difference(data, version, form=form) is None


def is_utf8(data: Bytes) -> bool:
    """Whether the bytes are UTF-8."""
    data = _bytes(data)
    return _vcfh.vcfh_utf8(data, len(data)) == 1

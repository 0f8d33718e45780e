"""The library through ctypes: python3 -m unittest"""
import doctest
import gzip
import os
import pathlib
import subprocess
import sys
import tempfile
import unittest

import vcfh

COLUMNS = b"#CHROM\tPOS\tID\tREF\tALT\tQUAL\tFILTER\tINFO"
PROBE = b"##fileformat=VCFv4.3\n##cell=<ID=W07,K=0.98>\n" + COLUMNS + b"\n"
TWICE = b'##fileformat=VCFv4.3\n##FILTER=<ID=q,Description=x>\n##FILTER=<ID="q",Description=x>\n'


def plate(constant):
    """A probe header whose well w has the constant that the function gives for w."""
    cells = b"".join(b"##cell=<ID=W%02d,K=%s>\n" % (w, constant(w)) for w in range(1, 41))
    return b"##fileformat=VCFv4.3\n" + cells + COLUMNS + b"\n"


def long_line(length):
    """The probe header with a text line of so many bytes before the column line."""
    return PROBE.replace(COLUMNS, b"##a=".ljust(length, b"x") + b"\n" + COLUMNS)


def refused(call, *arguments, **named):
    """The refusal that a call raises."""
    try:
        call(*arguments, **named)
    except vcfh.Refused as refusal:
        return refusal
    raise AssertionError("not refused")


def shown(header):
    """All that a header shows of its entries."""
    return [(entry.number, entry.kind, entry.line, entry.key, entry.id, entry.quoted, entry.fields, entry.written) for entry in header]


class Names(unittest.TestCase):
    """Entries, fields and values by name; expected values are read off the lines."""

    HEADER = b"""##fileformat=VCFv4.3
##b=text
##c=<K=1,L="2,\\"3\\\\",ID="a\\"b">
##c=<ID="x",K="">
##c=<ID=\xc3\xa9\\,K=\\">
""" + COLUMNS + b"\tFORMAT\ts1\t##s2"

    def headers(self):
        return [vcfh.Header(self.HEADER, form=form) for form in (vcfh.FIRST, vcfh.SECOND)]

    def test_entries_tell_key_id_and_quotes(self):
        for header in self.headers():
            told = [(entry.kind, entry.key, entry.id, entry.quoted) for entry in header]
            wanted = [("fileformat", "fileformat", None, False), ("other text", "b", None, False), ("other map", "c", 'a"b', True)]
            wanted += [("other map", "c", "x", True), ("other map", "c", "\u00e9\\", False), ("columns", None, None, False)]
            self.assertEqual(told, wanted + 2 * [("sample", None, None, False)])
            self.assertEqual((header.samples, header.version, header.lines), (["s1", "##s2"], (4, 3), 6))

    def test_fields_are_had_by_their_keys(self):
        for header in self.headers():
            entry = header["c", 'a"b']
            self.assertEqual((entry.number, entry["K"], entry["L"], entry[b"ID"], entry.get("M"), entry.get("M", "-")), (2, "1", '2,"3\\', 'a"b', None, "-"))
            self.assertEqual(("K" in entry, "k" in entry, entry.fields), (True, False, {"K": "1", "L": '2,"3\\', "ID": 'a"b'}))
            self.assertEqual((header["c", "x"]["K"], header["c", "\u00e9\\"]["K"]), ("", '\\"'))
            with self.assertRaisesRegex(KeyError, "M"):
                entry["M"]
            with self.assertRaises(KeyError):
                header[1]["K"]

    def test_values_are_had_by_key_id_and_field(self):
        for header in self.headers():
            asked = [("c", 'a"b', "L"), (b"c", b"x", b"K"), ("c", "x", "L"), ("c", "y", "K"), ("b", "", "K"), ("d", "x", "K"), ("c", 'a\\"b', "K")]
            self.assertEqual([header.value(*names) for names in asked], ['2,"3\\', "", None, None, None, None, None])
            self.assertEqual([(key, name) in header for key, name, _ in asked], [True, True, True, False, False, False, False])
            self.assertEqual(([header.find("c", "x").number, header.find("c", "y")]), [3, None])
            with self.assertRaisesRegex(KeyError, "'c', 'y'"):
                header["c", "y"]

    def test_entries_are_had_by_number(self):
        for header in self.headers():
            self.assertEqual([header[n].number for n in (0, 7, -1, -8)], [0, 7, 7, 0])
            self.assertEqual([[entry.number for entry in header[part]] for part in (slice(1, 3), slice(-2, None), slice(None, None, 3), slice(9, 12))], [[1, 2], [6, 7], [0, 3, 6], []])
            for n in (8, -9, 2**64):
                with self.assertRaisesRegex(IndexError, "of 8"):
                    header[n]
            for which in ("c", 1.0, ("c",), None):
                with self.assertRaisesRegex(TypeError, "by its number or by"):
                    header[which]

    def test_entries_of_one_header_are_equal(self):
        first, second = self.headers()
        self.assertEqual((first[2], list(first), hash(first[2])), (second[2], list(second), hash(second[2])))
        self.assertNotEqual(first[2], first[3])
        self.assertEqual(repr(first[1]), "Entry(1, 'other text', '##b=text')")
        self.assertEqual(repr(first), "<Header: version 4.3, 8 entries, 2 samples>")


class Sources(unittest.TestCase):
    """What may be given, and what is said where it may not."""

    VCF = PROBE + b"chr1\t1\t.\tA\tC\t.\t.\t.\n#CHROM\n"

    def test_the_header_of_a_whole_vcf_is_read(self):
        self.assertEqual((vcfh.header_end(self.VCF), vcfh.header_of(self.VCF), vcfh.header_of(bytearray(gzip.compress(self.VCF)))), (len(PROBE), PROBE, PROBE))
        self.assertEqual(vcfh.Header.from_vcf(memoryview(self.VCF))["cell", "W07"]["K"], "0.98")
        self.assertEqual(refused(vcfh.Header, self.VCF).number, 1)
        self.assertEqual((vcfh.header_end(b""), vcfh.header_end(b"x\ny"), vcfh.header_of(b"x\ny")), (0, 3, b"x\ny"))

    def test_a_path_may_be_given(self):
        with tempfile.TemporaryDirectory() as folder:
            for name, data in (("a.vcf", self.VCF), ("b.vcf.gz", gzip.compress(self.VCF[:50]) + gzip.compress(self.VCF[50:])), ("c.vcf", long_line(300000) + b"x\n")):
                path = pathlib.Path(folder, name)
                path.write_bytes(data)
                header = vcfh.Header.from_vcf(path, (4, 4), form=vcfh.SECOND)
                self.assertEqual((header.version, header.form, header["cell", "W07"]["K"]), ((4, 4), vcfh.SECOND, "0.98"))
            with self.assertRaises(FileNotFoundError):
                vcfh.Header.from_vcf(pathlib.Path(folder, "none"))
            endless = pathlib.Path(folder, "endless")
            endless.write_bytes(b"##a=" + b"x" * (vcfh.MAX_LENGTH[vcfh.SECOND] * 2))
            self.assertEqual(refused(vcfh.Header.from_vcf, endless, form=vcfh.SECOND).number, 27)

    def test_text_is_not_taken_for_bytes(self):
        calls = [vcfh.Header, vcfh.Header.from_vcf, vcfh.house_form, vcfh.Register, vcfh.dictionaries, vcfh.is_house, vcfh.contigs, vcfh.is_utf8, vcfh.header_end]
        calls += [vcfh.header_of, vcfh.Season().add, vcfh.Feed().feed, vcfh.house_difference]
        for call in calls:
            with self.assertRaisesRegex(TypeError, "bytes are needed, not str"):
                call("##fileformat=VCFv4.3")
            with self.assertRaisesRegex(TypeError, "bytes are needed, not int"):
                call(7)

    def test_a_bad_version_is_named(self):
        for call in (vcfh.Header, vcfh.house_form, vcfh.Register, vcfh.dictionaries, vcfh.is_house, vcfh.Season().add, lambda data, version: vcfh.Feed(version)):
            for version in ("4.3", 4.3, (4,), (4, "3"), [4, 3], (4, 3, 0)):
                with self.assertRaisesRegex(TypeError, r"such as \(4, 3\)"):
                    call(PROBE, version)
            for version in ((-1, 3), (4, 2**32)):
                with self.assertRaisesRegex(ValueError, "from 0 to 4294967295"):
                    call(PROBE, version)

    def test_a_bad_kind_is_named(self):
        with self.assertRaisesRegex(ValueError, "no kind is 'CONTIG'"):
            vcfh.Header(PROBE).index().find("CONTIG", "x")

    def test_a_missing_library_is_named(self):
        run = subprocess.run([sys.executable, "-c", "import vcfh"], cwd=pathlib.Path(vcfh.__file__).parent, env={**os.environ, "VCFH_LIBRARY": "/no/libvcfh.so"}, capture_output=True, text=True)
        self.assertIn("no libvcfh.so of this version in /no/libvcfh.so: run bindings/build", run.stderr)

    def test_the_words_of_the_module_are_true(self):
        self.assertEqual(doctest.testmod(vcfh).failed, 0)


class Seasons(unittest.TestCase):
    def totals(self, season):
        return season.read, season.accepted, season.refused, {kind: n for kind, n in season.entries.items() if n}

    def test_headers_are_counted_in_whatever_order(self):
        one, other = vcfh.Season(), vcfh.Season()
        headers = [(PROBE, vcfh.FIRST), (TWICE, vcfh.SECOND), (b"", vcfh.FIRST), (PROBE, vcfh.SECOND)]
        refusals = [one.add(header, form=form) for header, form in headers]
        self.assertEqual([refusal and (refusal.number, refusal.line, refusal.start) for refusal in refusals], [None, (19, 3, 51), (25, 0, 0), None])
        for header, form in reversed(headers):
            other.add(header, form=form)
        self.assertEqual(self.totals(one), (4, 2, {19: 1, 25: 1}, {"fileformat": 2, "other map": 2, "columns": 2}))
        self.assertEqual(self.totals(other), self.totals(one))

    def test_each_header_has_its_own_version(self):
        season = vcfh.Season()
        header = PROBE.replace(b"ID=W07,K=0.98", b"K=0.98")
        self.assertIsNone(season.add(header, (4, 2)))
        self.assertEqual(season.add(header).number, 14)
        self.assertEqual(self.totals(season), (2, 1, {14: 1}, {"fileformat": 1, "other text": 1, "columns": 1}))

    def test_nothing_is_counted_where_a_total_would_be_too_large(self):
        season, power = vcfh.Season(), vcfh.Season()
        power.add(PROBE)
        for _ in range(63):
            season.merge(power)
            power.merge(power)
        season.merge(power)
        self.assertEqual((season.read, season.entries["columns"]), (2**64 - 1, 2**64 - 1))
        for call, argument in ((season.merge, power), (season.add, PROBE), (season.add, b"")):
            refusal = refused(call, argument)
            self.assertEqual((refusal.number, refusal.line, refusal.start), (30, 0, 0))
            self.assertEqual((season.read, season.accepted, season.refused), (2**64 - 1, 2**64 - 1, {}))


class Cells(unittest.TestCase):
    def test_a_register_has_forty_constants(self):
        register = vcfh.Register(plate(lambda w: b"0.98" if w == 7 else b"1.00"))
        self.assertEqual(register.constants, tuple(98 if w == 7 else 100 for w in range(1, 41)))

    def test_wells_that_differ_are_listed_with_both_numbers(self):
        old, new = vcfh.Register(plate(lambda w: b"1.00")), vcfh.Register(plate(lambda w: b"2.00" if w in (3, 40) else b"1.00"))
        self.assertEqual(old.compare(new), [(3, 100, 200), (40, 100, 200)])
        self.assertEqual(old.compare(old), [])

    def test_a_factory_line_is_refused_and_so_is_a_missing_well(self):
        header = plate(lambda w: b"1.00")
        for data, number, line in (
            (header.replace(COLUMNS, b'##cell=<ID="W07",K=1.00>\n' + COLUMNS), 21, 42),
            (header.replace(b"VCFv4.3", b"VCFv4.2"), 37, 0),
            (header.replace(b"W07", b"w07"), 38, 8),
            (PROBE, 39, 0),
            (header.replace(b"W07,K=1.00", b"W07,K=2.01"), 40, 8),
        ):
            refusal = refused(vcfh.Register, data)
            self.assertEqual((refusal.number, refusal.line), (number, line))


class Reading(unittest.TestCase):
    def test_the_probe_header_has_three_entries(self):
        header = vcfh.Header(PROBE)
        self.assertEqual([entry.kind for entry in header], ["fileformat", "other map", "columns"])
        self.assertEqual((header[1].id, header[1].line, header[1].key), ("W07", "##cell=<ID=W07,K=0.98>", "cell"))
        self.assertEqual((header[2].id, header.lines, len(header)), (None, 3, 3))

    def test_fields_are_shown_as_written(self):
        header = vcfh.Header(b'##fileformat=VCFv4.3\n##cell=<K="0,98",ID=W07>\n' + COLUMNS + b"\n")
        self.assertEqual((header[1].written, header[2].written, header.version), (['K="0,98"', "ID=W07"], [], (4, 3)))
        self.assertEqual((header[1].fields, header[2].fields), ({"K": "0,98", "ID": "W07"}, {}))

    def test_entries_with_oddly_spelled_numbers_are_listed(self):
        lines = b"##contig=<ID=a,length=007>\n##contig=<ID=b,length=7>\n##contig=<ID=c,IDX=+5>\n"
        self.assertEqual(vcfh.Header(b"##fileformat=VCFv4.3\n" + lines + COLUMNS).odd(), [1, 3])
        self.assertEqual(vcfh.Header(PROBE).odd(), [])

    def test_headers_of_one_meaning_have_one_house_form(self):
        self.assertEqual(vcfh.house_form(PROBE.replace(b"<ID=W07,K=0.98>", b'<K="0.98",ID="W07">')), PROBE)
        self.assertEqual(refused(vcfh.house_form, b"").number, 25)

    def test_a_header_is_its_house_form_or_differs_somewhere(self):
        quoted = PROBE.replace(b"<ID=W07,K=0.98>", b'<K="0.98",ID="W07">')
        for form in (vcfh.FIRST, vcfh.SECOND):
            self.assertEqual([vcfh.is_house(data, form=form) for data in (PROBE, quoted)], [True, False])
            self.assertEqual([vcfh.house_difference(data, form=form) for data in (PROBE, quoted, PROBE[:-1])], [None, 29, len(PROBE) - 1])
            self.assertEqual(vcfh.house_difference(PROBE, (4, 2), form=form), 19)
        self.assertEqual((refused(vcfh.is_house, b"").number, refused(vcfh.house_difference, TWICE).line), (25, 3))

    def test_dictionaries_number_strings_and_contigs(self):
        lines = b"##FILTER=<ID=q,Description=x>\n##contig=<ID=c>\n##FORMAT=<ID=q,Number=1,Type=String,Description=x>\n##FILTER=<ID=PASS,Description=x>\n"
        self.assertEqual(vcfh.dictionaries(b"##fileformat=VCFv4.3\n" + lines + COLUMNS), ([(1, 1), (4, 0)], [(2, 0)]))
        refusal = refused(vcfh.dictionaries, b"##fileformat=VCFv4.3\n##contig=<ID=a,IDX=1>\n##contig=<ID=b>\n" + COLUMNS)
        self.assertEqual((refusal.number, refusal.line), (34, 0))

    def test_contigs_are_written_of_an_alignment_header(self):
        sam = b'@HD\tVN:1.6\n@SQ\tSN:a,b\tLN:07\n@SQ\tUR:u\tLN:2\tM5:"\tSN:c\r\n'
        lines = b'##contig=<ID="a,b",length=7>\n##contig=<ID=c,length=2,md5="\\"",URL=u>\n'
        self.assertEqual(vcfh.contigs(sam), lines)
        self.assertEqual([entry.kind for entry in vcfh.Header(b"##fileformat=VCFv4.5\n" + lines + COLUMNS)][1:3], ["contig", "contig"])
        self.assertEqual(vcfh.contigs(b""), b"")
        refusal = refused(vcfh.contigs, sam + b"@SQ\tSN:c\tLN:1\n")
        self.assertEqual((refusal.number, refusal.line, refusal.start), (43, 4, len(sam)))

    def test_samples_follow_the_column_line(self):
        header = vcfh.Header(b"##fileformat=VCFv4.3\n" + COLUMNS + b"\tFORMAT\tNA1\t\tNA2")
        self.assertEqual([entry.line for entry in header if entry.kind == "sample"], ["NA1", "", "NA2"])
        self.assertEqual((header.samples, vcfh.Header(PROBE).samples), (["NA1", "", "NA2"], []))

    def test_a_second_equal_id_is_refused_with_its_place_and_words(self):
        refusal = refused(vcfh.Header, TWICE)
        self.assertEqual((refusal.number, refusal.line, refusal.start), (19, 3, 51))
        self.assertEqual(str(refusal), "line 3, byte 51: the ID appears twice among the lines of its kind (refusal 19)")

    def test_an_empty_header_is_refused(self):
        self.assertEqual(refused(vcfh.Header, b"").number, 25)

    def test_the_version_imposed_is_the_one_in_force(self):
        meta = b"##fileformat=VCFv4.3\n##META=<ID=x,Values=[a,b]>\n" + COLUMNS + b"\n"
        self.assertEqual(len(vcfh.Header(meta)), 3)
        self.assertEqual(refused(vcfh.Header, meta, (4, 2)).number, 9)

    def test_major_and_minor_of_the_version_imposed_are_told_apart(self):
        meta = b"##fileformat=VCFv4.2\n##META=<ID=x,Values=[a,b]>\n" + COLUMNS + b"\n"
        self.assertEqual(len(vcfh.Header(meta, (4, 3))), 3)
        self.assertEqual([refused(vcfh.Header, meta, version).number for version in (None, (3, 4))], [9, 9])
        self.assertEqual(vcfh.house_form(meta, (4, 3)), meta.replace(b"4.2", b"4.3"))
        self.assertEqual(vcfh.Header(meta, (4, 3))[1].fields, {"ID": "x", "Values": "[a,b]"})

    def test_a_refused_house_form_has_its_line_and_start(self):
        refusal = refused(vcfh.house_form, TWICE)
        self.assertEqual((refusal.number, refusal.line, refusal.start), (19, 3, 51))

    def test_entry_and_field_are_told_apart(self):
        header = vcfh.Header(b'##fileformat=VCFv4.3\n##b=text\n##c=<K=1,L="2,3",ID="W07">\n' + COLUMNS + b"\n")
        self.assertEqual([entry.written for entry in header], [[], [], ["K=1", 'L="2,3"', 'ID="W07"'], []])

    def test_every_number_has_its_own_words(self):
        self.assertEqual(sorted(vcfh.MESSAGES), [*range(1, 44)])
        self.assertEqual(len(set(vcfh.MESSAGES.values())), len(vcfh.MESSAGES))

    def test_utf8_is_told_from_other_bytes(self):
        self.assertEqual([vcfh.is_utf8(data) for data in (b"", "Grüße".encode(), b"\xc0\x80", b"\xed\xa0\x80")], [True, True, False, False])


class Indexes(unittest.TestCase):
    LINES = b'##FILTER=<ID=x,Description=d>\n##cell=<ID=x>\n##contig=<ID="a\\"b">\n##contig=<ID=x>\n'
    HEADER = b"##fileformat=VCFv4.3\n" + LINES + COLUMNS + b"\n"

    def test_ids_are_found_by_kind_and_meaning(self):
        for form in (vcfh.FIRST, vcfh.SECOND):
            index = vcfh.Header(self.HEADER, form=form).index()
            asked = [("FILTER", b"x"), ("contig", b"x"), ("contig", b'a"b'), ("contig", b'a\\"b'), ("INFO", b"x"), ("contig", b"")]
            self.assertEqual([index.find(*words)[0] for words in asked], [1, 4, 3, None, None, None])
            self.assertEqual(index.find("other map", b"x"), (None, 0))

    def test_places_are_counted(self):
        header = vcfh.Header(self.HEADER)
        self.assertEqual(header.index(3).find("contig", b"y"), (None, 3))
        self.assertEqual(header.index(64).find("FILTER", b"x"), (1, 1))
        self.assertEqual(refused(header.index, 2).number, 33)
        self.assertEqual(refused(header.index, 0).number, 33)

    def test_a_header_without_ids_has_an_index_without_places(self):
        self.assertEqual(vcfh.Header(PROBE).index(0).find("contig", b"x"), (None, 0))


class Forms(unittest.TestCase):
    READERS = (vcfh.Header, vcfh.house_form, vcfh.Register, vcfh.dictionaries, vcfh.is_house)

    def test_a_line_too_long_for_the_first_form_is_read_in_the_second(self):
        header = long_line(vcfh.MAX_LINE[vcfh.FIRST] + 1)
        self.assertEqual([refused(call, header).number for call in self.READERS], [2] * len(self.READERS))
        self.assertEqual(vcfh.Header(header, form=vcfh.SECOND)[2].line, header.split(b"\n")[2].decode())
        self.assertEqual(vcfh.house_form(header, form=vcfh.SECOND), header)
        self.assertEqual(refused(vcfh.Register, header, form=vcfh.SECOND).number, 39)
        self.assertEqual(vcfh.dictionaries(header, form=vcfh.SECOND), ([], []))

    def test_the_second_form_has_a_limit_too(self):
        header = long_line(vcfh.MAX_LENGTH[vcfh.SECOND] - len(PROBE) - 1)
        self.assertEqual(vcfh.house_form(header, form=vcfh.SECOND), header)
        self.assertEqual(refused(vcfh.Header, header).number, 27)
        self.assertEqual(refused(vcfh.Header, header + b"\n", form=vcfh.SECOND).number, 27)

    def test_a_house_form_may_be_nearly_twice_as_long_as_the_header(self):
        header = PROBE.replace(b"K=0.98", b"Description=" + b"\\" * 30000)
        for form in (vcfh.FIRST, vcfh.SECOND):
            self.assertEqual(len(vcfh.house_form(header, form=form)), len(header) + 30000 + 2)

    def test_entries_turned_to_the_other_form_show_the_same_parts(self):
        lines = b'##contig=<length=007,ID="a">\n##b=text\n'
        first = vcfh.Header(b"##fileformat=VCFv4.3\n" + lines + COLUMNS + b"\tFORMAT\ts", (4, 4))
        second = first.to_form(vcfh.SECOND)
        for header, form in ((second, vcfh.SECOND), (second.to_form(vcfh.FIRST), vcfh.FIRST), (first.to_form(vcfh.FIRST), vcfh.FIRST)):
            self.assertEqual(shown(header), shown(first))
            self.assertEqual((header.odd(), header.version, header.lines, header.form), ([1], (4, 4), 4, form))

    def test_keys_and_numbers_of_fields_are_told_in_the_second_form(self):
        lines = b"##META=<ID=x,Values=[a,K=b]>\n##n=t\n"
        first = vcfh.Header(b"##fileformat=VCFv4.3\n" + lines + COLUMNS + b"\tFORMAT\ts")
        self.assertEqual([first.counted(n) for n in range(6)], [None] * 6)
        wanted = [("fileformat", 0), ("META", 2), ("n", 0), None, None, None]
        for header in (first.to_form(vcfh.SECOND), vcfh.Header(first.bytes, form=vcfh.SECOND)):
            self.assertEqual([header.counted(n) for n in range(6)], wanted)

    def test_turning_reads_lines_by_the_version_in_force(self):
        header = vcfh.Header(b"##fileformat=VCFv4.2\n##META=<ID=x,Values=[a,K=b]>\n" + COLUMNS, (4, 3))
        self.assertEqual(header.to_form(vcfh.SECOND).counted(1), ("META", 2))
        header.version = (4, 2)
        self.assertEqual(header.to_form(vcfh.SECOND).counted(1), ("META", 3))

    def test_entries_that_do_not_fit_the_first_form_are_not_turned(self):
        header = vcfh.Header(long_line(vcfh.MAX_LINE[vcfh.FIRST] + 1), form=vcfh.SECOND)
        self.assertEqual(refused(header.to_form, vcfh.FIRST).number, 32)

    def test_there_are_no_other_forms(self):
        for call in (*self.READERS, lambda data, form: vcfh.Header(data).to_form(form)):
            for form in (0, 3, None, "1"):
                with self.assertRaisesRegex(ValueError, "neither FIRST nor SECOND"):
                    call(PROBE, form=form)


class Pieces(unittest.TestCase):
    def received(self, pieces, *arguments, **named):
        feed = vcfh.Feed(*arguments, **named)
        for piece in pieces:
            feed.feed(piece)
        return feed.close()

    def test_a_header_is_the_same_however_it_is_cut(self):
        header = plate(lambda w: b"1.00")
        for form in (vcfh.FIRST, vcfh.SECOND):
            whole = vcfh.Header(header, form=form)
            for size in (1, 7, 100, 4096):
                got = self.received([header[at : at + size] for at in range(0, len(header), size)], form=form)
                self.assertEqual(shown(got), shown(whole))
                self.assertEqual((got.version, got.lines, got.form, len(got)), (whole.version, whole.lines, form, len(whole)))

    def test_a_header_is_read_by_the_version_imposed(self):
        meta = b"##fileformat=VCFv4.2\n##META=<ID=x,Values=[a,b]>\n" + COLUMNS
        self.assertEqual(self.received([meta[:30], b"", meta[30:]], (4, 3))[1].fields, {"ID": "x", "Values": "[a,b]"})
        self.assertEqual(refused(self.received, [meta]).number, 9)

    def test_a_line_is_refused_when_its_lf_comes_and_ever_after(self):
        feed = vcfh.Feed()
        self.assertEqual(feed.feed(TWICE[:-1]), (2, len(TWICE) - 1, 2))
        for call in (lambda: feed.feed(b"\n"), lambda: feed.feed(PROBE), feed.close):
            refusal = refused(call)
            self.assertEqual((refusal.number, refusal.line, refusal.start), (19, 3, 51))

    def test_what_is_left_at_the_close_is_the_last_line(self):
        self.assertEqual(len(self.received([PROBE[:-1]])), 3)
        self.assertEqual(refused(self.received, [PROBE[:-2]]).number, 22)
        self.assertEqual(refused(self.received, []).number, 25)

    def test_a_closed_header_stays_closed(self):
        feed = vcfh.Feed()
        feed.feed(PROBE)
        feed.close()
        self.assertEqual(feed.feed(b"##a=b\n"), (3, len(PROBE), 3))
        self.assertEqual(len(feed.close()), 3)

    def test_an_entry_that_somebody_changed_is_found_wherever_it_stands(self):
        contigs = b"".join(b"##contig=<ID=chr%03d,length=9>\n" % n for n in range(200))
        kept = b"##fileformat=VCFv4.3\n" + contigs
        faults = {  # of the two words of a contig's entry, which has kind 6, a line of 29 bytes, and an ID of six bytes at 13
            "no kind": lambda one, two: (one % 2**60, two),
            "kind 15": lambda one, two: (one | 15 << 60, two),
            "a text that has an ID": lambda one, two: (one % 2**60 + (8 << 60), two),
            "a line past the bytes held": lambda one, two: (one | 0xFFFF << 24, two),
            "a start past the bytes held": lambda one, two: (one | 0xFFFFF << 40, two),
            "an ID past its line": lambda one, two: (one, two | 0xFF << 32),
            "an offset past its line": lambda one, two: (one, two | 0xFF << 48),
            "a tag": lambda one, two: (one, two | 1 << 29),
            "a bit that no number has": lambda one, two: (one | 1, two),
            "another such bit": lambda one, two: (one, two | 1 << 28),
        }
        feed = vcfh.Feed()
        feed.feed(kept)
        for entry in (1, 63, 64, 65, 130, 199, 200):
            for name, fault in faults.items():
                with self.subTest(entry=entry, fault=name):
                    before = feed._table[2 * entry], feed._table[2 * entry + 1]
                    feed._table[2 * entry], feed._table[2 * entry + 1] = fault(*before)
                    self.assertEqual(refused(feed.feed, b"##a=b\n").number, 29)
                    feed._table[2 * entry], feed._table[2 * entry + 1] = before
        feed.feed(COLUMNS + b"\n")
        self.assertEqual(len(feed.close()), 202)

    def test_a_piece_past_the_limit_is_not_taken(self):
        longest = long_line(vcfh.MAX_LINE[vcfh.FIRST])
        feed = vcfh.Feed()
        feed.feed(longest)
        refusal = refused(feed.feed, b"x" * vcfh.MAX_LENGTH[vcfh.FIRST])
        self.assertEqual((refusal.number, refusal.line, refusal.start), (27, 0, 0))


class LongTest(unittest.TestCase):
    """Headers that are longer than the marks of names, or than one part of a header, reach."""

    @staticmethod
    def header(lines, columns=COLUMNS):
        return b"\n".join([b"##fileformat=VCFv4.3", *lines, columns]) + b"\n"

    def refused_at(self, number, lines, at):
        """Whole and in pieces, the header of these lines is refused at the line with this number among them, from 0."""
        data = self.header(lines)
        start = len(b"##fileformat=VCFv4.3\n") + sum(len(line) + 1 for line in lines[:at])
        feed = vcfh.Feed(form=vcfh.SECOND)
        pieces = [data[k : k + 700000] for k in range(0, len(data), 700000)]
        for refusal in (refused(vcfh.Header, data, form=vcfh.SECOND), refused(lambda: [feed.feed(piece) for piece in pieces])):
            self.assertEqual((refusal.number, refusal.line, refusal.start), (number, at + 2, start))

    def test_an_id_is_found_again_however_far_it_lies_back(self):
        lines = [b"##contig=<ID=scaffold_%06d,length=%d>" % (n, n + 1) for n in range(150000)]
        self.assertGreater(len(self.header(lines)), 4 << 20)
        self.assertEqual(len(vcfh.Header(self.header(lines), form=vcfh.SECOND)), 150002)
        for again, first in ((149999, 0), (149999, 149998), (120000, 30000), (40000, 0)):
            with self.subTest(again=again, first=first):
                self.refused_at(19, lines[:again] + [b'##contig=<length=7,ID=scaffold_%06d>' % first] + lines[again + 1 :], again)

    def test_an_id_between_quotes_or_with_escapes_is_found_again_too(self):
        lines = [b"##contig=<ID=scaffold_%06d,length=%d>" % (n, n + 1) for n in range(150000)]
        for first, again in (
            (b"scaffold_x", b'"scaffold_x"'),
            (rb'"scaf\\fold_x"', rb"scaf\fold_x"),
            (rb"scaf\fold_x", rb'"scaf\\fold_x"'),
            (rb'"scaf\"fold_x"', rb'"scaf\"fold_x"'),
        ):
            with self.subTest(again=again):
                self.refused_at(19, [b"##contig=<ID=%s>" % first, *lines, b"##contig=<ID=%s>" % again], 150001)
        self.refused_at(21, [b"##cell=<ID=W1,K=0.98>", *lines, b'##cell=<ID="W1",K=1.00>'], 150001)
        self.refused_at(20, [b"##cell=<ID=W1,K=0.98>", *lines, b"##cell=1.00"], 150001)

    def test_a_sample_is_found_again_among_very_many(self):
        names = [b"%d" % (1000000 + 7 * n) for n in range(200000)]
        header = lambda names: self.header([], COLUMNS + b"\tFORMAT\t" + b"\t".join(names))
        self.assertEqual(len(vcfh.Header(header(names), form=vcfh.SECOND).samples), 200000)
        for again, first in ((199999, 0), (199999, 199998), (100000, 99999), (1, 0)):
            with self.subTest(again=again, first=first):
                refusal = refused(vcfh.Header, header(names[:again] + [names[first]] + names[again + 1 :]), form=vcfh.SECOND)
                self.assertEqual((refusal.number, refusal.line), (23, 2))

    def test_the_house_form_of_very_many_keys(self):
        lines = [b"##k%d=x" % n for n in range(110000)]
        self.assertTrue(vcfh.is_house(self.header(lines), form=vcfh.SECOND))
        again = [b"##k%d=y" % n for n in (5, 109999, 0, 5)]
        formed = [line for n, one in enumerate(lines) for line in [one, *(a for a in again if a.startswith(b"##k%d=" % n))]]
        self.assertEqual(vcfh.house_form(self.header(lines + again), form=vcfh.SECOND), self.header(formed))

    def test_the_house_form_of_very_many_lines(self):
        """Keys by first appearance, each with its lines in order, whatever the keys are and however many."""
        for lines in (
            [b"##k%d=%d" % (n * n % 301, n) for n in range(120000)],
            [b"##k%d=%d" % (n * 7919 % 60000, n) for n in range(120000)],
            [b"##k%d=%d" % (n % 130000, n) for n in range(260000)],
            [b"##k%d=<ID=i%d>" % (n % 50, n) if n % 2 else b"##k%d=x" % (n % 50) for n in range(120000)],
        ):
            by_key = {}
            for line in lines:
                by_key.setdefault(line.split(b"=")[0], []).append(line)
            formed = self.header([line for key in by_key for line in by_key[key]])
            with self.subTest(first=lines[:3], lines=len(lines)):
                self.assertEqual(vcfh.house_form(self.header(lines), form=vcfh.SECOND), formed)
                self.assertEqual(vcfh.house_difference(self.header(lines), form=vcfh.SECOND), next(k for k, (a, b) in enumerate(zip(self.header(lines), formed)) if a != b))
                self.assertTrue(vcfh.is_house(formed, form=vcfh.SECOND))

    def test_a_map_is_found_beside_a_text_of_its_key_however_far_it_lies_back(self):
        lines = [b"##k%06d=%s" % (n, b"x" * 20) for n in range(150000)]
        self.assertEqual(len(vcfh.Header(self.header(lines), form=vcfh.SECOND)), 150002)
        for again, first in ((149999, 0), (149999, 149998), (120000, 30000)):
            with self.subTest(again=again, first=first):
                self.refused_at(20, lines[:again] + [b"##k%06d=<ID=a>" % first] + lines[again + 1 :], again)

    def test_an_id_with_parts_is_found_again(self):
        lines = [b"##contig=<ID=HG%05d#1#chr%d>" % (n // 25, n % 25) for n in range(150000)]
        self.assertEqual(len(vcfh.Header(self.header(lines), form=vcfh.SECOND)), 150002)
        for again, first in ((149999, 0), (120000, 30001), (149999, 149998)):
            with self.subTest(again=again, first=first):
                self.refused_at(19, lines[:again] + [lines[first]] + lines[again + 1 :], again)

    def test_an_id_that_differs_in_the_middle_is_found_again(self):
        lines = [rb'##contig=<ID="a#%06d\"c">' % n for n in range(150000)]
        self.assertEqual(len(vcfh.Header(self.header(lines), form=vcfh.SECOND)), 150002)
        for again, first in ((149999, 0), (120000, 30001)):
            with self.subTest(again=again, first=first):
                self.refused_at(19, lines[:again] + [lines[first][:-1] + b",length=7>"] + lines[again + 1 :], again)

    def test_names_of_all_sorts_are_found_again_in_small_pieces(self):
        """Each piece is far shorter than what stands before it, of which only a few names are marked for it."""
        lines = [line % n for n in range(1000) for line in (b"##contig=<ID=scaffold_%d>", b"##cell=<ID=W%d>", b"##map%d=<ID=a>", b"##text%d=x", b'##ALT=<ID="d_%d",Description="">')]
        data = self.header(lines)
        for form in (vcfh.FIRST, vcfh.SECOND):
            feed = vcfh.Feed(form=form)
            for k in range(0, len(data), 1500):
                feed.feed(data[k : k + 1500])
            self.assertEqual(shown(feed.close()), shown(vcfh.Header(data, form=form)))
            for number, line in (
                (19, b"##contig=<ID=scaffold_0,length=7>"), (19, b'##contig=<length=7,ID="scaffold_999">'), (19, b'##ALT=<ID=d_500,Description="">'),
                (21, b'##cell=<ID="W500",K=1.00>'), (21, b"##map0=<ID=a,K=1.00>"), (20, b"##map999=1.00"), (20, b"##text0=<ID=a>"), (20, b"##text999=<ID=b>"), (20, b"##cell=1.00"),
            ):
                with self.subTest(form=form, line=line):
                    more = self.header([*lines, line])
                    feed = vcfh.Feed(form=form)
                    refusal = refused(lambda: [feed.feed(more[k : k + 1500]) for k in range(0, len(more), 1500)])
                    self.assertEqual((refusal.number, refusal.line, refusal.start), (number, len(lines) + 2, more.rindex(line)))

    def test_the_house_form_of_lines_of_which_few_are_not_in_form(self):
        """Its size is that of the form's lines, which may be shorter or longer than those of the header."""
        lines = [b"##k%d=%s" % (n * 7919 % 301, b"" if n % 3 else b"x") for n in range(120000)]
        odd = {5: (b"##m=<K=1,ID=a>", b"##m=<ID=a,K=1>"), 60000: (b'##m=<ID="b">', b"##m=<ID=b>"), 119999: (b'##INFO=<ID=c,Number=01,Type=Flag,Description=d>', b'##INFO=<ID=c,Number=1,Type=Flag,Description="d">')}
        for odds in ({}, {5: odd[5]}, {60000: odd[60000]}, odd):
            given = [odds[n][0] if n in odds else line for n, line in enumerate(lines)]
            by_key = {}
            for n, line in enumerate(lines):
                line = odds[n][1] if n in odds else line
                by_key.setdefault(line.split(b"=")[0], []).append(line)
            typed = by_key.pop(b"##INFO", [])
            formed = self.header([*typed, *(line for key in by_key for line in by_key[key])])
            with self.subTest(odds=sorted(odds)):
                self.assertEqual(vcfh.house_form(self.header(given), form=vcfh.SECOND), formed)
                self.assertTrue(vcfh.is_house(formed, form=vcfh.SECOND))

    def test_the_dictionary_of_ids_in_several_kinds(self):
        filters = [b'##FILTER=<ID=q%d,Description="d">' % n for n in range(5000)]
        infos = [b'##INFO=<ID=q%d,Number=1,Type=Integer,Description="d">' % n for n in range(2500, 7500)]
        strings, contigs = vcfh.dictionaries(self.header(filters + infos), form=vcfh.SECOND)
        self.assertEqual(strings, [(n + 1, n + 1) for n in range(5000)] + [(n + 2501, n + 1) for n in range(5000, 7500)])
        self.assertEqual(contigs, [])


if __name__ == "__main__":
    unittest.main()

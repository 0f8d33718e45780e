//! The library through the safe functions.
use std::io::{self, Write};

use vcfh::{Difference, Entry, Feed, Form, Header, Kind, Refused, Register, Season, Version};

const COLUMNS: &str = "#CHROM\tPOS\tID\tREF\tALT\tQUAL\tFILTER\tINFO";

fn refused(header: &str) -> Refused {
    Header::read(header.as_bytes(), None).unwrap_err()
}

#[test]
fn the_probe_header_has_three_entries() {
    let bytes = format!("##fileformat=VCFv4.3\n##cell=<ID=W07,K=0.98>\n{COLUMNS}\n");
    let header = Header::read(bytes.as_bytes(), None).unwrap();
    let kinds: Vec<Kind> = header.entries().map(|entry| entry.kind()).collect();
    assert_eq!(kinds, [Kind::FileFormat, Kind::OtherMap, Kind::Columns]);
    assert_eq!(header.entry(1).unwrap().line(), "##cell=<ID=W07,K=0.98>");
    assert_eq!(header.entry(1).unwrap().id().unwrap(), "W07");
    assert!(header.entry(2).unwrap().id().is_none());
    assert!(header.entry(3).is_none());
    assert_eq!(header.lines(), 3);
}

#[test]
fn fields_are_shown_as_written() {
    let bytes = format!("##fileformat=VCFv4.3\n##cell=<K=\"0,98\",ID=W07>\n{COLUMNS}\n");
    let header = Header::read(bytes.as_bytes(), None).unwrap();
    assert_eq!(header.entry(1).unwrap().written().collect::<Vec<_>>(), ["K=\"0,98\"", "ID=W07"]);
    assert_eq!(header.entry(2).unwrap().written().count(), 0);
    assert_eq!(header.version(), Version::new(4, 3));
}

#[test]
fn a_header_is_its_house_form_or_differs_somewhere() {
    let plain = format!("##fileformat=VCFv4.3\n##cell=<ID=W07,K=0.98>\n{COLUMNS}\n");
    let quoted = format!("##fileformat=VCFv4.3\n##cell=<K=\"0.98\",ID=\"W07\">\n{COLUMNS}");
    assert!(vcfh::is_house(plain.as_bytes(), None).unwrap() && !vcfh::is_house(quoted.as_bytes(), None).unwrap());
    for form in [Form::First, Form::Second] {
        assert_eq!(vcfh::house_difference_in(plain.as_bytes(), None, form).unwrap(), None);
        assert_eq!(vcfh::house_difference_in(quoted.as_bytes(), None, form).unwrap(), Some(29));
        assert_eq!(vcfh::house_difference_in(&plain.as_bytes()[..plain.len() - 1], None, form).unwrap(), Some(plain.len() as u64 - 1));
        assert_eq!(vcfh::house_difference_in(plain.as_bytes(), Some(Version { major: 4, minor: 2 }), form).unwrap(), Some(19));
    }
    assert_eq!(vcfh::is_house(b"", None).unwrap_err().number, 25);
}

#[test]
fn headers_of_one_meaning_have_one_house_form() {
    let plain = format!("##fileformat=VCFv4.3\n##cell=<ID=W07,K=0.98>\n{COLUMNS}\n");
    let quoted = format!("##fileformat=VCFv4.3\n##cell=<K=\"0.98\",ID=\"W07\">\n{COLUMNS}");
    assert_eq!(vcfh::house_form(quoted.as_bytes(), None).unwrap(), plain.as_bytes());
    assert_eq!(vcfh::house_form(b"", None).unwrap_err().number, 25);
}

#[test]
fn dictionaries_number_strings_and_contigs() {
    let filters = "##FILTER=<ID=q,Description=x>\n##contig=<ID=c>\n##FILTER=<ID=PASS,Description=x>\n";
    let found = vcfh::dictionaries(format!("##fileformat=VCFv4.3\n{filters}{COLUMNS}").as_bytes(), None).unwrap();
    assert_eq!((found.strings, found.contigs), (vec![(1, 1), (3, 0)], vec![(2, 0)]));
    let mixed = format!("##fileformat=VCFv4.3\n##contig=<ID=a,IDX=1>\n##contig=<ID=b>\n{COLUMNS}");
    assert_eq!(vcfh::dictionaries(mixed.as_bytes(), None).unwrap_err(), Refused { number: 34, line: 0, start: 0 });
}

#[test]
fn samples_follow_the_column_line() {
    let bytes = format!("##fileformat=VCFv4.3\n{COLUMNS}\tFORMAT\tNA1\t\tNA2");
    let header = Header::read(bytes.as_bytes(), None).unwrap();
    let names: Vec<&str> = header.entries().filter(|entry| entry.kind() == Kind::Sample).map(|entry| entry.line()).collect();
    assert_eq!(names, ["NA1", "", "NA2"]);
}

#[test]
fn a_second_equal_id_is_refused_with_its_place_and_words() {
    let second = refused("##fileformat=VCFv4.3\n##FILTER=<ID=q,Description=x>\n##FILTER=<ID=\"q\",Description=x>\n");
    assert_eq!(second, Refused { number: 19, line: 3, start: 51 });
    assert_eq!(second.to_string(), "line 3, byte 51: the ID appears twice among the lines of its kind (refusal 19)");
}

#[test]
fn an_empty_header_is_refused() {
    assert_eq!(refused(""), Refused { number: 25, line: 0, start: 0 });
}

#[test]
fn the_version_imposed_is_the_one_in_force() {
    let bytes = format!("##fileformat=VCFv4.3\n##META=<ID=x,Values=[a,b]>\n{COLUMNS}\n");
    assert!(Header::read(bytes.as_bytes(), None).is_ok());
    let older = Header::read(bytes.as_bytes(), Some(Version { major: 4, minor: 2 }));
    assert_eq!(older.unwrap_err().number, 9);
}

#[test]
fn major_and_minor_of_the_version_imposed_are_told_apart() {
    let bytes = format!("##fileformat=VCFv4.2\n##META=<ID=x,Values=[a,b]>\n{COLUMNS}\n");
    let by = |major, minor| Some(Version { major, minor });
    assert!(Header::read(bytes.as_bytes(), by(4, 3)).is_ok());
    assert_eq!(Header::read(bytes.as_bytes(), None).unwrap_err().number, 9);
    assert_eq!(Header::read(bytes.as_bytes(), by(3, 4)).unwrap_err().number, 9);
    assert_eq!(vcfh::house_form(bytes.as_bytes(), by(4, 3)).unwrap(), bytes.replace("4.2", "4.3").as_bytes());
    assert_eq!(vcfh::house_form(bytes.as_bytes(), by(3, 4)).unwrap_err().number, 9);
}

#[test]
fn a_refused_house_form_has_its_line_and_start() {
    let bytes = b"##fileformat=VCFv4.3\n##FILTER=<ID=q,Description=x>\n##FILTER=<ID=\"q\",Description=x>\n";
    assert_eq!(vcfh::house_form(bytes, None).unwrap_err(), Refused { number: 19, line: 3, start: 51 });
}

#[test]
fn entry_and_field_are_told_apart() {
    let bytes = format!("##fileformat=VCFv4.3\n##b=text\n##c=<K=1,L=\"2,3\",ID=\"W07\">\n{COLUMNS}\n");
    let header = Header::read(bytes.as_bytes(), None).unwrap();
    let fields: Vec<Vec<&str>> = header.entries().map(|entry| entry.written().collect()).collect();
    assert_eq!(fields, [vec![], vec![], vec!["K=1", "L=\"2,3\"", "ID=\"W07\""], vec![]]);
}

#[test]
fn entries_with_oddly_spelled_numbers_are_listed() {
    let lines = "##contig=<ID=a,length=007>\n##contig=<ID=b,length=7>\n##contig=<ID=c,IDX=+5>\n";
    let bytes = format!("##fileformat=VCFv4.3\n{lines}{COLUMNS}\n");
    assert_eq!(Header::read(bytes.as_bytes(), None).unwrap().odd(), [1, 3]);
}

#[test]
fn every_number_has_its_own_words() {
    let mut words: Vec<&str> = (1..=43).map(|number| Refused { number, line: 0, start: 0 }.message()).collect();
    let none = Refused { number: 44, line: 0, start: 0 }.message();
    assert!(!words.contains(&none));
    words.sort();
    words.dedup();
    assert_eq!(words.len(), 43);
}

#[test]
fn utf8_is_told_from_other_bytes() {
    assert!(vcfh::is_utf8("Gr\u{fc}\u{df}e".as_bytes()) && vcfh::is_utf8(b""));
    assert!(!vcfh::is_utf8(b"\xc0\x80") && !vcfh::is_utf8(b"\xed\xa0\x80"));
}

fn plate(constant: impl Fn(u64) -> &'static str) -> String {
    let cells: String = (1..=40).map(|w| format!("##cell=<ID=W{w:02},K={}>\n", constant(w))).collect();
    format!("##fileformat=VCFv4.3\n{cells}{COLUMNS}\n")
}

#[test]
fn a_register_has_forty_constants_and_is_compared() {
    let old = Register::read(plate(|_| "1.00").as_bytes(), None).unwrap();
    let new = Register::read(plate(|w| if w == 7 { "0.98" } else { "1.00" }).as_bytes(), None).unwrap();
    assert_eq!(old.constants, [100; 40]);
    assert_eq!(old.compare(&new), [Difference { well: 7, old: 100, new: 98 }]);
    assert_eq!(old.compare(&old), []);
}

#[test]
fn a_factory_line_is_refused() {
    let header = plate(|_| "0.98").replace(COLUMNS, &format!("##cell=<ID=W07,K=1.00>\n{COLUMNS}"));
    let refused = Register::read(header.as_bytes(), None).unwrap_err();
    assert_eq!((refused.number, refused.line), (21, 42));
    assert_eq!(Register::read(plate(|_| "2.01").as_bytes(), None).unwrap_err(), Refused { number: 40, line: 2, start: 21 });
}

#[test]
fn contigs_are_written_of_an_alignment_header() {
    let sam = b"@HD\tVN:1.6\n@SQ\tSN:a,b\tLN:07\n@SQ\tUR:u\tLN:2\tM5:\"\tSN:c\r\n";
    let lines = "##contig=<ID=\"a,b\",length=7>\n##contig=<ID=c,length=2,md5=\"\\\"\",URL=u>\n";
    assert_eq!(vcfh::contigs(sam).unwrap(), lines.as_bytes());
    let header = format!("##fileformat=VCFv4.5\n{lines}{COLUMNS}\n");
    assert_eq!(Header::read(header.as_bytes(), None).unwrap().entries().count(), 4);
    let twice = [&sam[..], b"@SQ\tSN:c\tLN:1\n"].concat();
    assert_eq!(vcfh::contigs(&twice).unwrap_err(), Refused { number: 43, line: 4, start: sam.len() as u64 });
}

/// A header with a text line of so many bytes.
fn long_line(length: usize) -> String {
    format!("##fileformat=VCFv4.3\n##a={}\n{COLUMNS}\n", "x".repeat(length - 4))
}

#[test]
fn a_line_too_long_for_the_first_form_is_read_in_the_second() {
    let text = long_line(Form::First.max_line() + 1);
    let bytes = text.as_bytes();
    let too_long = Refused { number: 2, line: 2, start: 21 };
    assert_eq!(Header::read(bytes, None).unwrap_err(), too_long);
    assert_eq!(Header::read_in(bytes, None, Form::Second).unwrap().entry(1).unwrap().line(), text.lines().nth(1).unwrap());
    assert_eq!(vcfh::house_form(bytes, None).unwrap_err(), too_long);
    assert_eq!(vcfh::house_form_in(bytes, None, Form::Second).unwrap(), bytes);
    assert_eq!(Register::read(bytes, None).unwrap_err(), too_long);
    assert_eq!(Register::read_in(bytes, None, Form::Second).unwrap_err().number, 39);
    assert_eq!(vcfh::dictionaries(bytes, None).unwrap_err(), too_long);
    assert_eq!(vcfh::dictionaries_in(bytes, None, Form::Second).unwrap().strings, []);
}

#[test]
fn the_second_form_has_a_limit_too() {
    let longest = long_line(Form::Second.max_length() - long_line(4).len() + 4);
    assert_eq!(vcfh::house_form_in(longest.as_bytes(), None, Form::Second).unwrap(), longest.as_bytes());
    assert_eq!(refused(&longest).number, 27);
    assert_eq!(Header::read_in((longest + "\n").as_bytes(), None, Form::Second).unwrap_err().number, 27);
}

#[test]
fn a_house_form_may_be_nearly_twice_as_long_as_the_header() {
    let bytes = format!("##fileformat=VCFv4.3\n##cell=<ID=W07,Description={}>\n{COLUMNS}\n", "\\".repeat(30000));
    for form in [Form::First, Form::Second] {
        assert_eq!(vcfh::house_form_in(bytes.as_bytes(), None, form).unwrap().len(), bytes.len() + 30000 + 2);
    }
}

/// What a header shows of its entries.
fn shown(header: &Header) -> Vec<(Kind, String)> {
    let parts = |entry: &Entry| {
        format!(
            "{:?} {:?} {:?} {:?} {:?}",
            entry.line(),
            entry.key(),
            entry.id(),
            entry.fields().collect::<Vec<_>>(),
            entry.written().collect::<Vec<_>>()
        )
    };
    header.entries().map(|entry| (entry.kind(), parts(&entry))).collect()
}

#[test]
fn entries_turned_to_the_other_form_show_the_same_parts() {
    let bytes = format!("##fileformat=VCFv4.3\n##contig=<length=007,ID=\"a\">\n##b=text\n{COLUMNS}\tFORMAT\ts");
    let by = Version { major: 4, minor: 4 };
    let first = Header::read(bytes.as_bytes(), Some(by)).unwrap();
    let second = first.to_form(Form::Second).unwrap();
    let (back, same) = (second.to_form(Form::First).unwrap(), first.to_form(Form::First).unwrap());
    for (header, form) in [(&second, Form::Second), (&back, Form::First), (&same, Form::First)] {
        assert_eq!(shown(header), shown(&first));
        assert_eq!((header.odd(), header.version(), header.lines(), header.form()), (vec![1], by, 4, form));
    }
}

#[test]
fn keys_and_numbers_of_fields_are_told_in_the_second_form() {
    let bytes = format!("##fileformat=VCFv4.3\n##META=<ID=x,Values=[a,K=b]>\n##n=t\n{COLUMNS}\tFORMAT\ts");
    let first = Header::read(bytes.as_bytes(), None).unwrap();
    assert!(first.entries().all(|entry| entry.counted().is_none()));
    for header in [first.to_form(Form::Second).unwrap(), Header::read_in(bytes.as_bytes(), None, Form::Second).unwrap()] {
        let keys: Vec<_> = header.entries().map(|entry| entry.counted()).collect();
        assert_eq!(keys, [Some(("fileformat", 0)), Some(("META", 2)), Some(("n", 0)), None, None]);
    }
}

#[test]
fn turning_reads_lines_by_the_version_in_force() {
    let bytes = format!("##fileformat=VCFv4.2\n##META=<ID=x,Values=[a,K=b]>\n{COLUMNS}");
    for (version, fields) in [(None, 3), (Some(Version { major: 4, minor: 3 }), 2)] {
        let header = Header::read(bytes.as_bytes(), version).unwrap().to_form(Form::Second).unwrap();
        assert_eq!(header.entry(1).unwrap().counted(), Some(("META", fields)));
    }
}

#[test]
fn entries_that_do_not_fit_the_first_form_are_not_turned() {
    let bytes = long_line(Form::First.max_line() + 1);
    let header = Header::read_in(bytes.as_bytes(), None, Form::Second).unwrap();
    assert_eq!(header.to_form(Form::First).unwrap_err(), Refused { number: 32, line: 0, start: 0 });
}

#[test]
fn ids_are_found_by_kind_and_meaning() {
    let lines = "##FILTER=<ID=x,Description=d>\n##cell=<ID=x>\n##contig=<ID=\"a\\\"b\">\n##contig=<ID=x>\n";
    let bytes = format!("##fileformat=VCFv4.3\n{lines}{COLUMNS}\n");
    for form in [Form::First, Form::Second] {
        let header = Header::read_in(bytes.as_bytes(), None, form).unwrap();
        let index = header.index().unwrap();
        let found = |kind, id: &str| index.find(kind, id).0.map(|entry| entry.number());
        assert_eq!([found(Kind::Filter, "x"), found(Kind::Contig, "x"), found(Kind::Contig, "a\"b")], [Some(1), Some(4), Some(3)]);
        assert_eq!([found(Kind::Contig, "a\\\"b"), found(Kind::Info, "x"), found(Kind::OtherMap, "x")], [None, None, None]);
        assert_eq!(index.find(Kind::OtherMap, "x").1, 0);
        assert_eq!(header.index_of(3).unwrap().find(Kind::Contig, "y").1, 3);
        assert_eq!(header.index_of(2).unwrap_err(), Refused { number: 33, line: 0, start: 0 });
    }
}

#[test]
fn a_header_is_the_same_however_it_is_cut() {
    let bytes = format!("##fileformat=VCFv4.3\n##contig=<ID=a,length=5>\n##b=text\n{COLUMNS}\tFORMAT\ts\n");
    for form in [Form::First, Form::Second] {
        let whole = Header::read_in(bytes.as_bytes(), None, form).unwrap();
        for size in [1, 2, 20, 1000] {
            let mut feed = Feed::new_in(None, form);
            for piece in bytes.as_bytes().chunks(size) {
                feed.feed(&[]).unwrap();
                feed.feed(piece).unwrap();
            }
            let received = feed.close().unwrap();
            let header = received.header();
            assert_eq!(received.bytes(), bytes.as_bytes());
            assert_eq!(shown(&header), shown(&whole));
            assert_eq!((header.version(), header.lines(), header.form()), (whole.version(), whole.lines(), form));
        }
    }
}

#[test]
fn headers_of_a_season_are_counted_in_whatever_order() {
    let probe = format!("##fileformat=VCFv4.3\n##cell=<ID=W07,K=0.98>\n{COLUMNS}\tFORMAT\ta\tb\n");
    let twice = "##fileformat=VCFv4.3\n##FILTER=<ID=q,Description=x>\n##FILTER=<ID=q,Description=x>\n";
    let headers = [(probe.as_str(), Form::First), (twice, Form::Second), ("", Form::First), (&probe, Form::Second)];
    let (mut one, mut other) = (Season::default(), Season::default());
    let told: Vec<_> = headers.iter().map(|(header, form)| one.add_in(header.as_bytes(), None, *form).unwrap()).collect();
    assert_eq!(told, [None, Some(Refused { number: 19, line: 3, start: 51 }), Some(Refused { number: 25, line: 0, start: 0 }), None]);
    for (header, form) in headers.iter().rev() {
        other.add_in(header.as_bytes(), None, *form).unwrap();
    }
    assert_eq!(one, other);
    assert_eq!(
        (one.read(), one.accepted(), one.refused(19), one.refused(25), one.refused(24), one.refused(0), one.refused(28)),
        (4, 2, 1, 1, 0, 0, 0)
    );
    let kinds = [Kind::FileFormat, Kind::Filter, Kind::OtherMap, Kind::Columns, Kind::Sample];
    assert_eq!(kinds.map(|kind| one.entries(kind)), [2, 0, 2, 2, 4]);
}

#[test]
fn nothing_is_counted_where_a_total_would_be_too_large() {
    let bare = format!("##fileformat=VCFv4.3\n##a=<K=1>\n{COLUMNS}\n");
    let (mut all, mut power) = (Season::default(), Season::default());
    assert_eq!(power.add(bare.as_bytes(), Some(Version { major: 4, minor: 2 })), Ok(None));
    for _ in 0..63 {
        all.merge(&power).unwrap();
        power.merge(&power.clone()).unwrap();
    }
    all.merge(&power).unwrap();
    assert_eq!((all.read(), all.entries(Kind::OtherText)), (u64::MAX, u64::MAX));
    let (before, full) = (all, Refused { number: 30, line: 0, start: 0 });
    assert_eq!((all.merge(&power), all), (Err(full), before));
    assert_eq!((all.add(b"", None), all), (Err(full), before));
    let mut own = Season::default();
    assert_eq!(own.add(bare.as_bytes(), None).unwrap().unwrap().number, 14);
}

#[test]
fn a_line_is_refused_when_its_lf_comes_and_ever_after() {
    let twice = "##fileformat=VCFv4.3\n##FILTER=<ID=q,Description=x>\n##FILTER=<ID=\"q\",Description=x>";
    let refusal = Refused { number: 19, line: 3, start: 51 };
    let mut feed = Feed::new(None);
    feed.feed(twice.as_bytes()).unwrap();
    assert_eq!(feed.clone().close().unwrap_err(), refusal);
    assert_eq!(feed.feed(b"\n"), Err(refusal));
    assert_eq!(feed.feed(b""), Err(refusal));
    assert_eq!(feed.close().unwrap_err(), refusal);
}

#[test]
fn a_header_may_be_written_to_a_feed() {
    let bytes = format!("##fileformat=VCFv4.2\n##META=<ID=x,Values=[a,b]>\n{COLUMNS}\n");
    let mut feed = Feed::new(Some(Version { major: 4, minor: 3 }));
    io::copy(&mut bytes.as_bytes(), &mut feed).unwrap();
    feed.flush().unwrap();
    assert_eq!(feed.close().unwrap().header().lines(), 3);
    let error = io::copy(&mut bytes.as_bytes(), &mut Feed::new(None)).unwrap_err();
    assert_eq!(error.kind(), io::ErrorKind::InvalidData);
    assert_eq!(error.get_ref().unwrap().downcast_ref::<Refused>().unwrap().number, 9);
}

#[test]
fn a_piece_past_the_limit_is_not_taken() {
    let mut feed = Feed::new(None);
    assert_eq!(feed.feed(&vec![b'x'; Form::First.max_length() + 1]), Err(Refused { number: 27, line: 0, start: 0 }));
    assert_eq!(feed.close().unwrap_err().number, 27);
}

const LINES: &str = "##fileformat=VCFv4.3\n##b=text\n##c=<K=1,L=\"2,\\\"3\\\\\",ID=\"a\\\"b\">\n##c=<ID=\"x\",K=\"\">\n##c=<ID=\u{e9}\\,K=\\\">\n";

/// The lines above with two samples, in each form; expected values are read off the lines.
fn by_name(test: impl Fn(Header)) {
    let bytes = format!("{LINES}{COLUMNS}\tFORMAT\ts1\t##s2");
    for form in [Form::First, Form::Second] {
        test(Header::read_in(bytes.as_bytes(), None, form).unwrap());
    }
}

#[test]
fn entries_tell_key_id_and_quotes() {
    by_name(|header| {
        let told: Vec<_> = header.entries().map(|entry| (entry.kind(), entry.key(), entry.id().map(|id| (id.to_string(), id.is_quoted())))).collect();
        let id = |text: &str, quoted| Some((text.to_string(), quoted));
        let maps = [id("a\"b", true), id("x", true), id("\u{e9}\\", false)].map(|id| (Kind::OtherMap, Some("c"), id));
        assert_eq!(told[..2], [(Kind::FileFormat, Some("fileformat"), None), (Kind::OtherText, Some("b"), None)]);
        assert_eq!(told[2..5], maps);
        assert_eq!(told[5..], [(Kind::Columns, None, None), (Kind::Sample, None, None), (Kind::Sample, None, None)]);
        assert_eq!((header.samples().collect::<Vec<_>>(), header.samples().len(), header.len()), (vec!["s1", "##s2"], 2, 8));
        assert_eq!((header.entries().len(), (&header).into_iter().count(), header.version()), (8, 8, Version::new(4, 3)));
    });
}

#[test]
fn fields_are_told_apart() {
    by_name(|header| {
        let entry = header.entry(2).unwrap();
        let fields: Vec<_> =
            entry.fields().map(|field| (field.key, field.value.raw(), field.value.is_quoted(), field.value.meaning().into_owned())).collect();
        let wanted = [("K", "1", false, "1"), ("L", "2,\\\"3\\\\", true, "2,\"3\\"), ("ID", "a\\\"b", true, "a\"b")];
        assert_eq!(fields, wanted.map(|(key, raw, quoted, meaning)| (key, raw, quoted, meaning.to_string())));
        assert_eq!((header.entry(1).unwrap().fields().count(), header.entry(6).unwrap().fields().count()), (0, 0));
        assert!(entry.value("L").unwrap() == *"2,\"3\\" && entry.value("L").unwrap() != "2,\\\"3\\\\");
        assert!(entry.value("M").is_none() && header.entry(1).unwrap().value("K").is_none());
        assert_eq!(format!("[{:>5}]", entry.value("K").unwrap()), "[    1]");
    });
}

#[test]
fn values_are_had_by_key_id_and_field() {
    by_name(|header| {
        let number = |key, id| header.find(key, id).map(|entry| entry.number());
        assert_eq!([number("c", "a\"b"), number("c", "x"), number("c", "\u{e9}\\")], [Some(2), Some(3), Some(4)]);
        assert_eq!([number("c", "a\\\"b"), number("b", ""), number("d", "x"), number("", "x"), number("c", "")], [None; 5]);
        let texts = [("c", "a\"b", "L"), ("c", "x", "K"), ("c", "\u{e9}\\", "K"), ("c", "x", "L"), ("c", "y", "K")]
            .map(|(key, id, field)| header.text(key, id, field));
        assert_eq!(texts, [Some("2,\"3\\"), Some(""), Some("\\\""), None, None].map(|text| text.map(str::to_string)));
        assert_eq!(header.value("c", "x", "K").unwrap().meaning(), "");
    });
}

#[test]
fn the_header_of_a_whole_vcf_is_read() {
    let header = format!("{LINES}{COLUMNS}\n");
    let vcf = format!("{header}chr1\t7\n#CHROM\n");
    assert_eq!((vcfh::header_end(vcf.as_bytes()), vcfh::header_of(vcf.as_bytes())), (header.len(), header.as_bytes()));
    assert_eq!((vcfh::header_end(b""), vcfh::header_end(b"x\ny")), (0, 3));
    assert_eq!(Header::from_vcf(vcf.as_bytes(), Some(Version::new(4, 4))).unwrap().version().minor, 4);
    assert_eq!(Header::read(vcf.as_bytes(), None).unwrap_err().number, 1);
    assert_eq!(vcfh::read_header(vcf.as_bytes()).unwrap(), header.as_bytes());
    let long = long_line(300_000) + "chr1\t7\n";
    assert_eq!(vcfh::read_header(long.as_bytes()).unwrap(), long_line(300_000).as_bytes());
    assert!(vcfh::read_header(io::repeat(b'x')).unwrap().len() > Form::Second.max_length());
}

#[test]
fn a_refusal_says_its_sentence() {
    let refusal = refused("##fileformat=VCFv4.3\n##FILTER=<ID=q,Description=x>\n##FILTER=<ID=q,Description=x>\n");
    let sentence = "line 3, byte 51: the ID appears twice among the lines of its kind (refusal 19)";
    assert_eq!((refusal.to_string().as_str(), format!("{refusal:?}").as_str()), (sentence, sentence));
    assert_eq!(refused("").to_string(), "the input is empty (refusal 25)");
    assert_eq!(Refused { number: 0, line: 0, start: 0 }.message(), "no refusal has this number");
}

#[test]
fn the_version_in_force_is_told() {
    let bytes = format!("##fileformat=VCFv4.2\n{COLUMNS}\n");
    let told = |imposed| Header::read(bytes.as_bytes(), imposed).unwrap().version();
    assert_eq!((told(None), told(Some(Version::new(9, 7)))), (Version::new(4, 2), Version::new(9, 7)));
    assert_eq!(told(None).to_string(), "4.2");
}

//! What the parser of noodles-vcf answers, in document 01's terms.

use std::{error::Error, str::Utf8Error};

use noodles_vcf::header::{
    FileFormat, Header, ParseError, Parser,
    parser::FileFormatOption,
    record::value::{
        Collection,
        collection::AddError,
        map::{Inner, Map, format, info},
    },
};

use crate::Case;

pub struct Answer {
    pub number: u8,
    /// How many lines were read, the refused one among them.
    pub line: usize,
    /// The house form of what was read, or the refusal in the parser's own words.
    pub text: Vec<u8>,
}

pub fn answer(case: &Case) -> Answer {
    let (line, result) = parse_lines(&case.header, parser(case.imposed));

    if let Ok(s) = str::from_utf8(&case.header) {
        assert_eq!(parser(case.imposed).parse(s), result, "parse and parse_partial disagree");
    }

    match result {
        Ok(header) => Answer { number: 0, line, text: house_form(&header) },
        Err(e) => Answer { number: number(&e), line, text: words(&e).join(": ").into_bytes() },
    }
}

pub fn parser(imposed: Option<(u32, u32)>) -> Parser {
    let option = match imposed {
        None => FileFormatOption::Auto,
        Some((major, minor)) => FileFormatOption::FileFormat(FileFormat::new(major, minor)),
    };
    Parser::builder().set_file_format_option(option).build()
}

/// As `Parser::parse`, but of any bytes; with the number of lines read.
fn parse_lines(header: &[u8], mut parser: Parser) -> (usize, Result<Header, ParseError>) {
    let mut count = 0;
    for line in lines(header) {
        count += 1;
        if let Err(e) = parser.parse_partial(line) {
            return (count, Err(e));
        }
    }
    (count, parser.finish())
}

/// As `str::lines`, but of any bytes.
fn lines(header: &[u8]) -> impl Iterator<Item = &[u8]> {
    header.split_inclusive(|&b| b == b'\n').map(|line| match line.strip_suffix(b"\n") {
        Some(line) => line.strip_suffix(b"\r").unwrap_or(line),
        None => line,
    })
}

/// The refusal and its sources, outermost first, in their own words.
fn words(e: &ParseError) -> Vec<String> {
    sources(e).map(|e| e.to_string()).collect()
}

fn sources(e: &ParseError) -> impl Iterator<Item = &(dyn Error + 'static)> {
    std::iter::successors(Some(e as &(dyn Error + 'static)), |&e| e.source())
}

/// Document 01's number of a refusal; 8 stands for 8 and 9.
pub fn number(e: &ParseError) -> u8 {
    if sources(e).any(|e| e.is::<Utf8Error>()) {
        return 3;
    }
    match e {
        ParseError::ExpectedEof => 1,
        ParseError::MissingFileFormat => 4,
        ParseError::UnexpectedFileFormat => 5,
        ParseError::InvalidRecord(_) => record_number(&words(e)),
        ParseError::DuplicateInfoId(_)
        | ParseError::DuplicateFilterId(_)
        | ParseError::DuplicateFormatId(_)
        | ParseError::DuplicateAlternativeAlleleId(_)
        | ParseError::DuplicateContigId(_) => 19,
        ParseError::InvalidRecordValue(AddError::TypeMismatch) => 20,
        ParseError::InvalidRecordValue(AddError::DuplicateId(_)) => 21,
        ParseError::InvalidHeader(..) => 22,
        ParseError::DuplicateSampleName(_) => 23,
        ParseError::Empty => 25,
        ParseError::MissingHeader => 26,
        ParseError::InvalidUtf8(_) | ParseError::StringMapPositionMismatch(..) => unreachable!("{e}"),
    }
}

/// The types of a record's refusals are private, so it is told by its words: `invalid record`, then whether its prefix,
/// key or value is at fault, then the kind of the value, then what is wrong with it.
fn record_number(words: &[String]) -> u8 {
    let at = |i: usize| words.get(i).map(String::as_str).unwrap_or_default();
    match at(1) {
        "missing prefix" | "invalid key" => return 6,
        "invalid value" => {}
        _ => unreachable!("{words:?}"),
    }
    if at(2) == "invalid fileformat" {
        return 7;
    }
    if at(2).starts_with("INFO definition mismatch") || at(2).starts_with("FORMAT definition mismatch") {
        return 18;
    }
    match at(3) {
        "invalid map" | "invalid field" | "invalid key" | "invalid value" => 8,
        s if s.starts_with("invalid other: ") => 8,
        s if s.starts_with("duplicate tag: ") => 10,
        "invalid number" => 11,
        "invalid type" => 12,
        "invalid IDX" | "invalid length" => 13,
        "missing ID" => 14,
        "missing number" => 15,
        "missing type" => 16,
        "missing description" => 17,
        _ => unreachable!("{words:?}"),
    }
}

/// Document 01's house form. The parser forgets whether FORMAT stood, so here it stands if a sample does.
fn house_form(header: &Header) -> Vec<u8> {
    let version = header.file_format();
    let mut form = Vec::new();
    put_line(&mut form, format!("##fileformat=VCFv{}.{}", version.major(), version.minor()));

    for (id, map) in header.infos() {
        let mut fields = vec![field("ID", id)];
        fields.push(plain("Number", info_number(map.number())));
        fields.push(field("Type", &map.ty().to_string()));
        fields.push(field("Description", map.description()));
        fields.extend(map.idx().map(|n| plain("IDX", n)));
        put_map(&mut form, "INFO", fields, map);
    }
    for (id, map) in header.filters() {
        let mut fields = vec![field("ID", id), field("Description", map.description())];
        fields.extend(map.idx().map(|n| plain("IDX", n)));
        put_map(&mut form, "FILTER", fields, map);
    }
    for (id, map) in header.formats() {
        let mut fields = vec![field("ID", id)];
        fields.push(plain("Number", format_number(map.number())));
        fields.push(field("Type", &map.ty().to_string()));
        fields.push(field("Description", map.description()));
        fields.extend(map.idx().map(|n| plain("IDX", n)));
        put_map(&mut form, "FORMAT", fields, map);
    }
    for (id, map) in header.alternative_alleles() {
        put_map(&mut form, "ALT", vec![field("ID", id), field("Description", map.description())], map);
    }
    for (id, map) in header.contigs() {
        let mut fields = vec![field("ID", id)];
        fields.extend(map.length().map(|n| plain("length", n)));
        fields.extend(map.md5().map(|s| field("md5", s)));
        fields.extend(map.url().map(|s| field("URL", s)));
        fields.extend(map.idx().map(|n| plain("IDX", n)));
        put_map(&mut form, "contig", fields, map);
    }
    for (key, collection) in header.other_records() {
        put_others(&mut form, key.as_ref(), collection, version);
    }

    let samples: Vec<&str> = header.sample_names().iter().map(String::as_str).collect();
    let mut columns = vec!["#CHROM", "POS", "ID", "REF", "ALT", "QUAL", "FILTER", "INFO"];
    if !samples.is_empty() {
        columns.push("FORMAT");
    }
    columns.extend(samples);
    put_line(&mut form, columns.join("\t"));
    form
}

fn put_line(form: &mut Vec<u8>, line: String) {
    let ending = if line.ends_with('\r') { "\r\n" } else { "\n" };
    form.extend(line.bytes().chain(ending.bytes()));
}

fn put_others(form: &mut Vec<u8>, key: &str, collection: &Collection, version: FileFormat) {
    match collection {
        Collection::Unstructured(texts) => {
            for text in texts {
                put_line(form, format!("##{key}={text}"));
            }
        }
        Collection::Structured(maps) => {
            for (id, map) in maps {
                let mut fields = vec![field(map.id_name(), id)];
                for (name, value) in map.other_fields() {
                    let bracketed = key == "META" && name.as_ref() == "Values" && version >= FileFormat::new(4, 3);
                    fields.push(if bracketed && value.starts_with('[') {
                        values(name.as_ref(), value)
                    } else {
                        field(name.as_ref(), value)
                    });
                }
                put_line(form, format!("##{key}=<{}>", fields.join(",")));
            }
        }
    }
}

fn put_map<I: Inner>(form: &mut Vec<u8>, key: &str, mut fields: Vec<String>, map: &Map<I>) {
    for (name, value) in map.other_fields() {
        fields.push(field(name.as_ref(), value));
    }
    put_line(form, format!("##{key}=<{}>", fields.join(",")));
}

fn plain<T: ToString>(key: &str, value: T) -> String {
    format!("{key}={}", value.to_string())
}

fn field(key: &str, value: &str) -> String {
    if key == "Description" || value.starts_with('"') || value.contains([',', '>']) {
        plain(key, quoted(value))
    } else {
        plain(key, value)
    }
}

fn values(key: &str, value: &str) -> String {
    if value.find(']') == Some(value.len() - 1) { plain(key, value) } else { plain(key, quoted(value)) }
}

fn quoted(value: &str) -> String {
    format!("\"{}\"", value.replace('\\', "\\\\").replace('"', "\\\""))
}

fn info_number(number: info::Number) -> String {
    use info::Number::*;
    match number {
        Count(n) => n.to_string(),
        AlternateBases => "A".into(),
        ReferenceAlternateBases => "R".into(),
        Samples => "G".into(),
        Unknown => ".".into(),
    }
}

fn format_number(number: format::Number) -> String {
    use format::Number::*;
    match number {
        Count(n) => n.to_string(),
        AlternateBases => "A".into(),
        ReferenceAlternateBases => "R".into(),
        Samples => "G".into(),
        Unknown => ".".into(),
        LocalAlternateBases => "LA".into(),
        LocalReferenceAlternateBases => "LR".into(),
        LocalSamples => "LG".into(),
        Ploidy => "P".into(),
        BaseModifications => "M".into(),
    }
}

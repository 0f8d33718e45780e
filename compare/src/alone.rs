//! The three files that need nothing but the standard library, `memchr` and a pair of numbers for the version, each on
//! its own. A line each: what was asked, the input, `ok` and what was read, or `refused` and why.

use std::io::{self, Write};

use crate::{
    generate::{Random, each_of},
    text::escape,
};

mod string {
    include!(concat!(env!("SOURCES"), "/src/header/parser/record/value/map/field/value/string.rs"));
}

/// Its parent sees what the sources' own parent of the file sees.
mod maps {
    pub mod string_map {
        include!(concat!(env!("SOURCES"), "/src/header/string_maps/string_map.rs"));
    }

    use string_map::StringMap;

    pub enum Step {
        Insert(&'static str),
        InsertAt(usize, &'static str),
    }

    pub fn take(map: &mut StringMap, step: &Step) -> Option<String> {
        match *step {
            Step::Insert(value) => map.insert(value.into()),
            Step::InsertAt(i, value) => map.insert_at(i, value.into()),
        }
    }

    pub fn full<'a>(map: &'a StringMap, value: &str) -> Option<(usize, &'a str)> {
        map.get_full(value)
    }
}

mod file_format {
    include!(concat!(env!("SOURCES"), "/src/header/parser/record/value/string/file_format.rs"));
}

const NAMES: [&str; 3] = ["a", "b", "PASS"];

pub fn show<W: Write>(out: &mut W, count: u64, seed: u64) -> io::Result<()> {
    let tokens: &[&[u8]] = &[b"a", b",", b">", b"\"", b"\\", b"\xc3", b"\xa9"];
    each_of(tokens, 6, &mut |input| values(out, input))?;
    let tokens: &[&[u8]] = &[b"VCFv", b".", b"4", b"0", b"+", b"\xff", b"4294967295", b"4294967296"];
    each_of(tokens, 5, &mut |input| version(out, input))?;

    let mut random = Random::new(seed);
    for _ in 0..count {
        map(out, &mut random)?;
    }
    Ok(())
}

fn values<W: Write>(out: &mut W, input: &[u8]) -> io::Result<()> {
    let mut rest = input;
    let raw = string::parse_raw_string(&mut rest).map(|s| (s.to_string(), rest.len())).map_err(|e| e.to_string());
    value(out, "bare", input, raw)?;

    let mut rest = input;
    let quoted =
        string::parse_escaped_string(&mut rest).map(|s| (s.to_string(), rest.len())).map_err(|e| e.to_string());
    value(out, "quoted", input, quoted)
}

fn value<W: Write>(out: &mut W, what: &str, input: &[u8], read: Result<(String, usize), String>) -> io::Result<()> {
    match read {
        Ok((s, left)) => writeln!(out, "{what}\t{}\tok\t{}\t{left}", escape(input), escape(s.as_bytes())),
        Err(e) => writeln!(out, "{what}\t{}\trefused\t{}", escape(input), escape(e.as_bytes())),
    }
}

fn version<W: Write>(out: &mut W, input: &[u8]) -> io::Result<()> {
    match file_format::parse_file_format(input) {
        Ok(v) => writeln!(out, "version\t{}\tok\t{}.{}", escape(input), v.major(), v.minor()),
        Err(e) => writeln!(out, "version\t{}\trefused\t{e}", escape(input)),
    }
}

/// A few insertions, what each replaced, and the map after them.
fn map<W: Write>(out: &mut W, random: &mut Random) -> io::Result<()> {
    let mut map = maps::string_map::StringMap::default();
    let mut steps = Vec::new();
    let mut replaced = Vec::new();

    for _ in 0..1 + random.below(5) {
        let name = NAMES[random.below(NAMES.len())];
        let step = match random.below(2) {
            0 => maps::Step::Insert(name),
            _ => maps::Step::InsertAt(random.below(4), name),
        };
        steps.push(match step {
            maps::Step::Insert(name) => name.to_string(),
            maps::Step::InsertAt(i, name) => format!("{name}@{i}"),
        });
        replaced.push(or_dash(maps::take(&mut map, &step)));
    }

    let places: Vec<String> = (0..5).map(|i| or_dash(map.get_index(i))).collect();
    let numbers: Vec<String> = NAMES.iter().map(|name| or_dash(map.get_index_of(name))).collect();
    let fulls: Vec<String> =
        NAMES.iter().map(|name| or_dash(maps::full(&map, name).map(|(i, s)| format!("{i}{s}")))).collect();
    writeln!(
        out,
        "map\t{}\t{}\t{}\t{}\t{}",
        steps.join(" "),
        replaced.join(" "),
        places.join(" "),
        numbers.join(" "),
        fulls.join(" ")
    )
}

fn or_dash<T: ToString>(value: Option<T>) -> String {
    value.map(|v| v.to_string()).unwrap_or_else(|| "-".into())
}

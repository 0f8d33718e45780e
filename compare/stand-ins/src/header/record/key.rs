// Stand-in: this file is not among the sources given. Written from document 01, for the comparison alone.
//! Keys fileformat, INFO, FILTER, FORMAT, ALT, contig are typed.

pub mod other;

use std::fmt;

pub use self::other::Other;

#[derive(Clone, Copy, Debug, Eq, PartialEq)]
pub enum Standard {
    FileFormat,
    Info,
    Filter,
    Format,
    AlternativeAllele,
    Contig,
}

#[derive(Clone, Debug, Eq, PartialEq)]
pub enum Key {
    Standard(Standard),
    Other(Other),
}

pub const FILE_FORMAT: Key = Key::Standard(Standard::FileFormat);
pub const INFO: Key = Key::Standard(Standard::Info);
pub const FILTER: Key = Key::Standard(Standard::Filter);
pub const FORMAT: Key = Key::Standard(Standard::Format);
pub const ALTERNATIVE_ALLELE: Key = Key::Standard(Standard::AlternativeAllele);
pub const CONTIG: Key = Key::Standard(Standard::Contig);

impl From<&str> for Key {
    fn from(s: &str) -> Self {
        match s {
            "fileformat" => FILE_FORMAT,
            "INFO" => INFO,
            "FILTER" => FILTER,
            "FORMAT" => FORMAT,
            "ALT" => ALTERNATIVE_ALLELE,
            "contig" => CONTIG,
            _ => Key::Other(Other(s.into())),
        }
    }
}

impl fmt::Display for Key {
    fn fmt(&self, f: &mut fmt::Formatter<'_>) -> fmt::Result {
        f.write_str(match self {
            Key::Standard(Standard::FileFormat) => "fileformat",
            Key::Standard(Standard::Info) => "INFO",
            Key::Standard(Standard::Filter) => "FILTER",
            Key::Standard(Standard::Format) => "FORMAT",
            Key::Standard(Standard::AlternativeAllele) => "ALT",
            Key::Standard(Standard::Contig) => "contig",
            Key::Other(Other(s)) => s,
        })
    }
}

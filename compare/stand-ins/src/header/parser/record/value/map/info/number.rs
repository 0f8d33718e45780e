// Stand-in: this file is not among the sources given. Written from document 01, for the comparison alone.
use std::num;

use crate::header::record::value::map::info::Number;

pub type ParseError = num::ParseIntError;

pub(super) fn parse_number(s: &str) -> Result<Number, ParseError> {
    match s {
        "A" => Ok(Number::AlternateBases),
        "R" => Ok(Number::ReferenceAlternateBases),
        "G" => Ok(Number::Samples),
        "." => Ok(Number::Unknown),
        _ => s.parse().map(Number::Count),
    }
}

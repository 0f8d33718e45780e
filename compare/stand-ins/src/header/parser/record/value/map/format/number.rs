// Stand-in: this file is not among the sources given. Written from documents 01 and 02, for the comparison alone.
use std::num;

use crate::header::{FileFormat, record::value::map::format::Number};

pub type ParseError = num::ParseIntError;

pub(super) fn parse_number(s: &str, file_format: FileFormat) -> Result<Number, ParseError> {
    match s {
        "A" => Ok(Number::AlternateBases),
        "R" => Ok(Number::ReferenceAlternateBases),
        "G" => Ok(Number::Samples),
        "." => Ok(Number::Unknown),
        "LA" if file_format >= FileFormat::new(4, 5) => Ok(Number::LocalAlternateBases),
        "LR" if file_format >= FileFormat::new(4, 5) => Ok(Number::LocalReferenceAlternateBases),
        "LG" if file_format >= FileFormat::new(4, 5) => Ok(Number::LocalSamples),
        "P" if file_format >= FileFormat::new(4, 4) => Ok(Number::Ploidy),
        "M" if file_format >= FileFormat::new(4, 5) => Ok(Number::BaseModifications),
        _ => s.parse().map(Number::Count),
    }
}

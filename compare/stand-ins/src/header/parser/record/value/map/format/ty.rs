// Stand-in: this file is not among the sources given. Written from document 01, for the comparison alone.
use std::{error, fmt};

use crate::header::record::value::map::format::Type;

#[derive(Clone, Debug, Eq, PartialEq)]
pub struct ParseError;

impl error::Error for ParseError {}

impl fmt::Display for ParseError {
    fn fmt(&self, f: &mut fmt::Formatter<'_>) -> fmt::Result {
        write!(f, "invalid type")
    }
}

pub(super) fn parse_type(s: &str) -> Result<Type, ParseError> {
    match s {
        "Integer" => Ok(Type::Integer),
        "Float" => Ok(Type::Float),
        "Character" => Ok(Type::Character),
        "String" => Ok(Type::String),
        _ => Err(ParseError),
    }
}

// Stand-in: this file is not among the sources given. Written from document 01, for the comparison alone.
//! A value that begins `"` is quoted, any other is bare.

mod string;

use std::{borrow::Cow, error, fmt};

use self::string::{parse_escaped_string, parse_raw_string};

#[derive(Clone, Debug, Eq, PartialEq)]
pub enum ParseError {
    InvalidString(string::ParseError),
}

impl error::Error for ParseError {
    fn source(&self) -> Option<&(dyn error::Error + 'static)> {
        match self {
            Self::InvalidString(e) => Some(e),
        }
    }
}

impl fmt::Display for ParseError {
    fn fmt(&self, f: &mut fmt::Formatter<'_>) -> fmt::Result {
        match self {
            Self::InvalidString(_) => write!(f, "invalid string"),
        }
    }
}

pub fn parse_value<'a>(src: &mut &'a [u8]) -> Result<Cow<'a, str>, ParseError> {
    if let Some(rest) = src.strip_prefix(b"\"") {
        *src = rest;
        parse_escaped_string(src)
    } else {
        parse_raw_string(src).map(Cow::from)
    }
    .map_err(ParseError::InvalidString)
}

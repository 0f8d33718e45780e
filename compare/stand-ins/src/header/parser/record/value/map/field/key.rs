// Stand-in: this file is not among the sources given. Written from document 01, for the comparison alone.
//! A field key is one byte or more before `=`, without `,` `<` `>` `"`.

use std::{error, fmt, str};

use memchr::memchr;

#[derive(Clone, Debug, Eq, PartialEq)]
pub enum ParseError {
    MissingDelimiter,
    InvalidKey,
    InvalidUtf8(str::Utf8Error),
}

impl error::Error for ParseError {
    fn source(&self) -> Option<&(dyn error::Error + 'static)> {
        match self {
            Self::InvalidUtf8(e) => Some(e),
            _ => None,
        }
    }
}

impl fmt::Display for ParseError {
    fn fmt(&self, f: &mut fmt::Formatter<'_>) -> fmt::Result {
        match self {
            Self::MissingDelimiter => write!(f, "missing delimiter"),
            Self::InvalidKey => write!(f, "invalid key"),
            Self::InvalidUtf8(_) => write!(f, "invalid UTF-8"),
        }
    }
}

pub fn parse_key<'a>(src: &mut &'a [u8]) -> Result<&'a str, ParseError> {
    let i = memchr(b'=', src).ok_or(ParseError::MissingDelimiter)?;
    let (key, rest) = src.split_at(i);

    if key.is_empty() || key.iter().any(|b| b",<>\"".contains(b)) {
        return Err(ParseError::InvalidKey);
    }

    *src = &rest[1..];
    str::from_utf8(key).map_err(ParseError::InvalidUtf8)
}

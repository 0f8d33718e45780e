// Stand-in: this file is not among the sources given. Written from document 01, for the comparison alone.
//! A key of one byte or more up to the first `=`.

use std::{error, fmt, str};

use memchr::memchr;

use crate::header::record::Key;

#[derive(Clone, Debug, Eq, PartialEq)]
pub enum ParseError {
    MissingDelimiter,
    Empty,
    InvalidUtf8(str::Utf8Error),
}

impl error::Error for ParseError {
    fn source(&self) -> Option<&(dyn error::Error + 'static)> {
        match self {
            Self::InvalidUtf8(e) => Some(e),
            _ => None,
        }
    }
}

impl fmt::Display for ParseError {
    fn fmt(&self, f: &mut fmt::Formatter<'_>) -> fmt::Result {
        match self {
            Self::MissingDelimiter => write!(f, "missing delimiter"),
            Self::Empty => write!(f, "empty key"),
            Self::InvalidUtf8(_) => write!(f, "invalid UTF-8"),
        }
    }
}

pub(super) fn parse_key(src: &mut &[u8]) -> Result<Key, ParseError> {
    let i = memchr(b'=', src).ok_or(ParseError::MissingDelimiter)?;

    if i == 0 {
        return Err(ParseError::Empty);
    }

    let key = str::from_utf8(&src[..i]).map_err(ParseError::InvalidUtf8)?;
    *src = &src[i + 1..];
    Ok(Key::from(key))
}
